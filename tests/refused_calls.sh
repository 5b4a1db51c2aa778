#!/usr/bin/env bash
# Makes each allocation of each call of the program `check_refused_calls` fail in turn, and at last none. The program makes calls that no
# line of a script makes, each between lines `begin` and `end` on its standard error. It prints a line for each: its result and what it
# left. If no allocation fails, these are the lines of its `stdout`. If one fails, the line of its call must be that of
# tests/refused_calls.txt, and all other lines must stay.
#
# That file has a line for each call, in their order. '-' is a call that must make no request. '? ' begins the line of a call that builds a
# tree in one go, and '?4 ' that of a call that builds four. Each such tree may do without one of its requests: std's `collect` asks for
# the room that the iterator's hint names, and if that fails, for the room of one item. The last line is 'N passed, M failed'.
#
# REFUSED_CALLS_PROGRAM names the program; without it the one that the gate built is taken.
set -euo pipefail
here="$(cd "$(dirname "${BASH_SOURCE[0]}")" && pwd)"
source "$here/judge.sh"
program="${REFUSED_CALLS_PROGRAM:-$here/../crates/check_refused_calls/out/check_refused_calls}"
make_refuse

mapfile -t made <"$here/../crates/check_refused_calls/stdout"
mapfile -t kept <"$here/refused_calls.txt"

# Runs the program with the failure of one request, 0 for none: `got` is its output and its status, `told` what the preloaded code
# says: how many requests there were, and in which call one failed.
run() {
    local status=0
    REFUSE_NTH=$1 REFUSE_TELL=1 LD_PRELOAD="$work/refuse.so" "$program" >"$work/got" 2>"$work/told" || status=$?
    mapfile -t got <"$work/got"
    got+=("status $status")
    requests="$(sed -n 's/^requests=//p' "$work/told")"
    call="$(sed -n 's/^refused in call //p' "$work/told")"
}

# Compares each line of a run with the expected line.
judge_lines() { # what was run
    local place
    judge "${#wanted[@]} lines" "${#got[@]} lines" "$1"
    for place in "${!wanted[@]}"; do judge "${wanted[place]}" "${got[place]:-}" "$1"; done
}

judge "${#made[@]}" "${#kept[@]}" "lines of refused_calls.txt"
run 0
wanted=("${made[@]}" "status 0")
judge_lines "none refused"
refusals=("${made[@]/*/0}") spared=("${made[@]/*/0}")
for ((nth = 1, all = requests; nth <= all; nth++)); do
    run "$nth"
    wanted=("${made[@]}" "status 0")
    place=$((call - 1))
    trees=0 line="${kept[place]}"
    if [[ "$line" =~ ^\?([0-9]*)\ (.*) ]]; then trees="${BASH_REMATCH[1]:-1}" line="${BASH_REMATCH[2]}"; fi
    if [ "${got[place]}" = "${made[place]}" ] && [ "${spared[place]}" -lt "$trees" ]; then
        spared[place]=$((spared[place] + 1))
    else
        wanted[place]="$line"
        refusals[place]=$((refusals[place] + 1))
    fi
    judge_lines "request $nth of $all refused"
done
for place in "${!kept[@]}"; do
    if [ "${kept[place]}" = - ]; then continue; fi
    judge yes "$([ "${refusals[place]}" -gt 0 ] && echo yes || echo no)" "a request that '${made[place]}' needs"
done
tell
