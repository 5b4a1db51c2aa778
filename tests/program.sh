#!/usr/bin/env bash
# Runs the program on texts, and compares its output and exit status: for an invalid line after each count of lines, no text, an input that
# can't be read, an output that can't be written, and each allocation failing in turn. If an allocation fails, the output is that of some
# first lines, and then `out of memory`. The program may do without one of its allocations. The last line is 'N passed, M failed'.
# RANGEMAP_PROGRAM names the program; without it `./prove rangemap` builds one if needed.
set -euo pipefail
here="$(cd "$(dirname "${BASH_SOURCE[0]}")" && pwd)"
source "$here/judge.sh"
program="${RANGEMAP_PROGRAM:-$here/../crates/rangemap/out/rangemap}"
[ -n "${RANGEMAP_PROGRAM:-}" ] || "$here/../prove" rangemap

make_refuse

# What the program prints of a file, and its status. (A command's output loses its last LFs, so the status comes last.)
run() { # a file
    local status=0
    "$program" <"$1" 2>/dev/null || status=$?
    echo "status $status"
}

lines=('paint 1 3 red' 'paint 7 10 blue' 'at 5' 'at 2' 'get 4' 'insert 8 red' 'len' 'list' 'fill 0 12 green' 'list')
answers=('true' 'true' '4..=6 -' '1..=3 red' '-' 'blue' '7'
    '(1..=3, "red"), (7..=7, "blue"), (8..=8, "red"), (9..=10, "blue")' 'true'
    '(0..=0, "green"), (1..=3, "red"), (4..=6, "green"), (7..=7, "blue"), (8..=8, "red"), (9..=10, "blue"), (11..=12, "green")')
text="$work/text"
all="$(printf '%s\n' "${answers[@]}" 'status 0')"

# ---- Texts
for ((count = 0; count <= ${#lines[@]}; count++)); do
    printf '%s\n' "${lines[@]:0:count}" 'get x' "${lines[@]:count}" >"$text"
    judge "$(printf '%s\n' "${answers[@]:0:count}" "error line $((count + 1))" 'status 2')" "$(run "$text")" \
        "a bad line after $count lines"
done
judge 'status 0' "$(run /dev/null)" 'no text'
printf '%s\n' "${lines[@]}" >"$text"
judge "$all" "$(run "$text")" 'all lines'
printf '%s\n' 'paint 2 3 a' 'paint 6 6 b' 'fill 0 9 z' 'fill 0 9 y' 'list' >"$text"
judge "$(printf '%s\n' true true true false \
    '(0..=1, "z"), (2..=3, "a"), (4..=5, "z"), (6..=6, "b"), (7..=9, "z")' 'status 0')" "$(run "$text")" 'fills'
printf 'fill 1 2\n' >"$text"
judge "$(printf '%s\n' 'error line 1' 'status 2')" "$(run "$text")" 'a fill without a word'
printf '%s\n' "${lines[@]}" >"$text"

# ---- Faults
judge 'status 1' "$(run "$work")" 'a folder as input'
status=0
"$program" <"$text" >/dev/full || status=$?
judge 1 "$status" 'an output that is full'

# ---- Failed allocations
requests="$(REFUSE_ALL=1 REFUSE_TELL=1 LD_PRELOAD="$work/refuse.so" "$program" <"$text" 2>&1 >"$work/out" | sed -n 's/^requests=//p')"
judge "$all" "$(cat "$work/out"; echo 'status 0')" 'none refused'
spared=0 refusals=0
for ((nth = 1; nth <= requests; nth++)); do
    got="$(REFUSE_ALL=1 REFUSE_NTH=$nth LD_PRELOAD="$work/refuse.so" run "$text")"
    if [ "$got" = "$all" ]; then spared=$((spared + 1)) && continue; fi
    count=$(grep -vcE '^(out of memory|status .*)$' <<<"$got" || true)
    judge "$(printf '%s\n' "${answers[@]:0:count}" 'out of memory' 'status 3')" "$got" "request $nth of $requests refused"
    refusals=$((refusals + 1))
done
judge yes "$([ "$spared" -le 1 ] && echo yes || echo "no, $spared")" 'one request at most can be done without'
judge yes "$([ "$refusals" -gt 0 ] && echo yes || echo no)" 'requests are made that are needed'
# (empty lines need no memory)
printf '\n\n' >"$text"
for nth in 1 2 3; do
    judge 'status 0' "$(REFUSE_ALL=1 REFUSE_NTH=$nth LD_PRELOAD="$work/refuse.so" run "$text")" "empty lines, request $nth refused"
done
tell
