#!/usr/bin/env bash
# Makes each allocation of each call in tests/refusals.txt fail in turn, and at last none. If none fails, the call must succeed. If one
# fails, the maps and sets must be unchanged, with these exceptions:
# - owned operands are empty;
# - a call that paints or fills pairs may have done a first part of them;
# - a change of a range by a closure may have changed a first part of its pieces;
# - a list of steps keeps what the steps before the failed one did;
# - an owned iterator must end.
#
# A call that must allocate must make a request that it can't do without. A call that must not allocate must make none. A call that collects
# pairs, to build a tree or a list, may do without one of its requests: std's `collect` and `extend` ask for the room that the iterator's
# hint names, and if that fails, for the room of one item. The result and the state are then those of a call without a failure. The last
# line is 'N passed, M failed'.
#
# Calls that no line of a script makes are in tests/refused_calls.txt.
#
#     tests/refusals.sh          all cases
#     tests/refusals.sh WORD     the cases whose call has the word
#
# SCRIPT_PROGRAM names the program; without it `./prove script` builds one if needed.
set -euo pipefail
here="$(cd "$(dirname "${BASH_SOURCE[0]}")" && pwd)"
source "$here/judge.sh"
only="${1:-}"
program="${SCRIPT_PROGRAM:-$here/../crates/script/out/script}"
[ -n "${SCRIPT_PROGRAM:-}" ] || "$here/../prove" script
make_refuse

# What is printed after each call.
after=("a list" "a len" "b list" "b len" "c list" "c len" "d list" "s list" "t list")
printed=${#after[@]}

# Runs the program on the lines before the call, those given, and the lines after it. `answer` is then the answer of the last
# line given, `left` what the lines after it print, `status` the exit status.
run() { # the arguments of the program, '--', lines
    local arguments=() got
    while [ "$1" != -- ]; do arguments+=("$1") && shift; done
    shift
    printf '%s\n' "${before[@]}" "$@" "${after[@]}" >"$work/script"
    mapfile -t got < <("$program" "${arguments[@]}" <"$work/script" 2>"$work/told"; echo "$?")
    status="${got[-1]}"
    answer='' left=''
    if ((${#got[@]} > printed)); then printf -v left '%s\n' "${got[@]: -printed-1:printed}"; fi
    if ((${#got[@]} > printed + 1)); then answer="${got[-printed - 2]}"; fi
}

# The lines that have the effect of a failed call: its owned operands are empty, and the first so many of its pairs, or of those of the
# other map, are painted, or filled in.
first_pairs() { # how many
    local words count="$1" place
    read -ra words <<<"$call"
    if [ "${#words[@]}" = 3 ]; then
        read -ra words <<<"${words[0]} extend_simple $others"
    fi
    instead=("${words[*]:0:2 + 2 * count}")
    if [[ "$call" = *" extend_absent "* ]]; then
        instead=()
        for ((place = 2; place < 2 + 2 * count; place += 2)); do
            instead+=("${words[0]} ranges_insert_absent ${words[*]:place:2}")
        done
    fi
    instead+=("${gone[@]}")
}
pair_count() {
    local words
    read -ra words <<<"$call"
    if [ "${#words[@]}" = 3 ]; then read -ra words <<<"- - $others"; fi
    pairs=$(((${#words[@]} - 2) / 2))
}

# The results of an iterator of which an item fails to allocate: those before it, and none after it.
refused_items() { # the answer without a refusal
    local items place later rest first='' letters="${call##* }"
    mapfile -t items <<<"${1//; /$'\n'}"
    refused=()
    if [[ "$call" = *" range "* ]]; then refused=(refused); fi
    for ((place = 0; place < ${#letters}; place++)); do
        if [[ "${items[place]}" = Some* ]]; then
            rest=''
            for ((later = place + 1; later < ${#letters}; later++)); do
                if [ "${letters:later:1}" = h ]; then rest+='; (0, None)'; else rest+='; None'; fi
            done
            refused+=("${first}Some(refused)$rest")
        fi
        first+="${items[place]}; "
    done
}

# The lines that change a first part of the pieces of a range, as the call does: up to each end of an entry or a gap within it. The
# range is LO..=HI, and the entries are 0..=5, 10..=15 and so on.
first_pieces() {
    local words lo hi place end
    read -ra words <<<"$call"
    lo="${words[2]%..=*}" hi="${words[2]#*..=}"
    pieces=()
    for ((place = 0; place < entries_count; place++)); do
        for end in $((10 * place - 1)) $((10 * place + 5)); do
            if ((lo <= end && end < hi)); then pieces+=("${words[*]:0:2} $lo..=$end ${words[*]:3}"); fi
        done
    done
}

is_among() { # what, of what
    local what="$1" each
    shift
    for each in "$@"; do
        if [ "$what" = "$each" ]; then return 0; fi
    done
    return 1
}

# One call, on maps of one size.
sweep() {
    local piece what="$call on $entries_count${with:+ with $with}" requests nth got kept done_answer done_left spared=0
    REFUSE_TELL=1 LD_PRELOAD="$work/refuse.so" run mark "$((${#before[@]} + 1))" -- "$call"
    requests="$(sed -n 's/^requests=//p' "$work/told")"
    got=done
    if [ "$status" != 0 ] || [[ "$answer" = *refused* ]]; then got="$answer, status $status"; fi
    judge done "$got" "$what, none refused"
    done_answer="$answer" done_left="$left"
    case "$takes" in
        none) judge 0 "$requests" "$what: requests" ;;
    esac
    refused=(refused)
    # (a list of one step says that its first step failed)
    if [[ "$call" = "a run "* ]]; then refused+=("refused at 0"); fi
    kept=()
    case "$takes" in
        items)
            refused_items "$answer"
            kept=("$left")
            ;;
        part)
            pair_count
            for ((count = 0; count <= pairs; count++)); do
                first_pairs "$count"
                run -- "${instead[@]}"
                kept+=("$left")
            done
            ;;
        pieces)
            first_pieces
            run --
            kept=("$left")
            for piece in "${pieces[@]}"; do
                run -- "$piece"
                kept+=("$left")
            done
            ;;
        steps)
            refused=("refused at 0" "refused at 1")
            run --
            kept=("$left")
            run -- "${gone[@]}"
            kept+=("$left")
            ;;
        *)
            run -- "${gone[@]}"
            kept=("$left")
            ;;
    esac
    for ((nth = 1; nth <= requests; nth += nth < 40 ? 1 : step)); do
        REFUSE_NTH=$nth LD_PRELOAD="$work/refuse.so" run mark "$((${#before[@]} + 1))" -- "$call"
        got="refused, kept"
        if [ "$status" != 0 ]; then got="status $status"; fi
        if ! is_among "$left" "${kept[@]}"; then got="refused, changed"; fi
        if ! is_among "$answer" "${refused[@]}"; then
            got="$answer"
        elif [ "$takes" = steps ] && [ "$left" != "${kept[${answer##* }]}" ]; then
            # (what a list of steps leaves is what its answer says)
            got="$answer, changed"
        fi
        if ((collects && spared == 0)) && [ "$answer" = "$done_answer" ] && [ "$left" = "$done_left" ]; then
            spared=1
            got="refused, kept"
        fi
        judge "refused, kept" "$got" "$what, request $nth of $requests refused"
    done
    if [ "$takes" != none ]; then
        judge yes "$([ "${requests:-0}" -gt "$spared" ] && echo yes || echo no)" "$what makes a request that it needs"
    fi
}

# So many pairs of a range and a value, and their ranges alone: of a map, and of the other map.
pairs_of() { # how many, the first start, the length of every other range, that of those between, perhaps two values
    local place start length value
    all='' ranges=''
    for ((place = 0; place < $1; place++)); do
        start=$((10 * place + $2))
        if ((place % 2)); then length="$4" value="${6:-v$start}"; else length="$3" value="${5:-v$start}"; fi
        ranges+=" $start..=$((start + length))"
        all+=" $start..=$((start + length)) $value"
    done
}

# All calls of a group, on all its sizes.
sweep_group() {
    local entries_count line
    [ "${#calls[@]}" -gt 0 ] || return 0
    for entries_count in "${sizes[@]}"; do
        pairs_of "$entries_count" 0 5 5
        local entries="$all" entry_ranges="$ranges"
        pairs_of "$entries_count" 0 5 5 x y
        local turns="$all"
        pairs_of "${with:-0}" 3 1 5
        others="$all"
        before=("keys i64")
        for line in "${setup[@]}"; do
            line="${line//' {entries}'/"$entries"}"
            line="${line//' {turns}'/"$turns"}"
            line="${line//' {others}'/"$others"}"
            line="${line//' {other ranges}'/"$ranges"}"
            if [[ "$line" = 'b extend_simple '* ]]; then others=" ${line#b extend_simple }"; fi
            before+=("$line")
        done
        for call in "${calls[@]}"; do
            if [[ "$call" != *"$only"* ]]; then continue; fi
            collects=0
            if [[ "$call" = '? '* ]]; then collects=1; fi
            call="${call:2}"
            call="${call//' {ranges}'/"$entry_ranges"}"
            call="${call//' {entries}'/"$entries"}"
            sweep
        done
    done
}

# Groups are read up to an empty line: first what the calls take and on which sizes, then lines of script.
takes='' calls=()
while IFS= read -r line; do
    case "$line" in
        '#'*) ;;
        '') sweep_group && takes='' calls=() ;;
        '! '* | '? '*) calls+=("$line") ;;
        '~ '*) gone+=("${line#\~ }") ;;
        *)
            if [ -n "$takes" ]; then
                setup+=("$line")
            else
                sizes=() setup=() gone=() with='' step=1
                read -ra words <<<"$line"
                takes="${words[0]}"
                for ((place = 1; place < ${#words[@]}; place++)); do
                    case "${words[place]}" in
                        with) with="${words[place += 1]}" ;;
                        step) step="${words[place += 1]}" ;;
                        *) sizes+=("${words[place]}") ;;
                    esac
                done
            fi
            ;;
    esac
done < <(cat "$here/refusals.txt" && echo)

# Each allocation of a script without a call, which reading makes: if it fails, the status is 3.
if [ -z "$only" ]; then
    printf 'keys u8\n' >"$work/script"
    requests="$(REFUSE_ALL=1 REFUSE_TELL=1 LD_PRELOAD="$work/refuse.so" "$program" <"$work/script" 2>&1 | sed -n 's/^requests=//p')"
    judge yes "$([ "$requests" -gt 0 ] && echo yes)" "reading makes requests"
    for ((nth = 1; nth <= requests; nth++)); do
        status=0
        REFUSE_ALL=1 REFUSE_NTH=$nth LD_PRELOAD="$work/refuse.so" "$program" <"$work/script" >"$work/told" 2>&1 || status=$?
        judge "3 " "$status $(cat "$work/told")" "reading: request $nth of $requests refused"
    done
fi
tell
