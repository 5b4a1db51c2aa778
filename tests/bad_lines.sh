#!/usr/bin/env bash
# Runs each line of tests/bad_lines.txt alone, after a few valid lines. The program must print `bad line N` for it and end with status 2.
# Then runs the program with wrong arguments: it must print its usage on standard error and end with status 2. The last line is
# 'N passed, M failed'. SCRIPT_PROGRAM names the program; without it `./prove script` builds one if needed.
#
#     tests/bad_lines.sh --cases FOLDER    runs nothing: writes the first line of each kind (after a comment or a key type), and what it
#                                          must print, as cases for `rt try --cases`, which takes seconds for each
set -euo pipefail
here="$(cd "$(dirname "${BASH_SOURCE[0]}")" && pwd)"
cases=''
if [ "${1:-}" = --cases ]; then cases="$2"; fi
source "$here/judge.sh"
program="${SCRIPT_PROGRAM:-$here/../crates/script/out/script}"
[ -n "$cases${SCRIPT_PROGRAM:-}" ] || "$here/../prove" script

before=()
begins=''
while IFS= read -r line; do
    case "$line" in '#'* | 'at '*) begins=yes ;; esac
    case "$line" in
        '' | '#'*) continue ;;
        'at nothing') before=() && continue ;;
        'at char') before=("keys char" "a extend_simple U+1..=U+3 x U+7..=U+7 y" "b extend_simple U+2..=U+9 z" "s = set U+1..=U+5") && continue ;;
        'at '*) before=("keys ${line#at }" "a extend_simple 1..=3 x 7..=7 y" "b extend_simple 2..=9 z" "s = set 1..=5") && continue ;;
    esac
    # (each line prints a result, except that of the key type)
    wanted=''
    for _ in "${before[@]:1}"; do wanted+=$'()\n'; done
    wanted+="bad line $((${#before[@]} + 1))"
    if [ -n "$cases" ]; then
        if [ "$begins" ]; then
            passed=$((passed + 1))
            printf '%s\n' "${before[@]}" "$line" "a len" >"$cases/bad_line_$passed"
            printf '%s\n' "$wanted" >"$cases/bad_line_$passed.stdout"
        fi
        begins=''
        continue
    fi
    wanted+=", status 2"
    # (from a file: the program reads nothing after an invalid line, and a pipe would break)
    printf '%s\n' "${before[@]}" "$line" "a len" >"$work/script"
    got="$("$program" <"$work/script" && echo ", status 0" || echo ", status $?")"
    if [ "${got//$'\n', status/, status}" = "$wanted" ]; then
        passed=$((passed + 1))
    else
        failed=$((failed + 1))
        echo "'$line': wanted '$wanted', got '$got'"
    fi
done <"$here/bad_lines.txt"
if [ -n "$cases" ]; then exit; fi

for arguments in mark 'mark x' 'mark +4' 'mark -4' 'mark 4 5' 'run 4' $'\xff' $'mark \xff'; do
    read -ra words <<<"$arguments"
    wanted="usage: script [mark LINE] < FILE, status 2"
    got="$("$program" "${words[@]}" </dev/null 2>&1 && echo ", status 0" || echo ", status $?")"
    if [ "${got//$'\n', status/, status}" = "$wanted" ]; then
        passed=$((passed + 1))
    else
        failed=$((failed + 1))
        echo "arguments '$arguments': wanted '$wanted', got '$got'"
    fi
done
tell
