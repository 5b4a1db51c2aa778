#!/usr/bin/env bash
# Each line of code of docs/TASKS.md compiles alone, with what the page says is in scope, and has the result that its comment says. A
# program with a function for each line is made in a copy of the sources, and `rt try` builds and runs it without a proof. If a line changes
# a map, its comment has the map afterwards; if it begins a loop, its comment has the items of the loop. Each comment
# must be what tests/tasks.py gets key by key from dictionaries. The last line is 'N passed, M failed'.
set -euo pipefail
cd "$(dirname "${BASH_SOURCE[0]}")/.."
source tests/judge.sh
tar --exclude=out -cf - crates crates.txt HANDLES | tar -C "$work" -xf -
program="$work/crates/task_lines"
mkdir -p "$program/src"
echo "task_lines: range_map_blaze range_map_multi" >>"$work/crates.txt"

# The lines with their comments.
lines() { sed -n '/^| [^|]/{s/\\|/\x01/g; s/^|[^|]*|[^|]*|//p}' docs/TASKS.md | grep -o '`[^`]*`' | tr -d '`' | tr '\001' '|'; }

# Prints the values of names, in debug form.
show() { # names
    local text=''
    for name in "$@"; do text+="${text:+, }{$name:?}"; done
    if [ "$#" -gt 1 ]; then text="($text)"; fi
    echo "    let _ = print!(rt; \"$text\");"
}

# The function of a line: `code` is the line without its comment. One more function makes the values that the page lists, and passes
# them.
task() {
    local names pattern map_mut='' numbers_mut=''
    if [[ "$code" =~ $changing ]]; then map_mut='mut '; fi
    if [[ "$code" = *'ours.ranges_update('* ]]; then numbers_mut='mut '; fi
    echo "#[allow(unused_variables)]"
    echo "fn task_$number(rt: &HostRuntime, map: &${map_mut}Map, other: &Map, capitals: Map, above: Map, shifted: &mut Map, ours: &${numbers_mut}Numbers, theirs: &Numbers, keys: RangeSetBlaze<i32>, range: RangeInclusive<i32>, count: &mut u64, alloc: Global) -> Result<(), AllocError> {"
    case "$code" in
        'let _ = '* | 'map.'*';') echo "    $code" && show map ;;
        'ours.'*';') echo "    $code" && show ours ;;
        'for '*'}') echo "    $code" && show shifted ;;
        'let '*)
            pattern="${code#let }" pattern="${pattern%% = *}" pattern="${pattern%%: *}"
            read -ra names <<<"${pattern//[(),]/ }"
            echo "    $code"
            show "${names[@]}"
            ;;
        'for '*)
            pattern="${code#for }" pattern="${pattern%% in *}"
            read -ra names <<<"${pattern//[(),]/ }"
            echo "    $code"
            show "${names[@]}"
            echo '    let _ = print!(rt; "; "); }'
            ;;
        '*count '*) echo "    $code" && show count ;;
        *) echo "    let result = $code;" && show result ;;
    esac
    printf '    Ok(())\n}\n'
    echo "#[allow(unused_mut)]"
    echo "fn with_values_$number(rt: &HostRuntime) -> Result<(), AllocError> {"
    echo "    let alloc = rt.alloc();"
    sed -n '/^```rust values$/,/^```$/{/^```/d; s/^/    /p}' docs/TASKS.md
    echo "    task_$number(rt, &${map_mut}map, &other, capitals, above, &mut shifted, &${numbers_mut}ours, &theirs, keys, range, &mut count, alloc)"
    echo '}'
}

changing='map\.(ranges_insert|ranges_insert_absent|insert|extend_ranges|bitor_assign_ref|ranges_update|ranges_remove|remove|pop_last|ranges_retain|split_off|ranges_take)\('
number=0
wanted=()
{
    sed -n '/^```rust$/,/^```$/{/^```/d; p}' docs/TASKS.md
    echo 'use std::process::ExitCode;'
    while IFS= read -r line; do
        number=$((number + 1))
        code="${line%% // *}"
        wanted+=("${line#"$code"}")
        task
    done < <(lines)
    echo 'fn all(rt: &HostRuntime) -> Result<(), AllocError> {'
    for ((each = 1; each <= number; each++)); do
        echo "    with_values_$each(rt)?;"
        echo '    let _ = println!(rt; "");'
    done
    echo '    Ok(())'
    echo '}'
    echo 'fn main(rt: HostRuntime) -> ExitCode { if all(&rt).is_ok() { ExitCode::SUCCESS } else { ExitCode::FAILURE } }'
} >"$program/src/main.rt"

# ---- The comments are what Python gets from dictionaries
mapfile -t modelled < <(python3 tests/tasks.py)
judge "$number" "${#modelled[@]}" "the number of lines of docs/TASKS.md"
for ((each = 0; each < number; each++)); do
    judge "${modelled[each]:-}" "${wanted[each]# // }" "the comment of line $((each + 1)) of docs/TASKS.md"
done

if (cd "$program" && rt try) </dev/null >"$work/got" 2>"$work/said"; then
    mapfile -t got <"$work/got"
    for ((each = 0; each < number; each++)); do
        one="${got[each]:-}"
        judge "${wanted[each]# // }" "${one%; }" "line $((each + 1)) of docs/TASKS.md"
    done
else
    failed="$number"
    cat "$work/said"
fi
tell
