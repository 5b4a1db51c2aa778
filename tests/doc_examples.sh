#!/usr/bin/env bash
# The examples in the doc comments of the map and of many maps give the results that they show. Each starts from the values in the comment
# of `RangeMapBlaze`; the comment behind a line is the value of its expression. A program with a function for each example is made in a
# copy of the sources, and `rt try` builds and runs it without a proof. Each public method has an example, except `in_hand`, which does
# nothing at run time, and hidden ones. The last line is 'N passed, M failed'.
set -euo pipefail
cd "$(dirname "${BASH_SOURCE[0]}")/.."
source tests/judge.sh
tar --exclude=out -cf - crates crates.txt HANDLES | tar -C "$work" -xf -
program="$work/crates/doc_examples"
mkdir -p "$program/src"
echo "doc_examples: range_map_blaze range_map_multi" >>"$work/crates.txt"

# The examples, with an empty line after each: first 'FILE NAME', then the lines of code. A method without an example has the first line
# alone.
find crates/range_map_{blaze,multi}/src -name '*.rt' | LC_ALL=C sort | xargs awk '
    /^(impl|pub trait)/ {
        is_trait = /^pub trait (IntoRangeMapBlaze|Multiway)/
        is_type = is_trait || /[> ]RangeMapBlaze<[^<>]*> [{]$/ && !/ for /
    }
    /^}/ { is_type = 0 }
    /^ *\/\/\/ ```/ { inside = !inside; next }
    /^ *\/\/\// { if (inside) { sub(/^ *\/\/\/ /, ""); code = code $0 "\n" } next }
    /^ *#\[/ { if (/doc\(hidden\)/) hidden = 1; next }
    {
        name = match($0, /fn [a-z_0-9]+/) ? substr($0, RSTART + 3, RLENGTH - 3) : $0
        is_method = is_type && $0 ~ (is_trait ? "^    fn " : "^    pub fn ") && !hidden && name != "in_hand"
        if (code || is_method) printf "%s %s\n%s\n", FILENAME, name, code
        code = hidden = ""
    }' >"$work/examples"
premise="$(awk '/ pub struct RangeMapBlaze</ { inside = 1 } /^$/ { inside = 0 } inside && /^let / { print "    " $0 }' "$work/examples")"

# The function of an example, which prints each result in a line.
function_of() { # its number, its code
    printf '#[allow(unused_mut)]\n#[allow(unused_variables)]\n'
    echo "fn example_$1(rt: &HostRuntime, alloc: Global) -> Result<(), AllocError> {"
    echo "$premise"
    while IFS= read -r line; do
        case "$line" in
            *'; // '*) printf '    let shown = &(%s);\n    let _ = println!(rt; "{shown:?}");\n' "${line%%; // *}" ;;
            *) echo "    $line" ;;
        esac
    done <<<"$2"
    printf '    Ok(())\n}\n'
}

number=0
wanted=()
whose=()
{
    echo 'use range_map_blaze::{IntoRangeMapBlaze, RangeMapBlaze, RangeSetBlaze, Turns};'
    echo 'use range_map_multi::{MultiwayRangeMapBlaze, MultiwayRangeMapBlazeRef, MultiwaySortedDisjointMap};'
    echo 'use std::alloc::{AllocError, Global};'
    echo 'use std::process::ExitCode;'
    while IFS= read -r name; do
        code=''
        while IFS= read -r line && [ "$line" ]; do code+="$line"$'\n'; done
        if [[ "$code" != *'; // '* ]]; then
            failed=$((failed + 1))
            echo "$name has no example" >&2
            continue
        fi
        while IFS= read -r line; do
            wanted+=("${line#*; // }")
            whose+=("$name")
        done < <(grep '; // ' <<<"$code")
        number=$((number + 1))
        function_of "$number" "$code"
    done <"$work/examples"
    echo 'fn all(rt: &HostRuntime) -> Result<(), AllocError> {'
    for ((each = 1; each <= number; each++)); do echo "    example_$each(rt, rt.alloc())?;"; done
    printf '    Ok(())\n}\n'
    echo 'fn main(rt: HostRuntime) -> ExitCode { if all(&rt).is_ok() { ExitCode::SUCCESS } else { ExitCode::FAILURE } }'
} >"$program/src/main.rt"

if (cd "$program" && rt try) </dev/null >"$work/got" 2>"$work/said"; then
    mapfile -t got <"$work/got"
    for each in "${!wanted[@]}"; do judge "${wanted[each]}" "${got[each]:-}" "${whose[each]}"; done
else
    failed=$((failed + ${#wanted[@]}))
    cat "$work/said"
fi
tell
