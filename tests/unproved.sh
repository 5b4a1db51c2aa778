#!/usr/bin/env bash
# Runs code in Rattle that the gate does not prove, in folders beside this file and in bench/library:
# - examples: calls that no line of a script makes. They print what `stdout` has, which was worked out from the definitions;
# - crate_examples: the examples of the Rust crate's documentation, written anew. They print how many have the Rust crate's results;
# - library: tests of the least and greatest keys of each key type, of readers and writers that fail, and of the traits of each type;
# - bench_library: the library's side of the benchmark, in bench/library. It compiles, and a work of each file runs.
# The sources are named .rs, since `rt ci` takes no .rt file that is in no crate. Each folder becomes a crate in a copy of the crates, and
# `rt try` builds and runs it. The last line is 'N passed, M failed', of lines and of tests.
#
#     tests/unproved.sh           all four
#     tests/unproved.sh NAME..    these
set -euo pipefail
cd "$(dirname "${BASH_SOURCE[0]}")/.."
source tests/judge.sh
declare -A needs=(
    [examples]="blaze_int blaze_entries blaze_table blaze_streams blaze_iters range_map_blaze range_map_multi demo_keys"
    [crate_examples]="range_map_blaze range_map_multi demo_keys"
    [library]="jiff_core blaze_int blaze_table blaze_streams blaze_iters range_map_blaze range_map_cli demo_keys"
    [bench_library]="range_map_blaze range_map_multi"
)
names=("$@")
if [ "$#" = 0 ]; then names=(examples crate_examples library bench_library); fi

tar --exclude=out --exclude=wrong -cf - crates crates.txt HANDLES | tar -C "$work" -xf -
for name in "${names[@]}"; do
    crate="check_$name" folder="tests/$name"
    if [ "$name" = bench_library ]; then folder=bench/library; fi
    echo "$crate: ${needs[$name]}" >>"$work/crates.txt"
    mkdir -p "$work/crates/$crate/src"
    for file in "$folder"/*.rs; do cp "$file" "$work/crates/$crate/src/$(basename "$file" .rs).rt"; done
done

# The output must be that of the file `stdout`, line by line.
run_program() { # its name
    local differing
    (cd "$work/crates/check_$1" && rt try) </dev/null >"$work/got" 2>"$work/said" || cat "$work/said"
    diff "tests/$1/stdout" "$work/got" >"$work/differing" || head -n 20 "$work/differing"
    differing="$(grep -c '^[<>]' "$work/differing" || true)"
    failed=$((failed + differing))
    passed=$((passed + $(wc -l <"tests/$1/stdout") - $(grep -c '^<' "$work/differing" || true)))
}
run_tests() { # the name
    (cd "$work/crates/check_$1" && rt try --test) </dev/null >"$work/said" 2>&1 || true
    if [[ "$(grep '^test result: ' "$work/said")" =~ \ ([0-9]+)\ passed\;\ ([0-9]+)\ failed ]]; then
        passed=$((passed + BASH_REMATCH[1]))
        failed=$((failed + BASH_REMATCH[2]))
        if [ "${BASH_REMATCH[2]}" != 0 ]; then cat "$work/said"; fi
    else
        failed=$((failed + 1))
        cat "$work/said"
    fi
}
for name in "${names[@]}"; do
    if [ -f "tests/$name/stdout" ]; then run_program "$name"; else run_tests "$name"; fi
done
tell
