#!/usr/bin/env bash
# Compares the time of the library with that of plain Rust (`ranges.rs`, `one_pass.rs`) and of Boost's interval_map, and prints tables in
# Markdown. `as_crate.rs` and `streamed.rs` paint and unite in plain Rust as the Rust crate does. `planned.rs` paints in plain Rust as the
# library does: it inserts nodes first, and makes another search to move an end.
#
#     bench/run.sh                    every work: some minutes on an idle machine, and 20 to 60 more for the proofs
#     bench/run.sh --quick            few operations and rounds: a first impression, no result
#     bench/run.sh [--quick] WORD..   the works whose names have one of the words, such as paint, append or program
#
# Times are processor times: the least of nine rounds in which the sides take turns, minus the time without an operation. All sides
# have the same pseudo-random input, and must leave the same entries. '(fewer)' marks a slow side that did less than a quarter of the
# operations. A side that takes over 3 s for a work has one round. The program on lines is timed as a process, user and system.
#
# It needs `rt`, rustc and g++, and first proves and builds what it measures if that is not built yet. Without Boost's headers
# (Debian: libboost-dev) it leaves Boost out. The merge gate does not run it, and no test depends on a time.
set -euo pipefail
cd "$(dirname "$(readlink -f "${BASH_SOURCE[0]}")")"
if [ "${1:-}" = --help ]; then
    sed -n '2,/^set/ s/^# \?//p' run.sh
    exit
fi
source ./sides.sh
"$root/prove" rangemap
"${rust[@]}" -o out/plain_lines plain_lines.rs
if echo '#include <boost/icl/interval_map.hpp>' | g++ -E -x c++ - >/dev/null 2>&1; then
    g++ -std=c++17 -O2 -Wall -Wextra -c -o out/boost.o boost.cpp
else
    say "no headers of Boost: left out"
    echo 'extern "C" unsigned long long boost_run(unsigned, unsigned long long, unsigned long long) { return 0; }' \
        | g++ -O2 -c -o out/boost.o -x c++ -
fi
"$root/bindings/build.sh"
g++ -std=c++17 -O2 -Wall -Wextra -I "$root/bindings" -c -o out/through_c.o through_c.cpp
link driver driver.cpp out/boost.o out/through_c.o "$root/bindings/out/librange_map.a"

folder="$(mktemp -d)"
trap 'rm -rf "$folder"' EXIT
out/driver --programs "$folder" "$root/crates/rangemap/out/rangemap" "$PWD/out/plain_lines" "$@"
