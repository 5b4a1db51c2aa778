#!/usr/bin/env bash
# Prints how the instructions of a call grow with the map, as a table in Markdown. The maps have n, 4n and 16n entries, for n = 1,000.
# The sides are the library, plain Rust, and plain Rust that works like the Rust crate. Callgrind counts with the work done and not done,
# and the table has the difference for one call. The counts do not depend on what else the machine does.
#
#     bench/growth.sh             every work: some minutes, and 20 to 40 more for the proof of the library
#     bench/growth.sh WORD..      the works whose names have one of the words, such as paint, append or `-`
#
# It needs `rt`, rustc, g++ and valgrind, and first proves and builds the library if that is not built yet. Exit status: 0 success; 2 a
# word fits no row; 70 something is missing, or a proof failed.
set -euo pipefail
cd "$(dirname "$(readlink -f "${BASH_SOURCE[0]}")")"
if [ "${1:-}" = --help ]; then
    sed -n '2,/^set/ s/^# \?//p' growth.sh
    exit
fi

# Prints the row of a work.
row() { # name, work, calls, sides
    local side size cells=""
    for side in library plain crate; do
        for size in 1000 4000 16000; do
            if [[ " $4 " == *" $side "* ]]; then
                cells+=" | $(grouped "$(of_one "$side" "$2" "$size" "$3")")"
            else
                cells+=" | -"
            fi
        done
    done
    echo "| $1$cells |"
}

works() {
    work 'paint' 0 500 'library plain crate'
    work 'insert' 1 500 'library plain crate'
    work 'remove' 2 500 'library plain crate'
    work 'get' 4 500 'library plain'
    work 'pop_first' 7 500 'library plain crate'
    work 'pop_last' 26 500 'library plain crate'
    work 'split_off in the middle' 5 4 'library plain'
    work 'append of as many entries' 6 4 'library plain crate'
    work 'ranges_retain, all kept' 27 4 'library plain'
    work 'a range of the lower half' 24 4 'library plain'
    work 'a pass over the keys of entries of one key' 16 4 'library plain'
    work '`a \| b`, equal sizes' 8 4 'library plain crate'
    work '`a \| b`, b of 100, borrowed' 10 4 'library plain crate'
    work '`a \| b`, b of 100, owned' 11 4 'library plain crate'
    work '`a & b`, equal sizes' 12 4 'library plain'
    work '`a & b`, a of 100, borrowed' 21 4 'library plain'
    work '`a - b`, equal sizes' 13 4 'library plain'
    work '`a - b`, b of 100, borrowed' 22 4 'library plain'
    work '`a - b`, b of 100, owned' 23 4 'library plain'
    work '`a ^ b`, equal sizes' 14 4 'library plain'
    work '`a ^ b`, b of 100, borrowed' 28 4 'library plain'
    work '`a ^ b`, b of 100, owned' 29 4 'library plain'
    work '`a \| b`, b of n / 16 ranges that cover nearly all' 35 4 'library plain'
    work '`a - b`, such a b' 39 4 'library plain'
    work '`a ^ b`, such a b' 41 4 'library plain'
    work '`a.inner_join(b, ..)`, equal sizes' 30 4 'library'
    work '`a.inner_join(b, ..)`, b of 100' 31 4 'library'
    work '`b.left_join(a, ..)`, b of 100' 32 4 'library'
    work '`[&a, &b].union`, b of 100' 33 4 'library'
    work 'the union of a `Vec` of a and b, b of 100' 36 4 'library'
    work '`[&a, &b].intersection`, b of 100' 34 4 'library'
    work 'a map of unsorted ranges; plain Rust paints them' 17 4 'library plain'
    work 'a map of sorted ranges; plain Rust copies them' 18 4 'library plain'
}
source ./counted.sh

echo "| instructions of a call | library, n | 4n | 16n | plain Rust, n | 4n | 16n | the crate's way, n | 4n | 16n |"
echo "|---|---|---|---|---|---|---|---|---|---|"
count_works
