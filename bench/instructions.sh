#!/usr/bin/env bash
# Prints the instructions of one call, or of one entry, key or range of it, as a table in Markdown. The sides are the library, plain
# Rust, and plain Rust that works like the Rust crate. Callgrind counts with the work done and not done. The counts do not depend
# on what else the machine does.
#
#     bench/instructions.sh             every work: some minutes, and 20 to 40 more for the proof of the library
#     bench/instructions.sh WORD..      the works whose names have one of the words, such as paint, append or `-`
#
# It needs `rt`, rustc, g++ and valgrind, and first proves and builds the library if that is not built yet. Exit status: 0 success; 2 a
# word fits no row; 70 something is missing, or a proof failed.
set -euo pipefail
cd "$(dirname "$(readlink -f "${BASH_SOURCE[0]}")")"
if [ "${1:-}" = --help ]; then
    sed -n '2,/^set/ s/^# \?//p' instructions.sh
    exit
fi

ratio() { # instructions of the library, of another side
    awk -v one="$1" -v other="$2" 'BEGIN { printf "%.2f", one / other }'
}

# Prints the row of a work.
row() { # name, work, entries, calls, parts of a call, sides
    local library other side cells=""
    library="$(of_one library "$2" "$3" "$4" "$5")"
    for side in plain crate; do
        if [[ " $6 " == *" $side "* ]]; then
            other="$(of_one "$side" "$2" "$3" "$4" "$5")"
            cells+=" | $(grouped "$other") | $(ratio "$library" "$other")"
        else
            cells+=" | - | -"
        fi
    done
    echo "| $1 | $(grouped "$library")$cells |"
}

works() {
    work 'a paint, 10^4 entries' 0 10000 100000 1 'plain crate'
    work 'a paint, 10^5 entries' 0 100000 100000 1 'plain crate'
    work 'a paint over ten entries, 2 * 10^4 entries' 49 20000 2000 1 'plain crate'
    work 'a paint over all entries, for each of 2 * 10^4 entries' 50 20000 4 20000 'plain crate'
    work 'an insertion, 10^4 entries' 1 10000 100000 1 'plain crate'
    work 'a removal, 10^4 entries' 2 10000 100000 1 'plain crate'
    work 'a clumpy paint, of 5 * 10^4: sixteen at a time among the same 64 keys' 3 0 50000 1 'plain crate'
    work '`append`, for each of 2 * 10^4 entries of each map' 6 20000 4 20000 'plain crate'
    work 'a pop of the first key, 2 * 10^4 entries of 1 to 16 keys' 7 20000 100000 1 'plain crate'
    work 'a pop of the last key' 26 20000 100000 1 'plain crate'
    work '`ranges_retain` that keeps all, for each of 2 * 10^4 entries' 27 20000 4 20000 'plain crate'
    work '`ranges_retain` that keeps half, for each of them' 37 20000 4 20000 'plain crate'
    work '`ranges_retain` that keeps none, for each of them' 38 20000 4 20000 'plain crate'
    work '`a \| b`, for each of 2 * 10^4 entries of each map' 8 20000 4 20000 'plain crate'
    work '`a & b`' 12 20000 4 20000 'plain'
    work '`a - b`' 13 20000 4 20000 'plain'
    work '`a ^ b`' 14 20000 4 20000 'plain'
    work '`a.full_join(b, ..)`' 52 20000 4 20000 ''
    work '`transform_values`, for each of 2 * 10^4 entries' 51 20000 4 20000 'plain'
    work 'a lookup, 10^4 entries' 4 10000 100000 1 'plain'
    work 'a key of 2 * 10^4 entries of one key, by `iter`' 16 20000 4 20000 'plain'
    work 'a key of 2 * 10^4 entries of 1 to 16 keys, by `iter`' 42 20000 4 170000 'crate'
    work 'a key of such entries, by `keys`' 43 20000 4 170000 'crate'
    work 'a key of such entries, by `values`' 44 20000 4 170000 'crate'
    work 'a key of such entries, by `iter` from the end' 45 20000 4 170000 'crate'
    work 'a key of such entries, by `keys` from the end' 46 20000 4 170000 'crate'
    work 'a key of such entries, by `values` from the end' 47 20000 4 170000 'crate'
    work 'a key of such entries, by `into_iter`' 48 20000 4 170000 'crate'
    work 'a range of half of 2 * 10^4 entries, for each within it' 24 20000 4 10000 'plain'
    work '`range` over ten of 10^5 entries, and its first pair, a call' 55 100000 10000 1 ''
    work '`overlapping` over such a range, and its first entry, a call' 56 100000 10000 1 ''
    work '`a & b`, `a` of 100 entries, `b` of 10^5, borrowed, a call' 21 100000 4 1 'plain'
    work '`a - b`, `a` of 10^5 entries, `b` of 100, borrowed, a call; plain Rust cuts a clone' 22 100000 4 1 'plain'
    work '`a - b`, such `a` and `b`, both owned' 23 100000 100 1 'plain'
    work '`a \| b`, both owned, `a` of 10^5 entries, `b` of 100, a call' 11 100000 100 1 'plain crate'
    work '`a ^ b`, both owned, such `a` and `b`; plain Rust goes through both' 29 100000 100 1 'plain'
    work '`a - b`, `b` of 1,250 ranges that cover nearly all of 2 * 10^4 entries of `a`, borrowed, for each of these' 39 20000 4 20000 'plain'
    work '`a - b`, such a `b`, both owned' 40 20000 4 20000 'plain'
    work '`a ^ b`, such a `b`, borrowed' 41 20000 4 20000 'plain'
    work '`a \| b`, such a `b`, borrowed' 35 20000 4 20000 'plain'
    work 'a map of 2 * 10^4 sorted ranges, for each; plain Rust copies them' 18 20000 4 20000 'plain'
    work 'a map of 2 * 10^4 unsorted ranges, for each; plain Rust paints them' 17 20000 4 20000 'plain'
    work 'the union of 2 maps of 10^5 entries in all, for each' 20 2 4 100000 'plain'
    work 'the union of 16' 20 16 4 100000 'plain'
    work '`[&a, &b, &c].union`, `a` and `c` of ten entries, `b` of 16,000, a call; plain Rust makes two unions' 53 16000 4 1 'plain'
    work '`[&a, &b, &c].symmetric_difference`, such maps; plain Rust makes two' 54 16000 4 1 'plain'
    work 'a filled range of one gap, 10^5 entries; plain Rust looks up and paints' 25 1 10000 1 'plain'
    work 'a filled range of ten gaps, for each' 25 10 1000 10 'plain'
    work 'a filled range of 1,000 gaps, for each' 25 1000 10 1000 'plain'
}
source ./counted.sh

echo "| instructions | library | plain Rust | library / plain | the crate's way | library / the crate's way |"
echo "|---|---|---|---|---|---|"
count_works
