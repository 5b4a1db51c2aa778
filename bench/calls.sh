#!/usr/bin/env bash
# Prints the instructions of calls of the library for C, counted by callgrind. These are the instructions of the program bench/calls.c with
# 1,000 calls, minus those of the program with the random keys alone.
#
#     bench/calls.sh
#
# It needs cc, valgrind and the library: run bindings/build.sh first. Status 70: one of these is missing.
set -euo pipefail
cd "$(dirname "$(readlink -f "${BASH_SOURCE[0]}")")"
if [ "${1:-}" = --help ]; then
    sed -n '2,/^set/ s/^# \?//p' calls.sh
    exit
fi
out="${RANGE_MAP_OUT:-../bindings/out}"
missing() { # the missing thing, where it comes from
    echo "bench: there is no $1 here ($2)" >&2
    exit 70
}
if ! command -v cc >/dev/null; then missing cc 'Debian: gcc'; fi
if ! command -v valgrind >/dev/null; then missing valgrind 'Debian: valgrind'; fi
if [ ! -f "$out/librange_map.a" ]; then missing librange_map.a 'bindings/build.sh makes it'; fi
mkdir -p out
cc -std=c99 -O2 -Wall -Wextra -pedantic -I ../bindings -o out/calls calls.c "$out/librange_map.a"

counted() { # call, entries, times
    valgrind --tool=callgrind --callgrind-out-file=/dev/null out/calls "$@" 2>&1 | sed -n 's/.*Collected : //p'
}

times=1000
echo "| instructions of a call | 10^3 entries | 10^4 | 10^5 |"
echo "|---|---|---|---|"
for call in get table next next-in-gap previous find-gap walk; do
    row="| $call |"
    for entries in 1000 10000 100000; do
        row+=" $((($(counted "$call" "$entries" "$times") - $(counted none "$entries" "$times")) / times)) |"
    done
    echo "$row"
done
row="| extend by 10 entries |"
for entries in 1000 10000 100000; do row+=" $(($(counted extend "$entries" 1) - $(counted none "$entries" 1))) |"; done
echo "$row"
