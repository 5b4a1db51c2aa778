#!/usr/bin/env bash
# Tests the programs over tables that people know, which `rt ci` builds as one, crates/tables. The output of each example is compared
# with that of tests/tables/NAME.py, which goes key by key, without ranges. So are the outputs for whole tables, if these exist:
# Scripts.txt of Debian's package unicode-data, /etc/services, the first 3,000 lines of geoip6 of tor-geoipdb, the memory of a process,
# and tables that are made here. The key type of docs/KEYS.md must be in `demo_keys`. Then come wrong arguments, faulty lines, a folder
# as input, an output that is full, and each allocation failing in turn. What runs the program is left out if it is not built, and a
# line says so. The last line is 'N passed, M failed'.
set -euo pipefail
cd "$(dirname "${BASH_SOURCE[0]}")/.."
source tools/made_of.sh
source tests/judge.sh
program="$(program_of tables)"
expected() { python3 "tests/tables/$1.py"; } # of the table on standard input
from() { example_of "$1" stdin; }

# ---- Examples
for name in "${tables[@]}"; do
    judge "$(cat "$(example_of "$name" stdout)")" "$(expected "$name" <"$(from "$name")")" "the example of $name"
done

# ---- The key type that docs/KEYS.md shows whole
judge "$(cat crates/demo_keys/src/ipv4.rt)" "$(awk '/^```/ { if (inside++) exit; next } inside' docs/KEYS.md)" "the key type of docs/KEYS.md"

if [ ! -x "$program" ]; then
    echo "crates/tables is not built"
    tell
    exit
fi

# ---- Whole tables
if [ -f /usr/share/unicode/Scripts.txt ]; then
    { cat /usr/share/unicode/Scripts.txt && echo '? Ωmega のabc'; } >"$work/scripts"
fi
printf 'D7FE..E001 ; One\nD800..DFFF ; None\nDC00..E003 ; Two\n10FFFF ; Two\n0 ; One\n? \n' >"$work/scripts.ends"
{ cat /etc/services && printf '? %s\n' 1 10 100 1000 10000 40000; } >"$work/ports"
{ cat /proc/$$/maps && echo && cat /proc/self/maps; } >"$work/regions"
cat /proc/self/maps >"$work/regions.one"
if [ -f /usr/share/tor/geoip6 ]; then head -n 3000 /usr/share/tor/geoip6 >"$work/routes.countries"; fi
python3 - "$work" <<'END'
import random
import sys
from datetime import date, timedelta
from ipaddress import IPv4Address, IPv4Network, IPv6Address, IPv6Network

random.seed(1)
work = sys.argv[1]
with open(f"{work}/calendar", "w") as out:
    for _ in range(300):
        start = date.fromordinal(random.randint(1, 3652059 - 40))
        out.write(f"{start} {start + timedelta(random.randint(0, 40))} {random.choice('abc')}\n")
    for _ in range(100):
        start = date(1999, 12, 1) + timedelta(random.randint(0, 500))
        out.write(f"{start} {start + timedelta(random.randint(0, 9))} {random.choice('abc')}\n")
    out.write("0001-01-01 0001-01-01 first\n9999-12-31 9999-12-31 last\n")
    out.write("".join(f"? {year:04}\n" for year in (1, 1900, 1999, 2000, 2001, 2100, 9999)))
with open(f"{work}/routes", "w") as out:
    for _ in range(5000):
        length = random.randint(0, 32)
        address = random.getrandbits(32) & random.getrandbits(32)
        out.write(f"{IPv4Network((address, length), strict=False)} {random.choice('abcdef')}\n")
    for _ in range(5000):
        length = random.randint(0, 128)
        address = random.getrandbits(128) & random.getrandbits(128)
        out.write(f"{IPv6Network((address, length), strict=False)} {random.choice('abcdef')}\n")
    for address, bits in (IPv4Address, 32), (IPv6Address, 128):
        for _ in range(100):
            first, last = sorted((random.getrandbits(bits), random.getrandbits(bits)))
            out.write(f"{address(first)},{address(last)},{random.choice('abcdef')}\n")
    out.write("".join("? " + ".".join(str(random.getrandbits(8)) for _ in range(4)) + "\n" for _ in range(50)))
    out.write("".join("? " + ":".join(f"{random.getrandbits(16):x}" for _ in range(8)) + "\n" for _ in range(50)))
    out.write("? prefixes\n")
with open(f"{work}/regions.changed", "w") as out:
    for snapshot in (0, 1):
        out.write("\n" * snapshot)
        for page in sorted(random.sample(range(200), 100)):
            permissions, name = random.choice(("r--p", "rw-p")), random.choice(("/lib/a", "[heap]"))
            out.write(f"{page * 4096:x}-{(page + random.randint(1, 2)) * 4096:x} {permissions} 0 00:00 0 {name}\n")
with open(f"{work}/picture", "w") as out:
    for _ in range(40):
        start = random.randint(-500, 500)
        out.write(f"{start} {start + random.randint(0, 60)} {random.choice('abc')}\n")
END
for name in "${tables[@]}"; do
    for table in "$work/$name" "$work/$name".*; do
        if [ ! -f "$table" ]; then continue; fi
        expected "$name" <"$table" >"$work/wanted"
        "$program" "$name" <"$table" >"$work/got" || true
        judge yes "$(cmp -s "$work/wanted" "$work/got" && echo yes || diff "$work/wanted" "$work/got" | head -n 5)" "the whole table ${table##*/}"
    done
done
judge 0 "$(printf 'svg\n1 9 a\n99 99 b\n' | "$program" picture | grep -c '></text>')" "a gap in a picture has no text"
judge "$(cat docs/before.svg)" "$(printf 'svg\n10 49 north\n' | "$program" picture)" "docs/before.svg"
judge "$(cat docs/after.svg)" "$(printf 'svg\n10 49 north\n20 29 south\n' | "$program" picture)" "docs/after.svg"

# ---- Examples and arguments
status_of() { # standard input, the arguments; standard error goes to $work/told
    local status=0 input="$1"
    shift
    "$program" "$@" <"$input" >"$work/printed" 2>"$work/told" || status=$?
    echo "$status"
}
for name in "${tables[@]}"; do
    wanted="0 $(cat "$(example_of "$name" stdout)")"
    judge "$wanted" "$(status_of "$(from "$name")" "$name") $(cat "$work/printed")" "$name: its example"
    { sed 's/$/\r/' "$(from "$name")" && printf '\r\n'; } >"$work/ended"
    judge "$wanted" "$(status_of "$work/ended" "$name") $(cat "$work/printed")" "$name: lines that end with CRLF, and an empty one"
done
is_wrong() { # the arguments
    judge "2 " "$(status_of "$(from ports)" "$@") $(cat "$work/printed")" "the arguments '$*'"
    judge "usage: tables $(IFS='|' && echo "${tables[*]}") < TABLE" "$(cat "$work/told")" "the arguments '$*': standard error"
}
is_wrong
for word in '' port portss Ports ' ports' range_map $'\xff'; do is_wrong "$word"; done
is_wrong ports ''
is_wrong ports ports
is_wrong ports $'\xff'

# ---- Faults
while IFS='|' read -r name line; do
    { head -n 2 "$(from "$name")" && echo "$line" && tail -n 2 "$(from "$name")"; } >"$work/faulty"
    judge 2 "$(status_of "$work/faulty" "$name")" "$name: '$line': status"
    judge "line 3: $line" "$(cat "$work/told")" "$name: '$line': standard error"
    judge '' "$(grep -v ' meets ' "$work/printed" || true)" "$name: '$line': standard output"
done <tests/tables/faulty_lines.txt
printf '0041 ; Latin\n\xff\n' >"$work/faulty"
judge "2 line 2: �" "$(status_of "$work/faulty" scripts) $(cat "$work/told")" "scripts: a line that is no text"
make_refuse
for name in "${tables[@]}"; do
    judge 1 "$(status_of "$work" "$name")" "$name: a folder as input"
    status=0
    "$program" "$name" <"$(from "$name")" >/dev/full || status=$?
    judge 1 "$status" "$name: an output that is full"
    { head -n 4 "$(from "$name")" && grep '^?' "$(from "$name")" || true; } >"$work/short"
    if [ "$name" = regions ]; then { echo && head -n 3 "$(from regions)" | sed 's/ r--p / rw-p /'; } >>"$work/short"; fi
    judge 0 "$(status_of "$work/short" "$name")" "$name: a short table"
    cp "$work/printed" "$work/wanted"
    requests="$(REFUSE_ALL=1 REFUSE_TELL=1 LD_PRELOAD="$work/refuse.so" "$program" "$name" <"$work/short" 2>&1 >/dev/null | sed -n 's/^requests=//p')"
    refusals=0
    for ((nth = 1; nth <= requests; nth++)); do
        status="$(REFUSE_ALL=1 REFUSE_NTH=$nth LD_PRELOAD="$work/refuse.so" status_of "$work/short" "$name")"
        if [ "$status" = 3 ]; then
            refusals=$((refusals + 1))
        else
            judge "0 yes" "$status $(cmp -s "$work/wanted" "$work/printed" && echo yes)" "$name: request $nth of $requests refused"
        fi
    done
    judge yes "$([ "$refusals" -gt 0 ] && echo yes || echo no)" "$name: requests are made that are needed"
done
tell
