#!/usr/bin/env bash
# Each public call is named wherever calls are named, and no other is. The code says which calls there are:
# - the calls of the map, of sets, of tables and of many maps, and the functions that `range_map_blaze` and `range_map_cli` export:
#   docs/CALLS.md has them; a program or test calls each of the map; tests/refusals.txt or tests/refused_calls.txt has each that may
#   fail to allocate;
# - the words of the lines of a script: crates/script/stdin, tests/bad_lines.txt, tests/refusals.txt and docs/SCRIPT.md have them;
# - the functions of bindings/range_map.h: crates/range_map_c and bindings/rust have those that the library exports, docs/CALLS.md and the
#   tests in C those for users;
# - bindings/range_map*.hpp call functions that the library exports, and none that is `static inline` in bindings/range_map.h;
# - the names in Rattle, C++, Rust and Python in the last table of docs/CALLS.md: the map or the binding of the language has them, and a
#   test of the binding.
# Nothing is built. The last line is 'N passed, M failed'.
set -euo pipefail
export LC_ALL=C
cd "$(dirname "${BASH_SOURCE[0]}")/.."
source tests/judge.sh

# Each name of a list must be in another.
are_in() { # the names, those that there are, what is said of one that is missing, with NAME for it
    local names missing
    names="$(grep . <<<"$1" | sort -u)"
    missing="$(comm -23 <(echo "$names") <(sort -u <<<"$2"))"
    while IFS= read -r name; do
        if [ "$name" ]; then failed=$((failed + 1)) && echo "${3/NAME/\`$name\`}"; fi
    done <<<"$missing"
    passed=$((passed + $(wc -l <<<"$names") - $(grep -c . <<<"$missing" || true)))
}
has_each() { are_in "$2" "$3" "$1 lacks NAME"; } # what has them, the names, those that it has
has_no_other() { are_in "$2" "$3" "$1 has NAME, which is no call"; } # what has them, the names that it has, those that there are

# The public calls of a type or a trait and those of the type's traits, or the public functions of crates for ''; if asked, those alone
# that may fail to allocate. Left out is `in_hand`, as in docs/CALLS.md, and what is hidden.
calls_of() { # the type, 'all' or 'fallible', its crates
    local type="$1" which="$2"
    shift 2
    find "${@/#/crates/}" -path '*/src/*.rt' -exec cat {} + | awk -v type="$type" -v which="$which" '
        BEGIN { own = type == ""; begins = "^pub fn " }
        type != "" && /^(impl|pub trait)/ {
            own = $0 ~ " " type "<[^<>]*> [{]$" || $0 ~ "^pub trait " type "<"
            begins = / for |^pub trait/ ? "^    fn " : "^    pub fn "
        }
        type != "" && /^}/ { own = 0 }
        /doc\(hidden\)/ { hidden = 1 }
        /^$/ { hidden = 0 }
        own && $0 ~ begins { match($0, /fn [a-z_0-9]+/); name = substr($0, RSTART + 3, RLENGTH - 3); fails = which == "all" }
        name && /AllocError/ { fails = 1 }
        name && (/[{;]$/ || /^ *(requires|ensures|where)/) { if (fails && !hidden && name != "in_hand") print name; name = hidden = "" }' | sort -u
}

# The functions that a crate exports at its top.
exports_of() { # the crate
    awk 'BEGIN { RS = ";" } /pub use/ && !/doc\(hidden\)/ { sub(/.*::[{]?/, ""); gsub(/[} \n]/, ""); gsub(",", "\n"); print }' \
        "crates/$1/src/lib.rt" | grep -x '[a-z_]*' | sort
}

# The calls in the first columns below headings of docs/CALLS.md, by their names in the code.
on_page() { # '##' or '###', the headings
    local level="$1"
    shift
    awk -v headings="$(printf "|$level %s" "$@")|" '/^#/ { below = index(headings, "|" $0 "|") } below && /^\| .*`/' docs/CALLS.md |
        sed -E 's/\\\|/\x01/g; s/^\| ([^|]*) \|.*/\1/' | grep -o '`[^`]*`' | tr -d '`' | tr '\001' '|' | sed -E '
            s/ -> .*//; s/^&?map$/into_iter/; s/^map\[T\]$/index/; s/^(Display|Debug)$/fmt/; s/^a < b$/partial_cmp/; s/^!a$/not/; s/^a == b$/eq/
            s/^a \| b$/bitor/; s/^a & [bs]$/bitand/; s/^a - [bs]$/sub/; s/^a \^ b$/bitxor/
            s/^[A-Za-z]*:://; s/^[^(]*\b([a-z_0-9]+)\(.*/\1/' | { grep -x '[a-z_0-9]*' || true; } | sort -u
}

# The calls of a script's lines, with the steps of `run`.
calls_in() { # the file
    sed 's/^[!?] //' "$1" | awk '
        { call = $2 }
        $1 == "sweep" { call = $1 }
        $2 == "=" { call = $3 ~ /^&?[a-dst]$/ ? $4 : $3 }
        { print call }
        call == "run" { for (place = 3; place <= NF; place++) if (place == 3 || $(place - 1) ~ /;$/) print $place }' | tr -d ';' | sort -u
}

# ---- The calls of the library
map_headings=(Make 'Look up' Change Combine 'Join and transform' Iterate 'Take apart' 'Compare and print')
map="$(calls_of RangeMapBlaze all range_map_blaze && calls_of IntoRangeMapBlaze all range_map_blaze)"
libraries=(blaze_{int,entries,table,streams,iters} range_map_{blaze,multi,cli})
functions="$(find "${libraries[@]/#/crates/}" -path '*/src/*.rt' -exec grep -hoE '\bfn [a-z_0-9]+' {} + | sed 's/^fn //' | sort -u)"
has_each "docs/CALLS.md, of the map," "$map" "$(on_page "##" "${map_headings[@]}")"
has_no_other "docs/CALLS.md, of the map," "$(on_page "##" "${map_headings[@]}")" "$map"
has_each "docs/CALLS.md, of sets," "$(calls_of RangeSetBlaze all blaze_table)" "$(on_page "##" Sets)"
has_no_other "docs/CALLS.md, of sets," "$(on_page "##" Sets)" "$(calls_of RangeSetBlaze all blaze_table)"
has_each "docs/CALLS.md, of tables," "$(calls_of RangeTable all blaze_table)" "$(on_page "##" Tables)"
has_each "docs/CALLS.md, of many maps," "$(calls_of 'Multiway[A-Za-z]*' all range_map_multi)" "$(on_page '##' 'Many maps')"
others=("Many maps" Streams "Keys and lengths" Tables "Lists of steps, and the program")
has_each docs/CALLS.md "$(exports_of range_map_blaze && exports_of range_map_cli)" "$(on_page "##" "${others[@]}")"
has_no_other docs/CALLS.md "$(on_page "##" "${others[@]}")" "$functions"

# ---- The words of a script
words="$(grep -hv 'push_str\|map_or' crates/script{/src/calls,_calls/src,_makes/src}/*.rt | grep -oE '"([a-z_]*[a-z]|[|&!^-]|==)"' | tr -d '"' | sort -u)"
has_each crates/script/stdin "$words" "$(calls_in crates/script/stdin)"
has_each tests/bad_lines.txt "$words" "$(calls_in tests/bad_lines.txt)"
has_each docs/SCRIPT.md "$words" "$(grep -oE '`[^`]*`|<code>[^<]*' docs/SCRIPT.md | sed 's/&#124;/|/g' | tr -c 'a-z_|&!^=\n-' '\n')"
swept="$(grep '^[!?] ' tests/refusals.txt >"$work/swept" && calls_in "$work/swept")"
has_each tests/refusals.txt "$words" "$swept"
has_no_other tests/refusals.txt "$swept" "$words"$'\n'"$(sed 's/^/into_/' <<<"$words")"

# ---- Calls that a program makes, and calls that may fail to allocate
by_lines="$(sed -E 's/^many_//; s/^\|$/bitor/; s/^&$/bitand/; s/^-$/sub/; s/^\^$/bitxor/; s/^!$/not/; s/^==$/eq/; s/^list$/fmt/; s/^hashes_as$/hash/' <<<"$swept")"
made="$(grep -rhoE '[.:][a-z_0-9]+' crates/{script,script_calls,script_makes,check_refused_calls}/src tests/{examples,library,crate_examples} | tr -d '.:')"
are_in "$map" "$made"$'\n'"$by_lines" "no program or test of the gate calls NAME"
refused="$(sed -E 's/^[?][0-9]* //; s/^[A-Z][A-Za-z]*:://; s/^([a-z_]*).*/\1/' tests/refused_calls.txt)"
are_in "$(calls_of '(Into)?RangeMapBlaze' fallible range_map_blaze && calls_of 'Multiway[A-Za-z]*' fallible range_map_multi)" "$by_lines"$'\n'"$refused" \
    "neither tests/refusals.txt nor tests/refused_calls.txt has NAME"
fallible="$(calls_of '' fallible "${libraries[@]}")"
exported="$(exports_of range_map_blaze | grep -xF -e "$fallible")"
has_each tests/refused_calls.txt "$exported"$'\n'"$(calls_of 'Range(Table|SetBlaze)' fallible blaze_table)" "$refused"
has_no_other tests/refused_calls.txt "$(grep . <<<"$refused")" "$functions"

# ---- The functions for C
exports="$(grep -v '^static inline' bindings/range_map.h | grep -oE '^[a-z0-9_]+ +range_[a-z_]+\(' | grep -oE 'range_[a-z_]+' | sort)"
for_users="$(awk '/^static inline|^[a-z0-9_]+ +range_[a-z_]+\(/ && !alone { match($0, /range_[a-z_]+\(/); print substr($0, RSTART, RLENGTH - 1) }
    { alone = /For .* alone\. \*\/$/ }' bindings/range_map.h | grep -v '_unchecked$' | sort)"
exporting="$(grep -rhoE 'extern "C" fn range_[a-z_]+' crates/range_map_c/src | grep -oE 'range_[a-z_]+')"
has_each bindings/range_map.h "$exporting" "$exports"
has_no_other bindings/range_map.h "$exports" "$exporting"
# (in Rust a new map is a word that is zero)
has_each bindings/rust/src/ffi.rs "$(grep -vx range_map_new <<<"$exporting")" "$(grep -oE 'range_[a-z_]+' bindings/rust/src/ffi.rs)"
on_c_page="$(on_page '###' 'Make and free' Change 'Look up' Walk 'Gaps and counts' Operators 'Version and helpers' | sed 's/^/range_map_/'
    on_page '###' 'Tables, to save and load' | sed 's/^/range_table_/; s/^range_table_range_/range_/')"
has_each "docs/CALLS.md, of C," "$for_users" "$on_c_page"
has_no_other "docs/CALLS.md, of C," "$on_c_page" "$for_users"
in_each_language="$(on_page '###' 'In each language' | sed 's/^/range_map_/; s/^range_map_range_table_/range_table_/')"
has_each "docs/CALLS.md, in each language," "$for_users" "$in_each_language"
has_no_other "docs/CALLS.md, in each language," "$in_each_language" "$for_users"
are_in "$for_users" "$(grep -hoE 'range_(map|table)_[a-z_]+\(' tests/c/*.c | tr -d '(')" "no test in C calls NAME"

# ---- What the tables for C name in other languages, except what these have themselves
in_column() { # the language
    awk -v language="$1" '
        /^## From C$/ { inside = 1 }
        inside { gsub(/\\\|/, ""); count = split($0, cells, / *\| */) }
        inside && cells[2] == "C" { for (column = count; column && cells[column] != language; column--) { } }
        inside && column && cells[2] ~ /`/ { print cells[column] }' docs/CALLS.md |
        grep -o '`[^`]*`' | sed -E 's/`([^`(]*).*/\1/' | grep -xE '[a-z_]+' | grep -vxE 'map|collect|is|len|reversed'
}
has_no_other "docs/CALLS.md, of Rattle," "$(in_column Rattle)" "$map"$'\n'union
has_each 'bindings/range_map*.hpp' "$(in_column C++)" "$(grep -hoE '\b[a-z_]+\(' bindings/range_map*.hpp | tr -d '(')"
has_each tests/cpp "$(in_column C++)" "$(grep -hoE '[a-z_]+\(' tests/cpp/*.cpp | tr -d '(')"
# (a template that calls a static function is another one in each file of a program)
are_in "$(grep -hvE '^ *(#|//)' bindings/range_map*.hpp | grep -oE '\brange_(map|table)_[a-z_]+\b')" "$exports" \
    'bindings/range_map*.hpp have NAME, which the library does not export'
has_each bindings/rust/src "$(in_column Rust)" "$(grep -rhoE '\bfn [a-z_]+' bindings/rust/src | sed 's/fn //')"
has_each bindings/rust/tests "$(in_column Rust)" "$(grep -rhoE '[.:][a-z_]+' bindings/rust/tests | tr -d '.:')"
has_each bindings/python/range_map/__init__.pyi "$(in_column Python)" "$(grep -oE 'def [a-z_]+' bindings/python/range_map/__init__.pyi | sed 's/def //')"
has_each tests/python "$(in_column Python)" "$(grep -hoE '\.[a-z_]+' tests/python/*.py | tr -d '.')"
tell
