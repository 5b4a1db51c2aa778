#!/usr/bin/env bash
# Tests bindings/build.sh, and how bindings/Makefile starts it, over a copy of the sources in a folder with a space in its name. A stand-in
# for `rt` proves nothing: it counts its starts, and gives the built library of the folder RANGE_MAP_OUT as what it proved. The last line
# is 'N passed, M failed'.
set -euo pipefail
cd "$(dirname "${BASH_SOURCE[0]}")/.."
source tests/judge.sh
copy="$work/a clone"
mkdir -p "$copy/bindings/out" "$work/bin" "$work/kit/c"
cp -r crates.txt tools LICENSE* "$copy"
cp -r bindings/{build.sh,Makefile,range_map*,README.package,examples} "$copy/bindings"
while IFS= read -r file; do install -D -m 644 "$file" "$copy/$file"; done < <(git ls-files 'crates/*.rt' 'crates/*.antt')
cat >"$work/bin/rt" <<'END'
#!/bin/sh
case "$1" in
    version) echo stand-in ;;
    doc) echo "$KIT/doc" ;;
    *)
        if [ ! "$PROVED" ]; then echo "no proof today" && exit 1; fi
        crate="$(basename "$PWD")"
        echo "$crate" >>"$STARTS"
        mkdir -p out
        cp "$PROVED" "out/lib$crate.a"
        sleep 0.1
        echo "logic=none"
        ;;
esac
END
chmod +x "$work/bin/rt"
echo 'int range_map_stand_in;' >"$work/libc.c"
cc -c -o "$work/libc.o" "$work/libc.c"
ar rcs "$work/kit/c/liblibc_c.a" "$work/libc.o"
export PATH="$work/bin:$PATH" KIT="$work/kit" STARTS="$work/starts" PROVED=''

# ---- What build.sh rejects
build() { # what it is called here, the text that standard error must have, the arguments
    local what="$1" text="$2" status=0
    shift 2
    "$copy/bindings/build.sh" "$@" >"$work/said" 2>&1 || status=$?
    judge 70 "$status" "$what: status"
    judge yes "$(grep -qF "$text" "$work/said" && echo yes || echo no)" "$what: '$text'"
}
build "build.sh --as-proved without a proof" "the sources are not those that" --as-proved
(
    source "$copy/tools/made_of.sh"
    mkdir -p "$copy/crates/range_map_c/out"
    made_of range_map_c | tee "$(note_of range_map_c)" >"$copy/bindings/out/made_of"
    touch "$copy/bindings/out/librange_map.so.0" "$copy/bindings/out/PROOF"
)
build "build.sh without the archive" "blaze_int was not proved"
echo '// changed' >>"$copy/crates/blaze_int/src/lib.rt"
build "build.sh --as-proved over changed sources" "the sources are not those that" --as-proved
judge 2 "$("$copy/bindings/build.sh" --as >"$work/said" 2>&1 && echo 0 || echo $?)" "build.sh with a wrong argument"

# ---- Each crate is proved once, whatever starts build.sh
PROVED="$(realpath "${RANGE_MAP_OUT:-bindings/out}")/librange_map.a"
unset RANGE_MAP_OUT # (make would take it)
crates="$(source tools/made_of.sh && crates_of range_map_c | sort)"
afresh() { rm -rf "$copy/bindings/out" "$STARTS"; }
proved_once() { judge "$crates" "$(sort "$STARTS" 2>/dev/null)" "$1: the crates that were proved"; } # what it is called here
does() { # what it is called here, the command
    local what="$1" status=0
    shift
    "$@" >"$work/said" 2>&1 || status=$?
    judge 0 "$status" "$what"
    if [ "$status" != 0 ]; then tail -n 5 "$work/said"; fi
    proved_once "$what"
}
make=(make --no-print-directory -C "$copy/bindings" -j4)
afresh
does "make -j4 check in a fresh clone" "${make[@]}" check
judge 'all examples print what they should' "$(grep '^all ' "$work/said")" "what make check says"
judge "librange_map.so.0" "$(readlink "$copy/bindings/out/librange_map.so")" "the link librange_map.so"
does "make check, again" "${make[@]}" check
if command -v flock >/dev/null; then
    afresh
    does "make -j4 of two goals that build" "${make[@]}" all check
    afresh
    "$copy/bindings/build.sh" >"$work/first" 2>&1 &
    while [ ! -s "$STARTS" ]; do sleep 0.05; done
    does "build.sh beside another" "$copy/bindings/build.sh"
    judge 0 "$(wait $! && echo 0 || echo $?)" "build.sh beside another, the first: status"
    judge 1 "$(grep -c "waiting for its end" "$work/said")" "build.sh beside another: what it says"
    judge 1 "$(grep -c "is built$" "$work/said")" "build.sh beside another: what it does then"
else
    echo "bindings_build: there is no flock here: two runs at once are left out"
fi
tell
