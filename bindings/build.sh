#!/usr/bin/env bash
# Proves the library for C and builds it in out/: librange_map.a, librange_map.so.0 with the link librange_map.so, and PROOF, which says
# what was proved. What is proved is kept in the crates' out/, so a later run goes on from there.
#
#     bindings/build.sh               proves what is not proved yet
#     bindings/build.sh --as-proved   takes the libraries that `rt ci` has just proved here, and proves the crate range_map_c alone
#
# Standard error says how far it is. Exit status: 0 success; 2 wrong arguments; 70 not proved; 130 stopped. Nothing is written outside of
# the repository. If another run goes on here, this one waits for its end (by `flock`; without it, start one run at a time).
set -euo pipefail
source "$(dirname "$(readlink -f "${BASH_SOURCE[0]}")")/../tools/made_of.sh"
crate=range_map_c
out="$root/bindings/out"
usage="usage: bindings/build.sh [--as-proved]"
takes="20 to 40 minutes on four processors"

say() { echo "build: $1" >&2; }

# Waits for the end of another run in this folder. The lock is that of descriptor 9, and ends with this process.
wait_for_others() {
    if ! command -v flock >/dev/null; then return; fi
    exec 9>>"$out/lock"
    if flock -n 9; then return; fi
    say "another bindings/build.sh proves the library in $root: waiting for its end"
    flock 9
}

# Runs a command in a crate's folder, and says each half minute how far it is.
prove() { # the crate, the command
    local name="$1"
    shift
    : >"$log"
    if ! (cd "$root/crates/$name" && "$@" </dev/null 2>&1 9>&-) | watch "$name"; then
        if [ -n "$stopped" ]; then exit 130; fi
        grep -Ev ': proved$|^(statements|library|checked|so far|ahead)' "$log" >&2 || true
        say "$name was not proved: what \`$(basename "$1")\` said in crates/$name is above"
        exit 70
    fi
}

# The crate and its dependencies, each after its own dependencies.
prove_all() {
    local crates at
    mapfile -t crates < <(crates_of "$crate")
    say "proving $crate and its dependencies: from nothing, $takes"
    for at in "${!crates[@]}"; do
        say "${crates[at]} ($((at + 1)) of ${#crates[@]})"
        prove "${crates[at]}" rt lib
    done
}

# The crate over the libraries in the crates' out/rlib.
prove_as_proved() {
    local words
    if [ "$made" != "$(cat "$(note_of "$crate")" 2>/dev/null)" ]; then
        say "the sources are not those that \`rt ci\` proved here"
        exit 70
    fi
    mapfile -t words < <(words_over_libraries "$crate" out)
    mkdir -p "$root/crates/$crate/out"
    say "proving $crate over the libraries that are proved"
    prove "$crate" "$kit/bin/rattle" build "${words[@]}"
}

# The archive has what it takes of the C library's part too, so that a program links one file. `ar` takes no path with a space.
link_library() {
    rm -f "$out"/librange_map.*
    ln -s "$root/crates/$crate/out/lib$crate.a" "$work/proved.a"
    ln -s "$kit/c/liblibc_c.a" "$work/libc.a"
    (cd "$work" && printf '%s\n' 'CREATE librange_map.a' 'ADDLIB proved.a' 'ADDLIB libc.a' SAVE | ar -M)
    mv "$work/librange_map.a" "$out"
    printf '{ global: range_map_*; range_table_*; local: *; };\n' >"$work/names"
    cc -shared -Wl,-soname,librange_map.so.0 -Wl,--version-script="$work/names" -Wl,--whole-archive "$out/librange_map.a" \
        -Wl,--no-whole-archive -o "$out/librange_map.so.0"
    ln -s librange_map.so.0 "$out/librange_map.so"
}

# What was proved, of which text, and what was built of it.
write_proof() {
    local commit
    commit="$(git -C "$root" rev-parse HEAD 2>/dev/null || echo unknown)"
    if [ -n "$(git -C "$root" status --porcelain -- crates crates.txt 2>/dev/null)" ]; then commit="$commit, and changes"; fi
    mkdir "$work/objects"
    (cd "$work/objects" && ar x "$out/librange_map.a")
    {
        echo "toolchain: $(rt version </dev/null)"
        echo "commit: $commit"
        echo "sources: sha256 $(sha256sum <<<"$made" | cut -d ' ' -f 1)"
        echo "proof: $(grep '^logic=' "$log" | tail -n 1)"
        echo "objects of librange_map.a, sha256:"
        (cd "$work/objects" && sha256sum -- *)
    } >"$out/PROOF"
}

case "$*" in
    '' | --as-proved) ;;
    --help)
        sed -n '/^#!/d; s/^# \{0,1\}//p; /^set /q' "${BASH_SOURCE[0]}"
        exit
        ;;
    *)
        say "'$*' is not understood"
        echo "$usage" >&2
        exit 2
        ;;
esac
if ! command -v rt >/dev/null; then
    say "there is no toolchain (\`rt\`) here"
    exit 70
fi
kit="$(dirname "$(rt doc)")"
mkdir -p "$out"
wait_for_others
made="$(made_of "$crate")"
if [ -f "$out/librange_map.a" ] && [ -f "$out/librange_map.so.0" ] && [ -f "$out/PROOF" ] && [ "$made" = "$(cat "$out/made_of" 2>/dev/null)" ]; then
    say "$out is built"
    exit
fi
work="$(mktemp -d -p "$out")"
log="$work/log"
stopped=''
trap 'rm -rf "$work"' EXIT
trap 'stopped=yes; say "stopped after $(clock "$SECONDS"): the crates that are done are kept, and build.sh goes on from there"; exit 130' INT
rm -f "$out/made_of"
if [ "$*" = --as-proved ]; then prove_as_proved; else prove_all; fi
link_library
write_proof
printf '%s\n' "$made" >"$out/made_of"
say "$out/librange_map.a and librange_map.so.0 are built, in $(clock "$SECONDS")"
