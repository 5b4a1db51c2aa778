#!/usr/bin/env bash
# Tests the package of the Rust crate: what `cargo package` packs, and a program that is built with the unpacked package alone. Also tested:
# which archives and targets the build script rejects, and the errors of the example. RANGE_MAP_OUT names the folder of the built library;
# without it this is bindings/out. Nothing is downloaded. The last line is 'N passed, M failed'.
set -euo pipefail
source "$(dirname "$(readlink -f "${BASH_SOURCE[0]}")")/judge.sh"
if ! command -v cargo >/dev/null; then
    echo "rust_package: there is no cargo here: left out"
    tell
    exit
fi
top="$(cd "$tests/.." && pwd)"
crate="$top/bindings/rust"
built="$(readlink -f "${RANGE_MAP_OUT:-$top/bindings/out}")"
unset PKG_CONFIG PKG_CONFIG_PATH
export CARGO_TARGET_DIR="$work/target" CARGO_NET_OFFLINE=true RANGE_MAP_LIB_DIR="$built"

# A command that must succeed. What a failed one printed follows.
does() { # what it is called here, the command
    local what="$1" status=0
    shift
    "$@" >"$work/said" 2>&1 || status=$?
    judge 0 "$status" "$what"
    if [ "$status" != 0 ]; then tail -n 20 "$work/said"; fi
}
# A command that must fail with a status, and print a text.
fails() { # what it is called here, the status, the text, the command
    local what="$1" wanted="$2" text="$3" status=0
    shift 3
    "$@" >"$work/said" 2>&1 || status=$?
    judge "$wanted" "$status" "$what: status"
    judge yes "$(grep -qF -- "$text" "$work/said" && echo yes || echo no)" "$what: '$text'"
}
value_of() { sed -n "s/^$1 = \"\(.*\)\"/\1/p" "$crate/Cargo.toml"; } # a name in Cargo.toml

# ---- The package
version="$(sed -n 's/^#define RANGE_MAP_VERSION "\(.*\)"/\1/p' "$top/bindings/range_map.h")"
judge "$version" "$(value_of version)" "the version"
judge "MIT OR Apache-2.0" "$(value_of license)" "the license"
judge yes "$([ "$(value_of description)" ] && echo yes)" "a description"
does "cargo package" cargo package --allow-dirty --manifest-path "$crate/Cargo.toml"
# (nobody has published the repository, so that there is no address to name)
judge "manifest has no documentation, homepage or repository" "$(sed -n 's/^warning: //p' "$work/said")" "warnings of cargo package"
does "the package, unpacked" tar -C "$work" -xzf "$work/target/package/range_map-$version.crate"
unpacked="$work/range_map-$version"
judge '' "$(find "$unpacked" -type l)" "links in the package"
for file in LICENSE LICENSE-MIT LICENSE-APACHE; do
    judge '' "$(cmp "$top/$file" "$unpacked/$file" 2>&1)" "$file of the package"
done
judge README.md "$(sed -n 's/^readme = "\(.*\)"/\1/p' "$unpacked/Cargo.toml")" "the page of the package"
judge '' "$(cmp "$crate/README.md" "$unpacked/README.md" 2>&1)" "README.md of the package"

# ---- A program with the package alone: the example of its page
mkdir -p "$work/program/src"
printf '[package]\nname = "program"\nversion = "0.1.0"\nedition = "2021"\n[dependencies]\nrange_map = { path = "%s" }\n' "$unpacked" \
    >"$work/program/Cargo.toml"
sed -n '/^```rust$/,/^```$/p' "$crate/README.md" | sed '1d; $d; s|^    Ok(())|    println!("{map}");\n&|' >"$work/program/src/main.rs"
does "a program with the package" cargo build -q --manifest-path "$work/program/Cargo.toml"
judge "(10..=19, 1), (20..=29, 2), (30..=49, 1)" "$("$work/target/debug/program" 2>&1)" "what it prints"
sed -n '/^```rust crate$/,/^```$/{/^```/d; p}' "$top/docs/TASKS.md" >"$work/program/src/main.rs"
does "the program of docs/TASKS.md" cargo run -q --manifest-path "$work/program/Cargo.toml"

# ---- What the build script rejects
check=(cargo check -q --manifest-path "$unpacked/Cargo.toml")
for target in aarch64-unknown-linux-gnu x86_64-unknown-linux-musl x86_64-unknown-linux-gnux32 i686-unknown-linux-gnu x86_64-apple-darwin; do
    fails "the target $target" 101 "the target $target is not supported: the library is for x86-64 Linux with glibc" \
        "${check[@]}" --target "$target"
done
mkdir "$work/out" "$work/range_map-$version/relative"
cp "$built/librange_map.a" "$work/out"
cp "$built/librange_map.a" "$work/range_map-$version/relative"
for folder in out relative; do # one is a folder for the caller, one for the build script
    fails "the relative path $folder" 101 "RANGE_MAP_LIB_DIR is the relative path '$folder', which means $unpacked/$folder here" \
        env -C "$work" RANGE_MAP_LIB_DIR="$folder" "${check[@]}"
done
fails "a folder without an archive" 101 "RANGE_MAP_LIB_DIR is $work/program, which does not contain librange_map.a" \
    env RANGE_MAP_LIB_DIR="$work/program" "${check[@]}"
# An object for ARM: its machine, at byte 18, is 183.
mkdir "$work/arm"
(
    cd "$work/arm"
    ar x "$built/librange_map.a"
    for object in *; do printf '\267' | dd of="$object" bs=1 seek=18 conv=notrunc status=none; done
    ar rcS librange_map.a -- *
)
fails "an archive for ARM" 101 "$work/arm/librange_map.a is not an archive of objects for x86-64 Linux" \
    env RANGE_MAP_LIB_DIR="$work/arm" "${check[@]}"
mkdir "$work/text"
echo '!<arch>' >"$work/text/librange_map.a"
fails "an empty archive" 101 "$work/text/librange_map.a is not an archive of objects" env RANGE_MAP_LIB_DIR="$work/text" "${check[@]}"

# ---- The example: errors of reading and writing
does "the example" cargo build -q --manifest-path "$unpacked/Cargo.toml" --example owners
owners="$work/target/debug/examples/owners"
table="$top/bindings/examples/blocks.2002"
fails "a folder for a table" 1 "owners: $work: Is a directory" "$owners" "$table" "$work"
fails "a read error" 1 "owners: /proc/self/mem: Input/output error" "$owners" /proc/self/mem "$table"
fails "no such file" 1 "owners: /nowhere: No such file" "$owners" "$table" /nowhere
fails "a full disk" 1 "owners: No space left on device" bash -c '"$@" >/dev/full' '' "$owners" "$table" "$top/bindings/examples/blocks.2013"
tell
