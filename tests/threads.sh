#!/usr/bin/env bash
# The program of docs/TASKS.md that gives a map to another thread is proved, over the libraries that `rt ci` proved here, with no proof
# file. It prints what its comment says. The program needs a handle, so it is no crate of this repository: it is checked in a folder of its
# own, and `rt try` runs it in a copy of the sources. The last line is 'N passed, M failed'.
set -euo pipefail
cd "$(dirname "${BASH_SOURCE[0]}")/.."
source tests/judge.sh
source tools/made_of.sh
kit="$(dirname "$(rt doc)")"
tar --exclude=out -cf - crates crates.txt | tar -C "$work" -xf -
echo "Handles allowed: Threads." >"$work/HANDLES"
echo "threads: range_map_blaze" >>"$work/crates.txt"
program="$work/crates/threads"
mkdir -p "$program/src"
sed -n '/^```rust threads$/,/^```$/{/^```/d; p}' docs/TASKS.md >"$program/src/main.rt"
prints="$(sed -n 's|^//! Prints "\(.*\)"\.$|\1|p' "$program/src/main.rt")"

words=(--crate-name threads src/main.rt --extern "std=$kit/rlibs/std.rlib" -L "dependency=$kit/rlibs")
words+=(--extern "range_map_blaze=$root/crates/range_map_blaze/out/rlib/range_map_blaze.rlib")
while IFS= read -r name; do words+=(-L "dependency=$root/crates/$name/out/rlib"); done < <(crates_of range_map_blaze)
words+=(--antt-project "$kit/rattle/logic/antt-project.json" --logic-built "$kit/logic_built")
cd "$program"
status=0
"$kit/bin/rattle" check "${words[@]}" >"$work/said" 2>&1 </dev/null || status=$?
judge 0 "$status" "the proof of the program"
if [ "$status" != 0 ]; then tail -n 20 "$work/said"; fi
judge logic=proved "$(tail -n 1 "$work/said" | cut -d ' ' -f 1)" "the verdict of the program"
judge "$prints" "$(rt try 2>"$work/said" </dev/null)" "what the program prints"
tell
