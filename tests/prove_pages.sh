#!/usr/bin/env bash
# What the pages say of the prover holds, over the libraries that `rt ci` proved here:
# - the code of docs/PROVE.md, and the first function of README.md, are in crates/proved_uses, which `rt ci` proves: the same words, whatever
#   the line breaks;
# - the file with which docs/PROVE.md begins is proved, and so are the clauses in its table, by the functions of tests/prove_words.rs;
# - the mistakes of docs/ERRORS.md that only the prover finds get the messages on the page, and so does the function that README.md and
#   docs/PROVE.md make without one clause. The compiler accepts all of them;
# - the right code of these mistakes is proved. (The other code of docs/ERRORS.md is compiled and run by tests/errors.sh.)
#
# There are two checks: one crate has all that is proved, with no proof file, and one all that is rejected. The last line is
# 'N passed, M failed'.
#
#     tests/prove_pages.sh --without-proof    compares the code of the pages, and proves nothing
set -euo pipefail
cd "$(dirname "${BASH_SOURCE[0]}")/.."
source tests/judge.sh

# Text without what only lays it out: line breaks, indents, comments of functions, and the comma behind a last argument.
words_of() { sed 's|^ *//.*||' | tr -s ' \n' ' ' | sed 's/, )/)/g; s/( /(/g; s/ )/)/g'; }

# The blocks of code with this opening line in a text, one a line, as words.
blocks() { # the opening line
    awk -v opening="$1" '
        inside && /^```$/ { inside = 0; printf "\001" }
        inside { print }
        $0 == opening { inside = 1 }'
}

# ---- The code of the pages is in crates/proved_uses
find crates/proved_uses/src -name '*.rt' -exec cat {} + | words_of >"$work/uses"
find crates/proved_uses/proofs -name '*.antt' -exec cat {} + | tr -s ' \n' ' ' >>"$work/uses"
compare() { # the page, its blocks
    local block
    while IFS= read -r -d $'\001' block; do
        judge yes "$(grep -qF -- "$(words_of <<<"$block" | sed 's/^ //; s/ $//')" "$work/uses" && echo yes || echo no)" "$1: code in crates/proved_uses: ${block:0:90}"
    done
}
compare README.md < <(sed '/^## Try it/,$d' README.md | blocks '```rust')
compare docs/PROVE.md < <(blocks '```rust' <docs/PROVE.md)
compare docs/PROVE.md < <(blocks '```antt' <docs/PROVE.md)
judge yes "$([ "$passed" -ge 7 ] && echo yes || echo no)" "seven blocks of code"

# ---- Each clause of the table is in tests/prove_words.rs
words_of <tests/prove_words.rs >"$work/clauses"
while IFS= read -r clause; do
    judge yes "$(grep -qF -- "$clause" "$work/clauses" && echo yes || echo no)" "tests/prove_words.rs has the clause $clause"
done < <(sed -n '/^| to say | write |$/,/^$/{s/^|[^|]*|//p}' docs/PROVE.md | grep -o '`[^`]*`' | tr -d '`' | grep -E '≡|↔|→')
if [ "${1:-}" = --without-proof ]; then
    tell
    exit
fi

source tools/made_of.sh
kit="$(dirname "$(rt doc)")"

# Checks the crate in $work/NAME over the libraries. What it says is in $work/NAME.said, and `status` is its status.
check() { # NAME
    local words name
    words=(--crate-name "$1" src/lib.rt --extern "std=$kit/rlibs/std.rlib" -L "dependency=$kit/rlibs")
    for name in blaze_int range_map_blaze; do words+=(--extern "$name=$root/crates/$name/out/rlib/$name.rlib"); done
    while IFS= read -r name; do words+=(-L "dependency=$root/crates/$name/out/rlib"); done < <(crates_of range_map_blaze)
    words+=(--antt-project "$kit/rattle/logic/antt-project.json" --logic-built "$kit/logic_built" --jobs 1)
    status=0
    (cd "$work/$1" && "$kit/bin/rattle" check "${words[@]}") >"$work/$1.said" 2>&1 </dev/null || status=$?
}

# The second part of docs/ERRORS.md: the lines above all functions, the number of sections, and the code and message of a section.
alone="$(sed '1,/^## Found by the prover alone$/d' docs/ERRORS.md)"
head="$(blocks '```rust head' <<<"$alone" | tr -d '\001')"
sections="$(grep -c '^### ' <<<"$alone")"
section() { awk -v wanted="$1" '/^### / { at++ } at == wanted' <<<"$alone"; }
code() { # section, 1 for the mistake or 2 for the right code
    section "$1" | blocks '```rust' | cut -d $'\001' -z -f "$2" | tr -d '\000'
}
# Lines of `rt check`, on a page or not, without the place in the file, and without how the search ended.
plain() {
    sed 's/^note: //; s|^src/[^ ]*: ||; s|^`[^`]*` of proofs/[^ ]* ||
        s/; `search` gave up at one of its limits$//; s/; the facts known there allow values at which this goal is false$//'
}
message() { awk '/^```/ { inside = !inside } !inside && /^    / { print substr($0, 5) }' | plain; }

# ---- What is proved
mkdir -p "$work/proved/src" "$work/rejected/src"
blocks '```rust file' <docs/PROVE.md | tr -d '\001' >"$work/first"
grep -v '^#!\[tactic(auto)\]$' "$work/first" >"$work/proved/src/first.rt"
cp tests/prove_words.rs "$work/proved/src/clauses.rt"
for ((each = 1; each <= sections; each++)); do printf '%s\n' "$head" "$(code "$each" 2)" >"$work/proved/src/right_$each.rt"; done
root_of() { # the folder of a crate
    {
        printf '%s\n' '#![tactic(auto)]' '#![allow(unused)]'
        for file in "$1"/src/*.rt; do if [ "${file##*/}" != lib.rt ]; then echo "pub mod $(basename "$file" .rt);"; fi; done
    } >"$1/src/lib.rt"
}
root_of "$work/proved"
check proved
judge 0 "$status" "the proof of what is right"
judge logic=proved "$(tail -n 1 "$work/proved.said" | cut -d ' ' -f 1)" "the verdict"
if [ "$status" != 0 ]; then grep -E 'error|it is not proved|no proof' "$work/proved.said" || tail -n 20 "$work/proved.said"; fi

# ---- What is rejected
for ((each = 1; each <= sections; each++)); do printf '%s\n' "$head" "$(code "$each" 1)" >"$work/rejected/src/wrong_$each.rt"; done
sed '/^    requires to /d' "$work/proved/src/first.rt" >"$work/rejected/src/first.rt"
root_of "$work/rejected"
check rejected
judge 1 "$status" "the check of what is rejected"
judge 0 "$(grep -c 'error' "$work/rejected.said" || true)" "errors of the compiler"

# The messages about a file: that its goal is not proved, and what the goal is.
said_of() { # file, without .rt
    grep "^note: src/$1\.rt:" "$work/rejected.said" | plain
    grep "^note: \`[^\`]*\` of proofs/$1/[^ ]* must prove" "$work/rejected.said" | plain
}
for ((each = 1; each <= sections; each++)); do
    judge "$(section "$each" | message)" "$(said_of "wrong_$each")" "the message of $(section "$each" | head -n 1)"
done
told="$(said_of first)"
judge "$(sed '/^## Try it/,$d' README.md | message)" "$(head -n 1 <<<"$told")" "the message of README.md"
judge "$(sed -n '/^## A rejection/,/^## /p' docs/PROVE.md | message)" "$told" "the message of docs/PROVE.md"
grep -o 'processor time.*' "$work"/*.said || true
tell
