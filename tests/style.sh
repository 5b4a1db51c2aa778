#!/usr/bin/env bash
# Tests how the pages, doc comments, help texts, and comments of specs and of scripts are written. tests/style.py finds words that plainer
# ones replace, and sentences of more than 30 words on the pages for users and in doc comments. The last line is 'N passed, M failed',
# counted by files.
#
#     tests/style.sh           all files
#     tests/style.sh PATH..    these files, and those in these folders
set -euo pipefail
cd "$(dirname "${BASH_SOURCE[0]}")/.."
source tests/judge.sh

# ---- Each rule finds its example, and code is not read
tests/style.py --examples >"$work/examples.md"
judge "$(grep -c . "$work/examples.md")" "$({ tests/style.py "$work/examples.md" || true; } | cut -d : -f 2 | sort -u | wc -l)" "the examples that are found"
{
    printf 'An `answers a` of code.\n\n    refused\n\n```\nlent\n```\n\n'
    printf 'word %.0s' {1..30}
    printf '.\n'
} >"$work/README.md"
judge '' "$(tests/style.py "$work/README.md")" "a page with nothing to find"
{ printf 'word %.0s' {1..31} && printf '.\n'; } >"$work/README.md"
judge "README.md:1: a sentence of 31 words" "$({ tests/style.py "$work/README.md" || true; } | sed "s|^$work/||; s|words: .*|words|")" "a long sentence"

# ---- The files
paths=("$@")
if [ "$#" = 0 ]; then
    paths=(README.md CHANGELOG.md docs bindings crates tests bench tools test .ci/run)
fi
mapfile -t files < <(find "${paths[@]}" \( -name out -o -name build -o -name target -o -name examples -o -name wrong \) -prune -o -type f \
    \( -regex '.*\.\(md\|help\|package\|sh\|h\|hpp\|py\|pyx\|pxi\|pyi\)' -o -regex '\(test\|\.ci/run\|tools/[a-z]*\)' \
    -o -path 'crates/*/src/*.rt' -o -path 'crates/*/specs/*.antt' -o -path 'bindings/rust/*.rs' -o -path 'tests/*/*.rs' -o -path 'tests/*.txt' \
    -o -path 'bench/library/*.rs' \) -print | LC_ALL=C sort)
tests/style.py "${files[@]}" | tee "$work/found" || true
found="$(cut -d : -f 1 "$work/found" | sort -u | grep -c . || true)"
failed=$((failed + found))
passed=$((passed + ${#files[@]} - found))
tell
