# Proves and builds the library, and builds the sides in plain Rust. bench/run.sh, bench/growth.sh and bench/instructions.sh read this
# file, from the folder bench. Before that they may list in `needed` what else they need, each a command with its Debian package. Standard
# error says how far it is. If something is missing, it ends with one line and status 70, before any proof.
source ../tools/made_of.sh

say() { echo "bench: $1" >&2; }

need() { # command, where it comes from
    if ! command -v "$1" >/dev/null; then
        say "there is no $1 here ($2)"
        exit 70
    fi
}
need rt 'the toolchain'
need rustc 'Rust'
need g++ 'Debian: g++'
for command in "${!needed[@]}"; do need "$command" "Debian: ${needed[$command]}"; done
kit="$(dirname "$(rt doc)")"
mkdir -p out

# ---- The library, and its side
# `rt` builds only crates of crates.txt. So the files of library/ become a crate in a temporary folder, and `rattle` builds it into out/.
stands_on[bench_library]="range_map_blaze range_map_multi"
prove_side() (
    folder="$(mktemp -d)" || exit
    trap 'rm -rf "$folder"' EXIT
    mkdir "$folder/src"
    for file in library/*.rs; do cp "$file" "$folder/src/$(basename "$file" .rs).rt"; done
    mapfile -t words < <(words_over_libraries bench_library "$PWD/out")
    cd "$folder" || exit
    "$kit/bin/rattle" build "${words[@]}"
)
prove() { # the crate
    if [ "$1" = bench_library ]; then prove_side; else (cd "$root/crates/$1" && rt lib); fi
}
log="$PWD/out/log"
mapfile -t crates < <(crates_of bench_library)
say "proving the library: from nothing, ${proof_takes[rangemap]}"
for at in "${!crates[@]}"; do
    crate="${crates[at]}"
    say "$crate ($((at + 1)) of ${#crates[@]})"
    : >"$log"
    if ! prove "$crate" </dev/null 2>&1 | watch "$crate"; then
        grep -v ': proved$' "$log" >&2 || true
        say "$crate was not proved: the output of its proof is above"
        exit 70
    fi
done

# ---- The other sides
say "building the other sides"
rust=(rustc --edition 2024 -O -C target-cpu=x86-64-v2 -C panic=abort -A dead_code)
for way in one_pass planned as_crate; do
    rustc --edition 2024 -O -C debug-assertions -A dead_code --cfg "$way" --test -o out/plain_test plain.rs
    out/plain_test --quiet >&2
    "${rust[@]}" --cfg "$way" --crate-name "$way" --crate-type staticlib -o "out/lib$way.a" plain.rs
done

# Builds a program from a source in C++, some objects and all sides. Each side in Rust contains std, hence the multiple definitions.
link() { # program, source, objects
    local program="$1"
    shift
    g++ -std=c++17 -O2 -Wall -Wextra -Wl,--allow-multiple-definition -o "out/$program" "$@" out/libone_pass.a \
        out/libplanned.a out/libas_crate.a out/libbench_library.a "$kit/c/liblibc_c.a"
}
