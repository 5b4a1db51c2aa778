#!/usr/bin/env bash
# Tests bindings/, over the library that bindings/build.sh makes:
# - the header as C99 and as C++, without a warning, and that it declares what the library exports;
# - each function with each of its allocations failing in turn (tests/c/calls.c), and random calls against a model
#   (tests/c/random_calls.c), both under valgrind too, or under sanitizers if there is no valgrind;
# - lookups from four threads (tests/c/threads.c), and maps that go from thread to thread (tests/c/hand_over.c), under helgrind and DRD too;
# - the C++ header (tests/cpp), and its lines in docs/TASKS.md (tests/cpp_tasks.sh);
# - the package (tests/package.sh), and build.sh (tests/bindings_build.sh);
# - the Python module (tests/python) and the Rust crate, with the examples of their docs, and their packages (tests/python_package.sh,
#   tests/rust_package.sh);
# - the example in each language, on random tables, against bindings/examples/expected.py (tests/examples.py);
# - the program of README.md.
# A test whose tool is missing is left out, and named. The last line is 'N passed, M failed'.
#
# RANGE_MAP_OUT names a folder with librange_map.a, librange_map.so.0 and PROOF to test; without it bindings/build.sh makes them.
set -euo pipefail
cd "$(dirname "${BASH_SOURCE[0]}")/.."
source tests/judge.sh
if [ -z "${RANGE_MAP_OUT:-}" ]; then
    bindings/build.sh
    RANGE_MAP_OUT=bindings/out
fi
out="$(realpath "$RANGE_MAP_OUT")"
library="$out/librange_map.a"
export RANGE_MAP_OUT="$out" CARGO_TARGET_DIR="$work/target"

has() { # a tool
    command -v "$1" >/dev/null || { echo "bindings: there is no $1 here: left out" && false; }
}
builds() { # what it is called here, the command
    local what="$1"
    shift
    judge '' "$("$@" 2>&1 | head -n 20)" "$what"
}
# A test whose last line is 'N passed, M failed'.
counts() { # what it is called here, the command
    local what="$1" status=0
    shift
    "$@" >"$work/said" 2>&1 || status=$?
    if [[ "$(tail -n 1 "$work/said")" =~ ^([0-9]+)\ passed,\ ([0-9]+)\ failed$ ]]; then
        passed=$((passed + BASH_REMATCH[1]))
        failed=$((failed + BASH_REMATCH[2]))
    fi
    judge 0 "$status" "$what"
    # (also of a test that passes: what it left out)
    if [ "$status" != 0 ]; then tail -n 20 "$work/said"; else grep 'left out$' "$work/said" || true; fi
}

# ---- C
strict=(-Wall -Wextra -pedantic -Werror -g -O1 -I bindings)
wrap=(-Wl,--wrap=malloc,--wrap=realloc,--wrap=free)
wrap_calls=("${wrap[@]}" -Wl,--wrap=range_map_new)
calls=(tests/c/{allocation,arguments,calls,failing,lookups,maps,results,unchanged}.c)
builds "C99" cc -std=c99 "${strict[@]}" -o "$work/c99" "${calls[@]}" "$library" "${wrap_calls[@]}"
counts "failing allocations from C" "$work/c99"
builds "random calls" cc -std=c99 "${strict[@]}" -o "$work/random" tests/c/{allocation,change,check,model,quiet,random_calls}.c "$library" "${wrap[@]}"
counts "random calls from C" "$work/random" 60000 "$RANDOM"
builds "threads" cc -std=gnu99 "${strict[@]}" -pthread -o "$work/threads" tests/c/threads.c "$library"
counts "lookups from four threads" "$work/threads"
builds "maps that go to other threads" cc -std=gnu99 "${strict[@]}" -pthread -o "$work/hand_over" tests/c/hand_over.c "$library"
counts "maps that go from thread to thread" "$work/hand_over"
if has c++; then
    builds "C++" c++ -std=c++11 "${strict[@]}" -o "$work/c++" -x c++ "${calls[@]}" -x none "$library" "${wrap_calls[@]}"
    counts "failing allocations from C++" "$work/c++" 40
fi
if has clang; then builds "clang" clang -std=c99 "${strict[@]}" -fsyntax-only "${calls[@]}"; fi
declared="$(grep -v '^static inline' bindings/range_map.h | grep -oE '^[a-z0-9_]+ +range_[a-z_]+\(' | grep -oE 'range_(map|table)_[a-z_]*' | LC_ALL=C sort)"
judge "$declared" "$(nm -g --defined-only "$library" 2>/dev/null | sed -n 's/^[0-9a-f]* T \(range_[a-z_]*\)$/\1/p' | LC_ALL=C sort)" "what the library exports"
judge "free malloc realloc" "$(nm -u "$library" 2>/dev/null | grep -oE '\b(calloc|free|malloc|mmap|realloc|[a-z_]*mem_?align|aligned_alloc)$' | sort -u | paste -sd ' ')" \
    "how it asks for memory"

# ---- C++
strict_cpp=(-Wall -Wextra -pedantic -Wconversion -Wshadow -Wold-style-cast -Werror -g -I bindings)
for compiler in g++ clang++; do
    if has "$compiler"; then
        for standard in c++17 c++20; do
            builds "$compiler -std=$standard" "$compiler" "-std=$standard" "${strict_cpp[@]}" -fsyntax-only tests/cpp/*.cpp
            builds "$compiler -std=$standard without exceptions" "$compiler" "-std=$standard" "${strict_cpp[@]}" -fno-exceptions -fno-rtti \
                -fsyntax-only tests/cpp/alone/no_exceptions.cpp
        done
        dropped="$("$compiler" -std=c++17 -I bindings -fsyntax-only tests/cpp/alone/dropped.cpp 2>&1 | grep 'warning: ignoring return value' || true)"
        judge "$(grep -n '// dropped$' tests/cpp/alone/dropped.cpp | cut -d : -f 1)" "$(grep -oE 'dropped.cpp:[0-9]+' <<<"$dropped" | cut -d : -f 2 | sort -nu)" \
            "results that $compiler warns about if they are dropped"
        for types in 'int, double' 'bool, int' 'int, std::vector<int>'; do
            printf '#include "range_map.hpp"\n#include <vector>\nrangemap::map<%s> map;\n' "$types" >"$work/types.cpp"
            "$compiler" -std=c++17 -I bindings -fsyntax-only "$work/types.cpp" >"$work/said" 2>&1 || true
            judge rejected "$(grep -qE '(Key|Value) must be' "$work/said" && echo rejected)" "map<$types> of $compiler"
        done
    fi
done
if has c++; then
    cpp=(-x c++ tests/c/allocation.c tests/cpp/*.cpp -x none "$library" "${wrap[@]}")
    builds "calls from C++, built" c++ -std=c++17 "${strict_cpp[@]}" -O1 -o "$work/cpp" "${cpp[@]}"
    counts "calls from C++" "$work/cpp" 100000 "$RANDOM"
    # (an iterator leaves what it has not read unset)
    if command -v valgrind >/dev/null; then counts "calls from C++ under valgrind" valgrind -q --error-exitcode=9 "$work/cpp" 300 "$RANDOM"; fi
    builds "sanitizers" c++ -std=c++20 "${strict_cpp[@]}" -O0 -fsanitize=address,undefined -fno-sanitize-recover=undefined -o "$work/cpp" "${cpp[@]}"
    counts "calls from C++ under sanitizers" "$work/cpp" 10000 "$RANDOM"
    alone=(-x c++ tests/c/allocation.c tests/cpp/alone/no_exceptions.cpp -x none "$library" "${wrap[@]}")
    builds "C++ without exceptions, built" c++ -std=c++17 "${strict_cpp[@]}" -fno-exceptions -fno-rtti -O1 -o "$work/alone" "${alone[@]}"
    counts "C++ without exceptions" "$work/alone"
    for failing in allocation place table; do
        # (134 is the status of a program that calls abort)
        judge 134 "$({ "$work/alone" "$failing" >"$work/said"; } 2>/dev/null && echo 0 || echo $?)" "C++ without exceptions, a $failing that fails"
    done
fi
if has c++; then counts "the lines of C++ of docs/TASKS.md" tests/cpp_tasks.sh; fi
if has c++ && command -v valgrind >/dev/null; then
    builds "a walk in C++" c++ -std=c++17 -O2 -I bindings -o "$work/walk" tests/cpp/alone/walk.cpp "$library"
    counted() { # way, entries, walks
        valgrind --tool=callgrind --callgrind-out-file=/dev/null "$work/walk" "$@" 2>&1 | sed -n 's/.*Collected : //p'
    }
    # The instructions of a walk or of an entry by the header, minus those of the calls of the library that it makes.
    of_header() { # way, entries, walks, parts
        echo $((($(counted "$1" "$2" "$3") - $(counted "$1" "$2" 0) - $(counted library "$2" "$3") + $(counted library "$2" 0)) / $4))
    }
    of_none="$(of_header for 0 1000 1000)" of_three="$(of_header for 3 1000 1000)" of_entry="$(of_header for 1000 10 10000)"
    of_algorithm="$(of_header algorithm 1000 10 10000)"
    judge yes "$([ "$of_none" -le 40 ] && [ "$of_three" -le 100 ] && [ "$of_entry" -le 20 ] && [ "$of_algorithm" -le 20 ] && echo yes)" \
        "instructions of the C++ header: $of_none for no entries, $of_three for 3, $of_entry for an entry of many, $of_algorithm by an algorithm"
fi

# ---- Memory and threads
if command -v valgrind >/dev/null; then
    check=(valgrind -q --error-exitcode=9)
    counts "failing allocations under valgrind" "${check[@]}" --leak-check=full "$work/c99" 40
    counts "random calls under valgrind" "${check[@]}" --leak-check=full "$work/random" 1500 "$RANDOM"
    counts "maps that go from thread to thread under valgrind" "${check[@]}" --leak-check=full "$work/hand_over" 2000
    for tool in helgrind drd; do
        counts "lookups from four threads under $tool" "${check[@]}" "--tool=$tool" "$work/threads" 2000
        counts "maps that go from thread to thread under $tool" "${check[@]}" "--tool=$tool" "$work/hand_over" 2000
    done
else
    echo "bindings: there is no valgrind here: no test of threads by helgrind and DRD"
    for compiler in clang gcc; do
        if command -v "$compiler" >/dev/null; then
            builds "sanitizers of $compiler" "$compiler" -std=c99 "${strict[@]}" -fsanitize=address,undefined -o "$work/sanitized" \
                "${calls[@]}" "$library" "${wrap_calls[@]}"
            counts "failing allocations under sanitizers of $compiler" "$work/sanitized" 40
            break
        fi
    done
fi

# ---- The package, and build.sh
counts "the package" tests/package.sh
counts "build.sh" tests/bindings_build.sh

# ---- Python
commands=("$work/owners")
if ! python="$(tests/bindings_python.sh)"; then
    echo "bindings: $python: the Python module is left out"
else
    rm -f bindings/python/range_map/__init__.*.so # (it may have another library linked in, which is no older)
    builds "the Python module" make --no-print-directory -s -C bindings python "PYTHON=$python"
    counts "the Python module, tested" "$python" tests/python
    counts "the Python package" tests/python_package.sh
    commands+=("$python bindings/examples/owners.py")
    if "$python" -c 'import dask, distributed' 2>/dev/null; then
        judge 0 "$("$python" bindings/examples/cluster.py 100000 >"$work/said" 2>&1 && echo 0 || echo $?)" "the example over Dask"
    else
        echo "bindings: there is no Dask here: left out"
    fi
fi

# ---- Rust
crate=(--offline --manifest-path bindings/rust/Cargo.toml)
# All tests of the crate: the last line is 'N passed, M failed'.
crate_tests() {
    local status=0
    cargo test "${crate[@]}" >"$work/cargo" 2>&1 || status=$?
    awk '{ print } /^test result: / { passed += $4; failed += $6 }
        END { print passed + 0 " passed, " failed + 0 " failed" }' "$work/cargo"
    return "$status"
}
if has cargo; then
    # It links the installed archive.
    builds "the library, installed" make --no-print-directory -s -C bindings "RANGE_MAP_OUT=$out" "PREFIX=$work/installed" install
    export RANGE_MAP_LIB_DIR="$work/installed/lib"
    counts "the Rust crate" crate_tests
    counts "the Rust package" tests/rust_package.sh
    if cargo clippy --version >/dev/null 2>&1; then
        builds "clippy" cargo clippy -q "${crate[@]}" --all-targets -- -D warnings
    fi
    if cargo fmt --version >/dev/null 2>&1; then
        builds "rustfmt" cargo fmt --manifest-path bindings/rust/Cargo.toml --check
    fi
    builds "the example in Rust" cargo build -q "${crate[@]}" --example owners
    commands+=("$work/target/debug/examples/owners")
fi

# ---- The program of README.md
sed -n '/^```c$/,/^```$/p' README.md | sed '1d; $d' >"$work/readme.c"
builds "the program of README.md" cc -std=c99 "${strict[@]}" -o "$work/readme" "$work/readme.c" "$library"
judge "10 to 19: 7, 20 to 29: 8, 30 to 49: 7, 25: 8" "$("$work/readme" | paste -sd ',' | sed 's/,/, /g')" "what the program of README.md prints"

# ---- The same program in each language
builds "the example in C" cc -std=c99 "${strict[@]}" -o "$work/owners" bindings/examples/owners.c "$library"
tables=(bindings/examples/blocks.2002 bindings/examples/blocks.2013)
for command in "${commands[@]}"; do
    # (a command may have an argument of its own)
    judge "$(cat bindings/examples/owners.expected)" "$($command "${tables[@]}")" "$command"
done
counts "the examples on random tables" python3 tests/examples.py "${commands[@]}"
# A table that can't be read, the first or the second, and an output that can't be written.
fails() { # what it is called here, the file for the output, the command
    local what="$1" output="$2"
    shift 2
    judge failed "$("$@" 2>"$work/said" >"$output" && echo passed || echo failed)" "$what"
}
for command in "${commands[@]}"; do
    read -ra words <<<"$command"
    for unreadable in "$work" /proc/self/mem; do
        fails "$command of $unreadable" "$work/output" "${words[@]}" "$unreadable" "${tables[1]}"
        fails "$command of a table and $unreadable" "$work/output" "${words[@]}" "${tables[0]}" "$unreadable"
    done
    fails "$command with a full disk" /dev/full "${words[@]}" "${tables[@]}"
done
if command -v valgrind >/dev/null; then
    judge "$(cat bindings/examples/owners.expected)" "$(valgrind -q --leak-check=full --error-exitcode=9 "$work/owners" "${tables[@]}" 2>&1)" \
        "the example in C under valgrind"
fi
tell
