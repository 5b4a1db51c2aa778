# What the tests share, which read this file: a folder for their files, what they judge, and how they end.
tests="$(cd "$(dirname "${BASH_SOURCE[0]}")" && pwd)"
work="$(mktemp -d)"
trap 'rm -rf "$work"' EXIT

passed=0
failed=0
judge() { # what is wanted, what was got, what was run
    if [ "$1" = "$2" ]; then passed=$((passed + 1)); else failed=$((failed + 1)) && echo "$3: wanted '$1', got '$2'"; fi
}

# The last line of a test, and its status.
tell() {
    echo "$passed passed, $failed failed"
    [ "$failed" = 0 ]
}

# The example of a program over tables: a file with its lines or with its output. `rt ci` runs one of these programs, whose example is
# beside its code.
example_of() { # the program, stdin or stdout
    local top="${tests%/tests}"
    if [ "$1" = "$(cat "$top/crates/tables/args")" ]; then echo "$top/crates/tables/$2"; else echo "$tests/tables/$1.$2"; fi
}

# Makes $work/refuse.so, which is preloaded to refuse requests for memory.
make_refuse() { cc -shared -fPIC -O1 -o "$work/refuse.so" "$tests/refuse.c"; }
