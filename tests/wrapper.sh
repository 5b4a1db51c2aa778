#!/usr/bin/env bash
# Tests ./rangemap, ./script, ./prove and ./test: help, wrong arguments, answers, and invalid lines with their text. What they do without a
# proof is tested in a copy of the sources with nothing proved, by `rt try` and by a stand-in for `rt` whose answers each case sets. Both
# programs must be proved before; if ./rangemap is not, it is proved first. The last line is 'N passed, M failed'.
#
#     tests/wrapper.sh --without-proof    leaves out the answers of the proved program, and ./test, of which it is a part
set -euo pipefail
here="$(cd "$(dirname "${BASH_SOURCE[0]}")" && pwd)"
source "$here/judge.sh"
top="$(cd "$here/.." && pwd)"
with_proof=yes
if [ "${1:-}" = --without-proof ]; then with_proof=''; fi
if [ "$with_proof" ]; then "$top/prove" rangemap; fi

# Runs a command and compares its status and its standard output; `told` is then its standard error.
run() { # what it is called here, the status and the output that are wanted, the command
    local what="$1" status=0 wanted="$2" printed="$3"
    shift 3
    "$@" >"$work/printed" 2>"$work/told" || status=$?
    told="$(cat "$work/told")"
    judge "$wanted" "$status" "$what: status"
    judge "$printed" "$(cat "$work/printed")" "$what: output"
}
tells() { # what it is called here, texts that standard error must have
    local what="$1" text
    shift
    for text in "$@"; do judge yes "$([[ "$told" = *"$text"* ]] && echo yes || echo no)" "$what: '$text' on standard error"; done
}

printf 'paint 2 5 a\npaint 3 4 b\nget 4\nlen\nlist\n' >"$work/lines"
answers=$'true\nfalse\nb\n4\n(2..=2, "a"), (3..=4, "b"), (5..=5, "a")'
printf 'paint 2 5 a\nget 4 \nlen\n' >"$work/bad"
bad_answers=$'true\nerror line 2'

# ---- Help and arguments
run "help" 0 "$(cat "$top/tools/rangemap.help")" "$top/rangemap" --help
judge '' "$told" "help: standard error"
while IFS= read -r line; do
    judge yes "$(grep -q -F "    $line  " "$top/tools/rangemap.help" && echo yes || echo no)" "'$line' in the help"
done < <(sed -n '/^| line | prints |$/,/^$/{s/^| `\([^`]*\)` .*/\1/p; s/^| \(an empty line\) .*/\1/p}' "$top/docs/SCRIPT.md")
for program in rangemap script prove test; do
    run "$program with a wrong argument" 2 '' "$top/$program" lines
    tells "$program with a wrong argument" "'lines' is not understood" "usage: ./$program"
    run "$program with a word after --help" 2 '' "$top/$program" --help me
done
run "script's help" 0 "$(cat "$top/tools/script.help")" "$top/script" --help
run "test's help" 0 "$(sed -n '2,/^set/ s/^# \?//p' "$top/test")" "$top/test" --help
run "prove's help" 0 'usage: ./prove [NAME], NAME one of rangemap script scripts regions ports calendar routes picture; without it rangemap and script' "$top/prove" --help

# (the help of a program over tables is the head of its file)
for name in scripts regions ports calendar routes picture; do
    run "the help of $name" 0 "usage: tools/run $name < FILE
$(awk '!/^\/\/!/ { exit } /^\/\/! / { print substr($0, 5) }' "$top/crates/tables/src/$name.rt")" "$top/tools/run" "$name" --help
    run "$name with a wrong argument" 2 '' "$top/tools/run" "$name" lines
    tells "$name with a wrong argument" "'lines' is not understood" "usage: tools/run $name < FILE"
done

# ---- The lines of README.md, from "Try it" on: the first block of code is in first_map, and prints what the block behind it says
sed '1,/^## Try it$/d' "$top/README.md" >"$work/try_it"
block() { # the number of an indented block
    awk -v wanted="$1" '/^    / { if (!inside) count++; inside = 1; if (count == wanted) print substr($0, 5); next } { inside = 0 }' "$work/try_it"
}
sed -n '/^```rust$/,/^```$/{/^```/d; s/^/    /; p}' "$work/try_it" | sed -n '/^        ensures/q; /^    pub fn/q; p' >"$work/first"
judge yes "$(grep -c . "$work/first" | grep -qx 10 && python3 -c 'import sys; sys.exit(open(sys.argv[1]).read() not in open(sys.argv[2]).read())' "$work/first" "$top/crates/first_map/src/main.rt" && echo yes || echo no)" "the first code of README.md is in first_map"
judge "$(cat "$top/crates/first_map/stdout")" "$(block 1)" "what README.md says that it prints"

# ---- Answers of the proved program
if [ "$with_proof" ]; then
    judge "$(block 3)" "$(cd "$top" && bash -c "$(block 2)")" "the line of README.md to try"
    run "an answer" 0 "$answers" "$top/rangemap" <"$work/lines"
    judge '' "$told" "an answer: standard error"
    run "an answer to a pipe" 0 "$answers" "$top/rangemap" < <(cat "$work/lines")
    run "a bad line of a file" 2 "$bad_answers" "$top/rangemap" <"$work/bad"
    judge "rangemap: line 2 is invalid: 'get 4 '" "$told" "a bad line of a file: standard error"
    run "a bad line of a pipe" 2 "$bad_answers" "$top/rangemap" < <(cat "$work/bad")
    judge '' "$told" "a bad line of a pipe: standard error"
    {
        read -r _
        run "a bad line of a file's rest" 2 "error line 1" "$top/rangemap"
    } <"$work/bad"
    judge "rangemap: line 1 is invalid: 'get 4 '" "$told" "a bad line of a file's rest: standard error"
fi

# ---- Nothing proved, and a stand-in for the toolchain
mkdir "$work/tree" "$work/bin"
tar -C "$top" --exclude=out -cf - rangemap script prove test tools tests docs bindings crates crates.txt HANDLES | tar -C "$work/tree" -xf -
cat >"$work/bin/rt" <<'END'
#!/usr/bin/env bash
case "$1" in
    version) echo "a stand-in" ;;
    lib) echo "${PWD##*/}" >>"$STAND_IN/proved" ;;
    run) echo "$*" >"$STAND_IN/ran" && mkdir -p out && cp "$STAND_IN/program" "out/${PWD##*/}" ;;
    try) echo "$*" >"$STAND_IN/tried" && if [ -f "$STAND_IN/sleeps" ]; then exec sleep 60; fi
        case "$2" in
            --test) echo "test result: ok. 17 passed; 0 failed; 0 ignored" && exit ;;
            --steps) find "$5" -name '*.stdout' -printf "case=%f status=0 output=$(cat "$STAND_IN/output") " -printf '\n' && exit ;;
        esac
        cat "$STAND_IN/answers" && cat "$STAND_IN/said" >&2 && exit "$(cat "$STAND_IN/status")" ;;
esac
END
printf '#!/bin/sh\nfor word; do echo "$word"; done\nexec cat\n' >"$work/program"
chmod +x "$work/bin/rt" "$work/program"
stand_in() { env STAND_IN="$work" PATH="$work/bin:$PATH" "$@"; }

# The answer of `rt try`: its status, its last line, and the status and output that the wrapper must have then.
tried() { # what it is called here, these four
    echo "$2" >"$work/status"
    printf 'error line 2\n' >"$work/answers"
    printf '| error line 2\nchecked: so it went\n%s\n' "$3" >"$work/said"
    run "$1" "$4" "$5" stand_in "$work/tree/rangemap" <"$work/bad"
}
tried "a try that ends" 0 "run=ended status=0 runners=2 proved=no" 0 "error line 2"
tells "a try that ends" "not proved yet" "not proved: built without a proof and run with checks" "\`./prove rangemap\`"
tried "a try without memory" 3 "run=ended status=3 runners=1 proved=no" 3 "error line 2"
tried "a try with a bad line" 2 "run=ended status=2 runners=2 proved=no" 2 "error line 2"
tells "a try with a bad line" "line 2 is invalid: 'get 4 '"
judge "try --seconds 60 --" "$(cat "$work/tried")" "the seconds of a try with a short input"
for end in "1 none" "2 none" "3 none" "4 fault" "5 differ" "6 no-answer"; do
    tried "a try with status $end" "${end% *}" "run=${end#* } proved=no" 70 ''
    tells "a try with status $end" "checked: so it went" "\`./prove rangemap\` proves it"
done
head -c $((64 << 20)) /dev/zero >"$work/zeros"
echo >>"$work/zeros"
run "a try with too much input" 70 '' stand_in "$work/tree/rangemap" <"$work/zeros"
head -c 3000000 "$work/zeros" >"$work/long"
run "a try with a longer input" 70 '' stand_in "$work/tree/rangemap" <"$work/long"
judge "try --seconds 360 --" "$(cat "$work/tried")" "the seconds of a try with a longer input"
run "a try of a program over tables" 70 '' stand_in "$work/tree/tools/run" ports <"$work/bad"
judge "try --seconds 60 -- ports" "$(cat "$work/tried")" "the words of a try of a program over tables"
run "no toolchain" 70 '' env PATH=/usr/bin:/bin "$work/tree/rangemap" <"$work/bad"
judge "rangemap: no answer: not proved yet, and there is no toolchain (\`rt\`) here" "$told" "no toolchain: standard error"
# (what a key Ctrl-C sends to all of a terminal's programs, which a shell in the background has its own ignore)
interrupt='
import os, signal, subprocess, sys, time
signal.signal(signal.SIGINT, signal.SIG_DFL)
process = subprocess.Popen(sys.argv[1:], start_new_session=True)
time.sleep(2)
os.killpg(process.pid, signal.SIGINT)
sys.exit(process.wait())'
touch "$work/sleeps"
run "a try that is interrupted" 130 '' stand_in python3 -c "$interrupt" "$work/tree/rangemap" <"$work/bad"
judge "rangemap: stopped" "$(tail -n 1 "$work/told")" "a try that is interrupted: standard error"
rm "$work/sleeps"
# (a terminal's output and errors are one)
terminal='import pty, sys; sys.exit(pty.spawn(sys.argv[1:]) >> 8)'
status=0
told="$(stand_in python3 -c "$terminal" "$work/tree/rangemap" </dev/null)" || status=$?
judge 70 "$status" "nothing proved, at a terminal: status"
tells "nothing proved, at a terminal" "not proved yet" "a file or a pipe" "\`./prove rangemap\` proves it"

# ---- Tests without a proof: each part passes, and one whose program answers otherwise fails.
if [ "$with_proof" ]; then
    # (the stand-in runs no program, so the tests of docs/TASKS.md and docs/ERRORS.md can't pass; the copy has not all pages)
    printf 'echo "1 passed, 0 failed"\n' | tee "$work/tree/tests/"{wrapper,errors,style}.sh >"$work/tree/tests/tasks.sh"
    echo 0 >"$work/status"
    echo expected >"$work/output"
    for name in doc_examples unproved; do cp "$work/tree/tests/tasks.sh" "$work/tree/tests/$name.sh"; done
    status=0
    printed="$(stand_in "$work/tree/test" 2>"$work/told")" || status=$?
    told="$(cat "$work/told")"
    judge 0 "$status" "tests without a proof: status"
    judge '' "$(grep -v '^[1-9][0-9]* passed, 0 failed$' <<<"$printed" || true)" "tests without a proof: output"
    tells "tests without a proof" "rangemap: 1 passed" "tables: 12 passed" "library: 1 passed" "wrapper: 1 passed"
    echo differs >"$work/output"
    status=0
    stand_in "$work/tree/test" >"$work/printed" 2>"$work/told" || status=$?
    told="$(cat "$work/told")"
    judge 1 "$status" "tests without a proof that fail: status"
    tells "tests without a proof that fail" "rangemap: 0 passed, 1 failed" "tables: 0 passed, 12 failed"
fi

# ---- A proof by the stand-in: each crate after those that it depends on, and the program fits until a source file changes.
run "a proof" 0 '' stand_in "$work/tree/prove" rangemap
judge "blaze_int blaze_entries blaze_table blaze_streams blaze_iters range_map_blaze range_map_cli" "$(paste -sd ' ' "$work/proved")" "the crates that are proved"
rm "$work/proved"
run "a proof of the other" 0 '' stand_in "$work/tree/prove"
tells "a proof of the other" "rangemap is proved" "proved: script, in"
judge "blaze_int blaze_entries blaze_table blaze_streams blaze_iters range_map_blaze range_map_cli range_map_multi script_words script_calls script_makes" "$(paste -sd ' ' "$work/proved")" "the crates that are proved for both"
run "a proof that is there" 0 '' stand_in "$work/tree/prove"
judge $'prove: rangemap is proved\nprove: script is proved' "$told" "a proof that is there"
run "the program that was proved" 0 "$(cat "$work/lines")" stand_in "$work/tree/rangemap" <"$work/lines"
judge '' "$told" "the program that was proved: standard error"
run "a proof of a program over tables" 0 '' stand_in "$work/tree/prove" routes
tells "a proof of a program over tables" "tables (" "proved: routes, in"
judge "run -- routes" "$(cat "$work/ran")" "the words of a proof of a program over tables"
run "the proof of another" 0 '' stand_in "$work/tree/prove" ports
judge "prove: ports is proved" "$told" "the proof of another"
run "another that was proved" 0 "ports
$(cat "$work/lines")" stand_in "$work/tree/tools/run" ports <"$work/lines"
judge '' "$told" "another that was proved: standard error"
echo '//' >>"$work/tree/crates/blaze_int/src/lib.rt"
tried "a source file that changed" 0 "run=ended status=0 runners=2 proved=no" 0 "error line 2"
tells "a source file that changed" "not proved since its sources changed"
sed -i 's/lib) .*/lib) echo "an open goal" \&\& exit 1 ;;/' "$work/bin/rt"
run "a proof that fails" 70 '' stand_in "$work/tree/prove"
tells "a proof that fails" "an open goal" "blaze_int was not proved"

# ---- Nothing proved, and the toolchain itself
rm -r "$work/tree/crates/rangemap/out"
sed -i '$d' "$work/tree/crates/blaze_int/src/lib.rt"
# (a copy of the library for another repository, made twice; the commands that the first run prints make and run a program over the copy,
# here with the sources of first_map. The proof of all crates is left out)
mkdir "$work/other"
run "a copy of the library" 0 '' "$work/tree/tools/vendor" "$work/other"
tells "a copy of the library" "the 6 crates"
sed -n '/^    /{s///; s/ *# .*//; s/NAME/first_map/g; p}' "$work/told" >"$work/next"
judge "rt new crates/first_map start_io
echo 'first_map: range_map_blaze' >>crates.txt
cd crates/first_map
rt try <stdin
rt check" "$(cat "$work/next")" "the commands behind a copy"
{
    sed '/^rt try/,$d' "$work/next"
    echo 'rm -r src && cp -r "$0" src'
    sed -n '/^rt try/p' "$work/next"
} >"$work/steps"
judge "$(cat "$top/crates/first_map/stdout")" "$(cd "$work/other" && bash -euc "$(cat "$work/steps")" "$top/crates/first_map/src" 2>"$work/told" | tail -n 4)" "first_map over the copy"
run "a second copy" 0 '' "$work/tree/tools/vendor" "$work/other"
judge "$(grep -E '^(blaze_(int|entries|table|streams|iters)|range_map_blaze):' "$top/crates.txt")
first_map: range_map_blaze" "$(cat "$work/other/crates.txt")" "the lines of the copy"
judge '' "$(cd "$work/other" && find . -name out -o -name wrong)" "what is not copied"
run "a copy of more" 0 '' "$work/tree/tools/vendor" "$work/other" range_map_multi
tells "a copy of more" "echo 'NAME: range_map_multi' >>crates.txt" "the 7 crates"
run "no such folder" 2 '' "$work/tree/tools/vendor" "$work/nowhere"
run "an answer without a proof" 2 "$bad_answers" "$work/tree/rangemap" <"$work/bad"
tells "an answer without a proof" "not proved yet" "line 2 is invalid: 'get 4 '" "not proved: built without a proof"

tell
