# What the programs and the library for C are made of. tools/run, tools/prove, tools/noted, tools/vendor, bindings/build.sh and bench/ read
# this file.
#
# The file crates/CRATE/out/made_of says what the proved program crates/CRATE/out/CRATE was made of: the toolchain, the crates with their
# dependencies, and the sum of each source file. The program fits as long as these are the same.
root="$(cd "$(dirname "${BASH_SOURCE[0]}")/.." && pwd)"
# The programs over tables are one crate, `tables`, whose only argument is the name.
tables=(scripts regions ports calendar routes picture)
programs=(rangemap script "${tables[@]}")
is_table() { case " ${tables[*]} " in *" $1 "*) return 0 ;; *) return 1 ;; esac }
crate_of() { if is_table "$1"; then echo tables; else echo "$1"; fi; }
declare -A proof_takes=([rangemap]="20 to 40 minutes on four processors" [script]="30 to 60 minutes on four processors")
proof_time() { echo "${proof_takes[$1]:-${proof_takes[rangemap]}}"; }
is_program() { case " ${programs[*]} " in *" $1 "*) return 0 ;; *) return 1 ;; esac }

clock() { printf '%d:%02d' $(($1 / 60)) $(($1 % 60)); } # minutes:seconds

program_of() { local crate && crate="$(crate_of "$1")" && echo "$root/crates/$crate/out/$crate"; }
note_of() { echo "$root/crates/$(crate_of "$1")/out/made_of"; }

declare -A stands_on
while IFS= read -r line; do
    line="${line%%#*}"
    if [[ "$line" != *:* ]]; then continue; fi
    read -r crate _ <<<"${line%%:*}"
    stands_on[$crate]="${line#*:}"
done <"$root/crates.txt"

# The crates of some programs, each after its dependencies. A library of the toolchain has no line in crates.txt.
crates_of() {
    local -A placed=()
    local crate
    for crate in "$@"; do place "$crate"; done
}
place() {
    local below
    if [ -z "${stands_on[$1]+is}" ] || [ -n "${placed[$1]+is}" ]; then return 0; fi
    placed[$1]=1
    for below in ${stands_on[$1]}; do place "$below"; done
    echo "$1"
}

# The words for `rattle build` to prove the crate in the current folder over the libraries in the crates' out/rlib, and to make the static
# library libCRATE.a. `kit` is the toolchain's folder.
words_over_libraries() { # the crate, the folder for the library and for what is kept
    local name
    printf '%s\n' --crate-name "$1" src/lib.rt --extern "std=$kit/rlibs/std.rlib" -L "dependency=$kit/rlibs"
    for name in ${stands_on[$1]}; do
        if [ -n "${stands_on[$name]+is}" ]; then
            printf '%s\n' --extern "$name=$root/crates/$name/out/rlib/$name.rlib"
        else
            printf '%s\n' --extern "$name=$kit/rlibs/$name.rlib"
        fi
    done
    while IFS= read -r name; do
        if [ "$name" != "$1" ]; then printf '%s\n' -L "dependency=$root/crates/$name/out/rlib"; fi
    done < <(crates_of "$1")
    printf '%s\n' --antt-project "$kit/rattle/logic/antt-project.json" --logic-built "$kit/logic_built" --links "$1="
    printf '%s\n' --incremental "$2/incremental" --crate-type staticlib --toolchain "$kit/toolchain" --backend llvm --jobs 2 -o "$2/lib$1.a"
}

# What a program would be made of now. Without a toolchain, the noted one is taken.
made_of() (
    mapfile -t crates < <(crates_of "$(crate_of "$1")")
    if command -v rt >/dev/null; then rt version </dev/null; else head -n 1 "$(note_of "$1")" 2>/dev/null || echo "no toolchain"; fi
    for crate in "${crates[@]}"; do echo "$crate:${stands_on[$crate]}"; done
    cd "$root/crates" || exit
    find "${crates[@]}" -name out -prune -o -name wrong -prune -o -type f \( -name '*.rt' -o -name '*.antt' \) -print0 |
        LC_ALL=C sort -z | xargs -0 sha256sum
)

# Whether a program exists, is proved, and fits.
is_proved() {
    [ -x "$(program_of "$1")" ] && [ -f "$(note_of "$1")" ] && [ "$(made_of "$1")" = "$(cat "$(note_of "$1")")" ]
}

# The start of a line: all of it up to 100 characters, or its whole words.
start_of() {
    local start="${1:0:100}"
    if [ "$start" != "$1" ]; then start="${start% *} .."; fi
    echo "$start"
}

# Copies what rt prints to the file $log, and says each half minute how far it is: functions, or else its last line, and the time.
# What reads this file has a function `say`.
watch() { # the crate
    local line='' part='' far='begun' begun=$SECONDS said=$SECONDS status
    while true; do
        status=0
        IFS= read -r -t 5 line || status=$?
        if ((status == 0)); then
            line="$part$line" part=''
            printf '%s\n' "$line" >>"$log"
            far="$(start_of "$line")"
            if [[ "$line" =~ ^so\ far:\ ([0-9]+\ of\ [0-9]+\ functions) ]]; then far="${BASH_REMATCH[1]}"; fi
        else
            part+="$line"
            if ((status <= 128)); then break; fi # (the end; above, the time was up)
        fi
        if ((SECONDS - said >= 30)); then
            say "$1: $far, $(clock $((SECONDS - begun))) ($(clock "$SECONDS") in all)"
            said=$SECONDS
        fi
    done
    printf '%s' "$part" >>"$log"
}
