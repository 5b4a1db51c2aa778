# Counts the instructions of works by callgrind. bench/growth.sh and bench/instructions.sh read this file, from the folder bench. Before
# that, their function `works` names the works, each by `work NAME ..`. The words of the command line select some of these.
# Callgrind runs `out/count SIDE WORK SIZE COUNT`, which does a work COUNT times on maps of SIZE entries. WORK is the number of the work
# in driver.cpp and in `library_run`.
words=("$@")

# A word that fits no work is an error, before anything is proved.
names=()
work() { names+=("$1"); }
works
for word in "${words[@]}"; do
    if [[ "$(printf '%s\n' "${names[@]}")" != *"$word"* ]]; then
        echo "bench: no row has '$word' in its name; the rows are" >&2
        printf '    %s\n' "${names[@]}" >&2
        exit 2
    fi
done

declare -A needed=([valgrind]=valgrind)
source ./sides.sh
link count count.cpp
say "counting"

counted() { # side, work, entries, calls
    valgrind --tool=callgrind --callgrind-out-file=/dev/null out/count "$@" 2>&1 | sed -n 's/.*Collected : //p'
}

# Prints the instructions of one part of a call: those of all calls, minus those without a call, divided by the number of parts.
of_one() { # side, work, entries, calls, parts of a call
    local none all
    none="$(counted "$1" "$2" "$3" 0)"
    all="$(counted "$1" "$2" "$3" "$4")"
    echo $(((all - none) / ($4 * ${5:-1})))
}

grouped() { # a number
    echo "$1" | sed ':a; s/\B[0-9]\{3\}\>/,&/; ta'
}

folder="$(mktemp -d)"
trap 'rm -rf "$folder"' EXIT
number=100

# Counts a row in the background, if its name has one of the words.
work() { # name, what `row` takes
    local word is_picked=$((${#words[@]} == 0))
    for word in "${words[@]}"; do if [[ "$1" == *"$word"* ]]; then is_picked=1; fi; done
    if [ "$is_picked" = 0 ]; then return 0; fi
    number=$((number + 1))
    while [ "$(jobs -rp | wc -l)" -ge "$(nproc)" ]; do wait -n; done
    row "$@" >"$folder/$number" &
}

# Counts all rows, and prints them in the order of `works`.
count_works() {
    works
    wait
    cat "$folder"/*
}
