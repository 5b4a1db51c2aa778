#!/usr/bin/env bash
# Tests the mistakes of docs/ERRORS.md that the compiler finds: each gives the message on the page, and the code below the message
# compiles and runs. Each mistake is a file of its own in one program; `rt try` rejects it and prints the messages. The borrow checker
# looks at a program only once everything else compiles, so the mistakes without a message are then a second program. A third program
# has all the code that is right. The last line is 'N passed, M failed'.
#
# The mistakes that only the prover finds are in tests/prove_pages.sh.
set -euo pipefail
cd "$(dirname "${BASH_SOURCE[0]}")/.."
source tests/judge.sh

# The first part of the page. Each section of it has a heading, a block of code, an indented message, and a block of code.
part() { # section, which block of code, or 0 for the message, or - for the heading
    awk -v section="$1" -v block="$2" '
        /^## / { inside_part = /compiler$/; next }
        !inside_part { next }
        /^### / { at++; count = 0; if (at == section && block == "-") print substr($0, 5); next }
        at != section || block == "-" { next }
        /^```rust$/ { count++; inside = 1; next }
        /^```$/ { inside = 0; next }
        inside && block == count { print }
        !inside && block == 0 && /^    / { print substr($0, 5) }' docs/ERRORS.md
}
sections="$(awk '/^## / { inside_part = /compiler$/ } inside_part && /^### / { count++ } END { print count }' docs/ERRORS.md)"

# Writes a program of sections: a file for each, and main.rt, which calls them. The lines `use` of a block come first in its file.
make() { # the folder, which block of code each function has, the sections
    local folder="$1" block="$2" each
    shift 2
    rm -rf "$folder" && mkdir -p "$folder"
    for each in "$@"; do
        {
            # (what a section is about is not imported for it)
            if [[ "$(part "$each" -)" != *'without `use'* ]]; then echo 'use blaze_int::Integer;'; fi
            printf '%s\n' 'use range_map_blaze::RangeMapBlaze;' 'use std::alloc::AllocError;'
            part "$each" "$block" | sed -n '/^use /p'
            echo "pub fn run(rt: &HostRuntime) -> Result<(), AllocError> {"
            echo '    let mut map: RangeMapBlaze<u32, char> = RangeMapBlaze::new(rt.alloc());'
            echo '    let mut other: RangeMapBlaze<u32, char> = RangeMapBlaze::new(rt.alloc());'
            part "$each" "$block" | sed '/^use /d; s/^/    /'
            printf '    Ok(())\n}\n'
        } >"$folder/try_$each.rt"
    done
    {
        printf '%s\n' '#![tactic(auto)]' '#![allow(unused)]'
        printf 'mod try_%s;\n' "$@"
        printf '%s\n' 'use std::alloc::AllocError;' 'use std::process::ExitCode;' 'fn run(rt: &HostRuntime) -> Result<(), AllocError> {'
        printf '    try_%s::run(rt)?;\n' "$@"
        printf '    Ok(())\n}\n'
        echo 'fn main(rt: HostRuntime) -> ExitCode { if run(&rt).is_ok() { ExitCode::SUCCESS } else { ExitCode::FAILURE } }'
    } >"$folder/main.rt"
}

tools/vendor "$work" 2>/dev/null
cp HANDLES "$work"
echo "mistakes: blaze_int range_map_blaze" >>"$work/crates.txt"
program="$work/crates/mistakes"
try() { # what the program has, the status that it must end with
    local status=0
    (cd "$program" && rt try) </dev/null >"$work/said" 2>&1 || status=$?
    judge "$2" "$status" "a program of $1: status"
    if [ "$status" != "$2" ]; then cat "$work/said"; fi
}

# The sections of which a run gave the message, at a line of theirs. Where a message names a line, the page has `..`.
said_of() { # section
    sed -n "s|^src/try_$1\.rt:[0-9:]* error\[[a-z0-9-]*\]: ||p" "$work/said" | sed 's| src/try_[0-9]*\.rt:[0-9:]*| ..|'
}
mapfile -t left < <(seq "$sections")
for stage in 'all mistakes' 'the mistakes of borrowing'; do
    make "$program/src" 1 "${left[@]}"
    try "$stage" 1
    still=()
    for each in "${left[@]}"; do
        if said_of "$each" | grep -qFx -- "$(part "$each" 0)"; then passed=$((passed + 1)); else still+=("$each"); fi
    done
    left=("${still[@]}")
done
for each in "${left[@]}"; do judge "$(part "$each" 0)" "$(said_of "$each")" "the message of $(part "$each" -)"; done

# shellcheck disable=SC2046  # (the sections are numbers)
make "$program/src" 2 $(seq "$sections")
try "what compiles" 0
tell
