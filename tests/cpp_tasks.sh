#!/usr/bin/env bash
# Each line of C++ of docs/TASKS.md compiles alone, below the values that the page lists, and has the result in its comment. If a line makes a
# variable, its comment has the value; if it begins a loop, its comment has the items of the loop; else its comment has the map that the line
# changes. RANGE_MAP_OUT names the folder of the built library; without it this is bindings/out. The last line is 'N passed, M failed'.
set -euo pipefail
cd "$(dirname "${BASH_SOURCE[0]}")/.."
source tests/judge.sh
library="${RANGE_MAP_OUT:-bindings/out}/librange_map.a"

cat >"$work/tasks.cpp" <<'END'
#include "range_map.hpp"

#include <algorithm>
#include <iostream>
#include <list>
#include <sstream>
#include <unordered_set>
#include <vector>

template <class Number> std::string text(const Number &number) {
    if constexpr (std::is_same_v<Number, bool>) return number ? "true" : "false";
    else if constexpr (std::is_same_v<Number, char>) return std::string("'") + number + "'";
    else return std::to_string(number);
}
template <class A, class B> std::string text(const std::pair<A, B> &pair) { return "{" + text(pair.first) + ", " + text(pair.second) + "}"; }
template <class Key, class Value> std::string text(const rangemap::entry<Key, Value> &entry) {
    return "{" + text(entry.first) + ", " + text(entry.last) + ", " + text(entry.value) + "}";
}
template <class Entries> std::string listed(const Entries &entries) {
    std::string result;
    for (const auto &entry : entries) result += (result.empty() ? "" : ", ") + text(entry);
    return result;
}
template <class Key, class Value> std::string text(const rangemap::map<Key, Value> &map) { return listed(map); }
template <class Key, class Value> std::string text(const rangemap::table<Key, Value> &table) { return listed(table); }
template <class Item> std::string text(const std::optional<Item> &item) { return item ? text(*item) : "nothing"; }
END
lines() {
    sed -n '/^## In C++$/,/^## In Python$/{/^| [^|]/{s/\\|/\x01/g; s/^|[^|]*|//p}}' docs/TASKS.md | grep -o '`[^`]*`' | tr -d '`' | tr '\001' '|'
}
number=0
while IFS= read -r line; do
    number=$((number + 1))
    code="${line%% // *}"
    echo "void task_$number() {"
    sed -n '/^```cpp values$/,/^```$/{/^```/d; s/^/    /p}' docs/TASKS.md
    case "$code" in
        for*'{ .. }')
            item='rangemap::entry<int, char>{first, last, value}'
            if [[ "$code" = *' at '* ]]; then item='*at'; fi
            echo '    std::vector<rangemap::entry<int, char>> items;'
            echo "    ${code/\{ .. \}/\{ items.push_back($item); \}}"
            echo '    std::cout << listed(items) << "\n";'
            ;;
        map.* | depth.* | erase_if*)
            name="${code%%[.,]*}"
            echo "    $code"
            echo "    std::cout << text(${name#erase_if(}) << \"\\n\";"
            ;;
        *)
            name="${code%% = *}"
            if [ "$name" = "$code" ]; then name="$(sed -E 's/^[^ ]* ?[^ ]* ([a-z]+)\(.*/\1/' <<<"$code")"; fi
            echo "    $code"
            echo "    std::cout << text(${name##* }) << \"\\n\";"
            ;;
    esac
    echo '}'
done < <(lines) >"$work/functions"
{
    cat "$work/functions"
    echo 'int main() {'
    for ((each = 1; each <= number; each++)); do echo "    task_$each();"; done
    echo '}'
} >>"$work/tasks.cpp"
judge yes "$([ "$number" -gt 0 ] && echo yes)" "whether docs/TASKS.md has lines of C++"
mapfile -t wanted < <(lines | sed 's/.*[;}] \/\/ //')
judge '' "$(c++ -std=c++17 -I bindings -o "$work/tasks" "$work/tasks.cpp" "$library" 2>&1 | head -n 20)" "the lines of C++ of docs/TASKS.md"
if [ -x "$work/tasks" ]; then
    mapfile -t got < <("$work/tasks")
    for ((each = 0; each < ${#wanted[@]}; each++)); do
        judge "${wanted[each]}" "${got[each]:-}" "line $((each + 1)) of C++ of docs/TASKS.md"
    done
fi
tell
