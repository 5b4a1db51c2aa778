// The header without exceptions and without RTTI: calls work, and the program ends by std::abort where the header says that a call throws.
// The argument names what fails. Without one, nothing does, and the last line is 'N passed, M failed'.
#include "../../c/allocation.h"
#include "range_map.hpp"

#include <cstdio>
#include <string>

#if defined(__cpp_exceptions) || defined(__cpp_rtti)
#error "compile this file with -fno-exceptions -fno-rtti"
#endif

using numbers = rangemap::map<std::int64_t, std::int64_t>;

static int passed, failed;

static void judge(bool is_right, const char *what) {
    if (is_right) passed++;
    else failed++, std::printf("%s\n", what);
}

int main(int count, char **arguments) {
    const std::string failing = count > 1 ? arguments[1] : "nothing";
    numbers map = {{10, 49, 7}, {20, 29, 8}};
    if (failing == "allocation") {
        failing_request = requests + 1;
        for (int i = 0; i < 1000; i++) map.paint(100 * i, 100 * i, i);
    } else if (failing == "place") {
        map.combine(0, 9, 1, rangemap::op::max, static_cast<rangemap::place>(2));
    } else if (failing == "table") {
        const std::int64_t first[] = {1, 1}, last[] = {1, 1}, value[] = {1, 1};
        rangemap::table<std::int64_t, std::int64_t>(first, last, value, 2);
    }
    map.combine(40, 59, -9, rangemap::op::max, rangemap::place::all);
    map |= rangemap::union_many(std::vector<numbers>{map, {{60, 61, 1}}, {{0, 5, 2}}});
    judge(erase_if(map, [](const numbers::entry &entry) { return entry.value == 2; }) == 1, "erase_if");
    std::int64_t sum = 0;
    for (auto [first, last, value] : map) sum += value * (last - first + 1);
    judge(sum == 30 * 7 + 10 * 8 - 10 * 9 + 2, "a walk");
    judge(map.get(25) == 8 && map.to_table(nullptr, nullptr, nullptr, 0) == std::nullopt, "lookups");
    std::printf("%d passed, %d failed\n", passed, failed);
    return failed != 0;
}
