// Walks over a map, for valgrind to count their instructions: by a range-based `for`, by an algorithm of std, which copies iterators, or
// by the calls of the library that a walk makes. Arguments: for, algorithm or library; the number of entries; the number of walks.
#include "range_map.hpp"

#include <algorithm>
#include <cstdlib>
#include <cstring>
#include <string>

static long sum;

static void walk_by_for(const rangemap::map<int, int> &map) {
    for (auto [first, last, value] : map) sum += first + last + value;
}

static void walk_by_algorithm(const rangemap::map<int, int> &map) {
    sum += std::find_if(map.begin(), map.end(), [](const auto &entry) { return entry.value < 0; }) != map.end();
}

// The rows are not visited.
static void walk_by_library(::range_map map) {
    constexpr std::size_t room = RANGE_MAP_ITER_ROOM;
    std::int64_t lo[room], hi[room], key = INT64_MIN;
    std::uint64_t value[room], count = room;
    while (count == room) {
        count = range_map_entries_into_unchecked(&map, key, lo, room, hi, room, value, room);
        key = count == room ? hi[room - 1] + 1 : key;
    }
}

int main(int count, char **arguments) {
    if (count != 4) return 2;
    rangemap::map<int, int> map;
    for (int i = 0; i < std::atoi(arguments[2]); i++) map.paint(3 * i, 3 * i + 1, i);
    ::range_map handle; // the one member of the map
    static_assert(sizeof handle == sizeof map);
    std::memcpy(&handle, &map, sizeof handle);
    const std::string way = arguments[1];
    for (int walks = std::atoi(arguments[3]); walks > 0; walks--) {
        if (way == "for") walk_by_for(map);
        if (way == "algorithm") walk_by_algorithm(map);
        if (way == "library") walk_by_library(handle);
    }
    return sum < 0;
}
