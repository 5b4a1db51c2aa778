// Calls on whole maps: operators on temporaries, the union of many maps, `erase_if` and hashes. model.hpp has the random calls.
#include "../c/allocation.h"
#include "tests.hpp"

#include <array>
#include <functional>
#include <stdexcept>
#include <unordered_map>
#include <unordered_set>

namespace {

numbers steps(int size) {
    numbers map;
    for (int i = 0; i < size; i++) map.paint(10 * i, 10 * i + 4, i);
    return map;
}

// How often a call asks for memory.
template <class Act> long asked_by(Act act) {
    requests = 0;
    act();
    return requests;
}

// The operand that is given up has 5,000 entries, and the other one two. A copy of it would ask for memory for all of its entries.
void test_temporaries() {
    const numbers many = steps(5000), few = {{3, 12, -1}, {777, 778, -2}};
    const numbers with_few = many | few, under_many = few | many, without_few = many - few, one_of_both = many ^ few;
    numbers result, given;
    const long for_copy = asked_by([&] { numbers copy = many; });
    // Whether a call with `given` asks for much less memory than a copy of it, and what it results in.
    const auto takes = [&](auto act, const numbers &wanted) {
        given = many;
        result = numbers();
        return asked_by([&] { result = act(); }) < for_copy / 10 && result == wanted;
    };
    judge(takes([&] { return std::move(given) | few; }, with_few) && given.empty(), "| of a temporary and a map");
    judge(takes([&] { return few | std::move(given); }, under_many) && given.empty(), "| of a map and a temporary");
    judge(takes([&] { return std::move(given) | numbers(few); }, with_few), "| of two temporaries, of which the first has more entries");
    judge(takes([&] { return numbers(few) | std::move(given); }, under_many), "| of two temporaries, of which the second has more entries");
    judge(takes([&] { return std::move(given) - few; }, without_few) && given.empty(), "- of a temporary");
    judge(takes([&] { return std::move(given) & many; }, many) && given.empty(), "& of a temporary and an equal map");
    judge(takes([&] { return std::move(given) & few; }, many & few), "& of a temporary");
    judge(takes([&] { return std::move(given) ^ few; }, one_of_both) && given.empty(), "^ of a temporary and a map");
    judge(takes([&] { return few ^ std::move(given); }, one_of_both) && given.empty(), "^ of a map and a temporary");
    judge(takes([&] { return numbers(few) ^ std::move(given); }, one_of_both), "^ of two temporaries");
    judge((steps(3) | few | steps(2)) == ((steps(3) | few) | steps(2)) && (few - steps(3)) == numbers{{5, 9, -1}, {777, 778, -2}}, "chains");
    judge((few | many) == under_many && many == steps(5000) && few.size() == 2, "operands that are not given up");
}

// Both operands are one map.
void test_one_map_as_both() {
    for (int size : {0, 1, 40}) {
        numbers map = steps(size);
        const numbers before = map;
        map = std::move(map) | map;
        judge(map == before, "| of a map that is given up and itself");
        map = map | std::move(map);
        judge(map == before, "| of a map and itself, which is given up");
        map = std::move(map) & map;
        judge(map == before, "& of a map that is given up and itself");
        map = std::move(map) - map;
        judge(map.empty(), "- of a map that is given up and itself");
        map = before;
        judge((std::move(map) ^ map).empty() && (before ^ numbers(before)).empty(), "^ of a map that is given up and itself");
    }
}

void test_union_many() {
    const numbers none, a = {{0, 9, 1}}, b = {{5, 14, 2}}, c = {{8, 8, 3}, {20, 20, 3}}, d = {{14, 20, 4}}, e = {{1, 1, 5}};
    const std::vector<numbers> maps = {a, b, c, d, e, none, a};
    numbers wanted;
    for (std::size_t count = 0; count <= maps.size(); count++) {
        judge(rangemap::union_many(maps.data(), count) == wanted, "union_many of " + std::to_string(count) + " maps");
        if (count < maps.size()) wanted |= maps[count];
    }
    judge(rangemap::union_many(maps) == wanted && maps[0] == a && maps[6] == a, "union_many of a vector");
    judge(union_many(std::array<numbers, 2>{b, a}) == numbers{{0, 9, 1}, {10, 14, 2}}, "union_many of an array");
    judge(union_many(std::vector<numbers>()).empty(), "union_many of no maps");
}

void test_erase_if() {
    numbers map = steps(100);
    std::vector<numbers::entry> seen;
    const auto is_erased = [&](const numbers::entry &entry) {
        seen.push_back(entry);
        return entry.value % 3 == 1;
    };
    judge(erase_if(map, is_erased) == 33, "erase_if");
    judge(seen == list(steps(100)), "the entries that erase_if gives to the predicate");
    judge(map.size() == 67 && map.get(0) == 0 && !map.any(10, 14) && map.get(24) == 2 && map.get(994) == 99, "what erase_if does");
    const numbers before = map;
    long asked = 0;
    std::size_t count = 1;
    asked = asked_by([&] { count = erase_if(map, [](const numbers::entry &entry) { return entry.value % 3 == 1; }); });
    judge(count == 0 && asked == 0 && map == before, "erase_if of no entry");
    bool has_thrown = false;
    try {
        erase_if(map, [](const numbers::entry &entry) { return entry.value == 50 ? throw std::runtime_error("50") : true; });
    } catch (const std::runtime_error &) {
        has_thrown = true;
    }
    judge(has_thrown && map == before, "a predicate that throws");
    judge(erase_if(map, [](const numbers::entry &) { return true; }) == 67 && map.empty(), "erase_if of all entries");
    judge(erase_if(map, [](const numbers::entry &) { return true; }) == 0, "erase_if in the empty map");
    // Adjacent entries: the values of those that stay are kept.
    numbers row = {{0, 0, 1}, {1, 1, 2}, {2, 2, 1}, {3, 3, 2}};
    judge(erase_if(row, [](const numbers::entry &entry) { return entry.value == 2; }) == 2, "erase_if of adjacent entries");
    judge(list(row) == std::vector<numbers::entry>{{0, 0, 1}, {2, 2, 1}}, "what erase_if does to adjacent entries");
}

// Equal maps have equal hashes, whatever made them. Of 3,000 maps that differ, no two have one hash.
void test_hash() {
    const std::hash<numbers> hash;
    numbers built = {{20, 29, 8}, {10, 19, 7}}, cut = {{0, 99, 7}}, moved;
    cut.erase_range(0, 9);
    cut.paint(20, 29, 8);
    cut.erase_range(30, 99);
    judge(built == cut && hash(built) == hash(cut), "hashes of equal maps");
    moved = std::move(cut);
    judge(hash(moved) == hash(built) && hash(cut) == hash(numbers()), "hashes of moved maps");
    std::unordered_set<std::size_t> hashes;
    hashes.insert(hash(numbers()));
    std::size_t count = 1;
    for (int i = 0; i < 1000; i++) {
        for (const numbers &map : {numbers{{i, 2000, 1}}, numbers{{0, 2001 + i, 1}}, numbers{{0, 1, i + 2}}}) {
            hashes.insert(hash(map));
            count++;
        }
    }
    hashes.insert(hash(numbers{{0, 1, 1}, {5, 6, 2}}));
    hashes.insert(hash(numbers{{0, 1, 2}, {5, 6, 1}}));
    judge(hashes.size() == count + 2, "hashes of maps that differ");
    std::unordered_map<rangemap::map<std::uint64_t, letter>, int> by_map;
    by_map[{{1, UINT64_MAX, letter::a}}] = 1;
    by_map[{{1, 5, letter::a}, {6, UINT64_MAX, letter::a}}]++;
    judge(by_map.size() == 1 && by_map.begin()->second == 2, "maps as keys");
}

} // namespace

void test_whole_maps() {
    test_temporaries();
    test_one_map_as_both();
    test_union_many();
    test_erase_if();
    test_hash();
}
