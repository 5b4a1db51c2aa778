// Every member of a map, with results that are written out.
#include "tests.hpp"

#include <algorithm>
#include <array>
#include <stdexcept>

static void judge_list(const numbers &map, const std::vector<numbers::entry> &wanted, const char *what) {
    judge(list(map) == wanted, what);
}

static void test_empty_map() {
    numbers map;
    judge(map.empty() && map.size() == 0 && map.key_count() == 0 && map.begin() == map.end(), "the empty map");
    judge(!map.first() && !map.last() && !map.pop_first() && !map.pop_last() && !map.next(0) && !map.previous(0), "no keys");
    judge(map.gap_at(5) == std::pair(INT32_MIN, INT32_MAX), "the gap of an empty map");
}

static void test_edits() {
    numbers map;
    judge(map.paint(10, 49, 7) && map.paint(20, 60, 8) && !map.paint(30, 31, 9), "paint");
    judge(!map.paint(5, 4, 1), "paint of an empty range");
    judge_list(map, {{10, 19, 7}, {20, 29, 8}, {30, 31, 9}, {32, 60, 8}}, "what paint does");
    judge(map.fill_gaps(1, 12, 6) && !map.fill_gaps(3, 30, 5), "fill_gaps");
    judge(!map.fill_if_free(60, 70, 5) && map.fill_if_free(61, 62, 5) && map.fill_if_free(62, 61, 5), "fill_if_free");
    judge_list(map, {{1, 9, 6}, {10, 19, 7}, {20, 29, 8}, {30, 31, 9}, {32, 60, 8}, {61, 62, 5}}, "what fill_gaps does");
    judge(map.insert_or_assign(30, 8) == 9 && !map.insert_or_assign(-1, 3), "insert_or_assign");
    judge(map.erase(31) == 9 && !map.erase(31), "erase of a key");
    judge(map.erase_range(2, 8) && !map.erase_range(2, 8) && !map.erase_range(9, 1), "erase_range");
    judge_list(map, {{-1, -1, 3}, {1, 1, 6}, {9, 9, 6}, {10, 19, 7}, {20, 30, 8}, {32, 60, 8}, {61, 62, 5}}, "what erase does");
    judge(map.first() == std::pair(-1, 3) && map.last() == std::pair(62, 5), "first and last");
    judge(map.pop_first() == std::pair(-1, 3) && map.pop_last() == std::pair(62, 5), "pop_first and pop_last");
    judge_list(map, {{1, 1, 6}, {9, 9, 6}, {10, 19, 7}, {20, 30, 8}, {32, 60, 8}, {61, 61, 5}}, "what the pops do");
}

// The map of the lookups and of the moves.
static numbers example() { return {{1, 1, 6}, {9, 9, 6}, {10, 19, 7}, {20, 30, 8}, {32, 60, 8}, {61, 61, 5}}; }

static void test_lookups() {
    const numbers map = example();
    judge(map.size() == 6 && map.max_size() >= 6 && !map.empty() && map.key_count() == 53, "size, empty and key_count");
    judge(map.get(61) == 5 && !map.get(62) && map.contains(61) && !map.contains(62), "get and contains");
    judge(map.entry_at(15) == numbers::entry{10, 19, 7} && !map.entry_at(31), "entry_at");
    judge(map.next(31) == numbers::entry{32, 60, 8} && map.next(60)->first == 32 && !map.next(62), "next");
    judge(map.previous(31) == numbers::entry{20, 30, 8} && map.previous(20)->last == 30 && !map.previous(0), "previous");
    judge(map.any(2, 9) && !map.any(2, 8) && !map.any(9, 2), "any");
    judge(map.all(9, 30) && !map.all(9, 31) && map.all(31, 9), "all");
    judge(map.key_count_within(5, 32) == 23 && map.key_count_within(32, 5) == 0, "key_count_within");
}

static void test_gaps() {
    const numbers map = example();
    judge(map.gap_at(31) == std::pair(31, 31) && map.gap_at(5) == std::pair(2, 8) && !map.gap_at(1), "gap_at");
    judge(map.gap_at(-7) == std::pair(INT32_MIN, 0) && map.gap_at(62) == std::pair(62, INT32_MAX), "gap_at, to the ends of the type");
    judge(map.find_gap(0, 100, 2) == 2 && map.find_gap(0, 100, 1) == 0 && !map.find_gap(1, 61, 8), "find_gap");
    judge(map.find_last_gap(0, 61, 2) == 7 && map.find_last_gap(0, 100, 2) == 99 && !map.find_last_gap(0, 100, 0), "find_last_gap");
    judge(map.find_gap(INT32_MIN, INT32_MAX, 1) == INT32_MIN && map.find_last_gap(INT32_MIN, INT32_MAX, 1) == INT32_MAX, "gaps at the ends");
}

static void test_copies_and_moves() {
    const numbers map = example();
    numbers copy = map, upper = copy.split_off(25);
    judge_list(copy, {{1, 1, 6}, {9, 9, 6}, {10, 19, 7}, {20, 24, 8}}, "the lower part of split_off");
    judge_list(upper, {{25, 30, 8}, {32, 60, 8}, {61, 61, 5}}, "the upper part of split_off");
    copy.extend(upper);
    judge(copy == map && !(copy != map), "extend and ==");
    numbers moved = std::move(copy);
    judge(moved == map && copy.empty() && copy != map, "move");
    copy.paint(1, 3, 1);
    copy = std::move(moved);
    judge(copy == map && moved.empty(), "move assignment");
    moved = copy;
    const numbers &same = moved;
    moved = same;
    judge(moved == map && copy == map, "copy assignment");
    moved.clear();
    judge(moved.empty() && list(moved).empty(), "clear");
    swap(moved, copy);
    moved.swap(upper);
    judge(copy.empty() && upper == map && moved.size() == 3, "swap");
}

// The operands of the operators.
static numbers make_a() { return {{0, 9, 1}, {20, 29, 1}}; }
static numbers make_b() { return {{5, 24, 2}, {8, 8, 3}, {40, 40, 4}}; }

static void test_operators() {
    const numbers a = make_a(), b = make_b();
    judge_list(a, {{0, 9, 1}, {20, 29, 1}}, "an initializer list");
    judge_list(b, {{5, 7, 2}, {8, 8, 3}, {9, 24, 2}, {40, 40, 4}}, "an initializer list with overlaps");
    judge_list(a | b, {{0, 4, 1}, {5, 7, 2}, {8, 8, 3}, {9, 24, 2}, {25, 29, 1}, {40, 40, 4}}, "|");
    judge_list(a & b, {{5, 7, 2}, {8, 8, 3}, {9, 9, 2}, {20, 24, 2}}, "&");
    judge_list(a - b, {{0, 4, 1}, {25, 29, 1}}, "-");
    judge_list(a ^ b, {{0, 4, 1}, {10, 19, 2}, {25, 29, 1}, {40, 40, 4}}, "^");
    judge((a | a) == a && (a & a) == a && (a - a).empty() && (a ^ a).empty(), "operators on one map");
    judge_list(a.complement(3), {{INT32_MIN, -1, 3}, {10, 19, 3}, {30, INT32_MAX, 3}}, "complement");
}

static void test_operators_in_place() {
    const numbers a = make_a(), b = make_b();
    numbers changed = a;
    judge((changed |= b) == (a | b), "|=");
    judge((changed = a, changed &= b) == (a & b), "&=");
    judge((changed = a, changed -= b) == a - b, "-=");
    judge((changed = a, changed ^= b) == (a ^ b), "^=");
    changed = a;
    changed.intersect(b);
    judge(changed == (a & b), "intersect");
    changed = a;
    changed.subtract(b);
    judge(changed == a - b, "subtract");
    numbers &self = changed = a;
    judge((changed |= self) == a && (changed &= self) == a, "|= and &= with itself");
    judge((changed -= self).empty() && (changed = a, changed ^= self).empty(), "-= and ^= with itself");
    changed = a;
    changed.extend(self);
    changed.intersect(self);
    judge(changed == a, "extend and intersect with itself");
    changed.subtract(self);
    judge(changed.empty(), "subtract itself");
}

// 0: 1 is below 0: 2; a lesser key comes first; a prefix comes first; values compare as unsigned numbers.
static void test_order() {
    const numbers a = make_a(), b = make_b();
    judge(a.compare(b) == -1 && b.compare(a) == 1 && a.compare(a) == 0, "compare");
    judge(a < b && b > a && a <= a && a >= a && !(b < a), "< and >");
    judge(numbers{{0, 4, 1}} < numbers{{0, 5, 1}} && numbers{} < numbers{{9, 9, 0}}, "a prefix is less");
    judge(numbers{{0, 0, 1}} < numbers{{0, 0, -1}} && numbers{{0, 0, 1}} < numbers{{0, 0, 2}}, "the order of values");
    using unsigned_keys = rangemap::map<std::uint64_t, char>;
    judge(unsigned_keys{{1, 1, 'z'}} < unsigned_keys{{UINT64_MAX, UINT64_MAX, 'a'}}, "the order of unsigned keys");
#if __cplusplus >= 202002L
    judge((a <=> b) == std::strong_ordering::less && (a <=> a) == std::strong_ordering::equal, "<=>");
#endif
}

static void test_lists_and_iterators() {
    numbers many;
    std::vector<numbers::entry> vector = {{1, 3, 1}, {2, 2, 2}};
    const numbers::entry array[] = {{5, 4, 1}, {7, 8, 3}};
    many.paint_many(vector);
    many.paint_many(array);
    many.paint_many(array, 0);
    many.paint_many(std::array<numbers::entry, 1>{{{9, 9, 3}}});
    judge_list(many, {{1, 1, 1}, {2, 2, 2}, {3, 3, 1}, {7, 9, 3}}, "paint_many");
    std::string printed;
    for (auto [first, last, value] : many) {
        printed += std::to_string(first) + "-" + std::to_string(last) + ":" + std::to_string(value) + " ";
    }
    judge(printed == "1-1:1 2-2:2 3-3:1 7-9:3 ", "a range for");
    auto at = many.begin(), before = at++;
    judge(*before == numbers::entry{1, 1, 1} && at->first == 2 && before != at && ++before == at, "iterators");
    judge(std::count_if(many.begin(), many.end(), [](const numbers::entry &entry) { return entry.value == 1; }) == 2, "an algorithm");
    numbers long_map;
    for (int i = 0; i < 100; i++) long_map.paint(3 * i, 3 * i + 1, i);
    judge(std::distance(long_map.begin(), long_map.end()) == 100 && long_map.size() == 100, "a long walk");
}

static void test_combine() {
    using rangemap::op;
    rangemap::map<int, std::uint64_t> depth = {{0, 9, 1}, {20, 29, 6}};
    depth.combine(5, 24, 3, op::add, rangemap::place::all);
    depth.combine(9, 5, 3, op::add, rangemap::place::all);
    judge(list(depth) == decltype(list(depth)){{0, 4, 1}, {5, 9, 4}, {10, 19, 3}, {20, 24, 9}, {25, 29, 6}}, "combine, all keys");
    depth.erase_range(10, 19);
    depth.combine(INT32_MIN, INT32_MAX, 5, op::bit_xor, rangemap::place::mapped);
    judge(list(depth) == decltype(list(depth)){{0, 4, 4}, {5, 9, 1}, {20, 24, 12}, {25, 29, 3}}, "combine, mapped keys");
    depth.combine(5, 29, 2, op::min, rangemap::place::mapped);
    judge(list(depth) == decltype(list(depth)){{0, 4, 4}, {5, 9, 1}, {20, 29, 2}}, "combine, the lesser");
}

// An operation and a place of which one is invalid, on ranges with keys and on an empty one.
static void test_invalid_operations() {
    const std::pair<std::uint32_t, std::uint32_t> invalid[] = {{7, 0}, {8, 1}, {0, 2}, {6, 3}, {UINT32_MAX, 0}, {256, 1}, {1, UINT32_MAX}};
    rangemap::map<int, std::uint64_t> depth = {{0, 9, 1}, {20, 29, 6}};
    const auto before = depth;
    for (auto [op, place] : invalid) {
        for (int last : {24, 30, 4}) {
            bool has_thrown = false;
            try {
                depth.combine(5, last, 3, static_cast<rangemap::op>(op), static_cast<rangemap::place>(place));
            } catch (const std::invalid_argument &) {
                has_thrown = true;
            }
            judge(has_thrown && depth == before, "combine, invalid " + std::to_string(op) + " " + std::to_string(place));
        }
    }
}

static void test_all_keys() {
    rangemap::map<std::uint64_t, id> places;
    judge(places.paint(0, UINT64_MAX, id(4)) && places.key_count() == UINT64_MAX && places.size() == 1, "all 2^64 keys");
    judge(places.key_count_within(0, UINT64_MAX) == UINT64_MAX && places.complement(id(1)).empty(), "all 2^64 keys, within");
    judge(places.erase(0) == id(4) && places.key_count() == UINT64_MAX && places.gap_at(0) == std::pair(UINT64_C(0), UINT64_C(0)), "one less");
    judge(places.first()->first == 1 && places.last()->first == UINT64_MAX && places.get(7)->number == 5, "a value of a class");
    rangemap::map<level, letter> levels;
    judge(levels.complement(letter::a).entry_at(level::zero)->first == level::low && levels.complement(letter::a).key_count() == 256, "enums");
}

void test_members() {
    test_empty_map();
    test_edits();
    test_lookups();
    test_gaps();
    test_copies_and_moves();
    test_operators();
    test_operators_in_place();
    test_order();
    test_lists_and_iterators();
    test_combine();
    test_invalid_operations();
    test_all_keys();
}
