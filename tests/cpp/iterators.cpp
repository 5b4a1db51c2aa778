// Walks: iterators in both directions, walks from a key, algorithms of std, and maps made from iterators.
#include "tests.hpp"

#include <algorithm>
#include <iterator>
#include <list>
#include <sstream>

namespace {

// An iterator reads 32 entries at a time: sizes around one, two and three times that number.
constexpr int sizes[] = {0, 1, 2, 31, 32, 33, 63, 64, 65, 96, 97, 150};

// Entry i has the keys 10 * i + 3 to 10 * i + 5.
numbers steps(int size) {
    numbers map;
    for (int i = 0; i < size; i++) map.paint(10 * i + 3, 10 * i + 5, i);
    return map;
}

std::vector<numbers::entry> step_list(int from, int to) {
    std::vector<numbers::entry> list;
    for (int i = from; i < to; i++) list.push_back({10 * i + 3, 10 * i + 5, i});
    return list;
}

template <class Range> std::vector<numbers::entry> walked(const Range &range) {
    std::vector<numbers::entry> list;
    for (const numbers::entry &entry : range) list.push_back(entry);
    return list;
}

std::vector<numbers::entry> reversed(std::vector<numbers::entry> list) {
    std::reverse(list.begin(), list.end());
    return list;
}

void test_both_directions() {
    for (int size : sizes) {
        const std::string what = std::to_string(size) + " entries, ";
        const numbers map = steps(size);
        const auto forward = step_list(0, size);
        judge(walked(map) == forward && list(map) == forward, what + "a range for");
        judge(std::vector<numbers::entry>(map.cbegin(), map.cend()) == forward, what + "cbegin and cend");
        judge(std::vector<numbers::entry>(map.rbegin(), map.rend()) == reversed(forward), what + "rbegin and rend");
        judge(std::vector<numbers::entry>(map.crbegin(), map.crend()) == reversed(forward), what + "crbegin and crend");
        judge((map.begin() == map.end()) == (size == 0) && (map.rbegin() != map.rend()) == (size != 0), what + "whether there are entries");
    }
}

void test_walks_from_a_key() {
    for (int size : sizes) {
        const numbers map = steps(size);
        for (int key = -1; key <= 10 * size + 12; key++) {
            const int below = key < 3 ? 0 : (key - 3) / 10 + 1, ended = key < 6 ? 0 : std::min(size, (key - 6) / 10 + 1); // entries
            const std::string what = std::to_string(size) + " entries, key " + std::to_string(key) + ", ";
            const auto ascending = step_list(ended, size), descending = reversed(step_list(0, std::min(size, below)));
            judge(walked(map.entries_from(key)) == ascending && map.entries_from(key).empty() == ascending.empty(), what + "entries_from");
            judge(walked(map.entries_back_from(key)) == descending && map.entries_back_from(key).empty() == descending.empty(),
                  what + "entries_back_from");
        }
    }
    const numbers map = steps(40);
    judge(walked(map.entries_from(INT32_MIN)) == list(map) && map.entries_from(INT32_MAX).empty(), "entries_from the ends of the type");
    judge(map.entries_back_from(INT32_MIN).empty() && walked(map.entries_back_from(INT32_MAX)) == reversed(list(map)),
          "entries_back_from the ends of the type");
}

// A walk that ends at the least or the greatest key of the library, after 32 entries and after 33.
void test_ends_of_the_keys() {
    for (std::int64_t count : {32, 33}) {
        rangemap::map<std::int64_t, std::int64_t> low, high;
        for (std::int64_t i = 0; i < count; i++) {
            low.paint(INT64_MIN + 2 * i, INT64_MIN + 2 * i, i);
            high.paint(INT64_MAX - 2 * i, INT64_MAX - 2 * i, i);
        }
        for (const auto *map : {&low, &high}) {
            std::int64_t sum = 0, back = 0, found = 0;
            for (auto [first, last, value] : *map) sum += value;
            for (auto at = map->rbegin(); at != map->rend(); ++at) back += at->value;
            for (auto at = map->find(map->first()->first); at != map->end(); at++) found += at->value;
            judge(sum == count * (count - 1) / 2 && back == sum && found == sum, "a walk over " + std::to_string(count) + " entries to an end");
        }
        judge(++low.find(INT64_MIN + 2 * (count - 1)) == low.end() && ++high.find(INT64_MAX) == high.end(), "find of the last entry");
    }
}

void test_find() {
    for (int size : sizes) {
        const numbers map = steps(size);
        for (int key = 0; key < 10 * size + 10; key++) {
            const bool has = key < 10 * size && key % 10 >= 3 && key % 10 <= 5;
            auto at = map.find(key);
            const std::string what = std::to_string(size) + " entries, find of " + std::to_string(key);
            judge(has == (at != map.end()), what);
            if (has) judge(std::vector<numbers::entry>(at, map.end()) == step_list(key / 10, size), what + ", and on");
        }
    }
}

// Copies in the middle of a walk go on alone, also over the end of the entries that are read.
void test_copies() {
    const numbers map = steps(70);
    auto at = map.begin();
    for (int i = 0; i < 70; i++) {
        auto copy = at, assigned = map.begin();
        const auto &self = assigned;
        assigned = at;
        assigned = self;
        judge(copy == at && assigned == at && *copy == step_list(i, i + 1)[0], "a copy at entry " + std::to_string(i));
        judge(std::vector<numbers::entry>(copy, map.end()) == step_list(i, 70), "a copy from entry " + std::to_string(i) + " on");
        const auto before = at++;
        judge(before == copy && before->first == 10 * i + 3 && at != before && ++copy == at, "postfix ++ at entry " + std::to_string(i));
        judge(std::distance(assigned, map.end()) == 70 - i, "a distance from entry " + std::to_string(i));
    }
    judge(at == map.end() && at == numbers::iterator() && numbers::iterator() == map.end(), "the end");
    auto back = map.rbegin();
    std::advance(back, 40);
    const auto before = back++;
    judge(before->value == 29 && back->value == 28 && before != back, "copies of a reverse iterator");
}

// Iterators go with the content that is moved or swapped.
void test_moved_maps() {
    numbers map = steps(50), other = steps(1);
    auto at = map.begin();
    numbers moved = std::move(map);
    moved.swap(other);
    judge(std::vector<numbers::entry>(at, other.end()) == step_list(0, 50), "iterators of a map that is moved and swapped");
}

void test_algorithms() {
    const numbers map = steps(100);
    const auto found = std::find_if(map.begin(), map.end(), [](const numbers::entry &entry) { return entry.value == 77; });
    judge(found != map.end() && found->first == 773, "std::find_if");
    judge(std::find(map.begin(), map.end(), numbers::entry{3, 5, 1}) == map.end(), "std::find");
    judge(std::count_if(map.cbegin(), map.cend(), [](const numbers::entry &entry) { return entry.value % 2 == 0; }) == 50, "std::count_if");
    judge(std::equal(map.begin(), map.end(), map.begin(), map.end()), "std::equal");
    const auto last = std::find_if(map.rbegin(), map.rend(), [](const numbers::entry &entry) { return entry.value < 50; });
    judge(last->value == 49, "std::find_if, descending");
#if __cplusplus >= 202002L
    judge(std::ranges::distance(map) == 100 && std::ranges::equal(map.entries_from(0), map), "algorithms of std::ranges");
#endif
}

// Maps from iterators: of a list, of another map, in reverse, and of a stream, which can be read once.
struct read_entry : numbers::entry {
    friend std::istream &operator>>(std::istream &stream, read_entry &entry) { return stream >> entry.first >> entry.last >> entry.value; }
};

void test_from_iterators() {
    const std::list<numbers::entry> entries = {{1, 9, 1}, {5, 6, 2}, {8, 7, 3}, {20, 29, 1}, {25, 35, 4}};
    const numbers wanted = {{1, 4, 1}, {5, 6, 2}, {7, 9, 1}, {20, 24, 1}, {25, 35, 4}};
    judge(numbers(entries.begin(), entries.end()) == wanted, "a map from iterators");
    judge(numbers(std::next(entries.begin(), 3), entries.end()) == numbers{{20, 24, 1}, {25, 35, 4}}, "a map from a part of a list");
    judge(numbers(entries.rbegin(), entries.rend()) == numbers{{1, 9, 1}, {20, 29, 1}, {30, 35, 4}}, "a map from a list in reverse order");
    judge(numbers(wanted.begin(), wanted.end()) == wanted && numbers(wanted.rbegin(), wanted.rend()) == wanted, "a map from a map's iterators");
    judge(numbers(entries.end(), entries.end()).empty(), "a map from no entries");
    std::istringstream stream("1 9 1 5 6 2 20 29 1 25 35 4");
    judge(numbers(std::istream_iterator<read_entry>(stream), std::istream_iterator<read_entry>()) == wanted, "a map from a stream");
    numbers painted = {{0, 2, 9}, {50, 50, 9}};
    painted.paint_many(entries.begin(), entries.end());
    judge(painted == (numbers{{0, 0, 9}, {50, 50, 9}} | wanted), "paint_many from iterators");
    painted.paint_many(painted);
    painted.paint_many(painted.rbegin(), painted.rend());
    judge(painted == (numbers{{0, 0, 9}, {50, 50, 9}} | wanted), "paint_many of the map itself");
    numbers of_list;
    of_list.paint_many(entries);
    judge(of_list == wanted, "paint_many of a list");
}

} // namespace

void test_iterators() {
    test_both_directions();
    test_walks_from_a_key();
    test_ends_of_the_keys();
    test_find();
    test_copies();
    test_moved_maps();
    test_algorithms();
    test_from_iterators();
}
