// Each allocation of each call failing in turn: std::bad_alloc is thrown, and the map is unchanged, or has a first part of the input if
// the header says so. What does not throw does not allocate.
#include "../c/allocation.h"
#include "tests.hpp"

#include <functional>
#include <new>

namespace {

struct throwing_call {
    const char *name;
    bool keeps_map; // whether a failure leaves the map unchanged, without a first part of the input
    std::function<void(numbers &, const numbers &)> run;
};

const numbers::entry many[] = {{3, 9, 70}, {14, 33, 71}, {60, 20, 72}, {7, 15, 73}, {-9, -7, 71}};

const throwing_call calls[] = {
    {"paint", true, [](numbers &a, const numbers &) { a.paint(2, 3, 50); }},
    {"paint over entries", true, [](numbers &a, const numbers &) { a.paint(3, 72, 50); }},
    {"fill_gaps", true, [](numbers &a, const numbers &) { a.fill_gaps(-5, 500, 50); }},
    {"fill_if_free", true, [](numbers &a, const numbers &) { (void)a.fill_if_free(-9, -7, 50); }},
    {"insert_or_assign", true, [](numbers &a, const numbers &) { a.insert_or_assign(3, 50); }},
    {"erase of a key", true, [](numbers &a, const numbers &) { a.erase(3); }},
    {"erase_range", true, [](numbers &a, const numbers &) { a.erase_range(2, 3); }},
    {"pop_first", true, [](numbers &a, const numbers &) { a.pop_first(); }},
    {"pop_last", true, [](numbers &a, const numbers &) { a.pop_last(); }},
    {"split_off", true, [](numbers &a, const numbers &) { numbers upper = a.split_off(203); }},
    {"paint_many", false, [](numbers &a, const numbers &) { a.paint_many(many); }},
    {"extend", false, [](numbers &a, const numbers &b) { a.extend(b); }},
    {"intersect", true, [](numbers &a, const numbers &b) { a.intersect(b); }},
    {"subtract", true, [](numbers &a, const numbers &b) { a.subtract(b); }},
    {"|=", false, [](numbers &a, const numbers &b) { a |= b; }},
    {"&=", true, [](numbers &a, const numbers &b) { a &= b; }},
    {"-=", true, [](numbers &a, const numbers &b) { a -= b; }},
    {"^=", true, [](numbers &a, const numbers &b) { a ^= b; }},
    {"|", true, [](numbers &a, const numbers &b) { a = a | b; }},
    {"&", true, [](numbers &a, const numbers &b) { a = a & b; }},
    {"-", true, [](numbers &a, const numbers &b) { a = a - b; }},
    {"^", true, [](numbers &a, const numbers &b) { a = a ^ b; }},
    {"complement", true, [](numbers &a, const numbers &) { a = a.complement(7); }},
    {"copy", true, [](numbers &a, const numbers &b) { numbers copy = b; a.swap(copy); }},
    {"copy assignment", true, [](numbers &a, const numbers &b) { a = b; }},
    {"a map from iterators", true, [](numbers &a, const numbers &b) { a = numbers(b.begin(), b.end()); }},
    {"paint_many from iterators", false, [](numbers &a, const numbers &b) { a.paint_many(b.rbegin(), b.rend()); }},
    {"combine, the greater", false, [](numbers &a, const numbers &) { a.combine(-5, 500, 20, rangemap::op::max, rangemap::place::all); }},
    {"combine, the lesser", false, [](numbers &a, const numbers &) { a.combine(-5, 500, 20, rangemap::op::min, rangemap::place::mapped); }},
    {"combine by words", false, [](numbers &a, const numbers &) { a.combine(-5, 500, 20, rangemap::op::bit_or, rangemap::place::all); }},
    {"erase_if", true, [](numbers &a, const numbers &) { erase_if(a, [](const numbers::entry &entry) { return entry.value % 2 == 0; }); }},
    {"union_many", true, [](numbers &a, const numbers &b) { a = union_many(std::vector<numbers>{a, b, {{-9, 400, 1}}, {{3, 3, 2}}}); }},
    {"| of a temporary and a map", true, [](numbers &a, const numbers &b) { a = numbers(a) | b; }},
    {"| of a map and a temporary", true, [](numbers &a, const numbers &b) { a = a | numbers(b); }},
    {"| of a few entries and a temporary", true, [](numbers &a, const numbers &b) { a = numbers{{1, 2, 3}, {55, 66, 4}} | numbers(b); }},
    {"| of a moved map", false, [](numbers &a, const numbers &b) { a = std::move(a) | b; }},
    {"| of a few entries and a moved map", false, [](numbers &a, const numbers &) { a = numbers{{-2, 3, 3}, {55, 66, 4}} | std::move(a); }},
    {"| of two temporaries", true, [](numbers &a, const numbers &b) { a = numbers(a) | numbers(b); }},
    {"& of a moved map", true, [](numbers &a, const numbers &b) { a = std::move(a) & b; }},
    {"- of a moved map", true, [](numbers &a, const numbers &b) { a = std::move(a) - b; }},
    {"- of a moved map and a few entries", false, [](numbers &a, const numbers &) { a = std::move(a) - numbers{{55, 66, 4}, {103, 104, 1}}; }},
    {"^ of a moved map", true, [](numbers &a, const numbers &b) { a = std::move(a) ^ b; }},
    {"an initializer list", true, [](numbers &a, const numbers &) { a = {{3, 9, 70}, {14, 33, 71}}; }},
};

numbers map_of(int size, int step, int start) {
    numbers map;
    for (int i = 0; i < size; i++) map.paint(step * i + start, step * i + start + 5, i);
    return map;
}

// Runs a call in which one request fails, and returns whether it threw.
bool throws(const throwing_call &call, numbers &a, const numbers &b, long request) {
    bool has_thrown = false;
    requests = 0;
    failing_request = request;
    try {
        call.run(a, b);
    } catch (const std::bad_alloc &) {
        has_thrown = true;
    }
    failing_request = 0;
    return has_thrown;
}

void fail_each(const throwing_call &call, int size) {
    const std::string what = std::string(call.name) + ", " + std::to_string(size) + " entries, request ";
    const numbers b = map_of(size, 10, 4);
    const auto b_list = list(b), before = list(map_of(size, 10, 0));
    numbers done = map_of(size, 10, 0);
    requests = 0;
    call.run(done, b);
    const long all = requests;
    const auto after = list(done);
    for (long request = 1; request <= all; request++) {
        const std::string here = what + std::to_string(request);
        numbers a = map_of(size, 10, 0);
        if (throws(call, a, b, request)) {
            if (call.keeps_map) judge(list(a) == before, here);
            call.run(a, b); // if a part was painted, it is painted again
        }
        judge(list(a) == after && list(b) == b_list, here + ", result");
    }
}

// `combine` by addition, which can't be made again after a failure: a first part of the keys has the sums, and the other keys have their
// old values.
template <class Value> void fail_each_sum(int size, rangemap::place where) {
    using map = rangemap::map<int, Value>;
    map before;
    for (int i = 0; i < size; i++) before.paint(10 * i, 10 * i + 5, static_cast<Value>(i));
    const auto add = [&](map &changed) { changed.combine(-3, 10 * size + 3, 100, rangemap::op::add, where); };
    map after = before;
    requests = 0;
    add(after);
    const long all = requests;
    for (long request = 1; request <= all; request++) {
        map changed = before;
        bool has_thrown = false;
        requests = 0;
        failing_request = request;
        try {
            add(changed);
        } catch (const std::bad_alloc &) {
            has_thrown = true;
        }
        failing_request = 0;
        int key = -5;
        while (key < 10 * size + 5 && changed.get(key) == after.get(key)) key++;
        while (key < 10 * size + 5 && changed.get(key) == before.get(key)) key++;
        const std::string what = "combine, the sum, " + std::to_string(size) + " entries, request " + std::to_string(request);
        judge(has_thrown ? key == 10 * size + 5 : changed == after, what);
    }
}

// Operators on a map that is given up and a few entries: after a failure, the map is unchanged at all keys that the other has not.
void fail_each_moved() {
    const numbers before = map_of(300, 10, 0), few = {{-2, 3, 3}, {7, 8, 5}, {55, 66, 4}, {2995, 3100, 1}};
    const std::function<numbers(numbers &)> operators[] = {
        [&](numbers &a) { return std::move(a) | few; }, [&](numbers &a) { return few | std::move(a); },
        [&](numbers &a) { return std::move(a) - few; }, [&](numbers &a) { return std::move(a) ^ few; },
        [&](numbers &a) { return few ^ std::move(a); }, [&](numbers &a) { return std::move(a) ^ numbers(few); },
    };
    int number = 0;
    for (const auto &run : operators) {
        const std::string what = "a moved map and a few entries, operator " + std::to_string(number++);
        numbers done = before;
        requests = 0;
        const numbers wanted = run(done);
        const long all = requests;
        judge(done.empty(), what);
        for (long request = 1; request <= all; request++) {
            numbers changed = before, result;
            bool has_thrown = false;
            requests = 0;
            failing_request = request;
            try {
                result = run(changed);
            } catch (const std::bad_alloc &) {
                has_thrown = true;
            }
            failing_request = 0;
            judge(has_thrown ? changed - few == before - few : result == wanted, what + ", request " + std::to_string(request));
        }
    }
}

// A map of a table: the map that is replaced is unchanged.
void fail_each_table() {
    std::vector<std::int64_t> first, last;
    std::vector<std::uint64_t> value;
    for (int i = 0; i < 300; i++) {
        first.push_back(10 * i);
        last.push_back(10 * i + 5);
        value.push_back(static_cast<std::uint64_t>(i));
    }
    const rangemap::table<std::int64_t, std::uint64_t> table(first, last, value);
    using map = rangemap::map<std::int64_t, std::uint64_t>;
    requests = 0;
    const map wanted(table);
    const long all = requests;
    for (long request = 1; request <= all; request++) {
        map changed = {{1, 2, 3}};
        bool has_thrown = false;
        requests = 0;
        failing_request = request;
        try {
            changed = map(table);
        } catch (const std::bad_alloc &) {
            has_thrown = true;
        }
        failing_request = 0;
        judge(changed == (has_thrown ? map{{1, 2, 3}} : wanted), "a map of a table, request " + std::to_string(request));
    }
    requests = 0;
    const bool is_same = wanted.to_table(first, last, value).has_value() && table.get(2995) == 299u && table.key_count_within(0, 9999) == 1800;
    const long asked = requests;
    judge(all > 0 && is_same && asked == 0, "tables that do not allocate");
}

void test_walks_that_do_not_allocate() {
    const numbers map = map_of(100, 10, 0);
    std::size_t count = 0;
    requests = 0;
    for (const numbers::entry &entry : map.entries_from(500)) count += entry.first >= 500;
    for (auto at = map.rbegin(); at != map.rend(); at++) count++;
    count += std::hash<numbers>()(map) == std::hash<numbers>()(map);
    const long asked = requests;
    judge(count == 151 && asked == 0, "walks that do not allocate");
}

void test_calls_that_do_not_allocate() {
    numbers map = map_of(100, 10, 0);
    requests = 0;
    for (const numbers::entry &entry : map) judge(map.get(entry.first) == entry.value && map.any(entry.first, entry.last), "get");
    numbers moved = std::move(map);
    map.swap(moved);
    map.combine(990, 0, 5, rangemap::op::add, rangemap::place::all); // an empty range
    map.combine(0, 990, 0, rangemap::op::add, rangemap::place::mapped);
    map.combine(0, 990, 99, rangemap::op::min, rangemap::place::mapped);
    const bool is_unchanged = !map.paint(1, 2, 0) && !map.erase_range(8, 9) && map.size() == 100;
    const long asked = requests;
    judge(is_unchanged && asked == 0, "calls that do not allocate");
}

// Compound operators that change nothing.
void test_operators_that_do_not_allocate() {
    const numbers empty, before = map_of(100, 10, 0), apart = map_of(100, 10, 2000), inside = {{3, 5, 0}, {990, 992, 99}};
    numbers map = before, none, over = before;
    const numbers &same = map;
    over.paint(7, 8, 5);
    requests = 0;
    map -= empty;
    map ^= empty;
    map |= empty;
    map -= apart;
    map |= inside;
    map |= same;
    map &= same;
    map &= over;
    none ^= empty;
    none |= empty;
    none &= before;
    none -= before;
    map.subtract(empty);
    map.extend(inside);
    map.intersect(over);
    const long asked = requests;
    judge(map == before && none.empty() && asked == 0, "operators that do not allocate");
}

} // namespace

void test_failing_allocations() {
    for (const throwing_call &call : calls) {
        for (int size : {0, 1, 2, 40, 300}) fail_each(call, size);
    }
    for (int size : {0, 1, 2, 40, 300}) {
        for (rangemap::place where : {rangemap::place::all, rangemap::place::mapped}) {
            fail_each_sum<std::int8_t>(size, where);
            fail_each_sum<std::int64_t>(size, where);
        }
    }
    fail_each_moved();
    fail_each_table();
    test_walks_that_do_not_allocate();
    test_calls_that_do_not_allocate();
    test_operators_that_do_not_allocate();
}
