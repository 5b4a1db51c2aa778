// Random calls on maps of several types of keys and values, compared with std::map key by key.
#include "model.hpp"

#include <array>
#include <functional>
#include <list>
#include <optional>

namespace {

template <class Key, class Value> class random_test {
    using range_map = rangemap::map<Key, Value>;
    using key_map = std::map<Key, Value>;
    using entry = typename range_map::entry;
    static constexpr bool is_small = sizeof(Key) == 1;

    std::string name;
    std::array<range_map, 3> maps;
    std::array<key_map, 3> models;
    std::vector<Key> keys; // some at each end of the type and some around 0, or all of them

    void judge(bool is_right, const char *what) { ::judge(is_right, name + ": " + what); }

    // ---- Keys and values

    Key draw_key() { return keys[draw(keys.size())]; }
    static Value draw_value() { return value_of<Value>(draw(3)); }

    // Up to 12 keys in a row, all of them in `keys`.
    std::pair<Key, Key> draw_range() {
        std::size_t start = draw(keys.size()), end = start;
        std::uint64_t steps = draw(12);
        while (steps > 0 && end + 1 < keys.size() && after(keys[end], 1) == keys[end + 1]) {
            end++;
            steps--;
        }
        if (end > start && draw(12) == 0) std::swap(start, end);
        return {keys[start], keys[end]};
    }

    // ---- Lookups

    void look_up(const range_map &map, const key_map &model) {
        const std::vector<entry> wanted = entries(model);
        judge(list(map) == wanted, "entries");
        judge(map.size() == wanted.size() && map.empty() == wanted.empty() && map.key_count() == model.size(), "size, empty and key_count");
        judge(map.first().has_value() == !model.empty() && (model.empty() || *map.first() == std::pair<Key, Value>(*model.begin())), "first");
        judge(map.last().has_value() == !model.empty() && (model.empty() || *map.last() == std::pair<Key, Value>(*model.rbegin())), "last");
        const Key key = draw_key();
        look_up_key(map, model, wanted, key);
        walk(map, wanted, key);
        save_and_load(map);
        look_up_range(map, model);
        look_up_complement(map, model, key);
    }

    void look_up_key(const range_map &map, const key_map &model, const std::vector<entry> &wanted, Key key) {
        const auto found = model.find(key);
        const bool has = found != model.end();
        judge(map.contains(key) == has && (has ? map.get(key) == found->second : !map.get(key)), "get and contains");
        std::optional<entry> next, previous;
        for (const entry &at : wanted) {
            if (!next && at.last >= key) next = at;
            if (at.first <= key) previous = at;
        }
        judge(map.next(key) == next && map.previous(key) == previous, "next and previous");
        judge(has ? map.entry_at(key) == next && !map.gap_at(key) : !map.entry_at(key), "entry_at");
        if (!has) {
            const Key start = previous ? after(previous->last, 1) : map.least_key;
            const Key end = next ? after(next->first, UINT64_MAX) : map.greatest_key;
            judge(map.gap_at(key) == std::pair(start, end), "gap_at");
        }
    }

    template <class Range> static std::vector<entry> walked(const Range &range) { return {range.begin(), range.end()}; }

    void walk(const range_map &map, const std::vector<entry> &wanted, Key key) {
        const std::vector<entry> descending(wanted.rbegin(), wanted.rend());
        judge(std::vector<entry>(map.rbegin(), map.rend()) == descending, "rbegin");
        const auto is_below = [&](const entry &at) { return at.last < key; };
        const auto is_above = [&](const entry &at) { return key < at.first; };
        const auto from = std::find_if_not(wanted.begin(), wanted.end(), is_below);
        const auto back_from = std::find_if_not(descending.begin(), descending.end(), is_above);
        const std::vector<entry> upper(from, wanted.end()), lower(back_from, descending.end());
        judge(walked(map.entries_from(key)) == upper, "entries_from");
        judge(walked(map.entries_back_from(key)) == lower, "entries_back_from");
        const bool has = from != wanted.end() && !is_above(*from);
        judge(has ? std::vector<entry>(map.find(key), map.end()) == upper : map.find(key) == map.end(), "find");
    }

    void save_and_load(const range_map &map) {
        if constexpr (rangemap::is_table_key<Key> && rangemap::is_table_value<Value>) {
            std::vector<Key> first(map.size()), last(map.size());
            std::vector<Value> value(map.size());
            const auto table = map.to_table(first, last, value);
            judge(table && range_map(*table) == map && walked(*table) == list(map), "to_table");
        }
    }

    void look_up_range(const range_map &map, const key_map &model) {
        const auto [first, last] = draw_range();
        const std::uint64_t length = draw(6);
        std::uint64_t count = 0, free_count = 0, run = 0;
        std::optional<Key> gap, last_gap;
        each(first, last, [&](Key at) {
            if (model.count(at)) count++;
            else free_count++;
            run = model.count(at) ? 0 : run + 1;
            if (length && run >= length) {
                last_gap = after(at, 1 - length);
                if (!gap) gap = last_gap;
            }
        });
        judge(map.key_count_within(first, last) == count && map.any(first, last) == (count > 0) && map.all(first, last) == (free_count == 0),
              "key_count_within, any and all");
        judge(map.find_gap(first, last, length) == gap && map.find_last_gap(first, last, length) == last_gap, "find_gap");
    }

    void look_up_complement(const range_map &map, const key_map &model, Key key) {
        const range_map complement = map.complement(value_of<Value>(0));
        const std::uint64_t all = static_cast<std::uint64_t>(map.greatest_key) - static_cast<std::uint64_t>(map.least_key);
        const auto [first, last] = draw_range();
        judge(complement.contains(key) == !model.count(key) && !complement.any(first, last) == map.all(first, last), "complement");
        judge(complement.key_count() == (model.empty() && all == UINT64_MAX ? all : all - model.size() + 1), "count of the complement");
    }

    void compare(const range_map &a, const range_map &b, const key_map &x, const key_map &y) {
        const auto one = pairs(x), other = pairs(y);
        judge((a == b) == (one == other) && (a != b) == (one != other), "== and !=");
        judge((std::hash<range_map>()(a) == std::hash<range_map>()(b)) == (one == other), "the hash");
        judge(a.compare(b) == (one < other ? -1 : other < one ? 1 : 0) && (a < b) == (one < other) && (a >= b) == (one >= other), "compare");
    }

    // ---- Changes

    void paint(range_map &map, key_map &model) {
        const auto [first, last] = draw_range();
        const Value value = draw_value();
        const std::size_t size = model.size();
        each(first, last, [&](Key at) { model.insert_or_assign(at, value); });
        judge(map.paint(first, last, value) == (model.size() > size), "paint");
    }

    void fill(range_map &map, key_map &model) {
        const auto [first, last] = draw_range();
        const Value value = draw_value();
        const std::size_t size = model.size();
        each(first, last, [&](Key at) { model.emplace(at, value); });
        judge(map.fill_gaps(first, last, value) == (model.size() > size), "fill_gaps");
    }

    void fill_if_free(range_map &map, key_map &model) {
        const auto [first, last] = draw_range();
        const Value value = draw_value();
        bool is_free = true;
        each(first, last, [&](Key at) { is_free = is_free && !model.count(at); });
        if (is_free) each(first, last, [&](Key at) { model.emplace(at, value); });
        judge(map.fill_if_free(first, last, value) == is_free, "fill_if_free");
    }

    void insert(range_map &map, key_map &model) {
        const Key key = draw_key();
        const Value value = draw_value();
        const auto found = model.find(key);
        const auto replaced = map.insert_or_assign(key, value);
        judge(found == model.end() ? !replaced : replaced == found->second, "insert_or_assign");
        model.insert_or_assign(key, value);
    }

    void erase_key(range_map &map, key_map &model) {
        const Key key = draw_key();
        const auto found = model.find(key);
        const auto removed = map.erase(key);
        judge(found == model.end() ? !removed : removed == found->second, "erase of a key");
        model.erase(key);
    }

    void erase_range(range_map &map, key_map &model) {
        const auto [first, last] = draw_range();
        const std::size_t size = model.size();
        each(first, last, [&](Key at) { model.erase(at); });
        judge(map.erase_range(first, last) == (model.size() < size), "erase_range");
    }

    void pop(range_map &map, key_map &model, bool is_first) {
        const auto popped = is_first ? map.pop_first() : map.pop_last();
        judge(popped.has_value() == !model.empty(), "whether a key is popped");
        if (model.empty()) return;
        const auto wanted = is_first ? model.begin() : std::prev(model.end());
        judge(popped && *popped == std::pair<Key, Value>(*wanted), is_first ? "pop_first" : "pop_last");
        model.erase(wanted);
    }

    void paint_many(range_map &map, key_map &model) {
        std::list<entry> many;
        for (std::uint64_t i = draw(4); i > 0; i--) {
            const auto [start, end] = draw_range();
            const Value value = draw_value();
            many.push_back({start, end, value});
            each(start, end, [&](Key at) { model.insert_or_assign(at, value); });
        }
        const std::uint64_t by = draw(3);
        if (by == 0) map.paint_many(many);
        if (by == 1) map.paint_many(many.begin(), many.end());
        if (by == 2) map.paint_many(std::vector<entry>(many.begin(), many.end()).data(), many.size());
    }

    void split_off(std::size_t m, std::size_t n) {
        if (m == n) return;
        const Key key = draw_key();
        maps[n] = maps[m].split_off(key);
        models[n] = {models[m].lower_bound(key), models[m].end()};
        models[m].erase(models[m].lower_bound(key), models[m].end());
    }

    void complement(std::size_t m, std::size_t n) {
        const Value value = draw_value();
        range_map result = maps[n].complement(value);
        key_map wanted;
        for (Key at : keys) {
            if (!models[n].count(at)) wanted.emplace(at, value);
        }
        maps[m] = std::move(result);
        models[m] = std::move(wanted);
    }

    void combine_values(range_map &map, key_map &model) {
        const auto [first, last] = draw_range();
        const Value value = draw_value();
        const auto by = static_cast<rangemap::op>(draw(7));
        const auto where = static_cast<rangemap::place>(draw(2));
        each(first, last, [&](Key at) {
            const auto found = model.find(at);
            if (found != model.end()) found->second = combined<Value>(found->second, value, by);
            else if (where == rangemap::place::all) model.emplace(at, value);
        });
        map.combine(first, last, value, by, where);
    }

    void erase_entries(range_map &map, key_map &model) {
        const Value value = draw_value();
        const auto is_erased = [&](const entry &at) { return (at.value == value) == (at.first != at.last); };
        std::size_t count = 0;
        for (const entry &at : entries(model)) {
            if (!is_erased(at)) continue;
            count++;
            each(at.first, at.last, [&](Key key) { model.erase(key); });
        }
        judge(erase_if(map, is_erased) == count, "erase_if");
    }

    void unite_all(std::size_t m) {
        key_map wanted = operated(unite, operated(unite, models[0], models[1]), models[2]);
        maps[m] = rangemap::union_many(maps);
        models[m] = std::move(wanted);
    }

    // Operands of an operator, each a map or a temporary.
    void operate(range_map &map, const range_map &a, const range_map &b, std::uint64_t by) {
        const std::uint64_t temporaries = draw(4);
        const auto apply = [&](auto &&left, auto &&right) {
            if (by == unite) map = std::forward<decltype(left)>(left) | std::forward<decltype(right)>(right);
            if (by == intersect) map = std::forward<decltype(left)>(left) & std::forward<decltype(right)>(right);
            if (by == subtract) map = std::forward<decltype(left)>(left) - std::forward<decltype(right)>(right);
            if (by == exactly_one) map = std::forward<decltype(left)>(left) ^ std::forward<decltype(right)>(right);
        };
        if (temporaries == 0) apply(a, b);
        if (temporaries == 1) apply(range_map(a), b);
        if (temporaries == 2) apply(a, range_map(b));
        if (temporaries == 3) apply(range_map(a), range_map(b));
    }

    void operate_in_place(range_map &map, const range_map &other, std::uint64_t by) {
        if (by == unite) map |= other;
        if (by == intersect) map &= other;
        if (by == subtract) map -= other;
        if (by == exactly_one) map ^= other;
    }

    void call(std::size_t m, std::size_t n, std::size_t o) {
        const std::uint64_t choice = draw(22), by = draw(operations);
        switch (choice) {
        case 0: return fill(maps[m], models[m]);
        case 1: return fill_if_free(maps[m], models[m]);
        case 2: return insert(maps[m], models[m]);
        case 3: return erase_key(maps[m], models[m]);
        case 4: return erase_range(maps[m], models[m]);
        case 5:
        case 6: return pop(maps[m], models[m], choice == 5);
        case 7: return paint_many(maps[m], models[m]);
        case 8: return split_off(m, n);
        case 9:
            std::swap(maps[m], maps[n]);
            return std::swap(models[m], models[n]);
        case 10:
            if (is_small) complement(m, n);
            return;
        case 11:
        case 12: {
            key_map wanted = operated(by, models[n], models[o]);
            operate(maps[m], maps[n], maps[o], by);
            models[m] = std::move(wanted);
            return;
        }
        case 13:
        case 14: {
            key_map wanted = operated(by, models[m], models[o]);
            operate_in_place(maps[m], maps[o], by);
            models[m] = std::move(wanted);
            return;
        }
        case 15: return erase_entries(maps[m], models[m]);
        case 16: return unite_all(m);
        default: return paint(maps[m], models[m]);
        }
    }

  public:
    explicit random_test(const char *title) : name(title) {
        const std::uint64_t count = is_small ? 256 : 12;
        for (std::uint64_t i = 0; i < count; i++) keys.push_back(after(range_map::least_key, i));
        if (is_small) return;
        for (std::uint64_t i = 0; i < 30; i++) keys.push_back(after(static_cast<Key>(100), i - 15));
        for (std::uint64_t i = 0; i < 12; i++) keys.push_back(after(range_map::greatest_key, i - 11));
    }

    void run(long calls) {
        for (long i = 0; i < calls; i++) {
            const std::size_t m = draw(3), n = draw(3), o = draw(3);
            call(m, n, o);
            if constexpr (std::is_integral_v<Value>) {
                if (draw(10) == 0) combine_values(maps[m], models[m]);
            }
            look_up(maps[m], models[m]);
            if (m != n) look_up(maps[n], models[n]);
            compare(maps[n], maps[o], models[n], models[o]);
            if (is_small ? models[m].size() > 200 : models[m].size() > 60 && draw(8) == 0) {
                maps[m].clear();
                models[m].clear();
            }
        }
    }
};

} // namespace

void test_random_calls(long calls) {
    random_test<std::int64_t, std::uint64_t>("int64_t").run(calls / 10);
    random_test<std::uint8_t, letter>("uint8_t").run(calls / 5);
    random_test<std::uint64_t, std::int32_t>("uint64_t").run(calls / 5);
    random_test<std::int32_t, std::int8_t>("int32_t").run(calls / 10);
    random_test<level, point>("enum of int8_t").run(calls / 10);
    random_test<place, const char *>("enum of uint64_t").run(calls / 5);
    random_test<std::int16_t, id>("int16_t").run(calls / 10);
}
