// Tables in arrays, compared with the map of the same rows.
#include "tests.hpp"

#include <array>
#include <iterator>
#include <stdexcept>
#if __cplusplus >= 202002L
#include <span>
#endif

namespace {

enum class page : std::int64_t { none = -1, first = 0 };
enum class owner : std::uint64_t { nobody, somebody };

template <class Act> bool is_invalid(Act act) {
    try {
        act();
    } catch (const std::invalid_argument &) {
        return true;
    }
    return false;
}

template <class Key, class Value> class table_test {
    using table = rangemap::table<Key, Value>;
    using map = rangemap::map<Key, Value>;

    std::vector<Key> first, last;
    std::vector<Value> value;

    static Key key(std::int64_t number) { return static_cast<Key>(number); }

    void look_up(const table &rows, const map &wanted, Key at) {
        judge(rows.get(at) == wanted.get(at) && rows.contains(at) == wanted.contains(at), "get and contains of a table");
        judge(rows.gap_at(at) == wanted.gap_at(at), "gap_at of a table");
        for (auto found : {rows.next(at), rows.previous(at), rows.entry_at(at)}) {
            judge(!found || wanted.get(found->first) == found->value, "a row of a table");
        }
        std::optional<typename map::entry> next, previous;
        for (std::size_t i = 0; i < first.size(); i++) {
            if (!next && last[i] >= at) next = {first[i], last[i], value[i]};
            if (first[i] <= at) previous = {first[i], last[i], value[i]};
        }
        judge(rows.next(at) == next && rows.previous(at) == previous, "next and previous of a table");
        judge(wanted.contains(at) ? rows.entry_at(at) == next : !rows.entry_at(at), "entry_at of a table");
    }

    // Up to 40 rows, of which some touch with equal values. They may begin at the least key and end at the greatest.
    void draw_rows() {
        std::int64_t at = draw(4) == 0 ? INT64_MIN : -200;
        first.clear(), last.clear(), value.clear();
        for (std::uint64_t count = draw(41); count > 0; count--) {
            first.push_back(key(at));
            at += static_cast<std::int64_t>(draw(6));
            last.push_back(key(at));
            at += static_cast<std::int64_t>(1 + draw(3));
            value.push_back(static_cast<Value>(draw(2)));
        }
        if (!last.empty() && draw(4) == 0) last.back() = key(INT64_MAX);
    }

  public:
    void run() {
        for (int round = 0; round < 300; round++) {
            draw_rows();
            const table rows(first, last, value);
            map wanted;
            for (std::size_t i = 0; i < first.size(); i++) wanted.paint(first[i], last[i], value[i]);
            judge(rows.size() == first.size() && rows.empty() == first.empty(), "size of a table");
            judge(map(rows) == wanted, "the map of a table");
            std::size_t row = 0;
            for (const auto &entry : rows) {
                judge(entry == rows[row] && entry == typename map::entry{first[row], last[row], value[row]}, "a row of a table");
                row++;
            }
            judge(row == first.size(), "the rows of a table");
            for (std::int64_t at = -210; at < 210; at += 7) look_up(rows, wanted, key(at + static_cast<std::int64_t>(draw(7))));
            for (std::int64_t at : {INT64_MIN, INT64_MIN + 1, INT64_MAX - 1, INT64_MAX}) look_up(rows, wanted, key(at));
            for (Key at : first) look_up(rows, wanted, at);
            for (int i = 0; i < 10; i++) {
                const Key from = key(static_cast<std::int64_t>(draw(500)) - 250), to = key(static_cast<std::int64_t>(draw(500)) - 250);
                judge(rows.key_count_within(from, to) == wanted.key_count_within(from, to), "key_count_within of a table");
            }
            judge(rows.key_count_within(key(INT64_MIN), key(INT64_MAX)) == wanted.key_count(), "the keys of a table");
            round_trip(wanted);
        }
    }

    // A map, saved in arrays that are longer, as long or too short.
    static void round_trip(const map &wanted) {
        const std::size_t size = wanted.size();
        std::vector<Key> lo(size + 1, key(7)), hi(size + 1, key(8));
        std::vector<Value> values(size + 1, static_cast<Value>(9));
        for (std::size_t room : {size, size + 1}) {
            const auto saved = wanted.to_table(lo.data(), hi.data(), values.data(), room);
            judge(saved && saved->size() == size && map(*saved) == wanted, "to_table");
            judge(saved && std::vector<typename map::entry>(saved->begin(), saved->end()) == list(wanted), "the rows of to_table");
        }
        judge(lo[size] == key(7) && hi[size] == key(8) && values[size] == static_cast<Value>(9), "what to_table does not write");
        if (size == 0) return;
        lo[0] = key(7);
        judge(!wanted.to_table(lo.data(), hi.data(), values.data(), size - 1) && lo[0] == key(7), "to_table without room");
        const auto of_vectors = wanted.to_table(lo, hi, values);
        judge(of_vectors && map(*of_vectors) == wanted, "to_table of vectors");
        values.resize(size - 1);
        judge(!wanted.to_table(lo, hi, values), "to_table of vectors of which one is too short");
    }
};

using plain = rangemap::table<std::int64_t, std::uint64_t>;
using plain_map = rangemap::map<std::int64_t, std::uint64_t>;

void test_order() {
    static const std::int64_t first[] = {-5, 10, 20}, last[] = {9, 19, 20}, below[] = {9, 19, 19}, meets[] = {10, 19, 20};
    static const std::uint64_t value[] = {1, 1, 2};
    judge(plain::is_ordered(first, last, value, 3) && plain::is_ordered(first, below, value, 2), "rows in order");
    judge(plain::is_ordered(nullptr, nullptr, nullptr, 0), "no rows, which are in order");
    judge(!plain::is_ordered(first, below, value, 3) && !plain::is_ordered(first, meets, value, 3) && !plain::is_ordered(last, first, value, 1),
          "rows that are not in order");
    judge(is_invalid([] { plain(first, meets, value, 3); }) && is_invalid([] { plain(first, below, value); }), "a table of such rows");
    judge(is_invalid([] { plain_map{plain(rangemap::ordered, first, meets, value, 3)}; }), "a map of such rows");
    judge(plain_map(plain(first, last, value)) == plain_map{{-5, 19, 1}, {20, 20, 2}}, "a map of a table of arrays");
}

void test_arrays() {
    const std::array<std::int64_t, 2> first = {1, 5};
    const std::vector<std::int64_t> last = {3, 9};
    const std::uint64_t value[] = {7, 8}, three[] = {7, 8, 9};
    const plain rows(first, last, value), same(rangemap::ordered, first, last, value), copy = rows;
    judge(rows.get(3) == 7 && same.get(9) == 8 && copy.get(5) == 8 && !copy.get(4), "a table of an array, a vector and a C array");
    judge(is_invalid([&] { plain(first, last, three); }), "a longer array");
    judge(is_invalid([&] { plain(rangemap::ordered, first, last, three); }), "a longer array of ordered rows");
    const std::vector<std::int64_t> shorter = {3};
    judge(is_invalid([&] { plain(first, shorter, value); }), "a shorter array");
    judge(is_invalid([&] { plain(rangemap::ordered, first, shorter, value); }), "a shorter array of ordered rows");
    const plain none;
    judge(none.empty() && none.begin() == none.end() && plain_map(none).empty(), "the table without rows");
    judge(!none.get(0) && !none.next(INT64_MIN) && !none.previous(INT64_MAX) && !none.entry_at(0), "no rows are found");
    judge(none.gap_at(0) == std::pair(INT64_MIN, INT64_MAX) && none.key_count_within(INT64_MIN, INT64_MAX) == 0, "the gap without rows");
    judge(plain_map(rows.begin(), rows.end()) == plain_map(rows), "a map from the iterators of a table");
    const std::int64_t least[] = {INT64_MIN}, greatest[] = {INT64_MAX};
    const plain all(least, greatest, value, 1);
    judge(all.key_count_within(INT64_MIN, INT64_MAX) == UINT64_MAX && !all.gap_at(4) && all.get(INT64_MAX) == 7, "a table of all keys");
#if __cplusplus >= 202002L
    const plain of_spans{std::span(first), std::span(last), std::span(value)};
    std::array<std::int64_t, 2> lo = {}, hi = {};
    std::array<std::uint64_t, 2> values = {};
    const auto saved = plain_map(of_spans).to_table(std::span(lo), std::span(hi), std::span(values));
    judge(saved && lo == first && saved->get(9) == 8, "spans");
#endif
}

} // namespace

void test_tables() {
    table_test<std::int64_t, std::uint64_t>().run();
    table_test<page, owner>().run();
    table_test<long long, std::int64_t>().run();
    test_order();
    test_arrays();
}
