// A map from integer or enum keys to small values, stored as entries: ranges of keys with one value each. C++17 and later.
//
//     rangemap::map<int, char> map = {{10, 49, 'a'}, {20, 29, 'b'}};
//     map.get(20);                                 // 'b'
//     for (auto [first, last, value] : map) { .. } // 10 to 19: 'a', 20 to 29: 'b', 30 to 49: 'a'
//
// A range `first`, `last` includes both ends. If `first` is above `last`, the range is empty, which is not an error. Adjacent
// ranges with equal values are one entry. In the costs, n is the number of entries of the map, and m that of the other map.
//
// A map is a container of entries: `size` counts entries, and `key_count` counts keys.
//
// One thread may make a map and another may use it, change it, move it or destroy it. While a call changes, moves or destroys a map, no
// other call may use that map. Lookups are const: any number of threads may call them at the same time, which was tested, not proved.
// The program orders the calls of different threads: by a lock, by the start or the join of a thread, or by an atomic.
//
// If a program is compiled without exceptions (-fno-exceptions), it ends by std::abort where this page says that a call throws.
//
// This file wraps range_map.h. It was tested, not proved. (Its namespace has no underscore: `range_map` is the struct of C.)
#ifndef RANGE_MAP_HPP
#define RANGE_MAP_HPP

#include "range_map_combine.hpp"
#include "range_map_entry.hpp"
#include "range_map_iterator.hpp"
#include "range_map_table.hpp"

#include <functional>
#include <initializer_list>
#if __cplusplus >= 202002L
#include <compare>
#endif

namespace rangemap {

namespace detail {

template <class Iterator> using category_of = typename std::iterator_traits<Iterator>::iterator_category;

} // namespace detail

template <class Key, class Value> class map {
    static_assert(is_key<Key>, "Key must be an integer type of at most 64 bits or an enum with a declared type, and not bool");
    static_assert(is_value<Value>, "Value must be trivially copyable, of at most 8 bytes, and without bytes that do not matter");

  public:
    using key_type = Key;
    using mapped_type = Value;
    using entry = rangemap::entry<Key, Value>;
    using value_type = entry;
    using reference = entry; // iterators return entries: the map keeps none that a reference could name
    using const_reference = entry;
    using size_type = std::size_t;
    using difference_type = std::ptrdiff_t;
    using iterator = entry_iterator<Key, Value, false>;
    using const_iterator = iterator;
    using reverse_iterator = entry_iterator<Key, Value, true>;
    using const_reverse_iterator = reverse_iterator;

    /// The least and the greatest key of the key type.
    static constexpr Key least_key = static_cast<Key>(std::numeric_limits<detail::number_t<Key>>::min());
    static constexpr Key greatest_key = static_cast<Key>(std::numeric_limits<detail::number_t<Key>>::max());

    // ---- Make and free ----

    /// The empty map. It does not allocate. O(1).
    map() noexcept = default;

    /// The map of the entries, painted in order: a later one replaces an earlier one. Throws std::bad_alloc if an allocation
    /// fails. O(k log k) for k entries, or O(k) if they ascend.
    map(std::initializer_list<entry> entries) : map() { paint_many(entries.begin(), entries.size()); }

    /// The map of the entries from the iterator `first` up to and without `last`, painted in order: a later one replaces an earlier
    /// one. Throws std::bad_alloc if an allocation fails. O(k log k) for k entries, or O(k) if they ascend.
    template <class Iterator, class = detail::category_of<Iterator>> map(Iterator first, Iterator last) : map() { paint_many(first, last); }

    /// The map of a table. Throws std::invalid_argument if the rows are not in order, and std::bad_alloc if an allocation fails.
    /// O(k) for k rows.
    template <class RowKey, class RowValue, class = std::enable_if_t<std::is_same_v<RowKey, Key> && std::is_same_v<RowValue, Value>>>
    explicit map(const table<RowKey, RowValue> &rows) : map() {
        detail::check(rows.call(range_map_from_table_unchecked, &handle));
    }

    /// A copy of the other map. Throws std::bad_alloc if an allocation fails. O(n).
    map(const map &other) { detail::check(range_map_copy_unchecked(other.read(), &handle)); }

    /// Takes the content of the other map, which is empty afterwards. O(1).
    map(map &&other) noexcept { swap(other); }

    /// Replaces the map by a copy of the other map. Throws std::bad_alloc if an allocation fails; the map is then unchanged. O(n + m).
    map &operator=(const map &other) {
        if (this != &other) detail::check(range_map_copy_unchecked(other.read(), &handle));
        return *this;
    }

    /// Replaces the map by the content of the other map, which is empty afterwards. O(n).
    map &operator=(map &&other) noexcept {
        map taken(std::move(other));
        swap(taken);
        return *this;
    }

    /// Frees the memory of the map. O(n).
    ~map() { range_map_free_unchecked(&handle); }

    /// Exchanges the contents of the two maps. O(1).
    void swap(map &other) noexcept { std::swap(handle, other.handle); }
    friend void swap(map &a, map &b) noexcept { a.swap(b); }

    /// Removes all keys and frees the memory of the map. O(n).
    void clear() noexcept { range_map_clear(&handle); }

    // ---- Change ----

    /// Sets the value of every key in the range, replacing what was there. Returns whether a key of the range had no value
    /// before. Throws std::bad_alloc if an allocation fails; the map is then unchanged. O(log n) for each entry that the range
    /// touches.
    bool paint(Key first, Key last, Value value) {
        bool is_changed = false;
        detail::check(range_map_paint_unchecked(&handle, word(first), word(last), detail::from_value(value), &is_changed));
        return is_changed;
    }

    /// Paints the entries from the iterator `first` up to and without `last`, in order. Each sets the value of every key in its range,
    /// and a later one replaces an earlier one. Throws std::bad_alloc if an allocation fails; a first part of the entries may be
    /// painted then. O(n + k log k) for k entries, O(n + k) if they ascend, or O(k log n) if k is at most n / 16.
    template <class Iterator, class = detail::category_of<Iterator>> void paint_many(Iterator first, Iterator last) {
        detail::rows rows;
        if constexpr (std::is_base_of_v<std::forward_iterator_tag, detail::category_of<Iterator>>) {
            rows.reserve(static_cast<std::size_t>(std::distance(first, last)));
        }
        for (; first != last; ++first) {
            const entry &each = *first;
            rows.push(each.first, each.last, each.value);
        }
        paint_rows(rows);
    }

    /// Paints the `count` entries in order: each sets the value of every key in its range, and a later one replaces an earlier
    /// one. Throws std::bad_alloc if an allocation fails; a first part of the entries may be painted then. O(n + k log k) for k
    /// entries, O(n + k) if they ascend, or O(k log n) if k is at most n / 16.
    void paint_many(const entry *entries, std::size_t count) { paint_many(entries, entries + count); }

    /// Paints the entries of a vector, a list, another map or another container, in order. Each sets the value of every key in its
    /// range, and a later one replaces an earlier one. Throws std::bad_alloc if an allocation fails; a first part of the entries
    /// may be painted then. O(n + k log k) for k entries, O(n + k) if they ascend, or O(k log n) if k is at most n / 16.
    template <class Entries> void paint_many(const Entries &entries) { paint_many(std::begin(entries), std::end(entries)); }

    /// Sets the value of every key in the range that has none. Returns whether there was such a key. Throws std::bad_alloc if an
    /// allocation fails; the map is then unchanged. O(log n) for each gap in the range, and O(1) for each entry.
    bool fill_gaps(Key first, Key last, Value value) {
        bool is_changed = false;
        detail::check(range_map_fill_unchecked(&handle, word(first), word(last), detail::from_value(value), &is_changed));
        return is_changed;
    }

    /// Sets the value of every key in the range if none of them has a value. Otherwise returns false and changes nothing. So a range of
    /// one key does what `insert` of std::map does. Throws std::bad_alloc if an allocation fails; the map is then unchanged. O(log n).
    [[nodiscard]] bool fill_if_free(Key first, Key last, Value value) {
        std::int32_t status = range_map_fill_if_free(&handle, word(first), word(last), detail::from_value(value));
        detail::check(status);
        return status == RANGE_MAP_DONE;
    }

    /// Sets the value of one key, replacing the value that it had. Returns that value, if any. Throws std::bad_alloc if an allocation
    /// fails; the map is then unchanged. O(log n).
    std::optional<Value> insert_or_assign(Key key, Value value) {
        detail::row old;
        detail::check(range_map_insert_unchecked(&handle, word(key), detail::from_value(value), &old.is_found, &old.value));
        return old.as_value<Value>();
    }

    /// Sets the value of each key in the range that has a value to `by` of that value and `value`. With place::all, a key without a
    /// value gets `value`; with place::mapped, it stays without a value. The value type must be an integer type, and not bool.
    /// Throws std::invalid_argument if `by` or `where` is not one of the constants; the map is then unchanged. Throws std::bad_alloc if
    /// an allocation fails; a first part of the entries and gaps in the range may be changed then. O(log n), O(1) for each entry and
    /// each gap in the range, and O(log n) for each of them that changes.
    ///
    /// The library combines words of 64 bits. For op::add of fewer bits, and for op::min and op::max of signed types, this function
    /// computes the new values itself. It paints those that differ, as `paint_many` does. The promises are the same.
    void combine(Key first, Key last, Value value, op by, place where) {
        static_assert(std::is_integral_v<Value> && !std::is_same_v<Value, bool>, "Value must be an integer type, and not bool");
        if (detail::is_exact_in_words<Value>(by)) {
            detail::check(range_map_combine_unchecked(&handle, word(first), word(last), detail::from_value(value),
                                                      static_cast<std::uint32_t>(by), static_cast<std::uint32_t>(where)));
        } else if (where == place::all || where == place::mapped) {
            paint_rows(combined_rows(first, last, value, by, where));
        } else {
            detail::check(RANGE_MAP_INVALID);
        }
    }

    /// Removes one key. Returns the value that it had, if any. Throws std::bad_alloc if an allocation fails; the map is then
    /// unchanged. O(log n).
    std::optional<Value> erase(Key key) {
        detail::row old;
        detail::check(range_map_remove_unchecked(&handle, word(key), &old.is_found, &old.value));
        return old.as_value<Value>();
    }

    /// Removes every key in the range, which includes `last`. Returns whether one of them had a value. Throws std::bad_alloc if an
    /// allocation fails; the map is then unchanged. O(log n) for each entry that the range touches.
    bool erase_range(Key first, Key last) {
        bool is_changed = false;
        detail::check(range_map_remove_range_unchecked(&handle, word(first), word(last), &is_changed));
        return is_changed;
    }

    /// Removes the least key that has a value. Returns that key and its value, or nothing if the map is empty. Throws
    /// std::bad_alloc if an allocation fails; the map is then unchanged. O(log n).
    std::optional<std::pair<Key, Value>> pop_first() {
        detail::row old;
        detail::check(range_map_pop_first_unchecked(&handle, &old.is_found, &old.lo, &old.value));
        return old.as_pair<Key, Value>();
    }

    /// Removes the greatest key that has a value. Returns that key and its value, or nothing if the map is empty. Throws
    /// std::bad_alloc if an allocation fails; the map is then unchanged. O(log n).
    std::optional<std::pair<Key, Value>> pop_last() {
        detail::row old;
        detail::check(range_map_pop_last_unchecked(&handle, &old.is_found, &old.lo, &old.value));
        return old.as_pair<Key, Value>();
    }

    /// Moves the keys from `key` on to a new map, and keeps the keys below it. Throws std::bad_alloc if an allocation fails; the
    /// map is then unchanged. O(log n), and O(1) for each entry of the smaller part.
    [[nodiscard]] map split_off(Key key) {
        map upper;
        detail::check(range_map_split_off_unchecked(&handle, word(key), &upper.handle));
        return upper;
    }

    // ---- Look up ----

    /// Returns the value of the key, if it has one. O(log n).
    [[nodiscard]] std::optional<Value> get(Key key) const noexcept {
        detail::row row;
        row.is_found = range_map_get_unchecked(read(), word(key), &row.value);
        return row.as_value<Value>();
    }

    /// Returns whether the key has a value. O(log n).
    [[nodiscard]] bool contains(Key key) const noexcept { return get(key).has_value(); }

    /// Returns an iterator at the entry that contains the key, or at the end if the key has no value. O(log n).
    [[nodiscard]] iterator find(Key key) const noexcept { return iterator(handle, entry_or_gap_at(key)); }

    /// Returns the entry that contains the key, or nothing if the key has no value. O(log n).
    [[nodiscard]] std::optional<entry> entry_at(Key key) const noexcept { return entry_or_gap_at(key).template as_entry<Key, Value>(); }

    /// Returns the first and the last key of the longest range around `key` in which no key has a value. Returns nothing if `key` has
    /// a value. O(log n).
    [[nodiscard]] std::optional<std::pair<Key, Key>> gap_at(Key key) const noexcept { return entry_or_gap_at(key).template as_gap<Key>(); }

    /// Returns the first entry that ends at the key or above it, if any. O(log n).
    [[nodiscard]] std::optional<entry> next(Key key) const noexcept {
        detail::row row;
        row.is_found = range_map_next_unchecked(read(), word(key), &row.lo, &row.hi, &row.value);
        return row.as_entry<Key, Value>();
    }

    /// Returns the last entry that starts at the key or below it, if any. O(log n).
    [[nodiscard]] std::optional<entry> previous(Key key) const noexcept {
        detail::row row;
        row.is_found = range_map_previous_unchecked(read(), word(key), &row.lo, &row.hi, &row.value);
        return row.as_entry<Key, Value>();
    }

    /// Returns the least key that has a value, and its value, or nothing if the map is empty. O(log n).
    [[nodiscard]] std::optional<std::pair<Key, Value>> first() const noexcept {
        detail::row row;
        row.is_found = range_map_first_unchecked(read(), &row.lo, &row.value);
        return row.as_pair<Key, Value>();
    }

    /// Returns the greatest key that has a value, and its value, or nothing if the map is empty. O(log n).
    [[nodiscard]] std::optional<std::pair<Key, Value>> last() const noexcept {
        detail::row row;
        row.is_found = range_map_last_unchecked(read(), &row.lo, &row.value);
        return row.as_pair<Key, Value>();
    }

    /// Returns whether a key in the range has a value; false for an empty range. O(log n).
    [[nodiscard]] bool any(Key first, Key last) const noexcept { return range_map_any_unchecked(read(), word(first), word(last)); }

    /// Returns whether every key in the range has a value; true for an empty range. O(log n), and O(1) for each entry up to the
    /// first gap.
    [[nodiscard]] bool all(Key first, Key last) const noexcept { return range_map_all_unchecked(read(), word(first), word(last)); }

    /// Returns the least key that can be the first of `length` keys in a row, all of them in the range and without a value.
    /// Returns nothing if there is no such key. A length of 0 finds nothing. O(log n), and O(1) for each entry up to the result.
    [[nodiscard]] std::optional<Key> find_gap(Key first, Key last, std::uint64_t length) const noexcept {
        std::int64_t key = 0;
        if (!range_map_find_gap_unchecked(read(), word(first), word(last), length, &key)) return std::nullopt;
        return detail::to_key<Key>(key);
    }

    /// Returns the greatest key that can be the first of `length` keys in a row, all of them in the range and without a value.
    /// Returns nothing if there is no such key. A length of 0 finds nothing. O(log n), and O(1) for each entry down to the result.
    [[nodiscard]] std::optional<Key> find_last_gap(Key first, Key last, std::uint64_t length) const noexcept {
        std::int64_t key = 0;
        if (!range_map_find_last_gap_unchecked(read(), word(first), word(last), length, &key)) return std::nullopt;
        return detail::to_key<Key>(key);
    }

    /// Returns how many keys have a value; UINT64_MAX if there are 2^64 of them, too. O(1).
    [[nodiscard]] std::uint64_t key_count() const noexcept {
        std::uint64_t low = 0, high = 0;
        range_map_count_unchecked(read(), &low, &high);
        return detail::one_word(low, high);
    }

    /// Returns how many keys in the range have a value; UINT64_MAX if there are 2^64 of them, too. O(log n), and O(1) for each
    /// entry in the range.
    [[nodiscard]] std::uint64_t key_count_within(Key first, Key last) const noexcept {
        std::uint64_t low = 0, high = 0;
        range_map_count_within_unchecked(read(), word(first), word(last), &low, &high);
        return detail::one_word(low, high);
    }

    /// Returns the number of entries. O(1).
    [[nodiscard]] std::size_t size() const noexcept { return static_cast<std::size_t>(range_map_entries_unchecked(read())); }

    /// Returns the greatest number of entries that a std::size_t and a distance of iterators can count. O(1).
    [[nodiscard]] std::size_t max_size() const noexcept { return std::numeric_limits<difference_type>::max(); }

    /// Returns whether no key has a value. O(1).
    [[nodiscard]] bool empty() const noexcept { return range_map_is_empty_unchecked(read()); }

    // ---- Visit entries. Do not change or destroy the map meanwhile. ----

    /// Returns an iterator at the first entry, or at the end if the map is empty. O(log n).
    [[nodiscard]] iterator begin() const noexcept { return iterator(handle, INT64_MIN); }
    [[nodiscard]] iterator cbegin() const noexcept { return begin(); }

    /// Returns an iterator at the end. O(1).
    [[nodiscard]] iterator end() const noexcept { return iterator(); }
    [[nodiscard]] iterator cend() const noexcept { return end(); }

    /// Returns an iterator that visits the entries descending. It is at the last entry, or at the end if the map is empty. O(log n).
    [[nodiscard]] reverse_iterator rbegin() const noexcept { return reverse_iterator(handle, INT64_MAX); }
    [[nodiscard]] reverse_iterator crbegin() const noexcept { return rbegin(); }

    /// Returns an iterator at the end of the entries in descending order. O(1).
    [[nodiscard]] reverse_iterator rend() const noexcept { return reverse_iterator(); }
    [[nodiscard]] reverse_iterator crend() const noexcept { return rend(); }

    /// Returns the entries that end at the key or above it, ascending, for a range-based `for`. O(1).
    [[nodiscard]] entry_range<Key, Value, false> entries_from(Key key) const noexcept { return {handle, word(key)}; }

    /// Returns the entries that start at the key or below it, descending, for a range-based `for`. O(1).
    [[nodiscard]] entry_range<Key, Value, true> entries_back_from(Key key) const noexcept { return {handle, word(key)}; }

    // ---- Tables ----

    /// Writes all entries into three arrays with room for `room` entries each, and returns the table of them. Returns nothing if the
    /// map has more entries. The types must be those of a table. Does not allocate. O(n).
    [[nodiscard]] std::optional<table<Key, Value>> to_table(Key *first, Key *last, Value *value, std::size_t room) const noexcept {
        static_assert(is_table_key<Key> && is_table_value<Value>, "Key and Value must be types that arrays of a table may have");
        if (size() > room) return std::nullopt;
        if (empty()) return table<Key, Value>();
        const auto lo = reinterpret_cast<std::int64_t *>(first), hi = reinterpret_cast<std::int64_t *>(last);
        const auto values = reinterpret_cast<std::uint64_t *>(value);
        const std::uint64_t count = range_map_entries_into_unchecked(read(), INT64_MIN, lo, room, hi, room, values, room);
        return table<Key, Value>(ordered, first, last, value, static_cast<std::size_t>(count));
    }

    /// Writes all entries into three arrays, vectors or other contiguous containers, and returns the table of them. Returns nothing if
    /// one of them has fewer elements than the map has entries. Does not allocate. O(n).
    template <class Firsts, class Lasts, class Values>
    [[nodiscard]] std::optional<table<Key, Value>> to_table(Firsts &&first, Lasts &&last, Values &&value) const noexcept {
        const std::size_t room = std::min<std::size_t>({std::size(first), std::size(last), std::size(value)});
        return to_table(std::data(first), std::data(last), std::data(value), room);
    }

    // ---- Two maps. The operands may be one map. ----
    //
    // An operator copies no operand that is a temporary, or given by std::move. Such an operand is empty or unchanged afterwards. If an
    // allocation fails, it may have changed at keys of the other operand, and at no other keys.

    /// Paints the entries of the other map, ascending: where both have a value, that of the other remains. Throws std::bad_alloc
    /// if an allocation fails; a first part of the entries may be painted then. O(n + m), or O(m log n) if m is at most n / 16.
    void extend(const map &other) {
        if (this != &other) detail::check(range_map_extend_unchecked(&handle, other.read()));
    }

    /// Keeps the keys that have a value in the other map too, with the value of the other. Throws std::bad_alloc if an allocation
    /// fails; the map is then unchanged. O(n + m) at most.
    void intersect(const map &other) {
        if (this != &other) detail::check(range_map_intersect_unchecked(&handle, other.read()));
    }

    /// Removes the keys that have a value in the other map. Throws std::bad_alloc if an allocation fails; the map is then
    /// unchanged. O(n + m) at most.
    void subtract(const map &other) {
        if (this == &other) return clear();
        if (!other.empty()) detail::check(range_map_subtract_unchecked(&handle, other.read()));
    }

    /// Returns the map that gives the value to every key of the key type that has none in this map, and to no other key. Throws
    /// std::bad_alloc if an allocation fails. O(n).
    [[nodiscard]] map complement(Value value) const {
        map result;
        detail::check(range_map_complement_unchecked(read(), detail::from_value(value), &result.handle));
        if constexpr (sizeof(Key) < 8) {
            bool ignored = false;
            detail::check(range_map_remove_range_unchecked(&result.handle, INT64_MIN, word(least_key) - 1, &ignored));
            detail::check(range_map_remove_range_unchecked(&result.handle, word(greatest_key) + 1, INT64_MAX, &ignored));
        }
        return result;
    }

    /// Returns the keys of both maps, with the value of b where both have one. Throws std::bad_alloc if an allocation fails. O(n
    /// + m), or O(m log n) if m is at most n / 16, and a copy.
    [[nodiscard]] friend map operator|(const map &a, const map &b) {
        return &a == &b ? map(a) : made_of(range_map_union_unchecked, a, b);
    }
    [[nodiscard]] friend map operator|(map &&a, const map &b) {
        a.extend(b);
        return std::move(a);
    }
    [[nodiscard]] friend map operator|(const map &a, map &&b) {
        if (!b.is_far_longer(a)) return a | std::as_const(b);
        for (const entry &each : a) b.fill_gaps(each.first, each.last, each.value);
        return std::move(b);
    }
    [[nodiscard]] friend map operator|(map &&a, map &&b) {
        return a.size() < b.size() ? std::as_const(a) | std::move(b) : std::move(a) | std::as_const(b);
    }

    /// Returns the keys that have a value in both maps, with the value of b. Throws std::bad_alloc if an allocation fails. O(n + m) at
    /// most.
    [[nodiscard]] friend map operator&(const map &a, const map &b) {
        return &a == &b ? map(a) : made_of(range_map_intersection_unchecked, a, b);
    }
    [[nodiscard]] friend map operator&(map &&a, const map &b) {
        a.intersect(b);
        return std::move(a);
    }

    /// Returns the keys of a that have no value in b, with their values. Throws std::bad_alloc if an allocation fails. O(n + m), or
    /// O(m log n) if a is a temporary and m is at most n / 16.
    [[nodiscard]] friend map operator-(const map &a, const map &b) {
        return &a == &b ? map() : made_of(range_map_difference_unchecked, a, b);
    }
    [[nodiscard]] friend map operator-(map &&a, const map &b) {
        if (!a.is_far_longer(b)) return std::as_const(a) - b;
        for (const entry &each : b) a.erase_range(each.first, each.last);
        return std::move(a);
    }

    /// Returns the keys that have a value in exactly one of the maps, with that value. Throws std::bad_alloc if an allocation
    /// fails. O(n + m) at most.
    [[nodiscard]] friend map operator^(const map &a, const map &b) {
        return &a == &b ? map() : made_of(range_map_symmetric_difference_unchecked, a, b);
    }
    [[nodiscard]] friend map operator^(map &&a, const map &b) {
        if (!a.is_far_longer(b)) return std::as_const(a) ^ b;
        const map alone = b - std::as_const(a);
        for (const entry &each : b) a.erase_range(each.first, each.last);
        a.extend(alone);
        return std::move(a);
    }
    [[nodiscard]] friend map operator^(const map &a, map &&b) { return std::move(b) ^ a; }
    [[nodiscard]] friend map operator^(map &&a, map &&b) {
        return a.size() < b.size() ? std::move(b) ^ std::as_const(a) : std::move(a) ^ std::as_const(b);
    }

    /// Paints the entries of the other map, ascending: where both have a value, that of the other remains. Throws std::bad_alloc
    /// if an allocation fails; a first part of the entries may be painted then. O(n + m), or O(m log n) if m is at most n / 16.
    map &operator|=(const map &other) { return extend(other), *this; }

    /// Keeps the keys that have a value in the other map too, with the value of the other. Throws std::bad_alloc if an allocation
    /// fails; the map is then unchanged. O(n + m) at most.
    map &operator&=(const map &other) { return intersect(other), *this; }

    /// Removes the keys that have a value in the other map. Throws std::bad_alloc if an allocation fails; the map is then
    /// unchanged. O(n + m) at most.
    map &operator-=(const map &other) { return subtract(other), *this; }

    /// Keeps the keys that have a value in exactly one of the maps, with that value. Throws std::bad_alloc if an allocation
    /// fails; the map is then unchanged. An empty other map does not allocate. O(n + m) at most.
    map &operator^=(const map &other) {
        if (!other.empty()) *this = *this ^ other;
        return *this;
    }

    /// Returns -1, 0 or 1 if the map is less than, equal to or greater than the other. Maps are ordered as their lists of (key, value)
    /// pairs: by key, then by value, and a list is greater than each of its prefixes. Keys compare as in C++. Values compare as the
    /// uint64_t of their bytes: in the order of unsigned numbers, with negative numbers above all others. O(n + m).
    [[nodiscard]] int compare(const map &other) const noexcept {
        return this == &other ? 0 : range_map_compare_unchecked(read(), other.read());
    }

    /// Whether the same keys have the same values. O(n), or O(1) if the numbers of entries differ.
    [[nodiscard]] friend bool operator==(const map &a, const map &b) noexcept {
        return &a == &b || range_map_equal_unchecked(a.read(), b.read());
    }
    [[nodiscard]] friend bool operator!=(const map &a, const map &b) noexcept { return !(a == b); }

    /// The order of `compare`. O(n + m).
#if __cplusplus >= 202002L
    [[nodiscard]] friend std::strong_ordering operator<=>(const map &a, const map &b) noexcept { return a.compare(b) <=> 0; }
#else
    [[nodiscard]] friend bool operator<(const map &a, const map &b) noexcept { return a.compare(b) < 0; }
    [[nodiscard]] friend bool operator>(const map &a, const map &b) noexcept { return a.compare(b) > 0; }
    [[nodiscard]] friend bool operator<=(const map &a, const map &b) noexcept { return a.compare(b) <= 0; }
    [[nodiscard]] friend bool operator>=(const map &a, const map &b) noexcept { return a.compare(b) >= 0; }
#endif

  private:
    using operation = std::int32_t (*)(::range_map *, ::range_map *, ::range_map *);

    static map made_of(operation operation, const map &a, const map &b) {
        map result;
        detail::check(operation(a.read(), b.read(), &result.handle));
        return result;
    }

    /// Whether the other map has at most 1/16 as many entries. Then they are applied one by one: O(m log n).
    bool is_far_longer(const map &other) const noexcept { return other.size() <= size() / 16; }

    static std::int64_t word(Key key) noexcept { return detail::from_key(key); }
    detail::read_only read() const noexcept { return detail::read_only(handle); }

    detail::row entry_or_gap_at(Key key) const noexcept {
        detail::row row;
        row.is_found = range_map_entry_or_gap_at_unchecked(read(), word(key), &row.lo, &row.hi, &row.value);
        return row;
    }

    void paint_rows(const detail::rows &rows) {
        const std::size_t count = rows.size();
        if (count == 0) return;
        detail::check(range_map_paint_many_unchecked(&handle, rows.lo.data(), count, rows.hi.data(), count, rows.value.data(), count));
    }

    /// The parts of the range that `combine` changes, ascending, with their new values.
    detail::rows combined_rows(Key first, Key last, Value value, op by, place where) const {
        detail::rows rows;
        if (first > last) return rows;
        Key gap_start = first; // the least key of the range above the entries so far
        for (const entry &each : entries_from(first)) {
            if (each.first > last) break;
            if (where == place::all && gap_start < each.first) rows.push(gap_start, detail::to_key<Key>(word(each.first) - 1), value);
            const Value result = detail::result_of(each.value, value, by);
            if (result != each.value) rows.push(std::max(each.first, first), std::min(each.last, last), result);
            if (each.last >= last) return rows;
            gap_start = detail::to_key<Key>(word(each.last) + 1);
        }
        if (where == place::all) rows.push(gap_start, last, value);
        return rows;
    }

    ::range_map handle = {nullptr};
};

/// Removes the entries for which the predicate is true, and returns how many they were. The predicate is called once for each entry, in
/// ascending order. If it throws, or if an allocation fails and std::bad_alloc is thrown, the map is unchanged. O(n).
template <class Key, class Value, class Predicate> std::size_t erase_if(map<Key, Value> &entries, Predicate predicate) {
    std::vector<entry<Key, Value>> erased;
    for (const entry<Key, Value> &entry : entries) {
        if (predicate(entry)) erased.push_back(entry);
    }
    if (!erased.empty()) entries.subtract(map<Key, Value>(erased.begin(), erased.end()));
    return erased.size();
}

/// Returns the union of `count` maps. A key has the value of the last map in which it has one. Throws std::bad_alloc if an allocation
/// fails. O(s log count) for s entries in all.
template <class Key, class Value> [[nodiscard]] map<Key, Value> union_many(const map<Key, Value> *maps, std::size_t count) {
    if (count == 0) return {};
    if (count == 1) return *maps;
    if (count == 2) return maps[0] | maps[1];
    return union_many(maps, count / 2) | union_many(maps + count / 2, count - count / 2);
}

/// Returns the union of the maps of an array, a vector or another contiguous container. A key has the value of the last map in which it
/// has one. Throws std::bad_alloc if an allocation fails. O(s log k) for k maps with s entries in all.
template <class Maps> [[nodiscard]] auto union_many(const Maps &maps) { return union_many(std::data(maps), std::size(maps)); }

} // namespace rangemap

/// The hash of a map: equal maps have equal hashes. O(n).
template <class Key, class Value> struct std::hash<rangemap::map<Key, Value>> {
    [[nodiscard]] std::size_t operator()(const rangemap::map<Key, Value> &map) const noexcept {
        namespace detail = rangemap::detail;
        std::uint64_t result = 0;
        for (const auto &[first, last, value] : map) {
            for (std::uint64_t word : {static_cast<std::uint64_t>(detail::from_key(first)),
                                       static_cast<std::uint64_t>(detail::from_key(last)), detail::from_value(value)}) {
                result = (result ^ word) * UINT64_C(0x9e3779b97f4a7c15);
                result ^= result >> 32;
            }
        }
        return result;
    }
};

#endif
