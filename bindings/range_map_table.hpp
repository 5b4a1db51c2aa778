// Tables: entries in your own arrays. range_map.hpp includes this file: a program includes that one.
#ifndef RANGE_MAP_TABLE_HPP
#define RANGE_MAP_TABLE_HPP

#include "range_map_entry.hpp"

#include <iterator>

namespace rangemap {

/// Whether arrays of a type can be the keys of a table: a signed integer type of 64 bits, or an enum over one. The library reads them
/// as arrays of int64_t. Smaller keys have another size, and unsigned keys of 64 bits another order.
template <class Key> inline constexpr bool is_table_key = is_key<Key> && sizeof(Key) == 8 && std::is_signed_v<detail::number_t<Key>>;

/// Whether arrays of a type can be the values of a table: a value type with the size and the alignment of uint64_t. The library reads
/// them as arrays of uint64_t.
template <class Value>
inline constexpr bool is_table_value = is_value<Value> && sizeof(Value) == 8 && alignof(Value) == alignof(std::uint64_t);

/// Says that the rows of a table are in order, so that the constructor does not check it.
struct ordered_t {
    explicit ordered_t() = default;
};
inline constexpr ordered_t ordered{};

/// A table in your own arrays: row i gives the keys `first[i]` to `last[i]` the value `value[i]`. The arrays may be in read-only memory
/// or in a mapped file, and must exist as long as the table. A table does not allocate, and any number of threads may read it. Copies
/// of a table have the same arrays. In the costs, n is the number of rows.
///
/// The rows must be in order: each range has a key, and starts above the end of the range before it.
///
/// For keys and values of other types, convert the entries: a map is made from iterators over entries.
template <class Key, class Value> class table {
    static_assert(is_table_key<Key>, "Key must be a signed integer type of 64 bits or an enum over one");
    static_assert(is_table_value<Value>, "Value must have the size and the alignment of uint64_t, and no bytes that do not matter");

  public:
    using key_type = Key;
    using mapped_type = Value;
    using value_type = entry<Key, Value>;
    using size_type = std::size_t;
    using difference_type = std::ptrdiff_t;
    using reference = value_type;
    using const_reference = value_type;

    /// Visits the rows, ascending.
    class iterator {
      public:
        using iterator_category = std::input_iterator_tag; // because it returns entries, not references to them
        using iterator_concept = std::forward_iterator_tag;
        using value_type = entry<Key, Value>;
        using difference_type = std::ptrdiff_t;
        using pointer = void;
        using reference = value_type;

        /// An iterator of no table. O(1).
        iterator() noexcept = default;

        /// The row as an entry. The iterator must not be at the end. O(1).
        value_type operator*() const noexcept { return {*first, *last, *value}; }

        /// Moves on to the next row. The iterator must not be at the end. O(1).
        iterator &operator++() noexcept {
            ++first, ++last, ++value;
            return *this;
        }

        /// Moves on to the next row and returns the iterator as it was. The iterator must not be at the end. O(1).
        iterator operator++(int) noexcept {
            iterator before = *this;
            ++*this;
            return before;
        }

        /// Whether two iterators of one table are at the same row, or both at the end. O(1).
        friend bool operator==(const iterator &a, const iterator &b) noexcept { return a.first == b.first; }
        friend bool operator!=(const iterator &a, const iterator &b) noexcept { return a.first != b.first; }

      private:
        friend class table;
        iterator(const Key *at_first, const Key *at_last, const Value *at_value) noexcept
            : first(at_first), last(at_last), value(at_value) {}

        const Key *first = nullptr, *last = nullptr;
        const Value *value = nullptr;
    };
    using const_iterator = iterator;

    // ---- Make ----

    /// The table without rows. O(1).
    table() noexcept = default;

    /// The table of three arrays with `length` elements each. Throws std::invalid_argument if the rows are not in order. O(n).
    table(const Key *first, const Key *last, const Value *value, std::size_t length) : table(ordered, first, last, value, length) {
        if (!is_ordered(first, last, value, length)) detail::check(RANGE_MAP_NOT_ORDERED);
    }

    /// The table of three arrays with `length` elements each, whose rows must be in order: this is not checked. O(1).
    table(ordered_t, const Key *first, const Key *last, const Value *value, std::size_t length) noexcept
        : firsts(first), lasts(last), values(value), row_count(length) {}

    /// The table of three arrays, vectors, objects of std::span or other contiguous containers. Throws std::invalid_argument if they
    /// are not equally long, or the rows are not in order. O(n).
    template <class Firsts, class Lasts, class Values, class = decltype(std::data(std::declval<const Firsts &>()))>
    table(const Firsts &first, const Lasts &last, const Values &value)
        : table(std::data(first), std::data(last), std::data(value), equal_length(first, last, value)) {}

    /// The table of three arrays, vectors, objects of std::span or other contiguous containers, whose rows must be in order: this is
    /// not checked. Throws std::invalid_argument if they are not equally long. O(1).
    template <class Firsts, class Lasts, class Values, class = decltype(std::data(std::declval<const Firsts &>()))>
    table(ordered_t, const Firsts &first, const Lasts &last, const Values &value)
        : table(ordered, std::data(first), std::data(last), std::data(value), equal_length(first, last, value)) {}

    /// Returns whether the rows of three arrays with `length` elements each are in order. O(n).
    [[nodiscard]] static bool is_ordered(const Key *first, const Key *last, const Value *value, std::size_t length) noexcept {
        return table(ordered, first, last, value, length).call(range_table_is_ordered_unchecked) || length == 0;
    }

    // ---- Rows ----

    /// Returns the number of rows. O(1).
    [[nodiscard]] std::size_t size() const noexcept { return row_count; }

    /// Returns whether there are no rows. O(1).
    [[nodiscard]] bool empty() const noexcept { return row_count == 0; }

    /// Returns a row, which must exist. O(1).
    [[nodiscard]] value_type operator[](std::size_t row) const noexcept { return {firsts[row], lasts[row], values[row]}; }

    /// Returns an iterator at the first row, or at the end if there is none. O(1).
    [[nodiscard]] iterator begin() const noexcept { return {firsts, lasts, values}; }

    /// Returns an iterator at the end. O(1).
    [[nodiscard]] iterator end() const noexcept { return {firsts + row_count, lasts + row_count, values + row_count}; }

    // ---- Look up ----

    /// Returns the value of the key, if it has one. O(log n).
    [[nodiscard]] std::optional<Value> get(Key key) const noexcept {
        detail::row row;
        row.is_found = call(range_table_get_unchecked, detail::from_key(key), &row.value);
        return row.as_value<Value>();
    }

    /// Returns whether the key has a value. O(log n).
    [[nodiscard]] bool contains(Key key) const noexcept { return get(key).has_value(); }

    /// Returns the row that contains the key, or nothing if the key has no value. O(log n).
    [[nodiscard]] std::optional<value_type> entry_at(Key key) const noexcept { return row_or_gap_at(key).template as_entry<Key, Value>(); }

    /// Returns the first and the last key of the longest range around `key` in which no key has a value. Returns nothing if `key` has
    /// a value. O(log n).
    [[nodiscard]] std::optional<std::pair<Key, Key>> gap_at(Key key) const noexcept { return row_or_gap_at(key).template as_gap<Key>(); }

    /// Returns the first row that ends at the key or above it, if any. O(log n).
    [[nodiscard]] std::optional<value_type> next(Key key) const noexcept {
        detail::row row;
        row.is_found = call(range_table_next_unchecked, detail::from_key(key), &row.lo, &row.hi, &row.value);
        return row.as_entry<Key, Value>();
    }

    /// Returns the last row that starts at the key or below it, if any. O(log n).
    [[nodiscard]] std::optional<value_type> previous(Key key) const noexcept {
        detail::row row;
        row.is_found = call(range_table_previous_unchecked, detail::from_key(key), &row.lo, &row.hi, &row.value);
        return row.as_entry<Key, Value>();
    }

    /// Returns how many keys in the range have a value; UINT64_MAX if there are 2^64 of them, too. O(log n), and O(1) for each
    /// row in the range.
    [[nodiscard]] std::uint64_t key_count_within(Key first, Key last) const noexcept {
        std::uint64_t low = 0, high = 0;
        call(range_table_count_within_unchecked, detail::from_key(first), detail::from_key(last), &low, &high);
        return detail::one_word(low, high);
    }

  private:
    template <class OtherKey, class OtherValue> friend class map;

    template <class Firsts, class Lasts, class Values>
    static std::size_t equal_length(const Firsts &first, const Lasts &last, const Values &value) {
        const std::size_t length = std::size(first);
        if (std::size(last) != length || std::size(value) != length) {
            detail::throw_invalid("rangemap: the arrays of a table are not equally long");
        }
        return length;
    }

    /// Calls a function for C with the arrays, if there are rows. Without rows, the result is that of no row.
    template <class Result, class... Parameters, class... Arguments>
    Result call(Result (*function)(const std::int64_t *, std::size_t, const std::int64_t *, std::size_t, const std::uint64_t *,
                                   std::size_t, Parameters...),
                Arguments... arguments) const {
        if (row_count == 0) return Result();
        const auto lo = reinterpret_cast<const std::int64_t *>(firsts), hi = reinterpret_cast<const std::int64_t *>(lasts);
        return function(lo, row_count, hi, row_count, reinterpret_cast<const std::uint64_t *>(values), row_count, arguments...);
    }

    detail::row row_or_gap_at(Key key) const noexcept {
        detail::row row = {false, INT64_MIN, INT64_MAX, 0};
        row.is_found = call(range_table_entry_or_gap_at_unchecked, detail::from_key(key), &row.lo, &row.hi, &row.value);
        return row;
    }

    const Key *firsts = nullptr, *lasts = nullptr;
    const Value *values = nullptr;
    std::size_t row_count = 0;
};

} // namespace rangemap

#endif
