// Iterators over the entries of a map. range_map.hpp includes this file: a program includes that one.
#ifndef RANGE_MAP_ITERATOR_HPP
#define RANGE_MAP_ITERATOR_HPP

#include "range_map_entry.hpp"

#include <iterator>

namespace rangemap {

template <class Key, class Value> class map;
template <class Key, class Value, bool is_back> class entry_range;

/// Visits the entries of a map, ascending, or descending if `is_back`. An iterator reads up to 32 entries at a time and keeps them in
/// itself. A copy takes only the entry that the iterator is at, and reads the next entries itself if it moves on. Do not change or
/// destroy the map while you use an iterator of it. If the map is moved or swapped, its iterators go with its content.
template <class Key, class Value, bool is_back> class entry_iterator {
  public:
    using iterator_category = std::input_iterator_tag; // because it returns entries, not references to them
    using iterator_concept = std::forward_iterator_tag;
    using value_type = entry<Key, Value>;
    using difference_type = std::ptrdiff_t;
    using reference = value_type;

    /// The entry that `->` returns a member of. It exists to the end of the expression.
    class pointer {
      public:
        explicit pointer(const value_type &entry) noexcept : pointee(entry) {}
        const value_type *operator->() const noexcept { return &pointee; }

      private:
        value_type pointee;
    };

    /// An iterator at the end of every map. O(1).
    entry_iterator() noexcept {} // (not `= default`: the arrays stay unset)

    /// An iterator at the same entry. O(1), and O(log n) when it moves on.
    entry_iterator(const entry_iterator &other) noexcept { assign(other); }

    /// Moves to the entry of the other iterator. O(1), and O(log n) when it moves on.
    entry_iterator &operator=(const entry_iterator &other) noexcept {
        if (this != &other) assign(other);
        return *this;
    }

    /// The entry. The iterator must not be at the end. O(1).
    value_type operator*() const noexcept {
        return {detail::to_key<Key>(lo[at]), detail::to_key<Key>(hi[at]), detail::to_value<Value>(value[at])};
    }

    /// A member of the entry. The iterator must not be at the end. O(1).
    pointer operator->() const noexcept { return pointer(**this); }

    /// Moves on to the next entry. The iterator must not be at the end. O(1), and O(log n) for each 32 entries.
    entry_iterator &operator++() noexcept {
        if (++at == count && has_more) read(is_back ? lo[count - 1] - 1 : hi[count - 1] + 1);
        return *this;
    }

    /// Moves on to the next entry and returns a copy of the iterator as it was. The iterator must not be at the end. O(1), and
    /// O(log n) for each 32 entries.
    entry_iterator operator++(int) noexcept {
        entry_iterator before = *this;
        ++*this;
        return before;
    }

    /// Whether two iterators of one map are at the same entry, or both at the end. O(1).
    friend bool operator==(const entry_iterator &a, const entry_iterator &b) noexcept {
        if (a.is_end() || b.is_end()) return a.is_end() == b.is_end();
        return a.lo[a.at] == b.lo[b.at];
    }
    friend bool operator!=(const entry_iterator &a, const entry_iterator &b) noexcept { return !(a == b); }

  private:
    friend class map<Key, Value>;
    friend class entry_range<Key, Value, is_back>;
    static constexpr std::size_t room = RANGE_MAP_ITER_ROOM;

    /// At the first entry that ends at the key or above it, or at the last that starts at the key or below it.
    entry_iterator(const ::range_map &map, std::int64_t key) noexcept : handle(map) {
        if (handle.at) read(key); // (a struct that is zero is the empty map)
    }

    /// At the one entry of a row, or at the end if there is none.
    entry_iterator(const ::range_map &map, const detail::row &row) noexcept : handle(map) {
        if (!row.is_found) return;
        lo[0] = row.lo;
        hi[0] = row.hi;
        value[0] = row.value;
        count = 1;
        has_more = is_more_after_last();
    }

    bool is_end() const noexcept { return at == count; }
    bool is_more_after_last() const noexcept { return is_back ? lo[count - 1] != INT64_MIN : hi[count - 1] != INT64_MAX; }

    void read(std::int64_t key) noexcept {
        const auto entries_into = is_back ? range_map_entries_back_into_unchecked : range_map_entries_into_unchecked;
        ::range_map map = handle;
        at = 0;
        count = static_cast<std::size_t>(entries_into(&map, key, lo, room, hi, room, value, room));
        has_more = count == room && is_more_after_last();
    }

    void assign(const entry_iterator &other) noexcept {
        handle = other.handle;
        has_more = other.has_more || other.at + 1 < other.count;
        at = 0;
        count = 0;
        if (other.is_end()) return;
        count = 1;
        lo[0] = other.lo[other.at];
        hi[0] = other.hi[other.at];
        value[0] = other.value[other.at];
    }

    ::range_map handle = {nullptr};
    std::size_t at = 0, count = 0; // the entry that it is at, and the number of those that it has
    bool has_more = false;         // whether the map may have entries after those
    // Only the first `count` entries are set.
    std::int64_t lo[room], hi[room];
    std::uint64_t value[room];
};

/// The entries of a map from a key on, ascending, or descending if `is_back`: for a range-based `for`. Do not move or destroy the
/// map while you use it.
template <class Key, class Value, bool is_back> class entry_range {
  public:
    using value_type = entry<Key, Value>;
    using iterator = entry_iterator<Key, Value, is_back>;
    using const_iterator = iterator;

    /// Returns an iterator at the first of the entries, or at the end if there are none. O(log n).
    [[nodiscard]] iterator begin() const noexcept { return iterator(*handle, key); }

    /// Returns an iterator at the end. O(1).
    [[nodiscard]] iterator end() const noexcept { return iterator(); }

    /// Returns whether there are no such entries. O(log n).
    [[nodiscard]] bool empty() const noexcept { return begin() == end(); }

  private:
    friend class map<Key, Value>;
    entry_range(const ::range_map &map, std::int64_t from) noexcept : handle(&map), key(from) {}

    const ::range_map *handle;
    std::int64_t key;
};

} // namespace rangemap

#endif
