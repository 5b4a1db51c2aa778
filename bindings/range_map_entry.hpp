// The types of keys and values, and entries. range_map.hpp includes this file: a program includes that one.
#ifndef RANGE_MAP_ENTRY_HPP
#define RANGE_MAP_ENTRY_HPP

#include "range_map.h"

#include <cstddef>
#include <cstdint>
#include <cstdlib>
#include <cstring>
#include <limits>
#include <new>
#include <optional>
#include <stdexcept>
#include <type_traits>
#include <utility>
#include <vector>

namespace rangemap {

namespace detail {

/// The integer type of a key: the type itself, or that of an enum.
template <class Key, bool = std::is_enum_v<Key>> struct number { using type = Key; };
template <class Key> struct number<Key, true> { using type = std::underlying_type_t<Key>; };
template <class Key> using number_t = typename number<Key>::type;

/// Whether every number of the underlying type is a value of the enum. An enum without a declared type cannot be written
/// `Enum{0}`.
template <class Enum, class = void> struct is_fixed_enum : std::false_type {};
template <class Enum> struct is_fixed_enum<Enum, std::void_t<decltype(Enum{0})>> : std::is_enum<Enum> {};

} // namespace detail

/// Whether a type can be the key of a map: an integer type of at most 64 bits except bool, or an enum over one. The enum must
/// declare its type, as `enum class` and `enum name : type` do.
template <class Key>
inline constexpr bool is_key = std::is_integral_v<detail::number_t<Key>> && !std::is_same_v<detail::number_t<Key>, bool> &&
                               sizeof(Key) <= 8 && std::is_same_v<Key, std::remove_cv_t<Key>> &&
                               (!std::is_enum_v<Key> || detail::is_fixed_enum<Key>::value);

/// Whether a type can be the value of a map: trivially copyable, at most 8 bytes, and equal values have equal bytes. So there is no
/// padding, and float and double are excluded.
template <class Value>
inline constexpr bool is_value = std::is_trivially_copyable_v<Value> && std::has_unique_object_representations_v<Value> &&
                                 sizeof(Value) <= 8 && std::is_same_v<Value, std::remove_cv_t<Value>>;

namespace detail {

/// The int64_t for a key. It keeps the order: the top bit of a 64-bit unsigned number is flipped.
template <class Key> constexpr std::int64_t from_key(Key key) noexcept {
    if constexpr (std::is_unsigned_v<number_t<Key>> && sizeof(Key) == 8) return RANGE_MAP_KEY_FROM_U64(key);
    return static_cast<std::int64_t>(key);
}

template <class Key> constexpr Key to_key(std::int64_t key) noexcept {
    if constexpr (std::is_unsigned_v<number_t<Key>> && sizeof(Key) == 8) return static_cast<Key>(RANGE_MAP_KEY_TO_U64(key));
    return static_cast<Key>(key);
}

/// The uint64_t whose first bytes are those of the value. The other bytes are 0.
template <class Value> std::uint64_t from_value(const Value &value) noexcept {
    std::uint64_t word = 0;
    std::memcpy(&word, &value, sizeof(Value));
    return word;
}

template <class Value> Value to_value(std::uint64_t word) noexcept {
    union {
        char none;
        Value value;
    } result = {0}; // Value may have no default constructor
    std::memcpy(static_cast<void *>(&result), &word, sizeof(Value));
    return result.value;
}

} // namespace detail

/// A range of keys, both ends included, and their value.
template <class Key, class Value> struct entry {
    Key first, last;
    Value value;

    /// Whether the entries have the same keys and the same bytes of the value. O(1).
    friend bool operator==(const entry &a, const entry &b) noexcept {
        return a.first == b.first && a.last == b.last && detail::from_value(a.value) == detail::from_value(b.value);
    }
    friend bool operator!=(const entry &a, const entry &b) noexcept { return !(a == b); }
};

namespace detail {

/// What a function for C found, as a result for the caller.
struct row {
    bool is_found = false;
    std::int64_t lo = 0, hi = 0;
    std::uint64_t value = 0;

    template <class Key, class Value> std::optional<entry<Key, Value>> as_entry() const noexcept {
        if (!is_found) return std::nullopt;
        return entry<Key, Value>{to_key<Key>(lo), to_key<Key>(hi), to_value<Value>(value)};
    }

    /// The first key and the value.
    template <class Key, class Value> std::optional<std::pair<Key, Value>> as_pair() const noexcept {
        if (!is_found) return std::nullopt;
        return std::pair(to_key<Key>(lo), to_value<Value>(value));
    }

    template <class Value> std::optional<Value> as_value() const noexcept {
        if (!is_found) return std::nullopt;
        return to_value<Value>(value);
    }

    /// The ends of a gap, cut to the keys of the key type, or nothing if the row is an entry.
    template <class Key> std::optional<std::pair<Key, Key>> as_gap() const noexcept {
        if (is_found) return std::nullopt;
        constexpr Key least = static_cast<Key>(std::numeric_limits<number_t<Key>>::min());
        constexpr Key greatest = static_cast<Key>(std::numeric_limits<number_t<Key>>::max());
        return std::pair(lo < from_key(least) ? least : to_key<Key>(lo), hi > from_key(greatest) ? greatest : to_key<Key>(hi));
    }
};

/// The arrays of a call with many entries.
struct rows {
    std::vector<std::int64_t> lo, hi;
    std::vector<std::uint64_t> value;

    std::size_t size() const noexcept { return value.size(); }

    void reserve(std::size_t count) {
        lo.reserve(count);
        hi.reserve(count);
        value.reserve(count);
    }

    template <class Key, class Value> void push(Key first, Key last, const Value &given) {
        lo.push_back(from_key(first));
        hi.push_back(from_key(last));
        value.push_back(from_value(given));
    }
};

/// A copy of a map's struct, for a call that only reads the map: the exported functions take no pointer to const.
class read_only {
  public:
    explicit read_only(const ::range_map &handle) noexcept : copy(handle) {}
    operator ::range_map *() noexcept { return &copy; }

  private:
    ::range_map copy;
};

/// The number of two words, or UINT64_MAX if it is 2^64.
inline std::uint64_t one_word(std::uint64_t low, std::uint64_t high) noexcept { return high ? UINT64_MAX : low; }

[[noreturn]] inline void throw_no_memory() {
#ifdef __cpp_exceptions
    throw std::bad_alloc();
#else
    std::abort();
#endif
}

[[noreturn]] inline void throw_invalid([[maybe_unused]] const char *message) {
#ifdef __cpp_exceptions
    throw std::invalid_argument(message);
#else
    std::abort();
#endif
}

/// Throws if the status of a function for C says that an allocation failed, or that an argument is invalid.
inline void check(std::int32_t status) {
    if (status == RANGE_MAP_NO_MEMORY) throw_no_memory();
    if (status == RANGE_MAP_INVALID) throw_invalid("rangemap: op or place is not one of its constants");
    if (status == RANGE_MAP_NOT_ORDERED) throw_invalid("rangemap: the rows of a table are not in order");
}

} // namespace detail

} // namespace rangemap

#endif
