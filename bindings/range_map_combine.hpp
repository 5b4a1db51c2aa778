// The operations of `combine`. range_map.hpp includes this file: a program includes that one.
#ifndef RANGE_MAP_COMBINE_HPP
#define RANGE_MAP_COMBINE_HPP

#include "range_map.h"

#include <algorithm>
#include <cstdint>
#include <type_traits>

namespace rangemap {

/// What `map::combine` makes of the value of a key and the given value.
enum class op : std::uint32_t {
    add = RANGE_MAP_ADD,          ///< the sum, which wraps at the width of the value type, also if that is signed
    min = RANGE_MAP_MIN,          ///< the lesser, as the value type compares
    max = RANGE_MAP_MAX,          ///< the greater, as the value type compares
    bit_and = RANGE_MAP_AND,      ///< the bits that both have
    bit_or = RANGE_MAP_OR,        ///< the bits that one of them has, or both
    bit_xor = RANGE_MAP_XOR,      ///< the bits that exactly one of them has
    keep_old = RANGE_MAP_KEEP_OLD ///< the value of the key
};

/// Which keys of its range `map::combine` changes.
enum class place : std::uint32_t {
    all = RANGE_MAP_ALL,      ///< all keys; one without a value gets the given value
    mapped = RANGE_MAP_MAPPED ///< the keys that have a value
};

namespace detail {

/// Whether an operation on the words of two values gives the word of the result. The library rejects an operation that is none.
template <class Value> constexpr bool is_exact_in_words(op by) noexcept {
    if (by == op::add) return sizeof(Value) == 8;
    if (by == op::min || by == op::max) return std::is_unsigned_v<Value>;
    return true;
}

/// The sum, the lesser or the greater of two values.
template <class Value> constexpr Value result_of(Value old, Value value, op by) noexcept {
    if (by == op::min) return std::min(old, value);
    if (by == op::max) return std::max(old, value);
    return static_cast<Value>(static_cast<std::uint64_t>(old) + static_cast<std::uint64_t>(value));
}

} // namespace detail

} // namespace rangemap

#endif
