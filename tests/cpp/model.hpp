// The content of a map as a std::map from each key to its value, and what calls make of it.
#ifndef MODEL_HPP
#define MODEL_HPP

#include "tests.hpp"

#include <algorithm>
#include <cstring>
#include <limits>
#include <map>
#include <type_traits>

// One of three values of a type.
template <class Value> Value value_of(std::uint64_t number) {
    static const char *const names[] = {"zero", "one", "two"};
    if constexpr (std::is_same_v<Value, const char *>) return names[number];
    else if constexpr (std::is_same_v<Value, point>) return point{static_cast<std::uint16_t>(number * 40000), static_cast<std::uint16_t>(2 - number)};
    else if constexpr (std::is_same_v<Value, letter>) return static_cast<letter>('a' + number);
    else if constexpr (std::is_same_v<Value, id>) return id(static_cast<int>(number));
    else return static_cast<Value>(number - 1);
}

// What `combine` makes of two values. A sum that the type does not have wraps by the number of the type's values.
template <class Value> Value combined(Value old, Value value, rangemap::op by) {
    switch (by) {
    case rangemap::op::add:
        if constexpr (std::is_unsigned_v<Value> || sizeof(Value) == 8) {
            return static_cast<Value>(static_cast<std::uint64_t>(old) + static_cast<std::uint64_t>(value));
        } else {
            const std::int64_t sum = std::int64_t{old} + value, wrap = std::int64_t{1} << 8 * sizeof(Value);
            return static_cast<Value>(sum > std::numeric_limits<Value>::max()   ? sum - wrap
                                      : sum < std::numeric_limits<Value>::min() ? sum + wrap
                                                                                : sum);
        }
    case rangemap::op::min: return value < old ? value : old;
    case rangemap::op::max: return value > old ? value : old;
    case rangemap::op::bit_and: return static_cast<Value>(old & value);
    case rangemap::op::bit_or: return static_cast<Value>(old | value);
    case rangemap::op::bit_xor: return static_cast<Value>(old ^ value);
    default: return old;
    }
}

// The key that is some steps above another one.
template <class Key> Key after(Key key, std::uint64_t steps) {
    return static_cast<Key>(static_cast<rangemap::detail::number_t<Key>>(static_cast<std::uint64_t>(key) + steps));
}

// Calls a function with each key of a range, which is empty if its last key is below its first.
template <class Key, class Act> void each(Key first, Key last, Act act) {
    if (last < first) return;
    for (Key key = first;; key = after(key, 1)) {
        act(key);
        if (key == last) return;
    }
}

// The pairs of a model, each with the bits of its value.
template <class Key, class Value> std::vector<std::pair<Key, std::uint64_t>> pairs(const std::map<Key, Value> &model) {
    std::vector<std::pair<Key, std::uint64_t>> result;
    for (const auto &[key, value] : model) {
        result.emplace_back(key, 0);
        std::memcpy(&result.back().second, &value, sizeof value);
    }
    return result;
}

template <class Key, class Value> std::vector<typename rangemap::map<Key, Value>::entry> entries(const std::map<Key, Value> &model) {
    std::vector<typename rangemap::map<Key, Value>::entry> result;
    for (const auto &[key, value] : model) {
        if (!result.empty() && after(result.back().last, 1) == key && result.back().value == value) {
            result.back().last = key;
        } else {
            result.push_back({key, key, value});
        }
    }
    return result;
}

enum operation { unite, intersect, subtract, exactly_one, operations };

template <class Map> Map operated(std::uint64_t by, const Map &left, const Map &right) {
    Map wanted;
    for (const auto &[key, value] : left) {
        const auto other = right.find(key);
        if (by == unite) wanted.emplace(key, other == right.end() ? value : other->second);
        if (by == intersect && other != right.end()) wanted.emplace(key, other->second);
        if ((by == subtract || by == exactly_one) && other == right.end()) wanted.emplace(key, value);
    }
    for (const auto &[key, value] : right) {
        if (by == unite || (by == exactly_one && !left.count(key))) wanted.emplace(key, value);
    }
    return wanted;
}

#endif
