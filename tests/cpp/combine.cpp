// `combine` of values of each integer type, compared with the arithmetic of the type.
#include "model.hpp"

#include <limits>
#include <stdexcept>

namespace {

using rangemap::op;

constexpr op operations_of_combine[] = {op::add, op::min, op::max, op::bit_and, op::bit_or, op::bit_xor, op::keep_old};

// All values of 8 bits; of wider types those at the ends, around 0 and around each power of two.
template <class Value> std::vector<Value> values() {
    std::vector<Value> result;
    if constexpr (sizeof(Value) == 1) {
        for (int i = 0; i < 256; i++) result.push_back(static_cast<Value>(i));
    } else {
        for (unsigned bit = 0; bit < 8 * sizeof(Value); bit += 4) {
            for (std::uint64_t step : {UINT64_MAX, UINT64_C(0), UINT64_C(1)}) result.push_back(static_cast<Value>((UINT64_C(1) << bit) + step));
        }
        for (std::uint64_t step : {UINT64_MAX, UINT64_C(0), UINT64_C(1)}) {
            result.push_back(static_cast<Value>(static_cast<std::uint64_t>(std::numeric_limits<Value>::max()) + step));
        }
    }
    return result;
}

// Key i + 1 has the value i of the list. Key 0 and the key above the last one have none.
template <class Value> rangemap::map<int, Value> map_of(const std::vector<Value> &olds) {
    rangemap::map<int, Value> map;
    for (std::size_t i = 0; i < olds.size(); i++) map.insert_or_assign(static_cast<int>(i) + 1, olds[i]);
    return map;
}

template <class Value> void test_type(const char *type) {
    const std::vector<Value> olds = values<Value>();
    const int size = static_cast<int>(olds.size());
    const auto before = map_of(olds);
    for (op by : operations_of_combine) {
        bool is_right = true;
        for (Value value : olds) {
            auto all = before, mapped = before;
            all.combine(0, size + 1, value, by, rangemap::place::all);
            mapped.combine(2, size + 1, value, by, rangemap::place::mapped);
            is_right = is_right && all.get(0) == value && all.get(size + 1) == value && !mapped.get(size + 1) && mapped.get(1) == olds[0];
            for (int i = 0; i < size; i++) {
                const Value wanted = combined(olds[static_cast<std::size_t>(i)], value, by);
                is_right = is_right && all.get(i + 1) == wanted && (i == 0 || mapped.get(i + 1) == wanted);
            }
            // (a word with bytes above the value's would part equal neighbours, and compare as another value)
            rangemap::map<int, Value> afresh;
            for (auto [first, last, result] : all) afresh.paint(first, last, result);
            is_right = is_right && afresh == all && afresh.compare(all) == 0;
        }
        judge(is_right, std::string("combine of ") + type + ", operation " + std::to_string(static_cast<std::uint32_t>(by)));
    }
}

// The parts of the range: cut entries, gaps between and around them, an empty range, and the ends of the key type.
template <class Key> void test_ranges(const char *type) {
    using map = rangemap::map<Key, std::int8_t>;
    constexpr Key least = map::least_key, greatest = map::greatest_key;
    const Key ten = static_cast<Key>(least + 10), twenty = static_cast<Key>(least + 20), high = static_cast<Key>(greatest - 5);
    const map before = {{ten, twenty, 100}, {static_cast<Key>(least + 21), static_cast<Key>(least + 30), -100}, {high, greatest, 5}};
    map all = before, mapped = before, few = before, none = before, same = before;
    all.combine(least, greatest, 100, op::add, rangemap::place::all);
    judge(all.get(least) == 100 && all.get(ten) == -56 && all.get(static_cast<Key>(least + 21)) == 0 && all.get(greatest) == 105 &&
              all.get(static_cast<Key>(high - 1)) == 100 && all.all(least, greatest) && all.size() == 5,
          std::string("combine of all keys of ") + type);
    mapped.combine(least, greatest, 100, op::max, rangemap::place::mapped);
    judge(mapped == map{{ten, static_cast<Key>(least + 30), 100}, {high, greatest, 100}}, std::string("combine of all entries of ") + type);
    few.combine(static_cast<Key>(least + 15), static_cast<Key>(least + 25), 1, op::add, rangemap::place::all);
    judge(few == map{{ten, static_cast<Key>(least + 14), 100}, {static_cast<Key>(least + 15), twenty, 101},
                     {static_cast<Key>(least + 21), static_cast<Key>(least + 25), -99},
                     {static_cast<Key>(least + 26), static_cast<Key>(least + 30), -100}, {high, greatest, 5}},
          std::string("combine of a part of ") + type);
    none.combine(greatest, least, 1, op::add, rangemap::place::all);
    none.combine(twenty, ten, 1, op::max, rangemap::place::all);
    same.combine(least, greatest, -128, op::max, rangemap::place::mapped);
    judge(none == before && same == before, std::string("combine that changes nothing of ") + type);
}

// An operation and a place of which one is invalid, for a type whose sums the header makes itself.
void test_invalid() {
    const std::pair<std::uint32_t, std::uint32_t> invalid[] = {{7, 0}, {8, 1}, {0, 2}, {1, 2}, {2, UINT32_MAX}, {6, 3}, {UINT32_MAX, 0}};
    rangemap::map<int, std::int8_t> map = {{0, 9, 1}, {20, 29, 6}};
    const auto before = map;
    for (auto [by, where] : invalid) {
        for (int last : {24, 4}) {
            bool has_thrown = false;
            try {
                map.combine(5, last, 3, static_cast<op>(by), static_cast<rangemap::place>(where));
            } catch (const std::invalid_argument &) {
                has_thrown = true;
            }
            judge(has_thrown && map == before, "combine of int8_t, invalid " + std::to_string(by) + " " + std::to_string(where));
        }
    }
}

} // namespace

void test_combine_of_each_type() {
    test_type<std::int8_t>("int8_t");
    test_type<std::uint8_t>("uint8_t");
    test_type<char>("char");
    test_type<std::int16_t>("int16_t");
    test_type<std::uint16_t>("uint16_t");
    test_type<char16_t>("char16_t");
    test_type<std::int32_t>("int32_t");
    test_type<std::uint32_t>("uint32_t");
    test_type<wchar_t>("wchar_t");
    test_type<std::int64_t>("int64_t");
    test_type<std::uint64_t>("uint64_t");
    test_type<long long>("long long");
    test_ranges<std::uint8_t>("uint8_t");
    test_ranges<std::int16_t>("int16_t");
    test_ranges<int>("int");
    test_ranges<std::int64_t>("int64_t");
    test_ranges<std::uint64_t>("uint64_t");
    test_invalid();
}
