// Those works of driver.cpp that Boost's interval_map has. A later value replaces an earlier one.
#include <boost/icl/interval_map.hpp>

#include <algorithm>
#include <cstdint>
#include <utility>
#include <vector>

namespace {

using Interval = boost::icl::closed_interval<std::int64_t>;
// The map keeps every value, 0 too. Touching ranges with equal values are one.
using Map = boost::icl::interval_map<std::int64_t, std::uint64_t, boost::icl::partial_enricher, std::less,
                                     boost::icl::inplace_plus, boost::icl::inter_section, Interval>;

constexpr std::uint64_t spacing = 17;
constexpr std::uint32_t checked = 200;

struct Draw {
    std::uint64_t state;

    std::uint64_t next() {
        state = state * 6364136223846793005u + 1442695040888963407u;
        return state >> 33;
    }

    std::uint64_t below(std::uint64_t limit) { return next() % limit; }

    std::int64_t key(std::uint64_t limit) { return static_cast<std::int64_t>(below(limit)); }
};

Map prepared(std::uint64_t seed, std::uint64_t size, std::uint64_t gap, std::uint64_t keys) {
    Draw draw{seed};
    Map map;
    std::int64_t next = 0;
    for (std::uint64_t i = 0; i < size; ++i) {
        std::int64_t start = next + draw.key(gap);
        std::int64_t end = start + (keys == 0 ? draw.key(16) : static_cast<std::int64_t>(keys) - 1);
        next = end + 2;
        std::uint64_t value = draw.below(4);
        map.insert(map.end(), {Interval(start, end), value});
    }
    return map;
}

std::uint64_t mix(std::uint64_t sum, std::uint64_t part) { return sum * 31 + part; }

// It counts the keys for the checksum alone, since the map does not store their number.
std::uint64_t checksum(bool check, std::uint64_t sum, const Map& map) {
    if (!check) {
        return sum;
    }
    std::uint64_t keys = 0;
    for (const auto& [range, value] : map) {
        sum = mix(mix(mix(sum, static_cast<std::uint64_t>(range.lower())), static_cast<std::uint64_t>(range.upper())), value);
        keys += static_cast<std::uint64_t>(range.upper() - range.lower()) + 1;
    }
    return mix(sum, keys);
}

std::vector<Map> copies(std::uint64_t size) {
    std::vector<Map> maps(size < 100'000 ? 100'000 / size : 1);
    maps[0] = prepared(1, size, 16, 0);
    std::fill(maps.begin() + 1, maps.end(), maps[0]);
    return maps;
}

// Makes `count` paints, insertions or removals at random keys of maps of `size` entries.
template <typename Operation>
std::uint64_t change(bool check, std::uint64_t size, std::uint64_t count, Operation operation) {
    Draw draw{2};
    std::uint64_t sum = 0;
    std::vector<Map> maps = copies(size);
    for (Map& map : maps) {
        std::uint64_t some = count < size ? count : size;
        count -= some;
        std::uint64_t answers = 0;
        for (std::uint64_t i = 0; i < some; ++i) {
            answers += operation(map, draw, spacing * size);
        }
        sum = checksum(check, mix(sum, answers), map);
    }
    return sum;
}

std::uint64_t value_at(const Map& map, std::int64_t key) {
    auto found = map.find(key);
    return found == map.end() ? 7 : found->second;
}

std::uint64_t paint(Map& map, Draw& draw, std::uint64_t limit) {
    std::int64_t lo = draw.key(limit);
    std::int64_t hi = lo + draw.key(16);
    map.set({Interval(lo, hi), draw.below(4)});
    return 0;
}

std::uint64_t insert(Map& map, Draw& draw, std::uint64_t limit) {
    std::int64_t key = draw.key(limit);
    std::uint64_t old = value_at(map, key);
    map.set({Interval(key, key), draw.below(4)});
    return old;
}

std::uint64_t take_out(Map& map, Draw& draw, std::uint64_t limit) {
    std::int64_t key = draw.key(limit);
    std::uint64_t old = value_at(map, key);
    map.erase(Interval(key, key));
    return old;
}

std::uint64_t paint_clumps(bool check, std::uint64_t count) {
    Draw draw{2};
    Map map;
    for (std::uint64_t place = 0; place < count; ++place) {
        std::int64_t lo = static_cast<std::int64_t>(place / 16 * 64) + draw.key(64);
        std::int64_t hi = lo + draw.key(16);
        map.set({Interval(lo, hi), draw.below(4)});
    }
    return checksum(check, 0, map);
}

std::uint64_t get(std::uint64_t size, std::uint64_t count) {
    Map map = prepared(1, size, 16, 0);
    Draw draw{2};
    std::uint64_t sum = 0;
    for (std::uint64_t i = 0; i < count; ++i) {
        sum += value_at(map, draw.key(spacing * size));
    }
    return sum;
}

std::uint64_t pop_first(bool check, std::uint64_t size, std::uint64_t count) {
    Map map = prepared(1, size, 16, 0);
    std::uint64_t sum = 0;
    for (std::uint64_t i = 0; i < count && !map.empty(); ++i) {
        auto first = map.begin();
        std::int64_t key = first->first.lower();
        sum = mix(mix(sum, static_cast<std::uint64_t>(key)), first->second);
        map.erase(Interval(key, key));
    }
    return checksum(check, sum, map);
}

std::uint64_t walk(std::uint64_t size, std::uint64_t keys, std::uint64_t count) {
    Map map = prepared(1, size, 16, keys);
    std::uint64_t sum = 0;
    for (std::uint64_t i = 0; i < count; ++i) {
        for (const auto& [range, value] : map) {
            for (std::int64_t key = range.lower(); key <= range.upper(); ++key) {
                sum = (sum ^ static_cast<std::uint64_t>(key)) + value;
            }
        }
    }
    return sum;
}

}  // namespace

// Runs a work and returns a checksum, which is not 0. It returns 0 if the map has no such operation.
extern "C" std::uint64_t boost_run(std::uint32_t work, std::uint64_t size, std::uint64_t count) {
    bool check = work >= checked;
    switch (work % checked) {
        case 0: return change(check, size, count, paint) | 1;
        case 1: return change(check, size, count, insert) | 1;
        case 2: return change(check, size, count, take_out) | 1;
        case 3: return paint_clumps(check, count) | 1;
        case 4: return get(size, count) | 1;
        case 7: return pop_first(check, size, count) | 1;
        case 15: return walk(size, 100, count) | 1;
        case 16: return walk(size, 1, count) | 1;
        default: return 0;
    }
}
