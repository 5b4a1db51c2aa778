// The works of driver.cpp that go through the library's calls for C: paints and lookups.
#include <range_map.h>

#include <cstdint>
#include <cstdlib>
#include <vector>

namespace {

constexpr std::uint64_t spacing = 17;
constexpr std::uint32_t checked = 200;

struct Draw {
    std::uint64_t state;

    std::uint64_t next() {
        state = state * 6364136223846793005u + 1442695040888963407u;
        return state >> 33;
    }

    std::uint64_t below(std::uint64_t limit) { return next() % limit; }

    std::int64_t key(std::uint64_t limit) { return static_cast<std::int64_t>(below(limit)); }
};

void check(std::int32_t status) {
    if (status != RANGE_MAP_DONE) {
        std::abort();
    }
}

// Equal maps of `size` entries of 1 to 16 keys, after gaps of 1 to 16 keys.
class Maps {
public:
    Maps(std::uint64_t size, std::size_t count) : maps(count) {
        Draw draw{1};
        std::vector<std::int64_t> starts, ends;
        std::vector<std::uint64_t> values;
        std::int64_t next = 0;
        for (std::uint64_t i = 0; i < size; ++i) {
            starts.push_back(next + draw.key(16));
            ends.push_back(starts.back() + draw.key(16));
            next = ends.back() + 2;
            values.push_back(draw.below(4));
        }
        for (range_map& map : maps) {
            range_map_new(&map);
        }
        check(range_map_paint_many(&maps[0], starts.data(), ends.data(), values.data(), size));
        for (std::size_t i = 1; i < count; ++i) {
            check(range_map_copy(&maps[0], &maps[i]));
        }
    }

    ~Maps() {
        for (range_map& map : maps) {
            range_map_free(&map);
        }
    }

    Maps(const Maps&) = delete;
    Maps& operator=(const Maps&) = delete;

    std::vector<range_map> maps;
};

std::uint64_t mix(std::uint64_t sum, std::uint64_t part) { return sum * 31 + part; }

std::uint64_t checksum(bool is_checked, std::uint64_t sum, range_map& map) {
    if (!is_checked) {
        return sum;
    }
    std::int64_t lo, hi;
    std::uint64_t value, low, high;
    for (std::int64_t key = INT64_MIN; range_map_next(&map, key, &lo, &hi, &value); key = hi + 1) {
        sum = mix(mix(mix(sum, static_cast<std::uint64_t>(lo)), static_cast<std::uint64_t>(hi)), value);
    }
    range_map_count(&map, &low, &high);
    return mix(sum, low);
}

std::uint64_t paint(bool is_checked, std::uint64_t size, std::uint64_t count) {
    Maps all(size, size < 100'000 ? 100'000 / size : 1);
    Draw draw{2};
    std::uint64_t sum = 0;
    for (range_map& map : all.maps) {
        std::uint64_t some = count < size ? count : size;
        count -= some;
        for (std::uint64_t i = 0; i < some; ++i) {
            std::int64_t lo = draw.key(spacing * size);
            std::int64_t hi = lo + draw.key(16);
            bool changed;
            check(range_map_paint(&map, lo, hi, draw.below(4), &changed));
        }
        sum = checksum(is_checked, mix(sum, 0), map);
    }
    return sum;
}

std::uint64_t get(std::uint64_t size, std::uint64_t count) {
    Maps one(size, 1);
    Draw draw{2};
    std::uint64_t sum = 0;
    for (std::uint64_t i = 0; i < count; ++i) {
        std::uint64_t value;
        sum += range_map_get(&one.maps[0], draw.key(spacing * size), &value) ? value : 7;
    }
    return sum;
}

}  // namespace

// Runs a work and returns a checksum, which is not 0. It returns 0 if no work has the number.
extern "C" std::uint64_t through_c_run(std::uint32_t work, std::uint64_t size, std::uint64_t count) {
    switch (work % checked) {
        case 0: return paint(work >= checked, size, count) | 1;
        case 4: return get(size, count) | 1;
        default: return 0;
    }
}
