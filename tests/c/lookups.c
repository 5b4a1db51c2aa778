/* The calls that do not allocate, and what they return of a map with the keys 0 to 5, 10 to 15 and so on. The value of an entry is its
 * number. */
#include "allocation.h"
#include "maps.h"

static void test_ends(const struct range_map *map, long size) {
    int64_t lo = 0, hi = 0;
    uint64_t value = 0, low, high;
    judge(range_map_is_empty(map) == (size == 0), "is_empty", size, 0);
    judge(range_map_entries(map) == (uint64_t)size, "entries", size, 0);
    range_map_count(map, &low, &high);
    judge(low == 6 * (uint64_t)size && high == 0, "count", size, 0);
    judge(range_map_first(map, &lo, &value) == (size > 0) && (!size || (lo == 0 && value == 0)), "first", size, 0);
    judge(range_map_last(map, &hi, &value) == (size > 0) && (!size || (hi == 10 * size - 5 && value == (uint64_t)size - 1)), "last", size, 0);
}

static void test_at(const struct range_map *map, long size, long key) {
    long last = 10 * size - 5, tens = key < 0 ? 0 : key / 10;
    bool has = key >= 0 && key <= last && key % 10 <= 5;
    int64_t lo = 0, hi = 0;
    uint64_t value = 0;
    judge(range_map_get(map, key, &value) == has && (!has || value == (uint64_t)tens), "get", size, key);
    judge(range_map_entry_or_gap_at(map, key, &lo, &hi, &value) == has, "entry_or_gap_at", size, key);
    if (has) {
        judge(lo == 10 * tens && hi == lo + 5 && value == (uint64_t)tens, "the entry at", size, key);
    } else {
        judge(lo == (key < 0 ? INT64_MIN : 10 * tens + 6) && hi == (key < 0 ? -1 : key > last ? INT64_MAX : 10 * tens + 9), "the gap at",
              size, key);
    }
    if (range_map_next(map, key, &lo, &hi, &value)) {
        judge(key <= last && hi >= key && hi - key < 11 && lo == hi - 5, "next", size, key);
    } else {
        judge(key > last, "no next", size, key);
    }
    if (range_map_previous(map, key, &lo, &hi, &value)) {
        judge(lo <= key && key - lo < 10 && hi == lo + 5, "previous", size, key);
    } else {
        judge(key < 0, "no previous", size, key);
    }
}

static void test_lists(const struct range_map *map, long size) {
    int64_t lo[3], hi[3];
    uint64_t value[3];
    judge(range_map_entries_into(map, 5, lo, hi, value, 3) == (uint64_t)(size < 3 ? size : 3), "entries_into", size, 0);
    if (size >= 3) judge(lo[0] == 0 && hi[1] == 15 && value[2] == 2, "what entries_into wrote", size, 0);
    judge(range_map_entries_into(map, 16, lo, hi, value, 3) == (uint64_t)(size < 2 ? 0 : size < 5 ? size - 2 : 3), "entries_into from a gap",
          size, 0);
    judge(range_map_entries_back_into(map, 15, lo, hi, value, 3) == (uint64_t)(size < 2 ? size : 2), "entries_back_into", size, 0);
    if (size >= 2) judge(lo[0] == 10 && hi[1] == 5 && value[0] == 1, "what entries_back_into wrote", size, 0);
}

void test_lookups(long size) {
    struct maps maps;
    start(&maps, size);
    requests = 0;
    test_ends(&maps.a, size);
    for (long key = -1; key <= 10 * size - 4; key++) test_at(&maps.a, size, key);
    test_lists(&maps.a, size);
    judge(range_map_is_same(&maps.a, &maps.a) && !range_map_is_same(&maps.a, &maps.out), "is_same", size, 0);
    judge(range_map_equal(&maps.a, &maps.b) == (size == 0), "equal", size, 0);
    judge(range_map_compare(&maps.a, &maps.b) == (size ? -1 : 0), "compare", size, 0);
    judge(range_map_compare(&maps.b, &maps.a) == (size ? 1 : 0), "compare the other way", size, 0);
    range_map_clear(&maps.a);
    judge(range_map_is_empty(&maps.a), "clear", size, 0);
    judge(requests == 0, "lookups that allocate", size, requests);
    end(&maps);
    judge_freed(size);
}
