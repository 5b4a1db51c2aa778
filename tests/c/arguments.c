/* NULL for each result, a map that is passed twice, empty arrays, the least and greatest keys, and operations that there are not. */
#include <stdlib.h>

#include "allocation.h"
#include "maps.h"

static bool had;

static void test_no_results(void) {
    struct maps m;
    struct range_table table = {NULL, NULL, NULL, 0};
    int64_t lo[4], hi[4];
    uint64_t value[4];
    start(&m, 3);
    judge(range_map_paint(&m.a, 7, 8, 9, NULL) == RANGE_MAP_DONE, "paint", 3, 0);
    judge(range_map_fill(&m.a, 7, 9, 9, NULL) == RANGE_MAP_DONE, "fill", 3, 0);
    judge(range_map_insert(&m.a, 7, 8, NULL, NULL) == RANGE_MAP_DONE, "insert", 3, 0);
    judge(range_map_remove(&m.a, 7, NULL, NULL) == RANGE_MAP_DONE, "remove", 3, 0);
    judge(range_map_remove_range(&m.a, 7, 8, NULL) == RANGE_MAP_DONE, "remove_range", 3, 0);
    judge(range_map_pop_first(&m.b, NULL, NULL, NULL) == RANGE_MAP_DONE, "pop_first", 3, 0);
    judge(range_map_pop_last(&m.b, NULL, NULL, NULL) == RANGE_MAP_DONE, "pop_last", 3, 0);
    judge(range_map_get(&m.a, 3, NULL) && !range_map_get(&m.a, 7, NULL), "get", 3, 0);
    judge(range_map_entry_or_gap_at(&m.a, 3, NULL, NULL, NULL) && !range_map_entry_or_gap_at(&m.a, 7, NULL, NULL, NULL), "entry_or_gap_at",
          3, 0);
    judge(range_map_next(&m.a, 3, NULL, NULL, NULL) && !range_map_next(&m.a, 99, NULL, NULL, NULL), "next", 3, 0);
    judge(range_map_previous(&m.a, 3, NULL, NULL, NULL) && !range_map_previous(&m.a, -9, NULL, NULL, NULL), "previous", 3, 0);
    judge(range_map_first(&m.a, NULL, NULL) && range_map_last(&m.a, NULL, NULL), "first and last", 3, 0);
    judge(range_map_find_gap(&m.a, 0, 9, 2, NULL) && range_map_find_last_gap(&m.a, 0, 9, 2, NULL), "find_gap", 3, 0);
    range_map_count(&m.a, NULL, NULL);
    range_map_count_within(&m.a, 0, 9, NULL, NULL);
    if (range_map_copy(&m.b, &m.a)) abort();
    judge(range_map_to_table(&m.b, lo, hi, value, 4, &table) == RANGE_MAP_DONE, "to_table", 3, 0);
    judge(range_table_get(&table, 6, NULL) && !range_table_get(&table, 8, NULL), "table get", 3, 0);
    judge(range_table_entry_or_gap_at(&table, 6, NULL, NULL, NULL), "table entry_or_gap_at", 3, 0);
    judge(range_table_next(&table, 6, NULL, NULL, NULL) && range_table_previous(&table, 6, NULL, NULL, NULL), "table next", 3, 0);
    range_table_count_within(&table, 0, 9, NULL, NULL);
    range_map_free(NULL);
    end(&m);
    judge_freed(3);
}

/* ---- A map that is passed twice, empty arrays, ends */

static void test_maps_passed_twice(void) {
    static struct contents before, now;
    struct maps maps;
    struct range_map copied;
    start(&maps, 5);
    read_contents(&maps, &before);
    copied = maps.a;
#define IS_SAME(call) judge((call) == RANGE_MAP_SAME_MAP, #call, 5, 0)
    IS_SAME(range_map_copy(&maps.a, &maps.a));
    IS_SAME(range_map_union(&maps.a, &maps.b, &maps.a));
    IS_SAME(range_map_union(&maps.a, &maps.b, &maps.b));
    IS_SAME(range_map_intersection(&maps.a, &maps.b, &maps.b));
    IS_SAME(range_map_difference(&maps.a, &maps.b, &maps.a));
    IS_SAME(range_map_symmetric_difference(&maps.a, &maps.b, &maps.b));
    IS_SAME(range_map_complement(&maps.a, 1, &maps.a));
    IS_SAME(range_map_extend(&maps.a, &maps.a));
    IS_SAME(range_map_extend(&maps.a, &copied));
    IS_SAME(range_map_split_off(&maps.a, 3, &maps.a));
    IS_SAME(range_map_intersect(&maps.a, &maps.a));
    IS_SAME(range_map_subtract(&maps.a, &copied));
    IS_SAME(range_map_union_many(&maps.a, 1, &maps.a));
    judge(range_map_equal(&maps.a, &maps.a) && range_map_equal(&maps.a, &copied), "equal to itself", 5, 0);
    judge(range_map_union(&maps.a, &copied, &maps.out) == RANGE_MAP_DONE && range_map_equal(&maps.a, &maps.out), "a | a", 5, 0);
    range_map_clear(&maps.out);
    judge(range_map_intersection(&maps.a, &maps.a, &maps.out) == RANGE_MAP_DONE && range_map_equal(&maps.a, &maps.out), "a & a", 5, 0);
    judge(range_map_difference(&maps.a, &maps.a, &maps.out) == RANGE_MAP_DONE && range_map_is_empty(&maps.out), "a - a", 5, 0);
    if (range_map_copy(&maps.a, &maps.out)) abort();
    judge(range_map_symmetric_difference(&maps.a, &copied, &maps.out) == RANGE_MAP_DONE && range_map_is_empty(&maps.out), "a ^ a", 5, 0);
    if (range_map_paint(&maps.out, -3, 3, 99, NULL)) abort();
    judge(range_map_compare(&maps.a, &maps.a) == 0, "compared with itself", 5, 0);
    judge(range_map_paint_many(&maps.a, NULL, NULL, NULL, 0) == RANGE_MAP_DONE, "paint_many of none", 5, 0);
    judge(range_map_entries_into(&maps.a, 0, NULL, NULL, NULL, 0) == 0, "entries_into no room", 5, 0);
    had = true;
    judge(range_map_paint(&maps.a, 9, 2, 5, &had) == RANGE_MAP_DONE && !had, "paint of an empty range", 5, 0);
    had = true;
    judge(range_map_fill(&maps.a, 9, 2, 5, &had) == RANGE_MAP_DONE && !had, "fill of an empty range", 5, 0);
    had = true;
    judge(range_map_remove_range(&maps.a, 9, 2, &had) == RANGE_MAP_DONE && !had, "remove_range of an empty range", 5, 0);
    read_contents(&maps, &now);
    judge(is_equal(&now, &before), "the maps after these", 5, 0);
    end(&maps);
    judge(maps.a.at == NULL, "zero after free", 5, 0);
    end(&maps);
    judge_freed(5);
}

static void test_all_keys(void) {
    struct range_map map = {0}, other = {0};
    int64_t lo = 0, hi = 0;
    uint64_t value = 0, low, high;
    range_map_new(&map);
    judge(range_map_paint(&map, INT64_MIN, INT64_MAX, UINT64_MAX, &had) == RANGE_MAP_DONE && had, "paint of all keys", 1, 0);
    range_map_count(&map, &low, &high);
    judge(low == 0 && high == 1, "count of all keys", 1, 0);
    judge(range_map_previous(&map, INT64_MIN, &lo, &hi, &value) && hi == INT64_MAX && value == UINT64_MAX, "previous", 1, 0);
    judge(range_map_combine(&map, INT64_MIN, INT64_MAX, 3, RANGE_MAP_ADD, RANGE_MAP_MAPPED) == RANGE_MAP_DONE, "combine of all keys", 1, 0);
    judge(range_map_entries(&map) == 1 && range_map_get(&map, INT64_MAX, &value) && value == 2, "a sum that wraps", 1, 0);
    judge(range_map_combine(&map, INT64_MIN, INT64_MAX, UINT64_MAX, RANGE_MAP_MAX, RANGE_MAP_ALL) == RANGE_MAP_DONE, "combine again", 1, 0);
    judge(range_map_next(&map, INT64_MAX, &lo, &hi, &value) && lo == INT64_MIN, "next", 1, 0);
    judge(range_map_remove(&map, 0, &had, &value) == RANGE_MAP_DONE && had && value == UINT64_MAX, "remove", 1, 0);
    judge(range_map_pop_last(&map, &had, &hi, &value) == RANGE_MAP_DONE && had && hi == INT64_MAX, "pop_last", 2, 0);
    judge(range_map_pop_first(&map, &had, &lo, &value) == RANGE_MAP_DONE && had && lo == INT64_MIN, "pop_first", 2, 0);
    range_map_count(&map, &low, &high);
    judge(low == UINT64_MAX - 2 && high == 0, "count of all keys but 3", 2, 0);
    /* (what a call makes may be put into a struct that is zero) */
    judge(range_map_complement(&map, 4, &other) == RANGE_MAP_DONE && range_map_entries(&other) == 3, "complement", 2, 0);
    judge(range_map_entry_or_gap_at(&other, 1, &lo, &hi, &value) == false && lo == 1 && hi == INT64_MAX - 1, "gap", 3, 0);
    range_map_free(&map);
    range_map_new(&map);
    judge(range_map_is_empty(&map), "new after free", 0, 0);
    judge(range_map_pop_first(&map, &had, &lo, &value) == RANGE_MAP_DONE && !had, "pop_first of none", 0, 0);
    range_map_free(&map);
    range_map_free(&other);
    judge_freed(0);
}

/* In C++ an enum can't hold every number. */
static int32_t combine_by(struct range_map *map, int64_t lo, int64_t hi, uint32_t op, uint32_t place) {
#ifdef __cplusplus
    return range_map_combine_unchecked(map, lo, hi, 7, op, place);
#else
    return range_map_combine(map, lo, hi, 7, (enum range_map_op)op, (enum range_map_place)place);
#endif
}

/* An operation and a place of which one is invalid, on an empty map and on one with entries, with an allocation that fails. */
static void judge_invalid(uint32_t op, uint32_t place) {
    static const int64_t lo[] = {2, INT64_MIN, 9, 6}, hi[] = {33, INT64_MAX, 2, 9}; /* the third is empty, the last has no value */
    static struct contents before, now;
    for (long size = 0; size < 6; size += 5) {
        struct maps m;
        void *at;
        start(&m, size);
        read_contents(&m, &before);
        at = m.a.at;
        requests = 0;
        failing_request = 1;
        for (size_t range = 0; range < sizeof lo / sizeof lo[0]; range++) {
            judge(combine_by(&m.a, lo[range], hi[range], op, place) == RANGE_MAP_INVALID && requests == 0, "combine, invalid", op, place);
        }
        failing_request = 0;
        read_contents(&m, &now);
        judge(is_equal(&now, &before) && m.a.at == at, "the maps after an invalid combination", op, place);
        end(&m);
        judge_freed(size);
    }
}

/* All small numbers, and those that are valid if only their low bits are read. */
static void test_invalid_operations(void) {
    for (uint32_t number = 2; number < 300; number++) {
        judge_invalid(RANGE_MAP_ADD, number);
        if (number > RANGE_MAP_KEEP_OLD) judge_invalid(number, RANGE_MAP_MAPPED);
    }
    for (uint32_t bit = 256; bit; bit <<= 1) {
        judge_invalid(bit + RANGE_MAP_MAX, RANGE_MAP_ALL);
        judge_invalid(RANGE_MAP_MAX, bit + RANGE_MAP_MAPPED);
    }
    judge_invalid(UINT32_MAX, RANGE_MAP_ALL);
    judge_invalid(RANGE_MAP_KEEP_OLD, UINT32_MAX);
    judge_invalid(UINT32_MAX, UINT32_MAX);
}

void test_arguments(void) {
    test_no_results();
    test_maps_passed_twice();
    test_all_keys();
    test_invalid_operations();
}
