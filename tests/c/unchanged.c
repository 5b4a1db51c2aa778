/* Calls that change nothing, and so make no request for memory. The first request would fail. */
#include <stdlib.h>

#include "allocation.h"
#include "maps.h"

static void judge_quiet(const char *what, int32_t status) {
    judge(status == RANGE_MAP_DONE && requests == 0, what, status, requests);
    requests = 0;
}

/* Lets the first request fail from here on, or none. */
static void refuse(bool is_on) {
    requests = 0;
    failing_request = is_on;
}

static void test_empty_and_free_ranges(struct maps *m) {
    refuse(true);
    judge_quiet("paint of an empty range", range_map_paint(&m->a, 9, 2, 5, NULL));
    judge_quiet("fill of an empty range", range_map_fill(&m->a, 9, 2, 5, NULL));
    judge_quiet("fill_if_free of an empty range", range_map_fill_if_free(&m->a, 9, 2, 5));
    judge_quiet("remove_range of an empty range", range_map_remove_range(&m->a, 9, 2, NULL));
    judge_quiet("remove_range of a free range", range_map_remove_range(&m->a, 6, 9, NULL));
    judge_quiet("remove of a free key", range_map_remove(&m->a, 7, NULL, NULL));
    judge_quiet("combine of an empty range", range_map_combine(&m->a, 9, 2, 5, RANGE_MAP_ADD, RANGE_MAP_ALL));
    judge_quiet("combine of a free range", range_map_combine(&m->a, 6, 9, 5, RANGE_MAP_ADD, RANGE_MAP_MAPPED));
    judge_quiet("paint_many of none", range_map_paint_many(&m->a, NULL, NULL, NULL, 0));
    judge_quiet("extend by nothing", range_map_extend(&m->a, &m->b));
    refuse(false);
}

static void test_empty_map(struct maps *m) {
    bool had = true;
    refuse(true);
    judge_quiet("pop_first of the empty map", range_map_pop_first(&m->a, &had, NULL, NULL));
    judge(!had, "pop_first of the empty map", 0, 0);
    had = true;
    judge_quiet("pop_last of the empty map", range_map_pop_last(&m->a, &had, NULL, NULL));
    judge(!had, "pop_last of the empty map", 0, 0);
    judge_quiet("remove from the empty map", range_map_remove(&m->a, 3, NULL, NULL));
    judge_quiet("remove_range from the empty map", range_map_remove_range(&m->a, INT64_MIN, INT64_MAX, NULL));
    judge_quiet("copy of the empty map", range_map_copy(&m->a, &m->out));
    judge_quiet("split_off of the empty map", range_map_split_off(&m->a, 3, &m->out));
    judge_quiet("combine of the empty map", range_map_combine(&m->a, INT64_MIN, INT64_MAX, 5, RANGE_MAP_ADD, RANGE_MAP_MAPPED));
    judge_quiet("union of no map", range_map_union_many(NULL, 0, &m->out));
    refuse(false);
    judge(range_map_is_empty(&m->a) && range_map_is_empty(&m->out), "maps after these", 0, 0);
}

/* Calls that give the keys of an entry the value that they have, and the removal of the whole entry. */
static void test_equal_values(struct maps *m) {
    static struct contents before, now;
    if (range_map_paint(&m->a, 0, 5, 1, NULL)) abort();
    read_contents(m, &before);
    refuse(true);
    judge_quiet("paint inside an entry", range_map_paint(&m->a, 2, 3, 1, NULL));
    judge_quiet("insert inside an entry", range_map_insert(&m->a, 2, 1, NULL, NULL));
    judge_quiet("fill of a full range", range_map_fill(&m->a, 0, 5, 7, NULL));
    judge_quiet("combine, a sum with 0", range_map_combine(&m->a, INT64_MIN, INT64_MAX, 0, RANGE_MAP_ADD, RANGE_MAP_MAPPED));
    judge_quiet("combine, the same bits", range_map_combine(&m->a, 1, 4, 1, RANGE_MAP_OR, RANGE_MAP_ALL));
    judge_quiet("combine, the old value", range_map_combine(&m->a, 0, 5, 9, RANGE_MAP_KEEP_OLD, RANGE_MAP_ALL));
    judge(range_map_fill_if_free(&m->a, 5, 9, 7) == RANGE_MAP_TAKEN && requests == 0, "fill_if_free of a taken range", 1, requests);
    refuse(false);
    read_contents(m, &now);
    judge(is_equal(&now, &before), "maps that nothing changed", 1, 0);
    refuse(true);
    judge_quiet("remove of an entry", range_map_remove_range(&m->a, 0, 5, NULL));
    refuse(false);
}

/* Makes maps of so many entries: in each ten keys, a has the first six. b has the key after these, so that they share no key. out has a,
 * and a key below it. */
static void start_apart(struct maps *m, long size) {
    start(m, size);
    range_map_clear(&m->b);
    for (long at = 0; at < size; at++) {
        if (range_map_paint(&m->b, 10 * at + 6, 10 * at + 6, (uint64_t)at, NULL)) abort();
    }
    if (range_map_copy(&m->a, &m->out) || range_map_paint(&m->out, -9, -9, 7, NULL)) abort();
}

/* Calls of two maps, many ranges, and a split above the last key. */
static void test_two_maps(long size) {
    static const int64_t lo[] = {9, 2, INT64_MAX, 1}, hi[] = {2, 3, INT64_MIN, 1};
    static const uint64_t values[] = {5, 0, 6, 0};
    static struct contents before, now;
    struct maps m;
    struct range_map none = {NULL}, upper = {NULL};
    start_apart(&m, size);
    if (range_map_paint(&upper, 3, 4, 5, NULL)) abort();
    read_contents(&m, &before);
    refuse(true);
    judge_quiet("subtract of the empty map", range_map_subtract(&m.a, &none));
    judge_quiet("subtract of a map that shares no key", range_map_subtract(&m.a, &m.b));
    judge_quiet("subtract from the empty map", range_map_subtract(&none, &m.a));
    judge_quiet("intersect with a map that has each key and value", range_map_intersect(&m.a, &m.out));
    judge_quiet("intersect of the empty map", range_map_intersect(&none, &m.a));
    judge_quiet("extend by the empty map", range_map_extend(&m.a, &none));
    judge_quiet("extend by entries of the map", range_map_extend(&m.out, &m.a));
    judge_quiet("paint_many of empty ranges", range_map_paint_many(&none, lo, hi, values, 1));
    judge_quiet("split_off above the last key", range_map_split_off(&m.a, 10 * size, &upper));
    judge_quiet("split_off at the greatest key", range_map_split_off(&m.b, INT64_MAX, &none));
    if (size) judge_quiet("paint_many of empty ranges and values that are there", range_map_paint_many(&m.a, lo, hi, values, 4));
    refuse(false);
    read_contents(&m, &now);
    judge(is_equal(&now, &before) && range_map_is_empty(&none) && range_map_is_empty(&upper), "maps that nothing changed", size, 0);
    end(&m);
    judge_freed(size);
}

void test_unchanged(void) {
    static const long sizes[] = {0, 1, 2, 15, 16, 40, 200}; /* four rows are few from 64 entries on */
    struct maps m;
    start(&m, 0);
    range_map_free(&m.out);
    for (int round = 0; round < 2; round++) { /* of a map that is zero, and of one that had an entry */
        test_empty_and_free_ranges(&m);
        test_empty_map(&m);
        test_equal_values(&m);
    }
    end(&m);
    judge_freed(0);
    for (size_t at = 0; at < sizeof sizes / sizeof sizes[0]; at++) test_two_maps(sizes[at]);
}
