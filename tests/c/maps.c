#include "maps.h"

#include <stdio.h>
#include <stdlib.h>
#include <string.h>

#include "allocation.h"

long passed, failed;

void judge(bool good, const char *what, long size, long request) {
    if (good) {
        passed++;
    } else {
        failed++;
        printf("%s, %ld entries, request %ld\n", what, size, request);
    }
}

void judge_freed(long size) { judge(blocks == 0, "memory that is not freed", size, blocks); }

/* Each struct that the library or the header makes a new map of is zero before. (valgrind finds one that was not written.) */
#ifdef __cplusplus
extern "C" {
#endif
void __real_range_map_new(struct range_map *map);
void __wrap_range_map_new(struct range_map *map);
#ifdef __cplusplus
}
#endif
void __wrap_range_map_new(struct range_map *map) {
    judge(map->at == NULL, "a struct that is not zero", 0, 0);
    __real_range_map_new(map);
}

void read_content(const struct range_map *map, struct content *into) {
    int64_t at = INT64_MIN, lo, hi;
    uint64_t value;
    into->count = 0;
    while (range_map_next(map, at, &lo, &hi, &value)) {
        struct entry entry = {lo, hi, value};
        if (into->count == MOST_ENTRIES) abort();
        into->entries[into->count++] = entry;
        if (hi == INT64_MAX) break;
        at = hi + 1;
    }
}

void read_contents(const struct maps *maps, struct contents *into) {
    read_content(&maps->a, &into->a);
    read_content(&maps->b, &into->b);
    read_content(&maps->out, &into->out);
}

bool is_equal_content(const struct content *one, const struct content *other) {
    return one->count == other->count && memcmp(one->entries, other->entries, one->count * sizeof one->entries[0]) == 0;
}

bool is_equal(const struct contents *one, const struct contents *other) {
    return is_equal_content(&one->a, &other->a) && is_equal_content(&one->b, &other->b) && is_equal_content(&one->out, &other->out);
}

void start(struct maps *maps, long size) {
    memset(maps, 0, sizeof *maps);
    range_map_new(&maps->a);
    range_map_new(&maps->b);
    range_map_new(&maps->out);
    for (long at = 0; at < size; at++) {
        if (range_map_paint(&maps->a, 10 * at, 10 * at + 5, (uint64_t)at, NULL)) abort();
        if (range_map_paint(&maps->b, 10 * at + 4, 10 * at + 7, (uint64_t)at % 3, NULL)) abort();
    }
    if (range_map_paint(&maps->out, -3, 3, 99, NULL)) abort();
}

void end(struct maps *maps) {
    range_map_free(&maps->a);
    range_map_free(&maps->b);
    range_map_free(&maps->out);
}
