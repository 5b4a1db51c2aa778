/* Paints ranges, and prints the entries and the first gap. ranges.cpp is the same program in C++. */
#include <inttypes.h>
#include <stdio.h>

#include "range_map.h"

int main(void) {
    struct range_map map = {0};
    struct range_map_iter walk;
    int64_t lo, hi;
    uint64_t value;
    int32_t status = range_map_paint(&map, 10, 49, 7, NULL);
    if (status == RANGE_MAP_DONE) status = range_map_paint(&map, 20, 29, 8, NULL);
    if (status == RANGE_MAP_DONE) status = range_map_remove_range(&map, 40, 44, NULL);
    if (status != RANGE_MAP_DONE) return 1;
    range_map_iter_from(&walk, &map, INT64_MIN);
    while (range_map_iter_next(&walk, &lo, &hi, &value)) printf("%" PRId64 " to %" PRId64 ": %" PRIu64 "\n", lo, hi, value);
    if (range_map_find_gap(&map, 10, 99, 5, &lo)) printf("5 keys without a value from %" PRId64 "\n", lo);
    range_map_free(&map);
    return 0;
}
