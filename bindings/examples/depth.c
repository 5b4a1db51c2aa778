/* Counts how many bookings each hour has, and prints the hours with the counts and the most bookings at once. depth.cpp is the same
 * program in C++. */
#include <inttypes.h>
#include <stdio.h>

#include "range_map.h"

int main(void) {
    static const int64_t first[] = {9, 10, 10, 20}, last[] = {11, 10, 16, 22}; /* hours, both included */
    struct range_map depth = {0};
    struct range_map_iter walk;
    int64_t lo, hi;
    uint64_t count, most = 0;
    int32_t status = RANGE_MAP_DONE;
    for (int i = 0; i < 4 && status == RANGE_MAP_DONE; i++) {
        status = range_map_combine(&depth, first[i], last[i], 1, RANGE_MAP_ADD, RANGE_MAP_ALL);
    }
    if (status != RANGE_MAP_DONE) return 1;
    range_map_iter_from(&walk, &depth, INT64_MIN);
    while (range_map_iter_next(&walk, &lo, &hi, &count)) {
        printf("%" PRId64 " to %" PRId64 ": %" PRIu64 "\n", lo, hi, count);
        if (count > most) most = count;
    }
    printf("at most %" PRIu64 " at once\n", most);
    range_map_free(&depth);
    return 0;
}
