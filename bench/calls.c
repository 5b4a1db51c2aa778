/* Makes calls of the library for C on one map: `calls CALL ENTRIES TIMES`. Each entry has 10 keys, and a gap of 10 keys comes after it.
 * bench/calls.sh counts the instructions of this program with and without the calls. */
#include <stdio.h>
#include <stdlib.h>
#include <string.h>

#include <range_map.h>

static uint64_t state = 88172645463325252U;

/* Returns a random key of an entry, by Marsaglia's xorshift. */
static int64_t random_key(long entries) {
    state ^= state << 13;
    state ^= state >> 7;
    state ^= state << 17;
    return (int64_t)(state % (uint64_t)entries) * 20 + (int64_t)(state >> 61);
}

static void *make(size_t bytes) {
    void *made = malloc(bytes);
    if (!made) abort();
    return made;
}

static const char *const names[] = {"none", "get", "table", "next", "next-in-gap", "previous", "find-gap", "walk", "extend"};
enum { NONE, GET, TABLE, NEXT, NEXT_IN_GAP, PREVIOUS, FIND_GAP, WALK, EXTEND, CALLS };

int main(int argc, char **argv) {
    if (argc != 4) return 2;
    int call = 0;
    while (call < CALLS && strcmp(argv[1], names[call]) != 0) call++;
    if (call == CALLS) return 2;
    long entries = atol(argv[2]), times = atol(argv[3]);
    size_t length = (size_t)entries;
    int64_t *lo = make(length * sizeof *lo), *hi = make(length * sizeof *hi), start, end, first = 0;
    uint64_t *values = make(length * sizeof *values), value, sum = 0;
    struct range_map map = {0}, few = {0};
    struct range_map_iter walk;
    for (long i = 0; i < entries; i++) lo[i] = i * 20, hi[i] = i * 20 + 9, values[i] = (uint64_t)i % 7;
    struct range_table table = {lo, hi, values, length};
    if (range_map_paint_many(&map, lo, hi, values, length)) abort();
    for (long i = 0; i < 10; i++)
        if (range_map_paint(&few, i * entries * 2, i * entries * 2 + 3, 99, NULL)) abort();
    range_map_iter_from(&walk, &map, INT64_MIN);
    for (long i = 0; i < times; i++) {
        int64_t key = random_key(entries);
        switch (call) {
        case GET: sum += range_map_get(&map, key, &value); break;
        case TABLE: sum += range_table_get(&table, key, &value); break;
        case NEXT: sum += range_map_next(&map, key, &start, &end, &value); break;
        case NEXT_IN_GAP: sum += range_map_next(&map, key + 10, &start, &end, &value); break;
        case PREVIOUS: sum += range_map_previous(&map, key, &start, &end, &value); break;
        case FIND_GAP: sum += range_map_find_gap(&map, key, INT64_MAX, 5, &first); break;
        case WALK: sum += range_map_iter_next(&walk, &start, &end, &value); break;
        case EXTEND: sum += (uint64_t)range_map_extend(&map, &few); break;
        default: sum += (uint64_t)key;
        }
    }
    printf("%llu\n", (unsigned long long)sum);
    range_map_free(&map);
    range_map_free(&few);
    free(lo), free(hi), free(values);
    return 0;
}
