/* Lookups from four threads at once: in one map, through a const pointer, and in a table that is in a mapped file. An argument is the
 * number of lookups of each thread. The last line is 'N passed, M failed'. It is also run under helgrind and DRD. */
#include <pthread.h>
#include <stdio.h>
#include <stdlib.h>
#include <string.h>
#include <sys/mman.h>
#include <unistd.h>

#include "range_map.h"

enum { THREADS = 4, ENTRIES = 1000 };

struct shared {
    const struct range_map *map;
    const struct range_table *table;
    long count;
};

struct work {
    const struct shared *shared;
    uint64_t state;
    long wrong;
};

/* The map has entries of 6 keys in 10: 10 i to 10 i + 5, with the value i. */
static void *look_up(void *of) {
    struct work *work = (struct work *)of;
    const struct shared *shared = work->shared;
    struct range_map_iter walk;
    for (long i = 0; i < shared->count; i++) {
        int64_t key, lo = 0, hi = 0, gap = 0;
        uint64_t value = 0, low = 0;
        bool has;
        work->state = work->state * 6364136223846793005u + 1442695040888963407u;
        key = (int64_t)(work->state >> 33) % (10 * ENTRIES);
        has = key % 10 <= 5;
        if (range_map_get(shared->map, key, &value) != has || (has && value != (uint64_t)key / 10)) work->wrong++;
        if (range_map_entry_or_gap_at(shared->map, key, &lo, &hi, NULL) != has || lo != key / 10 * 10 + (has ? 0 : 6)) work->wrong++;
        if (range_table_get(shared->table, key, &value) != has || (has && value != (uint64_t)key / 10)) work->wrong++;
        if (i % 64 != 0) continue;
        range_map_count_within(shared->map, 0, 10 * ENTRIES, &low, NULL);
        if (low != 6 * ENTRIES || !range_map_find_gap(shared->map, key, INT64_MAX, 4, &gap)) work->wrong++;
        if (gap % 10 != 6 && key < 10 * ENTRIES - 4) work->wrong++;
        if (!range_map_equal(shared->map, shared->map) || range_map_entries(shared->map) != ENTRIES) work->wrong++;
        range_map_iter_from(&walk, shared->map, key);
        if (!range_map_iter_next(&walk, &lo, NULL, &value) && key < 10 * ENTRIES - 4) work->wrong++;
    }
    return NULL;
}

/* Writes the rows of a table to a file, and maps that file. */
static struct range_table mapped_table(const struct range_map *map) {
    static int64_t lo[ENTRIES], hi[ENTRIES];
    static uint64_t value[ENTRIES];
    struct range_table table = {NULL, NULL, NULL, 0};
    FILE *file = tmpfile();
    const char *rows;
    if (range_map_to_table(map, lo, hi, value, ENTRIES, &table) || !file || fwrite(lo, sizeof lo, 1, file) != 1 ||
        fwrite(hi, sizeof hi, 1, file) != 1 || fwrite(value, sizeof value, 1, file) != 1 || fflush(file)) {
        abort();
    }
    rows = (const char *)mmap(NULL, sizeof lo + sizeof hi + sizeof value, PROT_READ, MAP_PRIVATE, fileno(file), 0);
    if (rows == (const char *)MAP_FAILED) abort();
    fclose(file);
    table.lo = (const int64_t *)(const void *)rows;
    table.hi = (const int64_t *)(const void *)(rows + sizeof lo);
    table.value = (const uint64_t *)(const void *)(rows + sizeof lo + sizeof hi);
    return table;
}

int main(int argc, char **argv) {
    struct range_map map = {0}, loaded = {0};
    struct range_table table;
    struct shared shared;
    struct work work[THREADS];
    pthread_t threads[THREADS];
    long passed = 0, failed = 0;
    for (int64_t i = 0; i < ENTRIES; i++) {
        if (range_map_paint(&map, 10 * i, 10 * i + 5, (uint64_t)i, NULL)) abort();
    }
    table = mapped_table(&map);
    passed += range_table_is_ordered(&table) && range_map_from_table(&table, &loaded) == RANGE_MAP_DONE && range_map_equal(&map, &loaded);
    shared.map = &map;
    shared.table = &table;
    shared.count = argc > 1 ? atol(argv[1]) : 400000;
    for (int i = 0; i < THREADS; i++) {
        work[i].shared = &shared;
        work[i].state = (uint64_t)i;
        work[i].wrong = 0;
        if (pthread_create(&threads[i], NULL, look_up, &work[i])) abort();
    }
    for (int i = 0; i < THREADS; i++) {
        pthread_join(threads[i], NULL);
        passed += work[i].wrong == 0;
    }
    failed = THREADS + 1 - passed;
    range_map_free(&map);
    range_map_free(&loaded);
    printf("%ld passed, %ld failed\n", passed, failed);
    return failed != 0;
}
