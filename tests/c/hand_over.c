/* Maps that go from thread to thread. Four threads make a map each. They change all four maps in turn, under one lock. Then four threads
 * look up in all of them at once. A fifth thread frees them. An argument is the number of changes of each thread. The last line is 'N
 * passed, M failed'. It is also run under helgrind and DRD. */
#include <pthread.h>
#include <stdio.h>
#include <stdlib.h>

#include "range_map.h"

enum { THREADS = 4, BLOCKS = 100, WIDTH = 10 };

struct shared {
    pthread_mutex_t lock;
    struct range_map maps[THREADS];
    uint64_t model[THREADS][BLOCKS]; /* the value of each block of keys, or 0 if it has none */
    long changes;
};

struct work {
    pthread_t thread;
    struct shared *shared;
    int number;
    uint64_t state;
    long wrong;
};

static uint64_t draw(struct work *work, uint64_t below) {
    work->state = work->state * 6364136223846793005u + 1442695040888963407u;
    return (work->state >> 33) % below;
}

static int64_t first_of(int block) { return WIDTH * (int64_t)block; }
static int64_t last_of(int block) { return first_of(block) + WIDTH - 1; }

/* Changes a map and its model. The caller has the lock, or the map has one owner. */
static void change(struct work *work, int which) {
    struct range_map *map = &work->shared->maps[which];
    uint64_t *model = work->shared->model[which];
    int first = (int)draw(work, BLOCKS), last = first + (int)draw(work, 4);
    uint64_t value = draw(work, 3); /* 0 removes */
    int32_t status;
    if (last >= BLOCKS) last = BLOCKS - 1;
    if (value) {
        status = range_map_paint(map, first_of(first), last_of(last), value, NULL);
    } else {
        status = range_map_remove_range(map, first_of(first), last_of(last), NULL);
    }
    if (status != RANGE_MAP_DONE) work->wrong++;
    for (int block = first; block <= last; block++) model[block] = value;
}

static void look_up(struct work *work, int which, int block) {
    const struct range_map *map = &work->shared->maps[which];
    uint64_t wanted = work->shared->model[which][block], value = 0;
    bool has = range_map_get(map, first_of(block) + (int64_t)draw(work, WIDTH), &value);
    if (has != (wanted != 0) || (has && value != wanted)) work->wrong++;
}

static void *make(void *of) {
    struct work *work = (struct work *)of;
    for (int i = 0; i < BLOCKS; i++) change(work, work->number);
    return NULL;
}

static void *change_in_turn(void *of) {
    struct work *work = (struct work *)of;
    for (long i = 0; i < work->shared->changes; i++) {
        int which = (int)draw(work, THREADS);
        pthread_mutex_lock(&work->shared->lock);
        change(work, which);
        look_up(work, which, (int)draw(work, BLOCKS));
        pthread_mutex_unlock(&work->shared->lock);
    }
    return NULL;
}

static void *look_up_all(void *of) {
    struct work *work = (struct work *)of;
    for (int which = 0; which < THREADS; which++) {
        for (int block = 0; block < BLOCKS; block++) look_up(work, which, block);
    }
    return NULL;
}

static void *free_all(void *of) {
    struct work *work = (struct work *)of;
    for (int which = 0; which < THREADS; which++) range_map_free(&work->shared->maps[which]);
    return NULL;
}

/* Runs a step in so many threads, and waits for their ends. */
static void run(struct work *works, int count, void *(*step)(void *)) {
    for (int i = 0; i < count; i++) {
        if (pthread_create(&works[i].thread, NULL, step, &works[i])) abort();
    }
    for (int i = 0; i < count; i++) pthread_join(works[i].thread, NULL);
}

int main(int argc, char **argv) {
    static struct shared shared = {.lock = PTHREAD_MUTEX_INITIALIZER};
    struct work works[THREADS] = {{0}};
    long passed = 0;
    shared.changes = argc > 1 ? atol(argv[1]) : 100000;
    for (int i = 0; i < THREADS; i++) {
        works[i].shared = &shared;
        works[i].number = i;
        works[i].state = (uint64_t)i;
    }
    run(works, THREADS, make);
    run(works, THREADS, change_in_turn);
    run(works, THREADS, look_up_all);
    run(works, 1, free_all);
    for (int i = 0; i < THREADS; i++) passed += works[i].wrong == 0 && range_map_is_empty(&shared.maps[i]);
    printf("%ld passed, %ld failed\n", passed, THREADS - passed);
    return passed != THREADS;
}
