/* The maps that tests/c/calls.c tests, their contents, and how a result is judged. */
#ifndef MAPS_H
#define MAPS_H

#include "range_map.h"

/* Two maps, and one that a call makes. */
struct maps {
    struct range_map a, b, out;
};

struct entry {
    int64_t lo, hi;
    uint64_t value;
};

enum { MOST_ENTRIES = 700 };

struct content {
    size_t count;
    struct entry entries[MOST_ENTRIES];
};

struct contents {
    struct content a, b, out;
};

extern long passed, failed;

/* Counts a result. If it is not good, prints what was tested, with the number of entries and the number of the request. */
void judge(bool good, const char *what, long size, long request);

/* All memory must be freed. */
void judge_freed(long size);

void read_content(const struct range_map *map, struct content *into);
void read_contents(const struct maps *maps, struct contents *into);
bool is_equal_content(const struct content *one, const struct content *other);
bool is_equal(const struct contents *one, const struct contents *other);

/* Makes maps of so many entries: in each ten keys, a has the first six, and b has four over the end of these. */
void start(struct maps *maps, long size);
void end(struct maps *maps);

/* The tests, each in a file of its own. */
void test_failing_allocations(const long *sizes, size_t count, long most);
void test_lookups(long size);
void test_results(void);
void test_unchanged(void);
void test_arguments(void);

#endif
