/* Each call that allocates, with each of its allocations failing in turn. It must return RANGE_MAP_NO_MEMORY and leave the maps
 * unchanged, or with a first part of the input painted if the header says so. A call that collects a list may do without one
 * allocation for each list: std's `collect` asks for the room that the iterator's hint names, and if that fails, for the room of one
 * item. */
#include <stdlib.h>
#include <string.h>

#include "allocation.h"
#include "maps.h"

enum { MANY = 5 };
static const int64_t many_lo[MANY] = {3, 14, 60, 7, -9}, many_hi[MANY] = {9, 33, 20, 15, -7};
static const uint64_t many_values[MANY] = {70, 71, 72, 73, 71};

/* Results that these tests do not compare. */
static bool had;
static int64_t had_key;
static uint64_t had_value;

static int32_t paint_between(struct maps *m) { return range_map_paint(&m->a, 7, 8, 50, &had); }
static int32_t paint_within(struct maps *m) { return range_map_paint(&m->a, 2, 3, 50, &had); }
static int32_t paint_over(struct maps *m) { return range_map_paint(&m->a, 3, 72, 50, &had); }
static int32_t fill(struct maps *m) { return range_map_fill(&m->a, -5, 500, 50, &had); }
static int32_t insert(struct maps *m) { return range_map_insert(&m->a, 3, 50, &had, &had_value); }
static int32_t remove_range(struct maps *m) { return range_map_remove_range(&m->a, 2, 3, &had); }
static int32_t remove_key(struct maps *m) { return range_map_remove(&m->a, 3, &had, &had_value); }
static int32_t pop_first(struct maps *m) { return range_map_pop_first(&m->a, &had, &had_key, &had_value); }
static int32_t pop_last(struct maps *m) { return range_map_pop_last(&m->a, &had, &had_key, &had_value); }
static int32_t copy(struct maps *m) { return range_map_copy(&m->a, &m->out); }
static int32_t unite(struct maps *m) { return range_map_union(&m->a, &m->b, &m->out); }
static int32_t intersect(struct maps *m) { return range_map_intersection(&m->a, &m->b, &m->out); }
static int32_t subtract(struct maps *m) { return range_map_difference(&m->a, &m->b, &m->out); }
static int32_t differ(struct maps *m) { return range_map_symmetric_difference(&m->a, &m->b, &m->out); }
static int32_t complement(struct maps *m) { return range_map_complement(&m->a, 7, &m->out); }
static int32_t extend(struct maps *m) { return range_map_extend(&m->a, &m->b); }
static int32_t extend_by_one(struct maps *m) { return range_map_extend(&m->a, &m->out); }
static int32_t intersect_in_place(struct maps *m) { return range_map_intersect(&m->a, &m->b); }
static int32_t subtract_in_place(struct maps *m) { return range_map_subtract(&m->a, &m->b); }
static int32_t fill_if_free(struct maps *m) { return range_map_fill_if_free(&m->a, 7, 8, 50); }
static int32_t unite_many(struct maps *m) {
    struct range_map maps[3];
    memcpy(&maps[0], &m->a, sizeof maps[0]); /* The copies are read only, so no map has two owners. */
    memcpy(&maps[1], &m->b, sizeof maps[1]);
    memcpy(&maps[2], &m->a, sizeof maps[2]);
    return range_map_union_many(maps, 3, &m->out);
}
static int32_t from_table(struct maps *m) {
    static int64_t lo[MOST_ENTRIES], hi[MOST_ENTRIES];
    static uint64_t value[MOST_ENTRIES];
    struct range_table table = {NULL, NULL, NULL, 0};
    int32_t status = range_map_to_table(&m->a, lo, hi, value, MOST_ENTRIES, &table);
    return status ? status : range_map_from_table(&table, &m->out);
}
static int32_t split_low(struct maps *m) { return range_map_split_off(&m->a, 3, &m->out); }
static int32_t split_middle(struct maps *m) { return range_map_split_off(&m->a, 203, &m->out); }
static int32_t paint_many(struct maps *m) { return range_map_paint_many(&m->a, many_lo, many_hi, many_values, MANY); }

/* Values combined with one value: sums of pieces of each kind, entries that become one, and a part of one entry. */
struct combination {
    int64_t lo, hi;
    uint64_t value;
    enum range_map_op op;
    enum range_map_place place;
};
static const struct combination combinations[] = {
    {2, 83, 3, RANGE_MAP_ADD, RANGE_MAP_ALL},         {-5, 500, 20, RANGE_MAP_MAX, RANGE_MAP_ALL},
    {-5, 500, 1, RANGE_MAP_XOR, RANGE_MAP_MAPPED},    {-5, 500, 50, RANGE_MAP_KEEP_OLD, RANGE_MAP_ALL},
    {2, 3, 1, RANGE_MAP_OR, RANGE_MAP_MAPPED},
};
static int32_t combine(struct range_map *map, const struct combination *by) {
    return range_map_combine(map, by->lo, by->hi, by->value, by->op, by->place);
}

struct call {
    const char *name;
    int32_t (*run)(struct maps *maps); /* or NULL, if it is a combination */
    const struct combination *by;      /* or NULL, if it is another call */
    int optional;                      /* allocations that it may do without */
    bool allocates;                    /* for some map that is not empty; otherwise it never does */
};

static const struct call calls[] = {
    {"paint between entries", paint_between, NULL, 0, true},
    {"paint within an entry", paint_within, NULL, 0, true},
    {"paint over entries", paint_over, NULL, 0, true},
    {"fill", fill, NULL, 0, true},
    {"insert", insert, NULL, 0, true},
    {"remove_range", remove_range, NULL, 0, true},
    {"remove", remove_key, NULL, 0, true},
    {"pop_first", pop_first, NULL, 0, true},
    {"pop_last", pop_last, NULL, 0, false},
    {"copy", copy, NULL, 0, true},
    {"union", unite, NULL, 1, true},
    {"intersection", intersect, NULL, 1, true},
    {"difference", subtract, NULL, 1, true},
    {"symmetric_difference", differ, NULL, 1, true},
    {"complement", complement, NULL, 1, true},
    {"extend", extend, NULL, 1, true},
    {"extend by one entry", extend_by_one, NULL, 1, true},
    {"intersect", intersect_in_place, NULL, 1, true},
    {"subtract", subtract_in_place, NULL, 1, true},
    {"fill_if_free", fill_if_free, NULL, 0, true},
    {"union_many", unite_many, NULL, 2, true},
    {"from_table", from_table, NULL, 2, true},
    {"split_off low", split_low, NULL, 0, true},
    {"split_off in the middle", split_middle, NULL, 0, true},
    {"paint_many", paint_many, NULL, 2, true},
    {"combine, sums", NULL, &combinations[0], 0, true},
    {"combine, the greater", NULL, &combinations[1], 0, true},
    {"combine, mapped keys", NULL, &combinations[2], 0, true},
    {"combine, keys without a value", NULL, &combinations[3], 0, true},
    {"combine within an entry", NULL, &combinations[4], 0, true},
};

static int32_t run(const struct call *call, struct maps *maps) {
    return call->by ? combine(&maps->a, call->by) : call->run(maps);
}

/* Whether a has a first part of the many ranges painted, and nothing else has changed. */
static bool is_part_painted(const struct contents *now, const struct contents *before, long size) {
    static struct content part;
    struct maps maps;
    size_t rows = 0;
    if (!is_equal_content(&now->b, &before->b) || !is_equal_content(&now->out, &before->out)) return false;
    start(&maps, size);
    read_content(&maps.a, &part);
    while (!is_equal_content(&now->a, &part) && rows < MANY) {
        if (range_map_paint(&maps.a, many_lo[rows], many_hi[rows], many_values[rows], NULL)) abort();
        read_content(&maps.a, &part);
        rows++;
    }
    end(&maps);
    return is_equal_content(&now->a, &part);
}

/* Whether a has its new values up to the end of a piece of the range, or below the range, and nothing else has changed. */
static bool is_part_combined(const struct contents *now, const struct contents *before, const struct combination *by, long size) {
    static struct content part;
    struct maps maps;
    bool is_part = false;
    if (!is_equal_content(&now->b, &before->b) || !is_equal_content(&now->out, &before->out)) return false;
    for (int64_t last = by->lo - 1; last <= by->hi && !is_part; last++) {
        int64_t piece_end = by->lo - 1;
        start(&maps, size);
        if (last >= by->lo) range_map_entry_or_gap_at(&maps.a, last, NULL, &piece_end, NULL);
        if (piece_end == last || last == by->hi || last < by->lo) {
            if (range_map_combine(&maps.a, by->lo, last, by->value, by->op, by->place)) abort();
            read_content(&maps.a, &part);
            is_part = is_equal_content(&now->a, &part);
        }
        end(&maps);
    }
    return is_part;
}

/* Makes an allocation of a call fail, and returns whether the call did without it. */
static bool fail_one(const struct call *call, long size, long request, const struct contents *before, const struct contents *after) {
    static struct contents now;
    struct maps maps;
    int32_t status;
    bool is_same, is_part;
    start(&maps, size);
    requests = 0;
    failing_request = request;
    status = run(call, &maps);
    failing_request = 0;
    read_contents(&maps, &now);
    if (status == RANGE_MAP_DONE) {
        judge(is_equal(&now, after), call->name, size, request);
        end(&maps);
        return true;
    }
    is_same = is_equal(&now, before);
    is_part = !is_same && ((call->run == paint_many && is_part_painted(&now, before, size)) ||
                           (call->by && is_part_combined(&now, before, call->by, size)));
    judge(status == RANGE_MAP_NO_MEMORY && (is_same || is_part), call->name, size, request);
    /* With memory it then does what it would have done at first. But what was combined in part would be combined again. */
    if (!call->by || is_same) {
        status = run(call, &maps);
        read_contents(&maps, &now);
        judge(status == RANGE_MAP_DONE && is_equal(&now, after), call->name, size, request);
    }
    end(&maps);
    return false;
}

/* Makes each allocation of a call fail in turn, and returns for how many of them the call failed. */
static long fail_each(const struct call *call, long size) {
    static struct contents before, after;
    struct maps maps;
    long all, optional = 0;
    start(&maps, size);
    read_contents(&maps, &before);
    requests = failing_request = 0;
    judge(run(call, &maps) == RANGE_MAP_DONE, call->name, size, 0);
    all = requests;
    read_contents(&maps, &after);
    end(&maps);
    for (long request = 1; request <= all; request++) optional += fail_one(call, size, request, &before, &after);
    judge(optional <= call->optional, call->name, size, -optional);
    judge_freed(size);
    return all - optional;
}

void test_failing_allocations(const long *sizes, size_t count, long most) {
    for (size_t at = 0; at < sizeof calls / sizeof calls[0]; at++) {
        long empty = fail_each(&calls[at], 0), others = 0;
        for (size_t size = 1; size < count && sizes[size] <= most; size++) others += fail_each(&calls[at], sizes[size]);
        judge(calls[at].allocates ? others > 0 : empty == 0 && others == 0, "whether it allocates", most, (long)at);
    }
}
