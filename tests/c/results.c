/* What each call leaves and returns, for a map a with 1 on the keys 0 to 5 and 2 on 10 to 15, and a map b with 3 on 4 to 11. */
#include <stdlib.h>
#include <string.h>

#include "maps.h"

static bool had;
static int64_t had_key;
static uint64_t had_value;

static void begin(struct maps *maps) {
    static const int64_t lo[] = {0, 10, 4}, hi[] = {5, 15, 11};
    static const uint64_t value[] = {1, 2, 3};
    end(maps);
    had_key = 0;
    had_value = 0;
    if (range_map_paint_many(&maps->a, lo, hi, value, 2)) abort();
    if (range_map_paint_many(&maps->b, lo + 2, hi + 2, value + 2, 1)) abort();
}

/* The entries of a map, as `lo hi value` in turn. */
static void judge_map(const char *what, const struct range_map *map, size_t count, const int64_t *wanted) {
    static struct content got;
    bool good;
    read_content(map, &got);
    good = got.count == count;
    for (size_t at = 0; good && at < count; at++) {
        const struct entry *entry = &got.entries[at];
        good = entry->lo == wanted[3 * at] && entry->hi == wanted[3 * at + 1] && entry->value == (uint64_t)wanted[3 * at + 2];
    }
    judge(good, what, (long)count, 0);
}

static void judge_answer(const char *what, int32_t status, bool wanted, int64_t key, uint64_t value) {
    judge(status == RANGE_MAP_DONE && had == wanted && had_key == key && had_value == value, what, 2, 0);
    had_key = 0;
    had_value = 0;
}

/* What combining 4 to 12 of a with 3 makes of 4 to 5, which have 1, of 6 to 9, which have no value, and of 10 to 12, which have 2. */
static void test_combine(struct maps *m) {
    static const int64_t of_one[] = {4, 1, 3, 1, 3, 2, 1}, of_two[] = {5, 2, 3, 2, 3, 1, 2};
    for (int op = RANGE_MAP_ADD; op <= RANGE_MAP_KEEP_OLD; op++) {
        for (int place = RANGE_MAP_ALL; place <= RANGE_MAP_MAPPED; place++) {
            struct range_map wanted = {0};
            begin(m);
            if (range_map_copy(&m->a, &wanted)) abort();
            if (range_map_paint(&wanted, 4, 5, (uint64_t)of_one[op], NULL)) abort();
            if (place == RANGE_MAP_ALL && range_map_paint(&wanted, 6, 9, 3, NULL)) abort();
            if (range_map_paint(&wanted, 10, 12, (uint64_t)of_two[op], NULL)) abort();
            judge(range_map_combine(&m->a, 4, 12, 3, (enum range_map_op)op, (enum range_map_place)place) == RANGE_MAP_DONE &&
                      range_map_equal(&m->a, &wanted),
                  "combine", op, place);
            range_map_free(&wanted);
        }
    }
}

static void test_operators(struct maps *m) {
    static const int64_t a[] = {0, 5, 1, 10, 15, 2}, b[] = {4, 11, 3};
    static const int64_t united[] = {0, 3, 1, 4, 11, 3, 12, 15, 2}, both[] = {4, 5, 3, 10, 11, 3};
    static const int64_t less[] = {0, 3, 1, 12, 15, 2}, either[] = {0, 3, 1, 6, 9, 3, 12, 15, 2};
    static const int64_t rest[] = {INT64_MIN, -1, 9, 6, 9, 9, 16, INT64_MAX, 9};
    begin(m);
    judge(range_map_union(&m->a, &m->b, &m->out) == RANGE_MAP_DONE, "union", 2, 0);
    judge_map("union", &m->out, 3, united);
    judge(range_map_intersection(&m->a, &m->b, &m->out) == RANGE_MAP_DONE, "intersection", 2, 0);
    judge_map("intersection", &m->out, 2, both);
    judge(range_map_difference(&m->a, &m->b, &m->out) == RANGE_MAP_DONE, "difference", 2, 0);
    judge_map("difference", &m->out, 2, less);
    judge(range_map_symmetric_difference(&m->a, &m->b, &m->out) == RANGE_MAP_DONE, "symmetric_difference", 2, 0);
    judge_map("symmetric_difference", &m->out, 3, either);
    judge(range_map_complement(&m->a, 9, &m->out) == RANGE_MAP_DONE, "complement", 2, 0);
    judge_map("complement", &m->out, 3, rest);
    judge(range_map_copy(&m->a, &m->out) == RANGE_MAP_DONE && range_map_equal(&m->a, &m->out), "copy", 2, 0);
    judge_map("copy", &m->out, 2, a);
    judge(!range_map_equal(&m->a, &m->b) && range_map_compare(&m->a, &m->b) == -1, "compare", 2, 0);
    judge(range_map_compare(&m->b, &m->a) == 1 && range_map_compare(&m->a, &m->out) == 0, "compare the other way", 2, 0);
    judge_map("a, after these", &m->a, 2, a);
    judge(range_map_extend(&m->a, &m->b) == RANGE_MAP_DONE, "extend", 2, 0);
    judge_map("extend", &m->a, 3, united);
    judge_map("b, after these", &m->b, 1, b);
}

static void test_split_and_paint_many(struct maps *m) {
    static const int64_t low[] = {0, 5, 1, 10, 11, 2}, high[] = {12, 15, 2};
    static const int64_t lo[] = {3, 9, 20}, hi[] = {12, 2, 20}, painted[] = {0, 2, 1, 3, 12, 7, 13, 15, 2, 20, 20, 8};
    static const uint64_t value[] = {7, 5, 8};
    begin(m);
    judge(range_map_split_off(&m->a, 12, &m->out) == RANGE_MAP_DONE, "split_off", 2, 0);
    judge_map("split_off, what stays", &m->a, 2, low);
    judge_map("split_off, what goes", &m->out, 1, high);
    begin(m);
    judge(range_map_paint_many(&m->a, lo, hi, value, 3) == RANGE_MAP_DONE, "paint_many", 2, 0);
    judge_map("paint_many", &m->a, 4, painted);
}

static void test_writes(struct maps *m) {
    static const int64_t painted[] = {0, 3, 1, 4, 12, 7, 13, 15, 2}, filled[] = {0, 5, 1, 6, 9, 7, 10, 15, 2, 16, 16, 7};
    static const int64_t inserted[] = {0, 2, 1, 3, 3, 7, 4, 5, 1, 10, 15, 2};
    begin(m);
    judge_answer("paint", range_map_paint(&m->a, 4, 12, 7, &had), true, 0, 0);
    judge_map("paint", &m->a, 3, painted);
    judge_answer("paint again", range_map_paint(&m->a, 5, 6, 8, &had), false, 0, 0);
    begin(m);
    judge_answer("fill", range_map_fill(&m->a, 3, 16, 7, &had), true, 0, 0);
    judge_map("fill", &m->a, 4, filled);
    judge_answer("fill again", range_map_fill(&m->a, 3, 16, 8, &had), false, 0, 0);
    begin(m);
    judge_answer("insert", range_map_insert(&m->a, 3, 7, &had, &had_value), true, 0, 1);
    judge_map("insert", &m->a, 4, inserted);
    judge(range_map_insert(&m->a, 7, 7, &had, &had_value) == RANGE_MAP_DONE && !had, "insert in a gap", 2, 0);
}

static void test_removals(struct maps *m) {
    static const int64_t cut[] = {0, 1, 1, 14, 15, 2}, without[] = {0, 2, 1, 4, 5, 1, 10, 15, 2}, popped[] = {1, 5, 1, 10, 14, 2};
    begin(m);
    judge_answer("remove_range", range_map_remove_range(&m->a, 2, 13, &had), true, 0, 0);
    judge_map("remove_range", &m->a, 2, cut);
    judge_answer("remove_range again", range_map_remove_range(&m->a, 2, 13, &had), false, 0, 0);
    begin(m);
    judge_answer("remove", range_map_remove(&m->a, 3, &had, &had_value), true, 0, 1);
    judge_map("remove", &m->a, 3, without);
    judge(range_map_remove(&m->a, 3, &had, &had_value) == RANGE_MAP_DONE && !had, "remove again", 2, 0);
    begin(m);
    judge_answer("pop_first", range_map_pop_first(&m->a, &had, &had_key, &had_value), true, 0, 1);
    judge_answer("pop_last", range_map_pop_last(&m->a, &had, &had_key, &had_value), true, 15, 2);
    judge_map("pops", &m->a, 2, popped);
}

void test_results(void) {
    struct maps m;
    memset(&m, 0, sizeof m);
    test_operators(&m);
    test_split_and_paint_many(&m);
    test_writes(&m);
    test_removals(&m);
    test_combine(&m);
    end(&m);
    judge_freed(2);
}
