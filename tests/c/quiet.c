/* Random calls that change nothing. They must return RANGE_MAP_DONE, make no request for memory, and leave the map's content. */
#include <stdlib.h>

#include "allocation.h"
#include "model.h"

enum { MOST_ROWS = 8 };

static void judge_quiet(int32_t status, const char *what) {
    judge(status == RANGE_MAP_DONE && !requests, what);
    requests = 0;
}

static void check_range(const struct change *c, struct range_map *map, const struct model *model) {
    int64_t lo = start_of[c->i], hi = end_of[c->j];
    int k = c->i;
    while (k <= c->j && model->has[k] && model->value[k] == c->value) k++;
    if (k > c->j) judge_quiet(range_map_paint(map, lo, hi, c->value, NULL), "a paint that changes nothing");
    for (k = c->i; k <= c->j && !model->has[k]; k++) {}
    if (k > c->j) judge_quiet(range_map_remove_range(map, lo, hi, NULL), "a removal that changes nothing");
    for (k = c->i; k <= c->j && model->has[k]; k++) {}
    if (k > c->j) judge_quiet(range_map_fill(map, lo, hi, c->value, NULL), "a fill that changes nothing");
    for (int op = RANGE_MAP_ADD; op <= RANGE_MAP_KEEP_OLD; op++) {
        struct model changed = *model;
        enum range_map_place place = (enum range_map_place)draw(2);
        if (combine_model(&changed, c->i, c->j, c->value, (enum range_map_op)op, place)) continue;
        judge_quiet(range_map_combine(map, lo, hi, c->value, (enum range_map_op)op, place), "a combination that changes nothing");
    }
}

/* Another model: of keys that the first does not have, of some of its keys, of more keys, or of any. */
static struct model related(const struct model *model) {
    struct model other;
    uint64_t relation = draw(4);
    bool is_in = false;
    for (int k = 0; k < ATOMS; k++) {
        if (!draw(3)) is_in = draw(2);
        other.value[k] = model->has[k] && relation ? model->value[k] : draw(3);
        switch (relation) {
        case 1: other.has[k] = model->has[k] && is_in; break;
        case 2: other.has[k] = model->has[k] || is_in; break;
        case 3: other.has[k] = is_in; break;
        default: other.has[k] = !model->has[k] && is_in;
        }
    }
    return other;
}

static void make_map(const struct model *model, struct range_map *map) {
    for (int k = 0; k < ATOMS; k++) {
        if (model->has[k] && range_map_paint(map, start_of[k], end_of[k], model->value[k], NULL)) abort();
    }
}

/* Calls of the map and another one that has to do with it. */
static void check_two_maps(struct range_map *map, const struct model *model) {
    const struct model other = related(model);
    struct range_map others = {NULL};
    bool is_apart = true, is_over = true, is_part = true;
    for (int k = 0; k < ATOMS; k++) {
        bool has = model->has[k], other_has = other.has[k], is_equal = is_same_value(model, &other, k);
        is_apart &= !has || !other_has;
        is_over &= !has || is_equal;
        is_part &= !other_has || is_equal;
    }
    make_map(&other, &others);
    requests = 0;
    failing_request = 1;
    if (is_apart) judge_quiet(range_map_subtract(map, &others), "subtract of a map that shares no key");
    if (is_over) judge_quiet(range_map_intersect(map, &others), "intersect with a map that has each key and value");
    if (is_part) judge_quiet(range_map_extend(map, &others), "extend by a part of the map");
    failing_request = 0;
    judge(is_content(&others, &other), "the other map");
    range_map_free(&others);
}

/* Rows that have no key, and rows whose keys have that value. */
static void check_rows(struct range_map *map, const struct model *model) {
    int64_t lo[MOST_ROWS], hi[MOST_ROWS];
    uint64_t value[MOST_ROWS];
    size_t rows = 1 + (size_t)draw(MOST_ROWS);
    for (size_t row = 0; row < rows; row++) {
        int first = (int)draw(ATOMS), last = first;
        while (last + 1 < ATOMS && are_one(model, first, last + 1) && draw(4)) last++;
        value[row] = model->has[first] ? model->value[first] : draw(3);
        lo[row] = start_of[first];
        hi[row] = end_of[last];
        if (model->has[first] && draw(8)) continue;
        lo[row] = first == last ? INT64_MAX : end_of[last];
        hi[row] = first == last ? INT64_MIN : start_of[first];
    }
    judge_quiet(range_map_paint_many(map, lo, hi, value, rows), "rows that change nothing");
}

static void check_split(struct range_map *map, const struct model *model) {
    struct range_map upper = {NULL};
    int above = ATOMS;
    while (above > 0 && !model->has[above - 1]) above--;
    if (above == ATOMS) return;
    if (draw(2) && range_map_paint(&upper, 1, 9, 5, NULL)) abort();
    requests = 0;
    failing_request = 1;
    judge_quiet(range_map_split_off(map, start_of[above + (int)draw((uint64_t)(ATOMS - above))], &upper), "split_off above the last key");
    failing_request = 0;
    judge(range_map_is_empty(&upper), "what split_off moved");
    range_map_free(&upper);
}

void check_unchanged(const struct change *c) {
    const struct model *model = &models[c->map];
    struct range_map *map = &maps[c->map];
    requests = 0;
    failing_request = 1;
    if (c->i <= c->j) check_range(c, map, model);
    check_rows(map, model);
    failing_request = 0;
    check_two_maps(map, model);
    check_split(map, model);
    judge(is_content(map, model), "a map that nothing changed");
}
