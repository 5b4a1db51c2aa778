/* Random calls that change a map, and the same changes of its model. */
#include "allocation.h"
#include "model.h"

/* Each function below changes the model, makes the call, and returns its status. If that is NO_MEMORY, `make_call` restores the model. */

static int32_t paint(const struct change *c, struct model *model, struct range_map *map) {
    bool is_changed = false, wanted = false;
    int32_t status;
    for (int k = c->i; k <= c->j; k++) {
        wanted |= !model->has[k];
        model->has[k] = true;
        model->value[k] = c->value;
    }
    status = range_map_paint(map, start_of[c->i], end_of[c->j], c->value, &is_changed);
    if (status == RANGE_MAP_DONE) judge(is_changed == wanted, "paint");
    return status;
}

static int32_t fill(const struct change *c, struct model *model, struct range_map *map) {
    bool is_changed = false, wanted = false;
    int32_t status;
    for (int k = c->i; k <= c->j; k++) {
        if (model->has[k]) continue;
        wanted = true;
        model->has[k] = true;
        model->value[k] = c->value;
    }
    status = range_map_fill(map, start_of[c->i], end_of[c->j], c->value, &is_changed);
    if (status == RANGE_MAP_DONE) judge(is_changed == wanted, "fill");
    return status;
}

static int32_t fill_if_free(const struct change *c, struct model *model, struct range_map *map) {
    bool is_taken = false;
    int32_t status;
    for (int k = c->i; k <= c->j; k++) is_taken |= model->has[k];
    for (int k = c->i; k <= c->j && !is_taken; k++) {
        model->has[k] = true;
        model->value[k] = c->value;
    }
    status = range_map_fill_if_free(map, start_of[c->i], end_of[c->j], c->value);
    if (status != RANGE_MAP_NO_MEMORY) judge((status == RANGE_MAP_TAKEN) == is_taken, "fill_if_free");
    return status == RANGE_MAP_TAKEN ? RANGE_MAP_DONE : status;
}

static int32_t remove_range(const struct change *c, struct model *model, struct range_map *map) {
    bool is_changed = false, wanted = false;
    int32_t status;
    for (int k = c->i; k <= c->j; k++) {
        wanted |= model->has[k];
        model->has[k] = false;
    }
    status = range_map_remove_range(map, start_of[c->i], end_of[c->j], &is_changed);
    if (status == RANGE_MAP_DONE) judge(is_changed == wanted, "remove_range");
    return status;
}

/* The next atom from i on that is a single key. */
static int single_key_from(int i) {
    while (start_of[i] != end_of[i]) i = (i + 1) % ATOMS;
    return i;
}

static int32_t insert_or_remove(const struct change *c, struct model *model, struct range_map *map, bool is_insert) {
    int k = single_key_from(c->i);
    bool had = false, wanted = model->has[k];
    uint64_t old = 0, wanted_old = model->value[k];
    int32_t status;
    model->has[k] = is_insert;
    model->value[k] = c->value;
    status = is_insert ? range_map_insert(map, start_of[k], c->value, &had, &old) : range_map_remove(map, start_of[k], &had, &old);
    if (status == RANGE_MAP_DONE) judge(had == wanted && (!had || old == wanted_old), is_insert ? "insert" : "remove");
    return status;
}

static int32_t insert(const struct change *c, struct model *model, struct range_map *map) { return insert_or_remove(c, model, map, true); }

static int32_t remove_key(const struct change *c, struct model *model, struct range_map *map) {
    return insert_or_remove(c, model, map, false);
}

/* Removes the least or the greatest key. No call is made if that is in an atom of several keys, since the model can't express it. */
static int32_t pop(struct model *model, struct range_map *map, bool is_first) {
    int k = is_first ? 0 : ATOMS - 1;
    bool had = false, wanted;
    int64_t key = 0;
    uint64_t old = 0, wanted_old = 0;
    int32_t status;
    while (k >= 0 && k < ATOMS && !model->has[k]) k += is_first ? 1 : -1;
    wanted = k >= 0 && k < ATOMS;
    if (wanted && start_of[k] != end_of[k]) return RANGE_MAP_DONE;
    if (wanted) {
        model->has[k] = false;
        wanted_old = model->value[k];
    }
    status = is_first ? range_map_pop_first(map, &had, &key, &old) : range_map_pop_last(map, &had, &key, &old);
    if (status == RANGE_MAP_DONE) judge(had == wanted && (!had || (key == start_of[k] && old == wanted_old)), "pop");
    return status;
}

static int32_t pop_first(const struct change *c, struct model *model, struct range_map *map) {
    (void)c;
    return pop(model, map, true);
}

static int32_t pop_last(const struct change *c, struct model *model, struct range_map *map) {
    (void)c;
    return pop(model, map, false);
}

/* A part may be painted if an allocation fails; then the call is made again. */
static int32_t extend(const struct change *c, struct model *model, struct range_map *map) {
    const struct model other = models[c->other];
    int32_t status = range_map_extend(map, &maps[c->other]);
    if (c->map == c->other) {
        judge(status == RANGE_MAP_SAME_MAP, "extend by itself");
        return RANGE_MAP_DONE;
    }
    if (status == RANGE_MAP_NO_MEMORY) {
        failing_request = 0;
        status = range_map_extend(map, &maps[c->other]);
    }
    for (int k = 0; k < ATOMS; k++) {
        if (!other.has[k]) continue;
        model->has[k] = true;
        model->value[k] = other.value[k];
    }
    return status;
}

static int32_t intersect(const struct change *c, struct model *model, struct range_map *map) {
    const struct model *other = &models[c->other];
    if (c->map == c->other) return RANGE_MAP_DONE;
    for (int k = 0; k < ATOMS; k++) {
        model->has[k] &= other->has[k];
        model->value[k] = other->value[k];
    }
    return range_map_intersect(map, &maps[c->other]);
}

static int32_t subtract(const struct change *c, struct model *model, struct range_map *map) {
    const struct model *other = &models[c->other];
    if (c->map == c->other) return RANGE_MAP_DONE;
    for (int k = 0; k < ATOMS; k++) model->has[k] &= !other->has[k];
    return range_map_subtract(map, &maps[c->other]);
}

/* The other map keeps its keys below atom i. The map gets those from there on. */
static int32_t split_off(const struct change *c, struct model *model, struct range_map *map) {
    struct model *other = &models[c->other], before = *other;
    int32_t status;
    if (c->map == c->other) return RANGE_MAP_DONE;
    for (int k = 0; k < ATOMS; k++) {
        model->has[k] = k >= c->i && before.has[k];
        model->value[k] = before.value[k];
        if (k >= c->i) other->has[k] = false;
    }
    status = range_map_split_off(&maps[c->other], start_of[c->i], map);
    if (is_same_model(other, &before)) judge(status == RANGE_MAP_DONE && !requests, "split_off that moves nothing");
    if (status != RANGE_MAP_DONE) *other = before;
    return status;
}

static int32_t complement(const struct change *c, struct model *model, struct range_map *map) {
    const struct model *other = &models[c->other];
    if (c->map == c->other) return RANGE_MAP_DONE;
    for (int k = 0; k < ATOMS; k++) {
        model->has[k] = !other->has[k];
        model->value[k] = c->value;
    }
    return range_map_complement(&maps[c->other], c->value, map);
}

enum operation { UNION, INTERSECTION, DIFFERENCE, SYMMETRIC_DIFFERENCE, COPY, OPERATIONS };

static int32_t make_operation(enum operation operation, const struct range_map *a, const struct range_map *b, struct range_map *out) {
    switch (operation) {
    case UNION: return range_map_union(a, b, out);
    case INTERSECTION: return range_map_intersection(a, b, out);
    case DIFFERENCE: return range_map_difference(a, b, out);
    case SYMMETRIC_DIFFERENCE: return range_map_symmetric_difference(a, b, out);
    default: return range_map_copy(a, out);
    }
}

static int32_t operate(const struct change *c, struct model *model, struct range_map *map) {
    const struct model *a = &models[c->other], *b = &models[c->another];
    enum operation operation = (enum operation)draw(OPERATIONS);
    if (c->map == c->other || c->map == c->another) {
        judge(range_map_union(&maps[c->other], &maps[c->another], map) == RANGE_MAP_SAME_MAP, "the output is an operand");
        return RANGE_MAP_DONE;
    }
    for (int k = 0; k < ATOMS; k++) {
        bool in_a = a->has[k], in_b = b->has[k];
        bool has[OPERATIONS] = {in_a || in_b, in_a && in_b, in_a && !in_b, in_a != in_b, in_a};
        model->has[k] = has[operation];
        model->value[k] = in_b && operation != COPY ? b->value[k] : a->value[k];
    }
    return make_operation(operation, &maps[c->other], &maps[c->another], map);
}

/* A part may be painted if an allocation fails; then the call is made again. */
static int32_t paint_many(const struct change *c, struct model *model, struct range_map *map) {
    enum { ROWS = 3 };
    int64_t lo[ROWS], hi[ROWS];
    uint64_t value[ROWS];
    int32_t status;
    bool is_changed = false;
    (void)c;
    for (int row = 0; row < ROWS; row++) {
        int first = (int)draw(ATOMS), last = (int)draw(ATOMS);
        lo[row] = start_of[first];
        hi[row] = end_of[last];
        value[row] = draw(3);
        for (int k = first; k <= last; k++) {
            is_changed |= !model->has[k] || model->value[k] != value[row];
            model->has[k] = true;
            model->value[k] = value[row];
        }
    }
    status = range_map_paint_many(map, lo, hi, value, ROWS);
    if (!is_changed) judge(status == RANGE_MAP_DONE && !requests, "rows that change nothing");
    if (status == RANGE_MAP_NO_MEMORY) {
        failing_request = 0;
        status = range_map_paint_many(map, lo, hi, value, ROWS);
    }
    return status;
}

/* The model in which the atoms i to j, or those up to the end of a piece of them, or none are combined: that of the map's content. */
static struct model part_combined(const struct range_map *map, const struct model *old, int i, int j, uint64_t value, enum range_map_op op,
                                  enum range_map_place place) {
    struct model model = *old;
    for (int k = i; k <= j && !is_content(map, &model); k++) {
        combine_model(&model, k, k, value, op, place);
        while (k < j && are_one(old, k, k + 1)) {
            k++;
            combine_model(&model, k, k, value, op, place);
        }
    }
    judge(is_content(map, &model), "a part combined");
    return model;
}

static int32_t combine(const struct change *c, struct model *model, struct range_map *map) {
    enum range_map_op op = (enum range_map_op)draw(7);
    enum range_map_place place = (enum range_map_place)draw(2);
    uint64_t value = draw(8) ? c->value : UINT64_MAX - c->value;
    const struct model before = *model;
    int32_t status = range_map_combine(map, start_of[c->i], end_of[c->j], value, op, place);
    if (status == RANGE_MAP_NO_MEMORY) {
        *model = part_combined(map, &before, c->i, c->j, value, op, place);
    } else {
        combine_model(model, c->i, c->j, value, op, place);
    }
    return status;
}

/* Whether the model has a value from atom k on. */
static bool has_more(const struct model *model, int k) {
    while (k < ATOMS && !model->has[k]) k++;
    return k < ATOMS;
}

/* -1, 0 or 1: how the lists of (key, value) pairs of two models compare. */
static int32_t order_of(const struct model *one, const struct model *other) {
    for (int k = 0; k < ATOMS; k++) {
        if (one->has[k] && other->has[k]) {
            if (one->value[k] != other->value[k]) return one->value[k] < other->value[k] ? -1 : 1;
        } else if (one->has[k]) {
            return has_more(other, k) ? -1 : 1;
        } else if (other->has[k]) {
            return has_more(one, k) ? 1 : -1;
        }
    }
    return 0;
}

static int32_t compare(const struct change *c, struct model *model, struct range_map *map) {
    int32_t order = order_of(model, &models[c->other]);
    judge(range_map_compare(map, &maps[c->other]) == order, "compare");
    judge(range_map_equal(map, &maps[c->other]) == !order, "equal");
    return RANGE_MAP_DONE;
}

typedef int32_t call(const struct change *, struct model *, struct range_map *);

int32_t make_call(const struct change *change) {
    static call *const calls[] = {
        /* These change one map, and a call that changes nothing makes no request. */
        paint, fill, fill_if_free, remove_range, insert, remove_key, pop_first, pop_last, extend, intersect, subtract, compare,
        /* These see to it themselves, make a map, or may have changed a part. */
        split_off, paint_many, operate, complement, combine, combine,
    };
    enum { CALLS = sizeof calls / sizeof calls[0], QUIET = 12 };
    struct model *model = &models[change->map], before = *model;
    uint64_t which = draw(CALLS);
    int32_t status = calls[which](change, model, &maps[change->map]);
    if (which < QUIET && is_same_model(model, &before)) judge(status == RANGE_MAP_DONE && !requests, "a call that changes nothing");
    /* A combination may have changed a part. */
    if (status == RANGE_MAP_NO_MEMORY && calls[which] != combine) *model = before;
    return status;
}
