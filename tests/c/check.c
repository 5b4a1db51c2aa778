/* The lookups of a map, compared with its model. */
#include "model.h"

/* A map, its model, and the entries that the model gives. */
struct view {
    struct range_map *map;
    const struct model *model;
    uint64_t count;
    int64_t lo[ATOMS], hi[ATOMS];
    uint64_t value[ATOMS];
};

static void make_view(struct view *view, int map) {
    const struct model *model = &models[map];
    view->map = &maps[map];
    view->model = model;
    view->count = 0;
    for (int i = 0, j; i < ATOMS; i = j) {
        for (j = i + 1; j < ATOMS && are_one(model, i, j); j++) {}
        if (!model->has[i]) continue;
        view->lo[view->count] = start_of[i];
        view->hi[view->count] = end_of[j - 1];
        view->value[view->count] = model->value[i];
        view->count++;
    }
}

static bool is_entry(const struct view *view, uint64_t at, int64_t lo, int64_t hi, uint64_t value) {
    return lo == view->lo[at] && hi == view->hi[at] && value == view->value[at];
}

static void check_walks(const struct view *view) {
    struct range_map_iter walk;
    int64_t lo = 0, hi = 0;
    uint64_t value = 0, at;
    range_map_iter_from(&walk, view->map, INT64_MIN);
    for (at = 0; at < view->count; at++) {
        judge(range_map_iter_next(&walk, &lo, &hi, &value) && is_entry(view, at, lo, hi, value), "walk");
    }
    judge(!range_map_iter_next(&walk, NULL, NULL, NULL), "end of walk");
    range_map_iter_back_from(&walk, view->map, INT64_MAX);
    for (at = view->count; at-- > 0;) {
        judge(range_map_iter_next(&walk, &lo, &hi, &value) && is_entry(view, at, lo, hi, value), "walk back");
    }
    judge(!range_map_iter_next(&walk, NULL, NULL, NULL), "end of walk back");
}

static void check_ends(const struct view *view) {
    uint64_t count = view->count, value = 0;
    int64_t key = 0;
    judge(range_map_entries(view->map) == count && range_map_is_empty(view->map) == !count, "entries");
    judge(range_map_first(view->map, &key, &value) == (count > 0) && (!count || (key == view->lo[0] && value == view->value[0])), "first");
    judge(range_map_last(view->map, &key, &value) == (count > 0) &&
              (!count || (key == view->hi[count - 1] && value == view->value[count - 1])),
          "last");
}

static void check_counts(const struct view *view, int i, int j) {
    uint64_t low, high;
    wide all = 0, within = 0;
    bool any = false, is_full = true;
    for (int k = 0; k < ATOMS; k++) all += view->model->has[k] ? size_of(k) : 0;
    for (int k = i; k <= j; k++) {
        any |= view->model->has[k];
        is_full &= view->model->has[k];
        within += view->model->has[k] ? size_of(k) : 0;
    }
    range_map_count(view->map, &low, &high);
    judge(high == (uint64_t)(all >> 64) && low == (uint64_t)all, "count");
    range_map_count_within(view->map, start_of[i], end_of[j], &low, &high);
    judge(high == (uint64_t)(within >> 64) && low == (uint64_t)within, "count_within");
    judge(range_map_any(view->map, start_of[i], end_of[j]) == any, "any");
    judge(range_map_all(view->map, start_of[i], end_of[j]) == is_full, "all");
}

/* The entry or the gap with an atom, and the next and the previous entry. */
static void check_at(const struct view *view, int i) {
    const struct model *model = view->model;
    uint64_t value = 0, at = 0;
    int64_t lo = 0, hi = 0;
    int first = i, last = i;
    while (first > 0 && are_one(model, first - 1, i)) first--;
    while (last < ATOMS - 1 && are_one(model, last + 1, i)) last++;
    judge(range_map_get(view->map, start_of[i], &value) == model->has[i] && (!model->has[i] || value == model->value[i]), "get");
    value = 7777;
    judge(range_map_entry_or_gap_at_unchecked(view->map, end_of[i], &lo, &hi, &value) == model->has[i] && lo == start_of[first] &&
              hi == end_of[last] && value == (model->has[i] ? model->value[i] : 0),
          "entry_or_gap_at");
    while (at < view->count && view->hi[at] < start_of[i]) at++;
    judge(range_map_next(view->map, start_of[i], &lo, &hi, &value) == (at < view->count) &&
              (at == view->count || is_entry(view, at, lo, hi, value)),
          "next");
    for (at = view->count; at > 0 && view->lo[at - 1] > start_of[i];) at--;
    judge(range_map_previous(view->map, start_of[i], &lo, &hi, &value) == (at > 0) && (at == 0 || is_entry(view, at - 1, lo, hi, value)),
          "previous");
}

/* The first and the last run of free keys of some length in the atoms i to j. */
static void check_gaps(const struct view *view, int i, int j) {
    uint64_t length = draw(4) ? draw(12) : draw(2) ? UINT64_MAX : UINT64_C(1) << draw(64);
    bool found = false;
    int64_t first = 0, last = 0, key = 0;
    for (int p = i, q; p <= j; p = q + 1) {
        wide run = 0;
        for (q = p; q <= j && !view->model->has[q]; q++) run += size_of(q);
        if (length && run >= length) {
            if (!found) first = start_of[p];
            last = (int64_t)((uint64_t)end_of[q - 1] - (length - 1));
            found = true;
        }
    }
    judge(range_map_find_gap(view->map, start_of[i], end_of[j], length, &key) == found && (!found || key == first), "find_gap");
    judge(range_map_find_last_gap(view->map, start_of[i], end_of[j], length, &key) == found && (!found || key == last), "find_last_gap");
}

/* The lookups of a table give what those of its map give. */
static void check_table_lookups(const struct view *view, const struct range_table *table, int i, int j) {
    int64_t lo = 0, hi = 0, map_lo = 0, map_hi = 0;
    uint64_t value = 0, map_value = 0, low, high, map_low, map_high;
    bool has = range_map_entry_or_gap_at(view->map, start_of[i], &map_lo, &map_hi, NULL);
    judge(range_table_get(table, start_of[i], &value) == has, "table get");
    judge(range_table_entry_or_gap_at(table, start_of[i], &lo, &hi, &value) == has && lo == map_lo && hi == map_hi, "table entry_or_gap_at");
    has = range_map_next(view->map, start_of[i], &map_lo, &map_hi, &map_value);
    judge(range_table_next(table, start_of[i], &lo, &hi, &value) == has && (!has || (lo == map_lo && hi == map_hi && value == map_value)),
          "table next");
    has = range_map_previous(view->map, start_of[i], &map_lo, &map_hi, &map_value);
    judge(range_table_previous(table, start_of[i], &lo, &hi, &value) == has &&
              (!has || (lo == map_lo && hi == map_hi && value == map_value)),
          "table previous");
    range_map_count_within(view->map, start_of[i], end_of[j], &map_low, &map_high);
    range_table_count_within(table, start_of[i], end_of[j], &low, &high);
    judge(low == map_low && high == map_high, "table count_within");
}

static void check_table(const struct view *view, int i, int j) {
    struct range_table table = {NULL, NULL, NULL, 0};
    struct range_map again = {0};
    int64_t lo[ATOMS], hi[ATOMS];
    uint64_t value[ATOMS], count = view->count;
    judge(range_map_to_table(view->map, lo, hi, value, count ? (size_t)count - 1 : 0, &table) == (count ? RANGE_MAP_NO_ROOM : RANGE_MAP_DONE),
          "no room");
    judge(range_map_to_table(view->map, lo, hi, value, ATOMS, &table) == RANGE_MAP_DONE && table.length == count, "to_table");
    judge(range_table_is_ordered(&table), "is_ordered");
    judge(range_map_from_table(&table, &again) == RANGE_MAP_DONE && range_map_equal(&again, view->map) &&
              range_map_compare(&again, view->map) == 0,
          "from_table");
    check_table_lookups(view, &table, i, j);
    if (count > 1) {
        int64_t swap = lo[0];
        lo[0] = lo[1];
        lo[1] = swap;
        judge(!range_table_is_ordered(&table) && range_map_from_table(&table, &again) == RANGE_MAP_NOT_ORDERED, "not ordered");
    }
    range_map_free(&again);
}

void check(int map) {
    struct view view;
    int i = (int)draw(ATOMS), j = (int)draw(ATOMS);
    make_view(&view, map);
    check_walks(&view);
    check_ends(&view);
    check_counts(&view, i, j);
    check_at(&view, i);
    check_gaps(&view, i, j);
    check_table(&view, i, j);
}
