#include "model.h"

#include <stdio.h>
#include <stdlib.h>

int64_t start_of[ATOMS], end_of[ATOMS];
struct range_map maps[MAPS];
struct model models[MAPS];
long passed, failed, step;

void judge(bool good, const char *what) {
    if (good) {
        passed++;
    } else if (failed++ < 20) {
        printf("step %ld: %s\n", step, what);
    }
}

static uint64_t state = 88172645463325252u;

void seed(uint64_t number) { state += number * 0x9e3779b97f4a7c15u; }

uint64_t draw(uint64_t below) {
    state ^= state << 13;
    state ^= state >> 7;
    state ^= state << 17;
    return (state >> 11) % below;
}

static void make_atom(int atom, int64_t lo, int64_t hi) {
    start_of[atom] = lo;
    end_of[atom] = hi;
}

void make_atoms(void) {
    int at = 0;
    for (int64_t key = INT64_MIN; key < INT64_MIN + 3; key++) make_atom(at++, key, key);
    make_atom(at++, INT64_MIN + 3, -21);
    for (int64_t key = -20; key <= 20; key++) make_atom(at++, key, key);
    make_atom(at++, 21, INT64_MAX - 3);
    for (int64_t below = 2; below >= 0; below--) make_atom(at++, INT64_MAX - below, INT64_MAX - below);
    if (at != ATOMS) abort();
}

wide size_of(int atom) { return (wide)((uint64_t)end_of[atom] - (uint64_t)start_of[atom]) + 1; }

bool are_one(const struct model *model, int one, int other) {
    return model->has[one] == model->has[other] && (!model->has[one] || model->value[one] == model->value[other]);
}

bool is_same_value(const struct model *one, const struct model *other, int atom) {
    return one->has[atom] == other->has[atom] && (!one->has[atom] || one->value[atom] == other->value[atom]);
}

bool is_same_model(const struct model *one, const struct model *other) {
    int atom = 0;
    while (atom < ATOMS && is_same_value(one, other, atom)) atom++;
    return atom == ATOMS;
}

bool is_content(const struct range_map *map, const struct model *model) {
    for (int k = 0; k < ATOMS; k++) {
        uint64_t value;
        if (range_map_get(map, start_of[k], &value) != model->has[k] || (model->has[k] && value != model->value[k])) return false;
    }
    return true;
}

static uint64_t combined(uint64_t old, uint64_t value, enum range_map_op op) {
    switch (op) {
    case RANGE_MAP_ADD: return old + value;
    case RANGE_MAP_MIN: return old < value ? old : value;
    case RANGE_MAP_MAX: return old > value ? old : value;
    case RANGE_MAP_AND: return old & value;
    case RANGE_MAP_OR: return old | value;
    case RANGE_MAP_XOR: return old ^ value;
    default: return old;
    }
}

bool combine_model(struct model *model, int i, int j, uint64_t value, enum range_map_op op, enum range_map_place place) {
    bool is_changed = false;
    for (int k = i; k <= j; k++) {
        if (model->has[k]) {
            uint64_t now = combined(model->value[k], value, op);
            is_changed |= now != model->value[k];
            model->value[k] = now;
        } else if (place == RANGE_MAP_ALL) {
            is_changed = true;
            model->has[k] = true;
            model->value[k] = value;
        }
    }
    return is_changed;
}
