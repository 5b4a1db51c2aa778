/* Maps and their models. A model has the value of each *atom*, a range of keys that the random calls set together. */
#ifndef MODEL_H
#define MODEL_H

#include "range_map.h"

enum { ATOMS = 49, MAPS = 3 };

struct model {
    bool has[ATOMS];
    uint64_t value[ATOMS];
};

__extension__ typedef unsigned __int128 wide;

extern int64_t start_of[ATOMS], end_of[ATOMS];
extern struct range_map maps[MAPS];
extern struct model models[MAPS];
extern long passed, failed, step;

void judge(bool good, const char *what);

/* A pseudo-random number below the given one, of the sequence that `seed` begins. */
void seed(uint64_t number);
uint64_t draw(uint64_t below);

void make_atoms(void);
wide size_of(int atom);

/* Whether two atoms have equal values, or neither has a value. */
bool are_one(const struct model *model, int one, int other);

/* Whether an atom has equal values in two models, or no value in both. */
bool is_same_value(const struct model *one, const struct model *other, int atom);
bool is_same_model(const struct model *one, const struct model *other);
bool is_content(const struct range_map *map, const struct model *model);

/* Combines the values of the atoms i to j with a value, and returns whether one of them changes. */
bool combine_model(struct model *model, int i, int j, uint64_t value, enum range_map_op op, enum range_map_place place);

/* What a random call changes. */
struct change {
    int map, other, another; /* which maps */
    int i, j;                /* the first and the last atom */
    uint64_t value;
};

/* Makes a random call, changes the models as it changes the maps, and returns its status. */
int32_t make_call(const struct change *change);

/* Compares all lookups of a map with its model, some of them at random keys. */
void check(int map);

/* Makes calls that change nothing, with the first allocation failing. They must make no request for memory. */
void check_unchanged(const struct change *change);

#endif
