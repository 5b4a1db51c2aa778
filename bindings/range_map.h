/*
 * A map from int64_t keys to uint64_t values, stored as entries: ranges of keys with one value each.
 *
 *     struct range_map map = {0};
 *     range_map_paint(&map, 10, 49, 7, NULL);
 *     range_map_paint(&map, 20, 29, 8, NULL);
 *
 *     struct range_map_iter walk;
 *     int64_t lo, hi;
 *     uint64_t value;
 *     range_map_iter_from(&walk, &map, INT64_MIN);
 *     while (range_map_iter_next(&walk, &lo, &hi, &value)) {
 *         printf("%" PRId64 " to %" PRId64 ": %" PRIu64 "\n", lo, hi, value); // 10 to 19: 7, 20 to 29: 8, 30 to 49: 7
 *     }
 *     range_map_free(&map);
 *
 * Ranges. A range lo, hi includes both ends. If lo is above hi, the range is empty, which is not an error. A later value replaces
 * an earlier one. Adjacent ranges with equal values are one entry, so there are never more entries than needed.
 *
 * Maps. A struct range_map must be zero before its first use; a zeroed struct is the empty map and needs no memory. Pass each map to
 * range_map_free when you are done with it. Do not copy a struct range_map by assignment or memcpy: two copies would own the same
 * memory. range_map_copy makes a second map.
 *
 * Results. Every pointer through which a function only returns a number or a bool may be NULL. If a function returns false, or a
 * status other than RANGE_MAP_DONE, it writes nothing through these pointers, except the ends of a gap that it was asked for.
 *
 * Memory. A function that may allocate returns a status. If an allocation fails, it returns RANGE_MAP_NO_MEMORY, and all maps are
 * unchanged. Three functions differ: range_map_extend and range_map_paint_many may have applied a first part of their input, and
 * range_map_combine may have changed a first part of its range. A call that changes nothing does not allocate. A new map is a change,
 * even if *out had that content. Rows change nothing if each of them changes nothing. malloc, realloc and free must belong to one
 * allocator.
 *
 * Threads. One thread may make a map and another may use it, change it or free it. While a call changes or frees a map, no other call
 * may use that map. Any number of threads may look up in one map through const pointers, or read it as a const operand, at the same
 * time. The program orders the calls of different threads: by a lock, by the start or the join of a thread, or by an atomic. Such an
 * atomic is stored with release and loaded with acquire. Calls on different maps need no order. Any thread may read a table. Do not
 * call the library from a signal handler, or from a forked child of a process with threads.
 *
 * Costs. n is the number of entries of the map, or m of the other map.
 *
 * Proof. The exported functions were proved to do what their contracts say (crates/range_map_c), and that a map may go to another
 * thread. The static inline wrappers of this header, and the walk, were tested, not proved. Lookups from several threads at the same
 * time were tested, not proved.
 *
 * Platform. x86-64 Linux with glibc, and a processor with SSE4.2 and POPCNT (x86-64-v2).
 */
#ifndef RANGE_MAP_H
#define RANGE_MAP_H

#include <stddef.h>
#include <stdint.h>
#ifndef __cplusplus
#include <stdbool.h>
#endif

#define RANGE_MAP_VERSION "0.1.0"
#define RANGE_MAP_VERSION_NUMBER 100 /* 10,000 * major + 100 * minor + patch */

/* The key for an unsigned number, and back. Unsigned order and neighbours are kept. */
#ifdef __cplusplus
#define RANGE_MAP_KEY_FROM_U64(number) (static_cast<int64_t>(static_cast<uint64_t>(number) ^ UINT64_C(1) << 63))
#define RANGE_MAP_KEY_TO_U64(key) (static_cast<uint64_t>(key) ^ UINT64_C(1) << 63)
#else
#define RANGE_MAP_KEY_FROM_U64(number) ((int64_t)((uint64_t)(number) ^ UINT64_C(1) << 63))
#define RANGE_MAP_KEY_TO_U64(key) ((uint64_t)(key) ^ UINT64_C(1) << 63)
#endif

#ifdef __cplusplus
extern "C" {
#endif

struct range_map {
    void *at; /* private to the library */
};

/* A table in your own arrays: row i gives the keys lo[i] to hi[i] the value value[i]. The arrays may be in read-only memory or in a
 * mapped file. */
struct range_table {
    const int64_t *lo, *hi;
    const uint64_t *value;
    size_t length; /* rows */
};

enum {
    RANGE_MAP_DONE = 0,
    RANGE_MAP_NO_MEMORY = 1,   /* an allocation failed */
    RANGE_MAP_SAME_MAP = 2,    /* the map to change, or the output, is an operand too; nothing was done */
    RANGE_MAP_TAKEN = 3,       /* a key of the range has a value; nothing was done */
    RANGE_MAP_NOT_ORDERED = 4, /* the rows of a table are not in order; nothing was done */
    RANGE_MAP_NO_ROOM = 5,     /* the arrays are too short; nothing was done */
    RANGE_MAP_INVALID = 6      /* `op` or `place` is not one of its constants; nothing was done */
};

/* What range_map_combine makes of the value of a key and the given value. */
enum range_map_op {
    RANGE_MAP_ADD = 0,     /* the sum, modulo 2^64 */
    RANGE_MAP_MIN = 1,     /* the lesser */
    RANGE_MAP_MAX = 2,     /* the greater */
    RANGE_MAP_AND = 3,     /* the bits that both have */
    RANGE_MAP_OR = 4,      /* the bits that one of them has, or both */
    RANGE_MAP_XOR = 5,     /* the bits that exactly one of them has */
    RANGE_MAP_KEEP_OLD = 6 /* the value of the key */
};

/* Which keys of its range range_map_combine changes. */
enum range_map_place {
    RANGE_MAP_ALL = 0,   /* all keys; one without a value gets the given value */
    RANGE_MAP_MAPPED = 1 /* the keys that have a value */
};

/* ---- Exports, for languages that do not read this header. The functions below wrap them. No pointer may be null, all maps must be
 * different, and each array is followed by its length; the arrays of one call must be equally long. A map that a call does not
 * change is not written to. ---- */

uint32_t range_map_version(void);
void range_map_new(struct range_map *map);
void range_map_free_unchecked(struct range_map *map);
void range_map_clear(struct range_map *map);

int32_t range_map_paint_unchecked(struct range_map *map, int64_t lo, int64_t hi, uint64_t value, bool *changed);
int32_t range_map_fill_unchecked(struct range_map *map, int64_t lo, int64_t hi, uint64_t value, bool *changed);
int32_t range_map_fill_if_free(struct range_map *map, int64_t lo, int64_t hi, uint64_t value);
int32_t range_map_insert_unchecked(struct range_map *map, int64_t key, uint64_t value, bool *had, uint64_t *old);
int32_t range_map_combine_unchecked(struct range_map *map, int64_t lo, int64_t hi, uint64_t value, uint32_t op, uint32_t place);
int32_t range_map_remove_range_unchecked(struct range_map *map, int64_t lo, int64_t hi, bool *changed);
int32_t range_map_remove_unchecked(struct range_map *map, int64_t key, bool *had, uint64_t *old);
int32_t range_map_pop_first_unchecked(struct range_map *map, bool *had, int64_t *key, uint64_t *value);
int32_t range_map_pop_last_unchecked(struct range_map *map, bool *had, int64_t *key, uint64_t *value);
int32_t range_map_paint_many_unchecked(struct range_map *map, const int64_t *lo, size_t lo_length, const int64_t *hi,
                                       size_t hi_length, const uint64_t *value, size_t value_length);

bool range_map_is_empty_unchecked(struct range_map *map);
bool range_map_get_unchecked(struct range_map *map, int64_t key, uint64_t *value);
bool range_map_entry_or_gap_at_unchecked(struct range_map *map, int64_t key, int64_t *lo, int64_t *hi, uint64_t *value);
bool range_map_next_unchecked(struct range_map *map, int64_t key, int64_t *lo, int64_t *hi, uint64_t *value);
bool range_map_previous_unchecked(struct range_map *map, int64_t key, int64_t *lo, int64_t *hi, uint64_t *value);
bool range_map_first_unchecked(struct range_map *map, int64_t *key, uint64_t *value);
bool range_map_last_unchecked(struct range_map *map, int64_t *key, uint64_t *value);
bool range_map_any_unchecked(struct range_map *map, int64_t lo, int64_t hi);
bool range_map_all_unchecked(struct range_map *map, int64_t lo, int64_t hi);
bool range_map_find_gap_unchecked(struct range_map *map, int64_t from, int64_t to, uint64_t length, int64_t *lo);
bool range_map_find_last_gap_unchecked(struct range_map *map, int64_t from, int64_t to, uint64_t length, int64_t *lo);
void range_map_count_unchecked(struct range_map *map, uint64_t *low, uint64_t *high);
void range_map_count_within_unchecked(struct range_map *map, int64_t lo, int64_t hi, uint64_t *low, uint64_t *high);
uint64_t range_map_entries_unchecked(struct range_map *map);
uint64_t range_map_entries_into_unchecked(struct range_map *map, int64_t from, int64_t *lo, size_t lo_length, int64_t *hi,
                                          size_t hi_length, uint64_t *value, size_t value_length);
uint64_t range_map_entries_back_into_unchecked(struct range_map *map, int64_t from, int64_t *lo, size_t lo_length, int64_t *hi,
                                               size_t hi_length, uint64_t *value, size_t value_length);

int32_t range_map_copy_unchecked(struct range_map *map, struct range_map *out);
int32_t range_map_union_unchecked(struct range_map *a, struct range_map *b, struct range_map *out);
int32_t range_map_intersection_unchecked(struct range_map *a, struct range_map *b, struct range_map *out);
int32_t range_map_difference_unchecked(struct range_map *a, struct range_map *b, struct range_map *out);
int32_t range_map_symmetric_difference_unchecked(struct range_map *a, struct range_map *b, struct range_map *out);
int32_t range_map_complement_unchecked(struct range_map *a, uint64_t value, struct range_map *out);
int32_t range_map_split_off_unchecked(struct range_map *a, int64_t key, struct range_map *out);
int32_t range_map_extend_unchecked(struct range_map *a, struct range_map *b);
int32_t range_map_intersect_unchecked(struct range_map *a, struct range_map *b);
int32_t range_map_subtract_unchecked(struct range_map *a, struct range_map *b);
bool range_map_equal_unchecked(struct range_map *a, struct range_map *b);
int32_t range_map_compare_unchecked(struct range_map *a, struct range_map *b);

bool range_table_is_ordered_unchecked(const int64_t *lo, size_t lo_length, const int64_t *hi, size_t hi_length,
                                      const uint64_t *value, size_t value_length);
bool range_table_get_unchecked(const int64_t *lo, size_t lo_length, const int64_t *hi, size_t hi_length, const uint64_t *value,
                               size_t value_length, int64_t key, uint64_t *found);
bool range_table_entry_or_gap_at_unchecked(const int64_t *lo, size_t lo_length, const int64_t *hi, size_t hi_length,
                                           const uint64_t *value, size_t value_length, int64_t key, int64_t *start,
                                           int64_t *end, uint64_t *found);
bool range_table_next_unchecked(const int64_t *lo, size_t lo_length, const int64_t *hi, size_t hi_length, const uint64_t *value,
                                size_t value_length, int64_t key, int64_t *start, int64_t *end, uint64_t *found);
bool range_table_previous_unchecked(const int64_t *lo, size_t lo_length, const int64_t *hi, size_t hi_length,
                                    const uint64_t *value, size_t value_length, int64_t key, int64_t *start, int64_t *end,
                                    uint64_t *found);
void range_table_count_within_unchecked(const int64_t *lo, size_t lo_length, const int64_t *hi, size_t hi_length,
                                        const uint64_t *value, size_t value_length, int64_t first, int64_t last, uint64_t *low,
                                        uint64_t *high);
int32_t range_map_from_table_unchecked(const int64_t *lo, size_t lo_length, const int64_t *hi, size_t hi_length,
                                       const uint64_t *value, size_t value_length, struct range_map *out);

#ifdef __cplusplus
}
#endif

/* ---- Make and free ----
 *
 * uint32_t range_map_version(void)               Returns the RANGE_MAP_VERSION_NUMBER of the library. O(1).
 * void range_map_new(struct range_map *map)      Makes the struct an empty map without freeing what it contained. O(1).
 * void range_map_clear(struct range_map *map)    Removes all keys and frees the map's memory. O(n).
 */

/* Frees the map and leaves the empty map, which may be freed again. Does nothing if `map` is NULL. O(n). */
static inline void range_map_free(struct range_map *map) {
    if (map) range_map_free_unchecked(map);
}

/* Whether both structs are the same map: one struct, or a copy of it. */
static inline bool range_map_is_same(const struct range_map *a, const struct range_map *b) {
    return a == b || (a->at && a->at == b->at);
}

/* ---- Change a map ---- */

/* Sets the value of every key in the range. *changed: whether the number of keys with a value changed. O(log n) for each entry that
 * the range touches. */
static inline int32_t range_map_paint(struct range_map *map, int64_t lo, int64_t hi, uint64_t value, bool *changed) {
    bool is_changed = false;
    int32_t status = range_map_paint_unchecked(map, lo, hi, value, &is_changed);
    if (changed && status == RANGE_MAP_DONE) *changed = is_changed;
    return status;
}

/* Sets the value of every key in the range that has none. *changed: whether there was such a key. O(log n) for each gap in the range
 * and O(1) for each entry. */
static inline int32_t range_map_fill(struct range_map *map, int64_t lo, int64_t hi, uint64_t value, bool *changed) {
    bool is_changed = false;
    int32_t status = range_map_fill_unchecked(map, lo, hi, value, &is_changed);
    if (changed && status == RANGE_MAP_DONE) *changed = is_changed;
    return status;
}

/* int32_t range_map_fill_if_free(struct range_map *map, int64_t lo, int64_t hi, uint64_t value)
 *
 * Sets the value of every key in the range if none of them has a value. Otherwise returns RANGE_MAP_TAKEN and changes nothing.
 * O(log n). */

/* Sets the value of one key. *had: whether the key had a value; *old: that value. O(log n). */
static inline int32_t range_map_insert(struct range_map *map, int64_t key, uint64_t value, bool *had, uint64_t *old) {
    bool found = false;
    uint64_t old_value = 0;
    int32_t status = range_map_insert_unchecked(map, key, value, &found, &old_value);
    if (had && status == RANGE_MAP_DONE) *had = found;
    if (old && found && status == RANGE_MAP_DONE) *old = old_value;
    return status;
}

/* Sets the value of each key in the range that has a value to `op` of that value and `value`. With RANGE_MAP_ALL, a key without a
 * value gets `value`; with RANGE_MAP_MAPPED, it stays without a value. Returns RANGE_MAP_INVALID and changes nothing if `op` or `place`
 * is not one of its constants, also if the range is empty. If an allocation fails, a first part of the entries and gaps in the range is
 * changed, perhaps none. O(log n), O(1) for each entry and each gap in the range, and O(log n) for each of them that changes. */
static inline int32_t range_map_combine(struct range_map *map, int64_t lo, int64_t hi, uint64_t value, enum range_map_op op,
                                        enum range_map_place place) {
    return range_map_combine_unchecked(map, lo, hi, value, op, place);
}

/* Removes every key in the range. *changed: whether one of them had a value. O(log n) for each entry that the range touches. */
static inline int32_t range_map_remove_range(struct range_map *map, int64_t lo, int64_t hi, bool *changed) {
    bool is_changed = false;
    int32_t status = range_map_remove_range_unchecked(map, lo, hi, &is_changed);
    if (changed && status == RANGE_MAP_DONE) *changed = is_changed;
    return status;
}

/* Removes one key. *had: whether the key had a value; *old: that value. O(log n). */
static inline int32_t range_map_remove(struct range_map *map, int64_t key, bool *had, uint64_t *old) {
    bool found = false;
    uint64_t old_value = 0;
    int32_t status = range_map_remove_unchecked(map, key, &found, &old_value);
    if (had && status == RANGE_MAP_DONE) *had = found;
    if (old && found && status == RANGE_MAP_DONE) *old = old_value;
    return status;
}

/* Removes the least key that has a value. *had: whether there was one; *key, *value: that key and its value. O(log n). */
static inline int32_t range_map_pop_first(struct range_map *map, bool *had, int64_t *key, uint64_t *value) {
    bool found = false;
    int64_t first = 0;
    uint64_t old_value = 0;
    int32_t status = range_map_pop_first_unchecked(map, &found, &first, &old_value);
    if (had && status == RANGE_MAP_DONE) *had = found;
    if (key && found && status == RANGE_MAP_DONE) *key = first;
    if (value && found && status == RANGE_MAP_DONE) *value = old_value;
    return status;
}

/* Removes the greatest key that has a value. *had: whether there was one; *key, *value: that key and its value. O(log n). */
static inline int32_t range_map_pop_last(struct range_map *map, bool *had, int64_t *key, uint64_t *value) {
    bool found = false;
    int64_t last = 0;
    uint64_t old_value = 0;
    int32_t status = range_map_pop_last_unchecked(map, &found, &last, &old_value);
    if (had && status == RANGE_MAP_DONE) *had = found;
    if (key && found && status == RANGE_MAP_DONE) *key = last;
    if (value && found && status == RANGE_MAP_DONE) *value = old_value;
    return status;
}

/* ---- Look up. These functions do not allocate. ---- */

/* Whether no key has a value. O(1). */
static inline bool range_map_is_empty(const struct range_map *map) {
    struct range_map handle = *map;
    return range_map_is_empty_unchecked(&handle);
}

/* Whether the key has a value; *value: that value. O(log n). */
static inline bool range_map_get(const struct range_map *map, int64_t key, uint64_t *value) {
    struct range_map handle = *map;
    uint64_t ignored;
    return range_map_get_unchecked(&handle, key, value ? value : &ignored);
}

/* Returns true and writes the entry that contains the key, or returns false and writes the longest range around the key in which no
 * key has a value. *value is written only if the result is true. O(log n). */
static inline bool range_map_entry_or_gap_at(const struct range_map *map, int64_t key, int64_t *lo, int64_t *hi,
                                             uint64_t *value) {
    struct range_map handle = *map;
    int64_t start, end;
    uint64_t found;
    bool is_entry = range_map_entry_or_gap_at_unchecked(&handle, key, &start, &end, &found);
    if (lo) *lo = start;
    if (hi) *hi = end;
    if (value && is_entry) *value = found;
    return is_entry;
}

/* Whether an entry ends at the key or above it; *lo, *hi, *value: the first of those entries. O(log n). To visit many entries, use
 * a range_map_iter. */
static inline bool range_map_next(const struct range_map *map, int64_t key, int64_t *lo, int64_t *hi, uint64_t *value) {
    struct range_map handle = *map;
    int64_t start, end;
    uint64_t found;
    if (!range_map_next_unchecked(&handle, key, &start, &end, &found)) return false;
    if (lo) *lo = start;
    if (hi) *hi = end;
    if (value) *value = found;
    return true;
}

/* Whether an entry starts at the key or below it; *lo, *hi, *value: the last of those entries. O(log n). */
static inline bool range_map_previous(const struct range_map *map, int64_t key, int64_t *lo, int64_t *hi, uint64_t *value) {
    struct range_map handle = *map;
    int64_t start, end;
    uint64_t found;
    if (!range_map_previous_unchecked(&handle, key, &start, &end, &found)) return false;
    if (lo) *lo = start;
    if (hi) *hi = end;
    if (value) *value = found;
    return true;
}

/* Whether a key has a value; *key, *value: the least of those keys, and its value. O(log n). */
static inline bool range_map_first(const struct range_map *map, int64_t *key, uint64_t *value) {
    struct range_map handle = *map;
    int64_t first;
    uint64_t found;
    if (!range_map_first_unchecked(&handle, &first, &found)) return false;
    if (key) *key = first;
    if (value) *value = found;
    return true;
}

/* Whether a key has a value; *key, *value: the greatest of those keys, and its value. O(log n). */
static inline bool range_map_last(const struct range_map *map, int64_t *key, uint64_t *value) {
    struct range_map handle = *map;
    int64_t last;
    uint64_t found;
    if (!range_map_last_unchecked(&handle, &last, &found)) return false;
    if (key) *key = last;
    if (value) *value = found;
    return true;
}

/* Whether a key in the range has a value; false for an empty range. O(log n). */
static inline bool range_map_any(const struct range_map *map, int64_t lo, int64_t hi) {
    struct range_map handle = *map;
    return range_map_any_unchecked(&handle, lo, hi);
}

/* Whether every key in the range has a value; true for an empty range. O(log n), and O(1) for each entry up to the first gap. */
static inline bool range_map_all(const struct range_map *map, int64_t lo, int64_t hi) {
    struct range_map handle = *map;
    return range_map_all_unchecked(&handle, lo, hi);
}

/* Whether there are `length` keys in a row, within from to to, of which none has a value; *lo: the least key that can be their
 * first. A length of 0 finds nothing. O(log n), and O(1) for each entry up to the result. */
static inline bool range_map_find_gap(const struct range_map *map, int64_t from, int64_t to, uint64_t length, int64_t *lo) {
    struct range_map handle = *map;
    int64_t first;
    if (!range_map_find_gap_unchecked(&handle, from, to, length, &first)) return false;
    if (lo) *lo = first;
    return true;
}

/* Whether there are `length` keys in a row, within from to to, of which none has a value; *lo: the greatest key that can be their
 * first. A length of 0 finds nothing. O(log n), and O(1) for each entry down to the result. */
static inline bool range_map_find_last_gap(const struct range_map *map, int64_t from, int64_t to, uint64_t length, int64_t *lo) {
    struct range_map handle = *map;
    int64_t first;
    if (!range_map_find_last_gap_unchecked(&handle, from, to, length, &first)) return false;
    if (lo) *lo = first;
    return true;
}

/* Writes how many keys have a value: *low + 2^64 * *high. *high is 1 if every key has a value, and 0 otherwise. O(1). */
static inline void range_map_count(const struct range_map *map, uint64_t *low, uint64_t *high) {
    struct range_map handle = *map;
    uint64_t ignored_low, ignored_high;
    range_map_count_unchecked(&handle, low ? low : &ignored_low, high ? high : &ignored_high);
}

/* Writes how many keys in the range have a value: *low + 2^64 * *high. O(log n), and O(1) for each entry in the range. */
static inline void range_map_count_within(const struct range_map *map, int64_t lo, int64_t hi, uint64_t *low, uint64_t *high) {
    struct range_map handle = *map;
    uint64_t ignored_low, ignored_high;
    range_map_count_within_unchecked(&handle, lo, hi, low ? low : &ignored_low, high ? high : &ignored_high);
}

/* Returns the number of entries. O(1). */
static inline uint64_t range_map_entries(const struct range_map *map) {
    struct range_map handle = *map;
    return range_map_entries_unchecked(&handle);
}

/* Writes the entries that end at `from` or above it into three arrays, ascending, as many as there is room for, and returns how many
 * it wrote. O(log n), and O(1) for each entry. The arrays must not be NULL, unless `room` is 0. */
static inline uint64_t range_map_entries_into(const struct range_map *map, int64_t from, int64_t *lo, int64_t *hi,
                                              uint64_t *value, size_t room) {
    struct range_map handle = *map;
    return room ? range_map_entries_into_unchecked(&handle, from, lo, room, hi, room, value, room) : 0;
}

/* Writes the entries that start at `from` or below it into three arrays, descending, as many as there is room for, and returns how
 * many it wrote. O(log n), and O(1) for each entry. The arrays must not be NULL, unless `room` is 0. */
static inline uint64_t range_map_entries_back_into(const struct range_map *map, int64_t from, int64_t *lo, int64_t *hi,
                                                   uint64_t *value, size_t room) {
    struct range_map handle = *map;
    return room ? range_map_entries_back_into_unchecked(&handle, from, lo, room, hi, room, value, room) : 0;
}

/* ---- Visit the entries one by one. Do not change or free the map during a walk. Nothing has to be freed after it. ---- */

enum { RANGE_MAP_ITER_ROOM = 32 };

struct range_map_iter {
    const struct range_map *map;
    int64_t from;             /* where the next rows are looked up */
    uint64_t position, count; /* rows returned, and rows read */
    bool is_back, is_last;    /* whether the walk descends, and whether the map has no more rows */
    int64_t lo[RANGE_MAP_ITER_ROOM], hi[RANGE_MAP_ITER_ROOM];
    uint64_t value[RANGE_MAP_ITER_ROOM];
};

/* Starts a walk, ascending, at the first entry that ends at the key or above it. */
static inline void range_map_iter_from(struct range_map_iter *iter, const struct range_map *map, int64_t key) {
    iter->map = map;
    iter->from = key;
    iter->position = iter->count = 0;
    iter->is_back = iter->is_last = false;
}

/* Starts a walk, descending, at the last entry that starts at the key or below it. */
static inline void range_map_iter_back_from(struct range_map_iter *iter, const struct range_map *map, int64_t key) {
    range_map_iter_from(iter, map, key);
    iter->is_back = true;
}

/* Reads the next rows of a walk, and returns whether there are any. For range_map_iter_next alone. */
static inline bool range_map_iter_read(struct range_map_iter *iter) {
    const size_t last = RANGE_MAP_ITER_ROOM - 1;
    if (iter->is_last) return false;
    iter->position = 0;
    if (iter->is_back) {
        iter->count = range_map_entries_back_into(iter->map, iter->from, iter->lo, iter->hi, iter->value, last + 1);
        iter->is_last = iter->count <= last || iter->lo[last] == INT64_MIN;
        if (!iter->is_last) iter->from = iter->lo[last] - 1;
    } else {
        iter->count = range_map_entries_into(iter->map, iter->from, iter->lo, iter->hi, iter->value, last + 1);
        iter->is_last = iter->count <= last || iter->hi[last] == INT64_MAX;
        if (!iter->is_last) iter->from = iter->hi[last] + 1;
    }
    return iter->count != 0;
}

/* Whether there is another entry; *lo, *hi, *value: that entry. O(1), and O(log n) for each 32 entries. */
static inline bool range_map_iter_next(struct range_map_iter *iter, int64_t *lo, int64_t *hi, uint64_t *value) {
    if (iter->position == iter->count && !range_map_iter_read(iter)) return false;
    if (lo) *lo = iter->lo[iter->position];
    if (hi) *hi = iter->hi[iter->position];
    if (value) *value = iter->value[iter->position];
    iter->position++;
    return true;
}

/* ---- New maps. If the status is RANGE_MAP_DONE, the result replaces what *out contained, which is freed. ---- */

/* Replaces *out by the empty map. For the wrappers below alone. */
static inline int32_t range_map_give_empty(struct range_map *out) {
    range_map_clear(out);
    return RANGE_MAP_DONE;
}

/* A copy of the map. O(n). */
static inline int32_t range_map_copy(const struct range_map *map, struct range_map *out) {
    struct range_map handle = *map;
    return range_map_is_same(map, out) ? RANGE_MAP_SAME_MAP : range_map_copy_unchecked(&handle, out);
}

/* The keys of both maps, with the value of b where both have one. O(n + m), or O(m log n) if m is at most n / 16, and a copy. */
static inline int32_t range_map_union(const struct range_map *a, const struct range_map *b, struct range_map *out) {
    struct range_map left = *a, right = *b;
    if (range_map_is_same(a, out) || range_map_is_same(b, out)) return RANGE_MAP_SAME_MAP;
    return range_map_is_same(a, b) ? range_map_copy(a, out) : range_map_union_unchecked(&left, &right, out);
}

/* The keys that have a value in both maps, with the value of b. O(n + m) at most. */
static inline int32_t range_map_intersection(const struct range_map *a, const struct range_map *b, struct range_map *out) {
    struct range_map left = *a, right = *b;
    if (range_map_is_same(a, out) || range_map_is_same(b, out)) return RANGE_MAP_SAME_MAP;
    return range_map_is_same(a, b) ? range_map_copy(a, out) : range_map_intersection_unchecked(&left, &right, out);
}

/* The keys of a that have no value in b, with their values. O(n + m) at most. */
static inline int32_t range_map_difference(const struct range_map *a, const struct range_map *b, struct range_map *out) {
    struct range_map left = *a, right = *b;
    if (range_map_is_same(a, out) || range_map_is_same(b, out)) return RANGE_MAP_SAME_MAP;
    return range_map_is_same(a, b) ? range_map_give_empty(out) : range_map_difference_unchecked(&left, &right, out);
}

/* The keys that have a value in exactly one of the maps, with that value. O(n + m) at most. */
static inline int32_t range_map_symmetric_difference(const struct range_map *a, const struct range_map *b,
                                                     struct range_map *out) {
    struct range_map left = *a, right = *b;
    if (range_map_is_same(a, out) || range_map_is_same(b, out)) return RANGE_MAP_SAME_MAP;
    return range_map_is_same(a, b) ? range_map_give_empty(out) : range_map_symmetric_difference_unchecked(&left, &right, out);
}

/* Every key that has no value in a, with the one value. O(n). */
static inline int32_t range_map_complement(const struct range_map *a, uint64_t value, struct range_map *out) {
    struct range_map handle = *a;
    return range_map_is_same(a, out) ? RANGE_MAP_SAME_MAP : range_map_complement_unchecked(&handle, value, out);
}

/* Moves the keys from `key` on to *out, and leaves the keys below it in a. O(log n), and O(1) for each entry of the smaller part. */
static inline int32_t range_map_split_off(struct range_map *a, int64_t key, struct range_map *out) {
    return range_map_is_same(a, out) ? RANGE_MAP_SAME_MAP : range_map_split_off_unchecked(a, key, out);
}

/* The union of n maps in an array: where several have a value, that of the last. O(s log n) for s entries in all. */
static inline int32_t range_map_union_many(const struct range_map *maps, size_t n, struct range_map *out) {
    struct range_map left = {NULL}, right = {NULL};
    int32_t status;
    for (size_t i = 0; i < n; i++) {
        if (range_map_is_same(&maps[i], out)) return RANGE_MAP_SAME_MAP;
    }
    if (n == 0) return range_map_give_empty(out);
    if (n == 1) return range_map_copy(maps, out);
    if (n == 2) return range_map_union(&maps[0], &maps[1], out);
    status = range_map_union_many(maps, n / 2, &left);
    if (status == RANGE_MAP_DONE) status = range_map_union_many(maps + n / 2, n - n / 2, &right);
    if (status == RANGE_MAP_DONE) status = range_map_union(&left, &right, out);
    range_map_free(&left);
    range_map_free(&right);
    return status;
}

/* ---- Two maps ---- */

/* Paints the entries of b into a, ascending. If an allocation fails, a first part of them is painted, perhaps none. O(n + m), or
 * O(m log n) if m is at most n / 16. */
static inline int32_t range_map_extend(struct range_map *a, const struct range_map *b) {
    struct range_map right = *b;
    return range_map_is_same(a, b) ? RANGE_MAP_SAME_MAP : range_map_extend_unchecked(a, &right);
}

/* Keeps the keys of a that have a value in b, with the value of b. If an allocation fails, a is unchanged. O(n + m) at most. */
static inline int32_t range_map_intersect(struct range_map *a, const struct range_map *b) {
    struct range_map right = *b;
    return range_map_is_same(a, b) ? RANGE_MAP_SAME_MAP : range_map_intersect_unchecked(a, &right);
}

/* Removes the keys of b from a. If an allocation fails, a is unchanged. O(n + m) at most. */
static inline int32_t range_map_subtract(struct range_map *a, const struct range_map *b) {
    struct range_map right = *b;
    return range_map_is_same(a, b) ? RANGE_MAP_SAME_MAP : range_map_subtract_unchecked(a, &right);
}

/* Whether the same keys have the same values. O(n), or O(1) if the numbers of entries differ. */
static inline bool range_map_equal(const struct range_map *a, const struct range_map *b) {
    struct range_map left = *a, right = *b;
    return range_map_is_same(a, b) || range_map_equal_unchecked(&left, &right);
}

/* Returns -1, 0 or 1 if a is less than, equal to or greater than b. Maps are ordered as their lists of (key, value) pairs: by key,
 * then by value, and a list is greater than each of its prefixes. O(n + m). */
static inline int32_t range_map_compare(const struct range_map *a, const struct range_map *b) {
    struct range_map left = *a, right = *b;
    return range_map_is_same(a, b) ? 0 : range_map_compare_unchecked(&left, &right);
}

/* ---- Many ranges in one call ---- */

/* Paints `length` ranges in order, lo[i] to hi[i] with value[i]. If an allocation fails, a first part of them is painted, perhaps
 * none. O(n + k log k) for k ranges, O(n + k) if they ascend, or O(k log n) if k is at most n / 16. */
static inline int32_t range_map_paint_many(struct range_map *map, const int64_t *lo, const int64_t *hi, const uint64_t *value,
                                           size_t length) {
    return length ? range_map_paint_many_unchecked(map, lo, length, hi, length, value, length) : RANGE_MAP_DONE;
}

/* ---- Tables in your own arrays: they need no memory of the library, and any number of threads may read them. Every function but
 * range_table_is_ordered requires a table whose rows are in order. ---- */

/* Whether the rows are in order: each range has a key, and starts above the end of the range before it. Call it once for a table
 * that comes from a file. O(length). */
static inline bool range_table_is_ordered(const struct range_table *table) {
    size_t n = table->length;
    return !n || range_table_is_ordered_unchecked(table->lo, n, table->hi, n, table->value, n);
}

/* Whether the key has a value; *value: that value. O(log length). */
static inline bool range_table_get(const struct range_table *table, int64_t key, uint64_t *value) {
    size_t n = table->length;
    uint64_t ignored;
    return n && range_table_get_unchecked(table->lo, n, table->hi, n, table->value, n, key, value ? value : &ignored);
}

/* Returns true and writes the row that contains the key, or returns false and writes the longest range around the key in which no
 * key has a value. *value is written only if the result is true. O(log length). */
static inline bool range_table_entry_or_gap_at(const struct range_table *table, int64_t key, int64_t *lo, int64_t *hi,
                                               uint64_t *value) {
    size_t n = table->length;
    int64_t start = INT64_MIN, end = INT64_MAX;
    uint64_t found = 0;
    bool is_row = n && range_table_entry_or_gap_at_unchecked(table->lo, n, table->hi, n, table->value, n, key, &start, &end, &found);
    if (lo) *lo = start;
    if (hi) *hi = end;
    if (value && is_row) *value = found;
    return is_row;
}

/* Whether a row ends at the key or above it; *lo, *hi, *value: the first of those rows. O(log length). */
static inline bool range_table_next(const struct range_table *table, int64_t key, int64_t *lo, int64_t *hi, uint64_t *value) {
    size_t n = table->length;
    int64_t start, end;
    uint64_t found;
    if (!n || !range_table_next_unchecked(table->lo, n, table->hi, n, table->value, n, key, &start, &end, &found)) return false;
    if (lo) *lo = start;
    if (hi) *hi = end;
    if (value) *value = found;
    return true;
}

/* Whether a row starts at the key or below it; *lo, *hi, *value: the last of those rows. O(log length). */
static inline bool range_table_previous(const struct range_table *table, int64_t key, int64_t *lo, int64_t *hi, uint64_t *value) {
    size_t n = table->length;
    int64_t start, end;
    uint64_t found;
    if (!n || !range_table_previous_unchecked(table->lo, n, table->hi, n, table->value, n, key, &start, &end, &found)) return false;
    if (lo) *lo = start;
    if (hi) *hi = end;
    if (value) *value = found;
    return true;
}

/* Writes how many keys in the range have a value: *low + 2^64 * *high. O(log length), and O(1) for each row in the range. */
static inline void range_table_count_within(const struct range_table *table, int64_t lo, int64_t hi, uint64_t *low,
                                            uint64_t *high) {
    size_t n = table->length;
    uint64_t count_low = 0, count_high = 0;
    if (n) range_table_count_within_unchecked(table->lo, n, table->hi, n, table->value, n, lo, hi, &count_low, &count_high);
    if (low) *low = count_low;
    if (high) *high = count_high;
}

/* Writes all entries of the map into your arrays and makes *table the table of them: this is how a map is saved. Returns
 * RANGE_MAP_NO_ROOM if the map has more than `room` entries. Does not allocate. O(n). */
static inline int32_t range_map_to_table(const struct range_map *map, int64_t *lo, int64_t *hi, uint64_t *value, size_t room,
                                         struct range_table *table) {
    if (range_map_entries(map) > room) return RANGE_MAP_NO_ROOM;
    table->length = range_map_entries_into(map, INT64_MIN, lo, hi, value, room);
    table->lo = lo;
    table->hi = hi;
    table->value = value;
    return RANGE_MAP_DONE;
}

/* Replaces *out by the map of a table: this is how a map is loaded. Returns RANGE_MAP_NOT_ORDERED if the rows are not in order. If
 * the status is not RANGE_MAP_DONE, *out is unchanged. O(length). */
static inline int32_t range_map_from_table(const struct range_table *table, struct range_map *out) {
    size_t n = table->length;
    return n ? range_map_from_table_unchecked(table->lo, n, table->hi, n, table->value, n, out) : range_map_give_empty(out);
}

#endif
