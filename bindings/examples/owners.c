/* Merges two tables of address blocks and prints the blocks that changed hands: `owners OLD NEW`.
 *
 * A line of a table is `ADDRESS/LENGTH OWNER`, and a later line wins. Lines end with LF or CRLF; a line that starts with # is skipped.
 * Any other line is an error, also a block with host bits set (10.0.0.1/8), a blank before the address, and a second blank before
 * the owner. */
#include <inttypes.h>
#include <stdio.h>
#include <stdlib.h>
#include <string.h>

#include "range_map.h"

enum { MOST_OWNERS = 1000, LONGEST_LINE = 200 };

static char owners[MOST_OWNERS][LONGEST_LINE];
static size_t owner_count;

static void fail(const char *what) {
    fprintf(stderr, "owners: %s\n", what);
    exit(1);
}

static void check(int32_t status) {
    if (status != RANGE_MAP_DONE) fail("out of memory");
}

/* The number of an owner: equal names have equal numbers. */
static uint64_t owner_of(const char *name) {
    size_t at = 0;
    while (at < owner_count && strcmp(owners[at], name) != 0) at++;
    if (at == MOST_OWNERS) fail("too many owners");
    if (at == owner_count) strcpy(owners[owner_count++], name);
    return at;
}

/* Reads a number without a leading zero, up to `most`, and the character behind it. Returns the text behind both, or NULL. */
static const char *read_number(const char *text, int64_t most, char behind, int64_t *number) {
    const char *end = text;
    *number = 0;
    while (*end >= '0' && *end <= '9' && end - text < 3) *number = 10 * *number + (*end++ - '0');
    if (end == text || (*text == '0' && end - text > 1) || *number > most || *end != behind) return NULL;
    return end + 1;
}

/* Reads a block and paints it. Returns whether the line is valid. */
static bool read_line(char *line, struct range_map *table) {
    static const char behind[4] = {'.', '.', '.', '/'};
    const char *text = line;
    int64_t first = 0, part, length, count;
    for (size_t i = 0; i < 4; i++) {
        if (!(text = read_number(text, 255, behind[i], &part))) return false;
        first = first << 8 | part;
    }
    if (!(text = read_number(text, 32, ' ', &length))) return false;
    count = INT64_C(1) << (32 - length);
    if (first % count != 0 || *text == '\0' || *text == ' ') return false;
    check(range_map_paint(table, first, first + count - 1, owner_of(text), NULL));
    return true;
}

static void read_table(const char *path, struct range_map *table) {
    char line[LONGEST_LINE];
    FILE *file = fopen(path, "r");
    if (!file) fail("a file cannot be read");
    for (long number = 1; fgets(line, sizeof line, file); number++) {
        size_t length = strcspn(line, "\n");
        bool is_whole = line[length] == '\n' || feof(file);
        line[length] = '\0';
        if (length && line[length - 1] == '\r') line[length - 1] = '\0';
        if (line[0] == '#' && is_whole) continue;
        if (!is_whole || !read_line(line, table)) {
            fprintf(stderr, "owners: line %ld: invalid\n", number);
            exit(1);
        }
    }
    if (ferror(file)) fail("a file cannot be read"); /* a folder, too, is opened */
    fclose(file);
}

static void print_address(int64_t address) {
    printf("%d.%d.%d.%d", (int)(address >> 24), (int)(address >> 16 & 255), (int)(address >> 8 & 255), (int)(address & 255));
}

static uint64_t key_count(const struct range_map *map) {
    uint64_t count;
    range_map_count(map, &count, NULL);
    return count;
}

/* Prints the part of each entry of the new table that lies in an entry of the old one with another owner. */
static void print_moved(const struct range_map *old_table, const struct range_map *merged, struct range_map *moved) {
    struct range_map_iter old_rows, new_rows;
    int64_t start, end, lo, hi;
    uint64_t before, after;
    range_map_iter_from(&old_rows, old_table, INT64_MIN);
    while (range_map_iter_next(&old_rows, &start, &end, &before)) {
        range_map_iter_from(&new_rows, merged, start);
        while (range_map_iter_next(&new_rows, &lo, &hi, &after) && lo <= end) {
            if (before == after) continue;
            if (lo < start) lo = start;
            if (hi > end) hi = end;
            print_address(lo);
            printf(" to ");
            print_address(hi);
            printf(": %s, then %s\n", owners[before], owners[after]);
            check(range_map_paint(moved, lo, hi, 1, NULL));
        }
    }
}

int main(int argc, char **argv) {
    struct range_map old_table = {0}, new_table = {0}, merged = {0}, moved = {0};
    if (argc != 3) fail("usage: owners OLD NEW");
    read_table(argv[1], &old_table);
    read_table(argv[2], &new_table);
    check(range_map_union(&old_table, &new_table, &merged));
    printf("merged: %" PRIu64 " ranges, %" PRIu64 " addresses\n", range_map_entries(&merged), key_count(&merged));
    print_moved(&old_table, &merged, &moved);
    printf("changed hands: %" PRIu64 " addresses\n", key_count(&moved));
    range_map_free(&old_table);
    range_map_free(&new_table);
    range_map_free(&merged);
    range_map_free(&moved);
    if (ferror(stdout) || fclose(stdout) != 0) fail("the output cannot be written");
    return 0;
}
