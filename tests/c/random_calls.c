/* Random calls on maps, compared with a model after each call:
 * - model.c: the model;
 * - change.c: the calls that change a map;
 * - check.c: the lookups;
 * - quiet.c: calls that change nothing, and so make no request.
 * In a third of the calls one allocation fails. Then the maps must be unchanged, or a first part of the input or of the range changed
 * if the header says so. Arguments: the number of calls, and a seed. The program is linked with --wrap of malloc, realloc and free.
 * The last line is 'N passed, M failed'. */
#include <stdio.h>
#include <stdlib.h>

#include "allocation.h"
#include "model.h"

static struct change draw_change(void) {
    struct change c;
    c.map = (int)draw(MAPS);
    c.other = (int)draw(MAPS);
    c.another = (int)draw(MAPS);
    c.i = (int)draw(ATOMS);
    c.j = (int)draw(ATOMS);
    if (c.i > c.j && draw(8)) { /* else the range is empty */
        int swap = c.i;
        c.i = c.j;
        c.j = swap;
    }
    if (draw(2) && c.j > c.i + 6) c.j = c.i + (int)draw(6);
    c.value = draw(3);
    return c;
}

int main(int count, char **arguments) {
    long steps = count > 1 ? atol(arguments[1]) : 300000;
    if (count > 2) seed((uint64_t)atol(arguments[2]));
    make_atoms();
    for (step = 0; step < steps; step++) {
        struct change change = draw_change();
        int32_t status;
        requests = 0;
        failing_request = draw(3) ? 0 : 1 + (long)draw(4);
        status = make_call(&change);
        judge(status == RANGE_MAP_DONE || (status == RANGE_MAP_NO_MEMORY && failing_request), "status");
        failing_request = 0;
        check(change.map);
        check(change.other);
        check_unchanged(&change);
    }
    for (int map = 0; map < MAPS; map++) {
        range_map_free(&maps[map]);
        range_map_free(&maps[map]);
    }
    judge(blocks == 0, "memory that is not freed");
    judge(range_map_version() == RANGE_MAP_VERSION_NUMBER, "version");
    printf("%ld passed, %ld failed\n", passed, failed);
    return failed != 0;
}
