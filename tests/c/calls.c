/* Tests every function of bindings/range_map.h:
 * - failing.c: each call that allocates, with each of its allocations failing in turn;
 * - lookups.c: the calls that do not allocate;
 * - results.c: what each call leaves and returns;
 * - unchanged.c: calls that change nothing, and so make no request;
 * - arguments.c: NULL for each result, a map that is passed twice, empty arrays, the least and greatest keys, and invalid operations.
 * The program is linked with --wrap of malloc, realloc, free and range_map_new. An argument is the greatest number of entries of a map.
 * The last line is 'N passed, M failed'. The files are C99 and C++. */
#include <stdio.h>
#include <stdlib.h>

#include "allocation.h"
#include "maps.h"

int main(int argc, char **argv) {
    /* With 14, 15 and 23 entries, some call inserts into a full node of the tree. */
    static const long sizes[] = {0, 1, 2, 5, 14, 15, 23, 40, 200};
    enum { SIZES = sizeof sizes / sizeof sizes[0] };
    long most = argc > 1 ? atol(argv[1]) : 200;
    blocks = 0;
    test_failing_allocations(sizes, SIZES, most);
    for (size_t at = 0; at < SIZES && sizes[at] <= most; at++) test_lookups(sizes[at]);
    test_results();
    test_unchanged();
    test_arguments();
    printf("%ld passed, %ld failed\n", passed, failed);
    return failed != 0;
}
