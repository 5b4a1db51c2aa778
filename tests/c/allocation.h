/* The allocations of a program that is linked with --wrap of malloc, realloc and free. They are counted, and one of them can fail. */
#ifndef ALLOCATION_H
#define ALLOCATION_H

extern long requests;        /* calls of malloc and realloc so far */
extern long failing_request; /* the number of the request that fails, or 0 if none does */
extern long blocks;          /* blocks that are not freed */

#endif
