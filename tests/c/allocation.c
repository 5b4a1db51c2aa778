#include "allocation.h"

#include <stdbool.h>
#include <stddef.h>

#ifdef __cplusplus
extern "C" {
#endif
void *__real_malloc(size_t size);
void *__real_realloc(void *old, size_t size);
void __real_free(void *block);
void *__wrap_malloc(size_t size);
void *__wrap_realloc(void *old, size_t size);
void __wrap_free(void *block);
#ifdef __cplusplus
}
#endif

long requests, failing_request, blocks;

static bool fails(void) { return ++requests == failing_request; }

void *__wrap_malloc(size_t size) {
    void *block = fails() ? NULL : __real_malloc(size);
    if (block) blocks++;
    return block;
}

void *__wrap_realloc(void *old, size_t size) {
    void *block = fails() ? NULL : __real_realloc(old, size);
    if (block && !old) blocks++;
    return block;
}

void __wrap_free(void *block) {
    if (block) blocks--;
    __real_free(block);
}
