/* Loaded before Python, this refuses one request for memory of those that the module range_map makes itself or by the C library
 * in it: refuse_from(n) refuses the n-th request after the call, or with is_lasting that one and all later ones; 0 refuses none.
 * refuse_count() returns how many requests there were since. Requests of other code are told by their return address. */
#define _GNU_SOURCE
#include <link.h>
#include <stdint.h>
#include <stdlib.h>
#include <string.h>

extern void *__libc_malloc(size_t);
extern void *__libc_calloc(size_t, size_t);
extern void *__libc_realloc(void *, size_t);

static uintptr_t start, end;
static long nth, count;
static int is_lasting;

static int find(struct dl_phdr_info *info, size_t size, void *ignored) {
    (void)size, (void)ignored;
    if (!strstr(info->dlpi_name, "range_map/__init__")) return 0;
    for (int i = 0; i < info->dlpi_phnum; i++) {
        if (info->dlpi_phdr[i].p_type == PT_LOAD && info->dlpi_phdr[i].p_flags & PF_X) {
            start = info->dlpi_addr + info->dlpi_phdr[i].p_vaddr;
            end = start + info->dlpi_phdr[i].p_memsz;
        }
    }
    return 1;
}

void refuse_from(long request, int lasting) {
    if (!start) dl_iterate_phdr(find, NULL);
    nth = request;
    is_lasting = lasting;
    count = 0;
}

long refuse_count(void) { return start ? count : -1; }

static int refuses(void *caller) {
    if ((uintptr_t)caller < start || (uintptr_t)caller >= end) return 0;
    count++;
    return nth && (count == nth || (is_lasting && count > nth));
}

void *malloc(size_t size) { return refuses(__builtin_return_address(0)) ? NULL : __libc_malloc(size); }
void *calloc(size_t n, size_t size) { return refuses(__builtin_return_address(0)) ? NULL : __libc_calloc(n, size); }
void *realloc(void *old, size_t size) { return refuses(__builtin_return_address(0)) ? NULL : __libc_realloc(old, size); }
