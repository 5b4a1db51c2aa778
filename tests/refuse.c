/* Loaded before a program, this refuses one request for memory of those that the program makes between the lines
   "begin" and "end" of its standard error, or with REFUSE_ALL of all: the REFUSE_NTH-th, from 1; with 0 none. With
   REFUSE_TELL it says at the end how many requests there were, and behind which "begin", from 1, one was refused. */
#define _GNU_SOURCE
#include <errno.h>
#include <stdio.h>
#include <stdlib.h>
#include <string.h>
#include <sys/syscall.h>
#include <unistd.h>

extern void *__libc_malloc(size_t);
extern void *__libc_realloc(void *, size_t);

static long nth = 0, count = 0, begins = 0, refused_in = 0;
static int is_between = 0;

static int refuses(void) {
    if (!is_between) return 0;
    count++;
    if (count != nth) return 0;
    refused_in = begins;
    errno = ENOMEM;
    return 1;
}

void *malloc(size_t size) { return refuses() ? NULL : __libc_malloc(size); }
void *realloc(void *old, size_t size) { return refuses() ? NULL : __libc_realloc(old, size); }

static void begin(void) {
    const char *asked = getenv("REFUSE_NTH");
    nth = asked ? atol(asked) : 0;
    is_between = 1;
    begins++;
}

__attribute__((constructor)) static void start(void) {
    if (getenv("REFUSE_ALL")) begin();
}

static ssize_t written(int file, const void *text, size_t size) {
    if (file == 2 && size >= 6 && !memcmp(text, "begin\n", 6)) {
        begin();
    } else if (file == 2 && size >= 4 && !memcmp(text, "end\n", 4)) {
        is_between = 0;
    }
    return syscall(SYS_write, file, text, size);
}

ssize_t write(int file, const void *text, size_t size) { return written(file, text, size); }
ssize_t __write(int file, const void *text, size_t size) { return written(file, text, size); }

__attribute__((destructor)) static void tell(void) {
    char text[80];
    if (!getenv("REFUSE_TELL")) return;
    int size = snprintf(text, sizeof text, "requests=%ld\nrefused in call %ld\n", count, refused_in);
    syscall(SYS_write, 2, text, size);
}
