/* Refuses one allocation: that of the number in REFUSE, counted from 1. At the end the count goes to the file that COUNT names. */
#define _GNU_SOURCE
#include <errno.h>
#include <stdio.h>
#include <stdlib.h>
#include <string.h>

extern void *__libc_malloc(size_t);
extern void *__libc_calloc(size_t, size_t);
extern void *__libc_realloc(void *, size_t);
extern void *__libc_memalign(size_t, size_t);

static unsigned long count, refused;

static int refuses(void) {
    return ++count == refused;
}

__attribute__((constructor)) static void begin(void) {
    const char *text = getenv("REFUSE");
    count = 0;
    refused = text ? strtoul(text, NULL, 10) : 0;
}

__attribute__((destructor)) static void end(void) {
    const char *path = getenv("COUNT");
    unsigned long told = count;
    FILE *file = path ? fopen(path, "w") : NULL;
    if (file) {
        fprintf(file, "%lu\n", told);
        fclose(file);
    }
}

void *malloc(size_t size) {
    return refuses() ? NULL : __libc_malloc(size);
}

void *calloc(size_t n, size_t size) {
    return refuses() ? NULL : __libc_calloc(n, size);
}

void *realloc(void *old, size_t size) {
    return refuses() ? NULL : __libc_realloc(old, size);
}

void *aligned_alloc(size_t align, size_t size) {
    return refuses() ? NULL : __libc_memalign(align, size);
}

int posix_memalign(void **out, size_t align, size_t size) {
    void *made = refuses() ? NULL : __libc_memalign(align, size);
    if (!made) return ENOMEM;
    *out = made;
    return 0;
}
