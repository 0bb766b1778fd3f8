/* Counts the heap that a program holds: preloaded, it writes to standard error, at each SIGUSR1, the bytes of the blocks that are live, as
 * malloc_usable_size has them, and their number. With HEAP_AT_LINES in the environment it does so after each write to standard output too.
 *
 *     gcc -shared -fPIC -O2 heap_count.c -o heap_count.so; LD_PRELOAD=./heap_count.so PROGRAM */
#define _GNU_SOURCE
#include <dlfcn.h>
#include <malloc.h>
#include <signal.h>
#include <stdio.h>
#include <stdlib.h>
#include <sys/syscall.h>
#include <unistd.h>

static long bytes, blocks;

static void *came(void *p) {
    if (p) {
        bytes += (long)malloc_usable_size(p);
        blocks++;
    }
    return p;
}

static void goes(void *p) {
    if (p) {
        bytes -= (long)malloc_usable_size(p);
        blocks--;
    }
}

/* glibc's own, under the names that it exports beside the usual ones. */
extern void *__libc_malloc(size_t), *__libc_calloc(size_t, size_t), *__libc_realloc(void *, size_t), *__libc_memalign(size_t, size_t);
extern void __libc_free(void *);

void *malloc(size_t n) { return came(__libc_malloc(n)); }
void *calloc(size_t n, size_t m) { return came(__libc_calloc(n, m)); }
void *aligned_alloc(size_t a, size_t n) { return came(__libc_memalign(a, n)); }
int posix_memalign(void **to, size_t a, size_t n) { return (*to = came(__libc_memalign(a, n))) ? 0 : 12; }

void free(void *p) {
    goes(p);
    __libc_free(p);
}

void *realloc(void *p, size_t n) {
    size_t was = p ? malloc_usable_size(p) : 0;
    void *q = __libc_realloc(p, n);
    if (!q) return q;
    if (p) {
        bytes -= (long)was;
        blocks--;
    }
    return came(q);
}

static void tell(int number) {
    char text[64];
    int n = snprintf(text, sizeof text, "%ld %ld\n", bytes, blocks);
    (void)number;
    if (write(2, text, (size_t)n) < 0) _exit(3);
}

ssize_t write(int file, const void *from, size_t n) {
    ssize_t wrote = syscall(SYS_write, file, from, n);
    if (file == 1 && getenv("HEAP_AT_LINES")) tell(0);
    return wrote;
}

__attribute__((constructor)) static void begin(void) {
    struct sigaction action = { .sa_handler = tell, .sa_flags = SA_RESTART };
    sigaction(SIGUSR1, &action, NULL);
}
