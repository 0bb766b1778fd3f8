/* A clock by which 40 ms pass at each look, and a tenth of the time that passes: preloaded, it makes `bench times` and `rust_side times` run each row
 * five times and no more, and a row of which a run takes 5 s once.
 *
 *     gcc -shared -fPIC -O2 clock.c -o clock.so; LD_PRELOAD=./clock.so PROGRAM times */
#define _GNU_SOURCE
#include <sys/syscall.h>
#include <time.h>
#include <unistd.h>

int clock_gettime(clockid_t clock, struct timespec *t) {
    static long looks, begun;
    struct timespec now;
    (void)clock;
    syscall(SYS_clock_gettime, CLOCK_MONOTONIC, &now);
    if (!looks++) begun = now.tv_sec;
    long ms = looks * 40 + (now.tv_sec - begun) * 100;
    t->tv_sec = ms / 1000;
    t->tv_nsec = ms % 1000 * 1000000;
    return 0;
}
