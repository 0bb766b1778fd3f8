/* Counts what holds and what does not, and has memory refused. */
#ifndef CHECK_H
#define CHECK_H

#include "sctpr.h"
#include <stdio.h>
#include <string.h>

/* How many more allocations are granted; below 0: each. */
extern long granted;
/* How many blocks are held. */
extern long held;
/* How many bytes of heap they take. */
extern size_t in_use;

static unsigned passed, failed;

#define CHECK(what) \
    do { \
        if (what) { \
            passed++; \
        } else { \
            failed++; \
            printf("%s:%d: not so: %s\n", __FILE__, __LINE__, #what); \
        } \
    } while (0)

/* Makes the call again and again with none, one, two allocations granted and so on, until it is not refused memory. Whenever it is,
 * `unchanged` has to hold. No block is held after it. */
#define REFUSE_EACH(call, wanted, unchanged) \
    do { \
        sctpr_code code; \
        long times = 0; \
        for (;; times++) { \
            granted = times; \
            code = (call); \
            granted = -1; \
            if (code != SCTPR_NO_MEMORY) break; \
            CHECK(unchanged); \
            CHECK(held == 0); \
        } \
        CHECK(times > 0); \
        CHECK(code == (wanted)); \
        CHECK(held == 0); \
    } while (0)

/* Makes the call again and again with none, one, two allocations granted and so on, until it is not refused memory; `unchanged` has to
 * hold whenever it is. Blocks may be held. */
#define TRY(call, wanted, unchanged) \
    do { \
        sctpr_code code; \
        long times = 0; \
        for (;; times++) { \
            granted = times; \
            code = (call); \
            granted = -1; \
            if (code != SCTPR_NO_MEMORY) break; \
            CHECK(unchanged); \
        } \
        CHECK(code == (wanted)); \
    } while (0)

/* Makes the call where no allocation is granted. */
#define WITHOUT_MEMORY(call, wanted) \
    do { \
        granted = 0; \
        CHECK((call) == (wanted)); \
        granted = -1; \
    } while (0)

/* The last line of a test, and its status. */
static int report(const char *name) {
    printf("%s: %u passed, %u failed\n", name, passed, failed);
    return failed != 0;
}

#endif
