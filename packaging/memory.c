/* The three memory calls that the library asks for, over malloc. They stand in an object of their own in the archive that is installed, so
 * that a program that defines all three itself is linked with its own. */
#include <stdbool.h>
#include <stddef.h>
#include <stdlib.h>

struct tried {
    bool ok;
    void *block;
};

struct tried rattle_alloc(size_t size, size_t align);
struct tried rattle_realloc(void *block, size_t kept, size_t size, size_t align);
void rattle_dealloc(void *block);

/* What a refusal's block leads to. */
static char nothing;

static struct tried answer(void *block) {
    struct tried t = { block != NULL, block != NULL ? block : &nothing };
    return t;
}

/* malloc aligns for any type, which is 16 or more; none of no bytes, which it may answer by NULL. */
struct tried rattle_alloc(size_t size, size_t align) { return answer(malloc(size > 0 ? size : align)); }

struct tried rattle_realloc(void *block, size_t kept, size_t size, size_t align) {
    (void)kept;
    return answer(realloc(block, size > 0 ? size : align));
}

void rattle_dealloc(void *block) { free(block); }
