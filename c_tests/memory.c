/* The memory calls that the library asks for, over malloc: they count, and refuse when they are told to. */
#include <malloc.h>
#include <stdbool.h>
#include <stddef.h>
#include <stdlib.h>

struct tried {
    bool ok;
    void *block;
};

long granted = -1;
long held;
size_t in_use;

static char none;

/* What a block takes of glibc's heap: its size and 8 bytes, up to a multiple of 16, at least 32. */
static size_t taken_by(void *block) {
    size_t size = (malloc_usable_size(block) + 8 + 15) / 16 * 16;
    return size < 32 ? 32 : size;
}

static bool refuses(void) {
    if (granted == 0) return true;
    if (granted > 0) granted--;
    return false;
}

struct tried rattle_alloc(size_t size, size_t align) {
    struct tried refused = { false, &none }, block = { true, NULL };
    if (refuses()) return refused;
    block.block = malloc(size ? size : align);
    if (!block.block) return refused;
    held++;
    in_use += taken_by(block.block);
    return block;
}

struct tried rattle_realloc(void *old, size_t kept, size_t size, size_t align) {
    struct tried refused = { false, &none }, block = { true, NULL };
    (void)kept;
    if (refuses()) return refused;
    size_t before = taken_by(old);
    block.block = realloc(old, size ? size : align);
    if (!block.block) return refused;
    in_use += taken_by(block.block) - before;
    return block;
}

void rattle_dealloc(void *block) {
    held--;
    in_use -= taken_by(block);
    free(block);
}
