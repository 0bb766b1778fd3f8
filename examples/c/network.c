#include "network.h"
#include <stdio.h>
#include <stdlib.h>
#include <string.h>

uint64_t random_next(uint64_t *state) {
    *state ^= *state >> 12;
    *state ^= *state << 25;
    *state ^= *state >> 27;
    return *state * 0x2545f4914f6cdd1dull;
}

void network_init(struct network *n, uint64_t seed, struct network_rates rates) {
    memset(n, 0, sizeof *n);
    n->random = seed * 0xd1342543de82ef95ull | 1;
    n->rates = rates;
}

/* Frees the datagrams of a slot. */
static void empty(struct network_slot *slot) {
    for (size_t i = 0; i < slot->count; i++) free(slot->rows[i].bytes);
    slot->count = slot->taken = 0;
}

void network_free(struct network *n) {
    for (int i = 0; i < 2 * NETWORK_SLOTS; i++) {
        struct network_slot *slot = &n->slots[i % 2][i / 2];
        empty(slot);
        free(slot->rows);
    }
}

static int happens(struct network *n, uint32_t rate) { return random_next(&n->random) % 10000 < rate; }

static void deliver(struct network *n, int direction, const uint8_t *bytes, size_t length, uint64_t due) {
    struct network_slot *slot = &n->slots[direction][due % NETWORK_SLOTS];
    if (slot->count == slot->room) {
        slot->room = slot->room ? 2 * slot->room : 16;
        slot->rows = realloc(slot->rows, slot->room * sizeof *slot->rows);
        if (!slot->rows) abort();
    }
    struct datagram *row = &slot->rows[slot->count++];
    row->length = length;
    row->bytes = malloc(length ? length : 1);
    if (!row->bytes) abort();
    memcpy(row->bytes, bytes, length);
    if (length > 0 && happens(n, n->rates.damaged)) {
        row->bytes[random_next(&n->random) % length] ^= (uint8_t)(1 << random_next(&n->random) % 8);
        n->counts[direction].damaged++;
    }
}

void network_send(struct network *n, int direction, const uint8_t *bytes, size_t length) {
    struct network_counts *counts = &n->counts[direction];
    uint64_t due = n->tick + 1;
    counts->sent++;
    counts->bytes += length;
    if (happens(n, n->rates.lost)) {
        counts->lost++;
        return;
    }
    if (happens(n, n->rates.late)) {
        counts->late++;
        due += 1 + random_next(&n->random) % 20;
    }
    deliver(n, direction, bytes, length, due);
    if (happens(n, n->rates.repeated)) {
        counts->repeated++;
        deliver(n, direction, bytes, length, due + random_next(&n->random) % 20);
    }
}

const struct datagram *network_take(struct network *n, int direction) {
    struct network_slot *slot = &n->slots[direction][n->tick % NETWORK_SLOTS];
    return slot->taken < slot->count ? &slot->rows[slot->taken++] : NULL;
}

void network_print(const struct network_counts *c) {
    printf("  datagrams %lu, bytes %lu, lost %lu, repeated %lu, late %lu, damaged %lu\n", (unsigned long)c->sent, (unsigned long)c->bytes,
           (unsigned long)c->lost, (unsigned long)c->repeated, (unsigned long)c->late, (unsigned long)c->damaged);
}

void network_next_tick(struct network *n) {
    empty(&n->slots[0][n->tick % NETWORK_SLOTS]);
    empty(&n->slots[1][n->tick % NETWORK_SLOTS]);
    n->tick++;
}
