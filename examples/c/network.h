/* A network in memory, of two directions, in ticks: each datagram may be lost, repeated, late or damaged, by a seed. */
#ifndef NETWORK_H
#define NETWORK_H

#include <stddef.h>
#include <stdint.h>

/* How many of 10,000 datagrams are lost, repeated, late by up to 20 ticks, and damaged in a bit. */
struct network_rates {
    uint32_t lost, repeated, late, damaged;
};

struct network_counts {
    uint64_t sent, bytes, lost, repeated, late, damaged;
};

struct datagram {
    uint8_t *bytes;
    size_t length;
};

/* The datagrams that are due at one tick, in order, of which so many were taken. */
struct network_slot {
    struct datagram *rows;
    size_t count, room, taken;
};

/* A datagram is due at most 40 ticks after it was sent, so that slots can be used in turn. */
enum { NETWORK_SLOTS = 64 };

struct network {
    struct network_rates rates;
    struct network_counts counts[2];
    struct network_slot slots[2][NETWORK_SLOTS];
    uint64_t tick, random;
};

void network_init(struct network *n, uint64_t seed, struct network_rates rates);
void network_free(struct network *n);
/* Sends a datagram in direction 0 or 1; it is due at the next tick or later. */
void network_send(struct network *n, int direction, const uint8_t *bytes, size_t length);
/* The next datagram of a direction that is due now, NULL where there is none. It stays until the tick ends. */
const struct datagram *network_take(struct network *n, int direction);
/* Ends the tick, in which all that was due has been taken. */
void network_next_tick(struct network *n);

/* Prints the counts of a direction, a line. */
void network_print(const struct network_counts *counts);

/* The next number of a sequence that `state`, not 0, begins (xorshift*). */
uint64_t random_next(uint64_t *state);

#endif
