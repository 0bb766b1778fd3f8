/* Chunks that a peer sends, written by hand from RFC 9260 3.3.1, 3.3.4 and RFC 3758 3.2, and the numbers that a seed draws. */
#ifndef PEER_H
#define PEER_H

#include "sctpr.h"
#include <string.h>

/* Flags of a DATA chunk (RFC 9260 3.3.1). */
enum { LAST = 1, FIRST = 2, UNORDERED = 4, WHOLE = 3 };

static uint64_t drawn = 1;

static inline void draw_from(uint64_t seed) {
    drawn = seed * 0x9e3779b97f4a7c15u | 1u;
}

/* A number below another. */
static inline uint32_t any(uint32_t below) {
    drawn ^= drawn << 13;
    drawn ^= drawn >> 7;
    drawn ^= drawn << 17;
    return (uint32_t)(drawn >> 32) % below;
}

static inline void put16(uint8_t *at, uint32_t value) {
    at[0] = (uint8_t)(value >> 8);
    at[1] = (uint8_t)value;
}

static inline void put32(uint8_t *at, uint32_t value) {
    put16(at, value >> 16);
    put16(at + 2, value & 0xffffu);
}

static inline uint32_t get32(const uint8_t *at) {
    return (uint32_t)at[0] << 24 | (uint32_t)at[1] << 16 | (uint32_t)at[2] << 8 | (uint32_t)at[3];
}

struct data {
    uint32_t tsn;
    uint16_t stream;
    uint16_t ssn;
    uint8_t flags;
    uint32_t length;
};

/* The header of a DATA chunk; its user data stay as they are. Answers the chunk's length. */
static inline size_t put_data(uint8_t *out, const struct data *data) {
    out[0] = SCTPR_DATA;
    out[1] = data->flags;
    put16(out + 2, 16 + data->length);
    put32(out + 4, data->tsn);
    put16(out + 8, data->stream);
    put16(out + 10, data->ssn);
    put32(out + 12, SCTPR_PPID_BINARY);
    return 16 + (size_t)data->length;
}

/* A FORWARD-TSN with its names. */
static inline size_t put_forward_tsn(uint8_t *out, uint32_t tsn, const struct sctpr_skip *names, size_t count) {
    out[0] = SCTPR_FORWARD_TSN;
    out[1] = 0;
    put16(out + 2, (uint32_t)(8 + 4 * count));
    put32(out + 4, tsn);
    for (size_t i = 0; i < count; i++) {
        put16(out + 8 + 4 * i, names[i].stream);
        put16(out + 10 + 4 * i, names[i].sequence);
    }
    return 8 + 4 * count;
}

/* A SACK with its gap ack blocks, without duplicates. */
static inline size_t put_sack(uint8_t *out, uint32_t tsn, const struct sctpr_gap *blocks, size_t count) {
    out[0] = SCTPR_SACK;
    out[1] = 0;
    put16(out + 2, (uint32_t)(16 + 4 * count));
    put32(out + 4, tsn);
    put32(out + 8, 1u << 20);
    put16(out + 12, (uint32_t)count);
    put16(out + 14, 0);
    for (size_t i = 0; i < count; i++) {
        put16(out + 16 + 4 * i, blocks[i].start);
        put16(out + 18 + 4 * i, blocks[i].end);
    }
    return 16 + 4 * count;
}

#endif
