/* Each call of packets with any bytes: seeded, under an allocator that now and then refuses. Each answer keeps what the header says of it. */
#include "check.h"
#include <stdlib.h>

static uint64_t state = 88172645463325252u;

static uint32_t any(uint32_t below) {
    state ^= state << 13;
    state ^= state >> 7;
    state ^= state << 17;
    return (uint32_t)(state >> 32) % below;
}

/* So many bytes, a chunk's header in front of most of them. */
static void fill(uint8_t *bytes, size_t length) {
    static const uint8_t types[] = { 0, 1, 2, 3, 4, 5, 6, 7, 8, 9, 10, 11, 14, 130, 192, 194, 99 };
    for (size_t i = 0; i < length; i++) bytes[i] = any(4) ? (uint8_t)any(8) : (uint8_t)any(256);
    if (length >= 4 && any(8)) {
        bytes[0] = types[any(sizeof types)];
        bytes[1] = any(2) ? 0 : (uint8_t)any(16);
        bytes[2] = 0;
        bytes[3] = (uint8_t)(any(4) ? length : any(64));
    }
}

static void read_any(const uint8_t *bytes, size_t length) {
    struct sctpr_data data;
    struct sctpr_sack sack;
    struct sctpr_gap gaps[4];
    struct sctpr_skip skips[4];
    struct sctpr_init init;
    struct sctpr_param param;
    uint32_t numbers[4], tsn;
    size_t count;
    if (sctpr_read_data(bytes, length, &data) == SCTPR_OK) CHECK(data.length + 16 <= length && data.begins <= 1 && data.ends <= 1);
    if (sctpr_read_sack(bytes, length, &sack, gaps, any(5), numbers, any(5)) == SCTPR_OK)
        CHECK(16 + 4 * sack.blocks + 4 * sack.duplicates <= length);
    if (sctpr_read_forward_tsn(bytes, length, &tsn, skips, any(5), &count) == SCTPR_OK) CHECK(8 + 4 * count <= length);
    if (sctpr_read_init(bytes, length, &init) == SCTPR_OK) CHECK(20 <= length && init.is_ack <= 1);
    if (sctpr_read_param(bytes, length, &param) == SCTPR_OK) CHECK(4 + param.length <= length && 4 <= param.next && param.next <= length);
}

static void write_any(const uint8_t *bytes, size_t length) {
    static uint8_t packet[256];
    struct sctpr_head head = { any(1000), (uint16_t)any(65536), (uint16_t)any(65536) }, got;
    struct sctpr_chunk rows[2];
    size_t written = 0, count = 0, room = any(129);
    sctpr_code code = sctpr_write_chunk(length ? bytes[0] : 0, bytes, length, packet + 12, room, &written);
    if (code == SCTPR_SHORT_BUFFER) CHECK(written > room);
    if (code != SCTPR_OK) return;
    CHECK(written % 4 == 0 && written <= room);
    CHECK(sctpr_seal_packet(&head, packet, 12 + written) == SCTPR_OK);
    code = sctpr_read_packet(packet, 12 + written, &got, rows, 2, &count);
    CHECK(code == SCTPR_OK || code == SCTPR_NO_MEMORY);
    if (code == SCTPR_OK) CHECK(count == 1 && rows[0].at == 12 && rows[0].length <= written && got.source_port == head.source_port);
}

static void seal_any(uint8_t *bytes, size_t length) {
    struct sctpr_head head = { 0, 1, 2 }, got;
    struct sctpr_chunk rows[4];
    size_t count = 0;
    if (sctpr_seal_packet(&head, bytes, length) != SCTPR_OK) return;
    if (sctpr_read_packet(bytes, length, &got, rows, 4, &count) != SCTPR_OK) return;
    CHECK(got.destination_port == 2);
    for (size_t i = 0; i < count && i < 4; i++) CHECK(rows[i].at + rows[i].length <= length && 4 <= rows[i].length);
}

int main(int argc, char **argv) {
    long times = argc > 1 ? atol(argv[1]) : 100000;
    uint8_t bytes[128];
    for (long i = 0; i < times; i++) {
        size_t length = any(sizeof bytes + 1);
        /* a block of exactly that length, so that a sanitizer sees any byte too far */
        uint8_t *block = malloc(length ? length : 1);
        if (!block) return 2;
        fill(bytes, length);
        memcpy(block, bytes, length);
        granted = any(8) ? -1 : (long)any(6);
        read_any(block, length);
        write_any(block, length);
        seal_any(block, length);
        free(block);
        if (held != 0) break;
    }
    granted = -1;
    CHECK(held == 0);
    return report("any_bytes");
}
