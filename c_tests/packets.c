/* Packets: sealed, read, and refused. */
#include "check.h"

/* A packet of a COOKIE-ACK: ports 5000 and 5001, tag 1. */
static uint8_t packet[64];
static const struct sctpr_head head = { 1, 5000, 5001 };

/* CRC-32C bit by bit (RFC 4960 Appendix B), another program than the library's. */
static uint32_t crc32c(const uint8_t *bytes, size_t length) {
    uint32_t crc = 0xffffffff;
    for (size_t i = 0; i < length; i++) {
        crc ^= bytes[i];
        for (int k = 0; k < 8; k++) crc = crc >> 1 ^ (crc & 1 ? 0x82f63b78 : 0);
    }
    return ~crc;
}

static void seal(void) {
    static const uint8_t front[8] = { 0x13, 0x88, 0x13, 0x89, 0, 0, 0, 1 };
    uint8_t copy[64];
    memcpy(packet + 12, "\x0b\0\0\4", 4);
    CHECK(sctpr_seal_packet(&head, packet, 16) == SCTPR_OK);
    CHECK(memcmp(packet, front, 8) == 0 && memcmp(packet + 12, "\x0b\0\0\4", 4) == 0);
    memcpy(copy, packet, 16);
    memset(copy + 8, 0, 4);
    uint32_t crc = crc32c(copy, 16);
    for (int i = 0; i < 4; i++) CHECK(packet[8 + i] == (uint8_t)(crc >> 8 * i));
    memset(copy, 7, sizeof copy);
    CHECK(sctpr_seal_packet(&head, copy, 11) == SCTPR_SHORT_BUFFER && copy[0] == 7 && copy[10] == 7);
    CHECK(sctpr_seal_packet(&head, NULL, 0) == SCTPR_SHORT_BUFFER);
    CHECK(crc32c((const uint8_t *)"123456789", 9) == 0xe3069283);
}

static void read_it(void) {
    struct sctpr_head got;
    struct sctpr_chunk rows[3];
    size_t count = 99;
    memset(&got, 7, sizeof got);
    memset(rows, 7, sizeof rows);
    CHECK(sctpr_read_packet(packet, 16, &got, rows, 3, &count) == SCTPR_OK);
    CHECK(got.source_port == 5000 && got.destination_port == 5001 && got.verification_tag == 1);
    CHECK(count == 1 && rows[0].at == 12 && rows[0].length == 4 && rows[0].type == SCTPR_COOKIE_ACK && rows[0].flags == 0);
    CHECK(rows[1].type == 7 && rows[2].flags == 7);
}

/* Two chunks with padding between, and fewer rows than chunks. */
static void read_two(void) {
    uint8_t two[64];
    struct sctpr_head got;
    struct sctpr_chunk rows[2];
    size_t count = 0, n = 0, m = 0;
    CHECK(sctpr_write_chunk(SCTPR_COOKIE_ECHO, (const uint8_t *)"cookie", 6, two + 12, sizeof two - 12, &n) == SCTPR_OK && n == 12);
    CHECK(sctpr_write_chunk(SCTPR_SHUTDOWN, (const uint8_t *)"\0\0\0\5", 4, two + 12 + n, sizeof two - 12 - n, &m) == SCTPR_OK && m == 8);
    CHECK(sctpr_seal_packet(&head, two, 12 + n + m) == SCTPR_OK);
    CHECK(sctpr_read_packet(two, 12 + n + m, &got, rows, 2, &count) == SCTPR_OK && count == 2);
    CHECK(rows[0].at == 12 && rows[0].length == 10 && rows[1].at == 24 && rows[1].length == 8 && rows[1].type == SCTPR_SHUTDOWN);
    memset(rows, 7, sizeof rows);
    CHECK(sctpr_read_packet(two, 12 + n + m, &got, rows, 1, &count) == SCTPR_OK && count == 2);
    CHECK(rows[0].at == 12 && rows[1].type == 7);
    CHECK(sctpr_read_packet(two, 12 + n + m, &got, NULL, 0, &count) == SCTPR_OK && count == 2);
}

static void refused(void) {
    uint8_t bad[16];
    struct sctpr_head got = { 9, 9, 9 };
    struct sctpr_chunk row = { 9, 9, 9, 9 };
    size_t count = 9;
    memcpy(bad, packet, 16);
    bad[15] ^= 1;
    CHECK(sctpr_read_packet(bad, 16, &got, &row, 1, &count) == SCTPR_BAD_CHECKSUM);
    CHECK(sctpr_read_packet(bad, 11, &got, &row, 1, &count) == SCTPR_ERR_PACKET_RAW_TOO_SMALL);
    CHECK(sctpr_read_packet(NULL, 0, &got, &row, 1, &count) == SCTPR_ERR_PACKET_RAW_TOO_SMALL);
    memcpy(bad + 12, "\x63\0\0\4", 4);
    CHECK(sctpr_seal_packet(&head, bad, 16) == SCTPR_OK);
    CHECK(sctpr_read_packet(bad, 16, &got, &row, 1, &count) == SCTPR_UNKNOWN_CHUNK);
    memcpy(bad + 12, "\x0b\0\0\3", 4);
    CHECK(sctpr_seal_packet(&head, bad, 16) == SCTPR_OK);
    CHECK(sctpr_read_packet(bad, 16, &got, &row, 1, &count) == SCTPR_ERR_CHUNK_HEADER_INVALID_LENGTH);
    CHECK(got.verification_tag == 9 && got.source_port == 9 && row.at == 9 && row.type == 9 && count == 9);
    REFUSE_EACH(sctpr_read_packet(packet, 16, &got, &row, 1, &count), SCTPR_OK,
                got.verification_tag == 9 && row.at == 9 && row.type == 9 && count == 9);
}

/* The caller's own CRC-32C makes the same packet, and reads it. */
static void own_sum(void) {
    uint8_t own[16], copy[16];
    struct sctpr_head got = { 9, 9, 9 };
    struct sctpr_chunk row = { 9, 9, 9, 9 };
    size_t count = 9;
    memset(own, 7, sizeof own);
    memcpy(own + 12, "\x0b\0\0\4", 4);
    CHECK(sctpr_write_head(&head, own, 16) == SCTPR_OK && memcmp(own + 8, "\0\0\0\0\x0b\0\0\4", 8) == 0);
    memcpy(copy, own, 16);
    CHECK(sctpr_store_sum(crc32c(own, 16), own, 16) == SCTPR_OK && memcmp(own, packet, 16) == 0);
    CHECK(sctpr_read_packet_with_sum(own, 16, 1 + crc32c(copy, 16), &got, &row, 1, &count) == SCTPR_BAD_CHECKSUM && row.at == 9);
    REFUSE_EACH(sctpr_read_packet_with_sum(own, 16, crc32c(copy, 16), &got, &row, 1, &count), SCTPR_OK, row.at == 9 && count == 9);
    CHECK(got.source_port == 5000 && row.at == 12 && row.type == SCTPR_COOKIE_ACK && count == 1);
    CHECK(sctpr_write_head(&head, copy, 11) == SCTPR_SHORT_BUFFER && sctpr_store_sum(1, NULL, 0) == SCTPR_SHORT_BUFFER);
    CHECK(copy[8] == 0 && copy[12] == SCTPR_COOKIE_ACK);
}

/* A packet of a SACK and a DATA chunk is read with no memory, and refused with none where a byte of its padding is not zero. */
static void in_place(void) {
    static const uint8_t sack[12] = { 0, 0, 0, 9, 0, 1 }, data[13] = { 0, 0, 0, 7, 0, 1, 0, 0, 0, 0, 0, 53, 'x' };
    uint8_t whole[48];
    struct sctpr_head got;
    struct sctpr_chunk rows[2];
    struct sctpr_any_chunk any[2];
    size_t n = 0, m = 0, count = 9;
    CHECK(sctpr_write_chunk(SCTPR_SACK, sack, sizeof sack, whole + 12, 16, &n) == SCTPR_OK && n == 16);
    CHECK(sctpr_write_chunk_with_flags(SCTPR_DATA, 3, data, sizeof data, whole + 28, 20, &m) == SCTPR_OK && m == 20);
    CHECK(sctpr_seal_packet(&head, whole, 48) == SCTPR_OK);
    WITHOUT_MEMORY(sctpr_read_packet(whole, 48, &got, rows, 2, &count), SCTPR_OK);
    CHECK(count == 2 && rows[0].at == 12 && rows[0].length == 16 && rows[1].at == 28 && rows[1].length == 17 && rows[1].flags == 3);
    WITHOUT_MEMORY(sctpr_read_any_packet(whole, 48, &got, any, 2, &count), SCTPR_OK);
    CHECK(count == 2 && any[1].at == 28 && any[1].length == 17 && any[1].is_known == 1);
    whole[47] = 1;
    CHECK(sctpr_seal_packet(&head, whole, 48) == SCTPR_OK);
    WITHOUT_MEMORY(sctpr_read_packet(whole, 48, &got, rows, 2, &count), SCTPR_ERR_CHUNK_HEADER_PADDING_NON_ZERO);
}

int main(void) {
    seal();
    in_place();
    own_sum();
    read_it();
    read_two();
    refused();
    return report("packets");
}
