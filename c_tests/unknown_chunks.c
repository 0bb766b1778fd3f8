/* Packets with chunks of unknown types: skipped or the last, reported or not, by the two highest bits of the type (RFC 4960 3.2). */
#include "check.h"

static uint8_t packet[128];
static const struct sctpr_head head = { 1, 5000, 5001 };
static struct sctpr_head got;
static struct sctpr_any_chunk rows[8];

/* Seals a packet of these chunks, and answers its length. */
static size_t seal(const char *chunks, size_t length) {
    memcpy(packet + 12, chunks, length);
    CHECK(sctpr_seal_packet(&head, packet, 12 + length) == SCTPR_OK);
    memset(rows, 7, sizeof rows);
    return 12 + length;
}

#define SEAL(chunks) seal(chunks, sizeof(chunks) - 1)

/* A COOKIE-ACK, a chunk of the type, four bytes of value, and a COOKIE-ACK: how many rows, and what the second one says. */
static void one(uint8_t type, size_t wanted, uint8_t is_reported) {
    size_t count = 9, length = SEAL("\x0b\0\0\4" "?\5\0\x07" "abc\0" "\x0b\0\0\4");
    packet[16] = type;
    CHECK(sctpr_seal_packet(&head, packet, length) == SCTPR_OK);
    CHECK(sctpr_read_any_packet(packet, length, &got, rows, 8, &count) == SCTPR_OK && count == wanted);
    CHECK(got.source_port == 5000 && got.destination_port == 5001 && got.verification_tag == 1);
    CHECK(rows[0].at == 12 && rows[0].type == SCTPR_COOKIE_ACK && rows[0].is_known == 1 && rows[0].is_reported == 0);
    CHECK(rows[1].at == 16 && rows[1].length == 7 && rows[1].type == type && rows[1].flags == 5);
    CHECK(rows[1].is_known == 0 && rows[1].is_reported == is_reported);
    if (wanted == 3) CHECK(rows[2].at == 24 && rows[2].type == SCTPR_COOKIE_ACK && rows[2].is_known == 1);
    CHECK(rows[wanted].type == 7);
}

/* The types that are read are 0 to 11, 14, 130, 192 and 194. */
static void each_type(void) {
    static const uint8_t known[] = { 0, 1, 2, 3, 4, 5, 6, 7, 8, 9, 10, 11, 14, 130, 192, 194 };
    for (int type = 0; type < 256; type++) {
        if (memchr(known, type, sizeof known)) continue;
        one((uint8_t)type, type & 0x80 ? 3 : 2, type & 0x40 ? 1 : 0);
    }
}

/* I-DATA is 64 (RFC 8260 2.1), AUTH 15 (RFC 4895 4.1), PAD 132 (RFC 4820 3). */
static void in_the_field(void) {
    one(64, 2, 1);
    one(15, 2, 0);
    one(132, 3, 0);
}

/* What follows a chunk that stops the reading is not looked at, and so refuses nothing; a chunk before it does. */
static void stopped(void) {
    size_t count = 9, length = SEAL("\x40\0\0\4" "\x0b\0\0\2" "!");
    CHECK(sctpr_read_any_packet(packet, length, &got, rows, 8, &count) == SCTPR_OK && count == 1 && rows[0].type == 64);
    length = SEAL("\x0b\0\0\2" "\x40\0\0\4");
    count = 9;
    CHECK(sctpr_read_any_packet(packet, length, &got, rows, 8, &count) == SCTPR_ERR_CHUNK_HEADER_INVALID_LENGTH && count == 9);
    CHECK(rows[0].type == 7);
}

static void refused(void) {
    size_t count = 9, length = SEAL("\x84\0\0\x08" "abcd" "\x07\0\0\5" "a\0\0\0");
    got.source_port = 9;
    CHECK(sctpr_read_any_packet(packet, length, &got, rows, 8, &count) == SCTPR_ERR_INVALID_CHUNK_SIZE);
    length = SEAL("\x84\0\0\3");
    CHECK(sctpr_read_any_packet(packet, length, &got, rows, 8, &count) == SCTPR_ERR_CHUNK_HEADER_INVALID_LENGTH);
    length = SEAL("\x84\0\0\x09" "abcd");
    CHECK(sctpr_read_any_packet(packet, length, &got, rows, 8, &count) == SCTPR_ERR_CHUNK_HEADER_NOT_ENOUGH_SPACE);
    length = SEAL("\x84\0\0\5" "a\0\0");
    CHECK(sctpr_read_any_packet(packet, length, &got, rows, 8, &count) == SCTPR_ERR_PARSE_SCTP_CHUNK_NOT_ENOUGH_DATA);
    length = SEAL("\x84\0\0\4" "abc");
    CHECK(sctpr_read_any_packet(packet, length, &got, rows, 8, &count) == SCTPR_ERR_PARSE_SCTP_CHUNK_NOT_ENOUGH_DATA);
    packet[15] ^= 1;
    CHECK(sctpr_read_any_packet(packet, length, &got, rows, 8, &count) == SCTPR_BAD_CHECKSUM);
    CHECK(sctpr_read_any_packet(NULL, 0, &got, rows, 8, &count) == SCTPR_ERR_PACKET_RAW_TOO_SMALL);
    CHECK(got.source_port == 9 && count == 9 && rows[0].type == 7);
}

static void memory_and_room(void) {
    size_t count = 9, length = SEAL("\x84\0\0\x08" "abcd" "\xc5\0\0\4" "\x0b\0\0\4");
    got.source_port = 9;
    REFUSE_EACH(sctpr_read_any_packet(packet, length, &got, rows, 2, &count), SCTPR_OK, got.source_port == 9 && count == 9 && rows[0].type == 7);
    CHECK(count == 3 && rows[0].type == 0x84 && rows[1].type == 0xc5 && rows[1].is_reported == 1 && rows[2].type == 7);
    count = 9;
    CHECK(sctpr_read_any_packet(packet, length, &got, NULL, 0, &count) == SCTPR_OK && count == 3);
    CHECK(sctpr_read_any_packet_with_sum(packet, length, 5, &got, rows, 8, &count) == SCTPR_BAD_CHECKSUM);
    CHECK(sctpr_store_sum(5, packet, length) == SCTPR_OK);
    CHECK(sctpr_read_any_packet_with_sum(packet, length, 5, &got, rows, 8, &count) == SCTPR_OK && count == 3 && rows[2].at == 24);
    length = SEAL("");
    CHECK(sctpr_read_any_packet(packet, length, &got, rows, 8, &count) == SCTPR_OK && count == 0);
}

int main(void) {
    each_type();
    in_the_field();
    stopped();
    refused();
    memory_and_room();
    return report("unknown_chunks");
}
