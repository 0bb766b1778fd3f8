/* Error causes, the T bit, and a SHUTDOWN's TSN. */
#include "check.h"

/* A cause of five bytes with its padding, and one behind it (RFC 4960 3.3.10). */
static void causes(void) {
    uint8_t out[24];
    struct sctpr_cause cause = { 9, 9, 9 };
    size_t n = 5, m = 0;
    memset(out, 'x', sizeof out);
    REFUSE_EACH(sctpr_write_cause(SCTPR_CAUSE_UNRECOGNIZED_CHUNK_TYPE, (const uint8_t *)"\x40\7\0\5v", 5, out, sizeof out, &n), SCTPR_OK,
                n == 5 && out[0] == 'x');
    CHECK(n == 12 && memcmp(out, "\0\6\0\x09\x40\7\0\5v\0\0\0x", 13) == 0);
    CHECK(sctpr_write_cause(SCTPR_CAUSE_USER_INITIATED_ABORT, NULL, 0, out + n, 3, &m) == SCTPR_SHORT_BUFFER && m == 4 && out[12] == 'x');
    CHECK(sctpr_write_cause(SCTPR_CAUSE_USER_INITIATED_ABORT, NULL, 0, out + n, 4, &m) == SCTPR_OK && m == 4);
    CHECK(memcmp(out + 12, "\0\x0c\0\4x", 5) == 0);
    WITHOUT_MEMORY(sctpr_read_cause(out, n + m, &cause), SCTPR_OK);
    CHECK(cause.code == SCTPR_CAUSE_UNRECOGNIZED_CHUNK_TYPE && cause.length == 5 && cause.next == 12);
    CHECK(sctpr_read_cause(out + 12, 4, &cause) == SCTPR_OK && cause.code == 12 && cause.length == 0 && cause.next == 4);
    CHECK(sctpr_read_cause(out, 9, &cause) == SCTPR_OK && cause.length == 5 && cause.next == 9);
    cause.code = 9;
    CHECK(sctpr_read_cause(out, 8, &cause) == SCTPR_ERR_ERROR_CAUSE_TOO_SMALL && sctpr_read_cause(NULL, 0, &cause) == SCTPR_ERR_ERROR_CAUSE_TOO_SMALL);
    CHECK(sctpr_read_cause((const uint8_t *)"\0\1\0\3", 4, &cause) == SCTPR_ERR_ERROR_CAUSE_TOO_SMALL && cause.code == 9);
}

static void too_long(void) {
    static uint8_t big[65532], out[65540];
    size_t n = 5;
    CHECK(sctpr_write_cause(SCTPR_CAUSE_PROTOCOL_VIOLATION, big, 65532, out, sizeof out, &n) == SCTPR_LENGTH_TOO_LARGE && n == 5);
    CHECK(sctpr_write_cause(SCTPR_CAUSE_PROTOCOL_VIOLATION, big, 65531, out, sizeof out, &n) == SCTPR_OK && n == 65536);
    CHECK(memcmp(out, "\0\x0d\xff\xff", 4) == 0);
}

/* ABORT and SHUTDOWN-COMPLETE with the T bit (RFC 4960 3.3.7, 3.3.13), in a packet that is read. */
static void flags(void) {
    uint8_t packet[32];
    struct sctpr_head head = { 7, 5000, 5001 };
    struct sctpr_chunk row;
    size_t n = 5, count = 0;
    memset(packet, 'x', sizeof packet);
    REFUSE_EACH(sctpr_write_chunk_with_flags(SCTPR_ABORT, SCTPR_FLAG_T, (const uint8_t *)"\0\x0c\0\4", 4, packet + 12, 20, &n), SCTPR_OK,
                n == 5 && packet[12] == 'x');
    CHECK(n == 8 && memcmp(packet + 12, "\6\1\0\x08\0\x0c\0\4x", 9) == 0);
    CHECK(sctpr_seal_packet(&head, packet, 20) == SCTPR_OK && sctpr_read_packet(packet, 20, &head, &row, 1, &count) == SCTPR_OK);
    CHECK(row.type == SCTPR_ABORT && row.flags == SCTPR_FLAG_T && row.length == 8);
    CHECK(sctpr_write_chunk_with_flags(SCTPR_SHUTDOWN_COMPLETE, SCTPR_FLAG_T, NULL, 0, packet, 3, &n) == SCTPR_SHORT_BUFFER && n == 4);
    CHECK(sctpr_write_chunk_with_flags(SCTPR_SHUTDOWN_COMPLETE, SCTPR_FLAG_T, NULL, 0, packet, 4, &n) == SCTPR_OK && n == 4);
    CHECK(memcmp(packet, "\x0e\1\0\4", 4) == 0);
    /* a whole DATA chunk: flags B and E; TSN 5, stream 1, sequence 0, type 51 (RFC 4960 3.3.1) */
    CHECK(sctpr_write_chunk_with_flags(SCTPR_DATA, 3, (const uint8_t *)"\0\0\0\5\0\1\0\0\0\0\0\x33!", 13, packet, 20, &n) == SCTPR_OK && n == 20);
    CHECK(memcmp(packet, "\0\3\0\x11\0\0\0\5\0\1\0\0\0\0\0\x33!\0\0\0", 20) == 0);
    n = 5;
    CHECK(sctpr_write_chunk_with_flags(SCTPR_INIT, 1, packet, 16, packet, 0, &n) == SCTPR_ERR_CHUNK_TYPE_INIT_FLAG_ZERO && n == 5);
    CHECK(sctpr_write_chunk_with_flags(99, 1, NULL, 0, packet, 20, &n) == SCTPR_UNKNOWN_CHUNK && n == 5);
}

static void shutdown_tsn(void) {
    uint8_t chunk[8];
    uint32_t tsn = 9;
    size_t n = 0;
    CHECK(sctpr_write_chunk(SCTPR_SHUTDOWN, (const uint8_t *)"\xff\xff\xff\xf0", 4, chunk, 8, &n) == SCTPR_OK && n == 8);
    REFUSE_EACH(sctpr_read_shutdown(chunk, 8, &tsn), SCTPR_OK, tsn == 9);
    CHECK(tsn == 0xfffffff0);
    CHECK(sctpr_read_shutdown((const uint8_t *)"\7\0\0\7abc", 7, &tsn) == SCTPR_ERR_INVALID_CHUNK_SIZE);
    CHECK(sctpr_read_shutdown((const uint8_t *)"\x08\0\0\4", 4, &tsn) == SCTPR_ERR_CHUNK_TYPE_NOT_SHUTDOWN && tsn == 0xfffffff0);
}

int main(void) {
    causes();
    too_long();
    flags();
    shutdown_tsn();
    return report("causes");
}
