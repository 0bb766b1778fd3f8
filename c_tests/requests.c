/* The requests of a RE-CONFIG, by the figures of RFC 6525 4: written from their words and from their bytes, alone and two in a chunk, and read
 * into words; what has another length, and what may not stand together, is refused. */
#include "check.h"

static uint8_t out[64], chunk[64];
static size_t n;

/* Whether so many bytes were written at the front of `out`, and none behind them. */
static int wrote(const char *bytes, size_t length) {
    int is_kept = 1;
    for (size_t i = length; i < sizeof out; i++) is_kept &= out[i] == 'x';
    return n == length && is_kept && memcmp(out, bytes, length) == 0;
}

#define WROTE(bytes) wrote(bytes, sizeof(bytes) - 1)

static void clear(void) {
    memset(out, 'x', sizeof out);
    n = 77;
}

/* Each request, and the same from its value; none where the buffer is a byte too short. */
static void from_words(void) {
    static const struct sctpr_reset reset = { 0x01020304, 0x05060708, 0x090a0b0c };
    static const struct sctpr_add_streams outgoing = { 0x01020304, 0xfffe, 0 }, incoming = { 0x01020304, 3, 7 };
    static const uint16_t streams[] = { 4, 0xff05, 6 };
    clear();
    REFUSE_EACH(sctpr_write_reset(&reset, streams, 3, out, sizeof out, &n), SCTPR_OK, n == 77);
    CHECK(WROTE("\0\x0d\0\x16\1\2\3\4\5\6\7\x08\x09\x0a\x0b\x0c\0\4\xff\5\0\6\0\0"));
    clear();
    REFUSE_EACH(sctpr_write_incoming_reset(0x01020304, streams, 2, out, sizeof out, &n), SCTPR_OK, n == 77);
    CHECK(WROTE("\0\x0e\0\x0c\1\2\3\4\0\4\xff\5"));
    clear();
    CHECK(sctpr_write_incoming_reset(0x01020304, NULL, 0, out, sizeof out, &n) == SCTPR_OK && WROTE("\0\x0e\0\x08\1\2\3\4"));
    clear();
    WITHOUT_MEMORY(sctpr_write_ssn_tsn_reset(0x01020304, out, sizeof out, &n), SCTPR_OK);
    CHECK(WROTE("\0\x0f\0\x08\1\2\3\4"));
    clear();
    WITHOUT_MEMORY(sctpr_write_add_streams(&outgoing, out, sizeof out, &n), SCTPR_OK);
    CHECK(WROTE("\0\x11\0\x0c\1\2\3\4\xff\xfe\0\0"));
    clear();
    WITHOUT_MEMORY(sctpr_write_add_streams(&incoming, out, sizeof out, &n), SCTPR_OK);
    CHECK(WROTE("\0\x12\0\x0c\1\2\3\4\0\3\0\0"));
    clear();
    CHECK(sctpr_write_reset(&reset, streams, 3, out, 23, &n) == SCTPR_SHORT_BUFFER && n == 24 && out[0] == 'x');
    CHECK(sctpr_write_incoming_reset(1, streams, 3, out, 15, &n) == SCTPR_SHORT_BUFFER && n == 16 && out[0] == 'x');
    CHECK(sctpr_write_ssn_tsn_reset(1, out, 7, &n) == SCTPR_SHORT_BUFFER && n == 8 && out[0] == 'x');
    CHECK(sctpr_write_add_streams(&incoming, out, 11, &n) == SCTPR_SHORT_BUFFER && n == 12 && out[0] == 'x');
}

/* As many streams as a length can declare, and one more. */
static void longest(void) {
    static const struct sctpr_reset reset = { 1, 2, 3 };
    static uint16_t many[32764];
    static uint8_t room[65536];
    clear();
    CHECK(sctpr_write_reset(&reset, many, 32759, room, sizeof room, &n) == SCTPR_OK && n == 65536 && room[2] == 0xff && room[3] == 0xfe);
    CHECK(sctpr_write_incoming_reset(1, many, 32763, room, sizeof room, &n) == SCTPR_OK && n == 65536 && room[2] == 0xff && room[3] == 0xfe);
    n = 77;
    WITHOUT_MEMORY(sctpr_write_reset(&reset, many, 32760, room, sizeof room, &n), SCTPR_LENGTH_TOO_LARGE);
    WITHOUT_MEMORY(sctpr_write_incoming_reset(1, many, 32764, room, sizeof room, &n), SCTPR_LENGTH_TOO_LARGE);
    CHECK(n == 77);
}

/* A parameter of a type and a value. */
static sctpr_code param(uint16_t type, const char *value, size_t length) {
    clear();
    return sctpr_write_param(type, (const uint8_t *)value, length, out, sizeof out, &n);
}

static void from_bytes(void) {
    static const uint16_t types[] = { 14, 15, 17, 18 };
    CHECK(param(14, "\1\2\3\4\0\5", 6) == SCTPR_OK && WROTE("\0\x0e\0\x0a\1\2\3\4\0\5\0\0"));
    CHECK(param(14, "\1\2\3\4", 4) == SCTPR_OK && WROTE("\0\x0e\0\x08\1\2\3\4"));
    CHECK(param(15, "\1\2\3\4", 4) == SCTPR_OK && WROTE("\0\x0f\0\x08\1\2\3\4"));
    CHECK(param(17, "\1\2\3\4\0\5\x06\x07", 8) == SCTPR_OK && WROTE("\0\x11\0\x0c\1\2\3\4\0\5\6\7"));
    CHECK(param(18, "\1\2\3\4\0\5\0\0", 8) == SCTPR_OK && WROTE("\0\x12\0\x0c\1\2\3\4\0\5\0\0"));
    for (size_t i = 0; i < sizeof types / sizeof *types; i++)
        for (size_t length = 0; length < 12; length++) {
            int is_right = types[i] == 14 ? length >= 4 && length % 2 == 0 : length == (types[i] == 15 ? 4 : 8);
            sctpr_code code = param(types[i], "abcdefghijkl", length);
            CHECK(code == (is_right ? SCTPR_OK : SCTPR_ERR_SSN_RESET_REQUEST_PARAM_INVALID_LENGTH) && (is_right || n == 77));
        }
    CHECK(param(19, "abcd", 4) == SCTPR_ERR_PARAM_TYPE_UNHANDLED && n == 77);
}

/* A RE-CONFIG of a value. */
static sctpr_code reconfig(const char *value, size_t length) {
    clear();
    return sctpr_write_chunk(SCTPR_RECONFIG, (const uint8_t *)value, length, out, sizeof out, &n);
}

#define RECONFIG(value) reconfig(value, sizeof(value) - 1)
#define OUTGOING "\0\x0d\0\x12\0\0\0\1\0\0\0\2\0\0\0\3\0\4\0\0"
#define INCOMING "\0\x0e\0\x0a\0\0\0\1\0\4"
#define ALL "\0\x0f\0\x08\0\0\0\1"
#define ADD_OUTGOING "\0\x11\0\x0c\0\0\0\1\0\2\0\0"
#define ADD_INCOMING "\0\x12\0\x0c\0\0\0\1\0\2\0\0"

/* A chunk's length does not count the padding of its last parameter (RFC 9260 3.2). Two stand together as RFC 6525 3.1 lists them. */
static void chunks(void) {
    CHECK(RECONFIG(INCOMING) == SCTPR_OK && WROTE("\x82\0\0\x0e" INCOMING "\0\0"));
    CHECK(RECONFIG(INCOMING "\0\0") == SCTPR_OK && WROTE("\x82\0\0\x0e" INCOMING "\0\0"));
    CHECK(RECONFIG(ALL) == SCTPR_OK && WROTE("\x82\0\0\x0c" ALL));
    CHECK(RECONFIG(ADD_OUTGOING) == SCTPR_OK && WROTE("\x82\0\0\x10" ADD_OUTGOING));
    CHECK(RECONFIG(ADD_INCOMING) == SCTPR_OK && WROTE("\x82\0\0\x10" ADD_INCOMING));
    CHECK(RECONFIG(OUTGOING INCOMING) == SCTPR_OK && WROTE("\x82\0\0\x22" OUTGOING INCOMING "\0\0"));
    CHECK(RECONFIG(ADD_OUTGOING ADD_INCOMING) == SCTPR_OK && WROTE("\x82\0\0\x1c" ADD_OUTGOING ADD_INCOMING));
    CHECK(RECONFIG(OUTGOING) == SCTPR_OK && WROTE("\x82\0\0\x16" OUTGOING));
    CHECK(sctpr_write_chunk_with_flags(SCTPR_RECONFIG, 1, (const uint8_t *)ALL, 8, out, sizeof out, &n) == SCTPR_OK && out[1] == 1);
    clear();
    CHECK(sctpr_write_chunk(SCTPR_RECONFIG, (const uint8_t *)INCOMING, 10, out, 15, &n) == SCTPR_SHORT_BUFFER && n == 16 && out[0] == 'x');
}

/* Other pairs, other lengths, and padding that is not whole or not of zeros. */
static void refused(void) {
    CHECK(RECONFIG(ADD_INCOMING ADD_OUTGOING) == SCTPR_ERR_PARAM_TYPE_UNHANDLED && n == 77 && out[0] == 'x');
    CHECK(RECONFIG(ALL ALL) == SCTPR_ERR_PARAM_TYPE_UNHANDLED && RECONFIG(ALL INCOMING) == SCTPR_ERR_PARAM_TYPE_UNHANDLED);
    CHECK(RECONFIG(OUTGOING ALL) == SCTPR_ERR_PARAM_TYPE_UNHANDLED);
    CHECK(RECONFIG(ADD_OUTGOING ADD_INCOMING ALL) == SCTPR_ERR_PARAM_TYPE_UNHANDLED);
    CHECK(RECONFIG("\0\x0f\0\x09\0\0\0\1a") == SCTPR_ERR_PARAM_TYPE_UNHANDLED);
    CHECK(RECONFIG(INCOMING "\0") == SCTPR_ERR_PARAM_TYPE_UNHANDLED && RECONFIG(INCOMING "\0\1") == SCTPR_ERR_PARAM_TYPE_UNHANDLED);
    CHECK(RECONFIG(INCOMING "\0\0\0\0\0\0") == SCTPR_ERR_PARAM_TYPE_UNHANDLED && n == 77);
}

/* What was written is read with its packet, and into the same words. */
static void read_back(void) {
    static const struct sctpr_head head = { 1, 5000, 5001 };
    struct sctpr_add_streams add = { 9, 9, 9 };
    struct sctpr_head got;
    struct sctpr_any_chunk row;
    struct sctpr_chunk strict;
    uint16_t streams[3] = { 9, 9, 9 };
    uint32_t number = 9;
    size_t count = 9;
    CHECK(RECONFIG(ADD_OUTGOING ADD_INCOMING) == SCTPR_OK);
    memcpy(chunk + 12, out, n);
    CHECK(sctpr_seal_packet(&head, chunk, 12 + n) == SCTPR_OK);
    CHECK(sctpr_read_any_packet(chunk, 12 + n, &got, &row, 1, &count) == SCTPR_OK && count == 1 && row.type == SCTPR_RECONFIG);
    CHECK(sctpr_read_packet(chunk, 12 + n, &got, &strict, 1, &count) == SCTPR_ERR_PARAM_TYPE_UNHANDLED);
    WITHOUT_MEMORY(sctpr_read_add_streams(chunk + 16, 24, &add), SCTPR_OK);
    CHECK(add.request == 1 && add.count == 2 && add.is_incoming == 0);
    CHECK(sctpr_read_add_streams(chunk + 28, 12, &add) == SCTPR_OK && add.request == 1 && add.count == 2 && add.is_incoming == 1);
    WITHOUT_MEMORY(sctpr_read_incoming_reset((const uint8_t *)INCOMING "\0\0", 12, &number, streams, 3, &count), SCTPR_OK);
    CHECK(number == 1 && count == 1 && streams[0] == 4 && streams[1] == 9);
    CHECK(sctpr_read_incoming_reset((const uint8_t *)INCOMING, 10, &number, NULL, 0, &count) == SCTPR_OK && count == 1);
}

/* Of each refusal nothing is told. */
static void not_read(void) {
    struct sctpr_add_streams add = { 9, 9, 9 };
    uint32_t number = 9;
    size_t count = 9;
    CHECK(sctpr_read_incoming_reset((const uint8_t *)ALL, 8, &number, NULL, 0, &count) == SCTPR_ERR_PARAM_TYPE_UNEXPECTED);
    CHECK(sctpr_read_incoming_reset((const uint8_t *)INCOMING, 9, &number, NULL, 0, &count) == SCTPR_ERR_PARAM_HEADER_TOO_SHORT);
    CHECK(sctpr_read_incoming_reset((const uint8_t *)"\0\x0e\0\7abc", 7, &number, NULL, 0, &count) ==
          SCTPR_ERR_SSN_RESET_REQUEST_PARAM_TOO_SHORT);
    CHECK(sctpr_read_incoming_reset((const uint8_t *)"\0\x0e\0\x09" "abcde", 9, &number, NULL, 0, &count) ==
          SCTPR_ERR_SSN_RESET_REQUEST_PARAM_INVALID_LENGTH);
    CHECK(sctpr_read_incoming_reset(NULL, 0, &number, NULL, 0, &count) == SCTPR_ERR_PARAM_HEADER_TOO_SHORT && number == 9 && count == 9);
    CHECK(sctpr_read_add_streams((const uint8_t *)ALL, 8, &add) == SCTPR_ERR_PARAM_TYPE_UNEXPECTED);
    CHECK(sctpr_read_add_streams((const uint8_t *)"\0\x11\0\x0b" "abcdefg", 11, &add) == SCTPR_ERR_SSN_RESET_REQUEST_PARAM_INVALID_LENGTH);
    CHECK(sctpr_read_add_streams((const uint8_t *)"\0\x12\0\x0d" "abcdefghi", 13, &add) == SCTPR_ERR_SSN_RESET_REQUEST_PARAM_INVALID_LENGTH);
    CHECK(sctpr_read_add_streams((const uint8_t *)ADD_INCOMING, 11, &add) == SCTPR_ERR_PARAM_HEADER_TOO_SHORT);
    CHECK(add.request == 9 && add.count == 9 && add.is_incoming == 9);
}

int main(void) {
    from_words();
    longest();
    from_bytes();
    chunks();
    refused();
    read_back();
    not_read();
    return report("requests");
}
