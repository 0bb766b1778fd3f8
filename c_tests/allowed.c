/* Packets that the RFCs allow and sctpr_read_packet refuses: requests of a RE-CONFIG, padded causes, an INIT with addresses and flags. And
 * writers that write what they are given, or refuse. */
#include "check.h"

static uint8_t packet[128];
static const struct sctpr_head head = { 1, 5000, 5001 };
static struct sctpr_head got;
static struct sctpr_any_chunk rows[8];

static size_t seal(const char *chunks, size_t length) {
    memcpy(packet + 12, chunks, length);
    CHECK(sctpr_seal_packet(&head, packet, 12 + length) == SCTPR_OK);
    memset(rows, 7, sizeof rows);
    return 12 + length;
}

#define SEAL(chunks) seal(chunks, sizeof(chunks) - 1)

/* Reads the packet past what sctpr_read_packet refuses with this code, and takes no memory. */
static void reads(size_t length, sctpr_code strict, size_t wanted) {
    struct sctpr_chunk row;
    size_t count = 9;
    CHECK(sctpr_read_packet(packet, length, &got, &row, 1, &count) == strict && count == 9);
    WITHOUT_MEMORY(sctpr_read_any_packet(packet, length, &got, rows, 8, &count), SCTPR_OK);
    CHECK(count == wanted && got.source_port == 5000 && rows[wanted].type == 7);
}

static const uint8_t *value_of(size_t row, size_t from) {
    return packet + rows[row].at + from;
}

/* A SACK before an Add Outgoing Streams Request (RFC 6525 4.5), and before the types 14, 15 and 18 (4.2, 4.3, 4.6). */
static void requests(void) {
    static const uint8_t types[] = { 14, 15, 17, 18 };
    for (size_t i = 0; i < sizeof types; i++) {
        struct sctpr_param param = { 9, 9, 9 };
        uint32_t number = 9;
        size_t length = SEAL("\3\0\0\x10\0\0\0\x09\0\1\0\0\0\0\0\0" "\x82\0\0\x10\0?\0\x0c\0\0\0\1\0\1\0\0");
        packet[33] = types[i];
        CHECK(sctpr_seal_packet(&head, packet, length) == SCTPR_OK);
        reads(length, SCTPR_ERR_PARAM_TYPE_UNHANDLED, 2);
        CHECK(rows[0].type == SCTPR_SACK && rows[1].type == SCTPR_RECONFIG && rows[1].at == 28 && rows[1].is_known == 1);
        WITHOUT_MEMORY(sctpr_read_any_param(value_of(1, 4), rows[1].length - 4, &param), SCTPR_OK);
        CHECK(param.type == types[i] && param.length == 8 && param.next == 12);
        WITHOUT_MEMORY(sctpr_read_request(value_of(1, 4), rows[1].length - 4, &number), SCTPR_OK);
        CHECK(number == 1);
    }
}

/* Each answer by its number, "denied" (RFC 6525 4.4), and what is no request. */
static void responses(void) {
    static const struct sctpr_response denied = { 0x01020304, SCTPR_RESULT_DENIED };
    struct sctpr_response read = { 9, 9 };
    uint8_t out[13];
    uint32_t number = 9;
    size_t n = 0;
    memset(out, 'x', sizeof out);
    WITHOUT_MEMORY(sctpr_write_response(&denied, out, 11, &n), SCTPR_SHORT_BUFFER);
    CHECK(n == 12 && out[0] == 'x');
    WITHOUT_MEMORY(sctpr_write_response(&denied, out, sizeof out, &n), SCTPR_OK);
    CHECK(n == 12 && memcmp(out, "\0\x10\0\x0c\1\2\3\4\0\0\0\2x", 13) == 0);
    WITHOUT_MEMORY(sctpr_read_response(out, 12, &read), SCTPR_OK);
    CHECK(read.response == 0x01020304 && read.result == SCTPR_RESULT_DENIED);
    read.result = 9;
    CHECK(sctpr_read_request(out, 12, &number) == SCTPR_ERR_PARAM_TYPE_UNEXPECTED && number == 9);
    CHECK(sctpr_read_response((const uint8_t *)"\0\x10\0\x0b\1\2\3\4\0\0\0", 11, &read) == SCTPR_ERR_RECONFIG_RESP_PARAM_TOO_SHORT);
    CHECK(sctpr_read_response(out, 11, &read) == SCTPR_ERR_PARAM_HEADER_TOO_SHORT && read.result == 9);
    CHECK(sctpr_read_response(NULL, 0, &read) == SCTPR_ERR_PARAM_HEADER_TOO_SHORT);
    CHECK(sctpr_read_request((const uint8_t *)"\0\x0e\0\7abc", 7, &number) == SCTPR_ERR_SSN_RESET_REQUEST_PARAM_TOO_SHORT && number == 9);
}

/* An Outgoing SSN Reset Request of two streams (RFC 6525 4.1). */
static void reset(void) {
    static const uint8_t two[] = { 0, 13, 0, 20, 0, 0, 0, 1, 0, 0, 0, 2, 0, 0, 0, 3, 0, 4, 0xff, 5 };
    struct sctpr_reset read = { 9, 9, 9 };
    uint16_t streams[3] = { 9, 9, 9 };
    uint32_t number = 9;
    size_t count = 9;
    WITHOUT_MEMORY(sctpr_read_reset(two, sizeof two, &read, streams, 3, &count), SCTPR_OK);
    CHECK(read.request == 1 && read.response == 2 && read.last_tsn == 3 && count == 2);
    CHECK(streams[0] == 4 && streams[1] == 0xff05 && streams[2] == 9);
    CHECK(sctpr_read_request(two, sizeof two, &number) == SCTPR_OK && number == 1);
    streams[1] = 9;
    CHECK(sctpr_read_reset(two, sizeof two, &read, streams, 1, &count) == SCTPR_OK && count == 2 && streams[1] == 9);
    CHECK(sctpr_read_reset(two, sizeof two, &read, NULL, 0, &count) == SCTPR_OK && count == 2);
    count = 9;
    CHECK(sctpr_read_reset(two, 19, &read, streams, 3, &count) == SCTPR_ERR_PARAM_HEADER_TOO_SHORT && count == 9);
    CHECK(sctpr_read_reset((const uint8_t *)"\0\x0d\0\x0f" "abcdefghijk", 15, &read, streams, 3, &count) ==
          SCTPR_ERR_SSN_RESET_REQUEST_PARAM_TOO_SHORT);
    CHECK(sctpr_read_reset((const uint8_t *)"\0\x0d\0\x11" "abcdefghijklm", 17, &read, streams, 3, &count) ==
          SCTPR_ERR_SSN_RESET_REQUEST_PARAM_INVALID_LENGTH);
    CHECK(sctpr_read_reset((const uint8_t *)"\0\x10\0\4", 4, &read, streams, 3, &count) == SCTPR_ERR_PARAM_TYPE_UNEXPECTED);
    CHECK(read.request == 1 && count == 9);
}

/* A cause of five bytes with its padding, and one behind it, in an ERROR and in an ABORT (RFC 9260 3.3.7, 3.3.10). */
static void padded_cause(uint8_t type) {
    struct sctpr_cause cause = { 9, 9, 9 };
    size_t length = SEAL("\x09\0\0\x14\0\6\0\x09\x40\7\0\5v\0\0\0\0\x0c\0\4" "\3\0\0\x10\0\0\0\x09\0\1\0\0\0\0\0\0");
    packet[12] = type;
    CHECK(sctpr_seal_packet(&head, packet, length) == SCTPR_OK);
    reads(length, SCTPR_ERR_ERROR_CAUSE_TOO_SMALL, 2);
    CHECK(rows[0].type == type && rows[0].length == 20 && rows[1].type == SCTPR_SACK);
    CHECK(sctpr_read_cause(value_of(0, 4), 16, &cause) == SCTPR_OK && cause.code == SCTPR_CAUSE_UNRECOGNIZED_CHUNK_TYPE && cause.next == 12);
    CHECK(sctpr_read_cause(value_of(0, 16), 4, &cause) == SCTPR_OK && cause.code == SCTPR_CAUSE_USER_INITIATED_ABORT && cause.next == 4);
}

/* Padding of any bytes is ignored (RFC 9260 3.2): behind a DATA chunk of 17 bytes, behind an unknown chunk before it, and in its bytes. */
static void padding(void) {
    struct sctpr_data data;
    size_t length = SEAL("\xc1\0\0\5a\xff\xff\xff" "\0\3\0\x11\0\0\0\5\0\1\0\0\0\0\0\x33!\xff\xff\xff");
    reads(length, SCTPR_UNKNOWN_CHUNK, 2);
    length = SEAL("\0\3\0\x11\0\0\0\5\0\1\0\0\0\0\0\x33!\xff\0\0");
    reads(length, SCTPR_ERR_CHUNK_HEADER_PADDING_NON_ZERO, 1);
    WITHOUT_MEMORY(sctpr_read_data(value_of(0, 0), 20, &data), SCTPR_OK);
    CHECK(data.tsn == 5 && data.length == 1);
}

/* Flags 5, an IPv4 address, a cookie preservative, extensions (RFC 9260 3.3.2; RFC 5061 4.2.7): each told by type and place. */
static void init(void) {
    static const uint16_t types[] = { 5, 9, 32776 };
    static const size_t lengths[] = { 4, 4, 2 }, next[] = { 8, 8, 6 };
    struct sctpr_init read;
    struct sctpr_param param = { 9, 9, 9 };
    size_t length = SEAL("\1\5\0\x2a\0\0\0\7\0\1\0\0\0\x08\0\x10\xff\xff\xff\xf0"
                         "\0\5\0\x08\xc0\0\2\1" "\0\x09\0\x08\0\0\3\xe8" "\x80\x08\0\6\x82\xc0\0\0");
    reads(length, SCTPR_ERR_CHUNK_TYPE_INIT_FLAG_ZERO, 1);
    CHECK(rows[0].type == SCTPR_INIT && rows[0].flags == 5 && rows[0].length == 42);
    WITHOUT_MEMORY(sctpr_read_init(value_of(0, 0), rows[0].length, &read), SCTPR_OK);
    CHECK(read.initiate_tag == 7 && read.credit == 65536 && read.outbound_streams == 8 && read.inbound_streams == 16);
    CHECK(read.initial_tsn == 0xfffffff0 && read.is_ack == 0);
    for (size_t at = 20, i = 0; at < rows[0].length && i < 3; at += param.next, i++) {
        CHECK(sctpr_read_any_param(value_of(0, at), rows[0].length - at, &param) == SCTPR_OK);
        CHECK(param.type == types[i] && param.length == lengths[i] && param.next == next[i]);
    }
    CHECK(sctpr_read_init(value_of(0, 0), 41, &read) == SCTPR_ERR_CHUNK_HEADER_NOT_ENOUGH_SPACE);
    CHECK(sctpr_read_init((const uint8_t *)"\1\0\0\4", 4, &read) == SCTPR_ERR_CHUNK_VALUE_NOT_LONG_ENOUGH);
    CHECK(sctpr_read_init((const uint8_t *)"\3\0\0\4", 4, &read) == SCTPR_ERR_CHUNK_TYPE_NOT_TYPE_INIT && read.initiate_tag == 7);
    param.type = 9;
    CHECK(sctpr_read_any_param((const uint8_t *)"\0\5\0\3", 4, &param) == SCTPR_ERR_PARAM_HEADER_TOO_SHORT);
    CHECK(sctpr_read_any_param((const uint8_t *)"\0\5\0\5", 4, &param) == SCTPR_ERR_PARAM_HEADER_TOO_SHORT);
    CHECK(sctpr_read_any_param(NULL, 0, &param) == SCTPR_ERR_PARAM_HEADER_TOO_SHORT && param.type == 9);
}

/* DATA is written and read with any payload type: 99, TSN 5, stream 1; and the greatest one (RFC 9260 3.3.1). */
static void payload_types(void) {
    static const uint8_t value[] = "\0\0\0\5\0\1\0\0\0\0\0\x63!";
    uint8_t out[20];
    size_t n = 5;
    struct sctpr_data data;
    CHECK(sctpr_write_chunk_with_flags(SCTPR_DATA, 3, value, 13, out, 19, &n) == SCTPR_SHORT_BUFFER && n == 20);
    TRY(sctpr_write_chunk_with_flags(SCTPR_DATA, 3, value, 13, out, 20, &n), SCTPR_OK, 1);
    CHECK(n == 20 && memcmp(out, "\0\3\0\x11", 4) == 0 && memcmp(out + 4, value, 13) == 0 && out[17] == 0 && out[19] == 0);
    CHECK(sctpr_read_data(out, 20, &data) == SCTPR_OK && data.payload_type == 99 && data.tsn == 5 && data.length == 1);
    memset(out + 12, 0xff, 4);
    CHECK(sctpr_read_data(out, 20, &data) == SCTPR_OK && data.payload_type == 0xffffffffu);
    CHECK(sctpr_write_chunk(SCTPR_DATA, value, 11, out, 20, &n) == SCTPR_ERR_CHUNK_PAYLOAD_SMALL && n == 20);
}

/* A chunk that the library would write otherwise is refused, and nothing is written. */
static void as_given(void) {
    uint8_t out[40];
    size_t n = 5;
    memset(out, 'x', sizeof out);
    /* a response with the result 9 (RFC 6525 4.4) */
    CHECK(sctpr_write_chunk(SCTPR_RECONFIG, (const uint8_t *)"\0\x10\0\x0c\0\0\0\1\0\0\0\x09", 12, out, 40, &n) == SCTPR_NOT_AS_GIVEN);
    CHECK(sctpr_write_chunk(SCTPR_COOKIE_ACK, (const uint8_t *)"a", 1, out, 40, &n) == SCTPR_NOT_AS_GIVEN);
    CHECK(sctpr_write_chunk(SCTPR_SHUTDOWN_ACK, (const uint8_t *)"\0\0", 2, out, 40, &n) == SCTPR_NOT_AS_GIVEN);
    CHECK(sctpr_write_chunk(SCTPR_SHUTDOWN_COMPLETE, (const uint8_t *)"abcd", 4, out, 40, &n) == SCTPR_NOT_AS_GIVEN);
    /* a SACK with no block and no duplicate, and a byte behind it */
    CHECK(sctpr_write_chunk(SCTPR_SACK, (const uint8_t *)"\0\0\0\x09\0\1\0\0\0\0\0\0!", 13, out, 40, &n) == SCTPR_NOT_AS_GIVEN);
    CHECK(n == 5 && out[0] == 'x');
    CHECK(sctpr_write_chunk(SCTPR_SACK, (const uint8_t *)"\0\0\0\x09\0\1\0\0\0\0\0\0", 12, out, 40, &n) == SCTPR_OK && n == 16);
    CHECK(sctpr_write_chunk(SCTPR_RECONFIG, (const uint8_t *)"\0\x10\0\x0c\0\0\0\1\0\0\0\6", 12, out, 40, &n) == SCTPR_OK && n == 16);
}

int main(void) {
    requests();
    responses();
    reset();
    padded_cause(SCTPR_ERROR);
    padded_cause(SCTPR_ABORT);
    init();
    padding();
    payload_types();
    as_given();
    return report("allowed");
}
