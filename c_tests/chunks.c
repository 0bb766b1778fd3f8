/* Chunks and parameters: written, read, and refused. */
#include "check.h"

static void put32(uint8_t *at, uint32_t n) {
    for (int i = 0; i < 4; i++) at[i] = (uint8_t)(n >> (24 - 8 * i));
}

static void data(void) {
    /* flags I, U, B; TSN 0xfffffff0, stream 2, sequence 3, type 51, "hello" (RFC 4960 3.3.1) */
    static const uint8_t chunk[] = { 0, 0x0e, 0, 21, 0xff, 0xff, 0xff, 0xf0, 0, 2, 0, 3, 0, 0, 0, 51, 'h', 'e', 'l', 'l', 'o' };
    struct sctpr_data d;
    memset(&d, 7, sizeof d);
    WITHOUT_MEMORY(sctpr_read_data(chunk, sizeof chunk, &d), SCTPR_OK);
    CHECK(d.length == 5 && d.tsn == 0xfffffff0 && d.stream == 2 && d.sequence == 3 && d.payload_type == SCTPR_PPID_STRING);
    CHECK(d.is_unordered == 1 && d.begins == 1 && d.ends == 0 && d.wants_sack == 1);
    d.tsn = 5;
    CHECK(sctpr_read_data(chunk, 20, &d) == SCTPR_ERR_CHUNK_HEADER_NOT_ENOUGH_SPACE);
    CHECK(sctpr_read_data((const uint8_t *)"\0\0\0\5x", 5, &d) == SCTPR_ERR_CHUNK_PAYLOAD_SMALL);
    CHECK(sctpr_read_data((const uint8_t *)"\3\0\0\4", 4, &d) == SCTPR_ERR_CHUNK_TYPE_NOT_PAYLOAD_DATA);
    CHECK(sctpr_read_data(NULL, 0, &d) == SCTPR_ERR_CHUNK_HEADER_TOO_SMALL);
    CHECK(d.tsn == 5 && d.length == 5);
}

static void sack(void) {
    static const uint8_t value[] = { 0, 0, 0, 9, 0, 1, 0, 0, 0, 2, 0, 1, 0, 2, 0, 3, 0, 5, 0, 5, 0, 0, 0, 7 };
    uint8_t chunk[28];
    struct sctpr_sack s = { 9, 9, 9, 9 };
    struct sctpr_gap gaps[3];
    uint32_t duplicates[2] = { 8, 8 };
    size_t n = 0;
    memset(gaps, 7, sizeof gaps);
    CHECK(sctpr_write_chunk(SCTPR_SACK, value, sizeof value, chunk, sizeof chunk, &n) == SCTPR_OK && n == 28);
    CHECK(memcmp(chunk, "\3\0\0\x1c", 4) == 0 && memcmp(chunk + 4, value, sizeof value) == 0);
    WITHOUT_MEMORY(sctpr_read_sack(chunk, n, &s, gaps, 3, duplicates, 2), SCTPR_OK);
    CHECK(s.blocks == 2 && s.duplicates == 1 && s.cumulative_tsn == 9 && s.credit == 65536);
    CHECK(gaps[0].start == 2 && gaps[0].end == 3 && gaps[1].start == 5 && gaps[1].end == 5 && gaps[2].start == 0x0707);
    CHECK(duplicates[0] == 7 && duplicates[1] == 8);
    memset(gaps, 7, sizeof gaps);
    CHECK(sctpr_read_sack(chunk, n, &s, gaps, 1, NULL, 0) == SCTPR_OK && s.blocks == 2 && gaps[0].end == 3 && gaps[1].end == 0x0707);
    s.blocks = 9;
    chunk[13] = 3;
    CHECK(sctpr_read_sack(chunk, n, &s, gaps, 3, duplicates, 2) == SCTPR_ERR_SACK_SIZE_NOT_LARGE_ENOUGH_INFO && s.blocks == 9);
}

static void forward_tsn(void) {
    static const uint8_t chunk[] = { 192, 0, 0, 16, 0, 0, 0, 9, 0, 1, 0, 2, 0, 3, 0, 4 };
    uint32_t tsn = 5;
    size_t count = 5;
    struct sctpr_skip skips[3] = { { 5, 5 }, { 5, 5 }, { 5, 5 } };
    REFUSE_EACH(sctpr_read_forward_tsn(chunk, sizeof chunk, &tsn, skips, 3, &count), SCTPR_OK,
                tsn == 5 && count == 5 && skips[0].stream == 5);
    CHECK(tsn == 9 && count == 2 && skips[0].stream == 1 && skips[0].sequence == 2 && skips[1].sequence == 4 && skips[2].stream == 5);
    CHECK(sctpr_read_forward_tsn(chunk, sizeof chunk, &tsn, NULL, 0, &count) == SCTPR_OK && count == 2);
    CHECK(sctpr_read_forward_tsn((const uint8_t *)"\xc0\0\0\7abc", 7, &tsn, skips, 3, &count) == SCTPR_ERR_CHUNK_TOO_SHORT && tsn == 9);
}

/* An INIT with two parameters, written and read again. */
static void init(void) {
    const struct sctpr_init wanted = { 0x1234, 65536, 0xfffffff0, 8, 16, 0 };
    struct sctpr_init got;
    struct sctpr_param param = { 9, 9, 9 };
    uint8_t params[32], chunk[64];
    size_t n = 0, m = 0, length = 0;
    CHECK(sctpr_write_param(SCTPR_PARAM_FORWARD_TSN_SUPPORTED, NULL, 0, params, sizeof params, &n) == SCTPR_OK && n == 4);
    REFUSE_EACH(sctpr_write_param(SCTPR_PARAM_STATE_COOKIE, (const uint8_t *)"a cookie!", 9, params + n, sizeof params - n, &m), SCTPR_OK,
                m == 0);
    CHECK(m == 16 && memcmp(params + 4, "\0\7\0\x0d" "a cookie!\0\0\0", 16) == 0);
    memset(chunk, 'x', sizeof chunk);
    REFUSE_EACH(sctpr_write_init(&wanted, params, n + m, chunk, sizeof chunk, &length), SCTPR_OK, length == 0 && chunk[0] == 'x');
    /* the chunk's length has the padding between its parameters, and not the one behind the last (RFC 4960 3.2) */
    CHECK(length == 40 && memcmp(chunk, "\1\0\0\x25\0\0\x12\x34\0\1\0\0\0\x08\0\x10\xff\xff\xff\xf0", 20) == 0 && chunk[40] == 'x');
    memset(&got, 7, sizeof got);
    WITHOUT_MEMORY(sctpr_read_init(chunk, length, &got), SCTPR_OK);
    CHECK(got.initiate_tag == 0x1234 && got.credit == 65536 && got.initial_tsn == 0xfffffff0);
    CHECK(got.outbound_streams == 8 && got.inbound_streams == 16 && got.is_ack == 0);
    REFUSE_EACH(sctpr_read_param(chunk + 20, length - 20, &param), SCTPR_OK, param.type == 9 && param.next == 9);
    CHECK(param.type == SCTPR_PARAM_FORWARD_TSN_SUPPORTED && param.length == 0 && param.next == 4);
    CHECK(sctpr_read_param(chunk + 24, length - 24, &param) == SCTPR_OK && param.type == SCTPR_PARAM_STATE_COOKIE);
    CHECK(param.length == 9 && param.next == 16);
    CHECK(sctpr_read_param(chunk + 24, 13, &param) == SCTPR_OK && param.next == 13);
    param.type = 9;
    CHECK(sctpr_read_param((const uint8_t *)"\0\5\0\x08\1\2\3\4", 8, &param) == SCTPR_ERR_PARAM_TYPE_UNHANDLED && param.type == 9);
    CHECK(sctpr_read_param(NULL, 0, &param) == SCTPR_ERR_PARAM_HEADER_TOO_SHORT);
    chunk[1] = 1;
    CHECK(sctpr_read_init(chunk, length, &got) == SCTPR_OK && got.initiate_tag == 0x1234);
}

static void init_ack(void) {
    const struct sctpr_init wanted = { 1, 2, 3, 4, 5, 200 };
    struct sctpr_init got;
    uint8_t chunk[20];
    size_t length = 0;
    CHECK(sctpr_write_init(&wanted, NULL, 0, chunk, 19, &length) == SCTPR_SHORT_BUFFER && length == 20);
    CHECK(sctpr_write_init(&wanted, NULL, 0, chunk, 20, &length) == SCTPR_OK && chunk[0] == SCTPR_INIT_ACK);
    CHECK(sctpr_read_init(chunk, 20, &got) == SCTPR_OK && got.is_ack == 1 && got.inbound_streams == 5);
}

static void write_chunk(void) {
    static uint8_t big[65536];
    static uint8_t out[65540];
    uint8_t heartbeat[12];
    size_t n = 5;
    put32(heartbeat, 0x00010008);
    put32(heartbeat + 4, 0x01020304);
    memset(out, 'x', 20);
    REFUSE_EACH(sctpr_write_chunk(SCTPR_HEARTBEAT, heartbeat, 8, out, 20, &n), SCTPR_OK, n == 5 && out[0] == 'x');
    CHECK(n == 12 && memcmp(out, "\4\0\0\x0c", 4) == 0 && memcmp(out + 4, heartbeat, 8) == 0 && out[12] == 'x');
    CHECK(sctpr_write_chunk(SCTPR_COOKIE_ECHO, (const uint8_t *)"abcde", 5, out, 20, &n) == SCTPR_OK && n == 12);
    CHECK(memcmp(out, "\x0a\0\0\x09" "abcde\0\0\0x", 13) == 0);
    n = 5;
    CHECK(sctpr_write_chunk(99, NULL, 0, out, 20, &n) == SCTPR_UNKNOWN_CHUNK && n == 5);
    CHECK(sctpr_write_chunk(SCTPR_SHUTDOWN, NULL, 0, out, 20, &n) == SCTPR_ERR_INVALID_CHUNK_SIZE && n == 5);
    CHECK(sctpr_write_chunk(SCTPR_COOKIE_ECHO, big, 65532, out, sizeof out, &n) == SCTPR_LENGTH_TOO_LARGE && n == 5);
    CHECK(out[0] == SCTPR_COOKIE_ECHO && out[3] == 9);
    CHECK(sctpr_write_chunk(SCTPR_COOKIE_ECHO, big, 65531, out, 65535, &n) == SCTPR_SHORT_BUFFER && n == 65536 && out[3] == 9);
    CHECK(sctpr_write_chunk(SCTPR_COOKIE_ECHO, big, 65531, out, sizeof out, &n) == SCTPR_OK && n == 65536 && out[2] == 255 && out[3] == 255);
    CHECK(sctpr_write_param(SCTPR_PARAM_STATE_COOKIE, big, 65532, out, sizeof out, &n) == SCTPR_LENGTH_TOO_LARGE);
    CHECK(sctpr_write_chunk(SCTPR_COOKIE_ACK, NULL, 0, NULL, 0, &n) == SCTPR_SHORT_BUFFER && n == 4);
}

int main(void) {
    data();
    sack();
    forward_tsn();
    init();
    init_ack();
    write_chunk();
    return report("chunks");
}
