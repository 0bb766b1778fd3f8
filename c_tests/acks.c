/* SACKs that are out of date, a SHUTDOWN's TSN, and a FORWARD-TSN for which there is no room. */
#include "check.h"

static sctpr_sender sender;
static struct sctpr_acked rows[4];

/* A SACK up to a TSN (RFC 4960 3.3.4). */
static const uint8_t *sack_up_to(uint32_t tsn) {
    static uint8_t chunk[16];
    memcpy(chunk, "\3\0\0\x10\0\0\0\0\0\1\0\0\0\0\0\0", 16);
    for (int i = 0; i < 4; i++) chunk[4 + i] = (uint8_t)(tsn >> (24 - 8 * i));
    return chunk;
}

/* A sender with so many messages of one byte in flight, from TSN 0xffffffff on. */
static void begin(int messages) {
    uint8_t out[64];
    size_t n, fragments;
    uint64_t number;
    uint32_t tsn;
    CHECK(sctpr_sender_new(0xffffffff, 100, 1000, 1, &sender) == SCTPR_OK && sctpr_sender_open(&sender, 3) == SCTPR_OK);
    for (int i = 0; i < messages; i++) {
        CHECK(sctpr_sender_write(&sender, 3, SCTPR_PPID_BINARY, (const uint8_t *)"!", 1, &number, &fragments) == SCTPR_OK);
        CHECK(sctpr_sender_send_next(&sender, 1, out, sizeof out, &n, &tsn) == SCTPR_OK);
    }
    memset(rows, 7, sizeof rows);
}

static void stale(void) {
    struct sctpr_taken_back back[4];
    size_t count = 9;
    begin(3);
    CHECK(sctpr_sender_acked(&sender, sack_up_to(0), 16, rows, 4, &count) == SCTPR_OK && count == 2 && rows[1].tsn == 0);
    /* the same once more is not out of date */
    CHECK(sctpr_sender_acked(&sender, sack_up_to(0), 16, rows, 4, &count) == SCTPR_OK && count == 0);
    memset(rows, 7, sizeof rows);
    count = 9;
    CHECK(sctpr_sender_acked(&sender, sack_up_to(0xffffffff), 16, rows, 4, &count) == SCTPR_STALE && count == 0 && rows[0].tsn == 0x07070707);
    count = 9;
    CHECK(sctpr_sender_take_back(&sender, sack_up_to(0xffffffff), 16, back, 4, &count) == SCTPR_STALE && count == 0);
    CHECK(sctpr_sender_take_back(&sender, sack_up_to(0), 16, back, 4, &count) == SCTPR_OK && count == 0);
    CHECK(sctpr_sender_acked(&sender, sack_up_to(0xffffffff), 16, NULL, 0, &count) == SCTPR_STALE && count == 0);
    CHECK(sctpr_sender_acked(&sender, sack_up_to(2), 16, rows, 4, &count) == SCTPR_SACK_BEYOND_SENT && count == 0);
    CHECK(sctpr_sender_acked_tsn(&sender) == 0 && sctpr_sender_bytes_in_flight(&sender) == 1);
    sctpr_sender_free(&sender);
    CHECK(held == 0);
}

/* A caller that wants no rows hands in none: the SACK counts, and a length says of how many chunks. */
static void without_rows(void) {
    struct sctpr_taken_back back[1];
    size_t count = 9;
    begin(3);
    CHECK(sctpr_sender_acked(&sender, sack_up_to(0), 16, rows, 2, &count) == SCTPR_SHORT_BUFFER && count == 3);
    CHECK(sctpr_sender_take_back(&sender, sack_up_to(0), 16, back, 1, &count) == SCTPR_SHORT_BUFFER && count == 3);
    CHECK(sctpr_sender_take_back(&sender, sack_up_to(0), 16, NULL, 0, &count) == SCTPR_OK && count == 0);
    CHECK(sctpr_sender_acked(&sender, sack_up_to(0), 16, NULL, 0, &count) == SCTPR_OK && count == 2);
    CHECK(sctpr_sender_acked_tsn(&sender) == 0 && sctpr_sender_chunks_in_flight(&sender) == 1);
    CHECK(sctpr_sender_acked_up_to(&sender, 1, NULL, 0, &count) == SCTPR_OK && count == 1 && sctpr_sender_is_drained(&sender, 3) == 1);
    sctpr_sender_free(&sender);
    CHECK(held == 0);
}

static void up_to(void) {
    size_t count = 9;
    begin(3);
    CHECK(sctpr_sender_acked_up_to(&sender, 0, rows, 2, &count) == SCTPR_SHORT_BUFFER && count == 3);
    CHECK(sctpr_sender_acked_up_to(&sender, 2, rows, 4, &count) == SCTPR_SACK_BEYOND_SENT && count == 3 && rows[0].tsn == 0x07070707);
    TRY(sctpr_sender_acked_up_to(&sender, 0, rows, 4, &count), SCTPR_OK,
        count == 3 && sctpr_sender_chunks_in_flight(&sender) == 3 && rows[0].tsn == 0x07070707);
    CHECK(count == 2 && rows[0].tsn == 0xffffffff && rows[1].tsn == 0 && rows[1].is_message_acked == 1 && rows[2].tsn == 0x07070707);
    CHECK(sctpr_sender_acked_tsn(&sender) == 0 && sctpr_sender_chunks_in_flight(&sender) == 1);
    CHECK(sctpr_sender_acked_up_to(&sender, 0xffffffff, rows, 4, &count) == SCTPR_STALE && count == 0 && rows[0].tsn == 0xffffffff);
    CHECK(sctpr_sender_acked_up_to(&sender, 1, rows, 4, &count) == SCTPR_OK && count == 1 && sctpr_sender_is_drained(&sender, 3) == 1);
    sctpr_sender_free(&sender);
    CHECK(held == 0);
}

/* Two messages of two streams are abandoned: a FORWARD-TSN of 16 bytes, of which the first name fits 12 (RFC 3758 3.2). */
static void forward_tsn(void) {
    uint8_t out[64];
    struct sctpr_abandoned row;
    size_t n = 9, fragments;
    uint64_t number;
    uint32_t tsn;
    begin(1);
    CHECK(sctpr_sender_open(&sender, 4) == SCTPR_OK);
    CHECK(sctpr_sender_write(&sender, 4, SCTPR_PPID_BINARY, (const uint8_t *)"?", 1, &number, &fragments) == SCTPR_OK);
    CHECK(sctpr_sender_send_next(&sender, 1, out, sizeof out, &n, &tsn) == SCTPR_OK && tsn == 0);
    n = 9;
    CHECK(sctpr_sender_forward_tsn(&sender, out, 64, &n) == SCTPR_NOTHING && sctpr_sender_forward_tsn(&sender, NULL, 0, &n) == SCTPR_NOTHING && n == 9);
    CHECK(sctpr_sender_abandon(&sender, 0xffffffff, &row) == SCTPR_OK && sctpr_sender_abandon(&sender, 0, &row) == SCTPR_OK);
    memset(out, 'x', sizeof out);
    CHECK(sctpr_sender_forward_tsn(&sender, out, 11, &n) == SCTPR_SHORT_BUFFER && n == 16 && out[0] == 'x');
    CHECK(sctpr_sender_forward_tsn(&sender, NULL, 0, &n) == SCTPR_SHORT_BUFFER && n == 16);
    CHECK(sctpr_sender_forward_tsn(&sender, out, 15, &n) == SCTPR_OK && n == 12);
    CHECK(memcmp(out, "\xc0\0\0\x0c\xff\xff\xff\xff\0\3\0\0x", 13) == 0);
    CHECK(sctpr_sender_forward_tsn(&sender, out, 16, &n) == SCTPR_OK && n == 16);
    CHECK(memcmp(out, "\xc0\0\0\x10\0\0\0\0\0\3\0\0\0\4\0\0x", 17) == 0);
    n = 9;
    TRY(sctpr_sender_forward_tsn(&sender, out, 8, &n), SCTPR_SHORT_BUFFER, n == 9);
    CHECK(n == 16);
    sctpr_sender_free(&sender);
    CHECK(held == 0);
}

int main(void) {
    stale();
    without_rows();
    up_to();
    forward_tsn();
    return report("acks");
}
