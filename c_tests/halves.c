/* A sender and a receiver behind handles: messages go over, whatever allocation is refused, and each refusal changes nothing. */
#include "check.h"

static sctpr_sender sender;
static sctpr_receiver receiver;

/* Whether the receiver's stream 3 is not open. */
static int is_closed(void) {
    size_t size;
    uint32_t type;
    return sctpr_receiver_next_length(&receiver, 3, &size, &type) == SCTPR_STREAM_UNKNOWN;
}

/* Whether the sender tells so many outstanding bytes and chunks that are not marked, and so many that are. */
static int tells(size_t bytes, size_t chunks, size_t marked) {
    struct sctpr_outstanding row = { 9, 9, 9 };
    sctpr_sender_outstanding(&sender, &row);
    return row.bytes == bytes && row.chunks == chunks && row.marked == marked;
}

static void open_both(uint32_t tsn, uint32_t fragment_size) {
    TRY(sctpr_sender_new(tsn, fragment_size, 1 << 16, 0, &sender), SCTPR_OK, held == 0);
    TRY(sctpr_receiver_new(tsn, 1 << 16, 1 << 20, 4096, &receiver), SCTPR_OK, 1);
    TRY(sctpr_sender_open(&sender, 3), SCTPR_OK, sctpr_sender_set_mode(&sender, 3, 0, SCTPR_RELIABLE, 0) == SCTPR_STREAM_UNKNOWN);
    TRY(sctpr_receiver_open(&receiver, 3), SCTPR_OK, is_closed());
    CHECK(sctpr_sender_open(&sender, 3) == SCTPR_STREAM_OPEN && sctpr_receiver_open(&receiver, 3) == SCTPR_STREAM_OPEN);
}

static void free_both(void) {
    sctpr_sender_free(&sender);
    sctpr_receiver_free(&receiver);
    CHECK(held == 0);
}

/* Of a handle that is empty, or of none, nothing is freed; after the first call a handle is empty. */
static void freed(void) {
    sctpr_sender none = { NULL };
    sctpr_receiver no = { NULL };
    sctpr_sender_free(NULL);
    sctpr_receiver_free(NULL);
    sctpr_sender_free(&none);
    sctpr_receiver_free(&no);
    open_both(1000, 1000);
    free_both();
    free_both();
    CHECK(sender.at == NULL && receiver.at == NULL);
}

/* What only looks takes a handle that it can't write. */
static void observers(void) {
    const sctpr_sender *s = &sender;
    const sctpr_receiver *r = &receiver;
    struct sctpr_in_flight row;
    struct sctpr_outstanding told;
    size_t n;
    uint16_t stream;
    uint32_t tsn, type;
    uint64_t at;
    open_both(1000, 1000);
    CHECK(sctpr_receiver_next_length(r, 3, &n, &type) == SCTPR_NOTHING && sctpr_receiver_readable_streams(r, &stream, 1, &n) == SCTPR_OK && n == 0);
    CHECK(sctpr_receiver_cumulative_tsn(r) == 999 && sctpr_receiver_window(r) == 1 << 20 && sctpr_receiver_held_bytes(r) == 0);
    CHECK(sctpr_sender_in_flight(s, 1000, &row) == SCTPR_NOT_IN_FLIGHT && sctpr_sender_in_flight_at(s, 0, &row) == SCTPR_NOTHING);
    CHECK(sctpr_sender_next_to_retransmit(s, &row) == SCTPR_NOTHING && sctpr_sender_earliest_outstanding(s, &tsn) == SCTPR_NOTHING);
    CHECK(sctpr_sender_next_tsn(s) == 1000 && sctpr_sender_acked_tsn(s) == 999 && sctpr_sender_advanced_ack_point(s) == 999);
    CHECK(sctpr_sender_bytes_in_flight(s) == 0 && sctpr_sender_chunks_in_flight(s) == 0 && sctpr_sender_pending(s) == 0);
    sctpr_sender_outstanding(s, &told);
    CHECK(told.bytes == 0 && sctpr_sender_next_timeout(s, &at) == SCTPR_NOTHING);
    CHECK(sctpr_sender_buffered_amount(s, 3, &n) == SCTPR_OK && n == 0 && sctpr_sender_is_drained(s, 3) == 1);
    free_both();
}

/* Begins with five messages of one chunk each in flight, from TSN 1000 on. */
static void five_in_flight(void) {
    uint8_t chunk[64];
    size_t n, fragments;
    uint64_t number;
    uint32_t tsn;
    open_both(1000, 100);
    for (int i = 0; i < 5; i++) {
        CHECK(sctpr_sender_write(&sender, 3, SCTPR_PPID_BINARY, (const uint8_t *)"gap", 3, &number, &fragments) == SCTPR_OK);
        CHECK(sctpr_sender_send_next(&sender, 1, chunk, sizeof chunk, &n, &tsn) == SCTPR_OK);
    }
}

/* Of misses it is told what the third one newly marks (RFC 9260 7.2.4), once; and none of what T3-rtx marked: no fast recovery begins. */
static void newly_marked(void) {
    five_in_flight();
    for (int i = 0; i < 5; i++) CHECK(sctpr_sender_add_miss_indications(&sender, 1004) == (i == 2 ? 4 : 0));
    CHECK(tells(3, 1, 4));
    free_both();
    five_in_flight();
    sctpr_sender_retransmit_all(&sender);
    CHECK(tells(0, 0, 5));
    for (int i = 0; i < 5; i++) CHECK(sctpr_sender_add_miss_indications(&sender, 1004) == 0);
    CHECK(tells(0, 0, 5));
    free_both();
}

enum { SHORT = 60, WINDOW = 100000 };

/* Sends what the credit allows at once, of so many messages of 60 bytes that wait: how many are refused for the window. */
static size_t refused_within(size_t credit) {
    uint8_t chunk[SHORT + 16], complete;
    size_t n, sent = 0, refusals = 0;
    uint32_t tsn;
    for (; sent + SHORT <= credit && sctpr_sender_send_next(&sender, 1, chunk, sizeof chunk, &n, &tsn) == SCTPR_OK; sent += SHORT) {
        sctpr_code code = sctpr_receiver_data(&receiver, chunk, n, &complete);
        CHECK(code == SCTPR_OK || code == SCTPR_WINDOW_FULL);
        refusals += code == SCTPR_WINDOW_FULL;
    }
    return refusals;
}

/* Of 2,000 messages of 60 bytes within the credit none is refused, whether they are read in between or not, where it is that of SCTPR_CREDIT;
 * within the whole window many are, since a chunk counts 400 bytes more. */
static void credit(void) {
    static const uint8_t message[SHORT];
    uint8_t bytes[SHORT];
    for (int is_whole = 0; is_whole < 2; is_whole++) {
        size_t fragments, size, refusals = 0, rounds = 0;
        uint64_t number;
        uint32_t type;
        CHECK(sctpr_sender_new(1, SHORT, SHORT, 0, &sender) == SCTPR_OK && sctpr_receiver_new(1, SHORT, WINDOW, 4096, &receiver) == SCTPR_OK);
        CHECK(sctpr_sender_open(&sender, 3) == SCTPR_OK && sctpr_receiver_open(&receiver, 3) == SCTPR_OK);
        for (int i = 0; i < 2000; i++) CHECK(sctpr_sender_write(&sender, 3, SCTPR_PPID_BINARY, message, SHORT, &number, &fragments) == SCTPR_OK);
        for (; rounds < 100 && sctpr_sender_pending(&sender) > 0; rounds++) {
            size_t window = sctpr_receiver_window(&receiver);
            refusals += refused_within(is_whole ? window : SCTPR_CREDIT(window, SHORT));
            for (size_t i = 0; i < 50 * (rounds % 3); i++) CHECK(sctpr_receiver_read(&receiver, 3, bytes, SHORT, &size, &type) <= SCTPR_NOTHING);
        }
        CHECK(is_whole ? refusals > 1000 : refusals == 0 && rounds < 100 && sctpr_receiver_cumulative_tsn(&receiver) == 2000);
        free_both();
    }
    CHECK(SCTPR_CREDIT(100000, 60) == 13020 && SCTPR_CREDIT(459, 60) == 0 && SCTPR_CREDIT(1600, 1200) == 1200);
}

/* What would be a trap is refused: a window in which a message of 65,536 bytes, two chunks, never fits; and a write to a stream that is not
 * open, before memory is asked for. */
static void traps(void) {
    size_t fragments = 5;
    uint64_t number = 5;
    CHECK(SCTPR_LEAST_WINDOW(65536, 65519) == 66336 && SCTPR_LEAST_WINDOW(1200, 1200) == 1600 && SCTPR_LEAST_WINDOW(1201, 1200) == 2001);
    WITHOUT_MEMORY(sctpr_receiver_new(1, 65536, 66335, 9, &receiver), SCTPR_INVALID);
    WITHOUT_MEMORY(sctpr_receiver_new(1, 65536, 66336, 0, &receiver), SCTPR_INVALID);
    WITHOUT_MEMORY(sctpr_receiver_new(1, 0, 0, 9, &receiver), SCTPR_INVALID);
    TRY(sctpr_receiver_new(1, 65536, 66336, 9, &receiver), SCTPR_OK, held == 0);
    sctpr_receiver_free(&receiver);
    open_both(1000, 1000);
    WITHOUT_MEMORY(sctpr_sender_write(&sender, 4, SCTPR_PPID_BINARY, (const uint8_t *)"a", 1, &number, &fragments), SCTPR_STREAM_UNKNOWN);
    WITHOUT_MEMORY(sctpr_sender_write(&sender, 4, 99, (const uint8_t *)"a", 1, &number, &fragments), SCTPR_STREAM_UNKNOWN);
    CHECK(number == 5 && fragments == 5 && sctpr_sender_pending(&sender) == 0);
    free_both();
}

static void refused(void) {
    size_t n = 5;
    uint32_t tsn = 5;
    uint8_t out[64], complete = 7;
    sctpr_sender none;
    CHECK(sctpr_sender_new(0, 0, 9, 0, &none) == SCTPR_INVALID && sctpr_sender_new(0, 65520, 9, 0, &none) == SCTPR_INVALID);
    open_both(1000, 1000);
    CHECK(sctpr_sender_set_mode(&sender, 3, 0, 3, 0) == SCTPR_INVALID && sctpr_sender_set_mode(&sender, 4, 0, 1, 0) == SCTPR_STREAM_UNKNOWN);
    CHECK(sctpr_sender_set_fragment_size(&sender, 0) == SCTPR_INVALID && sctpr_sender_set_low_threshold(&sender, 4, 9) == SCTPR_STREAM_UNKNOWN);
    CHECK(sctpr_sender_send_next(&sender, 1, out, sizeof out, &n, &tsn) == SCTPR_NOTHING && n == 5 && tsn == 5);
    CHECK(sctpr_sender_send_next(&sender, 1, NULL, 0, &n, &tsn) == SCTPR_NOTHING);
    CHECK(sctpr_sender_resend(&sender, 1000, 1, out, sizeof out, &n) == SCTPR_NOT_IN_FLIGHT && n == 5);
    CHECK(sctpr_receiver_data(&receiver, NULL, 0, &complete) == SCTPR_ERR_CHUNK_HEADER_TOO_SMALL && complete == 7);
    CHECK(sctpr_receiver_forward_tsn(&receiver, (const uint8_t *)"\0\0\0\4", 4) == SCTPR_ERR_CHUNK_TYPE_NOT_FORWARD_TSN);
    CHECK(sctpr_receiver_read(&receiver, 4, out, sizeof out, &n, &tsn) == SCTPR_STREAM_UNKNOWN && n == 5 && tsn == 5);
    CHECK(sctpr_receiver_read(&receiver, 3, out, sizeof out, &n, &tsn) == SCTPR_NOTHING && n == 5 && tsn == 5);
    CHECK(sctpr_receiver_discard(&receiver, 999) == SCTPR_REPEAT && sctpr_receiver_discard(&receiver, 1001) == SCTPR_OK);
    CHECK(sctpr_receiver_discard(&receiver, 999 + 0x80000000u) == SCTPR_TSN_OPPOSITE);
    CHECK(sctpr_receiver_discard(&receiver, 999 + 4097) == SCTPR_TSN_TOO_FAR && sctpr_receiver_cumulative_tsn(&receiver) == 999);
    CHECK(sctpr_receiver_sack(&receiver, out, 15, &n) == SCTPR_SHORT_BUFFER && n == 5);
    CHECK(sctpr_sender_acked(&sender, NULL, 0, NULL, 0, &n) == SCTPR_ERR_CHUNK_HEADER_TOO_SMALL && n == 5);
    free_both();
}

/* Three fragments over the wrap of the TSN, the middle one lost once; then a SACK that acknowledges all. */
static void goes_over(void) {
    static const uint8_t text[] = "three fragments of a message";
    uint8_t chunks[3][64], sack[64], message[64], complete = 7, amount_low = 0;
    size_t n[3], length = 0, count = 9, fragments = 0, i;
    uint32_t tsn = 0, ppid = 0;
    uint64_t number = 9;
    uint16_t streams[2] = { 7, 7 };
    struct sctpr_acked rows[4];
    struct sctpr_in_flight row;
    open_both(0xffffffff, 10);
    CHECK(sctpr_sender_set_low_threshold(&sender, 3, 5) == SCTPR_OK);
    CHECK(sctpr_sender_write(&sender, 3, SCTPR_PPID_STRING, text, 0, &number, &fragments) == SCTPR_NOTHING && number == 9);
    TRY(sctpr_sender_write(&sender, 3, SCTPR_PPID_STRING, text, 28, &number, &fragments), SCTPR_OK, sctpr_sender_pending(&sender) == 0);
    CHECK(fragments == 3 && sctpr_sender_pending(&sender) == 3);
    CHECK(sctpr_sender_send_next(&sender, 5, chunks[0], 27, &length, &tsn) == SCTPR_SHORT_BUFFER && length == 28);
    for (i = 0; i < 3; i++) {
        TRY(sctpr_sender_send_next(&sender, 5 + i, chunks[i], 64, &n[i], &tsn), SCTPR_OK, sctpr_sender_pending(&sender) == 3 - i);
        CHECK(tsn == (uint32_t)(0xffffffff + i) && n[i] == (i == 2 ? 24 : 28));
    }
    CHECK(sctpr_sender_bytes_in_flight(&sender) == 28 && sctpr_sender_chunks_in_flight(&sender) == 3 && tells(28, 3, 0));
    for (i = 0; i < 3; i += 2) {
        TRY(sctpr_receiver_data(&receiver, chunks[i], n[i], &complete), SCTPR_OK, sctpr_receiver_held_bytes(&receiver) == (i ? 410 : 0));
        CHECK(complete == 0);
    }
    CHECK(sctpr_receiver_data(&receiver, chunks[0], n[0], &complete) == SCTPR_REPEAT);
    TRY(sctpr_receiver_sack(&receiver, sack, sizeof sack, &length), SCTPR_OK, sctpr_receiver_cumulative_tsn(&receiver) == 0xffffffff);
    CHECK(length == 24 && sack[0] == SCTPR_SACK && sack[13] == 1 && sack[15] == 1);
    CHECK(sctpr_sender_acked(&sender, sack, length, rows, 2, &count) == SCTPR_SHORT_BUFFER && count == 3);
    TRY(sctpr_sender_acked(&sender, sack, length, rows, 4, &count), SCTPR_OK, sctpr_sender_bytes_in_flight(&sender) == 28);
    CHECK(count == 2 && rows[0].tsn == 0xffffffff && rows[0].sent_at == 5 && rows[1].tsn == 1 && !rows[1].is_message_acked);
    CHECK(sctpr_sender_acked_tsn(&sender) == 0xffffffff && sctpr_sender_bytes_in_flight(&sender) == 10 && tells(10, 1, 0));
    CHECK(sctpr_sender_add_miss_indications(&sender, 1) == 0 && sctpr_sender_next_to_retransmit(&sender, &row) == SCTPR_NOTHING);
    sctpr_sender_retransmit_all(&sender);
    CHECK(sctpr_sender_next_to_retransmit(&sender, &row) == SCTPR_OK && row.tsn == 0 && row.size == 10 && row.is_marked);
    CHECK(sctpr_sender_bytes_in_flight(&sender) == 10 && tells(0, 0, 1));
    TRY(sctpr_sender_resend(&sender, 0, 50, chunks[1], 64, &n[1]), SCTPR_OK, sctpr_sender_next_to_retransmit(&sender, &row) == SCTPR_OK);
    CHECK(tells(10, 1, 0));
    TRY(sctpr_receiver_data(&receiver, chunks[1], n[1], &complete), SCTPR_OK, sctpr_receiver_cumulative_tsn(&receiver) == 0xffffffff);
    CHECK(complete == 1);
    CHECK(sctpr_receiver_readable_streams(&receiver, NULL, 0, &count) == SCTPR_SHORT_BUFFER && count == 1);
    TRY(sctpr_receiver_readable_streams(&receiver, streams, 2, &count), SCTPR_OK, streams[0] == 7);
    CHECK(streams[0] == 3 && streams[1] == 7);
    CHECK(sctpr_receiver_next_length(&receiver, 3, &length, &ppid) == SCTPR_OK && length == 28 && ppid == SCTPR_PPID_STRING);
    CHECK(sctpr_receiver_read(&receiver, 3, message, 27, &length, &ppid) == SCTPR_SHORT_BUFFER && length == 28);
    CHECK(sctpr_receiver_read(&receiver, 3, message, 64, &length, &ppid) == SCTPR_OK && memcmp(message, text, 28) == 0);
    TRY(sctpr_receiver_sack(&receiver, sack, sizeof sack, &length), SCTPR_OK, 1);
    TRY(sctpr_sender_acked(&sender, sack, length, rows, 4, &count), SCTPR_OK, sctpr_sender_bytes_in_flight(&sender) == 10);
    CHECK(count == 1 && rows[0].tsn == 0 && rows[0].sent == 2 && rows[0].sent_at == 50 && rows[0].is_message_acked && tells(0, 0, 0));
    for (i = 0; i < count; i++) amount_low |= rows[i].is_low;
    CHECK(amount_low == 1 && sctpr_sender_is_drained(&sender, 3) == 1 && sctpr_sender_reset(&sender, 3) == SCTPR_OK);
    free_both();
}

/* A message that comes with a payload type without a name is read with it, of two fragments with that of the first, which came last; one
 * that is unordered, too. */
static void any_payload_type(void) {
    uint8_t last[] = { 0, 1, 0, 17, 0, 0, 3, 0xe9, 0, 3, 0, 0, 0, 0, 0, 46, 'b' };
    uint8_t first[] = { 0, 2, 0, 17, 0, 0, 3, 0xe8, 0, 3, 0, 0, 0xff, 0xff, 0xff, 0xfe, 'a' };
    uint8_t unordered[] = { 0, 7, 0, 17, 0, 0, 3, 0xea, 0, 3, 0, 0, 0, 0, 0, 0, 'c' };
    uint8_t out[2], complete = 7;
    size_t size = 9;
    uint32_t type = 9;
    open_both(1000, 1000);
    TRY(sctpr_receiver_data(&receiver, last, sizeof last, &complete), SCTPR_OK, sctpr_receiver_held_bytes(&receiver) == 0);
    CHECK(complete == 0 && sctpr_receiver_next_length(&receiver, 3, &size, &type) == SCTPR_NOTHING && size == 9 && type == 9);
    TRY(sctpr_receiver_data(&receiver, first, sizeof first, &complete), SCTPR_OK, complete == 0);
    CHECK(sctpr_receiver_next_length(&receiver, 3, &size, &type) == SCTPR_OK && size == 2 && type == 0xfffffffeu);
    CHECK(sctpr_receiver_read(&receiver, 3, out, 1, &size, &type) == SCTPR_SHORT_BUFFER && size == 2 && type == 0xfffffffeu);
    TRY(sctpr_receiver_data(&receiver, unordered, sizeof unordered, &complete), SCTPR_OK, 1);
    CHECK(sctpr_receiver_read(&receiver, 3, out, 2, &size, &type) == SCTPR_OK && size == 1 && type == 0 && out[0] == 'c');
    CHECK(sctpr_receiver_read(&receiver, 3, out, 2, &size, &type) == SCTPR_OK && size == 2 && type == 0xfffffffeu && memcmp(out, "ab", 2) == 0);
    free_both();
}

/* Messages are sent, and sent again, with the payload type that each was written with, in any mode of their stream. One that is refused, for
 * its length or for memory, leaves nothing behind. */
static void sends_any_payload_type(void) {
    static const uint32_t types[] = { 0, 46, 0xffffffffu, SCTPR_PPID_OTHER, SCTPR_PPID_STRING, 59, SCTPR_PPID_DCEP, 60 };
    enum { MODES = 6, TYPES = 8 };
    static uint8_t in[65537];
    uint8_t chunk[64];
    size_t i, n = 0, fragments = 0;
    uint32_t tsn = 0;
    uint64_t number = 0;
    struct sctpr_data data;
    struct sctpr_in_flight row;
    for (uint32_t mode = 0; mode < MODES; mode++) {
        open_both(1000, 4);
        number = fragments = 0;
        CHECK(sctpr_sender_set_mode(&sender, 3, (uint8_t)(mode % 2), mode / 2, 7) == SCTPR_OK);
        for (i = 0; i < TYPES; i++) {
            TRY(sctpr_sender_write(&sender, 3, types[i], in, 5, &number, &fragments), SCTPR_OK, fragments == 2 * (i > 0) && number + 1 == i + (i == 0));
            TRY(sctpr_sender_write(&sender, 3, types[i] + 7, in, sizeof in, &number, &fragments), SCTPR_MESSAGE_TOO_LARGE, number == i);
        }
        for (i = 0; i < 2 * TYPES; i++) {
            TRY(sctpr_sender_send_next(&sender, 5, chunk, sizeof chunk, &n, &tsn), SCTPR_OK, 1);
            CHECK(n == 20 && sctpr_read_data(chunk, n, &data) == SCTPR_OK && data.tsn == 1000 + i);
            CHECK(sctpr_sender_in_flight(&sender, tsn, &row) == SCTPR_OK && data.payload_type == types[row.message]);
            CHECK(row.payload_type == data.payload_type);
        }
        for (i = 0; i < 2 * TYPES; i++) {
            TRY(sctpr_sender_resend(&sender, 1000 + (uint32_t)i, 9, chunk, sizeof chunk, &n), SCTPR_OK, 1);
            CHECK(sctpr_sender_in_flight(&sender, 1000 + (uint32_t)i, &row) == SCTPR_OK && row.payload_type == types[row.message]);
            CHECK(sctpr_read_data(chunk, n, &data) == SCTPR_OK && data.payload_type == types[row.message]);
        }
        free_both();
    }
}

/* Of 100,000 messages with types without names one, the first, stays in flight: the types of the others are forgotten, and its own is kept. */
static void forgets_payload_types(void) {
    uint8_t chunk[64], sack[16] = { 3, 0, 0, 16, 0, 0, 0, 0, 0, 0, 0xff, 0xff, 0, 0, 0, 0 };
    size_t n = 0, fragments = 0, count = 0, most = 0, early = 0;
    uint32_t tsn = 0, first = 0;
    uint64_t number = 0;
    struct sctpr_data data;
    struct sctpr_acked rows[4];
    open_both(1000, 1000);
    CHECK(sctpr_sender_open(&sender, 4) == SCTPR_OK && sctpr_sender_set_mode(&sender, 4, 1, SCTPR_RELIABLE, 0) == SCTPR_OK);
    CHECK(sctpr_sender_write(&sender, 3, 12345, (const uint8_t *)"a", 1, &number, &fragments) == SCTPR_OK);
    for (uint32_t i = 0; i < 100000; i++) {
        CHECK(sctpr_sender_write(&sender, 4, 70000 + i, (const uint8_t *)"b", 1, &number, &fragments) == SCTPR_OK);
        CHECK(sctpr_sender_send_next(&sender, 5, chunk, sizeof chunk, &n, &tsn) == SCTPR_OK);
        CHECK(sctpr_read_data(chunk, n, &data) == SCTPR_OK && data.payload_type == 70000 + i && data.stream == 4);
        if (i == 0) first = tsn;
        for (int j = 0; j < 4; j++) sack[4 + j] = (uint8_t)(tsn >> (24 - 8 * j));
        CHECK(sctpr_sender_acked(&sender, sack, sizeof sack, rows, 4, &count) == SCTPR_OK && count == 1);
        if (i == 100) early = in_use;
        if (in_use > most) most = in_use;
    }
    CHECK(tsn == first + 99999 && most <= early + 1000);
    CHECK(sctpr_sender_send_next(&sender, 5, chunk, sizeof chunk, &n, &tsn) == SCTPR_OK);
    CHECK(sctpr_read_data(chunk, n, &data) == SCTPR_OK && data.payload_type == 12345 && data.stream == 3);
    free_both();
}

/* A message runs out of sendings; a FORWARD-TSN takes the receiver past it. */
static void abandoned(void) {
    uint8_t chunk[64], forward[64], complete = 7;
    size_t n = 0, length = 0, count = 9, fragments;
    uint64_t number;
    uint32_t tsn;
    struct sctpr_abandoned rows[2], row;
    open_both(1000, 100);
    CHECK(sctpr_sender_set_mode(&sender, 3, 0, SCTPR_REXMIT, 0) == SCTPR_OK);
    CHECK(sctpr_sender_write(&sender, 3, SCTPR_PPID_BINARY, (const uint8_t *)"gone", 4, &number, &fragments) == SCTPR_OK);
    CHECK(sctpr_sender_send_next(&sender, 1, chunk, 64, &n, &tsn) == SCTPR_OK && n == 20);
    CHECK(sctpr_sender_expire_rexmit(&sender, rows, 1, &count) == SCTPR_OK && count == 0);
    CHECK(sctpr_sender_forward_tsn(&sender, forward, 64, &length) == SCTPR_NOTHING);
    sctpr_sender_retransmit_all(&sender);
    TRY(sctpr_sender_expire_rexmit(&sender, rows, 2, &count), SCTPR_OK, sctpr_sender_bytes_in_flight(&sender) == 4);
    CHECK(count == 1 && rows[0].stream == 3 && rows[0].bytes == 4 && sctpr_sender_advanced_ack_point(&sender) == 1000);
    CHECK(sctpr_sender_abandon(&sender, 1000, &row) == SCTPR_OK && row.bytes == 0);
    CHECK(sctpr_sender_abandon(&sender, 1001, &row) == SCTPR_NOT_IN_FLIGHT);
    TRY(sctpr_sender_forward_tsn(&sender, forward, 64, &length), SCTPR_OK, 1);
    CHECK(length == 12 && forward[0] == SCTPR_FORWARD_TSN && memcmp(forward + 4, "\0\0\3\350\0\3\0\0", 8) == 0);
    CHECK(sctpr_sender_forward_tsn_to(&sender, 1000, forward, 11, &length) == SCTPR_SHORT_BUFFER && length == 12);
    TRY(sctpr_receiver_forward_tsn(&receiver, forward, 12), SCTPR_OK, sctpr_receiver_cumulative_tsn(&receiver) == 999);
    CHECK(sctpr_receiver_forward_tsn(&receiver, forward, 12) == SCTPR_STALE && sctpr_receiver_cumulative_tsn(&receiver) == 1000);
    CHECK(sctpr_receiver_data(&receiver, chunk, n, &complete) == SCTPR_REPEAT && complete == 7);
    free_both();
}

/* Whether the next lifetime ends then; 0: none runs. */
static int ends_next(uint64_t moment) {
    uint64_t at = 7;
    sctpr_code code = sctpr_sender_next_timeout(&sender, &at);
    return moment == 0 ? code == SCTPR_NOTHING && at == 7 : code == SCTPR_OK && at == moment;
}

/* Messages past their deadlines, unsent and in flight. */
static void expired(void) {
    uint8_t chunk[64];
    size_t n, count, fragments;
    uint64_t number;
    uint32_t tsn;
    struct sctpr_abandoned rows[4], row;
    struct sctpr_expired gone;
    open_both(7, 10);
    CHECK(sctpr_sender_set_mode(&sender, 3, 1, SCTPR_TIMED, 1) == SCTPR_OK);
    for (int i = 0; i < 3; i++)
        CHECK(sctpr_sender_write(&sender, 3, SCTPR_PPID_BINARY, (const uint8_t *)"fifteen bytes..", 15, &number, &fragments) == SCTPR_OK);
    CHECK(ends_next(0));
    sctpr_sender_start(&sender, 0);
    CHECK(ends_next(1000000));
    for (int i = 0; i < 3; i++) CHECK(sctpr_sender_send_next(&sender, 0, chunk, 64, &n, &tsn) == SCTPR_OK);
    CHECK(sctpr_sender_expire(&sender, 2000000, &gone) == SCTPR_NOTHING && ends_next(1000000));
    TRY(sctpr_sender_expire_tail(&sender, 2000000, &row), SCTPR_OK, sctpr_sender_pending(&sender) == 3);
    CHECK(row.stream == 3 && row.bytes == 15);
    CHECK(sctpr_sender_expire(&sender, 2000000, &gone) == SCTPR_OK && gone.bytes == 15 && gone.stream == 3);
    CHECK(sctpr_sender_expire(&sender, 2000000, &gone) == SCTPR_NOTHING && sctpr_sender_pending(&sender) == 0);
    TRY(sctpr_sender_expire_late(&sender, 2000000, rows, 3, &count), SCTPR_SHORT_BUFFER, 1);
    /* as many rows as it tells are enough */
    CHECK(count == 4 && ends_next(1000000));
    CHECK(sctpr_sender_expire_late(&sender, 2000000, rows, count, &count) == SCTPR_OK && count == 1 && ends_next(0));
    CHECK(sctpr_sender_expire_late(&sender, 2000000, NULL, 0, &count) == SCTPR_OK && count == 0);
    CHECK(sctpr_sender_write(&sender, 3, SCTPR_PPID_DCEP, (const uint8_t *)"open", 4, &number, &fragments) == SCTPR_OK);
    sctpr_sender_start(&sender, 5000000);
    CHECK(ends_next(0));
    free_both();
}

int main(void) {
    freed();
    observers();
    newly_marked();
    credit();
    traps();
    refused();
    goes_over();
    any_payload_type();
    sends_any_payload_type();
    forgets_payload_types();
    abandoned();
    expired();
    return report("halves");
}
