/* What the worst that a peer may send within the limits takes of the heap, against the bound of SECURITY.md:
 *
 *     h + 700 v + 96 m + 16 f + 16 b + 256 KiB
 *
 * `h`: bytes that count as held; `v`: most streams open at once; `m`: for each list of messages of an open stream min(most, max(8, 2 now)),
 * where `most` is how many it held at once and `now` how many it holds, in sum; `f`: most unassembled fragments of each stream at once, in
 * sum; `b`: most runs of TSNs past the cumulative one. Most states have one element more than a power of two, so that rooms that double are
 * half empty. Then all is read or skipped, and given back. And what a sender takes, whatever SACKs report: user data, 450 bytes for each of the
 * most chunks that waited or were in flight at once, 700 for a stream, and 256 KiB. */
#include "check.h"
#include "peer.h"
#include <stdlib.h>

enum { MANY = 8193, REACH = 20000, LONGEST = 65536, MTU = 1400 };

static sctpr_receiver receiver;
static size_t open_streams, messages, fragments, runs;

static void must(sctpr_code code, sctpr_code wanted) {
    if (code != wanted) CHECK(code == wanted);
}

static void begin(size_t window, uint32_t streams) {
    CHECK(in_use == 0 && sctpr_receiver_new(1, LONGEST, window, REACH, &receiver) == SCTPR_OK);
    for (uint32_t i = 0; i < streams; i++)
        must(sctpr_receiver_open(&receiver, (uint16_t)i), SCTPR_OK);
    open_streams = streams;
    messages = fragments = runs = 0;
}

static sctpr_code give(uint32_t tsn, uint16_t stream, uint16_t ssn, uint8_t flags, uint32_t length) {
    static uint8_t chunk[16 + 65519];
    struct data data = { tsn, stream, ssn, flags, length };
    uint8_t complete = 0;
    return sctpr_receiver_data(&receiver, chunk, put_data(chunk, &data), &complete);
}

static size_t bound(void) {
    return sctpr_receiver_held_bytes(&receiver) + 700 * open_streams + 96 * messages + 16 * fragments + 16 * runs + (256 << 10);
}

static void weigh(const char *state) {
    size_t h = sctpr_receiver_held_bytes(&receiver);
    printf("heap: %-58s %10zu of %10zu bytes, %10zu held\n", state, in_use, bound(), h);
    CHECK(in_use <= bound());
}

/* Reads and closes all: what stays is within the bound with nothing held, where a list has room for 16, and without a stream's room once it is
 * closed. */
static void end(void) {
    static uint8_t bytes[LONGEST];
    size_t length = 0;
    uint32_t type = 0;
    uint8_t chunk[8];
    must(sctpr_receiver_forward_tsn(&receiver, chunk, put_forward_tsn(chunk, sctpr_receiver_cumulative_tsn(&receiver) + REACH, NULL, 0)),
         SCTPR_OK);
    for (size_t i = 0; i < open_streams; i++)
        while (sctpr_receiver_read(&receiver, (uint16_t)i, bytes, sizeof bytes, &length, &type) == SCTPR_OK) {
        }
    runs = 0;
    if (messages > 16 * open_streams) messages = 16 * open_streams;
    CHECK(sctpr_receiver_held_bytes(&receiver) == 0 && in_use <= bound());
    if (open_streams <= 100) {
        for (size_t i = 0; i < open_streams; i++) sctpr_receiver_close(&receiver, (uint16_t)i);
        messages = fragments = 0;
        CHECK(in_use <= bound());
    }
    sctpr_receiver_free(&receiver);
    CHECK(in_use == 0 && held == 0);
}

/* ---- Of a receiver --------------------------------------------------------------------------------------------------------- */

/* Chunks of one byte from a TSN on, each `apart` TSNs past the one before. */
static void one_byte_each(const char *state, uint8_t flags, uint32_t from, uint32_t apart) {
    begin(8 << 20, 1);
    for (uint32_t i = 0; i < MANY; i++) must(give(from + i * apart, 0, (uint16_t)i, flags, 1), SCTPR_OK);
    messages = MANY;
    if (flags == (FIRST | UNORDERED)) messages = 0, fragments = MANY;
    runs = from == 1 ? 0 : apart == 1 ? 1 : MANY;
    weigh(state);
    end();
}

static void one_message(const char *state, uint8_t flags, uint32_t from) {
    begin(8 << 20, 1);
    for (uint32_t i = 0; i < MANY; i++) must(give(from + i, 0, 0, i == 0 ? flags | FIRST : flags, 1), SCTPR_OK);
    messages = flags & UNORDERED ? 0 : 1;
    fragments = flags & UNORDERED ? MANY : 0;
    runs = 1;
    weigh(state);
    end();
}

static void one_on_each(const char *state, uint32_t streams, uint8_t flags) {
    begin(64 << 20, streams);
    for (uint32_t i = 0; i < streams; i++) must(give(1 + i, (uint16_t)i, 0, flags, 1), SCTPR_OK);
    if (flags == (FIRST | UNORDERED)) fragments = streams;
    else messages = streams;
    weigh(state);
    end();
}

/* Each new byte comes with a repeat of itself that is long: the rest of it is not kept. */
static void with_long_repeats(void) {
    begin(8 << 20, 1);
    for (uint32_t i = 0; i < MANY; i++) {
        must(give(1 + i, 0, (uint16_t)i, WHOLE, 1), SCTPR_OK);
        must(give(1 + i, 0, (uint16_t)i, WHOLE, 65000), SCTPR_REPEAT);
    }
    messages = MANY;
    weigh("one byte each, and a repeat of 65,000 bytes");
    end();
}

/* The last TSN that the limits allow comes first: all the others fill gaps, so that the window bounds none of them. */
static void past_the_window(void) {
    size_t window = SCTPR_LEAST_WINDOW(LONGEST, 65519);
    begin(window, 1);
    for (uint32_t i = REACH; i > 1; i--) must(give(i, 0, (uint16_t)i, WHOLE | UNORDERED, MTU), SCTPR_OK);
    messages = REACH;
    runs = 1;
    weigh("1,400 bytes each, in gaps, past the window");
    CHECK(sctpr_receiver_held_bytes(&receiver) <= window + (size_t)REACH * (MTU + 400));
    end();
}

static void discarded(void) {
    begin(8 << 20, 1);
    for (uint32_t i = 0; i < MANY; i++) must(sctpr_receiver_discard(&receiver, 3 + 2 * i), SCTPR_OK);
    runs = MANY;
    weigh("discarded, every second TSN");
    end();
    begin(8 << 20, 1);
    for (uint32_t i = 0; i < 40000; i++) must(sctpr_receiver_discard(&receiver, 0), SCTPR_REPEAT);
    weigh("40,000 repeats, of which a SACK can tell 16,379");
    end();
}

/* One stream after another is filled and read: a list that is read gives its room back. In the end each holds one message, and then none. */
static void was_read(void) {
    uint8_t byte;
    size_t length;
    uint32_t type, tsn = 1;
    begin(8 << 20, 100);
    for (uint32_t i = 0; i < 100; i++) {
        for (uint32_t k = 0; k < 1025; k++) must(give(tsn++, (uint16_t)i, (uint16_t)k, WHOLE, 1), SCTPR_OK);
        for (uint32_t k = 0; k < 1024; k++) must(sctpr_receiver_read(&receiver, (uint16_t)i, &byte, 1, &length, &type), SCTPR_OK);
    }
    messages = 100 * 8;
    weigh("1,025 messages of each of 100 streams, all but one read");
    for (uint32_t i = 0; i < 100; i++) must(sctpr_receiver_read(&receiver, (uint16_t)i, &byte, 1, &length, &type), SCTPR_OK);
    weigh("the last one read");
    end();
}

static void closed(void) {
    begin(8 << 20, MANY);
    for (uint32_t i = MANY; i > 0; i--) sctpr_receiver_close(&receiver, (uint16_t)(i - 1));
    weigh("8,193 streams, closed");
    end();
}

/* ---- Of a sender ----------------------------------------------------------------------------------------------------------- */

static sctpr_sender sender;
static uint8_t packet[65536];
static struct sctpr_acked rows[MANY];
static struct sctpr_taken_back back[MANY];
static struct sctpr_gap blocks[MANY];
static struct sctpr_abandoned gone;

/* Of MANY messages of a byte, with so many streams. */
static void weigh_sender(const char *state, size_t streams) {
    size_t most = MANY + 450 * (size_t)MANY + 700 * streams + (256 << 10);
    printf("heap: sender, %-50s %10zu of %10zu bytes\n", state, in_use, most);
    CHECK(in_use <= most);
}

static void send_many(uint8_t keeps, uint32_t streams) {
    static const uint8_t byte = 1;
    size_t n;
    uint64_t number;
    uint32_t tsn;
    CHECK(in_use == 0 && sctpr_sender_new(1, 1000, 1000, keeps, &sender) == SCTPR_OK);
    for (uint32_t i = 0; i < streams; i++) must(sctpr_sender_open(&sender, (uint16_t)i), SCTPR_OK);
    for (uint32_t i = 0; i < MANY; i++)
        must(sctpr_sender_write(&sender, (uint16_t)(i % streams), SCTPR_PPID_BINARY, &byte, 1, &number, &n), SCTPR_OK);
    weigh_sender("8,193 messages of a byte wait", streams);
    for (uint32_t i = 0; i < MANY; i++) must(sctpr_sender_send_next(&sender, 1, packet, sizeof packet, &n, &tsn), SCTPR_OK);
    weigh_sender("in flight", streams);
}

static void take_sack(uint32_t tsn, size_t count) {
    size_t n = put_sack(packet, tsn, blocks, count), rows_told = 0;
    must(sctpr_sender_take_back(&sender, packet, n, back, MANY, &rows_told), SCTPR_OK);
    must(sctpr_sender_acked(&sender, packet, n, rows, MANY, &rows_told), SCTPR_OK);
}

static void free_sender(void) {
    take_sack(MANY, 0);
    CHECK(sctpr_sender_chunks_in_flight(&sender) == 0);
    weigh_sender("all acknowledged", 1);
    sctpr_sender_free(&sender);
    CHECK(in_use == 0 && held == 0);
}

static void reported(uint8_t keeps) {
    send_many(keeps, 1);
    for (uint32_t i = 0; i < MANY / 2; i++) blocks[i].start = blocks[i].end = (uint16_t)(2 + 2 * i);
    take_sack(0, MANY / 2);
    weigh_sender(keeps ? "every second reported, and kept" : "every second reported", 1);
    sctpr_sender_retransmit_all(&sender);
    sctpr_sender_add_miss_indications(&sender, MANY);
    weigh_sender("the others marked", 1);
    take_sack(0, 0);
    weigh_sender("taken back", 1);
    free_sender();
}

/* Each message is abandoned, on a stream of its own: a FORWARD-TSN names all of them. */
static void abandoned(void) {
    size_t n = 0;
    send_many(1, MANY);
    for (uint32_t i = 0; i < MANY; i++) must(sctpr_sender_abandon(&sender, 1 + i, &gone), SCTPR_OK);
    weigh_sender("abandoned, each on a stream of its own", MANY);
    must(sctpr_sender_forward_tsn(&sender, packet, sizeof packet, &n), SCTPR_OK);
    CHECK(n == 8 + 4 * (size_t)MANY);
    weigh_sender("told by a FORWARD-TSN", MANY);
    take_sack(MANY, 0);
    weigh_sender("all acknowledged", MANY);
    sctpr_sender_free(&sender);
    CHECK(in_use == 0 && held == 0);
}

int main(void) {
    one_byte_each("complete, ordered", WHOLE, 1, 1);
    one_byte_each("complete, unordered", WHOLE | UNORDERED, 1, 1);
    one_byte_each("complete, ordered, past a gap", WHOLE, 2, 1);
    one_byte_each("complete, ordered, every second TSN", WHOLE, 3, 2);
    one_byte_each("complete, unordered, every second TSN", WHOLE | UNORDERED, 3, 2);
    one_byte_each("incomplete messages, ordered", FIRST, 1, 1);
    one_byte_each("incomplete messages, ordered, every second TSN", FIRST, 3, 2);
    one_byte_each("incomplete messages, unordered, every second TSN", FIRST | UNORDERED, 3, 2);
    one_message("one long message, ordered", 0, 2);
    one_message("one long message, unordered", UNORDERED, 2);
    one_on_each("one complete on each of 65,536 streams", 65536, WHOLE);
    one_on_each("one incomplete on each of 65,536 streams", 65536, FIRST);
    one_on_each("one incomplete on each, unordered", 65536, FIRST | UNORDERED);
    with_long_repeats();
    past_the_window();
    discarded();
    was_read();
    closed();
    reported(0);
    reported(1);
    abandoned();
    return report("heap");
}
