/* What the worst packets of 1,400 bytes cost: processor time of a packet that is read and followed, the least of three runs.
 *
 * Of several FORWARD-TSNs and of several SACKs in a packet the first one is followed (docs/C.md). A row that begins with `all:` is what a
 * caller pays who follows all of them. A row that begins with `advised:` is of a caller who keeps to the limits of docs/HALVES.md: a window
 * of 1 MiB, 1,024 streams, 4,096 chunks in flight.
 *
 * The aim is a millisecond for a packet, and 50 ms to send 65,534 chunks again. A row that misses it is printed with `over`, and stands in
 * SECURITY.md. Of the advised rows, and of some others, eight times the aim is asserted, since machines differ. */
#define _POSIX_C_SOURCE 199309L
#include "check.h"
#include "peer.h"
#include <stdlib.h>
#include <time.h>

enum { PACKET = 1400, RUNS = 3, REACH = 250000, ALL = 65536, IN_FLIGHT = 65535, INCOMPLETE = 4975 };

/* What HALVES.md advises; so many messages of a byte fill that window. */
enum { ADVISED_WINDOW = 1 << 20, ADVISED_STREAMS = 1024, ADVISED_IN_FLIGHT = 4096, ADVISED_HELD = 2606 };

static sctpr_receiver receiver;
static sctpr_sender sender;
static uint8_t packet[PACKET], chunk[65536];
static size_t length;
static struct sctpr_acked rows[ALL];
static struct sctpr_taken_back back[ALL];
static const struct sctpr_head head = { 1, 5000, 5000 };
static struct sctpr_gap blocks[400];

static void must(sctpr_code code, sctpr_code wanted) {
    if (code == wanted) return;
    if (failed++ < 5) printf("hostile: code %u instead of %u\n", (unsigned)code, (unsigned)wanted);
}

static double processor_time(void) {
    struct timespec now;
    clock_gettime(CLOCK_PROCESS_CPUTIME_ID, &now);
    return 1e6 * (double)now.tv_sec + (double)now.tv_nsec / 1e3;
}

/* ---- Packets --------------------------------------------------------------------------------------------------------------- */

/* Begins a packet, adds a chunk of so many bytes from `chunk` where it fits, and says whether it did. */
static void begin_packet(void) {
    length = 12;
}

static int add(size_t size) {
    size_t padded = (size + 3) / 4 * 4;
    if (length + padded > PACKET) return 0;
    memset(packet + length, 0, padded);
    memcpy(packet + length, chunk, size);
    length += padded;
    return 1;
}

static int add_data(uint32_t tsn, uint16_t stream, uint16_t ssn, uint8_t flags) {
    struct data data = { tsn, stream, ssn, flags, 1 };
    return add(put_data(chunk, &data));
}

static int add_forward_tsn(uint32_t tsn, const struct sctpr_skip *names, size_t count) {
    return add(put_forward_tsn(chunk, tsn, names, count));
}

static int add_sack(uint32_t tsn, size_t count) {
    return add(put_sack(chunk, tsn, blocks, count));
}

static void follow_reset(const uint8_t *bytes, size_t size) {
    static uint16_t streams[800];
    struct sctpr_reset reset;
    size_t count = 0;
    must(sctpr_read_reset(bytes + 4, size - 4, &reset, streams, 800, &count), SCTPR_OK);
    for (size_t i = 0; i < count; i++) {
        must(sctpr_receiver_reset(&receiver, streams[i], reset.last_tsn), SCTPR_OK);
        sctpr_receiver_close(&receiver, streams[i]);
    }
}

static void follow(const uint8_t *bytes, size_t size, uint8_t type) {
    size_t count = 0;
    uint8_t complete;
    switch (type) {
    case SCTPR_DATA: (void)sctpr_receiver_data(&receiver, bytes, size, &complete); break;
    case SCTPR_FORWARD_TSN: must(sctpr_receiver_forward_tsn_past_closed(&receiver, bytes, size), SCTPR_OK); break;
    case SCTPR_SACK:
        must(sctpr_sender_take_back(&sender, bytes, size, back, ALL, &count), SCTPR_OK);
        must(sctpr_sender_acked(&sender, bytes, size, rows, ALL, &count), SCTPR_OK);
        if (count > 0) (void)sctpr_sender_add_miss_indications(&sender, rows[count - 1].tsn);
        break;
    case SCTPR_RECONFIG: follow_reset(bytes, size); break;
    default: CHECK(type == SCTPR_DATA); break;
    }
}

/* Reads the packet, and hands each chunk on; but of FORWARD-TSNs and of SACKs the first one alone, where not all are wanted. */
static void take_chunks(int wants_all) {
    static struct sctpr_any_chunk chunks[PACKET / 4];
    struct sctpr_head got;
    size_t count = 0, forwards = 0, sacks = 0;
    must(sctpr_read_any_packet(packet, length, &got, chunks, PACKET / 4, &count), SCTPR_OK);
    for (size_t i = 0; i < count; i++) {
        if (chunks[i].type == SCTPR_FORWARD_TSN && forwards++ > 0 && !wants_all) continue;
        if (chunks[i].type == SCTPR_SACK && sacks++ > 0 && !wants_all) continue;
        follow(packet + chunks[i].at, chunks[i].length, chunks[i].type);
    }
}

static void take_packet(void) { take_chunks(0); }
static void take_all(void) { take_chunks(1); }

/* ---- Receivers ------------------------------------------------------------------------------------------------------------- */

static void begin_receiver_with(uint32_t most, size_t window, uint32_t streams) {
    CHECK(sctpr_receiver_new(1, most, window, REACH, &receiver) == SCTPR_OK);
    for (uint32_t i = 0; i < streams; i++) must(sctpr_receiver_open(&receiver, (uint16_t)i), SCTPR_OK);
    begin_packet();
}

static void begin_receiver(uint32_t streams) { begin_receiver_with(1 << 20, (size_t)512 << 20, streams); }

static void begin_advised_receiver(void) { begin_receiver_with(1 << 16, ADVISED_WINDOW, ADVISED_STREAMS); }

static void give(uint32_t tsn, uint16_t stream, uint16_t ssn, uint8_t flags) {
    uint8_t complete;
    struct data data = { tsn, stream, ssn, flags, 1 };
    must(sctpr_receiver_data(&receiver, chunk, put_data(chunk, &data), &complete), SCTPR_OK);
}

/* Incomplete messages at every second TSN, over so many streams. */
static void hold_incomplete(uint32_t count, uint32_t streams) {
    for (uint32_t i = 0; i < count; i++) give(2 + 2 * i, (uint16_t)(i % streams), (uint16_t)(i / streams), FIRST);
}

/* 170 FORWARD-TSNs, each past the next fragment of the next message, with the message's name or without. */
static void add_skips(uint32_t streams, size_t names) {
    for (uint32_t i = 0; i < 170; i++) {
        struct sctpr_skip name = { (uint16_t)(i % streams), (uint16_t)(i / streams) };
        if (!add_forward_tsn(3 + 2 * i, &name, names)) break;
    }
}

static void skips(uint32_t count, uint32_t streams, size_t names) {
    begin_receiver(streams);
    hold_incomplete(count, streams);
    add_skips(streams, names);
}

static void advised_skips(size_t names) {
    begin_advised_receiver();
    hold_incomplete(ADVISED_HELD, ADVISED_STREAMS);
    add_skips(ADVISED_STREAMS, names);
}

static void skips_on_one(void) { skips(INCOMPLETE, 1, 0); }
static void skips_on_some(void) { skips(1024, 1024, 0); }
static void skips_on_as_many(void) { skips(INCOMPLETE, INCOMPLETE, 0); }
static void skips_on_all(void) { skips(65535, 65535, 0); }
static void named_skips_on_one(void) { skips(INCOMPLETE, 1, 1); }
static void named_skips_on_all(void) { skips(65535, 65535, 1); }
static void advised_skips_plain(void) { advised_skips(0); }
static void advised_skips_named(void) { advised_skips(1); }

/* One FORWARD-TSN past so many incomplete messages, that names 345 of so many streams, which have them. */
static void add_names(uint32_t count, uint32_t streams) {
    static struct sctpr_skip names[345];
    begin_packet();
    for (size_t i = 0; i < 345; i++) names[i].stream = (uint16_t)(streams / 345 * i), names[i].sequence = 0;
    CHECK(add_forward_tsn(2 + 2 * count, names, 345));
}

static void many_names(void) {
    skips(65535, 65535, 0);
    add_names(65535, 65535);
}

static void advised_names(void) {
    advised_skips(0);
    add_names(ADVISED_HELD, ADVISED_STREAMS);
}

/* 69 DATA, each between two of 1,200 incomplete messages, by its TSN. */
static void advised_gaps(void) {
    begin_advised_receiver();
    hold_incomplete(1200, ADVISED_STREAMS);
    for (uint32_t i = 0; add_data(1001 + 2 * i, 0, 0, UNORDERED); i++) {
    }
}

/* A chunk fills the gap before 100,000 TSNs; others fill gaps in the middle of 50,000 runs of one TSN each. */
static void one_gap(void) {
    begin_receiver(1);
    for (uint32_t i = 0; i < 100000; i++) must(sctpr_receiver_discard(&receiver, 2 + i), SCTPR_OK);
    CHECK(add_data(1, 0, 0, WHOLE | UNORDERED));
}

static void gaps_between_runs(void) {
    begin_receiver(1);
    for (uint32_t i = 0; i < 100000; i++) must(sctpr_receiver_discard(&receiver, 3 + 2 * i), SCTPR_OK);
    for (uint32_t i = 0; add_data(100000 + 2 * i, 0, 0, WHOLE | UNORDERED); i++) {
    }
}

/* Fragments between those of one message of 100,000, of which every second came. */
static void between_fragments(uint8_t flags) {
    begin_receiver(1);
    for (uint32_t i = 0; i < 50000; i++) give(3 + 2 * i, 0, 0, flags);
    for (uint32_t i = 0; add_data(50000 + 2 * i, 0, 0, flags); i++) {
    }
}

static void between_ordered(void) { between_fragments(0); }
static void between_unordered(void) { between_fragments(UNORDERED); }

/* Ordered messages between those that came, by their numbers. */
static void between_messages(void) {
    begin_receiver(1);
    for (uint32_t i = 0; i < 16000; i++) give(3 + 2 * i, 0, (uint16_t)(2 * i + 1), WHOLE);
    for (uint32_t i = 0; add_data(16000 + 2 * i, 0, (uint16_t)(16000 + 2 * i), WHOLE); i++) {
    }
}

static void resets(uint32_t streams) {
    static uint8_t value[2048], param[2048];
    size_t n = 0;
    begin_receiver(streams);
    put32(value, 1), put32(value + 4, 0), put32(value + 8, 0);
    for (uint32_t i = 0; i < 680; i++) put16(value + 12 + 2 * i, i);
    must(sctpr_write_param(SCTPR_PARAM_OUTGOING_RESET, value, 12 + 2 * 680, param, sizeof param, &n), SCTPR_OK);
    must(sctpr_write_chunk(SCTPR_RECONFIG, param, n, chunk, sizeof chunk, &n), SCTPR_OK);
    CHECK(add(n));
}

static void resets_of_some(void) { resets(1024); }
static void resets_of_all(void) { resets(ALL); }
static void all_open(void) { begin_receiver(ALL); }

static void readable(void) {
    static uint16_t streams[ALL];
    size_t count = 0;
    must(sctpr_receiver_readable_streams(&receiver, streams, ALL, &count), SCTPR_OK);
}

static void sack_out(void) {
    size_t n = 0;
    must(sctpr_receiver_sack(&receiver, chunk, PACKET - 12, &n), SCTPR_OK);
}

/* ---- Senders --------------------------------------------------------------------------------------------------------------- */

static void begin_sender(uint32_t in_flight) {
    size_t n;
    uint64_t number;
    uint32_t tsn;
    CHECK(sctpr_sender_new(1, 1000, 1000, 1, &sender) == SCTPR_OK && sctpr_sender_open(&sender, 0) == SCTPR_OK);
    must(sctpr_sender_set_mode(&sender, 0, 1, SCTPR_RELIABLE, 0), SCTPR_OK);
    for (uint32_t i = 0; i < in_flight; i++) {
        must(sctpr_sender_write(&sender, 0, SCTPR_PPID_BINARY, chunk, 1, &number, &n), SCTPR_OK);
        must(sctpr_sender_send_next(&sender, 1, chunk, sizeof chunk, &n, &tsn), SCTPR_OK);
    }
    begin_packet();
}

/* A SACK of all but the first chunk. */
static size_t put_all_but_one(uint32_t in_flight) {
    blocks[0].start = 2, blocks[0].end = (uint16_t)in_flight;
    return put_sack(chunk, 0, blocks, 1);
}

static void turns(uint32_t in_flight) {
    begin_sender(in_flight);
    for (int i = 0; i < 68; i++) CHECK(add(i % 2 == 0 ? put_all_but_one(in_flight) : put_sack(chunk, 0, blocks, 0)));
}

/* A SACK of no block, where all but the first chunk are reported. */
static void taken_back(uint32_t in_flight) {
    size_t count = 0;
    begin_sender(in_flight);
    must(sctpr_sender_acked(&sender, chunk, put_all_but_one(in_flight), rows, ALL, &count), SCTPR_OK);
    CHECK(count == in_flight - 1 && add_sack(0, 0));
}

/* Two SACKs of 167 blocks, each of which reports what the other does not. */
static void many_blocks_of(uint32_t in_flight) {
    uint32_t pitch = in_flight / 168, half = pitch / 2;
    begin_sender(in_flight);
    for (uint32_t turn = 0; turn < 2; turn++) {
        for (uint32_t i = 0; i < 167; i++) {
            blocks[i].start = (uint16_t)(2 + pitch * i + half * turn);
            blocks[i].end = (uint16_t)(blocks[i].start + half - 5);
        }
        CHECK(add_sack(0, 167));
    }
}

/* SACKs that each report one chunk more, the last one, so that all before it are missing once more. */
static void one_more(uint32_t in_flight) {
    begin_sender(in_flight);
    for (uint32_t i = 0; i < 68; i++) {
        blocks[0].start = (uint16_t)(in_flight - i), blocks[0].end = (uint16_t)in_flight;
        if (!add_sack(0, 1)) break;
    }
}

static void reports_in_turn(void) { turns(IN_FLIGHT); }
static void reports_taken_back(void) { taken_back(IN_FLIGHT); }
static void many_blocks(void) { many_blocks_of(IN_FLIGHT); }
static void one_more_each(void) { one_more(IN_FLIGHT); }
static void advised_turns(void) { turns(ADVISED_IN_FLIGHT); }
static void advised_taken_back(void) { taken_back(ADVISED_IN_FLIGHT); }
static void advised_blocks(void) { many_blocks_of(ADVISED_IN_FLIGHT); }
static void advised_one_more(void) { one_more(ADVISED_IN_FLIGHT); }

static void marked(void) {
    begin_sender(IN_FLIGHT);
    sctpr_sender_retransmit_all(&sender);
}

static void sent_again(void) {
    struct sctpr_in_flight row;
    size_t n, count = 0;
    while (sctpr_sender_next_to_retransmit(&sender, &row) == SCTPR_OK) {
        must(sctpr_sender_resend(&sender, row.tsn, 2, chunk, sizeof chunk, &n), SCTPR_OK);
        count++;
    }
    CHECK(count == IN_FLIGHT);
}

/* ---- Rows ------------------------------------------------------------------------------------------------------------------ */

static const struct row {
    const char *name;
    void (*build)(void);
    void (*run)(void);
    double aim;
    int is_within;
} all[] = {
    { "a FORWARD-TSN by one, 4,975 incomplete messages of a stream", skips_on_one, take_packet, 1000, 0 },
    { "the same, one on each of 1,024 streams", skips_on_some, take_packet, 1000, 0 },
    { "the same, each on a stream of its own", skips_on_as_many, take_packet, 1000, 0 },
    { "the same, on each of 65,535 streams", skips_on_all, take_packet, 1000, 0 },
    { "a FORWARD-TSN with a name, 4,975 messages of a stream", named_skips_on_one, take_packet, 1000, 0 },
    { "the same, on each of 65,535 streams", named_skips_on_all, take_packet, 1000, 0 },
    { "a FORWARD-TSN of 345 names past 65,535 TSNs and streams", many_names, take_packet, 1000, 0 },
    { "DATA in the gap before 100,000 TSNs", one_gap, take_packet, 1000, 1 },
    { "69 DATA between 100,000 runs of a TSN", gaps_between_runs, take_packet, 1000, 0 },
    { "69 DATA between 50,000 fragments of an ordered message", between_ordered, take_packet, 1000, 0 },
    { "the same, unordered", between_unordered, take_packet, 1000, 0 },
    { "69 DATA between 16,000 ordered messages", between_messages, take_packet, 1000, 0 },
    { "a reset of 680 of 1,024 streams, which are closed", resets_of_some, take_packet, 1000, 0 },
    { "the same of 65,536 streams", resets_of_all, take_packet, 1000, 0 },
    { "receiver_readable_streams, 65,536 open", all_open, readable, 1000, 0 },
    { "receiver_sack, 100,000 runs of a TSN", gaps_between_runs, sack_out, 1000, 1 },
    { "a SACK of 2..65,535, reports kept", reports_in_turn, take_packet, 1000, 0 },
    { "a SACK of none behind it, which takes that back", reports_taken_back, take_packet, 1000, 0 },
    { "a SACK of 167 blocks of 191, reports kept", many_blocks, take_packet, 1000, 0 },
    { "a SACK that reports one chunk, 65,535 in flight", one_more_each, take_packet, 1000, 0 },
    { "65,535 marked chunks are sent again", marked, sent_again, 50000, 1 },
    { "advised: FORWARD-TSNs by one, 2,606 messages of 1,024 streams", advised_skips_plain, take_packet, 1000, 1 },
    { "advised: the same with a name", advised_skips_named, take_packet, 1000, 1 },
    { "advised: a FORWARD-TSN of 345 names past all", advised_names, take_packet, 1000, 1 },
    { "advised: 69 DATA between 1,200 runs of a TSN", advised_gaps, take_packet, 1000, 1 },
    { "advised: a SACK of 2..4,096, reports kept", advised_turns, take_packet, 1000, 1 },
    { "advised: a SACK of none behind it, which takes that back", advised_taken_back, take_packet, 1000, 1 },
    { "advised: a SACK of 167 blocks of 8, reports kept", advised_blocks, take_packet, 1000, 1 },
    { "advised: a SACK that reports one chunk, 4,096 in flight", advised_one_more, take_packet, 1000, 1 },
    { "all: 170 FORWARD-TSNs by one, 4,975 incomplete messages of a stream", skips_on_one, take_all, 1000, 0 },
    { "all: the same, one on each of 1,024 streams", skips_on_some, take_all, 1000, 0 },
    { "all: the same, each on a stream of its own", skips_on_as_many, take_all, 1000, 0 },
    { "all: the same, on each of 65,535 streams", skips_on_all, take_all, 1000, 0 },
    { "all: 115 FORWARD-TSNs with a name, 4,975 messages of a stream", named_skips_on_one, take_all, 1000, 0 },
    { "all: the same, on each of 65,535 streams", named_skips_on_all, take_all, 1000, 0 },
    { "all: 68 SACKs in turn of 2..65,535 and of nothing, reports kept", reports_in_turn, take_all, 1000, 0 },
    { "all: two SACKs in turn of 167 blocks of 191, reports kept", many_blocks, take_all, 1000, 0 },
    { "all: 68 SACKs that report one chunk more each, 65,535 in flight", one_more_each, take_all, 1000, 0 },
};

static double least_time(const struct row *row) {
    double least = 1e12;
    for (int i = 0; i < RUNS; i++) {
        row->build();
        if (length > 12) must(sctpr_seal_packet(&head, packet, length), SCTPR_OK);
        double from = processor_time();
        row->run();
        double took = processor_time() - from;
        if (took < least) least = took;
        if (took > 100 * row->aim) i = RUNS;
        sctpr_receiver_free(&receiver);
        sctpr_sender_free(&sender);
        CHECK(held == 0);
    }
    return least;
}

int main(void) {
    for (size_t i = 0; i < sizeof all / sizeof *all; i++) {
        double took = least_time(&all[i]);
        printf("hostile: %-70s %9.0f us%s\n", all[i].name, took, took > all[i].aim ? "  over" : "");
        CHECK(!all[i].is_within || took <= 8 * all[i].aim);
        fflush(stdout);
    }
    return report("hostile");
}
