/* Two endpoints exchange messages over a network in memory that loses, repeats, delays and damages datagrams. Each message that is read is
 * compared, byte for byte, with what was written; of the reliable streams each has to come.
 *
 *     exchange [seed] [ticks] [lost repeated late damaged, each of 10,000 datagrams] [short]
 *
 * It writes for so many ticks of 10 ms, in no real time, then waits until all came, resets streams and adds some (RFC 6525), and shuts down.
 * With `short` it writes more messages, of under 64 bytes, so that stream sequence numbers pass 65,535 within 20,000 ticks. The last line says
 * how many messages came and how many faults there were; the status is 0 where there was none. */
#include "endpoint.h"
#include "messages.h"
#include "network.h"
#include <stdio.h>
#include <stdlib.h>
#include <string.h>

enum { TICK = 10000000 /* nanoseconds */, WRITES = 4, SHORT_WRITES = 32 };

static struct network network;
static struct endpoint sides[2];
static int directions[2] = { 0, 1 };
static int is_short;

static void output(void *context, const uint8_t *packet, size_t length) { network_send(&network, *(int *)context, packet, length); }

static void set_up(void) {
    struct endpoint_config config = { 0 };
    config.streams = STREAMS;
    config.max_message_size = MAX_MESSAGE;
    config.window = 1 << 20;
    config.max_in_flight = 128 * 1024;
    config.mtu = 1200;
    config.rto_initial = 500000000;
    config.rto_min = 200000000;
    config.rto_max = 1000000000;
    config.heartbeat_interval = 1000000000;
    config.max_retransmissions = 100;
    config.output = output;
    for (int i = 0; i < 2; i++) {
        config.port = (uint16_t)(5000 + i);
        config.peer_port = (uint16_t)(5001 - i);
        config.tag = 0x12345678 + (uint32_t)i;
        config.first_tsn = 0xfffffe00 + 100 * (uint32_t)i;
        config.context = &directions[i];
        endpoint_init(&sides[i], &config);
    }
}

static uint64_t now(void) { return (network.tick + 1) * TICK; }

static void write_some(int side) {
    static uint8_t message[MAX_MESSAGE];
    for (int i = 0; i < (is_short ? SHORT_WRITES : WRITES); i++) {
        int stream = (int)(random_next(&message_random) % STREAMS);
        size_t amount = 0;
        sctpr_sender_buffered_amount(&sides[side].sender, (uint16_t)stream, &amount);
        if (amount > MAX_MESSAGE) continue;
        uint32_t length = is_short ? 8 + (uint32_t)(random_next(&message_random) % 56) : message_length(stream, 0);
        message_fill(message, length, side, stream, channels[side][stream].written);
        sctpr_code code = endpoint_write(&sides[side], (uint16_t)stream, SCTPR_PPID_BINARY, message, length);
        if (code != SCTPR_OK) fault("side %d: a write is refused with %u", side, (unsigned)code);
        else message_written(side, stream, length);
    }
}

/* Reads all that the other side sent. */
static void read_all(int side) {
    static uint8_t message[MAX_MESSAGE];
    uint16_t stream = 0;
    size_t length;
    uint32_t type;
    if (!sides[side].has_halves) return;
    while (stream < STREAMS) {
        sctpr_code code = sctpr_receiver_read(&sides[side].receiver, stream, message, sizeof message, &length, &type);
        if (code == SCTPR_OK) message_read(1 - side, stream, type, message, length);
        else stream++;
    }
}

static void one_tick(void) {
    const struct datagram *d;
    network_next_tick(&network);
    for (int i = 0; i < 2; i++) {
        while ((d = network_take(&network, 1 - i)) != NULL) endpoint_receive(&sides[i], d->bytes, d->length, now());
        read_all(i);
        endpoint_poll(&sides[i], now());
    }
}

static int both_are(enum endpoint_state state) { return sides[0].state == state && sides[1].state == state; }

static int is_drained(const struct endpoint *e) {
    sctpr_sender sender = e->sender;
    return sctpr_sender_pending(&sender) == 0 && sctpr_sender_chunks_in_flight(&sender) == 0;
}

/* The first side connects, or the second one, or both do. */
static void connect_sides(uint64_t seed) {
    if (seed % 3 != 1) endpoint_connect(&sides[0], now());
    if (seed % 3 != 2) endpoint_connect(&sides[1], now());
    for (int i = 0; i < 5000 && !both_are(ENDPOINT_ESTABLISHED); i++) one_tick();
    if (!both_are(ENDPOINT_ESTABLISHED)) fault("no association: states %d and %d", sides[0].state, sides[1].state);
}

static void set_modes(int side) {
    for (uint16_t i = 0; i < STREAMS; i++) {
        const struct mode *m = &modes[i];
        if (sctpr_sender_set_mode(&sides[side].sender, i, m->unordered, m->reliability, m->value) != SCTPR_OK) fault("mode %u", i);
    }
}

static void exchange(long ticks) {
    set_modes(0);
    set_modes(1);
    for (long i = 0; i < ticks && faults == 0 && both_are(ENDPOINT_ESTABLISHED); i++) {
        write_some(0);
        write_some(1);
        one_tick();
        if (i % 256 == 0) messages_forget(20000);
    }
    int is_done = 0;
    for (int i = 0; i < 100000 && !is_done && faults == 0; i++) {
        one_tick();
        is_done = messages_arrived() && is_drained(&sides[0]) && is_drained(&sides[1]);
    }
    if (!is_done) fault("not all came: states %d and %d", sides[0].state, sides[1].state);
    messages_forget(0);
}

/* Goes on until the request of a side has its answer, and the other side none that waits. */
static void await_answer(int side) {
    for (int i = 0; i < 5000 && (sides[side].request.length > 0 || sides[1 - side].request.length > 0); i++) one_tick();
    if (sides[side].request.length > 0 || sides[side].request_result != SCTPR_RESULT_PERFORMED)
        fault("side %d: a request: result %u", side, (unsigned)sides[side].request_result);
}

/* After a reset the next message of the first stream, which is ordered, has the number 0 (RFC 6525 5.1.2), and arrives. */
static void write_after_reset(int side) {
    static uint8_t message[100];
    struct sctpr_in_flight row;
    message_fill(message, sizeof message, side, 0, channels[side][0].written);
    if (endpoint_write(&sides[side], 0, SCTPR_PPID_BINARY, message, sizeof message) != SCTPR_OK) fault("side %d: a write", side);
    message_written(side, 0, sizeof message);
    endpoint_poll(&sides[side], now());
    if (sctpr_sender_in_flight_at(&sides[side].sender, 0, &row) != SCTPR_OK || row.sequence != 0) fault("side %d: no number 0", side);
    for (int i = 0; i < 5000 && !(messages_arrived() && is_drained(&sides[0]) && is_drained(&sides[1])); i++) one_tick();
    if (!messages_arrived()) fault("side %d: the message after a reset did not come", side);
}

/* A message on the last of the streams that were added arrives. */
static void write_on_added(int side) {
    const struct endpoint *other = &sides[1 - side];
    uint8_t message[4] = { 0 };
    size_t length = 0;
    uint32_t type;
    sctpr_receiver receiver = other->receiver;
    if (sides[side].outgoing != STREAMS + 2 || other->incoming != STREAMS + 2) fault("side %d: streams that were added", side);
    if (endpoint_write(&sides[side], STREAMS + 1, SCTPR_PPID_STRING, (const uint8_t *)"new", 3) != SCTPR_OK) fault("side %d: a write", side);
    for (int i = 0; i < 5000 && !is_drained(&sides[side]); i++) one_tick();
    sctpr_code code = sctpr_receiver_read(&receiver, STREAMS + 1, message, sizeof message, &length, &type);
    if (code != SCTPR_OK || length != 3 || memcmp(message, "new", 4) != 0) fault("side %d: no message on a stream that was added", side);
}

/* A side resets two streams, the other one asks it to reset one, and it adds two. */
static void reconfigure(int side) {
    static const uint16_t streams[] = { 0, 3 };
    if (endpoint_reset(&sides[side], streams, 2) != SCTPR_OK) fault("side %d: a reset", side);
    if (endpoint_write(&sides[side], 3, SCTPR_PPID_STRING, (const uint8_t *)"no", 2) != SCTPR_INVALID)
        fault("side %d: a write while the stream is reset", side);
    await_answer(side);
    write_after_reset(side);
    if (endpoint_reset_incoming(&sides[1 - side], streams, 1) != SCTPR_OK) fault("side %d: a reset is asked for", side);
    await_answer(1 - side);
    await_answer(side);
    write_after_reset(side);
    if (endpoint_add_streams(&sides[side], 2) != SCTPR_OK) fault("side %d: streams are added", side);
    await_answer(side);
    write_on_added(side);
}

static void shut_down(int side) {
    endpoint_shutdown(&sides[side], now());
    for (int i = 0; i < 5000 && !both_are(ENDPOINT_SHUT_DOWN); i++) one_tick();
    if (!both_are(ENDPOINT_SHUT_DOWN)) fault("not shut down: states %d and %d", sides[0].state, sides[1].state);
}

static void print_side(int side) {
    const struct endpoint_counts *c = &sides[side].counts;
    const struct network_counts *n = &network.counts[side];
    printf("side %d\n", side);
    network_print(n);
    messages_print(side);
    printf("  DATA %lu, sent again %lu, timeouts %lu, fast retransmissions %lu\n", (unsigned long)c->data_sent,
           (unsigned long)c->data_sent_again, (unsigned long)c->timeouts, (unsigned long)c->fast_retransmissions);
    printf("  messages abandoned %lu, expired %lu, FORWARD-TSN %lu, heartbeats answered %lu of %lu\n", (unsigned long)c->abandoned,
           (unsigned long)c->expired, (unsigned long)c->forward_tsns_sent, (unsigned long)c->heartbeats_answered,
           (unsigned long)c->heartbeats_sent);
    printf("  requests sent %lu, answered %lu\n", (unsigned long)c->requests_sent, (unsigned long)c->requests_answered);
    for (unsigned i = 16; i <= SCTPR_ERR_SHORT_BUFFER; i++)
        if (c->chunks[i]) printf("  chunks refused with %u: %lu\n", i, (unsigned long)c->chunks[i]);
}

static void end(void) {
    endpoint_free(&sides[0]);
    endpoint_free(&sides[1]);
    network_free(&network);
}

/* One side aborts; the other one is told. */
static void abort_one(void) {
    struct network_rates none = { 0, 0, 0, 0 };
    network_init(&network, 1, none);
    set_up();
    connect_sides(0);
    endpoint_abort(&sides[0]);
    for (int i = 0; i < 3; i++) one_tick();
    if (!both_are(ENDPOINT_ABORTED) || sides[1].abort_length != 8) fault("not aborted: states %d and %d", sides[0].state, sides[1].state);
    end();
}

/* A message of 1,000 bytes fills a window of 1,401 after three fragments, which count 472 each: no stream can be read, and the
 * side that receives ends the association with the cause Out of Resource (RFC 4960 3.3.10.4). */
static void end_at_full_window(void) {
    static const uint8_t message[1000], cause[8] = { SCTPR_ABORT, 0, 0, 8, 0, SCTPR_CAUSE_OUT_OF_RESOURCE, 0, 4 };
    struct network_rates none = { 0, 0, 0, 0 };
    network_init(&network, 1, none);
    set_up();
    for (int i = 0; i < 2; i++) {
        sides[i].config.mtu = 100;
        sides[i].config.max_message_size = 1000;
        sides[i].config.window = (uint32_t)SCTPR_LEAST_WINDOW(1000, 65519) + 1;
    }
    connect_sides(0);
    if (endpoint_write(&sides[0], 0, SCTPR_PPID_BINARY, message, sizeof message) != SCTPR_OK) fault("a write");
    for (int i = 0; i < 100 && !both_are(ENDPOINT_ABORTED); i++) one_tick();
    if (!both_are(ENDPOINT_ABORTED) || sides[0].abort_length != 8 || memcmp(sides[0].abort_chunk, cause, 8) != 0)
        fault("not ended at a full window: states %d and %d", sides[0].state, sides[1].state);
    end();
}

int main(int argc, char **argv) {
    uint64_t seed = argc > 1 ? strtoull(argv[1], NULL, 0) : 1, bytes;
    struct network_rates rates = { 200, 100, 500, 20 };
    if (argc > 6) {
        rates.lost = (uint32_t)atoi(argv[3]);
        rates.repeated = (uint32_t)atoi(argv[4]);
        rates.late = (uint32_t)atoi(argv[5]);
        rates.damaged = (uint32_t)atoi(argv[6]);
    }
    is_short = argc > 7 && strcmp(argv[7], "short") == 0;
    message_random = seed * 0x9e3779b97f4a7c15ull | 1;
    network_init(&network, seed, rates);
    set_up();
    connect_sides(seed);
    if (faults == 0) exchange(argc > 2 ? atol(argv[2]) : 1000);
    for (int side = 0; side < 2 && faults == 0; side++) reconfigure(side);
    if (faults == 0) shut_down(seed / 3 % 2);
    print_side(0);
    print_side(1);
    printf("%lu ticks\n", (unsigned long)network.tick);
    end();
    abort_one();
    end_at_full_window();
    uint64_t messages = messages_read(&bytes);
    printf("exchange: %lu messages, %lu bytes, %lu faults\n", (unsigned long)messages, (unsigned long)bytes, faults);
    return faults != 0;
}
