/* An endpoint over sctpr.h and pion/sctp, an SCTP stack in Go, exchange messages: pion sends each back on its stream. Datagrams go through
 * two pipes, each behind its length (four bytes, the lowest first), and on our side of them through the network in memory that loses,
 * repeats, delays and damages them, in real time.
 *
 *     pion TO FROM [seed] [seconds] [lost repeated late damaged, each of 10,000 datagrams]
 *
 * TO and FROM name the pipes; evidence/pion.sh starts both programs. It writes for so many seconds, then waits until all came back, and shuts
 * down. Each message that is read is compared with what was written; of the reliable streams each has to come. The last line says how many
 * messages came and how many faults there were; the status is 0 where there was none. */
#define _POSIX_C_SOURCE 200809L
#include "endpoint.h"
#include "legal.h"
#include "messages.h"
#include "network.h"
#include <errno.h>
#include <fcntl.h>
#include <poll.h>
#include <signal.h>
#include <stdio.h>
#include <stdlib.h>
#include <string.h>
#include <time.h>
#include <unistd.h>

/* A tick is a millisecond. Nothing is written while more than AHEAD messages of the two reliable streams have not come back; by then of the
 * other streams all but the last KEPT have come or are lost. */
enum { TICK = 1000000 /* nanoseconds */, OURS = 0, THEIRS = 1, WRITES = 4, AHEAD = 40, KEPT = 2000 };

static struct network network;
static struct endpoint endpoint;
static int to, from, is_closed;
static uint64_t began;

static uint64_t now(void) { return (network.tick + 1) * TICK; }

static uint64_t real_time(void) {
    struct timespec t;
    clock_gettime(CLOCK_MONOTONIC, &t);
    return (uint64_t)t.tv_sec * 1000000000u + (uint64_t)t.tv_nsec;
}

static void our_output(void *context, const uint8_t *packet, size_t length) {
    (void)context;
    legal_sent(endpoint.config.first_tsn, packet, length);
    network_send(&network, OURS, packet, length);
}

static void put_all(const uint8_t *bytes, size_t length) {
    while (length > 0 && !is_closed) {
        ssize_t n = write(to, bytes, length);
        if (n < 0 && errno != EINTR) is_closed = 1;
        if (n <= 0) continue;
        bytes += n;
        length -= (size_t)n;
    }
}

static void put_datagram(const struct datagram *d) {
    uint8_t head[4] = { (uint8_t)d->length, (uint8_t)(d->length >> 8), (uint8_t)(d->length >> 16), 0 };
    put_all(head, sizeof head);
    put_all(d->bytes, d->length);
}

/* Takes what the pipe has; whole datagrams go onto the network. */
static void get_datagrams(void) {
    static uint8_t held[1 << 20];
    static size_t count;
    struct pollfd p = { from, POLLIN, 0 };
    size_t at = 0, length;
    while (count < sizeof held && poll(&p, 1, 0) > 0 && (p.revents & POLLIN)) {
        ssize_t n = read(from, held + count, sizeof held - count);
        if (n <= 0) break;
        count += (size_t)n;
    }
    for (; count - at >= 4; at += 4 + length) {
        length = (size_t)held[at] | (size_t)held[at + 1] << 8 | (size_t)held[at + 2] << 16;
        if (count - at - 4 < length) break;
        network_send(&network, THEIRS, held + at + 4, length);
    }
    memmove(held, held + at, count - at);
    count -= at;
}

static void we_read(void) {
    static uint8_t message[MAX_MESSAGE];
    size_t length;
    uint32_t type;
    for (uint16_t i = 0; endpoint.has_halves && i < STREAMS; i++)
        while (sctpr_receiver_read(&endpoint.receiver, i, message, sizeof message, &length, &type) == SCTPR_OK)
            message_read(OURS, i, type, message, length);
}

/* The ticks that passed: what is due on the network goes on, and what came is read. */
static void pass_time(void) {
    const struct datagram *d;
    if ((real_time() - began) / TICK <= network.tick) {
        struct timespec t = { 0, 200000 };
        nanosleep(&t, NULL);
        return;
    }
    network_next_tick(&network);
    get_datagrams();
    while ((d = network_take(&network, THEIRS)) != NULL) {
        legal_came(d->bytes, d->length);
        endpoint_receive(&endpoint, d->bytes, d->length, now());
    }
    we_read();
    endpoint_poll(&endpoint, now());
    while ((d = network_take(&network, OURS)) != NULL) put_datagram(d);
}

static void we_write(void) {
    static uint8_t message[MAX_MESSAGE];
    for (int i = 0; i < WRITES && channels[OURS][0].count + channels[OURS][1].count < AHEAD; i++) {
        int stream = (int)(random_next(&message_random) % STREAMS);
        uint32_t length = message_length(stream, 0);
        message_fill(message, length, OURS, stream, channels[OURS][stream].written);
        sctpr_code code = endpoint_write(&endpoint, (uint16_t)stream, SCTPR_PPID_BINARY, message, length);
        if (code != SCTPR_OK) fault("a write is refused with %u", (unsigned)code);
        else message_written(OURS, stream, length);
    }
}

static void set_up(void) {
    struct endpoint_config config = { 0 };
    config.port = config.peer_port = 5000;
    config.streams = STREAMS;
    config.tag = 0x12345678;
    config.first_tsn = 0xfffffe00;
    config.max_message_size = MAX_MESSAGE;
    config.window = 4 << 20;
    config.max_in_flight = 128 * 1024;
    config.mtu = 1200;
    config.rto_initial = 500000000;
    config.rto_min = 150000000;
    config.rto_max = 1000000000;
    config.heartbeat_interval = 1000000000;
    config.max_retransmissions = 1000;
    config.output = our_output;
    endpoint_init(&endpoint, &config);
}

static void pass(uint64_t milliseconds, int (*is_done)(void)) {
    for (uint64_t end = network.tick + milliseconds; network.tick < end && !is_done() && faults == 0 && !is_closed;) pass_time();
}

static int is_up(void) { return endpoint.state == ENDPOINT_ESTABLISHED; }
static int is_over(void) { return endpoint_is_over(&endpoint); }
static int is_drained(void) {
    return is_over() || (messages_arrived() && sctpr_sender_pending(&endpoint.sender) == 0 && sctpr_sender_chunks_in_flight(&endpoint.sender) == 0);
}

static void set_modes(void) {
    for (uint16_t i = 0; i < STREAMS; i++) {
        const struct mode *m = &modes[i];
        if (sctpr_sender_set_mode(&endpoint.sender, i, m->unordered, m->reliability, m->value) != SCTPR_OK) fault("mode %u", i);
    }
}

static void exchange(uint64_t seconds) {
    uint64_t end, drained;
    endpoint_connect(&endpoint, now());
    pass(20000, is_up);
    if (!is_up()) fault("no association: state %d", endpoint.state);
    if (faults > 0) return;
    set_modes();
    for (end = network.tick + seconds * 1000; network.tick < end && is_up() && faults == 0 && !is_closed;) {
        we_write();
        pass_time();
        messages_forget(KEPT);
    }
    drained = network.tick;
    pass(300000, is_drained);
    printf("drained after %lu ms\n", (unsigned long)(network.tick - drained));
    if (!is_drained() || !is_up()) fault("not all came back: state %d", endpoint.state);
    /* what may still be skipped, or come back of what may be lost */
    pass(3000, is_over);
    messages_forget(0);
    endpoint_shutdown(&endpoint, now());
    pass(10000, is_over);
    if (endpoint.state != ENDPOINT_SHUT_DOWN) fault("not shut down: state %d", endpoint.state);
}

static void print_all(void) {
    const struct endpoint_counts *c = &endpoint.counts;
    for (int i = 0; i < 2; i++) {
        printf("%s\n", i == OURS ? "ours" : "pion's");
        network_print(&network.counts[i]);
    }
    messages_print(OURS);
    printf("our DATA %lu, sent again %lu, taken back %lu, timeouts %lu, fast retransmissions %lu\n", (unsigned long)c->data_sent,
           (unsigned long)c->data_sent_again, (unsigned long)c->taken_back, (unsigned long)c->timeouts,
           (unsigned long)c->fast_retransmissions);
    printf("messages abandoned %lu, expired %lu, FORWARD-TSN %lu\n", (unsigned long)c->abandoned, (unsigned long)c->expired,
           (unsigned long)c->forward_tsns_sent);
    for (unsigned i = 0; i <= SCTPR_ERR_SHORT_BUFFER; i++)
        if (c->packets[i] || c->chunks[i])
            printf("  came with code %u: packets %lu, chunks %lu\n", i, (unsigned long)c->packets[i], (unsigned long)c->chunks[i]);
    if (endpoint.abort_length > 8) printf("ABORT: %.*s\n", (int)(endpoint.abort_length - 8), (const char *)endpoint.abort_chunk + 8);
}

int main(int argc, char **argv) {
    struct network_rates rates = { 1000, 100, 500, 20 };
    uint64_t seed = argc > 3 ? strtoull(argv[3], NULL, 0) : 1, bytes, messages;
    if (argc < 3) return 2;
    if (argc > 8) {
        rates.lost = (uint32_t)atoi(argv[5]);
        rates.repeated = (uint32_t)atoi(argv[6]);
        rates.late = (uint32_t)atoi(argv[7]);
        rates.damaged = (uint32_t)atoi(argv[8]);
    }
    signal(SIGPIPE, SIG_IGN);
    to = open(argv[1], O_WRONLY);
    from = open(argv[2], O_RDONLY);
    if (to < 0 || from < 0) return 2;
    message_random = seed * 0x9e3779b97f4a7c15ull | 1;
    network_init(&network, seed, rates);
    set_up();
    began = real_time();
    exchange(argc > 4 ? strtoull(argv[4], NULL, 0) : 5);
    print_all();
    messages = messages_read(&bytes);
    endpoint_free(&endpoint);
    network_free(&network);
    printf("pion: seed %lu, %lu ms, %lu messages, %lu bytes, %lu faults\n", (unsigned long)seed, (unsigned long)network.tick,
           (unsigned long)messages, (unsigned long)bytes, faults);
    return faults != 0;
}
