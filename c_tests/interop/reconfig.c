/* usrsctp and an endpoint over sctpr.h reset streams and add some (RFC 6525), each side of its own accord and where the other asks for it, over
 * a network in memory that loses, repeats, delays and damages datagrams. Requests that the endpoint does not follow are denied.
 *
 *     reconfig [seed]
 *
 * After a reset the next message of the stream has the number 0 and arrives, and so does one on a stream that was added. The last line says
 * how many faults there were; the status is 0 where there was none. */
#include "endpoint.h"
#include "known.h"
#include "network.h"
#include <errno.h>
#include <stdio.h>
#include <stdlib.h>
#include <string.h>
#include <sys/socket.h>
#include <sys/time.h>
#include <usrsctp.h>

enum { TICK_MS = 10, OURS = 0, THEIRS = 1, STREAMS = 8, LAST = 9, MOST_TICKS = 5000 };

static struct network network;
static struct endpoint endpoint;
static struct socket *theirs;
static unsigned long faults, messages;
/* The number of the last DATA chunk that usrsctp sent on a stream. */
static uint16_t their_number[65536];

/* Nothing here is abandoned or unordered, so that usrsctp's faults are not met (known.h); the last line says where one is. */
static void fault(const char *what) {
    faults++;
    printf("FAULT: %s\n", what);
}

static uint64_t now(void) { return (network.tick + 1) * TICK_MS * 1000000; }

/* The clock that usrsctp asks, in place of the C library's: it goes by the ticks too. */
int gettimeofday(struct timeval *restrict t, void *restrict zone) {
    (void)zone;
    t->tv_sec = (time_t)(1000000 + now() / 1000000000);
    t->tv_usec = (suseconds_t)(now() % 1000000000 / 1000);
    return 0;
}

/* The random numbers that usrsctp asks for, by the linker's --wrap. */
static uint64_t their_random = 1;
int __wrap_read_random(void *bytes, int length);
int __wrap_read_random(void *bytes, int length) {
    for (int i = 0; i < length; i++) ((uint8_t *)bytes)[i] = (uint8_t)random_next(&their_random);
    return length;
}

static void our_output(void *context, const uint8_t *packet, size_t length) {
    (void)context;
    network_send(&network, OURS, packet, length);
}

static int their_output(void *address, void *packet, size_t length, uint8_t tos, uint8_t df) {
    (void)address;
    (void)tos;
    (void)df;
    known_sent(packet, length);
    network_send(&network, THEIRS, packet, length);
    return 0;
}

static void must(int result, const char *what) {
    if (result >= 0 || errno == EINPROGRESS) return;
    perror(what);
    exit(2);
}

/* ---- The two sides --------------------------------------------------------------------------------------------------------- */

static void set_up_usrsctp(void) {
    struct sockaddr_conn address = { .sconn_family = AF_CONN, .sconn_port = htons(5000), .sconn_addr = &network };
    struct sockaddr_conn peer = { .sconn_family = AF_CONN, .sconn_port = htons(5001), .sconn_addr = &network };
    struct sctp_initmsg init = { .sinit_num_ostreams = STREAMS, .sinit_max_instreams = 100 };
    struct sctp_assoc_value resets = { SCTP_FUTURE_ASSOC, SCTP_ENABLE_RESET_STREAM_REQ | SCTP_ENABLE_RESET_ASSOC_REQ | SCTP_ENABLE_CHANGE_ASSOC_REQ };
    int on = 1;
    usrsctp_init_nothreads(0, their_output, NULL);
    usrsctp_sysctl_set_sctp_ecn_enable(0);
    usrsctp_sysctl_set_sctp_rto_min_default(50);
    usrsctp_sysctl_set_sctp_rto_max_default(200);
    usrsctp_sysctl_set_sctp_rto_initial_default(100);
    usrsctp_sysctl_set_sctp_assoc_rtx_max_default(10000);
    usrsctp_sysctl_set_sctp_path_rtx_max_default(10000);
    usrsctp_sysctl_set_sctp_init_rtx_max_default(100);
    usrsctp_register_address(&network);
    theirs = usrsctp_socket(AF_CONN, SOCK_STREAM, IPPROTO_SCTP, NULL, NULL, 0, NULL);
    if (!theirs) must(-1, "usrsctp_socket");
    must(usrsctp_setsockopt(theirs, IPPROTO_SCTP, SCTP_INITMSG, &init, sizeof init), "SCTP_INITMSG");
    must(usrsctp_setsockopt(theirs, IPPROTO_SCTP, SCTP_NODELAY, &on, sizeof on), "SCTP_NODELAY");
    must(usrsctp_setsockopt(theirs, IPPROTO_SCTP, SCTP_RECVRCVINFO, &on, sizeof on), "SCTP_RECVRCVINFO");
    must(usrsctp_setsockopt(theirs, IPPROTO_SCTP, SCTP_ENABLE_STREAM_RESET, &resets, sizeof resets), "SCTP_ENABLE_STREAM_RESET");
    must(usrsctp_set_non_blocking(theirs, 1), "non-blocking");
    must(usrsctp_bind(theirs, (struct sockaddr *)&address, sizeof address), "usrsctp_bind");
    must(usrsctp_connect(theirs, (struct sockaddr *)&peer, sizeof peer), "usrsctp_connect");
}

static int never_abandons(uint16_t stream) {
    (void)stream;
    return 0;
}

static void set_up_endpoint(void) {
    struct endpoint_config config = { 0 };
    config.port = 5001;
    config.peer_port = 5000;
    config.streams = STREAMS;
    config.tag = 0x12345678;
    config.first_tsn = 0xfffffff0;
    config.max_message_size = 1000;
    config.window = 1 << 20;
    config.max_in_flight = 1 << 16;
    config.mtu = 1200;
    config.rto_initial = 500000000;
    config.rto_min = 200000000;
    config.rto_max = 1000000000;
    config.heartbeat_interval = 1000000000;
    config.max_retransmissions = 10000;
    config.output = our_output;
    endpoint_init(&endpoint, &config);
    known_begin(config.first_tsn, never_abandons);
}

static void note_numbers(const struct datagram *d) {
    struct sctpr_any_chunk rows[100];
    struct sctpr_head head;
    struct sctpr_data data;
    size_t count = 0;
    if (sctpr_read_any_packet(d->bytes, d->length, &head, rows, 100, &count) != SCTPR_OK) return;
    for (size_t i = 0; i < count && i < 100; i++)
        if (sctpr_read_data(d->bytes + rows[i].at, rows[i].length, &data) == SCTPR_OK) their_number[data.stream] = data.sequence;
}

static void one_tick(void) {
    const struct datagram *d;
    network_next_tick(&network);
    while ((d = network_take(&network, THEIRS)) != NULL) {
        note_numbers(d);
        endpoint_receive(&endpoint, d->bytes, d->length, now());
    }
    while ((d = network_take(&network, OURS)) != NULL) {
        known_taken(d->bytes, d->length);
        usrsctp_conninput(&network, d->bytes, d->length, 0);
    }
    usrsctp_handle_timers(TICK_MS);
    endpoint_poll(&endpoint, now());
}

/* ---- Messages -------------------------------------------------------------------------------------------------------------- */

static int they_read(uint16_t stream, uint16_t number) {
    char message[100];
    struct sctp_rcvinfo info;
    socklen_t info_length = sizeof info, from_length = 0;
    unsigned type = 0;
    int flags = 0;
    ssize_t n = usrsctp_recvv(theirs, message, sizeof message, NULL, &from_length, &info, &info_length, &type, &flags);
    if (n <= 0 || flags & MSG_NOTIFICATION) return 0;
    if (n != 4 || memcmp(message, "ours", 4) != 0 || info.rcv_sid != stream || info.rcv_ssn != number) fault("what usrsctp reads");
    messages++;
    return 1;
}

static void we_say(uint16_t stream, uint16_t number) {
    int is_read = 0;
    if (endpoint_write(&endpoint, stream, SCTPR_PPID_STRING, (const uint8_t *)"ours", 4) != SCTPR_OK) fault("a write of ours");
    for (int i = 0; i < MOST_TICKS && !is_read; i++) {
        one_tick();
        is_read = they_read(stream, number);
    }
    for (int i = 0; i < MOST_TICKS && !sctpr_sender_is_drained(&endpoint.sender, stream); i++) one_tick();
    if (!is_read) fault("usrsctp did not read what we wrote");
}

static void they_say(uint16_t stream, uint16_t number) {
    struct sctp_sndinfo info = { .snd_sid = stream, .snd_ppid = htonl(SCTPR_PPID_STRING) };
    uint8_t message[100];
    size_t length = 0;
    uint32_t type;
    sctpr_code code = SCTPR_NOTHING;
    if (usrsctp_sendv(theirs, "theirs", 6, NULL, 0, &info, sizeof info, SCTP_SENDV_SNDINFO, 0) != 6) fault("a write of usrsctp");
    for (int i = 0; i < MOST_TICKS && code == SCTPR_NOTHING; i++) {
        one_tick();
        code = sctpr_receiver_read(&endpoint.receiver, stream, message, sizeof message, &length, &type);
    }
    if (code != SCTPR_OK || length != 6 || memcmp(message, "theirs", 6) != 0) fault("what we read");
    if (their_number[stream] != number) fault("the number of a message of usrsctp");
    messages++;
    for (int i = 0; i < 100; i++) one_tick();
}

/* ---- Requests -------------------------------------------------------------------------------------------------------------- */

static void await_answer(sctpr_code code) {
    if (code != SCTPR_OK) fault("a request of ours is refused");
    for (int i = 0; i < MOST_TICKS && endpoint.request.length > 0; i++) one_tick();
    if (endpoint.request.length > 0 || endpoint.request_result != SCTPR_RESULT_PERFORMED) fault("a request of ours is not performed");
    for (int i = 0; i < 100; i++) one_tick();
}

static void they_reset(uint16_t stream, uint16_t flags) {
    union {
        struct sctp_reset_streams it;
        uint8_t room[sizeof(struct sctp_reset_streams) + 2];
    } reset;
    memset(&reset, 0, sizeof reset);
    reset.it.srs_flags = flags;
    reset.it.srs_number_streams = 1;
    memcpy(reset.room + sizeof reset.it, &stream, sizeof stream);
    must(usrsctp_setsockopt(theirs, IPPROTO_SCTP, SCTP_RESET_STREAMS, &reset, sizeof reset.room), "SCTP_RESET_STREAMS");
    for (int i = 0; i < 500; i++) one_tick();
    if (endpoint.request.length > 0 || endpoint.wanted.length > 0) fault("the reset that usrsctp asked for does not end");
}

static void they_add(uint16_t count) {
    struct sctp_add_streams add = { .sas_outstrms = count };
    must(usrsctp_setsockopt(theirs, IPPROTO_SCTP, SCTP_ADD_STREAMS, &add, sizeof add), "SCTP_ADD_STREAMS");
    for (int i = 0; i < 500; i++) one_tick();
    if (endpoint.incoming != STREAMS + (uint32_t)count) fault("streams that usrsctp adds");
}

/* What usrsctp asked for is denied. Answers how often in the last hundred ticks. */
static uint64_t await_denial(uint64_t before) {
    uint64_t denied = before;
    for (int i = 0; i < 500; i++) {
        if (i == 400) denied = endpoint.counts.requests_denied;
        one_tick();
    }
    if (denied == before || endpoint.peer.last_result != SCTPR_RESULT_DENIED) fault("a request of usrsctp is not denied");
    return endpoint.counts.requests_denied - denied;
}

/* Streams of ours (4.6), not asked for any more once that is denied. */
static void they_want_streams(uint16_t count) {
    struct sctp_add_streams add = { .sas_instrms = count };
    uint64_t before = endpoint.counts.requests_denied;
    uint32_t outgoing = endpoint.outgoing;
    must(usrsctp_setsockopt(theirs, IPPROTO_SCTP, SCTP_ADD_STREAMS, &add, sizeof add), "SCTP_ADD_STREAMS of ours");
    if (await_denial(before) > 0) fault("usrsctp repeats a request that was denied");
    if (endpoint.outgoing != outgoing) fault("streams of ours that usrsctp adds");
}

/* A reset of all TSNs (4.3). usrsctp repeats it: an answer without TSNs, which 4.4 allows, does not end it. */
static void they_reset_all(void) {
    sctp_assoc_t all = 0;
    uint64_t before = endpoint.counts.requests_denied;
    must(usrsctp_setsockopt(theirs, IPPROTO_SCTP, SCTP_RESET_ASSOC, &all, sizeof all), "SCTP_RESET_ASSOC");
    await_denial(before);
}

static void reconfigure(void) {
    static const uint16_t one = 1, two = 2;
    for (uint16_t i = 0; i < 2; i++) we_say(1, i);
    for (uint16_t i = 0; i < 2; i++) they_say(2, i);
    they_want_streams(2);
    await_answer(endpoint_reset(&endpoint, &one, 1));
    we_say(1, 0);
    they_reset(2, SCTP_STREAM_RESET_OUTGOING);
    they_say(2, 0);
    they_reset(1, SCTP_STREAM_RESET_INCOMING);
    we_say(1, 0);
    await_answer(endpoint_reset_incoming(&endpoint, &two, 1));
    they_say(2, 0);
    they_add(2);
    they_say(LAST, 0);
    await_answer(endpoint_add_streams(&endpoint, 2));
    we_say(LAST, 0);
    they_reset_all();
    we_say(3, 0);
    they_say(3, 0);
}

int main(int argc, char **argv) {
    uint64_t seed = argc > 1 ? strtoull(argv[1], NULL, 0) : 1;
    struct network_rates rates = { 1000, 200, 1000, 50 }, none = { 0, 0, 0, 0 };
    network_init(&network, seed, seed == 0 ? none : rates);
    their_random = seed * 0xbf58476d1ce4e5b9ull | 1;
    set_up_endpoint();
    set_up_usrsctp();
    for (int i = 0; i < MOST_TICKS && endpoint.state != ENDPOINT_ESTABLISHED; i++) one_tick();
    if (endpoint.state != ENDPOINT_ESTABLISHED) fault("no association");
    else reconfigure();
    usrsctp_close(theirs);
    for (int i = 0; i < 200; i++) one_tick();
    endpoint_free(&endpoint);
    for (int i = 0; i < 1000 && usrsctp_finish() != 0; i++) usrsctp_handle_timers(TICK_MS);
    network_free(&network);
    printf("reconfig: seed %lu, %lu ticks, %lu messages, %lu faults", (unsigned long)seed, (unsigned long)network.tick, messages, faults);
    known_print();
    putchar('\n');
    return faults != 0;
}
