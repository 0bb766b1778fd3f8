/* usrsctp and an endpoint over sctpr.h exchange messages in one process, over AF_CONN and a network in memory that loses, repeats, delays
 * and damages datagrams. Each message that is read is compared, byte for byte, with what was written; of the reliable streams each has to
 * come.
 *
 *     usrsctp [seed] [ticks] [lost repeated late damaged, each of 10,000 datagrams] [mixed | short | resets]
 *
 * It writes for so many ticks of 10 ms, in no real time, then waits until all came, and shuts down. By the seed our side connects, or
 * usrsctp, or both; a seed's run is the same each time. With `mixed` an unordered stream has messages of one chunk and of several. With
 * `short` messages have under 64 bytes, and enough of them are written that stream sequence numbers pass 65,535 within 20,000 ticks. With
 * `resets` both sides reset streams and add some (RFC 6525): by an odd seed at any time, by an even one only where nothing waits or is in flight,
 * so that usrsctp's faults are not met.
 *
 * usrsctp 0.9.5.0 has faults, which known.c tells from the chunks alone. legal.c looks at every chunk that we send: where it finds a fault, none is
 * usrsctp's. One that ends the run, or keeps messages from coming, is no fault of ours; everything else is. The last line says how many
 * messages came, how many faults there were, and which of usrsctp's; the status is 0 where there was none, and 3 where usrsctp's ended the run. */
#include "endpoint.h"
#include "known.h"
#include "legal.h"
#include "messages.h"
#include "network.h"
#include <errno.h>
#include <stdarg.h>
#include <stdio.h>
#include <stdlib.h>
#include <string.h>
#include <sys/socket.h>
#include <sys/time.h>
#include <usrsctp.h>

enum { TICK_MS = 10, OURS = 0, THEIRS = 1, WRITES = 20, SHORT_WRITES = 80 };

static struct network network;
static struct endpoint endpoint;
static struct socket *listener, *theirs;
static int is_mixed, is_short, has_resets;

static uint64_t now(void) { return (network.tick + 1) * TICK_MS * 1000000; }

/* The clock that usrsctp asks, in place of the C library's: it goes by the ticks too. With real time, which passes slowly here, usrsctp's
 * T3-rtx would send nothing again: it passes over what was sent within the last RTO. */
int gettimeofday(struct timeval *restrict t, void *restrict zone) {
    (void)zone;
    t->tv_sec = (time_t)(1000000 + now() / 1000000000);
    t->tv_usec = (suseconds_t)(now() % 1000000000 / 1000);
    return 0;
}

/* The random numbers that usrsctp asks for, by the linker's --wrap: drawn by a seed, so that a run is the same each time. */
static uint64_t their_random;
int __wrap_read_random(void *bytes, int length);
int __wrap_read_random(void *bytes, int length) {
    for (int i = 0; i < length; i++) ((uint8_t *)bytes)[i] = (uint8_t)random_next(&their_random);
    return length;
}

/* Whether a fault of usrsctp keeps messages from coming. */
static int is_spoiled(void) { return known[KNOWN_UNACKNOWLEDGED] + known[KNOWN_INTERLEAVED] > 0; }

static int may_go_on(void) { return endpoint.state == ENDPOINT_ESTABLISHED && faults == 0 && !is_spoiled(); }

static int writes_a_tick(void) { return is_short ? SHORT_WRITES : WRITES; }

static uint32_t a_length(int stream, int separate) {
    return is_short ? 8 + (uint32_t)(random_next(&message_random) % 56) : message_length(stream, separate);
}

/* ---- Our side -------------------------------------------------------------------------------------------------------------- */

/* The stream that we reset, -1 where there is none: nothing is written on it before that is performed. */
static int our_reset = -1;
static int is_asked;
static unsigned long resets_performed, streams_added;

/* Whether our last request has its answer. */
static int is_answered(void) {
    if (endpoint.request.length > 0) return 0;
    if (!is_asked) return 1;
    if (endpoint.request_result != SCTPR_RESULT_PERFORMED) fault("a request is answered with %u", (unsigned)endpoint.request_result);
    resets_performed += our_reset >= 0;
    streams_added += our_reset < 0;
    is_asked = 0;
    our_reset = -1;
    return 1;
}

/* Adds a stream, or resets one as soon as it is drained. */
static void we_ask(int adds) {
    uint16_t stream = (uint16_t)our_reset;
    if (our_reset >= 0) is_asked = endpoint_reset(&endpoint, &stream, 1) == SCTPR_OK;
    else if (adds && endpoint.outgoing < 40) is_asked = endpoint_add_streams(&endpoint, 1) == SCTPR_OK;
    else our_reset = (int)(random_next(&message_random) % STREAMS);
}

static void our_output(void *context, const uint8_t *packet, size_t length) {
    (void)context;
    legal_sent(endpoint.config.first_tsn, packet, length);
    network_send(&network, OURS, packet, length);
}

static void we_write(void) {
    static uint8_t message[MAX_MESSAGE];
    for (int i = 0; i < writes_a_tick() && sctpr_sender_pending(&endpoint.sender) < 2000; i++) {
        int stream = (int)(random_next(&message_random) % STREAMS);
        size_t amount = 0;
        if (stream == our_reset) continue;
        sctpr_sender_buffered_amount(&endpoint.sender, (uint16_t)stream, &amount);
        if (amount > 1 << 20) continue;
        uint32_t length = a_length(stream, !is_mixed);
        message_fill(message, length, OURS, stream, channels[OURS][stream].written);
        sctpr_code code = endpoint_write(&endpoint, (uint16_t)stream, SCTPR_PPID_BINARY, message, length);
        if (code != SCTPR_OK) fault("a write is refused with %u", (unsigned)code);
        else message_written(OURS, stream, length);
    }
}

/* Reads a message of a stream, and answers whether there was one. */
static int we_read_one(uint16_t stream) {
    static uint8_t message[MAX_MESSAGE];
    size_t length;
    uint32_t type;
    if (sctpr_receiver_read(&endpoint.receiver, stream, message, sizeof message, &length, &type) != SCTPR_OK) return 0;
    message_read(THEIRS, stream, type, message, length);
    return 1;
}

static void we_read(void) {
    uint16_t streams[STREAMS];
    size_t count = 0;
    if (!endpoint.has_halves || sctpr_receiver_readable_streams(&endpoint.receiver, streams, STREAMS, &count) != SCTPR_OK) return;
    for (size_t i = 0; i < count; i += !we_read_one(streams[i])) {}
}

/* ---- usrsctp --------------------------------------------------------------------------------------------------------------- */

static int their_output(void *address, void *packet, size_t length, uint8_t tos, uint8_t df) {
    (void)address;
    (void)tos;
    (void)df;
    known_sent(packet, length);
    network_send(&network, THEIRS, packet, length);
    return 0;
}

static void must(int result, const char *what) {
    if (result >= 0) return;
    perror(what);
    exit(2);
}

static void set_up_socket(struct socket *s) {
    int size = 4 << 20, on = 1, off = 0;
    uint32_t point = 1 << 20;
    struct sctp_initmsg init = { .sinit_num_ostreams = STREAMS, .sinit_max_instreams = has_resets ? 100 : STREAMS };
    struct sctp_assoc_value resets = { SCTP_FUTURE_ASSOC, SCTP_ENABLE_RESET_STREAM_REQ | SCTP_ENABLE_CHANGE_ASSOC_REQ };
    must(usrsctp_setsockopt(s, SOL_SOCKET, SO_RCVBUF, &size, sizeof size), "SO_RCVBUF");
    must(usrsctp_setsockopt(s, SOL_SOCKET, SO_SNDBUF, &size, sizeof size), "SO_SNDBUF");
    must(usrsctp_setsockopt(s, IPPROTO_SCTP, SCTP_NODELAY, &on, sizeof on), "SCTP_NODELAY");
    must(usrsctp_setsockopt(s, IPPROTO_SCTP, SCTP_RECVRCVINFO, &on, sizeof on), "SCTP_RECVRCVINFO");
    must(usrsctp_setsockopt(s, IPPROTO_SCTP, SCTP_FRAGMENT_INTERLEAVE, &off, sizeof off), "SCTP_FRAGMENT_INTERLEAVE");
    must(usrsctp_setsockopt(s, IPPROTO_SCTP, SCTP_PARTIAL_DELIVERY_POINT, &point, sizeof point), "SCTP_PARTIAL_DELIVERY_POINT");
    must(usrsctp_setsockopt(s, IPPROTO_SCTP, SCTP_INITMSG, &init, sizeof init), "SCTP_INITMSG");
    if (has_resets) must(usrsctp_setsockopt(s, IPPROTO_SCTP, SCTP_ENABLE_STREAM_RESET, &resets, sizeof resets), "SCTP_ENABLE_STREAM_RESET");
    must(usrsctp_set_non_blocking(s, 1), "non-blocking");
}

static void set_mtu(struct socket *s) {
    struct sctp_paddrparams params;
    memset(&params, 0, sizeof params);
    params.spp_address.ss_family = AF_CONN;
    params.spp_flags = SPP_PMTUD_DISABLE | SPP_HB_ENABLE;
    params.spp_hbinterval = 5000;
    params.spp_pathmtu = 1200;
    must(usrsctp_setsockopt(s, IPPROTO_SCTP, SCTP_PEER_ADDR_PARAMS, &params, sizeof params), "SCTP_PEER_ADDR_PARAMS");
}

static struct sctp_sendv_spa send_info(int stream) {
    const struct mode *mode = &modes[stream];
    struct sctp_sendv_spa info;
    memset(&info, 0, sizeof info);
    info.sendv_flags = SCTP_SEND_SNDINFO_VALID;
    info.sendv_sndinfo.snd_sid = (uint16_t)stream;
    info.sendv_sndinfo.snd_flags = (uint16_t)(SCTP_EOR | (mode->unordered ? SCTP_UNORDERED : 0));
    info.sendv_sndinfo.snd_ppid = htonl(SCTPR_PPID_BINARY);
    if (mode->reliability == SCTPR_RELIABLE) return info;
    info.sendv_flags |= SCTP_SEND_PRINFO_VALID;
    info.sendv_prinfo.pr_policy = mode->reliability == SCTPR_REXMIT ? SCTP_PR_SCTP_RTX : SCTP_PR_SCTP_TTL;
    info.sendv_prinfo.pr_value = mode->value;
    return info;
}

/* Whether usrsctp has no association any more: where it aborted, its ABORT may still be on the way to us. */
static int is_gone;

/* The stream that usrsctp was told to reset: nothing is written on it for a while, and then as soon as it takes a message again. */
static int their_reset = -1;

/* usrsctp adds a stream, or resets one; it refuses where it does so already. */
static void they_ask(int adds) {
    union {
        struct sctp_reset_streams it;
        uint8_t room[sizeof(struct sctp_reset_streams) + 2];
    } reset;
    struct sctp_add_streams add = { .sas_outstrms = 1 };
    uint16_t stream = (uint16_t)(random_next(&message_random) % STREAMS);
    memset(&reset, 0, sizeof reset);
    reset.it.srs_flags = SCTP_STREAM_RESET_OUTGOING;
    reset.it.srs_number_streams = 1;
    memcpy(reset.room + sizeof reset.it, &stream, sizeof stream);
    if (adds) usrsctp_setsockopt(theirs, IPPROTO_SCTP, SCTP_ADD_STREAMS, &add, sizeof add);
    else usrsctp_setsockopt(theirs, IPPROTO_SCTP, SCTP_RESET_STREAMS, &reset, sizeof reset.room);
    if (!adds) their_reset = stream;
}

static void they_write(void) {
    static uint8_t message[MAX_MESSAGE];
    static int stream = -1;
    static uint32_t length;
    if (is_gone) return;
    for (int i = 0; i < writes_a_tick(); i++) {
        if (stream < 0) {
            stream = (int)(random_next(&message_random) % STREAMS);
            length = a_length(stream, 0);
        }
        if (stream == their_reset) {
            stream = -1;
            continue;
        }
        struct sctp_sendv_spa info = send_info(stream);
        message_fill(message, length, THEIRS, stream, channels[THEIRS][stream].written);
        ssize_t n = usrsctp_sendv(theirs, message, length, NULL, 0, &info, sizeof info, SCTP_SENDV_SPA, 0);
        if (n < 0 && (errno == EWOULDBLOCK || errno == EAGAIN)) return;
        if (n < 0 && errno == ENOENT) {
            is_gone = 1;
            return;
        }
        if (n != (ssize_t)length) {
            if (!endpoint_is_over(&endpoint)) fault("usrsctp_sendv: %s", strerror(errno));
            return;
        }
        message_written(THEIRS, stream, length);
        stream = -1;
    }
}

static void they_read(void) {
    static uint8_t message[2 * MAX_MESSAGE];
    static size_t at;
    while (theirs) {
        struct sctp_rcvinfo info;
        socklen_t info_length = sizeof info, from_length = 0;
        unsigned type = 0;
        int flags = 0;
        ssize_t n = usrsctp_recvv(theirs, message + at, sizeof message - at, NULL, &from_length, &info, &info_length, &type, &flags);
        if (n <= 0) return;
        if (flags & MSG_NOTIFICATION) continue;
        at += (size_t)n;
        if (!(flags & MSG_EOR)) continue;
        if (type != SCTP_RECVV_RCVINFO || info.rcv_sid >= STREAMS) fault("usrsctp_recvv: no stream");
        else if (!(info.rcv_flags & SCTP_UNORDERED) != !modes[info.rcv_sid].unordered) fault("usrsctp_recvv: stream %u", info.rcv_sid);
        else message_read(OURS, info.rcv_sid, ntohl(info.rcv_ppid), message, at);
        at = 0;
    }
}

static void accept_them(void) {
    if (theirs || !listener) return;
    theirs = usrsctp_accept(listener, NULL, NULL);
    if (!theirs) return;
    set_up_socket(theirs);
    set_mtu(theirs);
}

static void set_up_usrsctp(void) {
    usrsctp_init_nothreads(0, their_output, NULL);
    usrsctp_sysctl_set_sctp_blackhole(2);
    usrsctp_sysctl_set_sctp_pr_enable(1);
    usrsctp_sysctl_set_sctp_ecn_enable(0);
    usrsctp_sysctl_set_sctp_rto_min_default(50);
    usrsctp_sysctl_set_sctp_rto_max_default(200);
    usrsctp_sysctl_set_sctp_rto_initial_default(100);
    usrsctp_sysctl_set_sctp_assoc_rtx_max_default(10000);
    usrsctp_sysctl_set_sctp_path_rtx_max_default(10000);
    usrsctp_sysctl_set_sctp_init_rtx_max_default(100);
    usrsctp_register_address(&network);
}

/* ---- The run --------------------------------------------------------------------------------------------------------------- */

static void one_tick(void) {
    const struct datagram *d;
    network_next_tick(&network);
    while ((d = network_take(&network, THEIRS)) != NULL) {
        legal_came(d->bytes, d->length);
        endpoint_receive(&endpoint, d->bytes, d->length, now());
    }
    while ((d = network_take(&network, OURS)) != NULL) {
        known_taken(d->bytes, d->length);
        usrsctp_conninput(&network, d->bytes, d->length, 0);
    }
    accept_them();
    usrsctp_handle_timers(TICK_MS);
    we_read();
    they_read();
    endpoint_poll(&endpoint, now());
}

/* usrsctp's streams have the modes of ours. */
static int they_may_abandon(uint16_t stream) { return stream >= STREAMS || modes[stream].reliability != SCTPR_RELIABLE; }

static void set_up_endpoint(void) {
    struct endpoint_config config = { 0 };
    config.port = 5001;
    config.peer_port = 5000;
    config.streams = STREAMS;
    config.tag = 0x12345678;
    config.first_tsn = 0xfffffe00;
    config.max_message_size = MAX_MESSAGE;
    config.window = 4 << 20;
    config.max_in_flight = 128 * 1024;
    config.mtu = 1200;
    config.rto_initial = 500000000;
    config.rto_min = 200000000;
    config.rto_max = 1000000000;
    config.heartbeat_interval = 1000000000;
    config.max_retransmissions = 10000;
    config.output = our_output;
    endpoint_init(&endpoint, &config);
    known_begin(config.first_tsn, they_may_abandon);
}

/* By the seed our side connects, usrsctp does, or both do. */
static void connect_sides(uint64_t seed) {
    struct sockaddr_conn address = { .sconn_family = AF_CONN, .sconn_port = htons(5000), .sconn_addr = &network };
    struct sockaddr_conn peer = { .sconn_family = AF_CONN, .sconn_port = htons(5001), .sconn_addr = &network };
    struct socket *s = usrsctp_socket(AF_CONN, SOCK_STREAM, IPPROTO_SCTP, NULL, NULL, 0, NULL);
    if (!s) must(-1, "usrsctp_socket");
    set_up_socket(s);
    must(usrsctp_bind(s, (struct sockaddr *)&address, sizeof address), "usrsctp_bind");
    if (seed % 3 == 0) {
        must(usrsctp_listen(s, 1), "usrsctp_listen");
        listener = s;
    } else {
        set_mtu(s);
        if (usrsctp_connect(s, (struct sockaddr *)&peer, sizeof peer) < 0 && errno != EINPROGRESS) must(-1, "usrsctp_connect");
        theirs = s;
    }
    if (seed % 3 != 1) endpoint_connect(&endpoint, now());
    for (int i = 0; i < 10000 && (endpoint.state != ENDPOINT_ESTABLISHED || !theirs); i++) one_tick();
    if (endpoint.state != ENDPOINT_ESTABLISHED || !theirs) fault("no association: state %d", endpoint.state);
}

static int is_done(void) {
    return messages_arrived() && sctpr_sender_pending(&endpoint.sender) == 0 && sctpr_sender_chunks_in_flight(&endpoint.sender) == 0;
}

/* Whether usrsctp has nothing that waits or is in flight. */
static int they_are_done(void) {
    struct sctp_status status;
    socklen_t length = sizeof status;
    memset(&status, 0, sizeof status);
    must(usrsctp_getsockopt(theirs, IPPROTO_SCTP, SCTP_STATUS, &status, &length), "usrsctp_getsockopt");
    return status.sstat_unackdata == 0 && status.sstat_penddata == 0;
}

/* Both sides ask at any time. */
static void ask_at_any_time(void) {
    if (is_answered() && (our_reset >= 0 || network.tick % 40 == 0)) we_ask(network.tick % 400 == 0);
    if (network.tick % 100 == 0) they_ask(network.tick % 500 == 0);
}

/* After ten ticks of writes nobody writes until nothing waits or is in flight; then both sides ask, and go on when our request has its answer.
 * Whether to write. */
static int ask_where_calm(void) {
    static uint64_t went_on_at, asked_at;
    static unsigned round;
    if (network.tick < went_on_at + 10) return 1;
    if (asked_at == 0 && is_done() && they_are_done()) {
        asked_at = network.tick;
        they_ask(++round % 3 == 0);
        we_ask(round % 4 == 0);
        if (our_reset >= 0) we_ask(0);
    } else if (asked_at > 0 && network.tick > asked_at + 30 && is_answered()) {
        went_on_at = network.tick;
        asked_at = 0;
    }
    return 0;
}

static void exchange(long ticks, int is_calm) {
    for (uint16_t i = 0; i < STREAMS; i++) {
        const struct mode *m = &modes[i];
        if (sctpr_sender_set_mode(&endpoint.sender, i, m->unordered, m->reliability, m->value) != SCTPR_OK) fault("mode %u", i);
    }
    for (long i = 0; i < ticks && may_go_on(); i++) {
        if (has_resets && !is_calm) ask_at_any_time();
        if (!has_resets || !is_calm || ask_where_calm()) {
            we_write();
            they_write();
        }
        one_tick();
        if (network.tick % 256 == 0) messages_forget(20000);
    }
    for (long i = 0; i < 200000 && !(is_done() && they_are_done()) && may_go_on(); i++) one_tick();
    /* what usrsctp may still skip */
    for (int i = 0; i < 500 && may_go_on(); i++) one_tick();
    if (may_go_on() && !is_done()) fault("not all came");
    for (int i = 0; i < 2 * STREAMS && is_short; i++)
        if (channels[i % 2][i / 2].written <= 65536) fault("direction %d, stream %d: too few messages", i % 2, i / 2);
    messages_forget(0);
}

/* Our side shuts down, or usrsctp does. */
static void shut_down(int is_theirs) {
    if (!may_go_on()) return;
    if (is_theirs) usrsctp_shutdown(theirs, SHUT_WR);
    else endpoint_shutdown(&endpoint, now());
    for (int i = 0; i < 5000 && !endpoint_is_over(&endpoint); i++) one_tick();
    if (endpoint.state != ENDPOINT_SHUT_DOWN) fault("not shut down: state %d", endpoint.state);
}

/* Prints what the peer's ABORT says, a text behind the headers of chunk and cause; whether it is a fault of usrsctp. */
static int is_own_abort(void) {
    const char *text = (const char *)endpoint.abort_chunk + 8;
    if (endpoint.state != ENDPOINT_ABORTED) return 0;
    if (endpoint.abort_length > 8) printf("ABORT: %.*s\n", (int)(endpoint.abort_length - 8), text);
    return faults == 0 && known_is_abort;
}

static void print_all(void) {
    const struct endpoint_counts *c = &endpoint.counts;
    for (int i = 0; i < 2; i++) {
        printf("%s\n", i == OURS ? "ours" : "usrsctp's");
        network_print(&network.counts[i]);
        messages_print(i);
    }
    printf("our DATA %lu, sent again %lu, taken back %lu, timeouts %lu, fast retransmissions %lu\n", (unsigned long)c->data_sent,
           (unsigned long)c->data_sent_again, (unsigned long)c->taken_back, (unsigned long)c->timeouts,
           (unsigned long)c->fast_retransmissions);
    printf("messages abandoned %lu, expired %lu, FORWARD-TSN %lu, heartbeats answered %lu of %lu, other tags %lu\n",
           (unsigned long)c->abandoned, (unsigned long)c->expired, (unsigned long)c->forward_tsns_sent,
           (unsigned long)c->heartbeats_answered, (unsigned long)c->heartbeats_sent, (unsigned long)c->wrong_tag);
    for (unsigned i = 0; i <= SCTPR_ERR_SHORT_BUFFER; i++)
        if (c->packets[i] || c->chunks[i])
            printf("  came with code %u: packets %lu, chunks %lu\n", i, (unsigned long)c->packets[i], (unsigned long)c->chunks[i]);
}

int main(int argc, char **argv) {
    uint64_t seed = argc > 1 ? strtoull(argv[1], NULL, 0) : 1, bytes;
    struct network_rates rates = { 200, 100, 500, 20 };
    if (argc > 6) {
        rates.lost = (uint32_t)atoi(argv[3]);
        rates.repeated = (uint32_t)atoi(argv[4]);
        rates.late = (uint32_t)atoi(argv[5]);
        rates.damaged = (uint32_t)atoi(argv[6]);
    }
    is_mixed = argc > 7 && strcmp(argv[7], "mixed") == 0;
    is_short = argc > 7 && strcmp(argv[7], "short") == 0;
    has_resets = argc > 7 && strcmp(argv[7], "resets") == 0;
    message_random = seed * 0x9e3779b97f4a7c15ull | 1;
    their_random = seed * 0xbf58476d1ce4e5b9ull | 1;
    network_init(&network, seed, rates);
    set_up_usrsctp();
    set_up_endpoint();
    connect_sides(seed);
    if (faults == 0) exchange(argc > 2 ? atol(argv[2]) : 3000, seed % 2 == 0);
    if (faults == 0) shut_down(seed / 3 % 2);
    print_all();
    int is_own = is_own_abort() || (faults == 0 && is_spoiled());
    if (endpoint.state == ENDPOINT_ABORTED && !is_own) fault("aborted");
    if (is_gone && !endpoint_is_over(&endpoint)) fault("usrsctp has no association, and we were not told");
    uint64_t messages = messages_read(&bytes);
    endpoint_free(&endpoint);
    if (theirs) usrsctp_close(theirs);
    if (listener) usrsctp_close(listener);
    for (int i = 0; i < 1000 && usrsctp_finish() != 0; i++) usrsctp_handle_timers(TICK_MS);
    network_free(&network);
    if (has_resets) printf("usrsctp: %lu of our streams were reset, %lu added\n", resets_performed, streams_added);
    printf("usrsctp: seed %lu, %lu ticks, %lu messages, %lu bytes, %lu faults", (unsigned long)seed, (unsigned long)network.tick,
           (unsigned long)messages, (unsigned long)bytes, faults);
    known_print();
    printf("%s\n", is_own ? ", which ended the run" : "");
    return faults != 0 ? 1 : is_own ? 3 : 0;
}
