/* What an exchange costs: two endpoints of examples/c over sctpr.h, one of them and usrsctp, or usrsctp with itself, in one process over
 * the same network in memory, which loses so many of 10,000 datagrams, of usrsctp's and ours alike.
 *
 *     figures PAIR LENGTH MESSAGES LOST      PAIR is ours, mixed or usrsctp
 *
 * Each side writes so many messages of so many bytes on one ordered stream, and reads those of the other one. The line that is printed has
 * the processor time from the first write to the last read; the status is 0 where all came in order. */
#include "endpoint.h"
#include "network.h"
#include <errno.h>
#include <stdio.h>
#include <stdlib.h>
#include <string.h>
#include <sys/socket.h>
#include <sys/time.h>
#include <time.h>
#include <usrsctp.h>

/* What waits and is in flight of a side, and what the other one holds, in bytes at most. */
enum { TICK_MS = 10, BUFFER = 256 * 1024, WINDOW = 1024 * 1024, MTU = 1200, LONGEST = 256 * 1024 };

/* A side: an endpoint over sctpr.h, or a socket of usrsctp, whose address is the side's. Both write and read messages that begin with their
 * number. */
struct side {
    int index, is_ours;
    struct endpoint endpoint;
    struct socket *listener, *socket;
    uint32_t written, read;
    uint8_t message[LONGEST], got[2 * LONGEST];
    size_t got_length;
};
static struct side sides[2];
static struct network network;
static uint32_t messages, length;

static uint64_t now(void) { return (network.tick + 1) * TICK_MS * 1000000; }

/* usrsctp's clock goes by the ticks too. */
int gettimeofday(struct timeval *restrict t, void *restrict zone) {
    (void)zone;
    t->tv_sec = (time_t)(1000000 + now() / 1000000000);
    t->tv_usec = (suseconds_t)(now() % 1000000000 / 1000);
    return 0;
}

static void fail(const char *what) {
    fprintf(stderr, "figures: %s\n", what);
    exit(1);
}

static void take(struct side *s, const uint8_t *bytes, size_t n) {
    uint32_t number;
    if (n != length) fail("a message has another length");
    memcpy(&number, bytes, sizeof number);
    if (number != s->read++) fail("a message is not due");
}

/* ---- Ours ------------------------------------------------------------------------------------------------------------------ */

static void our_output(void *context, const uint8_t *packet, size_t n) { network_send(&network, ((struct side *)context)->index, packet, n); }

static void set_up_ours(struct side *s) {
    struct endpoint_config config = { 0 };
    config.port = (uint16_t)(5000 + s->index);
    config.peer_port = (uint16_t)(5001 - s->index);
    config.streams = 1;
    config.tag = 1 + (uint32_t)s->index;
    config.first_tsn = 1000;
    config.max_message_size = LONGEST;
    config.window = WINDOW;
    config.max_in_flight = BUFFER;
    config.mtu = MTU;
    config.rto_initial = config.rto_min = 1000000000;
    config.rto_max = 60000000000;
    config.heartbeat_interval = 30000000000;
    config.max_retransmissions = 10;
    config.output = our_output;
    config.context = s;
    endpoint_init(&s->endpoint, &config);
}

static int our_write(struct side *s) {
    size_t amount = 0;
    if (sctpr_sender_buffered_amount(&s->endpoint.sender, 0, &amount) != SCTPR_OK || amount + length > BUFFER) return 0;
    return endpoint_write(&s->endpoint, 0, SCTPR_PPID_BINARY, s->message, length) == SCTPR_OK;
}

static void our_reads(struct side *s) {
    size_t n;
    uint32_t type;
    while (sctpr_receiver_read(&s->endpoint.receiver, 0, s->got, sizeof s->got, &n, &type) == SCTPR_OK) take(s, s->got, n);
}

/* ---- usrsctp --------------------------------------------------------------------------------------------------------------- */

static int their_output(void *address, void *packet, size_t n, uint8_t tos, uint8_t df) {
    (void)tos;
    (void)df;
    network_send(&network, ((struct side *)address)->index, packet, n);
    return 0;
}

static void must(int result, const char *what) {
    if (result < 0 && errno != EINPROGRESS) fail(what);
}

static void set_up_socket(struct socket *s) {
    int size = BUFFER, window = WINDOW, on = 1, off = 0;
    struct sctp_paddrparams params;
    memset(&params, 0, sizeof params);
    params.spp_address.ss_family = AF_CONN;
    params.spp_flags = SPP_PMTUD_DISABLE;
    params.spp_pathmtu = MTU;
    must(usrsctp_setsockopt(s, SOL_SOCKET, SO_RCVBUF, &window, sizeof window), "SO_RCVBUF");
    must(usrsctp_setsockopt(s, SOL_SOCKET, SO_SNDBUF, &size, sizeof size), "SO_SNDBUF");
    must(usrsctp_setsockopt(s, IPPROTO_SCTP, SCTP_NODELAY, &on, sizeof on), "SCTP_NODELAY");
    must(usrsctp_setsockopt(s, IPPROTO_SCTP, SCTP_FRAGMENT_INTERLEAVE, &off, sizeof off), "SCTP_FRAGMENT_INTERLEAVE");
    must(usrsctp_setsockopt(s, IPPROTO_SCTP, SCTP_PEER_ADDR_PARAMS, &params, sizeof params), "SCTP_PEER_ADDR_PARAMS");
    must(usrsctp_set_non_blocking(s, 1), "non-blocking");
}

static struct sockaddr_conn address_of(struct side *s, int port) {
    struct sockaddr_conn address = { .sconn_family = AF_CONN, .sconn_port = htons((uint16_t)port), .sconn_addr = s };
    return address;
}

/* The second side connects, the first one, where it is usrsctp too, listens. */
static void set_up_theirs(struct side *s) {
    struct sockaddr_conn address = address_of(s, 5000 + s->index), peer = address_of(s, 5001 - s->index);
    struct socket *made;
    usrsctp_register_address(s);
    made = usrsctp_socket(AF_CONN, SOCK_STREAM, IPPROTO_SCTP, NULL, NULL, 0, NULL);
    if (!made) fail("usrsctp_socket");
    set_up_socket(made);
    must(usrsctp_bind(made, (struct sockaddr *)&address, sizeof address), "usrsctp_bind");
    if (s->index == 0) {
        must(usrsctp_listen(made, 1), "usrsctp_listen");
        s->listener = made;
    } else {
        must(usrsctp_connect(made, (struct sockaddr *)&peer, sizeof peer), "usrsctp_connect");
        s->socket = made;
    }
}

static void accept_them(struct side *s) {
    if (s->socket || !s->listener) return;
    s->socket = usrsctp_accept(s->listener, NULL, NULL);
    if (s->socket) set_up_socket(s->socket);
}

static int their_write(struct side *s) {
    struct sctp_sndinfo info;
    memset(&info, 0, sizeof info);
    info.snd_flags = SCTP_EOR;
    info.snd_ppid = htonl(SCTPR_PPID_BINARY);
    return usrsctp_sendv(s->socket, s->message, length, NULL, 0, &info, sizeof info, SCTP_SENDV_SNDINFO, 0) == (ssize_t)length;
}

static void their_reads(struct side *s) {
    while (s->socket) {
        struct sctp_rcvinfo info;
        socklen_t info_length = sizeof info, from_length = 0;
        unsigned type = 0;
        int flags = 0;
        ssize_t n = usrsctp_recvv(s->socket, s->got + s->got_length, sizeof s->got - s->got_length, NULL, &from_length, &info, &info_length,
                                  &type, &flags);
        if (n <= 0) return;
        if (flags & MSG_NOTIFICATION) continue;
        s->got_length += (size_t)n;
        if (!(flags & MSG_EOR)) continue;
        take(s, s->got, s->got_length);
        s->got_length = 0;
    }
}

/* ---- The run --------------------------------------------------------------------------------------------------------------- */

static void write_all(struct side *s) {
    while (s->written < messages) {
        memcpy(s->message, &s->written, sizeof s->written);
        if (!(s->is_ours ? our_write(s) : their_write(s))) return;
        s->written++;
    }
}

static void one_tick(void) {
    const struct datagram *d;
    network_next_tick(&network);
    for (int i = 0; i < 2; i++) {
        struct side *s = &sides[i];
        while ((d = network_take(&network, 1 - i)) != NULL) {
            if (s->is_ours) endpoint_receive(&s->endpoint, d->bytes, d->length, now());
            else usrsctp_conninput(s, d->bytes, d->length, 0);
        }
        if (s->is_ours) {
            if (s->endpoint.has_halves) our_reads(s);
            endpoint_poll(&s->endpoint, now());
        } else {
            accept_them(s);
            their_reads(s);
        }
    }
    usrsctp_handle_timers(TICK_MS);
}

static int is_up(const struct side *s) { return s->is_ours ? s->endpoint.state == ENDPOINT_ESTABLISHED : s->socket != NULL; }

static double seconds(void) {
    struct timespec t;
    clock_gettime(CLOCK_PROCESS_CPUTIME_ID, &t);
    return (double)t.tv_sec + 1e-9 * (double)t.tv_nsec;
}

static void set_up(const char *pair, uint32_t lost) {
    struct network_rates rates = { lost, 0, 0, 0 };
    network_init(&network, 1, rates);
    usrsctp_init_nothreads(0, their_output, NULL);
    usrsctp_sysctl_set_sctp_blackhole(2);
    usrsctp_sysctl_set_sctp_ecn_enable(0);
    for (int i = 0; i < 2; i++) {
        sides[i].index = i;
        sides[i].is_ours = strcmp(pair, "ours") == 0 || (strcmp(pair, "mixed") == 0 && i == 0);
        if (sides[i].is_ours) set_up_ours(&sides[i]);
        else set_up_theirs(&sides[i]);
    }
    if (sides[1].is_ours) endpoint_connect(&sides[1].endpoint, now());
    for (int i = 0; i < 1000 && !(is_up(&sides[0]) && is_up(&sides[1])); i++) one_tick();
    if (!is_up(&sides[0]) || !is_up(&sides[1])) fail("no association");
}

int main(int argc, char **argv) {
    if (argc != 5) fail("PAIR LENGTH MESSAGES LOST are wanted");
    length = (uint32_t)atoi(argv[2]);
    messages = (uint32_t)atoi(argv[3]);
    if (length < 4 || length > LONGEST) fail("a length of 4 to 262,144 is wanted");
    set_up(argv[1], (uint32_t)atoi(argv[4]));
    double start = seconds();
    for (long i = 0; i < 10000000 && (sides[0].read < messages || sides[1].read < messages); i++) {
        write_all(&sides[0]);
        write_all(&sides[1]);
        one_tick();
    }
    double took = seconds() - start;
    if (sides[0].read < messages || sides[1].read < messages) fail("not all came");
    printf("figures: %s, %u bytes, lost %s: %u messages each way in %.3f s, %.0f messages/s, %.1f MB/s, %lu datagrams, %lu ticks\n", argv[1],
           (unsigned)length, argv[4], (unsigned)messages, took, 2 * messages / took, 2e-6 * messages * length / took,
           (unsigned long)(network.counts[0].sent + network.counts[1].sent), (unsigned long)network.tick);
    return 0;
}
