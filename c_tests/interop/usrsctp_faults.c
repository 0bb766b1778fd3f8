/* The faults of usrsctp 0.9.5.0 that known.h has, each made by chunks that are written by hand, as few as it takes. The line of each says
 * whether usrsctp did it, and whether known.c told it, and nothing else; the status is 0 where each that was done was told. */
#include "known.h"
#include <errno.h>
#include <stdio.h>
#include <stdlib.h>
#include <string.h>
#include <sys/time.h>
#include <usrsctp.h>

enum { ENDS = 1, BEGINS = 2, UNORDERED = 4, WHOLE = 3, FIRST = 1000, RESET_STREAM = 9 };

static uint64_t milliseconds = 1;
static int address;
static struct socket *theirs;
static uint32_t their_tag, their_tsn, cumulative, failed;
static uint8_t cookie[2000];
static size_t cookie_length;
static char abort_text[128];

int gettimeofday(struct timeval *restrict t, void *restrict zone) {
    (void)zone;
    t->tv_sec = (time_t)(1000000 + milliseconds / 1000);
    t->tv_usec = (suseconds_t)(milliseconds % 1000 * 1000);
    return 0;
}

static uint32_t u32(const uint8_t *p) { return (uint32_t)p[0] << 24 | (uint32_t)p[1] << 16 | (uint32_t)p[2] << 8 | p[3]; }

static void put(uint8_t *at, uint32_t value, int bytes) {
    for (int i = 0; i < bytes; i++) at[i] = (uint8_t)(value >> 8 * (bytes - 1 - i));
}

/* ---- An association -------------------------------------------------------------------------------------------------------- */

/* The tag and the cookie of usrsctp's INIT-ACK. */
static void on_init_ack(const uint8_t *chunk, size_t length) {
    their_tag = u32(chunk + 4);
    for (size_t at = 20, size; at + 4 <= length; at += (size + 3) / 4 * 4) {
        size = u32(chunk + at) & 0xffff;
        if (chunk[at] != 0 || chunk[at + 1] != 7) continue;
        cookie_length = size - 4;
        memcpy(cookie, chunk + at + 4, cookie_length);
    }
}

static int output(void *to, void *bytes, size_t length, uint8_t tos, uint8_t df) {
    const uint8_t *packet = bytes;
    (void)to;
    (void)tos;
    (void)df;
    known_sent(packet, length);
    for (size_t at = 12, size; at + 4 <= length; at += (size + 3) / 4 * 4) {
        const uint8_t *chunk = packet + at;
        size = u32(chunk) & 0xffff;
        if (chunk[0] == 0) their_tsn = u32(chunk + 4);
        if (chunk[0] == 2) on_init_ack(chunk, size);
        if (chunk[0] == 3) cumulative = u32(chunk + 4);
        if (chunk[0] == 6 && size > 8) snprintf(abort_text, sizeof abort_text, "%.*s", (int)size - 8, (const char *)chunk + 8);
    }
    return 0;
}

static void pass(int ticks) {
    while (ticks-- > 0) {
        milliseconds += 10;
        usrsctp_handle_timers(10);
    }
}

/* Hands usrsctp a chunk in a packet of its own. */
static void hand(uint32_t tag, const uint8_t *chunk, size_t length) {
    static uint8_t packet[2100];
    memset(packet, 0, sizeof packet);
    put(packet, 5001 << 16 | 5000, 4);
    put(packet + 4, tag, 4);
    memcpy(packet + 12, chunk, length);
    length = 12 + (length + 3) / 4 * 4;
    uint32_t sum = known_sum(packet, length);
    for (int i = 0; i < 4; i++) packet[8 + i] = (uint8_t)(sum >> 8 * i);
    known_taken(packet, length);
    usrsctp_conninput(&address, packet, length, 0);
    pass(1);
}

static void must(int is, const char *what) {
    if (is) return;
    fprintf(stderr, "usrsctp_faults: %s\n", what);
    exit(2);
}

static struct socket *listen_for(void) {
    struct sockaddr_conn at = { .sconn_family = AF_CONN, .sconn_port = htons(5000), .sconn_addr = &address };
    struct sctp_assoc_value resets = { SCTP_FUTURE_ASSOC, SCTP_ENABLE_RESET_STREAM_REQ | SCTP_ENABLE_CHANGE_ASSOC_REQ };
    struct linger at_once = { 1, 0 };
    struct socket *s = usrsctp_socket(AF_CONN, SOCK_STREAM, IPPROTO_SCTP, NULL, NULL, 0, NULL);
    must(s != NULL && usrsctp_set_non_blocking(s, 1) == 0, "usrsctp_socket");
    must(usrsctp_setsockopt(s, IPPROTO_SCTP, SCTP_ENABLE_STREAM_RESET, &resets, sizeof resets) == 0, "SCTP_ENABLE_STREAM_RESET");
    must(usrsctp_setsockopt(s, SOL_SOCKET, SO_LINGER, &at_once, sizeof at_once) == 0, "SO_LINGER");
    must(usrsctp_bind(s, (struct sockaddr *)&at, sizeof at) == 0 && usrsctp_listen(s, 1) == 0, "usrsctp_bind");
    return s;
}

static int abandons(uint16_t stream) {
    (void)stream;
    return 0;
}

/* An association of which our first TSN is told. */
static void begin(uint32_t first) {
    /* with a credit of 10,000 bytes, 16 streams each way, FORWARD-TSN and RE-CONFIG */
    uint8_t init[30] = { 1, 0, 0, 30, 0, 0, 0, 7, 0, 0, 39, 16, 0, 16, 0, 16, 0, 0, 0, 0, 0xc0, 0, 0, 4, 0x80, 8, 0, 6, 192, 130 };
    static uint8_t echo[sizeof cookie + 4] = { 10 };
    known_begin(first, abandons);
    struct socket *listener = listen_for();
    put(init + 16, first, 4);
    abort_text[0] = 0;
    cumulative = first - 1;
    hand(0, init, sizeof init);
    put(echo + 2, (uint32_t)cookie_length + 4, 2);
    memcpy(echo + 4, cookie, cookie_length);
    hand(their_tag, echo, cookie_length + 4);
    pass(2);
    theirs = usrsctp_accept(listener, NULL, NULL);
    must(theirs != NULL && usrsctp_set_non_blocking(theirs, 1) == 0, "no association");
    usrsctp_close(listener);
}

/* Ends the association: whether usrsctp did what is named, and one of a kind, and nothing else, was told. */
static void end(const char *name, int is_done, enum known kind) {
    unsigned long others = 0;
    for (int i = 0; i < KNOWN_KINDS; i++) others += i == (int)kind ? 0 : known[i];
    int is_told = known[kind] == 1 && others == 0 && (kind > KNOWN_DUPLICATE || known_is_abort);
    printf("usrsctp_faults: %s: %s\n", name, !is_done ? "not done" : is_told ? "done, and told" : "done, NOT told");
    failed += is_done && !is_told;
    usrsctp_close(theirs);
    pass(300);
}

/* ---- Chunks ---------------------------------------------------------------------------------------------------------------- */

static void data_of(uint32_t tsn, int flags, uint16_t stream, uint16_t number, size_t bytes) {
    static uint8_t chunk[2000];
    chunk[1] = (uint8_t)flags;
    put(chunk + 2, (uint32_t)bytes + 16, 2);
    put(chunk + 4, tsn, 4);
    put(chunk + 8, stream, 2);
    put(chunk + 10, number, 2);
    hand(their_tag, chunk, bytes + 16);
}
static void data(uint32_t tsn, int flags, uint16_t stream, uint16_t number) { data_of(tsn, flags, stream, number, 4); }

/* A FORWARD-TSN that names the message 0 of the stream 1. */
static void forward_tsn(uint32_t tsn) {
    uint8_t chunk[12] = { 192, 0, 0, 12, 0, 0, 0, 0, 0, 1, 0, 0 };
    put(chunk + 4, tsn, 4);
    hand(their_tag, chunk, sizeof chunk);
}

/* A request to reset a stream on which nothing comes. */
static void reset(uint32_t last) {
    uint8_t chunk[22] = { 130, 0, 0, 22, 0, 13, 0, 18 };
    put(chunk + 8, FIRST, 4);
    put(chunk + 16, last, 4);
    put(chunk + 20, RESET_STREAM, 2);
    hand(their_tag, chunk, sizeof chunk);
}

static void sack(uint32_t tsn) {
    uint8_t chunk[16] = { 3, 0, 0, 16, 0, 0, 0, 0, 0, 0, 39, 16 };
    put(chunk + 4, tsn, 4);
    hand(their_tag, chunk, sizeof chunk);
}

static int says(const char *text) { return strcmp(abort_text, text) == 0; }

/* ---- The faults ------------------------------------------------------------------------------------------------------------ */

static void missing_end(void) {
    begin(FIRST);
    data(FIRST, WHOLE | UNORDERED, 1, 0);
    data(FIRST + 4, UNORDERED, 1, 0);
    forward_tsn(FIRST + 1);
    data(FIRST + 2, WHOLE | UNORDERED, 1, 0);
    end("behind a FORWARD-TSN", says("Illegal message sequence, missing end for MID: 000003e9"), KNOWN_MISSING_END);
    begin(0xfffffffe);
    data(1, UNORDERED, 1, 0);
    data(0, WHOLE | UNORDERED, 1, 0);
    end("under the TSN 0", says("Illegal message sequence, missing end for MID: ffffffff"), KNOWN_MISSING_END);
}

static void duplicate(void) {
    begin(FIRST);
    reset(FIRST);
    for (uint32_t i = 1; i <= 3; i++) data(FIRST + i, WHOLE | UNORDERED, 3, 0);
    data(FIRST, WHOLE, 2, 0);
    end("unordered messages wait for a reset", says("Queue to str MID: 0 duplicate"), KNOWN_DUPLICATE);
    begin(FIRST);
    data(FIRST, WHOLE, 3, 0);
    data(FIRST + 1, WHOLE, 3, 1);
    reset(FIRST + 2);
    data(FIRST + 3, WHOLE | UNORDERED, 3, 0);
    data(FIRST + 2, WHOLE, 2, 0);
    end("one waits, on a stream with ordered ones", says("Delivered SSN=0001, got TSN=000003eb, SID=0003, SSN=0000"), KNOWN_DUPLICATE);
    begin(FIRST);
    reset(FIRST);
    data(FIRST + 1, WHOLE | UNORDERED, 3, 0);
    data(FIRST, WHOLE, 2, 0);
    data(FIRST + 2, WHOLE, 3, 0);
    end("one waits, and an ordered one comes", says("Delivered SSN=0000, got TSN=000003ea, SID=0003, SSN=0000"), KNOWN_DUPLICATE);
}

static void in_progress(void) {
    begin(FIRST);
    reset(FIRST);
    forward_tsn(FIRST);
    pass(30);
    for (int i = 0; i < 3; i++) reset(FIRST);
    end("a FORWARD-TSN brings what a reset waits for", cumulative == FIRST, KNOWN_IN_PROGRESS);
}

/* What usrsctp's user reads. */
static void read_all(void) {
    static char bytes[1 << 18];
    struct sctp_rcvinfo info;
    socklen_t length = sizeof info, from = 0;
    unsigned type = 0;
    int flags = 0;
    while (usrsctp_recvv(theirs, bytes, sizeof bytes, NULL, &from, &info, &length, &type, &flags) > 0) {}
}

/* A message of which usrsctp hands out the beginning is abandoned; then come messages of two fragments. */
static void unacknowledged(void) {
    uint32_t tsn = FIRST + 80;
    int times = 0;
    begin(FIRST);
    for (uint32_t i = 0; i < 80; i++) data_of(FIRST + i, i == 0 ? BEGINS : 0, 1, 0, 1000);
    read_all();
    forward_tsn(tsn - 1);
    for (uint16_t i = 0; i < 1000 && times < 20; i++) {
        uint8_t ends = i % 2;
        for (times = 0; times < 20 && cumulative != tsn; times++) {
            data_of(tsn, ends ? ENDS : BEGINS, 1, i / 2 + 1, ends ? 1 : 1400);
            pass(30);
            read_all();
        }
        tsn += cumulative == tsn;
    }
    end("a message is abandoned that is handed out in parts", times == 20, KNOWN_UNACKNOWLEDGED);
}

/* Two long messages wait when streams are added. */
static void interleaved(void) {
    static const char message[20000];
    struct sctp_sndinfo info = { .snd_flags = SCTP_EOR };
    struct sctp_add_streams add = { .sas_outstrms = 2 };
    begin(FIRST);
    /* it goes on with the first stream that has a message */
    for (info.snd_sid = 2; info.snd_sid > 0; info.snd_sid--)
        must(usrsctp_sendv(theirs, message, sizeof message, NULL, 0, &info, sizeof info, SCTP_SENDV_SNDINFO, 0) == sizeof message, "usrsctp_sendv");
    must(usrsctp_setsockopt(theirs, IPPROTO_SCTP, SCTP_ADD_STREAMS, &add, sizeof add) == 0, "SCTP_ADD_STREAMS");
    for (int i = 0; i < 20; i++) {
        sack(their_tsn);
        pass(10);
    }
    end("streams are added within a message", known[KNOWN_INTERLEAVED] > 0, KNOWN_INTERLEAVED);
}

int main(void) {
    usrsctp_init_nothreads(0, output, NULL);
    usrsctp_sysctl_set_sctp_ecn_enable(0);
    usrsctp_sysctl_set_sctp_blackhole(2);
    usrsctp_register_address(&address);
    missing_end();
    duplicate();
    in_progress();
    unacknowledged();
    interleaved();
    for (int i = 0; i < 1000 && usrsctp_finish() != 0; i++) usrsctp_handle_timers(10);
    return failed != 0;
}
