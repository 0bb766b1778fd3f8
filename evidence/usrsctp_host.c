/* One usrsctp association driven by lines, over AF_CONN, with no clock, socket or thread: the same lines as crates/assocrun takes, which
 * drives an association of this repository. Times are whole microseconds. simulate.py runs two hosts of either kind.
 *
 *     new KEY=VALUE ..                 tsn and zero_checksum are passed over; tag and key seed the random numbers; nagle=1 turns SCTP_NODELAY off,
 *                                      and most_cwnd=N is SCTP_MAX_CWND
 *     connect T | shutdown T | abort T | timeout T | poll T
 *     in T HEX                         answers accepted
 *     mode STREAM ordered|unordered reliable|rexmit N|timed MILLISECONDS
 *     write T STREAM PPI HEX|*N        a refusal answers refused WORD
 *     read T STREAM                    answers message STREAM PPI HEX, or none
 *     take T STREAM                    answers took MESSAGES BYTES: all that can be read
 *     reset T STREAM | state | look
 *
 * Each command answers its own lines, then each datagram as out HEX, each event as event WORD .., and at last next T or next none. */
#include <errno.h>
#include <stdint.h>
#include <stdio.h>
#include <stdlib.h>
#include <string.h>
#include <sys/socket.h>
#include <sys/time.h>
#include <usrsctp.h>

enum { MOST_STREAMS = 1024, MOST_TIMERS = 256, LONGEST = 1 << 20, PORT = 5000 };

/* ---- Clock, timers, random numbers ------------------------------------------------------------------------------------------ */

static uint64_t now_us, ticks_ms;

/* usrsctp's clock, in place of the C library's. */
int gettimeofday(struct timeval *restrict t, void *restrict zone) {
    (void)zone;
    t->tv_sec = (time_t)(1000000 + now_us / 1000000);
    t->tv_usec = (suseconds_t)(now_us % 1000000);
    return 0;
}

static uint64_t random_state = 1;
int __wrap_read_random(void *bytes, int length);
int __wrap_read_random(void *bytes, int length) {
    for (int i = 0; i < length; i++) {
        random_state ^= random_state << 13;
        random_state ^= random_state >> 7;
        random_state ^= random_state << 17;
        ((uint8_t *)bytes)[i] = (uint8_t)(random_state >> 24);
    }
    return length;
}

/* The timers that run, and at which tick of a millisecond each runs out: usrsctp has no call that says so. */
static struct { void *timer; uint64_t at; } timers[MOST_TIMERS];
static int timer_count;

static void forget_timer(void *timer) {
    for (int i = 0; i < timer_count; i++)
        if (timers[i].timer == timer) timers[i--] = timers[--timer_count];
}

int __real_sctp_os_timer_start(void *timer, uint32_t ticks, void (*call)(void *), void *arg);
int __wrap_sctp_os_timer_start(void *timer, uint32_t ticks, void (*call)(void *), void *arg);
int __wrap_sctp_os_timer_start(void *timer, uint32_t ticks, void (*call)(void *), void *arg) {
    forget_timer(timer);
    if (timer_count == MOST_TIMERS) abort();
    timers[timer_count].timer = timer;
    timers[timer_count++].at = ticks_ms + ticks;
    return __real_sctp_os_timer_start(timer, ticks, call, arg);
}

int __real_sctp_os_timer_stop(void *timer);
int __wrap_sctp_os_timer_stop(void *timer);
int __wrap_sctp_os_timer_stop(void *timer) {
    forget_timer(timer);
    return __real_sctp_os_timer_stop(timer);
}

/* Lets time go on to a moment, and calls the timers that ran out by then. */
static void go_to(uint64_t us) {
    uint64_t was = ticks_ms;
    if (us > now_us) now_us = us;
    ticks_ms = now_us / 1000;
    for (int i = 0; i < timer_count; i++)
        if (timers[i].at <= ticks_ms) timers[i--] = timers[--timer_count];
    usrsctp_handle_timers((uint32_t)(ticks_ms - was));
}

/* ---- The association -------------------------------------------------------------------------------------------------------- */

static struct socket *listener, *peer;
static struct { int unordered, policy; uint32_t value; } modes[MOST_STREAMS];
static struct { uint64_t count, bytes; int is_new; } inboxes[MOST_STREAMS];
/* Messages that were read of usrsctp and not by the user: one after the other, for `read`. */
struct message { struct message *next; uint32_t ppi; size_t length; uint8_t bytes[]; };
static struct message *kept[MOST_STREAMS], *last[MOST_STREAMS];
static int is_registered, is_up, keeps;
static unsigned long mtu = 1191, window = 1 << 20, streams = 1024, most = 4 << 20, nagle, most_cwnd;

static void fail(const char *what) {
    fprintf(stderr, "usrsctp_host: %s: %s\n", what, strerror(errno));
    exit(2);
}

static void must(int result, const char *what) {
    if (result < 0) fail(what);
}

static void put_hex(const uint8_t *bytes, size_t length) {
    static const char digits[] = "0123456789abcdef";
    static char text[2 * LONGEST];
    for (size_t i = 0; i < length; i++) {
        text[2 * i] = digits[bytes[i] >> 4];
        text[2 * i + 1] = digits[bytes[i] & 15];
    }
    fwrite(text, 1, 2 * length, stdout);
}

/* Datagrams wait until the command's own answer is printed. */
static struct { uint8_t *bytes; size_t length; } outs[65536];
static int out_count;

static int output(void *address, void *packet, size_t length, uint8_t tos, uint8_t df) {
    (void)address;
    (void)tos;
    (void)df;
    if (out_count == 65536) abort();
    outs[out_count].bytes = malloc(length);
    if (!outs[out_count].bytes) abort();
    memcpy(outs[out_count].bytes, packet, length);
    outs[out_count++].length = length;
    return 0;
}

static void set(struct socket *s, int level, int name, const void *value, socklen_t length, const char *what) {
    must(usrsctp_setsockopt(s, level, name, value, length), what);
}

static void watch(struct socket *s, uint16_t type) {
    struct sctp_event event = { .se_assoc_id = SCTP_FUTURE_ASSOC, .se_type = type, .se_on = 1 };
    set(s, IPPROTO_SCTP, SCTP_EVENT, &event, sizeof event, "SCTP_EVENT");
}

static void set_up_socket(struct socket *s) {
    int send = (int)most, receive = (int)window, on = 1, off = 0, at_once = !nagle;
    uint32_t point = LONGEST;
    struct sctp_initmsg init = { .sinit_num_ostreams = (uint16_t)streams, .sinit_max_instreams = (uint16_t)streams };
    struct sctp_assoc_value reset = { .assoc_id = SCTP_FUTURE_ASSOC, .assoc_value = SCTP_ENABLE_VALUE_MASK };
    struct sctp_assoc_value cwnd = { .assoc_id = SCTP_FUTURE_ASSOC, .assoc_value = (uint32_t)most_cwnd };
    struct sctp_paddrparams path;
    memset(&path, 0, sizeof path);
    path.spp_address.ss_family = AF_CONN;
    path.spp_flags = SPP_PMTUD_DISABLE;
    path.spp_pathmtu = (uint32_t)mtu - 12; /* usrsctp adds the common header */
    set(s, SOL_SOCKET, SO_RCVBUF, &receive, sizeof receive, "SO_RCVBUF");
    set(s, SOL_SOCKET, SO_SNDBUF, &send, sizeof send, "SO_SNDBUF");
    set(s, IPPROTO_SCTP, SCTP_NODELAY, &at_once, sizeof at_once, "SCTP_NODELAY");
    set(s, IPPROTO_SCTP, SCTP_RECVRCVINFO, &on, sizeof on, "SCTP_RECVRCVINFO");
    set(s, IPPROTO_SCTP, SCTP_FRAGMENT_INTERLEAVE, &off, sizeof off, "SCTP_FRAGMENT_INTERLEAVE");
    set(s, IPPROTO_SCTP, SCTP_PARTIAL_DELIVERY_POINT, &point, sizeof point, "SCTP_PARTIAL_DELIVERY_POINT");
    set(s, IPPROTO_SCTP, SCTP_INITMSG, &init, sizeof init, "SCTP_INITMSG");
    set(s, IPPROTO_SCTP, SCTP_PEER_ADDR_PARAMS, &path, sizeof path, "SCTP_PEER_ADDR_PARAMS");
    set(s, IPPROTO_SCTP, SCTP_ENABLE_STREAM_RESET, &reset, sizeof reset, "SCTP_ENABLE_STREAM_RESET");
    if (most_cwnd) set(s, IPPROTO_SCTP, SCTP_MAX_CWND, &cwnd, sizeof cwnd, "SCTP_MAX_CWND");
    watch(s, SCTP_ASSOC_CHANGE);
    watch(s, SCTP_SHUTDOWN_EVENT);
    watch(s, SCTP_STREAM_RESET_EVENT);
    must(usrsctp_set_non_blocking(s, 1), "non-blocking");
}

static struct sockaddr_conn own_address(void) {
    struct sockaddr_conn address = { .sconn_family = AF_CONN, .sconn_port = htons(PORT), .sconn_addr = &is_registered };
    return address;
}

static struct socket *new_socket(void) {
    struct sockaddr_conn address = own_address();
    struct socket *s = usrsctp_socket(AF_CONN, SOCK_STREAM, IPPROTO_SCTP, NULL, NULL, 0, NULL);
    if (!s) fail("usrsctp_socket");
    set_up_socket(s);
    must(usrsctp_bind(s, (struct sockaddr *)&address, sizeof address), "usrsctp_bind");
    return s;
}

/* A number of the line of `new`, or what stands where it does not. */
static unsigned long value_of(const char *line, const char *key, unsigned long otherwise) {
    const char *at = strstr(line, key);
    return at ? strtoul(at + strlen(key), NULL, 0) : otherwise;
}

/* A time of the line of `new`, in milliseconds. */
static uint32_t ms_of(const char *line, const char *key, unsigned long otherwise_us) {
    return (uint32_t)(value_of(line, key, otherwise_us) / 1000);
}

static void command_new(const char *line) {
    mtu = value_of(line, " mtu=", mtu);
    window = value_of(line, " window=", window);
    streams = value_of(line, " streams=", streams);
    most = value_of(line, " waiting=", most);
    nagle = value_of(line, " nagle=", nagle);
    most_cwnd = value_of(line, " most_cwnd=", most_cwnd);
    random_state = value_of(line, " tag=", 1) * 0x9e3779b97f4a7c15ull | 1;
    usrsctp_init_nothreads(0, output, NULL);
    usrsctp_sysctl_set_sctp_blackhole(2);
    usrsctp_sysctl_set_sctp_ecn_enable(0);
    usrsctp_sysctl_set_sctp_pr_enable(1);
    usrsctp_sysctl_set_sctp_asconf_enable(0);
    usrsctp_sysctl_set_sctp_auth_enable(0);
    usrsctp_sysctl_set_sctp_nrsack_enable(0);
    usrsctp_sysctl_set_sctp_pktdrop_enable(0);
    usrsctp_sysctl_set_sctp_reconfig_enable(1);
    usrsctp_sysctl_set_sctp_max_chunks_on_queue(1000000);
    usrsctp_sysctl_set_sctp_rto_min_default(ms_of(line, " rto_min=", 1000000));
    usrsctp_sysctl_set_sctp_rto_initial_default(ms_of(line, " rto_initial=", 1000000));
    usrsctp_sysctl_set_sctp_rto_max_default(ms_of(line, " rto_max=", 60000000));
    usrsctp_sysctl_set_sctp_init_rto_max_default(ms_of(line, " rto_max=", 60000000));
    usrsctp_sysctl_set_sctp_heartbeat_interval_default(ms_of(line, " heartbeat=", 30000000));
    usrsctp_sysctl_set_sctp_delayed_sack_time_default(ms_of(line, " sack_delay=", 200000));
    if (!is_registered) usrsctp_register_address(&is_registered);
    is_registered = 1;
    listener = new_socket();
    must(usrsctp_listen(listener, 1), "usrsctp_listen");
}

static void command_connect(void) {
    struct sockaddr_conn address = own_address();
    if (peer) return;
    if (listener) usrsctp_close(listener);
    listener = NULL;
    peer = new_socket();
    if (usrsctp_connect(peer, (struct sockaddr *)&address, sizeof address) < 0 && errno != EINPROGRESS) fail("usrsctp_connect");
}

static void command_mode(char *line) {
    char order[16], kind[16];
    unsigned stream, value = 0;
    if (sscanf(line, "mode %u %15s %15s %u", &stream, order, kind, &value) < 3 || stream >= MOST_STREAMS) return;
    modes[stream].unordered = strcmp(order, "unordered") == 0;
    modes[stream].value = value;
    modes[stream].policy = strcmp(kind, "rexmit") == 0 ? SCTP_PR_SCTP_RTX : strcmp(kind, "timed") == 0 ? SCTP_PR_SCTP_TTL : SCTP_PR_SCTP_NONE;
}

static size_t from_hex(const char *text, uint8_t *bytes, size_t room) {
    size_t n = 0;
    for (; n < room && text[0] > ' ' && text[1] > ' '; text += 2, n++) {
        int high = text[0] <= '9' ? text[0] - '0' : (text[0] | 32) - 'a' + 10, low = text[1] <= '9' ? text[1] - '0' : (text[1] | 32) - 'a' + 10;
        bytes[n] = (uint8_t)(high << 4 | low);
    }
    return n;
}

static uint8_t buffer[LONGEST];

static void command_write(unsigned stream, uint32_t ppi, const char *text) {
    struct sctp_sendv_spa info;
    size_t length = text[0] == '*' ? strtoul(text + 1, NULL, 0) : from_hex(text, buffer, sizeof buffer);
    memset(&info, 0, sizeof info);
    if (text[0] == '*') memset(buffer, 'x', length < sizeof buffer ? length : sizeof buffer);
    info.sendv_flags = SCTP_SEND_SNDINFO_VALID;
    info.sendv_sndinfo.snd_sid = (uint16_t)stream;
    info.sendv_sndinfo.snd_flags = (uint16_t)(SCTP_EOR | (modes[stream].unordered ? SCTP_UNORDERED : 0));
    info.sendv_sndinfo.snd_ppid = htonl(ppi);
    if (modes[stream].policy != SCTP_PR_SCTP_NONE) {
        info.sendv_flags |= SCTP_SEND_PRINFO_VALID;
        info.sendv_prinfo.pr_policy = (uint16_t)modes[stream].policy;
        info.sendv_prinfo.pr_value = modes[stream].value;
    }
    if (!peer) printf("refused unconnected\n");
    else if (usrsctp_sendv(peer, buffer, length, NULL, 0, &info, sizeof info, SCTP_SENDV_SPA, 0) < 0)
        printf("refused %s\n", errno == EWOULDBLOCK || errno == EAGAIN ? "full" : "state");
}

static void keep(unsigned stream, uint32_t ppi, size_t length) {
    inboxes[stream].count++;
    inboxes[stream].bytes += length;
    inboxes[stream].is_new = 1;
    if (!keeps) return;
    struct message *m = malloc(sizeof *m + length);
    if (!m) abort();
    m->next = NULL;
    m->ppi = ppi;
    m->length = length;
    memcpy(m->bytes, buffer, length);
    if (last[stream]) last[stream]->next = m;
    else kept[stream] = m;
    last[stream] = m;
}

static void command_take(unsigned stream) {
    printf("took %lu %lu\n", (unsigned long)inboxes[stream].count, (unsigned long)inboxes[stream].bytes);
    inboxes[stream].count = inboxes[stream].bytes = 0;
    for (struct message *m = kept[stream], *next; m; m = next) {
        next = m->next;
        free(m);
    }
    kept[stream] = last[stream] = NULL;
}

static void command_read(unsigned stream) {
    struct message *m = kept[stream];
    if (!m) {
        printf("none\n");
        return;
    }
    printf("message %u %u ", stream, (unsigned)m->ppi);
    put_hex(m->bytes, m->length);
    printf("\n");
    inboxes[stream].count--;
    inboxes[stream].bytes -= m->length;
    kept[stream] = m->next;
    if (!m->next) last[stream] = NULL;
    free(m);
}

static void tell_change(const struct sctp_assoc_change *change) {
    static const char *const words[] = { "", "connected", "closed lost", "restarted", "closed shutdown", "closed refused" };
    is_up = change->sac_state == SCTP_COMM_UP || change->sac_state == SCTP_RESTART;
    if (change->sac_state <= SCTP_CANT_STR_ASSOC) printf("event %s\n", words[change->sac_state]);
}

static void tell_reset(const struct sctp_stream_reset_event *event) {
    size_t count = (event->strreset_length - sizeof *event) / sizeof(uint16_t);
    const char *word = event->strreset_flags & (SCTP_STREAM_RESET_DENIED | SCTP_STREAM_RESET_FAILED) ? "reset_refused"
        : event->strreset_flags & SCTP_STREAM_RESET_INCOMING_SSN                                    ? "reset_by_peer"
                                                                                                    : "reset_by_us";
    for (size_t i = 0; i < count; i++) printf("event %s %u\n", word, event->strreset_stream_list[i]);
}

static void tell(const union sctp_notification *note) {
    if (note->sn_header.sn_type == SCTP_ASSOC_CHANGE) tell_change(&note->sn_assoc_change);
    else if (note->sn_header.sn_type == SCTP_SHUTDOWN_EVENT) printf("event shutdown\n");
    else if (note->sn_header.sn_type == SCTP_STREAM_RESET_EVENT) tell_reset(&note->sn_strreset_event);
}

/* Reads all that usrsctp has. */
static void drain(void) {
    static size_t at;
    if (!peer && listener) peer = usrsctp_accept(listener, NULL, NULL);
    if (peer) must(usrsctp_set_non_blocking(peer, 1), "non-blocking");
    while (peer) {
        struct sctp_rcvinfo info;
        socklen_t info_length = sizeof info, from_length = 0;
        unsigned type = 0;
        int flags = 0;
        ssize_t n = usrsctp_recvv(peer, buffer + at, sizeof buffer - at, NULL, &from_length, &info, &info_length, &type, &flags);
        if (n <= 0) break;
        at += (size_t)n;
        if (!(flags & MSG_EOR)) continue;
        if (flags & MSG_NOTIFICATION) tell((const union sctp_notification *)(const void *)buffer);
        else if (info.rcv_sid < MOST_STREAMS) keep(info.rcv_sid, ntohl(info.rcv_ppid), at);
        at = 0;
    }
    for (unsigned i = 0; i < MOST_STREAMS; i++)
        if (inboxes[i].is_new) {
            printf("event readable %u\n", i);
            inboxes[i].is_new = 0;
        }
}

static void command_look(void) {
    struct sctp_status status;
    socklen_t length = sizeof status;
    memset(&status, 0, sizeof status);
    if (!peer || usrsctp_getsockopt(peer, IPPROTO_SCTP, SCTP_STATUS, &status, &length) < 0) printf("rtt none cwnd 0 peer_window 0\n");
    else
        printf("rtt %lu cwnd %lu peer_window %lu\n", 1000ul * status.sstat_primary.spinfo_srtt, (unsigned long)status.sstat_primary.spinfo_cwnd,
               (unsigned long)status.sstat_rwnd);
}

static void command_abort(void) {
    struct sctp_sndinfo info;
    memset(&info, 0, sizeof info);
    info.snd_flags = SCTP_ABORT;
    if (peer) usrsctp_sendv(peer, "", 0, NULL, 0, &info, sizeof info, SCTP_SENDV_SNDINFO, 0);
}

static void command_reset(unsigned stream) {
    char room[sizeof(struct sctp_reset_streams) + sizeof(uint16_t)];
    struct sctp_reset_streams *reset = (struct sctp_reset_streams *)(void *)room;
    memset(room, 0, sizeof room);
    reset->srs_flags = SCTP_STREAM_RESET_OUTGOING;
    reset->srs_number_streams = 1;
    reset->srs_stream_list[0] = (uint16_t)stream;
    if (!peer || usrsctp_setsockopt(peer, IPPROTO_SCTP, SCTP_RESET_STREAMS, reset, sizeof room) < 0) printf("refused state\n");
}

/* ---- Lines ------------------------------------------------------------------------------------------------------------------ */

/* The word of a line with this number, counted from 0; an empty one behind the last. */
static const char *word_of(const char *line, int number) {
    for (; number > 0 && *line; number--) {
        line = line + strcspn(line, " ");
        line += strspn(line, " ");
    }
    return line;
}

static int is(const char *line, const char *word) { return strncmp(line, word, strlen(word)) == 0 && line[strlen(word)] <= ' '; }

static void obey(char *line) {
    unsigned stream = (unsigned)strtoul(word_of(line, 2), NULL, 0) % MOST_STREAMS;
    if (is(line, "new")) command_new(line);
    else if (is(line, "mode")) command_mode(line);
    else if (is(line, "state")) printf("state %s\n", is_up ? "established" : "closed");
    else if (is(line, "look")) command_look();
    else go_to(strtoull(word_of(line, 1), NULL, 0));
    if (is(line, "connect")) command_connect();
    else if (is(line, "shutdown") && peer) usrsctp_shutdown(peer, SHUT_WR);
    else if (is(line, "abort")) command_abort();
    else if (is(line, "reset")) command_reset(stream);
    else if (is(line, "take")) command_take(stream);
    else if (is(line, "read")) command_read(stream);
    else if (is(line, "write")) command_write(stream, (uint32_t)strtoul(word_of(line, 3), NULL, 0), word_of(line, 4));
    else if (is(line, "in")) {
        static uint8_t bytes[65536];
        size_t length = from_hex(word_of(line, 2), bytes, sizeof bytes);
        usrsctp_conninput(&is_registered, bytes, length, 0);
        printf("accepted\n");
    }
}

static void answer(void) {
    uint64_t first = UINT64_MAX;
    drain();
    for (int i = 0; i < out_count; i++) {
        printf("out ");
        put_hex(outs[i].bytes, outs[i].length);
        printf("\n");
        free(outs[i].bytes);
    }
    out_count = 0;
    for (int i = 0; i < timer_count; i++)
        if (timers[i].at < first) first = timers[i].at;
    if (first == UINT64_MAX) printf("next none\n");
    else printf("next %lu\n", (unsigned long)(first * 1000 > now_us ? first * 1000 : now_us));
    fflush(stdout);
}

/* With the argument keep, messages are kept for `read`; else they are only counted, for `take`. */
int main(int argc, char **argv) {
    static char line[2 * LONGEST + 100];
    keeps = argc > 1 && strcmp(argv[1], "keep") == 0;
    setvbuf(stdout, NULL, _IOFBF, 1 << 20);
    while (fgets(line, sizeof line, stdin)) {
        obey(line);
        answer();
    }
    return 0;
}
