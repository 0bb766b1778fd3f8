#include "endpoint.h"
#include <string.h>

/* The bytes of a packet's header, and of the headers of packet and DATA chunk together; chunks of one packet that are looked at. */
enum { PACKET_HEADER = 12, HEADERS = 28, CHUNK_ROWS = 400 };
/* Chunks in flight at most, and rows that are enough for them: abandoning a message that was sent in part gives out one TSN more. */
enum { MAX_CHUNKS_IN_FLIGHT = 512, ROWS = MAX_CHUNKS_IN_FLIGHT + 8 };
/* The longest time before a SACK is sent, in nanoseconds (RFC 4960 6.2). */
enum { SACK_DELAY = 200000000 };

/* Whether a TSN is past another one (RFC 1982 3.2). */
static int is_after(uint32_t tsn, uint32_t other) { return tsn != other && tsn - other < 0x80000000u; }

static uint8_t *end_of(struct endpoint *e) { return e->packet + e->length; }
static size_t room_of(const struct endpoint *e) { return e->config.mtu - e->length; }

/* Sends the packet, if it has a chunk, and begins the next one. */
static void flush_with_tag(struct endpoint *e, uint32_t tag) {
    struct sctpr_head head = { tag, e->config.port, e->config.peer_port };
    if (e->length > PACKET_HEADER && sctpr_seal_packet(&head, e->packet, e->length) == SCTPR_OK) {
        e->counts.packets_sent++;
        e->config.output(e->config.context, e->packet, e->length);
    }
    e->length = PACKET_HEADER;
    e->has_data = 0;
}

static void flush(struct endpoint *e) { flush_with_tag(e, e->peer.tag); }
static void start_timer(struct endpoint *e) { e->timer = e->now + e->rto; }

/* Makes place for a control chunk of so many bytes: it stands before DATA (RFC 4960 6.10). */
static void make_place(struct endpoint *e, size_t length) {
    if (e->has_data || room_of(e) < length) flush(e);
}

/* Puts a control chunk into the packet. One that fits no packet, and one for which memory is refused, is left out: what has to arrive is
 * sent again by a timer. */
static void put_chunk(struct endpoint *e, uint8_t type, const uint8_t *value, size_t length) {
    size_t written = 0;
    make_place(e, 4 + length + 3);
    if (sctpr_write_chunk(type, value, length, end_of(e), room_of(e), &written) == SCTPR_OK) e->length += written;
}

/* Puts an ERROR or an ABORT of one cause into the packet (RFC 4960 3.3.10). */
static void put_cause(struct endpoint *e, uint8_t type, uint16_t code, const uint8_t *value, size_t length) {
    uint8_t cause[1500];
    size_t written = 0;
    if (sctpr_write_cause(code, value, length, cause, sizeof cause, &written) == SCTPR_OK) put_chunk(e, type, cause, written);
}

void endpoint_init(struct endpoint *e, const struct endpoint_config *config) {
    memset(e, 0, sizeof *e);
    e->config = *config;
    e->rto = config->rto_initial;
    e->length = PACKET_HEADER;
}

void endpoint_free(struct endpoint *e) {
    if (!e->has_halves) return;
    sctpr_sender_free(&e->sender);
    sctpr_receiver_free(&e->receiver);
    e->has_halves = 0;
}

static int open_streams(struct endpoint *e) {
    for (uint16_t i = 0; i < e->config.streams; i++) {
        if (sctpr_receiver_open(&e->receiver, i) != SCTPR_OK) return 0;
        if (i < e->peer.streams && sctpr_sender_open(&e->sender, i) != SCTPR_OK) return 0;
    }
    e->incoming = e->config.streams;
    e->outgoing = e->config.streams < e->peer.streams ? e->config.streams : e->peer.streams;
    return 1;
}

/* Makes the two halves, where there are none. A receiver's reach of 65,535 is what the gap ack blocks of a SACK can tell of. What the
 * peer takes back is sent again. */
static int make_halves(struct endpoint *e) {
    const struct endpoint_config *c = &e->config;
    if (e->has_halves) return 1;
    if (sctpr_sender_new(c->first_tsn, c->mtu - HEADERS, c->max_message_size, 1, &e->sender) != SCTPR_OK) return 0;
    if (sctpr_receiver_new(e->peer.first_tsn, c->max_message_size, c->window, 65535, &e->receiver) != SCTPR_OK) {
        sctpr_sender_free(&e->sender);
        return 0;
    }
    e->has_halves = 1;
    e->next_request = c->first_tsn;
    e->credit = e->peer.credit;
    e->advertised = c->window;
    if (open_streams(e)) return 1;
    endpoint_free(e);
    return 0;
}

/* Sends an INIT, or to the peer of a tag an INIT-ACK with a cookie. */
static void send_init(struct endpoint *e, uint8_t is_ack, uint32_t tag, const uint8_t *cookie, size_t cookie_length) {
    static const uint8_t extensions[] = { SCTPR_FORWARD_TSN, SCTPR_RECONFIG };
    const struct endpoint_config *c = &e->config;
    struct sctpr_init init = { c->tag, c->window, c->first_tsn, c->streams, c->streams, is_ack };
    uint8_t params[64];
    size_t first = 0, second = 0, third = 0, written = 0;
    flush(e);
    if (sctpr_write_param(SCTPR_PARAM_FORWARD_TSN_SUPPORTED, NULL, 0, params, sizeof params, &first) != SCTPR_OK) return;
    if (sctpr_write_param(SCTPR_PARAM_SUPPORTED_EXTENSIONS, extensions, 2, params + first, 8, &second) != SCTPR_OK) return;
    first += second;
    if (is_ack && sctpr_write_param(SCTPR_PARAM_STATE_COOKIE, cookie, cookie_length, params + first, 32, &third) != SCTPR_OK) return;
    if (sctpr_write_init(&init, params, first + third, end_of(e), room_of(e), &written) == SCTPR_OK) e->length += written;
    flush_with_tag(e, tag);
}

void endpoint_connect(struct endpoint *e, uint64_t now) {
    if (e->state != ENDPOINT_CLOSED) return;
    e->now = now;
    e->state = ENDPOINT_COOKIE_WAIT;
    send_init(e, 0, 0, NULL, 0);
    start_timer(e);
}

/* Reads what the peer says of itself, and where its cookie lies, if there is one, in an INIT or INIT-ACK (RFC 4960 3.3.2, 3.3.3). That it
 * follows a FORWARD-TSN stands in a parameter of its own or among its extensions (RFC 3758 3.1, RFC 5061 4.2.7). */
static int read_peer(const uint8_t *chunk, size_t length, struct endpoint_peer *peer, const uint8_t **cookie, size_t *cookie_length) {
    struct sctpr_init init;
    struct sctpr_param param;
    if (sctpr_read_init(chunk, length, &init) != SCTPR_OK) return 0;
    if (init.initiate_tag == 0 || init.inbound_streams == 0 || init.outbound_streams == 0) return 0;
    *peer = (struct endpoint_peer){ .tag = init.initiate_tag, .first_tsn = init.initial_tsn, .credit = init.credit,
                                    .next_request = init.initial_tsn, .streams = init.inbound_streams };
    for (size_t at = 20; at < length && sctpr_read_any_param(chunk + at, length - at, &param) == SCTPR_OK; at += param.next) {
        const uint8_t *value = chunk + at + 4;
        /* an unknown type without the highest bit ends the walk (RFC 9260 3.2.1); addresses and their like are known up to 12 */
        if (!(param.type & 0x8000) && param.type > 12) break;
        if (param.type == SCTPR_PARAM_FORWARD_TSN_SUPPORTED) peer->has_forward_tsn = 1;
        if (param.type == SCTPR_PARAM_SUPPORTED_EXTENSIONS && memchr(value, SCTPR_FORWARD_TSN, param.length)) peer->has_forward_tsn = 1;
        if (param.type == SCTPR_PARAM_STATE_COOKIE) {
            *cookie = value;
            *cookie_length = param.length;
        }
    }
    return 1;
}

/* Answers an INIT, and keeps nothing of it: all that is to be known stands in the cookie. It is not signed, as a cookie has to be where
 * the network is not trusted (RFC 4960 5.1.3). */
static void on_init(struct endpoint *e, const uint8_t *chunk, size_t length) {
    struct endpoint_peer peer;
    const uint8_t *cookie = NULL;
    size_t cookie_length = 0;
    if (e->state > ENDPOINT_COOKIE_ECHOED || !read_peer(chunk, length, &peer, &cookie, &cookie_length)) return;
    send_init(e, 1, peer.tag, (const uint8_t *)&peer, sizeof peer);
}

static void on_init_ack(struct endpoint *e, const uint8_t *chunk, size_t length) {
    struct endpoint_peer peer;
    const uint8_t *cookie = NULL;
    size_t cookie_length = 0;
    if (e->state != ENDPOINT_COOKIE_WAIT || !read_peer(chunk, length, &peer, &cookie, &cookie_length)) return;
    if (cookie_length == 0 || cookie_length > sizeof e->cookie) return;
    e->peer = peer;
    if (!make_halves(e)) return;
    memcpy(e->cookie, cookie, cookie_length);
    e->cookie_length = cookie_length;
    e->state = ENDPOINT_COOKIE_ECHOED;
    put_chunk(e, SCTPR_COOKIE_ECHO, e->cookie, e->cookie_length);
    start_timer(e);
}

/* From COOKIE-ECHOED, or from a state before it too, the association is established. */
static void establish(struct endpoint *e, enum endpoint_state least) {
    if (e->state < least || e->state > ENDPOINT_COOKIE_ECHOED) return;
    e->state = ENDPOINT_ESTABLISHED;
    e->timer = e->errors = 0;
    e->rto = e->config.rto_initial;
    e->heartbeat_due = e->now + e->config.heartbeat_interval;
}

static void on_cookie_echo(struct endpoint *e, const uint8_t *chunk, size_t length) {
    struct endpoint_peer peer;
    if (length != 4 + sizeof peer || endpoint_is_over(e)) return;
    memcpy(&peer, chunk + 4, sizeof peer);
    if (e->has_halves && peer.tag != e->peer.tag) return;
    /* one that comes again tells nothing new */
    if (e->state < ENDPOINT_ESTABLISHED) e->peer = peer;
    if (!make_halves(e)) return;
    establish(e, ENDPOINT_CLOSED);
    put_chunk(e, SCTPR_COOKIE_ACK, NULL, 0);
}

/* The round trip time, and the time after which T3-rtx runs out (RFC 4960 6.3.1 C2, C3, C6, C7). */
static void measure(struct endpoint *e, uint64_t rtt) {
    uint64_t off = rtt > e->smoothed_rtt ? rtt - e->smoothed_rtt : e->smoothed_rtt - rtt;
    int is_first = e->smoothed_rtt == 0;
    e->rtt_variation = is_first ? rtt / 2 : e->rtt_variation - e->rtt_variation / 4 + off / 4;
    e->smoothed_rtt = is_first ? rtt : e->smoothed_rtt - e->smoothed_rtt / 8 + rtt / 8;
    e->rto = e->smoothed_rtt + 4 * e->rtt_variation;
    if (e->rto < e->config.rto_min) e->rto = e->config.rto_min;
    if (e->rto > e->config.rto_max) e->rto = e->config.rto_max;
}

/* Takes a SACK (RFC 4960 6.2.1): what it takes back, then what it reports anew. T3-rtx stops where all is acknowledged, and starts anew
 * where the cumulative TSN rose (6.3.2). What three SACKs miss is marked (7.2.4); one without gap ack blocks misses nothing. */
static void on_sack(struct endpoint *e, const uint8_t *chunk, size_t length) {
    struct sctpr_taken_back back[ROWS];
    struct sctpr_acked rows[ROWS];
    struct sctpr_sack sack;
    uint32_t acked = sctpr_sender_acked_tsn(&e->sender);
    size_t taken_back = 0, count = 0;
    sctpr_code code = sctpr_read_sack(chunk, length, &sack, NULL, 0, NULL, 0);
    if (code == SCTPR_OK) code = sctpr_sender_take_back(&e->sender, chunk, length, back, ROWS, &taken_back);
    if (code == SCTPR_OK) code = sctpr_sender_acked(&e->sender, chunk, length, rows, ROWS, &count);
    e->counts.chunks[code]++;
    if (code != SCTPR_OK) return;
    e->counts.taken_back += taken_back;
    e->credit = sack.credit;
    e->errors = 0;
    if (is_after(sack.cumulative_tsn, acked)) {
        e->wants_forward_tsn = 1;
        start_timer(e);
    }
    if (sctpr_sender_chunks_in_flight(&e->sender) == 0) e->timer = 0;
    if (taken_back > 0) e->has_marked = 1;
    if (count == 0) return;
    const struct sctpr_acked *last = &rows[count - 1];
    if (last->has_sent_at && last->sent == 1) measure(e, e->now - last->sent_at);
    if (sack.blocks > 0 && sctpr_sender_add_miss_indications(&e->sender, last->tsn) > 0) {
        e->has_marked = 1;
        e->counts.fast_retransmissions++;
    }
}

/* Ends the association, and tells why (RFC 4960 9.1). */
static void abort_for(struct endpoint *e, uint16_t cause) {
    if (e->peer.tag != 0) put_cause(e, SCTPR_ABORT, cause, NULL, 0);
    flush(e);
    e->state = ENDPOINT_ABORTED;
}

/* Ends the association where a chunk of the lowest missing TSN, or a FORWARD-TSN, is refused and no stream can be read: nothing that can be
 * read makes room, and the same would come for ever (RFC 4960 6.2, 3.3.10.4, 3.3.10.13). */
static void end_if_for_ever(struct endpoint *e, sctpr_code code) {
    size_t count = 0;
    if (sctpr_receiver_readable_streams(&e->receiver, NULL, 0, &count) != SCTPR_OK) return;
    if (code == SCTPR_WINDOW_FULL || code == SCTPR_TSN_TOO_FAR) abort_for(e, SCTPR_CAUSE_OUT_OF_RESOURCE);
    if (code == SCTPR_SSN_TOO_FAR || code == SCTPR_NAMED_SSN_TOO_FAR) abort_for(e, SCTPR_CAUSE_PROTOCOL_VIOLATION);
}

/* Takes a DATA chunk (RFC 4960 6.2). One of a stream that is not open is reported, and counts as come (6.5). One of a message that is too
 * long closes its stream, so that nothing of the message stays, and counts as come. A SACK goes at once where the chunk came before, asks
 * for it (RFC 7053), or leaves a gap. */
static void on_data(struct endpoint *e, const uint8_t *chunk, size_t length) {
    struct sctpr_data data;
    uint8_t complete = 0;
    if (sctpr_read_data(chunk, length, &data) != SCTPR_OK) return;
    sctpr_code code = sctpr_receiver_data(&e->receiver, chunk, length, &complete);
    e->counts.chunks[code]++;
    if (code == SCTPR_STREAM_UNKNOWN) {
        const uint8_t stream[4] = { chunk[8], chunk[9], 0, 0 };
        put_cause(e, SCTPR_ERROR, SCTPR_CAUSE_INVALID_STREAM_IDENTIFIER, stream, sizeof stream);
    }
    if (code == SCTPR_MESSAGE_TOO_LARGE) sctpr_receiver_close(&e->receiver, data.stream);
    if (code == SCTPR_STREAM_UNKNOWN || code == SCTPR_MESSAGE_TOO_LARGE) sctpr_receiver_discard(&e->receiver, data.tsn);
    else if (data.tsn == sctpr_receiver_cumulative_tsn(&e->receiver) + 1) end_if_for_ever(e, code);
    if (code == SCTPR_REPEAT || data.wants_sack || is_after(data.tsn, sctpr_receiver_cumulative_tsn(&e->receiver))) e->sack_due = e->now;
}

/* A FORWARD-TSN is answered by a SACK (RFC 3758 3.6). What it names on a stream that is not open is passed over. */
static void on_forward_tsn(struct endpoint *e, const uint8_t *chunk, size_t length) {
    sctpr_code code = sctpr_receiver_forward_tsn_past_closed(&e->receiver, chunk, length);
    e->counts.chunks[code]++;
    if (code == SCTPR_NAMED_SSN_TOO_FAR) end_if_for_ever(e, code);
    e->unacknowledged++;
    e->sack_due = e->now;
}

/* The answer to a heartbeat has the time at which it was sent (RFC 4960 8.3). */
static void on_heartbeat_ack(struct endpoint *e, const uint8_t *chunk, size_t length) {
    struct sctpr_param param;
    uint64_t sent_at;
    if (!e->awaits_heartbeat_ack || sctpr_read_param(chunk + 4, length - 4, &param) != SCTPR_OK || param.length != sizeof sent_at) return;
    memcpy(&sent_at, chunk + 8, sizeof sent_at);
    if (sent_at != e->heartbeat_sent_at) return;
    e->errors = e->awaits_heartbeat_ack = 0;
    e->counts.heartbeats_answered++;
    measure(e, e->now - sent_at);
}

static void send_shutdown_ack(struct endpoint *e) {
    e->state = ENDPOINT_SHUTDOWN_ACK_SENT;
    put_chunk(e, SCTPR_SHUTDOWN_ACK, NULL, 0);
    start_timer(e);
}

/* A SHUTDOWN acknowledges as a SACK does (RFC 4960 9.2). */
static void on_shutdown(struct endpoint *e, const uint8_t *chunk, size_t length) {
    struct sctpr_acked rows[ROWS];
    uint32_t tsn;
    size_t count = 0;
    if (sctpr_read_shutdown(chunk, length, &tsn) != SCTPR_OK) return;
    e->counts.chunks[sctpr_sender_acked_up_to(&e->sender, tsn, rows, ROWS, &count)]++;
    if (e->state >= ENDPOINT_SHUTDOWN_SENT) send_shutdown_ack(e);
    else e->state = ENDPOINT_SHUTDOWN_RECEIVED;
}

/* It is answered also once the association is shut down: our SHUTDOWN-COMPLETE may have been lost. */
static void on_shutdown_ack(struct endpoint *e) {
    if (e->state < ENDPOINT_SHUTDOWN_SENT || e->state == ENDPOINT_ABORTED) return;
    e->state = ENDPOINT_SHUT_DOWN;
    put_chunk(e, SCTPR_SHUTDOWN_COMPLETE, NULL, 0);
}

static void on_abort(struct endpoint *e, const uint8_t *chunk, size_t length) {
    if (endpoint_is_over(e) || e->state == ENDPOINT_CLOSED) return;
    e->state = ENDPOINT_ABORTED;
    e->abort_length = length < sizeof e->abort_chunk ? length : sizeof e->abort_chunk;
    memcpy(e->abort_chunk, chunk, e->abort_length);
}

/* Resets the streams of a request, or says that they are none, or that DATA from before it is still to come (RFC 6525 5.2.2). */
static uint32_t reset_streams(struct endpoint *e, const uint8_t *request, size_t length) {
    struct sctpr_reset reset;
    uint16_t streams[ENDPOINT_REQUEST_STREAMS];
    size_t count;
    if (sctpr_read_reset(request, length, &reset, streams, ENDPOINT_REQUEST_STREAMS, &count) != SCTPR_OK) return SCTPR_RESULT_DENIED;
    if (count > ENDPOINT_REQUEST_STREAMS) return SCTPR_RESULT_DENIED;
    for (size_t i = 0; i < (count > 0 ? count : e->incoming); i++) {
        sctpr_code code = sctpr_receiver_reset(&e->receiver, count > 0 ? streams[i] : (uint16_t)i, reset.last_tsn);
        if (code == SCTPR_RESET_IN_PROGRESS) return SCTPR_RESULT_IN_PROGRESS;
        if (code == SCTPR_STREAM_UNKNOWN) return SCTPR_RESULT_WRONG_SSN;
        if (code != SCTPR_OK) return SCTPR_RESULT_DENIED;
    }
    return SCTPR_RESULT_PERFORMED;
}

/* ---- Our requests (RFC 6525) ----------------------------------------------------------------------------------------------- */

/* Sends our request, at first and again when it has no answer. */
static void send_request(struct endpoint *e) {
    put_chunk(e, SCTPR_RECONFIG, e->request.param, e->request.length);
    e->request.due = e->now + e->rto;
    e->counts.requests_sent++;
}

/* A new request of a type and of these streams, whose parameter is to be written; NULL, where none may be made: one waits at a time. */
static struct endpoint_request *begin_request(struct endpoint *e, uint16_t type, const uint16_t *streams, uint16_t count) {
    struct endpoint_request *r = &e->request;
    if (e->state != ENDPOINT_ESTABLISHED || r->length > 0 || count > ENDPOINT_REQUEST_STREAMS) return NULL;
    memset(r, 0, sizeof *r);
    r->type = type;
    r->number = e->next_request;
    r->count = count;
    for (uint16_t i = 0; i < count; i++) r->streams[i] = streams[i];
    return r;
}

/* Sends a new request, where its parameter could be written. */
static sctpr_code send_new_request(struct endpoint *e, sctpr_code code) {
    if (code != SCTPR_OK) return code;
    e->next_request++;
    send_request(e);
    return code;
}

/* Whether a stream is one of those of a request. */
static int names(const struct endpoint_request *r, uint16_t stream) {
    for (uint16_t i = 0; i < r->count; i++)
        if (r->streams[i] == stream) return 1;
    return 0;
}

/* Asks the peer to follow a reset of ours, of our own accord or because it asked for it: the number of its request stands in it (4.1). */
static sctpr_code ask_reset(struct endpoint *e, const uint16_t *streams, uint16_t count, uint32_t response) {
    struct endpoint_request *r;
    if (e->state != ENDPOINT_ESTABLISHED || count == 0) return SCTPR_INVALID;
    for (uint16_t i = 0; i < count; i++)
        if (!sctpr_sender_is_drained(&e->sender, streams[i])) return SCTPR_STREAM_BUSY;
    if (!(r = begin_request(e, SCTPR_PARAM_OUTGOING_RESET, streams, count))) return SCTPR_INVALID;
    struct sctpr_reset reset = { r->number, response, sctpr_sender_next_tsn(&e->sender) - 1 };
    return send_new_request(e, sctpr_write_reset(&reset, streams, count, r->param, sizeof r->param, &r->length));
}

sctpr_code endpoint_reset(struct endpoint *e, const uint16_t *streams, uint16_t count) {
    return ask_reset(e, streams, count, e->peer.next_request - 1);
}

sctpr_code endpoint_reset_incoming(struct endpoint *e, const uint16_t *streams, uint16_t count) {
    struct endpoint_request *r = begin_request(e, SCTPR_PARAM_INCOMING_RESET, streams, count);
    if (!r) return SCTPR_INVALID;
    return send_new_request(e, sctpr_write_incoming_reset(r->number, streams, count, r->param, sizeof r->param, &r->length));
}

sctpr_code endpoint_add_streams(struct endpoint *e, uint16_t count) {
    struct endpoint_request *r;
    if (count == 0 || e->outgoing + count > 65535) return SCTPR_INVALID;
    if (!(r = begin_request(e, SCTPR_PARAM_ADD_OUTGOING_STREAMS, NULL, 0))) return SCTPR_INVALID;
    struct sctpr_add_streams add = { r->number, count, 0 };
    r->added = count;
    return send_new_request(e, sctpr_write_add_streams(&add, r->param, sizeof r->param, &r->length));
}

/* Our request has its answer: what it asked for is done (5.2.7). */
static void finish_request(struct endpoint *e, uint32_t result) {
    struct endpoint_request *r = &e->request;
    r->length = 0;
    e->request_result = result;
    if (result != SCTPR_RESULT_PERFORMED) return;
    for (uint16_t i = 0; r->type == SCTPR_PARAM_OUTGOING_RESET && i < r->count; i++) sctpr_sender_reset(&e->sender, r->streams[i]);
    for (uint16_t i = 0; r->type == SCTPR_PARAM_ADD_OUTGOING_STREAMS && i < r->added; i++)
        if (sctpr_sender_open(&e->sender, (uint16_t)e->outgoing) == SCTPR_OK) e->outgoing++;
}

/* "In progress": the request is sent again, under its number. */
static void on_response(struct endpoint *e, const uint8_t *param, size_t length) {
    struct sctpr_response response;
    if (sctpr_read_response(param, length, &response) != SCTPR_OK || response.result == SCTPR_RESULT_IN_PROGRESS) return;
    if (e->request.length > 0 && response.response == e->request.number) finish_request(e, response.result);
}

/* Sends our request again when it is due, and the reset that the peer asked for, once nothing of its streams is on the way. */
static void poll_requests(struct endpoint *e) {
    if (e->request.length > 0 && e->request.due <= e->now) send_request(e);
    if (e->wanted.length > 0 && ask_reset(e, e->wanted.streams, e->wanted.count, e->wanted.number) == SCTPR_OK) e->wanted.length = 0;
}

/* ---- Requests of the peer -------------------------------------------------------------------------------------------------- */

/* What on_request answers where the request has no answer of its own. */
enum { NO_ANSWER = 0xffff };

/* The peer asks for a reset of ours: the request to follow it is the answer (5.2.3). One that names no stream, or too many, is denied. */
static uint32_t want_reset(struct endpoint *e, const uint8_t *request, size_t length) {
    struct endpoint_request *w = &e->wanted;
    size_t count = 0;
    if (w->length > 0) return SCTPR_RESULT_DENIED;
    sctpr_code code = sctpr_read_incoming_reset(request, length, &w->number, w->streams, ENDPOINT_REQUEST_STREAMS, &count);
    if (code != SCTPR_OK || count == 0 || count > ENDPOINT_REQUEST_STREAMS) return SCTPR_RESULT_DENIED;
    for (size_t i = 0; i < count; i++)
        if (w->streams[i] >= e->outgoing) return SCTPR_RESULT_WRONG_SSN;
    w->count = (uint16_t)count;
    w->length = 1;
    return NO_ANSWER;
}

/* The peer has so many outgoing streams more (5.2.5). */
static uint32_t add_streams(struct endpoint *e, const uint8_t *request, size_t length) {
    struct sctpr_add_streams add;
    if (sctpr_read_add_streams(request, length, &add) != SCTPR_OK || add.count == 0) return SCTPR_RESULT_DENIED;
    if (e->incoming + add.count > (uint32_t)e->config.streams + ENDPOINT_ADDED_STREAMS) return SCTPR_RESULT_DENIED;
    for (; add.count > 0; add.count--, e->incoming++)
        if (sctpr_receiver_open(&e->receiver, (uint16_t)e->incoming) != SCTPR_OK) return SCTPR_RESULT_DENIED;
    return SCTPR_RESULT_PERFORMED;
}

/* Follows a request of the peer, and answers its result. A reset may be the answer to our own request (4.1). One to reset all TSNs, and one
 * to add streams of ours, are denied (4.3, 4.6). */
static uint32_t on_request(struct endpoint *e, uint16_t type, const uint8_t *bytes, size_t length) {
    struct sctpr_reset reset;
    size_t count;
    switch (type) {
    case SCTPR_PARAM_OUTGOING_RESET:
        if (sctpr_read_reset(bytes, length, &reset, NULL, 0, &count) == SCTPR_OK && e->request.type == SCTPR_PARAM_INCOMING_RESET
            && e->request.length > 0 && reset.response == e->request.number)
            finish_request(e, SCTPR_RESULT_PERFORMED);
        return reset_streams(e, bytes, length);
    case SCTPR_PARAM_INCOMING_RESET: return want_reset(e, bytes, length);
    case SCTPR_PARAM_ADD_OUTGOING_STREAMS: return add_streams(e, bytes, length);
    default: return SCTPR_RESULT_DENIED;
    }
}

/* Answers each request of a RE-CONFIG, one that comes again as before (RFC 6525 5.2.1), and takes the answer to ours. Without an answer a
 * request would be repeated for ever. */
static void on_reconfig(struct endpoint *e, const uint8_t *chunk, size_t length) {
    struct sctpr_param param;
    uint8_t answer[12];
    size_t written;
    for (size_t at = 4; at < length && sctpr_read_any_param(chunk + at, length - at, &param) == SCTPR_OK; at += param.next) {
        uint32_t number;
        if (param.type == SCTPR_PARAM_RECONFIG_RESPONSE) on_response(e, chunk + at, length - at);
        if (sctpr_read_request(chunk + at, length - at, &number) != SCTPR_OK) continue;
        int is_again = number == e->peer.next_request - 1 && e->peer.last_result != SCTPR_RESULT_IN_PROGRESS;
        struct sctpr_response response = { number, is_again ? e->peer.last_result : SCTPR_RESULT_BAD_SEQUENCE_NUMBER };
        if (number == e->peer.next_request || (number == e->peer.next_request - 1 && !is_again)) {
            response.result = on_request(e, param.type, chunk + at, length - at);
            e->peer.next_request = number + 1;
            e->peer.last_result = response.result;
        }
        e->counts.requests_denied += response.result == SCTPR_RESULT_DENIED;
        if (response.result == NO_ANSWER) continue;
        if (sctpr_write_response(&response, answer, sizeof answer, &written) == SCTPR_OK) put_chunk(e, SCTPR_RECONFIG, answer, written);
        e->counts.requests_answered++;
    }
}

/* A chunk that is looked at while the association is established or being shut down. */
static void on_transfer(struct endpoint *e, const uint8_t *chunk, size_t length) {
    if (e->state < ENDPOINT_ESTABLISHED || endpoint_is_over(e)) return;
    switch (chunk[0]) {
    case SCTPR_DATA: on_data(e, chunk, length); break;
    case SCTPR_SACK: on_sack(e, chunk, length); break;
    case SCTPR_FORWARD_TSN: on_forward_tsn(e, chunk, length); break;
    case SCTPR_HEARTBEAT: put_chunk(e, SCTPR_HEARTBEAT_ACK, chunk + 4, length - 4); break;
    case SCTPR_HEARTBEAT_ACK: on_heartbeat_ack(e, chunk, length); break;
    case SCTPR_SHUTDOWN: on_shutdown(e, chunk, length); break;
    case SCTPR_RECONFIG: on_reconfig(e, chunk, length); break;
    }
}

static void on_chunk(struct endpoint *e, const uint8_t *chunk, size_t length) {
    switch (chunk[0]) {
    case SCTPR_INIT: on_init(e, chunk, length); break;
    case SCTPR_INIT_ACK: on_init_ack(e, chunk, length); break;
    case SCTPR_COOKIE_ECHO: on_cookie_echo(e, chunk, length); break;
    case SCTPR_COOKIE_ACK: establish(e, ENDPOINT_COOKIE_ECHOED); break;
    case SCTPR_ABORT: on_abort(e, chunk, length); break;
    case SCTPR_SHUTDOWN_ACK: on_shutdown_ack(e); break;
    case SCTPR_SHUTDOWN_COMPLETE:
        if (e->state == ENDPOINT_SHUTDOWN_ACK_SENT) e->state = ENDPOINT_SHUT_DOWN;
        break;
    default: on_transfer(e, chunk, length); break;
    }
}

/* Whether a packet is one of this association (RFC 4960 8.5): an INIT stands alone under the tag 0, and an ABORT or SHUTDOWN-COMPLETE with
 * the T bit is under the tag of the side that it comes from. */
static int is_ours(const struct endpoint *e, const struct sctpr_head *head, const struct sctpr_any_chunk *first, size_t count) {
    if (head->destination_port != e->config.port || head->source_port != e->config.peer_port || count == 0) return 0;
    if (first->type == SCTPR_INIT) return count == 1 && head->verification_tag == 0;
    if ((first->type == SCTPR_ABORT || first->type == SCTPR_SHUTDOWN_COMPLETE) && first->flags & SCTPR_FLAG_T)
        return e->peer.tag != 0 && head->verification_tag == e->peer.tag;
    return head->verification_tag == e->config.tag;
}

static void send_shutdown(struct endpoint *e) {
    uint32_t tsn = sctpr_receiver_cumulative_tsn(&e->receiver);
    uint8_t value[4] = { (uint8_t)(tsn >> 24), (uint8_t)(tsn >> 16), (uint8_t)(tsn >> 8), (uint8_t)tsn };
    e->state = ENDPOINT_SHUTDOWN_SENT;
    put_chunk(e, SCTPR_SHUTDOWN, value, sizeof value);
    start_timer(e);
}

/* A SACK, as much of it as there is room for, goes for every second packet with DATA, where it is due, and where much more room is left
 * than the last one told. After our SHUTDOWN one goes for each packet with DATA, with another SHUTDOWN (RFC 4960 6.2, 9.2). */
static void send_sack_if_due(struct endpoint *e) {
    uint32_t window = sctpr_receiver_window(&e->receiver);
    size_t written = 0;
    int has_room = window > e->advertised && window - e->advertised >= e->config.window / 4;
    int is_answer = e->unacknowledged > 0 && e->state == ENDPOINT_SHUTDOWN_SENT;
    int is_due = e->unacknowledged > 1 || (e->unacknowledged == 1 && e->sack_due <= e->now);
    if (!is_due && !has_room && !is_answer) return;
    make_place(e, 64);
    if (sctpr_receiver_sack(&e->receiver, end_of(e), room_of(e), &written) != SCTPR_OK) return;
    e->length += written;
    e->advertised = window;
    e->unacknowledged = 0;
    if (is_answer) send_shutdown(e);
}

/* Whether a chunk before this one is of its type too: of SACKs and of FORWARD-TSNs a peer sends one in a packet (RFC 9260 6.2, RFC 3758 3.5),
 * and each costs a walk over what is held. Further ones count as lost. */
static int is_further(const struct sctpr_any_chunk *rows, size_t at) {
    if (rows[at].type != SCTPR_SACK && rows[at].type != SCTPR_FORWARD_TSN) return 0;
    for (size_t i = 0; i < at; i++)
        if (rows[i].type == rows[at].type) return 1;
    return 0;
}

void endpoint_receive(struct endpoint *e, const uint8_t *packet, size_t length, uint64_t now) {
    struct sctpr_head head;
    struct sctpr_any_chunk rows[CHUNK_ROWS];
    size_t count = 0;
    uint8_t has_data = 0;
    e->now = now;
    sctpr_code code = sctpr_read_any_packet(packet, length, &head, rows, CHUNK_ROWS, &count);
    e->counts.packets[code]++;
    if (code != SCTPR_OK) return;
    if (!is_ours(e, &head, rows, count)) {
        e->counts.wrong_tag++;
        return;
    }
    if (e->unacknowledged == 0) e->sack_due = now + SACK_DELAY;
    for (size_t i = 0; i < count && i < CHUNK_ROWS; i++) {
        const uint8_t *chunk = packet + rows[i].at;
        if (rows[i].is_known && !is_further(rows, i)) on_chunk(e, chunk, rows[i].length);
        if (rows[i].is_reported) put_cause(e, SCTPR_ERROR, SCTPR_CAUSE_UNRECOGNIZED_CHUNK_TYPE, chunk, rows[i].length);
        has_data |= rows[i].type == SCTPR_DATA;
    }
    e->unacknowledged += has_data;
    flush(e);
    endpoint_poll(e, now);
}

sctpr_code endpoint_write(struct endpoint *e, uint16_t stream, uint32_t payload_type, const uint8_t *message, size_t length) {
    uint64_t number;
    size_t fragments;
    if (e->state != ENDPOINT_ESTABLISHED) return SCTPR_INVALID;
    if (e->request.length > 0 && e->request.type == SCTPR_PARAM_OUTGOING_RESET && names(&e->request, stream)) return SCTPR_INVALID;
    return sctpr_sender_write(&e->sender, stream, payload_type, message, length, &number, &fragments);
}

/* Abandons what is past its lifetime, once for each time that is handed in, and what is marked and was sent as often as it may be (RFC 3758
 * 3.5, RFC 7496 3.1), where the peer follows a FORWARD-TSN. */
static void abandon(struct endpoint *e) {
    struct sctpr_abandoned rows[ROWS];
    struct sctpr_expired row;
    size_t tails = 0, late = 0, often = 0;
    if (!e->peer.has_forward_tsn) return;
    sctpr_sender_start(&e->sender, e->now);
    if (e->abandoned_at != e->now) {
        tails = sctpr_sender_expire_tail(&e->sender, e->now, rows) == SCTPR_OK;
        if (sctpr_sender_expire_late(&e->sender, e->now, rows, ROWS, &late) != SCTPR_OK) late = 0;
        while (sctpr_sender_expire(&e->sender, e->now, &row) == SCTPR_OK) e->counts.expired++;
    }
    if (e->has_marked && sctpr_sender_expire_rexmit(&e->sender, rows, ROWS, &often) != SCTPR_OK) often = 0;
    e->abandoned_at = e->now;
    e->counts.abandoned += tails + late + often;
    if (tails + late + often > 0) e->wants_forward_tsn = 1;
}

/* Sends the FORWARD-TSN, if there is one: after the cumulative TSN rose, after messages were abandoned, and when T3-rtx runs out. The rule
 * is to send one after each SACK (RFC 3758 3.5 C3); as each is answered by a SACK, that would be many. */
static void send_forward_tsn(struct endpoint *e) {
    size_t written = 0;
    make_place(e, 64);
    if (sctpr_sender_forward_tsn(&e->sender, end_of(e), room_of(e), &written) == SCTPR_OK) {
        e->length += written;
        e->counts.forward_tsns_sent++;
        if (e->timer == 0) start_timer(e);
    }
    e->wants_forward_tsn = 0;
}

/* Counts a DATA chunk that was put into the packet, or sends the packet where it has no room for it. Whether to go on. */
static int note_data(struct endpoint *e, sctpr_code code, size_t written) {
    if (code == SCTPR_SHORT_BUFFER && e->length > PACKET_HEADER) {
        flush(e);
        return 1;
    }
    if (code != SCTPR_OK) return 0;
    e->length += written;
    e->has_data = 1;
    if (e->timer == 0) start_timer(e);
    return 1;
}

/* Sends all that is marked. There is no congestion control that would spread it. */
static void send_marked(struct endpoint *e) {
    struct sctpr_in_flight row;
    size_t written = 0;
    while (e->has_marked && sctpr_sender_next_to_retransmit(&e->sender, &row) == SCTPR_OK) {
        sctpr_code code = sctpr_sender_resend(&e->sender, row.tsn, e->now, end_of(e), room_of(e), &written);
        if (!note_data(e, code, written)) return;
        e->counts.data_sent_again += code == SCTPR_OK;
    }
    e->has_marked = 0;
}

/* Whether a new chunk may go: within what the peer has room for and what may be in flight; one always may (RFC 4960 6.1 A, B). */
static int may_send(struct endpoint *e) {
    size_t in_flight = sctpr_sender_bytes_in_flight(&e->sender);
    size_t most = e->credit < e->config.max_in_flight ? e->credit : e->config.max_in_flight;
    if (sctpr_sender_chunks_in_flight(&e->sender) >= MAX_CHUNKS_IN_FLIGHT) return 0;
    return in_flight == 0 || in_flight + e->config.mtu <= most;
}

static void send_new(struct endpoint *e) {
    size_t written = 0;
    uint32_t tsn;
    while (may_send(e)) {
        sctpr_code code = sctpr_sender_send_next(&e->sender, e->now, end_of(e), room_of(e), &written, &tsn);
        if (!note_data(e, code, written)) return;
        e->counts.data_sent += code == SCTPR_OK;
    }
}

/* A heartbeat has the time as its information. One that was not answered counts as an error (RFC 4960 8.3). */
static void send_heartbeat(struct endpoint *e) {
    const uint8_t *info = (const uint8_t *)&e->now;
    uint8_t param[16];
    size_t written = 0;
    e->errors += e->awaits_heartbeat_ack;
    e->heartbeat_due = e->now + e->config.heartbeat_interval;
    if (sctpr_write_param(SCTPR_PARAM_HEARTBEAT_INFO, info, sizeof e->now, param, sizeof param, &written) != SCTPR_OK) return;
    put_chunk(e, SCTPR_HEARTBEAT, param, written);
    e->heartbeat_sent_at = e->now;
    e->awaits_heartbeat_ack = 1;
    e->counts.heartbeats_sent++;
}

/* T1-init, T1-cookie, T2-shutdown or T3-rtx ran out (RFC 4960 5.1, 9.2, 6.3.3). */
static void on_timeout(struct endpoint *e) {
    e->errors++;
    e->counts.timeouts++;
    e->rto = 2 * e->rto < e->config.rto_max ? 2 * e->rto : e->config.rto_max;
    start_timer(e);
    switch (e->state) {
    case ENDPOINT_COOKIE_WAIT: send_init(e, 0, 0, NULL, 0); break;
    case ENDPOINT_COOKIE_ECHOED: put_chunk(e, SCTPR_COOKIE_ECHO, e->cookie, e->cookie_length); break;
    case ENDPOINT_SHUTDOWN_SENT: send_shutdown(e); break;
    case ENDPOINT_SHUTDOWN_ACK_SENT: send_shutdown_ack(e); break;
    default:
        sctpr_sender_retransmit_all(&e->sender);
        e->has_marked = e->wants_forward_tsn = 1;
    }
}

/* Goes on with a shutdown, once nothing waits or is in flight (RFC 4960 9.2). */
static void shut_down_if_drained(struct endpoint *e) {
    if (sctpr_sender_pending(&e->sender) > 0 || sctpr_sender_chunks_in_flight(&e->sender) > 0) return;
    if (e->state == ENDPOINT_SHUTDOWN_PENDING) send_shutdown(e);
    if (e->state == ENDPOINT_SHUTDOWN_RECEIVED) send_shutdown_ack(e);
}

void endpoint_poll(struct endpoint *e, uint64_t now) {
    e->now = now;
    if (endpoint_is_over(e)) return;
    if (e->timer != 0 && e->timer <= now) on_timeout(e);
    if (e->errors > e->config.max_retransmissions) endpoint_abort(e);
    if (endpoint_is_over(e)) return;
    if (e->has_halves) send_sack_if_due(e);
    if (ENDPOINT_ESTABLISHED <= e->state && e->state <= ENDPOINT_SHUTDOWN_RECEIVED) {
        if (e->heartbeat_due <= now) send_heartbeat(e);
        poll_requests(e);
        abandon(e);
        if (e->wants_forward_tsn) send_forward_tsn(e);
        send_marked(e);
        send_new(e);
        shut_down_if_drained(e);
    }
    flush(e);
}

void endpoint_shutdown(struct endpoint *e, uint64_t now) {
    if (e->state != ENDPOINT_ESTABLISHED) return;
    e->state = ENDPOINT_SHUTDOWN_PENDING;
    endpoint_poll(e, now);
}

void endpoint_abort(struct endpoint *e) {
    if (!endpoint_is_over(e)) abort_for(e, SCTPR_CAUSE_USER_INITIATED_ABORT);
}

int endpoint_is_over(const struct endpoint *e) { return e->state == ENDPOINT_SHUT_DOWN || e->state == ENDPOINT_ABORTED; }
