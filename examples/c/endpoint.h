/* A small SCTP endpoint over sctpr.h: an example, not a stack; README.md says what it lacks. It has one association over one path. It has
 * no clock and no socket: its user hands in the datagrams that came and the time, in nanoseconds from any one moment after 0, and sends
 * what `output` is handed. */
#ifndef ENDPOINT_H
#define ENDPOINT_H

#include "sctpr.h"

/* The states of an association (RFC 4960 4), and the two in which it is over: shut down by both sides, or aborted by either, also where
 * the peer answers no more. */
enum endpoint_state {
    ENDPOINT_CLOSED, ENDPOINT_COOKIE_WAIT, ENDPOINT_COOKIE_ECHOED, ENDPOINT_ESTABLISHED,
    ENDPOINT_SHUTDOWN_PENDING, ENDPOINT_SHUTDOWN_RECEIVED, ENDPOINT_SHUTDOWN_SENT, ENDPOINT_SHUTDOWN_ACK_SENT,
    ENDPOINT_SHUT_DOWN, ENDPOINT_ABORTED
};

/* The greatest length of a packet, of a cookie that is sent back, and of an ABORT that is kept, in bytes. */
enum { ENDPOINT_PACKET_ROOM = 1500, ENDPOINT_COOKIE_ROOM = 1024, ENDPOINT_ABORT_ROOM = 256 };

/* How many streams a request of a RE-CONFIG may name, and how many the peer may add in all. */
enum { ENDPOINT_REQUEST_STREAMS = 64, ENDPOINT_ADDED_STREAMS = 64 };

struct endpoint_config {
    /* `streams` of each direction, from 0 on. */
    uint16_t port, peer_port, streams;
    /* The tag is not 0; both are to be random (RFC 4960 5.3.1). */
    uint32_t tag, first_tsn;
    uint32_t max_message_size;
    /* How many bytes are held at most that were not read, and how many are in flight at most. */
    uint32_t window, max_in_flight;
    /* The length of a packet at most, up to ENDPOINT_PACKET_ROOM; a chunk has 28 bytes of user data fewer. */
    uint32_t mtu;
    /* RFC 4960 15: RTO.Initial, RTO.Min, RTO.Max and HB.interval in nanoseconds, and Association.Max.Retrans. */
    uint64_t rto_initial, rto_min, rto_max, heartbeat_interval;
    uint32_t max_retransmissions;
    /* Sends a datagram to the peer. The bytes are lent for the time of the call, in which no call of the endpoint is made. */
    void (*output)(void *context, const uint8_t *packet, size_t length);
    void *context;
};

/* What the peer said of itself in its INIT or INIT-ACK; the number of its next request of a RE-CONFIG, and the answer to the last one. */
struct endpoint_peer {
    uint32_t tag, first_tsn, credit, next_request, last_result;
    uint16_t streams;
    uint8_t has_forward_tsn, unused;
};

/* Streams of a request: our own one, of which one waits for its answer at a time (RFC 6525 5.1), or one that the peer wants of us (5.2.3).
 * `length` is that of its parameter, 0 where there is none; `added` is how many streams it adds; `due` is when it is sent again. */
struct endpoint_request {
    uint8_t param[16 + 2 * ENDPOINT_REQUEST_STREAMS];
    size_t length;
    uint64_t due;
    uint32_t number;
    uint16_t type, added, count, streams[ENDPOINT_REQUEST_STREAMS];
};

/* How often what happened. `packets` counts packets that came, `chunks` the DATA, SACK and FORWARD-TSN chunks, by the code with which they
 * were taken or refused. */
struct endpoint_counts {
    uint64_t packets[SCTPR_NOT_AS_GIVEN + 1], chunks[SCTPR_NOT_AS_GIVEN + 1], wrong_tag;
    uint64_t packets_sent, data_sent, data_sent_again, timeouts, fast_retransmissions;
    uint64_t abandoned, expired, taken_back, forward_tsns_sent, heartbeats_sent, heartbeats_answered;
    uint64_t requests_answered, requests_denied, requests_sent;
};

struct endpoint {
    struct endpoint_config config;
    struct endpoint_counts counts;
    enum endpoint_state state;
    struct endpoint_peer peer;
    /* The two halves, where has_halves is 1: from ENDPOINT_ESTABLISHED on, also when the association is over. */
    sctpr_sender sender;
    sctpr_receiver receiver;
    uint8_t has_halves;
    /* Streams that are open of each direction; our request, the number of the next one, and the result of the last one; the reset that the
     * peer asked for, once nothing of its streams waits or is in flight: its `length` is 1. */
    uint32_t outgoing, incoming, next_request, request_result;
    struct endpoint_request request, wanted;
    /* `timer` is when T1-init, T1-cookie, T2-shutdown or T3-rtx runs out, of which one runs at a time; 0: none does. */
    uint64_t now, timer, rto, smoothed_rtt, rtt_variation, heartbeat_due, heartbeat_sent_at;
    uint8_t awaits_heartbeat_ack;
    /* Timeouts since the peer answered last (RFC 4960 8.1); the credit of the peer's last SACK, and of ours. */
    uint32_t errors, credit, advertised;
    /* Packets with DATA since our last SACK, and when it is due. */
    uint32_t unacknowledged;
    uint64_t sack_due;
    /* Whether chunks may be marked for retransmission, and when messages past their lifetimes were last looked for: both take a walk over
     * all that is in flight. */
    uint8_t wants_forward_tsn, has_marked;
    uint64_t abandoned_at;
    /* The peer's cookie, and the ABORT that came. */
    uint8_t cookie[ENDPOINT_COOKIE_ROOM], abort_chunk[ENDPOINT_ABORT_ROOM];
    size_t cookie_length, abort_length;
    /* The packet that is being written: its bytes so far, and whether the last of its chunks is DATA. */
    uint8_t packet[ENDPOINT_PACKET_ROOM], has_data;
    size_t length;
};

/* A closed endpoint, which answers an INIT of the peer. */
void endpoint_init(struct endpoint *e, const struct endpoint_config *config);
/* Frees the halves. */
void endpoint_free(struct endpoint *e);
/* Sends an INIT. Both sides may do so (RFC 4960 5.2.1). */
void endpoint_connect(struct endpoint *e, uint64_t now);
/* Takes a datagram that came, whatever it is, and does what endpoint_poll does. Messages are then read from `receiver`. */
void endpoint_receive(struct endpoint *e, const uint8_t *packet, size_t length, uint64_t now);
/* Takes a message to be sent, as sctpr_sender_write does, in the mode that was set on `sender`. SCTPR_INVALID: not established, or the
 * stream is being reset. */
sctpr_code endpoint_write(struct endpoint *e, uint16_t stream, uint32_t payload_type, const uint8_t *message, size_t length);
/* Looks at the timers, and sends what may be sent. To be called after writes, after reads, and every few milliseconds. */
void endpoint_poll(struct endpoint *e, uint64_t now);
/* Ask the peer to follow a reset of outgoing streams, to reset streams of its own, and to take so many outgoing streams more (RFC 6525
 * 5.1.2, 5.1.3, 5.1.5). Once `request.length` is 0 again, `request_result` is the answer. SCTPR_STREAM_BUSY: something of a stream waits or
 * is in flight; SCTPR_INVALID: not established, another request waits, or there are too many streams. */
sctpr_code endpoint_reset(struct endpoint *e, const uint16_t *streams, uint16_t count);
sctpr_code endpoint_reset_incoming(struct endpoint *e, const uint16_t *streams, uint16_t count);
sctpr_code endpoint_add_streams(struct endpoint *e, uint16_t count);
/* Sends what was written, and then shuts the association down (RFC 4960 9.2). */
void endpoint_shutdown(struct endpoint *e, uint64_t now);
/* Ends the association at once (RFC 4960 9.1). */
void endpoint_abort(struct endpoint *e);
/* Whether the association is over. */
int endpoint_is_over(const struct endpoint *e);

#endif
