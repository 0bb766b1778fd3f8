/* Faults of usrsctp 0.9.5.0, told apart from ours by the chunks alone: those that usrsctp was handed, and those that it sent. What is told here
 * is never a fault of ours, since our chunks leave no other reading; what is not told here counts as ours. It reads packets by itself, not by
 * the library that is tested. known_test.c has histories of each, and of faults of ours that look like one.
 *
 * A chunk is taken where usrsctp was handed its whole packet with a right checksum. All conditions are of chunks of ours that were taken, and
 * of chunks that usrsctp sent, in their order. */
#ifndef KNOWN_H
#define KNOWN_H

#include <stddef.h>
#include <stdint.h>

enum known {
    /* It aborts with "Illegal message sequence, missing end for MID: X": the message whose last fragment came under the TSN X had no end,
     * as under X + 1 another one begins.
     * Told where X + 1 is a complete unordered chunk, of the same stream a fragment of a later unordered message was taken, and X ends no
     * unfinished message: X is before our first TSN, or was skipped by a FORWARD-TSN, or was not taken, or its chunk has the E bit, or is ordered, or
     * of another stream. */
    KNOWN_MISSING_END,
    /* It aborts with "Queue to str MID: N duplicate" or "Delivered SSN=D, got TSN=T, SID=I, SSN=N", since it takes an unordered message for
     * the ordered one N: one that came while a reset waited for TSNs before it, whose stream sequence number means nothing (RFC 9260 3.3.1).
     * Deferred chunks are those that are unordered and have a TSN past the last one of a reset of ours (an Outgoing SSN Reset Request), and
     * were first taken after it was answered "in progress" and before usrsctp sent a cumulative TSN that is not before its last one.
     * Told of the first text where of one stream two chunks were deferred, and one of them is complete and has the number N; of the second
     * where on the stream I a complete one with the number N was deferred, and the chunk T is of that stream and number, and is unordered, or
     * no other ordered message has them. */
    KNOWN_DUPLICATE,
    /* It goes on answering a reset of ours "in progress", though it has all TSNs up to the last one of the request (RFC 6525 5.2.2).
     * Told where the request was taken again, with the same number and last TSN, after usrsctp had sent a cumulative TSN that is not before the last one of the
     * request, and was then answered "in progress". Counted once for each request. */
    KNOWN_IN_PROGRESS,
    /* It never acknowledges a legal chunk that ends a message, and its window stays closed: the window counts what it handed out of a message
     * before a FORWARD-TSN skipped that.
     * Told where the chunk has the E bit and the TSN past usrsctp's cumulative one, was taken at least KNOWN_TIMES times, each time a SACK
     * followed that does not report it, and its message has its other fragments, and is within the window of usrsctp's INIT or INIT-ACK. Its
     * user has to read all that there is, as those here do. Counted once for each chunk, and no more once it is reported. */
    KNOWN_UNACKNOWLEDGED,
    /* It sends fragments of two messages mixed, after it asked for more streams (RFC 9260 6.9).
     * Told where it has sent an Add Outgoing Streams Request, and sends under two TSNs one past the other, for the first time, a chunk without
     * the E bit and one that does not go on with its message, and never abandons messages of the first one's stream. */
    KNOWN_INTERLEAVED,
    KNOWN_KINDS
};
enum { KNOWN_TIMES = 8 };

extern const char *const known_names[KNOWN_KINDS];
/* How often each was told since known_begin. */
extern unsigned long known[KNOWN_KINDS];
/* Whether usrsctp's ABORT is one of these, where it sent one. */
extern int known_is_abort;

/* Begins with an association of which our first TSN is known; `may_abandon` says of a stream whether usrsctp may abandon messages on it. */
void known_begin(uint32_t first_tsn, int (*may_abandon)(uint16_t stream));
/* A packet that usrsctp is handed. */
void known_taken(const uint8_t *packet, size_t length);
/* A packet that usrsctp sends. */
void known_sent(const uint8_t *packet, size_t length);
/* The CRC-32C of a packet, which stands in its checksum, the lowest byte first. */
uint32_t known_sum(const uint8_t *packet, size_t length);
/* Prints the counts that are not 0 behind a line, as ", usrsctp's own: 2 in progress". */
void known_print(void);

#endif
