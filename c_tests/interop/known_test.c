/* Tests of known.c: of each fault of usrsctp a history in which it is told, and histories of faults of ours that look like it, in which it
 * is not. The last line is 'known: N passed, M failed'. */
#include "known.h"
#include <stdio.h>
#include <string.h>

enum { ENDS = 1, BEGINS = 2, UNORDERED = 4, WHOLE = 3, FIRST = 1000 };
static unsigned passed, failed;
static const char *name;

static void put(uint8_t *at, uint32_t value, int bytes) {
    for (int i = 0; i < bytes; i++) at[i] = (uint8_t)(value >> 8 * (bytes - 1 - i));
}

/* Hands a chunk over in a packet of its own, under its checksum (RFC 9260 Appendix A), or under another one. */
static void hand_spoiled(void (*take)(const uint8_t *, size_t), const uint8_t *chunk, size_t length, uint32_t spoiled) {
    uint8_t packet[512] = { 0 };
    uint32_t sum = 0xffffffff;
    put(packet, 5001 << 16 | 5000, 4);
    memcpy(packet + 12, chunk, length);
    length = 12 + (length + 3) / 4 * 4;
    for (size_t i = 0; i < length; i++) {
        sum ^= packet[i];
        for (int k = 0; k < 8; k++) sum = sum >> 1 ^ (sum & 1 ? 0x82f63b78 : 0);
    }
    sum = ~sum ^ spoiled;
    for (int i = 0; i < 4; i++) packet[8 + i] = (uint8_t)(sum >> 8 * i);
    take(packet, length);
}
static void hand(void (*take)(const uint8_t *, size_t), const uint8_t *chunk, size_t length) { hand_spoiled(take, chunk, length, 0); }

static void data(void (*take)(const uint8_t *, size_t), uint32_t tsn, int flags, uint16_t stream, uint16_t number, uint32_t spoiled) {
    uint8_t chunk[116] = { 0, (uint8_t)flags, 0, 116 };
    put(chunk + 4, tsn, 4);
    put(chunk + 8, stream, 2);
    put(chunk + 10, number, 2);
    hand_spoiled(take, chunk, sizeof chunk, spoiled);
}
static void takes(uint32_t tsn, int flags, uint16_t stream, uint16_t number) { data(known_taken, tsn, flags, stream, number, 0); }
static void sends(uint32_t tsn, int flags, uint16_t stream, uint16_t number) { data(known_sent, tsn, flags, stream, number, 0); }

static void takes_forward_tsn(uint32_t tsn) {
    uint8_t chunk[8] = { 192, 0, 0, 8 };
    put(chunk + 4, tsn, 4);
    hand(known_taken, chunk, sizeof chunk);
}

static void takes_reset(uint32_t number, uint32_t last) {
    uint8_t chunk[22] = { 130, 0, 0, 22, 0, 13, 0, 18 };
    put(chunk + 8, number, 4);
    put(chunk + 16, last, 4);
    hand(known_taken, chunk, sizeof chunk);
}

/* A SACK with a cumulative TSN, and up to how many TSNs past it are reported, from the second one on. */
static void sends_sack(uint32_t tsn, uint32_t to) {
    uint8_t chunk[20] = { 3, 0, 0, 20 };
    put(chunk + 4, tsn, 4);
    put(chunk + 12, to > 0, 2);
    put(chunk + 16, 2 << 16 | to, 4);
    chunk[3] = to > 0 ? 20 : 16;
    hand(known_sent, chunk, chunk[3]);
}

static void sends_result(uint32_t number, uint32_t result) {
    uint8_t chunk[16] = { 130, 0, 0, 16, 0, 16, 0, 12 };
    put(chunk + 8, number, 4);
    put(chunk + 12, result, 4);
    hand(known_sent, chunk, sizeof chunk);
}

static void asks_for_streams(void) {
    static const uint8_t chunk[16] = { 130, 0, 0, 16, 0, 17, 0, 12, 0, 0, 0, 1, 0, 2, 0, 0 };
    hand(known_sent, chunk, sizeof chunk);
}

static void aborts_with(uint8_t cause, const char *text) {
    uint8_t chunk[128] = { 6, 0, 0, 0, 0, cause };
    size_t length = strlen(text);
    memcpy(chunk + 8, text, length);
    put(chunk + 2, (uint32_t)length + 8, 2);
    put(chunk + 6, (uint32_t)length + 4, 2);
    hand(known_sent, chunk, length + 8);
}
static void aborts(const char *text) { aborts_with(13, text); }

static int abandons(uint16_t stream) { return stream == 9; }

/* Begins a history: usrsctp's window has 1,000 bytes. */
static void begin(const char *of, uint32_t first) {
    static const uint8_t init_ack[20] = { 2, 0, 0, 20, 0, 0, 0, 1, 0, 0, 3, 232, 0, 1, 0, 1, 0, 0, 0, 1 };
    name = of;
    known_begin(first, abandons);
    hand(known_sent, init_ack, sizeof init_ack);
}

/* Ends a history: so many of a kind were told, and none of another; an ABORT is known with them alone. */
static void tells(enum known kind, unsigned long count) {
    int is_so = kind > KNOWN_DUPLICATE || known_is_abort == (count > 0);
    for (int i = 0; i < KNOWN_KINDS; i++) is_so = is_so && known[i] == (i == (int)kind ? count : 0);
    if (is_so) passed++;
    else failed++;
    if (!is_so) printf("not so: %s\n", name);
}

/* ---- Its aborts ------------------------------------------------------------------------------------------------------------ */

static void missing_end(void) {
    static const char text[] = "Illegal message sequence, missing end for MID: 000003e9";
    begin("behind a FORWARD-TSN to 1001", FIRST);
    takes(FIRST, WHOLE | UNORDERED, 1, 0);
    takes(FIRST + 4, UNORDERED, 1, 0);
    takes_forward_tsn(FIRST + 1);
    takes(FIRST + 2, WHOLE | UNORDERED, 1, 0);
    aborts(text);
    tells(KNOWN_MISSING_END, 1);
    begin("the TSN 0, with a chunk of another stream before it", 0xffffffff);
    takes(0xffffffff, BEGINS | UNORDERED, 2, 0);
    takes(1, UNORDERED, 1, 0);
    takes(0, WHOLE | UNORDERED, 1, 0);
    aborts("Illegal message sequence, missing end for MID: ffffffff");
    tells(KNOWN_MISSING_END, 1);
    begin("ours: 1001 is a fragment without an end", FIRST);
    takes(FIRST + 1, BEGINS | UNORDERED, 1, 0);
    takes(FIRST + 4, UNORDERED, 1, 0);
    takes(FIRST + 2, WHOLE | UNORDERED, 1, 0);
    aborts(text);
    tells(KNOWN_MISSING_END, 0);
    begin("ours: no message is complete", FIRST);
    takes(FIRST + 4, UNORDERED, 1, 0);
    takes_forward_tsn(FIRST + 1);
    takes(FIRST + 2, ENDS | UNORDERED, 1, 0);
    aborts(text);
    tells(KNOWN_MISSING_END, 0);
    begin("ours: no fragment waits", FIRST);
    takes(FIRST + 4, UNORDERED, 2, 0);
    takes_forward_tsn(FIRST + 1);
    takes(FIRST + 2, WHOLE | UNORDERED, 1, 0);
    aborts(text);
    tells(KNOWN_MISSING_END, 0);
    begin("ours: another text", FIRST);
    takes(FIRST + 4, UNORDERED, 1, 0);
    takes_forward_tsn(FIRST + 1);
    takes(FIRST + 2, WHOLE | UNORDERED, 1, 0);
    aborts("All fragments of a user message must be ordered or unordered (TSN=000003ea)");
    tells(KNOWN_MISSING_END, 0);
}

/* A reset waits for 1000, and three chunks come past it. */
static void deferred(const char *of, uint32_t result, int flags, uint32_t first) {
    begin(of, FIRST);
    takes_reset(1, FIRST);
    sends_result(1, result);
    for (uint32_t i = 0; i < 3; i++) takes(first + i, flags, 3, 0);
    takes(FIRST, WHOLE, 2, 0);
}

static void duplicate(void) {
    static const char queue[] = "Queue to str MID: 0 duplicate", delivered[] = "Delivered SSN=0001, got TSN=000003eb, SID=0003, SSN=0000";
    deferred("three unordered messages wait for a reset", 6, WHOLE | UNORDERED, FIRST + 1);
    aborts(queue);
    tells(KNOWN_DUPLICATE, 1);
    deferred("one is judged by its number", 6, WHOLE | UNORDERED, FIRST + 1);
    aborts(delivered);
    tells(KNOWN_DUPLICATE, 1);
    deferred("an ordered one comes, whose number one took", 6, WHOLE | UNORDERED, FIRST + 1);
    takes(FIRST + 4, WHOLE, 3, 0);
    aborts("Delivered SSN=0000, got TSN=000003ec, SID=0003, SSN=0000");
    tells(KNOWN_DUPLICATE, 1);
    deferred("ours: a number is used twice", 6, WHOLE | UNORDERED, FIRST + 1);
    takes(FIRST + 4, WHOLE, 3, 0);
    takes(FIRST + 5, WHOLE, 3, 0);
    aborts("Delivered SSN=0000, got TSN=000003ed, SID=0003, SSN=0000");
    tells(KNOWN_DUPLICATE, 0);
    deferred("ours: ordered messages with one number", 6, WHOLE, FIRST + 1);
    aborts(queue);
    tells(KNOWN_DUPLICATE, 0);
    deferred("ours: the reset does not wait", 1, WHOLE | UNORDERED, FIRST + 1);
    aborts(queue);
    tells(KNOWN_DUPLICATE, 0);
    deferred("ours: fragments alone", 6, UNORDERED, FIRST + 1);
    aborts(queue);
    tells(KNOWN_DUPLICATE, 0);
    deferred("ours: another number", 6, WHOLE | UNORDERED, FIRST + 1);
    aborts("Queue to str MID: 1 duplicate");
    tells(KNOWN_DUPLICATE, 0);
    deferred("ours: another cause", 6, WHOLE | UNORDERED, FIRST + 1);
    aborts_with(12, queue);
    tells(KNOWN_DUPLICATE, 0);
    deferred("ours: a stream on which none waited", 6, WHOLE | UNORDERED, FIRST + 1);
    takes(FIRST + 4, WHOLE, 4, 0);
    aborts("Delivered SSN=0000, got TSN=000003ec, SID=0004, SSN=0000");
    tells(KNOWN_DUPLICATE, 0);
    begin("ours: one unordered message waits", FIRST);
    takes_reset(1, FIRST);
    sends_result(1, 6);
    takes(FIRST + 1, WHOLE | UNORDERED, 3, 0);
    takes(FIRST + 2, WHOLE, 3, 0);
    aborts(queue);
    tells(KNOWN_DUPLICATE, 0);
    begin("ours: no reset", FIRST);
    for (uint32_t i = 0; i < 3; i++) takes(FIRST + 1 + i, WHOLE | UNORDERED, 3, 0);
    aborts(queue);
    tells(KNOWN_DUPLICATE, 0);
    begin("ours: all came before the last TSN of the request", FIRST);
    takes_reset(1, FIRST + 9);
    sends_result(1, 6);
    for (uint32_t i = 0; i < 3; i++) takes(FIRST + 1 + i, WHOLE | UNORDERED, 3, 0);
    aborts(queue);
    tells(KNOWN_DUPLICATE, 0);
}

/* ---- What it sends --------------------------------------------------------------------------------------------------------- */

static void in_progress(void) {
    begin("a request is taken again behind its SACK", FIRST);
    takes_reset(1, FIRST);
    sends_result(1, 6);
    takes_forward_tsn(FIRST);
    sends_sack(FIRST, 0);
    for (int i = 0; i < 3; i++) {
        takes_reset(1, FIRST);
        sends_result(1, 6);
    }
    tells(KNOWN_IN_PROGRESS, 1);
    begin("ours: the last TSN is missing", FIRST);
    for (int i = 0; i < 3; i++) {
        takes_reset(1, FIRST);
        sends_result(1, 6);
        sends_sack(FIRST - 1, 3);
    }
    tells(KNOWN_IN_PROGRESS, 0);
    begin("ours: the request is not sent again", FIRST);
    takes_reset(1, FIRST);
    sends_sack(FIRST, 0);
    sends_result(1, 6);
    tells(KNOWN_IN_PROGRESS, 0);
    begin("ours: under its number another last TSN is sent", FIRST);
    takes_reset(1, FIRST);
    sends_result(1, 6);
    sends_sack(FIRST + 1, 0);
    takes_reset(1, FIRST + 1);
    sends_result(1, 6);
    tells(KNOWN_IN_PROGRESS, 0);
    begin("it performs it", FIRST);
    takes_reset(1, FIRST);
    sends_result(1, 6);
    sends_sack(FIRST, 0);
    takes_reset(1, FIRST);
    sends_result(1, 1);
    tells(KNOWN_IN_PROGRESS, 0);
}

/* A message of so many fragments comes; usrsctp acknowledges all up to a TSN, while the chunk past that comes so often. */
static void unanswered(const char *of, uint32_t fragments, int last_flags, uint32_t acked, uint32_t repeated, int times, uint32_t spoiled) {
    begin(of, FIRST);
    for (uint32_t i = 0; i + 1 < fragments; i++) takes(FIRST + i, i == 0 ? BEGINS : 0, 1, 0);
    for (int i = 0; i < times; i++) {
        data(known_taken, repeated, last_flags, 1, 0, spoiled);
        sends_sack(acked, 0);
    }
}

static void unacknowledged(void) {
    unanswered("an end fragment comes eight times", 3, ENDS, FIRST + 1, FIRST + 2, 8, 0);
    tells(KNOWN_UNACKNOWLEDGED, 1);
    takes(FIRST + 2, ENDS, 1, 0);
    sends_sack(FIRST + 2, 0);
    name = "it is reported at last";
    tells(KNOWN_UNACKNOWLEDGED, 0);
    unanswered("seven times", 3, ENDS, FIRST + 1, FIRST + 2, 7, 0);
    tells(KNOWN_UNACKNOWLEDGED, 0);
    unanswered("ours: a fragment before it is not sent again", 3, ENDS, FIRST, FIRST + 2, 8, 0);
    tells(KNOWN_UNACKNOWLEDGED, 0);
    unanswered("ours: it does not end the message", 3, 0, FIRST + 1, FIRST + 2, 8, 0);
    tells(KNOWN_UNACKNOWLEDGED, 0);
    unanswered("ours: the message is longer than the window", 11, ENDS, FIRST + 9, FIRST + 10, 8, 0);
    tells(KNOWN_UNACKNOWLEDGED, 0);
    unanswered("ours: its checksum is wrong", 3, ENDS, FIRST + 1, FIRST + 2, 8, 1);
    tells(KNOWN_UNACKNOWLEDGED, 0);
    begin("ours: it is sent once, and many SACKs come", FIRST);
    takes(FIRST, WHOLE, 1, 0);
    for (int i = 0; i < 20; i++) sends_sack(FIRST - 1, 0);
    tells(KNOWN_UNACKNOWLEDGED, 0);
}

static void interleaved(void) {
    begin("a message begins within another one", FIRST);
    sends(7, BEGINS, 1, 0);
    asks_for_streams();
    sends(8, BEGINS, 2, 0);
    sends(8, BEGINS, 2, 0);
    tells(KNOWN_INTERLEAVED, 1);
    begin("a message begins twice", FIRST);
    sends(7, BEGINS, 1, 0);
    asks_for_streams();
    sends(8, BEGINS, 1, 0);
    tells(KNOWN_INTERLEAVED, 1);
    begin("a fragment of another stream", FIRST);
    sends(7, BEGINS, 1, 0);
    asks_for_streams();
    sends(8, 0, 2, 0);
    tells(KNOWN_INTERLEAVED, 1);
    begin("not after a request for streams", FIRST);
    sends(7, BEGINS, 1, 0);
    sends(8, BEGINS, 2, 0);
    tells(KNOWN_INTERLEAVED, 0);
    begin("the message may be abandoned", FIRST);
    sends(7, BEGINS, 9, 0);
    asks_for_streams();
    sends(8, BEGINS, 2, 0);
    tells(KNOWN_INTERLEAVED, 0);
    begin("the message goes on, and the next one begins; chunks are sent again", FIRST);
    sends(7, BEGINS, 1, 0);
    asks_for_streams();
    sends(8, ENDS, 1, 0);
    sends(9, BEGINS, 2, 0);
    sends(7, BEGINS, 1, 0);
    sends(9, BEGINS, 2, 0);
    sends(10, ENDS, 2, 0);
    tells(KNOWN_INTERLEAVED, 0);
}

int main(void) {
    missing_end();
    duplicate();
    in_progress();
    unacknowledged();
    interleaved();
    printf("known: %u passed, %u failed\n", passed, failed);
    return failed != 0;
}
