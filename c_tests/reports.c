/* A peer whose gap ack blocks report what did not come, and take it back (RFC 9260 6.2.1 D iv), to a sender that keeps what is reported.
 *
 *     reports [first seed] [last seed]
 *
 * Once the SACKs are those of a receiver again, and the network loses nothing, all is sent again that is missing, and each message is read
 * once, as it was written, ordered ones in order. */
#include "check.h"
#include "peer.h"
#include <stdlib.h>

enum { STREAMS = 4, FRAGMENT = 50, LONGEST = 400, MESSAGES = 300, STEPS = 250, ROWS = 4096, SACK_ROOM = 1400, ROUNDS = 20 };

static struct session {
    uint64_t seed, now;
    sctpr_sender sender;
    sctpr_receiver receiver;
    uint32_t messages, length[MESSAGES], last_ordered[STREAMS];
    uint16_t stream[MESSAGES];
    uint8_t is_read[MESSAGES];
    uint8_t old_sack[SACK_ROOM];
    size_t old_length;
} s;

static unsigned long faults, taken_back, sent_again, rounds, read_in_all;

#define HOLDS(what) \
    do { \
        if (!(what) && ++faults <= 20) printf("%s:%d: seed %lu, not so: %s\n", __FILE__, __LINE__, (unsigned long)s.seed, #what); \
    } while (0)

/* Odd streams are unordered. */
static void begin(uint64_t seed) {
    memset(&s, 0, sizeof s);
    s.seed = seed;
    draw_from(seed);
    uint32_t first = any(2) ? 0xffffffffu - any(300) : any(UINT32_MAX);
    HOLDS(sctpr_sender_new(first, FRAGMENT, LONGEST, 1, &s.sender) == SCTPR_OK);
    HOLDS(sctpr_receiver_new(first, LONGEST, 1 << 22, 65535, &s.receiver) == SCTPR_OK);
    for (uint16_t i = 0; i < STREAMS; i++) {
        HOLDS(sctpr_sender_open(&s.sender, i) == SCTPR_OK && sctpr_receiver_open(&s.receiver, i) == SCTPR_OK);
        HOLDS(sctpr_sender_set_mode(&s.sender, i, i % 2, SCTPR_RELIABLE, 0) == SCTPR_OK);
    }
}

/* ---- The sender's side ----------------------------------------------------------------------------------------------------- */

static void write_message(void) {
    uint8_t bytes[LONGEST];
    uint64_t number;
    size_t fragments;
    if (s.messages == MESSAGES) return;
    uint32_t length = 4 + any(any(2) ? 40 : LONGEST - 3);
    uint16_t stream = (uint16_t)any(STREAMS);
    put32(bytes, s.messages);
    for (uint32_t i = 4; i < length; i++) bytes[i] = (uint8_t)(31 * s.messages + i);
    HOLDS(sctpr_sender_write(&s.sender, stream, SCTPR_PPID_BINARY, bytes, length, &number, &fragments) == SCTPR_OK);
    s.length[s.messages] = length;
    s.stream[s.messages++] = stream;
}

static void deliver(const uint8_t *chunk, size_t length, int is_lost) {
    uint8_t complete;
    if (is_lost) return;
    sctpr_code code = sctpr_receiver_data(&s.receiver, chunk, length, &complete);
    HOLDS(code == SCTPR_OK || code == SCTPR_REPEAT);
}

static int send_one(int may_lose) {
    uint8_t chunk[FRAGMENT + 20];
    size_t length = 0;
    uint32_t tsn;
    sctpr_code code = sctpr_sender_send_next(&s.sender, ++s.now, chunk, sizeof chunk, &length, &tsn);
    if (code == SCTPR_OK) deliver(chunk, length, may_lose && any(2));
    return code == SCTPR_OK;
}

static void send_marked(int may_lose) {
    struct sctpr_in_flight row;
    uint8_t chunk[FRAGMENT + 20];
    size_t length = 0;
    while (sctpr_sender_next_to_retransmit(&s.sender, &row) == SCTPR_OK) {
        HOLDS(!row.is_acked && !row.is_abandoned);
        sctpr_code code = sctpr_sender_resend(&s.sender, row.tsn, ++s.now, chunk, sizeof chunk, &length);
        HOLDS(code == SCTPR_OK);
        if (code != SCTPR_OK) return;
        deliver(chunk, length, may_lose && any(2));
        sent_again++;
    }
}

/* As the page has it: take_back, acked, then a report of what is missing. */
static void take_sack(const uint8_t *sack, size_t length) {
    static struct sctpr_taken_back back[ROWS];
    static struct sctpr_acked rows[ROWS];
    size_t gone = 0, count = 0;
    sctpr_code first = sctpr_sender_take_back(&s.sender, sack, length, back, ROWS, &gone);
    sctpr_code code = sctpr_sender_acked(&s.sender, sack, length, rows, ROWS, &count);
    HOLDS(first == code && code <= SCTPR_STALE);
    taken_back += gone;
    if (count > 0) sctpr_sender_add_miss_indications(&s.sender, rows[count - 1].tsn);
}

/* ---- The peer -------------------------------------------------------------------------------------------------------------- */

/* Blocks over any chunks in flight, but for the first, under the cumulative TSN that the sender knows. */
static void lie(void) {
    uint8_t sack[SACK_ROOM];
    struct sctpr_gap blocks[8];
    size_t count = 0, wanted = any(8);
    uint32_t at = 2, in_flight = (uint32_t)sctpr_sender_chunks_in_flight(&s.sender);
    while (count < wanted && at < in_flight) {
        uint32_t start = at + any(in_flight - at), end = start + any(in_flight - start + 1);
        blocks[count].start = (uint16_t)start;
        blocks[count++].end = (uint16_t)end;
        at = end + 2;
    }
    take_sack(sack, put_sack(sack, sctpr_sender_acked_tsn(&s.sender), blocks, count));
}

static void tell_truth(void) {
    uint8_t sack[SACK_ROOM];
    size_t length = 0;
    HOLDS(sctpr_receiver_sack(&s.receiver, sack, any(3) ? sizeof sack : 16 + 4 * (size_t)any(4), &length) == SCTPR_OK);
    take_sack(sack, length);
    if (any(4)) return;
    memcpy(s.old_sack, sack, length);
    s.old_length = length;
}

static void read_all(void) {
    uint8_t bytes[LONGEST];
    size_t length = 0;
    uint32_t type;
    for (uint16_t i = 0; i < STREAMS; i++)
        while (sctpr_receiver_read(&s.receiver, i, bytes, sizeof bytes, &length, &type) == SCTPR_OK) {
            uint32_t number = get32(bytes);
            HOLDS(number < s.messages && s.stream[number] == i && s.length[number] == length && !s.is_read[number]);
            if (number >= s.messages) return;
            for (size_t k = 4; k < length; k++) HOLDS(bytes[k] == (uint8_t)(31 * number + k));
            HOLDS(i % 2 == 1 || s.last_ordered[i] <= number);
            s.last_ordered[i] = number;
            s.is_read[number] = 1;
            read_in_all++;
        }
}

/* ---- A session ------------------------------------------------------------------------------------------------------------- */

static void step(void) {
    switch (any(10)) {
    case 0:
    case 1: write_message(); break;
    case 2:
    case 3:
    case 4: send_one(1); break;
    case 5:
    case 6: lie(); break;
    case 7: tell_truth(); break;
    case 8:
        if (any(4) == 0) sctpr_sender_retransmit_all(&s.sender);
        send_marked(1);
        break;
    default:
        if (s.old_length > 0) take_sack(s.old_sack, s.old_length);
        read_all();
    }
}

static int is_drained(void) {
    return sctpr_sender_pending(&s.sender) == 0 && sctpr_sender_chunks_in_flight(&s.sender) == 0;
}

static void finish(void) {
    uint8_t sack[SACK_ROOM];
    size_t length = 0;
    unsigned i = 0;
    for (; i < ROUNDS && !is_drained(); i++) {
        while (send_one(0)) {
        }
        sctpr_sender_retransmit_all(&s.sender);
        send_marked(0);
        HOLDS(sctpr_receiver_sack(&s.receiver, sack, sizeof sack, &length) == SCTPR_OK);
        take_sack(sack, length);
    }
    HOLDS(is_drained());
    if (i > rounds) rounds = i;
    read_all();
    for (uint32_t k = 0; k < s.messages; k++) HOLDS(s.is_read[k]);
    HOLDS(sctpr_sender_bytes_in_flight(&s.sender) == 0 && sctpr_receiver_held_bytes(&s.receiver) == 0);
}

int main(int argc, char **argv) {
    uint64_t first = argc > 1 ? strtoull(argv[1], NULL, 0) : 1, last = argc > 2 ? strtoull(argv[2], NULL, 0) : 3000;
    for (uint64_t seed = first; seed <= last && faults < 20; seed++) {
        begin(seed);
        for (int i = 0; i < STEPS; i++) step();
        finish();
        sctpr_sender_free(&s.sender);
        sctpr_receiver_free(&s.receiver);
        HOLDS(held == 0 && in_use == 0);
    }
    printf("reports: %lu reports taken back, %lu chunks sent again, %lu messages read, %lu rounds at most\n", taken_back, sent_again, read_in_all,
           rounds);
    CHECK(faults == 0);
    CHECK(last - first < 1000 || (taken_back > 10000 && read_in_all > 10000));
    return report("reports");
}
