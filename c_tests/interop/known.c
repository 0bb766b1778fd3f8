#include "known.h"
#include <stdio.h>
#include <string.h>

const char *const known_names[KNOWN_KINDS] = { "missing end", "duplicate", "in progress", "unacknowledged", "interleaved" };
unsigned long known[KNOWN_KINDS];
int known_is_abort;

/* Flags of a DATA chunk (RFC 9260 3.3.1), types of chunks and of parameters of a RE-CONFIG (RFC 6525 4), and how many TSNs are kept. */
enum { ENDS = 1, BEGINS = 2, UNORDERED = 4, WHOLE = 3 };
enum { DATA = 0, INIT = 1, INIT_ACK = 2, SACK = 3, ABORT = 6, SHUTDOWN = 7, RECONFIG = 130, FORWARD_TSN = 192 };
enum { OUTGOING_RESET = 13, RESPONSE = 16, ADD_OUTGOING = 17, IN_PROGRESS = 6, PROTOCOL_VIOLATION = 13 };
enum { KEPT = 1 << 16, DEFERRED = 256, HEADER = 12 };

/* A chunk of a side, by its place: TSNs are counted from the side's first one on. */
struct chunk {
    uint32_t place, bytes;
    uint16_t stream, sequence;
    uint8_t flags, is_there, is_reported, is_told;
    /* How often it was taken, and for how many of these a SACK did not report it. */
    uint32_t taken, passed;
};
struct side {
    uint32_t first, given_out, skipped;
    struct chunk rows[KEPT];
};
static struct side ours, theirs;
static int (*may_abandon)(uint16_t);
static int asked_for_streams;
static uint32_t window, acked;

/* Our last reset, and the unordered chunks that were taken while it waited. */
static struct {
    uint32_t number, last;
    int is_there, is_in_progress, is_taken_again, is_told;
} reset;
static struct chunk deferred[DEFERRED];
static size_t deferred_count;

static uint32_t u16(const uint8_t *p) { return (uint32_t)p[0] << 8 | p[1]; }
static uint32_t u32(const uint8_t *p) { return u16(p) << 16 | u16(p + 2); }

/* Whether a TSN is past another one (RFC 1982 3.2). */
static int is_past(uint32_t tsn, uint32_t other) { return tsn != other && tsn - other < 0x80000000u; }

static struct chunk *row_at(struct side *s, uint32_t tsn) {
    struct chunk *row = &s->rows[(tsn - s->first) % KEPT];
    return row->is_there && row->place == tsn - s->first ? row : NULL;
}

/* By bytes, since bit by bit the longer runs would take minutes more (RFC 9260 Appendix A). */
uint32_t known_sum(const uint8_t *packet, size_t length) {
    static uint32_t table[256];
    uint32_t sum = 0xffffffff;
    for (uint32_t i = 0; i < 256 && table[255] == 0; i++) {
        table[i] = i;
        for (int k = 0; k < 8; k++) table[i] = table[i] >> 1 ^ (table[i] & 1 ? 0x82f63b78 : 0);
    }
    for (size_t i = 0; i < length; i++) sum = sum >> 8 ^ table[(sum ^ (i >= 8 && i < HEADER ? 0 : packet[i])) & 255];
    return ~sum;
}

static int is_whole(const uint8_t *packet, size_t length) {
    if (length < HEADER) return 0;
    return known_sum(packet, length) == ((uint32_t)packet[11] << 24 | (uint32_t)packet[10] << 16 | u16((const uint8_t[]){ packet[9], packet[8] }));
}

/* ---- What usrsctp was handed ----------------------------------------------------------------------------------------------- */

/* The row of a DATA chunk, which is new where it was not there. */
static struct chunk *note(struct side *s, const uint8_t *chunk, size_t length) {
    uint32_t tsn = u32(chunk + 4), place = tsn - s->first;
    struct chunk *row = row_at(s, tsn);
    if (!row) {
        row = &s->rows[place % KEPT];
        memset(row, 0, sizeof *row);
        row->place = place;
        row->is_there = 1;
        row->flags = chunk[1];
        row->bytes = (uint32_t)length - 16;
        row->stream = (uint16_t)u16(chunk + 8);
        row->sequence = (uint16_t)u16(chunk + 10);
    }
    if (is_past(place + 1, s->given_out)) s->given_out = place + 1;
    return row;
}

static void take_data(const uint8_t *chunk, size_t length) {
    uint32_t tsn = u32(chunk + 4);
    struct chunk *row = note(&ours, chunk, length);
    if (row->taken++ == 0 && reset.is_in_progress && is_past(tsn, reset.last) && row->flags & UNORDERED &&
        is_past(reset.last, acked))
        deferred[deferred_count++ % DEFERRED] = *row;
}

/* A request that comes again is the same; a new one takes the place of the last one. */
static void take_reset(const uint8_t *param) {
    uint32_t number = u32(param + 4), last = u32(param + 12);
    if (reset.is_there && reset.number == number && reset.last == last) {
        if (!is_past(last, acked)) reset.is_taken_again = 1;
        return;
    }
    memset(&reset, 0, sizeof reset);
    reset.is_there = 1;
    reset.number = number;
    reset.last = last;
}

/* ---- What usrsctp sent ----------------------------------------------------------------------------------------------------- */

/* The bytes of the message that a chunk ends, 0 where a fragment of it is not there. */
static uint32_t bytes_to(uint32_t tsn) {
    const struct chunk *row = row_at(&ours, tsn);
    uint32_t bytes = 0;
    while (row) {
        bytes += row->bytes;
        if (row->flags & BEGINS) return bytes;
        row = row_at(&ours, --tsn);
    }
    return 0;
}

/* Every report of a SACK is noted before the chunk past its cumulative TSN is judged. */
static void judge_next(uint32_t cumulative) {
    struct chunk *next = row_at(&ours, cumulative + 1);
    if (!next || next->is_reported || next->taken == next->passed) return;
    next->taken = ++next->passed;
    uint32_t bytes = bytes_to(cumulative + 1);
    if (!(next->flags & ENDS) || next->passed < KNOWN_TIMES || next->is_told || bytes == 0 || bytes > window) return;
    next->is_told = 1;
    known[KNOWN_UNACKNOWLEDGED]++;
}

static void report(uint32_t tsn) {
    struct chunk *row = row_at(&ours, tsn);
    if (!row) return;
    if (row->is_told && !row->is_reported) known[KNOWN_UNACKNOWLEDGED]--;
    row->is_reported = 1;
}

static void report_up_to(uint32_t tsn) {
    while (is_past(tsn, acked)) report(++acked);
}

static void sent_sack(const uint8_t *chunk, size_t length) {
    uint32_t cumulative = u32(chunk + 4), blocks = u16(chunk + 12);
    if (length < 16 + 4 * blocks) return;
    report_up_to(cumulative);
    for (uint32_t i = 0; i < blocks; i++)
        for (uint32_t k = u16(chunk + 16 + 4 * i); k <= u16(chunk + 18 + 4 * i); k++) report(cumulative + k);
    judge_next(cumulative);
}

static void sent_response(const uint8_t *param) {
    if (!reset.is_there || u32(param + 4) != reset.number) return;
    reset.is_in_progress = u32(param + 8) == IN_PROGRESS;
    if (!reset.is_in_progress || !reset.is_taken_again || reset.is_told) return;
    reset.is_told = 1;
    known[KNOWN_IN_PROGRESS]++;
}

static void sent_data(const uint8_t *chunk, size_t length) {
    uint32_t tsn = u32(chunk + 4);
    if (theirs.given_out == 0) theirs.first = tsn;
    int is_new = tsn - theirs.first == theirs.given_out;
    const struct chunk *last = is_new ? row_at(&theirs, tsn - 1) : NULL, *row = note(&theirs, chunk, length);
    if (!last || last->flags & ENDS || !asked_for_streams || may_abandon(last->stream)) return;
    int goes_on = row->stream == last->stream && row->sequence == last->sequence && !((row->flags ^ last->flags) & UNORDERED);
    if (row->flags & BEGINS || !goes_on) known[KNOWN_INTERLEAVED]++;
}

/* ---- Its aborts ------------------------------------------------------------------------------------------------------------ */

/* Whether the TSN ends no unfinished unordered message of a stream. */
static int is_no_open_end(uint32_t tsn, uint16_t stream) {
    const struct chunk *row = row_at(&ours, tsn);
    if (is_past(ours.first, tsn) || (ours.skipped && !is_past(tsn, ours.first + ours.skipped - 1))) return 1;
    return !row || row->flags & ENDS || !(row->flags & UNORDERED) || row->stream != stream;
}

static int is_missing_end(uint32_t tsn) {
    const struct chunk *begin = row_at(&ours, tsn + 1);
    if (!begin || (begin->flags & (WHOLE | UNORDERED)) != (WHOLE | UNORDERED) || !is_no_open_end(tsn, begin->stream)) return 0;
    for (uint32_t i = tsn + 2; is_past(ours.first + ours.given_out, i); i++) {
        const struct chunk *row = row_at(&ours, i);
        if (row && row->stream == begin->stream && row->flags & UNORDERED && (row->flags & WHOLE) != WHOLE) return 1;
    }
    return 0;
}

/* The unordered chunks that were deferred on a stream, and how many of them are complete and have a number. */
static void count_deferred(uint32_t stream, uint32_t number, int *all, int *complete) {
    *all = *complete = 0;
    for (size_t i = 0; i < deferred_count && i < DEFERRED; i++) {
        if (deferred[i].stream != stream) continue;
        ++*all;
        *complete += (deferred[i].flags & WHOLE) == WHOLE && deferred[i].sequence == number;
    }
}

static int is_duplicate(uint32_t number) {
    int all, complete;
    for (size_t i = 0; i < deferred_count && i < DEFERRED; i++) {
        count_deferred(deferred[i].stream, number, &all, &complete);
        if (all > 1 && complete > 0) return 1;
    }
    return 0;
}

/* A chunk that is judged by its number: an unordered one that was deferred, or the ordered one whose number such a one took, where no other
 * ordered message that is kept has that. */
static int is_delivered(uint32_t tsn, uint32_t stream, uint32_t number) {
    const struct chunk *judged = row_at(&ours, tsn);
    int all, complete;
    count_deferred(stream, number, &all, &complete);
    if (!judged || judged->stream != stream || judged->sequence != number || complete == 0) return 0;
    for (size_t i = 0; i < KEPT && !(judged->flags & UNORDERED); i++) {
        const struct chunk *row = &ours.rows[i];
        if (row->is_there && row != judged && row->flags & BEGINS && !(row->flags & UNORDERED) && row->stream == stream && row->sequence == number)
            return 0;
    }
    return 1;
}

static void sent_abort(const uint8_t *chunk, size_t length) {
    char text[128] = { 0 };
    unsigned a, b, c, d;
    known_is_abort = 0;
    if (length < 8 || u16(chunk + 4) != PROTOCOL_VIOLATION) return;
    memcpy(text, chunk + 8, length - 8 < sizeof text - 1 ? length - 8 : sizeof text - 1);
    if (sscanf(text, "Illegal message sequence, missing end for MID: %8x", &a) == 1 && is_missing_end(a)) {
        known[KNOWN_MISSING_END]++;
        known_is_abort = 1;
    }
    int is_queued = sscanf(text, "Queue to str MID: %u duplicate", &a) == 1 && is_duplicate(a);
    if (is_queued || (sscanf(text, "Delivered SSN=%4x, got TSN=%8x, SID=%4x, SSN=%4x", &a, &b, &c, &d) == 4 && is_delivered(b, c, d))) {
        known[KNOWN_DUPLICATE]++;
        known_is_abort = 1;
    }
}

/* ---- Packets --------------------------------------------------------------------------------------------------------------- */

/* Calls what takes each parameter of a RE-CONFIG of a type, of so many bytes at least. */
static void each_param(const uint8_t *chunk, size_t length, uint32_t type, size_t least, void (*take)(const uint8_t *)) {
    for (size_t at = 4; at + 4 <= length;) {
        size_t size = u16(chunk + at + 2);
        if (size < 4 || size > length - at) return;
        if (u16(chunk + at) == type && size >= least) take(chunk + at);
        at += (size + 3) / 4 * 4;
    }
}

static void ask_for_streams(const uint8_t *param) {
    (void)param;
    asked_for_streams = 1;
}

static void take_chunk(const uint8_t *chunk, size_t length) {
    if (chunk[0] == DATA && length > 16) take_data(chunk, length);
    if (chunk[0] == RECONFIG) each_param(chunk, length, OUTGOING_RESET, 16, take_reset);
    if (chunk[0] == FORWARD_TSN && length >= 8 && is_past(u32(chunk + 4) + 1 - ours.first, ours.skipped))
        ours.skipped = u32(chunk + 4) + 1 - ours.first;
}

static void send_chunk(const uint8_t *chunk, size_t length) {
    if ((chunk[0] == INIT || chunk[0] == INIT_ACK) && length >= 20) window = u32(chunk + 8);
    if (chunk[0] == SACK && length >= 16) sent_sack(chunk, length);
    if (chunk[0] == SHUTDOWN && length >= 8) report_up_to(u32(chunk + 4));
    if (chunk[0] == RECONFIG) each_param(chunk, length, RESPONSE, 12, sent_response);
    if (chunk[0] == RECONFIG) each_param(chunk, length, ADD_OUTGOING, 12, ask_for_streams);
    if (chunk[0] == DATA && length > 16) sent_data(chunk, length);
    if (chunk[0] == ABORT) sent_abort(chunk, length);
}

static void each_chunk(const uint8_t *packet, size_t length, void (*take)(const uint8_t *, size_t)) {
    for (size_t at = HEADER; is_whole(packet, length) && at + 4 <= length;) {
        size_t size = u16(packet + at + 2);
        if (size < 4 || size > length - at) return;
        take(packet + at, size);
        at += (size + 3) / 4 * 4;
    }
}

void known_begin(uint32_t first_tsn, int (*abandons)(uint16_t)) {
    memset(known, 0, sizeof known);
    memset(&ours, 0, sizeof ours);
    memset(&theirs, 0, sizeof theirs);
    memset(&reset, 0, sizeof reset);
    ours.first = first_tsn;
    may_abandon = abandons;
    acked = first_tsn - 1;
    deferred_count = window = 0;
    asked_for_streams = known_is_abort = 0;
}

void known_taken(const uint8_t *packet, size_t length) { each_chunk(packet, length, take_chunk); }
void known_sent(const uint8_t *packet, size_t length) { each_chunk(packet, length, send_chunk); }

void known_print(void) {
    const char *before = ", usrsctp's own: ";
    for (int i = 0; i < KNOWN_KINDS; i++) {
        if (known[i] > 0) printf("%s%lu %s", before, known[i], known_names[i]);
        if (known[i] > 0) before = ", ";
    }
}
