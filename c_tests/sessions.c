/* Sessions drawn by a seed: a peer that sends what it likes, or a lawful one over a network that loses, and a caller that follows the page
 * "At a refusal" (docs/HALVES.md).
 *
 *     sessions [first seed] [last seed]
 *
 * In each, once what is readable was read, a chunk of the lowest missing TSN is taken, unless the page says to end: no session stalls. The
 * heap stays within SECURITY's bound. A lawful peer is never told to end, and each message that it does not abandon is read once, as it was
 * written, ordered ones in order. */
#include "check.h"
#include "peer.h"
#include <stdlib.h>

/* Streams below OPENED are open from the first, those below WANTED are opened at their first chunk, the others never. */
enum { OPENED = 4, WANTED = 6, STREAMS = 8, CHUNKS = 700, MESSAGES = 400, LONGEST = 2400, STEPS = 250 };

enum fate { TAKEN, DROPPED, ENDED };

struct written {
    uint32_t length, first, last;
    uint16_t stream;
    uint8_t is_unordered, is_abandoned, is_lost, is_read;
};

static struct session {
    uint64_t seed;
    sctpr_receiver receiver;
    size_t window;
    uint32_t first_tsn, max, reach, fragment;
    /* the chunks that the peer made, by their TSN's distance from the first, and their messages */
    struct data chunks[CHUNKS];
    uint32_t message_of[CHUNKS];
    uint32_t made, messages;
    struct written written[MESSAGES];
    uint16_t next_ssn[STREAMS];
    uint32_t last_ordered[STREAMS];
    /* what the caller has of each stream */
    uint8_t is_open[STREAMS], is_given_up[STREAMS];
    /* how many chunks were held at most of each stream since it was opened, and TSNs past the cumulative one, in all */
    size_t held[STREAMS], most_held[STREAMS], most_beyond, most_open, repeats;
    uint8_t is_lawful, is_ended;
} s;

static unsigned long taken, dropped, probes, reads, resets, stalls, faults;
/* Sessions that ended by the page's advice, at a full window, at a stream sequence number, at a FORWARD-TSN. */
static unsigned long ended_full, ended_ssn, ended_name;
static size_t closest_used, closest_bound = 1;

#define HOLDS(what) \
    do { \
        if (!(what) && ++faults <= 20) printf("%s:%d: seed %lu, not so: %s\n", __FILE__, __LINE__, (unsigned long)s.seed, #what); \
    } while (0)

static uint32_t cumulative(void) {
    return sctpr_receiver_cumulative_tsn(&s.receiver);
}

/* ---- The caller ------------------------------------------------------------------------------------------------------------ */

static uint16_t readable[STREAMS];

static size_t count_readable(void) {
    size_t count = 0;
    HOLDS(sctpr_receiver_readable_streams(&s.receiver, readable, STREAMS, &count) == SCTPR_OK);
    return count;
}

static void open_stream(uint16_t stream) {
    HOLDS(sctpr_receiver_open(&s.receiver, stream) == SCTPR_OK);
    s.is_open[stream] = 1;
    s.held[stream] = s.most_held[stream] = 0;
    size_t count = 0;
    for (int i = 0; i < STREAMS; i++) count += s.is_open[i];
    if (count > s.most_open) s.most_open = count;
}

/* A message of a lawful peer has its number in front, and each further byte follows from it. */
static void check_message(uint16_t stream, const uint8_t *bytes, size_t length) {
    uint32_t number = length >= 4 ? get32(bytes) : MESSAGES;
    HOLDS(number < s.messages);
    if (number >= s.messages) return;
    struct written *message = &s.written[number];
    HOLDS(message->stream == stream && message->length == length && !message->is_read);
    for (size_t i = 4; i < length; i++) HOLDS(bytes[i] == (uint8_t)(number * 31 + i));
    message->is_read = 1;
    if (message->is_unordered) return;
    HOLDS(s.last_ordered[stream] <= number);
    s.last_ordered[stream] = number;
}

/* Reads the next message of a stream, and counts the chunks that were held of it: each counts its bytes and 400. */
static int read_one(uint16_t stream) {
    static uint8_t bytes[LONGEST];
    size_t length = 0, before = sctpr_receiver_held_bytes(&s.receiver);
    uint32_t type = 0;
    sctpr_code code = sctpr_receiver_read(&s.receiver, stream, bytes, sizeof bytes, &length, &type);
    if (code != SCTPR_OK) return 0;
    HOLDS(length <= s.max);
    size_t chunks = (before - sctpr_receiver_held_bytes(&s.receiver) - length) / 400;
    HOLDS(before - sctpr_receiver_held_bytes(&s.receiver) == length + 400 * chunks && 1 <= chunks && chunks <= s.held[stream]);
    s.held[stream] -= chunks;
    reads++;
    if (s.is_lawful) check_message(stream, bytes, length);
    return 1;
}

static void drain(void) {
    size_t count = count_readable();
    for (size_t i = 0; i < count; i++)
        while (read_one(readable[i])) {
        }
    HOLDS(count_readable() == 0);
}

static enum fate discard(uint32_t tsn) {
    sctpr_code code = sctpr_receiver_discard(&s.receiver, tsn);
    HOLDS(code == SCTPR_OK);
    s.written[s.message_of[tsn - s.first_tsn]].is_lost = 1;
    return code == SCTPR_OK ? TAKEN : DROPPED;
}

/* What came on the stream and was not read is lost. */
static void give_up(uint16_t stream) {
    sctpr_receiver_close(&s.receiver, stream);
    s.is_given_up[stream] = 1;
    s.is_open[stream] = 0;
    s.held[stream] = s.most_held[stream] = 0;
    for (uint32_t i = 0; i < s.messages; i++)
        if (s.written[i].stream == stream && !s.written[i].is_read) s.written[i].is_lost = 1;
}

static sctpr_code give(const struct data *data) {
    static uint8_t chunk[16 + LONGEST];
    uint32_t number = s.message_of[data->tsn - s.first_tsn], at = 0;
    uint8_t complete = 0;
    for (uint32_t i = data->tsn - s.first_tsn; !(s.chunks[i].flags & FIRST) && i > 0; i--) at += s.chunks[i - 1].length;
    for (uint32_t i = 0; i < data->length; i++) {
        uint32_t place = at + i;
        chunk[16 + i] = (uint8_t)(place < 4 ? number >> (24 - 8 * place) : number * 31 + place);
    }
    sctpr_code code = sctpr_receiver_data(&s.receiver, chunk, put_data(chunk, data), &complete);
    if (code == SCTPR_OK && ++s.held[data->stream] > s.most_held[data->stream]) s.most_held[data->stream] = s.held[data->stream];
    s.repeats += code == SCTPR_REPEAT;
    return code;
}

/* The page's row of `Abort`. */
static enum fate end_or_drop(const struct data *data, unsigned long *reason) {
    if (data->tsn != cumulative() + 1 || count_readable() > 0) return DROPPED;
    s.is_ended = 1;
    ++*reason;
    return ENDED;
}

/* Gives a chunk to the receiver, and does what the page says of a refusal. */
static enum fate take(const struct data *data) {
    sctpr_code code = give(data);
    uint16_t stream = data->stream;
    if (code == SCTPR_STREAM_UNKNOWN && stream < WANTED && !s.is_given_up[stream]) {
        HOLDS(!s.is_open[stream]);
        open_stream(stream);
        code = give(data);
    }
    switch (code) {
    case SCTPR_OK: return TAKEN;
    case SCTPR_REPEAT: return DROPPED;
    case SCTPR_STREAM_UNKNOWN: s.is_given_up[stream] = 1; return discard(data->tsn);
    case SCTPR_MESSAGE_TOO_LARGE: give_up(stream); return discard(data->tsn);
    case SCTPR_WINDOW_FULL:
        HOLDS(sctpr_receiver_window(&s.receiver) == 0 && sctpr_receiver_held_bytes(&s.receiver) >= s.window);
        return end_or_drop(data, &ended_full);
    case SCTPR_TSN_TOO_FAR: HOLDS(data->tsn - cumulative() > s.reach); return DROPPED;
    case SCTPR_SSN_TOO_FAR: return end_or_drop(data, &ended_ssn);
    default: HOLDS(code == SCTPR_OK); return DROPPED;
    }
}

/* The page's row of a name of a stream that is not open: it is opened, or never opened again. */
static void follow_names(const struct sctpr_skip *names, size_t count) {
    for (size_t i = 0; i < count; i++) {
        uint16_t stream = names[i].stream;
        if (s.is_open[stream]) continue;
        if (stream < WANTED && !s.is_given_up[stream]) open_stream(stream);
        else s.is_given_up[stream] = 1;
    }
}

static void take_forward_tsn(uint32_t tsn, const struct sctpr_skip *names, size_t count) {
    uint8_t chunk[64];
    size_t length = put_forward_tsn(chunk, tsn, names, count);
    sctpr_code code = sctpr_receiver_forward_tsn(&s.receiver, chunk, length);
    if (code == SCTPR_NAMED_STREAM_UNKNOWN) {
        follow_names(names, count);
        code = sctpr_receiver_forward_tsn_past_closed(&s.receiver, chunk, length);
    }
    HOLDS(code <= SCTPR_STALE || (!s.is_lawful && code == SCTPR_NAMED_SSN_TOO_FAR));
    if (code <= SCTPR_STALE || count_readable() > 0) return;
    s.is_ended = 1;
    ended_name++;
}

/* The peer resets a stream (RFC 6525 5.2.2): it begins anew, and one that was given up may be opened again. */
static void take_reset(uint16_t stream, uint32_t last) {
    sctpr_code code = sctpr_receiver_reset(&s.receiver, stream, last);
    HOLDS(code == (!s.is_open[stream] ? SCTPR_STREAM_UNKNOWN : last - cumulative() - 1 < 1u << 31 ? SCTPR_RESET_IN_PROGRESS : SCTPR_OK));
    if (last - cumulative() - 1 < 1u << 31) return;
    if (!s.is_open[stream] && stream < WANTED) open_stream(stream);
    s.is_given_up[stream] = stream >= WANTED;
    s.next_ssn[stream] = 0;
    resets++;
}

static void tell(void) {
    static uint8_t sack[1500];
    size_t length = 0;
    HOLDS(sctpr_receiver_sack(&s.receiver, sack, sizeof sack, &length) == SCTPR_OK && get32(sack + 4) == cumulative());
    HOLDS(get32(sack + 8) == sctpr_receiver_window(&s.receiver));
}

/* ---- What is held ---------------------------------------------------------------------------------------------------------- */

/* SECURITY's bound, with what so few streams and repeats take in the place of its 256 KiB: a table of two bytes for each stream number up to
 * the highest, and four bytes for each repeat that waits, in a room that doubles. */
static void check_heap(void) {
    size_t m = 0, h = sctpr_receiver_held_bytes(&s.receiver);
    for (int i = 0; i < STREAMS; i++) m += s.is_open[i] ? s.most_held[i] : 0;
    size_t bound = h + 700 * s.most_open + 96 * m + 16 * s.most_beyond + 8 * s.repeats + 2048;
    HOLDS(in_use <= bound);
    HOLDS(h <= s.window + (size_t)s.reach * (LONGEST + 400));
    if (in_use * closest_bound > closest_used * bound) closest_used = in_use, closest_bound = bound;
}

static void note_beyond(void) {
    size_t beyond = s.first_tsn + s.made - 1 - cumulative();
    if (beyond < CHUNKS && beyond > s.most_beyond) s.most_beyond = beyond;
}

/* ---- The peer -------------------------------------------------------------------------------------------------------------- */

static void make_chunk(uint8_t flags, uint16_t stream, uint16_t ssn, uint32_t length) {
    struct data *data = &s.chunks[s.made];
    data->tsn = s.first_tsn + s.made;
    data->flags = flags;
    data->stream = stream;
    data->ssn = ssn;
    data->length = length;
    s.message_of[s.made++] = s.messages;
}

/* A chunk as no lawful peer sends it, now and then: any flags, any stream sequence number. Many follow those before. */
static void make_any(void) {
    const struct data *before = s.made > 0 ? &s.chunks[s.made - 1] : NULL;
    uint32_t length = any(4) ? 1 + any(12) : 1 + any(s.max + 20 < LONGEST ? s.max + 20 : LONGEST - 1);
    if (before && !(before->flags & LAST) && any(8)) {
        make_chunk((uint8_t)((before->flags & UNORDERED) | (any(6) == 0)), before->stream, before->ssn, length);
        return;
    }
    uint16_t stream = (uint16_t)any(STREAMS);
    uint8_t flags = (uint8_t)(any(3) ? WHOLE | (any(2) ? UNORDERED : 0) : any(2) ? FIRST | (any(2) ? UNORDERED : 0) : any(8));
    uint16_t ssn = any(10) ? s.next_ssn[stream] : (uint16_t)(s.next_ssn[stream] + (any(2) ? any(5) : any(65536)));
    if (!(flags & UNORDERED) && any(20)) s.next_ssn[stream]++;
    make_chunk(flags, stream, ssn, length);
}

/* A message as a lawful peer sends it: its fragments under TSNs one after the other (RFC 9260 6.9); some are too long. */
static void make_message(void) {
    if (s.messages == MESSAGES || s.made + 130 > CHUNKS) return;
    struct written *message = &s.written[s.messages];
    memset(message, 0, sizeof *message);
    message->stream = (uint16_t)any(STREAMS);
    message->is_unordered = (uint8_t)any(2);
    uint32_t most = any(60) ? s.max : LONGEST - 1;
    message->length = 4 + any((any(3) ? most / 8 : most) - 3);
    message->first = s.made;
    uint16_t ssn = s.next_ssn[message->stream];
    if (!message->is_unordered) s.next_ssn[message->stream]++;
    for (uint32_t at = 0; at < message->length; at += s.fragment) {
        uint32_t left = message->length - at;
        uint8_t flags = (uint8_t)((at == 0 ? FIRST : 0) | (left <= s.fragment ? LAST : 0) | (message->is_unordered ? UNORDERED : 0));
        make_chunk(flags, message->stream, ssn, left < s.fragment ? left : s.fragment);
    }
    message->last = s.made - 1;
    s.messages++;
}

static enum fate send(uint32_t place) {
    note_beyond();
    enum fate fate = take(&s.chunks[place]);
    taken += fate == TAKEN;
    dropped += fate == DROPPED;
    HOLDS(!s.is_lawful || fate != ENDED);
    return fate;
}

/* Any FORWARD-TSN: up to any TSN, also of chunks that were not sent, with any names. */
static void skip_any(void) {
    struct sctpr_skip names[4];
    size_t count = any(5);
    uint32_t to = cumulative() - 3 + any(any(4) ? 12 : 40);
    for (size_t i = 0; i < count; i++) {
        names[i].stream = (uint16_t)any(STREAMS);
        names[i].sequence = (uint16_t)(any(8) ? s.next_ssn[names[i].stream] - any(3) : any(65536));
    }
    while (to - s.first_tsn < CHUNKS - 2 && s.made <= to - s.first_tsn) make_any();
    if (to - s.first_tsn < s.made || to - s.first_tsn > UINT32_MAX - 4) take_forward_tsn(to, names, count);
}

/* A lawful FORWARD-TSN (RFC 3758 3.5 C): past the chunks of messages that are abandoned, with the last number of each stream. */
static void skip_abandoned(void) {
    struct sctpr_skip names[STREAMS];
    size_t count = 0;
    uint32_t place = cumulative() + 1 - s.first_tsn, start = place;
    for (; place < s.made && s.written[s.message_of[place]].is_abandoned; place++) {
        const struct data *data = &s.chunks[place];
        size_t i = 0;
        if (data->flags & UNORDERED) continue;
        while (i < count && names[i].stream != data->stream) i++;
        names[i].stream = data->stream;
        names[i].sequence = data->ssn;
        if (i == count) count++;
    }
    if (place > start) take_forward_tsn(s.first_tsn + place - 1, names, count);
}

/* ---- A session ------------------------------------------------------------------------------------------------------------- */

/* After a drain the chunk of the lowest missing TSN is taken, or the page says to end: else the session stalls. */
static void probe(void) {
    drain();
    uint32_t before = cumulative(), place = before + 1 - s.first_tsn;
    if (s.is_ended || place >= CHUNKS) return;
    if (place == s.made) make_any();
    enum fate fate = send(place);
    probes++;
    if (fate == TAKEN ? cumulative() - before - 1 < CHUNKS : fate == ENDED) return;
    stalls++;
    printf("sessions: seed %lu stalls at TSN %lu past the first, fate %d\n", (unsigned long)s.seed, (unsigned long)place, (int)fate);
    s.is_ended = 1;
}

static void begin(uint64_t seed) {
    static const uint32_t fragments[] = { 1, 10, 100, 1000 };
    memset(&s, 0, sizeof s);
    s.seed = seed;
    draw_from(seed);
    s.is_lawful = seed % 2 == 0;
    s.max = 40 + any(1200);
    s.reach = 1 + any(any(2) ? 20 : 300);
    s.fragment = s.is_lawful ? 20 + any(400) : fragments[any(4)];
    s.window = SCTPR_LEAST_WINDOW(s.max, s.is_lawful ? s.fragment : 65519) + 1 + (any(2) ? 0 : any(any(2) ? 6000 : 200000));
    s.first_tsn = any(2) ? 0xffffffffu - any(300) : any(UINT32_MAX);
    HOLDS(sctpr_receiver_new(s.first_tsn, s.max, s.window, s.reach, &s.receiver) == SCTPR_OK);
    for (uint16_t i = 0; i < OPENED; i++) open_stream(i);
}

static void step_any(void) {
    uint32_t what = any(12), past = cumulative() + 1 - s.first_tsn;
    if (what < 6 && s.made < CHUNKS - 60) make_any();
    if (what < 5 && s.made > 0) send(s.made - 1);
    else if (what < 8 && past < s.made) send(past + any(s.made - past));
    else if (what == 8 && s.made > 0) send(any(s.made));
    else if (what == 9) skip_any();
    else if (what == 10) probe();
    else if (any(30) == 0) take_reset((uint16_t)any(STREAMS), cumulative() - 2 + any(4));
    else if (count_readable() > 0) read_one(readable[0]);
}

/* The peer asks, and sends no more on the stream, until all that it sent has come. */
static void reset_one(uint16_t stream) {
    take_reset(stream, s.first_tsn + s.made - 1);
    for (int i = 0; i < CHUNKS && cumulative() != s.first_tsn + s.made - 1 && !s.is_ended; i++) probe();
    take_reset(stream, s.first_tsn + s.made - 1);
}

static void step_lawful(void) {
    uint32_t what = any(12), past = cumulative() + 1 - s.first_tsn;
    if (what < 3 && (past == s.made || s.made - past < 2 * s.reach)) make_message();
    if (what < 8 && past < s.made) send(past + any(any(3) ? 1 + any(s.made - past) : s.made - past));
    else if (what == 8 && s.made > 0) send(any(s.made));
    else if (what == 9 && past < s.made) s.written[s.message_of[past + any(s.made - past)]].is_abandoned = 1;
    else if (what == 10) skip_abandoned();
    else if (any(8) == 0 && s.made > 0) reset_one((uint16_t)any(STREAMS));
    else if (count_readable() > 0) read_one(readable[0]);
}

/* Each chunk comes in the end, or its message is skipped: then each message was read that was not abandoned, on a stream not given up. */
static void finish_lawful(void) {
    while (cumulative() + 1 - s.first_tsn < s.made && !s.is_ended) {
        skip_abandoned();
        if (cumulative() + 1 - s.first_tsn < s.made) probe();
    }
    drain();
    HOLDS(sctpr_receiver_held_bytes(&s.receiver) == 0);
    for (uint32_t i = 0; i < s.messages; i++) {
        const struct written *message = &s.written[i];
        HOLDS(message->is_read || message->is_abandoned || message->is_lost);
    }
}

static void session(uint64_t seed) {
    begin(seed);
    for (int i = 0; i < STEPS && !s.is_ended; i++) {
        if (s.is_lawful) step_lawful();
        else step_any();
        if (i % 16 == 0) check_heap();
        if (any(16) == 0) tell();
    }
    if (s.is_lawful) finish_lawful();
    else if (!s.is_ended) probe();
    check_heap();
    sctpr_receiver_free(&s.receiver);
    HOLDS(held == 0 && in_use == 0);
}

/* A message that is too long, in fragments of 100 bytes: the least window for a message of 400 is full with four of them, so that the fifth is
 * refused for the window; with one byte more, for the message, whose stream is closed. */
static void at_the_least_window(void) {
    for (uint32_t more = 0; more < 2; more++) {
        static uint8_t chunk[116];
        uint8_t complete = 0;
        CHECK(sctpr_receiver_new(1, 400, SCTPR_LEAST_WINDOW(400, 100) + more, 10, &s.receiver) == SCTPR_OK);
        CHECK(sctpr_receiver_open(&s.receiver, 0) == SCTPR_OK);
        for (uint32_t tsn = 1; tsn <= 5; tsn++) {
            struct data data = { tsn, 0, 0, tsn == 1 ? FIRST : 0, 100 };
            sctpr_code code = sctpr_receiver_data(&s.receiver, chunk, put_data(chunk, &data), &complete);
            CHECK(code == (tsn < 5 ? SCTPR_OK : more ? SCTPR_MESSAGE_TOO_LARGE : SCTPR_WINDOW_FULL));
        }
        sctpr_receiver_free(&s.receiver);
    }
}

int main(int argc, char **argv) {
    uint64_t first = argc > 1 ? strtoull(argv[1], NULL, 0) : 1, last = argc > 2 ? strtoull(argv[2], NULL, 0) : 10000;
    at_the_least_window();
    for (uint64_t seed = first; seed <= last && faults < 20; seed++) session(seed);
    unsigned long ended = ended_full + ended_ssn + ended_name;
    printf("sessions: %lu chunks taken, %lu dropped, %lu probes, %lu messages read, %lu resets\n", taken, dropped, probes, reads, resets);
    printf("sessions: ended by the page's advice: %lu at a full window, %lu at a number of DATA, %lu of a FORWARD-TSN\n", ended_full, ended_ssn,
           ended_name);
    printf("sessions: heap against its bound at the closest: %lu of %lu bytes\n", (unsigned long)closest_used, (unsigned long)closest_bound);
    CHECK(stalls == 0);
    CHECK(faults == 0);
    CHECK(last - first < 1000 || (ended > 100 && probes > 10000 && reads > 10000));
    return report("sessions");
}
