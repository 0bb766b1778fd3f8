#include "legal.h"
#include "messages.h"
#include "sctpr.h"
#include <string.h>

/* TSNs are counted from the first one on, as `place`. Those of the last KEPT ones are known. */
enum { KEPT = 1 << 16, CHUNKS = 400, GAPS = 400, NAMES = 400 };
struct sent {
    struct sctpr_data data;
    uint64_t hash;
    uint8_t was_sent, is_reported;
};
static struct sent rows[KEPT];
static uint32_t first;
/* How many TSNs were given out, and how many of them the last FORWARD-TSN skips. */
static uint32_t given_out, skipped;
static uint16_t next_sequence[STREAMS];
/* The reset that waits for its answer: its parameter, and its streams. */
static uint8_t reset[64];
static size_t reset_length, reset_streams;
static uint16_t resetting[STREAMS];

static struct sent *row_of(uint32_t place) { return &rows[place % KEPT]; }

static uint64_t hash_of(const uint8_t *bytes, size_t length) {
    uint64_t hash = 0xcbf29ce484222325ull;
    for (size_t i = 0; i < length; i++) hash = (hash ^ bytes[i]) * 0x100000001b3ull;
    return hash;
}

static int is_same_message(const struct sctpr_data *a, const struct sctpr_data *b) {
    return a->stream == b->stream && a->sequence == b->sequence && a->is_unordered == b->is_unordered && a->payload_type == b->payload_type;
}

static int is_resetting(uint16_t stream) {
    for (size_t i = 0; i < reset_streams; i++)
        if (resetting[i] == stream) return 1;
    return 0;
}

/* A new TSN: fragments of a message have TSNs one after the other (RFC 4960 6.9), and ordered messages numbers one after the other
 * (6.5). TSNs in between belong to messages that were abandoned, and are never sent (RFC 3758 3.5). */
static void note_new(uint32_t place, const struct sctpr_data *data, uint64_t hash) {
    const struct sent *last = row_of(place - 1);
    uint8_t goes_on = place > 0 && place == given_out && last->was_sent && !last->data.ends;
    if (place - given_out > 16) fault("legal: %u TSNs are left out", (unsigned)(place - given_out));
    for (uint32_t i = given_out; i <= place; i++) memset(row_of(i), 0, sizeof rows[0]);
    if (goes_on == data->begins) fault("legal: TSN %u: a message that is not begun once", (unsigned)data->tsn);
    last = row_of(place - 1);
    if (goes_on && !is_same_message(&last->data, data)) fault("legal: TSN %u: fragments of one message differ", (unsigned)data->tsn);
    if (data->stream >= STREAMS) {
        fault("legal: stream %u", data->stream);
        return;
    }
    if (reset_length > 0 && data->begins && is_resetting(data->stream)) fault("legal: TSN %u: a stream that is being reset", (unsigned)data->tsn);
    if (data->begins && !data->is_unordered && data->sequence != next_sequence[data->stream]++)
        fault("legal: TSN %u: number %u", (unsigned)data->tsn, data->sequence);
    row_of(place)->data = *data;
    row_of(place)->hash = hash;
    row_of(place)->was_sent = 1;
    given_out = place + 1;
}

static void on_data(const uint8_t *chunk, size_t length) {
    struct sctpr_data data;
    if (sctpr_read_data(chunk, length, &data) != SCTPR_OK) {
        fault("legal: no DATA chunk");
        return;
    }
    uint32_t place = data.tsn - first;
    uint64_t hash = hash_of(chunk, length);
    if (data.length == 0) fault("legal: TSN %u: no user data", (unsigned)data.tsn);
    if (place < skipped) fault("legal: TSN %u is sent after it was skipped", (unsigned)data.tsn);
    if (place >= given_out) note_new(place, &data, hash);
    else if (!row_of(place)->was_sent || row_of(place)->hash != hash)
        fault("legal: TSN %u is sent again as another chunk", (unsigned)data.tsn);
}

/* What is skipped was reported, or is of a message that may be abandoned; the last one ends a message, or was never sent (RFC 3758 3.5). */
static void on_forward_tsn(const uint8_t *chunk, size_t length) {
    struct sctpr_skip names[NAMES];
    uint32_t tsn;
    size_t count;
    if (sctpr_read_forward_tsn(chunk, length, &tsn, names, NAMES, &count) != SCTPR_OK) {
        fault("legal: no FORWARD-TSN");
        return;
    }
    uint32_t end = tsn - first + 1;
    if (end - given_out < 16) { /* TSNs that were given out and never sent */
        for (uint32_t i = given_out; i < end; i++) memset(row_of(i), 0, sizeof rows[0]);
        given_out = end;
    }
    if (end > given_out) fault("legal: FORWARD-TSN %u is past all", (unsigned)tsn);
    for (uint32_t i = skipped; i < end && end <= given_out; i++)
        if (row_of(i)->was_sent && !row_of(i)->is_reported && modes[row_of(i)->data.stream].reliability == SCTPR_RELIABLE)
            fault("legal: FORWARD-TSN %u skips TSN %u of a reliable message", (unsigned)tsn, (unsigned)(first + i));
    if (end <= given_out && row_of(end - 1)->was_sent && !row_of(end - 1)->data.ends)
        fault("legal: FORWARD-TSN %u ends within a message", (unsigned)tsn);
    if (end > skipped && end <= given_out) skipped = end;
}

/* A reset has the last TSN that was given out, or one past it that is never sent; it is sent again as it was, and one at a time (RFC 6525
 * 5.1.2). */
static void on_reset(const uint8_t *param, size_t length) {
    struct sctpr_reset words;
    if (length > sizeof reset || sctpr_read_reset(param, length, &words, resetting, STREAMS, &reset_streams) != SCTPR_OK) {
        fault("legal: no reset");
        return;
    }
    if (reset_streams == 0 || reset_streams > STREAMS) fault("legal: a reset of %u streams", (unsigned)reset_streams);
    if (reset_length == 0 && words.last_tsn + 1 - first - given_out > 16) fault("legal: a reset with the last TSN %u", (unsigned)words.last_tsn);
    if (reset_length > 0 && (reset_length != length || memcmp(reset, param, length) != 0)) fault("legal: a reset that differs, or a second one");
    reset_length = length;
    memcpy(reset, param, length);
}

/* Calls what takes each parameter of a RE-CONFIG of a type. */
static void each_param(const uint8_t *chunk, size_t length, uint16_t type, void (*take)(const uint8_t *, size_t)) {
    struct sctpr_param param;
    for (size_t at = 4; at < length && sctpr_read_any_param(chunk + at, length - at, &param) == SCTPR_OK; at += param.next)
        if (param.type == type) take(chunk + at, 4 + param.length);
}

/* Control chunks stand before DATA (RFC 4960 6.10), and no padding is looked at: reading has done so. */
void legal_sent(uint32_t first_tsn, const uint8_t *packet, size_t length) {
    struct sctpr_head head;
    struct sctpr_any_chunk chunks[CHUNKS];
    size_t count = 0;
    uint8_t has_data = 0;
    first = first_tsn;
    if (sctpr_read_any_packet(packet, length, &head, chunks, CHUNKS, &count) != SCTPR_OK) fault("legal: no packet");
    for (size_t i = 0; i < count && i < CHUNKS; i++) {
        const uint8_t *chunk = packet + chunks[i].at;
        if (has_data && chunks[i].type != SCTPR_DATA) fault("legal: a chunk of type %u behind DATA", chunks[i].type);
        has_data |= chunks[i].type == SCTPR_DATA;
        if (chunks[i].type == SCTPR_DATA) on_data(chunk, chunks[i].length);
        if (chunks[i].type == SCTPR_FORWARD_TSN) on_forward_tsn(chunk, chunks[i].length);
        if (chunks[i].type == SCTPR_RECONFIG) each_param(chunk, chunks[i].length, SCTPR_PARAM_OUTGOING_RESET, on_reset);
    }
}

/* Once a reset is performed the next ordered message of a stream has the number 0 (5.2.7). */
static void on_response(const uint8_t *param, size_t length) {
    struct sctpr_response response;
    uint32_t number;
    if (reset_length == 0 || sctpr_read_response(param, length, &response) != SCTPR_OK) return;
    if (sctpr_read_request(reset, reset_length, &number) != SCTPR_OK || response.response != number) return;
    if (response.result == SCTPR_RESULT_IN_PROGRESS) return;
    for (size_t i = 0; i < reset_streams && response.result == SCTPR_RESULT_PERFORMED; i++)
        if (resetting[i] < STREAMS) next_sequence[resetting[i]] = 0;
    reset_length = 0;
}

static void report(uint32_t place) {
    if (place < given_out) row_of(place)->is_reported = 1;
}

static void on_sack(const uint8_t *chunk, size_t length) {
    static uint32_t cumulative;
    struct sctpr_sack sack;
    struct sctpr_gap gaps[GAPS];
    if (sctpr_read_sack(chunk, length, &sack, gaps, GAPS, NULL, 0) != SCTPR_OK) return;
    uint32_t end = sack.cumulative_tsn + 1 - first;
    for (; cumulative < end && end <= given_out; cumulative++) report(cumulative);
    for (size_t i = 0; i < sack.blocks && i < GAPS; i++)
        for (uint32_t k = gaps[i].start; k <= gaps[i].end; k++) report(sack.cumulative_tsn + k - first);
}

void legal_came(const uint8_t *packet, size_t length) {
    struct sctpr_head head;
    struct sctpr_any_chunk chunks[CHUNKS];
    size_t count = 0;
    if (sctpr_read_any_packet(packet, length, &head, chunks, CHUNKS, &count) != SCTPR_OK) return;
    for (size_t i = 0; i < count && i < CHUNKS; i++) {
        const uint8_t *chunk = packet + chunks[i].at;
        if (chunks[i].type == SCTPR_SACK) on_sack(chunk, chunks[i].length);
        if (chunks[i].type == SCTPR_RECONFIG) each_param(chunk, chunks[i].length, SCTPR_PARAM_RECONFIG_RESPONSE, on_response);
    }
}
