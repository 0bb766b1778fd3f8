/* Every call of the header with any bytes, in any order, on hosts that come and go; now and then memory is refused. Drawn by a seed, so
 * that a run can be repeated.
 *
 *     any_calls [calls] [seed] [exact]
 *
 * What a call may write lies in a block of its own, filled with a pattern and with guards before and behind it: what the header says stays
 * has to have its pattern still, and a host that refused a call has to be as it was. With `exact` there are no guards, so that a program
 * as valgrind sees each byte too far itself. */
#include "check.h"
#include <stdlib.h>

enum { HOSTS = 4, KEPT = 32, LONGEST = 1500, PATTERN = 0xa5 };

static uint64_t state = 1, now = 1;
static size_t guard = 16;
static unsigned long faults;

static uint32_t any(uint32_t below) {
    state ^= state << 13;
    state ^= state >> 7;
    state ^= state << 17;
    return (uint32_t)(state >> 32) % below;
}

#define HOLDS(what) \
    do { \
        if (!(what) && ++faults <= 20) printf("%s:%d: not so: %s\n", __FILE__, __LINE__, #what); \
    } while (0)

/* ---- What is lent to a call ------------------------------------------------------------------------------------------------ */

static int is_pattern(const void *bytes, size_t from, size_t to) {
    for (size_t i = from; i < to; i++)
        if (((const uint8_t *)bytes)[i] != PATTERN) return 0;
    return 1;
}

/* A block of so many bytes, all of them the pattern. One of none may be NULL. */
static void *lend(size_t length) {
    if (length == 0 && any(2)) return NULL;
    uint8_t *block = malloc(length + 2 * guard > 0 ? length + 2 * guard : 1);
    if (!block) abort();
    memset(block, PATTERN, length + 2 * guard);
    return block + guard;
}

/* Takes a block back, of which the bytes from `from` on were to stay, and those around it. */
static void take_back(void *lent, size_t from, size_t length) {
    uint8_t *block = lent;
    if (!block) return;
    HOLDS(from <= length);
    HOLDS(is_pattern(block, from, length));
    HOLDS(is_pattern(block - guard, 0, guard) && is_pattern(block + length, 0, guard));
    free(block - guard);
}

/* The codes that a call may answer with; `bytes`: also each error of bytes. */
static int is_one_of(sctpr_code code, int bytes, const sctpr_code *codes, size_t count) {
    if (bytes && ((SCTPR_ERR_PACKET_RAW_TOO_SMALL <= code && code <= SCTPR_ERR_SHORT_BUFFER) || code == SCTPR_NO_MEMORY)) return 1;
    for (size_t i = 0; i < count; i++)
        if (code == codes[i]) return 1;
    return 0;
}
#define ONE_OF(code, bytes, ...) \
    HOLDS(is_one_of(code, bytes, (const sctpr_code[]){ __VA_ARGS__ }, sizeof((sctpr_code[]){ __VA_ARGS__ }) / sizeof(sctpr_code)))

/* ---- Hosts ----------------------------------------------------------------------------------------------------------------- */

/* A chunk that a call wrote. */
struct kept {
    uint8_t bytes[LONGEST];
    size_t length;
};

struct host {
    sctpr_sender sender;
    sctpr_receiver receiver;
    struct kept kept[KEPT];
};
static struct host hosts[HOSTS];

/* What can be told of a host. */
struct told {
    uint32_t next_tsn, acked_tsn, point, cumulative, window;
    size_t bytes, chunks, pending, held;
};

static struct told tell(struct host *h) {
    struct told t;
    memset(&t, 0, sizeof t);
    t.next_tsn = sctpr_sender_next_tsn(&h->sender);
    t.acked_tsn = sctpr_sender_acked_tsn(&h->sender);
    t.point = sctpr_sender_advanced_ack_point(&h->sender);
    t.cumulative = sctpr_receiver_cumulative_tsn(&h->receiver);
    t.window = sctpr_receiver_window(&h->receiver);
    t.bytes = sctpr_sender_bytes_in_flight(&h->sender);
    t.chunks = sctpr_sender_chunks_in_flight(&h->sender);
    t.pending = sctpr_sender_pending(&h->sender);
    t.held = sctpr_receiver_held_bytes(&h->receiver);
    return t;
}

static void make_host(struct host *h) {
    uint32_t tsn = any(2) ? 0u - any(40) : any(1000) * 4294967u, most = any(4) ? 5000 : any(3) * 100;
    memset(h, 0, sizeof *h);
    while (sctpr_sender_new(tsn, any(8) ? 1 + any(1200) : 1 + any(65519), most, any(3), &h->sender) != SCTPR_OK) granted = -1;
    if (any(8)) while (sctpr_receiver_new(tsn, most, SCTPR_LEAST_WINDOW(most, 65519) + 1 + any(20000), 1 + any(70000), &h->receiver) != SCTPR_OK) granted = -1;
    else while (sctpr_receiver_new_unlimited(tsn, most, &h->receiver) != SCTPR_OK) granted = -1;
}

/* Twice: the second time does nothing. */
static void free_host(struct host *h) {
    for (int i = 0; i < 2; i++) {
        sctpr_sender_free(&h->sender);
        sctpr_receiver_free(&h->receiver);
    }
}

static void keep(struct host *h, const uint8_t *bytes, size_t length) {
    struct kept *row = &h->kept[any(KEPT)];
    if (length > sizeof row->bytes) return;
    memcpy(row->bytes, bytes, length);
    row->length = length;
}

/* A chunk's bytes: one that was kept, as it is or with a byte changed, or any bytes, mostly with a header. */
static uint8_t *lend_chunk(struct host *h, size_t *length) {
    static const uint8_t types[] = { 0, 1, 2, 3, 4, 5, 6, 7, 8, 9, 10, 11, 14, 130, 192, 194, 99 };
    const struct kept *row = &h->kept[any(KEPT)];
    int is_kept = any(4) > 0 && row->length > 0;
    *length = is_kept ? row->length : any(129);
    uint8_t *bytes = lend(*length);
    if (is_kept) {
        memcpy(bytes, row->bytes, *length);
        if (any(4) == 0) bytes[any((uint32_t)*length)] ^= (uint8_t)(1 << any(8));
        return bytes;
    }
    for (size_t i = 0; i < *length; i++) bytes[i] = any(4) ? (uint8_t)any(8) : (uint8_t)any(256);
    if (*length >= 4 && any(8)) {
        bytes[0] = types[any(sizeof types)];
        bytes[1] = any(2) ? 0 : (uint8_t)any(16);
        bytes[2] = 0;
        bytes[3] = (uint8_t)(any(4) ? *length : any(64));
    }
    return bytes;
}

/* Takes back what was lent to be read alone. */
static void take_back_chunk(uint8_t *bytes, size_t length) { take_back(bytes, length, length); }

static uint16_t a_stream(void) { return (uint16_t)(any(8) ? any(4) : any(65536)); }

/* A TSN at or near one that the host knows. */
static uint32_t a_tsn(struct host *h) {
    uint32_t near = any(2) ? sctpr_sender_acked_tsn(&h->sender) : sctpr_receiver_cumulative_tsn(&h->receiver);
    return any(16) ? near + any(20) - 4 : near + any(2) * 0x80000000u + any(70000);
}

static size_t a_room(void) { return any(4) ? LONGEST : any(65); }

/* What a call that writes a chunk left: with SCTPR_OK the bytes before `written` alone, and else none; `written` stays, but with the codes
 * that tell what is wanted. Each that was written is kept. */
static void take_back_written(struct host *h, sctpr_code code, uint8_t *out, size_t room, size_t written) {
    if (code == SCTPR_OK) {
        HOLDS(written % 4 == 0 && written <= room);
        keep(h, out, written);
    }
    HOLDS(code == SCTPR_OK || code == SCTPR_SHORT_BUFFER || written == 7);
    take_back(out, code == SCTPR_OK ? written : 0, room);
}

/* ---- Packets --------------------------------------------------------------------------------------------------------------- */

/* The readers of parameters of a RE-CONFIG, of which one at most takes them as what they are, but for a reset, which is a request too. */
static void read_reconfig(const uint8_t *bytes, size_t length) {
    size_t count = 7, named = 7, room = any(5);
    struct sctpr_reset reset;
    struct sctpr_response response;
    struct sctpr_add_streams add;
    uint32_t number = 7, asked = 7;
    uint16_t *streams = lend(room * sizeof *streams);
    int is_request = sctpr_read_request(bytes, length, &number) == SCTPR_OK;
    int is_reset = sctpr_read_reset(bytes, length, &reset, streams, room, &count) == SCTPR_OK;
    int is_response = sctpr_read_response(bytes, length, &response) == SCTPR_OK;
    int is_added = sctpr_read_add_streams(bytes, length, &add) == SCTPR_OK;
    int is_asked = sctpr_read_incoming_reset(bytes, length, &asked, NULL, 0, &named) == SCTPR_OK;
    HOLDS(is_asked ? is_request && !is_reset && asked == number && 8 + 2 * named <= length : asked == 7 && named == 7);
    HOLDS(!is_added || (is_request && !is_reset && add.request == number && add.is_incoming <= 1));
    HOLDS(is_request ? length >= 8 && !is_response : number == 7);
    HOLDS(is_reset ? is_request && reset.request == number && 16 + 2 * count <= length : count == 7);
    take_back(streams, (!is_reset ? 0 : count < room ? count : room) * sizeof *streams, room * sizeof *streams);
}

static sctpr_code read_chunks(struct host *h) {
    size_t length, count = 7, room = any(5);
    uint8_t *bytes = lend_chunk(h, &length);
    struct sctpr_data data;
    struct sctpr_sack sack;
    struct sctpr_init init;
    struct sctpr_param param;
    struct sctpr_cause cause;
    uint32_t tsn = 7;
    struct sctpr_gap *gaps = lend(room * sizeof *gaps);
    uint32_t *repeats = lend(room * sizeof *repeats);
    struct sctpr_skip *skips = lend(room * sizeof *skips);
    size_t gaps_written = 0, repeats_written = 0, skips_written = 0;
    if (sctpr_read_data(bytes, length, &data) == SCTPR_OK) HOLDS(data.length + 16 <= length && data.begins <= 1 && data.ends <= 1);
    if (sctpr_read_sack(bytes, length, &sack, gaps, room, repeats, room) == SCTPR_OK) {
        HOLDS(16 + 4 * sack.blocks + 4 * sack.duplicates <= length);
        gaps_written = sack.blocks < room ? sack.blocks : room;
        repeats_written = sack.duplicates < room ? sack.duplicates : room;
    }
    if (sctpr_read_forward_tsn(bytes, length, &tsn, skips, room, &count) == SCTPR_OK) {
        HOLDS(8 + 4 * count <= length);
        skips_written = count < room ? count : room;
    } else HOLDS(tsn == 7 && count == 7);
    if (sctpr_read_shutdown(bytes, length, &tsn) == SCTPR_OK) HOLDS(length >= 8);
    if (sctpr_read_cause(bytes, length, &cause) == SCTPR_OK) HOLDS(4 + cause.length <= length && 4 <= cause.next && cause.next <= length);
    if (sctpr_read_init(bytes, length, &init) == SCTPR_OK) HOLDS(20 <= length && init.is_ack <= 1);
    if (sctpr_read_param(bytes, length, &param) == SCTPR_OK) HOLDS(4 + param.length <= length && 4 <= param.next && param.next <= length);
    if (sctpr_read_any_param(bytes, length, &param) == SCTPR_OK) HOLDS(4 + param.length <= length && 4 <= param.next && param.next <= length);
    read_reconfig(bytes, length);
    take_back(gaps, gaps_written * sizeof *gaps, room * sizeof *gaps);
    take_back(repeats, repeats_written * sizeof *repeats, room * sizeof *repeats);
    take_back(skips, skips_written * sizeof *skips, room * sizeof *skips);
    take_back_chunk(bytes, length);
    return SCTPR_OK;
}

static sctpr_code write_chunk(struct host *h) {
    size_t length, room = a_room(), written = 7;
    uint8_t *value = lend_chunk(h, &length), *out = lend(room);
    sctpr_code code;
    uint8_t type = (uint8_t)(any(4) ? any(16) : any(256));
    if (any(2)) code = sctpr_write_chunk(type, value, length, out, room, &written);
    else if (any(2)) code = sctpr_write_chunk_with_flags(type, (uint8_t)any(16), value, length, out, room, &written);
    else if (any(2)) code = sctpr_write_cause((uint16_t)any(16), value, length, out, room, &written);
    else code = sctpr_write_param((uint16_t)(any(2) ? any(16) : any(65536)), value, length, out, room, &written);
    ONE_OF(code, 1, SCTPR_OK, SCTPR_SHORT_BUFFER, SCTPR_UNKNOWN_CHUNK, SCTPR_LENGTH_TOO_LARGE, SCTPR_NOT_AS_GIVEN);
    if (code == SCTPR_SHORT_BUFFER) HOLDS(written > room);
    take_back_written(h, code, out, room, written);
    take_back_chunk(value, length);
    return code;
}

/* A request of a RE-CONFIG of any words. */
static sctpr_code write_request(struct host *h) {
    size_t count = any(5), room = a_room(), written = 7;
    uint16_t *streams = lend(count * sizeof *streams);
    uint8_t *out = lend(room);
    struct sctpr_reset reset = { any(9), any(9), a_tsn(h) };
    struct sctpr_add_streams add = { any(9), (uint16_t)any(65536), (uint8_t)any(3) };
    sctpr_code code;
    if (any(2)) code = sctpr_write_reset(&reset, streams, count, out, room, &written);
    else if (any(2)) code = sctpr_write_incoming_reset(any(9), streams, count, out, room, &written);
    else if (any(2)) code = sctpr_write_ssn_tsn_reset(any(9), out, room, &written);
    else code = sctpr_write_add_streams(&add, out, room, &written);
    ONE_OF(code, 1, SCTPR_OK, SCTPR_SHORT_BUFFER);
    if (code == SCTPR_SHORT_BUFFER) HOLDS(written > room);
    take_back_written(h, code, out, room, written);
    take_back(streams, 0, count * sizeof *streams);
    return code;
}

static sctpr_code write_init(struct host *h) {
    struct sctpr_init init = { any(1000), any(100000), a_tsn(h), (uint16_t)any(9), (uint16_t)any(9), (uint8_t)any(3) };
    size_t length, room = a_room(), written = 7;
    uint8_t *params = lend_chunk(h, &length), *out = lend(room);
    if (any(2)) {
        take_back_chunk(params, length);
        params = NULL;
        length = 0;
    }
    sctpr_code code = sctpr_write_init(&init, params, length, out, room, &written);
    ONE_OF(code, 1, SCTPR_OK, SCTPR_SHORT_BUFFER, SCTPR_LENGTH_TOO_LARGE, SCTPR_NOT_AS_GIVEN);
    take_back_written(h, code, out, room, written);
    take_back_chunk(params, length);
    return code;
}

/* A packet of a chunk, whole or not, sealed here or under a sum. */
static sctpr_code seal_and_read(struct host *h) {
    struct sctpr_head head = { any(1000), (uint16_t)any(65536), (uint16_t)any(65536) }, got = { 7, 7, 7 };
    size_t length, room = any(4), count = 7;
    uint8_t *chunk = lend_chunk(h, &length), *packet = lend(12 + length);
    struct sctpr_chunk *rows = lend(room * sizeof *rows);
    if (length > 0) memcpy(packet + 12, chunk, length);
    size_t sealed = any(8) ? 12 + length : any(13);
    sctpr_code code = any(2) ? sctpr_seal_packet(&head, packet, sealed) : sctpr_write_head(&head, packet, sealed);
    HOLDS(code == (sealed < 12 ? SCTPR_SHORT_BUFFER : SCTPR_OK));
    if (any(4) == 0) HOLDS(sctpr_store_sum(any(1000), packet, sealed) == code);
    if (any(2)) code = sctpr_read_packet(packet, sealed, &got, rows, room, &count);
    else code = sctpr_read_packet_with_sum(packet, sealed, any(1000), &got, rows, room, &count);
    ONE_OF(code, 1, SCTPR_OK, SCTPR_BAD_CHECKSUM, SCTPR_UNKNOWN_CHUNK);
    if (code == SCTPR_OK) HOLDS(got.source_port == head.source_port && got.verification_tag == head.verification_tag);
    else HOLDS(got.verification_tag == 7 && count == 7);
    for (size_t i = 0; code == SCTPR_OK && i < count && i < room; i++) HOLDS(rows[i].at + rows[i].length <= sealed && 4 <= rows[i].length);
    take_back(rows, (code != SCTPR_OK ? 0 : count < room ? count : room) * sizeof *rows, room * sizeof *rows);
    take_back(packet, 12 + length, 12 + length);
    take_back_chunk(chunk, length);
    return code;
}

/* A packet of several chunks, of known and unknown types; each row that is told lies in it. */
static sctpr_code read_any(struct host *h) {
    struct sctpr_head head = { any(1000), (uint16_t)any(65536), (uint16_t)any(65536) }, got = { 7, 7, 7 };
    size_t length, room = any(4), count = 7, at = 12;
    uint8_t *packet = lend(12 + 3 * 160);
    struct sctpr_any_chunk *rows = lend(room * sizeof *rows);
    for (int i = 0; i < 3; i++) {
        uint8_t *chunk = lend_chunk(h, &length);
        if (length > 0 && length <= 160) memcpy(packet + at, chunk, length);
        if (length > 0 && length <= 160 && any(4) == 0) packet[at] = (uint8_t)any(256);
        at += length <= 160 ? length : 0;
        take_back_chunk(chunk, length);
    }
    HOLDS(sctpr_seal_packet(&head, packet, at) == SCTPR_OK);
    sctpr_code code;
    if (any(4)) code = sctpr_read_any_packet(packet, at, &got, rows, room, &count);
    else code = sctpr_read_any_packet_with_sum(packet, at, any(1000), &got, rows, room, &count);
    ONE_OF(code, 1, SCTPR_OK, SCTPR_BAD_CHECKSUM);
    HOLDS(code == SCTPR_OK ? got.source_port == head.source_port : got.verification_tag == 7 && count == 7);
    size_t told = code != SCTPR_OK ? 0 : count < room ? count : room;
    for (size_t i = 0; i < told; i++)
        HOLDS(rows[i].at + rows[i].length <= at && 4 <= rows[i].length && rows[i].is_known + rows[i].is_reported <= 1);
    take_back(rows, told * sizeof *rows, room * sizeof *rows);
    take_back(packet, 12 + 3 * 160, 12 + 3 * 160);
    return code;
}

static sctpr_code code_name(struct host *h) {
    size_t room = any(SCTPR_NAME_ROOM + 1), written = 7;
    uint8_t *out = lend(room);
    sctpr_code code = sctpr_code_name(any(4) ? any(100) : any(UINT32_MAX), out, room, &written);
    (void)h;
    ONE_OF(code, 0, SCTPR_OK, SCTPR_SHORT_BUFFER);
    HOLDS(written <= SCTPR_NAME_ROOM && (code == SCTPR_OK) == (written <= room));
    take_back(out, code == SCTPR_OK ? written : 0, room);
    return code;
}

/* ---- Receiver -------------------------------------------------------------------------------------------------------------- */

static sctpr_code receiver_open(struct host *h) {
    sctpr_code code = sctpr_receiver_open(&h->receiver, a_stream());
    ONE_OF(code, 0, SCTPR_OK, SCTPR_STREAM_OPEN, SCTPR_NO_MEMORY);
    return code;
}

static sctpr_code receiver_close(struct host *h) {
    if (any(8) == 0) sctpr_receiver_close(&h->receiver, a_stream());
    return SCTPR_OK;
}

static sctpr_code receiver_reset(struct host *h) {
    sctpr_code code = sctpr_receiver_reset(&h->receiver, a_stream(), a_tsn(h));
    ONE_OF(code, 0, SCTPR_OK, SCTPR_STREAM_UNKNOWN, SCTPR_RESET_IN_PROGRESS, SCTPR_NO_MEMORY);
    return code;
}

static sctpr_code receiver_data(struct host *h) {
    size_t length;
    uint8_t *chunk = lend_chunk(h, &length), complete = 7;
    sctpr_code code = sctpr_receiver_data(&h->receiver, chunk, length, &complete);
    ONE_OF(code, 1, SCTPR_OK, SCTPR_REPEAT, SCTPR_SSN_TOO_FAR, SCTPR_TSN_OPPOSITE, SCTPR_TSN_TOO_FAR, SCTPR_WINDOW_FULL, SCTPR_STREAM_UNKNOWN,
           SCTPR_MESSAGE_TOO_LARGE);
    HOLDS(code == SCTPR_OK ? complete <= 1 : complete == 7);
    take_back_chunk(chunk, length);
    return code;
}

static sctpr_code receiver_discard(struct host *h) {
    sctpr_code code = sctpr_receiver_discard(&h->receiver, a_tsn(h));
    ONE_OF(code, 0, SCTPR_OK, SCTPR_REPEAT, SCTPR_TSN_OPPOSITE, SCTPR_TSN_TOO_FAR, SCTPR_WINDOW_FULL, SCTPR_NO_MEMORY);
    return code;
}

static sctpr_code receiver_forward_tsn(struct host *h) {
    size_t length;
    uint8_t *chunk = lend_chunk(h, &length);
    sctpr_code code;
    if (any(2)) code = sctpr_receiver_forward_tsn(&h->receiver, chunk, length);
    else code = sctpr_receiver_forward_tsn_past_closed(&h->receiver, chunk, length);
    ONE_OF(code, 1, SCTPR_OK, SCTPR_STALE, SCTPR_NAMED_STREAM_UNKNOWN, SCTPR_NAMED_SSN_TOO_FAR, SCTPR_TSN_OPPOSITE);
    take_back_chunk(chunk, length);
    return code;
}

static sctpr_code receiver_read(struct host *h) {
    uint16_t stream = a_stream();
    size_t next = 7, size = 7, room = any(4) ? 6000 : any(65);
    uint32_t next_type = 7, type = 7;
    uint8_t *out = lend(room);
    sctpr_code told = sctpr_receiver_next_length(&h->receiver, stream, &next, &next_type);
    sctpr_code code = sctpr_receiver_read(&h->receiver, stream, out, room, &size, &type);
    ONE_OF(told, 0, SCTPR_OK, SCTPR_NOTHING, SCTPR_STREAM_UNKNOWN);
    HOLDS(code == (told == SCTPR_OK && next > room ? SCTPR_SHORT_BUFFER : told) && size == next && type == next_type);
    HOLDS(told == SCTPR_OK || next == 7);
    take_back(out, code == SCTPR_OK ? size : 0, room);
    return code == SCTPR_OK || code == SCTPR_NOTHING ? SCTPR_OK : code;
}

static sctpr_code receiver_readable(struct host *h) {
    size_t room = any(5), count = 7;
    uint16_t *streams = lend(room * sizeof *streams);
    sctpr_code code = sctpr_receiver_readable_streams(&h->receiver, streams, room, &count);
    ONE_OF(code, 0, SCTPR_OK, SCTPR_SHORT_BUFFER, SCTPR_NO_MEMORY);
    HOLDS(code == SCTPR_OK ? count <= room : code == SCTPR_SHORT_BUFFER ? count > room : count == 7);
    take_back(streams, code == SCTPR_OK ? count * sizeof *streams : 0, room * sizeof *streams);
    return code;
}

static sctpr_code receiver_sack(struct host *h) {
    size_t room = a_room(), written = 7;
    uint8_t *out = lend(room);
    sctpr_code code = sctpr_receiver_sack(&h->receiver, out, room, &written);
    ONE_OF(code, 0, SCTPR_OK, SCTPR_SHORT_BUFFER, SCTPR_NO_MEMORY);
    HOLDS(code == SCTPR_OK ? written >= 16 : written == 7);
    take_back_written(h, code, out, room, written);
    return code;
}

/* ---- Sender ---------------------------------------------------------------------------------------------------------------- */

static sctpr_code sender_open(struct host *h) {
    sctpr_code code = sctpr_sender_open(&h->sender, a_stream());
    ONE_OF(code, 0, SCTPR_OK, SCTPR_STREAM_OPEN, SCTPR_NO_MEMORY);
    return code;
}

static sctpr_code sender_close(struct host *h) {
    uint16_t stream = a_stream();
    if (any(8) == 0 && sctpr_sender_is_drained(&h->sender, stream)) sctpr_sender_close(&h->sender, stream);
    return SCTPR_OK;
}

static sctpr_code sender_set(struct host *h) {
    sctpr_code code;
    switch (any(5)) {
    case 0: code = sctpr_sender_set_fragment_size(&h->sender, any(8) ? any(1200) : any(70000)); break;
    case 1: code = sctpr_sender_set_low_threshold(&h->sender, a_stream(), any(2000)); break;
    case 2: code = sctpr_sender_reset(&h->sender, a_stream()); break;
    default: code = sctpr_sender_set_mode(&h->sender, a_stream(), (uint8_t)any(3), any(4), any(2) ? any(40) : 59 + any(5)); break;
    }
    ONE_OF(code, 0, SCTPR_OK, SCTPR_INVALID, SCTPR_STREAM_UNKNOWN, SCTPR_STREAM_BUSY);
    return code;
}

static sctpr_code sender_write(struct host *h) {
    size_t length = any(4) ? any(300) : any(6000), fragments = 7;
    uint64_t number = 7;
    static const uint32_t types[] = { SCTPR_PPID_DCEP, SCTPR_PPID_STRING, SCTPR_PPID_BINARY, SCTPR_PPID_STRING_EMPTY, SCTPR_PPID_BINARY_EMPTY,
                                      SCTPR_PPID_OTHER };
    uint32_t type = any(4) ? types[any(6)] : any(2) ? 59 + any(5) : (uint32_t)any(1 << 30) << 2;
    if (sctpr_sender_pending(&h->sender) > 4000) return SCTPR_OK;
    uint8_t *message = lend(length);
    sctpr_code code = sctpr_sender_write(&h->sender, a_stream(), type, message, length, &number, &fragments);
    ONE_OF(code, 0, SCTPR_OK, SCTPR_NOTHING, SCTPR_STREAM_UNKNOWN, SCTPR_MESSAGE_TOO_LARGE, SCTPR_QUEUE_FULL, SCTPR_NO_MEMORY);
    HOLDS(code == SCTPR_OK ? fragments >= 1 : number == 7 && fragments == 7);
    take_back(message, 0, length);
    return code;
}

static sctpr_code sender_send(struct host *h) {
    size_t room = a_room(), written = 7;
    uint32_t tsn = 7, next = sctpr_sender_next_tsn(&h->sender);
    uint8_t *out = lend(room);
    sctpr_code code = sctpr_sender_send_next(&h->sender, now, out, room, &written, &tsn);
    ONE_OF(code, 0, SCTPR_OK, SCTPR_NOTHING, SCTPR_SHORT_BUFFER, SCTPR_TSNS_USED_UP, SCTPR_SSNS_USED_UP, SCTPR_NO_MEMORY);
    HOLDS(code == SCTPR_OK ? tsn == next : tsn == 7);
    take_back_written(h, code, out, room, written);
    return code;
}

static sctpr_code sender_resend(struct host *h) {
    size_t room = a_room(), written = 7;
    struct sctpr_in_flight row;
    uint32_t tsn = a_tsn(h);
    if (any(2) && sctpr_sender_next_to_retransmit(&h->sender, &row) == SCTPR_OK) tsn = row.tsn;
    uint8_t *out = lend(room);
    sctpr_code code = sctpr_sender_resend(&h->sender, tsn, now, out, room, &written);
    ONE_OF(code, 0, SCTPR_OK, SCTPR_SHORT_BUFFER, SCTPR_NOT_IN_FLIGHT, SCTPR_NO_MEMORY);
    take_back_written(h, code, out, room, written);
    return code;
}

static sctpr_code sender_mark(struct host *h) {
    size_t chunks = sctpr_sender_chunks_in_flight(&h->sender);
    if (any(4) == 0) sctpr_sender_retransmit_all(&h->sender);
    else HOLDS(sctpr_sender_add_miss_indications(&h->sender, a_tsn(h)) <= chunks);
    sctpr_sender_start(&h->sender, now);
    return SCTPR_OK;
}

static sctpr_code sender_in_flight(struct host *h) {
    struct sctpr_in_flight row;
    uint32_t tsn = a_tsn(h), earliest = 7;
    uint64_t moment;
    size_t place = any(40), amount;
    sctpr_code code = sctpr_sender_in_flight(&h->sender, tsn, &row);
    ONE_OF(code, 0, SCTPR_OK, SCTPR_NOT_IN_FLIGHT);
    if (code == SCTPR_OK) HOLDS(row.tsn == tsn);
    code = sctpr_sender_in_flight_at(&h->sender, place, &row);
    HOLDS(code == (place < sctpr_sender_chunks_in_flight(&h->sender) ? SCTPR_OK : SCTPR_NOTHING));
    if (code == SCTPR_OK) HOLDS(row.tsn == sctpr_sender_acked_tsn(&h->sender) + 1 + (uint32_t)place);
    code = sctpr_sender_earliest_outstanding(&h->sender, &earliest);
    ONE_OF(code, 0, SCTPR_OK, SCTPR_NOTHING);
    if (code == SCTPR_OK) HOLDS(sctpr_sender_in_flight(&h->sender, earliest, &row) == SCTPR_OK && !row.is_acked && !row.is_abandoned);
    ONE_OF(sctpr_sender_next_timeout(&h->sender, &moment), 0, SCTPR_OK, SCTPR_NOTHING);
    ONE_OF(sctpr_sender_buffered_amount(&h->sender, a_stream(), &amount), 0, SCTPR_OK, SCTPR_STREAM_UNKNOWN);
    return SCTPR_OK;
}

/* Rows for what is in flight, one fewer, or one more; none where nobody wants them. */
static size_t row_room(struct host *h) {
    size_t room = sctpr_sender_chunks_in_flight(&h->sender) + any(3);
    return room == 0 ? 0 : room - 1;
}

static sctpr_code sender_acked(struct host *h) {
    size_t length, room = row_room(h), count = 7, chunks = sctpr_sender_chunks_in_flight(&h->sender);
    uint8_t *chunk = lend_chunk(h, &length);
    struct sctpr_acked *rows = lend(room * sizeof *rows);
    sctpr_code code;
    if (any(8)) code = sctpr_sender_acked(&h->sender, chunk, length, rows, room, &count);
    else code = sctpr_sender_acked_up_to(&h->sender, a_tsn(h), rows, room, &count);
    ONE_OF(code, 1, SCTPR_OK, SCTPR_STALE, SCTPR_SHORT_BUFFER, SCTPR_SACK_BEYOND_SENT, SCTPR_SACK_BAD_GAP);
    HOLDS(count == (code == SCTPR_STALE ? 0 : code == SCTPR_SHORT_BUFFER ? chunks : code == SCTPR_OK && count <= chunks ? count : 7));
    HOLDS(code == SCTPR_OK ? room == 0 || count <= room : code != SCTPR_SHORT_BUFFER || room > 0);
    take_back(rows, code == SCTPR_OK && room > 0 ? count * sizeof *rows : 0, room * sizeof *rows);
    take_back_chunk(chunk, length);
    return code;
}

static sctpr_code sender_take_back(struct host *h) {
    size_t length, room = row_room(h), count = 7, chunks = sctpr_sender_chunks_in_flight(&h->sender);
    uint8_t *chunk = lend_chunk(h, &length);
    struct sctpr_taken_back *rows = lend(room * sizeof *rows);
    sctpr_code code = sctpr_sender_take_back(&h->sender, chunk, length, rows, room, &count);
    ONE_OF(code, 1, SCTPR_OK, SCTPR_STALE, SCTPR_SHORT_BUFFER, SCTPR_SACK_BEYOND_SENT, SCTPR_SACK_BAD_GAP, SCTPR_QUEUE_FULL);
    HOLDS(count == (code == SCTPR_STALE ? 0 : code == SCTPR_SHORT_BUFFER ? chunks : code == SCTPR_OK && count <= chunks ? count : 7));
    HOLDS(code == SCTPR_OK ? room == 0 || count <= room : code != SCTPR_SHORT_BUFFER || room > 0);
    take_back(rows, code == SCTPR_OK && room > 0 ? count * sizeof *rows : 0, room * sizeof *rows);
    take_back_chunk(chunk, length);
    return code;
}

static sctpr_code sender_abandon(struct host *h) {
    struct sctpr_abandoned *row = lend(sizeof *row);
    struct sctpr_expired *gone = lend(sizeof *gone);
    sctpr_code first = sctpr_sender_expire(&h->sender, now, gone), code;
    ONE_OF(first, 0, SCTPR_OK, SCTPR_NOTHING);
    if (any(2)) {
        code = sctpr_sender_expire_tail(&h->sender, now, row);
        ONE_OF(code, 0, SCTPR_OK, SCTPR_NOTHING, SCTPR_TSNS_USED_UP, SCTPR_NO_MEMORY);
    } else {
        code = sctpr_sender_abandon(&h->sender, a_tsn(h), row);
        ONE_OF(code, 0, SCTPR_OK, SCTPR_NOT_IN_FLIGHT, SCTPR_TSNS_USED_UP, SCTPR_NO_MEMORY);
    }
    take_back(row, code == SCTPR_OK ? sizeof *row : 0, sizeof *row);
    take_back(gone, first == SCTPR_OK ? sizeof *gone : 0, sizeof *gone);
    return first == SCTPR_OK ? SCTPR_OK : code;
}

static sctpr_code sender_expire(struct host *h) {
    size_t chunks = sctpr_sender_chunks_in_flight(&h->sender), room = chunks + any(3) - (chunks > 0), count = 7;
    struct sctpr_abandoned *rows = lend(room * sizeof *rows);
    sctpr_code code;
    if (any(2)) code = sctpr_sender_expire_late(&h->sender, now, rows, room, &count);
    else code = sctpr_sender_expire_rexmit(&h->sender, rows, room, &count);
    ONE_OF(code, 0, SCTPR_OK, SCTPR_SHORT_BUFFER, SCTPR_TSNS_USED_UP, SCTPR_NO_MEMORY);
    HOLDS(code == SCTPR_OK ? count <= chunks : code == SCTPR_SHORT_BUFFER ? count == chunks : count == 7);
    HOLDS(code == SCTPR_OK ? room == 0 || count <= room : code != SCTPR_SHORT_BUFFER || (room > 0 && room < chunks));
    take_back(rows, code == SCTPR_OK && room > 0 ? count * sizeof *rows : 0, room * sizeof *rows);
    return code;
}

static sctpr_code sender_forward_tsn(struct host *h) {
    size_t room = a_room(), written = 7;
    uint8_t *out = lend(room);
    sctpr_code code;
    if (any(2)) code = sctpr_sender_forward_tsn(&h->sender, out, room, &written);
    else code = sctpr_sender_forward_tsn_to(&h->sender, a_tsn(h), out, room, &written);
    ONE_OF(code, 0, SCTPR_OK, SCTPR_NOTHING, SCTPR_SHORT_BUFFER, SCTPR_LENGTH_TOO_LARGE, SCTPR_NO_MEMORY);
    take_back_written(h, code, out, room, written);
    return code;
}

/* ---- The run --------------------------------------------------------------------------------------------------------------- */

static sctpr_code (*const calls[])(struct host *) = {
    read_chunks, write_chunk, write_request, write_init, seal_and_read, read_any, code_name, receiver_open, receiver_close, receiver_reset, receiver_data,
    receiver_data, receiver_data, receiver_discard, receiver_forward_tsn, receiver_read, receiver_readable, receiver_sack, receiver_sack,
    sender_open, sender_close, sender_set, sender_write, sender_write, sender_send, sender_send, sender_send, sender_resend, sender_mark,
    sender_in_flight, sender_acked, sender_acked, sender_take_back, sender_abandon, sender_expire, sender_forward_tsn
};
enum { CALLS = sizeof calls / sizeof *calls };
static unsigned long done[CALLS];

static void one_call(struct host *h) {
    uint32_t which = any(CALLS);
    struct told before = tell(h);
    granted = any(8) ? -1 : (long)any(6);
    sctpr_code code = calls[which](h);
    granted = -1;
    now += any(20000000);
    HOLDS(code <= SCTPR_NOTHING || SCTPR_NO_MEMORY <= code);
    done[which] += code == SCTPR_OK;
    struct told after = tell(h);
    if (code >= SCTPR_NO_MEMORY || code == SCTPR_NOTHING || code == SCTPR_STALE) HOLDS(memcmp(&before, &after, sizeof before) == 0);
}

int main(int argc, char **argv) {
    long times = argc > 1 ? atol(argv[1]) : 8000000;
    uint64_t seed = argc > 2 ? strtoull(argv[2], NULL, 0) : 1;
    if (argc > 3) guard = 0;
    state = seed * 0x9e3779b97f4a7c15ull | 1;
    for (int i = 0; i < HOSTS; i++) make_host(&hosts[i]);
    for (long i = 0; i < times && faults == 0; i++) {
        struct host *h = &hosts[any(HOSTS)];
        one_call(h);
        if (any(1000) == 0) {
            free_host(h);
            make_host(h);
        }
    }
    for (int i = 0; i < HOSTS; i++) free_host(&hosts[i]);
    for (int i = 0; i < CALLS; i++) CHECK(times < 100000 || done[i] > 0);
    CHECK(faults == 0);
    CHECK(held == 0);
    printf("any_calls: seed %lu, %ld calls, state %016lx\n", (unsigned long)seed, times, (unsigned long)state);
    return report("any_calls");
}
