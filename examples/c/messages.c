#include "messages.h"
#include "network.h"
#include "sctpr.h"
#include <stdarg.h>
#include <stdio.h>
#include <stdlib.h>
#include <string.h>

const struct mode modes[STREAMS] = {
    { "ordered", 0, SCTPR_RELIABLE, 0 },           { "unordered", 1, SCTPR_RELIABLE, 0 },
    { "ordered, sent once", 0, SCTPR_REXMIT, 0 },  { "unordered, sent once", 1, SCTPR_REXMIT, 0 },
    { "ordered, 3 times", 0, SCTPR_REXMIT, 2 },    { "unordered, 3 times", 1, SCTPR_REXMIT, 2 },
    { "ordered, 300 ms", 0, SCTPR_TIMED, 300 },    { "unordered, 300 ms", 1, SCTPR_TIMED, 300 },
};
struct channel channels[2][STREAMS];
unsigned long faults;
uint64_t message_random = 1;

void fault(const char *format, ...) {
    va_list list;
    if (++faults > 20) return;
    va_start(list, format);
    printf("FAULT: ");
    vprintf(format, list);
    putchar('\n');
    va_end(list);
}

static int may_be_lost(int stream) { return modes[stream].reliability != SCTPR_RELIABLE; }

uint32_t message_length(int stream, int separate) {
    enum { ONE_CHUNK = 1172 };
    uint32_t r = (uint32_t)(random_next(&message_random) % 1000), least = may_be_lost(stream) ? 8 : 1;
    uint32_t most = r < 400 ? 64 : r < 800 ? 1500 : r < 950 ? 16384 : r < 990 ? 65536 : MAX_MESSAGE;
    uint32_t length = r == 999 ? MAX_MESSAGE : least + (uint32_t)(random_next(&message_random) % (most - least + 1));
    if (!separate || !modes[stream].unordered) return length;
    if (stream % 4 == 1) return length > ONE_CHUNK ? length : length + ONE_CHUNK;
    return length > ONE_CHUNK ? 8 + length % (ONE_CHUNK - 7) : length;
}

void message_fill(uint8_t *out, size_t length, int direction, int stream, uint32_t number) {
    uint64_t state = 0x9e3779b97f4a7c15ull * (number + 1) ^ (uint64_t)(direction * 64 + stream + 1) << 48;
    for (size_t i = 0; i < length; i += 8) {
        uint64_t r = random_next(&state);
        memcpy(out + i, &r, length - i < 8 ? length - i : 8);
    }
    if (length >= 8) memcpy(out, &number, sizeof number);
}

void message_written(int direction, int stream, uint32_t length) {
    struct channel *c = &channels[direction][stream];
    struct expected row = { c->written, length, 0 };
    if (c->first + c->count == c->room) {
        if (c->count > 0) memmove(c->rows, c->rows + c->first, c->count * sizeof *c->rows);
        c->first = 0;
        if (2 * c->count >= c->room) c->room = c->room ? 2 * c->room : 256;
        c->rows = realloc(c->rows, c->room * sizeof *c->rows);
        if (!c->rows) abort();
    }
    c->rows[c->first + c->count++] = row;
    c->written++;
    c->bytes_written += length;
}

/* Whether a message that was read is the one of a row. */
static int is_it(const struct expected *row, int direction, int stream, const uint8_t *bytes, size_t length) {
    static uint8_t want[MAX_MESSAGE];
    if (row->is_read || row->length != length) return 0;
    if (length >= 8 && memcmp(bytes, &row->number, sizeof row->number) != 0) return 0;
    message_fill(want, length, direction, stream, row->number);
    return memcmp(want, bytes, length) == 0;
}

/* The place of the message that was read among those that may come, or the count of these. On a reliable ordered stream the first alone
 * may come. */
static size_t place_of(const struct channel *c, int direction, int stream, const uint8_t *bytes, size_t length) {
    size_t most = !modes[stream].unordered && !may_be_lost(stream) && c->count > 1 ? 1 : c->count;
    for (size_t i = 0; i < most; i++)
        if (is_it(&c->rows[c->first + i], direction, stream, bytes, length)) return i;
    return c->count;
}

/* Takes the first so many messages out, and then those that were read. */
static void drop(struct channel *c, size_t lost) {
    while (c->count > 0 && (lost > 0 || c->rows[c->first].is_read)) {
        c->not_delivered += !c->rows[c->first].is_read;
        c->first++;
        c->count--;
        lost -= lost > 0;
    }
}

void message_read(int direction, int stream, uint32_t payload_type, const uint8_t *bytes, size_t length) {
    struct channel *c = &channels[direction][stream];
    size_t place = length <= MAX_MESSAGE ? place_of(c, direction, stream, bytes, length) : c->count;
    if (payload_type != SCTPR_PPID_BINARY) fault("direction %d, stream %d: payload type %u", direction, stream, (unsigned)payload_type);
    if (place == c->count) {
        const struct expected none = { 0, 0, 0 }, *next = c->count > 0 ? &c->rows[c->first] : &none;
        uint32_t number = 0;
        if (length >= 8) memcpy(&number, bytes, sizeof number);
        fault("direction %d, stream %d (%s): a message of %lu bytes, number %u of %u, is not due; %lu may come, first number %u of %u bytes",
              direction, stream, modes[stream].name, (unsigned long)length, (unsigned)number, (unsigned)c->written,
              (unsigned long)c->count, (unsigned)next->number, (unsigned)next->length);
        return;
    }
    c->rows[c->first + place].is_read = 1;
    c->read++;
    c->bytes_read += length;
    /* what an ordered stream passed over comes no more */
    drop(c, modes[stream].unordered ? 0 : place);
}

void messages_forget(size_t kept) {
    for (int i = 0; i < 2 * STREAMS; i++) {
        struct channel *c = &channels[i % 2][i / 2];
        if (may_be_lost(i / 2) && c->count > kept) drop(c, c->count - kept);
    }
}

int messages_arrived(void) {
    for (int i = 0; i < 2 * STREAMS; i++)
        if (!may_be_lost(i / 2) && channels[i % 2][i / 2].count > 0) return 0;
    return 1;
}

void messages_print(int direction) {
    for (int i = 0; i < STREAMS; i++) {
        const struct channel *c = &channels[direction][i];
        printf("  %-22s written %7u, read %7u, not delivered %6u; bytes %10lu, %10lu\n", modes[i].name, (unsigned)c->written,
               (unsigned)c->read, (unsigned)c->not_delivered, (unsigned long)c->bytes_written, (unsigned long)c->bytes_read);
    }
}

uint64_t messages_read(uint64_t *bytes) {
    uint64_t count = 0;
    *bytes = 0;
    for (int i = 0; i < 2 * STREAMS; i++) {
        count += channels[i % 2][i / 2].read;
        *bytes += channels[i % 2][i / 2].bytes_read;
    }
    return count;
}
