/* Messages of two directions on eight streams, one for each mode: what was written, and whether what is read is what is due. */
#ifndef MESSAGES_H
#define MESSAGES_H

#include <stddef.h>
#include <stdint.h>

enum { STREAMS = 8, MAX_MESSAGE = 256 * 1024 };

/* As sctpr_sender_set_mode has them. */
struct mode {
    const char *name;
    uint8_t unordered;
    uint32_t reliability, value;
};
extern const struct mode modes[STREAMS];

/* A message that was written. */
struct expected {
    uint32_t number, length;
    uint8_t is_read;
};

/* A stream of a direction: the messages that may still come, in the order of their writes, and counts of all. */
struct channel {
    struct expected *rows;
    size_t first, count, room;
    uint32_t written, read, not_delivered;
    uint64_t bytes_written, bytes_read;
};
extern struct channel channels[2][STREAMS];

/* How many faults were found. */
extern unsigned long faults;
/* Prints a fault, one of the first 20. */
void fault(const char *format, ...);

/* The sequence from which streams and lengths are drawn. */
extern uint64_t message_random;

/* Any length, 1 to MAX_MESSAGE, from 8 on where messages may be lost. With `separate` the messages of an unordered stream have one chunk
 * all, or more than one all. */
uint32_t message_length(int stream, int separate);
/* Writes the bytes of a message: they follow from direction, stream and number. */
void message_fill(uint8_t *out, size_t length, int direction, int stream, uint32_t number);
/* Notes that the next message of a stream was written. */
void message_written(int direction, int stream, uint32_t length);
/* Notes that a message was read, and looks whether it is one that may come now, each byte of it. */
void message_read(int direction, int stream, uint32_t payload_type, const uint8_t *bytes, size_t length);
/* Counts all but the last so many messages of streams that may lose them as not delivered. */
void messages_forget(size_t kept);
/* Whether all messages of reliable streams were read. */
int messages_arrived(void);
/* Prints a line for each stream of a direction. */
void messages_print(int direction);
/* How many messages, and bytes of them, were read of both directions. */
uint64_t messages_read(uint64_t *bytes);

#endif
