/* SCTP's lower layer for WebRTC data channels (RFC 4960, RFC 3758, RFC 8831) for C99 and C++: packets, and the two halves of an
 * association, what is sent and what comes. docs/C.md says how to build and link it, and what of it is proved.
 *
 * Memory. Link libsctp_c.a with the kit's liblibc_c.a, which takes memory from malloc; or define in its place
 *     struct tried { bool ok; void *block; };                 where ok is false, block leads to any byte of the program's
 *     struct tried rattle_alloc(size_t size, size_t align);   align is a power of two up to 16; size may be 0
 *     struct tried rattle_realloc(void *block, size_t kept, size_t size, size_t align);
 *     void rattle_dealloc(void *block);
 *
 * There is no global state, clock, socket, thread or random source in the library, and no call that ends the program.
 *
 * Bytes. Each call takes any bytes of any length. A length of 0 goes with any pointer, also NULL; any other pointer leads to as many
 * bytes, or rows, as its length says, and a pointer to one value to that value, which may be anything, also not yet set.
 * What a call writes must not overlap anything else that it is handed. A call writes nothing but where its description says so.
 *
 * NULL. A call that is handed NULL in place of a handle, a value, or a length above 0 of bytes or rows, and one of an empty handle, does
 * nothing: it answers SCTPR_INVALID, or 0 where it answers no code. A handle is empty as `sctpr_sender handle = { NULL }`, and after it was
 * freed. Of any other pointer nothing is tested.
 *
 * Threads. Calls on different memory may run at the same time. A handle is used by one call at a time, and never copied.
 *
 * Codes. Under 16 the call was done; from 16 on it was refused, and what it was to change is as it was, but for `written` at
 * SCTPR_SHORT_BUFFER. Numbers and names never change; new ones follow the last. */
#ifndef SCTPR_H
#define SCTPR_H

#include <stddef.h>
#include <stdint.h>

#ifdef __cplusplus
extern "C" {
#endif

#define SCTPR_VERSION_MAJOR 0
#define SCTPR_VERSION_MINOR 1
#define SCTPR_VERSION_PATCH 0
/* The version of the library that was linked: major << 16 | minor << 8 | patch. */
uint32_t sctpr_version(void);

typedef uint32_t sctpr_code;
enum {
    /* Done. */
    SCTPR_OK = 0,
    /* Done: a DATA chunk's TSN came before. */
    SCTPR_REPEAT = 1,
    /* Done, and nothing changed: a FORWARD-TSN is not past what came, or a SACK is before what was acknowledged. */
    SCTPR_STALE = 2,
    /* Done: there is nothing to send, to read or to tell. */
    SCTPR_NOTHING = 3,

    /* Memory ran out. */
    SCTPR_NO_MEMORY = 16,
    /* The buffer is too short: the length that is wanted was told. */
    SCTPR_SHORT_BUFFER = 17,
    /* An argument is out of its range, or NULL, or an empty handle. */
    SCTPR_INVALID = 18,
    /* A chunk or a parameter would be longer than 65,535 bytes with its header (RFC 4960 3.2, 3.2.1). */
    SCTPR_LENGTH_TOO_LARGE = 19,
    /* The checksum of the packet is another one (RFC 4960 6.8). */
    SCTPR_BAD_CHECKSUM = 20,
    /* A chunk is of a type that is not read. */
    SCTPR_UNKNOWN_CHUNK = 21,
    /* The stream is open. */
    SCTPR_STREAM_OPEN = 22,
    /* The stream is not open. */
    SCTPR_STREAM_UNKNOWN = 23,
    /* The message is, or would be, longer than a message may be. */
    SCTPR_MESSAGE_TOO_LARGE = 24,
    /* No further message can wait. */
    SCTPR_QUEUE_FULL = 25,
    /* No further TSN can be given out before some are acknowledged. */
    SCTPR_TSNS_USED_UP = 26,
    /* The TSN is not in flight, or its chunk is acknowledged or abandoned. */
    SCTPR_NOT_IN_FLIGHT = 27,
    /* A SACK reports a TSN that was not given out. */
    SCTPR_SACK_BEYOND_SENT = 28,
    /* A gap ack block of a SACK reports a TSN that is not in flight. */
    SCTPR_SACK_BAD_GAP = 29,
    /* The TSN lies half the circle from the cumulative one (RFC 1982 3.2). */
    SCTPR_TSN_OPPOSITE = 30,
    /* Something of the stream waits or is in flight. */
    SCTPR_STREAM_BUSY = 31,
    /* The next ordered message of the stream can't be begun before chunks of it are acknowledged. */
    SCTPR_SSNS_USED_UP = 32,
    /* The TSN lies farther past the cumulative one than the limits allow. */
    SCTPR_TSN_TOO_FAR = 34,
    /* Nothing is left of the window (RFC 4960 6.2). */
    SCTPR_WINDOW_FULL = 35,
    /* The stream sequence number can't be told from one that was read (RFC 1982 3.2). */
    SCTPR_SSN_TOO_FAR = 36,
    /* A FORWARD-TSN names a stream that is not open (RFC 3758 3.6). */
    SCTPR_NAMED_STREAM_UNKNOWN = 37,
    /* A FORWARD-TSN names a stream sequence number that can't be told from one that was read. */
    SCTPR_NAMED_SSN_TOO_FAR = 38,
    /* The stream can't be reset yet (RFC 6525 4.4). */
    SCTPR_RESET_IN_PROGRESS = 39,

    /* What is wrong with bytes that were read or are to be written. A length below is what a header declares, a value is what
     * follows the header up to that length; both count bytes. */
    /* A packet has under 12 bytes, which its header takes (RFC 4960 3.1). */
    SCTPR_ERR_PACKET_RAW_TOO_SMALL = 40,
    /* In the walk over a packet's chunks one to three bytes are left, or fewer than a chunk takes with its padding (RFC 4960 3.2). */
    SCTPR_ERR_PARSE_SCTP_CHUNK_NOT_ENOUGH_DATA = 41,
    /* Not answered by a call of this library: the source port is 0 (RFC 4960 3.1). */
    SCTPR_ERR_SCTP_PACKET_SOURCE_PORT_ZERO = 42,
    /* Not answered by a call of this library: the destination port is 0 (RFC 4960 3.1). */
    SCTPR_ERR_SCTP_PACKET_DESTINATION_PORT_ZERO = 43,
    /* Not answered by a call of this library: an INIT shares its packet with other chunks (RFC 4960 6.10). An INIT-ACK or a
     * SHUTDOWN-COMPLETE that does passes, though RFC 4960 6.10 forbids it too. */
    SCTPR_ERR_INIT_CHUNK_BUNDLED = 44,
    /* Not answered by a call of this library: a packet with an INIT has a verification tag other than 0 (RFC 4960 8.5.1). */
    SCTPR_ERR_INIT_CHUNK_VERIFY_TAG_NOT_ZERO = 45,
    /* From the chunk on there are under four bytes, which its header takes (RFC 4960 3.2). */
    SCTPR_ERR_CHUNK_HEADER_TOO_SMALL = 46,
    /* A chunk's length is under four: it counts the header (RFC 4960 3.2). */
    SCTPR_ERR_CHUNK_HEADER_INVALID_LENGTH = 47,
    /* A chunk's length passes the bytes that are there (RFC 4960 3.2). */
    SCTPR_ERR_CHUNK_HEADER_NOT_ENOUGH_SPACE = 48,
    /* After a chunk's length come one to three bytes, and one of them is not zero (RFC 4960 3.2). Where four or more follow,
     * padding is not looked at. sctpr_read_any_packet and the readers of DATA, of a SACK and of an INIT ignore padding, and do not
     * answer this. */
    SCTPR_ERR_CHUNK_HEADER_PADDING_NON_ZERO = 49,
    /* Read as an ABORT: the type is not 6 (RFC 4960 3.3.7). */
    SCTPR_ERR_CHUNK_TYPE_NOT_ABORT = 50,
    /* Read as a COOKIE-ACK: the type is not 11 (RFC 4960 3.3.12). */
    SCTPR_ERR_CHUNK_TYPE_NOT_COOKIE_ACK = 51,
    /* Read as a COOKIE-ECHO: the type is not 10 (RFC 4960 3.3.11). */
    SCTPR_ERR_CHUNK_TYPE_NOT_COOKIE_ECHO = 52,
    /* Read as an ERROR: the type is not 9 (RFC 4960 3.3.10). */
    SCTPR_ERR_CHUNK_TYPE_NOT_CT = 53,
    /* Read as a FORWARD-TSN: the type is not 192 (RFC 3758 3.2). */
    SCTPR_ERR_CHUNK_TYPE_NOT_FORWARD_TSN = 54,
    /* Read as a HEARTBEAT: the type is not 4 (RFC 4960 3.3.5). */
    SCTPR_ERR_CHUNK_TYPE_NOT_HEARTBEAT = 55,
    /* Read as a HEARTBEAT-ACK: the type is not 5 (RFC 4960 3.3.6). */
    SCTPR_ERR_CHUNK_TYPE_NOT_HEARTBEAT_ACK = 56,
    /* Read as an INIT or INIT-ACK: the type is neither 1 nor 2 (RFC 4960 3.3.2, 3.3.3). */
    SCTPR_ERR_CHUNK_TYPE_NOT_TYPE_INIT = 57,
    /* Read as DATA: the type is not 0 (RFC 4960 3.3.1). */
    SCTPR_ERR_CHUNK_TYPE_NOT_PAYLOAD_DATA = 58,
    /* Read as a RECONFIG: the type is not 130 (RFC 6525 3.1). */
    SCTPR_ERR_CHUNK_TYPE_NOT_RECONFIG = 59,
    /* Read as a SACK: the type is not 3 (RFC 4960 3.3.4). */
    SCTPR_ERR_CHUNK_TYPE_NOT_SACK = 60,
    /* Read as a SHUTDOWN: the type is not 7 (RFC 4960 3.3.8). */
    SCTPR_ERR_CHUNK_TYPE_NOT_SHUTDOWN = 61,
    /* Read as a SHUTDOWN-ACK: the type is not 8 (RFC 4960 3.3.9). */
    SCTPR_ERR_CHUNK_TYPE_NOT_SHUTDOWN_ACK = 62,
    /* Read as a SHUTDOWN-COMPLETE: the type is not 14 (RFC 4960 3.3.13). */
    SCTPR_ERR_CHUNK_TYPE_NOT_SHUTDOWN_COMPLETE = 63,
    /* The value of a FORWARD-TSN (RFC 3758 3.2), I-FORWARD-TSN (RFC 8260 2.3.1) or RECONFIG (RFC 6525 3.1) has under four bytes,
     * or the pairs of a FORWARD-TSN are followed by one to three. */
    SCTPR_ERR_CHUNK_TOO_SHORT = 64,
    /* A DATA chunk's value has under 12 bytes, which stand before the user data (RFC 4960 3.3.1). */
    SCTPR_ERR_CHUNK_PAYLOAD_SMALL = 65,
    /* The value of an INIT or INIT-ACK has under 16 bytes (RFC 4960 3.3.2). */
    SCTPR_ERR_CHUNK_VALUE_NOT_LONG_ENOUGH = 66,
    /* An INIT or INIT-ACK has flags other than 0. RFC 4960 3.3.2 has a receiver ignore them; here the chunk is refused. */
    SCTPR_ERR_CHUNK_TYPE_INIT_FLAG_ZERO = 67,
    /* Not answered by a call of this library: the initiate tag is 0 (RFC 4960 3.3.2). */
    SCTPR_ERR_CHUNK_TYPE_INIT_INITIATE_TAG_ZERO = 68,
    /* Not answered by a call of this library: the number of inbound streams is 0 (RFC 4960 3.3.2). */
    SCTPR_ERR_INIT_INBOUND_STREAM_REQUEST_ZERO = 69,
    /* Not answered by a call of this library: the number of outbound streams is 0 (RFC 4960 3.3.2). */
    SCTPR_ERR_INIT_OUTBOUND_STREAM_REQUEST_ZERO = 70,
    /* Not answered by a call of this library: the credit is under 1,500 bytes (RFC 4960 6). */
    SCTPR_ERR_INIT_ADVERTISED_RECEIVER_1500 = 71,
    /* The value of a HEARTBEAT or HEARTBEAT-ACK has under four bytes, which the header of its parameter takes (RFC 4960 3.3.5,
     * 3.3.6). */
    SCTPR_ERR_HEARTBEAT_NOT_LONG_ENOUGH_INFO = 72,
    /* The parameter of a HEARTBEAT or HEARTBEAT-ACK can be read, and its type is not 1 (RFC 4960 3.3.5). */
    SCTPR_ERR_HEARTBEAT_PARAM = 73,
    /* A HEARTBEAT-ACK that is to be written has no parameter, or more than one (RFC 4960 3.3.6). */
    SCTPR_ERR_HEARTBEAT_ACK_PARAMS = 74,
    /* The one parameter of a HEARTBEAT-ACK that is to be written is no Heartbeat Info (RFC 4960 3.3.6). */
    SCTPR_ERR_HEARTBEAT_ACK_NOT_HEARTBEAT_INFO = 75,
    /* A RECONFIG that is to be written or is checked has no first parameter (RFC 6525 3.1). */
    SCTPR_ERR_CHUNK_RECONFIG_INVALID_PARAM_A = 76,
    /* Not answered by a call of this library: its two parameters' types may not stand together (RFC 6525 3.1). */
    SCTPR_ERR_CHUNK_RECONFIG_INVALID_PARAM_COMBINATION = 77,
    /* The value of a SACK has under 12 bytes, or fewer than 12 and four for each of the blocks and duplicates that it counts (RFC
     * 4960 3.3.4). */
    SCTPR_ERR_SACK_SIZE_NOT_LARGE_ENOUGH_INFO = 78,
    /* The value of a SHUTDOWN has not exactly four bytes (RFC 4960 3.3.8). */
    SCTPR_ERR_INVALID_CHUNK_SIZE = 79,
    /* An error cause has under four bytes, a length under four, or a length past the bytes that are there (RFC 4960 3.3.10). */
    SCTPR_ERR_ERROR_CAUSE_TOO_SMALL = 80,
    /* A parameter has under four bytes, a length under four, or a length past the bytes that are there (RFC 4960 3.2.1). */
    SCTPR_ERR_PARAM_HEADER_TOO_SHORT = 81,
    /* A parameter of type typ is of no kind, and the type's highest bit is not set: reading is to stop (RFC 4960 3.2.1). */
    SCTPR_ERR_PARAM_TYPE_UNHANDLED = 82,
    /* A parameter is of another type than the call reads (RFC 6525 4). */
    SCTPR_ERR_PARAM_TYPE_UNEXPECTED = 83,
    /* The value of an Outgoing SSN Reset Request has under 12 bytes (RFC 6525 4.1), or that of a request has no number. */
    SCTPR_ERR_SSN_RESET_REQUEST_PARAM_TOO_SHORT = 84,
    /* The value of an Outgoing SSN Reset Request has 12 bytes or more, an odd number of them (RFC 6525 4.1), or that of another request
     * has another length than its type gives it (4.2, 4.3, 4.5, 4.6). */
    SCTPR_ERR_SSN_RESET_REQUEST_PARAM_INVALID_LENGTH = 85,
    /* The value of a Re-configuration Response has under eight bytes (RFC 6525 4.4). */
    SCTPR_ERR_RECONFIG_RESP_PARAM_TOO_SHORT = 86,
    /* A Requested HMAC Algorithm names another number than 1 or 3 (RFC 4895 3.3). */
    SCTPR_ERR_INVALID_ALGORITHM_TYPE = 87,
    /* The value of a Supported Address Types has an odd number of bytes (RFC 4960 3.3.2.1). */
    SCTPR_ERR_SUPPORTED_ADDRESS_TYPES_PARAM_INVALID_LENGTH = 88,
    /* Not answered by a call of this library: the message is longer than the buffer, which is filled with the message's beginning. */
    SCTPR_ERR_SHORT_BUFFER = 89,
    /* It can't be written as it was given: a chunk whose value is read as another one. */
    SCTPR_NOT_AS_GIVEN = 90
};

/* Writes the name of a code and a zero byte behind it at the front of a buffer: "SCTPR_NO_MEMORY"; "SCTPR_UNKNOWN" of a number that is
 * none. `written` becomes how many bytes that is, SCTPR_NAME_ROOM at most. SCTPR_SHORT_BUFFER where the buffer is shorter. */
#define SCTPR_NAME_ROOM 64
sctpr_code sctpr_code_name(sctpr_code code, uint8_t *out, size_t room, size_t *written);

/* Chunk types (RFC 4960 3.2, RFC 6525 3, RFC 3758 3.2). */
enum {
    SCTPR_DATA = 0,
    SCTPR_INIT = 1,
    SCTPR_INIT_ACK = 2,
    SCTPR_SACK = 3,
    SCTPR_HEARTBEAT = 4,
    SCTPR_HEARTBEAT_ACK = 5,
    SCTPR_ABORT = 6,
    SCTPR_SHUTDOWN = 7,
    SCTPR_SHUTDOWN_ACK = 8,
    SCTPR_ERROR = 9,
    SCTPR_COOKIE_ECHO = 10,
    SCTPR_COOKIE_ACK = 11,
    SCTPR_SHUTDOWN_COMPLETE = 14,
    SCTPR_RECONFIG = 130,
    SCTPR_FORWARD_TSN = 192
};

/* Parameter types (RFC 4960 3.3.2, 3.3.3, 3.3.5, RFC 5061 4.2.7, RFC 3758 3.1; of a RE-CONFIG, RFC 6525 4.1 to 4.6). */
enum {
    SCTPR_PARAM_HEARTBEAT_INFO = 1,
    SCTPR_PARAM_STATE_COOKIE = 7,
    SCTPR_PARAM_OUTGOING_RESET = 13,
    SCTPR_PARAM_INCOMING_RESET = 14,
    SCTPR_PARAM_SSN_TSN_RESET = 15,
    SCTPR_PARAM_RECONFIG_RESPONSE = 16,
    SCTPR_PARAM_ADD_OUTGOING_STREAMS = 17,
    SCTPR_PARAM_ADD_INCOMING_STREAMS = 18,
    SCTPR_PARAM_SUPPORTED_EXTENSIONS = 32776,
    SCTPR_PARAM_FORWARD_TSN_SUPPORTED = 49152
};

/* Codes of error causes (RFC 4960 3.3.10). */
enum {
    SCTPR_CAUSE_INVALID_STREAM_IDENTIFIER = 1,
    SCTPR_CAUSE_MISSING_MANDATORY_PARAMETER = 2,
    SCTPR_CAUSE_STALE_COOKIE = 3,
    SCTPR_CAUSE_OUT_OF_RESOURCE = 4,
    SCTPR_CAUSE_UNRESOLVABLE_ADDRESS = 5,
    SCTPR_CAUSE_UNRECOGNIZED_CHUNK_TYPE = 6,
    SCTPR_CAUSE_INVALID_MANDATORY_PARAMETER = 7,
    SCTPR_CAUSE_UNRECOGNIZED_PARAMETERS = 8,
    SCTPR_CAUSE_NO_USER_DATA = 9,
    SCTPR_CAUSE_COOKIE_RECEIVED_WHILE_SHUTTING_DOWN = 10,
    SCTPR_CAUSE_RESTART_WITH_NEW_ADDRESSES = 11,
    SCTPR_CAUSE_USER_INITIATED_ABORT = 12,
    SCTPR_CAUSE_PROTOCOL_VIOLATION = 13
};

/* The flag of an ABORT or SHUTDOWN-COMPLETE whose packet has the verification tag of the packet that it answers, and not the one that the
 * peer gave (RFC 4960 3.3.7, 3.3.13, 8.5.1). */
enum { SCTPR_FLAG_T = 1 };

/* What the user data are (RFC 8831 8). A payload type is any number: what comes is read as it came, and sctpr_write_chunk and a sender write
 * what they are given (RFC 9260 3.3.1). These have names. */
enum {
    SCTPR_PPID_DCEP = 50,
    SCTPR_PPID_STRING = 51,
    SCTPR_PPID_BINARY = 53,
    SCTPR_PPID_STRING_EMPTY = 56,
    SCTPR_PPID_BINARY_EMPTY = 57,
    SCTPR_PPID_OTHER = 58
};

/* ---- Reading --------------------------------------------------------------------------------------------------------------- */

/* A packet's header but for the checksum (RFC 4960 3.1). The tag is 0 with an INIT (8.5). */
struct sctpr_head {
    uint32_t verification_tag;
    uint16_t source_port;
    uint16_t destination_port;
};

/* Where a chunk lies in its packet: `length` bytes from `at` on, its header of four bytes with them and its padding not (3.2). */
struct sctpr_chunk {
    size_t at;
    size_t length;
    uint8_t type;
    uint8_t flags;
};

/* Reads a packet under CRC-32C (RFC 4960 3, 6.8): header, checksum, and each of its chunks whole. `head` becomes its header, `count` how
 * many chunks it has, and the first `room` of them stand in `rows`; the rows behind them stay. Each chunk can then be read by the calls
 * below as `packet + row.at, row.length`. It reads what the Rust crate sctp-proto 0.10.8 reads, and so refuses packets that RFC 9260 allows,
 * with all their chunks: to talk to a peer take sctpr_read_any_packet below. It is read where it lies: only of chunks that are neither DATA
 * nor SACKs a copy is made, one at a time, and given back. Refuses with SCTPR_ERR_PACKET_RAW_TOO_SMALL, SCTPR_BAD_CHECKSUM,
 * SCTPR_UNKNOWN_CHUNK, another error of a chunk, or, but for a packet of DATA and SACKs alone, SCTPR_NO_MEMORY; then nothing was written. */
sctpr_code sctpr_read_packet(const uint8_t *packet, size_t length, struct sctpr_head *head, struct sctpr_chunk *rows, size_t room,
                             size_t *count);

/* The same under a sum that the caller took: of the first eight bytes, four zeros, and the bytes from the twelfth on. */
sctpr_code sctpr_read_packet_with_sum(const uint8_t *packet, size_t length, uint32_t sum, struct sctpr_head *head, struct sctpr_chunk *rows,
                                      size_t room, size_t *count);

/* A chunk of a packet with all that RFC 9260 allows. `is_known` is 1 where its type is one that sctpr_read_packet reads; else it is 0, and
 * `is_reported` is 1 where its sender is to be told of it: in an ERROR, by the cause SCTPR_CAUSE_UNRECOGNIZED_CHUNK_TYPE with the chunk as
 * its value (RFC 4960 3.2, 3.3.10.6). */
struct sctpr_any_chunk {
    size_t at;
    size_t length;
    uint8_t type;
    uint8_t flags;
    uint8_t is_known;
    uint8_t is_reported;
};

/* The same for a packet with all that RFC 9260 allows, which sctpr_read_packet refuses:
 * - chunks of unknown types, as I-DATA, AUTH and PAD are here (3.2): one whose type has the highest bit set is skipped; any other is the
 *   last one that is looked at, and the last row
 * - padding of any bytes, which is ignored (RFC 9260 3.2)
 * - parameters and error causes of any type, length and padding. Of an INIT, INIT-ACK, ABORT, ERROR and RE-CONFIG the header is read here.
 *   Walk the parameters of the first two, from byte 20 on, and of a RE-CONFIG, from byte 4 on, by sctpr_read_any_param, and the causes by
 *   sctpr_read_cause: each tells type and place, of what the caller passes over too
 * `count` becomes how many chunks there are so far, and the first `room` of them stand in `rows`. A chunk of another known type is read
 * whole, and refuses the packet where it is refused. SCTPR_UNKNOWN_CHUNK is no refusal of it; the other ones are those of
 * sctpr_read_packet. What sctpr_read_packet reads, this reads too. */
sctpr_code sctpr_read_any_packet(const uint8_t *packet, size_t length, struct sctpr_head *head, struct sctpr_any_chunk *rows, size_t room,
                                 size_t *count);
sctpr_code sctpr_read_any_packet_with_sum(const uint8_t *packet, size_t length, uint32_t sum, struct sctpr_head *head,
                                          struct sctpr_any_chunk *rows, size_t room, size_t *count);

/* The readers below take the bytes of a chunk. They refuse with an error of the header or of that kind, or with SCTPR_NO_MEMORY, and have
 * written nothing then. Those of DATA and of a SACK take no memory. */

/* A DATA chunk (RFC 4960 3.3.1); its user data are `length` bytes from byte 16 of the chunk on, its payload type is any number, as it came.
 * Flags are 0 or 1. */
struct sctpr_data {
    size_t length;
    uint32_t tsn;
    uint32_t payload_type;
    uint16_t stream;
    uint16_t sequence;
    uint8_t is_unordered;
    uint8_t begins;
    uint8_t ends;
    uint8_t wants_sack;
};
sctpr_code sctpr_read_data(const uint8_t *chunk, size_t length, struct sctpr_data *data);

/* A SACK (RFC 4960 3.3.4), and how many gap ack blocks and duplicates it has. As many of them as there is room for are written. */
struct sctpr_sack {
    size_t blocks;
    size_t duplicates;
    uint32_t cumulative_tsn;
    uint32_t credit;
};
/* A run of TSNs that came: the distances of its first and its last from the cumulative one. */
struct sctpr_gap {
    uint16_t start;
    uint16_t end;
};
sctpr_code sctpr_read_sack(const uint8_t *chunk, size_t length, struct sctpr_sack *sack, struct sctpr_gap *blocks, size_t blocks_room,
                           uint32_t *duplicates, size_t duplicates_room);

/* A FORWARD-TSN (RFC 3758 3.2). `count` becomes how many streams it names, and as many as there is room for are written. */
struct sctpr_skip {
    uint16_t stream;
    uint16_t sequence;
};
sctpr_code sctpr_read_forward_tsn(const uint8_t *chunk, size_t length, uint32_t *new_cumulative_tsn, struct sctpr_skip *streams,
                                  size_t room, size_t *count);

/* The numbers of an INIT, or where `is_ack` is not 0 of an INIT-ACK (RFC 9260 3.3.2, 3.3.3). Its flags are ignored. Its parameters begin at
 * byte 20 of the chunk, and are walked by sctpr_read_any_param. It takes no memory. */
struct sctpr_init {
    uint32_t initiate_tag;
    uint32_t credit;
    uint32_t initial_tsn;
    uint16_t outbound_streams;
    uint16_t inbound_streams;
    uint8_t is_ack;
};
sctpr_code sctpr_read_init(const uint8_t *chunk, size_t length, struct sctpr_init *init);

/* A SHUTDOWN (RFC 4960 3.3.8): `cumulative_tsn` becomes the TSN up to which its sender received all. */
sctpr_code sctpr_read_shutdown(const uint8_t *chunk, size_t length, uint32_t *cumulative_tsn);

/* The parameter that the bytes begin with (RFC 4960 3.2.1): its value is `length` bytes from byte 4 on, and the next one begins at byte
 * `next`, or there is none where that is all of the bytes. SCTPR_ERR_PARAM_TYPE_UNHANDLED of a type that is not read and stops reading. */
struct sctpr_param {
    size_t length;
    size_t next;
    uint16_t type;
};
sctpr_code sctpr_read_param(const uint8_t *bytes, size_t length, struct sctpr_param *param);

/* The same of any type and any value: its header alone is read (RFC 9260 3.2.1). Where the caller does not know a type, the walk ends
 * there if its bit 0x8000 is not set, and the sender of the parameter is told of it if its bit 0x4000 is set.
 * SCTPR_ERR_PARAM_HEADER_TOO_SHORT, where the bytes begin with no parameter. It takes no memory. */
sctpr_code sctpr_read_any_param(const uint8_t *bytes, size_t length, struct sctpr_param *param);

/* The readers below take the bytes of a parameter of a RE-CONFIG (RFC 6525 4), and no memory. SCTPR_ERR_PARAM_TYPE_UNEXPECTED of another
 * type. */

/* The number of any request, which are the types 13, 14, 15, 17 and 18. Each is answered by a response with this number:
 * SCTPR_RESULT_DENIED, where the caller does not follow it. */
sctpr_code sctpr_read_request(const uint8_t *bytes, size_t length, uint32_t *number);

/* An Outgoing SSN Reset Request: its number, the number of the request that it answers, and the last TSN that its sender gave out (4.1).
 * `count` becomes how many streams it names, 0 where it means all, and as many as there is room for are written. */
struct sctpr_reset {
    uint32_t request;
    uint32_t response;
    uint32_t last_tsn;
};
sctpr_code sctpr_read_reset(const uint8_t *bytes, size_t length, struct sctpr_reset *reset, uint16_t *streams, size_t room, size_t *count);

/* An Incoming SSN Reset Request, by which its sender asks for a reset of streams that come to it: `number` becomes its number. Streams are
 * as above (4.2). An SSN/TSN Reset Request (4.3) has a number alone: sctpr_read_request. */
sctpr_code sctpr_read_incoming_reset(const uint8_t *bytes, size_t length, uint32_t *number, uint16_t *streams, size_t room, size_t *count);

/* An Add Outgoing Streams Request, or where `is_incoming` is not 0 an Add Incoming Streams Request: its number, and how many new streams
 * its sender wants to send on, or to receive on (4.5, 4.6). */
struct sctpr_add_streams {
    uint32_t request;
    uint16_t count;
    uint8_t is_incoming;
};
sctpr_code sctpr_read_add_streams(const uint8_t *bytes, size_t length, struct sctpr_add_streams *add);

/* A Re-configuration Response: the number of the request that it answers, and the result (4.4). */
enum {
    SCTPR_RESULT_NOTHING_TO_DO = 0,
    SCTPR_RESULT_PERFORMED = 1,
    SCTPR_RESULT_DENIED = 2,
    SCTPR_RESULT_WRONG_SSN = 3,
    SCTPR_RESULT_REQUEST_IN_PROGRESS = 4,
    SCTPR_RESULT_BAD_SEQUENCE_NUMBER = 5,
    SCTPR_RESULT_IN_PROGRESS = 6
};
struct sctpr_response {
    uint32_t response;
    uint32_t result;
};
sctpr_code sctpr_read_response(const uint8_t *bytes, size_t length, struct sctpr_response *response);

/* The error cause that the bytes begin with, as those from byte 4 of an ABORT or ERROR on do (RFC 4960 3.3.10): its value is `length` bytes
 * from byte 4 on, and the next one begins at byte `next`, or there is none where that is all of the bytes.
 * SCTPR_ERR_ERROR_CAUSE_TOO_SMALL, where they begin with none. It takes no memory. */
struct sctpr_cause {
    size_t length;
    size_t next;
    uint16_t code;
};
sctpr_code sctpr_read_cause(const uint8_t *bytes, size_t length, struct sctpr_cause *cause);

/* ---- Writing --------------------------------------------------------------------------------------------------------------- */

/* A packet is built in the caller's buffer: chunks one behind the other from byte 12 on, each by a call that takes the room that is left,
 * and at last sctpr_seal_packet. Each writer sets `written` to the bytes that it wrote, padding included, a multiple of four; with
 * SCTPR_SHORT_BUFFER to those that it wants, and has then written none. What stands in the buffer behind them stays. */

/* A chunk of a type and a value, its flags 0, of any type that is read (RFC 4960 3.2, 3.3). It is read before it is written, so that no
 * chunk comes out that a reader refuses: else the reader's error. SCTPR_NOT_AS_GIVEN, where what is read has another value: bytes behind
 * its end, or a result of a RE-CONFIG that has no name here. A DATA chunk is written with any payload type. The padding of the last item
 * may stand in the value; the chunk's length does not count it. A RE-CONFIG with a request of the types 14, 15, 17 and 18 is written,
 * though sctpr_read_packet refuses it: with one of them, with 13 before 14, or with 17 before 18 (RFC 6525 3.1). SCTPR_LENGTH_TOO_LARGE of
 * more than 65,531 bytes. SCTPR_NO_MEMORY. */
sctpr_code sctpr_write_chunk(uint8_t type, const uint8_t *value, size_t length, uint8_t *out, size_t room, size_t *written);

/* The same with flags, as they are given: SCTPR_FLAG_T, and those of DATA (3.3.1). */
sctpr_code sctpr_write_chunk_with_flags(uint8_t type, uint8_t flags, const uint8_t *value, size_t length, uint8_t *out, size_t room,
                                        size_t *written);

/* An INIT or INIT-ACK. `params` are its parameters, as sctpr_write_param writes them one behind the other. Refuses as sctpr_write_chunk. */
sctpr_code sctpr_write_init(const struct sctpr_init *init, const uint8_t *params, size_t length, uint8_t *out, size_t room,
                            size_t *written);

/* A parameter (RFC 4960 3.2.1). Refuses as sctpr_write_chunk; a request of the types 14, 15, 17 and 18 whose value has another length than
 * RFC 6525 4 gives it with SCTPR_ERR_SSN_RESET_REQUEST_PARAM_INVALID_LENGTH. */
sctpr_code sctpr_write_param(uint16_t type, const uint8_t *value, size_t length, uint8_t *out, size_t room, size_t *written);

/* The requests of a RE-CONFIG from their words, with their padding: each is a parameter, which sctpr_write_chunk takes (RFC 6525 4.1, 4.2,
 * 4.3, 4.5, 4.6). With no stream a reset is one of all. SCTPR_LENGTH_TOO_LARGE of more than 32,759 streams, of the second call 32,763;
 * SCTPR_NO_MEMORY. The last two take no memory, and write 8 and 12 bytes. */
sctpr_code sctpr_write_reset(const struct sctpr_reset *reset, const uint16_t *streams, size_t count, uint8_t *out, size_t room,
                             size_t *written);
sctpr_code sctpr_write_incoming_reset(uint32_t request, const uint16_t *streams, size_t count, uint8_t *out, size_t room, size_t *written);
sctpr_code sctpr_write_ssn_tsn_reset(uint32_t request, uint8_t *out, size_t room, size_t *written);
sctpr_code sctpr_write_add_streams(const struct sctpr_add_streams *add, uint8_t *out, size_t room, size_t *written);

/* A Re-configuration Response with no TSNs (RFC 6525 4.4): 12 bytes, a parameter of a RE-CONFIG. It takes no memory. */
sctpr_code sctpr_write_response(const struct sctpr_response *response, uint8_t *out, size_t room, size_t *written);

/* An error cause (RFC 4960 3.3.10): what an ABORT or ERROR has as its value. SCTPR_LENGTH_TOO_LARGE of more than 65,531 bytes,
 * SCTPR_NO_MEMORY. Of several causes in one chunk all but the last have to be multiples of four long without padding: sctpr_read_packet and
 * sctpr_write_chunk look for none between them. */
sctpr_code sctpr_write_cause(uint16_t code, const uint8_t *value, size_t length, uint8_t *out, size_t room, size_t *written);

/* Writes header and CRC-32C into the first twelve bytes of a packet (RFC 4960 3.1, 6.8). SCTPR_SHORT_BUFFER under twelve bytes. It takes no
 * memory. */
sctpr_code sctpr_seal_packet(const struct sctpr_head *head, uint8_t *packet, size_t length);

/* The same in two steps, for a caller that takes the sum itself: the first writes the header with zeros in the checksum's place, and the
 * second puts the sum of the whole packet there, its lowest byte first (RFC 4960 Appendix B). SCTPR_SHORT_BUFFER under twelve bytes. */
sctpr_code sctpr_write_head(const struct sctpr_head *head, uint8_t *packet, size_t length);
sctpr_code sctpr_store_sum(uint32_t sum, uint8_t *packet, size_t length);

/* ---- Receiver -------------------------------------------------------------------------------------------------------------- */

/* The receiving half of an association: what came and was not read (RFC 4960 6.2, 6.5, 6.6, 6.9). A handle is made by one of the two
 * sctpr_receiver_new.. calls, goes to the other calls by its address, and is given back by sctpr_receiver_free. Nothing else writes it. */
typedef struct sctpr_receiver {
    void *at;
} sctpr_receiver;

/* Makes a receiver with no stream, to which nothing came: `first_tsn`, the peer's initial TSN, is expected next, and a message may have
 * `max_message_size` bytes. It holds about `window` bytes at most, each chunk counted as 400 more than its user data, and no TSN farther
 * than `reach` past the cumulative one (RFC 4960 6.2). `out` becomes its handle. SCTPR_INVALID, where `window` or `reach` is 0, so that
 * nothing could come, or `window` is under SCTPR_LEAST_WINDOW(max_message_size, 65519), so that a message would never fit; SCTPR_NO_MEMORY;
 * `out` stays then. A peer whose chunks have fewer bytes of user data each needs a window of SCTPR_LEAST_WINDOW(max_message_size, bytes). */
#define SCTPR_LEAST_WINDOW(size, fragment) ((size_t)(size) + 400 * (((size_t)(size) + (size_t)(fragment) - 1) / (size_t)(fragment)))
sctpr_code sctpr_receiver_new(uint32_t first_tsn, uint32_t max_message_size, size_t window, uint32_t reach, sctpr_receiver *out);

/* Of a window of which so much is left, the credit within which none of a peer's chunks is refused as it is full, where each has `fragment`
 * bytes of user data or more. A SACK tells all that is left: of shorter chunks within that, whose cost is more, some are refused, and come
 * again once T3-rtx of the peer expires. A caller whose peer sends short messages tells this in its INIT and in the bytes 8 to 11 of each
 * SACK (RFC 9260 3.3.4). */
#define SCTPR_CREDIT(left, fragment) ((size_t)(left) / ((size_t)(fragment) + 400) * (size_t)(fragment))

/* The same, with no limit to what is held: for a peer that is trusted, or a replay. */
sctpr_code sctpr_receiver_new_unlimited(uint32_t first_tsn, uint32_t max_message_size, sctpr_receiver *out);

/* Frees a receiver and all that it holds, and empties its handle. It does nothing where the handle is empty, or NULL. */
void sctpr_receiver_free(sctpr_receiver *receiver);

/* Opens a stream. SCTPR_STREAM_OPEN, SCTPR_NO_MEMORY. */
sctpr_code sctpr_receiver_open(sctpr_receiver *receiver, uint16_t stream);

/* Closes a stream, where it is open: what came on it and was not read is dropped; the TSNs stay. It takes no memory. */
void sctpr_receiver_close(sctpr_receiver *receiver, uint16_t stream);

/* The peer resets a stream that it sends on: `last_tsn` is the Sender's Last Assigned TSN of its Outgoing SSN Reset Request (RFC 6525
 * 4.1, 5.2.2). The stream sequence number 0 is expected next. SCTPR_STREAM_UNKNOWN; SCTPR_RESET_IN_PROGRESS, where the cumulative TSN is
 * before `last_tsn`; SCTPR_NO_MEMORY. */
sctpr_code sctpr_receiver_reset(sctpr_receiver *receiver, uint16_t stream, uint32_t last_tsn);

/* Takes the bytes of a DATA chunk, without its padding or with it (RFC 4960 6.2). SCTPR_OK: its TSN is new, and `complete` becomes 1 where
 * a message of its stream became complete with it, else 0; of the chunk its user data alone are copied. SCTPR_REPEAT: its TSN came before;
 * the next SACK reports it as a duplicate, but a receiver with limits notes no more of them than one SACK can report, 16,379.
 * Refuses with an error of bytes that are no DATA chunk, and, of a new TSN, in this order, with SCTPR_SSN_TOO_FAR, SCTPR_TSN_OPPOSITE,
 * SCTPR_TSN_TOO_FAR, SCTPR_WINDOW_FULL, SCTPR_STREAM_UNKNOWN, SCTPR_MESSAGE_TOO_LARGE, SCTPR_NO_MEMORY: nothing is acknowledged then, and
 * the chunk may come again. `complete` stays, but with SCTPR_OK. */
sctpr_code sctpr_receiver_data(sctpr_receiver *receiver, const uint8_t *chunk, size_t length, uint8_t *complete);

/* Takes the TSN of a DATA chunk that is dropped, as one of a stream that is not open (RFC 4960 6.5): it counts as come. SCTPR_OK and
 * SCTPR_REPEAT as above. SCTPR_TSN_OPPOSITE, SCTPR_TSN_TOO_FAR, SCTPR_WINDOW_FULL, SCTPR_NO_MEMORY. */
sctpr_code sctpr_receiver_discard(sctpr_receiver *receiver, uint32_t tsn);

/* Takes the bytes of a FORWARD-TSN (RFC 3758 3.6). SCTPR_OK: it was past the cumulative TSN, and was followed. SCTPR_STALE: it was not, and
 * changed nothing. Refuses with an error of bytes that are no FORWARD-TSN, and with SCTPR_NAMED_STREAM_UNKNOWN, SCTPR_NAMED_SSN_TOO_FAR,
 * SCTPR_TSN_OPPOSITE, SCTPR_NO_MEMORY. */
sctpr_code sctpr_receiver_forward_tsn(sctpr_receiver *receiver, const uint8_t *chunk, size_t length);

/* The same, but what it names on a stream that is not open is passed over, as is right of one that was closed on purpose. */
sctpr_code sctpr_receiver_forward_tsn_past_closed(sctpr_receiver *receiver, const uint8_t *chunk, size_t length);

/* Tells the next message of a stream, and takes nothing out: `size` becomes its length in bytes, `payload_type` its payload type, any
 * number, as it came with its first fragment. SCTPR_NOTHING: there is none. SCTPR_STREAM_UNKNOWN. Both stay, but with SCTPR_OK. */
sctpr_code sctpr_receiver_next_length(const sctpr_receiver *receiver, uint16_t stream, size_t *size, uint32_t *payload_type);

/* Takes the next message of a stream out and copies it to the front of the buffer: an unordered one, else the ordered one that is due.
 * `size` becomes its length, `payload_type` its payload type. SCTPR_NOTHING: there is none, and both stay. SCTPR_STREAM_UNKNOWN, and both
 * stay; SCTPR_SHORT_BUFFER, where the buffer is shorter: both are told, nothing is copied, and the message can still be read. It takes no
 * memory. */
sctpr_code sctpr_receiver_read(sctpr_receiver *receiver, uint16_t stream, uint8_t *out, size_t room, size_t *size, uint32_t *payload_type);

/* Writes the numbers of the streams with a message to read, in the order in which they were opened; where one was closed, the last one
 * stands in its place. `count` becomes how many there are. SCTPR_SHORT_BUFFER, where there is room for fewer: `count` is told, and nothing
 * is written. SCTPR_NO_MEMORY, and both stay. */
sctpr_code sctpr_receiver_readable_streams(const sctpr_receiver *receiver, uint16_t *streams, size_t room, size_t *count);

/* Writes the SACK of what came (RFC 4960 3.3.4), with the window as its credit: first as many gap ack blocks as there is room for, then
 * as many duplicates, which are forgotten; the other duplicates are kept for the next SACK. `written` becomes its length, a multiple of
 * four, 16 to 65,532. SCTPR_SHORT_BUFFER under 16 bytes, SCTPR_NO_MEMORY; `out` and `written` stay then. */
sctpr_code sctpr_receiver_sack(sctpr_receiver *receiver, uint8_t *out, size_t room, size_t *written);

/* The TSN up to which all came, or was skipped. */
uint32_t sctpr_receiver_cumulative_tsn(const sctpr_receiver *receiver);
/* The window to advertise, in bytes (RFC 4960 3.3.4), which a SACK has as its credit; 2^32 - 1 without limits. */
uint32_t sctpr_receiver_window(const sctpr_receiver *receiver);
/* What is held and was not read: its bytes, and 400 for each chunk; the greatest size_t where it is more. */
size_t sctpr_receiver_held_bytes(const sctpr_receiver *receiver);

/* ---- Sender ---------------------------------------------------------------------------------------------------------------- */

/* The sending half of an association: what was written and is not yet acknowledged (RFC 4960 6.1, 6.2.1, 6.9; RFC 3758). `now` is in
 * nanoseconds from any one moment. A handle is made by sctpr_sender_new, goes to the other calls by its address, and is given back by
 * sctpr_sender_free. Nothing else writes it. */
typedef struct sctpr_sender {
    void *at;
} sctpr_sender;

/* Makes a sender with no stream, whose first chunk gets `first_tsn`. A chunk has `fragment_size` bytes of user data at most, 1 to 65,519,
 * a message `max_message_size`. If `keeps_reported` is not 0, it keeps the user data of what gap ack blocks report until the cumulative TSN
 * passes it, for sctpr_sender_take_back (RFC 4960 6.2.1 D iv); else that goes. `out` becomes its handle. SCTPR_INVALID, SCTPR_NO_MEMORY;
 * `out` stays then. */
sctpr_code sctpr_sender_new(uint32_t first_tsn, uint32_t fragment_size, uint32_t max_message_size, uint8_t keeps_reported,
                            sctpr_sender *out);

/* Frees a sender and all that it holds, and empties its handle. It does nothing where the handle is empty, or NULL. */
void sctpr_sender_free(sctpr_sender *sender);

/* Opens a stream, ordered and reliable. SCTPR_STREAM_OPEN, SCTPR_NO_MEMORY. */
sctpr_code sctpr_sender_open(sctpr_sender *sender, uint16_t stream);

/* Closes a stream, where it is open. What waits and is in flight of it goes on. It takes no memory. Open it again only once
 * sctpr_sender_is_drained says 1: what then leaves would else lower the new amount. */
void sctpr_sender_close(sctpr_sender *sender, uint16_t stream);

/* Sets the mode of later writes to a stream; a DCEP message is ordered and reliable in any mode (RFC 8832 6). `unordered` is 0 for
 * ordered. With SCTPR_RELIABLE `value` means nothing; with SCTPR_REXMIT it counts the sendings of a chunk after the first (RFC 7496 3.1);
 * with SCTPR_TIMED it is a lifetime in milliseconds (RFC 3758 4.1). SCTPR_INVALID of another `reliability`, SCTPR_STREAM_UNKNOWN. */
enum { SCTPR_RELIABLE = 0, SCTPR_REXMIT = 1, SCTPR_TIMED = 2 };
sctpr_code sctpr_sender_set_mode(sctpr_sender *sender, uint16_t stream, uint8_t unordered, uint32_t reliability, uint32_t value);

/* Sets how many bytes of user data a chunk of a later write has at most, on each stream, 1 to 65,519, as where the path MTU changes
 * (RFC 4821). SCTPR_INVALID. */
sctpr_code sctpr_sender_set_fragment_size(sctpr_sender *sender, uint32_t size);

/* Sets the buffered amount of a stream, in bytes, down to which a fall is told by `is_low` of the rows below. SCTPR_STREAM_UNKNOWN. */
sctpr_code sctpr_sender_set_low_threshold(sctpr_sender *sender, uint16_t stream, size_t bytes);

/* Resets a stream (RFC 6525 5.1.2): its next ordered message has the number 0. SCTPR_STREAM_UNKNOWN; SCTPR_STREAM_BUSY, where something of
 * it waits or is in flight. */
sctpr_code sctpr_sender_reset(sctpr_sender *sender, uint16_t stream);

/* Takes a copy of a message of one byte or more: its fragments wait. Each of its chunks is sent with the payload type that is given, any
 * number. `number` becomes its number, `fragments` how many chunks it has. SCTPR_NOTHING: the message has no bytes, and nothing changed (RFC
 * 8831 6.6 sends one byte in their place). SCTPR_STREAM_UNKNOWN, before it takes memory; SCTPR_MESSAGE_TOO_LARGE, SCTPR_QUEUE_FULL,
 * SCTPR_NO_MEMORY. Both stay, but with SCTPR_OK. Payload types that are none of the first five of SCTPR_PPID_.. are kept until nothing of
 * their messages waits or is in flight, in at most 100 bytes for each of the most chunks that waited or were in flight at once. */
sctpr_code sctpr_sender_write(sctpr_sender *sender, uint16_t stream, uint32_t payload_type, const uint8_t *message, size_t length,
                              uint64_t *number, size_t *fragments);

/* Starts the lifetimes of the messages written since the last time. sctpr_sender_send_next does so too. */
void sctpr_sender_start(sctpr_sender *sender, uint64_t now);

/* Puts the fragment that is next in flight under the next TSN, which `tsn` becomes, and writes its DATA chunk with its padding. `written`
 * becomes how many bytes that are. SCTPR_NOTHING: nothing waits. SCTPR_SHORT_BUFFER, where the buffer is shorter: it goes on waiting, and
 * `written` is what is wanted; SCTPR_TSNS_USED_UP, where 2^31 - 1 chunks are in flight; SCTPR_SSNS_USED_UP, where it begins an ordered
 * message 2^14 or more past the first one of its stream in flight; SCTPR_NO_MEMORY. `out` and `tsn` stay, but with SCTPR_OK. */
sctpr_code sctpr_sender_send_next(sctpr_sender *sender, uint64_t now, uint8_t *out, size_t room, size_t *written, uint32_t *tsn);

/* Sends a chunk in flight again: writes it with its padding, counts that, notes `now`, and takes its mark. `written` becomes how many
 * bytes that are. SCTPR_SHORT_BUFFER, where the buffer is shorter: `written` is what is wanted; SCTPR_NOT_IN_FLIGHT, where none is, or it
 * is acknowledged or abandoned; SCTPR_NO_MEMORY. `out` stays, but with SCTPR_OK. */
sctpr_code sctpr_sender_resend(sctpr_sender *sender, uint32_t tsn, uint64_t now, uint8_t *out, size_t room, size_t *written);

/* Marks each chunk in flight that is neither acknowledged nor abandoned for retransmission, as where the timer T3-rtx runs out (RFC 4960
 * 6.3.3 E3). */
void sctpr_sender_retransmit_all(sctpr_sender *sender);

/* Counts each chunk in flight whose TSN is before this one, and that is neither acknowledged nor abandoned, as missing once more, and
 * marks for retransmission what is missing for the third time (RFC 4960 7.2.4). Answers how many it newly marks: of a chunk that was marked
 * before, as by sctpr_sender_retransmit_all, it answers nothing. */
size_t sctpr_sender_add_miss_indications(sctpr_sender *sender, uint32_t before);

/* A chunk in flight. `size` is 0 where it is acknowledged or abandoned; `sent_at` is when it was sent last, 0 of a chunk that stands for
 * what was never sent; the flags are 0 or 1. */
struct sctpr_in_flight {
    size_t size;
    uint64_t message;
    uint64_t sent_at;
    uint32_t tsn;
    uint32_t sent;
    uint32_t payload_type;
    uint16_t stream;
    uint16_t sequence;
    uint8_t is_unordered;
    uint8_t is_acked;
    uint8_t is_abandoned;
    uint8_t is_marked;
};

/* The chunk in flight with a TSN. SCTPR_NOT_IN_FLIGHT, and `row` stays. */
sctpr_code sctpr_sender_in_flight(const sctpr_sender *sender, uint32_t tsn, struct sctpr_in_flight *row);
/* The chunk in flight at a place: the first has the place 0, and the TSN past sctpr_sender_acked_tsn. SCTPR_NOTHING: there are no more. */
sctpr_code sctpr_sender_in_flight_at(const sctpr_sender *sender, size_t place, struct sctpr_in_flight *row);
/* The first chunk in flight that is marked for retransmission; sctpr_sender_resend takes the mark. SCTPR_NOTHING: there is none. */
sctpr_code sctpr_sender_next_to_retransmit(const sctpr_sender *sender, struct sctpr_in_flight *row);

/* A chunk that a SACK acknowledged. `sent` is how often it was sent: one that was sent once alone tells the round trip time (RFC 4960
 * 6.3.1 C5). `has_sent_at` is 0 of a chunk that stood for what was never sent. `is_message_acked`: its message is acknowledged whole now.
 * `is_low`: with it, after the rows before it, the buffered amount of its stream fell from above the low threshold to at most it. */
struct sctpr_acked {
    size_t bytes;
    uint64_t message;
    uint64_t sent_at;
    uint32_t tsn;
    uint32_t sent;
    uint16_t stream;
    uint8_t has_sent_at;
    uint8_t is_message_acked;
    uint8_t is_low;
};

/* Takes the bytes of a SACK (RFC 4960 6.2.1). SCTPR_OK: `count` becomes how many chunks it reports anew, and the first so many `rows` tell
 * of them, in the order of their TSNs; with a `room` of 0 no row is told. SCTPR_STALE: its cumulative TSN is before sctpr_sender_acked_tsn;
 * `count` becomes 0, and nothing else changed. SCTPR_SHORT_BUFFER, where 0 < `room` < sctpr_sender_chunks_in_flight, so that no row is
 * lost: `count` becomes how many are wanted. Refuses with an error of bytes that are no SACK, with SCTPR_SACK_BEYOND_SENT and
 * SCTPR_SACK_BAD_GAP, where it reports what is not in flight, and with SCTPR_NO_MEMORY. `rows` stay then, and `count` too but for the
 * first. */
sctpr_code sctpr_sender_acked(sctpr_sender *sender, const uint8_t *chunk, size_t length, struct sctpr_acked *rows, size_t room,
                              size_t *count);

/* Takes the TSN of a SHUTDOWN, as sctpr_read_shutdown tells it (RFC 4960 3.3.8, 9.2): as a SACK with this cumulative TSN and no gap ack
 * block, with rows, count and codes as above. It is not handed to sctpr_sender_take_back: a SHUTDOWN can't tell of gaps (3.3.8). */
sctpr_code sctpr_sender_acked_up_to(sctpr_sender *sender, uint32_t tsn, struct sctpr_acked *rows, size_t room, size_t *count);

/* A chunk whose acknowledgement a SACK took back: it is outstanding again. */
struct sctpr_taken_back {
    size_t bytes;
    uint64_t message;
    uint32_t tsn;
    uint16_t stream;
};

/* Takes back what a SACK no longer reports (RFC 4960 6.2.1 D iv). Past its last gap ack block it takes back nothing, as a SACK may be cut to
 * the path MTU (6.7); one that reports nothing in blocks takes back all. A SACK that comes late, with the same cumulative TSN, takes back
 * what a later one reported, and the next one reports it anew. Call it before sctpr_sender_acked with the same SACK. Rows, count and codes
 * are as there, with a row for each chunk that comes back, and none where the sender keeps nothing; and SCTPR_QUEUE_FULL, where all
 * bytes would be more than the greatest size_t. */
sctpr_code sctpr_sender_take_back(sctpr_sender *sender, const uint8_t *chunk, size_t length, struct sctpr_taken_back *rows, size_t room,
                                  size_t *count);

/* A message that was abandoned: how many of its bytes left. `is_low` as above. */
struct sctpr_abandoned {
    size_t bytes;
    uint64_t number;
    uint16_t stream;
    uint8_t is_low;
};

/* A message that expired before any of it was sent. */
struct sctpr_expired {
    size_t bytes;
    uint16_t stream;
    uint8_t is_low;
};

/* Abandons the message of a chunk in flight (RFC 3758 3.5): `row` tells of it, with no bytes where it was abandoned before.
 * SCTPR_NOT_IN_FLIGHT; and, only where some of the message still waits, SCTPR_TSNS_USED_UP and SCTPR_NO_MEMORY. `row` stays then. */
sctpr_code sctpr_sender_abandon(sctpr_sender *sender, uint32_t tsn, struct sctpr_abandoned *row);

/* Removes the message in front, where it is past its deadline and wholly unsent. SCTPR_NOTHING: there is no such message. Call it until it
 * says so. */
sctpr_code sctpr_sender_expire(sctpr_sender *sender, uint64_t now, struct sctpr_expired *row);

/* Abandons the rest of the partially sent message in front, where it is past its deadline. SCTPR_NOTHING: there is no such message.
 * SCTPR_TSNS_USED_UP, SCTPR_NO_MEMORY. `row` stays, but with SCTPR_OK. */
sctpr_code sctpr_sender_expire_tail(sctpr_sender *sender, uint64_t now, struct sctpr_abandoned *row);

/* Abandons each message in flight that is past its deadline (RFC 3758 3.5, 4.1): `count` becomes how many, and the first so many `rows`
 * tell of them; with a `room` of 0 no row is told. SCTPR_SHORT_BUFFER, where 0 < `room` < sctpr_sender_chunks_in_flight, so that no row is
 * lost: `count` becomes how many are wanted. Only where a message is past its deadline SCTPR_NO_MEMORY, and, where some of it waits and
 * 2^31 - 1 chunks are in flight, SCTPR_TSNS_USED_UP or that. `rows` stay then, and `count` too but for the first. */
sctpr_code sctpr_sender_expire_late(sctpr_sender *sender, uint64_t now, struct sctpr_abandoned *rows, size_t room, size_t *count);

/* Abandons each message in flight that was sent again as often as it may be (RFC 7496 3.1); never a DCEP message. Call it once chunks are
 * marked. Rows, count and refusals are those of sctpr_sender_expire_late. */
sctpr_code sctpr_sender_expire_rexmit(sctpr_sender *sender, struct sctpr_abandoned *rows, size_t room, size_t *count);

/* Writes the FORWARD-TSN that is to be sent (RFC 3758 3.5 C3, C4): up to the advanced ack point, or as far as its names fit the buffer.
 * `written` becomes its length, a multiple of four. SCTPR_NOTHING: there is nothing to tell. SCTPR_SHORT_BUFFER: nothing of it fits;
 * `written` becomes the length of all of it, 65,532 at most. SCTPR_NO_MEMORY. `out` stays, but with SCTPR_OK. */
sctpr_code sctpr_sender_forward_tsn(sctpr_sender *sender, uint8_t *out, size_t room, size_t *written);

/* Writes the FORWARD-TSN up to a TSN, or to the last TSN before it at which a message ends. SCTPR_NOTHING: no message ends up to there, or
 * the TSN is not past what is acknowledged, or is beyond the advanced ack point. SCTPR_SHORT_BUFFER: `written` is what is wanted;
 * SCTPR_LENGTH_TOO_LARGE, where it would name more than 16,381 streams; SCTPR_NO_MEMORY. `out` stays, but with SCTPR_OK. */
sctpr_code sctpr_sender_forward_tsn_to(sctpr_sender *sender, uint32_t tsn, uint8_t *out, size_t room, size_t *written);

/* The TSN that the next chunk gets (RFC 4960 6.1). */
uint32_t sctpr_sender_next_tsn(const sctpr_sender *sender);
/* The TSN up to which all was acknowledged (RFC 4960 6.2.1). */
uint32_t sctpr_sender_acked_tsn(const sctpr_sender *sender);
/* The Advanced.Peer.Ack.Point (RFC 3758 3.5 C2). */
uint32_t sctpr_sender_advanced_ack_point(const sctpr_sender *sender);
/* How many bytes of user data are in flight: what is acknowledged or abandoned counts no more, and what is marked counts. */
size_t sctpr_sender_bytes_in_flight(const sctpr_sender *sender);
/* What is outstanding: in flight, and neither acknowledged nor abandoned. `bytes` and `chunks` leave out what is marked for retransmission:
 * `bytes` is the flight size (RFC 9260 6.2.1 B, 7.2). `marked` is how many chunks are marked. */
struct sctpr_outstanding {
    size_t bytes;
    size_t chunks;
    size_t marked;
};

/* What is outstanding: `row` tells of it. After sctpr_sender_retransmit_all `bytes` is 0, and each chunk that is sent again raises it. */
void sctpr_sender_outstanding(const sctpr_sender *sender, struct sctpr_outstanding *row);
/* How many chunks are in flight: each TSN past sctpr_sender_acked_tsn and before sctpr_sender_next_tsn has one. */
size_t sctpr_sender_chunks_in_flight(const sctpr_sender *sender);
/* The first TSN in flight that is neither acknowledged nor abandoned (RFC 4960 6.3.3). SCTPR_NOTHING: there is none, and `tsn` stays. */
sctpr_code sctpr_sender_earliest_outstanding(const sctpr_sender *sender, uint32_t *tsn);
/* The next moment at which a lifetime ends, in nanoseconds, once lifetimes are started (RFC 3758 4.1): of the message that is next to be
 * sent, and of each in flight that is neither acknowledged nor abandoned; never of a DCEP message that waits. From then on
 * sctpr_sender_expire, .._expire_tail or .._expire_late finds something. SCTPR_NOTHING: no such lifetime runs, and `at` stays. It looks at each
 * chunk in flight. */
sctpr_code sctpr_sender_next_timeout(const sctpr_sender *sender, uint64_t *at);
/* How many fragments wait. */
size_t sctpr_sender_pending(const sctpr_sender *sender);
/* How many bytes of user data of a stream wait or are in flight. SCTPR_STREAM_UNKNOWN, and `amount` stays. */
sctpr_code sctpr_sender_buffered_amount(const sctpr_sender *sender, uint16_t stream, size_t *amount);
/* 1 where nothing of a stream waits or is in flight, so that it can be reset (RFC 6525 5.1.2), else 0. */
uint8_t sctpr_sender_is_drained(const sctpr_sender *sender, uint16_t stream);

#ifdef __cplusplus
}
#endif
#endif
