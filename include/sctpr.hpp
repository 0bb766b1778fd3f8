/* SCTP's lower layer for WebRTC data channels for C++20: the calls of sctpr.h, whose descriptions hold here too, with handles that free
 * themselves, spans and results. docs/C.md says how to build and link.
 *
 * No exception is thrown and none has to be caught: a call answers a `result`, which is the value or an `error`, and is used as
 * std::expected of C++23 is. What a call that was refused was to change is as it was. A packet that is refused, or a buffer that is full, is
 * an everyday thing here, and many who take this library compile without exceptions. Only the calls that answer a std::vector or a
 * std::string take memory of C++ itself.
 *
 * A sender or receiver is moved, never copied, and used by one thread at a time. Of one that was moved from each call is refused with
 * code::invalid, or answers 0 or nothing: its handle is empty. */
#ifndef SCTPR_HPP
#define SCTPR_HPP

#include "sctpr.h"
#include <cstddef>
#include <cstdint>
#include <optional>
#include <span>
#include <string>
#include <utility>
#include <vector>

namespace sctpr {

/** What a call answers: under 16 it was done, from 16 on it was refused. Written by tools/c_bindings.py from sctpr.h. */
enum class code : sctpr_code {
    /** Done. */
    ok = SCTPR_OK,
    /** Done: a DATA chunk's TSN came before. */
    repeat = SCTPR_REPEAT,
    /** Done, and nothing changed: a FORWARD-TSN is not past what came, or a SACK is before what was acknowledged. */
    stale = SCTPR_STALE,
    /** Done: there is nothing to send, to read or to tell. */
    nothing = SCTPR_NOTHING,
    /** Memory ran out. */
    no_memory = SCTPR_NO_MEMORY,
    /** The buffer is too short: the length that is wanted was told. */
    short_buffer = SCTPR_SHORT_BUFFER,
    /** An argument is out of its range, or NULL, or an empty handle. */
    invalid = SCTPR_INVALID,
    /** A chunk or a parameter would be longer than 65,535 bytes with its header (RFC 4960 3.2, 3.2.1). */
    length_too_large = SCTPR_LENGTH_TOO_LARGE,
    /** The checksum of the packet is another one (RFC 4960 6.8). */
    bad_checksum = SCTPR_BAD_CHECKSUM,
    /** A chunk is of a type that is not read. */
    unknown_chunk = SCTPR_UNKNOWN_CHUNK,
    /** The stream is open. */
    stream_open = SCTPR_STREAM_OPEN,
    /** The stream is not open. */
    stream_unknown = SCTPR_STREAM_UNKNOWN,
    /** The message is, or would be, longer than a message may be. */
    message_too_large = SCTPR_MESSAGE_TOO_LARGE,
    /** No further message can wait. */
    queue_full = SCTPR_QUEUE_FULL,
    /** No further TSN can be given out before some are acknowledged. */
    tsns_used_up = SCTPR_TSNS_USED_UP,
    /** The TSN is not in flight, or its chunk is acknowledged or abandoned. */
    not_in_flight = SCTPR_NOT_IN_FLIGHT,
    /** A SACK reports a TSN that was not given out. */
    sack_beyond_sent = SCTPR_SACK_BEYOND_SENT,
    /** A gap ack block of a SACK reports a TSN that is not in flight. */
    sack_bad_gap = SCTPR_SACK_BAD_GAP,
    /** The TSN lies half the circle from the cumulative one (RFC 1982 3.2). */
    tsn_opposite = SCTPR_TSN_OPPOSITE,
    /** Something of the stream waits or is in flight. */
    stream_busy = SCTPR_STREAM_BUSY,
    /** The next ordered message of the stream can't be begun before chunks of it are acknowledged. */
    ssns_used_up = SCTPR_SSNS_USED_UP,
    /** The TSN lies farther past the cumulative one than the limits allow. */
    tsn_too_far = SCTPR_TSN_TOO_FAR,
    /** Nothing is left of the window (RFC 4960 6.2). */
    window_full = SCTPR_WINDOW_FULL,
    /** The stream sequence number can't be told from one that was read (RFC 1982 3.2). */
    ssn_too_far = SCTPR_SSN_TOO_FAR,
    /** A FORWARD-TSN names a stream that is not open (RFC 3758 3.6). */
    named_stream_unknown = SCTPR_NAMED_STREAM_UNKNOWN,
    /** A FORWARD-TSN names a stream sequence number that can't be told from one that was read. */
    named_ssn_too_far = SCTPR_NAMED_SSN_TOO_FAR,
    /** The stream can't be reset yet (RFC 6525 4.4). */
    reset_in_progress = SCTPR_RESET_IN_PROGRESS,
    /** A packet has under 12 bytes, which its header takes (RFC 4960 3.1). */
    err_packet_raw_too_small = SCTPR_ERR_PACKET_RAW_TOO_SMALL,
    /** In the walk over a packet's chunks one to three bytes are left, or fewer than a chunk takes with its padding (RFC 4960 3.2). */
    err_parse_sctp_chunk_not_enough_data = SCTPR_ERR_PARSE_SCTP_CHUNK_NOT_ENOUGH_DATA,
    /** Not answered by a call of this library: the source port is 0 (RFC 4960 3.1). */
    err_sctp_packet_source_port_zero = SCTPR_ERR_SCTP_PACKET_SOURCE_PORT_ZERO,
    /** Not answered by a call of this library: the destination port is 0 (RFC 4960 3.1). */
    err_sctp_packet_destination_port_zero = SCTPR_ERR_SCTP_PACKET_DESTINATION_PORT_ZERO,
    /** Not answered by a call of this library: an INIT shares its packet with other chunks (RFC 4960 6.10). An INIT-ACK or a SHUTDOWN-COMPLETE that does passes, though RFC 4960 6.10 forbids it too. */
    err_init_chunk_bundled = SCTPR_ERR_INIT_CHUNK_BUNDLED,
    /** Not answered by a call of this library: a packet with an INIT has a verification tag other than 0 (RFC 4960 8.5.1). */
    err_init_chunk_verify_tag_not_zero = SCTPR_ERR_INIT_CHUNK_VERIFY_TAG_NOT_ZERO,
    /** From the chunk on there are under four bytes, which its header takes (RFC 4960 3.2). */
    err_chunk_header_too_small = SCTPR_ERR_CHUNK_HEADER_TOO_SMALL,
    /** A chunk's length is under four: it counts the header (RFC 4960 3.2). */
    err_chunk_header_invalid_length = SCTPR_ERR_CHUNK_HEADER_INVALID_LENGTH,
    /** A chunk's length passes the bytes that are there (RFC 4960 3.2). */
    err_chunk_header_not_enough_space = SCTPR_ERR_CHUNK_HEADER_NOT_ENOUGH_SPACE,
    /** After a chunk's length come one to three bytes, and one of them is not zero (RFC 4960 3.2). Where four or more follow, padding is not looked at. sctpr_read_any_packet and the readers of DATA, of a SACK and of an INIT ignore padding, and do not answer this. */
    err_chunk_header_padding_non_zero = SCTPR_ERR_CHUNK_HEADER_PADDING_NON_ZERO,
    /** Read as an ABORT: the type is not 6 (RFC 4960 3.3.7). */
    err_chunk_type_not_abort = SCTPR_ERR_CHUNK_TYPE_NOT_ABORT,
    /** Read as a COOKIE-ACK: the type is not 11 (RFC 4960 3.3.12). */
    err_chunk_type_not_cookie_ack = SCTPR_ERR_CHUNK_TYPE_NOT_COOKIE_ACK,
    /** Read as a COOKIE-ECHO: the type is not 10 (RFC 4960 3.3.11). */
    err_chunk_type_not_cookie_echo = SCTPR_ERR_CHUNK_TYPE_NOT_COOKIE_ECHO,
    /** Read as an ERROR: the type is not 9 (RFC 4960 3.3.10). */
    err_chunk_type_not_ct = SCTPR_ERR_CHUNK_TYPE_NOT_CT,
    /** Read as a FORWARD-TSN: the type is not 192 (RFC 3758 3.2). */
    err_chunk_type_not_forward_tsn = SCTPR_ERR_CHUNK_TYPE_NOT_FORWARD_TSN,
    /** Read as a HEARTBEAT: the type is not 4 (RFC 4960 3.3.5). */
    err_chunk_type_not_heartbeat = SCTPR_ERR_CHUNK_TYPE_NOT_HEARTBEAT,
    /** Read as a HEARTBEAT-ACK: the type is not 5 (RFC 4960 3.3.6). */
    err_chunk_type_not_heartbeat_ack = SCTPR_ERR_CHUNK_TYPE_NOT_HEARTBEAT_ACK,
    /** Read as an INIT or INIT-ACK: the type is neither 1 nor 2 (RFC 4960 3.3.2, 3.3.3). */
    err_chunk_type_not_type_init = SCTPR_ERR_CHUNK_TYPE_NOT_TYPE_INIT,
    /** Read as DATA: the type is not 0 (RFC 4960 3.3.1). */
    err_chunk_type_not_payload_data = SCTPR_ERR_CHUNK_TYPE_NOT_PAYLOAD_DATA,
    /** Read as a RECONFIG: the type is not 130 (RFC 6525 3.1). */
    err_chunk_type_not_reconfig = SCTPR_ERR_CHUNK_TYPE_NOT_RECONFIG,
    /** Read as a SACK: the type is not 3 (RFC 4960 3.3.4). */
    err_chunk_type_not_sack = SCTPR_ERR_CHUNK_TYPE_NOT_SACK,
    /** Read as a SHUTDOWN: the type is not 7 (RFC 4960 3.3.8). */
    err_chunk_type_not_shutdown = SCTPR_ERR_CHUNK_TYPE_NOT_SHUTDOWN,
    /** Read as a SHUTDOWN-ACK: the type is not 8 (RFC 4960 3.3.9). */
    err_chunk_type_not_shutdown_ack = SCTPR_ERR_CHUNK_TYPE_NOT_SHUTDOWN_ACK,
    /** Read as a SHUTDOWN-COMPLETE: the type is not 14 (RFC 4960 3.3.13). */
    err_chunk_type_not_shutdown_complete = SCTPR_ERR_CHUNK_TYPE_NOT_SHUTDOWN_COMPLETE,
    /** The value of a FORWARD-TSN (RFC 3758 3.2), I-FORWARD-TSN (RFC 8260 2.3.1) or RECONFIG (RFC 6525 3.1) has under four bytes, or the pairs of a FORWARD-TSN are followed by one to three. */
    err_chunk_too_short = SCTPR_ERR_CHUNK_TOO_SHORT,
    /** A DATA chunk's value has under 12 bytes, which stand before the user data (RFC 4960 3.3.1). */
    err_chunk_payload_small = SCTPR_ERR_CHUNK_PAYLOAD_SMALL,
    /** The value of an INIT or INIT-ACK has under 16 bytes (RFC 4960 3.3.2). */
    err_chunk_value_not_long_enough = SCTPR_ERR_CHUNK_VALUE_NOT_LONG_ENOUGH,
    /** An INIT or INIT-ACK has flags other than 0. RFC 4960 3.3.2 has a receiver ignore them; here the chunk is refused. */
    err_chunk_type_init_flag_zero = SCTPR_ERR_CHUNK_TYPE_INIT_FLAG_ZERO,
    /** Not answered by a call of this library: the initiate tag is 0 (RFC 4960 3.3.2). */
    err_chunk_type_init_initiate_tag_zero = SCTPR_ERR_CHUNK_TYPE_INIT_INITIATE_TAG_ZERO,
    /** Not answered by a call of this library: the number of inbound streams is 0 (RFC 4960 3.3.2). */
    err_init_inbound_stream_request_zero = SCTPR_ERR_INIT_INBOUND_STREAM_REQUEST_ZERO,
    /** Not answered by a call of this library: the number of outbound streams is 0 (RFC 4960 3.3.2). */
    err_init_outbound_stream_request_zero = SCTPR_ERR_INIT_OUTBOUND_STREAM_REQUEST_ZERO,
    /** Not answered by a call of this library: the credit is under 1,500 bytes (RFC 4960 6). */
    err_init_advertised_receiver_1500 = SCTPR_ERR_INIT_ADVERTISED_RECEIVER_1500,
    /** The value of a HEARTBEAT or HEARTBEAT-ACK has under four bytes, which the header of its parameter takes (RFC 4960 3.3.5, 3.3.6). */
    err_heartbeat_not_long_enough_info = SCTPR_ERR_HEARTBEAT_NOT_LONG_ENOUGH_INFO,
    /** The parameter of a HEARTBEAT or HEARTBEAT-ACK can be read, and its type is not 1 (RFC 4960 3.3.5). */
    err_heartbeat_param = SCTPR_ERR_HEARTBEAT_PARAM,
    /** A HEARTBEAT-ACK that is to be written has no parameter, or more than one (RFC 4960 3.3.6). */
    err_heartbeat_ack_params = SCTPR_ERR_HEARTBEAT_ACK_PARAMS,
    /** The one parameter of a HEARTBEAT-ACK that is to be written is no Heartbeat Info (RFC 4960 3.3.6). */
    err_heartbeat_ack_not_heartbeat_info = SCTPR_ERR_HEARTBEAT_ACK_NOT_HEARTBEAT_INFO,
    /** A RECONFIG that is to be written or is checked has no first parameter (RFC 6525 3.1). */
    err_chunk_reconfig_invalid_param_a = SCTPR_ERR_CHUNK_RECONFIG_INVALID_PARAM_A,
    /** Not answered by a call of this library: its two parameters' types may not stand together (RFC 6525 3.1). */
    err_chunk_reconfig_invalid_param_combination = SCTPR_ERR_CHUNK_RECONFIG_INVALID_PARAM_COMBINATION,
    /** The value of a SACK has under 12 bytes, or fewer than 12 and four for each of the blocks and duplicates that it counts (RFC 4960 3.3.4). */
    err_sack_size_not_large_enough_info = SCTPR_ERR_SACK_SIZE_NOT_LARGE_ENOUGH_INFO,
    /** The value of a SHUTDOWN has not exactly four bytes (RFC 4960 3.3.8). */
    err_invalid_chunk_size = SCTPR_ERR_INVALID_CHUNK_SIZE,
    /** An error cause has under four bytes, a length under four, or a length past the bytes that are there (RFC 4960 3.3.10). */
    err_error_cause_too_small = SCTPR_ERR_ERROR_CAUSE_TOO_SMALL,
    /** A parameter has under four bytes, a length under four, or a length past the bytes that are there (RFC 4960 3.2.1). */
    err_param_header_too_short = SCTPR_ERR_PARAM_HEADER_TOO_SHORT,
    /** A parameter of type typ is of no kind, and the type's highest bit is not set: reading is to stop (RFC 4960 3.2.1). */
    err_param_type_unhandled = SCTPR_ERR_PARAM_TYPE_UNHANDLED,
    /** A parameter is of another type than the call reads (RFC 6525 4). */
    err_param_type_unexpected = SCTPR_ERR_PARAM_TYPE_UNEXPECTED,
    /** The value of an Outgoing SSN Reset Request has under 12 bytes (RFC 6525 4.1), or that of a request has no number. */
    err_ssn_reset_request_param_too_short = SCTPR_ERR_SSN_RESET_REQUEST_PARAM_TOO_SHORT,
    /** The value of an Outgoing SSN Reset Request has 12 bytes or more, an odd number of them (RFC 6525 4.1), or that of another request has another length than its type gives it (4.2, 4.3, 4.5, 4.6). */
    err_ssn_reset_request_param_invalid_length = SCTPR_ERR_SSN_RESET_REQUEST_PARAM_INVALID_LENGTH,
    /** The value of a Re-configuration Response has under eight bytes (RFC 6525 4.4). */
    err_reconfig_resp_param_too_short = SCTPR_ERR_RECONFIG_RESP_PARAM_TOO_SHORT,
    /** A Requested HMAC Algorithm names another number than 1 or 3 (RFC 4895 3.3). */
    err_invalid_algorithm_type = SCTPR_ERR_INVALID_ALGORITHM_TYPE,
    /** The value of a Supported Address Types has an odd number of bytes (RFC 4960 3.3.2.1). */
    err_supported_address_types_param_invalid_length = SCTPR_ERR_SUPPORTED_ADDRESS_TYPES_PARAM_INVALID_LENGTH,
    /** Not answered by a call of this library: the message is longer than the buffer, which is filled with the message's beginning. */
    err_short_buffer = SCTPR_ERR_SHORT_BUFFER,
    /** It can't be written as it was given: a chunk whose value is read as another one. */
    not_as_given = SCTPR_NOT_AS_GIVEN,
};

/** The name that sctpr.h has for a code, "SCTPR_NO_MEMORY"; "SCTPR_UNKNOWN" of a number that is none. */
inline std::string name(code c) {
    std::uint8_t text[SCTPR_NAME_ROOM];
    std::size_t written = 0;
    if (sctpr_code_name(static_cast<sctpr_code>(c), text, sizeof text, &written) != SCTPR_OK || written == 0) return {};
    return std::string(reinterpret_cast<const char *>(text), written - 1);
}

/** The version of the library that was linked: major << 16 | minor << 8 | patch. */
inline std::uint32_t version() { return sctpr_version(); }

/** Why a call was refused. With code::short_buffer `wanted` is how many bytes, or rows, are enough. */
struct error {
    sctpr::code code;
    std::size_t wanted = 0;
    friend bool operator==(const error &, const error &) = default;
};
inline std::string name(const error &e) { return name(e.code); }

/** A value, or why there is none. To be asked for its value only where it has one. */
template <class T> class [[nodiscard]] result {
public:
    result(T value) : value_(std::move(value)) {}
    result(sctpr::error why) : error_(why) {}
    bool has_value() const { return value_.has_value(); }
    explicit operator bool() const { return has_value(); }
    T &operator*() & { return *value_; }
    const T &operator*() const & { return *value_; }
    T &&operator*() && { return std::move(*value_); }
    T *operator->() { return &*value_; }
    const T *operator->() const { return &*value_; }
    template <class U> T value_or(U &&other) const & { return value_ ? *value_ : static_cast<T>(std::forward<U>(other)); }
    const sctpr::error &error() const { return error_; }

private:
    std::optional<T> value_;
    sctpr::error error_{};
};

/** Whether a call was done, or why it was not. */
template <> class [[nodiscard]] result<void> {
public:
    result() = default;
    result(sctpr::error why) : error_(why) {}
    bool has_value() const { return error_ == sctpr::error{}; }
    explicit operator bool() const { return has_value(); }
    const sctpr::error &error() const { return error_; }

private:
    sctpr::error error_{};
};

using bytes = std::span<const std::uint8_t>;
using buffer = std::span<std::uint8_t>;

using head = sctpr_head;
using chunk = sctpr_chunk;
using any_chunk = sctpr_any_chunk;
using data = sctpr_data;
using sack = sctpr_sack;
using gap = sctpr_gap;
using skip = sctpr_skip;
using init = sctpr_init;
using param = sctpr_param;
using cause = sctpr_cause;
using reset = sctpr_reset;
using response = sctpr_response;
using add_streams = sctpr_add_streams;
using in_flight = sctpr_in_flight;
using outstanding_row = sctpr_outstanding;
using acked = sctpr_acked;
using taken_back = sctpr_taken_back;
using abandoned = sctpr_abandoned;
using expired = sctpr_expired;

namespace detail {
inline bool is_refused(sctpr_code c) { return c >= SCTPR_NO_MEMORY; }
inline error refusal(sctpr_code c, std::size_t wanted = 0) {
    return { static_cast<code>(c), c == SCTPR_SHORT_BUFFER ? wanted : 0 };
}
/** So many bytes from a place on; none where they are not there. */
inline bytes part(bytes all, std::size_t at, std::size_t length) {
    return at <= all.size() && length <= all.size() - at ? all.subspan(at, length) : bytes();
}
inline result<void> done(sctpr_code c) {
    if (is_refused(c)) return refusal(c);
    return {};
}
/** A value where the call was done: by reference, since the call may be evaluated behind the other arguments. */
template <class T> result<T> value_of(sctpr_code c, const T &value, std::size_t wanted = 0) {
    if (is_refused(c)) return refusal(c, wanted);
    return value;
}
/** A value with SCTPR_OK, none where the call was done and there is nothing. */
template <class T> result<std::optional<T>> option_of(sctpr_code c, const T &value, std::size_t wanted = 0) {
    if (is_refused(c)) return refusal(c, wanted);
    return c == SCTPR_OK ? std::optional<T>(value) : std::nullopt;
}
/** The first so many rows with SCTPR_OK, none where the call was done and changed nothing. */
template <class T> result<std::optional<std::span<T>>> rows_if_new(sctpr_code c, std::span<T> rows, std::size_t count) {
    if (is_refused(c)) return refusal(c, count);
    if (c != SCTPR_OK) return std::optional<std::span<T>>();
    return std::optional(rows.first(count < rows.size() ? count : rows.size()));
}
/** The first so many rows where the call was done. */
template <class T> result<std::span<T>> rows_of(sctpr_code c, std::span<T> rows, std::size_t count) {
    if (is_refused(c)) return refusal(c, count);
    return rows.first(count < rows.size() ? count : rows.size());
}
} // namespace detail

/* ---- Reading --------------------------------------------------------------------------------------------------------------- */

/** A packet's header, how many chunks it has, and those for which there was a row. */
struct packet {
    sctpr::head head;
    std::size_t count;
    std::span<const chunk> chunks;
};

/** The bytes of a chunk of a packet, as the calls below take them. This and the like below answer no bytes where these are not there. */
inline bytes chunk_bytes(bytes packet, const chunk &row) { return detail::part(packet, row.at, row.length); }

/** sctpr_read_packet. */
inline result<packet> read_packet(bytes datagram, std::span<chunk> rows) {
    packet p{};
    sctpr_code c = sctpr_read_packet(datagram.data(), datagram.size(), &p.head, rows.data(), rows.size(), &p.count);
    p.chunks = rows.first(p.count < rows.size() ? p.count : rows.size());
    return detail::value_of(c, p);
}

/** sctpr_read_packet_with_sum. */
inline result<packet> read_packet(bytes datagram, std::uint32_t sum, std::span<chunk> rows) {
    packet p{};
    sctpr_code c = sctpr_read_packet_with_sum(datagram.data(), datagram.size(), sum, &p.head, rows.data(), rows.size(), &p.count);
    p.chunks = rows.first(p.count < rows.size() ? p.count : rows.size());
    return detail::value_of(c, p);
}

/** A packet with all that RFC 9260 allows, which read_packet refuses. Of an INIT, INIT-ACK, ABORT, ERROR and RE-CONFIG the header was read;
 * read_any_param and read_cause walk the rest. */
struct any_packet {
    sctpr::head head;
    std::size_t count;
    std::span<const any_chunk> chunks;
};
inline bytes chunk_bytes(bytes packet, const any_chunk &row) { return detail::part(packet, row.at, row.length); }

/** sctpr_read_any_packet. */
inline result<any_packet> read_any_packet(bytes datagram, std::span<any_chunk> rows) {
    any_packet p{};
    sctpr_code c = sctpr_read_any_packet(datagram.data(), datagram.size(), &p.head, rows.data(), rows.size(), &p.count);
    p.chunks = rows.first(p.count < rows.size() ? p.count : rows.size());
    return detail::value_of(c, p);
}

/** sctpr_read_any_packet_with_sum. */
inline result<any_packet> read_any_packet(bytes datagram, std::uint32_t sum, std::span<any_chunk> rows) {
    any_packet p{};
    sctpr_code c = sctpr_read_any_packet_with_sum(datagram.data(), datagram.size(), sum, &p.head, rows.data(), rows.size(), &p.count);
    p.chunks = rows.first(p.count < rows.size() ? p.count : rows.size());
    return detail::value_of(c, p);
}

/** A DATA chunk; its user data are `user_data(chunk)`. */
inline result<data> read_data(bytes chunk) {
    data d{};
    return detail::value_of(sctpr_read_data(chunk.data(), chunk.size(), &d), d);
}
/** The user data of bytes that were read as a DATA chunk. */
inline bytes user_data(bytes chunk, const data &d) { return detail::part(chunk, 16, d.length); }

/** A SACK, and as many of its blocks and duplicates as there was room for. */
inline result<sack> read_sack(bytes chunk, std::span<gap> blocks = {}, std::span<std::uint32_t> duplicates = {}) {
    sack s{};
    sctpr_code c = sctpr_read_sack(chunk.data(), chunk.size(), &s, blocks.data(), blocks.size(), duplicates.data(), duplicates.size());
    return detail::value_of(c, s);
}

/** A FORWARD-TSN: up to where, how many streams it names, and those for which there was a row. */
struct forward_tsn {
    std::uint32_t new_cumulative_tsn;
    std::size_t count;
    std::span<const skip> streams;
};
inline result<forward_tsn> read_forward_tsn(bytes chunk, std::span<skip> rows = {}) {
    forward_tsn f{};
    sctpr_code c = sctpr_read_forward_tsn(chunk.data(), chunk.size(), &f.new_cumulative_tsn, rows.data(), rows.size(), &f.count);
    f.streams = rows.first(f.count < rows.size() ? f.count : rows.size());
    return detail::value_of(c, f);
}

/** An INIT or INIT-ACK; its parameters are `init_params(chunk)`. */
inline result<init> read_init(bytes chunk) {
    init i{};
    return detail::value_of(sctpr_read_init(chunk.data(), chunk.size(), &i), i);
}
inline bytes init_params(bytes chunk) { return chunk.size() < 20 ? bytes() : chunk.subspan(20); }

/** The TSN of a SHUTDOWN. */
inline result<std::uint32_t> read_shutdown(bytes chunk) {
    std::uint32_t tsn = 0;
    sctpr_code c = sctpr_read_shutdown(chunk.data(), chunk.size(), &tsn);
    return detail::value_of(c, tsn);
}

/** The error cause that the bytes begin with; its value is `cause_value(bytes, c)`, and the next one begins at byte c.next. */
inline result<cause> read_cause(bytes all) {
    cause c{};
    return detail::value_of(sctpr_read_cause(all.data(), all.size(), &c), c);
}
inline bytes cause_value(bytes all, const cause &c) { return detail::part(all, 4, c.length); }

/** The parameter that the bytes begin with; its value is `param_value(bytes, p)`, and the next one begins at byte p.next. */
inline result<param> read_param(bytes all) {
    param p{};
    return detail::value_of(sctpr_read_param(all.data(), all.size(), &p), p);
}
inline bytes param_value(bytes all, const param &p) { return detail::part(all, 4, p.length); }

/** The same of any type and any value: its header alone is read. */
inline result<param> read_any_param(bytes all) {
    param p{};
    return detail::value_of(sctpr_read_any_param(all.data(), all.size(), &p), p);
}

/** The number of any request of a RE-CONFIG that the bytes begin with. */
inline result<std::uint32_t> read_request(bytes all) {
    std::uint32_t number = 0;
    return detail::value_of(sctpr_read_request(all.data(), all.size(), &number), number);
}

/** An Outgoing SSN Reset Request; as many streams as there is room for stand in `streams`, and `count` is how many it names. */
inline result<reset> read_reset(bytes all, std::span<std::uint16_t> streams, std::size_t &count) {
    reset r{};
    return detail::value_of(sctpr_read_reset(all.data(), all.size(), &r, streams.data(), streams.size(), &count), r);
}

/** The number of an Incoming SSN Reset Request; streams are as above. */
inline result<std::uint32_t> read_incoming_reset(bytes all, std::span<std::uint16_t> streams, std::size_t &count) {
    std::uint32_t number = 0;
    sctpr_code c = sctpr_read_incoming_reset(all.data(), all.size(), &number, streams.data(), streams.size(), &count);
    return detail::value_of(c, number);
}

/** A request to add outgoing or incoming streams. */
inline result<add_streams> read_add_streams(bytes all) {
    add_streams a{};
    return detail::value_of(sctpr_read_add_streams(all.data(), all.size(), &a), a);
}

/** A Re-configuration Response. */
inline result<response> read_response(bytes all) {
    response r{};
    return detail::value_of(sctpr_read_response(all.data(), all.size(), &r), r);
}

/* ---- Writing --------------------------------------------------------------------------------------------------------------- */

/** sctpr_write_chunk. Each of these answers how many bytes were written, padding included. */
inline result<std::size_t> write_chunk(std::uint8_t type, bytes value, buffer out) {
    std::size_t n = 0;
    sctpr_code c = sctpr_write_chunk(type, value.data(), value.size(), out.data(), out.size(), &n);
    return detail::value_of(c, n, n);
}
inline result<std::size_t> write_chunk_with_flags(std::uint8_t type, std::uint8_t flags, bytes value, buffer out) {
    std::size_t n = 0;
    sctpr_code c = sctpr_write_chunk_with_flags(type, flags, value.data(), value.size(), out.data(), out.size(), &n);
    return detail::value_of(c, n, n);
}
inline result<std::size_t> write_init(const init &i, bytes params, buffer out) {
    std::size_t n = 0;
    sctpr_code c = sctpr_write_init(&i, params.data(), params.size(), out.data(), out.size(), &n);
    return detail::value_of(c, n, n);
}
inline result<std::size_t> write_param(std::uint16_t type, bytes value, buffer out) {
    std::size_t n = 0;
    sctpr_code c = sctpr_write_param(type, value.data(), value.size(), out.data(), out.size(), &n);
    return detail::value_of(c, n, n);
}

/** The requests of a RE-CONFIG; with no stream a reset is one of all. */
inline result<std::size_t> write_reset(const reset &r, std::span<const std::uint16_t> streams, buffer out) {
    std::size_t n = 0;
    sctpr_code c = sctpr_write_reset(&r, streams.data(), streams.size(), out.data(), out.size(), &n);
    return detail::value_of(c, n, n);
}
inline result<std::size_t> write_incoming_reset(std::uint32_t request, std::span<const std::uint16_t> streams, buffer out) {
    std::size_t n = 0;
    sctpr_code c = sctpr_write_incoming_reset(request, streams.data(), streams.size(), out.data(), out.size(), &n);
    return detail::value_of(c, n, n);
}
inline result<std::size_t> write_ssn_tsn_reset(std::uint32_t request, buffer out) {
    std::size_t n = 0;
    sctpr_code c = sctpr_write_ssn_tsn_reset(request, out.data(), out.size(), &n);
    return detail::value_of(c, n, n);
}
inline result<std::size_t> write_add_streams(const add_streams &a, buffer out) {
    std::size_t n = 0;
    sctpr_code c = sctpr_write_add_streams(&a, out.data(), out.size(), &n);
    return detail::value_of(c, n, n);
}
inline result<std::size_t> write_response(const response &r, buffer out) {
    std::size_t n = 0;
    sctpr_code c = sctpr_write_response(&r, out.data(), out.size(), &n);
    return detail::value_of(c, n, n);
}
inline result<std::size_t> write_cause(std::uint16_t code, bytes value, buffer out) {
    std::size_t n = 0;
    sctpr_code c = sctpr_write_cause(code, value.data(), value.size(), out.data(), out.size(), &n);
    return detail::value_of(c, n, n);
}

/** Header and CRC-32C in front of a packet of 12 bytes or more. */
inline result<void> seal_packet(const head &h, buffer packet) {
    sctpr_code c = sctpr_seal_packet(&h, packet.data(), packet.size());
    if (detail::is_refused(c)) return detail::refusal(c, 12);
    return {};
}
/** The same under a sum that the caller takes of the packet in between. */
inline result<void> write_head(const head &h, buffer packet) {
    sctpr_code c = sctpr_write_head(&h, packet.data(), packet.size());
    if (detail::is_refused(c)) return detail::refusal(c, 12);
    return {};
}
inline result<void> store_sum(std::uint32_t sum, buffer packet) {
    sctpr_code c = sctpr_store_sum(sum, packet.data(), packet.size());
    if (detail::is_refused(c)) return detail::refusal(c, 12);
    return {};
}

/* ---- Receiver -------------------------------------------------------------------------------------------------------------- */

/** What became of a DATA chunk that was taken. */
enum class arrival {
    /** Its TSN came before. */
    repeat,
    /** Its TSN is new. */
    added,
    /** Its TSN is new, and a message of its stream became complete with it. */
    completed
};

/** How long a message is, and what it is (RFC 8831 8). */
struct message_info {
    std::size_t size;
    std::uint32_t payload_type;
};

struct message {
    std::vector<std::uint8_t> bytes;
    std::uint32_t payload_type;
};

/** The receiving half of an association. */
class receiver {
public:
    /** SCTPR_LEAST_WINDOW; a `fragment` of 0 counts as 1. */
    static constexpr std::size_t least_window(std::uint32_t max_message_size, std::uint32_t fragment) {
        return SCTPR_LEAST_WINDOW(max_message_size, fragment == 0 ? 1 : fragment);
    }
    /** sctpr_receiver_new. */
    static result<receiver> make(std::uint32_t first_tsn, std::uint32_t max_message_size, std::size_t window, std::uint32_t reach) {
        sctpr_receiver r{};
        sctpr_code c = sctpr_receiver_new(first_tsn, max_message_size, window, reach, &r);
        if (detail::is_refused(c)) return detail::refusal(c);
        return receiver(r);
    }
    /** sctpr_receiver_new_unlimited. */
    static result<receiver> make_unlimited(std::uint32_t first_tsn, std::uint32_t max_message_size) {
        sctpr_receiver r{};
        sctpr_code c = sctpr_receiver_new_unlimited(first_tsn, max_message_size, &r);
        if (detail::is_refused(c)) return detail::refusal(c);
        return receiver(r);
    }
    receiver(receiver &&other) noexcept : handle_(std::exchange(other.handle_, {})) {}
    receiver &operator=(receiver &&other) noexcept {
        std::swap(handle_, other.handle_);
        return *this;
    }
    ~receiver() { sctpr_receiver_free(&handle_); }

    result<void> open(std::uint16_t stream) { return detail::done(sctpr_receiver_open(&handle_, stream)); }
    void close(std::uint16_t stream) { sctpr_receiver_close(&handle_, stream); }
    result<void> reset(std::uint16_t stream, std::uint32_t last_tsn) {
        return detail::done(sctpr_receiver_reset(&handle_, stream, last_tsn));
    }
    result<arrival> take_data(bytes chunk) {
        std::uint8_t complete = 0;
        sctpr_code c = sctpr_receiver_data(&handle_, chunk.data(), chunk.size(), &complete);
        return detail::value_of(c, c == SCTPR_REPEAT ? arrival::repeat : complete ? arrival::completed : arrival::added);
    }
    /** A DATA chunk that is dropped counts as come. */
    result<arrival> discard(std::uint32_t tsn) {
        sctpr_code c = sctpr_receiver_discard(&handle_, tsn);
        return detail::value_of(c, c == SCTPR_REPEAT ? arrival::repeat : arrival::added);
    }
    /** Whether it was past the cumulative TSN, and was followed. */
    result<bool> take_forward_tsn(bytes chunk) {
        sctpr_code c = sctpr_receiver_forward_tsn(&handle_, chunk.data(), chunk.size());
        return detail::value_of(c, c == SCTPR_OK);
    }
    result<bool> take_forward_tsn_past_closed(bytes chunk) {
        sctpr_code c = sctpr_receiver_forward_tsn_past_closed(&handle_, chunk.data(), chunk.size());
        return detail::value_of(c, c == SCTPR_OK);
    }
    /** The next message of a stream; nothing is taken out. */
    result<std::optional<message_info>> next(std::uint16_t stream) const {
        message_info m{};
        sctpr_code c = sctpr_receiver_next_length(&handle_, stream, &m.size, &m.payload_type);
        return detail::option_of(c, m);
    }
    /** Takes the next message out, to the front of a buffer. */
    result<std::optional<message_info>> read(std::uint16_t stream, buffer out) {
        message_info m{};
        sctpr_code c = sctpr_receiver_read(&handle_, stream, out.data(), out.size(), &m.size, &m.payload_type);
        return detail::option_of(c, m, m.size);
    }
    /** Takes the next message out. */
    result<std::optional<message>> read(std::uint16_t stream) {
        auto told = next(stream);
        if (!told) return told.error();
        if (!*told) return std::optional<message>();
        message m{ std::vector<std::uint8_t>((*told)->size), (*told)->payload_type };
        auto got = read(stream, m.bytes);
        if (!got) return got.error();
        return std::optional<message>(std::move(m));
    }
    /** The streams with a message to read: the front of `rows`. */
    result<std::span<std::uint16_t>> readable_streams(std::span<std::uint16_t> rows) const {
        std::size_t n = 0;
        sctpr_code c = sctpr_receiver_readable_streams(&handle_, rows.data(), rows.size(), &n);
        return detail::rows_of(c, rows, n);
    }
    /** Writes the SACK, and answers how many bytes it has. */
    result<std::size_t> write_sack(buffer out) {
        std::size_t n = 0;
        sctpr_code c = sctpr_receiver_sack(&handle_, out.data(), out.size(), &n);
        return detail::value_of(c, n, 16);
    }
    std::uint32_t cumulative_tsn() const { return sctpr_receiver_cumulative_tsn(&handle_); }
    std::uint32_t window() const { return sctpr_receiver_window(&handle_); }
    /** SCTPR_CREDIT of what is left of the window, for a peer whose chunks have `fragment` bytes of user data or more; 0 counts as 1. */
    std::uint32_t credit(std::uint32_t fragment) const {
        return static_cast<std::uint32_t>(SCTPR_CREDIT(window(), fragment == 0 ? 1 : fragment));
    }
    std::size_t held_bytes() const { return sctpr_receiver_held_bytes(&handle_); }

    /** The handle, for calls of sctpr.h; it stays this object's. */
    sctpr_receiver *handle() { return &handle_; }

private:
    explicit receiver(sctpr_receiver handle) : handle_(handle) {}
    sctpr_receiver handle_;
};

/* ---- Sender ---------------------------------------------------------------------------------------------------------------- */

enum class reliability : std::uint32_t { reliable = SCTPR_RELIABLE, rexmit = SCTPR_REXMIT, timed = SCTPR_TIMED };

/** A message that was written: its number, and how many chunks it has. */
struct written {
    std::uint64_t number;
    std::size_t fragments;
};

/** A DATA chunk that was written: how many bytes it has, padding included, and its TSN. */
struct sent {
    std::size_t size;
    std::uint32_t tsn;
};

/** The sending half of an association. Times are in nanoseconds from any one moment. */
class sender {
public:
    /** sctpr_sender_new. */
    static result<sender> make(std::uint32_t first_tsn, std::uint32_t fragment_size, std::uint32_t max_message_size,
                               bool keeps_reported = false) {
        sctpr_sender s{};
        sctpr_code c = sctpr_sender_new(first_tsn, fragment_size, max_message_size, keeps_reported, &s);
        if (detail::is_refused(c)) return detail::refusal(c);
        return sender(s);
    }
    sender(sender &&other) noexcept : handle_(std::exchange(other.handle_, {})) {}
    sender &operator=(sender &&other) noexcept {
        std::swap(handle_, other.handle_);
        return *this;
    }
    ~sender() { sctpr_sender_free(&handle_); }

    result<void> open(std::uint16_t stream) { return detail::done(sctpr_sender_open(&handle_, stream)); }
    void close(std::uint16_t stream) { sctpr_sender_close(&handle_, stream); }
    result<void> set_mode(std::uint16_t stream, bool unordered, reliability kind = reliability::reliable, std::uint32_t value = 0) {
        return detail::done(sctpr_sender_set_mode(&handle_, stream, unordered, static_cast<std::uint32_t>(kind), value));
    }
    result<void> set_fragment_size(std::uint32_t size) { return detail::done(sctpr_sender_set_fragment_size(&handle_, size)); }
    result<void> set_low_threshold(std::uint16_t stream, std::size_t size) {
        return detail::done(sctpr_sender_set_low_threshold(&handle_, stream, size));
    }
    result<void> reset(std::uint16_t stream) { return detail::done(sctpr_sender_reset(&handle_, stream)); }
    /** Takes a copy of a message; none where it has no bytes. */
    result<std::optional<written>> write(std::uint16_t stream, std::uint32_t payload_type, bytes message) {
        written w{};
        sctpr_code c = sctpr_sender_write(&handle_, stream, payload_type, message.data(), message.size(), &w.number, &w.fragments);
        return detail::option_of(c, w);
    }
    void start(std::uint64_t now) { sctpr_sender_start(&handle_, now); }
    /** Writes the next DATA chunk; none where nothing waits. */
    result<std::optional<sent>> send_next(std::uint64_t now, buffer out) {
        sent s{};
        sctpr_code c = sctpr_sender_send_next(&handle_, now, out.data(), out.size(), &s.size, &s.tsn);
        return detail::option_of(c, s, s.size);
    }
    /** Writes a DATA chunk again, and answers how many bytes it has. */
    result<std::size_t> resend(std::uint32_t tsn, std::uint64_t now, buffer out) {
        std::size_t n = 0;
        sctpr_code c = sctpr_sender_resend(&handle_, tsn, now, out.data(), out.size(), &n);
        return detail::value_of(c, n, n);
    }
    void retransmit_all() { sctpr_sender_retransmit_all(&handle_); }
    std::size_t add_miss_indications(std::uint32_t before) { return sctpr_sender_add_miss_indications(&handle_, before); }
    /** The chunk in flight with a TSN. */
    std::optional<sctpr::in_flight> in_flight(std::uint32_t tsn) const {
        sctpr::in_flight row{};
        return sctpr_sender_in_flight(&handle_, tsn, &row) == SCTPR_OK ? std::optional(row) : std::nullopt;
    }
    /** The chunk in flight at a place, from 0 on. */
    std::optional<sctpr::in_flight> in_flight_at(std::size_t place) const {
        sctpr::in_flight row{};
        return sctpr_sender_in_flight_at(&handle_, place, &row) == SCTPR_OK ? std::optional(row) : std::nullopt;
    }
    std::optional<sctpr::in_flight> next_to_retransmit() const {
        sctpr::in_flight row{};
        return sctpr_sender_next_to_retransmit(&handle_, &row) == SCTPR_OK ? std::optional(row) : std::nullopt;
    }
    /** Takes a SACK: a row for each chunk that it reports anew; no span where it is out of date. There are to be as many rows as chunks in
     * flight, or none. */
    result<std::optional<std::span<acked>>> take_sack(bytes chunk, std::span<acked> rows) {
        std::size_t n = 0;
        sctpr_code c = sctpr_sender_acked(&handle_, chunk.data(), chunk.size(), rows.data(), rows.size(), &n);
        return detail::rows_if_new(c, rows, n);
    }
    /** Takes the TSN of a SHUTDOWN, as a SACK. */
    result<std::optional<std::span<acked>>> take_shutdown(std::uint32_t tsn, std::span<acked> rows) {
        std::size_t n = 0;
        sctpr_code c = sctpr_sender_acked_up_to(&handle_, tsn, rows.data(), rows.size(), &n);
        return detail::rows_if_new(c, rows, n);
    }
    /** Takes back what a SACK no longer reports, before take_sack with the same SACK; no span where it is out of date. */
    result<std::optional<std::span<taken_back>>> take_back(bytes chunk, std::span<taken_back> rows) {
        std::size_t n = 0;
        sctpr_code c = sctpr_sender_take_back(&handle_, chunk.data(), chunk.size(), rows.data(), rows.size(), &n);
        return detail::rows_if_new(c, rows, n);
    }
    result<abandoned> abandon(std::uint32_t tsn) {
        abandoned row{};
        return detail::value_of(sctpr_sender_abandon(&handle_, tsn, &row), row);
    }
    std::optional<expired> expire(std::uint64_t now) {
        expired row{};
        return sctpr_sender_expire(&handle_, now, &row) == SCTPR_OK ? std::optional(row) : std::nullopt;
    }
    result<std::optional<abandoned>> expire_tail(std::uint64_t now) {
        abandoned row{};
        return detail::option_of(sctpr_sender_expire_tail(&handle_, now, &row), row);
    }
    /** There are to be as many rows as chunks in flight, or none. */
    result<std::span<abandoned>> expire_late(std::uint64_t now, std::span<abandoned> rows) {
        std::size_t n = 0;
        sctpr_code c = sctpr_sender_expire_late(&handle_, now, rows.data(), rows.size(), &n);
        return detail::rows_of(c, rows, n);
    }
    result<std::span<abandoned>> expire_rexmit(std::span<abandoned> rows) {
        std::size_t n = 0;
        sctpr_code c = sctpr_sender_expire_rexmit(&handle_, rows.data(), rows.size(), &n);
        return detail::rows_of(c, rows, n);
    }
    /** Writes the FORWARD-TSN that is to be sent; none where there is nothing to tell. */
    result<std::optional<std::size_t>> write_forward_tsn(buffer out) {
        std::size_t n = 0;
        sctpr_code c = sctpr_sender_forward_tsn(&handle_, out.data(), out.size(), &n);
        return detail::option_of(c, n, n);
    }
    result<std::optional<std::size_t>> write_forward_tsn_to(std::uint32_t tsn, buffer out) {
        std::size_t n = 0;
        sctpr_code c = sctpr_sender_forward_tsn_to(&handle_, tsn, out.data(), out.size(), &n);
        return detail::option_of(c, n, n);
    }
    std::uint32_t next_tsn() const { return sctpr_sender_next_tsn(&handle_); }
    std::uint32_t acked_tsn() const { return sctpr_sender_acked_tsn(&handle_); }
    std::uint32_t advanced_ack_point() const { return sctpr_sender_advanced_ack_point(&handle_); }
    std::size_t bytes_in_flight() const { return sctpr_sender_bytes_in_flight(&handle_); }
    std::size_t chunks_in_flight() const { return sctpr_sender_chunks_in_flight(&handle_); }
    outstanding_row outstanding() const {
        outstanding_row row{};
        sctpr_sender_outstanding(&handle_, &row);
        return row;
    }
    std::optional<std::uint32_t> earliest_outstanding() const {
        std::uint32_t tsn = 0;
        return sctpr_sender_earliest_outstanding(&handle_, &tsn) == SCTPR_OK ? std::optional(tsn) : std::nullopt;
    }
    std::optional<std::uint64_t> next_timeout() const {
        std::uint64_t at = 0;
        return sctpr_sender_next_timeout(&handle_, &at) == SCTPR_OK ? std::optional(at) : std::nullopt;
    }
    std::size_t pending() const { return sctpr_sender_pending(&handle_); }
    result<std::size_t> buffered_amount(std::uint16_t stream) const {
        std::size_t amount = 0;
        sctpr_code c = sctpr_sender_buffered_amount(&handle_, stream, &amount);
        return detail::value_of(c, amount);
    }
    bool is_drained(std::uint16_t stream) const { return sctpr_sender_is_drained(&handle_, stream) != 0; }

    /** The handle, for calls of sctpr.h; it stays this object's. */
    sctpr_sender *handle() { return &handle_; }

private:
    explicit sender(sctpr_sender handle) : handle_(handle) {}
    sctpr_sender handle_;
};

} // namespace sctpr

#endif
