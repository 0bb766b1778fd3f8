/* Each call of sctpr.hpp: what it answers where the call is done, where there is nothing, and where it is refused. */
#include "sctpr.hpp"
#include <algorithm>
#include <array>
#include <cstdio>
#include <cstring>
#include <type_traits>

namespace {

unsigned passed, failed;

#define CHECK(...) \
    do { \
        if (__VA_ARGS__) { \
            passed++; \
        } else { \
            failed++; \
            std::printf("%s:%d: not so: %s\n", __FILE__, __LINE__, #__VA_ARGS__); \
        } \
    } while (0)

static_assert(!std::is_copy_constructible_v<sctpr::sender> && std::is_nothrow_move_constructible_v<sctpr::sender>);
static_assert(!std::is_copy_assignable_v<sctpr::receiver> && std::is_nothrow_move_assignable_v<sctpr::receiver>);

/** Whether a call was refused so. */
template <class T> bool is_refused(const sctpr::result<T> &r, sctpr::code why, std::size_t wanted = 0) {
    return !r && r.error() == sctpr::error{ why, wanted };
}

sctpr::bytes bytes_of(const char *text, std::size_t length) { return { reinterpret_cast<const std::uint8_t *>(text), length }; }

void codes() {
    CHECK(sctpr::version() == (SCTPR_VERSION_MAJOR << 16 | SCTPR_VERSION_MINOR << 8 | SCTPR_VERSION_PATCH));
    CHECK(sctpr::name(sctpr::code::no_memory) == "SCTPR_NO_MEMORY");
    CHECK(sctpr::name(sctpr::code::err_packet_raw_too_small) == "SCTPR_ERR_PACKET_RAW_TOO_SMALL");
    CHECK(sctpr::name(sctpr::error{ static_cast<sctpr::code>(1000) }) == "SCTPR_UNKNOWN");
}

void packets() {
    std::array<std::uint8_t, 64> packet{};
    std::array<sctpr::chunk, 2> rows{};
    sctpr::head head{ 1, 5000, 5001 };
    sctpr::buffer rest = sctpr::buffer(packet).subspan(12);
    CHECK(is_refused(sctpr::write_chunk(SCTPR_COOKIE_ACK, {}, rest.first(3)), sctpr::code::short_buffer, 4));
    CHECK(is_refused(sctpr::seal_packet(head, sctpr::buffer(packet).first(11)), sctpr::code::short_buffer, 12));
    auto n = sctpr::write_chunk(SCTPR_COOKIE_ACK, {}, rest);
    CHECK(n && *n == 4 && n.value_or(0u) == 4);
    sctpr::buffer whole = sctpr::buffer(packet).first(16);
    CHECK(sctpr::seal_packet(head, whole).has_value());
    auto read = sctpr::read_packet(whole, rows);
    CHECK(read && read->head.source_port == 5000 && read->count == 1 && read->chunks.size() == 1 && read->chunks[0].at == 12);
    CHECK(sctpr::chunk_bytes(whole, read->chunks[0]).size() == 4);
    std::uint32_t sum = packet[8] | packet[9] << 8 | packet[10] << 16 | std::uint32_t(packet[11]) << 24;
    CHECK(sctpr::write_head(head, whole) && packet[8] == 0 && sctpr::store_sum(sum, whole));
    CHECK(sctpr::read_packet(whole, sum, rows).has_value());
    std::array<sctpr::any_chunk, 2> any_rows{};
    CHECK(sctpr::read_any_packet(whole, sum, any_rows).has_value());
    whole[12] = 132; /* PAD (RFC 4820) */
    CHECK(sctpr::seal_packet(head, whole) && is_refused(sctpr::read_packet(whole, rows), sctpr::code::unknown_chunk));
    auto any = sctpr::read_any_packet(whole, any_rows);
    CHECK(any && any->count == 1 && !any->chunks[0].is_known && !any->chunks[0].is_reported && any->head.source_port == 5000);
    CHECK(sctpr::chunk_bytes(whole, any->chunks[0])[0] == 132);
    packet[0] ^= 1;
    CHECK(is_refused(sctpr::read_packet(whole, rows), sctpr::code::bad_checksum));
    CHECK(is_refused(sctpr::read_packet(whole, sum + 1, rows), sctpr::code::bad_checksum));
    CHECK(is_refused(sctpr::read_packet({}, rows), sctpr::code::err_packet_raw_too_small));
}

void chunks() {
    std::array<std::uint8_t, 64> out{};
    std::array<sctpr::gap, 2> gaps{};
    std::array<std::uint32_t, 2> repeats{};
    std::array<sctpr::skip, 2> skips{};
    auto sack = sctpr::read_sack(bytes_of("\3\0\0\30\0\0\0\7\0\0\1\0\0\1\0\1\0\2\0\3\0\0\0\5", 24), gaps, repeats);
    CHECK(sack && sack->cumulative_tsn == 7 && sack->credit == 256 && sack->blocks == 1 && gaps[0].start == 2 && repeats[0] == 5);
    auto skip = sctpr::read_forward_tsn(bytes_of("\300\0\0\14\0\0\3\350\0\3\0\4", 12), skips);
    CHECK(skip && skip->new_cumulative_tsn == 1000 && skip->count == 1 && skip->streams[0].sequence == 4);
    auto data = sctpr::read_data(bytes_of("\0\3\0\22\0\0\0\1\0\2\0\3\0\0\0\63hi", 18));
    CHECK(data && data->tsn == 1 && data->stream == 2 && data->payload_type == SCTPR_PPID_STRING && data->length == 2);
    CHECK(sctpr::user_data(bytes_of("\0\3\0\22\0\0\0\1\0\2\0\3\0\0\0\63hi", 18), *data)[1] == 'i');
    auto other = sctpr::read_data(bytes_of("\0\3\0\22\0\0\0\1\0\2\0\3\0\0\0\56hi", 18));
    CHECK(other && other->payload_type == 46);
    CHECK(is_refused(sctpr::read_data(bytes_of("\3\0\0\4", 4)), sctpr::code::err_chunk_type_not_payload_data));
    auto abort = sctpr::write_chunk_with_flags(SCTPR_ABORT, SCTPR_FLAG_T, {}, out);
    CHECK(abort && *abort == 4 && out[1] == 1);
    auto caused = sctpr::write_cause(SCTPR_CAUSE_USER_INITIATED_ABORT, bytes_of("bye", 3), out);
    CHECK(caused && *caused == 8 && out[3] == 7);
    auto cause = sctpr::read_cause(sctpr::bytes(out).first(8));
    CHECK(cause && cause->code == 12 && cause->next == 8 && sctpr::cause_value(out, *cause)[2] == 'e');
    auto shutdown = sctpr::read_shutdown(bytes_of("\7\0\0\10\0\0\3\350", 8));
    CHECK(shutdown && *shutdown == 1000 && is_refused(sctpr::read_shutdown({}), sctpr::code::err_chunk_header_too_small));
    auto n = sctpr::write_param(SCTPR_PARAM_STATE_COOKIE, bytes_of("abc", 3), out);
    CHECK(n && *n == 8);
    std::array<std::uint8_t, 64> chunk{};
    auto length = sctpr::write_init({ 1, 2000, 3, 4, 5, 1 }, sctpr::bytes(out).first(8), chunk);
    CHECK(length && *length == 28);
    sctpr::bytes whole = sctpr::bytes(chunk).first(28);
    auto init = sctpr::read_init(whole);
    CHECK(init && init->is_ack == 1 && init->initial_tsn == 3 && init->inbound_streams == 5);
    auto param = sctpr::read_param(sctpr::init_params(whole));
    CHECK(param && param->type == SCTPR_PARAM_STATE_COOKIE && param->next == 8);
    CHECK(sctpr::param_value(sctpr::init_params(whole), *param).size() == 3);
}

/** The words of a RE-CONFIG, a parameter of an address, and what can't be written or made as it was given. */
void reconfig() {
    std::array<std::uint8_t, 16> out{};
    auto n = sctpr::write_response({ 9, SCTPR_RESULT_DENIED }, out);
    auto r = sctpr::read_response(sctpr::bytes(out).first(12));
    CHECK(n && *n == 12 && r && r->response == 9 && r->result == 2);
    CHECK(is_refused(sctpr::read_request(sctpr::bytes(out).first(12)), sctpr::code::err_param_type_unexpected));
    std::array<std::uint16_t, 2> streams{};
    std::size_t count = 0;
    auto reset = sctpr::read_reset(bytes_of("\0\x0d\0\x12\0\0\0\1\0\0\0\2\0\0\0\3\0\4", 18), streams, count);
    CHECK(reset && reset->request == 1 && reset->response == 2 && reset->last_tsn == 3 && count == 1 && streams[0] == 4);
    auto number = sctpr::read_request(bytes_of("\0\x11\0\x0c\0\0\0\7\0\1\0\0", 12));
    CHECK(number && *number == 7);
    const std::array<std::uint16_t, 1> five{ 5 };
    CHECK(*sctpr::write_incoming_reset(7, five, out) == 12 && out[1] == 14 && out[3] == 10 && out[9] == 5);
    auto asked = sctpr::read_incoming_reset(sctpr::bytes(out).first(12), streams, count);
    CHECK(asked && *asked == 7 && count == 1 && streams[0] == 5);
    CHECK(*sctpr::write_add_streams({ 8, 3, 1 }, out) == 12 && out[1] == 18);
    auto add = sctpr::read_add_streams(sctpr::bytes(out).first(12));
    CHECK(add && add->request == 8 && add->count == 3 && add->is_incoming == 1);
    CHECK(*sctpr::write_ssn_tsn_reset(9, out) == 8 && out[1] == 15 && out[7] == 9);
    CHECK(is_refused(sctpr::write_reset({ 1, 2, 3 }, five, out), sctpr::code::short_buffer, 20));
    auto param = sctpr::read_any_param(bytes_of("\0\5\0\x08\xc0\0\2\1", 8));
    CHECK(param && param->type == 5 && param->length == 4 && param->next == 8);
    CHECK(is_refused(sctpr::write_chunk(SCTPR_COOKIE_ACK, bytes_of("a", 1), out), sctpr::code::not_as_given));
    auto s = *sctpr::sender::make(1, 10, 100);
    std::array<std::uint8_t, 20> chunk{};
    CHECK(s.open(3) && s.set_mode(3, true, sctpr::reliability::rexmit, 1) && s.write(3, 99, bytes_of("a", 1)) && s.send_next(1, chunk));
    CHECK(sctpr::read_data(chunk)->payload_type == 99 && s.in_flight(1)->payload_type == 99);
}

/** What the RFCs allow and read_packet refuses: a request behind a SACK (RFC 6525 4.5), a padded cause before another (RFC 9260 3.3.10), an INIT
 * with flags, an address and a cookie preservative (3.3.2). */
void allowed() {
    std::array<std::uint8_t, 44> packet{};
    std::array<sctpr::any_chunk, 2> rows{};
    std::array<sctpr::chunk, 2> strict{};
    auto two = bytes_of("\3\0\0\20\0\0\0\11\0\1\0\0\0\0\0\0\202\0\0\20\0\21\0\14\0\0\0\1\0\1\0\0", 32);
    std::copy(two.begin(), two.end(), packet.begin() + 12);
    CHECK(sctpr::seal_packet({ 1, 5000, 5001 }, packet) && is_refused(sctpr::read_packet(packet, strict), sctpr::code::err_param_type_unhandled));
    auto read = sctpr::read_any_packet(packet, rows);
    CHECK(read && read->count == 2 && rows[0].type == SCTPR_SACK && rows[1].type == SCTPR_RECONFIG && rows[1].at == 28);
    auto request = sctpr::read_request(sctpr::chunk_bytes(packet, rows[1]).subspan(4));
    CHECK(request && *request == 1);
    auto causes = bytes_of("\0\6\0\11\100\7\0\5v\0\0\0\0\14\0\4", 16);
    auto cause = sctpr::read_cause(causes);
    CHECK(cause && cause->code == 6 && cause->next == 12 && sctpr::cause_value(causes, *cause).size() == 5);
    CHECK(sctpr::read_cause(causes.subspan(12))->code == SCTPR_CAUSE_USER_INITIATED_ABORT);
    auto chunk = bytes_of("\1\5\0\44\0\0\0\7\0\1\0\0\0\10\0\20\377\377\377\360\0\5\0\10\300\0\2\1\0\11\0\10\0\0\3\350", 36);
    auto init = sctpr::read_init(chunk);
    auto address = sctpr::read_any_param(sctpr::init_params(chunk));
    CHECK(init && init->initiate_tag == 7 && address && address->type == 5 && address->next == 8);
    CHECK(sctpr::read_any_param(sctpr::init_params(chunk).subspan(8))->type == 9);
    CHECK(sctpr::init_params({}).empty() && sctpr::chunk_bytes({}, rows[0]).empty() && sctpr::cause_value({}, *cause).empty());
}

/** The window of a message, and the credit of short ones. */
void windows() {
    static_assert(sctpr::receiver::least_window(65536, 65519) == 66336 && sctpr::receiver::least_window(1201, 1200) == 2001);
    auto r = *sctpr::receiver::make(1, 60, 100000, 9);
    CHECK(r.credit(60) == 13020 && r.credit(0) == 249 && r.window() == 100000 && sctpr::receiver::least_window(9, 0) == 3609);
    CHECK(is_refused(sctpr::receiver::make(1, 65536, 66335, 9), sctpr::code::invalid) && sctpr::receiver::make(1, 65536, 66336, 9));
    CHECK(is_refused(sctpr::receiver::make(1, 65536, 66336, 0), sctpr::code::invalid));
}

/** What is missing for the third time is told once, when it is newly marked, and is outstanding no more. */
void marked() {
    auto s = *sctpr::sender::make(1000, 10, 100);
    std::array<std::uint8_t, 32> out{};
    CHECK(s.open(3) && s.write(3, SCTPR_PPID_STRING, bytes_of("two fragments", 13)) && s.send_next(1, out) && s.send_next(1, out));
    for (std::size_t i = 0; i < 5; i++) CHECK(s.add_miss_indications(1001) == (i == 2 ? 1 : 0));
    CHECK(s.outstanding().marked == 1 && s.outstanding().chunks == 1 && s.outstanding().bytes == 3);
}

/** A message of three chunks goes over, its middle one late. */
void goes_over() {
    auto s = *sctpr::sender::make(1000, 10, 100);
    auto r = *sctpr::receiver::make(1000, 100, 1 << 16, 100);
    std::array<std::array<std::uint8_t, 32>, 3> out{};
    std::array<std::size_t, 3> size{};
    std::array<sctpr::acked, 4> acked_rows{};
    std::array<std::uint8_t, 64> sack{};
    std::array<std::uint16_t, 2> streams{};
    CHECK(is_refused(s.write(3, SCTPR_PPID_STRING, bytes_of("a", 1)), sctpr::code::stream_unknown));
    CHECK(s.open(3) && is_refused(s.open(3), sctpr::code::stream_open) && r.open(3) && is_refused(r.open(3), sctpr::code::stream_open));
    CHECK(s.set_low_threshold(3, 5) && s.set_fragment_size(10) && is_refused(s.set_fragment_size(0), sctpr::code::invalid));
    auto none = s.send_next(1, out[0]);
    CHECK(none && !*none && !*s.write(3, SCTPR_PPID_STRING, {}));
    auto w = s.write(3, SCTPR_PPID_STRING, bytes_of("three fragments of a message", 28));
    CHECK(w && *w && (*w)->fragments == 3 && s.pending() == 3 && *s.buffered_amount(3) == 28);
    CHECK(is_refused(s.buffered_amount(4), sctpr::code::stream_unknown));
    s.start(4);
    CHECK(is_refused(s.send_next(5, sctpr::buffer(out[0]).first(27)), sctpr::code::short_buffer, 28));
    for (std::size_t i = 0; i < 3; i++) {
        auto sent = s.send_next(5 + i, out[i]);
        CHECK(sent && *sent && (*sent)->tsn == 1000 + i && (*sent)->size == (i == 2 ? 24 : 28));
        size[i] = (*sent)->size;
    }
    CHECK(s.outstanding().bytes == 28 && s.outstanding().chunks == 3 && s.outstanding().marked == 0);
    const sctpr::sender &look = s;
    CHECK(look.pending() == 0 && look.is_drained(4) && *look.buffered_amount(3) == 28 && look.in_flight_at(0)->tsn == 1000);
    CHECK(s.chunks_in_flight() == 3 && s.bytes_in_flight() == 28 && s.next_tsn() == 1003 && s.acked_tsn() == 999 && s.advanced_ack_point() == 999);
    auto bytes = [&](std::size_t i) { return sctpr::bytes(out[i]).first(size[i]); };
    CHECK(*r.take_data(bytes(0)) == sctpr::arrival::added && *r.take_data(bytes(0)) == sctpr::arrival::repeat);
    CHECK(*r.take_data(bytes(2)) == sctpr::arrival::added && r.held_bytes() == 818 && r.window() == 65536 - 818);
    CHECK(is_refused(r.take_data({}), sctpr::code::err_chunk_header_too_small));
    CHECK(is_refused(r.write_sack(sctpr::buffer(sack).first(15)), sctpr::code::short_buffer, 16));
    auto n = r.write_sack(sack);
    CHECK(n && *n == 24 && r.cumulative_tsn() == 1000);
    CHECK(is_refused(s.take_sack(sctpr::bytes(sack).first(*n), std::span(acked_rows).first(2)), sctpr::code::short_buffer, 3));
    auto acked = s.take_sack(sctpr::bytes(sack).first(*n), acked_rows);
    CHECK(acked && *acked && (*acked)->size() == 2 && (**acked)[1].tsn == 1002);
    std::array<std::uint8_t, 24> old_sack{};
    std::copy_n(sack.begin(), 24, old_sack.begin());
    CHECK(s.add_miss_indications(1002) == 0 && !s.next_to_retransmit() && s.earliest_outstanding() == 1001u);
    s.retransmit_all();
    CHECK(s.outstanding().bytes == 0 && s.outstanding().chunks == 0 && s.outstanding().marked == 1);
    CHECK(s.add_miss_indications(1002) + s.add_miss_indications(1002) + s.add_miss_indications(1002) == 0);
    CHECK(s.next_to_retransmit() && s.in_flight(1001)->is_marked && s.in_flight_at(0)->tsn == 1001 && !s.in_flight_at(9) && !s.in_flight(7));
    CHECK(*s.resend(1001, 50, out[1]) == 28 && is_refused(s.resend(1002, 50, out[1]), sctpr::code::not_in_flight));
    CHECK(*r.take_data(bytes(1)) == sctpr::arrival::completed);
    CHECK(is_refused(r.readable_streams({}), sctpr::code::short_buffer, 1) && (*r.readable_streams(streams))[0] == 3);
    const sctpr::receiver &told = r;
    CHECK((*told.next(3))->size == 28 && told.cumulative_tsn() == 1002 && told.window() == r.window());
    CHECK((*r.next(3))->size == 28 && is_refused(r.read(3, sctpr::buffer(out[0]).first(27)), sctpr::code::short_buffer, 28));
    auto m = r.read(3);
    CHECK(m && *m && std::memcmp((*m)->bytes.data(), "three fragments of a message", 28) == 0 && (*m)->payload_type == SCTPR_PPID_STRING);
    CHECK(!*r.read(3) && !*r.next(3) && is_refused(r.read(4), sctpr::code::stream_unknown));
    n = r.write_sack(sack);
    acked = s.take_sack(sctpr::bytes(sack).first(*n), acked_rows);
    CHECK(acked && (*acked)->size() == 1 && (**acked)[0].is_message_acked && (**acked)[0].is_low && s.is_drained(3) && s.reset(3));
    CHECK(s.take_shutdown(1002, acked_rows) && !*s.take_shutdown(1001, acked_rows) && !*s.take_sack(old_sack, acked_rows));
    CHECK(!s.earliest_outstanding() && s.chunks_in_flight() == 0);
    s.close(3);
    r.close(3);
    CHECK(is_refused(r.reset(3, 1), sctpr::code::stream_unknown));
}

/** Messages run out of sendings or of time; a FORWARD-TSN takes the receiver past them. */
void abandoned() {
    auto s = *sctpr::sender::make(1000, 10, 100, true);
    auto r = *sctpr::receiver::make_unlimited(1000, 100);
    std::array<std::uint8_t, 64> out{}, skip{};
    std::array<sctpr::abandoned, 4> rows{};
    std::array<sctpr::taken_back, 4> back{};
    CHECK(s.open(3) && r.open(3) && s.set_mode(3, true, sctpr::reliability::rexmit, 0));
    CHECK(is_refused(s.set_mode(4, true), sctpr::code::stream_unknown));
    CHECK(s.write(3, SCTPR_PPID_BINARY, bytes_of("gone", 4)) && s.send_next(1, out));
    CHECK(s.expire_rexmit(std::span(rows).first(1))->empty() && s.expire_late(1, {})->empty());
    s.retransmit_all();
    auto gone = s.expire_rexmit(rows);
    CHECK(gone && gone->size() == 1 && (*gone)[0].bytes == 4 && s.abandon(1000)->bytes == 0);
    CHECK(is_refused(s.abandon(1001), sctpr::code::not_in_flight));
    auto n = s.write_forward_tsn(skip);
    CHECK(n && *n && **n == 8 && *s.write_forward_tsn_to(1000, skip) == std::optional<std::size_t>(8));
    CHECK(!*s.write_forward_tsn_to(999, skip));
    CHECK(*r.take_forward_tsn(sctpr::bytes(skip).first(8)) && !*r.take_forward_tsn_past_closed(sctpr::bytes(skip).first(8)));
    CHECK(*r.discard(1000) == sctpr::arrival::repeat && *r.discard(1001) == sctpr::arrival::added && r.cumulative_tsn() == 1001);
    CHECK(is_refused(s.take_back({}, back), sctpr::code::err_chunk_header_too_small));
    CHECK(s.take_back(bytes_of("\3\0\0\20\0\0\3\347\0\0\1\0\0\0\0\0", 16), back).has_value());
    CHECK(s.set_mode(3, true, sctpr::reliability::timed, 1) && s.write(3, SCTPR_PPID_BINARY, bytes_of("fifteen bytes..", 15)));
    CHECK(s.write(3, SCTPR_PPID_BINARY, bytes_of("late", 4)));
    CHECK(!s.next_timeout());
    s.start(0);
    CHECK(s.next_timeout() == std::optional<std::uint64_t>(1000000));
    CHECK(s.send_next(0, out) && !s.expire(2000000) && !*s.expire_tail(0));
    CHECK(is_refused(s.expire_late(0, std::span(rows).first(1)), sctpr::code::short_buffer, 2) && s.expire_late(0, std::span(rows).first(2)));
    CHECK(is_refused(s.expire_rexmit(std::span(rows).first(1)), sctpr::code::short_buffer, 2));
    CHECK((*s.expire_tail(2000000))->bytes == 15 && s.expire(2000000)->bytes == 4 && !s.expire(2000000));
}

/** A SACK counts for a caller that wants no rows; of too few it is told how many are wanted. */
void without_rows() {
    auto s = *sctpr::sender::make(1000, 10, 100, true);
    std::array<std::uint8_t, 32> out{};
    std::array<sctpr::acked, 1> rows{};
    CHECK(s.open(3) && s.write(3, SCTPR_PPID_BINARY, bytes_of("two fragments", 13)) && s.send_next(1, out) && s.send_next(1, out));
    auto sack = bytes_of("\3\0\0\20\0\0\3\350\0\0\1\0\0\0\0\0", 16);
    CHECK(is_refused(s.take_sack(sack, rows), sctpr::code::short_buffer, 2));
    CHECK((*s.take_back(sack, {}))->empty() && (*s.take_sack(sack, {}))->empty() && s.acked_tsn() == 1000 && s.chunks_in_flight() == 1);
}

void moved() {
    auto s = *sctpr::sender::make(1, 10, 100);
    auto t = std::move(s);
    auto u = *sctpr::sender::make(2, 10, 100);
    u = std::move(t);
    CHECK(u.next_tsn() == 1 && s.handle()->at == nullptr);
    CHECK(is_refused(s.open(3), sctpr::code::invalid) && is_refused(s.write(3, 51, bytes_of("a", 1)), sctpr::code::invalid));
    CHECK(is_refused(s.take_sack({}, {}), sctpr::code::invalid) && is_refused(s.abandon(1), sctpr::code::invalid) && !s.expire(1));
    CHECK(!s.is_drained(3) && s.outstanding().chunks == 0 && s.next_tsn() == 0 && !s.next_timeout() && s.add_miss_indications(1) == 0);
    s.start(1);
    s.close(3);
    s.retransmit_all();
    auto r = *sctpr::receiver::make(1, 100, 1000, 10);
    auto q = std::move(r);
    auto p = *sctpr::receiver::make(9, 100, 1000, 10);
    p = std::move(q);
    CHECK(p.cumulative_tsn() == 0 && r.handle()->at == nullptr);
    CHECK(is_refused(r.take_data({}), sctpr::code::invalid) && is_refused(r.read(3), sctpr::code::invalid) && r.window() == 0);
    CHECK(is_refused(r.write_sack({}), sctpr::code::invalid) && is_refused(r.readable_streams({}), sctpr::code::invalid));
    r.close(3);
    CHECK(is_refused(sctpr::sender::make(1, 0, 100), sctpr::code::invalid));
}

/** A handle that was freed behind the object's back is empty: each call is refused, and the object frees nothing. */
void freed() {
    auto s = *sctpr::sender::make(1, 10, 100);
    auto r = *sctpr::receiver::make(1, 100, 1000, 10);
    sctpr_sender_free(s.handle());
    sctpr_receiver_free(r.handle());
    CHECK(is_refused(s.open(3), sctpr::code::invalid) && is_refused(s.take_sack({}, {}), sctpr::code::invalid) && s.pending() == 0);
    CHECK(is_refused(r.open(3), sctpr::code::invalid) && is_refused(r.read(3), sctpr::code::invalid) && r.window() == 0);
    sctpr_sender_free(s.handle());
    CHECK(s.handle()->at == nullptr && r.handle()->at == nullptr);
}

} // namespace

int main() {
    codes();
    packets();
    chunks();
    reconfig();
    allowed();
    windows();
    marked();
    goes_over();
    abandoned();
    without_rows();
    moved();
    freed();
    std::printf("wrapper: %u passed, %u failed\n", passed, failed);
    return failed != 0;
}
