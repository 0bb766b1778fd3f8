/* The program of echo.c in C++20. */
#include "sctpr.hpp"
#include <algorithm>
#include <array>
#include <cstdio>
#include <cstdlib>

namespace {

constexpr std::uint32_t messages = 100, longest = 3000, packet_size = 1200, header = 12;
constexpr std::uint16_t stream = 1;
constexpr std::size_t in_flight = 32;

/** The value of a call that has to be done. */
template <class T> T must(sctpr::result<T> r) {
    if (!r) {
        std::fprintf(stderr, "echo: %s\n", sctpr::name(r.error()).c_str());
        std::exit(1);
    }
    if constexpr (!std::is_void_v<T>) return *std::move(r);
}

struct host {
    sctpr::sender sender = must(sctpr::sender::make(1000, packet_size - 28, longest));
    sctpr::receiver receiver = must(sctpr::receiver::make(1000, longest, 1 << 16, 1000));
    sctpr::head head;
    bool has_news = false;

    explicit host(sctpr::head h) : head(h) {
        must(sender.open(stream));
        must(receiver.open(stream));
    }
};

struct network {
    std::uint32_t state = 1;
    unsigned datagrams = 0, lost = 0;

    bool loses() {
        state ^= state << 13;
        state ^= state >> 17;
        state ^= state << 5;
        datagrams++;
        bool is_lost = state % 5 == 0;
        lost += is_lost;
        return is_lost;
    }
};

/** Writes a packet: a SACK, where anything came, what is to be sent again, and what waits. Its length, `header` where there is nothing. */
std::size_t write_packet(host &h, std::uint64_t now, sctpr::buffer packet) {
    std::size_t length = header;
    if (h.has_news) {
        length += must(h.receiver.write_sack(packet.subspan(length)));
        h.has_news = false;
    }
    while (auto marked = h.sender.next_to_retransmit()) {
        auto again = h.sender.resend(marked->tsn, now, packet.subspan(length));
        if (!again && again.error().code == sctpr::code::short_buffer) break;
        length += must(again);
    }
    while (h.sender.chunks_in_flight() < in_flight) {
        auto sent = h.sender.send_next(now, packet.subspan(length));
        if (!sent && sent.error().code == sctpr::code::short_buffer) break;
        if (!must(sent)) break;
        length += (*sent)->size;
    }
    if (length > header) must(sctpr::seal_packet(h.head, packet.first(length)));
    return length;
}

void take_packet(host &h, sctpr::bytes datagram) {
    std::array<sctpr::chunk, 64> rows;
    std::array<sctpr::acked, in_flight> acked_rows;
    for (const sctpr::chunk &row : must(sctpr::read_packet(datagram, rows)).chunks) {
        sctpr::bytes chunk = sctpr::chunk_bytes(datagram, row);
        if (row.type == SCTPR_DATA) {
            must(h.receiver.take_data(chunk));
            h.has_news = true;
        }
        if (row.type == SCTPR_SACK) {
            auto acked = must(h.sender.take_sack(chunk, acked_rows));
            if (acked && !acked->empty()) h.sender.add_miss_indications(acked->back().tsn);
        }
    }
}

void send_all(network &net, host &from, host &to, std::uint64_t now) {
    std::array<std::uint8_t, packet_size> packet;
    while (std::size_t length = write_packet(from, now, packet)) {
        if (length == header) return;
        if (!net.loses()) take_packet(to, sctpr::bytes(packet).first(length));
    }
}

std::vector<std::uint8_t> message(std::uint32_t number) {
    std::vector<std::uint8_t> bytes(1 + number * number * 37 % longest);
    for (std::size_t i = 0; i < bytes.size(); i++) bytes[i] = static_cast<std::uint8_t>(number + i);
    return bytes;
}

} // namespace

int main() {
    network net;
    host a({ 1, 5000, 5001 }), b({ 2, 5001, 5000 });
    std::uint32_t written = 0, echoed = 0, rounds = 0;
    std::size_t all = 0;
    for (; echoed < messages && rounds < 10000; rounds++) {
        std::uint64_t now = rounds * std::uint64_t(100000000);
        if (written < messages) must(a.sender.write(stream, SCTPR_PPID_BINARY, message(written++)));
        if (rounds % 4 == 3) {
            a.sender.retransmit_all();
            b.sender.retransmit_all();
        }
        send_all(net, a, b, now);
        while (auto m = must(b.receiver.read(stream))) must(b.sender.write(stream, m->payload_type, m->bytes));
        send_all(net, b, a, now);
        while (auto m = must(a.receiver.read(stream))) {
            if (m->bytes != message(echoed++)) return 1;
            all += m->bytes.size();
        }
    }
    std::printf("echo: %u messages with %zu bytes came back, %u datagrams, %u lost, %u rounds\n", echoed, all, net.datagrams, net.lost, rounds);
    return echoed != messages;
}
