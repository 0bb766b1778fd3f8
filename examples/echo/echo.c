/* A host sends messages, another one sends each back; every fifth datagram between them is lost. The same program in C++ is echo.cpp,
 * in Rust wrappers/rust/sctp-rattle/examples/echo.rs, in Go wrappers/go/echo/main.go; each prints the same line. There is no handshake:
 * both know tags and first TSNs. */
#include "sctpr.h"
#include <stdio.h>
#include <stdlib.h>
#include <string.h>

enum { MESSAGES = 100, LONGEST = 3000, STREAM = 1, PACKET = 1200, HEADER = 12, IN_FLIGHT = 32 };

struct host {
    sctpr_sender sender;
    sctpr_receiver receiver;
    struct sctpr_head head;
    int has_news;
};

static uint32_t state = 1;
static unsigned datagrams, lost;

static void must(sctpr_code code) {
    char name[SCTPR_NAME_ROOM];
    size_t written;
    if (code < SCTPR_NO_MEMORY) return;
    if (sctpr_code_name(code, (uint8_t *)name, sizeof name, &written) == SCTPR_OK) fprintf(stderr, "echo: %s\n", name);
    exit(1);
}

static struct host new_host(uint32_t tag, uint16_t port, uint16_t peer_port) {
    struct host h = { .head = { tag, port, peer_port } };
    must(sctpr_sender_new(1000, PACKET - 28, LONGEST, 0, &h.sender));
    must(sctpr_receiver_new(1000, LONGEST, 1 << 16, 1000, &h.receiver));
    must(sctpr_sender_open(&h.sender, STREAM));
    must(sctpr_receiver_open(&h.receiver, STREAM));
    return h;
}

static int is_lost(void) {
    state ^= state << 13;
    state ^= state >> 17;
    state ^= state << 5;
    return state % 5 == 0;
}

/* Writes a packet: a SACK, where anything came, what is to be sent again, and what waits. Its length, HEADER where there is nothing. */
static size_t write_packet(struct host *h, uint64_t now, uint8_t *packet) {
    size_t length = HEADER, n = 0;
    uint32_t tsn;
    struct sctpr_in_flight marked;
    if (h->has_news) {
        must(sctpr_receiver_sack(&h->receiver, packet + length, PACKET - length, &n));
        length += n;
        h->has_news = 0;
    }
    while (sctpr_sender_next_to_retransmit(&h->sender, &marked) == SCTPR_OK) {
        sctpr_code code = sctpr_sender_resend(&h->sender, marked.tsn, now, packet + length, PACKET - length, &n);
        if (code == SCTPR_SHORT_BUFFER) break;
        must(code);
        length += n;
    }
    while (sctpr_sender_chunks_in_flight(&h->sender) < IN_FLIGHT) {
        sctpr_code code = sctpr_sender_send_next(&h->sender, now, packet + length, PACKET - length, &n, &tsn);
        if (code == SCTPR_SHORT_BUFFER || code == SCTPR_NOTHING) break;
        must(code);
        length += n;
    }
    if (length > HEADER) must(sctpr_seal_packet(&h->head, packet, length));
    return length;
}

static void take_packet(struct host *h, const uint8_t *packet, size_t length) {
    struct sctpr_head head;
    struct sctpr_chunk chunks[64];
    struct sctpr_acked acked[IN_FLIGHT];
    size_t count = 0, n = 0;
    uint8_t complete;
    must(sctpr_read_packet(packet, length, &head, chunks, 64, &count));
    for (size_t i = 0; i < count && i < 64; i++) {
        const uint8_t *chunk = packet + chunks[i].at;
        if (chunks[i].type == SCTPR_DATA) {
            must(sctpr_receiver_data(&h->receiver, chunk, chunks[i].length, &complete));
            h->has_news = 1;
        }
        if (chunks[i].type == SCTPR_SACK) {
            must(sctpr_sender_acked(&h->sender, chunk, chunks[i].length, acked, IN_FLIGHT, &n));
            if (n > 0) sctpr_sender_add_miss_indications(&h->sender, acked[n - 1].tsn);
            n = 0;
        }
    }
}

static void send_all(struct host *from, struct host *to, uint64_t now) {
    uint8_t packet[PACKET];
    size_t length;
    while ((length = write_packet(from, now, packet)) > HEADER) {
        datagrams++;
        if (is_lost()) lost++;
        else take_packet(to, packet, length);
    }
}

static size_t message(uint32_t number, uint8_t *out) {
    size_t length = 1 + number * number * 37 % LONGEST;
    for (size_t i = 0; i < length; i++) out[i] = (uint8_t)(number + i);
    return length;
}

static void write_message(struct host *h, const uint8_t *bytes, size_t length) {
    uint64_t number;
    size_t fragments;
    must(sctpr_sender_write(&h->sender, STREAM, SCTPR_PPID_BINARY, bytes, length, &number, &fragments));
}

/* Reads the next message; 0 where there is none. */
static size_t read_message(struct host *h, uint8_t *out) {
    size_t length = 0;
    uint32_t type;
    must(sctpr_receiver_read(&h->receiver, STREAM, out, LONGEST, &length, &type));
    return length;
}

int main(void) {
    struct host a = new_host(1, 5000, 5001), b = new_host(2, 5001, 5000);
    uint8_t bytes[LONGEST], want[LONGEST];
    uint32_t written = 0, echoed = 0, rounds = 0;
    size_t length, all = 0;
    for (; echoed < MESSAGES && rounds < 10000; rounds++) {
        uint64_t now = rounds * UINT64_C(100000000);
        if (written < MESSAGES) write_message(&a, bytes, message(written++, bytes));
        if (rounds % 4 == 3) {
            sctpr_sender_retransmit_all(&a.sender);
            sctpr_sender_retransmit_all(&b.sender);
        }
        send_all(&a, &b, now);
        while ((length = read_message(&b, bytes)) > 0) write_message(&b, bytes, length);
        send_all(&b, &a, now);
        while ((length = read_message(&a, bytes)) > 0) {
            if (length != message(echoed++, want) || memcmp(bytes, want, length) != 0) return 1;
            all += length;
        }
    }
    sctpr_sender_free(&a.sender);
    sctpr_receiver_free(&a.receiver);
    sctpr_sender_free(&b.sender);
    sctpr_receiver_free(&b.receiver);
    printf("echo: %u messages with %zu bytes came back, %u datagrams, %u lost, %u rounds\n", (unsigned)echoed, all, datagrams, lost,
           (unsigned)rounds);
    return echoed != MESSAGES;
}
