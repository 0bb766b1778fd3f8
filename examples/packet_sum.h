/* The CRC-32C of a packet by the instruction of x86-64, for sctpr_read_packet_with_sum and sctpr_store_sum of sctpr.h (docs/C.md): over the
 * packet's first eight bytes, four zeros, and its bytes from the twelfth on (RFC 4960 6.8, Appendix B). It takes a packet of at least
 * twelve bytes, and a processor of which __builtin_cpu_supports("sse4.2") says so. */
#ifndef PACKET_SUM_H
#define PACKET_SUM_H

#include <nmmintrin.h>
#include <stddef.h>
#include <stdint.h>
#include <string.h>

__attribute__((target("sse4.2"))) static uint32_t packet_sum(const uint8_t *packet, size_t length) {
    uint64_t remainder = UINT32_MAX, eight;
    memcpy(&eight, packet, 8);
    remainder = _mm_crc32_u64(remainder, eight);
    remainder = _mm_crc32_u32((uint32_t)remainder, 0);
    size_t at = 12;
    for (; length - at >= 8; at += 8) {
        memcpy(&eight, packet + at, 8);
        remainder = _mm_crc32_u64(remainder, eight);
    }
    for (; at < length; at++)
        remainder = _mm_crc32_u8((uint32_t)remainder, packet[at]);
    return ~(uint32_t)remainder;
}

#endif
