/* The sum of examples/packet_sum.h is the bitwise one of the packet with zeros in the checksum's place (RFC 4960 6.8, Appendix B), at each
 * length from 12 to 2,999. Where the processor has no such instruction nothing is tested. */
#include "check.h"

#if defined(__x86_64__)
#include "../examples/packet_sum.h"

/* The remainder of bytes behind others, bit by bit. */
static uint32_t bitwise(uint32_t remainder, const uint8_t *bytes, size_t length) {
    for (size_t i = 0; i < length; i++) {
        remainder ^= bytes[i];
        for (int bit = 0; bit < 8; bit++)
            remainder = remainder >> 1 ^ (remainder & 1 ? 0x82f63b78u : 0);
    }
    return remainder;
}

static void each_length(void) {
    static const uint8_t zeros[4] = { 0 };
    static uint8_t packet[3000];
    uint32_t seed = 1;
    for (size_t i = 0; i < sizeof packet; i++) {
        seed = seed * 1664525 + 1013904223;
        packet[i] = (uint8_t)(seed >> 24);
    }
    for (size_t length = 12; length < sizeof packet; length++) {
        uint32_t remainder = bitwise(bitwise(UINT32_MAX, packet, 8), zeros, 4);
        CHECK(packet_sum(packet, length) == (uint32_t)~bitwise(remainder, packet + 12, length - 12));
    }
}
#endif

int main(void) {
#if defined(__x86_64__)
    if (__builtin_cpu_supports("sse4.2")) each_length();
#endif
    return report("packet_sum");
}
