//! The limit of an exchange: its bytes are copied into a packet and into a datagram, and both are summed, and nothing else is done.
use crate::parts::{CALLS, FRAGMENT, TEXT};
use crate::{timed, Measured, Row};
use std::hint::black_box;

/// How many bytes of headers a packet of one DATA chunk has.
const HEADERS: usize = 28;

/// The CRC-32C by the processor's instruction, or 0 where it is not asked for.
fn sum(bytes: &[u8], is_summed: bool) -> u32 {
    #[cfg(target_arch = "x86_64")]
    if is_summed && is_x86_feature_detected!("sse4.2") {
        return unsafe { sum_by_instruction(bytes) };
    }
    let _ = (bytes, is_summed);
    0
}

#[cfg(target_arch = "x86_64")]
#[target_feature(enable = "sse4.2")]
unsafe fn sum_by_instruction(bytes: &[u8]) -> u32 {
    use std::arch::x86_64::{_mm_crc32_u64, _mm_crc32_u8};
    let (words, rest) = bytes.as_chunks::<8>();
    let sum = words.iter().fold(!0u64, |sum, word| _mm_crc32_u64(sum, u64::from_le_bytes(*word)));
    !rest.iter().fold(sum as u32, |sum, byte| _mm_crc32_u8(sum, *byte))
}

fn copies(length: usize, is_summed: bool) -> Measured {
    let (mut packet, mut datagram) = ([0u8; FRAGMENT + HEADERS], [0u8; FRAGMENT + HEADERS]);
    let mut once = || {
        let mut left = length;
        let mut sums = 0u32;
        while left > 0 {
            let part = left.min(FRAGMENT);
            packet[HEADERS..HEADERS + part].copy_from_slice(black_box(&TEXT[..part]));
            sums ^= sum(&packet[..HEADERS + part], is_summed);
            datagram[..HEADERS + part].copy_from_slice(black_box(&packet[..HEADERS + part]));
            sums ^= sum(black_box(&datagram[..HEADERS + part]), is_summed);
            left -= part;
        }
        black_box(sums)
    };
    timed(|| (0..CALLS).fold(0, |sums, _| sums ^ once())).map(|_| CALLS as usize * length)
}

pub fn rows() -> Vec<Row> {
    let mut rows = vec![];
    for (is_summed, name) in [(false, "copies"), (true, "copies and CRC-32C by instruction")] {
        for length in [100, 1200, 16_384, 65_536] {
            rows.push(Row::new(format!("limit of {length} bytes, two {name}"), CALLS, move || copies(length, is_summed)));
        }
    }
    rows
}
