//! Rows of parts: codecs and queues, as crates/bench has them.
use crate::exchange::NOW;
use crate::{timed, Measured, Row};
use bytes::{Bytes, BytesMut};
use sctp_proto::association::stream::StreamState;
use sctp_proto::chunk::chunk_payload_data::{ChunkPayloadData, PayloadProtocolIdentifier};
use sctp_proto::chunk::chunk_selective_ack::{ChunkSelectiveAck, GapAckBlock};
use sctp_proto::chunk::Chunk;
use sctp_proto::packet::{CommonHeader, Packet};
use sctp_proto::queue::outbound_queue::OutboundQueue;
use sctp_proto::queue::payload_queue::PayloadQueue;
use sctp_proto::queue::pending_queue::PendingQueue;
use sctp_proto::queue::reassembly_queue::ReassemblyQueue;
use sctp_proto::Side;
use std::hint::black_box;

/// How often a call is made in a run that times single calls.
pub const CALLS: u32 = 64;

/// How often a packet is read or written in a run.
const ROUNDS: u32 = 20_000;

pub const FRAGMENT: usize = 1200;
pub const STREAM: u16 = 1;
const FRAGMENTS: u32 = 55;
const MESSAGES: u32 = 1000;
pub static TEXT: [u8; 65_536] = [7; 65_536];

#[derive(Clone, Copy)]
enum Order {
    InOrder,
    Reversed,
    Shuffled,
}

const ORDERS: [(Order, &str); 3] = [(Order::InOrder, "in order"), (Order::Reversed, "reversed"), (Order::Shuffled, "shuffled")];

/// The number, below `count`, that comes at a place.
fn number_at(place: u32, count: u32, order: Order) -> u32 {
    match order {
        Order::InOrder => place,
        Order::Reversed => count - 1 - place,
        Order::Shuffled => place * 617 % count,
    }
}

pub fn fragment(tsn: u32, unordered: bool, first: bool, last: bool, user_data: Bytes) -> ChunkPayloadData {
    ChunkPayloadData {
        unordered,
        beginning_fragment: first,
        ending_fragment: last,
        tsn,
        stream_identifier: STREAM,
        payload_type: PayloadProtocolIdentifier::Binary,
        user_data,
        ..Default::default()
    }
}

/// An ordered message of one byte, whole.
fn whole(tsn: u32) -> ChunkPayloadData {
    fragment(tsn, false, true, true, Bytes::from_static(&[7]))
}

fn push_and_pop(count: u32, order: Order) -> Measured {
    let mut queue = PayloadQueue::new();
    timed(|| {
        for place in 0..count {
            queue.push(whole(1 + number_at(place, count, order)), 0);
        }
        (1..=count).filter(|tsn| queue.pop(*tsn).is_some()).count()
    })
}

fn send_all(count: u32) -> Measured {
    let mut queue = OutboundQueue::default();
    for _ in 0..count {
        queue.push(vec![whole(0)]);
    }
    let mut next_tsn = 1;
    timed(|| (0..count).filter(|_| queue.send_next(&mut next_tsn, *NOW).is_some()).count())
}

fn gap_blocks(held: u32, run: u32) -> Measured {
    let mut queue = PayloadQueue::new();
    for place in 0..held {
        queue.push(whole(2 + place + place / run), 0);
    }
    timed(|| queue.get_gap_ack_blocks(0)).map(|blocks| blocks.len())
}

fn one_message(unordered: bool, order: Order) -> Measured {
    let mut queue = ReassemblyQueue::new(STREAM, 65_536);
    timed(|| {
        for place in 0..FRAGMENTS {
            let number = number_at(place, FRAGMENTS, order);
            let last = number == FRAGMENTS - 1;
            let length = if last { 65_536 - 54 * FRAGMENT } else { FRAGMENT };
            let user_data = Bytes::from_static(&TEXT[..length]);
            let _ = queue.push(fragment(1 + number, unordered, number == 0, last, user_data));
        }
        queue.read()
    })
    .map(|message| message.map_or(0, |it| it.len()))
}

fn interleaved() -> Measured {
    let mut queue = ReassemblyQueue::new(STREAM, 65_536);
    let measured = timed(|| {
        for number in 0..4 {
            for message in 0..MESSAGES {
                let user_data = Bytes::from_static(&TEXT[..FRAGMENT]);
                let _ = queue.push(fragment(4 * message + number, true, number == 0, number == 3, user_data));
            }
        }
    });
    measured.map(|()| (0..MESSAGES).filter(|_| queue.read().is_some_and(|it| it.len() == 4 * FRAGMENT)).count())
}

fn packetize() -> Measured {
    let binary = PayloadProtocolIdentifier::Binary;
    let mut stream = StreamState::new(Side::Client, STREAM, FRAGMENT as u32, 65_536, binary);
    let text = Bytes::from_static(&TEXT);
    timed(|| stream.packetize(&text, binary)).map(|(_, chunks)| chunks.len())
}

fn pend(count: u32) -> Measured {
    let mut queue = PendingQueue::new();
    timed(|| {
        (0..count).for_each(|_| queue.push(whole(0)));
        (0..count).filter(|_| queue.pop(true, false).is_some()).count()
    })
}

fn push_all(count: u32) -> Measured {
    timed(|| {
        let mut queue = OutboundQueue::default();
        (0..count).for_each(|_| queue.push(vec![whole(0)]));
        queue
    })
    .map(|queue| queue.pending_len())
}

/// A SACK of so many blocks of one TSN each.
fn sack_of(count: u16) -> ChunkSelectiveAck {
    ChunkSelectiveAck {
        cumulative_tsn_ack: 0,
        advertised_receiver_window_credit: 65_536,
        gap_ack_blocks: (1..=count).map(|it| GapAckBlock { start: 2 * it, end: 2 * it }).collect(),
        duplicate_tsn: vec![],
    }
}

/// Writes it into a buffer that has room.
fn write_sack(count: u16) -> Measured {
    let (sack, mut buf) = (sack_of(count), BytesMut::new());
    sack.marshal_to(&mut buf).expect("room");
    timed(|| {
        let again = |_| {
            buf.clear();
            black_box(&sack).marshal_to(&mut buf).unwrap_or(0)
        };
        (0..CALLS).map(again).sum()
    })
}

/// Marks chunks here and there among so many.
fn mark(held: u32) -> Measured {
    let mut queue = PayloadQueue::new();
    (1..=held).for_each(|tsn| {
        queue.push(whole(tsn), 0);
    });
    timed(|| (0..CALLS).map(|turn| queue.mark_as_acked(turn * 7919 % held + 1)).sum())
}

fn sack(count: u16) -> Measured {
    let sack = sack_of(count);
    let again = || {
        let mut buf = BytesMut::new();
        sack.marshal_to(&mut buf).ok()?;
        Some(ChunkSelectiveAck::unmarshal(&buf.freeze()).ok()?.gap_ack_blocks.len())
    };
    timed(|| (0..CALLS).map(|_| again().unwrap_or(0)).sum())
}

/// A packet of one DATA chunk with 1,200 bytes.
fn data_packet() -> Packet {
    let mut chunk = fragment(10, false, true, true, Bytes::from_static(&TEXT[..FRAGMENT]));
    chunk.stream_identifier = 2;
    chunk.stream_sequence_number = 3;
    Packet { common_header: CommonHeader { source_port: 5000, destination_port: 5001, verification_tag: 1 }, chunks: vec![Box::new(chunk)] }
}

fn read_packet() -> Measured {
    let raw = data_packet().marshal().expect("a packet");
    timed(|| (0..ROUNDS).map(|_| Packet::unmarshal(black_box(&raw)).map_or(0, |it| it.chunks.len())).sum())
}

fn write_packet() -> Measured {
    let (packet, mut buf) = (data_packet(), BytesMut::new());
    timed(|| {
        let again = |_| {
            buf.clear();
            black_box(&packet).marshal_to(&mut buf).unwrap_or(0)
        };
        (0..ROUNDS).map(again).sum()
    })
}

fn sum_packet() -> Measured {
    let raw = data_packet().marshal().expect("a packet");
    timed(|| {
        let mut digest = sctp_proto::util::ISCSI_CRC.digest();
        (0..ROUNDS).for_each(|_| digest.update(black_box(&raw)));
        digest.finalize() as usize
    })
}

/// The row of the checksum itself.
pub fn sums() -> Vec<Row> {
    vec![Row::new("CRC-32C", ROUNDS, sum_packet)]
}

/// The rows in which no checksum is computed.
pub fn rows() -> Vec<Row> {
    let mut rows = vec![Row::new("unmarshal", ROUNDS, read_packet), Row::new("marshal_to", ROUNDS, write_packet)];
    for count in [1000, 10_000] {
        for (order, name) in [ORDERS[0], ORDERS[2]] {
            rows.push(Row::new(format!("push and pop {count} {name}"), count, move || push_and_pop(count, order)));
        }
    }
    for count in [1000, 10_000] {
        rows.push(Row::new(format!("send_next over {count}"), count, move || send_all(count)));
    }
    for (held, run) in [(500, 500), (500, 2), (500, 4), (500, 1), (5000, 1)] {
        rows.push(Row::new(format!("gap ack blocks of {held} in runs of {run}"), 1, move || gap_blocks(held, run)));
    }
    for (unordered, delivery) in [(false, "ordered"), (true, "unordered")] {
        for (order, name) in [ORDERS[0], ORDERS[1]] {
            rows.push(Row::new(format!("{delivery} {name}"), 1, move || one_message(unordered, order)));
        }
    }
    rows.push(Row::new("1000 unordered interleaved", 4 * MESSAGES, interleaved));
    rows.push(Row::new("packetize 64 KiB", 1, packetize));
    rows.push(Row::new("pending push and pop 1000", 1000, || pend(1000)));
    rows.push(Row::new("outbound push 1000", 1000, || push_all(1000)));
    for count in [1, 100] {
        rows.push(Row::new(format!("SACK of {count} blocks written and read"), CALLS, move || sack(count)));
    }
    rows.push(Row::new("SACK of 1 blocks written", CALLS, || write_sack(1)));
    rows.push(Row::new("mark_as_acked over 1000", CALLS, || mark(1000)));
    rows
}
