//! The everyday exchange: messages are written, sent in packets, read, and acknowledged by SACKs in packets of their own.
//!
//! The steps are those that an association needs of the crate's private parts, without timers, windows and a map of streams, as crates/bench has
//! them without ours.
use crate::parts::{fragment, CALLS, FRAGMENT, STREAM, TEXT};
use crate::{timed, Measured, Row};
use bytes::{Bytes, BytesMut};
use sctp_proto::association::stream::{ReliabilityType, StreamState};
use sctp_proto::chunk::chunk_payload_data::{ChunkPayloadData, PayloadProtocolIdentifier};
use sctp_proto::chunk::chunk_selective_ack::ChunkSelectiveAck;
use sctp_proto::chunk::Chunk;
use sctp_proto::packet::{CommonHeader, Packet};
use sctp_proto::queue::outbound_queue::OutboundQueue;
use sctp_proto::queue::payload_queue::PayloadQueue;
use sctp_proto::error::Error;
use sctp_proto::Side;
use std::hint::black_box;
use std::sync::LazyLock;
use std::time::Instant;

const BINARY: PayloadProtocolIdentifier = PayloadProtocolIdentifier::Binary;

/// How many bytes a packet has at most.
const LIMIT: usize = 1_400;

/// How a packet becomes a datagram.
pub enum Writer {
    /// By `Packet::marshal`: each packet has a new buffer, which grows while it is written, and which is the datagram.
    New,
    /// By `Packet::marshal_to`, as in crates/bench: packets are written into one buffer, and each datagram is copied once.
    Kept(BytesMut),
}

impl Writer {
    fn write(&mut self, packet: &Packet) -> Result<Bytes, Error> {
        match self {
            Writer::New => packet.marshal(),
            Writer::Kept(buf) => {
                buf.clear();
                packet.marshal_to(buf)?;
                Ok(Bytes::copy_from_slice(buf))
            }
        }
    }
}

/// Why an exchange of a caller with an error type ended early.
#[derive(Debug)]
#[allow(dead_code)]
pub enum Fault {
    Crate(Error),
    OtherChunks,
}

impl From<Error> for Fault {
    fn from(error: Error) -> Fault {
        Fault::Crate(error)
    }
}

const HEADER: CommonHeader = CommonHeader { source_port: 5000, destination_port: 5001, verification_tag: 1 };

/// How many bytes a receiver lets wait.
const WINDOW: u32 = 1 << 20;

/// The time of all that is sent.
pub static NOW: LazyLock<Instant> = LazyLock::new(Instant::now);

/// A sender and a receiver, each with one stream.
pub struct Pair {
    from: StreamState,
    queue: OutboundQueue,
    next_tsn: u32,
    acked_to: u32,
    arrived: PayloadQueue,
    last_tsn: u32,
    into: StreamState,
}

impl Pair {
    pub fn new() -> Pair {
        Pair {
            from: StreamState::new(Side::Client, STREAM, FRAGMENT as u32, 1 << 20, BINARY),
            queue: OutboundQueue::default(),
            next_tsn: 1,
            acked_to: 0,
            arrived: PayloadQueue::new(),
            last_tsn: 0,
            into: StreamState::new(Side::Server, STREAM, FRAGMENT as u32, 1 << 20, BINARY),
        }
    }

    /// As `Stream::write_source` does.
    pub fn write(&mut self, text: &Bytes) {
        let (_, mut chunks) = self.from.packetize(text, BINARY);
        for chunk in &mut chunks {
            chunk.reliability = Some((ReliabilityType::Reliable, 0));
        }
        self.queue.push(chunks);
    }

    /// The next so many chunks that wait, as a packet has them.
    fn send(&mut self, most: usize) -> Vec<Box<dyn Chunk + Send + Sync>> {
        let mut chunks: Vec<Box<dyn Chunk + Send + Sync>> = vec![];
        while chunks.len() < most {
            let Some(chunk) = self.queue.send_next(&mut self.next_tsn, *NOW) else { break };
            chunks.push(Box::new(chunk));
        }
        chunks
    }

    /// DATA is noted, reassembled, and taken off the notes where its TSN is the next.
    fn data(&mut self, chunk: &ChunkPayloadData) {
        if self.arrived.can_push(chunk, self.last_tsn) {
            self.arrived.push(chunk.clone(), self.last_tsn);
            let _ = self.into.handle_data(chunk);
        }
        self.advance();
    }

    fn advance(&mut self) {
        while self.arrived.pop(self.last_tsn.wrapping_add(1)).is_some() {
            self.last_tsn = self.last_tsn.wrapping_add(1);
        }
    }

    fn sack(&mut self) -> ChunkSelectiveAck {
        ChunkSelectiveAck {
            cumulative_tsn_ack: self.last_tsn,
            advertised_receiver_window_credit: WINDOW - self.into.get_num_bytes_in_reassembly_queue() as u32,
            gap_ack_blocks: self.arrived.get_gap_ack_blocks(self.last_tsn),
            duplicate_tsn: self.arrived.pop_duplicates(),
        }
    }

    /// What a SACK without blocks acknowledges.
    fn acked(&mut self, sack: &ChunkSelectiveAck) {
        while self.acked_to != sack.cumulative_tsn_ack {
            self.acked_to = self.acked_to.wrapping_add(1);
            if let Some(chunk) = self.queue.pop(self.acked_to) {
                self.from.on_buffer_released(chunk.user_data.len() as i64);
            }
        }
    }

    /// Reads a message, and gives its length.
    fn read(&mut self) -> usize {
        self.into.reassembly_queue.read().map_or(0, |it| it.len())
    }

    /// Chunks go in a packet, as bytes, and come out.
    fn carry(&mut self, chunks: Vec<Box<dyn Chunk + Send + Sync>>, writer: &mut Writer) {
        let datagram = writer.write(&Packet { common_header: HEADER, chunks }).expect("a packet");
        let packet = Packet::unmarshal(&datagram).expect("a packet");
        for chunk in &packet.chunks {
            if let Some(data) = chunk.as_any().downcast_ref::<ChunkPayloadData>() {
                self.data(data);
            } else if let Some(sack) = chunk.as_any().downcast_ref::<ChunkSelectiveAck>() {
                self.acked(sack);
            }
        }
    }

    fn acknowledge(&mut self, writer: &mut Writer) {
        let sack = self.sack();
        self.carry(vec![Box::new(sack)], writer);
    }

    /// Messages that go in one packet: written, sent, read, acknowledged. Gives how many bytes were read.
    fn exchange_short(&mut self, messages: usize, text: &Bytes, writer: &mut Writer) -> usize {
        (0..messages).for_each(|_| self.write(text));
        let chunks = self.send(messages);
        self.carry(chunks, writer);
        let read = (0..messages).map(|_| self.read()).sum();
        self.acknowledge(writer);
        read
    }

    /// One message in packets of a fragment each; every second one and the last are acknowledged.
    fn exchange_long(&mut self, text: &Bytes, writer: &mut Writer) -> usize {
        self.write(text);
        let packets = text.len().div_ceil(FRAGMENT);
        for place in 1..=packets {
            let chunks = self.send(1);
            self.carry(chunks, writer);
            if (packets - place) % 2 == 0 {
                self.acknowledge(writer);
            }
        }
        self.read()
    }

    /// Messages that all wait before the first is sent, and all come before the first is read; then all are acknowledged.
    #[cfg(feature = "heap")]
    pub fn burst(&mut self, messages: usize, text: &Bytes, writer: &mut Writer) {
        (0..messages).for_each(|_| self.write(text));
        loop {
            let chunks = self.send(1);
            if chunks.is_empty() {
                break;
            }
            self.carry(chunks, writer);
        }
        while self.read() > 0 {}
        self.acknowledge(writer);
    }

    /// As `data`, `carry` and `exchange_short`, for a caller with an error type.
    fn try_data(&mut self, chunk: &ChunkPayloadData) -> Result<(), Fault> {
        if self.arrived.can_push(chunk, self.last_tsn) {
            self.arrived.push(chunk.clone(), self.last_tsn);
            self.into.handle_data(chunk)?;
        }
        self.advance();
        Ok(())
    }

    fn try_carry(&mut self, chunks: Vec<Box<dyn Chunk + Send + Sync>>, writer: &mut Writer) -> Result<(), Fault> {
        let datagram = writer.write(&Packet { common_header: HEADER, chunks })?;
        let packet = Packet::unmarshal(&datagram)?;
        for chunk in &packet.chunks {
            if let Some(data) = chunk.as_any().downcast_ref::<ChunkPayloadData>() {
                self.try_data(data)?;
            } else if let Some(sack) = chunk.as_any().downcast_ref::<ChunkSelectiveAck>() {
                self.acked(sack);
            } else {
                return Err(Fault::OtherChunks);
            }
        }
        Ok(())
    }

    pub fn try_exchange(&mut self, messages: usize, text: &Bytes, writer: &mut Writer) -> Result<usize, Fault> {
        (0..messages).for_each(|_| self.write(text));
        let chunks = self.send(messages);
        self.try_carry(chunks, writer)?;
        let read = (0..messages).map(|_| self.read()).sum();
        let sack = self.sack();
        self.try_carry(vec![Box::new(sack)], writer)?;
        Ok(read)
    }

    /// Takes and reads so many unordered messages of a byte, of every second TSN from the first on, and gives how many bytes that were.
    #[cfg(feature = "heap")]
    pub fn take_apart(&mut self, first: u32, count: u32) -> usize {
        let mut take_and_read = |place| {
            self.data(&fragment(first + 2 * place, true, true, true, text_of(1)));
            self.read()
        };
        (0..count).map(|place| take_and_read(place)).sum()
    }

    pub fn exchange(&mut self, messages: usize, text: &Bytes, writer: &mut Writer) -> usize {
        if text.len() > FRAGMENT {
            self.exchange_long(text, writer)
        } else {
            self.exchange_short(messages, text, writer)
        }
    }
}

pub fn text_of(length: usize) -> Bytes {
    Bytes::from_static(&TEXT[..length])
}

/// How packets are written, and what a row's name says of it.
const WRITERS: [(bool, &str); 2] = [(false, ""), (true, " kept buffer,")];

fn writer_of(is_kept: bool) -> Writer {
    if is_kept { Writer::Kept(BytesMut::with_capacity(LIMIT)) } else { Writer::New }
}

/// So many exchanges of a new pair, one after another.
fn exchanges(count: u32, messages: usize, length: usize, is_kept: bool) -> Measured {
    let mut pair = Pair::new();
    let text = text_of(length);
    timed(|| {
        let mut writer = writer_of(is_kept);
        (0..count).map(|_| pair.exchange(messages, &text, &mut writer)).sum()
    })
}

/// The same of short messages by a caller with an error type.
fn try_exchanges(count: u32, messages: usize, length: usize, is_kept: bool) -> Measured {
    let mut pair = Pair::new();
    let text = text_of(length);
    timed(|| {
        let mut writer = writer_of(is_kept);
        (0..count).map(|_| pair.try_exchange(messages, &text, &mut writer)).sum::<Result<usize, Fault>>()
    })
    .map(|read| read.expect("exchanges"))
}

/// A pair of which so many messages of a byte are in flight, or came.
fn held(count: u32, is_sent: bool) -> Pair {
    let mut pair = Pair::new();
    for tsn in 1..=count {
        if is_sent {
            pair.write(&text_of(1));
            pair.send(1);
        } else {
            pair.data(&fragment(tsn + 1, true, true, true, text_of(1)));
        }
    }
    pair
}

/// SACKs of one chunk more, while so many are in flight.
fn acked(count: u32) -> Measured {
    let mut pair = held(count, true);
    let sack_to = |tsn| ChunkSelectiveAck {
        cumulative_tsn_ack: tsn,
        advertised_receiver_window_credit: WINDOW,
        gap_ack_blocks: vec![],
        duplicate_tsn: vec![],
    };
    timed(|| {
        (1..=CALLS).for_each(|tsn| pair.acked(black_box(&sack_to(tsn))));
        pair.acked_to as usize
    })
}

/// SACKs with nothing to tell.
fn sacks() -> Measured {
    let mut pair = Pair::new();
    timed(|| (0..CALLS).map(|_| black_box(pair.sack()).gap_ack_blocks.len()).sum())
}

/// Reads of so many messages that came.
fn reads(count: u32) -> Measured {
    let mut pair = held(count, false);
    timed(|| (0..CALLS).map(|_| pair.read()).sum())
}

/// The rows of calls of a sender and of a receiver.
pub fn calls() -> Vec<Row> {
    let mut rows = vec![];
    for count in [64, 1000] {
        rows.push(Row::new(format!("Sender::acked over {count}"), CALLS, move || acked(count)));
    }
    rows.push(Row::new("Receiver::sack over 0", CALLS, sacks));
    rows.push(Row::new("Receiver::read over 64", CALLS, || reads(64)));
    rows
}

/// An exchange of each of many pairs that each had one, in turn.
fn in_turn(pairs: u32, length: usize, is_kept: bool) -> Measured {
    let text = text_of(length);
    let mut writer = writer_of(is_kept);
    let mut all: Vec<Pair> = (0..pairs).map(|_| Pair::new()).collect();
    let mut round = || all.iter_mut().map(|pair| pair.exchange(1, &text, &mut writer)).sum::<usize>();
    round();
    timed(round)
}

/// The rows under a checksum of this name.
pub fn rows(sum: &'static str) -> Vec<Row> {
    let mut rows = vec![];
    for (is_kept, kept) in WRITERS {
        for (length, messages, load) in [(100, 1, "a message"), (100, 10, "ten messages"), (1200, 1, "a message")] {
            let name = format!("exchange of {length} bytes, {load} a packet,{kept} {sum}");
            rows.push(Row::new(name, CALLS * messages as u32, move || exchanges(CALLS, messages, length, is_kept)));
            let name = format!("exchange of {length} bytes, {load} a packet, with ?,{kept} {sum}");
            rows.push(Row::new(name, CALLS * messages as u32, move || try_exchanges(CALLS, messages, length, is_kept)));
        }
        rows.push(Row::new(format!("64 KiB in packets,{kept} {sum}"), 1, move || exchanges(1, 1, 65_536, is_kept)));
        for length in [16_384, 65_536] {
            let name = format!("exchange of {length} bytes, steady,{kept} {sum}");
            rows.push(Row::new(name, CALLS, move || exchanges(CALLS, 1, length, is_kept)));
        }
        for pairs in [1, 1000, 10_000] {
            let name = format!("exchange of 100 bytes, {pairs} pairs in turn,{kept} {sum}");
            rows.push(Row::new(name, pairs, move || in_turn(pairs, 100, is_kept)));
        }
    }
    rows
}
