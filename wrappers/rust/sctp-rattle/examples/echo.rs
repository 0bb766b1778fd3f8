//! The program of examples/echo/echo.c in Rust.
use sctp_rattle::{chunk_type, ppid, seal_packet, AckedRow, ChunkRow, Error, Head, Packet, Receiver, Result, Sender};

const MESSAGES: u32 = 100;
const LONGEST: u32 = 3000;
const PACKET: usize = 1200;
const HEADER: usize = 12;
const STREAM: u16 = 1;
const IN_FLIGHT: usize = 32;

struct Host {
    sender: Sender,
    receiver: Receiver,
    head: Head,
    has_news: bool,
}

impl Host {
    fn new(verification_tag: u32, source_port: u16, destination_port: u16) -> Result<Host> {
        let mut sender = Sender::new(1000, PACKET as u32 - 28, LONGEST, false)?;
        let mut receiver = Receiver::new(1000, LONGEST, 1 << 16, 1000)?;
        sender.open(STREAM)?;
        receiver.open(STREAM)?;
        Ok(Host { sender, receiver, head: Head { verification_tag, source_port, destination_port }, has_news: false })
    }

    /// Writes a packet: a SACK, where anything came, what is to be sent again, and what waits. Its length, HEADER where there is nothing.
    fn write_packet(&mut self, now: u64, packet: &mut [u8]) -> Result<usize> {
        let mut length = HEADER;
        if self.has_news {
            length += self.receiver.write_sack(&mut packet[length..])?;
            self.has_news = false;
        }
        while let Some(marked) = self.sender.next_to_retransmit() {
            match self.sender.resend(marked.tsn, now, &mut packet[length..]) {
                Err(Error::ShortBuffer { .. }) => break,
                n => length += n?,
            }
        }
        while self.sender.chunks_in_flight() < IN_FLIGHT {
            match self.sender.send_next(now, &mut packet[length..]) {
                Err(Error::ShortBuffer { .. }) | Ok(None) => break,
                Ok(Some(sent)) => length += sent.size,
                Err(e) => return Err(e),
            }
        }
        if length > HEADER {
            seal_packet(&self.head, &mut packet[..length])?;
        }
        Ok(length)
    }

    fn take_packet(&mut self, datagram: &[u8]) -> Result<()> {
        let mut rows = [ChunkRow::default(); 64];
        let mut acked_rows = [AckedRow::default(); IN_FLIGHT];
        for chunk in Packet::read(datagram, &mut rows)?.chunks() {
            if chunk.kind == chunk_type::DATA {
                self.receiver.data(chunk.bytes)?;
                self.has_news = true;
            }
            if chunk.kind == chunk_type::SACK {
                let last = self.sender.acked(chunk.bytes, &mut acked_rows)?.and_then(Iterator::last);
                if let Some(acked) = last {
                    self.sender.add_miss_indications(acked.tsn);
                }
            }
        }
        Ok(())
    }
}

struct Network {
    state: u32,
    datagrams: u32,
    lost: u32,
}

impl Network {
    fn loses(&mut self) -> bool {
        self.state ^= self.state << 13;
        self.state ^= self.state >> 17;
        self.state ^= self.state << 5;
        self.datagrams += 1;
        let is_lost = self.state % 5 == 0;
        self.lost += is_lost as u32;
        is_lost
    }

    fn send_all(&mut self, from: &mut Host, to: &mut Host, now: u64) -> Result<()> {
        let mut packet = [0; PACKET];
        loop {
            let length = from.write_packet(now, &mut packet)?;
            if length == HEADER {
                return Ok(());
            }
            if !self.loses() {
                to.take_packet(&packet[..length])?;
            }
        }
    }
}

fn message(number: u32) -> Vec<u8> {
    (0..1 + number * number * 37 % LONGEST).map(|i| (number + i) as u8).collect()
}

fn main() -> std::result::Result<(), Box<dyn std::error::Error>> {
    let (mut a, mut b) = (Host::new(1, 5000, 5001)?, Host::new(2, 5001, 5000)?);
    let mut network = Network { state: 1, datagrams: 0, lost: 0 };
    let (mut written, mut echoed, mut rounds, mut all) = (0, 0, 0, 0);
    while echoed < MESSAGES && rounds < 10000 {
        let now = rounds * 100_000_000;
        if written < MESSAGES {
            a.sender.write(STREAM, ppid::BINARY, &message(written))?;
            written += 1;
        }
        if rounds % 4 == 3 {
            a.sender.retransmit_all();
            b.sender.retransmit_all();
        }
        network.send_all(&mut a, &mut b, now)?;
        for m in b.receiver.messages(STREAM) {
            let m = m?;
            b.sender.write(STREAM, m.payload_type, &m.bytes)?;
        }
        network.send_all(&mut b, &mut a, now)?;
        for m in a.receiver.messages(STREAM) {
            let m = m?;
            if m.bytes != message(echoed) {
                return Err("a message differs".into());
            }
            echoed += 1;
            all += m.bytes.len();
        }
        rounds += 1;
    }
    println!("echo: {echoed} messages with {all} bytes came back, {} datagrams, {} lost, {rounds} rounds", network.datagrams, network.lost);
    if echoed == MESSAGES {
        Ok(())
    } else {
        Err("not all came back".into())
    }
}
