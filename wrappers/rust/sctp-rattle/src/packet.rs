//! Packets and chunks, read and written.

use crate::{done, sys, Error, Result};

pub use sys::sctpr_any_chunk as AnyChunkRow;
pub use sys::sctpr_chunk as ChunkRow;
pub use sys::sctpr_gap as Gap;
pub use sys::sctpr_head as Head;
pub use sys::sctpr_skip as Skip;

/// A packet that was read: its header, and where its chunks lie.
#[derive(Clone, Copy, Debug)]
pub struct Packet<'a, 'r> {
    bytes: &'a [u8],
    rows: &'r [ChunkRow],
    /// Its header.
    pub head: Head,
    /// How many chunks it has. Those past the rows that were handed in are not iterated over.
    pub count: usize,
}

/// A chunk of a packet. Its bytes are what the functions and calls that take a chunk take.
#[derive(Clone, Copy, Debug, PartialEq, Eq)]
pub struct Chunk<'a> {
    /// See [`crate::chunk_type`].
    pub kind: u8,
    /// Its flags.
    pub flags: u8,
    /// Its header and value, without padding.
    pub bytes: &'a [u8],
}

impl<'a> Chunk<'a> {
    /// What follows the header of four bytes.
    pub fn value(&self) -> &'a [u8] {
        self.bytes.get(4..).unwrap_or_default()
    }
}

/// The chunks of a packet, in their order.
#[derive(Clone, Debug)]
pub struct Chunks<'a, 'r> {
    bytes: &'a [u8],
    rows: core::slice::Iter<'r, ChunkRow>,
}

impl<'a> Iterator for Chunks<'a, '_> {
    type Item = Chunk<'a>;

    fn next(&mut self) -> Option<Chunk<'a>> {
        let row = self.rows.next()?;
        let bytes = self.bytes.get(row.at..)?.get(..row.length)?;
        Some(Chunk { kind: row.type_, flags: row.flags, bytes })
    }

    fn size_hint(&self) -> (usize, Option<usize>) {
        self.rows.size_hint()
    }
}

impl<'a, 'r> Packet<'a, 'r> {
    /// Reads a packet under CRC-32C. The rows keep where its chunks lie.
    pub fn read(datagram: &'a [u8], rows: &'r mut [ChunkRow]) -> Result<Packet<'a, 'r>> {
        let (mut head, mut count) = (Head::default(), 0);
        // SAFETY: pointers and lengths are those of slices, rows are borrowed exclusively, and head and count are values of this function.
        let code =
            unsafe { sys::sctpr_read_packet(datagram.as_ptr(), datagram.len(), &mut head, rows.as_mut_ptr(), rows.len(), &mut count) };
        Packet::of(code, datagram, rows, head, count)
    }

    /// The same under a sum that the caller took: of the first eight bytes, four zeros, and the bytes from the twelfth on.
    pub fn read_with_sum(datagram: &'a [u8], sum: u32, rows: &'r mut [ChunkRow]) -> Result<Packet<'a, 'r>> {
        let (mut head, mut count) = (Head::default(), 0);
        // SAFETY: as in `read`.
        let code = unsafe {
            sys::sctpr_read_packet_with_sum(datagram.as_ptr(), datagram.len(), sum, &mut head, rows.as_mut_ptr(), rows.len(), &mut count)
        };
        Packet::of(code, datagram, rows, head, count)
    }

    fn of(code: sys::sctpr_code, bytes: &'a [u8], rows: &'r [ChunkRow], head: Head, count: usize) -> Result<Packet<'a, 'r>> {
        let rows = &rows[..rows.len().min(count)];
        done(code, Packet { bytes, rows, head, count }, 0)
    }

    /// Its chunks, as many as there were rows for.
    pub fn chunks(&self) -> Chunks<'a, 'r> {
        Chunks { bytes: self.bytes, rows: self.rows.iter() }
    }
}

/// A packet that was read with all that RFC 9260 allows, which [`Packet`] refuses: chunks of unknown types, and parameters and causes of any
/// type. Of an INIT, INIT-ACK, ABORT, ERROR and RE-CONFIG the header is read; [`Params::any`] and [`Causes`] walk the rest.
#[derive(Clone, Copy, Debug)]
pub struct AnyPacket<'a, 'r> {
    bytes: &'a [u8],
    rows: &'r [AnyChunkRow],
    /// Its header.
    pub head: Head,
    /// How many chunks were looked at. Those past the rows that were handed in are not iterated over.
    pub count: usize,
}

/// A chunk of such a packet.
#[derive(Clone, Copy, Debug, PartialEq, Eq)]
pub struct AnyChunk<'a> {
    /// Type, flags and bytes.
    pub chunk: Chunk<'a>,
    /// Whether its type is one that [`Packet::read`] reads.
    pub is_known: bool,
    /// Whether its sender is to be told of it: in an ERROR, by the cause 6 with the chunk as its value.
    pub is_reported: bool,
}

impl<'a, 'r> AnyPacket<'a, 'r> {
    /// Reads a packet under CRC-32C. The rows keep where its chunks lie.
    pub fn read(datagram: &'a [u8], rows: &'r mut [AnyChunkRow]) -> Result<AnyPacket<'a, 'r>> {
        let (mut head, mut count) = (Head::default(), 0);
        // SAFETY: as in `Packet::read`.
        let code =
            unsafe { sys::sctpr_read_any_packet(datagram.as_ptr(), datagram.len(), &mut head, rows.as_mut_ptr(), rows.len(), &mut count) };
        AnyPacket::of(code, datagram, rows, head, count)
    }

    /// The same under a sum that the caller took, as in [`Packet::read_with_sum`].
    pub fn read_with_sum(datagram: &'a [u8], sum: u32, rows: &'r mut [AnyChunkRow]) -> Result<AnyPacket<'a, 'r>> {
        let (mut head, mut count) = (Head::default(), 0);
        // SAFETY: as in `Packet::read`.
        let code = unsafe {
            let room = rows.len();
            sys::sctpr_read_any_packet_with_sum(datagram.as_ptr(), datagram.len(), sum, &mut head, rows.as_mut_ptr(), room, &mut count)
        };
        AnyPacket::of(code, datagram, rows, head, count)
    }

    fn of(code: sys::sctpr_code, bytes: &'a [u8], rows: &'r [AnyChunkRow], head: Head, count: usize) -> Result<AnyPacket<'a, 'r>> {
        let rows = &rows[..rows.len().min(count)];
        done(code, AnyPacket { bytes, rows, head, count }, 0)
    }

    /// Its chunks, as many as there were rows for.
    pub fn chunks(&self) -> impl Iterator<Item = AnyChunk<'a>> + 'r
    where
        'a: 'r,
    {
        let bytes = self.bytes;
        self.rows.iter().map_while(move |row| {
            let chunk = Chunk { kind: row.type_, flags: row.flags, bytes: bytes.get(row.at..)?.get(..row.length)? };
            Some(AnyChunk { chunk, is_known: row.is_known != 0, is_reported: row.is_reported != 0 })
        })
    }
}

/// A DATA chunk (RFC 4960 3.3.1).
#[derive(Clone, Copy, Debug, PartialEq, Eq)]
pub struct Data<'a> {
    /// Its transmission sequence number.
    pub tsn: u32,
    /// Its stream.
    pub stream: u16,
    /// Its stream sequence number.
    pub sequence: u16,
    /// See [`crate::ppid`].
    pub payload_type: u32,
    /// The flag U.
    pub is_unordered: bool,
    /// The flag B.
    pub begins: bool,
    /// The flag E.
    pub ends: bool,
    /// The flag I (RFC 7053).
    pub wants_sack: bool,
    /// Its bytes of a message.
    pub user_data: &'a [u8],
}

/// Reads a DATA chunk.
pub fn read_data(chunk: &[u8]) -> Result<Data<'_>> {
    let mut d = sys::sctpr_data::default();
    // SAFETY: pointer and length are those of a slice, and d is a value of this function.
    done(unsafe { sys::sctpr_read_data(chunk.as_ptr(), chunk.len(), &mut d) }, (), 0)?;
    Ok(Data {
        tsn: d.tsn,
        stream: d.stream,
        sequence: d.sequence,
        payload_type: d.payload_type,
        is_unordered: d.is_unordered != 0,
        begins: d.begins != 0,
        ends: d.ends != 0,
        wants_sack: d.wants_sack != 0,
        user_data: chunk.get(16..16 + d.length).unwrap_or_default(),
    })
}

/// A SACK (RFC 4960 3.3.4) with those of its blocks and duplicates for which there was a row.
#[derive(Clone, Copy, Debug, PartialEq, Eq)]
pub struct Sack<'r> {
    /// All up to this TSN came.
    pub cumulative_tsn: u32,
    /// The advertised receiver window credit.
    pub credit: u32,
    /// Runs of TSNs that came: the distances of their first and last from the cumulative one.
    pub blocks: &'r [Gap],
    /// TSNs that came more than once.
    pub duplicates: &'r [u32],
    /// How many blocks it has.
    pub block_count: usize,
    /// How many duplicates it has.
    pub duplicate_count: usize,
}

/// Reads a SACK.
pub fn read_sack<'r>(chunk: &[u8], blocks: &'r mut [Gap], duplicates: &'r mut [u32]) -> Result<Sack<'r>> {
    let mut s = sys::sctpr_sack::default();
    // SAFETY: pointers and lengths are those of slices, what is written is borrowed exclusively, and s is a value of this function.
    let code = unsafe {
        let (b, d) = (blocks.as_mut_ptr(), duplicates.as_mut_ptr());
        sys::sctpr_read_sack(chunk.as_ptr(), chunk.len(), &mut s, b, blocks.len(), d, duplicates.len())
    };
    done(code, (), 0)?;
    Ok(Sack {
        cumulative_tsn: s.cumulative_tsn,
        credit: s.credit,
        blocks: &blocks[..blocks.len().min(s.blocks)],
        duplicates: &duplicates[..duplicates.len().min(s.duplicates)],
        block_count: s.blocks,
        duplicate_count: s.duplicates,
    })
}

/// A FORWARD-TSN (RFC 3758 3.2) with those of the streams it names for which there was a row.
#[derive(Clone, Copy, Debug, PartialEq, Eq)]
pub struct ForwardTsn<'r> {
    /// All up to this TSN is skipped.
    pub new_cumulative_tsn: u32,
    /// Streams, and the last number of each that is skipped.
    pub streams: &'r [Skip],
    /// How many streams it names.
    pub count: usize,
}

/// Reads a FORWARD-TSN.
pub fn read_forward_tsn<'r>(chunk: &[u8], rows: &'r mut [Skip]) -> Result<ForwardTsn<'r>> {
    let (mut tsn, mut count) = (0, 0);
    // SAFETY: pointers and lengths are those of slices, rows are borrowed exclusively, and tsn and count are values of this function.
    let code = unsafe { sys::sctpr_read_forward_tsn(chunk.as_ptr(), chunk.len(), &mut tsn, rows.as_mut_ptr(), rows.len(), &mut count) };
    done(code, (), 0)?;
    Ok(ForwardTsn { new_cumulative_tsn: tsn, streams: &rows[..rows.len().min(count)], count })
}

/// What an INIT or INIT-ACK says (RFC 4960 3.3.2, 3.3.3), but for its parameters.
#[derive(Clone, Copy, Debug, Default, PartialEq, Eq)]
pub struct Init {
    /// The tag of the packets that come to its sender.
    pub initiate_tag: u32,
    /// The advertised receiver window credit.
    pub credit: u32,
    /// The TSN of its first DATA chunk.
    pub initial_tsn: u32,
    /// How many streams it sends on at most.
    pub outbound_streams: u16,
    /// How many streams it takes at most.
    pub inbound_streams: u16,
    /// Whether it is an INIT-ACK.
    pub is_ack: bool,
}

/// Reads an INIT or INIT-ACK, and its parameters.
pub fn read_init(chunk: &[u8]) -> Result<(Init, Params<'_>)> {
    let mut i = sys::sctpr_init::default();
    // SAFETY: pointer and length are those of a slice, and i is a value of this function.
    done(unsafe { sys::sctpr_read_init(chunk.as_ptr(), chunk.len(), &mut i) }, (), 0)?;
    let init = Init {
        initiate_tag: i.initiate_tag,
        credit: i.credit,
        initial_tsn: i.initial_tsn,
        outbound_streams: i.outbound_streams,
        inbound_streams: i.inbound_streams,
        is_ack: i.is_ack != 0,
    };
    Ok((init, Params::any(chunk.get(20..).unwrap_or_default())))
}

/// Reads a SHUTDOWN (RFC 4960 3.3.8): the TSN up to which its sender received all.
pub fn read_shutdown(chunk: &[u8]) -> Result<u32> {
    let mut tsn = 0;
    // SAFETY: pointer and length are those of a slice, and tsn is a value of this function.
    done(unsafe { sys::sctpr_read_shutdown(chunk.as_ptr(), chunk.len(), &mut tsn) }, (), 0)?;
    Ok(tsn)
}

/// An error cause (RFC 4960 3.3.10).
#[derive(Clone, Copy, Debug, PartialEq, Eq)]
pub struct Cause<'a> {
    /// Its code.
    pub code: u16,
    /// What follows its header of four bytes.
    pub value: &'a [u8],
}

/// The error causes that bytes are, one behind the other, as the value of an ABORT or ERROR. One that can't be read is an error, and the last
/// item.
#[derive(Clone, Debug)]
pub struct Causes<'a> {
    rest: &'a [u8],
}

impl<'a> Causes<'a> {
    /// The causes of bytes.
    pub fn new(bytes: &'a [u8]) -> Causes<'a> {
        Causes { rest: bytes }
    }
}

impl<'a> Iterator for Causes<'a> {
    type Item = Result<Cause<'a>>;

    fn next(&mut self) -> Option<Result<Cause<'a>>> {
        let bytes = core::mem::take(&mut self.rest);
        if bytes.is_empty() {
            return None;
        }
        let mut c = sys::sctpr_cause::default();
        // SAFETY: pointer and length are those of a slice, and c is a value of this function.
        let code = unsafe { sys::sctpr_read_cause(bytes.as_ptr(), bytes.len(), &mut c) };
        if code != sys::SCTPR_OK {
            return Some(Err(Error::of_code(code, 0)));
        }
        self.rest = bytes.get(c.next..).unwrap_or_default();
        Some(Ok(Cause { code: c.code, value: bytes.get(4..4 + c.length).unwrap_or_default() }))
    }
}

/// A parameter (RFC 4960 3.2.1).
#[derive(Clone, Copy, Debug, PartialEq, Eq)]
pub struct Param<'a> {
    /// Its type.
    pub kind: u16,
    /// What follows its header of four bytes.
    pub value: &'a [u8],
}

/// The parameters that bytes are, one behind the other. One that can't be read is an error, and the last item.
#[derive(Clone, Debug)]
pub struct Params<'a> {
    rest: &'a [u8],
    any: bool,
}

impl<'a> Params<'a> {
    /// The parameters of bytes.
    pub fn new(bytes: &'a [u8]) -> Params<'a> {
        Params { rest: bytes, any: false }
    }

    /// The same of any type and any value: their headers alone are read.
    pub fn any(bytes: &'a [u8]) -> Params<'a> {
        Params { rest: bytes, any: true }
    }
}

impl<'a> Iterator for Params<'a> {
    type Item = Result<Param<'a>>;

    fn next(&mut self) -> Option<Result<Param<'a>>> {
        let bytes = core::mem::take(&mut self.rest);
        if bytes.is_empty() {
            return None;
        }
        let mut p = sys::sctpr_param::default();
        // SAFETY: pointer and length are those of a slice, and p is a value of this function.
        let code = unsafe {
            match self.any {
                false => sys::sctpr_read_param(bytes.as_ptr(), bytes.len(), &mut p),
                true => sys::sctpr_read_any_param(bytes.as_ptr(), bytes.len(), &mut p),
            }
        };
        if code != sys::SCTPR_OK {
            return Some(Err(Error::of_code(code, 0)));
        }
        self.rest = bytes.get(p.next..).unwrap_or_default();
        Some(Ok(Param { kind: p.type_, value: bytes.get(4..4 + p.length).unwrap_or_default() }))
    }
}

/// The number of any request of a RE-CONFIG that the bytes begin with.
pub fn read_request(bytes: &[u8]) -> Result<u32> {
    let mut n = 0;
    // SAFETY: pointer and length are those of a slice, and n is a value of this function.
    done(unsafe { sys::sctpr_read_request(bytes.as_ptr(), bytes.len(), &mut n) }, (), 0)?;
    Ok(n)
}

/// An Outgoing SSN Reset Request but for its streams (RFC 6525 4.1).
#[derive(Clone, Copy, Debug, PartialEq, Eq)]
pub struct Reset {
    /// Its number.
    pub request: u32,
    /// The number of the request that it answers.
    pub response: u32,
    /// The last TSN that its sender gave out.
    pub last_tsn: u32,
    /// How many streams it names; none means all.
    pub count: usize,
}

/// Reads the Outgoing SSN Reset Request that the bytes begin with: as many streams as there is room for stand in `streams`.
pub fn read_reset(bytes: &[u8], streams: &mut [u16]) -> Result<Reset> {
    let mut r = sys::sctpr_reset::default();
    let mut n = 0;
    // SAFETY: pointers and lengths are those of slices, streams is borrowed exclusively, and r and n are values of this function.
    let code = unsafe { sys::sctpr_read_reset(bytes.as_ptr(), bytes.len(), &mut r, streams.as_mut_ptr(), streams.len(), &mut n) };
    done(code, (), 0)?;
    Ok(Reset { request: r.request, response: r.response, last_tsn: r.last_tsn, count: n })
}

/// Writes an Outgoing SSN Reset Request of these streams with its padding; no stream means all, and `count` is not looked at.
pub fn write_reset(reset: &Reset, streams: &[u16], out: &mut [u8]) -> Result<usize> {
    let mut n = 0;
    let r = sys::sctpr_reset { request: reset.request, response: reset.response, last_tsn: reset.last_tsn };
    // SAFETY: as in `write_chunk`, and r is a value of this function.
    let code = unsafe { sys::sctpr_write_reset(&r, streams.as_ptr(), streams.len(), out.as_mut_ptr(), out.len(), &mut n) };
    done(code, n, n)
}

/// The number of the Incoming SSN Reset Request that the bytes begin with (RFC 6525 4.2), and how many streams it names, none where it means
/// all: as many as there is room for stand in `streams`.
pub fn read_incoming_reset(bytes: &[u8], streams: &mut [u16]) -> Result<(u32, usize)> {
    let (mut number, mut n) = (0, 0);
    // SAFETY: as in `read_reset`.
    let code =
        unsafe { sys::sctpr_read_incoming_reset(bytes.as_ptr(), bytes.len(), &mut number, streams.as_mut_ptr(), streams.len(), &mut n) };
    done(code, (), 0)?;
    Ok((number, n))
}

/// Writes an Incoming SSN Reset Request with its padding.
pub fn write_incoming_reset(number: u32, streams: &[u16], out: &mut [u8]) -> Result<usize> {
    let mut n = 0;
    // SAFETY: as in `write_chunk`.
    let code = unsafe { sys::sctpr_write_incoming_reset(number, streams.as_ptr(), streams.len(), out.as_mut_ptr(), out.len(), &mut n) };
    done(code, n, n)
}

/// Writes an SSN/TSN Reset Request (RFC 6525 4.3).
pub fn write_ssn_tsn_reset(number: u32, out: &mut [u8]) -> Result<usize> {
    let mut n = 0;
    // SAFETY: as in `write_chunk`.
    let code = unsafe { sys::sctpr_write_ssn_tsn_reset(number, out.as_mut_ptr(), out.len(), &mut n) };
    done(code, n, n)
}

/// A request to add streams (RFC 6525 4.5, 4.6).
#[derive(Clone, Copy, Debug, PartialEq, Eq)]
pub struct AddStreams {
    /// Its number.
    pub request: u32,
    /// How many new streams.
    pub count: u16,
    /// Whether they come to its sender.
    pub is_incoming: bool,
}

/// Reads the request to add streams that the bytes begin with.
pub fn read_add_streams(bytes: &[u8]) -> Result<AddStreams> {
    let mut a = sys::sctpr_add_streams::default();
    // SAFETY: pointer and length are those of a slice, and a is a value of this function.
    done(unsafe { sys::sctpr_read_add_streams(bytes.as_ptr(), bytes.len(), &mut a) }, (), 0)?;
    Ok(AddStreams { request: a.request, count: a.count, is_incoming: a.is_incoming != 0 })
}

/// Writes a request to add streams.
pub fn write_add_streams(add: &AddStreams, out: &mut [u8]) -> Result<usize> {
    let mut n = 0;
    let a = sys::sctpr_add_streams { request: add.request, count: add.count, is_incoming: add.is_incoming as u8 };
    // SAFETY: as in `write_chunk`, and a is a value of this function.
    let code = unsafe { sys::sctpr_write_add_streams(&a, out.as_mut_ptr(), out.len(), &mut n) };
    done(code, n, n)
}

/// A Re-configuration Response (RFC 6525 4.4).
#[derive(Clone, Copy, Debug, PartialEq, Eq)]
pub struct Response {
    /// The number of the request that it answers.
    pub response: u32,
    /// 0 to 6.
    pub result: u32,
}

/// Reads the Re-configuration Response that the bytes begin with.
pub fn read_response(bytes: &[u8]) -> Result<Response> {
    let mut r = sys::sctpr_response::default();
    // SAFETY: pointer and length are those of a slice, and r is a value of this function.
    done(unsafe { sys::sctpr_read_response(bytes.as_ptr(), bytes.len(), &mut r) }, (), 0)?;
    Ok(Response { response: r.response, result: r.result })
}

/// Writes a Re-configuration Response with no TSNs.
pub fn write_response(response: &Response, out: &mut [u8]) -> Result<usize> {
    let mut n = 0;
    let r = sys::sctpr_response { response: response.response, result: response.result };
    // SAFETY: as in `write_chunk`.
    let code = unsafe { sys::sctpr_write_response(&r, out.as_mut_ptr(), out.len(), &mut n) };
    done(code, n, n)
}

/// Writes a chunk of a type and a value, its flags 0. This and the functions below answer how many bytes they wrote, padding included.
pub fn write_chunk(kind: u8, value: &[u8], out: &mut [u8]) -> Result<usize> {
    let mut n = 0;
    // SAFETY: pointers and lengths are those of slices, out is borrowed exclusively, and n is a value of this function.
    let code = unsafe { sys::sctpr_write_chunk(kind, value.as_ptr(), value.len(), out.as_mut_ptr(), out.len(), &mut n) };
    done(code, n, n)
}

/// The same with flags, as they are given.
pub fn write_chunk_with_flags(kind: u8, flags: u8, value: &[u8], out: &mut [u8]) -> Result<usize> {
    let mut n = 0;
    // SAFETY: as in `write_chunk`.
    let code = unsafe { sys::sctpr_write_chunk_with_flags(kind, flags, value.as_ptr(), value.len(), out.as_mut_ptr(), out.len(), &mut n) };
    done(code, n, n)
}

/// Writes an error cause: what an ABORT or ERROR has as its value.
pub fn write_cause(cause: u16, value: &[u8], out: &mut [u8]) -> Result<usize> {
    let mut n = 0;
    // SAFETY: as in `write_chunk`.
    let code = unsafe { sys::sctpr_write_cause(cause, value.as_ptr(), value.len(), out.as_mut_ptr(), out.len(), &mut n) };
    done(code, n, n)
}

/// Writes an INIT or INIT-ACK. The parameters are as [`write_param`] writes them, one behind the other.
pub fn write_init(init: &Init, params: &[u8], out: &mut [u8]) -> Result<usize> {
    let mut n = 0;
    let init = sys::sctpr_init {
        initiate_tag: init.initiate_tag,
        credit: init.credit,
        initial_tsn: init.initial_tsn,
        outbound_streams: init.outbound_streams,
        inbound_streams: init.inbound_streams,
        is_ack: init.is_ack as u8,
    };
    // SAFETY: as in `write_chunk`, and init is a value of this function.
    let code = unsafe { sys::sctpr_write_init(&init, params.as_ptr(), params.len(), out.as_mut_ptr(), out.len(), &mut n) };
    done(code, n, n)
}

/// Writes a parameter.
pub fn write_param(kind: u16, value: &[u8], out: &mut [u8]) -> Result<usize> {
    let mut n = 0;
    // SAFETY: as in `write_chunk`.
    let code = unsafe { sys::sctpr_write_param(kind, value.as_ptr(), value.len(), out.as_mut_ptr(), out.len(), &mut n) };
    done(code, n, n)
}

/// Writes header and CRC-32C into the first twelve bytes of a packet.
pub fn seal_packet(head: &Head, packet: &mut [u8]) -> Result<()> {
    // SAFETY: pointer and length are those of a slice that is borrowed exclusively, and head is a reference.
    done(unsafe { sys::sctpr_seal_packet(head, packet.as_mut_ptr(), packet.len()) }, (), 12)
}

/// The header, with zeros in the checksum's place: the first step of sealing under a sum that the caller takes, of all of the packet.
pub fn write_head(head: &Head, packet: &mut [u8]) -> Result<()> {
    // SAFETY: as in `seal_packet`.
    done(unsafe { sys::sctpr_write_head(head, packet.as_mut_ptr(), packet.len()) }, (), 12)
}

/// Puts the sum of a packet there.
pub fn store_sum(sum: u32, packet: &mut [u8]) -> Result<()> {
    // SAFETY: pointer and length are those of a slice that is borrowed exclusively.
    done(unsafe { sys::sctpr_store_sum(sum, packet.as_mut_ptr(), packet.len()) }, (), 12)
}
