//! The sending half.

use crate::{done, option, sys, Result};
use core::cell::UnsafeCell;
use core::fmt;

/// The sending half of an association: what was written and is not yet acknowledged (RFC 4960 6.1, 6.2.1, 6.9; RFC 3758). `now` is in
/// nanoseconds from any one moment.
pub struct Sender {
    handle: UnsafeCell<sys::sctpr_sender>,
}

// SAFETY: the library has no global state, so that a sender may go to another thread; the cell keeps it from being shared between two.
unsafe impl Send for Sender {}

/// How long a message is sent for (RFC 7496 3.1, RFC 3758 4.1).
#[derive(Clone, Copy, Debug, PartialEq, Eq)]
pub enum Mode {
    /// Until it is acknowledged.
    Reliable,
    /// So often after the first sending.
    Rexmit(u32),
    /// So many milliseconds.
    Timed(u32),
}

/// A message that was written.
#[derive(Clone, Copy, Debug, Default, PartialEq, Eq)]
pub struct Written {
    /// Its number.
    pub number: u64,
    /// How many chunks it has.
    pub fragments: usize,
}

/// A DATA chunk that was put in flight.
#[derive(Clone, Copy, Debug, Default, PartialEq, Eq)]
pub struct Sent {
    /// How many bytes were written, padding included.
    pub size: usize,
    /// Its TSN.
    pub tsn: u32,
}

/// A chunk in flight.
#[derive(Clone, Copy, Debug, PartialEq, Eq)]
pub struct InFlight {
    /// Its TSN.
    pub tsn: u32,
    /// Its bytes of user data, 0 where it is acknowledged or abandoned.
    pub size: usize,
    /// The number of its message.
    pub message: u64,
    /// When it was sent last, 0 of a chunk that stands for what was never sent.
    pub sent_at: u64,
    /// How often it was sent.
    pub sent: u32,
    /// See [`crate::ppid`].
    pub payload_type: u32,
    /// Its stream.
    pub stream: u16,
    /// Its stream sequence number.
    pub sequence: u16,
    /// Whether it is of an unordered message.
    pub is_unordered: bool,
    /// Whether a gap ack block reported it.
    pub is_acked: bool,
    /// Whether its message was abandoned.
    pub is_abandoned: bool,
    /// Whether it is marked for retransmission.
    pub is_marked: bool,
}

/// A chunk that a SACK acknowledged.
#[derive(Clone, Copy, Debug, PartialEq, Eq)]
pub struct Acked {
    /// Its TSN.
    pub tsn: u32,
    /// Its bytes of user data.
    pub bytes: usize,
    /// The number of its message.
    pub message: u64,
    /// Its stream.
    pub stream: u16,
    /// How often it was sent. One that was sent once alone tells the round trip time.
    pub sent: u32,
    /// When it was sent last, where it was ever sent.
    pub sent_at: Option<u64>,
    /// Whether its message is acknowledged whole now.
    pub is_message_acked: bool,
    /// Whether the buffered amount of its stream fell to the low threshold with it.
    pub is_low: bool,
}

/// A chunk whose acknowledgement a SACK took back.
#[derive(Clone, Copy, Debug, PartialEq, Eq)]
pub struct TakenBack {
    /// Its TSN.
    pub tsn: u32,
    /// Its bytes of user data.
    pub bytes: usize,
    /// The number of its message.
    pub message: u64,
    /// Its stream.
    pub stream: u16,
}

/// A message that was abandoned.
#[derive(Clone, Copy, Debug, PartialEq, Eq)]
pub struct Abandoned {
    /// Its number.
    pub number: u64,
    /// How many of its bytes left.
    pub bytes: usize,
    /// Its stream.
    pub stream: u16,
    /// Whether the buffered amount of its stream fell to the low threshold with it.
    pub is_low: bool,
}

/// A message that expired before any of it was sent.
#[derive(Clone, Copy, Debug, PartialEq, Eq)]
pub struct Expired {
    /// Its bytes.
    pub bytes: usize,
    /// Its stream.
    pub stream: u16,
    /// Whether the buffered amount of its stream fell to the low threshold with it.
    pub is_low: bool,
}

/// What is in flight, and neither acknowledged nor abandoned.
#[derive(Clone, Copy, Debug, PartialEq, Eq)]
pub struct Outstanding {
    /// The bytes of the chunks that are not marked for retransmission: the flight size (RFC 9260 6.2.1 B, 7.2).
    pub bytes: usize,
    /// How many chunks are not marked.
    pub chunks: usize,
    /// How many chunks are marked.
    pub marked: usize,
}

/// Room for an [`Acked`].
pub type AckedRow = sys::sctpr_acked;
/// Room for a [`TakenBack`].
pub type TakenBackRow = sys::sctpr_taken_back;
/// Room for an [`Abandoned`].
pub type AbandonedRow = sys::sctpr_abandoned;

impl From<&sys::sctpr_in_flight> for InFlight {
    fn from(r: &sys::sctpr_in_flight) -> InFlight {
        InFlight {
            tsn: r.tsn,
            size: r.size,
            message: r.message,
            sent_at: r.sent_at,
            sent: r.sent,
            payload_type: r.payload_type,
            stream: r.stream,
            sequence: r.sequence,
            is_unordered: r.is_unordered != 0,
            is_acked: r.is_acked != 0,
            is_abandoned: r.is_abandoned != 0,
            is_marked: r.is_marked != 0,
        }
    }
}

impl From<&AckedRow> for Acked {
    fn from(r: &AckedRow) -> Acked {
        Acked {
            tsn: r.tsn,
            bytes: r.bytes,
            message: r.message,
            stream: r.stream,
            sent: r.sent,
            sent_at: if r.has_sent_at != 0 { Some(r.sent_at) } else { None },
            is_message_acked: r.is_message_acked != 0,
            is_low: r.is_low != 0,
        }
    }
}

impl From<&TakenBackRow> for TakenBack {
    fn from(r: &TakenBackRow) -> TakenBack {
        TakenBack { tsn: r.tsn, bytes: r.bytes, message: r.message, stream: r.stream }
    }
}

impl From<&AbandonedRow> for Abandoned {
    fn from(r: &AbandonedRow) -> Abandoned {
        Abandoned { number: r.number, bytes: r.bytes, stream: r.stream, is_low: r.is_low != 0 }
    }
}

/// The first so many rows, each as its type.
fn rows<'r, R, T: From<&'r R>>(code: sys::sctpr_code, rows: &'r [R], count: usize) -> Result<impl Iterator<Item = T> + 'r>
where
    T: 'r,
{
    done(code, (), count)?;
    Ok(rows[..rows.len().min(count)].iter().map(T::from))
}

/// The same with SCTPR_OK, none where the call was done and changed nothing.
fn new_rows<'r, R, T>(code: sys::sctpr_code, room: &'r [R], count: usize) -> Result<Option<impl Iterator<Item = T> + 'r>>
where
    T: From<&'r R> + 'r,
{
    let told = rows(code, room, count)?;
    Ok(if code == sys::SCTPR_OK { Some(told) } else { None })
}

impl Sender {
    /// A sender with no stream, whose first chunk gets `first_tsn`. A chunk has `fragment_size` bytes of user data at most, a message
    /// `max_message_size`. With `keeps_reported` what gap ack blocks report is kept until the cumulative TSN passes it, so that it can be
    /// taken back.
    pub fn new(first_tsn: u32, fragment_size: u32, max_message_size: u32, keeps_reported: bool) -> Result<Sender> {
        let mut handle = sys::sctpr_sender { at: core::ptr::null_mut() };
        // SAFETY: handle is a value of this function.
        let code = unsafe { sys::sctpr_sender_new(first_tsn, fragment_size, max_message_size, keeps_reported.into(), &mut handle) };
        done(code, (), 0)?;
        Ok(Sender { handle: UnsafeCell::new(handle) })
    }

    /// Opens a stream, ordered and reliable.
    pub fn open(&mut self, stream: u16) -> Result<()> {
        // SAFETY: the handle was made by `new`, and is used by this call alone.
        done(unsafe { sys::sctpr_sender_open(self.handle.get_mut(), stream) }, (), 0)
    }

    /// Closes a stream, where it is open. What waits and is in flight of it goes on.
    pub fn close(&mut self, stream: u16) {
        // SAFETY: as in `open`.
        unsafe { sys::sctpr_sender_close(self.handle.get_mut(), stream) }
    }

    /// Sets the mode of later writes to a stream.
    pub fn set_mode(&mut self, stream: u16, is_unordered: bool, mode: Mode) -> Result<()> {
        let (kind, value) = match mode {
            Mode::Reliable => (sys::SCTPR_RELIABLE, 0),
            Mode::Rexmit(times) => (sys::SCTPR_REXMIT, times),
            Mode::Timed(milliseconds) => (sys::SCTPR_TIMED, milliseconds),
        };
        // SAFETY: as in `open`.
        done(unsafe { sys::sctpr_sender_set_mode(self.handle.get_mut(), stream, is_unordered as u8, kind, value) }, (), 0)
    }

    /// Sets how many bytes of user data a chunk of a later write has at most.
    pub fn set_fragment_size(&mut self, size: u32) -> Result<()> {
        // SAFETY: as in `open`.
        done(unsafe { sys::sctpr_sender_set_fragment_size(self.handle.get_mut(), size) }, (), 0)
    }

    /// Sets the buffered amount of a stream, in bytes, down to which a fall is told.
    pub fn set_low_threshold(&mut self, stream: u16, bytes: usize) -> Result<()> {
        // SAFETY: as in `open`.
        done(unsafe { sys::sctpr_sender_set_low_threshold(self.handle.get_mut(), stream, bytes) }, (), 0)
    }

    /// Resets a stream (RFC 6525 5.1.2).
    pub fn reset(&mut self, stream: u16) -> Result<()> {
        // SAFETY: as in `open`.
        done(unsafe { sys::sctpr_sender_reset(self.handle.get_mut(), stream) }, (), 0)
    }

    /// Takes a copy of a message. None where it has no bytes, and nothing changed.
    pub fn write(&mut self, stream: u16, payload_type: u32, message: &[u8]) -> Result<Option<Written>> {
        let mut w = Written::default();
        // SAFETY: as in `open`; pointer and length are those of a slice, and w is a value of this function.
        let code = unsafe {
            let handle = self.handle.get_mut();
            sys::sctpr_sender_write(handle, stream, payload_type, message.as_ptr(), message.len(), &mut w.number, &mut w.fragments)
        };
        option(code, w, 0)
    }

    /// Starts the lifetimes of the messages written since the last time.
    pub fn start(&mut self, now: u64) {
        // SAFETY: as in `open`.
        unsafe { sys::sctpr_sender_start(self.handle.get_mut(), now) }
    }

    /// Puts the fragment that is next in flight, and writes its DATA chunk. None where nothing waits.
    pub fn send_next(&mut self, now: u64, out: &mut [u8]) -> Result<Option<Sent>> {
        let mut s = Sent::default();
        // SAFETY: as in `open`; pointer and length are those of a slice that is borrowed exclusively, and s is a value of this function.
        let code = unsafe {
            let handle = self.handle.get_mut();
            sys::sctpr_sender_send_next(handle, now, out.as_mut_ptr(), out.len(), &mut s.size, &mut s.tsn)
        };
        option(code, s, s.size)
    }

    /// Writes a chunk in flight again, and answers how many bytes that are.
    pub fn resend(&mut self, tsn: u32, now: u64, out: &mut [u8]) -> Result<usize> {
        let mut n = 0;
        // SAFETY: as in `send_next`.
        let code = unsafe { sys::sctpr_sender_resend(self.handle.get_mut(), tsn, now, out.as_mut_ptr(), out.len(), &mut n) };
        done(code, n, n)
    }

    /// Marks each outstanding chunk for retransmission.
    pub fn retransmit_all(&mut self) {
        // SAFETY: as in `open`.
        unsafe { sys::sctpr_sender_retransmit_all(self.handle.get_mut()) }
    }

    /// Counts each outstanding chunk before a TSN as missing once more, marks what is missing for the third time, and answers how many are
    /// marked now.
    pub fn add_miss_indications(&mut self, before: u32) -> usize {
        // SAFETY: as in `open`.
        unsafe { sys::sctpr_sender_add_miss_indications(self.handle.get_mut(), before) }
    }

    /// The chunk in flight with a TSN.
    pub fn in_flight(&self, tsn: u32) -> Option<InFlight> {
        let mut row = sys::sctpr_in_flight::default();
        // SAFETY: the sender is not shared between threads, so its handle is used by this call alone; row is a value of this function.
        let code = unsafe { sys::sctpr_sender_in_flight(self.handle.get(), tsn, &mut row) };
        (code == sys::SCTPR_OK).then(|| InFlight::from(&row))
    }

    /// The chunk in flight at a place, from 0 on.
    pub fn in_flight_at(&self, place: usize) -> Option<InFlight> {
        let mut row = sys::sctpr_in_flight::default();
        // SAFETY: as in `in_flight`.
        let code = unsafe { sys::sctpr_sender_in_flight_at(self.handle.get(), place, &mut row) };
        (code == sys::SCTPR_OK).then(|| InFlight::from(&row))
    }

    /// The chunks in flight, in the order of their TSNs.
    pub fn in_flight_chunks(&self) -> InFlightChunks<'_> {
        InFlightChunks { sender: self, place: 0 }
    }

    /// The first chunk that is marked for retransmission.
    pub fn next_to_retransmit(&self) -> Option<InFlight> {
        let mut row = sys::sctpr_in_flight::default();
        // SAFETY: as in `in_flight`.
        let code = unsafe { sys::sctpr_sender_next_to_retransmit(self.handle.get(), &mut row) };
        (code == sys::SCTPR_OK).then(|| InFlight::from(&row))
    }

    /// Takes a SACK, and iterates over the chunks that it reports anew; none where it is out of date. There are to be as many rows as chunks
    /// in flight.
    pub fn acked<'r>(&mut self, chunk: &[u8], room: &'r mut [AckedRow]) -> Result<Option<impl Iterator<Item = Acked> + 'r>> {
        let mut n = 0;
        // SAFETY: as in `open`; pointers and lengths are those of slices, rows are borrowed exclusively, and n is a value of this function.
        let code = unsafe {
            let handle = self.handle.get_mut();
            sys::sctpr_sender_acked(handle, chunk.as_ptr(), chunk.len(), room.as_mut_ptr(), room.len(), &mut n)
        };
        new_rows(code, room, n)
    }

    /// Takes the TSN of a SHUTDOWN, as a SACK (RFC 4960 9.2).
    pub fn acked_up_to<'r>(&mut self, tsn: u32, room: &'r mut [AckedRow]) -> Result<Option<impl Iterator<Item = Acked> + 'r>> {
        let mut n = 0;
        // SAFETY: as in `acked`.
        let code = unsafe { sys::sctpr_sender_acked_up_to(self.handle.get_mut(), tsn, room.as_mut_ptr(), room.len(), &mut n) };
        new_rows(code, room, n)
    }

    /// Takes back what a SACK no longer reports, before `acked` with the same SACK; none where it is out of date. There are to be as many
    /// rows as chunks in flight.
    pub fn take_back<'r>(&mut self, chunk: &[u8], room: &'r mut [TakenBackRow]) -> Result<Option<impl Iterator<Item = TakenBack> + 'r>> {
        let mut n = 0;
        // SAFETY: as in `acked`.
        let code = unsafe {
            let handle = self.handle.get_mut();
            sys::sctpr_sender_take_back(handle, chunk.as_ptr(), chunk.len(), room.as_mut_ptr(), room.len(), &mut n)
        };
        new_rows(code, room, n)
    }

    /// Abandons the message of a chunk in flight.
    pub fn abandon(&mut self, tsn: u32) -> Result<Abandoned> {
        let mut row = AbandonedRow::default();
        // SAFETY: as in `open`; row is a value of this function.
        let code = unsafe { sys::sctpr_sender_abandon(self.handle.get_mut(), tsn, &mut row) };
        done(code, Abandoned::from(&row), 0)
    }

    /// Removes the message in front, where it is past its deadline and wholly unsent.
    pub fn expire(&mut self, now: u64) -> Option<Expired> {
        let mut r = sys::sctpr_expired::default();
        // SAFETY: as in `abandon`.
        let code = unsafe { sys::sctpr_sender_expire(self.handle.get_mut(), now, &mut r) };
        (code == sys::SCTPR_OK).then(|| Expired { bytes: r.bytes, stream: r.stream, is_low: r.is_low != 0 })
    }

    /// Abandons the rest of the partially sent message in front, where it is past its deadline.
    pub fn expire_tail(&mut self, now: u64) -> Result<Option<Abandoned>> {
        let mut row = AbandonedRow::default();
        // SAFETY: as in `abandon`.
        let code = unsafe { sys::sctpr_sender_expire_tail(self.handle.get_mut(), now, &mut row) };
        option(code, Abandoned::from(&row), 0)
    }

    /// Abandons each message in flight that is past its deadline. There are to be as many rows as chunks in flight, or none.
    pub fn expire_late<'r>(&mut self, now: u64, room: &'r mut [AbandonedRow]) -> Result<impl Iterator<Item = Abandoned> + 'r> {
        let mut n = 0;
        // SAFETY: as in `acked`.
        let code = unsafe { sys::sctpr_sender_expire_late(self.handle.get_mut(), now, room.as_mut_ptr(), room.len(), &mut n) };
        rows(code, room, n)
    }

    /// Abandons each message in flight that was sent again as often as it may be. There are to be as many rows as chunks in flight, or none.
    pub fn expire_rexmit<'r>(&mut self, room: &'r mut [AbandonedRow]) -> Result<impl Iterator<Item = Abandoned> + 'r> {
        let mut n = 0;
        // SAFETY: as in `acked`.
        let code = unsafe { sys::sctpr_sender_expire_rexmit(self.handle.get_mut(), room.as_mut_ptr(), room.len(), &mut n) };
        rows(code, room, n)
    }

    /// Writes the FORWARD-TSN that is to be sent, and answers how many bytes it has. None where there is nothing to tell.
    pub fn write_forward_tsn(&mut self, out: &mut [u8]) -> Result<Option<usize>> {
        let mut n = 0;
        // SAFETY: as in `send_next`.
        let code = unsafe { sys::sctpr_sender_forward_tsn(self.handle.get_mut(), out.as_mut_ptr(), out.len(), &mut n) };
        option(code, n, n)
    }

    /// Writes the FORWARD-TSN up to a TSN, or to the last TSN before it at which a message ends.
    pub fn write_forward_tsn_to(&mut self, tsn: u32, out: &mut [u8]) -> Result<Option<usize>> {
        let mut n = 0;
        // SAFETY: as in `send_next`.
        let code = unsafe { sys::sctpr_sender_forward_tsn_to(self.handle.get_mut(), tsn, out.as_mut_ptr(), out.len(), &mut n) };
        option(code, n, n)
    }

    /// The TSN that the next chunk gets.
    pub fn next_tsn(&self) -> u32 {
        // SAFETY: the handle was made by `new`; the sender is not shared between threads, so it is used by this call alone.
        unsafe { sys::sctpr_sender_next_tsn(self.handle.get()) }
    }

    /// The TSN up to which all was acknowledged.
    pub fn acked_tsn(&self) -> u32 {
        // SAFETY: as in `next_tsn`.
        unsafe { sys::sctpr_sender_acked_tsn(self.handle.get()) }
    }

    /// The Advanced.Peer.Ack.Point (RFC 3758 3.5 C2).
    pub fn advanced_ack_point(&self) -> u32 {
        // SAFETY: as in `next_tsn`.
        unsafe { sys::sctpr_sender_advanced_ack_point(self.handle.get()) }
    }

    /// How many bytes of user data are in flight.
    pub fn bytes_in_flight(&self) -> usize {
        // SAFETY: as in `next_tsn`.
        unsafe { sys::sctpr_sender_bytes_in_flight(self.handle.get()) }
    }

    /// What is outstanding: in flight, and neither acknowledged nor abandoned.
    pub fn outstanding(&self) -> Outstanding {
        let mut row = sys::sctpr_outstanding::default();
        // SAFETY: as in `in_flight`.
        unsafe { sys::sctpr_sender_outstanding(self.handle.get(), &mut row) };
        Outstanding { bytes: row.bytes, chunks: row.chunks, marked: row.marked }
    }

    /// How many chunks are in flight.
    pub fn chunks_in_flight(&self) -> usize {
        // SAFETY: as in `next_tsn`.
        unsafe { sys::sctpr_sender_chunks_in_flight(self.handle.get()) }
    }

    /// The first TSN in flight that is neither acknowledged nor abandoned.
    pub fn earliest_outstanding(&self) -> Option<u32> {
        let mut tsn = 0;
        // SAFETY: as in `next_tsn`; tsn is a value of this function.
        let code = unsafe { sys::sctpr_sender_earliest_outstanding(self.handle.get(), &mut tsn) };
        (code == sys::SCTPR_OK).then_some(tsn)
    }

    /// The next moment at which a lifetime ends, if one runs.
    pub fn next_timeout(&self) -> Option<u64> {
        let mut at = 0;
        // SAFETY: as in `next_tsn`; at is a value of this function.
        let code = unsafe { sys::sctpr_sender_next_timeout(self.handle.get(), &mut at) };
        (code == sys::SCTPR_OK).then_some(at)
    }

    /// How many fragments wait.
    pub fn pending(&self) -> usize {
        // SAFETY: as in `next_tsn`.
        unsafe { sys::sctpr_sender_pending(self.handle.get()) }
    }

    /// How many bytes of user data of a stream wait or are in flight.
    pub fn buffered_amount(&self, stream: u16) -> Result<usize> {
        let mut amount = 0;
        // SAFETY: as in `next_tsn`; amount is a value of this function.
        let code = unsafe { sys::sctpr_sender_buffered_amount(self.handle.get(), stream, &mut amount) };
        done(code, amount, 0)
    }

    /// Whether nothing of a stream waits or is in flight.
    pub fn is_drained(&self, stream: u16) -> bool {
        // SAFETY: as in `next_tsn`.
        unsafe { sys::sctpr_sender_is_drained(self.handle.get(), stream) != 0 }
    }
}

impl Drop for Sender {
    fn drop(&mut self) {
        // SAFETY: the handle was made by `new`, and is not used again.
        unsafe { sys::sctpr_sender_free(self.handle.get_mut()) }
    }
}

impl fmt::Debug for Sender {
    fn fmt(&self, f: &mut fmt::Formatter<'_>) -> fmt::Result {
        f.debug_struct("Sender")
            .field("next_tsn", &self.next_tsn())
            .field("acked_tsn", &self.acked_tsn())
            .field("bytes_in_flight", &self.bytes_in_flight())
            .field("pending", &self.pending())
            .finish()
    }
}

/// The chunks in flight of a sender.
#[derive(Clone, Debug)]
pub struct InFlightChunks<'a> {
    sender: &'a Sender,
    place: usize,
}

impl Iterator for InFlightChunks<'_> {
    type Item = InFlight;

    fn next(&mut self) -> Option<InFlight> {
        let chunk = self.sender.in_flight_at(self.place)?;
        self.place += 1;
        Some(chunk)
    }
}
