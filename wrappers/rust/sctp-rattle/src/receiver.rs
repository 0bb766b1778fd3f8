//! The receiving half.

use crate::{done, option, sys, Result};
use core::cell::UnsafeCell;
use core::fmt;

/// The receiving half of an association: what came and was not read (RFC 4960 6.2, 6.5, 6.6, 6.9).
pub struct Receiver {
    handle: UnsafeCell<sys::sctpr_receiver>,
}

// SAFETY: the library has no global state, so that a receiver may go to another thread; the cell keeps it from being shared between two.
unsafe impl Send for Receiver {}

/// What became of a DATA chunk that was taken.
#[derive(Clone, Copy, Debug, PartialEq, Eq)]
pub enum Arrival {
    /// Its TSN came before.
    Repeat,
    /// Its TSN is new.
    Added,
    /// Its TSN is new, and a message of its stream became complete with it.
    Completed,
}

/// How long a message is, and what it is.
#[derive(Clone, Copy, Debug, Default, PartialEq, Eq)]
pub struct MessageInfo {
    /// Its bytes.
    pub size: usize,
    /// See [`crate::ppid`].
    pub payload_type: u32,
}

/// A message that was read.
#[cfg(feature = "alloc")]
#[derive(Clone, Debug, PartialEq, Eq)]
pub struct Message {
    /// Its bytes.
    pub bytes: alloc::vec::Vec<u8>,
    /// See [`crate::ppid`].
    pub payload_type: u32,
}

/// What a chunk counts beside its user data.
const OVERHEAD: u64 = 400;

impl Receiver {
    /// The least window in which a message of so many bytes fits, in chunks of `fragment` bytes of user data each: in a smaller one a message
    /// may never fit. A `fragment` of 0 counts as 1.
    pub const fn least_window(max_message_size: u32, fragment: u32) -> usize {
        let (size, each) = (max_message_size as u64, if fragment == 0 { 1 } else { fragment as u64 });
        let bytes = size + OVERHEAD * ((size + each - 1) / each);
        if bytes > usize::MAX as u64 {
            usize::MAX
        } else {
            bytes as usize
        }
    }

    /// A receiver with no stream, to which nothing came: `first_tsn` is expected next, a message may have `max_message_size` bytes. About
    /// `window` bytes are held at most, and no TSN farther than `reach` past the cumulative one.
    pub fn new(first_tsn: u32, max_message_size: u32, window: usize, reach: u32) -> Result<Receiver> {
        let mut handle = sys::sctpr_receiver { at: core::ptr::null_mut() };
        // SAFETY: handle is a value of this function.
        let code = unsafe { sys::sctpr_receiver_new(first_tsn, max_message_size, window, reach, &mut handle) };
        done(code, (), 0)?;
        Ok(Receiver { handle: UnsafeCell::new(handle) })
    }

    /// The same with no limits: for a peer that is trusted, or a replay.
    pub fn new_unlimited(first_tsn: u32, max_message_size: u32) -> Result<Receiver> {
        let mut handle = sys::sctpr_receiver { at: core::ptr::null_mut() };
        // SAFETY: handle is a value of this function.
        let code = unsafe { sys::sctpr_receiver_new_unlimited(first_tsn, max_message_size, &mut handle) };
        done(code, (), 0)?;
        Ok(Receiver { handle: UnsafeCell::new(handle) })
    }

    /// Opens a stream.
    pub fn open(&mut self, stream: u16) -> Result<()> {
        // SAFETY: the handle was made by `new`, and is used by this call alone.
        done(unsafe { sys::sctpr_receiver_open(self.handle.get_mut(), stream) }, (), 0)
    }

    /// Closes a stream, where it is open: what came on it and was not read is dropped.
    pub fn close(&mut self, stream: u16) {
        // SAFETY: as in `open`.
        unsafe { sys::sctpr_receiver_close(self.handle.get_mut(), stream) }
    }

    /// The peer resets a stream (RFC 6525 5.2.2).
    pub fn reset(&mut self, stream: u16, last_tsn: u32) -> Result<()> {
        // SAFETY: as in `open`.
        done(unsafe { sys::sctpr_receiver_reset(self.handle.get_mut(), stream, last_tsn) }, (), 0)
    }

    /// Takes a DATA chunk.
    pub fn data(&mut self, chunk: &[u8]) -> Result<Arrival> {
        let mut complete = 0;
        // SAFETY: as in `open`; pointer and length are those of a slice, and complete is a value of this function.
        let code = unsafe { sys::sctpr_receiver_data(self.handle.get_mut(), chunk.as_ptr(), chunk.len(), &mut complete) };
        let arrival = match (code, complete) {
            (sys::SCTPR_REPEAT, _) => Arrival::Repeat,
            (_, 0) => Arrival::Added,
            _ => Arrival::Completed,
        };
        done(code, arrival, 0)
    }

    /// Takes the TSN of a DATA chunk that is dropped: it counts as come (RFC 4960 6.5).
    pub fn discard(&mut self, tsn: u32) -> Result<Arrival> {
        // SAFETY: as in `open`.
        let code = unsafe { sys::sctpr_receiver_discard(self.handle.get_mut(), tsn) };
        done(code, if code == sys::SCTPR_REPEAT { Arrival::Repeat } else { Arrival::Added }, 0)
    }

    /// Takes a FORWARD-TSN, and answers whether it was past the cumulative TSN, and was followed.
    pub fn forward_tsn(&mut self, chunk: &[u8]) -> Result<bool> {
        // SAFETY: as in `open`; pointer and length are those of a slice.
        let code = unsafe { sys::sctpr_receiver_forward_tsn(self.handle.get_mut(), chunk.as_ptr(), chunk.len()) };
        done(code, code == sys::SCTPR_OK, 0)
    }

    /// The same, but what it names on a stream that is not open is passed over.
    pub fn forward_tsn_past_closed(&mut self, chunk: &[u8]) -> Result<bool> {
        // SAFETY: as in `forward_tsn`.
        let code = unsafe { sys::sctpr_receiver_forward_tsn_past_closed(self.handle.get_mut(), chunk.as_ptr(), chunk.len()) };
        done(code, code == sys::SCTPR_OK, 0)
    }

    /// The next message of a stream, if there is one; nothing is taken out.
    pub fn next(&self, stream: u16) -> Result<Option<MessageInfo>> {
        let mut m = MessageInfo::default();
        // SAFETY: as in `open`; m is a value of this function.
        let code = unsafe { sys::sctpr_receiver_next_length(self.handle.get(), stream, &mut m.size, &mut m.payload_type) };
        option(code, m, 0)
    }

    /// Takes the next message of a stream out, to the front of a buffer.
    pub fn read_into(&mut self, stream: u16, out: &mut [u8]) -> Result<Option<MessageInfo>> {
        let mut m = MessageInfo::default();
        // SAFETY: as in `open`; pointer and length are those of a slice that is borrowed exclusively, and m is a value of this function.
        let code = unsafe {
            let handle = self.handle.get_mut();
            sys::sctpr_receiver_read(handle, stream, out.as_mut_ptr(), out.len(), &mut m.size, &mut m.payload_type)
        };
        option(code, m, m.size)
    }

    /// Takes the next message of a stream out.
    #[cfg(feature = "alloc")]
    pub fn read(&mut self, stream: u16) -> Result<Option<Message>> {
        let info = match self.next(stream)? {
            Some(info) => info,
            None => return Ok(None),
        };
        let mut bytes = alloc::vec::Vec::new();
        bytes.try_reserve_exact(info.size).map_err(|_| crate::Error::NoMemory)?;
        bytes.resize(info.size, 0);
        let read = self.read_into(stream, &mut bytes)?;
        Ok(read.map(|_| Message { bytes, payload_type: info.payload_type }))
    }

    /// Takes the messages of a stream out, one after the other. An error is the last item.
    #[cfg(feature = "alloc")]
    pub fn messages(&mut self, stream: u16) -> Messages<'_> {
        Messages { receiver: Some(self), stream }
    }

    /// The streams with a message to read, in the order in which they were opened; where one was closed, the last one stands in its place.
    /// They are the front of `rows`.
    pub fn readable_streams<'r>(&self, rows: &'r mut [u16]) -> Result<&'r [u16]> {
        let mut n = 0;
        // SAFETY: as in `open`; pointer and length are those of a slice that is borrowed exclusively, and n is a value of this function.
        let code = unsafe { sys::sctpr_receiver_readable_streams(self.handle.get(), rows.as_mut_ptr(), rows.len(), &mut n) };
        done(code, (), n)?;
        Ok(&rows[..rows.len().min(n)])
    }

    /// Writes the SACK of what came, as much of it as there is room for, and answers how many bytes it has.
    pub fn write_sack(&mut self, out: &mut [u8]) -> Result<usize> {
        let mut n = 0;
        // SAFETY: as in `readable_streams`.
        let code = unsafe { sys::sctpr_receiver_sack(self.handle.get_mut(), out.as_mut_ptr(), out.len(), &mut n) };
        done(code, n, 16)
    }

    /// The TSN up to which all came, or was skipped.
    pub fn cumulative_tsn(&self) -> u32 {
        // SAFETY: the handle was made by `new`; the receiver is not shared between threads, so it is used by this call alone.
        unsafe { sys::sctpr_receiver_cumulative_tsn(self.handle.get()) }
    }

    /// The window to advertise, in bytes.
    pub fn window(&self) -> u32 {
        // SAFETY: as in `cumulative_tsn`.
        unsafe { sys::sctpr_receiver_window(self.handle.get()) }
    }

    /// The credit within which none of a peer's chunks is refused as the window is full, where each has `fragment` bytes of user data or more;
    /// a `fragment` of 0 counts as 1. A SACK tells [`Receiver::window`]: a caller whose peer sends short messages puts this into the bytes 8
    /// to 11 of each SACK, and tells it in its INIT (RFC 9260 3.3.4).
    pub fn credit(&self, fragment: u32) -> u32 {
        let each = u64::from(fragment.max(1));
        (u64::from(self.window()) / (each + OVERHEAD) * each) as u32
    }

    /// What is held and was not read: its bytes, and 400 for each chunk.
    pub fn held_bytes(&self) -> usize {
        // SAFETY: as in `cumulative_tsn`.
        unsafe { sys::sctpr_receiver_held_bytes(self.handle.get()) }
    }
}

impl Drop for Receiver {
    fn drop(&mut self) {
        // SAFETY: the handle was made by `new`, and is not used again.
        unsafe { sys::sctpr_receiver_free(self.handle.get_mut()) }
    }
}

impl fmt::Debug for Receiver {
    fn fmt(&self, f: &mut fmt::Formatter<'_>) -> fmt::Result {
        f.debug_struct("Receiver")
            .field("cumulative_tsn", &self.cumulative_tsn())
            .field("window", &self.window())
            .field("held_bytes", &self.held_bytes())
            .finish()
    }
}

/// The messages of a stream, taken out.
#[cfg(feature = "alloc")]
#[derive(Debug)]
pub struct Messages<'a> {
    receiver: Option<&'a mut Receiver>,
    stream: u16,
}

#[cfg(feature = "alloc")]
impl Iterator for Messages<'_> {
    type Item = Result<Message>;

    fn next(&mut self) -> Option<Result<Message>> {
        let message = self.receiver.as_mut()?.read(self.stream).transpose();
        if !matches!(message, Some(Ok(_))) {
            self.receiver = None;
        }
        message
    }
}
