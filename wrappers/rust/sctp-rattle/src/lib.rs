//! SCTP's lower layer for WebRTC data channels (RFC 4960, RFC 3758, RFC 8831): packets, and the two halves of an association, over the
//! static library of `sctpr.h`.
//!
//! [`Packet::read`] reads a datagram, the functions `read_..` one of its chunks; a packet is written into the caller's buffer from byte 12
//! on by the functions `write_..` and the calls of the halves, and at last [`seal_packet`]. A [`Receiver`] takes what comes, a [`Sender`]
//! what is to be sent. There is no clock, socket, thread or random source. What each call promises, and when it refuses, is said in
//! `sctpr.h`; what it was to change is as it was then.
//!
//! It needs no `std`: the feature `std` makes [`Error`] a `std::error::Error`, `alloc` adds calls that answer a `Vec`.
#![no_std]
#![warn(missing_docs)]

#[cfg(feature = "alloc")]
extern crate alloc;
#[cfg(feature = "std")]
extern crate std;

mod error;
mod packet;
mod receiver;
mod sender;

pub use error::Error;
pub use packet::{
    read_add_streams, read_data, read_forward_tsn, read_incoming_reset, read_init, read_request, read_reset, read_response, read_sack,
    read_shutdown, seal_packet, store_sum, write_add_streams, write_cause, write_chunk, write_chunk_with_flags, write_head,
    write_incoming_reset, write_init, write_param, write_reset, write_response, write_ssn_tsn_reset, AddStreams, AnyChunk, AnyChunkRow,
    AnyPacket, Cause, Causes, Chunk, ChunkRow, Chunks, Data, ForwardTsn, Gap, Head, Init, Packet, Param, Params, Reset, Response, Sack,
    Skip,
};
pub use receiver::{Arrival, MessageInfo, Receiver};
#[cfg(feature = "alloc")]
pub use receiver::{Message, Messages};
pub use sctp_rattle_sys as sys;
pub use sender::{
    Abandoned, AbandonedRow, Acked, AckedRow, Expired, InFlight, InFlightChunks, Mode, Outstanding, Sender, Sent, TakenBack, TakenBackRow,
    Written,
};

/// What a call answers.
pub type Result<T> = core::result::Result<T, Error>;

/// Chunk types (RFC 4960 3.2, RFC 6525 3, RFC 3758 3.2).
pub mod chunk_type {
    use crate::sys;
    /// RFC 4960 3.3.1.
    pub const DATA: u8 = sys::SCTPR_DATA as u8;
    /// RFC 4960 3.3.2.
    pub const INIT: u8 = sys::SCTPR_INIT as u8;
    /// RFC 4960 3.3.3.
    pub const INIT_ACK: u8 = sys::SCTPR_INIT_ACK as u8;
    /// RFC 4960 3.3.4.
    pub const SACK: u8 = sys::SCTPR_SACK as u8;
    /// RFC 4960 3.3.5.
    pub const HEARTBEAT: u8 = sys::SCTPR_HEARTBEAT as u8;
    /// RFC 4960 3.3.6.
    pub const HEARTBEAT_ACK: u8 = sys::SCTPR_HEARTBEAT_ACK as u8;
    /// RFC 4960 3.3.7.
    pub const ABORT: u8 = sys::SCTPR_ABORT as u8;
    /// RFC 4960 3.3.8.
    pub const SHUTDOWN: u8 = sys::SCTPR_SHUTDOWN as u8;
    /// RFC 4960 3.3.9.
    pub const SHUTDOWN_ACK: u8 = sys::SCTPR_SHUTDOWN_ACK as u8;
    /// RFC 4960 3.3.10.
    pub const ERROR: u8 = sys::SCTPR_ERROR as u8;
    /// RFC 4960 3.3.11.
    pub const COOKIE_ECHO: u8 = sys::SCTPR_COOKIE_ECHO as u8;
    /// RFC 4960 3.3.12.
    pub const COOKIE_ACK: u8 = sys::SCTPR_COOKIE_ACK as u8;
    /// RFC 4960 3.3.13.
    pub const SHUTDOWN_COMPLETE: u8 = sys::SCTPR_SHUTDOWN_COMPLETE as u8;
    /// RFC 6525 3.1.
    pub const RECONFIG: u8 = sys::SCTPR_RECONFIG as u8;
    /// RFC 3758 3.2.
    pub const FORWARD_TSN: u8 = sys::SCTPR_FORWARD_TSN as u8;
}

/// The flag T of an ABORT or SHUTDOWN-COMPLETE (RFC 4960 3.3.7, 3.3.13, 8.5.1).
pub const FLAG_T: u8 = sys::SCTPR_FLAG_T as u8;

/// What user data are (RFC 8831 8). Any number is read as it came, and a [`Sender`] sends the number that it was given (RFC 9260 3.3.1).
pub mod ppid {
    use crate::sys;
    /// A message of RFC 8832.
    pub const DCEP: u32 = sys::SCTPR_PPID_DCEP;
    /// Text in UTF-8.
    pub const STRING: u32 = sys::SCTPR_PPID_STRING;
    /// Bytes.
    pub const BINARY: u32 = sys::SCTPR_PPID_BINARY;
    /// Empty text, for which one byte is sent.
    pub const STRING_EMPTY: u32 = sys::SCTPR_PPID_STRING_EMPTY;
    /// No bytes, for which one byte is sent.
    pub const BINARY_EMPTY: u32 = sys::SCTPR_PPID_BINARY_EMPTY;
    /// Any other.
    pub const OTHER: u32 = sys::SCTPR_PPID_OTHER;
}

/// The version of the library that was linked: major, minor and patch.
pub fn version() -> (u8, u8, u8) {
    // SAFETY: the call takes nothing and reads nothing.
    let [_, major, minor, patch] = unsafe { sys::sctpr_version() }.to_be_bytes();
    (major, minor, patch)
}

/// A value where a call was done, with what a buffer that was too short should have had.
fn done<T>(code: sys::sctpr_code, value: T, wanted: usize) -> Result<T> {
    if code < sys::SCTPR_NO_MEMORY {
        Ok(value)
    } else {
        Err(Error::of_code(code, wanted))
    }
}

/// A value with SCTPR_OK, none where the call was done and there is nothing.
fn option<T>(code: sys::sctpr_code, value: T, wanted: usize) -> Result<Option<T>> {
    done(code, if code == sys::SCTPR_OK { Some(value) } else { None }, wanted)
}
