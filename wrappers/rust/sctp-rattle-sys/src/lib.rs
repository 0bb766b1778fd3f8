//! The calls of `sctpr.h` as they are: SCTP's lower layer for WebRTC data channels. The crate `sctp-rattle` wraps them.
//!
//! Written by tools/c_bindings.py from include/sctpr.h.
#![no_std]
#![allow(non_camel_case_types)]

use core::ffi::c_void;

pub type sctpr_code = u32;

/// Done.
pub const SCTPR_OK: sctpr_code = 0;
/// Done: a DATA chunk's TSN came before.
pub const SCTPR_REPEAT: sctpr_code = 1;
/// Done, and nothing changed: a FORWARD-TSN is not past what came, or a SACK is before what was acknowledged.
pub const SCTPR_STALE: sctpr_code = 2;
/// Done: there is nothing to send, to read or to tell.
pub const SCTPR_NOTHING: sctpr_code = 3;
/// Memory ran out.
pub const SCTPR_NO_MEMORY: sctpr_code = 16;
/// The buffer is too short: the length that is wanted was told.
pub const SCTPR_SHORT_BUFFER: sctpr_code = 17;
/// An argument is out of its range, or NULL, or an empty handle.
pub const SCTPR_INVALID: sctpr_code = 18;
/// A chunk or a parameter would be longer than 65,535 bytes with its header (RFC 4960 3.2, 3.2.1).
pub const SCTPR_LENGTH_TOO_LARGE: sctpr_code = 19;
/// The checksum of the packet is another one (RFC 4960 6.8).
pub const SCTPR_BAD_CHECKSUM: sctpr_code = 20;
/// A chunk is of a type that is not read.
pub const SCTPR_UNKNOWN_CHUNK: sctpr_code = 21;
/// The stream is open.
pub const SCTPR_STREAM_OPEN: sctpr_code = 22;
/// The stream is not open.
pub const SCTPR_STREAM_UNKNOWN: sctpr_code = 23;
/// The message is, or would be, longer than a message may be.
pub const SCTPR_MESSAGE_TOO_LARGE: sctpr_code = 24;
/// No further message can wait.
pub const SCTPR_QUEUE_FULL: sctpr_code = 25;
/// No further TSN can be given out before some are acknowledged.
pub const SCTPR_TSNS_USED_UP: sctpr_code = 26;
/// The TSN is not in flight, or its chunk is acknowledged or abandoned.
pub const SCTPR_NOT_IN_FLIGHT: sctpr_code = 27;
/// A SACK reports a TSN that was not given out.
pub const SCTPR_SACK_BEYOND_SENT: sctpr_code = 28;
/// A gap ack block of a SACK reports a TSN that is not in flight.
pub const SCTPR_SACK_BAD_GAP: sctpr_code = 29;
/// The TSN lies half the circle from the cumulative one (RFC 1982 3.2).
pub const SCTPR_TSN_OPPOSITE: sctpr_code = 30;
/// Something of the stream waits or is in flight.
pub const SCTPR_STREAM_BUSY: sctpr_code = 31;
/// The next ordered message of the stream can't be begun before chunks of it are acknowledged.
pub const SCTPR_SSNS_USED_UP: sctpr_code = 32;
/// The TSN lies farther past the cumulative one than the limits allow.
pub const SCTPR_TSN_TOO_FAR: sctpr_code = 34;
/// Nothing is left of the window (RFC 4960 6.2).
pub const SCTPR_WINDOW_FULL: sctpr_code = 35;
/// The stream sequence number can't be told from one that was read (RFC 1982 3.2).
pub const SCTPR_SSN_TOO_FAR: sctpr_code = 36;
/// A FORWARD-TSN names a stream that is not open (RFC 3758 3.6).
pub const SCTPR_NAMED_STREAM_UNKNOWN: sctpr_code = 37;
/// A FORWARD-TSN names a stream sequence number that can't be told from one that was read.
pub const SCTPR_NAMED_SSN_TOO_FAR: sctpr_code = 38;
/// The stream can't be reset yet (RFC 6525 4.4).
pub const SCTPR_RESET_IN_PROGRESS: sctpr_code = 39;
/// A packet has under 12 bytes, which its header takes (RFC 4960 3.1).
pub const SCTPR_ERR_PACKET_RAW_TOO_SMALL: sctpr_code = 40;
/// In the walk over a packet's chunks one to three bytes are left, or fewer than a chunk takes with its padding (RFC 4960 3.2).
pub const SCTPR_ERR_PARSE_SCTP_CHUNK_NOT_ENOUGH_DATA: sctpr_code = 41;
/// Not answered by a call of this library: the source port is 0 (RFC 4960 3.1).
pub const SCTPR_ERR_SCTP_PACKET_SOURCE_PORT_ZERO: sctpr_code = 42;
/// Not answered by a call of this library: the destination port is 0 (RFC 4960 3.1).
pub const SCTPR_ERR_SCTP_PACKET_DESTINATION_PORT_ZERO: sctpr_code = 43;
/// Not answered by a call of this library: an INIT shares its packet with other chunks (RFC 4960 6.10). An INIT-ACK or a SHUTDOWN-COMPLETE that does passes, though RFC 4960 6.10 forbids it too.
pub const SCTPR_ERR_INIT_CHUNK_BUNDLED: sctpr_code = 44;
/// Not answered by a call of this library: a packet with an INIT has a verification tag other than 0 (RFC 4960 8.5.1).
pub const SCTPR_ERR_INIT_CHUNK_VERIFY_TAG_NOT_ZERO: sctpr_code = 45;
/// From the chunk on there are under four bytes, which its header takes (RFC 4960 3.2).
pub const SCTPR_ERR_CHUNK_HEADER_TOO_SMALL: sctpr_code = 46;
/// A chunk's length is under four: it counts the header (RFC 4960 3.2).
pub const SCTPR_ERR_CHUNK_HEADER_INVALID_LENGTH: sctpr_code = 47;
/// A chunk's length passes the bytes that are there (RFC 4960 3.2).
pub const SCTPR_ERR_CHUNK_HEADER_NOT_ENOUGH_SPACE: sctpr_code = 48;
/// After a chunk's length come one to three bytes, and one of them is not zero (RFC 4960 3.2). Where four or more follow, padding is not looked at. sctpr_read_any_packet and the readers of DATA, of a SACK and of an INIT ignore padding, and do not answer this.
pub const SCTPR_ERR_CHUNK_HEADER_PADDING_NON_ZERO: sctpr_code = 49;
/// Read as an ABORT: the type is not 6 (RFC 4960 3.3.7).
pub const SCTPR_ERR_CHUNK_TYPE_NOT_ABORT: sctpr_code = 50;
/// Read as a COOKIE-ACK: the type is not 11 (RFC 4960 3.3.12).
pub const SCTPR_ERR_CHUNK_TYPE_NOT_COOKIE_ACK: sctpr_code = 51;
/// Read as a COOKIE-ECHO: the type is not 10 (RFC 4960 3.3.11).
pub const SCTPR_ERR_CHUNK_TYPE_NOT_COOKIE_ECHO: sctpr_code = 52;
/// Read as an ERROR: the type is not 9 (RFC 4960 3.3.10).
pub const SCTPR_ERR_CHUNK_TYPE_NOT_CT: sctpr_code = 53;
/// Read as a FORWARD-TSN: the type is not 192 (RFC 3758 3.2).
pub const SCTPR_ERR_CHUNK_TYPE_NOT_FORWARD_TSN: sctpr_code = 54;
/// Read as a HEARTBEAT: the type is not 4 (RFC 4960 3.3.5).
pub const SCTPR_ERR_CHUNK_TYPE_NOT_HEARTBEAT: sctpr_code = 55;
/// Read as a HEARTBEAT-ACK: the type is not 5 (RFC 4960 3.3.6).
pub const SCTPR_ERR_CHUNK_TYPE_NOT_HEARTBEAT_ACK: sctpr_code = 56;
/// Read as an INIT or INIT-ACK: the type is neither 1 nor 2 (RFC 4960 3.3.2, 3.3.3).
pub const SCTPR_ERR_CHUNK_TYPE_NOT_TYPE_INIT: sctpr_code = 57;
/// Read as DATA: the type is not 0 (RFC 4960 3.3.1).
pub const SCTPR_ERR_CHUNK_TYPE_NOT_PAYLOAD_DATA: sctpr_code = 58;
/// Read as a RECONFIG: the type is not 130 (RFC 6525 3.1).
pub const SCTPR_ERR_CHUNK_TYPE_NOT_RECONFIG: sctpr_code = 59;
/// Read as a SACK: the type is not 3 (RFC 4960 3.3.4).
pub const SCTPR_ERR_CHUNK_TYPE_NOT_SACK: sctpr_code = 60;
/// Read as a SHUTDOWN: the type is not 7 (RFC 4960 3.3.8).
pub const SCTPR_ERR_CHUNK_TYPE_NOT_SHUTDOWN: sctpr_code = 61;
/// Read as a SHUTDOWN-ACK: the type is not 8 (RFC 4960 3.3.9).
pub const SCTPR_ERR_CHUNK_TYPE_NOT_SHUTDOWN_ACK: sctpr_code = 62;
/// Read as a SHUTDOWN-COMPLETE: the type is not 14 (RFC 4960 3.3.13).
pub const SCTPR_ERR_CHUNK_TYPE_NOT_SHUTDOWN_COMPLETE: sctpr_code = 63;
/// The value of a FORWARD-TSN (RFC 3758 3.2), I-FORWARD-TSN (RFC 8260 2.3.1) or RECONFIG (RFC 6525 3.1) has under four bytes, or the pairs of a FORWARD-TSN are followed by one to three.
pub const SCTPR_ERR_CHUNK_TOO_SHORT: sctpr_code = 64;
/// A DATA chunk's value has under 12 bytes, which stand before the user data (RFC 4960 3.3.1).
pub const SCTPR_ERR_CHUNK_PAYLOAD_SMALL: sctpr_code = 65;
/// The value of an INIT or INIT-ACK has under 16 bytes (RFC 4960 3.3.2).
pub const SCTPR_ERR_CHUNK_VALUE_NOT_LONG_ENOUGH: sctpr_code = 66;
/// An INIT or INIT-ACK has flags other than 0. RFC 4960 3.3.2 has a receiver ignore them; here the chunk is refused.
pub const SCTPR_ERR_CHUNK_TYPE_INIT_FLAG_ZERO: sctpr_code = 67;
/// Not answered by a call of this library: the initiate tag is 0 (RFC 4960 3.3.2).
pub const SCTPR_ERR_CHUNK_TYPE_INIT_INITIATE_TAG_ZERO: sctpr_code = 68;
/// Not answered by a call of this library: the number of inbound streams is 0 (RFC 4960 3.3.2).
pub const SCTPR_ERR_INIT_INBOUND_STREAM_REQUEST_ZERO: sctpr_code = 69;
/// Not answered by a call of this library: the number of outbound streams is 0 (RFC 4960 3.3.2).
pub const SCTPR_ERR_INIT_OUTBOUND_STREAM_REQUEST_ZERO: sctpr_code = 70;
/// Not answered by a call of this library: the credit is under 1,500 bytes (RFC 4960 6).
pub const SCTPR_ERR_INIT_ADVERTISED_RECEIVER_1500: sctpr_code = 71;
/// The value of a HEARTBEAT or HEARTBEAT-ACK has under four bytes, which the header of its parameter takes (RFC 4960 3.3.5, 3.3.6).
pub const SCTPR_ERR_HEARTBEAT_NOT_LONG_ENOUGH_INFO: sctpr_code = 72;
/// The parameter of a HEARTBEAT or HEARTBEAT-ACK can be read, and its type is not 1 (RFC 4960 3.3.5).
pub const SCTPR_ERR_HEARTBEAT_PARAM: sctpr_code = 73;
/// A HEARTBEAT-ACK that is to be written has no parameter, or more than one (RFC 4960 3.3.6).
pub const SCTPR_ERR_HEARTBEAT_ACK_PARAMS: sctpr_code = 74;
/// The one parameter of a HEARTBEAT-ACK that is to be written is no Heartbeat Info (RFC 4960 3.3.6).
pub const SCTPR_ERR_HEARTBEAT_ACK_NOT_HEARTBEAT_INFO: sctpr_code = 75;
/// A RECONFIG that is to be written or is checked has no first parameter (RFC 6525 3.1).
pub const SCTPR_ERR_CHUNK_RECONFIG_INVALID_PARAM_A: sctpr_code = 76;
/// Not answered by a call of this library: its two parameters' types may not stand together (RFC 6525 3.1).
pub const SCTPR_ERR_CHUNK_RECONFIG_INVALID_PARAM_COMBINATION: sctpr_code = 77;
/// The value of a SACK has under 12 bytes, or fewer than 12 and four for each of the blocks and duplicates that it counts (RFC 4960 3.3.4).
pub const SCTPR_ERR_SACK_SIZE_NOT_LARGE_ENOUGH_INFO: sctpr_code = 78;
/// The value of a SHUTDOWN has not exactly four bytes (RFC 4960 3.3.8).
pub const SCTPR_ERR_INVALID_CHUNK_SIZE: sctpr_code = 79;
/// An error cause has under four bytes, a length under four, or a length past the bytes that are there (RFC 4960 3.3.10).
pub const SCTPR_ERR_ERROR_CAUSE_TOO_SMALL: sctpr_code = 80;
/// A parameter has under four bytes, a length under four, or a length past the bytes that are there (RFC 4960 3.2.1).
pub const SCTPR_ERR_PARAM_HEADER_TOO_SHORT: sctpr_code = 81;
/// A parameter of type typ is of no kind, and the type's highest bit is not set: reading is to stop (RFC 4960 3.2.1).
pub const SCTPR_ERR_PARAM_TYPE_UNHANDLED: sctpr_code = 82;
/// A parameter is of another type than the call reads (RFC 6525 4).
pub const SCTPR_ERR_PARAM_TYPE_UNEXPECTED: sctpr_code = 83;
/// The value of an Outgoing SSN Reset Request has under 12 bytes (RFC 6525 4.1), or that of a request has no number.
pub const SCTPR_ERR_SSN_RESET_REQUEST_PARAM_TOO_SHORT: sctpr_code = 84;
/// The value of an Outgoing SSN Reset Request has 12 bytes or more, an odd number of them (RFC 6525 4.1), or that of another request has another length than its type gives it (4.2, 4.3, 4.5, 4.6).
pub const SCTPR_ERR_SSN_RESET_REQUEST_PARAM_INVALID_LENGTH: sctpr_code = 85;
/// The value of a Re-configuration Response has under eight bytes (RFC 6525 4.4).
pub const SCTPR_ERR_RECONFIG_RESP_PARAM_TOO_SHORT: sctpr_code = 86;
/// A Requested HMAC Algorithm names another number than 1 or 3 (RFC 4895 3.3).
pub const SCTPR_ERR_INVALID_ALGORITHM_TYPE: sctpr_code = 87;
/// The value of a Supported Address Types has an odd number of bytes (RFC 4960 3.3.2.1).
pub const SCTPR_ERR_SUPPORTED_ADDRESS_TYPES_PARAM_INVALID_LENGTH: sctpr_code = 88;
/// Not answered by a call of this library: the message is longer than the buffer, which is filled with the message's beginning.
pub const SCTPR_ERR_SHORT_BUFFER: sctpr_code = 89;
/// It can't be written as it was given: a chunk whose value is read as another one.
pub const SCTPR_NOT_AS_GIVEN: sctpr_code = 90;
pub const SCTPR_DATA: u32 = 0;
pub const SCTPR_INIT: u32 = 1;
pub const SCTPR_INIT_ACK: u32 = 2;
pub const SCTPR_SACK: u32 = 3;
pub const SCTPR_HEARTBEAT: u32 = 4;
pub const SCTPR_HEARTBEAT_ACK: u32 = 5;
pub const SCTPR_ABORT: u32 = 6;
pub const SCTPR_SHUTDOWN: u32 = 7;
pub const SCTPR_SHUTDOWN_ACK: u32 = 8;
pub const SCTPR_ERROR: u32 = 9;
pub const SCTPR_COOKIE_ECHO: u32 = 10;
pub const SCTPR_COOKIE_ACK: u32 = 11;
pub const SCTPR_SHUTDOWN_COMPLETE: u32 = 14;
pub const SCTPR_RECONFIG: u32 = 130;
pub const SCTPR_FORWARD_TSN: u32 = 192;
pub const SCTPR_PARAM_HEARTBEAT_INFO: u32 = 1;
pub const SCTPR_PARAM_STATE_COOKIE: u32 = 7;
pub const SCTPR_PARAM_OUTGOING_RESET: u32 = 13;
pub const SCTPR_PARAM_INCOMING_RESET: u32 = 14;
pub const SCTPR_PARAM_SSN_TSN_RESET: u32 = 15;
pub const SCTPR_PARAM_RECONFIG_RESPONSE: u32 = 16;
pub const SCTPR_PARAM_ADD_OUTGOING_STREAMS: u32 = 17;
pub const SCTPR_PARAM_ADD_INCOMING_STREAMS: u32 = 18;
pub const SCTPR_PARAM_SUPPORTED_EXTENSIONS: u32 = 32776;
pub const SCTPR_PARAM_FORWARD_TSN_SUPPORTED: u32 = 49152;
pub const SCTPR_CAUSE_INVALID_STREAM_IDENTIFIER: u32 = 1;
pub const SCTPR_CAUSE_MISSING_MANDATORY_PARAMETER: u32 = 2;
pub const SCTPR_CAUSE_STALE_COOKIE: u32 = 3;
pub const SCTPR_CAUSE_OUT_OF_RESOURCE: u32 = 4;
pub const SCTPR_CAUSE_UNRESOLVABLE_ADDRESS: u32 = 5;
pub const SCTPR_CAUSE_UNRECOGNIZED_CHUNK_TYPE: u32 = 6;
pub const SCTPR_CAUSE_INVALID_MANDATORY_PARAMETER: u32 = 7;
pub const SCTPR_CAUSE_UNRECOGNIZED_PARAMETERS: u32 = 8;
pub const SCTPR_CAUSE_NO_USER_DATA: u32 = 9;
pub const SCTPR_CAUSE_COOKIE_RECEIVED_WHILE_SHUTTING_DOWN: u32 = 10;
pub const SCTPR_CAUSE_RESTART_WITH_NEW_ADDRESSES: u32 = 11;
pub const SCTPR_CAUSE_USER_INITIATED_ABORT: u32 = 12;
pub const SCTPR_CAUSE_PROTOCOL_VIOLATION: u32 = 13;
pub const SCTPR_FLAG_T: u32 = 1;
pub const SCTPR_PPID_DCEP: u32 = 50;
pub const SCTPR_PPID_STRING: u32 = 51;
pub const SCTPR_PPID_BINARY: u32 = 53;
pub const SCTPR_PPID_STRING_EMPTY: u32 = 56;
pub const SCTPR_PPID_BINARY_EMPTY: u32 = 57;
pub const SCTPR_PPID_OTHER: u32 = 58;
pub const SCTPR_RESULT_NOTHING_TO_DO: u32 = 0;
pub const SCTPR_RESULT_PERFORMED: u32 = 1;
pub const SCTPR_RESULT_DENIED: u32 = 2;
pub const SCTPR_RESULT_WRONG_SSN: u32 = 3;
pub const SCTPR_RESULT_REQUEST_IN_PROGRESS: u32 = 4;
pub const SCTPR_RESULT_BAD_SEQUENCE_NUMBER: u32 = 5;
pub const SCTPR_RESULT_IN_PROGRESS: u32 = 6;
pub const SCTPR_RELIABLE: u32 = 0;
pub const SCTPR_REXMIT: u32 = 1;
pub const SCTPR_TIMED: u32 = 2;
pub const SCTPR_NAME_ROOM: usize = 64;

/// A packet's header but for the checksum (RFC 4960 3.1). The tag is 0 with an INIT (8.5).
#[derive(Clone, Copy, Debug, Default, PartialEq, Eq)]
#[repr(C)]
pub struct sctpr_head {
    pub verification_tag: u32,
    pub source_port: u16,
    pub destination_port: u16,
}

/// Where a chunk lies in its packet: `length` bytes from `at` on, its header of four bytes with them and its padding not (3.2).
#[derive(Clone, Copy, Debug, Default, PartialEq, Eq)]
#[repr(C)]
pub struct sctpr_chunk {
    pub at: usize,
    pub length: usize,
    pub type_: u8,
    pub flags: u8,
}

/// A chunk of a packet with all that RFC 9260 allows. `is_known` is 1 where its type is one that sctpr_read_packet reads; else it is 0, and
/// `is_reported` is 1 where its sender is to be told of it: in an ERROR, by the cause SCTPR_CAUSE_UNRECOGNIZED_CHUNK_TYPE with the chunk as
/// its value (RFC 4960 3.2, 3.3.10.6).
#[derive(Clone, Copy, Debug, Default, PartialEq, Eq)]
#[repr(C)]
pub struct sctpr_any_chunk {
    pub at: usize,
    pub length: usize,
    pub type_: u8,
    pub flags: u8,
    pub is_known: u8,
    pub is_reported: u8,
}

/// A DATA chunk (RFC 4960 3.3.1); its user data are `length` bytes from byte 16 of the chunk on, its payload type is any number, as it came.
/// Flags are 0 or 1.
#[derive(Clone, Copy, Debug, Default, PartialEq, Eq)]
#[repr(C)]
pub struct sctpr_data {
    pub length: usize,
    pub tsn: u32,
    pub payload_type: u32,
    pub stream: u16,
    pub sequence: u16,
    pub is_unordered: u8,
    pub begins: u8,
    pub ends: u8,
    pub wants_sack: u8,
}

/// A SACK (RFC 4960 3.3.4), and how many gap ack blocks and duplicates it has. As many of them as there is room for are written.
#[derive(Clone, Copy, Debug, Default, PartialEq, Eq)]
#[repr(C)]
pub struct sctpr_sack {
    pub blocks: usize,
    pub duplicates: usize,
    pub cumulative_tsn: u32,
    pub credit: u32,
}

/// A run of TSNs that came: the distances of its first and its last from the cumulative one.
#[derive(Clone, Copy, Debug, Default, PartialEq, Eq)]
#[repr(C)]
pub struct sctpr_gap {
    pub start: u16,
    pub end: u16,
}

/// A FORWARD-TSN (RFC 3758 3.2). `count` becomes how many streams it names, and as many as there is room for are written.
#[derive(Clone, Copy, Debug, Default, PartialEq, Eq)]
#[repr(C)]
pub struct sctpr_skip {
    pub stream: u16,
    pub sequence: u16,
}

/// The numbers of an INIT, or where `is_ack` is not 0 of an INIT-ACK (RFC 9260 3.3.2, 3.3.3). Its flags are ignored. Its parameters begin at
/// byte 20 of the chunk, and are walked by sctpr_read_any_param. It takes no memory.
#[derive(Clone, Copy, Debug, Default, PartialEq, Eq)]
#[repr(C)]
pub struct sctpr_init {
    pub initiate_tag: u32,
    pub credit: u32,
    pub initial_tsn: u32,
    pub outbound_streams: u16,
    pub inbound_streams: u16,
    pub is_ack: u8,
}

/// The parameter that the bytes begin with (RFC 4960 3.2.1): its value is `length` bytes from byte 4 on, and the next one begins at byte
/// `next`, or there is none where that is all of the bytes. SCTPR_ERR_PARAM_TYPE_UNHANDLED of a type that is not read and stops reading.
#[derive(Clone, Copy, Debug, Default, PartialEq, Eq)]
#[repr(C)]
pub struct sctpr_param {
    pub length: usize,
    pub next: usize,
    pub type_: u16,
}

/// An Outgoing SSN Reset Request: its number, the number of the request that it answers, and the last TSN that its sender gave out (4.1).
/// `count` becomes how many streams it names, 0 where it means all, and as many as there is room for are written.
#[derive(Clone, Copy, Debug, Default, PartialEq, Eq)]
#[repr(C)]
pub struct sctpr_reset {
    pub request: u32,
    pub response: u32,
    pub last_tsn: u32,
}

/// An Add Outgoing Streams Request, or where `is_incoming` is not 0 an Add Incoming Streams Request: its number, and how many new streams
/// its sender wants to send on, or to receive on (4.5, 4.6).
#[derive(Clone, Copy, Debug, Default, PartialEq, Eq)]
#[repr(C)]
pub struct sctpr_add_streams {
    pub request: u32,
    pub count: u16,
    pub is_incoming: u8,
}

#[derive(Clone, Copy, Debug, Default, PartialEq, Eq)]
#[repr(C)]
pub struct sctpr_response {
    pub response: u32,
    pub result: u32,
}

/// The error cause that the bytes begin with, as those from byte 4 of an ABORT or ERROR on do (RFC 4960 3.3.10): its value is `length` bytes
/// from byte 4 on, and the next one begins at byte `next`, or there is none where that is all of the bytes.
/// SCTPR_ERR_ERROR_CAUSE_TOO_SMALL, where they begin with none. It takes no memory.
#[derive(Clone, Copy, Debug, Default, PartialEq, Eq)]
#[repr(C)]
pub struct sctpr_cause {
    pub length: usize,
    pub next: usize,
    pub code: u16,
}

/// The receiving half of an association: what came and was not read (RFC 4960 6.2, 6.5, 6.6, 6.9). A handle is made by one of the two
/// sctpr_receiver_new.. calls, goes to the other calls by its address, and is given back by sctpr_receiver_free. Nothing else writes it.
#[derive(Debug)]
#[repr(C)]
pub struct sctpr_receiver {
    pub at: *mut c_void,
}

/// The sending half of an association: what was written and is not yet acknowledged (RFC 4960 6.1, 6.2.1, 6.9; RFC 3758). `now` is in
/// nanoseconds from any one moment. A handle is made by sctpr_sender_new, goes to the other calls by its address, and is given back by
/// sctpr_sender_free. Nothing else writes it.
#[derive(Debug)]
#[repr(C)]
pub struct sctpr_sender {
    pub at: *mut c_void,
}

/// A chunk in flight. `size` is 0 where it is acknowledged or abandoned; `sent_at` is when it was sent last, 0 of a chunk that stands for
/// what was never sent; the flags are 0 or 1.
#[derive(Clone, Copy, Debug, Default, PartialEq, Eq)]
#[repr(C)]
pub struct sctpr_in_flight {
    pub size: usize,
    pub message: u64,
    pub sent_at: u64,
    pub tsn: u32,
    pub sent: u32,
    pub payload_type: u32,
    pub stream: u16,
    pub sequence: u16,
    pub is_unordered: u8,
    pub is_acked: u8,
    pub is_abandoned: u8,
    pub is_marked: u8,
}

/// A chunk that a SACK acknowledged. `sent` is how often it was sent: one that was sent once alone tells the round trip time (RFC 4960
/// 6.3.1 C5). `has_sent_at` is 0 of a chunk that stood for what was never sent. `is_message_acked`: its message is acknowledged whole now.
/// `is_low`: with it, after the rows before it, the buffered amount of its stream fell from above the low threshold to at most it.
#[derive(Clone, Copy, Debug, Default, PartialEq, Eq)]
#[repr(C)]
pub struct sctpr_acked {
    pub bytes: usize,
    pub message: u64,
    pub sent_at: u64,
    pub tsn: u32,
    pub sent: u32,
    pub stream: u16,
    pub has_sent_at: u8,
    pub is_message_acked: u8,
    pub is_low: u8,
}

/// A chunk whose acknowledgement a SACK took back: it is outstanding again.
#[derive(Clone, Copy, Debug, Default, PartialEq, Eq)]
#[repr(C)]
pub struct sctpr_taken_back {
    pub bytes: usize,
    pub message: u64,
    pub tsn: u32,
    pub stream: u16,
}

/// A message that was abandoned: how many of its bytes left. `is_low` as above.
#[derive(Clone, Copy, Debug, Default, PartialEq, Eq)]
#[repr(C)]
pub struct sctpr_abandoned {
    pub bytes: usize,
    pub number: u64,
    pub stream: u16,
    pub is_low: u8,
}

/// A message that expired before any of it was sent.
#[derive(Clone, Copy, Debug, Default, PartialEq, Eq)]
#[repr(C)]
pub struct sctpr_expired {
    pub bytes: usize,
    pub stream: u16,
    pub is_low: u8,
}

/// What is outstanding: in flight, and neither acknowledged nor abandoned. `bytes` and `chunks` leave out what is marked for retransmission:
/// `bytes` is the flight size (RFC 9260 6.2.1 B, 7.2). `marked` is how many chunks are marked.
#[derive(Clone, Copy, Debug, Default, PartialEq, Eq)]
#[repr(C)]
pub struct sctpr_outstanding {
    pub bytes: usize,
    pub chunks: usize,
    pub marked: usize,
}

#[rustfmt::skip]
extern "C" {
    /// The version of the library that was linked: major << 16 | minor << 8 | patch.
    pub fn sctpr_version() -> u32;

    /// Writes the name of a code and a zero byte behind it at the front of a buffer: "SCTPR_NO_MEMORY"; "SCTPR_UNKNOWN" of a number that is
    /// none. `written` becomes how many bytes that is, SCTPR_NAME_ROOM at most. SCTPR_SHORT_BUFFER where the buffer is shorter.
    pub fn sctpr_code_name(code: sctpr_code, out: *mut u8, room: usize, written: *mut usize) -> sctpr_code;

    /// Reads a packet under CRC-32C (RFC 4960 3, 6.8): header, checksum, and each of its chunks whole. `head` becomes its header, `count` how
    /// many chunks it has, and the first `room` of them stand in `rows`; the rows behind them stay. Each chunk can then be read by the calls
    /// below as `packet + row.at, row.length`. It reads what the Rust crate sctp-proto 0.10.8 reads, and so refuses packets that RFC 9260 allows,
    /// with all their chunks: to talk to a peer take sctpr_read_any_packet below. It is read where it lies: only of chunks that are neither DATA
    /// nor SACKs a copy is made, one at a time, and given back. Refuses with SCTPR_ERR_PACKET_RAW_TOO_SMALL, SCTPR_BAD_CHECKSUM,
    /// SCTPR_UNKNOWN_CHUNK, another error of a chunk, or, but for a packet of DATA and SACKs alone, SCTPR_NO_MEMORY; then nothing was written.
    pub fn sctpr_read_packet(packet: *const u8, length: usize, head: *mut sctpr_head, rows: *mut sctpr_chunk, room: usize, count: *mut usize) -> sctpr_code;

    /// The same under a sum that the caller took: of the first eight bytes, four zeros, and the bytes from the twelfth on.
    pub fn sctpr_read_packet_with_sum(packet: *const u8, length: usize, sum: u32, head: *mut sctpr_head, rows: *mut sctpr_chunk, room: usize, count: *mut usize) -> sctpr_code;

    /// The same for a packet with all that RFC 9260 allows, which sctpr_read_packet refuses:
    /// - chunks of unknown types, as I-DATA, AUTH and PAD are here (3.2): one whose type has the highest bit set is skipped; any other is the
    /// last one that is looked at, and the last row
    /// - padding of any bytes, which is ignored (RFC 9260 3.2)
    /// - parameters and error causes of any type, length and padding. Of an INIT, INIT-ACK, ABORT, ERROR and RE-CONFIG the header is read here.
    /// Walk the parameters of the first two, from byte 20 on, and of a RE-CONFIG, from byte 4 on, by sctpr_read_any_param, and the causes by
    /// sctpr_read_cause: each tells type and place, of what the caller passes over too
    /// `count` becomes how many chunks there are so far, and the first `room` of them stand in `rows`. A chunk of another known type is read
    /// whole, and refuses the packet where it is refused. SCTPR_UNKNOWN_CHUNK is no refusal of it; the other ones are those of
    /// sctpr_read_packet. What sctpr_read_packet reads, this reads too.
    pub fn sctpr_read_any_packet(packet: *const u8, length: usize, head: *mut sctpr_head, rows: *mut sctpr_any_chunk, room: usize, count: *mut usize) -> sctpr_code;

    pub fn sctpr_read_any_packet_with_sum(packet: *const u8, length: usize, sum: u32, head: *mut sctpr_head, rows: *mut sctpr_any_chunk, room: usize, count: *mut usize) -> sctpr_code;

    pub fn sctpr_read_data(chunk: *const u8, length: usize, data: *mut sctpr_data) -> sctpr_code;

    pub fn sctpr_read_sack(chunk: *const u8, length: usize, sack: *mut sctpr_sack, blocks: *mut sctpr_gap, blocks_room: usize, duplicates: *mut u32, duplicates_room: usize) -> sctpr_code;

    pub fn sctpr_read_forward_tsn(chunk: *const u8, length: usize, new_cumulative_tsn: *mut u32, streams: *mut sctpr_skip, room: usize, count: *mut usize) -> sctpr_code;

    pub fn sctpr_read_init(chunk: *const u8, length: usize, init: *mut sctpr_init) -> sctpr_code;

    /// A SHUTDOWN (RFC 4960 3.3.8): `cumulative_tsn` becomes the TSN up to which its sender received all.
    pub fn sctpr_read_shutdown(chunk: *const u8, length: usize, cumulative_tsn: *mut u32) -> sctpr_code;

    pub fn sctpr_read_param(bytes: *const u8, length: usize, param: *mut sctpr_param) -> sctpr_code;

    /// The same of any type and any value: its header alone is read (RFC 9260 3.2.1). Where the caller does not know a type, the walk ends
    /// there if its bit 0x8000 is not set, and the sender of the parameter is told of it if its bit 0x4000 is set.
    /// SCTPR_ERR_PARAM_HEADER_TOO_SHORT, where the bytes begin with no parameter. It takes no memory.
    pub fn sctpr_read_any_param(bytes: *const u8, length: usize, param: *mut sctpr_param) -> sctpr_code;

    /// The number of any request, which are the types 13, 14, 15, 17 and 18. Each is answered by a response with this number:
    /// SCTPR_RESULT_DENIED, where the caller does not follow it.
    pub fn sctpr_read_request(bytes: *const u8, length: usize, number: *mut u32) -> sctpr_code;

    pub fn sctpr_read_reset(bytes: *const u8, length: usize, reset: *mut sctpr_reset, streams: *mut u16, room: usize, count: *mut usize) -> sctpr_code;

    /// An Incoming SSN Reset Request, by which its sender asks for a reset of streams that come to it: `number` becomes its number. Streams are
    /// as above (4.2). An SSN/TSN Reset Request (4.3) has a number alone: sctpr_read_request.
    pub fn sctpr_read_incoming_reset(bytes: *const u8, length: usize, number: *mut u32, streams: *mut u16, room: usize, count: *mut usize) -> sctpr_code;

    pub fn sctpr_read_add_streams(bytes: *const u8, length: usize, add: *mut sctpr_add_streams) -> sctpr_code;

    pub fn sctpr_read_response(bytes: *const u8, length: usize, response: *mut sctpr_response) -> sctpr_code;

    pub fn sctpr_read_cause(bytes: *const u8, length: usize, cause: *mut sctpr_cause) -> sctpr_code;

    /// A chunk of a type and a value, its flags 0, of any type that is read (RFC 4960 3.2, 3.3). It is read before it is written, so that no
    /// chunk comes out that a reader refuses: else the reader's error. SCTPR_NOT_AS_GIVEN, where what is read has another value: bytes behind
    /// its end, or a result of a RE-CONFIG that has no name here. A DATA chunk is written with any payload type. The padding of the last item
    /// may stand in the value; the chunk's length does not count it. A RE-CONFIG with a request of the types 14, 15, 17 and 18 is written,
    /// though sctpr_read_packet refuses it: with one of them, with 13 before 14, or with 17 before 18 (RFC 6525 3.1). SCTPR_LENGTH_TOO_LARGE of
    /// more than 65,531 bytes. SCTPR_NO_MEMORY.
    pub fn sctpr_write_chunk(type_: u8, value: *const u8, length: usize, out: *mut u8, room: usize, written: *mut usize) -> sctpr_code;

    /// The same with flags, as they are given: SCTPR_FLAG_T, and those of DATA (3.3.1).
    pub fn sctpr_write_chunk_with_flags(type_: u8, flags: u8, value: *const u8, length: usize, out: *mut u8, room: usize, written: *mut usize) -> sctpr_code;

    /// An INIT or INIT-ACK. `params` are its parameters, as sctpr_write_param writes them one behind the other. Refuses as sctpr_write_chunk.
    pub fn sctpr_write_init(init: *const sctpr_init, params: *const u8, length: usize, out: *mut u8, room: usize, written: *mut usize) -> sctpr_code;

    /// A parameter (RFC 4960 3.2.1). Refuses as sctpr_write_chunk; a request of the types 14, 15, 17 and 18 whose value has another length than
    /// RFC 6525 4 gives it with SCTPR_ERR_SSN_RESET_REQUEST_PARAM_INVALID_LENGTH.
    pub fn sctpr_write_param(type_: u16, value: *const u8, length: usize, out: *mut u8, room: usize, written: *mut usize) -> sctpr_code;

    /// The requests of a RE-CONFIG from their words, with their padding: each is a parameter, which sctpr_write_chunk takes (RFC 6525 4.1, 4.2,
    /// 4.3, 4.5, 4.6). With no stream a reset is one of all. SCTPR_LENGTH_TOO_LARGE of more than 32,759 streams, of the second call 32,763;
    /// SCTPR_NO_MEMORY. The last two take no memory, and write 8 and 12 bytes.
    pub fn sctpr_write_reset(reset: *const sctpr_reset, streams: *const u16, count: usize, out: *mut u8, room: usize, written: *mut usize) -> sctpr_code;

    pub fn sctpr_write_incoming_reset(request: u32, streams: *const u16, count: usize, out: *mut u8, room: usize, written: *mut usize) -> sctpr_code;

    pub fn sctpr_write_ssn_tsn_reset(request: u32, out: *mut u8, room: usize, written: *mut usize) -> sctpr_code;

    pub fn sctpr_write_add_streams(add: *const sctpr_add_streams, out: *mut u8, room: usize, written: *mut usize) -> sctpr_code;

    /// A Re-configuration Response with no TSNs (RFC 6525 4.4): 12 bytes, a parameter of a RE-CONFIG. It takes no memory.
    pub fn sctpr_write_response(response: *const sctpr_response, out: *mut u8, room: usize, written: *mut usize) -> sctpr_code;

    /// An error cause (RFC 4960 3.3.10): what an ABORT or ERROR has as its value. SCTPR_LENGTH_TOO_LARGE of more than 65,531 bytes,
    /// SCTPR_NO_MEMORY. Of several causes in one chunk all but the last have to be multiples of four long without padding: sctpr_read_packet and
    /// sctpr_write_chunk look for none between them.
    pub fn sctpr_write_cause(code: u16, value: *const u8, length: usize, out: *mut u8, room: usize, written: *mut usize) -> sctpr_code;

    /// Writes header and CRC-32C into the first twelve bytes of a packet (RFC 4960 3.1, 6.8). SCTPR_SHORT_BUFFER under twelve bytes. It takes no
    /// memory.
    pub fn sctpr_seal_packet(head: *const sctpr_head, packet: *mut u8, length: usize) -> sctpr_code;

    /// The same in two steps, for a caller that takes the sum itself: the first writes the header with zeros in the checksum's place, and the
    /// second puts the sum of the whole packet there, its lowest byte first (RFC 4960 Appendix B). SCTPR_SHORT_BUFFER under twelve bytes.
    pub fn sctpr_write_head(head: *const sctpr_head, packet: *mut u8, length: usize) -> sctpr_code;

    pub fn sctpr_store_sum(sum: u32, packet: *mut u8, length: usize) -> sctpr_code;

    /// Makes a receiver with no stream, to which nothing came: `first_tsn`, the peer's initial TSN, is expected next, and a message may have
    /// `max_message_size` bytes. It holds about `window` bytes at most, each chunk counted as 400 more than its user data, and no TSN farther
    /// than `reach` past the cumulative one (RFC 4960 6.2). `out` becomes its handle. SCTPR_INVALID, where `window` or `reach` is 0, so that
    /// nothing could come, or `window` is under SCTPR_LEAST_WINDOW(max_message_size, 65519), so that a message would never fit; SCTPR_NO_MEMORY;
    /// `out` stays then. A peer whose chunks have fewer bytes of user data each needs a window of SCTPR_LEAST_WINDOW(max_message_size, bytes).
    pub fn sctpr_receiver_new(first_tsn: u32, max_message_size: u32, window: usize, reach: u32, out: *mut sctpr_receiver) -> sctpr_code;

    /// The same, with no limit to what is held: for a peer that is trusted, or a replay.
    pub fn sctpr_receiver_new_unlimited(first_tsn: u32, max_message_size: u32, out: *mut sctpr_receiver) -> sctpr_code;

    /// Frees a receiver and all that it holds, and empties its handle. It does nothing where the handle is empty, or NULL.
    pub fn sctpr_receiver_free(receiver: *mut sctpr_receiver);

    /// Opens a stream. SCTPR_STREAM_OPEN, SCTPR_NO_MEMORY.
    pub fn sctpr_receiver_open(receiver: *mut sctpr_receiver, stream: u16) -> sctpr_code;

    /// Closes a stream, where it is open: what came on it and was not read is dropped; the TSNs stay. It takes no memory.
    pub fn sctpr_receiver_close(receiver: *mut sctpr_receiver, stream: u16);

    /// The peer resets a stream that it sends on: `last_tsn` is the Sender's Last Assigned TSN of its Outgoing SSN Reset Request (RFC 6525
    /// 4.1, 5.2.2). The stream sequence number 0 is expected next. SCTPR_STREAM_UNKNOWN; SCTPR_RESET_IN_PROGRESS, where the cumulative TSN is
    /// before `last_tsn`; SCTPR_NO_MEMORY.
    pub fn sctpr_receiver_reset(receiver: *mut sctpr_receiver, stream: u16, last_tsn: u32) -> sctpr_code;

    /// Takes the bytes of a DATA chunk, without its padding or with it (RFC 4960 6.2). SCTPR_OK: its TSN is new, and `complete` becomes 1 where
    /// a message of its stream became complete with it, else 0; of the chunk its user data alone are copied. SCTPR_REPEAT: its TSN came before;
    /// the next SACK reports it as a duplicate, but a receiver with limits notes no more of them than one SACK can report, 16,379.
    /// Refuses with an error of bytes that are no DATA chunk, and, of a new TSN, in this order, with SCTPR_SSN_TOO_FAR, SCTPR_TSN_OPPOSITE,
    /// SCTPR_TSN_TOO_FAR, SCTPR_WINDOW_FULL, SCTPR_STREAM_UNKNOWN, SCTPR_MESSAGE_TOO_LARGE, SCTPR_NO_MEMORY: nothing is acknowledged then, and
    /// the chunk may come again. `complete` stays, but with SCTPR_OK.
    pub fn sctpr_receiver_data(receiver: *mut sctpr_receiver, chunk: *const u8, length: usize, complete: *mut u8) -> sctpr_code;

    /// Takes the TSN of a DATA chunk that is dropped, as one of a stream that is not open (RFC 4960 6.5): it counts as come. SCTPR_OK and
    /// SCTPR_REPEAT as above. SCTPR_TSN_OPPOSITE, SCTPR_TSN_TOO_FAR, SCTPR_WINDOW_FULL, SCTPR_NO_MEMORY.
    pub fn sctpr_receiver_discard(receiver: *mut sctpr_receiver, tsn: u32) -> sctpr_code;

    /// Takes the bytes of a FORWARD-TSN (RFC 3758 3.6). SCTPR_OK: it was past the cumulative TSN, and was followed. SCTPR_STALE: it was not, and
    /// changed nothing. Refuses with an error of bytes that are no FORWARD-TSN, and with SCTPR_NAMED_STREAM_UNKNOWN, SCTPR_NAMED_SSN_TOO_FAR,
    /// SCTPR_TSN_OPPOSITE, SCTPR_NO_MEMORY.
    pub fn sctpr_receiver_forward_tsn(receiver: *mut sctpr_receiver, chunk: *const u8, length: usize) -> sctpr_code;

    /// The same, but what it names on a stream that is not open is passed over, as is right of one that was closed on purpose.
    pub fn sctpr_receiver_forward_tsn_past_closed(receiver: *mut sctpr_receiver, chunk: *const u8, length: usize) -> sctpr_code;

    /// Tells the next message of a stream, and takes nothing out: `size` becomes its length in bytes, `payload_type` its payload type, any
    /// number, as it came with its first fragment. SCTPR_NOTHING: there is none. SCTPR_STREAM_UNKNOWN. Both stay, but with SCTPR_OK.
    pub fn sctpr_receiver_next_length(receiver: *const sctpr_receiver, stream: u16, size: *mut usize, payload_type: *mut u32) -> sctpr_code;

    /// Takes the next message of a stream out and copies it to the front of the buffer: an unordered one, else the ordered one that is due.
    /// `size` becomes its length, `payload_type` its payload type. SCTPR_NOTHING: there is none, and both stay. SCTPR_STREAM_UNKNOWN, and both
    /// stay; SCTPR_SHORT_BUFFER, where the buffer is shorter: both are told, nothing is copied, and the message can still be read. It takes no
    /// memory.
    pub fn sctpr_receiver_read(receiver: *mut sctpr_receiver, stream: u16, out: *mut u8, room: usize, size: *mut usize, payload_type: *mut u32) -> sctpr_code;

    /// Writes the numbers of the streams with a message to read, in the order in which they were opened; where one was closed, the last one
    /// stands in its place. `count` becomes how many there are. SCTPR_SHORT_BUFFER, where there is room for fewer: `count` is told, and nothing
    /// is written. SCTPR_NO_MEMORY, and both stay.
    pub fn sctpr_receiver_readable_streams(receiver: *const sctpr_receiver, streams: *mut u16, room: usize, count: *mut usize) -> sctpr_code;

    /// Writes the SACK of what came (RFC 4960 3.3.4), with the window as its credit: first as many gap ack blocks as there is room for, then
    /// as many duplicates, which are forgotten; the other duplicates are kept for the next SACK. `written` becomes its length, a multiple of
    /// four, 16 to 65,532. SCTPR_SHORT_BUFFER under 16 bytes, SCTPR_NO_MEMORY; `out` and `written` stay then.
    pub fn sctpr_receiver_sack(receiver: *mut sctpr_receiver, out: *mut u8, room: usize, written: *mut usize) -> sctpr_code;

    /// The TSN up to which all came, or was skipped.
    pub fn sctpr_receiver_cumulative_tsn(receiver: *const sctpr_receiver) -> u32;

    /// The window to advertise, in bytes (RFC 4960 3.3.4), which a SACK has as its credit; 2^32 - 1 without limits.
    pub fn sctpr_receiver_window(receiver: *const sctpr_receiver) -> u32;

    /// What is held and was not read: its bytes, and 400 for each chunk; the greatest size_t where it is more.
    pub fn sctpr_receiver_held_bytes(receiver: *const sctpr_receiver) -> usize;

    /// Makes a sender with no stream, whose first chunk gets `first_tsn`. A chunk has `fragment_size` bytes of user data at most, 1 to 65,519,
    /// a message `max_message_size`. If `keeps_reported` is not 0, it keeps the user data of what gap ack blocks report until the cumulative TSN
    /// passes it, for sctpr_sender_take_back (RFC 4960 6.2.1 D iv); else that goes. `out` becomes its handle. SCTPR_INVALID, SCTPR_NO_MEMORY;
    /// `out` stays then.
    pub fn sctpr_sender_new(first_tsn: u32, fragment_size: u32, max_message_size: u32, keeps_reported: u8, out: *mut sctpr_sender) -> sctpr_code;

    /// Frees a sender and all that it holds, and empties its handle. It does nothing where the handle is empty, or NULL.
    pub fn sctpr_sender_free(sender: *mut sctpr_sender);

    /// Opens a stream, ordered and reliable. SCTPR_STREAM_OPEN, SCTPR_NO_MEMORY.
    pub fn sctpr_sender_open(sender: *mut sctpr_sender, stream: u16) -> sctpr_code;

    /// Closes a stream, where it is open. What waits and is in flight of it goes on. It takes no memory. Open it again only once
    /// sctpr_sender_is_drained says 1: what then leaves would else lower the new amount.
    pub fn sctpr_sender_close(sender: *mut sctpr_sender, stream: u16);

    pub fn sctpr_sender_set_mode(sender: *mut sctpr_sender, stream: u16, unordered: u8, reliability: u32, value: u32) -> sctpr_code;

    /// Sets how many bytes of user data a chunk of a later write has at most, on each stream, 1 to 65,519, as where the path MTU changes
    /// (RFC 4821). SCTPR_INVALID.
    pub fn sctpr_sender_set_fragment_size(sender: *mut sctpr_sender, size: u32) -> sctpr_code;

    /// Sets the buffered amount of a stream, in bytes, down to which a fall is told by `is_low` of the rows below. SCTPR_STREAM_UNKNOWN.
    pub fn sctpr_sender_set_low_threshold(sender: *mut sctpr_sender, stream: u16, bytes: usize) -> sctpr_code;

    /// Resets a stream (RFC 6525 5.1.2): its next ordered message has the number 0. SCTPR_STREAM_UNKNOWN; SCTPR_STREAM_BUSY, where something of
    /// it waits or is in flight.
    pub fn sctpr_sender_reset(sender: *mut sctpr_sender, stream: u16) -> sctpr_code;

    /// Takes a copy of a message of one byte or more: its fragments wait. Each of its chunks is sent with the payload type that is given, any
    /// number. `number` becomes its number, `fragments` how many chunks it has. SCTPR_NOTHING: the message has no bytes, and nothing changed (RFC
    /// 8831 6.6 sends one byte in their place). SCTPR_STREAM_UNKNOWN, before it takes memory; SCTPR_MESSAGE_TOO_LARGE, SCTPR_QUEUE_FULL,
    /// SCTPR_NO_MEMORY. Both stay, but with SCTPR_OK. Payload types that are none of the first five of SCTPR_PPID_.. are kept until nothing of
    /// their messages waits or is in flight, in at most 100 bytes for each of the most chunks that waited or were in flight at once.
    pub fn sctpr_sender_write(sender: *mut sctpr_sender, stream: u16, payload_type: u32, message: *const u8, length: usize, number: *mut u64, fragments: *mut usize) -> sctpr_code;

    /// Starts the lifetimes of the messages written since the last time. sctpr_sender_send_next does so too.
    pub fn sctpr_sender_start(sender: *mut sctpr_sender, now: u64);

    /// Puts the fragment that is next in flight under the next TSN, which `tsn` becomes, and writes its DATA chunk with its padding. `written`
    /// becomes how many bytes that are. SCTPR_NOTHING: nothing waits. SCTPR_SHORT_BUFFER, where the buffer is shorter: it goes on waiting, and
    /// `written` is what is wanted; SCTPR_TSNS_USED_UP, where 2^31 - 1 chunks are in flight; SCTPR_SSNS_USED_UP, where it begins an ordered
    /// message 2^14 or more past the first one of its stream in flight; SCTPR_NO_MEMORY. `out` and `tsn` stay, but with SCTPR_OK.
    pub fn sctpr_sender_send_next(sender: *mut sctpr_sender, now: u64, out: *mut u8, room: usize, written: *mut usize, tsn: *mut u32) -> sctpr_code;

    /// Sends a chunk in flight again: writes it with its padding, counts that, notes `now`, and takes its mark. `written` becomes how many
    /// bytes that are. SCTPR_SHORT_BUFFER, where the buffer is shorter: `written` is what is wanted; SCTPR_NOT_IN_FLIGHT, where none is, or it
    /// is acknowledged or abandoned; SCTPR_NO_MEMORY. `out` stays, but with SCTPR_OK.
    pub fn sctpr_sender_resend(sender: *mut sctpr_sender, tsn: u32, now: u64, out: *mut u8, room: usize, written: *mut usize) -> sctpr_code;

    /// Marks each chunk in flight that is neither acknowledged nor abandoned for retransmission, as where the timer T3-rtx runs out (RFC 4960
    /// 6.3.3 E3).
    pub fn sctpr_sender_retransmit_all(sender: *mut sctpr_sender);

    /// Counts each chunk in flight whose TSN is before this one, and that is neither acknowledged nor abandoned, as missing once more, and
    /// marks for retransmission what is missing for the third time (RFC 4960 7.2.4). Answers how many it newly marks: of a chunk that was marked
    /// before, as by sctpr_sender_retransmit_all, it answers nothing.
    pub fn sctpr_sender_add_miss_indications(sender: *mut sctpr_sender, before: u32) -> usize;

    /// The chunk in flight with a TSN. SCTPR_NOT_IN_FLIGHT, and `row` stays.
    pub fn sctpr_sender_in_flight(sender: *const sctpr_sender, tsn: u32, row: *mut sctpr_in_flight) -> sctpr_code;

    /// The chunk in flight at a place: the first has the place 0, and the TSN past sctpr_sender_acked_tsn. SCTPR_NOTHING: there are no more.
    pub fn sctpr_sender_in_flight_at(sender: *const sctpr_sender, place: usize, row: *mut sctpr_in_flight) -> sctpr_code;

    /// The first chunk in flight that is marked for retransmission; sctpr_sender_resend takes the mark. SCTPR_NOTHING: there is none.
    pub fn sctpr_sender_next_to_retransmit(sender: *const sctpr_sender, row: *mut sctpr_in_flight) -> sctpr_code;

    /// Takes the bytes of a SACK (RFC 4960 6.2.1). SCTPR_OK: `count` becomes how many chunks it reports anew, and the first so many `rows` tell
    /// of them, in the order of their TSNs; with a `room` of 0 no row is told. SCTPR_STALE: its cumulative TSN is before sctpr_sender_acked_tsn;
    /// `count` becomes 0, and nothing else changed. SCTPR_SHORT_BUFFER, where 0 < `room` < sctpr_sender_chunks_in_flight, so that no row is
    /// lost: `count` becomes how many are wanted. Refuses with an error of bytes that are no SACK, with SCTPR_SACK_BEYOND_SENT and
    /// SCTPR_SACK_BAD_GAP, where it reports what is not in flight, and with SCTPR_NO_MEMORY. `rows` stay then, and `count` too but for the
    /// first.
    pub fn sctpr_sender_acked(sender: *mut sctpr_sender, chunk: *const u8, length: usize, rows: *mut sctpr_acked, room: usize, count: *mut usize) -> sctpr_code;

    /// Takes the TSN of a SHUTDOWN, as sctpr_read_shutdown tells it (RFC 4960 3.3.8, 9.2): as a SACK with this cumulative TSN and no gap ack
    /// block, with rows, count and codes as above. It is not handed to sctpr_sender_take_back: a SHUTDOWN can't tell of gaps (3.3.8).
    pub fn sctpr_sender_acked_up_to(sender: *mut sctpr_sender, tsn: u32, rows: *mut sctpr_acked, room: usize, count: *mut usize) -> sctpr_code;

    /// Takes back what a SACK no longer reports (RFC 4960 6.2.1 D iv). Past its last gap ack block it takes back nothing, as a SACK may be cut to
    /// the path MTU (6.7); one that reports nothing in blocks takes back all. A SACK that comes late, with the same cumulative TSN, takes back
    /// what a later one reported, and the next one reports it anew. Call it before sctpr_sender_acked with the same SACK. Rows, count and codes
    /// are as there, with a row for each chunk that comes back, and none where the sender keeps nothing; and SCTPR_QUEUE_FULL, where all
    /// bytes would be more than the greatest size_t.
    pub fn sctpr_sender_take_back(sender: *mut sctpr_sender, chunk: *const u8, length: usize, rows: *mut sctpr_taken_back, room: usize, count: *mut usize) -> sctpr_code;

    /// Abandons the message of a chunk in flight (RFC 3758 3.5): `row` tells of it, with no bytes where it was abandoned before.
    /// SCTPR_NOT_IN_FLIGHT; and, only where some of the message still waits, SCTPR_TSNS_USED_UP and SCTPR_NO_MEMORY. `row` stays then.
    pub fn sctpr_sender_abandon(sender: *mut sctpr_sender, tsn: u32, row: *mut sctpr_abandoned) -> sctpr_code;

    /// Removes the message in front, where it is past its deadline and wholly unsent. SCTPR_NOTHING: there is no such message. Call it until it
    /// says so.
    pub fn sctpr_sender_expire(sender: *mut sctpr_sender, now: u64, row: *mut sctpr_expired) -> sctpr_code;

    /// Abandons the rest of the partially sent message in front, where it is past its deadline. SCTPR_NOTHING: there is no such message.
    /// SCTPR_TSNS_USED_UP, SCTPR_NO_MEMORY. `row` stays, but with SCTPR_OK.
    pub fn sctpr_sender_expire_tail(sender: *mut sctpr_sender, now: u64, row: *mut sctpr_abandoned) -> sctpr_code;

    /// Abandons each message in flight that is past its deadline (RFC 3758 3.5, 4.1): `count` becomes how many, and the first so many `rows`
    /// tell of them; with a `room` of 0 no row is told. SCTPR_SHORT_BUFFER, where 0 < `room` < sctpr_sender_chunks_in_flight, so that no row is
    /// lost: `count` becomes how many are wanted. Only where a message is past its deadline SCTPR_NO_MEMORY, and, where some of it waits and
    /// 2^31 - 1 chunks are in flight, SCTPR_TSNS_USED_UP or that. `rows` stay then, and `count` too but for the first.
    pub fn sctpr_sender_expire_late(sender: *mut sctpr_sender, now: u64, rows: *mut sctpr_abandoned, room: usize, count: *mut usize) -> sctpr_code;

    /// Abandons each message in flight that was sent again as often as it may be (RFC 7496 3.1); never a DCEP message. Call it once chunks are
    /// marked. Rows, count and refusals are those of sctpr_sender_expire_late.
    pub fn sctpr_sender_expire_rexmit(sender: *mut sctpr_sender, rows: *mut sctpr_abandoned, room: usize, count: *mut usize) -> sctpr_code;

    /// Writes the FORWARD-TSN that is to be sent (RFC 3758 3.5 C3, C4): up to the advanced ack point, or as far as its names fit the buffer.
    /// `written` becomes its length, a multiple of four. SCTPR_NOTHING: there is nothing to tell. SCTPR_SHORT_BUFFER: nothing of it fits;
    /// `written` becomes the length of all of it, 65,532 at most. SCTPR_NO_MEMORY. `out` stays, but with SCTPR_OK.
    pub fn sctpr_sender_forward_tsn(sender: *mut sctpr_sender, out: *mut u8, room: usize, written: *mut usize) -> sctpr_code;

    /// Writes the FORWARD-TSN up to a TSN, or to the last TSN before it at which a message ends. SCTPR_NOTHING: no message ends up to there, or
    /// the TSN is not past what is acknowledged, or is beyond the advanced ack point. SCTPR_SHORT_BUFFER: `written` is what is wanted;
    /// SCTPR_LENGTH_TOO_LARGE, where it would name more than 16,381 streams; SCTPR_NO_MEMORY. `out` stays, but with SCTPR_OK.
    pub fn sctpr_sender_forward_tsn_to(sender: *mut sctpr_sender, tsn: u32, out: *mut u8, room: usize, written: *mut usize) -> sctpr_code;

    /// The TSN that the next chunk gets (RFC 4960 6.1).
    pub fn sctpr_sender_next_tsn(sender: *const sctpr_sender) -> u32;

    /// The TSN up to which all was acknowledged (RFC 4960 6.2.1).
    pub fn sctpr_sender_acked_tsn(sender: *const sctpr_sender) -> u32;

    /// The Advanced.Peer.Ack.Point (RFC 3758 3.5 C2).
    pub fn sctpr_sender_advanced_ack_point(sender: *const sctpr_sender) -> u32;

    /// How many bytes of user data are in flight: what is acknowledged or abandoned counts no more, and what is marked counts.
    pub fn sctpr_sender_bytes_in_flight(sender: *const sctpr_sender) -> usize;

    /// What is outstanding: `row` tells of it. After sctpr_sender_retransmit_all `bytes` is 0, and each chunk that is sent again raises it.
    pub fn sctpr_sender_outstanding(sender: *const sctpr_sender, row: *mut sctpr_outstanding);

    /// How many chunks are in flight: each TSN past sctpr_sender_acked_tsn and before sctpr_sender_next_tsn has one.
    pub fn sctpr_sender_chunks_in_flight(sender: *const sctpr_sender) -> usize;

    /// The first TSN in flight that is neither acknowledged nor abandoned (RFC 4960 6.3.3). SCTPR_NOTHING: there is none, and `tsn` stays.
    pub fn sctpr_sender_earliest_outstanding(sender: *const sctpr_sender, tsn: *mut u32) -> sctpr_code;

    /// The next moment at which a lifetime ends, in nanoseconds, once lifetimes are started (RFC 3758 4.1): of the message that is next to be
    /// sent, and of each in flight that is neither acknowledged nor abandoned; never of a DCEP message that waits. From then on
    /// sctpr_sender_expire, .._expire_tail or .._expire_late finds something. SCTPR_NOTHING: no such lifetime runs, and `at` stays. It looks at each
    /// chunk in flight.
    pub fn sctpr_sender_next_timeout(sender: *const sctpr_sender, at: *mut u64) -> sctpr_code;

    /// How many fragments wait.
    pub fn sctpr_sender_pending(sender: *const sctpr_sender) -> usize;

    /// How many bytes of user data of a stream wait or are in flight. SCTPR_STREAM_UNKNOWN, and `amount` stays.
    pub fn sctpr_sender_buffered_amount(sender: *const sctpr_sender, stream: u16, amount: *mut usize) -> sctpr_code;

    /// 1 where nothing of a stream waits or is in flight, so that it can be reset (RFC 6525 5.1.2), else 0.
    pub fn sctpr_sender_is_drained(sender: *const sctpr_sender, stream: u16) -> u8;
}
