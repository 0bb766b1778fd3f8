//! The refusals. Written by tools/c_bindings.py from include/sctpr.h.

use sctp_rattle_sys as sys;

/// Why a call was refused. What it was to change is as it was.
#[derive(Clone, Copy, Debug, PartialEq, Eq, Hash)]
#[non_exhaustive]
pub enum Error {
    /// Memory ran out.
    NoMemory,
    /// The buffer is too short: the length that is wanted was told.
    ShortBuffer {
        /// How many bytes, or rows, are enough.
        wanted: usize,
    },
    /// An argument is out of its range, or NULL, or an empty handle.
    Invalid,
    /// A chunk or a parameter would be longer than 65,535 bytes with its header (RFC 4960 3.2, 3.2.1).
    LengthTooLarge,
    /// The checksum of the packet is another one (RFC 4960 6.8).
    BadChecksum,
    /// A chunk is of a type that is not read.
    UnknownChunk,
    /// The stream is open.
    StreamOpen,
    /// The stream is not open.
    StreamUnknown,
    /// The message is, or would be, longer than a message may be.
    MessageTooLarge,
    /// No further message can wait.
    QueueFull,
    /// No further TSN can be given out before some are acknowledged.
    TsnsUsedUp,
    /// The TSN is not in flight, or its chunk is acknowledged or abandoned.
    NotInFlight,
    /// A SACK reports a TSN that was not given out.
    SackBeyondSent,
    /// A gap ack block of a SACK reports a TSN that is not in flight.
    SackBadGap,
    /// The TSN lies half the circle from the cumulative one (RFC 1982 3.2).
    TsnOpposite,
    /// Something of the stream waits or is in flight.
    StreamBusy,
    /// The next ordered message of the stream can't be begun before chunks of it are acknowledged.
    SsnsUsedUp,
    /// The TSN lies farther past the cumulative one than the limits allow.
    TsnTooFar,
    /// Nothing is left of the window (RFC 4960 6.2).
    WindowFull,
    /// The stream sequence number can't be told from one that was read (RFC 1982 3.2).
    SsnTooFar,
    /// A FORWARD-TSN names a stream that is not open (RFC 3758 3.6).
    NamedStreamUnknown,
    /// A FORWARD-TSN names a stream sequence number that can't be told from one that was read.
    NamedSsnTooFar,
    /// The stream can't be reset yet (RFC 6525 4.4).
    ResetInProgress,
    /// A packet has under 12 bytes, which its header takes (RFC 4960 3.1).
    ErrPacketRawTooSmall,
    /// In the walk over a packet's chunks one to three bytes are left, or fewer than a chunk takes with its padding (RFC 4960 3.2).
    ErrParseSctpChunkNotEnoughData,
    /// Not answered by a call of this library: the source port is 0 (RFC 4960 3.1).
    ErrSctpPacketSourcePortZero,
    /// Not answered by a call of this library: the destination port is 0 (RFC 4960 3.1).
    ErrSctpPacketDestinationPortZero,
    /// Not answered by a call of this library: an INIT shares its packet with other chunks (RFC 4960 6.10). An INIT-ACK or a SHUTDOWN-COMPLETE that does passes, though RFC 4960 6.10 forbids it too.
    ErrInitChunkBundled,
    /// Not answered by a call of this library: a packet with an INIT has a verification tag other than 0 (RFC 4960 8.5.1).
    ErrInitChunkVerifyTagNotZero,
    /// From the chunk on there are under four bytes, which its header takes (RFC 4960 3.2).
    ErrChunkHeaderTooSmall,
    /// A chunk's length is under four: it counts the header (RFC 4960 3.2).
    ErrChunkHeaderInvalidLength,
    /// A chunk's length passes the bytes that are there (RFC 4960 3.2).
    ErrChunkHeaderNotEnoughSpace,
    /// After a chunk's length come one to three bytes, and one of them is not zero (RFC 4960 3.2). Where four or more follow, padding is not looked at. sctpr_read_any_packet and the readers of DATA, of a SACK and of an INIT ignore padding, and do not answer this.
    ErrChunkHeaderPaddingNonZero,
    /// Read as an ABORT: the type is not 6 (RFC 4960 3.3.7).
    ErrChunkTypeNotAbort,
    /// Read as a COOKIE-ACK: the type is not 11 (RFC 4960 3.3.12).
    ErrChunkTypeNotCookieAck,
    /// Read as a COOKIE-ECHO: the type is not 10 (RFC 4960 3.3.11).
    ErrChunkTypeNotCookieEcho,
    /// Read as an ERROR: the type is not 9 (RFC 4960 3.3.10).
    ErrChunkTypeNotCt,
    /// Read as a FORWARD-TSN: the type is not 192 (RFC 3758 3.2).
    ErrChunkTypeNotForwardTsn,
    /// Read as a HEARTBEAT: the type is not 4 (RFC 4960 3.3.5).
    ErrChunkTypeNotHeartbeat,
    /// Read as a HEARTBEAT-ACK: the type is not 5 (RFC 4960 3.3.6).
    ErrChunkTypeNotHeartbeatAck,
    /// Read as an INIT or INIT-ACK: the type is neither 1 nor 2 (RFC 4960 3.3.2, 3.3.3).
    ErrChunkTypeNotTypeInit,
    /// Read as DATA: the type is not 0 (RFC 4960 3.3.1).
    ErrChunkTypeNotPayloadData,
    /// Read as a RECONFIG: the type is not 130 (RFC 6525 3.1).
    ErrChunkTypeNotReconfig,
    /// Read as a SACK: the type is not 3 (RFC 4960 3.3.4).
    ErrChunkTypeNotSack,
    /// Read as a SHUTDOWN: the type is not 7 (RFC 4960 3.3.8).
    ErrChunkTypeNotShutdown,
    /// Read as a SHUTDOWN-ACK: the type is not 8 (RFC 4960 3.3.9).
    ErrChunkTypeNotShutdownAck,
    /// Read as a SHUTDOWN-COMPLETE: the type is not 14 (RFC 4960 3.3.13).
    ErrChunkTypeNotShutdownComplete,
    /// The value of a FORWARD-TSN (RFC 3758 3.2), I-FORWARD-TSN (RFC 8260 2.3.1) or RECONFIG (RFC 6525 3.1) has under four bytes, or the pairs of a FORWARD-TSN are followed by one to three.
    ErrChunkTooShort,
    /// A DATA chunk's value has under 12 bytes, which stand before the user data (RFC 4960 3.3.1).
    ErrChunkPayloadSmall,
    /// The value of an INIT or INIT-ACK has under 16 bytes (RFC 4960 3.3.2).
    ErrChunkValueNotLongEnough,
    /// An INIT or INIT-ACK has flags other than 0. RFC 4960 3.3.2 has a receiver ignore them; here the chunk is refused.
    ErrChunkTypeInitFlagZero,
    /// Not answered by a call of this library: the initiate tag is 0 (RFC 4960 3.3.2).
    ErrChunkTypeInitInitiateTagZero,
    /// Not answered by a call of this library: the number of inbound streams is 0 (RFC 4960 3.3.2).
    ErrInitInboundStreamRequestZero,
    /// Not answered by a call of this library: the number of outbound streams is 0 (RFC 4960 3.3.2).
    ErrInitOutboundStreamRequestZero,
    /// Not answered by a call of this library: the credit is under 1,500 bytes (RFC 4960 6).
    ErrInitAdvertisedReceiver1500,
    /// The value of a HEARTBEAT or HEARTBEAT-ACK has under four bytes, which the header of its parameter takes (RFC 4960 3.3.5, 3.3.6).
    ErrHeartbeatNotLongEnoughInfo,
    /// The parameter of a HEARTBEAT or HEARTBEAT-ACK can be read, and its type is not 1 (RFC 4960 3.3.5).
    ErrHeartbeatParam,
    /// A HEARTBEAT-ACK that is to be written has no parameter, or more than one (RFC 4960 3.3.6).
    ErrHeartbeatAckParams,
    /// The one parameter of a HEARTBEAT-ACK that is to be written is no Heartbeat Info (RFC 4960 3.3.6).
    ErrHeartbeatAckNotHeartbeatInfo,
    /// A RECONFIG that is to be written or is checked has no first parameter (RFC 6525 3.1).
    ErrChunkReconfigInvalidParamA,
    /// Not answered by a call of this library: its two parameters' types may not stand together (RFC 6525 3.1).
    ErrChunkReconfigInvalidParamCombination,
    /// The value of a SACK has under 12 bytes, or fewer than 12 and four for each of the blocks and duplicates that it counts (RFC 4960 3.3.4).
    ErrSackSizeNotLargeEnoughInfo,
    /// The value of a SHUTDOWN has not exactly four bytes (RFC 4960 3.3.8).
    ErrInvalidChunkSize,
    /// An error cause has under four bytes, a length under four, or a length past the bytes that are there (RFC 4960 3.3.10).
    ErrErrorCauseTooSmall,
    /// A parameter has under four bytes, a length under four, or a length past the bytes that are there (RFC 4960 3.2.1).
    ErrParamHeaderTooShort,
    /// A parameter of type typ is of no kind, and the type's highest bit is not set: reading is to stop (RFC 4960 3.2.1).
    ErrParamTypeUnhandled,
    /// A parameter is of another type than the call reads (RFC 6525 4).
    ErrParamTypeUnexpected,
    /// The value of an Outgoing SSN Reset Request has under 12 bytes (RFC 6525 4.1), or that of a request has no number.
    ErrSsnResetRequestParamTooShort,
    /// The value of an Outgoing SSN Reset Request has 12 bytes or more, an odd number of them (RFC 6525 4.1), or that of another request has another length than its type gives it (4.2, 4.3, 4.5, 4.6).
    ErrSsnResetRequestParamInvalidLength,
    /// The value of a Re-configuration Response has under eight bytes (RFC 6525 4.4).
    ErrReconfigRespParamTooShort,
    /// A Requested HMAC Algorithm names another number than 1 or 3 (RFC 4895 3.3).
    ErrInvalidAlgorithmType,
    /// The value of a Supported Address Types has an odd number of bytes (RFC 4960 3.3.2.1).
    ErrSupportedAddressTypesParamInvalidLength,
    /// Not answered by a call of this library: the message is longer than the buffer, which is filled with the message's beginning.
    ErrShortBuffer,
    /// It can't be written as it was given: a chunk whose value is read as another one.
    NotAsGiven,
    /// A code that this version doesn't know.
    Unknown(u32),
}

impl Error {
    /// The error of a code of the library, `wanted` bytes or rows being what a buffer that was too short should have had.
    pub(crate) fn of_code(code: sys::sctpr_code, wanted: usize) -> Error {
        match code {
            sys::SCTPR_NO_MEMORY => Error::NoMemory,
            sys::SCTPR_SHORT_BUFFER => Error::ShortBuffer { wanted },
            sys::SCTPR_INVALID => Error::Invalid,
            sys::SCTPR_LENGTH_TOO_LARGE => Error::LengthTooLarge,
            sys::SCTPR_BAD_CHECKSUM => Error::BadChecksum,
            sys::SCTPR_UNKNOWN_CHUNK => Error::UnknownChunk,
            sys::SCTPR_STREAM_OPEN => Error::StreamOpen,
            sys::SCTPR_STREAM_UNKNOWN => Error::StreamUnknown,
            sys::SCTPR_MESSAGE_TOO_LARGE => Error::MessageTooLarge,
            sys::SCTPR_QUEUE_FULL => Error::QueueFull,
            sys::SCTPR_TSNS_USED_UP => Error::TsnsUsedUp,
            sys::SCTPR_NOT_IN_FLIGHT => Error::NotInFlight,
            sys::SCTPR_SACK_BEYOND_SENT => Error::SackBeyondSent,
            sys::SCTPR_SACK_BAD_GAP => Error::SackBadGap,
            sys::SCTPR_TSN_OPPOSITE => Error::TsnOpposite,
            sys::SCTPR_STREAM_BUSY => Error::StreamBusy,
            sys::SCTPR_SSNS_USED_UP => Error::SsnsUsedUp,
            sys::SCTPR_TSN_TOO_FAR => Error::TsnTooFar,
            sys::SCTPR_WINDOW_FULL => Error::WindowFull,
            sys::SCTPR_SSN_TOO_FAR => Error::SsnTooFar,
            sys::SCTPR_NAMED_STREAM_UNKNOWN => Error::NamedStreamUnknown,
            sys::SCTPR_NAMED_SSN_TOO_FAR => Error::NamedSsnTooFar,
            sys::SCTPR_RESET_IN_PROGRESS => Error::ResetInProgress,
            sys::SCTPR_ERR_PACKET_RAW_TOO_SMALL => Error::ErrPacketRawTooSmall,
            sys::SCTPR_ERR_PARSE_SCTP_CHUNK_NOT_ENOUGH_DATA => Error::ErrParseSctpChunkNotEnoughData,
            sys::SCTPR_ERR_SCTP_PACKET_SOURCE_PORT_ZERO => Error::ErrSctpPacketSourcePortZero,
            sys::SCTPR_ERR_SCTP_PACKET_DESTINATION_PORT_ZERO => Error::ErrSctpPacketDestinationPortZero,
            sys::SCTPR_ERR_INIT_CHUNK_BUNDLED => Error::ErrInitChunkBundled,
            sys::SCTPR_ERR_INIT_CHUNK_VERIFY_TAG_NOT_ZERO => Error::ErrInitChunkVerifyTagNotZero,
            sys::SCTPR_ERR_CHUNK_HEADER_TOO_SMALL => Error::ErrChunkHeaderTooSmall,
            sys::SCTPR_ERR_CHUNK_HEADER_INVALID_LENGTH => Error::ErrChunkHeaderInvalidLength,
            sys::SCTPR_ERR_CHUNK_HEADER_NOT_ENOUGH_SPACE => Error::ErrChunkHeaderNotEnoughSpace,
            sys::SCTPR_ERR_CHUNK_HEADER_PADDING_NON_ZERO => Error::ErrChunkHeaderPaddingNonZero,
            sys::SCTPR_ERR_CHUNK_TYPE_NOT_ABORT => Error::ErrChunkTypeNotAbort,
            sys::SCTPR_ERR_CHUNK_TYPE_NOT_COOKIE_ACK => Error::ErrChunkTypeNotCookieAck,
            sys::SCTPR_ERR_CHUNK_TYPE_NOT_COOKIE_ECHO => Error::ErrChunkTypeNotCookieEcho,
            sys::SCTPR_ERR_CHUNK_TYPE_NOT_CT => Error::ErrChunkTypeNotCt,
            sys::SCTPR_ERR_CHUNK_TYPE_NOT_FORWARD_TSN => Error::ErrChunkTypeNotForwardTsn,
            sys::SCTPR_ERR_CHUNK_TYPE_NOT_HEARTBEAT => Error::ErrChunkTypeNotHeartbeat,
            sys::SCTPR_ERR_CHUNK_TYPE_NOT_HEARTBEAT_ACK => Error::ErrChunkTypeNotHeartbeatAck,
            sys::SCTPR_ERR_CHUNK_TYPE_NOT_TYPE_INIT => Error::ErrChunkTypeNotTypeInit,
            sys::SCTPR_ERR_CHUNK_TYPE_NOT_PAYLOAD_DATA => Error::ErrChunkTypeNotPayloadData,
            sys::SCTPR_ERR_CHUNK_TYPE_NOT_RECONFIG => Error::ErrChunkTypeNotReconfig,
            sys::SCTPR_ERR_CHUNK_TYPE_NOT_SACK => Error::ErrChunkTypeNotSack,
            sys::SCTPR_ERR_CHUNK_TYPE_NOT_SHUTDOWN => Error::ErrChunkTypeNotShutdown,
            sys::SCTPR_ERR_CHUNK_TYPE_NOT_SHUTDOWN_ACK => Error::ErrChunkTypeNotShutdownAck,
            sys::SCTPR_ERR_CHUNK_TYPE_NOT_SHUTDOWN_COMPLETE => Error::ErrChunkTypeNotShutdownComplete,
            sys::SCTPR_ERR_CHUNK_TOO_SHORT => Error::ErrChunkTooShort,
            sys::SCTPR_ERR_CHUNK_PAYLOAD_SMALL => Error::ErrChunkPayloadSmall,
            sys::SCTPR_ERR_CHUNK_VALUE_NOT_LONG_ENOUGH => Error::ErrChunkValueNotLongEnough,
            sys::SCTPR_ERR_CHUNK_TYPE_INIT_FLAG_ZERO => Error::ErrChunkTypeInitFlagZero,
            sys::SCTPR_ERR_CHUNK_TYPE_INIT_INITIATE_TAG_ZERO => Error::ErrChunkTypeInitInitiateTagZero,
            sys::SCTPR_ERR_INIT_INBOUND_STREAM_REQUEST_ZERO => Error::ErrInitInboundStreamRequestZero,
            sys::SCTPR_ERR_INIT_OUTBOUND_STREAM_REQUEST_ZERO => Error::ErrInitOutboundStreamRequestZero,
            sys::SCTPR_ERR_INIT_ADVERTISED_RECEIVER_1500 => Error::ErrInitAdvertisedReceiver1500,
            sys::SCTPR_ERR_HEARTBEAT_NOT_LONG_ENOUGH_INFO => Error::ErrHeartbeatNotLongEnoughInfo,
            sys::SCTPR_ERR_HEARTBEAT_PARAM => Error::ErrHeartbeatParam,
            sys::SCTPR_ERR_HEARTBEAT_ACK_PARAMS => Error::ErrHeartbeatAckParams,
            sys::SCTPR_ERR_HEARTBEAT_ACK_NOT_HEARTBEAT_INFO => Error::ErrHeartbeatAckNotHeartbeatInfo,
            sys::SCTPR_ERR_CHUNK_RECONFIG_INVALID_PARAM_A => Error::ErrChunkReconfigInvalidParamA,
            sys::SCTPR_ERR_CHUNK_RECONFIG_INVALID_PARAM_COMBINATION => Error::ErrChunkReconfigInvalidParamCombination,
            sys::SCTPR_ERR_SACK_SIZE_NOT_LARGE_ENOUGH_INFO => Error::ErrSackSizeNotLargeEnoughInfo,
            sys::SCTPR_ERR_INVALID_CHUNK_SIZE => Error::ErrInvalidChunkSize,
            sys::SCTPR_ERR_ERROR_CAUSE_TOO_SMALL => Error::ErrErrorCauseTooSmall,
            sys::SCTPR_ERR_PARAM_HEADER_TOO_SHORT => Error::ErrParamHeaderTooShort,
            sys::SCTPR_ERR_PARAM_TYPE_UNHANDLED => Error::ErrParamTypeUnhandled,
            sys::SCTPR_ERR_PARAM_TYPE_UNEXPECTED => Error::ErrParamTypeUnexpected,
            sys::SCTPR_ERR_SSN_RESET_REQUEST_PARAM_TOO_SHORT => Error::ErrSsnResetRequestParamTooShort,
            sys::SCTPR_ERR_SSN_RESET_REQUEST_PARAM_INVALID_LENGTH => Error::ErrSsnResetRequestParamInvalidLength,
            sys::SCTPR_ERR_RECONFIG_RESP_PARAM_TOO_SHORT => Error::ErrReconfigRespParamTooShort,
            sys::SCTPR_ERR_INVALID_ALGORITHM_TYPE => Error::ErrInvalidAlgorithmType,
            sys::SCTPR_ERR_SUPPORTED_ADDRESS_TYPES_PARAM_INVALID_LENGTH => Error::ErrSupportedAddressTypesParamInvalidLength,
            sys::SCTPR_ERR_SHORT_BUFFER => Error::ErrShortBuffer,
            sys::SCTPR_NOT_AS_GIVEN => Error::NotAsGiven,
            other => Error::Unknown(other),
        }
    }

    /// The number of the error, the one that the C header gives it. Numbers never change.
    pub fn code(&self) -> u32 {
        match *self {
            Error::NoMemory => sys::SCTPR_NO_MEMORY,
            Error::ShortBuffer { .. } => sys::SCTPR_SHORT_BUFFER,
            Error::Invalid => sys::SCTPR_INVALID,
            Error::LengthTooLarge => sys::SCTPR_LENGTH_TOO_LARGE,
            Error::BadChecksum => sys::SCTPR_BAD_CHECKSUM,
            Error::UnknownChunk => sys::SCTPR_UNKNOWN_CHUNK,
            Error::StreamOpen => sys::SCTPR_STREAM_OPEN,
            Error::StreamUnknown => sys::SCTPR_STREAM_UNKNOWN,
            Error::MessageTooLarge => sys::SCTPR_MESSAGE_TOO_LARGE,
            Error::QueueFull => sys::SCTPR_QUEUE_FULL,
            Error::TsnsUsedUp => sys::SCTPR_TSNS_USED_UP,
            Error::NotInFlight => sys::SCTPR_NOT_IN_FLIGHT,
            Error::SackBeyondSent => sys::SCTPR_SACK_BEYOND_SENT,
            Error::SackBadGap => sys::SCTPR_SACK_BAD_GAP,
            Error::TsnOpposite => sys::SCTPR_TSN_OPPOSITE,
            Error::StreamBusy => sys::SCTPR_STREAM_BUSY,
            Error::SsnsUsedUp => sys::SCTPR_SSNS_USED_UP,
            Error::TsnTooFar => sys::SCTPR_TSN_TOO_FAR,
            Error::WindowFull => sys::SCTPR_WINDOW_FULL,
            Error::SsnTooFar => sys::SCTPR_SSN_TOO_FAR,
            Error::NamedStreamUnknown => sys::SCTPR_NAMED_STREAM_UNKNOWN,
            Error::NamedSsnTooFar => sys::SCTPR_NAMED_SSN_TOO_FAR,
            Error::ResetInProgress => sys::SCTPR_RESET_IN_PROGRESS,
            Error::ErrPacketRawTooSmall => sys::SCTPR_ERR_PACKET_RAW_TOO_SMALL,
            Error::ErrParseSctpChunkNotEnoughData => sys::SCTPR_ERR_PARSE_SCTP_CHUNK_NOT_ENOUGH_DATA,
            Error::ErrSctpPacketSourcePortZero => sys::SCTPR_ERR_SCTP_PACKET_SOURCE_PORT_ZERO,
            Error::ErrSctpPacketDestinationPortZero => sys::SCTPR_ERR_SCTP_PACKET_DESTINATION_PORT_ZERO,
            Error::ErrInitChunkBundled => sys::SCTPR_ERR_INIT_CHUNK_BUNDLED,
            Error::ErrInitChunkVerifyTagNotZero => sys::SCTPR_ERR_INIT_CHUNK_VERIFY_TAG_NOT_ZERO,
            Error::ErrChunkHeaderTooSmall => sys::SCTPR_ERR_CHUNK_HEADER_TOO_SMALL,
            Error::ErrChunkHeaderInvalidLength => sys::SCTPR_ERR_CHUNK_HEADER_INVALID_LENGTH,
            Error::ErrChunkHeaderNotEnoughSpace => sys::SCTPR_ERR_CHUNK_HEADER_NOT_ENOUGH_SPACE,
            Error::ErrChunkHeaderPaddingNonZero => sys::SCTPR_ERR_CHUNK_HEADER_PADDING_NON_ZERO,
            Error::ErrChunkTypeNotAbort => sys::SCTPR_ERR_CHUNK_TYPE_NOT_ABORT,
            Error::ErrChunkTypeNotCookieAck => sys::SCTPR_ERR_CHUNK_TYPE_NOT_COOKIE_ACK,
            Error::ErrChunkTypeNotCookieEcho => sys::SCTPR_ERR_CHUNK_TYPE_NOT_COOKIE_ECHO,
            Error::ErrChunkTypeNotCt => sys::SCTPR_ERR_CHUNK_TYPE_NOT_CT,
            Error::ErrChunkTypeNotForwardTsn => sys::SCTPR_ERR_CHUNK_TYPE_NOT_FORWARD_TSN,
            Error::ErrChunkTypeNotHeartbeat => sys::SCTPR_ERR_CHUNK_TYPE_NOT_HEARTBEAT,
            Error::ErrChunkTypeNotHeartbeatAck => sys::SCTPR_ERR_CHUNK_TYPE_NOT_HEARTBEAT_ACK,
            Error::ErrChunkTypeNotTypeInit => sys::SCTPR_ERR_CHUNK_TYPE_NOT_TYPE_INIT,
            Error::ErrChunkTypeNotPayloadData => sys::SCTPR_ERR_CHUNK_TYPE_NOT_PAYLOAD_DATA,
            Error::ErrChunkTypeNotReconfig => sys::SCTPR_ERR_CHUNK_TYPE_NOT_RECONFIG,
            Error::ErrChunkTypeNotSack => sys::SCTPR_ERR_CHUNK_TYPE_NOT_SACK,
            Error::ErrChunkTypeNotShutdown => sys::SCTPR_ERR_CHUNK_TYPE_NOT_SHUTDOWN,
            Error::ErrChunkTypeNotShutdownAck => sys::SCTPR_ERR_CHUNK_TYPE_NOT_SHUTDOWN_ACK,
            Error::ErrChunkTypeNotShutdownComplete => sys::SCTPR_ERR_CHUNK_TYPE_NOT_SHUTDOWN_COMPLETE,
            Error::ErrChunkTooShort => sys::SCTPR_ERR_CHUNK_TOO_SHORT,
            Error::ErrChunkPayloadSmall => sys::SCTPR_ERR_CHUNK_PAYLOAD_SMALL,
            Error::ErrChunkValueNotLongEnough => sys::SCTPR_ERR_CHUNK_VALUE_NOT_LONG_ENOUGH,
            Error::ErrChunkTypeInitFlagZero => sys::SCTPR_ERR_CHUNK_TYPE_INIT_FLAG_ZERO,
            Error::ErrChunkTypeInitInitiateTagZero => sys::SCTPR_ERR_CHUNK_TYPE_INIT_INITIATE_TAG_ZERO,
            Error::ErrInitInboundStreamRequestZero => sys::SCTPR_ERR_INIT_INBOUND_STREAM_REQUEST_ZERO,
            Error::ErrInitOutboundStreamRequestZero => sys::SCTPR_ERR_INIT_OUTBOUND_STREAM_REQUEST_ZERO,
            Error::ErrInitAdvertisedReceiver1500 => sys::SCTPR_ERR_INIT_ADVERTISED_RECEIVER_1500,
            Error::ErrHeartbeatNotLongEnoughInfo => sys::SCTPR_ERR_HEARTBEAT_NOT_LONG_ENOUGH_INFO,
            Error::ErrHeartbeatParam => sys::SCTPR_ERR_HEARTBEAT_PARAM,
            Error::ErrHeartbeatAckParams => sys::SCTPR_ERR_HEARTBEAT_ACK_PARAMS,
            Error::ErrHeartbeatAckNotHeartbeatInfo => sys::SCTPR_ERR_HEARTBEAT_ACK_NOT_HEARTBEAT_INFO,
            Error::ErrChunkReconfigInvalidParamA => sys::SCTPR_ERR_CHUNK_RECONFIG_INVALID_PARAM_A,
            Error::ErrChunkReconfigInvalidParamCombination => sys::SCTPR_ERR_CHUNK_RECONFIG_INVALID_PARAM_COMBINATION,
            Error::ErrSackSizeNotLargeEnoughInfo => sys::SCTPR_ERR_SACK_SIZE_NOT_LARGE_ENOUGH_INFO,
            Error::ErrInvalidChunkSize => sys::SCTPR_ERR_INVALID_CHUNK_SIZE,
            Error::ErrErrorCauseTooSmall => sys::SCTPR_ERR_ERROR_CAUSE_TOO_SMALL,
            Error::ErrParamHeaderTooShort => sys::SCTPR_ERR_PARAM_HEADER_TOO_SHORT,
            Error::ErrParamTypeUnhandled => sys::SCTPR_ERR_PARAM_TYPE_UNHANDLED,
            Error::ErrParamTypeUnexpected => sys::SCTPR_ERR_PARAM_TYPE_UNEXPECTED,
            Error::ErrSsnResetRequestParamTooShort => sys::SCTPR_ERR_SSN_RESET_REQUEST_PARAM_TOO_SHORT,
            Error::ErrSsnResetRequestParamInvalidLength => sys::SCTPR_ERR_SSN_RESET_REQUEST_PARAM_INVALID_LENGTH,
            Error::ErrReconfigRespParamTooShort => sys::SCTPR_ERR_RECONFIG_RESP_PARAM_TOO_SHORT,
            Error::ErrInvalidAlgorithmType => sys::SCTPR_ERR_INVALID_ALGORITHM_TYPE,
            Error::ErrSupportedAddressTypesParamInvalidLength => sys::SCTPR_ERR_SUPPORTED_ADDRESS_TYPES_PARAM_INVALID_LENGTH,
            Error::ErrShortBuffer => sys::SCTPR_ERR_SHORT_BUFFER,
            Error::NotAsGiven => sys::SCTPR_NOT_AS_GIVEN,
            Error::Unknown(code) => code,
        }
    }

    fn text(&self) -> &'static str {
        match self {
            Error::NoMemory => "Memory ran out.",
            Error::ShortBuffer { .. } => "The buffer is too short: the length that is wanted was told.",
            Error::Invalid => "An argument is out of its range, or NULL, or an empty handle.",
            Error::LengthTooLarge => "A chunk or a parameter would be longer than 65,535 bytes with its header (RFC 4960 3.2, 3.2.1).",
            Error::BadChecksum => "The checksum of the packet is another one (RFC 4960 6.8).",
            Error::UnknownChunk => "A chunk is of a type that is not read.",
            Error::StreamOpen => "The stream is open.",
            Error::StreamUnknown => "The stream is not open.",
            Error::MessageTooLarge => "The message is, or would be, longer than a message may be.",
            Error::QueueFull => "No further message can wait.",
            Error::TsnsUsedUp => "No further TSN can be given out before some are acknowledged.",
            Error::NotInFlight => "The TSN is not in flight, or its chunk is acknowledged or abandoned.",
            Error::SackBeyondSent => "A SACK reports a TSN that was not given out.",
            Error::SackBadGap => "A gap ack block of a SACK reports a TSN that is not in flight.",
            Error::TsnOpposite => "The TSN lies half the circle from the cumulative one (RFC 1982 3.2).",
            Error::StreamBusy => "Something of the stream waits or is in flight.",
            Error::SsnsUsedUp => "The next ordered message of the stream can't be begun before chunks of it are acknowledged.",
            Error::TsnTooFar => "The TSN lies farther past the cumulative one than the limits allow.",
            Error::WindowFull => "Nothing is left of the window (RFC 4960 6.2).",
            Error::SsnTooFar => "The stream sequence number can't be told from one that was read (RFC 1982 3.2).",
            Error::NamedStreamUnknown => "A FORWARD-TSN names a stream that is not open (RFC 3758 3.6).",
            Error::NamedSsnTooFar => "A FORWARD-TSN names a stream sequence number that can't be told from one that was read.",
            Error::ResetInProgress => "The stream can't be reset yet (RFC 6525 4.4).",
            Error::ErrPacketRawTooSmall => "A packet has under 12 bytes, which its header takes (RFC 4960 3.1).",
            Error::ErrParseSctpChunkNotEnoughData => "In the walk over a packet's chunks one to three bytes are left, or fewer than a chunk takes with its padding (RFC 4960 3.2).",
            Error::ErrSctpPacketSourcePortZero => "Not answered by a call of this library: the source port is 0 (RFC 4960 3.1).",
            Error::ErrSctpPacketDestinationPortZero => "Not answered by a call of this library: the destination port is 0 (RFC 4960 3.1).",
            Error::ErrInitChunkBundled => "Not answered by a call of this library: an INIT shares its packet with other chunks (RFC 4960 6.10). An INIT-ACK or a SHUTDOWN-COMPLETE that does passes, though RFC 4960 6.10 forbids it too.",
            Error::ErrInitChunkVerifyTagNotZero => "Not answered by a call of this library: a packet with an INIT has a verification tag other than 0 (RFC 4960 8.5.1).",
            Error::ErrChunkHeaderTooSmall => "From the chunk on there are under four bytes, which its header takes (RFC 4960 3.2).",
            Error::ErrChunkHeaderInvalidLength => "A chunk's length is under four: it counts the header (RFC 4960 3.2).",
            Error::ErrChunkHeaderNotEnoughSpace => "A chunk's length passes the bytes that are there (RFC 4960 3.2).",
            Error::ErrChunkHeaderPaddingNonZero => "After a chunk's length come one to three bytes, and one of them is not zero (RFC 4960 3.2). Where four or more follow, padding is not looked at. sctpr_read_any_packet and the readers of DATA, of a SACK and of an INIT ignore padding, and do not answer this.",
            Error::ErrChunkTypeNotAbort => "Read as an ABORT: the type is not 6 (RFC 4960 3.3.7).",
            Error::ErrChunkTypeNotCookieAck => "Read as a COOKIE-ACK: the type is not 11 (RFC 4960 3.3.12).",
            Error::ErrChunkTypeNotCookieEcho => "Read as a COOKIE-ECHO: the type is not 10 (RFC 4960 3.3.11).",
            Error::ErrChunkTypeNotCt => "Read as an ERROR: the type is not 9 (RFC 4960 3.3.10).",
            Error::ErrChunkTypeNotForwardTsn => "Read as a FORWARD-TSN: the type is not 192 (RFC 3758 3.2).",
            Error::ErrChunkTypeNotHeartbeat => "Read as a HEARTBEAT: the type is not 4 (RFC 4960 3.3.5).",
            Error::ErrChunkTypeNotHeartbeatAck => "Read as a HEARTBEAT-ACK: the type is not 5 (RFC 4960 3.3.6).",
            Error::ErrChunkTypeNotTypeInit => "Read as an INIT or INIT-ACK: the type is neither 1 nor 2 (RFC 4960 3.3.2, 3.3.3).",
            Error::ErrChunkTypeNotPayloadData => "Read as DATA: the type is not 0 (RFC 4960 3.3.1).",
            Error::ErrChunkTypeNotReconfig => "Read as a RECONFIG: the type is not 130 (RFC 6525 3.1).",
            Error::ErrChunkTypeNotSack => "Read as a SACK: the type is not 3 (RFC 4960 3.3.4).",
            Error::ErrChunkTypeNotShutdown => "Read as a SHUTDOWN: the type is not 7 (RFC 4960 3.3.8).",
            Error::ErrChunkTypeNotShutdownAck => "Read as a SHUTDOWN-ACK: the type is not 8 (RFC 4960 3.3.9).",
            Error::ErrChunkTypeNotShutdownComplete => "Read as a SHUTDOWN-COMPLETE: the type is not 14 (RFC 4960 3.3.13).",
            Error::ErrChunkTooShort => "The value of a FORWARD-TSN (RFC 3758 3.2), I-FORWARD-TSN (RFC 8260 2.3.1) or RECONFIG (RFC 6525 3.1) has under four bytes, or the pairs of a FORWARD-TSN are followed by one to three.",
            Error::ErrChunkPayloadSmall => "A DATA chunk's value has under 12 bytes, which stand before the user data (RFC 4960 3.3.1).",
            Error::ErrChunkValueNotLongEnough => "The value of an INIT or INIT-ACK has under 16 bytes (RFC 4960 3.3.2).",
            Error::ErrChunkTypeInitFlagZero => "An INIT or INIT-ACK has flags other than 0. RFC 4960 3.3.2 has a receiver ignore them; here the chunk is refused.",
            Error::ErrChunkTypeInitInitiateTagZero => "Not answered by a call of this library: the initiate tag is 0 (RFC 4960 3.3.2).",
            Error::ErrInitInboundStreamRequestZero => "Not answered by a call of this library: the number of inbound streams is 0 (RFC 4960 3.3.2).",
            Error::ErrInitOutboundStreamRequestZero => "Not answered by a call of this library: the number of outbound streams is 0 (RFC 4960 3.3.2).",
            Error::ErrInitAdvertisedReceiver1500 => "Not answered by a call of this library: the credit is under 1,500 bytes (RFC 4960 6).",
            Error::ErrHeartbeatNotLongEnoughInfo => "The value of a HEARTBEAT or HEARTBEAT-ACK has under four bytes, which the header of its parameter takes (RFC 4960 3.3.5, 3.3.6).",
            Error::ErrHeartbeatParam => "The parameter of a HEARTBEAT or HEARTBEAT-ACK can be read, and its type is not 1 (RFC 4960 3.3.5).",
            Error::ErrHeartbeatAckParams => "A HEARTBEAT-ACK that is to be written has no parameter, or more than one (RFC 4960 3.3.6).",
            Error::ErrHeartbeatAckNotHeartbeatInfo => "The one parameter of a HEARTBEAT-ACK that is to be written is no Heartbeat Info (RFC 4960 3.3.6).",
            Error::ErrChunkReconfigInvalidParamA => "A RECONFIG that is to be written or is checked has no first parameter (RFC 6525 3.1).",
            Error::ErrChunkReconfigInvalidParamCombination => "Not answered by a call of this library: its two parameters' types may not stand together (RFC 6525 3.1).",
            Error::ErrSackSizeNotLargeEnoughInfo => "The value of a SACK has under 12 bytes, or fewer than 12 and four for each of the blocks and duplicates that it counts (RFC 4960 3.3.4).",
            Error::ErrInvalidChunkSize => "The value of a SHUTDOWN has not exactly four bytes (RFC 4960 3.3.8).",
            Error::ErrErrorCauseTooSmall => "An error cause has under four bytes, a length under four, or a length past the bytes that are there (RFC 4960 3.3.10).",
            Error::ErrParamHeaderTooShort => "A parameter has under four bytes, a length under four, or a length past the bytes that are there (RFC 4960 3.2.1).",
            Error::ErrParamTypeUnhandled => "A parameter of type typ is of no kind, and the type's highest bit is not set: reading is to stop (RFC 4960 3.2.1).",
            Error::ErrParamTypeUnexpected => "A parameter is of another type than the call reads (RFC 6525 4).",
            Error::ErrSsnResetRequestParamTooShort => "The value of an Outgoing SSN Reset Request has under 12 bytes (RFC 6525 4.1), or that of a request has no number.",
            Error::ErrSsnResetRequestParamInvalidLength => "The value of an Outgoing SSN Reset Request has 12 bytes or more, an odd number of them (RFC 6525 4.1), or that of another request has another length than its type gives it (4.2, 4.3, 4.5, 4.6).",
            Error::ErrReconfigRespParamTooShort => "The value of a Re-configuration Response has under eight bytes (RFC 6525 4.4).",
            Error::ErrInvalidAlgorithmType => "A Requested HMAC Algorithm names another number than 1 or 3 (RFC 4895 3.3).",
            Error::ErrSupportedAddressTypesParamInvalidLength => "The value of a Supported Address Types has an odd number of bytes (RFC 4960 3.3.2.1).",
            Error::ErrShortBuffer => "Not answered by a call of this library: the message is longer than the buffer, which is filled with the message's beginning.",
            Error::NotAsGiven => "It can't be written as it was given: a chunk whose value is read as another one.",
            Error::Unknown(_) => "A code that this version doesn't know.",
        }
    }
}

impl core::fmt::Display for Error {
    fn fmt(&self, f: &mut core::fmt::Formatter<'_>) -> core::fmt::Result {
        match self {
            Error::ShortBuffer { wanted } => write!(f, "{} Wanted: {}", self.text(), wanted),
            Error::Unknown(code) => write!(f, "{} It is {}.", self.text(), code),
            _ => f.write_str(self.text()),
        }
    }
}

#[cfg(feature = "std")]
impl std::error::Error for Error {}
