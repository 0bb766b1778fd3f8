// Written by tools/c_bindings.py from include/sctpr.h.

package sctprattle

// A Code is what a call answers: under 16 it was done, from 16 on it was refused, and what it was to change is as it was. Numbers never
// change. As an error it is compared by errors.Is.
type Code uint32

const (
	// Done.
	CodeOk Code = 0
	// Done: a DATA chunk's TSN came before.
	CodeRepeat Code = 1
	// Done, and nothing changed: a FORWARD-TSN is not past what came, or a SACK is before what was acknowledged.
	CodeStale Code = 2
	// Done: there is nothing to send, to read or to tell.
	CodeNothing Code = 3
	// Memory ran out.
	CodeNoMemory Code = 16
	// The buffer is too short: the length that is wanted was told.
	CodeShortBuffer Code = 17
	// An argument is out of its range, or NULL, or an empty handle.
	CodeInvalid Code = 18
	// A chunk or a parameter would be longer than 65,535 bytes with its header (RFC 4960 3.2, 3.2.1).
	CodeLengthTooLarge Code = 19
	// The checksum of the packet is another one (RFC 4960 6.8).
	CodeBadChecksum Code = 20
	// A chunk is of a type that is not read.
	CodeUnknownChunk Code = 21
	// The stream is open.
	CodeStreamOpen Code = 22
	// The stream is not open.
	CodeStreamUnknown Code = 23
	// The message is, or would be, longer than a message may be.
	CodeMessageTooLarge Code = 24
	// No further message can wait.
	CodeQueueFull Code = 25
	// No further TSN can be given out before some are acknowledged.
	CodeTsnsUsedUp Code = 26
	// The TSN is not in flight, or its chunk is acknowledged or abandoned.
	CodeNotInFlight Code = 27
	// A SACK reports a TSN that was not given out.
	CodeSackBeyondSent Code = 28
	// A gap ack block of a SACK reports a TSN that is not in flight.
	CodeSackBadGap Code = 29
	// The TSN lies half the circle from the cumulative one (RFC 1982 3.2).
	CodeTsnOpposite Code = 30
	// Something of the stream waits or is in flight.
	CodeStreamBusy Code = 31
	// The next ordered message of the stream can't be begun before chunks of it are acknowledged.
	CodeSsnsUsedUp Code = 32
	// The TSN lies farther past the cumulative one than the limits allow.
	CodeTsnTooFar Code = 34
	// Nothing is left of the window (RFC 4960 6.2).
	CodeWindowFull Code = 35
	// The stream sequence number can't be told from one that was read (RFC 1982 3.2).
	CodeSsnTooFar Code = 36
	// A FORWARD-TSN names a stream that is not open (RFC 3758 3.6).
	CodeNamedStreamUnknown Code = 37
	// A FORWARD-TSN names a stream sequence number that can't be told from one that was read.
	CodeNamedSsnTooFar Code = 38
	// The stream can't be reset yet (RFC 6525 4.4).
	CodeResetInProgress Code = 39
	// A packet has under 12 bytes, which its header takes (RFC 4960 3.1).
	CodeErrPacketRawTooSmall Code = 40
	// In the walk over a packet's chunks one to three bytes are left, or fewer than a chunk takes with its padding (RFC 4960 3.2).
	CodeErrParseSctpChunkNotEnoughData Code = 41
	// Not answered by a call of this library: the source port is 0 (RFC 4960 3.1).
	CodeErrSctpPacketSourcePortZero Code = 42
	// Not answered by a call of this library: the destination port is 0 (RFC 4960 3.1).
	CodeErrSctpPacketDestinationPortZero Code = 43
	// Not answered by a call of this library: an INIT shares its packet with other chunks (RFC 4960 6.10). An INIT-ACK or a SHUTDOWN-COMPLETE that does passes, though RFC 4960 6.10 forbids it too.
	CodeErrInitChunkBundled Code = 44
	// Not answered by a call of this library: a packet with an INIT has a verification tag other than 0 (RFC 4960 8.5.1).
	CodeErrInitChunkVerifyTagNotZero Code = 45
	// From the chunk on there are under four bytes, which its header takes (RFC 4960 3.2).
	CodeErrChunkHeaderTooSmall Code = 46
	// A chunk's length is under four: it counts the header (RFC 4960 3.2).
	CodeErrChunkHeaderInvalidLength Code = 47
	// A chunk's length passes the bytes that are there (RFC 4960 3.2).
	CodeErrChunkHeaderNotEnoughSpace Code = 48
	// After a chunk's length come one to three bytes, and one of them is not zero (RFC 4960 3.2). Where four or more follow, padding is not looked at. sctpr_read_any_packet and the readers of DATA, of a SACK and of an INIT ignore padding, and do not answer this.
	CodeErrChunkHeaderPaddingNonZero Code = 49
	// Read as an ABORT: the type is not 6 (RFC 4960 3.3.7).
	CodeErrChunkTypeNotAbort Code = 50
	// Read as a COOKIE-ACK: the type is not 11 (RFC 4960 3.3.12).
	CodeErrChunkTypeNotCookieAck Code = 51
	// Read as a COOKIE-ECHO: the type is not 10 (RFC 4960 3.3.11).
	CodeErrChunkTypeNotCookieEcho Code = 52
	// Read as an ERROR: the type is not 9 (RFC 4960 3.3.10).
	CodeErrChunkTypeNotCt Code = 53
	// Read as a FORWARD-TSN: the type is not 192 (RFC 3758 3.2).
	CodeErrChunkTypeNotForwardTsn Code = 54
	// Read as a HEARTBEAT: the type is not 4 (RFC 4960 3.3.5).
	CodeErrChunkTypeNotHeartbeat Code = 55
	// Read as a HEARTBEAT-ACK: the type is not 5 (RFC 4960 3.3.6).
	CodeErrChunkTypeNotHeartbeatAck Code = 56
	// Read as an INIT or INIT-ACK: the type is neither 1 nor 2 (RFC 4960 3.3.2, 3.3.3).
	CodeErrChunkTypeNotTypeInit Code = 57
	// Read as DATA: the type is not 0 (RFC 4960 3.3.1).
	CodeErrChunkTypeNotPayloadData Code = 58
	// Read as a RECONFIG: the type is not 130 (RFC 6525 3.1).
	CodeErrChunkTypeNotReconfig Code = 59
	// Read as a SACK: the type is not 3 (RFC 4960 3.3.4).
	CodeErrChunkTypeNotSack Code = 60
	// Read as a SHUTDOWN: the type is not 7 (RFC 4960 3.3.8).
	CodeErrChunkTypeNotShutdown Code = 61
	// Read as a SHUTDOWN-ACK: the type is not 8 (RFC 4960 3.3.9).
	CodeErrChunkTypeNotShutdownAck Code = 62
	// Read as a SHUTDOWN-COMPLETE: the type is not 14 (RFC 4960 3.3.13).
	CodeErrChunkTypeNotShutdownComplete Code = 63
	// The value of a FORWARD-TSN (RFC 3758 3.2), I-FORWARD-TSN (RFC 8260 2.3.1) or RECONFIG (RFC 6525 3.1) has under four bytes, or the pairs of a FORWARD-TSN are followed by one to three.
	CodeErrChunkTooShort Code = 64
	// A DATA chunk's value has under 12 bytes, which stand before the user data (RFC 4960 3.3.1).
	CodeErrChunkPayloadSmall Code = 65
	// The value of an INIT or INIT-ACK has under 16 bytes (RFC 4960 3.3.2).
	CodeErrChunkValueNotLongEnough Code = 66
	// An INIT or INIT-ACK has flags other than 0. RFC 4960 3.3.2 has a receiver ignore them; here the chunk is refused.
	CodeErrChunkTypeInitFlagZero Code = 67
	// Not answered by a call of this library: the initiate tag is 0 (RFC 4960 3.3.2).
	CodeErrChunkTypeInitInitiateTagZero Code = 68
	// Not answered by a call of this library: the number of inbound streams is 0 (RFC 4960 3.3.2).
	CodeErrInitInboundStreamRequestZero Code = 69
	// Not answered by a call of this library: the number of outbound streams is 0 (RFC 4960 3.3.2).
	CodeErrInitOutboundStreamRequestZero Code = 70
	// Not answered by a call of this library: the credit is under 1,500 bytes (RFC 4960 6).
	CodeErrInitAdvertisedReceiver1500 Code = 71
	// The value of a HEARTBEAT or HEARTBEAT-ACK has under four bytes, which the header of its parameter takes (RFC 4960 3.3.5, 3.3.6).
	CodeErrHeartbeatNotLongEnoughInfo Code = 72
	// The parameter of a HEARTBEAT or HEARTBEAT-ACK can be read, and its type is not 1 (RFC 4960 3.3.5).
	CodeErrHeartbeatParam Code = 73
	// A HEARTBEAT-ACK that is to be written has no parameter, or more than one (RFC 4960 3.3.6).
	CodeErrHeartbeatAckParams Code = 74
	// The one parameter of a HEARTBEAT-ACK that is to be written is no Heartbeat Info (RFC 4960 3.3.6).
	CodeErrHeartbeatAckNotHeartbeatInfo Code = 75
	// A RECONFIG that is to be written or is checked has no first parameter (RFC 6525 3.1).
	CodeErrChunkReconfigInvalidParamA Code = 76
	// Not answered by a call of this library: its two parameters' types may not stand together (RFC 6525 3.1).
	CodeErrChunkReconfigInvalidParamCombination Code = 77
	// The value of a SACK has under 12 bytes, or fewer than 12 and four for each of the blocks and duplicates that it counts (RFC 4960 3.3.4).
	CodeErrSackSizeNotLargeEnoughInfo Code = 78
	// The value of a SHUTDOWN has not exactly four bytes (RFC 4960 3.3.8).
	CodeErrInvalidChunkSize Code = 79
	// An error cause has under four bytes, a length under four, or a length past the bytes that are there (RFC 4960 3.3.10).
	CodeErrErrorCauseTooSmall Code = 80
	// A parameter has under four bytes, a length under four, or a length past the bytes that are there (RFC 4960 3.2.1).
	CodeErrParamHeaderTooShort Code = 81
	// A parameter of type typ is of no kind, and the type's highest bit is not set: reading is to stop (RFC 4960 3.2.1).
	CodeErrParamTypeUnhandled Code = 82
	// A parameter is of another type than the call reads (RFC 6525 4).
	CodeErrParamTypeUnexpected Code = 83
	// The value of an Outgoing SSN Reset Request has under 12 bytes (RFC 6525 4.1), or that of a request has no number.
	CodeErrSsnResetRequestParamTooShort Code = 84
	// The value of an Outgoing SSN Reset Request has 12 bytes or more, an odd number of them (RFC 6525 4.1), or that of another request has another length than its type gives it (4.2, 4.3, 4.5, 4.6).
	CodeErrSsnResetRequestParamInvalidLength Code = 85
	// The value of a Re-configuration Response has under eight bytes (RFC 6525 4.4).
	CodeErrReconfigRespParamTooShort Code = 86
	// A Requested HMAC Algorithm names another number than 1 or 3 (RFC 4895 3.3).
	CodeErrInvalidAlgorithmType Code = 87
	// The value of a Supported Address Types has an odd number of bytes (RFC 4960 3.3.2.1).
	CodeErrSupportedAddressTypesParamInvalidLength Code = 88
	// Not answered by a call of this library: the message is longer than the buffer, which is filled with the message's beginning.
	CodeErrShortBuffer Code = 89
	// It can't be written as it was given: a chunk whose value is read as another one.
	CodeNotAsGiven Code = 90
)

func (c Code) text() string {
	switch c {
	case CodeOk:
		return "Done."
	case CodeRepeat:
		return "Done: a DATA chunk's TSN came before."
	case CodeStale:
		return "Done, and nothing changed: a FORWARD-TSN is not past what came, or a SACK is before what was acknowledged."
	case CodeNothing:
		return "Done: there is nothing to send, to read or to tell."
	case CodeNoMemory:
		return "Memory ran out."
	case CodeShortBuffer:
		return "The buffer is too short: the length that is wanted was told."
	case CodeInvalid:
		return "An argument is out of its range, or NULL, or an empty handle."
	case CodeLengthTooLarge:
		return "A chunk or a parameter would be longer than 65,535 bytes with its header (RFC 4960 3.2, 3.2.1)."
	case CodeBadChecksum:
		return "The checksum of the packet is another one (RFC 4960 6.8)."
	case CodeUnknownChunk:
		return "A chunk is of a type that is not read."
	case CodeStreamOpen:
		return "The stream is open."
	case CodeStreamUnknown:
		return "The stream is not open."
	case CodeMessageTooLarge:
		return "The message is, or would be, longer than a message may be."
	case CodeQueueFull:
		return "No further message can wait."
	case CodeTsnsUsedUp:
		return "No further TSN can be given out before some are acknowledged."
	case CodeNotInFlight:
		return "The TSN is not in flight, or its chunk is acknowledged or abandoned."
	case CodeSackBeyondSent:
		return "A SACK reports a TSN that was not given out."
	case CodeSackBadGap:
		return "A gap ack block of a SACK reports a TSN that is not in flight."
	case CodeTsnOpposite:
		return "The TSN lies half the circle from the cumulative one (RFC 1982 3.2)."
	case CodeStreamBusy:
		return "Something of the stream waits or is in flight."
	case CodeSsnsUsedUp:
		return "The next ordered message of the stream can't be begun before chunks of it are acknowledged."
	case CodeTsnTooFar:
		return "The TSN lies farther past the cumulative one than the limits allow."
	case CodeWindowFull:
		return "Nothing is left of the window (RFC 4960 6.2)."
	case CodeSsnTooFar:
		return "The stream sequence number can't be told from one that was read (RFC 1982 3.2)."
	case CodeNamedStreamUnknown:
		return "A FORWARD-TSN names a stream that is not open (RFC 3758 3.6)."
	case CodeNamedSsnTooFar:
		return "A FORWARD-TSN names a stream sequence number that can't be told from one that was read."
	case CodeResetInProgress:
		return "The stream can't be reset yet (RFC 6525 4.4)."
	case CodeErrPacketRawTooSmall:
		return "A packet has under 12 bytes, which its header takes (RFC 4960 3.1)."
	case CodeErrParseSctpChunkNotEnoughData:
		return "In the walk over a packet's chunks one to three bytes are left, or fewer than a chunk takes with its padding (RFC 4960 3.2)."
	case CodeErrSctpPacketSourcePortZero:
		return "Not answered by a call of this library: the source port is 0 (RFC 4960 3.1)."
	case CodeErrSctpPacketDestinationPortZero:
		return "Not answered by a call of this library: the destination port is 0 (RFC 4960 3.1)."
	case CodeErrInitChunkBundled:
		return "Not answered by a call of this library: an INIT shares its packet with other chunks (RFC 4960 6.10). An INIT-ACK or a SHUTDOWN-COMPLETE that does passes, though RFC 4960 6.10 forbids it too."
	case CodeErrInitChunkVerifyTagNotZero:
		return "Not answered by a call of this library: a packet with an INIT has a verification tag other than 0 (RFC 4960 8.5.1)."
	case CodeErrChunkHeaderTooSmall:
		return "From the chunk on there are under four bytes, which its header takes (RFC 4960 3.2)."
	case CodeErrChunkHeaderInvalidLength:
		return "A chunk's length is under four: it counts the header (RFC 4960 3.2)."
	case CodeErrChunkHeaderNotEnoughSpace:
		return "A chunk's length passes the bytes that are there (RFC 4960 3.2)."
	case CodeErrChunkHeaderPaddingNonZero:
		return "After a chunk's length come one to three bytes, and one of them is not zero (RFC 4960 3.2). Where four or more follow, padding is not looked at. sctpr_read_any_packet and the readers of DATA, of a SACK and of an INIT ignore padding, and do not answer this."
	case CodeErrChunkTypeNotAbort:
		return "Read as an ABORT: the type is not 6 (RFC 4960 3.3.7)."
	case CodeErrChunkTypeNotCookieAck:
		return "Read as a COOKIE-ACK: the type is not 11 (RFC 4960 3.3.12)."
	case CodeErrChunkTypeNotCookieEcho:
		return "Read as a COOKIE-ECHO: the type is not 10 (RFC 4960 3.3.11)."
	case CodeErrChunkTypeNotCt:
		return "Read as an ERROR: the type is not 9 (RFC 4960 3.3.10)."
	case CodeErrChunkTypeNotForwardTsn:
		return "Read as a FORWARD-TSN: the type is not 192 (RFC 3758 3.2)."
	case CodeErrChunkTypeNotHeartbeat:
		return "Read as a HEARTBEAT: the type is not 4 (RFC 4960 3.3.5)."
	case CodeErrChunkTypeNotHeartbeatAck:
		return "Read as a HEARTBEAT-ACK: the type is not 5 (RFC 4960 3.3.6)."
	case CodeErrChunkTypeNotTypeInit:
		return "Read as an INIT or INIT-ACK: the type is neither 1 nor 2 (RFC 4960 3.3.2, 3.3.3)."
	case CodeErrChunkTypeNotPayloadData:
		return "Read as DATA: the type is not 0 (RFC 4960 3.3.1)."
	case CodeErrChunkTypeNotReconfig:
		return "Read as a RECONFIG: the type is not 130 (RFC 6525 3.1)."
	case CodeErrChunkTypeNotSack:
		return "Read as a SACK: the type is not 3 (RFC 4960 3.3.4)."
	case CodeErrChunkTypeNotShutdown:
		return "Read as a SHUTDOWN: the type is not 7 (RFC 4960 3.3.8)."
	case CodeErrChunkTypeNotShutdownAck:
		return "Read as a SHUTDOWN-ACK: the type is not 8 (RFC 4960 3.3.9)."
	case CodeErrChunkTypeNotShutdownComplete:
		return "Read as a SHUTDOWN-COMPLETE: the type is not 14 (RFC 4960 3.3.13)."
	case CodeErrChunkTooShort:
		return "The value of a FORWARD-TSN (RFC 3758 3.2), I-FORWARD-TSN (RFC 8260 2.3.1) or RECONFIG (RFC 6525 3.1) has under four bytes, or the pairs of a FORWARD-TSN are followed by one to three."
	case CodeErrChunkPayloadSmall:
		return "A DATA chunk's value has under 12 bytes, which stand before the user data (RFC 4960 3.3.1)."
	case CodeErrChunkValueNotLongEnough:
		return "The value of an INIT or INIT-ACK has under 16 bytes (RFC 4960 3.3.2)."
	case CodeErrChunkTypeInitFlagZero:
		return "An INIT or INIT-ACK has flags other than 0. RFC 4960 3.3.2 has a receiver ignore them; here the chunk is refused."
	case CodeErrChunkTypeInitInitiateTagZero:
		return "Not answered by a call of this library: the initiate tag is 0 (RFC 4960 3.3.2)."
	case CodeErrInitInboundStreamRequestZero:
		return "Not answered by a call of this library: the number of inbound streams is 0 (RFC 4960 3.3.2)."
	case CodeErrInitOutboundStreamRequestZero:
		return "Not answered by a call of this library: the number of outbound streams is 0 (RFC 4960 3.3.2)."
	case CodeErrInitAdvertisedReceiver1500:
		return "Not answered by a call of this library: the credit is under 1,500 bytes (RFC 4960 6)."
	case CodeErrHeartbeatNotLongEnoughInfo:
		return "The value of a HEARTBEAT or HEARTBEAT-ACK has under four bytes, which the header of its parameter takes (RFC 4960 3.3.5, 3.3.6)."
	case CodeErrHeartbeatParam:
		return "The parameter of a HEARTBEAT or HEARTBEAT-ACK can be read, and its type is not 1 (RFC 4960 3.3.5)."
	case CodeErrHeartbeatAckParams:
		return "A HEARTBEAT-ACK that is to be written has no parameter, or more than one (RFC 4960 3.3.6)."
	case CodeErrHeartbeatAckNotHeartbeatInfo:
		return "The one parameter of a HEARTBEAT-ACK that is to be written is no Heartbeat Info (RFC 4960 3.3.6)."
	case CodeErrChunkReconfigInvalidParamA:
		return "A RECONFIG that is to be written or is checked has no first parameter (RFC 6525 3.1)."
	case CodeErrChunkReconfigInvalidParamCombination:
		return "Not answered by a call of this library: its two parameters' types may not stand together (RFC 6525 3.1)."
	case CodeErrSackSizeNotLargeEnoughInfo:
		return "The value of a SACK has under 12 bytes, or fewer than 12 and four for each of the blocks and duplicates that it counts (RFC 4960 3.3.4)."
	case CodeErrInvalidChunkSize:
		return "The value of a SHUTDOWN has not exactly four bytes (RFC 4960 3.3.8)."
	case CodeErrErrorCauseTooSmall:
		return "An error cause has under four bytes, a length under four, or a length past the bytes that are there (RFC 4960 3.3.10)."
	case CodeErrParamHeaderTooShort:
		return "A parameter has under four bytes, a length under four, or a length past the bytes that are there (RFC 4960 3.2.1)."
	case CodeErrParamTypeUnhandled:
		return "A parameter of type typ is of no kind, and the type's highest bit is not set: reading is to stop (RFC 4960 3.2.1)."
	case CodeErrParamTypeUnexpected:
		return "A parameter is of another type than the call reads (RFC 6525 4)."
	case CodeErrSsnResetRequestParamTooShort:
		return "The value of an Outgoing SSN Reset Request has under 12 bytes (RFC 6525 4.1), or that of a request has no number."
	case CodeErrSsnResetRequestParamInvalidLength:
		return "The value of an Outgoing SSN Reset Request has 12 bytes or more, an odd number of them (RFC 6525 4.1), or that of another request has another length than its type gives it (4.2, 4.3, 4.5, 4.6)."
	case CodeErrReconfigRespParamTooShort:
		return "The value of a Re-configuration Response has under eight bytes (RFC 6525 4.4)."
	case CodeErrInvalidAlgorithmType:
		return "A Requested HMAC Algorithm names another number than 1 or 3 (RFC 4895 3.3)."
	case CodeErrSupportedAddressTypesParamInvalidLength:
		return "The value of a Supported Address Types has an odd number of bytes (RFC 4960 3.3.2.1)."
	case CodeErrShortBuffer:
		return "Not answered by a call of this library: the message is longer than the buffer, which is filled with the message's beginning."
	case CodeNotAsGiven:
		return "It can't be written as it was given: a chunk whose value is read as another one."
	}
	return "A code that this version doesn't know."
}
