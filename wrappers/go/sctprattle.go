// Package sctprattle is SCTP's lower layer for WebRTC data channels (RFC 4960, RFC 3758, RFC 8831): packets, and the two halves of an
// association, over the static library of sctpr.h. There is no clock, socket, thread or random source in it.
//
// ReadPacket reads a datagram, the functions Read.. one of its chunks. A packet is written into a buffer from byte 12 on, by the functions
// Write.. and the methods of a Sender and a Receiver, and at last SealPacket. What each call promises, and when it refuses, is said in
// sctpr.h; what it was to change is as it was then. An error is a Code, or, where a buffer is too short, a *ShortBufferError; errors.Is
// compares both with a Code.
//
// A Sender or Receiver is never copied (go vet tells where one is), used by one goroutine at a time, and freed by Close. After Close, and of
// nil, its methods answer ErrClosed, or 0.
package sctprattle

/*
#cgo pkg-config: --static sctp-rattle
#include <sctpr.h>
*/
import "C"

import (
	"errors"
	"fmt"
	"unsafe"
)

// ErrClosed is what the methods of a Sender or Receiver answer after Close, and those of nil.
var ErrClosed = errors.New("sctprattle: closed")

// noCopy has go vet tell of a copy: two copies of a handle would free the same memory.
type noCopy struct{}

func (*noCopy) Lock()   {}
func (*noCopy) Unlock() {}

// Name is the name that sctpr.h has for a code: "SCTPR_NO_MEMORY".
func (c Code) Name() string {
	var text [C.SCTPR_NAME_ROOM]C.uint8_t
	var n C.size_t
	if C.sctpr_code_name(C.sctpr_code(c), &text[0], C.SCTPR_NAME_ROOM, &n) != C.SCTPR_OK || n == 0 {
		return ""
	}
	return C.GoStringN((*C.char)(unsafe.Pointer(&text[0])), C.int(n-1))
}

// Error is what a code means, with its name.
func (c Code) Error() string { return fmt.Sprintf("sctprattle: %s (%s)", c.text(), c.Name()) }

// A ShortBufferError says that a buffer or a slice of rows is too short.
type ShortBufferError struct {
	// Wanted is how many bytes, or rows, are enough.
	Wanted int
}

func (e *ShortBufferError) Error() string {
	return fmt.Sprintf("%s: %d are wanted", CodeShortBuffer.Error(), e.Wanted)
}

// Is says that the error is CodeShortBuffer.
func (e *ShortBufferError) Is(target error) bool { return target == error(CodeShortBuffer) }

// Version is the version of the library that was linked: major, minor and patch.
func Version() (major, minor, patch int) {
	v := uint32(C.sctpr_version())
	return int(v >> 16), int(v >> 8 & 255), int(v & 255)
}

// errorOf is nil where the call was done.
func errorOf(code C.sctpr_code, wanted C.size_t) error {
	switch {
	case code < C.SCTPR_NO_MEMORY:
		return nil
	case code == C.SCTPR_SHORT_BUFFER:
		return &ShortBufferError{int(wanted)}
	}
	return Code(code)
}

// bytesOf lends a slice to a call.
func bytesOf(b []byte) (*C.uint8_t, C.size_t) {
	if len(b) == 0 {
		return nil, 0
	}
	return (*C.uint8_t)(unsafe.Pointer(&b[0])), C.size_t(len(b))
}

// least is the length of what was told, as much of it as there is room for.
func least(count C.size_t, room int) int {
	if uint64(count) < uint64(room) {
		return int(count)
	}
	return room
}

// Chunk types (RFC 4960 3.2, RFC 6525 3, RFC 3758 3.2).
const (
	ChunkData             = uint8(C.SCTPR_DATA)
	ChunkInit             = uint8(C.SCTPR_INIT)
	ChunkInitAck          = uint8(C.SCTPR_INIT_ACK)
	ChunkSack             = uint8(C.SCTPR_SACK)
	ChunkHeartbeat        = uint8(C.SCTPR_HEARTBEAT)
	ChunkHeartbeatAck     = uint8(C.SCTPR_HEARTBEAT_ACK)
	ChunkAbort            = uint8(C.SCTPR_ABORT)
	ChunkShutdown         = uint8(C.SCTPR_SHUTDOWN)
	ChunkShutdownAck      = uint8(C.SCTPR_SHUTDOWN_ACK)
	ChunkError            = uint8(C.SCTPR_ERROR)
	ChunkCookieEcho       = uint8(C.SCTPR_COOKIE_ECHO)
	ChunkCookieAck        = uint8(C.SCTPR_COOKIE_ACK)
	ChunkShutdownComplete = uint8(C.SCTPR_SHUTDOWN_COMPLETE)
	ChunkReconfig         = uint8(C.SCTPR_RECONFIG)
	ChunkForwardTSN       = uint8(C.SCTPR_FORWARD_TSN)
)

// FlagT is the flag T of an ABORT or SHUTDOWN-COMPLETE (RFC 4960 3.3.7, 3.3.13, 8.5.1).
const FlagT = uint8(C.SCTPR_FLAG_T)

// What user data are (RFC 8831 8). Any number is read as it came, and a Sender sends the number that it was given (RFC 9260 3.3.1).
const (
	PPIDDCEP        = uint32(C.SCTPR_PPID_DCEP)
	PPIDString      = uint32(C.SCTPR_PPID_STRING)
	PPIDBinary      = uint32(C.SCTPR_PPID_BINARY)
	PPIDStringEmpty = uint32(C.SCTPR_PPID_STRING_EMPTY)
	PPIDBinaryEmpty = uint32(C.SCTPR_PPID_BINARY_EMPTY)
	PPIDOther       = uint32(C.SCTPR_PPID_OTHER)
)
