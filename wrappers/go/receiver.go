package sctprattle

/*
#include <sctpr.h>
static size_t least_window(uint32_t size, uint32_t fragment) { return SCTPR_LEAST_WINDOW(size, fragment == 0 ? 1 : fragment); }
static size_t credit(uint32_t left, uint32_t fragment) { return SCTPR_CREDIT(left, fragment == 0 ? 1 : fragment); }
*/
import "C"

// A Receiver is the receiving half of an association: what came and was not read (RFC 4960 6.2, 6.5, 6.6, 6.9).
type Receiver struct {
	_      noCopy
	handle C.sctpr_receiver
}

// An Arrival is what became of a DATA chunk that was taken.
type Arrival int

const (
	// Repeat: its TSN came before.
	Repeat Arrival = iota
	// Added: its TSN is new.
	Added
	// Completed: its TSN is new, and a message of its stream became complete with it.
	Completed
)

// A Message is a message that was read.
type Message struct {
	Bytes       []byte
	PayloadType uint32
}

// LeastWindow is the least window in which a message of so many bytes fits, in chunks of fragment bytes of user data each: in a smaller one a
// message may never fit. A fragment of 0 counts as 1.
func LeastWindow(maxMessageSize, fragment uint32) int {
	return int(C.least_window(C.uint32_t(maxMessageSize), C.uint32_t(fragment)))
}

// NewReceiver makes a receiver with no stream, to which nothing came: firstTSN is expected next, a message may have maxMessageSize bytes.
// About window bytes are held at most, and no TSN farther than reach past the cumulative one.
func NewReceiver(firstTSN, maxMessageSize uint32, window int, reach uint32) (*Receiver, error) {
	if window < 0 {
		return nil, CodeInvalid
	}
	r := new(Receiver)
	code := C.sctpr_receiver_new(C.uint32_t(firstTSN), C.uint32_t(maxMessageSize), C.size_t(window), C.uint32_t(reach), &r.handle)
	if err := errorOf(code, 0); err != nil {
		return nil, err
	}
	return r, nil
}

// NewUnlimitedReceiver makes one with no limits: for a peer that is trusted, or a replay.
func NewUnlimitedReceiver(firstTSN, maxMessageSize uint32) (*Receiver, error) {
	r := new(Receiver)
	if err := errorOf(C.sctpr_receiver_new_unlimited(C.uint32_t(firstTSN), C.uint32_t(maxMessageSize), &r.handle), 0); err != nil {
		return nil, err
	}
	return r, nil
}

// Close frees the receiver and all that it holds. A second Close does nothing, nor does one of nil.
func (r *Receiver) Close() error {
	if r != nil {
		C.sctpr_receiver_free(&r.handle)
	}
	return nil
}

func (r *Receiver) isOpen() bool { return r != nil && r.handle.at != nil }

// Open opens a stream.
func (r *Receiver) Open(stream uint16) error {
	if !r.isOpen() {
		return ErrClosed
	}
	return errorOf(C.sctpr_receiver_open(&r.handle, C.uint16_t(stream)), 0)
}

// CloseStream closes a stream, where it is open: what came on it and was not read is dropped.
func (r *Receiver) CloseStream(stream uint16) error {
	if !r.isOpen() {
		return ErrClosed
	}
	C.sctpr_receiver_close(&r.handle, C.uint16_t(stream))
	return nil
}

// Reset is called where the peer resets a stream (RFC 6525 5.2.2).
func (r *Receiver) Reset(stream uint16, lastTSN uint32) error {
	if !r.isOpen() {
		return ErrClosed
	}
	return errorOf(C.sctpr_receiver_reset(&r.handle, C.uint16_t(stream), C.uint32_t(lastTSN)), 0)
}

// Data takes a DATA chunk.
func (r *Receiver) Data(chunk []byte) (Arrival, error) {
	if !r.isOpen() {
		return Repeat, ErrClosed
	}
	at, length := bytesOf(chunk)
	var complete C.uint8_t
	code := C.sctpr_receiver_data(&r.handle, at, length, &complete)
	switch {
	case code == C.SCTPR_OK && complete != 0:
		return Completed, nil
	case code == C.SCTPR_OK:
		return Added, nil
	}
	return Repeat, errorOf(code, 0)
}

// Discard takes the TSN of a DATA chunk that is dropped: it counts as come (RFC 4960 6.5).
func (r *Receiver) Discard(tsn uint32) (Arrival, error) {
	if !r.isOpen() {
		return Repeat, ErrClosed
	}
	code := C.sctpr_receiver_discard(&r.handle, C.uint32_t(tsn))
	if code == C.SCTPR_OK {
		return Added, nil
	}
	return Repeat, errorOf(code, 0)
}

// ForwardTSN takes a FORWARD-TSN, and answers whether it was past the cumulative TSN, and was followed.
func (r *Receiver) ForwardTSN(chunk []byte) (bool, error) {
	if !r.isOpen() {
		return false, ErrClosed
	}
	at, length := bytesOf(chunk)
	code := C.sctpr_receiver_forward_tsn(&r.handle, at, length)
	return code == C.SCTPR_OK, errorOf(code, 0)
}

// ForwardTSNPastClosed does the same, but what it names on a stream that is not open is passed over.
func (r *Receiver) ForwardTSNPastClosed(chunk []byte) (bool, error) {
	if !r.isOpen() {
		return false, ErrClosed
	}
	at, length := bytesOf(chunk)
	code := C.sctpr_receiver_forward_tsn_past_closed(&r.handle, at, length)
	return code == C.SCTPR_OK, errorOf(code, 0)
}

// Next tells the length and the payload type of the next message of a stream; ok is false where there is none.
func (r *Receiver) Next(stream uint16) (size int, payloadType uint32, ok bool, err error) {
	if !r.isOpen() {
		return 0, 0, false, ErrClosed
	}
	var n C.size_t
	var t C.uint32_t
	code := C.sctpr_receiver_next_length(&r.handle, C.uint16_t(stream), &n, &t)
	return int(n), uint32(t), code == C.SCTPR_OK, errorOf(code, 0)
}

// ReadInto takes the next message of a stream out, to the front of a buffer; ok is false where there is none.
func (r *Receiver) ReadInto(stream uint16, out []byte) (size int, payloadType uint32, ok bool, err error) {
	if !r.isOpen() {
		return 0, 0, false, ErrClosed
	}
	to, room := bytesOf(out)
	var n C.size_t
	var t C.uint32_t
	code := C.sctpr_receiver_read(&r.handle, C.uint16_t(stream), to, room, &n, &t)
	return int(n), uint32(t), code == C.SCTPR_OK, errorOf(code, n)
}

// Read takes the next message of a stream out; nil where there is none.
func (r *Receiver) Read(stream uint16) (*Message, error) {
	size, _, ok, err := r.Next(stream)
	if err != nil || !ok {
		return nil, err
	}
	bytes := make([]byte, size)
	_, payloadType, _, err := r.ReadInto(stream, bytes)
	if err != nil {
		return nil, err
	}
	return &Message{bytes, payloadType}, nil
}

// ReadableStreams are the streams with a message to read, in the order in which they were opened; where one was closed, the last one
// stands in its place.
func (r *Receiver) ReadableStreams() ([]uint16, error) {
	if !r.isOpen() {
		return nil, ErrClosed
	}
	var count C.size_t
	code := C.sctpr_receiver_readable_streams(&r.handle, nil, 0, &count)
	if code != C.SCTPR_SHORT_BUFFER {
		return nil, errorOf(code, 0)
	}
	rows := make([]C.uint16_t, count)
	if err := errorOf(C.sctpr_receiver_readable_streams(&r.handle, &rows[0], count, &count), count); err != nil {
		return nil, err
	}
	streams := make([]uint16, least(count, len(rows)))
	for i := range streams {
		streams[i] = uint16(rows[i])
	}
	return streams, nil
}

// WriteSack writes the SACK of what came, as much of it as there is room for, and answers how many bytes it has.
func (r *Receiver) WriteSack(out []byte) (int, error) {
	if !r.isOpen() {
		return 0, ErrClosed
	}
	to, room := bytesOf(out)
	var n C.size_t
	err := errorOf(C.sctpr_receiver_sack(&r.handle, to, room, &n), 16)
	return written(n, err)
}

// CumulativeTSN is the TSN up to which all came, or was skipped.
func (r *Receiver) CumulativeTSN() uint32 {
	if !r.isOpen() {
		return 0
	}
	return uint32(C.sctpr_receiver_cumulative_tsn(&r.handle))
}

// Window is the window to advertise, in bytes.
func (r *Receiver) Window() uint32 {
	if !r.isOpen() {
		return 0
	}
	return uint32(C.sctpr_receiver_window(&r.handle))
}

// Credit is the credit within which none of a peer's chunks is refused as the window is full, where each has fragment bytes of user data or
// more; a fragment of 0 counts as 1. A SACK tells Window: a caller whose peer sends short messages puts this into the bytes 8 to 11 of each
// SACK, and tells it in its INIT (RFC 9260 3.3.4).
func (r *Receiver) Credit(fragment uint32) uint32 {
	return uint32(C.credit(C.uint32_t(r.Window()), C.uint32_t(fragment)))
}

// HeldBytes is what is held and was not read: its bytes, and 400 for each chunk.
func (r *Receiver) HeldBytes() uint64 {
	if !r.isOpen() {
		return 0
	}
	return uint64(C.sctpr_receiver_held_bytes(&r.handle))
}
