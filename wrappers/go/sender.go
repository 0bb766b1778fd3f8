package sctprattle

/*
#include <sctpr.h>
*/
import "C"

// A Sender is the sending half of an association: what was written and is not yet acknowledged (RFC 4960 6.1, 6.2.1, 6.9; RFC 3758). Times
// are in nanoseconds from any one moment.
type Sender struct {
	_      noCopy
	handle C.sctpr_sender
}

// A Reliability is how long a message is sent for.
type Reliability uint32

const (
	// Reliable: until it is acknowledged.
	Reliable = Reliability(C.SCTPR_RELIABLE)
	// Rexmit: so often after the first sending (RFC 7496 3.1).
	Rexmit = Reliability(C.SCTPR_REXMIT)
	// Timed: so many milliseconds (RFC 3758 4.1).
	Timed = Reliability(C.SCTPR_TIMED)
)

// An InFlight is a chunk in flight. Size is 0 where it is acknowledged or abandoned; SentAt is when it was sent last, 0 of a chunk that
// stands for what was never sent.
type InFlight struct {
	Size                                int
	Message, SentAt                     uint64
	TSN, Sent, PayloadType              uint32
	Stream, Sequence                    uint16
	Unordered, Acked, Abandoned, Marked bool
}

// An Acked is a chunk that a SACK acknowledged. Sent is how often it was sent: one that was sent once alone tells the round trip time.
// HasSentAt is false of a chunk that stood for what was never sent. MessageAcked: its message is acknowledged whole now. Low: with it the
// buffered amount of its stream fell to the low threshold.
type Acked struct {
	Bytes                        int
	Message, SentAt              uint64
	TSN, Sent                    uint32
	Stream                       uint16
	HasSentAt, MessageAcked, Low bool
}

// An Outstanding is what is in flight, and neither acknowledged nor abandoned. Bytes and Chunks leave out what is marked for retransmission:
// Bytes is the flight size (RFC 9260 6.2.1 B, 7.2). Marked is how many chunks are marked.
type Outstanding struct {
	Bytes, Chunks, Marked int
}

// A TakenBack is a chunk whose acknowledgement a SACK took back.
type TakenBack struct {
	Bytes   int
	Message uint64
	TSN     uint32
	Stream  uint16
}

// An Abandoned is a message that was abandoned: how many of its bytes left.
type Abandoned struct {
	Bytes  int
	Number uint64
	Stream uint16
	Low    bool
}

// An Expired is a message that expired before any of it was sent.
type Expired struct {
	Bytes  int
	Stream uint16
	Low    bool
}

// NewSender makes a sender with no stream, whose first chunk gets firstTSN. A chunk has fragmentSize bytes of user data at most, a message
// maxMessageSize. With keepsReported what gap ack blocks report is kept until the cumulative TSN passes it, so that it can be taken back.
func NewSender(firstTSN, fragmentSize, maxMessageSize uint32, keepsReported bool) (*Sender, error) {
	s := new(Sender)
	keeps := C.uint8_t(0)
	if keepsReported {
		keeps = 1
	}
	code := C.sctpr_sender_new(C.uint32_t(firstTSN), C.uint32_t(fragmentSize), C.uint32_t(maxMessageSize), keeps, &s.handle)
	if err := errorOf(code, 0); err != nil {
		return nil, err
	}
	return s, nil
}

// Close frees the sender and all that it holds. A second Close does nothing, nor does one of nil.
func (s *Sender) Close() error {
	if s != nil {
		C.sctpr_sender_free(&s.handle)
	}
	return nil
}

func (s *Sender) isOpen() bool { return s != nil && s.handle.at != nil }

// Open opens a stream, ordered and reliable.
func (s *Sender) Open(stream uint16) error {
	if !s.isOpen() {
		return ErrClosed
	}
	return errorOf(C.sctpr_sender_open(&s.handle, C.uint16_t(stream)), 0)
}

// CloseStream closes a stream, where it is open. What waits and is in flight of it goes on.
func (s *Sender) CloseStream(stream uint16) error {
	if !s.isOpen() {
		return ErrClosed
	}
	C.sctpr_sender_close(&s.handle, C.uint16_t(stream))
	return nil
}

// SetMode sets the mode of later writes to a stream. Value counts sendings or milliseconds, and means nothing of a reliable one.
func (s *Sender) SetMode(stream uint16, unordered bool, reliability Reliability, value uint32) error {
	if !s.isOpen() {
		return ErrClosed
	}
	return errorOf(C.sctpr_sender_set_mode(&s.handle, C.uint16_t(stream), flag(unordered), C.uint32_t(reliability), C.uint32_t(value)), 0)
}

// SetFragmentSize sets how many bytes of user data a chunk of a later write has at most.
func (s *Sender) SetFragmentSize(size uint32) error {
	if !s.isOpen() {
		return ErrClosed
	}
	return errorOf(C.sctpr_sender_set_fragment_size(&s.handle, C.uint32_t(size)), 0)
}

// SetLowThreshold sets the buffered amount of a stream, in bytes, down to which a fall is told.
func (s *Sender) SetLowThreshold(stream uint16, bytes int) error {
	if !s.isOpen() {
		return ErrClosed
	}
	if bytes < 0 {
		return CodeInvalid
	}
	return errorOf(C.sctpr_sender_set_low_threshold(&s.handle, C.uint16_t(stream), C.size_t(bytes)), 0)
}

// Reset resets a stream (RFC 6525 5.1.2).
func (s *Sender) Reset(stream uint16) error {
	if !s.isOpen() {
		return ErrClosed
	}
	return errorOf(C.sctpr_sender_reset(&s.handle, C.uint16_t(stream)), 0)
}

// Write takes a copy of a message, and answers its number and how many chunks it has: none where it has no bytes, and nothing changed.
func (s *Sender) Write(stream uint16, payloadType uint32, message []byte) (number uint64, fragments int, err error) {
	if !s.isOpen() {
		return 0, 0, ErrClosed
	}
	at, length := bytesOf(message)
	var id C.uint64_t
	var n C.size_t
	code := C.sctpr_sender_write(&s.handle, C.uint16_t(stream), C.uint32_t(payloadType), at, length, &id, &n)
	return uint64(id), int(n), errorOf(code, 0)
}

// Start starts the lifetimes of the messages written since the last time.
func (s *Sender) Start(now uint64) error {
	if !s.isOpen() {
		return ErrClosed
	}
	C.sctpr_sender_start(&s.handle, C.uint64_t(now))
	return nil
}

// SendNext puts the fragment that is next in flight under a TSN, and writes its DATA chunk, of so many bytes; 0 bytes where nothing waits.
func (s *Sender) SendNext(now uint64, out []byte) (size int, tsn uint32, err error) {
	if !s.isOpen() {
		return 0, 0, ErrClosed
	}
	to, room := bytesOf(out)
	var n C.size_t
	var t C.uint32_t
	code := C.sctpr_sender_send_next(&s.handle, C.uint64_t(now), to, room, &n, &t)
	if code != C.SCTPR_OK {
		return 0, 0, errorOf(code, n)
	}
	return int(n), uint32(t), nil
}

// Resend writes a chunk in flight again, and answers how many bytes that are.
func (s *Sender) Resend(tsn uint32, now uint64, out []byte) (int, error) {
	if !s.isOpen() {
		return 0, ErrClosed
	}
	to, room := bytesOf(out)
	var n C.size_t
	err := errorOf(C.sctpr_sender_resend(&s.handle, C.uint32_t(tsn), C.uint64_t(now), to, room, &n), n)
	return written(n, err)
}

// RetransmitAll marks each outstanding chunk for retransmission.
func (s *Sender) RetransmitAll() error {
	if !s.isOpen() {
		return ErrClosed
	}
	C.sctpr_sender_retransmit_all(&s.handle)
	return nil
}

// AddMissIndications counts each outstanding chunk before a TSN as missing once more, marks what is missing for the third time, and
// answers how many are marked now.
func (s *Sender) AddMissIndications(before uint32) int {
	if !s.isOpen() {
		return 0
	}
	return int(C.sctpr_sender_add_miss_indications(&s.handle, C.uint32_t(before)))
}

func inFlightOf(r C.struct_sctpr_in_flight) InFlight {
	return InFlight{
		int(r.size), uint64(r.message), uint64(r.sent_at), uint32(r.tsn), uint32(r.sent), uint32(r.payload_type), uint16(r.stream),
		uint16(r.sequence), r.is_unordered != 0, r.is_acked != 0, r.is_abandoned != 0, r.is_marked != 0,
	}
}

// InFlight is the chunk in flight with a TSN; ok is false where there is none.
func (s *Sender) InFlight(tsn uint32) (chunk InFlight, ok bool) {
	var row C.struct_sctpr_in_flight
	if !s.isOpen() || C.sctpr_sender_in_flight(&s.handle, C.uint32_t(tsn), &row) != C.SCTPR_OK {
		return InFlight{}, false
	}
	return inFlightOf(row), true
}

// InFlightAt is the chunk in flight at a place, from 0 on; ok is false where there is none.
func (s *Sender) InFlightAt(place int) (chunk InFlight, ok bool) {
	var row C.struct_sctpr_in_flight
	if !s.isOpen() || place < 0 || C.sctpr_sender_in_flight_at(&s.handle, C.size_t(place), &row) != C.SCTPR_OK {
		return InFlight{}, false
	}
	return inFlightOf(row), true
}

// NextToRetransmit is the first chunk that is marked for retransmission; ok is false where there is none.
func (s *Sender) NextToRetransmit() (chunk InFlight, ok bool) {
	var row C.struct_sctpr_in_flight
	if !s.isOpen() || C.sctpr_sender_next_to_retransmit(&s.handle, &row) != C.SCTPR_OK {
		return InFlight{}, false
	}
	return inFlightOf(row), true
}

// Acked takes a SACK, and answers the chunks that it reports anew; isNew is false where it is out of date.
func (s *Sender) Acked(chunk []byte) (acked []Acked, isNew bool, err error) {
	return s.acked(func(rows *C.struct_sctpr_acked, room C.size_t, count *C.size_t) C.sctpr_code {
		at, length := bytesOf(chunk)
		return C.sctpr_sender_acked(&s.handle, at, length, rows, room, count)
	})
}

// AckedUpTo takes the TSN of a SHUTDOWN, as a SACK (RFC 4960 9.2).
func (s *Sender) AckedUpTo(tsn uint32) (acked []Acked, isNew bool, err error) {
	return s.acked(func(rows *C.struct_sctpr_acked, room C.size_t, count *C.size_t) C.sctpr_code {
		return C.sctpr_sender_acked_up_to(&s.handle, C.uint32_t(tsn), rows, room, count)
	})
}

func (s *Sender) acked(take func(*C.struct_sctpr_acked, C.size_t, *C.size_t) C.sctpr_code) ([]Acked, bool, error) {
	if !s.isOpen() {
		return nil, false, ErrClosed
	}
	rows := make([]C.struct_sctpr_acked, C.sctpr_sender_chunks_in_flight(&s.handle)+1)
	var count C.size_t
	code := take(&rows[0], C.size_t(len(rows)), &count)
	if err := errorOf(code, count); err != nil {
		return nil, false, err
	}
	acked := make([]Acked, least(count, len(rows)))
	for i := range acked {
		r := rows[i]
		acked[i] = Acked{
			int(r.bytes), uint64(r.message), uint64(r.sent_at), uint32(r.tsn), uint32(r.sent), uint16(r.stream),
			r.has_sent_at != 0, r.is_message_acked != 0, r.is_low != 0,
		}
	}
	return acked, code == C.SCTPR_OK, nil
}

// TakeBack takes back what a SACK no longer reports, before Acked with the same SACK; isNew is false where it is out of date.
func (s *Sender) TakeBack(chunk []byte) (chunks []TakenBack, isNew bool, err error) {
	if !s.isOpen() {
		return nil, false, ErrClosed
	}
	at, length := bytesOf(chunk)
	rows := make([]C.struct_sctpr_taken_back, C.sctpr_sender_chunks_in_flight(&s.handle)+1)
	var count C.size_t
	code := C.sctpr_sender_take_back(&s.handle, at, length, &rows[0], C.size_t(len(rows)), &count)
	if err := errorOf(code, count); err != nil {
		return nil, false, err
	}
	chunks = make([]TakenBack, least(count, len(rows)))
	for i := range chunks {
		chunks[i] = TakenBack{int(rows[i].bytes), uint64(rows[i].message), uint32(rows[i].tsn), uint16(rows[i].stream)}
	}
	return chunks, code == C.SCTPR_OK, nil
}

func abandonedOf(r C.struct_sctpr_abandoned) Abandoned {
	return Abandoned{int(r.bytes), uint64(r.number), uint16(r.stream), r.is_low != 0}
}

// Abandon abandons the message of a chunk in flight.
func (s *Sender) Abandon(tsn uint32) (Abandoned, error) {
	if !s.isOpen() {
		return Abandoned{}, ErrClosed
	}
	var row C.struct_sctpr_abandoned
	err := errorOf(C.sctpr_sender_abandon(&s.handle, C.uint32_t(tsn), &row), 0)
	return abandonedOf(row), err
}

// Expire removes the message in front, where it is past its deadline and wholly unsent; ok is false where there is none.
func (s *Sender) Expire(now uint64) (message Expired, ok bool) {
	var r C.struct_sctpr_expired
	if !s.isOpen() || C.sctpr_sender_expire(&s.handle, C.uint64_t(now), &r) != C.SCTPR_OK {
		return Expired{}, false
	}
	return Expired{int(r.bytes), uint16(r.stream), r.is_low != 0}, true
}

// ExpireTail abandons the rest of the partially sent message in front, where it is past its deadline; ok is false where there is none.
func (s *Sender) ExpireTail(now uint64) (message Abandoned, ok bool, err error) {
	if !s.isOpen() {
		return Abandoned{}, false, ErrClosed
	}
	var row C.struct_sctpr_abandoned
	code := C.sctpr_sender_expire_tail(&s.handle, C.uint64_t(now), &row)
	return abandonedOf(row), code == C.SCTPR_OK, errorOf(code, 0)
}

// ExpireLate abandons each message in flight that is past its deadline.
func (s *Sender) ExpireLate(now uint64) ([]Abandoned, error) {
	return s.abandonAll(func(rows *C.struct_sctpr_abandoned, room C.size_t, count *C.size_t) C.sctpr_code {
		return C.sctpr_sender_expire_late(&s.handle, C.uint64_t(now), rows, room, count)
	})
}

// ExpireRexmit abandons each message in flight that was sent again as often as it may be.
func (s *Sender) ExpireRexmit() ([]Abandoned, error) {
	return s.abandonAll(func(rows *C.struct_sctpr_abandoned, room C.size_t, count *C.size_t) C.sctpr_code {
		return C.sctpr_sender_expire_rexmit(&s.handle, rows, room, count)
	})
}

func (s *Sender) abandonAll(expire func(*C.struct_sctpr_abandoned, C.size_t, *C.size_t) C.sctpr_code) ([]Abandoned, error) {
	if !s.isOpen() {
		return nil, ErrClosed
	}
	rows := make([]C.struct_sctpr_abandoned, C.sctpr_sender_chunks_in_flight(&s.handle)+1)
	var count C.size_t
	if err := errorOf(expire(&rows[0], C.size_t(len(rows)), &count), count); err != nil {
		return nil, err
	}
	abandoned := make([]Abandoned, least(count, len(rows)))
	for i := range abandoned {
		abandoned[i] = abandonedOf(rows[i])
	}
	return abandoned, nil
}

// WriteForwardTSN writes the FORWARD-TSN that is to be sent, and answers how many bytes it has: none where there is nothing to tell.
func (s *Sender) WriteForwardTSN(out []byte) (int, error) {
	if !s.isOpen() {
		return 0, ErrClosed
	}
	to, room := bytesOf(out)
	var n C.size_t
	err := errorOf(C.sctpr_sender_forward_tsn(&s.handle, to, room, &n), n)
	return written(n, err)
}

// WriteForwardTSNTo writes the FORWARD-TSN up to a TSN, or to the last TSN before it at which a message ends.
func (s *Sender) WriteForwardTSNTo(tsn uint32, out []byte) (int, error) {
	if !s.isOpen() {
		return 0, ErrClosed
	}
	to, room := bytesOf(out)
	var n C.size_t
	err := errorOf(C.sctpr_sender_forward_tsn_to(&s.handle, C.uint32_t(tsn), to, room, &n), n)
	return written(n, err)
}

// NextTSN is the TSN that the next chunk gets.
func (s *Sender) NextTSN() uint32 {
	if !s.isOpen() {
		return 0
	}
	return uint32(C.sctpr_sender_next_tsn(&s.handle))
}

// AckedTSN is the TSN up to which all was acknowledged.
func (s *Sender) AckedTSN() uint32 {
	if !s.isOpen() {
		return 0
	}
	return uint32(C.sctpr_sender_acked_tsn(&s.handle))
}

// AdvancedAckPoint is the Advanced.Peer.Ack.Point (RFC 3758 3.5 C2).
func (s *Sender) AdvancedAckPoint() uint32 {
	if !s.isOpen() {
		return 0
	}
	return uint32(C.sctpr_sender_advanced_ack_point(&s.handle))
}

// BytesInFlight is how many bytes of user data are in flight.
func (s *Sender) BytesInFlight() int {
	if !s.isOpen() {
		return 0
	}
	return int(C.sctpr_sender_bytes_in_flight(&s.handle))
}

// Outstanding is what is outstanding; all is 0 where the sender is closed.
func (s *Sender) Outstanding() Outstanding {
	if !s.isOpen() {
		return Outstanding{}
	}
	var row C.struct_sctpr_outstanding
	C.sctpr_sender_outstanding(&s.handle, &row)
	return Outstanding{int(row.bytes), int(row.chunks), int(row.marked)}
}

// ChunksInFlight is how many chunks are in flight.
func (s *Sender) ChunksInFlight() int {
	if !s.isOpen() {
		return 0
	}
	return int(C.sctpr_sender_chunks_in_flight(&s.handle))
}

// EarliestOutstanding is the first TSN in flight that is neither acknowledged nor abandoned; ok is false where there is none.
func (s *Sender) EarliestOutstanding() (tsn uint32, ok bool) {
	var t C.uint32_t
	if !s.isOpen() || C.sctpr_sender_earliest_outstanding(&s.handle, &t) != C.SCTPR_OK {
		return 0, false
	}
	return uint32(t), true
}

// NextTimeout is the next moment at which a lifetime ends; ok is false where none runs.
func (s *Sender) NextTimeout() (at uint64, ok bool) {
	var t C.uint64_t
	if !s.isOpen() || C.sctpr_sender_next_timeout(&s.handle, &t) != C.SCTPR_OK {
		return 0, false
	}
	return uint64(t), true
}

// Pending is how many fragments wait.
func (s *Sender) Pending() int {
	if !s.isOpen() {
		return 0
	}
	return int(C.sctpr_sender_pending(&s.handle))
}

// BufferedAmount is how many bytes of user data of a stream wait or are in flight.
func (s *Sender) BufferedAmount(stream uint16) (int, error) {
	if !s.isOpen() {
		return 0, ErrClosed
	}
	var amount C.size_t
	err := errorOf(C.sctpr_sender_buffered_amount(&s.handle, C.uint16_t(stream), &amount), 0)
	return int(amount), err
}

// Drained says whether nothing of a stream waits or is in flight.
func (s *Sender) Drained(stream uint16) bool {
	return s.isOpen() && C.sctpr_sender_is_drained(&s.handle, C.uint16_t(stream)) != 0
}
