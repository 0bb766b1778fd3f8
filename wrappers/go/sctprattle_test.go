package sctprattle

import (
	"bytes"
	"encoding/binary"
	"errors"
	"reflect"
	"strings"
	"testing"
)

// Each call: what it answers where it is done, where there is nothing, and where it is refused.

func check(t *testing.T, what string, is bool) {
	t.Helper()
	if !is {
		t.Errorf("not so: %s", what)
	}
}

func must(t *testing.T, err error) {
	t.Helper()
	if err != nil {
		t.Fatal(err)
	}
}

func is(t *testing.T, err error, code Code) {
	t.Helper()
	if !errors.Is(err, code) {
		t.Errorf("%v, not %v", err, code)
	}
}

func wants(t *testing.T, err error, wanted int) {
	t.Helper()
	var short *ShortBufferError
	if !errors.As(err, &short) || !errors.Is(err, CodeShortBuffer) || short.Wanted != wanted {
		t.Errorf("%v, and not that %d are wanted", err, wanted)
	}
}

func TestCodes(t *testing.T) {
	check(t, "names", CodeNoMemory.Name() == "SCTPR_NO_MEMORY" && Code(1000).Name() == "SCTPR_UNKNOWN")
	check(t, "texts", CodeNoMemory.Error() == "sctprattle: Memory ran out. (SCTPR_NO_MEMORY)")
	check(t, "wanted", strings.HasSuffix((&ShortBufferError{7}).Error(), "7 are wanted"))
	major, minor, _ := Version()
	check(t, "version", major == 0 && minor >= 1)
}

func TestPackets(t *testing.T) {
	head := Head{1, 5000, 5001}
	packet := make([]byte, 16)
	_, err := WriteChunk(ChunkCookieAck, nil, packet[13:])
	wants(t, err, 4)
	wants(t, SealPacket(head, packet[:11]), 12)
	n, err := WriteChunk(ChunkCookieAck, nil, packet[12:])
	check(t, "four bytes", n == 4 && err == nil)
	must(t, SealPacket(head, packet))
	sum := binary.LittleEndian.Uint32(packet[8:])
	got, chunks, err := ReadPacket(packet)
	must(t, err)
	check(t, "read", got == head && len(chunks) == 1 && chunks[0].Type == ChunkCookieAck && len(chunks[0].Value()) == 0)
	must(t, WriteHead(head, packet))
	must(t, StoreSum(sum, packet))
	_, _, err = ReadPacketWithSum(packet, sum)
	must(t, err)
	_, _, err = ReadPacketWithSum(packet, sum+1)
	is(t, err, CodeBadChecksum)
	packet[12] = 132 // PAD (RFC 4820)
	must(t, SealPacket(head, packet))
	_, _, err = ReadPacket(packet)
	is(t, err, CodeUnknownChunk)
	got, unknown, err := ReadAnyPacket(packet)
	check(t, "unknown", err == nil && got == head && len(unknown) == 1 && unknown[0].Type == 132 && !unknown[0].Known && !unknown[0].Reported)
	_, _, err = ReadAnyPacketWithSum(packet, binary.LittleEndian.Uint32(packet[8:]))
	must(t, err)
	packet[0] ^= 1
	_, _, err = ReadPacket(packet)
	is(t, err, CodeBadChecksum)
	_, _, err = ReadPacket(nil)
	is(t, err, CodeErrPacketRawTooSmall)
}

func TestChunks(t *testing.T) {
	sack, err := ReadSack([]byte("\x03\x00\x00\x18\x00\x00\x00\x07\x00\x00\x01\x00\x00\x01\x00\x01\x00\x02\x00\x03\x00\x00\x00\x05"))
	must(t, err)
	check(t, "SACK", reflect.DeepEqual(sack, Sack{7, 256, []Gap{{2, 3}}, []uint32{5}}))
	tsn, streams, err := ReadForwardTSN([]byte("\xc0\x00\x00\x0c\x00\x00\x03\xe8\x00\x03\x00\x04"))
	must(t, err)
	check(t, "FORWARD-TSN", tsn == 1000 && reflect.DeepEqual(streams, []Skip{{3, 4}}))
	data, err := ReadData([]byte("\x00\x03\x00\x12\x00\x00\x00\x01\x00\x02\x00\x03\x00\x00\x00\x33hi"))
	must(t, err)
	check(t, "DATA", reflect.DeepEqual(data, Data{1, PPIDString, 2, 3, false, true, true, false, []byte("hi")}))
	data, err = ReadData([]byte("\x00\x03\x00\x12\x00\x00\x00\x01\x00\x02\x00\x03\x00\x00\x00\x2ehi"))
	check(t, "any payload type", err == nil && data.PayloadType == 46)
	_, err = ReadData([]byte("\x03\x00\x00\x04"))
	is(t, err, CodeErrChunkTypeNotPayloadData)
	tsn, err = ReadShutdown([]byte("\x07\x00\x00\x08\x00\x00\x03\xe8"))
	check(t, "SHUTDOWN", tsn == 1000 && err == nil)
	params, chunk := make([]byte, 8), make([]byte, 64)
	n, err := WriteChunkWithFlags(ChunkAbort, FlagT, nil, chunk)
	check(t, "ABORT", n == 4 && err == nil && chunk[1] == 1)
	n, err = WriteCause(12, []byte("bye"), params)
	check(t, "cause", n == 8 && err == nil)
	cause, rest, err := ReadCause(params)
	check(t, "cause", cause.Code == 12 && string(cause.Value) == "bye" && len(rest) == 0 && err == nil)
	_, _, err = ReadCause([]byte{0})
	is(t, err, CodeErrErrorCauseTooSmall)
	n, err = WriteParam(7, []byte("abc"), params)
	check(t, "parameter", n == 8 && err == nil)
	want := Init{1, 2000, 3, 4, 5, true}
	n, err = WriteInit(want, params, chunk)
	must(t, err)
	init, all, err := ReadInit(chunk[:n])
	check(t, "INIT-ACK", init == want && err == nil)
	param, rest, err := ReadParam(all)
	check(t, "parameter", param.Type == 7 && string(param.Value) == "abc" && len(rest) == 0 && err == nil)
	_, _, err = ReadParam([]byte{0, 7, 0, 9, 1})
	is(t, err, CodeErrParamHeaderTooShort)
}

// The words of a RE-CONFIG, a parameter of an address, and what can't be written or made as it was given.
func TestReconfig(t *testing.T) {
	out := make([]byte, 16)
	n, err := WriteResponse(Response{9, 2}, out)
	check(t, "response", n == 12 && err == nil)
	response, err := ReadResponse(out[:12])
	check(t, "response", response == Response{9, 2} && err == nil)
	_, err = ReadRequest(out[:12])
	is(t, err, CodeErrParamTypeUnexpected)
	reset, err := ReadReset([]byte("\x00\x0d\x00\x12\x00\x00\x00\x01\x00\x00\x00\x02\x00\x00\x00\x03\x00\x04"))
	check(t, "reset", reflect.DeepEqual(reset, Reset{1, 2, 3, []uint16{4}}) && err == nil)
	number, err := ReadRequest([]byte("\x00\x11\x00\x0c\x00\x00\x00\x07\x00\x01\x00\x00"))
	check(t, "request", number == 7 && err == nil)
	n, err = WriteIncomingReset(7, []uint16{5}, out)
	check(t, "incoming reset", n == 12 && err == nil && out[1] == 14 && out[3] == 10 && out[9] == 5)
	number, streams, err := ReadIncomingReset(out[:12])
	check(t, "incoming reset", number == 7 && reflect.DeepEqual(streams, []uint16{5}) && err == nil)
	n, err = WriteAddStreams(AddStreams{8, 3, true}, out)
	check(t, "streams", n == 12 && err == nil && out[1] == 18)
	add, err := ReadAddStreams(out[:12])
	check(t, "streams", add == AddStreams{8, 3, true} && err == nil)
	_, err = ReadAddStreams(out[:11])
	is(t, err, CodeErrParamHeaderTooShort)
	n, err = WriteSSNTSNReset(9, out)
	check(t, "all streams", n == 8 && err == nil && out[1] == 15 && out[7] == 9)
	_, err = WriteReset(reset, out)
	is(t, err, CodeShortBuffer)
	param, rest, err := ReadAnyParam([]byte("\x00\x05\x00\x08\xc0\x00\x02\x01"))
	check(t, "address", param.Type == 5 && len(param.Value) == 4 && len(rest) == 0 && err == nil)
	_, err = WriteChunk(ChunkCookieAck, []byte("a"), out)
	is(t, err, CodeNotAsGiven)
	s, err := NewSender(1, 10, 100, false)
	must(t, err)
	defer s.Close()
	must(t, s.Open(3))
	must(t, s.SetMode(3, true, Rexmit, 1))
	_, _, err = s.Write(3, 99, []byte("a"))
	must(t, err)
	chunk := make([]byte, 20)
	_, _, err = s.SendNext(1, chunk)
	must(t, err)
	data, err := ReadData(chunk)
	check(t, "any payload type", err == nil && data.PayloadType == 99)
}

// What the RFCs allow and ReadPacket refuses: a request behind a SACK (RFC 6525 4.5), a padded cause before another (RFC 9260 3.3.10), an INIT
// with flags, an address and a cookie preservative (3.3.2).
func TestAllowed(t *testing.T) {
	packet := []byte("............\x03\x00\x00\x10\x00\x00\x00\x09\x00\x01\x00\x00\x00\x00\x00\x00" +
		"\x82\x00\x00\x10\x00\x11\x00\x0c\x00\x00\x00\x01\x00\x01\x00\x00")
	must(t, SealPacket(Head{1, 5000, 5001}, packet))
	_, _, err := ReadPacket(packet)
	is(t, err, CodeErrParamTypeUnhandled)
	_, chunks, err := ReadAnyPacket(packet)
	must(t, err)
	check(t, "two chunks", len(chunks) == 2 && chunks[0].Type == ChunkSack && chunks[1].Type == ChunkReconfig && chunks[1].Known)
	number, err := ReadRequest(chunks[1].Value())
	check(t, "request", number == 1 && err == nil)
	cause, rest, err := ReadCause([]byte("\x00\x06\x00\x09\x40\x07\x00\x05v\x00\x00\x00\x00\x0c\x00\x04"))
	check(t, "padded cause", cause.Code == 6 && len(cause.Value) == 5 && err == nil)
	cause, rest, err = ReadCause(rest)
	check(t, "the next cause", cause.Code == 12 && len(rest) == 0 && err == nil)
	init, params, err := ReadInit([]byte("\x01\x05\x00\x24\x00\x00\x00\x07\x00\x01\x00\x00\x00\x08\x00\x10\xff\xff\xff\xf0" +
		"\x00\x05\x00\x08\xc0\x00\x02\x01\x00\x09\x00\x08\x00\x00\x03\xe8"))
	check(t, "INIT with flags", init.InitiateTag == 7 && err == nil)
	address, params, err := ReadAnyParam(params)
	check(t, "address", address.Type == 5 && len(address.Value) == 4 && err == nil)
	cookie, params, err := ReadAnyParam(params)
	check(t, "cookie preservative", cookie.Type == 9 && len(params) == 0 && err == nil)
	check(t, "no chunk", AnyChunk{}.Value() == nil)
}

// The window of a message, and the credit of short ones.
func TestWindows(t *testing.T) {
	check(t, "least windows", LeastWindow(65536, 65519) == 66336 && LeastWindow(1201, 1200) == 2001 && LeastWindow(9, 0) == 3609)
	r, err := NewReceiver(1, 60, 100000, 9)
	must(t, err)
	defer r.Close()
	check(t, "credits", r.Credit(60) == 13020 && r.Credit(0) == 249 && r.Window() == 100000)
	_, err = NewReceiver(1, 65536, 66335, 9)
	is(t, err, CodeInvalid)
	_, err = NewReceiver(1, 65536, 66336, 0)
	is(t, err, CodeInvalid)
	least, err := NewReceiver(1, 65536, 66336, 9)
	must(t, err)
	must(t, least.Close())
}

// What is missing for the third time is told once, when it is newly marked, and is outstanding no more.
func TestMarked(t *testing.T) {
	s, _ := halves(t)
	_, _, err := s.Write(3, PPIDString, []byte("two fragments"))
	must(t, err)
	for i := 0; i < 2; i++ {
		_, _, err = s.SendNext(1, make([]byte, 28))
		must(t, err)
	}
	for _, want := range []int{0, 0, 1, 0, 0} {
		check(t, "newly marked", s.AddMissIndications(1001) == want)
	}
	check(t, "outstanding", s.Outstanding() == Outstanding{3, 1, 1})
}

func halves(t *testing.T) (*Sender, *Receiver) {
	s, err := NewSender(1000, 10, 100, true)
	must(t, err)
	r, err := NewReceiver(1000, 100, 1<<16, 100)
	must(t, err)
	must(t, s.Open(3))
	must(t, r.Open(3))
	t.Cleanup(func() { s.Close(); r.Close() })
	return s, r
}

// three writes a message of three chunks.
func three(t *testing.T, s *Sender, text []byte) [][]byte {
	number, fragments, err := s.Write(3, PPIDString, text)
	check(t, "written", number == 0 && fragments == 3 && err == nil && s.Pending() == 3)
	must(t, s.Start(4))
	_, _, err = s.SendNext(5, make([]byte, 27))
	wants(t, err, 28)
	var chunks [][]byte
	for i := 0; i < 3; i++ {
		out := make([]byte, 28)
		size, tsn, err := s.SendNext(uint64(5+i), out)
		check(t, "sent", tsn == uint32(1000+i) && err == nil)
		chunks = append(chunks, out[:size])
	}
	size, _, err := s.SendNext(9, make([]byte, 28))
	check(t, "nothing waits", size == 0 && err == nil)
	check(t, "in flight", s.ChunksInFlight() == 3 && s.BytesInFlight() == 28 && s.NextTSN() == 1003 && s.Outstanding() == Outstanding{28, 3, 0})
	check(t, "nothing acknowledged", s.AckedTSN() == 999 && s.AdvancedAckPoint() == 999)
	return chunks
}

func arrives(t *testing.T, r *Receiver, chunk []byte, want Arrival) {
	t.Helper()
	got, err := r.Data(chunk)
	check(t, "arrives", got == want && err == nil)
}

// A message of three chunks goes over, its middle one late.
func TestGoesOver(t *testing.T) {
	s, r := halves(t)
	text, sack := []byte("three fragments of a message"), make([]byte, 64)
	is(t, s.Open(3), CodeStreamOpen)
	is(t, r.Open(3), CodeStreamOpen)
	must(t, s.SetLowThreshold(3, 5))
	must(t, s.SetFragmentSize(10))
	is(t, s.SetFragmentSize(0), CodeInvalid)
	_, fragments, err := s.Write(3, PPIDString, nil)
	check(t, "no bytes", fragments == 0 && err == nil)
	chunks := three(t, s, text)
	arrives(t, r, chunks[0], Added)
	arrives(t, r, chunks[0], Repeat)
	arrives(t, r, chunks[2], Added)
	check(t, "held", r.HeldBytes() == 818 && r.Window() == 65536-818 && r.CumulativeTSN() == 1000)
	_, err = r.Data(nil)
	is(t, err, CodeErrChunkHeaderTooSmall)
	_, err = r.WriteSack(sack[:15])
	wants(t, err, 16)
	n, err := r.WriteSack(sack)
	must(t, err)
	acked, isNew, err := s.Acked(sack[:n])
	check(t, "acknowledged", err == nil && isNew && len(acked) == 2 && acked[1].TSN == 1002 && acked[1].SentAt == 7 && acked[1].HasSentAt)
	_, isMarked := s.NextToRetransmit()
	tsn, isOut := s.EarliestOutstanding()
	check(t, "outstanding", s.AddMissIndications(1002) == 0 && !isMarked && isOut && tsn == 1001)
	must(t, s.RetransmitAll())
	check(t, "all marked", s.Outstanding() == Outstanding{0, 0, 1})
	check(t, "none newly marked", s.AddMissIndications(1002)+s.AddMissIndications(1002)+s.AddMissIndications(1002) == 0)
	marked, _ := s.NextToRetransmit()
	row, ok := s.InFlight(1001)
	first, _ := s.InFlightAt(0)
	_, isThere := s.InFlightAt(9)
	check(t, "marked", ok && row.Marked && marked == row && first == row && !isThere)
	_, err = s.Resend(1002, 50, make([]byte, 28))
	is(t, err, CodeNotInFlight)
	n, err = s.Resend(1001, 50, chunks[1])
	check(t, "again", n == 28 && err == nil)
	arrives(t, r, chunks[1], Completed)
	streams, err := r.ReadableStreams()
	check(t, "readable", reflect.DeepEqual(streams, []uint16{3}) && err == nil)
	size, ppid, ok, err := r.Next(3)
	check(t, "next", size == 28 && ppid == PPIDString && ok && err == nil)
	_, _, _, err = r.ReadInto(3, make([]byte, 27))
	wants(t, err, 28)
	message, err := r.Read(3)
	check(t, "read", err == nil && bytes.Equal(message.Bytes, text) && message.PayloadType == PPIDString)
	message, err = r.Read(3)
	check(t, "nothing to read", message == nil && err == nil)
	streams, err = r.ReadableStreams()
	check(t, "none readable", len(streams) == 0 && err == nil)
	n, err = r.WriteSack(sack)
	must(t, err)
	acked, _, err = s.Acked(sack[:n])
	check(t, "all acknowledged", err == nil && len(acked) == 1 && acked[0].MessageAcked && acked[0].Low && s.Drained(3))
	acked, isNew, err = s.AckedUpTo(1002)
	check(t, "nothing anew", len(acked) == 0 && isNew && err == nil)
	_, isNew, err = s.AckedUpTo(1001)
	check(t, "out of date", !isNew && err == nil)
	must(t, s.Reset(3))
	must(t, s.CloseStream(3))
	must(t, r.CloseStream(3))
	is(t, r.Reset(3, 1), CodeStreamUnknown)
}

// Messages run out of sendings or of time; a FORWARD-TSN takes the receiver past them.
func TestAbandoned(t *testing.T) {
	s, limited := halves(t)
	must(t, limited.Close())
	r, err := NewUnlimitedReceiver(1000, 100)
	must(t, err)
	defer r.Close()
	must(t, r.Open(3))
	out := make([]byte, 64)
	must(t, s.SetMode(3, true, Rexmit, 0))
	is(t, s.SetMode(4, false, Reliable, 0), CodeStreamUnknown)
	_, _, err = s.Write(3, PPIDBinary, []byte("gone"))
	must(t, err)
	_, _, err = s.SendNext(1, out)
	must(t, err)
	gone, err := s.ExpireLate(1)
	check(t, "none late", len(gone) == 0 && err == nil)
	must(t, s.RetransmitAll())
	gone, err = s.ExpireRexmit()
	check(t, "gone", err == nil && reflect.DeepEqual(gone, []Abandoned{{4, 0, 3, true}}))
	again, err := s.Abandon(1000)
	check(t, "gone before", again.Bytes == 0 && err == nil)
	_, err = s.Abandon(1001)
	is(t, err, CodeNotInFlight)
	n, err := s.WriteForwardTSNTo(1000, out)
	check(t, "up to it", n == 8 && err == nil)
	n, err = s.WriteForwardTSNTo(999, out)
	check(t, "nothing", n == 0 && err == nil)
	n, err = s.WriteForwardTSN(out)
	check(t, "FORWARD-TSN", n == 8 && err == nil)
	followed, err := r.ForwardTSN(out[:n])
	check(t, "followed", followed && err == nil)
	followed, err = r.ForwardTSNPastClosed(out[:n])
	check(t, "out of date", !followed && err == nil)
	arrival, err := r.Discard(1001)
	check(t, "discarded", arrival == Added && err == nil && r.CumulativeTSN() == 1001)
	back, _, err := s.TakeBack([]byte("\x03\x00\x00\x10\x00\x00\x03\xe7\x00\x00\x01\x00\x00\x00\x00\x00"))
	check(t, "none taken back", len(back) == 0 && err == nil)
	must(t, s.SetMode(3, true, Timed, 1))
	for _, text := range []string{"fifteen bytes..", "late"} {
		_, _, err = s.Write(3, PPIDBinary, []byte(text))
		must(t, err)
	}
	must(t, s.Start(0))
	at, runs := s.NextTimeout()
	check(t, "next timeout", at == 1000000 && runs)
	_, _, err = s.SendNext(0, out)
	must(t, err)
	_, ok, err := s.ExpireTail(0)
	check(t, "not yet", !ok && err == nil)
	tail, ok, err := s.ExpireTail(2000000)
	check(t, "tail", ok && tail.Bytes == 15 && err == nil)
	expired, ok := s.Expire(2000000)
	check(t, "expired", ok && expired == Expired{4, 3, true})
}

func TestClosed(t *testing.T) {
	s, r := halves(t)
	must(t, s.Close())
	must(t, s.Close())
	must(t, r.Close())
	_, _, err := s.Write(3, PPIDBinary, []byte("a"))
	check(t, "closed", errors.Is(err, ErrClosed) && errors.Is(s.Open(1), ErrClosed) && errors.Is(r.Open(1), ErrClosed))
	_, err = s.ExpireLate(1)
	check(t, "closed", errors.Is(err, ErrClosed) && s.NextTSN() == 0 && r.Window() == 0 && !s.Drained(3))
	_, err = NewSender(1, 0, 100, false)
	is(t, err, CodeInvalid)
	amount, err := s.BufferedAmount(3)
	check(t, "closed", amount == 0 && errors.Is(err, ErrClosed))
	s, r = nil, nil
	check(t, "none", s.Close() == nil && r.Close() == nil && errors.Is(s.Open(1), ErrClosed) && r.Window() == 0 && !s.Drained(3))
	_, err = r.Data([]byte{0})
	check(t, "none", errors.Is(err, ErrClosed) && s.AddMissIndications(1) == 0 && r.Credit(60) == 0)
}

// Each method of a Sender and a Receiver that is nil, that no New made, or that was closed twice answers ErrClosed, or nothing; Close does nothing.
func TestWithoutHandle(t *testing.T) {
	s, r := halves(t)
	must(t, s.Close())
	must(t, r.Close())
	must(t, s.Close())
	must(t, r.Close())
	for _, of := range []any{s, (*Sender)(nil), new(Sender), r, (*Receiver)(nil), new(Receiver)} {
		for i := 0; i < reflect.TypeOf(of).NumMethod(); i++ {
			method, name := reflect.ValueOf(of).Method(i), reflect.TypeOf(of).Method(i).Name
			given := make([]reflect.Value, method.Type().NumIn())
			for k := range given {
				given[k] = reflect.Zero(method.Type().In(k))
			}
			for _, result := range method.Call(given) {
				err, isError := result.Interface().(error)
				check(t, name, isError && errors.Is(err, ErrClosed) || result.IsZero() && (name == "Close" || !result.Type().Implements(errorType)))
			}
		}
	}
}

var errorType = reflect.TypeOf((*error)(nil)).Elem()
