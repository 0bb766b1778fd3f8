package sctprattle

/*
#include <sctpr.h>
*/
import "C"

import "unsafe"

// A Head is a packet's header but for the checksum (RFC 4960 3.1).
type Head struct {
	VerificationTag             uint32
	SourcePort, DestinationPort uint16
}

func (h Head) inC() C.struct_sctpr_head {
	return C.struct_sctpr_head{
		verification_tag: C.uint32_t(h.VerificationTag),
		source_port:      C.uint16_t(h.SourcePort),
		destination_port: C.uint16_t(h.DestinationPort),
	}
}

// A Chunk is a chunk of a packet; Bytes are its header and value without padding, a part of the packet's, and what the functions and
// methods take that take a chunk.
type Chunk struct {
	Type, Flags uint8
	Bytes       []byte
}

// Value is what follows the header of four bytes; nothing, of a Chunk that no call answered.
func (c Chunk) Value() []byte {
	if len(c.Bytes) < 4 {
		return nil
	}
	return c.Bytes[4:]
}

// ReadPacket reads a packet under CRC-32C: header, checksum, and each of its chunks whole.
func ReadPacket(packet []byte) (Head, []Chunk, error) {
	return readPacket(packet, func(head *C.struct_sctpr_head, rows *C.struct_sctpr_chunk, room C.size_t, count *C.size_t) C.sctpr_code {
		at, length := bytesOf(packet)
		return C.sctpr_read_packet(at, length, head, rows, room, count)
	})
}

// ReadPacketWithSum does the same under a sum that the caller took: of the first eight bytes, four zeros, and the bytes from the twelfth
// on.
func ReadPacketWithSum(packet []byte, sum uint32) (Head, []Chunk, error) {
	return readPacket(packet, func(head *C.struct_sctpr_head, rows *C.struct_sctpr_chunk, room C.size_t, count *C.size_t) C.sctpr_code {
		at, length := bytesOf(packet)
		return C.sctpr_read_packet_with_sum(at, length, C.uint32_t(sum), head, rows, room, count)
	})
}

func readPacket(packet []byte, read func(*C.struct_sctpr_head, *C.struct_sctpr_chunk, C.size_t, *C.size_t) C.sctpr_code) (Head, []Chunk, error) {
	// a chunk has four bytes or more, so that there is a row for each
	rows := make([]C.struct_sctpr_chunk, len(packet)/4+1)
	var head C.struct_sctpr_head
	var count C.size_t
	if err := errorOf(read(&head, &rows[0], C.size_t(len(rows)), &count), 0); err != nil {
		return Head{}, nil, err
	}
	chunks := make([]Chunk, least(count, len(rows)))
	for i := range chunks {
		r := rows[i]
		chunks[i] = Chunk{uint8(r._type), uint8(r.flags), packet[r.at : r.at+r.length]}
	}
	return Head{uint32(head.verification_tag), uint16(head.source_port), uint16(head.destination_port)}, chunks, nil
}

// An AnyChunk is a chunk of a packet with all that RFC 9260 allows. Known says whether its type is one that ReadPacket reads. Where Reported is
// true its sender is to be told of it: in an ERROR, by the cause 6 with the chunk as its value (RFC 4960 3.2, 3.3.10.6).
type AnyChunk struct {
	Chunk
	Known, Reported bool
}

// ReadAnyPacket reads a packet under CRC-32C with all that RFC 9260 allows, which ReadPacket refuses: chunks of unknown types, and parameters
// and causes of any type. Of an INIT, INIT-ACK, ABORT, ERROR and RE-CONFIG it reads the header; ReadAnyParam and ReadCause walk the rest.
func ReadAnyPacket(packet []byte) (Head, []AnyChunk, error) {
	return readAnyPacket(packet, func(head *C.struct_sctpr_head, rows *C.struct_sctpr_any_chunk, room C.size_t, count *C.size_t) C.sctpr_code {
		at, length := bytesOf(packet)
		return C.sctpr_read_any_packet(at, length, head, rows, room, count)
	})
}

// ReadAnyPacketWithSum does the same under a sum that the caller took, as ReadPacketWithSum.
func ReadAnyPacketWithSum(packet []byte, sum uint32) (Head, []AnyChunk, error) {
	return readAnyPacket(packet, func(head *C.struct_sctpr_head, rows *C.struct_sctpr_any_chunk, room C.size_t, count *C.size_t) C.sctpr_code {
		at, length := bytesOf(packet)
		return C.sctpr_read_any_packet_with_sum(at, length, C.uint32_t(sum), head, rows, room, count)
	})
}

func readAnyPacket(packet []byte, read func(*C.struct_sctpr_head, *C.struct_sctpr_any_chunk, C.size_t, *C.size_t) C.sctpr_code) (Head, []AnyChunk, error) {
	rows := make([]C.struct_sctpr_any_chunk, len(packet)/4+1)
	var head C.struct_sctpr_head
	var count C.size_t
	if err := errorOf(read(&head, &rows[0], C.size_t(len(rows)), &count), 0); err != nil {
		return Head{}, nil, err
	}
	chunks := make([]AnyChunk, least(count, len(rows)))
	for i := range chunks {
		r := rows[i]
		chunks[i] = AnyChunk{Chunk{uint8(r._type), uint8(r.flags), packet[r.at : r.at+r.length]}, r.is_known != 0, r.is_reported != 0}
	}
	return Head{uint32(head.verification_tag), uint16(head.source_port), uint16(head.destination_port)}, chunks, nil
}

// Data is a DATA chunk (RFC 4960 3.3.1); UserData are a part of its bytes.
type Data struct {
	TSN, PayloadType                   uint32
	Stream, Sequence                   uint16
	Unordered, Begins, Ends, WantsSack bool
	UserData                           []byte
}

// ReadData reads a DATA chunk.
func ReadData(chunk []byte) (Data, error) {
	at, length := bytesOf(chunk)
	var d C.struct_sctpr_data
	if err := errorOf(C.sctpr_read_data(at, length, &d), 0); err != nil {
		return Data{}, err
	}
	return Data{
		uint32(d.tsn), uint32(d.payload_type), uint16(d.stream), uint16(d.sequence),
		d.is_unordered != 0, d.begins != 0, d.ends != 0, d.wants_sack != 0, chunk[16 : 16+d.length],
	}, nil
}

// A Gap is a run of TSNs that came: the distances of its first and its last from the cumulative one.
type Gap struct{ Start, End uint16 }

// A Sack is a SACK (RFC 4960 3.3.4).
type Sack struct {
	CumulativeTSN, Credit uint32
	Gaps                  []Gap
	Duplicates            []uint32
}

// ReadSack reads a SACK.
func ReadSack(chunk []byte) (Sack, error) {
	at, length := bytesOf(chunk)
	var s C.struct_sctpr_sack
	// as many rows as its bytes can be
	gaps, repeats := make([]C.struct_sctpr_gap, len(chunk)/4+1), make([]C.uint32_t, len(chunk)/4+1)
	if err := errorOf(C.sctpr_read_sack(at, length, &s, &gaps[0], C.size_t(len(gaps)), &repeats[0], C.size_t(len(repeats))), 0); err != nil {
		return Sack{}, err
	}
	sack := Sack{uint32(s.cumulative_tsn), uint32(s.credit), make([]Gap, least(s.blocks, len(gaps))), make([]uint32, least(s.duplicates, len(repeats)))}
	for i := range sack.Gaps {
		sack.Gaps[i] = Gap{uint16(gaps[i].start), uint16(gaps[i].end)}
	}
	for i := range sack.Duplicates {
		sack.Duplicates[i] = uint32(repeats[i])
	}
	return sack, nil
}

// A Skip is a stream that a FORWARD-TSN names, and its last number that is skipped.
type Skip struct{ Stream, Sequence uint16 }

// ReadForwardTSN reads a FORWARD-TSN (RFC 3758 3.2): up to where it skips, and the streams that it names.
func ReadForwardTSN(chunk []byte) (newCumulativeTSN uint32, streams []Skip, err error) {
	at, length := bytesOf(chunk)
	rows := make([]C.struct_sctpr_skip, len(chunk)/4+1)
	var tsn C.uint32_t
	var count C.size_t
	if err := errorOf(C.sctpr_read_forward_tsn(at, length, &tsn, &rows[0], C.size_t(len(rows)), &count), 0); err != nil {
		return 0, nil, err
	}
	streams = make([]Skip, least(count, len(rows)))
	for i := range streams {
		streams[i] = Skip{uint16(rows[i].stream), uint16(rows[i].sequence)}
	}
	return uint32(tsn), streams, nil
}

// An Init is what an INIT or INIT-ACK says (RFC 4960 3.3.2, 3.3.3), but for its parameters.
type Init struct {
	InitiateTag, Credit, InitialTSN uint32
	OutboundStreams, InboundStreams uint16
	Ack                             bool
}

// ReadInit reads an INIT or INIT-ACK. Params are its parameters, as ReadParam takes them.
func ReadInit(chunk []byte) (init Init, params []byte, err error) {
	at, length := bytesOf(chunk)
	var i C.struct_sctpr_init
	if err := errorOf(C.sctpr_read_init(at, length, &i), 0); err != nil {
		return Init{}, nil, err
	}
	init = Init{
		uint32(i.initiate_tag), uint32(i.credit), uint32(i.initial_tsn), uint16(i.outbound_streams), uint16(i.inbound_streams), i.is_ack != 0,
	}
	return init, chunk[20:], nil
}

// ReadShutdown reads a SHUTDOWN (RFC 4960 3.3.8): the TSN up to which its sender received all.
func ReadShutdown(chunk []byte) (cumulativeTSN uint32, err error) {
	at, length := bytesOf(chunk)
	var tsn C.uint32_t
	err = errorOf(C.sctpr_read_shutdown(at, length, &tsn), 0)
	return uint32(tsn), err
}

// A Cause is an error cause (RFC 4960 3.3.10); Value is a part of the bytes that it was read from.
type Cause struct {
	Code  uint16
	Value []byte
}

// ReadCause reads the error cause that the bytes begin with, as the value of an ABORT or ERROR does. Rest is what follows it; there is none
// where it has no bytes.
func ReadCause(bytes []byte) (cause Cause, rest []byte, err error) {
	at, length := bytesOf(bytes)
	var c C.struct_sctpr_cause
	if err := errorOf(C.sctpr_read_cause(at, length, &c), 0); err != nil {
		return Cause{}, nil, err
	}
	return Cause{uint16(c.code), bytes[4 : 4+c.length]}, bytes[c.next:], nil
}

// A Param is a parameter (RFC 4960 3.2.1); Value is a part of the bytes that it was read from.
type Param struct {
	Type  uint16
	Value []byte
}

// ReadParam reads the parameter that the bytes begin with. Rest is what follows it; there is none where it has no bytes.
func ReadParam(bytes []byte) (param Param, rest []byte, err error) {
	at, length := bytesOf(bytes)
	var p C.struct_sctpr_param
	if err := errorOf(C.sctpr_read_param(at, length, &p), 0); err != nil {
		return Param{}, nil, err
	}
	return Param{uint16(p._type), bytes[4 : 4+p.length]}, bytes[p.next:], nil
}

// ReadAnyParam reads the header of the parameter that the bytes begin with, of any type and any value.
func ReadAnyParam(bytes []byte) (param Param, rest []byte, err error) {
	at, length := bytesOf(bytes)
	var p C.struct_sctpr_param
	if err := errorOf(C.sctpr_read_any_param(at, length, &p), 0); err != nil {
		return Param{}, nil, err
	}
	return Param{uint16(p._type), bytes[4 : 4+p.length]}, bytes[p.next:], nil
}

// ReadRequest reads the number of any request of a RE-CONFIG that the bytes begin with.
func ReadRequest(bytes []byte) (number uint32, err error) {
	at, length := bytesOf(bytes)
	var n C.uint32_t
	err = errorOf(C.sctpr_read_request(at, length, &n), 0)
	return uint32(n), err
}

// A Reset is an Outgoing SSN Reset Request (RFC 6525 4.1). No stream means all.
type Reset struct {
	Request, Response, LastTSN uint32
	Streams                    []uint16
}

// ReadReset reads the Outgoing SSN Reset Request that the bytes begin with.
func ReadReset(bytes []byte) (reset Reset, err error) {
	at, length := bytesOf(bytes)
	var r C.struct_sctpr_reset
	var count C.size_t
	streams := make([]uint16, len(bytes)/2)
	to, room := streamsOf(streams)
	if err := errorOf(C.sctpr_read_reset(at, length, &r, to, room, &count), 0); err != nil {
		return Reset{}, err
	}
	return Reset{uint32(r.request), uint32(r.response), uint32(r.last_tsn), streams[:count]}, nil
}

// WriteReset writes an Outgoing SSN Reset Request with its padding.
func WriteReset(reset Reset, out []byte) (int, error) {
	to, room := bytesOf(out)
	from, count := streamsOf(reset.Streams)
	r := C.struct_sctpr_reset{
		request: C.uint32_t(reset.Request), response: C.uint32_t(reset.Response), last_tsn: C.uint32_t(reset.LastTSN),
	}
	var n C.size_t
	err := errorOf(C.sctpr_write_reset(&r, from, count, to, room, &n), n)
	return written(n, err)
}

// ReadIncomingReset reads the Incoming SSN Reset Request that the bytes begin with (RFC 6525 4.2). No stream means all.
func ReadIncomingReset(bytes []byte) (number uint32, streams []uint16, err error) {
	at, length := bytesOf(bytes)
	var n C.uint32_t
	var count C.size_t
	streams = make([]uint16, len(bytes)/2)
	to, room := streamsOf(streams)
	if err := errorOf(C.sctpr_read_incoming_reset(at, length, &n, to, room, &count), 0); err != nil {
		return 0, nil, err
	}
	return uint32(n), streams[:count], nil
}

// WriteIncomingReset writes an Incoming SSN Reset Request with its padding.
func WriteIncomingReset(number uint32, streams []uint16, out []byte) (int, error) {
	to, room := bytesOf(out)
	from, count := streamsOf(streams)
	var n C.size_t
	err := errorOf(C.sctpr_write_incoming_reset(C.uint32_t(number), from, count, to, room, &n), n)
	return written(n, err)
}

// WriteSSNTSNReset writes an SSN/TSN Reset Request (RFC 6525 4.3).
func WriteSSNTSNReset(number uint32, out []byte) (int, error) {
	to, room := bytesOf(out)
	var n C.size_t
	err := errorOf(C.sctpr_write_ssn_tsn_reset(C.uint32_t(number), to, room, &n), n)
	return written(n, err)
}

// An AddStreams is a request to add outgoing streams of its sender's, or where IsIncoming is set incoming ones (RFC 6525 4.5, 4.6).
type AddStreams struct {
	Request    uint32
	Count      uint16
	IsIncoming bool
}

// ReadAddStreams reads the request to add streams that the bytes begin with.
func ReadAddStreams(bytes []byte) (add AddStreams, err error) {
	at, length := bytesOf(bytes)
	var a C.struct_sctpr_add_streams
	if err := errorOf(C.sctpr_read_add_streams(at, length, &a), 0); err != nil {
		return AddStreams{}, err
	}
	return AddStreams{uint32(a.request), uint16(a.count), a.is_incoming != 0}, nil
}

// WriteAddStreams writes a request to add streams.
func WriteAddStreams(add AddStreams, out []byte) (int, error) {
	to, room := bytesOf(out)
	a := C.struct_sctpr_add_streams{request: C.uint32_t(add.Request), count: C.uint16_t(add.Count), is_incoming: flag(add.IsIncoming)}
	var n C.size_t
	err := errorOf(C.sctpr_write_add_streams(&a, to, room, &n), n)
	return written(n, err)
}

// A Response is a Re-configuration Response (RFC 6525 4.4).
type Response struct {
	Response, Result uint32
}

// ReadResponse reads the Re-configuration Response that the bytes begin with.
func ReadResponse(bytes []byte) (response Response, err error) {
	at, length := bytesOf(bytes)
	var r C.struct_sctpr_response
	err = errorOf(C.sctpr_read_response(at, length, &r), 0)
	return Response{uint32(r.response), uint32(r.result)}, err
}

// WriteResponse writes a Re-configuration Response.
func WriteResponse(response Response, out []byte) (int, error) {
	to, room := bytesOf(out)
	r := C.struct_sctpr_response{response: C.uint32_t(response.Response), result: C.uint32_t(response.Result)}
	var n C.size_t
	err := errorOf(C.sctpr_write_response(&r, to, room, &n), n)
	return written(n, err)
}

// WriteChunk writes a chunk of a type and a value to the front of a buffer, its flags 0. This and the functions below answer how many
// bytes they wrote, padding included.
func WriteChunk(chunkType uint8, value, out []byte) (int, error) {
	from, length := bytesOf(value)
	to, room := bytesOf(out)
	var n C.size_t
	err := errorOf(C.sctpr_write_chunk(C.uint8_t(chunkType), from, length, to, room, &n), n)
	return written(n, err)
}

// WriteChunkWithFlags does the same with flags, as they are given.
func WriteChunkWithFlags(chunkType, flags uint8, value, out []byte) (int, error) {
	from, length := bytesOf(value)
	to, room := bytesOf(out)
	var n C.size_t
	err := errorOf(C.sctpr_write_chunk_with_flags(C.uint8_t(chunkType), C.uint8_t(flags), from, length, to, room, &n), n)
	return written(n, err)
}

// WriteCause writes an error cause: what an ABORT or ERROR has as its value.
func WriteCause(code uint16, value, out []byte) (int, error) {
	from, length := bytesOf(value)
	to, room := bytesOf(out)
	var n C.size_t
	err := errorOf(C.sctpr_write_cause(C.uint16_t(code), from, length, to, room, &n), n)
	return written(n, err)
}

// WriteInit writes an INIT or INIT-ACK. Params are as WriteParam writes them, one behind the other.
func WriteInit(init Init, params, out []byte) (int, error) {
	i := C.struct_sctpr_init{
		initiate_tag:     C.uint32_t(init.InitiateTag),
		credit:           C.uint32_t(init.Credit),
		initial_tsn:      C.uint32_t(init.InitialTSN),
		outbound_streams: C.uint16_t(init.OutboundStreams),
		inbound_streams:  C.uint16_t(init.InboundStreams),
		is_ack:           flag(init.Ack),
	}
	from, length := bytesOf(params)
	to, room := bytesOf(out)
	var n C.size_t
	err := errorOf(C.sctpr_write_init(&i, from, length, to, room, &n), n)
	return written(n, err)
}

// WriteParam writes a parameter.
func WriteParam(paramType uint16, value, out []byte) (int, error) {
	from, length := bytesOf(value)
	to, room := bytesOf(out)
	var n C.size_t
	err := errorOf(C.sctpr_write_param(C.uint16_t(paramType), from, length, to, room, &n), n)
	return written(n, err)
}

// SealPacket writes header and CRC-32C into the first twelve bytes of a packet.
func SealPacket(head Head, packet []byte) error {
	h := head.inC()
	at, length := bytesOf(packet)
	return errorOf(C.sctpr_seal_packet(&h, at, length), 12)
}

// WriteHead writes the header, with zeros in the checksum's place: the first step of sealing under a sum that the caller takes, of all of
// the packet.
func WriteHead(head Head, packet []byte) error {
	h := head.inC()
	at, length := bytesOf(packet)
	return errorOf(C.sctpr_write_head(&h, at, length), 12)
}

// StoreSum puts the sum of a packet there.
func StoreSum(sum uint32, packet []byte) error {
	at, length := bytesOf(packet)
	return errorOf(C.sctpr_store_sum(C.uint32_t(sum), at, length), 12)
}

func streamsOf(streams []uint16) (*C.uint16_t, C.size_t) {
	if len(streams) == 0 {
		return nil, 0
	}
	return (*C.uint16_t)(unsafe.Pointer(&streams[0])), C.size_t(len(streams))
}

func written(n C.size_t, err error) (int, error) {
	if err != nil {
		return 0, err
	}
	return int(n), nil
}

func flag(is bool) C.uint8_t {
	if is {
		return 1
	}
	return 0
}
