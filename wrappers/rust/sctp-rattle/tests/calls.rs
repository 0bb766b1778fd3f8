//! Each call: what it answers where it is done, where there is nothing, and where it is refused.
use sctp_rattle::*;

const TEXT: &[u8] = b"three fragments of a message";

#[test]
fn errors_have_numbers_and_texts() {
    assert_eq!(Error::NoMemory.code(), sys::SCTPR_NO_MEMORY);
    assert_eq!(Error::ShortBuffer { wanted: 4 }.code(), 17);
    assert_eq!(Error::ErrPacketRawTooSmall.code(), 40);
    assert_eq!(Error::NoMemory.to_string(), "Memory ran out.");
    assert!(Error::ShortBuffer { wanted: 4 }.to_string().ends_with("Wanted: 4"));
    assert!(Error::Unknown(1000).to_string().contains("1000"));
    let _: &dyn std::error::Error = &Error::Invalid;
    let mut name = [0; sys::SCTPR_NAME_ROOM];
    let mut n = 0;
    // SAFETY: pointer and length are those of an array, and n is a value of this function.
    assert_eq!(unsafe { sys::sctpr_code_name(17, name.as_mut_ptr(), name.len(), &mut n) }, sys::SCTPR_OK);
    assert_eq!(&name[..n], b"SCTPR_SHORT_BUFFER\0");
    assert_eq!(env!("CARGO_PKG_VERSION"), format!("{}.{}.{}", version().0, version().1, version().2));
}

#[test]
fn packets_are_sealed_and_read() {
    let head = Head { verification_tag: 1, source_port: 5000, destination_port: 5001 };
    let (mut packet, mut rows) = ([0; 16], [ChunkRow::default(); 2]);
    assert_eq!(write_chunk(chunk_type::COOKIE_ACK, &[], &mut packet[13..]), Err(Error::ShortBuffer { wanted: 4 }));
    assert_eq!(seal_packet(&head, &mut packet[..11]), Err(Error::ShortBuffer { wanted: 12 }));
    assert_eq!(write_chunk(chunk_type::COOKIE_ACK, &[], &mut packet[12..]), Ok(4));
    seal_packet(&head, &mut packet).unwrap();
    let sum = u32::from_le_bytes(packet[8..12].try_into().unwrap());
    let read = Packet::read(&packet, &mut rows).unwrap();
    assert_eq!((read.head, read.count), (head, 1));
    let chunks: Vec<_> = read.chunks().collect();
    assert_eq!(chunks, [Chunk { kind: chunk_type::COOKIE_ACK, flags: 0, bytes: &packet[12..] }]);
    assert!(chunks[0].value().is_empty());
    assert_eq!(Packet::read(&packet, &mut []).unwrap().chunks().count(), 0);
    write_head(&head, &mut packet).unwrap();
    store_sum(sum, &mut packet).unwrap();
    assert!(Packet::read_with_sum(&packet, sum, &mut rows).is_ok());
    assert_eq!(Packet::read_with_sum(&packet, sum + 1, &mut rows).unwrap_err(), Error::BadChecksum);
    packet[12] = 132; // PAD (RFC 4820)
    seal_packet(&head, &mut packet).unwrap();
    assert_eq!(Packet::read(&packet, &mut rows).unwrap_err(), Error::UnknownChunk);
    let mut any_rows = [AnyChunkRow::default(); 2];
    let any = AnyPacket::read(&packet, &mut any_rows).unwrap();
    let pad = AnyChunk { chunk: Chunk { kind: 132, flags: 0, bytes: &packet[12..] }, is_known: false, is_reported: false };
    assert_eq!((any.head, any.count, any.chunks().collect::<Vec<_>>()), (head, 1, vec![pad]));
    let sum = u32::from_le_bytes(packet[8..12].try_into().unwrap());
    assert!(AnyPacket::read_with_sum(&packet, sum, &mut any_rows).is_ok());
    packet[0] ^= 1;
    assert_eq!(Packet::read(&packet, &mut rows).unwrap_err(), Error::BadChecksum);
    assert_eq!(Packet::read(&[], &mut rows).unwrap_err(), Error::ErrPacketRawTooSmall);
}

#[test]
fn chunks_are_read() {
    let (mut gaps, mut repeats, mut skips) = ([Gap::default(); 2], [0; 2], [Skip::default(); 2]);
    let sack = read_sack(b"\x03\0\0\x18\0\0\0\x07\0\0\x01\0\0\x01\0\x01\0\x02\0\x03\0\0\0\x05", &mut gaps, &mut repeats).unwrap();
    assert_eq!((sack.cumulative_tsn, sack.credit, sack.block_count, sack.duplicate_count), (7, 256, 1, 1));
    assert_eq!((sack.blocks, sack.duplicates), (&[Gap { start: 2, end: 3 }][..], &[5][..]));
    let skip = read_forward_tsn(b"\xc0\0\0\x0c\0\0\x03\xe8\0\x03\0\x04", &mut skips).unwrap();
    assert_eq!(skip, ForwardTsn { new_cumulative_tsn: 1000, streams: &[Skip { stream: 3, sequence: 4 }], count: 1 });
    let data = read_data(b"\0\x03\0\x12\0\0\0\x01\0\x02\0\x03\0\0\0\x33hi").unwrap();
    assert_eq!((data.tsn, data.stream, data.sequence, data.payload_type), (1, 2, 3, ppid::STRING));
    assert!(data.begins && data.ends && !data.is_unordered && !data.wants_sack && data.user_data == b"hi");
    assert_eq!(read_data(b"\0\x03\0\x12\0\0\0\x01\0\x02\0\x03\0\0\0\x2ehi").unwrap().payload_type, 46);
    assert_eq!(read_data(b"\x03\0\0\x04"), Err(Error::ErrChunkTypeNotPayloadData));
    assert_eq!((read_shutdown(b"\x07\0\0\x08\0\0\x03\xe8"), read_shutdown(b"")), (Ok(1000), Err(Error::ErrChunkHeaderTooSmall)));
    let (mut params, mut chunk) = ([0; 12], [0; 64]);
    assert_eq!((write_chunk_with_flags(chunk_type::ABORT, FLAG_T, b"", &mut chunk), chunk[1]), (Ok(4), 1));
    assert_eq!(write_cause(12, b"bye", &mut params), Ok(8));
    let causes: Result<Vec<_>> = Causes::new(&params[..8]).collect();
    assert_eq!(causes.unwrap(), [Cause { code: 12, value: b"bye" }]);
    assert_eq!(Causes::new(&[0]).next(), Some(Err(Error::ErrErrorCauseTooSmall)));
    assert_eq!(write_param(7, b"abc", &mut params), Ok(8));
    assert_eq!(write_param(49152, b"", &mut params[8..]), Ok(4));
    let init = Init { initiate_tag: 1, credit: 2000, initial_tsn: 3, outbound_streams: 4, inbound_streams: 5, is_ack: true };
    let n = write_init(&init, &params, &mut chunk).unwrap();
    let (read, params) = read_init(&chunk[..n]).unwrap();
    assert_eq!(read, init);
    let params: Result<Vec<_>> = params.collect();
    assert_eq!(params.unwrap(), [Param { kind: 7, value: b"abc" }, Param { kind: 49152, value: b"" }]);
    let mut cut = Params::new(&[0, 7, 0, 9, 1]);
    assert_eq!((cut.next(), cut.next()), (Some(Err(Error::ErrParamHeaderTooShort)), None));
}

/// The words of a RE-CONFIG, a parameter of an address, and what can't be written or made as it was given.
#[test]
fn words_of_a_reconfig() {
    let mut out = [0; 16];
    assert_eq!(write_response(&Response { response: 9, result: 2 }, &mut out), Ok(12));
    assert_eq!(read_response(&out[..12]), Ok(Response { response: 9, result: 2 }));
    assert_eq!(read_request(&out[..12]), Err(Error::ErrParamTypeUnexpected));
    let mut streams = [0; 2];
    let reset = read_reset(b"\0\x0d\0\x12\0\0\0\x01\0\0\0\x02\0\0\0\x03\0\x04", &mut streams);
    assert_eq!((reset, streams[0]), (Ok(Reset { request: 1, response: 2, last_tsn: 3, count: 1 }), 4));
    assert_eq!(read_request(b"\0\x11\0\x0c\0\0\0\x07\0\x01\0\0"), Ok(7));
    assert_eq!(write_incoming_reset(7, &[5], &mut out), Ok(12));
    assert_eq!((&out[..12], read_incoming_reset(&out[..12], &mut streams)), (&b"\0\x0e\0\x0a\0\0\0\x07\0\x05\0\0"[..], Ok((7, 1))));
    let add = AddStreams { request: 8, count: 3, is_incoming: true };
    assert_eq!((write_add_streams(&add, &mut out), read_add_streams(&out[..12]), out[1]), (Ok(12), Ok(add), 18));
    assert_eq!((write_ssn_tsn_reset(9, &mut out), out[1], out[7]), (Ok(8), 15, 9));
    assert_eq!(write_reset(&reset.unwrap(), &[5], &mut out), Err(Error::ShortBuffer { wanted: 20 }));
    let address = b"\0\x05\0\x08\xc0\0\x02\x01";
    assert_eq!(Params::any(address).next(), Some(Ok(Param { kind: 5, value: &address[4..] })));
    assert_eq!(Params::new(address).next(), Some(Err(Error::ErrParamTypeUnhandled)));
    assert_eq!(write_chunk(chunk_type::COOKIE_ACK, b"a", &mut out), Err(Error::NotAsGiven));
    let mut s = Sender::new(1, 10, 100, false).unwrap();
    s.open(3).unwrap();
    s.set_mode(3, true, Mode::Rexmit(1)).unwrap();
    s.write(3, 99, b"a").unwrap();
    let mut chunk = [0; 20];
    s.send_next(1, &mut chunk).unwrap();
    assert_eq!((read_data(&chunk).unwrap().payload_type, s.in_flight(1).unwrap().payload_type), (99, 99));
}

/// What the RFCs allow and `Packet` refuses: a request behind a SACK (RFC 6525 4.5), a padded cause before another (RFC 9260 3.3.10), an INIT with
/// flags, an address and a cookie preservative (3.3.2).
#[test]
fn what_the_rfcs_allow_is_read() {
    let (mut packet, mut rows, mut any_rows) = ([0; 44], [ChunkRow::default(); 2], [AnyChunkRow::default(); 2]);
    packet[12..28].copy_from_slice(b"\x03\0\0\x10\0\0\0\x09\0\x01\0\0\0\0\0\0");
    packet[28..].copy_from_slice(b"\x82\0\0\x10\0\x11\0\x0c\0\0\0\x01\0\x01\0\0");
    seal_packet(&Head { verification_tag: 1, source_port: 5000, destination_port: 5001 }, &mut packet).unwrap();
    assert_eq!(Packet::read(&packet, &mut rows).unwrap_err(), Error::ErrParamTypeUnhandled);
    let chunks: Vec<_> = AnyPacket::read(&packet, &mut any_rows).unwrap().chunks().collect();
    assert_eq!(
        chunks.iter().map(|c| (c.chunk.kind, c.is_known)).collect::<Vec<_>>(),
        [(chunk_type::SACK, true), (chunk_type::RECONFIG, true)]
    );
    assert_eq!(read_request(chunks[1].chunk.value()), Ok(1));
    let causes: Result<Vec<_>> = Causes::new(b"\0\x06\0\x09\x40\x07\0\x05v\0\0\0\0\x0c\0\x04").collect();
    assert_eq!(causes.unwrap(), [Cause { code: 6, value: b"\x40\x07\0\x05v" }, Cause { code: 12, value: b"" }]);
    let init = b"\x01\x05\0\x24\0\0\0\x07\0\x01\0\0\0\x08\0\x10\xff\xff\xff\xf0\0\x05\0\x08\xc0\0\x02\x01\0\x09\0\x08\0\0\x03\xe8";
    assert_eq!(read_init(init).unwrap().0.initiate_tag, 7);
    let params: Result<Vec<_>> = Params::any(&init[20..]).collect();
    assert_eq!(params.unwrap().iter().map(|p| p.kind).collect::<Vec<_>>(), [5, 9]);
}

/// The window of a message, and the credit of short ones.
#[test]
fn windows_and_credits() {
    assert_eq!(
        (Receiver::least_window(65536, 65519), Receiver::least_window(1201, 1200), Receiver::least_window(9, 0)),
        (66336, 2001, 3609)
    );
    let r = Receiver::new(1, 60, 100_000, 9).unwrap();
    assert_eq!((r.credit(60), r.credit(0), r.window()), (13020, 249, 100_000));
    assert_eq!(Receiver::new(1, 65536, 66335, 9).err(), Some(Error::Invalid));
    assert_eq!((Receiver::new(1, 65536, 66336, 9).err(), Receiver::new(1, 65536, 66336, 0).err()), (None, Some(Error::Invalid)));
}

/// What is missing for the third time is told once, when it is newly marked, and is outstanding no more.
#[test]
fn what_is_missing_is_marked_once() {
    let (mut s, mut out) = (Sender::new(1000, 10, 100, false).unwrap(), [0; 32]);
    s.open(3).unwrap();
    s.write(3, ppid::STRING, b"two fragments").unwrap();
    assert_eq!((0..2).map(|_| s.send_next(1, &mut out).unwrap().unwrap().tsn).collect::<Vec<_>>(), [1000, 1001]);
    assert_eq!((0..5).map(|_| s.add_miss_indications(1001)).collect::<Vec<_>>(), [0, 0, 1, 0, 0]);
    assert_eq!(s.outstanding(), Outstanding { bytes: 3, chunks: 1, marked: 1 });
}

/// A message of three chunks goes over, its middle one late.
#[test]
fn a_message_goes_over() {
    let (mut s, mut r) = (Sender::new(1000, 10, 100, false).unwrap(), Receiver::new(1000, 100, 1 << 16, 100).unwrap());
    let (mut sack, mut rows) = ([0; 64], [AckedRow::default(); 4]);
    assert_eq!(s.write(3, ppid::STRING, TEXT), Err(Error::StreamUnknown));
    s.open(3).unwrap();
    r.open(3).unwrap();
    assert_eq!((s.open(3), r.open(3)), (Err(Error::StreamOpen), Err(Error::StreamOpen)));
    s.set_low_threshold(3, 5).unwrap();
    s.set_fragment_size(10).unwrap();
    assert_eq!(s.set_fragment_size(0), Err(Error::Invalid));
    assert_eq!((s.write(3, ppid::STRING, b""), s.send_next(1, &mut sack)), (Ok(None), Ok(None)));
    assert_eq!(s.write(3, ppid::STRING, TEXT).unwrap().unwrap().fragments, 3);
    assert_eq!((s.pending(), s.buffered_amount(3), s.buffered_amount(4)), (3, Ok(28), Err(Error::StreamUnknown)));
    s.start(4);
    assert_eq!(s.send_next(5, &mut sack[..27]), Err(Error::ShortBuffer { wanted: 28 }));
    let mut chunks = Vec::new();
    for i in 0..3 {
        let mut out = vec![0; 28];
        let sent = s.send_next(5 + i, &mut out).unwrap().unwrap();
        assert_eq!(sent, Sent { size: if i == 2 { 24 } else { 28 }, tsn: 1000 + i as u32 });
        out.truncate(sent.size);
        chunks.push(out);
    }
    assert_eq!((s.chunks_in_flight(), s.bytes_in_flight(), s.next_tsn()), (3, 28, 1003));
    assert_eq!(s.outstanding(), Outstanding { bytes: 28, chunks: 3, marked: 0 });
    assert_eq!((s.acked_tsn(), s.advanced_ack_point()), (999, 999));
    assert_eq!((r.data(&chunks[0]), r.data(&chunks[0]), r.data(&chunks[2])), (Ok(Arrival::Added), Ok(Arrival::Repeat), Ok(Arrival::Added)));
    assert_eq!((r.held_bytes(), r.window(), r.cumulative_tsn()), (818, 65536 - 818, 1000));
    assert_eq!(r.data(b""), Err(Error::ErrChunkHeaderTooSmall));
    assert_eq!(r.write_sack(&mut sack[..15]), Err(Error::ShortBuffer { wanted: 16 }));
    let n = r.write_sack(&mut sack).unwrap();
    assert!(matches!(s.acked(&sack[..n], &mut rows[..2]).err(), Some(Error::ShortBuffer { wanted: 3 })));
    let acked: Vec<Acked> = s.acked(&sack[..n], &mut rows).unwrap().unwrap().collect();
    assert_eq!(
        acked.iter().map(|a| (a.tsn, a.sent_at, a.is_message_acked)).collect::<Vec<_>>(),
        [(1000, Some(5), false), (1002, Some(7), false)]
    );
    assert_eq!((s.add_miss_indications(1002), s.next_to_retransmit(), s.earliest_outstanding()), (0, None, Some(1001)));
    s.retransmit_all();
    assert_eq!(s.outstanding(), Outstanding { bytes: 0, chunks: 0, marked: 1 });
    assert_eq!([0; 3].map(|_: usize| s.add_miss_indications(1002)), [0; 3]);
    assert_eq!(
        s.in_flight_chunks().map(|c| (c.tsn, c.is_marked, c.is_acked)).collect::<Vec<_>>(),
        [(1001, true, false), (1002, false, true)]
    );
    assert_eq!(s.next_to_retransmit(), s.in_flight(1001));
    assert_eq!((s.in_flight_at(9), s.in_flight(7)), (None, None));
    assert_eq!((s.resend(1001, 50, &mut chunks[1]), s.resend(1002, 50, &mut [0; 28])), (Ok(28), Err(Error::NotInFlight)));
    assert_eq!(r.data(&chunks[1]), Ok(Arrival::Completed));
    let mut streams = [0; 2];
    assert_eq!((r.readable_streams(&mut []), r.readable_streams(&mut streams)), (Err(Error::ShortBuffer { wanted: 1 }), Ok(&[3][..])));
    assert_eq!(r.next(3), Ok(Some(MessageInfo { size: 28, payload_type: ppid::STRING })));
    assert_eq!(r.read_into(3, &mut [0; 27]), Err(Error::ShortBuffer { wanted: 28 }));
    let messages: Result<Vec<_>> = r.messages(3).collect();
    assert_eq!(messages.unwrap(), [Message { bytes: TEXT.to_vec(), payload_type: ppid::STRING }]);
    assert_eq!((r.read(3), r.next(3), r.read(4)), (Ok(None), Ok(None), Err(Error::StreamUnknown)));
    let n = r.write_sack(&mut sack).unwrap();
    let acked: Vec<Acked> = s.acked(&sack[..n], &mut rows).unwrap().unwrap().collect();
    assert!(acked.len() == 1 && acked[0].sent == 2 && acked[0].is_message_acked && acked[0].is_low && s.is_drained(3));
    assert_eq!(s.acked_up_to(1002, &mut rows).unwrap().map(|acked| acked.count()), Some(0));
    assert!(s.acked_up_to(1001, &mut rows).unwrap().is_none());
    s.reset(3).unwrap();
    s.close(3);
    r.close(3);
    assert_eq!((r.reset(3, 1), s.reset(3)), (Err(Error::StreamUnknown), Err(Error::StreamUnknown)));
}

/// Messages run out of sendings or of time; a FORWARD-TSN takes the receiver past them.
#[test]
fn messages_are_abandoned() {
    let (mut s, mut r) = (Sender::new(1000, 10, 100, true).unwrap(), Receiver::new_unlimited(1000, 100).unwrap());
    let (mut out, mut rows, mut back) = ([0; 64], [AbandonedRow::default(); 4], [TakenBackRow::default(); 4]);
    s.open(3).unwrap();
    r.open(3).unwrap();
    s.set_mode(3, true, Mode::Rexmit(0)).unwrap();
    assert_eq!(s.set_mode(4, false, Mode::Reliable), Err(Error::StreamUnknown));
    s.write(3, ppid::BINARY, b"gone").unwrap();
    s.send_next(1, &mut out).unwrap();
    assert_eq!((s.expire_rexmit(&mut rows[..1]).unwrap().count(), s.expire_late(1, &mut []).unwrap().count()), (0, 0));
    s.retransmit_all();
    let gone: Vec<Abandoned> = s.expire_rexmit(&mut rows).unwrap().collect();
    assert!(gone.len() == 1 && gone[0].bytes == 4 && gone[0].stream == 3 && s.abandon(1000).unwrap().bytes == 0);
    assert_eq!(s.abandon(1001), Err(Error::NotInFlight));
    assert_eq!(s.write_forward_tsn(&mut out), Ok(Some(8)));
    assert_eq!((s.write_forward_tsn_to(1000, &mut [0; 8]), s.write_forward_tsn_to(999, &mut [0; 8])), (Ok(Some(8)), Ok(None)));
    assert_eq!((r.forward_tsn(&out[..8]), r.forward_tsn_past_closed(&out[..8])), (Ok(true), Ok(false)));
    assert_eq!((r.discard(1000), r.discard(1001), r.cumulative_tsn()), (Ok(Arrival::Repeat), Ok(Arrival::Added), 1001));
    assert_eq!(s.take_back(b"", &mut back).err(), Some(Error::ErrChunkHeaderTooSmall));
    assert_eq!(s.take_back(b"\x03\0\0\x10\0\0\x03\xe7\0\0\x01\0\0\0\0\0", &mut back).unwrap().unwrap().count(), 0);
    s.set_mode(3, true, Mode::Timed(1)).unwrap();
    s.write(3, ppid::BINARY, b"fifteen bytes..").unwrap();
    s.write(3, ppid::BINARY, b"late").unwrap();
    assert_eq!(s.next_timeout(), None);
    s.start(0);
    assert_eq!(s.next_timeout(), Some(1_000_000));
    s.send_next(0, &mut out).unwrap();
    assert_eq!((s.expire(2_000_000), s.expire_tail(0)), (None, Ok(None)));
    assert_eq!(s.expire_late(0, &mut rows[..1]).err(), Some(Error::ShortBuffer { wanted: 2 }));
    assert_eq!(s.expire_late(0, &mut rows[..2]).unwrap().count(), 0);
    assert_eq!(s.expire_rexmit(&mut rows[..1]).err(), Some(Error::ShortBuffer { wanted: 2 }));
    assert_eq!(s.expire_tail(2_000_000).unwrap().unwrap().bytes, 15);
    assert_eq!(s.expire(2_000_000), Some(Expired { bytes: 4, stream: 3, is_low: true }));
    assert_eq!(s.expire(2_000_000), None);
}

/// A SACK counts for a caller that wants no rows; of too few it is told how many are wanted.
#[test]
fn a_sack_needs_no_rows() {
    let mut s = Sender::new(1000, 10, 100, true).unwrap();
    s.open(3).unwrap();
    s.write(3, ppid::BINARY, b"two fragments").unwrap();
    for _ in 0..2 {
        s.send_next(1, &mut [0; 32]).unwrap();
    }
    let sack = b"\x03\0\0\x10\0\0\x03\xe8\0\0\x01\0\0\0\0\0";
    assert_eq!(s.acked(sack, &mut [AckedRow::default()]).err(), Some(Error::ShortBuffer { wanted: 2 }));
    assert_eq!(s.take_back(sack, &mut []).unwrap().unwrap().count(), 0);
    assert_eq!(s.acked(sack, &mut []).unwrap().unwrap().count(), 0);
    assert_eq!((s.acked_tsn(), s.chunks_in_flight()), (1000, 1));
}

#[test]
fn halves_go_to_other_threads() {
    let mut s = Sender::new(7, 10, 100, false).unwrap();
    s.open(1).unwrap();
    let s = std::thread::spawn(move || {
        s.write(1, ppid::BINARY, b"a").unwrap();
        s
    });
    assert_eq!(format!("{:?}", s.join().unwrap()), "Sender { next_tsn: 7, acked_tsn: 6, bytes_in_flight: 0, pending: 1 }");
    let r = Receiver::new(7, 10, 500, 5).unwrap();
    assert_eq!(format!("{r:?}"), "Receiver { cumulative_tsn: 6, window: 500, held_bytes: 0 }");
    assert_eq!(Sender::new(7, 0, 100, false).err(), Some(Error::Invalid));
}

#[test]
fn plain_calls_refuse_null_and_empty_handles() {
    use core::ptr::{null, null_mut};
    use sctp_rattle_sys as sys;
    let (mut sender, mut receiver) = (sys::sctpr_sender { at: null_mut() }, sys::sctpr_receiver { at: null_mut() });
    let (mut number, mut count, mut data) = (7, 7, sys::sctpr_data::default());
    // SAFETY: each pointer is NULL, or leads to what the call wants; the handles are empty.
    unsafe {
        for handle in [null_mut(), &mut sender as *mut _] {
            assert_eq!(sys::sctpr_sender_open(handle, 1), sys::SCTPR_INVALID);
            assert_eq!(sys::sctpr_sender_write(handle, 1, 51, b"a".as_ptr(), 1, &mut number, &mut count), sys::SCTPR_INVALID);
            assert_eq!((sys::sctpr_sender_pending(handle), sys::sctpr_sender_next_tsn(handle), sys::sctpr_sender_is_drained(handle, 1)), (0, 0, 0));
            sys::sctpr_sender_free(handle);
        }
        for handle in [null_mut(), &mut receiver as *mut _] {
            assert_eq!(sys::sctpr_receiver_data(handle, b"a".as_ptr(), 1, null_mut()), sys::SCTPR_INVALID);
            assert_eq!((sys::sctpr_receiver_window(handle), sys::sctpr_receiver_held_bytes(handle)), (0, 0));
            sys::sctpr_receiver_free(handle);
        }
        assert_eq!(sys::sctpr_sender_new(1, 100, 1000, 0, null_mut()), sys::SCTPR_INVALID);
        assert_eq!(sys::sctpr_read_data(null(), 8, &mut data), sys::SCTPR_INVALID);
        assert_eq!(sys::sctpr_read_data(null(), 0, &mut data), sys::SCTPR_ERR_CHUNK_HEADER_TOO_SMALL);
        assert_eq!(sys::sctpr_sender_new(1, 100, 1000, 0, &mut sender), sys::SCTPR_OK);
        sys::sctpr_sender_free(&mut sender);
        sys::sctpr_sender_free(&mut sender);
    }
    assert_eq!((number, count), (7, 7));
}
