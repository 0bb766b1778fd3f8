#!/usr/bin/env python3
"""Prints, for each section of an RFC, the calls and definitions whose comments cite it, and the sections that nothing cites.

    python3 tools/rfc.py [RFC [SECTION]]
    python3 tools/rfc.py --page

run at the top of the repository. With nothing it lists the sections and how often each is cited; with an RFC (`4960`), and a section of it
(`6.2.1`, which takes those below it too), it prints each call with its clauses' names and the tests that call it, and each definition of the specs.
With --page it prints docs/RFC.md, the rules by their words, and ends with status 1 where one of those names what isn't there. A
citation is `RFC 4960 6.5, 6.6` in a comment; it counts for what the comment stands before, or for its file.
"""
import os
import re
import sys

from sources import Sources, crates, files_below, lines_of, promises_of
from trace import Callers, definition_at

CITED = re.compile(r"RFC (\d{4})((?: (?:[A-C]|\d+(?:\.\d+)*)\b(?:, (?:[A-C]|\d+(?:\.\d+)*)\b(?! (?:bytes|bits|times|streams)))*)?)")
DEFINED = re.compile(r"^(?:abbrev |opaque |unfoldable )?pub (?:record |data )?([^\s:(]+)")
HEADS = re.compile(r"^\s*(?:pub(?:\([a-z]+\))? )?(?:const )?(fn|struct|enum|const|trait|mod|static) (\w+)|^\s*impl\b")
# what this layer is about, and why nothing cites a section of it
TITLES = {
    "4960": {
        "1.6": "Serial Number Arithmetic", "3": "SCTP Packet Format", "3.1": "SCTP Common Header", "3.2": "Chunk Field Descriptions",
        "3.2.1": "Optional/Variable-Length Parameter Format", "3.2.2": "Reporting of Unrecognized Parameters", "3.3.1": "DATA", "3.3.2": "INIT",
        "3.3": "SCTP Chunk Definitions", "7.2.2": "Congestion Avoidance", "15": "Suggested SCTP Protocol Parameter Values",
        "3.3.2.1": "Parameters in INIT", "3.3.3": "INIT ACK", "3.3.3.1": "Parameters in INIT ACK", "3.3.4": "SACK", "3.3.5": "HEARTBEAT",
        "3.3.6": "HEARTBEAT ACK", "3.3.7": "ABORT", "3.3.8": "SHUTDOWN", "3.3.9": "SHUTDOWN ACK", "3.3.10": "ERROR", "3.3.11": "COOKIE ECHO",
        "3.3.10.1": "Invalid Stream Identifier", "3.3.10.2": "Missing Mandatory Parameter", "3.3.10.3": "Stale Cookie Error",
        "3.3.10.4": "Out of Resource", "3.3.10.5": "Unresolvable Address", "3.3.10.6": "Unrecognized Chunk Type",
        "3.3.10.7": "Invalid Mandatory Parameter", "3.3.10.8": "Unrecognized Parameters", "3.3.10.9": "No User Data",
        "3.3.10.10": "Cookie Received While Shutting Down", "3.3.10.11": "Restart of an Association with New Addresses",
        "3.3.10.12": "User-Initiated Abort", "3.3.10.13": "Protocol Violation",
        "3.3.12": "COOKIE ACK", "3.3.13": "SHUTDOWN COMPLETE", "6": "User Data Transfer", "6.1": "Transmission of DATA Chunks",
        "6.2": "Acknowledgement on Reception of DATA Chunks", "6.2.1": "Processing a Received SACK", "6.3": "Management of Retransmission Timer",
        "6.3.1": "RTO Calculation", "6.3.2": "Retransmission Timer Rules", "6.3.3": "Handle T3-rtx Expiration", "6.4": "Multi-Homed SCTP Endpoints",
        "6.4.1": "Failover from an Inactive Destination Address", "6.5": "Stream Identifier and Stream Sequence Number",
        "6.6": "Ordered and Unordered Delivery", "6.7": "Report Gaps in Received DATA TSNs", "6.8": "CRC32c Checksum Calculation",
        "6.9": "Fragmentation and Reassembly", "6.10": "Bundling", "7.2": "Slow-Start and Congestion Avoidance", "7.2.1": "Slow-Start",
        "7.2.3": "Congestion Control", "7.2.4": "Fast Retransmit on Gap Reports", "7.3": "Path MTU Discovery",
        "8.4": "Handle \"Out of the Blue\" Packets", "8.5": "Verification Tag", "8.5.1": "Exceptions in Verification Tag Rules",
    },
    "3758": {
        "3.1": "Forward-TSN-Supported Parameter", "3.2": "Forward Cumulative TSN Chunk", "3.3": "Negotiation of Forward-TSN-Supported",
        "3.4": "Definition of \"abandoned\"", "3.5": "Sender Side Implementation of PR-SCTP", "3.6": "Receiver Side Implementation of PR-SCTP",
        "4.1": "Timed Reliability", "4.2": "PR-SCTP Association and Streams",
    },
    "6525": {
        "3.1": "RE-CONFIG Chunk", "4": "New Parameter Types", "4.1": "Outgoing SSN Reset Request", "4.2": "Incoming SSN Reset Request",
        "4.3": "SSN/TSN Reset Request", "4.4": "Re-configuration Response", "4.5": "Add Outgoing Streams Request", "4.6": "Add Incoming Streams Request",
        "5": "Procedures", "5.1": "Sender-Side Procedures", "5.1.1": "Sender-Side Procedures for the RE-CONFIG Chunk",
        "5.1.2": "Sender-Side Procedures for the Outgoing SSN Reset Request", "5.2": "Receiver-Side Procedures",
        "5.2.1": "Receiver-Side Procedures for the RE-CONFIG Chunk", "5.2.7": "Receiver-Side Procedures for the Re-configuration Response", "5.2.2": "Receiver-Side Procedures for the Outgoing SSN Reset Request",
    },
    "8260": {
        "2.1": "I-DATA Chunk", "2.2": "Procedures", "2.3": "Interaction with Other SCTP Extensions", "2.3.1": "I-FORWARD-TSN Chunk",
    },
    "8832": {
        "5": "Message Formats", "5.1": "DATA_CHANNEL_OPEN", "5.2": "DATA_CHANNEL_ACK", "6": "Procedures",
        "8.1": "SCTP Payload Protocol Identifier",
    },
    "1982": {"3.2": "Comparison"},
    "7496": {"3.1": "Limited Retransmissions Policy"},
}
REASONS = {
    ("4960", "3.2.2"): "the association's: which parameters to report back",
    ("4960", "6.4"): "the association's: this layer knows no addresses",
    ("4960", "6.4.1"): "the association's: this layer knows no addresses",
    ("4960", "6.7"): "the association's: when to send a SACK; what it says is 3.3.4",
    ("4960", "7.3"): "the association's: it tells the path MTU to `set_fragment_size`",
    ("3758", "3.3"): "the association's handshake",
    ("3758", "3.4"): "what RFC 3758 3.5 does with it is `abandon` and the calls that expire messages",
    ("3758", "4.2"): "a service beyond timed reliability that data channels don't use",
    ("8260", "2.2"): "chunks alone: messages aren't interleaved",
    ("8260", "2.3"): "chunks alone: messages aren't interleaved",
}
# rules that are asked for by their words: the rule, its sections, what carries it, the definitions that its clauses rest on, and its tests. What carries
# it: a call with the names of the clauses that say so, or a call alone, of one clause or of an example. A test stands with the title of its case, where
# it has several. A rule that is the caller's says what the caller does, and names the calls of an example that do it
RULES = [
    ("Packets and chunks", [
        ("formats of the common header and of each chunk", "3.1, 3.2, 3.3.1 to 3.3.13; 3758 3.2; 6525 3.1; 8260 2.3.1",
         ["sctp_packets::Packet::unmarshal found only"], ["sctp_packets Packet.ReadsPacket", "sctp_chunks Wire.ReadsChunk"],
         ["packet_tests::reconfigs", "packet_tests::recorded_datagrams_are_written_back"]),
        ("formats of parameters", "3.2.1, 3.3.2.1, 3.3.3.1; 3758 3.1; 4895 3; 5061 4.2.7; 6525 4", ["sctp_params::build_param found only"],
         ["sctp_params ParamKind.ReadsParam"], ["packet_tests::each_kind"]),
        ("formats of error causes", "3.3.10", ["sctp_chunks::ErrorCause::unmarshal found only", "sctp_dissect::dissect_causes items"],
         ["sctp_chunks ErrorCause.ReadsCauses"], []),
        ("an Incoming SSN or SSN/TSN Reset Request, and a request to add streams, refuses the packet (a departure)", "6525 4.2, 4.3, 4.5, 4.6",
         ["sctp_params::build_param fault"], ["sctp_params ParamKind.IsUnhandledType"], ["packet_tests::types"]),
        ("which two parameters may stand together in a RE-CONFIG chunk: reading does not ask", "6525 3.1",
         ["sctp_chunks::may_stand_together", "sctp_chunks::ChunkReconfig::check"], ["sctp_chunks Reconfig.MayStandTogether"],
         ["packet_tests::reconfigs"]),
        ("packets in captured frames: Ethernet, PPPoE, MPLS, GRE, IP, UDP", "2516 4; 3032 2.1; 2784 2; 2890 2; 8200 4; 6951",
         ["sctp_capture::datagram_in alone carried refused"], [], []),
        ("the checksum is computed with 0 in its field", "6.8", ["sctp_packets::Packet::unmarshal found", "sctp_packets::Packet::marshal"],
         ["sctp_packets Packet.checksum_input"], ["packet_tests::recorded_datagrams_are_written_back"]),
        ("the checksum is CRC-32C", "6.8, B", ["crc32c::Crc::update"], ["crc32c Castagnoli.crc32c_of"], ["packet_tests::known_sums", "packet_tests::vectors"]),
        ("padding is not counted in a chunk's length", "3.2", ["sctp_util::get_padding_size", "sctp_packets::Packet::unmarshal found"],
         ["sctp_util Padding.padded_length", "sctp_packets Packet.after"], ["packet_tests::fronts"]),
        ("padding of chunks, parameters and causes is ignored", "3.2, 3.2.1",
         ["sctp_datagram::Datagram::open all only", "sctp_datagram::read_data found", "sctp_datagram::param_at read fault"],
         ["sctp_datagram Framing.HasFrame", "sctp_datagram Framing.StartsWith"], ["c_tests/allowed.c", "c_tests/assoc/padding.script"]),
        ("the same: a Rust caller's `Packet::unmarshal` refuses a packet whose last padding is not 0 (a departure)", "3.2",
         ["sctp_packets::Packet::unmarshal fault"], ["sctp_chunks Fault.HeaderFault"], ["packet_tests::first_chunks"]),
        ("a chunk with a length under 4 is refused", "3.2", ["sctp_chunks::ChunkHeader::unmarshal", "sctp_dissect::dissect items"],
         ["sctp_chunks Fault.HeaderFault"], ["packet_tests::first_chunks"]),
        ("an INIT is alone in its packet, and its packet has tag 0", "6.10, 8.5.1", ["sctp_packets::Packet::check_packet ok fault"],
         ["sctp_packets Valid.IsValid"], ["packet_tests::rules_for_all_packets"]),
        ("the two high bits of an unknown chunk type: skip the chunk or the rest, report it or not", "3.2",
         ["sctp_datagram::Datagram::open all only", "sctp_c::sctpr_read_any_packet read only"],
         ["sctp_datagram Types.is_stopping", "sctp_datagram Types.is_reported"], ["c_tests/unknown_chunks.c"]),
        ("the same: a Rust caller's `Packet::unmarshal` refuses the whole packet (a departure)", "3.2", ["sctp_packets::Packet::unmarshal fault"],
         ["sctp_packets Fault.PacketFault"], ["packet_tests::first_chunks", "packet_tests::numbers_of_kinds"]),
        ("the two high bits of an unknown parameter type: the high one is followed, a type without it refuses the packet (a departure)", "3.2.1",
         ["sctp_params::build_param only fault"], ["sctp_params ParamKind.IsSkippedType", "sctp_params ParamKind.IsUnhandledType"],
         ["packet_tests::types"]),
        ("the same, where parameters and causes are read in place: each of any type and value is told", "3.2.1, 3.3.10",
         ["sctp_datagram::param_at read fault", "sctp_datagram::cause_at read fault"],
         ["sctp_datagram Params.is_stopping", "sctp_datagram Params.is_reported"], ["c_tests/allowed.c"]),
        ("in C: parameters and causes of any type and padding stand in an INIT, ABORT, ERROR and RE-CONFIG; flags of an INIT are ignored",
         "3.2.1, 3.3.2, 3.3.10; 6525 3.1",
         ["sctp_c::sctpr_read_any_packet read only", "sctp_c::sctpr_read_init read only", "sctp_c::sctpr_read_any_param read fault"],
         ["sctp_datagram Types.is_list_type"], ["c_tests/allowed.c"]),
        ("in C: a payload type is any number, read as it came, and sent as it was given", "9260 3.3.1",
         ["sctp_c::sctpr_receiver_data fresh", "sctp_c::sctpr_receiver_read ok short", "sctp_c::sctpr_sender_write ok",
          "sctp_c::sctpr_sender_resend ok"],
         ["sctp_c Receiving.kept_with", "sctp_c Types.type_sent"], ["c_tests/halves.c"]),
        ("an ERROR, or a parameter of an INIT ACK, reports unknown chunks and parameters", "3.2, 3.2.2, 3.3.10.6, 3.3.10.8",
         "a caller of the halves writes it; an `Association` does", ["sctp_association::Association::note_unknown refused rest",
          "sctp_association::Association::reported_in", "sctp_association::Association::handle_datagram walks",
          "sctp_association::Association::poll_transmit reply"],
         ["sctp_association Reports.params_told", "sctp_association Replying.AreInitAck"], ["c_tests/assoc/unknown.script"]),
        ("a packet with another verification tag is discarded", "8.5, 8.5.1", "a caller of the halves compares `common_header.verification_tag`",
         ["sctp_association::Association::handle_datagram accepted foreign"], ["sctp_association Tags.is_admitted"], []),
        ("DATA, SACK and FORWARD-TSN are taken in the states that 6 names", "6; 3758 3.6", "the caller has the states; an `Association` takes them",
         ["sctp_association::Association::handle_datagram due each sacks"],
         ["sctp_association Expected.IsDue", "sctp_association Coming.TakesEach", "sctp_association Sacks.HearsFirst"],
         ["c_tests/assoc/states.script"]),
        ("an ABORT and a SHUTDOWN COMPLETE have the T bit", "8.5.1, 3.3.7, 3.3.13", "the caller reads and writes it; `sctpr_write_chunk_with_flags` in C",
         [], [], []),
        ("an ABORT answers a packet of no association", "8.4", "the caller keeps the associations; an `Association` that sent one answers so again",
         ["sctp_association::Association::take_after_end"], [], []),
        ("a packet with a checksum of 0 is accepted where that was negotiated", "9653 5", "the caller of `Datagram::open` says so; `sctpdump` follows "
         "what both ends announced", ["sctp_datagram::Datagram::open accepted fault", "sctp_show::is_wrong"],
         ["sctp_datagram Fault.IsAccepted", "sctp_show Sum.is_wrong", "sctp_show Sum.has_zero_param"], []),
        ("I-DATA chunks", "8260 2.1", "a packet with one is refused; `sctpr_read_any_packet` in C skips it", ["sctp_packets::Packet::unmarshal fault"],
         [], []),
    ]),
    ("Receiver: DATA", [
        ("a DATA chunk with a new TSN is accepted, and its message may become complete", "6.2, 6.9", ["sctp_receiver::Receiver::data answer ok"],
         ["sctp_receiver Receiver.Takes"],
         ["transfer_tests::receiver_cases with which chunk a message is complete, and which streams have one"]),
        ("a duplicate TSN is only added to the list of duplicates, which the next SACK reports", "6.2, 3.3.4",
         ["sctp_receiver::Receiver::data answer ok", "sctp_delivery::no_tsn_is_taken_twice", "sctp_receiver::repeats_are_told_once once"],
         ["sctp_receiver Receiver.repeat_tsn"],
         ["transfer_tests::receiver_cases a SACK reports a duplicate once"]),
        ("TSNs are compared modulo 2^32", "1.6; 1982 3.2", ["sctp_util::sna32lt"], ["sctp_util Serial.comes_before"],
         ["packet_tests::serial_numbers"]),
        ("DATA past the window is dropped; DATA that fills a gap is accepted", "6.2", ["sctp_receiver::Receiver::data refused"],
         ["sctp_receiver Limits.refusal_within"], ["transfer_tests::receiver_cases a window of two chunks (RFC 4960 6.2)"]),
        ("a_rwnd is the window less what is held; each held chunk counts 400 bytes more than its user data", "3.3.4, 6.2",
         ["sctp_receiver::Receiver::window", "sctp_receiver::Receiver::sack sack", "sctp_receiver::credit_is_what_is_left exact"],
         ["sctp_receiver Limits.window_left"],
         ["transfer_tests::receiver_cases a window of two chunks (RFC 4960 6.2)"]),
        ("DATA without user data is accepted as a message of no bytes", "6.2, 3.3.10.9",
         ["sctp_chunks::ChunkPayloadData::unmarshal", "sctp_receiver::Receiver::data ok"], ["sctp_data PayloadData.ReadsData"],
         ["transfer_tests::no_user_data"]),
        ("an ABORT with cause 9 answers DATA without user data", "6.2, 3.3.10.9", "the caller tests `chunk.user_data.is_empty()`", [], [], []),
        ("DATA of an unknown stream is acknowledged and dropped", "6.5", ["sctp_receiver::Receiver::data refused", "sctp_receiver::Receiver::discard ok"],
         ["sctp_receiver Receiver.after_discard"], ["transfer_tests::receiver_cases chunks that are dropped are acknowledged (RFC 4960 6.5)"]),
        ("an ERROR with cause 1 answers DATA of an unknown stream", "6.5, 3.3.10.1", "the caller writes it", ["sctp_association::Association::put_unknown_stream"], [], []),
        ("a chunk that can never be taken ends the association: an ABORT with cause 4 or 13 is due", "3.3.10.4, 3.3.10.13",
         ["sctp_receiver::advise", "sctp_receiver::no_chunk_waits_for_ever chunks"], ["sctp_receiver Advice.advice_for"],
         ["transfer_tests::receiver_cases a window that can't open (RFC 9260 3.3.10.4)"]),
        ("SSNs wrap: an ordered chunk is refused where `(ssn - lowest) mod 2^16 >= 2^15`", "6.5, 6.6; 1982 3.2",
         ["sctp_receiver::Receiver::data refused kept"], ["sctp_receiver Ssns.is_too_far_on"],
         ["transfer_tests::receiver_cases of 32,770 messages of one fragment the last one comes first"]),
        ("ordered messages are delivered in the order of their SSNs", "6.6",
         ["sctp_receiver::Receiver::read message", "sctp_delivery::messages_are_read_in_order"], ["sctp_receiver Receiver.message_on"],
         ["transfer_tests::sender_cases both hosts write, and send in turn; of each message the second fragment is lost, then sent again"]),
        ("unordered messages are delivered as soon as they are complete", "6.6", ["sctp_receiver::Receiver::read message"],
         ["sctp_reassembly reassembly_queue.ReassemblyQueue.message_read"], ["transfer_tests::reassembly_cases unordered messages are read first"]),
        ("an unordered chunk is accepted with any SSN", "3.3.1, 6.6", ["sctp_receiver::Receiver::data refused"], ["sctp_receiver Ssns.is_too_far_on"],
         ["transfer_tests::receiver_cases of 32,770 messages of one fragment the last one comes first"]),
        ("fragments of unordered messages interleave with fragments of ordered ones; no message mixes both", "6.6, 6.9",
         ["sctp_reassembly::ReassemblyQueue::push ordered unordered", "sctp_receiver::messages_are_of_accepted_chunks alike"],
         ["sctp_receiver ReceiverRuns.AreOfOneMessage"], ["transfer_tests::reassembly_cases interleaved messages come whole over the wrap"]),
        ("fragments with consecutive TSNs, from B to E, make a message", "6.9, 3.3.1", ["sctp_receiver::messages_are_of_accepted_chunks complete"],
         ["sctp_receiver ReceiverRuns.AreComplete"],
         ["transfer_tests::receiver_cases a message of three fragments over the wrap of TSNs, the last one first"]),
        ("the I bit of DATA asks for a SACK at once", "7053 3; 9260 3.3.1", "the caller reads `chunk.immediate_sack`",
         ["sctp_association::Inbound::take_data"], [], []),
    ]),
    ("Receiver: SACK", [
        ("gap ack blocks report what came past the cumulative TSN", "3.3.4, 6.2",
         ["sctp_receiver::Receiver::sack sack fits", "sctp_delivery::what_came_is_reported next each"], ["sctp_receiver TsnFilter.gap_ack_blocks"],
         ["transfer_tests::receiver_cases the SACK of the RFC"]),
        ("a SACK is no longer than its packet: gap ack blocks first, then duplicates", "6.2, 3.3.4", ["sctp_receiver::Receiver::sack sack fits rest"],
         ["sctp_receiver Receiver.sack_within"], ["transfer_tests::receiver_cases a SACK is no longer than its packet"]),
        ("delayed SACK: one for every second packet, within SACK.Delay, which is at most 500 ms", "6.2; 9260 6.2",
         ["sctp_path::AckDelay::new", "sctp_path::AckDelay::packet_came after soon", "sctp_path::AckDelay::is_due",
          "sctp_association::Association::handle_datagram walks"], ["sctp_path Timers.due_after", "sctp_association AcksDue.ended"], []),
        ("a SACK at once where a TSN is missing, or comes again", "6.2, 6.7", "the caller sends it, and says so to `packet_came`",
         ["sctp_path::AckDelay::packet_came after", "sctp_association::Association::handle_datagram walks"],
         ["sctp_path Timers.due_after", "sctp_association AcksDue.acks_by"], []),
    ]),
    ("Sender: DATA", [
        ("a message longer than a fragment is cut, B on the first fragment, E on the last, consecutive TSNs", "6.9, 3.3.1",
         ["sctp_sender::Sender::write ok count", "sctp_model::chunks_say_their_message ends says joins"],
         ["sctp_sender Outgoing.fragments_with_mode", "sctp_model Messages.fragments_of"], []),
        ("the path MTU bounds fragments", "6.9, 7.3", "the caller tells it", ["sctp_sender::Sender::set_fragment_size"], [],
         ["transfer_tests::sender_cases the fragment size of later writes and a low threshold are set"]),
        ("bundling: control chunks precede DATA; a packet fits the path MTU", "6.10", "the caller fills packets; `Link` fills them up to a limit",
         ["sctp_association::Association::poll_transmit", "sctp_model::datagrams_keep_the_limit within filled"], [], []),
        ("fewer than 2^31 TSNs are in flight; an ordered message is begun where `(ssn - first) mod 2^16 < 2^14`", "6.5, 6.6; 1982 3.2",
         ["sctp_sender::Sender::send_next refused"], ["sctp_sender Numbers.send_refusal"], ["transfer_tests::bounded"]),
        ("flow control: new DATA leaves while at most the congestion window is outstanding, and the peer's a_rwnd has room", "6.1 A, B; 7.2", "the caller compares with a_rwnd",
         ["sctp_path::Congestion::may_send value", "sctp_association::Outbound::put_next sent held",
          "sctp_association::Outbound::may_send", "sctp_association::Association::poll_transmit within"],
         ["sctp_association Congested.LeavesNew", "sctp_path Congestion.may_send", "sctp_association Sending.may_send_data"], []),
        ("what is outstanding counts against cwnd by the size of its DATA chunks, with headers of 16 bytes; against the peer's a_rwnd by user data",
         "9260 2.3, 6.1 B, 6.2.1", "the caller adds the headers", ["sctp_association::Outbound::flight", "sctp_association::Outbound::may_send value"],
         ["sctp_association Sending.flight_of", "sctp_association Sending.may_send_next"], ["c_tests/assoc/small_chunks.script"]),
        ("cwnd grows by the size of the chunks that are acknowledged, and by no abandoned one", "9260 7.2.1, 7.2.2", "the caller sums them",
         ["sctp_association::size_acked"], ["sctp_association Acks.size_acked"], ["c_tests/assoc/small_chunks.script"]),
        ("one packet may breach cwnd, and one may always be sent where nothing is outstanding; a burst has at most Max.Burst packets", "9260 6.1 B, 6.1 D",
         ["sctp_path::Congestion::may_send value one", "sctp_path::Congestion::may_burst value first",
          "sctp_association::Association::poll_transmit within"], ["sctp_path Congestion.may_burst", "sctp_association Congested.with_burst"], []),
        ("zero window probe: one DATA chunk while the peer's a_rwnd is 0", "6.1 A", "the caller sends where nothing is in flight",
         ["sctp_association::Outbound::may_send"], [], []),
        ("a DCEP message is ordered and reliable in any mode", "8832 6", ["sctp_stream::OutboundStream::is_ordered", "sctp_sender::Sender::drop_expired worn"],
         ["sctp_data PayloadTypes.is_ordered", "sctp_sender Resending.is_worn"], []),
        ("DATA_CHANNEL_OPEN and DATA_CHANNEL_ACK are read and written exactly; of an acknowledgement bytes behind its type are passed over",
         "8832 5.1, 5.2", ["sctp_dcep::Message::read exact memory again", "sctp_dcep::Message::write ok again refused"],
         ["sctp_dcep Message.read_of", "sctp_dcep Message.encoding"], ["packet_tests::channel_requests", "packet_tests::message_refusals", "packet_tests::label_lengths"]),
        ("a DATA_CHANNEL_ACK answers a DATA_CHANNEL_OPEN; both have payload type 50", "8832 6, 8.1",
         ["sctp_channels::Channels::open written", "sctp_channels::Channels::poll polls", "sctp_channels::Channels::read reads"],
         ["sctp_channels Dcep.FollowsDcep", "sctp_channels Sends.IsAnswered"], []),
        ("a DATA_CHANNEL_OPEN on a stream that its sender may not choose, or that has a channel, and a message with a fault have the stream reset, unanswered",
         "8832 6; 8831 6.7", ["sctp_channels::Channels::poll polls", "sctp_channels::Channels::read reads"],
         ["sctp_channels Dcep.FollowsDcep", "sctp_channels Dcep.Closes"], []),
        ("messages of a channel go in order until a DATA_CHANNEL_ACK or another message came on it, and then as it was asked for", "8832 6",
         ["sctp_channels::Channels::open written", "sctp_channels::Channels::poll polls", "sctp_channels::Channels::read reads"],
         ["sctp_channels Dcep.Knows", "sctp_channels Dcep.IsKnownOn"], []),
        ("a side whose peer has reset a channel's stream resets its own direction; the channel is closed once both are reset", "8831 6.7",
         ["sctp_channels::Channels::poll polls told"], ["sctp_channels Steps.after_event", "sctp_channels Steps.AsksOwed"], []),
        ("the DTLS client opens channels on streams with even numbers, the server on odd ones", "8832 6; 8831 6.5",
         ["sctp_dcep::Side::first", "sctp_dcep::Side::next", "sctp_dcep::Side::is_ours"], ["sctp_dcep Side.first_of", "sctp_dcep Side.next_of"],
         ["packet_tests::sides"]),
        ("an empty message is sent as one byte, with payload type 56 or 57", "8831 6.6", "the caller writes the byte; a write of no bytes changes nothing",
         ["sctp_sender::Sender::write empty none"], [], []),
    ]),
    ("Sender: SACK and retransmission", [
        ("a SACK acknowledges what it reports and is in flight", "6.2.1", ["sctp_sender::Sender::acked answer ok"], ["sctp_sender Flight.after_sack"],
         ["transfer_tests::sender_cases a SACK's answer says of each chunk that it reports anew what an association asks"]),
        ("a SACK of a TSN that was not sent is refused", "6.2.1", ["sctp_sender::Sender::acked refused"], ["sctp_sender Flight.sack_refusal"],
         ["transfer_tests::sender_cases what a peer may claim beside what is in flight is refused by its name, and nothing changes"]),
        ("a SACK whose cumulative TSN is older changes nothing", "6.2.1 D i", ["sctp_sender::Sender::acked outdated ok"],
         ["sctp_sender Flight.is_outdated"],
         ["transfer_tests::sender_cases what a peer may claim beside what is in flight is refused by its name, and nothing changes"]),
        ("a chunk that gap ack blocks reported, and a later SACK does not, is sent again", "6.2.1 D iv",
         ["sctp_sender::Sender::new", "sctp_sender::Sender::acked back ok"], ["sctp_sender Sender.taken_back_by"],
         ["transfer_tests::sender_cases what a SACK no longer reports is outstanding again with its bytes, and can be sent again"]),
        ("a SACK that is cut to the path MTU leaves out the highest TSNs: of chunks past its last block it tells nothing", "6.7",
         ["sctp_sender::Sender::acked back ok"], ["sctp_sender Keeping.takes_back", "sctp_sender Keeping.tells_of"],
         ["transfer_tests::cut_sacks a SACK that was cut tells nothing past its last block: a later one without blocks takes back the rest"]),
        ("T3-rtx expires: each outstanding chunk is marked for retransmission", "6.3.3 E3", ["sctp_sender::Sender::retransmit_all",
         "sctp_sender::Sender::resend_next answer ok", "sctp_delivery::chunks_in_flight_are_noted"],
         ["sctp_sender Resending.all_marked", "sctp_sender Resending.is_to_resend"],
         ["transfer_tests::sender_cases the timer runs out: what is outstanding is marked, lent one after another, and sent again"]),
        ("of these a chunk that left less than SRTT ago waits, while something is outstanding", "9260 6.3.3 E3",
         ["sctp_association::Outbound::put_again sent"], ["sctp_association Sending.is_early", "sctp_association Sending.may_send_again"], []),
        ("a chunk that is marked for retransmission leaves the flight size, and counts there again once it is sent again", "6.2.1 B, 6.3.3, 7.2.4",
         ["sctp_sender::Sender::outstanding"], ["sctp_outbound Outstanding.outstanding_of", "sctp_outbound Outstanding.flight_bytes"], []),
        ("RTO: by SRTT and RTTVAR of round trips, between RTO.Min and RTO.Max; it doubles as T3-rtx expires",
         "6.3.1 C1 to C3, C6, C7; 6.3.3 E2; 9260 6.3.1 G1",
         ["sctp_path::Rto::new", "sctp_path::Rto::measured", "sctp_path::Rto::backed_off", "sctp_path::Rto::get value least most",
          "sctp_path::doubling_ends_at_the_greatest", "sctp_association::Association::handle_timeout backs_off"], ["sctp_association BackOff.rto_after", "sctp_path Rto.after_trip", "sctp_path Rto.after_back_off"], []),
        ("a round trip is measured of DATA that was sent once: once in each, and as Fast Recovery begins", "6.3.1 C4, C5", "the caller measures; `acked` answers `nsent` and `since` of each chunk",
         ["sctp_association::Outbound::follow trips", "sctp_association::Outbound::measure_again trips", "sctp_association::Association::handle_datagram path"],
         ["sctp_association Paths.sent_once", "sctp_association Paths.measured_by", "sctp_association Paths.measured_again"], []),
        ("T3-rtx starts with DATA in flight, restarts as the earliest is acknowledged, and stops with the last", "6.3.2", "the caller says when",
         ["sctp_path::Timer::start", "sctp_path::Timer::restart", "sctp_path::Timer::stop", "sctp_path::Timer::is_due"],
         ["sctp_path Timers.started", "sctp_path Timers.is_due"], []),
        ("chunks that are marked for retransmission precede new ones", "6.1 C", "the caller calls `resend_next` before `send_next`",
         ["sctp_sender::Sender::resend_next answer", "sctp_association::Outbound::put_again sent held",
          "sctp_association::Association::poll_transmit within"], ["sctp_sender Resending.is_to_resend", "sctp_association Congested.SendsNew"], []),
        ("fast retransmit: the third miss indication marks a chunk, once", "7.2.4",
         ["sctp_sender::Sender::add_miss_indications missed thirds", "sctp_delivery::chunks_in_flight_are_noted"],
         ["sctp_sender Resending.after_misses", "sctp_sender Resending.thirds"],
         ["transfer_tests::sender_cases three SACKs report later chunks: the first is sent again at once, and once only"]),
        ("miss indications go to what is outstanding before the highest TSN that a SACK newly reports; in fast recovery, before the highest that it "
         "reports", "7.2.4", "the caller names that TSN", ["sctp_sender::Sender::add_miss_indications missed", "sctp_association::Outbound::count_missing missed",
          "sctp_association::Association::handle_datagram path"],
         ["sctp_sender Resending.count_before", "sctp_association Paths.missing_before"], []),
        ("the first cwnd; ssthresh is the peer's window", "7.2.1; 9260 7.2.1", ["sctp_path::Congestion::new"], ["sctp_path Congestion.first_window"], []),
        ("slow start: where cwnd was fully used and the cumulative TSN advanced, by what was acknowledged, at most a packet, and less from 200 packets on (RFC 3742)", "7.2.1",
         ["sctp_path::Congestion::acked after no_less a_packet_more"], ["sctp_path Congestion.after_slow_start"], []),
        ("congestion avoidance, by partial_bytes_acked", "9260 7.2.2", ["sctp_path::Congestion::acked after no_less a_packet_more"],
         ["sctp_path Congestion.avoided"], []),
        ("losses halve cwnd, once in a Fast Recovery; a SACK up to its exit point ends it", "7.2.3, 7.2.4",
         ["sctp_path::Congestion::lost", "sctp_path::Congestion::acked after", "sctp_association::Association::handle_datagram path"],
         ["sctp_path Congestion.after_loss", "sctp_path Congestion.after_growth", "sctp_association Paths.IsMissed"], []),
        ("where each chunk that was sent again since a loss came twice nothing was lost: cwnd and ssthresh are no less than before", "9260 3.3.4, 7.2.3",
         ["sctp_path::Congestion::came_twice", "sctp_path::Congestion::sent_again"], ["sctp_path Congestion.after_repeats", "sctp_path Congestion.undone"], []),
        ("T3-rtx expires: cwnd is one packet, and no second one is sent before data is acknowledged", "6.3.3 E1; 9260 7.2.3",
         ["sctp_path::Congestion::timed_out", "sctp_path::Congestion::may_send value", "sctp_association::Association::handle_timeout congestion"],
         ["sctp_path Congestion.after_timeout", "sctp_path Congestion.may_send"], []),
        ("an idle path: cwnd is halved once per RTO", "9260 7.2.1", "the caller says when", ["sctp_path::Congestion::idled", "sctp_association::Outbound::note_idle idled",
          "sctp_association::Association::poll_transmit within"], ["sctp_path Congestion.after_idling", "sctp_association Congested.idled"], []),
        ("PMDCS of the path MTU", "9260 7.2, 7.3", ["sctp_path::Congestion::set_mtu", "sctp_path::Congestion::window value a_packet"],
         ["sctp_path Congestion.pmdcs_of"], []),
        ("the association fails where more failures in a row than Association.Max.Retrans are counted", "8.1",
         ["sctp_path::Failures::count counted passed", "sctp_path::Failures::clear", "sctp_association::Association::handle_timeout fails"],
         ["sctp_path Timers.is_passed"], []),
    ]),
    ("Partial reliability", [
        ("FORWARD-TSN of a sender: it ends a message, and names the last abandoned SSN of each stream", "3758 3.5 C3, C4",
         ["sctp_sender::Sender::forward_tsn whole ended names"], ["sctp_sender Abandonment.skip_end", "sctp_sender Abandonment.Name"],
         ["transfer_tests::sender_cases a FORWARD-TSN goes to the end of a message, never inside one (RFC 3758 3.5)"]),
        ("the Advanced.Peer.Ack.Point", "3758 3.5 C1, C2", ["sctp_sender::Sender::forward_tsn past whole"], ["sctp_sender Abandonment.advanced_ack_point"],
         ["transfer_tests::sender_cases a FORWARD-TSN goes to the end of a message, never inside one (RFC 3758 3.5)"]),
        ("a partially sent message that is abandoned takes one more TSN, which is never sent", "3758 3.5",
         ["sctp_sender::Sender::abandon ok", "sctp_model::slots_are_valid no_terminal_chunk"],
         ["sctp_outbound outbound_queue.OutboundQueue.terminal_chunk", "sctp_model Laws.NoTerminalChunkIsSent"],
         ["transfer_tests::sender_cases of a message that is abandoned when partially sent the rest takes one TSN, which is never sent"]),
        ("all fragments of a message are abandoned together; they are not outstanding, and are not sent again", "3758 3.5 A2, A3",
         ["sctp_sender::Sender::abandon ok", "sctp_model::only_outstanding_goes_again"],
         ["sctp_outbound outbound_queue.OutboundQueue.abandon_chunks", "sctp_outbound Marks.is_outstanding"],
         ["transfer_tests::sender_cases what is abandoned does not come back"]),
        ("FORWARD-TSN of a receiver: it drops incomplete ordered messages that it names or cuts, and unordered fragments up to its TSN", "3758 3.6",
         ["sctp_receiver::Receiver::forward_tsn answer ok"], ["sctp_receiver Skips.after_forward_tsn"],
         ["transfer_tests::receiver_cases a message of which a fragment is skipped does not block its stream, though no name covers it"]),
        ("a FORWARD-TSN up to the cumulative TSN changes nothing", "3758 3.6", ["sctp_receiver::Receiver::forward_tsn ok"],
         ["sctp_receiver Receiver.is_stale"],
         ["transfer_tests::receiver_cases a FORWARD-TSN that is not past the cumulative TSN changes nothing (RFC 3758 3.6)"]),
        ("a SACK answers a FORWARD-TSN, also one that changes nothing", "3758 3.6", "the caller sends it", ["sctp_association::Inbound::take_skip"], [], []),
        ("past the TSN of a FORWARD-TSN the cumulative TSN goes on over what came", "3758 3.6", ["sctp_receiver::Receiver::forward_tsn ok"],
         ["sctp_receiver Receiver.follow_forward_tsn", "sctp_receiver TsnFilter.skipped_to"],
         ["transfer_tests::receiver_cases a skip goes over what came beyond it, and the message that it names is discarded"]),
        ("a FORWARD-TSN that names a stream that is not open is refused, or the name is passed over, as the caller says", "3758 3.6",
         ["sctp_receiver::Receiver::forward_tsn refused"], ["sctp_receiver Skips.refusal_to_skip"],
         ["transfer_tests::receiver_cases a FORWARD-TSN that names a stream that is not open"]),
        ("a FORWARD-TSN opens the agreed streams that it names, so that one of which nothing came waits for no message that is skipped", "3758 3.6",
         ["sctp_association::Inbound::take_skip named", "sctp_association::Inbound::open_named served"], ["sctp_association Served.AreServed"],
         ["c_tests/assoc/partial.script"]),
        ("a FORWARD-TSN whose SSN may be ahead or behind is refused", "3758 3.6; 1982 3.2", ["sctp_receiver::Receiver::forward_tsn refused"],
         ["sctp_receiver Ssns.is_name_too_far"],
         ["transfer_tests::receiver_cases a FORWARD-TSN whose number may be ahead or behind is refused, and nothing is skipped"]),
        ("limited retransmissions: a chunk that was sent `limit + 1` times and is marked again abandons its message", "7496 3.1",
         ["sctp_sender::Sender::drop_expired worn due"], ["sctp_sender Late.after_worn", "sctp_sender Resending.worn_tsns"],
         ["transfer_tests::sender_cases a message that may be sent again once is abandoned where it is marked a second time"]),
        ("timed reliability: a message past its lifetime is abandoned, or removed where it is unsent", "3758 4.1",
         ["sctp_sender::Sender::drop_expired run tail late due"],
         ["sctp_sender Late.after_late", "sctp_data Reliability.deadline_at"],
         ["transfer_tests::sender_cases the lifetime of a partially sent message ends"]),
        ("an association abandons what is in flight past its lifetime once something is to be sent again; the last chunk of a message is sent past it",
         "3758 4.1; 9260 11.1.5", ["sctp_association::Outbound::abandon early"], ["sctp_association Sending.may_drop"], ["c_tests/assoc/partial.script"]),
        ("priorities", "7496 3.2", "no mode for them", [], [], []),
        ("Forward-TSN-Supported is negotiated", "3758 3.1, 3.3", ["sctp_handshake::Machine::agreed", "sctp_handshake::Said::read_init"],
         ["sctp_handshake Machines.agreed_with", "sctp_handshake InitValues.noted"], []),
    ]),
    ("Stream reset and the rest", [
        ("an outgoing stream is reset once nothing of it waits or is in flight; its SSNs start at 0", "6525 5.1.2",
         ["sctp_sender::Sender::is_drained", "sctp_sender::Sender::reset ok accepted"], ["sctp_sender Settings.reset_on"],
         ["transfer_tests::sender_cases an outgoing stream is reset once nothing of it is left (RFC 6525 5.1.2)"]),
        ("an incoming stream is reset once all up to the Sender's Last Assigned TSN came; SSN 0 is expected next", "6525 5.2.2",
         ["sctp_receiver::Receiver::reset ok refused"], ["sctp_receiver Resets.reset_stream"],
         ["transfer_tests::receiver_cases what came before a reset is read before what comes after it (RFC 6525 5.2.2)"]),
        ("what came of the old use and waited can be read then, and that is told", "6525 5.2.2", "a caller of the halves asks `is_readable`",
         ["sctp_association::Inbound::reset tells"], ["sctp_association Telling.NotesReadable"], ["c_tests/assoc/reset_reads.script"]),
        ("a reset request that lists no stream means all of them", "6525 4.1", "the caller calls `Receiver::reset` for each open stream", [], [], []),
        ("one request is under way at a time, with the next number, the last TSN and the drained streams; it lists a stream", "6525 4.1, 5.1.1, 5.1.2",
         ["sctp_reset::OwnRequests::begin ok", "sctp_reset::OwnRequests::due lists"], ["sctp_reset Own.after_begin"], []),
        ("until a response ends its request, nothing is written to a stream that is to be reset", "6525 5.1.2",
         "the caller asks `OwnRequests::is_asked`", ["sctp_reset::OwnRequests::is_asked"], [], []),
        ("a request is sent again after the RTO, which doubles, and that is a failure of the association, but not the sending after \"In progress\"",
         "6525 5.1.1, 5.2.7",
         ["sctp_reset::OwnRequests::due due", "sctp_reset::OwnRequests::failed failed after", "sctp_reset::OwnRequests::sent",
          "sctp_reset::OwnRequests::response rest", "sctp_association::Association::has_failed asked"],
         ["sctp_reset Own.due_at", "sctp_reset Own.has_failed", "sctp_reset Own.sent_at", "sctp_reset Own.left_after"],
         ["c_tests/assoc/reconfig_backoff.script", "c_tests/assoc/reset_live_peer.script"]),
        ("a response with the number of the request under way ends it, except \"In progress\"; any other changes nothing", "6525 4.4, 5.2.7",
         ["sctp_reset::OwnRequests::response answer rest", "sctp_reset::both_sides_agree agree end"], ["sctp_reset Own.answer_to", "sctp_reset Own.left_of"],
         []),
        ("the expected request is performed once, and moves the number on except at \"In progress\"; any other number is bad", "6525 4.4, 5.2.1",
         ["sctp_reset::PeerRequests::request due rest", "sctp_reset::PeerRequests::answered", "sctp_reset::a_request_is_performed_once once"],
         ["sctp_reset Peer.due_for", "sctp_reset Peer.after_answer"], []),
        ("a request that comes again is answered alike, both of a RE-CONFIG chunk with two", "6525 3.1, 5.2.1",
         ["sctp_reset::a_request_is_performed_once alike", "sctp_reset::PeerRequests::take_response response rest"], ["sctp_reset Peer.kept_result"], []),
        ("a RE-CONFIG has the response that is due, the request whose moment has come, or both; what does not leave stays due",
         "6525 3.1, 4.1, 4.4, 5.1.1, 5.1.2, 5.2.1", ["sctp_association::Association::poll_transmit resets"],
         ["sctp_association Requesting.LeavesReset", "sctp_association Requesting.begun"], []),
        ("the streams of a request are reset, and it is answered; at a response the streams of this side begin again", "6525 4, 5.2.1, 5.2.2, 5.2.7",
         ["sctp_association::Association::handle_datagram walks"], ["sctp_association Reconfigs.ReconfigOn", "sctp_association Reconfigs.ParamOn"],
         ["c_tests/assoc/reset.script"]),
        ("in C: any request of a RE-CONFIG has a number, and a response answers it", "6525 4.1 to 4.6",
         ["sctp_c::sctpr_read_request read", "sctp_c::sctpr_read_reset read", "sctp_c::sctpr_read_response read", "sctp_c::sctpr_write_response done"],
         ["sctp_c Reconfig.IsRequest"], ["c_tests/allowed.c", "c_tests/interop/reconfig.c"]),
        ("in C: the requests of a RE-CONFIG are written, alone and two in a chunk, and those with streams are read", "6525 3.1, 4.1 to 4.6",
         ["sctp_c::sctpr_write_chunk requests", "sctp_c::sctpr_write_param own", "sctp_c::sctpr_write_reset done",
          "sctp_c::sctpr_write_incoming_reset done", "sctp_c::sctpr_write_ssn_tsn_reset done", "sctp_c::sctpr_write_add_streams done",
          "sctp_c::sctpr_read_incoming_reset read", "sctp_c::sctpr_read_add_streams read"],
         ["sctp_c Requests.requests_end", "sctp_c Requests.has_length_of"], ["c_tests/requests.c", "c_tests/interop/reconfig.c"]),
        ("a HEARTBEAT once the path was idle for RTO and HB.interval; its answer has the nonce, and a round trip", "8.3", "the caller sends it",
         ["sctp_path::Heartbeat::at", "sctp_path::Heartbeat::sent", "sctp_path::Heartbeat::answered trip after",
          "sctp_association::Association::handle_datagram walks"], ["sctp_path Heartbeats.trip_of", "sctp_association Beats.IsBeaten"], []),
        ("a HEARTBEAT that comes is answered with its information", "8.3", ["sctp_association::Association::handle_datagram walks"],
         ["sctp_association Beats.AnswersAt"], ["c_tests/assoc/heartbeat.script"]),
        ("several addresses", "6.4, 8.2", "this layer knows no addresses", [], [], []),
        ("a State Cookie has the moment of its making and what the responder wants back, under a message authentication code", "5.1.3; 2104 2",
         ["sctp_cookie::seal ok", "sctp_cookie::HmacSha256::code"], ["sctp_cookie Cookie.sealed", "sctp_cookie Hmac.hmac_sha256"],
         ["packet_tests::rfc_4231"]),
        ("a State Cookie that was not sealed under the key is discarded, and one that is past its life is stale", "5.1.5",
         ["sctp_cookie::open found only", "sctp_cookie::is_stale"], ["sctp_cookie Cookie.sealed"], ["packet_tests::sealed_cookies"]),
    ]),
    ("The beginning and the end of an association", [
        ("an INIT is sent, and its INIT ACK answered by a COOKIE ECHO", "5.1 A, C; 5.2.3",
         ["sctp_handshake::Machine::connect ok refused", "sctp_handshake::Machine::init_ack", "sctp_association::Association::handle_datagram walks"],
         ["sctp_handshake Beginnings.on_connect", "sctp_handshake Beginnings.init_ack_row", "sctp_association Openings.InitAckOn"], []),
        ("an INIT ACK without a State Cookie ends the attempt, by an ABORT with cause 2", "5.1, 3.3.10.2",
         ["sctp_association::Association::end_begun ends refused", "sctp_association::Association::handle_datagram walks due"],
         ["sctp_association Openings.EndsAsked"], ["c_tests/assoc/out_of_blue.script"]),
        ("an INIT ACK in another state than CookieWait is discarded", "5.2.3", ["sctp_association::Association::take_init_ack unexpected",
         "sctp_association::Association::handle_datagram walks"], ["sctp_association Walks.PassesOver"], []),
        ("a Host Name Address in an INIT or an INIT ACK is answered by an ABORT with cause 5", "5.1.2, 3.3.2.1.4, 3.3.10.5",
         ["sctp_handshake::host_name_in place", "sctp_association::Association::take_init host", "sctp_association::Association::take_init_ack host",
          "sctp_association::Association::handle_datagram walks"],
         ["sctp_handshake InitValues.host_name_from", "sctp_association Reports.EndsBegun"], ["c_tests/assoc/host_name.script"]),
        ("an INIT is answered by an INIT ACK, and changes nothing: all is in the cookie", "5.1 B, 5.2.1, 5.2.2",
         ["sctp_handshake::Machine::init", "sctp_association::Association::handle_datagram init walks"],
         ["sctp_handshake Beginnings.init_row", "sctp_association Openings.AnswersOffer"], []),
        ("where an association stands, an INIT ACK has a fresh tag, and else what this side offers", "5.2.2, 5.3.1", ["sctp_handshake::Machine::init", "sctp_association::Association::fresh_tag"],
         ["sctp_handshake Beginnings.renewed", "sctp_association Fresh.fresh_tag"], ["c_tests/assoc/cookie_row_a.script"]),
        ("an offer without a tag, streams or a window of 1,500 bytes is refused", "3.3.2, 3.3.3",
         ["sctp_handshake::Offer::fault", "sctp_handshake::Machine::init", "sctp_handshake::Machine::init_ack"],
         ["sctp_handshake Offers.offer_fault", "sctp_handshake Beginnings.init_checked", "sctp_handshake Beginnings.init_ack_checked"],
         ["c_tests/assoc/init_faults.script"]),
        ("neither side sends on more streams than the other takes", "5.1.1, 3.3.3", ["sctp_handshake::Machine::agreed"],
         ["sctp_handshake Machines.agreed_with", "sctp_handshake Beginnings.fitted"], []),
        ("only a cookie makes an association, and only a COOKIE ACK or one's own cookie ends the wait", "5.1 D, E; 5.2.5",
         ["sctp_handshake::Machine::cookie_echo", "sctp_handshake::Machine::cookie_ack", "sctp_handshake::only_a_cookie_makes_an_association"],
         ["sctp_handshake Cookies.cookie_step", "sctp_handshake Laws.NeedsCookie"], []),
        ("the table of a COOKIE ECHO where an association stands: restart, collision, late cookie, repeat", "5.2.4, 5.2.1",
         ["sctp_handshake::Machine::cookie_echo", "sctp_handshake::offers_stay", "sctp_association::Association::handle_datagram walks"],
         ["sctp_association Openings.EchoesOn", "sctp_handshake Cookies.row_by", "sctp_handshake Cookies.renewal_row", "sctp_handshake Laws.OffersStay"], []),
        ("a stale cookie is answered by an ERROR; such an ERROR begins the handshake again, with a fresh tag", "5.1.5, 5.2.4, 5.2.6, 5.3.1",
         ["sctp_handshake::Machine::cookie_echo", "sctp_handshake::Machine::stale_cookie", "sctp_association::Association::fresh_tag"],
         ["sctp_handshake Cookies.unless_stale", "sctp_handshake Cookies.stale_cookie_row", "sctp_association Fresh.fresh_tag"],
         ["c_tests/assoc/cookie_stale.script"]),
        ("what a cookie holds, as bytes", "5.1.3",
         ["sctp_handshake::Ticket::put items", "sctp_handshake::Ticket::read", "sctp_handshake::a_ticket_is_read_from_its_bytes"],
         ["sctp_handshake Tickets.ticket_in"], []),
        ("the MAC of a cookie, and its life", "5.1.3, 5.1.5", "the caller computes and compares them",
         ["sctp_association::Association::handle_datagram accepted begun"], ["sctp_association Cookies.IsSealedAt"], []),
        ("parameters of an INIT and of an INIT ACK: unknown ones by their two highest bits, and which of them are reported", "3.2.1, 3.2.2",
         ["sctp_handshake::Said::read_init", "sctp_handshake::Said::read_init_ack", "sctp_handshake::Reported::first_from"],
         ["sctp_handshake InitValues.said_from", "sctp_handshake InitValues.told_from"], []),
        ("an INIT says FORWARD-TSN, RE-CONFIG and a checksum of 0", "3758 3.1; 5061 4.2.7; 9653 4.1",
         ["sctp_handshake::Offer::put_init items", "sctp_handshake::an_offer_is_read_as_it_was"], ["sctp_handshake InitValues.offer_params"], []),
        ("T1-init, T1-cookie and T2-shutdown: what is sent again, and how often", "4, 5.1, 9.2", ["sctp_handshake::Machine::timed_out", "sctp_handshake::State::timer",
         "sctp_handshake::silence_ends_it", "sctp_association::Association::handle_timeout again"],
         ["sctp_handshake Timeouts.timed_out_row", "sctp_handshake States.timer", "sctp_handshake Laws.SilenceEnds", "sctp_association Again.RunsAgain"], []),
        ("a chunk that comes makes what the row of its state says: which reply is due, what is told, whether the association is over", "4, 5, 9",
         ["sctp_association::Association::handle_datagram walks"],
         ["sctp_association Rows.RowOn", "sctp_association Rows.row_at", "sctp_association Walks.Walks"], []),
        ("a control chunk that its state expects is not dropped", "5, 8.3, 9", ["sctp_association::Association::handle_datagram due"],
         ["sctp_association Expected.expects", "sctp_association Expected.IsDue"], ["c_tests/assoc/states.script"]),
        ("an association ends only by certain chunks", "3.3.7, 3.3.10, 5.1, 5.2.6, 6.2, 9", ["sctp_association::Association::handle_datagram over"],
         ["sctp_association Ends.Ends", "sctp_association Ends.ends_at"], ["c_tests/assoc/abort.script"]),
        ("by DATA without user data, a SACK of what was not sent, or what is refused for good it ends with an ABORT of that cause", "3.3.10, 6.2, 9.1",
         ["sctp_association::Association::handle_datagram over walks"], ["sctp_association Ends.IsAborted", "sctp_association Ends.IsAbortedBy"],
         ["c_tests/assoc/abort.script"]),
        ("the cause of an ERROR is told", "3.3.10", ["sctp_association::Association::handle_datagram walks"],
         ["sctp_association Causes.cause_in", "sctp_association Causes.cause_after"], []),
        ("T1-init, T1-cookie or T2-shutdown begins as its state is entered, T2-shutdown again where DATA is answered by a SHUTDOWN", "4, 5.1, 9.2",
         ["sctp_association::Association::connect timers", "sctp_association::Association::handle_datagram walks",
          "sctp_association::Association::shutdown settles", "sctp_association::Association::poll_transmit timers"],
         ["sctp_association Timers.RunsTimers", "sctp_association Timers.StartsTimers", "sctp_association Timers.EntersTimers"], []),
        ("which ending is told: by the peer's ABORT, an ABORT of this side, a shutdown, or since the peer does not answer", "8.1, 9.1, 9.2",
         ["sctp_association::Association::handle_datagram walks", "sctp_association::Association::abort aborts",
          "sctp_association::Association::handle_timeout unanswered"],
         ["sctp_association Telling.passed_on", "sctp_association Ends.IsAbortedByPeer", "sctp_association Ends.IsUnanswered"], []),
        ("T5-shutdown-guard bounds a shutdown", "9.2", ["sctp_association::Association::handle_timeout guard guarded"],
         ["sctp_association Failing.IsGuarded"], []),
        ("a shutdown: what waits is sent first, then SHUTDOWN, SHUTDOWN ACK and SHUTDOWN COMPLETE", "9.2",
         ["sctp_handshake::Machine::shutdown_asked", "sctp_handshake::Machine::drained", "sctp_handshake::Machine::shutdown",
          "sctp_handshake::Machine::shutdown_ack", "sctp_handshake::Machine::shutdown_complete", "sctp_receiver::Receiver::cumulative_tsn"],
         ["sctp_handshake Endings.drained_row", "sctp_handshake Endings.shutdown_row", "sctp_handshake Endings.shutdown_ack_row"], []),
        ("DATA while a SHUTDOWN waits for its answer is answered by a SHUTDOWN at once", "9.2", ["sctp_handshake::Machine::packet_arrived"],
         ["sctp_handshake Timeouts.packet_arrived_row"], []),
        ("a SHUTDOWN ACK before an association stands is out of the blue; the SHUTDOWN COMPLETE with the T bit that SHOULD answer it is left out",
         "8.4, 8.5.1 E", ["sctp_handshake::Machine::shutdown_ack"],
         ["sctp_handshake Endings.shutdown_ack_row"], ["c_tests/assoc/out_of_blue.script"]),
        ("ABORT", "9.1", ["sctp_handshake::Machine::abort", "sctp_handshake::Machine::abort_asked"],
         ["sctp_handshake Endings.abort_row", "sctp_handshake Endings.abort_asked_row"], []),
        ("a COOKIE ECHO has the cookie, a SHUTDOWN the cumulative TSN, and a HEARTBEAT ACK what the HEARTBEAT had; each stays due until it leaves",
         "5.1 C, D; 6.10, 8.3, 9.2", ["sctp_association::Association::poll_transmit leaves"],
         ["sctp_association Leaving.Leaves", "sctp_association Leaving.HasChunk"],
         ["c_tests/assoc/heartbeat_room.script", "c_tests/assoc/heartbeat.script", "c_tests/assoc/cookie_too_long.script"]),
        ("a COOKIE ECHO, COOKIE ACK, SHUTDOWN, SHUTDOWN ACK or HEARTBEAT ACK leaves only where it is due, and then is due no more",
         "5.1 C, D; 8.3, 9.2", ["sctp_association::Association::poll_transmit once"], ["sctp_association Leaving.IsDueOnce"],
         ["c_tests/assoc/heartbeat.script"]),
        ("a SACK, HEARTBEAT, ERROR, RE-CONFIG or FORWARD-TSN leaves only where it is due, and then is due no more", "6.2, 6.5, 8.3, 3.2; 3758 3.5",
         ["sctp_association::Association::poll_transmit once", "sctp_association::Association::poll_transmit moments"],
         ["sctp_association Leaving.IsReplyOnce", "sctp_association Leaving.AsksNoMore"], ["c_tests/assoc/heartbeat.script"]),
        ("a packet of one reply has its tag and exactly its chunks: an ABORT, or an ERROR, with one cause; a SHUTDOWN ACK and cause 10; a SHUTDOWN COMPLETE",
         "3.3.7, 3.3.10.2, 3.3.10.3, 3.3.10.9, 3.3.10.10, 5.2.4, 8.4, 9.2",
         ["sctp_association::Association::poll_transmit reply"], ["sctp_association Replying.AreReply", "sctp_association Replying.LeavesAlone"],
         ["c_tests/assoc/out_of_blue.script", "c_tests/assoc/abort.script"]),
        ("in which states DATA and SACKs are sent and taken, and writes accepted", "6, 9.2",
         ["sctp_handshake::State::sends_data", "sctp_handshake::State::takes_data", "sctp_handshake::State::takes_sacks",
          "sctp_handshake::State::accepts_writes"], ["sctp_handshake States.takes_data"], []),
    ]),
]


def sections_in(text):
    """Returns what a comment cites: pairs of an RFC and a section, "" for an RFC as a whole."""
    found = []
    for rfc, rest in CITED.findall(text):
        found += [(rfc, it.strip()) for it in rest.split(",")] if rest.strip() else [(rfc, "")]
    return found


def comments_of(lines, signs):
    """Returns the comments of a file: each block as one text, with the line behind it."""
    found, block = [], []
    for at, line in enumerate(lines + [""]):
        text = line.strip()
        if text.startswith(signs):
            block.append(text.lstrip("/!- "))
        elif block:
            found.append((" ".join(block), at))
            block = []
    return found


def cited_in_source(path):
    """Returns the citations of a source file: RFC, section, and the name of what follows, with its line, or "" for the file."""
    lines, found = lines_of(path), []
    for text, at in comments_of(lines, ("///", "//!", "//")):
        begin = next((it for it in range(at, min(at + 6, len(lines))) if HEADS.match(lines[it])), None)
        head = HEADS.match(lines[begin]) if begin is not None and not lines[at - 1].strip().startswith("//!") else None
        if not head:
            begin = next((it for it in range(at - 1, -1, -1) if HEADS.match(lines[it])), None) if lines[at - 1].startswith(" ") else None
            head = HEADS.match(lines[begin]) if begin is not None else None
        found += [(rfc, section, head[2] or "" if head else "", begin + 1 if head else 1) for rfc, section in sections_in(text)]
    return found


def cited_in_specs(path):
    lines, found = lines_of(path), []
    for text, at in comments_of(lines, ("--",)):
        name = DEFINED.match(lines[at]) if at < len(lines) else None
        found += [(rfc, section, name[1] if name else "", at + 1 if name else 1) for rfc, section in sections_in(text)]
    return found


def all_citations():
    """Returns, for each RFC and section, where it is cited: path, line and name, of sources and of specs."""
    found = {}
    for crate in crates():
        for folder, ending, read in (("src", ".rt", cited_in_source), ("specs", ".antt", cited_in_specs)):
            for path in files_below(f"crates/{crate}/{folder}", ending):
                for rfc, section, name, line in read(path):
                    found.setdefault((rfc, section), set()).add((path, line, name))
    return found


def order(section):
    return [int(it) if it.isdigit() else ord(it[0]) * 100 for it in section.split(".") if it]


def show(rfc, section, citations, sources, callers):
    by_place = {(it.path, it.line): it for it in sources.functions}
    # (RFC 9260 keeps the sections of RFC 4960, which most sources cite)
    rfcs = ["4960", "9260"] if rfc in ("4960", "9260") else [rfc]
    found = [(key, it) for key, it in citations.items() if key[0] in rfcs and within(section, key[1])]
    if not found:
        print(f"nothing cites RFC {rfc} {section}".rstrip())
    for (named, own), places in sorted(found, key=lambda it: (order(it[0][1]), it[0][0])):
        print(f"RFC {named} {own}  {TITLES.get(named, {}).get(own, '')}")
        for path, line, name in sorted(places):
            call = by_place.get((path, line))
            print(f"  {call.title() if call else name or 'the file'}  {path}:{line}")
            if not call:
                continue
            names = re.findall(r"requires (\w+) \{", " ".join(call.clauses)) + promises_of(call)
            tests = [row.split("  ")[0] for row, test in callers.of(call)[0] if test]
            print(f"    clauses: {', '.join(names) or ('one' if call.clauses else 'none')}; tests: {', '.join(tests[:6]) or 'none'}")


def within(section, own):
    return not section or own == section or own.startswith(section + ".")


def faults_of(rule, functions):
    """Returns what one of RULES names that isn't there: calls, clauses of these, definitions, tests and titles of their cases."""
    calls, words, tests = rule[-3:]
    told = []
    for call, *clauses in map(str.split, calls):
        named = promises_of(functions[call]) if call in functions else []
        told += [call] if call not in functions else [f"{call} {it}" for it in clauses if it not in named]
    for crate, path in map(str.split, words):
        module, _, word = path.rpartition(".")
        told += [] if definition_at(crate, module, word) else [f"{crate} {path}"]
    for test in tests:
        name, _, title = test.partition(" ")
        path = functions[name].path if name in functions else name
        told += [] if os.path.exists(path) and title in "\n".join(lines_of(path)) else [test]
    return told


def row_of(rule, functions):
    """Returns a row of the page: the rule, its sections, code, contract, test."""
    calls, words, tests = rule[-3:]
    linked = [(functions[call], clauses) for call, *clauses in map(str.split, calls)]
    code = ", ".join(f"[`{it.title().partition('::')[2]}`](../{it.path})" for it, _ in linked)
    clauses = [f"`{' '.join(names)}`" for _, names in linked if names]
    defined = [f"`{it.split()[0]}::{it.rpartition('.')[2]}`" for it in words]
    tested = ["`{}`{}".format(name, f": `{title}`" if title else "") for name, _, title in (it.partition(" ") for it in tests)]
    cells = [rule[0], rule[1], code, "; ".join([*clauses, *defined]), ", ".join(tested)]
    if isinstance(rule[2], str):
        cells[2] = "; ".join(it for it in (f"*not ours*: {rule[2]}", code) if it)
    return "| " + " | ".join(cells) + " |"


def rules():
    """Prints RULES; ends with status 1 where one of them names what isn't there."""
    functions = {it.title(): it for it in Sources().functions}
    missing = [fault for _, part in RULES for rule in part for fault in faults_of(rule, functions)]
    if missing:
        sys.exit("rfc.py: RULES names what is not there: " + ", ".join(missing))
    for title, part in RULES:
        print(f"\n## {title}\n\n| rule | section | code | contract | test |\n|---|---|---|---|---|")
        for rule in part:
            print(row_of(rule, functions))


def not_cited(citations):
    """Prints the sections that nothing cites, and why."""
    missing = {}
    for rfc, titles in TITLES.items():
        for section in sorted(titles, key=order):
            if (rfc, section) not in citations:
                missing.setdefault((rfc, REASONS.get((rfc, section), titles[section])), []).append(section)
    for (rfc, reason), sections in missing.items():
        print(f"- not cited: RFC {rfc} {', '.join(sections)}: {reason}")


def page():
    print("# Which rule of an RFC stands where\n")
    print("Sections are of RFC 4960, or of the RFC named before them. RFC 9260 keeps the numbers of sections 3 to 9. *not ours*: the caller of the halves does")
    print("it; the code named there is an `Association`'s, an example, or what the caller calls. Contract: names of clauses of these calls, then definitions.")
    print("`python3 tools/trace.py NAME` prints any name.\n")
    print("`python3 tools/rfc.py --page` makes this page from a list in which each name must exist. Without `--page` the script prints how often the sources")
    print("cite each section; with `RFC SECTION` it prints what cites it.")
    rules()


def main():
    if sys.argv[1:] == ["--page"]:
        return page()
    citations = all_citations()
    if sys.argv[1:]:
        sources = Sources()
        show(sys.argv[1], sys.argv[2] if len(sys.argv) > 2 else "", citations, sources, Callers(sources))
    else:
        for (rfc, section), places in sorted(citations.items(), key=lambda it: (it[0][0], order(it[0][1]))):
            print(f"RFC {rfc} {section or '(whole)'}  {len(places)}")
        not_cited(citations)


main()
