#!/usr/bin/env python3
"""Asks trace.py's reading for what was found by hand: callers of twenty-one calls, contracts of traits, definitions, what these use, names that
several functions have, comments, signatures, types, and bodies that only call another function; and tries the last three on a small repository.

    python3 tools/tests/trace_test.py

run at the top of the repository. Each caller stands as the file below crates/ without its src/, and its name. Whoever moves one of these calls
looks by hand again. Prints what differs; the exit status is 0 where nothing does.
"""
import os
import sys
import tempfile

sys.path.insert(0, os.path.dirname(os.path.dirname(os.path.abspath(__file__))))
from sources import Sources
from trace import Callers, Definitions, candidates, comment_of, definitions_of, proofs_of, signature_of, with_traits, wrong_bodies_of

CALLERS = {
    "sctp_sender::InFlight::expire_late": {"sctp_sender/sender/abandonment expire_late"},
    "sctp_sender::Sender::take_back_alone": {"sctp_sender/costs take_back", "sctp_sender/replay take_back"},
    "sctp_outbound::PayloadQueue::pop_up_to": {"transfer_tests/queues/payload_queue pop_up_to", "sctp_link/link_receiver/tsn_queue skip_to"},
    "sctp_reassembly::Loose::take_range_counted": {"sctp_reassembly/reassembly_queue/unassembled take_run_counted", "sctp_reassembly/reassembly_queue/unassembled take_range"},
    "sctp_reassembly::ReassemblyQueue::forward_tsn_for_unordered": {"transfer_tests/queues/reassembly_queue skip"},
    "sctp_receiver::TsnFilter::record_duplicate": {"sctp_receiver/receiver/intake note_repeat"},
    "sctp_reassembly::place_for": {"sctp_reassembly/reassembly_queue place_of"},
    "sctp_outbound::PayloadQueue::mark_as_acked_at": {"sctp_outbound/outbound_queue mark_as_acked_at"},
    "sctp_outbound::OutboundQueue::mark_as_acked_at": {"sctp_sender/sender/flight/answers acknowledge_answered",
                                                        "sctp_sender/sender/flight/kept report_again"},
    "sctp_outbound::PayloadQueue::can_push_no_check": {"transfer_tests/queues/payload_queue push_no_check", "transfer_tests/queues/payload_queue is_seen",
                                                        "sctp_outbound/outbound_queue can_send"},
    "sctp_reassembly::ReassemblyQueue::find_complete_unordered_chunk_set": {"transfer_tests/queues/reassembly_queue goes"},
    "sctp_receiver::TsnFilter::gap_ack_blocks_within_counted": {"sctp_receiver/receiver/sack_out sack_of_entries"},
    "sctp_outbound::PayloadQueue::get_gap_ack_blocks": {"bench/payload gap_blocks", "transfer_tests/queues/payload_queue has_blocks",
                                                         "sctp_outbound/payload_queue get_gap_ack_blocks_string"},
    "sctp_reassembly::Fragments::keep_past": {"sctp_reassembly/reassembly_queue/resets end_use_of"},
    "sctp_receiver::InboundStreams::close": {"sctp_receiver/receiver close"},
    "sctp_sender::OutboundStreams::close": {"sctp_sender/sender close"},
    "sctp_receiver::InboundStreams::held_bytes": {"sctp_receiver/receiver/limits held_bytes", "sctp_receiver/receiver/limits refusal_within",
                                                    "sctp_association/association held_bytes"},
    "sctp_reassembly::ReassemblyQueue::next_len": {"sctp_receiver/receiver next_len", "sctp_association/association next_len"},
    "sctp_receiver::Receiver::held_bytes": {"sctp_receiver/receiver/limits left_of", "transfer_tests/receivers is_seen",
                                              "sctp_c/receiver sctpr_receiver_held_bytes", "sctp_delivery/room is_room_left",
                                              "sctp_association/association held_bytes"},
    "sctp_c::sctpr_sender_open": {"sctp_c/callers first_chunk"},
    "crc32c::Crc::update": {"bench/packet sum", "crc32c/lib crc32c", "sctp_packets/checksum checksum", "sctp_show/checksum checksum"},
}
TRAITS = {
    "sctp_chunks::ChunkHeartbeat::value_length": "sctp_chunks/src/chunk.rt",
    "sctp_params::ParamSupportedExtensions::put_value": "sctp_params/src/param.rt",
}
DEFINITIONS = {
    "crc32c::Crc::update": {"Holds"},
    "sctp_receiver::data_each_with_any_ssn": {"TakesDataEach"},
}
# what the definitions of a contract use, and which calls name a definition that uses this one, by which
BEHIND = {
    "sctp_sender::Sender::advanced_ack_point": {"Flight", "is_kept", "preceding_tsn"},
}
CALLS_BEHIND = {
    ("sctp_sender", "Abandonment", "skip_end"): {"sctp_delivery::what_is_abandoned_can_be_passed by SkipsToPoint"},
}
# which functions a name has
CANDIDATES = {
    "set_mode": {"sctp_sender::OutboundStreams::set_mode", "sctp_sender::Sender::set_mode", "sctp_delivery::set_mode",
                 "sctp_association::Association::set_mode", "sctp_association::Outbound::set_mode"},
    "Sender::set_mode": {"sctp_sender::Sender::set_mode"},
    "sctp_receiver::cumulative_tsn": {"sctp_receiver::Receiver::cumulative_tsn", "sctp_receiver::TsnFilter::cumulative_tsn"},
}
# how a comment begins, and how many lines it has
COMMENTS = {
    "sctp_sender::Sender::retransmit_all": ("Marks each outstanding chunk in flight for retransmission", 2),
    "sctp_delivery::a_sack_of_all_leaves_nothing": ("A SACK of the receiver that has as its cumulative TSN", 1),
}
# whether the calls that a body leads to are there, and what they have beside those of the call
BODIES = {
    "sctp_receiver::Receiver::data": {"calls", "wrong bodies"},
    "sctp_receiver::Receiver::forward_tsn": {"calls", "wrong bodies"},
    "sctp_receiver::Receiver::discard": set(),
    "sctp_sender::Sender::acked": {"calls", "proof", "wrong bodies"},
    "sctp_sender::Sender::write": set(),
}
SIGNATURES = {
    "sctp_receiver::Receiver::data": ["pub fn data(&mut self, chunk: &ChunkPayloadData) -> Result<Arrival, ReceiverRefusal>"],
    "sctp_sender::Sender::write": ["pub fn write(", "    &mut self,", "    stream: u16,", "    ppi: PayloadProtocolIdentifier,", "    bytes: &Bytes,",
                                   ") -> Result<(Option<u64>, usize), SenderRefusal>"],
}
# variants or fields of a type, and definitions that name it, some of them
TYPES = {
    "sctp_data::ReliabilityType": ({"Reliable", "Rexmit", "Timed"}, {"reliability_name", "is_timed", "lifetime_of", "reliability_named"}),
    "sctp_chunks::ChunkKind": ({"PayloadData", "Init", "SelectiveAck", "Heartbeat", "HeartbeatAck", "Abort", "Shutdown", "ShutdownAck", "Error",
                                "CookieEcho", "CookieAck", "ShutdownComplete", "Reconfig", "ForwardTsn", "IForwardTsn"}, {"wire_of", "TakesChunk"}),
    "sctp_receiver::Limits": ({"window", "reach"}, {"refusal_within", "window_left"}),
}

# a small repository: what its signatures, types and bodies are stands in SMALL
FILES = {
    "crates.txt": "low:\n",
    "crates/low/specs/Words.antt": """
use Rattle.low.specs.declared.Kind.{Kind as K}
use Rattle.low.specs.declared.Kind.TheVariants.{First}
use Rattle.low.specs.declared.Host as host

abbrev pub is_first : K → 𝔹
is_first k = k == First

pub record Held : Type 0 where
  pub held : host.Host

abbrev pub spare : ℕ
spare = 0
""",
    "crates/low/src/lib.rt": """
/// What it is. More of it.
#[derive(Clone)]
pub enum Kind {
    /// The first one.
    First,
    Second(u8),
    Third { at: u8 },
}

pub struct Host {
    /// How many.
    pub count: usize,
}

pub mod costs {}

impl Host {
    pub fn plain(&mut self, at: usize) -> usize {
        self.counted(at, &mut Turns::new())
    }

    pub fn by_name(
        &mut self,
        at: usize,
    ) -> usize
        ensures one { result ≡ at }
    {
        let mut turns = Turns::new();
        costs::counted(self, at, &mut turns)
    }

    pub fn counted(&mut self, at: usize, turns: &mut Turns) -> usize
        ensures one { result ≡ at }
    {
        let rules = self.rules();
        let (one, _) = take(&mut self.count, rules, at, turns)?;
        Ok(one)
    }

    fn rules(&self) -> usize {
        self.count
    }

    pub fn branches(&mut self, at: usize) -> usize {
        if at == 0 {
            return 0;
        }
        self.plain(at)
    }

    pub fn assigns(&mut self, at: usize) -> usize {
        self.count = 0;
        self.plain(at)
    }

    pub fn two(&mut self, at: usize) -> usize {
        self.plain(at);
        self.plain(at)
    }
}

fn take(count: &mut usize, rules: usize, at: usize, turns: &mut Turns) -> usize {
    *count += rules;
    at
}
""",
    "crates/low/src/costs.rt": """
pub fn counted(host: &mut Host, at: usize, turns: &mut Turns) -> usize
    ensures one { result ≡ at }
{
    host.counted(at, turns)
}
""",
}
SMALL = {
    "bodies": {"plain": ["low::Host::counted", "low::take"], "by_name": ["low::counted", "low::Host::counted", "low::take"],
               "counted": ["low::take"], "rules": [], "branches": [], "assigns": [], "two": []},
    "signature": ["pub fn by_name(", "    &mut self,", "    at: usize,", ") -> usize"],
    "types": {"low::Kind": (["First", "Second(u8)", "Third { at: u8 }"], ["is_first"]), "low::Host": (["count: usize"], ["Held"])},
}


def of_small():
    """Returns what is found of the small repository, in the form of SMALL."""
    before = os.getcwd()
    with tempfile.TemporaryDirectory() as top:
        for path, text in FILES.items():
            os.makedirs(os.path.dirname(f"{top}/{path}"), exist_ok=True)
            with open(f"{top}/{path}", "w", encoding="utf-8") as it:
                it.write(text.lstrip("\n"))
        os.chdir(top)
        try:
            sources, definitions = Sources(), Definitions()
            callers, own = Callers(sources), {it.name: it for it in sources.functions if it.owner == "Host"}
            return {
                "bodies": {name: [it.title() for it in callers.body_of(own[name])] for name in SMALL["bodies"]},
                "signature": signature_of(own["by_name"]),
                "types": {it.title(): ([name + rest for name, rest, _ in it.members], [row.split("  ")[0] for row in definitions.on_type(it)])
                          for it in sources.types},
            }
        finally:
            os.chdir(before)


def reading_of(sources, callers, definitions, calls):
    """Returns for BODIES, SIGNATURES and TYPES what is found; of a type's definitions those that the table has."""
    found, bodies = {}, {crate: wrong_bodies_of(crate) for crate in ("sctp_receiver", "sctp_sender")}
    for title in BODIES:
        does = callers.body_of(calls[title])
        has = {"calls": does, "proof": any(map(proofs_of, does)), "wrong bodies": any(bodies[it.crate].get((it.path, it.owner, it.name)) for it in does)}
        found[f"body of {title}"] = {it for it, there in has.items() if there}, BODIES[title]
    for title, want in SIGNATURES.items():
        found[f"signature of {title}"] = signature_of(calls[title]), want
    kinds = {it.title(): it for it in sources.types}
    for title, (members, words) in TYPES.items():
        named = {row.split("  ")[0] for row in definitions.on_type(kinds[title])}
        found[title] = ({name for name, _, _ in kinds[title].members}, named & words), (members, words)
    return found


def main():
    sources = Sources()
    traits, callers, wrong = with_traits(sources), Callers(sources), 0
    calls = {}
    for it in sources.functions:
        calls.setdefault(it.title(), it)
    for title, want in CALLERS.items():
        found = {row.split(":")[0] for rows in callers.of(calls[title]) for row, _ in rows}
        found = {f"{at.removeprefix('crates/').replace('/src/', '/', 1).removesuffix('.rt')} {name}" for name, at in (it.split("  ") for it in found)}
        if found != want:
            wrong += 1
            print(f"{title}: not found {sorted(want - found)}, found beside {sorted(found - want)}")
    for title, want in TRAITS.items():
        if want not in traits.get((calls[title].path, calls[title].line), ""):
            wrong += 1
            print(f"{title}: the contract of its trait, in {want}, is not shown")
    for title, want in DEFINITIONS.items():
        found = {it.split("  ")[0] for it in definitions_of(calls[title])}
        if found != want:
            wrong += 1
            print(f"{title}: definitions {sorted(found)}, not {sorted(want)}")
    definitions = Definitions()
    found = {title: {it.split("  ")[0] for it in definitions.behind(calls[title])} for title in BEHIND}
    found |= {it: {f"{row.split('  ')[0]} {row.split('  ')[2]}" for row in definitions.calls_behind(it, sources.functions)} for it in CALLS_BEHIND}
    found |= {name: {it.title() for it in candidates(name.split("::"), sources)} for name in CANDIDATES}
    for it, want in (BEHIND | CALLS_BEHIND | CANDIDATES).items():
        if found[it] != want:
            wrong += 1
            print(f"{it}: {sorted(found[it])}, not {sorted(want)}")
    for title, (begins, count) in COMMENTS.items():
        found = comment_of(calls[title])
        if len(found) != count or not found[0].startswith(begins):
            wrong += 1
            print(f"{title}: comment of {len(found)} lines, {found[:1]}")
    read = reading_of(sources, callers, definitions, calls) | {"the small repository": (of_small(), SMALL)}
    for title, (found, want) in read.items():
        if found != want:
            wrong += 1
            print(f"{title}: {found}, not {want}")
    tables = (CALLERS, TRAITS, DEFINITIONS, BEHIND, CALLS_BEHIND, CANDIDATES, COMMENTS, read)
    print(f"{sum(len(it) for it in tables)} asked, {wrong} differ")
    sys.exit(1 if wrong else 0)


main()
