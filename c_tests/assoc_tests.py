#!/usr/bin/env python3
"""Tests an association through the program assocrun: exchanges of the RFCs by hand, recorded peers, any bytes, refused memory, sessions of two hosts.

    python3 c_tests/assoc_tests.py [--tshark] [--datagrams N] [--every N] [--sessions N] [--only WORD] [PROGRAM]

PROGRAM is crates/assocrun/out/assocrun unless told otherwise: `rt ci` leaves it there. A file c_tests/assoc/NAME.script has commands of assocrun
(docs/ASSOCRUN.md), and below each, further in, what it must answer. The expected values are written from the sections of the RFCs that stand beside them.
`in T` takes a datagram as c_tests/assoc/wire.py has it as text, and `out` shows one: its chunks are all there, in this order; of their fields those that
are named are compared. `$name` is what stood there first, `A..B` a number between, `!=N` another one, `~` the same bytes in any order, and a last `*`
anything. `N times` before a command gives it so often. `next` is compared where it is named. Each datagram that is sent is decoded by wire.py, with
--tshark by tshark too.
N datagrams of any bytes, and of chunks with random fields, are given to an association (50,000 unless told otherwise). Each 7th
allocation of an exchange, or each Nth, is refused. The RTO of ten associations is compared with a model. N sessions of two hosts over a bad network
follow (40), half as many with a restart, half as many with each datagram watched, and half as many with usrsctp, where Debian's package
libusrsctp-dev is there.
The last line is 'N passed, M failed'; the status is 0 where nothing failed.
"""
import argparse
import os
import re
import subprocess
import sys
import tempfile

ROOT = os.path.dirname(os.path.dirname(os.path.abspath(__file__)))
FOLDER = os.path.join(ROOT, "c_tests", "assoc")
# How many associations have their RTO compared with a model.
ROUND_TRIPS = 10
sys.path.insert(0, FOLDER)
import hostile  # noqa: E402
import recorded  # noqa: E402
import refused  # noqa: E402
import round_trips  # noqa: E402
import sessions  # noqa: E402
import watched  # noqa: E402
import wire  # noqa: E402


class Wrong(Exception):
    """An answer is not what it must be."""


class Run:
    """A program that is given lines, and what it sent."""

    def __init__(self, program):
        self.process = subprocess.Popen([program], stdin=subprocess.PIPE, stdout=subprocess.PIPE, text=True)
        self.sent = []

    def ask(self, line):
        """Gives a line, and returns what it answers."""
        self.process.stdin.write(line + "\n")
        self.process.stdin.flush()
        answers = []
        for got in self.process.stdout:
            answers.append(got.rstrip("\n"))
            if got.startswith("next "):
                break
        else:
            raise Wrong(f"the program ended at: {line[:100]}")
        self.sent += [bytes.fromhex(it[4:]) for it in answers if it.startswith("out ")]
        return answers

    def end(self):
        self.process.stdin.close()
        return self.process.wait()


def substitute(text, names):
    def value(match):
        held = names[match[1]]
        if match[2] == "+":
            return str(int(held) + int(match[3]))
        if match[2] == ".":
            # one bit of a byte of hex text is another
            at = 2 * int(match[3])
            return held[:at] + f"{int(held[at:at + 2], 16) ^ 1:02x}" + held[at + 2:]
        return str(held)
    return re.sub(r"\$(\w+)(?:([+.])(\d+))?", value, text)


def is_same(want, got, names):
    """Whether a value is as expected."""
    if want.startswith("$") and want[1:].isalnum():
        if want[1:] in names:
            return str(names[want[1:]]) == str(got)
        names[want[1:]] = got
        return True
    want = substitute(want, names)
    if want.startswith("!="):
        return str(got) != want[2:]
    if ".." in want:
        low, high = want.split("..")
        return int(low) <= int(got) <= int(high)
    if want.endswith("*"):
        return str(got).startswith(want[:-1])
    if isinstance(got, int):
        return int(want, 0) == got
    if re.fullmatch(r"\*\d+", want):
        return wire.octets(want).hex() == got
    return want == got


def is_chunk(want, name, fields, names):
    """Whether a chunk is as expected."""
    words = want.split()
    if words[0] != name:
        return False
    left = list(fields)
    for word in words[1:]:
        key, mark, text = re.fullmatch(r"([a-z]+)([=~]?)(.*)", word).groups()
        held = next((it for it in left if it[0] == key), None)
        if held is None:
            return False
        left.remove(held)
        if mark == "~":
            if sorted(bytes.fromhex(text)) != sorted(bytes.fromhex(held[1])):
                return False
        elif mark == "=" and not is_same(text, held[1], names):
            return False
    return True


def is_datagram(want, got, names):
    """Whether a datagram is as expected."""
    head, chunks = wire.decode(bytes.fromhex(got))
    want = re.sub(r"^((?:(?:src|dst|sum)=\w+ )*)(tag=\S+) ", r"\1\2|", want)
    first, *parts = [part.strip() for part in want.split("|")]
    needed = {"src": "5000", "dst": "5000", "sum": "good", **dict(word.split("=") for word in first.split())}
    if not all(is_same(text, head[key], names) for key, text in needed.items()):
        return False
    return len(parts) == len(chunks) and all(is_chunk(part, *chunk, names) for part, chunk in zip(parts, chunks))


def shown(answer):
    """An answer, its datagram as text."""
    return "out " + wire.shown(*wire.decode(bytes.fromhex(answer[4:]))) if answer.startswith("out ") else answer


def compare(wants, answers, names):
    """Compares what a command answered."""
    told = list(answers)
    if not any(want.split()[0] in ("dropped", "accepted", "refused") for want in wants):
        told = [it for it in told if it != "accepted"]
    if not any(want.startswith("next ") for want in wants):
        told.pop()
    # An event that no RFC knows is compared where it is named.
    if not any(want.startswith("event bufferedamountlow") for want in wants):
        told = [it for it in told if not it.startswith("event bufferedamountlow")]
    if len(told) != len(wants):
        return False
    for want, got in zip(wants, told):
        if want.startswith("out "):
            if not got.startswith("out ") or not is_datagram(want[4:], got[4:], names):
                return False
        elif len(want.split()) != len(got.split()) or not all(is_same(a, b, names) for a, b in zip(want.split(), got.split())):
            return False
    return True


def lines_of(path):
    """The lines of a script, with those of what it includes."""
    with open(path, encoding="ascii") as script:
        for number, line in enumerate(script, 1):
            if line.startswith("include "):
                yield from lines_of(os.path.join(FOLDER, line.split()[1]))
            elif line.split("#")[0].strip():
                yield f"{os.path.basename(path)}:{number}", line.split("#")[0].rstrip()


def commands_of(path):
    """Each command, with what it must answer. One that stands behind `N times` comes so often."""
    command, count = None, 1
    for place, line in lines_of(path):
        if line.startswith(" "):
            command[2].append(line.strip())
        else:
            if command:
                yield from [command] * count
            count, line = re.fullmatch(r"(?:(\d+) times )?(.*)", line).groups()
            command, count = (place, line, []), int(count or 1)
    if command:
        yield from [command] * count


def play(program, path):
    """Plays a script; returns what was sent."""
    run, names = Run(program), {}
    try:
        for place, line, wants in commands_of(path):
            line = substitute(line, names)
            if re.match(r"in \d+ \w+=", line):
                _, time, text = line.split(" ", 2)
                line = f"in {time} {wire.encode(text).hex()}"
            answers = run.ask(line)
            try:
                is_well = compare(wants, answers, names)
            except wire.Malformed as fault:
                raise Wrong(f"{place}: {fault}: {answers}") from fault
            if not is_well:
                raise Wrong("\n    ".join([f"{place}: {line[:100]}", "wanted:", *wants, "answered:", *map(shown, answers)]))
    finally:
        status = run.end()
    if status != 0:
        raise Wrong(f"status {status}")
    return run.sent


def check_by_tshark(sent):
    """Whether tshark finds each datagram well formed, with the checksum and the chunks that wire.py finds."""
    with tempfile.TemporaryDirectory() as folder:
        path = os.path.join(folder, "sent.pcap")
        recorded.write_capture(path, sent)
        words = ["tshark", "-n", "-r", path, "-o", "sctp.checksum:CRC 32c", "-T", "fields", "-e", "sctp.chunk_type", "-e", "sctp.checksum.status",
                 "-e", "_ws.malformed"]
        lines = subprocess.run(words, capture_output=True, text=True, check=True).stdout.splitlines()
    if len(lines) != len(sent):
        raise Wrong(f"tshark shows {len(lines)} of {len(sent)} datagrams")
    for datagram, line in zip(sent, lines):
        types, status, malformed = line.split("\t")
        head, chunks = wire.decode(datagram)
        want, is_cut = [], False
        for name, fields in chunks:
            want.append(str(wire.TYPES.get(name, name[4:])))
            for told in [bytes.fromhex(text[2:]) for key, text in fields if key == "cause" and text.startswith("6:")]:
                # tshark shows the chunk that a cause 6 has too, and finds one that is cut to a packet malformed.
                want.append(str(told[0]))
                is_cut = is_cut or int.from_bytes(told[2:4], "big") > len(told)
        if (malformed and not is_cut) or types.split(",") != want or (head["sum"] == "good" and status not in ("1", "Good")):
            raise Wrong(f"tshark: {line!r} of {datagram.hex()}")


def usrsctp_host(folder):
    """Builds the host that drives usrsctp; returns its path, or None where there is no usrsctp."""
    if not os.path.exists("/usr/include/usrsctp.h"):
        print("left out: sessions with usrsctp, since there is no libusrsctp-dev")
        return None
    sys.path.insert(0, os.path.join(ROOT, "evidence"))
    import simulate
    return simulate.build_usrsctp(folder)


def main():
    parser = argparse.ArgumentParser()
    parser.add_argument("--tshark", action="store_true")
    parser.add_argument("--datagrams", type=int, default=50_000)
    parser.add_argument("--every", type=int, default=7)
    parser.add_argument("--sessions", type=int, default=40)
    parser.add_argument("--only", default="")
    parser.add_argument("program", nargs="?", default=os.path.join(ROOT, "crates", "assocrun", "out", "assocrun"))
    args = parser.parse_args()
    with tempfile.TemporaryDirectory() as folder:
        return run_all(args, os.path.abspath(args.program), usrsctp_host(folder))


def run_all(args, program, usrsctp):
    passed = failed = 0
    sent = []

    def try_it(name, call):
        nonlocal passed, failed
        if args.only not in name:
            return
        try:
            sent.extend(call() or [])
            passed += 1
        except (Wrong, wire.Malformed, recorded.Wrong, hostile.Wrong, refused.Wrong, round_trips.Wrong,
                sessions.Wrong) as fault:
            failed += 1
            print(f"{name}: {fault}", flush=True)

    for name in sorted(os.listdir(FOLDER)):
        if name.endswith(".script"):
            try_it(name, lambda: play(program, os.path.join(FOLDER, name)))
    for name, call in [*recorded.cases(program, ROOT), *hostile.cases(program, args.datagrams), *refused.cases(program, args.every),
                       *round_trips.cases(program, ROUND_TRIPS), *sessions.cases(program, usrsctp, args.sessions),
                       *watched.cases(program, args.sessions // 2)]:
        try_it(name, call)
    if args.tshark:
        try_it("tshark", lambda: check_by_tshark(sent))
    print(f"{passed} passed, {failed} failed")
    return 1 if failed else 0


if __name__ == "__main__":
    sys.exit(main())
