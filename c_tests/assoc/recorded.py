"""Recorded associations of other stacks, played against an association in the place of each of their sides.

Of the datagrams of one side each is given as it was recorded, where this side asks; where it is asked, its tag and its cookie are put in, and the checksum
is written anew. As many messages of a byte are written as the other side sent chunks, so that the SACKs fit. What is read has to be what was recorded.
"""
import os
import re
import struct
import subprocess

import wire

# Files of examples/, and whether no message is abandoned there.
FILES = [("usrsctp-plain.hex", True), ("pion-plain.hex", True), ("aiortc-channels.hex", True), ("aiortc-partial.hex", False), ("usrsctp-abort.hex", True),
         ("usrsctp-reset.hex", True)]
STEP = 10_000
# The payload types of RFC 8831 8; another one may be told as 58.
KNOWN = (50, 51, 53, 56, 57)


class Wrong(Exception):
    """An answer is not what it must be."""


def write_capture(path, datagrams):
    """A capture (pcap, link type 1 over IPv4, protocol 132)."""
    with open(path, "wb") as out:
        out.write(struct.pack("<IHHiIII", 0xA1B2C3D4, 2, 4, 0, 0, 262144, 101))
        for number, datagram in enumerate(datagrams):
            packet = struct.pack(">BBHHHBBH", 0x45, 0, 20 + len(datagram), 1, 0, 64, 132, 0) + bytes([192, 0, 2, 1, 192, 0, 2, 2]) + datagram
            out.write(struct.pack("<IIII", number, 0, len(packet), len(packet)) + packet)


def chunks_of(datagram):
    """The chunks of a datagram as they lie: type, flags, value."""
    found, at = [], 12
    while at + 4 <= len(datagram):
        typ, flag, length = struct.unpack_from(">BBH", datagram, at)
        found.append((typ, flag, datagram[at + 4:at + length]))
        at += length + -length % 4
    return found


class Side:
    """What a recorded side told of itself."""

    def __init__(self, datagrams, typ):
        value = next(value for it in datagrams for kind, _, value in chunks_of(it) if kind == typ)
        self.tag, _, _, _, self.tsn = struct.unpack_from(">IIHHI", value)
        self.value = value
        self.sums = {}

    def take(self, chunk):
        """Notes a DATA chunk of it; whether it is new."""
        flag, value = chunk
        at = struct.unpack_from(">I", value)[0] - self.tsn & 0xFFFFFFFF
        is_new = at not in self.sums
        self.sums[at] = (flag, value)
        return is_new

    def messages(self):
        """Its complete messages: (stream, whether ordered, payload type, bytes)."""
        found, parts = [], None
        for at in sorted(self.sums):
            flag, value = self.sums[at]
            if flag & 2:
                parts = b""
            elif at - 1 not in self.sums:
                parts = None
            if parts is None:
                continue
            parts += value[12:]
            if flag & 1:
                sid, _, ppi = struct.unpack_from(">HHI", value, 4)
                found.append((sid, not flag & 4, ppi, parts))
                parts = None
        return found

    def last(self):
        """The last TSN up to which all came."""
        at = 0
        while at in self.sums:
            at += 1
        return self.tsn + at - 1 & 0xFFFFFFFF


class Played:
    """An association in the place of a side."""

    def __init__(self, program, datagrams, asks):
        self.program, self.datagrams, self.asks = program, datagrams, asks
        sides = Side(datagrams, 1), Side(datagrams, 2)
        self.own, self.peer = sides if asks else sides[::-1]
        self.sent, self.read, self.events, self.tag = [], [], [], self.own.tag
        self.now, self.has_aborted = 0, False
        self.process = subprocess.Popen([program], stdin=subprocess.PIPE, stdout=subprocess.PIPE, text=True)

    def ask(self, line):
        self.process.stdin.write(line + "\n")
        self.process.stdin.flush()
        streams, told = [], []
        for got in self.process.stdout:
            got = got.rstrip("\n")
            if got.startswith("next "):
                break
            told.append(got)
            if got.startswith("out "):
                self.sent.append(bytes.fromhex(got[4:]))
            elif got.startswith("event readable "):
                streams.append(int(got.split()[2]))
            elif got.startswith("event "):
                self.events.append(got[6:])
            elif got.startswith("error"):
                raise Wrong(f"{line[:80]}: {got}")
        else:
            raise Wrong(f"the program ended at {line[:80]}")
        for stream in streams:
            self.drain(stream)
        return told

    def drain(self, stream):
        while True:
            told = self.ask(f"read {self.now} {stream}")
            message = next((it.split() for it in told if it.startswith("message ")), None)
            if message is None:
                return
            self.read.append((int(message[1]), int(message[2]), wire.octets(message[3])))

    def cookie(self):
        """That of the last INIT ACK that was sent."""
        for datagram in reversed(self.sent):
            for name, fields in wire.decode(datagram)[1]:
                if name == "INIT-ACK":
                    return bytes.fromhex(dict(fields)["cookie"]), dict(fields)["tag"]
        raise Wrong("no INIT ACK")

    def given(self, datagram):
        """The datagram that is given in the place of a recorded one."""
        if self.asks or chunks_of(datagram)[0][0] == 1:
            return datagram
        body = b""
        for typ, flag, value in chunks_of(datagram):
            if typ == 10:
                value, self.tag = self.cookie()
            body += struct.pack(">BBH", typ, flag, 4 + len(value)) + value + bytes(-len(value) % 4)
        return wire.sealed(datagram[:4] + struct.pack(">I", self.tag), body)

    def is_of_peer(self, datagram):
        tag, = struct.unpack_from(">I", datagram, 4)
        return tag == (self.own.tag if self.asks or tag else 0)

    def play(self):
        first = self.datagrams[0]
        ports = struct.unpack_from(">HH", first) if self.asks else struct.unpack_from(">HH", first)[::-1]
        self.ask(f"new tag={self.own.tag} tsn={self.own.tsn} port={ports[0]} peer_port={ports[1]} streams=65535")
        if self.asks:
            self.ask("connect 0")
        for datagram in self.datagrams:
            self.now += STEP
            if self.is_of_peer(datagram):
                for typ, flag, value in chunks_of(datagram):
                    if typ == 0:
                        self.peer.take((flag, value))
                self.ask(f"in {self.now} {self.given(datagram).hex()}")
                continue
            for typ, flag, value in chunks_of(datagram):
                if typ == 0 and self.own.take((flag, value)):
                    self.ask(f"write {self.now} 0 53 aa")
                elif typ == 7:
                    self.ask(f"shutdown {self.now}")
                elif typ == 6:
                    self.has_aborted = True
                    self.ask(f"abort {self.now}")
        self.now += 250_000
        self.ask(f"timeout {self.now}")
        self.process.stdin.close()
        self.process.wait()

    def check(self, is_whole):
        """Whether it answered as it had to."""
        if "connected" not in self.events:
            raise Wrong(f"not connected: {self.events}")
        acked, names = None, []
        for datagram in self.sent:
            head, chunks = wire.decode(datagram)
            if head["sum"] != "good" or head["tag"] not in (0, self.peer.tag):
                raise Wrong(f"header {head}")
            for name, fields in chunks:
                names.append(name)
                if name in ("SACK", "SHUTDOWN"):
                    acked = dict(fields)["cum"]
                if name == "COOKIE-ECHO" and dict(fields) != {"cookie": dict(wire.fields_of(2, 0, self.peer.value))["cookie"]}:
                    raise Wrong("another cookie is echoed than came")
        # What came after an own ABORT is dropped.
        is_whole = is_whole and not self.has_aborted
        want = self.peer.messages()
        for sid in {it[0] for it in want + self.read}:
            came = [text for stream, _, text in self.read if stream == sid]
            due = [text for stream, _, _, text in want if stream == sid]
            if is_whole and sorted(came) != sorted(due):
                raise Wrong(f"stream {sid}: {len(came)} messages of {len(due)} are read")
            # The ordered ones are read in their order.
            rest = iter(came)
            if is_whole and not all(text in rest for stream, is_ordered, _, text in want if stream == sid and is_ordered):
                raise Wrong(f"stream {sid}: not in order")
        sent = {(sid, ppi, text) for sid, _, ppi, text in want} | {(sid, 58, text) for sid, _, ppi, text in want if ppi not in KNOWN}
        for one in self.read:
            if one not in sent:
                raise Wrong(f"a message is read that was not sent: {one}")
        is_aborted = any(event.startswith("closed abort") for event in self.events)
        # The SACK of the last packet may still be delayed as the SHUTDOWN comes.
        behind = 0 if acked is None else (self.peer.last() - acked) % 2**32
        if is_whole and not is_aborted and behind > 1:
            raise Wrong(f"acknowledged {acked}, not {self.peer.last()}")


def datagrams_of(path):
    with open(path, encoding="ascii") as lines:
        return [bytes.fromhex(line.strip()) for line in lines if re.fullmatch(r"[0-9a-f]+", line.strip())]


def cases(program, root):
    for name, is_whole in FILES:
        for asks in (True, False):
            def call(name=name, is_whole=is_whole, asks=asks):
                played = Played(program, datagrams_of(os.path.join(root, "examples", name)), asks)
                played.play()
                played.check(is_whole)
                return played.sent
            yield f"{name} in the place of the side that {'asks' if asks else 'is asked'}", call
