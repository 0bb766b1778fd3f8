#!/usr/bin/env python3
"""Writes a large capture of one association, in which chunks are sent again, to measure what sctpdump takes.

    python3 evidence/large_capture.py [--bytes N] [--payload N] FILE

A pcap of N bytes (500,000,000), of link type 228: INIT to COOKIE-ACK, then DATA of so many bytes of user data (1,200) on eight ordered streams, and a
SACK for each second one. Every 997th chunk is lost, reported missing by a gap ack block, and sent again 20 packets later. Each checksum is right. A
packet comes 20 microseconds after the one before. /usr/bin/time -v says memory and time of a view of it.
"""
import struct
import sys

A, B, FIRST = 0x11111111, 0x22222222, 4_294_900_000
EVERY, LATER = 997, 20


def table():
    """The table of CRC-32C (RFC 9260 Appendix A), its bits reflected."""
    found = []
    for byte in range(256):
        for _ in range(8):
            byte = byte >> 1 ^ (0x82F63B78 if byte & 1 else 0)
        found.append(byte)
    return found


TABLE = table()


def moved(state, data):
    """The register of CRC-32C behind these bytes."""
    for byte in data:
        state = TABLE[(state ^ byte) & 255] ^ state >> 8
    return state


class Behind:
    """Moves the register over the same bytes again and again: it is a sum, bit by bit, of what each of its bytes becomes."""

    def __init__(self, data):
        self.zero = moved(0, data)
        self.parts = [[moved(byte << 8 * at, data) ^ self.zero for byte in range(256)] for at in range(4)]

    def move(self, state):
        one, two, three, four = self.parts
        return one[state & 255] ^ two[state >> 8 & 255] ^ three[state >> 16 & 255] ^ four[state >> 24] ^ self.zero


def chunk(typ, flags, value):
    """RFC 9260 3.2, without padding."""
    return struct.pack(">BBH", typ, flags, 4 + len(value)) + value


class Capture:
    """A file of packets between two hosts, with their checksums."""

    def __init__(self, out, payload):
        self.out, self.payload, self.at, self.size = out, payload, 0, 24
        self.behind = Behind(payload)
        out.write(struct.pack("<IHHiIII", 0xA1B2C3D4, 2, 4, 0, 0, 262144, 228))

    def put(self, back, tag, chunks, has_payload=False):
        """A packet of these chunks, the last of which ends with the payload."""
        ports, ends = ((5001, 5000), b"\xc0\0\2\2\xc0\0\2\1") if back else ((5000, 5001), b"\xc0\0\2\1\xc0\0\2\2")
        head = struct.pack(">HHI", *ports, tag)
        state = moved(0xFFFFFFFF, head + bytes(4) + chunks)
        if has_payload:
            state = self.behind.move(state)
        datagram = head + struct.pack("<I", state ^ 0xFFFFFFFF) + chunks + (self.payload if has_payload else b"")
        frame = struct.pack(">BBHHHBBH", 0x45, 0, 20 + len(datagram), 1, 0, 64, 132, 0) + ends + datagram
        self.at += 20
        self.out.write(struct.pack("<IIII", self.at // 1_000_000, self.at % 1_000_000, len(frame), len(frame)) + frame)
        self.size += 16 + len(frame)


def handshake(capture):
    """RFC 9260 5.1, with a cookie of four bytes."""
    capture.put(False, 0, chunk(1, 0, struct.pack(">IIHHI", A, 1 << 20, 8, 8, FIRST)))
    capture.put(True, A, chunk(2, 0, struct.pack(">IIHHI", B, 1 << 20, 8, 8, 1) + b"\0\7\0\10cook"))
    capture.put(False, B, chunk(10, 0, b"cook"))
    capture.put(True, A, chunk(11, 0, b""))


def send(capture, number):
    """The chunk of this number, counted from 0: each begins and ends a message."""
    head = struct.pack(">BBHIHHI", 0, 3, 16 + len(capture.payload), (FIRST + number) % 2**32, number % 8, number // 8 % 2**16, 53)
    capture.put(False, B, head, True)


def acknowledge(capture, number, lost):
    """A SACK of what came up to this number, of which one may be lost."""
    upto, gaps = (number, b"") if lost is None else (lost - 1, struct.pack(">HH", 2, number - lost + 1))
    capture.put(True, A, chunk(3, 0, struct.pack(">IIHH", (FIRST + upto) % 2**32, 1 << 20, len(gaps) // 4, 0) + gaps))


def write(path, size, length):
    """Writes the capture; returns how many chunks of DATA there are, and how many of them were sent again."""
    with open(path, "wb", buffering=1 << 20) as out:
        capture, lost, again, number = Capture(out, (b"0123456789abcdef" * (length // 16 + 1))[:length // 4 * 4]), None, 0, 0
        handshake(capture)
        while capture.size < size:
            send(capture, number)
            if number % EVERY == EVERY - 1:
                lost = number
            elif lost is not None and number - lost == LATER:
                send(capture, lost)
                lost, again = None, again + 1
            if number % 2 and number != lost:
                acknowledge(capture, number, lost)
            number += 1
    return number + again, again


def main(words):
    if words[:1] == ["--help"] or not words:
        sys.exit(__doc__)
    named = dict(zip(words[:-1:2], words[1:-1:2]))
    counts = write(words[-1], int(named.get("--bytes", 500_000_000)), int(named.get("--payload", 1200)))
    print(f"{counts[0]} chunks of DATA, {counts[1]} of them sent again")


if __name__ == "__main__":
    main(sys.argv[1:])
