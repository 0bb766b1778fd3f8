"""Datagrams that are any bytes, and such as have the right tag and checksum but random chunks, given to an association in all its states."""
import os
import random
import struct
import subprocess
import tempfile

import wire

# The most memory of the program, in KiB: its buffers, and what SECURITY says of an association with the default window.
MOST_KIB = 64 * 1024
# The most datagrams that one command may send.
MOST_OUT = 3000
MTU = 1191


class Wrong(Exception):
    """An answer is not what it must be."""


def near(rng, center, spread):
    return (center + rng.randint(-spread, spread)) & 0xFFFFFFFF


def data_chunk(rng):
    return 0, rng.choice((0, 1, 2, 3, 3, 3, 4, 7, 8, 11, 255)), struct.pack(
        ">IHHI", near(rng, 5000, rng.choice((3, 30, 20000))), rng.choice((0, 1, 9, 10, 65535)), rng.choice((0, 1, 2, rng.randrange(65536))),
        rng.choice((50, 51, 53, rng.randrange(1 << 32)))) + rng.randbytes(rng.choice((0, 1, 2, 30, 1100)))


def sack_chunk(rng):
    gaps = b"".join(struct.pack(">HH", rng.randrange(40), rng.randrange(60)) for _ in range(rng.choice((0, 1, 3, 200))))
    dups = rng.randbytes(4 * rng.choice((0, 1, 3)))
    head = struct.pack(">IIHH", near(rng, 1000, rng.choice((2, 8, 100))), rng.choice((0, 1, 1500, 100000, 0xFFFFFFFF)),
                       rng.choice((len(gaps) // 4, len(gaps) // 4, 65535)), len(dups) // 4)
    return 3, 0, head + gaps + dups


def params(rng):
    return b"".join(wire.tlv(rng.choice((7, 0x8008, 0xC000, 0x8001, 1, 5, rng.randrange(65536))), rng.randbytes(rng.randrange(20)))
                    for _ in range(rng.randrange(4)))


def init_chunk(rng):
    head = struct.pack(">IIHHI", rng.choice((0, 20, 21, rng.randrange(1 << 32))), rng.choice((0, 1499, 60000)), rng.choice((0, 10)), rng.choice((0, 10)),
                       rng.choice((5000, rng.randrange(1 << 32))))
    return rng.choice((1, 2)), 0, head + params(rng)


def reconfig_chunk(rng):
    parts = b""
    for _ in range(rng.randrange(4)):
        kind = rng.choice((13, 13, 14, 15, 16, 16, 17, 18))
        body = struct.pack(">II", near(rng, rng.choice((1000, 5000)), 3), rng.choice((0, 1, 2, 6, 4999))) + rng.randbytes(rng.randrange(14))
        parts += wire.tlv(kind, body)
    return 130, 0, parts


def forward_chunk(rng):
    skips = b"".join(struct.pack(">HH", rng.randrange(12), rng.randrange(65536)) for _ in range(rng.choice((0, 1, 5, 290))))
    return 192, 0, struct.pack(">I", near(rng, 5000, rng.choice((5, 60, 20000)))) + skips


def control_chunk(rng):
    kind = rng.choice((4, 5, 4, 5, 8, 9, 10, 11, 14, 6, 7, rng.randrange(256)))
    if kind in (6, 7, 8, 14) and rng.random() < 0.9:
        kind = 4
    body = wire.tlv(1, rng.randbytes(rng.randrange(60))) if kind in (4, 5) else params(rng)
    return kind, rng.choice((0, 1, 255)), struct.pack(">I", near(rng, 1000, 4)) if kind == 7 else body


MAKERS = (data_chunk, data_chunk, data_chunk, sack_chunk, sack_chunk, init_chunk, reconfig_chunk, forward_chunk, control_chunk, control_chunk)


def chunks(rng):
    body = b""
    for _ in range(rng.choice((1, 1, 1, 2, 4, 12))):
        typ, flag, value = rng.choice(MAKERS)(rng)
        length = 4 + len(value)
        if rng.random() < 0.03:
            length = rng.randrange(65536)
        body += struct.pack(">BBH", typ, flag, length) + value + bytes(-len(value) % 4)
    return body


def datagram(rng):
    kind = rng.random()
    if kind < 0.15:
        return rng.randbytes(rng.choice((0, 3, 11, 12, 16, 28, 100, 1191)))
    body = rng.randbytes(rng.randrange(80)) if kind < 0.25 else chunks(rng)
    tag = rng.choice((10, 10, 10, 10, 10, 10, 10, 0, 20, rng.randrange(1 << 32)))
    return wire.sealed(struct.pack(">HHI", 5000, 5000, tag), body)


HANDSHAKE = [("connect", ""), ("in", "tag=10 INIT-ACK tag=20 tsn=5000 rwnd=60000 os=10 is=10 forward ext=c082 cookie=c0ffee01"), ("in", "tag=10 COOKIE-ACK")]


def lines(seed, count):
    """The commands: an association is made anew after some hundred datagrams, at times in the middle of a handshake."""
    rng = random.Random(seed)
    now = given = 0
    while given < count:
        yield f"new tag=10 tsn=1000 zero_checksum={rng.randrange(2)} window={rng.choice((1500, 20000, 1048576))}"
        for word, text in HANDSHAKE[:rng.choice((0, 1, 2, 3, 3, 3, 3, 3, 3))]:
            yield f"{word} {now} {wire.encode(text).hex() if text else ''}".rstrip()
        yield f"mode {rng.randrange(10)} {rng.choice(('ordered', 'unordered'))} {rng.choice(('reliable', 'rexmit 1', 'timed 100'))}"
        for _ in range(min(rng.choice((20, 300, 300, 1500)), count - given)):
            now += rng.choice((0, 1, 1000, 1000, 50_000))
            yield f"in {now} {datagram(rng).hex() or '-'}"
            given += 1
            kind = rng.randrange(40)
            if kind < 6:
                yield f"write {now} {rng.randrange(11)} 53 *{rng.choice((1, 1, 100, 3000))}"
            elif kind < 10:
                yield f"take {now} {rng.randrange(11)}"
            elif kind < 13:
                now += rng.choice((1000, 300_000, 2_000_000))
                yield f"timeout {now}"
            elif kind < 14:
                yield f"reset {now} {rng.randrange(11)}"
            elif kind == 14 and rng.random() < 0.05:
                yield f"{rng.choice(('shutdown', 'abort', 'connect'))} {now}"


class Answers:
    """What the commands must answer: each something, a timeout a later moment, datagrams well formed."""

    def __init__(self, moments, decodes_all):
        self.moments, self.decodes_all = moments, decodes_all
        self.count = self.outs = 0

    def wrong(self, why):
        raise Wrong(f"command {self.count + 1}: {why}")

    def take(self, line):
        if line.startswith("next "):
            self.take_next(line[5:].strip())
        elif line.startswith("error") or line in ("refused memory\n", "refused transmit\n"):
            self.wrong(line.strip())
        elif line.startswith("out "):
            self.outs += 1
            if self.outs > MOST_OUT or len(line) > 2 * MTU + 5:
                self.wrong(f"{self.outs} datagrams, the last of {len(line) // 2} bytes")
            if self.decodes_all or self.count % 20 == 0:
                self.decode(line[4:])

    def take_next(self, text):
        moment = self.moments[self.count]
        if moment is not None and text != "none" and int(text) <= moment:
            self.wrong(f"after the timeout at {moment} the next is at {text}")
        self.count += 1
        self.outs = 0

    def decode(self, text):
        try:
            head, _ = wire.decode(bytes.fromhex(text))
        except (wire.Malformed, struct.error, ValueError) as fault:
            self.wrong(f"{text.strip()[:200]}: {fault}")
        if head["sum"] == "bad":
            self.wrong("checksum")


def give(program, seed, count):
    """Gives so many datagrams to the program."""
    moments = []
    with tempfile.TemporaryFile("w+") as answers:
        process = subprocess.Popen([program], stdin=subprocess.PIPE, stdout=answers, text=True)
        try:
            for line in lines(seed, count):
                process.stdin.write(line + "\n")
                moments.append(int(line.split()[1]) if line.startswith("timeout") else None)
            process.stdin.close()
        except BrokenPipeError:
            pass
        _, status, usage = os.wait4(process.pid, 0)
        process.returncode = status
        if status != 0:
            raise Wrong(f"seed {seed}: status {status}")
        answers.seek(0)
        told = Answers(moments, count <= 100_000)
        for line in answers:
            told.take(line)
    if told.count != len(moments):
        raise Wrong(f"{told.count} of {len(moments)} commands are answered")
    if usage.ru_maxrss > MOST_KIB:
        raise Wrong(f"seed {seed}: {usage.ru_maxrss} KiB")
    print(f"{count} datagrams, {len(moments)} commands: at most {usage.ru_maxrss} KiB, {usage.ru_utime:.1f} s", flush=True)


def cases(program, count):
    yield "datagrams of any bytes", lambda: give(program, 1, count)
