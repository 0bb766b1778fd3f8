#!/usr/bin/env python3
"""What the worst packets of a peer cost an association with the default `Config`, in instructions.

    python3 c_tests/worst_packets.py [--ours PROGRAM] [--most INSTRUCTIONS]

PROGRAM is crates/assocrun/out/assocrun unless told otherwise (`rt run` makes it). Each row builds a state by datagrams, and then gives a packet of at
most 1,400 bytes. The program runs twice under valgrind: once with that packet, and once with the same bytes under a wrong checksum, which is dropped.
The row is the difference, so it has neither what reads the line nor the checksum. A row passes where its packet is accepted, and has at most --most
instructions. The last line is 'worst_packets: N passed, M failed'; the status is 0 where none failed.
"""
import argparse
import os
import re
import subprocess
import sys
import tempfile

TOP = os.path.dirname(os.path.dirname(os.path.abspath(__file__)))
sys.path.insert(0, f"{TOP}/c_tests/assoc")
from wire import encode  # noqa: E402

PACKET = 1400
# 1.2 ms at three instructions a nanosecond: what is in memory when the program starts, and the processor's copies, move a row by some per cent
MOST = 3_500_000
# the default window, streams and chunks in flight of a `Config`
WINDOW, STREAMS, IN_FLIGHT = 1 << 20, 1024, 4096
# what a chunk of one byte counts for in the window
CHUNK = 401
INCOMPLETE = WINDOW // CHUNK - 8
# messages of a packet each by which cwnd grows
GROWING = 300
BEGIN = [
    "new tag=10 tsn=1000",
    "connect 0",
    "in 50000 tag=10 INIT-ACK tag=20 tsn=5000 rwnd=100000000 os=1024 is=1024 forward ext=c082 cookie=c0ffee01",
    "in 100000 tag=10 COOKIE-ACK",
]


def data(tsn, stream=0, ssn=0, flags="BE"):
    return f"DATA flags={flags} tsn={tsn} sid={stream} ssn={ssn} data=00"


def packed(chunks):
    """As many of the chunks as fit into a packet."""
    text = ""
    for chunk in chunks:
        more = f"{text} | {chunk}" if text else chunk
        if len(encode(f"tag=10 {more}")) > PACKET:
            break
        text = more
    return f"tag=10 {text}"


def bundled(chunks, now=200_000):
    """Lines that give all these chunks, twenty a packet."""
    return [f"in {now} tag=10 " + " | ".join(chunks[at:at + 20]) for at in range(0, len(chunks), 20)]


def incomplete(count, streams):
    """First fragments of messages at every second TSN, so that each misses one."""
    return [data(5001 + 2 * k, k % streams, k // streams, "B") for k in range(count)]


def grown():
    """Lines by which cwnd grows in slow start, so that all in flight have room: SACKs come while as much waits as can leave."""
    long = "00" * 1160
    sacks = [f"in {201_000 + k} tag=10 SACK cum={1001 + 2 * k} rwnd=100000000" for k in range(GROWING // 2)]
    return [f"write 200000 0 53 {long}" for _ in range(GROWING)] + sacks


def sack(blocks=()):
    """A SACK of the chunks in flight whose first one is missing."""
    gaps = ",".join(f"{low}-{high}" for low, high in blocks)
    return f"tag=10 SACK cum={999 + GROWING} rwnd=100000000" + (f" gaps={gaps}" if gaps else "")


def rows():
    one = incomplete(INCOMPLETE, 1)
    yield "FORWARD-TSN past one message more, incomplete messages of one stream", bundled(one), packed(
        [f"FORWARD-TSN cum={5002 + 2 * k} skips=0:{k}" for k in range(200)])
    some = incomplete(STREAMS, STREAMS)
    yield "the same, one on each of 1,024 streams", bundled(some), packed([f"FORWARD-TSN cum={5002 + 2 * k} skips={k}:0" for k in range(200)])
    yield "the same, as many as fit, over 1,024 streams", bundled(incomplete(INCOMPLETE, STREAMS)), packed(
        [f"FORWARD-TSN cum={5002 + 2 * k}" for k in range(200)])
    names = ",".join(f"{k}:{k and 1}" for k in range(340))
    yield "one FORWARD-TSN past all, with 340 names", bundled(incomplete(INCOMPLETE, STREAMS)), f"tag=10 FORWARD-TSN cum={5002 + 2 * INCOMPLETE} skips={names}"
    yield "one FORWARD-TSN with 340 names, of streams that are not open", [], "tag=10 FORWARD-TSN cum=5001 skips=" + ",".join(f"{k}:0" for k in range(340))
    yield "DATA, each between two TSNs that came", bundled([data(5001 + 2 * k, 1, k) for k in range(1200)]), packed(
        [data(5102 + 2 * k, 2, k) for k in range(80)])
    yield "DATA in the gap before them", bundled([data(5001 + k, 1, k) for k in range(INCOMPLETE)]), packed([data(5000, 2, 0)])
    yield "DATA, each between two fragments of a message", bundled([data(5001 + 2 * k, 1, 0, "") for k in range(1200)]), packed(
        [data(5102 + 2 * k, 1, 0, "") for k in range(80)])
    yield "DATA, each on a stream of its own", [], packed([data(5000 + k, k) for k in range(80)])
    yield "DATA that came before", bundled([data(5000 + k) for k in range(100)]), packed([data(5000 + k) for k in range(80)])
    flight = grown() + [f"write {202_000 + k} 0 53 00" for k in range(IN_FLIGHT)] + ["stats"]
    apart = [(2 * k, 2 * k) for k in range(1, 341)]
    yield "a SACK of all in flight", flight, f"tag=10 SACK cum={999 + GROWING + IN_FLIGHT} rwnd=100000000"
    yield "a SACK of one block: all but the first", flight, sack([(2, IN_FLIGHT)])
    yield "a SACK of none, which takes that back", [*flight, f"in 400000 {sack([(2, IN_FLIGHT)])}"], sack()
    yield "a SACK of 340 blocks of one TSN", flight, sack(apart)
    yield "a SACK of 340 blocks of eleven TSNs", flight, sack([(12 * k, 12 * k + 10) for k in range(1, 341)])
    yield "a SACK that reports the last one too", [*flight, f"in 400000 {sack([(2, 2)])}"], sack([(2, 2), (IN_FLIGHT, IN_FLIGHT)])
    yield "RE-CONFIG that resets 680 streams, each with a message to read", bundled([data(5000 + k, k) for k in range(STREAMS)]), (
        f"tag=10 RE-CONFIG req=5000 last={4999 + STREAMS} sids=" + ",".join(str(k) for k in range(680)))


def told(line):
    """The line as `assocrun` reads it."""
    words = line.split(" ", 2)
    return f"in {words[1]} {encode(words[2]).hex()}" if words[0] == "in" else line


def count(program, lines, folder):
    """How many instructions the program takes for these lines."""
    out = f"{folder}/out"
    done = subprocess.run(["valgrind", "--tool=callgrind", f"--callgrind-out-file={out}", program], input="\n".join(lines) + "\n", text=True,
                          stdout=subprocess.PIPE, stderr=subprocess.PIPE, check=False)
    found = re.search(r"Collected : (\d+)", done.stderr)
    if not found:
        sys.exit(done.stderr)
    return int(found[1]), done.stdout


def main():
    parser = argparse.ArgumentParser()
    parser.add_argument("--ours", default=f"{TOP}/crates/assocrun/out/assocrun")
    parser.add_argument("--most", type=int, default=MOST)
    args = parser.parse_args()
    passed = failed = 0
    with tempfile.TemporaryDirectory() as folder:
        for name, lines, packet in rows():
            before = [told(it) for it in BEGIN + lines]
            taken, answers = count(args.ours, [*before, told(f"in 900000 {packet}")], folder)
            spoilt, _ = count(args.ours, [*before, told(f"in 900000 sum=bad {packet}")], folder)
            last = [it for it in answers.split("\n") if it.split(" ")[0] in ("accepted", "dropped")][-1]
            good = last.startswith("accepted") and taken - spoilt <= args.most
            # what a SACK is to report is in flight
            good = good and ("stats" not in lines or f"waiting 0 outstanding {IN_FLIGHT} " in answers)
            passed, failed = passed + good, failed + (not good)
            print(f"{name}: {taken - spoilt:,} instructions, {last}{'' if good else ', FAILED'}", flush=True)
    print(f"worst_packets: {passed} passed, {failed} failed")
    sys.exit(failed > 0)


if __name__ == "__main__":
    main()
