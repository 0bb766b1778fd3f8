#!/usr/bin/env python3
"""What a message of two associations costs, beside two of usrsctp: instructions and blocks of heap, under valgrind.

    python3 evidence/message_costs.py [--ours PROGRAM] [--rows WORD]

PROGRAM is crates/assocrun/out/assocrun unless told otherwise (`rt run` makes it), and usrsctp's host is built here: valgrind, Debian's libusrsctp-dev, and
gcc or the CC given, are needed. A host is a process that drives one association by lines (docs/ASSOCRUN.md). One writes on an ordered stream, with at most
64 messages unacknowledged. The other one reads at once. Datagrams have at most 1,188 bytes, and no delay. A number is the difference of two runs, of which
one has three times the messages of the other, for each message more.

Counted are the calls of both associations, with all that is called in them. Ours: `write`, `handle_datagram`, `handle_timeout`, `read`, the drop of a
message, and after each line with a time `poll_transmit` and `poll`; they stand in two functions of assocrun, and what prints is left out. Also the blocks
that the user makes for a message. usrsctp: `usrsctp_sendv` of the side that writes, `usrsctp_recvv` of the side that reads, `usrsctp_conninput` and timers
that run out, without what its host does where usrsctp calls it. Not counted are lines that are read and printed, how a datagram is carried, and what asks
for the next timer. Ours doesn't fill the user's message, nor copy one that is read out of its fragments; usrsctp copies both.
"""
import argparse
import collections
import os
import random
import re
import sys
import tempfile

TOP = os.path.dirname(os.path.dirname(os.path.abspath(__file__)))
sys.path.insert(0, f"{TOP}/evidence")
from simulate import MTU, Host, build_usrsctp  # noqa: E402

KEYS = {"mtu": MTU, "window": 1 << 20, "streams": 16, "max": 65536, "rto_min": 1_000_000, "sack_delay": 200_000, "port": 5000}

Row = collections.namedtuple("Row", "name size count lost together ours usrsctp")  # together: ours sends behind all that may be written
ROWS = [
    Row("of 64 bytes, bundled (usrsctp with Nagle)", 64, 2000, 0, True, {}, {"nagle": 1}),
    Row("of 64 bytes, at most 15 in flight, bundled", 64, 2000, 0, False, {"in_flight": 15}, {"most_cwnd": 1200}),  # for each SACK 14 + 1
    Row("of 64 bytes, one a packet", 64, 2000, 0, False, {}, {}),
    Row("of 1,000 bytes", 1000, 1000, 0, False, {}, {}),
    Row("of 16 KiB", 16_384, 100, 0, False, {}, {}),
    Row("of 1,000 bytes, 2 of 100 datagrams lost", 1000, 3000, 2, False, {}, {}),
]

# Functions of a stack, as expressions of their names: those in which the calls of each side begin; those that call what is not of the stack, and what
# they call; what makes and gives back a block; what computes a checksum; who uses the heap and is not of the stack; and who makes the user's message.
Stack = collections.namedtuple("Stack", "begins within leaves makes frees sums others user")
CALLER = "assocrun::host::(answer|perform|write|read|take|print_all|print_datagrams)"
STACKS = {
    "ours": Stack(
        [CALLER] * 2, CALLER, "assocrun::answer|std::io|std_io|hex::|core::fmt", "rattle_(re)?alloc$", "rattle_dealloc$", "(sctp_packets::checksum|crc32c)::",
        "main$|assocrun::(main|command::(?!read_message)|words|setup|host::Host::)|std::io|std_io|core::mem::drop", "assocrun::command::read_message"),
    "usrsctp": Stack(
        [f"(usrsctp_(conninput|{call})|sctp_timeout_handler|sctp_os_timer_(start|stop))$" for call in ("sendv", "recvv")],
        "sctp_(lowlevel_chunk_output|timer_start|timer_stop)$", "output$|__wrap_", "([cm]|re)alloc$", "free$", "sctp_calculate_cksum$",
        "main$|output$|answer$|keep$|_IO_", "-"),
}
CALL = re.compile(r"^fn=(.*)$|^cfn=(.*)\ncalls=(\d+) .*\n\S+ (\d+)$", re.M)


class Exchange:
    """One side writes, and the other one reads."""

    def __init__(self, commands, row, keys):
        self.hosts = [Host(command, {**KEYS, **keys, "tag": 7 + k, "tsn": 1000 + k, "key": f"{k:064x}"}) for k, command in enumerate(commands)]
        self.row, self.now, self.random = row, 1000, random.Random(1)
        # datagrams on the way, TSNs that end a message and are not acknowledged, and how many datagrams had chunks of a type
        self.way, self.ends, self.told = collections.deque(), collections.deque(), collections.Counter()
        self.written = self.acked = self.taken = 0

    def chunks(self, datagram):
        """Yields the type, the flags and the first number of each chunk."""
        at = 12
        while at + 8 <= len(datagram):
            yield datagram[at], datagram[at + 1], int.from_bytes(datagram[at + 4:at + 8], "big")
            at += int.from_bytes(datagram[at + 2:at + 4], "big") + 3 & ~3

    def send(self, who):
        """Puts on the way, or loses, what a host sends."""
        for text in self.hosts[who].outs:
            found = list(self.chunks(bytes.fromhex(text.decode())))
            self.told.update({kind for kind, _, _ in found})
            self.ends += [tsn for kind, flags, tsn in found if kind == 0 and flags & 1 and tsn > (self.ends[-1] if self.ends else 0)]
            if not self.written or self.random.random() * 100 >= self.row.lost:
                self.way.append((1 - who, text, found))
        self.hosts[who].outs = []

    def arrive(self):
        """Gives a host the next datagram on the way, or where there is none lets time go on to the next timer."""
        if not self.way:
            self.now = max(self.now, min(it.next for it in self.hosts if it.next is not None))
            for who, host in enumerate(self.hosts):
                if host.next is not None and host.next <= self.now:
                    host.ask(f"timeout {self.now}")
                    self.send(who)
            return
        who, text, found = self.way.popleft()
        self.hosts[who].ask(f"in {self.now} {text.decode()}")
        self.send(who)
        for kind, _, cumulative in found:
            while kind == 3 and self.ends and self.ends[0] <= cumulative:
                self.ends.popleft()
                self.acked += 1

    def read(self):
        """Reads all that is there: usrsctp's host has read it, and answers how much."""
        self.hosts[1].ask(f"take {self.now} 0")
        self.taken += int(self.hosts[1].answer[0].split()[1])
        self.send(1)

    def write(self, count, together):
        """Writes as much as may be written; where it goes together, it is sent behind all."""
        writer, was = self.hosts[0], self.written
        while writer.is_up and self.written < count and self.written - self.acked < 64:
            writer.ask(f"put 0 53 *{self.row.size}" if together else f"write {self.now} 0 53 *{self.row.size}")
            self.written += 1
            self.send(0)
        if together and self.written > was:
            writer.ask(f"poll {self.now}")
            self.send(0)

    def run(self, count, is_ours):
        """Carries so many messages. Ours is told to read them as they come."""
        self.hosts[0].ask(f"connect {self.now}")
        self.send(0)
        while self.acked < count:
            self.write(count, is_ours and self.row.together)
            self.arrive()
            while is_ours and self.hosts[1].readable:
                self.hosts[1].readable.pop()
                self.read()
        self.read()
        for host in self.hosts:
            host.end()
        assert self.taken == count, f"{self.taken} of {count} messages were read"
        return self


def calls_in(file):
    """Returns of each caller and function how often it was called, and the instructions of these calls."""
    calls, caller = collections.defaultdict(lambda: [0, 0]), ""
    with open(file, encoding="utf-8", errors="replace") as it:
        for own, function, times, cost in CALL.findall(it.read()):
            caller = own or caller
            if function:
                calls[caller, function][0] += int(times)
                calls[caller, function][1] += int(cost)
    return calls


# instructions of all; blocks that are made; instructions of the heap's functions, and of checksums
Counted = collections.namedtuple("Counted", "all blocks heap sums")


def count(calls, stack, side):
    """What the calls of a side come to."""
    total = blocks = heap = sums = 0
    assert any(re.match("assocrun::host::answer$|usrsctp_conninput$", function) for _, function in calls), "what makes the calls has no name"
    for (caller, function), (times, cost) in calls.items():
        is_called, calls_it = (lambda words: re.match(words, function)), (lambda words: re.match(words, caller))
        if is_called(stack.begins[side]) and not calls_it(stack.within) or is_called(stack.makes) and calls_it(stack.user):
            total += cost
        total -= cost if is_called(stack.leaves) and calls_it(stack.within) else 0
        if is_called(f"{stack.makes}|{stack.frees}") and not calls_it(stack.others):
            heap += cost
            blocks += times if is_called(stack.makes) else 0
        sums += cost if is_called(stack.sums) and not calls_it(stack.sums) else 0
    return Counted(total, blocks, heap, sums)


def measure(program, name, row, folder):
    """Returns what each side takes for a message more, and the packets and SACKs of one."""
    runs = []
    for number in (row.count, 3 * row.count):
        files = [f"{folder}/{name}.{side}" for side in range(2)]
        commands = [["valgrind", "-q", "--tool=callgrind", "--compress-strings=no", "--compress-pos=no", f"--callgrind-out-file={it}", program] for it in files]
        made = Exchange(commands, row, getattr(row, name)).run(number, name == "ours")
        runs.append(([count(calls_in(file), STACKS[name], side) for side, file in enumerate(files)], made))
    more = 2 * row.count
    sides = [Counted(*((b - a) / more for a, b in zip(*both))) for both in zip(*(found for found, _ in runs))]
    return sides, *((runs[1][1].told[kind] - runs[0][1].told[kind]) / more for kind in (0, 3))


def main():
    parser = argparse.ArgumentParser()
    parser.add_argument("--ours", default=f"{TOP}/crates/assocrun/out/assocrun")
    parser.add_argument("--rows", default="", help="only those in whose name this stands")
    args = parser.parse_args()
    print("messages | ours | usrsctp | ratio", "---|---|---|---", sep="\n")
    with tempfile.TemporaryDirectory() as folder:
        programs = {"ours": args.ours, "usrsctp": build_usrsctp(folder)}
        for row in (it for it in ROWS if args.rows in it.name):
            totals, told = [], []
            for name, program in programs.items():
                sides, packets, sacks = measure(program, name, row, folder)
                totals.append(sum(it.all for it in sides))
                words = [f"{it.all:,.0f}, {it.blocks:.2f} blocks, heap {it.heap:,.0f}, checksums {it.sums:,.0f}" for it in sides]
                told.append(f"    {name}: writer {words[0]}; reader {words[1]}; {packets:.3f} packets, {sacks:.3f} SACKs")
            print(f"{row.name} | {totals[0]:,.0f} | {totals[1]:,.0f} | {totals[0] / totals[1]:.2f}", *told, sep="\n", flush=True)


if __name__ == "__main__":
    main()
