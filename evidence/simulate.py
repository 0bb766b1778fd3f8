#!/usr/bin/env python3
"""Two hosts over a simulated path: goodput, retransmissions, SACKs and stalls, and how two associations share a bottleneck.

    python3 evidence/simulate.py [--ours PROGRAM] [--hosts ours,usrsctp] [--losses N,..] [--rates N,..] [--seeds N] [--fair] [--page] [--errors] [--trace FILE]

A host is a process that drives one association by lines: PROGRAM, crates/assocrun/out/assocrun unless told otherwise (`rt run` makes it), or usrsctp,
which evidence/usrsctp_host.c drives by the same lines (built here; it needs Debian's libusrsctp-dev and gcc, or the CC given). No clock is read: times
are simulated microseconds, and a seed's run is the same each time. --page prints docs/SIMULATION.md's tables, and --errors rows of that of many seeds.

The path, each way: a datagram is lost at random, or waits in a queue of one bandwidth-delay product (at least 20 packets; the last to come is dropped),
leaves it at the rate of the bottleneck, and comes after the delay and a random part of the jitter, behind the one before, unless the path reorders.
SACKs take the same path back, with the same loss.
One side writes a message to each of 16 streams in turn, so that half a second's worth waits (20 to 256 kB); the other one reads at once.
"""
import argparse
import collections
import heapq
import os
import random
import statistics
import subprocess
import sys
import tempfile

TOP = os.path.dirname(os.path.dirname(os.path.abspath(__file__)))
SECOND = 1_000_000
MTU = 1191
# order, reliability, bytes of a message. Unordered messages have one chunk, since usrsctp 0.9.5.0 aborts over longer ones beside a FORWARD-TSN.
MODES = [
    ("ordered", "reliable", 16_384),
    ("unordered", "reliable", 1_160),
    ("ordered", "rexmit 3", 4_640),
    ("unordered", "rexmit 1", 1_160),
    ("ordered", "timed 3000", 2_320),
    ("unordered", "timed 1000", 1_160),
]
STREAMS = 16


def size_of(stream):
    return MODES[stream % len(MODES)][2]


Cell = collections.namedtuple("Cell", "mbit delay_ms jitter_ms reorders loss seconds")
# of the last but one datagrams overtake each other, by up to 4 packets
PATHS = [(0.1, 50, 5, 0, 240), (1, 20, 5, 0, 40), (1, 300, 30, 0, 120), (10, 1, 0, 0, 10), (10, 20, 5, 0, 15), (10, 100, 20, 0, 20), (10, 20, 4, 1, 15),
         (100, 10, 1, 0, 4)]
LOSSES = [0, 1, 5, 20, 40]


class Host:
    """A process that drives an association."""

    def __init__(self, command, keys):
        self.process = subprocess.Popen(command, stdin=subprocess.PIPE, stdout=subprocess.PIPE)
        self.next, self.is_up, self.closed = None, False, None
        self.answer, self.outs, self.readable = [], [], []
        self.trace = None
        self.ask("new " + " ".join(f"{k}={v}" for k, v in keys.items()))

    def ask(self, line):
        """Gives a line, and takes what it answers."""
        pipe = self.process.stdin
        pipe.write(line.encode() + b"\n")
        pipe.flush()
        self.answer = []
        for got in self.process.stdout:
            if got.startswith(b"out "):
                self.outs.append(got[4:-1])
            elif got.startswith(b"next "):
                self.next = None if got == b"next none\n" else int(got[5:])
                return
            elif got.startswith(b"event readable "):
                self.readable.append(int(got[15:]))
            elif got.startswith(b"event "):
                self.event(got[6:-1].decode())
            else:
                self.answer.append(got[:-1].decode())
        raise SystemExit(f"simulate: a host ended at the line {line[:80]}")

    def event(self, words):
        if self.trace:
            self.trace("event", words)
        if words == "connected":
            self.is_up = True
        elif words.startswith("closed"):
            self.closed = words

    def end(self):
        self.process.stdin.close()
        self.process.wait()


class Link:
    """One way of the path."""

    def __init__(self, cell, seed):
        self.random = random.Random(seed)
        self.cell = cell
        self.byte_us = 8 / cell.mbit
        product = cell.mbit * 2 * cell.delay_ms * 1000 / 8
        self.room = max(product, 20 * MTU) * self.byte_us
        self.free_at, self.last_at, self.lost, self.dropped = 0.0, 0, 0, 0

    def send(self, now, length):
        """When a datagram comes, or None."""
        way = self.cell.delay_ms * 1000 + self.random.random() * self.cell.jitter_ms * 1000
        if self.random.random() * 100 < self.cell.loss:
            self.lost += 1
            return None
        begins = max(self.free_at, now)
        if begins - now + length * self.byte_us > self.room:
            self.dropped += 1
            return None
        self.free_at = begins + length * self.byte_us
        at = int(self.free_at + way) + 1
        if not self.cell.reorders:
            at = max(at, self.last_at)
        self.last_at = at
        return at


class Flow:
    """An association: who writes, who reads, and what was counted."""

    def __init__(self, sender, reader, cell, greedy):
        self.sender, self.reader, self.greedy = sender, reader, greedy
        self.most_waiting, self.waits, self.turn = min(max(cell.mbit * SECOND / 16, 20_000), 256_000), 0, 0
        self.waiting = [collections.deque() for _ in range(STREAMS)]
        kinds = [MODES[it % len(MODES)][1] for it in range(STREAMS)]
        self.timed = [(it, int(kind[6:]) * 1000) for it, kind in enumerate(kinds) if kind.startswith("timed")]
        self.sent, self.again, self.packets, self.sacks, self.came = set(), 0, 0, 0, 0
        self.bytes, self.by_stream, self.first, self.last, self.stall, self.stalled_at = 0, [0] * STREAMS, None, None, 0, 0

    def note_sent(self, datagram):
        """Counts the DATA chunks of a datagram of the sender."""
        at, has_data = 12, False
        while at + 4 <= len(datagram):
            length = int.from_bytes(datagram[at + 2:at + 4], "big")
            if datagram[at] == 0:
                has_data = True
                tsn = datagram[at + 4:at + 8]
                if tsn in self.sent:
                    self.again += 1
                else:
                    self.sent.add(tsn)
                    stream = int.from_bytes(datagram[at + 8:at + 10], "big")
                    if datagram[at + 1] & 2 and self.waiting[stream]:
                        self.waiting[stream].popleft()
                        self.waits -= size_of(stream)
            at += max(4, length + 3 & ~3)
        self.packets += has_data
        return has_data

    def note_sacks(self, datagram):
        at = 12
        while at + 4 <= len(datagram):
            self.sacks += datagram[at] == 3
            at += max(4, int.from_bytes(datagram[at + 2:at + 4], "big") + 3 & ~3)

    def write(self, now):
        """Writes a message to each stream in turn until so many bytes wait; with `greedy` until so many wait on each."""
        if not self.sender.is_up or self.sender.closed:
            return
        for stream, lifetime in self.timed:
            waiting = self.waiting[stream]
            while waiting and waiting[0] + lifetime <= now:
                waiting.popleft()
                self.waits -= size_of(stream)
        if self.greedy:
            for stream, waiting in enumerate(self.waiting):
                while len(waiting) < max(2, 8192 // size_of(stream)) and self.write_one(now, stream):
                    pass
            return
        while self.waits < self.most_waiting and self.write_one(now, self.turn):
            self.turn = (self.turn + 1) % STREAMS

    def write_one(self, now, stream):
        self.sender.ask(f"write {now} {stream} 53 *{size_of(stream)}")
        if self.sender.answer:
            return False
        self.waiting[stream].append(now)
        self.waits += size_of(stream)
        return True

    def take(self, now, is_counted):
        """Reads what can be read."""
        while self.reader.readable:
            stream = self.reader.readable.pop()
            self.reader.ask(f"take {now} {stream}")
            count, size = map(int, self.reader.answer[0].split()[1:])
            if not count:
                continue
            if self.last is not None and now - self.last > self.stall:
                self.stall, self.stalled_at = now - self.last, self.last
            self.first = now if self.first is None else self.first
            self.last = now
            if is_counted:
                self.bytes += size
                self.by_stream[stream] += size


class Run:
    """Some flows over one path."""

    def __init__(self, commands, cell, seed, greedy=False, trace=None):
        self.cell, self.trace = cell, trace
        name = f"{cell} {seed}"
        self.forth, self.back = Link(cell, name + " forth"), Link(cell, name + " back")
        self.queue, self.count, self.now, self.busy = [], 0, 0, 0
        window = int(max(1 << 20, 4 * cell.mbit * 2 * cell.delay_ms * 1000 / 8))
        self.flows, self.hosts = [], {}
        for i, (sender, reader) in enumerate(commands):
            keys = {"mtu": MTU, "window": window, "streams": STREAMS, "max": 65536, "rto_min": 200_000, "rto_initial": 1_000_000,
                    "rto_max": 60_000_000, "heartbeat": 30_000_000, "sack_delay": 200_000, "port": 5000}
            made = [Host(c, {**keys, "tag": 0x1000 * (seed + 1) + 2 * i + k + 1, "tsn": 1000 + k, "key": f"{seed + k:064x}"})
                    for k, c in enumerate((sender, reader))]
            flow = Flow(*made, cell, greedy)
            self.flows.append(flow)
            for k, host in enumerate(made):
                self.hosts[id(host)] = (flow, host, made[1 - k], self.back if k else self.forth, k == 0)
                if trace:
                    host.trace = lambda *words, who=f"{i}{'AB'[k]}": self.log(who, *words)
            for stream in range(STREAMS):
                order, kind, _ = MODES[stream % len(MODES)]
                made[0].ask(f"mode {stream} {order} {kind}")

    def log(self, *words):
        self.trace.write(" ".join(map(str, (self.now, *words))) + "\n")

    def push(self, at, what):
        self.count += 1
        heapq.heappush(self.queue, (at, self.count, what))

    def after(self, host):
        """What follows a command: writing, reading, and datagrams that leave."""
        flow, _, peer, link, is_sender = self.hosts[id(host)]
        if is_sender:
            self.send(host)
            flow.write(self.now)
            if self.trace:
                host.ask("look")
                self.log("A", "look", *host.answer)
        else:
            flow.take(self.now, self.now >= self.begin)
        self.send(host)
        if host.next is not None:
            self.push(max(host.next, self.now), (host, None))

    def send(self, host):
        flow, _, peer, link, is_sender = self.hosts[id(host)]
        for text in host.outs:
            datagram = bytes.fromhex(text.decode())
            has_data = flow.note_sent(datagram) if is_sender else flow.note_sacks(datagram)
            at = link.send(self.now, len(datagram))
            if self.trace:
                self.log("A" if is_sender else "B", "out", "lost" if at is None else at, describe(datagram))
            if at is not None:
                self.push(at, (peer, text, bool(has_data)))
        host.outs = []

    def step(self):
        self.now, _, what = heapq.heappop(self.queue)
        host = what[0]
        if what[1] is None:
            if host.next is None or max(host.next, 0) > self.now:
                return
            was = host.next
            host.ask(f"timeout {self.now}")
            self.busy = self.busy + 1 if host.next == was else 0
            if self.busy > 20:
                raise SystemExit(f"simulate: a timer at {was} runs out for ever")
        else:
            host.ask(f"in {self.now} {what[1].decode()}")
            self.hosts[id(host)][0].came += what[2]
        self.after(host)

    def run(self):
        end = int(self.cell.seconds * SECOND)
        self.begin = end // 4
        for i, flow in enumerate(self.flows):
            flow.sender.ask("connect 0")
            self.after(flow.sender)
            self.after(flow.reader)
        while self.queue and self.queue[0][0] <= end:
            self.step()
        for flow in self.flows:
            last = flow.last or 0
            if end - last > flow.stall:
                flow.stall, flow.stalled_at = end - last, last
            flow.sender.end()
            flow.reader.end()
        self.elapsed = end - self.begin
        return self

    def shares(self):
        """The goodput of each flow against the bottleneck."""
        return [8 * it.bytes / self.elapsed / self.cell.mbit for it in self.flows]


def describe(datagram):
    """The chunks of a datagram, for a trace."""
    at, words = 12, []
    number = lambda a, n: int.from_bytes(datagram[a:a + n], "big")
    while at + 4 <= len(datagram):
        kind, length = datagram[at], number(at + 2, 2)
        if kind == 0:
            words.append(f"DATA {number(at + 4, 4)} s{number(at + 8, 2)}.{number(at + 10, 2)} f{datagram[at + 1]} n{length - 16}")
        elif kind == 3:
            blocks = [f"{number(at + 16 + 4 * i, 2)}-{number(at + 18 + 4 * i, 2)}" for i in range(number(at + 12, 2))]
            words.append(f"SACK {number(at + 4, 4)} w{number(at + 8, 4)} {','.join(blocks)} d{number(at + 14, 2)}")
        elif kind == 192:
            words.append(f"FORWARD-TSN {number(at + 4, 4)}")
        else:
            words.append(f"chunk {kind} {datagram[at + 4:at + length].hex()[:60]}")
        at += max(4, length + 3 & ~3)
    return "; ".join(words)


def jain(shares):
    total = sum(it * it for it in shares)
    return sum(shares) ** 2 / (len(shares) * total) if total else 0.0


def build_usrsctp(folder):
    to = os.path.join(folder, "usrsctp_host")
    wraps = ",".join("--wrap=" + it for it in ("read_random", "sctp_os_timer_start", "sctp_os_timer_stop"))
    subprocess.run([os.environ.get("CC", "gcc"), "-std=gnu99", "-O2", f"{TOP}/evidence/usrsctp_host.c", "-l:libusrsctp.a", "-lpthread", "-Wl," + wraps,
                    "-o", to], check=True)
    return to


Figures = collections.namedtuple("Figures", "share again sacks stall dropped")


def figures_of(runs):
    """What some runs of a cell come to: means, and the longest stall of all."""
    flows = [flow for run in runs for flow in run.flows]
    sent, again, sacks, came = (sum(it) for it in zip(*((len(f.sent), f.again, f.sacks, f.came) for f in flows)))
    return Figures(sum(sum(run.shares()) for run in runs) / len(runs), 100 * again / max(1, sent), sacks / max(1, came),
                   max(f.stall for f in flows) / SECOND, sum(run.forth.dropped for run in runs) * 100 / max(1, sent))


def name_of(cell):
    return f"{cell.mbit:g} Mbit/s, {cell.delay_ms:g} + {cell.jitter_ms:g} ms{', reordered' if cell.reorders else ''}"


def of_share(share):
    return f"{share:.3f}" if share >= 0.01 else f"{share:.5f}"


def mean_of(shares):
    """Returns the mean, and its standard error."""
    return f"{statistics.mean(shares):.4f} ± {statistics.stdev(shares) / len(shares) ** 0.5:.4f}"


def print_cell(args, commands, cell, trace):
    """Runs a cell for each kind of hosts, and prints it."""
    found = []
    for name in args.hosts.split(","):
        pair = [commands[it] for it in name.split("+")]
        pairs = [(pair[0], pair[-1])] * (2 if args.fair else 1)
        runs = [Run(pairs, cell, seed, args.greedy, trace).run() for seed in range(args.seed, args.seed + args.seeds)]
        closed = {f"{who} {words}" for run in runs for f in run.flows for who, words in (("sender", f.sender.closed), ("reader", f.reader.closed)) if words}
        found.append((figures_of(runs), [jain(run.shares()) for run in runs], runs, closed))
    if args.errors:
        means = [mean_of([sum(run.shares()) for run in runs]) for _, _, runs, _ in found]
        print(" | ".join([name_of(cell), f"{cell.loss:g}", f"{cell.seconds:g}", str(args.seeds), *means]), flush=True)
        return
    for name, (f, fair, runs, closed) in zip(args.hosts.split(","), found):
        if not args.page:
            print(f"{name_of(cell)}, {cell.loss:g} % lost, {name}: {of_share(f.share)} of the bottleneck, {f.again:.1f} % of TSNs again "
                  f"({f.dropped:.1f} dropped by the queue), {f.sacks:.2f} SACKs a packet, longest stall {f.stall:.2f} s"
                  f"{', Jain ' + format(min(fair), '.3f') if args.fair else ''}", flush=True)
            for flow in runs[0].flows if args.streams else ():
                print("    " + " ".join(f"{8 * it / runs[0].elapsed / cell.mbit:.3f}" for it in flow.by_stream))
        for words in closed:
            print(f"{name_of(cell)}, {cell.loss:g} % lost, {name}: the {words}", file=sys.stderr)
    if args.page:
        columns = [name_of(cell), f"{cell.loss:g}"] + [of_share(f.share) for f, *_ in found]
        columns += [f"{min(fair):.3f}" for _, fair, *_ in found] if args.fair else []
        columns += [f"{f.again:.1f}" for f, *_ in found] + [f"{f.sacks:.2f}" for f, *_ in found] + [f"{f.stall:.2f}" for f, *_ in found]
        print(" | ".join(columns), flush=True)


def main():
    parser = argparse.ArgumentParser()
    parser.add_argument("--ours", default=f"{TOP}/crates/assocrun/out/assocrun")
    parser.add_argument("--hosts", default="ours,usrsctp", help="ours, usrsctp, or a sender and a reader as ours+usrsctp")
    parser.add_argument("--rates", default="", help="of the usual paths those of these rates, in Mbit/s")
    parser.add_argument("--losses", default="")
    parser.add_argument("--cell", default="", help="MBIT,DELAY_MS,JITTER_MS,REORDERS,LOSS,SECONDS: this one alone")
    parser.add_argument("--seed", type=int, default=1)
    parser.add_argument("--seeds", type=int, default=1, help="so many seeds, one after the other")
    parser.add_argument("--fair", action="store_true", help="two associations share the bottleneck, in place of one")
    parser.add_argument("--greedy", action="store_true", help="something waits on each stream at all times, in place of messages in turn")
    parser.add_argument("--streams", action="store_true", help="also the share of each stream")
    parser.add_argument("--page", action="store_true", help="rows of docs/SIMULATION.md")
    parser.add_argument("--errors", action="store_true", help="of each path and kind of hosts the mean goodput of all seeds, with its standard error")
    parser.add_argument("--trace", default="")
    args = parser.parse_args()
    with tempfile.TemporaryDirectory() as folder:
        commands = {"ours": [args.ours], "usrsctp": [build_usrsctp(folder)]}
        if args.cell:
            cells = [Cell(*map(float, args.cell.split(",")))]
        else:
            losses = [float(it) for it in args.losses.split(",") if it] or LOSSES
            rates = [float(it) for it in args.rates.split(",") if it] or [it[0] for it in PATHS]
            # where most time passes in time-outs, a run is longer
            cells = [Cell(*map(float, (m, d, j, r, l, s if l < 20 else 300))) for m, d, j, r, s in PATHS for l in losses if m in rates]
        with open(args.trace or os.devnull, "w") as trace:
            for cell in cells:
                print_cell(args, commands, cell, trace if args.trace else None)


if __name__ == "__main__":
    sys.exit(main())
