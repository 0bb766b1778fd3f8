#!/usr/bin/env python3
"""What heap an association holds beside usrsctp: idle, and after a message on each of 100 streams.

    python3 evidence/heap.py [--ours PROGRAM]
    python3 evidence/heap.py --states N PROGRAM

PROGRAM is crates/assocrun/out/assocrun unless told otherwise (`rt run` makes it). Two hosts of a kind talk with no delay; evidence/heap_count.c, preloaded,
counts the blocks that are live. usrsctp's host and the counter are built here: Debian's libusrsctp-dev, and gcc or the CC given, are needed.

With --states PROGRAM is `bench` or `rust_side`, and holds N pairs of a sender and a receiver in one state after another. The bytes and blocks of each state
are those beyond the last state before it in which nothing was held, of one pair.
"""
import argparse
import os
import signal
import subprocess
import sys
import tempfile

TOP = os.path.dirname(os.path.dirname(os.path.abspath(__file__)))
sys.path.insert(0, f"{TOP}/evidence")
from simulate import MTU, Host, build_usrsctp  # noqa: E402


class Heap:
    """Two hosts of a kind, preloaded, that talk with no delay."""

    def __init__(self, command, library):
        self.hosts = []
        for k in range(2):
            read, write = os.pipe()
            env = dict(os.environ, LD_PRELOAD=library)
            made = Host.__new__(Host)
            made.process = subprocess.Popen(command, stdin=subprocess.PIPE, stdout=subprocess.PIPE, stderr=write, env=env)
            os.close(write)
            made.told = os.fdopen(read)
            made.next, made.is_up, made.closed, made.answer, made.outs, made.readable, made.trace = None, False, None, [], [], [], None
            made.ask("state")
            self.hosts.append(made)
        self.before = [self.live(it) for it in self.hosts]
        for k, host in enumerate(self.hosts):
            host.ask(f"new mtu={MTU} window=1048576 streams=1024 max=65536 tag={7 + k} tsn={k + 1} key={k:064x} port=5000")
        self.made = [self.live(it) for it in self.hosts]

    def live(self, host):
        host.process.send_signal(signal.SIGUSR1)
        return int(host.told.readline().split()[0])

    def talk(self, now):
        """Carries datagrams until there are none, reads what came, and lets the time of a SACK pass."""
        for _ in range(10_000):
            busy = False
            for k, host in enumerate(self.hosts):
                for text in host.outs:
                    busy = True
                    peer = self.hosts[1 - k]
                    outs, host.outs = host.outs, []
                    for one in outs:
                        peer.ask(f"in {now} {one.decode()}")
                    break
                while host.readable:
                    host.ask(f"take {now} {host.readable.pop()}")
            if not busy:
                now += 250_000
                for host in self.hosts:
                    host.ask(f"timeout {now}")
                if not any(it.outs for it in self.hosts):
                    return now
        raise SystemExit("speed: hosts talk for ever")

    def measure(self):
        now = 1000
        self.hosts[0].ask(f"connect {now}")
        now = self.talk(now)
        idle = [self.live(it) for it in self.hosts]
        for stream in range(100):
            self.hosts[0].ask(f"write {now} {stream} 53 *100")
            now = self.talk(now)
        many = [self.live(it) for it in self.hosts]
        for host in self.hosts:
            host.process.stdin.close()
            host.process.wait()
        return idle, many


def states(program, count, library):
    """Prints the heap of each state of so many pairs, and of one receiver."""
    env = dict(os.environ, LD_PRELOAD=library, HEAP_AT_LINES="1")
    done = subprocess.run([program, "heap", count], env=env, capture_output=True, text=True, check=True)
    before, pairs = (0, 0), int(count)
    for line, heap in zip(done.stdout.splitlines(), done.stderr.splitlines(), strict=True):
        live = tuple(map(int, heap.split()))
        if line.startswith(("none", "a receiver")):
            before, pairs = live, int(count) if line.startswith("none") else 1
        else:
            held, blocks = live[0] - before[0], live[1] - before[1]
            print(f"{line}: {held / pairs:,.0f} bytes in {blocks / pairs:,.1f} blocks")


def main():
    parser = argparse.ArgumentParser()
    parser.add_argument("--ours", default=f"{TOP}/crates/assocrun/out/assocrun")
    parser.add_argument("--states", nargs=2, metavar=("N", "PROGRAM"))
    args = parser.parse_args()
    with tempfile.TemporaryDirectory() as folder:
        library = f"{folder}/heap_count.so"
        subprocess.run([os.environ.get("CC", "gcc"), "-std=gnu99", "-O2", f"{TOP}/evidence/heap_count.c", "-shared", "-fPIC", "-o", library], check=True)
        if args.states:
            states(args.states[1], args.states[0], library)
            return
        for name, command in (("ours", [args.ours]), ("usrsctp", [build_usrsctp(folder)])):
            heap = Heap(command, library)
            idle, many = heap.measure()
            for k, who in enumerate(("connects", "answers")):
                print(f"heap, {name}, the side that {who}: before it is made {heap.before[k]}, made {heap.made[k] - heap.before[k]} more, connected and idle "
                      f"{idle[k] - heap.made[k]} more, with 100 streams {many[k] - idle[k]} more", flush=True)


if __name__ == "__main__":
    sys.exit(main())
