"""The RTO of RFC 9260 6.3.1 to 6.3.3 by a model of its own: one chunk at a time, acknowledged after any time, or sent again first.

After each sending T3-rtx must run out when the model says. What was sent again measures nothing (6.3.1 C5), and each expiry doubles the RTO (6.3.3 E2).
"""
import random
import subprocess

import wire

SECOND, GRANULE, MESSAGES = 1_000_000, 1000, 30
ANSWER = "tag=10 INIT-ACK tag=20 tsn=5000 rwnd=60000 os=10 is=10 cookie=c0ffee01"


class Wrong(Exception):
    """A timer runs out at another time."""


class Model:
    """SRTT, RTTVAR and RTO in microseconds."""

    def __init__(self, draw):
        self.least, self.most = draw.choice([1000, 200_000, SECOND]), draw.choice([2, 10, 60]) * SECOND
        self.trip = self.spread = None
        self.rto = self.first = draw.choice([SECOND, 2 * SECOND])

    def measured(self, trip):
        """6.3.1 C2, C3, C6, C7; a spread of less than the clock tells is one granule (G1)."""
        if self.trip is None:
            self.trip, self.spread = trip, trip / 2
        else:
            self.spread += (abs(self.trip - trip) - self.spread) / 4
            self.trip += (trip - self.trip) / 8
        self.spread = max(self.spread, GRANULE)
        self.rto = min(max(self.trip + 4 * self.spread, self.least), self.most)

    def expired(self):
        self.rto = min(2 * self.rto, self.most)


class Host:
    """The program, asked line by line."""

    def __init__(self, program):
        self.process = subprocess.Popen([program], stdin=subprocess.PIPE, stdout=subprocess.PIPE, text=True)
        self.sent = []

    def ask(self, line):
        """Gives a line; answers when the next timer runs out."""
        self.process.stdin.write(line + "\n")
        self.process.stdin.flush()
        self.sent = []
        for got in self.process.stdout:
            kind, _, rest = got.rstrip("\n").partition(" ")
            if kind == "out":
                self.sent.append(rest)
            elif kind == "next":
                return None if rest == "none" else int(rest)
        raise Wrong(f"the program ended at: {line[:80]}")

    def take(self, now, text):
        return self.ask(f"in {now} {wire.encode(text).hex()}")


def check(what, at, now, model):
    if at is None or abs(at - now - model.rto) > 1:
        raise Wrong(f"{what} at {now}: T3-rtx runs out at {at}, {model.rto:.1f} later by the model")


def play(program, seed):
    draw = random.Random(f"round trips {seed}")
    model, host, now = Model(draw), Host(program), 200_000
    try:
        host.ask(f"new tag=10 tsn=1000 rto_initial={model.first} rto_min={model.least} rto_max={model.most} heartbeat=3000000000 retrans=100")
        host.ask("connect 0")
        host.take(50_000, ANSWER)
        host.take(100_000, "tag=10 COOKIE-ACK")
        for tsn in range(1000, 1000 + MESSAGES):
            now += draw.randrange(50_000)
            at, again = host.ask(f"write {now} 0 53 aa"), 0
            check(f"seed {seed}: TSN {tsn}", at, now, model)
            while again < 4 and draw.random() < 0.25:
                now, again = at, again + 1
                at = host.ask(f"timeout {now}")
                model.expired()
                check(f"seed {seed}: TSN {tsn} again", at, now, model)
            trip = min(draw.choice([draw.randrange(500, 5000), draw.randrange(500, 400_000)]), (at - now) // 2)
            now += trip
            host.take(now, f"tag=10 SACK cum={tsn} rwnd=60000")
            if not again:
                model.measured(trip)
    finally:
        host.process.kill()
        host.process.wait()


def cases(program, count):
    """A case for each seed."""
    return [(f"round trips {seed}", lambda seed=seed: play(program, seed)) for seed in range(count)]
