"""Sessions of two hosts over a network that loses, repeats and reorders: two programs assocrun, or one and usrsctp as its peer.

Everything is drawn from a seed: the network, limits, messages of every mode both ways, resets, who connects, reads late, and shuts down. In some sessions
one host begins again, as after a crash. Each message that is read must have been written on its stream, none is read twice, ordered ones come in order,
each reliable one comes, and both hosts end by the shutdown, when nothing is held. After a minute nothing more is lost.
"""
import heapq
import random
import subprocess

SECOND = 1_000_000
CALM, END, MOST_STEPS = 60 * SECOND, 3600 * SECOND, 60_000
# window, greatest message that is taken, greatest that is written
SIZES = [(20_000, 1000, 200), (100_000, 4000, 1000), (1 << 20, 65_536, 20_000)]
RELIABILITIES = ["reliable", "reliable", "rexmit 0", "rexmit 2", "timed 50", "timed 500"]


class Wrong(Exception):
    """What was promised did not come."""


class Host:
    """One host, what it wrote and read by stream, and what it told."""

    def __init__(self, command, streams):
        self.process = subprocess.Popen(command, stdin=subprocess.PIPE, stdout=subprocess.PIPE, text=True)
        self.next, self.outs, self.events = None, [], []
        self.streams, self.left, self.resets = streams, 0, 0
        self.forget()

    def forget(self):
        """Begins without an association."""
        self.is_up, self.closed, self.resetting, self.ready = False, None, set(), set()
        self.modes = [("ordered", "reliable")] * self.streams
        self.wrote = [[] for _ in range(self.streams)]
        self.read = [[] for _ in range(self.streams)]

    def ask(self, line):
        """Gives a line, and returns what it answers beside datagrams and events."""
        self.process.stdin.write(line + "\n")
        self.process.stdin.flush()
        answers = []
        for got in self.process.stdout:
            kind, _, rest = got.rstrip("\n").partition(" ")
            if kind == "next":
                self.next = None if rest == "none" else int(rest)
                return answers
            {"out": self.outs, "event": self.events}.get(kind, answers).append(rest if kind in ("out", "event") else got.rstrip("\n"))
        raise Wrong(f"a host ended at: {line[:80]}")

    def end(self):
        self.process.kill()
        self.process.wait()


class Session:
    """Two hosts, the network between them, and what is still to happen."""

    def __init__(self, commands, seed, restarts, watch=None):
        self.random = draw = random.Random(f"{len(commands[0])} {len(commands[1])} {seed} {restarts}")
        self.is_alike = commands[0] == commands[1]
        self.now, self.queue, self.count, self.is_ending, self.stale = 0, [], 0, False, [set(), set()]
        self.loss, self.repeats, self.reorders = draw.choice([0, 0, 0.02, 0.1, 0.3]), draw.choice([0, 0, 0.05]), draw.choice([0, 1])
        self.delay, self.mtu = draw.choice([500, 10_000, 50_000, 200_000]), draw.choice([512, 700, 1191, 1400] if self.is_alike else [1191, 1400])
        window, most, self.most = draw.choice(SIZES if self.is_alike else SIZES[2:])
        streams = draw.choice([2, 4, 16])
        self.keys = {"mtu": self.mtu, "window": window, "max": most, "streams": streams, "rto_min": 200_000, "rto_initial": SECOND, "port": 5000,
                     "rto_max": draw.choice([2, 60]) * SECOND if self.is_alike else 60 * SECOND, "retrans": 30, "init_retrans": 30}
        self.hosts = [Host(command, streams) for command in commands]
        for i, host in enumerate(self.hosts if watch else ()):
            watch(host, f"host {i}")
        self.is_slow, messages = draw.random() < 0.4, draw.choice([5, 40, 150])
        # busy, or longer between two messages than an RTO
        self.pauses = draw.choice([[1000, 20_000, 100_000]] * 2 + [[2 * SECOND]])
        for i, host in enumerate(self.hosts):
            host.left, host.resets = messages if i == 0 or draw.random() < 0.7 else 0, draw.choice([0, 0, 3]) if self.is_alike else 0
            self.begin(i)
            self.push(0, ("act", i))
        if restarts:
            self.push(draw.randrange(SECOND // 3, 6 * SECOND), ("restart", draw.randrange(2)))

    def begin(self, i):
        draw = self.random
        keys = {**self.keys, "tag": draw.randrange(1, 1 << 32), "tsn": draw.choice([1000, (1 << 31) - 10, (1 << 32) - 20]), "key": draw.randbytes(32).hex()}
        if self.hosts[i].ask("new " + " ".join(f"{key}={value}" for key, value in keys.items())):
            raise Wrong("the config is refused")

    def push(self, at, what):
        self.count += 1
        heapq.heappush(self.queue, (at, self.count, what))

    def say(self, i, line):
        """Gives a host a line, and takes what follows: events, what it reads, datagrams, and its next moment."""
        host = self.hosts[i]
        answers = host.ask(line)
        while host.events:
            self.take_event(i, host.events.pop(0).split())
        for datagram in host.outs:
            for _ in range(1 + (self.now < CALM and self.random.random() < self.repeats)):
                if self.now >= CALM or self.random.random() >= self.loss:
                    self.push(self.now + self.delay + self.random.randrange(2 * self.delay if self.reorders else 100), ("in", 1 - i, datagram))
        host.outs.clear()
        if host.next is not None:
            self.push(max(host.next, self.now), ("timeout", i))
        return answers

    def take_event(self, i, words):
        host = self.hosts[i]
        if words[0] == "connected":
            host.is_up = True
        elif words[0] == "restarted":
            # what was written to the one before may be read or not
            self.stale[i] |= {it for wrote in host.wrote for it, _ in wrote}
            host.wrote = [[] for _ in host.wrote]
            host.resetting.clear()
        elif words[0] == "closed":
            host.closed = " ".join(words[1:])
        elif words[0] == "readable":
            host.ready.add(int(words[1]))
        elif words[0] in ("resetbyus", "resetrefused"):
            host.resetting.discard(int(words[1]))

    def read(self, i):
        """Reads what is readable."""
        host = self.hosts[i]
        while host.ready:
            stream = host.ready.pop()
            while (answer := self.say(i, f"read {self.now} {stream}")) and answer[0] != "none":
                host.read[stream].append(answer[0].split()[3])

    def write(self, i):
        """Writes a message: the first one of a stream in any mode, later ones in another now and then."""
        host, draw, stream = self.hosts[i], self.random, self.random.randrange(self.keys["streams"])
        if stream in host.resetting:
            return
        if draw.random() < (0.1 if host.wrote[stream] else 0.5):
            host.modes[stream] = draw.choice(["ordered", "unordered"]), draw.choice(RELIABILITIES)
            self.say(i, "mode {} {} {}".format(stream, *host.modes[stream]))
        size = draw.choice([1, 10, 100, draw.randrange(1, self.most)])
        if not self.is_alike and host.modes[stream][0] == "unordered":
            # usrsctp 0.9.5.0 aborts over longer ones beside a FORWARD-TSN
            size = min(size, self.mtu - 60)
        data = (self.count.to_bytes(4, "big") + draw.randbytes(size))[:max(4, size)].hex()
        self.count += 1
        if not self.say(i, f"write {self.now} {stream} {draw.choice([51, 53])} {data}"):
            host.wrote[stream].append((data, host.modes[stream]))
            host.left -= 1

    def act(self, i):
        """What an application does at a moment."""
        host, draw = self.hosts[i], self.random
        if host.ready and (not self.is_slow or self.is_ending or draw.random() < 0.05):
            self.read(i)
        if not host.is_up or host.closed or self.is_ending:
            return
        for _ in range(min(host.left, draw.choice([0, 1, 1, 3]))):
            self.write(i)
        stream = draw.randrange(host.streams)
        if host.resets and stream not in host.resetting and draw.random() < 0.05 and not self.say(i, f"reset {self.now} {stream}"):
            host.resetting.add(stream)
            host.resets -= 1

    def restart(self, i):
        """A host forgets all, and connects as a new one."""
        host, peer = self.hosts[i], self.hosts[1 - i]
        if not (host.is_up and peer.is_up) or self.is_ending:
            return
        for k in (0, 1):
            self.stale[k] |= {it for wrote in self.hosts[k].wrote for it, _ in wrote}
        left = host.left
        host.forget()
        host.left = left
        self.begin(i)
        self.say(i, f"connect {self.now}")

    def step(self):
        self.now, _, what = heapq.heappop(self.queue)
        i, host = what[1], self.hosts[what[1]]
        if what[0] == "act":
            self.act(i)
            if not host.closed or host.ready:
                self.push(self.now + (self.random.choice(self.pauses) if host.left or host.ready else SECOND // 5), what)
        elif what[0] == "restart":
            self.restart(i)
        elif what[0] == "in":
            self.say(i, f"in {self.now} {what[2]}")
        elif host.next is not None and host.next <= self.now:
            self.say(i, f"timeout {self.now}")
        idle = all(it.is_up and not it.left and not it.resetting and not it.ready for it in self.hosts)
        if idle and not self.is_ending and self.now > 7 * SECOND:
            self.is_ending = True
            for k in self.random.choice([(0,), (1,), (0, 1)]):
                self.say(k, f"shutdown {self.now}")

    def run(self):
        for i in (0, 1) if self.is_alike and self.random.random() < 0.4 else (0,):
            self.say(i, "connect 0")
        steps = 0
        while self.queue and self.queue[0][0] < END and not all(it.closed and not it.ready for it in self.hosts):
            self.step()
            steps += 1
            if steps > MOST_STEPS:
                raise Wrong("it does not end")
        self.check()

    def check(self):
        for i, host in enumerate(self.hosts):
            if host.closed != "shutdown":
                raise Wrong(f"host {i} did not end by the shutdown: {host.closed}")
            held = host.ask("stats")[0].split()[-1] if self.is_alike else "0"
            if held != "0":
                raise Wrong(f"host {i} holds {held} bytes, and nothing can be read")
            for stream, wrote in enumerate(host.wrote):
                check_stream(f"host {1 - i}, stream {stream}", wrote, self.hosts[1 - i].read[stream], self.stale[i])


def check_stream(who, wrote, read, stale):
    """Whether what was read of a stream is what was written to it."""
    modes = dict(wrote)
    read = [it for it in read if it not in stale]
    if len(set(read)) < len(read) or not set(read) <= set(modes):
        raise Wrong(f"{who}: read twice, or never written")
    for data, (_, reliability) in wrote:
        if reliability == "reliable" and data not in stale and data not in read:
            raise Wrong(f"{who}: a reliable message of {len(data) // 2} bytes did not come")
    later = iter([data for data, mode in wrote if mode[0] == "ordered"])
    if not all(data in later for data in read if modes[data][0] == "ordered"):
        raise Wrong(f"{who}: out of order")


def play(commands, seed, restarts):
    session = Session(commands, seed, restarts)
    try:
        session.run()
    except Wrong as fault:
        raise Wrong(f"seed {seed}{' with a restart' if restarts else ''}, {len(session.hosts[0].wrote)} streams, {session.loss:.0%} lost: {fault}") from fault
    finally:
        for host in session.hosts:
            host.end()


def cases(program, usrsctp, count):
    """A case for each of so many sessions of each kind; of those with usrsctp a quarter, where its host is there."""
    ours = [program]
    found = [(f"session {seed}", lambda seed=seed: play([ours, ours], seed, False)) for seed in range(count)]
    found += [(f"session {seed} with a restart", lambda seed=seed: play([ours, ours], seed, True)) for seed in range(count // 2)]
    for pair in ([ours, [usrsctp, "keep"]], [[usrsctp, "keep"], ours]) if usrsctp else ():
        found += [(f"session {seed} with usrsctp", lambda seed=seed, pair=pair: play(pair, seed, False)) for seed in range(count // 4)]
    return found
