"""Two associations of which one is refused an allocation: a handshake, messages of each mode, a reset both ways, a heartbeat, loss, and a shutdown.

Each allocation of it is refused in turn, one in a run (refuse.c). No run may crash, and in each all reliable messages come, once and in order, and both
associations end by the shutdown. What is refused is asked for again by the driver, as a program does. So is a datagram, since one that is refused has
changed nothing; of one that is taken in part the rest counts as lost.
"""
import os
import shutil
import subprocess
import tempfile

# A run takes no longer, in microseconds of the exchange.
END = 400_000_000
WAY = 10_000
MESSAGES = 6


class Wrong(Exception):
    """An answer is not what it must be."""


class Died(Exception):
    """The program ended before its first line, as it may without memory for its buffers."""


class Host:
    """An association, what it sent, and what was read of it."""

    def __init__(self, program, env):
        self.process = subprocess.Popen([program], stdin=subprocess.PIPE, stdout=subprocess.PIPE, text=True, env=env)
        self.outs, self.read, self.closed, self.reset, self.refusals, self.lines = [], {}, None, 0, 0, 0
        self.up, self.next, self.parts = False, None, 0

    def once(self, line):
        """Gives a line; returns what it answers, and takes its datagrams and events."""
        try:
            self.process.stdin.write(line + "\n")
            self.process.stdin.flush()
        except BrokenPipeError:
            pass
        told, streams, is_left = [], [], False
        for got in self.process.stdout:
            got = got.rstrip("\n")
            if got.startswith("next "):
                self.next = None if got == "next none" else int(got[5:])
                break
            if got.startswith("out "):
                self.outs.append(got[4:])
            elif got.startswith("event readable "):
                streams.append(int(got.split()[2]))
            elif got.startswith("event closed "):
                self.closed = got[13:]
            elif got.startswith("event resetbyus"):
                self.reset += 1
            elif got == "event connected":
                self.up = True
            elif got.startswith("error"):
                raise Wrong(f"{line[:60]}: {got}")
            elif got == "refused transmit":
                is_left = True
            else:
                told.append(got)
        else:
            status = self.process.wait()
            if self.lines == 0 and status == 1:
                raise Died
            raise Wrong(f"status {status} at {line[:60]}")
        self.lines += 1
        for stream in streams:
            self.drain(line.split()[1], stream)
        if is_left:
            self.refusals += 1
            self.once(f"poll {line.split()[1]}")
        return told

    def ask(self, line):
        """The same, again while it is refused for memory."""
        for _ in range(4):
            told = self.once(line)
            if "refused memory" not in told:
                return told
            self.refusals += 1
        raise Wrong(f"refused again and again: {line[:60]}")

    def take(self, line):
        """Gives a datagram, again where it is refused for memory."""
        told = [it for it in self.ask(line) if not it.startswith("event ")]
        if len(told) != 1 or told[0].split()[0] not in ("accepted", "partly", "dropped"):
            raise Wrong(f"{line[:60]}: {told}")
        self.parts += told == ["partly"]

    def drain(self, now, stream):
        while True:
            message = next((it for it in self.ask(f"read {now} {stream}") if it.startswith("message ")), None)
            if message is None:
                return
            self.read.setdefault(stream, []).append(message.split()[3])

    def end(self):
        self.process.stdin.close()
        status = self.process.wait()
        if status != 0:
            raise Wrong(f"status {status} at the end")


class Exchange:
    """Both, and the way between them."""

    def __init__(self, program, env):
        self.hosts = [Host(program, env), Host(program, None)]
        self.now, self.flights, self.count, self.all = 0, [], 0, []

    def settle(self):
        """Sends what is due. Each 9th datagram is lost."""
        for number, host in enumerate(self.hosts):
            for datagram in host.outs:
                self.count += 1
                self.all.append(bytes.fromhex(datagram))
                if self.count % 9:
                    self.flights.append((self.now + WAY, 1 - number, datagram))
            host.outs = []

    def step(self, until):
        """Goes on to what happens next, or to a moment; whether something happened."""
        self.settle()
        moments = [it[0] for it in self.flights] + [host.next for host in self.hosts if host.next is not None]
        if not moments or min(moments) > until:
            self.now = until
            return False
        self.now = max(self.now, min(moments))
        due = [it for it in self.flights if it[0] <= self.now]
        self.flights = [it for it in self.flights if it[0] > self.now]
        for _, number, datagram in due:
            self.hosts[number].take(f"in {self.now} {datagram}")
        for host in self.hosts:
            if host.next is not None and host.next <= self.now:
                host.once(f"timeout {self.now}")
        return True

    def wait(self, is_done):
        while not is_done():
            if not self.step(END) or self.now >= END:
                raise Wrong(f"stands still: up {[it.up for it in self.hosts]}, closed {[it.closed for it in self.hosts]}, "
                            f"read {[{k: len(v) for k, v in it.read.items()} for it in self.hosts]}, resets {[it.reset for it in self.hosts]}")

    def both(self, line):
        for host in self.hosts:
            host.ask(line)

    def play(self):
        keys = "heartbeat=2000000 rto_initial=300000 rto_min=100000 max=20000 zero_checksum=1"
        for host, tag in zip(self.hosts, (10, 20)):
            host.ask(f"new tag={tag} tsn={tag * 100} {keys}")
        self.both("mode 1 unordered reliable")
        self.both("mode 2 ordered rexmit 0")
        self.both("mode 3 unordered timed 50")
        self.both("connect 0")
        self.wait(lambda: all(host.up for host in self.hosts))
        for number in range(MESSAGES):
            for stream, length in ((0, 3000), (1, 40), (2, 700), (3, 900)):
                self.both(f"write {self.now} {stream} 53 *{length + number}")
            self.step(self.now + 5000)
        self.wait(lambda: all(len(host.read.get(stream, [])) == MESSAGES for host in self.hosts for stream in (0, 1)))
        self.both(f"reset {self.now} 0")
        self.wait(lambda: all(host.reset for host in self.hosts))
        self.both(f"write {self.now} 0 53 *77")
        self.wait(lambda: all(len(host.read[0]) == MESSAGES + 1 for host in self.hosts))
        end = self.now + 5_000_000
        while self.step(end):
            pass
        self.hosts[0].ask(f"shutdown {self.now}")
        self.wait(lambda: all(host.closed for host in self.hosts))

    def check(self):
        if [host.closed for host in self.hosts] != ["shutdown", "shutdown"]:
            raise Wrong(f"closed: {[host.closed for host in self.hosts]}")
        for host in self.hosts:
            lengths = [len(it) // 2 for it in host.read[0]]
            if lengths != [3000 + number for number in range(MESSAGES)] + [77]:
                raise Wrong(f"stream 0: {lengths}")
            if sorted(len(it) // 2 for it in host.read[1]) != [40 + number for number in range(MESSAGES)]:
                raise Wrong(f"stream 1: {host.read[1]}")
            for text in [it for texts in host.read.values() for it in texts]:
                if text != bytes(i & 255 for i in range(len(text) // 2)).hex():
                    raise Wrong("other bytes are read")


def run(program, library, folder, number):
    """Refuses an allocation (0: none); returns the exchange, or None where it was one of the program's buffers, and how many there are."""
    path = os.path.join(folder, "count")
    env = {**os.environ, "LD_PRELOAD": library, "REFUSE": str(number), "COUNT": path}
    exchange = Exchange(program, env)
    try:
        exchange.play()
        exchange.check()
        for host in exchange.hosts:
            host.end()
    except Died:
        return None, 0
    except Wrong as fault:
        raise Wrong(f"allocation {number}: {fault}") from fault
    finally:
        for host in exchange.hosts:
            host.process.kill()
            host.process.wait()
    with open(path, encoding="ascii") as count:
        return exchange, int(count.read())


def refuse_each(program, every):
    with tempfile.TemporaryDirectory() as folder:
        library = os.path.join(folder, "refuse.so")
        source = os.path.join(os.path.dirname(os.path.abspath(__file__)), "refuse.c")
        subprocess.run([os.environ.get("CC", "gcc"), "-shared", "-fPIC", "-O1", source, "-o", library], check=True)
        whole, count = run(program, library, folder, 0)
        refusals = parts = died = 0
        for number in range(1, count + 1, every):
            exchange, _ = run(program, library, folder, number)
            if exchange is None:
                died += 1
            else:
                refusals += exchange.hosts[0].refusals
                parts += exchange.hosts[0].parts
        if died > 4:
            raise Wrong(f"{died} refusals end the program")
        print(f"{count} allocations, each {every}th refused once: {died} before the first line, {refusals} calls asked again, "
              f"{parts} datagrams taken in part", flush=True)
        return whole.all


def cases(program, every):
    if shutil.which(os.environ.get("CC", "gcc")):
        yield "an allocation is refused", lambda: refuse_each(program, every)
