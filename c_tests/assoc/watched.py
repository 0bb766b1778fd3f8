"""Sessions of two associations, where a model of its own reads each datagram that a host gets and sends, and knows nothing else of the host.

A host acknowledges only what came or was skipped (RFC 9260 6.2, RFC 3758 3.6), takes nothing back, and is never late with a SACK. It gives out TSNs and SSNs
in order (6.5), sends a chunk again as it was, and none that is acknowledged up to the cumulative TSN. A message of so many retransmissions is sent so often
(RFC 7496 3.1). A FORWARD-TSN passes no message that is reliable, and names what it skips (RFC 3758 3.5). While a chunk waits for its SACK a timer runs.
"""
import sessions
import wire

OPEN = ("established", "shutdownpending", "shutdownsent")


def is_before(a, b):
    return a != b and (b - a) % (1 << 32) < 1 << 31


def following(tsn, step=1):
    return (tsn + step) % (1 << 32)


class Watch:
    """What one host must have got, and has sent."""

    def __init__(self, host, who):
        self.host, self.who, self.ask_host = host, who, host.ask
        self.modes, self.mode_of, self.ssns, self.begun = {}, {}, {}, {}
        self.came, self.told, self.chunks = set(), set(), {}
        self.cum = self.skipped = None
        host.ask = self.ask

    def wrong(self, text):
        raise sessions.Wrong(f"{self.who}: {text}")

    def ask(self, line):
        words, state = line.split(), "closed"
        if words[0] == "in":
            state = self.ask_host("state")[0].split()[1]
        before = len(self.host.outs)
        answers = self.ask_host(line)
        outs = [wire.decode(bytes.fromhex(it))[1] for it in self.host.outs[before:]]
        self.note(words, answers)
        if words[0] == "in" and answers == ["accepted"]:
            self.arrived(wire.decode(bytes.fromhex(words[2]))[1], state, outs, int(words[1]))
        self.resets()
        for chunks in outs:
            for name, fields in chunks:
                self.sent(name, dict(fields))
        if words[0] != "new" and any(not it["reported"] for it in self.chunks.values()) and self.host.next is None and not self.is_over():
            self.wrong("a chunk waits for its SACK, and no timer runs")
        return answers

    def is_over(self):
        return any(it.startswith("closed") for it in self.host.events) or self.host.closed is not None

    def note(self, words, answers):
        """What the application asked for."""
        if words[0] == "new":
            keys = dict(word.split("=") for word in words[1:])
            self.next, self.passed = int(keys["tsn"]), following(int(keys["tsn"]), -1)
            self.acked, self.window = self.passed, int(keys["window"])
        elif words[0] == "mode" and not answers:
            self.modes[int(words[1])] = words[2:]
        elif words[0] == "write" and not answers:
            self.mode_of[words[4]] = self.modes.get(int(words[2]), ["ordered", "reliable"])

    def resets(self):
        for event in self.host.events:
            if event.startswith("resetbyus"):
                self.ssns[int(event.split()[1])] = 0

    def arrived(self, chunks, state, outs, now):
        has_data = False
        for name, fields in chunks:
            it = dict(fields)
            if name in ("INIT", "INIT-ACK") and self.cum is None:
                self.cum = self.skipped = following(it["tsn"], -1)
            elif name == "SACK" and state in ("established", "shutdownpending", "shutdownreceived"):
                self.acknowledged(it["cum"], it["gaps"])
            elif name == "SHUTDOWN" and state != "closed":
                self.acknowledged(it["cum"], None)
            elif name == "DATA" and (state in OPEN or any(before in ("COOKIE-ECHO", "COOKIE-ACK") for before, _ in chunks)):
                has_data = True
                self.came.add(it["tsn"])
            elif name == "FORWARD-TSN" and state in OPEN and is_before(self.skipped, it["cum"]):
                self.skipped = it["cum"]
        # 6.2: within 200 ms, and at once in SHUTDOWN-SENT (9.2)
        is_told = any(name in ("SACK", "SHUTDOWN", "SHUTDOWN-ACK", "ABORT") for sent in outs for name, _ in sent)
        if has_data and state in OPEN and not is_told and (self.host.next is None or self.host.next > now + 200_000):
            self.wrong(f"DATA came at {now}, and no SACK is due by {self.host.next}")

    def acknowledged(self, cum, gaps):
        if is_before(cum, self.acked):
            return
        self.acked = cum
        self.chunks = {tsn: it for tsn, it in self.chunks.items() if is_before(cum, tsn)}
        if gaps is not None:
            reported = set(self.in_blocks(cum, gaps))
            for tsn, it in self.chunks.items():
                it["reported"] = tsn in reported

    @staticmethod
    def in_blocks(cum, gaps):
        for pair in gaps.split(",") if gaps else ():
            low, high = map(int, pair.split("-"))
            yield from (following(cum, step) for step in range(low, high + 1))

    def sent(self, name, it):
        if name == "SACK":
            self.tells(it["cum"], set(self.in_blocks(it["cum"], it["gaps"])))
            if it["rwnd"] > self.window:
                self.wrong(f"the window is {it['rwnd']}")
        elif name == "SHUTDOWN":
            self.tells(it["cum"], None)
        elif name == "DATA":
            self.sends(it)
        elif name == "FORWARD-TSN":
            self.skips(it["cum"], it["skips"])

    def tells(self, cum, reported):
        if is_before(cum, self.cum):
            self.wrong(f"acknowledges {cum} after {self.cum}")
        tsn = self.cum
        while tsn != cum:
            tsn = following(tsn)
            if tsn not in self.came and is_before(self.skipped, tsn):
                self.wrong(f"acknowledges {tsn}, which did not come")
        if reported is not None:
            if not reported <= self.came:
                self.wrong(f"reports {sorted(reported - self.came)}, which did not come")
            lost = {tsn for tsn in self.told - reported if is_before(cum, tsn)}
            if lost:
                self.wrong(f"takes {sorted(lost)} back")
            self.told = reported
        self.cum = cum
        self.came = {tsn for tsn in self.came if is_before(cum, tsn)}

    def sends(self, it):
        tsn, what = it["tsn"], (it["flags"].replace("I", ""), it["sid"], it["ssn"], it["ppi"], it["data"])
        while is_before(self.next, tsn):
            # one TSN of a message that is abandoned while it is partly sent
            last = self.chunks.get(following(self.next, -1))
            if not last or "E" in last["what"][0] or last["mode"][1] == "reliable":
                self.wrong(f"leaves the TSN {self.next} out")
            self.next = following(self.next)
        if tsn == self.next:
            self.next = following(tsn)
            self.chunks[tsn] = {"what": what, "times": 0, "reported": False, "mode": self.mode_of_chunk(*what)}
        elif tsn not in self.chunks or not is_before(self.passed, tsn):
            self.wrong(f"sends {tsn}, and is past it")
        chunk = self.chunks[tsn]
        chunk["times"] += 1
        if chunk["what"] != what:
            self.wrong(f"sends {tsn} otherwise than before")
        if chunk["mode"][1] == "rexmit" and chunk["times"] > int(chunk["mode"][2]) + 1:
            self.wrong(f"sends {tsn} {chunk['times']} times")

    def mode_of_chunk(self, flags, sid, ssn, _, data):
        """The mode of the message that a new chunk is of. Messages of a stream differ in their first four bytes."""
        if "B" in flags:
            if "U" not in flags:
                if ssn != self.ssns.get(sid, 0):
                    self.wrong(f"stream {sid} has the SSN {ssn}, and not {self.ssns.get(sid, 0)}")
                self.ssns[sid] = (ssn + 1) % (1 << 16)
            self.begun[sid, "U" in flags] = next(mode for text, mode in self.mode_of.items() if text.startswith(data[:8]))
        return self.begun[sid, "U" in flags]

    def skips(self, cum, names):
        if is_before(cum, self.passed):
            self.wrong(f"a FORWARD-TSN to {cum} after {self.passed}")
        named = dict(map(int, pair.split(":")) for pair in names.split(",") if pair)
        for tsn, chunk in self.chunks.items():
            if is_before(cum, tsn) or chunk["reported"]:
                continue
            if chunk["mode"][1] == "reliable":
                self.wrong(f"a FORWARD-TSN to {cum} passes {tsn}, which is reliable")
            flags, sid, ssn = chunk["what"][:3]
            if "U" not in flags and named.get(sid, -1) < ssn:
                self.wrong(f"a FORWARD-TSN to {cum} does not name stream {sid}, SSN {ssn}")
        self.passed = cum
        while not is_before(cum, self.next):
            self.next = following(self.next)


def play(program, seed):
    session = sessions.Session([[program], [program]], seed, False, Watch)
    try:
        session.run()
    except sessions.Wrong as fault:
        raise sessions.Wrong(f"seed {seed}, {session.loss:.0%} lost: {fault}") from fault
    finally:
        for host in session.hosts:
            host.end()


def cases(program, count):
    """A case for each seed."""
    return [(f"watched session {seed}", lambda seed=seed: play(program, 10_000 + seed)) for seed in range(count)]
