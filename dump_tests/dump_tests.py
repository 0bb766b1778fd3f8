#!/usr/bin/env python3
"""Tests the program sctpdump: frames made by hand, and runs with what they must print.

    python3 dump_tests/dump_tests.py [--tshark] [PROGRAM]

PROGRAM is crates/sctpdump/out/sctpdump unless told otherwise: `rt ci` leaves it there, and `rt run` in crates/sctpdump makes it. The frames hold one
datagram behind the headers that the RFCs named below give, or none; with --tshark, tshark has to find the datagram in the same ones, between the same
addresses. A capture that is cut between two records has to print in each view what it prints as a whole. The lines of JSON of each capture have to be what docs/sctpdump.schema.json says. Two large captures have to be shown within bounds. The
records that are chosen with -w have to be in the capture that is written, whose blocks are read here; with --tshark, tshark has to read it, too. The
runs are those of dump_tests/runs.txt: a line '$ sctpdump ..', run in crates/sctpdump/data and examples, and the lines that it prints.
A summary has to be printed where an interrupt that the shell ignores came before the end, and each view where an interrupt ended the writer. The last line is 'N passed, M failed'; the status is 0 where nothing failed.
"""
import ipaddress
import json
import os
import re
import shlex
import shutil
import signal
import struct
import subprocess
import sys
import tempfile
import time

import check_dump

ROOT = os.path.dirname(os.path.dirname(os.path.abspath(__file__)))

# A COOKIE-ACK from port 5000 to 5001 (RFC 4960 3, 3.3.12), with its checksum.
DATAGRAM = bytes.fromhex("13881389009a5599de8f77f30b000004")

INNER4 = ("10.1.2.3", "10.4.5.6")
INNER6 = ("2001:db8::1", "2001:db8::2")
OUTER4 = ("192.0.2.1", "192.0.2.2")

ETHERNET, LOOPBACK, RAW, COOKED, COOKED_2, PPI, EXPORTED = 1, 0, 101, 113, 276, 192, 252


def ipv4(payload, protocol=132, ends=INNER4, fragment=0, total=None):
    """RFC 791 3.1."""
    length = 20 + len(payload) if total is None else total
    address = [bytes(int(part) for part in end.split(".")) for end in ends]
    return struct.pack(">BBHHHBBH", 0x45, 0, length, 1, fragment, 64, protocol, 0) + address[0] + address[1] + payload


def ipv6(payload, protocol=132):
    """RFC 8200 3, between 2001:db8::1 and 2001:db8::2."""
    address = [bytes.fromhex("20010db80000000000000000000000") + bytes([last]) for last in (1, 2)]
    return struct.pack(">IHBB", 0x60000000, len(payload), protocol, 64) + address[0] + address[1] + payload


def ethernet(typ, payload, tags=()):
    """Two addresses, tags (IEEE 802.1Q), and the number of the protocol."""
    tagged = b"".join(struct.pack(">HH", tag, 5) for tag in tags)
    return bytes.fromhex("0200000000020200000000 01".replace(" ", "")) + tagged + struct.pack(">H", typ) + payload


def pppoe(protocol, payload, first=0x11, code=0):
    """RFC 2516 4, and the number of the protocol of PPP (RFC 1661 2)."""
    return struct.pack(">BBHHH", first, code, 7, 2 + len(payload), protocol) + payload


def label(number, bottom, payload):
    """RFC 3032 2.1: label, traffic class, bottom of stack, time to live."""
    return struct.pack(">I", number << 12 | 3 << 9 | bottom << 8 | 64) + payload


def gre(typ, payload, checksum=False, key=False, sequence=False, bits=0):
    """RFC 2784 2.1, RFC 2890 2."""
    flags = checksum << 15 | key << 13 | sequence << 12 | bits
    return struct.pack(">HH", flags, typ) + bytes(4 * (checksum + key + sequence)) + payload


def tunnel(payload, depth=1):
    """An IPv4 packet in so many of GRE."""
    for _ in range(depth):
        payload = ipv4(gre(0x0800, payload), 47, OUTER4)
    return payload


def octets(end):
    """The bytes of an address."""
    return ipaddress.ip_address(end).packed


def exported(tags, is_ended=True):
    """A PDU as Wireshark exports it (its file epan/exported_pdu.h): tags of a number, the length of a value, and the value, one of number 0, the PDU."""
    end = [(0, b"")] if is_ended else []
    return b"".join(struct.pack(">HH", number, len(value)) + value for number, value in [*tags, *end]) + (DATAGRAM if is_ended else b"")


NAME = (12, b"sctp")

V4, V6 = ipv4(DATAGRAM), ipv6(DATAGRAM)

# What it is, the link type, the frame, and the addresses between which the datagram goes, or why none is shown.
FRAMES = [
    ("IPv4 in Ethernet", ETHERNET, ethernet(0x0800, V4), INNER4),
    ("IPv6 in Ethernet", ETHERNET, ethernet(0x86DD, V6), INNER6),
    ("behind a tag", ETHERNET, ethernet(0x0800, V4, [0x8100]), INNER4),
    ("behind two tags", ETHERNET, ethernet(0x0800, V4, [0x88A8, 0x8100]), INNER4),
    ("behind three tags", ETHERNET, ethernet(0x86DD, V6, [0x9100, 0x88A8, 0x8100]), INNER6),
    ("behind four tags", ETHERNET, ethernet(0x0800, V4, [0x8100] * 4), "no SCTP"),
    ("IPv4 in PPPoE", ETHERNET, ethernet(0x8864, pppoe(0x0021, V4)), INNER4),
    ("IPv6 in PPPoE", ETHERNET, ethernet(0x8864, pppoe(0x0057, V6)), INNER6),
    ("PPPoE behind a tag", ETHERNET, ethernet(0x8864, pppoe(0x0021, V4), [0x8100]), INNER4),
    ("PPPoE with LCP (RFC 1661)", ETHERNET, ethernet(0x8864, pppoe(0xC021, V4)), "no SCTP"),
    ("PPPoE of another code", ETHERNET, ethernet(0x8864, pppoe(0x0021, V4, code=0xA7)), "no SCTP"),
    ("PPPoE of version 2", ETHERNET, ethernet(0x8864, pppoe(0x0021, V4, first=0x21)), "no SCTP"),
    ("discovery of PPPoE", ETHERNET, ethernet(0x8863, pppoe(0x0021, V4)), "no SCTP"),
    ("one MPLS label", ETHERNET, ethernet(0x8847, label(16, 1, V4)), INNER4),
    ("three MPLS labels", ETHERNET, ethernet(0x8847, label(16, 0, label(17, 0, label(18, 1, V6)))), INNER6),
    ("MPLS of multicast behind a tag", ETHERNET, ethernet(0x8848, label(16, 1, V6), [0x8100]), INNER6),
    ("twenty MPLS labels", ETHERNET, ethernet(0x8847, label(16, 0, b"") * 19 + label(16, 1, V4)), INNER4),
    ("MPLS with no bottom of stack", ETHERNET, ethernet(0x8847, label(16, 0, b"") * 30), "frame cut off"),
    ("a label with no IP below", ETHERNET, ethernet(0x8847, label(16, 1, bytes(40))), "no SCTP"),
    ("IPv4 in GRE", ETHERNET, ethernet(0x0800, tunnel(V4)), INNER4),
    ("IPv6 in GRE", ETHERNET, ethernet(0x0800, ipv4(gre(0x86DD, V6), 47, OUTER4)), INNER6),
    ("IPv4 in GRE in IPv6", ETHERNET, ethernet(0x86DD, ipv6(gre(0x0800, V4), 47)), INNER4),
    ("GRE with a checksum", RAW, ipv4(gre(0x0800, V4, checksum=True), 47, OUTER4), INNER4),
    ("GRE with a key", RAW, ipv4(gre(0x0800, V4, key=True), 47, OUTER4), INNER4),
    ("GRE with a sequence number", RAW, ipv4(gre(0x0800, V4, sequence=True), 47, OUTER4), INNER4),
    ("GRE with all three", RAW, ipv4(gre(0x86DD, V6, True, True, True), 47, OUTER4), INNER6),
    ("GRE with an Ethernet frame", RAW, ipv4(gre(0x6558, ethernet(0x0800, V4)), 47, OUTER4), INNER4),
    ("GRE with a frame behind a tag", RAW, ipv4(gre(0x6558, ethernet(0x86DD, V6, [0x8100]), key=True), 47, OUTER4), INNER6),
    ("GRE with MPLS (RFC 4023)", RAW, ipv4(gre(0x8847, label(16, 1, V4)), 47, OUTER4), INNER4),
    ("GRE of version 1", RAW, ipv4(gre(0x880B, V4, key=True, bits=1), 47, OUTER4), "no SCTP"),
    ("GRE with routing (RFC 1701)", RAW, ipv4(gre(0x0800, V4, bits=0x4000), 47, OUTER4), "no SCTP"),
    ("GRE with no IP", RAW, ipv4(gre(0x0806, V4), 47, OUTER4), "no SCTP"),
    ("GRE that is cut off", RAW, ipv4(gre(0x0800, b"", key=True)[:6], 47, OUTER4), "no SCTP"),
    ("a fragment in GRE", RAW, ipv4(gre(0x0800, ipv4(DATAGRAM, fragment=0x2000)), 47, OUTER4), "fragment of an IP packet"),
    ("four tunnels", RAW, tunnel(V4, 4), INNER4),
    ("five tunnels", RAW, tunnel(V4, 5), "no SCTP"),
    ("a tunnel on loopback", LOOPBACK, struct.pack("<I", 2) + tunnel(V4), INNER4),
    ("a tunnel in a cooked frame", COOKED, bytes(14) + b"\x08\x00" + tunnel(V4), INNER4),
    ("a tunnel in a cooked frame of version 2", COOKED_2, b"\x08\x00" + bytes(18) + tunnel(V4), INNER4),
    ("an exported PDU", EXPORTED, exported([NAME]), (None, None)),
    ("one whose name is padded", EXPORTED, exported([(12, b"sctp\0\0\0\0")]), (None, None)),
    ("one with addresses of IPv4", EXPORTED, exported([NAME, *zip((20, 21), map(octets, INNER4))]), INNER4),
    ("one with addresses of IPv6", EXPORTED, exported([*zip((22, 23), map(octets, INNER6)), NAME]), INNER6),
    ("one with other tags", EXPORTED, exported([(24, b"\0\0\0\4"), NAME, (36, b"text"), (30, b"\0\0\0\1")]), (None, None)),
    ("one for another dissector", EXPORTED, exported([(12, b"data")]), "no SCTP"),
    ("one for another dissector whose name begins so", EXPORTED, exported([(12, b"sctpx\0\0\0")]), "no SCTP"),
    ("one for no dissector", EXPORTED, exported([(24, b"\0\0\0\4")]), "no SCTP"),
    ("one with no last tag", EXPORTED, exported([NAME], False), "frame cut off"),
    ("one with a tag that is cut off", EXPORTED, exported([NAME])[:10], "frame cut off"),
    ("a link type that is not known", PPI, bytes(60), "unknown link type 192"),
]

# These tshark treats otherwise: it goes into as many tags and tunnels as there are, and tells what PPPoE carries whatever its version and code.
OF_OUR_OWN = {"behind four tags", "five tunnels", "PPPoE of another code", "PPPoE of version 2"}


def write_capture(path, link_type, frame):
    """Writes a capture of one frame."""
    with open(path, "wb") as out:
        out.write(struct.pack("<IHHiIII", 0xA1B2C3D4, 2, 4, 0, 0, 262144, link_type))
        out.write(struct.pack("<IIII", 1, 2, len(frame), len(frame)) + frame)


def seen_by_us(program, path):
    """Returns the addresses of the datagram, if it is the one that was put into the frame, or why none is shown."""
    ran = subprocess.run([program, "--json", path], capture_output=True, text=True)
    record = json.loads(ran.stdout.split("\n")[0])
    if "not_shown" in record:
        return record["not_shown"]
    if record.get("right") is not True or record["source_port"] != 5000 or record["destination_port"] != 5001:
        return f"another datagram: {record}"
    return record.get("source"), record.get("destination")


def seen_by_tshark(path):
    """Returns the innermost addresses of the frame, if it holds SCTP."""
    fields = ["sctp.srcport", "ip.src", "ip.dst", "ipv6.src", "ipv6.dst"]
    fields += [f"exported_pdu.ip{version}_{end}" for version in ("v4", "v6") for end in ("src", "dst")] + ["frame.protocols"]
    ran = subprocess.run(["tshark", "-r", path, "-T", "fields", *(it for field in fields for it in ("-e", field))], capture_output=True, text=True)
    port, *ends, protocols = ran.stdout.rstrip("\n").split("\t")
    if port != "5000":
        return None
    if protocols.startswith("exported_pdu"):
        return next((tuple(ends[at:at + 2]) for at in (4, 6) if ends[at]), (None, None))
    versions = [it for it in protocols.split(":") if it in ("ip", "ipv6")]
    at = 0 if versions[-1] == "ip" else 2
    return ends[at].split(",")[-1], ends[at + 1].split(",")[-1]


def frame_tests(program, has_tshark):
    """Returns how many frames are seen as they must be, and how many are not."""
    counts = [0, 0]
    with tempfile.TemporaryDirectory() as room:
        path = f"{room}/frame.pcap"
        for name, link_type, frame, wanted in FRAMES:
            write_capture(path, link_type, frame)
            told = seen_by_us(program, path)
            is_right = told == wanted
            if not is_right:
                print(f"{name}: {told}, not {wanted}")
            if has_tshark and name not in OF_OUR_OWN:
                theirs = seen_by_tshark(path)
                if theirs != (wanted if isinstance(wanted, tuple) else None):
                    print(f"{name}: tshark says {theirs}, not {wanted}")
                    is_right = False
            counts[not is_right] += 1
    return counts


def runs_in(path):
    """Returns the runs of a file: the command's words, and the lines that it is to print."""
    found = []
    with open(path, encoding="utf-8") as text:
        for line in text.read().split("\n"):
            if line.startswith("$ "):
                found.append((line[2:], []))
            elif found and not line.startswith("#"):
                found[-1][1].append(line)
    return [(command, "\n".join(lines).rstrip("\n")) for command, lines in found]


def printed_by(program, command, room):
    """Returns what a command prints, with its exit status where that is not 0."""
    words = shlex.split(command)
    ran = subprocess.run([program, *words[1:]], capture_output=True, stdin=subprocess.DEVNULL, cwd=room)
    told = (ran.stdout + ran.stderr).decode().rstrip("\n")
    return told + (f"\nstatus {ran.returncode}" if ran.returncode else "")


def run_tests(program, path):
    """Returns how many runs print what they must, and how many do not."""
    counts = [0, 0]
    with tempfile.TemporaryDirectory() as room:
        for folder in ("crates/sctpdump/data", "examples"):
            for name in os.listdir(f"{ROOT}/{folder}"):
                if os.path.isfile(f"{ROOT}/{folder}/{name}"):
                    shutil.copy(f"{ROOT}/{folder}/{name}", room)
        for command, wanted in runs_in(path):
            told = printed_by(program, command, room)
            if told != wanted:
                print(f"$ {command}\n--- it prints\n{told}\n--- and not\n{wanted}\n---")
            counts[told != wanted] += 1
    return counts


def json_tests(program):
    """Returns how many captures give lines of JSON that docs/sctpdump.schema.json allows in each view, and how many do not."""
    counts, whole = [0, 0], check_dump.schema()
    for folder in ("crates/sctpdump/data", "examples"):
        for path in (f"{ROOT}/{folder}/{name}" for name in sorted(os.listdir(f"{ROOT}/{folder}")) if name.endswith((".hex", ".pcap", ".log", ".txt"))):
            lines = [line for view in ([], ["--summary"], ["--messages"], ["--acks"], ["--channels"]) for line in check_dump.said(program, [*view, path], path)]
            faults = list(filter(None, (check_dump.unfit(line, whole, whole) for line in lines)))
            print("".join(f"{path}: {fault}\n" for fault in faults), end="")
            counts[bool(faults)] += 1
    return counts


def ends_uninterrupted(program):
    """Whether a summary is printed where its input ends behind an interrupt, which the shell had ignored."""
    with open(f"{ROOT}/examples/usrsctp-abort.hex", "rb") as lines:
        capture = lines.read()
    words = ["sh", "-c", 'trap "" INT; exec "$0" --summary', program]
    ran = subprocess.Popen(words, stdin=subprocess.PIPE, stdout=subprocess.PIPE)
    ran.stdin.write(capture[:len(capture) // 2])
    ran.stdin.flush()
    time.sleep(0.5)
    ran.send_signal(signal.SIGINT)
    told, _ = ran.communicate(capture[len(capture) // 2:])
    wanted = subprocess.run([program, "--summary"], input=capture, capture_output=True).stdout
    if told != wanted:
        print(f"--summary behind an interrupt: {told}, not {wanted}")
    return told == wanted


def ends_with_its_writer(program):
    """Whether each view that is printed at the end is printed where an interrupt ends the program that writes into the pipe."""
    path, is_right = f"{ROOT}/examples/usrsctp-partial.log", True
    for view in ("--summary", "--messages", "--acks", "--channels", "--flow", "--svg -"):
        # a command that a shell runs beside others, as tools/c_tests.sh runs this one, ignores interrupts: the writer does not
        writer = subprocess.Popen(
            ["sh", "-c", 'cat "$0"; kill -INT $$; sleep 60', path],
            stdout=subprocess.PIPE,
            preexec_fn=lambda: signal.signal(signal.SIGINT, signal.SIG_DFL),
        )
        told = subprocess.run([program, *view.split()], stdin=writer.stdout, capture_output=True).stdout
        writer.stdout.close()
        is_right = writer.wait() == -signal.SIGINT and is_right
        wanted = subprocess.run([program, *view.split(), path], capture_output=True).stdout
        if told != wanted:
            print(f"{view} behind an interrupt of its writer: {told}, not {wanted}")
            is_right = False
    return is_right


def tells_cut_headers(program):
    """Whether a capture that ends within its header of 24 bytes is called one, in either byte order, with micro- or nanoseconds."""
    wanted = "sctpdump: standard input: a pcap capture that ends within its header\n"
    is_right = True
    for order in "<>":
        for magic in (0xA1B2C3D4, 0xA1B23C4D):
            head = struct.pack(order + "IHHiIII", magic, 2, 4, 0, 0, 262144, ETHERNET)
            for size in range(4, 24):
                ran = subprocess.run([program], input=head[:size], capture_output=True)
                if (ran.stdout, ran.stderr.decode(), ran.returncode) != (b"", wanted, 1):
                    print(f"{size} bytes of a capture's header: {ran.stdout}{ran.stderr}, status {ran.returncode}")
                    is_right = False
    return is_right


def tells_version(program):
    """Whether `--version` says the version of include/sctpr.h."""
    with open(f"{ROOT}/include/sctpr.h", encoding="utf-8") as header:
        numbers = re.findall(r"^#define SCTPR_VERSION_[A-Z]* ([0-9]+)$", header.read(), re.M)
    told = subprocess.run([program, "--version"], capture_output=True, text=True).stdout
    if told != f"sctpdump {'.'.join(numbers)}\n":
        print(f"--version says {told!r}, and include/sctpr.h {numbers}")
        return False
    return True


def write_datagrams(path, datagrams):
    """Writes a capture of datagrams, a millisecond after each other."""
    with open(path, "wb") as out:
        out.write(struct.pack("<IHHiIII", 0xA1B2C3D4, 2, 4, 0, 0, 262144, RAW))
        for at, datagram in enumerate(datagrams):
            frame = ipv4(datagram)
            out.write(struct.pack("<IIII", at // 1000, at % 1000 * 1000, len(frame), len(frame)) + frame)


def blocks_of(capture):
    """Returns type and body of each block of a capture in the newer format, whose numbers have their lowest byte first (draft-ietf-opsawg-pcapng 3.1)."""
    found, at = [], 0
    while at < len(capture):
        typ, length = struct.unpack_from("<II", capture, at)
        if length % 4 or length < 12 or struct.unpack_from("<I", capture, at + length - 4)[0] != length:
            return [*found, (typ, b"no block")]
        found.append((typ, capture[at + 8:at + length - 4]))
        at += length
    return found


def packets_of(capture):
    """Returns link type, nanoseconds, original length and bytes of each packet, where the blocks are a section, interfaces and enhanced packets."""
    blocks, link_types, found = blocks_of(capture), [], []
    if blocks[:1] != [(0x0A0D0D0A, struct.pack("<IHHq", 0x1A2B3C4D, 1, 0, -1))]:
        return blocks
    for typ, body in blocks[1:]:
        if typ == 1:
            link_type, _, limit = struct.unpack_from("<HHI", body)
            link_types.append(link_type)
            if limit or body[8:] != struct.pack("<HHB3xHH", 9, 1, 9, 0, 0):
                return body
        elif typ == 6:
            interface, high, low, kept, whole = struct.unpack_from("<IIIII", body)
            found.append((link_types[interface], high << 32 | low, whole, body[20:20 + kept]))
            if any(body[20 + kept:]) or len(body) - 20 - kept > 3:
                return body
        else:
            return typ
    return found


# Link type, seconds, nanoseconds, how many bytes were lost, and the frame, of records that are written as one capture: two of them have no SCTP.
KEPT = [
    (ETHERNET, 1_700_000_000, 123_456_789, 0, ethernet(0x0800, V4)),
    (ETHERNET, 1_700_000_001, 5, 0, ethernet(0x0806, bytes(46))),
    (RAW, 4_294_967_295, 999_999_999, 4, ipv4(DATAGRAM)[:-4]),
    (ETHERNET, 0, 1, 0, ethernet(0x86DD, V6)),
    (ETHERNET, 7, 0, 0, b""),
    (EXPORTED, 1_700_000_002, 0, 0, exported([NAME])),
]


def write_captures(room):
    """Writes each of KEPT as a capture with nanoseconds, and a line of hex text; returns their paths."""
    paths = []
    for at, (link_type, seconds, part, lost, frame) in enumerate(KEPT):
        paths.append(f"{room}/{at}.pcap")
        with open(paths[-1], "wb") as out:
            out.write(struct.pack(">IHHiIII", 0xA1B23C4D, 2, 4, 0, 0, 262144, link_type))
            out.write(struct.pack(">IIII", seconds, part, len(frame), len(frame) + lost) + frame)
    paths.append(f"{room}/line.hex")
    with open(paths[-1], "w", encoding="ascii") as out:
        out.write(DATAGRAM.hex() + "\n")
    return paths


def told_by_tshark(path):
    """Returns time, original length and captured length of each packet, and whether it finds SCTP."""
    fields = ["frame.time_epoch", "frame.len", "frame.cap_len", "sctp.srcport"]
    ran = subprocess.run(["tshark", "-r", path, "-T", "fields", *(it for field in fields for it in ("-e", field))], capture_output=True, text=True)
    return [line.split("\t") for line in ran.stdout.splitlines()]


def save_tests(program, has_tshark):
    """Returns how many captures are written with what their inputs have, and are read again, and how many are not."""
    wanted = [(kind, s * 10**9 + part, len(frame) + lost, frame) for kind, s, part, lost, frame in KEPT if frame and frame[12:14] != b"\x08\x06"]
    wanted.append((248, 0, len(DATAGRAM), DATAGRAM))
    counts = [0, 0]
    with tempfile.TemporaryDirectory() as room:
        saved, again = f"{room}/saved.pcapng", f"{room}/again.pcapng"
        subprocess.run([program, "-w", saved, *write_captures(room)], check=True)
        with open(again, "wb") as out:
            subprocess.run([program, "-w", "-", saved], stdout=out, check=True)
        for path in (saved, again):
            with open(path, "rb") as capture:
                told = packets_of(capture.read())
            if told != wanted:
                print(f"-w: {told}, not {wanted}")
            counts[told != wanted] += 1
        if has_tshark:
            theirs = [[f"{ns // 10**9}.{ns % 10**9:09}", str(whole), str(len(frame)), "5000"] for _, ns, whole, frame in wanted]
            told = told_by_tshark(saved)
            if told != theirs:
                print(f"-w: tshark says {told}, not {theirs}")
            counts[told != theirs] += 1
    return counts


# Every view of packets, each with its words.
VIEWS = ([], ["-V"], ["--columns"], ["--json"], ["--relative"], ["--summary"], ["--flow"], ["--messages"], ["--acks"], ["--channels"], ["--svg", "-"], ["-w", "-"])

# Captures that are cut between two records: text with a datagram on a line, and a classic capture.
SPLIT = ("aiortc-channels.hex", "aiortc-partial.hex", "usrsctp-partial.log", "loss.log", "interleaved.hex", "reopened.hex", "merged.hex", "frames.pcap")


def halves(content, is_text):
    """Returns two captures of which one has the first half of the records, and the other one the rest."""
    if is_text:
        lines = content.splitlines(keepends=True)
        return b"".join(lines[:len(lines) // 2]), b"".join(lines[len(lines) // 2:])
    order = "<" if content[:1] in (b"\xd4", b"\x4d") else ">"
    head, starts, at = content[:24], [], 24
    while at + 16 <= len(content):
        starts.append(at)
        at += 16 + struct.unpack_from(order + "I", content, at + 8)[0]
    middle = starts[len(starts) // 2]
    return content[:middle], head + content[middle:]


def seam_tests(program):
    """Returns how many captures print the same in each view where they are given as two files, and how many do not."""
    counts = [0, 0]
    with tempfile.TemporaryDirectory() as room:
        for name in SPLIT:
            path = next(it for it in (f"{ROOT}/{folder}/{name}" for folder in ("crates/sctpdump/data", "examples")) if os.path.isfile(it))
            with open(path, "rb") as capture:
                parts = halves(capture.read(), not name.endswith(".pcap"))
            for at, part in enumerate(parts):
                with open(f"{room}/{at}", "wb") as out:
                    out.write(part)
            for view in VIEWS:
                whole, seam = (subprocess.run([program, *view, *files], capture_output=True).stdout for files in ([path], [f"{room}/0", f"{room}/1"]))
                if whole != seam:
                    print(f"{name}: {' '.join(view)} prints another text of its halves")
                counts[whole != seam] += 1
    return counts


def bound_tests(program):
    """Returns how many views of large captures keep their bounds, and how many do not: 300,000 associations take each view four seconds of processor
    time at most, and a picture of 300 SACKs with 16,000 gap ack blocks each has 5 MB at most."""
    counts = [0, 0]
    blocks = b"".join(struct.pack(">HH", 2 + 4 * at, 3 + 4 * at) for at in range(16_000))
    sack = struct.pack(">BBHIIHH", 3, 0, 16 + len(blocks), 0, 65536, 16_000, 0) + blocks
    cookie_ack = bytes.fromhex("0b000004")
    with tempfile.TemporaryDirectory() as room:
        many, sacks = f"{room}/many.pcap", f"{room}/sacks.pcap"
        write_datagrams(many, (struct.pack(">HHII", 5000 + at % 7, 5001, at * 14_321 % 2**32, 0) + cookie_ack for at in range(300_000)))
        write_datagrams(sacks, (struct.pack(">HHII", 5001, 5000, 7, 0) + sack for _ in range(300)))
        for view in (["--summary"], ["--messages"], ["--acks"], ["--channels"], ["--color", "always", "-f", "tag=1"]):
            before = os.times().children_user
            subprocess.run([program, "--no-checksum", *view, many], stdout=subprocess.DEVNULL, check=True)
            spent = os.times().children_user - before
            if spent > 4:
                print(f"{' '.join(view)}: {spent:.1f} s for 300,000 associations")
            counts[spent > 4] += 1
        drawn = len(subprocess.run([program, "--svg", "-", sacks], capture_output=True, check=True).stdout)
        if drawn > 5_000_000:
            print(f"--svg: {drawn} bytes")
        counts[drawn > 5_000_000] += 1
    return counts


def main(words):
    if words == ["--help"]:
        sys.exit(__doc__)
    has_tshark = "--tshark" in words
    words = [word for word in words if word != "--tshark"]
    program = os.path.abspath(words[0] if words else f"{ROOT}/crates/sctpdump/out/sctpdump")
    runs = run_tests(program, f"{ROOT}/dump_tests/runs.txt")
    passed, failed = (sum(counts) for counts in zip(frame_tests(program, has_tshark), runs, save_tests(program, has_tshark), json_tests(program), seam_tests(program), bound_tests(program)))
    for is_right in (tells_version(program), tells_cut_headers(program), ends_uninterrupted(program), ends_with_its_writer(program)):
        passed += is_right
        failed += not is_right
    print(f"{passed} passed, {failed} failed")
    return 1 if failed else 0


if __name__ == "__main__":
    sys.exit(main(sys.argv[1:]))
