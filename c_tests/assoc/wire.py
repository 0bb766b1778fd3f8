"""SCTP datagrams as text, and as bytes: RFC 9260 3, RFC 3758 3, RFC 6525 3 and 4, RFC 9653 4. Written from these alone.

A datagram is `tag=N CHUNK FIELD=VALUE .. | CHUNK ..`, with `src=`, `dst=` and `sum=zero|bad` before the first chunk where they are not usual.
With `pad=HH` padding has bytes HH in place of 0, and that of a last parameter or cause is not counted in the length of its chunk (RFC 9260 3.2).
Bytes are hex text, or `*N` for N bytes counted up from 0.
"""
import struct

NAMES = {0: "DATA", 1: "INIT", 2: "INIT-ACK", 3: "SACK", 4: "HEARTBEAT", 5: "HEARTBEAT-ACK", 6: "ABORT", 7: "SHUTDOWN", 8: "SHUTDOWN-ACK", 9: "ERROR",
         10: "COOKIE-ECHO", 11: "COOKIE-ACK", 14: "SHUTDOWN-COMPLETE", 130: "RE-CONFIG", 192: "FORWARD-TSN"}
TYPES = {name: typ for typ, name in NAMES.items()}

# Chunks whose value is a list of parameters or causes.
LISTS = ("INIT", "INIT-ACK", "HEARTBEAT", "HEARTBEAT-ACK", "ABORT", "ERROR", "RE-CONFIG")

# Parameters of INIT and INIT ACK.
COOKIE, EXTENSIONS, ZERO, FORWARD = 7, 0x8008, 0x8001, 0xC000


class Malformed(Exception):
    """A datagram breaks the grammar."""


def table():
    rows = []
    for byte in range(256):
        for _ in range(8):
            byte = byte >> 1 ^ (0x82F63B78 if byte & 1 else 0)
        rows.append(byte)
    return rows


ROWS = table()


def crc32c(data):
    """RFC 9260 appendix A."""
    crc = 0xFFFFFFFF
    for byte in data:
        crc = crc >> 8 ^ ROWS[(crc ^ byte) & 0xFF]
    return crc ^ 0xFFFFFFFF


def number(text):
    return int(text, 0)


def octets(text):
    if text.startswith("*"):
        return bytes(i & 255 for i in range(int(text[1:])))
    return b"" if text == "-" else bytes.fromhex(text)


def tlv(typ, value):
    """A parameter or an error cause: type, length, value, padding."""
    return struct.pack(">HH", typ, 4 + len(value)) + value + bytes(-len(value) % 4)


def padding_as(name, value, fill):
    """The value of a chunk of parameters or causes: their padding has these bytes, and that of the last one is left out."""
    value, at = bytearray(value), 16 if name in ("INIT", "INIT-ACK") else 0
    end = len(value)
    while at < len(value):
        end = at + struct.unpack_from(">H", value, at + 2)[0]
        at = end + -end % 4
        value[end:at] = fill * (at - end)
    return bytes(value[:end])


def split(text):
    """The fields of a chunk: a list, since one may stand there again."""
    return [tuple(word.split("=", 1)) if "=" in word else (word, "") for word in text.split()]


def value_of(name, fields):
    """The flags and the value of a chunk."""
    one = dict(fields)
    flags = one.get("flags", "")
    flag = 0
    if name == "DATA":
        flag = sum(bit for letter, bit in zip("EBUI", (1, 2, 4, 8)) if letter in flags)
        head = struct.pack(">IHHI", number(one["tsn"]), number(one.get("sid", "0")), number(one.get("ssn", "0")), number(one.get("ppi", "53")))
        return flag, head + octets(one.get("data", "-"))
    if name in ("ABORT", "SHUTDOWN-COMPLETE") and "T" in flags:
        flag = 1
    if name in ("INIT", "INIT-ACK"):
        value = struct.pack(">IIHHI", number(one["tag"]), number(one.get("rwnd", "100000")), number(one.get("os", "10")), number(one.get("is", "10")),
                            number(one["tsn"]))
        for key, text in fields:
            if key == "cookie":
                value += tlv(COOKIE, octets(text))
            elif key == "ext":
                value += tlv(EXTENSIONS, octets(text))
            elif key == "zero":
                value += tlv(ZERO, octets(text))
            elif key == "forward":
                value += tlv(FORWARD, b"")
            elif key == "param":
                typ, _, rest = text.partition(":")
                value += tlv(number(typ), octets(rest or "-"))
        return flag, value
    if name == "SACK":
        gaps = [pair.split("-") for pair in one.get("gaps", "").split(",") if pair]
        dups = [number(it) for it in one.get("dups", "").split(",") if it]
        value = struct.pack(">IIHH", number(one["cum"]), number(one.get("rwnd", "100000")), len(gaps), len(dups))
        value += b"".join(struct.pack(">HH", number(low), number(high)) for low, high in gaps)
        return flag, value + b"".join(struct.pack(">I", it) for it in dups)
    if name in ("HEARTBEAT", "HEARTBEAT-ACK"):
        return flag, tlv(1, octets(one["info"]))
    if name in ("ABORT", "ERROR"):
        value = b""
        for key, text in fields:
            if key == "cause":
                code, _, rest = text.partition(":")
                value += tlv(number(code), octets(rest or "-"))
        return flag, value
    if name == "SHUTDOWN":
        return flag, struct.pack(">I", number(one["cum"]))
    if name == "COOKIE-ECHO":
        return flag, octets(one["cookie"])
    if name == "RE-CONFIG":
        if "result" in one:
            return flag, tlv(16, struct.pack(">II", number(one["resp"]), number(one["result"])))
        if "last" in one:
            sids = [number(it) for it in one.get("sids", "").split(",") if it]
            head = struct.pack(">III", number(one["req"]), number(one.get("resp", "0")), number(one["last"]))
            return flag, tlv(13, head + b"".join(struct.pack(">H", sid) for sid in sids))
        sids = [number(it) for it in one.get("sids", "").split(",") if it]
        return flag, tlv(14, struct.pack(">I", number(one["req"])) + b"".join(struct.pack(">H", sid) for sid in sids))
    if name == "FORWARD-TSN":
        names = [pair.split(":") for pair in one.get("skips", "").split(",") if pair]
        return flag, struct.pack(">I", number(one["cum"])) + b"".join(struct.pack(">HH", number(sid), number(ssn)) for sid, ssn in names)
    if name.startswith("TYPE"):
        return number(one.get("flag", "0")), octets(one.get("data", "-"))
    return flag, b""


def chunk_bytes(text, fill=None):
    name, _, rest = text.strip().partition(" ")
    flag, value = value_of(name, split(rest))
    if fill and name in LISTS:
        value = padding_as(name, value, fill)
    typ = TYPES.get(name)
    if typ is None:
        typ = number(name[4:])
    return struct.pack(">BBH", typ, flag, 4 + len(value)) + value + (fill or b"\0") * (-len(value) % 4)


def sealed(head, body, kind=""):
    """A datagram of a header without checksum and of chunks."""
    total = crc32c(head + bytes(4) + body)
    if kind == "zero":
        total = 0
    elif kind == "bad":
        total ^= 1
    return head + struct.pack("<I", total) + body


def encode(text):
    """The bytes of a datagram."""
    words = text.split()
    head, at = {}, 0
    while at < len(words) and words[at].partition("=")[0] in ("src", "dst", "sum", "pad", "tag") and "=" in words[at]:
        key, _, value = words[at].partition("=")
        head[key] = value
        at += 1
    chunks = " ".join(words[at:])
    fill = octets(head["pad"]) if "pad" in head else None
    body = b"".join(chunk_bytes(part, fill) for part in chunks.split("|") if part.strip())
    first = struct.pack(">HHI", number(head.get("src", "5000")), number(head.get("dst", "5000")), number(head["tag"]))
    return sealed(first, body, head.get("sum", ""))


def tlvs(data):
    """Parameters or causes: (type, value). The padding of the last one is not in the length of its chunk, or is."""
    found, at = [], 0
    while at < len(data):
        if at + 4 > len(data):
            raise Malformed("parameter cut off")
        typ, length = struct.unpack_from(">HH", data, at)
        if length < 4 or at + length > len(data):
            raise Malformed("length of a parameter")
        found.append((typ, data[at + 4:at + length]))
        pad = data[at + length:at + length + -length % 4]
        if any(pad):
            raise Malformed("padding of a parameter")
        at += length + -length % 4
    return found


def fields_of(typ, flag, value):
    """The fields of a chunk, in their order."""
    if typ == 0:
        if len(value) < 13:
            raise Malformed("DATA without user data")
        tsn, sid, ssn, ppi = struct.unpack_from(">IHHI", value)
        letters = "".join(letter for letter, bit in zip("IUBE", (8, 4, 2, 1)) if flag & bit)
        return [("flags", letters), ("tsn", tsn), ("sid", sid), ("ssn", ssn), ("ppi", ppi), ("data", value[12:].hex()), ("len", len(value) - 12)]
    if typ in (1, 2):
        if len(value) < 16:
            raise Malformed("INIT cut off")
        found = list(zip(("tag", "rwnd", "os", "is", "tsn"), struct.unpack_from(">IIHHI", value)))
        names = {COOKIE: "cookie", EXTENSIONS: "ext", ZERO: "zero", FORWARD: "forward"}
        for kind, rest in tlvs(value[16:]):
            found.append((names[kind], rest.hex()) if kind in names else ("param", f"{kind}:{rest.hex()}"))
        return found
    if typ == 3:
        cum, rwnd, n_gaps, n_dups = struct.unpack_from(">IIHH", value)
        if len(value) != 12 + 4 * (n_gaps + n_dups):
            raise Malformed("counts of a SACK")
        gaps = [struct.unpack_from(">HH", value, 12 + 4 * i) for i in range(n_gaps)]
        last = 0
        for low, high in gaps:
            if not last + 1 < low <= high:
                raise Malformed("blocks of a SACK")
            last = high
        dups = [struct.unpack_from(">I", value, 12 + 4 * (n_gaps + i))[0] for i in range(n_dups)]
        return [("cum", cum), ("rwnd", rwnd), ("gaps", ",".join(f"{low}-{high}" for low, high in gaps)), ("dups", ",".join(str(it) for it in dups))]
    if typ in (4, 5):
        (kind, info), = tlvs(value)
        if kind != 1:
            raise Malformed("information of a HEARTBEAT")
        return [("info", info.hex())]
    if typ in (6, 9):
        found = [("cause", f"{code}:{rest.hex()}" if rest else str(code)) for code, rest in tlvs(value)]
        if typ == 9 and not found:
            raise Malformed("ERROR without a cause")
        return ([("flags", "T" if flag & 1 else "")] if typ == 6 else []) + found
    if typ == 7:
        return [("cum", struct.unpack(">I", value)[0])]
    if typ == 10:
        return [("cookie", value.hex())]
    if typ == 14:
        return [("flags", "T" if flag & 1 else "")]
    if typ == 130:
        return reconfig_fields(value)
    if typ == 192:
        if len(value) % 4:
            raise Malformed("length of a FORWARD-TSN")
        skips = [struct.unpack_from(">HH", value, at) for at in range(4, len(value), 4)]
        return [("cum", struct.unpack_from(">I", value)[0]), ("skips", ",".join(f"{sid}:{ssn}" for sid, ssn in skips))]
    if typ in (8, 11):
        if value:
            raise Malformed("bytes in an empty chunk")
        return []
    return [("data", value.hex())]


def reconfig_fields(value):
    found = []
    for kind, rest in tlvs(value):
        if kind == 13:
            found += list(zip(("req", "resp", "last"), struct.unpack_from(">III", rest)))
            found.append(("sids", ",".join(str(it[0]) for it in struct.iter_unpack(">H", rest[12:]))))
        elif kind == 16:
            found += list(zip(("resp", "result"), struct.unpack_from(">II", rest)))
        else:
            found.append(("param", f"{kind}:{rest.hex()}"))
    return found


def decode(data):
    """The header of a datagram, and its chunks: (name, fields)."""
    if len(data) < 12 or len(data) % 4:
        raise Malformed("length of the datagram")
    src, dst, tag, total = struct.unpack_from(">HHI4s", data)
    total = struct.unpack("<I", total)[0]
    right = crc32c(data[:8] + bytes(4) + data[12:])
    head = {"src": src, "dst": dst, "tag": tag, "sum": "good" if total == right else "zero" if total == 0 else "bad"}
    chunks, at = [], 12
    while at < len(data):
        typ, flag, length = struct.unpack_from(">BBH", data, at)
        if length < 4 or at + length > len(data):
            raise Malformed("length of a chunk")
        chunks.append((NAMES.get(typ, f"TYPE{typ}"), fields_of(typ, flag, data[at + 4:at + length])))
        pad = data[at + length:at + length + -length % 4]
        if any(pad) or len(pad) != -length % 4:
            raise Malformed("padding of a chunk")
        at += length + -length % 4
    if not chunks:
        raise Malformed("no chunk")
    names = [name for name, _ in chunks]
    # RFC 9260 4.3, 6.10: these stand alone.
    if len(names) > 1 and any(name in ("INIT", "INIT-ACK", "SHUTDOWN-COMPLETE") for name in names):
        raise Malformed("bundled with a chunk that stands alone")
    if ("INIT" in names) != (tag == 0):
        raise Malformed("tag 0")
    # RFC 9260 6.10: DATA behind the control chunks.
    if "DATA" in names and any(name != "DATA" for name in names[names.index("DATA"):]):
        raise Malformed("a control chunk behind DATA")
    return head, chunks


def shown(head, chunks):
    """A datagram as text."""
    first = "".join(f"{key}={head[key]} " for key, usual in (("src", 5000), ("dst", 5000), ("sum", "good")) if head[key] != usual)
    parts = []
    for name, fields in chunks:
        parts.append(" ".join([name] + [f"{key}={value}" for key, value in fields if value != "" or key == "forward"]))
    return f"{first}tag={head['tag']} " + " | ".join(parts)
