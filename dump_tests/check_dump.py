#!/usr/bin/env python3
"""Reads what `sctpdump --json` prints with a reader of JSON that is not ours, and reckons it again.

    python3 dump_tests/check_dump.py [--program PROGRAM] CAPTURE..

PROGRAM is crates/sctpdump/out/sctpdump unless told otherwise (`rt run` in crates/sctpdump makes it). Each line has to be JSON, as docs/sctpdump.schema.json has it. Where the capture is
lines of hex text, each datagram is put together again from its members, and has to be the one of the capture. What `--summary` says of packets,
bytes, their kinds and chunks in all, and for each tag of DATA, I-DATA, SACK and FORWARD-TSN, has to be what the records have; associations are taken not to share
a tag. What `--messages` prints of associations whose INIT was captured has to be each message of which every fragment was, put together by TSNs
alone, but for those that a FORWARD-TSN or a reset stream cut off; and those of a stream in the order of their TSNs. Prints a line for each capture, and one for each fault; the exit status is 0 where there is none.
"""
import json
import os
import re
import subprocess
import sys
from collections import Counter, defaultdict

FACTS = (
    "data_chunks", "data_bytes", "first_tsn", "last_tsn", "missing_tsns", "repeated_tsns", "streams", "gap_blocks", "duplicates", "skipped_to"
)


def schema():
    """Returns what docs/sctpdump.schema.json says of a line."""
    with open(f"{os.path.dirname(os.path.dirname(os.path.abspath(__file__)))}/docs/sctpdump.schema.json", encoding="utf-8") as text:
        return json.load(text)


KINDS = {"object": dict, "array": list, "string": str, "boolean": bool, "integer": int}


def unfit(value, wanted, whole, at="line"):
    """Returns where a value is not what a JSON Schema wants, of the words that ours has, or None."""
    if "$ref" in wanted:
        return unfit(value, whole["$defs"][wanted["$ref"].split("/")[-1]], whole, at)
    if "oneOf" in wanted:
        fits = [unfit(value, one, whole, at) for one in wanted["oneOf"]].count(None)
        return None if fits == 1 else f"{at} is of {fits} forms"
    if "enum" in wanted:
        return None if value in wanted["enum"] else f"{at} is {value!r}"
    if not isinstance(value, KINDS[wanted["type"]]) or (wanted["type"] == "integer" and isinstance(value, bool)):
        return f"{at} is no {wanted['type']}"
    if wanted["type"] == "integer" and not wanted.get("minimum", value) <= value <= wanted.get("maximum", value):
        return f"{at} is {value}"
    if wanted["type"] == "string" and not re.search(wanted.get("pattern", ""), value):
        return f"{at} is {value!r}"
    if wanted["type"] == "array":
        return next(filter(None, (unfit(it, wanted["items"], whole, f"{at}[{i}]") for i, it in enumerate(value))), None)
    return unfit_members(value, wanted, whole, at) if wanted["type"] == "object" else None


def unfit_members(value, wanted, whole, at):
    """The same of the members of an object."""
    for key in wanted.get("required", []):
        if key not in value:
            return f"{at} has no {key}"
    for key, it in value.items():
        member = wanted.get("properties", {}).get(key, wanted["additionalProperties"])
        found = f"{at} has {key}" if member is False else unfit(it, member, whole, f"{at}.{key}")
        if found:
            return found
    return None


def said(program, words, capture):
    """Returns the objects that the program prints, one a line."""
    ran = subprocess.run([program, "--json", *words, capture], capture_output=True, text=True)
    return [json.loads(line) for line in ran.stdout.splitlines()]


def datagrams(capture):
    """Returns the datagrams of lines of hex text, or None for another capture."""
    try:
        with open(capture, encoding="ascii") as lines:
            return [bytes.fromhex(text) for text in (line.split("#")[0] for line in lines) if text.strip()]
    except ValueError:
        return None


def datagram(record):
    """Returns the bytes that a record says."""
    if "source_port" not in record:
        return bytes.fromhex(record.get("rest", ""))
    head = record["source_port"].to_bytes(2, "big") + record["destination_port"].to_bytes(2, "big") + record["tag"].to_bytes(4, "big")
    head += record["checksum"].to_bytes(4, "little")
    return head + b"".join(bytes.fromhex(c["bytes"]) for c in record["chunks"]) + bytes.fromhex(record.get("rest", ""))


def number(raw, at, size):
    """Returns the number in these bytes of a chunk."""
    return int.from_bytes(raw[at:at + size], "big")


def data_of(raw):
    """Returns TSN, stream and length of the message of DATA or I-DATA, or None for another chunk."""
    head = {0: 16, 64: 20}.get(raw[0])
    if head is None or len(raw) < head:
        return None
    return number(raw, 4, 4), number(raw, 8, 2), max(0, number(raw, 2, 2) - head)


def data_facts(found):
    """Returns what is said of DATA and I-DATA: TSNs are taken not to lie 2^31 or more from the first one."""
    first = found[0][0]
    offsets = [(tsn - first + 2**31) % 2**32 - 2**31 for tsn, _, _ in found]
    distinct = set(offsets)
    streams = Counter(stream for _, stream, _ in found)
    return {
        "data_chunks": len(found), "data_bytes": sum(size for _, _, size in found),
        "first_tsn": (first + min(offsets)) % 2**32, "last_tsn": (first + max(offsets)) % 2**32,
        "missing_tsns": max(offsets) - min(offsets) + 1 - len(distinct), "repeated_tsns": len(found) - len(distinct),
        "streams": [{"stream": s, "chunks": n} for s, n in sorted(streams.items())],
    }


def facts(chunks):
    """Returns what is said of these chunks, which went one way."""
    data = [it for it in map(data_of, chunks) if it]
    sacks = [it for it in chunks if it[0] == 3]
    whole = [it for it in sacks if len(it) >= 16]
    skips = [number(it, 4, 4) for it in chunks if it[0] in (192, 194) and len(it) >= 8]
    told = data_facts(data) if data else {}
    if sacks:
        told |= {"gap_blocks": sum(number(it, 12, 2) for it in whole), "duplicates": sum(number(it, 14, 2) for it in whole)}
    return told | ({"skipped_to": skips[-1]} if skips else {})


def check_summary(capture, records, summary):
    """Returns the faults of a summary of these records."""
    ways = [way for one in summary[:-1] for way in (one["forth"], one["back"])]
    kept = [r for r in records if "tag" in r]
    kinds, by_tag = Counter(), defaultdict(list)
    for way in ways:
        kinds.update(way["chunks"])
    for record in kept:
        by_tag[record["tag"]] += [bytes.fromhex(c["bytes"]) for c in record["chunks"]]
    told = {way["tag"]: {k: way[k] for k in FACTS if k in way} for way in ways}
    want = {tag: facts(chunks) for tag, chunks in by_tag.items()}
    tests = {
        "chunks": (kinds, Counter(c["name"] for r in kept for c in r["chunks"])),
        "packets": (sum(way["packets"] for way in ways), len(kept)),
        "bytes": (sum(way["bytes"] for way in ways), sum(len(datagram(r)) + r.get("missing", 0) for r in kept)),
        "bytes by kind": ([sum(way["bytes_by_kind"].values()) for way in ways], [way["bytes"] for way in ways]),
        "bytes of user data": ([way["bytes_by_kind"]["first_sent"] + way["bytes_by_kind"]["sent_again"] for way in ways], [way.get("data_bytes", 0) for way in ways]),
        "bytes of control chunks": (sum(way["bytes_by_kind"]["control"] for way in ways), sum(c["length"] for r in kept for c in r["chunks"] if c["type"] not in (0, 64))),
        "packets of none": (summary[-1]["others"], len(records) - len(kept)),
        "facts": ({tag: it for tag, it in told.items() if it}, {tag: it for tag, it in want.items() if it}),
    }
    return [f"{capture}: {name}: {one} is not {other}" for name, (one, other) in tests.items() if one != other]


def whole_messages(chunks):
    """Returns the messages of DATA, each by TSNs, stream, whether unordered, payload type and bytes: runs of TSNs from B to E."""
    data = {}
    for raw in (it for it in chunks if it[0] == 0 and len(it) > 16):
        data.setdefault(number(raw, 4, 4), raw)
    found = []
    for first in (tsn for tsn, raw in data.items() if raw[1] & 2):
        run = [data[first]]
        while not run[-1][1] & 1 and (following := data.get((number(run[-1], 4, 4) + 1) % 2**32)) and not following[1] & 2:
            run.append(following)
        if run[-1][1] & 1:
            body = b"".join(raw[16:number(raw, 2, 2)] for raw in run)
            found.append((first, number(run[-1], 4, 4), number(run[0], 8, 2), bool(run[0][1] & 4), number(run[0], 12, 4), body.hex()))
    return found


def check_messages(capture, records, said):
    """Returns the faults of the messages that were read of these records."""
    by_tag = defaultdict(list)
    for record in (r for r in records if "tag" in r):
        by_tag[record["tag"]] += [bytes.fromhex(c["bytes"]) for c in record["chunks"]]
    sent = Counter(it for chunks in by_tag.values() for it in whole_messages(chunks))
    told = [m for m in said if "first_tsn" in m]
    read = Counter((m["first_tsn"], m["last_tsn"], m["stream"], m["unordered"], m["ppid"], m["data"]) for m in told)
    faults = [f"{capture}: message of TSN {it[0]} was not sent so, or is read twice" for it in read - sent]
    is_cut = any(it[0] in (130, 192) for chunks in by_tag.values() for it in chunks)
    faults += [f"{capture}: message of TSN {it[0]} is not read" for it in sent - read if not is_cut]
    last = {}
    for m in (m for m in told if not m["unordered"]):
        way = (m["association"], m["way"], m["stream"])
        if way in last and not 0 < (m["first_tsn"] - last[way]) % 2**32 < 2**31:
            faults.append(f"{capture}: message of TSN {m['first_tsn']} is out of order")
        last[way] = m["first_tsn"]
    return faults


def check(program, capture):
    """Returns the faults of a capture, and how many datagrams it has."""
    shown, summary, messages = (said(program, view, capture) for view in ([], ["--summary"], ["--messages"]))
    whole = schema()
    faults = [f"{capture}: {fault}" for fault in (unfit(line, whole, whole) for line in shown + summary + messages) if fault]
    records = [r for r in shown[:-1] if "not_shown" not in r]
    wanted = datagrams(capture)
    if wanted is not None:
        faults += [f"{capture}: datagram {n} is another one" for n, (r, w) in enumerate(zip(records, wanted), 1) if datagram(r) != w]
        if len(records) != len(wanted):
            faults.append(f"{capture}: {len(records)} datagrams of {len(wanted)}")
    faults += check_summary(capture, records, summary)
    return faults + check_messages(capture, records, messages), len(records)


def main(words):
    program = "crates/sctpdump/out/sctpdump"
    if words[:1] == ["--program"]:
        program, words = words[1], words[2:]
    if not words or words == ["--help"]:
        sys.exit(__doc__)
    faults = []
    for capture in words:
        found, count = check(program, capture)
        print(f"{capture}: {count} datagrams, {len(found)} faults")
        faults += found
    for fault in faults:
        print(fault)
    return 1 if faults else 0


if __name__ == "__main__":
    sys.exit(main(sys.argv[1:]))
