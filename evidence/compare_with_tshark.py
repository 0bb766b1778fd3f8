#!/usr/bin/env python3
"""Compares what sctpdump says of captures with what tshark says, field by field.

    python3 evidence/compare_with_tshark.py [--program PROGRAM] CAPTURE..

A CAPTURE is a file that both read, or, where its name ends in .hex, lines of hex text, which are wrapped into a capture of link type 248 first.
PROGRAM is crates/sctpdump/out/sctpdump unless told otherwise (`rt run` in crates/sctpdump makes it). tshark is found on the PATH. Prints a line for
each packet whose fields differ, with both values, and one line for each capture; the exit status is 0 where nothing differs. docs/EVIDENCE.md says
which fields are compared, and which differences are known.
"""
import json
import os
import struct
import subprocess
import sys
import tempfile

# name, tshark's fields, how each value is read
NUMBERS = {
    "source_port": ["sctp.srcport"], "destination_port": ["sctp.dstport"], "tag": ["sctp.verification_tag"],
    "checksum": ["sctp.checksum"],
    "types": ["sctp.chunk_type"], "flags": ["sctp.chunk_flags"], "lengths": ["sctp.chunk_length"],
    "tsn": ["sctp.data_tsn_raw"], "stream": ["sctp.data_sid"], "ssn": ["sctp.data_ssn"], "mid": ["sctp.data_mid"], "ppid": ["sctp.data_payload_proto_id"],
    "cumulative": ["sctp.sack_cumulative_tsn_ack_raw"], "credit": ["sctp.sack_a_rwnd"],
    "gap_starts": ["sctp.sack_gap_block_start"], "gap_ends": ["sctp.sack_gap_block_end"], "duplicates": ["sctp.sack_duplicate_tsn"],
    "initiate_tag": ["sctp.init_initiate_tag", "sctp.initack_initiate_tag"], "init_credit": ["sctp.init_credit", "sctp.initack_credit"],
    "outbound_streams": ["sctp.init_nr_out_streams", "sctp.initack_nr_out_streams"],
    "inbound_streams": ["sctp.init_nr_in_streams", "sctp.initack_nr_in_streams"],
    "initial_tsn": ["sctp.init_initial_tsn", "sctp.initack_initial_tsn"],
    "parameters": ["sctp.parameter_type"], "causes": ["sctp.cause_code"],
    "shutdown": ["sctp.shutdown_cumulative_tsn_ack"],
    "forward_tsn": ["sctp.forward_tsn_tsn", "sctp.i_forward_tsn_tsn"],
    "forward_streams": ["sctp.forward_tsn_sid", "sctp.i_forward_tsn_sid"],
    "forward_ssns": ["sctp.forward_tsn_ssn"], "forward_mids": ["sctp.forward_tsn_mid"], "forward_flags": ["sctp.i_forward_tsn_flags"],
    "request": ["sctp.parameter_reconfig_request_sequence_number"], "response": ["sctp.parameter_reconfig_response_sequence_number"],
    "last_tsn": ["sctp.parameter_senders_last_assigned_tsn"], "result": ["sctp.parameter_reconfig_response_result"],
    "sender_next_tsn": ["sctp.parameter_senders_next_tsn"], "receiver_next_tsn": ["sctp.parameter_receivers_next_tsn"],
    "reset_streams": ["sctp.parameter_reconfig_sid"],
    "new_streams": ["sctp.parameter_add_outgoing_streams_number", "sctp.parameter_add_incoming_streams_number"],
    "increment": ["sctp.parameter_cookie_preservative_incr"], "correlation": ["sctp.correlation_id"], "hmacs": ["sctp.hmac_id"],
    "address_types": ["sctp.parameter_supported_address_type"],
    "extensions": ["sctp.supported_chunk_type"], "chunk_list": ["sctp.chunk_type_to_auth"],
    "serial": ["sctp.asconf_seq_nr_number", "sctp.asconf_ack_seq_nr_number"], "lowest_tsn": ["sctp.ecne_lowest_tsn", "sctp.cwr_lowest_tsn"],
    "cause_stream": ["sctp.cause_stream_identifier"], "missing_parameters": ["sctp.cause_missing_parameter_type"],
    "staleness": ["sctp.cause_measure_of_staleness"], "cause_tsn": ["sctp.cause_tsn"],
    "nr_cumulative": ["sctp.nr_sack_cumulative_tsn_ack"], "nr_credit": ["sctp.nr_sack_a_rwnd"],
    "nr_gap_starts": ["sctp.nr_sack_gap_block_start"], "nr_gap_ends": ["sctp.nr_sack_gap_block_end"],
    "nr_kept_starts": ["sctp.nr_sack_nr_gap_block_start"], "nr_kept_ends": ["sctp.nr_sack_nr_gap_block_end"],
    "nr_duplicates": ["sctp.nr_sack_duplicate_tsn"],
    "bandwidth": ["sctp.pktdrop_bandwidth"], "queued": ["sctp.pktdrop_queuesize"], "truncated": ["sctp.pktdrop_truncated_length"],
}
TEXTS = {
    "source": ["ip.src", "ipv6.src"], "destination": ["ip.dst", "ipv6.dst"], "cookie": ["sctp.cookie"],
    "address4": ["sctp.parameter_ipv4_address"], "address6": ["sctp.parameter_ipv6_address"],
}

# The numbers of what sctpdump calls by a name: results of RFC 6525 4.4, HMACs of RFC 4895 8, types of chunks and of parameters.
RESULTS = ["Success - Nothing to do", "Success - Performed", "Denied", "Error - Wrong SSN", "Error - Request already in progress", "Error - Bad Sequence Number",
           "In progress"]
HMACS = {"SHA-1": 1, "SHA-256": 3}
CHUNKS = {"DATA": 0, "INIT": 1, "INIT-ACK": 2, "SACK": 3, "HEARTBEAT": 4, "HEARTBEAT-ACK": 5, "ABORT": 6, "SHUTDOWN": 7, "SHUTDOWN-ACK": 8, "ERROR": 9,
          "COOKIE-ECHO": 10, "COOKIE-ACK": 11, "ECNE": 12, "CWR": 13, "SHUTDOWN-COMPLETE": 14, "AUTH": 15, "NR-SACK": 16, "I-DATA": 64, "ASCONF-ACK": 128,
          "PKTDROP": 129, "RE-CONFIG": 130, "PAD": 132, "FORWARD-TSN": 192, "ASCONF": 193, "I-FORWARD-TSN": 194}
PARAMETERS = {"IPv4 Address": 5, "IPv6 Address": 6, "State Cookie": 7, "Unrecognized Parameter": 8, "Cookie Preservative": 9, "Host Name Address": 11}


def of_tshark(capture):
    """Returns a dictionary of fields for each frame."""
    fields = ["frame.number"] + [f for fs in list(NUMBERS.values()) + list(TEXTS.values()) for f in fs]
    words = ["tshark", "-r", capture, "-o", "sctp.checksum:CRC 32c", "-o", "sctp.relative_tsns:FALSE", "-d", "udp.port==9899,sctp", "-d", "udp.port==9900,sctp",
             "-T", "fields", "-E", "separator=|", "-E", "aggregator=,"] + [w for f in fields for w in ("-e", f)]
    lines = subprocess.run(words, capture_output=True, text=True).stdout.splitlines()
    found = []
    for line in lines:
        values = dict(zip(fields, line.split("|")))
        one = {}
        for name, names in NUMBERS.items():
            one[name] = [int(v, 0) for f in names for v in values[f].split(",") if v]
        for name, names in TEXTS.items():
            one[name] = [v.replace(":", "") if name == "cookie" else v for f in names for v in values[f].split(",") if v]
        found.append(one)
    return found


def of_sctpdump(program, capture):
    """Returns the same of what sctpdump says, or None for a record with no packet to show."""
    ran = subprocess.run([program, "--json", "--port", "9899", capture], capture_output=True, text=True)
    # 1: a record could not be read, which its line says
    if ran.returncode not in (0, 1):
        sys.exit(ran.stderr)
    return [json.loads(line) for line in ran.stdout.splitlines()][:-1]


def listed(words, names):
    """Returns the numbers of a list of names, of which those that have none are `type-` and the number, or the number."""
    return [names[word] if word in names else int(word.removeprefix("type-")) for word in words.split(", ") if word]


def add_parameters(one, parameters):
    """Adds the fields of parameters, those that stand within others, too."""
    for p in parameters:
        one["parameters"].append(p["type"])
        for name in ("request", "response", "last_tsn", "sender_next_tsn", "receiver_next_tsn", "new_streams", "increment", "correlation"):
            one[name] += [p[name]] if name in p else []
        one["result"] += [RESULTS.index(p["result"])] if "result" in p else []
        one["reset_streams"] += [int(s) for s in p.get("streams", "all").split(", ") if s != "all"]
        for name, names in (("hmacs", HMACS), ("address_types", PARAMETERS)):
            one[name] += listed(p.get(name, ""), names)
        one["extensions" if p["type"] == 0x8008 else "chunk_list"] += listed(p.get("chunk_types", ""), CHUNKS)
        # tshark shows the parameter within one that has an address
        inner = {8: 5, 20: 6}.get(len(p["value"]) // 2 - 4) if p["type"] in (0xC001, 0xC002, 0xC004) and "address" in p else None
        one["parameters"] += [inner] if inner else []
        if "address" in p:
            one["address4" if "." in p["address"] else "address6"].append(p["address"])


def add_cause(one, cause):
    """Adds the fields of a cause."""
    one["causes"].append(cause["code"])
    value = bytes.fromhex(cause["value"])
    if cause["code"] == 6 and len(value) >= 4:
        # tshark shows the chunk that was not recognized
        for name, number in zip(("types", "flags", "lengths"), struct.unpack_from(">BBH", value)):
            one[name].append(number)
    for name, key in (("cause_stream", "stream"), ("staleness", "staleness"), ("cause_tsn", "tsn"), ("hmacs", "hmac")):
        one[name] += [cause[key]] if key in cause else []
    one["missing_parameters"] += listed(cause.get("missing_parameters", ""), PARAMETERS)
    add_parameters(one, cause.get("parameters", []))


def add_nr_sack(one, c):
    """Adds the fields of an NR-SACK."""
    one["nr_cumulative"].append(c["cumulative"])
    one["nr_credit"].append(c["credit"])
    for name, key in (("nr_gap", "gaps"), ("nr_kept", "nr_gaps")):
        one[name + "_starts"] += [g["start"] for g in c[key]]
        one[name + "_ends"] += [g["end"] for g in c[key]]
    one["nr_duplicates"] += [d["tsn"] for d in c["duplicates"]]


def fields_of(record):
    """Returns the fields of a record of sctpdump under the names above."""
    one = {name: [] for name in list(NUMBERS) + list(TEXTS)}
    for name in ("source_port", "destination_port", "tag", "source", "destination"):
        if name in record:
            one[name] = [record[name]]
    one["checksum"] = [struct.unpack(">I", struct.pack("<I", record["checksum"]))[0]] if "checksum" in record else []
    for c in record.get("chunks", []):
        one["types"].append(c["type"])
        one["flags"].append(c["flags"])
        one["lengths"].append(c["length"])
        if c["type"] in (0, 64) and "tsn" in c:
            one["tsn"].append(c["tsn"])
            one["stream"].append(c["stream"])
        if c["type"] == 0 and "tsn" in c:
            one["ssn"].append(c["ssn"])
            one["ppid"].append(c["ppid"])
        if c["type"] == 64 and "tsn" in c:
            one["mid"].append(c["mid"])
            if c["flags"] & 2:
                one["ppid"].append(c["ppid_or_fsn"])
        if c["type"] == 3 and "cumulative" in c:
            one["cumulative"].append(c["cumulative"])
            one["credit"].append(c["credit"])
            one["gap_starts"] += [g["start"] for g in c["gaps"]]
            one["gap_ends"] += [g["end"] for g in c["gaps"]]
            one["duplicates"] += [d["tsn"] for d in c["duplicates"]]
        if c["type"] in (1, 2) and "initiate_tag" in c:
            one["init_credit"].append(c["credit"])
            for name in ("initiate_tag", "outbound_streams", "inbound_streams", "initial_tsn"):
                one[name].append(c[name])
        add_parameters(one, c.get("parameters", []))
        for cause in c.get("causes", []):
            add_cause(one, cause)
        if c["type"] == 16 and "cumulative" in c:
            add_nr_sack(one, c)
        for name in ("serial", "lowest_tsn", "bandwidth", "queued", "truncated"):
            one[name] += [c[name]] if name in c else []
        if c["type"] == 15 and "hmac" in c:
            one["hmacs"].append(c["hmac"])
        if c["type"] == 7 and "cumulative" in c:
            one["shutdown"].append(c["cumulative"])
        if c["type"] in (192, 194) and "new_cumulative" in c:
            one["forward_tsn"].append(c["new_cumulative"])
            for s in c["streams"]:
                one["forward_streams"].append(s["stream"])
                if c["type"] == 192:
                    one["forward_ssns"].append(s["ssn"])
                else:
                    one["forward_mids"].append(s["mid"])
                    one["forward_flags"].append(s["flags"])
        if "cookie" in c:
            one["cookie"].append(c["cookie"])
    return one


def wrapped(path):
    """Writes the hex lines of a file as a capture of link type 248, and returns its name."""
    out = tempfile.NamedTemporaryFile(suffix=".pcap", delete=False)
    out.write(struct.pack("<IHHiIII", 0xA1B2C3D4, 2, 4, 0, 0, 1 << 18, 248))
    with open(path, encoding="ascii") as lines:
        for data in filter(None, (bytes.fromhex(line.split("#")[0]) for line in lines)):
            out.write(struct.pack("<IIII", 0, 0, len(data), len(data)) + data)
    out.close()
    return out.name


def compare(program, path):
    """Prints what differs in a capture; returns how many packets are the same, and how many differ."""
    capture = wrapped(path) if path.endswith(".hex") else path
    ours, theirs = of_sctpdump(program, capture), of_tshark(capture)
    same = other = without = 0
    if len(ours) != len(theirs):
        print(f"{path}: {len(ours)} records, {len(theirs)} frames")
        other += abs(len(ours) - len(theirs))
    for record, frame in zip(ours, theirs):
        if "not_shown" in record and not frame["types"]:
            without += 1
            continue
        fields = fields_of(record)
        differ = [n for n in fields if fields[n] != frame[n] and not (n in TEXTS and n != "cookie" and not fields[n])]
        if differ:
            other += 1
            print(f"{path} {record['record']}: " + "; ".join(f"{n}: {fields[n]}, tshark {frame[n]}" for n in differ))
        else:
            same += 1
    if capture != path:
        os.unlink(capture)
    print(f"{path}: {same} the same, {other} differ" + (f", {without} no SCTP in either" if without else ""))
    return same, other


def main(words):
    program = "crates/sctpdump/out/sctpdump"
    if words[:1] == ["--program"]:
        program, words = words[1], words[2:]
    if not words or words == ["--help"]:
        sys.exit(__doc__)
    found = [compare(program, path) for path in words]
    print(f"all: {sum(f[0] for f in found)} the same, {sum(f[1] for f in found)} differ")
    sys.exit(1 if any(f[1] for f in found) else 0)


main(sys.argv[1:])
