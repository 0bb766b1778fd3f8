#!/usr/bin/env python3
"""What bench prints, as docs/BENCHMARKS.md shows it.

    python3 evidence/bench_page.py --growth < GROWTH > docs/growth.svg      the picture: time of a call over what is held, both in powers of ten
    python3 evidence/bench_page.py --growth-table < GROWTH                  the same as a table
    python3 evidence/bench_page.py --times < TIMES                          the rows of times as a table
    python3 evidence/bench_page.py --exchange OURS RUST > docs/exchange.svg picture: instructions of a message over its size
    python3 evidence/bench_page.py --exchange-table OURS RUST               the same as a table
    python3 evidence/bench_page.py --goals OURS RUST                        the rows that have a goal, in instructions, beside it
    python3 evidence/bench_page.py --parts OURS RUST                        instructions of all other rows that both have

GROWTH is what `bench growth` prints, TIMES what `bench times` or `bench times --against FILE` does. A line of GROWTH has a call, its
nanoseconds at each size and the exponent, with tabs between them; the first line names the sizes. OURS and RUST are what
evidence/instructions.py prints of `bench`, and of the programs of evidence/rust_side.sh one after another.
"""
import math
import re
import sys

WIDTH, HEIGHT = 940, 520
LEFT, TOP, RIGHT, BOTTOM = 70, 40, 640, 470
LINE = 16
COLORS = {"Sender": "#1a7f37", "Receiver": "#d1242f", "": "#1f6feb"}
EXCHANGES = (
    ("100 bytes, ten a packet", 100, "exchange of 100 bytes, ten messages a packet"),
    ("100 bytes", 100, "exchange of 100 bytes, a message a packet"),
    ("1,200 bytes", 1200, "exchange of 1200 bytes, a message a packet"),
    ("16 KiB", 16_384, "exchange of 16384 bytes, steady"),
    ("64 KiB", 65_536, "64 KiB in packets"),
)
# a label, the row's name, where {} is the sum, and the greatest ratio wanted: under sum 0 and CRC-32C, or the one for a row without sums
GOALS = (
    ("100 bytes, a SACK each", "exchange of 100 bytes, a message a packet, {}", 0.5, 0.5),
    ("100 bytes, a caller with `?`", "exchange of 100 bytes, a message a packet, with ?, {}", 0.6, 0.6),
    ("1,200 bytes, a SACK each", "exchange of 1200 bytes, a message a packet, {}", 0.5, 0.6),
    ("1,200 bytes, a caller with `?`", "exchange of 1200 bytes, a message a packet, with ?, {}", None, None),
    ("100 bytes, ten a packet", "exchange of 100 bytes, ten messages a packet, {}", 0.5, 0.6),
    ("100 bytes, ten a packet, a caller with `?`", "exchange of 100 bytes, ten messages a packet, with ?, {}", None, None),
    ("16 KiB", "exchange of 16384 bytes, steady, {}", None, None),
    ("64 KiB", "exchange of 65536 bytes, steady, {}", 0.4, 0.6),
    ("64 KiB, by new hosts", "64 KiB in packets, {}", None, None),
    ("100 bytes, 1,000 pairs in turn", "exchange of 100 bytes, 1000 pairs in turn, {}", None, None),
    ("100 bytes, 10,000 pairs in turn", "exchange of 100 bytes, 10000 pairs in turn, {}", None, 0.6),
    ("`acked` of one chunk, 64 in flight", "Sender::acked over 64", 0.9),
    ("the same, 1,000 in flight", "Sender::acked over 1000", None),
    ("`sack` with nothing to tell", "Receiver::sack over 0", 1.2),
    ("`read` of a message of one chunk", "Receiver::read over 64", 0.9),
    ("`mark_as_acked`, 1,000 held", "mark_as_acked over 1000", 1),
    ("SACK of one block, written", "SACK of 1 blocks written", 0.8),
    ("gap ack blocks of 500 in runs of four", "gap ack blocks of 500 in runs of 4", 0.5),
    ("of 500 apart", "gap ack blocks of 500 in runs of 1", 0.4),
    ("`unmarshal` of a DATA chunk of 1,200 bytes, sum 0", "unmarshal", 0.6),
    ("`marshal_to` of it", "marshal_to", 0.7),
    ("ordered 64 KiB, 55 fragments in order", "ordered in order", 0.35),
)
BARS = (("here", "#1a7f37"), ("Rust crate", "url(#hatch)"), ("kept buffer", "#fff"), ("limit", "#222"))
UNITS = ((10**9, "s"), (10**6, "ms"), (10**3, "µs"), (1, "ns"))
ROW = re.compile(r"(?P<row>.*): (?P<nanos>\d+) ns a (?P<unit>\w+)(?:, other (?P<other>\d+) ns, ratio (?P<ratio>[\d.]+))?$")


def time_of(nanos):
    """Returns a time as text: two digits where it is not in nanoseconds."""
    size, name = next((it for it in UNITS if nanos >= it[0]), UNITS[-1])
    value = nanos / size
    if size > 1:
        digits = max(0, 1 - math.floor(math.log10(value)))
        value = round(value, 1 - math.floor(math.log10(value)))
        return f"{value:,.{digits}f} {name}"
    return f"{nanos} {name}"


def growth_in(lines):
    """Returns the sizes, and of each call its name, its times and its exponent."""
    heading, *rows = [line.rstrip("\n").split("\t") for line in lines if line.strip()]
    return [int(it) for it in heading[1:-1]], [(it[0].rstrip(","), [int(n) for n in it[1:-1]], it[-1]) for it in rows]


def spread(heights, most):
    """Returns heights in the same order, each at least a line below the one before, and the last at most there."""
    placed = []
    for height in heights:
        placed.append(max(height, placed[-1] + LINE) if placed else height)
    for place in range(len(placed) - 1, -1, -1):
        limit = most if place == len(placed) - 1 else placed[place + 1] - LINE
        placed[place] = min(placed[place], limit)
    return placed


def picture(sizes, calls):
    """Returns the picture of a growth."""
    times = [max(1, time) for _, row, _ in calls for time in row]
    low, high = math.floor(math.log10(min(times))), math.ceil(math.log10(max(times)))
    first, last = math.log10(sizes[0]), math.log10(sizes[-1])
    across = lambda size: LEFT + (RIGHT - LEFT) * (math.log10(size) - first) / (last - first)
    down = lambda time: BOTTOM - (BOTTOM - TOP) * (math.log10(max(1, time)) - low) / (high - low)
    out = [f'<svg xmlns="http://www.w3.org/2000/svg" viewBox="0 0 {WIDTH} {HEIGHT}">',
           "<style>text{font:13px sans-serif;fill:#222}.e{text-anchor:end}.m{text-anchor:middle}.g{stroke:#ddd}.t{stroke-width:.8;stroke:#999}"
           "polyline{fill:none;stroke-width:2}</style>",
           f'<rect width="{WIDTH}" height="{HEIGHT}" fill="#fff"/>',
           f'<text x="{LEFT}" y="{TOP - 18}">time of one call, over how much is held; behind each name its exponent from {sizes[-2]:,} to {sizes[-1]:,}</text>']
    for power in range(low, high + 1):
        y = down(10**power)
        out.append(f'<path class="g" d="M{LEFT} {y:.1f}H{RIGHT}"/><text class="e" x="{LEFT - 8}" y="{y + 4:.1f}">{time_of(10**power).replace(".0 ", " ")}</text>')
    for size in sizes:
        x = across(size)
        out.append(f'<path class="g" d="M{x:.1f} {TOP}V{BOTTOM}"/><text class="m" x="{x:.1f}" y="{BOTTOM + 20}">{size:,}</text>')
    calls = sorted(calls, key=lambda it: down(it[1][-1]))
    for (name, row, exponent), y in zip(calls, spread([down(it[1][-1]) for it in calls], BOTTOM)):
        owner = name.split("::")[0] if "::" in name else ""
        color = COLORS.get(owner, COLORS[""])
        points = " ".join(f"{across(size):.1f},{down(time):.1f}" for size, time in zip(sizes, row))
        out.append(f'<polyline stroke="{color}" points="{points}"/>')
        out.append(f'<path class="t" d="M{RIGHT + 3} {down(row[-1]):.1f}L{RIGHT + 18} {y:.1f}"/>')
        word = name if owner else f"PayloadQueue::{name}"
        out.append(f'<text x="{RIGHT + 22}" y="{y + 4:.1f}" style="fill:{color}">{word}: {exponent}</text>')
    return "\n".join([*out, "</svg>", ""])


def growth_table(sizes, calls):
    """Returns the table of a growth."""
    head = [f"| a call, while so many are held | {' | '.join(f'{size:,}' for size in sizes)} | exponent |", "|---|" + "---|" * (len(sizes) + 1)]
    rows = [f"| {name} | {' | '.join(map(time_of, row))} | {exponent} |" for name, row, exponent in calls]
    return "\n".join([*head, *rows, ""])


def times_table(lines):
    """Returns the table of times."""
    found = [it for it in (ROW.match(line.strip()) for line in lines) if it]
    out = ["| | this repository | Rust crate | ratio |", "|---|---|---|---|"]
    for it in found:
        other = time_of(int(it["other"])) if it["other"] else ""
        out.append(f"| {it['row'].rstrip(',')}, a {it['unit']} | {time_of(int(it['nanos']))} | {other} | {it['ratio'] or ''} |")
    return "\n".join([*out, ""])


def instructions_in(file):
    """Returns the instructions of each row of a file."""
    with open(file, encoding="utf-8") as it:
        return {row: int(count) for row, _, count in (line.rstrip("\n").rpartition("\t") for line in it)}


def exchanges_of(ours, rust, sum_name):
    """Returns for each size of messages what each of BARS takes, None where it was not measured."""
    limit = "two copies" if sum_name == "sum 0" else "two copies and CRC-32C by instruction"
    for name, length, row in EXCHANGES:
        counts = [ours.get(f"{row}, {sum_name}"), rust.get(f"{row}, {sum_name}"), rust.get(f"{row}, kept buffer, {sum_name}")]
        yield name, [*counts, rust.get(f"limit of {length} bytes, {limit}")]


def bars(title, left, width, rows):
    """Returns one half of the picture of exchanges: for each size a bar for each of BARS, as a part of what the Rust crate takes."""
    out, y = [f'<text x="{left}" y="24">{title}</text>'], 40
    for name, counts in rows:
        out.append(f'<text x="{left}" y="{y + 12}" class="b">{name}</text>')
        for (who, fill), count in zip(BARS, counts):
            if count:
                y += LINE + 1
                length = width * count / counts[1]
                out.append(f'<rect x="{left}" y="{y}" width="{length:.1f}" height="{LINE - 2}" fill="{fill}" stroke="#222"/>')
                out.append(f'<text x="{left + max(length, 0) + 5:.1f}" y="{y + 12}">{who}: {count:,}</text>')
        y += LINE + 12
    return out, y


def exchange_picture(ours, rust):
    """Returns the picture of exchanges."""
    left, low = bars("instructions of a message, sum 0", 10, 270, exchanges_of(ours, rust, "sum 0"))
    right, high = bars("instructions of a message, CRC-32C", 490, 270, exchanges_of(ours, rust, "CRC-32C"))
    out = [f'<svg xmlns="http://www.w3.org/2000/svg" viewBox="0 0 {WIDTH} {max(low, high)}">',
           "<style>text{font:13px sans-serif;fill:#222}.b{font-weight:bold}</style>",
           '<defs><pattern id="hatch" width="6" height="6" patternUnits="userSpaceOnUse" patternTransform="rotate(45)"><rect width="6" height="6" fill="#fff"/>'
           '<path d="M0 0V6" stroke="#555" stroke-width="3"/></pattern></defs>',
           f'<rect width="{WIDTH}" height="{max(low, high)}" fill="#fff"/>']
    return "\n".join([*out, *left, *right, "</svg>", ""])


def ratio_of(here, there):
    """Returns a ratio as text, none where one of both was not measured."""
    return f"{here / there:.2f}" if here and there else ""


def exchange_table(ours, rust):
    """Returns the table of exchanges, in instructions."""
    out = ["message | sum | here | Rust crate | ratio | with a kept buffer | ratio | limit", "---|---|---|---|---|---|---|---"]
    for sum_name in ("sum 0", "CRC-32C"):
        for name, (here, there, kept, limit) in exchanges_of(ours, rust, sum_name):
            cells = [name, sum_name, f"{here or 0:,}", f"{there or 0:,}", ratio_of(here, there), f"{kept or 0:,}", ratio_of(here, kept), f"{limit or 0:,}"]
            out.append(" | ".join(cells))
    return "\n".join([*out, ""])


def goals_table(ours, rust):
    """Returns the table of rows that have a goal, in instructions."""
    out = ["row | here | Rust crate | ratio | goal | met", "---|---|---|---|---|---"]
    for name, row, *goals in GOALS:
        for sum_name, goal in zip(("sum 0", "CRC-32C") if len(goals) > 1 else ("",), goals):
            here, there = ours[row.format(sum_name)], rust[row.format(sum_name)]
            met = "" if goal is None else "yes" if here <= goal * there else "no"
            label = f"{name}, {sum_name}" if sum_name else name
            out.append(f"{label} | {here:,} | {there:,} | {ratio_of(here, there)} | {goal or ''} | {met}")
    return "\n".join([*out, ""])


def parts_table(ours, rust):
    """Returns the table of the other rows that both have, in instructions."""
    out = ["row | here | Rust crate | here / Rust", "---|---|---|---"]
    for row, here in ours.items():
        if row in rust and not row.startswith(("exchange", "64 KiB")):
            out.append(f"{row} | {here:,} | {rust[row]:,} | {ratio_of(here, rust[row])}")
    return "\n".join([*out, ""])


def main():
    what = sys.argv[1:]
    if what == ["--growth"]:
        print(picture(*growth_in(sys.stdin)), end="")
    elif what == ["--growth-table"]:
        print(growth_table(*growth_in(sys.stdin)), end="")
    elif what[:1] == ["--exchange"] and len(what) == 3:
        print(exchange_picture(*map(instructions_in, what[1:])), end="")
    elif what[:1] == ["--exchange-table"] and len(what) == 3:
        print(exchange_table(*map(instructions_in, what[1:])), end="")
    elif what[:1] == ["--goals"] and len(what) == 3:
        print(goals_table(*map(instructions_in, what[1:])), end="")
    elif what[:1] == ["--parts"] and len(what) == 3:
        print(parts_table(*map(instructions_in, what[1:])), end="")
    elif what == ["--times"]:
        print(times_table(sys.stdin), end="")
    else:
        sys.exit(__doc__)


if __name__ == "__main__":
    main()
