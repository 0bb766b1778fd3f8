#!/usr/bin/env python3
"""Reckons how long `rt ci` takes, from the processor times in evidence/gate_times.txt and from the order in which rt takes the crates.

    python3 evidence/gate_time.py [PROCESSORS]

run at the top of the repository; four processors where nothing is said. It reckons for a check of one job on each processor, four at most, as the gate
asks for. It proves nothing: rt's own `in_lanes` is called, and each task sleeps for as long as the table says, a minute in a tenth of a second. A crate
that stands in crates.txt and has no row is named, and counts as nothing: to reckon an addition, write its row first (docs/GATE.md says what a function,
a test and a wrong body cost). It prints when all is proved and when the last task ends, in minutes, and the crates that ended last.
"""
import os
import re
import sys
import time

sys.path.insert(0, os.path.join(os.path.dirname(os.path.dirname(os.path.abspath(__file__))), "tools"))
from wrong_bodies import kit

MINUTE = 0.1
# how much of the table's time it takes where so many processors are at work: measured for two, guessed for one and three
SHARE = {1: 0.8, 2: 0.8, 3: 0.9}
# as many checks side by side as the gate asks for at most
MOST = 4
ROW = re.compile(r"(\w+) +\d+" + r"(?: +([\d.]+|-))?" * 3 + "$")


def times_of(path):
    """Returns for each crate of the table the processor minutes of its proof, its tests and its wrong bodies."""
    with open(path, encoding="utf-8") as it:
        return {row[1]: [float((minutes or "").strip("-") or 0) for minutes in row.groups()[1:]] for row in map(ROW.match, it) if row}


def tasks_of(rt, crates, times, processors, ended):
    """Returns the tasks as rt makes them, each of which sleeps for its time and then notes the second at which it ended."""
    tasks = {}

    def run(key, minutes):
        time.sleep(minutes * SHARE.get(processors, 1) * MINUTE)
        if minutes:
            ended[key] = time.monotonic()

    for crate in crates:
        lines, edits = crate.count(rb"\n"), len(rt.edits_of(crate)[0])
        below = [(it.name, "proof") for it in crate.below()]
        proof, tests, bodies = times.get(crate.name, [0, 0, 0])
        parts = [(("proof",), below, lines, proof), (("tests",), below, lines * crate.has_tests(), tests)]
        both = [(crate.name, "proof"), (crate.name, "tests")]
        if edits > 1:
            # (several edits are tried over a check of the crate that is made for them)
            seed = crate.name, "seed"
            parts += [(("seed",), below, 0, min(proof, bodies))]
            parts += [(("edits", it), [*both, seed], lines, max(bodies - proof, 0) / edits) for it in range(edits)]
        elif edits:
            parts += [(("edits", 0), both, lines, bodies)]
        for part, waits, work, minutes in parts:
            key = crate.name, *part
            tasks[key] = waits, work, 0, lambda given, jobs, key=key, minutes=minutes: run(key, minutes)
    return tasks


def main():
    if sys.argv[1:] == ["--help"]:
        sys.exit(__doc__)
    processors = int(sys.argv[1]) if len(sys.argv) > 1 else 4
    sys.argv = ["rt"]
    rt = kit()
    os.environ["RT_JOBS"] = str(min(processors, MOST))
    crates = sorted(rt.rtlib.crates_below(os.getcwd()), key=lambda it: len(it.below()))
    times, ended = times_of("evidence/gate_times.txt"), {}
    for name in sorted({it.name for it in crates} - {*times}):
        print(f"{name}: no row in evidence/gate_times.txt")
    tasks, begin = tasks_of(rt, crates, times, processors, ended), time.monotonic()
    rt.in_lanes(tasks)
    ended = {it: (at - begin) / MINUTE for it, at in ended.items()}
    if not any(it[1] in ("proof", "tests") for it in ended):
        sys.exit("gate_time.py: evidence/gate_times.txt says of no crate how long its proof takes")
    last = sorted(ended, key=lambda it: -ended[it])
    print(f"{sum(map(sum, times.values())) * SHARE.get(processors, 1):.0f} min of processor time")
    print(f"all proved after {max(ended[it] for it in last if it[1] in ('proof', 'tests')):.0f} min, the last task ends after {ended[last[0]]:.0f}")
    print("last: " + ", ".join(f"{' '.join(map(str, it))} {ended[it]:.0f}" for it in last[:8]))
    return 0


if __name__ == "__main__":
    sys.exit(main())
