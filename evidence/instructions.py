#!/usr/bin/env python3
"""What each row of `bench times`, or of `rust_side times`, takes in instructions of one unit.

    python3 evidence/instructions.py PROGRAM > FILE                     a line of FILE: a row's name, a tab, instructions
    python3 evidence/instructions.py PROGRAM --word WORD                the same of rows in whose name WORD stands (`rust_side` alone)
    python3 evidence/instructions.py PROGRAM --profile ROW              the functions in which the instructions of a row are
    python3 evidence/instructions.py PROGRAM --profiles WHERE > FILE    each row, and WHERE gets the functions of each

PROGRAM runs under valgrind, which counts between two looks at the clock; evidence/clock.c, preloaded, lets a few runs of a row be enough. The shortest
counts. Between the looks are all instructions of a run, and none of what was prepared for it. gcc or the CC given, and valgrind, are needed.
"""
import argparse
import collections
import glob
import os
import re
import subprocess
import sys
import tempfile

TOP = os.path.dirname(os.path.dirname(os.path.abspath(__file__)))
CALLS = 64  # of a row that times single calls, as crates/bench/src/subject.rs has it
ROUNDS = 20_000  # of a packet, as crates/bench/src/packet.rs has it
LINE = re.compile(r"(?P<row>.+?)(?:: \d+ ns a \w+.*|\t\d+)$")
DUMP = re.compile(r"^desc: Trigger: --dump-before=(?P<at>\w+).*?^summary: (?P<count>\d+)", re.M | re.S)


def units_of(row):
    """Returns how many equal units a run of a row has."""
    if row in ("unmarshal", "dissect", "marshal_to", "CRC-32C"):
        return ROUNDS
    counted = re.match(r"(?:push and pop|send_next over|pending push and pop|outbound push) (\d+)", row)
    turns = re.search(r", (\d+) pairs in turn", row)
    if counted or turns:
        return int((counted or turns)[1])
    if row.startswith("1000 unordered interleaved"):
        return 4000
    if row.startswith("exchange"):
        return CALLS * (10 if "ten messages" in row else 1)
    calls = r"limit|SACK|mark_as_acked|Sender::(acked|close) over|Receiver::(close|sack|read) over|Receiver::data, two"
    return CALLS if re.match(calls, row) else 1


def dumps_in(folder):
    """Returns what ended each stretch of the run, how many instructions it had, and its file."""
    files = [it for it in glob.glob(f"{folder}/out.*") if it.rsplit(".", 1)[1].isdigit()]
    for file in sorted(files, key=lambda it: int(it.rsplit(".", 1)[1])):
        with open(file, encoding="utf-8", errors="replace") as it:
            found = DUMP.search(it.read())
        if found:
            yield found["at"], int(found["count"]), file


def rows_of(lines, dumps):
    """Returns each row with the stretches between looks at the clock that ended before it was printed."""
    rows, waiting = [], []
    lines = iter(lines)
    for at, count, file in dumps:
        if at.startswith("clock"):
            waiting.append((count, file))
            continue
        found = LINE.match(next(lines, ""))
        if found and waiting:
            rows.append((found["row"], waiting))
        waiting = []
    return rows


def fewest(row, stretches):
    """Returns the shortest run of a row. Three looks belong to a run, of which the second ends it; the first row may have a look more before it.
    Packets have two or three, but what is prepared for them takes less."""
    if units_of(row) == ROUNDS:
        return min(it for it in stretches if it[0] > max(stretches)[0] / 2)
    return min(stretches[-2::-3][: (len(stretches) - 1) // 3])


def profile_of(file):
    """Returns the functions of a stretch with their own instructions, most first."""
    own, function, is_call = collections.Counter(), "", False
    with open(file, encoding="utf-8", errors="replace") as it:
        for line in it:
            words = line.split()
            if line.startswith("fn="):
                function = line[3:].strip()
            elif line.startswith("calls="):
                is_call = True
            elif len(words) == 2 and re.match(r"[-+*\d]", words[0]):
                own[function] += 0 if is_call else int(words[1])
                is_call = False
    return own.most_common(20)


def run(program, words_after, folder):
    """Runs the program, and returns what it printed."""
    clock = f"{folder}/clock.so"
    subprocess.run([os.environ.get("CC", "gcc"), "-O2", "-shared", "-fPIC", f"{TOP}/evidence/clock.c", "-o", clock], check=True)
    words = ["valgrind", "--tool=callgrind", "--compress-strings=no", "--dump-before=clock_gettime*", "--dump-before=write*", f"--callgrind-out-file={folder}/out"]
    env = dict(os.environ, LD_PRELOAD=clock)
    done = subprocess.run([*words, program, "times", *words_after], env=env, stdout=subprocess.PIPE, stderr=subprocess.PIPE, text=True)
    if done.returncode:
        sys.exit(done.stderr)
    return done.stdout.splitlines()


def main():
    parser = argparse.ArgumentParser()
    parser.add_argument("program")
    parser.add_argument("--word")
    parser.add_argument("--profile")
    parser.add_argument("--profiles", type=argparse.FileType("w"))
    args = parser.parse_args()
    with tempfile.TemporaryDirectory() as folder:
        lines = run(args.program, [args.word] if args.word else [], folder)
        for row, stretches in rows_of(lines, dumps_in(folder)):
            count, file = fewest(row, stretches)
            if args.profile == row:
                for name, own in profile_of(file):
                    print(f"{own / units_of(row):.0f}\t{name}")
            elif not args.profile:
                print(f"{row}\t{count / units_of(row):.0f}", flush=True)
            if args.profiles:
                functions = (f"\t{own / units_of(row):.0f}\t{name}" for name, own in profile_of(file))
                print(row, *functions, sep="\n", file=args.profiles, flush=True)


if __name__ == "__main__":
    main()
