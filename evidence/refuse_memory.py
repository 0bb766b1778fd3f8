#!/usr/bin/env python3
"""Refuses each allocation of scripts of every link event in turn, and tells what came of it.

    python3 evidence/refuse_memory.py

run at the top of the repository. It finds the kit's command `rt` on the PATH, and proves nothing. It builds the program `link_tests` once, with the
same allocation refused in each run: the last of so many. The number in the first line of standard input says how many allocations come between the
reading of the scripts and their first event; so with one number after another each allocation of the scripts is the refused one once, and with 0 none
is. Where one still is, the program is built again for twice as many. The scripts are those of crates/link_tests/stdin, without its cases and tables.

Prints how many allocations the scripts make, in which of their lines the link was refused one, and each run that did not end as without a refusal.
The exit status is 0 where there is no such run.
"""
import collections
import itertools
import os
import re
import shutil
import subprocess
import sys
import tempfile

FIRST_TRY = 1024
REFUSED = re.compile(r"same, (?:line (\d+) refused|refused beside the link)\Z")
STDIN = "crates/link_tests/stdin"


def outcomes(most):
    """Builds the program with allocation `most` refused, and returns the line that it prints for each number below, "" where it prints none."""
    with open(STDIN, encoding="ascii") as stdin:
        blocks = stdin.read().split("\n\n")
    scripts = "\n\n".join(it for it in blocks if it.startswith("link "))
    with tempfile.TemporaryDirectory() as folder:
        for number in range(most):
            with open(os.path.join(folder, f"{number:06}"), "w", encoding="ascii") as case:
                case.write(f"{number}\n\n{scripts}\n")
        words = ["rt", "try", "--fail-alloc", str(most), "--cases", folder]
        ran = subprocess.run(words, cwd="crates/link_tests", capture_output=True, text=True)
    printed = dict(re.findall(r"^== (\d+)\n(.*)$", ran.stdout, re.M))
    ended = set(re.findall(r"^case=(\d+) run=ended status=0 ", ran.stderr, re.M))
    if not printed:
        sys.exit(f"refuse_memory.py: the program was not run\n{ran.stdout}{ran.stderr}")
    lines = [(f"{number:06}", printed.get(f"{number:06}", "")) for number in range(most)]
    return [line if name in ended or not line.startswith("same") else f"failed after: {line}" for name, line in lines]


def main():
    if sys.argv[1:]:
        sys.exit(__doc__)
    if not shutil.which("rt"):
        sys.exit("refuse_memory.py: the kit's command rt is not on the PATH")
    if not os.path.isdir("crates/link_tests"):
        sys.exit("refuse_memory.py: run it at the top of the repository")
    most = FIRST_TRY
    lines = outcomes(most)
    while REFUSED.match(lines[0]):
        most *= 2
        lines = outcomes(most)
    # In the last runs the refused one comes before the first event; before them it is the scripts' first, their second, and so on.
    lines = list(itertools.dropwhile(lambda line: line == "same", reversed(lines)))
    # A refusal that no event answered: the link did without that memory.
    count = max((it + 1 for it, line in enumerate(lines) if REFUSED.match(line)), default=0)
    without = lines[:count].count("same")
    wrong = [(it + 1, line) for it, line in enumerate(lines) if line != "same" and not REFUSED.match(line)]
    events = collections.Counter(REFUSED.match(line)[1] for line in lines[:count] if REFUSED.match(line))
    beside = events.pop(None, 0)
    for event in sorted(events, key=int):
        print(f"line {event}: {events[event]} refused")
    print(f"beside the link: {beside} refused")
    print(f"done without: {without} refused")
    for number, line in wrong:
        print(f"allocation {number}: {line or 'the run printed nothing'}")
    print(f"{count} allocations, each refused once: {'not ' if wrong else ''}all runs ended the same")
    sys.exit(1 if wrong or not count else 0)


if __name__ == "__main__":
    main()
