#!/usr/bin/env python3
"""Tries on lines of checks what tools/wrong_bodies.py takes for no verdict, and which functions it takes for refused.

    python3 tools/tests/wrong_bodies_test.py
"""
import os
import signal
import sys

sys.path.insert(0, os.path.dirname(os.path.dirname(os.path.abspath(__file__))))
from wrong_bodies import is_refused, refused_in, why_not_judged

REFUSED = """fn low::Queue::push: not proved: returns
fn low::Queue::drain: no proof: it calls low::Queue::push
fn low::Queue::len: proved
logic=not-proved functions=3
"""

# status, lines, the line that the prover could not read, and what is said
CASES = [
    (1, REFUSED, "", ""),
    (0, "logic=proved functions=3\n", "", ""),
    (-signal.SIGKILL, "", "", "its check was killed, most likely for memory"),
    (1, "src/lib.rt:52:18: error[mismatched-types]: expected `u32`, found `&str`\n", "",
     "doesn't compile: src/lib.rt:52:18: error[mismatched-types]: expected `u32`, found `&str`"),
    (1, "src/lib.rt:5:1: error: no such word\nlogic=not-proved\n", "src/lib.rt:5:1: error: no such word",
     "doesn't compile: src/lib.rt:5:1: error: no such word"),
    (3, "antt ran out of stack\n", "", "its check ended with status 3 and no verdict: antt ran out of stack"),
    (2, "", "", "its check ended with status 2 and no verdict: it said nothing"),
]


def main():
    for status, out, unread, said in CASES:
        found = why_not_judged(status, out, lambda line: line == unread)
        assert found == said, (status, out, found)
    refused = refused_in(REFUSED)
    assert refused == {"low::Queue::push"}, refused
    assert is_refused({("src/lib.rt", "Queue", "push", 1)}, refused, "low")
    assert not is_refused({("src/lib.rt", "Queue", "drain", 9)}, refused, "low")
    # a method whose impl stands in another file than its type, and a function of another file
    told = {"low::queue::Queue::push", "low::queue::count"}
    assert is_refused({("src/pushing.rt", "Queue", "push", 1)}, told, "low")
    assert not is_refused({("src/pushing.rt", "", "count", 1)}, told, "low")
    print(f"{len(CASES) + 5} passed")


if __name__ == "__main__":
    main()
