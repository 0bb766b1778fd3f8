#!/usr/bin/env python3
"""The worked exchanges of docs/WHY.md as scripts.

    python3 evidence/exchange.py NAME      the script of an exchange, for `(cd crates/linkrun && rt try)`
    python3 evidence/exchange.py --test    the cases of the exchanges in crates/link_tests/stdin, which the gate plays, made anew from the page

run at the top of the repository. An exchange is a block whose lines have an event, and its reply behind column 30; behind two
spaces more comes a remark.
"""
import re
import sys

PAGE = "docs/WHY.md"
TEST = "crates/link_tests/stdin"
# what the name of an exchange's case begins with there
NAMED = "== exchange "
BLOCK = re.compile(r"^\*\*`(\w+)`\*\*.*?^```\n(.*?)^```", re.M | re.S)
COLUMN = 30


def exchanges():
    """Returns of each exchange its name, its script and its replies."""
    with open(PAGE, encoding="utf-8") as page:
        found = BLOCK.findall(page.read())
    for name, block in found:
        lines = block.splitlines()
        events = [line[:COLUMN].rstrip() for line in lines]
        replies = [re.split(r" {2,}", line[COLUMN:])[0] for line in lines if line[COLUMN:]]
        yield name, "".join(f"{event}\n" for event in events), "".join(f"{reply}\n" for reply in replies)


def case(name, script, replies):
    """Returns a case of the program link_tests."""
    first, *events = script.splitlines()
    return "\n".join([f"{NAMED}{name}", first, *map(": ".join, zip(events, replies.splitlines(), strict=True))])


def test():
    """Returns the standard input of link_tests with the page's exchanges in the place of those there."""
    with open(TEST, encoding="utf-8") as stdin:
        blocks = stdin.read().split("\n\n")
    others = [it for it in blocks if not it.startswith(NAMED)]
    at = next((it for it, block in enumerate(blocks) if block.startswith(NAMED)), len(others))
    return "\n\n".join([*others[:at], *(case(*one) for one in exchanges()), *others[at:]])


def main():
    """Prints a script, or writes the cases."""
    if len(sys.argv) != 2 or sys.argv[1] == "--help":
        sys.exit(__doc__)
    if sys.argv[1] == "--test":
        cases = test()
        with open(TEST, "w", encoding="utf-8") as out:
            out.write(cases)
        return
    scripts = {name: script for name, script, _ in exchanges()}
    if sys.argv[1] not in scripts:
        sys.exit(f"no such exchange: {', '.join(scripts)}")
    print(scripts[sys.argv[1]], end="")


if __name__ == "__main__":
    main()
