#!/usr/bin/env python3
"""Runs what reads the repository as text and needs no proof, in seconds: the gate begins with it.

    python3 tools/check.py [WORD..]

run at the top of the repository; with words only the checks whose titles have one. Prints what each check that fails said, and ends with
`N passed, M failed`; the status is 1 where one failed.
"""
import os
import re
import subprocess
import sys

from sources import Sources, promises_of

# how many there may be at most: public calls of a type's own, in all files of its crate; folders of crates/ with a src, 41 since the parts of an
# association are proved side by side; files, not folders, of tools/
MOST = {
    "public calls of Receiver": (20, lambda: public_calls("sctp_receiver", "Receiver")),
    "public calls of Sender": (25, lambda: public_calls("sctp_sender", "Sender")),
    "crates": (41, lambda: sum(os.path.isdir(f"crates/{it}/src") for it in os.listdir("crates"))),
    "files in tools/": (12, lambda: sum(it.is_file() for it in os.scandir("tools"))),
}

CHECKS = [
    ("what the crates offer", ["tools/surface.py"]),
    ("each text of a wrong body stands once", ["tools/wrong_bodies.py", "--texts"]),
    ("words, links and code of the pages", ["tools/pages.py", "--all"]),
    ("what trace.py finds", ["tools/tests/trace_test.py"]),
    ("what dead.py finds", ["tools/tests/dead_test.py"]),
    ("what fold.py does", ["tools/tests/fold_test.py"]),
    ("what wrong_bodies.py does", ["tools/tests/wrong_bodies_test.py"]),
    ("what wrappers repeat of the header", ["tools/c_bindings.py", "--check"]),
]

# the sections whose claims name what carries them: each item of a list, or where there is none each paragraph
CLAIMS = {
    "README.md": ["What it guarantees"],
    "docs/WHY.md": ["The claim", "A message can't be joined wrongly", "None is read twice", "None is lost in silence", "In order", "Two hosts"],
    "docs/CONTRACTS.md": ["Contracts", "Laws of two hosts: `sctp_delivery`"],
}
ITEM = re.compile(r"\s*(?:- |\d+\. )")
BY = re.compile(r"<!-- by (.*?) -->", re.S)


def claims_of(page, titles):
    """Returns the claims of these sections of a page, each as its lines in one."""
    with open(page, encoding="utf-8") as text:
        parts = re.split(r"^#+ (.*)\n", text.read(), flags=re.M)
    found = []
    for title, body in zip(parts[1::2], parts[2::2]):
        for block in body.split("\n\n") if title in titles else []:
            lines = block.split("\n")
            starts = [at for at, line in enumerate(lines) if ITEM.match(line)]
            for begin, end in zip(starts or [0], [*starts[1:], len(lines)]):
                found.append(" ".join(it.strip() for it in lines[begin:end]))
    return [it for it in found if it]


def unproved_claims():
    """Says which claims name nothing that carries them, and which names are of nothing."""
    functions = {it.title(): promises_of(it) for it in Sources().functions}
    told = []
    for page, titles in CLAIMS.items():
        for claim in claims_of(page, titles):
            named = [it.strip() for by in BY.findall(claim) for it in by.split(",")]
            if not named and "<!-- no claim -->" not in claim:
                told.append(f"{page}: names no law: {claim[:100]}")
            for name in named:
                call, _, clause = name.partition(" ")
                if call not in functions or clause and clause not in functions[call]:
                    told.append(f"{page}: {name} is no contract")
    return "\n".join(told)


def public_calls(crate, owner):
    """Returns how many functions marked `pub` the blocks `impl OWNER` of a crate have; those of a trait are none of its own."""
    return sum(it.is_public and not it.trait for it in Sources().functions if (it.crate, it.owner) == (crate, owner))


def too_many():
    """Says of what there is more than MOST allows, or none, as where a name of the table is of nothing."""
    counted = [(name, most, count()) for name, (most, count) in MOST.items()]
    return "\n".join(f"{name}: {count}, at most {most}" for name, most, count in counted if not 0 < count <= most)


def page_of_rules():
    """Says how docs/RFC.md differs from what tools/rfc.py prints, or nothing."""
    ran = subprocess.run([sys.executable, "tools/rfc.py", "--page"], capture_output=True, text=True)
    with open("docs/RFC.md", encoding="utf-8") as page:
        same = page.read() == ran.stdout
    return "" if same and not ran.returncode else ran.stderr or "docs/RFC.md is not what `python3 tools/rfc.py --page` prints"


def said_by(words):
    """Returns what a check prints where it fails, or nothing."""
    ran = subprocess.run([sys.executable, *words], capture_output=True, text=True)
    return "" if ran.returncode == 0 else (ran.stdout + ran.stderr).strip() or f"status {ran.returncode}"


def main():
    checks = {title: lambda words=words: said_by(words) for title, words in CHECKS}
    checks["the page of the RFCs' rules"] = page_of_rules
    checks["claims of pages name what carries them"] = unproved_claims
    checks["counts within their limits"] = too_many
    words = sys.argv[1:]
    told = {title: run() for title, run in checks.items() if not words or any(word in title for word in words)}
    for title, text in told.items():
        if text:
            print(f"FAILED {title}:\n{text}")
    failed = sum(bool(it) for it in told.values())
    print(f"{len(told) - failed} passed, {failed} failed")
    return 1 if failed else 0


if __name__ == "__main__":
    sys.exit(main())
