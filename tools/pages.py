#!/usr/bin/env python3
"""Finds in the pages retired words, sentences that are too long, names of files that do not exist, and code that stands in no source.

    python3 tools/pages.py [--all]

run at the top of the repository. The pages are all *.md; what stands in code fences or between backticks is no prose, and is passed over for
the words of RETIRED. With --all sources (*.rt, *.antt, *.edit, lists of wrong bodies) are looked through too, names in their code included:
half_sent, HalfSent. The type `Loose`, the kit's module `sound` and its step `heard` are passed over. Paths that begin with a folder of this
repository, and links, must name a file or a folder, from the top or beside the page. Each block marked `rust` has to stand, line by line, in a
source file of the repository; the `ghost use` and `use` lines that it begins with have to stand in the same file, where their items may be among
more. A sentence has at most 30 words, on each page but those of LONG; tables, headings, code and comments don't count, and what stands between
backticks is one word. Nor has such a page a word of UNPLAIN. The exit status is 1 where one of these is found.
"""

import glob
import re
import subprocess
import sys
from pathlib import Path

# words that the pages no longer have, and what stands in their place
RETIRED = {
    "half sent, half-sent": "partially sent",
    "end mark, end marks": "terminal chunk",
    "loose": "unassembled",
    "lapsed": "past its deadline",
    "given up, giving up": "abandoned, or discarded at the receiver",
    "whole message, whole messages": "complete message",
    "has a text, no text, the one text": "encoding",
    "sound": "valid",
    "ties, tied": "refines",
    "world": "record",
    "sane": "consistent",
    "heard, unheard": "arrived",
}
FENCE = re.compile(r"^```.*?^```", re.M | re.S)
SPAN = re.compile(r"`[^`\n]*`")
FIXED = re.compile(r"\bLoose\b|^use sound\.|^use denote\.Steps\..*|\bheard !", re.M)
LINK = re.compile(r"\]\(([^)#\s]+)(#[^)\s]*)?\)")
FOLDERS = "crates|docs|tools|evidence|examples|c_tests|dump_tests|packaging|wrappers"
PATH = re.compile(rf"(?<![\w/.-])(?:{FOLDERS})/[\w./-]*\w")
BLOCK = re.compile(r"^```rust\n(.*?)^```", re.M | re.S)
USE = re.compile(r"(?:ghost )?use [^;]*;\n")
LISTED = re.compile(r"((?:ghost )?use .*?)\{(.*)\};$", re.S)
# words of no field, and the words in their place
UNPLAIN = [("anew", "again, newly"), ("beyond", "past"), ("looks", "reads"), ("turns", "work"), ("but for", "except"), ("nothing but", "only")]
# a sentence: its words, and the pages that are held neither to them nor to UNPLAIN: pages of what was measured
MOST_WORDS = 30
LONG = ["CHANGELOG.md"]
COMMENT = re.compile(r"<!--.*?-->", re.S)
NO_PROSE = re.compile(r"^(?:#.*|\|.*|.* \| .*|.*\|$|---.*)$", re.M)
# lines of code: indented, behind an empty line. Without one they go on with an item of a list
CODE = re.compile(r"(?<=\n\n)(?: {4,}(?![-*\d] ).*\n)+", re.M)
BLOCK_ENDS = re.compile(r"\n\s*\n|\n(?=\s*(?:[-*] |\d+\. ))")
SENTENCE_ENDS = re.compile(r"(?<=[.?!])(?<!\.\.)(?<!e\.g\.)(?<!i\.e\.)[)\"*]*\s+(?=[A-Z`\[*\"(\d])")
WORD = re.compile(r"[^\W_]")


def files(*patterns):
    """The files under version control that match."""
    out = subprocess.run(["git", "ls-files", "--", *patterns], capture_output=True, text=True, check=True)
    return [name for name in out.stdout.splitlines() if Path(name).is_file()]


def pages():
    """The docs: lists of wrong bodies (must-fail/*.md) are none."""
    return [name for name in files("*.md") if "/must-fail/" not in name]


def retired():
    """Retired words, and the word used in the place of each."""
    return [(word, other) for words, other in RETIRED.items() for word in words.split(", ")]


def pattern(word):
    """The word by itself, in either case, its parts on one line or two."""
    return re.compile(r"(?<![\w/-])" + r"\s+".join(map(re.escape, word.split())) + r"(?![\w-])", re.I)


def blank(match):
    """The same lines without their words."""
    return re.sub(r"[^\n]", " ", match.group())


def prose(name):
    """A page without code, line for line."""
    return SPAN.sub(blank, FENCE.sub(blank, Path(name).read_text()))


def line_of(text, place):
    return text.count("\n", 0, place) + 1


def words_in_docs(words):
    """Prints each retired word in a page, and answers how many there are."""
    found = 0
    for name in pages():
        text = prose(name)
        for word, other in words:
            for match in pattern(word).finditer(text):
                print(f"{name}:{line_of(text, match.start())}: {word} (now: {other})")
                found += 1
    return found


def name_pattern(word):
    """The word in prose or in a name: lapsed, is_lapsed, half-sent, HalfSent."""
    parts = [re.escape(part) for part in re.split(r"[\s-]", word)]
    snake = r"(?<![A-Za-z])(?i:" + r"[\s_-]+".join(parts) + r")(?![A-Za-z])"
    camel = "".join(part.capitalize() for part in parts) + r"(?![a-z])"
    return re.compile(snake + "|" + camel)


def words_in_sources(words):
    """Prints each retired word in sources, code included, and answers how many there are."""
    found = 0
    for name in files("*.rt", "*.antt", "*.edit", "*/must-fail/*.md"):
        text = FIXED.sub(blank, Path(name).read_text())
        for word, other in words:
            for match in name_pattern(word).finditer(text):
                print(f"{name}:{line_of(text, match.start())}: {word} (now: {other})")
                found += 1
    return found


def exists(page, target):
    """Whether a file or folder is named; a capital NAME stands for any crate, out for what is built, and .. or * for the rest of a path."""
    if {"NAME", "out"} & set(target.split("/")) or ".." in target.replace("../", ""):
        return True
    return Path(target).exists() or (Path(page).parent / target).exists()


def names_of_nothing():
    """Prints each path or link in a page that names nothing, and answers how many there are."""
    found = 0
    for page in pages():
        text = Path(page).read_text()
        named = [(m.start(), m.group(1)) for m in LINK.finditer(text) if "://" not in m.group(1)]
        named += [(m.start(), m.group()) for m in PATH.finditer(text)]
        for place, target in named:
            if not exists(page, target):
                print(f"{page}:{line_of(text, place)}: {target} names nothing")
                found += 1
    return found


def items_of(line):
    """Returns what a `use` line names: each with its path."""
    listed = LISTED.match(line)
    return {listed[1] + it.strip() for it in listed[2].split(",")} if listed else {line}


def head_and_rest(block):
    """Returns the `use` lines that a block begins with, and what stands behind them."""
    head = []
    while found := USE.match(block):
        head.append(found.group().strip())
        block = block[found.end():].lstrip("\n")
    return head, block


def stands_in(head, rest, text):
    """Tells whether a source has the code, and names what the `use` lines name."""
    if rest not in text:
        return False
    named = {it for line in USE.findall(text) for it in items_of(line.strip())}
    return all(items_of(line) <= named for line in head)


def code_of_no_source():
    """Prints each block of a page that stands in no source, and answers how many there are."""
    texts = [Path(name).read_text() for name in glob.glob("crates/*/src/**/*.rt", recursive=True)]
    found = 0
    for page in pages():
        for block in BLOCK.findall(Path(page).read_text()):
            if not any(stands_in(*head_and_rest(block), text) for text in texts):
                print(f"{page}: stands in no source:\n{block}")
                found += 1
    return found


def sentences_of(text):
    """Returns the sentences of a page, each with its place."""
    text = SPAN.sub(lambda it: "X" * len(it.group()), NO_PROSE.sub(blank, CODE.sub(blank, COMMENT.sub(blank, FENCE.sub(blank, text)))))
    found, begin = [], 0
    for end in [it.end() for it in re.finditer(f"{BLOCK_ENDS.pattern}|{SENTENCE_ENDS.pattern}", text)] + [len(text)]:
        found.append((begin, text[begin:end]))
        begin = end
    return found


def unplain_words():
    """Prints each word of UNPLAIN in a page, and answers how many there are."""
    found = 0
    for page in pages():
        text = COMMENT.sub(blank, prose(page)) if page not in LONG else ""
        for word, other in UNPLAIN:
            for match in pattern(word).finditer(text):
                print(f"{page}:{line_of(text, match.start())}: {word} (plain: {other})")
                found += 1
    return found


def long_sentences():
    """Prints each sentence of too many words, and answers how many there are."""
    found = 0
    for page in pages():
        text = Path(page).read_text()
        for place, sentence in sentences_of(text) if page not in LONG else []:
            count = sum(bool(WORD.search(word)) for word in sentence.split())
            if count > MOST_WORDS:
                began = place + len(sentence) - len(sentence.lstrip())
                print(f"{page}:{line_of(text, began)}: {count} words in a sentence: {' '.join(text[began:].split()[:8])} ..")
                found += 1
    return found


def main():
    if sys.argv[1:] not in ([], ["--all"]):
        sys.exit(__doc__)
    words = retired()
    found = words_in_docs(words) + names_of_nothing() + code_of_no_source() + unplain_words() + long_sentences()
    if sys.argv[1:]:
        found += words_in_sources(words)
    print(f"{len(pages())} pages, {len(words)} retired words, {found} faults")
    sys.exit(1 if found else 0)


if __name__ == "__main__":
    main()
