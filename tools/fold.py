#!/usr/bin/env python3
"""Folds the lines of specs/ and proofs/ that are longer than 160 characters.

    python3 tools/fold.py CRATE..

run at the top of the repository. It changes line breaks alone: a line goes on, deeper, on the next one, before an arrow or another operator,
behind an `=` or an `in`, or before an argument, outside as many brackets as can be; what goes on before an operator already is laid out
anew with it. An import becomes several of the same module. Where only a list in brackets is too long, each of its items gets a line.
`rt fmt` then sets the indentation, and refuses what is no antt any more; that the words are still the same, but for commas at the end of a
list, is compared. A crate for which either fails is put back. What could not be folded is listed, and so are files of 800 lines and more;
the exit status is then 1. `rt check` of the crate decides.
"""
import re
import subprocess
import sys
from pathlib import Path

WIDTH, LINES = 160, 800
TOKEN = re.compile(r'"(?:\\.|[^"\\])*"|[(){}\[\];,]|[^\s(){}\[\];,"]+')
IMPORT = re.compile(r"^(\s*(?:pub )?use [^{]*\{)(.*)(\})$")
CLOSING = {")": "(", "]": "[", "}": "{"}
# what a break costs before such a word, or behind one; for each bracket that it stands in; and a line more
BEFORE = {"→": 0, "×": 1, "⊎": 1, "∙": 1, "then": 3, "else": 3, "≡": 6, "≢": 6, "≤": 6, "<": 6, "&&": 6, "||": 6, "∷": 7, "++": 7}
BEFORE |= dict.fromkeys(["+", "-", "*", "%", "^", "=="], 9)
BEHIND = {"in": 0, "=": 2, "↦": 2, ":": 14}
BRACKET, LINE = 7, 8
CHAINS = ("→", "×", "⊎", "∙")
NEVER_BEFORE = {"=", ":", "as", "where", "in", "↦", "[", "]", ")", "}", ";", ",", "|"}
NEVER_BEHIND = {"let", "λ", "elim", "as", "if", "use", "module", "pub", "abbrev", "data", "record", "unfolding", "(", "[", "{", "|", "-"}


def brackets(tokens):
    """Returns of each token the bracket around it that opens in this line, and of each bracket whether it is a list that ends here."""
    around, opened, lists, closed = [], [], set(), {}
    for at, it in enumerate(tokens):
        if it[0] in CLOSING and opened:
            closed[opened.pop()] = at
        around.append(opened[-1] if opened else None)
        if it[0] in "([{":
            opened.append(at)
        elif opened and it[0] in (",", ";", "|", "↦"):
            lists.add(opened[-1])
    braces = {at for at in closed if tokens[at][0] == "{"}
    return around, {at: closed[at] for at in (lists | braces) if at in closed}


def cost(tokens, at, depth, state):
    """Returns what a break before this token costs, or None where there may be none."""
    before, behind = tokens[at][0], tokens[at - 1][0]
    if before in NEVER_BEFORE or behind in NEVER_BEHIND or state["binders"]:
        return None
    if behind == "=" and state["let"]:
        price = 5
    elif behind in BEHIND:
        price = BEHIND[behind]
    elif before in BEFORE:
        price = BEFORE[before]
    elif behind in BEFORE:
        price = 25
    elif before == "(":
        price = 3 if depth == 0 and behind == ")" else 12
    else:
        price = 6 if behind[-1] == "." else 18
    return price + BRACKET * depth


def breaks(line):
    """Returns the places where a line may be broken, each with its price, and the lists in which it may not: (begin, end)."""
    found = [(it.group(), it.start()) for it in TOKEN.finditer(line)]
    around, lists = brackets(found)
    depth = lowest = 0
    depths, places, state = [], [], {"let": 0, "binders": False}
    for name, _ in found:
        depth -= name in CLOSING
        lowest = min(lowest, depth)
        depths.append(depth)
        depth += name in CLOSING.values()
    for at, (name, start) in enumerate(found):
        within, inner = around[at], False
        while within is not None and not inner:
            inner, within = within in lists, around[within]
        if at and line[start - 1] == " " and not inner:
            price = cost(found, at, depths[at] - lowest, state)
            places += [] if price is None else [(start, price)]
        state["let"] += (name == "let") - (name == "in")
        state["binders"] = (state["binders"] or name == "λ") and not name.endswith(".")
    return places, [(found[at][1], found[end][1]) for at, end in lists.items()]


def indentation(line):
    return len(line) - len(line.lstrip())


def cheapest(line, places):
    """Returns the pieces of a line, each within the width, whose breaks cost least; None where there are none."""
    begin, deeper = indentation(line), indentation(line) + 4
    best = {begin: (0, [begin])}
    ends = sorted(places) + [(len(line), 0)]
    for end, price in ends:
        width = len(line[:end].rstrip())
        ways = [
            (best[at][0] + price + LINE, [*best[at][1], end])
            for at in best
            if at < end and width - at + (begin if at == begin else deeper) <= WIDTH
        ]
        if ways:
            best[end] = min(ways, key=lambda it: (it[0], [-at for at in it[1]]))
    if len(line) not in best:
        return None
    cuts = best[len(line)][1]
    pieces = [line[a:b].rstrip() for a, b in zip(cuts, cuts[1:])]
    return [" " * begin + pieces[0], *(" " * deeper + it for it in pieces[1:])]


def folded(line):
    """Returns the lines that a long one becomes: itself where it cannot be folded."""
    begin = " " * indentation(line)
    if line.lstrip().startswith("-- "):
        return wrapped(begin + "-- ", line.lstrip()[3:].split(), begin + "-- ", " ", "")
    if of := IMPORT.match(line):
        return wrapped(of[1], of[2].split(", "), of[1], ", ", of[3])
    if " -- " in line:
        return [line]
    places, lists = breaks(line)
    if pieces := cheapest(line, places):
        return pieces
    # the longest of the lists in which no break may be: `rt fmt` gives each item a line where one stands behind its bracket
    if lists:
        begins = max(lists, key=lambda it: it[1] - it[0])[0] + 1
        return [line[:begins], " " * (indentation(line) + 2) + line[begins:].lstrip()]
    return [line]


def wrapped(first, words, later, between, last):
    lines, line = [], first + words[0]
    for word in words[1:]:
        if len(line + between + word + last) > WIDTH:
            lines.append(line + last)
            line = later + word
        else:
            line += between + word
    return [*lines, line + last]


def goes_on(line, text):
    """Whether a line goes on, by an operator, the one before."""
    return text.lstrip().startswith(tuple(f"{it} " for it in CHAINS)) and indentation(line) <= indentation(text) <= indentation(line) + 4


def fold(path):
    """Folds the long lines of a file; returns whether that changed it."""
    lines = path.read_text(encoding="utf-8").split("\n")
    out, at = [], 0
    while at < len(lines):
        line, end = lines[at], at + 1
        if len(line) > WIDTH and not line.lstrip().startswith("-- "):
            while end < len(lines) and goes_on(lines[at], lines[end]) and line.rstrip()[-1] not in "([{=":
                line += " " + lines[end].lstrip()
                end += 1
        pieces = folded(line) if len(line) > WIDTH else [line]
        out += lines[at:end] if len(pieces) == 1 else pieces
        at = end
    if out != lines:
        path.write_text("\n".join(out), encoding="utf-8")
    return out != lines


def words(text):
    """The words of a file in their order, without what may change: a comma at the end of a list, the lines of imports and comments."""
    imported, out = [], []
    lines = text.split("\n")
    for at, line in enumerate(lines):
        if line.lstrip().startswith("--"):
            out += line.split()[at > 0 and lines[at - 1].lstrip().startswith("--"):]
        elif of := IMPORT.match(line):
            imported += [of[1] + it for it in of[2].split(", ")]
        else:
            out += [it.group() for it in TOKEN.finditer(line)]
    at_end = [a in ",;" and b in CLOSING or a == "|" and c == "[" for a, b, c in zip(out, [*out[1:], " "], [" ", *out])]
    return imported, [it for it, gone in zip(out, at_end) if not gone]


def fold_crate(crate):
    """Folds all files of a crate; returns what went wrong, and what is still long."""
    paths = [it for name in ("specs", "proofs") for it in sorted((crate / name).rglob("*.antt"))]
    before = {it: it.read_text(encoding="utf-8") for it in paths}
    wrong, rounds = "", 0
    while not wrong and any([fold(it) for it in paths]):
        rounds += 1
        formatted = subprocess.run(["rt", "fmt"], cwd=crate, capture_output=True, text=True, check=False)
        if formatted.returncode or rounds > 8:
            wrong = f"{crate}: put back: {formatted.stderr.strip() or 'its lines do not settle'}"
    for it in paths:
        if not wrong and words(it.read_text(encoding="utf-8")) != words(before[it]):
            wrong = f"{it}: put back, with its crate: other words"
    if wrong:
        for it in paths:
            it.write_text(before[it], encoding="utf-8")
        return [wrong]
    left = []
    for it in paths:
        lines = it.read_text(encoding="utf-8").split("\n")
        left += [f"{it}:{at}: {len(line)} characters" for at, line in enumerate(lines, 1) if len(line) > WIDTH]
        left += [f"{it}: {len(lines) - 1} lines"] if len(lines) > LINES else []
    return left


def main(names):
    left = [it for name in names for it in fold_crate(Path("crates") / name)]
    print("\n".join(left or [f"fold.py: no line is over {WIDTH} characters"]))
    sys.exit(bool(left))


if __name__ == "__main__":
    main(sys.argv[1:])
