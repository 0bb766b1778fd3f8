#!/usr/bin/env python3
"""Lists the definitions and lemmas of specs/ and proofs/ that nothing cites: no contract, no answer, no other one that is cited. With --calls it lists
the public calls that no code calls but tests.

    python3 tools/dead.py [CRATE..]
    python3 tools/dead.py --calls

run at the top of the repository; every crate where none is named. It prints the place, the lines and the name of each, then a sum for each
crate; the exit status is 1 where there is one. It reads texts alone: `rt check` decides whether a crate goes without them.

Names are whole ones, and read as antt reads them: those of a file, those that its `use` lines bring (also under another name, and those of a
module, cited as `Module.name`), of a section its own first. So a line `use` cites nothing by itself. What only a dead one cites is dead too,
and of a dead one its own helpers (`where`) are not listed. What needs no citing: answers (of type `goal.name`), all of Invariants.antt and
Proof.antt, and worked examples: files named .. Examples, or in a folder scripts/. A name that a variable shares counts as cited.

A call is called where trace.py finds it called, or perhaps called, in a crate whose name does not end in _tests, by a function that is no test, or
where its path stands there as a value. What a trait has, and an `impl` of it, is left out. EXEMPT says which others need no caller, and why.
"""
import os
import re
import sys
from dataclasses import dataclass, field

from sources import SHOWN, Sources as Code, lines_of
from trace import Callers

# what a user asks before a call with a precondition
ASKED_BEFORE = {"sctp_outbound::PayloadQueue::fits"}
# why a public call needs no caller in the code: each reason with what tells whether it is the call's
EXEMPT = {
    "the specification fixes its name (docs/surface.txt)": lambda call, fixed: (call.owner, call.name) in fixed,
    "tells whether the precondition of a call holds (CALLING of sctp_queues)": lambda call, _: call.title() in ASKED_BEFORE,
    "a law: its contract is what it is for": lambda call, _: call.path.endswith("/laws.rt") or "/laws/" in call.path,
    "a step of two hosts, or a law applied to hosts at hand (sctp_delivery)": lambda call, _: call.crate == "sctp_delivery",
    "called from C (sctp_c)": lambda call, _: call.crate == "sctp_c" and 'extern "C"' in call.body.split("\n")[0],
    "shows that a caller of the library for C can be proved": lambda call, _: call.path == "crates/sctp_c/src/callers.rt",
    "counts what a call costs (SECURITY cites it)": lambda call, _: call.path.endswith("/costs.rt"),
}
MARKS = r"(?:(?:pub|abbrev|unfoldable|opaque) )*"
HEAD = re.compile(rf"{MARKS}(record |data )?(\S+)")
USE = re.compile(r"^\s*(?:pub |ghost )*use ([^;]*?);?$")
GHOST = re.compile(r"^\s*ghost use (Rattle\.[^;]*);", re.M)
ATTRIBUTE = re.compile(r"([\w:]+::(?:specs|proofs)::[\w:]+)")


@dataclass
class Item:
    """A definition or a lemma, or a section or a file: what has a name, the names that its text cites, and what it is in."""
    path: str
    name: str
    begin: int
    end: int
    outer: "Item" = None
    root: bool = False
    names: dict = field(default_factory=dict)
    cited: set = field(default_factory=set)


def words(text):
    """Returns the names of a line, with their paths; those behind a dot are fields."""
    return {it.rstrip(".") for it in re.split(r"[\s(){}\[\];,|]+", text) if it and not it.startswith(".")}


def bare(line):
    return "" if line.lstrip().startswith("--") else re.split(r"\s--\s", line)[0].rstrip()


def depth(line):
    return len(line) - len(line.lstrip())


def inside(lines, at):
    """Returns where the lines end that are deeper than this one; empty lines and comments before what follows belong to that."""
    end, last = at + 1, at + 1
    while end < len(lines) and (not lines[end] or depth(lines[end]) > depth(lines[at])):
        end += 1
        last = end if lines[end - 1] else last
    return last


def items_of(lines, begin, end, outer, found):
    """Notes the definitions of a scope, whose lines are these, and those of its sections and helpers."""
    at = begin
    while at < end:
        line = lines[at]
        if not line or USE.match(line) or re.match(r"\s*((pub )?mod|open) ", line):
            at += 1
            continue
        until = inside(lines, at)
        if line.lstrip().startswith("module "):
            head = at
            while not lines[head].endswith(" where"):
                head += 1
            it = Item(outer.path, "", at, until, outer)
            it.cited = set().union(*map(words, lines[at : head + 1]))
            items_of(lines, head + 1, until, it, found)
        else:
            it = definition(lines, at, until, outer, found)
        at = until


def definition(lines, at, until, outer, found):
    """Notes what begins at this line: a signature, an equation or an `unfolding` line, which belong to the name before them."""
    made, name = HEAD.match(lines[at].strip()).groups()
    it = outer.names.get(name) or (found[-1] if name == "unfolding" or lines[at].strip()[0] in ")}]" else None)
    if it is None:
        it = Item(outer.path, name, at, until, outer)
        it.root = outer.root or bool(re.search(r": goal\.|\bgoal\.\S+$", lines[at]))
        outer.names[name] = it
        found.append(it)
    it.end = until
    while it.outer is not outer:
        it = it.outer
    if made and made.strip() == "data":
        for line in lines[at + 1 : until]:
            outer.names[HEAD.match(line.strip() or "_")[2]] = it
    helpers = at
    while made is None and helpers < until and not re.match(r"(.* )?where$", lines[helpers].strip()):
        helpers += 1
    it.cited |= set().union(*map(words, lines[at : helpers if made is None else until]))
    if made is None and helpers < until:
        it.cited |= words(lines[helpers])
        items_of(lines, helpers + 1, until, it, found)
    return it


class Sources:
    """All files, with the modules that they are, what they import, and their definitions."""

    def __init__(self, top):
        self.modules, self.imports, self.found, self.start, self.inner = {}, {}, [], [], {}
        for folder, _, files in sorted(os.walk(f"{top}/crates")):
            parts = folder.removeprefix(f"{top}/crates/").split("/")
            for name in sorted(files):
                if len(parts) > 1 and name.endswith(".antt") and parts[1] in ("specs", "proofs"):
                    self.antt(f"{folder}/{name}", ".".join([*parts, name[:-5]]))
                elif len(parts) > 1 and name.endswith(".rt") and parts[1] == "src":
                    self.source(f"{folder}/{name}", parts[0])

    def antt(self, path, module):
        with open(path, encoding="utf-8") as text:
            lines = [bare(it.rstrip()) for it in text]
        whole = Item(path, "", 0, len(lines))
        whole.root = bool(re.search(r"/(Invariants|Proof|\w*Examples|scripts/\w+)\.antt$", path))
        self.modules[module] = whole
        self.imports[path] = {}
        for line in lines:
            if use := USE.match(line):
                self.use(path, use[1])
        before = len(self.found)
        items_of(lines, 0, len(lines), whole, self.found)
        for it in self.found[before:]:
            if not it.outer.name:
                self.inner |= {(path, name): other for name, other in it.outer.names.items()}

    def source(self, path, crate):
        with open(path, encoding="utf-8") as it:
            text = re.sub(r"//.*", "", it.read())
        self.imports[path] = {}
        for use in GHOST.finditer(text):
            self.use(path, use[1])
        whole = Item(path, "", 0, 0, root=True)
        whole.cited = words(GHOST.sub("", text).replace(" ", "\n"))
        whole.cited |= {"Rattle." + it.replace("crate::", f"{crate}::").replace("::", ".") for it in ATTRIBUTE.findall(text)}
        self.start.append(whole)

    def use(self, path, text):
        """Notes what an import brings: a name of a module, or a module."""
        module, _, several = text.removeprefix("Rattle.").partition(".{")
        if not several:
            module, _, named = module.partition(" as ")
            self.imports[path].setdefault(named.strip() or module.split(".")[-1], []).append(module.strip())
        for it in several.rstrip("}").split(",") if several else []:
            own, _, named = it.strip().partition(" as ")
            self.imports[path].setdefault(named.strip() or own, []).append(f"{module}.{own}")

    def named(self, path):
        """Returns what a full path names, its longest part that is a module first: a definition, or nothing that is here."""
        parts = path.split(".")
        for count in range(len(parts) - 1, 0, -1):
            module = ".".join(parts[:count])
            if module in self.modules:
                path = self.modules[module].path
                return self.inner.get((path, parts[count])) or next(filter(None, map(self.named, self.imports[path].get(parts[count], []))), None)
        return None

    def meant(self, item, word):
        """Returns the definitions that a word in the text of this one may mean."""
        first, _, rest = word.partition(".")
        brought = [""] if first == "Rattle" else self.imports[item.path].get(first, [])
        found = [self.named(".".join(filter(None, [it, rest]))) for it in brought]
        while item.outer and first not in item.names:
            item = item.outer
        return [*found, item.names.get(first) or self.inner.get((item.path, first))]

    def live(self):
        """Returns the definitions that are cited, by goals, by sources, or by one that is cited."""
        rest = self.start + [it for it in self.found if it.root]
        seen = {id(it) for it in rest}
        while rest:
            item = rest.pop()
            scopes, outer = [item], item.outer
            while outer:
                scopes, outer = [*scopes, outer], outer.outer
            for word in item.cited.union(*(it.cited for it in scopes if it.name == "")):
                for it in self.meant(item, word):
                    if it and id(it) not in seen:
                        seen.add(id(it))
                        rest.append(it)
        return seen


def dead(top="."):
    """Returns the definitions that nothing cites, but for helpers of such ones."""
    sources = Sources(top)
    live = sources.live()
    return [it for it in sources.found if id(it) not in live and not (it.outer.name and id(it.outer) not in live)]


def fixed_names(path="docs/surface.txt"):
    """Returns the functions that the list of names has, each with its type, or "" where it has none."""
    owner, found = "", set()
    for line in lines_of(path) if os.path.exists(path) else []:
        if line[:1] not in ("", " ", "#"):
            owner = line.split("::")[-1]
        elif named := re.match(r" +(\w+)\(", line):
            found.add((owner if owner[:1].isupper() else "", named[1]))
    return found


def uncalled():
    """Returns the public calls that no code calls but tests, and of each reason of EXEMPT how many of these have it, which are not returned."""
    code, fixed = Code(), fixed_names()
    callers, found, exempt = Callers(code), [], dict.fromkeys(EXEMPT, 0)
    texts = [re.sub(r'"[^"]*"', '""', line).split("//")[0] for path, lines in code.files.items() if path in SHOWN or "_tests/" not in path for line in lines if " use " not in f" {line}"]
    paths = set(re.findall(r"\b(\w+::\w+)\b(?![\w:(<])", "\n".join(texts)))
    for call in code.functions:
        if not call.is_public or call.is_test or call.trait or call.crate.endswith("_tests"):
            continue
        room = call.owner or os.path.basename(call.path)[:-3]
        if f"{room}::{call.name}" in paths or callers.has_code(call):
            continue
        why = next((reason for reason, is_its in EXEMPT.items() if is_its(call, fixed)), None)
        if why:
            exempt[why] += 1
        else:
            found.append(call)
    return found, exempt


def list_uncalled():
    found, exempt = uncalled()
    for it in found:
        print(f"{it.path}:{it.line} {it.title()}")
    for why, count in exempt.items():
        print(f"{count} without a caller: {why}")
    print(f"{len(found)} public calls that no code calls but tests")
    return 1 if found else 0


def main():
    if sys.argv[1:] == ["--calls"]:
        return list_uncalled()
    found, sums = dead(), {}
    for it in found:
        crate = it.path.split("/")[2]
        if sys.argv[1:] and crate not in sys.argv[1:]:
            continue
        print(f"{it.path.removeprefix('./')}:{it.begin + 1} {it.end - it.begin} {it.name}")
        count, lines = sums.get(crate, (0, 0))
        sums[crate] = count + 1, lines + it.end - it.begin
    for crate, (count, lines) in sums.items():
        print(f"{crate}: {count} that nothing cites, {lines} lines")
    return 1 if sums else 0


if __name__ == "__main__":
    sys.exit(main())
