#!/usr/bin/env python3
"""Prints, of a call, its signature, comment and contract, and where its code, definitions, proof, wrong bodies and tests stand; a type with its
variants or fields; or where a word is defined.

    python3 tools/trace.py NAME
    python3 tools/trace.py CRATE
    python3 tools/trace.py --all

run at the top of the repository. NAME is a function (`sna32lt`), a type's function (`PayloadQueue::push`), or either behind a crate's
name (`sctp_outbound::PayloadQueue::push`), public or not; or a type (`ChunkKind`) or a variant or field of it (`ReliabilityType::Timed`), of which
it prints the variants or fields, the definitions that name it and its public calls; or a word of the clauses (`after_sack`, `sctp_receiver::is_stale`),
of which it prints the definition, the calls whose clauses name it, and those whose clauses name a definition that uses it. Where a NAME is of several
functions or types, or of words of several crates, it lists them, each with its crate. Of a CRATE it lists the public calls, each with its signature, the
first sentence of its comment and the names of its clauses, and the names of other crates that it offers. With --all it prints each public call of a library that misses something: a clause or a test that reaches it, and a wrong body or a
caller, or, of a law, its proof; then a count, and the exit status is 0 where nothing is missing. It reads texts alone, and proves nothing.

Where a body only calls another function, whose turns may be counted, proof and wrong bodies are those of the one that does the work too.
Definitions are those of the words that the clauses name, and those that these use, where they stand in a crate of this repository. What has no
clause of its own and is a trait's has the trait's. A caller is a function that calls it by a value of its type, as far as parameters, fields and
results tell; where they don't, and a call of that name is of several types, it stands under `perhaps`.
"""
import os
import re
import signal
import sys

from sources import SHOWN, Sources, crates, files_below, imports, lines_of, promises_of, relations_of
from wrong_bodies import bodies_of, function_of

# crates that only call others
PROGRAMS = ("bench", "linkrun", "sctpdump", "association", "sctp_delivery")
DEFINED = re.compile(r"(?:(?:abbrev|opaque|unfoldable|pub|record|data) )+([^\s:(]+)")
# a call; where a body begins behind its clauses; a body that is one call; and what a body does that only calls another does not do
CALL = re.compile(r"(\.|::)?\b(\w+)(?:::<[^>()]*>)?\(")
BEGINS = re.compile(r"\n *(?:\)[^\n;]*)?\{(?=\n)")
NEW_TURNS = "Turns::new()"
ONE_CALL = re.compile(r"\s*(?:let mut \w+ = _+;\s*)?(?:\w+(?:\.|::))*\w+\([^;{}()]*(?:\(\)[^;{}()]*)*\)", re.S)
BESIDE = re.compile(r"\b(?:if|else|match|for|while|loop|return)\b|\{|^\s*\*?[\w.\[\]]+ [-+*/|&]?= ", re.M)
BRINGS_TYPE = re.compile(r"^(?:pub )?use Rattle\.(\w+)\.specs\.declared\.(?:\w+\.)*?([A-Z]\w*)(?:\.\{([^}]*)\}| as (\w+))$")
DEFINES = r"^\s*(?:(?:abbrev|opaque|unfoldable) )?(?:pub )?(?:abbrev |record |data |let )?"


def definition_at(crate, module, word):
    """Returns the place of a word's definition in a module of a crate's specs; None where it isn't there."""
    at = f"crates/{crate}/specs/{module.replace('.', '/')}.antt"
    if not os.path.exists(at):
        return None
    for number, line in enumerate(lines_of(at), 1):
        if re.match(rf"{DEFINES}{re.escape(word)}(?![\w'])", line) and re.match(r"\s*(abbrev|opaque|unfoldable|pub)\b", line):
            return f"{at}:{number}"
    return None


class Definitions:
    """What each file of the specs defines, and which definitions use which: each is a crate, a module and a word."""

    def __init__(self):
        self.places, self.texts, self.brought, self.declared = {}, {}, {}, {}
        for crate in crates():
            for path in files_below(f"crates/{crate}/specs", ".antt"):
                self.read(crate, path.removeprefix(f"crates/{crate}/specs/").removesuffix(".antt").replace("/", "."), path)
        self.uses = {it: self.used_by(it) for it in self.texts}
        self.users = {}
        for it, used in self.uses.items():
            for one in used:
                self.users.setdefault(one, []).append(it)

    def read(self, crate, module, path):
        words, lines = {}, lines_of(path)
        self.declared[crate, module] = dict(it for line in lines for it in types_brought(line))
        for at, line in enumerate(lines, 1):
            imports(f"ghost {line.removeprefix('pub ')};", words)
            named = DEFINED.match(line)
            if named:
                self.places.setdefault((crate, module, named[1]), f"{path}:{at}")
                end = next((it for it in range(at, len(lines)) if not lines[it].strip()), len(lines))
                self.texts[crate, module, named[1]] = [it for it in lines[at - 1:end] if not it.startswith("--")]
        self.brought[crate, module] = words

    def used_by(self, definition):
        """Returns the definitions that this one uses, where they stand in a crate of this repository."""
        crate, module, word = definition
        words, found = self.brought[crate, module], []
        for first, second in re.findall(r"(?<![\w.])(\w+)(?:\.(\w+))?", " ".join(self.texts[definition])):
            room, place, own = words.get(first, (crate, module, first))
            one = (room, place, own or second)
            if one in self.places and one != definition:
                found.append(one)
        return list(dict.fromkeys(found))

    def on_type(self, kind):
        """Returns the definitions that name a type of the sources, each with its place."""
        found = []
        for (crate, module, word), lines in self.texts.items():
            names = [it for it, its in self.declared[crate, module].items() if its == (kind.crate, kind.name)]
            if any(re.search(rf"(?<![\w.]){re.escape(it)}(?![\w'])", " ".join(lines)) for it in names):
                found.append(f"{word}  {self.places[crate, module, word]}")
        return found

    def behind(self, call):
        """Returns the definitions that those of a call's contract use, but for the latter."""
        named = [it for it in named_by(call) if it in self.uses]
        found = dict.fromkeys(it for one in named for it in self.uses[one] if it not in named)
        return [f"{it[2]}  {self.places[it]}" for it in found]

    def calls_behind(self, definition, functions):
        """Returns the calls whose clauses name a definition that uses this one, and not it: each with those that it names."""
        users, found = set(self.users.get(definition, [])), []
        for it in functions:
            named = named_by(it) if users else []
            by = [one[2] for one in named if one in users]
            if by and definition not in named:
                found.append(f"{it.title()}  {it.path}:{it.line}  by {', '.join(by)}")
        return found


def types_brought(line):
    """Returns the types of the sources that a line of a definitions' file imports: the word there, with the crate and the name."""
    found = BRINGS_TYPE.match(line)
    words = [it.strip().partition(" as ") for it in found[3].split(",")] if found and found[3] else []
    if found and found[4]:
        words = [(found[2], "", f"{found[4]}.{found[2]}")]
    return [((named.strip() or own), (found[1], own)) for own, _, named in words if own == found[2]]


def named_by(call):
    """Returns what the clauses of a call name: a crate, a module and a word each."""
    found = []
    for first, second in re.findall(r"(?<![\w.])(\w+)(?:\.(\w+))?", " ".join(call.clauses)):
        if first in call.words:
            crate, module, own = call.words[first]
            found.append((crate, module, own or second))
    return list(dict.fromkeys(found))


def definitions_of(call):
    """Returns where the words of the contract are defined."""
    found = []
    for crate, module, word in named_by(call):
        at = word and definition_at(crate, module, word)
        if at:
            found.append(f"{word}  {at}")
    return list(dict.fromkeys(found))


def proofs_of(call):
    module = call.path.removeprefix(f"crates/{call.crate}/src/").removesuffix(".rt")
    ends = [f"/{call.owner}/{call.name}", f"/{call.owner}{call.trait}/{call.name}"] if call.owner else [f"/{module}/{call.name}"]
    return [it for it in files_below(f"crates/{call.crate}/proofs", ".antt") if os.path.dirname(it).endswith(tuple(ends))]


def wrong_bodies_of(crate):
    """Returns, for each function of a crate that a wrong body turns, the titles of those bodies."""
    found, room = {}, f"crates/{crate}/must-fail"
    for it in sorted(os.listdir(room)) if os.path.isdir(room) else []:
        for title, pairs in bodies_of(f"{room}/{it}"):
            for path, old, _ in pairs:
                text = "\n".join(lines_of(f"crates/{crate}/{path}"))
                if old in text:
                    owner, name, _ = function_of(text, old)
                    found.setdefault((f"crates/{crate}/{path}", owner, name), set()).add(f"{title or it} ({room}/{it})")
    return found


class Callers:
    """Who calls what: each call in each body by its name, with the type of what stands before its dot."""

    def __init__(self, sources):
        self.sources, self.by_name, self.owners, self.named = sources, {}, {}, {}
        for it in sources.functions:
            self.owners.setdefault(it.name, set()).add(it.owner)
            self.named.setdefault(it.name, []).append(it)
            for found in CALL.finditer(it.body[it.body.find("\n") + 1:]):
                self.by_name.setdefault(found[2], []).append((it, found.start(), found[1] or ""))

    def of(self, call):
        """Returns the functions that call it, and those that perhaps do: each once, tests first."""
        sure, perhaps = {}, {}
        for caller, at, how in self.by_name.get(call.name, []):
            if call.crate not in self.sources.uses.get(caller.crate, ()) or caller is call:
                continue
            verdict = self.is_of(call, caller, at, how)
            if verdict is not False:
                (sure if verdict else perhaps)[(caller.path, caller.line)] = caller
        return rows_of(sure.values()), rows_of(it for key, it in perhaps.items() if key not in sure)

    def has_code(self, call):
        """Whether a function that is no test calls it, or perhaps does."""
        return any(it is not call and not it.is_test and (it.path in SHOWN or not it.crate.endswith("_tests"))
                   and call.crate in self.sources.uses.get(it.crate, ()) and self.is_of(call, it, at, how) is not False
                   for it, at, how in self.by_name.get(call.name, []))

    def body_of(self, call):
        """Returns the calls that this one leads to, the last of which does the work: while a body does nothing beside one call of another
        function of the repository, that one follows."""
        found = [call]
        while (after := self.called_by(found[-1])) and after not in found:
            found.append(after)
        return found[1:]

    def called_by(self, call):
        """Returns the function of the repository whose call is all that a body does; None where it does more, or it can't be told. Beside it the
        body may make new counts of turns; and, where it neither branches nor assigns, call what changes nothing and bind what is given."""
        text = call.body[call.body.find("\n") + 1:]
        begin = None if call.body.split("\n")[0].endswith("{") else BEGINS.search(f"\n{text}")
        begin = begin.end() - 1 if begin else 0
        text = text[:begin] + text[begin:].replace(NEW_TURNS, "_" * len(NEW_TURNS))
        only = ONE_CALL.fullmatch(text[begin:].rstrip())
        if not only and BESIDE.search(text, begin):
            return None
        called = []
        for found in CALL.finditer(text, begin):
            rooms = [it for it in self.named.get(found[2], []) if it is not call and it.trait != "trait" and it.owner != "Turns"
                     and it.crate in self.sources.uses[call.crate] and self.is_of(it, call, found.start(), found[1] or "") is not False]
            if rooms:
                called.append(rooms)
        does = called if only else [it for it in called if any("&mut" in one.head for one in it)]
        return does[0][0] if len(does) == 1 and len(does[0]) == 1 else None

    def is_of(self, call, caller, at, how):
        """Whether what stands in the caller's body at this place is a call of this function; None where it can't be told."""
        text = caller.body[caller.body.find("\n") + 1:]
        if how == "":
            return call.owner == "" and (caller.path == call.path or re.search(rf"\b{call.name}\b", use_lines(self.sources.files[caller.path])) is not None)
        if how == "::":
            room = re.search(r"(\w+)$", text[:at])[1]
            room = caller.owner if room == "Self" else room
            if call.owner or room not in ("crate", "self", "super", call.crate):
                return room == (call.owner or os.path.basename(call.path)[:-3])
            return call.path.endswith(("/lib.rt", "/main.rt")) if room == call.crate else caller.crate == call.crate
        if not call.owner:
            return False
        kind = self.sources.type_at(caller, text, at)
        if kind is None:
            return True if len(self.owners[call.name]) == 1 else None
        kind = re.sub(r"<.*", "", re.sub(r"^(&(?:'\w+)?\s*|mut\s+)+", "", kind)).split("::")[-1].strip()
        return kind == call.owner or (call.trait == "trait" and None)


def use_lines(lines):
    return "\n".join(it for it in lines if re.match(r"\s*(pub )?use |    \w+(, \w+)*,?$|\};?", it))


def rows_of(functions):
    found = sorted(functions, key=lambda it: (not (it.is_test or "tests" in it.crate), it.path, it.line))
    return [(f"{it.name}  {it.path}:{it.line}", it.is_test or "tests" in it.crate) for it in found]


def with_traits(sources):
    """Gives each call of a trait's implementation that has no clause of its own the trait's; returns where they come from."""
    theirs = {(it.owner, it.name): it for it in sources.functions if it.trait == "trait"}
    found = {}
    for it in sources.functions:
        its = theirs.get((it.trait, it.name))
        if its and not it.clauses:
            it.clauses, it.words = its.clauses, its.words
            found[(it.path, it.line)] = f"of the trait: {its.path}:{its.line}"
        elif it.trait not in ("", "trait") and not its and not it.clauses:
            found[(it.path, it.line)] = f"that of the library's trait {it.trait}"
    return found


def missing_of(call, bodies, callers):
    """Returns what a call misses, in words. What a trait has, and an `impl` of it, is called under many names and asks for nothing."""
    if call.trait:
        return []
    if call.path.endswith("laws.rt"):
        return [] if call.clauses and proofs_of(call) else ["a clause or a proof"]
    found, rows = [], sum(callers.of(call), [])
    if not call.clauses and not rows:
        found.append("a clause or a caller")
    if not bodies.get((call.path, call.owner, call.name)) and not rows:
        found.append("a wrong body or a caller")
    return found


def show(title, rows, none, most=12):
    print(f"  {title}")
    for it in rows[:most] or [none]:
        print(f"    {it}")
    if len(rows) > most:
        print(f"    and {len(rows) - most} more")


def comment_of(call):
    """Returns the lines of the comment above a call or a type."""
    return comment_at(call.path, call.line)


def comment_at(path, line):
    lines, begin = lines_of(path), line - 1
    while begin and re.match(r"\s*(///|#\[)", lines[begin - 1]):
        begin -= 1
    return [it.strip().removeprefix("///").strip() for it in lines[begin:line - 1] if it.strip().startswith("///")]


def first_sentence(lines):
    text = " ".join(lines)
    found = re.match(r"(.*?\.)(\s|$)", text)
    return found[1] if found else text


def signature_of(call):
    """Returns the lines of a function's head: its name, its parameters and its result."""
    found = []
    for line in lines_of(call.path)[call.line - 1:]:
        if found and re.match(r"\s*(?:requires\b|ensures\b|where\b|\{)", line):
            break
        found.append(re.sub(r" ?(?:\{\}?|;)$", "", line.removeprefix("    ") if call.owner else line))
        if line.endswith(("{", "{}", ";")):
            break
    return found


def trace(call, traits, bodies, callers, definitions):
    print(f"{call.title()}{'' if call.is_public else '  (private)'}")
    show("code", [f"{call.path}:{call.line}"], "")
    show("signature", signature_of(call), "", 40)
    show("comment", comment_of(call), "none", 60)
    origin = traits.get((call.path, call.line))
    show("contract", ([origin] if origin else []) + call.clauses, "no clause: it is safe and total", len(call.clauses) + 1)
    for relation in relations_of(call):
        show(relation[2], text_at(definition_at(*relation)), "", 40)
    show("definitions", definitions_of(call), "none beside those of its types")
    show("what these use", definitions.behind(call), "none")
    does = callers.body_of(call)
    if does:
        show("its body only calls", [f"{it.title()}  {it.path}:{it.line}" for it in does], "", len(does))
    show("proof", [row for it in [call, *does] for row in proofs_of(it)], "found by the prover alone", 12 + len(does))
    show("wrong bodies", [row + (f" of {it.title()}" if does else "") for it in [call, *does] for row in
                          sorted(bodies[it.crate].get((it.path, it.owner, it.name), []))], "none", 12 + len(does))
    rows, perhaps = callers.of(call)
    show("tests", [row for row, test in rows if test], "none")
    show("other callers", [row for row, test in rows if not test], "none")
    if perhaps:
        show("perhaps", [row for row, _ in perhaps], "none")


def text_at(place):
    """Returns the definition at a place, with the comment before it."""
    path, line = place.rsplit(":", 1)
    lines, begin = lines_of(path), int(line) - 1
    end = next((it for it in range(begin, len(lines)) if not lines[it].strip()), len(lines))
    while begin and lines[begin - 1].startswith("--"):
        begin -= 1
    return lines[begin:end]


def list_calls(crate, sources):
    """Prints the public calls of a crate, but for those that a trait has: those of types first. Then the names of other crates that it offers."""
    listed = [it for it in sources.functions if it.crate == crate and it.is_public and not it.is_test and not it.trait]
    for it in sorted(listed, key=lambda it: not it.owner):
        clauses = promises_of(it)
        print(f"{it.title()}  {it.path}:{it.line}")
        print(f"    {it.head}")
        print(f"    {first_sentence(comment_of(it)) or 'no comment'}" + (f" ({', '.join(clauses)})" if clauses else ""))
    text = "\n".join(lines_of(f"crates/{crate}/src/lib.rt"))
    for other, names in re.findall(r"^pub use (\w+)::((?:\w+::)*(?:\{[^}]*\}|\w+));", text, re.M):
        if other in crates():
            print(f"of {other}: {' '.join(names.replace('{', ' ').replace('}', ' ').split())}".rstrip(","))


def trace_type(kind, sources, definitions):
    """Prints a type: its comment, its variants or fields, the definitions that name it, and the public calls that it has."""
    print(f"{kind.title()}{'' if kind.is_public else '  (private)'}")
    show("code", [f"{kind.path}:{kind.line}"], "")
    show("comment", comment_of(kind), "none", 60)
    head = lines_of(kind.path)[kind.line - 1]
    if head.endswith(";"):
        show("declared as", [head.rstrip(";")], "")
    elif kind.kind != "trait":
        rows = [f"{name}{rest}  {first_sentence(comment_at(kind.path, line))}".rstrip() for name, rest, line in kind.members]
        show("variants" if kind.kind == "enum" else "fields", rows, "none", len(rows))
    show("definitions on it", definitions.on_type(kind), "none", 40)
    calls = [it for it in sources.functions if it.owner == kind.name and it.crate == kind.crate and it.is_public]
    show("public calls", [f"{it.title()}  {it.path}:{it.line}" for it in calls], "none", len(calls))


def trace_types(parts, sources, definitions):
    """Prints the type that a name is of, or whose variant or field it is, or, where there are several, a list. Returns whether there is one."""
    found = [it for it in sources.types if it.title().split("::")[-len(parts):] == parts]
    if not found and len(parts) > 1:
        found = [it for it in sources.types if it.title().split("::")[-len(parts[:-1]):] == parts[:-1] and parts[-1] in (name for name, _, _ in it.members)]
    if len(found) > 1:
        show(f"{'::'.join(parts)}: types", [f"{it.title()}  {it.path}:{it.line}" for it in found], "", len(found))
    for it in found if len(found) == 1 else []:
        trace_type(it, sources, definitions)
    return bool(found)


def trace_word(word, sources, rooms, definitions):
    """Prints the definition of a word of the clauses in these crates, and the calls whose clauses name it, or a definition that uses it; where
    several crates have such a word, a list of them. Returns whether there is one."""
    found = [(crate, module, at) for crate in rooms for path in files_below(f"crates/{crate}/specs", ".antt")
             for module in [path.removeprefix(f"crates/{crate}/specs/").removesuffix(".antt").replace("/", ".")]
             for at in [definition_at(crate, module, word)] if at]
    if len({crate for crate, _, _ in found}) > 1:
        show(f"{word}: words of the clauses", [f"{crate}::{word}  {at}" for crate, _, at in found], "", len(found))
        return True
    for crate, module, at in found:
        print(f"{word}  {at}")
        show("definition", text_at(at), "", 20)
        rows = [f"{it.title()}  {it.path}:{it.line}" for it in sources.functions if (crate, module, word) in named_by(it)]
        show("calls whose clauses name it", rows, "none")
        show("calls whose clauses name a definition that uses it", definitions.calls_behind((crate, module, word), sources.functions), "none")
    return bool(found)


def candidates(parts, sources):
    """Returns the functions of a name, of which parts may be left out at its front, or its type between a crate and its function."""
    return [it for it in sources.functions if it.title().split("::")[-len(parts):] == parts or
            (it.crate == parts[0] and it.title().split("::")[1:][-len(parts[1:]):] == parts[1:])]


def main():
    if len(sys.argv) != 2:
        sys.exit(__doc__)
    sources = Sources()
    if sys.argv[1] in crates():
        return list_calls(sys.argv[1], sources)
    traits, callers = with_traits(sources), Callers(sources)
    bodies = {crate: wrong_bodies_of(crate) for crate in crates()}
    if sys.argv[1] != "--all":
        parts, definitions = sys.argv[1].split("::"), Definitions()
        found = sorted(candidates(parts, sources), key=lambda it: not it.is_public)
        if len({it.title() for it in found}) > 1:
            show(f"{sys.argv[1]}: functions", [f"{it.title()}  {it.path}:{it.line}" for it in found], "", len(found))
        else:
            for call in found:
                trace(call, traits, bodies, callers, definitions)
        rooms = crates() if len(parts) == 1 else [parts[0]] if len(parts) == 2 and parts[0] in crates() else []
        kind = trace_types(parts, sources, definitions)
        word = trace_word(parts[-1], sources, rooms, definitions)
        sys.exit(0 if found or kind or word else f"trace.py: no call, no type and no word of the clauses is named {sys.argv[1]}")
    calls = [it for it in sources.functions if it.is_public and (it.crate not in PROGRAMS or it.path.endswith("laws.rt")) and not it.crate.endswith("_tests")]
    count = 0
    for call in calls:
        for it in missing_of(call, bodies[call.crate], callers):
            count += 1
            print(f"{call.title()} ({call.path}:{call.line}) misses {it}")
    print(f"{len(calls)} public calls, {count} times something is missing")
    sys.exit(1 if count else 0)


if __name__ == "__main__":
    # a reader that goes away, as head does, ends it
    signal.signal(signal.SIGPIPE, signal.SIG_DFL)
    main()
