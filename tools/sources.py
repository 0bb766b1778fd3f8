"""Reads the sources of all crates: their functions, the types of their fields, and of what stands before a call's dot.

It is no prover and no compiler: it follows names, fields, returns and patterns as far as a reader would, and says None where it can't tell.
"""
import os
import re
from dataclasses import dataclass, field

FN = re.compile(r"^(\s*)(pub(?:\([a-z]+\))? )?(?:const )?(?:unsafe )?(?:extern \"C\" )?fn (\w+)")
BLOCK = re.compile(r"^(?:impl|pub trait|trait)\b(.*)")
ENUM = re.compile(r"^(?:pub(?:\([a-z]+\))? )?enum (\w+)")
VARIANT = re.compile(r"^    (\w+)\((.+?)\),?$")
STRUCT = re.compile(r"^(?:pub(?:\([a-z]+\))? )?struct (\w+)")
TYPE = re.compile(r"^(pub(?:\([a-z]+\))? )?(enum|struct|trait|type) (\w+)")
MEMBER = re.compile(r"^    (?:pub(?:\([a-z]+\))? )?(\w+)(?=[:,({ ]|$)(.*?)[,{]?$")
FIELD = re.compile(r"^\s+(?:pub(?:\([a-z]+\))? )?(\w+): (.+?),?$")
USE = re.compile(r"^\s*ghost use Rattle\.(sctp_\w+|crc32c|linkscript|bench|association)\.specs\.([\w.]+?)(?:\.\{(.*)\}| as (\w+))?;")
KEEPS = {"as_ref", "as_mut", "as_slice", "as_mut_slice", "iter", "iter_mut", "into_iter", "as_deref", "try_clone", "clone", "copied", "cloned", "to_owned",
         "skip", "take", "rev", "filter", "ok", "unwrap_or", "unwrap_or_default", "by_ref", "ok_or", "map_err"}
OPENS = {"unwrap", "expect", "unwrap_or_else"}
GIVES_ONE = {"get", "get_mut", "front", "back", "first", "last", "pop", "pop_front", "pop_back", "next", "front_mut", "last_mut", "nth", "remove",
             "find", "iter_next"}
MAKES = {"new", "with_capacity", "default", "from", "from_static", "copy_from_slice", "from_slice"}
# the proved callers that CALLING pages show: they stand beside tests, and are none
SHOWN = {"crates/link_tests/src/callers.rt", "crates/packet_tests/src/channels.rt", "crates/packet_tests/src/cookies.rt",
         "crates/packet_tests/src/packets.rt", "crates/packet_tests/src/parameters.rt",
         "crates/transfer_tests/src/queues/calls.rt", "crates/transfer_tests/src/queues/receive.rt", "crates/transfer_tests/src/receiving.rt",
         "crates/transfer_tests/src/sending.rt"}
WRAPS = ("Option", "Result", "Box", "Vec", "VecDeque", "Rc", "Arc")


@dataclass
class Function:
    crate: str
    path: str
    line: int
    owner: str
    name: str
    trait: str
    is_public: bool
    is_test: bool
    head: str
    body: str
    clauses: list = field(default_factory=list)
    words: dict = field(default_factory=dict)

    def title(self):
        owner = f"{self.owner}::" if self.owner else ""
        return f"{self.crate}::{owner}{self.name}"


@dataclass
class Type:
    """A type with its variants or fields: each a name, what follows it, and its line."""
    crate: str
    path: str
    line: int
    kind: str
    name: str
    is_public: bool
    members: list

    def title(self):
        return f"{self.crate}::{self.name}"


def lines_of(path):
    with open(path, encoding="utf-8") as text:
        return text.read().split("\n")


def files_below(folder, ending):
    return sorted(f"{at}/{it}" for at, _, names in os.walk(folder) for it in names if it.endswith(ending))


def crates():
    with open("crates.txt", encoding="utf-8") as text:
        return [line.split(":")[0].split()[0] for line in text if ":" in line and not line.startswith("#")]


def uses_of():
    """Returns, for each crate, itself and all crates below it."""
    below = {}
    with open("crates.txt", encoding="utf-8") as text:
        for line in text:
            if ":" in line and not line.startswith("#"):
                below[line.split(":")[0].split()[0]] = line.split(":")[1].split()
    found = {it: {it} for it in below}
    for _ in below:
        found = {it: found[it].union(*(found.get(low, set()) for low in below[it])) for it in below}
    return found


def block_of(header):
    """Returns the type and the trait ("" where there is none) of an `impl` or `trait` line."""
    text = re.sub(r"<[^<>]*>", "", re.sub(r"<[^<>]*>", "", header)).split(" where ")[0].strip(" {")
    parts = [it.split(":")[0] if "::" not in it else it for it in (it.strip() for it in text.split(" for "))]
    return parts[-1].split("::")[-1].split()[0], parts[0].split("::")[-1].strip() if len(parts) > 1 else ""


def imports(line, words):
    """Notes the words that a `ghost use` line brings: each with its crate, its module and its own name, "" for a module."""
    found = USE.match(line)
    if not found or ".declared." in f".{found[2]}.":
        return
    crate, module, several, alias = found.groups()
    if several is None:
        words[alias or module.split(".")[-1]] = (crate, module, "")
        return
    for it in several.split(","):
        own, _, named = it.strip().partition(" as ")
        words[named.strip() or own] = (crate, module, own)


def clauses_from(lines, at):
    """Returns the lines of the contract of the function that begins at this line."""
    found, inside = [], False
    for line in lines[at:]:
        text = line.strip()
        if inside and (text in ("{", "{}") or text.startswith("///") or not text):
            break
        if text.startswith("//"):
            continue
        if re.match(r"(requires|ensures)\b", text):
            inside = True
        if inside:
            found.append(text)
        elif text.endswith("{") or text.endswith(";"):
            break
    return found


def fields_of(crate, module, word):
    """Returns the names of a record's fields in a module of a crate's specs, and of those of the fields that it opens."""
    at = f"crates/{crate}/specs/{module.replace('.', '/')}.antt"
    text = "\n".join(lines_of(at)) if os.path.exists(at) else ""
    found = re.search(rf"^pub record {re.escape(word)}(?![\w'])(.*?)(?:\n\n|\Z)", text, re.M | re.S)
    if not found:
        return []
    fields = re.findall(r"^  pub (\w+) : (\w+)", found[1], re.M)
    opened = re.findall(r"^  pub open (\w+) use \*", found[1], re.M)
    return [*(name for name, _ in fields), *(it for name, kind in fields if name in opened for it in fields_of(crate, module, kind))]


def relations_of(call):
    """Returns the records that clauses of a call are: a crate, a module and a word each."""
    named = re.findall(r"\bensures (?:\w+ )?\{ (\w+)", " ".join(call.clauses))
    return [call.words[it] for it in named if it in call.words and fields_of(*call.words[it])]


def promises_of(call):
    """Returns the names of what a call ensures: of its clauses, and of the fields of a record that a clause is."""
    fields = [it for relation in relations_of(call) for it in fields_of(*relation)]
    return [*re.findall(r"\bensures (\w+) \{", " ".join(call.clauses)), *fields]


def head_from(lines, at):
    """Returns the text of a function's head: its name, parameters and result."""
    found = []
    for line in lines[at:]:
        text = line.strip()
        if found and re.match(r"(requires|ensures)\b|\{", text):
            break
        found.append(text)
        if text.endswith("{") or text.endswith(";"):
            break
    return re.sub(r"(?<=[(<&]) | (?=[)>,])", "", " ".join(found)).rstrip("{; ").replace(",)", ")")


def functions_of(crate, path):
    """Returns the functions of a source file, with their texts."""
    found, lines = [], lines_of(path)
    owner, trait, top, inner, shown = "", "", {}, {}, False
    for at, line in enumerate(lines):
        block = BLOCK.match(line)
        if block:
            owner, trait = block_of(block[1])
            trait = trait or ("trait" if "trait " in line else "")
            inner, shown = {}, bool(trait)
        elif line.startswith("}"):
            owner, trait, inner, shown = "", "", {}, False
        elif "ghost use" in line:
            imports(line, inner if line.startswith(" ") else top)
        fn = FN.match(line)
        if not fn:
            continue
        end = next((it for it in range(at + 1, len(lines)) if lines[it] == f"{fn[1]}}}" or lines[it].endswith(";") and lines[it].startswith(fn[1] + "fn")), len(lines))
        public = (fn[2] or "").strip() == "pub" or (shown and fn[1] == "    ")
        found.append(Function(crate, path, at + 1, owner if fn[1] else "", fn[3], trait if fn[1] else "", public,
                              "#[test]" in "".join(lines[max(at - 2, 0):at]), head_from(lines, at),
                              "\n".join(lines[at:end]), clauses_from(lines, at), {**top, **inner}))
    return found


def types_of(crate, path):
    """Returns the types that a source file declares."""
    found, lines = [], lines_of(path)
    for at, line in enumerate(lines):
        named = TYPE.match(line)
        if not named:
            continue
        end = next((it for it in range(at, len(lines)) if lines[it].startswith("}")), at) if line.endswith("{") else at
        rows = [(it, MEMBER.match(lines[it])) for it in range(at + 1, end)] if named[2] in ("enum", "struct") else []
        members = [(it[1], it[2].rstrip(), number + 1) for number, it in rows if it]
        found.append(Type(crate, path, at + 1, named[2], named[3], (named[1] or "").strip() == "pub", members))
    return found


def bare(kind):
    """Returns a type without what only lends it: `&'a mut [T]` is `[T]`."""
    kind = kind.strip()
    while True:
        cut = re.sub(r"^(&(?:'\w+)?\s*|mut\s+|dyn\s+)", "", kind).strip()
        if cut == kind:
            return kind
        kind = cut


def inside(kind):
    """Returns what a wrapper holds: T of `Option<T>`, `Result<T, E>`, `Vec<T>`, `[T]`; None where it is no wrapper."""
    kind = bare(kind)
    if kind.startswith("["):
        return bare(kind[1:].split("]")[0].split(";")[0])
    found = re.match(r"(?:\w+::)*(\w+)<(.*)>$", kind)
    if not found or found[1] not in WRAPS:
        return None
    depth, text = 0, ""
    for it in found[2]:
        depth += it in "<([" 
        depth -= it in ">)]"
        if it == "," and depth == 0:
            break
        text += it
    return bare(text)


def nominal(kind):
    """Returns the name of a type: `Pool` of `&mut Pool`, of `Box<Pool>` too."""
    kind = bare(kind)
    if kind.startswith("Box<"):
        return nominal(inside(kind))
    return re.sub(r"<.*", "", kind).split("::")[-1]


class Sources:
    """All functions of all crates, and the types that their texts tell."""

    def __init__(self):
        self.functions, self.types, self.fields, self.files, self.variants = [], [], {}, {}, {}
        for crate in crates():
            for path in files_below(f"crates/{crate}/src", ".rt"):
                self.files[path] = lines_of(path)
                self.functions += functions_of(crate, path)
                self.types += types_of(crate, path)
                self.note_fields(self.files[path])
        self.returns, self.uses = {}, uses_of()
        for it in self.functions:
            gives = it.head.partition(") -> ")[2].split(" where ")[0]
            self.returns.setdefault((it.owner, it.name), gives.replace("Self", it.owner) if it.owner else gives)

    def note_fields(self, lines):
        name, kinds = "", None
        for line in lines:
            struct, enum = STRUCT.match(line), ENUM.match(line)
            if struct or enum:
                name, kinds = (struct or enum)[1] if line.endswith("{") else "", enum
            elif line.startswith("}"):
                name = ""
            elif name and not kinds and FIELD.match(line):
                found = FIELD.match(line)
                self.fields.setdefault((name, found[1]), found[2])
            elif name and kinds and VARIANT.match(line):
                found = VARIANT.match(line)
                self.variants.setdefault((name, found[1]), found[2])

    def type_at(self, function, text, at):
        """Returns the type of what stands before the dot at this place of a function's text; None where it can't be told."""
        locals_, expression = self.locals_of(function), before(text, at)
        first = re.match(r"\w+", expression)
        for found in re.finditer(r"(\w+)::(\w+)\((?:ref )?(?:mut )?(\w+)\)\s*(?:=>|=[^=])", text[:at]) if first else []:
            room = function.owner if found[1] == "Self" else found[1]
            if found[3] == first[0] and (room, found[2]) in self.variants:
                locals_ = {**locals_, first[0]: self.variants[(room, found[2])]}
        return self.type_of(expression, locals_, function.owner)

    def type_of(self, text, locals_, owner):
        """Returns the type of an expression, as far as it can be told; None where it can't."""
        steps = steps_of(text)
        if not steps:
            return None
        kind = self.base(steps[0], locals_, owner)
        for step in steps[1:]:
            if kind is None:
                return None
            kind = self.after(step, kind)
        return kind

    def base(self, step, locals_, owner):
        step = re.sub(r"^(&\s*(?:mut\s+)?|\*)+", "", step).strip()
        if step == "self":
            return owner
        if step in locals_:
            return locals_[step]
        called = re.match(r"((?:\w+::)*)(\w+)(?:::<.*?>)?(\(.*\))$", step, re.S)
        if not called:
            made = re.match(r"(?:\w+::)*([A-Z]\w+)\s*\{", step)
            return made[1] if made else None
        room = called[1].rstrip(":").split("::")[-1]
        kind = owner if room == "Self" else room
        if called[2] in ("Some", "Ok"):
            held = self.type_of(called[3][1:-1], locals_, owner)
            return f"Option<{held}>" if held else None
        known = self.returns.get((kind if kind[:1].isupper() else "", called[2])) or None
        return known or (kind if kind[:1].isupper() and called[2] in MAKES else None)

    def after(self, step, kind):
        """Returns the type behind one step: `?`, `[..]`, a field or a call."""
        if step == "?":
            return inside(kind)
        if step.startswith("["):
            return kind if ".." in step else inside(kind)
        named = re.match(r"\w+", step)
        if not named:
            return None
        name = named[0]
        if "(" not in step:
            return self.fields.get((nominal(kind), name))
        own = self.returns.get((nominal(kind), name))
        if own is not None:
            return own or None
        if name in KEEPS:
            return kind
        if name in OPENS:
            return inside(kind)
        if name in GIVES_ONE and inside(kind):
            return inside(kind) if bare(kind).startswith("Option") else f"Option<{inside(kind)}>"
        return None

    def locals_of(self, function):
        """Returns the types of a function's parameters and of what it binds, as far as they can be told."""
        found, owner = {}, function.owner
        head = re.sub(r"^\s*pub\([a-z]+\) ", "", function.head)
        inside_ = head.partition("(")[2].rpartition(")")[0] if ") -> " not in head else head.partition("(")[2].rpartition(") -> ")[0]
        for it in split_top(inside_):
            named = re.match(r"(?:mut )?(\w+): (.*)$", it.strip(), re.S)
            if named:
                found[named[1]] = named[2].replace("Self", owner) if owner else named[2]
        for line in re.finditer(r"\b(let|for|if let|while let)\s+(?:mut\s+)?(.+?)\s*(?:=|\bin\b)\s*(.+?)(?:;|\s+else\s*\{|\s*\{\n)", function.body, re.S):
            self.bind(line[1], line[2].strip(), line[3].strip(), found, owner)
        return found

    def bind(self, how, pattern, text, found, owner):
        named = re.match(r"(\w+)\s*:\s*(.+)$", pattern)
        if named:
            found[named[1]] = named[2]
            return
        kind = self.type_of(text, found, owner)
        opened = re.match(r"(?:Some|Ok)\((?:ref )?(?:mut )?(\w+)\)$", pattern)
        name = opened[1] if opened else pattern
        if not re.fullmatch(r"\w+", name):
            return
        if kind and (opened or how == "for"):
            kind = inside(kind)
        if kind:
            found[name] = kind
        else:
            found.pop(name, None)


def split_top(text):
    """Splits a list of parameters at its commas, those within brackets left."""
    found, depth, one = [], 0, ""
    for it in text:
        depth += it in "<([{"
        depth -= it in ">)]}"
        if it == "," and depth == 0:
            found.append(one)
            one = ""
        else:
            one += it
    return found + [one] if one.strip() else found


def steps_of(text):
    """Cuts an expression at its dots, question marks and indices, those within brackets left."""
    found, depth, one = [], 0, ""
    text = re.sub(r"^(&\s*(?:mut\s+)?|\*|match\s+|return\s+)+", "", text.strip())
    for it in text:
        if depth == 0 and it in ".?[":
            if it == "." and one.endswith("."):
                return []
            if one.strip():
                found.append(one.strip())
            one = "[" if it == "[" else ""
            if it == "?":
                found.append("?")
            depth += it == "["
            continue
        depth += it in "([{"
        depth -= it in ")]}"
        one += it
        if it == "]" and depth == 0 and one.startswith("["):
            found.append(one)
            one = ""
        if depth < 0:
            return []
    if one.strip():
        found.append(one.strip())
    return found


def before(text, at):
    """Returns the expression that ends where the text's dot at this place stands."""
    begin, depth = at, 0
    while begin > 0:
        it = text[begin - 1]
        if it in ")]}":
            depth += 1
        elif it in "([{":
            if depth == 0:
                break
            depth -= 1
        elif depth == 0 and not (it.isalnum() or it in "_.?:" or it.isspace() and begin_joins(text, begin)):
            break
        begin -= 1
    return text[begin:at].strip()


def begin_joins(text, begin):
    """Whether the blank before this place only folds a chain of calls."""
    return text[begin:].lstrip().startswith(".")
