#!/usr/bin/env python3
"""Tries every wrong body of a crate and judges each by the function that it turns; or packs them into few files, or looks for their texts.

    python3 tools/wrong_bodies.py CRATE [JOBS [WORD..]]
    python3 tools/wrong_bodies.py --pack CRATE
    python3 tools/wrong_bodies.py --texts

run at the top of the repository. The first finds the kit's command `rt` on the PATH and runs over libraries that `rt check` has proved. The gate
asks of a file must-fail/*.edit only that the crate with all its wrong bodies is refused, and does not try must-fail/*.md; here the bodies of both
are put into as few copies of the crate as have at most one in each function, and each must be refused in its own function. Prints those that are
not, and ends with a count; the exit status is 0 where each was refused. Of a copy that doesn't compile, or whose check was killed or ended
without a verdict, it says so: none of its bodies is judged then, and the exit status is 1. With words it tries those alone whose file's name or
title has one of them.

With --pack it tries nothing: it writes must-fail/ anew. 0_bodies.edit, which the gate tries, keeps its wrong bodies and takes those of each file
whose first line begins with "First: "; a crate of whose wrong bodies the gate tries none has no such file. All others stand in 1_bodies.md,
2_bodies.md, .., in as few as have at most one in each function. A file whose first line begins with "Alone: " stays as it is. Each body keeps
its texts and its title; the body of a file without titles takes the file's name as its title, in words.

With --texts it tries nothing either: it prints each text of all crates' wrong bodies that does not stand once in its file, or that has a backslash and
an n outside of a string, which is no line break. It ends with a count; the exit status is 0 where there is none.
"""
import importlib.machinery
import importlib.util
import os
import re
import shutil
import signal
import sys
import tempfile

ALONE = "Alone: "
FIRST = "First: "
ENDINGS = (".edit", ".md")
HEAD = """Each title is a wrong body of its own, in a function of its own; each is refused in that function (docs/GATE.md says how they were tried).
"""
QUOTED = re.compile(r"""\"(?:[^\"\\]|\\.)*\"|'(?:[^'\\]|\\.)'""")
FN = re.compile(r'\s*(?:pub(?:\([a-z]+\))?\s+)?(?:const\s+)?(?:extern "C" )?fn\s+(\w+)')


def kit():
    """Returns the kit's command `rt` as a module: how it finds crates, applies an edit and checks a copy."""
    path = shutil.which("rt")
    if not path:
        sys.exit("wrong_bodies.py: the kit's command rt is not on the PATH")
    path = os.path.realpath(path)
    sys.path.insert(0, os.path.dirname(path))
    loader = importlib.machinery.SourceFileLoader("rt_of_the_kit", path)
    found = importlib.util.module_from_spec(importlib.util.spec_from_loader(loader.name, loader))
    loader.exec_module(found)
    return found


def bodies_of(edit):
    """Returns the wrong bodies of an edit file: for each its title ("" where it has none) and its (file, old, new)."""
    found, path, old = [], "", ""
    with open(edit, encoding="utf-8") as text:
        for line in text.read().split("\n"):
            if line.startswith("file: "):
                path = line[len("file: "):].strip()
            elif line.startswith("- "):
                found.append((line[2:].strip(), []))
            elif line.startswith("old: "):
                old = line[len("old: "):]
            elif line.startswith("new:"):
                if not found:
                    found.append(("", []))
                found[-1][1].append((path, old, line[len("new:"):].removeprefix(" ")))
    return [it for it in found if it[1]]


def named(edit):
    """Returns the wrong bodies of an edit file, each under the file's name and its title."""
    name = os.path.basename(edit)
    return [(f"{name} ({title})" if title else name, pairs) for title, pairs in bodies_of(edit)]


def function_of(text, old):
    """Returns the type whose impl holds this text (or ""), the name of its function, and the line where that begins."""
    lines = text[: text.find(old) + len(old.split("\n")[0])].split("\n")
    begin = next((it for it in range(len(lines) - 1, -1, -1) if FN.match(lines[it])), 0)
    name = FN.match(lines[begin])
    owner = ""
    if lines[begin].startswith(" "):
        block = next((lines[it] for it in range(begin, -1, -1) if re.match(r"(impl|trait|pub trait)\b", lines[it])), "")
        owner = re.sub(r"<[^<>]*>", "", re.sub(r"<[^<>]*>", "", block.removeprefix("pub ")))
        owner = re.sub(r"^(impl|trait)\s+", "", owner).split(" for ")[-1].split()[0].strip("{:")
    return owner, name[1] if name else "", begin


def source_of(folder, path):
    with open(f"{folder}/{path}", encoding="utf-8") as it:
        return it.read()


def functions_of(folder, name, pairs):
    """Returns the functions that a wrong body turns, each a file, a type, a name and a line, or stops where a text does not stand once."""
    texts, functions = {}, set()
    for path, old, new in pairs:
        text = texts.get(path) or source_of(folder, path)
        if text.count(old) != 1:
            sys.exit(f"{name}: its text does not stand once in {path}: {old}")
        functions.add((path, *function_of(text, old)))
        texts[path] = text.replace(old, new)
    return functions


def copies_of(folder, bodies):
    """Returns sets of wrong bodies with at most one in each function, each set with the texts that it makes."""
    copies = []
    for name, pairs in bodies:
        functions = functions_of(folder, name, pairs)
        for texts, held, taken in [*copies, ({}, [], set())]:
            now = {path: texts.get(path) or source_of(folder, path) for path, _, _ in pairs}
            ready = not functions & taken
            for path, old, new in pairs:
                ready = ready and now[path].count(old) == 1
                now[path] = now[path].replace(old, new)
            if ready:
                if not held:
                    copies.append((texts, held, taken))
                texts.update(now)
                taken |= functions
                held.append((name, functions))
                break
    return copies


def text_of(bodies):
    """Returns the text of a shared file: its first line, then for each source file its wrong bodies under their titles."""
    lines, last = [HEAD], ""
    for title, pairs in bodies:
        for number, (path, old, new) in enumerate(pairs):
            if path != last:
                lines.append(f"file: {path}\n")
                last = path
            if number == 0:
                lines.append(f"- {title}")
            lines += [f"old: {old}", f"new: {new}" if new else "new:"]
        lines.append("")
    return "\n".join(lines).rstrip("\n") + "\n"


def rank_of(room, edit):
    """Returns when the bodies of a file are packed: those marked as first, then what stands in packed files in their order, then the others."""
    if source_of(room, edit).startswith(FIRST):
        return -1
    packed = re.fullmatch(r"(\d+)_bodies\.(?:edit|md)", edit)
    return int(packed[1]) if packed else len(os.listdir(room))


def pack(folder):
    """Writes the must-fail files of a crate anew: those that stand alone as they are, what the gate tries, and the others in as few files as serve."""
    room = f"{folder}/must-fail"
    edits = {it: bodies_of(f"{room}/{it}") for it in sorted(os.listdir(room)) if it.endswith(ENDINGS)}
    shared = {it: bodies for it, bodies in edits.items() if not source_of(room, it).startswith(ALONE)}
    bodies = [(title or os.path.splitext(it)[0].replace("_", " "), pairs) for it, found in shared.items() for title, pairs in found]
    rank = {title or os.path.splitext(it)[0].replace("_", " "): rank_of(room, it) for it, found in shared.items() for title, _ in found}
    bodies.sort(key=lambda it: (rank[it[0]], it[1][0][0], it[0]))
    twice = sorted({title for title, _ in bodies if [it for it, _ in bodies].count(title) > 1})
    if twice:
        sys.exit(f"{folder}: more than one wrong body has the title {', '.join(map(repr, twice))}")
    pairs_of = dict(bodies)
    tried = [it for it in bodies if rank[it[0]] <= 0]
    packed = [held for part in (tried, [it for it in bodies if it not in tried]) for _, held, _ in copies_of(folder, part)]
    if tried and len(copies_of(folder, tried)) > 1:
        sys.exit(f"{folder}: the gate is to try two wrong bodies of one function")
    files = [[(title, pairs_of[title]) for title, _ in held] for held in packed]
    first = 0 if tried else 1
    for it in files:
        it.sort(key=lambda body: (body[1][0][0], body[0]))
    written = {f"{number}_bodies.{'md' if number else 'edit'}": text_of(it) for number, it in enumerate(files, first)}
    alone = [it for it in edits if it not in shared]
    if set(alone) & set(written):
        sys.exit(f"{folder}: a file of shared bodies is marked as one that stands alone")
    for it in shared:
        os.remove(f"{room}/{it}")
    for it, text in written.items():
        with open(f"{room}/{it}", "w", encoding="utf-8") as out:
            out.write(text)
    check_packed(folder, edits, written)
    for it, found in zip(written, files):
        print(f"{room}/{it}: {len(found)} wrong bodies")
    print(f"{folder}: {sum(map(len, files))} wrong bodies in {len(files)} files, {len(alone)} files alone")


def check_packed(folder, before, written):
    """Stops where a wrong body was lost, made or changed, or where a text of a written file does not stand once as the earlier pairs left it."""
    room = f"{folder}/must-fail"
    after = {it: bodies_of(f"{room}/{it}") for it in os.listdir(room) if it.endswith(ENDINGS)}
    old, new = (sorted(pairs for found in it.values() for _, pairs in found) for it in (before, after))
    if old != new:
        sys.exit(f"{folder}: the wrong bodies are not those that were there; git has them")
    for it in written:
        taken = set()
        for title, pairs in after[it]:
            functions = functions_of(folder, title, pairs)
            if functions & taken:
                sys.exit(f"{room}/{it}: {title}: two wrong bodies in one function")
            taken |= functions
        functions_of(folder, it, [pair for _, pairs in after[it] for pair in pairs])


def misplaced(folder):
    """Returns a line for each text of a crate's wrong bodies that does not stand once in its file, or can't be read."""
    room, found = f"{folder}/must-fail", []
    for edit in sorted(it for it in os.listdir(room) if it.endswith(ENDINGS)):
        for name, pairs in named(f"{room}/{edit}"):
            texts = {}
            for path, old, new in pairs:
                text = texts.get(path) or source_of(folder, path)
                if text.count(old) != 1:
                    found.append(f"{room}/{name}: stands {text.count(old)} times in {path}: {old}")
                if "\\n" in QUOTED.sub("", new):
                    found.append(f"{room}/{name}: has a line break that is none: {new}")
                texts[path] = text.replace(old, new)
    return found


def refused_in(out):
    """Returns the functions that a check did not prove for what they are themselves, not only for a function that they call."""
    found = set()
    for line in out.split("\n"):
        at = re.match(r"fn (\S+): (?!proved|no proof: it (?:calls|passes))", line)
        if at:
            found.add(at[1])
    return found


def why_not_judged(status, out, is_unread):
    """Returns why a check that ended with this status and these lines judged nothing, "" where it judged; is_unread tells of a line that the
    prover could not read the text that it names."""
    if status == -signal.SIGKILL:
        return "its check was killed, most likely for memory"
    lines = [it for it in out.split("\n") if it.strip()]
    judged = any(it.startswith("logic=") for it in lines)
    bad = next((it for it in lines if is_unread(it) or (not judged and re.search(r"\berror\[[\w-]+\]", it))), "")
    if bad:
        return f"doesn't compile: {bad}"
    if status in (0, 1) and judged:
        return ""
    return f"its check ended with status {status} and no verdict: {(lines or ['it said nothing'])[-1]}"


def is_refused(functions, refused, crate):
    """Returns whether one of these functions, each a file, a type, a name and a line, is among the refused."""
    for path, owner, name, _ in functions:
        module = path.removeprefix("src/").removesuffix(".rt").removesuffix("/mod").replace("/", "::")
        module = "" if module in ("lib", "main") else f"{module}::"
        owner = f"{owner[:1].upper()}{owner[1:]}"
        # a method is told under the module of its type, which may stand in another file than its impl
        own = re.compile(rf"{crate}::(?:[a-z]\w*::)*{owner}\w*::{name}" if owner else rf"{crate}::{module}{name}")
        if any(own.fullmatch(it) for it in refused):
            return True
    return False


def main():
    if sys.argv[1:2] == ["--pack"]:
        for name in sys.argv[2:]:
            pack(f"crates/{name}")
        return 0
    if sys.argv[1:2] == ["--texts"]:
        crates = [f"crates/{it}" for it in sorted(os.listdir("crates")) if os.path.isdir(f"crates/{it}/must-fail")]
        found = [line for folder in crates for line in misplaced(folder)]
        print("\n".join([*found, f"{len(found)} texts that do not stand once"]))
        return 1 if found else 0
    crate_name, jobs, words = sys.argv[1], sys.argv[2] if len(sys.argv) > 2 else "4", sys.argv[3:]
    sys.argv = ["rt"]
    rt = kit()
    crate = next(it for it in rt.rtlib.crates_below(os.getcwd()) if it.name == crate_name)
    room = f"{crate.folder}/must-fail"
    bodies = [it for edit in sorted(os.listdir(room)) if edit.endswith(ENDINGS) for it in named(f"{room}/{edit}")]
    bodies = [it for it in bodies if not words or any(word in it[0] for word in words)]
    survived, unjudged = 0, 0
    with tempfile.TemporaryDirectory(prefix="wrong-bodies-") as room:
        kept = f"{room}/kept"
        if os.path.isdir(f"{crate.folder}/out/incremental"):
            shutil.copytree(f"{crate.folder}/out/incremental", kept)
        copies = copies_of(crate.folder, bodies)
        for number, (texts, held, _) in enumerate(copies):
            ran = rt.checked(crate, texts, ["--jobs", jobs], kept)
            if os.environ.get("WRONG_BODIES_OUT"):
                with open(f"{os.environ['WRONG_BODIES_OUT']}/{crate_name}.{number}", "w") as it:
                    it.write(ran.stdout)
            why = why_not_judged(ran.returncode, ran.stdout, lambda line: rt.unread(line, texts))
            refused = refused_in(ran.stdout)
            for name, functions in held:
                if why:
                    unjudged += 1
                    print(f"NOT JUDGED: {name}: {why[:300]}")
                elif not is_refused(functions, refused, crate_name):
                    survived += 1
                    print(f"NOT REFUSED in its function: {name}: {sorted(it[:3] for it in functions)}")
            print(f"copy {number + 1} of {len(copies)}: {len(held)} wrong bodies", flush=True)
    others = f", {unjudged} not judged" if unjudged else ""
    print(f"{crate_name}: {len(bodies) - survived - unjudged} wrong bodies refused, {survived} not{others}")
    return 1 if survived or unjudged else 0


if __name__ == "__main__":
    sys.exit(main())
