"""Builds the archive for C, crates/sctp_c/out/libsctp_c.a, out of the library sctp_c:

    python3 packaging/archive.py

Of a static library `rt ci` keeps nothing, and a static library exports only functions of its own root crate. So sctp_c is a library: `rt ci`
proves it once, and keeps it. This writes, into a temporary folder, a static library that has a function for each call of sctp_c that is marked
#[unsafe(no_mangle)], with the same parameters, whose body is that call. The kit proves that none of them can do wrong, whatever is
handed in, and the compiler leaves nothing of it in the archive: each name is that of the proved call. What the kit proved of this is kept in
out/archive, so that it is proved once.

The proved calls take references, which are never NULL. So the name of each that takes one has `proved_` in it, and the archive has the calls of
packaging/checks.c beside them, under the names of the header: these test for NULL first.

It needs the kit's command rt, a C compiler, and what `rt lib` in crates/sctp_c makes: where rt ci has proved sctp_c in this checkout,
c_tests/built_libraries.py has rt lib take that."""

import os
import re
import shutil
import subprocess
import sys
import tempfile

NAME = "sctp_archive"
CALL = re.compile(r'#\[unsafe\(no_mangle\)\]\n(?:#\[[^\n]*\n)*pub extern "C" fn (?P<name>\w+)\((?P<params>[^)]*)\)(?P<result> -> \w+)?')
TYPE = re.compile(r"^pub struct (Sctp\w+)", re.M)
# What the kit's last line has where a crate calls C, may end the process, or hides what it calls (as rt ci holds it).
BEYOND = re.compile(r" (foreign|hides|bugs|may-abort|may-wait|may-serve|partial|main)=")


def exported(name, params):
    """The name of a call in the archive: one that takes a reference, or a handle, has another one than in the header."""
    return name.replace("sctpr_", "sctpr_proved_", 1) if re.search(r"&|\bSctp", params) else name


def sources(folder):
    """The texts of a crate's files by their modules, as 'sctp_c::sender::acks'."""
    found = {}
    for at, _, names in os.walk(f"{folder}/src"):
        for name in sorted(names):
            path = os.path.relpath(f"{at}/{name}", f"{folder}/src").removesuffix(".rt")
            module = "::".join(["sctp_c", *path.split("/")]).removesuffix("::lib")
            with open(f"{at}/{name}", encoding="utf-8") as it:
                found[module] = it.read()
    return dict(sorted(found.items()))


def text_of(folder):
    """The root file of the static library, and the names of its calls."""
    modules = sources(folder)
    types = {name: module for module, text in modules.items() for name in TYPE.findall(text)}
    calls, names, used = [], [], set()
    for module, text in modules.items():
        for found in CALL.finditer(text):
            params = [it.split(":", 1) for it in found["params"].split(",") if it.strip()]
            used.update(it for _, of in params for it in re.findall(r"\b[A-Z]\w*", of))
            taken = ", ".join(f"{name.strip()}: {of.strip()}" for name, of in params)
            given = ", ".join(name.strip() for name, _ in params)
            end = "" if found["result"] else ";"
            names.append(exported(found["name"], found["params"]))
            calls.append(
                f'#[unsafe(no_mangle)]\npub extern "C" fn {names[-1]}({taken}){found["result"] or ""} {{\n'
                f"    {module}::{found['name']}({given}){end}\n}}\n"
            )
    uses = [f"use {types[it]}::{it};" if it in types else f"use std::alloc::{it};" for it in sorted(used)]
    return "\n".join(["#![tactic(auto)]\n", *uses, "", *calls]), names


def words_of(crate, rtlib):
    """The kit's words for a static library over this one."""
    kit = rtlib.KIT
    words = ["--crate-name", NAME, "src/lib.rt", "--extern", f"std={kit}/rlibs/std.rlib", "-L", f"dependency={kit}/rlibs"]
    words += ["--extern", f"{crate.name}={crate.rlib}"]
    for it in [crate, *crate.below()]:
        words += ["-L", f"dependency={os.path.dirname(it.rlib)}"]
    words += ["--antt-project", f"{kit}/rattle/logic/antt-project.json", "--logic-built", f"{kit}/logic_built"]
    words += ["--links", f"{NAME}=", "--crate-type", "staticlib", "--jobs", os.environ.get("RT_JOBS", "2"), "--backend", "llvm"]
    return words + ["--toolchain", f"{kit}/toolchain", "--incremental", os.path.abspath("out/archive")]


def add_checks(archive, room):
    """Puts the calls of checks.c beside the proved ones."""
    flags = ["-std=c99", "-O2", "-fPIC", "-ffunction-sections", "-Wall", "-Wextra", "-Iinclude"]
    subprocess.run([os.environ.get("CC", "cc"), *flags, "-c", "packaging/checks.c", "-o", f"{room}/checks.o"], check=True)
    subprocess.run([os.environ.get("AR", "ar"), "rs", archive, f"{room}/checks.o"], check=True, stderr=subprocess.DEVNULL)


def main():
    if not shutil.which("rt"):
        sys.exit("archive.py: the kit's command rt is not on the PATH")
    kit = os.path.dirname(os.path.dirname(os.path.realpath(shutil.which("rt"))))
    sys.path.insert(0, f"{kit}/bin")
    import rtlib

    crate = next(it for it in rtlib.crates_below(os.getcwd()) if it.name == "sctp_c")
    status = subprocess.run(["rt", "lib"], cwd=crate.folder).returncode
    if status:
        return status
    os.makedirs("out/archive", exist_ok=True)
    archive = f"{crate.folder}/out/libsctp_c.a"
    text, names = text_of(crate.folder)
    with tempfile.TemporaryDirectory(prefix="sctp-archive-") as room:
        os.mkdir(f"{room}/src")
        with open(f"{room}/src/lib.rt", "w", encoding="utf-8") as it:
            it.write(text)
        how = {"cwd": room, "stdout": subprocess.PIPE, "stderr": subprocess.STDOUT, "text": True, "errors": "replace"}
        ran = subprocess.run([f"{kit}/bin/rattle", "build", *words_of(crate, rtlib), "-o", f"{room}/made.a"], **how)
        print(ran.stdout, end="")
        said = ran.stdout.split("\n")
        verdict = next((it for it in said if it.startswith("logic=proved ")), "")
        are_proved = all(f"fn {NAME}::{it}: proved" in said for it in names)
        if ran.returncode or not verdict or not are_proved or BEYOND.search(verdict):
            print(f"archive.py: no archive: the {len(names)} calls are not proved, or reach past the library")
            return ran.returncode or 1
        add_checks(f"{room}/made.a", room)
        shutil.copyfile(f"{room}/made.a", archive)
    return 0


if __name__ == "__main__":
    os.chdir(os.path.dirname(os.path.dirname(os.path.abspath(__file__))))
    sys.exit(main())
