"""Lets `rt lib` take the libraries that `rt ci` proved and built in this checkout, so that it proves none of them a second time:

    python3 c_tests/built_libraries.py

rt ci leaves each library under crates/NAME/out/rlib, but not the stamp by which rt lib knows of which files it was made. This writes the
stamps, in a checkout in which no library has one, so that all are of one run. A library gets one only where it was built after each file
that it is made of was written, and where those below have one. Where the kit has no such stamps, nothing is written, and rt lib proves what
it needs. Prints how many libraries have a stamp."""

import os
import shutil
import sys


def libraries():
    """The crates of this repository, lowest first, and the kit's module that knows them."""
    kit = os.path.dirname(os.path.dirname(os.path.realpath(shutil.which("rt"))))
    sys.path.insert(0, f"{kit}/bin")
    import rtlib

    made, known = rtlib.Crate.stamp, {}

    def stamp(crate):
        if crate.folder not in known:
            known[crate.folder] = made(crate)
        return known[crate.folder]

    # A crate's stamp holds those of the crates below it: each is computed once.
    rtlib.Crate.stamp = stamp
    return [it for it in rtlib.crates_below(os.getcwd()) if not it.is_program], rtlib


def newest(crate, rtlib):
    """When the last of the files that a crate is made of, without those below it, was written."""
    return max(os.stat(it).st_mtime for it in [*rtlib.files_of(crate.folder), "crates.txt"])


def main():
    crates, rtlib = libraries()
    stamps = [f"{os.path.dirname(it.rlib)}/stamp" for it in crates]
    if any(os.path.exists(it) for it in stamps):
        print("built_libraries.py: nothing is taken, since rt lib or rt check built some")
        return
    written = {it.name: newest(it, rtlib) for it in crates}
    stamped = set()
    for crate in crates:
        below = {it.name for it in crate.below()}
        if not below <= stamped or not os.path.isdir(crate.rlib):
            continue
        if os.stat(crate.rlib).st_mtime < max(written[it] for it in below | {crate.name}):
            continue
        with open(f"{os.path.dirname(crate.rlib)}/stamp", "w", encoding="utf-8") as it:
            it.write(crate.stamp())
        if crate.is_built():
            stamped.add(crate.name)
    print(f"built_libraries.py: {len(stamped)} of {len(crates)} libraries are as rt ci built them")


if __name__ == "__main__":
    os.chdir(os.path.dirname(os.path.dirname(os.path.abspath(__file__))))
    try:
        main()
    except (Exception, SystemExit) as error:  # the kit's modules are not for others: then nothing is taken
        print(f"built_libraries.py: nothing is taken: {error!r}")
