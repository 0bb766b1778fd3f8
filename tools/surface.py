#!/usr/bin/env python3
"""Compares what the crates offer with docs/surface.txt, which lists the names of the Rust crate sctp-proto that users look for.

    python3 tools/surface.py

run at the top of the repository. A path of the list begins with a crate: what follows may stand in that crate or in one below it, but the crate's
own lib.rt has to offer the name that comes next, by `pub mod` or `pub use`. Of a function the types of parameters and result are compared, without
names and lifetimes; of an enum its variants and their fields, in order. It reads texts alone. Prints each line that differs, then
how many were compared; the exit status is 1 where one differs.
"""
import re
import sys

from sources import files_below, functions_of, lines_of, uses_of

LIST = "docs/surface.txt"


def signature(head):
    """Returns the types of a function's head, in the form of the list: `(&self, u16) -> bool`."""
    text = re.sub(r"^.*?\bfn \w+", "", head.split("//")[0]).strip()
    if text.startswith("<"):
        text = text[end_of(text, "<", ">") + 1:]
    end = end_of(text, "(", ")")
    result = re.sub(r"\bwhere\b.*", "", text[end + 1:]).strip().rstrip("{;").strip()
    kinds = [re.sub(r"^(?:mut )?\w+: ", "", it) for it in parts(text[1:end])]
    return plain(f"({', '.join(kinds)})" + (f" {result}" if result else ""))


def plain(text):
    return re.sub(r"'\w+\s*", "", re.sub(r"\s+", " ", text)).replace(", )", ")").strip()


def end_of(text, opens, closes):
    """Returns where the bracket that the text begins with closes."""
    depth = 0
    for at, it in enumerate(text):
        depth += (it == opens) - (it == closes and text[at - 1] != "-")
        if not depth:
            return at
    return len(text)


def parts(text):
    """Returns what stands between the commas outside brackets."""
    found, depth = [""], 0
    for it in text:
        depth += (it in "({<[") - (it in ")}>]")
        if it == "," and not depth:
            found.append("")
        else:
            found[-1] += it
    return [it.strip() for it in found if it.strip()]


def block(lines, pattern):
    """Returns the lines of the item that begins with the pattern, to its closing brace or its `;`, or None."""
    for at, line in enumerate(lines):
        if re.match(pattern, line):
            ends = (";", "}") if line.endswith(";") else ("}",)
            end = next((it for it in range(at, len(lines)) if lines[it].startswith("}") or (it == at and line.endswith(ends))), at)
            return lines[at:end + 1]
    return None


def variants(lines):
    """Returns the variants of an enum's lines as the list writes them: `Mode{stream,unordered}`."""
    text = " ".join(re.sub(r"//.*", "", re.sub(r"#\[.*?\]", "", it)) for it in lines[1:-1])
    found = []
    for it in parts(text):
        name, _, fields = it.partition("{")
        names = [f.split(":")[0].strip() for f in parts(fields.rstrip("} "))]
        found.append(re.sub(r"\(.*| = .*", "", name).strip() + (f"{{{','.join(names)}}}" if names else ""))
    return found


class Tree:
    def __init__(self):
        self.below, self.texts, self.functions = uses_of(), {}, {}
        for crate in self.below:
            paths = files_below(f"crates/{crate}/src", ".rt")
            self.texts[crate] = {it: lines_of(it) for it in paths}
            self.functions[crate] = [f for it in paths for f in functions_of(crate, it)]

    def offers(self, path):
        """Says what of a path its crate doesn't offer, or nothing."""
        crate, *rest = path.split("::")
        if crate not in self.below:
            return f"no crate {crate}"
        root = [it for it in self.texts[crate] if it.endswith(("/lib.rt", "/main.rt"))]
        text = "\n".join(self.texts[crate][root[0]])
        words = set(re.findall(r"\w+", " ".join(re.findall(r"pub (?:mod|use|trait|fn|struct|enum) [^;{]*(?:\{[^}]*\})?", text))))
        return "" if not rest or rest[0] in words else f"{crate} does not offer {rest[0]}"

    def function(self, path, name):
        """Returns the signatures of the functions of this name at the path: those of its type or trait, or free ones."""
        crate, *rest = path.split("::")
        owners = self.owners(crate, rest[-1]) if rest and rest[-1][0].isupper() else [""]
        return [signature(f.head) for low in self.below[crate] for f in self.functions[low]
                if f.name == name and f.owner in owners and (f.is_public or f.trait)]

    def owners(self, crate, owner):
        """Returns the type, and the one to which it dereferences, if it does."""
        target = re.search(r"type Target = (\w+);", "\n".join(self.item(crate, rf"impl Deref for {owner}\b") or []))
        return [owner, target[1]] if target else [owner]

    def item(self, crate, pattern):
        return next((found for low in self.below[crate] for lines in self.texts[low].values() if (found := block(lines, pattern))), None)


def fault_of(tree, path, line):
    """Says what is wrong with a line of the list, or nothing."""
    crate, owner = path.split("::")[0], path.split("::")[-1]
    word, _, rest = line.partition(" ")
    if word in ("const", "type"):
        name, _, value = rest.partition(" = ")
        found = tree.item(crate, rf"pub {word} {name}\b.*")
        text = " ".join(found or []).rstrip(";")
        return "" if found and text.split(" = ")[-1].strip() == value else f"{word} {name}: {text or 'none'}"
    if word == "enum":
        name, _, wanted = rest.partition(" : ")
        found = tree.item(crate, rf"pub enum {name}\b")
        return "" if found and variants(found) == wanted.split() else f"enum {name}: {' '.join(variants(found)) if found else 'none'}"
    if word == "struct":
        found = tree.item(crate, rf"pub struct {owner}\b")
        return "" if found and any(it.strip() == f"pub {rest}," for it in found) else f"struct {owner}: no field {rest}"
    if word == "prints":
        text = "\n".join("\n".join(it) for low in tree.below[crate] for it in tree.texts[low].values())
        missing = [it for it in rest.split(" | ") if f'"{it}' not in text]
        return f"{owner} does not print {missing}" if missing else ""
    name, wanted = line[: line.index("(")], line[line.index("("):]
    found = tree.function(path, name)
    return "" if wanted in found else f"{name}{found[0] if found else ': none'}"


def main():
    tree, path, count, faults = Tree(), "", 0, []
    for line in lines_of(LIST):
        if not line or line.startswith("#"):
            continue
        if not line.startswith(" "):
            path = line
            told = tree.offers(path)
        else:
            count += 1
            told = fault_of(tree, path, line.strip())
        if told:
            faults.append(f"{path}: {told}")
    print("\n".join([*faults, f"{count} names, {len(faults)} differ"]))
    return 1 if faults else 0


if __name__ == "__main__":
    sys.exit(main())
