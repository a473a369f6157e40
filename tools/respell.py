#!/usr/bin/env python3
"""Respells this repository's own definitions, fields and lemmas: words in snake case, types and modules in camel case.

Run once at the top of the repository, behind the kit's port.py and over what it wrote. It changes specs/, proofs/, the
ghost parts and comments of src/, must-fail edits, and names between backticks in pages. Functions of src/ keep their names.
"""
import os
import re
import sys

IDENT = re.compile(r"(?<![\w'₀-₉\-])[A-Za-z_][\w'₀-₉]*(?:-[\w'₀-₉]+)*(?![\w'₀-₉]|-[\w])")
DECL = re.compile(r"^ *(?:abbrev |unfoldable |ruleset )*(?:pub )?([A-Za-z][\w'₀-₉]*(?:-[\w'₀-₉]+)*) (?:\{[^}]*\} )*:(?= |$)")
GOAL = re.compile(r" :(?: \(t : ℕ\) →)? (?:tie|[\w-]*-?lts)\.")
STEPS = re.compile(r"(?<![\w'-])[cw](?:\.[\w'-]+)*\.$")
CAMEL = re.compile(r"[a-z][\w'₀-₉]*[a-z0-9][A-Z][\w'₀-₉-]*")

# Names whose plain spelling stands for something else where they are used.
OTHER = {"flat-map": "flat_map_lem", "queryCore": "core_of_query"}


def snake(name):
    name = re.sub(r"(?<=[a-z0-9])(?=[A-Z])", "_", name).replace("-", "_")
    return name.lower() if not name.isupper() else name


def files(root, ends):
    for folder, _, names in sorted(os.walk(root)):
        if "/out" in folder or "/.git" in folder:
            continue
        for name in sorted(names):
            if name.endswith(ends):
                yield os.path.join(folder, name)


def declared(root):
    """The names that this repository declares, but for needs of Proof.antt, which no page cites."""
    names = set()
    for path in files(root, ".antt"):
        for line in open(path, encoding="utf8"):
            found = DECL.match(line)
            if found and not GOAL.search(line):
                names.add(found.group(1))
            if not line.lstrip().startswith("--"):
                names.update(w for w in IDENT.findall(line) if CAMEL.fullmatch(w))
    for path in files(root, ".rt"):
        for line in open(path, encoding="utf8"):
            if line.startswith("ghost use "):
                names.update(w for w in re.findall(r" as (\w+)", line) if CAMEL.fullmatch(w))
    return names


def table(root):
    names = sorted(declared(root))
    taken = {n for n in names if "-" not in n} | {snake(n) for n in names if "-" not in n}
    camels = {snake(n) for n in names if "-" not in n and n[0].islower() and snake(n) != n}
    out = {}
    for name in names:
        if name[0].isupper() or name.endswith("-spec"):
            continue
        new = OTHER.get(name, snake(name))
        # a lemma that would have its function's name
        if "-" in name and new in taken:
            new += "_lem"
        if new == name and name in camels:
            new += "_lem"
        if new != name:
            out[name] = new
    return out


def respell(text, names):
    def one(m):
        name = m.group(0)
        new = names.get(name, name)
        # a module has its function's name
        if name == snake(name) and text[m.end() : m.end() + 1] == ".":
            return name
        # in a path of facts stands a step, which has its function's name
        if new.endswith("_lem") and STEPS.search(text[: m.start()]):
            return snake(name)
        return new

    return IDENT.sub(one, text)


def respell_source(line, names):
    """A line of src/: what is code has no such name, but a string keeps its bytes."""
    parts = re.split(r'("(?:[^"\\]|\\.)*")', line)
    return "".join(p if i % 2 else respell(p, names) for i, p in enumerate(parts))


def taken_from_outside(text, own):
    """The names that a file takes from the library, which keep their spelling in it."""
    names = set()
    for line in re.findall(r"^(?:ghost )?use (?:.*)$", text, re.M):
        found = re.match(r"^(?:ghost )?use ([\w.'+«»-]+)\.\{(.*)\};?$", line)
        if found and found.group(1).split(".")[:2] not in own:
            names.update(item.split(" as ")[0] for item in found.group(2).split(", ") if " as " not in item)
            names.update(w for item in found.group(2).split(", ") if " as " in item for w in item.split(" as ")[:1])
    return names


def main():
    names = table("crates")
    own = [["Rattle", name] for name in os.listdir("crates")]
    changed = 0
    for path in files("crates", (".antt", ".rt", ".edit")):
        old = open(path, encoding="utf8").read()
        outside = taken_from_outside(old, own)
        here = {a: b for a, b in names.items() if a not in outside}
        if not path.endswith(".antt"):
            # a function of src/ keeps its name
            here = {a: b for a, b in here.items() if a != snake(a)}
        new = "\n".join(respell_source(line, here) for line in old.split("\n"))
        if new != old:
            open(path, "w", encoding="utf8").write(new)
            changed += 1
    pages = ["README.md"] + list(files("docs", ".md"))
    for path in pages:
        old = open(path, encoding="utf8").read()
        new = re.sub(r"`[^`\n]*`", lambda m: respell(m.group(0), names), old)
        if new != old:
            open(path, "w", encoding="utf8").write(new)
            changed += 1
    print(f"respell: {len(names)} names, {changed} files changed")


def clashes():
    """Names that would fall together in a file, and the place of each."""
    names = table("crates")
    for path in files("crates", (".antt", ".rt")):
        text = open(path, encoding="utf8").read()
        seen = {}
        text = re.sub(r"\b(?:[\w+]+\.)+(?=[A-Z{])", "", text)
        for word in set(IDENT.findall(text)):
            seen.setdefault(names.get(word, word), set()).add(word)
        for new, olds in sorted(seen.items()):
            if len(olds) > 1:
                print(f"{path}: {new} <- {' '.join(sorted(olds))}")


if __name__ == "__main__":
    clashes() if sys.argv[1:] == ["clashes"] else main()
