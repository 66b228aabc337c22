#!/usr/bin/env python3
"""Writes this repository's own definitions and lemmas in snake case: `layoutOf` and `code-at` become `layout_of` and `code_at`.

usage: python3 tools/respell.py [--check] [ROOT]

It was run once, after the kit's port.py, on the tree that port.py left. It goes by the names that the .antt files below crates/
declare: top-level ones, those of `where` and of records' fields, and what a `use .. as` calls them. Types, modules and constructors
keep their capitals. Rust names are not touched, nor strings, inputs and outputs. A lemma that would fall together with a definition
gets the ending `_lem`. With --check it writes nothing; it prints a line that begins 'look:' where a file had the new name already.
"""

import collections
import os
import re
import sys

WORD = re.compile(r"(?<![\w'◌-])([a-z][\w'₀-₉]*(?:-[\w'₀-₉≤≡≢<+*∷◌]+)*)(?![\w'◌-])")
DECLARED = re.compile(r"^(\s*)((?:(?:abbrev|pub|unfoldable|opaque)\s+)*)([^\s:(){}.,;=λ]+)((?:\s+[^\s:(){}.,;=]+)*)\s*:\s*(\S*)")
ALIAS = re.compile(r"\bas ([a-z]\w*)")
KEYWORDS = {"let", "use", "infixl", "infixr", "infix", "record", "data", "where", "in"}
# Lemmas that port.py had put in snake case, and whose name a definition has once it is in snake case too.
LEMMAS = {"given_back": "given_back_lem", "first_body": "first_body_lem", "laid_out": "laid_out_lem", "ran_on": "ran_on_lem", "made_by": "made_by_lem"}


def snake(name):
    return re.sub(r"(?<=[a-z0-9])([A-Z])", r"_\1", name.replace("-", "_")).lower()


def files(root):
    for folder, dirs, names in os.walk(os.path.join(root, "crates")):
        dirs[:] = sorted(d for d in dirs if d != "out")
        for name in sorted(names):
            if name.endswith((".antt", ".rt")):
                yield os.path.join(folder, name)


def turns(name):
    return name[:1].islower() and bool(re.search(r"[a-z0-9][A-Z]|-", name))


def declarations(text):
    for line in text.splitlines():
        it = DECLARED.match(line)
        if it and not line.lstrip().startswith("--"):
            for name in [it.group(3), *it.group(4).split()]:
                if name not in KEYWORDS:
                    # An answer to a goal has the goal's name, which is Rattle's.
                    yield name, it.group(5).startswith("tie.")
        if re.match(r"\s*(?:ghost |pub |unfoldable )*use ", line):
            for name in ALIAS.findall(line):
                yield name, False


def new_names(texts):
    """Returns the new name of each, and the names that were in snake case before."""
    old, plain = set(), set()
    for path, text in texts.items():
        for name, is_answer in declarations(text):
            if not is_answer and turns(name):
                old.add(name)
            elif not is_answer and name[:1].islower():
                plain.add(name)
    camel = {snake(n) for n in old if "-" not in n}
    names = {}
    for name in old:
        new = snake(name)
        # A definition is in camel case and keeps the name; a lemma has a dash.
        names[name] = new + "_lem" if "-" in name and (new in camel or new in plain) else new
    return names, plain, camel


def main(argv):
    check = "--check" in argv
    rest = [a for a in argv if a != "--check"]
    root = rest[0] if rest else "."
    texts = {}
    for path in files(root):
        with open(path, encoding="utf-8") as file:
            texts[path] = file.read()
    names, plain, camel = new_names(texts)
    count = 0
    for path, text in texts.items():
        before = set(WORD.findall(text))
        here = dict(names)
        for name in LEMMAS:
            if name in before and path.endswith(".antt") and any(names.get(n) == name for n in names):
                here.setdefault(name, LEMMAS[name])

        def put(it):
            name = it.group(1)
            if path.endswith(".rt") and "-" in name:
                return name
            return here.get(name, name)

        new = WORD.sub(put, text)
        for name in sorted(before & set(names)):
            if here[name] in before and here[name] not in here:
                print(f"look: {path}: {name} and {names[name]}")
        if new != text:
            count += 1
            if not check:
                with open(path, "w", encoding="utf-8") as file:
                    file.write(new)
    print(f"{len(names)} names, {count} files")
    return 0


if __name__ == "__main__":
    sys.exit(main(sys.argv[1:]))
