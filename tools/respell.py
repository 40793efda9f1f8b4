#!/usr/bin/env python3
"""Brings this repository's own definitions and lemmas to today's spelling: words joined by _ where they were joined by -.

usage: python3 tools/respell.py            at the top of the repository, once, after port.py

It goes by text: a name is turned where a file of specs/ or proofs/ declares it, in every file of crates/, the edits too, but not where a file imports the
same name from the library, nor in the strings of .rt files; and so is a name that a lemma or a definition binds. Its last lines name declarations of one file
that fall together.
"""

import collections
import os
import re

NAME = re.compile(r"[^\s(){}\[\],;.\"`|]+")
BINDER = re.compile(r"[^\W\d_]\w*(-\w+)+'*")
SIGNATURE = re.compile(r"^\s*(?:unfoldable |abbrev |pub |record |data )*([^\s(){}\[\],;.\"`:|]+)(?: [({].*[)}])? :(?: |$)")
IMPORT = re.compile(r"^(?:ghost )?use ([\w'.]+?)\.\{([^}]*)\}")
STRING = re.compile(r'("(?:[^"\\\n]|\\.)*")')


def files(*ends):
    for folder, dirs, names in os.walk("crates"):
        dirs[:] = sorted(d for d in dirs if d != "out")
        for name in sorted(names):
            if name.endswith(ends):
                yield os.path.join(folder, name)


def read(path):
    with open(path, encoding="utf-8") as f:
        return f.read()


def own(module):
    """Whether a module is one of this repository's crates."""
    parts = module.split(".")
    return len(parts) > 1 and parts[0] == "Rattle" and os.path.isdir(os.path.join("crates", parts[1]))


def foreign(text):
    """The names that a file imports from the library."""
    found = set()
    for line in text.split("\n"):
        m = IMPORT.match(line)
        if m and not own(m.group(1)):
            found |= {item.split(" as ")[0].strip() for item in m.group(2).split(",")}
    return found


def declared():
    """The names of definitions and lemmas, each with the files that declare it."""
    names = collections.defaultdict(set)
    for path in files(".antt"):
        for line in read(path).split("\n"):
            m = SIGNATURE.match(line)
            if m and not line.startswith("use "):
                names[m.group(1)].add(path)
    return names


def turned(line, wanted, kept, binders):
    """The line with its names turned, where binders is set also those that it binds. What stands after a dot may be a field of the library's."""

    def name(m):
        word = m.group(0)
        bound = binders and BINDER.fullmatch(word) and m.string[m.start() - 1 : m.start()] != "."
        return word.replace("-", "_") if word not in kept and (word in wanted or bound) else word

    return NAME.sub(name, line)


def turn(path, text, wanted):
    kept = foreign(text)
    lemmas = path.endswith(".antt") and not path.endswith("Proof.antt")
    lines = []
    for line in text.splitlines(keepends=True):
        if path.endswith(".rt"):
            lines += [part if i % 2 else turned(part, wanted, kept, False) for i, part in enumerate(STRING.split(line))]
        else:
            lines.append(turned(line, wanted, kept, lemmas and not line.lstrip().startswith(("--", "use "))))
    return "".join(lines)


def main():
    names = declared()
    wanted = {n for n in names if "-" in n.strip("-")}
    for path in list(files(".antt", ".rt", ".edit")):
        text = read(path)
        new = turn(path, text, wanted)
        if new != text:
            with open(path, "w", encoding="utf-8") as f:
                f.write(new)
    print(len(wanted), "names turned")
    for name in sorted(wanted):
        other = name.replace("-", "_")
        for path in sorted(names[name] & names.get(other, set())):
            print("together:", name, other, path)


main()
