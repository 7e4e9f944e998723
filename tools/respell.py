#!/usr/bin/env python3
"""Spells the project's own definitions, laws, fields and constructors as today's Rattle does: plain snake case, as firstThat to first_that and rising-bound to
rising_bound. Types and modules stay as they are.

usage: tools/respell.py        at the top of the repository, once, after port.py

It goes by whole words: in .rt and .antt files, in the edits of must-fail and must-pass, and in the code spans of the papers. A law that would fall together with a
word ends in _lem.
"""

import glob
import os
import re
import subprocess

WORD = re.compile(r'[^\s(){}.;,@"«»`]+')
# What a file of specs/ or a file of laws declares: at the margin, or indented in a record, a data type or a module.
DECLARED = re.compile(r"^ *(?:(?:abbrev|unfoldable|pub|data|record|rec|module) )*([^\s(){}.;,@\"«»`]+)(?: \{[^{}\n]*\}| \([^()\n]*\))* :(?= |$)", re.M)


# Laws that port.py spelled anew before, each beside a word that has their name, as countAt and count-at. Functions have such names too.
LAWS = ["count_at", "ends_by", "first_by", "gap_by", "starts_first", "stepped_by"]


def snake(name):
    words = re.sub(r"(?<=[a-z0-9])[A-Z]", lambda m: "_" + m[0].lower(), name)
    return words.replace("-", "_")


def texts(*patterns):
    for pattern in patterns:
        for path in sorted(glob.glob(pattern, recursive=True)):
            if "/out/" not in path and os.path.isfile(path):
                yield path


def items(text, own):
    """The names that a file takes from a library."""
    for path, names in re.findall(r"\buse ([^\s;{]+)\.\{([^}]*)\}", text):
        if path.startswith("Rattle.") and path.split(".")[1] in own:
            continue
        for name in names.split(","):
            yield name.split(" as ")[-1].strip()


def main():
    own = {os.path.basename(path) for path in glob.glob("crates/*")}
    names, theirs = set(), set()
    for path in texts("crates/*/specs/**/*.antt", "crates/*/proofs/*.antt"):
        with open(path) as f:
            names.update(DECLARED.findall(re.sub(r"(?m)--.*$", "", f.read())))
    for path in texts("crates/**/*.antt", "crates/**/*.rt"):
        with open(path) as f:
            theirs.update(items(f.read(), own))
    table = {name: name + "_lem" for name in LAWS}
    taken = (names | theirs) - set(LAWS)
    # Words before laws: a law that would have its word's name ends in _lem.
    for name in sorted(names, key=lambda name: ("-" in name, name)):
        # No operator, and no type.
        if not re.fullmatch(r"[a-z][\w'’-]*", name) or snake(name) == name:
            continue
        new = snake(name)
        if new in taken:
            print(f"falls together with {new}: {name}")
            new += "_lem"
        if new in taken:
            raise SystemExit(f"twice: {name}")
        taken.add(new)
        table[name] = new

    def turned(text, path):
        def word(m):
            name = m[0]
            if name not in table or name in LAWS and not path.endswith(".antt"):
                return name
            # Behind a dot stands a field, or a label that is made of a function's name.
            return snake(name) if text[m.start() - 1 : m.start()] == "." else table[name]

        return WORD.sub(word, text)

    changed = 0
    for path in texts("crates/**/*.antt", "crates/**/*.rt", "crates/*/must-fail/*", "crates/*/must-pass/*"):
        with open(path) as f:
            old = f.read()
        new = turned(old, path)
        if new != old:
            changed += 1
            with open(path, "w") as f:
                f.write(new)
    span = re.compile(r"`[^`\n]+`")
    for path in texts("README.md", "docs/*.md", "docs/landings/*.md"):
        with open(path) as f:
            old = f.read()
        new = span.sub(lambda m: turned(m[0], path), old)
        if new != old:
            changed += 1
            with open(path, "w") as f:
                f.write(new)
    print(f"{len(table)} names, {changed} files")
    for crate in sorted(glob.glob("crates/*")):
        subprocess.run(["rt", "fmt"], cwd=crate, check=True, stdout=subprocess.DEVNULL)


main()
