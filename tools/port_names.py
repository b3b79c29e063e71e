#!/usr/bin/env python3
"""Brings the names of definitions and lemmas to the spelling of the newer Rattle: run once, after the toolchain's own port script.

usage: python3 tools/port_names.py        at the top of the repository

Words in camel case that the files of specs/ and proofs/ define become snake case (flagCeiling: flag_ceiling), in sources, specs, proofs and edits.
The module specs.contracts, whose name the toolchain now takes, becomes specs.clauses. Functions, exported names, strings, inputs and outputs keep theirs.
"""

import os
import re
import sys

# Names of the toolchain, or of a local that nothing cites.
KEPT = {"getD", "sint_Lawful", "plain_Fn", "tB"}
CAMEL = re.compile(r"[a-z][a-z0-9_]*[A-Z]")
WORD = re.compile(r"(?<![\w'])[A-Za-z_][\w']*")


def files(ends):
    for folder, dirs, names in os.walk("crates"):
        dirs[:] = sorted(d for d in dirs if d != "out")
        for name in sorted(names):
            if name.endswith(ends):
                yield os.path.join(folder, name)


def text_of(path):
    with open(path, encoding="utf-8") as f:
        return f.read()


def snake(word):
    apart = re.sub(r"([a-z0-9])([A-Z])", r"\1_\2", word)
    return re.sub(r"([A-Z])([A-Z][a-z])", r"\1_\2", apart).lower()


def own_words():
    """The words in camel case of the files of specs/ and proofs/."""
    found = set()
    for path in files(".antt"):
        # A name after a joined word keeps the capital of a type: at_Names, say.
        found.update(w for w in WORD.findall(text_of(path)) if CAMEL.match(w) and not re.search(r"_[A-Z]", w))
    return {w: snake(w) for w in found - KEPT if not re.fullmatch(r"x[0-9A-F]+", w)}


def turned(text, words):
    text = WORD.sub(lambda m: words.get(m.group(0), m.group(0)), text)
    return re.sub(r"(?<=specs\.)contracts(?=\.)", "clauses", text)


def main():
    words = own_words()
    new = sorted(words.values())
    double = {w for w in new if new.count(w) > 1}
    if double:
        print("fall together: " + " ".join(sorted(double)), file=sys.stderr)
        return 1
    for path in list(files((".antt", ".rt", ".edit"))):
        old = text_of(path)
        text = turned(old, words)
        if text != old:
            with open(path, "w", encoding="utf-8") as f:
                f.write(text)
    for crate in sorted(os.listdir("crates")):
        specs = os.path.join("crates", crate, "specs")
        for name in ("contracts", "contracts.antt"):
            if os.path.exists(os.path.join(specs, name)):
                os.rename(os.path.join(specs, name), os.path.join(specs, name.replace("contracts", "clauses")))
        lib = os.path.join(specs, "Lib.antt")
        if os.path.exists(lib):
            text = re.sub(r"(?m)^((?:pub )?mod )contracts$", r"\1clauses", text_of(lib))
            with open(lib, "w", encoding="utf-8") as f:
                f.write(text)
    for old, now in sorted(words.items()):
        print(old, now)
    return 0


if __name__ == "__main__":
    sys.exit(main())
