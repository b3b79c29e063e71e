#!/usr/bin/env python3
"""Whether what the documents name is there, and whether what they count is so.

Each path; each edit that must be refused; each law and definition by its name, in the file named beside it or, where none is, in some crate;
and the lines of the definitions that must be believed, which have ceilings.
"""
import functools
import glob
import os
import re
import sys

ROOT = os.path.join(os.path.dirname(os.path.abspath(__file__)), "..")
PATH = re.compile(r"`([A-Za-z_.0-9*-]+(?:/[A-Za-z_.0-9+*-]+)+/?)`")
EDIT = re.compile(r"(?:\(|[Ee]dits? |, |and )`([a-z0-9_]+)`\)|[Ee]dits?:? `([a-z0-9_]+)`")
TELLING_EDITS = ("STATEMENTS.md", "MAP.md")
LAW = re.compile(r"`([a-z_]+/(?:specs|proofs)/(?:clauses/)?[A-Za-z]+\.antt)`, `([A-Za-z_-]+)`")
# A name by itself is a law's or a definition's where it has a hyphen or a capital inside or first; with a module before it, it is of that module.
# One with an underscore may be a function's, a file's or an edit's too.
NAME = re.compile(r"`(?:([A-Z][A-Za-z]+)\.)?([a-z]+(?:[-_][A-Za-z0-9]+)+|[a-z]*[A-Z][A-Za-z]+|[a-z]+)`")
COUNTED = re.compile(r"`([a-z_]+/specs/[A-Za-z]+\.antt)` (\d+)")
BELIEVED = re.compile(r"^\| ([a-z]+) \| (?:those of ([a-z]+), )?([^|]*`[a-z_]+/specs/[^|]*) \| (\d+) \|$", re.M)
CEILINGS = {"read": 300, "list": 300, "check": 400}
DECLARED = r"^ *(?:(?:abbrev |unfoldable )?pub )?(?:record |data )?{}(?: [a-z-]+)* (?::|\(|\{{)"


def there(path):
    return any(glob.glob(os.path.join(ROOT, base, path)) for base in ("", "crates", "docs"))


def edits():
    return {os.path.basename(path)[: -len(".edit")] for path in glob.glob(os.path.join(ROOT, "crates/*/must-fail/*.edit"))}


def read(path):
    with open(os.path.join(ROOT, path), encoding="utf-8") as file:
        return file.read()


def sources():
    return {path: read(path) for path in glob.glob("crates/*/*/**/*.antt", root_dir=ROOT, recursive=True)}


def declares(text, name):
    return re.search(DECLARED.format(re.escape(name)), text, re.M) is not None


@functools.cache
def plain_names():
    """The names with an underscore that are no law's and no definition's: crates, edits, and functions that sources in Rattle and C declare."""
    code = "".join(read(path) for base in ("crates/*/src/**/*.rt", "include/*.h", "tests/c/*.c", "examples/*.c")
                   for path in glob.glob(base, root_dir=ROOT, recursive=True))
    functions = set(re.findall(r"\bfn ([a-z_0-9]+)", code)) | set(re.findall(r"^[a-z][a-z0-9_ ]*[ *]([a-z_0-9]+)\(", code, re.M))
    return functions | edits() | set(os.listdir(os.path.join(ROOT, "crates")))


def laws_of(text, known):
    """Each law or definition that a document names, and whether it is declared where it should be."""
    for path, law in LAW.findall(text):
        yield f"{law} of {path}", there(path) and declares(read(os.path.join("crates", path)), law)
    for module, name in NAME.findall(text):
        if name == "antt":
            yield f"{module}.antt", any(path.endswith(f"/{module}.antt") for path in known)
        elif module:
            yield f"{module}.{name}", any(declares(source, name) for path, source in known.items() if path.endswith(f"/{module}.antt"))
        elif "_" in name:
            yield name, any(declares(source, name) for source in known.values()) or name in plain_names()
        elif not name.isalpha() or not name.islower():
            yield name, any(declares(source, name) for source in known.values())


def lines_of(path):
    """Lines of a file of definitions, without imports, comments and blank lines."""
    lines = [line.strip() for line in read(os.path.join("crates", path)).splitlines()]
    return sum(1 for line in lines if line and not line.startswith(("--", "use ")))


def stands_on(path):
    """The files of definitions that one brings in by its use lines, the types that code declares apart."""
    for crate, module in re.findall(r"^use Rattle\.([a-z_]+)\.specs\.([A-Za-z.]+)", read(os.path.join("crates", path)), re.M):
        parts = [part for part in module.split(".") if part]
        found = (f"{crate}/specs/{'/'.join(parts[:end])}.antt" for end in range(len(parts), 0, -1))
        yield from [file for file in found if parts[0] != "declared" and there(file)][:1]


def believed(text):
    totals, files = {"": 0}, {"": set()}
    for what, base, cell, total in BELIEVED.findall(text):
        counted = [(path, int(lines)) for path, lines in COUNTED.findall(cell)]
        files[what] = files[base] | {path for path, _ in counted}
        for path in files[what]:
            yield f"{what}: all that {path} stands on", set(stands_on(path)) <= files[what]
        for path, lines in counted:
            yield f"{what}: {path} with {lines} lines", there(path) and lines_of(path) == lines
        totals[what] = totals[base] + sum(lines for _, lines in counted)
        yield f"{what}: {total} lines in all", totals[what] == int(total)
    for service, most in CEILINGS.items():
        yield f"{service} within {most} lines", totals.get(service, most + 1) <= most


def main():
    known_edits, known = edits(), sources()
    named = missing = 0
    for document in ["README.md", *sorted(os.listdir(os.path.join(ROOT, "docs")))]:
        where = document if document == "README.md" else os.path.join("docs", document)
        # The page of the port tells what names were before it.
        if not where.endswith(".md") or document == "PORT.md":
            continue
        text = read(where)
        wanted = [(f"path {path}", there(path)) for path in PATH.findall(text) if not path.startswith("target/")]
        if document in TELLING_EDITS:
            # A law that is named with its file may stand where an edit does.
            laws = {law for _, law in LAW.findall(text)}
            wanted += [(f"edit {a or b}", (a or b) in known_edits | laws) for a, b in EDIT.findall(text)]
            wanted += laws_of(text, known)
        if document == "STATEMENTS.md":
            wanted += believed(text)
        named += len(wanted)
        for what, found in wanted:
            if not found:
                missing += 1
                print(f"{where}: no {what}")
    print(f"documents: {named} names and counts, {missing} not there or not so")
    return named and not missing


if __name__ == "__main__":
    sys.exit(0 if main() else 1)
