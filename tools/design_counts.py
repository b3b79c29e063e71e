#!/usr/bin/env python3
"""Counts, in the sources of a commit, the places that docs/DESIGN-PASS.md tells of: tools/design_counts.py COMMIT [WHAT].

WHAT is loops, enums, kinds, refusals, twins, lists or proofs, and names each place; without it only the counts are printed.
"""
import collections
import re
import subprocess
import sys

SHAPES = {"Refused", "Failed", "None", "Malformed", "Lost"}
KINDS = r"store\(at, |at\[KIND\] == |^ +\d+ => Kind::|=> \d+,$|^    return \d;|CODE_BYTE|HASH\b|kind == \d|kind: (u16|usize)|class as usize"
REFUSALS = r"number: \d+|refused?\((?:at, )?\d+|refuse_ahead\(\d+|fault\(\d+"


def git(*words):
    return subprocess.run(["git", *words], capture_output=True, text=True, check=True).stdout


def sources(commit, pattern):
    return {path: git("show", f"{commit}:{path}").split("\n")
            for path in git("ls-tree", "-r", "--name-only", commit, "--", "crates").split() if re.fullmatch(pattern, path)}


def block(lines, at):
    """The lines from one on up to the brace that closes what it opens."""
    indent = re.match(" *", lines[at]).group(0)
    end = next((k for k in range(at + 1, len(lines)) if re.match(indent + "[})]", lines[k]) and "{" not in lines[k]), len(lines) - 1)
    return lines[at + 1:end]


def loops(code):
    """Loops that count an index by hand: a variable of the test is one more, or one less, in the body."""
    for path, lines in code.items():
        for at, line in enumerate(lines):
            if re.match(r" +(?:while |loop \{)", line):
                body = block(lines, at)
                if any(re.match(rf" +{name} [+-]= [12];", text) for name in set(re.findall(r"[a-z_]+", line)) for text in body):
                    yield f"{path}:{at + 1}: {line.strip()}"


def enums(code):
    """Own enums of the shape of Option or Result: a case for a refusal, a failure or nothing."""
    for path, lines in code.items():
        for at, line in enumerate(lines):
            named = re.match(r"(?:pub )?enum (\w+)", line)
            if named and SHAPES & {word for text in block(lines, at) for word in re.findall(r"^    (\w+)", text)}:
                yield f"{path}:{at + 1}: {named.group(1)}"


def matching(code, pattern):
    for path, lines in code.items():
        for at, line in enumerate(lines):
            if re.search(pattern, line) and not line.lstrip().startswith("//"):
                yield f"{path}:{at + 1}: {line.strip()}"


def functions(code):
    for path, lines in code.items():
        for at, line in enumerate(lines):
            named = re.match(r" *(?:pub )?(?:extern \"C\" )?fn (\w+)", line)
            if named:
                opened = next((k for k in range(at, len(lines)) if lines[k].strip() == "{" or lines[k].endswith(") {")), None)
                if opened is not None:
                    head = " ".join(lines[at:opened + 1])
                    yield path, named.group(1), head, block(lines, opened)


def twins(code):
    """Functions whose bodies are the same once names and numbers are taken out, of three lines or more."""
    alike = collections.defaultdict(list)
    for path, name, _, body in functions(code):
        text = "\n".join(line.strip() for line in body)
        seen = {}
        text = re.sub(r"\b[a-z_]+\b|\b[A-Z_]{2,}\b|\b\d+\b|[A-Z]\w+::\w+", lambda word: seen.setdefault(word.group(0), f"#{len(seen)}"), text)
        if len(body) >= 3:
            alike[text].append(f"{path}: {name}")
    return [", ".join(group) for group in alike.values() if len(group) > 1]


def lists(code):
    """Functions with six parameters or more."""
    for path, name, head, _ in functions(code):
        between = re.search(r"fn \w+(?:<[^(]*>)?\((.*?)\)(?: ->| *requires| *ensures| *\{|$)", head)
        if between and len(re.findall(r"\w+: ", between.group(1))) + ("self" in between.group(1)) >= 6:
            yield f"{path}: {name}"


def main():
    commit, what = sys.argv[1], sys.argv[2] if len(sys.argv) > 2 else None
    code = sources(commit, r"crates/[^/]+/src/.*\.rt")
    tests = [path for path in code if path.startswith("crates/test_")]
    proofs = sources(commit, r"crates/[^/]+/proofs/.*\.antt")
    found = {
        "loops": list(loops(code)),
        "enums": list(enums(code)),
        "kinds": list(matching(code, KINDS)),
        "refusals": list(matching(code, REFUSALS)),
        "twins": twins({path: lines for path, lines in code.items() if path not in tests}),
        "lists": list(lists(code)),
    }
    for name, places in found.items():
        if what is None or what == name:
            print(f"{name}: {len(places)}")
        if what == name:
            print("\n".join(places))
    if what in (None, "proofs"):
        answers = [path for path in proofs if re.search(r"/(Answers|Invariants)\.antt$", path)]
        print(f"proofs: {len(answers)} files of answers and invariants, {sum(len(proofs[path]) for path in answers)} lines; "
              f"{sum(len(lines) for lines in proofs.values())} lines in all")
        print(f"src: {sum(len(lines) for lines in code.values())} lines")


main()
