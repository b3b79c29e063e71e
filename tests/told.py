#!/usr/bin/env python3
"""told.py FILE COMMAND..: runs covercheck on each line that a document's tables show, and compares with the answer beside it.

A row counts whose first two cells are code: the line, and what covercheck prints after the line's number. In a line \\r, \\t and \\xhh stand
for bytes, and a cell with the words "an empty line" for one.
"""
import re
import subprocess
import sys

ROW = re.compile(r"^\| (?:`([^`]+)`|an empty line) \| `([^`]+)` \|")
BYTE = re.compile(r"\\(?:([rt|])|x([0-9a-f]{2}))")


def spelled(cell):
    """The bytes of a line as a cell spells them."""
    return BYTE.sub(lambda byte: {"r": "\r", "t": "\t", "|": "|"}[byte[1]] if byte[1] else chr(int(byte[2], 16)), cell or "").encode("latin-1")


def main(path, command):
    with open(path, encoding="utf-8") as file:
        rows = [match.groups() for match in map(ROW.match, file) if match]
    lines = [(spelled(line), answer) for line, answer in rows]
    data = b"".join(line + b"\n" for line, _ in lines)
    said = subprocess.run(command, input=data, stdout=subprocess.PIPE, check=True).stdout.decode().splitlines()
    told = [f"{number} {answer}" for number, (_, answer) in enumerate(lines, 1)]
    wrong = [(line, got, want) for (line, _), got, want in zip(lines, said, told) if got != want]
    for line, got, want in wrong:
        print(f"{path}: {line!r} gives {got!r}, not {want!r}")
    print(f"{path}: {len(told)} lines, {len(wrong)} told wrongly")
    return len(said) == len(told) and told and not wrong


if __name__ == "__main__":
    sys.exit(0 if main(sys.argv[1], sys.argv[2:]) else 1)
