#!/usr/bin/env python3
"""Makes a line pack of a readable file, and shows what is in one.

    python3 examples/pack.py make FILE PACK     FILE has lines `id ..`, `rule ..`, and pairs of `variant ..` and `text ..`
    python3 examples/pack.py show PACK          prints the fields with their places

It puts the fields together as they stand and judges nothing: whether the pack is a good one, the check says.
"""
import sys

TAGS = {"id": 1, "rule": 2, "variant": 3, "text": 4}
NAMES = {tag: name for name, tag in TAGS.items()}
LONGEST = 0xFFFF  # bytes of a field


def field(name, body):
    if len(body) > LONGEST:
        raise SystemExit(f"{name}: {len(body)} bytes do not fit into a field")
    return bytes((TAGS[name],)) + len(body).to_bytes(2, "big") + body


def packed(lines):
    """The fields of readable lines; empty lines and those that begin with -- are passed over."""
    pack = b""
    for number, line in enumerate(lines, 1):
        line = line.rstrip(b"\r\n")
        if not line.strip() or line.startswith(b"--"):
            continue
        name, _, body = line.partition(b" ")
        if name.decode("latin-1") not in TAGS:
            raise SystemExit(f"line {number} begins with none of: {', '.join(TAGS)}")
        pack += field(name.decode(), body)
    return pack


def shown(pack):
    """A line for each field: its place, what it is, and its bytes."""
    place = 0
    while place < len(pack):
        size = int.from_bytes(pack[place + 1 : place + 3], "big")
        body = pack[place + 3 : place + 3 + size]
        cut = " (cut short)" if len(pack) < place + 3 + size else ""
        yield f"{place:6} {NAMES.get(pack[place], f'tag {pack[place]}'):8} {body.decode('utf-8', 'backslashreplace')}{cut}"
        place += 3 + size


def main(words):
    if len(words) == 3 and words[0] == "make":
        with open(words[1], "rb") as lines, open(words[2], "wb") as pack:
            pack.write(packed(lines))
    elif len(words) == 2 and words[0] == "show":
        with open(words[1], "rb") as pack:
            print("\n".join(shown(pack.read())))
    else:
        raise SystemExit(__doc__)


if __name__ == "__main__":
    main(sys.argv[1:])
