#!/usr/bin/env python3
"""Compares the five entries for C with tests/reference.py on random guards, valid and damaged.

    python3 tests/compare.py COUNT COMMAND..    COMMAND runs the program made of tests/c/piped.c, which answers over a pipe
"""
import struct
import subprocess
import sys

import guards
import reference

MORE = 1  # a kind: the upper half of an answer
ROOM = 765


class Piped:
    """The entries behind a pipe."""

    def __init__(self, command):
        self.program = subprocess.Popen(command, stdin=subprocess.PIPE, stdout=subprocess.PIPE)

    def ask(self, service, text, number, room, element):
        self.program.stdin.write(struct.pack("<cQII", service, number, room, len(text)) + text)
        self.program.stdin.flush()
        (answer,) = struct.unpack("<Q", self.program.stdout.read(8))
        size = struct.calcsize("<" + element) if element else 0
        lent = self.program.stdout.read(size * room)
        return answer, [one for (one,) in struct.iter_unpack("<" + element, lent)] if element else []

    def check(self, text, depth):
        return self.ask(b"c", text, depth, 0, "")[0]

    def evaluate(self, text, state):
        return self.ask(b"e", text, state, 0, "")[0]

    def list(self, text, start, room):
        return self.ask(b"l", text, start, room, "I")

    def read(self, text, room):
        return self.ask(b"r", text, 0, room, "H")

    def name(self, text, flag):
        return self.ask(b"n", text, flag, 0, "")[0]

    def end(self):
        self.program.stdin.close()
        return self.program.wait() == 0


def padded(written, room):
    return written + [0] * (room - len(written))


def wanted_read(text, room):
    try:
        flags, count, root, numbers = reference.read(text, room)
    except reference.Refused as refused:
        return reference.packed_refusal(refused), padded([], room)
    return flags << 24 | count << 16 | root, padded(numbers, room)


def wanted_list(text, start, room):
    try:
        written, following = reference.list_gaps(text, start, room)
    except reference.Refused as refused:
        return reference.packed_refusal(refused), padded([], room)
    return (MORE << 32 | following if following is not None else len(written)), padded(written, room)


def wanted_name(text, flag):
    try:
        place, length = reference.name(text, flag)
    except reference.Refused as refused:
        return reference.packed_refusal(refused)
    return place << 16 | length


def questions(rng, large):
    """A question to each service. Of a large guard check is asked at the greatest depth alone."""
    beyond = rng.random() < 0.02
    state, start = (rng.randrange(1 << 14),) * 2 if large else (rng.randrange(40), rng.randrange(12))
    depth = reference.DEPTH if large else rng.choice((0, 0, 1, 1, 2, 3, 24, 25))
    if beyond:
        state = start = depth = (1 << 64) - 1
    return {
        "read": rng.choice((ROOM, ROOM, rng.randrange(40))),
        "name": rng.randrange(8),
        "evaluate": state,
        "list": (start, rng.randrange(65)),
        "check": depth,
    }


def difference(services, text, asked):
    """The first service that answers otherwise than the reference, or None."""
    if services.read(text, asked["read"]) != wanted_read(text, asked["read"]):
        return "read"
    if services.name(text, asked["name"]) != wanted_name(text, asked["name"]):
        return "name"
    if services.evaluate(text, asked["evaluate"]) != reference.packed_evaluate(text, asked["evaluate"]):
        return "evaluate"
    if services.list(text, *asked["list"]) != wanted_list(text, *asked["list"]):
        return "list"
    if services.check(text, asked["check"]) != reference.packed_check(text, asked["check"]):
        return "check"
    return None


def compare(services, count, seed):
    """How many of so many random guards are answered otherwise than by the reference; the first is printed."""
    rng = guards.generator(seed)
    differ = 0
    for _ in range(count):
        large = rng.random() < 0.2
        if large:
            text = guards.valid(rng, rng.randint(8, 14), rng.randint(10, 90))
        else:
            text = guards.valid(rng, rng.randint(0, 4), rng.randint(0, 8))
        if rng.random() < 0.5:
            text = guards.damaged(rng, text)
        asked = questions(rng, large)
        service = difference(services, text, asked)
        if service:
            if not differ:
                print(f"first difference: {service} {asked[service]} of {text!r}")
            differ += 1
    print(f"{count} guards, {differ} answered otherwise than by the reference")
    return differ


if __name__ == "__main__":
    piped = Piped(sys.argv[2:])
    differed = compare(piped, int(sys.argv[1]), 7)
    sys.exit(0 if piped.end() and not differed else 1)
