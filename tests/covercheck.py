#!/usr/bin/env python3
"""covercheck.py COMMAND..: compares what covercheck prints with what tests/reference.py says it prints.

The inputs are the examples, every form of a line that is refused, inputs at and over the ceiling, and random lines.
"""
import os
import subprocess
import sys

import guards
import reference

EXAMPLES = os.path.join(os.path.dirname(os.path.abspath(__file__)), "..", "examples")


def example(name):
    with open(os.path.join(EXAMPLES, name), "rb") as file:
        return file.read()


def fixed():
    yield example("guards.txt")
    yield example("outline.txt")
    yield example("joined.txt")
    yield b""
    yield b"\n"
    yield b"\n\n0 A"
    yield b"0 A|!A"
    forms = [b"", b" ", b"0", b"0 ", b"7 ", b"7  A", b"07 A|!A", b"007 A", b" 0 A", b"A", b"\r", b"0 A\r", b"24 A", b"25 A", b"99 A&"]
    forms += [b"100 A", b"0\tA", b"-1 A", b"0x A", b"1\x00A", b"\xff", b"0 \xff", b"0 A\x00", b"9 " + b"A" * 13, b"/ A", b": A", b"1: A", b"1/ A"]
    yield b"\n".join(forms)
    yield b"\n".join(forms) + b"\n"
    yield b"24 " + b"|".join(b"%c" % (65 + i) for i in range(24)) + b"\n"
    yield b"24 " + b"|".join(b"ABCDEFGHIJK%c" % (65 + i) for i in range(24)) + b"\n"
    yield b"0 " + b" " * 4095 + b"A\n0 " + b" " * 4096 + b"A\n"


def at_the_ceiling():
    """Inputs of 65,536 bytes and of one more: short lines, empty ones, and one line."""
    for line in (b"0 A|!A\n", b"\n", b"0 "):
        whole = (line * reference.INPUT)[: reference.INPUT]
        yield whole
        yield whole + b"A"
    yield b"A" * (3 * reference.INPUT)


def random_line(rng):
    text = guards.valid(rng, rng.randint(0, 4), rng.randint(0, 7))
    if rng.random() < 0.3:
        text = guards.damaged(rng, text)
    line = b"%d %s" % (rng.choice((0, 0, 1, 1, 2, 3, 4, 9, 24, 25)), text)
    if rng.random() < 0.1:
        line = guards.damaged(rng, line)
    return line.replace(b"\n", b"")


def random_inputs(rng, count):
    for _ in range(count):
        lines = b"\n".join(random_line(rng) for _ in range(rng.randint(1, 60)))
        yield lines + rng.choice((b"", b"\n"))


def main(command):
    compared = differ = 0
    for data in [*fixed(), *at_the_ceiling(), *random_inputs(guards.generator(12), 60)]:
        run = subprocess.run(command, input=data, stdout=subprocess.PIPE, check=False)
        compared += 1
        if run.returncode != 0 or run.stdout != reference.covercheck(data):
            if not differ:
                print(f"first difference: status {run.returncode}, {run.stdout[:300]!r} for {data[:300]!r}")
            differ += 1
    print(f"covercheck: {compared} inputs, {differ} answered otherwise than by the reference")
    return differ == 0


if __name__ == "__main__":
    sys.exit(0 if main(sys.argv[1:]) else 1)
