#!/usr/bin/env python3
"""Why a state is a gap, once more, written from the request alone and with none of the project's code: by truth tables.

A table is a number with a bit for each state. Flags are dropped one after the other, wherever the states that agree with the gap on
the others still kept are all gaps.

    python3 tests/reference_why.py --self-test     runs examples, and holds random answers against the words of the request
"""
import sys

import guards
import reference
from reference import Guard, Refused


def agreeing_on(flags, gap, i):
    """The states that have the gap's value at flag i."""
    run = 1 << (flags - i)  # flag i is false in so many states, then true in as many, and so on
    here = "01" if gap >> (flags - i) & 1 else "10"
    by_state = (here[0] * run + here[1] * run) * (1 << (i - 1))
    return int(by_state[::-1], 2)


def agreeing(flags, gap, kept):
    """The states that have the gap's value at each kept flag."""
    states = (1 << (1 << flags)) - 1
    for i in kept:
        states &= agreeing_on(flags, gap, i)
    return states


def why(text, state):
    """The flags kept of a gap, ascending."""
    guard = Guard(text)
    if state >= guard.states():
        raise Refused(9)
    gaps = reference.gap_bits(guard)
    if not gaps >> state & 1:
        raise Refused(16)
    flags = len(guard.flags)
    kept = list(range(1, flags + 1))
    for i in range(1, flags + 1):
        others = [j for j in kept if j != i]
        states = agreeing(flags, state, others)
        if states & gaps == states:
            kept = others
    return kept


def numbers(text, state):
    """The entry's number, and the lent number, or None where it stays as it was."""
    try:
        flags, kept = len(Guard(text).flags), why(text, state)
    except Refused as refused:
        return reference.packed_refusal(refused), None
    return 0, sum(1 << (flags - i) for i in kept)


# The self-test


def examples():
    """Guards with a state, and the entry's number and the kept flags, the first as the highest bit."""

    def refusal(number, place, wanted=0):
        return 3 << 32 | wanted << 24 | number << 16 | place, None

    yield b"A&B&C", 0, (0, 0b001)
    yield b"A&B&C", 0b011, (0, 0b100)
    yield b"A&B&C", 0b101, (0, 0b010)
    yield b"A|B|C", 0, (0, 0b111)
    yield b"A=B", 0b01, (0, 0b11)
    yield b"3E5|!300000", 0b01, (0, 0b11)
    yield b"MET_INN>(3E5|!300000)", 0b101, (0, 0b111)
    yield b"A>B", 0b10, (0, 0b11)
    yield b"A&!A", 0, (0, 0)
    yield b"#0", 0, (0, 0)
    yield b"(A&B)|C", 0b010, (0, 0b101)
    yield b"(A&B)|C", 0b000, (0, 0b011)
    yield b"A|B", 0b11, refusal(16, 0)
    yield b"#1", 0, refusal(16, 0)
    yield b"A|B", 4, refusal(9, 0)
    yield b"A|!A", 2, refusal(9, 0)
    yield b"#1", 1, refusal(9, 0)
    yield b"A&", 9, refusal(5, 2, 1)
    many = b"&".join(b"f%d" % i for i in range(1, 11))
    yield many, 0, (0, 1)
    yield many, 0b1111111110, (0, 1)


def holds(text, state):
    """Whether the kept flags alone force a gap, and no fewer of them do."""
    guard = Guard(text)
    flags, gaps, kept = len(guard.flags), reference.gap_bits(guard), why(text, state)
    fewer = [[j for j in kept if j != i] for i in kept]
    alone = agreeing(flags, state, kept)
    return alone & gaps == alone and not any(table & gaps == table for table in (agreeing(flags, state, some) for some in fewer))


def random_ones(count):
    """Random guards, each with one of its gaps."""
    rng = guards.generator(4)
    while count > 0:
        text = guards.valid(rng, rng.randint(0, 6), rng.randint(0, 12))
        gaps = reference.list_gaps(text, 0, 64)[0]
        if gaps:
            count -= 1
            yield text, rng.choice(gaps)


def self_test():
    failed = compared = 0
    for text, state, wanted in examples():
        compared += 1
        if numbers(text, state) != wanted:
            failed += 1
            print(f"why {text!r} {state}: {numbers(text, state)}, not {wanted}")
    for text, state in random_ones(300):
        compared += 1
        if not holds(text, state):
            failed += 1
            print(f"why {text!r} {state}: {why(text, state)} are not its reason")
    print(f"why: {compared} comparisons, {failed} disagreements")
    return failed == 0


if __name__ == "__main__":
    sys.exit(0 if self_test() else 1)
