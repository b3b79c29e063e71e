#!/usr/bin/env python3
"""The check of line packs once more, written from the requests alone and with none of the project's code.

The fields are cut first; then they are gone through from the left, and the first fault decides.

    python3 tests/reference_packs.py --self-test     runs examples of each refusal and of both answers
"""
import sys

import reference
from reference import CONNECTIVES, DEPTH, Guard, Refused, Tree

ID, RULE, VARIANT, TEXT = 1, 2, 3, 4
LONGEST_ID, VARIANTS = 16, 16


def field(tag, body):
    """A field: tag, length in two bytes with the high one first, body."""
    return bytes((tag, len(body) >> 8, len(body) & 255)) + body


def fields(pack):
    """The whole fields from the left: place, tag, and where the body starts and ends; last, where a field is cut short, or None."""
    found = []
    place = 0
    while place < len(pack):
        header = pack[place : place + 3]
        end = place + 3 + int.from_bytes(header[1:], "big")
        if len(header) < 3 or end > len(pack):
            return found, place
        found.append((place, header[0], place + 3, end))
        place = end
    return found, None


class Line:
    """An accepted pack: its flags through all guards, the rule and the variants, and where the texts stand."""

    def __init__(self, pack):
        self.flags = []
        self.rule = ["#1"]
        self.variants = []
        self.texts = []
        self.take_fields(pack)
        if any(question.signs() > CONNECTIVES for question in self.questions()):
            raise Refused(8, len(pack))

    def take_fields(self, pack):
        """Refuses 13 to 15, and what the guards refuse."""
        whole, short = fields(pack)
        due = (ID,)
        for place, tag, start, end in whole:
            if tag not in due:
                raise Refused(13, place)
            due = self.take_field(pack, place, tag, start, end)
        if short is not None:
            raise Refused(13, short)
        if ID in due or TEXT in due:
            raise Refused(13, len(pack))
        if not self.variants:
            raise Refused(14, len(pack))

    def take_field(self, pack, place, tag, start, end):
        """One field that may stand there; answers the tags that may stand after it."""
        if tag == ID:
            if not 1 <= end - start <= LONGEST_ID:
                raise Refused(15, place)
            return (RULE, VARIANT)
        if tag == RULE:
            self.rule = self.guard(pack, start, end)
            return (VARIANT,)
        if tag == TEXT:
            self.texts.append((start, end))
            return (VARIANT,)
        if len(self.variants) == VARIANTS:
            raise Refused(14, place)
        self.variants.append(self.guard(pack, start, end))
        return (TEXT,)

    def guard(self, pack, start, end):
        """The items of the guard that stands there; its flags are numbered on from those before it."""
        try:
            read = Guard(pack[start:end], self.flags)
        except Refused as refused:
            raise Refused(refused.number, start + refused.place, refused.wanted) from None
        self.flags = read.flags
        return read.items

    def questions(self):
        return [self.whole()] + [self.pair(i, j) for i in range(len(self.variants)) for j in range(i + 1, len(self.variants))]

    def whole(self):
        """rule > (v1|v2|..)"""
        either = self.variants[0]
        for variant in self.variants[1:]:
            either = either + variant + ["|"]
        return Question(self.flags, self.rule + either + [">"])

    def pair(self, i, j):
        """rule > !(vi&vj), the variants counted from 0"""
        return Question(self.flags, self.rule + self.variants[i] + self.variants[j] + ["&", "!", ">"])


class Question(Tree):
    """A guard that is put together of others, over all flags of the pack."""

    def signs(self):
        return sum(item in ("=", ">", "|", "&") for item in self.items if isinstance(item, str))


def check_pack(pack, depth):
    """Check's answer for the whole line, and (i, j, answer) of the first pair that is not covered, counted from 1, or None."""
    if depth > DEPTH:
        raise Refused(2)
    line = Line(pack)
    whole = reference.decided(line.whole(), depth)
    for i in range(len(line.variants)):
        for j in range(i + 1, len(line.variants)):
            answer = reference.decided(line.pair(i, j), depth)
            if answer != ("covered", None):
                return whole, (i + 1, j + 1, answer)
    return whole, None


def numbers(pack, depth):
    """What the entry for C answers, and the six numbers that it hands out, or None where it refuses."""
    try:
        whole, pair = check_pack(pack, depth)
    except Refused as refused:
        return refused.number | refused.wanted << 8 | refused.place << 16, None

    def parts(answer):
        return [{"covered": 0, "gap": 1, "undecided": 2}[answer[0]], answer[1] or 0]

    return 0, parts(whole) + (list(pair[:2]) + parts(pair[2]) if pair else [0, 0, 0, 0])


# Random packs


def damaged_fields(rng, parts):
    """The fields with one of them taken out, doubled, exchanged, given another tag, another length or another body."""
    parts = list(parts)
    place = rng.randrange(len(parts))
    tag, body = parts[place]
    change = rng.randrange(7)
    if change == 0:
        del parts[place]
    elif change == 1:
        parts.insert(place, parts[place])
    elif change == 2:
        other = rng.randrange(len(parts))
        parts[place], parts[other] = parts[other], parts[place]
    elif change == 3:
        parts[place] = (rng.choice((0, 1, 2, 3, 4, 5, rng.randrange(256))), body)
    elif change == 4:
        parts[place] = (tag, body + bytes(rng.randint(1, 20)))
    elif change == 5:
        parts[place] = (tag, body[: rng.randint(0, len(body))])
    else:
        parts = parts[:place]
    return parts


def random_pack(rng, guards):
    """A pack of few variants over few flags; half of them are damaged, as fields, as guards or as bytes."""
    names = guards.codes(rng, rng.randint(1, 4))
    variants = rng.choice((1, 1, 2, 2, 3, 4, 16, 17)) if rng.random() < 0.9 else 0

    def guard(connectives):
        text = guards.chain(rng, names, connectives, 0.05)
        return (guards.spaced(rng, text) if rng.random() < 0.2 else text).encode()

    parts = [(ID, bytes(rng.choice(b"abc.0") for _ in range(rng.choice((1, 5, 16, 16, rng.randrange(19))))))]
    if rng.random() < 0.6:
        parts.append((RULE, guard(rng.randint(0, 3))))
    for _ in range(variants):
        parts += [(VARIANT, guard(rng.randint(0, 60 if rng.random() < 0.03 else 4))), (TEXT, b"x" * rng.randrange(9))]
    broken = rng.random()
    if broken < 0.2:
        parts = damaged_fields(rng, parts)
    elif broken < 0.3:
        place = rng.randrange(len(parts))
        parts[place] = (parts[place][0], guards.damaged(rng, parts[place][1]))
    pack = b"".join(field(tag, body) for tag, body in parts)
    if 0.3 <= broken < 0.45:
        pack = guards.damaged(rng, pack)
    return pack


# The self-test


def examples():
    """Packs with what the entry answers of them at a depth, and what it hands out."""
    name, text = field(ID, b"inn.1"), field(TEXT, b"Hello")

    def variant(guard):
        return field(VARIANT, guard) + text

    def refusal(number, place, wanted=0):
        return number | wanted << 8 | place << 16, None

    yield "two that exclude each other", name + variant(b"A") + variant(b"!A"), 0, (0, [0, 0, 0, 0, 0, 0])
    yield "a gap and an overlap", name + variant(b"A") + variant(b"A&B"), 0, (0, [1, 0, 1, 2, 1, 3])
    yield "the rule leaves no gap", name + field(RULE, b"A") + variant(b"A"), 0, (0, [0, 0, 0, 0, 0, 0])
    yield "undecided", name + variant(b"(p>q)=(!q>!p)"), 0, (0, [2, 0, 0, 0, 0, 0])
    yield "the second pair", name + variant(b"A") + variant(b"!A") + variant(b"A"), 0, (0, [0, 0, 1, 3, 1, 1])
    yield "flags through the pack", name + field(RULE, b"B") + variant(b"A"), 0, (0, [1, 2, 0, 0, 0, 0])
    yield "the depth first", b"", 25, refusal(2, 0)
    yield "nothing", b"", 24, refusal(13, 0)
    yield "an id alone", name, 0, refusal(14, len(name))
    yield "a rule with no variant", name + field(RULE, b"A"), 0, refusal(14, len(name) + 4)
    yield "a variant with no text", name + field(VARIANT, b"A"), 0, refusal(13, len(name) + 4)
    yield "two rules", name + 2 * field(RULE, b"A"), 0, refusal(13, len(name) + 4)
    yield "an unknown tag", name + variant(b"A") + field(5, b""), 0, refusal(13, len(name) + 4 + len(text))
    yield "cut short", name + variant(b"A") + b"\3\0", 0, refusal(13, len(name) + 4 + len(text))
    yield "low byte first", b"\1\1\0a", 0, refusal(13, 0)
    yield "no id", variant(b"A"), 0, refusal(13, 0)
    yield "an empty id", field(ID, b"") + variant(b"A"), 0, refusal(15, 0)
    yield "a long id", field(ID, b"a" * 17) + variant(b"A"), 0, refusal(15, 0)
    yield "the longest id", field(ID, b"a" * 16) + variant(b"#1"), 0, (0, [0, 0, 0, 0, 0, 0])
    yield "17 variants", name + 17 * variant(b"A"), 0, refusal(14, len(name) + 16 * (4 + len(text)))
    yield "a guard's place in the pack", name + variant(b"A&"), 0, refusal(5, len(name) + 5, 1)
    yield "a bracket of a guard", name + variant(b"(A"), 0, refusal(5, len(name) + 5, 2)
    yield "a guard's end", name + variant(b"A)"), 0, refusal(5, len(name) + 4, 3)
    yield "the guard's number is the lower", name + field(VARIANT, b"A&") + field(9, b""), 0, refusal(5, len(name) + 5, 1)
    many = b"&".join(b"c%d" % i for i in range(24))
    yield "flags are counted through the pack", name + variant(many) + variant(b"c24"), 0, refusal(7, len(name) + 3 + len(many) + len(text) + 3)
    long = name + variant(b"&".join([b"A"] * 128)) + variant(b"&".join([b"A"] * 127))
    yield "255 with the question's own", long, 24, (0, [1, 0, 1, 2, 1, 1])
    over = name + variant(b"&".join([b"A"] * 128)) + variant(b"&".join([b"A"] * 128))
    yield "256 with the question's own", over, 24, refusal(8, len(over))


def self_test():
    failed = compared = 0
    for what, pack, depth, wanted in examples():
        compared += 1
        answered = numbers(pack, depth)
        if answered != wanted:
            failed += 1
            print(f"{what}: {answered}, not {wanted}")
    print(f"packs: {compared} comparisons, {failed} disagreements")
    return failed == 0


if __name__ == "__main__":
    sys.exit(0 if self_test() else 1)
