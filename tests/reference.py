#!/usr/bin/env python3
"""The five services and covercheck once more, written from the outline alone and with none of the project's code.

It is slow and plain on purpose: a guard is a list of items in postfix order, a relation is a set of pairs, and the rules of
saturation are tried in random order until none adds anything.

    python3 tests/reference.py --self-test     runs the outline's examples and compares the services with each other
    python3 tests/reference.py < guards.txt    prints what covercheck prints
"""
import random
import sys

import guards

TEXT, DEPTH, CODE, BRACKETS, FLAGS, CONNECTIVES, INPUT = 4096, 24, 12, 32, 24, 255, 65536
LEVEL = {"=": 1, ">": 2, "|": 3, "&": 4}
CODE_BYTES = frozenset(b"ABCDEFGHIJKLMNOPQRSTUVWXYZabcdefghijklmnopqrstuvwxyz0123456789_.")


class Refused(Exception):
    """A refusal: its number and its place."""

    def __init__(self, number, place=0):
        super().__init__(number, place)
        self.number = number
        self.place = place


# Reading


def token_at(text, place):
    """What the token that starts here is, and where the next may start. Refuses 3 and 4."""
    byte = text[place]
    if byte in CODE_BYTES:
        end = place
        while end < len(text) and text[end] in CODE_BYTES:
            end += 1
        if end - place > CODE:
            raise Refused(4, place)
        return text[place:end], end
    if byte == ord("#"):
        if text[place + 1 : place + 2] not in (b"0", b"1"):
            raise Refused(3, place)
        return "#" + chr(text[place + 1]), place + 2
    if byte not in b"!&|>=()":
        raise Refused(3, place)
    return chr(byte), place + 1


class Guard:
    """An accepted text: its flags in order of appearance, with their places, and its items in postfix order."""

    def __init__(self, text):
        if len(text) > TEXT:
            raise Refused(1, TEXT)
        self.flags = []
        self.places = []
        self.items = []
        self.waiting = []  # signs and open brackets whose right side is not complete
        self.brackets = 0
        self.connectives = 0
        wanted = True  # whether an operand is wanted
        place = 0
        while place < len(text):
            if text[place] == 0x20:
                place += 1
                continue
            token, end = token_at(text, place)
            wanted = self.take(token, place, wanted)
            place = end
        if wanted or self.brackets:
            raise Refused(5, len(text))
        self.unwind(0)

    def take(self, token, place, wanted):
        """One token; answers whether an operand is wanted after it. Refuses 5 to 8."""
        starts = isinstance(token, bytes) or token in ("#0", "#1", "!", "(")
        if starts != wanted or (token == ")" and not self.brackets):
            raise Refused(5, place)
        if token == "(":
            if self.brackets == BRACKETS:
                raise Refused(6, place)
            self.brackets += 1
            self.waiting.append(token)
        elif token == "!":
            self.waiting.append(token)
        elif token == ")":
            self.unwind(0)
            self.waiting.pop()
            self.brackets -= 1
            self.operand_done()
        elif token in LEVEL:
            if self.connectives == CONNECTIVES:
                raise Refused(8, place)
            self.connectives += 1
            # what is at least as tight is complete; a `>` waits for the `>` on its right
            self.unwind(LEVEL[token] + (token == ">"))
            self.waiting.append(token)
        else:
            self.items.append(token if isinstance(token, str) else self.flag(token, place))
            self.operand_done()
        return token in LEVEL or token in ("!", "(")

    def flag(self, code, place):
        if code not in self.flags:
            if len(self.flags) == FLAGS:
                raise Refused(7, place)
            self.flags.append(code)
            self.places.append(place)
        return self.flags.index(code) + 1

    def operand_done(self):
        while self.waiting and self.waiting[-1] == "!":
            self.items.append(self.waiting.pop())

    def unwind(self, level):
        """Completes what waits since the last open bracket at this level or a tighter one."""
        while self.waiting and self.waiting[-1] != "(" and LEVEL[self.waiting[-1]] >= level:
            self.items.append(self.waiting.pop())

    def value(self, columns, ones):
        """The truth of the guard: bit s of the answer, where bit s of `columns[i - 1]` is the truth of flag i."""
        stack = []
        for item in self.items:
            if isinstance(item, int):
                stack.append(columns[item - 1])
            elif item in ("#0", "#1"):
                stack.append(ones if item == "#1" else 0)
            elif item == "!":
                stack.append(ones ^ stack.pop())
            else:
                right, left = stack.pop(), stack.pop()
                if item == "&":
                    stack.append(left & right)
                elif item == "|":
                    stack.append(left | right)
                elif item == ">":
                    stack.append((ones ^ left) | right)
                else:
                    stack.append(ones ^ left ^ right)
        (answer,) = stack
        return answer

    def triplets(self):
        """The triplets (kind, y, z) in order, and the root literal."""
        made = []
        stack = []
        for item in self.items:
            if isinstance(item, int):
                stack.append(2 * item)
            elif item in ("#0", "#1"):
                stack.append(0 if item == "#1" else 1)
            elif item == "!":
                stack.append(stack.pop() ^ 1)
            else:
                right, left = stack.pop(), stack.pop()
                made.append({
                    ">": (0, left, right),
                    "|": (0, left ^ 1, right),
                    "&": (0, left, right ^ 1),
                    "=": (1, left, right),
                }[item])
                stack.append(2 * (FLAGS + len(made)) + (item == "&"))
        (root,) = stack
        return made, root

    def states(self):
        return 1 << len(self.flags)


# The services


def read(text, room):
    """The number of flags, of triplets, the root literal, and the numbers written into a room of that many."""
    guard = Guard(text)
    triplets, root = guard.triplets()
    if room < 3 * len(triplets):
        raise Refused(10)
    return len(guard.flags), len(triplets), root, [number for triplet in triplets for number in triplet]


def name(text, flag):
    """Where flag `flag` first stands: the place of its first byte, and how many bytes it has."""
    guard = Guard(text)
    if flag == 0 or flag > len(guard.flags):
        raise Refused(11)
    return guard.places[flag - 1], len(guard.flags[flag - 1])


def evaluate(text, state):
    """Whether the guard is true in the state."""
    guard = Guard(text)
    if state >= guard.states():
        raise Refused(9)
    n = len(guard.flags)
    return guard.value([state >> (n - i) & 1 for i in range(1, n + 1)], 1) == 1


def gap_bits(guard):
    """A number whose bit s says whether state s is a gap."""
    n = len(guard.flags)
    ones = (1 << guard.states()) - 1
    columns = []
    for i in range(1, n + 1):
        # flag i is bit n - i of a state: it changes every 2^(n - i) states, false first
        run = 1 << (n - i)
        column = ((1 << run) - 1) << run
        width = 2 * run
        while width < guard.states():
            column |= column << width
            width *= 2
        columns.append(column)
    return ones ^ guard.value(columns, ones)


def list_gaps(text, start, room):
    """The states written into a room of that many, and the next gap, or None where it is done."""
    guard = Guard(text)
    if start >= guard.states():
        raise Refused(9)
    bits = format(gap_bits(guard), "b")[::-1]
    written = []
    place = bits.find("1", start)
    while place >= 0 and len(written) < room:
        written.append(place)
        place = bits.find("1", place + 1)
    return written, place if place >= 0 else None


# Check, by saturation


class Relation:
    """A set of pairs of literals: bit m of `pairs[l]` says whether it holds l = m."""

    def __init__(self, pairs):
        self.pairs = pairs

    @classmethod
    def fresh(cls, variables):
        return cls({literal: 1 << literal for v in variables for literal in (2 * v, 2 * v + 1)})

    def copy(self):
        return Relation(dict(self.pairs))

    def holds(self, l, m):
        return self.pairs[l] >> m & 1 == 1

    def contradictory(self):
        return self.holds(0, 1)

    def add(self, l, m):
        """Adds l = m and all that follows by equivalence and by negating both sides; answers whether it was new."""
        if self.holds(l, m):
            return False
        for a, b in ((l, m), (l ^ 1, m ^ 1)):
            joined = self.pairs[a] | self.pairs[b]
            for literal in self.pairs:
                if joined >> literal & 1:
                    self.pairs[literal] = joined
        if any(self.holds(literal, literal ^ 1) for literal in self.pairs):
            everything = sum(1 << literal for literal in self.pairs)
            self.pairs = {literal: everything for literal in self.pairs}
        return True

    def add_shared(self, one, other):
        """Adds what both of two relations above this one hold; answers whether anything was new."""
        shared = {l: one.pairs[l] & other.pairs[l] for l in self.pairs}
        new = shared != self.pairs
        self.pairs = shared
        return new


def step(relation, kind, x, y, z):
    """One step on a triplet, by the eight truth values; answers whether it added anything."""
    literals = [literal ^ sign for literal in (0, x, y, z) for sign in (0, 1)]
    pairs = [(i, j) for i in range(8) for j in range(i)]
    held = [(i, j) for i, j in pairs if relation.holds(literals[i], literals[j])]
    fitting = []
    for values in range(8):
        vx, vy, vz = values >> 2 & 1, values >> 1 & 1, values & 1
        if vx != (((1 - vy) | vz) if kind == 0 else int(vy == vz)):
            continue
        truth = [1, 0, vx, 1 - vx, vy, 1 - vy, vz, 1 - vz]
        if all(truth[i] == truth[j] for i, j in held):
            fitting.append(truth)
    if not fitting:
        return relation.add(0, 1)
    added = False
    for i, j in pairs:
        if all(truth[i] == truth[j] for truth in fitting):
            added |= relation.add(literals[i], literals[j])
    return added


def saturate(relation, triplets, flags, depth, rng):
    """The saturation of the relation at the depth: its rules in random order, until none of them adds anything."""
    steps = [(kind, 2 * (FLAGS + j), y, z) for j, (kind, y, z) in enumerate(triplets, 1)]
    rules = steps + (list(range(1, flags + 1)) if depth > 0 else [])
    tired = 0  # how many rules in a row added nothing
    while tired < len(rules) and not relation.contradictory():
        if tired == 0:
            rng.shuffle(rules)
        rule = rules[tired]
        if isinstance(rule, tuple):
            added = step(relation, *rule)
        else:
            sides = []
            for value in (0, 1):
                side = relation.copy()
                side.add(2 * rule, value)
                saturate(side, triplets, flags, depth - 1, rng)
                sides.append(side)
            added = relation.add_shared(*sides)
        tired = 0 if added else tired + 1


def check(text, depth, rng=None):
    """("covered", None), ("gap", state) or ("undecided", None)."""
    if len(text) > TEXT:
        raise Refused(1, TEXT)
    if depth > DEPTH:
        raise Refused(2)
    guard = Guard(text)
    rng = rng or random.Random(0)
    triplets, root = guard.triplets()
    n = len(guard.flags)
    variables = [0, *range(1, n + 1), *range(FLAGS + 1, FLAGS + 1 + len(triplets))]
    relation = Relation.fresh(variables)
    relation.add(root, 1)
    saturate(relation, triplets, n, depth, rng)
    if relation.contradictory():
        return "covered", None
    state = 0
    for flag in range(1, n + 1):
        for literal in (1, 0):  # false, and where that is contradictory, true
            tried = relation.copy()
            tried.add(2 * flag, literal)
            saturate(tried, triplets, n, depth, rng)
            if not tried.contradictory():
                break
        relation = tried
        state = 2 * state + (literal == 0)
    return ("undecided", None) if relation.contradictory() else ("gap", state)


def decide(text, depth):
    """What check answers; from the number of flags up by truth tables, where naive saturation would take days.

    The self-test compares the two ways on small guards.
    """
    if len(text) > TEXT or depth > DEPTH or depth < len(Guard(text).flags):
        return check(text, depth)
    _, first = list_gaps(text, 0, 0)
    return ("covered", None) if first is None else ("gap", first)


# The importer's side and covercheck


def packed_refusal(refused):
    return 3 << 32 | refused.number << 16 | refused.place


def packed_check(text, depth):
    try:
        kind, state = decide(text, depth)
    except Refused as refused:
        return packed_refusal(refused)
    return {"covered": 0, "gap": 1, "undecided": 2}[kind] << 32 | (state or 0)


def packed_evaluate(text, state):
    try:
        return int(evaluate(text, state))
    except Refused as refused:
        return packed_refusal(refused)


def line_parts(line):
    """The depth and the guard of a line. Refuses 12."""
    digits = 0
    while digits < len(line) and line[digits] in b"0123456789":
        digits += 1
    if digits not in (1, 2) or line[digits : digits + 1] != b" ":
        raise Refused(12)
    return int(line[:digits]), line[digits + 1 :]


def line_answer(line):
    """What covercheck says of a line, after its number."""
    try:
        depth, text = line_parts(line)
        kind, state = decide(text, depth)
    except Refused as refused:
        return b"refused %d %d" % (refused.number, refused.place)
    if kind != "gap":
        return kind.encode()
    flags = Guard(text).flags
    return b" ".join([b"gap"] + [b"%s=%d" % (code, state >> (len(flags) - 1 - i) & 1) for i, code in enumerate(flags)])


def covercheck(data):
    """What covercheck prints for this input."""
    if len(data) > INPUT:
        return b"input too long\n"
    lines = data.split(b"\n")
    if lines[-1] == b"":
        lines.pop()
    return b"".join(b"%d %s\n" % (number, line_answer(line)) for number, line in enumerate(lines, 1))


# The self-test


class Tally:
    """Counts comparisons, and keeps the first that fails."""

    def __init__(self):
        self.compared = 0
        self.failed = 0

    def same(self, what, got, wanted):
        self.compared += 1
        if got != wanted:
            if not self.failed:
                print(f"{what}: {got!r}, and not {wanted!r}")
            self.failed += 1

    def refuses(self, what, number, place, service, *args):
        try:
            got = service(*args)
        except Refused as refused:
            got = refused.number, refused.place
        self.same(what, got, (number, place))


DILEMMA = b"(p>q)=(!q>!p)"
WITH_A = b"!a&((p>q)=(!q>!p))"
SAMPLE = b"0 A|!A\n0 A>B\n0 (p>q)=(!q>!p)\n1 (p>q)=(!q>!p)\n0 3E5|!300000\n0 A&\n0 #0\n"
SAMPLE_ANSWER = b"""1 covered
2 gap A=1 B=0
3 undecided
4 covered
5 gap 3E5=0 300000=1
6 refused 5 2
7 gap
"""


def desk(t):
    """The outline's desk examples and its sample of covercheck."""
    for text, gaps in ((b"A=B", [1, 2]), (b"A&B", [0, 1, 2]), (b"#0", [0]), (b"#1", []), (WITH_A, [4, 5, 6, 7])):
        t.same(text, list_gaps(text, 0, 100), (gaps, None))
    t.same("room 1", list_gaps(b"A=B", 0, 1), ([1], 2))
    t.same("room 0", list_gaps(b"A=B", 0, 0), ([], 1))
    t.same("start 2", list_gaps(b"A=B", 2, 100), ([2], None))
    t.refuses("start 4", 9, 0, list_gaps, b"A=B", 4, 100)
    for text, depth, answer in (
        (b"(A&B)|(!A|!B)", 0, ("covered", None)),
        (DILEMMA, 0, ("undecided", None)),
        (DILEMMA, 1, ("covered", None)),
        (WITH_A, 0, ("undecided", None)),
        (WITH_A, 1, ("gap", 4)),
        (b"(((p>p)>p)>(p>q))>(((p>q)>p)>q)", 0, ("covered", None)),
    ):
        t.same((text, depth), check(text, depth), answer)
    t.same("A>B>C", read(b"A>B>C", 6), (3, 2, 52, [0, 4, 6, 0, 2, 50]))
    t.same("covercheck", covercheck(SAMPLE), SAMPLE_ANSWER)
    t.same("no final line feed", covercheck(SAMPLE[:-1]), SAMPLE_ANSWER)


def notation(t):
    """Levels, grouping, codes, names and the C side's numbers."""
    for loose, bracketed in (
        (b"a=b>c|d&!e", b"a=(b>(c|(d&(!e))))"),
        (b"a&b|c>d=e", b"(((a&b)|c)>d)=e"),
        (b"a=b=c", b"(a=b)=c"),
        (b"a|b|c", b"(a|b)|c"),
        (b"a&b&c", b"(a&b)&c"),
        (b"a>b>c>d", b"a>(b>(c>d))"),
        (b" ! ! a & ( b ) ", b"!!a&b"),
    ):
        t.same(loose, read(loose, 765), read(bracketed, 765))
    t.same("three flags", Guard(b"3E5&3e5&300000&3E5").flags, [b"3E5", b"3e5", b"300000"])
    t.same("a&b", read(b"a&b", 3), (2, 1, 51, [0, 2, 5]))
    t.same("a|b", read(b"a|b", 3), (2, 1, 50, [0, 3, 4]))
    t.same("!(a=#0)", read(b"!(a=#0)", 3), (1, 1, 51, [1, 2, 1]))
    t.same("name", [name(b"!ab & c|ab", i) for i in (1, 2)], [(1, 2), (6, 1)])
    t.refuses("room", 10, 0, read, b"a&b", 2)
    t.refuses("flag 0", 11, 0, name, b"a", 0)
    t.refuses("flag 2", 11, 0, name, b"a", 2)
    t.same("the first flag is the highest bit", [evaluate(b"A>B", s) for s in range(4)], [True, True, False, True])
    t.refuses("state", 9, 0, evaluate, b"A>B", 4)
    t.same("packed", [packed_check(WITH_A, d) for d in (0, 1, 25)], [2 << 32, (1 << 32) + 4, (3 << 32) + (2 << 16)])
    t.same("packed", packed_evaluate(b"A&", 0), (3 << 32) + (5 << 16) + 2)


def refusals(t):
    """Every refusal, at its ceiling and one past it, and the order of refusals."""
    for text, number, place in (
        (b"", 5, 0), (b"   ", 5, 3), (b"A B", 5, 2), (b"A)", 5, 1), (b"(A", 5, 2), (b"A&  ", 5, 4), (b"()", 5, 1),
        (b"#2", 3, 0), (b"#", 3, 0), (b"# 0", 3, 0), (b"#01", 5, 2), (b"A\t", 3, 1), (b"A&\x80", 3, 2), (b"\n", 3, 0),
        (b"A" * 13, 4, 0), (b"A " + b"B" * 13, 4, 2), (b"A&&" + b"B" * 13, 5, 2), (b"A)$", 5, 1),
        (b"(" * 33, 6, 32), (b"A(" + b"(" * 33, 5, 1), (b"a" * 4097, 1, 4096), (b"$" * 4097, 1, 4096),
        (b"&".join(b"f%d" % i for i in range(25)), 7, len(b"&".join(b"f%d" % i for i in range(24))) + 1),
        (b"|".join([b"a"] * 257), 8, 2 * 255 + 1), (b"a" + b"|a" * 255 + b"|$", 8, 511),
    ):
        t.refuses(text, number, place, Guard, text)
    for text in (b"A" * 12, b"(" * 32 + b"A" + b")" * 32, b"&".join(b"f%d" % i for i in range(24)), b"!" * 4095 + b"a",
                 b"|".join([b"a"] * 256), b"a" + b" " * 4095):
        t.same(text, isinstance(Guard(text), Guard), True)
    t.refuses("1 before 2", 1, 4096, check, b"$" * 4097, 25)
    t.refuses("2 before 3", 2, 0, check, b"$", 25)
    t.same("depth 24", check(b"a", 24), ("gap", 0))
    for line, answer in (
        (b"007 A", b"refused 12 0"), (b" 0 A", b"refused 12 0"), (b"A", b"refused 12 0"), (b"", b"refused 12 0"),
        (b"7 ", b"refused 5 0"), (b"07  A", b"gap A=0"), (b"25 A", b"refused 2 0"), (b"99 $", b"refused 2 0"),
        (b"0 A$", b"refused 3 1"), (b"0A", b"refused 12 0"), (b"0", b"refused 12 0"), (b"\r", b"refused 12 0"),
    ):
        t.same(line, line_answer(line), answer)
    t.same("empty input", covercheck(b""), b"")
    t.same("an empty line", covercheck(b"\n"), b"1 refused 12 0\n")
    t.same("too long", covercheck(b"\n" * 65537), b"input too long\n")
    t.same("just not too long", covercheck(b"$" * 65536), b"1 refused 12 0\n")


def agree(t, rng, count):
    """The services against each other on random guards: truth tables, the list, and check at depths 0 to n."""
    for _ in range(count):
        text = guards.valid(rng, rng.randint(0, 3), rng.randint(0, 6))
        states = Guard(text).states()
        gaps = [state for state in range(states) if not evaluate(text, state)]
        t.same(text, list_gaps(text, 0, states), (gaps, None))
        truth = ("gap", gaps[0]) if gaps else ("covered", None)
        decided = False
        for depth in range(len(Guard(text).flags) + 1):
            answer = check(text, depth, rng)
            t.same((text, depth, "in another order"), check(text, depth, rng), answer)
            t.same((text, depth, "the other way"), decide(text, depth), answer)
            decided = decided or answer != ("undecided", None) or depth >= len(Guard(text).flags)
            t.same((text, depth), answer, truth if decided else ("undecided", None))


def self_test():
    t = Tally()
    desk(t)
    notation(t)
    refusals(t)
    agree(t, guards.generator(2026), 200)
    print(f"reference: {t.compared} comparisons, {t.failed} disagreements")
    return t.failed == 0


if __name__ == "__main__":
    if sys.argv[1:] == ["--self-test"]:
        sys.exit(0 if self_test() else 1)
    sys.stdout.buffer.write(covercheck(sys.stdin.buffer.read(INPUT + 1)))
