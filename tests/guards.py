"""Random guards, valid and damaged, the same for the same seed. It knows how guards are written, not what they mean."""
import random

SIGNS = "&|>="
CODE_BYTES = "ABCDEFGHIJKLMNOPQRSTUVWXYZabcdefghijklmnopqrstuvwxyz0123456789_."
CEILING = 4096


def codes(rng, count):
    """That many different codes; some look like numbers, and some differ only by their case."""
    liked = ["3E5", "3e5", "300000", "A", "a", "0", "1", "DAY.2", "MET_INN", "_", ".", "ABCDEFGHIJKL"]
    rng.shuffle(liked)
    while len(liked) < count:
        code = "".join(rng.choice(CODE_BYTES) for _ in range(rng.randint(1, 12)))
        if code not in liked:
            liked.append(code)
    return liked[:count]


def tree(rng, names, connectives, constants):
    """A guard with that many two-sided connectives, brackets round each of them."""
    if connectives == 0:
        leaf = rng.choice(("#0", "#1")) if rng.random() < constants else rng.choice(names)
        return "!" * rng.choice((0, 0, 0, 1, 1, 2)) + leaf
    left = rng.randrange(connectives)
    sides = tree(rng, names, left, constants), tree(rng, names, connectives - 1 - left, constants)
    return "!" * rng.choice((0, 0, 0, 0, 1)) + "(" + rng.choice(SIGNS).join(sides) + ")"


def chain(rng, names, connectives, constants):
    """A guard with few brackets, so that the levels of the notation decide its tree."""
    parts = []
    depth = 0
    for place in range(connectives + 1):
        if place:
            parts.append(rng.choice(SIGNS))
        parts.append("!" * rng.choice((0, 0, 0, 1, 2)))
        if depth < 32 and rng.random() < 0.2:
            parts.append("(")
            depth += 1
        parts.append(rng.choice(("#0", "#1")) if rng.random() < constants else rng.choice(names))
        while depth and rng.random() < 0.3:
            parts.append(")")
            depth -= 1
    return "".join(parts) + ")" * depth


def spaced(rng, text):
    """The text with spaces between some of its tokens."""
    out = []
    for byte in text:
        out.append(byte)
        if byte in "!&|>=()" and rng.random() < 0.15:
            out.append(" " * rng.randint(1, 3))
    return " " * rng.choice((0, 0, 0, 1)) + "".join(out) + " " * rng.choice((0, 0, 0, 2))


def valid(rng, flags, connectives):
    """A guard of at most so many flags and exactly so many connectives, at most 32 brackets open at once."""
    names = codes(rng, max(flags, 1))
    constants = 0.05 if flags else 1
    while True:
        text = rng.choice((tree, chain))(rng, names, connectives, constants)
        if rng.random() < 0.3:
            text = spaced(rng, text)
        if len(text) <= CEILING and nesting(text) <= 32:
            return text.encode()


def nesting(text):
    most = depth = 0
    for byte in text:
        depth += (byte == "(") - (byte == ")")
        most = max(most, depth)
    return most


def damaged(rng, text):
    """The text with one to three of its bytes taken out, changed, doubled or put in."""
    out = bytearray(text)
    for _ in range(rng.randint(1, 3)):
        place = rng.randint(0, len(out))
        byte = rng.choice(b"AZaz09_.!&|>=()# #0#1") if rng.random() < 0.8 else rng.randrange(256)
        change = rng.randrange(4)
        if change == 0 or place == len(out):
            out.insert(place, byte)
        elif change == 1:
            del out[place]
        elif change == 2:
            out[place] = byte
        else:
            end = min(len(out), place + rng.randint(1, 20))
            out[place:place] = out[place:end]
    return bytes(out)


def generator(seed):
    return random.Random(seed)
