#!/usr/bin/env python3
"""corpora.py SEED DIR: makes the guards that are measured, one a line after its number of flags, in DIR/NAME.txt.

quest     the guards of single variants, as writers make them
lines     whole lines: the variants of a decision tree joined, some with a variant missing
proofs    tautologies of the textbooks: transitivity, pigeonholes, parity in two orders
wide      24 flags and 255 connectives at random
"""
import os
import random
import sys

sys.path.insert(0, os.path.join(os.path.dirname(os.path.abspath(__file__)), "..", "tests"))
from guards import nesting

CODES = [f"{stem}{i}" for i, stem in enumerate("MET SAW DAY.2_ 3E HAS_KEY GONE inn_ Q".split() * 3)]


def literal(rng, codes):
    return rng.choice(("", "", "!")) + rng.choice(codes)


def quest(rng):
    codes = rng.sample(CODES, rng.randint(2, 6))
    text = literal(rng, codes)
    for _ in range(rng.randint(1, 9)):
        other = literal(rng, codes)
        if rng.random() < 0.3:
            other = f"({other} {rng.choice('&|>=')} {literal(rng, codes)})"
        text = f"{text} {rng.choice('&&&||>=')} {other}"
    return text


def paths(rng, codes):
    """The variants of a decision tree: the literals on the way to each of its leaves."""
    if not codes or rng.random() < 0.1:
        return [[]]
    return [[sign + codes[0]] + path for sign in ("", "!") for path in paths(rng, codes[1:])]


def line(rng):
    codes = rng.sample(CODES, rng.randint(3, 5))
    variants = [path for path in paths(rng, codes) if path]
    rng.shuffle(variants)
    if variants and rng.random() < 0.4:
        variants.pop()
    return "|".join("(" + "&".join(variant) + ")" for variant in variants) or "#1"


def transitivity(n):
    c = CODES[: n + 1]
    return "&".join(f"({a}>{b})" for a, b in zip(c, c[1:])) + f">({c[0]}>{c[n]})"


def pigeons(n):
    """n pigeons and n - 1 holes: two sit in one hole."""
    sits = [[CODES[p * (n - 1) + h] for h in range(n - 1)] for p in range(n)]
    all_sit = "&".join("(" + "|".join(row) + ")" for row in sits)
    two = "|".join(f"({sits[p][h]}&{sits[q][h]})" for h in range(n - 1) for p in range(n) for q in range(p))
    return f"{all_sit}>({two})"


def parity(rng, n):
    one = CODES[:n]
    other = rng.sample(one, n)
    return f"({'='.join(one)})=({'='.join(other)})"


def proofs(rng):
    return (
        [transitivity(n) for n in range(1, 20)]
        + [pigeons(n) for n in (2, 3, 4)]
        + [parity(rng, n) for n in range(2, 9)]
        + [f"({a})={b}" for a, b in (("p>q", "(!q>!p)"), ("p&q", "!(!p|!q)"), ("p=q", "((p>q)&(q>p))"))]
    )


def wide(rng):
    def tree(connectives, depth):
        if connectives == 0:
            return literal(rng, CODES)
        left = rng.randrange(connectives) if depth < 20 else connectives // 2
        sides = tree(left, depth + 1), tree(connectives - 1 - left, depth + 1)
        return "(" + rng.choice("&|>=").join(sides) + ")"

    while True:
        text = tree(255, 0)
        if len(text) <= 4096 and flags(text) == 24 and nesting(text) <= 32:
            return text


def flags(text):
    for sign in "!&|>=()":
        text = text.replace(sign, " ")
    return len({code for code in text.split() if code[0] != "#"})


def main(seed, folder):
    rng = random.Random(seed)
    corpora = {
        "quest": [quest(rng) for _ in range(400)],
        "lines": [line(rng) for _ in range(100)],
        "proofs": proofs(rng),
        "wide": [wide(rng) for _ in range(4)],
    }
    os.makedirs(folder, exist_ok=True)
    for name, guards in corpora.items():
        with open(os.path.join(folder, name + ".txt"), "w") as out:
            out.writelines(f"{flags(guard)} {guard}\n" for guard in guards)


if __name__ == "__main__":
    main(int(sys.argv[1]), sys.argv[2])
