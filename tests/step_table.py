#!/usr/bin/env python3
"""The step table, computed from its definition: 105 numbers for kind 0, then 105 for kind 1.

Prints one number a line. It shares nothing with the table of crates/steps.
"""
from itertools import product

X_NAMES = ("false", "true", "x")
Y_NAMES = ("false", "true", "x", "not x", "y")
Z_NAMES = ("false", "true", "x", "not x", "y", "not y", "z")
CONTRADICTION = 255


def truth(name, values):
    """The truth of a name, where x, y and z have the values."""
    if name in ("false", "true"):
        return name == "true"
    if name.startswith("not "):
        return not values[name[4:]]
    return values[name]


def satisfies(kind, values):
    implied = not values["y"] or values["z"]
    return values["x"] == (implied if kind == 0 else values["y"] == values["z"])


def earliest(own, names, fitting):
    """The place of the first name that equals `own` in all that fit."""
    for place, name in enumerate(names):
        if all(truth(own, v) == truth(name, v) for v in fitting):
            return place
    raise AssertionError("its own name always fits")


def entry(kind, x, y, z):
    named = {"x": X_NAMES[x], "y": Y_NAMES[y], "z": Z_NAMES[z]}
    fitting = []
    for bits in product((False, True), repeat=3):
        values = dict(zip("xyz", bits))
        if satisfies(kind, values) and all(values[own] == truth(name, values) for own, name in named.items()):
            fitting.append(values)
    if not fitting:
        return CONTRADICTION
    after = [earliest(own, names, fitting) for own, names in zip("xyz", (X_NAMES, Y_NAMES, Z_NAMES))]
    return 35 * after[0] + 7 * after[1] + after[2]


def table():
    return [entry(kind, x, y, z) for kind in range(2) for x in range(3) for y in range(5) for z in range(7)]


def quoted():
    """The entries that the outline quotes."""
    kind_0 = {34: 7, 102: 67, 103: 93, 83: 79, 6: 255, 42: 255, 104: 104}
    kind_1 = {90: 85}
    numbers = table()
    assert all(numbers[p] == e for p, e in kind_0.items())
    assert all(numbers[105 + p] == e for p, e in kind_1.items())


if __name__ == "__main__":
    quoted()
    for number in table():
        print(number)
