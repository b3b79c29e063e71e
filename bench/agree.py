#!/usr/bin/env python3
"""agree.py LIBRARY COUNT: compares the five entries of a shared library with tests/reference.py on random guards.

A baseline that answers wrongly measures nothing.
"""
import ctypes
import os
import sys

sys.path.insert(0, os.path.join(os.path.dirname(os.path.abspath(__file__)), "..", "tests"))
import compare


class Library:
    """The entries of a shared library."""

    def __init__(self, path):
        self.library = ctypes.CDLL(path)

    def entry(self, service, text, *more):
        function = getattr(self.library, "trestulan_" + service)
        function.restype = ctypes.c_uint64
        return function(text, ctypes.c_size_t(len(text)), *more)

    def check(self, text, depth):
        return self.entry("check", text, ctypes.c_uint64(depth))

    def evaluate(self, text, state):
        return self.entry("evaluate", text, ctypes.c_uint64(state))

    def list(self, text, start, room):
        lent = (ctypes.c_uint32 * room)()
        return self.entry("list", text, ctypes.c_uint64(start), lent, ctypes.c_size_t(room)), list(lent)

    def read(self, text, room):
        lent = (ctypes.c_uint16 * room)()
        return self.entry("read", text, lent, ctypes.c_size_t(room)), list(lent)

    def name(self, text, flag):
        return self.entry("name", text, ctypes.c_uint64(flag))


if __name__ == "__main__":
    sys.exit(0 if compare.compare(Library(os.path.abspath(sys.argv[1])), int(sys.argv[2]), 7) == 0 else 1)
