#!/usr/bin/env python3
"""measure.py DIR: measures the programs that bench/run has built in DIR, in x86-64 instructions, and prints the tables.
measure.py DIR rest FILE..: measures rest on other guards, one a line.

The count is of one pass over a corpus, less the same program's pass that calls nothing. It repeats under any load.
"""
import os
import platform
import re
import subprocess
import sys

import corpora

CORPORA = ("quest", "lines", "proofs", "wide")
# the plain program needs 2,571 million instructions for each of these guards
LEFT_OUT = {("check", "2", "wide")}
SERVICES = [("read",), ("name",), ("evaluate",), ("list",), ("check", "0"), ("check", "1"), ("check", "2"), ("check", "n")]


def run(*command):
    return subprocess.run(command, check=True, capture_output=True, text=True)


def instructions(*command):
    """How many instructions a command executes, and what it prints."""
    if platform.machine() == "x86_64":
        done = run("valgrind", "--tool=cachegrind", "--cache-sim=no", "--cachegrind-out-file=/dev/null", *command)
        counted = re.search(r"I\s+refs:\s+([\d,]+)", done.stderr)
    else:
        done = run("qemu-x86_64", "-plugin", os.path.join(sys.argv[1], "libcount.so"), *command)
        counted = re.search(r"instructions (\d+)", done.stderr)
    return int(counted.group(1).replace(",", "")), done.stdout


def cost(program, corpus, service):
    """The instructions of a service over a corpus, and the program's answer line."""
    mode = [service[0], corpus] + [depth.replace("n", "99") for depth in service[1:]]
    idle, _ = instructions(program, "nothing", corpus)
    busy, said = instructions(program, *mode)
    return busy - idle, said


def both(folder, name, service):
    """The instructions of a service by the plain C program and by the project over a corpus, its guards, and whether the answers agree."""
    corpus = os.path.join(folder, name + ".txt")
    plain, said = cost(os.path.join(folder, "baseline"), corpus, service)
    ours, answers = cost(os.path.join(folder, "ours"), corpus, service)
    return plain, ours, int(said.split()[0]), answers == said


def table(first, rows):
    """Prints a row for each label, corpus and what both need for it; answers whether all sums of answers agree."""
    print(f"{first:10} {'corpus':14} {'guards':>6} {'plain C, a guard':>17} {'ours':>13} {'ratio':>6}")
    agree = True
    for label, name, (plain, ours, guards, same) in rows:
        differ = "" if same else "   ANSWERS DIFFER"
        print(f"{label:10} {name:14} {guards:6} {plain / guards:17,.0f} {ours / guards:13,.0f} {ours / plain:6.2f}{differ}", flush=True)
        agree = agree and same
    return agree


def services(folder):
    """A row for each service and corpus."""
    measured = [(service, name) for service in SERVICES for name in CORPORA if service + (name,) not in LEFT_OUT]
    return table("service", ((" ".join(service), name, both(folder, name, service)) for service, name in measured))


def rest(folder, names):
    """A row for each corpus: check at depth 0 less read, which is what joining, rest and the trial of the flags cost."""
    def row(name):
        check, read = both(folder, name, ("check", "0")), both(folder, name, ("read",))
        return "", name, (check[0] - read[0], check[1] - read[1], check[2], check[3] and read[3])
    return table("rest", (row(name) for name in names))


def taken_in(folder, path):
    """The name of a corpus in the folder that has the guards of the file."""
    name = "other-" + os.path.splitext(os.path.basename(path))[0]
    with open(path) as guards, open(os.path.join(folder, name + ".txt"), "w") as out:
        out.writelines(f"{corpora.flags(guard)} {guard}" for guard in guards)
    return name


if __name__ == "__main__":
    if sys.argv[2:3] == ["rest"]:
        sys.exit(0 if rest(sys.argv[1], [taken_in(sys.argv[1], path) for path in sys.argv[3:]]) else 1)
    rests = rest(sys.argv[1], CORPORA)
    print()
    sys.exit(0 if services(sys.argv[1]) and rests else 1)
