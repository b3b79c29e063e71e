#!/usr/bin/env python3
"""calls.py FAILING: what covercheck does where the operating system's calls are interrupted, would block, are short or fail.

FAILING is tests/c/failing.c as a shared library. Every byte is answered as tests/reference.py says, or one line on standard error says why not.
"""
import os
import shutil
import subprocess
import sys
import time

import guards
import reference

ROOT = os.path.join(os.path.dirname(os.path.abspath(__file__)), "..")
WRAPPER = os.path.join(ROOT, "covercheck")
PROGRAM = os.path.join(ROOT, "target/bin/covercheck")
SAMPLE = b"24 A&B\n24 A|!A&B\n24 C\n"


def preloaded(library):
    """The program with the library before the C library, and what that needs in the environment."""
    if os.uname().machine == "x86_64":
        return [PROGRAM], {"LD_PRELOAD": library}
    kit = os.path.dirname(os.path.dirname(os.path.realpath(shutil.which("rt"))))
    tools = os.path.join(kit, "on", os.uname().machine, "toolchain")
    loader = os.path.join(tools, "lib/ld-linux-x86-64.so.2")
    return [os.path.join(tools, "bin/qemu-x86_64"), loader, "--library-path", os.path.join(tools, "lib"), "--preload", library, PROGRAM], {}


class Tests:
    def __init__(self):
        self.tried = self.wrong = 0

    def holds(self, what, true, *shown):
        self.tried += 1
        if not true:
            self.wrong += 1
            print(f"calls: {what}: {shown}")

    def answered(self, what, run, data, status=0):
        self.holds(what, (run.returncode, run.stdout, run.stderr) == (status, reference.covercheck(data), b""), run)

    def unread(self, what, run, status=1):
        """Nothing is answered, and one line says why."""
        self.holds(what, run.returncode == status and run.stdout == b"" and run.stderr.count(b"\n") == 1 and b"cannot be read" in run.stderr, run)

    def lost(self, what, run, data, status=1):
        """What was written is the start of the answers, and one line says that they are not complete."""
        whole = reference.covercheck(data)
        fits = whole.startswith(run.stdout) and run.stdout != whole and run.stderr.count(b"\n") == 1 and b"not complete" in run.stderr
        self.holds(what, fits and run.returncode == status, run)


def words(rng, letters, count, most=1 << 20):
    """Letters for at most so many calls, which move fewer bytes than most."""
    word = [rng.choice(letters) for _ in range(rng.randint(1, count))]
    while sum(int(letter) for letter in word if letter.isdigit()) >= most:
        word.pop()
    return "".join(word)


def scripted(tests, rng, library):
    command, more = preloaded(library)

    def run(data, reads="", writes=""):
        environment = {**os.environ, **more, "READS": reads, "WRITES": writes}
        return subprocess.run(command, input=data, capture_output=True, env=environment, check=False)

    for _ in range(60):
        data = b"\n".join(b"%d %s" % (rng.choice((0, 1, 24, 30)), guards.valid(rng, 3, 4)) for _ in range(rng.randint(1, 9)))
        reads, writes = words(rng, "iib123456789", 30), words(rng, "iib123456789", 30)
        tests.answered(f"short and passing calls {reads} {writes}", run(data, reads, writes), data)
        reads, writes = words(rng, "iib123456789", 30, len(data)), words(rng, "ib123", 30, len(reference.covercheck(data)))
        tests.unread(f"a read that fails {reads}e", run(data, reads + "e"), status=0)
        tests.lost(f"a write that fails {writes}", run(data, "", writes + rng.choice("e0")), data, status=0)
    tests.unread("the first read fails", run(SAMPLE, "e"), status=0)
    tests.lost("input too long, and the write fails", run(b"A" * 70000, "", "e"), b"A" * 70000, status=0)
    tests.answered("input too long, in parts", run(b"A" * 70000, "i9", "b3i"), b"A" * 70000)


def wrapped(tests):
    def run(*words, **how):
        return subprocess.run([WRAPPER, *words], check=False, **{"stdout": subprocess.PIPE, "stderr": subprocess.PIPE, **how})

    for what, path, flags in (("a directory", "/", os.O_RDONLY), ("a standard input that is not for reading", "/dev/null", os.O_WRONLY)):
        source = os.open(path, flags)
        tests.unread(what, run(stdin=source))
        os.close(source)
    tests.unread("a closed standard input", run(preexec_fn=lambda: os.close(0)))
    with open("/dev/full", "wb") as full:
        done = run(input=SAMPLE, stdout=full)
    tests.holds("a full device", done.returncode == 1 and done.stderr.count(b"\n") == 1 and b"not complete" in done.stderr, done)
    done = run(input=SAMPLE, preexec_fn=lambda: os.close(1), stdout=None)
    tests.holds("a closed standard output", done.returncode == 1 and done.stderr.count(b"\n") == 1 and b"not complete" in done.stderr, done)
    gone, end = os.pipe()
    os.close(gone)
    done = run(input=SAMPLE, stdout=end)
    os.close(end)
    tests.holds("a reader that is gone", done.returncode == 1 and done.stderr.count(b"\n") == 1 and b"not complete" in done.stderr, done)
    for words_ in (["season.txt"], ["-h"], ["24", "A|!A"], [""]):
        done = run(*words_, stdin=subprocess.DEVNULL)
        tests.holds(f"arguments {words_}", (done.returncode, done.stdout, done.stderr) == (2, b"", b"usage: covercheck < guards.txt\n"), done)
    command, more = preloaded("")
    command = [word for word in command if word not in ("--preload", "")]
    done = subprocess.run([*command, "season.txt"], input=SAMPLE, capture_output=True, check=False)
    tests.holds("an argument of the program itself", (done.stdout, done.stderr) == (b"", b"usage: covercheck < guards.txt\n"), done, more)


def blocking(tests):
    """A standard input that would block, with a pause inside a line; and a standard output that would block, read slowly."""
    source, sink = os.pipe()
    os.set_blocking(source, False)
    program = subprocess.Popen([WRAPPER], stdin=source, stdout=subprocess.PIPE, stderr=subprocess.PIPE)
    os.close(source)
    for part in (b"24 A&B\n24 A|!A", b"&B\n24 C\n"):
        time.sleep(0.7)
        os.write(sink, part)
    time.sleep(0.3)
    os.close(sink)
    out, said = program.communicate()
    tests.holds("an input that would block", (program.returncode, out, said) == (0, reference.covercheck(SAMPLE), b""), out, said)

    data = b"24 ABCDEFGHIJKL|BCDEFGHIJKLM|CDEFGHIJKLMN\n" * 1500
    source, sink = os.pipe()
    os.set_blocking(sink, False)
    program = subprocess.Popen([WRAPPER], stdin=subprocess.PIPE, stdout=sink, stderr=subprocess.PIPE)
    os.close(sink)
    program.stdin.write(data)
    program.stdin.close()
    time.sleep(2)
    with os.fdopen(source, "rb") as reader:
        out = reader.read()
    said = program.stderr.read()
    tests.holds("an output that would block", (program.wait(), out, said) == (0, reference.covercheck(data), b""), len(out), said)


def main(library):
    tests = Tests()
    scripted(tests, guards.generator(21), library)
    wrapped(tests)
    blocking(tests)
    print(f"calls: {tests.tried} tests, {tests.wrong} wrong")
    return tests.wrong == 0


if __name__ == "__main__":
    sys.exit(0 if main(os.path.abspath(sys.argv[1])) else 1)
