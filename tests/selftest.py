"""Shows that the programs file model W before they open any file or read any input, and stop where W is not accepted.

W's forty bytes are found in the memory of the running program, by tests/selftest.c. With a byte of them changed there, the program must open no file,
read nothing and print nothing; the desk says on standard error why. A program without a self-test is noticed: crate cases has none.
"""
import argparse
import os
import subprocess
import sys
import tempfile
from pathlib import Path
from typing import NamedTuple

TESTS = Path(__file__).resolve().parent
FOLDER = TESTS.parent / "examples" / "w"
FOUND = "W"


class Kind(NamedTuple):
    """A kind of program: its input, what the watcher sees after W, what is printed, and what is said where W is not accepted."""
    calls: str
    seen: list
    printed: str
    said: list


REPORT = Kind("", ["open model.tab", "open bounds.cer"], (FOLDER / "expected.txt").read_text(), [])
DESK = Kind("model model.tab\ndelivery bounds.cer\nupper 0 0 1\n", ["read", "open model.tab", "open bounds.cer"],
            "accepted\nnew\nvalue 524288\n", ["desk: the self-test failed"])


def run(program, calls, watcher, **settings):
    """(what the program printed, what the watcher saw and the program said on standard error)."""
    done = subprocess.run([program], cwd=FOLDER, env={**os.environ, "LD_PRELOAD": str(watcher), **settings}, input=calls, capture_output=True, text=True,
                          timeout=60)
    return done.stdout, done.stderr.splitlines()


def faults(program, kind, watcher):
    """What shows that the program does not depend on a filing of W; nothing where it does."""
    printed, seen = run(program, kind.calls, watcher)
    if FOUND not in seen[:1]:
        yield "W is not in memory before the first file is opened or input is read"
    elif seen[1:] != kind.seen or printed != kind.printed:
        yield "with W as it is, it does not open its files and print what is due"
    printed, seen = run(program, kind.calls, watcher, CHANGE_W="1")
    if seen != [FOUND, *kind.said] or printed:
        yield "with a weight of W changed, it goes on or does not say why it stops: %s, and %d bytes printed" % (seen, len(printed))


def main():
    options = argparse.ArgumentParser(description=__doc__)
    options.add_argument("--program", required=True, help="the showbounds program")
    options.add_argument("--desk", required=True, help="the desk program")
    options.add_argument("--without", required=True, help="a program that makes no self-test, which has to be noticed")
    options = options.parse_args()
    with tempfile.TemporaryDirectory() as folder:
        watcher = Path(folder) / "selftest.so"
        subprocess.run(["gcc", "-std=c11", "-O2", "-fno-builtin", "-Wall", "-Wextra", "-Werror", "-shared", "-fPIC", TESTS / "selftest.c", "-o", watcher], check=True)
        found = ["showbounds: " + fault for fault in faults(Path(options.program).resolve(), REPORT, watcher)]
        found += ["desk: " + fault for fault in faults(Path(options.desk).resolve(), DESK, watcher)]
        unnoticed = len(list(faults(Path(options.without).resolve(), REPORT, watcher))) < 2
    if found:
        sys.exit("self-test: " + "; ".join(found))
    if unnoticed:
        sys.exit("self-test: a program without a self-test is not noticed")
    print("self-test: showbounds and the desk file W before any file or input, and end where W is not accepted")


if __name__ == "__main__":
    main()
