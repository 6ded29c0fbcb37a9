#!/usr/bin/env python3
"""Checks how showbounds reads its two files.

Each of them is missing, of another kind than a file, unreadable or too long; reads bring few bytes, or fail. Standard output and standard error are
compared. A program that waits, as on a pipe that nobody writes to, is noticed. As root, the program is run as nobody.
"""
import argparse
import contextlib
import os
import shutil
import socket
import struct
import subprocess
import sys
import tempfile
from pathlib import Path

TESTS = Path(__file__).resolve().parent
MODEL, DELIVERY = "model.tab", "bounds.cer"
EMPTY = {MODEL: "refused 10 0 0\n", DELIVERY: "refused 20 0 0\n"}  # what is printed where that file counts as empty
STATES, SYMBOLS = 8, 16
ENTRIES = [(p, z, q) for p in range(STATES) for z in range(SYMBOLS) for q in range(STATES)]
UNIT = 1 << 20
EIGHTH = UNIT // STATES
SECONDS, NOBODY = 5, 65534


def largest():
    """The two files of the largest size that pass: from each row each state is reached with chance 1/8, in one step."""
    model = b"".join(struct.pack("<6BI", p, z, q, 0, 0, 0, 65536 // STATES) for p, z, q in ENTRIES)
    blocks = [(85, *entry, EIGHTH + 1) for entry in ENTRIES] + [(76, *entry, EIGHTH) for entry in ENTRIES]
    blocks += [(82, p, z, 0, 256) for p, z, q in ENTRIES if q == 0]
    return {MODEL: model, DELIVERY: b"".join(struct.pack("<4BI", *record) for record in blocks)}


def report():
    """What is printed of those two: each upper lies 1/2^20 above 1/8."""
    lines = ["table %d %d %d %d" % (STATES, SYMBOLS, len(ENTRIES), len(ENTRIES)), "margin %d" % (UNIT // (EIGHTH + 1))]
    lines += ["chance %d %d %d %d %d %d" % (*entry, EIGHTH, EIGHTH + 1, 1 << 36) for entry in ENTRIES]
    lines += ["steps %d %d 256" % (p, z) for p, z, q in ENTRIES if q == 0]
    return "\n".join(lines) + "\n"


def put_socket(path):
    """Binds a socket to the path, which stays there when the socket is closed. A long path cannot be bound, so it is done in its folder."""
    with contextlib.chdir(path.parent), socket.socket(socket.AF_UNIX) as made:
        made.bind(path.name)


def put_unreadable(path):
    """Makes a file whose mode lets no one read it."""
    path.write_bytes(b"x")
    path.chmod(0)


def link_to(target):
    """A function that puts a link there."""
    return lambda path: path.symlink_to(target)


def put_linked_pipe(path):
    """Makes a pipe of another name, and a link to it."""
    os.mkfifo(path.with_suffix(".pipe"))
    path.symlink_to(path.with_suffix(".pipe"))


KINDS = [  # what stands in a file's place, how it is put there, what standard error says of it
    ("missing", lambda path: None, None),
    ("a link to nothing", link_to("nothing"), None),
    ("a link into a file", link_to("plain/nothing"), None),
    ("an empty file", Path.touch, None),
    ("a folder", Path.mkdir, "Is a directory"),
    ("a pipe", os.mkfifo, "a pipe, not opened"),
    ("a link to a pipe", put_linked_pipe, "a pipe, not opened"),
    ("a socket", put_socket, "No such device or address"),
    ("unreadable", put_unreadable, "Permission denied"),
    ("a link to itself", lambda path: path.symlink_to(path.name), "Too many levels of symbolic links"),
    ("a link to a name that is too long", link_to("x" * 300), "File name too long"),
    ("a device that is empty", link_to("/dev/null"), None),
    ("a device without end", link_to("/dev/zero"), None),
]


class Bench:
    """Runs a program in folders made for one run each."""

    def __init__(self, program, folder):
        self.folder, self.runs, self.files = Path(folder), 0, largest()
        self.program, self.reads = self.folder / "program", self.folder / "reads.so"
        shutil.copy(program, self.program)
        subprocess.run(["gcc", "-std=c11", "-O2", "-Wall", "-Wextra", "-Werror", "-shared", "-fPIC", TESTS / "reads.c", "-o", self.reads], check=True)
        for path in (self.folder, self.program, self.reads):
            path.chmod(0o755)

    def run(self, what, puts, printed, told="", **settings):
        """One run, with what `puts` puts in the place of a file; ends the test unless it prints and tells what is given."""
        self.runs += 1
        folder = self.folder / str(self.runs)
        folder.mkdir(mode=0o755)
        (folder / "plain").touch()
        for name, data in self.files.items():
            puts.get(name, lambda path, data=data: path.write_bytes(data))(folder / name)
        user = {"user": NOBODY, "group": NOBODY, "extra_groups": []} if os.getuid() == 0 else {}
        preload = {"LD_PRELOAD": str(self.reads), **settings} if settings else {}
        try:
            done = subprocess.run([self.program], cwd=folder, capture_output=True, text=True, timeout=SECONDS, env={**os.environ, **preload}, **user)
        except subprocess.TimeoutExpired:
            sys.exit(f"files: {what}: no end after {SECONDS} s")
        for stream, seen, due in ("standard output", done.stdout, printed), ("standard error", done.stderr, told):
            if seen != due:
                sys.exit(f"files: {what}: {stream} has {seen[:200]!r}, expected {due[:200]!r}")


def check_kinds(bench):
    """Each kind in the place of either file, and of both, where the model's reason is printed and both are told."""
    for kind, put, said in KINDS:
        for names in (MODEL,), (DELIVERY,), (MODEL, DELIVERY):
            told = "".join(f"{name}: {said}\n" for name in names if said)
            bench.run(f"{' and '.join(names)}: {kind}", {name: put for name in names}, EMPTY[names[0]], told)


def check_lengths(bench):
    """The largest files pass, and a longer one does not, though its start would."""
    bench.run("the largest files", {}, report())
    for name, record in (MODEL, 10), (DELIVERY, 8):
        for more in 1, record, 100000:
            longer = bench.files[name] + bytes(more)
            bench.run(f"{name}: {more} bytes too long", {name: lambda path, data=longer: path.write_bytes(data)}, EMPTY[name])


def check_full_pipe(bench):
    """A pipe with a whole model in it is not opened either: the model is still there, before the byte that is written then."""
    held = []

    def put(path):
        os.mkfifo(path)
        held.append(os.open(path, os.O_RDWR))
        os.write(held[0], bench.files[MODEL])

    bench.run("a pipe with a model in it", {MODEL: put}, EMPTY[MODEL], f"{MODEL}: a pipe, not opened\n")
    os.write(held[0], b"!")
    if os.read(held[0], 20000) != bench.files[MODEL] + b"!":
        sys.exit("files: a pipe with a model in it was read")
    os.close(held[0])


def check_reads(bench):
    """Reads that bring few bytes give the whole files; where one fails, the file counts as empty."""
    for most in 1, 7, 4096:
        bench.run(f"reads of {most} bytes", {}, report(), READ_MOST=str(most))
    for name, number in (MODEL, 1), (MODEL, 50), (DELIVERY, 150):  # the model takes 103 reads of 100 bytes, and one that ends it
        bench.run(f"read {number} fails", {}, EMPTY[name], f"{name}: Input/output error\n", READ_MOST="100", READ_FAILS=str(number))


def main():
    """Runs all checks; the first failure ends the run with exit status 1."""
    options = argparse.ArgumentParser(description=__doc__)
    options.add_argument("--program", required=True, help="the showbounds program")
    program = Path(options.parse_args().program).resolve()
    os.umask(0o022)
    with tempfile.TemporaryDirectory() as folder:
        bench = Bench(program, folder)
        for check in check_kinds, check_lengths, check_full_pipe, check_reads:
            check(bench)
    print(f"files: {bench.runs} runs, {len(KINDS)} kinds of what may stand in a file's place, lengths and reads: all as expected")


if __name__ == "__main__":
    main()
