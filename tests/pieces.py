"""Drives the desk by pieces of input of any size, a line at a time as a person does, with long lines, every byte, and files that change between calls.

Every reply is compared with the plain pair of tests/plainpair.py.
"""
import argparse
import os
import posixpath
import random
import select
import socket
import subprocess
import sys
import tempfile
import threading
import time
from collections import Counter
from pathlib import Path

import checker
import generate
import plainpair
import scripts

SECONDS = 20  # within which a run has to end, and a reply to come
QUESTIONS, MOST_SYSTEM_CALLS = 100000, 1000
READS = 70000  # more than a counter of 16 bits can count
W_FILED = b"model w.tab\ndelivery w.cer\n"
QUEUE_FILED = b"counter q.tab\ndelivery q.cer\n"
SECOND_FIGURES = checker.Figures([620000, 600000, 0, 1310720], [560000, 300000, 0, 1048576], [500, 300])  # of another supplier for W
SECOND = generate.delivery_file(checker.table_of(generate.MODEL_W), SECOND_FIGURES)
FILLINGS = (b"a", b" ", b"0", b"#", b"\0", b"\xff", b"\r")
MERGES = ("merge: known", "merge: new", "merge: 40", "merge: 42", "merge: 20")  # replies that random scripts have to bring
LENGTHS = (1, 254, 263, 264, 299, 300, 301, 302, 4096, 65535, 65536, 65537, 100000, 131072)


def fail(what):
    sys.exit("pieces: " + what)


class Room:
    """A desk program, and a folder of files in which it runs."""

    def __init__(self, program, root):
        self.program, self.root = program, root
        self.folder = scripts.make_folder(random.Random(1), 0)
        _, model, delivery, _ = next(generate.documented_edges())
        self.folder.files.update({b"w.tab": model, b"w.cer": delivery, b"w2.cer": SECOND, b"q.tab": generate.QUEUE, b"q.cer": generate.queue_delivery()})
        _, heavy, too_high = next(case for case in generate.far_ends() if case[0] == "a shortfall of 19 digits")
        table = checker.table_of(heavy)
        light = checker.file_of(table, checker.Figures(generate.least_uppers(table, 0, [0] * len(table.entries)), None, None))
        self.folder.files.update({b"heavy.tab": heavy, b"light.cer": light, b"heavy.cer": too_high, b"h": too_high})
        self.folder.write(os.fsencode(root))

    def put(self, name, data):
        """Gives a file other bytes, or removes it."""
        path = os.path.join(os.fsencode(self.root), name)
        if data is None:
            self.folder.files.pop(name, None)
            Path(os.fsdecode(path)).unlink(missing_ok=True)
            return
        self.folder.files[name] = data
        Path(os.fsdecode(path)).write_bytes(data)

    def expected(self, script):
        return scripts.printed(scripts.expected(self.folder, script)[0])

    def compare(self, what, script, got):
        wanted = self.expected(script)
        if got != wanted:
            at = next((at for at, pair in enumerate(zip(wanted, got)) if pair[0] != pair[1]), min(len(wanted), len(got)))
            fail("%s: %d bytes, got %d; from byte %d on %r, got %r" % (what, len(wanted), len(got), at, wanted[at:at + 60], got[at:at + 60]))

    def start(self, stdin, stdout, **settings):
        return subprocess.Popen([self.program], cwd=self.root, stdin=stdin, stdout=stdout, stderr=subprocess.DEVNULL, **settings)

    def run_at_once(self, script):
        """What the desk prints when it reads the script from a file."""
        with tempfile.TemporaryFile() as file:
            file.write(script)
            file.seek(0)
            return subprocess.run([self.program], cwd=self.root, stdin=file, capture_output=True, timeout=SECONDS).stdout

    def run_in_pieces(self, pieces):
        """What it prints when each read hands it one of these pieces: a socket of whole messages is its input."""
        ours, theirs = socket.socketpair(socket.AF_UNIX, socket.SOCK_SEQPACKET)
        with tempfile.TemporaryFile() as out, ours:
            process = self.start(theirs, out)
            theirs.close()
            try:
                for piece in pieces:
                    ours.sendall(piece)
            except ConnectionError:  # it ended before its input did, which its replies show
                pass
            ours.shutdown(socket.SHUT_WR)
            process.wait(SECONDS)
            out.seek(0)
            return out.read()


# Ways to cut an input into pieces, none of them empty.

def cut_at(script, places):
    places = [0, *places, len(script)]
    return [script[low:high] for low, high in zip(places, places[1:]) if low < high]


def by_bytes(rng, script):
    return cut_at(script, range(len(script)))


def by_odd_sizes(rng, script):
    return cut_at(script, sorted(rng.sample(range(len(script)), len(script) // rng.choice((2, 10, 50, 200)))))


def by_lines(rng, script):
    return cut_at(script, [at + 1 for at, byte in enumerate(script) if byte == 10])


def before_newlines(rng, script):
    return cut_at(script, [at for at, byte in enumerate(script) if byte == 10])


def in_thousands(rng, script):
    return cut_at(script, range(0, len(script), 1000))


# Tests. Each says how much it compared.

def any_pieces(room, rng):
    """Random scripts, cut in each way."""
    made = [scripts.make_script(rng, room.folder)[0] for _ in range(12)]
    for script in made:
        room.compare("all at once", script, room.run_at_once(script))
        for cut in (by_bytes, by_odd_sizes, by_lines, before_newlines):
            room.compare("cut %s" % cut.__name__, script, room.run_in_pieces(cut(rng, script)))
    return "%d scripts all at once and in pieces of four kinds" % len(made)


def any_end(room, rng):
    """The input may end anywhere, with or without a newline."""
    script = W_FILED + b"margin\n\n# clear\nupper 0 0 1\nlive 1 0 0\nwithin 3 0 0 0\nmerge w2.cer\nmargin\nmerge w.cer\nclear\n" + QUEUE_FILED + b"upper 1 0 0\nwithin 2 1 0 1\nclear\n"
    for end in range(len(script) + 1):
        room.compare("ended after %d bytes" % end, script[:end], room.run_at_once(script[:end]))
    return "%d ends of one script" % (len(script) + 1)


def any_byte(room, rng):
    """Every byte before, within and after a call, in a path and in a comment."""
    forms = (b"%bmargin", b"mar%bgin", b"margin%b", b"upper 0 %b 0", b"live 1 0%b0", b"within%b3 0 0 0", b"within 3 0 %b 1", b"model w.tab%b", b"delivery %bw.cer",
             b"counter q.tab%b", b"counter%bq.tab", b"merge w%b.cer", b"merge%bw.cer", b"mer%bge w.cer", b"#%b", b"%b")
    script = W_FILED + b"".join(form % bytes([byte]) + b"\n" for byte in range(256) for form in forms)
    script += b"".join(b"clear\ncounter %bq.tab\nmargin\n" % bytes([byte]) for byte in range(256)) + b"clear\n"
    script += b"".join(W_FILED + b"merge %bw2.cer\nupper 0 0 0\nclear\n" % bytes([byte]) for byte in range(256))
    room.compare("every byte", script, room.run_at_once(script))
    room.compare("every byte, a byte at a time", script, room.run_in_pieces(by_bytes(rng, script)))
    return "every byte in %d places" % (len(forms) + 2)


def long_lines(room, rng):
    """Lines of many lengths, each between calls that show that nothing changed, and as the last line without a newline."""
    for filling in FILLINGS:
        for start in (b"", b"#", b"model w.tab ", b"counter q.tab", b"merge w2.cer"):
            lines = [start + filling * (length - len(start)) for length in LENGTHS if length >= len(start)]
            script = W_FILED + b"\nmargin\n".join(lines) + b"\nmargin\n" + lines[-2]
            room.compare("long lines", script, room.run_at_once(script))
            room.compare("long lines in thousands", script, room.run_in_pieces(in_thousands(rng, script)))
    return "lines of up to %d bytes" % max(LENGTHS)


def dense_replies(room, rng):
    """The most bytes of replies that few bytes of input can ask for: a shortfall of 19 digits to a line of 7 bytes."""
    for script in (b"a\n" * QUESTIONS, b"model heavy.tab\n" + b"delivery heavy.cer\n" * 12000, b"model heavy.tab\ndelivery light.cer\n" + b"merge h\n" * 30000):
        room.compare("dense replies", script, room.run_at_once(script))
    if len(room.expected(script)) <= 4 * len(script):
        fail("the replies are no more than four times the input")
    return "replies of more than four times the input"


def filed_and_asked(rng, count):
    """A script that files W and then asks so many questions."""
    calls = (b"upper %d 0 %d", b"lower %d 0 %d", b"live %d 0 %d", b"within 3 %d 0 %d")
    return W_FILED + b"".join(rng.choice(calls) % (rng.randrange(2), rng.randrange(2)) + b"\n" for _ in range(count))


def many_reads(room, rng):
    """So many lines, each by a read of its own, are all replied to."""
    script = filed_and_asked(rng, READS)
    room.compare("many reads", script, room.run_in_pieces(by_lines(rng, script)))
    return "%d lines by a read each" % (READS + W_FILED.count(b"\n"))


def many_questions(room, rng):
    """So many questions are answered by few system calls; counted where the system counts them."""
    script = filed_and_asked(rng, QUESTIONS)
    with tempfile.TemporaryFile() as file, tempfile.TemporaryFile() as out:
        file.write(script)
        file.seek(0)
        process = room.start(file, out)
        os.waitid(os.P_PID, process.pid, os.WEXITED | os.WNOWAIT)
        counted = system_calls(process.pid)
        process.wait(SECONDS)
        out.seek(0)
        room.compare("many questions", script, out.read())
    if counted is None:
        return "%d questions; skipped: this system does not count system calls" % QUESTIONS
    if counted > MOST_SYSTEM_CALLS:
        fail("%d questions took %d reads and writes" % (QUESTIONS, counted))
    return "%d questions by %d reads and writes" % (QUESTIONS, counted)


def system_calls(process):
    """How often a process that has ended read and wrote, or None."""
    try:
        lines = Path("/proc/%d/io" % process).read_text().splitlines()
    except OSError:
        return None
    return sum(int(line.split()[1]) for line in lines if line.startswith("sysc"))


# A line at a time.

class Driven:
    """A desk that is handed something, and asked for its reply, before it gets more."""

    def __init__(self, room):
        self.process = room.start(subprocess.PIPE, subprocess.PIPE, bufsize=0)

    def write(self, data):
        self.process.stdin.write(data)

    def reply(self):
        """The next line that it prints, without its newline; fails if none comes in time."""
        line, deadline = b"", time.monotonic() + SECONDS
        while not line.endswith(b"\n"):
            if not select.select([self.process.stdout], [], [], max(0, deadline - time.monotonic()))[0]:
                fail("no reply within %d s" % SECONDS)
            byte = self.process.stdout.read(1)
            if not byte:
                fail("the desk ended without a reply")
            line += byte
        return line[:-1].decode()

    def ask(self, line, reply):
        """Writes a line, and fails unless it gets this reply, or none if it should get none."""
        self.write(line + b"\n")
        got = None if reply is None else self.reply()
        if got != reply:
            fail("to %r %r, got %r" % (line[:300], reply, got))

    def is_silent(self):
        return not select.select([self.process.stdout], [], [], 0.02)[0]

    def close(self):
        self.process.stdin.close()
        if self.process.stdout.read() or self.process.wait(SECONDS) != 0:
            fail("the desk did not end well")
        self.process.stdout.close()


def as_a_person(room, rng):
    """Each reply comes before the next line is written, and none before its line is whole."""
    asked = 0
    for _ in range(12):
        driven, script = Driven(room), scripts.make_script(rng, room.folder)[0]
        for line, reply in scripts.expected(room.folder, script)[0]:
            driven.ask(line, reply)
            asked += reply is not None
        driven.write(b"cle")
        if not driven.is_silent():
            fail("a reply before the line's end")
        driven.write(b"ar\nclear\nclear")
        if [driven.reply(), driven.reply()] != ["cleared"] * 2 or not driven.is_silent():
            fail("two lines in one piece do not get two replies")
        driven.process.stdin.close()
        if driven.process.stdout.read() != b"cleared\n":
            fail("the last line without newline gets no reply")
        driven.process.wait(SECONDS)
    return "%d replies before the next line" % asked


def files_change(room, rng):
    """Files are read anew at each filing: they go missing, become others, become folders; what is held stays."""
    model, delivery, counter = (room.folder.files[name] for name in (b"w.tab", b"w.cer", b"q.tab"))
    other = delivery[:-4] + (257).to_bytes(4, "little")  # other mean steps under the same uppers
    steps = ((b"m", None, b"model m", "refused 10 0 0"), (b"m", model, b"model m", "accepted"), (b"m", None, b"upper 0 0 0", "refused 42 0 0"),
             (b"d", None, b"delivery d", "refused 20 0 0"), (b"d", delivery, b"delivery d", "new"), (b"d", None, b"margin", "value 45875"),
             (b"d", None, b"delivery d", "refused 20 0 0"), (b"d", None, b"margin", "value 45875"), (b"d", delivery, b"delivery d", "known"),
             (b"d", delivery[:32], b"delivery d", "new"), (b"d", delivery, b"margin", "refused 43 0 0"), (b"d", delivery, b"delivery d", "new"),
             (b"d", other, b"delivery d", "new"), (b"d", delivery, b"steps 1 0", "value 257"), (b"d", delivery, b"delivery d", "new"), (b"d", delivery, b"margin", "value 45875"),
             (b"s", None, b"merge s", "refused 20 0 0"), (b"s", delivery, b"merge s", "known"), (b"s", SECOND, b"merge s", "new"), (b"s", None, b"upper 0 0 0", "value 620000"),
             (b"s", None, b"upper 0 0 1", "value 524288"), (b"s", None, b"margin", "value 6873"), (b"s", None, b"merge s", "refused 20 0 0"), (b"s", SECOND, b"merge s", "known"),
             (b"s", SECOND[:-4] + bytes(4), b"merge s", "refused 22 9 0"), (b"s", SECOND[:4] + bytes(4) + SECOND[8:], b"merge s", "refused 24 0 -36028797018963968"),
             (b"s", SECOND[:32], b"merge s", "new"), (b"s", SECOND, b"margin", "refused 43 0 0"), (b"s", SECOND, b"steps 0 0", "value 500"), (b"d", delivery, b"delivery d", "new"),
             (b"m", None, b"clear", "cleared"), (b"s", SECOND, b"merge s", "refused 40 0 0"), (b"m", model[:-1], b"model m", "refused 10 0 0"), (b"m", model, b"model m", "accepted"),
             (b"s", None, b"merge s", "refused 42 0 0"), (b"s", SECOND, b"merge s", "refused 42 0 0"),
             (b"c", counter, b"counter c", "refused 41 0 0"), (b"c", None, b"clear", "cleared"), (b"c", None, b"counter c", "refused 46 0 0"),
             (b"c", counter[:-1], b"counter c", "refused 46 0 0"), (b"c", counter[8:], b"counter c", "refused 48 0 0"), (b"c", counter + counter[:8], b"counter c", "refused 47 6 0"),
             (b"c", counter, b"counter c", "accepted"), (b"c", None, b"within 1 0 0 0", "value 32768"), (b"c", None, b"counter c", "refused 41 0 0"),
             (b"c", model, b"clear", "cleared"), (b"c", model, b"counter c", "refused 47 0 0"), (b"c", model, b"model c", "accepted"))
    driven = Driven(room)
    for name, data, line, reply in steps:
        room.put(name, data)
        driven.ask(line, reply)
    driven.close()
    return "%d calls with files that change" % len(steps)


def files_go_missing(room, rng):
    """Random scripts: a file goes missing, comes back or becomes another just before the line that names it. Merges are among them, and get their replies."""
    made, originals, changes, merges = [scripts.make_script(rng, room.folder)[0] for _ in range(60)], dict(room.folder.files), 0, Counter()
    for script in made:
        driven, desk, answered = Driven(room), plainpair.Desk(room.folder.reader([])), []
        for line in desk.lines_of(script):
            name = posixpath.normpath(line.split(b" ")[-1])
            if name in originals and rng.randrange(2):
                room.put(name, rng.choice((None, originals[name], rng.choice(list(originals.values())))))
                changes += 1
            answered.append((line, desk.reply_to_line(line)))
            driven.ask(*answered[-1])
        driven.close()
        merges.update(scripts.merge_kinds(answered))
    if not all(merges[kind] for kind in MERGES):
        fail("among random scripts there is no %s" % [kind for kind in MERGES if not merges[kind]])
    return "%d files changed within random scripts" % changes


# What goes wrong outside.

def no_file(room, rng):
    """A file that may not be read and a folder count as empty, with a warning; so does one that is missing, without. Where the register refuses the call anyway, none is looked for."""
    secret, own = Path(room.root, "secret"), Path(room.root, "desk")
    secret.write_bytes(room.folder.files[b"w.tab"])
    secret.chmod(0)
    own.write_bytes(Path(room.program).read_bytes())
    for path in (own, Path(room.root)):
        path.chmod(0o755)
    user = {"user": "nobody"} if os.getuid() == 0 else {}
    model, counter, delivery, merge = (b"".join(b"%b %b\n" % (word, name) for name in (b"secret", b"folder", b"gone")) for word in scripts.FILINGS)
    script = model + counter + merge + W_FILED + delivery + merge
    done = subprocess.run([own], cwd=room.root, input=script, capture_output=True, timeout=SECONDS, **user)
    if done.stdout != b"refused 10 0 0\n" * 3 + b"refused 46 0 0\n" * 3 + b"refused 40 0 0\n" * 3 + b"accepted\nnew\n" + b"refused 20 0 0\n" * 6:
        fail("files that cannot be read do not count as empty: %r" % done.stdout)
    if done.stderr != b"secret: Permission denied\nfolder: Is a directory\n" * 4:
        fail("warnings: %r" % done.stderr)
    return "files that cannot be read"


class FilledPipe:
    """A named pipe with bytes in it, and with a writer: its maker."""

    def __init__(self, path, data):
        os.mkfifo(path)
        self.end, self.data = os.open(path, os.O_RDWR | os.O_NONBLOCK), data
        os.write(self.end, data)

    def is_untouched(self):
        """Whether the bytes are still there; asked once."""
        os.write(self.end, b"!")
        held = os.read(self.end, len(self.data) + 1)
        os.close(self.end)
        return held == self.data + b"!"


class AwaitedPipe:
    """A named pipe whose writer waits until somebody opens it to read."""

    def __init__(self, path):
        os.mkfifo(path)
        self.path = path
        self.writer = threading.Thread(target=lambda: os.close(os.open(path, os.O_WRONLY)), daemon=True)
        self.writer.start()

    def is_untouched(self):
        """Whether the writer still waits; asked once, which lets it through."""
        waits = self.writer.is_alive()
        end = os.open(self.path, os.O_RDONLY | os.O_NONBLOCK)
        self.writer.join(SECONDS)
        os.close(end)
        return waits


# Calls that name pipes, each with its reply and whether it gets a warning. Of a pipe that the register's own reasons keep it from there is none.
PIPE_CALLS = ((b"delivery filled.cer", b"refused 40 0 0", False), (b"merge filled.cer", b"refused 40 0 0", False),
              (b"model unwritten", b"refused 10 0 0", True), (b"model link", b"refused 10 0 0", True),
              (b"counter unwritten", b"refused 46 0 0", True), (b"counter link", b"refused 46 0 0", True), (b"counter filled.queue", b"refused 46 0 0", True),
              (b"model awaited", b"refused 10 0 0", True), (b"model filled.tab", b"refused 10 0 0", True), (b"model w.tab", b"accepted", False),
              (b"model filled.tab", b"refused 41 0 0", False), (b"delivery filled.cer", b"refused 20 0 0", True), (b"delivery unwritten", b"refused 20 0 0", True),
              (b"counter filled.queue", b"refused 41 0 0", False), (b"counter awaited", b"refused 41 0 0", False), (b"merge filled.cer", b"refused 42 0 0", False),
              (b"delivery w.cer", b"new", False), (b"merge filled.cer", b"refused 20 0 0", True), (b"merge awaited", b"refused 20 0 0", True), (b"merge link", b"refused 20 0 0", True))


def named_pipes(room, rng):
    """A named pipe is never opened, whether it has a writer or not, and counts as empty, with a warning."""
    os.mkfifo(Path(room.root, "unwritten"))
    Path(room.root, "link").symlink_to("unwritten")
    pipes = [FilledPipe(Path(room.root, "filled" + end), room.folder.files[name]) for end, name in ((".tab", b"w.tab"), (".cer", b"w.cer"), (".queue", b"q.tab"))]
    pipes.append(AwaitedPipe(Path(room.root, "awaited")))
    script = b"".join(line + b"\n" for line, _, _ in PIPE_CALLS)
    done = subprocess.run([room.program], cwd=room.root, input=script, capture_output=True, timeout=SECONDS)
    if not all([pipe.is_untouched() for pipe in pipes]):
        fail("a named pipe was opened")
    if done.stdout != b"".join(reply + b"\n" for _, reply, _ in PIPE_CALLS):
        fail("named pipes do not count as empty: %r" % done.stdout)
    if done.stderr != b"".join(line.split()[1] + b": a pipe, not opened\n" for line, _, warns in PIPE_CALLS if warns):
        fail("warnings of named pipes: %r" % done.stderr)
    return "named pipes, never opened"


def lost_output(room, rng):
    with open("/dev/full", "wb") as full:
        done = subprocess.run([room.program], cwd=room.root, input=W_FILED * 3, stdout=full, stderr=subprocess.PIPE, timeout=SECONDS)
    if done.stderr != b"desk: output not written\n" or done.returncode != 0:
        fail("lost output: status %d, %r" % (done.returncode, done.stderr))
    return "lost output"


def lost_output_ends(room, rng):
    """After a reply that cannot be written the desk ends, though its input stays open."""
    with open("/dev/full", "wb") as full:
        process = subprocess.Popen([room.program], cwd=room.root, stdin=subprocess.PIPE, stdout=full, stderr=subprocess.PIPE, bufsize=0)
    with process:
        process.stdin.write(b"# no reply, nothing to write\nclear\n")
        try:
            process.wait(SECONDS)
        except subprocess.TimeoutExpired:
            process.kill()
            fail("the desk goes on after lost output")
        told = process.stderr.read()
    if told != b"desk: output not written\n" or process.returncode != 0:
        fail("lost output with input open: status %d, %r" % (process.returncode, told))
    return "an end on lost output"


TESTS = (any_pieces, any_end, any_byte, long_lines, dense_replies, many_reads, many_questions, as_a_person, files_change, files_go_missing, no_file, named_pipes, lost_output, lost_output_ends)


def main():
    options = argparse.ArgumentParser(description=__doc__)
    options.add_argument("--seed", type=int, default=1)
    options.add_argument("--program", required=True, help="the desk program")
    options, start = options.parse_args(), time.monotonic_ns()
    rng, told = random.Random(options.seed), []
    for test in TESTS:
        with scripts.in_memory() as root:
            told.append(test(Room(str(Path(options.program).resolve()), root), rng))
    print("desk: " + "; ".join(told))
    print("desk: input in pieces agrees in %d s" % ((time.monotonic_ns() - start) // 10**9))


if __name__ == "__main__":
    main()
