"""A desk around the plain pair of document 01: the last accepted model since the last clearing, and the last delivery accepted for it, as bytes. Chances of
short runs are those of request A.1, and counter files those of request A.2, of which the model that they make is held. A delivery's mark is that of request A.3. The
delivery merged of the held one and a second is that of request A.5: its bytes are made here, and held as those of an accepted file.

Reads calls as lines on standard input and prints the replies. Each method is one rule, so that tests/wrongdesks.py and tests/merging.py can change one at a time.
"""
import os
import stat
import struct
import sys
from functools import lru_cache

import checker

NO_MODEL, MODEL_HELD, NO_DELIVERY, NO_BLOCK, NOT_OF_MODEL, TOO_MANY_STEPS = range(40, 46)
MODEL_READ, DELIVERY_READ, COUNTER_READ = 10241, 17409, 1537  # bytes read of a file: one more than any that can pass has
LONGEST_LINE, LONGEST_PATH, MOST_DIGITS = 300, 255, 9
MOST_STEPS = 3  # of a chance that may be asked for
ARGUMENTS = {b"clear": "", b"model": "f", b"counter": "f", b"delivery": "f", b"merge": "f", b"upper": "nnn", b"lower": "nnn", b"steps": "nn", b"margin": "",
             b"live": "nnn", b"within": "nnnn"}  # n: number, f: file


class Refused(Exception):
    """A refusal: its number, place and shortfall."""

    def __init__(self, number, place=0, shortfall=0):
        super().__init__(number, place, shortfall)


@lru_cache(maxsize=4096)
def verdict(model, delivery):
    return checker.check_delivery(model, delivery)


@lru_cache(maxsize=4096)
def figures_of(model, delivery):
    return checker.accepted_figures(model, delivery)


@lru_cache(maxsize=4096)
def margin_of(model, delivery):
    return checker.margin(checker.table_of(model), figures_of(model, delivery).upper)


def returned_within(rules, p, z, n):
    """{exit: the chance of having returned there within n steps, over 65536**n}: from p with Z alone, step after step, from each configuration to those that
    its rules lead to. A stack with more symbols than steps are left is not followed: it cannot be emptied in time."""
    standing, returned = {(p, (z,)): 1}, {}
    for left in reversed(range(n)):
        after, returned = {}, {q: chance * checker.CERTAIN for q, chance in returned.items()}
        for (state, (top, *below)), chance in standing.items():
            for rule in rules[state, top]:
                stack = (rule.y, rule.x)[:rule.length] + tuple(below)
                if not stack:
                    returned[rule.q] = returned.get(rule.q, 0) + chance * rule.weight
                elif len(stack) <= left:
                    after[rule.q, stack] = after.get((rule.q, stack), 0) + chance * rule.weight
        standing = after
    return returned


@lru_cache(maxsize=65536)
def short_chances(model, p, z, n):
    return returned_within(checker.table_of(model).rules, p, z, n)


def read_up_to(path, most):
    file, data = os.open(path, os.O_RDONLY), b""
    try:
        while len(data) < most and (piece := os.read(file, most - len(data))):
            data += piece
    finally:
        os.close(file)
    return data


def warn(path, what):
    sys.stderr.buffer.write(path + b": " + what.encode() + b"\n")


def read_file(path, most):
    """Up to `most` bytes of a file. One that is missing counts as empty; so does one that cannot be read, and a named pipe, which is never opened, writer or
    not, both with a warning."""
    try:
        if not stat.S_ISFIFO(os.stat(path).st_mode):
            return read_up_to(path, most)
        warn(path, "a pipe, not opened")
    except FileNotFoundError:
        pass
    except OSError as error:
        warn(path, os.strerror(error.errno))
    return b""


class PlainPair:
    """Holds the two files, and answers each call with the words of its reply, or raises Refused."""

    def __init__(self, files=read_file):
        self.files, self.model, self.delivery = files, None, None

    # Filings.

    def read(self, path, most):
        return self.files(path, most)

    def clear(self):
        self.model = self.delivery = None
        return "cleared"

    def file_model(self, path):
        if self.model is not None:
            raise Refused(MODEL_HELD)
        model = self.read(path, MODEL_READ)
        self.judge_model(model)
        self.hold_model(model)
        return "accepted"

    def file_counter(self, path):
        if self.model is not None:
            raise Refused(MODEL_HELD)
        counter = self.read(path, COUNTER_READ)
        self.judge_counter(counter)
        self.hold_model(self.made_of(counter))
        return "accepted"

    def file_delivery(self, path):
        if self.model is None:
            raise Refused(NO_MODEL)
        delivery = self.read(path, DELIVERY_READ)
        self.judge_delivery(delivery)
        mark = self.mark_of(delivery)
        self.hold_delivery(delivery)
        return mark

    def merge_delivery(self, path):
        self.needs_model()
        self.needs_delivery()
        second = self.read(path, DELIVERY_READ)
        self.judge_delivery(second)
        merged = self.merged_of(self.delivery, second)
        mark = self.mark_of(merged)
        self.hold_delivery(merged)
        return mark

    def judge_model(self, model):
        number, place = checker.check_model(model)
        if number:
            raise Refused(number, place)

    def judge_counter(self, counter):
        number, place = checker.check_counter(counter)
        if number:
            raise Refused(number, place)

    def made_of(self, counter):
        """The model file that is held of an accepted counter file."""
        return checker.made_model(counter)

    def judge_delivery(self, delivery):
        refusal = verdict(self.model, delivery)
        if refusal != checker.ACCEPTED:
            raise Refused(*refusal)

    def merged_of(self, held, second):
        """The delivery file that is held of the held one and an accepted second one."""
        return checker.file_of(self.table(), checker.merged_figures(figures_of(self.model, held), figures_of(self.model, second)))

    def mark_of(self, delivery):
        """Known if a delivery is held that is the same, else new."""
        return "known" if self.delivery is not None and self.is_same(self.delivery, delivery) else "new"

    def is_same(self, held, delivery):
        """The shape and every record are equal."""
        return self.shape_in(held) == self.shape_in(delivery) and self.records_in(held) == self.records_in(delivery)

    def shape_in(self, delivery):
        return checker.shape_of(self.table(), delivery)

    def records_in(self, delivery):
        """Kind, p, Z, q and value of each record."""
        return list(struct.iter_unpack("<4BI", delivery))

    def hold_model(self, model):
        self.model = model

    def hold_delivery(self, delivery):
        self.delivery = delivery

    # Questions.

    def table(self):
        return checker.table_of(self.model)

    def figures(self):
        return figures_of(self.model, self.delivery)

    def needs_model(self):
        if self.model is None:
            raise Refused(NO_MODEL)

    def needs_delivery(self):
        if self.delivery is None:
            raise Refused(NO_DELIVERY)

    def needs_place(self, p, z, q=0):
        if not (p < self.table().states and z < self.table().symbols and q < self.table().states):
            raise Refused(NOT_OF_MODEL)

    def needs_block(self, block):
        if block is None:
            raise Refused(NO_BLOCK)

    def needs_few_steps(self, n):
        if n > MOST_STEPS:
            raise Refused(TOO_MANY_STEPS)

    def upper(self, p, z, q):
        self.needs_model()
        self.needs_delivery()
        self.needs_place(p, z, q)
        return self.value(self.figures().upper[self.table().entry_at(p, z, q)])

    def lower(self, p, z, q):
        self.needs_model()
        self.needs_delivery()
        self.needs_place(p, z, q)
        self.needs_block(self.figures().lower)
        return self.value(self.figures().lower[self.table().entry_at(p, z, q)])

    def steps(self, p, z):
        self.needs_model()
        self.needs_delivery()
        self.needs_place(p, z)
        self.needs_block(self.figures().mean)
        return self.value(self.figures().mean[self.table().row_at(p, z)])

    def margin(self):
        self.needs_model()
        self.needs_delivery()
        self.needs_block(self.figures().lower)
        return self.value(margin_of(self.model, self.delivery))

    def live(self, p, z, q):
        self.needs_model()
        self.needs_place(p, z, q)
        return self.value(int(self.table().is_live[self.table().entry_at(p, z, q)]))

    def within(self, n, p, z, q):
        self.needs_model()
        self.needs_place(p, z, q)
        self.needs_few_steps(n)
        return self.value(self.chance(n, p, z, q))

    def chance(self, n, p, z, q):
        """The chance of entry (p, Z, q) within n steps, over 65536**n."""
        return short_chances(self.model, p, z, n).get(q, 0)

    def value(self, number):
        return "value %d" % number


class Desk(PlainPair):
    """The lines around the pair."""

    def lines_of(self, text):
        """The lines of a whole input: what ends with a newline, and what is left at the end."""
        *lines, rest = text.split(b"\n")
        return lines + [rest] if rest else lines

    def is_silent(self, line):
        return not line or line.startswith(b"#")

    def is_written_well(self, line):
        return len(line) <= LONGEST_LINE and not any(byte < 32 or byte == 127 for byte in line)

    def words_of(self, line):
        return line.split(b" ")

    def is_number(self, word):
        return 1 <= len(word) <= MOST_DIGITS and all(48 <= byte <= 57 for byte in word)

    def number(self, word):
        return int(word)

    def is_path(self, word):
        return 1 <= len(word) <= LONGEST_PATH

    def call_of(self, line):
        """The call that a line says as (name, arguments), or None."""
        if not self.is_written_well(line):
            return None
        name, *words = self.words_of(line)
        kinds = ARGUMENTS.get(name)
        if kinds is None or len(kinds) != len(words):
            return None
        if not all(self.is_path(word) if kind == "f" else self.is_number(word) for kind, word in zip(kinds, words)):
            return None
        return name, [word if kind == "f" else self.number(word) for kind, word in zip(kinds, words)]

    def reply_to(self, name, arguments):
        calls = {b"clear": self.clear, b"model": self.file_model, b"counter": self.file_counter, b"delivery": self.file_delivery, b"merge": self.merge_delivery,
                 b"upper": self.upper, b"lower": self.lower, b"steps": self.steps, b"margin": self.margin, b"live": self.live, b"within": self.within}
        try:
            return calls[name](*arguments)
        except Refused as refusal:
            return "refused %d %d %d" % refusal.args

    def unclear(self):
        return "unclear"

    def reply_to_line(self, line):
        """The reply in words, or None where there is none."""
        if self.is_silent(line):
            return None
        call = self.call_of(line)
        return self.unclear() if call is None else self.reply_to(*call)

    def replies(self, text):
        """The replies to each line of a whole input, without those lines that get none."""
        return [reply for reply in map(self.reply_to_line, self.lines_of(text)) if reply is not None]


def desk_with(**methods):
    """A kind of desk: this one with some of its methods replaced."""
    return type("OtherDesk", (Desk,), methods)


def main():
    desk = Desk()
    for line in sys.stdin.buffer:
        for reply in desk.replies(line):
            print(reply, flush=True)


if __name__ == "__main__":
    main()
