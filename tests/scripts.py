"""Runs the desk on random scripts of calls over folders of files, and compares every reply and every warning with the plain pair in tests/plainpair.py. Besides, asks
for the chances of short runs of every entry of several hundred models.
"""
import argparse
import contextlib
import itertools
import os
import posixpath
import random
import struct
import subprocess
import sys
import tempfile
import time
from collections import Counter, namedtuple
from pathlib import Path

import checker
import generate
import plainpair

SCRIPTS_OF_A_FOLDER = 8
PAIRS_OF_A_PART = 3  # of deliveries that differ in one part, at the most, for each theme
MERGES_OF_A_THEME = 8  # pairs of accepted deliveries to be merged, for each theme
LINES = (5, 60)  # of a script, the fewest and the most
ENOUGH = 1000  # scripts from which on every kind has to occur
FEWEST = 5  # times, at least, that every reason and every kind of line must then occur
MOST_SHOWN = 5  # mismatches shown before giving up
REASONS = (*range(10, 16), *range(20, 28), *range(40, 49))
REPLIES = ("cleared", "accepted", "known", "new", "value", "refused", "unclear", "none")
FILED = tuple("%s %s" % (mark, shape) for mark in ("known", "new") for shape in checker.SHAPES)
# What a delivery has in common with the one before, or has alone, each with the mark that request A.3 gives it; beside a counter file, whatever the shapes, what stands
# before the comma.
LIKE = ("known: the same again", "known: the same after a refusal", "new: the same after another", "new: the same after a clearing",
        *("new: other %s alone, %s" % (block, shape) for block, letter in (("uppers", "U"), ("lowers", "L"), ("mean steps", "R")) for shape in checker.SHAPES if letter in shape),
        *("new: another %s record alone, %s" % (place, shape) for place in ("first", "last") for shape in checker.SHAPES),
        "new: the first record of each block, and not all", "new: the last record of each block, and not all",
        *("new: the blocks that both have, %s after %s" % shapes for shapes in itertools.permutations(checker.SHAPES, 2)),
        *("new: zeros for no lowers, %s after %s" % shapes for shapes in (("U", "UL"), ("UL", "U"), ("UR", "ULR"), ("ULR", "UR"))),
        "new: the numbers and not the kinds, UL after UR", "new: the numbers and not the kinds, UR after UL", "new: the numbers in another order, UL", "new: the numbers in another order, ULR")
LIKE_BESIDE_COUNTERS = tuple(dict.fromkeys("beside a counter, " + kind.split(", ")[0] for kind in LIKE))
SHORT = ("within: value above 0", "within: value 0", "within: 40", "within: 44", "within: 45", "within: 40 before 45", "within: 44 before 45")
COUNTERS = ("counter: accepted", "counter: 41 beside a model", "counter: 41 beside a counter", "model: 41 beside a counter", "counter: 46", "counter: 47 at 0", "counter: 47 further on",
            "counter: 48 at 0", "counter: 48 further on", "beside a counter: new", "beside a counter: known", "beside a counter: value", "beside a counter: 24")
# Merges (request A.5): their replies, where they stand among other calls, what is merged of which shapes, and what that is.
MERGES = (*("merge: %s" % kind for kind in ("known", "new", "40", "42", *range(20, 28))), "merge: 40 after a clearing", "merge: 42 after a clearing",
          *("merge: %s after a merge" % kind for kind in ("known", "new", "refused")), "delivery: known after a merge", "delivery: new after a merge", "margin: value after a merge",
          *("merge: %s with %s" % shapes for shapes in itertools.product(checker.SHAPES, repeat=2)), "merge: known, of the held file", "merge: known, of another file",
          "merge: new, the second", "merge: new, neither of the two", "beside a counter, merge: known", "beside a counter, merge: new")
RANDOM_MODELS, MODELS_OF_PAIRS = 800, 200  # whose short chances are all asked for
MOST_WALKED = 40  # records of a model whose short chances are worked out once more, by the checker
FEWEST_SHORT = 1000  # at least: short chances above 0, those with a part through a pair, and refusals by 45
FILINGS = (b"model", b"counter", b"delivery", b"merge")  # the calls that name a file
CONTROLS = bytes([*range(10), *range(11, 32), 127])  # all but the newline
SHARED_MEMORY = Path("/dev/shm")


# Folders of files.

# A name that is no text in UTF-8: a file of that name is there, and cannot be opened. And how the desk shows it.
NO_TEXT, NO_TEXT_SHOWN = b"\x80\xff\xfe", b"\\x80\\xff\\xfe"


class Folder:
    """Files by name: those that are accepted as a model and those as a counter file, each a theme (the call's word, the name) with the deliveries made for it, the
    accepted ones among these, lists of pairs of accepted ones that are alike, and accepted ones with what is merged of them; and other files."""

    def __init__(self, cases, counters=()):
        self.files, self.names, self.directories = {}, {}, {b"folder", b"sub"}
        self.themes, self.others, self.deliveries, self.certificates, self.alike, self.merges = [], {b"model": [], b"counter": []}, {}, {}, {}, {}
        for model, delivery in cases:
            self.add_case(b"model", model, model, delivery)
        for counter, delivery in counters:
            self.add_case(b"counter", counter, model_made(counter), delivery)
        self.others[b"model"] += [self.name_of(data) for data in (b"", bytes(20480), generate.largest_model() + b"\0", bytes(40960))]
        self.others[b"counter"] += [self.name_of(data) for data in (b"", bytes(2048), generate.largest_counter() + b"\0")]

    def name_of(self, data):
        """The name of the file with these bytes, a new one if there is none."""
        if data not in self.names:
            name = new_name(len(self.files))
            self.files[name], self.names[data] = data, name
        return self.names[data]

    def add_case(self, word, file, model, delivery):
        """A file for one of the calls, with the model that it is or makes."""
        name, is_accepted = self.name_of(file), checker.check_model(model) == (0, 0)
        theme, group = ((word, name), self.themes) if is_accepted else (name, self.others[word])
        if theme not in group:
            group.append(theme)
        if is_accepted:
            self.deliveries.setdefault(theme, []).append(self.name_of(delivery))
        if checker.check_delivery(model, delivery) == checker.ACCEPTED:
            self.certificates.setdefault(theme, []).append(self.name_of(delivery))

    def add_alike(self, theme, pairs):
        """A list of pairs of figures for a theme, of which those are kept that differ and are both accepted."""
        model, table = self.model(theme), self.table(theme)
        made = [[generate.delivery_file(table, figures) for figures in pair] for pair in pairs]
        kept = [(one, other) for one, other in made if one != other and all(plainpair.verdict(model, file) == checker.ACCEPTED for file in (one, other))]
        if kept:
            self.alike.setdefault(theme, []).append([(self.name_of(one), self.name_of(other)) for one, other in kept])

    def add_merge(self, theme, one, other, third):
        """The names of three accepted deliveries for a theme, and of what is merged of the first two."""
        figures = [plainpair.figures_of(self.model(theme), self.files[name]) for name in (one, other)]
        merged = self.name_of(checker.file_of(self.table(theme), checker.merged_figures(*figures)))
        self.merges.setdefault(theme, []).append((one, other, third, merged))

    def refused(self, theme):
        """The names of deliveries that are refused beside a theme."""
        return [name for name in self.deliveries[theme] if name not in self.certificates.get(theme, [])] or [b"gone"]

    def models(self):
        """The names of the accepted models."""
        return [name for word, name in self.themes if word == b"model"]

    def model(self, theme):
        """The model file that is held once the theme is filed."""
        word, name = theme
        return self.files[name] if word == b"model" else checker.made_model(self.files[name])

    def table(self, theme):
        return checker.table_of(self.model(theme))

    def write(self, root):
        for directory in self.directories:
            os.mkdir(os.path.join(root, directory))
        for name, data in self.files.items():
            with open(os.path.join(root, name), "wb") as file:
                file.write(data)
        with open(os.path.join(root, NO_TEXT), "wb") as file:
            file.write(next(iter(self.files.values()), b""))

    def reader(self, warnings):
        """Reads files as the system would; a warning for a directory, or a name that is no text, is added to the list."""
        def read(path, most):
            if NO_TEXT in path:
                warnings.append(path.replace(NO_TEXT, NO_TEXT_SHOWN) + b": a name that is not UTF-8, not opened\n")
                return b""
            if posixpath.normpath(path) in self.directories | {b"."}:
                warnings.append(path + b": Is a directory\n")
            return self.files.get(posixpath.normpath(path), b"")[:most]
        return read


def model_made(counter):
    """The model that a counter file makes; of one that is refused, no bytes, which are no model."""
    return checker.made_model(counter) if checker.check_counter(counter) == (0, 0) else b""


def new_name(number):
    """The name of a folder's file by its number: plain, in UTF-8, with a control character, in a folder, with signs, of 255 bytes."""
    forms = (b"%d", b"%d.tab", "modèle-%d.tab".encode(), "表%d".encode(), "\x80\xff%d\xfe".encode(), b"sub/%d", b"#%d", b"-%d", b"'%d$(x)\"\\", b"%d" + b"n" * 252)
    name = forms[number % len(forms)] % number
    return name[:plainpair.LONGEST_PATH]


def chosen_cases(cases, most_of_a_kind):
    """Of cases (label, model, delivery) at most so many for each reason and each accepted shape, as pairs of files."""
    kinds, chosen = Counter(), []
    for _, model, delivery in cases:
        number = checker.check_delivery(model, delivery)[0]
        kind = number or checker.shape_of(checker.table_of(model), delivery)
        kinds[kind] += 1
        if kinds[kind] <= most_of_a_kind:
            chosen.append((model, delivery))
    return chosen


def chosen_counters(cases, most_of_a_kind):
    """Of cases (label, counter file, delivery) at most so many for each reason, and each accepted shape, as pairs of files."""
    kinds, chosen = Counter(), []
    for _, counter, delivery in cases:
        model = model_made(counter)
        kind = checker.check_counter(counter)[0] or checker.check_delivery(model, delivery)[0] or checker.shape_of(checker.table_of(model), delivery)
        kinds[kind] += 1
        if kinds[kind] <= most_of_a_kind:
            chosen.append((counter, delivery))
    return chosen


def far_counters():
    """The largest counter file and longer ones, and states and records at the last place."""
    largest = generate.largest_counter()
    yield from ((counter, b"") for counter in (largest, largest + b"\0", largest[:-1], largest + largest[-8:], largest[:-4] + bytes(4), largest[:-8]))


def far_cases():
    """The largest files, and files that would pass if their end were not read."""
    model, delivery = generate.largest_model(), generate.largest_certificate()
    yield from generate.far_ends()
    yield "a record more", model, delivery + delivery[-8:]
    yield "a byte more", model, delivery + b"U"
    yield "a rule more", model + model[-10:], delivery


def make_folder(rng, number):
    """A folder of files, each of its themes with pairs of deliveries that are alike, and with some to be merged."""
    folder = plain_folder(rng, number)
    for theme in folder.themes:
        for pairs in generate.alike(rng, folder.table(theme)):
            folder.add_alike(theme, rng.sample(pairs, min(len(pairs), PAIRS_OF_A_PART)))
        names = supplied(rng, folder, theme) if number == 0 or rng.randrange(2) else folder.certificates.get(theme)
        for _ in range(MERGES_OF_A_THEME if names else 0):
            folder.add_merge(theme, *rng.choices(names, k=3))
    return folder


def supplied(rng, folder, theme):
    """The names of deliveries of several suppliers for a theme."""
    return [folder.name_of(generate.delivery_file(folder.table(theme), figures)) for figures in generate.suppliers(rng, folder.table(theme), 1)]


def plain_folder(rng, number):
    """Folder 0 has the edges of document 01 and of request A.2, folder 1 the far ends, each other one two models and two counter files with deliveries and changes of them."""
    if number == 0:
        queue, counters = [(generate.QUEUE, generate.queue_delivery())], [(counter, b"") for _, counter, _ in generate.counter_edges()]
        return Folder([(model, delivery) for _, model, delivery, _ in generate.documented_edges()], queue + counters)
    if number == 1:
        return Folder([(model, delivery) for _, model, delivery in far_cases()], far_counters())
    cases, counters = ([case for _ in range(2) for case in family(rng)] for family in (generate.family, generate.counter_family))
    rng.shuffle(counters)
    return Folder(chosen_cases(cases, 4), chosen_counters(counters, 5))


# Calls.

def written(rng, number):
    """A number in digits, now and then with leading zeros."""
    zeros = rng.choice((0,) * 8 + (1, 9))
    return (b"%d" % number).rjust(min(9, len(str(number)) + zeros), b"0")


def coordinate(rng, bound):
    """A number below the bound, or now and then another: just not below it, or one that is below it by its last digits or its low bits."""
    number = rng.randrange(bound)
    if rng.randrange(16) == 0:
        number = rng.choice((bound, bound + 1, 7, 8, 15, 16, 255, 999999999, 10 + number, 256 + number, 65536 + number, 2**24 + number, 900000000 + number))
    return written(rng, number)


def steps_asked(rng):
    """A number of steps from 0 to 5, or now and then a large one, also one that is small by its last digits or its low bits."""
    number = rng.choice((0, 1, 2, 2, 3, 3, 3, 3, 4, 5))
    if rng.randrange(16) == 0:
        number = rng.choice((8, 255, 999999999, 10 + number, 256 + number, 65536 + number, 2**24 + number, 900000000 + number))
    return written(rng, number)


def question(rng, folder, theme):
    table, name = folder.table(theme), rng.choice((b"upper", b"lower", b"steps", b"margin", b"live", b"within"))
    bounds = {b"margin": (), b"steps": (table.states, table.symbols)}.get(name, (table.states, table.symbols, table.states))
    steps = [steps_asked(rng)] if name == b"within" else []
    return b" ".join([name, *steps] + [coordinate(rng, bound) for bound in bounds])


def path_of(rng, name):
    """The name, now and then by a longer way; of 255 bytes, at the most."""
    way = rng.choice((b"",) * 6 + (b"./", b"sub/../", b"./" * ((plainpair.LONGEST_PATH - len(name)) // 2)))
    return way + name if len(way + name) <= plainpair.LONGEST_PATH else name


def filing(rng, folder, theme):
    """A model, a counter file, a delivery or a merge: mostly the theme's, else another, one for another call, or a file that is missing or none."""
    absent, lot = [b"gone", b"folder", b"gone/1", b".", "fehlt-ü".encode(), NO_TEXT], rng.randrange(100)
    if rng.randrange(10) < 3:
        word, name = theme if lot < 50 else rng.choice(folder.themes)
        if lot >= 65:
            word = rng.choice((b"model", b"counter"))
            name = rng.choice(folder.others[word] if lot < 82 else list(folder.files) if lot < 92 else absent)
        return word + b" " + path_of(rng, name)
    accepted, made = folder.certificates.get(theme), folder.deliveries[theme]
    names = accepted if accepted and lot < 50 else made if lot < 82 else list(folder.files) if lot < 90 else absent
    return rng.choice((b"delivery ", b"delivery ", b"merge ")) + path_of(rng, rng.choice(names))


def call(rng, folder, theme):
    lot = rng.randrange(100)
    if lot < 4:
        return b"clear"
    return question(rng, folder, theme) if lot < 64 else filing(rng, folder, theme)


# Lines that are no call. Each takes (rng, a call) and hands back a line.

def put_in(rng, line, piece):
    at = rng.randint(0, len(line))
    return line[:at] + piece + line[at:]


def with_word(rng, line, word):
    """The line with one of the words after its call's name replaced; a question with such a word where it has none."""
    words = line.split(b" ")
    if len(words) < 2 or words[0] in FILINGS:
        words = [b"upper", b"0", b"0", b"0"]
    words[rng.randrange(1, len(words))] = word
    return b" ".join(words)


def upper_case(rng, line):
    name, space, rest = line.partition(b" ")
    at = rng.randrange(len(name))
    return name[:at] + name[at:at + 1].upper() + name[at + 1:] + space + rest


def high_byte(rng, line):
    """A byte from 128 on in the call's name or in a number."""
    byte = bytes([rng.randrange(128, 256)])
    return rng.choice((byte + line, with_word(rng, line, b"1" + byte), with_word(rng, line, "٣".encode())))


def too_few_words(rng, line):
    return line.rpartition(b" ")[0] or rng.choice((*FILINGS, b"upper", b"live 0 0", b"steps 0", b"within 0 0 0"))


def double_space(rng, line):
    return line.replace(b" ", b"  ", 1) if b" " in line else line + b"  0"


def path_too_long(rng, line):
    return rng.choice(FILINGS) + b" " + b"./" * 127 + b"./"[:1] + rng.choice((b"n", b"1"))


def filled(length):
    """A line of so many bytes."""
    return lambda rng, line: line + rng.choice((b" ", b"0", b"x", b"/")) * (length - len(line))


UNCLEAR = {
    "301 bytes": filled(301),
    "exactly 300 bytes": filled(300),
    "a control byte": lambda rng, line: put_in(rng, line, bytes([rng.choice(CONTROLS)])),
    "a control byte in a path": lambda rng, line: put_in(rng, rng.choice(FILINGS) + b" 1", bytes([rng.choice(CONTROLS)])),
    "a tab for a space": lambda rng, line: line.replace(b" ", b"\t") if b" " in line else b"upper\t0 0 0",
    "a carriage return": lambda rng, line: line + b"\r",
    "a NUL": lambda rng, line: line + b"\0",
    "byte 127": lambda rng, line: put_in(rng, rng.choice((line, b"model 1", b"counter 1", b"delivery 1", b"merge 1")), b"\x7f"),
    "a byte from 128 on": high_byte,
    "two spaces": double_space,
    "a space before": lambda rng, line: b" " + line,
    "a space after": lambda rng, line: line + b" ",
    "spaces alone": lambda rng, line: b" " * rng.randint(1, 4),
    "ten digits": lambda rng, line: with_word(rng, line, b"0000000000"),
    "no number": lambda rng, line: with_word(rng, line, rng.choice((b"-1", b"+0", b"1a", b"0x0", b"0.0", b"1_0", b"/", b":", b"", b"x", b"0,"))),
    "upper case": upper_case,
    "too few words": too_few_words,
    "too many words": lambda rng, line: line + b" 0" * rng.randint(1, 3),
    "no path": lambda rng, line: rng.choice(FILINGS) + b" ",
    "a path of 256 bytes": path_too_long,
    "another word": lambda rng, line: rng.choice((b"value 3", b"known", b"uppers 0 0 0", b"uppe 0 0 0", b"help", b"quit", b"cleared", b"clea", b"0", b"models 1", b"withi 0 0 0 0", b"counters 1",
                                                 b"counte 1", b"count 1", b"merg 1", b"merges 1", b"merged 1")),
    "a space before #": lambda rng, line: b" # " + line,
}
SILENT = {
    "empty": lambda rng, line: b"",
    "# alone": lambda rng, line: b"#",
    "# before a call": lambda rng, line: b"#" + line,
    "# and any bytes": lambda rng, line: b"#" + rng.randbytes(rng.randrange(40)).replace(b"\n", b"\r"),
    "# and 1,000 bytes": lambda rng, line: b"#" + (line + b" ").ljust(rng.choice((299, 300, 301, 1000)), b"c"),
}


# Scripts.

def for_other_calls(folder, word):
    """The files that another call would take, but this one hardly does."""
    return [name for other, name in folder.themes if other != word] or list(folder.files)


def opening(rng, folder, theme):
    """What follows a clearing: now and then models or counter files that are refused, then mostly the theme, and a delivery for it."""
    words = [rng.choice((b"model", theme[0], theme[0])) for _ in range(rng.choice((0, 0, 0, 1, 2) if theme[0] == b"model" else (0, 1, 2, 3, 4)))]
    refused = [word + b" " + rng.choice(folder.others[word] if rng.randrange(5) else for_other_calls(folder, word)) for word in words]
    filed = [b" ".join(theme), b"delivery " + rng.choice(folder.certificates.get(theme, folder.deliveries[theme]))]
    return refused + filed[:rng.choice((0, 1, 1, 2, 2))]


def asked_again(rng, lines):
    """Questions on short runs that were asked before a clearing: the answers are those of the model that is held now."""
    asked = [line for line in lines if line.startswith(b"within ")]
    return rng.sample(asked, min(len(asked), rng.choice((0, 2, 4))))


def filed_alike(rng, folder, theme):
    """Two deliveries that are alike, one after the other, or one of them again: at once, after a refusal, after the other or after a clearing. None where a theme has no such."""
    if theme not in folder.alike:
        return []
    one, other = rng.sample(rng.choice(rng.choice(folder.alike[theme])), 2)
    refused, cleared = rng.choice(folder.refused(theme)), None
    forms = ((one, other),) * 6 + ((one, one), (one, refused, one), (one, refused, other), (one, other, one), (one, cleared, one))
    filed = ([b"clear", b" ".join(theme)] if name is cleared else [b"delivery " + path_of(rng, name)] for name in rng.choice(forms))
    return list(itertools.chain.from_iterable(filed))


def merged_forms(theme, refused, one, other, third, merged):
    """Merges of a theme's deliveries among other calls: of two, again, with a third, of one with itself, after a refusal, of what was merged, filed as a file before or after; and with
    no delivery and no model held."""
    empty, filed = [b"clear"], [b"delivery " + one]
    unfiled = [*empty, b" ".join(theme)]
    yield from ([*filed, b"merge " + other],) * 4
    for files in ((other, other), (other, one), (other, third), (other, third), (one,), (refused, other), (other, refused), (refused, one), (other, third, refused)):
        yield [*filed, *(b"merge " + name for name in files)]
    yield from ([*filed, b"merge " + other, b"delivery " + name] for name in (merged, other))
    yield from ([b"delivery " + merged, b"merge " + name] for name in (one, third))
    yield from ([*filed, *start, b"merge " + one, b"margin"] for start in (empty, empty, unfiled, unfiled))


def merged_alike(rng, folder, theme):
    """One of these forms, each merge now and then with questions. None where a theme has nothing to be merged."""
    if theme not in folder.merges:
        return []
    lines = []
    for line in rng.choice(list(merged_forms(theme, rng.choice(folder.refused(theme)), *rng.choice(folder.merges[theme])))):
        word, _, name = line.partition(b" ")
        lines.append(word + b" " + path_of(rng, name) if word in (b"delivery", b"merge") else line)
        if word == b"merge":
            lines += rng.choice(([], [b"margin"], [b"margin", question(rng, folder, theme)]))
    return lines


def chosen_theme(rng, folder):
    """A model or, every third time, a counter file."""
    word = rng.choice((b"model", b"model", b"counter"))
    return rng.choice([theme for theme in folder.themes if theme[0] == word] or folder.themes)


def make_script(rng, folder):
    """(a script's bytes, the kinds of its lines that are no call, by the line's number)."""
    theme, kinds, due = chosen_theme(rng, folder), {}, rng.randint(*LINES)
    lines = opening(rng, folder, theme)
    while len(lines) < due:
        line, lot = call(rng, folder, theme), rng.randrange(100)
        if lot < 16:
            kind, spoil = rng.choice(sorted((UNCLEAR if lot < 12 else SILENT).items()))
            line, kinds[len(lines)] = spoil(rng, line), kind
        lines.append(line)
        if line == b"clear":
            theme = chosen_theme(rng, folder)
            lines += opening(rng, folder, theme) + asked_again(rng, lines)
        lot = rng.randrange(16)
        if lot < 4:
            lines += (filed_alike if lot < 2 else merged_alike)(rng, folder, theme)
    return b"\n".join(lines[:due]) + b"\n" * (rng.randrange(4) > 0), kinds


def every_counter(folder):
    """A script that files every counter file of a folder into an empty register, and asks for a chance of the accepted ones."""
    refused = [b"counter " + name for name in folder.others[b"counter"]]
    accepted = [b" ".join(theme) + b"\nwithin 3 0 0 0\nlive 1 0 1\nclear" for theme in folder.themes if theme[0] == b"counter"]
    return b"\n".join(refused + accepted + refused)


def folders_of_scripts(seed, count):
    """`count` scripts as (folder, its scripts with their kinds), folder after folder. The first files every counter file of the edges."""
    rng, made = random.Random(seed), 0
    while made < count:
        folder = make_folder(rng, made // SCRIPTS_OF_A_FOLDER)
        scripts = [make_script(rng, folder) for _ in range(min(SCRIPTS_OF_A_FOLDER, count - made))]
        if made == 0:
            scripts[0] = every_counter(folder), {}
        made += len(scripts)
        yield folder, scripts


# The comparison.

# A delivery that was accepted: its mark, the call that filed its model, the model, the delivery held before, itself, and whether one was refused since the last; of one that
# was merged, the second file, else None.
Filed = namedtuple("Filed", "mark word model held delivery refused second")


def expected(folder, script):
    """(lines with their replies, None for no reply; the warnings; the deliveries that were accepted)."""
    warnings = []
    answered, filed = answered_by(plainpair.Desk(folder.reader(warnings)), script)
    return answered, b"".join(warnings), filed


def answered_by(desk, script):
    """The same without the warnings, of any desk."""
    answered, filed, word, refused = [], [], None, False
    for line in desk.lines_of(script):
        held, reply = desk.delivery, desk.reply_to_line(line)
        answered.append((line, reply))
        word = line.split(b" ")[0] if reply == "accepted" else word
        if reply in ("known", "new"):
            second = desk.read(line.split(b" ")[1], plainpair.DELIVERY_READ) if line.startswith(b"merge ") else None
            filed.append(Filed(reply, word, desk.model, held, desk.delivery, refused, second))
        refused = reply not in ("known", "new") and (refused or (reply or "").startswith("refused 2"))
    return answered, filed


def printed(answered):
    return "".join(reply + "\n" for _, reply in answered if reply is not None).encode()


def show_mismatch(script_name, answered, got, warnings, got_warnings):
    """The first reply that differs, with the line that asked for it and the lines before."""
    print("MISMATCH in %s" % script_name)
    replies, asked = got.decode("latin-1").split("\n"), [pair for pair in answered if pair[1] is not None]
    wrong = next((at for at, (_, reply) in enumerate(asked) if at >= len(replies) or replies[at] != reply), len(asked))
    for at in range(max(0, wrong - 8), min(wrong + 1, len(asked))):
        print("  %r -> %r, got %r" % (asked[at][0][:120], asked[at][1], replies[at] if at < len(replies) else None))
    print("  replies: %d, got %d" % (len(asked), len(replies) - 1))
    if warnings != got_warnings:
        print("  warnings: %r, got %r" % (warnings[-300:], got_warnings[-300:]))


def agrees(program, root, script_name, script, answered, warnings):
    done = subprocess.run([program], cwd=root, input=script, capture_output=True, timeout=60)
    if (done.stdout, done.stderr, done.returncode) == (printed(answered), warnings, 0):
        return True
    show_mismatch(script_name, answered, done.stdout, warnings, done.stderr)
    return False


def in_memory():
    """A new directory, in memory where that can be."""
    return tempfile.TemporaryDirectory(dir=SHARED_MEMORY if SHARED_MEMORY.is_dir() else None)


@contextlib.contextmanager
def unpacked(folder):
    """A directory with the folder's files."""
    with in_memory() as root:
        folder.write(os.fsencode(root))
        yield root


def check_desk(program, folder, script_name, script, answered, warnings):
    """Ends the test unless the desk replies to a script as the plain pair does; how many replies there are."""
    with unpacked(folder) as root:
        if not agrees(program, root, script_name, script, answered, warnings):
            sys.exit(1)
    return len(answered)


def is_noticed(kind, folder, script, right):
    """Whether a reply of a kind of desk to a script is not the right one; up to the line where a wrong one cannot go on."""
    desk, replied = kind(folder.reader([])), 0
    try:
        for line in desk.lines_of(script):
            reply = desk.reply_to_line(line)
            if reply is None:
                continue
            if right[replied:replied + 1] != [reply]:
                return True
            replied += 1
    except (LookupError, TypeError, ValueError, ZeroDivisionError, struct.error):
        return False
    return replied < len(right)


def short_kinds(line, reply):
    """Of a question on a short run, the kinds that it counts for: its value or its reason, and whether 45 would have applied too."""
    if not line.startswith(b"within ") or reply == "unclear":
        return []
    word, number = reply.split()[:2]
    if word == "value":
        return ["within: value 0" if number == "0" else "within: value above 0"]
    has_many_steps = int(line.split()[1]) > plainpair.MOST_STEPS
    return ["within: " + number] + ["within: %s before 45" % number] * (has_many_steps and number != "45")


def counter_kinds(answered):
    """The kinds of replies that counter files bring: to their calls, and to calls while the model that one makes is held."""
    held = None
    for line, reply in answered:
        word, (answer, number, place) = line.split(b" ")[0].decode("latin-1"), ((reply or "none") + " 0 0").split()[:3]
        if answer == "refused" and word == "counter" and number in ("47", "48"):
            yield "counter: %s %s" % (number, "at 0" if place == "0" else "further on")
        elif answer == "refused" and word in ("model", "counter"):
            yield "%s: %s" % (word, number) + (" beside a %s" % held if held else "")
        elif held == "counter" and answer in ("known", "new", "value"):
            yield "beside a counter: " + answer
        elif held == "counter" and answer == "refused":
            yield "beside a counter: " + number
        if answer == "accepted":
            held = word
            yield word + ": accepted"
        held = None if answer == "cleared" else held


def merge_kinds(answered):
    """The kinds of replies to merges, by what came before them, and to calls after one."""
    filed_by, is_cleared = None, False  # the call by which the held delivery came; whether one was held at the last clearing, and none since
    for line, reply in answered:
        word, (answer, number) = line.split(b" ")[0].decode("latin-1"), ((reply or "none") + " 0").split()[:2]
        kind = number if answer == "refused" else answer
        if word == "merge" and answer != "unclear":
            yield "merge: " + kind
            yield from ["merge: %s after a clearing" % kind] * (is_cleared and number in ("40", "42"))
        if filed_by == "merge" and word in ("merge", "delivery", "margin"):
            yield "%s: %s after a merge" % (word, answer)
        filed_by, is_cleared = (word, False) if answer in ("known", "new") else (None, filed_by is not None) if answer == "cleared" else (filed_by, is_cleared)


def merged_kinds(filed):
    """The kinds that accepted merges count for: the two shapes, what the merged delivery is, and whether a counter file's model is held."""
    for one in (one for one in filed if one.second is not None):
        yield "merge: %s with %s" % tuple(checker.shape_of(checker.table_of(one.model), file) for file in (one.held, one.second))
        if one.delivery == one.held:
            yield "merge: %s, of %s file" % (one.mark, "the held" if one.second == one.held else "another")
        else:
            yield "merge: %s, %s" % (one.mark, "the second" if one.delivery == one.second else "neither of the two")
        if one.word == b"counter":
            yield "beside a counter, merge: " + one.mark


def numbers_of(figures):
    return [number for block in figures if block is not None for number in block]


def likenesses(model, held, delivery):
    """What two different deliveries for a model have in common."""
    shapes = tuple(checker.shape_of(checker.table_of(model), file) for file in (delivery, held))
    new, old = (plainpair.figures_of(model, file) for file in (delivery, held))
    if shapes[0] == shapes[1]:
        yield from likenesses_in_shape(shapes[0], new, old)
        return
    if all(None in pair or pair[0] == pair[1] for pair in zip(new, old)):
        yield "the blocks that both have, %s after %s" % shapes
    if new.upper == old.upper and new.mean == old.mean and not any(new.lower or old.lower):
        yield "zeros for no lowers, %s after %s" % shapes
    if numbers_of(new) == numbers_of(old):
        yield "the numbers and not the kinds, %s after %s" % shapes


def likenesses_in_shape(shape, new, old):
    """The same where both are of one shape."""
    blocks = [(name, *pair) for name, *pair in zip(("uppers", "lowers", "mean steps"), new, old) if pair[0] is not None]
    other = [name for name, one, before in blocks if one != before]
    if len(other) == 1:
        yield "other %s alone, %s" % (other[0], shape)
    differ = [one != before for _, *block in blocks for one, before in zip(*block)]
    if sum(differ) == 1 and len(differ) > 1:
        yield from ("another %s record alone, %s" % (place, shape) for place, at in (("first", 0), ("last", -1)) if differ[at])
    if sorted(numbers_of(new)) == sorted(numbers_of(old)):
        yield "the numbers in another order, %s" % shape
    for place, at in (("first", 0), ("last", -1)):
        if all(one[at] == before[at] for _, one, before in blocks):
            yield "the %s record of each block, and not all" % place


def history_kinds(filed):
    """Of each accepted delivery, with the two that were accepted before it, how it came after one that is the same."""
    for earlier, last, one in zip([None, None, *filed], [None, *filed], filed):
        if one.held == one.delivery:
            yield one, "the same after a refusal" if one.refused else "the same again"
        elif one.held is None and last is not None and (last.model, last.delivery) == (one.model, one.delivery):
            yield one, "the same after a clearing"
        elif one.held is not None and earlier is not None and last.held == earlier.delivery == one.delivery:
            yield one, "the same after another"


def filed_kinds(filed):
    """The kinds that accepted deliveries count for: the mark with the shape, and with what one has in common with those before it. Merges count for their own."""
    yield from merged_kinds(filed)
    filed = [one for one in filed if one.second is None]
    yield from ("%s %s" % (one.mark, checker.shape_of(checker.table_of(one.model), one.delivery)) for one in filed)
    between = ((one, likeness) for one in filed if one.held not in (None, one.delivery) for likeness in likenesses(one.model, one.held, one.delivery))
    for one, likeness in itertools.chain(history_kinds(filed), between):
        kind = "%s: %s" % (one.mark, likeness)
        yield kind
        if one.word == b"counter":
            yield "beside a counter, " + kind.split(", ")[0]


def count_kinds(kinds, answered, line_kinds):
    """Counts replies and reasons, and lines that are no call, which the pair must have found to be none."""
    for _, reply in answered:
        word, number = ("none", None) if reply is None else (reply + " 0").split()[:2]
        kinds[word] += 1
        if word == "refused":
            kinds[int(number)] += 1
    kinds.update(kind for line, reply in answered for kind in short_kinds(line, reply))
    kinds.update(counter_kinds(answered))
    kinds.update(merge_kinds(answered))
    for at, kind in line_kinds.items():
        if at < len(answered) and answered[at][1] != ("unclear" if kind in UNCLEAR else None):
            sys.exit("the plain pair replies %r to %r, which has %s" % (*reversed(answered[at]), kind))
    kinds.update(line_kinds.values())


def compare_folder(program, number, folder, scripts, kinds):
    """How many scripts of a folder disagree: each by itself, and all of them in one input."""
    wrong = 0
    with unpacked(folder) as root:
        for at, (script, line_kinds) in enumerate(scripts):
            answered, warnings, filed = expected(folder, script)
            count_kinds(kinds, answered, line_kinds)
            kinds.update(filed_kinds(filed))
            wrong += not agrees(program, root, "folder %d, script %d" % (number, at), script, answered, warnings)
        joined = b"\n".join(script for script, _ in scripts)
        wrong += not agrees(program, root, "folder %d, all scripts" % number, joined, *expected(folder, joined)[:2])
    return wrong


def show_kinds(kinds, count):
    """Prints how often each kind occurred; exits when one is too rare, if there were enough scripts for it."""
    due = [*REASONS, *REPLIES, *FILED, *LIKE, *LIKE_BESIDE_COUNTERS, *SHORT, *COUNTERS, *MERGES, *UNCLEAR, *SILENT]
    print("; ".join("%s: %d" % (kind, kinds[kind]) for kind in due))
    rare = [kind for kind in due if kinds[kind] < FEWEST]
    if count < ENOUGH:
        print("skipped: that every kind occurs needs %d scripts" % ENOUGH)
    elif rare:
        sys.exit("fewer than %d: %s" % (FEWEST, rare))


# All chances of short runs.

def short_models(rng):
    """The models of document 01's edges and of the far ends, models of pairs up to the largest, and random ones."""
    yield from (case[1] for case in [*generate.documented_edges(), *generate.far_ends()] if checker.check_model(case[1]) == (0, 0))
    yield generate.model_of_one_long_row()
    for states, symbols, each in ((8, 16, 8), (2, 16, 32), (1, 16, 64), (8, 2, 64), (8, 1, 70)):
        yield generate.model_of_pairs(rng, states, symbols, each)
    for _ in range(MODELS_OF_PAIRS):
        yield generate.model_of_pairs(rng, rng.randint(1, 4), rng.randint(1, 4), rng.randint(2, 8))
    for _ in range(RANDOM_MODELS):
        yield generate.random_model(rng)


def all_short(table, name):
    """A script that files a model alone and asks for the chance of every entry within 0 to 3 steps, and within 4."""
    asked = [b"within %d %d %d %d" % (n, *entry) for n in range(plainpair.MOST_STEPS + 2) for entry in table.entries]
    return b"\n".join([b"model " + name, *asked])


def check_walks(table, model):
    """On a small model, the plain pair's chances are those of the checker, which follows every stack."""
    if len(table.records) > MOST_WALKED:
        return
    for (p, z), n in itertools.product(table.rows, range(plainpair.MOST_STEPS + 1)):
        if plainpair.short_chances(model, p, z, n) != checker.chances_by_runs(table.rules, p, z, n):
            sys.exit("two walks disagree: %s, row (%d, %d), %d steps" % (model.hex(), p, z, n))


def through_pairs(table, model):
    """How many entries have a chance within 3 steps of which a part goes through a rule that pushes two."""
    count, single = 0, {row: [rule for rule in rules if rule.length < 2] for row, rules in table.rules.items()}
    for p, z in table.rows:
        whole, part = plainpair.short_chances(model, p, z, 3), plainpair.returned_within(single, p, z, 3)
        count += sum(chance != part.get(q, 0) for q, chance in whole.items())
    return count


def compare_short(program, seed):
    """Compares all short chances of many models, says how many, and hands back how many models disagree."""
    folder, kinds, wrong = Folder((model, b"") for model in short_models(random.Random(seed))), Counter(), 0
    with unpacked(folder) as root:
        for name in folder.models():
            table, model = folder.table((b"model", name)), folder.files[name]
            script = all_short(table, name)
            answered, warnings, _ = expected(folder, script)
            kinds.update(kind for line, reply in answered for kind in short_kinds(line, reply))
            kinds["pairs"] += through_pairs(table, model)
            check_walks(table, model)
            wrong += not agrees(program, root, "short chances of file %r" % name, script, answered, warnings)
            if wrong >= MOST_SHOWN:
                return wrong
    above, zero, refused = (kinds["within: " + kind] for kind in ("value above 0", "value 0", "45"))
    print("desk: %d short chances of %d models compared, %d of them above 0, %d with a part through a pair; %d refused by 45"
          % (above + zero, len(folder.models()), above, kinds["pairs"], refused))
    if min(above, kinds["pairs"], refused) < FEWEST_SHORT:
        sys.exit("fewer than %d short chances of a kind" % FEWEST_SHORT)
    return wrong


def main():
    options = argparse.ArgumentParser(description=__doc__)
    options.add_argument("--seed", type=int, default=1)
    options.add_argument("--count", type=int, default=2000, help="scripts")
    options.add_argument("--program", required=True, help="the desk program")
    options, start = options.parse_args(), time.monotonic_ns()
    program, kinds, wrong = str(Path(options.program).resolve()), Counter(), 0
    for number, (folder, scripts) in enumerate(folders_of_scripts(options.seed, options.count)):
        wrong += compare_folder(program, number, folder, scripts, kinds)
        if wrong >= MOST_SHOWN:
            break
    if wrong or compare_short(program, options.seed):
        sys.exit(1)
    show_kinds(kinds, options.count)
    replies = sum(kinds[reply] for reply in REPLIES[:-1])
    print("desk: %d scripts, %d replies agree in %d s" % (options.count, replies, (time.monotonic_ns() - start) // 10**9))


if __name__ == "__main__":
    main()
