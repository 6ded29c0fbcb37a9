#!/usr/bin/env python3
"""Turns a readable text into model.tab or counter.tab, and bounds.cer, and back, says what a refusal means, and how long a window to book."""

import math
import re
import subprocess
import sys
from fractions import Fraction
from pathlib import Path

DESK = Path(__file__).resolve().parent.parent / "desk"
COUNTER, MODEL, DELIVERY = "counter.tab", "model.tab", "bounds.cer"
RECORD_SIZE = {COUNTER: 8, MODEL: 10, DELIVERY: 8}
KINDS = {"upper": 85, "lower": 76, "steps": 82}
WAYS = ("down", "level", "up")  # by d, which is also how many symbols the made rule pushes
BYTES_FOR = {"counter": COUNTER, "model": MODEL, "delivery": DELIVERY}
RAW = {"counter": COUNTER, "record": MODEL, "kind": DELIVERY}
USAGE = """\
bounds.py write TEXT [FOLDER]                 write the files (default: beside the text)
bounds.py read [FOLDER]                       print the files as a text (default: this folder)
bounds.py made [FOLDER]                       print the text with the model that counter.tab makes
bounds.py explain [NUMBER PLACE SHORTFALL]    explain one refusal, or list them all
bounds.py window FOLDER P Z SHARE             the steps to book so that a run from row P Z is back with
                                              a chance of SHARE, as 99/100, by its accepted mean steps

A text has one record a line, written in the order given; # starts a comment. Rules go to
model.tab, moves to counter.tab, bounds to bounds.cer. The lines are:"""

# Z is the top symbol; Y is the new top and X lies under it.
FORMS = {
    "move": "move u -> v down|level|up weight",
    "counter": "counter u v d N weight",  # any record of a counter file, N being its fourth byte
    "rule": "rule p Z -> q [: Y [X]] weight",
    "record": "record p Z q L Y X weight",  # any record of a model, also one that is no rule
    "upper": "upper p Z q value",
    "lower": "lower p Z q value",
    "steps": "steps p Z value",
    "kind": "kind N p Z q value",  # any record of a delivery, N being its kind byte
    "bytes": "bytes counter|model|delivery NUMBER ...",  # for part of a record
}

# number: (file, what the place counts, what is wrong)
REFUSALS = {
    10: (MODEL, "file", "its length is 0, not a multiple of 10, or above 10240 bytes"),
    11: (MODEL, "record", "a state is above 7, a symbol above 15, or L above 2"),
    12: (MODEL, "record", "Y or X is not 0, although L says that it is not pushed"),
    13: (MODEL, "record", "the weight is 0 or above 65536"),
    14: (MODEL, "record", "its p Z q L Y X is not above that of the record before"),
    15: (MODEL, "row", "the weights of its rules do not sum to 65536"),
    20: (DELIVERY, "file", "its length is not that of U, UL, UR or ULR for this model"),
    21: (DELIVERY, "record", "its kind, p, Z, q are not those due there"),
    22: (DELIVERY, "record", "its value is out of range (uppers and lowers 0 to 2097152, "
                             "mean steps 256 to 4194304)"),
    23: (DELIVERY, "record", "the entry is dead (no run empties the stack in q), but its bound is not 0"),
    24: (DELIVERY, "record", "the upper u is below f(u), the right side of its equation, or, "
                             "at a live entry where lowers stand, not above it"),
    25: (DELIVERY, "record", "the lower is above the upper of the same entry"),
    26: (DELIVERY, "record", "the lower l is above f(l), the right side of its equation"),
    27: (DELIVERY, "record", "the mean steps are below 1 plus the mean steps that the row's rules "
                             "leave to come"),
    40: (None, "register", "no model is held"),
    41: (None, "register", "a model or a counter file was filed while a model is held; clear the register first"),
    42: (None, "register", "no delivery is held"),
    43: (None, "register", "the held delivery has no lowers (for a lower or the margin) "
                           "or no mean steps (for mean steps)"),
    44: (None, "register", "the state or symbol asked for is not one of the held model"),
    45: (None, "register", "more than 3 steps were asked for; chances within n steps are answered for n from 0 to 3"),
    46: (COUNTER, "file", "its length is 0, not a multiple of 8, or above 1536 bytes"),
    47: (COUNTER, "record", "a state is above 7, d above 2, the fourth byte not 0, the weight 0 or above 65536, "
                            "or its u v d is not above that of the record before"),
    48: (COUNTER, "state", "the weights of its moves do not sum to 65536"),
}
SHORTFALL_UNITS = {24: "1/2^56", 26: "1/2^56", 27: "1/2^44 of a step"}
FILED_UNITS = {24: "1/1048576", 26: "1/1048576", 27: "1/256 of a step"}


def whole_number(word, byte_count):
    """Reads a word as a whole number that fits the given count of bytes."""
    if not (word.isascii() and word.isdigit()):
        raise ValueError(f"'{word}' is not a whole number from 0")
    value = int(word)
    if value >= 256 ** byte_count:
        raise ValueError(f"{word} does not fit in {byte_count} byte{'s' * (byte_count > 1)}")
    return value


def packed(words):
    """Gives one byte for each word but the last, which gets four bytes, low byte first."""
    single = bytes(whole_number(word, 1) for word in words[:-1])
    return single + whole_number(words[-1], 4).to_bytes(4, "little")


def rule_bytes(words):
    """Gives the record for the words `p Z -> q [: Y [X]] weight`."""
    pushing = len(words) in (7, 8) and words[4] == ":"
    if not (len(words) == 5 or pushing) or words[2] != "->":
        raise ValueError(f"expected: {FORMS['rule']}")
    pushed = words[5:-1]
    unused = ["0"] * (2 - len(pushed))
    return packed([words[0], words[1], words[3], str(len(pushed)), *pushed, *unused, words[-1]])


def move_bytes(words):
    """Gives the record for the words `u -> v WAY weight`."""
    if len(words) != 5 or words[1] != "->" or words[3] not in WAYS:
        raise ValueError(f"expected: {FORMS['move']}")
    return packed([words[0], words[2], str(WAYS.index(words[3])), "0", words[4]])


def line_bytes(words):
    """Gives the file that a line's words belong to, and their bytes in it."""
    name, rest = words[0], words[1:]
    if name not in FORMS:
        raise ValueError(f"unknown word '{name}' (known: {', '.join(FORMS)})")
    if name == "rule":
        return MODEL, rule_bytes(rest)
    if name == "move":
        return COUNTER, move_bytes(rest)
    if name == "bytes":
        if len(rest) < 2 or rest[0] not in BYTES_FOR:
            raise ValueError(f"expected: {FORMS[name]}")
        return BYTES_FOR[rest[0]], bytes(whole_number(word, 1) for word in rest[1:])
    if len(words) != len(FORMS[name].split()):
        raise ValueError(f"expected: {FORMS[name]}")
    if name in RAW:
        return RAW[name], packed(rest)
    if name == "steps":
        rest = [*rest[:2], "0", rest[2]]
    return DELIVERY, packed([str(KINDS[name]), *rest])


def files_from_text(lines, text_name="text"):
    """Gives the files' bytes, by file name, for the lines of a text."""
    files = {name: bytearray() for name in RECORD_SIZE}
    for line_number, line in enumerate(lines, start=1):
        words = line.split("#", 1)[0].split()
        if not words:
            continue
        try:
            name, data = line_bytes(words)
        except ValueError as error:
            raise ValueError(f"{text_name}, line {line_number}: {error}") from None
        files[name] += data
    return kept({name: bytes(data) for name, data in files.items()})


def kept(files):
    """Gives the files that a folder has: a counter file where it has bytes, and then a model only where that has too."""
    return {name: data for name, data in files.items()
            if data or name == DELIVERY or (name == MODEL and not files[COUNTER])}


def rule_text(record):
    """Gives the line for a record of a model."""
    p, Z, q, L, Y, X = record[:6]
    weight = int.from_bytes(record[6:], "little")
    if L > 2 or any((Y, X)[L:]):
        return f"record {p} {Z} {q} {L} {Y} {X}  {weight}"
    pushed = " ".join([":", *map(str, (Y, X)[:L])]) if L else ""
    return f"rule {p} {Z} -> {q} {pushed:8} {weight}"


def move_text(record):
    """Gives the line for a record of a counter file."""
    u, v, d, fourth = record[:4]
    weight = int.from_bytes(record[4:], "little")
    if d > 2 or fourth:
        return f"counter {u} {v} {d} {fourth}  {weight}"
    return f"move {u} -> {v} {WAYS[d]:6} {weight}"


def bound_text(record):
    """Gives the line for a record of a delivery."""
    kind, p, Z, q = record[:4]
    value = int.from_bytes(record[4:], "little")
    if kind == KINDS["steps"] and q == 0:
        return f"steps {p} {Z}    {value}"
    name = {KINDS["upper"]: "upper", KINDS["lower"]: "lower"}.get(kind, f"kind {kind}")
    return f"{name} {p} {Z} {q}  {value}"


def file_text(name, data, word, record_text):
    """Gives the lines for one file: its whole records, then the bytes left over."""
    size = RECORD_SIZE[name]
    whole = len(data) // size * size
    lines = [f"# {name}: {len(data)} bytes"]
    lines += [record_text(data[start:start + size]) for start in range(0, whole, size)]
    if whole < len(data):
        lines.append(f"bytes {word} " + " ".join(map(str, data[whole:])))
    return lines


def text_from_files(files):
    """Gives the text that `write` turns into exactly these files."""
    forms = {COUNTER: ("counter", move_text), MODEL: ("model", rule_text), DELIVERY: ("delivery", bound_text)}
    parts = ["\n".join(file_text(name, data, *forms[name])) + "\n" for name, data in files.items()]
    return "\n".join(parts)


def made_model(counter):
    """Gives the model that a counter file makes: move for move a rule on symbol 0 that pushes 0, 1 or 2 of it."""
    if len(counter) % RECORD_SIZE[COUNTER]:
        raise ValueError(f"{COUNTER} ends within a record")
    records = [counter[start:start + 8] for start in range(0, len(counter), 8)]
    for place, (_, _, d, fourth, *_) in enumerate(records):
        if d > 2 or fourth:
            raise ValueError(f"{COUNTER}, record {place} is no move")
    return b"".join(bytes([u, 0, v, d, 0, 0, *weight]) for u, v, d, _, *weight in records)


def where(number, place):
    """Says which file, record or row a refusal's place means."""
    file, counted, _ = REFUSALS[number]
    if counted == "register":
        return "the register"
    if counted == "file":
        return f"{file}, the file as a whole"
    if counted == "row":
        return f"{file}, row {place} (row p Z has the number p x symbols + Z)"
    if counted == "state":
        return f"{file}, state {place}"
    start = place * RECORD_SIZE[file]
    return f"{file}, record {place} (from 0; bytes {start} to {start + RECORD_SIZE[file] - 1})"


def how_far(number, shortfall):
    """Says by how much the inequality of a refusal fails."""
    if number not in SHORTFALL_UNITS:
        return ""
    if shortfall == 0:
        return "\nIt misses by 0: u equals f(u), and must be greater."
    missing = -shortfall
    return (f"\nIt misses by {missing} times {SHORTFALL_UNITS[number]},"
            f" about {missing / 2 ** 36:.6g} times the {FILED_UNITS[number]} that the file counts in.")


def explain(number, place, shortfall):
    """Says in words what a refusal means, or raises ValueError for one that cannot be."""
    if number not in REFUSALS:
        raise ValueError(f"there is no refusal {number}")
    if place < 0 or (place > 0 and REFUSALS[number][1] in ("file", "register")):
        raise ValueError(f"refusal {number} has no place {place}")
    least_miss = {26: 1, 27: 1}.get(number, 0)  # of the three with a unit, only 24 can miss by 0
    if -shortfall < least_miss or (shortfall != 0 and number not in SHORTFALL_UNITS):
        raise ValueError(f"refusal {number} has no shortfall {shortfall}")
    return f"{where(number, place)}: {REFUSALS[number][2]}." + how_far(number, shortfall)


def refusal_table():
    """Gives one line for each refusal."""
    places = {"record": ", one record", "row": ", one row", "state": ", one state"}
    return "\n".join(f"{number}  {file or 'register'}{places.get(counted, '')}: {wrong}"
                     for number, (file, counted, wrong) in REFUSALS.items())


def filing_in(folder):
    """Gives the desk's call that files a folder's model, or its counter file where it has one instead."""
    if not Path(folder).is_dir():
        raise ValueError(f"{folder} is not a folder")
    calls = {MODEL: f"model {MODEL}", COUNTER: f"counter {COUNTER}"}
    found = [call for name, call in calls.items() if (Path(folder) / name).exists()]
    if len(found) != 1:
        raise ValueError(f"{folder} has {'both' if found else 'neither'} {MODEL} {'and' if found else 'nor'} {COUNTER}")
    return found[0]


def desk_replies(folder, calls):
    """Gives the desk's replies to the calls, with files named from the folder on."""
    lines = "".join(call + "\n" for call in calls)
    done = subprocess.run([DESK], cwd=Path(folder), input=lines, stdout=subprocess.PIPE, encoding="ascii")
    if done.returncode:
        raise ValueError(f"the desk ended with status {done.returncode}")
    return done.stdout.splitlines()


def accepted_steps(folder, filing, row):
    """Gives a row's mean steps in 256ths, once the desk has accepted the folder's files; a refusal is told in words."""
    replies = desk_replies(folder, [filing, f"delivery {DELIVERY}", f"steps {row}"])
    for reply in replies:
        if re.fullmatch(r"refused \d+ \d+ -?\d+", reply):
            raise ValueError(f"{reply}: {explain(*map(int, reply.split()[1:]))}")
    if replies[:2] != ["accepted", "new"] or not re.fullmatch(r"value \d+", "".join(replies[2:])):
        raise ValueError(f"the desk replied {replies}")
    return int(replies[2].split()[1])


def window(steps, share):
    """Gives the least n for which 1 - r/n is at least the share, for mean steps r of steps/256."""
    return math.ceil(Fraction(steps, 256) / (1 - share))


def share_from(word):
    """Reads a share of all runs, written as 99/100."""
    if not re.fullmatch(r"[0-9]{1,9}/[0-9]{1,9}", word) or int(word.split("/")[1]) == 0:
        raise ValueError(f"'{word}' is no share: two whole numbers of at most nine digits, as 99/100")
    share = Fraction(word)
    if not 0 < share < 1:
        raise ValueError(f"the share {word} is not above 0 and below 1")
    return share


def write_command(text, folder=None):
    """Writes the files; a text that cannot be read writes none."""
    folder = Path(folder) if folder else Path(text).parent
    with open(text, encoding="utf-8-sig", errors="replace") as lines:
        files = files_from_text(lines, text)
    folder.mkdir(parents=True, exist_ok=True)
    for name, data in files.items():
        (folder / name).write_bytes(data)


def files_in(folder):
    """Gives a folder's files; a missing file counts as empty."""
    if not Path(folder).is_dir():
        raise ValueError(f"{folder} is not a folder")
    paths = {name: Path(folder) / name for name in RECORD_SIZE}
    return {name: path.read_bytes() if path.exists() else b"" for name, path in paths.items()}


def read_command(folder="."):
    """Prints the files as a text."""
    print(text_from_files(kept(files_in(folder))), end="")


def made_command(folder="."):
    """Prints the text of the files with the made model in the place of the counter file."""
    files = files_in(folder)
    if not files[COUNTER]:
        raise ValueError(f"{folder} has no {COUNTER}")
    print(text_from_files({MODEL: made_model(files[COUNTER]), DELIVERY: files[DELIVERY]}), end="")


def explain_command(*words):
    """Prints the explanation of one refusal, or the table of all."""
    try:
        numbers = [int(word) for word in words]
    except ValueError:
        raise ValueError("a refusal is three whole numbers") from None
    print(explain(*numbers) if numbers else refusal_table())


def window_command(folder, p, Z, word):
    """Prints how many steps to book, by the mean steps that the desk accepts."""
    share, row = share_from(word), f"{whole_number(p, 2)} {whole_number(Z, 2)}"
    filing = filing_in(folder)
    steps = accepted_steps(folder, filing, row)
    run, unit = (f"a run from row {row} is back", "steps")
    if filing.endswith(COUNTER):
        run, unit = (f"a run from state {whole_number(p, 2)} at the count 1 has reached 0", "moves")
    print(f"{window(steps, share)} {unit}: {run} within them with a chance of at least {word}.")
    print(f"This is the least that the theorem gives for the accepted mean of {steps}/256 {unit}: within n {unit} at least 1 - mean/n.")
    print(f"It may be generous: fewer {unit} may do.")


def main(words):
    """Runs the command that the words name and gives the exit status."""
    commands = {"write": (write_command, (1, 2)), "read": (read_command, (0, 1)), "made": (made_command, (0, 1)),
                "explain": (explain_command, (0, 3)), "window": (window_command, (4,))}
    command, counts = commands.get(words[0] if words else "", (None, ()))
    if len(words) - 1 not in counts:
        print(USAGE, *FORMS.values(), sep="\n    ", file=sys.stderr)
        return 2
    try:
        command(*words[1:])
    except (ValueError, OSError) as error:
        print(f"bounds.py: {error}", file=sys.stderr)
        return 1
    return 0


if __name__ == "__main__":
    sys.exit(main(sys.argv[1:]))
