#!/usr/bin/env python3
"""Checks the examples: their files, the script bounds.py, and what the programs print for them."""

import argparse
import random
import subprocess
import sys
import tempfile
from pathlib import Path

EXAMPLES = Path(__file__).resolve().parent.parent / "examples"
SCRIPT = EXAMPLES / "bounds.py"
sys.dont_write_bytecode = True
sys.path.insert(0, str(EXAMPLES))
import bounds  # noqa: E402 (the folder of examples has to be on the path first)
import checker  # noqa: E402

NAMES = ("counter.tab", "model.tab", "bounds.cer")
SUPPLIERS = EXAMPLES / "suppliers"  # calls on the deliveries of two folders below it
SUPPLIED = ("first", "second")
NUMBERS = [*range(10, 16), *range(20, 28), *range(40, 49)]
PLACED = [*range(11, 16), *range(21, 28), 47, 48]  # the numbers that name a place
BAD_TEXTS = [  # text, the line at fault
    ("rule 0 0 -> 0 65536\nrul 0 0 -> 0 65536\n", 2),
    ("# comment\n\nrule 0 0 -> 256 65536\n", 3),
    ("rule 0 0 -> 0 4294967296\n", 1),
    ("rule 0 0 -> 0 : 65536\n", 1),
    ("rule 0 0 -> 0 : 1 2 3 65536\n", 1),
    ("rule 0 0 0 65536\n", 1),
    ("record 0 0 0 0 0 65536\n", 1),
    ("upper 0 0 0 1\nupper 0 0 1\n", 2),
    ("lower 0 0 0 -1\n", 1),
    ("steps 0 0 0 256\n", 1),
    ("kind 256 0 0 0 1\n", 1),
    ("bytes model 256\n", 1),
    ("bytes neither 1\n", 1),
    ("bytes model\n", 1),
    ("move 0 -> 0 down 65536\nmove 0 -> 0 sideways 65536\n", 2),
    ("move 0 -> 0 65536\n", 1),
    ("move 0 0 down 65536\n", 1),
    ("move 0 -> 256 up 65536\n", 1),
    ("move 0 -> 0 up 4294967296\n", 1),
    ("move 0 -> 0 2 65536\n", 1),
    ("counter 0 0 0 65536\n", 1),
    ("counter 0 0 0 256 65536\n", 1),
    ("bytes counter\n", 1),
]


def require(holds, message):
    """Ends the run with the message unless the condition holds."""
    if not holds:
        sys.exit(f"examples: {message}")


def run_script(*words):
    """Runs bounds.py as a person would."""
    command = [sys.executable, "-B", str(SCRIPT), *map(str, words)]
    return subprocess.run(command, capture_output=True, text=True, encoding="utf-8")


def files_in(folder):
    """Gives the bytes of a folder's files by name."""
    return {name: (folder / name).read_bytes() for name in NAMES if (folder / name).exists()}


def folders_with(name):
    return {path.parent for path in EXAMPLES.rglob(name)}


def example_folders():
    """Gives every folder of examples that has a model, every one that has a counter file, and every one that has calls: those with a counter file, and that of the suppliers."""
    models, counters, called = (folders_with(name) for name in ("model.tab", "counter.tab", "calls.txt"))
    require(models == folders_with("expected.txt"), "a folder lacks its model.tab or its expected.txt")
    require(called == counters | {SUPPLIERS} == folders_with("replies.txt"), "a folder lacks its calls.txt or its replies.txt")
    require(models and counters and not models & counters and models | counters == folders_with("bounds.cer"), "a folder lacks its files")
    return sorted(models), sorted(counters), sorted(called)


def check_round_trip(files, what):
    """Checks that reading gives a text which writes the same bytes and reads the same again."""
    text = bounds.text_from_files(files)
    written = bounds.files_from_text(text.splitlines())
    require(written == files, f"{what}: write(read(files)) gives other bytes")
    require(bounds.text_from_files(written) == text, f"{what}: read(write(text)) gives another text")


def check_folder(folder):
    """Checks one example's files against its text, by the commands and by the functions."""
    text, files = folder / f"{folder.name}.txt", files_in(folder)
    with tempfile.TemporaryDirectory() as temporary:
        first, second = Path(temporary, "first"), Path(temporary, "second")
        done = run_script("write", text, first)
        require(done.returncode == 0, f"{text}: {done.stderr}")
        require(files_in(first) == files, f"{folder}: the files are not what its text gives")
        printed = run_script("read", folder).stdout
        again = Path(temporary, "again.txt")
        again.write_text(printed, encoding="utf-8")
        run_script("write", again, second)
        require(files_in(second) == files, f"{folder}: the commands read and write do not round-trip")
    check_round_trip(files, folder)


def random_bytes(source, common):
    """Gives up to 60 bytes: any bytes, or mostly those that make whole, meaningful records."""
    length = source.randrange(61)
    if source.random() < 0.3:
        return source.randbytes(length)
    return bytes(source.choice(common) for _ in range(length))


def check_random_files(count):
    """Checks the round trip on random bytes, every form of line among them."""
    source, seen = random.Random(20), set()
    for turn in range(count):
        files = {"counter.tab": random_bytes(source, (0, 0, 0, 1, 2, 3)) if turn % 2 else b"", "model.tab": random_bytes(source, (0, 0, 0, 1, 2, 3)),
                 "bounds.cer": random_bytes(source, (85, 76, 82, 82, 0, 0, 1))}
        files = bounds.kept(files)
        check_round_trip(files, f"random files {turn}")
        seen |= {line.split()[0] for line in bounds.text_from_files(files).splitlines() if line}
    missing = set(bounds.FORMS) - seen
    require(not missing, f"no random file gave a line with {missing}")


def check_missing_files():
    """Checks that missing files read as empty ones."""
    with tempfile.TemporaryDirectory() as temporary:
        done = run_script("read", temporary)
    empty = bounds.text_from_files({"model.tab": b"", "bounds.cer": b""})
    require(done.returncode == 0 and done.stdout == empty, "missing files do not read as empty")


def check_bad_texts():
    """Checks that a bad text is refused with its line's number and writes nothing."""
    with tempfile.TemporaryDirectory() as temporary:
        path, folder = Path(temporary, "bad.txt"), Path(temporary, "out")
        for text, line in BAD_TEXTS:
            path.write_text(text, encoding="utf-8")
            done = run_script("write", path, folder)
            require(done.returncode == 1, f"accepted: {text!r}")
            require(f"line {line}:" in done.stderr, f"not line {line}: {done.stderr!r}")
            require(not folder.exists(), f"files were written for {text!r}")


def check_explanations():
    """Checks that each number is explained, alone and in the table, and no other number is."""
    table = run_script("explain").stdout.splitlines()
    require([int(line.split()[0]) for line in table] == NUMBERS, "the table's numbers are wrong")
    for number in NUMBERS:
        shortfall = -1 if number in (24, 26, 27) else 0
        place = 3 if number in PLACED else 0
        done = run_script("explain", number, place, shortfall)
        require(done.returncode == 0 and done.stdout.strip(), f"{number} is not explained")
        require(str(place) in done.stdout or not place, f"{number}: the place is not named")
        unit = "1/2^44 of a step" if number == 27 else "1/2^56"
        require((unit in done.stdout) == (shortfall < 0), f"{number}: the unit is wrong")
        file = {1: "model.tab", 2: "bounds.cer"}.get(number // 10, "counter.tab" if number > 45 else "the register")
        require(done.stdout.startswith(file), f"{number}: {file} is not named")
        done = run_script("explain", number, 1, 0)
        require((done.returncode == 0) == (number in PLACED and number not in (26, 27)), f"{number}: place 1 is explained, or is not")
    for number in set(range(60)) - set(NUMBERS):
        try:
            bounds.explain(number, 0, 0)
        except ValueError:
            continue
        require(False, f"{number} is explained, but is no refusal")


def check_program(program, folder):
    """Runs the program on a copy of one example's files and compares what it prints."""
    with tempfile.TemporaryDirectory() as temporary:
        for name, data in files_in(folder).items():
            Path(temporary, name).write_bytes(data)
        done = subprocess.run([program], cwd=temporary, capture_output=True, timeout=60)
    expected = (folder / "expected.txt").read_bytes()
    require(done.stdout == expected, f"{folder}: printed {done.stdout!r}, expected {expected!r}")


def check_made(folder):
    """Checks that the made model that bounds.py prints is the checker's, and that the text gives it and the delivery."""
    files = files_in(folder)
    with tempfile.TemporaryDirectory() as temporary:
        text = Path(temporary, "made.txt")
        text.write_text(run_script("made", folder).stdout, encoding="utf-8")
        run_script("write", text, Path(temporary, "made"))
        written = files_in(Path(temporary, "made"))
    require(written == {"model.tab": checker.made_model(files["counter.tab"]), "bounds.cer": files["bounds.cer"]}, f"{folder}: made gives other files")


def check_not_made():
    """Checks that files that make no model are told, and nothing is printed."""
    with tempfile.TemporaryDirectory() as temporary:
        require(run_script("made", temporary).returncode == 1, "a model is made of no counter file")
        for wrong in (bytes(7), bytes(8) + b"\0\0\3\0" + bytes(4), b"\0\0\0\1" + bytes(4)):
            Path(temporary, "counter.tab").write_bytes(wrong)
            done = run_script("made", temporary)
            require(done.returncode == 1 and not done.stdout and "counter.tab" in done.stderr, f"a model is made of {wrong!r}")


def replies_of(desk, calls):
    """Gives what a desk program replies in the repository's folder; without one, what the plain pair does."""
    command = [desk] if desk else [sys.executable, "-B", str(Path(__file__).parent / "plainpair.py")]
    return subprocess.run(command, cwd=EXAMPLES.parent, input=calls, capture_output=True, timeout=60).stdout


def check_calls(desk, folder):
    """Compares the replies to a folder's calls."""
    calls, due = (folder / "calls.txt").read_bytes(), (folder / "replies.txt").read_bytes()
    for program in {None, desk}:
        printed = replies_of(program, calls)
        require(printed == due, f"{folder}: replied {printed!r}, expected {due!r}")


def check_suppliers():
    """Checks that the two suppliers' deliveries are for one model, that of each block each is sharper at some place, and that the calls merge them, with every kind of reply."""
    files = [files_in(SUPPLIERS / name) for name in SUPPLIED]
    model, other = (found["model.tab"] for found in files)
    require(model == other, f"{SUPPLIERS}: the models are not the same")
    figures = [checker.accepted_figures(model, found["bounds.cer"]) for found in files]
    for name, one, other in zip(checker.Figures._fields, *figures):
        require(any(a < b for a, b in zip(one, other)) and any(a > b for a, b in zip(one, other)), f"{SUPPLIERS}: one of the two is nowhere sharper in {name}")
    calls, replies = ((SUPPLIERS / name).read_text(encoding="utf-8").splitlines() for name in ("calls.txt", "replies.txt"))
    merged = [reply.split()[:2] for call, reply in zip((call for call in calls if not call.startswith("#")), replies) if call.startswith("merge ")]
    require({words[-1] for words in merged} == {"40", "42", "24", "new", "known"}, f"{SUPPLIERS}: not every kind of reply to a merge: {merged}")


def check_refusals_explained(folders):
    """Checks that a refusal in expected.txt stands alone, and that bounds.py explains every one, also those in replies.txt."""
    for folder in folders:
        path = next(folder / name for name in ("expected.txt", "replies.txt") if (folder / name).exists())
        lines = path.read_text(encoding="utf-8").splitlines()
        refusals = [line.split() for line in lines if line.startswith("refused")]
        require(len(lines) == 1 or not refusals or path.name == "replies.txt", f"{folder}: expected.txt is not one refusal")
        for _, *words in refusals:
            done = run_script("explain", *words)
            require(len(words) == 3 and done.returncode == 0, f"{folder}: {done.stderr}")


def main():
    """Runs all checks; the first failure ends the run with exit status 1."""
    parser = argparse.ArgumentParser(description=__doc__)
    parser.add_argument("--program", metavar="FILE", help="also run this showbounds on each example")
    parser.add_argument("--desk", metavar="FILE", help="also run this desk on the calls of each example that has some")
    options = parser.parse_args()
    program, desk = (path and str(Path(path).resolve()) for path in (options.program, options.desk))
    models, counters, called = example_folders()
    folders = models + counters
    for folder in folders:
        check_folder(folder)
    for folder in models if program else []:
        check_program(program, folder)
    for folder in counters:
        check_made(folder)
    for folder in called:
        check_calls(desk, folder)
    check_suppliers()
    check_not_made()
    check_refusals_explained(folders + [SUPPLIERS])
    check_random_files(300)
    check_missing_files()
    check_bad_texts()
    check_explanations()
    ran = "with the programs' output" if program and desk else "with one program's output" if program or desk else "no program run"
    print(f"examples: {len(folders)} folders, {len(called)} lists of calls, 300 random files, {len(BAD_TEXTS)} bad texts,"
          f" {len(NUMBERS)} refusals explained, {ran}: all as expected")


if __name__ == "__main__":
    main()
