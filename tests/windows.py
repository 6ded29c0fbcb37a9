"""Checks the windows that `examples/bounds.py window` books (request A.7): the least n, of at least 1, for which 1 - r/n is at least the share, for accepted mean steps r.

Of W, the queue, rows of a fixed number of steps and random models, with the least mean steps that pass and with larger ones: for every row and several shares the theorem
gives the share for n, and not for n less 1; and by runs the chance of having returned within n is at least the share, where n is small enough to sum them. Each wrong window
below must be noticed by some case, and by the runs where it books far too little. With --desk, the script is run as a person would run it, on the examples and on files of some
cases, and what it cannot answer is told; and in a stand-in for the repository, with desks that do not reply as they should.
"""
import argparse
import itertools
import random
import subprocess
import sys
import tempfile
from collections import namedtuple
from fractions import Fraction
from math import ceil, floor
from pathlib import Path

ROOT = Path(__file__).resolve().parent.parent
SCRIPT = ROOT / "examples" / "bounds.py"
sys.dont_write_bytecode = True
sys.path.insert(0, str(SCRIPT.parent))
import bounds  # noqa: E402 (the folder of examples has to be on the path first)
import checker  # noqa: E402
import generate  # noqa: E402
from checker import CERTAIN  # noqa: E402

MODELS = 60  # random ones, of which those are taken that have so many rows, and mean steps that pass:
MOST_ROWS = 6
SHARES = [Fraction(word) for word in ("1/1000", "1/3", "1/2", "2/3", "9/10", "99/100", "999/1000")]
DRAWN = 3  # shares more, for a row, of each kind: any, one short of all, and of nine digits
SUMMED = 30  # steps up to which runs are summed
MOST_PLACES = 300  # places at which runs may stand there
ENOUGH_SUMMED = 1000  # windows, at least, that are held against runs
SCRIPTED = 12  # random cases whose files the script is run on

Case = namedtuple("Case", "model delivery table figures")


def fail(what):
    sys.exit("windows: " + what)


# Cases: models with accepted mean steps.

def chain(steps):
    """A model in which every run from (0, 0) takes so many steps: each symbol but the last makes way for the next."""
    return generate.model_file([(0, z, 0, int(z + 1 < steps), (z + 1) % steps, 0, 65536) for z in range(steps)])


def models(rng):
    yield from (generate.MODEL_W, checker.made_model(generate.QUEUE), *map(chain, (1, 2, 3, 5)))
    yield from (generate.one_row_model(*weights) for weights in ((49152, 16384), (60000, 5536), (65535, 1)))
    drawn = (generate.random_model(rng) for _ in range(MODELS))
    yield from (model for model in drawn if len(checker.table_of(model).rows) <= MOST_ROWS)


def larger(rng, figures):
    """Mean steps that are larger by one factor, with which the inequality holds all the more."""
    factor = Fraction(rng.randint(256, 1024), 256)
    return figures._replace(mean=[ceil(factor * mean) for mean in figures.mean])


def cases_of(rng, model):
    table = checker.table_of(model)
    for _, figures in generate.accepted_bases(rng, table):
        for found in (figures, larger(rng, figures)) if figures.mean else ():
            delivery = generate.delivery_file(table, found)
            if checker.check_delivery(model, delivery) == checker.ACCEPTED:
                yield Case(model, delivery, table, found)


def shares_for(rng):
    """Shares to ask for. Those that are one short of all, and those of nine digits, tell exact arithmetic from any other."""
    drawn = [(1, rng.randint(2, 400)) for _ in range(DRAWN)] + [(b - 1, b) for b in rng.sample(range(2, 60), DRAWN)]
    drawn += [(10 ** 8, rng.randint(2 * 10 ** 8, 10 ** 9 - 1)) for _ in range(DRAWN)]
    return SHARES + [Fraction(rng.randint(least, b - 1), b) for least, b in drawn]


# What holds of a window.

def theorem_gives(n, figure, share):
    """1 - r/n is at least the share, for mean steps r of figure/256."""
    return n >= 1 and 1 - Fraction(figure, 256) / n >= share


def is_least(n, figure, share):
    return theorem_gives(n, figure, share) and not theorem_gives(n - 1, figure, share)


def returned_within(table, row, most):
    """For n = 0, 1, ... the chance of having returned within n steps, summed over all exits; to `most`, or to where runs spread too far."""
    sums = itertools.islice(checker.sums_by_runs(table.rules, *row), most + 1)
    for n, (chances, _, places) in enumerate(sums):
        if places > MOST_PLACES:
            return
        yield Fraction(sum(chances.values()), CERTAIN ** n)


def asked(rng, cases):
    """(case, row, its figure, share) for every case and row."""
    for case in cases:
        for row, figure in zip(case.table.rows, case.figures.mean):
            yield from ((case, row, figure, share) for share in shares_for(rng))


def sums_of(cases):
    """{(model, row): the chances of having returned within 0, 1, ... steps}."""
    return {(case.model, row): list(returned_within(case.table, row, SUMMED)) for case in cases for row in case.table.rows}


def by_runs(told, sums, window):
    """Of each window that the runs are summed up to: whether the share is back."""
    for case, row, figure, share in told:
        n = window(Fraction(figure, 256), share)
        if n < len(sums[case.model, row]):
            yield sums[case.model, row][n] >= share


def right_window(r, share):
    return bounds.window(int(256 * r), share)


def check_windows(told, sums):
    """Every window is the least that the theorem gives, and true of the runs where they can be summed. Hands back how many are."""
    for _, _, figure, share in told:
        if not is_least(bounds.window(figure, share), figure, share):
            fail("%d is not the least that the theorem gives for %d/256 steps and %s" % (bounds.window(figure, share), figure, share))
    held = list(by_runs(told, sums, right_window))
    if not all(held) or len(held) < ENOUGH_SUMMED:
        fail("of %d windows that are held against runs, %d do not hold" % (len(held), held.count(False)))
    return len(held)


# Wrong windows, by the mean steps r and the share: each must be noticed.
WRONG = {
    "one step fewer": lambda r, share: ceil(r / (1 - share)) - 1,
    "one step more": lambda r, share: ceil(r / (1 - share)) + 1,
    "rounded down": lambda r, share: floor(r / (1 - share)),
    "by floating point": lambda r, share: ceil(float(r) / float(1 - share)),
    "mean steps in 256ths taken for whole ones": lambda r, share: ceil(256 * r / (1 - share)),
    "mean steps rounded down to whole ones": lambda r, share: ceil(floor(r) / (1 - share)),
    "mean steps rounded up to whole ones": lambda r, share: ceil(ceil(r) / (1 - share)),
    "by the share that is still away": lambda r, share: ceil(r / share),
    "the mean alone": lambda r, share: ceil(r),
    "a hundred times the mean whatever is asked": lambda r, share: ceil(100 * r),
}
TOO_LITTLE = ("the mean alone", "by the share that is still away")  # so much that the runs tell


def check_wrong_windows(told, sums):
    for name, window in WRONG.items():
        if all(is_least(window(Fraction(figure, 256), share), figure, share) for _, _, figure, share in told):
            fail("not noticed: " + name)
    for name in TOO_LITTLE:
        if all(by_runs(told, sums, WRONG[name])):
            fail("not noticed by the runs: " + name)


# The script, as a person runs it.

STEPS_SAID = """\
%(n)d steps: a run from row %(p)d %(Z)d is back within them with a chance of at least %(share)s.
This is the least that the theorem gives for the accepted mean of %(figure)d/256 steps: within n steps at least 1 - mean/n.
It may be generous: fewer steps may do.
"""
MOVES_SAID = """\
%(n)d moves: a run from state %(p)d at the count 1 has reached 0 within them with a chance of at least %(share)s.
This is the least that the theorem gives for the accepted mean of %(figure)d/256 moves: within n moves at least 1 - mean/n.
It may be generous: fewer moves may do.
"""


def run_script(*words, script=SCRIPT, cwd=ROOT):
    return subprocess.run([sys.executable, "-B", str(script), "window", *map(str, words)], cwd=cwd, capture_output=True, encoding="utf-8")


def check_answer(folder, row, figure, share, said=STEPS_SAID, **where):
    """The script books the least window and says what it is, word by word."""
    word = "%d/%d" % share.as_integer_ratio()
    done = run_script(folder, *row, word, **where)
    n = int("0" + done.stdout.split(" ")[0])
    due = said % {"n": n, "p": row[0], "Z": row[1], "share": word, "figure": figure}
    if done.returncode or done.stdout != due or not is_least(n, figure, share):
        fail("window %s %s %s: %r %r" % (folder, row, word, done.stdout, done.stderr))


def check_examples():
    """The examples: of a model, of a counter file, and of a supplier; the largest share that can be written; and from other folders."""
    check_answer("examples/w", (0, 0), 512, Fraction(99, 100))
    check_answer("examples/w", (1, 0), 256, Fraction(2, 3))
    check_answer("examples/queue", (0, 0), 2048, Fraction(99, 100), MOVES_SAID)
    check_answer("examples/queue", (1, 0), 2560, Fraction(1, 3), MOVES_SAID)
    check_answer("examples/suppliers/second", (0, 0), 492, Fraction(999999998, 999999999))
    check_answer("w", (1, 0), 256, Fraction(1, 2), cwd=ROOT / "examples")
    check_answer(".", (0, 0), 512, Fraction(1, 2), cwd=ROOT / "examples" / "w")
    with tempfile.TemporaryDirectory() as temporary:
        Path(temporary, "a link").symlink_to(ROOT / "examples" / "w")
        check_answer("a link", (1, 0), 256, Fraction(1, 2), cwd=temporary)


DESKS = {  # what a desk does that does not reply as it should, and what the script says then
    "exit 3": "status 3",
    "echo accepted; echo new; echo value 512; exit 3": "status 3",
    "exit 0": "replied",
    "echo; echo; echo": "replied",
    "echo accepted; echo new": "replied",
    "echo accepted; echo unclear; echo value 512": "replied",
    "echo accepted; echo new; echo unclear": "replied",
    "echo accepted; echo new; echo value 5x": "replied",
    "echo accepted; echo new; echo value 512; echo value 512": "replied",
    "echo unclear; echo refused 40 0 0; echo refused 40 0 0": "refused 40",
}


def check_desks():
    """A stand-in for the repository, with desks that do not reply as they should, and none."""
    with tempfile.TemporaryDirectory() as temporary:
        script, desk = Path(temporary, "examples", "bounds.py"), Path(temporary, "desk")
        script.parent.mkdir()
        script.write_bytes(SCRIPT.read_bytes())
        check_told("desk", ROOT / "examples/w", 0, 0, "1/2", script=script)
        for body, told in {**DESKS, "echo accepted; echo new; echo value 512": None}.items():
            desk.write_text("#!/bin/sh\ncat >/dev/null\n%s\n" % body, encoding="utf-8")
            desk.chmod(0o755)
            if told:
                check_told(told, ROOT / "examples/w", 0, 0, "1/2", script=script)
            else:
                check_answer(ROOT / "examples/w", (0, 0), 512, Fraction(1, 2), script=script)


def check_files(rng, cases):
    """Cases written to a folder, and one of them damaged."""
    with tempfile.TemporaryDirectory() as temporary:
        for at, case in enumerate(rng.sample(cases, SCRIPTED)):
            folder = Path(temporary, str(at))
            folder.mkdir()
            (folder / "model.tab").write_bytes(case.model)
            (folder / "bounds.cer").write_bytes(case.delivery)
            place = rng.randrange(len(case.table.rows))
            check_answer(folder, case.table.rows[place], case.figures.mean[place], rng.choice(shares_for(rng)))
        (folder / "bounds.cer").write_bytes(case.delivery[:-1])
        check_told("refused 20", folder, 0, 0, "1/2")
        (folder / "bounds.cer").write_bytes(generate.delivery_file(case.table, case.figures._replace(lower=None, mean=None)))
        check_told("refused 43", folder, 0, 0, "1/2")
        (folder / "counter.tab").write_bytes(generate.QUEUE)
        check_told("both", folder, 0, 0, "1/2")
        check_told("neither", temporary, 0, 0, "1/2")


def check_told(what, *words, script=SCRIPT):
    """What cannot be answered is told, a refusal with its meaning, and nothing is printed."""
    done = run_script(*words, script=script)
    if done.returncode != 1 or done.stdout or what not in done.stderr or not done.stderr.startswith("bounds.py: "):
        fail("window %s: %r %r" % (words, done.stdout, done.stderr))


def check_refusals():
    check_told("refused 27", "examples/refused/steps-too-few", 0, 0, "99/100")
    check_told("refused 15", "examples/refused/weights", 0, 0, "99/100")
    check_told("refused 48", "examples/refused/phase-weights", 0, 0, "99/100")
    check_told("refused 44", "examples/w", 2, 0, "99/100")
    check_told("not a folder", "examples/nowhere", 0, 0, "99/100")
    check_told("whole number", "examples/w", "-1", 0, "99/100")
    for share in ("1/1", "0/1", "3/2"):
        check_told("not above 0 and below 1", "examples/w", 0, 0, share)
    for share in ("1", "99%", "0.99", "1/0", "-1/2", "a/b", "1/2/3", "1/1000000000", ""):
        check_told("no share", "examples/w", 0, 0, share)


def main():
    options = argparse.ArgumentParser(description=__doc__)
    options.add_argument("--seed", type=int, default=1)
    options.add_argument("--desk", action="store_true", help="also run the script, which asks ./desk")
    options = options.parse_args()
    rng = random.Random(options.seed)
    cases = list(itertools.chain.from_iterable(cases_of(rng, model) for model in models(rng)))
    told, sums = list(asked(rng, cases)), sums_of(cases)
    summed = check_windows(told, sums)
    check_wrong_windows(told, sums)
    if options.desk:
        check_examples()
        check_desks()
        check_files(rng, cases)
        check_refusals()
    ran = "the script agrees" if options.desk else "the script was not run"
    print("windows: %d of them for %d deliveries are the least that the theorem gives, %d hold of runs; %d wrong windows noticed; %s" % (len(told), len(cases), summed, len(WRONG), ran))


if __name__ == "__main__":
    main()
