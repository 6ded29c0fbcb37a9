"""Compares the archive and the program with the independent checker, case by case, and holds accepted figures against runs."""
import argparse
import struct
import subprocess
import sys
import tempfile
import time
from collections import Counter
from pathlib import Path

import checker
import generate
import soundness

FEWEST = 20  # cases that every reason and every accepted shape must get
ENOUGH = 24000  # cases from which on they must get them, and models be enough
MOST_SHOWN = 5  # mismatches shown before giving up
DELIVERIES_JUDGED = 1000  # accepted deliveries held against runs, at most
DELIVERIES_OF_A_MODEL = 3  # of these, at most
MODELS_JUDGED = 300  # models that these must come from, at least
REASONS = tuple(range(10, 16)) + tuple(range(20, 28))
SHARED_MEMORY = Path("/dev/shm")


class Host:
    """The compiled host; a case is sent first and its answer read later, so that the checker works meanwhile."""

    def __init__(self, build, work, options):
        source, binary = Path(__file__).with_name("host.c"), Path(build) / "host"
        subprocess.run(["gcc", "-std=c11", "-O2", "-Wall", "-Wextra", "-Werror", "-I", options.include, source, options.archive, "-o", binary], check=True)
        self.process = subprocess.Popen([binary, options.program, work], stdin=subprocess.PIPE, stdout=subprocess.PIPE)

    def send(self, model, delivery):
        self.process.stdin.write(struct.pack("<II", len(model), len(delivery)) + model + delivery)
        self.process.stdin.flush()

    def answer(self):
        """(model code, delivery code, shortfall, printed bytes)."""
        line = self.process.stdout.readline().split()
        if len(line) != 4:
            sys.exit("the host gave no whole answer")
        *codes, length = map(int, line)
        return (*codes, self.process.stdout.read(length))

    def close(self):
        self.process.stdin.close()
        if self.process.stdout.read() or self.process.wait() != 0:
            sys.exit("the host did not end well")


def expected(model, delivery):
    """What the checker answers, in the host's form."""
    model_number, model_place = checker.check_model(model)
    number, place, shortfall = checker.check_delivery(model, delivery)
    return model_number * 65536 + model_place, number * 65536 + place, shortfall, checker.printed(model, delivery).encode()


def shortened(file):
    return "%d bytes %s%s" % (len(file), file[:160].hex(), "..." if len(file) > 160 else "")


def show_mismatch(label, model, delivery, wanted, got):
    print("MISMATCH in case:", label)
    for name, answer in (("checker", wanted), ("got", got)):
        print("  %-8s model %d/%d delivery %d/%d shortfall %d" % (name, *divmod(answer[0], 65536), *divmod(answer[1], 65536), answer[2]))
        print("           printed", answer[3][:300])
    print("  model   ", shortened(model))
    print("  delivery", shortened(delivery))


def kind_of(model, delivery, code):
    """The row of the table that a case counts for: its reason, or its shape."""
    if code:
        return code // 65536
    table = checker.table_of(model)
    return "accepted %s%s" % (checker.shape_of(table, delivery), ", one state" if table.states == 1 else "")


def check_documented_edges():
    """Stops unless the checker gives document 01's own answers; the archive is compared with the checker on the same cases."""
    for label, model, delivery, wanted in generate.documented_edges():
        answer = checker.check_delivery(model, delivery)
        if any(want is not None and want != got for want, got in zip(wanted, answer)):
            sys.exit("edge %s: document 01 says %s, the checker %s" % (label, wanted, answer))
    for label, model, wanted in generate.neighbours():
        if checker.check_model(model) != wanted:
            sys.exit("order of records, %s: document 01 says %s, the checker %s" % (label, wanted, checker.check_model(model)))


def worth_judging(chosen, model, delivery):
    """Whether a delivery has a block after U, a small model, and few others of that model chosen; cases of a model come one after another."""
    of_this_model = [pair for pair in chosen[-DELIVERIES_OF_A_MODEL:] if pair[0] == model]
    if len(of_this_model) == DELIVERIES_OF_A_MODEL or checker.shape_of(checker.table_of(model), delivery) == "U":
        return False
    return (model, delivery) not in of_this_model and soundness.is_small(model)


def compare_all(host, seed, count):
    """(cases by kind, small deliveries that the archive accepted); exits on mismatches."""
    kinds, accepted, mismatches = Counter(), [], 0
    for label, model, delivery in generate.cases(seed, count):
        host.send(model, delivery)
        wanted = expected(model, delivery)
        got = host.answer()
        if got != wanted:
            show_mismatch(label, model, delivery, wanted, got)
            mismatches += 1
            if mismatches == MOST_SHOWN:
                break
            continue
        kinds[kind_of(model, delivery, got[1])] += 1
        if got[1] == 0 and len(accepted) < DELIVERIES_JUDGED and worth_judging(accepted, model, delivery):
            accepted.append((model, delivery))
    if mismatches:
        sys.exit(1)
    return kinds, accepted


def demand(met, count, what, missing=""):
    """Exits where a demand on all cases together is not met; says that it was skipped where there are too few for it."""
    if count < ENOUGH:
        print("skipped, for which %d cases are needed: %s" % (ENOUGH, what))
    elif not met:
        sys.exit("not so: %s %s" % (what, missing))


def show_kinds(kinds, count):
    """Prints the table; no kind may be too rare."""
    shapes = ["accepted %s%s" % (shape, tail) for shape in checker.SHAPES for tail in ("", ", one state")]
    for kind in [*REASONS, *shapes]:
        print("%-24s %6d" % (kind, kinds[kind]))
    rare = [kind for kind in [*REASONS, *shapes] if kinds[kind] < FEWEST]
    demand(not rare, count, "every kind has at least %d cases" % FEWEST, rare)


def judge_accepted(accepted, count):
    """Holds the deliveries against runs; exits on a fault. There may not be too few."""
    models, noticed = set(), Counter()
    for model, delivery in accepted:
        faults, kinds = soundness.judge(model, delivery)
        if faults:
            sys.exit("UNSOUND %s\n  model    %s\n  delivery %s" % (faults[:3], shortened(model), shortened(delivery)))
        models.add(model)
        noticed.update(kinds)
    print("held against runs: %d deliveries of %d models; false figures noticed: %s" % (len(accepted), len(models), dict(noticed)))
    demand(len(models) >= MODELS_JUDGED, count, "at least %d models are held against runs" % MODELS_JUDGED)
    demand(all(noticed[kind] >= FEWEST for kind in soundness.NOTICED), count, "at least %d times a false figure of each block, and each wrong tail, is noticed" % FEWEST)


def positive(word):
    number = int(word)
    if number < 1:
        raise ValueError
    return number


def main():
    options = argparse.ArgumentParser(description=__doc__)
    options.add_argument("--seed", type=int, default=1)
    options.add_argument("--count", type=positive, default=ENOUGH)
    options.add_argument("--archive", required=True, help="libbounds.a")
    options.add_argument("--include", required=True, help="the folder of bounds.h")
    options.add_argument("--program", required=True, help="the showbounds program")
    options, start = options.parse_args(), time.monotonic_ns()
    check_documented_edges()
    with tempfile.TemporaryDirectory() as build, tempfile.TemporaryDirectory(dir=SHARED_MEMORY if SHARED_MEMORY.is_dir() else None) as work:
        host = Host(build, work, options)
        kinds, accepted = compare_all(host, options.seed, options.count)
        host.close()
    show_kinds(kinds, options.count)
    compared = time.monotonic_ns()
    judge_accepted(accepted, options.count)
    print("%d cases agree in %d s; runs took %d s" % (sum(kinds.values()), (compared - start) // 10**9, (time.monotonic_ns() - compared) // 10**9))


if __name__ == "__main__":
    main()
