"""Writes the stored cases: the files that the programs cases and showbounds run on in `rt ci`, and the output that the checker expects of them.

With --check it writes nothing and stops if a stored file is not what it would write.
"""
import sys
from pathlib import Path

import checker
import generate
from checker import Figures, ONE

CRATES = Path(__file__).resolve().parent.parent / "crates"
REASONS = tuple(range(10, 16)) + tuple(range(20, 28))
W_FIGURES = Figures([655360, 524288, 0, 1179648], [524288, 393216, 0, 1048576], [512, 256])


def rules(*records):
    return generate.model_file(records)


def certificate(model, upper, lower=None, mean=None):
    return generate.delivery_file(checker.table_of(model), Figures(upper, lower, mean))


def of_w(**changed):
    """W's delivery with some of its blocks changed; a block that is None is left out."""
    return certificate(generate.MODEL_W, **dict(zip(("upper", "lower", "mean"), W_FIGURES), **changed))


def shapes():
    """Each shape, with two states and with one, where the kind byte tells UL from UR."""
    one = generate.one_row_model(49152, 16384)
    strict, lower, mean = [ONE + 4096], [ONE - 2], [514]
    for name in ("U", "UL", "UR", "ULR"):
        left_out = {block: None for block, letter in (("lower", "L"), ("mean", "R")) if letter not in name}
        yield "shape %s, two states" % name, generate.MODEL_W, of_w(**left_out)
        yield "shape %s, one state" % name, one, certificate(one, strict, **{"lower": lower, "mean": mean, **left_out})
    yield "one state, an unknown kind byte counts as UR", one, certificate(one, strict, lower)[:8] + b"X" + certificate(one, strict, lower)[9:]


def model_refusals():
    w = generate.MODEL_W
    yield "no files", b"", b""
    yield "a byte too few", w[:-1], of_w()
    yield "state 8", rules((0, 0, 8, 0, 0, 0, 65536)), b""
    yield "symbol 16 under the top", rules((0, 0, 0, 2, 0, 16, 65536)), b""
    yield "three symbols pushed", rules((0, 0, 0, 3, 0, 0, 65536)), b""
    yield "Y without a push", rules((0, 0, 0, 0, 1, 0, 65536)), b""
    yield "X beside one symbol", rules((0, 0, 0, 1, 0, 1, 65536)), b""
    yield "weight 0", rules((0, 0, 0, 0, 0, 0, 0)), b""
    yield "weight 65,537", rules((0, 0, 0, 0, 0, 0, 65537)), b""
    yield "two equal records", w[:10] + w, of_w()
    yield "records descend", w[10:20] + w[:10] + w[20:], of_w()
    yield "a row without rules", rules((0, 0, 1, 0, 0, 0, 65536)), b""


def delivery_refusals():
    w, filed = generate.MODEL_W, of_w()
    yield "a record too few", w, filed[:-8]
    yield "a byte too many", w, filed + b"\0"
    yield "kind of the wrong block", w, filed[:32] + b"U" + filed[33:]
    yield "records in another order", w, filed[8:16] + filed[:8] + filed[16:]
    yield "mean steps with an exit", w, filed[:67] + b"\1" + filed[68:]
    yield "mean steps below one", w, of_w(mean=[255, 256])
    yield "mean steps above the range", w, of_w(mean=[512, 4194305])
    yield "dead upper not 0", w, of_w(upper=[655360, 524288, 1, 1179648])
    yield "dead lower not 0", w, of_w(lower=[524288, 393216, 1, 1048576])
    yield "upper equal to f, alone", w, of_w(upper=[655360, 524288, 0, 1048576], lower=None)
    yield "upper equal to f beside lowers", w, of_w(upper=[655360, 524288, 0, 1048576])
    yield "lower above its upper", w, of_w(lower=[524288, 524289, 0, 1048576])
    yield "lower above f", w, of_w(lower=[630000, 393216, 0, 1048576])


def too_long():
    """One record more than the largest files have, and files longer than any that can pass."""
    model, filed = generate.largest_model(), generate.largest_certificate()
    yield "10,250 bytes", model + model[-10:], filed
    yield "17,416 bytes", model, filed + filed[-8:]
    yield "files longer than any that can pass", bytes(20480), bytes(40960)


def stored_cases():
    for label, model, delivery, wanted in generate.documented_edges():
        got = checker.check_delivery(model, delivery)
        if any(due is not None and due != found for due, found in zip(wanted, got)):
            sys.exit("the checker does not give document 01's answer for: " + label)
        yield label, model, delivery
    for group in (shapes, model_refusals, delivery_refusals, generate.far_ends, too_long):
        yield from group()


def check_complete(cases):
    """Stops unless each reason and each shape, with one state and with more, has a case."""
    got = set()
    for _, model, delivery in cases:
        number = checker.check_delivery(model, delivery)[0]
        table = None if number else checker.table_of(model)
        got.add(number or (checker.shape_of(table, delivery), table.states == 1))
    due = set(REASONS) | {(shape, single) for shape in ("U", "UL", "UR", "ULR") for single in (True, False)}
    if due - got:
        sys.exit("no stored case for: %s" % sorted(map(str, due - got)))


def files():
    """Path under crates/ -> bytes."""
    cases = list(stored_cases())
    check_complete(cases)
    made, lines, labels = {}, [], []
    for number, (label, model, delivery) in enumerate(cases):
        for suffix, file in ((".tab", model), (".cer", delivery)):
            if file:
                made["cases/data/%03d%s" % (number, suffix)] = file
        lines.append("case %03d\n" % number + checker.printed(model, delivery))
        labels.append("%03d %s\n" % (number, label))
    made["cases/stdout"] = "".join(lines).encode()
    made["cases/data/labels.txt"] = "".join(labels).encode()
    made["showbounds/data/model.tab"], made["showbounds/data/bounds.cer"] = generate.MODEL_W, of_w()
    made["showbounds/stdout"] = checker.printed(generate.MODEL_W, of_w()).encode()
    return made


def main():
    made = files()
    found = {str(path.relative_to(CRATES)) for folder in ("cases/data", "showbounds/data") for path in (CRATES / folder).glob("*")}
    if "--check" in sys.argv[1:]:
        for name, data in made.items():
            if not (CRATES / name).exists() or (CRATES / name).read_bytes() != data:
                sys.exit("stored file is not what the checker makes: " + name)
        if "const CASES: u32 = %d;" % (made["cases/stdout"].count(b"case ")) not in (CRATES / "cases/src/main.rt").read_text():
            sys.exit("crate cases does not run as many cases as are stored")
        stray = found - set(made)
        if stray:
            sys.exit("stored files of no case: %s" % sorted(stray))
        print("stored cases: %d files as the checker makes them" % len(made))
        return
    for name in found:
        (CRATES / name).unlink()
    for name, data in made.items():
        (CRATES / name).parent.mkdir(parents=True, exist_ok=True)
        (CRATES / name).write_bytes(data)


if __name__ == "__main__":
    main()
