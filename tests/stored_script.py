"""Writes the stored script: the lines and the files that the program desk runs on in `rt ci`, and the output that the plain pair expects of them.

With --check it writes nothing and stops if a stored file is not what it would write. --to FOLDER has them in another folder than crates/desk.
"""
import argparse
import itertools
import posixpath
import sys
from pathlib import Path

import checker
import generate
import plainpair
import scripts
from stored import certificate, of_w, rules

CRATE = Path(__file__).resolve().parent.parent / "crates" / "desk"
QUESTIONS = ["upper 0 0 0", "lower 0 0 0", "steps 0 0", "margin", "live 0 0 0", "within 3 0 0 0"]
STEPS = range(5)  # that a short chance is asked for: 0 to 3, and 4, which is refused
REPLIES = {"cleared", "accepted", "known", "new", "value", "refused", "unclear", None}
SHAPES_OF_W = {"w-u": {"lower": None, "mean": None}, "w-ul": {"mean": None}, "w-ur": {"lower": None}, "w": {}}  # the four shapes, by what each lacks
OTHERS = {"least": {"upper": [655360, 466034, 0, 1179648]}, "first": {"upper": [655361, 524288, 0, 1179648]}, "lowers": {"lower": [524288, 262144, 0, 1048576]},
          "zeros": {"lower": [0, 0, 0, 0]}, "one-two": {"lower": [1, 2, 0, 0]}, "two-one": {"lower": [2, 1, 0, 0]},
          "486": {"mean": [486, 256]}}  # a block of W that is accepted too
# The blocks of another supplier of W, who is sharper at some places, and the names of the files of the four shapes with them.
SECOND = {"upper": [638976, 540672, 0, 1310720], "lower": [581632, 262144, 0, 1048576], "mean": [500, 300]}
SECOND_FILES = ("second-u", "second-ul", "second-ur", "second")
# Another last record of each shape.
LAST = {"w-u": {"upper": [655360, 524288, 0, 1179649]}, "w-ul": {"lower": [524288, 393216, 0, 1048575]}, "w-ur": {"mean": [512, 257]}, "w": {"mean": [512, 257]}}


# The files.

def pairs():
    """Three states and two symbols; rules that push two symbols, of which the upper may leave in any of several states."""
    return rules((0, 0, 1, 0, 0, 0, 20000), (0, 0, 1, 2, 1, 0, 30001), (0, 0, 2, 1, 1, 0, 15535),
                 (0, 1, 0, 0, 0, 0, 32769), (0, 1, 2, 0, 0, 0, 1), (0, 1, 2, 2, 0, 1, 32766),
                 (1, 0, 0, 0, 0, 0, 65535), (1, 0, 1, 2, 0, 0, 1),
                 (1, 1, 0, 0, 0, 0, 10000), (1, 1, 1, 0, 0, 0, 20000), (1, 1, 2, 0, 0, 0, 30000), (1, 1, 2, 2, 1, 1, 5536),
                 (2, 0, 0, 2, 1, 0, 3), (2, 0, 1, 0, 0, 0, 65533),
                 (2, 1, 0, 1, 0, 0, 4096), (2, 1, 2, 0, 0, 0, 61440))


def model_files():
    w, large = generate.MODEL_W, generate.largest_model()
    return {
        "w.tab": w, "one.tab": generate.one_row_model(49152, 16384), "modèle-表.tab": w, "large.tab": large,
        "10.tab": w[:-1], "11.tab": rules((0, 0, 8, 0, 0, 0, 65536)), "12.tab": rules((0, 0, 0, 0, 0, 0, 32768), (0, 0, 0, 1, 0, 1, 32768)),
        "13.tab": rules((0, 0, 0, 0, 0, 0, 65537)), "14.tab": w[:10] + w, "15.tab": rules((0, 0, 1, 0, 0, 0, 65536)),
        "longer.tab": large + large[-10:], "empty": b"", "sub/w.tab": w, "pairs.tab": pairs(),
    }


def counter_files():
    """Accepted ones, and refused ones by the number, what is wrong and where."""
    def moves(*records):
        return generate.counter_file(records)
    queue, most, ladder = generate.QUEUE, generate.largest_counter(), [(u, u, 0, 65536) for u in range(8)]
    accepted = {"queue.ctr": queue, "one.ctr": moves((0, 0, 0, 65536)), "192.ctr": most, "eight.ctr": moves(*ladder), "uvd.ctr": moves((0, 1, 0, 65536), (1, 0, 0, 65536))}
    wrong = {
        "46-cut.ctr": queue[:-1], "46-longer.ctr": queue + b"\0", "46-half.ctr": queue[:-4], "46-193.ctr": most + most[-8:], "46-byte.ctr": most + b"\0", "46-twice.ctr": most * 2,
        "47-u.ctr": moves((8, 0, 0, 65536)), "47-v.ctr": moves((0, 0, 0, 32768), (0, 8, 0, 32768)), "47-d.ctr": moves((0, 0, 0, 32768), (0, 0, 2, 1), (0, 0, 3, 32767)),
        "47-fourth.ctr": queue[:3] + b"\1" + queue[4:], "47-none.ctr": moves((0, 0, 0, 65536), (0, 0, 1, 0)), "47-much.ctr": moves((0, 0, 0, 65537)), "47-byte.ctr": moves((0, 0, 0, 2**24)),
        "47-equal.ctr": queue[:8] + queue, "47-falls.ctr": queue[8:16] + queue[:8] + queue[16:], "47-vud.ctr": moves((0, 0, 0, 32768), (1, 0, 0, 65536), (0, 1, 0, 32768)),
        "47-last.ctr": moves(*ladder[:7], (7, 7, 0, 0)), "47-and-48.ctr": moves((0, 0, 0, 1), (0, 0, 3, 1)),
        "48-less.ctr": moves((0, 0, 0, 65535)), "48-more.ctr": moves((0, 0, 0, 65536), (0, 0, 1, 1)), "48-v.ctr": moves((0, 1, 0, 65536)), "48-gap.ctr": moves((0, 0, 0, 65536), (2, 2, 0, 65536)),
        "48-first.ctr": moves((1, 1, 0, 65536)), "48-last.ctr": moves(*ladder[:7], (7, 7, 0, 1)),
    }
    made = checker.made_model(queue)
    others = {"queue.tab": made, "queue.cer": generate.queue_delivery(), "queue-ul.cer": generate.queue_delivery(mean=None),
              "queue-second.cer": generate.queue_delivery(upper=[735232, 372736, 229376, 888832], lower=[692224, 303104, 172032, 811008], mean=[2304, 2432]),
              "queue-24.cer": generate.queue_delivery(upper=[688128, 311296, 172032, 811008])}
    return {**accepted, **wrong, **others}


def others_of_w():
    """(a shape's name, {the name of another delivery of this shape: its blocks}), each with one block that is not W's."""
    for name, lacks in SHAPES_OF_W.items():
        yield name, {"%s-%s" % (name, label): {**lacks, **block} for label, block in {**OTHERS, "last": LAST[name]}.items() if not set(block) & set(lacks)}


def delivery_files():
    filed, one, large = of_w(), generate.one_row_model(49152, 16384), generate.largest_certificate()
    of_shapes = {name + ".cer": of_w(**lacks) for name, lacks in SHAPES_OF_W.items()}
    others = {other + ".cer": of_w(**blocks) for _, made in others_of_w() for other, blocks in made.items()}
    accepted = {
        **of_shapes, **others, "one-ul.cer": certificate(one, [1052672], [1048574]), "one-ur.cer": certificate(one, [1048576], mean=[512]),
        "one-ul-514.cer": certificate(one, [1052672], [514]), "one-ur-514.cer": certificate(one, [1052672], mean=[514]),
        "large.cer": large, "large-289.cer": generate.largest_certificate(mean=289), "large-second.cer": generate.largest_certificate(upper=16400, lower=16000, mean=289),
        **{name + ".cer": of_w(**{**SECOND, **lacks}) for name, lacks in zip(SECOND_FILES, SHAPES_OF_W.values())},
        "w-and-second.cer": of_w(upper=[638976, 524288, 0, 1179648], lower=[581632, 393216, 0, 1048576], mean=[500, 256]),
    }
    refused = {
        "20.cer": filed[:-8], "20-longer.cer": filed + b"\0", "21.cer": filed[:32] + b"U" + filed[33:], "22.cer": of_w(upper=[2097153, 524288, 0, 1179648]),
        "23.cer": of_w(upper=[655360, 524288, 1, 1179648]), "24.cer": of_w(upper=[655360, 466033, 0, 1179648]),
        "25.cer": of_w(lower=[524288, 524289, 0, 1048576]), "26.cer": of_w(lower=[630000, 393216, 0, 1048576]), "27.cer": of_w(mean=[485, 256]),
        "longer.cer": large + large[-8:],
    }
    return {**accepted, **refused}


# The lines, each group with a comment of its own. Calls are text; lines with other bytes are bytes.

def empty_register():
    yield from ("# An empty register: 40 to all but a model and a clearing, whatever the file.", "clear", "clear", *QUESTIONS)
    yield from ("upper 999999999 999999999 999999999", "within 0 0 0 0", "within 4 0 0 0", "within 4 9 9 9", "delivery w.cer", "delivery gone", "delivery sub", "delivery empty")
    yield from ("merge w.cer", "merge gone", "merge sub", "merge empty")


def refused_models():
    yield "# Models that are refused, and files that are missing, empty, a folder or too long."
    for name in ("10", "11", "12", "13", "14", "15", "longer"):
        yield "model %s.tab" % name
    yield from ("model gone", "model empty", "model sub", "model w.cer", "model .", "live 0 0 0")


def model_alone():
    yield from ("# W, and a second model: 41 whatever the file. Without a delivery: 42, but for live marks and short chances.", "model w.tab", "model w.tab", "model gone", "model 10.tab")
    yield from (*QUESTIONS, "live 1 0 0", "live 0 0 1", "live 1 0 1", "live 2 0 0", "live 0 1 0", "live 0 0 2", "upper 2 0 0", "lower 0 1 0", "steps 9 9")
    yield from ("merge w.cer", "merge 24.cer", "merge gone", "merge sub", "merge empty", "upper 0 0 0")


def short_chances():
    yield "# W's short chances, of a model alone: all entries within 0 to 3 steps. From 4 on 45, but 44 first."
    yield from ("within %d %d 0 %d" % (n, p, q) for n in STEPS for p in range(2) for q in range(2))
    yield from ("within %d %s" % (n, entry) for n in (3, 4, 999999999) for entry in ("2 0 0", "0 1 0", "0 0 2", "999999999 0 0"))
    yield from ("within %s 0 0 0" % n for n in ("000000003", "03", "004", "5", "10", "13", "255", "256", "259", "65536", "65539", "16777219", "999999999", "0000000003", "4294967299"))


def short_chances_of_pairs():
    yield from ("# The short chances of a model with pairs, all entries; 40 before 44 and 45.", "clear", "within 3 0 0 0", "within 4 0 0 0", "within 4 9 9 9", "model pairs.tab")
    yield from ("within %d %d %d %d" % (n, p, z, q) for n in STEPS for p in range(3) for z in range(2) for q in range(3))
    yield from ("within 3 3 0 0", "within 3 0 2 0", "within 3 0 0 3", "within 4 3 0 0", "within 4 0 2 0", "within 4 0 0 3", "upper 0 0 0")


def counters():
    yield "# Counter files that are refused leave the register empty; so do those that are missing, empty, a folder or too long, and a model."
    yield from ("clear", *("counter %s" % name for name in counter_files() if name[0] == "4"), "counter gone", "counter empty", "counter sub", "counter .", "counter large.tab", "counter w.tab")
    yield from ("model queue.ctr", "counter queue.tab", "live 0 0 0", "delivery queue.cer")
    yield from ("# The queue: its model is held, so that any further model or counter file is 41, whatever the file.", "counter queue.ctr", "counter queue.ctr", "counter 46-cut.ctr", "counter gone")
    yield from ("model queue.tab", "model gone", *QUESTIONS)
    yield from ("within %d %d 0 %d" % (n, u, v) for n in STEPS for u in range(2) for v in range(2))
    yield from ("live 0 0 0", "live 1 0 0", "live 2 0 0", "live 0 1 0", "live 0 0 2", "within 3 0 1 0", "within 3 2 0 0", "delivery w.cer", "delivery queue-24.cer", "upper 0 0 0")
    yield from ("delivery queue.cer", *("%s %d 0 %d" % (name, u, v) for name in ("lower", "upper") for u in range(2) for v in range(2)), "steps 0 0", "steps 1 0", "margin")
    yield from ("delivery queue-24.cer", "margin", "delivery queue.cer", "delivery queue-ul.cer", "steps 0 0", "margin", "delivery queue.cer", "counter queue.ctr", "margin")
    yield "# Merges beside the queue: with its own bounds, and with a second supplier's."
    yield from ("merge queue.cer", "merge queue-ul.cer", "merge queue-24.cer", "merge w.cer", "margin", "merge queue-second.cer")
    yield from (*("%s %d 0 %d" % (name, u, v) for name in ("lower", "upper") for u in range(2) for v in range(2)), "steps 0 0", "steps 1 0", "margin", "merge queue-second.cer")


def counters_as_models():
    yield "# The model that the queue makes, filed as a model, gets the same replies."
    yield from ("clear", "model queue.tab", "counter queue.ctr", *("within 3 %d 0 %d" % (u, v) for u in range(2) for v in range(2)), "delivery queue.cer", "margin", "upper 1 0 0")
    yield "# Other counter files: one state, eight states, states that are not in order of v, and all 192 moves."
    for name in ("one", "eight", "uvd", "192"):
        yield from ("clear", "counter %s.ctr" % name, *QUESTIONS, "within 2 0 0 1", "within 3 1 0 0", "live 7 0 7", "live 8 0 0", "within 3 7 0 0")
    yield from ("clear", "margin", "model w.tab", "delivery w.cer", "counter queue.ctr", "margin", "clear", "counter", "counter ", "counter queue.ctr ", "counter  queue.ctr", " counter queue.ctr")
    yield from ("Counter queue.ctr", "counters queue.ctr", "counte queue.ctr", "counterqueue.ctr", "counter queue.ctr queue.ctr", "counter " + "n" * 255, "counter " + "n" * 256)
    yield from ("counter 表.ctr", b"counter \x80\xff", b"counter queue\0.ctr", b"counter queue.ctr\r", "counter #gone", "counter ./" + "./" * 120 + "queue.ctr", "within 3 0 0 0", "clear")


def refused_deliveries():
    yield "# Deliveries that are refused, first with none held, then with W's, which stays."
    names = [name for name in delivery_files() if name[0] == "2"]
    yield from ("delivery %s" % name for name in [*names, "one-ul.cer", "large.cer", "longer.cer", "empty", "gone", "sub", "w.tab"])
    yield from ("upper 0 0 0", "delivery w.cer", "margin")
    yield from (line for name in names for line in ("delivery %s" % name, "margin"))


def all_of_w():
    yield "# W's numbers as document 01 has them."
    entries = [(p, q) for p in range(2) for q in range(2)]
    yield from ("%s %d 0 %d" % (name, *entry) for name in ("lower", "upper", "live") for entry in entries)
    yield from ("steps 0 0", "steps 1 0", "margin")


def marks_and_shapes():
    yield "# The four shapes with the same uppers: each is new after another, and known when it comes again (request A.3); 44 comes before 43."
    for name in SHAPES_OF_W:
        yield from ("delivery %s.cer" % name, *QUESTIONS, "delivery %s.cer" % name)
    yield from ("delivery w-u.cer", "lower 2 0 0", "lower 0 1 0", "lower 0 0 2", "steps 0 1", "steps 2 0", "delivery w-u.cer", "delivery w.cer")
    yield "# Every shape after every other."
    yield from ("delivery %s.cer" % name for pair in itertools.permutations(SHAPES_OF_W, 2) for name in pair)


def marks_and_records():
    yield "# The same shape with other uppers, lowers or mean steps, with another first or last record: new, and what is asked is of the new one."
    asked = ("upper 0 0 0", "upper 0 0 1", "upper 1 0 1", "lower 0 0 1", "lower 1 0 1", "steps 0 0", "steps 1 0", "margin")
    for name, other in ((name, other) for name, made in others_of_w() for other in made):
        yield from ("delivery %s.cer" % name, "delivery %s.cer" % other, *asked, "delivery %s.cer" % other, "delivery %s.cer" % name)
    yield "# Lowers of zeros, and no lowers: each is new after the other."
    yield from ("delivery %s.cer" % name for pair in (("w-u", "w-ul-zeros"), ("w-ur", "w-zeros")) for name in (*pair, *pair))
    yield "# The same numbers in another order: each is new after the other."
    yield from ("delivery %s-%s.cer" % (name, order) for name in ("w-ul", "w") for order in ("one-two", "two-one") * 2)


def marks_and_calls():
    yield "# After refused deliveries and models, questions and lines that are no call, the held delivery is known; after another delivery it is new."
    yield from ("delivery w.cer", "delivery w.cer", "delivery 24.cer", "delivery w.cer", "delivery gone", "delivery 20.cer", "model w.tab", "counter queue.ctr", "margin", "known")
    yield from ("delivery w.cer", "delivery 27.cer", "delivery w-486.cer", "delivery w.cer", "delivery w-u.cer", "delivery w-ur.cer", "delivery w.cer", "delivery ./w.cer")


def merges():
    yield "# Merges (request A.5): every shape with every other. Lowers where both have them, mean steps where either has; what is merged is held, and known when merged again."
    asked = ("upper 0 0 0", "upper 0 0 1", "upper 1 0 1", "lower 0 0 0", "lower 0 0 1", "steps 0 0", "steps 1 0", "margin")
    for held, second in itertools.product(SHAPES_OF_W, SECOND_FILES):
        yield from ("delivery %s.cer" % held, "merge %s.cer" % second, *asked, "merge %s.cer" % second, "merge %s.cer" % held)
    yield "# The second first, with itself, with what it has already, with what has all that it has, and with a third."
    yield from ("delivery second.cer", "merge w.cer", *asked, "delivery w-and-second.cer", "merge second.cer", "delivery w.cer", "merge w.cer", "merge w-lowers.cer", "merge w-u-first.cer")
    yield from ("merge w-and-second.cer", *asked, "delivery w.cer", "merge w-least.cer", "upper 0 0 1", "margin", "merge w-486.cer", "steps 0 0", "merge second.cer", *asked)


def refused_merges():
    yield "# A second delivery that is refused changes nothing."
    for name in (name for name in delivery_files() if name[0] == "2"):
        yield from ("merge %s" % name, "margin", "upper 0 0 0")
    yield from ("merge gone", "merge empty", "merge sub", "merge w.tab", "merge large.cer", "merge one-ul.cer", "merge second.cer", "margin", "merge 24.cer", "delivery w.cer", "margin")


def merges_after_clearing():
    yield from ("# After a clearing there is nothing to merge with.", "merge second.cer", "clear", "merge second.cer", "merge gone", "model w.tab", "merge second.cer", "merge gone")
    yield from ("upper 0 0 0", "delivery second.cer", "merge second.cer", "merge w.cer", "clear", "model w.tab", "merge w.cer", "delivery w.cer")
    yield "# Lines that are no merge."
    yield from ("merge", "merge ", "merge second.cer ", " merge second.cer", "merge  second.cer", "merge second.cer second.cer", "merge second.cer w.cer", "Merge second.cer", "merg second.cer")
    yield from ("merges second.cer", "merged second.cer", "mergesecond.cer", "merge\tsecond.cer", "merge " + "n" * 255, "merge " + "n" * 256)
    yield from (b"merge second\0.cer", b"merge second.cer\r", b"merge \x80\xff")
    yield from ("upper 0 0 0", "merge ./" + "./" * 120 + "second.cer", "upper 0 0 0", "merge sub/../second.cer", "margin")


def clearing():
    yield from ("# A clearing drops both files: the next delivery is new.", "clear", "margin", "delivery w.cer", "model w.tab", "margin", "delivery w.cer", "delivery w.cer")


def numbers():
    yield "# Numbers: leading zeros, nine digits, and those that would be in range by their last digit or their low bits."
    for word in ("0", "00", "000000000", "000000001", "1", "2", "10", "256", "257", "65536", "16777216", "999999999", "100000000", "0000000000", "1000000000", "4294967296"):
        yield "upper %s 0 1" % word
    for word in ("", "-0", "+1", "1a", "a", "0x0", "1.0", "1_0", "1,0", "/", ":", "٣", "1e0", "\u00a01"):
        yield "upper 0 0 %s" % word


def paths():
    long = "./" * 125 + "w.tab"
    yield from ("# Paths: in UTF-8, of 255 bytes, of 256 bytes, none, in a folder, by a longer way.", "clear", "model modèle-表.tab", "clear", "model " + long, "clear")
    yield from ("model ./" + long, "model /" + "./" * 124 + ".//gone", "delivery " + "n" * 255, "delivery " + "n" * 256, "model", "model ", "delivery", "delivery ")
    yield from ("model sub/w.tab", "clear", "model ./sub/../w.tab", "model #gone", b"model \x80\xff", b"delivery \xff\xfe", "delivery w.cer", "margin")


def unclear_words():
    yield "# Lines that are no call change nothing."
    yield from (" ", "  ", " clear", "clear ", "  clear", "clear  ", "clear clear", "clear 0", "Clear", "CLEAR", "clea", "clears", "cleared", "\u00e7lear", "value 3", "known", "help")
    yield from ("margin 0", "margin margin", "Margin", "margin ", "upper", "upper 0", "upper 0 0", "upper 0 0 0 0", "upper 0 0 0 0 0 0", "upper  0 0 0", "upper 0  0 0", "upper 0 0  0")
    yield from (" upper 0 0 0", "upper 0 0 0 ", "Upper 0 0 0", "uppe 0 0 0", "uppers 0 0 0", "lower 0 0", "lower 0 0 0 0", "steps 0", "steps 0 0 0", "steps  0 0", "live 0 0")
    yield from ("live 0 0 0 0", "model w.tab w.tab", "model  w.tab", " model w.tab", "model w.tab ", "Model w.tab", "delivery w.cer w.cer", "delivery  w.cer", "modelw.tab", "margin")
    yield from ("within", "within 3", "within 3 0 0", "within 3 0 0 0 0", "within  3 0 0 0", " within 3 0 0 0", "within 3 0 0 0 ", "Within 3 0 0 0", "withi 3 0 0 0", "withins 3 0 0 0")
    yield from ("within -1 0 0 0", "within 3 0 0 q", "within 3,0,0,0", "within3 0 0 0", "within 3 0 0 0")


def unclear_bytes():
    yield "# Control bytes in a call, at its end, for a space and in a path; bytes from 128 on in a name and in a number."
    for byte in scripts.CONTROLS:
        yield b"margin" + bytes([byte])
    for byte in (b"\0", b"\r", b"\x7f"):
        yield from (byte + b"clear", b"cl" + byte + b"ear", b"upper" + byte + b"0 0 0", b"delivery w" + byte + b".cer", byte)
    for byte in (b"\x80", b"\xff"):
        yield from (b"margin" + byte, b"upper 0 0 " + byte, byte)
    yield b"upper\t0\t0\t0"
    yield "margin"


def lengths():
    yield "# Long lines get one reply each; comments and empty lines get none, however long and whatever their bytes."
    for length in (264, 265, 300, 301):
        yield from ("delivery ".ljust(length, "n"), "margin".ljust(length), "#".ljust(length, "c"))
    yield from ("c" * 66000, "# clear " * 200, "", "", "#", "##", "#clear", "# clear", b"#\0\x01\t\x7f\xff\r", b"#" + bytes(1000), " #", " # clear", "clear # now", "margin")


def largest():
    yield from ("# The largest files.", "clear", "model longer.tab", "model large.tab", "delivery w.cer", "delivery longer.cer", "delivery large.cer", "delivery large.cer", "margin")
    yield from ("delivery large-289.cer", "steps 7 15", "delivery large-289.cer", "delivery large.cer")
    yield from ("merge large-289.cer", "merge longer.cer", "merge w.cer", "merge large-second.cer", "upper 7 15 7", "lower 7 15 7", "steps 7 15", "margin", "delivery large.cer")
    yield from ("upper 7 15 7", "lower 7 15 7", "steps 7 15", "live 7 15 7", "upper 0 0 0", "upper 7 0 0", "upper 0 15 0", "upper 0 0 7", "steps 7 0", "steps 0 15")
    yield from ("upper 8 0 0", "upper 0 16 0", "upper 0 0 8", "lower 7 15 8", "steps 8 0", "steps 0 16", "live 8 15 7", "live 7 16 7")
    yield from ("within 3 7 15 7", "within 2 7 15 7", "within 1 7 15 7", "within 3 7 15 0", "within 3 0 0 0", "within 3 8 15 7", "within 3 7 16 7", "within 3 7 15 8", "within 4 7 15 7")


def one_state():
    yield from ("# One state: the kind byte tells UL from UR. The last line has no newline.", "clear", "model one.tab", "delivery w.cer", "delivery one-ul.cer", *QUESTIONS)
    yield from ("delivery one-ur.cer", *QUESTIONS, "upper 1 0 0", "live 0 0 1", "steps 0 1", "delivery one-ul.cer")
    yield "# The same numbers as UL and as UR: each is new after the other."
    for name in ("one-ul-514.cer", "one-ur-514.cer") * 2:
        yield from ("delivery %s" % name, *QUESTIONS, "delivery %s" % name)
    yield "# Merged, UL and UR are UR, whichever is held."
    for pair in itertools.permutations(("one-ul.cer", "one-ur.cer"), 2):
        yield from ("delivery %s" % pair[0], "merge %s" % pair[1], *QUESTIONS, "merge %s" % pair[1])
    yield from ("delivery one-ul.cer", "merge one-ul-514.cer", *QUESTIONS)
    yield from ("clear", "model one.tab", "live 0 0 0")


GROUPS = (empty_register, refused_models, counters, counters_as_models, model_alone, short_chances, refused_deliveries, all_of_w, marks_and_shapes, marks_and_records,
          marks_and_calls, merges, refused_merges, merges_after_clearing, clearing, numbers, paths, unclear_words, unclear_bytes, lengths, short_chances_of_pairs, largest, one_state)


def script():
    lines = [line if isinstance(line, bytes) else line.encode() for group in GROUPS for line in group()]
    return b"\n".join(lines)


# The output.

def desk_over(files):
    named = {name.encode(): data for name, data in files.items()}
    return plainpair.Desk(lambda path, most: named.get(posixpath.normpath(path), b"")[:most])


def check_complete(answered, filed):
    """Stops unless each kind of reply and each reason occurs, each mark with each likeness of two deliveries, and each kind of merge."""
    replies = [reply for _, reply in answered]
    words = {reply and reply.split()[0] for reply in replies}
    numbers = {int(reply.split()[1]) for reply in replies if reply and reply.startswith("refused")}
    missing = (REPLIES - words) | (set(scripts.REASONS) - numbers) | ({*scripts.FILED, *scripts.LIKE, *scripts.MERGES} - {*scripts.filed_kinds(filed), *scripts.merge_kinds(answered)})
    if missing:
        sys.exit("the stored script has no reply: %s" % sorted(map(str, missing)))


def made_files():
    """Path under crates/desk/ -> bytes."""
    files, text = {**model_files(), **counter_files(), **delivery_files()}, script()
    answered, filed = scripts.answered_by(desk_over(files), text)
    check_complete(answered, filed)
    made = {"data/" + name: data for name, data in files.items()}
    made["stdin"] = text
    made["stdout"] = scripts.printed(answered)
    return made


def check(folder, made, found):
    for name, data in made.items():
        if not (folder / name).exists() or (folder / name).read_bytes() != data:
            sys.exit("stored file is not what the plain pair makes: " + name)
    if found - set(made):
        sys.exit("stored files of no line: %s" % sorted(found - set(made)))
    print("stored script: %d lines and %d files as the plain pair makes them" % (made["stdin"].count(b"\n") + 1, len(made)))


def main():
    options = argparse.ArgumentParser(description=__doc__)
    options.add_argument("--check", action="store_true")
    options.add_argument("--to", type=Path, default=CRATE, metavar="FOLDER")
    options = options.parse_args()
    made = made_files()
    found = {str(path.relative_to(options.to)) for path in (options.to / "data").rglob("*") if path.is_file()}
    if options.check:
        check(options.to, made, found)
        return
    for name in found - set(made):
        (options.to / name).unlink()
    for name, data in made.items():
        (options.to / name).parent.mkdir(parents=True, exist_ok=True)
        (options.to / name).write_bytes(data)


if __name__ == "__main__":
    main()
