"""Checks the merging of two deliveries for one model (request A.5), on pairs of accepted ones in which each is sharper at some entries.

Of each pair, the merged delivery passes; it has the shape that the request gives it; each of its uppers and mean steps is the smaller of the two, each of its lowers the
larger; where both have lowers, its margin is no smaller than the smaller of theirs. No lower of the one lies above an upper of the other. The order of the two does not
matter, a delivery merged with itself is itself, and so it is with what it was merged of; of three, it does not matter which two come first. Of small models, what is
merged holds of the runs. Each wrong merge below must break some of this, and each wrong desk must reply otherwise to some script than the plain pair, while desks that
merge in another way may not. With --program, the desk replies to the scripts: every number and the margin of each merged delivery, its mark, and each refusal.
"""
import argparse
import itertools
import random
import struct
import sys
from collections import Counter, namedtuple
from operator import ge, le
from pathlib import Path

import checker
import generate
import plainpair
import scripts
import soundness
from checker import ACCEPTED, Figures, ONE
from plainpair import Desk, Refused, desk_with

MODELS = 120  # random ones, of which those are taken that have so many live entries:
LIVE = range(2, 150)
SUPPLIERS = 4  # of each shape, for a model
CHANGES = 14  # deliveries that are changed, and kept where they are refused, for a model
JUDGED = 500  # merged deliveries that are held against runs, at most
ASKED = 24  # questions on a merged delivery, at most; of the first of each model, all
CROSSED = 2  # pairs that cross most, of every two shapes, for a model
FEWEST = 10  # times, at least, that every kind occurs
ENOUGH_CROSSED = 2000  # pairs, at least, whose uppers cross
SHAPES = {  # of the held delivery and the second: lowers where both have them, mean steps where either has
    ("U", "U"): "U", ("U", "UL"): "U", ("U", "UR"): "UR", ("U", "ULR"): "UR",
    ("UL", "U"): "U", ("UL", "UL"): "UL", ("UL", "UR"): "UR", ("UL", "ULR"): "ULR",
    ("UR", "U"): "UR", ("UR", "UL"): "UR", ("UR", "UR"): "UR", ("UR", "ULR"): "UR",
    ("ULR", "U"): "UR", ("ULR", "UL"): "ULR", ("ULR", "UR"): "UR", ("ULR", "ULR"): "ULR",
}
SHAPE_KINDS = tuple("%s with %s%s" % (*shapes, crossed) for shapes in SHAPES for crossed in ("", ", uppers cross"))
CROSSINGS = ("uppers cross", "lowers cross", "mean steps cross")
MARGINS = ("a margin above both", "a margin between the two", "a margin that is the smaller")
RESULTS = ("the held one again", "the second", "neither")
MODEL_KINDS = ("one state", "several states", "one symbol", "several symbols", "a dead entry", "nothing live", "a chance of 1", "an upper of 2", "an upper equal to f", "model W")
REPLIES = ("merge: known", "merge: new", "merge: 40", "merge: 42", *("merge: %d" % number for number in range(20, 28)))

Case = namedtuple("Case", "model held second third")

# Document 01's delivery for W, another one, and what is merged of them, each with its margin (edge E24 of docs/RULES.md).
TABLED = (
    (Figures([655360, 524288, 0, 1179648], [524288, 393216, 0, 1048576], [512, 256]), 45875),
    (Figures([660000, 480000, 0, 1200000], [530000, 380000, 0, 1000000], [500, 300]), 10913),
    (Figures([655360, 480000, 0, 1179648], [530000, 393216, 0, 1048576], [500, 256]), 17161),
)


def fail(what):
    sys.exit("merging: " + what)


# Pairs of accepted deliveries.

def fixed_models():
    """W, the queue's, models of one row, some in which nothing is live, and the largest."""
    yield from (generate.MODEL_W, checker.made_model(generate.QUEUE))
    yield from (generate.one_row_model(*weights) for weights in ((49152, 16384), (32768, 32768), (16384, 49152), (65535, 1)))
    yield from (generate.model_file([(0, 0, 0, length, 0, 0, 65536)]) for length in (0, 1, 2))
    yield generate.model_file([(0, 0, 0, 1, 1, 0, 65536), (0, 1, 0, 2, 0, 1, 65536)])
    yield generate.model_file([(p, 0, 1 - p, 1, 0, 0, 65536) for p in range(2)])
    yield generate.largest_model()


def accepted_files(rng, table):
    """{shape: accepted deliveries}; for a shape that has none, no deliveries."""
    found = {shape: [] for shape in checker.SHAPES}
    for figures in generate.suppliers(rng, table, SUPPLIERS):
        delivery = generate.delivery_file(table, figures)
        found[checker.shape_of(table, delivery)].append(delivery)
    return found


def crossing(one, other):
    """Whether the one block is sharper at some place, and the other at some other."""
    return bool(one and other and any(a < b for a, b in zip(one, other)) and any(a > b for a, b in zip(one, other)))


def crossings(model, pair):
    """The kinds of crossing that two deliveries have."""
    blocks = zip(*(plainpair.figures_of(model, file) for file in pair))
    return [kind for kind, (one, other) in zip(CROSSINGS, blocks) if crossing(one, other)]


def cases_of(rng, model):
    """Of every two shapes that the model has deliveries of, the pairs that cross most and now and then any pair, each with a third delivery."""
    files = accepted_files(rng, checker.table_of(model))
    for delivery in itertools.chain.from_iterable(files.values()):
        if checker.check_delivery(model, delivery) != ACCEPTED:
            fail("a supplier's delivery is refused: %s %s" % (model.hex(), delivery.hex()))
    for shapes in itertools.product(files, repeat=2):
        pairs = list(itertools.product(*(files[shape] for shape in shapes)))
        rng.shuffle(pairs)
        crossed = sorted(pairs, key=lambda pair: len(crossings(model, pair)))[-CROSSED:]
        for held, second in crossed + rng.choice((pairs[:1], [])):
            yield Case(model, held, second, rng.choice(files[rng.choice(shapes)]))


def tabled_case():
    """The case of the table, if the plain pair merges it as the table has it."""
    model, (figures, margins) = generate.MODEL_W, zip(*TABLED)
    files = [generate.delivery_file(checker.table_of(model), each) for each in figures]
    if plain_merge(model, *files[:2]) != files[2] or tuple(plainpair.margin_of(model, file) for file in files) != margins:
        fail("the table's pair is not merged as it should be")
    return Case(model, *files)


def all_cases(seed):
    """Lists of cases: that of the table, and one list for each model."""
    rng = random.Random(seed)
    yield [tabled_case()]
    drawn = [generate.random_model(rng) for _ in range(MODELS)]
    for model in [*fixed_models(), *(model for model in drawn if sum(checker.table_of(model).is_live) in LIVE)]:
        yield list(cases_of(rng, model))


# What holds of a pair and of what is merged of it. A merge is a function of (model, held, second), all of them files. Each says what is wrong, or nothing.

def plain_merge(model, held, second):
    """What the plain pair holds after a merge."""
    pair = plainpair.PlainPair()
    pair.model = model
    return pair.merged_of(held, second)


def number_faults(merged, one, other):
    """Each number is one of the two, and the right one."""
    for name, is_sharper, *blocks in zip(Figures._fields, (le, ge, le), merged, one, other):
        both = [block for block in blocks[1:] if block is not None]
        for at, number in enumerate(blocks[0] or []):
            pair = [block[at] for block in both]
            if number not in pair or not all(is_sharper(number, old) for old in pair):
                yield "%s %d is %d, of %s" % (name, at, number, pair)


def margin_faults(model, merged, held, second):
    """Where both have lowers, the margin is no smaller than the smaller of theirs."""
    figures = [plainpair.figures_of(model, file) for file in (held, second)]
    if all(block.lower is not None for block in figures):
        margins = [plainpair.margin_of(model, file) for file in (merged, held, second)]
        if margins[0] < min(margins[1:]):
            yield "the margin is %d, of %d and %d" % tuple(margins)


def order_faults(case, merged, merge):
    """Neither the order of the two matters, nor which two of three come first; what a delivery was merged of, or itself, adds nothing to it."""
    model, held, second, third = case
    same = {"the second first": merge(model, second, held), "with itself": merge(model, merged, merged), "with the second again": merge(model, merged, second),
            "with the held one again": merge(model, merged, held), "after the second": merge(model, second, merged)}
    yield from ("other bytes %s" % how for how, file in same.items() if file != merged)
    if merge(model, held, held) != held:
        yield "the held one with itself is not itself"
    if merge(model, merged, third) != merge(model, held, merge(model, second, third)):
        yield "of three, it matters which two come first"


def faults(case, merge=plain_merge):
    """What is wrong of a merge of two accepted deliveries; also what a wrong one runs into."""
    model, held, second, _ = case
    table = checker.table_of(model)
    try:
        merged = merge(model, held, second)
        refusal = checker.check_delivery(model, merged)
        if refusal != ACCEPTED:
            yield "the merged delivery is refused: %d at %d, %d" % refusal
            return
        shapes = tuple(checker.shape_of(table, file) for file in (held, second))
        if checker.shape_of(table, merged) != SHAPES[shapes]:
            yield "%s with %s gives %s" % (*shapes, checker.shape_of(table, merged))
        yield from number_faults(*(checker.accepted_figures(model, file) for file in (merged, held, second)))
        yield from margin_faults(model, merged, held, second)
        yield from order_faults(case, merged, merge)
    except (LookupError, TypeError, ValueError, struct.error) as error:
        yield "%s: %s" % (type(error).__name__, error)


def contradictions(case):
    """Two accepted deliveries of one model never contradict each other: no lower of the one lies above an upper of the other."""
    one, other = (plainpair.figures_of(case.model, file) for file in (case.held, case.second))
    for name, lowers, uppers in (("the held one", one.lower, other.upper), ("the second", other.lower, one.upper)):
        for at, (lower, upper) in enumerate(zip(lowers or [], uppers)):
            if lower > upper:
                yield "lower %d of %s is %d, above the other's upper %d" % (at, name, lower, upper)


# Kinds of pairs.

def margin_kind(model, merged, held, second):
    margin, *both = (plainpair.margin_of(model, file) for file in (merged, held, second))
    return MARGINS[(margin <= max(both)) + (margin == min(both))]


def model_kinds(table, merged, pair):
    """What stands in the model, in the two deliveries' uppers and in what is merged of them."""
    yield "one state" if table.states == 1 else "several states"
    yield "one symbol" if table.symbols == 1 else "several symbols"
    yield from ["a dead entry"] * (not all(table.is_live)) + ["nothing live"] * (not any(table.is_live))
    yield from ["a chance of 1"] * (merged.lower is not None and max(merged.lower) == ONE)
    yield from ["an upper of 2"] * any(generate.TOP in figures.upper for figures in pair)
    yield from ["model W"] * (generate.model_file(table.records) == generate.MODEL_W)
    equal = ((u << 36) == side for figures in pair for u, side, live in zip(figures.upper, checker.f(table, figures.upper), table.is_live) if live)
    yield from ["an upper equal to f"] * any(equal)


def pair_kinds(case):
    """The kinds that a pair counts for."""
    model, held, second, _ = case
    table, merged = checker.table_of(model), plain_merge(model, held, second)
    pair, got = [plainpair.figures_of(model, file) for file in (held, second)], plainpair.figures_of(model, merged)
    shapes, crossed = "%s with %s" % tuple(checker.shape_of(table, file) for file in (held, second)), crossings(model, (held, second))
    yield from (shapes, *crossed, *("%s, %s" % (shapes, kind) for kind in crossed[:1] if kind == CROSSINGS[0]))
    yield RESULTS[0] if merged == held else RESULTS[1] if merged == second else RESULTS[2]
    if got.lower is not None:
        yield margin_kind(model, merged, held, second)
    yield from model_kinds(table, got, pair)


def check_kinds(kinds, due):
    rare = [kind for kind in due if kinds[kind] < FEWEST]
    if rare:
        fail("fewer than %d: %s of %s" % (FEWEST, rare, kinds))


# Wrong merges, each of which must be wrong of some pair. Most are of figures: blocks that are not named are merged as they should be.

def merged_with(**blocks):
    """Merges some blocks otherwise, each by a function of the two blocks, which are None where a delivery lacks them."""
    def merge(model, held, second):
        one, other = (plainpair.figures_of(model, file) for file in (held, second))
        changed = {name: block(getattr(one, name), getattr(other, name)) for name, block in blocks.items()}
        return checker.file_of(checker.table_of(model), checker.merged_figures(one, other)._replace(**changed))
    return merge


def where_both(**blocks):
    """The same of blocks that both deliveries have; one that only one of them has is merged as it should be."""
    right = {"upper": checker.merged_uppers, "lower": checker.merged_lowers, "mean": checker.merged_means}

    def otherwise(name, block):
        return lambda one, other: right[name](one, other) if one is None or other is None else block(one, other)
    return merged_with(**{name: otherwise(name, block) for name, block in blocks.items()})


def each_pair(choose):
    """A block of a number chosen of each pair."""
    return lambda one, other: [choose(pair) for pair in zip(one, other)]


def either(one, other):
    return other if one is None else one


def first(one, other):
    return one


def second(one, other):
    return other


def as_bytes(number):
    """What a number's bytes are as a list, low byte first, by which it is compared wrongly."""
    return list(number.to_bytes(4, "little"))


def low_half(number):
    return number % 65536


def smaller_by(key):
    """The smaller upper and mean and the larger lower of each pair, by another order of numbers."""
    smaller, larger = (each_pair(lambda pair, pick=pick: pick(pair, key=key)) for pick in (min, max))
    return where_both(upper=smaller, lower=larger, mean=smaller)


def by_first_number(one, other):
    """The whole block of the delivery whose first number is smaller."""
    return one if one[0] <= other[0] else other


def but_at(at):
    """Blocks of which one number stays as it was in the held delivery."""
    def block(merge):
        def merged(one, other):
            numbers = merge(one, other)
            numbers[at] = one[at]
            return numbers
        return merged
    return where_both(upper=block(checker.merged_uppers), lower=block(checker.merged_lowers), mean=block(checker.merged_means))


WRONG_MERGES = {
    "the larger upper": where_both(upper=each_pair(max)),
    "the upper of the held one": merged_with(upper=first),
    "the upper of the second": merged_with(upper=second),
    "the smaller lower": where_both(lower=each_pair(min)),
    "the lower of the held one": where_both(lower=first),
    "the lower of the second": where_both(lower=second),
    "lowers where either has them": merged_with(lower=lambda one, other: either(one, other) if one is None or other is None else checker.merged_lowers(one, other)),
    "lowers where the held one has them": merged_with(lower=lambda one, other: one if other is None else one and checker.merged_lowers(one, other)),
    "no lowers": merged_with(lower=lambda one, other: None),
    "the larger mean": where_both(mean=each_pair(max)),
    "the mean of the held one where both have it": where_both(mean=first),
    "the mean of the second where both have it": where_both(mean=second),
    "mean steps only where both have them": merged_with(mean=lambda one, other: one and other and checker.merged_means(one, other)),
    "mean steps only where the held one has them": merged_with(mean=lambda one, other: one and checker.merged_means(one, other)),
    "mean steps only where the second has them": merged_with(mean=lambda one, other: other and checker.merged_means(one, other)),
    "no mean steps": merged_with(mean=lambda one, other: None),
    "the held one alone": lambda model, held, second: held,
    "the second alone": lambda model, held, second: second,
    "the longer of the two": lambda model, held, second: max(held, second, key=len),
    "whole blocks, by their first numbers": where_both(upper=by_first_number, mean=by_first_number),
    "whole blocks, by their sums": where_both(upper=lambda *pair: min(pair, key=sum), lower=lambda *pair: max(pair, key=sum), mean=lambda *pair: min(pair, key=sum)),
    "the first number of each block left as it was": but_at(0),
    "the last number of each block left as it was": but_at(-1),
    "numbers compared from their low byte on": smaller_by(as_bytes),
    "numbers compared by two bytes": smaller_by(low_half),
    "the middle of the two uppers": where_both(upper=each_pair(lambda pair: (sum(pair) + 1) // 2)),
    "the middle of the two lowers": where_both(lower=each_pair(lambda pair: sum(pair) // 2)),
}


# Wrong desks, each of which must reply otherwise to some script.

def merged_by(merge):
    return desk_with(merged_of=lambda self, held, second: merge(self.model, held, second))


def margin_shown(choose):
    """Shows a margin chosen of the two deliveries' own while what was merged of them is held."""
    def merged_of(self, held, second):
        merged = Desk.merged_of(self, held, second)
        self.shown = merged, choose([plainpair.margin_of(self.model, file) for file in (held, second)])
        return merged

    def margin(self):
        reply = Desk.margin(self)
        merged, number = self.__dict__.get("shown", (None, None))
        return self.value(number) if merged == self.delivery else reply
    return desk_with(merged_of=merged_of, margin=margin)


def marked_by(mark):
    """Marks what is merged by a function of (the desk, the delivery held before, the second, the merged one)."""
    def merge_delivery(self, path):
        before = self.delivery
        Desk.merge_delivery(self, path)
        return "known" if mark(self, before, self.read(path, plainpair.DELIVERY_READ), self.delivery) else "new"
    return desk_with(merge_delivery=merge_delivery)


def uppers(self, delivery):
    return plainpair.figures_of(self.model, delivery).upper


def delivery_before_model(self, path):
    self.needs_delivery()
    return Desk.merge_delivery(self, path)


def read_first(number):
    """Tests the file's length before this reason of the register's own."""
    def merge_delivery(self, path):
        refused_by = plainpair.NO_MODEL if self.model is None else plainpair.NO_DELIVERY if self.delivery is None else None
        if refused_by == number and not self.read(path, plainpair.DELIVERY_READ):
            raise Refused(checker.DELIVERY_LENGTH)
        return Desk.merge_delivery(self, path)
    return desk_with(merge_delivery=merge_delivery)


def files_where_none_is_held(self, path):
    return Desk.file_delivery(self, path) if self.delivery is None else Desk.merge_delivery(self, path)


def after_refusal(change):
    """A refusal of the second delivery, by its numbers, which changes what is held."""
    def merge_delivery(self, path):
        try:
            return Desk.merge_delivery(self, path)
        except Refused as refusal:
            if checker.DEAD_NOT_ZERO <= refusal.args[0] <= checker.MEAN_FAILS:
                self.delivery = change(self, self.read(path, plainpair.DELIVERY_READ))
            raise
    return desk_with(merge_delivery=merge_delivery)


def not_judged(numbers):
    """Takes a second delivery that one of these reasons refuses."""
    def judge_delivery(self, delivery):
        try:
            Desk.judge_delivery(self, delivery)
        except Refused as refusal:
            if self.__dict__.get("merges") is None or refusal.args[0] not in numbers:
                raise

    def merge_delivery(self, path):
        self.merges = True
        try:
            return Desk.merge_delivery(self, path)
        finally:
            self.merges = None
    return desk_with(judge_delivery=judge_delivery, merge_delivery=merge_delivery)


def not_held(self, path):
    before = self.delivery
    reply = Desk.merge_delivery(self, path)
    self.delivery = before
    return reply


def merged_before(self, path):
    """Merges with the delivery that was filed last, and not with what was merged since."""
    if self.delivery is not None and self.__dict__.get("filed") is not None:
        before, self.delivery = self.delivery, self.filed
        try:
            return Desk.merge_delivery(self, path)
        except Refused:
            self.delivery = before
            raise
    return Desk.merge_delivery(self, path)


def filing_kept(self, path):
    reply = Desk.file_delivery(self, path)
    self.filed = self.delivery
    return reply


WRONG_DESKS = {
    **{name: merged_by(merge) for name, merge in WRONG_MERGES.items()},
    "shows the margin of the held one": margin_shown(lambda margins: margins[0]),
    "shows the margin of the second": margin_shown(lambda margins: margins[1]),
    "shows the smaller margin": margin_shown(min),
    "shows the larger margin": margin_shown(max),
    "the mark against the second": marked_by(lambda self, before, second, merged: second == merged),
    "known where the second is the held one": marked_by(lambda self, before, second, merged: second == before),
    "known where the uppers stay": marked_by(lambda self, before, second, merged: uppers(self, before) == uppers(self, merged)),
    "known where the length stays": marked_by(lambda self, before, second, merged: len(before) == len(merged)),
    "always new": marked_by(lambda *files: False),
    "always known": marked_by(lambda *files: True),
    "42 before 40": desk_with(merge_delivery=delivery_before_model),
    "the file read before 40": read_first(plainpair.NO_MODEL),
    "the file read before 42": read_first(plainpair.NO_DELIVERY),
    "files the second where no delivery is held": desk_with(merge_delivery=files_where_none_is_held),
    "takes any second of a shape": not_judged(range(21, 28)),
    "takes a second with an upper below f": not_judged([checker.UPPER_FAILS]),
    "takes a second with too few mean steps": not_judged([checker.MEAN_FAILS]),
    "the merged one held though the second is refused": after_refusal(lambda self, second: self.merged_of(self.delivery, second)),
    "the second held though it is refused": after_refusal(lambda self, second: second),
    "a refused second drops the held one": after_refusal(lambda self, second: None),
    "the held one kept while reporting success": desk_with(merge_delivery=not_held),
    "merges with what was filed last, not with what was merged since": desk_with(merge_delivery=merged_before, file_delivery=filing_kept),
    "files the second as a delivery": desk_with(merge_delivery=lambda self, path: self.needs_model() or self.needs_delivery() or self.file_delivery(path)),
    "replied to as a model": desk_with(merge_delivery=lambda self, path: Desk.merge_delivery(self, path) and "accepted"),
}


# Right desks that merge in another way.

def by_records(self, held, second):
    """Record by record, by kind and place: a lower stays where both files have it."""
    one, other = ({record[:4]: record[4] for record in self.records_in(file)} for file in (held, second))
    merged = {}
    for head in [*one, *(head for head in other if head not in one)]:
        numbers = [file[head] for file in (one, other) if head in file]
        if head[0] != checker.LOWER or len(numbers) == 2:
            merged[head] = max(numbers) if head[0] == checker.LOWER else min(numbers)
    return b"".join(bytes([*head, *number.to_bytes(4, "little")]) for head, number in merged.items())


def filed_as_a_file(self, path):
    """By way of the merged file, which is judged and marked as any other."""
    self.needs_model()
    self.needs_delivery()
    second = self.read(path, plainpair.DELIVERY_READ)
    self.judge_delivery(second)
    merged = self.merged_of(second, self.delivery)
    self.judge_delivery(merged)
    mark = "known" if merged == self.delivery else "new"
    self.hold_delivery(merged)
    return mark


RIGHT_DESKS = {  # which no script may notice
    "record by record": desk_with(merged_of=by_records),
    "the merged file judged and filed, the second first": desk_with(merge_delivery=filed_as_a_file),
}


# Scripts of calls.

def refused_files(rng, cases):
    """Deliveries for the model that are refused, made of those of the cases, and one that is cut short."""
    model = cases[0].model
    table, made = checker.table_of(model), [cases[0].second[:-8]]
    for _ in range(CHANGES):
        delivery, change = rng.choice(cases).second, rng.choice((*generate.FIGURE_CHANGES, *generate.BYTE_CHANGES))
        if change in generate.BYTE_CHANGES:
            made.append(change(rng, delivery, 8))
        else:
            made.append(generate.delivery_file(table, change(rng, table, plainpair.figures_of(model, delivery))))
    return [delivery for delivery in made if checker.check_delivery(model, delivery) != ACCEPTED]


def questions(table):
    """On every number of the held delivery, and last on the margin."""
    entries = [b"%b %d %d %d" % (name, *entry) for name in (b"upper", b"lower") for entry in table.entries]
    return [*entries, *(b"steps %d %d" % row for row in table.rows), b"margin"]


def asked(rng, table):
    """The margin, and so many other questions as there may be."""
    *others, margin = questions(table)
    return [*rng.sample(others, min(len(others), ASKED)), margin]


def script_of(rng, folder, cases):
    """A script for the cases of one model: 40 and 42; then each pair merged and asked on, merged again with either and then with a third, and now and then the file of all that
    filed, which is known; then each delivery that is refused, and asked again; and 40 and 42 after a clearing."""
    def merge(file):
        return b"merge " + folder.name_of(file)
    model, table, filed = cases[0].model, checker.table_of(cases[0].model), b"model " + folder.name_of(cases[0].model)
    yield from (b"clear", merge(cases[0].second), b"merge gone", filed, merge(cases[0].second), b"merge gone")
    for at, (_, held, second, third) in enumerate(cases):
        yield from (b"delivery " + folder.name_of(held), merge(second), *(asked(rng, table) if at else questions(table)), merge(second), merge(held), merge(third), b"margin")
        if at % 4 == 0:
            yield b"delivery " + folder.name_of(plain_merge(model, plain_merge(model, held, second), third))
    for delivery in refused_files(rng, cases):
        yield from (merge(delivery), *asked(rng, table))
    yield from (b"merge gone", b"margin", b"clear", merge(cases[-1].held), filed, merge(cases[-1].held), b"margin")


# The tests.

def check_cases(cases):
    """Nothing is wrong of any pair; every kind of pair occurs. Hands back how often."""
    kinds = Counter()
    for case in cases:
        fault = next(itertools.chain(contradictions(case), faults(case)), None)
        if fault:
            fail("%s\n  model  %s\n  held   %s\n  second %s" % (fault, *(file.hex() for file in case[:3])))
        kinds.update(pair_kinds(case))
    check_kinds(kinds, (*SHAPE_KINDS, *CROSSINGS, *MARGINS, *RESULTS, *MODEL_KINDS))
    if kinds[CROSSINGS[0]] < ENOUGH_CROSSED:
        fail("only in %d pairs the uppers cross" % kinds[CROSSINGS[0]])
    return kinds


def check_runs(cases):
    """What is merged of small models holds of the runs, and figures just beyond are noticed."""
    judged, noticed = [], Counter()
    for case in cases:
        merged = plain_merge(*case[:3])
        if len(judged) < JUDGED and merged not in (case.held, case.second) and soundness.is_small(case.model):
            found, kinds = soundness.judge(case.model, merged)
            if found:
                fail("a merged delivery does not hold of the runs: %s\n  model  %s\n  merged %s" % (found[:3], case.model.hex(), merged.hex()))
            judged.append(merged)
            noticed.update(kinds)
    check_kinds(noticed, soundness.NOTICED)
    return len(judged)


def check_wrong_merges(cases):
    """For each wrong merge, the first pair that it is wrong of."""
    return {name: next((n for n, case in enumerate(cases) if any(faults(case, merge))), None) for name, merge in WRONG_MERGES.items()}


def check_wrong_desks(folder, made, answered):
    """For each wrong desk, the first script that notices it; no script may notice a right one."""
    replied = [(script, [reply for _, reply in pairs]) for script, pairs in zip(made, answered)]
    for name, kind in RIGHT_DESKS.items():
        if any(kind(folder.reader([])).replies(script) != right for script, right in replied):
            fail("a right desk is taken for a wrong one: " + name)
    return {name: next((n for n, pair in enumerate(replied) if scripts.is_noticed(kind, folder, *pair)), None) for name, kind in WRONG_DESKS.items()}


def show_noticed(found, unit):
    for name, n in found.items():
        print("%-64s %s" % (name, "NOT NOTICED" if n is None else "%s %d" % (unit, n)))
    if None in found.values():
        fail("not noticed: %s" % [name for name, n in found.items() if n is None])
    return len(found)


def check_desk(program, folder, made, answered):
    """The desk replies as the plain pair does, to all scripts in one input."""
    pairs = list(itertools.chain.from_iterable(answered))
    return scripts.check_desk(program, folder, "the scripts of merges", b"\n".join(made), pairs, b"")


def main():
    options = argparse.ArgumentParser(description=__doc__)
    options.add_argument("--seed", type=int, default=1)
    options.add_argument("--program", help="the desk program, which then replies to the scripts")
    options = options.parse_args()
    families = [cases for cases in all_cases(options.seed) if cases]
    cases, folder, rng = list(itertools.chain.from_iterable(families)), scripts.Folder([]), random.Random(options.seed)
    kinds, judged = check_cases(cases), check_runs(cases)
    made = [b"\n".join(script_of(rng, folder, family)) for family in families]
    answered = [scripts.expected(folder, script)[0] for script in made]
    replies = Counter(kind for pairs in answered for kind in scripts.merge_kinds(pairs))
    check_kinds(replies, REPLIES)
    merges, desks = show_noticed(check_wrong_merges(cases), "pair"), show_noticed(check_wrong_desks(folder, made, answered), "script")
    ran = "%d replies of the desk agree" % check_desk(str(Path(options.program).resolve()), folder, made, answered) if options.program else "no program run"
    print("; ".join("%s: %d" % (kind, count) for kind, count in [*kinds.items(), *replies.items()]))
    print("merging: %d pairs of accepted deliveries in %d scripts; %d of what is merged of them hold of runs; %d of %d wrong merges noticed, and %d of %d wrong desks; %s"
          % (len(cases), len(families), judged, merges, merges, desks, desks, ran))


if __name__ == "__main__":
    main()
