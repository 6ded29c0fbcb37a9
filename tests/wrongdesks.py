"""Shows that the scripts of tests/scripts.py are sharp: each wrong desk below must reply otherwise than the right one in some of them."""
import argparse
import itertools
import sys

import checker
import counters
import merging
import plainpair
import scripts
import soundness
from checker import CERTAIN
from plainpair import Desk, Refused, desk_with as wrong

SCRIPTS = 200  # the first of the default scripts


def refuses(number):
    """A judgement that refuses every file by this number, if it is not refused anyway."""
    def judge(right):
        def judged(self, file):
            right(self, file)
            raise Refused(number)
        return judged
    return judge


# The register.

def first_checked_only(self, delivery):
    if self.delivery is None:
        Desk.judge_delivery(self, delivery)


def invented_margin(self):
    Desk.margin(self)
    return self.value(45876)


def always_42(self):
    raise Refused(plainpair.NO_DELIVERY)


def model_read_first(self, path):
    self.judge_model(self.read(path, plainpair.MODEL_READ))
    return Desk.file_model(self, path)


def delivery_read_first(self, path):
    if not self.read(path, plainpair.DELIVERY_READ):
        raise Refused(checker.DELIVERY_LENGTH)
    return Desk.file_delivery(self, path)


def lower_block_first(self, p, z, q):
    if self.delivery is not None:
        self.needs_block(self.figures().lower)
    return Desk.lower(self, p, z, q)


def steps_block_first(self, p, z):
    if self.delivery is not None:
        self.needs_block(self.figures().mean)
    return Desk.steps(self, p, z)


def upper_place_first(self, p, z, q):
    if self.model is not None:
        self.needs_place(p, z, q)
    return Desk.upper(self, p, z, q)


def delivery_before_model(self):
    self.needs_delivery()
    Desk.needs_model(self)


def refused_drops(self, delivery):
    try:
        Desk.judge_delivery(self, delivery)
    except Refused:
        self.delivery = None
        raise


def over_a_held_one(self, path):
    model = self.read(path, plainpair.MODEL_READ)
    self.judge_model(model)
    self.model, self.delivery = model, None
    return "accepted"


def keeps_former(self, delivery):
    if self.delivery is None:
        self.delivery = delivery


def clear_keeps_delivery(self):
    self.model = None
    return "cleared"


def clear_keeps_model(self):
    self.delivery = None
    return "cleared"


def clear_refused_when_empty(self):
    self.needs_model()
    return Desk.clear(self)


def filed_again_clears(self, path):
    if self.model is not None:
        self.clear()
        raise Refused(plainpair.MODEL_HELD)
    return Desk.file_model(self, path)


def live_needs_delivery(self, p, z, q):
    self.needs_model()
    self.needs_delivery()
    return Desk.live(self, p, z, q)


def margin_of_any_shape(self):
    self.needs_model()
    self.needs_delivery()
    return self.value(plainpair.margin_of(self.model, self.delivery))


def states_for_symbols(self, p, z, q=0):
    Desk.needs_place(self, p, z, q)
    if z >= self.table().states:
        raise Refused(plainpair.NOT_OF_MODEL)


def place_without_exit(self, p, z, q=0):
    """Leaves the exit unchecked, and takes what stands at the place that it leads to, if there is any."""
    Desk.needs_place(self, p, z)
    if self.table().entry_at(p, z, q) >= len(self.table().entries):
        raise Refused(plainpair.NOT_OF_MODEL)


def refusal_cut(**zeros):
    """A reply without a refusal's place or shortfall."""
    def reply_to(self, name, arguments):
        words = Desk.reply_to(self, name, arguments).split()
        if words[0] == "refused":
            words[2], words[3] = zeros.get("place", words[2]), zeros.get("shortfall", words[3])
        return " ".join(words)
    return reply_to


# The mark of a delivery (request A.3).

def known_by(part):
    """Known if a delivery is held of which this part is the same."""
    return wrong(is_same=lambda self, held, delivery: part(self, held) == part(self, delivery))


def numbers(self, delivery):
    return [value for *_, value in self.records_in(delivery)]


def uppers(self, delivery):
    return self.records_in(delivery)[:len(self.table().entries)]


def blocks(self, delivery):
    """The records of each kind, by the kind."""
    return [[record for record in self.records_in(delivery) if record[0] == kind] for kind in checker.SHAPES["ULR"]]


def without_block(kind):
    """The shape, and the records of the other kinds."""
    return lambda self, delivery: (self.shape_in(delivery), [record for record in self.records_in(delivery) if record[0] != kind])


def of_each_block(part):
    """The shape, and some of the records of each block."""
    return lambda self, delivery: (self.shape_in(delivery), list(map(part, blocks(self, delivery))))


def zeros_for_none(self, delivery):
    """The numbers of all three blocks, zeros where there is none."""
    upper, lower, mean = plainpair.figures_of(self.model, delivery)
    return upper, lower or [0] * len(upper), mean or [0] * len(self.table().rows)


def known_by_common(self, held, delivery):
    """By the blocks that both have."""
    return all(one == other for one, other in zip(blocks(self, held), blocks(self, delivery)) if one and other)


def starts_so(self, held, delivery):
    return delivery.startswith(held)


def known_by_any(self, delivery):
    """Known if any delivery that was ever accepted is the same."""
    seen = self.__dict__.setdefault("seen", set())
    mark = "known" if delivery in seen else "new"
    seen.add(delivery)
    return mark


def known_by_last(self, delivery):
    """Known if the delivery accepted last is the same, held or not."""
    last, self.last = self.__dict__.get("last"), delivery
    return "known" if last == delivery else "new"


def known_by_first(self, delivery):
    """Known if the delivery accepted first is the same, though it may have been replaced."""
    first = self.__dict__.setdefault("first_held", delivery)
    return "known" if self.delivery is not None and first == delivery else "new"


def known_by_judged(self, delivery):
    """Known if the delivery that was judged before is the same."""
    return "known" if self.before == delivery else "new"


def judged_and_kept(self, delivery):
    """Keeps what it judges, also where it refuses it."""
    self.before, self.last = self.__dict__.get("last"), delivery
    Desk.judge_delivery(self, delivery)


def forgets(name):
    """A clearing that drops what is kept under this name too."""
    def clear(self):
        self.__dict__.pop(name, None)
        return Desk.clear(self)
    return clear


def known_if_any_held(self, delivery):
    return "new" if self.delivery is None else "known"


def same_uppers_not_held(self, delivery):
    """Keeps the held delivery where the uppers are the same."""
    if self.delivery is None or uppers(self, self.delivery) != uppers(self, delivery):
        self.delivery = delivery


def counter_by_uppers(self, held, delivery):
    """By the uppers alone while the model that a counter file makes is held."""
    return uppers(self, held) == uppers(self, delivery) if self.__dict__.get("counts") else Desk.is_same(self, held, delivery)


WRONG_MARKS = {
    "known for new": wrong(mark_of=lambda self, delivery: "known"),
    "new for known": wrong(mark_of=lambda self, delivery: "new"),
    "known if any delivery is held": wrong(mark_of=known_if_any_held),
    "known by the uppers alone, as before A.3": known_by(uppers),
    "known by the shape": known_by(Desk.shape_in),
    "known by the length": known_by(lambda self, delivery: len(delivery)),
    "known by the numbers, whatever the kinds": known_by(numbers),
    "known by the numbers, with zeros for a missing block": known_by(zeros_for_none),
    "known by the shape and the numbers, in whatever order": known_by(lambda self, delivery: (self.shape_in(delivery), sorted(numbers(self, delivery)))),
    "known with other uppers": known_by(without_block(checker.UPPER)),
    "known with other lowers": known_by(without_block(checker.LOWER)),
    "known with other mean steps": known_by(without_block(checker.MEAN)),
    "known by the blocks that both have": wrong(is_same=known_by_common),
    "known where it starts as the held one": wrong(is_same=starts_so),
    "known where the held one starts so": wrong(is_same=lambda self, held, delivery: starts_so(self, delivery, held)),
    "known by the first upper": known_by(lambda self, delivery: self.records_in(delivery)[:1]),
    "known by all records but the first": known_by(lambda self, delivery: (self.shape_in(delivery), self.records_in(delivery)[1:])),
    "known by all records but the last": known_by(lambda self, delivery: (self.shape_in(delivery), self.records_in(delivery)[:-1])),
    "known by the first record of each block": known_by(of_each_block(lambda block: block[:1])),
    "known by the last record of each block": known_by(of_each_block(lambda block: block[-1:])),
    "known by all but the first record of each block": known_by(of_each_block(lambda block: block[1:])),
    "known by all but the last record of each block": known_by(of_each_block(lambda block: block[:-1])),
    "known by a delivery that is held no more": wrong(mark_of=known_by_any),
    "known by one that another has replaced": wrong(mark_of=known_by_any, clear=forgets("seen")),
    "known by the one that was held before a clearing": wrong(mark_of=known_by_last),
    "known by the first since the clearing": wrong(mark_of=known_by_first, clear=forgets("first_held")),
    "a refused delivery remembered for the mark": wrong(judge_delivery=judged_and_kept, mark_of=known_by_judged, clear=forgets("last")),
    "a delivery with the held uppers not held": wrong(hold_delivery=same_uppers_not_held),
    "beside a counter file, known by the uppers alone": wrong(
        file_counter=lambda self, path: setattr(self, "counts", Desk.file_counter(self, path)) or "accepted", clear=forgets("counts"), is_same=counter_by_uppers),
}


# Chances of short runs (request A.1).

def most_steps(most):
    """Answers up to so many steps."""
    def needs_few_steps(self, n):
        if n > most:
            raise Refused(plainpair.TOO_MANY_STEPS)
    return wrong(needs_few_steps=needs_few_steps)


def steps_before_place(self, n, p, z, q):
    self.needs_model()
    self.needs_few_steps(n)
    return Desk.within(self, n, p, z, q)


def steps_before_model(self, n, p, z, q):
    if self.model is None:
        self.needs_few_steps(n)
    return Desk.within(self, n, p, z, q)


def place_before_model(self, n, p, z, q):
    """Nothing is of the model where none is held."""
    if self.model is None:
        raise Refused(plainpair.NOT_OF_MODEL)
    return Desk.within(self, n, p, z, q)


def within_needs_delivery(self, n, p, z, q):
    self.needs_model()
    self.needs_delivery()
    return Desk.within(self, n, p, z, q)


def exactly(self, n, p, z, q):
    return Desk.chance(self, n, p, z, q) - CERTAIN * (Desk.chance(self, n - 1, p, z, q) if n else 0)


def rounds_for_steps(self, n, p, z, q):
    """n rounds of f from zero, over 65536^(2^n - 1), cut down to 65536^n."""
    return soundness.rounds_of_f(self.table(), n)[self.table().entry_at(p, z, q)] // CERTAIN ** max(0, 2 ** n - 1 - n)


def pair_by_single(self, n, r, y, x, q, middles):
    """The chance that Y over X is gone within n steps, in q, from r: over the steps j that Y takes, and the middle states."""
    def first(j, t):
        return self.chance(j, r, y, t) - CERTAIN * self.chance(j - 1, r, y, t)
    return sum(first(j, t) * self.chance(n - j, t, x, q) for j in range(1, n) for t in middles)


def pair_of_request(self, n, rule, q):
    return pair_by_single(self, n, rule.q, rule.y, rule.x, q, range(self.table().states))


def by_pairs(pair):
    """A desk by the request's method: the chance of one symbol from that of a stacked pair, over the row's rules. Each is found once for a model."""
    found = {}

    def worked_out(self, n, p, z, q):
        def through(rule):
            if rule.length == 0:
                return CERTAIN ** (n - 1) if rule.q == q else 0
            return pair(self, n - 1, rule, q) if rule.length == 2 else self.chance(n - 1, rule.q, rule.y, q)
        return sum(rule.weight * through(rule) for rule in self.table().rules[p, z]) if n else 0

    def chance(self, n, p, z, q):
        asked = (self.model, n, p, z, q)
        if asked not in found:
            found[asked] = worked_out(self, n, p, z, q)
        return found[asked]
    return wrong(chance=chance)


def remembered(self, n, p, z, q):
    """The chance that was found when the entry was first asked for, of whatever model."""
    return self.__dict__.setdefault("found", {}).setdefault((n, p, z, q), Desk.chance(self, n, p, z, q))


# Counter files (request A.2).

def counter_read_first(self, path):
    self.judge_counter(self.read(path, plainpair.COUNTER_READ))
    return Desk.file_counter(self, path)


def counter_over_a_held_one(self, path):
    counter = self.read(path, plainpair.COUNTER_READ)
    self.judge_counter(counter)
    self.model, self.delivery = self.made_of(counter), None
    return "accepted"


def counter_again_clears(self, path):
    if self.model is not None:
        self.clear()
        raise Refused(plainpair.MODEL_HELD)
    return Desk.file_counter(self, path)


def same_counter_again(self, path):
    """Takes the counter file whose model is held once more."""
    if self.model is not None and self.model == self.made_of(self.read(path, plainpair.COUNTER_READ)[:1536]):
        return "accepted"
    return Desk.file_counter(self, path)


def counter_not_held(self, path):
    before = self.model
    reply = Desk.file_counter(self, path)
    self.model = before
    return reply


def kept_from_before(self, path):
    """Holds the model that the first counter file made."""
    reply = Desk.file_counter(self, path)
    self.model = self.__dict__.setdefault("first", self.model)
    return reply


def refused_is_held(self, path):
    """Holds what a counter file makes although a state's sum is wrong."""
    counter = self.read(path, plainpair.COUNTER_READ)
    if self.model is None and checker.check_counter(counter)[0] == checker.STATE_SUM:
        self.model = self.made_of(counter)
    return Desk.file_counter(self, path)


def by_either(first, second):
    """A filing that takes a file for the other call too, where this one refuses it."""
    def filing(self, path):
        try:
            return first(self, path)
        except Refused:
            if self.model is not None:
                raise
        try:
            return second(self, path)
        except Refused:
            return first(self, path)
    return filing


def judged_by(name):
    """The judgement of a wrong checker of tests/counters.py."""
    def judge_counter(self, counter):
        with counters.replaced(counters.WRONG_CHECKS[name]):
            Desk.judge_counter(self, counter)
    return wrong(judge_counter=judge_counter)


def made_by(name):
    """The model that a wrong one of tests/counters.py makes."""
    def made_of(self, counter):
        with counters.replaced(counters.WRONG_SIDES[name]):
            return Desk.made_of(self, counter)
    return wrong(made_of=made_of)


def filed_as_its_model(self, path):
    """By way of the model file that it makes, which is judged as any other."""
    if self.model is not None:
        raise Refused(plainpair.MODEL_HELD)
    counter = self.read(path, plainpair.COUNTER_READ)
    self.judge_counter(counter)
    model = b"".join(bytes([u, 0, v, d, 0, 0, *weight]) for u, v, d, _, *weight in (counter[at:at + 8] for at in range(0, len(counter), 8)))
    self.judge_model(model)
    self.hold_model(model)
    return "accepted"


CHECKS = ("46 above 1,535 bytes", "no bytes pass", "a part of a record left out", "u 8 passes", "v 8 passes", "d 3 passes", "the fourth byte ignored", "weight 0 passes",
          "weight 65,537 passes", "weights without their fourth byte", "order by (v, u, d)", "equal records pass", "48 before 47", "states counted from u only",
          "states counted from v only", "a state that is not named left out", "the last state not summed", "sums up to 65,536 pass", "48 at the last such state",
          "48 at the state's first record")
MADE = ("up pushes one symbol", "down and up exchanged", "level pushes nothing", "u and v exchanged", "symbol 1 for symbol 0", "weights of two bytes")
WRONG_COUNTERS = {
    **{"a counter file: " + name: judged_by(name) for name in CHECKS},
    **{"a counter file's model: " + name: made_by("the model: " + name) for name in MADE},
    "a counter file read before 41": wrong(file_counter=counter_read_first),
    "a counter file accepted over a held model": wrong(file_counter=counter_over_a_held_one),
    "41 clears, for a counter file": wrong(file_counter=counter_again_clears),
    "the held counter file accepted again": wrong(file_counter=same_counter_again),
    "a counter file not held while reporting success": wrong(file_counter=counter_not_held),
    "the first counter file's model held for any later one": wrong(file_counter=kept_from_before),
    "a counter file of a wrong sum held while it is refused": wrong(file_counter=refused_is_held),
    "a counter file judged and held as a model": wrong(file_counter=Desk.file_model),
    "a model taken for a counter file": wrong(file_model=Desk.file_counter),
    "a model taken by the call for counter files too": wrong(file_counter=by_either(Desk.file_counter, Desk.file_model)),
    "a counter file taken by the call for models too": wrong(file_model=by_either(Desk.file_model, Desk.file_counter)),
    "a counter file replied to as a delivery": wrong(file_counter=lambda self, path: Desk.file_counter(self, path) and "new"),
    "a byte less read of counter files": wrong(read=lambda self, path, most: self.files(path, most - (most == plainpair.COUNTER_READ))),
    "42 while a counter file's model is held, for short chances": wrong(
        file_counter=lambda self, path: setattr(self, "counts", Desk.file_counter(self, path)) or "accepted", clear=lambda self: setattr(self, "counts", None) or Desk.clear(self),
        within=lambda self, *asked: within_needs_delivery(self, *asked) if self.__dict__.get("counts") else Desk.within(self, *asked)),
}


# Merges (request A.5): of the wrong desks of tests/merging.py, one for each rule.

MERGES = ("the larger upper", "the upper of the held one", "the upper of the second", "the smaller lower", "the larger mean", "the mean of the held one where both have it",
          "lowers where either has them", "no lowers", "mean steps only where both have them", "no mean steps", "the held one alone", "the second alone",
          "shows the margin of the held one", "shows the margin of the second", "the mark against the second", "known where the second is the held one", "always new", "always known",
          "42 before 40", "the file read before 40", "the file read before 42", "files the second where no delivery is held", "takes any second of a shape",
          "the merged one held though the second is refused", "a refused second drops the held one", "the held one kept while reporting success",
          "merges with what was filed last, not with what was merged since", "files the second as a delivery")


# Uppers and lowers held by exit (request A.6): put into lists by the place of each entry, and read at a place.

def by_exit(table, p, z, q):
    return (q * table.states + p) * table.symbols + z


def by_file(table, p, z, q):
    return table.entry_at(p, z, q)


def state_for_exit(table, p, z, q):
    return (p * table.states + q) * table.symbols + z


def symbol_before_state(table, p, z, q):
    return (q * table.symbols + z) * table.states + p


def listed(table, numbers, place):
    """The numbers of the entries, which come in file order, each at its place."""
    held = [0] * len(numbers)
    for entry, number in zip(table.entries, numbers):
        held[place(table, *entry)] = number
    return held


def read_back(table, held, place):
    """What stands at the place of each entry, in file order."""
    return [held[place(table, *entry)] for entry in table.entries]


def put_and_read(put, read):
    """The numbers of a block, put in by the one place and read at the other."""
    return lambda table, block: block and read_back(table, listed(table, block, put), read)


def questions_by(put, read):
    turned = put_and_read(put, read)

    def figures(self):
        upper, lower, mean = Desk.figures(self)
        return checker.Figures(turned(self.table(), upper), turned(self.table(), lower), mean)
    return {"figures": figures}


def margin_by(put, read):
    """An upper of a live entry that is 0, which no accepted one is, is taken for 1: a share divides by it."""
    def margin(self):
        Desk.margin(self)
        uppers = put_and_read(put, read)(self.table(), plainpair.figures_of(self.model, self.delivery).upper)
        return self.value(checker.margin(self.table(), [upper or int(live) for upper, live in zip(uppers, self.table().is_live)]))
    return {"margin": margin}


def of_merged(margin):
    """A desk that shows this margin while what was merged is held, which is the only one that is worked out from the lists."""
    def merged_of(self, held, second):
        self.merged = Desk.merged_of(self, held, second)
        return self.merged
    return wrong(merged_of=merged_of, margin=lambda self: (margin if self.__dict__.get("merged") == self.delivery else Desk.margin)(self))


def merges_by(held, second):
    """The pairs stand at the same place of two lists: that of the held delivery, by the one place, and that of the second, by the other."""
    def merged_of(self, former, file):
        table, (one, other) = self.table(), (plainpair.figures_of(self.model, delivery) for delivery in (former, file))
        first, last = ([block and listed(table, block, place) for block in figures[:2]] for figures, place in ((one, held), (other, second)))
        merged = checker.merged_figures(checker.Figures(*first, one.mean), checker.Figures(*last, other.mean))
        return checker.file_of(table, checker.Figures(*(block and read_back(table, block, held) for block in merged[:2]), merged.mean))
    return {"merged_of": merged_of}


WRONG_PLACES = {
    "held by exit and asked in file order": wrong(**questions_by(by_exit, by_file)),
    "held in file order and asked by exit": wrong(**questions_by(by_file, by_exit)),
    "held by exit and asked with state and exit exchanged": wrong(**questions_by(by_exit, state_for_exit)),
    "held by exit and asked with the symbol before the state": wrong(**questions_by(by_exit, symbol_before_state)),
    "the margin of uppers by exit, walked in file order": wrong(**margin_by(by_exit, by_file)),
    "the margin of uppers by exit, walked with state and exit exchanged": wrong(**margin_by(by_exit, state_for_exit)),
    "the margin of merged uppers by exit, walked in file order": of_merged(margin_by(by_exit, by_file)["margin"]),
    "the margin of merged uppers by exit, walked with the symbol before the state": of_merged(margin_by(by_exit, symbol_before_state)["margin"]),
    "a merge of the held ones by exit with the second's in file order": wrong(**merges_by(by_exit, by_file)),
    "a merge of the held ones by exit with the second's, state and exit exchanged": wrong(**merges_by(by_exit, state_for_exit)),
    "a merge of the held ones by exit with the second's, the symbol before the state": wrong(**merges_by(by_exit, symbol_before_state)),
}


def read_one_byte_less(self, path, most):
    return self.files(path, most - 1)


# The lines.

def call_before(self, line):
    """Replies what the call before should have got."""
    reply = Desk.reply_to_line(self, line)
    if reply is None:
        return None
    before, self.before = self.__dict__.get("before", "cleared"), reply
    return before


def unclear_clears(self):
    self.clear()
    return "unclear"


def pieces_of(line):
    """The line in pieces of 300 bytes."""
    return [line[at:at + plainpair.LONGEST_LINE] for at in range(0, max(1, len(line)), plainpair.LONGEST_LINE)]


def long_lines_cut(comments):
    """Takes what is left of a long line, or of a long comment, for further lines."""
    def lines_of(self, text):
        lines = Desk.lines_of(self, text)
        return [piece for line in lines for piece in (pieces_of(line) if line.startswith(b"#") == comments else [line])]
    return lines_of


def without_return(self, line):
    return Desk.reply_to_line(self, line.removesuffix(b"\r"))


def first_words(self, line):
    """Leaves out words beyond those that the call has."""
    words = line.split(b" ")
    return words[:1 + len(plainpair.ARGUMENTS.get(words[0], line))]


def name_in_lower_case(self, line):
    name, *rest = line.split(b" ")
    return [name.lower(), *rest]


def missing_unclear(self, path, most):
    data = self.files(path, most)
    if not data:
        raise LookupError
    return data


def reply_or_unclear(self, name, arguments):
    try:
        return Desk.reply_to(self, name, arguments)
    except LookupError:
        return "unclear"


def well_written(allows):
    """Lines of at most 300 bytes, each of which passes the test."""
    return wrong(is_written_well=lambda self, line: len(line) <= plainpair.LONGEST_LINE and all(map(allows, line)))


def digits(least, most, starts=b"0123456789"):
    return wrong(is_number=lambda self, word: least <= len(word) <= most and word.isdigit() and word[:1] in starts)


WRONG = {
    "condition 3: takes no model": wrong(judge_model=refuses(10)(Desk.judge_model)),
    "condition 3: takes no delivery": wrong(judge_delivery=refuses(20)(Desk.judge_delivery)),
    "condition 3: takes every delivery": wrong(judge_delivery=lambda self, delivery: None),
    "condition 3: files nothing while reporting success": wrong(hold_model=lambda self, file: None, hold_delivery=lambda self, file: None),
    "condition 3: checks the first delivery and waves later ones through": wrong(judge_delivery=first_checked_only),
    "condition 3: prints an invented margin": wrong(margin=invented_margin),
    "condition 3: answers 42 with a delivery held": wrong(needs_delivery=always_42),
    "files no delivery while reporting success": wrong(hold_delivery=lambda self, file: None),
    "an accepted delivery does not replace the former": wrong(hold_delivery=keeps_former),
    "a model file read before 41": wrong(file_model=model_read_first),
    "a delivery file read before 40": wrong(file_delivery=delivery_read_first),
    "43 before 44 for a lower": wrong(lower=lower_block_first),
    "43 before 44 for mean steps": wrong(steps=steps_block_first),
    "44 before 42": wrong(upper=upper_place_first),
    "42 before 40": wrong(needs_model=delivery_before_model),
    "a refused delivery drops the held one": wrong(judge_delivery=refused_drops),
    "a model accepted over a held one": wrong(file_model=over_a_held_one),
    "41 clears": wrong(file_model=filed_again_clears),
    "clear keeps the delivery": wrong(clear=clear_keeps_delivery),
    "clear keeps the model": wrong(clear=clear_keeps_model),
    "clear refused when empty": wrong(clear=clear_refused_when_empty),
    **WRONG_MARKS,
    "a live mark needs a delivery": wrong(live=live_needs_delivery),
    "a margin without lowers": wrong(margin=margin_of_any_shape),
    "the lower for the upper": wrong(upper=Desk.lower),
    "the exit taken for the state": wrong(upper=lambda self, p, z, q: Desk.upper(self, q, z, p)),
    "symbols counted as states": wrong(needs_place=states_for_symbols),
    "the exit not held to the states": wrong(needs_place=place_without_exit),
    "4 steps answered": most_steps(4),
    "3 steps refused": most_steps(2),
    "any number of steps answered, as 3 from there on": wrong(within=lambda self, n, p, z, q: Desk.within(self, min(n, 3), p, z, q)),
    "45 before 44": wrong(within=steps_before_place),
    "45 before 40": wrong(within=steps_before_model),
    "44 before 40": wrong(within=place_before_model),
    "a short chance needs a delivery": wrong(within=within_needs_delivery),
    "a short chance over 65,536^(n+1)": wrong(chance=lambda self, n, p, z, q: CERTAIN * Desk.chance(self, n, p, z, q)),
    "a short chance over 65,536^3, whatever n": wrong(chance=lambda self, n, p, z, q: CERTAIN ** (3 - n) * Desk.chance(self, n, p, z, q)),
    "in exactly n steps instead of within n": wrong(chance=exactly),
    "n rounds of f for n steps": wrong(chance=rounds_for_steps),
    "steps and state exchanged": wrong(within=lambda self, n, p, z, q: Desk.within(self, p, n, z, q)),
    "the exit taken for the state of a short chance": wrong(within=lambda self, n, p, z, q: Desk.within(self, n, q, z, p)),
    "a short chance summed over the exits": wrong(chance=lambda self, n, p, z, q: sum(Desk.chance(self, n, p, z, t) for t in range(self.table().states))),
    "short chances remembered over a clearing": wrong(chance=remembered),
    "a pair left out": by_pairs(lambda self, n, rule, q: 0),
    "a pair without the middle state, from the pair's own": by_pairs(lambda self, n, rule, q: pair_by_single(self, n, rule.q, rule.y, rule.x, q, [rule.q])),
    "a pair without the middle state, from the exit": by_pairs(lambda self, n, rule, q: pair_by_single(self, n, rule.q, rule.y, rule.x, q, [q])),
    "a pair with one step too many": by_pairs(lambda self, n, rule, q: pair_of_request(self, n + 1, rule, q) // CERTAIN),
    "a pair's symbols exchanged": by_pairs(lambda self, n, rule, q: pair_of_request(self, n, rule._replace(y=rule.x, x=rule.y), q)),
    **WRONG_COUNTERS,
    **{"a merge: " + name: merging.WRONG_DESKS[name] for name in MERGES},
    **WRONG_PLACES,
    "the shortfall left out": wrong(reply_to=refusal_cut(shortfall="0")),
    "the place left out": wrong(reply_to=refusal_cut(place="0")),
    "a byte less read of files": wrong(read=read_one_byte_less),
    "a missing file is unclear": wrong(read=missing_unclear, reply_to=reply_or_unclear),
    "a reply to the call before": wrong(reply_to_line=call_before),
    "an unclear line clears": wrong(unclear=unclear_clears),
    "an unclear line gets no reply": wrong(unclear=lambda self: None),
    "a comment is answered": wrong(is_silent=lambda self, line: not line),
    "an empty line is answered": wrong(is_silent=lambda self, line: line.startswith(b"#")),
    "a line that starts with a space and # is silent": wrong(is_silent=lambda self, line: not line or line.lstrip().startswith(b"#")),
    "a last line without newline is left out": wrong(lines_of=lambda self, text: text.split(b"\n")[:-1]),
    "a long line is answered in pieces": wrong(lines_of=long_lines_cut(False)),
    "a long comment is answered in pieces": wrong(lines_of=long_lines_cut(True)),
    "a carriage return left out": wrong(reply_to_line=without_return),
    "a number read as its last digit": wrong(number=lambda self, word: int(word[-1:])),
    "a number read as its first digit": wrong(number=lambda self, word: int(word[:1])),
    "numbers of 8 bits": wrong(number=lambda self, word: int(word) % 256),
    "numbers of 16 bits": wrong(number=lambda self, word: int(word) % 65536),
    "ten digits taken": digits(1, 10),
    "nine digits refused": digits(1, 8),
    "leading zeros refused": wrong(is_number=lambda self, word: Desk.is_number(self, word) and (word[:1] != b"0" or word == b"0")),
    "signs and underscores taken": wrong(is_number=lambda self, word: word.strip(b"+-").replace(b"_", b"").isdigit(), number=lambda self, word: abs(int(word))),
    "several spaces taken for one": wrong(words_of=lambda self, line: line.split() or [b""]),
    "a space after taken": wrong(words_of=lambda self, line: line.removesuffix(b" ").split(b" ")),
    "words too many left out": wrong(words_of=first_words),
    "upper case taken": wrong(words_of=name_in_lower_case),
    "an empty path taken": wrong(is_path=lambda self, word: len(word) <= plainpair.LONGEST_PATH),
    "a path of 256 bytes taken": wrong(is_path=lambda self, word: 1 <= len(word) <= 256),
    "a path of 255 bytes refused": wrong(is_path=lambda self, word: 1 <= len(word) <= 254),
    "bytes from 128 on refused": well_written(lambda byte: 32 <= byte < 127),
    "control bytes taken": well_written(lambda byte: byte != 127),
    "byte 127 taken": well_written(lambda byte: byte >= 32),
    "a line of 264 bytes refused": wrong(is_written_well=lambda self, line: Desk.is_written_well(self, line) and len(line) < 264),
}
RIGHT = {  # which no script may notice
    "short chances by the request's method": by_pairs(pair_of_request),
    "counter files by way of their model": wrong(file_counter=filed_as_its_model),
    "known by the bytes of the file": known_by(lambda self, delivery: delivery),  # a wrong desk until request A.3
    "known by the shape and the numbers of each block": known_by(lambda self, delivery: (self.shape_in(delivery), plainpair.figures_of(self.model, delivery))),
    **{"a merge: " + name: kind for name, kind in merging.RIGHT_DESKS.items()},
    **{"held " + name: wrong(**questions_by(place, place), **margin_by(place, place), **merges_by(place, place))
       for name, place in (("by exit, as request A.6 has it", by_exit), ("in file order", by_file), ("with the symbol before the state", symbol_before_state))},
}


def noticing(cases):
    """For each wrong desk, how many scripts notice it. Stops where one notices a right desk."""
    noticed = dict.fromkeys(WRONG, 0)
    for folder, script in cases:
        right = Desk(folder.reader([])).replies(script)
        for name, kind in WRONG.items():
            noticed[name] += scripts.is_noticed(kind, folder, script, right)
        for name, kind in RIGHT.items():
            if kind(folder.reader([])).replies(script) != right:
                sys.exit("a right desk is taken for a wrong one: " + name)
    return noticed


def main():
    options = argparse.ArgumentParser(description=__doc__)
    options.add_argument("--seed", type=int, default=1)
    options = options.parse_args()
    folders = scripts.folders_of_scripts(options.seed, SCRIPTS)
    noticed = noticing(itertools.chain.from_iterable(((folder, script) for script, _ in made) for folder, made in folders))
    for name, count in noticed.items():
        print("%-72s %s" % (name, "%d scripts" % count if count else "NOT NOTICED"))
    missed = [name for name, count in noticed.items() if not count]
    least = min(noticed, key=noticed.get)
    print("%d of %d wrong desks noticed by %d scripts; the least by %d: %s" % (len(WRONG) - len(missed), len(WRONG), SCRIPTS, noticed[least], least))
    sys.exit(1 if missed else 0)


if __name__ == "__main__":
    main()
