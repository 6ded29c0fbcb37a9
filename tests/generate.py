"""Makes the cases: the edges of document 01, deliveries accepted at the edge, and changes of them by one number, one record or some bytes. So for counter files
(request A.2). Besides, deliveries of several suppliers, to be merged (request A.5)."""
import itertools
import random
import struct

import checker
from checker import Figures, ONE, Rule

TOP, MEAN_LEAST, MEAN_TOP = 2097152, 256, 4194304
ROUNDS = 150  # figures that do not stand by then are given up
CASES_OF_A_MODEL = 20  # changed cases beside a model's accepted ones
LENGTH_MIXES = ((0, 0, 0, 1, 2), (0, 0, 0, 0, 1, 2), (0, 1, 2), (0, 0, 1, 1, 2))  # a rule's L is drawn from one of these


# Files from numbers.

def model_file(records):
    return b"".join(struct.pack("<6BI", *record) for record in records)


def delivery_file(table, figures):
    rows = [(p, z, 0) for p, z in table.rows]
    blocks = ((checker.UPPER, table.entries, figures.upper), (checker.LOWER, table.entries, figures.lower), (checker.MEAN, rows, figures.mean))
    return b"".join(struct.pack("<4BI", kind, *head, value) for kind, heads, values in blocks if values for head, value in zip(heads, values))


# The edges that document 01 names, with its answers; None where it leaves a part unsaid.

MODEL_W = model_file([(0, 0, 0, 0, 0, 0, 32768), (0, 0, 0, 2, 0, 0, 16384), (0, 0, 1, 0, 0, 0, 16384), (1, 0, 1, 0, 0, 0, 65536)])


def one_row_model(pop, push):
    return model_file([(0, 0, 0, 0, 0, 0, pop), (0, 0, 0, 2, 0, 0, push)])


def edges_of_w():
    def filed(second_upper=524288, first_mean=512):
        figures = Figures([655360, second_upper, 0, 1179648], [524288, 393216, 0, 1048576], [first_mean, 256])
        return MODEL_W, delivery_file(checker.table_of(MODEL_W), figures)
    yield "W", *filed(), (0, 0, 0)
    yield "W, least second upper", *filed(second_upper=466034), (0, 0, 0)
    yield "W, second upper too low", *filed(second_upper=466033), (24, 1, -30064771072)
    yield "W, least first mean", *filed(first_mean=486), (0, 0, 0)
    yield "W, first mean too low", *filed(first_mean=485), (27, 8, -2147483648)


def edges_of_one_row():
    def filed(pop, push, upper, lower=None, mean=None):
        model = one_row_model(pop, push)
        figures = Figures(*[None if value is None else [value] for value in (upper, lower, mean)])
        return model, delivery_file(checker.table_of(model), figures)
    yield "mean at the edge", *filed(49152, 16384, ONE, mean=512), (0, 0, 0)
    yield "mean below the edge", *filed(49152, 16384, ONE, mean=511), (27, None, None)
    yield "upper not strict", *filed(49152, 16384, ONE, lower=0), (24, 0, 0)
    yield "critical, upper alone", *filed(32768, 32768, ONE), (0, 0, 0)
    for mean in (MEAN_LEAST, 257, 65536, MEAN_TOP - 1, MEAN_TOP):
        yield "critical, no mean passes", *filed(32768, 32768, ONE, mean=mean), (27, None, None)
    yield "lower above upper", *filed(16384, 49152, 524288, lower=ONE), (25, None, 0)
    yield "a certain return where the chance is 1/3", *filed(16384, 49152, ONE, lower=ONE), (24, 0, 0)
    yield "greatest value", *filed(49152, 16384, TOP), (0, 0, 0)
    yield "above the greatest value", *filed(49152, 16384, TOP + 1), (22, 0, 0)


def documented_edges():
    """(label, model, delivery, the answer of document 01)."""
    yield from edges_of_w()
    yield from edges_of_one_row()
    loop = model_file([(0, 0, 0, 1, 0, 0, 65536)])
    yield "dead entry", loop, delivery_file(checker.table_of(loop), Figures([1], None, None)), (23, 0, 0)
    yield "row sum", model_file([(0, 0, 0, 0, 0, 0, 65535)]), b"", (15, 0, 0)


# The far ends: the last places of the largest files, the longest shortfalls, a model in which nothing is live, and numbers with a fourth byte.

def largest_model():
    """8 states, 16 symbols and 1,024 records: each row removes its symbol, going to each state, but the last pushes one symbol for state 7."""
    records = [(p, z, q, 0, 0, 0, 8192) for p in range(8) for z in range(16) for q in range(8)]
    return model_file(records[:-1] + [(7, 15, 7, 1, 0, 0, 8192)])


def largest_certificate(**last):
    """A certificate for it; `last` gives other last numbers of its blocks."""
    upper = [131200] * 1016 + [147600] * 7 + [last.get("upper", 16500)]
    lower = [131072] * 1016 + [147456] * 7 + [last.get("lower", 16384)]
    mean = [256] * 127 + [last.get("mean", 288)]
    return delivery_file(checker.table_of(largest_model()), Figures(upper, lower, mean))


def far_ends():
    model = largest_model()
    yield "10,240 bytes and 17,408 bytes", model, largest_certificate()
    yield "22 at the last record", model, largest_certificate(mean=255)
    yield "24 at the last entry", model, largest_certificate(upper=16399)
    yield "25 at the last entry", model, largest_certificate(lower=16501)
    yield "26 at the last entry", model, largest_certificate(lower=16385)
    yield "27 at the last row", model, largest_certificate(mean=287)
    heads = [(0, 0)] + [(0, 2)] + [(q, 0) for q in range(1, 8)]
    heavy = model_file([(p, 0, q, length, 0, 0, 65528 if length else 1) for p in range(8) for q, length in heads])
    yield "a shortfall of 19 digits", heavy, delivery_file(checker.table_of(heavy), Figures([TOP] * 64, None, None))
    certain = model_file([(0, 0, 0, 0, 0, 0, 65536)])
    yield "the greatest lower", certain, delivery_file(checker.table_of(certain), Figures([TOP], [TOP], None))
    loop = model_file([(0, 0, 0, 1, 0, 0, 65536)])
    yield "nothing live", loop, delivery_file(checker.table_of(loop), Figures([0], [0], None))
    yield from fourth_bytes(certain, loop)


def fourth_bytes(certain, loop):
    """Numbers of which only the fourth byte is set, and numbers that would be in range without it."""
    def filed(model, *blocks):
        return model, delivery_file(checker.table_of(model), Figures(*blocks))
    for weight in (2**24, 2**31, 65536 + 2**24):
        yield "weight %d" % weight, model_file([(0, 0, 0, 0, 0, 0, weight)]), b""
    for value in (2**24, 2**31):
        yield "upper %d" % value, *filed(loop, [value], None, None)
        yield "lower %d" % value, *filed(loop, [0], [value], None)
        yield "mean %d" % value, *filed(certain, [ONE], None, [value])
    yield "upper %d" % (ONE + 2**24), *filed(certain, [ONE + 2**24], None, None)
    yield "mean %d" % (512 + 2**24), *filed(certain, [ONE], None, [512 + 2**24])


# The order of records, field by field: of two records that are alike before the field, the one with more there has the least behind it.

ORDERED = [((0, 15, 7, 2, 15, 15), (1, 0, 0, 0, 0, 0)), ((0, 0, 7, 2, 15, 15), (0, 1, 0, 0, 0, 0)), ((0, 0, 0, 2, 15, 15), (0, 0, 1, 0, 0, 0)),
           ((0, 0, 0, 1, 15, 0), (0, 0, 0, 2, 0, 0)), ((0, 0, 0, 2, 0, 15), (0, 0, 0, 2, 1, 0)), ((0, 0, 0, 2, 0, 0), (0, 0, 0, 2, 0, 1))]


def neighbours():
    """(label, model, the answer): two records that ascend by one field, which 15 refuses, and the same two in the other order or one of them twice."""
    for field, (low, high) in zip("pZqLYX", ORDERED):
        for label, pair, answer in (("ascends", (low, high), (15, 0)), ("descends", (high, low), (14, 1)), ("stays", (high, high), (14, 1))):
            yield "%s %s" % (field, label), model_file([(*record, 1) for record in pair]), answer


# Random models.

def random_weights(rng, count, favoured):
    """Positive weights that sum to 65,536, now and then multiples of 4,096; the first gets at least the favoured weight."""
    unit = 4096 if count <= (65536 - favoured) // 4096 and rng.randrange(5) < 2 else 1
    parts = (65536 - favoured) // unit
    cuts = [0] + sorted(rng.sample(range(1, parts), count - 1)) + [parts]
    weights = [(high - low) * unit for low, high in zip(cuts, cuts[1:])]
    weights[0] += 65536 - sum(weights)
    return weights


def random_head(rng, states, symbols, mix):
    length = rng.choice(mix)
    y = rng.randrange(symbols) if length else 0
    return rng.randrange(states), length, y, rng.randrange(symbols) if length == 2 else 0


def random_row(rng, p, z, size, count, mix, favoured):
    """About `count` records of row (p, Z); with a favoured weight the first of them removes Z only."""
    heads = [(rng.randrange(size[0]), 0, 0, 0)] if favoured else []
    for _ in range(4 * count):
        head = random_head(rng, *size, mix)
        if len(heads) < count and head not in heads:
            heads.append(head)
    return [Rule(p, z, *head, weight) for head, weight in zip(heads, random_weights(rng, len(heads), favoured))]


def random_model(rng):
    """A model, mostly small; now and then with up to 8 states, 16 symbols and 1,024 records."""
    lot, favoured = rng.randrange(1000), rng.choice((0, 0, 20480, 36864))
    size, counts, mix = (rng.randint(1, 3), rng.randint(1, 3)), (1, 4), rng.choice(LENGTH_MIXES)
    if lot < 50:
        size, counts, favoured = (rng.randint(3, 8), rng.randint(1, 3)), (2, 4), 36864
    elif lot < 70:
        size, favoured, mix = rng.choice(((1, 16), (2, 8), (2, 16))), 53248, (1,) + (2,) * 7
        counts = (1024 // (size[0] * size[1]),) * 2
    elif lot < 73:
        size, counts, favoured = (8, 16), (8, 8), 57344
    records = []
    for p in range(size[0]):
        for z in range(size[1]):
            records += random_row(rng, p, z, size, rng.randint(*counts), mix, favoured)
    return model_file(sorted(records))


def model_of_pairs(rng, states, symbols, each):
    """A model whose rows have about so many records, which remove the symbol or push two."""
    rows = [random_row(rng, p, z, (states, symbols), each, (0, 2), 0) for p in range(states) for z in range(symbols)]
    return model_file(sorted(itertools.chain.from_iterable(rows)))


def model_of_one_long_row():
    """8 states, 16 symbols and 1,024 records: row (0, 0) removes its symbol, going to any state, and pushes two symbols in 889 ways; the others remove theirs."""
    pushed = [(q, 2, y, x) for y in range(16) for x in range(16) for q in range(8)][:889]
    heads = sorted([(q, 0, 0, 0) for q in range(8)] + pushed)
    weights = random_weights(random.Random(1), len(heads), 0)
    others = [(p, z, (p + z) % 8, 0, 0, 0, 65536) for p in range(8) for z in range(16) if (p, z) != (0, 0)]
    return model_file([(0, 0, *head, weight) for head, weight in zip(heads, weights)] + others)


# Accepted figures at the edge.

def stand(step, values, greatest):
    """Repeats the step until the values stand; None when they pass the greatest value or do not stand."""
    for _ in range(ROUNDS):
        after = step(values)
        if max(after) > greatest:
            return None
        if after == values:
            return values
        values = after
    return None


def least_uppers(table, strict, start):
    """The least uppers from the start up that satisfy u >= f(u), or u > f(u) at live entries."""
    add = 0 if strict else (1 << 36) - 1

    def step(upper):
        sides = checker.f(table, upper)
        return [max(u, ((side + add) >> 36) + strict) if live else 0 for u, side, live in zip(upper, sides, table.is_live)]
    return stand(step, start, TOP)


def greatest_lowers(table, upper):
    """The greatest lowers below the uppers, so that any one of them is too high when raised."""
    return stand(lambda lower: [min(low, side >> 36) for low, side in zip(lower, checker.f(table, lower))], upper, TOP)


def rounds_from_zero(rng, table):
    lower = [0] * len(table.entries)
    for _ in range(rng.randint(0, 6)):
        lower = [side >> 36 for side in checker.f(table, lower)]
    return lower


def least_means(table, upper):
    def step(mean):
        sides = checker.mean_side(table, Figures(upper, None, mean))
        return [max(MEAN_LEAST, (side + (1 << 36) - 1) >> 36) for side in sides]
    return stand(step, [MEAN_LEAST] * len(table.rows), MEAN_TOP)


def accepted_bases(rng, table):
    """(label, figures) that should pass: tight uppers for each strictness and roomy strict ones, with and without the other blocks."""
    zeros = [0] * len(table.entries)
    plain, strict = least_uppers(table, 0, zeros), least_uppers(table, 1, zeros)
    roomy = strict and least_uppers(table, 1, [u + rng.randrange(1 << rng.randint(1, 19)) if u else 0 for u in strict])
    for label, upper in (("plain", plain), ("strict", strict), ("roomy", roomy)):
        if upper is None:
            continue
        mean = least_means(table, upper)
        lower = label != "plain" and (greatest_lowers(table, upper) or rounds_from_zero(rng, table))
        yield label, Figures(upper, None, None)
        if mean:
            yield label, Figures(upper, None, mean)
        if lower:
            yield label, Figures(upper, lower, None)
        if mean and lower:
            yield label, Figures(upper, rounds_from_zero(rng, table), mean)


# Deliveries that are alike: pairs for one model that differ in a block, in the numbers of one or in a single number, which the mark has to tell apart (request A.3).

def cut_to(shape, figures):
    """The blocks of a shape alone."""
    return figures._replace(lower=figures.lower if "L" in shape else None, mean=figures.mean if "R" in shape else None)


def with_one(values, at, value):
    changed = list(values)
    changed[at] = max(0, value)
    return changed


def other_blocks(table, whole, least):
    """The figures with one block changed, as a whole or in its first or last number, each by the letter of the block."""
    upper, lower, mean = whole
    higher, ends = [side >> 36 for side in checker.f(table, lower)], (0, -1)
    for changed in (least.upper, *(with_one(upper, at, upper[at] + amount) for at in ends for amount in (-1, 1))):
        yield "U", whole._replace(upper=changed)
    for changed in (least.lower, higher, *(with_one(lower, at, higher[at]) for at in ends)):
        yield "L", whole._replace(lower=changed)
    for changed in (least.mean, *(with_one(mean, at, mean[at] + 1) for at in ends)) if mean else ():
        yield "R", whole._replace(mean=changed)


def exchanged(table, whole):
    """The figures with two small lowers, at entries through which a row's own rule returns, in either order; nothing where there are no two such entries."""
    direct = [e for e, side in enumerate(checker.f(table, [0] * len(whole.upper))) if side]
    for one, other in zip(direct, direct[1:]):
        zeros = [0] * len(whole.upper)
        yield [whole._replace(lower=with_one(with_one(zeros, one, values[0]), other, values[1])) for values in ((1, 2), (2, 1))]


def alike(rng, table):
    """Pairs of figures, a list for each part in which the two may differ: a block that one lacks, lowers of zeros that one lacks, nothing but the kind of the block after
    the uppers, two numbers exchanged, and the numbers of each block. Most of them pass, and some are equal."""
    strict = least_uppers(table, 1, [0] * len(table.entries))
    upper = strict and least_uppers(table, 1, [u + rng.randrange(1, 1 << rng.randint(1, 16)) if u else 0 for u in strict])
    if upper is None:
        return []
    least = Figures(strict, [0] * len(upper), least_means(table, upper))
    whole = Figures(upper, rounds_from_zero(rng, table), least.mean and [min(MEAN_TOP, 2 * mean) for mean in least.mean])
    shapes = [shape for shape in checker.SHAPES if whole.mean or "R" not in shape]
    zeros = [(cut_to(shape, whole._replace(lower=least.lower)), cut_to(shape.replace("L", ""), whole)) for shape in shapes if "L" in shape]
    kinds = [(Figures(upper, least.mean, None), Figures(upper, None, least.mean))] if least.mean and table.states == 1 else []
    others = [(letter, (cut_to(shape, whole), cut_to(shape, other))) for letter, other in other_blocks(table, whole, least) for shape in shapes if letter in shape]
    numbers = [[pair for letter, pair in others if letter == block] for block in "ULR"]
    orders = [tuple(cut_to(shape, figures) for figures in pair) for pair in exchanged(table, whole) for shape in shapes if "L" in shape]
    return [list(itertools.combinations([cut_to(shape, whole) for shape in shapes], 2)), zeros, kinds, orders, *numbers]


# Several suppliers' deliveries for one model: each may be the sharper one at some entries and rows, and another at others (request A.5).

def least_above(table, upper, strict):
    """The least uppers that f of the given ones lets stand."""
    add = 0 if strict else (1 << 36) - 1
    return [((side + add) >> 36) + strict if live else 0 for side, live in zip(checker.f(table, upper), table.is_live)]


def uppers_pass(table, upper, strict):
    return all(u >= least for u, least in zip(upper, least_above(table, upper, strict)))


def even_uppers(table, part):
    """Uppers of which each lies about 1/part of itself above f, if there are any."""
    return stand(lambda upper: [least + least // part for least in least_above(table, upper, 1)], [0] * len(table.entries), TOP)


def drawn(rng, numbers, sides):
    """Each number as it is or, at some places, drawn towards what its side lets stand. Sides grow with the numbers, so that what passed passes still."""
    part = rng.random()
    return [rng.choice((side, rng.randint(*sorted((number, side))))) if rng.random() < part else number for number, side in zip(numbers, sides)]


def raised(rng, table, upper, strict):
    """Some of the uppers higher, by as much as f of them lets stand."""
    part = rng.random()
    ups = [u if rng.random() < part else 0 for u in upper]
    tried = ([min(TOP, u + up // by) for u, up in zip(upper, ups)] for by in (1, 4, 16, 64, 256, 1024, 4096))
    return next((higher for higher in tried if uppers_pass(table, higher, strict)), upper)


def roomy_uppers(rng, table):
    """Two lists of uppers that pass, first where they need not be strict, then strict ones: even ones, all 2, all 1 and the least, as far as there are such."""
    even, flat = even_uppers(table, rng.choice((4, 16, 64, 256, 1024))), [[value if live else 0 for live in table.is_live] for value in (TOP, ONE)]
    plain, strict = (least_uppers(table, strict, [0] * len(table.entries)) for strict in (0, 1))
    for is_strict, least in enumerate(([strict, plain], [strict])):
        yield [upper for upper in (even, *(upper for upper in flat if uppers_pass(table, upper, is_strict)), *least) if upper]


def supplied_uppers(rng, table, strict, roomy):
    """Uppers that pass: those from which most suppliers start, or other roomy ones, raised or brought down at some entries."""
    upper = rng.choice((roomy[0], roomy[0], roomy[0], rng.choice(roomy)))
    for _ in range(rng.choice((0, 1, 2, 2, 2, 3))):
        upper = raised(rng, table, upper, strict) if rng.randrange(2) else drawn(rng, upper, least_above(table, upper, strict))
    return upper


def supplied_lowers(rng, table):
    """Lowers that pass beside any strict uppers, brought up from zero at some entries, in some rounds."""
    lower = [0] * len(table.entries)
    for _ in range(rng.choice((0, 1, 2, 4, 8, 16))):
        lower = drawn(rng, lower, [side >> 36 for side in checker.f(table, lower)])
    return lower


def supplied_means(rng, table, upper):
    """Mean steps that pass beside these uppers, brought down from roomy ones at some rows; None where there are none."""
    least, times = least_means(table, upper), rng.choice((1, 2, 3))
    if least is None or times * max(least) > MEAN_TOP:
        return least
    mean = [times * number for number in least]
    sides = checker.mean_side(table, Figures(upper, None, mean))
    return drawn(rng, mean, [max(MEAN_LEAST, (side + (1 << 36) - 1) >> 36) for side in sides])


def suppliers(rng, table, each):
    """Figures of up to so many suppliers for each shape, all of which pass; for a shape that no figures have, none."""
    roomy = list(roomy_uppers(rng, table))
    for shape in list(checker.SHAPES) * each:
        strict = 1 if "L" in shape else rng.randrange(2)
        upper = supplied_uppers(rng, table, strict, roomy[strict]) if roomy[strict] else None
        mean = supplied_means(rng, table, upper) if upper and "R" in shape else None
        if upper and (mean or "R" not in shape):
            yield Figures(upper, supplied_lowers(rng, table) if "L" in shape else None, mean)


# Changes of figures. Each takes (rng, table, figures) and hands back figures.

def moved(rng, values, amount, among=None):
    """The values with one of them moved; among are the positions to choose from."""
    at = rng.choice(among or range(len(values)))
    return [max(0, value + amount) if i == at else value for i, value in enumerate(values)]


def live_places(table):
    return [i for i, live in enumerate(table.is_live) if live]


def upper_down(rng, table, figures):
    return figures._replace(upper=moved(rng, figures.upper, -1, live_places(table)))


def two_uppers_down(rng, table, figures):
    return upper_down(rng, table, upper_down(rng, table, figures))


def lower_up(rng, table, figures):
    lower = figures.lower or rounds_from_zero(rng, table)
    return figures._replace(lower=moved(rng, lower, 1, live_places(table)))


def two_lowers_up(rng, table, figures):
    return lower_up(rng, table, lower_up(rng, table, figures))


def lower_over_upper(rng, table, figures):
    """One lower 1 above its upper, and another 1 above where it was."""
    raised, at = lower_up(rng, table, figures), rng.choice(live_places(table) or [0])
    return raised._replace(lower=[min(TOP, figures.upper[i] + 1) if i == at else low for i, low in enumerate(raised.lower)])


def mean_down(rng, table, figures):
    return figures._replace(mean=moved(rng, figures.mean or least_means(table, figures.upper) or [MEAN_TOP] * len(table.rows), -1))


def dead_up(rng, table, figures):
    dead = [i for i, live in enumerate(table.is_live) if not live]
    if figures.lower and rng.randrange(2):
        return figures._replace(lower=moved(rng, figures.lower, 1, dead))
    return figures._replace(upper=moved(rng, figures.upper, 1, dead))


def range_ends(rng, table, figures):
    """One value at an end of its range or 1 beyond."""
    field = rng.choice([name for name in Figures._fields if getattr(figures, name)])
    ends = (MEAN_LEAST - 1, MEAN_LEAST, MEAN_TOP, MEAN_TOP + 1, MEAN_TOP + 2**24) if field == "mean" else (0, TOP, TOP + 1, 2**24, 2**32 - 1)
    values = list(getattr(figures, field))
    values[rng.randrange(len(values))] = rng.choice(ends)
    return figures._replace(**{field: values})


def lowers_beside(rng, table, figures):
    """Lowers added to uppers that may lack strictness."""
    return figures._replace(lower=[min(pair) for pair in zip(figures.upper, rounds_from_zero(rng, table))])


def random_live(rng, table, choose):
    return [choose() if live else 0 for live in table.is_live]


def random_values(rng, table, figures):
    def choose():
        return rng.randrange(1 << rng.randint(0, 21))
    lower = random_live(rng, table, choose) if rng.randrange(2) else None
    mean = [rng.randint(MEAN_LEAST, MEAN_TOP) for _ in table.rows] if rng.randrange(2) else None
    return Figures(random_live(rng, table, choose) if rng.randrange(2) else figures.upper, lower, mean)


def extremes(rng, table, figures):
    """Values at the two ends of their ranges."""
    upper = rng.choice((figures.upper, random_live(rng, table, lambda: rng.choice((0, TOP, TOP)))))
    lower = rng.choice((None, random_live(rng, table, lambda: rng.choice((0, TOP, TOP)))))
    return Figures(upper, lower, rng.choice((None, [rng.choice((MEAN_LEAST, MEAN_TOP)) for _ in table.rows])))


# Changes of bytes. Each takes (rng, file, record size) and hands back a file.

def split(file, size):
    return [file[i:i + size] for i in range(0, len(file), size)]


def damaged(rng, file, size):
    changed = bytearray(file)
    for _ in range(rng.randint(1, 3) if file else 0):
        changed[rng.randrange(len(changed))] = rng.choice((0, 1, 2, 16, 76, 82, 85, 255, rng.randrange(256)))
    return bytes(changed)


def swapped(rng, file, size):
    records = split(file, size)
    i, j = rng.randrange(len(records)), rng.randrange(len(records))
    records[i], records[j] = records[j], records[i]
    return b"".join(records)


def doubled(rng, file, size):
    records = split(file, size)
    i = rng.randrange(len(records))
    return b"".join(records[:i] + [records[i]] + records[i:])


def truncated(rng, file, size):
    return file[:rng.choice((0, len(file) - 1, len(file) - size, size * rng.randrange(len(file) // size), rng.randrange(len(file))))]


def extended(rng, file, size):
    """Longer by a byte, by a record, or up to and beyond the greatest length."""
    greatest = 10240 if size == 10 else 17408
    added = rng.choice((1, size, max(0, greatest - len(file)), max(0, greatest + size - len(file)), greatest))
    return (file + file * (added // len(file) + 1))[:len(file) + added]


def random_bytes(rng, file, size):
    """Random bytes, of the same length, of some whole number of records or of any small length."""
    return rng.randbytes(rng.choice((len(file), size * rng.randint(1, 12), rng.randrange(200))))


def field_changed(rng, file, size):
    """One field of one record moved by 1 or set beyond its range."""
    changed = bytearray(file)
    at = size * rng.randrange(len(file) // size) + rng.randrange(size - 4)
    changed[at] = rng.choice(((changed[at] + 1) % 256, (changed[at] - 1) % 256, 3, 8, 16, 255))
    return bytes(changed)


def faulty_head_and_value(rng, file, size):
    """A head and a value out of order in one record or in two, so that the order of reasons shows."""
    changed, count = bytearray(file), len(file) // size
    i = rng.randrange(count)
    j = rng.choice((i, rng.randrange(count)))
    changed[size * i + rng.randrange(size - 4)] ^= rng.choice((1, 255))
    changed[size * j + size - 1] = 255
    return bytes(changed)


# Changes of a model's records. Each takes (rng, records) and hands back records.

def with_record(records, at, **fields):
    return records[:at] + [records[at]._replace(**fields)] + records[at + 1:]


def weight_by_one(rng, records):
    at = rng.randrange(len(records))
    return with_record(records, at, weight=records[at].weight + rng.choice((-1, 1)))


def weight_range(rng, records):
    return with_record(records, rng.randrange(len(records)), weight=rng.choice((0, 65536, 65537, 65536 + 2**24, 2**32 - 1)))


def weight_shifted(rng, records):
    """One unit of weight moved between two records of a row, so that the model may pass and its figures just fail."""
    pairs = [i for i in range(1, len(records)) if records[i][:2] == records[i - 1][:2]]
    if not pairs:
        return records
    i, amount = rng.choice(pairs), rng.choice((-1, 1))
    shifted = with_record(records, i, weight=records[i].weight + amount)
    return with_record(shifted, i - 1, weight=records[i - 1].weight - amount)


def unused_set(rng, records):
    at = rng.randrange(len(records))
    return with_record(records, at, **{rng.choice("yx"): rng.randint(1, 15)})


def faulty_record(rng, records):
    """One record with two or more faults at once, so that the order of reasons shows."""
    at = rng.randrange(len(records))
    faults = [{"q": 8}, {"length": 1, "x": 1}, {"length": 0, "y": 1}, {"weight": 0}, {"weight": 65537}, records[max(0, at - 1)]._asdict()]
    for fields in sorted(rng.sample(faults, rng.randint(2, 3)), key=len, reverse=True):
        records = with_record(records, at, **fields)
    return records


def row_dropped(rng, records):
    gone = rng.choice(records)[:2]
    return [rule for rule in records if rule[:2] != gone] or records


def state_added(rng, records):
    """A record that goes to a state without rows."""
    at = rng.randrange(len(records))
    added = with_record(records, at, q=min(7, max(r.p for r in records) + 1))
    return sorted(added)


def last_row_wrong(rng, records):
    return with_record(records, len(records) - 1, weight=max(1, records[-1].weight - rng.randint(1, 9)))


FIGURE_CHANGES = (upper_down,) * 3 + (two_uppers_down, two_lowers_up, lower_over_upper, mean_down, mean_down, dead_up, range_ends, lowers_beside,
                                      random_values, extremes) + (lower_up,) * 3
BYTE_CHANGES = (damaged, damaged, swapped, doubled, truncated, extended, random_bytes, field_changed, faulty_head_and_value)
RECORD_CHANGES = (weight_by_one, weight_range, weight_shifted, weight_shifted, unused_set, faulty_record, faulty_record, row_dropped, state_added, last_row_wrong)


def changed_case(rng, model, table, figures):
    """(the change's name, model, delivery)."""
    lot, delivery = rng.randrange(100), delivery_file(table, figures)
    if lot < 56:
        change = rng.choice(FIGURE_CHANGES)
        return change.__name__, model, delivery_file(table, change(rng, table, figures))
    change = rng.choice(RECORD_CHANGES if lot < 76 else BYTE_CHANGES)
    if lot < 76:
        return change.__name__, model_file(change(rng, table.records)), delivery
    if lot < 86:
        return change.__name__ + " model", change(rng, model, 10), rng.choice((delivery, delivery, b""))
    return change.__name__ + " delivery", model, change(rng, delivery, 8)


def family(rng):
    """One model with its accepted deliveries and changes of them."""
    model = random_model(rng)
    table = checker.table_of(model)
    bases = list(accepted_bases(rng, table))
    for label, figures in bases:
        yield "accepted " + label, model, delivery_file(table, figures)
    for _ in range(CASES_OF_A_MODEL):
        label, figures = rng.choice(bases or [("none stands", random_values(rng, table, Figures([0] * len(table.entries), None, None)))])
        name, new_model, delivery = changed_case(rng, model, table, figures)
        yield label + ", " + name, new_model, delivery


def cases(seed, count):
    """`count` cases as (label, model, delivery): the edges of document 01, the far ends and the order of records first, then family after family."""
    rng, made = random.Random(seed), 0
    for case in itertools.chain((edge[:3] for edge in documented_edges()), far_ends(), ((label, model, b"") for label, model, _ in neighbours())):
        if made < count:
            yield case
        made += 1
    while made < count:
        for case in family(rng):
            if made < count:
                yield case
            made += 1


# Counter files (request A.2).

def counter_file(moves):
    """The file of moves (u, v, d, weight)."""
    return b"".join(struct.pack("<4BI", u, v, d, 0, weight) for u, v, d, weight in moves)


QUEUE = counter_file([(0, 0, 0, 32768), (0, 0, 2, 16384), (0, 1, 1, 16384), (1, 0, 1, 8192), (1, 1, 0, 32768), (1, 1, 2, 24576)])
QUEUE_FIGURES = Figures([737280, 368640, 229376, 884736], [688128, 311296, 172032, 811008], [2048, 2560])


def queue_delivery(**changed):
    """The queue's delivery with some of its blocks changed; a block that is None is left out."""
    return delivery_file(checker.table_of(checker.made_model(QUEUE)), QUEUE_FIGURES._replace(**changed))


def largest_counter():
    """8 states and every move that there is: 192 records."""
    weights = [2746] + [2730] * 23
    return counter_file((u, v, d, weights[3 * v + d]) for u in range(8) for v in range(8) for d in range(3))


def counter_edges():
    """(label, counter file, number and place as request A.2 has them)."""
    one, largest = (0, 0, 0, 65536), largest_counter()
    yield "the queue", QUEUE, (0, 0)
    yield "one move", counter_file([one]), (0, 0)
    yield "no bytes", b"", (46, 0)
    yield "a byte too few", QUEUE[:-1], (46, 0)
    yield "a byte too many", QUEUE + b"\0", (46, 0)
    yield "four bytes too few", QUEUE[:-4], (46, 0)
    yield "192 records", largest, (0, 0)
    yield "192 records less a byte", largest[:-1], (46, 0)
    yield "192 records and a byte", largest + b"\0", (46, 0)
    yield "193 records, all but the last in order", largest + largest[-8:], (46, 0)
    yield "193 records, the first wrong", b"\x08" + largest[1:] + largest[-8:], (46, 0)
    yield "twice as long", largest * 2, (46, 0)
    yield from wrong_records()
    yield from wrong_order()
    yield from wrong_sums()


def wrong_records():
    """47 for a field, by the record's place, before any sum is looked at."""
    good = [(0, 0, 0, 32768), (0, 1, 2, 32768), (1, 0, 1, 65536)]
    for at, place in ((0, "first"), (1, "second"), (2, "last")):
        for field, value in ((0, 8), (1, 8), (2, 3), (0, 255), (1, 255), (2, 255), (3, 1), (3, 255)):
            changed = bytearray(counter_file(good))
            changed[8 * at + field] = value
            yield "byte %d of the %s record %d" % (field, place, value), bytes(changed), (47, at)
        for weight in (0, 65537, 65536 + 2**24, 2**24, 2**31, 2**32 - 1):
            moves = good[:at] + [(*good[at][:3], weight)] + good[at + 1:]
            yield "weight %d in the %s record" % (weight, place), counter_file(moves), (47, at)
    yield "state 7", counter_file([(u, 7, 0, 65536) for u in range(8)]), (0, 0)


def wrong_order():
    yield "two equal records", counter_file([(0, 0, 0, 32768)] * 2), (47, 1)
    yield "equal but for the weight", counter_file([(0, 0, 0, 30000), (0, 0, 0, 35536)]), (47, 1)
    yield "d descends", counter_file([(0, 0, 2, 32768), (0, 0, 0, 32768)]), (47, 1)
    yield "v descends while d ascends", counter_file([(0, 1, 0, 32768), (0, 0, 2, 32768), (1, 0, 0, 65536)]), (47, 1)
    yield "u descends while v and d ascend", counter_file([(1, 0, 0, 65536), (0, 1, 2, 65536)]), (47, 1)
    yield "in order by (v, u, d)", counter_file([(0, 0, 0, 32768), (1, 0, 0, 65536), (0, 1, 0, 32768)]), (47, 2)
    yield "in order by (u, v, d), not by (v, u, d)", counter_file([(0, 1, 0, 65536), (1, 0, 0, 65536)]), (0, 0)
    yield "in order by (u, v, d), not by (u, d, v)", counter_file([(0, 0, 2, 32768), (0, 1, 0, 32768), (1, 0, 0, 65536)]), (0, 0)
    yield "the second of three out of order, the third wrong", counter_file([(0, 0, 1, 32768), (0, 0, 0, 32768), (9, 0, 0, 1)]), (47, 1)
    yield "the second of three wrong, the third out of order", counter_file([(0, 0, 1, 32768), (0, 9, 0, 32768), (0, 0, 0, 1)]), (47, 1)


def wrong_sums():
    yield "a sum of 65,535", counter_file([(0, 0, 0, 65535)]), (48, 0)
    yield "a sum of 65,537", counter_file([(0, 0, 0, 65536), (0, 0, 1, 1)]), (48, 0)
    yield "a sum of 131,072", counter_file([(0, 0, 0, 65536), (0, 0, 1, 65536)]), (48, 0)
    yield "a state named as v alone", counter_file([(0, 1, 0, 65536)]), (48, 1)
    yield "a state named as u alone", counter_file([(0, 0, 0, 65536), (1, 0, 0, 65535)]), (48, 1)
    yield "a state that is not named, below one that is", counter_file([(0, 0, 0, 65536), (2, 2, 0, 65536)]), (48, 1)
    yield "state 0 not named", counter_file([(1, 1, 0, 65536)]), (48, 0)
    yield "the last state's sum", counter_file([*((u, u, 0, 65536) for u in range(7)), (7, 7, 0, 65535)]), (48, 7)
    yield "two states' sums", counter_file([(0, 0, 0, 65536), (1, 1, 0, 1), (2, 2, 0, 1)]), (48, 1)
    yield "sums wrong and a last record wrong", counter_file([(0, 0, 0, 1), (1, 1, 0, 1), (2, 2, 3, 1)]), (47, 2)
    yield "a wrong sum, and a length that is none", counter_file([(0, 0, 0, 1)]) + b"\0", (46, 0)


def random_moves(rng, u, states, count, favoured):
    """About `count` moves of a state; with a favoured weight the first of them goes down."""
    heads = [(rng.randrange(states), 0)] if favoured else []
    for _ in range(4 * count):
        head = (rng.randrange(states), rng.randrange(3))
        if len(heads) < count and head not in heads:
            heads.append(head)
    return [(u, *head, weight) for head, weight in zip(heads, random_weights(rng, len(heads), favoured))]


def random_counter(rng):
    """A counter file that is accepted, mostly of few states; now and then of up to 8 and 192 records."""
    lot, favoured = rng.randrange(100), rng.choice((0, 0, 20480, 36864))
    states, counts = rng.randint(1, 3), (1, 5)
    if lot < 12:
        states, counts, favoured = rng.randint(4, 8), rng.choice(((1, 3), (2, 6), (24, 24))), 36864
    return counter_file(sorted(move for u in range(states) for move in random_moves(rng, u, states, min(3 * states, rng.randint(*counts)), favoured)))


# Changes of a counter file. Each takes (rng, the file) and hands back a file.

def counter_byte(rng, counter):
    """One byte of a record moved by 1 or set to another value."""
    changed, at = bytearray(counter), 8 * rng.randrange(len(counter) // 8) + rng.randrange(8)
    changed[at] = rng.choice(((changed[at] + 1) % 256, (changed[at] - 1) % 256, 3, 8, 128, 255))
    return bytes(changed)


def counter_beyond(rng, counter):
    """One field of a record just beyond its range."""
    changed, at = bytearray(counter), 8 * rng.randrange(len(counter) // 8)
    field, value = rng.choice(((0, b"\x08"), (1, b"\x08"), (2, b"\x03"), (3, b"\x01"), (4, bytes(4)), (4, b"\x01\x00\x01\x00")))
    changed[at + field:at + field + len(value)] = value
    return bytes(changed)


def counter_weight(rng, counter):
    changed, at = bytearray(counter), 8 * rng.randrange(len(counter) // 8) + 4
    weight = int.from_bytes(changed[at:at + 4], "little")
    chosen = rng.choice((0, 1, 65536, 65537, weight + 1, max(1, weight - 1), weight + 2**24, 2**32 - 1))
    changed[at:at + 4] = (chosen % 2**32).to_bytes(4, "little")
    return bytes(changed)


def counter_order(rng, counter):
    """Two neighbours exchanged, or the order by (v, u, d) or (u, d, v)."""
    records = split(counter, 8)
    if rng.randrange(3):
        at = rng.randrange(max(1, len(records) - 1))
        return b"".join(records[:at] + records[at:at + 2][::-1] + records[at + 2:])
    key = rng.choice(((1, 0, 2), (0, 2, 1)))
    return b"".join(sorted(records, key=lambda record: [record[place] for place in key]))


def counter_state_gone(rng, counter):
    """A state without its moves, so that it may still be named as v."""
    gone = rng.choice(split(counter, 8))[0]
    return b"".join(record for record in split(counter, 8) if record[0] != gone) or counter


def counter_state_alone(rng, counter):
    """A further state, which no move goes to, mostly of a wrong sum."""
    new = max(max(record[:2]) for record in split(counter, 8)) + 1
    return counter + counter_file([(min(7, new), 0, rng.randrange(3), rng.choice((1, 65535, 65535, 65536)))])


def counter_state_added(rng, counter):
    """A move that goes to a state that has none."""
    records = split(counter, 8)
    at, new = rng.randrange(len(records)), min(7, max(record[0] for record in records) + rng.randint(1, 2))
    return b"".join(sorted(records[:at] + [records[at][:1] + bytes([new]) + records[at][2:]] + records[at + 1:], key=lambda record: record[:3]))


def counter_faults(rng, counter):
    """Two faults at once, so that the order of reasons shows."""
    for change in rng.sample((counter_byte, counter_weight, counter_order, counter_state_gone), 2):
        counter = change(rng, counter)
    return counter + rng.choice((b"", b"", b"\0"))


def counter_length(rng, counter):
    """Cut, longer by a byte or a record, or up to and beyond the greatest length."""
    added = rng.choice((1, 4, 8, max(0, 1536 - len(counter)), max(0, 1544 - len(counter)), max(0, 1537 - len(counter))))
    longer = (counter * (added // len(counter) + 2))[:len(counter) + added]
    return rng.choice((longer, longer, counter[:-1], counter[:-8], counter[:-4], b"", counter[8:]))


def counter_doubled(rng, counter):
    return doubled(rng, counter, 8)


def counter_noise(rng, counter):
    return rng.randbytes(rng.choice((len(counter), 8 * rng.randint(1, 12), rng.randrange(200))))


COUNTER_CHANGES = (counter_byte, counter_beyond, counter_beyond, counter_beyond, counter_weight, counter_weight, counter_order, counter_state_gone, counter_state_alone,
                   counter_state_added, counter_faults, counter_faults, counter_length, counter_doubled, counter_noise)


def counter_family(rng):
    """One counter file with the accepted deliveries for the model that it makes, and changes of the one or the other, as (label, counter file, delivery)."""
    counter = random_counter(rng)
    table = checker.table_of(checker.made_model(counter))
    bases = list(accepted_bases(rng, table)) or [("none stands", random_values(rng, table, Figures([0] * len(table.entries), None, None)))]
    for label, figures in bases:
        yield "accepted " + label, counter, delivery_file(table, figures)
    for change in COUNTER_CHANGES:
        yield change.__name__, change(rng, counter), delivery_file(table, rng.choice(bases)[1])
    for _ in range(len(COUNTER_CHANGES) // 2):
        change = rng.choice(FIGURE_CHANGES)
        yield change.__name__, counter, delivery_file(table, change(rng, table, rng.choice(bases)[1]))
