"""Checks models and deliveries as document 01 words it, and counter files as request A.2 does, merges deliveries as request A.5 does, and sums chances and mean
steps over runs, all in exact whole numbers."""
import itertools
import struct
from collections import namedtuple
from functools import lru_cache
from math import prod
from operator import mul

# The reasons, each named once.
(MODEL_LENGTH, FIELD_RANGE, UNUSED_NOT_ZERO, WEIGHT_RANGE, NOT_ASCENDING, ROW_SUM) = range(10, 16)
(DELIVERY_LENGTH, NOT_DUE, VALUE_RANGE, DEAD_NOT_ZERO, UPPER_FAILS, LOWER_ABOVE_UPPER, LOWER_FAILS, MEAN_FAILS) = range(20, 28)
(COUNTER_LENGTH, MOVE_WRONG, STATE_SUM) = range(46, 49)
ACCEPTED = (0, 0, 0)

UPPER, LOWER, MEAN = 85, 76, 82  # kind bytes
SHAPES = {"U": (UPPER,), "UL": (UPPER, LOWER), "UR": (UPPER, MEAN), "ULR": (UPPER, LOWER, MEAN)}
VALUE_RANGES = {UPPER: (0, 2097152), LOWER: (0, 2097152), MEAN: (256, 4194304)}
CERTAIN = 65536  # the weight of chance 1
ONE = 1 << 20  # chance 1 as an upper, a lower or a margin
DOWN, LEVEL, UP = range(3)  # what d says of a move

Rule = namedtuple("Rule", "p z q length y x weight")
Move = namedtuple("Move", "u v d zero weight")
Figures = namedtuple("Figures", "upper lower mean")  # lower and mean are None where the shape lacks them


class Table:
    """An accepted model: its sizes, its rules by row, its entries in file order and the live ones among them."""

    def __init__(self, records):
        self.records = records
        self.states, self.symbols = sizes(records)
        self.rows = [(p, z) for p in range(self.states) for z in range(self.symbols)]
        self.rules = {row: [] for row in self.rows}
        for rule in records:
            self.rules[rule.p, rule.z].append(rule)
        self.entries = [(p, z, q) for p, z in self.rows for q in range(self.states)]
        live = live_entries(self)
        self.is_live = [entry in live for entry in self.entries]

    def row_at(self, p, z):
        return p * self.symbols + z

    def entry_at(self, p, z, q):
        return self.row_at(p, z) * self.states + q


def sizes(records):
    """One more than the greatest state, and than the greatest symbol, named in any record."""
    return 1 + max(max(r.p, r.q) for r in records), 1 + max(max(r.z, r.y, r.x) for r in records)


def live_entries(table):
    """The least set of entries closed under: a rule empties at once, or all that it pushes is emptied by entries of the set."""
    live, grown = set(), True
    while grown:
        found = {(p, z, q) for p, z, q in table.entries if any(empties(table, live, rule, q) for rule in table.rules[p, z])}
        grown = found != live
        live = found
    return live


def empties(table, live, rule, q):
    """Whether the rule, followed by runs already known to return, can empty the stack in q."""
    if rule.length == 0:
        return rule.q == q
    if rule.length == 1:
        return (rule.q, rule.y, q) in live
    return any((rule.q, rule.y, t) in live and (t, rule.x, q) in live for t in range(table.states))


# The model file.

def records_of(model):
    return [Rule(*fields) for fields in struct.iter_unpack("<6BI", model)]


@lru_cache(maxsize=256)
def check_model(model):
    """(0, 0) when the model is accepted, else the first reason's number and its place."""
    if len(model) == 0 or len(model) % 10 != 0 or len(model) > 10240:
        return MODEL_LENGTH, 0
    records = records_of(model)
    for place, rule in enumerate(records):
        number = record_reason(rule, records[place - 1] if place else None)
        if number:
            return number, place
    return row_sum_refusal(records) or (0, 0)


def record_reason(rule, before):
    if max(rule.p, rule.q) > 7 or max(rule.z, rule.y, rule.x) > 15 or rule.length > 2:
        return FIELD_RANGE
    if (rule.length == 0 and rule.y != 0) or (rule.length < 2 and rule.x != 0):
        return UNUSED_NOT_ZERO
    if not 1 <= rule.weight <= CERTAIN:
        return WEIGHT_RANGE
    if before is not None and not ascends(before, rule):
        return NOT_ASCENDING
    return 0


def ascends(before, rule):
    return before[:6] < rule[:6]


def row_sum_refusal(records):
    states, symbols = sizes(records)
    sums = [0] * (states * symbols)
    for rule in records:
        sums[rule.p * symbols + rule.z] += rule.weight
    for place, total in enumerate(sums):
        if total != CERTAIN:
            return ROW_SUM, place
    return None


@lru_cache(maxsize=256)
def table_of(model):
    """The table of an accepted model."""
    return Table(records_of(model))


# The equations.

def middle_sum(table, v, rule, q):
    """The sum over all states t of v(r, Y, t) * v(t, X, q), for a rule that pushes Y over X and goes to r."""
    first = table.entry_at(rule.q, rule.y, 0)
    return sum(map(mul, v[first:first + table.states], v[table.entry_at(0, rule.x, q)::table.symbols * table.states]))


def rule_product(table, v, rule, q):
    """What one rule adds to f(v) at an entry with exit q, in 1/2^56."""
    if rule.length == 0:
        return rule.weight << 40 if rule.q == q else 0
    if rule.length == 1:
        return rule.weight * v[table.entry_at(rule.q, rule.y, q)] << 20
    return rule.weight * middle_sum(table, v, rule, q)


def f(table, v):
    """f(v) at every entry, in 1/2^56."""
    return [sum([rule_product(table, v, rule, q) for rule in table.rules[p, z]]) for p, z, q in table.entries]


def rule_steps(table, figures, rule):
    """What one rule adds to the right side of its row's mean steps inequality, in 1/2^44 of a step."""
    upper, mean = figures.upper, figures.mean
    if rule.length == 0:
        return 0
    pushed = mean[table.row_at(rule.q, rule.y)] << 20
    if rule.length == 2:
        first = table.entry_at(rule.q, rule.y, 0)
        pushed += sum(map(mul, upper[first:first + table.states], mean[rule.x::table.symbols]))
    return rule.weight * pushed


def mean_side(table, figures):
    """The right side of the mean steps inequality for every row, in 1/2^44 of a step."""
    return [(1 << 44) + sum(rule_steps(table, figures, rule) for rule in table.rules[row]) for row in table.rows]


def slacks(table, upper):
    """u - f(u) at every entry, in 1/2^56."""
    return [(u << 36) - side for u, side in zip(upper, f(table, upper))]


def margin(table, upper):
    """The least share (u - f(u)) / u over the live entries in 1,048,576ths, rounded down."""
    shares = [slack * ONE // (u << 36) for u, slack, live in zip(upper, slacks(table, upper), table.is_live) if live]
    return min(shares, default=ONE)


# The delivery file.

def block_sizes(table, shape):
    return [len(table.rows) if kind == MEAN else len(table.entries) for kind in SHAPES[shape]]


def shape_of(table, delivery):
    """The delivery's shape by its length, and by the kind byte of record V where UL and UR are equally long."""
    fitting = [shape for shape in SHAPES if 8 * sum(block_sizes(table, shape)) == len(delivery)]
    if len(fitting) == 2:
        return "UL" if delivery[8 * len(table.entries)] == LOWER else "UR"
    return fitting[0] if fitting else None


def heads_due(table, shape):
    """The kind, p, Z, q due in each record."""
    rows = [(p, z, 0) for p, z in table.rows]
    return [(kind, *head) for kind in SHAPES[shape] for head in (rows if kind == MEAN else table.entries)]


def record_refusal(table, shape, records):
    for place, (record, due) in enumerate(zip(records, heads_due(table, shape))):
        if record[:4] != due:
            return NOT_DUE, place, 0
        least, greatest = VALUE_RANGES[due[0]]
        if not least <= record[4] <= greatest:
            return VALUE_RANGE, place, 0
    return None


def figures_of(table, shape, records):
    values, blocks = [record[4] for record in records], {}
    for kind, size in zip(SHAPES[shape], block_sizes(table, shape)):
        blocks[kind], values = values[:size], values[size:]
    return Figures(blocks[UPPER], blocks.get(LOWER), blocks.get(MEAN))


def dead_refusal(table, figures):
    for place, value in enumerate(figures.upper + (figures.lower or [])):
        if value != 0 and not table.is_live[place % len(table.entries)]:
            return DEAD_NOT_ZERO, place, 0
    return None


def upper_refusal(table, figures):
    for place, slack in enumerate(slacks(table, figures.upper)):
        must_be_strict = figures.lower is not None and table.is_live[place]
        if slack < 0 or (must_be_strict and slack == 0):
            return UPPER_FAILS, place, slack
    return None


def order_refusal(table, figures):
    for place, (lower, upper) in enumerate(zip(figures.lower or [], figures.upper)):
        if lower > upper:
            return LOWER_ABOVE_UPPER, len(table.entries) + place, 0
    return None


def lower_refusal(table, figures):
    if figures.lower is None:
        return None
    for place, (lower, side) in enumerate(zip(figures.lower, f(table, figures.lower))):
        if (lower << 36) > side:
            return LOWER_FAILS, len(table.entries) + place, side - (lower << 36)
    return None


def mean_refusal(table, figures):
    if figures.mean is None:
        return None
    start = len(table.entries) * (1 if figures.lower is None else 2)
    for place, (mean, side) in enumerate(zip(figures.mean, mean_side(table, figures))):
        if (mean << 36) < side:
            return MEAN_FAILS, start + place, (mean << 36) - side
    return None


WHOLE_FILE_CHECKS = (dead_refusal, upper_refusal, order_refusal, lower_refusal, mean_refusal)


@lru_cache(maxsize=64)
def check_delivery(model, delivery):
    """(0, 0, 0) when both files are accepted, else the first reason's number, its place and its shortfall."""
    number, place = check_model(model)
    if number:
        return number, place, 0
    table = table_of(model)
    shape = shape_of(table, delivery)
    if shape is None:
        return DELIVERY_LENGTH, 0, 0
    records = [(kind, p, z, q, value) for kind, p, z, q, value in struct.iter_unpack("<4BI", delivery)]
    refusal = record_refusal(table, shape, records)
    figures = None if refusal else figures_of(table, shape, records)
    for check in WHOLE_FILE_CHECKS:
        refusal = refusal or check(table, figures)
    return refusal or ACCEPTED


def accepted_figures(model, delivery):
    """The figures of an accepted delivery."""
    table = table_of(model)
    return figures_of(table, shape_of(table, delivery), list(struct.iter_unpack("<4BI", delivery)))


def file_of(table, figures):
    """The delivery file of these figures: in each record what is due there, and the number."""
    shape = "U" + "L" * (figures.lower is not None) + "R" * (figures.mean is not None)
    numbers = [number for block in figures if block is not None for number in block]
    return b"".join(struct.pack("<4BI", *due, number) for due, number in zip(heads_due(table, shape), numbers))


def printed(model, delivery):
    """The lines that `showbounds` prints."""
    refusal = check_delivery(model, delivery)
    if refusal != ACCEPTED:
        return "refused %d %d %d\n" % refusal
    table, figures = table_of(model), accepted_figures(model, delivery)
    lines = ["table %d %d %d %d" % (table.states, table.symbols, len(table.records), sum(table.is_live))]
    lines.append("margin %s" % ("-" if figures.lower is None else margin(table, figures.upper)))
    lowers = ["-"] * len(table.entries) if figures.lower is None else figures.lower
    for entry, live, lower, upper, slack in zip(table.entries, table.is_live, lowers, figures.upper, slacks(table, figures.upper)):
        if live:
            lines.append("chance %d %d %d %s %d %d" % (*entry, lower, upper, slack))
    for row, mean in zip(table.rows, figures.mean or []):
        lines.append("steps %d %d %d" % (*row, mean))
    return "".join(line + "\n" for line in lines)


# The delivery that is merged of two for one model (request A.5).

def merged_figures(one, other):
    return Figures(merged_uppers(one.upper, other.upper), merged_lowers(one.lower, other.lower), merged_means(one.mean, other.mean))


def merged_uppers(one, other):
    """The smaller upper of each pair."""
    return [min(pair) for pair in zip(one, other)]


def merged_lowers(one, other):
    """The larger lower of each pair where both have lowers; else none."""
    return None if one is None or other is None else [max(pair) for pair in zip(one, other)]


def merged_means(one, other):
    """The smaller mean of each pair where both have mean steps; else those of the one that has them, if any."""
    if one is None or other is None:
        return other if one is None else one
    return [min(pair) for pair in zip(one, other)]


# The counter file, and the model that it makes (request A.2).

def moves_of(counter):
    return [Move(*fields) for fields in struct.iter_unpack("<4BI", counter)]


@lru_cache(maxsize=4096)
def check_counter(counter):
    """(0, 0) when the counter file is accepted, else the first reason's number and its place."""
    if not counter_length_passes(len(counter)):
        return COUNTER_LENGTH, 0
    moves = moves_of(counter)
    return move_refusal(moves) or state_sum_refusal(moves) or (0, 0)


def counter_length_passes(length):
    return 0 < length <= 1536 and length % 8 == 0


def move_refusal(moves):
    for place, move in enumerate(moves):
        if not move_passes(move) or (place and not move_ascends(moves[place - 1], move)):
            return MOVE_WRONG, place
    return None


def move_passes(move):
    return move.u <= 7 and move.v <= 7 and move.d <= 2 and move.zero == 0 and 1 <= move.weight <= CERTAIN


def move_ascends(before, move):
    return (before.u, before.v, before.d) < (move.u, move.v, move.d)


def states_named(moves):
    """Every state up to the greatest that is named as u or v."""
    return range(1 + max(max(move.u, move.v) for move in moves))


def state_sum_refusal(moves):
    for state in states_named(moves):
        if sum(move.weight for move in moves if move.u == state) != CERTAIN:
            return STATE_SUM, state
    return None


def made_model(counter):
    """The model file that an accepted counter file makes: record by record the rule (u, symbol 0) -> v that pushes d symbols 0, of the same weight."""
    return b"".join(map(made_record, moves_of(counter)))


def made_record(move):
    return struct.pack("<6BI", move.u, 0, move.v, move.d, 0, 0, move.weight)


CACHED = (check_model, table_of, check_delivery, check_counter)


def forget():
    """Empties the caches, for use after a function here has been replaced."""
    for cached in CACHED:
        cached.cache_clear()


# Chances and mean steps from runs, without the equations.

def pushed_stack(rule, stack):
    """The stack after the rule; a stack is a tuple with its top first."""
    return (rule.y, rule.x)[:rule.length] + stack[1:]


def sums_by_runs(rules, p, z):
    """For n = 0, 1, ...: {exit: chance within n steps}, mean counted to n, both over 65536**n, and how many places runs stand at."""
    standing, returned, returned_steps, n = {(p, (z,)): 1}, {}, 0, 0
    while True:
        yield returned, returned_steps + n * sum(standing.values()), len(standing)
        n += 1
        after = {}
        returned = {q: chance * CERTAIN for q, chance in returned.items()}
        returned_steps *= CERTAIN
        for (state, stack), product in standing.items():
            for rule in rules[state, stack[0]]:
                place = (rule.q, pushed_stack(rule, stack))
                after[place] = after.get(place, 0) + product * rule.weight
        for q in [state for state, stack in after if not stack]:
            product = after.pop((q, ()))
            returned[q] = returned.get(q, 0) + product
            returned_steps += n * product
        standing = after


def sums_at(rules, p, z, n):
    sums = sums_by_runs(rules, p, z)
    for _ in range(n):
        next(sums)
    return next(sums)


def chances_by_runs(rules, p, z, n):
    """{exit: the chance of returning there within n steps, over 65536**n}, without the exits of chance 0."""
    return sums_at(rules, p, z, n)[0]


def mean_by_runs(rules, p, z, n):
    """The mean of steps counted no further than n, over 65536**n."""
    return sums_at(rules, p, z, n)[1]


def runs(rules, state, stack, n):
    """Every run of at most n steps as (its list of records, the state and the stack it ends with)."""
    yield [], state, stack
    if n and stack:
        for rule in rules[state, stack[0]]:
            for rest, end, left in runs(rules, rule.q, pushed_stack(rule, stack), n - 1):
                yield [rule] + rest, end, left


def sums_by_lists(rules, p, z, n):
    """The same chances and mean as above, from each list of records by itself; only for tiny n."""
    returned, mean = {}, 0
    for run, end, left in runs(rules, p, (z,), n):
        product = CERTAIN ** (n - len(run))
        for rule in run:
            product *= rule.weight
        if not left:
            returned[end] = returned.get(end, 0) + product
        if not left or len(run) == n:
            mean += product * len(run)
    return returned, mean


# First passage to zero of a counter machine, from moves alone (request A.2; document 000, section 5).

def passage_sums(moves, u):
    """For n = 0, 1, ...: {v: the chance of first reaching zero in v within n moves, from u with count 1}, and the mean of moves counted to n, both over 65536**n."""
    standing, passed, passed_moves, n = {(u, 1): 1}, {}, 0, 0
    while True:
        yield passed, passed_moves + n * sum(standing.values())
        n += 1
        after = moved(moves, standing)
        ended = {v: product for (v, count), product in after.items() if count == 0}
        passed = {v: passed.get(v, 0) * CERTAIN + ended.get(v, 0) for v in {**passed, **ended}}
        passed_moves = passed_moves * CERTAIN + n * sum(ended.values())
        standing = {place: product for place, product in after.items() if goes_on(place[1])}


def moved(moves, standing):
    """{(state, count): product of chances} after one move more."""
    after = {}
    for (state, count), product in standing.items():
        for move in (move for move in moves if move.u == state):
            place = (move.v, count_after(count, move))
            after[place] = after.get(place, 0) + product * move.weight
    return after


def passage_by_lists(moves, u, n):
    """The same chances from each list of moves by itself, without those that are 0; only for tiny n and few moves."""
    passed = {}
    for length in range(n + 1):
        for run in itertools.product(moves, repeat=length):
            end = end_of(run, u)
            if end is not None:
                passed[end] = passed.get(end, 0) + prod(move.weight for move in run) * CERTAIN ** (n - length)
    return passed


def end_of(run, u):
    """The state in which a list of moves from u, at the count 1, first brings the count to 0 by its last move; None where it does not, or is no run."""
    state, count = u, 1
    for move in run:
        if count == 0 or move.u != state:
            return None
        state, count = move.v, count + move.d - 1
    return state if count == 0 else None


def count_after(count, move):
    return count + {DOWN: -1, LEVEL: 0, UP: 1}[move.d]


def goes_on(count):
    return count > 0


def chances_of(moves, j, u):
    """{v: the weight of the move from u to v of this kind}, p_uv of equation (19) in 65,536ths."""
    found = {}
    for move in moves:
        if move.u == u and move.d == j:
            found[move.v] = found.get(move.v, 0) + move.weight
    return found


def passage_side(moves, x, u, v):
    """The right side of equation (19) for x_uv in 1/2^56, of numbers x[u][v] in 1/2^20."""
    states = range(len(x))
    down, level, up = (chances_of(moves, j, u) for j in (DOWN, LEVEL, UP))
    by_level = sum(level.get(w, 0) * x[w][v] for w in states)
    by_up = sum(up.get(y, 0) * sum(x[y][z] * x[z][v] for z in states) for y in states)
    return (down.get(v, 0) << 40) + (by_level << 20) + by_up
