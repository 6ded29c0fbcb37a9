"""Checks counter files (request A.2): what is accepted and by which number and place the rest is refused, the model that one makes, and what the model says of it.

Of each accepted file, the model that it makes passes as a model; the chances of first reaching zero, by a walk over (state, count), are the model's chances for up to
10 moves, and of small machines those by each list of moves; the right side of equation (19) of document 000 is f of the model on random vectors; and accepted bounds
hold of the walk. Each wrong variant below must be noticed by some file. With --program, the desk answers all of the files, and every short chance of the accepted ones.
"""
import argparse
import contextlib
import itertools
import random
import struct
import sys
from collections import Counter
from pathlib import Path

import checker
import generate
import scripts
import soundness
from checker import CERTAIN, DOWN, LEVEL, UP

MACHINES = 150  # random counter files, each with its changes
MOVES = 10  # n runs from 0 to here
LISTED, MOST_LISTED = 4, 7  # up to so many moves runs are also listed one by one, of machines with at most so many records
VECTORS = 4  # on which equation (19) is evaluated, for each file
TOP = 2097152  # the greatest number of a vector
FEWEST = 100  # times, at least, that a reason and an accepted file occur
PLACES = {46: 1, 47: 20, 48: 8}  # places, at least, at which each reason occurs
RIGHT = {name: getattr(checker, name) for name in dir(checker)}  # the right functions, for use within wrong ones


def fail(what):
    sys.exit("counters: " + what)


# What holds of an accepted counter file. Each says what is wrong, or nothing.

def model_faults(counter):
    """The model that it makes passes."""
    refusal = checker.check_model(checker.made_model(counter))
    if refusal != (0, 0):
        yield "the made model is refused: %d at %d" % refusal


def passages(counter, u):
    """For n = 0 to MOVES, chances of first passage and the mean of moves, by the walk over (state, count)."""
    return list(itertools.islice(checker.passage_sums(checker.moves_of(counter), u), MOVES + 1))


def walk_faults(counter):
    """Chances of first passage, and means of moves, are those of the model's runs."""
    table = checker.table_of(checker.made_model(counter))
    for u in checker.states_named(checker.moves_of(counter)):
        by_runs = [sums[:2] for sums in itertools.islice(checker.sums_by_runs(table.rules, u, 0), MOVES + 1)]
        for n, (passed, returned) in enumerate(zip(passages(counter, u), by_runs)):
            if passed != returned:
                yield "from state %d within %d moves: %s, by the model's runs %s" % (u, n, passed, returned)


def list_faults(counter):
    """Of a small machine, the walk gives what each list of moves by itself gives."""
    moves = checker.moves_of(counter)
    if len(moves) > MOST_LISTED:
        return
    for u, n in itertools.product(checker.states_named(moves), range(LISTED + 1)):
        if passages(counter, u)[n][0] != checker.passage_by_lists(moves, u, n):
            yield "from state %d within %d moves: %s, by lists of moves %s" % (u, n, passages(counter, u)[n][0], checker.passage_by_lists(moves, u, n))


def random_vector(rng, states):
    """Numbers by state and state: from the whole range, or at its ends."""
    choose = rng.choice((lambda: rng.randint(0, TOP), lambda: rng.choice((0, 1, TOP)), lambda: rng.randrange(1 << rng.randint(0, 21))))
    return [[choose() for _ in range(states)] for _ in range(states)]


def side_faults(counter):
    """The right side of equation (19) is f of the model."""
    rng, table = random.Random(counter), checker.table_of(checker.made_model(counter))
    moves, states = checker.moves_of(counter), range(len(checker.states_named(checker.moves_of(counter))))
    for _ in range(VECTORS):
        x = random_vector(rng, len(states))
        by_model = checker.f(table, [x[u][v] for u in states for v in states])
        for (u, v), side in zip(itertools.product(states, states), by_model):
            if checker.passage_side(moves, x, u, v) != side:
                yield "equation (19) for x_%d%d: %d, by the model %d" % (u, v, checker.passage_side(moves, x, u, v), side)


def faults(counter):
    """The first thing that is wrong of an accepted counter file, or None; also what a wrong variant runs into."""
    try:
        return next(itertools.chain(model_faults(counter), walk_faults(counter), list_faults(counter), side_faults(counter)), None)
    except (IndexError, KeyError, ValueError, struct.error) as error:
        return "%s: %s" % (type(error).__name__, error)


# Accepted bounds hold of the walk.

def broken_promises(table, figures, sums):
    """Uppers, lowers, mean steps and their tail, against first passages."""
    yield from soundness.broken_chances(table, figures, sums)
    yield from soundness.broken_means(table, figures, sums)
    yield from soundness.broken_tails(table, figures, sums)


def promises(counter, delivery):
    """The made model's table, the figures that are accepted for it, and the sums of first passages."""
    model = checker.made_model(counter)
    table, figures = checker.table_of(model), checker.accepted_figures(model, delivery)
    return table, figures, {(u, 0): passages(counter, u) for u in range(table.states)}


def promise_faults(counter, delivery):
    return broken_promises(*promises(counter, delivery))


def false_promises_noticed(counter, delivery):
    """Whether an upper and mean steps just below what the walk reaches, the least figure by the tail less 1, and a lower just above what it allows, are noticed; True where there are none to try."""
    table, figures, sums = promises(counter, delivery)

    def breaks(kind, **changed):
        return soundness.has(kind, broken_promises(table, figures._replace(**changed), sums))
    chances, mean = sums[0, 0][MOVES]
    noticed = []
    if chances.get(0):
        noticed.append(breaks("upper", upper=[(chances[0] * checker.ONE - 1) // CERTAIN ** MOVES, *figures.upper[1:]], lower=None))
    if figures.mean:
        noticed.append(breaks("mean", mean=[(mean * 256 - 1) // CERTAIN ** MOVES, *figures.mean[1:]]))
        noticed.append(soundness.is_the_requests_tail(table, sums, lambda means: breaks("tail", mean=means)))
    if figures.lower:
        noticed.append(breaks("lower", lower=[soundness.lower_too_high(table, figures, sums), *figures.lower[1:]]))
    return all(noticed)


# Wrong checks. Each is the checker with some of its functions replaced, and must answer some file otherwise.

def lengths(least, most, unit=8):
    return {"counter_length_passes": lambda length: least <= length <= most and length % unit == 0}


def rest_left_out(counter):
    return RIGHT["moves_of"](counter[:len(counter) // 8 * 8])


def fields_passing(**changed):
    """A test of a move in which some fields are looked at as if they were others."""
    return {"move_passes": lambda move: RIGHT["move_passes"](move._replace(**{name: change(getattr(move, name)) for name, change in changed.items()}))}


def order_by(*places):
    return {"move_ascends": lambda before, move: [before[place] for place in places] < [move[place] for place in places]}


def states_of(named):
    return {"states_named": lambda moves: named(moves)}


def sums_first(counter):
    """48 before 47."""
    if not checker.counter_length_passes(len(counter)):
        return checker.COUNTER_LENGTH, 0
    moves = checker.moves_of(counter)
    return checker.state_sum_refusal(moves) or checker.move_refusal(moves) or (0, 0)


def records_first(counter):
    """47 before 46, of the records that are whole."""
    moves = rest_left_out(counter)
    return checker.move_refusal(moves) or RIGHT["check_counter"](counter)


def fields_before_order(moves):
    """All fields of the file before any order."""
    wrong = [place for place, move in enumerate(moves) if not checker.move_passes(move)]
    falling = [place for place in range(1, len(moves)) if not checker.move_ascends(moves[place - 1], moves[place])]
    return (checker.MOVE_WRONG, (wrong + falling)[0]) if wrong or falling else None


def sum_place(change):
    """Names another place than the state."""
    def refusal(moves):
        found = RIGHT["state_sum_refusal"](moves)
        return found and (found[0], change(moves, found[1]))
    return {"state_sum_refusal": refusal}


def sums_pass(test):
    """Takes a state's moves by another test of their sum."""
    def refusal(moves):
        totals = ((state, sum(move.weight for move in moves if move.u == state)) for state in checker.states_named(moves))
        return next(((checker.STATE_SUM, state) for state, total in totals if not test(total)), None)
    return {"state_sum_refusal": refusal}


def greatest(states):
    return range(1 + max(states))


WRONG_CHECKS = {
    "46 above 1,535 bytes": lengths(1, 1535),
    "193 records pass": lengths(1, 1544),
    "any length above 0 passes": lengths(8, 10**6),
    "no bytes pass": {"check_counter": lambda counter: RIGHT["check_counter"](counter) if counter else (0, 0)},
    "a multiple of 4 passes": {**lengths(8, 1536, 4), "moves_of": rest_left_out},
    "a part of a record left out": {**lengths(8, 1543, 1), "moves_of": rest_left_out},
    "46 by the model's record of 10 bytes": lengths(1, 1536, 10),
    "u 8 passes": fields_passing(u=lambda u: 0 if u == 8 else u),
    "v 8 passes": fields_passing(v=lambda v: 0 if v == 8 else v),
    "u not tested": fields_passing(u=lambda u: 0),
    "v not tested": fields_passing(v=lambda v: 0),
    "states up to 15 pass": fields_passing(u=lambda u: u // 2, v=lambda v: v // 2),
    "state 7 refused": fields_passing(v=lambda v: v + 1),
    "d 3 passes": fields_passing(d=lambda d: 2 if d == 3 else d),
    "d 2 refused": fields_passing(d=lambda d: d + 1),
    "d not tested": fields_passing(d=lambda d: 0),
    "the fourth byte ignored": fields_passing(zero=lambda zero: 0),
    "the fourth byte up to 1": fields_passing(zero=lambda zero: zero // 2),
    "weight 0 passes": fields_passing(weight=lambda weight: weight or 1),
    "weight 65,537 passes": fields_passing(weight=lambda weight: 65536 if weight == 65537 else weight),
    "weight 65,536 refused": fields_passing(weight=lambda weight: weight + 1),
    "weights without their fourth byte": fields_passing(weight=lambda weight: weight % 2**24),
    "order by (v, u, d)": order_by(1, 0, 2),
    "order by (u, d, v)": order_by(0, 2, 1),
    "order by (u, v)": order_by(0, 1),
    "order by the weight too": order_by(0, 1, 2, 3, 4),
    "equal records pass": {"move_ascends": lambda before, move: before[:3] <= move[:3]},
    "order not tested": {"move_ascends": lambda before, move: True},
    "48 before 47": {"check_counter": sums_first},
    "47 before 46": {"check_counter": records_first},
    "all fields before any order": {"move_refusal": fields_before_order},
    "states counted from u only": states_of(lambda moves: greatest(move.u for move in moves)),
    "states counted from v only": states_of(lambda moves: greatest(move.v for move in moves)),
    "a state that is not named left out": states_of(lambda moves: sorted({state for move in moves for state in move[:2]})),
    "always eight states": states_of(lambda moves: range(8)),
    "the last state not summed": states_of(lambda moves: RIGHT["states_named"](moves)[:-1]),
    "sums not tested": states_of(lambda moves: ()),
    "48 at the last such state": states_of(lambda moves: reversed(RIGHT["states_named"](moves))),
    "48 at place 0": sum_place(lambda moves, state: 0),
    "48 at the state's first record": sum_place(lambda moves, state: sum(move.u < state for move in moves)),
    "sums up to 65,536 pass": sums_pass(lambda total: total <= 65536),
    "sums from 65,536 on pass": sums_pass(lambda total: total >= 65536),
    "sums of 16 bits": sums_pass(lambda total: total and total % 65536 == 0),
}


# Wrong models, walks and equations. Each must give a fault of some accepted file.

def made(change):
    """A record of the model by another rule."""
    return {"made_record": lambda move: struct.pack("<6BI", *change(move))}


def made_sorted(*places):
    """The made records in the order of other fields of the moves."""
    def model(counter):
        moves = sorted(checker.moves_of(counter), key=lambda move: [move[place] for place in places])
        return b"".join(map(checker.made_record, moves))
    return {"made_model": model}


def counts(down, level, up):
    return {"count_after": lambda count, move: count + (down, level, up)[move.d]}


def side(by_down, by_level, by_up):
    """Equation (19) with other terms, each from its weights and x by (u, v)."""
    def passage_side(moves, x, u, v):
        down, level, up = (checker.chances_of(moves, j, u) for j in (DOWN, LEVEL, UP))
        return (by_down(down, v) << 40) + (by_level(level, x, v) << 20) + by_up(up, x, v)
    return {"passage_side": passage_side}


def straight(down, v):
    return down.get(v, 0)


def level_sum(level, x, v):
    return sum(weight * x[w][v] for w, weight in level.items())


def up_sum(product):
    """The sum over y, with another sum over z."""
    return lambda up, x, v: sum(weight * product(x, y, v) for y, weight in up.items())


def through_all(x, y, v):
    return sum(x[y][z] * x[z][v] for z in range(len(x)))


WRONG_SIDES = {
    "the model: up pushes one symbol": made(lambda m: (m.u, 0, m.v, min(m.d, 1), 0, 0, m.weight)),
    "the model: down and up exchanged": made(lambda m: (m.u, 0, m.v, 2 - m.d, 0, 0, m.weight)),
    "the model: level pushes nothing": made(lambda m: (m.u, 0, m.v, m.d - (m.d == 1), 0, 0, m.weight)),
    "the model: down pushes one symbol": made(lambda m: (m.u, 0, m.v, max(m.d, 1), 0, 0, m.weight)),
    "the model: u and v exchanged": made(lambda m: (m.v, 0, m.u, m.d, 0, 0, m.weight)),
    "the model: symbol 1 pushed": made(lambda m: (m.u, 0, m.v, m.d, int(m.d > 0), 0, m.weight)),
    "the model: symbol 1 pushed under": made(lambda m: (m.u, 0, m.v, m.d, 0, int(m.d == 2), m.weight)),
    "the model: symbol 1 for symbol 0": made(lambda m: (m.u, 1, m.v, m.d, int(m.d > 0), int(m.d == 2), m.weight)),
    "the model: weights of two bytes": made(lambda m: (m.u, 0, m.v, m.d, 0, 0, m.weight % 65536)),
    "the model: a weight less 1": made(lambda m: (m.u, 0, m.v, m.d, 0, 0, m.weight - (m.d == 2))),
    "the model: every state goes to its own": made(lambda m: (m.u, 0, m.u, m.d, 0, 0, m.weight)),
    "the model: in order of (v, u, d)": made_sorted(1, 0, 2),
    "the model: in order of (u, d, v)": made_sorted(0, 2, 1),
    "the model: without its last record": {"made_model": lambda counter: RIGHT["made_model"](counter)[:-10]},
    "the walk: the count goes on below zero": {"goes_on": lambda count: True},
    "the walk: goes on from zero, where it may go up again": {"goes_on": lambda count: count >= 0},
    "the walk: up by two": counts(-1, 0, 2),
    "the walk: level goes down": counts(-1, -1, 1),
    "the walk: down and up exchanged": counts(1, 0, -1),
    "the walk: no more than two": {"count_after": lambda count, move: min(2, RIGHT["count_after"](count, move))},
    "(19): no level moves": side(straight, lambda level, x, v: 0, up_sum(through_all)),
    "(19): no moves up": side(straight, level_sum, lambda up, x, v: 0),
    "(19): down to any state": side(lambda down, v: sum(down.values()), level_sum, up_sum(through_all)),
    "(19): level with x_vw for x_wv": side(straight, lambda level, x, v: sum(weight * x[v][w] for w, weight in level.items()), up_sum(through_all)),
    "(19): up without the middle state, from y": side(straight, level_sum, up_sum(lambda x, y, v: x[y][y] * x[y][v])),
    "(19): up without the middle state, from v": side(straight, level_sum, up_sum(lambda x, y, v: x[y][v] * x[v][v])),
    "(19): up with x_yv twice": side(straight, level_sum, up_sum(lambda x, y, v: x[y][v] ** 2)),
    "(19): up with one factor": side(straight, level_sum, up_sum(lambda x, y, v: x[y][v] << 20)),
    "(19): down and up exchanged": {"chances_of": lambda moves, j, u: RIGHT["chances_of"](moves, 2 - j, u)},
}


@contextlib.contextmanager
def replaced(parts):
    """The checker with these parts replaced."""
    for name, part in parts.items():
        setattr(checker, name, part)
    RIGHT["check_counter"].cache_clear()
    try:
        yield
    finally:
        for name in parts:
            setattr(checker, name, RIGHT[name])
        RIGHT["check_counter"].cache_clear()


def answer(counter):
    """What the check answers, or what a wrong one runs into."""
    try:
        return checker.check_counter(counter)
    except (IndexError, KeyError, ValueError, struct.error) as error:
        return type(error).__name__


def first_noticed(parts, notices, cases):
    """The number of the first case that notices a wrong variant, or None."""
    with replaced(parts):
        return next((n for n, case in enumerate(cases) if notices(*case)), None)


# The files.

def each_byte(counter):
    """The file with each of its bytes changed, one at a time, and every length up to its own."""
    for at, byte in enumerate(counter):
        for value in sorted({0, 1, 2, 3, 7, 8, 127, 128, 255, (byte + 1) % 256, (byte - 1) % 256} - {byte}):
            yield "byte %d is %d" % (at, value), counter[:at] + bytes([value]) + counter[at + 1:], None
        yield "%d bytes" % at, counter[:at], None


def all_cases(seed):
    """(label, counter file, delivery or None), the edges first."""
    yield from ((label, counter, None) for label, counter, _ in generate.counter_edges())
    yield "the queue", generate.QUEUE, generate.queue_delivery()
    yield from each_byte(generate.QUEUE)
    rng = random.Random(seed)
    for _ in range(MACHINES):
        yield from generate.counter_family(rng)


def check_edges():
    edges = list(generate.counter_edges())
    for label, counter, due in edges:
        if checker.check_counter(counter) != due:
            fail("%s: %s, due are %s" % (label, checker.check_counter(counter), due))
    model = checker.made_model(generate.QUEUE)
    if checker.check_delivery(model, generate.queue_delivery()) != checker.ACCEPTED:
        fail("the queue's delivery is not accepted")
    if checker.margin(checker.table_of(model), generate.QUEUE_FIGURES.upper) != 4968:
        fail("the queue's margin is not 4968")
    return len(edges)


def check_answers(answers):
    """Every reason occurs often enough, and at different places."""
    numbers, places = Counter(number for number, _ in answers), {}
    for number, place in answers:
        places.setdefault(number, set()).add(place)
    rare = [number for number in (0, *PLACES) if numbers[number] < FEWEST or len(places[number]) < PLACES.get(number, 1)]
    if rare:
        fail("too few of %s: %s" % (rare, numbers))
    return "%d accepted; " % numbers[0] + "; ".join("%d by %d, places: %d" % (numbers[number], number, len(places[number])) for number in PLACES)


def check_promises(cases):
    """How many accepted deliveries hold of the walk."""
    held = 0
    for label, counter, delivery in cases:
        if delivery is None or checker.check_counter(counter) != (0, 0) or checker.check_delivery(checker.made_model(counter), delivery) != checker.ACCEPTED:
            continue
        fault = next(promise_faults(counter, delivery), None)
        if fault:
            fail("%s: an accepted %s does not hold of the walk at %s, n = %d: %s" % (label, *fault, counter.hex()))
        if not false_promises_noticed(counter, delivery):
            fail("%s: a false bound is not noticed: %s" % (label, counter.hex()))
        held += 1
    return held


def check_variants(cases, accepted):
    """Every wrong variant is noticed."""
    right, found = [answer(counter) for _, counter, _ in cases], {}
    asked = [(counter, due) for (_, counter, _), due in zip(cases, right)]
    for name, parts in WRONG_CHECKS.items():
        found[name] = first_noticed(parts, lambda counter, due: answer(counter) != due, asked)
    for name, parts in WRONG_SIDES.items():
        found[name] = first_noticed(parts, lambda counter: faults(counter) is not None, [(counter,) for counter in accepted])
    for name in WRONG_SIDES:
        if name.startswith("the walk: "):
            found[name + ", by lists"] = first_noticed(WRONG_SIDES[name], lambda counter: any(list_faults(counter)), [(counter,) for counter in accepted])
    for name, n in found.items():
        print("%-64s %s" % (name, "NOT NOTICED" if n is None else "file %d" % n))
    if None in found.values():
        fail("wrong variants are not noticed: %s" % [name for name, n in found.items() if n is None])
    return len(found)


def script_of(folder, counters):
    """Each file is filed; of an accepted one every short chance and live mark is asked for, and a model is refused; then it is cleared."""
    for counter in counters:
        yield b"counter " + folder.name_of(counter)
        if checker.check_counter(counter) != (0, 0):
            continue
        states = range(len(checker.states_named(checker.moves_of(counter))))
        for u, v in itertools.product(states, states):
            yield from (b"within %d %d 0 %d" % (n, u, v) for n in range(4))
            yield b"live %d 0 %d" % (u, v)
        yield from (b"live %d 0 0" % len(states), b"live 0 1 0", b"upper 0 0 0", b"counter " + folder.name_of(b""), b"model " + folder.name_of(b""), b"clear")


def check_desk(program, counters):
    """The desk answers as the plain pair does."""
    folder = scripts.Folder([])
    script = b"\n".join(script_of(folder, counters))
    return scripts.check_desk(program, folder, "counter files", script, *scripts.expected(folder, script)[:2])


def main():
    options = argparse.ArgumentParser(description=__doc__)
    options.add_argument("--seed", type=int, default=1)
    options.add_argument("--program", help="the desk program, which then answers all of the files")
    options = options.parse_args()
    edges, cases = check_edges(), list(all_cases(options.seed))
    counters = list(dict.fromkeys(counter for _, counter, _ in cases))
    answers = [checker.check_counter(counter) for counter in counters]
    told, accepted = check_answers(answers), [counter for counter, found in zip(counters, answers) if found == (0, 0)]
    for counter in accepted:
        if faults(counter):
            fail("%s: %s" % (counter.hex(), faults(counter)))
    held, variants = check_promises(cases), check_variants(cases, accepted)
    asked = "%d replies of the desk agree" % check_desk(str(Path(options.program).resolve()), counters) if options.program else "no program run"
    print("counters: %d edges and %d files: %s; walks of %d moves, equation (19) on %d vectors each and %d accepted deliveries hold; %d of %d wrong variants noticed; %s"
          % (edges, len(counters), told, MOVES, VECTORS, held, variants, variants, asked))


if __name__ == "__main__":
    main()
