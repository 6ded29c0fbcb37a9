"""Shows that the default cases are sharp: each wrong checker below must differ from the right one on some case."""
import argparse
import itertools
import re
import sys

import checker
import generate
import soundness
from checker import Figures, ONE

CASES = 3000  # the first of the default cases
RIGHT = {name: getattr(checker, name) for name in dir(checker)}  # the right functions, for use within wrong ones


# The mistakes of method that document 01 lists.

def not_strict(table, figures):
    """Takes a lower that satisfies l <= f(l) without the strict upper."""
    return RIGHT["upper_refusal"](table, figures._replace(lower=None))


def products_rounded(table, v, rule, q):
    """Rounds each product, its chance included, down to 1,048,576ths before adding."""
    if rule.length < 2:
        return RIGHT["rule_product"](table, v, rule, q) >> 36 << 36
    pairs = [v[table.entry_at(rule.q, rule.y, t)] * v[table.entry_at(t, rule.x, q)] for t in range(table.states)]
    return sum(rule.weight * pair >> 36 << 36 for pair in pairs)


def middle_left_out(table, v, rule, q):
    """Takes the exit itself as the only middle state."""
    return v[table.entry_at(rule.q, rule.y, q)] * v[table.entry_at(q, rule.x, q)]


def middle_left_out_of_mean(table, figures, rule):
    """Takes the rule's own state as the only middle state."""
    if rule.length < 2:
        return RIGHT["rule_steps"](table, figures, rule)
    weighed = figures.upper[table.entry_at(rule.q, rule.y, rule.q)] * figures.mean[table.row_at(rule.q, rule.x)]
    return rule.weight * ((figures.mean[table.row_at(rule.q, rule.y)] << 20) + weighed)


def weighed_by_lowers(table, figures, rule):
    """Weighs r(t, X) by the lowers where there are any."""
    return RIGHT["rule_steps"](table, Figures(figures.lower or figures.upper, None, figures.mean), rule)


def rounds_for_steps(model):
    """Whether a model shows that k rounds of f from zero are not the chance within k steps."""
    if checker.check_model(model) != (0, 0) or not soundness.is_small(model):
        return False
    table, sums = checker.table_of(model), soundness.counted(model)
    for k in soundness.ROUNDS:
        scale = checker.CERTAIN ** (2 ** k - 1 - k)
        taken = soundness.rounds_of_f(table, k)
        if any(value != sums[p, z][k][0].get(q, 0) * scale for (p, z, q), value in zip(table.entries, taken)):
            return True
    return False


CAPPED_AT_ONE = {**checker.VALUE_RANGES, checker.UPPER: (0, ONE)}


# Further wrong checkers.

def dead_only_in_upper(table, figures):
    return RIGHT["dead_refusal"](table, figures._replace(lower=None))


def shortfall_off_by_one(check):
    def wrong(table, figures):
        refusal = check(table, figures)
        return refusal and (refusal[0], refusal[1], refusal[2] - 1)
    return wrong


def margin_rounded_up(table, upper):
    """Rounds the least share up."""
    live = [(u << 36, slack) for u, slack, live in zip(upper, checker.slacks(table, upper), table.is_live) if live]
    return min([-(-slack * ONE // u) for u, slack in live], default=ONE)


def margin_undivided(table, upper):
    """Takes the least of u - f(u) without dividing by u."""
    return min([slack * ONE >> 56 for slack, live in zip(checker.slacks(table, upper), table.is_live) if live], default=ONE)


def margin_none_is_zero(table, upper):
    """Takes 0 for the margin where nothing is live."""
    return RIGHT["margin"](table, upper) if any(table.is_live) else 0


def printed_cut(digits):
    """Prints only the last digits of each number."""
    def wrong(model, delivery):
        return re.sub(r"\d+", lambda number: number[0][-digits:], RIGHT["printed"](model, delivery))
    return wrong


def place_cut(model, delivery):
    """Counts places no further than 2,047."""
    number, place, shortfall = RIGHT["check_delivery"](model, delivery)
    return number, place % 2048, shortfall


def shape_by_length(preferred):
    """Decides between UL and UR at one state without the kind byte."""
    def wrong(table, delivery):
        shape = RIGHT["shape_of"](table, delivery)
        return preferred if table.states == 1 and shape in ("UL", "UR") else shape
    return wrong


def one_row_unchecked(records):
    """Leaves the last row's sum unchecked."""
    states, symbols = checker.sizes(records)
    refusal = RIGHT["row_sum_refusal"](records)
    return None if refusal and refusal[1] == states * symbols - 1 else refusal


def states_from_p_only(records):
    return 1 + max(r.p for r in records), RIGHT["sizes"](records)[1]


def five_bytes_ascend(before, rule):
    return before[:5] < rule[:5]


def equal_records_pass(before, rule):
    return before[:6] <= rule[:6]


def by_number(*weights, limit=None):
    """Compares records by a number with these weights of p, Z, q, L, Y and X, or by what a limit leaves of it."""
    def number(rule):
        whole = sum(weight * field for weight, field in zip(weights, rule))
        return whole % limit if limit else whole
    return {"ascends": lambda before, rule: number(before) < number(rule)}


def to_base(base, *places):
    """Compares records by a number to this base, each field at a place of its own or not."""
    return by_number(*(base ** place for place in places))


def unused_taken(length, field):
    """Does not test that a symbol is 0 which rules of this length do not push."""
    return {"record_reason": lambda rule, before: RIGHT["record_reason"](rule._replace(**{field: 0}) if rule.length == length else rule, before)}


def range_taken(field, most):
    """Does not test the range of a field, and goes on as if it were in range."""
    def wrong(rule, before):
        return RIGHT["record_reason"](rule._replace(**{field: min(most, getattr(rule, field))}), before)
    return {"record_reason": wrong}


def reasons_in_order(*order):
    """Tests a model's record for its reasons in another order."""
    harmless = checker.Rule(0, 0, 0, 0, 0, 0, 1)

    def holds(rule, before, number):
        parts = {checker.FIELD_RANGE: (rule._replace(weight=1), None), checker.WEIGHT_RANGE: (harmless._replace(weight=rule.weight), None),
                 checker.UNUSED_NOT_ZERO: (harmless._replace(length=min(2, rule.length), y=min(15, rule.y), x=min(15, rule.x)), None),
                 checker.NOT_ASCENDING: (harmless, harmless if before is not None and not checker.ascends(before, rule) else None)}
        return RIGHT["record_reason"](*parts[number]) == number

    def wrong(rule, before):
        return next((number for number in order if holds(rule, before, number)), 0)
    return {"record_reason": wrong}


def heads_before_values(table, shape, records):
    """Tests all heads of the file before any value."""
    heads = [(*record[:4], checker.VALUE_RANGES[due[0]][0]) for record, due in zip(records, checker.heads_due(table, shape))]
    return RIGHT["record_refusal"](table, shape, heads) or RIGHT["record_refusal"](table, shape, records)


def value_before_head(table, shape, records):
    """Tests a record's value before its head."""
    for place, (record, due) in enumerate(zip(records, checker.heads_due(table, shape))):
        least, greatest = checker.VALUE_RANGES[due[0]]
        if not least <= record[4] <= greatest:
            return checker.VALUE_RANGE, place, 0
        if record[:4] != due:
            return checker.NOT_DUE, place, 0
    return None


def weights_of_three_bytes(model):
    return [rule._replace(weight=rule.weight % (1 << 24)) for rule in RIGHT["records_of"](model)]


def values_of_three_bytes(table, shape, records):
    return RIGHT["record_refusal"](table, shape, [(*record[:4], record[4] % (1 << 24)) for record in records])


def all_live(table):
    return set(table.entries)


DEAD, ABOVE, ORDER, BELOW, STEPS = checker.WHOLE_FILE_CHECKS


def checks(*order):
    return {"WHOLE_FILE_CHECKS": order}


MUTANTS = {
    "mistake of method: a lower without the strict upper (strictness dropped for 24)": checks(DEAD, not_strict, ORDER, BELOW, STEPS),
    "mistake of method: each product rounded down": {"rule_product": products_rounded},
    "mistake of method: middle state left out of the chance": {"middle_sum": middle_left_out},
    "mistake of method: middle state left out of the mean": {"rule_steps": middle_left_out_of_mean},
    "mistake of method: mean weighed by the lowers": {"rule_steps": weighed_by_lowers},
    "mistake of method: uppers capped at 1": {"VALUE_RANGES": CAPPED_AT_ONE},
    "23 not checked in L": checks(dead_only_in_upper, ABOVE, ORDER, BELOW, STEPS),
    "25 and 26 exchanged": checks(DEAD, ABOVE, BELOW, ORDER, STEPS),
    "24 after 25": checks(DEAD, ORDER, ABOVE, BELOW, STEPS),
    "27 before 26": checks(DEAD, ABOVE, ORDER, STEPS, BELOW),
    "shortfall of 24 off by one": checks(DEAD, shortfall_off_by_one(ABOVE), ORDER, BELOW, STEPS),
    "shortfall of 26 off by one": checks(DEAD, ABOVE, ORDER, shortfall_off_by_one(BELOW), STEPS),
    "shortfall of 27 off by one": checks(DEAD, ABOVE, ORDER, BELOW, shortfall_off_by_one(STEPS)),
    "margin rounded up": {"margin": margin_rounded_up},
    "margin not divided by u": {"margin": margin_undivided},
    "margin 0 where nothing is live": {"margin": margin_none_is_zero},
    "numbers printed by 18 digits": {"printed": printed_cut(18)},
    "places below 2,048 only": {"check_delivery": place_cut},
    "one state: always UL": {"shape_of": shape_by_length("UL")},
    "one state: always UR": {"shape_of": shape_by_length("UR")},
    "one row's sum unchecked": {"row_sum_refusal": one_row_unchecked},
    "states counted from p only": {"sizes": states_from_p_only},
    "records compared by five bytes": {"ascends": five_bytes_ascend},
    "equal records pass": {"ascends": equal_records_pass},
    "p and Z weighed alike": to_base(256, 4, 4, 3, 2, 1, 0),
    "Z and q weighed alike": to_base(256, 4, 3, 3, 2, 1, 0),
    "q and L weighed alike": to_base(256, 4, 3, 2, 2, 1, 0),
    "L and Y weighed alike": to_base(256, 4, 3, 2, 1, 1, 0),
    "Y and X weighed alike": to_base(256, 4, 3, 2, 1, 0, 0),
    "p and Z exchanged in the number": to_base(256, 4, 5, 3, 2, 1, 0),
    "Z and q exchanged in the number": to_base(256, 5, 3, 4, 2, 1, 0),
    "q and L exchanged in the number": to_base(256, 5, 4, 2, 3, 1, 0),
    "L and Y exchanged in the number": to_base(256, 5, 4, 3, 1, 2, 0),
    "Y and X exchanged in the number": to_base(256, 5, 4, 3, 2, 0, 1),
    # Fields that pass 11 are below 16: to a base from 16 to 255 every answer is the same, and only the prover sees it.
    "numbers to the base 15": to_base(15, 5, 4, 3, 2, 1, 0),
    "numbers without p": by_number(*(256 ** place for place in (5, 4, 3, 2, 1, 0)), limit=2 ** 40),
    "numbers of 32 bits": by_number(*(256 ** place for place in (5, 4, 3, 2, 1, 0)), limit=2 ** 32),
    "Y taken where nothing is pushed": unused_taken(0, "y"),
    "X taken where nothing is pushed": unused_taken(0, "x"),
    "X taken where one symbol is pushed": unused_taken(1, "x"),
    "p in any range": range_taken("p", 7),
    "Z in any range": range_taken("z", 15),
    "q in any range": range_taken("q", 7),
    "L in any range": range_taken("length", 2),
    "Y in any range": range_taken("y", 15),
    "X in any range": range_taken("x", 15),
    "12 before 11": reasons_in_order(12, 11, 13, 14),
    "13 before 12": reasons_in_order(11, 13, 12, 14),
    "14 before 13": reasons_in_order(11, 12, 14, 13),
    "22 before 21 in a record": {"record_refusal": value_before_head},
    "21 over the whole file before 22": {"record_refusal": heads_before_values},
    "every entry live": {"live_entries": all_live},
    "weights read without their fourth byte": {"records_of": weights_of_three_bytes},
    "values read without their fourth byte in 22": {"record_refusal": values_of_three_bytes},
}


def answers(model, delivery):
    return checker.check_model(model), checker.check_delivery(model, delivery), checker.printed(model, delivery)


def mutant_answers(model, delivery):
    """The answers, or the error that a wrong checker runs into."""
    try:
        return answers(model, delivery)
    except (IndexError, KeyError, ZeroDivisionError) as error:
        return type(error).__name__


def first_difference(replaced, cases, right):
    """The number of the first case on which the checker with these parts replaced differs; None when there is none."""
    for name, part in replaced.items():
        setattr(checker, name, part)
    checker.forget()
    different = (n for n, (case, answer) in enumerate(zip(cases, right)) if mutant_answers(*case[1:]) != answer)
    found = next(different, None)
    for name in replaced:
        setattr(checker, name, RIGHT[name])
    checker.forget()
    return found


def main():
    options = argparse.ArgumentParser(description=__doc__)
    options.add_argument("--seed", type=int, default=1)
    options = options.parse_args()
    cases = list(itertools.islice(generate.cases(options.seed, CASES), CASES))
    right = [answers(model, delivery) for _, model, delivery in cases]
    found = {name: first_difference(replaced, cases, right) for name, replaced in MUTANTS.items()}
    rounds = (n for n, (_, model, _) in enumerate(cases) if rounds_for_steps(model))
    found["mistake of method: k rounds of f taken for k steps"] = next(rounds, None)
    for name, n in found.items():
        print("%-80s %s" % (name, "NOT NOTICED" if n is None else "case %d: %s" % (n, cases[n][0])))
    missed = [name for name, n in found.items() if n is None]
    print("%d of %d wrong checkers noticed" % (len(found) - len(missed), len(found)))
    sys.exit(1 if missed else 0)


if __name__ == "__main__":
    main()
