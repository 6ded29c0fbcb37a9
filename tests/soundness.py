"""Holds accepted figures, the margin that is printed with them, and the tail of request A.7 against chances and means summed over runs, in whole numbers only."""
from functools import lru_cache
from itertools import islice

import checker
from checker import CERTAIN, ONE

STEPS = 12  # n runs from 0 to here
ROUNDS = (0, 1, 2, 3)  # every k with 2^k - 1 <= STEPS
LISTED = 4  # up to here runs are also listed one by one
MOST_PLACES = 600  # models whose runs stand at more places than this are left out
MOST_LISTS = 3  # rules of a row beyond which runs are not listed one by one


@lru_cache(maxsize=8)
def counted(model):
    """By row the list, over n = 0..STEPS, of chances and mean from runs; None when the runs spread too far."""
    table, found = checker.table_of(model), {}
    for row in table.rows:
        found[row] = []
        for chances, mean, places in islice(checker.sums_by_runs(table.rules, *row), STEPS + 1):
            if places > MOST_PLACES:
                return None
            found[row].append((chances, mean))
    return found


def chance_within_upper(chance, n, upper):
    """chance / 65536^n <= upper / 2^20."""
    return chance * ONE <= upper * CERTAIN ** n


def chance_reaches_lower(chance, n, k, lower, upper, margin):
    """chance / 65536^n >= lower / 2^20 - (1 - m)^k * upper / 2^20, with what is taken away moved to the other side."""
    return chance * ONE ** (k + 1) + (ONE - margin) ** k * upper * CERTAIN ** n >= lower * ONE ** k * CERTAIN ** n


def mean_within_figure(mean, n, figure):
    """mean / 65536^n <= figure / 256."""
    return mean * 256 <= figure * CERTAIN ** n


def tail_reaches_promise(chances, n, figure):
    """All chances / 65536^n >= 1 - figure / (256 n), with what is taken away moved to the other side."""
    return n * 256 * sum(chances.values()) + figure * CERTAIN ** n >= n * 256 * CERTAIN ** n


def tail_later(steps):
    """The tail as if it were 1 - r/(n + steps)."""
    return lambda chances, n, figure: (n + steps) * 256 * sum(chances.values()) + figure * CERTAIN ** n >= (n + steps) * 256 * CERTAIN ** n


# Tails that are not the request's: figures at its edge tell each of them apart. The runs refute those of REFUTED for accepted figures. The others are true of them: r in whole
# steps claims less than the request, and one step later and r rounded down follow from 1 - (r - 1)/n, which the mean gives too (theorems `tail_after_the_first`,
# `tail_one_later`, `tail_rounded_down`). A tail that accepted figures break is broken by their mean counted to the same n too, so that kinds are told apart below.
TWO_LATER, ONE_EXIT = "1 - r/(n + 2)", "one exit alone"
WRONG_TAILS = {
    "1 - r/(n + 1)": tail_later(1),
    TWO_LATER: tail_later(2),
    ONE_EXIT: lambda chances, n, figure: tail_reaches_promise({0: chances.get(0, 0)}, n, figure),
    "r in whole steps": lambda chances, n, figure: tail_reaches_promise(chances, n, 256 * figure),
    "r rounded down to whole steps": lambda chances, n, figure: tail_reaches_promise(chances, n, figure // 256 * 256),
}
REFUTED = (TWO_LATER, ONE_EXIT)
NOTICED = ("upper", "lower", "mean", "tail", *("tail: " + name for name in WRONG_TAILS), *("refuted: " + name for name in REFUTED))


def rounds_of_f(table, rounds):
    """After k rounds of f from zero: the exact values, over 65536^(2^k - 1)."""
    values = [0] * len(table.entries)
    for k in range(rounds):
        one = CERTAIN ** (2 ** k - 1)

        def product(rule, q, v=values):
            if rule.length == 0:
                return one * one if rule.q == q else 0
            if rule.length == 1:
                return one * v[table.entry_at(rule.q, rule.y, q)]
            return checker.middle_sum(table, v, rule, q)
        values = [sum(rule.weight * product(rule, q) for rule in table.rules[p, z]) for p, z, q in table.entries]
    return values


def rounds_lie_between(table, sums):
    """k rounds of f from zero hold all runs of up to k steps, and only runs of up to 2^k - 1 steps."""
    for k in ROUNDS:
        n = 2 ** k - 1
        for (p, z, q), value in zip(table.entries, rounds_of_f(table, k)):
            within_k, within_n = sums[p, z][k][0].get(q, 0), sums[p, z][n][0].get(q, 0)
            if not within_k * CERTAIN ** (n - k) <= value <= within_n:
                return False
    return True


def listed_runs_agree(table):
    """The sums by place equal the sums over runs listed one by one."""
    if max(len(rules) for rules in table.rules.values()) > MOST_LISTS:
        return True
    asked = [(table.rules, *row, n) for row in table.rows for n in range(LISTED + 1)]
    return all(checker.sums_by_lists(*a) == (checker.chances_by_runs(*a), checker.mean_by_runs(*a)) for a in asked)


def broken_chances(table, figures, sums):
    for i, (p, z, q) in enumerate(table.entries):
        chances = [chance.get(q, 0) for chance, _ in sums[p, z]]
        for n, chance in enumerate(chances):
            if not chance_within_upper(chance, n, figures.upper[i]):
                yield "upper", (p, z, q), n
        if figures.lower is None:
            continue
        margin = checker.margin(table, figures.upper)
        for k in ROUNDS:
            n = 2 ** k - 1
            if not chance_reaches_lower(chances[n], n, k, figures.lower[i], figures.upper[i], margin):
                yield "lower", (p, z, q), n


def broken_means(table, figures, sums):
    for row, figure in zip(table.rows, figures.mean or []):
        for n, (_, mean) in enumerate(sums[row]):
            if not mean_within_figure(mean, n, figure):
                yield "mean", row, n


def broken_tails(table, figures, sums, tail=tail_reaches_promise):
    for row, figure in zip(table.rows, figures.mean or []):
        for n, (chances, _) in enumerate(sums[row]):
            if n and not tail(chances, n, figure):
                yield "tail", row, n


def broken(model, figures):
    """Each claim that the runs contradict."""
    table, sums = checker.table_of(model), counted(model)
    yield from broken_chances(table, figures, sums)
    yield from broken_means(table, figures, sums)
    yield from broken_tails(table, figures, sums)


def has(kind, claims):
    """Whether a claim of this kind is among those that the runs contradict."""
    return any(found == kind for found, *_ in claims)


def least_by_the_tail(sums):
    """The least figure of a row by the request: r/n is at least the chance of not having returned, for each n from 1 on."""
    away = ((n, CERTAIN ** n - sum(chances.values())) for n, (chances, _) in enumerate(sums) if n)
    return max(-(-256 * n * chance // CERTAIN ** n) for n, chance in away)


def is_the_requests_tail(table, sums, breaks):
    """Whether breaks(means) is so just where the request's tail does not let these means pass: not for the least of each row, but for these less 1 in any row."""
    least = [least_by_the_tail(sums[row]) for row in table.rows]
    lowered = [least[:at] + [figure - 1] + least[at + 1:] for at, figure in enumerate(least) if figure]
    return not breaks(least) and all(map(breaks, lowered))


def wrong_tails_noticed(table, figures, sums):
    """The tails that are not the request's and are told so, and those that the runs refute for accepted figures."""
    noticed = []
    for name, tail in WRONG_TAILS.items():
        def breaks(means, tail=tail):
            return any(broken_tails(table, figures._replace(mean=means), sums, tail))
        noticed += ["tail: " + name] * (not is_the_requests_tail(table, sums, breaks)) + ["refuted: " + name] * breaks(figures.mean)
    return noticed


def lower_too_high(table, figures, sums):
    """The least lower of the first entry that the greatest k rules out."""
    (p, z, q), k = table.entries[0], ROUNDS[-1]
    n = 2 ** k - 1
    chance, margin = sums[p, z][n][0].get(q, 0), checker.margin(table, figures.upper)
    return (chance * ONE ** (k + 1) + (ONE - margin) ** k * figures.upper[0] * CERTAIN ** n) // (ONE ** k * CERTAIN ** n) + 1


def false_figures_noticed(model, figures):
    """{kind of claim: whether a figure just beyond what the runs allow is noticed}, for the kinds that have such a figure here."""
    table, sums = checker.table_of(model), counted(model)
    noticed, (p, z, q) = {}, table.entries[0]
    chance, mean = sums[p, z][STEPS][0].get(q, 0), sums[p, z][STEPS][1]
    if chance:
        too_low = (chance * ONE - 1) // CERTAIN ** STEPS
        noticed["upper"] = has("upper", broken(model, figures._replace(upper=[too_low] + figures.upper[1:], lower=None, mean=None)))
    if figures.mean:
        too_low = (mean * 256 - 1) // CERTAIN ** STEPS
        noticed["mean"] = has("mean", broken(model, figures._replace(mean=[too_low] + figures.mean[1:])))
        noticed["tail"] = is_the_requests_tail(table, sums, lambda means: has("tail", broken(model, figures._replace(mean=means))))
    if figures.lower:
        noticed["lower"] = has("lower", broken(model, figures._replace(lower=[lower_too_high(table, figures, sums)] + figures.lower[1:])))
    return noticed


def is_small(model):
    table = checker.table_of(model)
    return len(table.rows) <= 6 and counted(model) is not None


def judge(model, delivery):
    """The faults found for a small model and a delivery that the archive accepts, and which kinds of claim were shown able to fail."""
    table, figures = checker.table_of(model), checker.accepted_figures(model, delivery)
    faults = list(broken(model, figures))
    if not listed_runs_agree(table):
        faults.append("runs listed one by one give other sums")
    if not rounds_lie_between(table, counted(model)):
        faults.append("rounds of f leave their bounds")
    noticed = false_figures_noticed(model, figures)
    faults += ["a false %s passed" % kind for kind, seen in noticed.items() if not seen]
    tails = wrong_tails_noticed(table, figures, counted(model)) if figures.mean else []
    faults += [name for name in tails if name.startswith("refuted: ") and name not in NOTICED]
    return faults, [*noticed, *tails]
