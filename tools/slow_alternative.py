"""Slow cheapest weightings, beside which the program is tried.

It goes by the definitions alone: the system of the alternative of all members is written out, with a variable for each, and
settled and improved by the slow runs of slow_improve.py. Where it has no solution the point is that of the members' own
system, and else each member of the weighting has the point of the others: either by the slow reduction of slow_reduction.py
and a slow run of what is left. `cases()` gives models with what `iis alternative` has to answer, as slow_least.py does. Each
weighting, price and point is checked against the model itself: that the weighting refutes it, that no member is missed at the
price by more than it costs, and that the point of each member misses none of the others.
"""

import random
from fractions import Fraction

from models import LO, RIGID, ROW, UP, UPPER, sum_of
from slow_improve import BASIC, Stand, System, model_of, run, uses_text
from slow_least import chosen, infeasible_models, is_cancelled, right_side, weighed
from slow_reduction import System as Reducible, point_before, reduced, values_text


def signed(it, number):
    return number if it[2] == UP else -number


def alternative(model, members, cost):
    """The system of the alternative of the members."""
    terms = lambda number: [(k, signed(it, number(it))) for k, it in enumerate(members) if number(it)]
    rows = [(terms(lambda it, j=j: model.form(it).get(j, Fraction(0))), 0, 0) for j in range(len(model.columns))]
    rows.append((terms(model.number), -1, -1))
    return System([(0, None)] * len(members), rows, [(k, -cost(it)) for k, it in enumerate(members)])


def point_of(model, members):
    """The point of members that can be satisfied: their own system is reduced, what is left is settled, and its point comes back."""
    columns = [[None, None] for _ in model.columns]
    for it in members:
        if it[0] != ROW:
            columns[it[1]][it[0] == UPPER] = model.number(it)
    rows = []
    for i, row in enumerate(model.rows):
        sides = {it[2]: model.number(it) for it in members if it[:2] == (ROW, i)}
        if sides:
            rows.append((row.form.items(), sides.get(LO), sides.get(UP)))
    own = Reducible(columns, rows)
    steps, decided = reduced(own)
    assert decided is None
    rows = [(list(row["terms"].items()), row[LO], row[UP]) for row in own.rows]
    left = System([(it[LO], it[UP]) for it in own.columns], rows, [])
    stand, basic, _ = run(left, left.start(), Stand.settle_turn)
    assert basic is None
    point = [stand.value(j) for j in range(len(model.columns))]
    for step in reversed(steps):
        point_before(step, point)
    assert not any(model.missed(it, point) for it in members)
    return point


def answer(model):
    """The lines of the answer, of a model of which all members are active."""
    members, cost = model.members(), lambda it: Fraction(1) if model.weight(it) == RIGID else model.weight(it)
    made = alternative(model, members, cost)
    stand, basic, _ = run(made, made.start(), Stand.settle_turn)
    if basic is not None:
        return ["feasible", "point", *values_text(model, point_of(model, members)), "end"]
    stand, moving, _ = run(made, stand.basis, Stand.improve_turn)
    assert moving is None
    weights = {it: stand.value(k) for k, it in enumerate(members) if stand.value(k)}
    factor = lambda row: stand.factor(made.objective, made.columns + row) if stand.basis[made.columns + row] != BASIC else Fraction(0)
    total, price = factor(len(model.columns)), [-factor(j) for j in range(len(model.columns))]
    assert is_cancelled(model, weights) and right_side(model, weights) == -1 and all(w > 0 for w in weights.values())
    assert total == sum((cost(it) * w for it, w in weights.items()), Fraction(0))
    assert all(signed(it, sum_of(model.form(it), price)) - total * signed(it, model.number(it)) <= cost(it) for it in members)
    lines = ["irreducible"]
    for it in weights:
        point = point_of(model, [other for other in weights if other != it])
        lines += [f"member {model.name(it)}", "point", *values_text(model, point)]
    return [*lines, "proof", "leaf", *uses_text(model, weights), f"total {total}", "price", *values_text(model, price), "end"]


def drawn(source):
    """A small model of random numbers that is tight, with a weight for some members, and the edits that set these."""
    columns = [source.choice([(0, None), (0, source.randint(1, 4)), (-2, 3), (1, 5), (None, 2), (None, None)]) for _ in range(source.randint(2, 4))]
    rows = []
    for _ in range(source.randint(3, 6)):
        picked = sorted(source.sample(range(len(columns)), source.randint(1, min(3, len(columns)))))
        terms = [(j, source.choice([-3, -2, -1, 1, 1, 2, 3])) for j in picked]
        lo = source.randint(-6, 6)
        rows.append((terms, *source.choice([(lo, None), (None, lo), (lo, lo), (lo, lo + 3), (lo + 1, lo)])))
    model = model_of(columns, rows, [(j, source.randint(1, 3)) for j in range(len(columns))], True)
    return model, weighed(model, source, lambda it: [None, None, None, RIGID, Fraction(it.randint(2, 9)), Fraction(it.randint(1, 5), 6)])


def cases():
    """The listed models, and 60 drawn ones: some have a point, and the others a weighting of two members, of three, or of more."""
    kind_of = lambda lines: min(4, sum(line.startswith("member ") for line in lines))
    found = chosen(random.Random(90), drawn, {0: 10, 2: 8, 3: 16, 4: 26}, kind_of, "iis alternative", answer)
    return [(model, ["iis alternative"], [answer(model)]) for model in infeasible_models()] + found
