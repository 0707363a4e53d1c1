"""Models with decimals, whose vertices mostly have wide numbers, with what is to be answered: `cases()`

Each is a name, a model, a script, and the answers, which are known from how the model is made: one that can be met is
drawn around a point, and in another a row asks for a hair more than a few rows and bounds leave it.
"""

import random
from collections import Counter
from fractions import Fraction

from models import Column, Model, Row, sum_of

HAIR = Fraction(1, 10_000)


def decimal(source, least, most, places):
    return Fraction(source.randint(least * 10**places, most * 10**places), 10**places)


def around(source, point, fill, factor, equations=0.0):
    """A row with this share of its entries, which the point satisfies: an equation, or one side that is near."""
    form = {j: factor() for j in range(len(point)) if source.random() < fill} or {0: Fraction(1)}
    value, slack = sum_of(form, point), decimal(source, 0, 1, 2)
    if source.random() < equations:
        return form, value, value
    return (form, value - slack, None) if source.random() < 0.5 else (form, None, value + slack)


def passed(source, rows):
    """A row that is to be a hair more than these rows, each taken up to five times, let it be."""
    form, most = Counter(), HAIR
    for its, lo, up in rows:
        weight = source.randint(1, 5) * (1 if up is not None else -1)
        most += weight * (lo if up is None else up)
        for j, a in its.items():
            form[j] += weight * a
    return {j: a for j, a in form.items() if a}, most, None


def diet(source, is_met):
    """Foods of which only so much is there, and what of each nutrient there is to be at least or at most."""
    point = [decimal(source, 0, 2, 1) for _ in range(24)]
    columns = [(Fraction(0), it + decimal(source, 0, 2, 1)) for it in point]
    rows = [around(source, point, 0.8, lambda: decimal(source, 0, 30, 2) + HAIR * 100) for _ in range(16)]
    return rows + ([] if is_met else [passed(source, source.sample(rows, 4))]), columns


def portfolio(source, is_met):
    """Parts of a whole, each small or nothing, that are to yield what some do, or more than any can."""
    yields, risks = ([Fraction(source.randint(10**12, 10**13) * times, 10**14) for _ in range(42)] for times in (1, 15))
    best = sorted(yields, reverse=True)
    least = sum(yields[20:40]) / 20 if is_met else (2 * sum(best[:12]) + best[12]) / 25 + HAIR
    rows = [(dict.fromkeys(range(42), 1), 1, 1), (dict(enumerate(yields)), least, None)]
    rows.append((dict(enumerate(risks)), None, sum(risks[20:40]) / 20 if is_met else 1))
    rows += [(dict.fromkeys(range(k, 42, 6), 1), None, Fraction(1, 4)) for k in range(6)]
    rows += [({j: 1, 42 + j: -Fraction(8, 100)}, None, 0) for j in range(42)]
    rows += [({j: 1, 42 + j: -Fraction(1, 100)}, 0, None) for j in range(42)]
    return [*rows, (dict.fromkeys(range(42, 84), 1), 12, 20)], [(0, None)] * 42 + [(0, 1)] * 42


def hair(source, is_met):
    """Twice as many rows as columns, all near one point."""
    count = source.randint(15, 30)
    point = [decimal(source, 0, 5, 2) for _ in range(count)]
    factor = lambda: decimal(source, -10, 10, 2) or Fraction(1)
    rows = [around(source, point, 0.4, factor) for _ in range(2 * count)]
    columns = [(0, source.choice([10, None])) for _ in point]
    return rows + ([] if is_met else [passed(source, source.sample(rows, source.randint(3, 6)))]), columns


def dense(source, is_met):
    """As many rows as columns, some of them equations; columns with any bounds."""
    count, places = source.randint(12, 30), source.randint(2, 4)
    point = [decimal(source, 0, 5, places) for _ in range(count)]
    factor = lambda: decimal(source, -10, 10, places) or Fraction(1)
    rows = [around(source, point, 1, factor, 0.2) for _ in range(count)]
    columns = [source.choice([(0, 6), (0, None), (None, None)]) for _ in point]
    return rows + ([] if is_met else [passed(source, source.sample(rows, 4))]), columns


def sparse(source, is_met):
    """A larger model of a few entries a row."""
    point = [source.choice([Fraction(0), decimal(source, 0, 5, 2)]) for _ in range(90)]
    factor = lambda: decimal(source, -5, 10, 2) or Fraction(1)
    rows = [around(source, point, 0.06, factor, 0.1) for _ in range(60)]
    columns = [(0, source.choice([20, None])) for _ in point]
    return rows + ([] if is_met else [passed(source, source.sample(rows, 5))]), columns


def cases():
    for kind in (diet, portfolio, hair, dense, sparse):
        for number in range(1, 11):
            source, is_met = random.Random(f"{kind.__name__} {number}"), number % 2 == 1
            rows, columns = kind(source, is_met)
            named = [Row(f"r{i}", *it) for i, it in enumerate(rows)]
            model = Model(named, [Column(f"x{j}", *it) for j, it in enumerate(columns)], {}, False)
            script = ["check"] if is_met else ["check", "iis deletion"]
            answers = ["feasible"] if is_met else ["infeasible", "irreducible"]
            yield f"{kind.__name__} with decimals {number}", model, script, answers
