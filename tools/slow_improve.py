"""Slow settle and improve runs, beside which the program is tried.

It goes by the definitions alone: at each basis the whole table is solved from the rows of the system again, in fractions of any
size. `cases()` gives models with what `unbounded` has to answer, with each budget up to what it takes where the models
are listed, and with the usual one where they are drawn at random from a stored seed; of these those with no point, and those with a
number that could make an operation too wide, are left out. Each dual and each ray is checked.
"""

import random
from fractions import Fraction

from models import LO, UP, Column, Model, Row, sum_of
from slow_reduction import OTHER, active_limits, member, minus, over, plus, times, values_text

BASIC, ZERO = "basic", "zero"
SMALL = 10**9


class System:
    """Columns and rows with limits by side, and an objective to be made greatest, each form a dictionary by column."""

    def __init__(self, columns, rows, objective):
        number = lambda it: None if it is None else Fraction(it)
        form = lambda terms: {j: Fraction(a) for j, a in terms}
        self.columns = len(columns)
        self.forms = [form(terms) for terms, _, _ in rows] + [form(objective)]
        self.objective = self.columns + len(rows)
        self.limits = [{LO: number(lo), UP: number(up)} for lo, up in [*columns, *((lo, up) for _, lo, up in rows), (None, None)]]

    def start(self):
        first = lambda limits: next((side for side in (LO, UP) if limits[side] is not None), ZERO)
        return (*map(first, self.limits[: self.columns]), *[BASIC] * len(self.forms))

    def table(self, basis):
        """The basic variables as forms of the others, by elimination."""
        lines = []
        for own, form in enumerate(self.forms):
            lines.append({**form, self.columns + own: Fraction(-1)})
        solved = {}
        for basic in (v for v, place in enumerate(basis) if place == BASIC):
            at = next(k for k, line in enumerate(lines) if line.get(basic))
            pivot = lines.pop(at)
            pivot = {v: a / pivot[basic] for v, a in pivot.items()}
            without = lambda line: line if not line.get(basic) else {v: line.get(v, 0) - line[basic] * pivot.get(v, 0) for v in {*line, *pivot}}
            lines, solved = list(map(without, lines)), {v: without(line) for v, line in solved.items()}
            solved[basic] = pivot
        return {basic: {v: -a for v, a in line.items() if v != basic and a} for basic, line in solved.items()}


class Stand:
    """A system at a basis."""

    def __init__(self, system, basis):
        self.system, self.basis, self.table = system, basis, system.table(basis)
        self.nonbasics = [v for v, place in enumerate(basis) if place != BASIC]
        self.limited_basics = [v for v, place in enumerate(basis) if place == BASIC and v != system.objective]
        for number in (a for form in self.table.values() for a in form.values()):
            assert abs(number.numerator) < SMALL and number.denominator < SMALL

    def factor(self, basic, nonbasic):
        return self.table[basic].get(nonbasic, Fraction(0))

    def value(self, variable):
        if self.basis[variable] != BASIC:
            return self.system.limits[variable].get(self.basis[variable], Fraction(0))
        total = Fraction(0)
        for v in self.nonbasics:
            total = plus(total, times(self.factor(variable, v), self.value(v)))
        return total

    def missed(self, variable):
        limits, value = self.system.limits[variable], self.value(variable)
        if limits[LO] is not None and value < limits[LO]:
            return LO
        return UP if limits[UP] is not None and value > limits[UP] else None

    def entering(self, basic, side):
        """The least variable outside the basis that moves a basic one up from below (lo), or down from above (up)."""
        for v in self.nonbasics:
            gain = self.factor(basic, v) if side == LO else -self.factor(basic, v)
            if (gain > 0 and self.system.limits[v][UP] != self.value(v)) or (gain < 0 and self.system.limits[v][LO] != self.value(v)):
                return v
        return None

    def settle_turn(self):
        """None where all is within limits, a variable where nothing helps it, and else the basis after the exchange."""
        for basic in self.limited_basics:
            side = self.missed(basic)
            if side:
                moving = self.entering(basic, side)
                return basic if moving is None else self.exchanged(basic, side, moving)
        return None

    def improve_turn(self):
        """None at the optimum, a variable that raises the objective without end, and else the basis that is next."""
        moving = self.entering(self.system.objective, LO)
        if moving is None:
            return None
        rises = self.factor(self.system.objective, moving) > 0
        blocks = []
        for basic in self.limited_basics:
            rate = self.factor(basic, moving) if rises else -self.factor(basic, moving)
            side = UP if rate > 0 else LO
            limit = self.system.limits[basic][side]
            if rate and limit is not None:
                value = self.value(basic)
                left = minus(limit, value) if side == UP else minus(value, limit)
                blocks.append((over(left, abs(rate)), basic, side))
        own = self.system.limits[moving]
        if None not in own.values():
            blocks.append((minus(own[UP], own[LO]), moving, None))
        if not blocks:
            return moving
        _, first, side = min(blocks, key=lambda it: it[:2])
        return self.flipped(moving) if first == moving else self.exchanged(first, side, moving)

    def exchanged(self, leaving, side, moving):
        basis = list(self.basis)
        basis[leaving], basis[moving] = side, BASIC
        return tuple(basis)

    def flipped(self, variable):
        basis = list(self.basis)
        basis[variable] = OTHER[basis[variable]]
        return tuple(basis)


def run(system, basis, turn):
    """The last basis of a run by such turns, what it ends with, and how many changes it makes."""
    for changes in range(1000):
        stand = Stand(system, basis)
        found = turn(stand)
        if not isinstance(found, tuple):
            return stand, found, changes
        basis = found
    raise AssertionError("a run without end")


def improved(system, basis):
    """The same of the settle run and then the improve run together, or None where no point satisfies the system."""
    stand, found, settling = run(system, basis, Stand.settle_turn)
    if found is not None:
        return None
    stand, found, improving = run(system, stand.basis, Stand.improve_turn)
    return stand, found, settling + improving


# ---- what an end shows
def dual(stand):
    """The limits by side and variable, each with its weight, and the bound."""
    row = {v: a for v, a in stand.table[stand.system.objective].items() if a}
    return {(UP if a > 0 else LO, v): abs(a) for v, a in row.items()}, stand.value(stand.system.objective)


def ray(stand, moving):
    """How each column changes."""
    way = 1 if stand.factor(stand.system.objective, moving) > 0 else -1
    change = lambda v: Fraction(way * (v == moving)) if stand.basis[v] != BASIC else way * stand.factor(v, moving)
    return [change(v) for v in range(stand.system.columns)]


def check_point(system, values):
    for limits, value in zip(system.limits, [*values, *(sum_of(form, values) for form in system.forms)]):
        assert (limits[LO] is None or limits[LO] <= value) and (limits[UP] is None or value <= limits[UP])


def check_dual(system, weights, bound):
    sums, right = {}, Fraction(0)
    for (side, v), weight in weights.items():
        assert weight > 0
        sign = weight if side == UP else -weight
        right += sign * system.limits[v][side]
        for j, a in ({v: 1} if v < system.columns else system.forms[v - system.columns]).items():
            sums[j] = sums.get(j, 0) + sign * a
    objective = system.forms[-1]
    assert right == bound and all(sums.get(j, 0) == objective.get(j, 0) for j in {*sums, *objective})


def check_ray(system, changes):
    for limits, change in zip(system.limits, [*changes, *(sum_of(form, changes) for form in system.forms)]):
        assert (limits[LO] is None or change >= 0) and (limits[UP] is None or change <= 0)
    assert sum_of(system.forms[-1], changes) > 0


# ---- in print
def system_of(model):
    """The active members of a model but its marks, and its objective, to be made greatest."""
    columns, rows = active_limits(model)
    sign = 1 if model.is_greatest else -1
    return System(columns, rows, [(j, sign * a) for j, a in model.objective.items()])


def uses_text(model, weights):
    """The lines of members with their weights."""
    return [f"use {model.name(it)} {weights[it]}" for it in sorted(weights)]


def answer(model, spent=10**6):
    """The lines of the answer within so many changes of the basis, or None where no point satisfies the model."""
    system = system_of(model)
    found = improved(system, system.start())
    if found is None:
        return None
    stand, moving, changes = found
    if changes > spent:
        return ["pivots spent"]
    values = [stand.value(j) for j in range(system.columns)]
    check_point(system, values)
    point = ["point", *values_text(model, values)]
    if moving is not None:
        changes = ray(stand, moving)
        check_ray(system, changes)
        return ["unbounded", *point, "ray", *values_text(model, changes), "end"]
    weights, bound = dual(stand)
    check_dual(system, weights, bound)
    assert bound == sum_of(system.forms[-1], values)
    told = bound if model.is_greatest else -bound
    uses = uses_text(model, {member(system.columns, *it): weight for it, weight in weights.items()})
    return ["bounded", *point, f"objective {told}", f"bound {told}", "dual", *uses, "end"]


# ---- the models
def model_of(columns, rows, objective, is_greatest):
    rows = [Row(f"r{i}", dict(terms), lo, up) for i, (terms, lo, up) in enumerate(rows)]
    return Model(rows, [Column(f"x{j}", *ends) for j, ends in enumerate(columns)], dict(objective), is_greatest)


def drawn(source):
    """A small model of random numbers."""
    columns = [source.choice([(0, None), (0, source.randint(1, 4)), (-2, 3), (1, 5), (None, 2), (None, None)]) for _ in range(source.randint(3, 4))]
    rows = []
    for _ in range(source.randint(2, 3)):
        picked = sorted(source.sample(range(len(columns)), source.randint(2, 3)))
        terms = [(j, source.choice([-3, -2, -1, 1, 1, 2, 3])) for j in picked]
        lo = source.randint(-4, 4)
        rows.append((terms, *source.choice([(lo, None), (None, lo + 6), (None, lo + 6), (lo, lo), (lo, lo + source.randint(1, 5))])))
    objective = [(j, a) for j in range(len(columns)) for a in [source.choice([-2, -1, 0, 1, 2, 3])] if a]
    return model_of(columns, rows, objective, source.random() < 0.7)


FREE = (None, None)
# Columns, rows and an objective to be made greatest; the first three are those of Beale, of Marshall and Suurballe and of Kuhn, on
# which the simplex method by the greatest coefficient never ends.
LISTED = [
    ([(0, None)] * 4, [([(0, 1), (1, -32), (2, -4), (3, 36)], None, 0), ([(0, 1), (1, -24), (2, -1), (3, 6)], None, 0), ([(2, 1)], None, 1)], [(0, 3), (1, -80), (2, 2), (3, -24)]),
    ([(0, None)] * 4, [([(0, 1), (1, -11), (2, -5), (3, 18)], None, 0), ([(0, 1), (1, -3), (2, -1), (3, 2)], None, 0), ([(0, 1)], None, 1)], [(0, 10), (1, -57), (2, -9), (3, -24)]),
    ([(0, None)] * 4, [([(0, -2), (1, -9), (2, 1), (3, 9)], None, 0), ([(0, 1), (1, 3), (2, -1), (3, -6)], None, 0), ([(0, 2), (1, 3), (2, -1), (3, -12)], None, 2)], [(0, 2), (1, 3), (2, -1), (3, -12)]),
    # a corner of two rows
    ([(0, 3), (0, None)], [([(0, 1), (1, 1)], None, 4), ([(0, 1), (1, 3)], None, 6)], [(0, 3), (1, 2)]),
    # boxes and one row
    ([(0, 1)] * 3, [([(0, 2), (1, 2), (2, 3)], -9, 4)], [(0, 2), (1, 1), (2, 1)]),
    # boxes that do not start at 0
    ([(-2, 3), (1, 2), (-1, 1)], [([(0, 1), (1, -1), (2, 1)], -4, 1), ([(0, -1), (1, 2), (2, 3)], None, 5)], [(0, 1), (1, -3), (2, 2)]),
    # free columns between rows
    ([FREE] * 2, [([(0, 1), (1, 1)], None, 4), ([(0, 1), (1, -1)], -2, 2), ([(0, 1)], -3, None)], [(0, 1), (1, 2)]),
    # two equations
    ([(0, 4), (0, None), (0, None)], [([(0, 1), (1, 1), (2, 1)], 6, 6), ([(0, 1), (1, -1)], 1, 1)], [(0, 2), (2, 1)]),
    # equations with a free column
    ([FREE, (0, 3), (0, 3)], [([(0, 1), (1, 2), (2, -1)], 2, 2), ([(0, 2), (1, -1)], None, 5)], [(0, -1), (1, 1), (2, -2)]),
    # rows with two sides
    ([(0, 4)] * 2, [([(0, 1), (1, 1)], 1, 5), ([(0, 1), (1, -1)], -2, 2)], [(0, 1), (1, -3)]),
    # without end by a column
    ([(0, None)] * 2, [([(0, 1), (1, -1)], None, 1)], [(0, 1)]),
    # without end by a free column that falls
    ([FREE, (0, 2)], [([(0, 1), (1, 1)], None, 3)], [(0, -1), (1, 1)]),
    # without end after changes of place
    ([(0, 1), (0, None), (0, None)], [([(0, 1), (1, 1), (2, -1)], None, 2), ([(0, 1), (1, -1), (2, 1)], -3, 3)], [(0, 1), (1, 1)]),
    # upper limits alone
    ([(None, 3), (None, 5)], [([(0, 1), (1, 2)], None, 9), ([(0, 1), (1, -1)], -3, None)], [(0, 1), (1, 3)]),
    # a fixed column
    ([(2, 2), (0, 3), (0, None)], [([(0, 1), (1, 1), (2, 2)], None, 4)], [(0, 1), (1, 1), (2, 3)]),
    # four rows through one vertex
    ([(0, None)] * 2, [([(0, 1), (1, 1)], None, 2), ([(0, 2), (1, 1)], None, 3), ([(0, 1), (1, 2)], None, 3), ([(0, 1)], None, 1)], [(0, 2), (1, 1)]),
    # fractions
    ([(0, 4)] * 2, [([(0, 3), (1, 7)], None, 22), ([(0, 5), (1, 2)], None, 17)], [(0, 2), (1, 3)]),
    # the row and the column at once
    ([(0, 2)] * 3, [([(0, 1), (1, 1)], None, 2), ([(1, 1), (2, 1)], None, 2)], [(0, 1), (1, 2), (2, 2)]),
    # no rows to improve in
    ([(0, 1), (-1, 2), (None, 3)], [], [(0, 2), (1, -1), (2, 1)]),
    # an objective of 0
    ([(0, 1), (0, None)], [([(0, 1), (1, 1)], 1, 3)], []),
    ([(0, 1)] * 2, [([(0, 2), (1, 2)], None, 3)], [(0, 2), (1, 1)]),
    # two rows against each other
    ([(0, None)] * 2, [([(0, 3), (1, 3)], None, 1), ([(0, 2), (1, 2)], 1, None)], []),
    # equal rows against one
    ([(0, None)], [([(0, 1)], None, 0), ([(0, 1)], 1, None), ([(0, 1)], None, 0)], []),
    # production plan, second
    ([(0, 10), (0, 10), (0, 10), (0, None), (0, None), (0, None)], [([(0, 1), (3, -1)], 8, 8), ([(1, 1), (3, 1), (4, -1)], 12, 12), ([(2, 1), (4, 1), (5, -1)], 13, 13)], [(3, -1), (4, -1), (5, -1)]),
    # rows through one vertex
    ([(0, None)] * 2, [([(0, 1), (1, 1)], 2, None), ([(0, 1), (1, -1)], 0, None), ([(1, 1)], 1, None), ([(0, 2), (1, 1)], 3, None), ([(0, 1)], None, 1)], []),
    # redundant equations, first
    ([(0, None)] * 2, [([(0, 1), (1, 1)], 4, 4), ([(0, 1), (1, 1)], 4, 4), ([(0, 2), (1, 2)], 8, 8), ([(0, 1), (1, -1)], 0, 0)], []),
    # redundant equations, second
    ([(0, None)] * 2, [([(0, 1), (1, 1)], 4, 4), ([(0, 1), (1, 1)], 4, 4), ([(0, 2), (1, 2)], 9, None), ([(0, 1), (1, -1)], 0, 0)], []),
    # rows without terms, first
    ([(0, 5)], [([], None, 1), ([(0, 1)], 2, None), ([], 0, 0)], []),
    # rows without terms, second
    ([(0, 5)], [([(0, 1)], 2, None), ([], 1, None)], []),
    # free columns, first
    ([FREE] * 2, [([(0, 1), (1, 1)], 3, 3), ([(0, 1), (1, -1)], 1, 1), ([(0, 1), (1, 2)], None, 3)], []),
    # free columns, second
    ([FREE] * 3, [([(0, 1), (1, 1), (2, 1)], 3, 3), ([(0, 1), (1, -1)], 1, 1), ([(1, 2), (2, -3)], None, -4)], []),
    # columns with upper limits alone, first
    ([(None, 3), (None, 5)], [([(0, 1), (1, 1)], None, -1), ([(0, 1), (1, -1)], 0, None)], []),
    # columns with upper limits alone, second
    ([(None, 3), (None, 5)], [([(0, 2), (1, 1)], 4, None), ([(0, 1), (1, 1)], 9, None)], []),
    # boxed columns
    ([(0, 2), (1, 3), (-1, 1)], [([(0, 1), (1, 1), (2, 1)], 5, None), ([(0, 1), (1, -1)], None, -1), ([(1, 1), (2, -2)], None, 2)], []),
    # fixed column never enters
    ([(2, 2), FREE, (0, 1)], [([(0, 1), (1, 1), (2, 1)], 5, 5), ([(0, 1), (1, -1)], 1, None)], []),
    # objective never leaves, first
    ([(0, 4)] * 2, [([(0, 1), (1, 2)], 5, None), ([(0, 3), (1, 1)], None, 6)], [(0, 1), (1, 1)]),
    # objective never leaves, second
    ([(0, 1)] * 2, [([(0, 1), (1, 2)], 3, None), ([(0, 3), (1, 1)], None, 2)], [(0, -1), (1, 7)]),
    # no rows
    ([(0, 1), FREE], [], [(0, 1)]),
    # many pivots to a point
    ([(-1, 2), FREE, (-2, -1), FREE], [([(0, 3), (1, 3), (2, 3), (3, 1)], 5, None), ([(0, 1), (1, 2), (3, 3)], None, 5), ([(0, -3), (1, 3), (2, -1)], 5, 5), ([(1, 1), (2, -3), (3, 3)], -2, 1)], [(0, 1), (1, -1), (3, 2)]),
    # many pivots to none, first
    ([(3, 4), (-3, -2), FREE, FREE], [([(0, -3), (1, -3), (2, -1), (3, -1)], -2, None), ([(0, -1), (1, -2), (2, 3), (3, -3)], None, 1), ([(0, -2), (1, 2), (2, -3), (3, 3)], 2, 2), ([(0, 3), (1, -1), (2, -3), (3, 2)], None, -5)], []),
    # many pivots to none, second
    ([(-3, 1), (2, 6), (-1, 1)], [([(0, -2), (1, -1), (2, -3)], None, -4), ([(0, 1), (1, -1), (2, 2)], 1, None), ([(0, -3), (1, 3), (2, 3)], None, 5)], [(0, 1), (1, -1), (2, 3)]),
]


def cases():
    """The listed models that a point satisfies, within each number of changes up to enough, and 60 drawn ones, none twice."""
    found = []
    for columns, rows, objective in LISTED:
        model = model_of(columns, rows, objective, True)
        system = system_of(model)
        most = (improved(system, system.start()) or (None, None, -1))[2]
        script = [line for spent in range(most + 1) for line in (f"budget pivots {spent}", "unbounded")]
        found += [(model, script, [it for spent in range(most + 1) for it in (["done"], answer(model, spent))])] if script else []
    source, kinds, texts = random.Random(39), {"bounded": 40, "unbounded": 20}, set()
    while any(kinds.values()):
        model = drawn(source)
        lines = answer(model)
        if lines and kinds[lines[0]] and model.lp() not in texts:
            kinds[lines[0]] -= 1
            texts.add(model.lp())
            found.append((model, ["unbounded"], [lines]))
    return found
