"""A slow reduction of linear systems, beside which the program is tried.

It goes by the definitions alone: at each step every rule is tried at every place of the whole system, in fractions of any
size, and a rule whose numbers the program could not hold is passed over. `cases()` gives systems with what `reduce` and `check`
have to answer: they are listed below, one or two for each rule, and then drawn at random from a stored seed. Each combination is
checked, and each point. Where a run would have to find the point, which is not made here, the script asks for `reduce` alone.
"""

import math
import random
from fractions import Fraction

from models import LO, LOWER, ROW, UP, UPPER, Column, Model, Row

OTHER = {LO: UP, UP: LO}
GREATEST = 2**127 - 1


class Wide(Exception):
    """An operation is too wide for fractions of 128-bit parts."""


def fitting(number):
    if abs(number.numerator) > GREATEST or number.denominator > GREATEST:
        raise Wide
    return number


def times(a, b):
    return fitting(a * b)


def over(a, b):
    return fitting(a / b)


def plus(a, b):
    common = math.lcm(a.denominator, b.denominator)
    for part in (a * common, b * common, (a + b) * common, Fraction(common)):
        fitting(part)
    return a + b


def minus(a, b):
    return plus(a, -b)


def turned(factor, side):
    return side if factor > 0 else OTHER[side]


def is_tighter(side, old, new):
    if new is None or old is None:
        return new is not None
    return new > old if side == LO else new < old


def is_past(side, number, value):
    return value < number if side == LO else value > number


def narrow(make):
    """What is made, or None where an operation on the way is too wide."""
    try:
        return make()
    except Wide:
        return None


class System:
    """A system while it is reduced: limits of columns by side, rows with terms and sides, and which rows are live: those with a side."""

    def __init__(self, columns, rows):
        number = lambda it: None if it is None else Fraction(it)
        self.columns = [{LO: number(lo), UP: number(up)} for lo, up in columns]
        self.live = [lo is not None or up is not None for _, lo, up in rows]
        form = lambda i, terms: {j: Fraction(a) for j, a in terms if self.live[i]}
        self.rows = [{"terms": form(i, terms), LO: number(lo), UP: number(up)} for i, (terms, lo, up) in enumerate(rows)]

    def limits(self, variable):
        return self.columns[variable] if variable < len(self.columns) else self.rows[variable - len(self.columns)]

    def extreme(self, side, terms):
        """The least (lo) or greatest (up) sum of terms, or None where a limit is missing."""
        total = Fraction(0)
        for column, factor in sorted(terms.items()):
            limit = self.columns[column][turned(factor, side)]
            if limit is None:
                return None
            total = plus(total, times(factor, limit))
        return total

    def sum_of(self, row, side):
        return narrow(lambda: self.extreme(side, row["terms"]))

    # ---- the rules: each gives what it finds at a place, or None
    def crossing(self, variable):
        limits = self.limits(variable)
        if limits[LO] is not None and limits[UP] is not None and limits[UP] < limits[LO]:
            return "decides", [(LO, variable, Fraction(1)), (UP, variable, Fraction(1))]
        return None

    def empty(self, i):
        row = self.rows[i]
        if row["terms"]:
            return None
        for side in (LO, UP):
            if row[side] is not None and is_past(side, row[side], 0):
                return "decides", [(side, len(self.columns) + i, Fraction(1))]
        return "goes", ("empty", i)

    def singleton(self, i):
        row = self.rows[i]
        if len(row["terms"]) != 1:
            return None
        ((column, factor),) = row["terms"].items()
        made = narrow(lambda: {side: None if row[side] is None else over(row[side], factor) for side in (LO, UP)})
        if made is None:
            return None
        limits = {side: made[turned(factor, side)] for side in (LO, UP)}
        tight = {side: limits[side] for side in (LO, UP) if is_tighter(side, self.columns[column][side], limits[side])}
        return "goes", ("singleton", i, column, factor, tight)

    def fixed(self, j):
        value = self.columns[j][LO]
        if value is None or value != self.columns[j][UP]:
            return None
        return self.substituted(("fixed", j, value), j, {}, value)

    def impossible(self, i):
        row = self.rows[i]
        for side in (UP, LO):
            total = None if row[side] is None else self.sum_of(row, OTHER[side])
            if total is not None and is_past(side, row[side], total):
                taken = [(turned(a, OTHER[side]), j, abs(a)) for j, a in sorted(row["terms"].items())]
                return "decides", [(side, len(self.columns) + i, Fraction(1)), *taken]
        return None

    def redundant(self, i):
        row = self.rows[i]
        for side in (LO, UP):
            total = None if row[side] is None else self.sum_of(row, side)
            if row[side] is not None and (total is None or is_past(side, row[side], total)):
                return None
        return "goes", ("redundant", i)

    def forcing(self, i):
        row = self.rows[i]
        for side in (UP, LO):
            total = None if row[side] is None else self.sum_of(row, OTHER[side])
            if total is not None and total == row[side]:
                return "goes", ("forcing", i, side, dict(row["terms"]))
        return None

    def doubleton(self, i):
        row = self.rows[i]
        if len(row["terms"]) != 2 or row[LO] is None or row[LO] != row[UP]:
            return None
        (x, a), (y, b) = sorted(row["terms"].items())
        c, tight = row[LO], {}
        for side in (LO, UP):
            of = OTHER[turned(b, turned(a, side))]
            limit = self.columns[y][of]
            image = None if limit is None else narrow(lambda limit=limit: over(minus(c, times(b, limit)), a))
            if limit is not None and image is None:
                return None
            if is_tighter(side, self.columns[x][side], image):
                tight[side] = of, image
        return self.substituted(("doubleton", i, x, y, a, b, c, tight), y, {x: a, y: b}, c, i)

    def substituted(self, step, column, equation, value, own=None):
        """The step with the rows that it changes, where all their numbers fit."""

        def changes():
            found = []
            for i, row in enumerate(self.rows):
                if i == own or column not in row["terms"]:
                    continue
                factor = row["terms"][column] if not equation else over(row["terms"][column], equation[column])
                terms = {j: a for j, a in row["terms"].items() if j != column}
                for j, a in equation.items():
                    if j != column:
                        terms[j] = minus(terms.get(j, Fraction(0)), times(factor, a))
                less = times(factor, value)
                sides = {side: None if row[side] is None else minus(row[side], less) for side in (LO, UP)}
                found.append((i, factor, {"terms": {j: a for j, a in terms.items() if a}, **sides}))
            return found

        found = narrow(changes)
        return None if found is None else ("goes", (*step, found))

    # ---- what comes next, and what it makes
    def next_found(self):
        variables, columns = range(len(self.columns) + len(self.rows)), range(len(self.columns))
        rows = [i for i, live in enumerate(self.live) if live]
        for rule, places in (
            (self.crossing, variables),
            (self.empty, rows),
            (self.singleton, rows),
            (self.fixed, columns),
            (self.impossible, rows),
            (self.redundant, rows),
            (self.forcing, rows),
            (self.doubleton, rows),
        ):
            for place in places:
                found = rule(place)
                if found:
                    return found
        return None

    def make(self, step):
        kind = step[0]
        if kind == "singleton":
            self.columns[step[2]].update(step[4])
        elif kind == "forcing":
            for j, a in step[3].items():
                value = self.columns[j][turned(a, OTHER[step[2]])]
                self.columns[j] = {LO: value, UP: value}
        elif kind == "doubleton":
            self.columns[step[2]].update({side: image for side, (_, image) in step[7].items()})
        if kind in ("fixed", "doubleton"):
            self.columns[step[1] if kind == "fixed" else step[3]] = {LO: None, UP: None}
            for i, _, row in step[-1]:
                self.rows[i] = row
        if kind != "fixed":
            self.rows[step[1]], self.live[step[1]] = {"terms": {}, LO: None, UP: None}, False


def reduced(system):
    """The steps up to where nothing is found or what is found decides, and what decides."""
    steps = []
    while True:
        found = system.next_found()
        if found is None or found[0] == "decides":
            return steps, found and found[1]
        system.make(found[1])
        steps.append(found[1])


# ---- the ways back
def point_before(step, point):
    if step[0] == "fixed":
        point[step[1]] = step[2]
    elif step[0] == "doubleton":
        _, _, x, y, a, b, c, _, _ = step
        point[y] = over(minus(c, times(a, point[x])), b)


def weights_before(columns, step, weights):
    """The weights of sides and limits before a step, of a dictionary by side and variable."""
    old = dict(weights)
    weight = lambda side, variable: old.get((side, variable), Fraction(0))
    if step[0] == "singleton":
        _, i, j, a, tight = step
        for side in tight:
            weights[turned(a, side), columns + i] = over(weight(side, j), abs(a))
            weights[side, j] = Fraction(0)
    elif step[0] == "fixed":
        total = sum((f * (weight(UP, columns + i) - weight(LO, columns + i)) for i, f, _ in step[-1]), Fraction(0))
        weights[UP, step[1]], weights[LO, step[1]] = max(-total, Fraction(0)), max(total, Fraction(0))
    elif step[0] == "forcing":
        _, i, side, terms = step
        taken = {j: turned(a, OTHER[side]) for j, a in terms.items()}
        often = sum((weight(OTHER[taken[j]], j) / abs(a) for j, a in terms.items()), Fraction(0))
        weights[side, columns + i], weights[OTHER[side], columns + i] = often, Fraction(0)
        for j, a in terms.items():
            weights[taken[j], j] = weight(taken[j], j) + abs(a) * often - weight(OTHER[taken[j]], j)
            weights[OTHER[taken[j]], j] = Fraction(0)
    elif step[0] == "doubleton":
        _, i, x, y, a, b, _, tight, changes = step
        often = -sum((f * (weight(UP, columns + k) - weight(LO, columns + k)) for k, f, _ in changes), Fraction(0))
        given = {LO: Fraction(0), UP: Fraction(0)}
        for side, (of, _) in tight.items():
            part = weight(side, x) / a
            often += part if side == UP else -part
            given[of] = abs(b * part)
            weights[side, x] = Fraction(0)
        weights[UP, columns + i], weights[LO, columns + i] = max(often, Fraction(0)), max(-often, Fraction(0))
        for side in (LO, UP):
            weights[side, y] = given[side]


def check_combination(system, weights):
    """Every column cancels, and what is left of the limits is below 0."""
    sums, right = {}, Fraction(0)
    for (side, variable), weight in weights.items():
        sign = weight if side == UP else -weight
        assert weight >= 0
        right += 0 if not weight else sign * system.limits(variable)[side]
        own = variable < len(system.columns)
        for j, a in ({variable: 1} if own else system.rows[variable - len(system.columns)]["terms"]).items():
            sums[j] = sums.get(j, 0) + sign * a
    assert right < 0 and not any(sums.values())


def start_point(system):
    """Each column at its lower limit, or else its upper one, or else 0."""
    return [next((it[side] for side in (LO, UP) if it[side] is not None), Fraction(0)) for it in system.columns]


def is_met(system, point):
    values = [*point, *(sum((a * point[j] for j, a in row["terms"].items()), Fraction(0)) for row in system.rows)]
    return all(
        limits[side] is None or not is_past(side, limits[side], value)
        for limits, value in ((system.limits(v), value) for v, value in enumerate(values))
        for side in (LO, UP)
    )


# ---- in print
def member(columns, side, variable):
    if variable >= columns:
        return ROW, variable - columns, side
    return LOWER if side == LO else UPPER, variable, side


def infeasible(model, weights):
    used = {member(len(model.columns), *it): weight for it, weight in weights.items() if weight}
    names = [(model.name(it), used[it]) for it in sorted(used)]
    return ["infeasible", *(f"member {name}" for name, _ in names), "proof", "leaf", *(f"use {name} {weight}" for name, weight in names), "end"]


def step_text(step, rows, columns):
    """The line of a step, by the names of rows and columns."""
    if step[0] == "fixed":
        return f"fixed {columns[step[1]]} {step[2]}"
    parts = {"forcing": lambda: f" {step[2]}", "doubleton": lambda: f" {columns[step[3]]}"}
    return f"{step[0]} {rows[step[1]]}" + parts.get(step[0], str)()


def active_limits(model):
    """The columns and rows of the active members of a model but its marks."""
    active = lambda it: model.number(it) if model.is_active(it) else None
    columns = [(active((LOWER, j, LO)), active((UPPER, j, UP))) for j in range(len(model.columns))]
    return columns, [(row.form.items(), active((ROW, i, LO)), active((ROW, i, UP))) for i, row in enumerate(model.rows)]


def reduction(model):
    """The lines of the answer to `reduce`, the steps, and the system that is left, or None where the steps decide."""
    system, written = System(*active_limits(model)), System(*active_limits(model))
    steps, decided = reduced(system)
    if decided is None:
        gone = [step for step in steps if step[0] in ("fixed", "doubleton")]
        left = f"left rows {sum(system.live)} columns {len(model.columns) - len(gone)}"
        names = [row.name for row in model.rows], [column.name for column in model.columns]
        return ["reduced", *(step_text(step, *names) for step in steps), left, "end"], steps, system
    weights = {}
    for side, variable, weight in decided:
        weights[side, variable] = weights.get((side, variable), Fraction(0)) + weight
    for step in reversed(steps):
        weights_before(len(model.columns), step, weights)
    check_combination(written, weights)
    return infeasible(model, weights), steps, None


def verdict(model, lines, steps, system):
    """The lines of the answer to `check`, or None where a run is to find the point."""
    if system is None:
        return lines
    point = start_point(system)
    if not is_met(system, point):
        return None
    for step in reversed(steps):
        point_before(step, point)
    assert is_met(System(*active_limits(model)), point)
    return ["feasible", "point", *values_text(model, point), "end"]


def values_text(model, values):
    return [f"value {column.name} {value}" for column, value in zip(model.columns, values) if value]


def case(columns, rows):
    """A model, which is not yet edited, a script, and what its commands are answered. Sides that cross are set by the script."""
    crossing = [(i, up) for i, (_, lo, up) in enumerate(rows) if None not in (lo, up) and up < lo]
    sides = [(lo, None if (i, up) in crossing else up) for i, (_, lo, up) in enumerate(rows)]
    made = lambda ends: Model(
        [Row(f"r{i}", dict(terms), *ends[i]) for i, (terms, _, _) in enumerate(rows)],
        [Column(f"x{j}", *ends) for j, ends in enumerate(columns)],
        {},
        False,
    )
    edits = [f"set row r{i} upper {up}" for i, up in crossing]
    model = made([(lo, up) for _, lo, up in rows])
    lines, *end = reduction(model)
    check = verdict(model, lines, *end)
    script, answers = [*edits, "reduce"], [*(["done"] for _ in edits), lines]
    return made(sides), script + ["check"] * bool(check), answers + [check] * bool(check)


FREE = (None, None)
SYSTEMS = [
    # a column that a row fixes, and a chain of them
    ([(0, None)] * 3, [([(0, 1)], 1, 1), ([(0, 1), (1, 1), (2, 1)], None, 5)]),
    ([(0, None)] * 3, [([(0, 1)], 1, 1), ([(0, 1), (1, 1)], 3, 3), ([(1, 1), (2, 1)], 1, 1)]),
    # limits of a column that cross, and sides of a row
    ([(2, 1)], [([(0, 1)], 0, 5)]),
    ([(0, 1), (0, 1)], [([(0, 1), (1, 1)], 3, 1)]),
    # rows without columns: 0 is within the sides, below them, above them
    ([(0, None)], [([], -1, 1), ([(0, 2)], None, 8)]),
    ([(0, None)], [([], 1, None)]),
    ([(0, None)], [([], None, -1)]),
    # rows of one column: with a negative factor, as tight as before, too far
    ([(0, 9)], [([(0, -2)], -10, -4)]),
    ([(0, 4)], [([(0, 1)], 0, 4)]),
    ([(0, None)], [([(0, -3)], 1, None)]),
    # sums past a side
    ([(1, None), (None, 2)], [([(0, 2), (1, -1)], None, -1)]),
    ([(None, 1), (0, None)], [([(0, 1), (1, -3)], 2, None)]),
    # a row that its columns keep, and rows that force them
    ([(0, 1), (-1, 1)], [([(0, 1), (1, 2)], -2, 3)]),
    ([(1, None), (None, 2)], [([(0, 1), (1, -2)], None, -3), ([(0, 1), (1, 1)], None, 9)]),
    ([(None, 3), (0, 4)], [([(0, 2), (1, -1)], 6, None), ([(0, 1), (1, 1)], None, 2)]),
    # equations of two columns: both signs of the factors, columns that cancel, two against one another
    ([(0, None), (1, 2), (0, None)], [([(0, 1), (1, 2)], 8, 8), ([(0, 1), (1, 1), (2, 1)], None, 20)]),
    ([(0, None), (0, 3), FREE], [([(0, 2), (1, -1)], 4, 4), ([(1, 3), (2, 1)], -1, None)]),
    ([(0, None), (0, 3), (0, 1)], [([(0, -2), (1, 1)], -4, -4), ([(1, -3), (2, 1)], -40, None)]),
    ([(0, None), (0, None), (0, 5)], [([(0, 1), (1, 1)], 6, 6), ([(0, 2), (1, 2), (2, 1)], 20, None)]),
    ([(0, None), (0, None)], [([(0, 1), (1, 1)], 2, 2), ([(0, 1), (1, -1)], 5, 5)]),
    # nothing to do
    ([(0, None), (0, None)], [([(0, 1), (1, 1)], None, 4)]),
    # numbers too wide for a rule: a quotient, a sum, a product for a fixed column, the limits that an equation makes
    ([(0, None)], [([(0, Fraction(1, 10**20))], None, 10**19)]),
    ([(0, 10**19), (0, 10**19)], [([(0, 10**19), (1, 10**19)], None, 10**19)]),
    ([(10**19, 10**19), (0, 1)], [([(0, 10**19 * 9), (1, 1)], None, 10**19)]),
    ([(0, None), (None, 1), (0, 1)], [([(0, Fraction(1, 10**20)), (1, 1)], 10**19, 10**19), ([(1, 1), (2, 1)], None, 1)]),
]


def drawn(source):
    """A small system of random numbers, which a rule or two finds something in."""
    columns = [source.choice([(0, None), (0, source.randint(0, 4)), (-2, 3), (None, 2), FREE]) for _ in range(source.randint(2, 4))]
    rows = []
    for _ in range(source.randint(1, 4)):
        picked = sorted(source.sample(range(len(columns)), source.randint(1, min(3, len(columns)))))
        terms = [(j, source.choice([-3, -2, -1, 1, 1, 2, Fraction(1, 2)])) for j in picked]
        lo = source.randint(-4, 6)
        rows.append((terms, *source.choice([(lo, None), (None, lo), (lo, lo), (lo, lo), (lo, lo + source.randint(1, 5))])))
    return columns, rows


def cases():
    """The listed systems, and others up to 75, none twice."""
    source, found = random.Random(24), [case(*system) for system in SYSTEMS]
    while len(found) < 75:
        made = case(*drawn(source))
        if (made[0].mps(), made[1]) not in [(model.mps(), script) for model, script, _ in found]:
            found.append(made)
    return found
