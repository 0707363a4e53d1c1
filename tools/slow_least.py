"""Slow relaxations, beside which the program is tried.

It goes by the definitions alone: the elastic system of all members is written out, with an elastic variable for each soft one,
and settled and improved by the slow runs of slow_improve.py. `cases()` gives models with what `relax` has to answer: those listed
there that no point satisfies, and others with weights that are drawn at random from a stored seed; of these those with a number
that could make an operation too wide are left out. Each point, each dual and each combination is checked against the model itself,
in which no elastic variable is.
"""

import random
from fractions import Fraction

from models import LO, RIGID, ROW, UP, UPPER
from slow_improve import LISTED, Stand, System, dual, improved, model_of, run, system_of, uses_text
from slow_reduction import member, values_text


def elastic(model):
    """The elastic system, the rigid members enforced, and the member that each side of each of its rows stands for."""
    columns = [[None, None] for _ in model.columns]
    soft, rigid = [], []
    for it in model.members():
        (rigid if model.weight(it) == RIGID else soft).append(it)
    for kind, index, side in rigid:
        if kind != ROW:
            columns[index][kind == UPPER] = model.number((kind, index, side))
    own = {it: len(model.columns) + k for k, it in enumerate(soft)}
    rows, stands = [], []

    def put(members, terms):
        sides = {it[2]: it for it in members}
        rows.append((sorted(terms.items()), *(model.number(sides[side]) if side in sides else None for side in (LO, UP))))
        stands.append(sides)

    put_soft = lambda it: put([it], {**model.form(it), own[it]: Fraction(1 if it[2] == LO else -1)})
    for i, row in enumerate(model.rows):
        enforced = [it for it in rigid if it[:2] == (ROW, i)]
        if enforced:
            put(enforced, row.form)
        for it in soft:
            if it[:2] == (ROW, i):
                put_soft(it)
    for it in soft:
        if it[0] != ROW:
            put_soft(it)
    return System([*columns, *[(0, None)] * len(soft)], rows, [(own[it], -model.weight(it)) for it in soft]), stands


def named(model, made, stands, weights):
    """Weights by side and variable of the elastic system as weights by member."""
    found = {}
    for (side, v), weight in weights.items():
        it = stands[v - made.columns][side] if v >= made.columns else member(made.columns, side, v) if v < len(model.columns) else None
        if it is not None:
            assert weight > 0 and it not in found
            found[it] = weight
    return found


def crossed(system):
    """Both limits of the least variable whose limits cross."""
    for v, limits in enumerate(system.limits):
        if None not in limits.values() and limits[LO] > limits[UP]:
            return {(LO, v): Fraction(1), (UP, v): Fraction(1)}
    return None


def blocked(stand, basic):
    """The limits of an infeasible end, with their weights."""
    side = stand.missed(basic)
    way = 1 if side == LO else -1
    factors = {v: way * stand.factor(basic, v) for v in stand.nonbasics if stand.factor(basic, v)}
    return {(side, basic): Fraction(1), **{(UP if a > 0 else LO, v): abs(a) for v, a in factors.items()}}


def right_side(model, weights):
    return sum(((w if it[2] == UP else -w) * model.number(it) for it, w in weights.items()), Fraction(0))


def is_cancelled(model, weights):
    sums = {}
    for it, w in weights.items():
        for j, a in model.form(it).items():
            sums[j] = sums.get(j, 0) + (w if it[2] == UP else -w) * a
    return not any(sums.values())


def answer(model):
    """The lines of the answer, of a model of which all members are active."""
    made, stands = elastic(model)
    members, is_rigid = model.members(), lambda it: model.weight(it) == RIGID
    refuting = crossed(made)
    if refuting is None:
        stand, basic, _ = run(made, made.start(), Stand.settle_turn)
        refuting = None if basic is None else blocked(stand, basic)
    if refuting is not None:
        weights = named(model, made, stands, refuting)
        assert is_cancelled(model, weights) and right_side(model, weights) < 0 and all(map(is_rigid, weights))
        told = [f"member {model.name(it)}" for it in sorted(weights)]
        return ["rigid infeasible", *told, "proof", "leaf", *uses_text(model, weights), "end"]
    stand, moving, _ = run(made, stand.basis, Stand.improve_turn)
    assert moving is None
    values = [stand.value(j) for j in range(len(model.columns))]
    shares, bound = dual(stand)
    weights = named(model, made, stands, shares)
    assert is_cancelled(model, weights) and right_side(model, weights) == bound
    assert all(is_rigid(it) or w <= model.weight(it) for it, w in weights.items())
    assert not any(is_rigid(it) and model.missed(it, values) for it in members)
    total = sum((model.weight(it) * model.missed(it, values) for it in members if not is_rigid(it)), Fraction(0))
    assert total == -bound
    return ["least", f"total {total}", "point", *values_text(model, values), "dual", *uses_text(model, weights), "end"]


def infeasible_models():
    """The listed models that no point satisfies."""
    models = [model_of(*it, True) for it in LISTED]
    return [model for model in models if improved(system_of(model), system_of(model).start()) is None]


def weighed(model, source, weights):
    """Gives some members a weight, and returns the edits that do."""
    edits = []
    for it in model.members():
        weight = source.choice(weights(source))
        if weight is not None:
            model.weights[it] = weight
            edits.append(f"weight {model.name(it)} {weight}")
    return edits


def drawn(source):
    """A small model of random numbers that is tight, with a weight for some members, and the edits that set these."""
    columns = [source.choice([(0, None), (0, source.randint(1, 4)), (-2, 3), (1, 5), (None, 2)]) for _ in range(source.randint(2, 3))]
    rows = []
    for _ in range(source.randint(3, 4)):
        picked = sorted(source.sample(range(len(columns)), 2))
        terms = [(j, source.choice([-3, -2, -1, 1, 1, 2, 3])) for j in picked]
        lo = source.randint(-6, 6)
        rows.append((terms, *source.choice([(lo, None), (None, lo), (lo, lo), (lo, lo + 3), (lo + 1, lo)])))
    model = model_of(columns, rows, [(j, source.randint(1, 3)) for j in range(len(columns))], True)
    return model, weighed(model, source, lambda it: [None, None, RIGID, RIGID, Fraction(it.randint(2, 5)), Fraction(it.randint(1, 5), 6)])


def chosen(source, drawn, kinds, kind_of, command, answer):
    """Drawn models with their edits, so many of each kind of answer, none twice."""
    found, texts = [], set()
    while any(kinds.values()):
        model, edits = drawn(source)
        try:
            lines = answer(model)
        except AssertionError:
            continue
        text = "\n".join([model.lp(), *edits])
        if kinds.get(kind_of(lines)) and text not in texts:
            kinds[kind_of(lines)] -= 1
            texts.add(text)
            found.append((model, [*edits, command], [*(["done"] for _ in edits), lines]))
    return found


def cases():
    """The listed models, and 50 drawn ones: some with a least violation of 0, some a greater one, and some whose rigid members contradict."""
    kind_of = lambda lines: "rigid" if lines[0] == "rigid infeasible" else "met" if lines[1] == "total 0" else "least"
    found = chosen(random.Random(26), drawn, {"met": 8, "least": 32, "rigid": 10}, kind_of, "relax", answer)
    return [(model, ["relax"], [answer(model)]) for model in infeasible_models()] + found
