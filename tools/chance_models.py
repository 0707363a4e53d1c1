"""Models of several kinds and scripts for them, drawn at random: the same seed gives the same, with the same version of Python.

KINDS has a function for each kind, which draws a model. Sets whose rows times the columns are more than 1,000 are asked of quick
runs first, smaller ones of the reference run at once; where a kind is to be large, columns that stand in no row are put behind.
"""

from fractions import Fraction

from models import RIGID, ROW, Column, Model, Row

FILTERS = ["iis deletion", "iis additive", "iis sensitivity"]
LINEAR = ["iis elastic", "iis alternative", "relax"]
ANSWERS = ["feasible", "infeasible", "irreducible", "least", "rigid infeasible", "unbounded", "bounded", "reduced", "pivots spent", "nodes spent", "too wide", "not linear", "done", "no change", "unknown name", "nothing to undo"]
SMALL = 1_000


def filled(rows, columns):
    """So many columns in no row that the set is large; their least and greatest values leave the objective bounded."""
    return [Column(f"y{k}", 0, 1) for k in range(SMALL // max(1, len(rows)) + 1 - len(columns))]


def model(source, rows, columns, is_large=True, least=-3, most=3):
    """The model of these rows and columns, each of which costs from so much to so much."""
    columns = columns + (filled(rows, columns) if is_large else [])
    objective = {j: source.randint(least, most) for j in range(len(columns))}
    return Model([Row(f"r{i}", *it) for i, it in enumerate(rows)], columns, objective, source.random() < 0.5)


def digits(source, places, count):
    """A number of either sign with so many digits in all, of which so many stand behind the point."""
    return Fraction(source.randint(-(10**count) + 1, 10**count - 1), 10**places)


def ends(source, number):
    """Sides of a row: at most, at least, equal to, or between this number and one above."""
    return source.choice([(None, number), (number, None), (number, number), (number, number + source.randint(1, 6))])


def bounds(source, crossing=0.0):
    """Bounds of a column of each kind, which may cross."""
    low, width = source.randint(-3, 3), source.randint(0, 4)
    return source.choice([(low, None), (0, width), (low, low - 1 if source.random() < crossing else low + width), (low, low), (None, None), (None, low), (0, None)])


def box(source):
    low = source.randint(-2, 2)
    return low, low + source.randint(0, 3)


def dense(source, is_large, places=0, count=1, crossing=0.0, is_marked=False, most=7):
    """Rows over a few columns, with about every second entry."""
    columns = [Column(f"x{j}", *(box(source) if is_marked else bounds(source, crossing)), is_marked) for j in range(source.randint(2, most))]
    rows = []
    for _ in range(source.randint(2, most + 1)):
        form = {j: digits(source, places, count) for j in range(len(columns)) if source.random() < 0.5}
        rows.append(({j: a for j, a in form.items() if a}, *ends(source, digits(source, places, count))))
    return model(source, rows, columns, is_large)


def tiny(source):
    """A few rows and columns, which the slow programs take little time for."""
    columns = [Column(f"x{j}", *bounds(source)) for j in range(source.randint(1, 3))]
    rows = [({j: source.randint(-3, 3) or 1 for j in range(len(columns)) if source.random() < 0.8}, *ends(source, source.randint(-5, 5))) for _ in range(source.randint(2, 4))]
    return model(source, rows, columns, is_large=False)


def sparse(source, rows, columns, is_boxed, is_large):
    """Rows with few entries, each missed by little where all columns are 0, which their bounds let them be."""
    made = [Column(f"x{j}", -source.randint(0, 3), source.randint(0, 5)) if is_boxed else Column(f"x{j}", *source.choice([(0, None), (0, 5), (-3, 4), (None, 3)])) for j in range(columns)]
    forms = [{j: source.randint(-9, 9) or 1 for j in sorted(source.sample(range(columns), min(columns, source.randint(2, 4))))} for _ in range(rows)]
    sides = lambda kind: {"L": (None, source.randint(-1, 8)), "G": (source.randint(-8, 1), None), "E": (0, 0) if source.random() < 0.7 else (1, 1)}[kind]
    return model(source, [(form, *sides("LGLGE"[i % 5])) for i, form in enumerate(forms)], made, is_large)


def plan(source):
    """What is made and what is in store meets the demand of each of 23 to 26 periods, the last of which may ask for much more."""
    periods = source.randint(23, 26)
    columns = [Column(f"s{t}", 0, None) for t in range(periods)] + [Column(f"p{t}", 0, source.randint(5, 6)) for t in range(periods)]
    demands = [source.randint(0, 5) for _ in range(periods)]
    demands[-1] += source.randint(0, 140)
    forms = [{t: -1, periods + t: 1, **({t - 1: 1} if t else {})} for t in range(periods)]
    return model(source, [(form, demand, demand) for form, demand in zip(forms, demands)], columns, False, 1, 1)


def transport(source):
    """From seven suppliers to eight customers."""
    forms = [{8 * i + j: 1 for j in range(8)} for i in range(7)] + [{8 * i + j: 1 for i in range(7)} for j in range(8)]
    rows = [(form, None, source.randint(0, 22)) if i < 7 else (form, source.randint(0, 19), None) for i, form in enumerate(forms)]
    return model(source, rows, [Column(f"t{k}", 0, None) for k in range(56)], True, 1, 9)


def flow(source):
    """Through 24 nodes, with two arcs out of each but the last to later ones, of which the last wants some of it."""
    forms, columns = [{} for _ in range(24)], []
    for k in range(46):
        columns.append(Column(f"a{k}", 0, source.randint(1, 9)))
        for node, sign in ((k // 2, -1), (min(23, k // 2 + source.randint(1, 5)), 1)):
            forms[node][k] = sign
    rows = [(form, 0, 0) for form in forms[1:-1]] + [(forms[-1], source.randint(4, 16), None)]
    return model(source, rows, columns)


def assignment(source):
    """Six or seven people and as many tasks, each of which some of them can do."""
    count = source.randint(6, 7)
    pairs = [(i, j) for i in range(count) for j in range(count) if source.random() < 0.35]
    rows = [({k: 1 for k, pair in enumerate(pairs) if pair[side] == it}, 1, 1) for side in range(2) for it in range(count)]
    return model(source, rows, [Column(f"d{i}_{j}", 0, 1) for i, j in pairs])


def knapsack(source):
    """Three or four marked columns whose even weights are to come to an odd total, beside two rows that ask for little."""
    count = source.randint(3, 4)
    ones = {j: 1 for j in range(count)}
    rows = [({j: 2 * source.randint(3, 8) for j in range(count)}, 8 * count + 1, 8 * count + 1), (ones, 1, None), (ones, None, 12)]
    return model(source, rows, [Column(f"x{j}", 0, 3, True) for j in range(count)])


def shifts(source):
    """A week of marked shifts of five days each, and a crew that parts of people would make large enough."""
    needs = [source.randint(5, 12) for _ in range(7)]
    rows = [({(day - k) % 7: 1 for k in range(5)}, need, None) for day, need in enumerate(needs)]
    rows.append(({j: 1 for j in range(7)}, None, sum(needs) // 5 + source.randint(0, 1) + Fraction(1, 2)))
    return model(source, rows, [Column(f"x{j}", 0, 9, True) for j in range(7)])


def triangles(source):
    """Of any two marked columns of a triangle one is to be taken, and of all together at most two for each, or less."""
    count = source.randint(3, 4)
    rows = [({j: 1, j - j % 3 + (j + 1) % 3: 1}, 1, None) for j in range(3 * count)]
    rows.append(({j: 1 for j in range(3 * count)}, None, 2 * count - Fraction(source.choice([0, 1, 1, 1]), 2)))
    return model(source, rows, [Column(f"x{j}", 0, 1, True) for j in range(3 * count)])


# The kinds, and how many of each are drawn.
KINDS = {
    "tiny": (900, tiny),
    "small": (700, lambda source: dense(source, False, crossing=0.08)),
    "small marked": (150, lambda source: dense(source, False, is_marked=True)),
    "wide": (350, lambda source: dense(source, True)),
    "crossing": (100, lambda source: dense(source, True, crossing=0.3)),
    "tenths": (150, lambda source: dense(source, True, 1, 2)),
    "hundredths": (150, lambda source: dense(source, source.random() < 0.5, 2, 3)),
    "marked tenths": (60, lambda source: dense(source, True, 1, 2, is_marked=True)),
    "many digits in many rows": (60, lambda source: dense(source, source.random() < 0.5, 2, 4, most=14)),
    "many digits": (60, lambda source: dense(source, True, 3, 9)),
    "marked": (80, lambda source: dense(source, True, is_marked=True)),
    "degenerate": (250, lambda source: sparse(source, source.randint(2, 13), source.randint(2, 6), False, False)),
    "boxed": (150, lambda source: sparse(source, source.randint(8, 30), source.randint(6, 34), True, False)),
    "systems": (40, lambda source: sparse(source, source.randint(30, 50), source.randint(40, 70), source.random() < 0.5, False)),
    "plans": (60, plan),
    "transports": (60, transport),
    "flows": (60, flow),
    "assignments": (80, assignment),
    "odd totals": (20, knapsack),
    "shifts": (20, shifts),
    "triangles": (20, triangles),
}


# ---- scripts
def number(source):
    return source.choice([str(source.randint(-6, 9)), str(Fraction(source.randint(-9, 9), source.randint(1, 4))), "none"])


def edit(source, it):
    """An edit of a model, which need not change anything."""
    row = source.choice(it.rows).name
    column = source.choice(it.columns[:8]).name
    member = source.choice([f"rowlo {row}", f"rowup {row}", f"row {row}", f"lower {column}", f"upper {column}", f"whole {column}"])
    weight = source.choice([RIGID, RIGID, str(source.randint(1, 5)), str(Fraction(source.randint(1, 5), source.randint(2, 3)))])
    side = source.choice(["lower", "upper"])
    return source.choice([
        f"drop {member}",
        f"keep {member}",
        f"set row {row} {side} {number(source)}",
        f"set column {column} {side} {number(source)}",
        f"mark {column} {source.choice(['whole', 'plain', 'plain'])}",
        f"weight {member.replace('whole', 'upper')} {weight}",
        f"weight {member.replace('whole', 'lower')} {weight}",
        "undo",
        "undo",
        f"drop rowlo {column}",
    ])


def weights(source, it):
    """Edits that weigh about every third member, and make about every sixth rigid, of a few rows and columns."""
    made = []
    for member in it.members():
        if source.random() < 0.4 and (member[0] == ROW or member[1] < 30) and len(made) < 40:
            made.append(f"weight {it.name(member)} {source.choice([RIGID, str(source.randint(2, 5)), str(Fraction(source.randint(1, 5), 3))])}")
    return made


def script(source, it):
    """Questions of a model in some order, with edits between them and, now and then, few pivots or nodes."""
    is_marked = any(column.is_whole for column in it.columns)
    asked = ["check", "unbounded", "reduce", *FILTERS, *(source.sample(LINEAR, 1) if is_marked else LINEAR)]
    questions = source.sample(asked, source.randint(3, 5))
    lines = weights(source, it) if not is_marked and source.random() < 0.5 else []
    if source.random() < 0.1:
        lines.append(f"budget pivots {source.randint(0, 6)}")
    for question in questions:
        lines.append(question)
        if source.random() < 0.6:
            lines += [edit(source, it) for _ in range(source.randint(1, 3))]
    lines.append(source.choice(questions))
    if is_marked or any(line.startswith("mark ") for line in lines):
        lines.insert(0, f"budget nodes {source.choice([0, 5, 50, 50, 50])}")
    return lines
