"""Linear and mixed integer programs in exact numbers: their members, their edits, and their texts in both formats.

A member is a tuple of a kind, an index and a side, and stands in its place where members are sorted: the sides of rows, row by
row, the lower one first, then the lower bounds, the upper bounds and the marks, each by column. A number is a Fraction, a form a
dictionary of factors by column, and limits are a dictionary by side, with None where there is none.
"""

from fractions import Fraction

LO, UP = "lo", "up"
ROW, LOWER, UPPER, WHOLE = range(4)
RIGID = "rigid"
HUGE = 10**20
BOUNDS = {LO: LOWER, UP: UPPER}
SIDE_WORDS = {"lower": LO, "upper": UP}


class Row:
    """A name, a form and its limits."""

    def __init__(self, name, form, lo, up):
        self.name, self.form, self.limits = name, {j: Fraction(a) for j, a in form.items()}, limits(lo, up)


class Column:
    """A name, its bounds, and whether it has a mark."""

    def __init__(self, name, lo, up, is_whole=False):
        self.name, self.limits, self.is_whole = name, limits(lo, up), is_whole


def limits(lo, up):
    return {side: None if it is None else Fraction(it) for side, it in ((LO, lo), (UP, up))}


def sum_of(form, values):
    return sum((a * values[j] for j, a in form.items()), Fraction(0))


class Model:
    """Rows and columns, an objective, the members that are dropped, the weights that are not 1, and the edits that stand."""

    def __init__(self, rows, columns, objective, is_greatest):
        self.rows, self.columns, self.is_greatest = rows, columns, is_greatest
        self.objective = {j: Fraction(a) for j, a in objective.items() if a}
        self.dropped, self.weights, self.edits = set(), {}, []
        self.rows_by_name = {row.name: i for i, row in enumerate(rows)}
        self.columns_by_name = {column.name: j for j, column in enumerate(columns)}

    # ---- members
    def limits_of(self, member):
        kind, index, _ = member
        return (self.rows if kind == ROW else self.columns)[index].limits

    def exists(self, member):
        kind, index, side = member
        return self.columns[index].is_whole if kind == WHOLE else self.limits_of(member)[side] is not None

    def is_active(self, member):
        return self.exists(member) and member not in self.dropped

    def number(self, member):
        return self.limits_of(member)[member[2]]

    def form(self, member):
        kind, index, _ = member
        return self.rows[index].form if kind == ROW else {index: Fraction(1)}

    def weight(self, member):
        return self.weights.get(member, Fraction(1))

    def members(self):
        """The active members, in order."""
        rows = [(ROW, i, side) for i in range(len(self.rows)) for side in (LO, UP)]
        columns = [(kind, j, side) for kind, side in ((LOWER, LO), (UPPER, UP), (WHOLE, LO)) for j in range(len(self.columns))]
        return list(filter(self.is_active, rows + columns))

    def name(self, member):
        kind, index, side = member
        if kind == ROW:
            return f"row{side} {self.rows[index].name}"
        return f"{('lower', 'upper', 'whole')[kind - 1]} {self.columns[index].name}"

    def named(self, words):
        """The members that two words of a command or of a report name, or None where there is no such row or column."""
        kind, name = words
        index = (self.rows_by_name if kind.startswith("row") else self.columns_by_name).get(name)
        if index is None:
            return None
        kinds = {"lower": (LOWER, LO), "upper": (UPPER, UP), "whole": (WHOLE, LO), "rowlo": (ROW, LO), "rowup": (ROW, UP)}
        return [(ROW, index, side) for side in (LO, UP)] if kind == "row" else [(kinds[kind][0], index, kinds[kind][1])]

    def missed(self, member, values):
        """By how much the values miss a member that is no mark."""
        value = sum_of(self.form(member), values)
        return max(Fraction(0), self.number(member) - value if member[2] == LO else value - self.number(member))

    def holds(self, member, values):
        if member[0] == WHOLE:
            return values[member[1]].denominator == 1
        return not self.missed(member, values)

    # ---- edits
    def state(self, index, is_row):
        part = (self.rows if is_row else self.columns)[index]
        own = [(ROW, index, LO), (ROW, index, UP)] if is_row else [(LOWER, index, LO), (UPPER, index, UP), (WHOLE, index, LO)]
        flags = [(it, it in self.dropped, self.weights.get(it)) for it in own]
        return dict(part.limits), None if is_row else part.is_whole, flags

    def put_state(self, index, is_row, state):
        part = (self.rows if is_row else self.columns)[index]
        part.limits, flags = dict(state[0]), state[2]
        if not is_row:
            part.is_whole = state[1]
        for member, is_dropped, weight in flags:
            (self.dropped.add if is_dropped else self.dropped.discard)(member)
            self.weights.pop(member, None)
            if weight is not None:
                self.weights[member] = weight

    def edit(self, words):
        """Makes the edit that the words of a command tell, and gives its answer."""
        if words == ["undo"]:
            if not self.edits:
                return "nothing to undo"
            self.put_state(*self.edits.pop())
            return "done"
        verb, kind, name = (words[0], words[1], words[2]) if words[0] != "mark" else ("mark", "whole", words[1])
        members = self.named((("row" if kind == "row" else "lower") if verb == "set" else kind, name))
        if members is None:
            return "unknown name"
        index, is_row = members[0][1], members[0][0] == ROW
        before = self.state(index, is_row)
        if verb == "set":
            self.put_limit(ROW if is_row else BOUNDS[SIDE_WORDS[words[3]]], index, SIDE_WORDS[words[3]], words[4])
        elif verb == "mark":
            self.put_mark(index, words[2] == "whole")
        else:
            for member in filter(self.exists, members):
                self.put_flag(verb, member, words[-1])
        if self.state(index, is_row) == before:
            return "no change"
        self.edits.append((index, is_row, before))
        return "done"

    def put_limit(self, kind, index, side, word):
        # A literal may be huge; a fraction is what it says.
        is_none = word == "none" or ("/" not in word and abs(Fraction(word)) >= HUGE)
        number = None if is_none else Fraction(word)
        self.limits_of((kind, index, side))[side] = number
        self.dropped.discard((kind, index, side))
        if number is None:
            self.weights.pop((kind, index, side), None)

    def put_mark(self, index, is_whole):
        if not is_whole:
            self.dropped.discard((WHOLE, index, LO))
        self.columns[index].is_whole = is_whole

    def put_flag(self, verb, member, word):
        if verb == "drop":
            self.dropped.add(member)
        elif verb == "keep":
            self.dropped.discard(member)
        else:
            self.weights[member] = RIGID if word == RIGID else Fraction(word)
            if self.weights[member] == 1:
                del self.weights[member]

    # ---- texts
    def texts(self):
        """The names of files and the texts in them that declare the model: no row of the LP format is empty, none of MPS crosses."""
        is_crossed = any(None not in row.limits.values() and row.limits[UP] < row.limits[LO] for row in self.rows)
        is_empty = not all(row.form for row in self.rows)
        return [("m.lp", self.lp())] * (not is_empty) + [("m.mps", self.mps())] * (not is_crossed)

    def mps(self):
        """The text in the MPS format. The numbers are decimals, and no row has sides that cross."""
        kinds, sides, ranges, bounds = [], [], [], []
        for row in self.rows:
            lo, up = row.limits.values()
            kind = "N" if lo is up is None else "G" if up is None else "E" if lo == up else "L"
            kinds.append(f" {kind} {row.name}")
            side = lo if kind == "G" else up
            sides += [f" rhs {row.name} {decimal(side)}"] if side else []
            ranges += [f" rng {row.name} {decimal(up - lo)}"] if kind == "L" and lo is not None else []
        forms = [{} for _ in self.columns]
        for row in self.rows:
            for j, a in row.form.items():
                forms[j][row.name] = a
        entries = []
        for j, column in enumerate(self.columns):
            entries.append(f" {column.name} cost {decimal(self.objective.get(j, Fraction(0)))}")
            entries += [f" {column.name} {name} {decimal(a)}" for name, a in forms[j].items()]
            bounds += bound_lines(column)
        parts = [("RHS", sides), ("RANGES", ranges), ("BOUNDS", bounds)]
        head = ["NAME made", *(["OBJSENSE MAX"] if self.is_greatest else []), "ROWS", " N cost", *kinds, "COLUMNS", *entries]
        return "\n".join([*head, *(line for name, lines in parts if lines for line in (name, *lines)), "ENDATA", ""])

    def lp(self):
        """The text in the LP format. The objective names every column, so that they stand in their order."""
        form = lambda terms: " ".join(f"{'-' if a < 0 else '+'} {decimal(abs(a))} {self.columns[j].name}" for j, a in terms)
        lines = ["Maximize" if self.is_greatest else "Minimize"]
        lines += [" cost:", *(f"  {form([(j, self.objective.get(j, Fraction(0)))])}" for j in range(len(self.columns))), "Subject To"]
        for row in self.rows:
            lo, up = (None if it is None else decimal(it) for it in row.limits.values())
            text = f" {row.name}: " + ("" if lo in (None, up) or up is None else f"{lo} <= ") + form(sorted(row.form.items()))
            lines.append(f"{text} = {lo}" if lo == up else f"{text} >= {lo}" if up is None else f"{text} <= {up}")
        lines.append("Bounds")
        for column in self.columns:
            lo, up = (word if it is None else decimal(it) for it, word in zip(column.limits.values(), ("-inf", "inf")))
            lines.append(f" {lo} <= {column.name} <= {up}")
        marked = [f" {column.name}" for column in self.columns if column.is_whole]
        return "\n".join([*lines, *(["General", *marked] if marked else []), "End", ""])


def bound_lines(column):
    """The lines of a column's bounds, where they are not those that a column has without any."""
    lo, up = column.limits.values()
    marked = "I" if column.is_whole else ""
    lines = [f" MI bnd {column.name}"] if lo is None else []
    if lo or column.is_whole and lo is not None or lo == 0 and up is not None and up < 0:
        lines.append(f" {'L' + marked if marked else 'LO'} bnd {column.name} {decimal(lo)}")
    return lines + ([] if up is None else [f" {'U' + marked if marked else 'UP'} bnd {column.name} {decimal(up)}"])


def decimal(number):
    """The decimal of a number."""
    number = Fraction(number)
    places = next(k for k in range(40) if (number * 10**k).denominator == 1)
    return f"{number * 10**places}e-{places}" if places else str(number)
