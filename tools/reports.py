"""Judges a report of the program, independently of it, in exact numbers: `judge(model, script, report)`

Each entry is read line by line and what it claims is tried from the definitions: points are put into the active members, the
combinations and trees of proofs are added up, witnesses satisfy all other members of a set, totals and bounds are reached by the
point and shown by the dual, and a reduction is that of slow_reduction.py. Of the deletion and the additive filter the witness
of each member satisfies besides what was left when the filter asked for it, so that the set is the one which that filter finds.
"""

from collections import Counter
from fractions import Fraction

from models import LO, RIGID, UP, WHOLE, sum_of
from slow_reduction import System, active_limits, reduced, reduction, step_text

STOPS = "pivots spent", "nodes spent", "too wide"
LINEAR = "relax", "iis elastic", "iis alternative"
SITES = {"unbounded": "improve", "relax": "relax", "iis elastic": "stretch", "iis alternative": "alternative"}
GREATEST = 2**127 - 1


class Wrong(Exception):
    """A line of a report, counted from 1, that is not so."""


class Reading:
    """The lines of a report, of which the next is at a place."""

    def __init__(self, report):
        self.lines, self.place = report.split("\n"), 0

    def sure(self, *tests):
        if not all(tests):
            raise Wrong(f"line {self.place}: {self.lines[self.place - 1]}")

    def next(self):
        return self.lines[self.place] if self.place < len(self.lines) else None

    def take(self, *words):
        """The words behind these on the next line, which has to begin with them."""
        line = (self.next() or "").split(" ")
        self.place += 1
        self.sure(line[: len(words)] == list(words))
        return line[len(words) :]

    def takes(self, *words):
        """Whether the next line is of these words, which is then taken."""
        is_so = self.next() == " ".join(words)
        self.place += is_so
        return is_so

    def while_of(self, word):
        """The words behind this one on each of the next lines that begin with it."""
        while (self.next() or "").startswith(f"{word} "):
            yield self.take(word)

    def number(self, word):
        number = Fraction(word)
        self.sure(str(number) == word, abs(number.numerator) <= GREATEST, number.denominator <= GREATEST)
        return number

    def in_order(self, items):
        self.sure(all(a < b for a, b in zip(items, items[1:])))
        return items

    def values(self, model):
        """The value of each column, of the lines of those that are not 0."""
        found = {}
        for name, word in self.while_of("value"):
            found[model.columns_by_name[name]] = self.number(word)
            self.sure(found[model.columns_by_name[name]] != 0)
        self.in_order(list(found))
        return [found.get(j, Fraction(0)) for j in range(len(model.columns))]

    def point(self, model, members):
        """A point that satisfies these members."""
        self.sure(self.take("point") == [])
        values = self.values(model)
        self.sure(*(model.holds(it, values) for it in members))
        return values

    def members(self, model, word):
        """Active members, in order."""
        found = [model.named(words)[0] for words in self.while_of(word)]
        self.sure(*map(model.is_active, found))
        return self.in_order(found)

    # ---- combinations
    def uses(self, model, members, path=()):
        """Members and the branches of a path with their weights: those members, what cancels and what is left on the right."""
        shares, sums, right, order = [], Counter(), Fraction(0), []
        for kind, name, word in self.while_of("use"):
            weight = self.number(word)
            self.sure(weight > 0)
            if kind in ("below", "above"):
                j, side = model.columns_by_name[name], UP if kind == "below" else LO
                ends = [at for column, its, at in path if (column, its) == (j, side)]
                self.sure(ends)
                form, number = {j: Fraction(1)}, min(ends) if side == UP else max(ends)
                order.append((WHOLE + 1, j, "" if side == UP else side))
            else:
                it = model.named((kind, name))[0]
                self.sure(it in members, it[0] != WHOLE)
                form, number, side = model.form(it), model.number(it), it[2]
                shares.append((it, weight))
                order.append(it)
            signed = weight if side == UP else -weight
            right += signed * number
            for j, a in form.items():
                sums[j] += signed * a
        self.in_order(order)
        return shares, {j: a for j, a in sums.items() if a}, right

    def leaf(self, model, members, path=()):
        shares, sums, right = self.uses(model, members, path)
        self.sure(not sums, right < 0)
        return shares, right

    def tree(self, model, members, path=()):
        """The members that a tree uses, whose leaves all add up to a contradiction."""
        if self.takes("leaf"):
            return {it for it, _ in self.leaf(model, members, path)[0]}
        name, word = self.take("split")
        j, at = model.columns_by_name[name], int(word)
        self.sure((WHOLE, j, LO) in members)
        below, above = (*path, (j, UP, at)), (*path, (j, LO, at + 1))
        return {(WHOLE, j, LO)} | self.tree(model, members, below) | self.tree(model, members, above)

    # ---- answers
    def feasible(self, model):
        self.point(model, model.members())

    def infeasible(self, model):
        members = self.members(model, "member")
        self.sure(self.take("proof") == [], self.tree(model, set(members)) == set(members))

    def rigid_infeasible(self, model):
        members = self.members(model, "member")
        self.sure(self.take("proof") == [], self.take("leaf") == [])
        shares, _ = self.leaf(model, set(members))
        self.sure([it for it, _ in shares] == members, *(model.weight(it) == RIGID for it in members))

    def irreducible(self, model, command):
        active, found, witnesses = model.members(), [], []
        for words in self.while_of("member"):
            found.append(model.named(words)[0])
            self.sure(model.is_active(found[-1]), self.take("point") == [])
            witnesses.append(self.values(model))
        self.in_order(found)
        for it, values in zip(found, witnesses):
            others = [other for other in found if other != it]
            if command == "iis deletion":
                others += [other for other in active if other > it]
            elif command == "iis additive":
                others += [other for other in active if other < it]
            self.sure(*(model.holds(other, values) for other in others))
        self.sure(self.take("proof") == [])
        if command == "iis alternative":
            self.sure(self.take("leaf") == [])
            self.cheapest(model, active, *self.leaf(model, set(found)))
        else:
            self.tree(model, set(found))
        if command == "iis elastic":
            (rounds,) = self.take("rounds")
            self.sure(1 <= int(rounds) <= len(found) + 1)

    def cheapest(self, model, active, shares, right):
        """A total and a price, at which no member is missed by more than it costs."""
        cost = lambda it: Fraction(1) if model.weight(it) == RIGID else model.weight(it)
        (word,) = self.take("total")
        self.total = self.number(word)
        self.sure(right == -1, self.total == sum(cost(it) * weight for it, weight in shares), self.take("price") == [])
        price = self.values(model)
        for it in active:
            gain = sum_of(model.form(it), price) - self.total * model.number(it)
            self.sure((gain if it[2] == UP else -gain) <= cost(it))

    def least(self, model):
        active = model.members()
        (word,) = self.take("total")
        self.total = self.number(word)
        values = self.point(model, [it for it in active if model.weight(it) == RIGID])
        missed = sum((model.weight(it) * model.missed(it, values) for it in active if model.weight(it) != RIGID), Fraction(0))
        self.sure(missed == self.total, self.take("dual") == [])
        shares, sums, right = self.uses(model, set(active))
        self.sure(not sums, right == -self.total, *(model.weight(it) == RIGID or weight <= model.weight(it) for it, weight in shares))

    def unbounded(self, model):
        self.point(model, model.members())
        self.sure(self.take("ray") == [])
        changes = self.values(model)
        for it in model.members():
            if it[0] != WHOLE:
                change = sum_of(model.form(it), changes)
                self.sure(change >= 0 if it[2] == LO else change <= 0)
        gain = sum_of(model.objective, changes)
        self.sure(gain > 0 if model.is_greatest else gain < 0)

    def bounded(self, model):
        active = model.members()
        is_marked = any(it[0] == WHOLE for it in active)
        values = self.point(model, active)
        objective = sum_of(model.objective, values)
        if not is_marked or (self.next() or "").startswith("objective "):
            self.sure(self.take("objective") == [str(objective)])
        (word,) = self.take("bound")
        self.total, sign = self.number(word), 1 if model.is_greatest else -1
        self.sure(is_marked or self.total == objective, self.take("dual") == [])
        _, sums, right = self.uses(model, set(active))
        self.sure(sums == {j: sign * a for j, a in model.objective.items()}, right == sign * self.total)

    def reduced(self, model):
        system = System(*active_limits(model))
        steps, decided = reduced(system)
        # A contradiction is not told where its way back is too wide, as where a weight does not fit.
        if decided is not None:
            uses = [Fraction(line.split()[-1]) for line in reduction(model)[0] if line.startswith("use ")]
            self.sure(any(max(it.numerator, it.denominator) > GREATEST for it in uses))
        for step in steps:
            told = step_text(step, [row.name for row in model.rows], [column.name for column in model.columns])
            self.sure(self.takes(*told.split(" ")))
        gone = sum(step[0] in ("fixed", "doubleton") for step in steps)
        self.sure(self.takes("left", "rows", str(sum(system.live)), "columns", str(len(model.columns) - gone)))

    def stopped(self, model, command, stop):
        """The site of a stop. Which runs stop is not looked at."""
        (site,) = self.take("site")
        self.sure(site in ("settle", SITES.get(command)))
        self.members(model, "without")
        self.members(model, "enforced")
        while (self.next() or "").startswith(("below ", "above ")):
            self.take()
        if stop == "too wide":
            self.take("step")
            self.take("operation")

    def answer(self, model, command):
        """What an answer is, where all that it claims is so."""
        line = " ".join(self.take())
        marked = next((it for it in model.members() if it[0] == WHOLE), None) if command in LINEAR else None
        self.total = None
        if marked:
            self.sure(line == f"not linear {model.columns[marked[1]].name}")
            return "not linear"
        if line in STOPS:
            self.stopped(model, command, line)
        else:
            self.sure(line in allowed(command))
            judged = getattr(self, line.replace(" ", "_"))
            judged(model, command) if line == "irreducible" else judged(model)
        self.sure(self.take("end") == [])
        return line


def allowed(command):
    """What a command may be answered, but stops."""
    if command.startswith("iis "):
        return "feasible", "irreducible"
    return {
        "check": ("feasible", "infeasible"),
        "unbounded": ("unbounded", "bounded", "infeasible"),
        "relax": ("least", "rigid infeasible"),
        "reduce": ("reduced", "infeasible"),
    }[command]


def judge(model, script, report, slow=None, kind=Reading):
    """What each command is answered; the model is edited by the commands on the way.

    Where a slow program is given, what it finds of the model for a command, an answer and its total, is what is answered, or None.
    Another kind of reading may ask for more or less of an answer.
    """
    reading, told = kind(report), []
    reading.sure(reading.take("iisan", "report", "2") == [])
    for command in script:
        words = command.split(" ")
        reading.sure(reading.take("command", *words) == [])
        if words[0] in ("budget", "drop", "keep", "set", "mark", "weight", "undo"):
            told.append("done" if words[0] == "budget" else model.edit(words))
            reading.sure(reading.takes(*told[-1].split(" ")))
        else:
            told.append(reading.answer(model, command))
            expected = slow and told[-1] not in STOPS and slow(model, command)
            reading.sure(not expected or expected == (told[-1], reading.total))
    reading.sure(reading.take("report", "end") == [], reading.lines[reading.place :] == [""])
    return told
