"""Who gives way where a model is relaxed: what each member wants, gets and misses, and what that costs."""

from dataclasses import dataclass
from fractions import Fraction

from asking import Answer
from contradictions import MOST_LINES, Contradiction, show
from model_texts import Model, Number, is_lower, literal


def rigid_bounds(model: Model) -> list[str]:
    """The lines of a script that make all bounds rigid."""
    bounds = (it for it in model.members() if it.startswith(("lower ", "upper ")))
    return [f"weight {it} rigid" for it in bounds]


def weights(script: list[str]) -> dict[str, str]:
    """The weights that the lines of a script give, by member; a row stands for both its sides."""
    found = {}
    for words in map(str.split, script):
        if words[0] == "weight":
            ends = ("rowlo", "rowup") if words[1] == "row" else (words[1],)
            found.update({f"{end} {words[2]}": words[3] for end in ends})
    return found


@dataclass
class Yielding:
    """The answer to `relax` of a model, and the script that came before: the members that miss, or those that may not."""

    model: Model
    answer: Answer
    script: list[str]

    def __post_init__(self) -> None:
        weight = weights(self.script)
        self.total = self.answer.total or Fraction(0)
        self.contradiction = Contradiction(self.model, self.answer, False) if self.answer.members else None
        members = [] if self.contradiction else self.model.members()
        found = [(it, *self.missed(it)) for it in members if not it.startswith("whole ")]
        self.misses: list[tuple[str, Number, Fraction, Fraction, str]] = [
            (it, wanted, got, miss, weight.get(it, "1")) for it, wanted, got, miss in found if miss > 0
        ]

    def missed(self, member: str) -> tuple[Number, Fraction, Fraction]:
        """What a member wants, what it gets at the point, and by how much it is missed."""
        terms = self.model.form(member).items()
        got = sum((Fraction(factor) * self.answer.point.get(name, Fraction(0)) for name, factor in terms), Fraction(0))
        wanted = self.model.number(member) or Fraction(0)
        return wanted, got, Fraction(wanted) - got if is_lower(member) else got - Fraction(wanted)

    def lines(self, unfold: bool) -> list[str]:
        """A table of the members that miss, those that cost most first."""
        cost = {it: miss * Fraction(weight) for it, _, _, miss, weight in self.misses}
        order = sorted(self.misses, key=lambda it: -cost[it[0]])
        shown = order if unfold else order[:MOST_LINES]
        rows = [["", "wanted", "got", "missed", "weight"]]
        for member, wanted, got, miss, weight in shown:
            relation = ">=" if is_lower(member) else "<="
            rows.append([member.split(" ")[1], f"{relation} {show(wanted)}", show(got), show(miss), weight])
        widths = [max(len(row[at]) for row in rows) for at in range(5)]
        lines = ["  " + "  ".join(cell.ljust(width) for cell, width in zip(row, widths)).rstrip() for row in rows]
        return lines + ([f"  and {len(order) - len(shown)} more (--all)"] if len(shown) < len(order) else [])


def edit_number(number: Fraction) -> str:
    """A number as an edit takes it: a literal where it is one, else a fraction."""
    try:
        return literal(number)
    except ValueError:
        return str(number)


def repair_lines(found: Yielding) -> list[str]:
    """The edits that put the number that a member gets in the place of the one that it wants."""
    lines = []
    for member, _, got, _, _ in found.misses:
        kind, name = member.split(" ")
        part = "row" if kind.startswith("row") else "column"
        lines.append(f"set {part} {name} {'lower' if is_lower(member) else 'upper'} {edit_number(got)}")
    return lines
