"""A contradiction as people read it: its members written out, families of names folded, and by how much they miss."""

import re
from dataclasses import dataclass
from decimal import Decimal
from fractions import Fraction
from typing import Optional

from asking import Answer, NotBelieved
from model_texts import Column, Model, Number, Row, is_lower, unit

WIDEST_FORM = 66
MOST_OF_A_FAMILY = 4
MOST_LINES = 18
KINDS = {"rowlo": "", "rowup": "", "lower": "bound ", "upper": "bound ", "whole": "whole "}


def show(number: Number) -> str:
    """A number: as a decimal where that is a short one, else as a fraction with its decimals, else its decimals alone."""
    value = Fraction(number)
    places = next((it for it in range(39) if (value * 10**it).denominator == 1), None)
    if places is not None and len(str(abs(value * 10**places))) <= 13:
        exact = Decimal(int(value * 10**places)).scaleb(-places)
        return f"{exact:f}" if places <= 13 and abs(value) >= Fraction(1, 10**6) or not value else f"{exact.normalize():e}"
    text = str(value)
    return f"{text} ({float(value):.6g})" if len(text) <= 15 else f"about {float(value):.6g}"


def form_text(terms: dict[str, Number]) -> str:
    """A sum, as many of its terms written out as a line holds."""
    text, written = "", 0
    for name, factor in terms.items():
        sign = ("-" if factor < 0 else "+") + " " if text else "-" if factor < 0 else ""
        size = "" if abs(factor) == 1 else f"{show(abs(factor)).split(' (')[0]} "
        if text and len(text) + len(size) + len(name) > WIDEST_FORM:
            return f"{text} + .. ({len(terms) - written} more)"
        text += f"{' ' if text else ''}{sign}{size}{name}"
        written += 1
    return text or "0"


def family(member: str) -> tuple[str, ...]:
    """What the members of a family share: their kind, how their names begin, and how many parts they have."""
    kind, name = member.split(" ")
    parts = name_parts(name)
    return kind, parts[0], str(len(parts))


def name_parts(name: str) -> list[str]:
    return re.findall(r"[A-Za-z]+|\d+|[^A-Za-z\d]+", name) or [name]


def pattern(names: list[str]) -> str:
    """The names as one, with a star for each part in which they differ."""
    parts = [set(it) for it in zip(*map(name_parts, names))]
    return re.sub(r"\*+", "*", "".join(next(iter(it)) if len(it) == 1 else "*" for it in parts))


@dataclass
class Contradiction:
    """Members of a model that no point satisfies, as an answer has them; `needed` tells whether each of them is needed."""

    model: Model
    answer: Answer
    needed: bool

    def __post_init__(self) -> None:
        self.members = self.answer.members
        leaves = self.answer.leaves
        self.uses: Optional[dict[str, Fraction]] = leaves[0] if len(leaves) == 1 else None
        if self.uses is not None:
            self.check()

    def check(self) -> None:
        """Adds the members up as the proof says: all columns cancel and something is missing, as the program read them."""
        left: dict[str, Fraction] = {}
        for member, weight in (self.uses or {}).items():
            for name, factor in self.model.form(member).items():
                left[name] = left.get(name, Fraction(0)) + signed(member, weight) * Fraction(factor)
        if any(left.values()) or self.whole_gap() <= 0:
            raise NotBelieved("the model is not read here as the program reads it")

    def whole_gap(self) -> Fraction:
        """What is missing where each member is taken as often as the proof says."""
        numbers = ((member, weight, self.model.number(member)) for member, weight in (self.uses or {}).items())
        return sum((signed(member, weight) * Fraction(number or 0) for member, weight, number in numbers), Fraction(0))

    def gap(self) -> Fraction:
        """What is missing where the member that is taken most often counts once."""
        return self.whole_gap() / max((self.uses or {}).values())

    def taken_most(self) -> str:
        """The name of the first member that is taken most often."""
        uses = self.uses or {}
        return next(it for it, weight in uses.items() if weight == max(uses.values())).split(" ")[1]

    def alone(self, member: str) -> Optional[Fraction]:
        """The number to which a member would have to move for this contradiction to end; None with cases and for marks."""
        number = self.model.number(member)
        if number is None or not self.uses or member not in self.uses:
            return None
        return Fraction(number) - signed(member, self.whole_gap() / self.uses[member])

    def is_rounding(self) -> bool:
        """Whether one unit of the last digit of long decimals makes up for what is missing, at most of the witnesses."""
        longest = max((unit(it) for member in self.uses or {} for it in self.numbers(member)), default=Fraction(0))
        if not self.uses or not longest:
            return False
        points = self.answer.witnesses or [{}]
        slacks = [sum(weight * self.slack(member, point) for member, weight in self.uses.items()) for point in points]
        return 2 * sum(slack >= self.whole_gap() for slack in slacks) >= len(slacks)

    def numbers(self, member: str) -> list[Optional[Number]]:
        """All numbers of a member."""
        return [self.model.number(member), *self.model.form(member).values()]

    def slack(self, member: str, point: dict[str, Fraction]) -> Fraction:
        """By how much a member moves at a point where each long decimal of it moves by one unit of its last digit."""
        moves = (unit(factor) * abs(point.get(name, Fraction(0))) for name, factor in self.model.form(member).items())
        return unit(self.model.number(member)) + sum(moves, Fraction(0))

    def excerpt(self) -> Model:
        """The model of these members alone."""
        part = Model()
        names = {name for member in self.members for name in self.model.form(member) if not member.startswith("whole ")}
        names |= {member.split(" ")[1] for member in self.members if member.startswith("whole ")}
        in_order = [name for name in self.model.columns if name in names]
        part.columns = {name: Column(None, None, f"whole {name}" in self.members) for name in in_order}
        for member in self.members:
            kind, name = member.split(" ")
            if kind == "whole":
                continue
            row = part.rows.setdefault(name, Row(self.model.form(member))) if kind.startswith("row") else None
            setattr(row or part.columns[name], "lower" if is_lower(member) else "upper", self.model.number(member))
        return part

    # ---- words

    def line(self, member: str) -> str:
        """A member written out, with the number to which it alone would have to move."""
        kind, name = member.split(" ")
        if kind == "whole":
            return f"{name} is whole"
        number = self.model.number(member)
        text = f"{form_text(self.model.form(member))} {'>=' if is_lower(member) else '<='} {show(number or 0)}"
        if kind.startswith("row"):
            row = self.model.rows[name]
            both = row.lower is not None and row.upper is not None
            text = f"{name}: {text}" + (f" (of {'an equation' if row.lower == row.upper else 'a range'})" if both else "")
        moved = self.alone(member)
        return text if moved is None else f"{text}   [alone: {'down' if is_lower(member) else 'up'} to {show(moved)}]"

    def is_not_negative(self, member: str) -> bool:
        return member.startswith("lower ") and self.model.number(member) == 0

    def lines(self, unfold: bool) -> list[str]:
        """The members, families folded unless they are to be unfolded, and bounds that say "not negative" in one line."""
        plain = [it for it in self.members if not self.is_not_negative(it)]
        families: dict[tuple[str, ...], list[str]] = {}
        for member in plain:
            families.setdefault(family(member), []).append(member)
        lines = []
        for members in families.values():
            if unfold or len(members) <= MOST_OF_A_FAMILY:
                lines += [f"  {self.line(member)}" for member in members]
            else:
                kind = KINDS[members[0].split(" ")[0]]
                names = pattern([it.split(" ")[1] for it in members])
                lines.append(f"  {kind}{names} ({len(members)}), such as {self.line(members[0])}")
        if not unfold and len(lines) > MOST_LINES:
            lines = [*lines[:MOST_LINES], f"  and {len(lines) - MOST_LINES} more lines (--all)"]
        return lines + self.not_negative(unfold)

    def not_negative(self, unfold: bool) -> list[str]:
        zero = [it.split(" ")[1] for it in self.members if self.is_not_negative(it)]
        if not zero:
            return []
        names = ", ".join(zero if unfold or len(zero) <= 4 else [*zero[:3], f".. ({len(zero)})"])
        return [f"  not negative: {names}"]


def signed(member: str, number: Fraction) -> Fraction:
    """A number with plus for a member that bounds from below, and minus for one that bounds from above."""
    return number if is_lower(member) else -number
