"""Models in the LP and the MPS format, as docs/LP.md and docs/MPS.md have them, for the tools that speak to people.

A model that the program has accepted is read right; what is wrong with one is the program's to say, and here at most a
ValueError. Numbers are decimals, which keep their digits, or fractions; no arithmetic on them is rounded.
"""

import gzip
import re
import sys
import zlib
from dataclasses import dataclass, field
from decimal import Context, Decimal, InvalidOperation
from fractions import Fraction
from typing import Optional, Union

Number = Union[Decimal, Fraction]
# What overflows here is infinite, and so more than what is huge.
EXACT = Context(prec=1000, traps=[InvalidOperation])
HUGE = Decimal("1e20")


@dataclass
class Row:
    """A row: the factors by column, and its two sides, each of which may be missing."""

    terms: dict[str, Number] = field(default_factory=dict)
    lower: Optional[Number] = None
    upper: Optional[Number] = None


@dataclass
class Column:
    """A column: its two bounds, each of which may be missing, and whether it takes whole values alone."""

    lower: Optional[Number] = Decimal(0)
    upper: Optional[Number] = None
    whole: bool = False


@dataclass
class Model:
    """A model: its rows and columns by name in file order, the factors of the objective, and whether it is maximised."""

    rows: dict[str, Row] = field(default_factory=dict)
    columns: dict[str, Column] = field(default_factory=dict)
    objective: dict[str, Number] = field(default_factory=dict)
    maximise: bool = False
    dropped: set[str] = field(default_factory=set)

    def number(self, member: str) -> Optional[Number]:
        """The number that a member asks for, or None: of a mark, and where the member is not there."""
        kind, name = member.split(" ")
        if kind == "whole":
            return None
        part = self.rows[name] if kind.startswith("row") else self.columns[name]
        return part.lower if is_lower(member) else part.upper

    def form(self, member: str) -> dict[str, Number]:
        """The factors of what a member bounds."""
        kind, name = member.split(" ")
        return self.rows[name].terms if kind.startswith("row") else {name: Decimal(1)}

    def members(self) -> list[str]:
        """All members that are there and not dropped, in the order of reports."""
        sides = [f"row{end} {name}" for name in self.rows for end in ("lo", "up")]
        bounds = [f"{end} {name}" for end in ("lower", "upper") for name in self.columns]
        found = [it for it in (*sides, *bounds) if self.number(it) is not None]
        found += [f"whole {name}" for name, column in self.columns.items() if column.whole]
        return [it for it in found if it not in self.dropped]

    def marks(self) -> list[str]:
        """The columns with a mark that is not dropped."""
        return [it.split(" ")[1] for it in self.members() if it.startswith("whole ")]

    def edit(self, line: str) -> None:
        """Makes the edit that a line of a script is; other lines do nothing here."""
        words = line.split()
        match words:
            case ["drop" | "keep" as word, "row", name]:
                for end in ("lo", "up"):
                    self._flag(word, f"row{end} {name}")
            case ["drop" | "keep" as word, kind, name]:
                self._flag(word, f"{kind} {name}")
            case ["set", "row" | "column" as kind, name, "lower" | "upper" as end, number]:
                setattr((self.rows if kind == "row" else self.columns)[name], end, read_number(number))
                self._flag("keep", f"row{end[:2]} {name}" if kind == "row" else f"{end} {name}")
            case ["mark", name, word]:
                self.columns[name].whole = word == "whole"

    def _flag(self, word: str, member: str) -> None:
        (self.dropped.add if word == "drop" else self.dropped.discard)(member)


def is_lower(member: str) -> bool:
    """Whether a member bounds from below."""
    return member.startswith(("rowlo ", "lower "))


def read_number(text: str) -> Optional[Number]:
    """A number of a script or a report: a fraction or a literal; None for `none`, and for a literal that is huge."""
    if text == "none":
        return None
    return Fraction(text) if "/" in text else limit(text)


def limit(text: str, is_negative: bool = False) -> Optional[Decimal]:
    """The number that a literal says as a side or a bound, or None where it is huge."""
    number = EXACT.create_decimal(text)
    return None if abs(number) >= HUGE else -number if is_negative else number


def unit(number: Optional[Number]) -> Fraction:
    """One unit of a decimal's last digit, where it has a point and at least five digits; else 0."""
    if not isinstance(number, Decimal):
        return Fraction(0)
    _, digits, power = number.as_tuple()
    return Fraction(10) ** power if power < 0 and len(digits) >= 5 else Fraction(0)


def most_digits(model: Model) -> int:
    """How many digits the longest number of a model has."""
    rows, columns = model.rows.values(), model.columns.values()
    numbers = [number for row in rows for number in (*row.terms.values(), row.lower, row.upper)]
    numbers += [number for column in columns for number in (column.lower, column.upper)]
    found = (it.normalize(EXACT) for it in numbers if isinstance(it, Decimal))
    return max((max(len(it.as_tuple().digits), abs(it.adjusted()) + 1) for it in found), default=1)


# ---- files


def read_bytes(path: str) -> bytes:
    """The bytes of a file, of standard input for `-`, unpacked where they are packed by gzip."""
    if path == "-":
        data = sys.stdin.buffer.read()
    else:
        with open(path, "rb") as it:
            data = it.read()
    try:
        return gzip.decompress(data) if data[:2] == b"\x1f\x8b" else data
    except (EOFError, OSError, zlib.error):
        raise ValueError(f"{path}: what gzip has packed is not whole") from None


def is_lp_file(path: str, data: bytes) -> bool:
    """Whether a model is in the LP format: by its file's name, and from standard input by its first word."""
    if path != "-":
        return path.removesuffix(".gz").lower().endswith(".lp")
    lines = (line for line in data.decode("latin-1").split("\n") if line.strip() and line[0] not in "*\\")
    first = next(lines, "").split()
    return not first or first[0] not in ("NAME", "ROWS", "OBJSENSE")


def read_model(data: bytes, is_lp: bool) -> Model:
    """The model that a file declares."""
    text = data.decode("latin-1")
    return LpReader(text).read() if is_lp else MpsReader().read(text)


# ---- the LP format

TOKEN = re.compile(
    r"(?P<number>(?:\d+\.?\d*|\.\d+)(?:[eE][+-]?\d+)?)"
    r"|(?P<word>[A-Za-z!-$%&'(),/;?@_`{|}~][A-Za-z!-$%&'(),/;?@_`{|}~0-9.]*)|(?P<sign>[+-])|(?P<relation><=|=<|<|>=|=>|>|=)|(?P<colon>:)"
)
HEADINGS = {
    **dict.fromkeys(("max", "maximize", "maximum"), "max"),
    **dict.fromkeys(("min", "minimize", "minimum"), "min"),
    **dict.fromkeys(("st", "st.", "s.t.", "subject to", "such that"), "rows"),
    **dict.fromkeys(("bounds", "bound"), "bounds"),
    **dict.fromkeys(("general", "generals", "gen", "integer", "integers", "int"), "whole"),
    **dict.fromkeys(("binary", "binaries", "bin"), "binary"),
    "end": "end",
}


class LpReader:
    """A text in the LP format: its tokens, each with its kind and whether it begins its line, and the token that is read."""

    def __init__(self, text: str):
        self.tokens: list[tuple[str, str, bool]] = []
        self.at = 0
        self.model = Model()
        for line in text.split("\n"):
            found = list(TOKEN.finditer(line.split("\\")[0]))
            self.tokens += [(it.lastgroup or "", it[0], place == 0) for place, it in enumerate(found)]
        self.tokens.append(("word", "end", True))

    def kind(self, ahead: int = 0) -> str:
        at = self.at + ahead
        return self.tokens[at][0] if at < len(self.tokens) else ""

    def take(self) -> str:
        self.at += 1
        return self.tokens[self.at - 1][1]

    def heading(self) -> Optional[tuple[str, int]]:
        """The section that begins at this place, with the number of its words, if one does."""
        kind, word, is_first = self.tokens[self.at]
        if kind != "word" or not is_first:
            return None
        if self.kind(1) == "word" and not self.tokens[self.at + 1][2]:
            both = HEADINGS.get(f"{word} {self.tokens[self.at + 1][1]}".lower())
            if both:
                return both, 2
        found = HEADINGS.get(word.lower())
        return (found, 1) if found and self.kind(1) != "colon" else None

    def read(self) -> Model:
        section = ""
        while section != "end":
            found = self.heading()
            if found:
                section, width = found
                self.at += width
                self.model.maximise = self.model.maximise or section == "max"
            elif section in ("max", "min"):
                self.label()
                self.model.objective = self.form()
            elif section == "rows":
                self.row()
            elif section == "bounds":
                self.bound()
            else:
                self.listed(section)
        self.keep_order()
        return self.model

    def label(self) -> Optional[str]:
        if self.kind() == "word" and self.kind(1) == "colon":
            name = self.take()
            self.at += 1
            return name
        return None

    def is_negative(self) -> bool:
        negative = False
        while self.kind() == "sign":
            negative ^= self.take() == "-"
        return negative

    def form(self) -> dict[str, Number]:
        """Terms and numbers up to a relation or a heading: the sums of the factors by column; numbers are left out."""
        found: dict[str, Number] = {}
        while self.kind() in ("sign", "number", "word") and not self.heading():
            negative = self.is_negative()
            factor = EXACT.create_decimal(self.take()) if self.kind() == "number" else Decimal(1)
            if self.kind() == "word" and not self.heading():
                name = self.take()
                self.model.columns.setdefault(name, Column())
                found[name] = EXACT.add(found.get(name, Decimal(0)), factor.copy_negate() if negative else factor)
        return {name: factor for name, factor in found.items() if factor}

    def constant(self) -> Optional[Number]:
        negative = self.is_negative()
        word = self.take()
        return None if word.lower() in ("inf", "infinity") else limit(word, negative)

    def begins_with_constant(self) -> bool:
        ahead = 0
        while self.kind(ahead) == "sign":
            ahead += 1
        at = self.at + ahead
        is_number = self.kind(ahead) == "number" or self.tokens[at][1].lower() in ("inf", "infinity")
        return is_number and self.kind(ahead + 1) == "relation"

    def relation(self) -> str:
        word = self.take()
        return "<" if "<" in word else ">" if ">" in word else "="

    def row(self) -> None:
        name = self.label() or f"c{len(self.model.rows) + 1}"
        row = Row()
        if self.begins_with_constant():
            first = self.constant()
            set_limits(row, {"<": ">", ">": "<"}[self.relation()], first)
        row.terms = self.form()
        relation = self.relation()
        set_limits(row, relation, self.constant())
        self.model.rows[name] = row

    def bound(self) -> None:
        first = None
        if self.begins_with_constant():
            number = self.constant()
            first = {"<": ">", ">": "<", "=": "="}[self.relation()], number
        column = self.model.columns[self.take()]
        if first:
            set_limits(column, *first)
        if not first and self.tokens[self.at][1].lower() == "free":
            self.at += 1
            column.lower = column.upper = None
        elif self.kind() == "relation":
            relation = self.relation()
            set_limits(column, relation, self.constant())

    def listed(self, section: str) -> None:
        column = self.model.columns[self.take()]
        column.whole = True
        if section == "binary":
            column.lower, column.upper = Decimal(0), Decimal(1)

    def keep_order(self) -> None:
        """Puts the factors of each row into the order of the columns."""
        place = {name: at for at, name in enumerate(self.model.columns)}
        for row in self.model.rows.values():
            row.terms = dict(sorted(row.terms.items(), key=lambda it: place[it[0]]))


def set_limits(part: Union[Row, Column], relation: str, number: Optional[Number]) -> None:
    """Sets what a relation to a number says of a row or a column."""
    if relation in ">=":
        part.lower = number
    if relation in "<=":
        part.upper = number


# ---- the MPS format


class MpsReader:
    """A text in the MPS format: the kinds and right sides of the rows, the free rows, and what was set of bounds."""

    def __init__(self) -> None:
        self.model = Model()
        self.kinds: dict[str, str] = {}
        self.free: list[str] = []
        self.sets: dict[str, str] = {}
        self.has_lower: set[str] = set()
        self.in_whole = False

    def read(self, text: str) -> Model:
        section = ""
        for line in text.split("\n"):
            fields = line.split()
            if not fields or line[0] == "*":
                continue
            if not line[0].isspace():
                section = fields[0]
                if section == "ENDATA":
                    break
                fields = fields[1:] if section == "OBJSENSE" else []
            if fields:
                self.line(section, fields)
        for name, column in self.model.columns.items():
            if name not in self.has_lower and column.upper is not None and column.upper < 0:
                column.lower = None
        return self.model

    def line(self, section: str, fields: list[str]) -> None:
        if section == "OBJSENSE":
            self.model.maximise = fields[0].upper().startswith("MAX")
        elif section == "ROWS":
            self.row(*fields)
        elif section == "COLUMNS":
            self.entries(fields)
        elif section in ("RHS", "RANGES"):
            pairs = self.of_set(section, fields, len(fields) % 2 == 1)
            for name, number in zip(pairs[::2], pairs[1::2]):
                if name in self.kinds:
                    (self.right_side if section == "RHS" else self.range)(name, number)
        elif section == "BOUNDS":
            has_set = len(fields) == 4 or len(fields) == 3 and fields[0] in ("FR", "MI", "PL", "BV")
            pair = self.of_set(section, fields[1:], has_set)
            if pair:
                self.bound(fields[0], *pair[:2])

    def of_set(self, section: str, fields: list[str], has_set: bool) -> list[str]:
        """The fields behind the name of a set; none where it is not the first that the section names."""
        if not has_set:
            return fields
        return fields[1:] if self.sets.setdefault(section, fields[0]) == fields[0] else []

    def row(self, kind: str, name: str) -> None:
        if kind == "N":
            self.free.append(name)
            return
        self.kinds[name] = kind
        self.model.rows[name] = row = Row()
        set_limits(row, {"L": "<", "G": ">", "E": "="}[kind], Decimal(0))

    def entries(self, fields: list[str]) -> None:
        if fields[1] == "'MARKER'":
            self.in_whole = fields[2] == "'INTORG'"
            return
        self.model.columns.setdefault(fields[0], Column(whole=self.in_whole))
        for name, text in zip(fields[1::2], fields[2::2]):
            number = EXACT.create_decimal(text)
            if number and name in self.kinds:
                self.model.rows[name].terms[fields[0]] = number
            elif number and name == self.free[0]:
                self.model.objective[fields[0]] = number

    def right_side(self, name: str, text: str) -> None:
        set_limits(self.model.rows[name], {"L": "<", "G": ">", "E": "="}[self.kinds[name]], limit(text))

    def range(self, name: str, text: str) -> None:
        row, size = self.model.rows[name], limit(text.lstrip("+-"))
        side = row.upper if self.kinds[name] == "L" else row.lower
        if side is None:
            return
        if self.kinds[name] == "L" or self.kinds[name] == "E" and text.startswith("-"):
            row.lower = None if size is None else EXACT.subtract(side, size)
        else:
            row.upper = None if size is None else EXACT.add(side, size)

    def bound(self, kind: str, name: str, text: str = "0") -> None:
        column = self.model.columns[name]
        column.whole = column.whole or kind in ("BV", "UI", "LI")
        if kind in ("FR", "MI", "BV", "LO", "LI", "FX"):
            self.has_lower.add(name)
            column.lower = None if kind in ("FR", "MI") else Decimal(0) if kind == "BV" else limit(text)
        if kind in ("FR", "PL", "BV", "UP", "UI", "FX"):
            column.upper = None if kind in ("FR", "PL") else Decimal(1) if kind == "BV" else limit(text)


# ---- writing

NAME = re.compile(r"[A-Za-z!-$%&'(),/;?@_`{|}~][A-Za-z!-$%&'(),/;?@_`{|}~0-9.]*")
RESERVED = {"inf", "infinity", "free", *HEADINGS, "semi", "semis", "sos", "sos1", "sos2", "pwl", "pwlobj"}


def literal(number: Number) -> str:
    """A number as a literal; a ValueError where it is a fraction that no literal is."""
    if isinstance(number, Decimal):
        return format(number, "f")
    places = next((it for it in range(39) if (number * 10**it).denominator == 1), None)
    if places is None:
        raise ValueError(f"{number} is no decimal")
    return format(Decimal(int(number * 10**places)).scaleb(-places, EXACT), "f")


def lp_form(terms: dict[str, Number]) -> str:
    """A sum as an LP text has it, in lines that are not too long."""
    signed = [f"{'-' if factor < 0 else '+'} {literal(abs(factor))} {name}" for name, factor in terms.items()]
    return "\n    ".join(" ".join(signed[at : at + 8]) for at in range(0, len(signed), 8))


def lp_text(model: Model, remark: str = "") -> str:
    """The model as a text in the LP format, each column in some term; a ValueError where a name cannot stand there."""
    bad = [it for it in (*model.rows, *model.columns) if not NAME.fullmatch(it) or it.lower() in RESERVED]
    if bad:
        raise ValueError(f"the name {bad[0]} cannot stand in an LP file: write a file that ends with .mps")
    named = {name for row in model.rows.values() for name in row.terms}
    objective = model.objective | {name: Decimal(0) for name in model.columns if name not in named | set(model.objective)}
    lines = [f"\\ {line}" for line in remark.splitlines()]
    lines += ["Maximize" if model.maximise else "Minimize", f" obj: {lp_form(objective)}", "Subject To"]
    for name, row in model.rows.items():
        lines += lp_row(name, row, next(iter(model.columns), "x"))
    lines.append("Bounds")
    for name, column in model.columns.items():
        lines.append(f" {lp_bound(name, column)}")
    whole = [f" {name}" for name, column in model.columns.items() if column.whole]
    return "\n".join([*lines, *(["General", *whole] if whole else []), "End", ""])


def lp_row(name: str, row: Row, spare: str) -> list[str]:
    """The lines of a row; one without columns takes a spare one with the factor 0."""
    form = lp_form(row.terms) or f"0 {spare}"
    if row.lower is not None and row.upper is not None and row.lower != row.upper:
        return [f" {name}: {literal(row.lower)} <= {form} <= {literal(row.upper)}"]
    if row.lower is not None:
        return [f" {name}: {form} {'=' if row.lower == row.upper else '>='} {literal(row.lower)}"]
    return [f" {name}: {form} <= {'inf' if row.upper is None else literal(row.upper)}"]


def lp_bound(name: str, column: Column) -> str:
    if column.lower is None and column.upper is None:
        return f"{name} free"
    lower = "-inf" if column.lower is None else literal(column.lower)
    upper = "inf" if column.upper is None else literal(column.upper)
    return f"{lower} <= {name} <= {upper}"


def mps_text(model: Model, remark: str = "") -> str:
    """The model as a text in the MPS format."""
    lines = [*(f"* {line}" for line in remark.splitlines()), "NAME", "OBJSENSE", " MAX" if model.maximise else " MIN"]
    lines += ["ROWS", " N objective_"]
    sides, ranges = [], []
    for name, row in model.rows.items():
        kind = "N" if row.lower is None and row.upper is None else "L" if row.lower is None else "G"
        kind = "E" if row.lower is not None and row.lower == row.upper else kind
        lines.append(f" {kind} {name}")
        number = row.upper if kind == "L" else row.lower
        sides += [f" rhs {name} {literal(number)}"] if number else []
        if kind == "G" and row.upper is not None:
            ranges.append(f" range {name} {literal(Fraction(row.upper) - Fraction(row.lower or 0))}")
    lines += ["COLUMNS", *mps_columns(model)]
    bounds = [line for name, column in model.columns.items() for line in mps_bounds(name, column)]
    return "\n".join([*lines, "RHS", *sides, *(["RANGES", *ranges] if ranges else []), "BOUNDS", *bounds, "ENDATA", ""])


def mps_columns(model: Model) -> list[str]:
    """The lines of the columns: for each its entries, between markers where it is whole."""
    entries = {name: [f" {name} objective_ {literal(model.objective.get(name, Decimal(0)))}"] for name in model.columns}
    for name, row in model.rows.items():
        for column, factor in row.terms.items():
            entries[column].append(f" {column} {name} {literal(factor)}")
    for name, lines in entries.items():
        if model.columns[name].whole:
            entries[name] = [" m 'MARKER' 'INTORG'", *lines, " m 'MARKER' 'INTEND'"]
    return [line for lines in entries.values() for line in lines]


def mps_bounds(name: str, column: Column) -> list[str]:
    lower = f" MI b {name}" if column.lower is None else f" LO b {name} {literal(column.lower)}"
    return [lower, *([] if column.upper is None else [f" UP b {name} {literal(column.upper)}"])]


def model_text(model: Model, path: str, remark: str = "") -> str:
    """The model as a text in the format that the name of its file says."""
    return (lp_text if is_lp_file(path, b"") else mps_text)(model, remark)
