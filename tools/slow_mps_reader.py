#!/usr/bin/env python3
"""A slow and plain reader of models in the MPS format, to try the proved reader beside it.

It follows the rules of docs/MPS.md; which sums are too wide is said in crates/frac128/CLAUSES.md. What a text says is a
list of facts, line by line. The first fault is that of the first fact that is refused after the facts before it, and
the model is what is found in the whole list by look-ups. No table is kept, so large models take long.

    tools/slow_mps_reader.py check FILE

reads a file of cases and says of how many its own answer is not the one that is written there, and which these are;
the status is then 1. A case is a line that begins with `>`, with the answer after it, and then the text, up to the
next such line. An answer is the first fault (`line 5: duplicate name`) or the model in one line.

    tools/slow_mps_reader.py make COUNT SEED

prints so many cases, made by chance, with its own answers. The same seed gives the same cases, as long as the version
of Python is the same.

It needs Python 3.9 or later and its standard library alone.
"""

import random
import re
import sys
from fractions import Fraction
from math import lcm
from typing import NamedTuple, Optional

from reader_cases import run

# ---- limits
WIDEST = 2**127 - 1
MOST_PLACES = 38
HUGE_POWER = 20
LONGEST_LINE = 65_536
LONGEST_NAME = 255
MOST_ROWS = 20_000
MOST_FREE_ROWS = 10_000
MOST_COLUMNS = 40_000
MOST_ENTRIES = 400_000

# ---- words
SECTIONS = [b"NAME", b"OBJSENSE", b"ROWS", b"COLUMNS", b"RHS", b"RANGES", b"BOUNDS", b"ENDATA"]
REQUIRED_SECTIONS = {b"ROWS", b"COLUMNS", b"ENDATA"}
SENSES = {b"MAX": True, b"MAXIMIZE": True, b"MIN": False, b"MINIMIZE": False}
ROW_KINDS = {b"N", b"L", b"G", b"E"}
MARKERS = {b"'INTORG'", b"'INTEND'"}
NUMBERED_BOUNDS = {b"UP", b"LO", b"FX", b"UI", b"LI"}
PLAIN_BOUNDS = {b"FR", b"MI", b"PL", b"BV"}
LOWER_BOUNDS = {b"LO", b"LI", b"FX", b"FR", b"MI", b"BV"}
UPPER_BOUNDS = {b"UP", b"UI", b"FX", b"FR", b"PL", b"BV"}
WHOLE_BOUNDS = {b"LI", b"UI", b"BV"}


class Refusal(Exception):
    """What is wrong with a line: the kind of its first fault, in words."""


# ---- numbers
NUMBER = re.compile(rb"([+-]?)([0-9]*)(?:\.([0-9]*))?(?:[eE]([+-]?)([0-9]+))?")


def whole_number(digits: bytes) -> int:
    """The number that digits say, be they as many as they will."""
    value = 0
    for digit in digits:
        value = 10 * value + digit - ord("0")
    return value


class Number(NamedTuple):
    """A sign, and digits times ten to a power: no digit 0 stands first or last, and 0 has no digits."""

    is_negative: bool
    digits: bytes
    power: int

    def sign(self) -> int:
        if not self.digits:
            return 0
        return -1 if self.is_negative else 1

    def is_huge(self) -> bool:
        """Whether the magnitude is at least 10^20."""
        return self.digits != b"" and len(self.digits) + self.power > HUGE_POWER

    def fits(self) -> bool:
        if not self.digits:
            return True
        if abs(self.power) > MOST_PLACES:
            return False
        return whole_number(self.digits) * 10 ** max(self.power, 0) <= WIDEST

    def value(self) -> Fraction:
        """The value of a number that fits."""
        if not self.digits:
            return Fraction(0)
        return self.sign() * whole_number(self.digits) * Fraction(10) ** self.power

    def limit(self) -> Optional[Fraction]:
        """What it says as a bound or a side: none where it is huge."""
        return None if self.is_huge() else self.value()


def number_of(text: bytes) -> Optional[Number]:
    """The number that a text is, if it is one."""
    found = NUMBER.fullmatch(text)
    if found is None:
        return None
    sign, before, after, exponent_sign, exponent = (part or b"" for part in found.groups())
    written = before + after
    if not written:
        return None
    kept = written.rstrip(b"0")
    power = -whole_number(exponent) if exponent_sign == b"-" else whole_number(exponent)
    return Number(sign == b"-", kept.lstrip(b"0"), power - len(after) + len(written) - len(kept))


def is_sum_wide(left: Fraction, right: Fraction) -> bool:
    """Whether the least common denominator, a numerator over it, or the sum of the two passes what a fraction keeps."""
    common = lcm(left.denominator, right.denominator)
    return max(common, abs(left * common), abs(right * common), abs((left + right) * common)) > WIDEST


# ---- lines
class Line(NamedTuple):
    """A line with its number and its section, which for a header is the section before it."""

    number: int
    section: Optional[bytes]
    text: bytes

    def fields(self) -> list:
        return re.findall(rb"[^ \t\r]+", self.text)

    def is_comment(self) -> bool:
        return self.text.startswith(b"*")

    def says_nothing(self) -> bool:
        return self.is_comment() or not self.fields()

    def is_header(self) -> bool:
        return not self.says_nothing() and self.text[0] not in b" \t\r"

    def is_data(self) -> bool:
        return not self.says_nothing() and not self.is_header()

    def is_end(self) -> bool:
        return self.is_header() and self.fields()[0] == b"ENDATA"


def section_after(lines: list) -> Optional[bytes]:
    """The section of the last header."""
    for line in reversed(lines):
        if line.is_header():
            return line.fields()[0]
    return None


def lines_of(text: bytes) -> list:
    """The lines of a text, up to the one that ends the model."""
    texts = text.split(b"\n")
    if texts[-1] == b"":
        texts.pop()
    lines = []
    for number, line_text in enumerate(texts, 1):
        lines.append(Line(number, section_after(lines), line_text))
        if lines[-1].is_end():
            break
    return lines


def data_fields(lines: list, section: bytes) -> list:
    """The fields of each data line of a section."""
    return [line.fields() for line in lines if line.is_data() and line.section == section]


# ---- facts
class Sense(NamedTuple):
    is_greatest: bool


class Row(NamedTuple):
    kind: bytes
    name: bytes


class Column(NamedTuple):
    """A column is named; whether it is whole counts where it is named first."""

    name: bytes
    is_whole: bool


class Entry(NamedTuple):
    column: bytes
    row: bytes
    number: bytes


class RightSide(NamedTuple):
    row: bytes
    number: bytes


class Range(NamedTuple):
    row: bytes
    number: bytes


class Bound(NamedTuple):
    kind: bytes
    column: bytes
    number: Optional[bytes]


def of_type(facts: list, sort: type) -> list:
    return [fact for fact in facts if isinstance(fact, sort)]


# ---- what a line says
def test_bytes(line: Line) -> None:
    """The faults of a line as such."""
    if len(line.text) > LONGEST_LINE:
        raise Refusal("long line")
    if not line.is_comment() and re.search(rb"[^\t\r -~]", line.text):
        raise Refusal("foreign byte")


def may_follow(before: Optional[bytes], section: bytes) -> bool:
    """Whether a section comes later than another, or first, and none is left out that may not be."""
    start = 0 if before is None else SECTIONS.index(before) + 1
    place = SECTIONS.index(section)
    return place >= start and REQUIRED_SECTIONS.isdisjoint(SECTIONS[start:place])


def sense_facts(fields: list) -> list:
    if len(fields) != 1 or fields[0].upper() not in SENSES:
        raise Refusal("bad field")
    return [Sense(SENSES[fields[0].upper()])]


def header_facts(line: Line) -> list:
    section, *further = line.fields()
    if section not in SECTIONS:
        raise Refusal("unsupported")
    if not may_follow(line.section, section):
        raise Refusal("order")
    if section == b"OBJSENSE" and further:
        return sense_facts(further)
    if section != b"NAME" and further:
        raise Refusal("bad field")
    return []


def row_facts(fields: list) -> list:
    if len(fields) != 2 or fields[0] not in ROW_KINDS:
        raise Refusal("bad field")
    return [Row(*fields)]


def is_marker(fields: list) -> bool:
    return len(fields) == 3 and fields[1] == b"'MARKER'"


def is_marked(lines: list) -> bool:
    """Whether the last marker says that columns are whole."""
    markers = [fields[2] for fields in data_fields(lines, b"COLUMNS") if is_marker(fields)]
    return markers[-1:] == [b"'INTORG'"]


def pairs_of(fields: list) -> list:
    """Fields two by two, each pair the name of a row and a number."""
    return list(zip(fields[0::2], fields[1::2]))


def column_facts(before: list, fields: list) -> list:
    if is_marker(fields):
        if fields[2] not in MARKERS:
            raise Refusal("bad field")
        return []
    if len(fields) not in (3, 5):
        raise Refusal("bad field")
    column, *further = fields
    return [Column(column, is_marked(before))] + [Entry(column, *pair) for pair in pairs_of(further)]


def set_and_pairs(fields: list) -> tuple:
    """The set that a line of RHS or RANGES names, if it does, and its pairs."""
    if len(fields) not in (2, 3, 4, 5):
        raise Refusal("bad field")
    if len(fields) % 2 == 0:
        return None, pairs_of(fields)
    return fields[0], pairs_of(fields[1:])


def set_and_bound(fields: list) -> tuple:
    """The set that a line of BOUNDS names, if it does, and its bound."""
    kind, *further = fields
    if kind == b"SC":
        raise Refusal("unsupported")
    if kind in NUMBERED_BOUNDS and len(further) in (2, 3):
        column, number = further[-2:]
        return (further[0] if len(further) == 3 else None), Bound(kind, column, number)
    if kind in PLAIN_BOUNDS and len(further) == 1:
        return None, Bound(kind, further[0], None)
    if kind in PLAIN_BOUNDS and len(further) in (2, 3):
        return further[0], Bound(kind, further[1], None)
    raise Refusal("bad field")


def is_used(before: list, line: Line, parts) -> bool:
    """Whether a line names no set, or the first that its section names; `parts` gives a line's set and the rest."""
    own = parts(line.fields())[0]
    named = [parts(fields)[0] for fields in data_fields(before + [line], line.section)]
    return own is None or own == next(name for name in named if name is not None)


def set_facts(before: list, line: Line) -> list:
    sort = RightSide if line.section == b"RHS" else Range
    pairs = set_and_pairs(line.fields())[1]
    return [sort(*pair) for pair in pairs] if is_used(before, line, set_and_pairs) else []


def bound_facts(before: list, line: Line) -> list:
    bound = set_and_bound(line.fields())[1]
    return [bound] if is_used(before, line, set_and_bound) else []


def data_facts(before: list, line: Line) -> list:
    if line.section == b"OBJSENSE":
        return sense_facts(line.fields())
    if line.section == b"ROWS":
        return row_facts(line.fields())
    if line.section == b"COLUMNS":
        return column_facts(before, line.fields())
    if line.section in (b"RHS", b"RANGES"):
        return set_facts(before, line)
    if line.section == b"BOUNDS":
        return bound_facts(before, line)
    raise Refusal("order")


def line_facts(before: list, line: Line) -> list:
    """What a line says after the lines before it."""
    test_bytes(line)
    if line.says_nothing():
        return []
    return header_facts(line) if line.is_header() else data_facts(before, line)


# ---- look-ups
def kind_of(facts: list, name: bytes) -> Optional[bytes]:
    """The kind of a row, if it is declared."""
    return next((row.kind for row in of_type(facts, Row) if row.name == name), None)


def free_rows(facts: list) -> list:
    return [row for row in of_type(facts, Row) if row.kind == b"N"]


def kept_rows(facts: list) -> list:
    return [row for row in of_type(facts, Row) if row.kind != b"N"]


def is_dropped(facts: list, name: bytes) -> bool:
    """Whether a row is free and not the objective, which is the first free one."""
    return name in [row.name for row in free_rows(facts)[1:]]


def columns_of(facts: list) -> list:
    """Each column where it is named first."""
    columns = []
    for column in of_type(facts, Column):
        if column.name not in [earlier.name for earlier in columns]:
            columns.append(column)
    return columns


def figure_of(facts: list, sort: type, row: bytes) -> Optional[Number]:
    """The right side or the range of a row, if one is given."""
    return next((number_of(figure.number) for figure in of_type(facts, sort) if figure.row == row), None)


def right_side(facts: list, row: bytes) -> Optional[Fraction]:
    """The right side: 0 where none is given, and none where it is huge."""
    number = figure_of(facts, RightSide, row)
    return Fraction(0) if number is None else number.limit()


def direction(kind: bytes, number: Number) -> int:
    """Where the side that a range makes is: -1 below the right side, 1 above it, 0 at it."""
    return {b"L": -1, b"G": 1, b"E": number.sign()}[kind]


def bound_that_sets(facts: list, column: bytes, kinds: set) -> Optional[Bound]:
    """The bound of a column with one of these kinds, if there is one."""
    return next((bound for bound in of_type(facts, Bound) if bound.column == column and bound.kind in kinds), None)


# ---- the tests of a fact after those before it
def test_sense(before: list, fact: Sense) -> None:
    if of_type(before, Sense):
        raise Refusal("bad field")


def test_row(before: list, row: Row) -> None:
    if kind_of(before, row.name) is not None:
        raise Refusal("duplicate name")
    if len(row.name) > LONGEST_NAME:
        raise Refusal("limit")
    if row.kind == b"N" and len(free_rows(before)) >= MOST_FREE_ROWS:
        raise Refusal("limit")
    if row.kind != b"N" and len(kept_rows(before)) >= MOST_ROWS:
        raise Refusal("limit")


def test_column(before: list, column: Column) -> None:
    columns = columns_of(before)
    if column.name in [earlier.name for earlier in columns]:
        return
    if len(column.name) > LONGEST_NAME or len(columns) >= MOST_COLUMNS:
        raise Refusal("limit")


def test_pair(before: list, pair) -> Number:
    """A pair's row is declared, and its number is one."""
    if kind_of(before, pair.row) is None:
        raise Refusal("unknown name")
    return tested_number(pair.number)


def tested_number(text: bytes) -> Number:
    number = number_of(text)
    if number is None:
        raise Refusal("bad number")
    return number


def test_entry(before: list, entry: Entry) -> None:
    number = test_pair(before, entry)
    entries = of_type(before, Entry)
    if not is_dropped(before, entry.row):
        if not number.fits():
            raise Refusal("number wide")
        if any(earlier.column == entry.column and earlier.row == entry.row for earlier in entries):
            raise Refusal("duplicate entry")
    if len(entries) >= MOST_ENTRIES:
        raise Refusal("limit")


def test_limit(number: Number) -> None:
    """A bound, a right side or a range that does not fit is huge."""
    if not number.fits() and not number.is_huge():
        raise Refusal("number wide")


def test_right_side(before: list, figure) -> None:
    """The tests of a right side, and of a range as far as they are the same."""
    number = test_pair(before, figure)
    if kind_of(before, figure.row) == b"N":
        return
    test_limit(number)
    if figure_of(before, type(figure), figure.row) is not None:
        raise Refusal("duplicate entry")


def test_range(before: list, figure: Range) -> None:
    test_right_side(before, figure)
    kind = kind_of(before, figure.row)
    right = right_side(before, figure.row)
    number = number_of(figure.number)
    if kind == b"N" or right is None or number.is_huge():
        return
    way = direction(kind, number)
    if way != 0 and is_sum_wide(right, way * abs(number.value())):
        raise Refusal("sum wide")


def test_bound(before: list, bound: Bound) -> None:
    if bound.column not in [column.name for column in columns_of(before)]:
        raise Refusal("unknown name")
    if bound.number is not None:
        test_limit(tested_number(bound.number))
    for kinds in (LOWER_BOUNDS, UPPER_BOUNDS):
        if bound.kind in kinds and bound_that_sets(before, bound.column, kinds) is not None:
            raise Refusal("duplicate entry")


TESTS = {
    Sense: test_sense,
    Row: test_row,
    Column: test_column,
    Entry: test_entry,
    RightSide: test_right_side,
    Range: test_range,
    Bound: test_bound,
}


# ---- the model
def sides_of(facts: list, row: Row) -> tuple:
    """The lower and the upper side of a row."""
    right = right_side(facts, row.name)
    if right is None:
        return None, None
    lower = right if row.kind in (b"G", b"E") else None
    upper = right if row.kind in (b"L", b"E") else None
    number = figure_of(facts, Range, row.name)
    if number is None:
        return lower, upper
    way = direction(row.kind, number)
    made = None if number.is_huge() else right + way * abs(number.value())
    return (made if way < 0 else lower), (made if way > 0 else upper)


def terms_of(facts: list, row: bytes) -> list:
    """The terms of a row: the places of columns with their factors, without those that are 0."""
    numbers = {entry.column: number_of(entry.number) for entry in of_type(facts, Entry) if entry.row == row}
    places = enumerate(column.name for column in columns_of(facts))
    return [(place, numbers[name].value()) for place, name in places if name in numbers and numbers[name].sign() != 0]


def set_value(bound: Bound, binary: int) -> Optional[Fraction]:
    """What a bound sets: none where it has no number or a huge one, and this where it is binary."""
    if bound.kind == b"BV":
        return Fraction(binary)
    return None if bound.number is None else number_of(bound.number).limit()


def is_lower_removed(facts: list, column: bytes) -> bool:
    """Whether no line sets the lower bound and the upper one is negative."""
    upper = upper_bound(facts, column)
    return bound_that_sets(facts, column, LOWER_BOUNDS) is None and upper is not None and upper < 0


def lower_bound(facts: list, column: bytes) -> Optional[Fraction]:
    bound = bound_that_sets(facts, column, LOWER_BOUNDS)
    if bound is not None:
        return set_value(bound, 0)
    return None if is_lower_removed(facts, column) else Fraction(0)


def upper_bound(facts: list, column: bytes) -> Optional[Fraction]:
    bound = bound_that_sets(facts, column, UPPER_BOUNDS)
    return None if bound is None else set_value(bound, 1)


def is_whole(facts: list, column: Column) -> bool:
    return column.is_whole or bound_that_sets(facts, column.name, WHOLE_BOUNDS) is not None


# ---- the model in one line
def limit_words(limit: Optional[Fraction]) -> str:
    return "none" if limit is None else f"{limit.numerator}/{limit.denominator}"


def truth_word(truth: bool) -> str:
    return "true" if truth else "false"


def terms_words(facts: list, row: bytes) -> list:
    return [f"{place}*{limit_words(factor)}" for place, factor in terms_of(facts, row)]


def row_words(facts: list, row: Row) -> list:
    sides = [limit_words(side) for side in sides_of(facts, row)]
    return ["row", str(list(row.name)), *sides, *terms_words(facts, row.name)]


def column_words(facts: list, column: Column) -> list:
    lower = limit_words(lower_bound(facts, column.name))
    upper = limit_words(upper_bound(facts, column.name))
    return ["column", str(list(column.name)), lower, upper, truth_word(is_whole(facts, column))]


def model_line(facts: list) -> str:
    """The sense, the rows with their sides and terms, the objective, the columns with their bounds, and the notes."""
    words = ["max", truth_word(any(sense.is_greatest for sense in of_type(facts, Sense)))]
    for row in kept_rows(facts):
        words += row_words(facts, row)
    words.append("objective")
    for row in free_rows(facts)[:1]:
        words += terms_words(facts, row.name)
    for column in columns_of(facts):
        words += column_words(facts, column)
    for place, column in enumerate(columns_of(facts)):
        if is_lower_removed(facts, column.name):
            words += ["removed", str(place)]
    return " ".join(words)


def answer(text: bytes) -> str:
    """The first fault of a text, or its model in one line."""
    lines = lines_of(text)
    facts = []
    for place, line in enumerate(lines):
        try:
            for fact in line_facts(lines[:place], line):
                TESTS[type(fact)](facts, fact)
                facts.append(fact)
        except Refusal as refusal:
            return f"line {line.number}: {refusal}"
    if not any(line.is_end() for line in lines):
        return f"line {max(1, len(lines))}: truncated"
    return model_line(facts)


# ---- texts made by chance
MADE_ROWS = ["R", "S", "T", "C", "D"]
MADE_COLUMNS = ["X", "Y", "Z"]
MADE_ROW_KINDS = ["N", "L", "G", "E", "E"]
MADE_SENSES = ["MAX", "min", "Maximize", "MINIMIZE", "best"]
MADE_BOUNDS = ["UP", "UP", "LO", "FX", "FR", "MI", "PL", "BV", "LI", "UI"]
MADE_SETS = ["", "", "A ", "A ", "B "]
COMMON_NUMBERS = ["0", "1", "-2", "3.5", "7", "-3", "2", ".5", "12", "-1e25", "1e30"]
UNUSUAL_NUMBERS = ["5.", "-0", "+4", "12e1", "-1e-3", "1e-38", "1e20", "99999999999999999999", str(WIDEST)]
FAULTY_NUMBERS = ["1e40", "1e-40", "1e-50", "1e999999", "x", "1..2"]

# How often something rare or faulty is made.
RARE_NUMBER = 0.06
UNKNOWN_ROW = 0.01
UNKNOWN_COLUMN = 0.02
SAME_ROW_NAME = 0.03
SAME_PLACE = 0.1
NO_END = 0.03
SPOILT_LINE = 0.06


def happens(chance: random.Random, share: float) -> bool:
    return chance.random() < share


def made_number(chance: random.Random) -> str:
    if happens(chance, RARE_NUMBER):
        return chance.choice(UNUSUAL_NUMBERS + FAULTY_NUMBERS)
    return chance.choice(COMMON_NUMBERS)


def made_pairs(chance: random.Random, rows: list, taken: set) -> str:
    """A row and a number, once or twice, seldom for rows that are taken; they are taken then."""
    words = []
    for _ in range(chance.choice([1, 1, 2])):
        row = "Q" if happens(chance, UNKNOWN_ROW) else chance.choice(rows)
        if row not in taken or happens(chance, SAME_PLACE):
            words += [row, made_number(chance)]
            taken.add(row)
    return " ".join(words)


def made_head(chance: random.Random) -> list:
    lines = ["NAME t u v"] if happens(chance, 0.3) else []
    if happens(chance, 0.15):
        lines.append("OBJSENSE " + chance.choice(MADE_SENSES))
    elif happens(chance, 0.15):
        lines.append("OBJSENSE")
        lines += [" " + chance.choice(MADE_SENSES)] if happens(chance, 0.8) else []
    return lines


def made_row_lines(chance: random.Random, rows: list) -> list:
    lines = ["ROWS"] + [f" {chance.choice(MADE_ROW_KINDS)} {row}" for row in rows]
    return lines + ([f" L {rows[0]}"] if happens(chance, SAME_ROW_NAME) else [])


def made_column_lines(chance: random.Random, rows: list, columns: list) -> list:
    """Lines of these columns, with markers between them."""
    lines = ["COLUMNS"]
    taken = {column: set() for column in columns}
    for _ in range(chance.randint(1, 7)):
        if happens(chance, 0.1):
            lines.append(" M 'MARKER' " + chance.choice(["'INTORG'", "'INTEND'"]))
            continue
        column = chance.choice(columns)
        pairs = made_pairs(chance, rows, taken[column])
        lines += [f" {column} {pairs}"] if pairs else []
    return lines


def made_set_lines(chance: random.Random, section: str, rows: list) -> list:
    """A section of right sides or of ranges, or none."""
    if not happens(chance, 0.6):
        return []
    lines = [section]
    taken = set()
    for _ in range(chance.randint(0, 4)):
        pairs = made_pairs(chance, rows, taken)
        lines += [f" {chance.choice(MADE_SETS)}{pairs}"] if pairs else []
    return lines


def made_bound_line(chance: random.Random, columns: list, taken: set) -> Optional[str]:
    """A bound, seldom one that is taken."""
    kind = chance.choice(MADE_BOUNDS)
    column = "W" if happens(chance, UNKNOWN_COLUMN) else chance.choice(columns)
    ends = {(column, is_upper) for is_upper, kinds in enumerate((LOWER_BOUNDS, UPPER_BOUNDS)) if kind.encode() in kinds}
    if ends & taken and not happens(chance, SAME_PLACE):
        return None
    taken |= ends
    set_name = chance.choice(MADE_SETS)
    if kind.encode() in NUMBERED_BOUNDS:
        return f" {kind} {set_name}{column} {made_number(chance)}"
    ignored = " 5" if set_name and happens(chance, 0.2) else ""
    return f" {kind} {set_name}{column}{ignored}"


def made_bound_lines(chance: random.Random, columns: list) -> list:
    if not happens(chance, 0.7):
        return []
    taken = set()
    lines = [made_bound_line(chance, columns, taken) for _ in range(chance.randint(0, 5))]
    return ["BOUNDS"] + [line for line in lines if line is not None]


def spoil(chance: random.Random, lines: list) -> None:
    """Puts something else for a line."""
    place = chance.randrange(len(lines))
    line = lines[place]
    others = [line + " zz", "", " SC A X 1", "* c", line.strip(), f" {line.strip()} 1", line + "\x01", "rows"]
    lines[place] = chance.choice(others)


def made_text(chance: random.Random) -> bytes:
    """A small model, often with a fault."""
    rows = chance.sample(MADE_ROWS, chance.randint(3, 5))
    column_lines = made_column_lines(chance, rows, MADE_COLUMNS)
    named = [column for column in MADE_COLUMNS if any(line.startswith(f" {column} ") for line in column_lines)]
    lines = made_head(chance) + made_row_lines(chance, rows) + column_lines
    lines += made_set_lines(chance, "RHS", rows) + made_set_lines(chance, "RANGES", rows)
    lines += made_bound_lines(chance, named or MADE_COLUMNS)
    lines += [] if happens(chance, NO_END) else ["ENDATA"]
    if happens(chance, SPOILT_LINE):
        spoil(chance, lines)
    return "".join(line + "\n" for line in lines).encode()


if __name__ == "__main__":
    sys.exit(run("slow_mps_reader.py", sys.argv[1:], b">", answer, made_text))
