#!/usr/bin/env python3
"""A slow and plain reader of models in the LP format, to try the proved reader beside it.

It follows the rules of docs/LP.md; which numbers fit is said in docs/MPS.md, which sums are too wide in
crates/frac128/CLAUSES.md. A text is first the whole list of its tokens. Its statements are then taken in order: each is gone
through for its form, and then for what it means after the statements before it. The model is what is found in the
whole list of statements by look-ups. No table is kept, so large models take long.

    tools/slow_lp_reader.py check FILE

reads a file of cases and says of how many its own answer is not the one that is written there, and which these are;
the status is then 1. A case is a line that begins with `*`, with the answer after it, and then the text, up to the
next such line. An answer is the first fault (`line 5: duplicate name`) or the model in one line.

    tools/slow_lp_reader.py make COUNT SEED

prints so many cases, made by chance, with its own answers. The same seed gives the same cases, as long as the version
of Python is the same.

It needs Python 3.9 or later and its standard library alone.
"""

import random
import re
import sys
from fractions import Fraction
from math import lcm
from typing import NamedTuple, Optional

from reader_cases import run

# ---- limits
WIDEST = 2**127 - 1
MOST_PLACES = 38
HUGE_POWER = 20
LONGEST_LINE = 65_536
LONGEST_NAME = 255
MOST_ROWS = 20_000
MOST_COLUMNS = 40_000
MOST_TERMS = 400_000

# ---- words
SPELLINGS = {
    b"max": [b"max", b"maximize", b"maximum"],
    b"min": [b"min", b"minimize", b"minimum"],
    b"rows": [b"st", b"st.", b"s.t.", b"subject to", b"such that"],
    b"bounds": [b"bounds", b"bound"],
    b"whole": [b"general", b"generals", b"gen", b"integer", b"integers", b"int"],
    b"binary": [b"binary", b"binaries", b"bin"],
    b"end": [b"end"],
}
KEYWORDS = {spelling: keyword for keyword, spellings in SPELLINGS.items() for spelling in spellings}
UNSUPPORTED_WORDS = [b"semi", b"semis", b"sos", b"sos1", b"sos2", b"pwl", b"pwlobj"]
UNSUPPORTED_PAIRS = [b"lazy constraints", b"user cuts", b"general constraints"]
UNSUPPORTED = UNSUPPORTED_WORDS + UNSUPPORTED_PAIRS
INFINITE = [b"inf", b"infinity"]
LATER_SECTIONS = [b"bounds", b"whole", b"binary", b"end"]


class Refusal(Exception):
    """The first fault: its line and its kind, in words."""

    def __init__(self, line: int, kind: str) -> None:
        super().__init__(f"line {line}: {kind}")


# ---- numbers
def whole_number(digits: bytes) -> int:
    """The number that digits say, be they as many as they will."""
    value = 0
    for digit in digits:
        value = 10 * value + digit - ord("0")
    return value


class Number(NamedTuple):
    """Digits times ten to a power: no digit 0 stands first or last, and 0 has no digits."""

    digits: bytes
    power: int

    def is_huge(self) -> bool:
        """Whether it is at least 10^20."""
        return self.digits != b"" and len(self.digits) + self.power > HUGE_POWER

    def fits(self) -> bool:
        if not self.digits:
            return True
        if abs(self.power) > MOST_PLACES:
            return False
        return whole_number(self.digits) * 10 ** max(self.power, 0) <= WIDEST

    def value(self) -> Fraction:
        """The value of a number that fits."""
        return whole_number(self.digits) * Fraction(10) ** self.power if self.digits else Fraction(0)


def number_of(literal: bytes) -> Number:
    """The number that a literal is."""
    mantissa, _, exponent = literal.lower().partition(b"e")
    before, _, after = mantissa.partition(b".")
    written = before + after
    kept = written.rstrip(b"0")
    power = whole_number(exponent.lstrip(b"+-"))
    if exponent.startswith(b"-"):
        power = -power
    return Number(kept.lstrip(b"0"), power - len(after) + len(written) - len(kept))


def is_sum_wide(left: Fraction, right: Fraction) -> bool:
    """Whether the least common denominator, a numerator over it, or the sum of the two passes what a fraction keeps."""
    common = lcm(left.denominator, right.denominator)
    return max(common, abs(left * common), abs(right * common), abs((left + right) * common)) > WIDEST


# ---- tokens
class Token(NamedTuple):
    """A token: its sort, its bytes, its line, and whether it is the first there."""

    sort: str
    text: bytes
    line: int
    is_first: bool


# The sorts that no statement has, with their faults.
FAULTS = {
    "long line": "long line",
    "foreign byte": "foreign byte",
    "unsupported": "unsupported",
    "point": "bad number",
    "end of text": "truncated",
}

# Of two sorts that match at a place, the token is of the one that stands first here.
PATTERNS = {
    "number": rb"(?:[0-9]+(?:\.[0-9]*)?|\.[0-9]+)(?:[eE][+-]?[0-9]+)?",
    "point": rb"\.",
    "word": rb"[A-Za-z!\"#$%&'(),/;?@_`{|}~][A-Za-z!\"#$%&'(),/;?@_`{|}~0-9.]*",
    "unsupported": rb"->|[\[\]*^]",
    "sign": rb"[+-]",
    "relation": rb"<=|=<|>=|=>|[<>=]",
    "colon": rb":",
}


def token_at(text: bytes, place: int) -> tuple:
    """The sort of the token that begins at a place, and where it ends."""
    for sort, pattern in PATTERNS.items():
        found = re.compile(pattern).match(text, place)
        if found is not None:
            is_infinite = sort == "word" and found.group().lower() in INFINITE
            return ("infinite" if is_infinite else sort), found.end()
    raise AssertionError("a byte begins no token")


def line_tokens(number: int, line: bytes) -> list:
    """The tokens of a line; a line with a fault of its own is one token."""
    text = line.partition(b"\\")[0]
    if len(line) > LONGEST_LINE:
        return [Token("long line", b"", number, True)]
    if re.search(rb"[^\t\r -~]", text):
        return [Token("foreign byte", b"", number, True)]
    tokens = []
    place = 0
    while place < len(text):
        if text[place] in b" \t\r":
            place += 1
            continue
        sort, end = token_at(text, place)
        tokens.append(Token(sort, text[place:end], number, not tokens))
        place = end
    return tokens


def lines_of(text: bytes) -> list:
    lines = text.split(b"\n")
    if lines[-1] == b"":
        lines.pop()
    return lines


def raw_tokens(text: bytes) -> list:
    """All tokens of a text, keywords as words, and the end of the text as the last."""
    lines = lines_of(text)
    tokens = [token for number, line in enumerate(lines, 1) for token in line_tokens(number, line)]
    return tokens + [Token("end of text", b"", max(1, len(lines)), False)]


def words_at(tokens: list, place: int, count: int) -> Optional[bytes]:
    """So many words that begin a line and stand on it, in small letters, where no colon follows them."""
    words = tokens[place : place + count]
    following = tokens[place + count : place + count + 1]
    if not words[0].is_first or any(word.sort != "word" or word.line != words[0].line for word in words):
        return None
    if any(token.sort == "colon" for token in following):
        return None
    return b" ".join(word.text.lower() for word in words)


def keyword_at(tokens: list, place: int) -> tuple:
    """The token that begins at a place, keywords told apart, and where the next one begins."""
    for count in (2, 1):
        words = words_at(tokens, place, count)
        if words in UNSUPPORTED:
            return tokens[place]._replace(sort="unsupported"), place + count
        if words in KEYWORDS:
            return tokens[place]._replace(sort="keyword", text=KEYWORDS[words]), place + count
    return tokens[place], place + 1


def tokens_of(text: bytes) -> list:
    """All tokens of a text, each keyword as one token."""
    raw = raw_tokens(text)
    tokens = []
    place = 0
    while place < len(raw):
        token, place = keyword_at(raw, place)
        tokens.append(token)
    return tokens


# ---- statements
class Constant(NamedTuple):
    """A number or the infinite constant."""

    is_negative: bool
    token: Token

    def value(self) -> Optional[Fraction]:
        """What it says as a bound or a side: none where it is infinite or huge."""
        if self.token.sort == "infinite" or number_of(self.token.text).is_huge():
            return None
        value = number_of(self.token.text).value()
        return -value if self.is_negative else value


class Side(NamedTuple):
    """A constant and how what it limits stands to it: `3 <= x` is a side with `>=`."""

    relation: bytes
    constant: Constant


class Term(NamedTuple):
    is_negative: bool
    number: Optional[Token]
    name: Token

    def factor(self) -> Fraction:
        factor = Fraction(1) if self.number is None else number_of(self.number.text).value()
        return -factor if self.is_negative else factor


class Objective(NamedTuple):
    """The numbers of an objective are not kept."""

    is_greatest: bool
    label: Optional[Token]
    terms: list


class Row(NamedTuple):
    label: Optional[Token]
    left: Optional[Side]
    terms: list
    right: Side


class Free(NamedTuple):
    name: Token


class Bound(NamedTuple):
    left: Optional[Side]
    name: Token
    right: Optional[Side]


class Listed(NamedTuple):
    """A name under whole columns or under columns of 0 and 1."""

    is_binary: bool
    name: Token


def of_type(statements: list, *sorts: type) -> list:
    return [statement for statement in statements if isinstance(statement, sorts)]


# ---- the form of a statement
def refusal(token: Token, kind: str) -> Refusal:
    """The fault of a token: its own where no statement has such a token, else this."""
    return Refusal(token.line, FAULTS.get(token.sort, kind))


class Reading:
    """A place in the whole list of tokens."""

    def __init__(self, tokens: list) -> None:
        self.tokens = tokens
        self.place = 0

    def token(self) -> Token:
        return self.tokens[self.place]

    def sort(self, ahead: int = 0) -> str:
        """The sort of the next token, or of one so many after it."""
        return self.tokens[min(self.place + ahead, len(self.tokens) - 1)].sort

    def take(self, *sorts: str) -> Token:
        """The next token, which has to be of one of these sorts."""
        token = self.token()
        if token.sort not in sorts:
            raise refusal(token, "bad field")
        self.place += 1
        return token


def signs_form(reading: Reading) -> bool:
    """Signs, perhaps none: whether they are a minus together."""
    is_negative = False
    while reading.sort() == "sign":
        is_negative ^= reading.take("sign").text == b"-"
    return is_negative


def constant_form(reading: Reading) -> Constant:
    return Constant(signs_form(reading), reading.take("number", "infinite"))


def term_form(reading: Reading) -> Term:
    is_negative = signs_form(reading)
    number = reading.take("number") if reading.sort() == "number" else None
    return Term(is_negative, number, reading.take("word"))


def label_form(reading: Reading) -> Optional[Token]:
    """A label, if there is one."""
    if [reading.sort(), reading.sort(1)] != ["word", "colon"]:
        return None
    label = reading.take("word")
    reading.take("colon")
    return label


def begins_constant(reading: Reading) -> bool:
    """Whether a constant begins here, after signs, and no term."""
    ahead = 0
    while reading.sort(ahead) == "sign":
        ahead += 1
    is_number = reading.sort(ahead) == "number" and reading.sort(ahead + 1) != "word"
    return is_number or reading.sort(ahead) == "infinite"


def objective_part_form(reading: Reading) -> list:
    """A term; or a number, which is no term."""
    if not begins_constant(reading):
        return [term_form(reading)]
    signs_form(reading)
    reading.take("number")
    return []


def objective_form(reading: Reading, is_greatest: bool) -> Objective:
    label = label_form(reading)
    if reading.sort() not in ("sign", "number", "word"):
        return Objective(is_greatest, label, [])
    terms = objective_part_form(reading)
    while reading.sort() == "sign":
        terms += objective_part_form(reading)
    return Objective(is_greatest, label, terms)


def relation_form(reading: Reading) -> bytes:
    text = reading.take("relation").text
    if b"<" in text:
        return b"<="
    return b">=" if b">" in text else b"="


TURNED = {b"<=": b">=", b">=": b"<=", b"=": b"="}


def left_side_form(reading: Reading) -> Side:
    constant = constant_form(reading)
    return Side(TURNED[relation_form(reading)], constant)


def row_left_side_form(reading: Reading) -> Side:
    """A left side that does not make an equation."""
    constant = constant_form(reading)
    token = reading.token()
    relation = relation_form(reading)
    if relation == b"=":
        raise refusal(token, "bad field")
    return Side(TURNED[relation], constant)


def right_side_form(reading: Reading, left: Optional[Side]) -> Side:
    """A side; where there is a left one too, one of the two is above and one is below."""
    token = reading.token()
    relation = relation_form(reading)
    if left is not None and {left.relation, relation} != {b"<=", b">="}:
        raise refusal(token, "bad field")
    return Side(relation, constant_form(reading))


def row_form(reading: Reading) -> Row:
    label = label_form(reading)
    left = row_left_side_form(reading) if begins_constant(reading) else None
    terms = [term_form(reading)]
    while reading.sort() == "sign":
        terms.append(term_form(reading))
    return Row(label, left, terms, right_side_form(reading, left))


def named_bound_form(reading: Reading):
    """A bound that begins with a name."""
    name = reading.take("word")
    if reading.sort() == "word" and reading.token().text.lower() == b"free":
        reading.take("word")
        return Free(name)
    return Bound(None, name, right_side_form(reading, None))


def bound_form(reading: Reading):
    if reading.sort() == "word":
        return named_bound_form(reading)
    left = left_side_form(reading)
    name = reading.take("word")
    return Bound(left, name, right_side_form(reading, left) if reading.sort() == "relation" else None)


def whole_form(reading: Reading) -> Listed:
    return Listed(False, reading.take("word"))


def binary_form(reading: Reading) -> Listed:
    return Listed(True, reading.take("word"))


FORMS = {b"rows": row_form, b"bounds": bound_form, b"whole": whole_form, b"binary": binary_form}


def sense_form(reading: Reading) -> bool:
    """Whether the objective is to be greatest: the keyword with which a text begins."""
    if reading.sort() != "keyword" or reading.token().text not in (b"max", b"min"):
        raise refusal(reading.token(), "order")
    return reading.take("keyword").text == b"max"


def section_form(reading: Reading, sections: list) -> bytes:
    """The keyword of one of these sections."""
    token = reading.take("keyword")
    if token.text not in sections:
        raise refusal(token, "order")
    return token.text


# ---- look-ups
def terms_of(statements: list) -> list:
    """The terms of all statements in their order."""
    return [term for statement in of_type(statements, Objective, Row) for term in statement.terms]


def columns_in(terms: list) -> list:
    """Each column where a term names it first."""
    return list(dict.fromkeys(term.name.text for term in terms))


def row_names(statements: list) -> list:
    rows = of_type(statements, Row)
    return [b"c%d" % number if row.label is None else row.label.text for number, row in enumerate(rows, 1)]


def sum_of(terms: list, column: bytes) -> Fraction:
    """The sum of the factors that terms give a column."""
    return sum((term.factor() for term in terms if term.name.text == column), Fraction(0))


# ---- the tests of a statement after those before it
def test_factor(term: Term) -> None:
    if term.number is not None and not number_of(term.number.text).fits():
        raise Refusal(term.number.line, "number wide")


def test_room(earlier: list, term: Term) -> None:
    """There is room for one term more, and for its column, which may be new."""
    columns = columns_in(earlier)
    is_new = term.name.text not in columns
    has_no_room = is_new and (len(term.name.text) > LONGEST_NAME or len(columns) >= MOST_COLUMNS)
    if has_no_room or len(earlier) >= MOST_TERMS:
        raise Refusal(term.name.line, "limit")


def test_terms(before: list, terms: list) -> None:
    for place, term in enumerate(terms):
        test_factor(term)
        test_room(terms_of(before) + terms[:place], term)
        if is_sum_wide(sum_of(terms[:place], term.name.text), term.factor()):
            raise Refusal(term.name.line, "sum wide")


def test_side(side: Optional[Side]) -> None:
    """A number that does not fit is huge."""
    if side is None or side.constant.token.sort == "infinite":
        return
    number = number_of(side.constant.token.text)
    if not number.fits() and not number.is_huge():
        raise Refusal(side.constant.token.line, "number wide")


def test_objective(before: list, objective: Objective) -> None:
    if objective.label is not None and len(objective.label.text) > LONGEST_NAME:
        raise Refusal(objective.label.line, "limit")
    test_terms(before, objective.terms)


def test_new_name(before: list, name: bytes, token: Token) -> None:
    """No row before has the name that this token gives."""
    if name in row_names(before):
        raise Refusal(token.line, "duplicate name")


def test_row_room(before: list, name: bytes, token: Token) -> None:
    if len(name) > LONGEST_NAME or len(of_type(before, Row)) >= MOST_ROWS:
        raise Refusal(token.line, "limit")


def test_row(before: list, row: Row) -> None:
    """The name of an unnamed row is tested at its last token."""
    name = row_names(before + [row])[-1]
    last = row.right.constant.token
    if row.label is not None:
        test_new_name(before, name, row.label)
        test_row_room(before, name, row.label)
    test_side(row.left)
    test_terms(before, row.terms)
    if row.label is None:
        test_new_name(before, name, last)
    test_side(row.right)
    if row.label is None:
        test_row_room(before, name, last)


def test_declared(before: list, statement) -> None:
    """Some term declares the column of a statement."""
    if statement.name.text not in columns_in(terms_of(before)):
        raise Refusal(statement.name.line, "unknown name")


def test_bound(before: list, bound: Bound) -> None:
    test_side(bound.left)
    test_declared(before, bound)
    test_side(bound.right)


TESTS = {Objective: test_objective, Row: test_row, Free: test_declared, Bound: test_bound, Listed: test_declared}


# ---- statement by statement
def add_statement(statements: list, statement) -> None:
    """Puts a statement last, if it has no fault after those before it."""
    TESTS[type(statement)](statements, statement)
    statements.append(statement)


def statements_of(text: bytes) -> list:
    """The statements of a text; or else its first fault is raised."""
    reading = Reading(tokens_of(text))
    is_greatest = sense_form(reading)
    statements = []
    add_statement(statements, objective_form(reading, is_greatest))
    section = section_form(reading, [b"rows"])
    while section != b"end":
        if reading.sort() == "keyword":
            section = section_form(reading, LATER_SECTIONS)
        else:
            add_statement(statements, FORMS[section](reading))
    return statements


# ---- the model
class End(NamedTuple):
    """The lower or the upper end: the relations that set it, its bound under Binary, and that where none is set."""

    relations: list
    binary: Fraction
    unset: Optional[Fraction]


LOWER = End([b">=", b"="], Fraction(0), Fraction(0))
UPPER = End([b"<=", b"="], Fraction(1), None)


def values_set(sides: list, end: End) -> list:
    """What sides set at an end."""
    return [side.constant.value() for side in sides if side is not None and side.relation in end.relations]


def bounds_set(statement, end: End) -> list:
    """What a statement sets as a bound at an end of its column."""
    if isinstance(statement, Free):
        return [None]
    if isinstance(statement, Bound):
        return values_set([statement.left, statement.right], end)
    return [end.binary] if statement.is_binary else []


def all_bounds_set(statements: list, column: bytes, end: End) -> list:
    """What statements set as a bound at an end of a column, the last one last."""
    own = [statement for statement in of_type(statements, Free, Bound, Listed) if statement.name.text == column]
    return [value for statement in own for value in bounds_set(statement, end)]


def bound_of(statements: list, column: bytes, end: End) -> Optional[Fraction]:
    return ([end.unset] + all_bounds_set(statements, column, end))[-1]


def side_of(row: Row, end: End) -> Optional[Fraction]:
    return (values_set([row.left, row.right], end) + [None])[0]


def is_whole(statements: list, column: bytes) -> bool:
    return any(listed.name.text == column for listed in of_type(statements, Listed))


def is_lower_kept(statements: list, column: bytes) -> bool:
    """Whether no statement sets the lower bound and the upper one is negative."""
    upper = bound_of(statements, column, UPPER)
    return not all_bounds_set(statements, column, LOWER) and upper is not None and upper < 0


# ---- the model in one line
def limit_words(limit: Optional[Fraction]) -> str:
    return "none" if limit is None else f"{limit.numerator}/{limit.denominator}"


def truth_word(truth: bool) -> str:
    return "true" if truth else "false"


def terms_words(columns: list, terms: list) -> list:
    """The places of columns with the sums of their factors, without those that are 0."""
    sums = [sum_of(terms, column) for column in columns]
    return [f"{place}*{limit_words(factor)}" for place, factor in enumerate(sums) if factor != 0]


def row_words(columns: list, name: bytes, row: Row) -> list:
    sides = [limit_words(side_of(row, end)) for end in (LOWER, UPPER)]
    return ["row", str(list(name)), *sides, *terms_words(columns, row.terms)]


def column_words(statements: list, column: bytes) -> list:
    bounds = [limit_words(bound_of(statements, column, end)) for end in (LOWER, UPPER)]
    return ["column", str(list(column)), *bounds, truth_word(is_whole(statements, column))]


def model_line(statements: list) -> str:
    """The sense, the rows with their sides and terms, the objective, the columns with their bounds, and the notes."""
    objective = of_type(statements, Objective)[0]
    columns = columns_in(terms_of(statements))
    words = ["max", truth_word(objective.is_greatest)]
    for name, row in zip(row_names(statements), of_type(statements, Row)):
        words += row_words(columns, name, row)
    words += ["objective", *terms_words(columns, objective.terms)]
    for column in columns:
        words += column_words(statements, column)
    for place, column in enumerate(columns):
        if is_lower_kept(statements, column):
            words += ["kept", str(place)]
    return " ".join(words)


def answer(text: bytes) -> str:
    """The first fault of a text, or its model in one line."""
    try:
        return model_line(statements_of(text))
    except Refusal as fault:
        return str(fault)


# ---- texts made by chance: lists of words, in which a line's end is a word too
LINE_END = "\n"
MADE_NAMES = ["x", "y", "z", "x1", "a.b", "ex", "e5", "X", "_1", "#!"]
KEYWORD_SPELLINGS = [spelling.decode() for spelling in [*KEYWORDS, *UNSUPPORTED]]
KEYWORD_WORDS = [word for spelling in KEYWORD_SPELLINGS for word in spelling.split()]
LONG_NAMES = ["n" * LONGEST_NAME, "n" * (LONGEST_NAME + 1)]
UNUSUAL_NAMES = ["free", "Free", "c1", "c2", "c3", "c4", "Bounds", "END"] + KEYWORD_WORDS + LONG_NAMES
MADE_LABELS = ["c1", "c2", "c3", "r", "s", "obj", "end", "x", "st", "Bounds", "General"]
COMMON_NUMBERS = ["0", "1", "2", "3", "4", "7", "10", "2.5", ".5", "5.", "1e3", "0.25", "12e-1", "1E+2", "0.0"]
WIDE_NUMBERS = [str(WIDEST), str(WIDEST + 1), str(2 * WIDEST), "12345678901234567890.12345678901234567890"]
HUGE_NUMBERS = ["1e20", "100000000000000000000", "1e30", "1e400", "1e99999999999999999999"]
UNUSUAL_NUMBERS = ["99999999999999999999", "1e-38", "1e-39", "1e-400", "0e999", "5..3"] + WIDE_NUMBERS + HUGE_NUMBERS
MADE_INFINITE = ["inf", "Infinity", "INF", "infinity"]
MOST_RELATIONS = ["<=", "<", "=<"]
LEAST_RELATIONS = [">=", ">", "=>"]
MADE_RELATIONS = ["=", "="] + MOST_RELATIONS + LEAST_RELATIONS
MADE_SENSES = ["Minimize", "min", "MINIMUM", "Maximize", "max", "maximum"]
MADE_ROW_KEYWORDS = ["Subject To", "st", "s.t.", "SUCH THAT", "St."]
MADE_KEYWORDS = {"bounds": ["Bounds", "BOUND"], "whole": ["General", "gen", "INTEGERS"], "binary": ["Binary", "bin"]}
REFUSED_WORDS = ["[", "]", "*", "^", "->", ".", ". ", "\x01", "\x7f", "\xe9", "\x0b", "\\ c [ \x02", "\\"]
GAPS = ["", "", "\t", "  ", " \n", "\n"]
LINE_ENDS = ["\r\n", " \n", "\\ note\n", " \\\n", "\n\n", "\n\\ [\n", "\n "]
AFTER_END = [["[", "x"], [LINE_END, "x", "\x01"], [LINE_END, ":"], ["\x01"], [":"]]

# How often something rare or faulty is made.
UNUSUAL_NAME = 0.12
UNKNOWN_NAME = 0.07
UNUSUAL_NUMBER = 0.12
INFINITE_CONSTANT = 0.15
UNUSUAL_GAP = 0.1
WIDE_SUM = 0.02
EQUATION_AHEAD = 0.03
CUT_TEXT = 0.04
SOMETHING_AFTER_END = 0.1


def happens(chance: random.Random, share: float) -> bool:
    return chance.random() < share


def made_name(chance: random.Random) -> str:
    if happens(chance, UNUSUAL_NAME):
        return chance.choice(UNUSUAL_NAMES)
    return chance.choice(MADE_NAMES if happens(chance, 0.3) else MADE_NAMES[:4])


def made_number(chance: random.Random) -> str:
    return chance.choice(UNUSUAL_NUMBERS if happens(chance, UNUSUAL_NUMBER) else COMMON_NUMBERS)


def made_signs(chance: random.Random, share: float) -> list:
    """Signs: one with this likelihood, and each further one more seldom."""
    signs = []
    while happens(chance, share):
        signs.append(chance.choice("+-"))
        share /= 3
    return signs


def made_constant(chance: random.Random) -> list:
    is_infinite = happens(chance, INFINITE_CONSTANT)
    return made_signs(chance, 0.3) + [chance.choice(MADE_INFINITE) if is_infinite else made_number(chance)]


def made_term(chance: random.Random, is_first: bool) -> list:
    signs = made_signs(chance, 0.3) if is_first else [chance.choice("+-")] + made_signs(chance, 0.1)
    return signs + ([made_number(chance)] if happens(chance, 0.6) else []) + [made_name(chance)]


def made_terms(chance: random.Random) -> list:
    words = made_term(chance, True)
    for _ in range(chance.choice([0, 0, 1, 1, 2, 3])):
        words += made_term(chance, False)
    if happens(chance, WIDE_SUM):
        name = made_name(chance)
        words += ["+", chance.choice([str(WIDEST), "1e-38"]), name, "+", "4", name]
    return words


def made_label(chance: random.Random) -> list:
    return [chance.choice(MADE_LABELS), ":"] if happens(chance, 0.4) else []


def made_left_side(chance: random.Random) -> tuple:
    """A left side, and the relations that fit it."""
    relations = chance.choice([MOST_RELATIONS, LEAST_RELATIONS])
    return made_constant(chance) + [chance.choice(relations)], relations


def made_objective(chance: random.Random) -> list:
    if happens(chance, 0.1):
        return made_label(chance)
    words = made_label(chance) + made_terms(chance)
    return words + ([chance.choice("+-"), made_number(chance)] if happens(chance, 0.2) else [])


def made_row(chance: random.Random) -> list:
    words = made_label(chance)
    relations = MADE_RELATIONS
    if happens(chance, 0.3):
        left, relations = made_left_side(chance)
        words += left[:-1] + ["="] if happens(chance, EQUATION_AHEAD) else left
    return words + made_terms(chance) + [chance.choice(relations)] + made_constant(chance)


def made_bound(chance: random.Random, name: str) -> list:
    way = chance.randrange(6)
    if way == 0:
        return [name, chance.choice(["free", "FREE", "Free"])]
    if way == 1:
        return made_constant(chance) + [chance.choice(MADE_RELATIONS), name]
    if way == 2:
        left, relations = made_left_side(chance)
        return left + [name, chance.choice(relations)] + made_constant(chance)
    if way == 3:
        return [name, chance.choice(MOST_RELATIONS), "-", made_number(chance)]
    return [name, chance.choice(MADE_RELATIONS)] + made_constant(chance)


def made_section(chance: random.Random, names: list) -> list:
    """A section after the rows, most of whose names are among these."""
    section = chance.choice(list(MADE_KEYWORDS))
    words = [chance.choice(MADE_KEYWORDS[section])]
    for _ in range(chance.randint(0, 3)):
        name = chance.choice(names) if names and not happens(chance, UNKNOWN_NAME) else made_name(chance)
        words += [LINE_END] if happens(chance, 0.7) else []
        words += made_bound(chance, name) if section == "bounds" else [name]
    return words + [LINE_END]


def made_head(chance: random.Random) -> list:
    """The sense, the objective and the rows."""
    words = [chance.choice(MADE_SENSES), LINE_END, *made_objective(chance), LINE_END]
    words += [*chance.choice(MADE_ROW_KEYWORDS).split(), LINE_END]
    for _ in range(chance.randint(0, 3)):
        words += made_row(chance) + [LINE_END if happens(chance, 0.8) else " "]
    return words if words[-1] == LINE_END else words + [LINE_END]


def spoil(chance: random.Random, words: list) -> None:
    """Puts something else for a word."""
    place = chance.randrange(len(words))
    word = words[place]
    keyword = [LINE_END, *chance.choice(KEYWORD_SPELLINGS).split()]
    other = [chance.choice([made_name(chance), made_number(chance), *MADE_RELATIONS, *REFUSED_WORDS, "inf", ":", "-"])]
    changes = [[], [word, word], [word.upper()], [word, LINE_END], keyword, other, other + [word], [word, *words[-3:]]]
    words[place : place + 1] = chance.choice(changes)


def joined(chance: random.Random, words: list) -> str:
    """The text of words, with blanks between them and a line's end after them."""
    text = ""
    for word in words:
        is_unusual = happens(chance, UNUSUAL_GAP)
        if word == LINE_END:
            text += chance.choice(LINE_ENDS) if is_unusual else LINE_END
        else:
            text += word + (chance.choice(GAPS) if is_unusual else " ")
    return text + LINE_END if words else ""


def made_text(chance: random.Random) -> bytes:
    """A small model, often with a fault; no line of it begins a case."""
    words = made_head(chance)
    names = [word for word in words if word in MADE_NAMES]
    for _ in range(chance.randint(0, 3)):
        words += made_section(chance, names)
    words += ["End"] + (chance.choice(AFTER_END) if happens(chance, SOMETHING_AFTER_END) else [])
    for _ in range(chance.choice([0, 0, 1, 1, 2])):
        spoil(chance, words)
    if happens(chance, CUT_TEXT):
        del words[chance.randrange(len(words)) :]
    return re.sub(r"^\*", " *", joined(chance, words), flags=re.MULTILINE).encode("latin-1")


if __name__ == "__main__":
    sys.exit(run("slow_lp_reader.py", sys.argv[1:], b"*", answer, made_text))
