"""What the slow readers and ./test share: files of cases, each of which is a line with what is expected, and a text.

What is expected is the first fault, or the model in one line; `report_of` gives a report that `verify` accepts of that model alone.
"""

import random
import re
import sys
from fractions import Fraction
from typing import Callable

from models import Column, Model, Row

Answer = Callable[[bytes], str]
Maker = Callable[[random.Random], bytes]


def cases_of(content: bytes, mark: bytes) -> list:
    """The cases of a file, each of which begins with a mark: what is expected, and the text."""
    cases = []
    for case in re.split(rb"^" + re.escape(mark), content, flags=re.MULTILINE)[1:]:
        expected, _, text = case.partition(b"\n")
        cases.append((expected.rstrip(), text))
    return cases


def model_of(line: str) -> Model:
    """The model that a line tells."""
    name = lambda word: bytes(map(int, filter(None, word.split(", ")))).decode()
    limit = lambda word: None if word == "none" else Fraction(word)
    form = lambda words: {int(j): Fraction(a) for j, a in (word.split("*") for word in words.split())}
    terms = r"((?: \d+\*\S+)*)"
    rows = [Row(name(it), form(its), limit(lo), limit(up)) for it, lo, up, its in re.findall(rf" row \[([^]]*)\] (\S+) (\S+){terms}", line)]
    columns = re.findall(r" column \[([^]]*)\] (\S+) (\S+) (true|false)", line)
    columns = [Column(name(it), limit(lo), limit(up), mark == "true") for it, lo, up, mark in columns]
    return Model(rows, columns, form(re.search(rf" objective{terms}", line)[1]), line.startswith("max true"))


def use(model: Model, j: int, factor: Fraction) -> tuple:
    """The bound that a column is taken at so often, where it is 0, and how often."""
    return f"{'upper' if factor > 0 else 'lower'} {model.columns[j].name}", abs(factor)


def refuted(model: Model, row: Row) -> list:
    """The lines of a contradiction of a row that is to be at least 1, where all columns are 0."""
    uses = [(f"rowlo {row.name}", Fraction(1))]
    uses += [use(model, j, a) for is_upper in (False, True) for j, a in sorted(row.form.items()) if (a > 0) == is_upper]
    members = [f"member {name}" for name, _ in uses]
    return ["command check", "infeasible", *members, "proof", "leaf", *(f"use {name} {a}" for name, a in uses), "end"]


def bounded(model: Model) -> list:
    """The lines of the objective's bound, where all columns are 0."""
    sign = 1 if model.is_greatest else -1
    uses = [use(model, j, sign * a) for is_upper in (False, True) for j, a in sorted(model.objective.items()) if (sign * a > 0) == is_upper]
    uses = [f"use {name} {a}" for name, a in uses]
    return ["command unbounded", "bounded", "point", "objective 0", "bound 0", "dual", *uses, "end"]


def report_of(line: str) -> tuple:
    """A report that tells all of the model in a line but the sense of an objective of 0, and how many entries it has.

    Its notes are there. Each side, bound and mark is set to what it is, which is to change nothing. A stop leaves out all members, so
    that rows and columns stand in their order. Then all columns are 0, and each row is refuted where it alone is to be at least 1, by
    its factors; and the objective is bounded by 0, by its own.
    """
    model = model_of(line)
    lines = [f"note {model.columns[int(j)].name} lower {word}" for word, j in re.findall(r" (removed|kept) (\d+)", line)]

    def edit(command: str) -> None:
        lines.extend([f"command {command}", model.edit(command.split(" "))])

    parts = [("row", it) for it in model.rows] + [("column", it) for it in model.columns]
    for kind, it in parts:
        for word, number in zip(("lower", "upper"), list(it.limits.values())):
            edit(f"set {kind} {it.name} {word} {'none' if number is None else number}")
    for it in model.columns:
        edit(f"mark {it.name} {'whole' if it.is_whole else 'plain'}")
    assert not model.edits
    lines += ["command check", "pivots spent", "site settle", *(f"without {model.name(it)}" for it in model.members()), "end"]
    for kind, it in parts:
        for word in ("lower", "upper"):
            edit(f"set {kind} {it.name} {word} {'none' if kind == 'row' else 0}")
    for it in model.columns:
        edit(f"mark {it.name} plain")
    for row in model.rows:
        edit(f"set row {row.name} lower 1")
        lines += refuted(model, row)
        edit(f"set row {row.name} lower none")
    lines += bounded(model)
    return "\n".join(["iisan report 2", *lines, "report end", ""]).encode(), sum(it.startswith("command ") for it in lines)


def reading(name: str, text: bytes, expected: str) -> tuple:
    """A run that reads a model of which this is expected: its words, the files by name, the status, and what is written."""
    if expected.startswith("line "):
        at, _, kind = expected[5:].partition(": ")
        return ["analyse", name, "s"], {name: text, "s": ""}, 5, f"model refused line {at} {kind}\n"
    report, entries = report_of(expected)
    return ["verify", name, "r"], {name: text, "r": report}, 1, f"accepted settled {entries - 1} unsettled 1\n"


def check(path: str, mark: bytes, answer: Answer) -> int:
    """Says for how many cases of a file the answer differs, and which these are."""
    with open(path, "rb") as file:
        cases = cases_of(file.read(), mark)
    differing = [place for place, (expected, text) in enumerate(cases, 1) if answer(text).encode() != expected]
    print(f"cases {len(cases)} differ {len(differing)}")
    for place in differing:
        print(f"case {place} is answered {answer(cases[place - 1][1])}")
    return 1 if differing else 0


def make(count: int, seed: int, mark: bytes, answer: Answer, made_text: Maker) -> int:
    """Prints cases that are made by chance."""
    chance = random.Random(seed)
    for _ in range(count):
        text = made_text(chance)
        sys.stdout.buffer.write(mark + answer(text).encode() + b"\n" + text)
    return 0


def run(name: str, words: list, mark: bytes, answer: Answer, made_text: Maker) -> int:
    """Does what the words of a tool ask for, and gives its status."""
    if len(words) == 2 and words[0] == "check":
        return check(words[1], mark, answer)
    if len(words) == 3 and words[0] == "make" and words[1].isdecimal() and words[2].isdecimal():
        return make(int(words[1]), int(words[2]), mark, answer, made_text)
    print(f"usage: {name} check FILE | make COUNT SEED", file=sys.stderr)
    return 2
