#!/usr/bin/env python3
"""Tries ./iis, the tools for people, and every example of the documents: `tools/test_people.py PROGRAM`

In a document an indented line that begins with `$ ` is a command, and the lines behind it, up to the next command or the
end of the block, are what it writes; a line `...` stands for any lines. `people_runs` gives each run as a name and what is
wrong with it, which is nothing where it is as it is to be.
"""

import glob
import json
import os
import re
import subprocess
import sys
import tempfile
from collections.abc import Iterator
from fractions import Fraction
from pathlib import Path
from types import SimpleNamespace
from typing import Optional, Union

sys.dont_write_bytecode = True

from model_texts import Column, Model, Number, Row, is_lp_file, lp_text, mps_text, read_bytes, read_model  # noqa: E402
from names_back import renamed, write_pulp, write_pyomo  # noqa: E402

TOP = os.path.dirname(os.path.dirname(os.path.realpath(__file__)))
MOST_WORDS = 22_000
# A busy machine is to change no answer.
MOST_SECONDS = "3600"
PLAN = "Minimize\nSubject To\n a: x + y >= 5\n b: x <= 2\nBounds\n y <= 2\nEnd\n"
WHOLE = "Minimize\nSubject To\n a: 2 x + 2 y = 3\nBounds\n x <= 4\n y <= 4\nGeneral\n x y\nEnd\n"
CROSS = "Minimize\nSubject To\n a: x >= 1\nBounds\n 3 <= x <= 2\nEnd\n"
ENDLESS = "Minimize\nSubject To\n a: 2 x - 2 y = 1\nGeneral\n x y\nEnd\n"
MPS = "ROWS\n N o\n {} a\nCOLUMNS\n x a 1\nRHS\n r a 3\n{}\nENDATA\n"
WIDE = "Minimize\nSubject To\n a: 1e30 x + y = 1\n b: x + 1e30 y = 1\nEnd\n"
LARGE = "Minimize\nSubject To\n" + "".join(f" r{i}: x{i} + x{i + 1} >= 1\n" for i in range(3500)) + "End\n"


def dense(seed: int) -> str:
    """A model of 20 rows of five factors of two digits each, of which numbers grow too wide."""
    lines = []
    for i in range(20):
        factors = [(37 * i * seed + 53 * j * j + 11 * seed) % 89 + 10 for j in range(5)]
        columns = [(7 * i + 3 * j * j + seed * j) % 20 for j in range(5)]
        form = " + ".join(f"{factor} x{column}" for factor, column in zip(factors, columns))
        lines.append(f" r{i}: {form} {'>=' if i % 2 else '<='} {(211 * i + 97 * seed) % 800 + 100}")
    return "\n".join(["Minimize", "Subject To", *lines, "End", ""])


# A model, the words behind it, the status, and what stands in the lines that are written.
CASES = [
    ("plan.lp", PLAN, "", 1, "These 3 requirements contradict one another; each of them is needed"),
    ("plan.lp", PLAN, "--all --method deletion", 1, "a: x + y >= 5   [alone: down to 4]"),
    ("plan.lp", PLAN, "--relax", 1, "at the least 1 has to give way in all"),
    ("plan.lp", PLAN, "--json --relax", 1, '"total": "1"'),
    ("plan.mps", MPS.format("G", "BOUNDS\n UP b x 2.5"), "", 1, "x <= 2.5   [alone: up to 3]"),
    ("plan.mps", MPS.format("E", "RANGES\n r a -2"), "", 0, "x = 1"),
    ("empty.lp", "Minimize\nSubject To\nEnd\n", "", 0, "all requirements can be met"),
    ("free.lp", "Minimize\nSubject To\n a: x >= 1\nEnd\n", "--repair", 0, "nothing has to give way"),
    ("whole.lp", WHOLE, "", 1, "Only with whole values do they contradict one another"),
    ("whole.lp", WHOLE, "--relax", 0, "nothing has to give way, whole values aside"),
    ("whole.lp", WHOLE, "--method alternative", 1, "not each of them may be needed"),
    ("endless.lp", ENDLESS, "", 3, "check: nodes spent"),
    ("wide.lp", WIDE, "", 3, "a number grew past 128 bits: the model has numbers of 31 digits"),
    ("dense.lp", dense(2), "", 0, "all requirements can be met"),
    ("dense.lp", dense(8), "", 1, "These 11 requirements contradict one another; each of them is needed"),
    ("dense.mps", mps_text(read_model(dense(8).encode(), True)), "", 1, "These 11 requirements contradict one another"),
    ("dense.lp", dense(16), "", 1, "These 17 requirements contradict one another; each of them is needed"),
    ("dense.lp", dense(12), "", 1, "These 19 requirements contradict one another; each of them is needed"),
    ("dense.lp", dense(12), "--relax", 3, "relax: too wide"),
    ("large.lp", LARGE, "--method elastic", 3, "the table would be too large"),
    ("plan.lp", PLAN, "--script no_pivots.script --relax", 3, "the pivots are spent"),
    ("plan.lp", PLAN, "--time-limit 0", 3, "is not read within the time"),
    ("cross.lp", CROSS, "--relax", 1, "whatever rows give way"),
    ("bad.lp", "Minimize\nSubject To\n a: x >= \nEnd\n", "", 4, "model refused line 4 bad field\n  4: End"),
    ("bad.mps", "ROWS\n N o\n", "", 4, "model refused line 2 truncated"),
    ("cut.lp.gz", "\x1f\x08", "", 4, "model refused line 1"),
    ("plan.lp", PLAN, "--time-limit inf", 1, "These 3 requirements"),
    ("plan.lp", PLAN, "--script bad.script", 4, "script refused line 1"),
    ("plan.lp", PLAN, "--script unknown.script", 4, "unknown name: set row z lower 1"),
    ("plan.lp", PLAN, "--script undo.script", 4, "`undo` is not taken here"),
    ("plan.lp", PLAN, "--script new.script --relax", 1, "a  >= 5    2    3       1"),
    ("plan.lp", PLAN, "--script soft.script --relax", 1, "y  <= 2    3    1       1/2"),
    ("plan.lp", PLAN, "--excerpt none/part.lp", 4, "none/part.lp: No such file"),
    ("plan.lp", PLAN, "--method simplex", 2, "invalid choice"),
]
SCRIPTS = {
    "no_pivots.script": "budget pivots 0\n",
    "bad.script": "do it\n",
    "unknown.script": "set row z lower 1\n",
    "undo.script": "undo\n",
    "new.script": "set column x upper 0\n",
    "soft.script": "weight upper y 1/2\n",
}


class Room:
    """A folder in which commands run as at the top of the repository, with a program in the place of ./iisan."""

    def __init__(self, program: str):
        self.program = os.path.abspath(program)
        self.folder = tempfile.TemporaryDirectory(prefix="iisan-people-")
        for name in ("iis", "examples", "tools"):
            os.symlink(f"{TOP}/{name}", f"{self.folder.name}/{name}")
        os.symlink(self.program, f"{self.folder.name}/iisan")
        for name, text in SCRIPTS.items():
            self.write(name, text)

    def write(self, name: str, text: str) -> None:
        with open(f"{self.folder.name}/{name}", "w", encoding="utf-8") as out:
            out.write(text)

    def run(self, command: str, program: str = "") -> tuple[int, str, str]:
        """The status of a command of the shell, and what it writes on both outputs."""
        settings = {"IISAN": program or self.program, "IIS_TIME_LIMIT": MOST_SECONDS}
        how = {"cwd": self.folder.name, "env": {**os.environ, **settings}, "stdin": subprocess.DEVNULL}
        ran = subprocess.run(["bash", "-c", command], capture_output=True, text=True, check=False, **how)
        return ran.returncode, ran.stdout, ran.stderr


def blocks(text: str) -> Iterator[tuple[str, list[str]]]:
    """The commands of a document, each with the lines that it writes."""
    for block in re.findall(r"(?:^    .*\n|^\n(?=    ))+", text, re.M):
        lines = [line[4:] for line in block.split("\n")]
        starts = [at for at, line in enumerate(lines) if line.startswith("$ ")]
        for at, end in zip(starts, [*starts[1:], len(lines)]):
            yield lines[at][2:], "\n".join(lines[at + 1 : end]).rstrip("\n").split("\n")


def is_written(written: str, lines: list[str]) -> bool:
    """Whether a text is these lines, of which `...` stands for any."""
    parts = [r"(?:.*\n)*" if line == "..." else re.escape(line) + r"\n" for line in lines if line or len(lines) > 1]
    return re.fullmatch("".join(parts), written.rstrip("\n") + "\n" if written.strip() else "") is not None


def document_runs(room: Room) -> Iterator[tuple[str, str]]:
    """Each command of the documents, but those that build."""
    names = ["README.md", *sorted(f"docs/{name}" for name in os.listdir(f"{TOP}/docs") if name.endswith(".md"))]
    for name in names:
        for command, lines in blocks(read(f"{TOP}/{name}")):
            _, written, faults = room.run(command)
            yield f"{name}: {command}", "" if is_written(written, lines) else f"{written}{faults}"


def case_runs(room: Room) -> Iterator[tuple[str, str]]:
    """Models that are written here: feasible ones, contradictions, stops and faults."""
    for name, text, words, status, part in CASES:
        room.write(name, text)
        found, written, faults = room.run(f"./iis {name} {words}")
        well = found == status and part in written + faults and (status < 4 or not written)
        yield f"iis {name} {words}", "" if well else f"status {found}\n{written}{faults}"


def excerpt_runs(room: Room) -> Iterator[tuple[str, str]]:
    """The excerpt of a contradiction, in both formats: it cannot be met by as many requirements."""
    for name, text in (("plan", PLAN), ("whole", WHOLE), ("cross", CROSS)):
        room.write(f"{name}.lp", text)
        for part in ("part.lp", "part.mps"):
            _, first, _ = room.run(f"./iis {name}.lp --excerpt {part}")
            _, second, faults = room.run(f"./iis {part}")
            counts = [re.findall(r"These (\d+) requirements", it) for it in (first, second)]
            yield f"iis {name}.lp --excerpt {part}", "" if counts[0] and counts[0] == counts[1] else second + faults


def false_report_runs(room: Room) -> Iterator[tuple[str, str]]:
    """A program whose report is wrong: nothing of it is shown."""
    room.write("plan.lp", PLAN)
    for false in ("s/^use rowlo a .*/use rowlo a 7/", "s/^member upper y/member upper x/", "s/^value .*//"):
        room.write("false", f'#!/bin/sh\n"{room.program}" "$@" | sed "{false}"\n')
        os.chmod(f"{room.folder.name}/false", 0o755)
        found, written, faults = room.run("./iis plan.lp --method deletion", f"{room.folder.name}/false")
        well = found == 5 and not written and "does not accept" in faults
        yield f"a report with {false}", "" if well else f"status {found}\n{written}{faults}"


def twin_runs(room: Room) -> Iterator[tuple[str, str]]:
    """Each model of the examples in both formats, written by the tools: the program answers alike, but for names."""
    room.write("check", "check\n")
    files = sorted(f"{at}/{name}" for at, _, names in os.walk(f"{TOP}/examples") for name in names)
    for path in (it for it in files if it.endswith((".lp", ".mps"))):
        data = read_bytes(path)
        model = read_model(data, is_lp_file(path, data))
        answers = []
        for name, write in (("twin.lp", lp_text), ("twin.mps", mps_text)):
            try:
                room.write(name, write(model))
            except ValueError:
                continue
            both = f"./iisan analyse {name} check; ./iisan analyse {path} check"
            answers.append(room.run(both)[1].split("iisan report 2\n"))
        well = answers and all(it[1].split("\n")[1] == it[2].split("\n")[1] for it in answers)
        yield f"{path[len(TOP) + 1 :]} written anew", "" if well else str(answers)[:2000]


def reader_runs() -> Iterator[tuple[str, str]]:
    """The cases of the readers of models: each text that is no fault is read here as it is there."""
    for kind, mark in (("mps", b">"), ("lp", b"*")):
        files = glob.glob(f"{TOP}/**/{kind}_cases.txt", recursive=True)
        data = b"\n".join(Path(file).read_bytes() for file in files)
        cases = [it.partition(b"\n") for it in re.split(rb"(?m)^" + re.escape(mark), data)]
        cases = [(head.decode(), body) for head, _, body in cases if head.startswith((b"max ", b"min "))]
        cases = [(re.sub(r" (removed|kept) .*", "", head), body) for head, body in cases]
        wrong = [head for head, body in cases if in_one_line(read_model(body, kind == "lp")) != head]
        yield f"{len(cases)} texts of {kind}_cases.txt", "\n".join(wrong[:3]) if cases else "there are no cases"


def in_one_line(model: Model) -> str:
    """A model in one line, as the cases of the readers have it, without its notes."""
    place = {name: at for at, name in enumerate(model.columns)}

    def number(it: Optional[Number]) -> str:
        return "none" if it is None else "/".join(map(str, Fraction(it).as_integer_ratio()))

    def sides(name: str, part: Union[Row, Column]) -> str:
        return f"{list(name.encode('latin-1'))} {number(part.lower)} {number(part.upper)}"

    def terms(form: dict[str, Number]) -> str:
        return "".join(f" {place[name]}*{number(form[name])}" for name in sorted(form, key=place.__getitem__))

    parts = [f"row {sides(name, row)}{terms(row.terms)}" for name, row in model.rows.items()]
    parts += ["objective" + terms(model.objective)]
    parts += [f"column {sides(name, it)} {str(it.whole).lower()}" for name, it in model.columns.items()]
    return f"max {str(model.maximise).lower()} {' '.join(parts)}"


def page_runs() -> Iterator[tuple[str, str]]:
    """The documents: their words are few enough, each link leads to a file, and the map has the crates that there are."""
    pages = ["README.md", *sorted(f"docs/{name}" for name in os.listdir(f"{TOP}/docs") if name.endswith(".md"))]
    texts = {page: read(f"{TOP}/{page}") for page in pages}
    words = sum(len(text.split()) for text in texts.values())
    yield "words of the documents", "" if words <= MOST_WORDS else f"{words} words, and at most {MOST_WORDS}"
    for page, text in texts.items():
        links = [it.split("#")[0] for it in re.findall(r"\]\(([^)]+)\)", text) if "://" not in it]
        broken = [it for it in links if it and not os.path.exists(f"{TOP}/{os.path.dirname(page)}/{it}")]
        yield f"links of {page}", ", ".join(broken)
    rows = re.findall(r"^\| (`.*?) \|", texts["docs/INSIDE.md"].split("## Tools")[0], re.M)
    named = {name for row in rows for name in re.findall(r"`(\w+)`", row)}
    there = set(re.findall(r"^(\w+)[^:#\n]*:", read(f"{TOP}/crates.txt"), re.M))
    yield "the map of crates", ", ".join(sorted(named ^ there))


def read(path: str) -> str:
    with open(path, encoding="utf-8") as it:
        return it.read()


def name_runs() -> Iterator[tuple[str, str]]:
    """The maps of names, by stand-ins of what PuLP and Pyomo answer."""
    rows = {"need_day_1": SimpleNamespace(name="need(day 1)")}
    written = (["x_1"], {"x_1": "X0000000"}, {"need_day_1": "C0000000"}, "OBJ")
    pulp = SimpleNamespace(constraints=rows, writeMPS=lambda path, rename: written)
    found = renamed("  C0000000: X0000000 + X00000001 >= 3", write_pulp(pulp, "plan.mps"))
    yield "names of PuLP", "" if found == "  need(day 1): x_1 + X00000001 >= 3" else found
    symbols = {7: SimpleNamespace(bySymbol={"c_e_need_1_": SimpleNamespace(name="need[1]")})}
    pyomo = SimpleNamespace(write=lambda path: (path, 7), solutions=SimpleNamespace(symbol_map=symbols))
    found = json.dumps(write_pyomo(pyomo, "plan.mps"))
    yield "names of Pyomo", "" if found == '{"c_e_need_1_": "need[1]"}' else found


def people_runs(program: str) -> Iterator[tuple[str, str]]:
    """All runs, each with what is wrong with it."""
    room = Room(program)
    for runs in (document_runs, case_runs, excerpt_runs, false_report_runs, twin_runs):
        yield from runs(room)
    yield from reader_runs()
    yield from page_runs()
    yield from name_runs()


def main(program: str) -> int:
    passed = failed = 0
    for name, wrong in people_runs(program):
        passed, failed = passed + (not wrong), failed + bool(wrong)
        if wrong:
            print(f"not as it is to be: {name}:\n{wrong}")
    print(f"{passed} passed, {failed} failed")
    return 1 if failed else 0


if __name__ == "__main__":
    sys.exit(main(*sys.argv[1:]))
