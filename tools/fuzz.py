#!/usr/bin/env python3
"""Tries the program on spoilt texts: `tools/fuzz.py [--seed S] [--cases N] [--first K] [--seconds T] [PROGRAM]`

Each case takes a model, a script and its report, which are stored (tests/, examples/) or drawn (chance_models.py), and
spoils one of the three (spoiling.py). Seed and number draw a case: `--first K --cases 1` makes it again. Every run has to end with
a status that is documented for it, within SECONDS of the processor and so many bytes of MEMORY, with nothing on standard error.

- A spoilt model is refused for the fault that the slow readers find (slow_lp_reader.py, slow_mps_reader.py), or read.
- What is analysed is judged (reports.py) and has the commands of its script; its status tells whether an answer is open; and
  `verify` accepts it, or comes to a sum that is too wide.
- A script that is refused at a line is read up to there, and a report is truncated there.
- A report that `verify` accepts is judged true, with as many answers settled, and one that it rejects is judged false.

Before, the judge has to find each stored report true or false as it is stored. What is printed counts statuses by what was spoilt
and how, and tells each wrong case with the files of its last run. The status is 1 where there is one, or the judge fails.
"""

import argparse
import os
import random
import re
import resource
import subprocess
import sys
import tempfile
import time
from collections import Counter, defaultdict
from fractions import Fraction
from functools import lru_cache
from importlib.machinery import SourceFileLoader
from importlib.util import module_from_spec, spec_from_loader

import chance_models
import slow_lp_reader
import slow_mps_reader
from asking import find_program
from reader_cases import model_of, report_of
from reports import LINEAR, STOPS, Reading, Wrong, judge
from slow_reduction import narrow, plus, times
from spoiling import spoilt

TOP = os.path.dirname(os.path.dirname(os.path.realpath(__file__)))
SECONDS, MEMORY = 5, 2 << 30
# A run that has to wait for the processor is given up after so many seconds.
PATIENCE = 300
MOST_BYTES = 4_000
DRAWN = "tiny", "small", "small marked", "degenerate"
OPEN = (*STOPS, "not linear", "unknown name", "no change", "nothing to undo")
WIDE = re.compile(rb"wide line [1-9][0-9]* (plus|minus|times|over) -?[0-9/]+ -?[0-9/]+\n")


# ---- what is judged
class Claims(Reading):
    """A report as `verify` has it: which set a filter finds is not looked at, nor stops, `not linear` and reductions."""

    def skip(self):
        while self.next() not in ("end", None):
            self.take()

    def values(self, model):
        self.last = super().values(model)
        return self.last

    def irreducible(self, model, command):
        super().irreducible(model, command if command in LINEAR else "iis sensitivity")

    def bounded(self, model):
        """The objective is left out only where it is too wide."""
        start = self.place
        super().bounded(model)
        is_told = any(line.startswith("objective ") for line in self.lines[start : self.place])
        self.sure(is_told or narrow(lambda: self.objective(model)) is None)

    def objective(self, model):
        total = Fraction(0)
        for j, a in sorted(model.objective.items()):
            total = plus(total, times(a, self.last[j]))
        return total

    def reduced(self, _model):
        self.skip()

    def answer(self, model, command):
        line = self.next() or ""
        if line not in STOPS and not line.startswith(("too large ", "not linear ")):
            return super().answer(model, command)
        self.take()
        if not line.startswith("not linear "):
            self.skip()
            self.take("end")
        return line


def judged(line, report, kind):
    """What each command of a report is answered, for the model that a line tells; `Wrong` where some of it is not so."""
    model = model_of(line)
    head, *rest = report.decode("latin-1").split("\n")
    for word, j in re.findall(r" (removed|kept) (\d+)", line):
        if rest[:1] != [f"note {model.columns[int(j)].name} lower {word}"]:
            raise Wrong("a note")
        rest = rest[1:]
    commands = [it[8:] for it in rest if it.startswith("command ")]
    return judge(model, commands, "\n".join([head, *rest]), kind=kind)


def is_true(line, report):
    try:
        judged(line, report, Claims)
    except Wrong:
        return False
    return True


@lru_cache(maxsize=4)
def told(name, model):
    """What a slow reader says of a model: a line with its first fault, or with the model."""
    return (slow_lp_reader if name.endswith(".lp") else slow_mps_reader).answer(model)


# ---- runs
class Fault(Exception):
    """What a run does that it must not."""


def sure(truth, *words):
    if not truth:
        raise Fault(*words)


def limits():
    resource.setrlimit(resource.RLIMIT_CPU, (SECONDS, SECONDS))
    resource.setrlimit(resource.RLIMIT_AS, (MEMORY, MEMORY))
    resource.setrlimit(resource.RLIMIT_CORE, (0, 0))


def front_of(text, place):
    """The lines of a text before one, which has to be there."""
    lines = text.split(b"\n")
    sure(int(place) <= len(lines), "a line behind the last", place)
    return b"".join(line + b"\n" for line in lines[: int(place) - 1])


class Desk:
    """A folder, the program that is run in it, the files of the last run, and how many runs and rejected reports there were."""

    def __init__(self, program, folder):
        self.program, self.folder, self.files, self.runs, self.rejected = program, folder, {}, 0, 0

    def run(self, word, name, model, second):
        """The status of a run over a model and a second file, and what it writes."""
        self.files, self.runs = {name: model, "second": second}, self.runs + 1
        for file, text in self.files.items():
            with open(f"{self.folder}/{file}", "wb") as it:
                it.write(text)
        how = {"cwd": self.folder, "stdin": subprocess.DEVNULL, "capture_output": True, "preexec_fn": limits, "check": False}
        ran = subprocess.run([self.program, word, name, "second"], timeout=PATIENCE, **how)
        sure(ran.returncode >= 0, "signal", -ran.returncode)
        sure(not ran.stderr, "standard error", ran.stderr[:300])
        return ran.returncode, ran.stdout

    def is_refused(self, line, status, said):
        """Whether the model that a line tells has a fault; it is then refused for just that one."""
        if line.startswith("line "):
            place, _, kind = line[5:].partition(": ")
            sure((status, said) == (5, f"model refused line {place} {kind}\n".encode()), status, said, "for", line)
        return line.startswith("line ")

    def analyse(self, name, model, script):
        """The status of an analysis, once all that it says is tried."""
        line = told(name, model)
        status, said = self.run("analyse", name, model, script)
        if self.is_refused(line, status, said):
            return status
        refused = re.fullmatch(rb"script refused line ([1-9][0-9]*)\n", said)
        if status == 6 and refused:
            sure(self.analyse(name, model, front_of(script, refused[1])) < 2, "a front is refused")
            return status
        sure(status in (0, 1), status, said[:300])
        answers = judged(line, said, Reading)
        sure(status == any(it in OPEN for it in answers), status, answers)
        asked = [it.split() for it in script.split(b"\n") if it.strip() and not it.startswith(b"#")]
        made = [it.split()[1:] for it in said.split(b"\n") if it.startswith(b"command ")]
        # Numbers are written otherwise in a report.
        worded = lambda words: words[:-1] if words[0] in (b"set", b"weight") else words
        sure(list(map(worded, asked)) == list(map(worded, made)), "other commands", made)
        sure(self.verify(name, model, said) in (0, 1, "8 wide"), "not accepted", said)
        return status

    def verify(self, name, model, report):
        """The status of a check, once all that it says is tried; `8 wide` where a sum is too wide."""
        line = told(name, model)
        status, said = self.run("verify", name, model, report)
        refused = re.fullmatch(rb"report refused (?:truncated|line ([1-9][0-9]*))\n", said)
        if self.is_refused(line, status, said):
            return status
        if status == 6 and refused:
            self.is_truncated(name, model, front_of(report, refused[1] or b"1"))
        elif status == 8 and re.fullmatch(rb"rejected line [1-9][0-9]*\n", said):
            sure(not is_true(line, report), "rejected and judged true", said)
            self.rejected += 1
        elif status == 8:
            sure(WIDE.fullmatch(said), said)
            return "8 wide"
        else:
            answers = judged(line, report, Claims)
            count = sum(it in STOPS or it == "reduced" or it.startswith(("too large ", "not linear ")) for it in answers)
            right = f"accepted settled {len(answers) - count} unsettled {count}\n".encode()
            sure((status, said) == (count > 0, right), status, said, answers)
        return status

    def is_truncated(self, name, model, front):
        """A front of a report ends too soon, unless it is a whole one."""
        if not front.endswith(b"\nreport end\n"):
            found = self.run("verify", name, model, front)
            sure(found == (6, b"report refused truncated\n"), "a front", found)


# ---- cases
def stored():
    """The stored runs that are short: a model's name, its text, a second text, the word, the status, and what is written."""
    loader = SourceFileLoader("iisan_test", f"{TOP}/test")
    test = module_from_spec(spec_from_loader(loader.name, loader))
    loader.exec_module(test)
    for _, _, (words, files, status, written) in (*test.rows(), *test.examples()):
        if words[:1] in (["analyse"], ["verify"]) and status in (0, 1, 8) and sum(map(len, files.values())) < MOST_BYTES:
            name = "m.lp" if words[1].lower().endswith(".lp") else "m.mps"
            yield name, files[words[1]], files[words[2]], words[0], status, test.encoded(written)
    for _, attempt, (first, expected, text) in test.texts():
        if attempt == test.try_report and expected[0] in "018":
            yield "m.lp", first, text, "verify", int(expected[0]), expected[2:].encode()
        elif attempt == test.try_reader and not expected.startswith("line "):
            yield first, text, report_of(expected)[0], "verify", 1, b""


def sets_of(runs):
    """A model's name and text, a script and its report, of each run; of a check the script is that of its report."""
    for name, model, second, word, _, written in runs:
        script = second if word == "analyse" else b"".join(re.findall(rb"(?m)^command (.*\n)", second))
        yield name, model, script, written if word == "analyse" else second


def judge_itself(runs):
    """How many stored reports are judged true and false, of which each has to be so."""
    counts = Counter()
    for name, model, report, word, status, written in runs:
        if word == "verify" and not written.startswith(b"wide "):
            truth = is_true(told(name, model), report)
            counts[truth] += 1
            if truth != (status < 2):
                sys.exit(f"the judge fails: {written} {report}")
    return counts


def drawn(source, desk):
    """A model's name and text, a script, and the report that the program writes."""
    model = chance_models.KINDS[source.choice(DRAWN)][1](source)
    script = "\n".join([*chance_models.script(source, model), ""]).encode()
    name, text = source.choice(model.texts())
    return name, text.encode(), script, desk.run("analyse", name, text.encode(), script)[1]


def try_case(desk, sets, source):
    """Makes a case: for each run what was spoilt, how, and the status. Of two lists of sets the second is taken from less often."""
    own = drawn(source, desk) if source.random() < 0.4 else source.choice(sets[source.random() < 0.3])
    name, model, script, report = own
    at = source.randrange(1, 4)
    other = source.choice([it for it in sets[0] if it[0] == name])[at]
    way, text = spoilt(source, own[at], other, (name[2:], "script", "report")[at - 1])
    if at == 1:
        yield "model", way, desk.analyse(name, text, script)
        yield "model of a report", way, desk.verify(name, text, report)
    elif at == 2:
        yield "script", way, desk.analyse(name, model, text)
    else:
        yield "report", way, desk.verify(name, model, text)


def main():
    parser = argparse.ArgumentParser(usage=__doc__.split("\n", maxsplit=1)[0])
    parser.add_argument("--seed", default="1")
    for name, given in (("cases", 20_000), ("first", 1), ("seconds", 10**9)):
        parser.add_argument(f"--{name}", type=int, default=given)
    parser.add_argument("program", nargs="?")
    options = parser.parse_args()
    runs, start = list(stored()), time.monotonic()
    truths, counts, wrong, made = judge_itself(runs), defaultdict(Counter), 0, 0
    # Of the models of the readers' cases nothing is written.
    sets = [list(sets_of(it for it in runs if bool(it[-1]) == is_run)) for is_run in (True, False)]
    print(f"stored reports judged true {truths[True]}, false {truths[False]}", flush=True)
    with tempfile.TemporaryDirectory(prefix="iisan-fuzz-") as folder:
        desk = Desk(os.path.abspath(options.program or find_program()), folder)
        while made < options.cases and time.monotonic() - start < options.seconds:
            number = options.first + made
            try:
                for what, way, status in try_case(desk, sets, random.Random(f"fuzz {options.seed} {number}")):
                    counts[what][str(status)] += 1
                    counts[way][str(status)] += 1
            except Exception as fault:  # Whatever is wrong with a report may make a step of its reading fail.
                wrong += 1
                print(f"wrong: --seed {options.seed} --first {number} --cases 1: {fault!r}: {desk.files}", flush=True)
            made += 1
    for name, found in counts.items():
        print(f"{name}: " + ", ".join(f"status {status} {count}" for status, count in sorted(found.items())))
    print(f"rejected and judged false {desk.rejected}, runs {desk.runs}, seconds {time.monotonic() - start:.0f}")
    print(f"seed {options.seed}, {made} cases from {options.first} on, {wrong} wrong")
    return 1 if wrong else 0


if __name__ == "__main__":
    sys.exit(main())
