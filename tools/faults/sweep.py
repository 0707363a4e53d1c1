#!/usr/bin/env python3
"""Makes each allocation, read and write fail in turn: `tools/faults/sweep.py [--every K] [--lasting] [--only NAME] [PROGRAM]`

faults.c beside this file is compiled and loaded into the program. Each run counts its calls once, and then each of them fails in
its turn, or each K-th; with --lasting all allocations behind the one that is refused are refused too. These ends are right:

- where an allocation is refused, status 7 with the first whole pieces of what the run writes, but not all (the head of a report,
  and each entry, is a piece); or the run's own end. Where quick runs are made, also another report, for which `verify` says what
  it says for the run's own, since a quick run that fails is no answer;
- where a read or an opening fails, status 3 and `read fault WHICH`, first of the model, and then of the second file;
- where a write fails after no byte, one or all, status 4 and just what was taken; statuses from 2 on stay;
- where each read and write takes one byte, the run's own, and as above where one of these fails; not tried of quick runs.

Nothing may stand on standard error. A line for each run has its status, and how many calls of each kind ended how. The last line is
'N tried, M wrong', behind each end that is wrong, and the status 1 where there is one.
"""

import argparse
import os
import random
import re
import subprocess
import sys
import tempfile
from collections import Counter

HERE = os.path.dirname(os.path.realpath(__file__))
sys.path.insert(0, os.path.dirname(HERE))

import chance_models  # noqa: E402
from asking import TOP, find_program  # noqa: E402

MARK = "Minimize\nSubject To\nc1: 0.2 <= x <= 0.8\nGeneral\nx\nEnd\n"
UNDO = "Minimize\nobj: x\nSubject To\nR1: x >= 1\nEnd\n"
FALSE = "iisan report 2\ncommand check\nfeasible\npoint\nend\nreport end\n"
MIXED = """ROWS
 N cost
 G a
 L b
 E c
COLUMNS
 x cost 2 a 1
 x b 1 c 1
 y cost 3 a 1
 y b 2 c -1
RHS
 a 4 b 6
 c 1
BOUNDS
 UP bnd x 3
 UP bnd y -5
ENDATA
"""
EVERY = """# every command, and most answers
check; set column y lower 0; set column y upper 5; check; unbounded; reduce; set row b upper 5; check; iis deletion; iis additive
iis sensitivity; iis elastic; iis alternative; weight row a 2; relax; weight row a rigid; weight row b rigid; weight row c rigid
relax; mark x whole; check; unbounded; relax; budget pivots 0; check; budget pivots 100; budget nodes 0; drop row b; keep row c
check; mark x plain; set row a upper none; drop lower x; undo; unbounded; drop row z
""".replace("; ", "\n")
ASKED = "check", "unbounded", "relax", "iis deletion", "iis additive", "iis sensitivity", "iis alternative", "iis elastic"


def example(name):
    with open(f"{TOP}/examples/{name}", encoding="utf-8") as it:
        return it.read()


def cases():
    """The name of a run, its words, its files, and whether quick runs are made."""
    two_sets, plan = example("two_sets.lp"), example("production.lp")
    yield "two sets", "analyse m.lp s", {"m.lp": two_sets, "s": "iis deletion\niis additive\n"}, False
    yield "a mark", "analyse m.lp s", {"m.lp": MARK, "s": "iis deletion\n"}, False
    yield "undo", "analyse m.lp s", {"m.lp": UNDO, "s": "set column x upper 2\ndrop row R1\nundo\nundo\nundo\ncheck\n"}, False
    yield "a plan", "analyse m.lp s", {"m.lp": plan, "s": "iis deletion\n"}, False
    yield "every command", "analyse m.mps s", {"m.mps": MIXED, "s": EVERY}, False
    yield "a refused model", "analyse m.lp s", {"m.lp": UNDO.replace("End", "e"), "s": "check\n"}, False
    yield "a refused script", "analyse m.lp s", {"m.lp": UNDO, "s": "check\niis fast\n"}, False
    yield "a refused report", "verify m.lp s", {"m.lp": UNDO, "s": FALSE.replace("end\n", "")}, False
    yield "a false report", "verify m.lp s", {"m.lp": UNDO, "s": FALSE}, False
    yield "a plan to order", "make 3", {}, False
    yield "no such form", "make 03", {}, False
    model = chance_models.transport(random.Random("faults 1"))
    for command in ASKED:
        yield f"quick {command}", "analyse m.lp s", {"m.lp": model.lp(), "s": f"{command}\n"}, True


class Sweep:
    """A run whose calls fail: `ends` counts how it ended, `wrong` tells of each end that is not right."""

    def __init__(self, program, shim, words, is_quick, options):
        self.program, self.shim, self.words, self.is_quick, self.options = program, shim, words.split(" "), is_quick, options
        self.ends, self.wrong = Counter(), []
        self.own = self.run(self.words)
        # What is written at once: the head of a report, each entry and its end; any other text is one piece.
        self.pieces = re.split(rb"(?m)^(?=command |report end$)", self.own[1])

    def run(self, words, **faults):
        """The status, what is written, and what stands on standard error."""
        told = {f"FAULT_{name.upper()}": str(number) for name, number in faults.items() if number}
        how = {"stdin": subprocess.DEVNULL, "capture_output": True, "timeout": 60, "check": False}
        ran = subprocess.run([self.program, *words], env={"LD_PRELOAD": self.shim, **told} if faults else None, **how)
        return ran.returncode, ran.stdout, ran.stderr

    def calls(self, **faults):
        """How many allocations, reads and writes are made."""
        return map(int, self.run(self.words, counts=1, **faults)[2].split())

    def checked(self, report):
        with open("again", "wb") as it:
            it.write(report)
        return self.run(["verify", self.words[1], "again"])

    def tries(self, kind, count, **faults):
        """Makes each call fail, or each K-th: its number, and what comes."""
        every = min(self.options.every, max(1, count))
        for number in range(every, count + 1, every):
            yield number, self.run(self.words, **{kind: number}, **faults)

    def add(self, name, number, ran, is_right):
        end = "own" if ran == self.own else f"status {ran[0]}"
        self.ends[f"{name} {end}"] += 1
        if not is_right or ran[2]:
            self.wrong.append(f"{' '.join(self.words)}: {name} {number}: status {ran[0]} {ran[1][-300:]} {ran[2][:300]}")

    def allocations(self):
        fronts = [b"".join(self.pieces[:count]) for count in range(len(self.pieces))]
        own = self.checked(self.own[1]) if self.is_quick else None
        count, _, _ = self.calls()
        for number, ran in self.tries("memory", count, lasting=int(self.options.lasting)):
            is_right = ran == self.own or (ran[0] == 7 and ran[1] in fronts)
            self.add("allocation", number, ran, is_right or (self.is_quick and ran[0] in (0, 1) and self.checked(ran[1]) == own))

    def reads(self, name, **faults):
        files = [it.encode() for it in ("model", {"analyse": "script", "verify": "report"}.get(self.words[0], ""))]
        _, count, _ = self.calls(**faults)
        for number, ran in self.tries("read", count, **faults):
            said = b"read fault %s\n"
            files = files[-1:] if ran[1] == said % files[-1] else files
            self.add(name, number, ran, (ran[0], ran[1]) == (3, said % files[0]))

    def writes(self, name, pieces, **faults):
        """Where a write fails, all pieces before it are written, and so many bytes of its own."""
        status = max(self.own[0], 4 if self.own[0] < 2 else 0)
        _, _, count = self.calls(**faults)
        self.wrong += [f"{' '.join(self.words)}: {count} writes of {len(pieces)}"] if count != len(pieces) else []
        for taken in (0,) if faults else (0, 1, -1):
            for number, ran in self.tries("write", count, taken=taken, **faults):
                piece = pieces[number - 1]
                written = b"".join(pieces[: number - 1]) + (piece if taken < 0 else piece[:taken])
                self.add(f"{name} after {('all', 'no', 'one')[taken + 1]}", number, ran, ran[:2] == (status, written))

    def whole(self):
        """Makes all calls fail, each in its turn."""
        self.allocations()
        self.reads("read")
        self.writes("write", self.pieces)

    def by_bytes(self):
        """The same where each read and each write takes one byte."""
        ran = self.run(self.words, crumbs=1)
        self.add("all by bytes", "", ran, ran == self.own)
        self.reads("read of a byte", crumbs=1)
        self.writes("write of a byte", [bytes([it]) for it in self.own[1]], crumbs=1)


def sweeps(program, shim, options):
    """A name and a sweep, which is made, for each run, and for the check of what it writes where that is a report."""
    for name, words, files, is_quick in (case for case in cases() if options.only in case[0]):
        for file, text in files.items():
            with open(file, "w", encoding="utf-8") as it:
                it.write(text)
        found = [(name, Sweep(program, shim, words, is_quick, options))]
        report = found[0][1].own[1]
        if report.endswith(b"report end\n"):
            with open("own", "wb") as it:
                it.write(report)
            found.append((f"{name}, checked", Sweep(program, shim, f"verify {words.split(' ')[1]} own", False, options)))
        for its_name, sweep in found:
            sweep.whole()
            if not is_quick:
                sweep.by_bytes()
            yield its_name, sweep


def main():
    parser = argparse.ArgumentParser(usage=__doc__.split("\n", maxsplit=1)[0])
    parser.add_argument("--every", type=int, default=1)
    parser.add_argument("--lasting", action="store_true")
    parser.add_argument("--only", default="")
    parser.add_argument("program", nargs="?")
    options = parser.parse_args()
    program, ends, wrong = os.path.abspath(options.program or find_program()), Counter(), []
    with tempfile.TemporaryDirectory(prefix="iisan-faults-") as folder:
        shim = f"{folder}/faults.so"
        subprocess.run(["gcc", "-O1", "-Wall", "-Wextra", "-shared", "-fPIC", "-o", shim, f"{HERE}/faults.c"], check=True)
        os.chdir(folder)
        for name, sweep in sweeps(program, shim, options):
            told = ", ".join(f"{end} {count}" for end, count in sweep.ends.items())
            print(f"{name}: status {sweep.own[0]}: {told}; wrong {len(sweep.wrong)}", flush=True)
            ends, wrong = ends + sweep.ends, wrong + sweep.wrong
        os.chdir("/")
    print("\n".join(["all: " + ", ".join(f"{end} {count}" for end, count in ends.items()), *wrong]))
    print(f"{sum(ends.values())} tried, {len(wrong)} wrong")
    return 1 if wrong or not ends else 0


if __name__ == "__main__":
    sys.exit(main())
