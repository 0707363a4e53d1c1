"""Asks the program about a model and reads what it answers, for the tools that speak to people.

Every report is handed to `verify` before anything of it is believed. A report that is not accepted is no answer.
"""

import io
import os
import subprocess
import sys
import tempfile
import time
from dataclasses import dataclass, field
from fractions import Fraction
from typing import Optional

TOP = os.path.dirname(os.path.dirname(os.path.realpath(__file__)))
# A check is short beside the search; it has this time beside that of the answer.
CHECK_SECONDS = 600.0
KEPT_WITNESSES = 50
STOPS = ("too wide", "pivots spent", "nodes spent", "too large", "not linear")


class Refused(Exception):
    """The model or the script is refused, or a file cannot be read: the program's line."""


class NotBelieved(Exception):
    """There is no program, it fails, or its report is not accepted by the check."""


class OutOfTime(Exception):
    """The time that was given is over."""


@dataclass
class Answer:
    """What a report says to one command: the word, members with their witnesses, the uses of each leaf, points by column."""

    command: str
    word: str = ""
    members: list[str] = field(default_factory=list)
    witnesses: list[dict[str, Fraction]] = field(default_factory=list)
    leaves: list[dict[str, Fraction]] = field(default_factory=list)
    point: dict[str, Fraction] = field(default_factory=dict)
    total: Optional[Fraction] = None

    def stop(self) -> Optional[str]:
        """The stop that this is, in words without numbers and names, or None."""
        return next((it for it in STOPS if self.word.startswith(it)), None)


def read_report(text: str) -> list[Answer]:
    """The answers of a report, in order; of the witnesses of an answer the first ones are kept."""
    answers: list[Answer] = []
    values: dict[str, Fraction] = {}
    uses: dict[str, Fraction] = {}
    for line in io.StringIO(text):
        word, _, rest = line.rstrip("\n").partition(" ")
        answer = answers[-1] if answers else None
        if word == "command":
            answers.append(Answer(rest))
        elif answer and not answer.word:
            answer.word = line.rstrip("\n")
        elif not answer:
            continue
        elif word == "member":
            answer.members.append(rest)
        elif word == "point":
            values = {}
            if not answer.members:
                answer.point = values
            elif len(answer.members) <= KEPT_WITNESSES:
                answer.witnesses.append(values)
        elif word in ("ray", "price"):
            values = {}
        elif word in ("leaf", "dual"):
            uses = {}
            answer.leaves.append(uses)
        elif word == "value" and len(answer.members) <= KEPT_WITNESSES:
            name, number = rest.split(" ")
            values[name] = Fraction(number)
        elif word == "use":
            source, _, number = rest.rpartition(" ")
            uses[source] = Fraction(number)
        elif word == "total":
            answer.total = Fraction(rest)
    return answers


def is_fresh(place: str) -> bool:
    """Whether a program stands in its place, and none of the files that it was made from is newer."""
    if not os.path.isfile(f"{place}/iisan") or not os.path.isfile(f"{place}/parts"):
        return False
    made = os.path.getmtime(f"{place}/parts")
    with open(f"{place}/parts", encoding="utf-8") as lines:
        parts = [f"{TOP}/{line.strip()}" for line in lines]
    found = [file for part in parts for at, _, names in os.walk(part) for file in (at, *(f"{at}/{it}" for it in names))]
    return all(map(os.path.exists, parts)) and all(os.path.getmtime(it) <= made for it in (*parts, *found))


def find_program() -> str:
    """The program: what IISAN names; else the one that ./iisan proved; else the one that nothing is proved of."""
    if os.environ.get("IISAN"):
        return os.path.abspath(os.environ["IISAN"])
    if is_fresh(f"{TOP}/.build"):
        return f"{TOP}/.build/iisan"
    place = f"{TOP}/.build/try"
    if not is_fresh(place):
        made = subprocess.run([sys.executable, f"{TOP}/tools/try_build.py", place, "iisan"], check=False)
        if made.returncode:
            raise NotBelieved("there is no program to ask")
    print("iis: by a program that is not proved; ./iisan proves and builds it, in about half an hour, once", file=sys.stderr)
    return f"{place}/iisan"


class Desk:
    """A folder with the model, the program that is asked about it there, and the time until which it may answer."""

    def __init__(self, model: bytes, is_lp: bool, seconds: float):
        self.program = find_program()
        self.folder = tempfile.TemporaryDirectory(prefix="iis-")
        self.name = "model.lp" if is_lp else "model.mps"
        self.until = time.monotonic() + seconds
        self.write(self.name, model)

    def write(self, name: str, data: bytes) -> None:
        with open(f"{self.folder.name}/{name}", "wb") as out:
            out.write(data)

    def run(self, words: list[str], seconds: float) -> tuple[int, bytes]:
        """The status and what is written within these seconds."""
        if seconds <= 0:
            raise OutOfTime
        how = {"cwd": self.folder.name, "stdin": subprocess.DEVNULL, "capture_output": True, "timeout": seconds}
        try:
            ran = subprocess.run([self.program, *words], check=False, **how)
        except subprocess.TimeoutExpired:
            raise OutOfTime from None
        except OSError as error:
            raise NotBelieved(f"{self.program} does not run: {error.strerror}") from None
        return ran.returncode, ran.stdout

    def ask(self, lines: list[str], share: float = 1.0) -> list[Answer]:
        """The answers to a script within a share of the time that is left, once `verify` has accepted its report."""
        self.write("script", "".join(f"{line}\n" for line in lines).encode())
        status, report = self.run(["analyse", self.name, "script"], (self.until - time.monotonic()) * share)
        said = report.decode("latin-1")
        if status in (3, 5, 6):
            raise Refused(said.strip())
        if status not in (0, 1):
            raise NotBelieved(f"the program ended with status {status}")
        self.write("report", report)
        status, verdict = self.run(["verify", self.name, "report"], CHECK_SECONDS)
        if status not in (0, 1) or not verdict.startswith(b"accepted "):
            raise NotBelieved(f"the check does not accept the report: {verdict.decode('latin-1').strip()}")
        return read_report(said)
