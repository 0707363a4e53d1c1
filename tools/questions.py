"""A question put to the program about a model: with marks left plain first, by one method after another, within a time."""

import os
from dataclasses import replace
from typing import Optional

from asking import Answer, Desk, NotBelieved, OutOfTime, Refused
from contradictions import Contradiction
from model_texts import Model, is_lp_file, read_bytes, read_model
from yielding import Yielding, rigid_bounds

METHODS = ("deletion", "additive", "sensitivity", "elastic", "alternative")
# Without marks the least set by weight first, and then what comes to an end more often; with marks what splits least.
WITHOUT_MARKS = ("alternative", "deletion", "additive")
WITH_MARKS = ("additive", "sensitivity")
# A script has at most 10,000 commands.
MOST_DROPS = 9000


class Question:
    """What is asked of a model: its file, the edits to make first, and the desk at which the program answers."""

    def __init__(self, path: str, edits: list[str], seconds: float, method: Optional[str] = None):
        self.method = method
        self.name = "standard input" if path == "-" else os.path.basename(path)
        data = read_bytes(path)
        is_lp = is_lp_file(path, data)
        self.desk = Desk(data, is_lp, seconds)
        self.edits = edits
        self.stops: list[tuple[str, str]] = []
        try:
            unknown = next((it for it in self.desk.ask(self.edits) if it.word == "unknown name"), None)
        except Refused as error:
            raise Refused(explained(str(error), data)) from None
        if unknown:
            raise Refused(f"unknown name: {unknown.command}")
        try:
            self.model: Model = read_model(data, is_lp)
            for line in self.edits:
                self.model.edit(line)
        except (ValueError, KeyError, IndexError) as error:
            raise NotBelieved(f"the model is not read here as the program reads it: {error!r}") from None
        self.plain = [f"mark {name} plain" for name in self.model.marks()]

    def ask_last(self, lines: list[str], what: str, share: float = 1.0) -> Optional[Answer]:
        """The answer to the last line, or None where it is a stop, which is kept."""
        try:
            answer = self.desk.ask([*self.edits, *lines], share)[-1]
        except OutOfTime:
            self.stops.append((what, "no time"))
            return None
        if answer.stop():
            self.stops.append((what, answer.stop() or ""))
            return None
        return answer

    def first_answer(self, before: list[str], commands: list[str], later: int) -> Optional[Answer]:
        """The first of the commands' answers that is no stop; each, and what comes later, has an equal part of the time."""
        for at, command in enumerate(commands):
            answer = self.ask_last([*before, command], command, 1 / (len(commands) - at + later))
            if answer:
                return answer
        return None

    def answer(self) -> tuple[Optional[Answer], bool]:
        """What shows whether the model can be met, and whether whole values have no part in it."""
        answer, is_aside = self.ask_round()
        if answer is None and not self.method:
            answer, is_aside = self.relaxed(), True
        return answer and self.narrowed(answer), is_aside

    def narrowed(self, answer: Answer) -> Answer:
        """Where not each member of a contradiction may be needed: an irreducible set among them, if one is found."""
        among = set(answer.members)
        drops = [f"drop {it}" for it in self.model.members() if it not in among]
        if not among or answer.word == "irreducible" or len(drops) > MOST_DROPS:
            return answer
        found = self.ask_last([*drops, "iis deletion"], "iis deletion among these", 0.25)
        return found if found and found.members else answer

    def relaxed(self) -> Optional[Answer]:
        """What `relax` shows of it: that nothing has to give way, or by its dual members that contradict one another."""
        given = self.yielding()
        if not given or given.contradiction:
            return given.answer if given else None
        if given.misses:
            return replace(given.answer, members=list(given.answer.leaves[0]))
        return None if self.plain else given.answer

    def ask_round(self) -> tuple[Optional[Answer], bool]:
        """The answer with marks plain, and where these have a part in it the one with them."""
        methods = [self.method] if self.method else None
        commands = [f"iis {it}" for it in methods or WITHOUT_MARKS] + ([] if methods else ["check"])
        answer = self.first_answer(self.plain, commands, 2 if self.plain else 0)
        if not self.plain or answer and answer.members:
            return answer, True
        self.stops = [(f"{what}, whole numbers aside", stop) for what, stop in self.stops]
        commands = [f"iis {it}" for it in methods or WITH_MARKS]
        return self.first_answer([], [*commands, "check"], 0), False

    def contradiction(self, answer: Answer) -> Optional[Contradiction]:
        """The contradiction that an answer shows, if it does."""
        return Contradiction(self.model, answer, answer.word == "irreducible") if answer.members else None

    def yielding(self) -> Optional[Yielding]:
        """Who gives way, rows soft and bounds rigid where the script does not say otherwise, marks plain; None at a stop."""
        given = [line for line in self.edits if line.startswith("weight ")]
        lines = [*rigid_bounds(self.model), *given, *self.plain, "relax"]
        answer = self.ask_last(lines, "relax")
        return Yielding(self.model, answer, given) if answer else None


def read_script(path: Optional[str]) -> list[str]:
    """The lines of a script that edit, weigh or set budgets, to be put before each question; its own questions go."""
    if path is None:
        return []
    with open(path, encoding="latin-1") as it:
        lines = [line.strip() for line in it if line.strip() and not line.startswith("#")]
    if "undo" in lines:
        raise Refused(f"{path}: `undo` is not taken here")
    return [line for line in lines if line.split()[0] not in ("check", "iis", "relax", "unbounded", "reduce")]


def explained(refusal: str, data: bytes) -> str:
    """A refusal with the line of the model that it names."""
    words = refusal.split(" ")
    if words[:3] != ["model", "refused", "line"]:
        return refusal
    lines = data.decode("latin-1").split("\n")
    at = int(words[3])
    return f"{refusal}\n  {at}: {lines[at - 1].strip()[:120] if at <= len(lines) else ''}"
