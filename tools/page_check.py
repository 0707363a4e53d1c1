#!/usr/bin/env python3
"""Tries the pages of reports: `tools/page_check.py [PROGRAM..]`

Each `verify` of examples/runs.txt is made as a page. Where the report is accepted, the page is parsed by the standard
library's HTML parser: every tag is closed in its turn, no id stands twice, there is no script and no style sheet but the
head's, and nothing is loaded from elsewhere; the members that stand on it are those of the report and of its duals, in its
order (those that only ask that a column is not negative behind the others, and both sides of an equation as one), under
their own names, each taken as often as there; and where examples/ has the page of the report (NAME.html for NAME.report), it
is that page byte by byte, under another model's name where examples/runs.txt has the report for two. Where it is refused, the
line and the status are those of `verify`. Then come a model whose names are markup, a report of 401 members of which 399 are
a family, and one with both sides of an equation. Without words the program is the one that ./iisan-page proves and builds.
The last line is 'N pages passed, M failed', and the status 1 where some page is not as it is to be.
"""

import os
import subprocess
import sys
import tempfile
from html.parser import HTMLParser

TOP = os.path.dirname(os.path.dirname(os.path.realpath(__file__)))
EXAMPLES = f"{TOP}/examples"
VOID = {"meta", "br"}
ASKED = {
    "rowlo": " needs at least ",
    "rowup": " allows at most ",
    "lower": " is at least ",
    "upper": " is at most ",
    "whole": " has to be whole",
}
EXACTLY = " has to be exactly "
# What the pages of some made cases have on them.
PARTS = {
    "401 members": """
<details open>
<summary>Requirements: 401</summary>
<ol>
<li><details>
<summary>r…: 399 requirements</summary>
<ol>
<li><b>r1 needs""",
    "an equation": """
<li><b>e has to be exactly 3</b>
<code>x + y = 3</code>
<span class=alone>alone: down to 1</span>
<span class=times>taken 1/2 (0.5) times</span>
<span class=alone>alone: up to 5</span>
<span class=times>taken 1/2 (0.5) times</span></li>
""",
}


class Page(HTMLParser):
    """What is wrong with a page, and the titles of the members that stand on it."""

    def __init__(self):
        super().__init__(convert_charrefs=True)
        self.open, self.ids, self.faults, self.titles = [], set(), [], []
        self.not_negative, self.in_signs, self.times, self.in_times = [], False, [], False

    def handle_starttag(self, tag, attrs):
        for name, value in attrs:
            if name == "id" and value in self.ids:
                self.faults.append(f"id {value} twice")
            if name == "id":
                self.ids.add(value)
            if name in ("src", "onload", "onclick") or (name == "href" and not value.startswith("#")):
                self.faults.append(f"{tag} has {name}")
        if tag in ("script", "link", "img", "iframe") or (tag == "style" and "head" not in self.open):
            self.faults.append(f"a tag {tag}")
        if tag == "li":
            self.in_signs = ("class", "signs") in attrs
        if tag == "span":
            self.in_times = ("class", "times") in attrs
            self.times += [""] * self.in_times
        if tag == "b":
            self.titles.append("")
        if tag == "code" and self.in_signs:
            self.not_negative.append("")
        if tag not in VOID:
            self.open.append(tag)

    def handle_endtag(self, tag):
        if not self.open or self.open.pop() != tag:
            self.faults.append(f"{tag} is closed out of turn")

    def handle_data(self, data):
        if self.open[-1:] == ["b"]:
            self.titles[-1] += data
        if self.open[-1:] == ["span"] and self.in_times:
            self.times[-1] += data
        if self.open[-1:] == ["code"] and self.in_signs:
            self.not_negative[-1] += data


def members_of(report):
    """The kind, the name and how often it is taken, if it is, of each member that is to stand on the page of a report, by its
    commands: those listed, with the shares of a proof without cases, and those that a dual uses."""
    for entry in report.decode().split("\ncommand ")[1:]:
        lines = [line.split(" ") for line in entry.splitlines()]
        is_one = sum(words == ["leaf"] for words in lines) == 1
        used = [words[1:] for words in lines if words[0] == "use"]
        listed = [words[1:3] for words in lines if words[0] in ("member", "enforced")]
        taken = {(kind, name): weight for kind, name, weight in used if is_one}
        yield [[*it, taken.get(tuple(it))] for it in listed] + used * (["dual"] in lines)


def faults_of(page, report):
    """What is wrong with the page of a report."""
    if not page.startswith(b"<!doctype html>\n"):
        return ["no page"]
    found = Page()
    found.feed(page.decode())
    found.close()
    taken = []
    for members in members_of(report):
        last, equations = [], set()
        for kind, name, weight in members:
            title = found.titles[0] if found.titles else ""
            if kind == "lower" and found.not_negative[:1] == [name] and not title.startswith(name + ASKED[kind]):
                found.not_negative.pop(0)
                last += [weight] * (weight not in (None, "1"))
                continue
            if kind == "rowup" and name in equations:
                equations.remove(name)
            elif kind == "rowlo" and title.startswith(name + EXACTLY):
                equations.add(name)
                found.titles.pop(0)
            elif title.startswith(name + ASKED[kind]):
                found.titles.pop(0)
            else:
                found.faults.append(f"no member {kind} {name} in its turn")
            taken += [weight] * (weight is not None)
        taken += last
        found.faults += [f"{name} is no equation" for name in equations]
    said = ["1" if times == "taken once" else times.split(" ")[1] for times in found.times]
    found.faults += ["other members than those of the report"] * bool(found.titles or found.not_negative)
    found.faults += ["members are taken otherwise than in the report"] * (said != taken)
    return found.faults + [f"{tag} is not closed" for tag in found.open]


def read(path):
    with open(path, "rb") as it:
        return it.read()


def example_cases():
    """The checks of the examples: a name, the model's name, both files, the status, and the page or the line, if known."""
    first_models = {}
    with open(f"{EXAMPLES}/runs.txt", encoding="utf-8") as lines:
        for line in lines:
            words, _, expected = line.strip().partition(" => ")
            if not words.startswith("verify "):
                continue
            _, model, report = words.split()
            status, _, said = expected.partition(" ")
            page = f"{EXAMPLES}/{report.removesuffix('.report')}.html"
            known = f"{said}\n".encode() if int(status) > 1 else read(page) if os.path.isfile(page) else None
            if known:
                first = first_models.setdefault(report, model)
                known = known.replace(f"Model: <code>{first}<".encode(), f"Model: <code>{model}<".encode())
            yield words, model, read(f"{EXAMPLES}/{model}"), read(f"{EXAMPLES}/{report}"), int(status), known


def report_of(members, uses):
    """A report that these members cannot all be met, by a proof without cases."""
    lines = ["iisan report 2", "command check", "infeasible", *[f"member {it}" for it in members], "proof", "leaf"]
    return "\n".join([*lines, *[f"use {it}" for it in uses], "end", "report end", ""]).encode()


def made_cases():
    """A model whose names are markup; a chain of 401 members of which the last contradicts the others; and an equation, both
    sides of which are taken beside a contradiction."""
    data = f"{TOP}/crates/iisan_page"
    yield "names of markup", "m.mps", read(f"{data}/data/m.mps"), read(f"{data}/data/r.txt"), 0, read(f"{data}/stdout")
    rows = [f" r{i}: x{i} - x{i - 1} >= 1" for i in range(1, 400)]
    model = "\n".join(["Minimize", " cost: x0", "Subject To", *rows, "Bounds", " x399 <= 398", "End", ""])
    members = [f"rowlo r{i}" for i in range(1, 400)] + ["lower x0", "upper x399"]
    yield "401 members", "chain.lp", model.encode(), report_of(members, [f"{it} 1" for it in members]), 0, None
    model = "Minimize\n cost: x\nSubject To\n a: x >= 2\n e: x + y = 3\nBounds\n x <= 1\nEnd\n"
    members = {"rowlo a": "1", "rowlo e": "1/2", "rowup e": "1/2", "upper x": "1"}
    report = report_of(members, [f"{member} {weight}" for member, weight in members.items()])
    yield "an equation", "equation.lp", model.encode(), report, 0, None


def run(program, model, model_text, report_text):
    """The status of a run over these files, and what it writes."""
    with tempfile.TemporaryDirectory(prefix="iisan-page-") as room:
        path = f"{room}/{model}"
        os.makedirs(os.path.dirname(path), exist_ok=True)
        for file, text in ((path, model_text), (f"{room}/a.report", report_text)):
            with open(file, "wb") as it:
                it.write(text)
        words = [program, model, "a.report"]
        ran = subprocess.run(words, cwd=room, stdin=subprocess.DEVNULL, capture_output=True, check=False)
        return ran.returncode, ran.stdout


def main(programs):
    if not programs:
        # Without words the program prints how it is used, once it is built.
        subprocess.run([f"{TOP}/iisan-page"], stdin=subprocess.DEVNULL, stdout=subprocess.DEVNULL, check=False)
        programs = [f"{TOP}/.build/page/iisan_page"]
    passed = failed = 0
    for program in map(os.path.abspath, programs):
        for name, model, model_text, report_text, status, known in [*example_cases(), *made_cases()]:
            ended, written = run(program, model, model_text, report_text)
            faults = [] if ended == status else [f"status {ended}"]
            faults += faults_of(written, report_text) if status < 2 else []
            faults += ["other bytes than are known"] if known not in (None, written) else []
            faults += [] if PARTS.get(name, "") in written.decode() else ["other items than are known"]
            passed, failed = passed + (not faults), failed + bool(faults)
            if faults:
                print(f"{program}: not as it is to be: {name}: {'; '.join(faults)}")
    print(f"{passed} pages passed, {failed} failed")
    return 1 if failed else 0


if __name__ == "__main__":
    sys.exit(main(sys.argv[1:]))
