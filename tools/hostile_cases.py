"""Hostile use, table by table: cuts, fetches, puts, lines, names, literals, LP, reports, deep proof, scripts, edits

`cases()` gives each case as its name, which begins with that of its table, the words of a run, the files by name, the status, and
what is written; `puts()` in place of this how the shell takes the standard output away. What other tests have of these tables is not
repeated: lines and names stand in tools/limit_cases.py; `[` in a comment and `- >` of LP in tests/lp_cases.txt; reports and scripts in
tests/cases.txt; the row of edits that are taken back in tests/rows.txt; and the runs in which a fetch or a put is made to fail
in crates/run_rows/data/rows.txt.

Of a model that is cut, what its slow reader answers is expected. Of a report that is cut, it is this: a line is whole where its
line feed is there, and what stands behind the last whole line is not looked at. The whole lines of a front of a right report are
right, and the front ends too soon as long as a byte is missing, be it the last line feed.
"""

import slow_lp_reader
import slow_mps_reader
from reader_cases import reading

SLOW = {"m.mps": slow_mps_reader.answer, "m.lp": slow_lp_reader.answer}
WIDEST = 2**127 - 1
MODELS = {
    "the widest literal": {
        "m.mps": "NAME T\nROWS\n N COST\n L R1\nCOLUMNS\n"
        f" X R1 {WIDEST}\nRHS\n RHS R1 1\nBOUNDS\n UP BND X 1e30\nENDATA\n",
        "m.lp": f"Minimize\nCOST:\nSubject To\nR1: {WIDEST} X <= 1\nBounds\nX <= 1e30\nEnd\n",
    },
    "a negative range": {
        "m.mps": "ROWS\n E R\nCOLUMNS\n X R 1\nRHS\n R 4\nRANGES\n R -3\nENDATA\n",
        "m.lp": "Minimize\nSubject To\nR: 1 <= X <= 4\nEnd\n",
    },
    "a production plan": {
        "m.mps": "ROWS\n N cost\n E b1\n E b2\n E b3\nCOLUMNS\n s1 cost 1 b1 -1\n s1 b2 1\n s2 cost 1 b2 -1\n s2 b3 1\n"
        " s3 cost 1 b3 -1\n p1 b1 1\n p2 b2 1\n p3 b3 1\nRHS\n RHS b1 8 b2 12\n RHS b3 13\n"
        "BOUNDS\n UP BND p1 10\n UP BND p2 10\n UP BND p3 10\nENDATA\n",
        "m.lp": "Minimize\n cost: s1 + s2 + s3\nSubject To\n b1: p1 - s1 = 8\n b2: s1 + p2 - s2 = 12\n b3: s2 + p3 - s3 = 13\n"
        "Bounds\n p1 <= 10\n p2 <= 10\n p3 <= 10\nEnd\n",
    },
}
TWO_SETS = "Minimize\nSubject To\nA: x <= 0\nB: x >= 1\nC: x <= 0\nEnd\n"
REPORT = """iisan report 2
command iis deletion
irreducible
member rowlo B
point
member rowup C
point
value x 1
proof
leaf
use rowlo B 1
use rowup C 1
end
command iis additive
irreducible
member rowup A
point
value x 1
member rowlo B
point
proof
leaf
use rowup A 1
use rowlo B 1
end
report end
"""

# A literal as a factor, at line 4, and as a bound; and how a model is told that is read.
FACTOR = {"m.mps": "ROWS\n G r\nCOLUMNS\n x r {}\nENDATA\n", "m.lp": "Minimize\nSubject To\nr:\n{} x >= 0\nEnd\n"}
UPPER = {
    "m.mps": "ROWS\n G r\nCOLUMNS\n x r 1\nBOUNDS\n UP B x {}\nENDATA\n",
    "m.lp": "Minimize\nSubject To\nr: x >= 0\nBounds\nx <= {}\nEnd\n",
}
LOWER = {
    "m.mps": "ROWS\n G r\nCOLUMNS\n x r 1\nBOUNDS\n LO B x {}\nENDATA\n",
    "m.lp": "Minimize\nSubject To\nr: x >= 0\nBounds\nx >= {}\nEnd\n",
}
TOLD = "max false row [114] 0/1 none{} objective column [120] {} none false"
LITERALS = [
    ("factor", FACTOR, "1e99999999999999999999", "line 4: number wide"),
    ("factor", FACTOR, "0e99999999999999999999", TOLD.format("", "0/1")),
    ("factor", FACTOR, ".", "line 4: bad number"),
    ("factor", FACTOR, "1e-38", TOLD.format(f" 0*1/{10**38}", "0/1")),
    ("factor", FACTOR, "1e-39", "line 4: number wide"),
    ("upper bound", UPPER, "1e99999999999999999999", TOLD.format(" 0*1/1", "0/1")),
    ("lower bound", LOWER, "-1e20", TOLD.format(" 0*1/1", "none")),
]
CORNERS = [
    ("bytes that end inside a comment", "Minimize\nSubject To\n\\ r: x >= 1 [", "line 3: truncated"),
    ("bytes that end behind a comment", "Minimize\nSubject To\n\\ r: x >= 1 [\n", "line 3: truncated"),
    ("bytes that end inside a comment behind a row", "Minimize\nSubject To\nr: x >= 1 \\ End", "line 3: truncated"),
]


def cuts():
    """Three models, in both formats, and a report, after every byte. The line feed at the end of a model may be missing."""
    for of, texts in MODELS.items():
        for name, text in texts.items():
            whole = text.encode()
            for count in range(len(whole) + 1):
                told = SLOW[name](whole[:count] if count < len(whole) - 1 else whole)
                yield f"cuts: {of}, {name} after {count} bytes", *reading(name, whole[:count], told)
    for count in range(len(REPORT) + 1):
        ended = (6, "report refused truncated\n") if count < len(REPORT) else (0, "accepted settled 2 unsettled 0\n")
        yield f"cuts: a report after {count} bytes", ["verify", "m.lp", "r"], {"m.lp": TWO_SETS, "r": REPORT[:count]}, *ended


def fetches():
    """The first file of a run and the second: it is missing, or a folder stands in its place."""
    for verb, second, text in (("analyse", "script", "check\n"), ("verify", "report", REPORT)):
        for name, word in (("m.lp", "model"), ("s", second)):
            files = {"m.lp": TWO_SETS, "s": text}
            del files[name]
            for kind, others in (("missing", {}), ("a folder", {f"{name}/file": ""})):
                case = f"fetches: {verb}, the {word} is {kind}"
                yield case, [verb, "m.lp", "s"], {**files, **others}, 3, f"read fault {word}\n"


def literals():
    for of, texts, literal, told in LITERALS:
        for name, text in texts.items():
            yield f"literals: {literal} as {of}, {name}", *reading(name, text.format(literal).encode(), told)


def deep_proofs():
    """A proof of 200,000 splits at a column with a mark; behind them stands `end` in place of a node, or nothing."""
    model = "Minimize\nSubject To\nr: x <= 1\nGeneral\nx\nEnd\n"
    lines = ["iisan report 2", "command check", "infeasible", "member whole x", "proof", *["split x 0"] * 200_000, "end"]
    for kind, text, told in (("ended", lines, f"line {len(lines)}"), ("cut", lines[:-1], "truncated")):
        report = "".join(f"{line}\n" for line in text)
        yield f"deep proof: {kind}", ["verify", "m.lp", "r"], {"m.lp": model, "r": report}, 6, f"report refused {told}\n"


def chains():
    """A proof that is a chain of 20,000 splits: its leaves are the lower children, or the upper ones; and the last leaf is wrong."""
    count = 20_000
    model = f"Minimize\n cost: 0 x\nSubject To\n odd: 2 x = {2 * count + 1}\nBounds\n x free\nGeneral\n x\nEnd\n"
    below, above = (["leaf", f"use {side} odd 1", f"use {use} x 2"] for side, use in (("rowlo", "below"), ("rowup", "above")))
    by_lower = [line for k in range(count + 1) for line in (f"split x {k}", *below)] + above
    by_upper = [f"split x {2 * count - k}" for k in range(count + 1)] + below + above * (count + 1)
    head = ["iisan report 2", "command check", "infeasible", "member rowlo odd", "member rowup odd", "member whole x", "proof"]
    for kind, nodes in (("lower", by_lower), ("upper", by_upper)):
        for last, told in (("2", (0, "accepted settled 1 unsettled 0\n")), ("1", (8, f"rejected line {len(head + nodes) - 2}\n"))):
            report = "".join(f"{line}\n" for line in [*head, *nodes[:-1], f"use above x {last}", "end", "report end"])
            yield f"deep proof: {kind} leaves, the last use {last}", ["verify", "m.lp", "r"], {"m.lp": model, "r": report}, *told


def cases():
    yield from cuts()
    yield from fetches()
    yield from literals()
    yield from ((f"LP: {name}", *reading("m.lp", text.encode(), told)) for name, text, told in CORNERS)
    yield from deep_proofs()
    yield from chains()


def puts():
    """Runs of which nothing can be written: 4 where it is an answer or `accepted`; a refusal keeps its status."""
    analyse, verify, model = ["analyse", "m.lp", "s"], ["verify", "m.lp", "s"], {"m.lp": TWO_SETS}
    runs = [
        ("a settled report", analyse, {**model, "s": "iis deletion\niis additive\n"}, 4),
        ("an unsettled report", analyse, {**model, "s": "undo\n"}, 4),
        ("an accepted report", verify, {**model, "s": REPORT}, 4),
        ("a plan", ["make", "3"], {}, 4),
        ("no words", [], {}, 2),
        ("a missing model", analyse, {"s": ""}, 3),
        ("a refused model", analyse, {"m.lp": "", "s": ""}, 5),
        ("a refused script", analyse, {**model, "s": "do it\n"}, 6),
        ("a refused report", verify, {**model, "s": ""}, 6),
        ("a rejected report", verify, {**model, "s": REPORT.replace("use rowup C 1", "use rowup C 2")}, 8),
    ]
    for kind, output in (("closed", ">&-"), ("full", ">/dev/full")):
        yield from ((f"puts: {name}, the output is {kind}", words, files, status, output) for name, words, files, status in runs)
