"""Models, scripts and files at each limit and one past it, with what is answered: `cases()`

Each is a name, the words of a run, the files by name, the status, and what is written.
"""

MOST_BYTES = 16_777_216
MOST_ENTRIES = 64_000_000
EMPTY = "iisan report 2\nreport end\n"
MODEL = "ROWS\n G r\nCOLUMNS\n x r 2\nRHS\n r 3\nENDATA\n"


def mps_models():
    """Texts in the MPS format, with the line and the kind of the first fault, or None."""
    head = "ROWS\n L R\nCOLUMNS\n"
    rows = lambda kind, count: "ROWS\n" + "".join(f" {kind} R{i}\n" for i in range(count)) + "COLUMNS\nENDATA\n"
    columns = lambda count: head + "".join(f" X{j} R 1\n" for j in range(count)) + "ENDATA\n"
    fifty = "ROWS\n N R0\n N R1\n" + "".join(f" L R{i}\n" for i in range(2, 50)) + "COLUMNS\n"
    entries = lambda count: fifty + "".join(f" X{k // 50} R{k % 50} {k % 3}\n" for k in range(count)) + "ENDATA\n"
    named = lambda length: f"ROWS\n L {'r' * length}\nCOLUMNS\nENDATA\n"
    line = lambda length: f"ROWS\n{'*' * length}\nCOLUMNS\nENDATA\n"
    yield "rows", rows("L", 20_000), rows("L", 20_001), (20_002, "limit")
    yield "rows without sides", rows("N", 10_000), rows("N", 10_001), (10_002, "limit")
    yield "columns", columns(40_000), columns(40_001), (40_004, "limit")
    yield "entries", entries(400_000), entries(400_001), (400_053, "limit")
    yield "a name", named(255), named(256), (2, "limit")
    yield "a line", line(65_536), line(65_537), (2, "long line")


def lp_models():
    """The same in the LP format."""
    labels = lambda count: "min\nst\n" + "".join(f"r{i}: x >= 1\n" for i in range(count)) + "end\n"
    rows = lambda count: "min\nst\n" + "x\n>= 1\n" * count + "end\n"
    columns = lambda count: "min\n" + "".join(f"+ x{j}\n" for j in range(count)) + "st\nend\n"
    terms = lambda objective: "min\n" + "+ x\n" * objective + "st\n" + ("+ x - y\n" * 500 + ">= 1\n") * 50 + "end\n"
    yield "labels", labels(20_000), labels(20_001), (20_003, "limit")
    yield "rows", rows(20_000), rows(20_001), (40_004, "limit")
    yield "columns", columns(40_000), columns(40_001), (40_002, "limit")
    yield "terms", terms(350_000), terms(350_001), (375_052, "limit")
    for name, begin, byte, end, most, fault in (
        ("a column", "min\n", "x", "\nst\nend\n", 255, (2, "limit")),
        ("an objective", "min\n", "x", ":\ny\nst\nend\n", 255, (2, "limit")),
        ("a label", "min\nst\n", "x", ":\ny >= 1\nend\n", 255, (3, "limit")),
        ("a comment", "min\n\\", "x", "\nst\nend\n", 65_535, (2, "long line")),
        ("blanks", "min\nst ", " ", "\nend\n", 65_533, (2, "long line")),
    ):
        yield name, begin + byte * most + end, begin + byte * (most + 1) + end, fault


def scripts():
    """Scripts, with the answers to their commands, or the line of the first fault."""
    check, undo = "command check\nfeasible\npoint\nvalue x 3/2\nend\n", "command undo\nnothing to undo\n"
    yield "a remark of foreign bytes", b"#\xff \0\ncheck", check
    yield "a line of 65536 bytes", b"check" + b" " * 65_531, check
    yield "a line of 65537 bytes", b"check" + b" " * 65_532, 1
    yield "a remark of 65536 bytes", b"#" * 65_536, ""
    yield "a remark of 65537 bytes", b"#" * 65_537, 1
    yield "65537 blanks", b" " * 65_537, 1
    for command, entry in ((b"check\n", check), (b"undo\n", undo)):
        yield f"10000 times {command.decode().strip()}", command * 10_000 + b"# end\n", entry * 10_000
        yield f"10001 times {command.decode().strip()}", command * 10_001 + b"# end\n", 10_001


def large(rows):
    """A model of so many rows of one of 4,000 columns each, most tables of which are too large: each row and bound may give way."""
    columns = 4_000
    text = "".join(f" r{i + 1}: x{i % columns + 1} >= 0\n" for i in range(rows))
    members, whole = rows + columns, rows * columns if rows * columns > MOST_ENTRIES else None
    sizes = {"unbounded": (rows + 1) * columns, "check": whole, "iis deletion": whole, "iis additive": whole, "iis sensitivity": whole}
    elastic = (members + 1) * (columns + members)
    sizes |= {"relax": elastic, "iis elastic": elastic, "iis alternative": (columns + 2) * members}
    answers = "".join(f"command {it}\n" + (f"too large {size}\nend\n" if size else "feasible\npoint\nend\n") for it, size in sizes.items())
    return f"Minimize\n obj: x1\nSubject To\n{text}End\n", "\n".join(sizes), f"iisan report 2\n{answers}report end\n"


def cases():
    words = ["analyse", "m", "s"]
    for ending, models in ((".mps", mps_models()), (".lp", lp_models())):
        name = f"m{ending}"
        for of, most, past, (line, kind) in models:
            yield f"the most of {of}{ending}", ["analyse", name, "s"], {name: most, "s": ""}, 0, EMPTY
            yield f"more of {of}{ending}", ["analyse", name, "s"], {name: past, "s": ""}, 5, f"model refused line {line} {kind}\n"
    for name, text, told in scripts():
        answered = (0 if "undo" not in str(told) else 1, f"iisan report 2\n{told}report end\n")
        yield name, words, {"m": MODEL, "s": text}, *((6, f"script refused line {told}\n") if isinstance(told, int) else answered)
    for count in (16_000, 16_001):
        model, script, report = large(count)
        yield f"tables of {count} rows that are too large", ["analyse", "m.lp", "s"], {"m.lp": model, "s": script}, 1, report
    for name, files in (("model", {"m": "\n" * (MOST_BYTES + 1), "s": ""}), ("script", {"m": MODEL, "s": "\n" * (MOST_BYTES + 1)})):
        yield f"a long {name}", words, files, 3, f"too long {name}\n"
