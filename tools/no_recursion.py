#!/usr/bin/env python3
"""Whether some function of the crates can reach itself through calls: `tools/no_recursion.py [TOP]`

The prover's rules make this plain to see. It refuses functions that call one another in a cycle, or types that contain one another, unless
each has the attribute `cycle`; and a function that calls itself unless a folder of its crate's `proofs/` that begins with `+` has its
measure. A type that contains itself, which is dropped and printed by recursion, names itself in its own declaration. So the tool looks
for these three in the crates below TOP, or of this repository. It prints a line for each that it finds, and the status is 1 where
there is any. On a type parameter, as of an oracle over another, a call goes to a smaller type, so there such calls come to an end with
the program's types.
"""

import re
import sys
from pathlib import Path

UNSEEN = re.compile(r'//[^\n]*|"(?:[^"\\]|\\.)*"')
TYPE = re.compile(r"\b(?:struct|enum) (\w+)([^;{]*;|[^;{]*\{[^\n]*\}|[^;{]*\{.*?^\})", re.M | re.S)


def found(path):
    """What a file of code has of these, in words."""
    text = UNSEEN.sub("", path.read_text(encoding="utf-8"))
    if "#[cycle(" in text:
        yield f"{path}: an attribute `cycle`"
    for name, body in TYPE.findall(text):
        if re.search(rf"\b(?:{name}|Self)\b(?! ?[({{])", body):
            yield f"{path}: {name} contains itself"


def main(words):
    crates = Path(words[0] if words else Path(__file__).resolve().parent.parent) / "crates"
    files = sorted(crates.glob("*/src/**/*.rt"))
    lines = [line for path in files for line in found(path)]
    lines += [f"{path}: a measure of a recursion" for path in sorted(crates.glob("*/proofs/**/+*"))]
    print("\n".join(lines) or f"{len(files)} files, and no recursion")
    return 1 if lines else 0


if __name__ == "__main__":
    sys.exit(main(sys.argv[1:]))
