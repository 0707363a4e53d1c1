#!/usr/bin/env python3
"""Weights by families of names, as lines of a script: `tools/family_weights.py MODEL PATTERN=WEIGHT..`

A pattern is that of a shell (`demand_*`) and stands for the rows whose names it fits, or behind `lower:` or `upper:` for
the bounds of such columns. WEIGHT is a number above 0 or `rigid`. Of several patterns that fit the last one counts. The
lines go into a file that `./iis MODEL --relax --script FILE` takes. The status is 1 where a pattern fits nothing.
"""

import fnmatch
import sys

from model_texts import Model, is_lp_file, read_bytes, read_model


def fitting(model: Model, pattern: str) -> list[str]:
    """What a pattern stands for, as `weight` names it."""
    kind, colon, rest = pattern.partition(":")
    if not colon:
        return [f"row {name}" for name in fnmatch.filter(model.rows, pattern)]
    bounds = (it for it in model.members() if it.startswith(f"{kind} "))
    return [it for it in bounds if fnmatch.fnmatchcase(it.split(" ")[1], rest)]


def main(path: str, *choices: str) -> int:
    data = read_bytes(path)
    model = read_model(data, is_lp_file(path, data))
    found: dict[str, str] = {}
    for choice in choices:
        pattern, _, weight = choice.rpartition("=")
        names = fitting(model, pattern)
        if not names:
            print(f"family_weights: {pattern} fits nothing", file=sys.stderr)
            return 1
        found.update(dict.fromkeys(names, weight))
    for name, weight in found.items():
        print(f"weight {name} {weight}")
    return 0


if __name__ == "__main__":
    sys.exit(main(*sys.argv[1:]))
