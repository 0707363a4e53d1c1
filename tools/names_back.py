#!/usr/bin/env python3
"""The way back from the names in a model file to those of PuLP's or Pyomo's constraints and variables.

A file has no names with blanks, brackets or umlauts, so both tools can write short names, and say which is which:

    names = write_pulp(problem, "plan.mps")     # or write_pyomo(model, "plan.mps")
    save(names, "plan.names")

and then `./iis plan.mps | tools/names_back.py plan.names` has the names of the program in the place of the short ones.
"""

import json
import re
import sys
from typing import Any


def write_pulp(problem: Any, path: str) -> dict[str, str]:
    """Writes a PuLP problem with short names (C0000000, X0000000), and returns PuLP's own by short name."""
    *_, columns, rows, _ = problem.writeMPS(path, rename=1)
    own = {name: constraint.name or name for name, constraint in problem.constraints.items()}
    return {short: own.get(name, name) for names in (columns, rows) for name, short in names.items()}


def write_pyomo(model: Any, path: str) -> dict[str, str]:
    """Writes a Pyomo model with its symbols (c_e_x1_, x1), and returns the components' names by symbol."""
    _, symbols = model.write(path)
    found = model.solutions.symbol_map[symbols].bySymbol
    return {symbol: (it() if callable(it) and not hasattr(it, "name") else it).name for symbol, it in found.items()}


def save(names: dict[str, str], path: str) -> None:
    """Writes names by short name to a file."""
    with open(path, "w", encoding="utf-8") as out:
        json.dump(names, out, ensure_ascii=False, indent=1)


def renamed(text: str, names: dict[str, str]) -> str:
    """A text with each word that is a short name replaced."""
    return re.sub(r"[^\s:,()\[\]]+", lambda it: names.get(it[0], it[0]), text)


def main(path: str) -> int:
    with open(path, encoding="utf-8") as it:
        names = json.load(it)
    for line in sys.stdin:
        sys.stdout.write(renamed(line, names))
    return 0


if __name__ == "__main__":
    sys.exit(main(*sys.argv[1:]))
