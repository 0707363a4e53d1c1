#!/usr/bin/env python3
"""One contradiction after another: `tools/next_contradiction.py MODEL [MOST]`

Looks for a contradiction, says it, gives up its rows (its bounds, where it has no rows), and looks for the next, until the
rest can be met, or MOST contradictions are said (10 at first). So no two of them share a row. The status is that of the
last search: 0 where the rest can be met, 1 where the most is reached, 3 where a search is not settled.
"""

import sys

from contradictions import Contradiction
from questions import Question

SECONDS = 60.0


def given_up(found: Contradiction) -> list[str]:
    """The lines of a script that drop the rows of a contradiction, or all its members where it has none."""
    rows = [it for it in found.members if it.startswith("row")]
    return [f"drop {it}" for it in rows or found.members]


def main(path: str, most: str = "10") -> int:
    edits: list[str] = []
    for number in range(1, int(most) + 1):
        question = Question(path, edits, SECONDS)
        answer, _ = question.answer()
        found = question.contradiction(answer) if answer else None
        if not found:
            print("What is left can be met." if answer else "The next search is not settled.")
            return 0 if answer else 3
        print(f"{number}. {len(found.members)} requirements:")
        for line in found.lines(False):
            print(f" {line}")
        edits += given_up(found)
    return 1


if __name__ == "__main__":
    sys.exit(main(*sys.argv[1:]))
