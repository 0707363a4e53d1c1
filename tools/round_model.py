#!/usr/bin/env python3
"""A model with its numbers rounded: `tools/round_model.py MODEL DIGITS >rounded.lp`

Each factor, side and bound is rounded to so many significant digits, and written in the format of the file. It is another
model then: what contradicts there may not contradict in the model that was given, and the other way round. Standard error
says how many numbers are others now, and by how much at most.
"""

import sys
from decimal import Context, Decimal
from typing import Optional

from model_texts import Model, Number, is_lp_file, model_text, read_bytes, read_model


class Rounding:
    """Rounds numbers, and keeps how many are others then and the greatest relative change."""

    def __init__(self, digits: int):
        self.context, self.count, self.most = Context(prec=digits), 0, Decimal(0)

    def of(self, number: Optional[Number]) -> Optional[Number]:
        if not isinstance(number, Decimal):
            return number
        rounded = self.context.plus(number)
        if rounded != number:
            self.count += 1
            self.most = max(self.most, abs((rounded - number) / number))
        return rounded if rounded != number else number


def round_model(model: Model, rounding: Rounding) -> None:
    """Rounds all numbers of a model in place."""
    for terms in (model.objective, *(row.terms for row in model.rows.values())):
        terms.update({name: rounding.of(factor) for name, factor in terms.items()})
    for part in (*model.rows.values(), *model.columns.values()):
        part.lower, part.upper = rounding.of(part.lower), rounding.of(part.upper)


def main(path: str, digits: str) -> int:
    data = read_bytes(path)
    model, rounding = read_model(data, is_lp_file(path, data)), Rounding(int(digits))
    round_model(model, rounding)
    name = "model.lp" if is_lp_file(path, data) else "model.mps"
    sys.stdout.write(model_text(model, name, f"Rounded to {digits} digits: this is another model"))
    most = f"by {rounding.most:.1e} of their size at most"
    print(f"round_model: {rounding.count} numbers are others now, {most}", file=sys.stderr)
    return 0


if __name__ == "__main__":
    sys.exit(main(*sys.argv[1:]))
