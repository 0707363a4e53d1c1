"""A plan whose names no file takes, written by PuLP with short names, and the names to go back to: `python3 short_names.py`"""

import os
import sys

import pulp

sys.path.insert(0, f"{os.path.dirname(os.path.abspath(__file__))}/../../tools")
from names_back import save, write_pulp  # noqa: E402

problem = pulp.LpProblem("ovens", pulp.LpMinimize)
baked = {day: pulp.LpVariable(f"baked on {day}", 0, 40) for day in ("Monday", "Tuesday")}
problem += pulp.lpSum(baked.values())
problem += pulp.lpSum(baked.values()) >= 90, "orders für Müller & Söhne"
save(write_pulp(problem, "short.mps"), "short.names")
