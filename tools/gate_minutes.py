#!/usr/bin/env python3
"""Runs a command and tells the processor minutes that each crate took under it: `tools/gate_minutes.py rt ci`

Every second it looks at the prover's processes below the command and adds up, crate by crate, the processor time of
proofs, of tests' proofs, of must-fail edits, and of compiling. The table goes to standard error at the end, and the
status is the command's. What lives for less than a second is not seen; the sums are a few parts in a hundred too small.
"""

import os
import re
import subprocess
import sys
import time

TICKS = os.sysconf("SC_CLK_TCK")
KINDS = ("proof", "tests", "edits", "compiling")


def fields(pid):
    """The parent of a process, its processor seconds, its words and its folder."""
    with open(f"/proc/{pid}/stat", encoding="utf-8") as it:
        parts = it.read().rpartition(")")[2].split()
    with open(f"/proc/{pid}/cmdline", "rb") as it:
        words = it.read().decode(errors="replace").split("\0")
    return int(parts[1]), (int(parts[11]) + int(parts[12])) / TICKS, words, os.readlink(f"/proc/{pid}/cwd")


def kind_of(words, folder):
    """What a process of the prover does, and for which crate; nothing for another process."""
    line = " ".join(words)
    crate = re.search(r"--crate-name (\S+)", line)
    if not crate or not words[0].endswith("rattle"):
        return None
    if "rt-edit" in folder:
        return crate[1], "edits"
    if "--crate-checked" in line:
        return crate[1], "compiling"
    return crate[1], "tests" if "--test" in words else "proof"


def look(root, seen):
    """Notes the processor seconds of each process of the prover below the command, forked ones with their parent's work."""
    found = {}
    for pid in filter(str.isdigit, os.listdir("/proc")):
        try:
            found[int(pid)] = fields(pid)
        except OSError:
            continue
    for pid, (parent, seconds, words, folder) in found.items():
        above = parent
        while above != root and above in found:
            above = found[above][0]
        kind = kind_of(words, folder)
        if above == root and kind:
            seen[pid, kind] = max(seconds, seen.get((pid, kind), 0))


def main(words):
    seen = {}
    with subprocess.Popen(words) as ran:
        while ran.poll() is None:
            look(ran.pid, seen)
            time.sleep(1)
    sums = {}
    for (_, (crate, kind)), seconds in seen.items():
        sums.setdefault(crate, dict.fromkeys(KINDS, 0))[kind] += seconds / 60
    print("crate | " + " | ".join(KINDS) + " | sum", file=sys.stderr)
    for crate, row in sorted(sums.items(), key=lambda it: -sum(it[1].values())):
        print(" | ".join([crate, *[f"{row[it]:.1f}" for it in KINDS], f"{sum(row.values()):.1f}"]), file=sys.stderr)
    print(f"all | | | | | {sum(sum(it.values()) for it in sums.values()):.1f}", file=sys.stderr)
    return ran.returncode


if __name__ == "__main__":
    sys.exit(main(sys.argv[1:]))
