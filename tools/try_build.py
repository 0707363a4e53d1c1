#!/usr/bin/env python3
"""Builds a program of this repository without proving anything: `tools/try_build.py PLACE PROGRAM`

`rt try` translates the program and its crates to one module, which it then compiles with checks of each access to memory,
for one run. Here that module is taken as soon as it is written, and compiled by the toolchain's own clang, optimised, to
PLACE/PROGRAM; PLACE/parts lists what it was made from. What overflows or leaves a slice still ends the program. A line on
standard error tells how long it has taken. The status is 0, or 1 where there is no program: PLACE/log has what was said.
"""

import glob
import os
import shutil
import subprocess
import sys
import tempfile
import time

from build import TOP, below, crates, list_parts, say

KIT = os.path.dirname(os.path.dirname(os.path.realpath(shutil.which("rt") or "")))
CLANG = f"{KIT}/toolchain/bin/clang"
LEAST_BYTES = 100_000
LIBRARIES = [f"{KIT}/c/libos_c.a", f"{KIT}/c/liblibc_c.a"]


class Progress:
    """A line on standard error: on a terminal it is written over, else there is one every half minute."""

    def __init__(self):
        self.start, self.told = time.time(), 0.0

    def tell(self, what):
        seconds = time.time() - self.start
        if sys.stderr.isatty():
            print(f"\riisan: {what}, {seconds:.0f} s so far ", end="", file=sys.stderr, flush=True)
        elif seconds >= self.told + 30:
            self.told = seconds
            say(f"{what}, {seconds:.0f} s so far")

    def end(self, what):
        print("\r" * sys.stderr.isatty() + f"iisan: {what} after {time.time() - self.start:.0f} s", file=sys.stderr)


def run_until(command, progress, what, is_done=lambda: False, **how):
    """Runs a command until it ends or what it is wanted for is done, and returns whether that is so or its status is 0."""
    started = subprocess.Popen(command, stdin=subprocess.DEVNULL, **how)
    while started.poll() is None:
        if is_done():
            started.terminate()
            started.wait()
            return True
        progress.tell(what)
        time.sleep(0.2)
    return started.returncode == 0


def written_module(room):
    """The program's module that `rt try` has written in this folder, or None: whole once there is an object file beside it.

    A module of a few hundred bytes comes before it, which is not the program's.
    """
    modules = {f"{os.path.dirname(it)}/module.bc" for it in glob.glob(f"{room}/*/*/module*.o*")}
    return next((it for it in modules if os.path.isfile(it) and os.path.getsize(it) > LEAST_BYTES), None)


def translate(program, room, progress, log):
    """Translates the program to the file `module.bc` in a folder, and returns whether it is there."""
    kept = f"{room}/module.bc"

    def is_kept():
        found = written_module(room)
        if found:
            os.link(found, kept)
        return bool(found)

    how = {"cwd": f"{TOP}/crates/{program}", "env": {**os.environ, "TMPDIR": room}, "stdout": log, "stderr": log}
    run_until(["rt", "try", "--"], progress, "translates, 1 of 2", is_kept, **how)
    return os.path.isfile(kept)


def compile_module(room, made, progress, log):
    """Compiles and links the module, and returns whether the program was made."""
    compiled = [CLANG, "-O1", "-Wno-override-module", "-c", f"{room}/module.bc", "-o", f"{room}/module.o"]
    places = [f"-B{KIT}/toolchain/bin", f"-B{KIT}/toolchain/lib", f"-L{KIT}/toolchain/lib"]
    linked = [CLANG, "-fuse-ld=lld", *places, f"{room}/module.o", *LIBRARIES, "-lm", "-o", made]
    how = {"stdout": log, "stderr": log}
    return all(run_until(command, progress, "compiles, 2 of 2", **how) for command in (compiled, linked))


def main(place, program):
    if not shutil.which("rt"):
        say("the command rt is not on the path: it is that of the Rattle toolchain")
        return 1
    os.makedirs(place, exist_ok=True)
    say("builds the program without proving it, once: one to four minutes; later runs start at once")
    progress, made = Progress(), f"{place}/{program}"
    with tempfile.TemporaryDirectory(prefix="iisan-") as room, open(f"{place}/log", "w", encoding="utf-8") as log:
        if not (translate(program, room, progress, log) and compile_module(room, f"{room}/made", progress, log)):
            log.flush()
            with open(f"{place}/log", encoding="utf-8", errors="replace") as said:
                progress.end(f"there is no program, as {place}/log tells: {''.join(said.readlines()[-3:])}")
            return 1
        shutil.copy(f"{room}/made", f"{made}.new")
        os.replace(f"{made}.new", made)
    list_parts(place, below(crates(), [program]), ["src"])
    progress.end("the program stands")
    return 0


if __name__ == "__main__":
    sys.exit(main(*sys.argv[1:]))
