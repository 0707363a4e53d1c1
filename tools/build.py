#!/usr/bin/env python3
"""Proves a program of this repository and the crates that it stands on, side by side: `tools/build.py PLACE PROGRAM`

Each crate is proved in a folder of its own, its room, where the crates below it lie as links to what is proved already:
one `rt` locks the crates that it reads, and so two would wait for one another in one tree. Rooms lie in the user's cache
(XDG_CACHE_HOME, or ~/.cache), since the gate allows no sources in the repository but those of `crates/`. A crate whose
sources, and whose crates below, are as they were when it was last proved there is left alone. A line on standard error
tells of each crate as it is begun. At the end PLACE/PROGRAM is the program, and PLACE/parts lists the folders that it was
made from. The status is 0, or 1 where a crate is not proved: PLACE/log then has what was said of it.
"""

import hashlib
import os
import shutil
import subprocess
import sys
import time
from concurrent.futures import FIRST_COMPLETED, ThreadPoolExecutor, wait

TOP = os.path.dirname(os.path.dirname(os.path.realpath(__file__)))
PARTS = ("src", "specs", "proofs")
CACHE = os.environ.get("XDG_CACHE_HOME") or os.path.expanduser("~/.cache")
ROOMS = f"{CACHE}/iisan/{hashlib.sha256(TOP.encode()).hexdigest()[:16]}"


def crates():
    """The crates of crates.txt in file order, each with the libraries of the repository that it names, and its line."""
    with open(f"{TOP}/crates.txt", encoding="utf-8") as lines:
        rows = [line.rstrip("\n") for line in lines if line.strip() and not line.startswith("#")]
    named = {row.partition(":")[0].split()[0]: row for row in rows}
    return {name: ([it for it in row.partition(":")[2].split() if it in named], row) for name, row in named.items()}


def below(known, names):
    """The named crates and all that they stand on, each after those that it uses."""
    found = []

    def visit(name):
        if name not in found:
            for lower in known[name][0]:
                visit(lower)
            found.append(name)

    for name in names:
        visit(name)
    return found


def files(folder):
    for part in PARTS:
        for at, folders, names in os.walk(f"{folder}/{part}"):
            folders.sort()
            yield from (f"{at}/{name}" for name in sorted(names))


def sums(known, order):
    """A sum for each crate, of its sources, its line and the sums of the crates that it uses."""
    found = {}
    for name in order:
        text = hashlib.sha256(known[name][1].encode())
        for file in files(f"{TOP}/crates/{name}"):
            with open(file, "rb") as it:
                text.update(file[len(TOP) :].encode() + b"\0" + it.read())
        for lower in known[name][0]:
            text.update(found[lower].encode())
        found[name] = text.hexdigest()
    return found


def link(source, target):
    """Copies a folder, its files as links to the same bytes."""
    if os.path.isdir(source):
        shutil.copytree(source, target, copy_function=os.link, dirs_exist_ok=True)


def lay(room, known, name):
    """Lays out the folder in which the crate is proved: its own sources as they are now, and what lies below it, proved."""
    order = below(known, [name])
    own = f"{room}/crates/{name}"
    for crate in order:
        if crate != name:
            shutil.rmtree(f"{room}/crates/{crate}", ignore_errors=True)
            proved = f"{ROOMS}/{crate}/crates/{crate}"
            for part in (*PARTS, "out/rlib"):
                link(f"{proved}/{part}", f"{room}/crates/{crate}/{part}")
    for part in PARTS:
        shutil.rmtree(f"{own}/{part}", ignore_errors=True)
        if os.path.isdir(f"{TOP}/crates/{name}/{part}"):
            shutil.copytree(f"{TOP}/crates/{name}/{part}", f"{own}/{part}")
    with open(f"{room}/crates.txt", "w", encoding="utf-8") as out:
        out.write("".join(f"{known[crate][1]}\n" for crate in order))


def prove(known, name, jobs):
    """Proves one crate and builds it, and returns whether that went well, what was said, and the seconds that it took."""
    room, start = f"{ROOMS}/{name}", time.time()
    lay(room, known, name)
    is_program = os.path.isfile(f"{TOP}/crates/{name}/src/main.rt")
    # Without words the program prints how it is used, and ends with status 2: what counts is that it was built.
    ran = subprocess.run(
        ["rt", "run" if is_program else "lib", "--jobs", str(jobs)],
        cwd=f"{room}/crates/{name}",
        stdin=subprocess.DEVNULL,
        stdout=subprocess.PIPE,
        stderr=subprocess.STDOUT,
        errors="replace",
    )
    made = f"{room}/crates/{name}/out/{name + '.stamp' if is_program else 'rlib/stamp'}"
    return os.path.isfile(made), ran.stdout, time.time() - start


def lanes():
    """How many proofs run side by side: one a processor, and no more than memory holds at three gigabytes each."""
    with open("/proc/meminfo", encoding="utf-8") as lines:
        free = next(int(line.split()[1]) for line in lines if line.startswith("MemAvailable"))
    return max(1, min(len(os.sched_getaffinity(0)), free // 3_000_000))


def say(text):
    print(f"iisan: {text}", file=sys.stderr, flush=True)


def weights(known, due):
    """For each crate the lines of the longest chain of due crates from it upwards: the longest goes first."""
    found = {}
    for name in reversed(below(known, due)):
        lines = sum(sum(1 for _ in open(file, "rb")) for file in files(f"{TOP}/crates/{name}"))
        above = [found[it] for it in found if name in known[it][0]]
        found[name] = lines + max(above, default=0)
    return found


def list_parts(place, order, folders):
    """Lists in PLACE/parts what a program was made from: these folders of its crates."""
    parts = ["crates.txt", *[f"crates/{name}/{part}" for name in order for part in folders]]
    with open(f"{place}/parts", "w", encoding="utf-8") as out:
        out.writelines(f"{it}\n" for it in parts if os.path.exists(f"{TOP}/{it}"))


class Build:
    """A build of a program in a place: what is due, what is proved, and what is being proved with how many processors."""

    def __init__(self, place, program):
        self.place, self.program, self.known = place, program, crates()
        self.order = below(self.known, [program])
        self.sums = sums(self.known, self.order)
        self.proved = {name for name in self.order if self.marked(name) == self.sums[name]}
        self.due = [name for name in self.order if name not in self.proved]
        weight = weights(self.known, self.due)
        self.left, self.running, self.lanes = sorted(self.due, key=lambda it: -weight[it]), {}, lanes()

    def mark(self, name):
        return f"{ROOMS}/{name}/proved"

    def marked(self, name):
        """The sum of the sources with which the crate was last proved here."""
        if not os.path.isfile(self.mark(name)):
            return None
        with open(self.mark(name), encoding="utf-8") as it:
            return it.read()

    def begin(self, pool):
        """Begins crates whose libraries are proved, those under the longest chains first, as long as processors are idle."""
        ready = [it for it in self.left if all(lower in self.proved for lower in self.known[it][0])]
        for at, name in enumerate(ready):
            idle = self.lanes - sum(jobs for _, jobs in self.running.values())
            if idle <= 0:
                return
            # The first holds up the most others, so it may share a processor.
            jobs = min(4, max(1 + (at == 0), idle // (len(ready) - at)))
            self.left.remove(name)
            say(f"crate {len(self.due) - len(self.left)} of {len(self.due)}: {name}")
            self.running[pool.submit(prove, self.known, name, jobs)] = name, jobs

    def end(self, done):
        """Takes note of a crate that has ended, and returns whether it is proved."""
        name, jobs = self.running.pop(done)
        well, said, seconds = done.result()
        with open(f"{self.place}/times", "a", encoding="utf-8") as out:
            out.write(f"{name} {jobs} {seconds:.0f}\n")
        if not well:
            with open(f"{self.place}/log", "w", encoding="utf-8") as out:
                out.write(said)
            say(f"crate {name} is not proved; the end of {self.place}/log:")
            print("".join(said.splitlines(True)[-8:]), end="", file=sys.stderr)
            return False
        with open(self.mark(name), "w", encoding="utf-8") as out:
            out.write(self.sums[name])
        self.proved.add(name)
        return True

    def run(self):
        """Proves all that is due, and returns whether that went well."""
        with ThreadPoolExecutor(max(self.lanes, 1)) as pool:
            while self.left or self.running:
                self.begin(pool)
                for done in wait(self.running, return_when=FIRST_COMPLETED).done:
                    if not self.end(done):
                        return False
        return True

    def finish(self):
        """Puts the program in its place, and lists what it was made from."""
        made = f"{ROOMS}/{self.program}/crates/{self.program}/out/{self.program}"
        shutil.copy(made, f"{self.place}/{self.program}")
        list_parts(self.place, self.order, PARTS)


def main(place, program):
    os.makedirs(place, exist_ok=True)
    build = Build(place, program)
    if build.due:
        say(f"proves {len(build.due)} of {len(build.order)} crates and builds the program; later runs start at once")
    if len(build.due) == len(build.order):
        say("that takes about half an hour on four processors; Ctrl-C stops it, and the next run goes on from there")
        say("for an answer in a few minutes, from the same program not proved: ./iis MODEL, or ./iisan-try MODEL SCRIPT")
    if not build.run():
        return 1
    build.finish()
    return 0


if __name__ == "__main__":
    sys.exit(main(*sys.argv[1:]))
