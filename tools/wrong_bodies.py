#!/usr/bin/env python3
"""Tries wrong bodies, which the prover must refuse: `tools/wrong_bodies.py [CRATE..]`, or with no crate those of all

A wrong body is an edit, a file of `edits/CRATE/` in the form of those that the gate tries, which stand in
`crates/CRATE/must-fail/`: a line `file: PATH`, of a file in the crate, and pairs of lines `old: TEXT`, which stands in
that file exactly once, and `new: TEXT`. The edits of a crate are laid into a copy of the repository, and `rt must-fail`
tries them there. It begins with what `rt check` kept of the crate (where it kept nothing the crate is proved once more
for two or more edits) and tries none again where nothing has changed since it was refused.

    --gate             tries the edits of the gate too
    --apply            only tells which edits do not apply, and asks no prover
    --jobs N           tries so many side by side, in place of one a processor
    --libraries PLACE  takes the libraries below from PLACE, a checkout in which `rt ci` proved the same texts

A line for each edit says `refused` and by what, the first error; `proved`; `bad`, where it does not apply or does not
read; or `not tried`. A line for each crate has its sums and seconds, and the last one the sums of all. The status is 0
where all are refused, or under `--apply` where all apply; else 1.
"""

import argparse
import collections
import glob
import importlib.machinery
import importlib.util
import os
import re
import shutil
import subprocess
import sys
import tempfile
import time

TOP = os.path.dirname(os.path.dirname(os.path.realpath(__file__)))
LINES = re.compile(r"^(file|old|new): ?(.*)$", re.M)
# What `rt must-fail` says of an edit, and the words for it here.
TOLD = re.compile(r"^rt: must-fail \w+/(\S+)\.edit: (refused, as it must be|NOT REFUSED|BAD EDIT|NOT TRIED):? ?(.*)", re.M)
KINDS = {"refused, as it must be": "refused", "NOT REFUSED": "proved", "BAD EDIT": "bad", "NOT TRIED": "not tried"}


def edits_of(crate, with_gate):
    """The files of a crate's edits by their names, without `.edit`."""
    folders = [f"{TOP}/edits/{crate}", *[f"{TOP}/crates/{crate}/must-fail"] * with_gate]
    found = sorted(it for folder in folders for it in glob.glob(f"{folder}/*.edit"))
    named = {os.path.basename(it).removesuffix(".edit"): it for it in found}
    if len(named) < len(found):
        sys.exit(f"{crate}: an edit of edits/ has the name of one of the gate")
    return named


def misfit(edit, folder):
    """Why an edit does not apply to the crate in this folder; nothing where it does."""
    path, old, texts, pairs = "", "", {}, 0
    with open(edit, encoding="utf-8") as it:
        lines = LINES.findall(it.read())
    for word, text in lines:
        if word == "file":
            path = text
            if not os.path.isfile(f"{folder}/{path}"):
                return f"there is no file {path}"
            with open(f"{folder}/{path}", encoding="utf-8") as it:
                texts.setdefault(path, it.read())
        elif word == "old":
            old = text
        else:
            found = texts[path].count(old) if path and old else 0
            if found != 1:
                return f"{path} has {found} times: {old.strip()}"
            texts[path] = texts[path].replace(old, text)
            pairs += 1
    return "" if pairs else "it has no pair of lines old and new"


def rt_module():
    """The command `rt` as a module, which knows by what sum a library's text is told."""
    loader = importlib.machinery.SourceFileLoader("rt", shutil.which("rt"))
    module = importlib.util.module_from_spec(importlib.util.spec_from_loader("rt", loader))
    loader.exec_module(module)
    return module


def take_libraries(room, place):
    """Gives the copy in the room each library of the place that was proved there of the same text, all below it too."""
    rt = rt_module()
    proved = {it.name: it for it in rt.rtlib.crates_below(os.path.realpath(place))}
    for crate in rt.rtlib.crates_below(room):
        other = proved.get(crate.name)
        if other and os.path.isfile(f"{other.rlib}/format") and other.stamp() == crate.stamp():
            shutil.copytree(other.rlib, crate.rlib, copy_function=rt.link_or_copy)
            with open(f"{os.path.dirname(crate.rlib)}/stamp", "w", encoding="utf-8") as it:
                it.write(crate.stamp())


def lay(room, place):
    """Copies the crates without what was made of them and without their edits, and takes libraries from a place, if any."""
    shutil.copytree(f"{TOP}/crates", f"{room}/crates", ignore=shutil.ignore_patterns("out", "must-fail"))
    for name in ("crates.txt", "HANDLES"):
        shutil.copy(f"{TOP}/{name}", room)
    if place:
        take_libraries(room, place)


def tried(room, crate, edits, jobs):
    """What the prover says of a crate's edits in the copy: by the edit's name its kind and the rest of its line."""
    os.makedirs(f"{room}/crates/{crate}/must-fail")
    for edit in edits:
        shutil.copy(edit, f"{room}/crates/{crate}/must-fail")
    ran = subprocess.run(
        ["rt", "must-fail", crate],
        cwd=room,
        env={**os.environ, **({"RT_JOBS": str(jobs)} if jobs else {})},
        stdin=subprocess.DEVNULL,
        stdout=subprocess.PIPE,
        stderr=subprocess.STDOUT,
        errors="replace",
    )
    found = {name: (KINDS[kind], text) for name, kind, text in TOLD.findall(ran.stdout)}
    if len(found) < len(edits):
        print(ran.stdout, end="", file=sys.stderr)
    return found


def sums(kinds):
    """The sums of edits by kind as one text; those not tried are told only where there are any."""
    left = f", {kinds['not tried']} not tried" if kinds["not tried"] else ""
    return f"{kinds['refused']} refused, {kinds['proved']} proved, {kinds['bad']} bad{left}"


def misfits(edits, crate):
    """Why edits do not apply to their crate, by the names of those that do not."""
    whys = {name: misfit(edit, f"{TOP}/crates/{crate}") for name, edit in edits.items()}
    return {name: why for name, why in whys.items() if why}


def try_crate(crate, edits, room, jobs):
    """Tells what becomes of each edit of a crate, and returns how many there are of each kind."""
    begun, kinds, bad = time.time(), collections.Counter(), misfits(edits, crate)
    fit = [edit for name, edit in edits.items() if name not in bad]
    told = tried(room, crate, fit, jobs) if fit else {}
    for name in edits:
        kind, text = ("bad", bad[name]) if name in bad else told.get(name, ("not tried", ""))
        kinds[kind] += 1
        print(f"{crate}/{name}: {kind}{': ' * bool(text)}{text}")
    print(f"{crate}: {sums(kinds)}, in {time.time() - begun:.0f} seconds", flush=True)
    return kinds


def try_all(edits, words):
    """Tries the edits of the crates one crate after the other, and returns the status."""
    kinds = collections.Counter()
    with tempfile.TemporaryDirectory(prefix="wrong-bodies-") as room:
        lay(room, words.libraries)
        for crate, own in edits.items():
            kinds += try_crate(crate, own, room, words.jobs)
    print(sums(kinds))
    return 0 if kinds["refused"] == sum(kinds.values()) else 1


def apply_all(edits):
    """Tells which edits of the crates do not apply, and returns the status."""
    bad = [f"{crate}/{name}: {why}" for crate, own in edits.items() for name, why in misfits(own, crate).items()]
    for line in bad:
        print(line)
    print(f"{sum(map(len, edits.values())) - len(bad)} apply, {len(bad)} do not")
    return 1 if bad else 0


def main():
    form = argparse.RawDescriptionHelpFormatter
    parser = argparse.ArgumentParser(description=__doc__, formatter_class=form)
    parser.add_argument("crates", nargs="*")
    parser.add_argument("--gate", action="store_true")
    parser.add_argument("--apply", action="store_true")
    parser.add_argument("--jobs", type=int)
    parser.add_argument("--libraries")
    words = parser.parse_args()
    every = sorted({*os.listdir(f"{TOP}/edits"), *os.listdir(f"{TOP}/crates")})
    edits = {crate: edits_of(crate, words.gate) for crate in words.crates or every}
    empty = [crate for crate in words.crates if not edits[crate]]
    if empty:
        parser.error(f"there are no edits of {empty[0]}")
    edits = {crate: own for crate, own in edits.items() if own}
    return apply_all(edits) if words.apply else try_all(edits, words)


if __name__ == "__main__":
    sys.exit(main())
