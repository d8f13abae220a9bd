#!/usr/bin/env python3
"""Proves and builds a program, with no more than the crates that it stands on: `rt ci` over a copy of these, from nothing.

Prints a line for each crate on standard error, with how much is left by what crates cost (docs/GATE.md), and what `rt ci` printed only where it
fails.
"""
import argparse
import os
import re
import shutil
import subprocess
import sys
import tempfile
import time
from pathlib import Path

sys.path.insert(0, str(Path(__file__).resolve().parents[1]))
from common.crates import TOP, cost_of, crates_below, lines_of, path_of

PROVED = re.compile(r"^rt: (\w+) proved$")


class Told:
    """The crates that were told of, and what is left."""

    def __init__(self, program, path):
        self.program, self.left, self.told = program, set(path), 0
        self.count, self.cost = len(path), cost_of(path)
        self.start = time.monotonic()

    def tell(self, name):
        self.told += 1
        self.left.discard(name)
        spent = time.monotonic() - self.start
        done = self.cost - cost_of(self.left)
        minutes, seconds = divmod(round(spent), 60)
        left = f", about {max(1, round(spent * (self.cost / done - 1) / 60))} min left" if self.left and done else ""
        line = f"{self.program}: {self.told} of {self.count} crates, {name}, {minutes}:{seconds:02}, {100 * done / self.cost:.0f}%{left}"
        print(line, file=sys.stderr, flush=True)


def copy(path, to):
    """Copies the sources of the crates. A folder `.git` tells `rt ci` that this is a repository of its own."""
    for crate in path:
        shutil.copytree(TOP / "crates" / crate, f"{to}/crates/{crate}", ignore=shutil.ignore_patterns("out", "must-fail", "wrong-bodies"))
    Path(to, "crates.txt").write_text("".join(f"{line}\n" for line in lines_of(path)), encoding="utf-8")
    shutil.copy(TOP / "HANDLES", to)
    os.mkdir(f"{to}/.git")


def prove(folder, told):
    """Runs `rt ci` in the folder, and tells each crate. Returns whether it succeeded, and what it printed."""
    printed = []
    with subprocess.Popen(
        ["rt", "ci"], cwd=folder, stdin=subprocess.DEVNULL, stdout=subprocess.PIPE, stderr=subprocess.STDOUT, text=True, errors="replace"
    ) as run:
        for line in run.stdout:
            printed.append(line)
            if found := PROVED.match(line):
                told.tell(found[1])
    return run.returncode == 0, "".join(printed)


def main(program):
    named = crates_below()
    if program not in named:
        sys.exit(f"{program}: crates.txt has no such crate")
    path = path_of(program, named)
    out = TOP / "crates" / program / "out"
    out.mkdir(exist_ok=True)
    with tempfile.TemporaryDirectory(prefix="build-", dir=out) as folder:
        copy(path, folder)
        succeeded, printed = prove(folder, Told(program, path))
        made = Path(folder, "crates", program, "out", program)
        if not succeeded or not made.exists():
            sys.stderr.write(printed)
            return 1
        os.replace(made, out / program)
    return 0


if __name__ == "__main__":
    parser = argparse.ArgumentParser(description=__doc__, formatter_class=argparse.RawDescriptionHelpFormatter)
    parser.add_argument("program", metavar="NAME", help="the program's crate, as x509_tool")
    sys.exit(main(parser.parse_args().program))
