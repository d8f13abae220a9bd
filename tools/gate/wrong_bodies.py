#!/usr/bin/env python3
"""Tries each wrong body of some crates, or of all that have any: those that the gate tries, and those of `wrong-bodies/` besides.

A file of `crates/NAME/wrong-bodies` is an edit as those of `must-fail`, which the gate leaves out for its cost. The crates are copied, those that
are asked for with all their edits in `must-fail` and the others with none, and `rt must-fail` runs over the copy. The libraries that `rt lib` has
built here are taken along as they are; others are built in the copy first. What is said of the edits is printed, and then how many were refused; the
status is 0 where all were. With --check nothing is proved: it is seen whether each edit can be applied, that is, whether each text that it takes away
stands in its file exactly once.

With --grouped those that change different functions are tried together, by one check of these functions (`grouped_bodies.py`), over what `rt check` has kept of
the crate. Of each edit it is printed by which goal it is refused, or which file of a proof no longer fits.
"""
import argparse
import os
import pathlib
import re
import shutil
import subprocess
import sys
import tempfile

from grouped_bodies import try_crates

TOP = pathlib.Path(__file__).resolve().parents[2]
PLACES = "must-fail", "wrong-bodies"
REFUSED = re.compile(r"^rt: must-fail \S+: refused\b")


def edits(crate, words):
    """The edits of a crate, in both folders, whose names have one of the words; all, where none is given."""
    found = [edit for place in PLACES for edit in sorted((TOP / "crates" / crate / place).glob("*"))]
    return [edit for edit in found if not words or any(word in edit.name for word in words)]


def copy_crates(to):
    """Copies the repository's crates without their edits, and the libraries that are built."""
    shutil.copytree(TOP / "crates", to / "crates", ignore=shutil.ignore_patterns("out", *PLACES))
    for name in "crates.txt", "HANDLES":
        shutil.copy(TOP / name, to)
    for built in (TOP / "crates").glob("*/out/rlib/stamp"):
        folder = built.parent
        shutil.copytree(folder, to / folder.relative_to(TOP), copy_function=os.link)


def copy_edits(crates, words, to):
    """Copies the edits of the crates that are asked for."""
    for crate in crates:
        folder = to / "crates" / crate / "must-fail"
        folder.mkdir()
        for edit in edits(crate, words):
            if (folder / edit.name).exists():
                sys.exit(f"{crate}: {edit.name} stands in both folders")
            shutil.copy(edit, folder)


def try_all(crates, words):
    """Runs `rt must-fail` over a copy, and answers its status."""
    # beside the libraries, as links stay within one disk
    with tempfile.TemporaryDirectory(prefix=".wrong-bodies-", dir=TOP.parent) as folder:
        copy_crates(pathlib.Path(folder))
        copy_edits(crates, words, pathlib.Path(folder))
        run = subprocess.run(["rt", "must-fail", *crates], cwd=folder, stdout=subprocess.PIPE, stderr=subprocess.STDOUT, text=True, check=False)
    said = [line for line in run.stdout.splitlines() if line.startswith("rt: ")]
    print("\n".join(said) if said else run.stdout)
    count = sum(len(edits(crate, words)) for crate in crates)
    print(f"{sum(bool(REFUSED.match(line)) for line in said)} of {count} refused")
    return run.returncode


def try_grouped(crates, words, jobs, most):
    """Tries the edits of a copy in groups, and answers the status."""
    with tempfile.TemporaryDirectory(prefix=".wrong-bodies-", dir=TOP.parent) as folder:
        copy_crates(pathlib.Path(folder))
        return int(not try_crates({crate: edits(crate, words) for crate in crates}, pathlib.Path(folder), not words, jobs, most))


def faults(crate, edit):
    """What can't be applied of an edit, whose pairs of lines are applied one behind the other."""
    texts, path, old = {}, None, None
    for line in edit.read_text().splitlines():
        word, _, rest = line.partition(": ")
        if word == "file":
            path = rest
            texts.setdefault(path, (TOP / "crates" / crate / path).read_text())
        elif word == "old":
            old = rest
            if (count := texts[path].count(old)) != 1:
                yield f"{crate}: {edit.name}: {path} has {count} times: {old}"
        elif line.startswith("new:"):
            texts[path] = texts[path].replace(old, rest)


def check(crates, words):
    """Whether each edit can be applied."""
    asked = [(crate, edit) for crate in crates for edit in edits(crate, words)]
    said = [fault for crate, edit in asked for fault in faults(crate, edit)]
    print("\n".join(f"failed: wrong bodies: {fault}" for fault in said) or f"passed: {len(asked)} wrong bodies can be applied")
    return int(bool(said))


def main():
    parser = argparse.ArgumentParser(description=__doc__, formatter_class=argparse.RawDescriptionHelpFormatter)
    parser.add_argument("--only", metavar="WORD", action="append", default=[], help="those whose names have the word; may be given again")
    parser.add_argument("--check", action="store_true", help="only sees whether each can be applied")
    parser.add_argument("--grouped", action="store_true", help="tries those that change different functions together")
    parser.add_argument("--jobs", metavar="N", type=int, default=2, help="with --grouped: the jobs of a check; 2, if left out")
    parser.add_argument("--most", metavar="N", type=int, default=30, help="with --grouped: the most that are tried together; 30, if left out")
    parser.add_argument("crates", nargs="*", metavar="CRATE", help="all that have wrong bodies, if left out")
    asked = parser.parse_args()
    found = [folder.name for folder in sorted((TOP / "crates").iterdir()) if edits(folder.name, asked.only)]
    none = [crate for crate in asked.crates if crate not in found]
    if none:
        sys.exit(f"no wrong bodies: {' '.join(none)}")
    if asked.grouped and not asked.check:
        return try_grouped(asked.crates or found, asked.only, asked.jobs, asked.most)
    return (check if asked.check else try_all)(asked.crates or found, asked.only)


if __name__ == "__main__":
    sys.exit(main())
