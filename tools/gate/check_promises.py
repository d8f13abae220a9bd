#!/usr/bin/env python3
"""Looks whether each call, clause, law, type and definition that the part of docs/PROMISES.md that is written by hand names stands in the sources. An entry names
its crate first, and the others in front of its first colon. What follows that part list_promises.py makes of the sources.

It has to stand in the crate of the entry, in another crate that it names there, or in one that these stand on.
"""
import argparse
import pathlib
import re
import sys

sys.path.insert(0, str(pathlib.Path(__file__).resolve().parents[1]))
from common.crates import TOP, crates_below, path_of

PAGE, MADE = "docs/PROMISES.md", "<!-- tools/gate/list_promises.py makes"
WORDS = r"\bfn|\bensures\*?|\bghost|\bconst|\btype|\bstruct|\benum|\btrait|\bmod|\bfor|\bas"
NAMED = re.compile(rf"(?:{WORDS}) +(\w+)|\bimpl\b[^{{;]*?\b(\w+)(?:<[^{{;]*?>)? for\b")


def names_of(crate):
    """The names of calls, clauses, laws, constants, types and definitions in the sources of a crate, and of its files."""
    found = set()
    for file in (TOP / "crates" / crate / "specs").rglob("*.antt"):
        found.update(re.findall(r"\bpub (?:record |data )?(\w+)", file.read_text(encoding="utf-8")))
        found.update((file.stem, "antt"))
    for file in (TOP / "crates" / crate / "src").rglob("*.rt"):
        for match in NAMED.finditer(file.read_text(encoding="utf-8")):
            found.update(it for it in match.groups() if it)
        found.add(file.stem)
    return found


def entries():
    """The crate of each entry, and the names in front of its colon."""
    front, mark, _ = (TOP / PAGE).read_text(encoding="utf-8").partition(MADE)
    if not mark:
        raise ValueError(f"where does {PAGE} have what list_promises.py makes?")
    for entry in re.findall(r"^- (`x509_.*?)(?=^- |^$|\Z)", front, re.M | re.S):
        crate, *names = re.findall(r"`([^`]+)`", entry.partition(": ")[0])
        yield crate, names


def stands(word, below, names):
    """Whether a file of that path, or each name in the word, stands in one of these crates."""
    if "/" in word:
        return any((TOP / "crates" / crate / word).exists() for crate in below)
    return all(any(part in names[crate] for crate in below) for part in re.findall(r"\w+", word))


def main():
    argparse.ArgumentParser(description=__doc__, formatter_class=argparse.RawDescriptionHelpFormatter).parse_args()
    named = crates_below()
    names = {crate: names_of(crate) for crate in named}
    missing, count = [], 0
    for crate, words in entries():
        if crate not in named:
            missing.append(f"{crate}, a crate")
            continue
        others = [it for it in words if it in named]
        below = set().union(*(path_of(it, named) for it in [crate, *others]))
        asked = [it for it in words if it not in named and it != "laws"]
        count += len(asked)
        missing += [f"{crate}: {word}" for word in asked if not stands(word, below, names)]
    print("\n".join(f"stands nowhere: {it}" for it in missing) or f"{count} calls, clauses and laws that {PAGE} has by hand stand in the sources")
    return 1 if missing or not count else 0


if __name__ == "__main__":
    sys.exit(main())
