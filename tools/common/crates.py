"""The crates of the repository: what each stands on (crates.txt), and what its proofs cost (docs/GATE.md)."""
import pathlib
import re

TOP = pathlib.Path(__file__).resolve().parents[2]
# Types of x509_tool that x509_name_tool hasn't. All else is answered alike by both, but for `path`.
ABOVE_NAMES = {"anchor", "certificate", "crl", "extensions", "general-names", "request"}


def crates_below():
    """The crates of the repository that each crate names."""
    named = {}
    for line in (TOP / "crates.txt").read_text(encoding="utf-8").splitlines():
        name, colon, deps = line.partition("#")[0].partition(":")
        if colon:
            named[name.split()[0]] = deps.split()
    return {name: [it for it in deps if it in named] for name, deps in named.items()}


def lines_of(crates):
    """The lines of crates.txt of these crates, in its order."""
    lines = (TOP / "crates.txt").read_text(encoding="utf-8").splitlines()
    return [line.rstrip() for line in lines if line.partition("#")[0].strip() and line.split(":")[0].split()[0] in crates]


def path_of(name, named):
    """The crate and all that it stands on."""
    found, todo = set(), [name]
    while todo:
        crate = todo.pop()
        if crate not in found:
            found.add(crate)
            todo += named[crate]
    return found


def crate_of(program, words):
    """The crate that answers the program's words: of x509_tool a smaller one where that answers alike, since half as much is read for it."""
    is_above = words[:1] == ["path"] or (words[:1] == ["reencode"] and not ABOVE_NAMES.isdisjoint(words[1:2]))
    return "x509_name_tool" if program == "x509_tool" and not is_above else program


def costs():
    """The processor seconds that the proofs of each crate took, as docs/GATE.md has them."""
    text = (TOP / "docs" / "GATE.md").read_text(encoding="utf-8")
    return {name: int(seconds) for name, seconds in re.findall(r"^\| `(x509_\w+)` \| (\d+) \|", text, re.M)}


def cost_of(crates):
    """The processor seconds of the proofs of these crates; a crate without a record has the mean of the others."""
    known = costs()
    mean = sum(known.values()) / max(1, len(known))
    return sum(known.get(it, mean) for it in crates)


def minutes_of(crates):
    return max(1, round(cost_of(crates) / 60))
