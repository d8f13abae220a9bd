#!/usr/bin/env python3
"""Writes what follows from a type: of its struct, and of its grammar line in `specs`, the impls of its traits and the definitions that repeat its fields.

`derive.py CRATE/src/FILE.rt [TYPE]` does so for the types that the file declares, or for one of them, wherever these stand. Impls that are missing come into
that file, which for a check is one of x509_check. Behind `by hand` it says what it leaves: what is odd, and values that are made without a field.

`derive.py --check` looks in the crates of types whether each of them is what would be written, or is named in tools/data/odd_glue.txt, which says why it isn't.
"""
import argparse
import collections
import dataclasses
import difflib
import pathlib
import re
import sys

sys.path.insert(0, str(pathlib.Path(__file__).resolve().parents[1]))
sys.dont_write_bytecode = True
from common import declared
from common.crates import TOP
from common.declared import CRATES, Block
from common.grammar import OF_TYPES, Unlike, resolved
from derived_impls import CHECKS, IMPLS, ORDER, At, wanted, written
from derived_imports import with_imports, with_uses
from derived_specs import derived

ODD = TOP / "tools" / "data" / "odd_glue.txt"
# how many differences are shown
SHOWN = 5


@dataclasses.dataclass(frozen=True)
class Place:
    """Where something derived stands: its lines, what it is, its name and its type; how it is, and how it would be written, which may be none."""

    file: pathlib.Path
    begin: int
    end: int
    trait: str
    name: str
    of: declared.Type
    old: str
    new: str | None

    @property
    def key(self):
        return f"{self.file.relative_to(CRATES)} {self.trait} {self.name}"

    @property
    def lines(self):
        return self.end - self.begin


def standing():
    """All that is derived in the crates, and what is like it. An impl for a type that no crate declares, as a number, has no struct that it could follow."""
    for crate in OF_TYPES:
        for it in declared.impls(crate):
            of = resolved(it.name, it.file)
            if it.trait in IMPLS and of:
                new = written(it.trait, of, At(it.file, Block.parsed(it.text)))
                yield Place(it.file, it.begin, it.end, it.trait, it.name, of, it.text, new)
        for it, trait, of, new in derived(crate):
            yield Place(it.file, it.begin, it.end, trait, it.name, of, it.text, new)


def missing(of, file, has):
    """The impls of a type that are to stand in a file, and do nowhere, where other types of its crate have them: each behind those that come before it."""
    lines, crate = declared.lines_of(file), file.relative_to(CRATES).parts[0]
    head = next((at for at, line in enumerate(lines) if re.match(rf"(?:pub )?{of.word} {of.name}\b", line)), 0) if of.file == file else 0
    at = lines.index("}", head) + 1 if lines[head].endswith("{") else head + 1 if head else len(lines) - 1
    here = {it.trait: it.end for it in declared.impls(crate) if it.file == file and it.name == of.name}
    needed = [trait for trait in wanted(of) if trait not in has]
    for trait in ORDER:
        if trait in here:
            at = here[trait]
        elif trait in needed and (trait in CHECKS) == (crate == "x509_check") and any(it.trait == trait for it in declared.impls(crate)):
            yield Place(file, at, at, trait, of.name, of, "", "\n" + written(trait, of, At(file, Block([], ""))))


def traits_of(found):
    has = collections.defaultdict(set)
    for it in found:
        has[it.of].add(it.trait)
    return has


def places():
    """What stands, and what is missing in the files that declare the types."""
    found = list(standing())
    has = traits_of(found)
    return found + [it for crate in OF_TYPES for of in declared.types(crate) for it in missing(of, of.file, has[of])]


def odd_ones():
    """The keys of tools/data/odd_glue.txt with the reason of each."""
    lines = [line for line in ODD.read_text(encoding="utf-8").split("\n") if line and not line.startswith("#")]
    return {key: reason for key, _, reason in (line.partition(": ") for line in lines)}


# ---- compared


def check():
    odd, found, shown = odd_ones(), places(), []
    keys = {it.key for it in found}
    faults = [f"{key}: there is no such thing; take its line out of {ODD.relative_to(TOP)}" for key in odd if key not in keys]
    faults += [f"{key}: no reason stands in {ODD.relative_to(TOP)}" for key, reason in odd.items() if not reason]
    counts = collections.defaultdict(collections.Counter)
    for it in found:
        is_same = it.old == it.new
        counts[it.trait].update({"odd" if it.key in odd else "derived": 1, "odd lines" if it.key in odd else "derived lines": it.lines})
        if is_same and it.key in odd:
            faults.append(f"{it.key}: it is what would be written; take its line out of {ODD.relative_to(TOP)}")
        elif not is_same and it.key not in odd:
            faults.append(f"{it.key}: it isn't what tools/build/derive.py writes" + ("" if it.new else ", which can't tell what it is to be"))
            shown.append(difflib.unified_diff(it.old.split("\n"), (it.new or "").split("\n"), f"crates/{it.file.relative_to(CRATES)}", "derived", lineterm=""))
    for trait, count in sorted(counts.items()):
        print(f"{trait}: {count['derived']} derived in {count['derived lines']:,} lines, {count['odd']} odd in {count['odd lines']:,}")
    for lines in shown[:SHOWN]:
        print("\n".join(lines))
    for it in faults:
        print(f"failed: {it}")
    if not faults:
        count = sum(counts.values(), collections.Counter())
        print(f"passed: {count['derived']} impls and definitions with {count['derived lines']:,} lines follow from their types, {count['odd']} are odd")
    return int(bool(faults) or not found)


# ---- what makes values


def braced(text, at):
    """What stands in the braces that open at a place of a text."""
    depth = 0
    for end in range(at, len(text)):
        depth += (text[end] == "{") - (text[end] == "}")
        if not depth:
            return text[at + 1 : end]
    return ""


def lacking(of):
    """Where a value of a struct is made without some of its fields, in code, clauses or specs, or taken apart so: the file, the line and these fields."""
    names = [field.name for field in of.fields]
    known = {frozenset(field.name for field in it.fields) for crate in OF_TYPES for it in declared.types(crate)}
    for file in sorted(it for ending in ("rt", "antt") for it in CRATES.glob(f"*/[sp]*/**/*.{ending}")):
        text = "\n".join(declared.lines_of(file))
        for made in [*re.finditer(rf"{of.name} (?={{)", text), *re.finditer(rf"record (?={{\s*(?:{'|'.join(names)}) =)", text)]:
            if re.search(r"(?:\w|struct |impl |for |-> )$", text[max(made.start() - 8, 0) : made.start()]):
                continue
            inner = braced(text, made.end())
            flat = re.sub(r"\{.*?\}|\([^()]*\)", "", inner, flags=re.S)
            is_record = made[0] == "record "
            has = set(re.findall(r"(?:^|;)\s*(\w+) =" if is_record else r"(?:^|,)\s*(\w+)", flat))
            gone = [name for name in names if name not in has]
            is_other = is_record and (frozenset(has) in known or not has < set(names) or len(gone) >= len(has))
            if gone and ".." not in inner and not is_other:
                yield file, text.count("\n", 0, made.start()) + 1, gone


# ---- written


def write(file, name):
    """Writes what is derived of the types of a file, or of one of them."""
    odd, found = odd_ones(), places()
    of = resolved(name, file) if name else None
    types = [of] if of else [it for it in declared.types(file.relative_to(CRATES).parts[0]) if it.file == file and not name]
    if of and of.file != file:
        found += missing(of, file, traits_of(found)[of])
    changes = collections.defaultdict(list)
    for it in found:
        if it.of in types and it.new != it.old:
            if it.key in odd or it.new is None:
                print(f"by hand: {it.key}: {odd.get(it.key, 'what it is to be does not follow from the type')}")
            else:
                changes[it.file].append(it)
    for changed, parts in changes.items():
        lines = list(declared.lines_of(changed))
        for it in sorted(reversed(parts), key=lambda it: it.begin, reverse=True):
            lines[it.begin : it.end] = it.new.split("\n")
        text, old, new = "\n".join(lines), "\n".join(it.old for it in parts), "\n".join(it.new for it in parts)
        bare = "\n".join(it.new for it in parts if it.trait in ("type", "law"))
        text = with_imports(changed, text, old, new) if changed.suffix == ".rt" else with_uses(changed, text, new, bare)
        changed.write_text(text, encoding="utf-8")
        print(f"written: crates/{changed.relative_to(CRATES)}")
    for cached in (declared.lines_of, declared.types):
        cached.cache_clear()
    for it in types:
        if it.word == "struct" and not it.is_tuple:
            for at, line, gone in lacking(it):
                print(f"by hand: {at.relative_to(CRATES)}:{line}: a value of {it.name} without {', '.join(gone)}")
    if not types:
        print(f"failed: {file} declares no type" + (f", and none is called {name}" if name else ""))
    return int(not types)


def main():
    parser = argparse.ArgumentParser(description=__doc__, formatter_class=argparse.RawDescriptionHelpFormatter)
    parser.add_argument("--check", action="store_true", help="write nothing, but compare all")
    parser.add_argument("file", nargs="?", type=pathlib.Path, metavar="CRATE/src/FILE.rt")
    parser.add_argument("type", nargs="?", metavar="TYPE")
    asked = parser.parse_args()
    if asked.check == bool(asked.file):
        parser.error("either --check or a file")
    try:
        return check() if asked.check else write((CRATES / asked.file).resolve(), asked.type)
    except Unlike as unlike:
        print(f"failed: {unlike}")
        return 1


if __name__ == "__main__":
    sys.exit(main())
