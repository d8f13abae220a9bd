"""The parts that derived impls are made of, and how an impl becomes text.

What doesn't follow from the type stays as it stands: the items that are `KEPT`, as `written_as`, `premise` and `usual`, with what they use; the attributes of
functions, and what is proved by `using`; the names of the values of cases; the order of the `ghost use` lines.
"""
import dataclasses
import pathlib
import re

from common import declared
from common.declared import Block
from common.layout import arm, flat, signature

# an item of an impl that doesn't follow from the type
KEPT = None
TAGS = "x509_der", "declared.tag.Tag.TheVariants"


@dataclasses.dataclass(frozen=True)
class At:
    """Where an impl stands, and how."""

    file: pathlib.Path
    old: Block


def impl_of(trait, it, *attributes):
    return Block(list(attributes), f"impl{it.of_impl} {trait} for {it.whole}")


def unfolding(*names):
    return f"#[tactic(auto, unfolding({', '.join(names)}))]"


def used(crate, file, *names):
    return f"    ghost use Rattle.{crate}.specs.{file}.{{{', '.join(names)}}};"


def used_once(at, crate, file, *names):
    """The same, but for the names that the file uses outside of the impl, where the impl doesn't use them again."""
    if (line := used(crate, file, *names)) in at.old.uses:
        return [line]
    names = [name for name in names if name not in declared.brought(at.file).get(f"Rattle.{crate}.specs.{file}", ())]
    return [used(crate, file, *names)] if names else []


def ghost(name, value):
    return f"    ghost {name} = {{ {value} }};"


def function(head, *lines):
    return "\n".join([signature(head), *lines, "    }"])


def matched(it, at, value, start="match self {", end="}", cases=()):
    """The lines of a match over the cases of an enum, each with what `value` answers of it and of its value's name: the one that stands, or the last word."""
    arms = []
    for case in cases or it.fields:
        found = re.search(rf"\b{it.name}::{case.name}\(([a-z]\w*)\)", at.old.text)
        name = found[1] if found else re.findall(r"[A-Z][a-z0-9]*", case.name)[-1].lower()
        answer = value(case, name)
        is_used = re.search(rf"\b{name}\b", flat(answer))
        arms.append(arm(f"{it.name}::{case.name}" + (f"({name if is_used else '_'})" if case.kind else ""), answer, 12))
    return [f"        {start}", *arms, f"        {end}"]


def brought_by(line):
    """The names that a `ghost use` line brings, operators without the places of what they stand between."""
    return re.findall(r"[^\s{}◌,]+", re.split(r"\.\{| as ", line.rstrip(";"), maxsplit=1)[1])


def text_of(made, old):
    """The text of an impl, with what stays of the one that stands."""
    items = {name: old.items.get(name) if text is KEPT else text for name, text in made.items.items()}
    kept = "".join(items[name] or "" for name, text in made.items.items() if text is KEPT)
    for name, text in made.items.items():
        above = old.items.get(name, "").partition("    fn ")[0]
        if text is not KEPT and above.startswith("    #["):
            items[name] = above + text
    uses = made.uses + [line for line in old.uses if line not in made.uses and any(name in kept for name in brought_by(line))]
    uses.sort(key=lambda line: old.uses.index(line) if line in old.uses else len(old.uses))
    attributes = made.attributes
    if by := re.search(r", using\(.*?\)", " ".join(old.attributes)):
        attributes = [it if "using(" in it else it.replace("))]", f"){by[0]})]") for it in attributes]
    return Block(attributes, made.head, uses, {name: text for name, text in items.items() if text}).text
