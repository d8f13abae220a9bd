"""The functions of a crate's sources in Rattle, with their docs and contracts, and which of them other crates can call."""
import dataclasses
import pathlib
import re

from .crates import TOP

NAMED = re.compile(r"(pub )?(?:pub\(\w+\) )?(?:const )?(?:final )?(?:extern \"C\" )?fn (\w+)")
BLOCK = re.compile(r"(pub )?(?:impl|trait)\b")
SIGNATURE = re.compile(r"\b(?:ensures|requires|where|ghost)\b")


@dataclasses.dataclass(frozen=True)
class Function:
    """A function: its file, the head of the impl or the trait that it stands in, or none, its docs and attributes, its head with its contract, its body, and
    the first and the last of its lines, behind the docs and from 1."""

    file: pathlib.Path
    block: str
    is_public: bool
    name: str
    docs: str
    head: str
    body: str
    first: int
    last: int

    @property
    def answer(self):
        """The type that it answers."""
        told = re.search(r"->\s*(.*)", SIGNATURE.split(self.head, 1)[0].rstrip(" {;\n"), re.S)
        return " ".join(told[1].split()) if told else ""

    @property
    def errors(self):
        """What its docs say under `# Errors`."""
        return self.docs.partition("# Errors")[2]

    @property
    def contract(self):
        return self.head.partition("ensures")[2]


def source_of(crate):
    return TOP / "crates" / crate / "src"


def _ends_declaration(lines):
    """Whether a function without a body ends here: no `;` of a record in a clause does that."""
    return lines[-1].endswith("{}") or lines[-1].endswith(";") and sum(it.count("{") - it.count("}") for it in lines) == 0


def functions(file):
    """The functions of a file, in its order, as `rt fmt` lays them out: those outside of blocks, and those of impls and traits."""
    lines, block, docs, at = file.read_text(encoding="utf-8").split("\n"), "", [], 0
    while at < len(lines):
        line, text = lines[at], lines[at].strip()
        depth = 4 if block else 0
        if BLOCK.match(line):
            block = line
        elif line == "}":
            block = ""
        elif text.startswith(("///", "#[")):
            docs.append(text)
        elif NAMED.match(text) and line.index(text) == depth:
            begin, has_clauses = at, False
            while not _ends_declaration(lines[begin : at + 1]) and not lines[at] == " " * depth + "{" and (has_clauses or not lines[at].endswith(" {")):
                at += 1
                has_clauses = has_clauses or lines[at].lstrip().startswith(("ensures", "requires"))
            head = at
            while lines[head].endswith("{") and lines[at] != " " * depth + "}":
                at += 1
            named = NAMED.match(text)
            parts = "\n".join(lines[begin : head + 1]), "\n".join(lines[head + 1 : at])
            yield Function(file, block, named[1] is not None, named[2], "\n".join(docs), *parts, begin + 1, at + 1)
            docs = []
        else:
            docs = []
        at += 1


def all_functions(crate):
    for file in sorted(source_of(crate).rglob("*.rt")):
        yield from functions(file)


def passed_on(crate):
    """The names that a crate passes on to others: by `pub use`, and of what its public modules have."""
    found, todo = set(), [source_of(crate) / "lib.rt"]
    while todo:
        file = todo.pop()
        text = file.read_text(encoding="utf-8")
        found.update(re.findall(r"^pub (?:struct|enum|trait|fn|type) (\w+)", text, re.M))
        for used in re.findall(r"^pub use ([^;]*);", text, re.M):
            found.update(re.findall(r"(\w+)\s*(?=[,}]|\Z)", used))
        folder = file.parent if file.name == "lib.rt" else file.with_suffix("")
        todo += [folder / f"{name}.rt" for name in re.findall(r"^pub mod (\w+);", text, re.M)]
    return found


def without_parameters(text):
    """What stands behind the parameters of types in angle brackets."""
    depth = 0
    for at, char in enumerate(text):
        depth += (char == "<") - (char == ">" and text[at - 1] != "-")
        if depth == 0:
            return text[at + (char == ">") :].strip()
    return text


def owner(function):
    """The type or the trait whose function it is, or none; of an impl of a trait nothing is told."""
    named = re.match(r"(?:pub )?(impl|trait)\b ?(.*)", function.block)
    behind = without_parameters(named[2]) if named[1] == "impl" else named[2]
    return None if re.search(r"\bfor\b", behind) and named[1] == "impl" else re.match(r"\w+", behind)[0]


def calls(crate):
    """What other crates can call of a crate, but for what impls of traits have: each name, as `Any::new` or `read_whole`, and the function."""
    names = passed_on(crate)
    for it in all_functions(crate):
        if not it.block:
            if it.is_public and it.name in names:
                yield it.name, it
        elif (of := owner(it)) in names and (it.is_public or it.block.startswith("pub trait")):
            yield f"{of}::{it.name}", it
