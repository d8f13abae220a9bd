"""What types mean: which type a name stands for, what is copied as it is, and the grammar of a sequence, as its struct, docs and grammar line have it."""
import collections
import dataclasses
import functools
import re

from . import declared
from .declared import CRATES

OF_TYPES = ("x509_der", "x509_prim", "x509_base", "x509_name", "x509_ext", "x509_sct", "x509_cert", "x509_check")
NUMBERS = {"u8", "u16", "u32", "u64", "u128", "usize"}
# of a grammar: the check that its serial numbers have to pass, and the one of a profile
CHECK, OF_PROFILE = "(List ℕ → Result Unit ErrorKind) → ", " P.serial_check"


@functools.cache
def all_types():
    found = collections.defaultdict(list)
    for crate in OF_TYPES:
        for it in declared.types(crate):
            found[it.name].append(it)
    return found


def module_of(file, name):
    """The modules that a file imports a name from, as parts."""
    for path, several, one in re.findall(r"^use ([\w:]+)::(?:\{([^}]*)\}|(\w+));", "\n".join(declared.lines_of(file)), re.M):
        if name in re.findall(r"\w+", several or one):
            return path.replace("crate", file.relative_to(CRATES).parts[0], 1).split("::")
    return []


def resolved(name, file):
    """The type of this name in a file, or none. Where there are several it is the file's own, or the one below the module that it is imported from."""
    found = all_types().get(name, [])
    if len(found) > 1:
        modules = module_of(file, name)
        found = [it for it in found if it.file == file] or [it for it in found if modules and set(modules) <= {it.crate, *it.path.split(".")}]
    return found[0] if len(found) == 1 else None


def meant(kind, file):
    """What a type stands for that may be an alias."""
    for crate in OF_TYPES:
        if kind in declared.aliases(crate):
            return meant(declared.aliases(crate)[kind], file)
    return kind


@functools.cache
def has_impl(crate, trait, of):
    return any(it.trait == trait and resolved(it.name, it.file) == of for it in declared.impls(crate))


def is_plain(kind, file):
    """Whether values of a type are copied as they are."""
    kind = meant(kind, file)
    if inner := re.match(r"(?:Option<|\[)(.*?)(?:>|; \w+\])$", kind):
        return is_plain(inner[1], file)
    it = resolved(re.match(r"\w*", kind)[0], file)
    return kind in NUMBERS | {"bool"} or it is not None and ("Copy" in it.derived or has_impl(it.crate, "Copy", it))


def are_plain(it):
    return bool(it.fields) and all(is_plain(field.kind, it.file) for field in it.fields)


@dataclasses.dataclass(frozen=True)
class Frame:
    """How a field stands in its sequence, as its grammar line says: `optional`, `defaulted` or neither, under which kind of tag, and its number."""

    presence: str
    tag: str
    number: str

    @property
    def name(self):
        """What reads it, writes it or compares it is called so."""
        return "_".join(filter(None, (self.presence, self.tag)))

    @property
    def arguments(self):
        return (self.number,) if self.tag else ()

    def __str__(self):
        return " ".join(filter(None, (self.presence or "required", self.tag, self.number)))


@functools.cache
def using(crate):
    """The definitions of a crate by each type of its that their file uses."""
    found, own = collections.defaultdict(list), re.compile(rf"use Rattle\.{crate}\.specs\.declared\.([\w.]+?)(?:\.TheVariants)?(?:\.\{{| as )")
    for it in declared.definitions(crate):
        for name in {used[1] for used in map(own.match, declared.lines_of(it.file)) if used}:
            found[name].append(it)
    return found


def defined(it, kind, body=""):
    """The definition of a type in the specs of its crate whose type is `kind` of it, and whose body begins so, or none."""
    wanted = re.compile(rf"(?:^|→ ){kind} \(?{it.name}\b(?! ×)")
    return next((found for found in using(it.crate)[f"{it.path}.{it.name}"] if wanted.search(found.kind) and found.body.startswith(body)), None)


def parsed(text):
    """A term of a grammar: a product as a pair, and else a list of words and terms."""
    words = re.findall(r"[()⊗]|[^\s()⊗]+", text)

    def product():
        parts = []
        while words and words[0] not in ")⊗":
            word = words.pop(0)
            parts.append(product() if word == "(" else word)
        one = parts[0] if len(parts) == 1 else parts
        if words and words.pop(0) == "⊗":
            return one, product()
        return one

    return product()


def framed(term, file):
    """The frames of a term, in its pairs. What else a file calls a frame is defined there."""
    if isinstance(term, tuple):
        return tuple(framed(part, file) for part in term)
    head, *arguments = [term] if isinstance(term, str) else term
    if head not in ("required", "optional", "defaulted"):
        shortened = next(it for it in declared.definitions(file.parts[-3]) if it.file == file and it.name == head)
        names = re.search(rf"^{head}((?: \S+)*?) =", shortened.text, re.M)[1].split()
        given = dict(zip(names, arguments))
        return framed(parsed(" ".join(given.get(word, word) for word in re.findall(r"[()]|[^\s()]+", shortened.body))), file)
    form = arguments[-1]
    tag, number = form[:2] if isinstance(form, list) and form[0] in ("implicit", "explicit") else ("", "")
    return Frame("" if head == "required" else head, tag, number)


def leaves(tree):
    return [leaf for part in tree for leaf in leaves(part)] if isinstance(tree, tuple) else [tree]


def placed(tree, parts):
    """The parts of fields in the pairs of their grammar."""
    parts = iter(parts)

    def place(tree):
        return tuple(place(part) for part in tree) if isinstance(tree, tuple) else next(parts)

    return place(tree)


@dataclasses.dataclass(frozen=True)
class Coded(declared.Field):
    """A field that is encoded, in its frame."""

    frame: Frame


@dataclasses.dataclass(frozen=True)
class Grammar:
    """The grammar of a sequence: the definition of its contents, its grammar line, and the fields in the pairs in which that has them."""

    contents: declared.Definition
    line: declared.Definition
    tree: tuple

    @property
    def name(self):
        return self.contents.name

    @property
    def fields(self):
        return leaves(self.tree)

    @property
    def check(self):
        """The check that it takes, where it takes one, as an argument of a profile."""
        return OF_PROFILE if CHECK in self.contents.kind else ""

    @property
    def use(self):
        return f"    ghost use Rattle.{self.contents.crate}.specs.{self.contents.file.stem} as grammar;"


class Unlike(Exception):
    """A struct, its docs and its grammar line don't say the same."""


@functools.cache
def grammar_of(it):
    """The grammar of a type that is a sequence, or none."""
    contents = None if it.is_enum else defined(it, "Contents", "fields")
    if contents is None:
        return None
    name = re.search(r"\(?(\w+)(?: check\))?$", contents.body)[1]
    line = next(found for found in declared.definitions(it.crate) if found.name == name)
    tree, fields = framed(parsed(line.body), line.file), coded(it)
    frames = leaves(tree)
    if len(fields) != len(frames):
        raise Unlike(f"{it.name} has {len(fields)} fields, and {line.where} {len(frames)}")
    for said, others in (("docs", of_docs(it)), ("comment", of_comment(line.file, [field.name for field in fields]))):
        if len(fields) != len(others):
            raise Unlike(f"{it.name} has {len(fields)} fields, and its {said} {len(others)}")
        for field, frame, other in zip(fields, frames, others):
            if frame != other:
                raise Unlike(f"{it.name}.{field.name} is {other} in its {said}, and {frame} in {line.where}")
    for field, frame in zip(fields, frames):
        if (frame.presence == "optional") != field.is_optional:
            raise Unlike(f"{it.name}.{field.name} is {field.kind}, and {frame} in {line.where}")
    return Grammar(contents, line, placed(tree, [Coded(field.name, field.kind, frame) for field, frame in zip(fields, frames)]))


def coded(it):
    """The fields that are encoded."""
    return [field for field in it.fields if not field.kind.startswith("PhantomData")]


def of_docs(it):
    """The frames of the fields of a sequence, as the ASN.1 in its docs has them."""
    said = re.search(r"::= SEQUENCE \{((?:[^{}]|\{[^{}]*\})*)\}", it.docs)
    found = []
    for part in re.findall(r"(?:[^,(){}]|\([^)]*\)|\{[^}]*\})+", said[1]) if said else ():
        words = part.split()
        presence = "optional" if words[-1] == "OPTIONAL" else "defaulted" if "DEFAULT" in words else ""
        tag, number = "", ""
        if tagged := re.search(r"\[(\d+)\]", part):
            tag, number = "implicit" if "IMPLICIT" in words else "explicit", tagged[1]
        found.append(Frame(presence, tag, number))
    return found


def of_comment(file, names):
    """The same, as a comment of its file of specs has them; none where no comment has fields of these names."""
    comment = " ".join(line[3:] for line in declared.lines_of(file) if line.startswith("-- "))
    for part in re.split(r" (?=[A-Z]\w+: [a-z]\w*: )", comment):
        found = re.findall(r"\b([a-z]\w*): (?:([{[])(\d+)[}\]])?([^,]*)", part)
        if [name for name, *_ in found] == names:
            rests = [rest.split(" (")[0].strip() for *_, rest in found]
            presences = ["optional" if "?" in rest else "defaulted" if "=" in rest else "" for rest in rests]
            tags = [{"{": "explicit", "[": "implicit", "": ""}[bracket] for _, bracket, _, _ in found]
            return [Frame(presence, tag, number) for presence, tag, (_, _, number, _) in zip(presences, tags, found)]
    return []
