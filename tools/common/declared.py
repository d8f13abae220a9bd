"""What the sources declare: structs and enums with their fields, the impls of their traits, and the definitions of `specs`."""
import dataclasses
import functools
import pathlib
import re

from .crates import TOP

CRATES = TOP / "crates"
TYPE = re.compile(r"(?:pub(?:\(\w+\))? )?(struct|enum) (\w+)(?:<(.*)>)?(?: \{|\((.*)\);|;)$")
FIELD = re.compile(r"    (?:pub(?:\(\w+\))? )?(\w+): (.*),$")
CASE = re.compile(r"    (\w+)(?:\((.*)\))?(?: = \d+)?,$")
IMPL = re.compile(r"impl\b")
ITEM = re.compile(r"    (?:pub )?(ghost|const|type|fn) (\w+)")
DEFINITION = re.compile(r"(?:(?:abbrev|unfoldable) )?(?:pub )?(\S+) : (.*)$")


@dataclasses.dataclass(frozen=True)
class Field:
    """A field with its type, or a case of an enum with the type of its value, which may be none. The field of a tuple struct is `0`."""

    name: str
    kind: str

    @property
    def is_optional(self):
        return self.kind.startswith("Option<")

    @property
    def inner(self):
        """Its type where it is there."""
        return self.kind[len("Option<") : -1] if self.is_optional else self.kind


@dataclasses.dataclass(frozen=True)
class Type:
    file: pathlib.Path
    word: str
    name: str
    parameters: str
    fields: tuple
    derived: frozenset
    docs: str

    @functools.cached_property
    def crate(self):
        return self.file.relative_to(CRATES).parts[0]

    @property
    def is_enum(self):
        return self.word == "enum"

    @property
    def is_tuple(self):
        return [it.name for it in self.fields] == ["0"]

    @functools.cached_property
    def path(self):
        """Where it is declared, as specs name it: `x509_ext`, then `pkix.reasons`."""
        return ".".join(self.file.relative_to(CRATES / self.crate / "src").with_suffix("").parts)

    @property
    def of_impl(self):
        """Its parameters behind `impl`: `<P: Profile>`, without what they are by default."""
        return f"<{', '.join(it.partition(' =')[0] for it in self.parameters.split(', '))}>" if self.parameters else ""

    @property
    def whole(self):
        """Its name with its parameters: `Validity<P>`."""
        return self.name + (f"<{', '.join(re.split('[: ]', it)[0] for it in self.parameters.split(', '))}>" if self.parameters else "")


@dataclasses.dataclass
class Block:
    """An impl, in parts: its attributes, its head, what it uses, and its items by what they are called, as `fn drop`."""

    attributes: list
    head: str
    uses: list = dataclasses.field(default_factory=list)
    items: dict = dataclasses.field(default_factory=dict)

    @property
    def text(self):
        parts = (["\n".join(self.uses)] if self.uses else []) + list(self.items.values())
        body = [*"\n\n".join(parts).split("\n"), "}"] if parts else []
        return "\n".join([*self.attributes, self.head + (" {" if parts else " {}"), *body])

    @classmethod
    def parsed(cls, text):
        lines = text.split("\n")
        at = next(at for at, line in enumerate(lines) if IMPL.match(line))
        found = cls(lines[:at], re.sub(r" \{\}?$", "", lines[at]))
        part = []
        for line in lines[at + 1 : -1]:
            if line.startswith("    ghost use "):
                found.uses.append(line)
            elif line or part:
                part.append(line)
            if part and (named := next(filter(None, map(ITEM.match, part)), None)):
                found.items[" ".join(named.groups())] = "\n".join(part).rstrip("\n")
            if part and not line and named:
                part = []
        return found


@dataclasses.dataclass(frozen=True)
class Impl:
    """An impl of a trait: where it stands, and the name of its type."""

    file: pathlib.Path
    begin: int
    end: int
    trait: str
    name: str
    text: str


@dataclasses.dataclass(frozen=True)
class Definition:
    """A definition of `specs`: its name with its type, and all of its lines."""

    file: pathlib.Path
    begin: int
    end: int
    name: str
    kind: str
    text: str

    @functools.cached_property
    def equation(self):
        """It without its type."""
        said = re.search(rf"^{re.escape(self.name)}(?: [^:\n]*)? =\s.*", self.text, re.M | re.S)
        return said[0] if said else ""

    @property
    def body(self):
        """What it is equal to."""
        return self.equation.partition(" =")[2].strip()

    @property
    def crate(self):
        return self.file.parts[-3]

    @property
    def module(self):
        """Where specs use it from."""
        return f"Rattle.{self.crate}.specs.{self.file.stem}"

    @property
    def where(self):
        """As an attribute of code names it, in another crate."""
        return f"{self.crate}::{self.inside.partition('::')[2]}"

    @property
    def inside(self):
        """The same in its crate."""
        return f"crate::specs::{self.file.stem}::{self.name}"


@functools.cache
def lines_of(file):
    return tuple(file.read_text(encoding="utf-8").split("\n"))


@functools.cache
def sources(crate):
    return tuple(sorted((CRATES / crate / "src").rglob("*.rt")))


@functools.cache
def types(crate):
    """The structs and enums that a crate declares."""
    found = []
    for file in sources(crate):
        lines = lines_of(file)
        for at, line in enumerate(lines):
            if named := TYPE.match(line):
                word, name, parameters, value = named.groups()
                end = lines.index("}", at) if line.endswith("{") else at
                begin = at
                while lines[begin - 1].startswith(("///", "#[")):
                    begin -= 1
                above = lines[begin:at]
                derived = re.findall(r"\w+", " ".join(it for it in above if it.startswith("#[derive")))
                parts = filter(None, map((CASE if word == "enum" else FIELD).match, lines[at + 1 : end]))
                fields = [Field("0", re.sub(r"^pub ", "", value))] if value else [Field(it[1], it[2] or "") for it in parts]
                docs = "\n".join(it[3:].removeprefix(" ") for it in above if it.startswith("///"))
                found.append(Type(file, word, name, parameters or "", tuple(fields), frozenset(derived), docs))
    return tuple(found)


@functools.cache
def impls(crate):
    """The impls of traits in a crate, with their attributes; those whose type is a bare parameter are left out."""
    found = []
    for file in sources(crate):
        lines, at = lines_of(file), 0
        while at < len(lines):
            if IMPL.match(lines[at]):
                begin = at
                while lines[begin - 1].startswith("#["):
                    begin -= 1
                head = lines[at]
                if not head.endswith("{}"):
                    at = lines.index("}", at)
                if named := re.match(r"impl(?:<.*?>)? (\w+) for (\w\w+)", head):
                    found.append(Impl(file, begin, at + 1, *named.groups(), "\n".join(lines[begin : at + 1])))
            at += 1
    return tuple(found)


@functools.cache
def definitions(crate):
    """The definitions in the specs of a crate."""
    found = []
    for file in sorted((CRATES / crate / "specs").glob("*.antt")):
        lines = lines_of(file)
        for at, line in enumerate(lines):
            if named := DEFINITION.match(line):
                end = at + 1
                while end < len(lines) and lines[end]:
                    end += 1
                found.append(Definition(file, at, end, *named.groups(), "\n".join(lines[at:end])))
    return tuple(found)


@functools.cache
def aliases(crate):
    """What the names of types stand for that a crate gives others."""
    found = {}
    for file in sources(crate):
        found.update(re.findall(r"^pub type (\w+)(?:<.*?>)? = (.*);$", "\n".join(lines_of(file)), re.M))
    return found


@functools.cache
def brought(file):
    """The names that a file's own `ghost use` lines bring, of each module."""
    found = {}
    for line in lines_of(file):
        if used := re.match(r"ghost use ([\w.]+)\.\{(.*)\};$", line):
            found.setdefault(used[1], set()).update(used[2].split(", "))
    return found

