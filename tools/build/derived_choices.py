"""The impls that follow from an enum that is a CHOICE, and from the table of its cases in `specs`, or its two forms."""
import dataclasses
import functools
import re

from common import declared
from common.grammar import CHECK, OF_PROFILE, Frame, Unlike, defined, meant, resolved
from common.layout import WIDTH, Call, arm, statement
from derived_parts import KEPT, function, ghost, impl_of, matched, unfolding, used


# the universal identifiers of constructed values, with their octets
CONSTRUCTED = {"Sequence": 0x30, "Set": 0x31}


@dataclasses.dataclass(frozen=True)
class Case(declared.Field):
    """A case with its tag."""

    frame: Frame

    identifier: str

    @property
    def called(self):
        """Its type in front of a function's name."""
        return self.kind.replace("<", "::<", 1)

    @property
    def inferred(self):
        """The same, where what it is of follows from the answer."""
        return self.kind.partition("<")[0]

    @property
    def octet(self):
        """Its identifier octet: that of an implicit tag is constructed where its type is."""
        if not self.frame.tag:
            return f"0x{CONSTRUCTED[self.identifier]:02X}"
        is_constructed = self.frame.tag == "explicit" or self.identifier in CONSTRUCTED
        return f"0x{0x80 + 0x20 * is_constructed + int(self.frame.number):02X}"


@dataclasses.dataclass(frozen=True)
class Choice:
    """A CHOICE: its form, whether that is a table of cases, and its cases."""

    form: declared.Definition
    is_table: bool
    cases: tuple

    @property
    def check(self):
        return OF_PROFILE if CHECK in self.form.kind else ""

    @property
    def use(self):
        return f"    ghost use Rattle.{self.form.crate}.specs.{self.form.file.stem} as grammar;"

    @property
    def has_tags(self):
        """Whether its cases are told apart by their identifier octets."""
        return any(case.frame.tag for case in self.cases)

    def unfolding(self, of_table, of_two):
        return unfolding(f"x509_der::specs::Cases::choice_{of_table}" if self.is_table else f"x509_der::specs::Choice::{of_two}")


@functools.cache
def identifier_of(kind, file):
    """The identifier of a type that has one of a fixed name, or an empty text."""
    of = resolved(meant(kind, file).partition("<")[0], file)
    found = of and next((it for it in declared.impls(of.crate) if it.trait == "Content" and resolved(it.name, it.file) == of), None)
    return found and (re.search(r"const IDENTIFIER: Tag = Tag::(\w+);", found.text) or [""] * 2)[1] or ""


@functools.cache
def choice_of(it):
    """What an enum is as a CHOICE, or none."""
    form, table = defined(it, "Form", "choice ") or defined(it, "Form", "either "), defined(it, "Cases")
    if not it.is_enum or not form:
        return None
    found = [(case.name, "", "") for case in it.fields]
    if table:
        found = re.findall(r"(\w+) holds (?:(implicit|explicit) (\d+) )?", table.body)
    if [name for name, _, _ in found] != [case.name for case in it.fields]:
        raise Unlike(f"{it.name} has other cases than {table.where}")
    cases = [Case(case.name, case.kind, Frame("", *tag), identifier_of(case.kind, it.file)) for case, (_, *tag) in zip(it.fields, found)]
    return Choice(form, bool(table), tuple(cases))


def grammar(it, at):
    choice = choice_of(it)
    if not choice:
        return None

    def of_case(case, name):
        if case.frame.tag:
            return f"explicit_identifier({case.frame.number})" if case.frame.tag == "explicit" else f"implicit_identifier::<{case.kind}>({case.frame.number})"
        return f"Tag::{case.identifier}" if choice.has_tags else f"{name}.identifier()"

    if choice.has_tags:
        start = [f"        matches!(octet, {' | '.join(case.octet for case in choice.cases)})"]
    else:
        parts = [f"{case.called}::is_start(octet)" for case in choice.cases]
        start = [f"        {' || '.join(parts)}"]
        start = start if len(start[0]) <= WIDTH else [f"        {parts[0]}", *(f"            || {part}" for part in parts[1:])]
    made = impl_of("Grammar", it, choice.unfolding("tag", "by_case"))
    made.uses = [*([used("x509_base", "Checked", "CheckRefuses")] if choice.check else []), choice.use]
    made.items = {
        "ghost form": ghost("form", f"grammar.{choice.form.name}{choice.check}"),
        **({"ghost refuses": ghost("refuses", f"CheckRefuses{choice.check}")} if choice.check else {}),
        "fn identifier": function("identifier(&self) -> Tag", *matched(it, at, of_case, cases=choice.cases)),
        "fn is_start": function("is_start(octet: u8) -> bool", *start),
        "fn usual": KEPT,
        "ghost lawful": ghost("lawful", f"grammar.{choice.form.name}_lawful{choice.check}"),
    }
    return made


def one_of(cases, value):
    """The lines that ask of each case but the last whether an element is its."""
    lines = [f"        if {cases[0].called}::is_start(tag) {{"]
    for case, following in zip(cases, [*cases[1:], None]):
        lines.append(statement("", value(case), 12, ""))
        if following:
            lines.append(f"        }} else if {following.called}::is_start(tag) {{" if following != cases[-1] else "        } else {")
    return [*lines, "        }"]


def by_octet(pairs, start, refused, end):
    """The lines of a match over an identifier octet."""
    return [f"        {start}", *(arm(octets, value, 12) for octets, value in pairs), f"            _ => {refused},", f"        {end}"]


def decode(it, at):
    choice = choice_of(it)
    if not choice:
        return None

    def of_tagged(case):
        call = "read_whole" if case.frame.tag == "explicit" else f"{case.inferred}::read_content"
        return Call(f"{it.name}::{case.name}", (Call(call, ("alloc", "content"), "?"),))

    def of_type(case):
        return Call("Ok", (Call(f"{it.name}::{case.name}", (Call(f"{case.inferred}::read", ("alloc", "tag", "content"), "?"),)),))

    made = impl_of("Decode", it, choice.unfolding("reading", "either_reading"))
    if choice.has_tags:
        lines = by_octet([(case.octet, of_tagged(case)) for case in choice.cases], "Ok(match tag {", "return Err(ErrorKind::Malformed.into())", "})")
    else:
        lines = one_of(choice.cases, of_type)
    made.items = {
        "ghost wants_memory": KEPT,
        "fn read": function(f"read(alloc: Global, tag: u8, content: &[u8]) -> Result<{it.whole}, Error>", *lines),
    }
    return made


def encode(it, at):
    choice = choice_of(it)
    if not choice:
        return None
    made = impl_of("Encode", it, choice.unfolding("content", "by_case"))
    is_plain = "ghost writing" not in at.old.items
    made.uses = [used("std", "Prelude", "refl")] if is_plain else []
    made.items = {
        "ghost writing": KEPT,
        "fn put_content": function(
            "put_content<R: Room>(&self, room: &mut R) -> Result<(), Error>",
            *matched(it, at, lambda case, name: f"{name}.put_{'element' if case.frame.tag == 'explicit' else 'content'}(room)", cases=choice.cases),
        ),
        "ghost same_tag": ghost("same_tag", "λ value. refl") if is_plain else KEPT,
    }
    return made


def check(it, at):
    choice = choice_of(it)
    if not choice:
        return None
    made = impl_of("Check", it, choice.unfolding("reading", "either_reading"))
    if choice.has_tags:
        octets = {}
        for case in choice.cases:
            passed = f"pass_whole::<{case.kind}>(content)" if case.frame.tag == "explicit" else f"{case.called}::pass_content(content)"
            octets.setdefault(passed, []).append(case.octet)
        lines = by_octet([(" | ".join(of), passed) for passed, of in octets.items()], "match tag {", "Err(ErrorKind::Malformed.into())", "}")
    else:
        lines = one_of(choice.cases, lambda case: f"{case.called}::pass_element(tag, content)")
    made.items["fn check_element"] = function("check_element(tag: u8, content: &[u8]) -> Result<(), Error>", *lines)
    return made


CHOICES = {"Grammar": grammar, "Decode": decode, "Encode": encode, "Check": check}
