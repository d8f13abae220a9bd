"""The impls that follow from a type: for each trait a function that answers the impl of a type, or none. It is asked with where the impl stands, and how."""
import dataclasses
import re

from common.declared import Block
from common.grammar import CHECK, OF_PROFILE, are_plain, defined, grammar_of, has_impl, is_plain
from common.layout import Call, Chain, Literal, signature, statement
from derived_choices import CHOICES, choice_of
from derived_parts import KEPT, TAGS, At, function, ghost, impl_of, matched, text_of, unfolding, used, used_once

FRAMES = "x509_der::specs::Frames"


def drop(it, at):
    if not it.fields or "Copy" in it.derived or "Drop" in it.derived:
        return None
    made = impl_of("Drop", it)
    if it.is_enum:
        lines = ["        match self {", *(f"            {it.name}::{case.name}{'(_)' if case.kind else ''} => {{}}" for case in it.fields), "        }"]
    else:
        lines = [statement("let ", Literal(it.name, tuple(f"{field.name}: _" for field in it.fields)), end=" = self;")]
    made.items["fn drop"] = function("drop(self)", *lines)
    return made


def try_clone(it, at):
    def of_field(field, name):
        return f"{name}self.{field.name}" if is_plain(field.kind, it.file) else Chain(("self", field.name, "try_clone(alloc)?"), name)

    def of_case(case, name):
        return Call(f"{it.name}::{case.name}", (f"*{name}" if is_plain(case.kind, it.file) else Call(f"{name}.try_clone", ("alloc",), "?"),))

    made = impl_of("TryClone", it)
    if "Copy" in it.derived:
        value = "*self"
    elif it.is_tuple:
        value = Call(it.name, (of_field(it.fields[0], ""),))
    else:
        value = Literal(it.name, tuple(of_field(field, f"{field.name}: ") for field in it.fields))
    lines = [statement("", Call("Ok", (value,)), end="")]
    if "Copy" in it.derived or are_plain(it):
        made.uses = used_once(at, "std", "Prelude", "◌≡◌", "Ok")
        head = signature(f"try_clone(&self, _alloc: Global) -> Result<{it.whole}, Error>", "")
        made.items["fn try_clone"] = "\n".join([head, "        ensures { result ≡ Ok self.now }", "    {", *lines, "    }"])
    else:
        lines = matched(it, at, of_case, "Ok(match self {", "})") if it.is_enum else lines
        made.items["fn try_clone"] = function(f"try_clone(&self, alloc: Global) -> Result<{it.whole}, Error>", *lines)
    return made


# ---- named numbers and named bits


@dataclasses.dataclass(frozen=True)
class Names:
    """What a type of named numbers or bits is in its specs: the file, the identifier, of bits how a set is a number, and the table of names."""

    file: str
    tag: str
    set: str
    table: str

    @property
    def kind(self):
        return "flag" if self.set else "named"

    @property
    def call(self):
        return "named_bits" if self.set else "named_number"

    @property
    def compared(self):
        return "cmp_named_bits" if self.set else "cmp_named_numbers"

    @property
    def all(self):
        return f"{self.set} {self.table}" if self.set else self.table

    @property
    def used(self):
        return (self.table, self.set) if self.set else (self.table,)

    @property
    def attributes(self):
        """Of what reads or checks it."""
        return ["#[tactic(auto, using(x509_prim::specs::NamedBitsLaws::flag_is_read))]"] if self.set else []


def names_of(it):
    """Of a type of named numbers or bits what it is in its specs, else none."""
    if form := defined(it, "Form", "named_form "):
        _, tag, table = form.body.split()
        return Names(form.file.stem, tag, "", table)
    if form := defined(it, "Form", "flag_bits "):
        return Names(form.file.stem, "BitString", *form.body.split()[1:])
    return None


def content_of_names(it, names):
    of_bits, file = bool(names.set), "NamedBits" if names.set else "Names"
    made = impl_of("Content", it, *names.attributes)
    made.uses = [
        used(*TAGS, names.tag),
        used(it.crate, names.file, *names.used),
        used("x509_prim", file, f"{names.kind}_contents", *(["flag_writing"] if of_bits else [])),
        used("x509_prim", f"{file}Laws", f"{names.kind}_contents_lawful"),
    ]
    made.items = {
        "ghost contents": ghost("contents", f"{names.kind}_contents {names.all}"),
        "ghost takes_memory": ghost("takes_memory", "⊥"),
        **({"ghost written_as": ghost("written_as", f"flag_writing {names.all}")} if of_bits else {}),
        "ghost IDENTIFIER": ghost("IDENTIFIER", names.tag),
        "const IDENTIFIER": f"    const IDENTIFIER: Tag = Tag::{names.tag};",
        "fn read_content": function(f"read_content(_alloc: Global, octets: &[u8]) -> Result<{it.whole}, Error>", f"        read_{names.call}(octets)"),
        "fn write_content": function("write_content<R: Room>(&self, room: &mut R) -> Result<(), Error>", f"        put_{names.call}(self, room)"),
        "ghost contents_lawful": ghost("contents_lawful", f"{names.kind}_contents_lawful {names.all}"),
    }
    return made


def order_of_names(it, names):
    made = impl_of("ValueOrd", it)
    if names.set:
        order, writing, of_writing = names.all, f"(flag_writing {names.all})", ["writes"]
        made.uses = [used("x509_prim", "NamedBits", "flag_writing"), used("x509_prim", "SetOrder", "flag_order", "flag_ordered")]
    else:
        order, writing, of_writing = f"{names.tag} {names.table}", "plain", ["plain", "writes"]
        made.uses = [used(*TAGS, names.tag), used("x509_prim", "NamesLaws", "named_order", "named_ordered")]
    made.uses += [used("x509_der", "Writing", *of_writing), used(it.crate, names.file, *names.used)]
    made.items = {
        "ghost order": ghost("order", f"{names.kind}_order {order}"),
        "fn value_cmp": function(f"value_cmp(&self, other: &{it.whole}) -> Ordering", f"        {names.compared}(self, other)"),
        "ghost ordered": ghost("ordered", f"{names.kind}_ordered {order} (writes {writing})"),
    }
    return made


# ---- sequences


def put(tree, leaf, end):
    """The lines that make a tuple of the fields and hand it on; where the grammar has two groups, they make each of these first."""

    def tupled(tree):
        return Call("", tuple(map(tupled, tree))) if isinstance(tree, tuple) else leaf(tree)

    if isinstance(tree, tuple) and isinstance(tree[0], tuple):
        groups = [statement(f"let {name} = ", tupled(part)) for name, part in zip(("front", "behind"), tree)]
        return [*groups, f"        (front, behind).{end}"]
    return [statement("let parts = ", tupled(tree)), f"        parts.{end}"]


def asked(field, call, *before):
    """A call that reads or checks a field."""
    kind = field.inner if field.frame.presence == "optional" else field.kind
    return Call(f"{call}_{field.frame.name or 'field'}::<{kind}>", (*before, *field.frame.arguments, "&mut rest"), "?")


def content(it, at):
    if names := names_of(it):
        return content_of_names(it, names)
    grammar = grammar_of(it)
    if grammar is None:
        return None

    def part(field):
        place = f"&self.{field.name}"
        return Call(field.frame.name, (*field.frame.arguments, place)) if field.frame.name else place

    made = impl_of("Content", it, unfolding(grammar.line.inside, f"{FRAMES}::fields_reading", f"{FRAMES}::fields_octets"))
    made.uses = [*([used("x509_base", "Checked", "CheckRefuses")] if grammar.check else []), used(*TAGS, "Sequence"), grammar.use]
    value = Literal(it.name, tuple(field.name for field in grammar.fields))
    made.items = {
        "ghost contents": ghost("contents", f"grammar.{grammar.name}{grammar.check}"),
        **({"ghost refusals": ghost("refusals", f"CheckRefuses{grammar.check}")} if grammar.check else {}),
        **({"ghost takes_memory": ghost("takes_memory", "⊥")} if are_plain(it) else {}),
        "ghost written_as": KEPT,
        "ghost IDENTIFIER": ghost("IDENTIFIER", "Sequence"),
        "const IDENTIFIER": "    const IDENTIFIER: Tag = Tag::Sequence;",
        "fn read_content": function(
            f"read_content(alloc: Global, octets: &[u8]) -> Result<{it.whole}, Error>",
            "        let mut rest = octets;",
            *(statement(f"let {field.name} = ", asked(field, "read", "alloc")) for field in grammar.fields),
            "        end(rest)?;",
            statement("", Call("Ok", (value,)), end=""),
        ),
        "fn write_content": function("write_content<R: Room>(&self, room: &mut R) -> Result<(), Error>", *put(grammar.tree, part, "put_part(room)")),
        "fn has_long_content": KEPT,
        "ghost contents_lawful": ghost("contents_lawful", f"grammar.{grammar.name}_lawful{grammar.check}"),
    }
    return made


def value_ord(it, at):
    if names := names_of(it):
        return order_of_names(it, names)
    grammar, of = grammar_of(it), defined(it, "Order")
    if not grammar or not of:
        return None

    def both(field):
        name = "_".join(filter(None, ("both", field.frame.name)))
        return Call(name, (*field.frame.arguments, f"&self.{field.name}", f"&other.{field.name}"))

    if of.body.startswith("by_parts"):
        lines = put(grammar.tree, both, "cmp_part(None, None)")
    elif len(grammar.fields) != 2:
        return None
    else:
        first, last = grammar.fields
        is_optional = last.frame.presence == "optional"
        behind = f"cmp_optional(&self.{last.name}, &other.{last.name})" if is_optional else f"self.{last.name}.der_cmp(&other.{last.name})"
        lines = [statement("", Chain(("self", first.name, f"der_cmp(&other.{first.name})", f"then({behind})")), end="")]
    arguments = OF_PROFILE if CHECK in of.kind else ""
    arguments += "".join(f" ⟦<{kind}<P> as Encode>⟧.writing" for kind in re.findall(r"→ Writing \((\w+) P\)", of.kind))
    made = impl_of("ValueOrd", it)
    made.uses = [grammar.use]
    made.items = {
        "ghost order": ghost("order", f"grammar.{of.name}{arguments}"),
        "fn value_cmp": function(f"value_cmp(&self, other: &{it.whole}) -> Ordering", *lines),
        "ghost ordered": ghost("ordered", f"grammar.{of.name}ed{arguments}"),
    }
    return made


def spelled(it, at):
    def of_field(field):
        if field.frame.presence == "optional":
            return Call("option_has_spelling", (f"&self.{field.name}",))
        return Chain(("self", field.name, "has_spelling()"))

    made = impl_of("Spelled", it)
    made.items["ghost premise"] = KEPT
    if names := names_of(it):
        lines = ["        let _set = self.0;"] if names.set else []
    elif it.is_tuple:
        lines = ["        self.0.has_spelling();"]
    elif grammar := grammar_of(it):
        made.attributes = [unfolding(grammar.line.inside, f"{FRAMES}::fields_good")]
        lines = [statement("", of_field(field)) for field in grammar.fields]
    elif choice_of(it):
        made.attributes = [choice_of(it).unfolding("good", "either_good")]
        lines = matched(it, at, lambda case, name: f"{name}.has_spelling()")
    elif not any(field.kind for field in it.fields):
        lines = []
    else:
        return None
    made.items["fn has_spelling"] = function("has_spelling(&self)", *lines) if lines else "    fn has_spelling(&self) {}"
    return made


def check_content(it, at):
    made = impl_of("CheckContent", it)
    if grammar := grammar_of(it):
        made.attributes = [unfolding(grammar.line.where, f"{FRAMES}::fields_reading")]
        lines = ["        let mut rest = octets;", *(statement("", asked(field, "check")) for field in grammar.fields), "        end(rest)"]
    elif has_impl("x509_check", "PlainContent", it):
        lines = [f"        {it.name}::plain_value(octets)?;", "        Ok(())"]
    elif names := names_of(it):
        made.attributes = names.attributes
        lines = [f"        read_{names.call}::<{it.name}>(octets)?;", "        Ok(())"]
    else:
        return None
    made.items["fn check_content"] = function("check_content(octets: &[u8]) -> Result<(), Error>", *lines)
    return made


# ---- sets, and types round one value


def set_ord(it, at):
    made = impl_of("SetOrd", it)
    made.items["ghost set_order"] = ghost("set_order", f"⟦<{it.whole} as EncodingOrd>⟧.encoding_order")
    return made


def set_member(it, at):
    made = impl_of("SetMember", it)
    made.uses = used_once(at, "std", "Prelude", "refl")
    made.items["ghost in_der_order"] = ghost("in_der_order", "refl")
    return made


def newtype(it, at):
    round_ = defined(it, "Round")
    if not it.is_tuple or not round_ and "ghost round" not in at.old.items:
        return None
    made, kind = impl_of("Newtype", it), it.fields[0].kind
    made.uses = [used(it.crate, round_.file.stem, round_.name)] if round_ else []
    made.items = {
        "type Inner": f"    type Inner = {kind};",
        "ghost round": ghost("round", round_.name) if round_ else KEPT,
        "fn inner": function(f"inner(&self) -> &{kind}", "        &self.0"),
        "fn from_inner": function(f"from_inner(inner: {kind}) -> {it.whole}", f"        {it.name}(inner)"),
    }
    return made


def marker(trait):
    return lambda it, at: impl_of(trait, it)


IMPLS = {
    "Drop": drop,
    "TryClone": try_clone,
    "Content": content,
    **CHOICES,
    "Newtype": newtype,
    "NewtypeOrd": marker("NewtypeOrd"),
    "ValueOrd": value_ord,
    "SetOrd": set_ord,
    "SetMember": set_member,
    "Spelled": spelled,
    "CheckContent": check_content,
    "NewtypeCheck": marker("NewtypeCheck"),
}
# in the order in which a type has them, with those that stand among them
ORDER = ("Drop", "AssociatedOid", "FixedCriticality", "Criticality", *(trait for trait in IMPLS if trait != "Drop"))
# those that stand in x509_check
CHECKS = ("CheckContent", "NewtypeCheck", "Check")


def wanted(it):
    """The traits of which a type with a grammar has an impl that follows from it."""
    at = At(it.file, Block([], ""))
    if choice_of(it):
        traits = ["Drop", "TryClone", *CHOICES, "Spelled"]
    elif grammar_of(it) or names_of(it):
        order = ["ValueOrd", "SetOrd", "SetMember"] if value_ord(it, at) else []
        traits = ["Drop", "TryClone", "Content", *order, "Spelled", "CheckContent"]
    else:
        order = ["SetOrd", "SetMember"] if has_impl(it.crate, "NewtypeOrd", it) else []
        traits = ["Newtype", *order, "NewtypeCheck"] if it.is_tuple and defined(it, "Round") else []
    return [trait for trait in traits if IMPLS[trait](it, at)]


def written(trait, it, at):
    """The text of an impl, or none."""
    made = IMPLS[trait](it, at)
    return made and text_of(made, at.old)
