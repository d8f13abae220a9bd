"""The definitions of `specs` that repeat the fields of a type: its contents, its order and its equality, the search for its law, and the
types of its grammar line and of its order.

What doesn't follow from the fields stays as it is: which letter stands for a value, and where a line is broken.
"""
import collections
import dataclasses
import functools
import re

from common import declared
from common.grammar import NUMBERS, OF_TYPES, coded, defined, grammar_of, meant, resolved

# ---- terms


def paired(tree, leaf=str):
    return f"({paired(tree[0], leaf)}, {paired(tree[1], leaf)})" if isinstance(tree, tuple) else leaf(tree)


def nested(parts):
    """Parts in pairs, each with all that follow it."""
    return (parts[0], nested(parts[1:])) if len(parts) > 1 else parts[0]


def grouped(term):
    return f"({term})" if " " in term else term


def record_of(fields):
    return f"record {{ {'; '.join(f'{field.name} = {field.name}' for field in fields)} }}"


def letter(it, old):
    """The letter for a value."""
    found = re.search(r"\(λ \(?(\w+)[. ]|= λ (\w+)\.", old.equation)
    return found[1] or found[2] if found else it.name[0].lower()


def arguments(equation):
    """The words of an equation, and what stands in its outermost brackets."""
    found, depth = [""], 0
    for char in equation:
        depth += (char in "({") - (char in ")}")
        if char.isspace() and not depth:
            found.append("")
        else:
            found[-1] += " " if char.isspace() else char
    return [re.sub(r" +", " ", it) for it in found if it]


def broken_as(made, old):
    """An equation, with its lines broken where those of the one that stands are."""
    if "\n" not in old:
        return made
    if "&& (" in made:
        head, _, tests = made.partition(" = ")
        return f"{head} =\n    " + re.sub(r" && (?!\()", " &&\n    ", tests).replace("&& (", "&& (\n    ")
    parts, lines = arguments(made), []
    for line in old.split("\n"):
        count = len(arguments(line))
        lines += [re.match(r" *", line)[0] + " ".join(parts[:count])] if parts else []
        del parts[:count]
    return "\n".join(lines) + "".join(f" {it}" for it in parts)


def words(equation):
    """What an equation says, however its lines are broken."""
    return re.findall(r"[()]|[^\s()]+", re.sub(r",\s*\)", ")", equation))


# ---- what specs know of types


@functools.cache
def imports(file):
    """What the names stand for that a file of specs uses: the path of each."""
    found = {}
    for line in declared.lines_of(file):
        if used := re.match(r"use (\S+?)(?:\.\{(?:enum as )?(\w+)\}| as (\w+))$", line):
            found[used[2] or used[3]] = used[1]
    return found


def named(path, part):
    """The type that a path of `specs.declared` or `specs.contracts` names, or none."""
    crate, _, rest = path.removeprefix("Rattle.").partition(f".specs.{part}.")
    return next((it for it in declared.types(crate) if rest == f"{it.path}.{it.name}"), None) if crate in OF_TYPES else None


@functools.cache
def model(it):
    """What contracts see of a value, where that isn't its fields."""
    for found in declared.impls(it.crate):
        if found.trait == "Model" and resolved(found.name, found.file) == it:
            return re.search(r"ghost Value = \{ (.*?) \};", found.text)[1]
    return ""


def seen(it):
    """What contracts see of a value."""
    return model(it) or it.name + (" P" if it.parameters else "")


@dataclasses.dataclass(frozen=True)
class Words:
    """How something is said of numbers, truth values, octets, options and lists."""

    number: str
    bool: str
    octets: str
    option: str
    list: str


def told(kind, file, as_words, other):
    """What is said of a type in these words, and by `other` of a type that it hands on, with its name."""
    kind = meant(kind, file)
    name, _, inner = kind.partition("<")
    of = resolved(name, file)
    if kind in NUMBERS:
        return as_words.number
    if kind == "bool":
        return as_words.bool
    if re.match(r"\[u8; \w+\]$", kind) or of and model(of) == "List ℕ":
        return as_words.octets
    if name == "Option" or of and model(of) == "List T":
        return f"{as_words.option if name == 'Option' else as_words.list} {grouped(told(inner[:-1], file, as_words, other))}"
    return other(of, name)


# ---- contents and orders


def contents(it, old):
    grammar, x = grammar_of(it), letter(it, old)
    check, line = (" check", f"({grammar.line.name} check)") if grammar.check else ("", grammar.line.name)
    made = f"(λ {paired(grammar.tree, lambda field: field.name)}. {record_of(coded(it))})"
    return f"{old.name}{check} = fields (λ {x}. {paired(grammar.tree, lambda field: f'{x}.{field.name}')}) {made} {line}"


def taken(it, old):
    """All fields of a value, in the pairs of the grammar, where a definition has them."""
    x = letter(it, old)
    parts = paired(grammar_of(it).tree, lambda field: f"{x}.{field.name}")
    return re.sub(rf"(?<=λ {x}\. )[( ]+{x}\.[\w ,().]*?(?=\) |$)", lambda found: parts, " ".join(old.equation.split()), count=1)


def product(tree, file):
    if isinstance(tree, tuple):
        return " × ".join(f"({product(part, file)})" if isinstance(part, tuple) else product(part, file) for part in tree)
    return told(tree.kind, file, Words("ℕ", "Bool", "List ℕ", "Option", "List"), lambda of, name: seen(of) if of else name)


def typed(of):
    """The definitions whose types are those of the fields of a sequence, each with its text as it would be: its grammar line, the parts of its order, and where
    the fields are in two groups that have names, those.
    """
    grammar, order = grammar_of(of), defined(of, "Order")
    all_of = {it.name: it for it in declared.definitions(of.crate) if it.file == grammar.line.file}
    whole, said = grouped(product(grammar.tree, of.file)), grammar.line.kind.partition("Part ")[2]
    groups = [all_of.get(part.split()[0]) for part in said.strip("()").split(" × ")]
    if len(groups) == 2 and all(groups):
        whole = said
        for it, tree in zip(groups, grammar.tree):
            made = product(tree, of.file)
            for short in all_of.values():
                made = made.replace(short.body, short.name) if short.kind == "Type 0" and short not in groups else made
            yield it, it.text.replace(it.body, made)
    compared = re.findall(r"\w+_cmp", order.body)[-1:] if order else []
    for it in (grammar.line, *(all_of[name] for name in compared if name in all_of)):
        yield it, re.sub(r"(Part|PartOrder) .*$", lambda found: f"{found[1]} {whole}", it.text, count=1, flags=re.M)


# ---- laws


@functools.cache
def brought(file):
    """The modules of the names that a file of specs uses or defines."""
    used = re.findall(r"^use (\S+)\.\{(.*)\}$", "\n".join(declared.lines_of(file)), re.M)
    found = {name: module for module, names in used for name in re.findall(r"(?<!enum as )\b\w+", names)}
    return found | {it.name: it.module for it in declared.definitions(file.parts[-3]) if it.file == file}


@functools.cache
def homes():
    """The modules of specs that others can use a name from: those that define it, and those from which files use it."""
    found = collections.defaultdict(set)
    for crate in OF_TYPES:
        for it in declared.definitions(crate):
            if re.match(r"(?:\w+ )?pub ", it.text):
                found[it.name].add(it.module)
        for file in {it.file for it in declared.definitions(crate)}:
            own = f"Rattle.{crate}.specs.{file.stem}"
            for name, module in brought(file).items():
                if ".specs." in module and module != own:
                    found[name].add(module)
    return found


def home(name, file):
    """The module of a name in a file of specs: the one from which it uses it, or which it is, else the only one; or an empty text."""
    modules = homes().get(name, ())
    return brought(file).get(name) or (next(iter(modules)) if len(modules) == 1 else "")


@functools.cache
def of_all_frames():
    """The modules whose laws each search for a law of fields goes over."""
    return frozenset(brought(declared.CRATES / "x509_der" / "specs" / "PartRules.antt").values())


def law_of(form, file):
    """The law of a form that a file of specs names, or of the one that it is short for; none where each search goes over it, or where it is no form."""
    if module := home(f"{form}_lawful", file):
        return None if module in of_all_frames() else f"{form}_lawful"
    short = next((it for crate in OF_TYPES for it in declared.definitions(crate) if it.name == form and home(form, file).endswith(f".{it.file.stem}")), None)
    return short and re.fullmatch(r"\w+", short.body) and law_of(short.body, short.file)


def forms_of(line):
    """The words of a grammar line; those of its parts that have a name of their own stand in place of that name."""
    for word in re.findall(r"[^\W\d]\w*", line.body):
        part = next((it for it in declared.definitions(line.crate) if it.file == line.file and it.name == word and re.search(r"(?:^|→ )Part ", it.kind)), None)
        yield from forms_of(part) if part else [word]


def law(of):
    """The definition that finds the law of a sequence by search, with its text as it would be: over the laws of the forms that the grammar line names."""
    grammar = grammar_of(of)
    for it in declared.definitions(of.crate):
        if it.name == f"{grammar.name}_lawful" and (said := re.match(r"search \(part_rules((?:, \w+)*)\) depth \d+$", it.body)):
            laws = list(dict.fromkeys(filter(None, (law_of(form, it.file) for form in forms_of(grammar.line)))))
            is_same = set(laws) == set(said[1].split(", ")[1:])
            yield it, it.text if is_same else it.text.replace(f"part_rules{said[1]}", ", ".join(["part_rules", *laws]))


# ---- equality


def of_equality(found):
    """The type of which a definition says that its equality is exact, or none."""
    names = imports(found.file)
    if by := re.match(r"IsExact (\w+)\.ghosts\.eq$", found.kind):
        return named(names.get(by[1], "").removesuffix("PartialEq.TheImpl"), "contracts")
    by = re.search(r"\(λ \(\w+ : (\w+)", found.body)
    return by and named(names.get(by[1], ""), "declared")


@functools.cache
def exact():
    """What says that equality is exact, by type, and by what contracts see of its values."""
    found = {}
    for crate in OF_TYPES:
        for it in declared.definitions(crate):
            if it.name.startswith("exact_") and "IsExact" in it.kind and (of := of_equality(it)):
                found.setdefault(of, it.name)
                found.setdefault(seen(of), it.name)
            elif by := re.match(r"\((\w+) (\w+) : (.*?)\) → Decides \(.*\) \(\1 ≡ \2\)$", it.kind):
                found.setdefault(by[3], it.name)
    return found


@functools.cache
def tests():
    """What says when `==` answers yes, by what contracts see of the values of a type."""
    found = {}
    for crate in OF_TYPES:
        for it in declared.definitions(crate):
            if it.name.endswith("_eq") and (by := re.search(r"(?:^|→ )(\S+|\S.*?) → \1 → Bool$", it.kind)):
                found.setdefault(by[1], it.name)
    return found


@functools.cache
def known_names():
    """The modules of the names that equality is told by."""
    names, found = set(exact().values()) | set(tests().values()), {}
    for crate in OF_TYPES:
        for it in declared.definitions(crate):
            if it.name in names or it.file.stem == "Exact" and it.name.startswith("exact_"):
                found.setdefault(it.name, it.module)
    return found


def proof(kind, file):
    """That the equality of a type is exact."""

    def other(of, name):
        return of and (exact().get(of) or exact().get(seen(of))) or f"exact_{name}"

    return told(kind, file, Words("exact_number", "exact_bool", "exact_octets", "exact_option", "exact_list"), other)


def equality(it, old):
    if it.is_enum:
        alias = next((alias for alias, path in imports(old.file).items() if path.endswith(f".contracts.{it.path}.{it.name}")), "")
        if any(case.kind for case in it.fields):
            cases = [f"exact_last {grouped(proof(case.kind, it.file))}" if case.kind else "exact_unit" for case in it.fields]
            return f"{old.name} = exact_cases {alias} _ {paired(nested([*cases, 'tt']))}"
        only = it.fields[0].name
        return f"{old.name} = exact_bare {alias} tt" if len(it.fields) > 1 else f"{old.name} {only} {only} = (λ e. refl, λ e. refl)"

    def both(proofs):
        return f"exact_both {grouped(proofs[0])} {grouped(both(proofs[1:]))}" if len(proofs) > 1 else proofs[0]

    x, fields = letter(it, old), coded(it)
    parts = paired(nested([f"{x}.{field.name}" for field in fields]))
    back = f"(λ {paired(nested([field.name for field in fields]))}. {record_of(fields)})"
    if it.is_tuple:
        value = re.search(r"record \{ 0 = (\w+) \}|$", old.body)[1] or "x"
        back = f"(λ {value}. record {{ 0 = {value} }})"
    proofs = grouped(both([proof(field.kind, it.file) for field in fields]))
    return f"{old.name}{' {P}' if it.parameters else ''} = exact_by (λ ({x} : {seen(it)}). {parts}) {back} (λ {x}. refl) {proofs}"


def asked(it, old):
    """What `==` asks of two values: that each field is the same."""

    def other(of, name):
        own = of and f"Rattle.{of.crate}.specs.contracts.{of.path}.{of.name}PartialEq.TheImpl"
        alias = next((alias for alias, path in imports(old.file).items() if path == own), "")
        return f"{alias}.ghosts.eq" if alias else of and tests().get(seen(of)) or f"{name}_eq"

    def all_of(parts):
        return f"{parts[0]} && ({all_of(parts[1:])})" if len(parts) > 2 else " && ".join(parts)

    as_words = Words("nat_eq", "beq", "bytes_eq", "option_eq", "pointwise")
    return f"{old.name} a b = {all_of([f'{told(field.kind, it.file, as_words, other)} a.{field.name} b.{field.name}' for field in coded(it)])}"


# ---- all of them

# of what repeats the fields of a sequence: what it is, its type, how its equation looks, and what makes that
SHAPES = (
    ("contents", r"(?:^|→ )Contents \(?(?P<of>\w+)(?: P\))?$", r"=\s+fields\s", contents),
    ("parts", r"(?:^|→ )Order \(?(?P<of>\w+)(?: P\))?$", r"\(λ (\w+)\.\s[( ]+\1\.", taken),
    ("parts", r"^(?:\{P : Type 0\} → )?(?P<of>\w+)(?: P)? → \(.*\)$", r"= λ (\w+)\.\s[(\s]+\1\.", taken),
    ("test", r"(?:^|→ )(?P<whole>(?P<of>\w+)(?: P)?) → (?P=whole) → Bool$", r" a b =\s", asked),
)


def derivation(it):
    """What a definition is, where it repeats the fields of a type: `equality`, `test`, `contents` or `parts`; the type, and what makes its equation."""
    if it.name.startswith("exact_") and "IsExact" in it.kind:
        of = of_equality(it)
        return of and ("equality", of, equality)
    for trait, kind, equation, make in SHAPES:
        by = re.search(kind, it.kind)
        of = by and re.search(equation, it.equation) and named(imports(it.file).get(by["of"], ""), "declared")
        if of and grammar_of(of):
            return trait, of, make
    return None


def derived(crate):
    """The definitions of a crate that repeat the fields of a type: each with what it is, the type, and its text as it would be."""
    for of in declared.types(crate):
        if grammar_of(of):
            yield from ((it, "type", of, text) for it, text in typed(of))
            yield from ((it, "law", of, text) for it, text in law(of))
    for it in declared.definitions(crate):
        if found := derivation(it):
            trait, of, make = found
            made = make(of, it)
            is_same = words(made) == words(it.equation)
            yield it, trait, of, it.text if is_same else it.text.replace(it.equation, broken_as(made, it.equation))
