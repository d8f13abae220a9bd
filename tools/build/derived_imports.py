"""The imports of files in which something derived was written."""
import re

from common import declared
from common.declared import CRATES
from common.layout import imported
from common.rattle import passed_on
from derived_specs import home, known_names

# crates that pass on all names themselves, and not by modules
FLAT = ("x509_der", "x509_prim", "x509_base")
# the traits of methods that derived code calls without naming the traits
OF_TRAITS = {"put_part": "PutPart", "cmp_part": "CmpPart", "der_cmp": "DerOrd"}
# the words of definitions that are no names
WORDS = {"abbrev", "depth", "pub", "search", "unfoldable", "unfolding"}


def words_of(text):
    return set(re.findall(r"\w+", text))


def called(text):
    """The functions that code calls, the types and traits that it names, and the traits of the methods that it calls."""
    named = re.findall(r"(?<![.:\w])(?<!fn )([a-z]\w*(?=\(|::)|[A-Z]\w*)", text)
    return set(named) | {OF_TRAITS[method] for method in re.findall(r"\.(\w+)\(", text) if method in OF_TRAITS}


def homes_of(file):
    """From where a file imports the names that derived code has."""
    homes = {crate: passed_on(crate) for crate in FLAT if not file.is_relative_to(CRATES / crate)}
    homes |= {"std::alloc": {"Global"}, "std::cmp": {"Ordering"}}
    checks = CRATES / "x509_check" / "src"
    if file.is_relative_to(checks):
        homes["crate::content"] = {"CheckContent"}
        homes["crate::field"] = set(re.findall(r"^pub fn (\w+)", "\n".join(declared.lines_of(checks / "field.rt")), re.M))
    return homes


def with_imports(file, text, old, new):
    """The text of a file that imports what derived code names, and no longer what that named and nothing else does."""
    for path, names in homes_of(file).items():
        line = re.search(rf"^use {path}::(?:\{{([^}}]*)\}}|(\w+));\n", text, re.M)
        has = set(re.findall(r"\w+(?: as \w+)?", line[1] or line[2])) if line else set()
        rest = text.replace(line[0], "") if line else text
        elsewhere = words_of(" ".join(re.findall(r"^use [^;]*;", rest, re.M)))
        gone = {name for name in has & words_of(old) if name not in words_of(rest)}
        needed = (called(new) & names) - has - elsewhere
        if needed or gone:
            listed = (has | needed) - gone
            made = imported(path, listed) + "\n" if listed else ""
            text = text.replace(line[0], made) if line else with_line(text, made)
    return text


def with_line(text, line):
    """With a line among the imports, in their order."""
    found = list(re.finditer(r"^use [^;]*;\n", text, re.M))
    at = next((it.start() for it in found if it[0] > line), found[-1].end())
    return text[:at] + line + text[at:]


def with_uses(file, text, new, bare):
    """The text of a file of specs that uses what derived definitions name: of those in `bare`, which have no fields, all; of the others what is of equality."""
    needed = {name: known_names()[name] for name in words_of(new) & set(known_names())}
    needed |= {name: module for name in words_of(bare) - WORDS if (module := home(name, file))}
    for name, module in sorted(needed.items()):
        line = re.search(rf"^use {re.escape(module)}\.\{{(.*)\}}$", text, re.M)
        others = re.findall(r"^use \S+?(\.\{.*\}| as \w+)$|^(?:abbrev |unfoldable )?(?:pub )?(\w+) :", text, re.M)
        if name in words_of(" ".join(used + own for used, own in others)):
            continue
        if line:
            text = text.replace(line[0], f"use {module}.{{{line[1]}, {name}}}")
        else:
            last = list(re.finditer(r"^use .*\n", text, re.M))[-1].end()
            text = f"{text[:last]}use {module}.{{{name}}}\n{text[last:]}"
    return text
