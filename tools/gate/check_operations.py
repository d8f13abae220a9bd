#!/usr/bin/env python3
"""Looks whether each name in the tables of docs/OPERATIONS.md exists: a call of include/x509.h; a type, a function or a method of bindings/rust and of
bindings/python that users see; and a relation that stands in the contract of a C call of its row. No cell may be empty, and there are 40 rows or more.
"""
import argparse
import ast
import pathlib
import re
import sys
import textwrap

sys.path.insert(0, str(pathlib.Path(__file__).resolve().parents[1]))
from common.header import TOP, calls

RUST, PYTHON = TOP / "bindings" / "rust" / "src", TOP / "bindings" / "python" / "src" / "x509_cert"
FEWEST = 40
IMPL = re.compile(r"^(?:impl|pub trait)\b(?:<[^>{]*>)?\s+(?:[^{]*?\bfor\s+)?(\w+)[^\n]*\{\n(.*?)^\}", re.S | re.M)
METHOD = re.compile(r"^    (?:    )?(?:pub )?(?:const )?fn (\w+)", re.M)
MACRO = re.compile(r"macro_rules! (\w+) \{\n    \(([^)]*)\) => \{\n(.*?)^    \};\n\}", re.S | re.M)


def written_by_macros(text, macros):
    """The items that macros write where they are called among items, by the names that they are given."""
    for name, (parameters, body) in macros.items():
        for given in re.findall(rf"^{name}!\(([^)]*)\);", text, re.M):
            written = textwrap.dedent(body)
            for parameter, word in zip(re.findall(r"(\$\w+)", parameters), given.split(", ")):
                written = written.replace(parameter, word)
            yield written


def rust_names():
    """What `lib.rs` and `extension.rs` export, with the methods of each type as Type::method, and what a public module has as module::NAME."""
    found = set()
    for module in re.findall(r"^pub mod (\w+);", (RUST / "lib.rs").read_text(encoding="utf-8"), re.M):
        text = (RUST / f"{module}.rs").read_text(encoding="utf-8")
        found.update(f"{module}::{name}" for name in re.findall(r"^pub (?:const|fn|struct|enum|trait) (\w+)", text, re.M))
    for name in ("lib.rs", "extension.rs"):
        text = (RUST / name).read_text(encoding="utf-8")
        found.update(re.findall(r"^pub fn (\w+)", text, re.M))
        found.update(re.findall(r"^pub (?:struct|enum|trait) (\w+)", text, re.M))
        for part in re.findall(r"^pub use \w+::([^;]*);", text, re.M):
            found.update(re.findall(r"\w+", part))
    exported = set(found)
    texts = [file.read_text(encoding="utf-8") for file in sorted(RUST.rglob("*.rs"))]
    macros = {it[1]: (it[2], it[3]) for text in texts for it in MACRO.finditer(text)}
    for text in texts:
        text = "\n".join([text, *written_by_macros(text, macros)])
        for it in IMPL.finditer(text):
            body = it[2] + "".join(body for name, (_, body) in macros.items() if f"{name}!();" in it[2])
            if it[1] in exported:
                found.update(f"{it[1]}::{method}" for method in METHOD.findall(body))
    return found


def python_names():
    """What the package exports, with what its classes and those above them have as Class.name, and its modules as module.name."""
    files = {file.stem: ast.parse(file.read_text(encoding="utf-8")) for file in sorted(PYTHON.glob("*.py"))}
    trees = files.values()
    package = ast.parse((PYTHON / "__init__.py").read_text(encoding="utf-8"))
    exported = {it.asname or it.name for part in package.body if isinstance(part, ast.ImportFrom) for it in part.names}
    classes = {it.name: it for tree in trees for it in tree.body if isinstance(it, ast.ClassDef)}

    def members(name):
        it = classes.get(name)
        if it is None:
            return {part.name for part in files[name].body if isinstance(part, (ast.ClassDef, ast.FunctionDef))} if name in files else set()
        own = {part.name for part in it.body if isinstance(part, ast.FunctionDef)}
        for part in ast.walk(it):
            if isinstance(part, ast.Attribute) and isinstance(part.ctx, ast.Store) and isinstance(part.value, ast.Name) and part.value.id == "self":
                own.add(part.attr)
        return own.union(*(members(base.id) for base in it.bases if isinstance(base, ast.Name)))

    return exported | {f"{name}.{member}" for name in exported for member in members(name)}


def contracts():
    """The source of each export, with its contract."""
    found = {}
    for file in (TOP / "crates" / "x509_c" / "src").rglob("*.rt"):
        for part in file.read_text(encoding="utf-8").split("#[unsafe(no_mangle)]")[1:]:
            found[re.search(r"fn (\w+)", part)[1]] = part
    return found


def rows():
    for line in (TOP / "docs" / "OPERATIONS.md").read_text(encoding="utf-8").splitlines():
        if line.startswith("| ") and not line.startswith("| Operation"):
            yield [cell.strip() for cell in line.strip().strip("|").split("|")]


def wrong_in(row, known, told):
    """What is wrong with a row, in words."""
    if len(row) != 5 or not all(row):
        yield f"{row[0]}: an empty cell, or not five"
        return
    names = [re.findall(r"`([^`]+)`", cell) for cell in row[1:]]
    for language, found, of in zip(("C", "Rust", "Python"), names, known):
        if not found:
            yield f"{row[0]}: no name in {language}"
        yield from (f"{row[0]}: {name} isn't in {language}" for name in found if name not in of)
    texts = [told.get(name, "") for name in names[0]]
    if not names[3]:
        yield f"{row[0]}: proved by nothing"
    yield from (f"{row[0]}: {name} is in no contract of these calls" for name in names[3] if not any(re.search(rf"\b{name}\b", it) for it in texts))


def main():
    argparse.ArgumentParser(description=__doc__, formatter_class=argparse.RawDescriptionHelpFormatter).parse_args()
    known = ({it.name for it in calls()}, rust_names(), python_names())
    told, found = contracts(), list(rows())
    wrong = [it for row in found for it in wrong_in(row, known, told)]
    if len(found) < FEWEST:
        wrong.append(f"{len(found)} rows, and not {FEWEST}")
    print("\n".join(wrong) or f"{len(found)} operations of docs/OPERATIONS.md stand in C, Rust and Python, with their contracts")
    return int(bool(wrong))


if __name__ == "__main__":
    sys.exit(main())
