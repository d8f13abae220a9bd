#!/usr/bin/env python3
"""Compares include/x509.h with the exports of crates/x509_c: each call is in both, with the same arguments in the same order and the same answer; and
each struct that a call fills in has the same fields, in the same order, as that of the header. With a library it compares what the library exports, too.
"""
import argparse
import pathlib
import re
import subprocess
import sys

sys.path.insert(0, str(pathlib.Path(__file__).resolve().parents[1]))
from common.header import TOP, calls, structs

EXPORT = re.compile(r"#\[unsafe\(no_mangle\)\]\s*pub extern \"C\" fn (\w+)\(([^)]*)\) -> (\w+)")
STRUCT = re.compile(r"#\[repr\(C\)\]\s*pub struct (\w+) \{(.*?)\n\}", re.S)
NUMBERS = {"u8": "uint8_t", "u32": "uint32_t", "i32": "int32_t", "u64": "uint64_t", "usize": "size_t"}


def exports():
    """The parameters of each export, and its answer."""
    found = {}
    for file in sorted((TOP / "crates" / "x509_c" / "src").rglob("*.rt")):
        for it in EXPORT.finditer(file.read_text(encoding="utf-8")):
            parts = [part.strip().split(": ") for part in it[2].split(",") if part.strip()]
            found[it[1]] = ([kind for _, kind in parts], it[3])
    return found


def layouts():
    """The fields of each struct of x509_c_calls and x509_c_lint that C sees."""
    found = {}
    for file in sorted((TOP / "crates").glob("x509_c_*/src/**/*.rt")):
        for it in STRUCT.finditer(file.read_text(encoding="utf-8")):
            found[it[1]] = re.findall(r"^    pub (\w+): (\w+|\[\w+; \d+\]),$", it[2], re.M)
    return found


def in_c(kind):
    """The arguments that C gives for a parameter: its types, with a star behind what is pointed at; the allocator isn't given."""
    if kind == "Global":
        return []
    found = re.fullmatch(r"&(mut )?\[(\w+)\]", kind)
    if found:
        return [f"{'' if found[1] else 'const '}{NUMBERS.get(found[2], found[2])} *", "size_t"]
    found = re.fullmatch(r"&(mut )?(\w+)", kind)
    if found:
        return [f"{'' if found[1] else 'const '}{NUMBERS.get(found[2], found[2])} *"]
    return [NUMBERS[kind]]


def declared(it):
    # of a struct that is handed over with its size the library reads the bytes
    kind = {"x509_status": "int32_t", "x509_path_settings": "uint8_t", "x509_revocation_settings": "uint8_t"}.get(it.kind, it.kind)
    return f"{'const ' if it.is_const else ''}{kind}{' *' if it.is_pointer else ''}"


def differences():
    """What differs, in words. A struct of the header is one struct of the library everywhere."""
    header, library = {it.name: it for it in calls()}, exports()
    yield from (f"{name} is exported, and isn't in x509.h" for name in sorted(library.keys() - header.keys()))
    yield from (f"{name} is in x509.h, and isn't exported" for name in sorted(header.keys() - library.keys()))
    same = {}
    for name in sorted(header.keys() & library.keys()):
        theirs = [declared(it) for it in header[name].parameters]
        ours = [word for kind in library[name][0] for word in in_c(kind)]
        answer = {"x509_status": "int32_t"}.get(header[name].answer, header[name].answer)
        if len(theirs) != len(ours) or answer != NUMBERS[library[name][1]]:
            yield f"{name}: {theirs} -> {answer}, and {ours} -> {library[name][1]}"
            continue
        for one, other in zip(theirs, ours):
            if one.removeprefix("const ").startswith("x509_"):
                same.setdefault(one.removeprefix("const ").rstrip(" *"), set()).add(other.removeprefix("const ").rstrip(" *"))
            elif one != other:
                yield f"{name}: {one}, and {other}"
    yield from differences_of_structs(same)


def in_struct(field):
    """The type of a field of the header, with the number of its members where it is an array."""
    return f"{field.kind}[{field.count}]" if field.count else field.kind


def in_c_struct(kind):
    """The same of a field of the library."""
    found = re.fullmatch(r"\[(\w+); (\d+)\]", kind)
    return f"{NUMBERS.get(found[1])}[{found[2]}]" if found else NUMBERS.get(kind)


def differences_of_structs(same):
    """`same` says which struct of the library is which of the header; those within them are found on the way."""
    header, library, seen = structs(), layouts(), set()
    while same:
        name, others = same.popitem()
        if len(others) != 1:
            yield f"{name} is several structs: {sorted(others)}"
            continue
        (other,) = others
        if (name, other) in seen:
            continue
        seen.add((name, other))
        theirs, ours = header[name], library.get(other)
        if ours is None or [it.name for it in theirs] != [field for field, _ in ours]:
            yield f"{name} and {other} have other fields"
            continue
        for it, (field, kind) in zip(theirs, ours):
            if it.kind.startswith("x509_"):
                same.setdefault(it.kind, set()).add(kind)
            elif in_struct(it) != in_c_struct(kind):
                yield f"{name}: {field} is {in_struct(it)}, and {in_c_struct(kind)}"
    named = {name for name, _ in seen} | {it.kind for call in calls() for it in call.parameters if it.is_const}
    yield from (f"{name} is a struct of x509.h that no call takes or fills in" for name in sorted(header.keys() - named))


def differences_of(file):
    """What a library exports, and what it is to."""
    said = subprocess.run(["nm", "--defined-only", "--extern-only", file], check=True, capture_output=True, text=True).stdout
    found = set(re.findall(r" T (x509_\w+)$", said, re.M))
    named = {it.name for it in calls()}
    yield from (f"{name} is in x509.h, and not in {file}" for name in sorted(named - found))
    yield from (f"{name} is in {file}, and not in x509.h" for name in sorted(found - named))


def main():
    parser = argparse.ArgumentParser(description=__doc__, formatter_class=argparse.RawDescriptionHelpFormatter)
    parser.add_argument("library", nargs="?", help="libx509_c.a")
    library = parser.parse_args().library
    found = [*differences(), *(differences_of(library) if library else ())]
    print("\n".join(found) or f"{len(calls())} calls and {len(structs())} structs of x509.h are those of the library")
    return int(bool(found) or not calls())


if __name__ == "__main__":
    sys.exit(main())
