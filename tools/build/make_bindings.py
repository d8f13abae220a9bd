#!/usr/bin/env python3
"""Makes what the packages for Rust and Python repeat of include/x509.h: its numbers, its structs and its calls, as each of the languages declares them, and the
fields of the structs for the test of the crate that compares them with a C compiler's. With --check it compares instead.
"""
import argparse
import pathlib
import sys

sys.path.insert(0, str(pathlib.Path(__file__).resolve().parents[1]))
sys.dont_write_bytecode = True
from common.header import TOP, calls, constants, statuses, structs

MADE = "Made by tools/build/make_bindings.py of include/x509.h, and not changed by hand"
# the most columns of a line: of code in Rust as `cargo fmt` has it, and of all else
RUST_WIDTH, WIDTH = 100, 160
IN_RUST = {"uint8_t": "u8", "uint32_t": "u32", "int32_t": "i32", "uint64_t": "u64", "size_t": "usize", "x509_status": "c_int"}
IN_PYTHON = {
    "uint8_t": "c_uint8",
    "uint32_t": "c_uint32",
    "int32_t": "c_int32",
    "uint64_t": "c_uint64",
    "size_t": "c_size_t",
    "x509_status": "c_int",
}
# the struct that has more in Python than its fields: its name there, and the class in `_part.py` that has it
SPAN, PART = "x509_span", "Part"
# an array with more members has no Default in Rust
MOST_OF_DEFAULT = 32


def camel(name):
    """`x509_extension_entry` as `ExtensionEntry`."""
    if not name.startswith("x509_"):
        raise ValueError(f"what is the type {name}?")
    return "".join(it.capitalize() for it in name.removeprefix("x509_").split("_"))


def constant(name):
    return name.removeprefix("X509_")


def number(written):
    return written.strip("()")


def in_rust(it):
    """A field or an argument in Rust."""
    kind = IN_RUST.get(it.kind) or camel(it.kind)
    if it.count:
        kind = f"[{kind}; {it.count}]"
    if it.is_pointer:
        kind = f"*{'const' if it.is_const else 'mut'} {kind}"
    # `in` is a keyword
    return f"{'input' if it.name == 'in' else it.name}: {kind}"


def struct_in_rust(name, fields):
    derived = ["Clone", "Copy", "Debug", *(["Default"] if all(it.count <= MOST_OF_DEFAULT for it in fields) else []), "PartialEq", "Eq", "Hash"]
    lines = ["#[repr(C)]", f"#[derive({', '.join(derived)})]", f"pub(crate) struct {camel(name)} {{"]
    return [*lines, *(f"    pub(crate) {in_rust(it)}," for it in fields), "}", ""]


def call_in_rust(it):
    """The declaration of a call, behind what the header says of it where that is a line."""
    said = f"    /// {it.said}"
    words = list(map(in_rust, it.parameters))
    front, behind = f"    pub(super) fn {it.name}(", f") -> {IN_RUST[it.answer]};"
    line = f"{front}{', '.join(words)}{behind}"
    declared = [line] if len(line) <= RUST_WIDTH else [front, *(f"        {word}," for word in words), f"    {behind}"]
    return [*([said] if it.said and len(said) <= WIDTH else []), *declared]


def rust():
    lines = [f"//! {MADE}.", "//!"]
    lines += ["//! Names are those of the header without `x509_` and `X509_`, but for the calls, which `ffi.rs` and `ffi/build.rs` alone make; and `in` is `input`."]
    lines += ["#![allow(dead_code)] // all of the header stands here", "", "use std::os::raw::c_int;", ""]
    numbers = statuses()
    lines += [f"pub(crate) const {constant(it)}: {'c_int' if it in numbers else 'u32'} = {number(written)};" for it, written in constants().items()]
    lines.append("")
    for name, fields in structs().items():
        lines += struct_in_rust(name, fields)
    lines.append('extern "C" {')
    for it in calls():
        lines += call_in_rust(it)
    return [*lines, "}"]


def rust_fields():
    lines = [f"// {MADE}: each struct with its fields, for `tests/header.rs`.", "layouts! {"]
    for name, fields in structs().items():
        lines += bracketed(f"    {name} = {camel(name)} {{", [it.name for it in fields], "}")
    return [*lines, "}"]


def class_of(name):
    """The class of a struct in Python; but for the span its name isn't that of what the package makes of it."""
    found = camel(name)
    return found if name == SPAN or found.endswith("View") else f"{found}View"


def in_python(it):
    """The type of a field or of an argument, by ctypes. Bytes that are lent go in as `bytes`, which no call gets to write to."""
    if it.is_pointer and it.is_const and it.kind == "uint8_t":
        return "c_char_p"
    kind = IN_PYTHON.get(it.kind) or class_of(it.kind)
    return f"POINTER({kind})" if it.is_pointer else f"{kind} * {it.count}" if it.count else kind


def as_read(it):
    """What a field is read as."""
    kind = IN_PYTHON.get(it.kind)
    return f"Array[{kind}]" if it.count else "int" if kind else class_of(it.kind)


def bracketed(front, parts, behind):
    """A list: in a line, where it isn't too long; else its parts in one; else each part in its own."""
    line, indent = ", ".join(parts), " " * (len(front) - len(front.lstrip()))
    if len(front + line + behind) <= WIDTH:
        return [f"{front}{line}{behind}"]
    within = [f"{indent}    {line}"]
    if len(within[0]) > WIDTH:
        within = [f"{indent}    {it}," for it in parts]
    return [front, *within, f"{indent}{behind}"]


def struct_in_python(name, fields):
    lines = [f"class {class_of(name)}({PART if name == SPAN else 'Structure'}):"]
    lines += [f"    {it.name}: {as_read(it)}" for it in fields]
    return [*lines, "", *bracketed("    _fields_ = [", [f'("{it.name}", {in_python(it)})' for it in fields], "]"), "", ""]


def call_in_python(it):
    return bracketed(f'    "{it.name}": [', [IN_PYTHON[it.answer], *map(in_python, it.parameters)], "],")


def python():
    lines = [f"# {MADE}.", '"""The numbers, the structs and the calls of the C library, by `ctypes`."""', "", "from __future__ import annotations", ""]
    lines += ["from ctypes import POINTER, Array, Structure, c_char_p, c_int, c_int32, c_size_t, c_uint8, c_uint32, c_uint64", "from typing import Any", ""]
    lines += [f"from ._part import {PART}", ""]
    lines += [f"{constant(it)} = {number(written)}" for it, written in constants().items()]
    lines += ["", ""]
    for name, fields in structs().items():
        lines += struct_in_python(name, fields)
    lines += ["# of each call what it answers, and then what it takes", "CALLS: dict[str, list[Any]] = {"]
    for it in calls():
        lines += call_in_python(it)
    return [*lines, "}"]


# each file, and what makes its lines
FILES = {
    "bindings/rust/src/ffi/header.rs": rust,
    "bindings/rust/tests/header/structs.rs": rust_fields,
    "bindings/python/src/x509_cert/_header.py": python,
}


def main():
    parser = argparse.ArgumentParser(description=__doc__, formatter_class=argparse.RawDescriptionHelpFormatter)
    parser.add_argument("--check", action="store_true", help="write nothing, and answer status 1 where a file is another")
    is_checked = parser.parse_args().check
    failed = 0
    for name, made in FILES.items():
        file, text = TOP / name, "".join(f"{line}\n" for line in made())
        if file.is_file() and file.read_text(encoding="utf-8") == text:
            continue
        if is_checked:
            print(f"failed: {name} isn't what tools/build/make_bindings.py makes of include/x509.h")
            failed = 1
        else:
            file.parent.mkdir(exist_ok=True)
            file.write_text(text, encoding="utf-8")
    if is_checked and not failed:
        print(f"passed: the packages declare the {len(calls())} calls and {len(structs())} structs of x509.h")
    return failed


if __name__ == "__main__":
    sys.exit(main())
