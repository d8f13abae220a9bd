#!/usr/bin/env python3
"""Looks whether each snippet of README.md in C, C++, CMake, Rust or Python stands in a file that a test runs: its lines, one behind the other, indented as a
whole. So it does for the examples in docs of the crates, the blocks ```rust: each of their parts, between empty lines, stands so in a file of a crate of tests.
"""
import argparse
import pathlib
import re
import sys
import textwrap

TOP = pathlib.Path(__file__).resolve().parents[2]
INSTALLED = ("text.c", "text.cc", "CMakeLists.txt", "text.rs", "text.py")
TRUSTED = ("bindings/rust/tests/find.rs",)
REVOKED = ("crates/x509_cert_tests/src/validated.rt",)
PYTHON = "bindings/python/tests/test_lint.py", "bindings/python/tests/test_verification.py"
FILES = ("crates/x509_cert_tests/src/example.rt", *(f"examples/installed/{name}" for name in INSTALLED), *TRUSTED, *REVOKED, *PYTHON)
ENTRIES = (
    "x509_build/src/certificate_builder.rt",
    "x509_cert/src/crl/certificate_list.rt",
    "x509_cert/src/request/cert_req.rt",
    "x509_cert/src/certificate/certificate.rt",
    "x509_cert/src/signed/slice.rt",
    "x509_name/src/name/name.rt",
)


def lines_of(file):
    return file.read_text(encoding="utf-8").split("\n")


def stands_in(snippet, lines):
    """Whether the lines of the snippet stand in the file, perhaps indented further."""
    size = len(snippet)
    parts = ("\n".join(lines[at : at + size]) for at in range(len(lines) - size + 1))
    return any(textwrap.dedent(part).split("\n") == snippet for part in parts)


def examples_of(file):
    """The parts of the examples in the docs of a file."""
    text = "\n".join(line.strip() for line in lines_of(file))
    for block in re.finditer(r"^/// ```rust\n(.*?)\n/// ```$", text, re.M | re.S):
        lines = "\n".join(line.removeprefix("///").removeprefix(" ") for line in block[1].split("\n"))
        yield from (textwrap.dedent(part).split("\n") for part in lines.split("\n\n"))


def main():
    argparse.ArgumentParser(description=__doc__).parse_args()
    text = (TOP / "README.md").read_text(encoding="utf-8")
    snippets = [found[1].split("\n") for found in re.finditer(r"^```(?:c|cpp|cmake|rust|python)\n(.*?)\n```$", text, re.M | re.S)]
    files = [lines_of(TOP / name) for name in FILES]
    sources = sorted(it for it in (TOP / "crates").glob("*/src/**/*.rt") if not it.parts[len(TOP.parts) + 1].endswith("_tests"))
    tests = [lines_of(it) for it in sorted((TOP / "crates").glob("*_tests/src/*.rt"))]
    examples = {it.relative_to(TOP / "crates").as_posix(): list(examples_of(it)) for it in sources}
    others = [it for it in snippets if not any(stands_in(it, lines) for lines in files)]
    others += [it for parts in examples.values() for it in parts if not any(stands_in(it, lines) for lines in tests)]
    for snippet in others:
        print("stands in no file that a test runs:", *snippet, sep="\n    ")
    missing = [it for it in ENTRIES if not examples.get(it)]
    for name in missing:
        print(f"has no example in its docs: crates/{name}")
    if not others:
        print(f"{len(snippets)} snippets, and the examples in {sum(map(bool, examples.values()))} files of the crates, stand in files that a test runs")
    return int(bool(others or missing) or len(snippets) != len(FILES))


if __name__ == "__main__":
    sys.exit(main())
