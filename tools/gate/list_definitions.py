#!/usr/bin/env python3
"""Makes the end of docs/DEFINITIONS.md: by crate, lowest first, the files of `specs` whose comment in front names a section of a standard, without their
ending, and the sections in brackets, of RFC 5280 these alone; of some crates the number of files alone; and how many others there are in all. Not counted are
files of laws, of equalities and of how types lie in the toolchain's logic.

With `--check` it fails where the page has another text, or a file begins with no comment.
"""
import pathlib
import re
import sys

sys.path.insert(0, str(pathlib.Path(__file__).resolve().parents[1]))
sys.dont_write_bytecode = True
from common.crates import TOP, crates_below
from common.indexes import listed, put

PAGE = "docs/DEFINITIONS.md"
# Crates whose files are all of one kind, each of the object or the group that its name says.
KINDS = {"x509_text": "of lines that are printed", "x509_lint": "of rules", "x509_lint_web": "of rules", "x509_c_calls": "of what calls from C answer", "x509_c_lint": "of what calls from C answer"}
USUAL = "RFC 5280"
STANDARD = re.compile(r"RFC \d+(?:, \d{4}\b)*|X\.\d{3}|IEEE 802\.1AR|ISO 8601|TLS BR|(?:CA/Browser Forum, )?Baseline Requirements")
SECTION = r"(?:sections? |appendix )?(?!X\.\d{3})((?:[A-Z]\.)?\d+(?:\.\d+)*|(?<=appendix )[A-Z](?:\.\d+)*)\b"
SECTIONS = re.compile(rf"(?: {SECTION})(?:(?:,| and| to) {SECTION})*")
LEFT_OUT = re.compile(r"Lib|\w*(?:Laws|Equality|Rows)")


def begins(file):
    """The comment in front of a file."""
    return " ".join(re.match(r"(?:-- [^\n]*\n)*", file.read_text(encoding="utf-8"))[0].replace("-- ", "").split())


def sections(text):
    """The sections that a comment names right behind a standard, behind its name but for the usual one."""
    found = {}
    for mark in STANDARD.finditer(text):
        told = SECTIONS.match(text, mark.end())
        standard = "TLS BR" if "Baseline" in mark[0] else mark[0].replace(", ", ",")
        found.setdefault(standard, {}).update(dict.fromkeys(re.findall(SECTION, told[0]) if told else ()))
    named = (f"{'' if standard == USUAL else standard} {','.join(numbers)}".strip() for standard, numbers in found.items())
    return "; ".join(it for it in named if it)


def made():
    lines, count, others = [], 0, 0
    for crate in crates_below():
        specs = TOP / "crates" / crate / "specs"
        files = {it.relative_to(specs).with_suffix("").as_posix(): begins(it) for it in sorted(specs.rglob("*.antt")) if not LEFT_OUT.fullmatch(it.stem)}
        if "" in files.values():
            raise ValueError(f"a file of {crate} begins with no comment")
        told = {name: sections(text) for name, text in files.items()}
        if crate in KINDS:
            lines += listed(f"`{crate}`: {len(files)} {KINDS[crate]}")
        else:
            named = [f"{name} ({it})" for name, it in told.items() if it]
            others += len(files) - len(named)
            lines += listed(f"`{crate}`: " + ", ".join(named)) if named else []
        count += len(files)
    return ["", *lines, f"- {others} files of no section"], f"{count} files of definitions"


if __name__ == "__main__":
    sys.exit(put(__doc__, PAGE, made))
