#!/usr/bin/env python3
"""Puts the names of all rules, from the tables of x509_lint and x509_lint_web, where x509_linter has them by the kinds of objects that they are on:
crates/x509_linter/src/names.rt, and the definitions of these texts in crates/x509_linter/specs/Names.antt.

With `--check` it fails where one of the two files has others.
"""
import argparse
import re
import sys
from pathlib import Path

TOP = Path(__file__).resolve().parents[2]
CRATE = TOP / "crates/x509_linter"
RULE = re.compile(r'\b(?:must|should|not_judged)\(\s*"(\w+)"|\b(?:must|should)_of\(\s*"[^"]*",\s*"(\w+)"')
# a table that rules on several kinds of objects are made of
MALFORMED = {"extension_malformed"}
# characters of a line of a definition
WIDTH = 125


def names_of(crate, is_asked):
    """The names of the rules of a crate, of the files that are asked for."""
    files = [path for path in (TOP / "crates" / crate / "src/rule").glob("*.rt") if is_asked(path.stem)]
    return {first or second for path in files for first, second in RULE.findall(path.read_text(encoding="utf-8"))}


def rule_names():
    """The names of the rules, by the word of their table."""
    return {
        "certificate": names_of("x509_lint", lambda name: not name.startswith("crl_") and name not in ("request", "anchor")),
        "crl": names_of("x509_lint", lambda name: name.startswith("crl_")),
        "csr": names_of("x509_lint", lambda name: name == "request") | MALFORMED,
        "anchor": names_of("x509_lint", lambda name: name in ("anchor", "constraint")) | MALFORMED,
        "web": names_of("x509_lint_web", lambda name: True),
    }


def pieces(names):
    """A text of the names, each in a line, in pieces that fit into lines of a definition."""
    lines, line = [], ""
    for name in [f"{name}\\n" for name in names[:-1]] + names[-1:]:
        if len(line) + len(name) > WIDTH:
            lines.append(line)
            line = ""
        line += name
    return [*lines, line]


def made():
    """For each file what it has to be."""
    code, definitions = CRATE / "src/names.rt", CRATE / "specs/Names.antt"
    texts = {path: path.read_text(encoding="utf-8") for path in (code, definitions)}
    for word, found in rule_names().items():
        names = sorted(found)
        text = "\n".join(names)
        texts[code] = re.sub(rf'(const {word.upper()}_RULES: &\[u8\] = b")[^"]*(";)', lambda it, text=text: it[1] + text + it[2], texts[code])
        text = "\n    ++ ".join(f'codes "{piece}"' for piece in pieces(names))
        pattern = rf'(\n{word}_rules =\n    )codes "[^"]*"(?:\n    \+\+ codes "[^"]*")*'
        texts[definitions] = re.sub(pattern, lambda it, text=text: it[1] + text, texts[definitions])
    return texts


def main(check):
    others = [path for path, text in made().items() if path.read_text(encoding="utf-8") != text]
    for path in others:
        if check:
            print(f"failed: {path.relative_to(TOP)} has other names of rules than x509_lint and x509_lint_web: tools/gate/list_rule_names.py")
        else:
            path.write_text(made()[path], encoding="utf-8")
            print(f"written: {path.relative_to(TOP)}")
    if not check or not others:
        print(f"passed: {len(set().union(*rule_names().values()))} names of rules")
    return int(check and bool(others))


if __name__ == "__main__":
    parser = argparse.ArgumentParser(description=__doc__, formatter_class=argparse.RawDescriptionHelpFormatter)
    parser.add_argument("--check", action="store_true", help="compares, and writes nothing")
    sys.exit(main(parser.parse_args().check))
