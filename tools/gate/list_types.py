#!/usr/bin/env python3
"""Puts the names of the types that x509_reencode knows, which are those of the tables of crates/x509_types and crates/x509_all_types, wherever they are listed: in include/x509.h and in
the docs of the packages for Rust and Python. With --check it compares instead.
"""
import argparse
import pathlib
import re
import sys
import textwrap

sys.path.insert(0, str(pathlib.Path(__file__).resolve().parents[1]))
sys.dont_write_bytecode = True
from common.crates import TOP

ROW = re.compile(r'^ +"(\w+)" =>', re.M)
BEGIN = "The types: "
# each file, and what stands in front of a line of the list there
PLACES = {
    "include/x509.h": " * ",
    "bindings/rust/src/lib.rs": "/// ",
    "bindings/python/src/x509_cert/certificate.py": "    ",
}
WIDTH = 160


def names():
    """The names of all tables, in order."""
    files = sorted(it for crate in ("x509_types", "x509_all_types") for it in (TOP / "crates" / crate / "src").glob("*.rt"))
    return sorted({name for it in files for name in ROW.findall(it.read_text(encoding="utf-8"))})


def listed(front):
    """The lines of the list behind that front."""
    text = f"{BEGIN}{', '.join(names())}."
    return "".join(f"{line}\n" for line in textwrap.wrap(text, WIDTH, initial_indent=front, subsequent_indent=front))


def replaced(text, front):
    """The text with the list in its place; None where it has no place, or several."""
    place = re.compile(rf"^{re.escape(front)}{BEGIN}(?:[^\n.]*\n)*?[^\n.]*\.\n", re.M)
    return place.sub(lambda _: listed(front), text) if len(place.findall(text)) == 1 else None


def main():
    parser = argparse.ArgumentParser(description=__doc__, formatter_class=argparse.RawDescriptionHelpFormatter)
    parser.add_argument("--check", action="store_true", help="write nothing, and answer status 1 where a list is another")
    is_checked = parser.parse_args().check
    failed = 0
    for name, front in PLACES.items():
        file = TOP / name
        text = file.read_text(encoding="utf-8")
        made = replaced(text, front)
        if made is None or (is_checked and made != text):
            print(f"failed: {name}: the names of types there aren't those of crates/x509_types")
            failed = 1
        elif made != text:
            file.write_text(made, encoding="utf-8")
    if is_checked and not failed:
        print(f"passed: the {len(names())} names of types stand where they are listed")
    return failed


if __name__ == "__main__":
    sys.exit(main())
