#!/usr/bin/env python3
"""Compares the C interface of include/x509.h with the list of it in include/abi.txt, and tells what each change does to it: what is new wants a minor
version, and what is changed or gone another soname, and so a major one. With --write it makes the list anew, where the version in VERSION suits the
changes. A version is released once its heading in CHANGELOG.md has a date.
"""
import argparse
import pathlib
import sys

sys.path.insert(0, str(pathlib.Path(__file__).resolve().parents[1]))
from common.interface import LIST, as_list, changes, interface, is_released, listed, wanted
from common.version import version

DOES = {"new": "a minor version", "changed": "another soname", "gone": "another soname"}


def told(found, it, released):
    """A line for each change, with what it does."""
    for what, since, entry in found:
        is_own = since == it and not released
        yield f"{what}: {entry.name}: {f'it came with {it}, which is not released' if is_own else DOES[what]}"


def main():
    parser = argparse.ArgumentParser(description=__doc__, formatter_class=argparse.RawDescriptionHelpFormatter)
    parser.add_argument("--write", action="store_true", help="make include/abi.txt anew")
    asked = parser.parse_args()
    it, old, new = version(), listed() if LIST.exists() else {}, interface()
    released = is_released(it)
    found = list(changes(old, new))
    print("".join(f"{line}\n" for line in told(found, it, released)), end="")
    other = wanted(found, it, released)
    if other:
        print(f"so VERSION, {it}, has to be {other} (libx509.so.{other.major}): tools/gate/check_version.py --write writes it where it stands")
        return 1
    if asked.write:
        LIST.write_text(as_list(new, old, it), encoding="utf-8")
    elif found:
        print("include/abi.txt isn't of this header: tools/gate/check_abi.py --write")
        return 1
    print(f"{len(new)} calls, constants and structs of x509.h are those of include/abi.txt, for libx509.so.{it.major}")
    return int(not new)


if __name__ == "__main__":
    sys.exit(main())
