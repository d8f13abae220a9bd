#!/usr/bin/env python3
"""Looks whether the version that the file VERSION has stands in the header, in what x509_version answers, in the programs and in the packages for Rust
and Python; whether CHANGELOG.md has it; and whether each file of a release that README.md names is of it. With --write it writes the version to these
places (but for the texts); the crates whose sources change are to be proved again then.
"""
import argparse
import pathlib
import re
import sys

sys.path.insert(0, str(pathlib.Path(__file__).resolve().parents[1]))
from common.version import FORM, TOP, places, version


def parts_of(file, before, spelled, behind):
    """The text in front of the version, how it is spelled there, and the text behind it; None where no such place is there, or several are."""
    text = (TOP / file).read_text(encoding="utf-8")
    found = list(re.finditer(f"({before})({spelled})(?={behind})", text, re.M))
    if len(found) != 1:
        return None
    return text[: found[0].end(1)], found[0][2], text[found[0].end(2) :]


def written(it):
    """Writes the version to each place, and tells of those that had another one."""
    for file, before, spelled, behind, wanted in places(it):
        parts = parts_of(file, before, spelled, behind)
        if parts and parts[1] != wanted:
            (TOP / file).write_text(parts[0] + wanted + parts[2], encoding="utf-8")
            yield f"{file}: {wanted}, which was {parts[1]}"


def differences(it):
    for file, before, spelled, behind, wanted in places(it):
        parts = parts_of(file, before, spelled, behind)
        if parts is None:
            yield f"{file}: the place of the version isn't found, or is there twice: {before}"
        elif parts[1] != wanted:
            yield f"{file}: {parts[1]}, and not {wanted}: tools/gate/check_version.py --write"
    heading = (re.findall(rf"^## ({FORM})\b", (TOP / "CHANGELOG.md").read_text(encoding="utf-8"), re.M) or ["no version"])[0]
    if heading != str(it):
        yield f"CHANGELOG.md begins with {heading}, and not {it}"
    others = set(re.findall(rf"\bx509[-_](?:rattle|cert)\w*[-_]({FORM})", (TOP / "README.md").read_text(encoding="utf-8"))) - {str(it)}
    yield from (f"README.md names files of {other}, and not of {it}" for other in sorted(others))


def main():
    parser = argparse.ArgumentParser(description=__doc__, formatter_class=argparse.RawDescriptionHelpFormatter)
    parser.add_argument("--write", action="store_true", help="write the version to each place")
    asked = parser.parse_args()
    it = version()
    if asked.write:
        print("\n".join(written(it)) or "all have it already")
    found = list(differences(it))
    print("\n".join(found) or f"the version is {it} in {len(places(it))} places")
    return int(bool(found))


if __name__ == "__main__":
    sys.exit(main())
