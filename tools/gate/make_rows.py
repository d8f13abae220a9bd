#!/usr/bin/env python3
"""Makes `stdin` and `stdout` of crates/x509_test_rows from the labelled rows in its folder `rows`, whose README.md says what these look like."""
import argparse
import json
import pathlib
import re
import sys

sys.path.insert(0, str(pathlib.Path(__file__).resolve().parents[1]))
from common.rows import ROWS

ROW = re.compile(r"(?:(\d+) )?(?:(raw|rfc5280)((?: [0-9A-Fa-f]+)?)|(\".*\")) = (.+)")


def rows_of(file):
    """Yields each row of a file: its number, or None, the line of `stdin`, and that of `stdout`."""
    for count, line in enumerate(file.read_text(encoding="utf-8").split("\n"), 1):
        if not line or line.startswith("#"):
            continue
        row = ROW.fullmatch(line)
        if not row:
            sys.exit(f"{file}:{count}: no row")
        number, profile, octets, text, answer = row.groups()
        asked = json.loads(text) if text else f"{file.stem} {profile} {octets.strip()}"
        yield number and int(number), asked, octets.strip() if answer == "same" else answer


def rows():
    """All rows in their order: those with a number, which have to be the numbers from 1 on, and then the others."""
    found = [row for file in sorted((ROWS / "rows").glob("*.txt")) for row in rows_of(file)]
    numbered = sorted(row for row in found if row[0])
    for place, (number, asked, _) in enumerate(numbered, 1):
        if number != place:
            sys.exit(f"row {number}, {asked[:60]}: number {place} is left out, or stands twice")
    return numbered + [row for row in found if not row[0]]


def main():
    parser = argparse.ArgumentParser(description=__doc__)
    parser.add_argument("--check", action="store_true", help="write nothing, but compare")
    is_check = parser.parse_args().check
    found = rows()
    made = {
        "stdin": "\n".join(asked for _, asked, _ in found),
        "stdout": "".join(f"{answer}\n" for _, _, answer in found),
    }
    if not is_check:
        for name, text in made.items():
            (ROWS / name).write_bytes(text.encode())
        return 0
    others = [name for name, text in made.items() if (ROWS / name).read_bytes() != text.encode()]
    for name in others:
        print(f"failed: crates/x509_test_rows/{name} isn't what tools/gate/make_rows.py makes")
    if not others:
        print(f"passed: {len(found):,} rows are those that are labelled")
    return int(bool(others))


if __name__ == "__main__":
    sys.exit(main())
