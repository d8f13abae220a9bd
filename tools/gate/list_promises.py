#!/usr/bin/env python3
"""Makes the end of docs/PROMISES.md: by crate, lowest first, how many wrong bodies it has, its crate of tests, and what other crates can call: of each type the
calls that have named clauses, the functions, the laws; in brackets behind a call its named clauses. Of the calls from C too those that have such.

With `--check` it fails where the page has another text.
"""
import pathlib
import re
import sys

sys.path.insert(0, str(pathlib.Path(__file__).resolve().parents[1]))
sys.dont_write_bytecode = True
from common.crates import TOP, crates_below
from common.indexes import WIDTH, listed, put
from common.rattle import calls, source_of

PAGE = "docs/PROMISES.md"
# The calls from C, which include/x509.h lists.
IN_THE_HEADER = {"x509_c_calls", "x509_c_lint"}
CLAUSE = re.compile(r"\bensures\*? +(\w+) \{")


def line_of(name, it):
    """A call with its named clauses, in backticks as a whole where that isn't longer than a line."""
    clauses = CLAUSE.findall(it.head)
    if not clauses:
        return f"`{name}`"
    whole = f"`{name}[{','.join(clauses)}]`"
    return whole if len(whole) < WIDTH - 4 else f"`{name}` [{', '.join(clauses)}]"


def tests_of(crate, below):
    """The crate of tests that is named after the crate, else the lowest one that stands on it; none where there is neither."""
    named = [it for it, deps in below.items() if it.endswith("_tests") and crate in deps]
    return [it for it in named if it == f"{crate}_tests"] or named[:1]


def made():
    lines, count, clauses, below = [], 0, 0, crates_below()
    for crate in below:
        if crate.endswith("_tests") or not (source_of(crate) / "lib.rt").exists():
            continue
        parts = {}
        for name, it in sorted(calls(crate), key=lambda call: call[0]):
            of, _, method = name.rpartition("::")
            count, clauses = count + 1, clauses + len(CLAUSE.findall(it.head))
            if (of or crate in IN_THE_HEADER) and not CLAUSE.search(it.head):
                continue
            kind = f"`{of}`" if of else "laws" if "laws" in it.file.relative_to(source_of(crate)).with_suffix("").parts else "functions"
            parts.setdefault(kind, []).append(line_of(method, it))
        if not parts:
            continue
        edits = sum(1 for _ in (TOP / "crates" / crate).glob("*/*.edit"))
        tests = "".join(f", `{it}`" for it in tests_of(crate, below))
        lines += ["", f"### `{crate}`: {edits} wrong bodies{tests}", ""]
        for kind in sorted(parts, key=lambda it: (it == "laws", it == "functions")):
            lines += listed(f"{kind}: {' '.join(parts[kind])}")
    return lines, f"{count} calls with {clauses} named clauses"


if __name__ == "__main__":
    sys.exit(put(__doc__, PAGE, made))
