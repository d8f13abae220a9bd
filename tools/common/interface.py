"""The C interface of include/x509.h as a compiler lays it out, the list of it in include/abi.txt, and what a change does to it."""
import dataclasses
import os
import pathlib
import re
import subprocess
import tempfile

from common.header import HEADER, TOP, calls, constants, structs
from common.version import FORM, parsed

LIST = TOP / "include" / "abi.txt"
HEAD = """# The C interface of include/x509.h on x86_64 Linux: calls, constants, and structs with their sizes and offsets, each behind the version that it came
# with. `tools/gate/check_abi.py --write` makes it.
"""


@dataclasses.dataclass(frozen=True)
class Entry:
    """A call, a constant or a struct: what it is, as `call x509_version`, and how it is."""

    name: str
    form: str


def asking(text):
    """A program in C that prints a line for each constant and each struct: its number; its size, its alignment and the offsets of its fields."""
    lines = [f'printf("%lld\\n", (long long)({name}));' for name in constants(text)]
    for name, fields in structs(text).items():
        offsets = "".join(f", offsetof({name}, {it.name})" for it in fields)
        lines.append(f'printf("%zu %zu{" %zu" * len(fields)}\\n", sizeof({name}), _Alignof({name}){offsets});')
    return "#include <stddef.h>\n#include <stdio.h>\n" + text + "\nint main(void) {\n" + "\n".join(lines) + "\nreturn 0;\n}\n"


def asked(text):
    """What that program prints."""
    with tempfile.TemporaryDirectory() as folder:
        source, program = pathlib.Path(folder, "asks.c"), pathlib.Path(folder, "asks")
        source.write_text(asking(text), encoding="utf-8")
        subprocess.run([os.environ.get("CC", "cc"), "-std=c11", str(source), "-o", str(program)], check=True)
        return subprocess.run([str(program)], check=True, capture_output=True, text=True).stdout.splitlines()


def in_c(it):
    return f"{'const ' if it.is_const else ''}{it.kind}{f'[{it.count}]' if it.count else ''}{' *' if it.is_pointer else ''}"


def interface(text=None):
    """The entries of the header, by name: the calls, the constants and the structs."""
    text = HEADER.read_text(encoding="utf-8") if text is None else text
    told = iter(asked(text))
    found = [Entry(f"call {it.name}", f"{it.answer} ({', '.join(map(in_c, it.parameters)) or 'void'})") for it in calls(text)]
    found += [Entry(f"constant {name}", next(told)) for name in constants(text)]
    for name, fields in structs(text).items():
        size, alignment, *offsets = next(told).split()
        parts = "".join(f"\n    {at} {in_c(it)} {it.name}" for at, it in zip(offsets, fields))
        found.append(Entry(f"struct {name}", f"{size} bytes, aligned to {alignment}{parts}"))
    return {it.name: it for it in found}


def listed(text=None):
    """The entries of a list by name, each with the version that it came with."""
    text = LIST.read_text(encoding="utf-8") if text is None else text
    found = re.finditer(rf"^({FORM}) (\w+ \w+): (.*(?:\n    .*)*)$", text, re.M)
    return {it[2]: (parsed(it[1]), Entry(it[2], it[3])) for it in found}


def as_list(entries, old, version):
    """The list of these entries; what differs from the old list came with this version."""
    lines = []
    for it in sorted(entries.values(), key=lambda it: it.name):
        since, same = old.get(it.name, (version, it))
        lines.append(f"{since if same == it else version} {it.name}: {it.form}\n")
    return HEAD + "".join(lines)


def changes(old, new):
    """What is new, and what is changed or gone, as `(what, since, entry)`."""
    yield from (("new", None, it) for name, it in new.items() if name not in old)
    for name, (since, it) in old.items():
        if new.get(name) != it:
            yield ("changed" if name in new else "gone"), since, it


def is_released(version):
    """Whether the heading of this version in CHANGELOG.md has a date."""
    return re.search(rf"^## {re.escape(str(version))}, \d{{4}}-\d\d-\d\d$", (TOP / "CHANGELOG.md").read_text(encoding="utf-8"), re.M) is not None


def wanted(found, version, is_released):
    """The version that these changes want, if it isn't this one. What came with a version that isn't released yet may change as long as it isn't."""
    kept = [since for what, since, _ in found if what != "new" and (since != version or is_released)]
    if any(since.major == version.major for since in kept):
        return dataclasses.replace(version, major=version.major + 1, minor=0, patch=0)
    if found and (is_released or version.patch):
        return dataclasses.replace(version, minor=version.minor + 1, patch=0)
    return None
