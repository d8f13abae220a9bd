#!/usr/bin/env python3
"""Changes the C interface of a header in each way, and looks what tools/gate/check_abi.py's rules say of it: what a change is, and which version it wants."""
import argparse
import pathlib
import sys

sys.path.insert(0, str(pathlib.Path(__file__).resolve().parents[1]))
from common.interface import as_list, changes, interface, listed, wanted
from common.version import parsed

HEADER = """#include <stddef.h>
#include <stdint.h>
typedef int x509_status;
#define X509_ONE 1
typedef struct {
    uint32_t kind;
    size_t len;
} x509_thing;
x509_status x509_count(const uint8_t *in, size_t len, x509_thing *thing);
"""
MORE = HEADER + "#define X509_TWO (-2) /* more */\nuint32_t x509_version(void);\n"
# what is done to the header, and what that is
CHANGES = (
    ("nothing", HEADER, []),
    ("a call and a constant", MORE, [("new", "call x509_version"), ("new", "constant X509_TWO")]),
    ("a struct", HEADER + "typedef struct {\n    size_t len;\n} x509_more;\n", [("new", "struct x509_more")]),
    ("a parameter", HEADER.replace(", x509_thing *", ", const x509_thing *"), [("changed", "call x509_count")]),
    ("a type of a field", HEADER.replace("uint32_t kind", "uint64_t kind"), [("changed", "struct x509_thing")]),
    ("a field in a gap", HEADER.replace("uint32_t kind;", "uint32_t kind;\n    uint32_t more;"), [("changed", "struct x509_thing")]),
    ("a number", HEADER.replace("X509_ONE 1", "X509_ONE 2"), [("changed", "constant X509_ONE")]),
    ("a call gone", HEADER[: HEADER.index("x509_status x509_count")], [("gone", "call x509_count")]),
)
# a change, the version that it came with and that of the tree, whether that is released, and the version that is wanted
VERSIONS = (
    ("nothing", "0.1.0", "0.1.0", True, None),
    ("a call and a constant", "0.1.0", "0.1.0", False, None),
    ("a call and a constant", "0.1.0", "0.1.0", True, "0.2.0"),
    ("a call and a constant", "0.1.0", "0.1.1", False, "0.2.0"),
    ("a call and a constant", "0.1.0", "0.2.0", False, None),
    ("a number", "0.1.0", "0.1.0", False, None),
    ("a number", "0.1.0", "0.1.0", True, "1.0.0"),
    ("a number", "0.1.0", "0.2.0", False, "1.0.0"),
    ("a call gone", "0.1.0", "0.1.1", False, "1.0.0"),
    ("a call gone", "0.1.0", "1.0.0", False, None),
)


def differences():
    old = interface(HEADER)
    for name, header, expected in CHANGES:
        found = [(what, it.name) for what, _, it in changes(listed(as_list(old, {}, parsed("0.1.0"))), interface(header))]
        if found != expected:
            yield f"{name}: {found}, and not {expected}"
    headers = {name: header for name, header, _ in CHANGES}
    for name, since, version, is_released, expected in VERSIONS:
        found = wanted(list(changes(listed(as_list(old, {}, parsed(since))), interface(headers[name]))), parsed(version), is_released)
        if (found and str(found)) != expected:
            yield f"{name} of {since} in {version}: {found}, and not {expected}"
    more = as_list(interface(MORE), listed(as_list(old, {}, parsed("0.1.0"))), parsed("0.2.0"))
    if [line.split(":")[0] for line in more.splitlines() if "0.2.0" in line] != ["0.2.0 call x509_version", "0.2.0 constant X509_TWO"]:
        yield f"what is new came with 0.2.0, and the list has\n{more}"


def main():
    argparse.ArgumentParser(description=__doc__).parse_args()
    found = list(differences())
    print("\n".join(found) or f"the rules of the C interface say what they should of {len(CHANGES)} changes and {len(VERSIONS)} versions")
    return int(bool(found))


if __name__ == "__main__":
    sys.exit(main())
