#!/usr/bin/env python3
"""Prints the subject, the dates, the key usage and the alternative names of a certificate, and checks that encoding it gives its bytes.

usage: X509_LIBRARY=.../libx509.so PYTHONPATH=bindings/python/src python3 examples/python/show.py FILE
"""

from __future__ import annotations

import sys
from typing import Callable

import x509_cert as x509
from payload import names, usages

# the status of the library for an extension that stands there twice (include/x509.h)
REPEATED = 7


def visible(text: str) -> str:
    """The text, with each octet of a control character as RFC 4514 escapes it: a backslash and two hex digits."""
    return "".join("".join(f"\\{octet:02x}" for octet in it.encode()) if it < " " or "\x7f" <= it <= "\x9f" else it for it in text)


def told(certificate: x509.Certificate, kind: type[x509.ExtensionType], read: Callable[[bytes], list[str]]) -> tuple[list[str], bool]:
    """Words that say what an extension holds, where it is a value of its type; and whether nothing was refused."""
    try:
        extension = certificate.extensions.get_extension_for_class(kind)
        return ["critical,"] * extension.critical + read(extension.data), True
    except x509.ExtensionNotFound:
        return ["none"], True
    except x509.DuplicateExtension:
        return [f"refused with {REPEATED}"], False
    except x509.X509Error as refused:
        return [f"refused with {refused.status}"], False


def show(certificate: x509.Certificate) -> bool:
    print("subject:", visible(certificate.subject.rfc4514_string()))
    print("not before:", certificate.not_valid_before_utc.strftime("%Y-%m-%dT%H:%M:%SZ"))
    print("not after:", certificate.not_valid_after_utc.strftime("%Y-%m-%dT%H:%M:%SZ"))
    usage, is_usage = told(certificate, x509.KeyUsage, usages)
    print("key usage:", *usage)
    others, are_others = told(certificate, x509.SubjectAlternativeName, names)
    print("alternative names:", *others)
    # As it was read. By the rules of RFC 5280 (`raw=False`) its dates may be spelled otherwise.
    data = certificate.public_bytes()
    is_same = x509.reencode("Certificate", data) == data
    print("written again:", "the same bytes" if is_same else "other bytes")
    return is_usage and are_others and is_same


def main() -> int:
    if len(sys.argv) != 2:
        print("usage: show.py FILE", file=sys.stderr)
        return 2
    sys.stdout.reconfigure(encoding="utf-8")
    with open(sys.argv[1], "rb") as file:
        data = file.read()
    try:
        return 0 if show(x509.load_der_x509_certificate(data)) else 1
    except x509.X509Error as refused:
        print("certificate: refused with", refused.status)
        return 1


if __name__ == "__main__":
    sys.exit(main())
