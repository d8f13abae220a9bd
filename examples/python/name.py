"""Prints the text of a name that is made of values (RFC 4514), and its DER in hex. Whatever a value holds, it stays a value.

usage: X509_LIBRARY=.../libx509.so PYTHONPATH=bindings/python/src python3 examples/python/name.py TYPE VALUE .., as C US O 'Haus, Hof' CN a
"""

from __future__ import annotations

import sys

import x509_cert as x509

TYPES = {
    "C": x509.NameOID.COUNTRY_NAME,
    "ST": x509.NameOID.STATE_OR_PROVINCE_NAME,
    "L": x509.NameOID.LOCALITY_NAME,
    "O": x509.NameOID.ORGANIZATION_NAME,
    "OU": x509.NameOID.ORGANIZATIONAL_UNIT_NAME,
    "CN": x509.NameOID.COMMON_NAME,
}


def name_of(words: list[str]) -> x509.Name:
    """A name of types and values, one after the other, of which the first is the topmost."""
    return x509.Name([x509.NameAttribute(TYPES[kind], value) for kind, value in zip(words[::2], words[1::2], strict=True)])


def main() -> int:
    sys.stdout.reconfigure(encoding="utf-8")
    try:
        name = name_of(sys.argv[1:])
    except KeyError as error:
        print(f"{error} is none of {', '.join(TYPES)}", file=sys.stderr)
        return 1
    except ValueError as error:
        print(error, file=sys.stderr)
        return 1
    print(name.rfc4514_string())
    print(name.public_bytes().hex())
    return 0


if __name__ == "__main__":
    sys.exit(main())
