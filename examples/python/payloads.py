#!/usr/bin/env python3
"""Prints what the package says of payloads that nothing has checked: for each line of a file, `names HEX` or `usages HEX`, a line.

usage: X509_LIBRARY=.../libx509.so PYTHONPATH=bindings/python/src python3 examples/python/payloads.py FILE
"""

from __future__ import annotations

import sys

import x509_cert as x509
from payload import names, usages


def main() -> None:
    with open(sys.argv[1], encoding="ascii") as file:
        for line in file:
            kind, digits = line.rstrip("\n").split(" ")
            read = names if kind == "names" else usages
            try:
                words = read(bytes.fromhex(digits))
            except x509.X509Error as refused:
                words = [f"refused with {refused.status}"]
            print(f"{kind}:" + "".join(" " + word for word in words))


if __name__ == "__main__":
    main()
