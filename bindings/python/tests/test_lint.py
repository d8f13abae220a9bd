"""The rules that objects break: what is stated by hand of each rule (tools/gate/test_linter.py), and the members of a finding.

usage: X509_LIBRARY=.../libx509.so PYTHONPATH=bindings/python/src python3 -m unittest discover -s bindings/python/tests
"""

from __future__ import annotations

import contextlib
import dataclasses
import io
import pathlib
import sys
import unittest

import x509_cert as x509

TOP = pathlib.Path(__file__).resolve().parents[3]
sys.path[:0] = [str(TOP / "tools"), str(TOP / "tools/gate")]
from common.der import UTF8_STRING, element, integer  # noqa: E402
from test_linter import anchor, cases, certificate  # noqa: E402

LOADERS = {
    "certificate": x509.load_der_x509_certificate,
    "crl": x509.load_der_x509_crl,
    "csr": x509.load_der_x509_csr,
    "anchor": x509.load_der_trust_anchor,
}


def kind_of(name: str) -> str:
    """Of which kind the object of a case is, by the name of the case."""
    return next((kind for kind in ("crl", "csr", "anchor") if name.startswith(kind)), "certificate")


def line(kind: str, it: x509.Finding) -> str:
    """What the program `x509_linter` prints of it."""
    which = f": {it.place}" if it.rule == "extension_malformed" else ""
    return f"{kind}: {it}{which}\n"


def tell(data: bytes) -> None:
    """Prints which rules a certificate breaks."""
    certificate = x509.load_der_x509_certificate(data)
    for found in x509.lint(certificate):
        print(f"{found.severity.value}: {found.rule} ({found.section}), at {found.place}")


class Rules(unittest.TestCase):
    def test_stated(self) -> None:
        broken = 0
        for name, data, lines in cases():
            kind = kind_of(name)
            with self.subTest(name):
                found = x509.lint(LOADERS[kind](data))  # type: ignore[operator]
                self.assertEqual([line(kind, it) for it in found], lines)
                broken += len(found)
        self.assertGreater(broken, 600)

    def test_members(self) -> None:
        number = "serial_number_not_positive", x509.Severity.error, "RFC 5280 4.1.2.2", "tbsCertificate.serialNumber", "00"
        (found,) = x509.lint(x509.load_der_x509_certificate(certificate(serial=integer(0))))
        self.assertEqual(dataclasses.astuple(found), number)
        self.assertEqual(str(found), "error serial_number_not_positive (RFC 5280 4.1.2.2)")
        self.assertEqual(x509.lint(x509.load_der_x509_certificate(certificate())), [])
        (found,) = x509.lint(x509.load_der_trust_anchor(certificate(serial=integer(0))))
        self.assertEqual(dataclasses.astuple(found), number)
        (found,) = x509.lint(x509.load_der_trust_anchor(anchor(title=element(UTF8_STRING, b""))))
        self.assertEqual(dataclasses.astuple(found), ("ta_title_size", x509.Severity.error, "RFC 5914 2.4", "taInfo.taTitle", ""))
        with self.assertRaises(dataclasses.FrozenInstanceError):
            found.rule = "another"  # type: ignore[misc]

    def test_printed(self) -> None:
        with contextlib.redirect_stdout(io.StringIO()) as printed:
            tell(certificate(serial=integer(0)))
        self.assertEqual(printed.getvalue(), "error: serial_number_not_positive (RFC 5280 4.1.2.2), at tbsCertificate.serialNumber\n")

    def test_what_is_linted(self) -> None:
        for given in (certificate(), None, "a", x509.Name([])):
            with self.assertRaises(TypeError):
                x509.lint(given)  # type: ignore[arg-type]


if __name__ == "__main__":
    unittest.main()
