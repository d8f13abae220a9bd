"""The documents of objects: as text the lines that are stated by hand (tools/gate/shown_objects.py), as JSON the same for Python's `json`, and of the files
of the examples what `cryptography` says of them.

usage: X509_LIBRARY=.../libx509.so PYTHONPATH=bindings/python/src python3 -m unittest discover -s bindings/python/tests
"""

from __future__ import annotations

import json
import pathlib
import sys
import unittest

import x509_cert as ours

try:
    from cryptography import x509 as theirs
except ImportError:  # the test that asks it is left out then
    theirs = None  # type: ignore[assignment]

TOP = pathlib.Path(__file__).resolve().parents[3]
DATA = TOP / "examples/data"
sys.path[:0] = [str(TOP / "tools"), str(TOP / "tools/gate"), str(TOP / "tools/robustness")]
from shown_objects import objects  # noqa: E402
from test_show import HIDDEN, visible  # noqa: E402

Shown = ours.Certificate | ours.CertificateRevocationList | ours.CertificateSigningRequest | ours.TrustAnchor
LOADERS = {
    "certificate": ours.load_der_x509_certificate,
    "crl": ours.load_der_x509_crl,
    "csr": ours.load_der_x509_csr,
    "anchor": ours.load_der_trust_anchor,
}
TYPES = {"certificate": "certificate", "crl": "CRL", "csr": "CSR", "anchor": "trust anchor"}


def load(word: str, data: bytes) -> Shown:
    return LOADERS[word](data)  # type: ignore[operator]


def entries(shown: Shown) -> list[tuple[int, str, str]]:
    """What Python's `json` reads."""
    return [(it["depth"], it["label"], it["text"]) for it in json.loads(shown.to_json())]


class Stated(unittest.TestCase):
    def test_objects(self) -> None:
        count = 0
        for name, word, data, lines in objects():
            with self.subTest(name):
                shown = load(word, data)
                self.assertEqual(shown.to_text(), "".join(line + "\n" for line in lines))
                told = ["  " * depth + label + ":" + (" " if text else "") + visible(text) for depth, label, text in entries(shown)]
                self.assertEqual(told, lines)
                self.assertFalse({it for it in shown.to_text() + shown.to_json() if ord(it) in HIDDEN and it != "\n"})
                count += 1
        self.assertGreater(count, 50)

    def test_forged_lines(self) -> None:
        # RFC 5914 2: an empty key, the identifier abcd, and a title with a line feed, a separator of lines and a mark of direction
        title = 'T"\nserial: 00\u2028\u202e'
        fields = bytes.fromhex("3008300306012a030100" "0402abcd") + bytes([0x0C, len(title.encode())]) + title.encode()
        anchor = ours.load_der_trust_anchor(bytes([0xA2, len(fields) + 2, 0x30, len(fields)]) + fields)
        self.assertEqual(anchor.title, title)
        self.assertEqual(entries(anchor)[-1], (0, "title", title))
        self.assertEqual(anchor.to_text().split("\n")[-2:], ['title: T"\\0aserial: 00\\e2\\80\\a8\\e2\\80\\ae', ""])


@unittest.skipIf(theirs is None, "cryptography isn't installed")
class AgainstCryptography(unittest.TestCase):
    def texts(self, word: str, name: str) -> dict[str, list[str]]:
        """The texts of each label of an object of the examples, in order."""
        found: dict[str, list[str]] = {}
        shown = load(word, (DATA / name).read_bytes())
        for _, label, text in entries(shown):
            found.setdefault(label, []).append(text)
        self.assertEqual(found["type"], [TYPES[word]])
        self.assertEqual(shown.to_text().split("\n", 1)[0], f"type: {TYPES[word]}")
        return found

    def test_certificate(self) -> None:
        their = theirs.load_der_x509_certificate((DATA / "certificate.der").read_bytes())
        for word in ("certificate", "anchor"):
            found = self.texts(word, "certificate.der")
            self.assertEqual(found["serial"], [their.serial_number.to_bytes(8, "big").hex(":").upper()])
            self.assertEqual((found["subject"], found["issuer"]), ([their.subject.rfc4514_string()], [their.issuer.rfc4514_string()]))
            self.assertEqual(found["not before"], [f"{their.not_valid_before_utc:%Y-%m-%d %H:%M:%S UTC}"])
            self.assertEqual(found["not after"], [f"{their.not_valid_after_utc:%Y-%m-%d %H:%M:%S UTC}"])
            self.assertEqual((found["key size"], found["signature"]), ([f"{their.public_key().key_size} bits"], [their.signature.hex()]))
            names = their.extensions.get_extension_for_class(theirs.SubjectAlternativeName).value
            self.assertEqual(found["DNS name"], names.get_values_for_type(theirs.DNSName))
            self.assertEqual(found["email"], names.get_values_for_type(theirs.RFC822Name))
            self.assertEqual(found["IP address"], [str(it) for it in names.get_values_for_type(theirs.IPAddress)])
            self.assertEqual(found["usage"], ["digitalSignature", "keyEncipherment"])

    def test_crl(self) -> None:
        their, found = theirs.load_der_x509_crl((DATA / "list.der").read_bytes()), self.texts("crl", "list.der")
        self.assertEqual(found["issuer"], [their.issuer.rfc4514_string()])
        self.assertEqual(found["this update"], [f"{their.last_update_utc:%Y-%m-%d %H:%M:%S UTC}"])
        self.assertEqual(found["next update"], [f"{their.next_update_utc:%Y-%m-%d %H:%M:%S UTC}"])
        self.assertEqual([int(it.replace(":", ""), 16) for it in found["revoked"]], [it.serial_number for it in their])
        self.assertEqual(found["revocation date"], [f"{it.revocation_date_utc:%Y-%m-%d %H:%M:%S UTC}" for it in their])
        self.assertEqual((found["reason"], found["signature"]), (["keyCompromise"], [their.signature.hex()]))

    def test_csr(self) -> None:
        their, found = theirs.load_der_x509_csr((DATA / "request.der").read_bytes()), self.texts("csr", "request.der")
        self.assertEqual(found["subject"], [their.subject.rfc4514_string()])
        self.assertEqual((found["challenge password"], found["DNS name"]), (["password"], ["www.example.org"]))
        self.assertEqual((found["key size"], found["signature"]), ([f"{their.public_key().key_size} bits"], [their.signature.hex()]))


if __name__ == "__main__":
    unittest.main()
