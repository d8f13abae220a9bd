"""Timestamps and a tree head that certificate-transparency-go has in its tests, with the keys of their logs: each is signed, and with a bit otherwise isn't.

They are read from its `signatures_test.go`, where Debian's golang-github-google-certificate-transparency-dev has put it, or in the folder that
CERTIFICATE_TRANSPARENCY_GO names; where there is none the tests are left out.

usage: X509_LIBRARY=.../libx509.so PYTHONPATH=bindings/python/src [CERTIFICATE_TRANSPARENCY_GO=FOLDER] python3 -m unittest discover -s bindings/python/tests
"""

from __future__ import annotations

import ast
import hashlib
import os
import pathlib
import random
import re
import unittest

import x509_cert as x509
from x509_cert import logs

try:
    from cryptography.exceptions import InvalidSignature
    from cryptography.hazmat.primitives.serialization import Encoding, PublicFormat, load_pem_public_key
except ImportError as error:
    raise unittest.SkipTest("cryptography isn't there") from error

FOLDER = os.environ.get("CERTIFICATE_TRANSPARENCY_GO", "/usr/share/gocode/src/github.com/google/certificate-transparency/go")
SOURCE = pathlib.Path(FOLDER, "signatures_test.go")


def constants() -> dict[str, str]:
    """The constants of the source whose names begin with `sigTest`: texts, and numbers as they are written."""
    text = SOURCE.read_text(encoding="utf-8")
    found = {}
    for name, value in re.findall(r'^\t(sigTest\w+) = ((?:"[^"]*"(?: \+\s+)?)+|\d+)', text, re.M):
        found[name] = "".join(ast.literal_eval(it) for it in re.findall(r'"[^"]*"', value)) or value
    return found


@unittest.skipUnless(SOURCE.is_file(), "certificate-transparency-go isn't there")
class Signed(unittest.TestCase):
    def setUp(self) -> None:
        self.told, self.random = constants(), random.Random(6962)
        self.certificate = x509.Certificate(bytes.fromhex(self.told["sigTestDERCertString"]))

    def key(self, name: str) -> bytes:
        found: bytes = load_pem_public_key(self.told[name].encode()).public_bytes(Encoding.DER, PublicFormat.SubjectPublicKeyInfo)
        return found

    def timestamp(self, key: str, signature: str) -> bytes:
        """A timestamp of version 1 without extensions (RFC 6962 3.2): its signature isn't over the log's ID."""
        moment = int(self.told["sigTestSCTTimestamp"]).to_bytes(8, "big")
        return bytes(1) + hashlib.sha256(self.key(key)).digest() + moment + bytes(2) + bytes.fromhex(self.told[signature])

    def spoilt(self, data: bytes) -> bytes:
        made, bit = bytearray(data), self.random.randrange(8 * len(data))
        made[bit // 8] ^= 1 << bit % 8
        return bytes(made)

    def test_timestamps(self) -> None:
        for signature, key in (("sigTestCertSCTSignatureEC", "sigTestEC256PublicKeyPEM"), ("sigTestCertSCTSignatureRSA", "sigTestRSAPublicKeyPEM")):
            data = self.timestamp(key, signature)
            x509.SignedCertificateTimestamp(data).verify(self.key(key), self.certificate)
            for _ in range(200):
                with self.assertRaises((InvalidSignature, ValueError)):
                    x509.SignedCertificateTimestamp(self.spoilt(data)).verify(self.key(key), self.certificate)
        other = self.key("sigTestEC256PublicKey2PEM")
        with self.assertRaisesRegex(ValueError, "^the key is that of another log$"):
            x509.SignedCertificateTimestamp(self.timestamp("sigTestEC256PublicKeyPEM", "sigTestCertSCTSignatureEC")).verify(other, self.certificate)

    def test_algorithms_that_logs_do_not_have(self) -> None:
        for name in ("SignatureAlgorithm", "HashAlgorithm"):
            it = x509.SignedCertificateTimestamp(self.timestamp("sigTestEC256PublicKeyPEM", f"sigTestCertSCTSignatureUnsupported{name}"))
            with self.assertRaisesRegex(ValueError, "^the signatures of logs are by RSA or ECDSA with SHA-256$"):
                it.verify(self.key("sigTestEC256PublicKeyPEM"), self.certificate)

    def test_a_tree_head(self) -> None:
        root, signature = (bytes.fromhex(self.told[it]) for it in ("sigTestDefaultRootHash", "sigTestDefaultSTHSignature"))
        size, moment = int(self.told["sigTestDefaultTreeSize"]), int(self.told["sigTestDefaultSTHTimestamp"])
        key = self.key("sigTestEC256PublicKeyPEM")
        head = logs.SignedTreeHead(size, moment, root, signature)
        self.assertEqual(head.signature_input().hex(), self.told["sigTestDefaultSTHSerialized"])
        head.verify(key)
        for wrong in ((size + 1, moment, root, signature), (size, moment + 1, root, signature), (size, moment, self.spoilt(root), signature)):
            with self.assertRaises(InvalidSignature):
                logs.SignedTreeHead(*wrong).verify(key)
        for _ in range(200):
            with self.assertRaises((InvalidSignature, ValueError)):
                logs.SignedTreeHead(size, moment, root, self.spoilt(signature)).verify(key)


if __name__ == "__main__":
    unittest.main()
