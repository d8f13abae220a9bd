"""What a TypeError or a ValueError tells people: which value it is of, what it must be, and what was given. Objects of `cryptography` are taken by their DER.

usage: X509_LIBRARY=.../libx509.so PYTHONPATH=bindings/python/src python3 -m unittest discover -s bindings/python/tests
"""

from __future__ import annotations

import datetime
import pathlib
import unittest
from typing import Any, Callable

import x509_cert as x509

try:
    from cryptography import x509 as theirs
    from cryptography.hazmat.primitives import hashes
    from cryptography.hazmat.primitives.asymmetric import ed25519
    from cryptography.x509.oid import NameOID
except ImportError:  # what it says is left out then
    theirs = None  # type: ignore[assignment]

TOP = pathlib.Path(__file__).resolve().parents[3]
DATA = TOP / "examples/data"
NOW = datetime.datetime(2030, 1, 1, tzinfo=datetime.timezone.utc)
LATER = datetime.datetime(2031, 1, 1, tzinfo=datetime.timezone.utc)


class Messages(unittest.TestCase):
    def setUp(self) -> None:
        self.certificate = x509.load_der_x509_certificate((DATA / "certificate.der").read_bytes())
        self.crl = x509.load_der_x509_crl((DATA / "list.der").read_bytes())

    def says(self, kind: type[Exception], text: str, asked: Callable[[], object]) -> None:
        with self.assertRaises(kind) as caught:
            asked()
        self.assertEqual(str(caught.exception), text)

    def test_moments(self) -> None:
        naive = datetime.datetime(2030, 1, 1)
        wanted = "the moment must have a time zone, as datetime.now(timezone.utc) has"
        self.says(ValueError, wanted, lambda: x509.validate_path(self.certificate, [self.certificate], naive))
        self.says(ValueError, wanted, lambda: x509.check_path(self.certificate, [self.certificate], naive))
        early = datetime.datetime(1969, 1, 1, tzinfo=datetime.timezone.utc)
        self.says(ValueError, "the moment must be in 1970 or later", lambda: x509.check_path(self.certificate, [self.certificate], early))

    def test_types(self) -> None:
        builder: Any = x509.CertificateBuilder()
        self.says(TypeError, "the subject must be an x509_cert.Name, not a str", lambda: builder.subject_name("CN=a"))
        self.says(TypeError, "the issuer must be an x509_cert.Name, not an int", lambda: builder.issuer_name(5))
        other: Any = type("Name", (), {})()
        self.says(TypeError, "the subject must be an x509_cert.Name, not a Name", lambda: builder.subject_name(other))
        crl: Any = self.crl
        self.says(TypeError, "a certificate must be an x509_cert.Certificate, not an x509_cert.CertificateRevocationList", lambda: x509.may_sign_crls(crl))
        self.says(
            TypeError,
            "a certificate must be an x509_cert.Certificate, not an x509_cert.CertificateRevocationList",
            lambda: x509.check_path(self.certificate, [crl], NOW),
        )

    def test_roots(self) -> None:
        key = self.certificate.public_key_bytes
        builder = x509.CertificateBuilder().serial_number(5).public_key(key).not_valid_before(NOW).not_valid_after(LATER)

        def root(text: str) -> x509.Certificate:
            named = builder.subject_name(x509.Name.from_rfc4514_string(text))
            return named.sign_root(x509.SignatureAlgorithm.ED25519, lambda part: bytes(64))

        wanted = (
            "x509_build_root: a root's subject has a country, an organization and a common name, in that order, each alone in its relative name; `sign` makes a "
            "root of any other name"
        )
        for text in ("CN=Root", "C=DE,O=Example,CN=Root", "CN=Root,O=Example", "CN=Root+O=Example,C=DE"):
            with self.subTest(text):
                self.says(x509.X509Error, wanted, lambda text=text: root(text))  # type: ignore[misc]
        for text in ("CN=Root,O=Example,C=DE", "CN=Root,O=Example,ST=Hamburg,C=DE"):
            self.assertEqual(root(text).subject.rfc4514_string(), text)
        name = x509.Name.from_rfc4514_string("CN=Root")
        made = builder.subject_name(name).issuer_name(name).add_extension(x509.BasicConstraints(ca=True, path_length=None), critical=True)
        self.assertEqual(made.sign(x509.SignatureAlgorithm.ED25519, lambda part: bytes(64)).subject, name)
        for page in (x509.CertificateBuilder.sign_root.__doc__ or "", (TOP / "bindings/python/README.md").read_text(encoding="utf-8")):
            self.assertIn("a country, an organization and a common name, in that order", " ".join(page.split()))

    def test_pem(self) -> None:
        crl = self.crl.public_bytes(x509.Encoding.PEM)
        wanted = "no PEM of a CERTIFICATE is there, but one of a X509 CRL, which load_pem_x509_crl reads"
        self.says(ValueError, wanted, lambda: x509.load_pem_x509_certificate(crl))
        self.says(ValueError, wanted, lambda: x509.load_pem_x509_certificates(crl))
        request = (DATA / "request.der").read_bytes()
        text = x509.load_der_x509_csr(request).public_bytes(x509.Encoding.PEM)
        wanted = "no PEM of a X509 CRL is there, but one of a CERTIFICATE REQUEST, which load_pem_x509_csr reads"
        self.says(ValueError, wanted, lambda: x509.load_pem_x509_crl(text))
        with self.assertRaises(x509.X509Error) as caught:
            x509.load_der_x509_certificate(crl)
        self.assertIn("this looks like PEM of a X509 CRL, which load_pem_x509_crl reads", str(caught.exception))

    def test_version(self) -> None:
        self.assertEqual(x509.__version__, (TOP / "VERSION").read_text(encoding="utf-8").strip())
        self.assertEqual(tuple(map(int, x509.__version__.split("."))), x509.library_version())


@unittest.skipIf(theirs is None, "cryptography isn't installed")
class OfCryptography(unittest.TestCase):
    def test_are_taken(self) -> None:
        key: Any = ed25519.Ed25519PrivateKey.generate()
        name: Any = theirs.Name([theirs.NameAttribute(NameOID.COUNTRY_NAME, "DE"), theirs.NameAttribute(NameOID.COMMON_NAME, "a")])
        built = x509.CertificateBuilder().serial_number(5).subject_name(name).issuer_name(name).public_key(key.public_key())
        built = built.not_valid_before(NOW).not_valid_after(LATER).add_extension(x509.BasicConstraints(ca=True, path_length=None), critical=True)
        ours = built.sign(key, None)
        self.assertEqual(ours.subject.public_bytes(), name.public_bytes())
        other: Any = theirs.load_der_x509_certificate(ours.public_bytes())
        self.assertEqual(x509.validate_path(other, [other], NOW).certificates, (ours,))
        self.assertEqual(x509.check_path(other, [other], NOW), [ours])
        self.assertEqual(x509.lint(other), x509.lint(ours))
        self.assertTrue(ours.subject.matches(name))
        ours.verify_directly_issued_by(other)
        made = x509.CertificateRevocationListBuilder().issuer_name(name).last_update(NOW).next_update(LATER).crl_number(1).sign(key, None)
        self.assertEqual(made.issuer, ours.subject)

    def test_others_are_named(self) -> None:
        asked: Any = x509.CertificateBuilder()
        extension: Any = theirs.BasicConstraints(ca=True, path_length=None)
        with self.assertRaises(TypeError) as caught:
            asked.add_extension(extension, critical=True)
        self.assertEqual(str(caught.exception), "extval must be an x509_cert.ExtensionType, not cryptography's BasicConstraints")
        with self.assertRaises(TypeError) as caught:
            asked.subject_name(hashes.SHA256())
        self.assertEqual(str(caught.exception), "the subject must be an x509_cert.Name, not cryptography's SHA256")


if __name__ == "__main__":
    unittest.main()
