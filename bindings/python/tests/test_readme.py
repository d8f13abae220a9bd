"""The snippets of README.md run.

usage: X509_LIBRARY=.../libx509.so PYTHONPATH=bindings/python/src python3 -m unittest discover -s bindings/python/tests
"""

from __future__ import annotations

import contextlib
import datetime
import hashlib
import io
import pathlib
import re
import unittest
from typing import Any

import x509_cert as x509

try:
    from cryptography import x509 as theirs
    from cryptography.hazmat.primitives import hashes
    from cryptography.hazmat.primitives.asymmetric import ec
    from cryptography.hazmat.primitives.serialization import Encoding
except ImportError:  # the test that asks it is left out then
    theirs = None  # type: ignore[assignment]

HERE = pathlib.Path(__file__).resolve().parent
DATA = HERE.parents[2] / "examples/data"


def issued(subject: str, issuer: str, keys: Any, days: int = 9) -> Any:
    """A certificate of `cryptography` for these days, of an authority where the names are the same."""
    now = datetime.datetime.now(datetime.timezone.utc)
    builder = theirs.CertificateBuilder(*map(theirs.Name.from_rfc4514_string, (issuer, subject)), keys[subject].public_key(), 5)
    builder = builder.not_valid_before(now - datetime.timedelta(9)).not_valid_after(now + datetime.timedelta(days))
    if subject == issuer:
        builder = builder.add_extension(theirs.BasicConstraints(True, None), True)
    return builder.add_extension(theirs.SubjectAlternativeName([theirs.DNSName("www.example.org")]), False).sign(keys[issuer], hashes.SHA256())


class Readme(unittest.TestCase):
    @unittest.skipIf(theirs is None, "cryptography isn't installed")
    def test_a_server(self) -> None:
        verifies = re.findall(r"^```python\n(.*?)^```$", (HERE.parent / "README.md").read_text(encoding="utf-8"), re.S | re.M)[0]
        keys = {it: ec.generate_private_key(ec.SECP256R1()) for it in ("CN=Root", "CN=Leaf")}
        now, day = datetime.datetime.now(datetime.timezone.utc), datetime.timedelta(days=1)
        lists = theirs.CertificateRevocationListBuilder(theirs.Name.from_rfc4514_string("CN=Root"), now - day, now + day)
        then = datetime.datetime(2020, 1, 2, 3, 4, 5, tzinfo=datetime.timezone.utc)
        entry = theirs.RevokedCertificateBuilder().serial_number(5).revocation_date(then).build()
        for days, crl, wanted in (
            (9, lists, "['CN=Leaf', 'CN=Root']"),
            (-1, lists, "the certificate has expired"),
            (9, lists.add_revoked_certificate(entry), "the certificate was revoked at 2020-01-02T03:04:05Z"),
        ):
            made = issued("CN=Root", "CN=Root", keys), issued("CN=Leaf", "CN=Root", keys, days), crl.sign(keys["CN=Root"], hashes.SHA256())
            names = dict(zip(("roots", "sent", "crls"), (it.public_bytes(Encoding.PEM) for it in made)))
            said = io.StringIO()
            with contextlib.redirect_stdout(said):
                exec(verifies, names)
            self.assertEqual(said.getvalue(), f"{wanted}\n")

    def test_snippets(self) -> None:
        _, reads, asks, name_made, builds = re.findall(r"^```python\n(.*?)^```$", (HERE.parent / "README.md").read_text(encoding="utf-8"), re.S | re.M)
        names = {"data": (DATA / "certificate.der").read_bytes()}
        said = io.StringIO()
        with contextlib.redirect_stdout(said):
            exec(reads, names)
        # what examples/data/make.py puts into it
        subject = "CN=www.example.org,O=Beispiel\\, Söhne & Co,C=DE"
        self.assertEqual(said.getvalue(), f"{subject} 2055-06-07 08:09:10+00:00\n['www.example.org', 'example.org']\n")
        said = io.StringIO()
        with contextlib.redirect_stdout(said):
            exec(asks, names)
        digest = hashlib.sha256(names["data"]).hexdigest()
        self.assertEqual(said.getvalue(), f"ec_p256 256 sha256\n{digest[:16]}\n")
        names = {"x509": x509, "user": "a,O=b"}
        exec(name_made, names)
        self.assertEqual([names[it].rfc4514_string() for it in ("subject", "issuer")], ["CN=a\\,O=b,C=DE", "CN=a\\,O=b CA,C=DE"])
        name = x509.Name.from_rfc4514_string("CN=a")
        start = datetime.datetime(2026, 1, 1, tzinfo=datetime.timezone.utc)
        key = bytes.fromhex("302a300506032b6570032100") + bytes(32)
        names = {"x509": x509, "serial": 5, "issuer": name, "subject": name, "key": key, "start": start, "end": start}
        names |= {"algorithm": bytes.fromhex("300506032b6570"), "sign": lambda message: bytes(64)}
        exec(builds, names)
        made = names["certificate"]
        self.assertEqual((made.signature, made.serial_number, len(made.extensions)), (bytes(64), 5, 2))


if __name__ == "__main__":
    unittest.main()
