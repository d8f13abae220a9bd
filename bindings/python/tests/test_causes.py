"""What a refusal says: its cause by the call, and of a text the place. And what few certificates have: unique identifiers, and names of EDI.

usage: X509_LIBRARY=.../libx509.so PYTHONPATH=bindings/python/src python3 -m unittest discover -s bindings/python/tests
"""

from __future__ import annotations

import datetime
import pathlib
import unittest
import warnings
from typing import Callable

import x509_cert as x509

DATA = pathlib.Path(__file__).resolve().parents[3] / "examples/data"
CERTIFICATE = (DATA / "certificate.der").read_bytes()
NOW = datetime.datetime(2030, 1, 1, tzinfo=datetime.timezone.utc)
# a key of Ed25519 (RFC 8410 4), whose bits are no key
KEY = bytes.fromhex("300a300506032b6570030100")


class Refused(unittest.TestCase):
    def refusal(self, asked: Callable[[], object]) -> x509.X509Error:
        with self.assertRaises(x509.X509Error) as refused:
            asked()
        return refused.exception

    def test_names(self) -> None:
        rows = {
            "CN": 0,
            "CN=a,": 5,
            ",CN=a": 0,
            "CN=a,,C=DE": 5,
            "CN=a, C=DE": 5,
            "CN=a+b": 5,
            "CN=a+O=b,X=c": 9,
            "CN=a\\,b,c": 8,
            "CN=a\\\\,b,c": 7,
            "O=\\2,C=DE": 0,
            "O=ö,Ö=a": 4,
        }
        for text, place in rows.items():
            with self.subTest(text):
                error = self.refusal(lambda: x509.Name.from_rfc4514_string(text))
                self.assertEqual((error.status, error.place), (3, place))
                self.assertEqual(str(error), f"x509_name_from_text: not the text of a name (RFC 4514), from its character {place} on")
        self.assertEqual(len(x509.Name.from_rfc4514_string("")), 0)
        self.assertEqual(len(x509.Name.from_rfc4514_string("CN=a\\,b\\+c+O=d,C=DE")), 3)
        twice = self.refusal(lambda: x509.Name.from_rfc4514_string("CN=a+CN=a"))
        self.assertEqual((twice.status, twice.place), (4, None))

    def test_identifiers(self) -> None:
        rows = {
            "": 0,
            "a": 0,
            "1": 1,
            "3.1": 0,
            "1.40": 2,
            "2.5.": 4,
            ".2.5": 0,
            "2..5": 2,
            "2.05": 2,
            "2.5.29.a.7": 7,
            "2.5.4294967296": 4,
            # 39 content octets: two numbers make the first
            "1.2" + 60 * ".3": 3 + 2 * 38 + 1,
        }
        for text, place in rows.items():
            with self.subTest(text):
                error = self.refusal(lambda: x509.ObjectIdentifier(text))
                self.assertEqual((error.status, error.place), (3, place))
                self.assertTrue(str(error).endswith(f"from its character {place} on"), error)

    def test_causes(self) -> None:
        name = x509.Name([x509.NameAttribute(x509.NameOID.COMMON_NAME, "a")])
        builder = x509.CertificateBuilder().serial_number(1).subject_name(name).public_key(KEY).not_valid_before(NOW).not_valid_after(NOW)
        how = (x509.SignatureAlgorithm.ED25519, lambda part: bytes(64))
        device = builder.issuer_name(name)
        made = device.sign(bytes.fromhex("300506032b6570"), lambda part: bytes(64))
        unnamed = x509.CertificateBuilder().serial_number(1).issuer_name(name).subject_name(x509.Name([])).public_key(KEY)
        unnamed = unnamed.not_valid_before(NOW).not_valid_after(NOW).sign(bytes.fromhex("300506032b6570"), lambda part: bytes(64))
        rows: dict[str, Callable[[], object]] = {
            "there is no type with that name": lambda: x509.reencode("Nothing", b"\x30\x00"),
            "the attribute doesn't have that string type": lambda: x509.NameAttribute(x509.NameOID.COUNTRY_NAME, "DE", x509.ASN1Type.UTF8String),
            "a root's subject has a country, an organization and a common name, in that order, each alone in its relative name; `sign` makes a root of any other "
            "name": lambda: builder.sign_root(*how),
            "none of the names is that of a hardware module": lambda: device.sign_device(*how, issuer_public_key=KEY, names=[x509.DNSName("a")]),
            "an anchor has no name, or an extension twice": lambda: x509.find_path([unnamed], [], made, NOW),
        }
        for cause, asked in rows.items():
            with self.subTest(cause):
                error = self.refusal(asked)
                self.assertEqual((error.status, error.place), (3, None))
                self.assertTrue(str(error).endswith(f": {cause}"), error)

    def test_identifier_octets(self) -> None:
        """Octets that no element begins with here: of no type, or of a tag whose number stands in further octets (X.690 8.1.2.4)."""
        builder = x509.CertificateSigningRequestBuilder()
        for tag in (0, 0x07, 0x10, 0x1F, 0x5F, 0x9F, 0xFF):
            with self.subTest(tag):
                error = self.refusal(lambda: builder.add_attribute(x509.AttributeOID.CHALLENGE_PASSWORD, b"a", tag))
                self.assertEqual((error.status, error.place), (5, None))
                self.assertTrue(str(error).endswith(": no element begins with that identifier octet"), error)

    def test_each_cause_is_of_a_call(self) -> None:
        """Each call that the package makes and for which the header lists X509_FAILED has its cause, but for those that aren't answered it there."""
        top = DATA.parents[1]
        listed, answers = set(), ""
        for line in (top / "include/x509.h").read_text(encoding="utf-8").splitlines():
            if "Answers X509_OK" in line:
                answers = line
            elif line.startswith("x509_status x509_") and "X509_FAILED" in answers:
                listed.add(line.split()[1].partition("(")[0])
        files = (top / "bindings/python/src/x509_cert").glob("*.py")
        source = "".join(it.read_text(encoding="utf-8") for it in files if it.name not in ("_header.py", "_library.py"))
        # a text of Python is UTF-8, the lengths of a path, of purposes, numbers and timestamps add up, and the parts of CRLs are within their bytes; a Merkle
        # proof that fails is answered by False
        others = {"x509_name_escape", "x509_path_check", "x509_path_validate_views_under_key", "x509_revocation_status", "x509_crl_fault"}
        others |= {"x509_extended_key_usage_encode", "x509_numbers_encode", "x509_timestamps_encode", "x509_user_notice_encode"}
        others |= {"x509_merkle_inclusion", "x509_merkle_consistency"}
        self.assertEqual({it for it in listed if f'"{it}"' in source} - others, set(x509.X509Error.CAUSES))


class Rare(unittest.TestCase):
    def test_unique_identifiers(self) -> None:
        plain = x509.Certificate(CERTIFICATE)
        self.assertEqual((plain.issuer_unique_id, plain.subject_unique_id), (None, None))
        self.assertEqual(plain.inner_signature_algorithm_bytes, plain.signature_algorithm_bytes)
        # behind the key (RFC 5280 4.1): of 16 bits, and of 14; the lengths of the certificate and of its signed part have two octets each
        key = plain.public_key_bytes
        front, _, behind = CERTIFICATE.partition(key)
        made = bytearray(front + key + bytes.fromhex("810300abcd" "8203021234") + behind)
        for at in (2, 6):
            made[at : at + 2] = (int.from_bytes(made[at : at + 2], "big") + 10).to_bytes(2, "big")
        it = x509.Certificate(bytes(made))
        self.assertEqual(it.issuer_unique_id, x509.UniqueIdentifier(b"\xab\xcd", 0))
        self.assertEqual(it.subject_unique_id, (b"\x12\x34", 2))
        crl = x509.load_der_x509_crl((DATA / "list.der").read_bytes())
        self.assertEqual(crl.inner_signature_algorithm_bytes, crl.signature_algorithm_bytes)

    def test_names_of_edi(self) -> None:
        # RFC 5280 4.2.1.6: an assigner and a name, or a name alone, each a text under its tag
        both = x509.EDIPartyName(bytes.fromhex("a003130161" "a1040c02c3b6"))
        self.assertEqual((both.name_assigner, both.party_name), ("a", "ö"))
        alone = x509.EDIPartyName(bytes.fromhex("a103130162"))
        self.assertEqual((alone.name_assigner, alone.party_name), (None, "b"))
        read = x509.SubjectAlternativeName.from_der(x509.SubjectAlternativeName([both, alone]).data)
        self.assertEqual([it.party_name for it in read if isinstance(it, x509.EDIPartyName)], ["ö", "b"])
        for bad in ("", "a003130161", "a1020500", "a1031301ff"):
            with self.subTest(bad), self.assertRaises(x509.X509Error):
                x509.EDIPartyName(bytes.fromhex(bad)).party_name

    def test_a_backend_is_warned_of(self) -> None:
        with self.assertWarnsRegex(UserWarning, "a backend is ignored") as warned:
            self.assertEqual(x509.load_der_x509_certificate(CERTIFICATE, "openssl").public_bytes(), CERTIFICATE)
        self.assertEqual(warned.filename, __file__)
        with warnings.catch_warnings():
            warnings.simplefilter("error")
            x509.load_der_x509_certificate(CERTIFICATE, backend=None)


if __name__ == "__main__":
    unittest.main()
