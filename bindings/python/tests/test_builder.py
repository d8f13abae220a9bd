"""The builders: an authority made by them, which openssl and `cryptography` accept, and refuse where they should; and what builders refuse.

usage: X509_LIBRARY=.../libx509.so PYTHONPATH=bindings/python/src python3 -m unittest discover -s bindings/python/tests
"""

from __future__ import annotations

import datetime
import hashlib
import os
import pathlib
import shutil
import subprocess
import sys
import tempfile
import unittest

import x509_cert as ours

try:
    from cryptography import x509 as theirs
    from cryptography.x509.verification import PolicyBuilder, Store, VerificationError
except ImportError:  # the tests are left out then
    theirs = None  # type: ignore[assignment]

TOP = pathlib.Path(__file__).resolve().parents[3]
NOW = datetime.datetime(2030, 1, 1, tzinfo=datetime.timezone.utc)
ED25519 = bytes.fromhex("300506032b6570")
KEY = bytes.fromhex("302a300506032b6570032100") + bytes(32)


@unittest.skipIf(theirs is None, "cryptography isn't installed")
class Authority(unittest.TestCase):
    @classmethod
    def setUpClass(cls) -> None:
        folder = tempfile.TemporaryDirectory()
        cls.addClassCleanup(folder.cleanup)
        cls.folder = pathlib.Path(folder.name)
        subprocess.run([sys.executable, "-B", str(TOP / "examples/python/authority.py"), folder.name], check=True, env=os.environ)

    def read(self, name: str) -> bytes:
        return (self.folder / f"{name}.pem").read_bytes()

    def openssl(self, *words: str) -> tuple[int, str]:
        fixed = ["-x509_strict", "-attime", str(int(NOW.timestamp())), "-CAfile", "root.pem", "-untrusted", "intermediate.pem"]
        ended = subprocess.run(["openssl", "verify", *fixed, *words, "server.pem"], cwd=self.folder, capture_output=True, text=True)
        return ended.returncode, ended.stdout + ended.stderr

    @unittest.skipIf(shutil.which("openssl") is None, "openssl isn't installed")
    def test_openssl(self) -> None:
        self.assertEqual(self.openssl(), (0, "server.pem: OK\n"))
        self.assertEqual(self.openssl("-crl_check", "-CRLfile", "before.pem"), (0, "server.pem: OK\n"))
        status, said = self.openssl("-crl_check", "-CRLfile", "after.pem")
        self.assertNotEqual(status, 0)
        self.assertIn("certificate revoked", said)

    def test_verifier(self) -> None:
        root, middle, server = (theirs.load_pem_x509_certificate(self.read(name)) for name in ("root", "intermediate", "server"))
        policy = PolicyBuilder().store(Store([root])).time(NOW.replace(tzinfo=None))
        self.assertEqual(policy.build_server_verifier(theirs.DNSName("www.example.org")).verify(server, [middle]), [server, middle, root])
        with self.assertRaises(VerificationError):
            policy.build_server_verifier(theirs.DNSName("www.example.com")).verify(server, [middle])

    def test_lists(self) -> None:
        middle, server = (theirs.load_pem_x509_certificate(self.read(name)) for name in ("intermediate", "server"))
        before, after = (theirs.load_pem_x509_crl(self.read(name)) for name in ("before", "after"))
        for number, crl in ((1, before), (2, after)):
            self.assertTrue(crl.is_signature_valid(middle.public_key()))
            self.assertEqual(crl.extensions.get_extension_for_class(theirs.CRLNumber).value.crl_number, number)
            ski = middle.extensions.get_extension_for_class(theirs.SubjectKeyIdentifier).value
            self.assertEqual(crl.extensions.get_extension_for_class(theirs.AuthorityKeyIdentifier).value.key_identifier, ski.digest)
        self.assertIsNone(before.get_revoked_certificate_by_serial_number(server.serial_number))
        entry = after.get_revoked_certificate_by_serial_number(server.serial_number)
        self.assertEqual(entry.extensions.get_extension_for_class(theirs.CRLReason).value.reason, theirs.ReasonFlags.key_compromise)

    def test_request(self) -> None:
        csr = theirs.load_pem_x509_csr(self.read("request"))
        self.assertTrue(csr.is_signature_valid)
        self.assertEqual(csr.subject.rfc4514_string(), "CN=www.example.org")
        names = csr.extensions.get_extension_for_class(theirs.SubjectAlternativeName).value
        self.assertEqual(names.get_values_for_type(theirs.DNSName), ["www.example.org"])


class Refusals(unittest.TestCase):
    def builder(self) -> ours.CertificateBuilder:
        name = ours.Name.from_rfc4514_string("CN=a")
        made = ours.CertificateBuilder().serial_number(5).issuer_name(name).subject_name(name).public_key(KEY)
        return made.not_valid_before(NOW).not_valid_after(NOW)

    def test_what_is_given(self) -> None:
        constraints = ours.BasicConstraints(ca=False, path_length=None)
        with_one = self.builder().add_extension(constraints, critical=True)
        self.assertEqual(len(with_one.sign(ED25519, lambda part: bytes(64)).extensions), 1)
        self.assertEqual(self.builder().sign(ED25519, lambda part: bytes(64)).version, ours.Version.v1)
        for refused in (
            lambda: with_one.add_extension(constraints, critical=False),
            lambda: self.builder().serial_number(6),
            lambda: ours.CertificateBuilder().serial_number(0),
            lambda: ours.CertificateBuilder().tbs_certificate_bytes(ED25519),
            lambda: ours.CertificateBuilder().serial_number(1 << 200).tbs_certificate_bytes(ED25519),
            lambda: ours.CertificateRevocationListBuilder().crl_number(-1),
            lambda: ours.CertificateSigningRequestBuilder().tbs_certrequest_bytes(),
        ):
            with self.assertRaises(ValueError):
                refused()
        with self.assertRaises(ours.X509Error) as caught:
            self.builder().tbs_certificate_bytes(b"\x30\x00")
        self.assertEqual(caught.exception.status, 2)

    def kind(self, subject: str, issuer: str | None = "CN=I") -> ours.CertificateBuilder:
        made = ours.CertificateBuilder().serial_number(5).subject_name(ours.Name.from_rfc4514_string(subject)).public_key(KEY)
        made = made if issuer is None else made.issuer_name(ours.Name.from_rfc4514_string(issuer))
        return made.not_valid_before(NOW).not_valid_after(NOW).add_extension(ours.PrecertPoison(), critical=True)

    def oids(self, certificate: ours.Certificate) -> list[ours.ObjectIdentifier]:
        return [it.oid for it in certificate.extensions]

    def test_kinds_of_certificates(self) -> None:
        oid = ours.ExtensionOID
        authority = [oid.PRECERT_POISON, oid.AUTHORITY_KEY_IDENTIFIER, oid.BASIC_CONSTRAINTS, oid.KEY_USAGE, oid.SUBJECT_KEY_IDENTIFIER]
        root = self.kind("CN=R,O=O,C=DE", issuer=None).sign_root(ED25519, lambda part: bytes(64))
        self.assertEqual((self.oids(root), root.issuer), (authority, root.subject))
        # the SHA-1 digest of the key's 32 octets (RFC 5280 4.2.1.2)
        ski = root.extensions.get_extension_for_class(ours.SubjectKeyIdentifier).value
        self.assertEqual(ski.digest, hashlib.sha1(bytes(32)).digest())
        with self.assertRaises(ours.X509Error) as caught:
            self.kind("CN=R", issuer=None).sign_root(ED25519, lambda part: bytes(64))
        self.assertEqual(caught.exception.status, 3)
        middle = self.kind("CN=M").sign_subordinate(ED25519, lambda part: bytes(64), KEY, path_length=0)
        self.assertEqual(self.oids(middle), [*authority, oid.EXTENDED_KEY_USAGE])
        self.assertEqual(middle.extensions.get_extension_for_class(ours.BasicConstraints).value, ours.BasicConstraints(ca=True, path_length=0))
        with self.assertRaises(ValueError):
            self.kind("CN=M").sign_subordinate(ED25519, lambda part: bytes(64), KEY, path_length=256)
        server = self.kind("CN=a.example,C=DE").sign_subscriber(ED25519, lambda part: bytes(64), KEY)
        self.assertEqual(self.oids(server), [*authority[:2], oid.EXTENDED_KEY_USAGE, *authority[2:4]])
        self.assertEqual(server.subject.rfc4514_string(), "CN=a.example,C=DE")
        # id-on-hardwareModuleName with a HardwareModuleName (RFC 4108 5)
        hardware = ours.OtherName(ours.ObjectIdentifier("1.3.6.1.5.5.7.8.4"), bytes.fromhex("300706022a03040105"))
        device = self.kind("CN=D").sign_device(ED25519, lambda part: bytes(64), KEY, [hardware])
        self.assertEqual(self.oids(device), [*authority[:2], oid.KEY_USAGE, oid.SUBJECT_ALTERNATIVE_NAME])
        self.assertEqual(self.oids(self.kind("CN=D").sign_device(ED25519, lambda part: bytes(64), KEY)), [*authority[:2], oid.KEY_USAGE])

    def never_signs(self, part: bytes) -> bytes:
        raise AssertionError("it is signed")

    def test_what_a_kind_of_certificate_does_not_take(self) -> None:
        """It is refused before anything is signed."""
        for issuer in ("CN=I", "CN=R,O=O,C=DE"):
            with self.assertRaises(ValueError):
                self.kind("CN=R,O=O,C=DE", issuer).sign_root(ED25519, self.never_signs)
        with self.assertRaises(ValueError):
            self.kind("CN=M", issuer=None).sign_subordinate(ED25519, self.never_signs, KEY)
        for subject in ("CN=a.example,O=O,C=DE", "O=O", "CN=a.example+O=O", "UID=a"):
            with self.subTest(subject), self.assertRaises(ValueError):
                self.kind(subject).sign_subscriber(ED25519, self.never_signs, KEY)
        # the key is one of Ed25519, which is for signatures alone
        for use in ("key_encipherment", "key_agreement", "data_encipherment"):
            with self.subTest(use), self.assertRaises(ValueError):
                self.kind("CN=a.example").sign_subscriber(ED25519, self.never_signs, KEY, **{use: True})

    def test_an_extension_that_a_kind_of_certificate_has(self) -> None:
        oid = ours.ExtensionOID
        hardware = ours.OtherName(ours.ObjectIdentifier("1.3.6.1.5.5.7.8.4"), bytes.fromhex("300706022a03040105"))
        kinds = {
            "sign_root": ((), [oid.AUTHORITY_KEY_IDENTIFIER, oid.BASIC_CONSTRAINTS, oid.KEY_USAGE, oid.SUBJECT_KEY_IDENTIFIER]),
            "sign_subordinate": (
                (KEY,),
                [oid.AUTHORITY_KEY_IDENTIFIER, oid.BASIC_CONSTRAINTS, oid.KEY_USAGE, oid.SUBJECT_KEY_IDENTIFIER, oid.EXTENDED_KEY_USAGE],
            ),
            "sign_subscriber": ((KEY,), [oid.AUTHORITY_KEY_IDENTIFIER, oid.EXTENDED_KEY_USAGE, oid.BASIC_CONSTRAINTS, oid.KEY_USAGE]),
            "sign_device": ((KEY, [hardware]), [oid.AUTHORITY_KEY_IDENTIFIER, oid.KEY_USAGE, oid.SUBJECT_ALTERNATIVE_NAME]),
        }
        for method, (words, made) in kinds.items():
            is_root = method == "sign_root"
            builder = self.kind("CN=R,O=O,C=DE" if is_root else "CN=a.example,C=DE", None if is_root else "CN=I")
            for extension in made:
                with self.subTest(method, extension=extension), self.assertRaises(ours.X509Error) as caught:
                    further = builder.add_extension(ours.UnrecognizedExtension(extension, b"\x05\x00"), critical=False)
                    getattr(further, method)(ED25519, self.never_signs, *words)
                # REPEATED
                self.assertEqual(caught.exception.status, 7)
        with self.assertRaises(ValueError):
            ours.CertificateRevocationListBuilder().add_extension(ours.CRLNumber(5), critical=False)
        with self.assertRaises(ValueError):
            ours.CertificateRevocationListBuilder().add_extension(ours.AuthorityKeyIdentifier(b"a", None, None), critical=False)

    def test_twice_and_in_each_order(self) -> None:
        name, moment = ours.Name.from_rfc4514_string("CN=a"), NOW
        issuer = self.builder().sign(ED25519, lambda part: bytes(64))
        setters = {
            ours.CertificateBuilder: {
                "serial_number": 5,
                "issuer_name": name,
                "subject_name": name,
                "public_key": KEY,
                "not_valid_before": moment,
                "not_valid_after": moment,
            },
            ours.CertificateRevocationListBuilder: {"issuer": issuer, "crl_number": 1, "last_update": moment, "next_update": moment},
            ours.CertificateSigningRequestBuilder: {"subject_name": name, "public_key": KEY},
        }
        for kind, given in setters.items():
            made = set()
            for first in range(len(given)):
                builder = kind()
                for setter, value in (list(given.items()) * 2)[first : first + len(given)]:
                    builder = getattr(builder, setter)(value)
                    with self.assertRaises(ValueError):
                        getattr(builder, setter)(value)
                made.add(builder.sign(ED25519, lambda part: bytes(64)).public_bytes())
            self.assertEqual(len(made), 1)

    def test_moments_in_order(self) -> None:
        """Whichever is given first, and also where they are given with other time zones."""
        other = NOW.astimezone(datetime.timezone(datetime.timedelta(hours=14)))
        second = datetime.timedelta(seconds=1)
        for kind, first, last in (
            (ours.CertificateBuilder, "not_valid_before", "not_valid_after"),
            (ours.CertificateRevocationListBuilder, "last_update", "next_update"),
        ):
            for moment in (NOW, other):
                getattr(getattr(kind(), first)(NOW), last)(moment)
                getattr(getattr(kind(), last)(NOW), first)(moment)
                with self.assertRaises(ValueError):
                    getattr(getattr(kind(), first)(NOW), last)(moment - second)
                with self.assertRaises(ValueError):
                    getattr(getattr(kind(), last)(NOW), first)(moment + second)

    def test_reasons_of_entries(self) -> None:
        """A reason is an extension of its entry, whether it is given as one or not, and can't be lost."""
        reason = ours.Extension(ours.ExtensionOID.CRL_REASON, False, ours.CRLReason(ours.ReasonFlags.superseded).data)
        flag = ours.ReasonFlags.superseded
        extensions = ours.Extensions([reason])
        entries = [ours.RevokedCertificate(2, NOW, *words) for words in ((flag,), (None, extensions), (flag, extensions), (flag, ours.Extensions([])))]
        issuer = self.builder().sign(ED25519, lambda part: bytes(64))
        made = set()
        for entry in entries:
            self.assertEqual((entry.reason, [it.data for it in entry.extensions]), (flag, [reason.data]))
            builder = ours.CertificateRevocationListBuilder().issuer(issuer).crl_number(1).last_update(NOW).add_revoked_certificate(entry)
            crl = builder.sign(ED25519, lambda part: bytes(64))
            self.assertEqual([it.reason for it in crl], [flag])
            # an entry that was read is taken as it is
            again = ours.CertificateRevocationListBuilder().issuer(issuer).crl_number(1).last_update(NOW).add_revoked_certificate(crl[0])
            made |= {crl.public_bytes(), again.sign(ED25519, lambda part: bytes(64)).public_bytes()}
        self.assertEqual(len(made), 1)
        with self.assertRaises(ValueError):
            ours.RevokedCertificate(2, NOW, ours.ReasonFlags.key_compromise, extensions)
        with self.assertRaises(ours.DuplicateExtension):
            ours.RevokedCertificate(2, NOW, None, ours.Extensions([reason, reason]))
        with self.assertRaises(AttributeError):
            entries[0].reason = None

    def test_what_cryptography_refuses(self) -> None:
        """Values that go together with no others."""
        names = [ours.DNSName("a")]
        usages = {name: ours.KeyUsage(key_agreement=True, **{name: True}) for name in ("encipher_only", "decipher_only")}
        self.assertEqual([getattr(it, name) for name, it in usages.items()], [True, True])
        scope = {"full_name": None, "relative_name": None, "only_some_reasons": None, "indirect_crl": False}
        kinds = ("only_contains_user_certs", "only_contains_ca_certs", "only_contains_attribute_certs")
        for refused in (
            lambda: ours.BasicConstraints(False, 1),
            lambda: ours.BasicConstraints(False, 0),
            lambda: ours.KeyUsage(encipher_only=True),
            lambda: ours.KeyUsage(decipher_only=True),
            lambda: ours.AuthorityKeyIdentifier(b"a", names, None),
            lambda: ours.AuthorityKeyIdentifier(b"a", None, 5),
            lambda: ours.PolicyConstraints(None, None),
            lambda: ours.NameConstraints(None, None),
            lambda: ours.NameConstraints([], names),
            lambda: ours.NameConstraints(names, []),
            lambda: ours.DistributionPoint(None, None, None, None),
            lambda: ours.DistributionPoint(None, None, {ours.ReasonFlags.superseded}, None),
            lambda: ours.DistributionPoint(names, ours.Name.from_rfc4514_string("CN=a").rdns[0], None, None),
            lambda: ours.IssuingDistributionPoint(**scope, **dict.fromkeys(kinds, False)),
            *(lambda left=left: ours.IssuingDistributionPoint(**scope, **{kind: kind != left for kind in kinds}) for left in kinds),
        ):
            with self.assertRaises(ValueError):
                refused()
        for kind in kinds:
            self.assertTrue(getattr(ours.IssuingDistributionPoint(**scope, **{other: other == kind for other in kinds}), kind))

    def test_attributes_of_requests(self) -> None:
        builder = ours.CertificateSigningRequestBuilder().subject_name(ours.Name.from_rfc4514_string("CN=a")).public_key(KEY)
        password = ours.AttributeOID.CHALLENGE_PASSWORD
        csr = builder.add_attribute(password, b"word").sign(ED25519, lambda part: bytes(64))
        found = csr.get_attribute_for_oid(password)
        self.assertEqual((found.tag, found.value, csr.signature), (0x0C, b"word", bytes(64)))
        if theirs is not None:
            their = theirs.load_der_x509_csr(csr.public_bytes()).attributes
            self.assertEqual(their.get_attribute_for_oid(theirs.ObjectIdentifier(password.dotted_string)).value, b"word")
        whole = bytes.fromhex("301306092a864886f70d01090731060c04776f7264")
        self.assertEqual(builder.add_attribute_bytes(whole).sign(ED25519, lambda part: bytes(64)), csr)
        # in each order they are a set
        unstructured = ours.NameOID.UNSTRUCTURED_NAME
        both = [builder.add_attribute(password, b"word").add_attribute(unstructured, b"a", ours.ASN1Type.IA5String)]
        both.append(builder.add_attribute(unstructured, b"a", 0x16).add_attribute_bytes(whole))
        self.assertEqual(len({it.tbs_certrequest_bytes() for it in both}), 1)
        asking = bytes.fromhex("300f06092a864886f70d01090e31023000")
        for refused in (
            lambda: builder.add_attribute(password, b"word").add_attribute(password, b"other"),
            lambda: builder.add_attribute(password, b"word").add_attribute_bytes(whole),
            lambda: builder.add_attribute_bytes(whole + whole),
            lambda: builder.add_attribute_bytes(asking),
            lambda: builder.add_attribute(ours.AttributeOID.EXTENSION_REQUEST, b"", 0x30),
        ):
            with self.assertRaises(ValueError):
                refused()

    def test_a_signer_that_fails(self) -> None:
        def fails(part: bytes) -> bytes:
            raise RuntimeError(part)

        with self.assertRaises(RuntimeError) as caught:
            self.builder().sign(ED25519, fails)
        self.assertEqual(caught.exception.args[0], self.builder().tbs_certificate_bytes(ED25519))


if __name__ == "__main__":
    unittest.main()
