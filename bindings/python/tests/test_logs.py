"""What logs answer (RFC 6962 4), of a made log beside `cryptography`: precertificates that a precertificate signing certificate signed, entries, heads, proofs.

usage: X509_LIBRARY=.../libx509.so PYTHONPATH=bindings/python/src python3 -m unittest discover -s bindings/python/tests
"""

from __future__ import annotations

import base64
import datetime
import hashlib
import json
import unittest

import x509_cert as x509
from test_merkle import audit_path, subproof, tree_hash
from x509_cert import logs

try:
    from cryptography import x509 as theirs
    from cryptography.exceptions import InvalidSignature
    from cryptography.hazmat.primitives import hashes, serialization
    from cryptography.hazmat.primitives.asymmetric import ec, padding, rsa
except ImportError as error:
    raise unittest.SkipTest("cryptography isn't there") from error

FROM, TO = datetime.datetime(2026, 1, 1), datetime.datetime(2026, 3, 1)
LIST = theirs.ObjectIdentifier("1.3.6.1.4.1.11129.2.4.2")
TRANSPARENCY = theirs.ObjectIdentifier("1.3.6.1.4.1.11129.2.4.4")
MILLISECONDS = 1_767_225_600_123


def named(text: str) -> theirs.Name:
    return theirs.Name([theirs.NameAttribute(theirs.NameOID.COMMON_NAME, text)])


def der(certificate: theirs.Certificate) -> bytes:
    return certificate.public_bytes(serialization.Encoding.DER)


def public_info(key: ec.EllipticCurvePrivateKey | rsa.RSAPrivateKey) -> bytes:
    return key.public_key().public_bytes(serialization.Encoding.DER, serialization.PublicFormat.SubjectPublicKeyInfo)


def vector24(octets: bytes) -> bytes:
    return len(octets).to_bytes(3, "big") + octets


def base64_of(octets: bytes) -> str:
    return base64.b64encode(octets).decode()


class Delegated:
    """An authority, a precertificate signing certificate of it, and what both sign for one key."""

    def __init__(self, is_identified: bool = True) -> None:
        self.is_identified = is_identified
        self.keys = {it: ec.generate_private_key(ec.SECP256R1()) for it in ("Authority", "Signing", "Subject")}
        self.authority = self.sign("Authority", "Authority", theirs.BasicConstraints(True, None))
        self.signing = self.sign("Signing", "Authority", theirs.BasicConstraints(True, 0), theirs.ExtendedKeyUsage([TRANSPARENCY]))
        # the poison and the list stand between the other extensions
        self.precertificate = self.sign("Subject", "Signing", theirs.SubjectAlternativeName([theirs.DNSName("a.example")]), theirs.PrecertPoison())
        empty = theirs.UnrecognizedExtension(LIST, b"\x04\x02\x00\x00")
        self.certificate = self.sign("Subject", "Authority", theirs.SubjectAlternativeName([theirs.DNSName("a.example")]), empty)

    def sign(self, subject: str, issuer: str, *extensions: theirs.ExtensionType) -> theirs.Certificate:
        public = self.keys[issuer].public_key()
        builder = theirs.CertificateBuilder().subject_name(named(subject)).issuer_name(named(issuer)).public_key(self.keys[subject].public_key())
        builder = builder.serial_number(7).not_valid_before(FROM).not_valid_after(TO)
        for it in extensions:
            builder = builder.add_extension(it, isinstance(it, theirs.PrecertPoison))
        if self.is_identified:
            builder = builder.add_extension(theirs.AuthorityKeyIdentifier.from_issuer_public_key(public), False)
        return builder.add_extension(theirs.KeyUsage(True, *[False] * 8), True).sign(self.keys[issuer], hashes.SHA256())


class Precertificates(unittest.TestCase):
    def test_reissued(self) -> None:
        for is_identified in (True, False):
            made = Delegated(is_identified)
            precertificate, signing = x509.Certificate(der(made.precertificate)), x509.Certificate(der(made.signing))
            part = precertificate.tbs_precertificate_bytes_signed_by(signing)
            self.assertEqual(part, made.certificate.tbs_precertificate_bytes)
            self.assertEqual(part, x509.Certificate(der(made.certificate)).tbs_precertificate_bytes)
            self.assertEqual(part, precertificate.tbs_precertificate_bytes_signed_by(made.signing))
            self.assertNotEqual(part, precertificate.tbs_precertificate_bytes)
            purposes = signing.extensions.get_extension_for_class(x509.ExtendedKeyUsage).value
            self.assertIn(x509.ExtendedKeyUsageOID.CERTIFICATE_TRANSPARENCY, purposes)

    def test_refused(self) -> None:
        made, bare = Delegated(), Delegated(False)
        precertificate = x509.Certificate(der(made.precertificate))
        for wrong, signing in ((precertificate, bare.signing), (x509.Certificate(der(made.signing)), made.signing)):
            with self.assertRaises(x509.X509Error) as refused:
                wrong.tbs_precertificate_bytes_signed_by(signing)
            self.assertEqual(str(refused.exception), "x509_logged_precertificate_signed_by: what was asked for isn't there")
        with self.assertRaisesRegex(TypeError, "^the signing certificate must be an x509_cert.Certificate, not a bytes$"):
            precertificate.tbs_precertificate_bytes_signed_by(b"")


class Log:
    """A log of a certificate and a precertificate, with two leaves more."""

    def __init__(self, key: ec.EllipticCurvePrivateKey | rsa.RSAPrivateKey) -> None:
        self.key, self.made = key, Delegated()
        moment, made = MILLISECONDS.to_bytes(8, "big"), self.made
        self.part = made.certificate.tbs_precertificate_bytes
        self.key_hash = hashlib.sha256(public_info(made.keys["Authority"])).digest()
        chain = vector24(vector24(der(made.authority)))
        above = vector24(vector24(der(made.signing)) + vector24(der(made.authority)))
        leaf = b"\x00\x00" + moment + b"\x00\x00" + vector24(der(made.certificate)) + b"\x00\x00"
        precertificate_leaf = b"\x00\x00" + moment + b"\x00\x01" + self.key_hash + vector24(self.part) + b"\x00\x02\xab\xcd"
        self.leaves = [leaf, precertificate_leaf, b"other", b"another"]
        self.entries = [(leaf, chain), (precertificate_leaf, vector24(der(made.precertificate)) + above)]

    def head(self, size: int) -> dict[str, object]:
        root = tree_hash(self.leaves[:size])
        data = b"\x00\x01" + MILLISECONDS.to_bytes(8, "big") + size.to_bytes(8, "big") + root
        if isinstance(self.key, rsa.RSAPrivateKey):
            algorithm, signature = b"\x04\x01", self.key.sign(data, padding.PKCS1v15(), hashes.SHA256())
        else:
            algorithm, signature = b"\x04\x03", self.key.sign(data, ec.ECDSA(hashes.SHA256()))
        signed = algorithm + len(signature).to_bytes(2, "big") + signature
        return {"tree_size": size, "timestamp": MILLISECONDS, "sha256_root_hash": base64_of(root), "tree_head_signature": base64_of(signed)}


class Answers(unittest.TestCase):
    @classmethod
    def setUpClass(cls) -> None:
        cls.log = Log(ec.generate_private_key(ec.SECP256R1()))
        members = [{"leaf_input": base64_of(leaf), "extra_data": base64_of(extra)} for leaf, extra in cls.log.entries]
        cls.answer = {"entries": members}

    def test_entries(self) -> None:
        made = self.log.made
        certificate, precertificate = logs.entries(json.dumps(self.answer))
        self.assertEqual(certificate.leaf.entry_type, logs.EntryType.X509_ENTRY)
        self.assertEqual(certificate.leaf.certificate_bytes, der(made.certificate))
        self.assertEqual((certificate.leaf.tbs_certificate_bytes, certificate.leaf.issuer_key_hash, certificate.leaf.extension_bytes), (None, None, b""))
        self.assertEqual(certificate.submitted_bytes, der(made.certificate))
        self.assertEqual(certificate.chain_bytes, [der(made.authority)])
        self.assertEqual(precertificate.leaf.entry_type, logs.EntryType.PRECERT_ENTRY)
        self.assertEqual((precertificate.leaf.tbs_certificate_bytes, precertificate.leaf.issuer_key_hash), (self.log.part, self.log.key_hash))
        self.assertEqual((precertificate.leaf.certificate_bytes, precertificate.leaf.extension_bytes), (None, b"\xab\xcd"))
        self.assertEqual(precertificate.submitted_bytes, der(made.precertificate))
        signing, authority = precertificate.chain()
        self.assertEqual(authority, x509.Certificate(der(made.authority)))
        self.assertEqual(precertificate.certificate().tbs_precertificate_bytes_signed_by(signing), precertificate.leaf.tbs_certificate_bytes)
        for it, leaf in zip((certificate, precertificate), self.log.leaves):
            self.assertEqual(it.leaf.milliseconds, MILLISECONDS)
            self.assertEqual(it.leaf.leaf_hash(), hashlib.sha256(b"\x00" + leaf).digest())
            self.assertEqual(it.leaf, logs.Leaf(leaf))

    def test_cut(self) -> None:
        """Each front of an entry's parts, and each part with a byte behind, is refused."""
        for leaf, extra in self.log.entries:
            for wrong in (*(leaf[:at] for at in range(len(leaf))), leaf + b"\x00"):
                with self.assertRaises(x509.X509Error):
                    logs.LogEntry(wrong, extra)
            for wrong in (*(extra[:at] for at in range(len(extra))), extra + b"\x00"):
                with self.assertRaises(x509.X509Error):
                    logs.LogEntry(leaf, wrong)

    def test_heads(self) -> None:
        for log in (self.log, Log(rsa.generate_private_key(65537, 2048))):
            head = logs.tree_head(json.dumps(log.head(3)).encode())
            self.assertEqual((head.tree_size, head.milliseconds, head.root_hash), (3, MILLISECONDS, tree_hash(log.leaves[:3])))
            head.verify(public_info(log.key))
            head.verify(log.key.public_key())
            other = logs.SignedTreeHead(4, head.milliseconds, head.root_hash, head.tree_head_signature)
            for wrong in (
                other,
                logs.SignedTreeHead(3, head.milliseconds + 1, head.root_hash, head.tree_head_signature),
                logs.SignedTreeHead(3, head.milliseconds, bytes(32), head.tree_head_signature),
                logs.SignedTreeHead(3, head.milliseconds, head.root_hash, head.tree_head_signature[:-1] + bytes([head.tree_head_signature[-1] ^ 1])),
            ):
                self.assertNotEqual(wrong, head)
                with self.assertRaises(InvalidSignature):
                    wrong.verify(log.key.public_key())
        with self.assertRaisesRegex(ValueError, "^the signatures of logs are by RSA or ECDSA with SHA-256$"):
            logs.SignedTreeHead(3, 0, bytes(32), b"\x05\x03\x00\x01\x00").verify(self.log.key.public_key())
        for wrong_signature in (b"", b"\x04\x03\x00", b"\x04\x03\x00\x02\x00", b"\x04\x03\x00\x01\x00\x00"):
            with self.assertRaises(x509.X509Error):
                logs.SignedTreeHead(3, 0, bytes(32), wrong_signature)

    def test_proofs(self) -> None:
        old, new = logs.tree_head(self.log.head(2)), logs.tree_head(self.log.head(4))
        hashes_of = [base64_of(it) for it in audit_path(1, self.log.leaves)]
        proof = logs.audit_proof({"leaf_index": 1, "audit_path": hashes_of})
        leaf = logs.Leaf(self.log.leaves[1])
        self.assertTrue(proof.shows(leaf.leaf_hash(), new))
        self.assertFalse(proof.shows(leaf.leaf_hash(), old))
        self.assertFalse(logs.AuditProof(0, proof.audit_path).shows(leaf.leaf_hash(), new))
        self.assertFalse(proof.shows(logs.Leaf(self.log.leaves[0]).leaf_hash(), new))
        hashes_between = logs.consistency_proof({"consistency": [base64_of(it) for it in subproof(2, self.log.leaves, True)]})
        self.assertTrue(logs.is_consistent(old, new, hashes_between))
        self.assertFalse(logs.is_consistent(new, old, hashes_between))
        self.assertFalse(logs.is_consistent(old, new, hashes_between[:-1]))

    def test_json(self) -> None:
        head = self.log.head(3)
        for wrong, said in (
            ("[]", "the answer of a log must be a JSON object"),
            ("{", "Expecting property name enclosed in double quotes"),
            (head | {"tree_size": None}, "tree_size must be a number without a fraction"),
            (head | {"tree_size": True}, "tree_size must be a number without a fraction"),
            (head | {"timestamp": 1.5}, "timestamp must be a number without a fraction"),
            (head | {"tree_size": -1}, "tree_size must be from 0 to 18446744073709551615"),
            (head | {"timestamp": 1 << 64}, "timestamp must be from 0 to 18446744073709551615"),
            (head | {"sha256_root_hash": "AAAA"}, "the root hash must have 32 bytes"),
            (head | {"sha256_root_hash": "A*AA"}, "sha256_root_hash must be base64"),
            (head | {"tree_head_signature": 3}, "tree_head_signature must be base64"),
            ({it: head[it] for it in head if it != "timestamp"}, "timestamp isn't there"),
        ):
            with self.assertRaisesRegex(ValueError, f"^{said}"):
                logs.tree_head(wrong)
        for wrong, said in (({}, "entries isn't there"), ({"entries": {}}, "entries must be a list"), ({"entries": [1]}, "the answer of a log must be")):
            with self.assertRaisesRegex(ValueError, f"^{said}"):
                logs.entries(wrong)
        with self.assertRaisesRegex(ValueError, "^a member of audit_path must have 32 bytes$"):
            logs.audit_proof({"leaf_index": 0, "audit_path": ["AAAA"]})


if __name__ == "__main__":
    unittest.main()
