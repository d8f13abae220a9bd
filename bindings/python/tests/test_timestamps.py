"""What timestamps of certificates are signatures of (RFC 6962 3.2): made certificates of a log that signs them, beside `cryptography`.

usage: X509_LIBRARY=.../libx509.so PYTHONPATH=bindings/python/src python3 -m unittest discover -s bindings/python/tests
"""

from __future__ import annotations

import datetime
import hashlib
import unittest

import x509_cert as x509

try:
    from cryptography import x509 as theirs
    from cryptography.exceptions import InvalidSignature
    from cryptography.hazmat.primitives import hashes, serialization
    from cryptography.hazmat.primitives.asymmetric import ec, padding, rsa
except ImportError as error:
    raise unittest.SkipTest("cryptography isn't there") from error

FROM, TO = datetime.datetime(2026, 1, 1), datetime.datetime(2026, 3, 1)
LIST = theirs.ObjectIdentifier("1.3.6.1.4.1.11129.2.4.2")
# how many milliseconds the moment of a timestamp is after 1970
MILLISECONDS = 1_767_225_600_123


def public_info(key: ec.EllipticCurvePrivateKey | rsa.RSAPrivateKey) -> bytes:
    return key.public_key().public_bytes(serialization.Encoding.DER, serialization.PublicFormat.SubjectPublicKeyInfo)


class Authority:
    """One that issues certificates and precertificates, and logs that sign."""

    def __init__(self) -> None:
        self.key = ec.generate_private_key(ec.SECP256R1())
        self.name = theirs.Name([theirs.NameAttribute(theirs.NameOID.COMMON_NAME, "Authority")])
        self.certificate = self.issue(self.name)

    def issue(self, subject: theirs.Name, *extensions: theirs.ExtensionType) -> theirs.Certificate:
        builder = theirs.CertificateBuilder().subject_name(subject).issuer_name(self.name).public_key(self.key.public_key()).serial_number(7)
        builder = builder.not_valid_before(FROM).not_valid_after(TO).add_extension(theirs.BasicConstraints(False, None), True)
        for it in extensions:
            builder = builder.add_extension(it, isinstance(it, theirs.PrecertPoison))
        return builder.add_extension(theirs.SubjectAlternativeName([theirs.DNSName("a.example")]), False).sign(self.key, hashes.SHA256())

    def timestamped(self, *timestamps: bytes) -> theirs.Certificate:
        members = b"".join(len(it).to_bytes(2, "big") + it for it in timestamps)
        value = len(members).to_bytes(2, "big") + members
        head = b"\x04" + bytes([len(value)] if len(value) < 128 else [0x82, *len(value).to_bytes(2, "big")])
        return self.issue(theirs.Name([]), theirs.UnrecognizedExtension(LIST, head + value))


class Log:
    def __init__(self, key: ec.EllipticCurvePrivateKey | rsa.RSAPrivateKey) -> None:
        self.key, self.info = key, public_info(key)

    def timestamp(self, entry: bytes, extensions: bytes = b"") -> bytes:
        """A timestamp of the entry: its type and what it says, as TLS has them (RFC 6962 3.2)."""
        moment, behind = MILLISECONDS.to_bytes(8, "big"), len(extensions).to_bytes(2, "big") + extensions
        message = b"\x00\x00" + moment + entry + behind
        if isinstance(self.key, rsa.RSAPrivateKey):
            algorithm, signature = b"\x04\x01", self.key.sign(message, padding.PKCS1v15(), hashes.SHA256())
        else:
            algorithm, signature = b"\x04\x03", self.key.sign(message, ec.ECDSA(hashes.SHA256()))
        front = b"\x00" + hashlib.sha256(self.info).digest() + moment + behind
        return front + algorithm + len(signature).to_bytes(2, "big") + signature


def precertificate_entry(part: bytes, authority: Authority) -> bytes:
    key_hash = hashlib.sha256(public_info(authority.key)).digest()
    return b"\x00\x01" + key_hash + len(part).to_bytes(3, "big") + part


class Timestamps(unittest.TestCase):
    @classmethod
    def setUpClass(cls) -> None:
        cls.authority = Authority()
        cls.issuer = x509.Certificate(cls.authority.certificate.public_bytes(serialization.Encoding.DER))
        cls.logs = [Log(ec.generate_private_key(ec.SECP256R1())), Log(rsa.generate_private_key(65537, 2048))]
        precertificate = cls.authority.issue(theirs.Name([]), theirs.PrecertPoison())
        cls.precertificate = x509.Certificate(precertificate.public_bytes(serialization.Encoding.DER))
        # what is left of a certificate with an empty list is what is left of each of them
        cls.part = cls.authority.timestamped(b"").tbs_precertificate_bytes
        entry = precertificate_entry(cls.part, cls.authority)
        cls.theirs = cls.authority.timestamped(cls.logs[0].timestamp(entry), cls.logs[1].timestamp(entry, b"\xab"))
        cls.certificate = x509.Certificate(cls.theirs.public_bytes(serialization.Encoding.DER))
        cls.timestamps = cls.certificate.extensions.get_extension_for_class(x509.PrecertificateSignedCertificateTimestamps).value.timestamps

    def test_parts(self) -> None:
        self.assertEqual(self.certificate.tbs_precertificate_bytes, self.theirs.tbs_precertificate_bytes)
        self.assertEqual(self.precertificate.tbs_precertificate_bytes, self.part)
        with self.assertRaises(x509.X509Error) as refused:
            self.issuer.tbs_precertificate_bytes
        self.assertEqual(str(refused.exception), "x509_logged_precertificate: what was asked for isn't there")

    def test_signed(self) -> None:
        self.assertEqual(len(self.timestamps), 2)
        for it, log in zip(self.timestamps, self.logs):
            it.verify(log.info, self.certificate, self.issuer)
            it.verify(log.key.public_key(), self.theirs, self.authority.certificate)
            with self.assertRaises(InvalidSignature):
                it.verify(log.info, self.certificate, self.other_issuer())
            with self.assertRaises(InvalidSignature):
                it.verify(log.info, self.certificate)

    def other_issuer(self) -> x509.Certificate:
        return x509.Certificate(Authority().certificate.public_bytes(serialization.Encoding.DER))

    def test_spoilt(self) -> None:
        data = self.timestamps[0].data
        for at in (40, len(data) - 1):
            it = x509.SignedCertificateTimestamp(data[:at] + bytes([data[at] ^ 1]) + data[at + 1 :])
            with self.assertRaises(InvalidSignature):
                it.verify(self.logs[0].info, self.certificate, self.issuer)
        other = x509.SignedCertificateTimestamp(data[:43] + b"\x05" + data[44:])
        with self.assertRaisesRegex(ValueError, "^the signatures of logs are by RSA or ECDSA with SHA-256$"):
            other.verify(self.logs[0].info, self.certificate, self.issuer)
        with self.assertRaisesRegex(ValueError, "^the key is that of another log$"):
            other.verify(self.logs[1].info, self.certificate, self.issuer)

    def test_beside(self) -> None:
        whole = self.issuer.public_bytes()
        it = x509.SignedCertificateTimestamp(self.logs[0].timestamp(b"\x00\x00" + len(whole).to_bytes(3, "big") + whole))
        it.verify(self.logs[0].info, self.issuer)
        with self.assertRaises(InvalidSignature):
            it.verify(self.logs[0].info, self.certificate)
        with self.assertRaises(x509.X509Error) as refused:
            it.signature_input(self.issuer, self.issuer)
        self.assertEqual(str(refused.exception), "x509_timestamp_signed_data: what was asked for isn't there")

    def test_arguments(self) -> None:
        for wrong in (None, b"", "a", self.certificate.subject):
            with self.assertRaisesRegex(TypeError, "^the certificate must be an x509_cert.Certificate, not "):
                self.timestamps[0].signature_input(wrong, self.issuer)
        with self.assertRaisesRegex(TypeError, "^the issuer must be an x509_cert.Certificate, not a bytes$"):
            self.timestamps[0].signature_input(self.certificate, b"")


if __name__ == "__main__":
    unittest.main()
