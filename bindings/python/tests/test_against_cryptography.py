"""What the package says of certificates is what `cryptography` says of them: of those in examples/data, and of each in the system's store.

usage: X509_LIBRARY=.../libx509.so PYTHONPATH=bindings/python/src python3 -m unittest discover -s bindings/python/tests
"""

from __future__ import annotations

import datetime
import glob
import hashlib
import pathlib
import unittest
import warnings

import x509_cert as ours

try:
    from cryptography import x509 as theirs
    from cryptography.hazmat.primitives import hashes, serialization
    from cryptography.hazmat.primitives.asymmetric import ec, ed25519
except ImportError:  # the tests are left out then
    theirs = None  # type: ignore[assignment]

DATA = pathlib.Path(__file__).resolve().parents[3] / "examples/data"


def store() -> list[bytes]:
    """The DER of the certificates of the system's store."""
    found = []
    for file in sorted(glob.glob("/etc/ssl/certs/*.pem")):
        try:
            with open(file, "rb") as it:
                found.append(theirs.load_pem_x509_certificate(it.read()).public_bytes(serialization.Encoding.DER))
        except ValueError:
            continue
    return sorted(set(found))


@unittest.skipIf(theirs is None, "cryptography isn't installed")
class AgainstCryptography(unittest.TestCase):
    def compare(self, data: bytes) -> None:
        with warnings.catch_warnings():
            warnings.simplefilter("ignore")
            their = theirs.load_der_x509_certificate(data)
            our = ours.load_der_x509_certificate(data)
            self.assertEqual(our.serial_number, their.serial_number)
            self.assertEqual(our.version.value, their.version.value)
            self.assertEqual(our.not_valid_before_utc, their.not_valid_before_utc)
            self.assertEqual(our.not_valid_after_utc, their.not_valid_after_utc)
            self.assertEqual(our.tbs_certificate_bytes, their.tbs_certificate_bytes)
            self.assertEqual(our.signature, their.signature)
            self.assertEqual(our.public_bytes(), data)
            self.assertEqual(our.fingerprint("sha256"), their.fingerprint(hashes.SHA256()))
            for name in ("subject", "issuer"):
                self.names(getattr(our, name), getattr(their, name))
            spki = their.public_key().public_bytes(serialization.Encoding.DER, serialization.PublicFormat.SubjectPublicKeyInfo)
            self.assertEqual(our.public_key_bytes, spki)
            self.extensions(our.extensions, their.extensions)

    def names(self, our: ours.Name, their: theirs.Name) -> None:
        self.assertEqual(our.public_bytes(), their.public_bytes())
        self.assertEqual([(it.oid.dotted_string, it.value) for it in our], [(it.oid.dotted_string, it.value) for it in their])
        # a text doesn't say whether a value was a PrintableString or a UTF8String, so the bytes may differ
        text = our.rfc4514_string()
        self.assertEqual(ours.Name.from_rfc4514_string(text).rfc4514_string(), text)

    def extensions(self, our: ours.Extensions, their: theirs.Extensions) -> None:
        self.assertEqual([(it.oid.dotted_string, it.critical) for it in our], [(it.oid.dotted_string, it.critical) for it in their])
        for one, other in zip(our, their):
            compare = getattr(self, "of_" + type(other.value).__name__, None)
            if compare is None:
                continue
            try:
                held = one.value
            except ours.X509Error:
                # `cryptography` takes a few values that are not DER, as a KeyUsage that ends with zero bits (X.690 11.2.2), and writes other bytes for them
                self.assertNotEqual(one.data, other.value.public_bytes())
                continue
            compare(held, other.value)

    def of_KeyUsage(self, our: ours.KeyUsage, their: theirs.KeyUsage) -> None:
        for name in "digital_signature content_commitment key_encipherment data_encipherment key_agreement key_cert_sign crl_sign".split():
            self.assertEqual(getattr(our, name), getattr(their, name))

    def of_BasicConstraints(self, our: ours.BasicConstraints, their: theirs.BasicConstraints) -> None:
        self.assertEqual((our.ca, our.path_length), (their.ca, their.path_length))

    def of_ExtendedKeyUsage(self, our: ours.ExtendedKeyUsage, their: theirs.ExtendedKeyUsage) -> None:
        self.assertEqual([it.dotted_string for it in our], [it.dotted_string for it in their])

    def of_SubjectKeyIdentifier(self, our: ours.SubjectKeyIdentifier, their: theirs.SubjectKeyIdentifier) -> None:
        self.assertEqual(our.key_identifier, their.key_identifier)

    def of_AuthorityKeyIdentifier(self, our: ours.AuthorityKeyIdentifier, their: theirs.AuthorityKeyIdentifier) -> None:
        self.assertEqual(our.key_identifier, their.key_identifier)
        self.assertEqual(our.authority_cert_serial_number, their.authority_cert_serial_number)
        self.assertEqual(our.authority_cert_issuer is None, their.authority_cert_issuer is None)

    def general_name(self, our: ours.GeneralName, their: theirs.GeneralName) -> None:
        self.assertEqual(type(our).__name__, type(their).__name__)
        if isinstance(our, (ours.DNSName, ours.RFC822Name, ours.UniformResourceIdentifier, ours.IPAddress)):
            self.assertEqual(our.value, their.value)
        if isinstance(our, ours.DirectoryName):
            self.assertEqual(our.value.public_bytes(), their.value.public_bytes())

    def of_SubjectAlternativeName(self, our: ours.SubjectAlternativeName, their: theirs.SubjectAlternativeName) -> None:
        self.assertEqual(len(our), len(list(their)))
        for one, other in zip(our, their):
            self.general_name(one, other)

    of_IssuerAlternativeName = of_SubjectAlternativeName

    def of_AuthorityInformationAccess(self, our: ours.AuthorityInformationAccess, their: theirs.AuthorityInformationAccess) -> None:
        self.assertEqual([it.access_method.dotted_string for it in our], [it.access_method.dotted_string for it in their])
        for one, other in zip(our, their):
            self.general_name(one.access_location, other.access_location)

    def of_CertificatePolicies(self, our: ours.CertificatePolicies, their: theirs.CertificatePolicies) -> None:
        self.assertEqual([it.policy_identifier.dotted_string for it in our], [it.policy_identifier.dotted_string for it in their])
        self.assertEqual([it.policy_qualifiers is None for it in our], [it.policy_qualifiers is None for it in their])

    def of_CRLDistributionPoints(self, our: ours.CRLDistributionPoints, their: theirs.CRLDistributionPoints) -> None:
        self.assertEqual(len(our), len(list(their)))
        for one, other in zip(our, their):
            self.assertEqual(one.full_name is None, other.full_name is None)
            for name, its in zip(one.full_name or (), other.full_name or ()):
                self.general_name(name, its)

    def of_NameConstraints(self, our: ours.NameConstraints, their: theirs.NameConstraints) -> None:
        for ours_, theirs_ in ((our.permitted_subtrees, their.permitted_subtrees), (our.excluded_subtrees, their.excluded_subtrees)):
            self.assertEqual(ours_ is None, theirs_ is None)
            for one, other in zip(ours_ or (), theirs_ or ()):
                self.general_name(one, other)

    def test_example(self) -> None:
        self.compare((DATA / "certificate.der").read_bytes())

    def test_store(self) -> None:
        for data in store():
            with self.subTest(sha256=hashlib.sha256(data).hexdigest()):
                self.compare(data)

    def test_crl(self) -> None:
        self.compare_crl((DATA / "list.der").read_bytes())

    def compare_crl(self, data: bytes) -> None:
        their = theirs.load_der_x509_crl(data)
        our = ours.load_der_x509_crl(data)
        self.assertEqual(len(our), len(their))
        self.assertEqual(our.public_bytes(), data)
        self.assertEqual(our.tbs_certlist_bytes, their.tbs_certlist_bytes)
        self.assertEqual(our.signature, their.signature)
        self.assertEqual(our.signature_algorithm_oid.dotted_string, their.signature_algorithm_oid.dotted_string)
        self.assertEqual(our.fingerprint("sha256"), their.fingerprint(hashes.SHA256()))
        self.assertEqual((our.last_update_utc, our.next_update_utc), (their.last_update_utc, their.next_update_utc))
        self.names(our.issuer, their.issuer)
        self.extensions(our.extensions, their.extensions)
        for at, (one, entry) in enumerate(zip(our, their)):
            self.assertEqual((one.serial_number, one.revocation_date_utc), (entry.serial_number, entry.revocation_date_utc))
            self.extensions(one.extensions, entry.extensions)
            self.assertEqual(our[at].serial_number, entry.serial_number)
            self.assertEqual(our[at - len(our)].serial_number, entry.serial_number)
            found = our.get_revoked_certificate_by_serial_number(entry.serial_number)
            assert found is not None
            self.assertEqual((found.revocation_date_utc, found.reason), (entry.revocation_date_utc, one.reason))
        self.assertIsNone(our.get_revoked_certificate_by_serial_number(2**100 + 12345))
        with self.assertRaises(IndexError):
            our[len(our)]

    def of_CRLReason(self, our: ours.CRLReason, their: theirs.CRLReason) -> None:
        self.assertEqual(our.reason.name, their.reason.name)

    def of_PrecertificateSignedCertificateTimestamps(
        self, our: ours.PrecertificateSignedCertificateTimestamps, their: theirs.PrecertificateSignedCertificateTimestamps
    ) -> None:
        self.assertEqual(len(our), len(their))
        for one, other in zip(our, their):
            self.assertEqual((one.log_id, one.timestamp), (other.log_id, other.timestamp))
            self.assertEqual((one.signature, one.extension_bytes), (other.signature, other.extension_bytes))
            self.assertEqual(one.signature_algorithm, other.signature_algorithm.value)

    def test_crls_made(self) -> None:
        key = ec.generate_private_key(ec.SECP256R1())
        start = datetime.datetime(2026, 2, 1, tzinfo=datetime.timezone.utc)
        name = theirs.Name([theirs.NameAttribute(theirs.NameOID.COMMON_NAME, "a")])
        for count in (0, 1, 300):
            builder = theirs.CertificateRevocationListBuilder().issuer_name(name).last_update(start).next_update(start + datetime.timedelta(days=count + 1))
            builder = builder.add_extension(theirs.CRLNumber(count), critical=False)
            for number in range(count):
                # of up to 155 bits
                serial = 7 ** (number % 56) + number
                entry = theirs.RevokedCertificateBuilder().serial_number(serial).revocation_date(start - datetime.timedelta(hours=number))
                if number % 3 == 0:
                    entry = entry.add_extension(theirs.CRLReason(list(theirs.ReasonFlags)[number % 10]), critical=False)
                builder = builder.add_revoked_certificate(entry.build())
            with self.subTest(entries=count):
                self.compare_crl(builder.sign(key, hashes.SHA256()).public_bytes(serialization.Encoding.DER))

    def test_csr(self) -> None:
        self.compare_csr((DATA / "request.der").read_bytes())

    def compare_csr(self, data: bytes) -> None:
        their = theirs.load_der_x509_csr(data)
        our = ours.load_der_x509_csr(data)
        self.assertEqual(our.public_bytes(), data)
        self.assertEqual(our.tbs_certrequest_bytes, their.tbs_certrequest_bytes)
        self.assertEqual(our.signature, their.signature)
        self.assertEqual(our.signature_algorithm_oid.dotted_string, their.signature_algorithm_oid.dotted_string)
        spki = their.public_key().public_bytes(serialization.Encoding.DER, serialization.PublicFormat.SubjectPublicKeyInfo)
        self.assertEqual(our.public_key_bytes, spki)
        self.names(our.subject, their.subject)
        self.extensions(our.extensions, their.extensions)
        self.assertEqual([(it.oid.dotted_string, it.value) for it in our.attributes], [(it.oid.dotted_string, it.value) for it in their.attributes])

    def test_csrs_made(self) -> None:
        builder = theirs.CertificateSigningRequestBuilder().subject_name(theirs.Name([]))
        for key, algorithm in ((ed25519.Ed25519PrivateKey.generate(), None), (ec.generate_private_key(ec.SECP384R1()), hashes.SHA384())):
            self.compare_csr(builder.sign(key, algorithm).public_bytes(serialization.Encoding.DER))
            usage = theirs.KeyUsage(True, False, False, False, False, True, True, False, False)
            more = builder.add_extension(usage, critical=True).add_extension(theirs.SubjectAlternativeName([theirs.DNSName("a.b")]), critical=False)
            self.compare_csr(more.sign(key, algorithm).public_bytes(serialization.Encoding.DER))

    def test_timestamps(self) -> None:
        """Two timestamps of RFC 6962 3.2 by hand, as an extension of a certificate."""
        one = b"\x00" + bytes(range(32)) + (1_700_000_000_123).to_bytes(8, "big") + b"\x00\x00" + b"\x04\x03\x00\x02\xab\xcd"
        other = b"\x00" + bytes(range(32, 64)) + (5).to_bytes(8, "big") + b"\x00\x01\xee" + b"\x04\x01\x00\x01\xef"
        listed = b"".join(len(it).to_bytes(2, "big") + it for it in (one, other))
        listed = len(listed).to_bytes(2, "big") + listed
        value = b"\x04" + bytes([len(listed)]) + listed
        key = ec.generate_private_key(ec.SECP256R1())
        start = datetime.datetime(2026, 1, 1, tzinfo=datetime.timezone.utc)
        builder = theirs.CertificateBuilder().subject_name(theirs.Name([])).issuer_name(theirs.Name([])).public_key(key.public_key()).serial_number(5)
        builder = builder.not_valid_before(start).not_valid_after(start + datetime.timedelta(days=1))
        oid = theirs.ObjectIdentifier("1.3.6.1.4.1.11129.2.4.2")
        data = builder.add_extension(theirs.UnrecognizedExtension(oid, value), critical=False).sign(key, hashes.SHA256())
        self.compare(data.public_bytes(serialization.Encoding.DER))
        held = ours.PrecertificateSignedCertificateTimestamps.from_der(value)
        self.assertEqual([it.milliseconds for it in held], [1_700_000_000_123, 5])
        self.assertEqual(held.serialized, [one, other])

    def test_anchors(self) -> None:
        data = (DATA / "certificate.der").read_bytes()
        certificate = ours.load_der_x509_certificate(data)
        part = certificate.tbs_certificate_bytes
        tagged = b"\xa1\x82" + len(part).to_bytes(2, "big") + part
        for anchor, kind, element in (
            (ours.load_der_trust_anchor(data), ours.AnchorKind.certificate, data),
            (ours.load_der_trust_anchor(tagged), ours.AnchorKind.tbs_certificate, part),
        ):
            self.assertEqual((anchor.kind, anchor.element), (kind, element))
            self.assertEqual((anchor.name, anchor.public_key_bytes), (certificate.subject, certificate.public_key_bytes))
            self.assertEqual([it.oid for it in anchor.extensions], [it.oid for it in certificate.extensions])
            self.assertEqual((anchor.title, anchor.key_identifier, anchor.path_controls_bytes), (None, None, None))
        key = certificate.public_key_bytes
        fields = key + b"\x04\x02\xab\xcd" + b"\x0c\x02\xc3\xa9"
        info = b"\x30" + bytes([len(fields)]) + fields
        anchor = ours.load_der_trust_anchor(b"\xa2" + bytes([len(info)]) + info)
        self.assertEqual((anchor.kind, anchor.element, anchor.name), (ours.AnchorKind.info, info, None))
        self.assertEqual((anchor.public_key_bytes, anchor.key_identifier, anchor.title), (key, b"\xab\xcd", "é"))
        self.assertEqual((len(anchor.extensions), anchor.path_controls_bytes), (0, None))


class Refusals(unittest.TestCase):
    """Bad bytes are an X509Error, and nothing else."""

    def test_cut_and_changed(self) -> None:
        data = (DATA / "certificate.der").read_bytes()
        for at in range(len(data)):
            with self.assertRaises(ours.X509Error):
                ours.load_der_x509_certificate(data[:at])
        for at in range(len(data)):
            for octet in (0x00, 0x7F, 0xFF):
                changed = data[:at] + bytes([octet]) + data[at + 1 :]
                try:
                    certificate = ours.load_der_x509_certificate(changed)
                    str(certificate.subject), certificate.serial_number, list(certificate.subject)
                    certificate.to_text(), certificate.to_json()
                    for extension in certificate.extensions:
                        extension.value
                except ours.X509Error:
                    continue

    def test_others_cut_and_changed(self) -> None:
        def crl(data: bytes) -> None:
            it = ours.load_der_x509_crl(data)
            str(it.issuer), it.last_update_utc, it.next_update_utc, it.signature_algorithm_oid, len(it.extensions)
            for at in range(len(it)):
                try:
                    it[at]
                except ours.DuplicateExtension:
                    continue

        def csr(data: bytes) -> None:
            it = ours.load_der_x509_csr(data)
            str(it.subject), it.attributes, it.signature_algorithm_oid, it.public_key_bytes
            len(it.extensions)

        for name, read in (("list.der", crl), ("request.der", csr)):
            data = (DATA / name).read_bytes()
            for at in range(len(data)):
                with self.assertRaises(ours.X509Error):
                    read(data[:at])
                for octet in (0x00, 0x7F, 0xFF):
                    try:
                        read(data[:at] + bytes([octet]) + data[at + 1 :])
                    except ours.X509Error:
                        continue

    def test_names(self) -> None:
        name = ours.Name.from_rfc4514_string("CN=a\\,b,O=c+OU=d")
        self.assertEqual(name.rfc4514_string(), "CN=a\\,b,O=c+OU=d")
        self.assertEqual([it.value for it in name.get_attributes_for_oid(ours.NameOID.COMMON_NAME)], ["a,b"])
        self.assertEqual([len(it) for it in name.rdns], [2, 1])
        for bad in ("CN", "CN=a,", "CN=a+CN=a", "X=1"):
            with self.assertRaises(ours.X509Error):
                ours.Name.from_rfc4514_string(bad)
        with self.assertRaises(ours.X509Error):
            ours.Name(b"\x30\x01")

    def test_identifiers(self) -> None:
        oid = ours.ObjectIdentifier("2.5.29.15")
        self.assertEqual(oid.content, b"\x55\x1d\x0f")
        self.assertEqual(ours.ObjectIdentifier.from_content(b"\x55\x1d\x0f"), oid)
        for bad in ("", "1", "1.40", "1..2", "a"):
            with self.assertRaises(ours.X509Error):
                ours.ObjectIdentifier(bad)

    def test_path(self) -> None:
        data = (DATA / "certificate.der").read_bytes()
        certificate = ours.load_der_x509_certificate(data)
        moment = certificate.not_valid_before_utc
        accepted = ours.check_path(certificate, [data], moment, lambda key, algorithm, message, signature: True)
        self.assertEqual(accepted, [certificate])
        asked = []

        def verify(key: bytes, algorithm: bytes, message: bytes, signature: bytes) -> bool:
            asked.append((key, message, signature))
            return False

        with self.assertRaises(ours.PathFault) as refused:
            ours.check_path(certificate, [data], moment, verify)
        self.assertEqual((refused.exception.place, refused.exception.reason, refused.exception.is_expired), (0, 5, None))
        self.assertEqual(asked, [(certificate.public_key_bytes, certificate.tbs_certificate_bytes, certificate.signature)])
        early = moment - datetime.timedelta(seconds=1)
        with self.assertRaises(ours.PathFault) as refused:
            ours.check_path(certificate, [data], early, lambda *_: True)
        self.assertEqual((refused.exception.place, refused.exception.reason, refused.exception.is_expired), (0, 4, False))
        self.assertEqual(str(refused.exception), "certificate 0 isn't valid at the moment: it isn't valid yet")
        with self.assertRaises(ours.PathFault) as refused:
            ours.check_path(certificate, [data], certificate.not_valid_after_utc + datetime.timedelta(seconds=1), lambda *_: True)
        self.assertEqual((refused.exception.place, refused.exception.reason, refused.exception.is_expired), (0, 4, True))
        self.assertEqual(str(refused.exception), "certificate 0 isn't valid at the moment: it has expired")
        with self.assertRaises(ours.PathFault) as refused:
            ours.check_path(certificate, [b""], moment, lambda *_: True)
        self.assertEqual((refused.exception.place, refused.exception.reason), (0, 1))


if __name__ == "__main__":
    unittest.main()
