"""What extensions made of values hold: the DER that `cryptography` writes of the same values; and keys, algorithms and look-ups beside it.

usage: X509_LIBRARY=.../libx509.so PYTHONPATH=bindings/python/src python3 -m unittest discover -s bindings/python/tests
"""

from __future__ import annotations

import ipaddress
import pathlib
import unittest

import x509_cert as ours

try:
    from cryptography import x509 as theirs
    from cryptography.hazmat.primitives import serialization
    from cryptography.hazmat.primitives.asymmetric import ec, ed25519, rsa
except ImportError:  # the tests are left out then
    theirs = None  # type: ignore[assignment]

DATA = pathlib.Path(__file__).resolve().parents[3] / "examples/data"
USES = "digital_signature content_commitment key_encipherment data_encipherment key_agreement key_cert_sign crl_sign encipher_only decipher_only".split()


@unittest.skipIf(theirs is None, "cryptography isn't installed")
class Written(unittest.TestCase):
    def same(self, our: ours.ExtensionType, their: object) -> None:
        self.assertEqual(our.data, their.public_bytes(), repr(our))
        self.assertEqual(our.oid.dotted_string, their.oid.dotted_string)
        self.assertEqual(type(our).from_der(our.data), our)

    def test_keys(self) -> None:
        both = [{"key_agreement", "encipher_only"}, {"key_agreement", "decipher_only"}]
        for uses in ({"digital_signature"}, {"key_cert_sign", "crl_sign"}, *both, set(USES[:7])):
            given = {name: name in uses for name in USES}
            self.same(ours.KeyUsage(**given), theirs.KeyUsage(**given))
        for ca, length in ((False, None), (True, None), (True, 0), (True, 200)):
            self.same(ours.BasicConstraints(ca=ca, path_length=length), theirs.BasicConstraints(ca=ca, path_length=length))
        oids = ["1.3.6.1.5.5.7.3.1", "2.5.29.37.0", "1.2.3"]
        self.same(ours.ExtendedKeyUsage(map(ours.ObjectIdentifier, oids)), theirs.ExtendedKeyUsage(map(theirs.ObjectIdentifier, oids)))
        self.same(ours.SubjectKeyIdentifier(b"abc"), theirs.SubjectKeyIdentifier(b"abc"))
        serial = 1 << 127
        self.same(
            ours.AuthorityKeyIdentifier(b"abc", [ours.DNSName("a")], serial), theirs.AuthorityKeyIdentifier(b"abc", [theirs.DNSName("a")], serial)
        )
        self.same(ours.AuthorityKeyIdentifier(b"abc", None, None), theirs.AuthorityKeyIdentifier(b"abc", None, None))

    def test_digests_of_keys(self) -> None:
        for key in (ec.generate_private_key(ec.SECP256R1()), ed25519.Ed25519PrivateKey.generate()):
            public = key.public_key()
            data = public.public_bytes(serialization.Encoding.DER, serialization.PublicFormat.SubjectPublicKeyInfo)
            ski = theirs.SubjectKeyIdentifier.from_public_key(public)
            self.same(ours.SubjectKeyIdentifier.from_public_key_bytes(data), ski)
            aki = ours.AuthorityKeyIdentifier.from_issuer_public_key_bytes(data)
            self.same(aki, theirs.AuthorityKeyIdentifier.from_issuer_public_key(public))
            of_ski = ours.AuthorityKeyIdentifier.from_issuer_subject_key_identifier(ours.SubjectKeyIdentifier.from_public_key_bytes(data))
            self.assertEqual(of_ski, aki)

    def names(self) -> tuple[list[ours.GeneralName], list[object]]:
        given = (
            ("DNSName", "*.example.org"),
            ("RFC822Name", "a@example.org"),
            ("UniformResourceIdentifier", "https://example.org/" + "a" * 200),
            ("IPAddress", ipaddress.ip_address("192.0.2.1")),
            ("IPAddress", ipaddress.ip_address("2001:db8::1")),
        )
        our = [getattr(ours, kind)(value) for kind, value in given]
        their = [getattr(theirs, kind)(value) for kind, value in given]
        our += [ours.RegisteredID(ours.ObjectIdentifier("1.2.3")), ours.OtherName(ours.ObjectIdentifier("1.2.3"), b"\x05\x00")]
        their += [theirs.RegisteredID(theirs.ObjectIdentifier("1.2.3")), theirs.OtherName(theirs.ObjectIdentifier("1.2.3"), b"\x05\x00")]
        our.append(ours.DirectoryName(ours.Name.from_rfc4514_string("CN=a,O=b")))
        their.append(theirs.DirectoryName(theirs.Name.from_rfc4514_string("CN=a,O=b")))
        return our, their

    def test_names(self) -> None:
        our, their = self.names()
        self.same(ours.SubjectAlternativeName(our), theirs.SubjectAlternativeName(their))
        self.same(ours.IssuerAlternativeName(our), theirs.IssuerAlternativeName(their))
        networks = [ipaddress.ip_network("10.0.0.0/8"), ipaddress.ip_network("2001:db8::/32")]
        self.same(
            ours.NameConstraints([ours.DNSName("a"), *map(ours.IPAddress, networks)], [ours.DNSName("b")]),
            theirs.NameConstraints([theirs.DNSName("a"), *map(theirs.IPAddress, networks)], [theirs.DNSName("b")]),
        )
        self.same(ours.NameConstraints(None, [ours.DNSName("b")]), theirs.NameConstraints(None, [theirs.DNSName("b")]))

    def test_places(self) -> None:
        our, their = self.names()
        oid = "1.3.6.1.5.5.7.48.1"
        described = [ours.AccessDescription(ours.ObjectIdentifier(oid), it) for it in our]
        their_described = [theirs.AccessDescription(theirs.ObjectIdentifier(oid), it) for it in their]
        self.same(ours.AuthorityInformationAccess(described), theirs.AuthorityInformationAccess(their_described))
        self.same(ours.SubjectInformationAccess(described), theirs.SubjectInformationAccess(their_described))
        flags = frozenset({theirs.ReasonFlags.key_compromise, theirs.ReasonFlags.ca_compromise})
        names = frozenset({"keyCompromise", "cACompromise"})
        points = [
            ours.DistributionPoint(ours.GeneralNames(our), None, None, None),
            ours.DistributionPoint(None, None, names, ours.GeneralNames(our)),
            ours.DistributionPoint(None, ours.Name.from_rfc4514_string("O=b+CN=a").rdns[0], None, None),
        ]
        their_points = [
            theirs.DistributionPoint(their, None, None, None),
            theirs.DistributionPoint(None, None, flags, their),
            theirs.DistributionPoint(None, theirs.Name.from_rfc4514_string("O=b+CN=a").rdns[0], None, None),
        ]
        self.same(ours.CRLDistributionPoints(points), theirs.CRLDistributionPoints(their_points))
        self.same(ours.FreshestCRL(points), theirs.FreshestCRL(their_points))

    def test_lists(self) -> None:
        our, their = self.names()
        for number in (0, 127, 128, 1 << 64, (1 << 159) - 1):
            self.same(ours.CRLNumber(number), theirs.CRLNumber(number))
            self.same(ours.DeltaCRLIndicator(number), theirs.DeltaCRLIndicator(number))
        for reason in ours.ReasonFlags:
            self.same(ours.CRLReason(reason), theirs.CRLReason(theirs.ReasonFlags[reason.name]))
        flags = frozenset({theirs.ReasonFlags.superseded})
        self.same(
            ours.IssuingDistributionPoint(our, None, True, False, frozenset({"superseded"}), True, False),
            theirs.IssuingDistributionPoint(their, None, True, False, flags, True, False),
        )
        of_authorities = (None, None, False, True, None, False, False)
        self.same(ours.IssuingDistributionPoint(*of_authorities), theirs.IssuingDistributionPoint(*of_authorities))

    def test_policies(self) -> None:
        one, other = "2.23.140.1.2.1", "2.5.29.32.0"
        address = "https://example.org/cps"
        qualifier = ours.PolicyQualifier(ours.ObjectIdentifier("1.3.6.1.5.5.7.2.1"), bytes([0x16, len(address)]) + address.encode())
        our = [ours.PolicyInformation(ours.ObjectIdentifier(one), [qualifier]), ours.PolicyInformation(ours.ObjectIdentifier(other), None)]
        their = [theirs.PolicyInformation(theirs.ObjectIdentifier(one), [address]), theirs.PolicyInformation(theirs.ObjectIdentifier(other), None)]
        self.same(ours.CertificatePolicies(our), theirs.CertificatePolicies(their))
        self.same(ours.PolicyConstraints(0, None), theirs.PolicyConstraints(0, None))
        self.same(ours.PolicyConstraints(None, 300), theirs.PolicyConstraints(None, 300))
        self.same(ours.InhibitAnyPolicy(7), theirs.InhibitAnyPolicy(7))
        # RFC 5280 4.2.1.5, by hand
        pair = (ours.ObjectIdentifier("1.2.3"), ours.ObjectIdentifier("1.2.4"))
        self.assertEqual(ours.PolicyMappings([pair]).data, bytes.fromhex("300a300806022a0306022a04"))
        self.same(ours.PrecertPoison(), theirs.PrecertPoison())

    def test_timestamps(self) -> None:
        # a timestamp of version 1 (RFC 6962 3.2), by hand: an ID of zeros, the moment 5, no extensions, SHA-256 with ECDSA and two octets
        data = bytes([0] * 33) + (5).to_bytes(8, "big") + bytes.fromhex("0000" "0403" "00020102")
        made = ours.PrecertificateSignedCertificateTimestamps([ours.SignedCertificateTimestamp(data)])
        self.assertEqual(made.data, bytes([4, 53, 0, 51, 0, 49]) + data)
        self.assertEqual([it.milliseconds for it in made], [5])

    def test_keys_and_algorithms(self) -> None:
        kinds = {
            ours.KeyKind.rsa: rsa.generate_private_key(public_exponent=65537, key_size=2048),
            ours.KeyKind.ec_p256: ec.generate_private_key(ec.SECP256R1()),
            ours.KeyKind.ec_p384: ec.generate_private_key(ec.SECP384R1()),
            ours.KeyKind.ec_p521: ec.generate_private_key(ec.SECP521R1()),
            ours.KeyKind.ec_other: ec.generate_private_key(ec.SECP256K1()),
            ours.KeyKind.ed25519: ed25519.Ed25519PrivateKey.generate(),
        }
        for kind, key in kinds.items():
            data = key.public_key().public_bytes(serialization.Encoding.DER, serialization.PublicFormat.SubjectPublicKeyInfo)
            found = ours.PublicKey(data)
            self.assertEqual((found.kind, found.unused_bits, found.public_bytes()), (kind, 0, data))
            self.assertTrue(data.endswith(found.bits))
        algorithm = ours.AlgorithmIdentifier(bytes.fromhex("300d06092a864886f70d01010b0500"))
        self.assertEqual((algorithm.kind, algorithm.oid.dotted_string), (ours.SignatureKind.rsa_sha256, "1.2.840.113549.1.1.11"))
        self.assertEqual(algorithm.parameters, b"\x05\x00")
        data = (DATA / "certificate.der").read_bytes()
        our, their = ours.load_der_x509_certificate(data), theirs.load_der_x509_certificate(data)
        self.assertEqual(our.public_key_algorithm_oid.dotted_string, their.public_key_algorithm_oid.dotted_string)
        self.assertEqual(our.signature_algorithm.oid.dotted_string, their.signature_algorithm_oid.dotted_string)

    def test_attributes_of_requests(self) -> None:
        csr = ours.load_der_x509_csr((DATA / "request.der").read_bytes())
        found = csr.get_attribute_for_oid(ours.AttributeOID.CHALLENGE_PASSWORD)
        self.assertEqual((found.tag, found.value), (0x0C, b"password"))
        with self.assertRaises(ours.AttributeNotFound):
            csr.get_attribute_for_oid(ours.NameOID.COMMON_NAME)


class Controls(unittest.TestCase):
    def test_what_an_anchor_asks_of_paths(self) -> None:
        # RFC 5914 2.5, by hand: the name CN=a, the policy 2.5.29.32.0, an explicit policy asked for, names below a, and no intermediate certificate
        name = bytes.fromhex("300c310a300806035504030c0161")
        behind = bytes.fromhex("a1083006" "0604551d2000" "82020640" "a307a0053003820161" "840100")
        found = ours.PathControls(bytes([0x30, len(name + behind)]) + name + behind)
        self.assertEqual(found.name.rfc4514_string(), "CN=a")
        self.assertEqual(found.policies, [ours.PolicyInformation(ours.ObjectIdentifier("2.5.29.32.0"), None)])
        self.assertEqual(found.policy_flags, ours.PathControls.REQUIRE_EXPLICIT_POLICY)
        self.assertEqual((found.permitted_subtrees, found.excluded_subtrees), ([ours.DNSName("a")], None))
        self.assertEqual((found.certificate, found.path_length), (None, 0))
        same, other = ours.PathControls(found.public_bytes()), ours.PathControls(bytes([0x30, len(name)]) + name)
        self.assertEqual((found, hash(found)), (same, hash(same)))
        self.assertNotEqual(found, other)


class Refused(unittest.TestCase):
    def test_values_without_an_encoding(self) -> None:
        for made in (
            lambda: ours.BasicConstraints(ca=True, path_length=256),
            lambda: ours.BasicConstraints(ca=True, path_length=-1),
            lambda: ours.SubjectAlternativeName([ours.DNSName("ö")]),
            lambda: ours.SubjectAlternativeName([ours.OtherName(ours.ObjectIdentifier("1.2.3"), b"\x05")]),
            lambda: ours.InhibitAnyPolicy(-1),
            lambda: ours.InhibitAnyPolicy(1 << 32),
            lambda: ours.CRLNumber(-1),
            # of 21 octets (RFC 5280 5.2.3)
            lambda: ours.CRLNumber(1 << 159),
            lambda: ours.DeltaCRLIndicator(1 << 159),
            lambda: ours.AuthorityKeyIdentifier(None, None, 1 << 200),
            lambda: ours.CRLDistributionPoints([ours.DistributionPoint(None, None, frozenset({"other"}), None)]),
        ):
            with self.assertRaises(ValueError):
                made()
        with self.assertRaises(TypeError):
            ours.IPAddress("192.0.2.1")

    def test_other_buffers(self) -> None:
        data = (DATA / "certificate.der").read_bytes()
        whole = ours.load_der_x509_certificate(data)
        for other in (memoryview(data), bytearray(data)):
            self.assertEqual(ours.load_der_x509_certificate(other), whole)
            asked: list[tuple[object, ...]] = []

            def verify(*words: bytes) -> bool:
                asked.append(tuple(map(type, words)))
                return True

            self.assertEqual(ours.check_path(whole, [other], whole.not_valid_before_utc, verify), [whole])
            self.assertEqual(asked, [(bytes, bytes, bytes, bytes)])
        self.assertEqual(ours.library_version(), (0, 1, 0))

    def test_what_rfc_5280_has_no_value_for_is_refused_and_still_read(self) -> None:
        policy, other, any_policy = (ours.ObjectIdentifier(it) for it in ("1.2.3", "1.2.4", "2.5.29.32.0"))
        once = ours.PolicyInformation(policy, None)
        name = [ours.UniformResourceIdentifier("http://a.example/crl")]
        for made in (
            lambda: ours.CertificatePolicies([once, ours.PolicyInformation(other, None), once]),
            lambda: ours.PolicyMappings([(policy, other), (any_policy, other)]),
            lambda: ours.PolicyMappings([(policy, any_policy)]),
            lambda: ours.DistributionPoint(name, None, [], None),
            lambda: ours.IssuingDistributionPoint(name, None, False, False, frozenset(), False, False),
        ):
            with self.assertRaises(ValueError):
                made()
        self.assertEqual(len(ours.CertificatePolicies.from_der(bytes.fromhex("300c300406022a03300406022a03"))), 2)
        self.assertEqual(ours.PolicyMappings.from_der(bytes.fromhex("300c300a0604551d200006022a03")).mappings, [(any_policy, policy)])


if __name__ == "__main__":
    unittest.main()
