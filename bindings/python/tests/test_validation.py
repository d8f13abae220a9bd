"""Paths that are valid under what is trusted: names that match, name constraints, each argument of `validate_path`, and chains that `cryptography` signs and
verifies.

usage: X509_LIBRARY=.../libx509.so PYTHONPATH=bindings/python/src python3 -m unittest discover -s bindings/python/tests
"""

from __future__ import annotations

import datetime
import inspect
import ipaddress
import unittest
from typing import Any

import x509_cert as ours

try:
    from cryptography import x509 as theirs
    from cryptography.exceptions import InvalidSignature
    from cryptography.hazmat.primitives import hashes, serialization
    from cryptography.hazmat.primitives.asymmetric import ec
except ImportError:  # the tests are left out then
    theirs = None  # type: ignore[assignment]

NOW = datetime.datetime(2030, 1, 1, tzinfo=datetime.timezone.utc)
SECOND = datetime.timedelta(seconds=1)
# an AlgorithmIdentifier and keys of Ed25519 (RFC 8410 3, 4)
ED25519 = bytes.fromhex("300506032b6570")
KEY, OTHER_KEY = (bytes.fromhex("302a300506032b6570032100") + bytes([octet]) * 32 for octet in (0, 1))

MOMENT, SIGNATURE, ISSUER, CRITICAL, NOT_CA, PATH_LEN, EXTENSION, NAMES, CONSTRAINTS = 4, 5, 3, 7, 8, 10, 11, 12, 13
REPEATED_POLICY, POLICY, POLICY_MAPPING, PURPOSE, USAGE, VERSION = 14, 15, 16, 17, 18, 19
# X509_VALUE, of name constraints that can't be used, and X509_MALFORMED
INITIAL, NO_ENCODING = 5, 2


def name(text: str) -> ours.Name:
    return ours.Name.from_rfc4514_string(text)


def made(issuer: str, subject: str, key: bytes, *extensions: ours.ExtensionType) -> ours.Certificate:
    """A certificate whose signature says nothing."""
    builder = ours.CertificateBuilder().serial_number(1).issuer_name(name(issuer)).subject_name(name(subject)).public_key(key)
    builder = builder.not_valid_before(NOW).not_valid_after(NOW + SECOND)
    for it in extensions:
        builder = builder.add_extension(it, critical=not isinstance(it, ours.UnrecognizedExtension))
    return builder.sign(ED25519, lambda part: bytes(64))


def permitted(*names: ours.GeneralName) -> ours.NameConstraints:
    return ours.NameConstraints(list(names), None)


CA = ours.BasicConstraints(True, None)
EXAMPLE = permitted(ours.DNSName("example.org"))
ROOT = made("CN=Root", "CN=Root", KEY, CA)
CONSTRAINED = made("CN=Root", "CN=Root", KEY, CA, EXAMPLE)
# RFC 5280 7.1: another case, and a space in front
AUTHORITY = made("CN=\\ ROOT", "O=CA,C=DE", OTHER_KEY, CA)


POLICIES = [ours.ObjectIdentifier(it) for it in ("1.2.3", "1.2.4", "1.2.5")]


def under(*policies: ours.ObjectIdentifier) -> ours.CertificatePolicies:
    return ours.CertificatePolicies([ours.PolicyInformation(it, None) for it in policies])


def authority(*extensions: ours.ExtensionType) -> ours.Certificate:
    return made("CN=Root", "O=CA,C=DE", OTHER_KEY, CA, *extensions)


def root(*extensions: ours.ExtensionType) -> ours.Certificate:
    return made("CN=Root", "CN=Root", KEY, CA, *extensions)


def element(tag: int, *parts: bytes) -> bytes:
    content = b"".join(parts)
    octets = b"" if len(content) < 128 else len(content).to_bytes(1 if len(content) < 256 else 2, "big")
    return bytes([tag, 0x80 | len(octets) if octets else len(content)]) + octets + content


def dns(text: str) -> bytes:
    return element(0x82, text.encode())


def email(text: str) -> bytes:
    return element(0x81, text.encode())


def uri(text: str) -> bytes:
    return element(0x86, text.encode())


# the last arcs of attributes below 2.5.4 (X.520)
COMMON_NAME, ORGANIZATION = 3, 10


def directory(arc: int, tag: int, value: bytes) -> bytes:
    """A directoryName of one attribute, whose value has that tag and these octets."""
    return element(0xA4, element(0x30, element(0x31, element(0x30, element(0x06, bytes([0x55, 4, arc])), element(tag, value)))))


def description(certificate: ours.Certificate | None = None, policies: ours.CertificatePolicies | None = None, flags: bytes = b"") -> ours.TrustAnchor:
    """A TrustAnchorInfo of the root (RFC 5914 2), with a certificate, policies and flags in its controls, the latter whole."""
    own = b"" if certificate is None else b"\xa0" + certificate.public_bytes()[1:]
    allowed = b"" if policies is None else b"\xa1" + policies.data[1:]
    controls = element(0x30, name("CN=Root").public_bytes(), own, allowed, flags)
    return ours.TrustAnchor(element(0xA2, element(0x30, KEY, element(0x04, b"\1"), controls)))


def written(version: bytes, subject: str, *extensions: bytes) -> bytes:
    """A certificate by hand under the root, with the other key: with that version, whole, or none, which is version 1."""
    dates = element(0x30, element(0x17, b"300101000000Z"), element(0x17, b"300101000001Z"))
    parts = version, b"\x02\x01\x01", ED25519, name("CN=Root").public_bytes(), dates, name(subject).public_bytes(), OTHER_KEY
    listed = element(0xA3, element(0x30, *extensions)) if extensions else b""
    return element(0x30, element(0x30, *parts, listed), ED25519, element(0x03, bytes(65)))


OLD = written(b"", "O=CA,C=DE")
SERVERS, CODE = ours.ExtendedKeyUsageOID.SERVER_AUTH, ours.ExtendedKeyUsageOID.CODE_SIGNING
FOR_CODE = authority(ours.ExtendedKeyUsage([CODE]))


def for_purposes(*purposes: ours.ObjectIdentifier) -> ours.Certificate:
    return made("O=CA,C=DE", "CN=S", KEY, ours.ExtendedKeyUsage(purposes))


def server(host: str) -> ours.Certificate:
    return made("O=ca,C=DE", "CN=S", KEY, ours.SubjectAlternativeName([ours.DNSName(host)]))


def accepts(key: bytes, algorithm: bytes, message: bytes, signature: bytes) -> bool:
    return True


class Validation(unittest.TestCase):
    def fault(self, *arguments: Any, **words: Any) -> tuple[int, int]:
        with self.assertRaises(ours.PathFault) as caught:
            ours.validate_path(*arguments, **words)
        return caught.exception.place, caught.exception.reason

    def test_names_that_match(self) -> None:
        leaf = server("www.example.com")
        found = ours.validate_path(ROOT, [AUTHORITY, leaf.public_bytes()], NOW, accepts)
        self.assertEqual([it.public_bytes() for it in found.certificates], [AUTHORITY.public_bytes(), leaf.public_bytes()])
        self.assertEqual((found.subject, found.public_key_bytes), (name("CN=S"), KEY))
        with self.assertRaises(ours.PathFault) as caught:
            ours.check_path(ROOT, [AUTHORITY.public_bytes(), leaf.public_bytes()], NOW, accepts)
        self.assertEqual((caught.exception.place, caught.exception.reason), (0, ISSUER))
        self.assertEqual(self.fault(ROOT, [made("CN=Toor", "CN=S", KEY)], NOW, accepts), (0, ISSUER))

    def test_name_constraints(self) -> None:
        good, bad = server("www.example.org"), server("www.example.com")
        self.assertEqual(len(ours.validate_path(CONSTRAINED, [AUTHORITY, good], NOW, accepts).certificates), 2)
        self.assertEqual(self.fault(CONSTRAINED, [AUTHORITY, bad], NOW, accepts), (1, NAMES))
        narrow = made("CN=Root", "O=CA,C=DE", OTHER_KEY, CA, EXAMPLE)
        self.assertEqual(self.fault(ROOT, [narrow, bad], NOW, accepts), (1, NAMES))
        self.assertEqual(len(ours.validate_path(ROOT, [narrow, good], NOW, accepts).certificates), 2)
        # what is said of other forms of names says nothing of this one
        network = permitted(ours.IPAddress(ipaddress.ip_network("192.0.2.0/24")))
        other = made("CN=Root", "O=CA,C=DE", OTHER_KEY, CA, network)
        self.assertEqual(len(ours.validate_path(ROOT, [other, bad], NOW, accepts).certificates), 2)

    def test_names_under_constraints(self) -> None:
        """RFC 5280 4.2.1.10, by hand: a subtree and a name, whether that may stand in a certificate where the subtree is permitted, and where it is excluded;
        None where it isn't asked."""
        host, foo, domain = dns("host.example.com"), email("foo@example.com"), dns("example.com")
        evil = directory(ORGANIZATION, 0x0C, b"Evil")
        teletex = directory(ORGANIZATION, 0x14, b"M\xfcller")
        rows: list[tuple[bytes, bytes, bool | None, bool | None]] = [
            # a DNS name is within a subtree where labels stand in front of it, a host of a URI where the subtree has a dot in front
            (host, dns("www.host.example.com"), True, None),
            (host, dns("host1.example.com"), False, None),
            (uri(".example.com"), uri("http://my.host.example.com/"), True, None),
            (uri(".example.com"), uri("http://example.com/"), False, None),
            # a wildcard is excluded where a host that it stands for is, also where the base is one label in front of what follows it; under permission it is a
            # label as any other
            (host, dns("*.example.com"), False, False),
            (host, dns("*.EXAMPLE.com"), None, False),
            (host, dns("*.host.example.com"), None, False),
            (host, dns("*.example.org"), None, True),
            (host, dns("*.b.example.com"), None, True),
            (host, dns("*.com"), None, True),
            (host, dns("example.com"), None, True),
            (dns(".example.com"), dns("*.com"), None, True),
            (domain, dns("*.example.com"), True, None),
            # a quoted local part says the same as without quotes (RFC 5321 4.1.2); one that is neither can't be compared
            (foo, email('"\\f\\o\\o"@example.com'), True, False),
            (foo, email('"foo"@EXAMPLE.com'), None, False),
            (email('"foo"@example.com'), foo, None, False),
            (foo, email("Foo@example.com"), None, True),
            (foo, email('"f\\"o"@example.com'), None, True),
            (foo, email('f"o"o@example.org'), None, False),
            (foo, email("\\f\\o\\o@example.org"), None, False),
            # where URIs are constrained, one without a fully qualified domain name isn't allowed
            (uri("example.com"), uri("http://localhost"), None, False),
            (uri("localhost"), uri("http://localhost"), False, None),
            (uri(""), uri("http://localhost"), False, None),
            (uri(""), uri("urn:isbn:1234"), False, None),
            (uri(""), uri("http://a.example"), True, None),
            (domain, uri("http://localhost"), None, True),
            # what is excluded is excluded in whatever string, and what can't be compared is where its type is excluded at that place
            (evil, directory(ORGANIZATION, 0x1C, "EVIL".encode("utf-32-be")), None, False),
            (evil, directory(ORGANIZATION, 0x1E, "Evil".encode("utf-16-be")), None, False),
            (evil, directory(ORGANIZATION, 0x14, b"EVIL"), None, False),
            (evil, directory(ORGANIZATION, 0x14, b"\xc9vil"), None, False),
            (evil, directory(ORGANIZATION, 0x1C, b"\0\0\xd8\0"), None, False),
            (evil, directory(ORGANIZATION, 0x04, b"Evil"), None, False),
            (evil, directory(COMMON_NAME, 0x14, b"\xc9vil"), None, True),
            (evil, directory(ORGANIZATION, 0x14, b"Good"), None, True),
            (evil, directory(ORGANIZATION, 0x1C, "E".encode("utf-32-be")), None, True),
            (teletex, teletex, True, False),
            (element(0xA4, b"\x30\x00"), teletex, True, None),
            # where an empty subtree is permitted a name that can't be compared is allowed; where a subtree is excluded it isn't
            (dns(""), dns("a..b"), True, None),
            (dns("a"), dns("a..b"), False, None),
            (email(""), email("root"), True, None),
            (email("a"), email("root"), False, None),
            (domain, dns("example.com."), None, False),
            (element(0x88, b"\x2a"), element(0x88, b"\x2b"), None, False),
            (element(0x88, b"\x2a"), element(0x88, b"\x2a"), False, None),
            # an odd base counts where a name of its form is asked
            (element(0x87, b"\0"), element(0x87, b"\1\2\3\4"), None, False),
            (element(0x87, b"\0"), dns("a.example"), None, True),
        ]
        for base, found, permitted, excluded in rows:
            for tag, wanted in ((0xA0, permitted), (0xA1, excluded)):
                if wanted is not None:
                    with self.subTest(base=base, name=found, tag=tag):
                        self.assertEqual(self.is_allowed(element(0x30, element(tag, element(0x30, base))), found), wanted)
        # a minimum counts where a name of its form is asked; and both lists at once
        minimum = element(0x30, element(0xA0, element(0x30, dns("a.example"), b"\x80\x01\x01")))
        both = element(0x30, element(0xA0, element(0x30, host)), element(0xA1, element(0x30, dns("www.host.example.com"))))
        for constraints, found, wanted in (
            (minimum, dns("a.example"), False),
            (minimum, email("root@a.example"), True),
            (both, host, True),
            (both, dns("host1.example.com"), False),
            (both, dns("www.host.example.com"), False),
            (both, email("root@example.com"), True),
        ):
            with self.subTest(constraints=constraints, name=found):
                self.assertEqual(self.is_allowed(constraints, found), wanted)

    def is_allowed(self, constraints: bytes, found: bytes) -> bool:
        """Whether a certificate with an empty subject may have that alternative name alone under these constraints."""
        names = ours.UnrecognizedExtension(ours.ExtensionOID.SUBJECT_ALTERNATIVE_NAME, element(0x30, found))
        try:
            ours.validate_path(ROOT, [made("CN=Root", "", KEY, names)], NOW, accepts, name_constraints=constraints)
        except ours.PathFault as fault:
            self.assertEqual((fault.place, fault.reason), (0, NAMES))
            return False
        return True

    def test_common_names(self) -> None:
        alternative = ours.SubjectAlternativeName
        network = ours.IPAddress(ipaddress.ip_network("192.0.2.0/24"))
        host = ours.NameConstraints(None, [ours.DNSName("host.example.com")])
        refused: list[tuple[ours.NameConstraints, str, list[ours.ExtensionType]]] = [
            (EXAMPLE, "CN=www.example.com", []),
            (EXAMPLE, "CN=www.example.org,CN=WWW.EXAMPLE.COM", []),
            (EXAMPLE, "CN=www.example.org+CN=www.example.com.", []),
            # a BMPString, and a UTF8String with spaces at its ends
            (EXAMPLE, "2.5.4.3=#1e0800610062002e0063", []),
            (EXAMPLE, "2.5.4.3=#0c0520612e6220", []),
            # a wildcard that stands for a host which is excluded
            (host, "CN=*.example.com", []),
            (permitted(network), "CN=198.51.100.1", []),
            (permitted(network), "CN=2001:db8::1", []),
            # a SAN with names of other forms alone
            (EXAMPLE, "CN=www.example.com", [alternative([ours.IPAddress(ipaddress.ip_address("192.0.2.1"))])]),
        ]
        allowed: list[tuple[ours.NameConstraints, str, list[ours.ExtensionType]]] = [
            (EXAMPLE, "CN=www.example.org", []),
            (EXAMPLE, "CN=Example Company", []),
            (EXAMPLE, "O=www.example.com", []),
            # an address is asked as one alone
            (EXAMPLE, "CN=198.51.100.1", []),
            (permitted(network), "CN=192.0.2.7", []),
            (permitted(network), "CN=www.example.com", []),
            (host, "CN=*.example.org", []),
            # a SAN with a name of that form
            (EXAMPLE, "CN=www.example.com", [alternative([ours.DNSName("example.org")])]),
        ]
        for constraints, subject, extensions in refused + allowed:
            path = [made("CN=Root", "O=CA,C=DE", OTHER_KEY, CA, constraints), made("O=CA,C=DE", subject, KEY, *extensions)]
            with self.subTest(subject):
                self.assertEqual(len(ours.validate_path(ROOT, path, NOW, accepts).certificates), 2)
                if (constraints, subject, extensions) in allowed:
                    self.assertEqual(len(ours.validate_path(ROOT, path, NOW, accepts, constrain_common_names=True).certificates), 2)
                else:
                    self.assertEqual(self.fault(ROOT, path, NOW, accepts, constrain_common_names=True), (1, NAMES))
        # of the last certificate alone
        path = [made("CN=Root", "CN=www.example.com", OTHER_KEY, CA), made("CN=www.example.com", "CN=www.example.org", KEY)]
        self.assertEqual(len(ours.validate_path(CONSTRAINED, path, NOW, accepts, constrain_common_names=True).certificates), 2)

    def test_what_cannot_be_followed(self) -> None:
        policies = ours.UnrecognizedExtension(ours.ExtensionOID.CERTIFICATE_POLICIES, b"\x05\x00")
        self.assertEqual(self.fault(ROOT, [made("CN=Root", "CN=S", KEY, policies)], NOW, accepts), (0, EXTENSION))
        self.assertEqual(self.fault(ROOT, [ROOT, ROOT], NOW + 2 * SECOND, accepts), (0, MOMENT))
        self.assertEqual(self.fault(ROOT, [made("CN=Root", "CN=A", KEY), server("a")], NOW, accepts), (0, NOT_CA))
        self.assertEqual(self.fault(ROOT, [b"\x30\x00"], NOW, accepts), (0, 1))
        # a list without a subtree, and a minimum of 1 of directory names (RFC 5280 4.2.1.10), by hand
        unusable, excluded, minimum = (bytes.fromhex(it) for it in ("3002a000", "3002a100", "300ba0093007a4023000800101"))
        for data, fault in ((unusable, (0, CONSTRAINTS)), (excluded, (0, CONSTRAINTS)), (minimum, (1, NAMES))):
            constraints = ours.UnrecognizedExtension(ours.ExtensionOID.NAME_CONSTRAINTS, data)
            authority = made("CN=Root", "O=CA,C=DE", OTHER_KEY, CA, constraints)
            with self.subTest(data):
                self.assertEqual(self.fault(ROOT, [authority, server("a")], NOW, accepts), fault)
        # those of the caller are asked before the path: whether they are an encoding, and whether they can be used
        for data, status in ((unusable, INITIAL), (excluded, INITIAL), (b"\x30\x01", NO_ENCODING)):
            with self.subTest(data):
                with self.assertRaises(ours.X509Error) as caught:
                    ours.validate_path(ROOT, [AUTHORITY, server("a")], NOW, accepts, name_constraints=data)
                self.assertEqual(caught.exception.status, status)

    def test_purposes(self) -> None:
        own = [ours.ObjectIdentifier(it) for it in ("1.2.3.4", "1.2.3.5")]
        leaf, other, both = for_purposes(CODE), for_purposes(SERVERS), for_purposes(SERVERS, CODE, own[0])
        whatever = for_purposes(ours.ExtendedKeyUsageOID.ANY_EXTENDED_KEY_USAGE)
        # without a question a critical extension isn't processed, and one that isn't critical isn't looked at
        for it in (leaf, whatever):
            self.assertEqual(self.fault(ROOT, [AUTHORITY, it], NOW, accepts), (1, CRITICAL))
        plain = ours.UnrecognizedExtension(ours.ExtensionOID.EXTENDED_KEY_USAGE, ours.ExtendedKeyUsage([SERVERS]).data)
        self.assertEqual(len(ours.validate_path(ROOT, [authority(plain), made("O=CA,C=DE", "CN=S", KEY, plain)], NOW, accepts).certificates), 2)
        refused: list[tuple[list[Any], dict[str, Any], int]] = [
            ([AUTHORITY, leaf], {"purposes": [SERVERS]}, 1),
            ([FOR_CODE, other], {"purposes": [SERVERS]}, 0),
            ([FOR_CODE, other], {"purposes": [SERVERS, CODE]}, 1),
            ([FOR_CODE, other], {"purposes": [CODE], "is_chained": False}, 1),
            ([AUTHORITY, leaf], {"purposes": own[:1]}, 1),
        ]
        for path, words, place in refused:
            with self.subTest(path=path, words=words):
                self.assertEqual(self.fault(ROOT, path, NOW, accepts, **words), (place, PURPOSE))
        valid: list[tuple[list[Any], dict[str, Any]]] = [
            ([AUTHORITY, leaf], {"purposes": iter([SERVERS, CODE])}),
            ([FOR_CODE, other], {"purposes": [SERVERS], "is_chained": False}),
            ([FOR_CODE, both], {"purposes": [SERVERS, CODE]}),
            ([AUTHORITY, both], {"purposes": own[:1]}),
            ([AUTHORITY, server("a")], {"purposes": [SERVERS]}),
            ([AUTHORITY, whatever], {"purposes": [SERVERS]}),
        ]
        for path, words in valid:
            with self.subTest(path=path, words=words):
                self.assertEqual(len(ours.validate_path(ROOT, path, NOW, accepts, **words).certificates), 2)
        for none in ([], own):
            with self.subTest(none), self.assertRaises(ValueError):
                ours.validate_path(ROOT, [AUTHORITY, leaf], NOW, accepts, purposes=none)

    def test_key_usage(self) -> None:
        leaf = made("CN=Root", "CN=S", OTHER_KEY, ours.KeyUsage(digital_signature=True))
        self.assertEqual(len(ours.validate_path(ROOT, [leaf], NOW, accepts, key_usage=ours.KeyUsage(digital_signature=True)).certificates), 1)
        self.assertEqual(self.fault(ROOT, [leaf], NOW, accepts, key_usage=ours.KeyUsage(key_agreement=True)), (0, USAGE))
        # a certificate without a KeyUsage may be used for each
        self.assertEqual(len(ours.validate_path(ROOT, [AUTHORITY, server("a")], NOW, accepts, key_usage=ours.KeyUsage(crl_sign=True)).certificates), 2)

    def test_versions(self) -> None:
        self.assertEqual(self.fault(ROOT, [OLD, server("a")], NOW, accepts), (0, NOT_CA))
        self.assertEqual(len(ours.validate_path(ROOT, [OLD, server("a")], NOW, accepts, allows_version_1=True).certificates), 2)
        for version in (b"", bytes.fromhex("a003020101")):
            extended = written(version, "O=CA,C=DE", bytes.fromhex("300f0603551d130101ff040530030101ff"))
            self.assertEqual(self.fault(ROOT, [extended, server("a")], NOW, accepts, allows_version_1=True), (0, VERSION))
        # versions 2 and 3 are no authority's without the extension, and version 1 may stand last
        for version in (bytes.fromhex("a003020101"), bytes.fromhex("a003020102")):
            self.assertEqual(self.fault(ROOT, [written(version, "O=CA,C=DE"), server("a")], NOW, accepts, allows_version_1=True), (0, NOT_CA))
        self.assertEqual(len(ours.validate_path(ROOT, [OLD], NOW, accepts).certificates), 1)

    def test_undecodable_before_unknown(self) -> None:
        # a KeyUsage with zero bits at its end, and critical, by hand; alone, and in front of a critical 2.5.29.14
        usage = bytes.fromhex("300e0603551d0f0101ff040403020080")
        for others in (b"", bytes.fromhex("300c0603551d0e0101ff04020400")):
            leaf = written(bytes.fromhex("a003020102"), "CN=S", usage + others)
            self.assertEqual(self.fault(ROOT, [leaf], NOW, accepts), (0, EXTENSION))

    def test_policies(self) -> None:
        mapping = ours.PolicyMappings([(POLICIES[0], POLICIES[2])])
        plain, any_of = authority(under(*POLICIES[:2])), authority(under(ours.CertificatePoliciesOID.ANY_POLICY))
        mapped = authority(under(*POLICIES[:2]), mapping)
        one, other = (made("O=CA,C=DE", "CN=S", KEY, under(POLICIES[it])) for it in (0, 2))
        valid: list[tuple[list[Any], dict[str, Any], list[int]]] = [
            ([plain, one], {}, [0]),
            ([plain, other], {}, []),
            ([mapped, other], {}, [0]),
            ([any_of, other], {}, [2]),
            ([plain, one], {"require_explicit_policy": True}, [0]),
            ([plain, one], {"policies": iter(POLICIES)}, [0]),
            ([plain, one], {"policies": []}, []),
            ([plain, one], {"policies": POLICIES[1:2]}, []),
        ]
        for path, words, found in valid:
            with self.subTest(path=path, words=words):
                self.assertEqual(ours.validate_path(ROOT, path, NOW, accepts, **words).policies, tuple(POLICIES[it] for it in found))
        refused: list[tuple[list[Any], dict[str, Any], int]] = [
            ([plain, other], {}, 1),
            ([plain, one], {"policies": POLICIES[1:2]}, 1),
            ([mapped, other], {"inhibit_policy_mapping": True}, 1),
            ([any_of, other], {"inhibit_any_policy": True}, 0),
        ]
        for path, words, place in refused:
            with self.subTest(path=path, words=words):
                self.assertEqual(self.fault(ROOT, path, NOW, accepts, require_explicit_policy=True, **words), (place, POLICY))
        # any-policy mapped, and a policy twice, by hand
        maps_any = ours.UnrecognizedExtension(ours.ExtensionOID.POLICY_MAPPINGS, bytes.fromhex("300c300a0604551d200006022a03"))
        self.assertEqual(self.fault(ROOT, [authority(under(POLICIES[0]), maps_any), one], NOW, accepts), (0, POLICY_MAPPING))
        twice = ours.UnrecognizedExtension(ours.ExtensionOID.CERTIFICATE_POLICIES, bytes.fromhex("300c300406022a03300406022a03"))
        self.assertEqual(self.fault(ROOT, [authority(twice), one], NOW, accepts), (0, REPEATED_POLICY))

    def test_policies_that_take_more_room(self) -> None:
        many = [ours.ObjectIdentifier(f"1.2.{it}") for it in range(1000)]
        found = ours.validate_path(ROOT, [made("CN=Root", "CN=S", KEY, under(*many))], NOW, accepts).policies
        self.assertEqual(sorted(found, key=str), sorted(many, key=str))

    def test_anchors(self) -> None:
        leaf = made("CN=root", "CN=S", OTHER_KEY, ours.SubjectAlternativeName([ours.DNSName("www.example.com")]))
        self.assertEqual(self.fault(CONSTRAINED, [leaf], NOW, accepts), (0, NAMES))
        self.assertEqual(self.fault(ours.TrustAnchor(CONSTRAINED.public_bytes()), [leaf], NOW, accepts), (0, NAMES))
        self.assertEqual(ours.validate_path((name("CN=ROOT"), KEY), [leaf], NOW, accepts).public_key_bytes, OTHER_KEY)
        self.assertEqual(self.fault((name("CN=Other"), KEY), [leaf], NOW, accepts), (0, ISSUER))
        with self.assertRaises(ours.X509Error):
            ours.validate_path((name("CN=ROOT"), b"\x30\x00"), [leaf], NOW, accepts)

    # paths that are valid under POLICIES[0], under no policy, under POLICIES[0] by a mapping, and under POLICIES[2] by any-policy
    ONE = [authority(under(*POLICIES[:2])), made("O=CA,C=DE", "CN=S", KEY, under(POLICIES[0]))]
    NONE = [ONE[0], made("O=CA,C=DE", "CN=S", KEY, under(POLICIES[2]))]
    MAPPED = [authority(under(*POLICIES[:2]), ours.PolicyMappings([(POLICIES[0], POLICIES[2])])), NONE[1]]
    ANY = [authority(under(ours.CertificatePoliciesOID.ANY_POLICY)), NONE[1]]

    def test_policies_of_an_anchor(self) -> None:
        # RFC 5937 3.2: the policies that both have, where any-policy stands for each; a flag that one of them sets
        explicit: dict[str, Any] = {"require_explicit_policy": True}
        rows: list[tuple[tuple[ours.ExtensionType, ...], list[ours.Certificate], dict[str, Any], list[int] | tuple[int, int]]] = [
            ((under(POLICIES[0]),), self.ONE, explicit, [0]),
            ((under(POLICIES[1]),), self.ONE, {}, []),
            ((under(POLICIES[1]),), self.ONE, explicit, (1, POLICY)),
            ((under(*POLICIES),), self.ONE, explicit | {"policies": POLICIES[:1]}, [0]),
            ((under(POLICIES[0]),), self.ONE, explicit | {"policies": POLICIES[1:]}, (1, POLICY)),
            ((under(ours.CertificatePoliciesOID.ANY_POLICY),), self.ONE, explicit | {"policies": POLICIES[:1]}, [0]),
            ((ours.InhibitAnyPolicy(0),), self.ANY, {}, []),
            ((ours.InhibitAnyPolicy(0),), self.ANY, explicit, (0, POLICY)),
            ((ours.PolicyConstraints(0, None),), self.MAPPED, {}, [0]),
            ((ours.PolicyConstraints(0, None),), self.NONE, {}, (1, POLICY)),
            ((ours.PolicyConstraints(None, 0),), self.NONE, {}, []),
            ((ours.PolicyConstraints(None, 0),), self.MAPPED, explicit, (1, POLICY)),
            # whatever the number
            ((ours.PolicyConstraints(5, None),), self.NONE, {}, (1, POLICY)),
            ((ours.PolicyConstraints(None, 5),), self.MAPPED, explicit, (1, POLICY)),
            ((ours.InhibitAnyPolicy(5),), self.ANY, explicit, (0, POLICY)),
        ]
        for extensions, path, words, wanted in rows:
            certificate = root(*extensions)
            for anchor in (certificate, ours.TrustAnchor(certificate.public_bytes()), description(certificate)):
                with self.subTest(extensions=extensions, path=path, words=words, anchor=anchor):
                    self.told(anchor, path, words, wanted)

    def told(self, anchor: Any, path: list[ours.Certificate], words: dict[str, Any], wanted: list[int] | tuple[int, int]) -> None:
        if isinstance(wanted, tuple):
            self.assertEqual(self.fault(anchor, path, NOW, accepts, **words), wanted)
        else:
            self.assertEqual(ours.validate_path(anchor, path, NOW, accepts, **words).policies, tuple(POLICIES[it] for it in wanted))

    def test_policies_of_a_description(self) -> None:
        # the named bits 0 to 2 (RFC 5914 2.5), in DER without the zeros behind them
        mapping, explicit, any_policy = (bytes.fromhex(it) for it in ("82020780", "82020640", "82020520"))
        asked = {"require_explicit_policy": True}
        rows: list[tuple[ours.TrustAnchor, list[ours.Certificate], dict[str, Any], list[int] | tuple[int, int]]] = [
            (description(), self.ONE, asked, [0]),
            (description(policies=under(POLICIES[0])), self.ONE, asked, [0]),
            (description(policies=under(POLICIES[1])), self.ONE, {}, []),
            (description(policies=under(POLICIES[1])), self.ONE, asked, (1, POLICY)),
            (description(flags=explicit), self.NONE, {}, (1, POLICY)),
            (description(flags=mapping), self.NONE, {}, []),
            (description(flags=mapping), self.MAPPED, asked, (1, POLICY)),
            (description(flags=any_policy), self.ANY, asked, (0, POLICY)),
            (description(flags=any_policy), self.MAPPED, asked, [0]),
            (description(policies=under(POLICIES[1]), flags=explicit), self.ONE, {}, (1, POLICY)),
            # what the controls have is in the place of what the certificate says, and the flags are one field
            (description(root(under(POLICIES[1])), under(POLICIES[0])), self.ONE, asked, [0]),
            (description(root(under(POLICIES[0])), under(POLICIES[1])), self.ONE, asked, (1, POLICY)),
            (description(root(under(POLICIES[1])), flags=explicit), self.ONE, {}, (1, POLICY)),
            (description(root(ours.PolicyConstraints(0, None)), under(*POLICIES)), self.NONE, {}, (1, POLICY)),
            (description(root(ours.PolicyConstraints(0, None)), flags=mapping), self.NONE, {}, []),
        ]
        for anchor, path, words, wanted in rows:
            with self.subTest(anchor=anchor.public_bytes(), path=path, words=words):
                self.told(anchor, path, words, wanted)

    def test_descriptions_by_hand(self) -> None:
        """RFC 5914 2.4, 2.5: descriptions of the name `Anchor` with the path length 0, and a certificate; and the status where one isn't followed, X509_MALFORMED or
        X509_FAILED."""
        rows: list[tuple[str, int | None]] = [
            # a certificate of the anchor, with the path length 0
            (
                "a281bd3081ba300a300506032a03040301000401013081a83011310f300d06035504031306416e63686f72a08192308185a003020102020101300506032a030430"
                "11310f300d06035504031306416e63686f72301e170d3130303130313038333030305a170d3330313233313038333030305a3011310f300d06035504031306416e"
                "63686f72300a300506032a0304030100a322302030120603551d130101ff040830060101ff020100300a0603551d0e0403040101300506032a0304030100",
                None,
            ),
            # without a key identifier
            (
                "a281b03081ad300a300506032a030403010004010130819b3011310f300d06035504031306416e63686f72a081853079a003020102020101300506032a03043011"
                "310f300d06035504031306416e63686f72301e170d3130303130313038333030305a170d3330313233313038333030305a3011310f300d06035504031306416e63"
                "686f72300a300506032a0304030100a316301430120603551d130101ff040830060101ff020100300506032a0304030100",
                None,
            ),
            # of another name
            (
                "a281bd3081ba300a300506032a03040301000401013081a83011310f300d06035504031306416e63686f72a08192308185a003020102020101300506032a030430"
                "11310f300d06035504031306616e63686f72301e170d3130303130313038333030305a170d3330313233313038333030305a3011310f300d06035504031306616e"
                "63686f72300a300506032a0304030100a322302030120603551d130101ff040830060101ff020100300a0603551d0e0403040101300506032a0304030100",
                3,
            ),
            # of another key
            (
                "a281be3081bb300a300506032a03040301000401013081a93011310f300d06035504031306416e63686f72a08193308186a003020102020101300506032a030430"
                "11310f300d06035504031306416e63686f72301e170d3130303130313038333030305a170d3330313233313038333030305a3011310f300d06035504031306416e"
                "63686f72300b300506032a030403020001a322302030120603551d130101ff040830060101ff020100300a0603551d0e0403040101300506032a0304030100",
                3,
            ),
            # of another key identifier
            (
                "a281bd3081ba300a300506032a03040301000401013081a83011310f300d06035504031306416e63686f72a08192308185a003020102020101300506032a030430"
                "11310f300d06035504031306416e63686f72301e170d3130303130313038333030305a170d3330313233313038333030305a3011310f300d06035504031306416e"
                "63686f72300a300506032a0304030100a322302030120603551d130101ff040830060101ff020100300a0603551d0e0403040102300506032a0304030100",
                3,
            ),
            # with its key identifier twice
            (
                "a281c93081c6300a300506032a03040301000401013081b43011310f300d06035504031306416e63686f72a0819e308191a003020102020101300506032a030430"
                "11310f300d06035504031306416e63686f72301e170d3130303130313038333030305a170d3330313233313038333030305a3011310f300d06035504031306416e"
                "63686f72300a300506032a0304030100a32e302c30120603551d130101ff040830060101ff020100300a0603551d0e0403040101300a0603551d0e040304010130"
                "0506032a0304030100",
                3,
            ),
            # whose key identifier is a NULL
            (
                "a281bc3081b9300a300506032a03040301000401013081a73011310f300d06035504031306416e63686f72a08191308184a003020102020101300506032a030430"
                "11310f300d06035504031306416e63686f72301e170d3130303130313038333030305a170d3330313233313038333030305a3011310f300d06035504031306416e"
                "63686f72300a300506032a0304030100a321301f30120603551d130101ff040830060101ff02010030090603551d0e04020500300506032a0304030100",
                2,
            ),
            # no certificate, and an extension 1.2.3.4 that is not critical
            ("a2383036300a300506032a030403010004010130163011310f300d06035504031306416e63686f72840100a10d300b300906032a030404020500", None),
            # where that extension is critical
            ("a23b3039300a300506032a030403010004010130163011310f300d06035504031306416e63686f72840100a110300e300c06032a03040101ff04020500", 3),
            # with a NameConstraints that is not critical in its place
            ("a23f303d300a300506032a030403010004010130163011310f300d06035504031306416e63686f72840100a114301230100603551d1e04093007a1053003820161", 3),
            # an empty name
            ("a2183016300a300506032a030403010004010130053000840100", 3),
            # a certificate with an empty subject
            (
                "305c3050a003020102020101300506032a03043011310f300d06035504031306416e63686f72301e170d3130303130313038333030305a170d3330313233313038"
                "333030305a3000300a300506032a0304030100300506032a0304030100",
                3,
            ),
            ("0500", 2),
        ]
        path = [made("CN=Anchor", "CN=A", OTHER_KEY, CA), made("CN=A", "CN=S", KEY)]
        for data, status in rows:
            with self.subTest(data):
                if status is None:
                    # one certificate may follow, and none below it
                    self.assertEqual(len(ours.validate_path(ours.TrustAnchor(bytes.fromhex(data)), path[:1], NOW, accepts).certificates), 1)
                    self.assertEqual(self.fault(ours.TrustAnchor(bytes.fromhex(data)), path, NOW, accepts), (0, PATH_LEN))
                else:
                    with self.assertRaises(ours.X509Error) as caught:
                        ours.validate_path(ours.TrustAnchor(bytes.fromhex(data)), path, NOW, accepts)
                    self.assertEqual(caught.exception.status, status)

    def test_policies_of_an_anchor_that_cannot_be_read(self) -> None:
        identifiers = ours.ExtensionOID.CERTIFICATE_POLICIES, ours.ExtensionOID.POLICY_CONSTRAINTS, ours.ExtensionOID.INHIBIT_ANY_POLICY
        for oid in identifiers:
            certificate = root(ours.UnrecognizedExtension(oid, b"\x05\x00"))
            anchors: list[Any] = [certificate, ours.TrustAnchor(certificate.public_bytes()), description(certificate)]
            for anchor in anchors:
                with self.subTest(oid=oid, anchor=anchor), self.assertRaises(ours.X509Error):
                    ours.validate_path(anchor, self.ONE, NOW, accepts)

    def test_each_signature_is_for_the_key_above(self) -> None:
        path = [AUTHORITY, server("www.example.org")]
        for no_at in (None, 0, 1):
            asked: list[tuple[bytes, bytes, bytes, bytes]] = []

            def verify(*words: bytes) -> bool:
                asked.append(words)  # type: ignore[arg-type]
                return len(asked) - 1 != no_at

            with self.subTest(no_at):
                if no_at is None:
                    ours.validate_path(ROOT, path, NOW, verify)
                else:
                    self.assertEqual(self.fault(ROOT, path, NOW, verify), (no_at, SIGNATURE))
                wanted = [(key, ED25519, it.tbs_certificate_bytes, it.signature) for key, it in zip((KEY, OTHER_KEY), path)]
                self.assertEqual(asked, wanted[: 2 if no_at is None else no_at + 1])

    def test_each_certificate_says_what_it_says_alone(self) -> None:
        # behind the key of the last one (RFC 5280 4.1) two unique identifiers, of 16 bits and of 14
        old = server("a.example").public_bytes()
        ids = bytes.fromhex("810300abcd" "8203021234")
        front, _, behind = old.partition(KEY)
        made = bytearray(front + KEY + ids + behind)
        self.assertEqual((made[1], made[4]), (0x81, 0x81))
        for at in (2, 5):
            made[at] += len(ids)
        path = [AUTHORITY, ours.Certificate(bytes(made))]
        for anchor in (ROOT, ours.TrustAnchor(ROOT.public_bytes()), (name("CN=Root"), KEY)):
            for given in (path, [it.public_bytes() for it in path]):
                found = ours.validate_path(anchor, given, NOW, accepts).certificates
                self.assertEqual(found, tuple(path))
                self.assertEqual([self.said(it) for it in found], [self.said(it) for it in path])
        self.assertEqual(found[1].subject_unique_id, (b"\x12\x34", 2))
        self.assertEqual((found[0].public_key_bytes, found[0].not_valid_after_utc), (OTHER_KEY, NOW + SECOND))

    @staticmethod
    def said(it: ours.Certificate) -> tuple[object, ...]:
        """All that its view and the view of its signature say."""
        names = (it.version, it.serial_number, it.issuer, it.subject, it.issuer_unique_id, it.subject_unique_id)
        parts = (it.not_valid_before_utc, it.not_valid_after_utc, it.public_key_bytes, it.inner_signature_algorithm_bytes)
        signed = (it.signature_algorithm_bytes, it.signature, it.tbs_certificate_bytes)
        return *names, *parts, *signed, list(it.extensions)

    def test_parameters_of_the_key_above(self) -> None:
        # keys of the algorithm 1.2.3.4, one with an INTEGER as its parameters (RFC 5280 6.1.4 (d) to (f))
        plain, full = (element(0x30, element(0x30, bytes.fromhex("06032a0304"), it), bytes.fromhex("030100")) for it in (b"", b"\2\1\7"))
        self.assertEqual(ours.working_key(full, plain), full)
        self.assertEqual([ours.working_key(above, key) for above, key in ((plain, full), (KEY, plain), (full, KEY))], [full, plain, KEY])
        # NULL is no parameters
        null = element(0x30, element(0x30, bytes.fromhex("06032a0304"), b"\5\0"), bytes.fromhex("030100"))
        self.assertEqual(ours.working_key(null, plain), plain)
        with self.assertRaises(ours.X509Error):
            ours.working_key(full, b"\5\0")
        keys: list[bytes] = []

        def verify(key: bytes, *_: bytes) -> bool:
            keys.append(key)
            return True

        path = [made("CN=Root", "CN=A", plain, CA), made("CN=A", "CN=S", plain)]
        found = ours.validate_path((name("CN=Root"), full), path, NOW, verify)
        self.assertEqual((keys, found.public_key_bytes), ([full, full], full))


class Arguments(unittest.TestCase):
    """Each argument of `validate_path`: other values that another answer comes of, and what is refused."""

    GOOD: dict[str, Any] = {"anchor": ROOT, "path": [AUTHORITY, server("www.example.com")], "moment": NOW, "verify": accepts}
    CHANGED: dict[str, list[tuple[Any, tuple[int, int]]]] = {
        "anchor": [(AUTHORITY, (0, ISSUER)), ((name("CN=S"), KEY), (0, ISSUER)), (CONSTRAINED, (1, NAMES))],
        "path": [([AUTHORITY, ROOT], (1, ISSUER)), ([AUTHORITY, b""], (1, 1))],
        "moment": [(NOW - SECOND, (0, MOMENT)), (NOW + 2 * SECOND, (0, MOMENT))],
        "verify": [(lambda *words: False, (0, SIGNATURE))],
        "name_constraints": [(EXAMPLE.data, (1, NAMES)), (ours.NameConstraints(None, [ours.DirectoryName(name(""))]).data, (0, NAMES))],
        "policies": [(POLICIES[1:], (1, POLICY))],
        "require_explicit_policy": [(True, (1, POLICY))],
        "inhibit_policy_mapping": [(True, (1, POLICY))],
        "inhibit_any_policy": [(True, (0, POLICY))],
        "purposes": [([SERVERS], (1, PURPOSE)), (None, (1, CRITICAL))],
        "is_chained": [(True, (0, PURPOSE))],
        "key_usage": [(ours.KeyUsage(key_agreement=True), (1, USAGE))],
        "allows_version_1": [(False, (0, NOT_CA))],
        "constrain_common_names": [(True, (1, NAMES))],
    }
    # paths on which a setting tells
    ASKED: dict[str, dict[str, Any]] = {
        "policies": {"path": [authority(under(*POLICIES)), made("O=CA,C=DE", "CN=S", KEY, under(POLICIES[0]))], "require_explicit_policy": True},
        "require_explicit_policy": {"path": [authority(under(*POLICIES)), server("a")]},
        "inhibit_policy_mapping": {
            "path": [
                authority(under(POLICIES[0]), ours.PolicyMappings([(POLICIES[0], POLICIES[1])])),
                made("O=CA,C=DE", "CN=B", KEY, CA, under(POLICIES[1])),
                made("CN=B", "CN=S", KEY, under(POLICIES[1])),
            ],
            "require_explicit_policy": True,
        },
        "inhibit_any_policy": {
            "path": [authority(under(ours.CertificatePoliciesOID.ANY_POLICY)), made("O=CA,C=DE", "CN=S", KEY, under(POLICIES[0]))],
            "require_explicit_policy": True,
        },
        "purposes": {"path": [AUTHORITY, for_purposes(CODE)], "purposes": [CODE]},
        "is_chained": {"path": [FOR_CODE, for_purposes(SERVERS)], "purposes": [SERVERS], "is_chained": False},
        "key_usage": {"path": [AUTHORITY, made("O=CA,C=DE", "CN=S", KEY, ours.KeyUsage(digital_signature=True))]},
        "allows_version_1": {"path": [OLD, server("a")], "allows_version_1": True},
        "constrain_common_names": {"anchor": CONSTRAINED, "path": [AUTHORITY, made("O=CA,C=DE", "CN=www.example.com", KEY)]},
    }
    REFUSED: dict[str, list[tuple[Any, type[Exception]]]] = {
        "anchor": [
            (None, TypeError),
            (ROOT.public_bytes(), TypeError),
            ((name("CN=R"),), TypeError),
            (("CN=R", KEY), TypeError),
            ((name("CN=R"), 5), TypeError),
        ],
        "path": [([], ValueError), (ROOT.public_bytes(), TypeError), ([5], TypeError), (None, TypeError)],
        "moment": [(None, TypeError), (5, TypeError), (NOW.replace(tzinfo=None), ValueError), (NOW.replace(year=1969), ValueError)],
        "verify": [(5, TypeError)],
        "name_constraints": [(5, TypeError), ("", TypeError), (b"", ValueError), (b"\x30\x01", ours.X509Error)],
        "policies": [(5, TypeError), (["1.2.3"], TypeError), (b"\x2a\x03", TypeError)],
        "require_explicit_policy": [(1, TypeError), (None, TypeError)],
        "inhibit_policy_mapping": [(1, TypeError), (None, TypeError)],
        "inhibit_any_policy": [(1, TypeError), (None, TypeError)],
        "purposes": [([], ValueError), (POLICIES, ValueError), (5, TypeError), (["1.2.3"], TypeError)],
        "is_chained": [(1, TypeError), (None, TypeError)],
        "key_usage": [(1, TypeError), (ours.KeyUsage, TypeError)],
        "allows_version_1": [(1, TypeError), (None, TypeError)],
        "constrain_common_names": [(1, TypeError), (None, TypeError)],
    }

    def test_each_has_a_row(self) -> None:
        names = set(inspect.signature(ours.validate_path).parameters)
        self.assertEqual((set(self.CHANGED), set(self.REFUSED)), (names, names))

    def test_changed(self) -> None:
        self.assertEqual(ours.validate_path(**self.GOOD).subject, name("CN=S"))
        for argument, rows in self.CHANGED.items():
            good: dict[str, Any] = self.GOOD | self.ASKED.get(argument, {})
            ours.validate_path(**good)
            for value, fault in rows:
                with self.subTest(argument, value=value), self.assertRaises(ours.PathFault) as caught:
                    ours.validate_path(**(good | {argument: value}))
                self.assertEqual((caught.exception.place, caught.exception.reason), fault)

    def test_refused(self) -> None:
        for argument, rows in self.REFUSED.items():
            for value, error in rows:
                with self.subTest(argument, value=value), self.assertRaises(error):
                    ours.validate_path(**(self.GOOD | {argument: value}))


@unittest.skipIf(theirs is None, "cryptography isn't installed")
class SignedByCryptography(unittest.TestCase):
    """A chain of three that `cryptography` makes and verifies."""

    def setUp(self) -> None:
        self.keys = [ec.generate_private_key(ec.SECP256R1()) for _ in range(3)]
        ca, leaf = theirs.BasicConstraints(True, None), theirs.SubjectAlternativeName([theirs.DNSName("www.example.org")])
        limits = theirs.NameConstraints([theirs.DNSName("example.org")], None)
        self.chain = [self.sign(0, 0, ca), self.sign(0, 1, ca, limits), self.sign(1, 2, leaf)]

    def sign(self, issuer: int, subject: int, *extensions: Any) -> bytes:
        names = [theirs.Name([theirs.NameAttribute(theirs.NameOID.COMMON_NAME, text)]) for text in ("Root", "Authority", "Server")]
        builder = theirs.CertificateBuilder().serial_number(1).issuer_name(names[issuer]).subject_name(names[subject])
        builder = builder.public_key(self.keys[subject].public_key()).not_valid_before(NOW).not_valid_after(NOW)
        for it in extensions:
            builder = builder.add_extension(it, critical=True)
        return builder.sign(self.keys[issuer], hashes.SHA256()).public_bytes(serialization.Encoding.DER)

    def verify(self, key: bytes, algorithm: bytes, message: bytes, signature: bytes) -> bool:
        # ecdsa-with-SHA256 (RFC 5758 3.2)
        if algorithm != bytes.fromhex("300a06082a8648ce3d040302"):
            return False
        try:
            serialization.load_der_public_key(key).verify(signature, message, ec.ECDSA(hashes.SHA256()))  # type: ignore[union-attr, call-arg, arg-type]
        except InvalidSignature:
            return False
        return True

    def test_it_is_valid(self) -> None:
        root, *path = self.chain
        found = ours.validate_path(ours.Certificate(root), path, NOW, self.verify)
        spki = self.keys[2].public_key().public_bytes(serialization.Encoding.DER, serialization.PublicFormat.SubjectPublicKeyInfo)
        self.assertEqual(found.public_key_bytes, spki)

    def test_a_signature_that_is_changed(self) -> None:
        root, above, leaf = self.chain
        for place, path in enumerate(([above[:-1] + bytes([above[-1] ^ 1]), leaf], [above, leaf[:-1] + bytes([leaf[-1] ^ 1])])):
            with self.subTest(place), self.assertRaises(ours.PathFault) as caught:
                ours.validate_path(ours.Certificate(root), path, NOW, self.verify)
            self.assertEqual((caught.exception.place, caught.exception.reason), (place, SIGNATURE))


if __name__ == "__main__":
    unittest.main()
