"""Paths that are found over certificates in any order, and certificates of peers, verified: beside `cryptography.x509.verification`, whose names these are.

usage: X509_LIBRARY=.../libx509.so PYTHONPATH=bindings/python/src python3 -m unittest discover -s bindings/python/tests
"""

from __future__ import annotations

import datetime
import ipaddress
import random
import unittest
import unittest.mock
from typing import Any, Iterable

import x509_cert as ours
import x509_cert as x509
from x509_cert import finding, verification
from x509_cert._header import FAULT
from x509_cert.path import _verifies as path_verifies

try:
    from cryptography import x509 as theirs
    from cryptography.hazmat.primitives import hashes, serialization
    from cryptography.hazmat.primitives.asymmetric import ec
    from cryptography.x509 import verification as their_verification
except ImportError:  # the tests are left out then
    theirs = None  # type: ignore[assignment]

NOW = datetime.datetime(2030, 1, 1, tzinfo=datetime.timezone.utc)
DAY, HOUR = datetime.timedelta(days=1), datetime.timedelta(hours=1)
MOMENT, ISSUER, SIGNATURE, NOT_CA, NAMES, PURPOSE = 4, 3, 5, 8, 12, 17


class Authority:
    """A name with a key."""

    def __init__(self, name: str) -> None:
        self.name = theirs.Name([theirs.NameAttribute(theirs.NameOID.COMMON_NAME, name)])
        self.key = ec.generate_private_key(ec.SECP256R1())

    def revoke(self, *revoked: Any, number: int = 1, extensions: Iterable[Any] = (), by: Any = None, ends: datetime.datetime = NOW + DAY) -> Any:
        """A CRL of `cryptography` that has these certificates, or these entries."""
        builder = theirs.CertificateRevocationListBuilder().issuer_name(self.name).last_update(NOW - DAY).next_update(ends)
        builder = builder.add_extension(theirs.CRLNumber(number), False)
        for it in extensions:
            builder = builder.add_extension(it, True)
        for it in revoked:
            entry = theirs.RevokedCertificateBuilder().serial_number(it.serial_number).revocation_date(NOW - HOUR)
            builder = builder.add_revoked_certificate(it if isinstance(it, theirs.RevokedCertificate) else entry.build())
        return builder.sign(self.key if by is None else by.key, hashes.SHA256())

    def issue(self, subject: Authority, *extensions: Any, begins: datetime.datetime = NOW - DAY, ends: datetime.datetime = NOW + DAY, is_ca: bool = True) -> Any:
        """A certificate of `cryptography`."""
        builder = theirs.CertificateBuilder().issuer_name(self.name).subject_name(subject.name).public_key(subject.key.public_key())
        builder = builder.serial_number(theirs.random_serial_number()).not_valid_before(begins).not_valid_after(ends)
        if is_ca:
            builder = builder.add_extension(theirs.BasicConstraints(True, None), True)
            usage = theirs.KeyUsage(False, False, False, False, False, True, True, False, False)
            builder = builder.add_extension(usage, True)
        builder = builder.add_extension(theirs.SubjectKeyIdentifier.from_public_key(subject.key.public_key()), False)
        builder = builder.add_extension(theirs.AuthorityKeyIdentifier.from_issuer_public_key(self.key.public_key()), False)
        for it in extensions:
            builder = builder.add_extension(it, isinstance(it, theirs.NameConstraints))
        return builder.sign(self.key, hashes.SHA256())


def der(certificate: Any) -> bytes:
    data: bytes = certificate.public_bytes(serialization.Encoding.DER)
    return data


def read(*certificates: Any) -> list[ours.Certificate]:
    return [ours.load_der_x509_certificate(der(it)) for it in certificates]


def read_crls(*crls: Any) -> list[ours.CertificateRevocationList]:
    return [ours.load_der_x509_crl(der(it)) for it in crls]


def chain_of(
    host: str,
    leaf: x509.Certificate,
    sent: list[x509.Certificate],
    roots: list[x509.Certificate],
    crls: list[x509.CertificateRevocationList],
    now: datetime.datetime,
) -> list[x509.Certificate]:
    """The chain of a server, its certificate first and a root last; a VerificationError says why it isn't to be trusted."""
    policy = verification.PolicyBuilder().store(verification.Store(roots)).time(now).revocation(x509.Revocation(crls))
    return policy.build_server_verifier(host).verify(leaf, sent)


def names(*given: str) -> Any:
    return theirs.SubjectAlternativeName([theirs.DNSName(it) for it in given])


def purposes(*given: Any) -> Any:
    return theirs.ExtendedKeyUsage(given)


def bytes_of(certificates: Iterable[ours.Certificate]) -> list[bytes]:
    return [it.public_bytes() for it in certificates]


@unittest.skipIf(theirs is None, "the package cryptography isn't there")
class Found(unittest.TestCase):
    def setUp(self) -> None:
        self.root, self.other, self.upper, self.lower, self.leaf = (Authority(it) for it in ("Root", "Other", "Upper", "Lower", "Leaf"))
        self.anchors = read(self.root.issue(self.root), self.other.issue(self.other))
        self.one, self.two = self.root.issue(self.upper), self.upper.issue(self.lower)
        self.end = self.lower.issue(self.leaf, names("www.example.org"), is_ca=False)

    def find(self, candidates: list[Any], certificate: Any, **settings: Any) -> ours.FoundPath:
        return ours.find_path(self.anchors, read(*candidates), read(certificate)[0], NOW, **settings)

    def refused(self, candidates: list[Any], certificate: Any, **settings: Any) -> ours.NoPath:
        with self.assertRaises(ours.NoPath) as refused:
            self.find(candidates, certificate, **settings)
        return refused.exception

    def test_any_order_and_more_than_are_needed(self) -> None:
        others = [self.other.issue(self.upper), self.other.issue(self.leaf), self.upper.issue(self.upper)]
        given = [self.one, self.two, self.end, *others]
        for seed in range(8):
            random.Random(seed).shuffle(given)
            found = self.find(given, self.end)
            self.assertEqual(found.anchor, found.anchor)
            self.assertEqual(len(found.path.certificates), 3)
            self.assertEqual(found.path.certificates[-1].public_bytes(), der(self.end))
            self.assertIn(found.path.certificates[0].public_bytes(), [der(self.one), der(others[0])])

    def test_a_signature_that_holds_under_another_anchor(self) -> None:
        # two names of one kind: the shorter path doesn't hold
        false_upper = Authority("Upper")
        false = self.root.issue(false_upper)
        given = [false, self.one, self.two]
        found = self.find(given, self.end)
        self.assertEqual(bytes_of(found.path.certificates), [der(it) for it in (self.one, self.two, self.end)])
        asked: list[bytes] = []

        def verify(key: bytes, algorithm: bytes, message: bytes, signature: bytes) -> bool:
            asked.append(key + signature)
            return False

        refused = self.refused(given, self.end, verify=verify)
        self.assertIsNotNone(refused.fault)
        assert refused.fault is not None
        self.assertEqual(refused.fault.reason, SIGNATURE)
        # each pair of a key and a signature once
        self.assertEqual(len(asked), len(set(asked)))

    def test_an_issuer_that_is_not_known(self) -> None:
        refused = self.refused([self.one], self.end)
        self.assertEqual((refused.fault, refused.path, refused.anchor, refused.is_limit), (None, None, None, False))
        self.assertEqual(str(refused), "no path leads to an anchor by its names")

    def test_the_fault_of_the_path_that_came_furthest(self) -> None:
        late = self.root.issue(self.upper, begins=NOW - 2 * DAY, ends=NOW - DAY)
        refused = self.refused([late, self.two], self.end)
        assert refused.fault is not None and refused.path is not None and refused.anchor is not None
        self.assertEqual((refused.fault.place, refused.fault.reason, refused.fault.is_expired), (0, MOMENT, True))
        self.assertEqual(bytes_of(refused.path), [der(it) for it in (late, self.two, self.end)])
        self.assertEqual(refused.anchor, self.anchors[0])
        self.assertEqual(str(refused), "certificate 0 isn't valid at the moment: it has expired")
        no_ca = self.upper.issue(self.lower, is_ca=False)
        refused = self.refused([self.one, no_ca], self.end)
        assert refused.fault is not None
        self.assertEqual((refused.fault.place, refused.fault.reason), (1, NOT_CA))
        # the expired twin isn't in the way of the other
        self.assertEqual(len(self.find([late, self.one, self.two], self.end).path.certificates), 3)

    def test_a_fault_of_the_certificate(self) -> None:
        end = self.lower.issue(self.leaf, is_ca=False, begins=NOW - 2 * DAY, ends=NOW - DAY)
        other = self.lower.issue(self.leaf, purposes(theirs.ExtendedKeyUsageOID.CLIENT_AUTH), is_ca=False)
        early = self.lower.issue(self.leaf, is_ca=False, begins=NOW + HOUR)
        for it, reason, is_expired, said in (
            (end, MOMENT, True, "the certificate has expired"),
            (early, MOMENT, False, "the certificate isn't valid yet"),
            (other, PURPOSE, None, "the certificate is for another purpose"),
        ):
            refused = self.refused([self.one, self.two], it, purposes=[ours.ExtendedKeyUsageOID.SERVER_AUTH])
            assert refused.fault is not None and refused.path is not None
            self.assertEqual((refused.fault.reason, refused.fault.is_expired, str(refused)), (reason, is_expired, said))
            self.assertEqual((refused.path[refused.fault.place].public_bytes(), refused.fault.place), (der(it), len(refused.path) - 1))

    def test_a_fault_that_is_told_before_any_search(self) -> None:
        """The library then answers no anchor by their number, and no candidate."""
        end = der(self.lower.issue(self.leaf, is_ca=False, begins=NOW - 2 * DAY, ends=NOW - DAY))

        def answer(name: str, data: bytes, anchors: Any, count: Any, *words: Any) -> int:
            self.assertEqual((name, len(anchors), count.value), ("x509_path_find", 2, 2))
            words[-1]._obj.__init__(count.value, 0, 0, MOMENT)
            return FAULT

        with unittest.mock.patch.object(finding, "status_of", answer), self.assertRaises(ours.NoPath) as refused:
            ours.find_path(self.anchors, [], end, NOW)
        found = refused.exception
        assert found.fault is not None and found.path is not None
        self.assertEqual((found.fault.place, found.fault.reason, found.fault.is_expired), (0, MOMENT, True))
        self.assertEqual((bytes_of(found.path), found.anchor, found.is_limit, found.revocation), ([end], None, False, None))
        self.assertEqual(str(found), "the certificate has expired")
        builder = verification.PolicyBuilder().store(verification.Store(self.anchors)).time(NOW)
        with unittest.mock.patch.object(finding, "status_of", answer), self.assertRaises(verification.VerificationError) as why:
            builder.build_client_verifier().verify(ours.Certificate(end), [])
        self.assertEqual((str(why.exception), why.exception.fault), ("the certificate has expired", why.exception.__cause__.fault))  # type: ignore[union-attr]

    def test_limits(self) -> None:
        given = [self.one, self.two]
        self.assertEqual(len(self.find(given, self.end, max_depth=2).path.certificates), 3)
        self.assertIsNone(self.refused(given, self.end, max_depth=1).fault)
        self.assertEqual(len(self.find(given, self.end, max_signatures=3).path.certificates), 3)
        self.assertTrue(self.refused(given, self.end, max_signatures=2).is_limit)
        for depth in (-1, 256):
            with self.assertRaises(ValueError):
                self.find(given, self.end, max_depth=depth)

    def test_the_candidate_whose_key_is_named_is_tried_first(self) -> None:
        # later ones of other keys would each take a signature that doesn't hold
        others = [self.upper.issue(Authority("Lower"), begins=NOW - HOUR) for _ in range(5)]
        given = [self.one, self.two, *others]
        for seed in range(8):
            random.Random(seed).shuffle(given)
            self.assertEqual(len(self.find(given, self.end, max_signatures=3).path.certificates), 3)

    def test_of_certificates_of_one_key_the_latest_is_tried_first(self) -> None:
        given = [self.one, self.two, *(self.root.issue(self.upper, begins=NOW - days * DAY) for days in (9, 3, 5))]
        for seed in range(8):
            random.Random(seed).shuffle(given)
            self.assertEqual(bytes_of(self.find(given, self.end).path.certificates), [der(it) for it in (self.one, self.two, self.end)])

    def test_twenty_cross_signed_pairs_without_an_anchor(self) -> None:
        pairs = [(Authority(f"A{place}"), Authority(f"A{place}")) for place in range(20)]
        given = [upper.issue(lower) for place in range(19) for upper in pairs[place] for lower in pairs[place + 1]]
        end = pairs[-1][0].issue(self.leaf, is_ca=False)
        began = datetime.datetime.now()
        refused = self.refused(given, end, max_depth=20)
        self.assertLess(datetime.datetime.now() - began, datetime.timedelta(seconds=20))
        self.assertEqual((refused.fault, refused.is_limit), (None, True))

    def test_what_is_given(self) -> None:
        with self.assertRaises(TypeError):
            ours.find_path(["root"], [], read(self.end)[0], NOW)  # type: ignore[list-item]
        with self.assertRaises(ours.X509Error):
            ours.find_path(self.anchors, [], b"", NOW)
        # a candidate that is no certificate stands in no path
        self.assertEqual(len(ours.find_path(self.anchors, [b"", b"\x30\x00", *map(der, (self.one, self.two))], der(self.end), NOW).path.certificates), 3)
        refused = None
        with self.assertRaises(ours.NoPath) as refused_of_none:
            ours.find_path([], [], read(self.end)[0], NOW)
        refused = refused_of_none.exception
        self.assertIsNone(refused.fault)


@unittest.skipIf(theirs is None, "the package cryptography isn't there")
class Unrevoked(unittest.TestCase):
    """Paths that are found beside CRLs. Two roots certify an authority, which certifies the leaf."""

    def setUp(self) -> None:
        self.root, self.other, self.middle, self.upper, self.leaf = (Authority(it) for it in ("Root", "Other", "Middle", "Upper", "Leaf"))
        self.anchors = read(self.root.issue(self.root), self.other.issue(self.other))
        self.one, self.two = self.root.issue(self.upper), self.other.issue(self.upper)
        self.end = self.upper.issue(self.leaf, names("www.example.org"), is_ca=False)
        self.clean = [self.root.revoke(), self.other.revoke(), self.upper.revoke()]

    def find(self, crls: list[Any], candidates: list[Any], certificate: Any = None, anchors: Any = None, **words: Any) -> ours.FoundPath:
        asked = ours.Revocation(read_crls(*crls), **words)
        wanted = self.end if certificate is None else certificate
        return ours.find_path(self.anchors if anchors is None else anchors, read(*candidates), read(wanted)[0], NOW, revocation=asked)

    def refused(self, *given: Any, **words: Any) -> ours.NoPath:
        with self.assertRaises(ours.NoPath) as refused:
            self.find(*given, **words)
        self.assertIsNone(refused.exception.fault)
        return refused.exception

    def told(self, refused: ours.NoPath) -> tuple[int, str]:
        """The place and the state, and that the path is one to the certificate under an anchor."""
        assert refused.revocation is not None and refused.path is not None
        self.assertIn(refused.anchor, self.anchors)
        return refused.revocation.place, refused.revocation.status.state.name

    def test_unrevoked(self) -> None:
        found = self.find(self.clean, [self.one])
        self.assertEqual((bytes_of(found.path.certificates), [it.state.name for it in found.statuses]), ([der(self.one), der(self.end)], ["unrevoked"] * 2))
        # CRLs that aren't asked for say nothing
        self.assertEqual(ours.find_path(self.anchors, read(self.one), read(self.end)[0], NOW).statuses, ())

    def test_a_leaf_that_is_revoked(self) -> None:
        entry = theirs.RevokedCertificateBuilder().serial_number(self.end.serial_number).revocation_date(NOW - HOUR)
        entry = entry.add_extension(theirs.CRLReason(theirs.ReasonFlags.key_compromise), False).build()
        crls = [self.root.revoke(), self.other.revoke(), self.upper.revoke(entry)]
        for candidates in ([self.one], [self.one, self.two]):
            for scope in ours.RevocationScope:
                for allows in (False, True):
                    refused = self.refused(crls, candidates, scope=scope, allows_undetermined=allows)
                    self.assertEqual(self.told(refused), (1, "revoked"))
                    assert refused.revocation is not None
                    status = refused.revocation.status
                    self.assertEqual((status.date, status.reason, status.crl), (NOW - HOUR, ours.ReasonFlags.key_compromise, 2))
                    self.assertEqual(str(refused), "the certificate was revoked at 2029-12-31T23:00:00Z: keyCompromise")
                    self.assertEqual(str(refused.revocation), "certificate 1 was revoked at 2029-12-31T23:00:00Z: keyCompromise")

    def test_a_revoked_authority_and_another_path(self) -> None:
        for bad, good, crls in (
            (self.one, self.two, [self.root.revoke(self.one), *self.clean[1:]]),
            (self.two, self.one, [self.clean[0], self.other.revoke(self.two), self.clean[2]]),
        ):
            for anchors in (self.anchors, self.anchors[::-1]):
                found = self.find(crls, [bad, good], anchors=anchors)
                self.assertEqual(bytes_of(found.path.certificates), [der(good), der(self.end)])
            self.assertEqual(self.told(self.refused(crls, [bad])), (0, "revoked"))
            self.assertEqual(str(self.refused(crls, [bad])), "certificate 0 was revoked at 2029-12-31T23:00:00Z")
            # of the leaf alone is asked
            self.assertEqual(bytes_of(self.find(crls, [bad], scope=ours.RevocationScope.leaf).path.certificates), [der(bad), der(self.end)])
        both = [self.root.revoke(self.one), self.other.revoke(self.two), self.clean[2]]
        refused = self.refused(both, [self.one, self.two])
        self.assertEqual(self.told(refused), (0, "revoked"))

    def test_a_longer_path_around(self) -> None:
        way = [self.root.issue(self.middle), self.middle.issue(self.upper)]
        crls = [self.root.revoke(self.one), self.middle.revoke(), self.upper.revoke()]
        for candidates in ([self.one, *way], [*way, self.one]):
            found = self.find(crls, candidates)
            self.assertEqual(bytes_of(found.path.certificates), [der(it) for it in (*way, self.end)])
        # whoever the root revokes on that way too
        crls = [self.root.revoke(self.one, way[0]), self.middle.revoke(), self.upper.revoke()]
        refused = self.refused(crls, [self.one, *way])
        self.assertEqual(self.told(refused), (0, "revoked"))
        self.assertEqual(bytes_of(refused.path or ()), [der(it) for it in (*way, self.end)])

    def test_a_status_that_is_not_known(self) -> None:
        for crls, place in (([], 0), (self.clean[:1], 1), (self.clean[2:], 0), ([self.clean[0], self.upper.revoke(ends=NOW - HOUR)], 1)):
            refused = self.refused(crls, [self.one])
            self.assertEqual(self.told(refused), (place, "undetermined"))
            found = self.find(crls, [self.one], allows_undetermined=True)
            self.assertEqual(found.statuses[place].state, ours.RevocationState.undetermined)
        self.assertEqual(str(self.refused(self.clean[:1], [self.one])), "the certificate may be revoked: no CRL says that it isn't")
        self.assertEqual([it.state.name for it in self.find(self.clean[2:], [self.one], scope=ours.RevocationScope.leaf).statuses], ["unrevoked"])
        # the other root has a CRL at hand
        for anchors in (self.anchors, self.anchors[::-1]):
            found = self.find(self.clean[1:], [self.one, self.two], anchors=anchors)
            self.assertEqual(bytes_of(found.path.certificates), [der(self.two), der(self.end)])

    def test_delta_crls(self) -> None:
        base = self.upper.revoke(number=5)
        for delta, states in (
            (self.upper.revoke(self.end, number=6, extensions=[theirs.DeltaCRLIndicator(5)]), (1, "revoked")),
            (self.upper.revoke(number=6, extensions=[theirs.DeltaCRLIndicator(5)]), None),
        ):
            crls = [self.clean[0], base, delta]
            self.assertEqual(len(self.find(crls, [self.one]).statuses), 2)
            if states is None:
                self.assertEqual(len(self.find(crls, [self.one], use_deltas=True).statuses), 2)
            else:
                self.assertEqual(self.told(self.refused(crls, [self.one], use_deltas=True)), states)

    def test_indirect_crls(self) -> None:
        """The signer of the CRL is certified by one root alone, so the leaf's status is known under that one alone (RFC 5280 6.3.3 (f))."""
        lists = Authority("Lists")
        point = theirs.DistributionPoint([theirs.UniformResourceIdentifier("http://example.org/list.crl")], None, None, [theirs.DirectoryName(lists.name)])
        end = self.upper.issue(self.leaf, theirs.CRLDistributionPoints([point]), is_ca=False)
        issuing = theirs.IssuingDistributionPoint(point.full_name, None, False, False, None, True, False)
        issuer = theirs.CertificateIssuer([theirs.DirectoryName(self.upper.name)])
        entry = theirs.RevokedCertificateBuilder().serial_number(end.serial_number).revocation_date(NOW - HOUR).add_extension(issuer, True).build()
        good, bad = lists.revoke(extensions=[issuing]), lists.revoke(entry, extensions=[issuing])
        signer, candidates, of_roots = self.other.issue(lists), [self.one, self.two], self.clean[:2]
        for anchors in (self.anchors, self.anchors[::-1]):
            found = self.find([*of_roots, good], candidates, end, anchors, certificates=read(signer))
            self.assertEqual((found.anchor, bytes_of(found.path.certificates)), (self.anchors[1], [der(self.two), der(end)]))
            self.assertEqual(self.told(self.refused([*of_roots, bad], candidates, end, anchors, certificates=read(signer))), (1, "revoked"))
            # what a server sends besides signs no CRLs
            for given in (candidates, [*candidates, signer]):
                refused = self.refused([*of_roots, good], given, end, anchors)
                self.assertEqual((self.told(refused), refused.is_limit), ((1, "undetermined"), False))
            # the root under which it would be known has revoked the authority
            crls = [self.clean[0], self.other.revoke(self.two, number=2), good]
            refused = self.refused(crls, candidates, end, anchors, certificates=read(signer))
            self.assertIn(self.told(refused), [(1, "undetermined"), (0, "revoked")])

    def test_many_paths_end(self) -> None:
        pairs = [(Authority(f"A{place}"), Authority(f"A{place}")) for place in range(5)]
        given = [upper.issue(lower) for place in range(4) for upper in pairs[place] for lower in pairs[place + 1]]
        given += [self.root.issue(it) for it in pairs[0]]
        end = pairs[-1][0].issue(self.leaf, is_ca=False)
        crls = [self.root.revoke(), *(it.revoke() for pair in pairs for it in pair)]
        self.assertEqual(len(self.find(crls, given, end).statuses), 6)
        with unittest.mock.patch.object(finding._Search, "next", autospec=True, side_effect=finding._Search.next) as searches:
            # no CRL is about the leaf; one is, but isn't signed by its issuer
            refused = self.refused(crls[:-2], given, end)
            self.assertEqual((self.told(refused), refused.is_limit), ((5, "undetermined"), False))
            refused = self.refused([*crls[:-2], pairs[-1][0].revoke(by=self.other)], given, end)
            self.assertEqual((self.told(refused), refused.is_limit), ((5, "undetermined"), True))
        # of the 18 certificates below the root each has two keys above it at most
        self.assertLess(searches.call_count, 50 + 4 * 18)

    def test_signatures_are_counted_of_certificates(self) -> None:
        asked = ours.Revocation(read_crls(*self.clean))
        for most, is_limit in ((2, False), (1, True)):
            try:
                ours.find_path(self.anchors, read(self.one), read(self.end)[0], NOW, revocation=asked, max_signatures=most)
            except ours.NoPath as refused:
                self.assertTrue(is_limit and refused.is_limit and refused.revocation is None)
            else:
                self.assertFalse(is_limit)

    def test_each_signature_is_verified_once(self) -> None:
        seen: list[bytes] = []

        def verify(key: bytes, algorithm: bytes, message: bytes, signature: bytes) -> bool:
            seen.append(key + signature)
            return path_verifies(key, algorithm, message, signature)

        crls = [self.root.revoke(self.one), *self.clean[1:]]
        asked = ours.Revocation(read_crls(*crls))
        found = ours.find_path(self.anchors, read(self.one, self.two), read(self.end)[0], NOW, verify, revocation=asked)
        self.assertEqual(found.anchor, self.anchors[1])
        # those of certificates by the search, and again, where they are asked about, by the judge of CRLs
        self.assertLessEqual(max(seen.count(it) for it in seen), 2)

    def test_policies_of_peers(self) -> None:
        builder = verification.PolicyBuilder().store(verification.Store(self.anchors)).time(NOW)
        crls = read_crls(self.root.revoke(), self.upper.revoke(self.end))
        policy = builder.revocation(ours.Revocation(crls))
        with self.assertRaises(verification.VerificationError) as refused:
            policy.build_server_verifier("www.example.org").verify(read(self.end)[0], read(self.one))
        told = refused.exception.revocation
        assert told is not None
        self.assertEqual((told.place, told.status.is_revoked, refused.exception.fault, refused.exception.is_limit), (1, True, None, False))
        self.assertEqual(str(refused.exception), "the certificate was revoked at 2029-12-31T23:00:00Z")
        chain = builder.revocation(ours.Revocation(read_crls(*self.clean))).build_client_verifier().verify(read(self.end)[0], read(self.one)).chain
        self.assertEqual(bytes_of(chain), [der(self.end), der(self.one), self.anchors[0].public_bytes()])
        with self.assertRaises(ValueError):
            policy.revocation(ours.Revocation([]))

    def test_the_chain_of_a_server(self) -> None:
        leaf, *sent = read(self.end, self.one, self.two)
        revoked = read_crls(self.root.revoke(self.one), *self.clean[1:])
        for crls, wanted in ((read_crls(*self.clean[:1], self.clean[2]), [self.end, self.one]), (revoked, [self.end, self.two])):
            chain = chain_of("www.example.org", leaf, sent, self.anchors, crls, NOW)
            self.assertEqual((bytes_of(chain[:-1]), chain[-1] in self.anchors), ([der(it) for it in wanted], True))
        for host, crls in (("www.example.com", read_crls(*self.clean)), ("www.example.org", revoked[:2])):
            with self.assertRaises(verification.VerificationError):
                chain_of(host, leaf, sent, self.anchors, crls, NOW)

    def test_what_is_given(self) -> None:
        for words in ({"scope": "leaf"}, {"allows_undetermined": 1}, {"use_deltas": None}, {"without_next_update": 1}, {"certificates": [b""]}):
            with self.subTest(words), self.assertRaises(TypeError):
                ours.Revocation([], **words)  # type: ignore[arg-type]
        with self.assertRaises(TypeError):
            ours.Revocation([der(self.clean[0])])  # type: ignore[list-item]
        with self.assertRaises(TypeError):
            ours.find_path(self.anchors, [], read(self.end)[0], NOW, revocation=[])  # type: ignore[arg-type]
        with self.assertRaises(TypeError):
            verification.PolicyBuilder().revocation(read_crls(*self.clean))  # type: ignore[arg-type]
        # iterators are used up once
        asked = ours.Revocation(iter(self.clean), certificates=iter([self.one]))
        self.assertEqual((len(asked.crls), [it.public_bytes() for it in asked.certificates]), (3, [der(self.one)]))
        found = ours.find_path(self.anchors, [b"", der(self.one)], der(self.end), NOW, revocation=asked)
        self.assertEqual(len(found.statuses), 2)
        # iterators of policies and purposes
        purpose = ours.ExtendedKeyUsageOID.SERVER_AUTH
        any_policy = ours.CertificatePoliciesOID.ANY_POLICY
        found = ours.find_path(self.anchors, read(self.one), read(self.end)[0], NOW, purposes=iter([purpose]), policies=iter([any_policy]))
        self.assertEqual(len(found.path.certificates), 2)


@unittest.skipIf(theirs is None, "the package cryptography isn't there")
class Verified(unittest.TestCase):
    """Each case is asked of both packages."""

    def setUp(self) -> None:
        self.root, self.upper, self.leaf = Authority("Root"), Authority("Upper"), Authority("Leaf")
        self.anchor, self.one = self.root.issue(self.root), self.root.issue(self.upper)
        self.server = purposes(theirs.ExtendedKeyUsageOID.SERVER_AUTH)

    def ours(self, subject: str, leaf: Any, given: list[Any]) -> list[bytes] | None:
        store = verification.Store(read(self.anchor))
        builder = verification.PolicyBuilder().store(store).time(NOW)
        try:
            verifier = builder.build_server_verifier(ours.server_name(subject))
            return bytes_of(verifier.verify(read(leaf)[0], read(*given)))
        except verification.VerificationError:
            return None

    def theirs(self, subject: str, leaf: Any, given: list[Any]) -> list[bytes] | None:
        store = their_verification.Store([self.anchor])
        builder = their_verification.PolicyBuilder().store(store).time(NOW)
        try:
            named: Any = theirs.IPAddress(ipaddress.ip_address(subject))
        except ValueError:
            named = theirs.DNSName(subject)
        try:
            return [der(it) for it in builder.build_server_verifier(named).verify(leaf, given)]
        except their_verification.VerificationError:
            return None

    def both(self, subject: str, leaf: Any, given: list[Any], is_good: bool) -> None:
        found = self.ours(subject, leaf, given)
        self.assertEqual(found, self.theirs(subject, leaf, given))
        self.assertEqual(found is not None, is_good)

    def issue(self, *extensions: Any, **more: Any) -> Any:
        return self.upper.issue(self.leaf, *extensions, is_ca=False, **more)

    def test_servers(self) -> None:
        good = self.issue(names("www.example.org", "*.example.com"), self.server)
        self.both("www.example.org", good, [self.one], True)
        self.both("a.example.com", good, [self.one], True)
        self.both("a.b.example.com", good, [self.one], False)
        self.both("example.com", good, [self.one], False)
        self.both("www.example.org", good, [], False)
        self.both("www.example.org", good, [self.root.issue(Authority("Upper")), self.one], True)
        late = self.issue(names("www.example.org"), self.server, begins=NOW - 2 * DAY, ends=NOW - DAY)
        self.both("www.example.org", late, [self.one], False)
        other = self.issue(names("www.example.org"), purposes(theirs.ExtendedKeyUsageOID.CLIENT_AUTH))
        self.both("www.example.org", other, [self.one], False)
        address = theirs.SubjectAlternativeName([theirs.IPAddress(ipaddress.ip_address("192.0.2.1"))])
        self.both("192.0.2.1", self.issue(address, self.server), [self.one], True)
        self.both("192.0.2.2", self.issue(address, self.server), [self.one], False)

    def test_constrained_authorities(self) -> None:
        excluded = theirs.NameConstraints(None, [theirs.DNSName("example.org")])
        constrained = self.root.issue(self.upper, excluded)
        self.both("www.example.org", self.issue(names("www.example.org"), self.server), [constrained], False)
        self.both("www.example.com", self.issue(names("www.example.com"), self.server), [constrained], True)

    def test_what_is_told(self) -> None:
        builder = verification.PolicyBuilder().store(verification.Store(read(self.anchor))).time(NOW)
        verifier = builder.build_server_verifier("www.example.org")
        good = self.issue(names("www.example.org"), self.server)
        with self.assertRaises(verification.VerificationError) as refused:
            verifier.verify(read(self.issue(names("www.example.com"), self.server))[0], read(self.one))
        self.assertEqual((str(refused.exception), refused.exception.fault), ("the certificate isn't that of www.example.org", None))
        late = self.issue(names("www.example.org"), self.server, begins=NOW - 2 * DAY, ends=NOW - DAY)
        with self.assertRaises(verification.VerificationError) as refused:
            verifier.verify(read(late)[0], read(self.one))
        fault, path = refused.exception.fault, refused.exception.path
        assert fault is not None and path is not None
        self.assertEqual((str(refused.exception), fault.reason, fault.is_expired), ("the certificate has expired", MOMENT, True))
        self.assertEqual(path[fault.place].public_bytes(), der(late))
        # certificates of `cryptography`
        self.assertEqual(bytes_of(verifier.verify(good, [self.one])), [der(it) for it in (good, self.one, self.anchor)])
        # DER, of which some isn't that of a certificate
        self.assertEqual(bytes_of(verifier.verify(good, [b"\x30\x00", der(self.one)])), [der(it) for it in (good, self.one, self.anchor)])

    def test_clients(self) -> None:
        builder = verification.PolicyBuilder().store(verification.Store(read(self.anchor))).time(NOW)
        good = self.issue(names("me.example.org"), purposes(theirs.ExtendedKeyUsageOID.CLIENT_AUTH))
        found = builder.build_client_verifier().verify(read(good)[0], read(self.one))
        self.assertEqual(found.subjects, [ours.DNSName("me.example.org")])
        self.assertEqual(bytes_of(found.chain), [der(it) for it in (good, self.one, self.anchor)])
        self.assertIsNone(builder.build_client_verifier().verify(read(self.issue())[0], read(self.one)).subjects)
        with self.assertRaises(verification.VerificationError):
            builder.build_client_verifier().verify(read(self.issue(self.server))[0], read(self.one))

    def test_builders(self) -> None:
        store = verification.Store(read(self.anchor))
        builder = verification.PolicyBuilder()
        with self.assertRaises(ValueError):
            builder.build_client_verifier()
        with self.assertRaises(ValueError):
            builder.store(store).store(store)
        with self.assertRaises(ValueError):
            verification.Store([])
        with self.assertRaises(ours.X509Error):
            builder.store(store).build_server_verifier("a b")
        # the one that a builder is made of stays as it was
        first = builder.store(store)
        self.assertIsNot(first.max_chain_depth(0), first)
        good = self.issue(names("www.example.org"), self.server)
        with self.assertRaises(verification.VerificationError):
            first.time(NOW).max_chain_depth(0).build_server_verifier("www.example.org").verify(read(good)[0], read(self.one))
        first.time(NOW).max_chain_depth(1).build_server_verifier("www.example.org").verify(read(good)[0], read(self.one))


if __name__ == "__main__":
    unittest.main()
