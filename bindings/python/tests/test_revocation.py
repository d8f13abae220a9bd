"""What CRLs say of certificates, of one and of a path, with signatures that are digests, so that each signer is known by its key; and CRLs that `cryptography`
signs.

usage: X509_LIBRARY=.../libx509.so PYTHONPATH=bindings/python/src python3 -m unittest discover -s bindings/python/tests
"""

from __future__ import annotations

import datetime
import hashlib
import itertools
import pickle
import unittest
from typing import Any, Iterable

import x509_cert as ours
import x509_cert as x509

try:
    from cryptography import x509 as theirs
    from cryptography.hazmat.primitives import hashes, serialization
    from cryptography.hazmat.primitives.asymmetric import ec, padding, rsa
except ImportError:  # what is asked of it is left out then
    theirs = None  # type: ignore[assignment]

NOW = datetime.datetime(2030, 1, 1, tzinfo=datetime.timezone.utc)
HOUR = datetime.timedelta(hours=1)
# an AlgorithmIdentifier and keys of Ed25519 (RFC 8410 3, 4)
ED25519 = bytes.fromhex("300506032b6570")
KEYS = [bytes.fromhex("302a300506032b6570032100") + bytes([octet]) * 32 for octet in range(6)]
ALL = {
    "keyCompromise", "cACompromise", "affiliationChanged", "superseded", "cessationOfOperation", "certificateHold", "privilegeWithdrawn", "aACompromise",
}  # fmt: skip


def name(text: str) -> ours.Name:
    return ours.Name.from_rfc4514_string(text)


def sign(key: bytes) -> Any:
    return lambda part: hashlib.sha512(key + part).digest()


def verify(key: bytes, algorithm: bytes, message: bytes, signature: bytes) -> bool:
    return algorithm == ED25519 and signature == hashlib.sha512(key + message).digest()


def made(serial: int, issuer: str, by: bytes, subject: str, key: bytes, *extensions: ours.ExtensionType) -> ours.Certificate:
    builder = ours.CertificateBuilder().serial_number(serial).issuer_name(name(issuer)).subject_name(name(subject)).public_key(key)
    builder = builder.not_valid_before(NOW - HOUR).not_valid_after(NOW + HOUR)
    for it in extensions:
        builder = builder.add_extension(it, critical=isinstance(it, (ours.BasicConstraints, ours.KeyUsage)))
    return builder.sign(ED25519, sign(by))


def listed(issuer: ours.Certificate, by: bytes, *revoked: int, at: datetime.datetime = NOW, **words: Any) -> ours.CertificateRevocationList:
    """A CRL of an issuer, which the key signs, with these serial numbers."""
    builder = ours.CertificateRevocationListBuilder().issuer(issuer).crl_number(1).last_update(at)
    if words.get("next_update", True):
        builder = builder.next_update(at + HOUR)
    for serial in revoked:
        builder = builder.add_revoked_certificate(ours.RevokedCertificate(serial, at - HOUR, words.get("reason")))
    for it in words.get("extensions", ()):
        builder = builder.add_extension(it, critical=True)
    return builder.sign(ED25519, sign(by))


CA = ours.BasicConstraints(True, None)
SIGNS = ours.KeyUsage(key_cert_sign=True, crl_sign=True)
ROOT = made(1, "CN=Root", KEYS[0], "CN=Root", KEYS[0], CA, SIGNS)
AUTHORITY = made(2, "CN=Root", KEYS[0], "CN=Authority", KEYS[1], CA, SIGNS)
LEAF = made(3, "CN=Authority", KEYS[1], "CN=Leaf", KEYS[2])
# the key of the authority signs certificates alone here, and another one its CRLs
SPLIT = made(4, "CN=Root", KEYS[0], "CN=Split", KEYS[1], CA, ours.KeyUsage(key_cert_sign=True))
SPLIT_SIGNER = made(5, "CN=Root", KEYS[0], "CN=Split", KEYS[3], ours.KeyUsage(crl_sign=True))
SPLIT_LEAF = made(6, "CN=Split", KEYS[1], "CN=Leaf", KEYS[2])


def is_good(
    anchor: x509.Certificate, path: list[x509.Certificate], crls: list[x509.CertificateRevocationList], others: list[x509.Certificate], now: datetime.datetime
) -> bool:
    """Whether the path is valid, topmost certificate first, and none of its certificates revoked. Others may sign CRLs too."""
    try:
        valid = x509.validate_path(anchor, path, now)
    except x509.PathFault:
        return False
    statuses = x509.path_revocation_statuses(valid, anchor, crls, now, certificates=others)
    return all(it.is_unrevoked for it in statuses)


class OneCertificate(unittest.TestCase):
    def status(self, *crls: ours.CertificateRevocationList, signer: Any = AUTHORITY, **words: Any) -> ours.RevocationStatus:
        return ours.revocation_status(LEAF, [ours.SignedCrl(it, signer) for it in crls], NOW, verify, **words)

    def test_unrevoked_and_revoked(self) -> None:
        self.assertEqual(self.status(listed(AUTHORITY, KEYS[1])), ours.RevocationStatus(ours.RevocationState.unrevoked))
        self.assertTrue(self.status(listed(AUTHORITY, KEYS[1], 2)).is_unrevoked)
        found = self.status(listed(AUTHORITY, KEYS[1], 2, 3, reason=ours.ReasonFlags.superseded))
        self.assertEqual(found, ours.RevocationStatus(ours.RevocationState.revoked, 0, NOW - HOUR, ours.ReasonFlags.superseded))
        self.assertTrue(found.is_revoked and not found.is_unrevoked)
        self.assertEqual(self.status(listed(AUTHORITY, KEYS[1], 3)).reason, ours.ReasonFlags.unspecified)

    def undetermined(self, found: ours.RevocationStatus) -> None:
        self.assertEqual((found.state, found.crl, found.date, found.reason), (ours.RevocationState.undetermined, None, None, None))
        self.assertEqual(set(found.reasons), ALL)

    def test_undetermined(self) -> None:
        self.undetermined(self.status())
        # another key, another name, not yet and no longer in date, without a next update
        self.undetermined(self.status(listed(AUTHORITY, KEYS[2])))
        self.undetermined(self.status(listed(ROOT, KEYS[1])))
        self.undetermined(self.status(listed(AUTHORITY, KEYS[1]), signer=ROOT))
        self.undetermined(self.status(listed(AUTHORITY, KEYS[1], at=NOW + HOUR)))
        self.undetermined(self.status(listed(AUTHORITY, KEYS[1], at=NOW - 2 * HOUR)))
        lasting = listed(AUTHORITY, KEYS[1], next_update=False)
        self.undetermined(self.status(lasting))
        self.assertTrue(self.status(lasting, without_next_update=True).is_unrevoked)

    def test_the_newest_counts(self) -> None:
        """Of CRLs for one scope under one key the one with the highest number, in whatever order they stand (RFC 5280 5.2.3); so of delta CRLs too."""

        def numbered(number: int, *revoked: int, base: int | None = None, reason: Any = None) -> ours.CertificateRevocationList:
            builder = ours.CertificateRevocationListBuilder().issuer(AUTHORITY).crl_number(number).last_update(NOW).next_update(NOW + HOUR)
            for serial in revoked:
                builder = builder.add_revoked_certificate(ours.RevokedCertificate(serial, NOW - HOUR, reason))
            if base is not None:
                builder = builder.add_extension(ours.DeltaCRLIndicator(base), critical=True)
            return builder.sign(ED25519, sign(KEYS[1]))

        older, newer = numbered(3, 3), numbered(4)
        for crls in ([older, newer], [newer, older]):
            self.assertTrue(self.status(*crls).is_unrevoked)
        adds, removes = numbered(5, 3, base=3), numbered(6, 3, base=3, reason=ours.ReasonFlags.remove_from_crl)
        self.assertTrue(self.status(newer, adds, use_deltas=True).is_revoked)
        for crls in itertools.permutations([older, newer, adds, removes]):
            self.assertTrue(self.status(*crls, use_deltas=True).is_unrevoked)
        again = numbered(7, 3, base=4)
        for crls in itertools.permutations([newer, adds, removes, again]):
            found = self.status(*crls, use_deltas=True)
            self.assertTrue(found.is_revoked and crls[found.crl or 0] is again)
        # one that isn't signed, or not under the same key, takes no place
        for by in (2, 3):
            stranger = listed(AUTHORITY, KEYS[by], at=NOW + datetime.timedelta(0))
            self.assertTrue(self.status(older, stranger).is_revoked)

    def test_faults(self) -> None:
        """Each fault alone, told of the CRL that has it (RFC 5280 5.1 to 5.3, 6.3.3)."""
        good, fault = listed(AUTHORITY, KEYS[1]), ours.CrlFault
        builder = ours.CertificateRevocationListBuilder().issuer(AUTHORITY).crl_number(1).last_update(NOW).next_update(NOW + HOUR)
        unknown = ours.UnrecognizedExtension(ours.ObjectIdentifier("1.2.3"), b"\x05\x00")
        place = ours.DistributionPoint([ours.UniformResourceIdentifier("http://a")], None, None, None)
        authorities = ours.IssuingDistributionPoint(None, None, False, True, None, False, False)
        elsewhere = ours.IssuingDistributionPoint(place.full_name, None, False, False, None, False, False)
        other_issuer = ours.Extensions([ours.Extension(ours.CertificateIssuer.oid, True, ours.CertificateIssuer([ours.DirectoryName(name("CN=Other"))]))])
        rows = {
            None: good,
            fault.not_yet_valid: listed(AUTHORITY, KEYS[1], at=NOW + HOUR),
            fault.expired: listed(AUTHORITY, KEYS[1], at=NOW - 2 * HOUR),
            fault.critical: listed(AUTHORITY, KEYS[1], extensions=[unknown]),
            fault.delta: builder.add_extension(ours.DeltaCRLIndicator(1), critical=True).sign(ED25519, sign(KEYS[1])),
            fault.issuer: listed(ROOT, KEYS[1]),
            fault.scope: listed(AUTHORITY, KEYS[1], extensions=[authorities]),
            fault.point: listed(AUTHORITY, KEYS[1], extensions=[elsewhere]),
            fault.signature: listed(AUTHORITY, KEYS[2]),
            fault.entry: builder.add_revoked_certificate(ours.RevokedCertificate(4, NOW, None, other_issuer)).sign(ED25519, sign(KEYS[1])),
        }
        for wanted, crl in rows.items():
            with self.subTest(wanted):
                self.assertEqual(self.status(crl).faults, (wanted,))
        # all at once
        self.assertEqual(self.status(*rows.values(), use_deltas=True).faults, tuple(rows))
        self.assertEqual(self.status(good, signer=ROOT).faults, (fault.signer,))
        self.assertEqual(self.status().faults, ())
        # the newer one of two for one scope takes the place of the other
        later = listed(AUTHORITY, KEYS[1], at=NOW + datetime.timedelta(seconds=-1))
        self.assertEqual(self.status(later, good).faults, (fault.replaced, None))
        # what isn't accepted has its earlier faults too, and a key that is none signs nothing
        stale = listed(AUTHORITY, KEYS[2], at=NOW - 2 * HOUR)
        self.assertEqual(self.status(stale).faults, (fault.expired,))
        bad = ours.SignedCrl(good, (name("CN=Authority"), b"\x30\x00"))
        self.assertEqual(ours.revocation_status(LEAF, [bad], NOW, verify).faults, (fault.signer,))
        # without a next update
        lasting = listed(AUTHORITY, KEYS[1], next_update=False)
        self.assertEqual(self.status(lasting).faults, (fault.expired,))
        self.assertEqual(self.status(lasting, without_next_update=True).faults, (None,))
        # what is pickled is the status alone
        found = self.status(stale)
        again = pickle.loads(pickle.dumps(found))
        self.assertEqual((again, again.faults), (found, ()))

    def test_some_reasons(self) -> None:
        point = ours.IssuingDistributionPoint(None, None, False, False, [ours.ReasonFlags.key_compromise], False, False)
        some = listed(AUTHORITY, KEYS[1], extensions=[point])
        self.assertEqual(set(self.status(some).reasons), ALL - {"keyCompromise"})
        found = self.status(some, listed(AUTHORITY, KEYS[1], 3))
        self.assertEqual((found.is_revoked, found.crl), (True, 1))

    def test_the_place_is_that_among_all(self) -> None:
        bad, good = listed(AUTHORITY, KEYS[2], 3), listed(AUTHORITY, KEYS[1], 3)
        self.assertEqual(self.status(bad, bad, good).crl, 2)
        self.assertEqual(self.status(bad, good, bad).crl, 1)

    def test_signers(self) -> None:
        crl = listed(AUTHORITY, KEYS[1])
        for signer in (AUTHORITY, (name("CN=Authority"), KEYS[1]), ours.TrustAnchor(AUTHORITY.public_bytes())):
            self.assertTrue(self.status(crl, signer=signer).is_unrevoked)
        self.assertEqual([ours.may_sign_crls(it) for it in (ROOT, LEAF, SPLIT, SPLIT_SIGNER)], [True, True, False, True])

    def test_refusals(self) -> None:
        crl = listed(AUTHORITY, KEYS[1])
        # of a CRL that isn't verified no part is looked at
        bad = ours.SignedCrl(crl, (name("CN=Authority"), b"\x30\x00"))
        self.undetermined(ours.revocation_status(LEAF, [bad], NOW, verify))
        with self.assertRaises(ours.X509Error):
            ours.revocation_status(LEAF, [bad], NOW, lambda *_: True)
        for signer in (None, b"", (name("CN=Authority"),), ("CN=Authority", KEYS[1])):
            with self.subTest(signer), self.assertRaises(TypeError):
                ours.SignedCrl(crl, signer)  # type: ignore[arg-type]
        with self.assertRaises(TypeError):
            ours.SignedCrl(crl.public_bytes(), AUTHORITY)  # type: ignore[arg-type]
        others: list[dict[str, Any]] = [{"crls": [crl]}, {"certificate": LEAF.public_bytes()}, {"without_next_update": 1}, {"use_deltas": 1}, {"moment": 1}]
        for words in others:
            given: dict[str, Any] = {"certificate": LEAF, "crls": [ours.SignedCrl(crl, AUTHORITY)], "moment": NOW, "verify": verify, **words}
            with self.subTest(words), self.assertRaises(TypeError):
                ours.revocation_status(**given)
        with self.assertRaises(ValueError):
            ours.revocation_status(LEAF, [], datetime.datetime(2030, 1, 1))

    def test_entries_say_more(self) -> None:
        extensions = ours.Extensions(
            [
                ours.Extension(ours.InvalidityDate.oid, False, ours.InvalidityDate(NOW - 3 * HOUR)),
                ours.Extension(ours.CertificateIssuer.oid, True, ours.CertificateIssuer([ours.DirectoryName(name("CN=Other"))])),
            ]
        )
        builder = ours.CertificateRevocationListBuilder().issuer(AUTHORITY).crl_number(1).last_update(NOW).next_update(NOW + HOUR)
        crl = builder.add_revoked_certificate(ours.RevokedCertificate(3, NOW, None, extensions)).sign(ED25519, sign(KEYS[1]))
        told = crl[0].extensions
        self.assertEqual(told.get_extension_for_class(ours.InvalidityDate).value.invalidity_date_utc, NOW - 3 * HOUR)
        self.assertEqual(list(told.get_extension_for_class(ours.CertificateIssuer).value), [ours.DirectoryName(name("CN=Other"))])


class Paths(unittest.TestCase):
    def statuses(
        self, path: list[ours.Certificate], crls: Iterable[ours.CertificateRevocationList], *certificates: ours.Certificate, anchor: Any = ROOT
    ) -> list[ours.RevocationStatus]:
        valid = ours.validate_path(anchor, path, NOW, verify)
        return ours.path_revocation_statuses(valid, anchor, crls, NOW, verify, certificates=certificates)

    def states(self, path: list[ours.Certificate], crls: Iterable[ours.CertificateRevocationList], *certificates: ours.Certificate, **words: Any) -> str:
        letters = {ours.RevocationState.unrevoked: "u", ours.RevocationState.revoked: "r", ours.RevocationState.undetermined: "?"}
        return "".join(letters[it.state] for it in self.statuses(path, crls, *certificates, **words))

    def test_each_by_its_issuer(self) -> None:
        path = [AUTHORITY, LEAF]
        of_root, of_authority = listed(ROOT, KEYS[0]), listed(AUTHORITY, KEYS[1])
        self.assertEqual(self.states(path, [of_root, of_authority]), "uu")
        self.assertEqual(self.states(path, [of_authority, of_root]), "uu")
        self.assertEqual(self.states(path, [of_root]), "u?")
        self.assertEqual(self.states(path, [of_authority]), "?u")
        self.assertEqual(self.states(path, []), "??")
        self.assertEqual(self.states(path, [listed(ROOT, KEYS[0], 2), of_authority]), "ru")
        # a serial number of another issuer's
        self.assertEqual(self.states(path, [listed(ROOT, KEYS[0], 3), listed(AUTHORITY, KEYS[1], 2)]), "uu")
        self.assertEqual(self.states(path, [of_root, listed(AUTHORITY, KEYS[1], 3)]), "ur")
        self.assertEqual(self.states(path, [listed(ROOT, KEYS[1]), listed(AUTHORITY, KEYS[0])]), "??")
        self.assertEqual(self.states(path, [of_root, of_authority], anchor=(name("CN=Root"), KEYS[0])), "uu")

    def test_faults(self) -> None:
        """Of each certificate those of all CRLs; of a CRL of which no signer counts too."""
        fault = ours.CrlFault
        of_root, of_authority, stale = listed(ROOT, KEYS[0]), listed(AUTHORITY, KEYS[1]), listed(ROOT, KEYS[0], at=NOW - 2 * HOUR)
        crls = [of_root, of_authority, stale, listed(ROOT, KEYS[1]), listed(SPLIT_SIGNER, KEYS[3])]
        found = [it.faults for it in self.statuses([AUTHORITY, LEAF], crls)]
        self.assertEqual(found[0], (None, fault.issuer, fault.expired, fault.signature, fault.issuer))
        self.assertEqual(found[1], (fault.issuer, None, fault.expired, fault.issuer, fault.issuer))
        # a signer that isn't given, one that is, and one that is revoked
        path, of_split = [SPLIT, SPLIT_LEAF], listed(SPLIT_SIGNER, KEYS[3])
        self.assertEqual(self.statuses(path, [of_root, of_split])[1].faults, (fault.issuer, fault.signer))
        self.assertEqual(self.statuses(path, [of_root, of_split], SPLIT_SIGNER)[1].faults, (fault.issuer, None))
        self.assertEqual(self.statuses(path, [listed(ROOT, KEYS[0], 5), of_split], SPLIT_SIGNER)[1].faults, (fault.issuer, fault.signer))

    def test_the_latest_is_asked_first(self) -> None:
        older, newer = listed(AUTHORITY, KEYS[1], 3, at=NOW - HOUR / 2), listed(AUTHORITY, KEYS[1])
        for crls in ([older, newer], [newer, older]):
            self.assertTrue(self.statuses([AUTHORITY, LEAF], crls)[1].is_unrevoked)
        found = self.statuses([AUTHORITY, LEAF], [listed(AUTHORITY, KEYS[1], at=NOW - HOUR / 2), listed(ROOT, KEYS[0]), listed(AUTHORITY, KEYS[1], 3)])
        self.assertEqual((found[1].is_revoked, found[1].crl), (True, 2))

    def test_a_further_certificate_signs(self) -> None:
        path = [SPLIT, SPLIT_LEAF]
        of_root, of_split = listed(ROOT, KEYS[0]), listed(SPLIT_SIGNER, KEYS[3])
        self.assertEqual(self.states(path, [of_root, of_split], SPLIT_SIGNER), "uu")
        self.assertEqual(self.states(path, [of_root, of_split]), "u?")
        # it has to be unrevoked, which a CRL of the root says
        self.assertEqual(self.states(path, [of_split], SPLIT_SIGNER), "??")
        self.assertEqual(self.states(path, [listed(ROOT, KEYS[0], 5), of_split], SPLIT_SIGNER), "u?")
        # the key that signs certificates may not sign CRLs
        self.assertEqual(self.states(path, [of_root, listed(SPLIT, KEYS[1])], SPLIT_SIGNER), "u?")
        # a signer of another root, and one of a certificate that is no authority
        stranger = made(5, "CN=Root", KEYS[5], "CN=Split", KEYS[3], ours.KeyUsage(crl_sign=True))
        below = made(5, "CN=Leaf", KEYS[2], "CN=Split", KEYS[3], ours.KeyUsage(crl_sign=True))
        self.assertEqual(self.states(path, [of_root, of_split], stranger), "u?")
        self.assertEqual(self.states(path, [of_root, of_split], below), "u?")
        self.assertEqual(self.states(path, [of_root, of_split], stranger, below, SPLIT_SIGNER), "uu")

    def test_a_signer_of_its_own_status(self) -> None:
        # the authority gives the signer of its CRLs a certificate, whose status these CRLs tell
        own = made(7, "CN=Split", KEYS[1], "CN=Split", KEYS[3], ours.KeyUsage(crl_sign=True))
        path, of_root = [SPLIT, SPLIT_LEAF], listed(ROOT, KEYS[0])
        self.assertEqual(self.states(path, [of_root, listed(own, KEYS[3])], own), "uu")
        self.assertEqual(self.states(path, [of_root, listed(own, KEYS[3], 6)], own), "ur")
        self.assertEqual(self.states(path, [of_root, listed(own, KEYS[3], 7)], own), "u?")

    def test_signers_of_each_others_status(self) -> None:
        one = made(8, "CN=Split", KEYS[1], "CN=Split", KEYS[3], ours.KeyUsage(crl_sign=True))
        two = made(9, "CN=Split", KEYS[1], "CN=Split", KEYS[4], ours.KeyUsage(crl_sign=True))
        users = ours.IssuingDistributionPoint(None, None, False, False, [ours.ReasonFlags.key_compromise], False, False)
        others = ours.IssuingDistributionPoint(None, None, False, False, [ours.ReasonFlags(it) for it in sorted(ALL - {"keyCompromise"})], False, False)
        halves = [listed(one, KEYS[3], extensions=[users]), listed(two, KEYS[4], extensions=[others])]
        self.assertEqual(self.states([SPLIT, SPLIT_LEAF], [listed(ROOT, KEYS[0]), *halves], one, two), "u?")

    def test_signers_in_a_circle(self) -> None:
        # a signer whose status its own CRL tells, and one below it that is told by the first alone: each is asked for the CRL of the other
        top = made(8, "CN=Root", KEYS[0], "CN=Root", KEYS[3], ours.KeyUsage(crl_sign=True))
        below = made(9, "CN=Root", KEYS[0], "CN=Split", KEYS[4], ours.KeyUsage(crl_sign=True))
        path, of_split = [SPLIT, SPLIT_LEAF], listed(below, KEYS[4])
        for revoked, states in (((), "uu"), ((4,), "ru"), ((9,), "u?"), ((8,), "??")):
            of_top = listed(top, KEYS[3], *revoked)
            for crls in ([of_top, of_split], [of_split, of_top]):
                for others in ([top, below], [below, top]):
                    with self.subTest(revoked=revoked, first=crls[0] is of_top, top=others[0] is top):
                        self.assertEqual(self.states(path, crls, *others), states)
        of_top, revokes = listed(top, KEYS[3]), listed(below, KEYS[4], 6)
        for crls in ([of_top, revokes], [revokes, of_top]):
            self.assertEqual(self.states(path, crls, top, below), "ur")

    def test_many_certificates_end(self) -> None:
        crowd = [made(20 + n, "CN=Crowd", KEYS[3], "CN=Crowd", KEYS[3], CA, ours.KeyUsage(key_cert_sign=True, crl_sign=n % 2 == 0)) for n in range(12)]
        crowd += [made(40 + n, "CN=Crowd", KEYS[3], "CN=Split", KEYS[3], ours.KeyUsage(crl_sign=True)) for n in range(3)]
        self.assertEqual(self.states([SPLIT, SPLIT_LEAF], [listed(ROOT, KEYS[0]), listed(SPLIT_SIGNER, KEYS[3])], *crowd), "u?")

    def test_refusals(self) -> None:
        valid = ours.validate_path(ROOT, [AUTHORITY, LEAF], NOW, verify)
        for given in ((LEAF, ROOT, [], NOW), (valid, ROOT.public_bytes(), [], NOW), (valid, ROOT, [LEAF], NOW), (valid, ROOT, [], 1)):
            with self.subTest(given), self.assertRaises(TypeError):
                ours.path_revocation_statuses(*given)  # type: ignore[arg-type]
        with self.assertRaises(TypeError):
            ours.path_revocation_statuses(valid, ROOT, [], NOW, certificates=[LEAF.public_bytes()])  # type: ignore[list-item]


@unittest.skipIf(theirs is None, "cryptography isn't installed")
class SignedByCryptography(unittest.TestCase):
    def authority(self, issuer: str, subject: str, key: Any, by: Any, serial: int) -> Any:
        text = theirs.Name.from_rfc4514_string
        builder = theirs.CertificateBuilder().issuer_name(text(issuer)).subject_name(text(subject)).public_key(key.public_key()).serial_number(serial)
        builder = builder.not_valid_before(NOW - HOUR).not_valid_after(NOW + HOUR)
        return builder.add_extension(theirs.BasicConstraints(True, None), critical=True).sign(by, hashes.SHA256())

    def crl(self, issuer: str, key: Any, *serials: int) -> ours.CertificateRevocationList:
        builder = theirs.CertificateRevocationListBuilder().issuer_name(theirs.Name.from_rfc4514_string(issuer)).last_update(NOW).next_update(NOW + HOUR)
        for serial in serials:
            builder = builder.add_revoked_certificate(theirs.RevokedCertificateBuilder().serial_number(serial).revocation_date(NOW).build())
        return ours.load_der_x509_crl(builder.sign(key, hashes.SHA256()).public_bytes(serialization.Encoding.DER))

    def test_a_path(self) -> None:
        keys = [ec.generate_private_key(ec.SECP256R1()) for _ in range(3)]
        rows = [("CN=R", "CN=R", 0, 0), ("CN=R", "CN=A", 1, 0), ("CN=A", "CN=S", 2, 1)]
        made = [self.authority(issuer, subject, keys[own], keys[by], own + 1) for issuer, subject, own, by in rows]
        root, *path = [ours.load_der_x509_certificate(it.public_bytes(serialization.Encoding.DER)) for it in made]
        good = [self.crl("CN=R", keys[0]), self.crl("CN=A", keys[1])]
        self.assertTrue(is_good(root, path, good, [], NOW))
        self.assertFalse(is_good(root, path, good[:1], [], NOW))
        self.assertFalse(is_good(root, path, [good[0], self.crl("CN=A", keys[1], 3)], [], NOW))
        self.assertFalse(is_good(root, path, [good[0], self.crl("CN=A", keys[0])], [], NOW))
        self.assertFalse(is_good(root, path[::-1], good, [], NOW))
        found = ours.revocation_status(path[1], [ours.SignedCrl(good[1], path[0])], NOW)
        self.assertTrue(found.is_unrevoked)


@unittest.skipIf(theirs is None, "cryptography isn't installed")
class KeysOfPss(unittest.TestCase):
    """A key of RSASSA-PSS with parameters verifies signatures by its hash and its mask alone, with a salt that isn't shorter (RFC 4055 1.2, 3.3)."""

    def setUp(self) -> None:
        self.key = rsa.generate_private_key(65537, 1024)

    def signed(self, hashed: Any, salt: int) -> tuple[bytes, Any]:
        """The algorithm, and what signs so."""
        pad = padding.PSS(padding.MGF1(hashed), salt)
        request = theirs.CertificateSigningRequestBuilder().subject_name(theirs.Name([])).sign(self.key, hashed, rsa_padding=pad)
        der = request.public_bytes(serialization.Encoding.DER)
        return ours.load_der_x509_csr(der).signature_algorithm_bytes, lambda part: self.key.sign(part, pad, hashed)

    def info(self, algorithm: bytes) -> bytes:
        """The SubjectPublicKeyInfo of the key with that algorithm."""
        plain = self.key.public_key().public_bytes(serialization.Encoding.DER, serialization.PublicFormat.SubjectPublicKeyInfo)
        bits = b"\x00" + ours.PublicKey(plain).bits
        content = algorithm + b"\x03\x81" + bytes([len(bits)]) + bits
        return b"\x30\x81" + bytes([len(content)]) + content if len(content) < 256 else b"\x30\x82" + len(content).to_bytes(2, "big") + content

    def is_valid(self, key: bytes, hashed: Any, salt: int) -> bool:
        algorithm, signer = self.signed(hashed, salt)
        builder = ours.CertificateBuilder().serial_number(2).issuer_name(name("CN=Root")).subject_name(name("CN=Leaf")).public_key(KEYS[2])
        leaf = builder.not_valid_before(NOW - HOUR).not_valid_after(NOW + HOUR).sign(algorithm, signer)
        try:
            ours.validate_path((name("CN=Root"), key), [leaf], NOW)
        except ours.PathFault:
            return False
        return True

    def test_parameters_of_keys(self) -> None:
        sha256, sha384 = hashes.SHA256(), hashes.SHA384()
        of_key = self.info(self.signed(sha256, 32)[0])
        self.assertTrue(self.is_valid(of_key, sha256, 32))
        self.assertTrue(self.is_valid(of_key, sha256, 40))
        self.assertFalse(self.is_valid(of_key, sha256, 20))
        self.assertFalse(self.is_valid(of_key, sha384, 48))
        # a key without parameters, and one of RSA, ask for none
        for open_key in (self.info(bytes.fromhex("300b06092a864886f70d01010a")), self.info(bytes.fromhex("300d06092a864886f70d0101010500"))):
            self.assertTrue(self.is_valid(open_key, sha256, 20))
            self.assertTrue(self.is_valid(open_key, sha384, 48))


if __name__ == "__main__":
    unittest.main()
