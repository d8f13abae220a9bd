"""The further extensions and the qualifiers of policies: by the bytes that the standards give, and beside `cryptography` where that has them.

usage: X509_LIBRARY=.../libx509.so PYTHONPATH=bindings/python/src python3 -m unittest discover -s bindings/python/tests
"""

from __future__ import annotations

import datetime
import glob
import unittest
import warnings
from typing import Any

import x509_cert as ours

try:
    from cryptography import x509 as theirs
except ImportError:  # the tests that ask it are left out then
    theirs = None  # type: ignore[assignment]

UTC = datetime.timezone.utc
NOW, THEN = datetime.datetime(2030, 1, 2, 3, 4, 5, tzinfo=UTC), datetime.datetime(2051, 6, 7, 8, 9, 10, tzinfo=UTC)
OID, OTHER_OID = ours.ObjectIdentifier("1.2.3"), ours.ObjectIdentifier("1.2.4")
# 20300102030405Z and 20510607080910Z, the content octets of a GeneralizedTime (RFC 5280 4.1.2.5.2)
NOW_TEXT, THEN_TEXT = b"20300102030405Z", b"20510607080910Z"


def hexed(text: str) -> bytes:
    return bytes.fromhex(text)


def naive(moment: datetime.datetime | None) -> datetime.datetime | None:
    return None if moment is None else moment.astimezone(UTC).replace(tzinfo=None)


class Extensions(unittest.TestCase):
    def holds(self, made: ours.ExtensionType, data: bytes) -> None:
        """What was made of values is these bytes, and these bytes are read as it, alone and as an extension."""
        self.assertEqual(made.data, data)
        self.assertEqual(type(made).from_der(data), made)
        self.assertEqual(vars(type(made).from_der(data)), vars(made))
        value = ours.Extension(made.oid, False, data).value
        self.assertIs(type(value), type(made))

    def refuses(self, kind: type[ours.ExtensionType], *data: str) -> None:
        for it in data:
            with self.subTest(kind.__name__, data=it), self.assertRaises(ours.X509Error):
                kind.from_der(hexed(it))

    def test_marks(self) -> None:
        for kind, oid in ((ours.PrecertPoison, "1.3.6.1.4.1.11129.2.4.3"), (ours.OCSPNoCheck, "1.3.6.1.5.5.7.48.1.5")):
            self.holds(kind(), b"\x05\x00")
            self.assertEqual(kind.oid.dotted_string, oid)
            self.refuses(kind, "", "05", "0500" "00", "05000500", "0501" "00", "3000", "0400", "058100")
        self.assertNotEqual(ours.PrecertPoison(), ours.OCSPNoCheck())

    def test_features(self) -> None:
        # RFC 7633 6: 30 03 02 01 05, that of status_request
        status, several = ours.TLSFeatureType.status_request, ours.TLSFeatureType.status_request_v2
        self.holds(ours.TLSFeature([status]), hexed("3003020105"))
        self.holds(ours.TLSFeature([status, several]), hexed("3006020105020111"))
        self.holds(ours.TLSFeature([status, 23]), hexed("3006020105020117"))
        self.assertEqual(ours.TLSFeature([5]), ours.TLSFeature([status]))
        self.assertEqual(list(ours.TLSFeature([5, 23])), [status, 23])
        self.refuses(ours.TLSFeature, "", "3003020105" "00", "0500", "30030201", "300402020005", "3003040105", "3003020105020111", "3080020105" "0000")
        for bad in ([], [True], ["5"], [5.0], [None], 5, [[5]]):
            with self.assertRaises((TypeError, ValueError)):
                ours.TLSFeature(bad)

    def test_periods(self) -> None:
        # RFC 3280 4.2.1.4: the moments under the tags [0] and [1]
        for first, last, data in (
            (NOW, THEN, b"\x30\x22\x80\x0f" + NOW_TEXT + b"\x81\x0f" + THEN_TEXT),
            (NOW, None, b"\x30\x11\x80\x0f" + NOW_TEXT),
            (None, THEN, b"\x30\x11\x81\x0f" + THEN_TEXT),
            (NOW, NOW, b"\x30\x22\x80\x0f" + NOW_TEXT + b"\x81\x0f" + NOW_TEXT),
        ):
            made = ours.PrivateKeyUsagePeriod(first, last)
            self.holds(made, data)
            self.assertEqual((made.not_before, made.not_after), (first, last))
            zone = datetime.timezone(datetime.timedelta(hours=-5))
            moved = [None if it is None else it.astimezone(zone) for it in (first, last)]
            self.assertEqual(ours.PrivateKeyUsagePeriod(*moved), made)
            if theirs is not None:
                their = theirs.PrivateKeyUsagePeriod(naive(first), naive(last))
                self.assertEqual(made.public_bytes(), their.public_bytes())
        time = NOW_TEXT.hex()
        self.refuses(ours.PrivateKeyUsagePeriod, "", "0500", "3011820f" + time, f"3022810f{time}800f{time}", f"3022800f{time}800f{time}")
        self.refuses(ours.PrivateKeyUsagePeriod, "3011180f" + time, "3010800e" + time[:28], "3011800f" + time.replace("5a", "30"), f"3011800f{time}00")
        for bad in ((None, None), (THEN, NOW), (naive(NOW), None), (NOW.replace(microsecond=1), None), ("2030", None), (None, 5)):
            with self.subTest(bad), self.assertRaises((TypeError, ValueError)):
                ours.PrivateKeyUsagePeriod(*bad)

    def test_invalidity_dates(self) -> None:
        for moment, text in ((NOW, NOW_TEXT), (THEN, THEN_TEXT), (datetime.datetime(9999, 12, 31, 23, 59, 59, tzinfo=UTC), b"99991231235959Z")):
            made = ours.InvalidityDate(moment)
            self.holds(made, b"\x18\x0f" + text)
            self.assertEqual((made.invalidity_date_utc, made.invalidity_date), (moment, naive(moment)))
            if theirs is not None:
                their = theirs.InvalidityDate(naive(moment))
                self.assertEqual((made.public_bytes(), made.invalidity_date_utc), (their.public_bytes(), their.invalidity_date_utc))
        # a UTCTime, fractions, a zone, no seconds, and a month that there isn't (RFC 5280 4.1.2.5.2)
        self.refuses(
            ours.InvalidityDate, "", "0500", "170d" + b"300102030405Z".hex(), "1811" + b"20300102030405.5Z".hex(), "1813" + b"20300102030405+0100".hex()
        )
        self.refuses(ours.InvalidityDate, "180d" + b"203001020304Z".hex(), "180f" + b"20301302030405Z".hex(), "180f" + b"20300102030405Z".hex() + "00")
        late = datetime.datetime(9999, 12, 31, 23, tzinfo=datetime.timezone(datetime.timedelta(hours=-2)))
        for bad in (None, "2030", naive(NOW), NOW.replace(microsecond=1), late, datetime.datetime(1969, 12, 31, tzinfo=UTC)):
            with self.subTest(bad), self.assertRaises((TypeError, ValueError)):
                ours.InvalidityDate(bad)

    def test_issuers(self) -> None:
        names = [ours.DirectoryName(ours.Name.from_rfc4514_string("CN=a"))]
        self.holds(ours.CertificateIssuer(names), hexed("3010a40e300c310a300806035504030c0161"))
        made = ours.CertificateIssuer([*names, ours.DNSName("a")])
        self.assertEqual(made.get_values_for_type(ours.DNSName), ["a"])
        self.refuses(ours.CertificateIssuer, "", "0500", "30038201", "3002" "8300")
        if theirs is not None:
            their = [theirs.DirectoryName(theirs.Name.from_rfc4514_string("CN=a")), theirs.DNSName("a")]
            self.assertEqual(made.public_bytes(), theirs.CertificateIssuer(their).public_bytes())

    def test_issued_entries(self) -> None:
        """The entries 5, 6 and 7 of a CRL of CN=a by hand (RFC 5280 5.3.3), of which 6 names the issuer with the DNS name a; and a CRL of v1 without a list."""
        front, behind = "020101300306012a300c310a300806035504030c0161170d" + b"700101000001Z".hex(), "300306012a030204f0"
        date = "170d" + b"260101000000Z".hex()
        issuer = "3011300f0603551d1d0101ff04053003820161"
        entries = f"304f3012020105{date}3025020106{date}{issuer}3012020107{date}"
        crl = ours.load_der_x509_crl(hexed(f"3081813076{front}{entries}{behind}"))
        issued = list(crl.issued_entries())
        self.assertEqual([(it.serial_number, names) for it, names in issued], [(5, None), (6, ours.CertificateIssuer([ours.DNSName("a")])), (7, issued[1][1])])
        self.assertEqual([it.revocation_date_utc.year for it, _ in issued], [2026] * 3)
        for number in (5, 6, 7):
            found = crl.get_revoked_certificate_by_serial_number(number)
            assert found is not None
            self.assertEqual((found.serial_number, len(list(found.extensions))), (number, int(number == 6)))
        self.assertIsNone(crl.get_revoked_certificate_by_serial_number(8))
        # twice in one entry (5.3): the entry is refused, and those in front of it aren't
        twice = "3022" + issuer[4:] * 2
        crl = ours.load_der_x509_crl(hexed(f"307e3073{front}304c3012020105{date}3036020106{date}{twice}{behind}"))
        walk = crl.issued_entries()
        self.assertEqual(next(walk)[0].serial_number, 5)
        with self.assertRaises(ours.X509Error):
            next(walk)
        empty = ours.load_der_x509_crl(hexed(f"302d3022{front[6:]}{behind}"))
        self.assertEqual((list(empty.issued_entries()), empty.get_revoked_certificate_by_serial_number(5)), ([], None))

    def test_entries_by_their_numbers(self) -> None:
        """The first of several with one number: of a CRL of v1 of CN=a by hand (RFC 5280 5.1) with the entries 5, 600, 5 and 6, each of a day of its own."""
        dates = ["170d" + f"26010{day}000000Z".encode().hex() for day in (1, 2, 3, 4)]
        entries = f"3012020105{dates[0]}301302020258{dates[1]}3012020105{dates[2]}3012020106{dates[3]}"
        front, behind = "300306012a300c310a300806035504030c0161170d" + b"700101000001Z".hex(), "300306012a030204f0"
        crl = ours.load_der_x509_crl(hexed(f"3081803075{front}3051{entries}{behind}"))
        found = {number: crl.get_revoked_certificate_by_serial_number(number) for number in (5, 6, 600, 0, 1, 7, 601, 2**80)}
        self.assertEqual({number: it.revocation_date_utc.day for number, it in found.items() if it is not None}, {5: 1, 6: 4, 600: 2})

    def test_directory_attributes(self) -> None:
        # RFC 3739 3.2.2: the country of citizenship DE, and the gender M
        citizenship, gender = ours.ObjectIdentifier("1.3.6.1.5.5.7.9.4"), ours.ObjectIdentifier("1.3.6.1.5.5.7.9.3")
        one = ours.DirectoryAttribute(citizenship, [b"\x13\x02DE"])
        one_data = "301006082b060105050709043104" + "13024445"
        self.holds(ours.SubjectDirectoryAttributes([one]), hexed("3012" + one_data))
        other = ours.DirectoryAttribute(gender, [b"\x13\x01M"])
        self.holds(ours.SubjectDirectoryAttributes([one, other]), hexed("3023" + one_data + "300f06082b06010505070903310313014d"))
        # the values of an attribute are a set, whose members stand in the order of their encodings (X.690 11.6)
        several = ours.DirectoryAttribute(citizenship, [b"\x13\x02US", b"\x13\x02DE"])
        self.assertEqual(several, ours.DirectoryAttribute(citizenship, [b"\x13\x02DE", b"\x13\x02US"]))
        self.holds(ours.SubjectDirectoryAttributes([several]), hexed("3016301406082b060105050709043108" "13024445" "13025553"))
        self.refuses(ours.SubjectDirectoryAttributes, "", "0500", "3002" "0500", "3016301406082b060105050709043108" "13025553" "13024445")
        for bad in ([], [one.values], 5, [None]):
            with self.assertRaises((TypeError, ValueError)):
                ours.SubjectDirectoryAttributes(bad)
        for values in ([], b"\x05\x00", [5], None, ["a"]):
            with self.assertRaises((TypeError, ValueError)):
                ours.DirectoryAttribute(OID, values)
        with self.assertRaises(ours.X509Error):
            ours.SubjectDirectoryAttributes([ours.DirectoryAttribute(OID, [b"\x05"])])

    def test_entries(self) -> None:
        """Of entries of a CRL: what their extensions hold is read."""
        issuer = ours.CertificateBuilder().serial_number(5).issuer_name(ours.Name([])).subject_name(ours.Name([]))
        issuer = issuer.public_key(hexed("302a300506032b6570032100") + bytes(32)).not_valid_before(NOW).not_valid_after(NOW)
        signed = issuer.sign(ours.SignatureAlgorithm.ED25519, lambda part: bytes(64))
        held = [ours.InvalidityDate(NOW), ours.CertificateIssuer([ours.DNSName("a")]), ours.CRLReason(ours.ReasonFlags.superseded)]
        entry = ours.RevokedCertificateBuilder().serial_number(3).revocation_date(THEN)
        for it in held:
            entry = entry.add_extension(it, critical=isinstance(it, ours.CertificateIssuer))
        builder = ours.CertificateRevocationListBuilder().issuer(signed).crl_number(1).last_update(NOW)
        (read,) = builder.add_revoked_certificate(entry.build()).sign(ours.SignatureAlgorithm.ED25519, lambda part: bytes(64))
        self.assertEqual((read.serial_number, read.revocation_date_utc, read.reason), (3, THEN, ours.ReasonFlags.superseded))
        self.assertEqual([it.value for it in read.extensions], held)
        self.assertEqual([it.critical for it in read.extensions], [False, True, False])
        self.assertEqual(read.extensions.get_extension_for_class(ours.InvalidityDate).value.invalidity_date_utc, NOW)
        for refused in (
            lambda: entry.serial_number(4),
            lambda: entry.revocation_date(NOW),
            lambda: entry.add_extension(held[0], critical=False),
            lambda: ours.RevokedCertificateBuilder().build(),
            lambda: ours.RevokedCertificateBuilder().serial_number(4).build(),
            lambda: ours.RevokedCertificateBuilder().revocation_date(NOW).build(),
        ):
            with self.assertRaises(ValueError):
                refused()


class Spoilt(unittest.TestCase):
    """Of bad bytes each of the types says X509Error, and nothing else, and each value that is read is written as the same bytes."""

    def test_cut_and_changed(self) -> None:
        names = [ours.DirectoryName(ours.Name.from_rfc4514_string("CN=a")), ours.DNSName("a")]
        notice = ours.UserNotice(ours.NoticeReference("Org", [1, 300]), "text")
        count = 0
        for made in (
            ours.TLSFeature([5, 17, 65535]),
            ours.PrivateKeyUsagePeriod(NOW, THEN),
            ours.InvalidityDate(NOW),
            ours.CertificateIssuer(names),
            ours.SubjectDirectoryAttributes([ours.DirectoryAttribute(OID, [b"\x05\x00", b"\x0c\x01a"]), ours.DirectoryAttribute(OTHER_OID, [b"\x05\x00"])]),
            ours.CertificatePolicies([ours.PolicyInformation(OID, ["https://a.example", notice])]),
            ours.OCSPNoCheck(),
        ):
            kind, data = type(made), made.data
            for at in range(len(data)):
                with self.assertRaises(ours.X509Error):
                    kind.from_der(data[:at])
                for octet in {0x00, 0x01, 0x05, 0x18, 0x30, 0x7F, 0x80, 0x81, 0xA0, 0xFF, data[at] ^ 1, data[at] ^ 0x20} - {data[at]}:
                    changed = data[:at] + bytes([octet]) + data[at + 1 :]
                    try:
                        found = kind.from_der(changed)
                    except ours.X509Error:
                        continue
                    self.assertEqual(found.public_bytes(), changed)
                    repr(found), hash(found), [hash(it) for it in found if isinstance(found, ours.CertificatePolicies)] if hasattr(found, "__iter__") else None
                    count += 1
        self.assertGreater(count, 100)


class Policies(unittest.TestCase):
    def read(self, *qualifiers: Any) -> list[ours.PolicyQualifier]:
        """What is read of the qualifiers of a policy that were written."""
        (policy,) = ours.CertificatePolicies.from_der(ours.CertificatePolicies([ours.PolicyInformation(OID, list(qualifiers))]).data)
        found = policy.policy_qualifiers
        assert found is not None
        return found

    def test_pointers(self) -> None:
        address = "https://example.org/cps"
        # RFC 5280 4.2.1.4: id-qt-cps with an IA5String
        plain = ours.PolicyQualifier(ours.CertificatePoliciesOID.CPS_QUALIFIER, bytes([0x16, len(address)]) + address.encode())
        for given in (address, ours.CPSPointer(address), plain):
            (found,) = self.read(given)
            self.assertIsInstance(found, ours.CPSPointer)
            self.assertIsInstance(found, str)
            self.assertEqual((found, address, found.oid, found.data), (address, found, plain.oid, plain.data))
            self.assertEqual((found, plain, hash(found), hash(address)), (plain, found, hash(plain), hash(found)))
            self.assertEqual(found + "x", address + "x")
            self.assertNotEqual(found, address + "x")
            self.assertNotEqual(found, ours.PolicyQualifier(OID, plain.data))
        for bad in ("", "a", ":a", "https://ö.example", 5, b"https://a"):
            with self.subTest(bad), self.assertRaises((TypeError, ValueError)):
                ours.PolicyInformation(OID, [bad])
        for bad in ("https://a.example", b"ab", 5, [None]):
            with self.subTest(bad), self.assertRaises((TypeError, ValueError)):
                ours.PolicyInformation(OID, bad)

    def test_notices(self) -> None:
        reference = ours.NoticeReference("Org", [1, 300])
        # by hand: SEQUENCE { SEQUENCE { UTF8String Org, SEQUENCE { 1, 300 } }, UTF8String text }
        refers, says = "300e" "0c034f7267" "3007" "020101" "0202012c", "0c0474657874"
        for made, data in (
            (ours.UserNotice(reference, "text"), "3016" + refers + says),
            (ours.UserNotice(reference, None), "3010" + refers),
            (ours.UserNotice(None, "text"), "3006" + says),
            (ours.UserNotice(None, None), "3000"),
        ):
            self.assertEqual((made.oid, made.data), (ours.CertificatePoliciesOID.CPS_USER_NOTICE, hexed(data)))
            for given in (made, ours.PolicyQualifier(made.oid, made.data)):
                (found,) = self.read(given)
                self.assertIsInstance(found, ours.UserNotice)
                self.assertEqual((found.notice_reference, found.explicit_text), (made.notice_reference, made.explicit_text))
                self.assertEqual((found, hash(found)), (given, hash(given)))
        self.assertEqual((reference, hash(reference)), (ours.NoticeReference("Org", [1, 300]), hash(ours.NoticeReference("Org", iter([1, 300])))))
        self.assertNotEqual(reference, ours.NoticeReference("Org", [1]))

    def test_strings_of_notices(self) -> None:
        """Each of the types of a DisplayText (RFC 5280 4.2.1.4) is read as its text."""
        for data, text in (
            (b"\x0c\x02\xc3\xb6", "ö"),
            (b"\x16\x01a", "a"),
            (b"\x1a\x01b", "b"),
            (b"\x1e\x04\x00a\x00\xf6", "aö"),
        ):
            notice = b"\x30" + bytes([len(data)]) + data
            (found,) = self.read(ours.PolicyQualifier(ours.CertificatePoliciesOID.CPS_USER_NOTICE, notice))
            self.assertIsInstance(found, ours.UserNotice)
            self.assertEqual((found.explicit_text, found.data), (text, notice))

    def test_what_cannot_be_read(self) -> None:
        """A qualifier whose octets aren't of its type, or of another type, stays what it is."""
        notice, pointer = ours.CertificatePoliciesOID.CPS_USER_NOTICE, ours.CertificatePoliciesOID.CPS_QUALIFIER
        for oid, data in (
            (pointer, b"\x0c\x01a"),
            (pointer, b"\x16\x01\xff"),
            (pointer, b"\x05\x00"),
            (pointer, None),
            (notice, b"\x05\x00"),
            (notice, b"\x30\x03\x13\x01a"),
            (notice, b"\x30\x03\x1e\x01a"),
            (notice, b"\x30\x04\x1e\x02\xd8\x00"),
            (notice, b"\x30\x06\x0c\x01a\x0c\x01b"),
            (notice, None),
            (OID, b"\x16\x01a"),
        ):
            with self.subTest(oid, data=data):
                given = ours.PolicyQualifier(oid, data)
                (found,) = self.read(given)
                self.assertIs(type(found), ours.PolicyQualifier)
                self.assertEqual((found, hash(found)), (given, hash(given)))

    def test_refused(self) -> None:
        for made in (
            lambda: ours.UserNotice("a", None),
            lambda: ours.UserNotice(None, 5),
            lambda: ours.UserNotice(None, ""),
            lambda: ours.UserNotice(None, "a" * 201),
            lambda: ours.UserNotice(None, "\ud800"),
            lambda: ours.NoticeReference(None, []),
            lambda: ours.NoticeReference("", [1]),
            lambda: ours.NoticeReference("a" * 201, [1]),
            lambda: ours.UserNotice(ours.NoticeReference("a", [-1]), None),
            lambda: ours.NoticeReference("a", 5),
            lambda: ours.NoticeReference("a", [True]),
            lambda: ours.NoticeReference("a", ["1"]),
        ):
            with self.assertRaises((TypeError, ValueError)):
                made()
        self.assertEqual(ours.UserNotice(None, "a" * 200).explicit_text, "a" * 200)

    @unittest.skipIf(theirs is None, "cryptography isn't installed")
    def test_cryptography(self) -> None:
        for texts in (["https://a.example/"], ["https://a.example/", "urn:b"], []):
            for notice in ((None, "text"), (("Org", [1, 2, 300]), None), (("Örg", []), "ö"), None):
                made = []
                for x509 in (ours, theirs):
                    held: list[Any] = list(texts)
                    if notice is not None:
                        held.append(x509.UserNotice(None if notice[0] is None else x509.NoticeReference(*notice[0]), notice[1]))
                    oids = [x509.ObjectIdentifier(it) for it in ("1.2.3", "2.5.29.32.0")]
                    made.append(x509.CertificatePolicies([x509.PolicyInformation(oids[0], held or None), x509.PolicyInformation(oids[1], None)]))
                our, their = made
                self.assertEqual(our.public_bytes(), their.public_bytes())
                for one, other in zip(ours.CertificatePolicies.from_der(our.data), their):
                    self.assertEqual(one.policy_identifier.dotted_string, other.policy_identifier.dotted_string)
                    for mine, its in zip(one.policy_qualifiers or (), other.policy_qualifiers or (), strict=True):
                        self.same(mine, its)

    @unittest.skipIf(theirs is None or not glob.glob("/etc/ssl/certs/*.pem"), "cryptography isn't installed, or the system has no store of certificates")
    def test_store(self) -> None:
        """The qualifiers in the system's store."""
        count = 0
        for file in sorted(glob.glob("/etc/ssl/certs/*.pem")):
            with open(file, "rb") as it, warnings.catch_warnings():
                warnings.simplefilter("ignore")
                data = it.read()
                extensions = theirs.load_pem_x509_certificate(data).extensions
            try:
                their = extensions.get_extension_for_class(theirs.CertificatePolicies).value
            except theirs.ExtensionNotFound:
                continue
            our = ours.load_pem_x509_certificate(data).extensions.get_extension_for_class(ours.CertificatePolicies).value
            for one, other in zip(our, their, strict=True):
                self.assertEqual(one.policy_qualifiers is None, other.policy_qualifiers is None)
                for mine, its in zip(one.policy_qualifiers or (), other.policy_qualifiers or (), strict=True):
                    self.same(mine, its)
                    count += 1
        self.assertGreater(count, 5)

    def same(self, our: Any, their: Any) -> None:
        if isinstance(their, str):
            self.assertEqual(our, their)
            return
        self.assertEqual(our.explicit_text, their.explicit_text)
        self.assertEqual(our.notice_reference is None, their.notice_reference is None)
        if their.notice_reference is not None:
            self.assertEqual(our.notice_reference.organization, their.notice_reference.organization)
            self.assertEqual(our.notice_reference.notice_numbers, their.notice_reference.notice_numbers)

    @unittest.skipIf(theirs is None, "cryptography isn't installed")
    def test_features_of_cryptography(self) -> None:
        kinds = [theirs.TLSFeatureType.status_request, theirs.TLSFeatureType.status_request_v2]
        for given in (kinds[:1], kinds[1:], kinds):
            self.assertEqual(ours.TLSFeature([ours.TLSFeatureType[it.name] for it in given]).public_bytes(), theirs.TLSFeature(given).public_bytes())
        self.assertEqual({it.name: it.value for it in ours.TLSFeatureType}, {it.name: it.value for it in theirs.TLSFeatureType})
        self.assertEqual(ours.OCSPNoCheck().public_bytes(), theirs.OCSPNoCheck().public_bytes())


if __name__ == "__main__":
    unittest.main()
