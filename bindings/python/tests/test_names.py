"""Names made of values: what `cryptography` makes of the same values, a value that can't put an attribute in, and what is refused.

usage: X509_LIBRARY=.../libx509.so PYTHONPATH=bindings/python/src python3 -m unittest discover -s bindings/python/tests
"""

from __future__ import annotations

import random
import unittest
from typing import Any

import x509_cert as ours
from x509_cert.name import _ASN1Type

try:
    from cryptography import x509 as theirs
    from cryptography.x509.name import _ASN1Type as their_type
except ImportError:  # the tests are left out then
    theirs = None  # type: ignore[assignment]

# what would put an attribute into a name, were it put into its text as it is, and what a text escapes (RFC 4514 2.4)
HOSTILE = ["a,O=Evil", "a+O=Evil", "a\\,O=Evil", "a\\", "#0500", "#", " a", "a ", " ", "  ", 'a"b', "a;b<c>d=e", "a\x00b", "\x7f\n\t", "a\\2c"]
HOSTILE += ["ö\u202e\u2028", "\U0001f600"]
# attributes and values, and what a value may have to have
VALUES = {
    "COMMON_NAME": "a b",
    "SURNAME": "ö",
    "SERIAL_NUMBER": "A-1",
    "COUNTRY_NAME": "DE",
    "LOCALITY_NAME": "München",
    "STATE_OR_PROVINCE_NAME": "b",
    "STREET_ADDRESS": "Weg 1",
    "ORGANIZATION_NAME": "Söhne, & Co",
    "ORGANIZATIONAL_UNIT_NAME": "c",
    "TITLE": "d",
    "GIVEN_NAME": "e",
    "INITIALS": "f",
    "GENERATION_QUALIFIER": "g",
    "DN_QUALIFIER": "h",
    "PSEUDONYM": "i",
    "USER_ID": "j",
    "DOMAIN_COMPONENT": "example",
    "EMAIL_ADDRESS": "a@b.example",
    "BUSINESS_CATEGORY": "k",
    "POSTAL_CODE": "12345",
    "ORGANIZATION_IDENTIFIER": "l",
    "JURISDICTION_COUNTRY_NAME": "DE",
    "JURISDICTION_LOCALITY_NAME": "m",
    "JURISDICTION_STATE_OR_PROVINCE_NAME": "n",
    "UNSTRUCTURED_NAME": "o",
}


def one(value: str, oid: ours.ObjectIdentifier = ours.NameOID.COMMON_NAME, **rest: Any) -> ours.Name:
    return ours.Name([ours.NameAttribute(oid, value, **rest)])


class Made(unittest.TestCase):
    def test_by_hand(self) -> None:
        # RFC 5280 4.1.2.4 by hand: the country DE as a PrintableString, then the organization b and the common name a in one relative name, whose attributes
        # stand in the order of their encodings, that of the common name first
        both = ours.RelativeDistinguishedName([ours.NameAttribute(ours.NameOID.ORGANIZATION_NAME, "b"), ours.NameAttribute(ours.NameOID.COMMON_NAME, "a")])
        name = ours.Name([ours.NameAttribute(ours.NameOID.COUNTRY_NAME, "DE"), both])
        country = bytes.fromhex("310b3009" "0603550406" "13024445")
        pair = bytes.fromhex("3114" "3008" "0603550403" "0c0161" "3008" "060355040a" "0c0162")
        self.assertEqual(name.public_bytes(), b"\x30" + bytes([len(country + pair)]) + country + pair)
        self.assertEqual([rdn.public_bytes() for rdn in name.rdns], [country, pair])
        self.assertEqual(name.rfc4514_string(), "CN=a+O=b,C=DE")
        self.assertEqual((both.rfc4514_string(), [it.rfc4514_string() for it in both]), ("CN=a+O=b", ["CN=a", "O=b"]))
        self.assertEqual([it.value for it in both.get_attributes_for_oid(ours.NameOID.ORGANIZATION_NAME)], ["b"])
        self.assertEqual((ours.Name([]).public_bytes(), len(ours.Name([]))), (b"\x30\x00", 0))

    def test_a_relative_name_is_a_set(self) -> None:
        attributes = [ours.NameAttribute(oid, "a") for oid in (ours.NameOID.COMMON_NAME, ours.NameOID.ORGANIZATION_NAME, ours.NameOID.USER_ID)]
        made = ours.RelativeDistinguishedName(attributes)
        other = ours.RelativeDistinguishedName(reversed(attributes))
        self.assertEqual((made, hash(made), list(made)), (other, hash(other), list(other)))
        self.assertEqual(set(made), set(attributes))
        self.assertNotEqual(made, ours.RelativeDistinguishedName(attributes[:2]))
        self.assertEqual(ours.Name([made]), ours.Name([other]))
        with self.assertRaises(ours.X509Error) as caught:
            ours.RelativeDistinguishedName([attributes[0], attributes[1], attributes[0]])
        self.assertEqual(caught.exception.status, 4)

    def test_what_was_read_is_taken(self) -> None:
        """Attributes and relative names of a name that was read go into another one as they are, also those that can't be made."""
        # CN=a as a T61String, and the unique identifier, a BIT STRING
        read = ours.Name(bytes.fromhex("301a" "310a3008" "0603550403" "140161" "310c300a" "060355042d" "0303000102"))
        (common, identifier) = list(read)
        self.assertEqual((common.value, common.tag, identifier.value), ("a", 0x14, bytes.fromhex("000102")))
        self.assertEqual(ours.Name([common, identifier]), read)
        self.assertEqual(ours.Name(read.rdns), read)
        further = ours.Name([*read.rdns, ours.NameAttribute(ours.NameOID.ORGANIZATION_NAME, "b")])
        self.assertEqual(further.rdns[:2], read.rdns)
        self.assertEqual(further.rfc4514_string(), "O=b," + read.rfc4514_string())
        self.assertEqual(ours.RelativeDistinguishedName([identifier, common]).public_bytes()[:2], bytes.fromhex("3116"))

    def test_values_are_exact(self) -> None:
        for value in HOSTILE:
            with self.subTest(value):
                name = one(value)
                (found,) = name
                self.assertEqual((found.oid, found.value), (ours.NameOID.COMMON_NAME, value))
                self.assertEqual(ours.NameAttribute(ours.NameOID.COMMON_NAME, value).value, value)
                # and by their text, which escapes them
                self.assertEqual(ours.Name.from_rfc4514_string(f"CN={ours.escape_rfc4514_value(value)},C=DE").rdns[1], name.rdns[0])

    def test_an_escape_is_one_value(self) -> None:
        self.assertEqual(ours.escape_rfc4514_value("a,O=Evil"), "a\\,O=Evil")
        self.assertEqual((ours.escape_rfc4514_value(""), ours.escape_rfc4514_value("ab")), ("", "ab"))
        chance = random.Random(4514)
        letters = ' #,+"\\<>;=a0\x00\x1b\x7f\x80ö\u2028\U0001f600'
        for _ in range(2000):
            value = "".join(chance.choices(letters, k=chance.randrange(1, 6)))
            (found,) = ours.Name.from_rfc4514_string("CN=" + ours.escape_rfc4514_value(value))
            self.assertEqual(found.value, value)

    def test_bounds_and_alphabets(self) -> None:
        oid = ours.NameOID
        self.assertEqual([it.tag for it in one("DE", oid.COUNTRY_NAME)], [0x13])
        self.assertEqual([it.tag for it in one("a", _type=_ASN1Type.PrintableString)], [0x13])
        self.assertEqual([it.value for it in one("a" * 64)], ["a" * 64])
        self.assertEqual([it.value for it in one("a" * 65, _validate=False)], ["a" * 65])
        for value, kind, rest in (
            ("a" * 65, oid.COMMON_NAME, {}),
            ("", oid.COMMON_NAME, {}),
            ("DEU", oid.COUNTRY_NAME, {}),
            ("ö", oid.COUNTRY_NAME, {"_validate": False}),
            ("ö@b.example", oid.EMAIL_ADDRESS, {}),
            ("a@b", oid.COMMON_NAME, {"_type": _ASN1Type.PrintableString}),
            ("ö", oid.COMMON_NAME, {"_type": _ASN1Type.PrintableString, "_validate": False}),
            ("ö", oid.DOMAIN_COMPONENT, {}),
        ):
            with self.subTest(value, oid=kind, **rest), self.assertRaises(ours.X509Error) as caught:
                one(value, kind, **rest)
            self.assertEqual(caught.exception.status, 5)
        for kind, other in ((oid.COUNTRY_NAME, _ASN1Type.UTF8String), (oid.COMMON_NAME, _ASN1Type.OctetString), (oid.EMAIL_ADDRESS, _ASN1Type.UTF8String)):
            with self.subTest(oid=kind, type=other), self.assertRaises(ours.X509Error) as caught:
                one("DE", kind, _type=other)
            self.assertEqual(caught.exception.status, 3)

    def test_what_is_no_list(self) -> None:
        attribute = ours.NameAttribute(ours.NameOID.COMMON_NAME, "a")
        for given in ("CN=a", one("a"), [b"0\0"], ["CN=a"], [attribute, "O=b"], [attribute, one("a")], [attribute, one("a").public_bytes()], 5, None):
            with self.subTest(given), self.assertRaises(TypeError):
                ours.Name(given)
        for given in ([], ["a"], [one("a")], attribute, b"0\0"):
            with self.subTest(given), self.assertRaises((TypeError, ValueError)):
                ours.RelativeDistinguishedName(given)
        for data in (b"", b"\x30", b"\x30\x01", b"\x31\x00"):
            with self.subTest(data), self.assertRaises(ours.X509Error):
                ours.Name(data)
        whole = one("a").public_bytes()
        self.assertEqual([ours.Name(kind(whole)) for kind in (bytes, bytearray, memoryview)], [one("a")] * 3)


def encoded(*rdns: list[tuple[bytes, int, bytes]]) -> ours.Name:
    """A name of relative names, each of attributes: the content octets of the type's OID, the tag of the value, and that."""

    def element(tag: int, content: bytes) -> bytes:
        return bytes((tag, len(content))) + content

    def attribute(oid: bytes, tag: int, value: bytes) -> bytes:
        return element(0x30, element(6, oid) + element(tag, value))

    return ours.Name(element(0x30, b"".join(element(0x31, b"".join(attribute(*it) for it in rdn)) for rdn in rdns)))


class Matching(unittest.TestCase):
    """Names that match by RFC 5280 4.1.2.6, 7.1, 7.3 and RFC 4518 2, by hand."""

    CN, C, O = (bytes.fromhex(it) for it in ("550403", "550406", "55040a"))
    EMAIL, DC = bytes.fromhex("2a864886f70d010901"), bytes.fromhex("0992268993f22c640119")
    UTF8, PRINTABLE, T61, IA5, UNIVERSAL, BMP = 0x0C, 0x13, 0x14, 0x16, 0x1C, 0x1E

    def matches(self, a: ours.Name, b: ours.Name) -> bool:
        found = a.matches(b)
        self.assertIs(b.matches(a), found)
        self.assertTrue(a.matches(a) and b.matches(b))
        return found

    def test_values(self) -> None:
        rows = [
            ((self.UTF8, "a"), (self.UTF8, "a"), True),
            ((self.UTF8, "a"), (self.UTF8, "b"), False),
            # case, and the type of the string
            ((self.UTF8, "a"), (self.PRINTABLE, "A"), True),
            ((self.BMP, "\0a"), (self.IA5, "A"), True),
            ((self.T61, "a"), (self.T61, "A"), True),
            ((self.T61, "a"), (self.UTF8, "a"), True),
            # beyond ASCII, T.61 or Latin-1, so octets are compared
            ((self.T61, "\u00e4"), (self.UTF8, "\u00e4"), False),
            ((self.UNIVERSAL, "\0\0\0A"), (self.UTF8, "a"), True),
            ((self.UNIVERSAL, "\0\0\0A"), (self.UTF8, "b"), False),
            # spaces, and what is mapped to one or to nothing
            ((self.UTF8, " a  b"), (self.UTF8, "A b "), True),
            ((self.UTF8, "a b"), (self.UTF8, "ab"), False),
            ((self.UTF8, "a\tb"), (self.UTF8, "a b"), True),
            ((self.UTF8, "a\u00adb"), (self.UTF8, "ab"), True),
            ((self.UTF8, "a\u3000b"), (self.UTF8, "a b"), True),
            # one character or two, a ligature, sharp s, full width
            ((self.UTF8, "\u00e4"), (self.UTF8, "A\u0308"), True),
            ((self.UTF8, "\u00e4"), (self.UTF8, "a"), False),
            ((self.UTF8, "\ufb01"), (self.UTF8, "FI"), True),
            ((self.UTF8, "\u00df"), (self.UTF8, "SS"), True),
            ((self.UTF8, "\uff21"), (self.UTF8, "a"), True),
            # prohibited characters: for private use, and the replacement character
            ((self.UTF8, "a\ue000"), (self.UTF8, "a\ue000"), True),
            ((self.UTF8, "a\ue000"), (self.UTF8, "A\ue000"), False),
            ((self.UTF8, "a\ufffd"), (self.UTF8, "A\ufffd"), False),
        ]
        for (tag, text), (other_tag, other), wanted in rows:
            with self.subTest(a=text, b=other):
                a, b = encoded([(self.CN, tag, text.encode())]), encoded([(self.CN, other_tag, other.encode())])
                self.assertIs(self.matches(a, b), wanted)

    def test_mailboxes_and_domains(self) -> None:
        rows = [
            (self.EMAIL, b"a@b.c", b"a@B.C", True),
            (self.EMAIL, b"a@b.c", b"A@b.c", True),
            (self.EMAIL, b"a@b.c", b"a@b.d", False),
            (self.DC, b"a b", b"A B", True),
            (self.DC, b"a b", b"a  b", False),
        ]
        for oid, a, b, wanted in rows:
            with self.subTest(a=a, b=b):
                self.assertIs(self.matches(encoded([(oid, self.IA5, a)]), encoded([(oid, self.IA5, b)])), wanted)

    def test_relative_names(self) -> None:
        country, organization = (self.C, self.PRINTABLE, b"US"), (self.O, self.UTF8, b"T")
        one, other = encoded([organization, country]), encoded([(self.C, self.PRINTABLE, b"us"), (self.O, self.PRINTABLE, b"t ")])
        self.assertTrue(self.matches(one, other))
        self.assertNotEqual(one, other)
        self.assertFalse(self.matches(one, encoded([country], [organization])))
        self.assertFalse(self.matches(encoded([country], [organization]), encoded([organization], [country])))
        self.assertFalse(self.matches(encoded([country]), encoded([country], [organization])))
        self.assertFalse(self.matches(encoded(), one))
        # two attributes of one type: each has a partner of its own
        pairs = [encoded([(self.CN, self.UTF8, a), (self.CN, self.UTF8, b)]) for a, b in ((b"a", b"b"), (b"A", b"a"), (b"A", b"B"))]
        self.assertFalse(self.matches(pairs[0], pairs[1]))
        self.assertTrue(self.matches(pairs[0], pairs[2]))

    def test_what_is_no_name(self) -> None:
        for value in ("CN=a", one("a").public_bytes(), None, one("a").rdns[0]):
            with self.subTest(value), self.assertRaises(TypeError):
                one("a").matches(value)  # type: ignore[arg-type]


@unittest.skipIf(theirs is None, "cryptography isn't installed")
class AgainstCryptography(unittest.TestCase):
    def test_identifiers(self) -> None:
        for name, it in vars(theirs.NameOID).items():
            if not name.startswith("_"):
                self.assertEqual(getattr(ours.NameOID, name).dotted_string, it.dotted_string)
        for it in their_type:
            self.assertEqual(_ASN1Type[it.name].value, it.value)

    def both(self, build: Any) -> tuple[ours.Name, theirs.Name]:
        """What a program makes with the package under one name."""
        return build(ours), build(theirs)

    def test_values(self) -> None:
        for kind, value in VALUES.items():
            with self.subTest(kind):
                our, their = self.both(lambda x509: x509.Name([x509.NameAttribute(getattr(x509.NameOID, kind), value)]))
                self.assertEqual(our.public_bytes(), their.public_bytes())
                self.assertEqual([it.value for it in our], [it.value for it in their])

    def test_names(self) -> None:
        def separate(x509: Any) -> Any:
            oid = x509.NameOID
            values = ((oid.COUNTRY_NAME, "DE"), (oid.ORGANIZATION_NAME, "Söhne & Co"), (oid.COMMON_NAME, "www.example.org"))
            return x509.Name([x509.NameAttribute(kind, value) for kind, value in values])

        def together(x509: Any) -> Any:
            oid = x509.NameOID
            pair = [x509.NameAttribute(oid.USER_ID, "b"), x509.NameAttribute(oid.COMMON_NAME, "a")]
            return x509.Name([x509.RelativeDistinguishedName(pair), x509.RelativeDistinguishedName(pair[:1])])

        def typed(x509: Any) -> Any:
            return x509.Name([x509.NameAttribute(x509.NameOID.COMMON_NAME, "a", x509.name._ASN1Type.PrintableString)])

        for build in (separate, together, typed, lambda x509: x509.Name([])):
            our, their = self.both(build)
            self.assertEqual(our.public_bytes(), their.public_bytes())
            self.assertEqual([[it.value for it in rdn] for rdn in our.rdns], [[it.value for it in rdn] for rdn in theirs_sorted(their)])

    def test_hostile_values(self) -> None:
        for value in HOSTILE:
            with self.subTest(value):
                our, their = self.both(lambda x509: x509.Name([x509.NameAttribute(x509.NameOID.COMMON_NAME, value)]))
                self.assertEqual(our.public_bytes(), their.public_bytes())


def theirs_sorted(name: Any) -> Any:
    """The relative names as they stand in the encoding."""
    return [sorted(rdn, key=lambda it: theirs.Name([it]).public_bytes()) for rdn in name.rdns]


if __name__ == "__main__":
    unittest.main()
