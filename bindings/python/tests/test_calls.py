"""What each argument of the calls for C that build does to the bytes: a table with a row for each argument of each call of the header.

A row has a call's arguments, and for each another value, with octets that are in what is written with the one and not with the other. The calls and their
arguments are those of include/x509.h: one without a row fails.

usage: X509_LIBRARY=.../libx509.so PYTHONPATH=bindings/python/src python3 -m unittest discover -s bindings/python/tests
"""

from __future__ import annotations

import ctypes
import hashlib
import pathlib
import sys
import unittest
from typing import NamedTuple

import x509_cert as ours
from x509_cert._library import fill

sys.path.insert(0, str(pathlib.Path(__file__).resolve().parents[3] / "tools" / "common"))
import header

# calls that build by other names than x509_build_
OTHERS = (
    "x509_extension_encode",
    "x509_crl_entry_encode",
    "x509_assemble",
    "x509_attribute_encode",
    "x509_relative_name_encode",
    "x509_name_build",
    "x509_name_escape",
)


def hexed(text: str) -> bytes:
    return bytes.fromhex(text)


def element(tag: int, *parts: bytes) -> bytes:
    content = b"".join(parts)
    count = len(content)
    length = bytes([count]) if count < 0x80 else bytes([0x81, count]) if count < 0x100 else b"\x82" + count.to_bytes(2, "big")
    return bytes([tag]) + length + content


def name(*attributes: tuple[str, str]) -> bytes:
    """A Name with an RDN of one UTF8String, or of a country's PrintableString, for each attribute of 2.5.4."""
    pairs = [(hexed("06035504" + n), element(0x13 if n == "06" else 0x0C, t.encode())) for n, t in attributes]
    return element(0x30, *(element(0x31, element(0x30, *pair)) for pair in pairs))


def key(octet: int) -> bytes:
    """An Ed25519 key (RFC 8410 4)."""
    return hexed("302a300506032b6570032100") + bytes([octet]) * 32


def rsa(octet: int) -> bytes:
    """An RSA key (RFC 3279 2.3.1) of 1,024 bits."""
    numbers = element(0x30, hexed("02818100") + bytes([0xC0 + octet]) * 128, hexed("0203010001"))
    return element(0x30, hexed("300d06092a864886f70d0101010500"), element(0x03, b"\0", numbers))


def extension(oid: str, value: bytes) -> bytes:
    return element(0x30, element(0x06, hexed(oid)), element(0x04, value))


SERIAL = [hexed("0203414243"), hexed("0203515253")]
ED25519, ED448, OTHER_ALGORITHM = hexed("300506032b6570"), hexed("300506032b6571"), hexed("300506032b6572")
A, B = name(("03", "AAAA")), name(("03", "BBBB"))
ROOT, OTHER_ROOT = (name(("06", "DE"), ("0a", text), ("03", "R")) for text in ("OOOO", "PPPP"))
POLICY, OTHER_POLICY = extension("2a0304", b"\x05\x00"), extension("2a0305", b"\x05\x00")
# 2030-01-01, 2031-01-01 and 2032-01-01, and how a UTCTime begins that says so (RFC 5280 4.1.2.5.1)
T30, T31, T32 = 1893456000, 1924992000, 1956528000
Y30, Y31, Y32 = b"\x17\x0d300101", b"\x17\x0d310101", b"\x17\x0d320101"
# what profiles make (RFC 5280 4.2.1.3, 4.2.1.9, 4.2.1.12)
CLIENT = hexed("06082b06010505070302")


def usage(bits: str) -> bytes:
    return hexed("0603551d0f0101ff0404" + bits)


def module(octet: int) -> bytes:
    """GeneralNames with the name of a hardware module (RFC 4108 5)."""
    return element(0x30, element(0xA0, hexed("06082b06010505070804"), element(0xA0, hexed("300706022a030401") + bytes([octet]))))


class Argument(NamedTuple):
    """A value, another one, and octets that only what is built with the one, or with the other, has."""

    one: bytes | int
    other: bytes | int
    of_one: bytes
    of_other: bytes


def given(one: bytes, other: bytes) -> Argument:
    return Argument(one, other, one, other)


def flag(of_one: bytes, of_other: bytes) -> Argument:
    return Argument(0, 1, of_one, of_other)


EXTENSIONS = given(POLICY, OTHER_POLICY)
UNDER = {
    "serial_number": given(*SERIAL),
    "algorithm": given(ED448, OTHER_ALGORITHM),
    "issuer": given(A, B),
    # an AKI holds the SHA-1 digest of the issuer's key (RFC 5280 4.2.1.2)
    "issuer_key": Argument(key(3), key(4), *(hashlib.sha1(bytes([octet]) * 32).digest() for octet in (3, 4))),
    "not_before": Argument(T30, T31 - 1, Y30, b"\x17\x0d301231"),
    "not_after": Argument(T31, T32, Y31, Y32),
}

TABLE: dict[str, dict[str, Argument]] = {
    "x509_extension_encode": {
        "oid": given(hexed("2a0304"), hexed("2a0305")),
        "critical": flag(hexed("2a03040402"), hexed("2a03040101ff")),
        "value": given(b"\x05\x00", b"\x05\x01"),
    },
    "x509_crl_entry_encode": {"serial_number": given(*SERIAL), "date": Argument(T30, T31, Y30, Y31), "extensions": given(POLICY, OTHER_POLICY)},
    "x509_build_request": {
        "subject": given(A, B),
        "key": given(key(1), key(2)),
        "attributes": given(element(0x30, hexed("06022a05"), hexed("31020500")), element(0x30, hexed("06022a06"), hexed("31020500"))),
        "extensions": given(POLICY, OTHER_POLICY),
    },
    "x509_build_certificate": {
        "serial_number": given(*SERIAL),
        "algorithm": given(ED448, OTHER_ALGORITHM),
        "issuer": given(A, B),
        "not_before": UNDER["not_before"],
        "not_after": UNDER["not_after"],
        "subject": given(name(("03", "SSSS")), name(("03", "TTTT"))),
        "key": given(key(1), key(2)),
        "extensions": EXTENSIONS,
    },
    "x509_build_root": {
        "serial_number": given(*SERIAL),
        "algorithm": given(ED448, OTHER_ALGORITHM),
        "not_before": UNDER["not_before"],
        "not_after": UNDER["not_after"],
        "subject": given(ROOT, OTHER_ROOT),
        "key": given(key(1), key(2)),
        "signs_ocsp_responses": flag(usage("03020106"), usage("03020186")),
        "extensions": EXTENSIONS,
    },
    "x509_build_subordinate": {
        **UNDER,
        "subject": given(ROOT, OTHER_ROOT),
        "key": given(key(1), key(2)),
        "has_path_len": Argument(1, 0, hexed("30060101ff020105"), hexed("30030101ff")),
        "path_len": Argument(5, 6, hexed("0101ff020105"), hexed("0101ff020106")),
        "signs_ocsp_responses": flag(usage("03020106"), usage("03020186")),
        "client_auth": flag(hexed("300a06082b06010505070301"), CLIENT),
        "extensions": EXTENSIONS,
    },
    "x509_build_subscriber": {
        **UNDER,
        "subject": given(name(("06", "DE"), ("03", "SSSS")), name(("06", "DE"), ("03", "TTTT"))),
        "key": given(rsa(1), rsa(2)),
        "client_auth": flag(hexed("300a06082b06010505070301"), CLIENT),
        "key_encipherment": flag(usage("03020780"), usage("030205a0")),
        "data_encipherment": flag(usage("03020780"), usage("03020490")),
        "extensions": EXTENSIONS,
    },
    "x509_build_device": {
        **UNDER,
        "subject": given(name(("03", "SSSS")), name(("03", "TTTT"))),
        "key": given(key(1), key(2)),
        "names": given(module(5), module(6)),
        "extensions": EXTENSIONS,
    },
    "x509_build_crl": {
        "algorithm": given(ED448, OTHER_ALGORITHM),
        "number": Argument(b"\x11\x12\x13", b"\x21\x22\x23", hexed("0203111213"), hexed("0203212223")),
        "this_update": Argument(T30, T31 - 1, Y30, b"\x17\x0d301231"),
        "has_next_update": Argument(1, 0, Y31, Y30 + b"000000Z\x30"),
        "next_update": Argument(T31, T32, Y31, Y32),
        "entries": given(*(element(0x30, it, b"\x17\x0d290101000000Z") for it in SERIAL)),
        "extensions": EXTENSIONS,
    },
    "x509_assemble": {"signature": Argument(b"abcd", b"efgh", b"\x03\x05\x00abcd", b"\x03\x05\x00efgh")},
    "x509_attribute_encode": {
        "oid": given(hexed("550403"), hexed("55040a")),
        "string_type": Argument(0x0C, 0x13, b"\x0c\x04abcd", b"\x13\x04abcd"),
        "text": given(b"abcd", b"efgh"),
    },
    "x509_relative_name_encode": {"attributes": given(A[4:], B[4:])},
    "x509_name_build": {"relative_names": given(A[2:], B[2:])},
    "x509_name_escape": {"text": Argument(b"a,b", b"a+b", b"a\\,b", b"a\\+b")},
}


def certificate(octet: int) -> bytes:
    """A certificate of an issuer of CRLs."""
    subject = A if octet == 1 else B
    part = fill("x509_build_certificate", SERIAL[0], ED25519, subject, *map(ctypes.c_uint64, (T30, T31)), subject, key(octet), b"")
    return fill("x509_assemble", part, ED25519, b"abcd")


TABLE["x509_build_crl"]["issuer"] = Argument(certificate(1), certificate(2), A, B)


def part(octet: int) -> bytes:
    """The part to be signed of a CSR, which has no algorithm inside."""
    return fill("x509_build_request", A, key(octet), b"", b"")


TABLE["x509_assemble"]["part"] = given(part(1), part(2))
TABLE["x509_assemble"]["algorithm"] = given(ED448, OTHER_ALGORITHM)


class Refused(NamedTuple):
    """An argument that takes nothing into the bytes and refuses: with this value beside these others the call answers the status."""

    changes: dict[str, bytes | int]
    status: int


# sizes are kept where they are asked for (RFC 5280 appendix A.1)
REFUSALS = {
    ("x509_attribute_encode", "is_bounded"): Refused({"text": b"a" * 65, "is_bounded": 1}, 5),
}
# what is asked of an elliptic curve key alone
EC_KEY = hexed("3059301306072a8648ce3d020106082a8648ce3d03010703420004") + hexed(
    "6b17d1f2e12c4247f8bce6e563a440f277037d812deb33a0f4a13945d898c2964fe342e2fe1a7f9b8ee7eb4a7c0f9e162bce33576b315ececbb6406837bf51f5"
)
TABLE["x509_build_subscriber"]["key_agreement"] = flag(usage("03020780"), usage("03020388"))
BESIDE: dict[tuple[str, str], dict[str, bytes | int]] = {
    ("x509_build_subscriber", "key_agreement"): {"key": EC_KEY},
}


def arguments(call: header.Call) -> list[str]:
    """The names of what goes in: a pointer and its length are one."""
    taken = [it for it in call.parameters if it.name not in ("out", "room", "written")]
    return [it.name for it in taken if not any(it.name == f"{other.name}_len" and other.is_pointer for other in taken)]


def built(call: header.Call, changes: dict[str, bytes | int]) -> bytes:
    """What the call writes of its first values, but for the changes."""
    kinds = {it.name: it for it in call.parameters}
    words = []
    for word in arguments(call):
        value = changes.get(word, TABLE[call.name][word].one if word in TABLE[call.name] else 0)
        words.append(value if kinds[word].is_pointer else {"uint32_t": ctypes.c_uint32, "uint64_t": ctypes.c_uint64}[kinds[word].kind](value))
    return fill(call.name, *words)


class Calls(unittest.TestCase):
    def calls(self) -> list[header.Call]:
        return [it for it in header.calls() if it.name.startswith("x509_build_") or it.name in OTHERS]

    def test_each_argument_has_a_row(self) -> None:
        rows = {(name, word) for name, row in TABLE.items() for word in row} | set(REFUSALS)
        self.assertEqual(rows, {(call.name, word) for call in self.calls() for word in arguments(call)})

    def test_each_argument_is_in_the_bytes(self) -> None:
        for call in self.calls():
            for word, row in TABLE[call.name].items():
                with self.subTest(call=call.name, argument=word):
                    beside = BESIDE.get((call.name, word), {})
                    before, after = built(call, beside), built(call, {**beside, word: row.other})
                    self.assertEqual((row.of_one in before, row.of_other in before), (True, False))
                    self.assertEqual((row.of_one in after, row.of_other in after), (False, True))

    def test_what_only_refuses(self) -> None:
        for call in self.calls():
            for (name, word), row in REFUSALS.items():
                if name == call.name:
                    built(call, {**row.changes, word: 0})
                    with self.assertRaises(ours.X509Error) as refused:
                        built(call, row.changes)
                    self.assertEqual(refused.exception.status, row.status)

    def test_an_extension_twice_and_moments_turned_round(self) -> None:
        """Before anything is signed: X509_REPEATED is 7, X509_VALUE is 5."""
        akis = extension("551d23", hexed("3000"))
        for call in self.calls():
            if "extensions" in TABLE[call.name]:
                makes_one = call.name not in ("x509_crl_entry_encode", "x509_build_request", "x509_build_certificate")
                for twice in [POLICY + POLICY] + [akis] * makes_one:
                    with self.subTest(call=call.name), self.assertRaises(ours.X509Error) as refused:
                        built(call, {"extensions": twice})
                    self.assertEqual(refused.exception.status, 7)
            for first, last in (("not_before", "not_after"), ("this_update", "next_update")):
                if first in TABLE[call.name]:
                    built(call, {first: T31, last: T31})
                    with self.subTest(call=call.name), self.assertRaises(ours.X509Error) as refused:
                        built(call, {first: T31 + 1, last: T31})
                    self.assertEqual(refused.exception.status, 5)


class Elements(unittest.TestCase):
    def test_length_octets(self) -> None:
        """They are as few as there can be (X.690 8.1.3, 10.1)."""
        for size, front in ((0, "0400"), (127, "047f"), (128, "048180"), (255, "0481ff"), (256, "04820100"), (65_536, "0483010000")):
            with self.subTest(size):
                self.assertEqual(fill("x509_element_encode", ctypes.c_uint32(0x04), bytes(size)), hexed(front) + bytes(size))


if __name__ == "__main__":
    unittest.main()
