"""Names of peers: texts of them beside `ipaddress` and the grammar of RFC 1123 as a regular expression, and whether certificates name them beside OpenSSL's
X509_check_host, X509_check_ip_asc and X509_check_email. Where OpenSSL answers otherwise, the reason is told at the test.

usage: X509_LIBRARY=.../libx509.so PYTHONPATH=bindings/python/src python3 -m unittest discover -s bindings/python/tests
"""

from __future__ import annotations

import ctypes
import ctypes.util
import datetime
import ipaddress
import itertools
import random
import re
import unittest
from typing import Any, Sequence

import x509_cert as ours
from x509_cert.peer import email_address, server_name

try:
    from cryptography import x509 as theirs
    from cryptography.hazmat.primitives.asymmetric import ed25519
    from cryptography.hazmat.primitives.serialization import Encoding
except ImportError:  # the tests are left out then
    theirs = None  # type: ignore[assignment]

_FOUND = ctypes.util.find_library("crypto")
CRYPTO: Any = ctypes.CDLL(_FOUND) if _FOUND else None

# the subject isn't looked at, and '*' is a whole label: X509_CHECK_FLAG_NEVER_CHECK_SUBJECT, X509_CHECK_FLAG_NO_PARTIAL_WILDCARDS
STRICT = 0x20 | 0x4

LABEL = r"(?!-)[A-Za-z0-9_-]{1,63}(?<!-)"
HOST = re.compile(rf"(?=.{{1,253}}\Z)(?:{LABEL}\.)*(?![0-9]+\Z){LABEL}", re.A)


def is_host(text: str) -> bool:
    return HOST.fullmatch(text) is not None


def certificate(names: Sequence[Any], common_name: str = "c") -> bytes:
    """A certificate with these names, as `cryptography` writes it; without the extension where there are none."""
    key = ed25519.Ed25519PrivateKey.from_private_bytes(bytes(32))
    name = theirs.Name([theirs.NameAttribute(theirs.NameOID.COMMON_NAME, common_name)])
    builder = theirs.CertificateBuilder().subject_name(name).issuer_name(name).public_key(key.public_key()).serial_number(1)
    builder = builder.not_valid_before(datetime.datetime(2026, 1, 1)).not_valid_after(datetime.datetime(2027, 1, 1))
    if names:
        builder = builder.add_extension(theirs.SubjectAlternativeName(names), False)
    return builder.sign(key, None).public_bytes(Encoding.DER)


class Peer:
    """A certificate as both libraries have it."""

    def __init__(self, data: bytes) -> None:
        self.ours = ours.load_der_x509_certificate(data)
        CRYPTO.d2i_X509.restype = ctypes.c_void_p
        at = ctypes.c_char_p(data)
        self.theirs = ctypes.c_void_p(CRYPTO.d2i_X509(None, ctypes.byref(at), ctypes.c_long(len(data))))
        assert self.theirs

    def __enter__(self) -> Peer:
        return self

    def __exit__(self, *_: object) -> None:
        CRYPTO.X509_free(self.theirs)

    def _is(self, answer: int) -> bool:
        if answer not in (0, 1):
            raise ValueError(f"OpenSSL answers {answer}")
        return answer == 1

    def has_host(self, host: str, flags: int = STRICT) -> bool:
        data = host.encode()
        return self._is(CRYPTO.X509_check_host(self.theirs, data, ctypes.c_size_t(len(data)), ctypes.c_uint(flags), None))

    def has_ip(self, address: str) -> bool:
        return self._is(CRYPTO.X509_check_ip_asc(self.theirs, address.encode(), ctypes.c_uint(0)))

    def has_email(self, address: str) -> bool:
        data = address.encode()
        return self._is(CRYPTO.X509_check_email(self.theirs, data, ctypes.c_size_t(len(data)), ctypes.c_uint(0x20)))


def stands_for(name: str, host: str) -> bool:
    """Whether a wildcard stands for a host with an underscore in a label, in which OpenSSL's have none."""
    first, _, others = host.lower().partition(".")
    return name.lower() == f"*.{others}" and others.count(".") >= 1 and is_host(first) and "_" in host


class Texts(unittest.TestCase):
    def refused(self, text: str) -> None:
        with self.assertRaises(ours.X509Error) as caught:
            server_name(text)
        self.assertEqual(caught.exception.status, 5)
        self.assertIn("neither a DNS name nor an IP address", str(caught.exception))

    def test_hosts(self) -> None:
        draw = random.Random(9525)
        seen = 0
        for _ in range(4000):
            text = "".join(draw.choices("aZ09-_.*\u00fc ", [9, 3, 4, 3, 3, 2, 6, 0.3, 0.3, 0.3], k=draw.randrange(1, 14)))
            if re.fullmatch(r"(\d+\.){3}\d+", text):
                continue
            name = text.removesuffix(".")
            if is_host(name):
                self.assertEqual(server_name(text), ours.DNSName(name))
                seen += 1
            else:
                self.refused(text)
        self.assertGreater(seen, 400)

    def test_lengths(self) -> None:
        for count in (63, 64):
            self.assertEqual(is_host("a" * count), count == 63)
        for text in ("a" * 63, ".".join(["a" * 63] * 3 + ["b" * 61]), ".".join(["a"] * 127)):
            self.assertEqual(server_name(text), ours.DNSName(text))
            self.assertEqual(server_name(text + "."), ours.DNSName(text))
            self.refused(text + "..")
        for text in ("", ".", "a" * 64, ".".join(["a" * 63] * 3 + ["b" * 62]), ".".join(["a"] * 128)):
            self.refused(text)

    def test_addresses(self) -> None:
        draw = random.Random(4291)
        numbers = [*range(16), 0xFFFF << 32 | 0xC0000201, 1 << 127, (1 << 128) - 1, *(draw.getrandbits(128) & draw.getrandbits(128) for _ in range(300))]
        for number in numbers:
            address = ipaddress.IPv6Address(number)
            high, low = divmod(number, 1 << 32)
            four = ipaddress.IPv4Address(low)
            texts = [str(address), address.exploded, str(address).upper(), f"[{address}]", f"{address.exploded[:30]}{four}"]
            if high == 0:
                texts.append(f"::{four}")
            for text in texts:
                self.assertEqual(ipaddress.IPv6Address(text.strip("[]")), address)
                self.assertEqual(server_name(text), ours.IPAddress(address), text)
            self.assertEqual(server_name(str(four)), ours.IPAddress(four))

    def test_bad_addresses(self) -> None:
        draw = random.Random(791)
        seen = 0
        for _ in range(6000):
            text = "".join(draw.choices(["1", "0", "f", "23", "255", "256", ":", "::", "."], [4, 3, 3, 2, 1, 1, 9, 3, 4], k=draw.randrange(1, 18)))
            try:
                address: Any = ipaddress.ip_address(text)
            except ValueError:
                if not is_host(text.removesuffix(".")):
                    self.refused(text)
            else:
                self.assertEqual(server_name(text), ours.IPAddress(address))
                seen += 1
        self.assertGreater(seen, 20)
        for text in ("1.2.3.4.", "01.2.3.4", "1.2.3", "1.2.3.4.5", "0x1.2.3.4", "[1.2.3.4]", "[::1", "::1]", "[[::1]]", "[]", "fe80::1%1", "[::1]:443", ":1", "1:", ":::"):
            self.refused(text)

    def test_mailboxes(self) -> None:
        self.assertEqual(email_address("a@b@C.example"), ("a@b", "C.example"))
        self.assertEqual(email_address('"a\\" @"@c'), ('"a\\" @"', "c"))
        for text in ("", "a", "@", "@a.example", "a@", "a@.", "a@b.", "a@1.2.3.4", "a@[1.2.3.4]", 'a"b@c', '"a@c', '"a"b@c', "a\\b@c", "\u00e4@c", "a@\u00e4", "a\t@c"):
            with self.assertRaisesRegex(ours.X509Error, "no e-mail address"):
                email_address(text)


@unittest.skipIf(theirs is None or CRYPTO is None, "needs `cryptography` and libcrypto")
class Certificates(unittest.TestCase):
    def test_hosts(self) -> None:
        draw = random.Random(6125)
        front = ["*", "a", "A", "b", "f*", "*f", "a*b", "**", "a_b", "xn--bcher-kva", "xn--*", "-x", "x-", "1", "", "a\x00"]
        behind = ["example", "EXAMPLE", "com", "Org", "a_b", "xn--bcher-kva", "1", "*", "com."]
        hosts = [".".join(labels) for count in range(3) for labels in itertools.product(["a", "b", "a_b", "xn--a", "1", "f1"], *[["example", "ORG", "a_b", "com"]] * count)]
        asked, named, underscores = 0, 0, 0
        for _ in range(400):
            names = [".".join([draw.choice(front), *draw.choices(behind, k=draw.randrange(0, 4))]) for _ in range(draw.randrange(1, 4))]
            # what a name holds is what stands in it: the values of `cryptography` aren't looked at
            with Peer(certificate([theirs.DNSName(it) for it in names])) as it:
                for host in draw.sample(hosts, 25) + [name for name in names if is_host(name)]:
                    if not is_host(host):
                        self.assertRaises(ours.X509Error, it.ours.matches_name, host)
                        continue
                    wanted = it.has_host(host)
                    if not wanted and any(stands_for(name, host) for name in names):
                        # OpenSSL's wildcards have no underscore in front or behind; here it stands in labels as in other names that are in use
                        wanted, underscores = True, underscores + 1
                    self.assertEqual(it.ours.matches_name(host), wanted, (names, host))
                    self.assertEqual(it.ours.matches_name(ours.DNSName(host + ".")), wanted, (names, host))
                    asked, named = asked + 1, named + wanted
        self.assertGreater(asked, 2000)
        self.assertGreater(named, 200)
        self.assertGreater(underscores, 5)

    def test_wildcards(self) -> None:
        for name, host, wanted in [
            ("*.example.org", "a.example.org", True),
            ("*.example.org", "A.EXAMPLE.ORG", True),
            ("*.example.org", "xn--bcher-kva.example.org", True),
            ("*.example.org", "example.org", False),
            ("*.example.org", "a.b.example.org", False),
            ("*.org", "example.org", False),
            ("*", "localhost", False),
            ("*.*.org", "a.b.org", False),
            ("a.*.org", "a.b.org", False),
            ("**.example.org", "a.example.org", False),
            ("*.example.org.", "a.example.org", False),
        ]:
            with Peer(certificate([theirs.DNSName(name)])) as it:
                self.assertEqual(it.has_host(host), wanted, (name, host))
                self.assertEqual(it.ours.matches_name(host), wanted, (name, host))

    def test_parts_of_labels(self) -> None:
        # OpenSSL's partial wildcards, where they aren't forbidden, are none of RFC 9525 6.3
        for name, host in [("f*.example.org", "f1.example.org"), ("*f.example.org", "1f.example.org")]:
            with Peer(certificate([theirs.DNSName(name)])) as it:
                self.assertEqual((it.has_host(host, 0), it.has_host(host)), (True, False))
                self.assertFalse(it.ours.matches_name(host))

    def test_common_names(self) -> None:
        # OpenSSL looks at the common name where no dNSName is there, unless it is forbidden; RFC 9525 2 and 6.3 don't
        for names in ([], [theirs.RFC822Name("a@b.example")], [theirs.DNSName("b.example")]):
            with Peer(certificate(names, "a.example")) as it:
                self.assertEqual(it.has_host("a.example", 0), not names or isinstance(names[0], theirs.RFC822Name))
                self.assertFalse(it.has_host("a.example"))
                self.assertFalse(it.ours.matches_name("a.example"))

    def test_addresses(self) -> None:
        draw = random.Random(5280)
        pool: list[Any] = [ipaddress.IPv4Address(draw.getrandbits(32)) for _ in range(12)] + [ipaddress.IPv6Address(draw.getrandbits(128)) for _ in range(12)]
        pool += [ipaddress.IPv6Address(int(pool[0])), ipaddress.IPv6Address(0xFFFF << 32 | int(pool[0])), ipaddress.ip_address("::")]
        for _ in range(40):
            chosen = draw.sample(pool, draw.randrange(1, 4))
            # the text of an address in a dNSName is no name of it (RFC 9525 6.4)
            with Peer(certificate([*map(theirs.IPAddress, chosen), theirs.DNSName(str(pool[1]))])) as it:
                for address in pool:
                    self.assertEqual(it.has_ip(str(address)), address in chosen)
                    for name in (str(address), address, ours.IPAddress(address), theirs.IPAddress(address)):
                        self.assertEqual(it.ours.matches_name(name), address in chosen, (chosen, name))

    def test_mailboxes(self) -> None:
        draw = random.Random(8398)
        pool = [f"{local}@{host}" for local in ("a", "A", "a.b", "a b", '"a"', "a@b", "a+c") for host in ("b.example", "B.Example", "c.example", "b")]
        for _ in range(60):
            chosen = draw.sample(pool, draw.randrange(1, 4))
            with Peer(certificate([theirs.RFC822Name._init_without_validation(it) for it in chosen] + [theirs.DNSName("b.example")], "a@b.example")) as it:
                for address in pool:
                    local, _, host = address.rpartition("@")
                    wanted = any(local == other.rpartition("@")[0] and host.lower() == other.rpartition("@")[2].lower() for other in chosen)
                    self.assertEqual(it.has_email(address), wanted, (chosen, address))
                    self.assertEqual(it.ours.matches_email(address), wanted, (chosen, address))
        with Peer(certificate([theirs.DNSName("b.example")], "a@b.example")) as it:
            self.assertFalse(it.ours.matches_email("a@b.example"))
            self.assertFalse(it.ours.matches_email(ours.RFC822Name("a@b.example")))

    def test_undecodable(self) -> None:
        """Two SANs, and one of which a name can't be decoded, name nothing, whatever else they have."""
        data = certificate([theirs.DNSName("a.example"), theirs.DNSName("b")])
        self.assertTrue(ours.load_der_x509_certificate(data).matches_name("a.example"))
        # an x400Address in the place of the second name, and a dNSName that isn't ASCII
        for other in (b"\x83\x01b", b"\x82\x01\xe4"):
            spoilt = ours.load_der_x509_certificate(data.replace(b"\x82\x01b", other))
            self.assertFalse(spoilt.matches_name("a.example"))
        key = ed25519.Ed25519PrivateKey.from_private_bytes(bytes(32))
        twice = certificate([theirs.DNSName("a.example")])
        self.assertTrue(ours.load_der_x509_certificate(twice).matches_name("a.example"))
        builder = theirs.CertificateBuilder().subject_name(theirs.Name([])).issuer_name(theirs.Name([])).public_key(key.public_key()).serial_number(1)
        builder = builder.not_valid_before(datetime.datetime(2026, 1, 1)).not_valid_after(datetime.datetime(2027, 1, 1))
        for oid in ("2.5.29.17", "2.5.29.18"):
            names = theirs.SubjectAlternativeName([theirs.DNSName("a.example")])
            builder = builder.add_extension(theirs.UnrecognizedExtension(theirs.ObjectIdentifier(oid), names.public_bytes()), False)
        made = builder.sign(key, None).public_bytes(Encoding.DER)
        self.assertTrue(ours.load_der_x509_certificate(made).matches_name("a.example"))
        self.assertFalse(ours.load_der_x509_certificate(made.replace(b"\x55\x1d\x12", b"\x55\x1d\x11")).matches_name("a.example"))

    def test_what_is_given(self) -> None:
        it = ours.load_der_x509_certificate(certificate([theirs.DNSName("a.example"), theirs.DNSName("192.0.2.1")]))
        self.assertTrue(it.matches_name(theirs.DNSName("A.example")))
        for name in (1, None, b"a.example", ours.RFC822Name("a@a.example"), ours.IPAddress(b"1"), ours.IPAddress(ipaddress.ip_network("192.0.2.0/24"))):
            self.assertRaises(TypeError, it.matches_name, name)
        self.assertRaises(TypeError, it.matches_email, b"a@a.example")
        # a DNSName isn't taken as an address
        for text in ("192.0.2.1", "::1", "*.example", ""):
            self.assertRaises(ours.X509Error, it.matches_name, ours.DNSName(text))


if __name__ == "__main__":
    unittest.main()
