#!/usr/bin/env python3
"""Compares whether certificates are those of hosts (RFC 9525) and mailboxes (RFC 5280 7.5) by the package for Python with what OpenSSL, Go and `cryptography`
say.

PACKAGE is the folder that holds the package `x509_cert`, and LIBRARY is `libx509.so`. Certificates with names of each form are asked about texts, each about
each. What is to be answered is stated here, by a regular expression and `ipaddress`, and the package has to answer that. OpenSSL is asked by openssl_names.c,
compiled here by $CC over libcrypto 3 with its headers: X509_check_host, X509_check_ip_asc and X509_check_email, with the flags
X509_CHECK_FLAG_NO_PARTIAL_WILDCARDS and X509_CHECK_FLAG_NEVER_CHECK_SUBJECT. Go's VerifyHostname is asked by go_names.go, built here without a network;
`cryptography`, which makes the certificates too, by a verification under their issuer, to which an address is given as an IPAddress. These two aren't asked
about mailboxes, for which they have no such call.

A text that is refused as a name, or a certificate that isn't read, names nothing. Where a peer answers otherwise than is wanted, one of the rows of DIFFERENCES
has to say why, by a section of a standard; an answer that none explains is a fault, and so is a row that explains none. The rows are those of OpenSSL 3.0, Go
1.19 and `cryptography` 48. What isn't installed is left out, with a line that says so.
"""
import argparse
import collections
import datetime
import ipaddress
import os
import pathlib
import re
import shutil
import subprocess
import sys
import tempfile
from typing import Callable, NamedTuple

from cryptography import x509
from cryptography.hazmat.primitives import hashes, serialization
from cryptography.hazmat.primitives.asymmetric import ec

try:
    from cryptography.x509 import verification
except ImportError:
    verification = None

sys.path.insert(0, str(pathlib.Path(__file__).resolve().parents[1]))
sys.dont_write_bytecode = True
from common.der import bit_string, element, octet_string, sequence, set_of

HERE = pathlib.Path(__file__).resolve().parent
DATES = datetime.datetime(2026, 1, 1), datetime.datetime(2027, 1, 1)
NOW = datetime.datetime(2026, 6, 1)
DER = serialization.Encoding.DER
KEY = ec.generate_private_key(ec.SECP256R1())
# ecdsa-with-SHA256 (RFC 5758 3.2)
ALGORITHM = bytes.fromhex("300a06082a8648ce3d040302")
# the choices of GeneralName (RFC 5280 4.2.1.6)
EMAIL, DNS, URI, IP = 0x81, 0x82, 0x86, 0x87

OPENSSL, GO, CRYPTOGRAPHY = "openssl", "go", "cryptography"
BOTH, ALL = (OPENSSL, GO), (OPENSSL, GO, CRYPTOGRAPHY)
# what is special about certificates
NOT_ASCII, NOT_ASCII_EITHER, PARTS = "a dNSName that isn't ASCII", "an rfc822Name that isn't ASCII", "a dNSName in parts"
X400, LENGTH, URI_NONE = "an x400Address", "an iPAddress of another length", "a URI that is none"
BER, BEHIND, FORM = "a SAN in BER", "octets behind the SAN", "a name of no form"
# what is wrong with a text
EMPTY, OCTET, STAR, SIZE = "an empty label", "an octet that no label has", "a '*'", "too long a label, or more than 253 octets"
HYPHEN, NUMBER = "a hyphen at an end of a label", "a last label of digits alone"

LABEL = r"(?!-)[A-Za-z0-9_-]{1,63}(?<!-)"
HOST = re.compile(rf"(?=[^\n]{{1,253}}\Z)(?:{LABEL}\.)*(?![0-9]+\Z){LABEL}\Z")
# characters without quotes and backslashes, or a quoted string (RFC 5321 4.1.2)
LOCAL = re.compile(r'(?:[ !#-\[\]-~]+|"(?:[ !#-\[\]-~]|\\[ -~])*")\Z')

# ---- what is asked

LONG, TOO_LONG = ".".join(["a" * 63] * 3 + ["b" * 61]), ".".join(["a" * 63] * 3 + ["b" * 62])
HOSTS = [
    *("www.example.org", "WWW.Example.ORG", "www.example.org.", "example.org", "a.www.example.org", "mail.example.org", "org", "localhost", "a.org"),
    *("w1.example.org", "*.example.org", "*.org", "*", "w*.example.org", "*w.example.org", "w*w.example.org", "www.*.org", "*.*.org", "**.example.org"),
    *("*.example.org.", "*.localhost", "a_b.example.org", "_dmarc.example.org", "www.a_b.org", "*.a_b.org", "*.www.example.org"),
    *("xn--bcher-kva.example.org", "XN--Bcher-KVA.example.org", "www.xn--bcher-kva.org", "*.xn--bcher-kva.org", "xn--*.example.org"),
    *("b\u00fccher.example.org", "-www.example.org", "www-.example.org", "w-w.example.org", "www.-example.org", "www.example-.org", "*.-example.org"),
    *("1.example.org", "www.example.1", "*.example.1", "1", "1.2.3", "1.2.3.4.5", "0x7f.1", "www.1a", "", ".", "..", ".example.org", "www..org"),
    *("www.example.org..", ".www.example.org", "a" * 63 + ".example.org", "a" * 64 + ".example.org", "*." + "a" * 64 + ".org", LONG, TOO_LONG, LONG + "."),
    *(".".join(["a"] * 127), ".".join(["a"] * 128), "*" + LONG[63:], "www.example.org\0", "www\0.example.org", "www.example.org\0.example.com"),
    *(" www.example.org", "www.example.org ", "www.example.org\n", "www.example.org:443", "www.example.org/", "[www.example.org]"),
]
ADDRESSES = [
    *("192.0.2.1", "192.0.2.01", " 192.0.2.1", "192.0.2.1 ", "192.0.2.+1", "192.0.2.1.", "192.0.2", "192.0.513", "192.0.2.256", "0xc0.0.2.1", "3221225985"),
    *("[192.0.2.1]", "::ffff:192.0.2.1", "::FFFF:c000:201", "::192.0.2.1", "::c000:201", "64:ff9b::192.0.2.1", "::", "::1", "0:0:0:0:0:0:0:1", "[::1]"),
    *("[::1", "2001:db8::1", "2001:DB8::1", "2001:0db8:0000:0000:0000:0000:0000:0001", "2001:db8:0:0::1", "[2001:db8::1]", "2001:db8::00001"),
    *("2001:db8:::1", "2001:db8::1%1", "2001:db8::1/128", "1:2:3:4:5:6:7:8", "1::2:3:4:5:6:7:8", "1:2:3:4:5:6:7:8:9", "1::3:4:5:6:7:8"),
    *("1:2:3:4:5:6:0.7.0.8", "1:2:3:4:5:6:0.7.0.08", "www.example.org"),
]
MAILBOXES = [
    *("a@example.org", "A@example.org", "a@EXAMPLE.org", "b@example.org", "a@www.example.org", "a.b@example.org", "a+b@example.org", '"a"@example.org'),
    *('""@example.org', '"a\\" @"@example.org', "a b@example.org", "a@b@example.org", "a@xn--bcher-kva.org", "a@a_b.org", "a@org", "example.org"),
    *(".example.org", "@example.org", "a@", "a", "a@example.org.", "a@.example.org", "a@*.example.org", "a@-example.org", "a@192.0.2.1", "a@[192.0.2.1]"),
    *('a"b@example.org', '"a@example.org', "a\\b@example.org", "a@" + LONG, "a@" + TOO_LONG, "\u00e4@example.org", "a\0@example.org", "a@example.org\0"),
    *("a@example.org\n", ""),
]


def packed(text):
    return ipaddress.ip_address(text).packed


def san(*names):
    """The value of a SAN with these names."""
    return sequence(*(element(tag, octets) for tag, octets in names))


class Certificate:
    """One with these names, by what is special about it in words. Some have no SAN, or two, or one that is no GeneralNames: then `counts` is false."""

    def __init__(self, names, words="", values=None, counts=True):
        self.names, self.words, self.counts = names, words, counts
        self.der = signed(KEY, [san(*names)] if values is None else values)


def name(text):
    return x509.Name([x509.NameAttribute(x509.NameOID.COMMON_NAME, text)])


def signed(key, values):
    """A certificate with these values of SANs, and with a host as its common name and a mailbox beside it."""
    subject = x509.Name([*name("www.example.org"), x509.NameAttribute(x509.NameOID.EMAIL_ADDRESS, "a@example.org")])
    made = x509.CertificateBuilder(name("root"), subject, key.public_key(), 2, *DATES)
    made = made.add_extension(x509.AuthorityKeyIdentifier.from_issuer_public_key(key.public_key()), False)
    for at, value in enumerate(values):
        # `cryptography` writes no extension twice: another OID of the same length, 2.5.29.99, is changed below
        made = made.add_extension(x509.UnrecognizedExtension(x509.ObjectIdentifier(f"2.5.29.{99 if at else 17}"), value), False)
    part = made.sign(key, hashes.SHA256()).tbs_certificate_bytes.replace(b"\x06\x03\x55\x1d\x63", b"\x06\x03\x55\x1d\x11")
    return sequence(part, ALGORITHM, bit_string(key.sign(part, ec.ECDSA(hashes.SHA256()))))


def root():
    usages = "digital_signature content_commitment key_encipherment data_encipherment key_agreement crl_sign encipher_only decipher_only".split()
    made = x509.CertificateBuilder(name("root"), name("root"), KEY.public_key(), 1, *DATES).add_extension(x509.BasicConstraints(True, None), True)
    made = made.add_extension(x509.KeyUsage(key_cert_sign=True, **dict.fromkeys(usages, False)), True)
    made = made.add_extension(x509.AuthorityKeyIdentifier.from_issuer_public_key(KEY.public_key()), False)
    return made.add_extension(x509.SubjectKeyIdentifier.from_public_key(KEY.public_key()), False).sign(KEY, hashes.SHA256())


def hosts():
    """Certificates with one dNSName, the texts themselves, or with several."""
    ascii_only = [it.encode("latin-1") for it in HOSTS if it.isascii()]
    yield from (Certificate([(DNS, it)]) for it in ascii_only)
    # every other name, and those between
    yield from (Certificate([(DNS, it) for it in ascii_only[front::2]]) for front in range(2))
    for text in ("192.0.2.1", "::1", "[::1]"):
        # the text of an address is no DNS name (RFC 9525 6.4)
        yield Certificate([(DNS, text.encode())])
        yield Certificate([(IP, text.encode().ljust(16)), (DNS, text.encode())])


def addresses():
    """Certificates with one iPAddress, or with several."""
    texts = "192.0.2.1 ::ffff:192.0.2.1 ::192.0.2.1 64:ff9b::192.0.2.1 ::1 :: 2001:db8::1 1:2:3:4:5:6:7:8 1:0:3:4:5:6:7:8"
    known = [packed(it) for it in texts.split()]
    yield from (Certificate([(IP, it)]) for it in known)
    yield Certificate([(IP, it) for it in known])
    yield Certificate([(IP, packed("192.0.2.2")), (DNS, b"192.0.2.1"), (URI, b"https://192.0.2.1/"), (DNS, b"*.0.2.1")])


def mailboxes():
    yield from (Certificate([(EMAIL, it.encode("latin-1"))]) for it in MAILBOXES if it.isascii())
    yield Certificate([(EMAIL, it.encode("latin-1")) for it in MAILBOXES if it.isascii()])
    yield Certificate([(DNS, b"example.org"), (URI, b"mailto:a@example.org")])


def specials():
    """Certificates whose SAN is missing, twice, spoilt, or has names that are unusual."""
    names = [(DNS, b"www.example.org"), (IP, packed("192.0.2.1")), (EMAIL, b"a@example.org")]
    value = san(*names)
    content = value[2:]
    yield Certificate(names, "three names")
    yield Certificate([], "no SAN", [])
    yield Certificate([], "an empty SAN", [sequence()])
    yield Certificate(names, "two SANs", [value, value], False)
    second = (DNS, b"mail.example.org")
    yield Certificate([*names, second], "two SANs", [value, san(second)], False)
    # a length in more octets than it needs
    yield Certificate(names, BER, [b"\x30\x81" + value[1:]], False)
    yield Certificate(names, "a SAN that is cut", [value[:-1]], False)
    yield Certificate(names, BEHIND, [value + b"\x05\x00"], False)
    yield Certificate(names, "a SET", [set_of(content)], False)
    yield Certificate(names, "an OCTET STRING", [octet_string(content)], False)
    yield Certificate([], "a SAN without octets", [b""], False)
    yield Certificate(names, FORM, [sequence(content, element(0x89, b"x"))], False)
    yield Certificate(names, X400, [sequence(content, element(0xA3, sequence()))], False)
    yield Certificate(names, NOT_ASCII, [sequence(content, element(DNS, b"b\xfccher.example"))], False)
    yield Certificate(names, NOT_ASCII_EITHER, [sequence(content, element(EMAIL, "\u00e4@example.org".encode()))], False)
    yield Certificate([*names, (DNS, b"example.org")], PARTS, [sequence(content, element(0xA2, element(0x16, b"example.org")))], False)
    for count in (0, 5, 8, 17):
        yield Certificate(names, LENGTH, [sequence(content, element(IP, bytes(count)))])
    yield Certificate(names, URI_NONE, [sequence(content, element(URI, b"http://[::1"))])
    yield Certificate(names, "a directoryName", [sequence(content, element(0xA4, name("www.example.org").public_bytes()))])
    yield Certificate(names, "an otherName", [sequence(content, element(0xA0, bytes.fromhex("06032a0304"), element(0xA0, b"\x05\x00")))])
    yield Certificate(names, "a registeredID", [sequence(content, element(0x88, b"\x2a\x03\x04"))])


# ---- what is to be answered


class Pair(NamedTuple):
    certificate: Certificate
    how: str  # host, or email
    text: str

    def named(self, tag):
        return [octets.decode("latin-1") for kind, octets in self.certificate.names if kind == tag]

    def is_named(self):
        """Whether a name of the certificate is that of the peer."""
        return is_mailbox(self, self.text) if self.how == "email" else is_server(self, self.text)

    def is_wanted(self):
        return self.certificate.counts and self.is_named()

    def is_same(self):
        """Whether a name is the text itself, but for case."""
        return self.text.lower() in (it.lower() for it in self.named(EMAIL if self.how == "email" else DNS))


def is_host(text):
    """Whether it is a DNS name: letters, digits, hyphens and underscores (RFC 1034 3.5, RFC 1123 2.1), without the root's dot."""
    return HOST.match(text) is not None


def is_host_named(it, host):
    """Whether a dNSName is that of the host (RFC 9525 6.3): '*' is the whole first label, and stands for one; two labels or more are behind it."""
    it, host = it.lower(), host.lower()
    if is_host(it):
        return it == host
    return it.startswith("*.") and is_host(it[2:]) and "." in it[2:] and host.partition(".")[2] == it[2:]


def address_of(text):
    """The octets of an address, which may stand in brackets where it is one of IPv6 (RFC 3986 3.2.2); None where the text is none."""
    bare = text[1:-1] if re.fullmatch(r"\[[^\]]*:[^\]]*\]", text) else text
    try:
        return None if "%" in bare else packed(bare)
    except ValueError:
        return None


def is_server(pair, text):
    address = address_of(text)
    if address is not None:
        return address.decode("latin-1") in pair.named(IP)
    host = text.removesuffix(".")
    return is_host(host) and any(is_host_named(it, host) for it in pair.named(DNS))


def is_mailbox(pair, text):
    local, at, host = text.rpartition("@")
    if not (at and LOCAL.match(local) and is_host(host)):
        return False
    found = [it.rpartition("@") for it in pair.named(EMAIL)]
    return any(own == local and is_host(behind) and behind.lower() == host.lower() for own, _, behind in found)


# ---- the differences


def fault_of(text):
    """Why a text that is no address is no DNS name, or None."""
    bare = text.removesuffix(".")
    labels = bare.split(".")
    if "" in labels:
        return EMPTY
    if re.search(r"[^A-Za-z0-9_.*-]", bare):
        return OCTET
    if "*" in bare:
        return STAR
    if max(map(len, labels)) > 63 or len(bare) > 253:
        return SIZE
    if any(it.startswith("-") or it.endswith("-") for it in labels):
        return HYPHEN
    return NUMBER if labels[-1].isdigit() else None


class Difference(NamedTuple):
    """Why a peer names, or doesn't, where that isn't what is wanted."""

    peers: tuple[str, ...]
    is_named: bool
    what: str
    section: str
    explains: Callable[[Pair], bool]


def is_alike(pair):
    """Whether a dNSName is the text but for case and the root's dot, or a wildcard for it, whatever its labels have."""
    text = pair.text.lower()
    bare = text.removesuffix(".")
    return any(it.lower() in (text, bare, re.sub(r"^[^.]*", "*", bare)) for it in pair.named(DNS))


def same_text(fault):
    return lambda pair: pair.how == "host" and address_of(pair.text) is None and fault_of(pair.text) == fault and is_alike(pair)


def special(words):
    return lambda pair: pair.certificate.words == words and pair.is_named()


def is_domain(pair):
    """The text begins with a dot, and a dNSName ends with it."""
    return pair.how == "host" and pair.text.startswith(".") and any(it.lower().endswith(pair.text.lower()) for it in pair.named(DNS))


def has_zero(pair):
    """A zero behind a name."""
    return pair.text.endswith("\0") and pair._replace(text=pair.text[:-1]).is_named()


def is_rooted(pair):
    return pair.how == "host" and pair.text.endswith(".") and is_host(pair.text[:-1])


def is_rooted_twice(pair):
    """The dNSName has the dot too."""
    return is_rooted(pair) and pair.text.lower() in (it.lower() for it in pair.named(DNS))


def is_underscored(pair):
    return pair.how == "host" and "_" in pair.text


def is_short_wildcard(pair):
    """A '*' in front of one label or none, for a host of as many labels."""
    host = pair.text.lower()
    behind = [it[2:].lower() for it in pair.named(DNS) if it == "*" or it.startswith("*.")]
    return pair.how == "host" and is_host(host) and any("." not in it and host.partition(".")[2] == it for it in behind)


def is_bracketed(pair):
    return pair.how == "host" and pair.text.startswith("[") and address_of(pair.text) is not None


def is_bracketed_ipv4(pair):
    return pair.how == "host" and re.fullmatch(r"\[[0-9.]+\]", pair.text) is not None and address_of(pair.text[1:-1]) is not None


def has_long_group(pair):
    """More than four digits between colons, of an address that is named."""
    text = re.sub(r":0+(?=[0-9A-Fa-f]{4})", ":", pair.text)
    return pair.how == "host" and address_of(pair.text) is None and pair._replace(text=text).is_named()


def is_loose(pair):
    """Four numbers with zeros, signs or spaces in front, or spaces behind, of an address that is named."""
    text = re.sub(r"(^|\.)\s*\+?0*(?=\d)", r"\1", pair.text).rstrip()
    return pair.how == "host" and address_of(pair.text) is None and pair._replace(text=text).is_named()


def is_mapped(pair):
    """An address of IPv4 in the one, and in the other the same in ::ffff:0:0/96."""
    address, front = address_of(pair.text) or b"", bytes(10) + b"\xff\xff"
    return (front + address if len(address) == 4 else address.removeprefix(front)).decode("latin-1") in pair.named(IP)


def is_literal(pair):
    return pair.how == "email" and pair.text.endswith("]") and pair.is_same()


def is_no_mailbox(pair):
    """The text has no local part, or no DNS name as its host."""
    local, at, host = pair.text.rpartition("@")
    return pair.how == "email" and not is_literal(pair) and not (at and LOCAL.match(local) and is_host(host)) and pair.is_same()


DIFFERENCES = [
    # of the text
    Difference(BOTH, True, f"a dNSName is the same text, which has {EMPTY}", "RFC 1034 3.5", same_text(EMPTY)),
    Difference(BOTH, True, f"a dNSName is the same text, which has {OCTET}", "RFC 1034 3.5", same_text(OCTET)),
    Difference(BOTH, True, f"a dNSName is the same text, which has {STAR}: wildcards are the certificate's", "RFC 9525 6.3", same_text(STAR)),
    Difference(BOTH, True, f"a dNSName is the same text, which has {SIZE}", "RFC 1035 2.3.4", same_text(SIZE)),
    Difference(BOTH, True, f"a dNSName is the same text, which has {HYPHEN}", "RFC 1034 3.5", same_text(HYPHEN)),
    Difference(ALL, True, f"a dNSName is the same text, which has {NUMBER}", "RFC 1123 2.1", same_text(NUMBER)),
    Difference((OPENSSL,), True, "a text with a dot in front is taken for what is below it, and is no DNS name", "RFC 1034 3.5", is_domain),
    Difference((OPENSSL,), True, "a zero behind the text is passed over", "RFC 1034 3.5", has_zero),
    Difference((OPENSSL, CRYPTOGRAPHY), False, "the root's dot at the end of the text", "RFC 1034 3.1", is_rooted),
    Difference((OPENSSL,), True, "an IPv4 address with zeros, signs or spaces in it", "RFC 3986 3.2.2", is_loose),
    Difference((GO,), True, "an IPv4 address in brackets, which are those of IPv6", "RFC 3986 3.2.2", is_bracketed_ipv4),
    Difference((OPENSSL,), False, "an IPv6 address in brackets", "RFC 3986 3.2.2", is_bracketed),
    Difference((OPENSSL,), True, "an IPv6 address in brackets, which a dNSName has as its text", "RFC 9525 6.4", is_bracketed),
    Difference((GO,), True, "an IPv6 address with a group of more than four digits", "RFC 4291 2.2", has_long_group),
    # of names
    Difference(BOTH, True, "the root's dot at the end of the dNSName too, where names have none", "RFC 5280 4.2.1.6", is_rooted_twice),
    Difference((OPENSSL,), False, "a '*' beside '_' in a label: a label may have any octet, and this one is in use", "RFC 2181 11", is_underscored),
    Difference((CRYPTOGRAPHY,), False, "'_' in a label, which may have any octet, and this one is in use", "RFC 2181 11", is_underscored),
    Difference((GO, CRYPTOGRAPHY), True, "a '*' for all of a top-level domain, or for a label alone, which is left open", "RFC 9525 7.1", is_short_wildcard),
    Difference((GO,), True, "an IPv4 address mapped into IPv6 is compared as that of IPv4, and not by its octets", "RFC 9525 6.4", is_mapped),
    # of mailboxes
    Difference((OPENSSL,), True, "an rfc822Name is the same text, which is no Mailbox of a host by its name", "RFC 5280 4.2.1.6", is_no_mailbox),
    Difference((OPENSSL,), True, "an rfc822Name of an address literal: the package has none of these, though there are such", "RFC 5321 4.1.3", is_literal),
    # of the SAN
    Difference((OPENSSL,), True, "the SAN has a length in more octets than it needs", "X.690 10.1", special(BER)),
    Difference(BOTH, True, "octets behind the SAN, where the extension holds one value", "RFC 5280 4.2", special(BEHIND)),
    Difference((OPENSSL,), True, "the SAN has a dNSName that is no IA5String", "RFC 5280 4.2.1.6", special(NOT_ASCII)),
    Difference((OPENSSL, CRYPTOGRAPHY), True, "the SAN has an rfc822Name that is no IA5String", "RFC 5280 4.2.1.6", special(NOT_ASCII_EITHER)),
    Difference(BOTH, True, "the SAN has a string in parts", "X.690 10.2", special(PARTS)),
    Difference((GO,), True, "the SAN has what is no GeneralName", "RFC 5280 4.2.1.6", special(FORM)),
    Difference(ALL, True, "the SAN has an x400Address: the package decodes none of these, though there are such", "RFC 5280 4.2.1.6", special(X400)),
    Difference((GO,), False, "an iPAddress of another length: it names nothing, and the other names do", "RFC 9525 6.4", special(LENGTH)),
    Difference((GO,), False, "a URI that can't be taken apart: it names nothing, and the other names do", "RFC 9525 6.5", special(URI_NONE)),
]


# ---- the peers


class Program:
    """A program that answers lines."""

    def __init__(self, path, hows):
        self.path, self.hows = path, hows

    def answers(self, pairs):
        lines, last = [], None
        for pair in pairs:
            if pair.certificate is not last:
                last = pair.certificate
                lines.append(f"certificate {last.der.hex()}\n")
            lines.append(f"{pair.how} {pair.text.encode().hex()}\n")
        ended = subprocess.run([self.path], input="".join(lines), capture_output=True, text=True, check=True)
        return ended.stdout.splitlines()


class Cryptography:
    """A verification of the certificate under its issuer, which asks for no extension but a SAN."""

    hows = ("host",)

    def __init__(self):
        policy = verification.ExtensionPolicy
        asked = policy.permit_all().require_present(x509.SubjectAlternativeName, verification.Criticality.AGNOSTIC, None)
        self.builder = verification.PolicyBuilder().store(verification.Store([root()])).time(NOW)
        self.builder = self.builder.extension_policies(ca_policy=policy.webpki_defaults_ca(), ee_policy=asked)

    def answers(self, pairs):
        return [self.answer(it) for it in pairs]

    def answer(self, pair):
        address = address_of(pair.text)
        try:
            subject = x509.DNSName(pair.text) if address is None else x509.IPAddress(ipaddress.ip_address(address))
            verifier = self.builder.build_server_verifier(subject)
        except ValueError:
            return "refused"
        try:
            verifier.verify(x509.load_der_x509_certificate(pair.certificate.der), [])
        except verification.VerificationError as fault:
            return "not named" if "no matching subjectAltName" in str(fault) else "no certificate"
        except (ValueError, x509.DuplicateExtension):
            return "no certificate"
        return "named"


class Ours:
    hows = ("host", "email")

    def __init__(self, package):
        self.package = package

    def answers(self, pairs):
        return [self.answer(it) for it in pairs]

    def answer(self, pair):
        try:
            certificate = self.package.load_der_x509_certificate(pair.certificate.der)
        except self.package.X509Error:
            return "no certificate"
        try:
            is_named = certificate.matches_email(pair.text) if pair.how == "email" else certificate.matches_name(pair.text)
        except self.package.X509Error:
            return "refused"
        return "named" if is_named else "not named"


def build(words, what):
    """Whether a program can be built."""
    ended = subprocess.run(words, capture_output=True, text=True, check=False, env={**os.environ, "GO111MODULE": "off", "GOFLAGS": "", "GOPROXY": "off"})
    if ended.returncode:
        print(f"left out, since it can't be built ({' '.join(ended.stderr.split())[-100:]}): {what}")
    return ended.returncode == 0


def peers(folder):
    """Those that are installed, by name."""
    found = {}
    if hasattr(verification, "ExtensionPolicy"):
        found[CRYPTOGRAPHY] = Cryptography()
    else:
        print("left out, since cryptography 45 or later isn't installed: names of peers beside cryptography")
    program = folder / "openssl_names"
    if build([os.environ.get("CC", "cc"), "-std=c11", "-O1", HERE / "openssl_names.c", "-lcrypto", "-o", program], "names of peers beside OpenSSL"):
        found[OPENSSL] = Program(program, ("host", "email"))
    program = folder / "go_names"
    if shutil.which("go") is None:
        print("left out, since go isn't installed: names of peers beside Go")
    elif build(["go", "build", "-o", program, HERE / "go_names.go"], "names of peers beside Go"):
        found[GO] = Program(program, ("host",))
    return found


def asked():
    """Each certificate about each text; the special ones about plain texts, so that one thing is special about a pair."""
    others = [*specials()]
    plain = ["www.example.org", "WWW.Example.ORG", "mail.example.org", "example.org", "192.0.2.1", "192.0.2.2", "::", "2001:db8::1"]
    tables = [
        ("host", [*hosts(), *addresses()], [*HOSTS, *ADDRESSES]),
        ("email", [*mailboxes()], MAILBOXES),
        ("host", others, plain),
        ("email", others, ["a@example.org", "a@EXAMPLE.ORG", "A@example.org", "b@example.org"]),
    ]
    return [Pair(certificate, how, text) for how, certificates, texts in tables for certificate in certificates for text in texts]


def shown(pair):
    names = ", ".join(repr(octets)[1:] for _, octets in pair.certificate.names[:4])
    return f"{pair.how} {pair.text!r}, and a certificate of {names or 'nothing'}{f' ({pair.certificate.words})' if pair.certificate.words else ''}"


def compare(peer, it, pairs):
    """Prints what a peer answers otherwise than is wanted, and says how many answers there are that no row explains, and rows that explain none."""
    rows = [row for row in DIFFERENCES if peer in row.peers]
    counts, alike, faults = collections.Counter(), 0, 0
    pairs = [pair for pair in pairs if pair.how in it.hows]
    for pair, answer in zip(pairs, it.answers(pairs), strict=True):
        is_named = answer == "named"
        if is_named == pair.is_wanted():
            alike += 1
            continue
        row = next((row for row in rows if row.is_named == is_named and row.explains(pair)), None)
        if row is None:
            faults += 1
            print(f"failed: {peer} answers {answer!r}: {shown(pair)}")
        else:
            counts[row.what] += 1
    print(f"{peer}: {len(pairs):,} pairs, {alike:,} answered as is wanted")
    for row in rows:
        if counts[row.what]:
            print(f"    {counts[row.what]} are {'named' if row.is_named else 'not named'}: {row.what} ({row.section})")
        else:
            faults += 1
            print(f"failed: {peer}: no pair is answered otherwise since {row.what} ({row.section})")
    return faults


def main():
    parser = argparse.ArgumentParser(description=__doc__, formatter_class=argparse.RawDescriptionHelpFormatter)
    parser.add_argument("package", metavar="PACKAGE", type=pathlib.Path)
    parser.add_argument("library", metavar="LIBRARY", type=pathlib.Path)
    given = parser.parse_args()
    os.environ["X509_LIBRARY"] = str(given.library.resolve())
    sys.path.insert(0, str(given.package.resolve()))
    import x509_cert as package

    pairs = asked()
    with tempfile.TemporaryDirectory() as name_of:
        faults = sum(compare(peer, it, pairs) for peer, it in {"the package": Ours(package), **peers(pathlib.Path(name_of))}.items())
    named = sum(it.is_wanted() for it in pairs)
    print(f"{'failed' if faults else 'passed'}: {len(pairs):,} pairs of a certificate and a name, of which {named} are named; {faults} faults")
    return int(bool(faults))


if __name__ == "__main__":
    sys.exit(main())
