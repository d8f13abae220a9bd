"""Makes what time_validating.py asks about: paths of certificates and a CRL, with signatures by keys of P-256 of Python's `cryptography`; each valid, and
with something spoilt.

A case is a file of records: an octet that says what follows, its length in four octets, the most significant first, and the bytes. There are `a`, the
anchor's certificate; `c`, each certificate of the path, the topmost first; `l`, a CRL of the issuer of the last; and where a policy is asked for `p`, a
CertificatePolicies of it, and `o`, its OID as an element.
"""
import functools
import hashlib
import typing

from cryptography.hazmat.primitives import hashes, serialization
from cryptography.hazmat.primitives.asymmetric import ec

from common.der import (
    BIT_STRING,
    PRINTABLE_STRING,
    TRUE,
    UTC_TIME,
    UTF8_STRING,
    bit_string,
    context,
    element,
    integer,
    object_identifier,
    octet_string,
    sequence,
    set_of,
)

ECDSA_SHA256 = sequence(object_identifier(1, 2, 840, 10045, 4, 3, 2))
DATES, PAST = (b"260101000000Z", b"271201000000Z"), (b"240101000000Z", b"251201000000Z")
SERVER_AUTH, CLIENT_AUTH = (object_identifier(1, 3, 6, 1, 5, 5, 7, 3, it) for it in (1, 2))
OCSP, ISSUERS = (object_identifier(1, 3, 6, 1, 5, 5, 7, 48, it) for it in (1, 2))
DOMAIN_VALIDATED = object_identifier(2, 23, 140, 1, 2, 1)
DNS, URI = 0x82, 0x86
ROOT = "Root"


class Case(typing.NamedTuple):
    """A path, topmost first, below the root; and what else is asked for."""

    path: list
    crl: bytes = b""
    policy: bytes = b""

    def records(self):
        yield b"a", root()
        for it in self.path:
            yield b"c", it
        if self.crl:
            yield b"l", self.crl
        if self.policy:
            yield b"p", sequence(sequence(self.policy))
            yield b"o", self.policy

    def put(self, file):
        file.write_bytes(b"".join(kind + len(octets).to_bytes(4, "big") + octets for kind, octets in self.records()))

    def __len__(self):
        return sum(map(len, self.path)) + len(self.crl)


@functools.cache
def key_of(_name):
    """The key of who has this name."""
    return ec.generate_private_key(ec.SECP256R1())


@functools.cache
def info_of(name):
    return key_of(name).public_key().public_bytes(serialization.Encoding.DER, serialization.PublicFormat.SubjectPublicKeyInfo)


def identifier_of(name):
    return hashlib.sha1(info_of(name)).digest()


def number_of(text):
    """A serial number of 16 octets."""
    return integer(int.from_bytes(hashlib.sha256(text.encode()).digest()[:16], "big") >> 1 | 1 << 126)


def signed(part, issuer):
    """A signed part with its signature (RFC 5280 4.1, 5.1)."""
    return sequence(part, ECDSA_SHA256, bit_string(key_of(issuer).sign(part, ec.ECDSA(hashes.SHA256()))))


def attribute(last, kind, text):
    return set_of(sequence(object_identifier(2, 5, 4, last), element(kind, text.encode())))


@functools.cache
def name_of(text):
    return sequence(attribute(6, PRINTABLE_STRING, "NL"), attribute(10, UTF8_STRING, "Authorities"), attribute(3, UTF8_STRING, text))


def dates(pair):
    return [element(UTC_TIME, it) for it in pair]


def extension(oid, value, critical=False):
    return sequence(oid, *([TRUE] if critical else []), octet_string(value))


def standard(last, value, critical=False):
    """One of id-ce (RFC 5280 4.2.1)."""
    return extension(object_identifier(2, 5, 29, last), value, critical)


def certificate(issuer, subject, *extensions, is_authority=False, path_len=None, when=DATES):
    limits = [TRUE, *([] if path_len is None else [integer(path_len)])] if is_authority else []
    usages = bit_string(b"\x06", 1) if is_authority else bit_string(b"\x80", 7)
    own = [
        standard(19, sequence(*limits), True),
        standard(15, usages, True),
        standard(14, octet_string(identifier_of(subject))),
        standard(35, sequence(element(0x80, identifier_of(issuer)))),
    ]
    parts = [context(0, integer(2)), number_of(subject), ECDSA_SHA256, name_of(issuer), sequence(*dates(when)), name_of(subject), info_of(subject)]
    return signed(sequence(*parts, context(3, sequence(*own, *extensions))), issuer)


@functools.cache
def root():
    return certificate(ROOT, ROOT, is_authority=True)


def authority(issuer, subject, *extensions, **more):
    return certificate(issuer, subject, *extensions, **{"is_authority": True, **more})


def hosts(texts):
    return standard(17, sequence(*(element(DNS, it.encode()) for it in texts)))


def purposes():
    return standard(37, sequence(SERVER_AUTH, CLIENT_AUTH))


def policies(oids):
    return standard(32, sequence(*(sequence(it) for it in oids)))


def access(place):
    pairs = (sequence(OCSP, element(URI, b"http://ocsp.example.net")), sequence(ISSUERS, element(URI, b"http://ca.example.net/%s.crt" % place)))
    return extension(object_identifier(1, 3, 6, 1, 5, 5, 7, 1, 1), sequence(*pairs))


def points(place):
    return standard(31, sequence(sequence(context(0, context(0, element(URI, b"http://crl.example.net/%s.crl" % place))))))


def timestamps():
    """A list of two SCTs (RFC 6962 3.3), whose signatures are of nothing."""

    def vector(octets):
        return len(octets).to_bytes(2, "big") + octets

    def one(log):
        octets = [hashlib.sha256(b"%d %d" % (log, it)).digest() for it in range(3)]
        signature = sequence(*(integer(int.from_bytes(it, "big") >> 1) for it in octets[1:]))
        return vector(b"\x00" + octets[0] + (1_767_225_600_000 + log).to_bytes(8, "big") + b"\x00\x00\x04\x03" + vector(signature))

    return extension(object_identifier(1, 3, 6, 1, 4, 1, 11129, 2, 4, 2), octet_string(vector(one(1) + one(2))))


def leaf(issuer, *extensions, **more):
    return certificate(issuer, "www.example.org", *extensions, purposes(), **more)


def tls(is_spoilt=False):
    """A certificate of a server as those of the web are, below an intermediate; spoilt: which is no authority."""
    issuer = "TLS Authority"
    above = [purposes(), policies([DOMAIN_VALIDATED]), access(b"root"), points(b"root")]
    names = hosts(["www.example.org", "example.org", "api.example.org"])
    last = leaf(issuer, names, policies([DOMAIN_VALIDATED]), access(b"tls"), points(b"tls"), timestamps())
    return [certificate(ROOT, issuer, *above, is_authority=not is_spoilt, path_len=None if is_spoilt else 0), last]


def below_each_other(count, own, last=(), **more):
    """A leaf below so many authorities; of the one at a place `own` and `more` make what it has beside the usual."""
    above, path = ROOT, []
    for place in range(count):
        subject = f"Authority {place}"
        path.append(authority(above, subject, *own(place), **{word: it(place) for word, it in more.items()}))
        above = subject
    return [*path, leaf(above, hosts(["www.example.org"]), *last)]


def policy(number):
    return object_identifier(1, 3, 6, 1, 4, 1, 99999, 5, number)


def lacking(oids, is_lacking):
    """The policies of an authority; another one in place of the first, where it lacks that."""
    return [policy(0), *oids[1:]] if is_lacking else oids


def ten(is_spoilt, asked=b""):
    """Ten authorities; spoilt: one of them, in the middle, lacks the policy that is asked for; or else its path length constraint is too low."""
    oids = [policy(it) for it in (1, 2, 3)]
    path = below_each_other(
        10,
        lambda place: [policies(lacking(oids, is_spoilt and asked and place == 5))],
        [policies(oids)],
        path_len=lambda place: 2 if is_spoilt and not asked and place == 5 else 9 - place,
    )
    return Case(path, policy=asked)


def constrained(count, subtrees):
    """So many names under so many permitted and as many excluded subtrees; spoilt: one name is below none of the first."""

    def made(is_spoilt):
        issuer = "Names Authority"
        permitted, excluded = ([sequence(element(DNS, b"%sp%d.test" % (front, it))) for it in range(subtrees)] for front in (b"", b"x."))
        names = [f"h{it}.p{it % subtrees}.test" for it in range(count)]
        if is_spoilt:
            names[-1] = f"h.q{subtrees}.test"
        limits = standard(30, sequence(context(0, *permitted), context(1, *excluded)), True)
        return Case([authority(ROOT, issuer, limits, path_len=0), leaf(issuer, hosts(names))])

    return made


def mapped(count, listed):
    """So many authorities of so many policies and as many mappings. The first half of the policies are pairs, in each of which both are mapped to both, so that
    the tree of RFC 5280 6.1.2 (a) doubles with each certificate, and the others are mapped to themselves. The first is asked for; spoilt: one authority in
    the middle lacks it and the other of its pair."""

    def made(is_spoilt):
        oids = [policy(it + 1) for it in range(listed)]
        pairs = [(it, to) for at in range(0, listed // 2 - 1, 2) for it in (at, at + 1) for to in (at, at + 1)]
        pairs += [(it, it) for it in range(len(pairs) // 2, listed - len(pairs) // 2)]
        mappings = standard(33, sequence(*(sequence(oids[it], oids[to]) for it, to in pairs)))

        def own(place):
            is_lacking = is_spoilt and place == count // 2
            return [policies([policy(0), policy(listed + 1), *oids[2:]] if is_lacking else oids), mappings]

        return Case(below_each_other(count, own, [policies(oids)]), policy=oids[0])

    return made


def listing(entries):
    """The chain of `tls`, and a CRL of so many entries; spoilt: one of them is of the leaf."""

    def made(is_spoilt):
        issuer, found = "TLS Authority", []
        for place in range(entries):
            serial = number_of("www.example.org" if is_spoilt and place == entries - entries // 100 else f"revoked {place}")
            reason = [sequence(standard(21, element(0x0A, bytes([1 + place // 3 % 5]))))] if place % 3 == 0 else []
            found.append(sequence(serial, element(UTC_TIME, b"26%02d%02d%02d%02d00Z" % (1 + place % 9, 1 + place % 28, place % 24, place % 60)), *reason))
        own = [standard(35, sequence(element(0x80, identifier_of(issuer)))), standard(20, integer(77))]
        part = sequence(integer(1), ECDSA_SHA256, name_of(issuer), *dates(DATES), sequence(*found), context(0, sequence(*own)))
        return Case(tls(), crl=signed(part, issuer))

    return made


def many(count):
    """So many certificates; spoilt: one in the middle is no authority."""

    def made(is_spoilt):
        return Case(below_each_other(count - 1, lambda place: [], is_authority=lambda place: not is_spoilt or place != count // 2))

    return made


def extended(count):
    """A leaf of so many extensions that nobody knows, below an authority of as many; spoilt: two of the leaf have one OID."""

    def made(is_spoilt):
        issuer = "Wide Authority"
        unknown = [extension(policy(it + 1), sequence()) for it in range(count)]
        again = unknown[:1] if is_spoilt else []
        return Case([authority(ROOT, issuer, *unknown, path_len=0), leaf(issuer, hosts(["www.example.org"]), *unknown, *again)])

    return made


def long(size):
    """A leaf with so many bytes of names of servers; spoilt: it isn't valid any more."""

    def made(is_spoilt):
        issuer = "TLS Authority"
        names = hosts(f"h{it:07}.t.org" for it in range(size // 16))
        return Case([authority(ROOT, issuer, path_len=0), leaf(issuer, names, when=PAST if is_spoilt else DATES)])

    return made


LISTED = functools.cache(listing(100_000))
# A word, what it is, how it is asked, and what makes it.
INPUTS = [
    ("tls", "a TLS chain: leaf, intermediate, root", "path", lambda is_spoilt: Case(tls(is_spoilt))),
    ("ten", "ten authorities", "path", ten),
    ("policies", "the same with policies", "path", lambda is_spoilt: ten(is_spoilt, policy(1))),
    ("names", "1,000 names under 100 + 100 subtrees", "path", constrained(1_000, 100)),
    ("many-names", "5,000 under 5,000 + 5,000", "path", constrained(5_000, 5_000)),
    ("mappings", "20 authorities of 50 policies and 50 mappings", "path", mapped(20, 50)),
    ("crl", "a CRL of 100,000, read and asked once", "crl", LISTED),
    ("again", "the same, asked again", "again", LISTED),
    ("certificates", "1,000 certificates", "path", many(1_000)),
    ("extensions", "800 extensions in each of two certificates", "path", extended(800)),
    ("levels", "80 authorities of 22 policies and 22 mappings", "path", mapped(80, 22)),
    ("long", "16 MB of names", "path", long(1 << 24)),
]
# A word, what grows, what makes it, and three sizes, each twice the one before.
GROWING = [
    ("certificates", "certificates", many, (250, 500, 1_000)),
    ("many-names", "names under as many permitted and as many excluded subtrees", lambda it: constrained(it, it), (1_250, 2_500, 5_000)),
    ("extensions", "extensions in each of two certificates", extended, (200, 400, 800)),
    ("levels", "authorities of 22 policies and 22 mappings", lambda it: mapped(it, 22), (20, 40, 80)),
    ("mappings", "policies and mappings in each of 20 authorities", lambda it: mapped(20, it), (50, 100, 200)),
    ("long", "bytes of names", long, (1 << 22, 1 << 23, 1 << 24)),
]
