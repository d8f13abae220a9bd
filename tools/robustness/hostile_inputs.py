"""The inputs of `hostile_sizes.py`: values that are deep or wide.

The smallest that there is stands in each place that isn't tried: names without members, one algorithm without parameters, an empty key."""
import functools
import pathlib
import sys

sys.path.insert(0, str(pathlib.Path(__file__).resolve().parents[1]))
from common.der import BIT_STRING, BMP_STRING, IA5_STRING, INTEGER, NULL, OCTET_STRING
from common.der import PRINTABLE_STRING, TELETEX_STRING, UTC_TIME, UTF8_STRING
from common.der import bit_string, context, element, integer, object_identifier, octet_string, sequence, set_of

COUNTS = [1_000, 10_000, 100_000]
LEVELS = COUNTS + [1_000_000]


def identifier(number):
    """The object identifier 1.2.number."""
    return object_identifier(1, 2, number)


COMMON_NAME, BITS, TIME = object_identifier(2, 5, 4, 3), bit_string(b""), element(UTC_TIME, b"260102030405Z")
# the moment of TIME
SECONDS = 1767323045
ONE = identifier(1)
ALGORITHM = sequence(ONE)
# the reason of an entry: keyCompromise (RFC 5280 5.3.1)
REASON = sequence(object_identifier(2, 5, 29, 21), octet_string(b"\x0a\x01\x01"))


def attribute(number):
    """CN=number, in eight digits: as the numbers rise, so do the encodings."""
    return sequence(COMMON_NAME, element(UTF8_STRING, b"%08d" % number))


def relative_name(number):
    return set_of(attribute(number))


def long_name(number):
    """A relative name whose value isn't kept in place."""
    return set_of(sequence(COMMON_NAME, element(UTF8_STRING, b"a" * 40, b"%08d" % number)))


def common_name(value):
    return sequence(set_of(sequence(COMMON_NAME, value)))


def extension(number):
    return sequence(identifier(number), octet_string())


def valued(number, *values):
    """An attribute of a request: an identifier, and a set of values."""
    return sequence(identifier(number), set_of(*(values or [NULL])))


def dns_name(number):
    return element(0x82, b"%d.example" % number)


def other_name(value):
    return context(0, ONE, context(0, value))


def policy(number):
    return sequence(identifier(number))


def point(number):
    return sequence(context(0, context(0, dns_name(number))))


def entry(number, *extensions):
    return sequence(integer(number), TIME, *([sequence(*extensions)] if extensions else []))


def certificate(subject=sequence(), algorithm=ALGORITHM, extensions=()):
    names = [sequence(), sequence(TIME, TIME), subject]
    rest = [sequence(algorithm, BITS), context(3, sequence(*extensions))]
    return sequence(sequence(context(0, integer(2)), integer(1), algorithm, *names, *rest), algorithm, BITS)


def crl(entries=(), extensions=(), issuer=sequence()):
    rest = [sequence(*entries), context(0, sequence(*extensions))]
    return sequence(sequence(integer(1), ALGORITHM, issuer, TIME, *rest), ALGORITHM, BITS)


def request(attributes=(), subject=sequence()):
    return sequence(sequence(integer(0), subject, sequence(ALGORITHM, BITS), context(0, *attributes)), ALGORITHM, BITS)


def anchor(policies=(), permitted=(), extensions=(), name=sequence()):
    controls = sequence(name, context(1, *policies), context(3, context(0, *permitted)))
    return sequence(sequence(ALGORITHM, BITS), octet_string(), controls, context(1, sequence(*extensions)))


@functools.lru_cache(maxsize=3)
def rising(member, count):
    return sorted(member(number) for number in range(1, count + 1))


# Where any element may stand: what it is, the type, and the value round it.
DEEP = [
    ("any element", "Any", lambda value: value),
    ("parameters", "AlgorithmIdentifier", lambda value: sequence(ONE, value)),
    ("parameters, three times", "Certificate", lambda value: certificate(algorithm=sequence(ONE, value))),
    ("value in a name", "Name", common_name),
    ("value in the subject", "Certificate", lambda value: certificate(common_name(value))),
    ("value in the issuer", "CertificateList", lambda value: crl(issuer=common_name(value))),
    ("value in the subject", "CertReq", lambda value: request(subject=common_name(value))),
    ("value of an attribute", "CertReq", lambda value: request([valued(1, value)])),
    ("values that differ at the bottom", "CertReq", lambda value: request([valued(1, value, value[:-2] + set_of())])),
    ("value of an attribute", "SubjectDirectoryAttributes", lambda value: sequence(valued(1, value))),
    ("value of a name", "GeneralName", other_name),
    ("value of a name", "SubjectAltName", lambda value: sequence(other_name(value))),
    ("value of a name", "AuthorityKeyIdentifier", lambda value: sequence(context(1, other_name(value)))),
    ("value of a name", "NameConstraints", lambda value: sequence(context(0, sequence(other_name(value))))),
    ("value of a name", "CrlDistributionPoints", lambda value: sequence(sequence(context(2, other_name(value))))),
    ("qualifier", "CertificatePolicies", lambda value: sequence(sequence(ONE, sequence(sequence(ONE, value))))),
    ("value in the name", "TrustAnchorInfo", lambda value: anchor(name=common_name(value))),
]
# What there are many of, the type, one of them, and the value round them.
LISTS = [
    ("extensions", "Extensions", extension, lambda them: sequence(*them)),
    ("extensions", "Certificate", extension, lambda them: certificate(extensions=them)),
    ("relative names", "Name", relative_name, lambda them: sequence(*them)),
    ("relative names", "Certificate", relative_name, lambda them: certificate(sequence(*them))),
    ("relative names of long values", "Name", long_name, lambda them: sequence(*them)),
    ("certificates", "PkiPath", lambda number: certificate(sequence(relative_name(number))), lambda them: sequence(*them)),
    ("entries", "CertificateList", entry, crl),
    ("entries with extensions", "CertificateList", lambda number: entry(number, extension(1)), crl),
    ("extensions", "CertificateList", extension, lambda them: crl(extensions=them)),
    ("extensions of an entry", "CertificateList", extension, lambda them: crl([entry(1, *them)])),
    ("extensions asked for", "ExtensionReq", extension, lambda them: sequence(*them)),
    ("policies", "TrustAnchorInfo", policy, anchor),
    ("permitted names", "TrustAnchorInfo", lambda number: sequence(dns_name(number)), lambda them: anchor(permitted=them)),
    ("extensions", "TrustAnchorChoice", extension, lambda them: context(2, anchor(extensions=them))),
    ("names", "SubjectAltName", dns_name, lambda them: sequence(*them)),
    ("directory names", "GeneralNames", lambda number: context(4, sequence(relative_name(number))), lambda them: sequence(*them)),
    ("issuers", "AuthorityKeyIdentifier", dns_name, lambda them: sequence(context(1, *them))),
    ("policies", "CertificatePolicies", policy, lambda them: sequence(*them)),
    ("qualifiers of a policy", "CertificatePolicies", policy, lambda them: sequence(sequence(ONE, sequence(*them)))),
    ("numbers of a notice", "UserNotice", integer, lambda them: sequence(sequence(element(UTF8_STRING), sequence(*them)))),
    ("mappings", "PolicyMappings", lambda number: sequence(identifier(number), ONE), lambda them: sequence(*them)),
    ("points", "CrlDistributionPoints", point, lambda them: sequence(*them)),
    ("issuers of a point", "FreshestCrl", dns_name, lambda them: sequence(sequence(context(2, *them)))),
    ("names of the point", "IssuingDistributionPoint", dns_name, lambda them: sequence(context(0, context(0, *them)))),
    ("excluded names", "NameConstraints", lambda number: sequence(dns_name(number)), lambda them: sequence(context(1, *them))),
    ("purposes", "ExtendedKeyUsage", identifier, lambda them: sequence(*them)),
    ("accesses", "AuthorityInfoAccessSyntax", lambda number: sequence(ONE, dns_name(number)), lambda them: sequence(*them)),
    ("names without attributes", "Name", lambda _: set_of(), lambda them: sequence(*them)),
    ("names without octets", "SubjectAltName", lambda _: element(0x82), lambda them: sequence(*them)),
    ("points without parts", "CrlDistributionPoints", lambda _: sequence(), lambda them: sequence(*them)),
    ("policies without qualifiers", "CertificatePolicies", lambda _: sequence(ONE, sequence()), lambda them: sequence(*them)),
    ("attributes", "SubjectDirectoryAttributes", valued, lambda them: sequence(*them)),
]
SETS = [
    ("attributes of one name", "RelativeDistinguishedName", attribute, lambda them: set_of(*them)),
    ("attributes of one name", "Certificate", attribute, lambda them: certificate(sequence(set_of(*them)))),
    ("attributes of one name", "DistributionPoint", attribute, lambda them: sequence(context(0, context(1, *them)))),
    ("attributes", "CertReq", valued, request),
    ("values of an attribute", "Attribute", identifier, lambda them: valued(1, *them)),
    ("values of an attribute", "CertReq", identifier, lambda them: request([valued(1, *them)])),
]
# Strings: the type, its identifier octet, and what the content begins with; then come many times 64 octets.
STRINGS = [
    ("Any", 0x44, b""),
    ("OctetString", OCTET_STRING, b""),
    ("BitString", BIT_STRING, b"\0"),
    ("Int", INTEGER, b""),
    ("Uint", INTEGER, b"\0\xff"),
    ("CrlNumber", INTEGER, b""),
    ("Utf8String", UTF8_STRING, b""),
    ("PrintableString", PRINTABLE_STRING, b""),
    ("TeletexString", TELETEX_STRING, b""),
    ("Ia5String", IA5_STRING, b""),
    ("BmpString", BMP_STRING, b""),
    ("SerialNumber", INTEGER, b""),
    ("SubjectKeyIdentifier", OCTET_STRING, b""),
    ("SignedCertificateTimestampList", OCTET_STRING, b""),
    ("DirectoryString", BMP_STRING, b""),
]
