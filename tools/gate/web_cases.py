"""Certificates that break rules of the Baseline Requirements, most of them one alone, and what `x509_linter --web` is to print of each.

The certificates are made by the package `cryptography`; some octets of them are changed then. Which rules each breaks is stated here by hand, from the
sections of docs/WEB_RULES.md, of which the severities, the sections and the days are taken.
"""
import datetime
import ipaddress
import json
import math
import pathlib
import re

from cryptography import x509
from cryptography.hazmat.primitives import hashes, serialization
from cryptography.hazmat.primitives.asymmetric import ec, ed25519, padding, rsa
from cryptography.x509.oid import AuthorityInformationAccessOID, ExtendedKeyUsageOID, NameOID, ObjectIdentifier

PAGE = pathlib.Path(__file__).resolve().parents[2] / "docs/WEB_RULES.md"
NOW = "2030-01-01T00:00:00Z"
SECOND, DAY = datetime.timedelta(seconds=1), datetime.timedelta(days=1)
NOT_BEFORE = datetime.datetime(2024, 1, 1, tzinfo=datetime.timezone.utc)

RSA_KEY, EC_KEY = rsa.generate_private_key(65537, 2048), ec.generate_private_key(ec.SECP256R1())
MODULUS = RSA_KEY.public_key().public_numbers().n.to_bytes(256, "big")
KEY_ID = bytes(20)
COMMON_NAME, ORGANIZATION, COUNTRY = NameOID.COMMON_NAME, NameOID.ORGANIZATION_NAME, NameOID.COUNTRY_NAME
UNIT, LOCALITY, STATE = NameOID.ORGANIZATIONAL_UNIT_NAME, NameOID.LOCALITY_NAME, NameOID.STATE_OR_PROVINCE_NAME
SURNAME, GIVEN_NAME, SERIAL_NUMBER, STREET = NameOID.SURNAME, NameOID.GIVEN_NAME, NameOID.SERIAL_NUMBER, NameOID.STREET_ADDRESS
CATEGORY, JURISDICTION = NameOID.BUSINESS_CATEGORY, NameOID.JURISDICTION_COUNTRY_NAME
SERVER_AUTH, CLIENT_AUTH, OCSP_SIGNING = ExtendedKeyUsageOID.SERVER_AUTH, ExtendedKeyUsageOID.CLIENT_AUTH, ExtendedKeyUsageOID.OCSP_SIGNING
OCSP, CA_ISSUERS = AuthorityInformationAccessOID.OCSP, AuthorityInformationAccessOID.CA_ISSUERS
DOMAIN_VALIDATED, ORGANIZATION_VALIDATED, INDIVIDUAL_VALIDATED, EXTENDED_VALIDATION = "2.23.140.1.2.1", "2.23.140.1.2.2", "2.23.140.1.2.3", "2.23.140.1.1"
ANY_POLICY = "2.5.29.32.0"
BITS = "digital_signature content_commitment key_encipherment data_encipherment key_agreement key_cert_sign crl_sign encipher_only decipher_only".split()


def name(*attributes):
    return x509.Name([x509.NameAttribute(oid, value) for oid, value in attributes])


def in_one(*attributes):
    """A name of one RDN."""
    return x509.Name([x509.RelativeDistinguishedName([x509.NameAttribute(oid, value) for oid, value in attributes])])


def key_usage(*bits):
    return x509.KeyUsage(**{bit: bit in bits for bit in BITS})


def key_purposes(*purposes):
    return x509.ExtendedKeyUsage(purposes)


def uri(text):
    return x509.UniformResourceIdentifier(text)


def point(text="http://c.example.net/1.crl", reasons=None, issuer=None):
    return x509.DistributionPoint([uri(text)], None, reasons, issuer)


def points(*all_points):
    return x509.CRLDistributionPoints(all_points)


def policies(*oids, qualifiers=None):
    return x509.CertificatePolicies([x509.PolicyInformation(ObjectIdentifier(oid), qualifiers) for oid in oids])


def hosts(*names):
    return x509.SubjectAlternativeName([x509.DNSName(it) for it in names])


def addresses(*texts):
    return x509.SubjectAlternativeName([x509.IPAddress(ipaddress.ip_address(it)) for it in texts])


def accesses(*all_accesses):
    return x509.AuthorityInformationAccess([x509.AccessDescription(method, uri(text)) for method, text in all_accesses])


SMALL_PRIMES = [number for number in range(3, 752) if all(number % other for other in range(2, number))]

# curves, each with the prime of its field (FIPS 186-4 D.1.2)
PRIMES = [
    (ec.SECP256R1(), 2**256 - 2**224 + 2**192 + 2**96 - 1),
    (ec.SECP384R1(), 2**384 - 2**128 - 2**96 + 2**32 - 1),
    (ec.SECP521R1(), 2**521 - 1),
]

# IANA's registries of special-purpose addresses, and multicast
RESERVED = """
0.0.0.0/8 10.0.0.0/8 100.64.0.0/10 127.0.0.0/8 169.254.0.0/16 172.16.0.0/12 192.0.0.0/24 192.0.2.0/24 192.31.196.0/24 192.52.193.0/24 192.88.99.0/24
192.168.0.0/16 192.175.48.0/24 198.18.0.0/15 198.51.100.0/24 203.0.113.0/24 224.0.0.0/4 240.0.0.0/4
::/128 ::1/128 ::ffff:0:0/96 64:ff9b::/96 64:ff9b:1::/48 100::/64 100:0:0:1::/64 2001::/23 2001:db8::/32 2002::/16 2620:4f:8000::/48 3fff::/20 5f00::/16
fc00::/7 fe80::/10 ff00::/8
"""

# ---- certificates that break no rule, and changes of them

AUTHORITY = name((COMMON_NAME, "I"), (ORGANIZATION, "o"), (COUNTRY, "NL"))
SERVER = {
    "constraints": (x509.BasicConstraints(False, None), True),
    "usage": (key_usage("digital_signature", "key_encipherment"), True),
    "purposes": (key_purposes(SERVER_AUTH, CLIENT_AUTH), False),
    "names": (hosts("a.example.com", "*.example.com"), False),
    "issuer_key": (x509.AuthorityKeyIdentifier(KEY_ID, None, None), False),
    "policies": (policies(DOMAIN_VALIDATED), False),
    "points": (points(point()), False),
    "accesses": (accesses((OCSP, "http://o.example.net"), (CA_ISSUERS, "HTTP://o.example.net/i")), False),
}
OF_EC = {"key": EC_KEY.public_key(), "usage": key_usage("digital_signature")}
ABOVE_SERVERS = {
    "constraints": (x509.BasicConstraints(True, 0), True),
    "usage": (key_usage("key_cert_sign", "crl_sign"), True),
    "purposes": (key_purposes(SERVER_AUTH), False),
    "key_id": (x509.SubjectKeyIdentifier(KEY_ID), False),
    "issuer_key": (x509.AuthorityKeyIdentifier(KEY_ID, None, None), False),
    "policies": (policies(DOMAIN_VALIDATED), False),
    "points": (points(point()), False),
    "accesses": (accesses((CA_ISSUERS, "http://o.example.net/i")), False),
}
ROOT = {
    "constraints": (x509.BasicConstraints(True, None), True),
    "usage": (key_usage("key_cert_sign", "crl_sign"), True),
    "key_id": (x509.SubjectKeyIdentifier(KEY_ID), False),
    "issuer_key": (x509.AuthorityKeyIdentifier(KEY_ID, None, None), False),
}
RESPONDER = {
    "usage": (key_usage("digital_signature"), True),
    "purposes": (key_purposes(OCSP_SIGNING), False),
    "key_id": (x509.SubjectKeyIdentifier(KEY_ID), False),
    "issuer_key": (x509.AuthorityKeyIdentifier(KEY_ID, None, None), False),
    "no_check": (x509.OCSPNoCheck(), False),
}
PRECERTIFICATE_SIGNING = ObjectIdentifier("1.3.6.1.4.1.11129.2.4.4")
SIGNER = ABOVE_SERVERS | {"purposes": (key_purposes(PRECERTIFICATE_SIGNING), False)}
TIMESTAMPS = x509.UnrecognizedExtension(ObjectIdentifier("1.3.6.1.4.1.11129.2.4.2"), b"\4\2\0\0")
# the order of attributes
ORDER = [
    *(NameOID.DOMAIN_COMPONENT, COUNTRY, STATE, LOCALITY, NameOID.POSTAL_CODE, STREET),
    *(ORGANIZATION, SURNAME, GIVEN_NAME, UNIT, COMMON_NAME),
]
# the attributes that a subject has to have, by what is validated
ATTRIBUTES = {ORGANIZATION_VALIDATED: ((COUNTRY, "NL"), (LOCALITY, "x"), (ORGANIZATION, "o"))}
ATTRIBUTES[INDIVIDUAL_VALIDATED] = ((COUNTRY, "NL"), (LOCALITY, "x"), (SURNAME, "s"), (GIVEN_NAME, "g"))
ATTRIBUTES[EXTENDED_VALIDATION] = (*ATTRIBUTES[ORGANIZATION_VALIDATED], (CATEGORY, "Private Organization"), (SERIAL_NUMBER, "1"), (JURISDICTION, "NL"))


def certificate(
    extensions,
    subject,
    days,
    key=None,
    issuer=AUTHORITY,
    lasts=-SECOND,
    marked=(),
    unmarked=(),
    patches=(),
    salt=None,
    digest=hashes.SHA256(),
    **changed,
):
    """A certificate with such extensions: those of `changed` are others, or left out where they are None; those that are marked are critical.

    It is valid for the days and what `lasts` adds, with the last second in it. It is signed by RSASSA-PSS where the length of the salt is given. Of its octets
    some are others, as `patches` says.
    """
    found = extensions | {it: (value, extensions.get(it, (None, False))[1]) for it, value in changed.items()}
    builder = x509.CertificateBuilder().subject_name(subject).issuer_name(issuer).public_key(key or RSA_KEY.public_key()).serial_number(2**100 + 1)
    builder = builder.not_valid_before(NOT_BEFORE).not_valid_after(NOT_BEFORE + days * DAY + lasts)
    for it, (value, critical) in found.items():
        if value is not None:
            builder = builder.add_extension(value, critical and it not in unmarked or it in marked)
    scheme = padding.PSS(padding.MGF1(digest), salt) if salt else None
    octets = builder.sign(RSA_KEY, digest, rsa_padding=scheme).public_bytes(serialization.Encoding.DER)
    for old, new in patches:
        assert len(old) == len(new) and old in octets
        octets = octets.replace(old, new)
    return octets


def server(**changed):
    """A certificate of a TLS server that breaks no rule, changed so."""
    return certificate(**{"extensions": SERVER, "subject": name((COUNTRY, "NL")), "days": 46, **changed})


def authority(**changed):
    """One of an authority above TLS servers that breaks no rule, changed so."""
    subject = name((COMMON_NAME, "S"), (ORGANIZATION, "o"), (COUNTRY, "NL"))
    return certificate(**{"extensions": ABOVE_SERVERS, "subject": subject, "days": 3650, **changed})


def root(**changed):
    """One of a root that breaks no rule, changed so."""
    subject = changed.pop("subject", name((COMMON_NAME, "S"), (ORGANIZATION, "o"), (COUNTRY, "NL")))
    return certificate(**{"extensions": ROOT, "subject": subject, "issuer": subject, "days": 3650, **changed})


def responder(**changed):
    """One of an OCSP responder that breaks no rule, changed so."""
    subject = name((COMMON_NAME, "R"), (ORGANIZATION, "o"), (COUNTRY, "NL"))
    return certificate(**{"extensions": RESPONDER, "subject": subject, "days": 90, **changed})


def signer(**changed):
    """One of an authority that signs precertificates and breaks no rule, changed so."""
    return authority(**{"extensions": SIGNER, **changed})


def modulus(factor=1, others=SMALL_PRIMES, above=0):
    """The octets of an odd multiple of the factor near the modulus of the key; together with what stands above, none of the others divides it."""
    number = int.from_bytes(MODULUS, "big") // (2 * factor) * (2 * factor) + factor
    while any((above + number) % other == 0 for other in others):
        number -= 2 * factor
    return number.to_bytes(256, "big")


def close(turn):
    """The octets of a modulus near that of the key that Fermat's factorization factors in this round, the first being 0, and that no small prime divides."""
    middle = math.isqrt(int.from_bytes(MODULUS, "big"))
    apart = math.isqrt(middle * (2 * turn + 1))
    while any((middle**2 - apart**2) % other == 0 for other in (2, *SMALL_PRIMES)):
        apart += 1
    return (middle**2 - apart**2).to_bytes(256, "big")


def validated(policy=ORGANIZATION_VALIDATED, without=(), more=(), **changed):
    """A certificate of a TLS server of which more than the domain is validated. Its subject lacks attributes of some types, and has some more."""
    attributes = [*(it for it in ATTRIBUTES[policy] if it[0] not in without), *more]
    subject = name(*sorted(attributes, key=lambda it: ORDER.index(it[0]) if it[0] in ORDER else len(ORDER)))
    return server(**{"policies": policies(policy), "subject": subject, **changed})


# ---- certificates, each with the rules that it breaks


def clean_ones():
    yield server(), ""
    yield server(**OF_EC), ""
    yield authority(), ""
    yield root(), ""
    yield responder(), ""
    yield signer(), ""
    for policy in ATTRIBUTES:
        yield validated(policy), ""


def field_rules():
    of_rsa, of_sha1 = bytes.fromhex("06092a864886f70d01010b"), bytes.fromhex("06092a864886f70d010105")
    of_ec = b"\x06\x08" + bytes.fromhex("2a8648ce3d040302") + b"\x04\x01\x00"
    yield server(patches=[(b"\xa0\3\2\1\2", b"\xa0\3\2\1\1")]), "version_not_v3"
    yield server(patches=[(of_rsa, of_sha1)]), "signature_of_sha1"
    yield server(patches=[(of_rsa, of_rsa[:-1] + b"\x0e")]), "signature_algorithm_other"
    yield server(patches=[(of_rsa + b"\5\0", of_rsa + b"\x0c\0")]), "rsa_signature_parameters_not_null"
    yield server(patches=[(of_rsa + b"\5\0", of_ec)]), "ecdsa_signature_parameters_present"
    yield server(patches=[(of_rsa, of_rsa[:-1] + b"\x0a")]), "rsa_pss_parameters_other"
    for digest in (hashes.SHA256(), hashes.SHA384(), hashes.SHA512()):
        yield server(digest=digest, salt=digest.digest_size), ""
        yield server(digest=digest, salt=20), "rsa_pss_parameters_other"
        yield server(digest=digest), ""
    of_issuer = x509.AuthorityKeyIdentifier(KEY_ID, [x509.DirectoryName(AUTHORITY)], 5)
    yield server(issuer_key=of_issuer), "authority_cert_issuer_present"
    yield server(marked=["points"]), "crl_distribution_points_critical"
    yield server(points=points(point("https://c.example.net/"))), "crl_distribution_point_not_http"
    yield server(points=points(point(), point("ldap://c.example.net/"))), "crl_distribution_point_not_http"
    yield server(points=points(point(reasons=frozenset([x509.ReasonFlags.key_compromise])))), "crl_distribution_point_partial"
    yield server(points=points(point(issuer=[x509.DirectoryName(AUTHORITY)]))), "crl_distribution_point_partial"


def key_rules():
    of_rsa = bytes.fromhex("06092a864886f70d010101")
    exponent = b"\2\3\1\0\1"
    yield server(key=ed25519.Ed25519PrivateKey.generate().public_key()), "key_algorithm_other"
    yield server(patches=[(of_rsa + b"\5\0", of_rsa + b"\x0c\0")]), "rsa_key_parameters_not_null"
    for curve, rules in ((ec.SECP256K1(), "ec_curve_other"), (ec.SECP384R1(), ""), (ec.SECP521R1(), "")):
        yield server(**OF_EC | {"key": ec.generate_private_key(curve).public_key()}), rules
    yield server(key=rsa.generate_private_key(65537, 1024).public_key()), "rsa_modulus_short"
    yield server(key=rsa.generate_private_key(65537, 2047).public_key()), "rsa_modulus_short rsa_modulus_uneven"
    yield server(patches=[(b"\0" + MODULUS, b"\1" + modulus(above=2**2048))]), "rsa_modulus_uneven"
    yield server(patches=[(MODULUS, modulus(2))]), "rsa_modulus_even"
    for factor in (3, 5, 251, 257, 743, 751):
        yield server(patches=[(MODULUS, modulus(factor, ()))]), "rsa_modulus_small_factor"
    yield server(patches=[(MODULUS, modulus(757))]), ""
    yield server(patches=[(MODULUS + exponent, MODULUS + b"\2\3\1\0\2")]), "rsa_exponent_invalid"
    yield server(patches=[(MODULUS + exponent, MODULUS + b"\2\3\1\0\3")]), ""
    yield server(key=rsa.generate_private_key(3, 2048).public_key()), "rsa_exponent_outside"
    for turn, rules in ((0, "rsa_factors_close"), (99, "rsa_factors_close"), (100, "")):
        yield server(patches=[(MODULUS, close(turn))]), rules
    # another y, the other point of the same x, and another form than that of an uncompressed point
    for curve, prime in PRIMES:
        key = ec.generate_private_key(curve).public_key()
        octets = key.public_bytes(serialization.Encoding.X962, serialization.PublicFormat.UncompressedPoint)
        y, size = key.public_numbers().y, len(octets) // 2
        wrong, other = (octets[:-size] + it.to_bytes(size, "big") for it in (y ^ 1, prime - y))
        for changed, rules in ((wrong, "ec_point_off_curve"), (other, ""), (b"\6" + wrong[1:], "")):
            yield server(**OF_EC | {"key": key}, patches=[(octets, changed)]), rules
    # a point of P-384 under the name of P-521
    of_p384 = bytes.fromhex("06052b81040022")
    yield server(**OF_EC | {"key": ec.generate_private_key(ec.SECP384R1()).public_key()}, patches=[(of_p384, of_p384[:-1] + b"\x23")]), ""


def validity_rules():
    last = ""
    for limit in (46, 47, 99, 100, 199, 200, 397, 398, 825):
        yield server(days=limit), last
        last += f" validity_over_{limit}_days"
        yield server(days=limit, lasts=0 * SECOND), last


def host_rules():
    service = "duckduckgogg42xjoc72x3sjasowoarfbgcmvfimaftt6twagswzczad"
    right = "a.example.com", "xn--p1ai.example.com", "XN--mgbh0fb.example.com", "local.com", "a.test.com", "a.alternative", "1.2.3.com", "a.b.1c", "a.arpa", "a.onions"
    for text in ("xn--bcher-kva.example.com", "XN--BCHER-KVA.Example.com", "xn--a-ecp.ru", f"xn--{59 * 'a'}.com", "axn--0.com"):
        yield server(names=hosts(text)), ""
    # a digit too few, a number over the code points, a sign that is no digit, and a label of 64 octets
    for text in ("xn--c.example.com", "XN--d.example.com", "a.xn--bcher-kv9.com", "xn--99999999.com", f"b.xn--{60 * 'a'}.com"):
        yield server(names=hosts("a.example.com", text)), "dns_name_xn_label_other"
    for text in (*right, "in-addr.arpa", "a.xip6.arpa", f"{service}.onion", f"a.{service.upper()}.ONION", f"*.{service}.onion"):
        yield server(names=hosts(text)), ""
    yield server(names=hosts("a_b.example.com")), "dns_name_underscore"
    yield server(names=hosts("ab--c.example.com")), "dns_name_reserved_label"
    for text in ("a*.example.com", "*.*.example.com"):
        yield server(names=hosts(text)), "dns_name_wildcard"
    for text in ("com", "*.com"):
        yield server(names=hosts(text)), "dns_name_one_label"
    for text in ("a.local", "b.TEST", "c.example", "d.invalid", "e.localHost", "f.alt", "g.internal"):
        yield server(names=hosts("a.example.com", text)), "dns_name_internal"
    yield server(names=hosts("localhost")), "dns_name_internal dns_name_one_label"
    for text in ("10.1.2.3", "a.b.1", "a.09"):
        yield server(names=hosts("a.example.com", text)), "dns_name_numeric"
    yield server(names=hosts("12")), "dns_name_numeric dns_name_one_label"
    for text in ("1.2.0.192.in-addr.arpa", "8.b.d.0.1.0.0.2.IP6.ARPA"):
        yield server(names=hosts("a.example.com", text)), "dns_name_reverse"
    # one character more, one less, another end, and characters that base 32 doesn't have
    for text in ("a", f"a{service}", service[1:], f"{service[:-1]}c", f"1{service[1:]}", f"8{service[1:]}", f"-{service[1:]}", f"{service}.a"):
        yield server(names=hosts("a.example.com", f"{text}.onion")), "dns_name_onion_other"
    yield server(names=hosts("onion")), "dns_name_onion_other dns_name_one_label"
    blocks = [ipaddress.ip_network(it) for it in RESERVED.split()]
    for block in blocks:
        for address in (block[0], block[-1]):
            yield server(names=addresses("9.9.9.9", str(address))), "address_reserved"
        for number in (int(block[0]) - 1, int(block[-1]) + 1):
            if 0 <= number < 2**block.max_prefixlen:
                address = type(block[0])(number)
                is_reserved = any(address in it for it in blocks if it.version == block.version)
                yield server(names=addresses(str(address))), "address_reserved" if is_reserved else ""
    for text in "9.1.2.3 172.15.0.1 192.169.1.1 11.0.0.1 fec0::1 2001:db9::1 2600::1 fb00::1 100:0:0:2::1".split():
        yield server(names=addresses(text)), ""


def name_rules():
    yield server(names=None), "subject_alt_name_absent"
    yield server(names=x509.SubjectAlternativeName([x509.RFC822Name("a@example.com")])), "subject_alt_name_without_host subject_alt_name_other"
    both = x509.SubjectAlternativeName([x509.DNSName("a.example.com"), uri("http://a")])
    yield server(names=both), "subject_alt_name_other"
    yield server(marked=["names"]), "subject_alt_name_critical"
    yield server(marked=["names"], subject=name()), ""
    for text, rules in (("a", "common_name_present"), ("b", "common_name_present common_name_not_in_alt_name")):
        yield server(subject=name((COUNTRY, "NL"), (COMMON_NAME, f"{text}.example.com")), names=hosts("a.example.com")), rules
    stray, rewritten = "common_name_present common_name_not_in_alt_name", "common_name_present common_name_not_as_in_alt_name"
    of_hosts = (("A.example.com", rewritten), ("*.example.com", "common_name_present"), ("*.Example.com", rewritten), ("example.com", stray))
    of_addresses = (
        *(("9.9.9.9", "common_name_present"), ("9.9.9.10", stray), ("009.9.9.9", stray), ("09090909", stray), ("b.example.com", stray)),
        *(("2600::a:0:1", "common_name_present"), ("2600::A:0:1", rewritten), ("2600:0::a:0:1", rewritten)),
    )
    both = x509.SubjectAlternativeName([*hosts("a.example.com", "*.example.com"), *addresses("9.9.9.9", "2600::a:0:1")])
    for text, rules in (*of_hosts, *of_addresses, ("b\u00fc.example.com", stray)):
        yield server(subject=name((COUNTRY, "NL"), (COMMON_NAME, text)), names=both), rules
    # a colon makes a text one of an address of version 6 alone, which is written without the dots of an IPv4 address
    for text, address, rules in (
        ("2600::1", "9.9.9.9", stray),
        ("::ffff:909:909", "::ffff:9.9.9.9", "common_name_present address_reserved"),
        ("::ffff:9.9.9.9", "::ffff:9.9.9.9", f"{rewritten} address_reserved"),
    ):
        yield server(subject=name((COUNTRY, "NL"), (COMMON_NAME, text)), names=addresses(address)), rules
    # a text in Unicode is one of a host with a label of IDNA alone
    for text, host, rules in (
        ("xn--b-eha.example.com", "xn--b-eha.example.com", "common_name_present"),
        ("b\u00fc.example.com", "XN--b-xga.example.com", rewritten),
        ("b\u00fc.example.com", "a.xn--b-eha.example.com", rewritten),
        ("b~.example.com", "xn--b-eha.example.com", stray),
        ("b\u00fc.example.com", "xn-b-xga.example.com", stray),
    ):
        yield server(subject=name((COUNTRY, "NL"), (COMMON_NAME, text)), names=hosts(host)), rules
    yield server(subject=name((COUNTRY, "NL"), (UNIT, "u"))), "domain_validated_attribute organizational_unit_present"
    for policy in ATTRIBUTES:
        yield validated(policy, more=[(UNIT, "u")]), "organizational_unit_present"
    first, second = ((COMMON_NAME, f"{letter}.example.com") for letter in "ab")
    of_both = hosts("a.example.com", "b.example.com")
    for subject, order in ((name(first, second), ""), (name(first, (COUNTRY, "NL"), first), "attribute_order")):
        yield server(subject=subject, names=of_both), f"common_name_present common_name_repeated {order}"
    for subject in (in_one(first, second), in_one(first, second, (COUNTRY, "NL"))):
        yield server(subject=subject, names=of_both), "common_name_present common_name_repeated rdn_of_several_attributes"


def usage_rules():
    purposes = ExtendedKeyUsageOID
    yield server(purposes=None), "extended_key_usage_absent"
    named = (purposes.CODE_SIGNING, purposes.EMAIL_PROTECTION, purposes.TIME_STAMPING, purposes.OCSP_SIGNING, purposes.ANY_EXTENDED_KEY_USAGE)
    for purpose in (*named, PRECERTIFICATE_SIGNING):
        signs = " precertificate_signer_purpose_other" if purpose == PRECERTIFICATE_SIGNING else ""
        yield server(purposes=key_purposes(SERVER_AUTH, purpose)), "extended_key_usage_forbidden"
        yield authority(purposes=key_purposes(SERVER_AUTH, purpose)), "ca_extended_key_usage_forbidden" + signs
        if purpose != OCSP_SIGNING:
            yield server(purposes=key_purposes(purpose)), ""
    yield server(purposes=key_purposes(SERVER_AUTH, ObjectIdentifier("1.2.3.4"))), "extended_key_usage_other"
    yield server(marked=["purposes"]), "extended_key_usage_critical"
    yield server(usage=None), "key_usage_absent"
    yield server(unmarked=["usage"]), "key_usage_not_critical"
    for bit in ("key_cert_sign", "crl_sign"):
        yield server(usage=key_usage("digital_signature", bit)), "key_usage_of_authority"
    agreed = ("key_agreement",), ("key_agreement", "encipher_only"), ("key_agreement", "decipher_only")
    for bits in (("content_commitment",), *agreed):
        yield server(usage=key_usage("digital_signature", *bits)), "key_usage_not_of_rsa"
    for bits in (("content_commitment",), ("key_encipherment",), ("data_encipherment",), *agreed[1:]):
        yield server(**OF_EC | {"usage": key_usage("digital_signature", *bits)}), "key_usage_not_of_ec"
    yield server(**OF_EC | {"usage": key_usage("digital_signature", "key_agreement")}), ""
    yield server(**OF_EC | {"usage": key_usage("key_agreement")}), "ec_without_digital_signature"
    yield server(unmarked=["constraints"]), "basic_constraints_not_critical"
    yield server(constraints=None), ""
    yield server(key_id=x509.SubjectKeyIdentifier(KEY_ID)), "subject_key_identifier_present"


def policy_rules():
    yield server(policies=None), "certificate_policies_absent"
    yield server(marked=["policies"]), "certificate_policies_critical"
    yield server(policies=policies("1.2.3.4")), "reserved_policy_absent"
    yield server(policies=policies(ANY_POLICY, DOMAIN_VALIDATED)), "any_policy_present"
    yield server(policies=policies(DOMAIN_VALIDATED, qualifiers=["http://cps"])), "policy_qualifiers_present"
    notice = x509.UserNotice(None, "x")
    yield server(policies=policies(DOMAIN_VALIDATED, qualifiers=[notice])), "policy_qualifiers_present policy_qualifier_other"
    yield server(subject=name((COUNTRY, "NL"), (LOCALITY, "x"))), "domain_validated_attribute"
    yield validated(without=[ORGANIZATION]), "organization_validated_without_organization"
    yield validated(without=[COUNTRY]), "organization_validated_without_country"
    yield server(accesses=None), "authority_info_access_absent"
    yield server(accesses=accesses((ObjectIdentifier("1.3.6.1.5.5.7.48.5"), "http://o"))), "access_method_other ocsp_access_absent"
    yield server(accesses=accesses((OCSP, "https://o"))), "access_location_not_http"
    of_issuer = accesses((CA_ISSUERS, "http://o.example.net/i"))
    over_7, over_10 = "revocation_absent_over_7_days", "revocation_absent_over_7_days revocation_absent_over_10_days"
    for days, lasts, rules in ((7, -SECOND, ""), (7, 0 * SECOND, over_7), (10, -SECOND, over_7), (10, 0 * SECOND, over_10)):
        yield server(points=None, accesses=of_issuer, days=days, lasts=lasts), f"ocsp_access_absent {rules}"
        yield server(points=None, accesses=None, days=days, lasts=lasts), f"authority_info_access_absent {rules}"
    yield server(points=None), ""
    yield server(accesses=of_issuer), "ocsp_access_absent"


def authority_rules():
    yield authority(unmarked=["usage"]), "ca_key_usage_not_critical"
    yield authority(usage=key_usage("key_cert_sign")), "ca_without_crl_sign"
    yield authority(usage=key_usage("key_cert_sign", "crl_sign", "key_encipherment")), "ca_key_usage_other"
    yield authority(usage=key_usage("key_cert_sign", "crl_sign", "digital_signature")), ""
    yield authority(subject=name((ORGANIZATION, "o"), (COUNTRY, "NL"))), "ca_without_common_name"
    yield authority(subject=name((COMMON_NAME, "S"), (COUNTRY, "NL"))), "ca_without_organization"
    yield authority(subject=name((COMMON_NAME, "S"), (ORGANIZATION, "o"))), "ca_without_country"
    yield authority(policies=None), "subordinate_without_policies"
    yield authority(points=None), "subordinate_without_crl_points"
    of_authority = (COMMON_NAME, "S"), (ORGANIZATION, "o")
    for country, rules in (("nl", ""), ("XX", ""), ("QQ", "ca_country_unknown")):
        yield authority(subject=name(*of_authority, (COUNTRY, country))), rules
    place = (LOCALITY, "x"), (STATE, "y"), (NameOID.POSTAL_CODE, "1"), (STREET, "z")
    for subject, rules in ((place, ""), ([(NameOID.ORGANIZATION_IDENTIFIER, "o")], "ca_attribute_other"), ([(SERIAL_NUMBER, "1")], "ca_attribute_other")):
        yield authority(subject=name(*of_authority, (COUNTRY, "NL"), *subject)), rules


def subject_rules():
    for policy in ATTRIBUTES:
        yield validated(policy, without=[LOCALITY], more=[(STATE, "y")]), ""
        yield validated(policy, more=[(STREET, "a"), (STREET, "b")]), ""
    yield validated(without=[LOCALITY]), "organization_validated_without_place"
    for oid in (SURNAME, GIVEN_NAME):
        yield validated(more=[(oid, "a")]), "organization_validated_personal_name"
        yield validated(INDIVIDUAL_VALIDATED, without=[oid]), "individual_validated_without_name"
    yield validated(INDIVIDUAL_VALIDATED, without=[COUNTRY]), "individual_validated_without_country"
    yield validated(INDIVIDUAL_VALIDATED, without=[LOCALITY]), "individual_validated_without_place"
    types = {ORGANIZATION: "organization", COUNTRY: "country", LOCALITY: "place", CATEGORY: "category", SERIAL_NUMBER: "number", JURISDICTION: "jurisdiction"}
    for oid, rule in types.items():
        yield validated(EXTENDED_VALIDATION, without=[oid]), f"extended_validation_without_{rule}"
    for country in "AD BY BZ FK FM IR IS MK ML PM PN TF TG XX ZW nl Nl".split():
        yield server(subject=name((COUNTRY, country))), ""
    for country in ("QQ", "AA", "UK", "XK", "ZZ", "D ", " D"):
        yield server(subject=name((COUNTRY, country))), "country_unknown"
        yield validated(EXTENDED_VALIDATION, without=[JURISDICTION], more=[(JURISDICTION, country)]), "country_unknown"
    for text, rules in (("-", "attribute_without_text"), (" .-", "attribute_without_text"), (".a", ""), ("a-", "")):
        yield validated(without=[LOCALITY], more=[(LOCALITY, text)]), rules
    for oid in (COUNTRY, STATE, LOCALITY, NameOID.POSTAL_CODE, ORGANIZATION, SERIAL_NUMBER, CATEGORY, JURISDICTION):
        yield validated(EXTENDED_VALIDATION, without=[oid], more=[(oid, "NL"), (oid, "DE")]), "attribute_repeated"
    for oid in (SURNAME, GIVEN_NAME):
        yield validated(INDIVIDUAL_VALIDATED, more=[(oid, "b")]), "attribute_repeated"
    for oid in (STREET, NameOID.DOMAIN_COMPONENT):
        yield validated(more=[(oid, "a"), (oid, "b")]), ""
    yield validated(subject=in_one(*ATTRIBUTES[ORGANIZATION_VALIDATED])), "rdn_of_several_attributes"
    of_types = [(oid, "NL") for oid in ORDER]
    for at in range(len(ORDER) - 1):
        swapped = [*of_types[:at], of_types[at + 1], of_types[at], *of_types[at + 2 :]]
        for attributes, order in ((of_types, ""), (swapped, "attribute_order")):
            rules = "organization_validated_personal_name organizational_unit_present common_name_present common_name_not_in_alt_name"
            yield validated(subject=name(*attributes)), f"{rules} {order}"
    first, second, third = ATTRIBUTES[ORGANIZATION_VALIDATED]
    for attributes in ((first, third, second), (third, first, second), (second, (SERIAL_NUMBER, "1"), first, third), (first, (STREET, "a"), second, third)):
        yield validated(subject=name(*attributes)), "attribute_order"
    for attributes in (((SERIAL_NUMBER, "1"), first, second, third), (first, second, (CATEGORY, "a"), third), (first, second, second, third)):
        yield validated(subject=name(*attributes)), "attribute_repeated" if attributes.count(second) > 1 else ""


def root_rules():
    for days, lasts, rules in (
        (2922, -2 * SECOND, "root_validity_under_2922_days"),
        (2922, -SECOND, ""),
        (9132, -SECOND, ""),
        (9132, 0 * SECOND, "root_validity_over_9132_days"),
    ):
        yield root(days=days, lasts=lasts), rules
    yield root(purposes=key_purposes(SERVER_AUTH)), "root_extended_key_usage_present"
    yield root(purposes=key_purposes(ExtendedKeyUsageOID.EMAIL_PROTECTION)), ""
    # the keys differ: an authority's own certificate for its next key
    yield root(purposes=key_purposes(SERVER_AUTH), issuer_key=x509.AuthorityKeyIdentifier(b"\1" * 20, None, None)), ""
    yield root(purposes=key_purposes(SERVER_AUTH), key_id=None), "root_extended_key_usage_present"
    yield root(policies=policies(ANY_POLICY)), "root_policies_present"
    yield root(points=points(point())), "root_crl_points_present"
    yield root(issuer_key=None), "root_without_authority_key_identifier"
    yield root(constraints=x509.BasicConstraints(True, 0)), "root_path_len_present"
    yield root(accesses=accesses((OCSP, "http://o.example.net"))), "root_extension_other"
    yield root(names=hosts("a.example.com")), "root_extension_other"
    yield root(timestamps=TIMESTAMPS), ""
    subject = name((COMMON_NAME, "S"), (ORGANIZATION, "o"), (UNIT, "u"), (COUNTRY, "NL"))
    yield root(subject=subject), "root_organizational_unit_present"
    yield authority(subject=subject), "subordinate_organizational_unit_present"


def subordinate_rules():
    yield authority(purposes=None), "subordinate_without_extended_key_usage"
    yield authority(marked=["purposes"]), "subordinate_extended_key_usage_critical"
    yield authority(purposes=key_purposes(SERVER_AUTH, ObjectIdentifier("1.2.3.4"))), "subordinate_extended_key_usage_other"
    yield authority(purposes=key_purposes(SERVER_AUTH, CLIENT_AUTH)), ""
    yield authority(marked=["policies"]), "subordinate_policies_critical"
    for oids, rules in (
        (["1.2.3.4"], "subordinate_without_reserved_policy"),
        (["1.2.3.4", EXTENDED_VALIDATION], ""),
        ([ORGANIZATION_VALIDATED, INDIVIDUAL_VALIDATED], ""),
        ([ANY_POLICY], ""),
        ([ANY_POLICY, DOMAIN_VALIDATED], "subordinate_any_policy_among_others"),
        (["1.2.3.4", ANY_POLICY], "subordinate_any_policy_among_others"),
    ):
        yield authority(policies=policies(*oids)), rules
    yield authority(policies=policies(DOMAIN_VALIDATED, qualifiers=["http://cps"])), "subordinate_policy_qualifiers_present"
    notice = x509.UserNotice(None, "x")
    yield authority(policies=policies(DOMAIN_VALIDATED, qualifiers=[notice])), "subordinate_policy_qualifiers_present subordinate_policy_qualifier_other"
    yield authority(accesses=None), "subordinate_without_authority_info_access"
    yield authority(accesses=accesses((OCSP, "http://o"), (CA_ISSUERS, "http://o"))), ""
    yield authority(accesses=accesses((ObjectIdentifier("1.3.6.1.5.5.7.48.5"), "http://o"))), "subordinate_access_method_other"
    yield authority(accesses=accesses((OCSP, "http://o"), (OCSP, "https://o"))), "subordinate_access_location_not_http"


def responder_rules():
    yield responder(no_check=None), "ocsp_no_check_absent"
    yield responder(marked=["no_check"]), "ocsp_no_check_critical"
    yield responder(purposes=key_purposes(OCSP_SIGNING, CLIENT_AUTH)), "responder_purpose_other"
    yield responder(marked=["purposes"]), ""
    yield responder(usage=None), "responder_key_usage_absent"
    yield responder(unmarked=["usage"]), "responder_key_usage_not_critical"
    for bit in ("content_commitment", "key_agreement", "crl_sign"):
        yield responder(usage=key_usage("digital_signature", bit)), "responder_key_usage_other"
    yield responder(usage=key_usage("content_commitment")), "responder_key_usage_other"
    no_authority = x509.BasicConstraints(False, None)
    yield responder(constraints=no_authority), "responder_constraints_not_critical"
    yield responder(constraints=no_authority, marked=["constraints"]), ""
    yield responder(names=hosts("a.example.com")), "responder_alt_name_present"
    yield responder(points=points(point())), "responder_crl_points_present"
    yield responder(policies=policies(DOMAIN_VALIDATED)), "responder_policies_present"
    yield responder(accesses=accesses((OCSP, "http://o.example.net"))), "responder_access_present"
    yield responder(no_check=None, key_id=None, purposes=key_purposes(CLIENT_AUTH)), ""


def precertificate_rules():
    yield server(poison=x509.PrecertPoison(), timestamps=TIMESTAMPS), "precertificate_with_timestamps"
    yield server(poison=x509.PrecertPoison()), ""
    yield server(timestamps=TIMESTAMPS), ""
    yield signer(purposes=key_purposes(PRECERTIFICATE_SIGNING, CLIENT_AUTH)), "precertificate_signer_purpose_other"
    yield signer(purposes=key_purposes(SERVER_AUTH, PRECERTIFICATE_SIGNING)), "precertificate_signer_purpose_other ca_extended_key_usage_forbidden"
    yield signer(marked=["purposes"]), "precertificate_signer_purposes_critical"
    yield signer(unmarked=["usage"]), "precertificate_signer_key_usage_not_critical"
    yield signer(policies=None), "precertificate_signer_without_policies"
    yield signer(points=None), "precertificate_signer_without_crl_points"
    # a leaf with that purpose signs none
    yield signer(constraints=None, policies=None, points=None), ""


def constrained_rules():
    mail, every = ExtendedKeyUsageOID.EMAIL_PROTECTION, ExtendedKeyUsageOID.ANY_EXTENDED_KEY_USAGE
    for purposes, rules in (
        ((mail,), ""),
        ((mail, every), "constrained_purpose_forbidden"),
        ((every,), "constrained_purpose_forbidden"),
        ((CLIENT_AUTH, OCSP_SIGNING), "constrained_purpose_forbidden"),
        ((PRECERTIFICATE_SIGNING, every), "precertificate_signer_purpose_other"),
        ((SERVER_AUTH, every), "ca_extended_key_usage_forbidden"),
    ):
        yield authority(purposes=key_purposes(*purposes)), rules
    yield responder(purposes=key_purposes(every, OCSP_SIGNING)), "responder_purpose_other"
    host, directory = x509.DNSName("example.com"), x509.DirectoryName(AUTHORITY)
    some, other = (x509.IPAddress(ipaddress.ip_network(it)) for it in ("9.0.0.0/8", "2a00::/16"))
    every_4, every_6 = (x509.IPAddress(ipaddress.ip_network(it)) for it in ("0.0.0.0/0", "::/0"))
    addresses, directories = "constrained_without_addresses", "constrained_without_directory_names"
    for permitted, excluded, rules in (
        ([host, some, directory], None, ""),
        ([directory, other, host], None, ""),
        ([host, directory], [every_4, every_6], ""),
        ([host, directory], [host, every_6, directory, every_4], ""),
        ([host, directory], [every_4], addresses),
        ([host, directory], [every_6], addresses),
        ([host, directory], [some, other], addresses),
        ([host, directory], None, addresses),
        ([host, some], [directory], directories),
        ([host], None, f"{addresses} {directories}"),
        ([directory], None, ""),
        (None, [host], ""),
    ):
        yield authority(permitted=x509.NameConstraints(permitted, excluded), marked=["permitted"]), rules
    yield root(permitted=x509.NameConstraints([host], None)), "root_extension_other"
    yield server(permitted=x509.NameConstraints([host], None)), ""


GROUPS = (
    *(clean_ones, field_rules, key_rules, validity_rules, host_rules, name_rules, subject_rules, usage_rules, policy_rules),
    *(authority_rules, root_rules, subordinate_rules, responder_rules, precertificate_rules, constrained_rules),
)


def rules_of_page():
    """Of each rule of docs/WEB_RULES.md, in their order, its severity, its section, and the days from which on it is in force and no longer is, or nothing."""
    days = "(?:, ([0-9-]+))?(?:, until ([0-9-]+))?"
    rows = re.findall(rf"^- `(\w+)`: .* \(([0-9.]+)(?:, (warning))?{days}\)\.(?: `.*)?$", PAGE.read_text(encoding="utf-8"), re.M)
    return {rule: (severity or "error", section, *days) for rule, section, severity, *days in rows}


def is_in_force(moment, since, until):
    return (not since or f"{since}T00:00:00Z" <= moment) and (not until or moment < f"{until}T00:00:00Z")


def second_before(day):
    return (datetime.datetime.fromisoformat(day) - SECOND).isoformat() + "Z"


def not_before_of(data):
    """The notBefore of a certificate, which is its first UTCTime (RFC 5280 4.1.2.5.1)."""
    digits = re.search(rb"\x17\x0d(\d{12})Z", data)[1].decode()
    return datetime.datetime.strptime(f"20{digits}", "%Y%m%d%H%M%S").isoformat() + "Z"


def told(rules, moment, page):
    """What is printed of a certificate that breaks these rules, without what is seen, and the status: a line for each rule that is in force."""
    found = [(rule, severity, section) for rule, (severity, section, *days) in page.items() if rule in rules and is_in_force(moment, *days)]
    text = "".join(f"certificate: {severity} {rule} (TLS BR {section})\n" for rule, severity, section in found)
    return text, int(any(severity == "error" for _, severity, _ in found))


def seen_of():
    """Certificates, each with a rule that it breaks, the rule's place, what that is which is seen there, and what is seen, at one place or at several."""
    key, subject, names = "tbsCertificate.subjectPublicKeyInfo", "tbsCertificate.subject", "tbsCertificate.extensions.subjectAltName"
    of_rsa, of_sha1 = bytes.fromhex("06092a864886f70d01010b"), bytes.fromhex("06092a864886f70d010105")
    yield server(patches=[(b"\xa0\3\2\1\2", b"\xa0\3\2\1\1")]), "version_not_v3", "tbsCertificate.version", "nothing", ""
    yield server(patches=[(of_rsa, of_sha1)]), "signature_of_sha1", "signatureAlgorithm", "OID", "1.2.840.113549.1.1.5"
    yield server(key=ed25519.Ed25519PrivateKey.generate().public_key()), "key_algorithm_other", key, "OID", "1.3.101.112"
    yield server(**OF_EC | {"key": ec.generate_private_key(ec.SECP256K1()).public_key()}), "ec_curve_other", key, "octets", "2b8104000a"
    short = rsa.generate_private_key(65537, 1024).public_key()
    octets = short.public_bytes(serialization.Encoding.DER, serialization.PublicFormat.PKCS1)
    yield server(key=short), "rsa_modulus_short", key, "octets", octets[:32].hex() + ".."
    yield server(lasts=0 * SECOND), "validity_over_46_days", "tbsCertificate.validity", "dates", "2024-01-01T00:00:00Z/2024-02-16T00:00:00Z"
    yield server(names=hosts("a.example.com", "b_c.example.com", "d_e.example.com")), "dns_name_underscore", names, "dNSName", "b_c.example.com", "d_e.example.com"
    odd = [(b"b_c.example.com", b"b\"\\\1_xample.com")]
    yield server(names=hosts("b_c.example.com"), patches=odd), "dns_name_underscore", names, "dNSName", "b\"\\\1_xample.com"
    yield server(names=addresses("9.9.9.9", "10.1.2.3")), "address_reserved", names, "iPAddress", "0a010203"
    yield server(names=x509.SubjectAlternativeName([x509.DNSName("a.example.com"), uri("http://a")])), "subject_alt_name_other", names, "uniformResourceIdentifier", "http://a"
    yield server(names=None), "subject_alt_name_absent", names, "nothing", ""
    yield server(marked=["names"], names=hosts("a.example.com")), "subject_alt_name_critical", names, "octets", "300f820d612e6578616d706c652e636f6d"
    quoted = name((COUNTRY, "NL"), (LOCALITY, 'x"y'))
    yield server(subject=quoted), "domain_validated_attribute", subject, "name", 'L=x\\"y,C=NL'
    yield server(unmarked=["usage"]), "key_usage_not_critical", "tbsCertificate.extensions.keyUsage", "octets", "030205a0"
    yield server(key_id=x509.SubjectKeyIdentifier(KEY_ID)), "subject_key_identifier_present", "tbsCertificate.extensions.subjectKeyIdentifier", "octets", f"0414{KEY_ID.hex()}"
    yield server(policies=policies("1.2.3.4")), "reserved_policy_absent", "tbsCertificate.extensions.certificatePolicies", "octets", "300730050603" + "2a0304"
    yield authority(points=None), "subordinate_without_crl_points", "tbsCertificate.extensions.cRLDistributionPoints", "nothing", ""
    yield server(names=hosts("a.example.com", "b.12", "c.d.3")), "dns_name_numeric", names, "dNSName", "b.12", "c.d.3"
    yield server(subject=name((COUNTRY, "QQ"))), "country_unknown", subject, "name", "C=QQ"
    yield server(points=None, accesses=accesses((CA_ISSUERS, "http://o")), days=8), "revocation_absent_over_7_days", "tbsCertificate.extensions", "nothing", ""
    yield root(issuer_key=None), "root_without_authority_key_identifier", "tbsCertificate.extensions.authorityKeyIdentifier", "nothing", ""
    yield root(constraints=x509.BasicConstraints(True, 0)), "root_path_len_present", "tbsCertificate.extensions.basicConstraints", "octets", "30060101ff020100"
    yield root(names=hosts("a.example.com")), "root_extension_other", "tbsCertificate.extensions", "nothing", ""
    yield root(days=9132, lasts=0 * SECOND), "root_validity_over_9132_days", "tbsCertificate.validity", "dates", "2024-01-01T00:00:00Z/2049-01-01T00:00:00Z"
    yield authority(marked=["purposes"]), "subordinate_extended_key_usage_critical", "tbsCertificate.extensions.extKeyUsage", "octets", "300a06082b06010505070301"
    yield responder(marked=["no_check"]), "ocsp_no_check_critical", "tbsCertificate.extensions.ocspNoCheck", "octets", "0500"
    listed = "tbsCertificate.extensions.signedCertificateTimestampList"
    yield server(poison=x509.PrecertPoison(), timestamps=TIMESTAMPS), "precertificate_with_timestamps", listed, "octets", "04020000"
    any_purpose = key_purposes(ExtendedKeyUsageOID.ANY_EXTENDED_KEY_USAGE)
    yield authority(purposes=any_purpose), "constrained_purpose_forbidden", "tbsCertificate.extensions.extKeyUsage", "octets", "30060604551d2500"
    hosts_alone = x509.NameConstraints([x509.DNSName("a"), x509.DirectoryName(x509.Name([]))], None)
    yield authority(permitted=hosts_alone), "constrained_without_addresses", "tbsCertificate.extensions.nameConstraints", "octets", "300da00b30038201613004a4023000"


def others():
    """Names of each kind but dNSName and iPAddress, each with what that is and what is seen of it."""
    other = x509.OtherName(ObjectIdentifier("1.3.6.1.5.5.7.8.9"), b"\x0c\1a")
    directory = x509.Name([x509.NameAttribute(COUNTRY, "NL"), x509.NameAttribute(ORGANIZATION, "a,b")])
    yield x509.RFC822Name("a@example.com"), "rfc822Name", "a@example.com"
    yield x509.DirectoryName(directory), "directoryName", r"O=a\,b,C=NL"
    yield uri("http://a/?b=c"), "uniformResourceIdentifier", "http://a/?b=c"
    yield x509.RegisteredID(ObjectIdentifier("1.2.840.113549")), "registeredID", "1.2.840.113549"
    yield other, "otherName", "1.3.6.1.5.5.7.8.9"


def line_of(rule, kind, seen, page):
    """The line of a finding for people."""
    severity, section, *_ = page[rule]
    return f"certificate: {severity} {rule} (TLS BR {section})" + (f"\t{kind} {json.dumps(seen)}" if seen else "") + "\n"


def json_of(rule, place, kind, seen, page):
    """The line of a finding as an object of JSON."""
    severity, section, *_ = page[rule]
    members = {"file": "standard input", "object": "certificate", "rule": rule, "severity": severity, "section": f"TLS BR {section}", "place": place, "seen": seen}
    return json.dumps(members | {"seen_as": kind}) + "\n"


def seen_runs(page):
    """Runs that show what is seen, with `--json` and without."""
    for data, rule, place, kind, *all_seen in seen_of():
        status = int(page[rule][0] == "error")
        yield f"JSON of {rule}", ["--web", NOW, "--json"], data, "".join(json_of(rule, place, kind, seen, page) for seen in all_seen), status
        yield f"what is seen of {rule}", ["--web", NOW], data, "".join(line_of(rule, kind, seen, page) for seen in all_seen), status
    rule, place = "subject_alt_name_other", "tbsCertificate.extensions.subjectAltName"
    data = server(names=x509.SubjectAlternativeName([x509.DNSName("a.example.com"), *(it for it, _, _ in others())]))
    told = [(kind, seen) for _, kind, seen in others()]
    yield "JSON of names of each kind", ["--web", NOW, "--json"], data, "".join(json_of(rule, place, *it, page) for it in told), 1
    yield "names of each kind", ["--web", NOW], data, "".join(line_of(rule, *it, page) for it in told), 1
    severity, section, *_ = page[rule]
    yield "a summary of names of each kind", ["--web", "--count", NOW], data, f"{len(told)} certificate: {severity} {rule} (TLS BR {section})\n", 1
    yield "JSON of a certificate that breaks no rule", ["--json", "--web", NOW], server(), "", 0
    yield "a certificate that breaks no rule, with -v", ["--web", "-v", NOW], server(), "nothing found\n", 0


def web_runs():
    """For each run a name, its words, its input, what it is to print, and its status: of all in force, about the day of each rule that is broken, and at the
    moment of notBefore."""
    page = rules_of_page()
    broken = set()
    for group in GROUPS:
        for at, (data, listed) in enumerate(group()):
            rules = listed.split()
            broken.update(rules)
            days = sorted({day for rule in rules for day in page[rule][2:]} - {""})
            for moment in [NOW, *(f"{day}T00:00:00Z" for day in days), *map(second_before, days)]:
                yield f"{group.__name__} {at} at {moment}", ["--web", moment], data, *told(rules, moment, page)
            yield f"{group.__name__} {at} at its notBefore", ["--web", "not-before"], data, *told(rules, not_before_of(data), page)
    yield from seen_runs(page)
    if broken != set(page):
        raise ValueError(f"no certificate breaks these rules: {sorted(set(page) - broken)}")
