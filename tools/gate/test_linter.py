#!/usr/bin/env python3
"""Runs x509_linter over certificates, CRLs, CSRs and trust anchors that break one rule each, and over ones that break none, and with `--web` over those of
web_cases.py, where Python's cryptography is installed.

What is to be printed of each is stated here by hand, from the sections that the lines name. With `--write FOLDER` the objects are
written there too, as NAME.der.
"""
import argparse
import itertools
import json
import pathlib
import re
import sys
import tempfile

sys.path.insert(0, str(pathlib.Path(__file__).resolve().parents[1]))
from common.der import BIT_STRING, BMP_STRING, GENERALIZED_TIME, IA5_STRING, NULL, PRINTABLE_STRING, TELETEX_STRING, TRUE, UTC_TIME, UTF8_STRING, VISIBLE_STRING
from common.der import bit_string, context, element, header_len, integer, object_identifier, octet_string, sequence, set_of
from list_rule_names import rule_names
from object_runs import NO_ELEMENT, NO_SEQUENCE, NOTHING, PEM_OF_NOTHING, UNFINISHED, WHOLE, Program, behind, counted, ended, looks, pem_of, unended, unread

ENUMERATED, NUMERIC_STRING, UNIVERSAL_STRING = 0x0A, 0x12, 0x1C
EMAIL_ADDRESS, DOMAIN_COMPONENT = object_identifier(1, 2, 840, 113549, 1, 9, 1), object_identifier(0, 9, 2342, 19200300, 100, 1, 25)

ECDSA_SHA256 = sequence(object_identifier(1, 2, 840, 10045, 4, 3, 2))
ECDSA_SHA384 = sequence(object_identifier(1, 2, 840, 10045, 4, 3, 3))
EC_P256 = sequence(object_identifier(1, 2, 840, 10045, 2, 1), object_identifier(1, 2, 840, 10045, 3, 1, 7))
KEY = sequence(EC_P256, bit_string(b"\x04" + bytes(64)))
SIGNATURE = bit_string(sequence(integer(1), integer(2)))


def implicit(number, *contents):
    """An element under a primitive context-specific tag of this number."""
    return element(0x80 + number, *contents)


def utc(text):
    return element(UTC_TIME, text)


def general(text):
    return element(GENERALIZED_TIME, text)


def rdn(*attributes):
    """An RDN of attributes 2.5.4.N with these values."""
    return set_of(*(sequence(object_identifier(2, 5, 4, number), value) for number, value in attributes))


def common_name(text):
    return sequence(rdn((3, element(UTF8_STRING, text))))


ISSUER, SUBJECT = common_name(b"An authority"), common_name(b"A subject")
DATES = sequence(utc(b"260102030405Z"), utc(b"270102030405Z"))


# ---- extensions


def extension(oid, payload, critical=False):
    return sequence(oid, TRUE if critical else b"", octet_string(payload))


def ce(number, payload, critical=False):
    """An extension 2.5.29.N (RFC 5280 4.2.1)."""
    return extension(object_identifier(2, 5, 29, number), payload, critical)


def pe(number, payload, critical=False):
    """An extension 1.3.6.1.5.5.7.1.N (RFC 5280 4.2.2)."""
    return extension(object_identifier(1, 3, 6, 1, 5, 5, 7, 1, number), payload, critical)


KEY_ID = implicit(0, b"authority")
AKI = ce(35, sequence(KEY_ID))
SKI = ce(14, octet_string(b"subject"))
DIGITAL_SIGNATURE, KEY_CERT_SIGN = bit_string(b"\x80", 7), bit_string(b"\x06", 1)
KU, CA_KU = ce(15, DIGITAL_SIGNATURE, True), ce(15, KEY_CERT_SIGN, True)
CA_BC = ce(19, sequence(TRUE), True)
LEAF, CA = (AKI, SKI, KU), (AKI, SKI, CA_KU, CA_BC)
OTHER = extension(object_identifier(1, 2, 3), b"\x05\x00")

DNS = implicit(2, b"example.org")
NAMES = sequence(DNS)
URI = implicit(6, b"http://example.org/list.crl")
POINT = sequence(context(0, context(0, URI)))
POLICY, ANY_POLICY = object_identifier(1, 2, 3, 4), object_identifier(2, 5, 29, 32, 0)
ACCESS = sequence(sequence(object_identifier(1, 3, 6, 1, 5, 5, 7, 48, 2), URI))
SUBTREES = context(0, sequence(DNS))
ATTRIBUTES = sequence(sequence(object_identifier(1, 3, 6, 1, 5, 5, 7, 9, 4), set_of(element(PRINTABLE_STRING, b"DE"))))


# ---- objects


def tbs_certificate(
    version=context(0, integer(2)),
    serial=integer(1),
    inner=ECDSA_SHA256,
    issuer=ISSUER,
    dates=DATES,
    subject=SUBJECT,
    unique=b"",
    extensions=LEAF,
    key=KEY,
):
    """The signed part of a certificate (RFC 5280 4.1.2); with `extensions=None` it has none."""
    behind = b"" if extensions is None else context(3, sequence(*extensions))
    return sequence(version, serial, inner, issuer, dates, subject, key, unique, behind)


def certificate(outer=ECDSA_SHA256, **fields):
    """A certificate (RFC 5280 4.1) of a signed part with these fields."""
    return sequence(tbs_certificate(**fields), outer, SIGNATURE)


CRL_AKI, CRL_NUMBER = AKI, ce(20, integer(7))
ENTRY = sequence(integer(5), utc(b"260101000000Z"))


def crl(
    version=integer(1),
    inner=ECDSA_SHA256,
    issuer=ISSUER,
    this_update=utc(b"260102030405Z"),
    next_update=utc(b"260202030405Z"),
    entries=sequence(ENTRY),
    extensions=(CRL_AKI, CRL_NUMBER),
    outer=ECDSA_SHA256,
):
    """A CRL (RFC 5280 5.1); with `extensions=None` it has none."""
    behind = b"" if extensions is None else context(0, sequence(*extensions))
    return sequence(sequence(version, inner, issuer, this_update, next_update, entries, behind), outer, SIGNATURE)


def entry_with(*extensions, serial=6):
    return sequence(integer(serial), utc(b"260101000000Z"), sequence(*extensions))


def leaf_with(*extensions):
    return certificate(extensions=(*LEAF, *extensions))


def ca_with(*extensions):
    return certificate(extensions=(*CA, *extensions))


def crl_with(*extensions):
    return crl(extensions=(CRL_AKI, CRL_NUMBER, *extensions))


def error(name, section):
    return f"error {name} (RFC 5280 {section})"


def warning(name, section):
    return f"warning {name} (RFC 5280 {section})"


def not_judged(name, section):
    return f"not judged {name} (RFC 5280 {section})"


def malformed(name):
    return f"{error('extension_malformed', '4.2')}: tbsCertificate.extensions.{name}"


def crl_malformed(name):
    return f"{error('extension_malformed', '5.2')}: tbsCertList.crlExtensions.{name}"


NO_AKI = error("authority_key_identifier_absent", "4.2.1.1")
NO_SKI = warning("subject_key_identifier_absent", "4.2.1.2")


def field_rules():
    """The fields of a certificate (RFC 5280 4.1)."""
    yield certificate(outer=ECDSA_SHA384), [error("signature_algorithms_differ", "4.1.1.2")]
    yield certificate(version=context(0, integer(1))), [error("extensions_without_v3", "4.1.2.1")]
    yield certificate(version=b""), [error("extensions_without_v3", "4.1.2.1")]
    unique = implicit(1, b"\0\1")
    yield certificate(subject=ISSUER, unique=unique, extensions=None), [
        warning("version_above_v2", "4.1.2.1"),
        error("unique_identifier_present", "4.1.2.8"),
        NO_SKI,
    ]
    yield certificate(version=context(0, integer(1)), unique=unique, extensions=None), [error("unique_identifier_present", "4.1.2.8")]
    for number, absent in ((1, []), (2, [NO_SKI, NO_AKI])):
        yield certificate(version=context(0, integer(number)), extensions=None), [warning("version_above_v1", "4.1.2.1"), *absent]
    for issuer in (ISSUER, SUBJECT):
        yield certificate(version=b"", issuer=issuer, extensions=None), []
    yield certificate(serial=integer(0)), [error("serial_number_not_positive", "4.1.2.2")]
    yield certificate(serial=element(2, b"\xff")), [error("serial_number_not_positive", "4.1.2.2")]
    yield certificate(serial=integer(1 << 158)), []
    yield certificate(serial=integer(1 << 159)), [error("serial_number_too_long", "4.1.2.2")]
    yield certificate(issuer=sequence()), [error("issuer_empty", "4.1.2.4")]
    yield certificate(dates=sequence(general(b"20491231235959Z"), general(b"20500101000000Z"))), [error("not_before_not_utc_time", "4.1.2.5")]
    yield certificate(dates=sequence(utc(b"491231235958Z"), general(b"20491231235959Z"))), [error("not_after_not_utc_time", "4.1.2.5")]
    yield certificate(dates=sequence(utc(b"260102030405Z"), utc(b"260102030404Z"))), [error("not_after_before_not_before", "4.1.2.5")]
    yield certificate(dates=sequence(utc(b"260102030405Z"), utc(b"260102030405Z"))), []
    yield certificate(unique=implicit(1, b"\0\1")), [error("unique_identifier_present", "4.1.2.8")]
    yield certificate(version=b"", subject=ISSUER, unique=implicit(2, b"\0\1"), extensions=None), [
        error("unique_identifier_in_v1", "4.1.2.8"),
        error("unique_identifier_present", "4.1.2.8"),
    ]


def name_rules():
    """The issuer and the subject of a certificate (RFC 5280 4.1.2.4, 4.1.2.6, A.1)."""
    three, text = (6, element(PRINTABLE_STRING, b"DEU")), (6, element(UTF8_STRING, b"DE"))
    yield certificate(issuer=sequence(rdn())), [error("issuer_rdn_empty", "4.1.2.4")]
    yield certificate(issuer=sequence(rdn(three))), [error("issuer_country_name_invalid", "A.1")]
    yield certificate(issuer=sequence(rdn(text))), [error("issuer_country_name_invalid", "A.1")]
    yield certificate(subject=sequence(rdn())), [error("subject_rdn_empty", "4.1.2.6")]
    one, other = (3, element(UTF8_STRING, b"a")), (3, element(PRINTABLE_STRING, b"another"))
    for owner in ("issuer", "subject"):
        repeated = [of_standard("error", f"{owner}_rdn_type_repeated", "X.501", "9.3")]
        for attributes in ((one, other), (one, three, other), (one, (4, one[1]), other, (5, other[1]))):
            told = repeated if three not in attributes else [*repeated, error(f"{owner}_country_name_invalid", "A.1")]
            yield certificate(**{owner: sequence(rdn((10, one[1])), rdn(*attributes))}), told
        yield certificate(**{owner: sequence(rdn(one), rdn(other), rdn((10, one[1]), (11, one[1])))}), []
    yield certificate(subject=sequence(rdn(three))), [error("subject_country_name_invalid", "A.1")]
    yield certificate(subject=sequence(rdn((6, element(PRINTABLE_STRING, b"De"))))), []
    yield certificate(subject=sequence()), [error("subject_empty_without_critical_alt_name", "4.1.2.6")]
    yield certificate(subject=sequence(), extensions=(*LEAF, ce(17, NAMES))), [error("subject_empty_without_critical_alt_name", "4.1.2.6")]
    yield certificate(subject=sequence(), extensions=(*LEAF, ce(17, NAMES, True))), []


def texts(owner, section):
    """For each text of a name what is to be told of it, where the name is that of this owner (RFC 5280 4.1.2.4, A.1)."""
    kind, old = error(f"{owner}_text_type", "A.1"), warning(f"{owner}_text_old_type", section)
    characters, size = error(f"{owner}_text_characters", section), error(f"{owner}_text_size", "A.1")
    for number in (3, 4, 7, 8, 10, 11, 12, 41, 42, 43, 44, 65):
        yield rdn((number, element(IA5_STRING, b"a"))), [kind]
        yield rdn((number, element(PRINTABLE_STRING, b"a"))), []
        yield rdn((number, element(TELETEX_STRING, b"a"))), [old]
    yield rdn((10, element(BMP_STRING, b"\0a"))), [old]
    yield rdn((10, element(UNIVERSAL_STRING, b"\0\0\0a"))), [old]
    yield rdn((5, element(UTF8_STRING, b"a"))), [kind]
    yield rdn((46, element(UTF8_STRING, b"a"))), [kind]
    yield rdn((5, element(PRINTABLE_STRING, b"a")), (46, element(PRINTABLE_STRING, b"a"))), []
    for oid in (DOMAIN_COMPONENT, EMAIL_ADDRESS):
        yield set_of(sequence(oid, element(UTF8_STRING, b"a"))), [kind]
    label = of_standard("error", f"{owner}_domain_component_invalid", "RFC 4519", "2.4")
    for text in (b"example.org", b"a.", b".", b"", b"a_b", b"-a", b"a-", b"a b", b"a" * 64):
        yield set_of(sequence(DOMAIN_COMPONENT, element(IA5_STRING, text))), [label]
    for text in (b"a", b"1", b"A-1", b"a" * 63, b"xn--a"):
        yield set_of(sequence(DOMAIN_COMPONENT, element(IA5_STRING, text))), []
    yield rdn((9, element(IA5_STRING, b"a"))), []
    for tag, text in (
        (UTF8_STRING, b"\xff"),
        (UTF8_STRING, b"\xed\xa0\x80"),
        (PRINTABLE_STRING, b"a*"),
        (PRINTABLE_STRING, b"a@"),
        (PRINTABLE_STRING, b"a_"),
    ):
        yield rdn((10, element(tag, text))), [characters]
    yield rdn((9, element(IA5_STRING, b"\x80"))), [characters]
    yield rdn((9, element(VISIBLE_STRING, b"\x1f"))), [characters]
    yield rdn((9, element(VISIBLE_STRING, b"\x7f"))), [characters]
    yield rdn((9, element(NUMERIC_STRING, b"1a"))), [characters]
    yield rdn((9, element(NUMERIC_STRING, b"1 2"))), []
    yield rdn((9, element(VISIBLE_STRING, b" ~"))), []
    yield rdn((10, element(BMP_STRING, b"\0a\0"))), [old, characters]
    yield rdn((10, element(UNIVERSAL_STRING, b"\0\0\0a\0\0"))), [old, characters]
    yield rdn((10, element(PRINTABLE_STRING, b"Az09 '()+,-./:=?"))), []
    for bound, numbers in ((64, (3, 10, 11, 12)), (128, (7, 8, 65)), (32768, (4, 41, 42, 43, 44))):
        for number in numbers:
            yield rdn((number, element(UTF8_STRING, b""))), [size]
            yield rdn((number, element(UTF8_STRING, "ä".encode() * (bound + 1)))), [size]
            yield rdn((number, element(UTF8_STRING, "ä".encode() * bound))), []
    yield rdn((10, element(BMP_STRING, b"\0a" * 65))), [old, size]
    yield rdn((10, element(BMP_STRING, b"\0a" * 64))), [old]
    yield rdn((10, element(UNIVERSAL_STRING, b"\0\0\0a" * 65))), [old, size]
    yield rdn((10, element(UNIVERSAL_STRING, b"\0\0\0a" * 64))), [old]
    yield rdn((5, element(PRINTABLE_STRING, b""))), [size]
    yield rdn((5, element(PRINTABLE_STRING, b"1" * 65))), [size]
    yield rdn((5, element(PRINTABLE_STRING, b"1" * 64))), []


def text_rules():
    """The texts of the issuer and the subject of a certificate (RFC 5280 4.1.2.4, 4.1.2.6, A.1)."""
    mailbox = ce(17, sequence(implicit(1, b"a@example.org")))
    for text, findings in texts("issuer", "4.1.2.4"):
        yield certificate(issuer=sequence(text)), findings
    for text, findings in texts("subject", "4.1.2.6"):
        yield certificate(subject=sequence(text), extensions=(*LEAF, mailbox)), findings
    for owner in ("issuer", "subject"):
        for count, findings in ((0, [error(f"{owner}_text_size", "A.1")]), (256, [error(f"{owner}_text_size", "A.1")]), (255, [])):
            text = sequence(set_of(sequence(EMAIL_ADDRESS, element(IA5_STRING, b"a" * count))))
            yield certificate(**{owner: text}, extensions=(*LEAF, mailbox)), findings


def list_rules():
    """The extensions of a certificate as a list (RFC 5280 4.1.2.9, 4.2)."""
    yield certificate(subject=ISSUER, extensions=()), [error("extensions_empty", "4.1.2.9"), NO_SKI]
    yield leaf_with(OTHER, OTHER), [error("extension_repeated", "4.2")]
    yield leaf_with(OTHER), []
    yield ca_with(ce(54, b"\x05\x00", True)), [malformed("inhibitAnyPolicy")]
    yield ca_with(ce(54, NULL, True), ce(36, NULL, True)), [malformed("policyConstraints"), malformed("inhibitAnyPolicy")]
    for number in (b"\xff", b"\0\1", b""):
        yield certificate(extensions=(AKI, SKI, CA_KU, ce(19, sequence(TRUE, element(2, number)), True))), [malformed("basicConstraints")]
    yield certificate(extensions=(AKI, SKI, CA_KU, CA_BC, CA_BC)), [error("extension_repeated", "4.2")]


EXTENSIONS = (
    (35, "authorityKeyIdentifier"),
    (14, "subjectKeyIdentifier"),
    (15, "keyUsage"),
    (37, "extKeyUsage"),
    (16, "privateKeyUsagePeriod"),
    (19, "basicConstraints"),
    (17, "subjectAltName"),
    (18, "issuerAltName"),
    (9, "subjectDirectoryAttributes"),
    (30, "nameConstraints"),
    (32, "certificatePolicies"),
    (33, "policyMappings"),
    (36, "policyConstraints"),
    (54, "inhibitAnyPolicy"),
    (31, "cRLDistributionPoints"),
    (46, "freshestCRL"),
)


def malformed_rules():
    """The octets of each extension of RFC 5280 (4.2), which can't be read."""
    critical = (15, 19, 30, 33, 36, 54)
    for number, name in EXTENSIONS:
        others = [it for kept, it in zip((35, 14, 15, 19), CA) if kept != number]
        yield certificate(extensions=(*others, ce(number, NULL, number in critical))), [malformed(name)]
    for number, name in ((1, "authorityInfoAccess"), (11, "subjectInfoAccess"), (3, "qcStatements"), (24, "tlsFeature")):
        yield ca_with(pe(number, NULL)), [malformed(name)]
    yield from other_malformed_rules()


OCSP_NO_CHECK = object_identifier(1, 3, 6, 1, 5, 5, 7, 48, 1, 5)
POISON = object_identifier(1, 3, 6, 1, 4, 1, 11129, 2, 4, 3)
PAST = object_identifier(1, 3, 6, 1, 5, 5, 7, 11, 2)


def other_malformed_rules():
    """The octets of extensions that other standards have (RFC 6960 4.2.2.2.1, RFC 6962 3.1, RFC 7633 4, RFC 3739 3.2.6)."""
    for oid, name, critical in ((OCSP_NO_CHECK, "ocspNoCheck", False), (POISON, "precertificatePoison", True)):
        yield leaf_with(extension(oid, NULL, critical)), []
        for octets in (b"", b"\5", b"\5\0\0", b"\5\1\0", b"\6\0", sequence(), sequence(NULL)):
            yield leaf_with(extension(oid, octets, critical)), [malformed(name)]
        yield leaf_with(extension(oid, NULL, critical), extension(oid, b"", critical)), [error("extension_repeated", "4.2"), malformed(name)]
    for octets in (sequence(), sequence(integer(5)), sequence(integer(5), integer(17)), sequence(integer(2**70))):
        yield leaf_with(pe(24, octets)), []
    for octets in (b"", integer(5), sequence(octet_string(b"\5")), sequence(element(2, b"\0\5")), sequence(element(2)), sequence(integer(5)) + b"\0"):
        yield leaf_with(pe(24, octets)), [malformed("tlsFeature")]
    for octets in (sequence(), sequence(sequence(PAST)), sequence(sequence(PAST, NULL), sequence(POLICY, sequence(integer(1)))), sequence(sequence(LARGE_OIDS[0]))):
        yield leaf_with(pe(3, octets)), []
    for octets in (b"", sequence(PAST), sequence(sequence()), sequence(sequence(NULL)), sequence(sequence(PAST, NULL, NULL)), sequence(sequence(PAST)) + b"\0"):
        yield leaf_with(pe(3, octets)), [malformed("qcStatements")]
    for oid in (OCSP_NO_CHECK, POISON):
        yield leaf_with(extension(oid, NULL, oid is OCSP_NO_CHECK)), [
            of_standard("warning", "ocsp_no_check_critical", "RFC 6960", "4.2.2.2.1")
            if oid is OCSP_NO_CHECK
            else of_standard("error", "precertificate_poison_not_critical", "RFC 6962", "3.1")
        ]


# right, and more than the decoder holds: a UUID as an arc (X.667 6.3), 40 octets of arcs, and an x400Address with a country (RFC 5280 A.1)
LARGE_OIDS = element(6, b"\x69\x83" + b"\x81" * 17 + b"\1"), element(6, b"\x2a" + b"\1" * 39), element(6, b"\x2a\x90\x80\x80\x80\0")
X400_ADDRESS = context(3, sequence(element(0x61, element(PRINTABLE_STRING, b"DE"))))


def beyond_rules():
    """What RFC 5280 allows and the decoder doesn't hold, which isn't malformed and isn't judged; where it isn't such an OID or address, it's malformed."""
    held = element(6, b"\x2a" + b"\1" * 38), element(6, b"\x2a\x8f\xff\xff\xff\x7f")
    broken = element(6, b"\x2a\x80\1"), element(6, b"\x2a\x81"), element(6), element(6, b"\x2a\x90\x80\x80\x80\x80")

    def told(oid, name, rule, section):
        if oid in held:
            return []
        return [malformed(name)] if oid in broken else [not_judged(rule, section)]

    for oid in (*LARGE_OIDS, *held, *broken):
        yield leaf_with(ce(37, sequence(oid))), told(oid, "extKeyUsage", "extended_key_usage_not_read", "4.2.1.12")
        yield leaf_with(ce(32, sequence(sequence(oid)))), told(oid, "certificatePolicies", "certificate_policies_not_read", "4.2.1.4")
        attributes = told(oid, "subjectDirectoryAttributes", "subject_directory_attributes_not_read", "4.2.1.8")
        yield leaf_with(ce(9, sequence(sequence(oid, set_of(NULL))))), attributes
        yield leaf_with(pe(1, sequence(sequence(oid, URI)))), told(oid, "authorityInfoAccess", "authority_info_access_not_read", "4.2.2.1")
        yield ca_with(pe(11, sequence(sequence(oid, URI)))), told(oid, "subjectInfoAccess", "subject_info_access_not_read", "4.2.2.2")
        names = told(oid, "subjectAltName", "subject_alt_name_not_read", "4.2.1.6")
        yield leaf_with(ce(17, sequence(DNS, context(0, oid, context(0, NULL))))), names
        yield leaf_with(ce(17, sequence(DNS, context(4, sequence(set_of(sequence(oid, element(UTF8_STRING, b"a")))))))), names
    for oid in LARGE_OIDS:
        yield ca_with(ce(32, sequence(sequence(POLICY))), ce(33, sequence(sequence(POLICY, oid)), True)), [not_judged("policy_mappings_not_read", "4.2.1.5")]
    # an address begins with a SEQUENCE
    for address, is_address in ((X400_ADDRESS, True), (context(3, NULL), False), (context(3), False)):
        for number, name, rule, section, payload in (
            (17, "subjectAltName", "subject_alt_name", "4.2.1.6", sequence(DNS, address)),
            (18, "issuerAltName", "issuer_alt_name", "4.2.1.7", sequence(address, DNS)),
            (31, "cRLDistributionPoints", "crl_distribution_points", "4.2.1.13", sequence(POINT, sequence(context(0, context(0, address))))),
            (46, "freshestCRL", "freshest_crl", "4.2.1.15", sequence(POINT, sequence(context(0, context(0, address))))),
        ):
            yield leaf_with(ce(number, payload)), [not_judged(f"{rule}_not_read", section)] if is_address else [malformed(name)]
    yield ca_with(ce(30, sequence(context(0, sequence(X400_ADDRESS))), True)), [not_judged("name_constraints_not_read", "4.2.1.10")]
    # what else is asked of such an extension
    unread, place = not_judged("authority_info_access_not_read", "4.2.2.1"), object_identifier(1, 3, 6, 1, 5, 5, 7, 48, 2)
    yield leaf_with(pe(1, sequence(sequence(place, X400_ADDRESS)))), [unread]
    yield leaf_with(pe(1, sequence(sequence(place, X400_ADDRESS)), True)), [error("authority_info_access_critical", "4.2.2.1"), unread]
    yield ca_with(ce(30, sequence(context(0, sequence(X400_ADDRESS))))), [
        error("name_constraints_not_critical", "4.2.1.10"),
        not_judged("name_constraints_not_read", "4.2.1.10"),
    ]
    unread = not_judged("authority_key_identifier_not_read", "4.2.1.1")
    yield certificate(extensions=(ce(35, sequence(KEY_ID, context(1, X400_ADDRESS), implicit(2, b"\1"))), SKI, KU)), [unread]
    # the first of two is read by itself, and none where there are two
    yield leaf_with(ce(17, NAMES), ce(17, sequence(X400_ADDRESS))), [error("extension_repeated", "4.2"), not_judged("subject_alt_name_not_read", "4.2.1.6")]
    # the octets of an address within an OCTET STRING that is read are none
    yield certificate(extensions=(ce(35, sequence(implicit(0, X400_ADDRESS))), SKI, KU)), []
    for oid in LARGE_OIDS:
        yield leaf_with(ce(16, sequence(oid))), [malformed("privateKeyUsagePeriod")]
        yield certificate(extensions=(AKI, ce(14, oid), KU)), [malformed("subjectKeyIdentifier")]
    yield leaf_with(ce(37, sequence(X400_ADDRESS))), [malformed("extKeyUsage")]


def critical_rules():
    """Which extensions of a certificate are critical (RFC 5280 4.2.1, 4.2.2)."""
    mappings, policies = sequence(sequence(POLICY, object_identifier(1, 2, 3, 5))), ce(32, sequence(sequence(POLICY)))
    limits = sequence(implicit(0, b"\0"))
    yield certificate(extensions=(ce(35, sequence(KEY_ID), True), SKI, KU)), [error("authority_key_identifier_critical", "4.2.1.1")]
    yield certificate(extensions=(AKI, ce(14, octet_string(b"subject"), True), KU)), [error("subject_key_identifier_critical", "4.2.1.2")]
    yield certificate(extensions=(AKI, SKI, ce(15, DIGITAL_SIGNATURE))), [warning("key_usage_not_critical", "4.2.1.3")]
    yield ca_with(policies, ce(33, mappings)), [warning("policy_mappings_not_critical", "4.2.1.5")]
    yield leaf_with(ce(17, NAMES, True)), [warning("subject_alt_name_critical", "4.2.1.6")]
    yield leaf_with(ce(18, NAMES, True)), [warning("issuer_alt_name_critical", "4.2.1.7")]
    yield leaf_with(ce(9, ATTRIBUTES, True)), [error("subject_directory_attributes_critical", "4.2.1.8")]
    yield ca_with(ce(30, sequence(SUBTREES))), [error("name_constraints_not_critical", "4.2.1.10")]
    yield ca_with(ce(36, limits)), [error("policy_constraints_not_critical", "4.2.1.11")]
    yield leaf_with(ce(31, sequence(POINT), True)), [warning("crl_distribution_points_critical", "4.2.1.13")]
    yield ca_with(ce(54, integer(0))), [error("inhibit_any_policy_not_critical", "4.2.1.14")]
    yield leaf_with(ce(46, sequence(POINT), True)), [error("freshest_crl_critical", "4.2.1.15")]
    yield leaf_with(pe(1, ACCESS, True)), [error("authority_info_access_critical", "4.2.2.1")]
    yield ca_with(pe(11, ACCESS, True)), [error("subject_info_access_critical", "4.2.2.2")]
    yield ca_with(policies, ce(33, mappings, True), ce(30, sequence(SUBTREES), True), ce(36, limits, True), ce(54, integer(0), True), pe(11, ACCESS)), []
    yield leaf_with(ce(17, NAMES), ce(18, NAMES), ce(9, ATTRIBUTES), ce(31, sequence(POINT)), ce(46, sequence(POINT)), pe(1, ACCESS)), []


def hidden_by(number):
    """Extensions with a path length that the decoder doesn't read, and what they break beside it (RFC 5280 4.2.1.2, 4.2.1.3, 4.2.1.9)."""
    long = sequence(TRUE, integer(number))
    yield (CA_KU, ce(19, long, True)), [error("ca_without_subject_key_identifier", "4.2.1.2")]
    yield (SKI, ce(19, long, True)), [error("ca_without_key_usage", "4.2.1.3")]
    yield (SKI, KU, ce(19, long, True)), [error("ca_without_key_cert_sign", "4.2.1.3")]
    yield (SKI, CA_KU, ce(19, long)), [error("ca_basic_constraints_not_critical", "4.2.1.9")]


def authority_rules():
    """What makes a certificate one of a certification authority (RFC 5280 4.2.1.2, 4.2.1.3, 4.2.1.9, 4.2.1.10)."""
    yield certificate(extensions=(AKI, CA_KU, CA_BC)), [error("ca_without_subject_key_identifier", "4.2.1.2")]
    yield certificate(extensions=(AKI, KU)), [NO_SKI]
    yield certificate(extensions=(AKI, SKI, CA_BC)), [error("ca_without_key_usage", "4.2.1.3")]
    yield certificate(extensions=(AKI, SKI, ce(15, element(BIT_STRING, b"\0"), True))), [error("key_usage_empty", "4.2.1.3")]
    yield certificate(extensions=(AKI, SKI, KU, CA_BC)), [error("ca_without_key_cert_sign", "4.2.1.3")]
    yield certificate(extensions=(AKI, SKI, CA_KU)), [error("key_cert_sign_without_ca", "4.2.1.9")]
    yield certificate(extensions=(AKI, SKI, CA_KU, ce(19, sequence(TRUE)))), [error("ca_basic_constraints_not_critical", "4.2.1.9")]
    yield leaf_with(ce(19, sequence(integer(0)), True)), [error("path_len_without_ca", "4.2.1.9")]
    for number in (256, 65535, 1 << 200):
        long = ce(19, sequence(TRUE, integer(number)), True)
        yield certificate(extensions=(AKI, SKI, CA_KU, long)), [not_judged("path_len_above_255", "4.2.1.9")]
        yield certificate(extensions=(AKI, SKI, CA_KU, ce(30, sequence(SUBTREES), True), long)), [not_judged("path_len_above_255", "4.2.1.9")]
        told = [error("key_cert_sign_without_ca", "4.2.1.9"), error("path_len_without_ca", "4.2.1.9"), not_judged("path_len_above_255", "4.2.1.9")]
        yield certificate(extensions=(AKI, CA_KU, ce(19, sequence(integer(number))))), [NO_SKI, *told]
        for extensions, findings in hidden_by(number):
            yield certificate(extensions=(AKI, *extensions)), [*findings, not_judged("path_len_above_255", "4.2.1.9")]
        yield certificate(subject=sequence(), extensions=(AKI, SKI, CA_KU, ce(17, NAMES, True), long)), [
            error("ca_subject_empty", "4.1.2.6"),
            error("crl_issuer_subject_empty", "4.1.2.6"),
            not_judged("path_len_above_255", "4.2.1.9"),
        ]
    for number in (0, 127, 128, 255):
        yield certificate(extensions=(AKI, SKI, CA_KU, ce(19, sequence(TRUE, integer(number)), True))), []
    nameless = [error("subject_empty_without_critical_alt_name", "4.1.2.6")]
    crl_sign = ce(15, bit_string(b"\x02", 1), True)
    certifies = (AKI, SKI, ce(15, bit_string(b"\x04", 2), True), CA_BC)
    yield certificate(subject=sequence(), extensions=certifies), [*nameless, error("ca_subject_empty", "4.1.2.6")]
    yield certificate(subject=sequence(), extensions=(*certifies, ce(17, NAMES, True))), [error("ca_subject_empty", "4.1.2.6")]
    yield certificate(subject=sequence(), extensions=(AKI, SKI, crl_sign, ce(17, NAMES, True))), [error("crl_issuer_subject_empty", "4.1.2.6")]
    yield certificate(extensions=(AKI, SKI, crl_sign)), []
    yield leaf_with(ce(19, sequence())), []
    yield leaf_with(ce(30, sequence(SUBTREES), True)), [error("name_constraints_in_leaf", "4.2.1.10")]


def key_rules():
    """Key identifiers, extended key usage and the private key usage period (RFC 5280 4.2.1.1, 4.2.1.12, A.2)."""
    serial, any_purpose = implicit(2, b"\1"), object_identifier(2, 5, 29, 37, 0)
    yield certificate(extensions=(SKI, KU)), [NO_AKI]
    yield certificate(subject=ISSUER, extensions=(SKI, KU)), []
    yield certificate(extensions=(ce(35, sequence()), SKI, KU)), [error("authority_key_identifier_without_key", "4.2.1.1")]
    yield certificate(extensions=(ce(35, sequence(KEY_ID, context(1), serial)), SKI, KU)), [error("authority_cert_issuer_empty", "4.2.1.1")]
    yield certificate(extensions=(ce(35, sequence(KEY_ID, serial)), SKI, KU)), [error("authority_cert_issuer_and_serial_apart", "4.2.1.1")]
    yield certificate(extensions=(ce(35, sequence(KEY_ID, context(1, DNS))), SKI, KU)), [error("authority_cert_issuer_and_serial_apart", "4.2.1.1")]
    yield certificate(extensions=(ce(35, sequence(KEY_ID, context(1, DNS), serial)), SKI, KU)), []
    yield leaf_with(ce(37, sequence())), [error("extended_key_usage_empty", "4.2.1.12")]
    yield leaf_with(ce(37, sequence(any_purpose), True)), [warning("any_extended_key_usage_critical", "4.2.1.12")]
    yield leaf_with(ce(37, sequence(any_purpose))), []
    yield leaf_with(ce(16, sequence())), [error("private_key_usage_period_empty", "A.2")]
    yield leaf_with(ce(16, sequence(implicit(0, b"20260102030405Z")))), []


MARKS = b"-._~!$&'()*+,;="

# of another syntax than RFC 3986 has, behind hosts that are as RFC 5280 4.2.1.6 wants them
INVALID_URIS = (
    *(b"http://a.example/" + mark for mark in (b"[", b"]", b" ", b'"', b"<", b">", b"\\", b"^", b"`", b"{", b"|", b"}", b"\x7f", b"%", b"%4", b"%zz", b"%4g", b"%g4", b"%%41")),
    *(b"http://a.example/?" + mark for mark in (b"[", b"]", b" ", b"%", b"|")),
    *(b"http://a.example/#" + mark for mark in (b"#", b"[", b" ", b"%4", b"a#b")),
    *(b"http://" + user + b"@a.example/" for user in (b"[", b"%", b"a b", b'"')),
    *(b"http://" + host for host in (b"a.example:8a", b"a.example:80:80", b"[::1", b"[::1]a", b"[::1]:a")),
    b"urn:[",
    b"a:%",
    b"a:b c",
)

# neither fully qualified domain names nor addresses (RFC 1034 3.5, RFC 1123 2.1, RFC 3986 3.2.2)
OTHER_HOSTS = (
    *(b"", b":80", b"localhost", b"localhost:80", b"user@localhost", b"a_b.example", b"*.example.org", b"-a.example", b"a-.example", b"%61.example", b"a~b.example"),
    *(b".example", b"a..example", b"a.example..", b".", b"a" * 64 + b".example", b".".join([b"a" * 63] * 4)),
    *(b"256.1.1.1", b"1.2.3", b"1.2.3.4.5", b"01.2.3.4", b"1.2.3.4.", b"1.2.3.", b"999.1.1.1", b"260.1.1.1"),
)

# what may stand between brackets (RFC 3986 3.2.2), and what may not
ADDRESSES = (
    *(b"::", b"::1", b"1::", b"1::8", b"1:2:3:4:5:6:7:8", b"::2:3:4:5:6:7:8", b"1:2:3:4:5:6:7::", b"1:2:3::5:6:7:8", b"ABCD:ef01:0000:9::"),
    *(b"::192.0.2.1", b"::ffff:255.199.25.0", b"1:2:3:4:5:6:192.0.2.1", b"1:2:3:4:5::192.0.2.1", b"v1.a:b", b"V1F.~!"),
)
NO_ADDRESSES = (
    *(b"", b":", b":::", b"1", b"1:2:3:4:5:6:7", b"1:2:3:4:5:6:7:8:9", b"1::2::3", b"1:2:3:4::5:6:7:8", b"::1:2:3:4:5:6:7:8", b"12345::", b"::g", b"1:", b":1", b"::1:"),
    *(b"192.0.2.1", b"::1.2.3", b"::256.0.0.1", b"::01.2.3.4", b"1.2.3.4::", b"::1.2.3.4:5", b"1:2:3:4:5:6:7:1.2.3.4", b"1:2:3:4:5:6::1.2.3.4", b"1.2.3.4"),
    *(b"v.a", b"v1.", b"v1", b"vg.a", b"v1.a%b", b"w1.a", b"a.example", b"::1%25eth0"),
)
URIS = (
    *(b"http://a.example", b"http://a.example:", b"http://a.example:80/", b"http://a.example./", b"http://1a.2b/", b"http://192.0.2.1", b"http://255.249.199.99:65536/?"),
    *(b"http://u:%20:p@a.example:8080/~a//b;c=%41%e9?d=/?e#f/?g", b"http://[::1]:80/", b"http://u@[::1]", b"http://a.example?b", b"http://a.example#b"),
    *(b"mailto:a@example.org", b"urn:uuid:f81d4fae-7dec-11d0-a765-00a0c91e6bf6", b"sip:a@b", b"data:,", b"a:/", b"a:?", b"a:#", b"a:/b//c", b"ldap://a.example/cn=a?b?c?d"),
    b"a:" + MARKS + b":@/?" + MARKS + b":@/?#" + MARKS + b":@/?",
    b"a://" + MARKS + b":@a.example/" + MARKS + b":@/",
    b"http://" + b".".join([b"a" * 63] * 3) + b"." + b"a" * 61 + b"./",
)


# as an issuer may not be (RFC 5280 4.1.2.4, A.1; RFC 4519 2.4), and as it may
ODD_NAMES = (
    sequence(set_of()),
    sequence(rdn((6, element(UTF8_STRING, b"DE")))),
    sequence(rdn((3, element(IA5_STRING, b"a")))),
    common_name(b"\xff"),
    common_name(b""),
    common_name(b"a" * 65),
    sequence(rdn((3, element(UTF8_STRING, b"a"))), rdn((5, element(UTF8_STRING, b"a")))),
    sequence(set_of(sequence(DOMAIN_COMPONENT, element(IA5_STRING, b"example.org")))),
)
RIGHT_NAMES = (ISSUER, common_name(b"a" * 64), sequence(rdn((6, element(PRINTABLE_STRING, b"DE"))), rdn((3, element(TELETEX_STRING, b"a")))))
SRV_NAME, SMTP_MAILBOX = object_identifier(1, 3, 6, 1, 5, 5, 7, 8, 7), object_identifier(1, 3, 6, 1, 5, 5, 7, 8, 9)
# of a service behind an underscore and a domain name (RFC 4985 2)
SRV_TEXTS = (b"_mail.example.org", b"_a.b", b"_xmpp-server.a-b.example", b"_mail.*.example.org", b"_a." + b".".join([b"a" * 63] * 3) + b"." + b"a" * 61)
NO_SRV_TEXTS = (b"", b"_", b"_.example.org", b"_mail", b"_mail.", b"mail.example.org", b"_imap._tcp.example.org", b"_a.-b", b"_a.b.", b"_a.b..c", b"_\xe4.example.org", b"__mail", b"_a." + b".".join([b"a" * 63] * 3) + b"." + b"a" * 62)
# of a local part that isn't ASCII and of a domain that is (RFC 9598 3)
MAILBOXES = ("\u00e4@example.org", "a\u4e2d.b@xn--a.example", "\u00e4@[192.0.2.1]", '"\u00e4@b"@example.org')
NO_MAILBOXES = ("", "a@example.org", "\u00e4", "@example.org", "\u00e4@", "\u00e4@\u00e4.example", "a@\u00e4.example", "\u00e4@b@c.example", "\u00e4@-b", '"\u00e4"')


# texts of labels of IDNA in Normalization Form C, and others (RFC 5891 5.4)
NORMALIZED = ("caf\u00e9", "b\u00fccher", "\uac00", "\u0105\u0302", "\u1ead", "\u4e2d\u6587", "\u05d0\u05b7")
UNNORMALIZED = ("cafe\u0301", "bu\u0308cher", "\u1100\u1161", "a\u0328\u0302", "a\u0302\u0323", "a\u0323\u0302", "\u212b", "\u0344", "\ufb1f", "\u0958")


def idna_label(text):
    """A label of IDNA (RFC 5890 2.3.2.1), of which nothing is asked but that it is Punycode."""
    return b"xn--" + text.encode("punycode")


def other_name(oid, value):
    """An otherName (RFC 5280 4.2.1.6)."""
    return context(0, oid, context(0, value))


def other_names():
    """For each directoryName, SRVName, SmtpUTF8Mailbox and dNSName with a label of IDNA the rule that it breaks, and the standard with its section, where that
    isn't RFC 5280."""
    for name in ODD_NAMES:
        yield context(4, name), "directory_name_invalid", None
    for name in RIGHT_NAMES:
        yield context(4, name), None, None
    for text in SRV_TEXTS:
        yield other_name(SRV_NAME, element(IA5_STRING, text)), None, None
    for value in (NULL, element(UTF8_STRING, SRV_TEXTS[0]), *(element(IA5_STRING, text) for text in NO_SRV_TEXTS)):
        yield other_name(SRV_NAME, value), "srv_name_invalid", ("RFC 4985", "2")
    for text in MAILBOXES:
        yield other_name(SMTP_MAILBOX, element(UTF8_STRING, text.encode())), None, None
    for value in (NULL, element(IA5_STRING, b"a@example.org"), element(UTF8_STRING, b"\xff@example.org"), *(element(UTF8_STRING, text.encode()) for text in NO_MAILBOXES)):
        yield other_name(SMTP_MAILBOX, value), "smtp_utf8_mailbox_invalid", ("RFC 9598", "3")
    yield other_name(POLICY, NULL), None, None
    for text in UNNORMALIZED:
        for name in (idna_label(text), b"XN" + idna_label(text)[2:], b"a." + idna_label(text) + b".example", b"*." + idna_label(text), idna_label(text) + b".b"):
            yield implicit(2, name), "dns_name_not_normalized", ("RFC 5891", "5.4")
    for name in (*map(idna_label, NORMALIZED), b"xn--999999999", b"yn--" + idna_label("cafe\u0301")[4:], b"xn-" + idna_label("cafe\u0301")[4:], b"a-xn--" + idna_label("cafe\u0301")[4:]):
        yield implicit(2, name + b".example"), None, None


def alternative_rules():
    """The alternative names of the subject and the issuer (RFC 5280 4.2.1.6, 4.2.1.7)."""
    for number, who, section in ((17, "subject", "4.2.1.6"), (18, "issuer", "4.2.1.7")):
        def with_names(*names, number=number):
            return leaf_with(ce(number, sequence(*names)))

        yield with_names(), [error(f"{who}_alt_name_empty", section)]
        for empty in (implicit(1), implicit(2), context(4, sequence()), implicit(6), implicit(7)):
            yield with_names(DNS, empty), [error(f"{who}_alt_name_empty_name", section)]
        for text in (b"-a.example", b"a-.example", b"a..example", b"a_b.example", b"a.example.", b"a" * 64, b"*", b"a.*.example", b".".join([b"a" * 63] * 4)):
            yield with_names(implicit(2, text)), [error(f"{who}_alt_name_dns_name_invalid", section)]
        for octets in (b"\1\2\3", b"\1\2\3\4\5", bytes(8), bytes(17)):
            yield with_names(implicit(7, octets)), [error(f"{who}_alt_name_address_length", section)]
        for text in (
            b"a",
            b"@example.org",
            b"a@",
            b"a b@example.org",
            b".a@example.org",
            b"a.@example.org",
            b"a..b@example.org",
            b"a@b@example.org",
            b"a@-b.org",
            b"<a@b.org>",
            b'"',
            b'""',
            b'"a@example.org',
            b'"a"example.org',
            b'"a"@',
            b'"a"@-b.org',
            b'"a"b@example.org',
            b'"a"b"@example.org',
            b'"a\\"@example.org',
            b'"a\x1f"@example.org',
            b'"a\\\x7f"@example.org',
            b'"a".b@example.org',
            b'a."b"@example.org',
        ):
            yield with_names(implicit(1, text)), [error(f"{who}_alt_name_mailbox_invalid", section)]
        for text in (b"a@example.org", b"a.b@c", b"a!#$%&'*+-/=?^_`{|}~1@example.org", b"A@[192.0.2.1]", b'"a b"@example.org', b'""@c', b'"a\\"b"@example.org',
                     b'"a\\\\"@example.org', b'"a@b"@example.org', b'"\\ !#[]~"@[192.0.2.1]'):
            yield with_names(implicit(1, text)), []
        for text in (b"example.org", b"/a", b"//example.org/a", b"http:", b"1a:b", b":a", b"a_b:c", b"?a", b"#a"):
            yield with_names(implicit(6, text)), [error(f"{who}_alt_name_uri_relative", section)]
        for text in (b"http://example.org/", b"urn:a", b"a+b-c.1:d", b"LDAP://example.org"):
            yield with_names(implicit(6, text)), []
        invalid, other_host = error(f"{who}_alt_name_uri_invalid", section), error(f"{who}_alt_name_uri_host_invalid", section)
        for text in INVALID_URIS:
            yield with_names(URI, implicit(6, text)), [invalid]
        for text in (*(b"http://" + host + b"/" for host in OTHER_HOSTS), b"file:///etc", b"http://", b"a://?b", b"a://#b", b"spiffe://domain/a"):
            yield with_names(implicit(6, text), URI), [other_host]
        for address in NO_ADDRESSES:
            yield with_names(implicit(6, b"http://[" + address + b"]/")), [invalid, other_host]
        yield with_names(implicit(6, b"http://a@b@c.example/")), [invalid, other_host]
        for text in (*URIS, *(b"http://[" + address + b"]" for address in ADDRESSES)):
            yield with_names(implicit(6, text)), []
        for name, rule, standard in other_names():
            told = f"{who}_alt_name_{rule}"
            yield with_names(DNS, name), [] if rule is None else [of_standard("error", told, *standard) if standard else error(told, section)]
        for text in (b"*.example", b"a", b"A-1.example", b"a" * 63, b".".join([b"a" * 63] * 3) + b"." + b"a" * 61):
            yield with_names(implicit(2, text), implicit(7, bytes(4)), implicit(7, bytes(16))), []


def email_rules():
    """E-mail addresses of subjects (RFC 5280 4.1.2.6)."""
    subject = sequence(set_of(sequence(EMAIL_ADDRESS, element(IA5_STRING, b"a@example.org"))))
    absent = [error("subject_email_not_in_alt_name", "4.1.2.6")]
    yield certificate(subject=subject), absent
    yield certificate(subject=subject, extensions=(*LEAF, ce(17, NAMES))), absent
    yield certificate(subject=subject, extensions=(*LEAF, ce(17, sequence(DNS, implicit(1, b"a@example.org"))))), []
    yield certificate(issuer=subject), []
    yield certificate(subject=subject, extensions=(*LEAF, ce(17, b"\5\0"))), [malformed("subjectAltName")]
    yield certificate(subject=subject, extensions=(*LEAF, ce(17, NAMES), ce(17, NAMES))), [error("extension_repeated", "4.2")]


CPS, NOTICE = object_identifier(1, 3, 6, 1, 5, 5, 7, 2, 1), object_identifier(1, 3, 6, 1, 5, 5, 7, 2, 2)


def with_text(text):
    """A policy with a user notice of this explicit text."""
    return ce(32, sequence(sequence(POLICY, sequence(sequence(NOTICE, sequence(text))))))


def policy_rules():
    """Certificate policies, policy mappings and policy constraints (RFC 5280 4.2.1.4, 4.2.1.5, 4.2.1.11)."""
    yield leaf_with(ce(32, sequence())), [error("certificate_policies_empty", "4.2.1.4")]
    yield leaf_with(ce(32, sequence(sequence(POLICY), sequence(ANY_POLICY), sequence(POLICY)))), [error("certificate_policy_repeated", "4.2.1.4")]
    yield leaf_with(ce(32, sequence(sequence(POLICY), sequence(ANY_POLICY, sequence())))), [error("policy_qualifiers_empty", "4.2.1.4")]
    yield leaf_with(ce(32, sequence(sequence(POLICY), sequence(ANY_POLICY)))), []
    old, ia5 = ["warning explicit_text_not_utf8_string (RFC 6818 3)"], ["error explicit_text_type (RFC 6818 3)"]
    for tag, char, findings in ((UTF8_STRING, "ä".encode(), []), (BMP_STRING, b"\0a", old), (VISIBLE_STRING, b"a", old), (IA5_STRING, b"a", ia5)):
        yield leaf_with(with_text(element(tag, char * 201))), [error("explicit_text_too_long", "4.2.1.4"), *findings]
        yield leaf_with(with_text(element(tag, char * 200))), findings
        yield leaf_with(with_text(element(tag))), [error("explicit_text_empty", "4.2.1.4"), *findings]
    for char in (b"\0", b"\n", b"\x1f", b"\x7f"):
        yield leaf_with(with_text(element(UTF8_STRING, b"a" + char))), [warning("explicit_text_control", "4.2.1.4")]
        yield leaf_with(with_text(element(IA5_STRING, char + b"a"))), [*ia5, warning("explicit_text_control", "4.2.1.4")]
    for code in (0x80, 0x9F):
        yield leaf_with(with_text(element(UTF8_STRING, f"a{chr(code)}".encode()))), [warning("explicit_text_control", "4.2.1.4")]
    for code in (0, 0x1F, 0x7F, 0x9F):
        yield leaf_with(with_text(element(BMP_STRING, b"\0a" + bytes((0, code))))), [*old, warning("explicit_text_control", "4.2.1.4")]
    yield leaf_with(with_text(element(BMP_STRING, b"\x20\xac\0\xa0\x1f\0"))), old
    yield leaf_with(with_text(element(UTF8_STRING, "a ~ä\u00a0".encode()))), []
    # of two canonically equivalent spellings the composed one is NFC; U+212B, the angstrom sign, is U+00C5 in NFC; U+0344 and U+0958 never are; marks have an order
    unnormalized = [warning("explicit_text_not_normalized", "4.2.1.4")]
    for text in ("a\u0308", "\u212b", "\u0344", "\u0958", "a\u0327\u0302b".replace("\u0327\u0302", "\u0302\u0327"), "\u1100\u1161", "\u2126"):
        yield leaf_with(with_text(element(UTF8_STRING, text.encode()))), unnormalized
    for text in ("\u00e4", "\u00c5", "q\u0308", "\u0915\u093c", "q\u0327\u0302", "\uac00", "\u03a9", "\ufb01"):
        yield leaf_with(with_text(element(UTF8_STRING, text.encode()))), []
    yield leaf_with(with_text(element(BMP_STRING, b"\0a\x03\x08"))), old
    reference = sequence(sequence(element(UTF8_STRING, b"a"), sequence(integer(1))))
    yield leaf_with(ce(32, sequence(sequence(POLICY, sequence(sequence(NOTICE, reference)))))), [warning("notice_reference_present", "4.2.1.4")]
    pointer, other = sequence(CPS, element(IA5_STRING, b"http://example.org/")), sequence(object_identifier(1, 2, 3), NULL)
    yield leaf_with(ce(32, sequence(sequence(ANY_POLICY, sequence(pointer, other))))), [error("any_policy_qualifier_invalid", "4.2.1.4")]
    further = [warning("policy_qualifier_other", "4.2.1.4")]
    yield leaf_with(ce(32, sequence(sequence(ANY_POLICY, sequence(pointer, sequence(NOTICE, sequence()))), sequence(POLICY, sequence(other))))), further
    yield leaf_with(ce(32, sequence(sequence(POLICY, sequence(pointer, sequence(NOTICE, sequence())))))), []
    yield leaf_with(ce(32, sequence(sequence(POLICY, sequence(pointer, sequence(object_identifier(1, 3, 6, 1, 5, 5, 7, 2, 3))))))), further
    long = element(UTF8_STRING, b"a" * 201)
    behind = sequence(sequence(CPS, element(IA5_STRING, b"urn:" + b"a" * 201)), sequence(NOTICE, sequence()), sequence(NOTICE, sequence(long)))
    yield leaf_with(ce(32, sequence(sequence(ANY_POLICY), sequence(POLICY, behind)))), [error("explicit_text_too_long", "4.2.1.4")]

    def with_qualifier(oid, *payload, policy=POLICY):
        return leaf_with(ce(32, sequence(sequence(policy, sequence(sequence(oid, *payload))))))

    no_pointer, no_uri, no_notice = (error(name, "4.2.1.4") for name in ("cps_pointer_malformed", "cps_pointer_not_uri", "user_notice_malformed"))
    for payload in ((), (NULL,), (sequence(long),), (element(UTF8_STRING, b"http://example.org/"),), (element(IA5_STRING, b"http://example.org/\xe4"),)):
        yield with_qualifier(CPS, *payload), [no_pointer]
    for text in (b"", b"example.org", b"/cps", b"1a:b", b"http//example.org", b":a", b"www.example.org/a:b", *INVALID_URIS):
        yield with_qualifier(CPS, element(IA5_STRING, text), policy=ANY_POLICY), [no_uri]
    for text in (*URIS, b"http:", b"http://localhost/"):
        yield with_qualifier(CPS, element(IA5_STRING, text)), []
    organization = element(UTF8_STRING, b"a")
    for payload in ((), (NULL,), (long,), (sequence(NULL),), (sequence(long, long),), (sequence(element(TELETEX_STRING, b"a")),), (sequence(sequence()),),
                    (sequence(element(UTF8_STRING, b"\xff")),), (sequence(element(BMP_STRING, b"\0a\0")),), (sequence(element(VISIBLE_STRING, b"\n")),),
                    (sequence(sequence(organization, sequence(organization))),)):
        yield with_qualifier(NOTICE, *payload), [no_notice]
    yield leaf_with(ce(32, sequence(sequence(POLICY, sequence(sequence(NOTICE, sequence()), pointer)), sequence(ANY_POLICY, sequence(sequence(CPS), sequence(NOTICE)))))), [
        no_pointer,
        no_notice,
    ]
    yield ca_with(ce(33, sequence(), True)), [error("policy_mappings_empty", "4.2.1.5")]
    asserted = ce(32, sequence(sequence(POLICY), sequence(ANY_POLICY)))
    yield ca_with(asserted, ce(33, sequence(sequence(POLICY, ANY_POLICY)), True)), [error("policy_mapping_any_policy", "4.2.1.5")]
    yield ca_with(asserted, ce(33, sequence(sequence(ANY_POLICY, POLICY)), True)), [error("policy_mapping_any_policy", "4.2.1.5")]
    yield from mapping_rules()
    yield ca_with(ce(36, sequence(), True)), [error("policy_constraints_empty", "4.2.1.11")]
    for number in (0, 255, 300, 1 << 31, (1 << 32) - 1, 1 << 32, 1 << 40, 1 << 200):
        content = integer(number)[2:]
        yield ca_with(ce(36, sequence(implicit(0, content)), True)), []
        yield ca_with(ce(36, sequence(implicit(0, content), implicit(1, content)), True)), []
        yield ca_with(ce(54, integer(number), True)), []
    for content in (b"\xff", b"\0\1", b""):
        yield ca_with(ce(36, sequence(implicit(1, content)), True)), [malformed("policyConstraints")]
        yield ca_with(ce(54, element(2, content), True)), [malformed("inhibitAnyPolicy")]


def mapping_rules():
    """Policies that are mapped, and stand among the certificate policies (RFC 5280 4.2.1.5)."""

    def mapped(count, *policies):
        mappings = sequence(*(sequence(object_identifier(1, 2, 3, 4, at), POLICY) for at in range(count)))
        return ca_with(*policies, ce(33, mappings, True))

    def asserted(*numbers):
        return ce(32, sequence(*(sequence(object_identifier(1, 2, 3, 4, number)) for number in numbers)))

    lacking = [warning("policy_mapping_not_asserted", "4.2.1.5")]
    yield mapped(1), lacking
    yield mapped(1, ce(32, sequence(sequence(ANY_POLICY)))), lacking
    yield mapped(1, ce(32, sequence(sequence(POLICY)))), lacking
    yield mapped(1, asserted(0)), []
    for count in (2, 3, 10):
        yield mapped(count, asserted(*reversed(range(count)))), []
        for left_out in range(count):
            yield mapped(count, asserted(*(number for number in range(count + 3) if number != left_out))), lacking
    yield mapped(1, ce(32, NULL)), [malformed("certificatePolicies")]
    yield mapped(1, asserted(0), asserted(0)), [error("extension_repeated", "4.2")]
    many = [(at * 7919) % 4000 for at in range(4000)]
    yield mapped(4000, asserted(*many)), []
    yield mapped(4000, asserted(*many[:-1])), lacking


def constraint_rules():
    """Name constraints (RFC 5280 4.2.1.10)."""
    yield ca_with(ce(30, sequence(), True)), [error("name_constraints_empty", "4.2.1.10")]
    for number in (0, 1):
        yield ca_with(ce(30, sequence(context(number)), True)), [error("name_constraints_subtrees_empty", "4.2.1.10")]
        yield ca_with(ce(30, sequence(context(number, sequence(DNS, implicit(0, b"\1")))), True)), [error("name_constraints_minimum", "4.2.1.10")]
        yield ca_with(ce(30, sequence(context(number, sequence(DNS, implicit(1, b"\1")))), True)), [error("name_constraints_maximum", "4.2.1.10")]

        def with_base(base, number=number):
            return ca_with(ce(30, sequence(context(number, sequence(DNS), sequence(base))), True))

        yield with_base(implicit(8, b"\x2a\3")), [warning("name_constraints_other_form", "4.2.1.10")]
        yield with_base(context(5, context(1, element(UTF8_STRING, b"a")))), [warning("name_constraints_other_form", "4.2.1.10")]
        yield with_base(context(4, ISSUER)), []
        for text in (b"http://example.org", b"example.org/", b"", b".", b"..example.org", b"example.org.", b"*.example.org", b"example.org:80"):
            yield with_base(implicit(6, text)), [error("name_constraints_uri_invalid", "4.2.1.10")]
        for text in (b"example.org", b".example.org", b"a"):
            yield with_base(implicit(6, text)), []
        for octets in (b"", bytes(4), bytes(7), bytes(9), bytes(16), bytes(31), bytes(33)):
            yield with_base(implicit(7, octets)), [error("name_constraints_address_length", "4.2.1.10")]
        for mask in (b"\xff\0\xff\0", b"\0\0\0\1", b"\x7f\0\0\0", b"\xff\xfd\0\0", b"\xff\xfe\0\1", b"\x80\x80\0\0"):
            yield with_base(implicit(7, bytes(4) + mask)), [error("name_constraints_address_mask", "4.2.1.10")]
            yield with_base(implicit(7, bytes(16) + b"\xff" * 12 + mask)), [error("name_constraints_address_mask", "4.2.1.10")]
        for bits in range(33):
            mask = ((1 << bits) - 1 << 32 - bits).to_bytes(4, "big")
            yield with_base(implicit(7, bytes(4) + mask)), []
        for bits in (0, 1, 64, 127, 128):
            mask = ((1 << bits) - 1 << 128 - bits).to_bytes(16, "big")
            yield with_base(implicit(7, bytes(16) + mask)), []


def point_rules():
    """Lists of attributes, of CRL distribution points and of access descriptions (RFC 5280 4.2.1.8, 4.2.1.13, 4.2.1.15, 4.2.2)."""
    reasons, issuer = sequence(implicit(1, b"\6\x40")), sequence(context(2, context(4, common_name(b"Another"))))
    yield leaf_with(ce(9, sequence())), [error("subject_directory_attributes_empty", "4.2.1.8")]
    country = object_identifier(1, 3, 6, 1, 5, 5, 7, 9, 4)
    yield leaf_with(ce(9, sequence(sequence(country, set_of(NULL)), sequence(POLICY, set_of())))), [error("subject_directory_attribute_values_empty", "A.1")]
    yield leaf_with(ce(31, sequence())), [error("crl_distribution_points_empty", "4.2.1.13")]
    yield leaf_with(ce(31, sequence(POINT, reasons))), [error("distribution_point_empty", "4.2.1.13")]
    yield leaf_with(ce(31, sequence(issuer))), []
    relative = sequence(context(0, context(1, sequence(object_identifier(2, 5, 4, 3), element(UTF8_STRING, b"a")))))
    yield leaf_with(ce(31, sequence(POINT, relative))), [warning("distribution_point_relative", "4.2.1.13")]
    without_uri, no_uri = warning("distribution_point_without_uri", "4.2.1.13"), of_standard("error", "distribution_point_uri_invalid", "RFC 3986", "3")
    for name in (implicit(6, b"https://example.org/"), implicit(6, b"ftp://example.org/"), DNS, context(4, ISSUER)):
        yield leaf_with(ce(31, sequence(POINT, sequence(context(0, context(0, name)))))), [without_uri]
    yield leaf_with(ce(31, sequence(POINT, sequence(context(0, context(0, implicit(6, b"http"))))))), [without_uri, no_uri]
    for name in (implicit(6, b"HTTP://example.org/"), implicit(6, b"ldap://example.org/cn=a?b"), implicit(6, b"lDaP://a/b?c")):
        yield leaf_with(ce(31, sequence(sequence(context(0, context(0, DNS, name)))))), []
    yield leaf_with(ce(31, sequence(sequence(context(2, context(4, common_name(b"Another")), DNS))))), [error("distribution_point_issuer_invalid", "4.2.1.13")]
    yield leaf_with(ce(31, sequence(POINT, sequence(context(2, context(4, ISSUER)))))), [error("distribution_point_own_issuer", "4.2.1.13")]
    some = sequence(context(0, context(0, URI)), implicit(1, b"\6\x40"))
    yield leaf_with(ce(31, sequence(some, some))), [error("distribution_points_partial", "4.2.1.13")]
    yield leaf_with(ce(31, sequence(some, POINT))), []
    for number, error_of_all in ((31, error("distribution_points_partial", "4.2.1.13")), (46, error("freshest_crl_points_partial", "4.2.1.15"))):
        # keyCompromise (1) to aACompromise (8), of which one is left out, or none; the bit 0 is no reason
        for bits, findings in ((b"\7\x7f\x80", []), (b"\7\xff\x80", []), (b"\0\x7f", [error_of_all]), (b"\7\x3f\x80", [error_of_all]), (b"\7\xfe\x80", [error_of_all])):
            yield leaf_with(ce(number, sequence(sequence(context(0, context(0, URI)), implicit(1, bits))))), findings
    yield leaf_with(ce(46, sequence())), [error("freshest_crl_empty", "4.2.1.15")]
    yield leaf_with(ce(46, sequence(sequence()))), [error("freshest_crl_point_empty", "4.2.1.15")]
    several = sequence(context(0, context(1, sequence(object_identifier(2, 5, 4, 3), element(UTF8_STRING, b"a")))),
                       context(2, context(4, common_name(b"Another")), context(4, common_name(b"One more"))))
    for number, section, name in ((31, "4.2.1.13", "distribution_point"), (46, "4.2.1.15", "freshest_crl_point")):
        yield leaf_with(ce(number, sequence(POINT, several))), [warning(f"{name}_relative", section), error(f"{name}_relative_to_several", section)]
        def with_uri(text, number=number):
            return leaf_with(ce(number, sequence(POINT, sequence(context(0, context(0, URI, implicit(6, text)))))))

        yield from ldap_rules(name, section, with_uri)
        for attributes in (b"a,b", b"a,", b","):
            yield with_uri(b"ldap://a.example/cn=a?" + attributes), [error(f"{name}_ldap_incomplete", section)]
        yield from uri_rules(f"{name}_uri_invalid", with_uri)
        empty = error(f"{name}_names_empty", section)
        yield leaf_with(ce(number, sequence(POINT, sequence(context(0, context(0)))))), [empty, warning(f"{name}_without_uri", section)]
        yield leaf_with(ce(number, sequence(POINT, sequence(context(0, context(1)))))), [empty, warning(f"{name}_relative", section)]
        yield leaf_with(ce(number, sequence(POINT, sequence(context(2))))), [empty]
    yield leaf_with(ce(46, sequence(POINT, relative))), [warning("freshest_crl_point_relative", "4.2.1.15")]
    yield leaf_with(ce(46, sequence(POINT, sequence(context(0, context(0, DNS)))))), [warning("freshest_crl_point_without_uri", "4.2.1.15")]
    yield leaf_with(ce(46, sequence(sequence(context(2, context(4, common_name(b"Another")), DNS))))), [error("freshest_crl_point_issuer_invalid", "4.2.1.15")]
    yield leaf_with(ce(46, sequence(POINT, sequence(context(2, context(4, ISSUER)))))), [error("freshest_crl_point_own_issuer", "4.2.1.15")]
    yield leaf_with(ce(46, sequence(some, some))), [error("freshest_crl_points_partial", "4.2.1.15")]
    yield leaf_with(ce(46, sequence(some, POINT))), []
    yield leaf_with(ce(46, sequence(issuer))), []
    yield leaf_with(pe(1, sequence())), [error("authority_info_access_empty", "4.2.2.1")]
    yield ca_with(pe(11, sequence())), [error("subject_info_access_empty", "4.2.2.2")]
    for number, method, name, section in ((1, 2, "ca_issuers_without_uri", "4.2.2.1"), (11, 5, "ca_repository_without_uri", "4.2.2.2")):
        place, ocsp = object_identifier(1, 3, 6, 1, 5, 5, 7, 48, method), object_identifier(1, 3, 6, 1, 5, 5, 7, 48, 1)
        yield ca_with(pe(number, sequence(sequence(place, DNS), sequence(ocsp, URI)))), [warning(name, section)]
        yield ca_with(pe(number, sequence(sequence(place, DNS), sequence(place, URI)))), []
        yield ca_with(pe(number, sequence(sequence(POLICY, DNS)))), []
        for others in ((), (sequence(place, URI),)):
            told = [of_standard("error", "ocsp_location_not_uri", "RFC 6960", "3.1")] if number == 1 else []
            yield ca_with(pe(number, sequence(sequence(ocsp, DNS), *others))), told
        for places in ((URI,), (DNS, URI)):
            yield ca_with(pe(number, sequence(*(sequence(ocsp, it) for it in places)))), []

    def with_place(text, number=2):
        other = object_identifier(1, 3, 6, 1, 5, 5, 7, 48, number)
        return leaf_with(pe(1, sequence(sequence(object_identifier(1, 3, 6, 1, 5, 5, 7, 48, 2), URI), sequence(other, implicit(6, text)))))

    for number, name in ((1, "authority_info_access_uri_invalid"), (11, "subject_info_access_uri_invalid")):
        def with_access(text, number=number):
            return ca_with(pe(number, sequence(sequence(object_identifier(1, 3, 6, 1, 5, 5, 7, 48, 3), implicit(6, text)))))

        yield from uri_rules(name, with_access)
    yield leaf_with(pe(1, sequence(sequence(object_identifier(1, 3, 6, 1, 5, 5, 7, 48, 1), implicit(6, b"ocsp.example.org"))))), [
        of_standard("error", "authority_info_access_uri_invalid", "RFC 3986", "3")
    ]
    yield from ldap_rules("ca_issuers", "4.2.2.1", with_place)
    for attributes in (b"a,", b",a", b",", b"a,,b"):
        yield with_place(b"ldap://a.example/cn=a?" + attributes), [error("ca_issuers_ldap_incomplete", "4.2.2.1")]
    yield with_place(b"ldap://a.example/cn=a?a;binary,b;binary"), []
    yield with_place(b"ldap:a", 1), []


def uri_rules(name, with_uri):
    """URIs (RFC 3986 3), which begin with a scheme, in places where any is allowed."""
    without_scheme = b"", b"example.org", b"/a", b"//example.org/a", b"1a:b", b":a", b"a_b:c", b"?a:b", b"#a:b", b"a/b:c"
    for text in (*without_scheme, b"http://a.example/[", b"http://a.example/a b", b"urn:%4", b"http://[::1"):
        yield with_uri(text), [of_standard("error", name, "RFC 3986", "3")]
    for text in (b"http:", b"a:", b"A+b-c.1:d", b"urn:a:b", b"http://localhost/", b"http://[::1]:80/a%20b?c#d"):
        yield with_uri(text), []


def ldap_rules(name, section, with_uri):
    """LDAP URIs (RFC 4516 2) of distribution points and access descriptions (RFC 5280 4.2.1.13, 4.2.2.1)."""
    incomplete, hostless = error(f"{name}_ldap_incomplete", section), warning(f"{name}_ldap_without_host", section)
    for behind in (b"", b"/", b"/cn=a", b"/cn=a?", b"/?a", b"/cn=a??base", b"?a", b"/cn=a#?b"):
        yield with_uri(b"ldap://a.example" + behind), [incomplete]
    for text in (b"ldap:///cn=a?b", b"ldap://:389/cn=a,dc=b?c;binary?base?d=e", b"LDAP:///cn=a?b"):
        yield with_uri(text), [hostless]
    for text in (b"ldap:a", b"ldap:/cn=a?b", b"ldap:", b"lDaP:///?b"):
        yield with_uri(text), [incomplete, hostless]
    for text in (b"ldap://a/cn=a?b", b"ldap://a.example:389/cn=a,dc=b?c;binary?base?d=e,f", b"ldap://[::1]/cn=a?b", b"ldaps:///", b"http:///a"):
        yield with_uri(text), []


def pkcs_1(number, *parameters):
    """An algorithm of RSA (RFC 8017 C)."""
    return sequence(object_identifier(1, 2, 840, 113549, 1, 1, number), *parameters)


def ecdsa_with(number, *parameters):
    """ECDSA with a hash function (RFC 5758 3.2)."""
    return sequence(object_identifier(1, 2, 840, 10045, 4, 3, number), *parameters)


def edwards(number, *parameters):
    """An algorithm of RFC 8410 3."""
    return sequence(object_identifier(1, 3, 101, number), *parameters)


def signed_by(algorithm):
    return certificate(inner=algorithm, outer=algorithm)


def with_key(algorithm, octets, usage=DIGITAL_SIGNATURE):
    usages = () if usage is None else (ce(15, usage, True),)
    return certificate(key=sequence(algorithm, bit_string(octets)), extensions=(AKI, SKI, *usages))


def public_key_rules():
    """Public keys and algorithms of signatures (RFC 3279, 4055, 5480, 5758, 8017, 8410, 8813, 9295)."""

    def of(name, section, standard):
        return [of_standard("error", name, standard, section)]

    for number in (11, 12, 13, 14):
        yield signed_by(pkcs_1(number, NULL)), []
        for parameters in ((), (integer(0),)):
            yield signed_by(pkcs_1(number, *parameters)), of("rsa_signature_parameters_not_null", "5", "RFC 4055")
    for number in (2, 4, 5):
        yield signed_by(pkcs_1(number, NULL)), []
        yield signed_by(pkcs_1(number)), of("old_rsa_signature_parameters_not_null", "2.2.1", "RFC 3279")
    yield signed_by(pkcs_1(10, sequence())), []
    yield signed_by(pkcs_1(10)), of("pss_signature_parameters_absent", "3.1", "RFC 4055")
    for number in (1, 2, 3, 4):
        yield signed_by(ecdsa_with(number)), []
        yield signed_by(ecdsa_with(number, NULL)), of("ecdsa_signature_parameters_present", "3.2", "RFC 5758")
    for number in (112, 113):
        yield signed_by(edwards(number)), []
        yield signed_by(edwards(number, NULL)), of("edwards_signature_parameters_present", "3", "RFC 8410")
    rsa, right = pkcs_1(1, NULL), sequence(integer(35), integer(3))
    yield with_key(rsa, right), []
    for algorithm in (pkcs_1(1), pkcs_1(1, sequence())):
        yield with_key(algorithm, right), of("rsa_key_parameters_not_null", "2.3.1", "RFC 3279")
    negative = element(0x02, b"\xff")
    for odd in (b"", b"\x30", NULL, integer(35), sequence(integer(35)), sequence(integer(35), integer(3), integer(1)), right + b"\0"):
        yield with_key(rsa, odd), of("rsa_public_key_malformed", "2.3.1", "RFC 3279")
    for odd in (sequence(negative, integer(3)), sequence(integer(35), negative), sequence(integer(35), octet_string(b"\3"))):
        yield with_key(rsa, odd), of("rsa_public_key_malformed", "2.3.1", "RFC 3279")
    for number in (0, 34, 256):
        yield with_key(rsa, sequence(integer(number), integer(3))), of("rsa_modulus_even", "3.1", "RFC 8017")
    for number in (1, 2, 65536):
        yield with_key(rsa, sequence(integer(35), integer(number))), of("rsa_exponent_invalid", "3.1", "RFC 8017")
    yield with_key(rsa, sequence(integer(35), integer(65537))), []
    yield with_key(rsa, sequence(integer(2**2048 - 1), integer(2**256 + 1)), bit_string(b"\xb0", 4)), []
    both = [*of("rsa_modulus_even", "3.1", "RFC 8017"), *of("rsa_exponent_invalid", "3.1", "RFC 8017")]
    yield with_key(pkcs_1(1), sequence(integer(0), integer(0))), [*of("rsa_key_parameters_not_null", "2.3.1", "RFC 3279"), *both]
    yield with_key(pkcs_1(10), right), []
    ec = object_identifier(1, 2, 840, 10045, 2, 1)
    curves = (object_identifier(1, 2, 840, 10045, 3, 1, 7), 32), (object_identifier(1, 3, 132, 0, 34), 48), (object_identifier(1, 3, 132, 0, 35), 66)
    for parameters in ((), (NULL,), (sequence(integer(1)),)):
        yield with_key(sequence(ec, *parameters), b"\4" + bytes(64)), of("ec_parameters_not_named", "2.1.1", "RFC 5480")
    invalid = of("ec_point_invalid", "2.2", "RFC 5480")
    for curve, size in curves:
        algorithm = sequence(ec, curve)
        for octets in (b"\4" + bytes(2 * size), b"\2" + bytes(size), b"\3" + bytes(size)):
            yield with_key(algorithm, octets), []
        for octets in (b"", b"\4" + bytes(2 * size - 1), b"\4" + bytes(2 * size + 1), b"\4" + bytes(size), b"\2" + bytes(2 * size), b"\6" + bytes(2 * size)):
            yield with_key(algorithm, octets), invalid
        for bits in (b"\xa0", b"\x90"):
            yield with_key(algorithm, b"\4" + bytes(2 * size), bit_string(bits, 4 if bits == b"\x90" else 5)), of("ec_key_usage_invalid", "3", "RFC 8813")
    yield with_key(sequence(ec, object_identifier(1, 3, 132, 0, 10)), b"\4"), []
    for usage in (bit_string(b"\x88", 3), bit_string(b"\xc9"), None):
        yield with_key(sequence(ec, curves[0][0]), b"\4" + bytes(64), usage), []
    agreement = bit_string(b"\x08", 3)
    for number, size, usage in ((110, 32, agreement), (111, 56, agreement), (112, 32, DIGITAL_SIGNATURE), (113, 57, DIGITAL_SIGNATURE)):
        yield with_key(edwards(number), bytes(size), usage), []
        yield with_key(edwards(number, NULL), bytes(size), usage), of("edwards_key_parameters_present", "3", "RFC 8410")
        for other in (0, size - 1, size + 1):
            yield with_key(edwards(number), bytes(other), usage), of("edwards_key_length", "4", "RFC 8410")
    for number, size in ((112, 32), (113, 57)):
        for usage in (bit_string(b"\xa0", 5), bit_string(b"\x90", 4), bit_string(b"\x88", 3), bit_string(b"\x81"), bit_string(b"\x80\x80", 7)):
            yield with_key(edwards(number), bytes(size), usage), of("edwards_key_usage_invalid", "3", "RFC 9295")
        for usage in (bit_string(b"\xc0", 6), bit_string(b"\x42", 1), None):
            yield with_key(edwards(number), bytes(size), usage), []
        key = sequence(edwards(number), bit_string(bytes(size)))
        yield certificate(key=key, extensions=CA), []
    for number, size in ((110, 32), (111, 56)):
        yield with_key(edwards(number), bytes(size)), of("montgomery_key_without_agreement", "5", "RFC 8410")
        for usage in (bit_string(b"\x09"), bit_string(b"\x08\x80", 7), None):
            yield with_key(edwards(number), bytes(size), usage), []


def crl_field_rules():
    """The fields of a CRL (RFC 5280 5.1)."""
    late = general(b"20500101000000Z")
    without = [error("authority_key_identifier_absent", "5.2.1"), error("crl_number_absent", "5.2.3")]
    reason = sequence(integer(5), utc(b"260101000000Z"), sequence(ce(21, element(10, b"\1"))))
    yield crl(outer=ECDSA_SHA384), [error("signature_algorithms_differ", "5.1.1.2")]
    yield crl(version=b""), [error("extensions_without_v2", "5.1.2.1")]
    yield crl(version=b"", entries=sequence(reason), extensions=None), [error("extensions_without_v2", "5.1.2.1"), *without]
    for number in (0, 2):
        yield crl(version=integer(number), extensions=None), [error("version_not_v2", "5.1.2.1"), *without]
    yield crl(version=integer(2)), [error("extensions_without_v2", "5.1.2.1"), error("version_not_v2", "5.1.2.1")]
    yield crl(issuer=sequence()), [error("issuer_empty", "5.1.2.3")]
    yield crl(issuer=sequence(rdn())), [error("issuer_rdn_empty", "5.1.2.3")]
    twice = sequence(rdn((10, element(UTF8_STRING, b"a")), (10, element(UTF8_STRING, b"b"))))
    yield crl(issuer=twice), [of_standard("error", "issuer_rdn_type_repeated", "X.501", "9.3")]
    yield crl(issuer=sequence(rdn((6, element(PRINTABLE_STRING, b"DEU"))))), [error("issuer_country_name_invalid", "A.1")]
    for text, findings in texts("issuer", "5.1.2.3"):
        yield crl(issuer=sequence(text)), findings
    yield crl(this_update=general(b"20491231235959Z"), next_update=late), [error("this_update_not_utc_time", "5.1.2.4")]
    yield crl(next_update=b""), [error("next_update_absent", "5.1.2.5")]
    yield crl(next_update=general(b"20491231235959Z")), [error("next_update_not_utc_time", "5.1.2.5")]
    yield crl(next_update=utc(b"260102030404Z")), [error("next_update_before_this_update", "5.1.2.5")]
    yield crl(next_update=late), []
    yield crl(entries=sequence()), [error("revoked_certificates_empty", "5.1.2.6")]
    yield crl(entries=b""), []
    yield crl(entries=sequence(ENTRY, entry_with(OTHER), ENTRY)), [error("serial_number_repeated", "5.1.2.6")]
    yield crl(entries=sequence(*(entry_with(OTHER, serial=number) for number in range(1, 200)))), []
    issuer = ce(29, sequence(context(4, SUBJECT)), True)
    yield crl(entries=sequence(ENTRY, entry_with(issuer, serial=5)), extensions=(CRL_AKI, CRL_NUMBER, ce(28, sequence(implicit(4, b"\xff")), True))), []
    yield crl(entries=sequence(ENTRY, sequence(integer(6), general(b"20260101000000Z")))), [error("revocation_date_not_utc_time", "5.1.2.6")]
    yield crl(extensions=()), [error("extensions_empty", "5.1.2.7"), *without]
    yield crl(extensions=None), without
    yield crl_with(OTHER, OTHER), [error("extension_repeated", "5.2")]
    for number, name in ((18, "issuerAltName"), (27, "deltaCRLIndicator"), (28, "issuingDistributionPoint"), (46, "freshestCRL")):
        yield crl_with(ce(number, NULL, number in (27, 28))), [crl_malformed(name)]
    yield crl(extensions=(ce(35, NULL), CRL_NUMBER)), [crl_malformed("authorityKeyIdentifier")]
    yield crl(extensions=(CRL_AKI, ce(20, NULL))), [crl_malformed("cRLNumber")]
    yield crl_with(pe(1, NULL)), [crl_malformed("authorityInfoAccess")]
    yield crl(entries=sequence(sequence(integer(6), utc(b"260101000000Z")), reason)), []
    yield crl(entries=sequence(ENTRY, sequence(integer(6), utc(b"260101000000Z"), sequence()))), [error("entry_extensions_empty", "5.3")]


def crl_extension_rules():
    """The extensions of a CRL (RFC 5280 5.2)."""
    indirect = sequence(implicit(4, b"\xff"))
    yield crl(extensions=(CRL_NUMBER,)), [error("authority_key_identifier_absent", "5.2.1")]
    yield crl(extensions=(ce(35, sequence()), CRL_NUMBER)), [error("authority_key_identifier_without_key", "5.2.1")]
    yield crl(extensions=(ce(35, sequence(KEY_ID), True), CRL_NUMBER)), [error("authority_key_identifier_critical", "4.2.1.1")]
    yield crl_with(ce(18, NAMES, True)), [warning("issuer_alt_name_critical", "5.2.2")]
    yield crl(extensions=(CRL_AKI,)), [error("crl_number_absent", "5.2.3")]
    yield crl(extensions=(CRL_AKI, ce(20, integer(7), True))), [error("crl_number_critical", "5.2.3")]
    yield crl(extensions=(CRL_AKI, ce(20, integer((1 << 160) - 1)))), []
    yield crl(extensions=(CRL_AKI, ce(20, integer(1 << 160)))), [error("crl_number_too_long", "5.2.3")]
    yield crl_with(ce(27, integer(6))), [error("delta_crl_indicator_not_critical", "5.2.4")]
    yield crl_with(ce(27, integer(6), True)), []
    yield crl_with(ce(28, indirect)), [error("issuing_distribution_point_not_critical", "5.2.5")]
    yield crl_with(ce(28, sequence(), True)), [error("issuing_distribution_point_empty", "5.2.5")]
    yield crl_with(ce(28, indirect, True)), []
    yield crl_with(ce(46, sequence(POINT), True)), [error("freshest_crl_critical", "5.2.6")]
    yield crl_with(ce(46, sequence(POINT))), []
    yield crl_with(ce(27, integer(6), True), ce(46, sequence(POINT))), [error("freshest_crl_in_delta", "5.2.6")]
    for more in (implicit(1, b"\6\x40"), context(2, context(4, ISSUER))):
        yield crl_with(ce(46, sequence(POINT, sequence(context(0, context(0, URI)), more)))), [error("freshest_crl_reasons_or_issuer", "5.2.6")]
    user, authority, attribute = implicit(1, b"\xff"), implicit(2, b"\xff"), implicit(5, b"\xff")
    kinds, attributes = error("issuing_distribution_point_kinds", "5.2.5"), error("issuing_distribution_point_attribute_certs", "5.2.5")
    yield crl_with(ce(28, sequence(user, authority), True)), [kinds]
    yield crl_with(ce(28, sequence(user, attribute), True)), [kinds, attributes]
    yield crl_with(ce(28, sequence(authority, attribute), True)), [kinds, attributes]
    yield crl_with(ce(28, sequence(attribute), True)), [attributes]
    yield crl_with(ce(28, sequence(user), True)), []
    yield crl_with(ce(28, sequence(authority), True)), []
    yield crl_with(pe(1, ACCESS, True)), [error("authority_info_access_critical", "5.2.7")]
    yield crl_with(pe(1, ACCESS)), []
    ca_issuers, ocsp = object_identifier(1, 3, 6, 1, 5, 5, 7, 48, 2), object_identifier(1, 3, 6, 1, 5, 5, 7, 48, 1)
    for descriptions in (sequence(), sequence(sequence(ocsp, URI)), sequence(sequence(ca_issuers, URI), sequence(ocsp, URI))):
        yield crl_with(pe(1, descriptions)), [error("authority_info_access_other_method", "5.2.7")]
    yield crl_with(pe(1, sequence(sequence(ca_issuers, DNS)))), [warning("ca_issuers_without_uri", "5.2.7")]
    address = context(0, context(0, X400_ADDRESS))
    yield crl_with(pe(1, sequence(sequence(ca_issuers, X400_ADDRESS)))), [not_judged("authority_info_access_not_read", "5.2.7")]
    yield crl_with(ce(28, sequence(address), True)), [not_judged("issuing_distribution_point_not_read", "5.2.5")]
    yield crl_with(ce(46, sequence(sequence(address)))), [not_judged("freshest_crl_not_read", "5.2.6")]
    unread = ce(35, sequence(KEY_ID, context(1, X400_ADDRESS), implicit(2, b"\1")))
    yield crl(extensions=(unread, CRL_NUMBER)), [not_judged("authority_key_identifier_not_read", "5.2.1")]


def crl_entry_rules():
    """The extensions of a CRL's entries (RFC 5280 5.3)."""

    def with_entry(*extensions, more=()):
        return crl(entries=sequence(ENTRY, entry_with(*extensions)), extensions=(CRL_AKI, CRL_NUMBER, *more))

    def reason(number, critical=False):
        return ce(21, element(ENUMERATED, number), critical)

    delta, indirect, direct = ce(27, integer(6), True), ce(28, sequence(implicit(4, b"\xff")), True), ce(28, sequence(implicit(1, b"\xff")), True)
    date, issuer = element(GENERALIZED_TIME, b"20260101000000Z"), sequence(context(4, SUBJECT))
    for number in (1, 2, 3, 4, 5, 6, 9, 10):
        yield with_entry(reason(bytes([number]))), []
    yield with_entry(reason(b"\1", True)), [error("entry_reason_critical", "5.3.1")]
    yield with_entry(reason(b"\0")), [warning("entry_reason_unspecified", "5.3.1")]
    yield with_entry(reason(b"\x08")), [error("entry_reason_remove_from_crl", "5.3.1")]
    yield with_entry(reason(b"\x08"), more=(delta,)), []
    for number in (b"\7", b"\x0b", b"\xff", b"\0\1", b""):
        yield with_entry(reason(number)), [error("entry_reason_invalid", "5.3.1")]
    for octets in (b"", NULL, integer(1), element(ENUMERATED, b"\1") + b"\0"):
        yield with_entry(ce(21, octets)), [error("entry_reason_invalid", "5.3.1")]
    yield with_entry(ce(24, date)), []
    for octets in (b"", NULL, date[:-1], date + b"\0", element(GENERALIZED_TIME, b"202601010000Z"), element(UTC_TIME, b"260101000000Z"),
                   element(GENERALIZED_TIME, b"20260101000000."), element(GENERALIZED_TIME, b"2026010100000aZ"), element(UTC_TIME, b"20260101000000Z")):
        yield with_entry(ce(24, octets)), [error("entry_invalidity_date_invalid", "5.3.2")]
    for text in ("20261301000000Z", "20260001000000Z", "20260132000000Z", "20260100000000Z", "20260230000000Z", "20260229000000Z", "21000229000000Z", "20260431000000Z",
                 "20260631000000Z", "20260931000000Z", "20261131000000Z", "20260101240000Z", "20260101006000Z", "20260101000060Z", "20161231235960Z"):
        yield with_entry(ce(24, element(GENERALIZED_TIME, text.encode()))), [error("entry_invalidity_date_invalid", "5.3.2")]
    for text in ("20260131235959Z", "20240229000000Z", "20000229000000Z", "19691231235959Z", "00010101000000Z", "99991231235959Z", "20260430000000Z", "20260731000000Z", "20260831000000Z"):
        yield with_entry(ce(24, element(GENERALIZED_TIME, text.encode()))), []
    yield with_entry(ce(24, date, True)), [error("entry_invalidity_date_critical", "5.3.2")]
    yield with_entry(ce(29, issuer, True), more=(indirect,)), []
    yield with_entry(ce(29, issuer), more=(indirect,)), [error("entry_certificate_issuer_not_critical", "5.3.3")]
    for more in ((), (direct,)):
        yield with_entry(ce(29, issuer, True), more=more), [error("entry_certificate_issuer_not_indirect", "5.3.3")]
    yield with_entry(ce(29, issuer, True), more=(ce(28, NULL, True),)), [crl_malformed("issuingDistributionPoint")]
    yield with_entry(ce(29, issuer, True), more=(direct, direct)), [error("extension_repeated", "5.2")]
    yield with_entry(OTHER, OTHER), [error("entry_extension_repeated", "5.3")]
    yield crl(entries=sequence(entry_with(OTHER, serial=5), entry_with(OTHER))), []


PKCS_9 = 1, 2, 840, 113549, 1, 9
PASSWORD, REQUEST, UNSTRUCTURED_NAME = (object_identifier(*PKCS_9, number) for number in (7, 14, 2))


def csr(subject=SUBJECT, attributes=(), extensions=None):
    """A CSR (RFC 2986 4.2); with `extensions=None` it asks for none."""
    if extensions is not None:
        attributes = (*attributes, sequence(REQUEST, set_of(sequence(*extensions))))
    return sequence(sequence(integer(0), subject, KEY, context(0, *sorted(attributes))), ECDSA_SHA256, SIGNATURE)


def of_standard(severity, name, standard, section):
    return f"{severity} {name} ({standard} {section})"


def csr_rules():
    """CSRs (RFC 2986 4.1, RFC 2985 5.4), their subjects and the extensions that they ask for (RFC 5280 4.1.2.6, 4.2)."""
    san = ce(17, NAMES)
    yield csr(), []
    yield csr(extensions=(san, KU, OTHER)), []
    yield csr(subject=sequence(set_of())), [error("subject_rdn_empty", "4.1.2.6")]
    twice = sequence(rdn((10, element(UTF8_STRING, b"a")), (10, element(UTF8_STRING, b"b"))))
    yield csr(subject=twice), [of_standard("error", "subject_rdn_type_repeated", "X.501", "9.3")]
    yield csr(subject=sequence(rdn((6, element(UTF8_STRING, b"DE"))))), [error("subject_country_name_invalid", "A.1")]
    yield csr(subject=sequence(rdn((3, element(IA5_STRING, b"a"))))), [error("subject_text_type", "A.1")]
    yield csr(subject=sequence(rdn((3, element(TELETEX_STRING, b"a"))))), [warning("subject_text_old_type", "4.1.2.6")]
    yield csr(subject=common_name(b"\xff")), [error("subject_text_characters", "4.1.2.6")]
    for count, findings in ((0, [error("subject_text_size", "A.1")]), (1, []), (64, []), (65, [error("subject_text_size", "A.1")])):
        yield csr(subject=common_name(b"a" * count)), findings
    nameless = [error("subject_empty_without_alt_name", "4.1.2.6")]
    yield csr(subject=sequence()), nameless
    yield csr(subject=sequence(), extensions=(KU,)), nameless
    yield csr(subject=sequence(), extensions=(san,)), []
    name = sequence(UNSTRUCTURED_NAME, set_of(element(UTF8_STRING, b"a")))
    twice = sequence(UNSTRUCTURED_NAME, set_of(element(UTF8_STRING, b"b")))
    yield csr(attributes=(name,)), []
    yield csr(attributes=(name, twice)), [of_standard("warning", "attribute_repeated", "RFC 2986", "4.1")]
    yield csr(attributes=(sequence(REQUEST, set_of(sequence(KU))), sequence(REQUEST, set_of(sequence(san))))), [
        of_standard("warning", "attribute_repeated", "RFC 2986", "4.1")
    ]
    yield csr(attributes=(sequence(UNSTRUCTURED_NAME, set_of()),)), [of_standard("error", "attribute_values_empty", "RFC 2986", "4.1")]
    one, other = element(PRINTABLE_STRING, b"a"), element(PRINTABLE_STRING, b"b")
    yield csr(attributes=(sequence(PASSWORD, set_of(one)),)), []
    yield csr(attributes=(sequence(PASSWORD, set_of(one, other)),)), [of_standard("error", "challenge_password_several_values", "RFC 2985", "5.4.1")]
    yield csr(attributes=(sequence(PASSWORD, set_of(NULL)),)), [of_standard("error", "challenge_password_malformed", "RFC 2985", "5.4.1")]
    odd_size = [of_standard("error", "challenge_password_size", "RFC 2985", "5.4.1")]
    euro = "\u20ac".encode()
    for text, findings in (
        (element(PRINTABLE_STRING, b"a" * 255), []),
        (element(PRINTABLE_STRING, b"a" * 256), odd_size),
        (element(PRINTABLE_STRING), odd_size),
        (element(UTF8_STRING, euro * 255), []),
        (element(UTF8_STRING, euro * 256), odd_size),
        (element(UTF8_STRING, b"a_b"), []),
        (element(UTF8_STRING, b"a(b"), [of_standard("warning", "challenge_password_type", "RFC 2985", "5.4.1")]),
        (element(TELETEX_STRING, b"a"), [of_standard("warning", "challenge_password_type", "RFC 2985", "5.4.1")]),
        (element(BMP_STRING, b"\x20\xac"), [of_standard("warning", "challenge_password_type", "RFC 2985", "5.4.1")]),
    ):
        yield csr(attributes=(sequence(PASSWORD, set_of(text)),)), findings
    yield csr(attributes=(sequence(REQUEST, set_of(sequence(KU), sequence(san))),)), [
        of_standard("error", "extension_request_several_values", "RFC 2985", "5.4.2")
    ]
    yield csr(attributes=(sequence(REQUEST, set_of(NULL)),)), [of_standard("error", "extension_request_malformed", "RFC 2985", "5.4.2")]
    yield csr(extensions=()), [error("extensions_empty", "4.1.2.9")]
    yield csr(extensions=(OTHER, OTHER)), [error("extension_repeated", "4.2")]
    place = "certificationRequestInfo.attributes.extensionRequest"
    for number, name in EXTENSIONS:
        yield csr(extensions=(ce(number, NULL),)), [f"{error('extension_malformed', '4.2')}: {place}.{name}"]
    for number, name in ((1, "authorityInfoAccess"), (11, "subjectInfoAccess"), (3, "qcStatements"), (24, "tlsFeature")):
        yield csr(extensions=(pe(number, NULL),)), [f"{error('extension_malformed', '4.2')}: {place}.{name}"]
    for oid, name in ((OCSP_NO_CHECK, "ocspNoCheck"), (POISON, "precertificatePoison")):
        yield csr(extensions=(extension(oid, b""),)), [f"{error('extension_malformed', '4.2')}: {place}.{name}"]
    for names, rule in (
        (sequence(), "subject_alt_name_empty"),
        (sequence(implicit(2, b"")), "subject_alt_name_empty_name"),
        (sequence(implicit(2, b"a_b")), "subject_alt_name_dns_name_invalid"),
        (sequence(implicit(7, bytes(5))), "subject_alt_name_address_length"),
        (sequence(implicit(1, b"example.org")), "subject_alt_name_mailbox_invalid"),
        (sequence(implicit(1, b'"a"b@example.org')), "subject_alt_name_mailbox_invalid"),
        (sequence(implicit(6, b"example.org")), "subject_alt_name_uri_relative"),
        (sequence(implicit(6, b"urn:[")), "subject_alt_name_uri_invalid"),
        (sequence(implicit(6, b"http://localhost/")), "subject_alt_name_uri_host_invalid"),
    ):
        yield csr(extensions=(ce(17, names),)), [error(rule, "4.2.1.6")]
    yield csr(extensions=(ce(17, sequence(X400_ADDRESS)),)), [not_judged("subject_alt_name_not_read", "4.2.1.6")]
    for name, rule, standard in other_names():
        told = f"subject_alt_name_{rule}"
        yield csr(extensions=(ce(17, sequence(name)),)), [] if rule is None else [of_standard("error", told, *standard) if standard else error(told, "4.2.1.6")]
    for text, findings in ((b"a", []), (b"a.b", [of_standard("error", "subject_domain_component_invalid", "RFC 4519", "2.4")])):
        yield csr(subject=sequence(set_of(sequence(DOMAIN_COMPONENT, element(IA5_STRING, text))))), findings


NAME, OTHER_KEY = common_name(b"An anchor"), sequence(EC_P256, bit_string(b"\x04" + bytes(63) + b"\1"))


def anchor(key=KEY, key_id=b"subject", title=b"", controls=b"", exts=None, language=b""):
    """The description of a trust anchor (RFC 5914 2); with `exts=None` it has none."""
    return context(2, sequence(key, octet_string(key_id), title, controls, b"" if exts is None else context(1, sequence(*exts)), language))


def controlled(*fields, name=NAME, **others):
    """One with controls (RFC 5914 2.5) of a name and these fields."""
    return anchor(controls=sequence(name, *fields), **others)


def content(data):
    """The content of an element, without its identifier and length octets (X.690 8.1)."""
    return data[2 + (data[1] & 0x7F if data[1] > 0x7F else 0) :]


def of_5914(name, section):
    return of_standard("error", name, "RFC 5914", section)


def anchor_rules():
    """Trust anchors (RFC 5914 2, 3), their names (RFC 5280 4.1.2.4), policies, name constraints and extensions (4.2)."""
    yield anchor(), []
    yield anchor(key_id=b""), []
    for text, count in ((b"a", 1), (b"a", 64), ("\u20ac".encode(), 64), (b"a", 0), (b"a", 65), ("\u20ac".encode(), 65)):
        yield anchor(title=element(UTF8_STRING, text * count)), [] if 1 <= count <= 64 else [of_5914("ta_title_size", "2.4")]
    odd = [of_standard("warning", "ta_title_lang_tag_invalid", "RFC 5914", "2.4")]
    for tag in (b"en", b"de-CH-1996", b"x-a", b"i-default", b"zh-Hant-TW", b"abcdefgh"):
        yield anchor(title=element(UTF8_STRING, b"a"), language=implicit(2, tag)), []
    for tag in (b"", b"en_GB", b"en-", b"-en", b"en--GB", b"abcdefghi", b"de-abcdefghi", "fran\u00e7ais".encode(), b"en US"):
        yield anchor(title=element(UTF8_STRING, b"a"), language=implicit(2, tag)), odd
    yield controlled(), []
    yield controlled(name=sequence()), [of_5914("ta_name_empty", "2.5")]
    yield controlled(name=sequence(set_of())), [error("ta_name_rdn_empty", "4.1.2.4")]
    twice = sequence(rdn((10, element(UTF8_STRING, b"a")), (10, element(UTF8_STRING, b"b"))))
    yield controlled(name=twice), [of_standard("error", "ta_name_rdn_type_repeated", "X.501", "9.3")]
    yield controlled(name=sequence(rdn((6, element(UTF8_STRING, b"DE"))))), [error("ta_name_country_name_invalid", "A.1")]
    yield controlled(name=sequence(rdn((3, element(IA5_STRING, b"a"))))), [error("ta_name_text_type", "A.1")]
    yield controlled(name=sequence(rdn((3, element(TELETEX_STRING, b"a"))))), [warning("ta_name_text_old_type", "4.1.2.4")]
    yield controlled(name=common_name(b"\xff")), [error("ta_name_text_characters", "4.1.2.4")]
    for text, findings in ((b"a", []), (b"a.b", [of_standard("error", "ta_name_domain_component_invalid", "RFC 4519", "2.4")])):
        yield controlled(name=sequence(set_of(sequence(DOMAIN_COMPONENT, element(IA5_STRING, text))))), findings
    for count, findings in ((0, [error("ta_name_text_size", "A.1")]), (64, []), (65, [error("ta_name_text_size", "A.1")])):
        yield controlled(name=common_name(b"a" * count)), findings
    yield from anchor_certificate_rules()
    yield from anchor_control_rules()
    yield from anchor_extension_rules()
    yield from anchors_of_certificates()


def anchor_certificate_rules():
    """The certificate in the controls is the anchor's (RFC 5914 2.5)."""

    def with_certificate(subject=NAME, extensions=LEAF, **others):
        return controlled(context(0, content(certificate(subject=subject, extensions=extensions))), **others)

    yield with_certificate(), []
    yield with_certificate(extensions=(AKI, KU)), []
    yield with_certificate(subject=SUBJECT), [of_5914("certificate_subject_differs", "2.5")]
    yield with_certificate(subject=sequence(rdn((3, element(PRINTABLE_STRING, b"An anchor"))))), [of_5914("certificate_subject_differs", "2.5")]
    yield with_certificate(key=OTHER_KEY), [of_5914("certificate_key_differs", "2.5")]
    yield with_certificate(key_id=b"another"), [of_5914("certificate_key_identifier_differs", "2.5")]
    yield with_certificate(extensions=(AKI, KU), key_id=b"another"), []
    yield with_certificate(extensions=(AKI, SKI, SKI, KU), key_id=b"another"), []
    yield with_certificate(subject=SUBJECT, key=OTHER_KEY, key_id=b""), [
        of_5914("certificate_subject_differs", "2.5"),
        of_5914("certificate_key_differs", "2.5"),
        of_5914("certificate_key_identifier_differs", "2.5"),
    ]


def anchor_control_rules():
    """Policies (RFC 5280 4.2.1.4, RFC 5914 2.5) and name constraints (RFC 5280 4.2.1.10) of anchors."""
    one, other = sequence(POLICY), sequence(ANY_POLICY)
    yield controlled(context(1, one, other)), []
    yield controlled(context(1)), [error("policy_set_empty", "4.2.1.4")]
    yield controlled(context(1, one, other, one)), [error("policy_set_repeated", "4.2.1.4")]
    cps = sequence(object_identifier(1, 3, 6, 1, 5, 5, 7, 2, 1), element(IA5_STRING, b"https://example.org/"))
    for qualifiers in (sequence(cps), sequence()):
        yield controlled(context(1, one, sequence(ANY_POLICY, qualifiers))), [of_5914("policy_set_qualifiers", "2.5")]
    yield controlled(context(3, SUBTREES)), []
    yield controlled(context(3)), [error("name_constraints_empty", "4.2.1.10")]
    for number in (0, 1):
        yield controlled(context(3, context(number))), [error("name_constraints_subtrees_empty", "4.2.1.10")]
        for base, finding in (
            (DNS + implicit(0, b"\1"), error("name_constraints_minimum", "4.2.1.10")),
            (DNS + implicit(1, b"\1"), error("name_constraints_maximum", "4.2.1.10")),
            (implicit(8, b"\x2a\3"), warning("name_constraints_other_form", "4.2.1.10")),
            (implicit(6, b"http://example.org"), error("name_constraints_uri_invalid", "4.2.1.10")),
            (implicit(7, bytes(4)), error("name_constraints_address_length", "4.2.1.10")),
            (implicit(7, bytes(4) + b"\xff\0\xff\0"), error("name_constraints_address_mask", "4.2.1.10")),
        ):
            yield controlled(context(3, context(number, sequence(DNS), sequence(base)))), [finding]


def anchor_extension_rules():
    """The extensions of anchors (RFC 5914 2.6, RFC 5280 4.1.2.9, 4.2)."""
    yield anchor(exts=(OTHER, CA_KU)), []
    yield anchor(exts=()), [error("extensions_empty", "4.1.2.9")]
    yield anchor(exts=(OTHER, OTHER)), [error("extension_repeated", "4.2")]
    misplaced = {32: "certificate_policies_in_exts", 36: "policy_constraints_in_exts", 54: "inhibit_any_policy_in_exts", 30: "name_constraints_in_exts"}
    for number, payload in ((32, sequence(sequence(POLICY))), (36, sequence(implicit(0, b"\0"))), (54, integer(0)), (30, sequence(SUBTREES))):
        yield anchor(exts=(ce(number, payload, True),)), [of_5914(misplaced[number], "2.6")]
    for number, name in EXTENSIONS:
        others = [of_5914(misplaced[number], "2.6")] if number in misplaced else []
        yield anchor(exts=(ce(number, NULL),)), [*others, f"{error('extension_malformed', '4.2')}: taInfo.exts.{name}"]
    for number, name in ((1, "authorityInfoAccess"), (11, "subjectInfoAccess"), (3, "qcStatements"), (24, "tlsFeature")):
        yield anchor(exts=(pe(number, NULL),)), [f"{error('extension_malformed', '4.2')}: taInfo.exts.{name}"]
    for oid, name in ((OCSP_NO_CHECK, "ocspNoCheck"), (POISON, "precertificatePoison")):
        yield anchor(exts=(extension(oid, b""),)), [f"{error('extension_malformed', '4.2')}: taInfo.exts.{name}"]


def anchors_of_certificates():
    """Of a TBSCertificate the rules on certificates (RFC 5914 3)."""
    yield context(1, tbs_certificate()), []
    yield context(1, tbs_certificate(serial=integer(0))), [error("serial_number_not_positive", "4.1.2.2")]
    yield context(1, tbs_certificate(extensions=(*LEAF, ce(31, sequence())))), [error("crl_distribution_points_empty", "4.2.1.13")]
    yield context(1, tbs_certificate(inner=ecdsa_with(2, NULL))), [of_standard("error", "ecdsa_signature_parameters_present", "RFC 5758", "3.2")]


CERTIFICATE_RULES = (
    field_rules,
    name_rules,
    text_rules,
    email_rules,
    list_rules,
    malformed_rules,
    beyond_rules,
    critical_rules,
    authority_rules,
    key_rules,
    alternative_rules,
    policy_rules,
    constraint_rules,
    point_rules,
    public_key_rules,
)
USAGE = (
    "usage: x509_linter [certificate|crl|csr|anchor] [-v] [--json] [CHOICE..] [FILE..]\n"
    "       x509_linter --web [--rfc] [-v] [--json] [CHOICE..] MOMENT [FILE..]\n"
)
WEB_HELP = """  --web                          tells which rules of the Baseline Requirements of the
                                 CA/Browser Forum certificates break, of those in force at
                                 MOMENT, as 2026-03-15T00:00:00Z, or 2026-03-15 for that, or
                                 not-before for the notBefore of each certificate
  --rfc                          with --web, tells of each certificate first which rules of RFC
                                 5280 and the others it breaks
"""
CHOICE_HELP = """  --only RULE, --without RULE    reports findings of these rules alone, or none of these; each
                                 may stand several times, and RULE is a name as it is printed
  --level error|warning|notice   from which severity on a finding makes status 1: an error, a
                                 warning too, or also what isn't judged
  --count                        prints each line once for all inputs, behind how often it
                                 stands there
"""
NO_OBJECT = "not a certificate, CRL, CSR or trust anchor in DER, PEM or hex"
KINDS = {"certificate": "a certificate", "crl": "a CRL", "csr": "a CSR", "anchor": "a trust anchor"}


def cases():
    """For each object a name, its bytes, and the lines that are to be printed."""
    yield "certificate", certificate(), []
    yield "certificate of an authority", certificate(extensions=CA), []
    yield "crl", crl(), []
    for rules in CERTIFICATE_RULES:
        for at, (data, findings) in enumerate(rules()):
            yield f"{rules.__name__} {at}", data, [f"certificate: {it}\n" for it in findings]
    for rules in (crl_field_rules, crl_extension_rules, crl_entry_rules):
        for at, (data, findings) in enumerate(rules()):
            yield f"{rules.__name__} {at}", data, [f"crl: {it}\n" for it in findings]
    for at, (data, findings) in enumerate(csr_rules()):
        yield f"csr_rules {at}", data, [f"csr: {it}\n" for it in findings]
    for at, (data, findings) in enumerate(anchor_rules()):
        yield f"anchor_rules {at}", data, [f"anchor: {it}\n" for it in findings]


def runs():
    """For each run a name, its words, its input, what it is to print, and its status."""
    for name, data, lines in cases():
        yield name, [], data, "".join(lines), int(any(": error " in it for it in lines))
    odd, line = certificate(serial=integer(0)), "certificate: error serial_number_not_positive (RFC 5280 4.1.2.2)\n"
    digits = odd.hex()
    yield "hex", [], digits.encode(), line, 1
    yield "upper-case hex", [], digits.upper().encode() + b"\r\n", line, 1
    yield "hex in lines", [], "\n".join(digits[at : at + 60] for at in range(0, len(digits), 60)).encode() + b"\n", line, 1
    yield "hex with colons", [], odd.hex(":").encode(), line, 1
    yield "hex with colons in lines", [], "".join(f"    {odd[at : at + 18].hex(':')}:\n" for at in range(0, len(odd), 18)).encode(), line, 1
    clean = certificate()
    yield "nothing found, and said so", ["-v"], clean, "nothing found\n", 0
    yield "findings, and no more is said", ["-v"], odd, line, 1
    weak, warned = certificate(extensions=(AKI, SKI, ce(15, DIGITAL_SIGNATURE))), "certificate: warning key_usage_not_critical (RFC 5280 4.2.1.3)\n"
    yield "a warning, and no more is said", ["-v"], weak, warned, 0
    for kind, data in (("certificate", certificate()), ("crl", crl()), ("csr", csr()), ("anchor", anchor())):
        yield f"a {kind}, which is asked for", [kind, "-v"], data, "nothing found\n", 0
    yield "a certificate, which is asked for as an anchor", ["anchor"], odd, line.replace("certificate:", "anchor:"), 1
    yield from json_runs()
    yield from web_runs()


def web_runs():
    """Runs with `--web` over certificates that break rules of the Baseline Requirements."""
    try:
        from web_cases import web_runs as runs_of_cases
    except ImportError:
        print("left out, since Python's cryptography isn't installed: the certificates that break rules of the Baseline Requirements")
    else:
        yield from runs_of_cases()


def told(file, kind, rule, severity, section, place, seen="", **seen_as):
    """A finding as a line of JSON, member by member."""
    members = {"file": file, "object": kind, "rule": rule, "severity": severity, "section": section, "place": place, "seen": seen}
    return json.dumps(members | seen_as, ensure_ascii=False) + "\n"


def unseen(text):
    """Lines for people without what is seen, which stands behind a tab; those of one rule on several names once."""
    lines = [re.sub(r"\t.*", "", it) for it in text.splitlines(keepends=True)]
    return "".join(it for it, _ in itertools.groupby(lines))


def ended_unseen(program, words, data):
    """How a run ended, without what is seen."""
    status, text, said = ended(program, words, data)
    return status, unseen(text), said


def json_runs():
    """Runs with `--json`."""
    file = "standard input"
    yield "JSON of nothing found", ["--json"], certificate(), "", 0
    number = told(file, "certificate", "serial_number_not_positive", "error", "RFC 5280 4.1.2.2", "tbsCertificate.serialNumber", "00")
    yield "JSON of a serial number", ["--json"], certificate(serial=integer(0)), number, 1
    long = integer(2**300)
    seen = long[2:][:32].hex() + ".."
    number = told(file, "certificate", "serial_number_too_long", "error", "RFC 5280 4.1.2.2", "tbsCertificate.serialNumber", seen)
    yield "JSON of a long serial number", ["certificate", "--json"], certificate(serial=long), number, 1
    weak = certificate(extensions=(AKI, SKI, ce(15, DIGITAL_SIGNATURE)))
    usage = told(file, "certificate", "key_usage_not_critical", "warning", "RFC 5280 4.2.1.3", "tbsCertificate.extensions.keyUsage")
    yield "JSON of a warning", ["--json"], weak, usage, 0
    key = told(file, "certificate", "edwards_key_length", "error", "RFC 8410 4", "tbsCertificate.subjectPublicKeyInfo")
    yield "JSON of a key", ["--json"], with_key(edwards(112), bytes(31)), key, 1
    for count in (30, 31):
        octets = octet_string(bytes(count))
        seen = octets.hex() if count == 30 else octets[:32].hex() + ".."
        place = "tbsCertificate.extensions.policyConstraints"
        line = told(file, "certificate", "extension_malformed", "error", "RFC 5280 4.2", place, seen)
        yield f"JSON of an extension of {count + 2} octets", ["--json"], ca_with(ce(36, octets, True)), line, 1
    line = told(file, "crl", "extension_malformed", "error", "RFC 5280 5.2", "tbsCertList.crlExtensions.freshestCRL", "0500")
    yield "JSON of a CRL", ["crl", "--json"], crl_with(ce(46, NULL)), line, 1
    repeated = certificate(extensions=(*LEAF, ce(17, NAMES), ce(17, NULL)))
    lines = told(file, "certificate", "extension_repeated", "error", "RFC 5280 4.2", "tbsCertificate.extensions")
    lines += told(file, "certificate", "extension_malformed", "error", "RFC 5280 4.2", "tbsCertificate.extensions.subjectAltName", NAMES.hex())
    yield "JSON of two findings", ["--json"], repeated, lines, 1
    line = told(file, "csr", "attribute_values_empty", "error", "RFC 2986 4.1", "certificationRequestInfo.attributes")
    yield "JSON of a CSR", ["--json"], csr(attributes=(sequence(UNSTRUCTURED_NAME, set_of()),)), line, 1
    place = "certificationRequestInfo.attributes.extensionRequest.subjectAltName"
    line = told(file, "csr", "extension_malformed", "error", "RFC 5280 4.2", place, "0500")
    yield "JSON of an extension that a CSR asks for", ["--json"], csr(extensions=(KU, ce(17, NULL), OTHER)), line, 1
    line = told(file, "anchor", "ta_title_size", "error", "RFC 5914 2.4", "taInfo.taTitle")
    yield "JSON of an anchor", ["anchor", "--json"], anchor(title=element(UTF8_STRING, b"")), line, 1
    long = octet_string(bytes(31))
    line = told(file, "anchor", "extension_malformed", "error", "RFC 5280 4.2", "taInfo.exts.keyUsage", long[:32].hex() + "..")
    yield "JSON of an anchor's extension", ["--json"], anchor(exts=(ce(15, long),)), line, 1
    number = told(file, "anchor", "serial_number_not_positive", "error", "RFC 5280 4.1.2.2", "tbsCertificate.serialNumber", "00")
    for name, data in (("certificate", certificate(serial=integer(0))), ("TBSCertificate", context(1, tbs_certificate(serial=integer(0))))):
        yield f"JSON of an anchor that is a {name}", ["anchor", "--json"], data, number, 1


def result(file, said, **members):
    """What is printed of an input without findings by `-v` and `--json`, as a line of JSON."""
    return json.dumps({"file": file, "result": said, **members}, ensure_ascii=False) + "\n"


def verbose_json(program):
    """For each run with `-v` and `--json` a name, whether it ended as stated, and how it ended."""
    odd, moment = certificate(serial=integer(0)), "2026-03-15T00:00:00Z"
    number = "certificate", "serial_number_not_positive", "error", "RFC 5280 4.1.2.2", "tbsCertificate.serialNumber", "00"
    for words in (["-v", "--json"], ["--json", "-v"], ["certificate", "--json", "-v"]):
        found = ended(program, words, certificate())
        yield f"the words {words}", found == (0, result("standard input", "nothing found"), ""), found
        found = ended(program, words, odd)
        yield f"the words {words}, and a finding", found == (1, told("standard input", *number), ""), found
    for words in (["--web", "-v", "--json", moment], ["-v", "--web", "--json", moment], ["--json", "-v", "--web", moment]):
        given = [*words, "--only", "serial_number_not_positive"]
        found = ended(program, given, certificate())
        yield f"the words {given}", found == (0, result("standard input", "no rule applies"), ""), found
        given = [*words, "--only", "signature_of_sha1"]
        found = ended(program, given, certificate())
        yield f"the words {given}", found == (0, result("standard input", "nothing found"), ""), found
    with tempfile.TemporaryDirectory() as folder:
        paths = [f'{folder}/a "quoted" name', f"{folder}/none", f"{folder}/chain.pem", f"{folder}/empty"]
        pem = [next(pem_of(data)) for data in (certificate(), odd)]
        for path, data in ((paths[0], certificate()), (paths[2], pem[0] + PEM_OF_NOTHING + pem[1]), (paths[3], b"")):
            pathlib.Path(path).write_bytes(data)
        lines = [
            result(paths[0], "nothing found"),
            result(paths[1], "refused", reason="no such file"),
            result(f"{paths[2]}, object 1", "nothing found"),
            result(f"{paths[2]}, object 2", "refused", reason=NO_OBJECT + NOTHING, place="tbsCertificate", offset=2),
            told(f"{paths[2]}, object 3", *number),
            result(paths[3], "refused", reason=f"{NO_OBJECT}; it is empty"),
        ]
        said = [f"{paths[1]}: no such file", f"{paths[2]}, object 2: {NO_OBJECT}{NOTHING}", f"{paths[3]}: {NO_OBJECT}; it is empty"]
        said = "".join(f"x509_linter: {it}\n" for it in said)
        found = ended(program, ["-v", "--json", *paths])
        yield "several files with -v and --json", found == (2, "".join(lines), said), found
        found = ended(program, ["--json", *paths])
        yield "several files with --json, some refused", found == (2, lines[4], said), found
        only = ["--only", "serial_number_not_positive"]
        found = ended(program, ["-v", "--json", *only, *paths])
        yield "several files with -v, --json and --only", found == (2, "".join(lines), said), found
        found = ended(program, ["-v", "--json", "crl", paths[0]])
        # where the signature of a CRL has to stand stands the version
        place = "tbsCertList.signature", certificate().index(context(0, integer(2)))
        said = result(paths[0], "refused", reason=f"not a CRL in DER, PEM or hex{unread(*place, 'a CRL')}", place=place[0], offset=place[1])
        yield "no CRL, with -v and --json", found[:2] == (2, said), found
        pathlib.Path(paths[0]).write_bytes(csr())
        found = ended(program, ["-v", "--json", "anchor", paths[0]])
        said = result(paths[0], "refused", reason=f"not a trust anchor in DER, PEM or hex{WHOLE}something in it is wrong")
        yield "no trust anchor, with -v and --json", found[:2] == (2, said), found
    with open("/dev/full", "wb") as full:
        found = ended(program, ["-v", "--json"], certificate(), stdout=full)
        yield "a full output, with -v and --json", found == (2, "", "x509_linter: standard input: the output can't be written\n"), found


def in_directories(program):
    """For each run over directories with other options a name, whether it ended as stated, and how it ended."""
    odd, rule = certificate(serial=integer(0)), "serial_number_not_positive"
    number = "certificate", rule, "error", "RFC 5280 4.1.2.2", "tbsCertificate.serialNumber", "00"
    line = f"certificate: error {rule} (RFC 5280 4.1.2.2)\n"
    with tempfile.TemporaryDirectory() as folder:
        full, empty = f"{folder}/full", f"{folder}/empty"
        for path in (full, empty, f"{full}/below"):
            pathlib.Path(path).mkdir()
        for name, data in (("c", odd), ("b", certificate()), ("a", odd)):
            pathlib.Path(f"{full}/{name}").write_bytes(data)
        lines = [told(f"{full}/a", *number), result(f"{full}/b", "nothing found"), told(f"{full}/c", *number)]
        for words, wanted in (
            (["--json", full], (1, lines[0] + lines[2])),
            (["--json", "-v", full], (1, "".join(lines))),
            (["-v", full], (1, f"{full}/a:\n{line}{full}/b:\nnothing found\n{full}/c:\n{line}")),
            (["--count", "-v", full], (1, f"2 {line}1 nothing found\n")),
            (["certificate", "--only", rule, full], (1, f"{full}/a:\n{line}{full}/c:\n{line}")),
            (["--web", "--rfc", "--only", rule, "2026-03-15", full], (1, f"{full}/a:\n{line}{full}/c:\n{line}")),
            (["-v", empty], (0, "")),
            (["--count", "-v", empty], (0, "")),
            (["-v", "--json", empty], (0, "")),
        ):
            found = ended(program, words, odd)
            yield f"a directory and the words {words[:-1]}", found == (*wanted, ""), f"{found}, and not {wanted}"


def no_rule(program):
    """For each run with `-v` a name, whether it says as stated that no rule applies, and how it ended."""
    serial = "serial_number_not_positive"
    for words, data, says in (
        (["-v", "--only", serial, "--without", serial], certificate(), "no rule applies"),
        (["-v", "--only", serial], certificate(), "nothing found"),
        (["-v", "--only", "crl_number_absent"], certificate(), "nothing found"),
        (["certificate", "-v", "--only", "crl_number_absent"], certificate(), "no rule applies"),
        (["crl", "-v", "--only", "crl_number_absent"], crl(), "nothing found"),
        (["crl", "-v", "--only", serial], crl(), "no rule applies"),
        (["csr", "-v", "--only", serial], csr(), "no rule applies"),
        (["csr", "-v", "--only", "subject_text_size"], csr(), "nothing found"),
        (["anchor", "-v", "--only", "ta_title_size"], anchor(), "nothing found"),
        (["anchor", "-v", "--only", serial], certificate(), "nothing found"),
        (["anchor", "-v", "--only", "crl_number_absent"], anchor(), "no rule applies"),
        (["--web", "-v", "--only", serial, "2026-03-15"], certificate(), "no rule applies"),
        (["--web", "-v", "--only", "signature_of_sha1", "2026-03-15"], certificate(), "nothing found"),
        (["-v", "--only", "signature_of_sha1"], certificate(), "no rule applies"),
        (["-v", "--level", "warning"], certificate(), "nothing found"),
    ):
        found = ended(program, words, data)
        yield f"the words {words}", found == (0, says + "\n", ""), found


def no_option(option):
    """What is told above the usage of an option that is none."""
    return f"x509_linter: no such option: {option}\n"


def twice(option):
    """What is told above the usage of an option that stands twice."""
    return f"x509_linter: stands twice: {option}\n"


# What is told of objects of other kinds that are no certificates: where the validity has to stand a CRL has its date, and a CSR its subject where the algorithm
# of the signature has to.
NO_CERTIFICATE = {
    "CRL": unread("tbsCertificate.validity", crl().index(utc(b"260102030405Z"))),
    "CSR": unread("tbsCertificate.signature", csr().index(SUBJECT)),
    "trust anchor": looks(anchor()),
}


def wrong_certificates():
    """Certificates of which a field can't be read: for each a name, its bytes, the path of the field, and its octets, which stand in it once."""
    version, date = context(0, integer(3)), utc(b"2601020304Z")
    yield "version 4", certificate(version=version), "tbsCertificate.version", version
    yield "version 1, encoded", certificate(version=context(0, integer(0))), "tbsCertificate.version", context(0, integer(0))
    number = element(2, b"\0\x01")
    yield "a serial number with a zero in front", certificate(serial=number), "tbsCertificate.serialNumber", number
    yield "a UTCTime without seconds", certificate(dates=sequence(date, utc(b"270102030405Z"))), "tbsCertificate.validity.notBefore", date
    yield "a second UTCTime without seconds", certificate(dates=sequence(utc(b"260102030405Z"), date)), "tbsCertificate.validity.notAfter", date
    yield "a validity without dates", certificate(dates=octet_string(b"none")), "tbsCertificate.validity", octet_string(b"none")
    name = sequence(sequence(object_identifier(2, 5, 4, 3), element(UTF8_STRING, b"no SET")))
    yield "an issuer without sets", certificate(issuer=name), "tbsCertificate.issuer", name
    yield "a subject without sets", certificate(subject=name), "tbsCertificate.subject", name
    key = sequence(EC_P256, octet_string(bytes(65)))
    yield "a key that is no BIT STRING", certificate(key=key), "tbsCertificate.subjectPublicKeyInfo", key
    unique = implicit(1, b"\x08\xff")
    yield "a unique identifier of 8 unused bits", certificate(unique=unique), "tbsCertificate.issuerUniqueID", unique
    no_bits = implicit(2)
    yield "another without content", certificate(unique=implicit(1, b"\0\xff") + no_bits), "tbsCertificate.subjectUniqueID", no_bits
    false = sequence(object_identifier(1, 2, 3), b"\x01\x01\0", octet_string(NULL))
    yield "a FALSE that is encoded", leaf_with(OTHER, false, CA_BC), "tbsCertificate.extensions", false
    true = sequence(object_identifier(1, 2, 3), b"\x01\x01\x01", octet_string(NULL))
    yield "a TRUE that isn't FF", certificate(extensions=(true, *LEAF)), "tbsCertificate.extensions", true
    outer = sequence(ECDSA_SHA256)
    yield "an algorithm without OID", certificate(outer=outer), "signatureAlgorithm", outer


def wrong_fields():
    """Objects of which a field can't be read: for each a name, its bytes, and what is told of it."""
    for name, data, path, octets in wrong_certificates():
        yield name, data, unread(path, data.index(octets))
    part, head = tbs_certificate(), sequence(b"")
    yield "an octet behind the last field of the signed part", *ended_by(sequence(part[header_len(len(part)) :], b"\0"), "tbsCertificate")
    yield "an element behind it", *ended_by(sequence(part[header_len(len(part)) :], context(4, NULL)), "tbsCertificate", len(context(4, NULL)))
    data = sequence(part, ECDSA_SHA256, SIGNATURE, NULL)
    yield "an element behind the signature", data, unended("Certificate", len(data) - len(NULL))
    data = sequence(part, ECDSA_SHA256)
    yield "no signature", data, unread("signatureValue", len(data))
    data = sequence(part, ECDSA_SHA256, octet_string(SIGNATURE))
    yield "a signature that is no BIT STRING", data, unread("signatureValue", len(data) - len(octet_string(SIGNATURE)))
    data = certificate(dates=sequence(utc(b"260102030405Z"), utc(b"270102030405Z"), head))
    yield "a validity of three elements", data, unended("tbsCertificate.validity", data.index(utc(b"270102030405Z") + head) + len(utc(b"270102030405Z")))


def wrong_lists_and_requests():
    """CRLs and CSRs of which a field can't be read, as `wrong_fields`."""
    date, entry, false = utc(b"2602020304Z"), sequence(integer(9), utc(b"2601010000Z")), sequence(object_identifier(1, 2, 3), b"\x01\x01\0", octet_string(NULL))
    for name, data, path, octets in (
        ("a CRL with a UTCTime without seconds", crl(next_update=date), "nextUpdate", date),
        ("a CRL with another", crl(this_update=date), "thisUpdate", date),
        ("a CRL with an entry of such a date", crl(entries=sequence(ENTRY, entry, ENTRY)), "revokedCertificates", entry),
        ("a CRL with a FALSE that is encoded", crl(extensions=(CRL_AKI, false)), "crlExtensions", false),
    ):
        yield name, data, unread(f"tbsCertList.{path}", data.index(octets), "a CRL")
    data = crl(extensions=None, entries=sequence(ENTRY) + b"\0")
    yield "a CRL with an octet behind its entries", data, unended("tbsCertList", data.index(sequence(ENTRY) + b"\0") + len(sequence(ENTRY)), "a CRL")
    attribute = sequence(integer(1), set_of(NULL))
    data = csr(attributes=(attribute,))
    yield "a CSR with an attribute without OID", data, unread("certificationRequestInfo.attributes", data.index(context(0, attribute)), "a CSR")
    data = sequence(sequence(integer(0), SUBJECT, KEY, context(0), NULL), ECDSA_SHA256, SIGNATURE)
    yield "a CSR with an element behind its attributes", data, unended("certificationRequestInfo", data.index(context(0) + NULL) + len(context(0)), "a CSR")
    data = sequence(sequence(integer(0), SUBJECT, KEY, context(0)), ECDSA_SHA256, octet_string(SIGNATURE))
    yield "a CSR with a signature that is no BIT STRING", data, unread("signature", len(data) - len(octet_string(SIGNATURE)), "a CSR")


def ended_by(part, path, count=1):
    """A certificate of a signed part that ends with so many octets that don't belong to it, and what is told of it."""
    data = sequence(part, ECDSA_SHA256, SIGNATURE)
    return data, unended(path, data.index(part) + len(part) - count)


def refused(program):
    """For each run over what is no object a name, whether it ended as stated, and how it ended."""
    odd = certificate(serial=integer(0))
    for name, data, told in (
        ("an octet", b"\x30", UNFINISHED),
        ("hex of an odd length", odd.hex()[:-1].encode(), NO_ELEMENT),
        ("an octet too few", odd[:-1], UNFINISHED),
        ("an octet too many", odd + b"\0", behind(len(odd), 1)),
        ("a line feed behind DER", odd + b"\n", behind(len(odd), 1)),
        ("an element of another type", octet_string(odd), NO_SEQUENCE),
        *wrong_fields(),
    ):
        found = ended(program, [], data)
        yield name, found == (2, "", f"x509_linter: standard input: {NO_OBJECT}{told}\n"), found
    for name, data, told in (*wrong_fields(), *wrong_lists_and_requests()):
        kind = next(it for it, what in KINDS.items() if what in told)
        found = ended(program, [kind], data)
        yield f"{name}, by its word", found == (2, "", f"x509_linter: standard input: not {KINDS[kind]} in DER, PEM or hex{told}\n"), found
    # what is told without a word is what gets farthest: of a CRL it is the certificate up to its first date
    data = crl(next_update=utc(b"2602020304Z"))
    found = ended(program, [], data)
    told = unread("tbsCertList.nextUpdate", data.index(utc(b"2602020304Z")), "a CRL")
    yield "a CRL with a date without seconds", found == (2, "", f"x509_linter: standard input: {NO_OBJECT}{told}\n"), found
    data = crl(this_update=utc(b"2602020304Z"))
    found = ended(program, [], data)
    told = unread("tbsCertificate.validity", data.index(utc(b"2602020304Z")))
    yield "a CRL with a first date without seconds", found == (2, "", f"x509_linter: standard input: {NO_OBJECT}{told}\n"), found
    for words, option in ((["-v", "-v"], "-v"), (["--json", "--json"], "--json"), (["-v", "--json", "-v"], "-v"), (["--json", "-v", "-v", "--json"], "--json")):
        found = ended(program, words, odd)
        yield f"the words {words}", found == (2, "", twice(option) + USAGE), found
    for words, option in ((["-vv"], "-vv"), (["-v", "-x", "--only=a"], "-x"), (["a\nb", "-a\nb"], "(a word with control characters)")):
        found = ended(program, words, odd)
        yield f"the words {words}", found == (2, "", no_option(option) + USAGE), found
    for kind, data, told in (
        ("certificate", crl(), NO_CERTIFICATE["CRL"]),
        ("certificate", csr(), NO_CERTIFICATE["CSR"]),
        ("crl", csr(), unread("tbsCertList.signature", csr().index(SUBJECT), "a CRL")),
        ("csr", crl(), unread("certificationRequestInfo.version", crl().index(integer(1)), "a CSR")),
        ("csr", anchor(), looks(anchor())),
        ("anchor", csr(), f"{WHOLE}something in it is wrong"),
    ):
        found = ended(program, [kind], data)
        yield f"no {kind}", found == (2, "", f"x509_linter: standard input: not {KINDS[kind]} in DER, PEM or hex{told}\n"), found


# what certificate() breaks of the Baseline Requirements, with the sections, and the day from which on each is in force
WEB_LINES = (
    ("error subject_alt_name_absent (TLS BR 7.1.2.7.12)", ""),
    ("warning common_name_present (TLS BR 7.1.2.7)", "2023-09-15"),
    ("error certificate_policies_absent (TLS BR 7.1.2.7.9)", ""),
    ("error extended_key_usage_absent (TLS BR 7.1.2.7.10)", ""),
)


def at_moments(program):
    """For each run with `--web` over words and files a name, whether it ended as stated, and how it ended."""
    data, moment, usage = certificate(), "2026-03-15T00:00:00Z", (2, "", USAGE)
    found = ended(program, ["--help"])
    yield "help that has --web", WEB_HELP in found[1], found
    status, line, said = ended(program, ["--web", moment], data)
    yield "a certificate with --web", (status, said) == (1, "") and set(unseen(line).splitlines()) >= {f"certificate: {it}" for it, _ in WEB_LINES}, line
    status, early, said = ended(program, ["--web", "2023-09-14T23:59:59Z"], data)
    wanted = {f"certificate: {it}" for it, day in WEB_LINES if not day}
    unwanted = {f"certificate: {it}" for it, day in WEB_LINES if day}
    rules = set(unseen(early).splitlines())
    yield "an early moment", (status, said) == (1, "") and wanted <= rules and not unwanted & rules, early
    for name, words, given in (
        ("--web behind the moment", [moment, "--web"], data),
        ("--web and --", ["--web", "--", moment, "-"], data),
        ("--web and hex", ["--web", moment], data.hex().encode()),
        ("--web and -v", ["--web", "-v", moment], data),
        ("-v and --web", ["-v", moment, "--web"], data),
    ):
        found = ended(program, words, given)
        yield name, found == (1, line, ""), found
    for name, words in (("a date with --web", ["--web", "2026-03-15"]), ("a date, --web and a choice", ["2026-03-15", "--only", "a", "--web"])):
        words = [it if it != "a" else "subject_alt_name_absent" for it in words]
        found = ended(program, words, data)
        wanted = line if "--only" not in words else "certificate: error subject_alt_name_absent (TLS BR 7.1.2.7.12)\n"
        yield name, found == (1, wanted, ""), found
    found = ended(program, ["--web", "2023-09-14"], data)
    yield "an early date", found == (1, early, ""), found
    found = ended(program, ["--web", "2026-02-29"], data)
    refusal = "x509_linter: not a moment, as 2026-03-15T00:00:00Z is one: 2026-02-29T00:00:00Z\n"
    yield "a date that isn't one", found == (*usage[:2], refusal + usage[2]), found
    for text in (
        "2026-03-15T00:00:00",
        "2026-02-29T00:00:00Z",
        "2026-03-15T24:00:00Z",
        "1969-12-31T23:59:59Z",
        "2026-03-15t00:00:00z",
        "certificate",
        "notBefore",
        "",
    ):
        found = ended(program, ["--web", text], data)
        refusal = f"x509_linter: not a moment, as 2026-03-15T00:00:00Z is one: {text}\n"
        yield f"the moment `{text}`", found == (*usage[:2], refusal + usage[2]), found
    found = ended(program, ["--web", "a\nb"], data)
    refusal = "x509_linter: not a moment, as 2026-03-15T00:00:00Z is one: (a word with control characters)\n"
    yield "a moment that could end a line", found == (*usage[:2], refusal + usage[2]), found
    for words in (["--web"], ["--web", "-v"]):
        found = ended(program, words, data)
        yield f"the words {words}", found == (*usage[:2], "x509_linter: --web stands without a moment\n" + usage[2]), found
    for words, option in ((["--web", "--web", moment], "--web"), (["--web", "-v", "-v", moment], "-v"), (["--json", "--web", moment, "--json"], "--json")):
        found = ended(program, words, data)
        yield f"the words {words}", found == (*usage[:2], twice(option) + usage[2]), found
    for words, option in ((["--web", "-x", moment], "-x"), (["--web=" + moment], "--web=" + moment)):
        found = ended(program, words, data)
        yield f"the words {words}", found == (*usage[:2], no_option(option) + usage[2]), found
    for name, other in (("CRL", crl()), ("CSR", csr()), ("trust anchor", anchor())):
        found = ended(program, ["--web", moment], other)
        yield f"a {name} with --web", found == (2, "", f"x509_linter: standard input: not a certificate in DER, PEM or hex{NO_CERTIFICATE[name]}\n"), found
    with tempfile.TemporaryDirectory() as folder:
        paths = [f"{folder}/{at}" for at in range(2)]
        for path in paths:
            pathlib.Path(path).write_bytes(data)
        found = ended(program, ["--web", moment, *paths])
        yield "several files with --web", found == (1, "".join(f"{path}:\n{line}" for path in paths), ""), found
        place = "tbsCertificate.extensions.subjectAltName"
        finding = "certificate", "subject_alt_name_absent", "error", "TLS BR 7.1.2.7.12", place
        status, text, said = ended(program, ["--json", moment, *paths, "--web"])
        lines = text.splitlines(keepends=True)
        yield "several files with --web and --json", (status, said) == (1, "") and all(told(path, *finding, seen_as="nothing") in lines for path in paths), text


def at_not_before(program):
    """For each run with `--web not-before` a name, whether it ended as stated, and how it ended."""
    rule, line = "common_name_present", "certificate: warning common_name_present (TLS BR 7.1.2.7)\n"
    early, late = (certificate(dates=sequence(begin, utc(b"240102030405Z"))) for begin in (utc(b"230914235959Z"), utc(b"230915000000Z")))
    general_late = certificate(dates=sequence(general(b"20230915000000Z"), utc(b"240102030405Z")))
    only = ["--only", rule]
    for name, words, data, wanted in (
        ("the second before a rule is in force", ["--web", *only, "not-before"], early, (0, "", "")),
        ("the second at which a rule is in force", ["--web", *only, "not-before"], late, (0, line, "")),
        ("that second as a GeneralizedTime", ["--web", *only, "not-before"], general_late, (0, line, "")),
        ("--web behind not-before", ["not-before", "-", "--web", *only], late, (0, line, "")),
        ("--web, -v and not-before", ["--web", "-v", *only, "not-before"], early, (0, "nothing found\n", "")),
        ("--web, --count and not-before", ["--web", "--count", *only, "not-before"], late, (0, f"1 {line}", "")),
        ("--web, --level and not-before", ["--web", "--level", "warning", *only, "not-before"], late, (1, line, "")),
    ):
        found = ended_unseen(program, words, data)
        yield name, found == wanted, f"{found}, and not {wanted}"
    status, text, said = ended(program, ["--web", "not-before"], certificate())
    yield "all rules with not-before", (status, said) == (1, "") and set(unseen(text).splitlines()) >= {f"certificate: {it}" for it, _ in WEB_LINES}, text
    for name, other in (("CRL", crl()), ("CSR", csr()), ("trust anchor", anchor())):
        found = ended(program, ["--web", "not-before"], other)
        wanted = (2, "", f"x509_linter: standard input: not a certificate in DER, PEM or hex{NO_CERTIFICATE[name]}\n")
        yield f"a {name} with not-before", found == wanted, found
    with tempfile.TemporaryDirectory() as folder:
        paths = [f"{folder}/{at}" for at in range(3)]
        for path, data in zip(paths, (late, early, general_late)):
            pathlib.Path(path).write_bytes(data)
        found = ended(program, ["--web", *only, "not-before", *paths])
        found = (found[0], unseen(found[1]), found[2])
        yield "several files with not-before", found == (0, f"{paths[0]}:\n{line}{paths[2]}:\n{line}", ""), found
        status, text, said = ended(program, ["--web", "--json", *only, "not-before", *paths])
        names = [(it["file"], it["rule"], it["severity"], it["section"]) for it in map(json.loads, text.splitlines())]
        wanted = [(path, rule, "warning", "TLS BR 7.1.2.7") for path in (paths[0], paths[2])]
        yield "several files with --json and not-before", (status, names, said) == (0, wanted, ""), text
        found = ended(program, ["--web", *only, "not-before", paths[0], "not-before"])
        found = (found[0], unseen(found[1]), found[2])
        said = "x509_linter: not-before: no such file\n"
        yield "a file of that name", found == (2, f"{paths[0]}:\n{line}", said), found


def by_both(program):
    """For each run with `--web` and `--rfc` a name, whether it ended as stated, and how it ended."""
    odd, moment = certificate(serial=integer(0)), "2026-03-15"
    serial, alt, name = "serial_number_not_positive", "subject_alt_name_absent", "common_name_present"
    bad, absent = f"certificate: error {serial} (RFC 5280 4.1.2.2)\n", f"certificate: error {alt} (TLS BR 7.1.2.7.12)\n"
    weak = f"certificate: warning {name} (TLS BR 7.1.2.7)\n"
    three = ["--only", name, "--only", alt, "--only", serial]
    number = told("standard input", "certificate", serial, "error", "RFC 5280 4.1.2.2", "tbsCertificate.serialNumber", "00")
    no_names = told("standard input", "certificate", alt, "error", "TLS BR 7.1.2.7.12", "tbsCertificate.extensions.subjectAltName", seen_as="nothing")
    for words, data, wanted in (
        (["--web", "--rfc", *three, moment], odd, (1, bad + absent + weak)),
        (["--rfc", "--web", *three, moment, "-"], odd, (1, bad + absent + weak)),
        ([*three, moment, "--rfc", "-v", "--web"], odd, (1, bad + absent + weak)),
        (["--web", "--rfc", *three, "not-before"], odd, (1, bad + absent + weak)),
        (["--web", "--rfc", *three, "2023-09-14"], odd, (1, bad + absent)),
        (["--web", "--rfc", *three, moment], certificate(), (1, absent + weak)),
        (["--web", "--rfc", "--only", serial, moment], odd, (1, bad)),
        (["--web", "--rfc", "--only", alt, moment], odd, (1, absent)),
        (["--web", "--rfc", "--only", name, moment], odd, (0, weak)),
        (["--web", "--rfc", *three, "--without", alt, "--without", serial, moment], odd, (0, weak)),
        (["--web", "--rfc", "--level", "warning", "--only", name, moment], odd, (1, weak)),
        (["--web", "--rfc", "--count", *three, moment], odd, (1, f"1 {bad}1 {absent}1 {weak}")),
        (["--web", "--rfc", "--json", "--only", alt, "--only", serial, moment], odd, (1, number + no_names)),
        (["-v", "--json", "--rfc", "--web", "--only", alt, "--only", serial, moment], odd, (1, number + no_names)),
        (["-v", "--json", "--rfc", "--web", "--only", serial, moment], certificate(), (0, result("standard input", "nothing found"))),
        (["--web", "--rfc", "-v", "--only", serial, moment], certificate(), (0, "nothing found\n")),
        (["--web", "--rfc", "-v", "--only", "signature_of_sha1", moment], certificate(), (0, "nothing found\n")),
        (["--web", "--rfc", "-v", "--only", "crl_number_absent", moment], certificate(), (0, "no rule applies\n")),
    ):
        found = ended_unseen(program, words, data)
        yield f"the words {words}", found == (*wanted, ""), f"{found}, and not {wanted}"
    status, text, said = ended(program, ["--web", "--rfc", moment], odd)
    is_so = text.startswith(bad) and set(unseen(text).splitlines()[1:]) >= {f"certificate: {it}" for it, _ in WEB_LINES} and text.count("(RFC ") == 1
    yield "all rules of both", (status, said) == (1, "") and is_so, text
    for kind, other in (("CRL", crl()), ("CSR", csr()), ("trust anchor", anchor())):
        found = ended(program, ["--web", "--rfc", moment], other)
        wanted = (2, "", f"x509_linter: standard input: not a certificate in DER, PEM or hex{NO_CERTIFICATE[kind]}\n")
        yield f"a {kind} by both", found == wanted, found
    with tempfile.TemporaryDirectory() as folder:
        paths = [f"{folder}/{at}" for at in range(3)]
        for path, data in zip(paths, (odd, certificate(), crl())):
            pathlib.Path(path).write_bytes(data)
        found = ended(program, ["--web", "--rfc", "--only", alt, "--only", serial, moment, *paths])
        text, said = f"{paths[0]}:\n{bad}{absent}{paths[1]}:\n{absent}", f"x509_linter: {paths[2]}: not a certificate in DER, PEM or hex{NO_CERTIFICATE['CRL']}\n"
        yield "several files by both", found == (2, text, said), found
    for words, what in (
        (["--rfc"], "--rfc stands without --web"),
        (["--rfc", "-v"], "--rfc stands without --web"),
        (["--rfc", "--rfc"], "--rfc stands without --web"),
        (["certificate", "--rfc", "--only", serial], "--rfc stands without --web"),
        (["--rfc", "--count", "--json"], "--count prints no JSON"),
        (["--web", "--rfc", "--count", "--json", moment], "--count prints no JSON"),
        (["--web", "--rfc", "--rfc", moment], "stands twice: --rfc"),
        (["--rfc", "--web", "--web", "--rfc", moment], "stands twice: --rfc"),
        (["--web", "--rfc"], "--web stands without a moment"),
        (["--web", "--rfc", "certificate"], "not a moment, as 2026-03-15T00:00:00Z is one: certificate"),
        (["--web", "--rfc=yes", moment], "no such option: --rfc=yes"),
        (["--web", "--rfc", "--only", "no_rule", moment], "no such rule: --only=no_rule"),
    ):
        found = ended(program, words, odd)
        yield f"the words {words}", found == (2, "", f"x509_linter: {what}\n{USAGE}"), found


def choices(program):
    """For each run with `--only`, `--without` and `--level` a name, whether it ended as stated, and how it ended."""
    found = ended(program, ["--help"])
    yield "help that has the choices", CHOICE_HELP in found[1], found
    # an error and a warning; a warning alone; what isn't judged alone
    both = certificate(serial=integer(0), extensions=(AKI, SKI, ce(15, DIGITAL_SIGNATURE)))
    bad = "certificate: error serial_number_not_positive (RFC 5280 4.1.2.2)\n"
    weak = "certificate: warning key_usage_not_critical (RFC 5280 4.2.1.3)\n"
    warned = certificate(extensions=(AKI, SKI, ce(15, DIGITAL_SIGNATURE)))
    unread = certificate(extensions=(AKI, SKI, CA_KU, ce(19, sequence(TRUE, integer(256)), True)))
    unread_line = f"certificate: {not_judged('path_len_above_255', '4.2.1.9')}\n"
    serial, usage, rule = "serial_number_not_positive", "key_usage_not_critical", "path_len_above_255"
    for words, data, wanted in (
        (["--only", serial], both, (1, bad)),
        (["--only=" + serial], both, (1, bad)),
        (["--only", usage], both, (0, weak)),
        (["--only", usage, "--only", serial], both, (1, bad + weak)),
        (["--only", "serial_number_too_long"], both, (0, "")),
        (["--only", "serial_number_too_long", "-v"], both, (0, "nothing found\n")),
        (["--without", serial], both, (0, weak)),
        (["--without", usage], both, (1, bad)),
        (["--without", usage, "--without=" + serial], both, (0, "")),
        (["--only", serial, "--without", serial], both, (0, "")),
        (["certificate", "--only", serial, "-"], both, (1, bad)),
        (["--only", serial, "certificate"], both, (1, bad)),
        (["--level", "error"], both, (1, bad + weak)),
        (["--level", "error"], warned, (0, weak)),
        (["--level", "warning"], warned, (1, weak)),
        (["--level=notice"], warned, (1, weak)),
        (["--level", "warning", "--without", usage], warned, (0, "")),
        (["--level", "warning", "--level", "error"], warned, (1, weak)),
        (["--level", "warning"], unread, (0, unread_line)),
        (["--level", "notice"], unread, (1, unread_line)),
        (["--level", "notice", "--only", rule], unread, (1, unread_line)),
        (["--level", "notice"], certificate(), (0, "")),
    ):
        found = ended(program, words, data)
        yield f"the words {words}", found == (*wanted, ""), f"{found}, and not {wanted}"
    usage_line = told("standard input", "certificate", usage, "warning", "RFC 5280 4.2.1.3", "tbsCertificate.extensions.keyUsage")
    number = told("standard input", "certificate", serial, "error", "RFC 5280 4.1.2.2", "tbsCertificate.serialNumber", "00")
    for words, wanted in (
        (["--json", "--only", usage], (0, usage_line)),
        (["--json", "--without", usage], (1, number)),
        (["--level", "warning", "--json", "--only", usage], (1, usage_line)),
        (["--json", "--level", "notice"], (1, number + usage_line)),
    ):
        found = ended(program, words, both)
        yield f"the words {words}", found == (*wanted, ""), f"{found}, and not {wanted}"
    status, text, said = ended(program, ["--web", "--only", "common_name_present", "2026-03-15T00:00:00Z"], certificate())
    wanted = (0, 'certificate: warning common_name_present (TLS BR 7.1.2.7)\tname "CN=A subject"\n', "")
    yield "--web and --only", (status, text, said) == wanted, (status, text, said)
    with tempfile.TemporaryDirectory() as folder:
        paths = [f'{folder}/a "quoted" name', f"{folder}/--only", f"{folder}/third"]
        for path, data in zip(paths, (both, both, warned)):
            pathlib.Path(path).write_bytes(data)
        found = ended(program, ["--only", serial, *paths])
        yield "several files with --only", found == (1, "".join(f"{path}:\n{bad}" for path in paths[:2]), ""), found
        found = ended(program, ["--json", "--only", serial, *paths])
        lines = "".join(told(path, "certificate", serial, "error", "RFC 5280 4.1.2.2", "tbsCertificate.serialNumber", "00") for path in paths[:2])
        yield "several files with --only and --json", found == (1, lines, ""), found
        found = ended(program, ["--level", "warning", paths[2], f"{folder}/none"])
        yield "a file that is missing, with --level", found == (2, f"{paths[2]}:\n{weak}", f"x509_linter: {folder}/none: no such file\n"), found
    for words, what in (
        (["--only", "no_rule"], "no such rule: --only=no_rule"),
        (["--without", "Serial_number_not_positive"], "no such rule: --without=Serial_number_not_positive"),
        (["--only="], "no such rule: --only="),
        (["--only", ""], "no such rule: --only="),
        (["--only", serial, "--without", "-v"], "no such rule: --without=-v"),
        (["--web", "--only", "no_rule", "2026-03-15T00:00:00Z"], "no such rule: --only=no_rule"),
        (["--only", "a\nb"], "no such rule: (a word with control characters)"),
        (["--level", "fatal"], "no such level, as error, warning and notice are: --level=fatal"),
        (["--level", "not judged"], "no such level, as error, warning and notice are: --level=not judged"),
        (["--only"], "nothing stands behind --only"),
        (["-v", "--level"], "nothing stands behind --level"),
        (["--only", serial, "--xml"], "no such option: --xml"),
        (["--web", "--only", serial], "--web stands without a moment"),
    ):
        found = ended(program, words, both)
        yield f"the words {words}", found == (2, "", f"x509_linter: {what}\n{USAGE}"), found
    found = ended(program, ["--", "--only", serial], both)
    said = "".join(f"x509_linter: {name}: no such file\n" for name in ("--only", serial))
    yield "names behind --", found == (2, "", said), found
    for words in (["--only", "no_rule", "--help"], ["--only", serial, "--help"]):
        status, text, said = ended(program, words)
        yield f"the words {words}", (status, said) == (0, "") and text.startswith(USAGE), text
    for name in sorted(set().union(*rule_names().values())):
        found = ended(program, ["--only", name], certificate())
        yield f"the rule {name}", found == (0, "", ""), found


def summaries(program):
    """For each run with `--count` a name, whether it ended as stated, and how it ended."""
    odd, weak = certificate(serial=integer(0)), certificate(extensions=(AKI, SKI, ce(15, DIGITAL_SIGNATURE)))
    both = certificate(serial=integer(0), extensions=(AKI, SKI, ce(15, DIGITAL_SIGNATURE)))
    bad, warned = "certificate: error serial_number_not_positive (RFC 5280 4.1.2.2)\n", "certificate: warning key_usage_not_critical (RFC 5280 4.2.1.3)\n"
    serial, usage, moment = "serial_number_not_positive", "key_usage_not_critical", "2026-03-15"
    for words, data, wanted in (
        (["--count"], odd, (1, f"1 {bad}")),
        (["--count"], both, (1, f"1 {bad}1 {warned}")),
        (["--count"], weak, (0, f"1 {warned}")),
        (["--count"], certificate(), (0, "")),
        (["--count", "--count"], odd, (1, f"1 {bad}")),
        (["-v", "--count"], certificate(), (0, "1 nothing found\n")),
        (["--count", "-v"], both, (1, f"1 {bad}1 {warned}")),
        (["--count", "certificate", "-"], both, (1, f"1 {bad}1 {warned}")),
        (["--count", "--level", "warning"], weak, (1, f"1 {warned}")),
        (["--count", "--only", usage], both, (0, f"1 {warned}")),
        (["--count", "--without", usage], both, (1, f"1 {bad}")),
        (["--count", "-v", "--only", serial, "--without", serial], both, (0, "1 no rule applies\n")),
        (["--web", "--count", "--only", "common_name_present", moment], certificate(), (0, "1 certificate: warning common_name_present (TLS BR 7.1.2.7)\n")),
    ):
        found = ended(program, words, data)
        yield f"the words {words}", found == (*wanted, ""), f"{found}, and not {wanted}"
    with tempfile.TemporaryDirectory() as folder:
        paths = [f"{folder}/{at}" for at in range(5)]
        chain = b"".join(next(pem_of(data)) for data in (weak, odd, certificate())) + PEM_OF_NOTHING
        for path, data in zip(paths, (weak, both, certificate(), chain, b"")):
            pathlib.Path(path).write_bytes(data)
        said = f"x509_linter: {paths[3]}, object 4: {NO_OBJECT}{NOTHING}\nx509_linter: {paths[4]}: {NO_OBJECT}; it is empty\n"
        found = ended(program, ["--count", *paths])
        yield "several files with --count", found == (2, f"3 {warned}2 {bad}", said), found
        found = ended(program, ["--count", "-v", *paths])
        yield "several files with --count and -v", found == (2, f"3 {warned}2 {bad}2 nothing found\n", said), found
        found = ended(program, ["--count", "--only", usage, *paths[:3]])
        yield "several files with --count and --only", found == (0, f"2 {warned}", ""), found
        many = [paths[1]] * 1200
        found = ended(program, ["--count", *many])
        yield "many files with --count", found == (1, f"1200 {bad}1200 {warned}", ""), found
    for words in (["--count", "--json"], ["-v", "--json", "--count"], ["--web", "--json", "--count", moment], ["--count", "--only", serial, "--json"]):
        found = ended(program, words, odd)
        yield f"the words {words}", found == (2, "", f"x509_linter: --count prints no JSON\n{USAGE}"), found
    for words, option in ((["--count", "--xml"], "--xml"), (["--count=1"], "--count=1"), (["--counts"], "--counts")):
        found = ended(program, words, odd)
        yield f"the words {words}", found == (2, "", no_option(option) + USAGE), found
    with open("/dev/full", "wb") as full:
        found = ended(program, ["--count"], odd, stdout=full)
        yield "a full output, with --count", found == (2, "", "x509_linter: the output can't be written\n"), found


def alike(program):
    """The runs that the programs over objects have to end alike, and those over several files with `-v`."""
    odd, line = certificate(serial=integer(0)), "certificate: error serial_number_not_positive (RFC 5280 4.1.2.2)\n"
    objects = [(certificate(), "", 0), (odd, line, 1), (crl(), "", 0), (csr(), "", 0), (anchor(), "", 0)]
    yield from refused(program)
    yield from at_moments(program)
    yield from at_not_before(program)
    yield from by_both(program)
    yield from choices(program)
    yield from verbose_json(program)
    yield from in_directories(program)
    yield from no_rule(program)
    yield from summaries(program)
    yield from Program(program, USAGE, NO_OBJECT, objects, no_option).checked()
    with tempfile.TemporaryDirectory() as folder:
        paths = [f"{folder}/{at}" for at in range(5)]
        for path, (data, _, _) in zip(paths, objects):
            pathlib.Path(path).write_bytes(data)
        found = ended(program, [paths[0], "-v", *paths[1:]])
        text = f"{paths[0]}:\nnothing found\n{paths[1]}:\n{line}" + "".join(f"{path}:\nnothing found\n" for path in paths[2:])
        yield "several files with -v", found == (1, text, ""), found
        quoted = f'{folder}/a "quoted" \\ name'
        pathlib.Path(quoted).write_bytes(odd)
        found = ended(program, ["--json", paths[1], quoted, paths[2]])
        rule = "certificate", "serial_number_not_positive", "error", "RFC 5280 4.1.2.2", "tbsCertificate.serialNumber", "00"
        yield "several files with --json", found == (1, told(paths[1], *rule) + told(quoted, *rule), ""), found


def checked(program, folder):
    """For each run a name, whether it ended as stated, and how it ended."""
    for name, words, data, printed, status in runs():
        end = ended if "\t" in printed or "--web" not in words else ended_unseen
        found, wanted = end(program, words, data), (status, printed, "")
        yield name, found == wanted, f"{found}, and not {wanted}"
        if folder:
            folder.mkdir(parents=True, exist_ok=True)
            (folder / f"{name.replace(' ', '_')}.der").write_bytes(data)
    yield from alike(program)


if __name__ == "__main__":
    parser = argparse.ArgumentParser(description=__doc__, formatter_class=argparse.RawDescriptionHelpFormatter)
    parser.add_argument("program", metavar="PROGRAM", help="the program, as crates/x509_linter/out/x509_linter")
    parser.add_argument("--write", metavar="FOLDER", type=pathlib.Path, help="where the inputs are written")
    given = parser.parse_args()
    sys.exit(counted("x509_linter", checked(given.program, given.write)))
