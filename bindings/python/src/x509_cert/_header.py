# Made by tools/build/make_bindings.py of include/x509.h, and not changed by hand.
"""The numbers, the structs and the calls of the C library, by `ctypes`."""

from __future__ import annotations

from ctypes import POINTER, Array, Structure, c_char_p, c_int, c_int32, c_size_t, c_uint8, c_uint32, c_uint64
from typing import Any

from ._part import Part

OK = 0
MEMORY = -1
ROOM = -2
OVERLENGTH = 1
MALFORMED = 2
FAILED = 3
SET_DUPLICATE = 4
VALUE = 5
ABSENT = 6
REPEATED = 7
FAULT = 8
LIMIT = 9
RFC5280 = 0
RAW = 1
KEY_USAGE_DIGITAL_SIGNATURE = 0x001
KEY_USAGE_NON_REPUDIATION = 0x002
KEY_USAGE_KEY_ENCIPHERMENT = 0x004
KEY_USAGE_DATA_ENCIPHERMENT = 0x008
KEY_USAGE_KEY_AGREEMENT = 0x010
KEY_USAGE_KEY_CERT_SIGN = 0x020
KEY_USAGE_CRL_SIGN = 0x040
KEY_USAGE_ENCIPHER_ONLY = 0x080
KEY_USAGE_DECIPHER_ONLY = 0x100
GENERAL_NAME_OTHER = 0
GENERAL_NAME_EMAIL = 1
GENERAL_NAME_DNS = 2
GENERAL_NAME_DIRECTORY = 4
GENERAL_NAME_EDI_PARTY = 5
GENERAL_NAME_URI = 6
GENERAL_NAME_IP = 7
GENERAL_NAME_REGISTERED_ID = 8
REASONS_UNUSED = 0x001
REASONS_KEY_COMPROMISE = 0x002
REASONS_CA_COMPROMISE = 0x004
REASONS_AFFILIATION_CHANGED = 0x008
REASONS_SUPERSEDED = 0x010
REASONS_CESSATION_OF_OPERATION = 0x020
REASONS_CERTIFICATE_HOLD = 0x040
REASONS_PRIVILEGE_WITHDRAWN = 0x080
REASONS_AA_COMPROMISE = 0x100
NOT_YET_VALID = 1
EXPIRED = 2
PATH_DECODE = 1
PATH_ALGORITHM = 2
PATH_ISSUER = 3
PATH_MOMENT = 4
PATH_SIGNATURE = 5
PATH_REPEATED = 6
PATH_CRITICAL = 7
PATH_NOT_CA = 8
PATH_KEY_USAGE = 9
PATH_PATH_LEN = 10
PATH_EXTENSION = 11
PATH_NAMES = 12
PATH_CONSTRAINTS = 13
PATH_REPEATED_POLICY = 14
PATH_POLICY = 15
PATH_POLICY_MAPPING = 16
PATH_PURPOSE = 17
PATH_USAGE = 18
PATH_VERSION = 19
PATH_EXPLICIT_POLICY = 1
PATH_INHIBIT_POLICY_MAPPING = 2
PATH_INHIBIT_ANY_POLICY = 4
PATH_UNCHAINED = 8
PATH_VERSION_1_AUTHORITIES = 16
PATH_CONSTRAIN_COMMON_NAMES = 32
PURPOSE_SERVER_AUTH = 1
PURPOSE_CLIENT_AUTH = 2
PURPOSE_CODE_SIGNING = 4
PURPOSE_EMAIL_PROTECTION = 8
PURPOSE_TIME_STAMPING = 16
PURPOSE_OCSP_SIGNING = 32
REVOCATION_WITHOUT_NEXT_UPDATE = 1
REVOCATION_USE_DELTAS = 2
UNDETERMINED = 0
UNREVOKED = 1
REVOKED = 2
CRL_WITHOUT_FAULT = 0
CRL_NOT_YET_VALID = 1
CRL_EXPIRED = 2
CRL_CRITICAL = 3
CRL_ALGORITHM = 4
CRL_DELTA = 5
CRL_ISSUING_POINT = 6
CRL_ISSUER = 7
CRL_SCOPE = 8
CRL_POINT = 9
CRL_SIGNER = 10
CRL_SIGNATURE = 11
CRL_ENTRY = 12
CRL_REPLACED = 13
KEY_OTHER = 0
KEY_RSA = 1
KEY_RSA_PSS = 2
KEY_DSA = 3
KEY_EC_P256 = 4
KEY_EC_P384 = 5
KEY_EC_P521 = 6
KEY_EC_OTHER = 7
KEY_ED25519 = 8
KEY_ED448 = 9
KEY_X25519 = 10
KEY_X448 = 11
SIGNATURE_OTHER = 0
SIGNATURE_RSA_SHA1 = 1
SIGNATURE_RSA_SHA224 = 2
SIGNATURE_RSA_SHA256 = 3
SIGNATURE_RSA_SHA384 = 4
SIGNATURE_RSA_SHA512 = 5
SIGNATURE_RSA_PSS = 6
SIGNATURE_DSA_SHA1 = 7
SIGNATURE_DSA_SHA224 = 8
SIGNATURE_DSA_SHA256 = 9
SIGNATURE_ECDSA_SHA1 = 10
SIGNATURE_ECDSA_SHA224 = 11
SIGNATURE_ECDSA_SHA256 = 12
SIGNATURE_ECDSA_SHA384 = 13
SIGNATURE_ECDSA_SHA512 = 14
SIGNATURE_ED25519 = 15
SIGNATURE_ED448 = 16
ANCHOR_CERTIFICATE = 0
ANCHOR_TBS_CERTIFICATE = 1
ANCHOR_INFO = 2
POLICY_FLAGS_INHIBIT_POLICY_MAPPING = 1
POLICY_FLAGS_REQUIRE_EXPLICIT_POLICY = 2
POLICY_FLAGS_INHIBIT_ANY_POLICY = 4


class Span(Part):
    place: int
    len: int

    _fields_ = [("place", c_size_t), ("len", c_size_t)]


class CertificateView(Structure):
    version: int
    serial_number: Span
    issuer: Span
    subject: Span
    subject_public_key_info: Span
    extensions: Span
    not_before: int
    not_after: int
    inner_algorithm: Span
    issuer_unique_id: Span
    issuer_unused_bits: int
    subject_unique_id: Span
    subject_unused_bits: int

    _fields_ = [
        ("version", c_uint32),
        ("serial_number", Span),
        ("issuer", Span),
        ("subject", Span),
        ("subject_public_key_info", Span),
        ("extensions", Span),
        ("not_before", c_uint64),
        ("not_after", c_uint64),
        ("inner_algorithm", Span),
        ("issuer_unique_id", Span),
        ("issuer_unused_bits", c_uint32),
        ("subject_unique_id", Span),
        ("subject_unused_bits", c_uint32),
    ]


class ExtensionView(Structure):
    critical: int
    value: Span

    _fields_ = [("critical", c_uint32), ("value", Span)]


class ExtensionEntryView(Structure):
    oid: Span
    critical: int
    value: Span

    _fields_ = [("oid", Span), ("critical", c_uint32), ("value", Span)]


class BasicConstraintsView(Structure):
    ca: int
    has_path_len: int
    path_len: int

    _fields_ = [("ca", c_uint32), ("has_path_len", c_uint32), ("path_len", c_uint32)]


class PrivateKeyUsagePeriodView(Structure):
    has_not_before: int
    not_before: int
    has_not_after: int
    not_after: int

    _fields_ = [("has_not_before", c_uint32), ("not_before", c_uint64), ("has_not_after", c_uint32), ("not_after", c_uint64)]


class GeneralNameView(Structure):
    kind: int
    element: Span
    content: Span
    type_id: Span
    value: Span
    name_assigner: Span
    party_name: Span

    _fields_ = [("kind", c_uint32), ("element", Span), ("content", Span), ("type_id", Span), ("value", Span), ("name_assigner", Span), ("party_name", Span)]


class AuthorityKeyIdentifierView(Structure):
    key_identifier: Span
    issuer: Span
    serial_number: Span

    _fields_ = [("key_identifier", Span), ("issuer", Span), ("serial_number", Span)]


class AccessView(Structure):
    method: Span
    location: GeneralNameView

    _fields_ = [("method", Span), ("location", GeneralNameView)]


class PolicyView(Structure):
    identifier: Span
    qualifiers: Span

    _fields_ = [("identifier", Span), ("qualifiers", Span)]


class PolicyQualifierView(Structure):
    identifier: Span
    qualifier: Span

    _fields_ = [("identifier", Span), ("qualifier", Span)]


class UserNoticeView(Structure):
    organization: Span
    notice_numbers: Span
    explicit_text: Span

    _fields_ = [("organization", Span), ("notice_numbers", Span), ("explicit_text", Span)]


class PolicyMappingView(Structure):
    issuer_policy: Span
    subject_policy: Span

    _fields_ = [("issuer_policy", Span), ("subject_policy", Span)]


class PolicyConstraintsView(Structure):
    has_require_explicit_policy: int
    require_explicit_policy: int
    has_inhibit_policy_mapping: int
    inhibit_policy_mapping: int

    _fields_ = [
        ("has_require_explicit_policy", c_uint32),
        ("require_explicit_policy", c_uint32),
        ("has_inhibit_policy_mapping", c_uint32),
        ("inhibit_policy_mapping", c_uint32),
    ]


class DistributionPointView(Structure):
    full_name: Span
    relative_name: Span
    has_reasons: int
    reasons: int
    crl_issuer: Span

    _fields_ = [("full_name", Span), ("relative_name", Span), ("has_reasons", c_uint32), ("reasons", c_uint32), ("crl_issuer", Span)]


class IssuingDistributionPointView(Structure):
    full_name: Span
    relative_name: Span
    only_contains_user_certs: int
    only_contains_ca_certs: int
    has_only_some_reasons: int
    only_some_reasons: int
    indirect_crl: int
    only_contains_attribute_certs: int

    _fields_ = [
        ("full_name", Span),
        ("relative_name", Span),
        ("only_contains_user_certs", c_uint32),
        ("only_contains_ca_certs", c_uint32),
        ("has_only_some_reasons", c_uint32),
        ("only_some_reasons", c_uint32),
        ("indirect_crl", c_uint32),
        ("only_contains_attribute_certs", c_uint32),
    ]


class NameConstraintsView(Structure):
    permitted: Span
    excluded: Span

    _fields_ = [("permitted", Span), ("excluded", Span)]


class SubtreeView(Structure):
    base: GeneralNameView
    minimum: int
    has_maximum: int
    maximum: int

    _fields_ = [("base", GeneralNameView), ("minimum", c_uint32), ("has_maximum", c_uint32), ("maximum", c_uint32)]


class AttributeView(Structure):
    oid: Span
    tag: int
    element: Span
    content: Span

    _fields_ = [("oid", Span), ("tag", c_uint32), ("element", Span), ("content", Span)]


class ServerNameView(Structure):
    name_len: int
    address_len: int
    address: Array[c_uint8]

    _fields_ = [("name_len", c_size_t), ("address_len", c_uint32), ("address", c_uint8 * 16)]


class EmailAddressView(Structure):
    local: Span
    host: Span

    _fields_ = [("local", Span), ("host", Span)]


class SignatureView(Structure):
    signed_part: Span
    algorithm: Span
    bits: Span
    unused_bits: int

    _fields_ = [("signed_part", Span), ("algorithm", Span), ("bits", Span), ("unused_bits", c_uint32)]


class PathFaultView(Structure):
    place: int
    reason: int

    _fields_ = [("place", c_size_t), ("reason", c_uint32)]


class PathSettingsView(Structure):
    moment: int
    flags: int
    key_usage: int
    purposes: int
    purpose_len: int
    purpose: Array[c_uint8]

    _fields_ = [
        ("moment", c_uint64), ("flags", c_uint64), ("key_usage", c_uint64), ("purposes", c_uint64), ("purpose_len", c_uint64), ("purpose", c_uint8 * 64)
    ]


class PathAnswerView(Structure):
    place: int
    reason: int
    name: Span
    key: Span
    policies_len: int

    _fields_ = [("place", c_size_t), ("reason", c_uint32), ("name", Span), ("key", Span), ("policies_len", c_size_t)]


class PathCertificateView(Structure):
    view: CertificateView
    signature: SignatureView

    _fields_ = [("view", CertificateView), ("signature", SignatureView)]


class BadLinkView(Structure):
    certificate: Span
    key: Span

    _fields_ = [("certificate", Span), ("key", Span)]


class FoundPathView(Structure):
    anchor: int
    count: int
    place: int
    reason: int

    _fields_ = [("anchor", c_size_t), ("count", c_size_t), ("place", c_size_t), ("reason", c_uint32)]


class RevocationView(Structure):
    date: int
    reason: int

    _fields_ = [("date", c_uint64), ("reason", c_int32)]


class CrlView(Structure):
    version: int
    inner_algorithm: Span
    issuer: Span
    this_update: int
    has_next_update: int
    next_update: int
    entries: Span
    extensions: Span
    signature: SignatureView

    _fields_ = [
        ("version", c_uint32),
        ("inner_algorithm", Span),
        ("issuer", Span),
        ("this_update", c_uint64),
        ("has_next_update", c_uint32),
        ("next_update", c_uint64),
        ("entries", Span),
        ("extensions", Span),
        ("signature", SignatureView),
    ]


class CrlEntryView(Structure):
    serial_number: Span
    date: int
    extensions: Span

    _fields_ = [("serial_number", Span), ("date", c_uint64), ("extensions", Span)]


class SignedCrlView(Structure):
    crl: Span
    name: Span
    key: Span
    verified: int

    _fields_ = [("crl", Span), ("name", Span), ("key", Span), ("verified", c_uint32)]


class RevocationSettingsView(Structure):
    moment: int
    flags: int

    _fields_ = [("moment", c_uint64), ("flags", c_uint64)]


class RevocationAnswerView(Structure):
    status: int
    reason: int
    crl: int
    date: int
    reasons: int

    _fields_ = [("status", c_uint32), ("reason", c_uint32), ("crl", c_size_t), ("date", c_uint64), ("reasons", c_uint32)]


class RequestView(Structure):
    version: int
    subject: Span
    subject_public_key_info: Span
    attributes: Span
    signature: SignatureView

    _fields_ = [("version", c_uint32), ("subject", Span), ("subject_public_key_info", Span), ("attributes", Span), ("signature", SignatureView)]


class RequestAttributeView(Structure):
    oid: Span
    values: Span

    _fields_ = [("oid", Span), ("values", Span)]


class ElementView(Structure):
    tag: int
    element: Span
    content: Span

    _fields_ = [("tag", c_uint32), ("element", Span), ("content", Span)]


class KeyView(Structure):
    kind: int
    oid: Span
    parameters: Span
    bits: Span
    unused_bits: int
    curve: Span
    size: int

    _fields_ = [("kind", c_uint32), ("oid", Span), ("parameters", Span), ("bits", Span), ("unused_bits", c_uint32), ("curve", Span), ("size", c_uint32)]


class RsaKeyView(Structure):
    modulus: Span
    public_exponent: Span
    modulus_bits: int

    _fields_ = [("modulus", Span), ("public_exponent", Span), ("modulus_bits", c_uint32)]


class AlgorithmView(Structure):
    kind: int
    oid: Span
    parameters: Span

    _fields_ = [("kind", c_uint32), ("oid", Span), ("parameters", Span)]


class AnchorView(Structure):
    kind: int
    element: Span
    name: Span
    subject_public_key_info: Span
    extensions: Span
    key_identifier: Span
    title: Span
    title_language: Span
    controls: Span

    _fields_ = [
        ("kind", c_uint32),
        ("element", Span),
        ("name", Span),
        ("subject_public_key_info", Span),
        ("extensions", Span),
        ("key_identifier", Span),
        ("title", Span),
        ("title_language", Span),
        ("controls", Span),
    ]


class PathControlsView(Structure):
    name: Span
    certificate: Span
    policies: Span
    has_policy_flags: int
    policy_flags: int
    permitted: Span
    excluded: Span
    has_path_len: int
    path_len: int

    _fields_ = [
        ("name", Span),
        ("certificate", Span),
        ("policies", Span),
        ("has_policy_flags", c_uint32),
        ("policy_flags", c_uint32),
        ("permitted", Span),
        ("excluded", Span),
        ("has_path_len", c_uint32),
        ("path_len", c_uint32),
    ]


class FindingView(Structure):
    object: Span
    rule: Span
    severity: Span
    section: Span
    place: Span
    seen: Span

    _fields_ = [("object", Span), ("rule", Span), ("severity", Span), ("section", Span), ("place", Span), ("seen", Span)]


class TimestampView(Structure):
    version: int
    log_id: Span
    timestamp: int
    extensions: Span
    hash: int
    signature_algorithm: int
    signature: Span

    _fields_ = [
        ("version", c_uint32),
        ("log_id", Span),
        ("timestamp", c_uint64),
        ("extensions", Span),
        ("hash", c_uint32),
        ("signature_algorithm", c_uint32),
        ("signature", Span),
    ]


class LogLeafView(Structure):
    version: int
    leaf_type: int
    timestamp: int
    entry_type: int
    issuer_key_hash: Span
    certificate: Span
    extensions: Span

    _fields_ = [
        ("version", c_uint32),
        ("leaf_type", c_uint32),
        ("timestamp", c_uint64),
        ("entry_type", c_uint32),
        ("issuer_key_hash", Span),
        ("certificate", Span),
        ("extensions", Span),
    ]


class LogPrecertificateView(Structure):
    precertificate: Span
    chain: Span

    _fields_ = [("precertificate", Span), ("chain", Span)]


# of each call what it answers, and then what it takes
CALLS: dict[str, list[Any]] = {
    "x509_reencode": [c_int, c_char_p, c_size_t, c_uint32, c_char_p, c_size_t, POINTER(c_uint8), c_size_t, POINTER(c_size_t)],
    "x509_certificate_check": [c_int, c_char_p, c_size_t],
    "x509_crl_check": [c_int, c_char_p, c_size_t],
    "x509_request_check": [c_int, c_char_p, c_size_t],
    "x509_certificate_reencode": [c_int, c_char_p, c_size_t, POINTER(c_uint8), c_size_t, POINTER(c_size_t)],
    "x509_name_text": [c_int, c_char_p, c_size_t, POINTER(c_uint8), c_size_t, POINTER(c_size_t)],
    "x509_name_from_text": [c_int, c_char_p, c_size_t, POINTER(c_uint8), c_size_t, POINTER(c_size_t)],
    "x509_signed_slice": [c_int, c_char_p, c_size_t, POINTER(Span)],
    "x509_certificate_view": [c_int, c_char_p, c_size_t, POINTER(CertificateView)],
    "x509_certificate_extension": [c_int, c_char_p, c_size_t, c_char_p, c_size_t, POINTER(ExtensionView)],
    "x509_extensions_next": [c_int, c_char_p, c_size_t, POINTER(c_size_t), POINTER(ExtensionEntryView)],
    "x509_key_usage": [c_int, c_char_p, c_size_t, POINTER(c_uint32)],
    "x509_basic_constraints": [c_int, c_char_p, c_size_t, POINTER(BasicConstraintsView)],
    "x509_private_key_usage_period": [c_int, c_char_p, c_size_t, POINTER(PrivateKeyUsagePeriodView)],
    "x509_general_names_next": [c_int, c_char_p, c_size_t, POINTER(c_size_t), POINTER(GeneralNameView)],
    "x509_general_names_under_next": [c_int, c_uint32, c_char_p, c_size_t, POINTER(c_size_t), POINTER(GeneralNameView)],
    "x509_extended_key_usage_next": [c_int, c_char_p, c_size_t, POINTER(c_size_t), POINTER(Span)],
    "x509_subject_key_identifier": [c_int, c_char_p, c_size_t, POINTER(Span)],
    "x509_authority_key_identifier": [c_int, c_char_p, c_size_t, POINTER(AuthorityKeyIdentifierView)],
    "x509_access_next": [c_int, c_char_p, c_size_t, POINTER(c_size_t), POINTER(AccessView)],
    "x509_certificate_policies_next": [c_int, c_char_p, c_size_t, POINTER(c_size_t), POINTER(PolicyView)],
    "x509_certificate_policies_under_next": [c_int, c_uint32, c_char_p, c_size_t, POINTER(c_size_t), POINTER(PolicyView)],
    "x509_policy_qualifiers_next": [c_int, c_char_p, c_size_t, POINTER(c_size_t), POINTER(PolicyQualifierView)],
    "x509_user_notice": [c_int, c_char_p, c_size_t, POINTER(UserNoticeView)],
    "x509_numbers_next": [c_int, c_char_p, c_size_t, POINTER(c_size_t), POINTER(Span)],
    "x509_policy_mappings_next": [c_int, c_char_p, c_size_t, POINTER(c_size_t), POINTER(PolicyMappingView)],
    "x509_policy_constraints": [c_int, c_char_p, c_size_t, POINTER(PolicyConstraintsView)],
    "x509_inhibit_any_policy": [c_int, c_char_p, c_size_t, POINTER(c_uint32)],
    "x509_distribution_points_next": [c_int, c_char_p, c_size_t, POINTER(c_size_t), POINTER(DistributionPointView)],
    "x509_issuing_distribution_point": [c_int, c_char_p, c_size_t, POINTER(IssuingDistributionPointView)],
    "x509_crl_number": [c_int, c_char_p, c_size_t, POINTER(Span)],
    "x509_base_crl_number": [c_int, c_char_p, c_size_t, POINTER(Span)],
    "x509_crl_reason": [c_int, c_char_p, c_size_t, POINTER(c_uint32)],
    "x509_invalidity_date": [c_int, c_char_p, c_size_t, POINTER(c_uint64)],
    "x509_name_constraints": [c_int, c_char_p, c_size_t, POINTER(NameConstraintsView)],
    "x509_subtrees_under_next": [c_int, c_uint32, c_char_p, c_size_t, POINTER(c_size_t), POINTER(SubtreeView)],
    "x509_oid_text": [c_int, c_char_p, c_size_t, POINTER(c_uint8), c_size_t, POINTER(c_size_t)],
    "x509_oid_from_text": [c_int, c_char_p, c_size_t, POINTER(c_uint8), c_size_t, POINTER(c_size_t)],
    "x509_basic_constraints_encode": [c_int, POINTER(BasicConstraintsView), POINTER(c_uint8), c_size_t, POINTER(c_size_t)],
    "x509_key_usage_encode": [c_int, c_uint32, POINTER(c_uint8), c_size_t, POINTER(c_size_t)],
    "x509_extended_key_usage_encode": [c_int, c_char_p, c_size_t, POINTER(c_size_t), c_size_t, POINTER(c_uint8), c_size_t, POINTER(c_size_t)],
    "x509_subject_key_identifier_encode": [c_int, c_char_p, c_size_t, POINTER(c_uint8), c_size_t, POINTER(c_size_t)],
    "x509_authority_key_identifier_encode": [
        c_int, c_uint32, c_char_p, c_size_t, c_char_p, c_size_t, c_char_p, c_size_t, POINTER(c_uint8), c_size_t, POINTER(c_size_t)
    ],
    "x509_policy_constraints_encode": [c_int, POINTER(PolicyConstraintsView), POINTER(c_uint8), c_size_t, POINTER(c_size_t)],
    "x509_inhibit_any_policy_encode": [c_int, c_uint32, POINTER(c_uint8), c_size_t, POINTER(c_size_t)],
    "x509_crl_number_encode": [c_int, c_char_p, c_size_t, POINTER(c_uint8), c_size_t, POINTER(c_size_t)],
    "x509_crl_reason_encode": [c_int, c_uint32, POINTER(c_uint8), c_size_t, POINTER(c_size_t)],
    "x509_invalidity_date_encode": [c_int, c_uint64, POINTER(c_uint8), c_size_t, POINTER(c_size_t)],
    "x509_private_key_usage_period_encode": [c_int, POINTER(PrivateKeyUsagePeriodView), POINTER(c_uint8), c_size_t, POINTER(c_size_t)],
    "x509_general_name_encode": [c_int, c_uint32, c_char_p, c_size_t, POINTER(c_uint8), c_size_t, POINTER(c_size_t)],
    "x509_other_name_encode": [c_int, c_char_p, c_size_t, c_char_p, c_size_t, POINTER(c_uint8), c_size_t, POINTER(c_size_t)],
    "x509_general_names_encode": [c_int, c_char_p, c_size_t, POINTER(c_uint8), c_size_t, POINTER(c_size_t)],
    "x509_access_encode": [c_int, c_char_p, c_size_t, c_char_p, c_size_t, POINTER(c_uint8), c_size_t, POINTER(c_size_t)],
    "x509_info_access_encode": [c_int, c_char_p, c_size_t, POINTER(c_uint8), c_size_t, POINTER(c_size_t)],
    "x509_cps_uri_encode": [c_int, c_char_p, c_size_t, POINTER(c_uint8), c_size_t, POINTER(c_size_t)],
    "x509_numbers_encode": [c_int, c_char_p, c_size_t, POINTER(c_size_t), c_size_t, POINTER(c_uint8), c_size_t, POINTER(c_size_t)],
    "x509_user_notice_encode": [c_int, c_char_p, c_size_t, c_char_p, c_size_t, c_char_p, c_size_t, POINTER(c_uint8), c_size_t, POINTER(c_size_t)],
    "x509_policy_qualifier_encode": [c_int, c_char_p, c_size_t, c_char_p, c_size_t, POINTER(c_uint8), c_size_t, POINTER(c_size_t)],
    "x509_policy_encode": [c_int, c_char_p, c_size_t, c_char_p, c_size_t, POINTER(c_uint8), c_size_t, POINTER(c_size_t)],
    "x509_certificate_policies_encode": [c_int, c_char_p, c_size_t, POINTER(c_uint8), c_size_t, POINTER(c_size_t)],
    "x509_policy_mapping_encode": [c_int, c_char_p, c_size_t, c_char_p, c_size_t, POINTER(c_uint8), c_size_t, POINTER(c_size_t)],
    "x509_policy_mappings_encode": [c_int, c_char_p, c_size_t, POINTER(c_uint8), c_size_t, POINTER(c_size_t)],
    "x509_request_attribute_encode": [c_int, c_char_p, c_size_t, c_char_p, c_size_t, POINTER(c_uint8), c_size_t, POINTER(c_size_t)],
    "x509_subject_directory_attributes_encode": [c_int, c_char_p, c_size_t, POINTER(c_uint8), c_size_t, POINTER(c_size_t)],
    "x509_timestamps_encode": [c_int, c_char_p, c_size_t, POINTER(c_size_t), c_size_t, POINTER(c_uint8), c_size_t, POINTER(c_size_t)],
    "x509_subtree_encode": [c_int, c_char_p, c_size_t, POINTER(c_uint8), c_size_t, POINTER(c_size_t)],
    "x509_name_constraints_encode": [c_int, c_char_p, c_size_t, c_char_p, c_size_t, POINTER(c_uint8), c_size_t, POINTER(c_size_t)],
    "x509_distribution_point_encode": [
        c_int, c_char_p, c_size_t, c_char_p, c_size_t, c_uint32, c_uint32, c_char_p, c_size_t, POINTER(c_uint8), c_size_t, POINTER(c_size_t)
    ],
    "x509_distribution_points_encode": [c_int, c_char_p, c_size_t, POINTER(c_uint8), c_size_t, POINTER(c_size_t)],
    "x509_issuing_distribution_point_encode": [
        c_int, POINTER(IssuingDistributionPointView), c_char_p, c_size_t, c_char_p, c_size_t, POINTER(c_uint8), c_size_t, POINTER(c_size_t)
    ],
    "x509_element_encode": [c_int, c_uint32, c_char_p, c_size_t, POINTER(c_uint8), c_size_t, POINTER(c_size_t)],
    "x509_name_next": [c_int, c_char_p, c_size_t, POINTER(c_size_t), POINTER(Span)],
    "x509_relative_name_next": [c_int, c_char_p, c_size_t, POINTER(c_size_t), POINTER(AttributeView)],
    "x509_relative_name_under_next": [c_int, c_uint32, c_char_p, c_size_t, POINTER(c_size_t), POINTER(AttributeView)],
    "x509_name_find": [c_int, c_char_p, c_size_t, c_char_p, c_size_t, POINTER(AttributeView)],
    "x509_names_match": [c_int, c_char_p, c_size_t, c_char_p, c_size_t, POINTER(c_uint32)],
    "x509_names_equal": [c_int, c_char_p, c_size_t, c_char_p, c_size_t, POINTER(c_uint32)],
    "x509_attribute_encode": [c_int, c_char_p, c_size_t, c_uint32, c_char_p, c_size_t, c_uint32, POINTER(c_uint8), c_size_t, POINTER(c_size_t)],
    "x509_relative_name_encode": [c_int, c_char_p, c_size_t, POINTER(c_uint8), c_size_t, POINTER(c_size_t)],
    "x509_name_build": [c_int, c_char_p, c_size_t, POINTER(c_uint8), c_size_t, POINTER(c_size_t)],
    "x509_name_escape": [c_int, c_char_p, c_size_t, POINTER(c_uint8), c_size_t, POINTER(c_size_t)],
    "x509_string_text": [c_int, c_char_p, c_size_t, POINTER(c_uint8), c_size_t, POINTER(c_size_t)],
    "x509_serial_number": [c_int, c_char_p, c_size_t, POINTER(Span)],
    "x509_serial_text": [c_int, c_char_p, c_size_t, POINTER(c_uint8), c_size_t, POINTER(c_size_t)],
    "x509_serial_decimal": [c_int, c_char_p, c_size_t, POINTER(c_uint8), c_size_t, POINTER(c_size_t)],
    "x509_time_text": [c_int, c_uint64, POINTER(c_uint8), c_size_t, POINTER(c_size_t)],
    "x509_time_from_text": [c_int, c_char_p, c_size_t, POINTER(c_uint64)],
    "x509_status_text": [c_int, c_int, POINTER(c_uint8), c_size_t, POINTER(c_size_t)],
    "x509_version": [c_uint32],
    "x509_server_name_view": [c_int, c_char_p, c_size_t, POINTER(ServerNameView)],
    "x509_email_address_view": [c_int, c_char_p, c_size_t, POINTER(EmailAddressView)],
    "x509_certificate_matches_name": [c_int, c_char_p, c_size_t, c_char_p, c_size_t, POINTER(c_uint32)],
    "x509_certificate_matches_email": [c_int, c_char_p, c_size_t, c_char_p, c_size_t, POINTER(c_uint32)],
    "x509_certificate_signature": [c_int, c_char_p, c_size_t, POINTER(SignatureView)],
    "x509_certificate_out_of_date": [c_int, c_char_p, c_size_t, c_uint64, POINTER(c_uint32)],
    "x509_path_check": [c_int, c_char_p, c_size_t, c_char_p, c_size_t, POINTER(c_size_t), c_size_t, c_uint64, POINTER(PathFaultView)],
    "x509_path_validate": [
        c_int,
        c_char_p,
        c_size_t,
        c_char_p,
        c_size_t,
        POINTER(c_size_t),
        c_size_t,
        c_char_p,
        c_size_t,
        c_char_p,
        c_size_t,
        POINTER(PathSettingsView),
        c_size_t,
        POINTER(c_uint8),
        c_size_t,
        POINTER(PathAnswerView),
    ],
    "x509_path_validate_under_key": [
        c_int,
        c_char_p,
        c_size_t,
        c_char_p,
        c_size_t,
        c_char_p,
        c_size_t,
        POINTER(c_size_t),
        c_size_t,
        c_char_p,
        c_size_t,
        c_char_p,
        c_size_t,
        POINTER(PathSettingsView),
        c_size_t,
        POINTER(c_uint8),
        c_size_t,
        POINTER(PathAnswerView),
    ],
    "x509_path_validate_under_anchor": [
        c_int,
        c_char_p,
        c_size_t,
        c_char_p,
        c_size_t,
        POINTER(c_size_t),
        c_size_t,
        c_char_p,
        c_size_t,
        c_char_p,
        c_size_t,
        POINTER(PathSettingsView),
        c_size_t,
        POINTER(c_uint8),
        c_size_t,
        POINTER(PathAnswerView),
    ],
    "x509_path_validate_views": [
        c_int,
        c_char_p,
        c_size_t,
        c_char_p,
        c_size_t,
        POINTER(c_size_t),
        c_size_t,
        c_char_p,
        c_size_t,
        c_char_p,
        c_size_t,
        POINTER(PathSettingsView),
        c_size_t,
        POINTER(c_uint8),
        c_size_t,
        POINTER(PathAnswerView),
        POINTER(PathCertificateView),
        c_size_t,
    ],
    "x509_path_validate_views_under_key": [
        c_int,
        c_char_p,
        c_size_t,
        c_char_p,
        c_size_t,
        c_char_p,
        c_size_t,
        POINTER(c_size_t),
        c_size_t,
        c_char_p,
        c_size_t,
        c_char_p,
        c_size_t,
        POINTER(PathSettingsView),
        c_size_t,
        POINTER(c_uint8),
        c_size_t,
        POINTER(PathAnswerView),
        POINTER(PathCertificateView),
        c_size_t,
    ],
    "x509_path_validate_views_under_anchor": [
        c_int,
        c_char_p,
        c_size_t,
        c_char_p,
        c_size_t,
        POINTER(c_size_t),
        c_size_t,
        c_char_p,
        c_size_t,
        c_char_p,
        c_size_t,
        POINTER(PathSettingsView),
        c_size_t,
        POINTER(c_uint8),
        c_size_t,
        POINTER(PathAnswerView),
        POINTER(PathCertificateView),
        c_size_t,
    ],
    "x509_path_find": [
        c_int,
        c_char_p,
        c_size_t,
        POINTER(Span),
        c_size_t,
        POINTER(Span),
        c_size_t,
        POINTER(Span),
        POINTER(BadLinkView),
        c_size_t,
        c_char_p,
        c_size_t,
        c_char_p,
        c_size_t,
        POINTER(PathSettingsView),
        c_size_t,
        c_uint32,
        POINTER(c_size_t),
        c_size_t,
        POINTER(FoundPathView),
    ],
    "x509_crl_walk": [c_int, c_char_p, c_size_t, POINTER(c_size_t)],
    "x509_crl_lookup": [c_int, c_char_p, c_size_t, c_char_p, c_size_t, POINTER(RevocationView)],
    "x509_crl_view": [c_int, c_char_p, c_size_t, POINTER(CrlView)],
    "x509_crl_entry_next": [c_int, c_char_p, c_size_t, POINTER(c_size_t), POINTER(CrlEntryView)],
    "x509_crl_issued_next": [c_int, c_char_p, c_size_t, POINTER(c_size_t), POINTER(Span), POINTER(CrlEntryView)],
    "x509_crl_entry_find": [c_int, c_char_p, c_size_t, c_char_p, c_size_t, POINTER(CrlEntryView)],
    "x509_crl_index": [c_int, c_char_p, c_size_t, POINTER(c_uint32), c_size_t, POINTER(c_size_t)],
    "x509_crl_index_find": [c_int, c_char_p, c_size_t, POINTER(c_uint32), c_size_t, c_char_p, c_size_t, POINTER(CrlEntryView)],
    "x509_may_sign_crls": [c_int, c_char_p, c_size_t, POINTER(c_uint32)],
    "x509_revocation_status": [
        c_int,
        c_char_p,
        c_size_t,
        c_char_p,
        c_size_t,
        POINTER(SignedCrlView),
        c_size_t,
        POINTER(RevocationSettingsView),
        c_size_t,
        POINTER(RevocationAnswerView),
    ],
    "x509_crl_fault": [
        c_int, c_char_p, c_size_t, c_char_p, c_size_t, POINTER(SignedCrlView), c_size_t, POINTER(RevocationSettingsView), c_size_t, c_size_t, POINTER(c_uint32)
    ],
    "x509_request_view": [c_int, c_char_p, c_size_t, POINTER(RequestView)],
    "x509_request_attribute_next": [c_int, c_char_p, c_size_t, POINTER(c_size_t), POINTER(RequestAttributeView)],
    "x509_request_attribute_find": [c_int, c_char_p, c_size_t, c_char_p, c_size_t, POINTER(RequestAttributeView)],
    "x509_subject_directory_attributes_next": [c_int, c_char_p, c_size_t, POINTER(c_size_t), POINTER(RequestAttributeView)],
    "x509_attribute_value_next": [c_int, c_char_p, c_size_t, POINTER(c_size_t), POINTER(ElementView)],
    "x509_request_extensions": [c_int, c_char_p, c_size_t, POINTER(Span)],
    "x509_key_view": [c_int, c_char_p, c_size_t, POINTER(KeyView)],
    "x509_working_key": [c_int, c_char_p, c_size_t, c_char_p, c_size_t, POINTER(c_uint8), c_size_t, POINTER(c_size_t)],
    "x509_rsa_key_view": [c_int, c_char_p, c_size_t, POINTER(RsaKeyView)],
    "x509_algorithm_view": [c_int, c_char_p, c_size_t, POINTER(AlgorithmView)],
    "x509_anchor_view": [c_int, c_char_p, c_size_t, POINTER(AnchorView)],
    "x509_path_controls_view": [c_int, c_char_p, c_size_t, POINTER(PathControlsView)],
    "x509_certificate_text": [c_int, c_char_p, c_size_t, POINTER(c_uint8), c_size_t, POINTER(c_size_t)],
    "x509_certificate_json": [c_int, c_char_p, c_size_t, POINTER(c_uint8), c_size_t, POINTER(c_size_t)],
    "x509_crl_text": [c_int, c_char_p, c_size_t, POINTER(c_uint8), c_size_t, POINTER(c_size_t)],
    "x509_crl_json": [c_int, c_char_p, c_size_t, POINTER(c_uint8), c_size_t, POINTER(c_size_t)],
    "x509_request_text": [c_int, c_char_p, c_size_t, POINTER(c_uint8), c_size_t, POINTER(c_size_t)],
    "x509_request_json": [c_int, c_char_p, c_size_t, POINTER(c_uint8), c_size_t, POINTER(c_size_t)],
    "x509_anchor_text": [c_int, c_char_p, c_size_t, POINTER(c_uint8), c_size_t, POINTER(c_size_t)],
    "x509_anchor_json": [c_int, c_char_p, c_size_t, POINTER(c_uint8), c_size_t, POINTER(c_size_t)],
    "x509_certificate_lint": [c_int, c_char_p, c_size_t, POINTER(c_uint8), c_size_t, POINTER(c_size_t)],
    "x509_crl_lint": [c_int, c_char_p, c_size_t, POINTER(c_uint8), c_size_t, POINTER(c_size_t)],
    "x509_request_lint": [c_int, c_char_p, c_size_t, POINTER(c_uint8), c_size_t, POINTER(c_size_t)],
    "x509_anchor_lint": [c_int, c_char_p, c_size_t, POINTER(c_uint8), c_size_t, POINTER(c_size_t)],
    "x509_finding_next": [c_int, c_char_p, c_size_t, POINTER(c_size_t), POINTER(FindingView)],
    "x509_timestamp_next": [c_int, c_char_p, c_size_t, POINTER(c_size_t), POINTER(Span)],
    "x509_timestamp_view": [c_int, c_char_p, c_size_t, POINTER(TimestampView)],
    "x509_timestamp_signed_data": [c_int, c_char_p, c_size_t, c_char_p, c_size_t, c_char_p, c_size_t, POINTER(c_uint8), c_size_t, POINTER(c_size_t)],
    "x509_timestamp_signed_data_beside": [c_int, c_char_p, c_size_t, c_char_p, c_size_t, POINTER(c_uint8), c_size_t, POINTER(c_size_t)],
    "x509_logged_part": [c_int, c_char_p, c_size_t, POINTER(c_uint8), c_size_t, POINTER(c_size_t)],
    "x509_logged_precertificate": [c_int, c_char_p, c_size_t, POINTER(c_uint8), c_size_t, POINTER(c_size_t)],
    "x509_logged_precertificate_signed_by": [c_int, c_char_p, c_size_t, c_char_p, c_size_t, POINTER(c_uint8), c_size_t, POINTER(c_size_t)],
    "x509_log_leaf_view": [c_int, c_char_p, c_size_t, POINTER(LogLeafView)],
    "x509_log_precertificate_view": [c_int, c_char_p, c_size_t, POINTER(LogPrecertificateView)],
    "x509_log_chain_next": [c_int, c_char_p, c_size_t, POINTER(c_size_t), POINTER(Span)],
    "x509_tree_head_signed_data": [c_int, c_uint64, c_uint64, c_char_p, c_size_t, POINTER(c_uint8), c_size_t, POINTER(c_size_t)],
    "x509_merkle_leaf_hash": [c_int, c_char_p, c_size_t, POINTER(c_uint8), c_size_t, POINTER(c_size_t)],
    "x509_merkle_inclusion": [c_int, c_char_p, c_size_t, c_uint64, c_uint64, c_char_p, c_size_t, c_char_p, c_size_t],
    "x509_merkle_consistency": [c_int, c_uint64, c_uint64, c_char_p, c_size_t, c_char_p, c_size_t, c_char_p, c_size_t],
    "x509_extension_encode": [c_int, c_char_p, c_size_t, c_uint32, c_char_p, c_size_t, POINTER(c_uint8), c_size_t, POINTER(c_size_t)],
    "x509_crl_entry_encode": [c_int, c_char_p, c_size_t, c_uint64, c_char_p, c_size_t, POINTER(c_uint8), c_size_t, POINTER(c_size_t)],
    "x509_build_request": [
        c_int, c_char_p, c_size_t, c_char_p, c_size_t, c_char_p, c_size_t, c_char_p, c_size_t, POINTER(c_uint8), c_size_t, POINTER(c_size_t)
    ],
    "x509_build_certificate": [
        c_int,
        c_char_p,
        c_size_t,
        c_char_p,
        c_size_t,
        c_char_p,
        c_size_t,
        c_uint64,
        c_uint64,
        c_char_p,
        c_size_t,
        c_char_p,
        c_size_t,
        c_char_p,
        c_size_t,
        POINTER(c_uint8),
        c_size_t,
        POINTER(c_size_t),
    ],
    "x509_build_root": [
        c_int,
        c_char_p,
        c_size_t,
        c_char_p,
        c_size_t,
        c_uint64,
        c_uint64,
        c_char_p,
        c_size_t,
        c_char_p,
        c_size_t,
        c_uint32,
        c_char_p,
        c_size_t,
        POINTER(c_uint8),
        c_size_t,
        POINTER(c_size_t),
    ],
    "x509_build_subordinate": [
        c_int,
        c_char_p,
        c_size_t,
        c_char_p,
        c_size_t,
        c_char_p,
        c_size_t,
        c_char_p,
        c_size_t,
        c_uint64,
        c_uint64,
        c_char_p,
        c_size_t,
        c_char_p,
        c_size_t,
        c_uint32,
        c_uint32,
        c_uint32,
        c_uint32,
        c_char_p,
        c_size_t,
        POINTER(c_uint8),
        c_size_t,
        POINTER(c_size_t),
    ],
    "x509_build_subscriber": [
        c_int,
        c_char_p,
        c_size_t,
        c_char_p,
        c_size_t,
        c_char_p,
        c_size_t,
        c_char_p,
        c_size_t,
        c_uint64,
        c_uint64,
        c_char_p,
        c_size_t,
        c_char_p,
        c_size_t,
        c_uint32,
        c_uint32,
        c_uint32,
        c_uint32,
        c_char_p,
        c_size_t,
        POINTER(c_uint8),
        c_size_t,
        POINTER(c_size_t),
    ],
    "x509_build_device": [
        c_int,
        c_char_p,
        c_size_t,
        c_char_p,
        c_size_t,
        c_char_p,
        c_size_t,
        c_char_p,
        c_size_t,
        c_uint64,
        c_uint64,
        c_char_p,
        c_size_t,
        c_char_p,
        c_size_t,
        c_char_p,
        c_size_t,
        c_char_p,
        c_size_t,
        POINTER(c_uint8),
        c_size_t,
        POINTER(c_size_t),
    ],
    "x509_build_crl": [
        c_int,
        c_char_p,
        c_size_t,
        c_char_p,
        c_size_t,
        c_char_p,
        c_size_t,
        c_uint64,
        c_uint32,
        c_uint64,
        c_char_p,
        c_size_t,
        c_char_p,
        c_size_t,
        POINTER(c_uint8),
        c_size_t,
        POINTER(c_size_t),
    ],
    "x509_assemble": [c_int, c_char_p, c_size_t, c_char_p, c_size_t, c_char_p, c_size_t, POINTER(c_uint8), c_size_t, POINTER(c_size_t)],
}
