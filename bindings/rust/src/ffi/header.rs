//! Made by tools/build/make_bindings.py of include/x509.h, and not changed by hand.
//!
//! Names are those of the header without `x509_` and `X509_`, but for the calls, which `ffi.rs` and `ffi/build.rs` alone make; and `in` is `input`.
#![allow(dead_code)] // all of the header stands here

use std::os::raw::c_int;

pub(crate) const OK: c_int = 0;
pub(crate) const MEMORY: c_int = -1;
pub(crate) const ROOM: c_int = -2;
pub(crate) const OVERLENGTH: c_int = 1;
pub(crate) const MALFORMED: c_int = 2;
pub(crate) const FAILED: c_int = 3;
pub(crate) const SET_DUPLICATE: c_int = 4;
pub(crate) const VALUE: c_int = 5;
pub(crate) const ABSENT: c_int = 6;
pub(crate) const REPEATED: c_int = 7;
pub(crate) const FAULT: c_int = 8;
pub(crate) const LIMIT: c_int = 9;
pub(crate) const RFC5280: u32 = 0;
pub(crate) const RAW: u32 = 1;
pub(crate) const KEY_USAGE_DIGITAL_SIGNATURE: u32 = 0x001;
pub(crate) const KEY_USAGE_NON_REPUDIATION: u32 = 0x002;
pub(crate) const KEY_USAGE_KEY_ENCIPHERMENT: u32 = 0x004;
pub(crate) const KEY_USAGE_DATA_ENCIPHERMENT: u32 = 0x008;
pub(crate) const KEY_USAGE_KEY_AGREEMENT: u32 = 0x010;
pub(crate) const KEY_USAGE_KEY_CERT_SIGN: u32 = 0x020;
pub(crate) const KEY_USAGE_CRL_SIGN: u32 = 0x040;
pub(crate) const KEY_USAGE_ENCIPHER_ONLY: u32 = 0x080;
pub(crate) const KEY_USAGE_DECIPHER_ONLY: u32 = 0x100;
pub(crate) const GENERAL_NAME_OTHER: u32 = 0;
pub(crate) const GENERAL_NAME_EMAIL: u32 = 1;
pub(crate) const GENERAL_NAME_DNS: u32 = 2;
pub(crate) const GENERAL_NAME_DIRECTORY: u32 = 4;
pub(crate) const GENERAL_NAME_EDI_PARTY: u32 = 5;
pub(crate) const GENERAL_NAME_URI: u32 = 6;
pub(crate) const GENERAL_NAME_IP: u32 = 7;
pub(crate) const GENERAL_NAME_REGISTERED_ID: u32 = 8;
pub(crate) const REASONS_UNUSED: u32 = 0x001;
pub(crate) const REASONS_KEY_COMPROMISE: u32 = 0x002;
pub(crate) const REASONS_CA_COMPROMISE: u32 = 0x004;
pub(crate) const REASONS_AFFILIATION_CHANGED: u32 = 0x008;
pub(crate) const REASONS_SUPERSEDED: u32 = 0x010;
pub(crate) const REASONS_CESSATION_OF_OPERATION: u32 = 0x020;
pub(crate) const REASONS_CERTIFICATE_HOLD: u32 = 0x040;
pub(crate) const REASONS_PRIVILEGE_WITHDRAWN: u32 = 0x080;
pub(crate) const REASONS_AA_COMPROMISE: u32 = 0x100;
pub(crate) const NOT_YET_VALID: u32 = 1;
pub(crate) const EXPIRED: u32 = 2;
pub(crate) const PATH_DECODE: u32 = 1;
pub(crate) const PATH_ALGORITHM: u32 = 2;
pub(crate) const PATH_ISSUER: u32 = 3;
pub(crate) const PATH_MOMENT: u32 = 4;
pub(crate) const PATH_SIGNATURE: u32 = 5;
pub(crate) const PATH_REPEATED: u32 = 6;
pub(crate) const PATH_CRITICAL: u32 = 7;
pub(crate) const PATH_NOT_CA: u32 = 8;
pub(crate) const PATH_KEY_USAGE: u32 = 9;
pub(crate) const PATH_PATH_LEN: u32 = 10;
pub(crate) const PATH_EXTENSION: u32 = 11;
pub(crate) const PATH_NAMES: u32 = 12;
pub(crate) const PATH_CONSTRAINTS: u32 = 13;
pub(crate) const PATH_REPEATED_POLICY: u32 = 14;
pub(crate) const PATH_POLICY: u32 = 15;
pub(crate) const PATH_POLICY_MAPPING: u32 = 16;
pub(crate) const PATH_PURPOSE: u32 = 17;
pub(crate) const PATH_USAGE: u32 = 18;
pub(crate) const PATH_VERSION: u32 = 19;
pub(crate) const PATH_EXPLICIT_POLICY: u32 = 1;
pub(crate) const PATH_INHIBIT_POLICY_MAPPING: u32 = 2;
pub(crate) const PATH_INHIBIT_ANY_POLICY: u32 = 4;
pub(crate) const PATH_UNCHAINED: u32 = 8;
pub(crate) const PATH_VERSION_1_AUTHORITIES: u32 = 16;
pub(crate) const PATH_CONSTRAIN_COMMON_NAMES: u32 = 32;
pub(crate) const PURPOSE_SERVER_AUTH: u32 = 1;
pub(crate) const PURPOSE_CLIENT_AUTH: u32 = 2;
pub(crate) const PURPOSE_CODE_SIGNING: u32 = 4;
pub(crate) const PURPOSE_EMAIL_PROTECTION: u32 = 8;
pub(crate) const PURPOSE_TIME_STAMPING: u32 = 16;
pub(crate) const PURPOSE_OCSP_SIGNING: u32 = 32;
pub(crate) const REVOCATION_WITHOUT_NEXT_UPDATE: u32 = 1;
pub(crate) const REVOCATION_USE_DELTAS: u32 = 2;
pub(crate) const UNDETERMINED: u32 = 0;
pub(crate) const UNREVOKED: u32 = 1;
pub(crate) const REVOKED: u32 = 2;
pub(crate) const CRL_WITHOUT_FAULT: u32 = 0;
pub(crate) const CRL_NOT_YET_VALID: u32 = 1;
pub(crate) const CRL_EXPIRED: u32 = 2;
pub(crate) const CRL_CRITICAL: u32 = 3;
pub(crate) const CRL_ALGORITHM: u32 = 4;
pub(crate) const CRL_DELTA: u32 = 5;
pub(crate) const CRL_ISSUING_POINT: u32 = 6;
pub(crate) const CRL_ISSUER: u32 = 7;
pub(crate) const CRL_SCOPE: u32 = 8;
pub(crate) const CRL_POINT: u32 = 9;
pub(crate) const CRL_SIGNER: u32 = 10;
pub(crate) const CRL_SIGNATURE: u32 = 11;
pub(crate) const CRL_ENTRY: u32 = 12;
pub(crate) const CRL_REPLACED: u32 = 13;
pub(crate) const KEY_OTHER: u32 = 0;
pub(crate) const KEY_RSA: u32 = 1;
pub(crate) const KEY_RSA_PSS: u32 = 2;
pub(crate) const KEY_DSA: u32 = 3;
pub(crate) const KEY_EC_P256: u32 = 4;
pub(crate) const KEY_EC_P384: u32 = 5;
pub(crate) const KEY_EC_P521: u32 = 6;
pub(crate) const KEY_EC_OTHER: u32 = 7;
pub(crate) const KEY_ED25519: u32 = 8;
pub(crate) const KEY_ED448: u32 = 9;
pub(crate) const KEY_X25519: u32 = 10;
pub(crate) const KEY_X448: u32 = 11;
pub(crate) const SIGNATURE_OTHER: u32 = 0;
pub(crate) const SIGNATURE_RSA_SHA1: u32 = 1;
pub(crate) const SIGNATURE_RSA_SHA224: u32 = 2;
pub(crate) const SIGNATURE_RSA_SHA256: u32 = 3;
pub(crate) const SIGNATURE_RSA_SHA384: u32 = 4;
pub(crate) const SIGNATURE_RSA_SHA512: u32 = 5;
pub(crate) const SIGNATURE_RSA_PSS: u32 = 6;
pub(crate) const SIGNATURE_DSA_SHA1: u32 = 7;
pub(crate) const SIGNATURE_DSA_SHA224: u32 = 8;
pub(crate) const SIGNATURE_DSA_SHA256: u32 = 9;
pub(crate) const SIGNATURE_ECDSA_SHA1: u32 = 10;
pub(crate) const SIGNATURE_ECDSA_SHA224: u32 = 11;
pub(crate) const SIGNATURE_ECDSA_SHA256: u32 = 12;
pub(crate) const SIGNATURE_ECDSA_SHA384: u32 = 13;
pub(crate) const SIGNATURE_ECDSA_SHA512: u32 = 14;
pub(crate) const SIGNATURE_ED25519: u32 = 15;
pub(crate) const SIGNATURE_ED448: u32 = 16;
pub(crate) const ANCHOR_CERTIFICATE: u32 = 0;
pub(crate) const ANCHOR_TBS_CERTIFICATE: u32 = 1;
pub(crate) const ANCHOR_INFO: u32 = 2;
pub(crate) const POLICY_FLAGS_INHIBIT_POLICY_MAPPING: u32 = 1;
pub(crate) const POLICY_FLAGS_REQUIRE_EXPLICIT_POLICY: u32 = 2;
pub(crate) const POLICY_FLAGS_INHIBIT_ANY_POLICY: u32 = 4;

#[repr(C)]
#[derive(Clone, Copy, Debug, Default, PartialEq, Eq, Hash)]
pub(crate) struct Span {
    pub(crate) place: usize,
    pub(crate) len: usize,
}

#[repr(C)]
#[derive(Clone, Copy, Debug, Default, PartialEq, Eq, Hash)]
pub(crate) struct Certificate {
    pub(crate) version: u32,
    pub(crate) serial_number: Span,
    pub(crate) issuer: Span,
    pub(crate) subject: Span,
    pub(crate) subject_public_key_info: Span,
    pub(crate) extensions: Span,
    pub(crate) not_before: u64,
    pub(crate) not_after: u64,
    pub(crate) inner_algorithm: Span,
    pub(crate) issuer_unique_id: Span,
    pub(crate) issuer_unused_bits: u32,
    pub(crate) subject_unique_id: Span,
    pub(crate) subject_unused_bits: u32,
}

#[repr(C)]
#[derive(Clone, Copy, Debug, Default, PartialEq, Eq, Hash)]
pub(crate) struct Extension {
    pub(crate) critical: u32,
    pub(crate) value: Span,
}

#[repr(C)]
#[derive(Clone, Copy, Debug, Default, PartialEq, Eq, Hash)]
pub(crate) struct ExtensionEntry {
    pub(crate) oid: Span,
    pub(crate) critical: u32,
    pub(crate) value: Span,
}

#[repr(C)]
#[derive(Clone, Copy, Debug, Default, PartialEq, Eq, Hash)]
pub(crate) struct BasicConstraintsView {
    pub(crate) ca: u32,
    pub(crate) has_path_len: u32,
    pub(crate) path_len: u32,
}

#[repr(C)]
#[derive(Clone, Copy, Debug, Default, PartialEq, Eq, Hash)]
pub(crate) struct PrivateKeyUsagePeriodView {
    pub(crate) has_not_before: u32,
    pub(crate) not_before: u64,
    pub(crate) has_not_after: u32,
    pub(crate) not_after: u64,
}

#[repr(C)]
#[derive(Clone, Copy, Debug, Default, PartialEq, Eq, Hash)]
pub(crate) struct GeneralName {
    pub(crate) kind: u32,
    pub(crate) element: Span,
    pub(crate) content: Span,
    pub(crate) type_id: Span,
    pub(crate) value: Span,
    pub(crate) name_assigner: Span,
    pub(crate) party_name: Span,
}

#[repr(C)]
#[derive(Clone, Copy, Debug, Default, PartialEq, Eq, Hash)]
pub(crate) struct AuthorityKeyIdentifierView {
    pub(crate) key_identifier: Span,
    pub(crate) issuer: Span,
    pub(crate) serial_number: Span,
}

#[repr(C)]
#[derive(Clone, Copy, Debug, Default, PartialEq, Eq, Hash)]
pub(crate) struct Access {
    pub(crate) method: Span,
    pub(crate) location: GeneralName,
}

#[repr(C)]
#[derive(Clone, Copy, Debug, Default, PartialEq, Eq, Hash)]
pub(crate) struct Policy {
    pub(crate) identifier: Span,
    pub(crate) qualifiers: Span,
}

#[repr(C)]
#[derive(Clone, Copy, Debug, Default, PartialEq, Eq, Hash)]
pub(crate) struct PolicyQualifier {
    pub(crate) identifier: Span,
    pub(crate) qualifier: Span,
}

#[repr(C)]
#[derive(Clone, Copy, Debug, Default, PartialEq, Eq, Hash)]
pub(crate) struct UserNoticeView {
    pub(crate) organization: Span,
    pub(crate) notice_numbers: Span,
    pub(crate) explicit_text: Span,
}

#[repr(C)]
#[derive(Clone, Copy, Debug, Default, PartialEq, Eq, Hash)]
pub(crate) struct PolicyMapping {
    pub(crate) issuer_policy: Span,
    pub(crate) subject_policy: Span,
}

#[repr(C)]
#[derive(Clone, Copy, Debug, Default, PartialEq, Eq, Hash)]
pub(crate) struct PolicyConstraintsView {
    pub(crate) has_require_explicit_policy: u32,
    pub(crate) require_explicit_policy: u32,
    pub(crate) has_inhibit_policy_mapping: u32,
    pub(crate) inhibit_policy_mapping: u32,
}

#[repr(C)]
#[derive(Clone, Copy, Debug, Default, PartialEq, Eq, Hash)]
pub(crate) struct DistributionPoint {
    pub(crate) full_name: Span,
    pub(crate) relative_name: Span,
    pub(crate) has_reasons: u32,
    pub(crate) reasons: u32,
    pub(crate) crl_issuer: Span,
}

#[repr(C)]
#[derive(Clone, Copy, Debug, Default, PartialEq, Eq, Hash)]
pub(crate) struct IssuingDistributionPointView {
    pub(crate) full_name: Span,
    pub(crate) relative_name: Span,
    pub(crate) only_contains_user_certs: u32,
    pub(crate) only_contains_ca_certs: u32,
    pub(crate) has_only_some_reasons: u32,
    pub(crate) only_some_reasons: u32,
    pub(crate) indirect_crl: u32,
    pub(crate) only_contains_attribute_certs: u32,
}

#[repr(C)]
#[derive(Clone, Copy, Debug, Default, PartialEq, Eq, Hash)]
pub(crate) struct NameConstraintsView {
    pub(crate) permitted: Span,
    pub(crate) excluded: Span,
}

#[repr(C)]
#[derive(Clone, Copy, Debug, Default, PartialEq, Eq, Hash)]
pub(crate) struct Subtree {
    pub(crate) base: GeneralName,
    pub(crate) minimum: u32,
    pub(crate) has_maximum: u32,
    pub(crate) maximum: u32,
}

#[repr(C)]
#[derive(Clone, Copy, Debug, Default, PartialEq, Eq, Hash)]
pub(crate) struct Attribute {
    pub(crate) oid: Span,
    pub(crate) tag: u32,
    pub(crate) element: Span,
    pub(crate) content: Span,
}

#[repr(C)]
#[derive(Clone, Copy, Debug, Default, PartialEq, Eq, Hash)]
pub(crate) struct ServerName {
    pub(crate) name_len: usize,
    pub(crate) address_len: u32,
    pub(crate) address: [u8; 16],
}

#[repr(C)]
#[derive(Clone, Copy, Debug, Default, PartialEq, Eq, Hash)]
pub(crate) struct EmailAddress {
    pub(crate) local: Span,
    pub(crate) host: Span,
}

#[repr(C)]
#[derive(Clone, Copy, Debug, Default, PartialEq, Eq, Hash)]
pub(crate) struct Signature {
    pub(crate) signed_part: Span,
    pub(crate) algorithm: Span,
    pub(crate) bits: Span,
    pub(crate) unused_bits: u32,
}

#[repr(C)]
#[derive(Clone, Copy, Debug, Default, PartialEq, Eq, Hash)]
pub(crate) struct PathFault {
    pub(crate) place: usize,
    pub(crate) reason: u32,
}

#[repr(C)]
#[derive(Clone, Copy, Debug, PartialEq, Eq, Hash)]
pub(crate) struct PathSettings {
    pub(crate) moment: u64,
    pub(crate) flags: u64,
    pub(crate) key_usage: u64,
    pub(crate) purposes: u64,
    pub(crate) purpose_len: u64,
    pub(crate) purpose: [u8; 64],
}

#[repr(C)]
#[derive(Clone, Copy, Debug, Default, PartialEq, Eq, Hash)]
pub(crate) struct PathAnswer {
    pub(crate) place: usize,
    pub(crate) reason: u32,
    pub(crate) name: Span,
    pub(crate) key: Span,
    pub(crate) policies_len: usize,
}

#[repr(C)]
#[derive(Clone, Copy, Debug, Default, PartialEq, Eq, Hash)]
pub(crate) struct PathCertificate {
    pub(crate) view: Certificate,
    pub(crate) signature: Signature,
}

#[repr(C)]
#[derive(Clone, Copy, Debug, Default, PartialEq, Eq, Hash)]
pub(crate) struct BadLink {
    pub(crate) certificate: Span,
    pub(crate) key: Span,
}

#[repr(C)]
#[derive(Clone, Copy, Debug, Default, PartialEq, Eq, Hash)]
pub(crate) struct FoundPath {
    pub(crate) anchor: usize,
    pub(crate) count: usize,
    pub(crate) place: usize,
    pub(crate) reason: u32,
}

#[repr(C)]
#[derive(Clone, Copy, Debug, Default, PartialEq, Eq, Hash)]
pub(crate) struct Revocation {
    pub(crate) date: u64,
    pub(crate) reason: i32,
}

#[repr(C)]
#[derive(Clone, Copy, Debug, Default, PartialEq, Eq, Hash)]
pub(crate) struct Crl {
    pub(crate) version: u32,
    pub(crate) inner_algorithm: Span,
    pub(crate) issuer: Span,
    pub(crate) this_update: u64,
    pub(crate) has_next_update: u32,
    pub(crate) next_update: u64,
    pub(crate) entries: Span,
    pub(crate) extensions: Span,
    pub(crate) signature: Signature,
}

#[repr(C)]
#[derive(Clone, Copy, Debug, Default, PartialEq, Eq, Hash)]
pub(crate) struct CrlEntry {
    pub(crate) serial_number: Span,
    pub(crate) date: u64,
    pub(crate) extensions: Span,
}

#[repr(C)]
#[derive(Clone, Copy, Debug, Default, PartialEq, Eq, Hash)]
pub(crate) struct SignedCrl {
    pub(crate) crl: Span,
    pub(crate) name: Span,
    pub(crate) key: Span,
    pub(crate) verified: u32,
}

#[repr(C)]
#[derive(Clone, Copy, Debug, Default, PartialEq, Eq, Hash)]
pub(crate) struct RevocationSettings {
    pub(crate) moment: u64,
    pub(crate) flags: u64,
}

#[repr(C)]
#[derive(Clone, Copy, Debug, Default, PartialEq, Eq, Hash)]
pub(crate) struct RevocationAnswer {
    pub(crate) status: u32,
    pub(crate) reason: u32,
    pub(crate) crl: usize,
    pub(crate) date: u64,
    pub(crate) reasons: u32,
}

#[repr(C)]
#[derive(Clone, Copy, Debug, Default, PartialEq, Eq, Hash)]
pub(crate) struct Request {
    pub(crate) version: u32,
    pub(crate) subject: Span,
    pub(crate) subject_public_key_info: Span,
    pub(crate) attributes: Span,
    pub(crate) signature: Signature,
}

#[repr(C)]
#[derive(Clone, Copy, Debug, Default, PartialEq, Eq, Hash)]
pub(crate) struct RequestAttribute {
    pub(crate) oid: Span,
    pub(crate) values: Span,
}

#[repr(C)]
#[derive(Clone, Copy, Debug, Default, PartialEq, Eq, Hash)]
pub(crate) struct Element {
    pub(crate) tag: u32,
    pub(crate) element: Span,
    pub(crate) content: Span,
}

#[repr(C)]
#[derive(Clone, Copy, Debug, Default, PartialEq, Eq, Hash)]
pub(crate) struct Key {
    pub(crate) kind: u32,
    pub(crate) oid: Span,
    pub(crate) parameters: Span,
    pub(crate) bits: Span,
    pub(crate) unused_bits: u32,
    pub(crate) curve: Span,
    pub(crate) size: u32,
}

#[repr(C)]
#[derive(Clone, Copy, Debug, Default, PartialEq, Eq, Hash)]
pub(crate) struct RsaKey {
    pub(crate) modulus: Span,
    pub(crate) public_exponent: Span,
    pub(crate) modulus_bits: u32,
}

#[repr(C)]
#[derive(Clone, Copy, Debug, Default, PartialEq, Eq, Hash)]
pub(crate) struct Algorithm {
    pub(crate) kind: u32,
    pub(crate) oid: Span,
    pub(crate) parameters: Span,
}

#[repr(C)]
#[derive(Clone, Copy, Debug, Default, PartialEq, Eq, Hash)]
pub(crate) struct Anchor {
    pub(crate) kind: u32,
    pub(crate) element: Span,
    pub(crate) name: Span,
    pub(crate) subject_public_key_info: Span,
    pub(crate) extensions: Span,
    pub(crate) key_identifier: Span,
    pub(crate) title: Span,
    pub(crate) title_language: Span,
    pub(crate) controls: Span,
}

#[repr(C)]
#[derive(Clone, Copy, Debug, Default, PartialEq, Eq, Hash)]
pub(crate) struct PathControls {
    pub(crate) name: Span,
    pub(crate) certificate: Span,
    pub(crate) policies: Span,
    pub(crate) has_policy_flags: u32,
    pub(crate) policy_flags: u32,
    pub(crate) permitted: Span,
    pub(crate) excluded: Span,
    pub(crate) has_path_len: u32,
    pub(crate) path_len: u32,
}

#[repr(C)]
#[derive(Clone, Copy, Debug, Default, PartialEq, Eq, Hash)]
pub(crate) struct Finding {
    pub(crate) object: Span,
    pub(crate) rule: Span,
    pub(crate) severity: Span,
    pub(crate) section: Span,
    pub(crate) place: Span,
    pub(crate) seen: Span,
}

#[repr(C)]
#[derive(Clone, Copy, Debug, Default, PartialEq, Eq, Hash)]
pub(crate) struct Timestamp {
    pub(crate) version: u32,
    pub(crate) log_id: Span,
    pub(crate) timestamp: u64,
    pub(crate) extensions: Span,
    pub(crate) hash: u32,
    pub(crate) signature_algorithm: u32,
    pub(crate) signature: Span,
}

#[repr(C)]
#[derive(Clone, Copy, Debug, Default, PartialEq, Eq, Hash)]
pub(crate) struct LogLeaf {
    pub(crate) version: u32,
    pub(crate) leaf_type: u32,
    pub(crate) timestamp: u64,
    pub(crate) entry_type: u32,
    pub(crate) issuer_key_hash: Span,
    pub(crate) certificate: Span,
    pub(crate) extensions: Span,
}

#[repr(C)]
#[derive(Clone, Copy, Debug, Default, PartialEq, Eq, Hash)]
pub(crate) struct LogPrecertificate {
    pub(crate) precertificate: Span,
    pub(crate) chain: Span,
}

extern "C" {
    pub(super) fn x509_reencode(
        name: *const u8,
        name_len: usize,
        profile: u32,
        input: *const u8,
        len: usize,
        out: *mut u8,
        room: usize,
        written: *mut usize,
    ) -> c_int;
    pub(super) fn x509_certificate_check(input: *const u8, len: usize) -> c_int;
    pub(super) fn x509_crl_check(input: *const u8, len: usize) -> c_int;
    pub(super) fn x509_request_check(input: *const u8, len: usize) -> c_int;
    pub(super) fn x509_certificate_reencode(
        input: *const u8,
        len: usize,
        out: *mut u8,
        room: usize,
        written: *mut usize,
    ) -> c_int;
    pub(super) fn x509_name_text(
        input: *const u8,
        len: usize,
        out: *mut u8,
        room: usize,
        written: *mut usize,
    ) -> c_int;
    pub(super) fn x509_name_from_text(
        text: *const u8,
        len: usize,
        out: *mut u8,
        room: usize,
        written: *mut usize,
    ) -> c_int;
    pub(super) fn x509_signed_slice(input: *const u8, len: usize, part: *mut Span) -> c_int;
    /// Checks a certificate under RFC 5280, and says what it holds and where. No memory is taken.
    pub(super) fn x509_certificate_view(
        input: *const u8,
        len: usize,
        view: *mut Certificate,
    ) -> c_int;
    pub(super) fn x509_certificate_extension(
        input: *const u8,
        len: usize,
        oid: *const u8,
        oid_len: usize,
        found: *mut Extension,
    ) -> c_int;
    /// The extensions of a certificate (`extensions` of its view), of a CRL or of a CSR, one after the other.
    pub(super) fn x509_extensions_next(
        value: *const u8,
        len: usize,
        at: *mut usize,
        found: *mut ExtensionEntry,
    ) -> c_int;
    pub(super) fn x509_key_usage(value: *const u8, len: usize, uses: *mut u32) -> c_int;
    /// Decodes a BasicConstraints (2.5.29.19), and says what it holds. X509_MALFORMED also for a path length above 255. It takes no memory.
    pub(super) fn x509_basic_constraints(
        value: *const u8,
        len: usize,
        view: *mut BasicConstraintsView,
    ) -> c_int;
    /// Reads a PrivateKeyUsagePeriod (2.5.29.16), and says in which period the private key may sign. It takes no memory.
    pub(super) fn x509_private_key_usage_period(
        value: *const u8,
        len: usize,
        view: *mut PrivateKeyUsagePeriodView,
    ) -> c_int;
    /// The names of a GeneralNames, one after the other, such as those of a SAN (2.5.29.17) or an IssuerAltName (2.5.29.18).
    pub(super) fn x509_general_names_next(
        value: *const u8,
        len: usize,
        at: *mut usize,
        found: *mut GeneralName,
    ) -> c_int;
    pub(super) fn x509_general_names_under_next(
        number: u32,
        value: *const u8,
        len: usize,
        at: *mut usize,
        found: *mut GeneralName,
    ) -> c_int;
    /// The purposes of an ExtendedKeyUsage (2.5.29.37), one after the other: the content octets of their OIDs. It takes no memory.
    pub(super) fn x509_extended_key_usage_next(
        value: *const u8,
        len: usize,
        at: *mut usize,
        found: *mut Span,
    ) -> c_int;
    /// Reads a SubjectKeyIdentifier (2.5.29.14), and says where its octets stand, of which there may be none.
    pub(super) fn x509_subject_key_identifier(
        value: *const u8,
        len: usize,
        found: *mut Span,
    ) -> c_int;
    pub(super) fn x509_authority_key_identifier(
        value: *const u8,
        len: usize,
        view: *mut AuthorityKeyIdentifierView,
    ) -> c_int;
    /// The descriptions of an AuthorityInfoAccess (1.3.6.1.5.5.7.1.1) or a SubjectInfoAccess (1.3.6.1.5.5.7.1.11), one after the other.
    pub(super) fn x509_access_next(
        value: *const u8,
        len: usize,
        at: *mut usize,
        found: *mut Access,
    ) -> c_int;
    /// The policies of a CertificatePolicies (2.5.29.32), one after the other. A policy may come twice.
    pub(super) fn x509_certificate_policies_next(
        value: *const u8,
        len: usize,
        at: *mut usize,
        found: *mut Policy,
    ) -> c_int;
    pub(super) fn x509_certificate_policies_under_next(
        number: u32,
        value: *const u8,
        len: usize,
        at: *mut usize,
        found: *mut Policy,
    ) -> c_int;
    pub(super) fn x509_policy_qualifiers_next(
        value: *const u8,
        len: usize,
        at: *mut usize,
        found: *mut PolicyQualifier,
    ) -> c_int;
    /// Reads a UserNotice (RFC 5280 4.2.1.4), and says where its parts stand.
    pub(super) fn x509_user_notice(
        value: *const u8,
        len: usize,
        view: *mut UserNoticeView,
    ) -> c_int;
    pub(super) fn x509_numbers_next(
        value: *const u8,
        len: usize,
        at: *mut usize,
        found: *mut Span,
    ) -> c_int;
    /// The pairs of a PolicyMappings (2.5.29.33), one after the other. It takes no memory.
    pub(super) fn x509_policy_mappings_next(
        value: *const u8,
        len: usize,
        at: *mut usize,
        found: *mut PolicyMapping,
    ) -> c_int;
    /// Reads a PolicyConstraints (2.5.29.36), and says what it asks for. X509_MALFORMED also for a number above 4,294,967,295. It takes no memory.
    pub(super) fn x509_policy_constraints(
        value: *const u8,
        len: usize,
        view: *mut PolicyConstraintsView,
    ) -> c_int;
    pub(super) fn x509_inhibit_any_policy(
        value: *const u8,
        len: usize,
        certificates: *mut u32,
    ) -> c_int;
    /// The points of a CRLDistributionPoints (2.5.29.31) or a FreshestCRL (2.5.29.46), one after the other.
    pub(super) fn x509_distribution_points_next(
        value: *const u8,
        len: usize,
        at: *mut usize,
        found: *mut DistributionPoint,
    ) -> c_int;
    /// Reads an IssuingDistributionPoint (2.5.29.28), and says of what certificates the CRL speaks.
    pub(super) fn x509_issuing_distribution_point(
        value: *const u8,
        len: usize,
        view: *mut IssuingDistributionPointView,
    ) -> c_int;
    pub(super) fn x509_crl_number(value: *const u8, len: usize, found: *mut Span) -> c_int;
    pub(super) fn x509_base_crl_number(value: *const u8, len: usize, found: *mut Span) -> c_int;
    /// Reads the reason code of an entry of a CRL (2.5.29.21), and says its number (RFC 5280 5.3.1): 0 to 10, but not 7. It takes no memory.
    pub(super) fn x509_crl_reason(value: *const u8, len: usize, reason: *mut u32) -> c_int;
    /// Reads the invalidity date of an entry of a CRL (2.5.29.24), since when the certificate is suspected to be invalid. It takes no memory.
    pub(super) fn x509_invalidity_date(value: *const u8, len: usize, moment: *mut u64) -> c_int;
    /// Reads a NameConstraints (2.5.29.30), and says where its subtrees stand.
    pub(super) fn x509_name_constraints(
        value: *const u8,
        len: usize,
        view: *mut NameConstraintsView,
    ) -> c_int;
    pub(super) fn x509_subtrees_under_next(
        number: u32,
        value: *const u8,
        len: usize,
        at: *mut usize,
        found: *mut Subtree,
    ) -> c_int;
    pub(super) fn x509_oid_text(
        oid: *const u8,
        oid_len: usize,
        out: *mut u8,
        room: usize,
        written: *mut usize,
    ) -> c_int;
    /// Writes the content octets of the OID with this dotted text, at most 39. X509_FAILED where it is a bad text, that of no OID. It takes no memory.
    pub(super) fn x509_oid_from_text(
        text: *const u8,
        len: usize,
        out: *mut u8,
        room: usize,
        written: *mut usize,
    ) -> c_int;
    /// Writes a BasicConstraints (RFC 5280 4.2.1.9). X509_VALUE also for a path length above 255, or where there is one and `ca` is 0. It takes no memory.
    pub(super) fn x509_basic_constraints_encode(
        view: *const BasicConstraintsView,
        out: *mut u8,
        room: usize,
        written: *mut usize,
    ) -> c_int;
    pub(super) fn x509_key_usage_encode(
        uses: u32,
        out: *mut u8,
        room: usize,
        written: *mut usize,
    ) -> c_int;
    pub(super) fn x509_extended_key_usage_encode(
        oids: *const u8,
        oids_len: usize,
        lens: *const usize,
        count: usize,
        out: *mut u8,
        room: usize,
        written: *mut usize,
    ) -> c_int;
    /// Writes a SubjectKeyIdentifier (4.2.1.2) of these octets, of which there may be none.
    pub(super) fn x509_subject_key_identifier_encode(
        identifier: *const u8,
        len: usize,
        out: *mut u8,
        room: usize,
        written: *mut usize,
    ) -> c_int;
    pub(super) fn x509_authority_key_identifier_encode(
        has_key_identifier: u32,
        key_identifier: *const u8,
        key_identifier_len: usize,
        issuer: *const u8,
        issuer_len: usize,
        serial_number: *const u8,
        serial_number_len: usize,
        out: *mut u8,
        room: usize,
        written: *mut usize,
    ) -> c_int;
    /// Writes a PolicyConstraints (4.2.1.11). X509_VALUE also where neither number is there. It takes no memory.
    pub(super) fn x509_policy_constraints_encode(
        view: *const PolicyConstraintsView,
        out: *mut u8,
        room: usize,
        written: *mut usize,
    ) -> c_int;
    /// Writes an InhibitAnyPolicy (4.2.1.14) of any number of certificates. It takes no memory.
    pub(super) fn x509_inhibit_any_policy_encode(
        certificates: u32,
        out: *mut u8,
        room: usize,
        written: *mut usize,
    ) -> c_int;
    pub(super) fn x509_crl_number_encode(
        number: *const u8,
        len: usize,
        out: *mut u8,
        room: usize,
        written: *mut usize,
    ) -> c_int;
    /// Writes the reason code of an entry of a CRL (5.3.1) with this number. X509_VALUE for one that isn't 0 to 6 or 8 to 10. It takes no memory.
    pub(super) fn x509_crl_reason_encode(
        reason: u32,
        out: *mut u8,
        room: usize,
        written: *mut usize,
    ) -> c_int;
    /// Writes the invalidity date of an entry of a CRL (5.3.2), in seconds since 1970-01-01T00:00:00Z. X509_VALUE after the year 9999. It takes no memory.
    pub(super) fn x509_invalidity_date_encode(
        moment: u64,
        out: *mut u8,
        room: usize,
        written: *mut usize,
    ) -> c_int;
    pub(super) fn x509_private_key_usage_period_encode(
        view: *const PrivateKeyUsagePeriodView,
        out: *mut u8,
        room: usize,
        written: *mut usize,
    ) -> c_int;
    pub(super) fn x509_general_name_encode(
        kind: u32,
        content: *const u8,
        len: usize,
        out: *mut u8,
        room: usize,
        written: *mut usize,
    ) -> c_int;
    /// Writes a GeneralName that is an otherName: of the type with an OID of these content octets, and with this value, a whole element.
    pub(super) fn x509_other_name_encode(
        type_id: *const u8,
        type_id_len: usize,
        value: *const u8,
        value_len: usize,
        out: *mut u8,
        room: usize,
        written: *mut usize,
    ) -> c_int;
    pub(super) fn x509_general_names_encode(
        names: *const u8,
        len: usize,
        out: *mut u8,
        room: usize,
        written: *mut usize,
    ) -> c_int;
    /// Writes an AccessDescription (4.2.2.1): by the method with an OID of these content octets, at this location, a whole GeneralName.
    pub(super) fn x509_access_encode(
        method: *const u8,
        method_len: usize,
        location: *const u8,
        location_len: usize,
        out: *mut u8,
        room: usize,
        written: *mut usize,
    ) -> c_int;
    pub(super) fn x509_info_access_encode(
        descriptions: *const u8,
        len: usize,
        out: *mut u8,
        room: usize,
        written: *mut usize,
    ) -> c_int;
    pub(super) fn x509_cps_uri_encode(
        uri: *const u8,
        len: usize,
        out: *mut u8,
        room: usize,
        written: *mut usize,
    ) -> c_int;
    pub(super) fn x509_numbers_encode(
        octets: *const u8,
        octets_len: usize,
        lens: *const usize,
        count: usize,
        out: *mut u8,
        room: usize,
        written: *mut usize,
    ) -> c_int;
    pub(super) fn x509_user_notice_encode(
        organization: *const u8,
        organization_len: usize,
        numbers: *const u8,
        numbers_len: usize,
        text: *const u8,
        text_len: usize,
        out: *mut u8,
        room: usize,
        written: *mut usize,
    ) -> c_int;
    pub(super) fn x509_policy_qualifier_encode(
        oid: *const u8,
        oid_len: usize,
        qualifier: *const u8,
        qualifier_len: usize,
        out: *mut u8,
        room: usize,
        written: *mut usize,
    ) -> c_int;
    pub(super) fn x509_policy_encode(
        oid: *const u8,
        oid_len: usize,
        qualifiers: *const u8,
        qualifiers_len: usize,
        out: *mut u8,
        room: usize,
        written: *mut usize,
    ) -> c_int;
    /// Writes a CertificatePolicies (4.2.1.4): encodings of its policies are given one after the other. X509_VALUE where there is none, or one is there twice.
    pub(super) fn x509_certificate_policies_encode(
        policies: *const u8,
        len: usize,
        out: *mut u8,
        room: usize,
        written: *mut usize,
    ) -> c_int;
    pub(super) fn x509_policy_mapping_encode(
        issuer_policy: *const u8,
        issuer_policy_len: usize,
        subject_policy: *const u8,
        subject_policy_len: usize,
        out: *mut u8,
        room: usize,
        written: *mut usize,
    ) -> c_int;
    /// Writes a PolicyMappings (4.2.1.5): encodings of its pairs are given one after the other. X509_VALUE where there is none, or one has anyPolicy.
    pub(super) fn x509_policy_mappings_encode(
        mappings: *const u8,
        len: usize,
        out: *mut u8,
        room: usize,
        written: *mut usize,
    ) -> c_int;
    pub(super) fn x509_request_attribute_encode(
        oid: *const u8,
        oid_len: usize,
        values: *const u8,
        values_len: usize,
        out: *mut u8,
        room: usize,
        written: *mut usize,
    ) -> c_int;
    pub(super) fn x509_subject_directory_attributes_encode(
        attributes: *const u8,
        len: usize,
        out: *mut u8,
        room: usize,
        written: *mut usize,
    ) -> c_int;
    pub(super) fn x509_timestamps_encode(
        timestamps: *const u8,
        timestamps_len: usize,
        lens: *const usize,
        count: usize,
        out: *mut u8,
        room: usize,
        written: *mut usize,
    ) -> c_int;
    pub(super) fn x509_subtree_encode(
        base: *const u8,
        len: usize,
        out: *mut u8,
        room: usize,
        written: *mut usize,
    ) -> c_int;
    pub(super) fn x509_name_constraints_encode(
        permitted: *const u8,
        permitted_len: usize,
        excluded: *const u8,
        excluded_len: usize,
        out: *mut u8,
        room: usize,
        written: *mut usize,
    ) -> c_int;
    pub(super) fn x509_distribution_point_encode(
        full_name: *const u8,
        full_name_len: usize,
        relative_name: *const u8,
        relative_name_len: usize,
        has_reasons: u32,
        reasons: u32,
        crl_issuer: *const u8,
        crl_issuer_len: usize,
        out: *mut u8,
        room: usize,
        written: *mut usize,
    ) -> c_int;
    pub(super) fn x509_distribution_points_encode(
        points: *const u8,
        len: usize,
        out: *mut u8,
        room: usize,
        written: *mut usize,
    ) -> c_int;
    pub(super) fn x509_issuing_distribution_point_encode(
        view: *const IssuingDistributionPointView,
        full_name: *const u8,
        full_name_len: usize,
        relative_name: *const u8,
        relative_name_len: usize,
        out: *mut u8,
        room: usize,
        written: *mut usize,
    ) -> c_int;
    pub(super) fn x509_element_encode(
        identifier: u32,
        content: *const u8,
        len: usize,
        out: *mut u8,
        room: usize,
        written: *mut usize,
    ) -> c_int;
    pub(super) fn x509_name_next(
        name: *const u8,
        len: usize,
        at: *mut usize,
        found: *mut Span,
    ) -> c_int;
    pub(super) fn x509_relative_name_next(
        rdn: *const u8,
        len: usize,
        at: *mut usize,
        found: *mut Attribute,
    ) -> c_int;
    pub(super) fn x509_relative_name_under_next(
        number: u32,
        rdn: *const u8,
        len: usize,
        at: *mut usize,
        found: *mut Attribute,
    ) -> c_int;
    pub(super) fn x509_name_find(
        name: *const u8,
        len: usize,
        oid: *const u8,
        oid_len: usize,
        found: *mut Attribute,
    ) -> c_int;
    pub(super) fn x509_names_match(
        a: *const u8,
        a_len: usize,
        b: *const u8,
        b_len: usize,
        matches: *mut u32,
    ) -> c_int;
    pub(super) fn x509_names_equal(
        a: *const u8,
        a_len: usize,
        b: *const u8,
        b_len: usize,
        equal: *mut u32,
    ) -> c_int;
    pub(super) fn x509_attribute_encode(
        oid: *const u8,
        oid_len: usize,
        string_type: u32,
        text: *const u8,
        text_len: usize,
        is_bounded: u32,
        out: *mut u8,
        room: usize,
        written: *mut usize,
    ) -> c_int;
    pub(super) fn x509_relative_name_encode(
        attributes: *const u8,
        attributes_len: usize,
        out: *mut u8,
        room: usize,
        written: *mut usize,
    ) -> c_int;
    pub(super) fn x509_name_build(
        relative_names: *const u8,
        relative_names_len: usize,
        out: *mut u8,
        room: usize,
        written: *mut usize,
    ) -> c_int;
    pub(super) fn x509_name_escape(
        text: *const u8,
        text_len: usize,
        out: *mut u8,
        room: usize,
        written: *mut usize,
    ) -> c_int;
    pub(super) fn x509_string_text(
        element: *const u8,
        len: usize,
        out: *mut u8,
        room: usize,
        written: *mut usize,
    ) -> c_int;
    pub(super) fn x509_serial_number(input: *const u8, len: usize, found: *mut Span) -> c_int;
    pub(super) fn x509_serial_text(
        content: *const u8,
        len: usize,
        out: *mut u8,
        room: usize,
        written: *mut usize,
    ) -> c_int;
    pub(super) fn x509_serial_decimal(
        content: *const u8,
        len: usize,
        out: *mut u8,
        room: usize,
        written: *mut usize,
    ) -> c_int;
    pub(super) fn x509_time_text(
        moment: u64,
        out: *mut u8,
        room: usize,
        written: *mut usize,
    ) -> c_int;
    pub(super) fn x509_time_from_text(text: *const u8, len: usize, moment: *mut u64) -> c_int;
    pub(super) fn x509_status_text(
        status: c_int,
        out: *mut u8,
        room: usize,
        written: *mut usize,
    ) -> c_int;
    /// The version of this header, and that of the library that is linked, as one number: 65,536 * MAJOR + 256 * MINOR + PATCH.
    pub(super) fn x509_version() -> u32;
    pub(super) fn x509_server_name_view(
        text: *const u8,
        len: usize,
        name: *mut ServerName,
    ) -> c_int;
    pub(super) fn x509_email_address_view(
        text: *const u8,
        len: usize,
        address: *mut EmailAddress,
    ) -> c_int;
    pub(super) fn x509_certificate_matches_name(
        input: *const u8,
        len: usize,
        name: *const u8,
        name_len: usize,
        matches: *mut u32,
    ) -> c_int;
    pub(super) fn x509_certificate_matches_email(
        input: *const u8,
        len: usize,
        address: *const u8,
        address_len: usize,
        matches: *mut u32,
    ) -> c_int;
    /// Checks a certificate under RFC 5280, and says what is to be verified of it. No memory is taken.
    pub(super) fn x509_certificate_signature(
        input: *const u8,
        len: usize,
        signature: *mut Signature,
    ) -> c_int;
    pub(super) fn x509_certificate_out_of_date(
        input: *const u8,
        len: usize,
        moment: u64,
        side: *mut u32,
    ) -> c_int;
    pub(super) fn x509_path_check(
        anchor: *const u8,
        anchor_len: usize,
        path: *const u8,
        path_len: usize,
        lens: *const usize,
        count: usize,
        moment: u64,
        fault: *mut PathFault,
    ) -> c_int;
    pub(super) fn x509_path_validate(
        anchor: *const u8,
        anchor_len: usize,
        path: *const u8,
        path_len: usize,
        lens: *const usize,
        count: usize,
        name_constraints: *const u8,
        name_constraints_len: usize,
        policies: *const u8,
        policies_len: usize,
        settings: *const PathSettings,
        settings_size: usize,
        out: *mut u8,
        room: usize,
        answer: *mut PathAnswer,
    ) -> c_int;
    /// The same under a name and a public key that are trusted, a whole Name and a whole SubjectPublicKeyInfo.
    pub(super) fn x509_path_validate_under_key(
        name: *const u8,
        name_len: usize,
        key: *const u8,
        key_len: usize,
        path: *const u8,
        path_len: usize,
        lens: *const usize,
        count: usize,
        name_constraints: *const u8,
        name_constraints_len: usize,
        policies: *const u8,
        policies_len: usize,
        settings: *const PathSettings,
        settings_size: usize,
        out: *mut u8,
        room: usize,
        answer: *mut PathAnswer,
    ) -> c_int;
    pub(super) fn x509_path_validate_under_anchor(
        anchor: *const u8,
        anchor_len: usize,
        path: *const u8,
        path_len: usize,
        lens: *const usize,
        count: usize,
        name_constraints: *const u8,
        name_constraints_len: usize,
        policies: *const u8,
        policies_len: usize,
        settings: *const PathSettings,
        settings_size: usize,
        out: *mut u8,
        room: usize,
        answer: *mut PathAnswer,
    ) -> c_int;
    pub(super) fn x509_path_validate_views(
        anchor: *const u8,
        anchor_len: usize,
        path: *const u8,
        path_len: usize,
        lens: *const usize,
        count: usize,
        name_constraints: *const u8,
        name_constraints_len: usize,
        policies: *const u8,
        policies_len: usize,
        settings: *const PathSettings,
        settings_size: usize,
        out: *mut u8,
        room: usize,
        answer: *mut PathAnswer,
        certificates: *mut PathCertificate,
        certificate_room: usize,
    ) -> c_int;
    /// Under a name and a public key, as x509_path_validate_under_key.
    pub(super) fn x509_path_validate_views_under_key(
        name: *const u8,
        name_len: usize,
        key: *const u8,
        key_len: usize,
        path: *const u8,
        path_len: usize,
        lens: *const usize,
        count: usize,
        name_constraints: *const u8,
        name_constraints_len: usize,
        policies: *const u8,
        policies_len: usize,
        settings: *const PathSettings,
        settings_size: usize,
        out: *mut u8,
        room: usize,
        answer: *mut PathAnswer,
        certificates: *mut PathCertificate,
        certificate_room: usize,
    ) -> c_int;
    /// Under a trust anchor, as x509_path_validate_under_anchor.
    pub(super) fn x509_path_validate_views_under_anchor(
        anchor: *const u8,
        anchor_len: usize,
        path: *const u8,
        path_len: usize,
        lens: *const usize,
        count: usize,
        name_constraints: *const u8,
        name_constraints_len: usize,
        policies: *const u8,
        policies_len: usize,
        settings: *const PathSettings,
        settings_size: usize,
        out: *mut u8,
        room: usize,
        answer: *mut PathAnswer,
        certificates: *mut PathCertificate,
        certificate_room: usize,
    ) -> c_int;
    pub(super) fn x509_path_find(
        bytes: *const u8,
        len: usize,
        anchors: *const Span,
        anchor_count: usize,
        candidates: *const Span,
        candidate_count: usize,
        leaf: *const Span,
        bad: *const BadLink,
        bad_count: usize,
        name_constraints: *const u8,
        name_constraints_len: usize,
        policies: *const u8,
        policies_len: usize,
        settings: *const PathSettings,
        settings_size: usize,
        max_depth: u32,
        path: *mut usize,
        room: usize,
        found: *mut FoundPath,
    ) -> c_int;
    /// Checks a CRL of v1 or v2 under RFC 5280, and says how many entries it has. It takes no memory.
    pub(super) fn x509_crl_walk(input: *const u8, len: usize, entries: *mut usize) -> c_int;
    pub(super) fn x509_crl_lookup(
        input: *const u8,
        len: usize,
        serial_number: *const u8,
        serial_number_len: usize,
        revocation: *mut Revocation,
    ) -> c_int;
    /// Checks a CRL of v1 or v2 under RFC 5280, and says what it holds and where. It takes no memory.
    pub(super) fn x509_crl_view(input: *const u8, len: usize, view: *mut Crl) -> c_int;
    pub(super) fn x509_crl_entry_next(
        value: *const u8,
        len: usize,
        at: *mut usize,
        found: *mut CrlEntry,
    ) -> c_int;
    pub(super) fn x509_crl_issued_next(
        value: *const u8,
        len: usize,
        at: *mut usize,
        issuer: *mut Span,
        found: *mut CrlEntry,
    ) -> c_int;
    pub(super) fn x509_crl_entry_find(
        value: *const u8,
        len: usize,
        serial_number: *const u8,
        serial_number_len: usize,
        found: *mut CrlEntry,
    ) -> c_int;
    pub(super) fn x509_crl_index(
        value: *const u8,
        len: usize,
        index: *mut u32,
        room: usize,
        written: *mut usize,
    ) -> c_int;
    pub(super) fn x509_crl_index_find(
        value: *const u8,
        len: usize,
        index: *const u32,
        count: usize,
        serial_number: *const u8,
        serial_number_len: usize,
        found: *mut CrlEntry,
    ) -> c_int;
    pub(super) fn x509_may_sign_crls(
        certificate: *const u8,
        certificate_len: usize,
        may_sign: *mut u32,
    ) -> c_int;
    pub(super) fn x509_revocation_status(
        certificate: *const u8,
        certificate_len: usize,
        input: *const u8,
        len: usize,
        crls: *const SignedCrl,
        count: usize,
        settings: *const RevocationSettings,
        settings_size: usize,
        answer: *mut RevocationAnswer,
    ) -> c_int;
    pub(super) fn x509_crl_fault(
        certificate: *const u8,
        certificate_len: usize,
        input: *const u8,
        len: usize,
        crls: *const SignedCrl,
        count: usize,
        settings: *const RevocationSettings,
        settings_size: usize,
        index: usize,
        fault: *mut u32,
    ) -> c_int;
    /// Checks a CSR, and says what it holds and where. No memory is taken.
    pub(super) fn x509_request_view(input: *const u8, len: usize, view: *mut Request) -> c_int;
    pub(super) fn x509_request_attribute_next(
        value: *const u8,
        len: usize,
        at: *mut usize,
        found: *mut RequestAttribute,
    ) -> c_int;
    pub(super) fn x509_request_attribute_find(
        input: *const u8,
        len: usize,
        oid: *const u8,
        oid_len: usize,
        found: *mut RequestAttribute,
    ) -> c_int;
    /// The attributes of a SubjectDirectoryAttributes (2.5.29.9), one after the other.
    pub(super) fn x509_subject_directory_attributes_next(
        value: *const u8,
        len: usize,
        at: *mut usize,
        found: *mut RequestAttribute,
    ) -> c_int;
    /// The values of an attribute, a SET, one after the other. Whether they are in order, and all different, isn't looked at.
    pub(super) fn x509_attribute_value_next(
        value: *const u8,
        len: usize,
        at: *mut usize,
        found: *mut Element,
    ) -> c_int;
    pub(super) fn x509_request_extensions(input: *const u8, len: usize, found: *mut Span) -> c_int;
    pub(super) fn x509_key_view(input: *const u8, len: usize, view: *mut Key) -> c_int;
    pub(super) fn x509_working_key(
        above: *const u8,
        above_len: usize,
        key: *const u8,
        key_len: usize,
        out: *mut u8,
        room: usize,
        written: *mut usize,
    ) -> c_int;
    pub(super) fn x509_rsa_key_view(input: *const u8, len: usize, view: *mut RsaKey) -> c_int;
    /// Decodes an AlgorithmIdentifier, such as `algorithm` of x509_signature, and says what it holds and where.
    pub(super) fn x509_algorithm_view(input: *const u8, len: usize, view: *mut Algorithm) -> c_int;
    /// Decodes a TrustAnchorChoice (RFC 5914 3) under RFC 5280, and says what it holds and where.
    pub(super) fn x509_anchor_view(input: *const u8, len: usize, view: *mut Anchor) -> c_int;
    /// Decodes a CertPathControls (RFC 5914 2.5) under RFC 5280, as `controls` of x509_anchor, and says what it holds and where.
    pub(super) fn x509_path_controls_view(
        value: *const u8,
        len: usize,
        view: *mut PathControls,
    ) -> c_int;
    pub(super) fn x509_certificate_text(
        input: *const u8,
        len: usize,
        out: *mut u8,
        room: usize,
        written: *mut usize,
    ) -> c_int;
    pub(super) fn x509_certificate_json(
        input: *const u8,
        len: usize,
        out: *mut u8,
        room: usize,
        written: *mut usize,
    ) -> c_int;
    pub(super) fn x509_crl_text(
        input: *const u8,
        len: usize,
        out: *mut u8,
        room: usize,
        written: *mut usize,
    ) -> c_int;
    pub(super) fn x509_crl_json(
        input: *const u8,
        len: usize,
        out: *mut u8,
        room: usize,
        written: *mut usize,
    ) -> c_int;
    pub(super) fn x509_request_text(
        input: *const u8,
        len: usize,
        out: *mut u8,
        room: usize,
        written: *mut usize,
    ) -> c_int;
    pub(super) fn x509_request_json(
        input: *const u8,
        len: usize,
        out: *mut u8,
        room: usize,
        written: *mut usize,
    ) -> c_int;
    pub(super) fn x509_anchor_text(
        input: *const u8,
        len: usize,
        out: *mut u8,
        room: usize,
        written: *mut usize,
    ) -> c_int;
    pub(super) fn x509_anchor_json(
        input: *const u8,
        len: usize,
        out: *mut u8,
        room: usize,
        written: *mut usize,
    ) -> c_int;
    pub(super) fn x509_certificate_lint(
        input: *const u8,
        len: usize,
        out: *mut u8,
        room: usize,
        written: *mut usize,
    ) -> c_int;
    pub(super) fn x509_crl_lint(
        input: *const u8,
        len: usize,
        out: *mut u8,
        room: usize,
        written: *mut usize,
    ) -> c_int;
    pub(super) fn x509_request_lint(
        input: *const u8,
        len: usize,
        out: *mut u8,
        room: usize,
        written: *mut usize,
    ) -> c_int;
    pub(super) fn x509_anchor_lint(
        input: *const u8,
        len: usize,
        out: *mut u8,
        room: usize,
        written: *mut usize,
    ) -> c_int;
    pub(super) fn x509_finding_next(
        lines: *const u8,
        len: usize,
        at: *mut usize,
        found: *mut Finding,
    ) -> c_int;
    pub(super) fn x509_timestamp_next(
        value: *const u8,
        len: usize,
        at: *mut usize,
        found: *mut Span,
    ) -> c_int;
    pub(super) fn x509_timestamp_view(input: *const u8, len: usize, view: *mut Timestamp) -> c_int;
    pub(super) fn x509_timestamp_signed_data(
        timestamp: *const u8,
        timestamp_len: usize,
        certificate: *const u8,
        certificate_len: usize,
        issuer: *const u8,
        issuer_len: usize,
        out: *mut u8,
        room: usize,
        written: *mut usize,
    ) -> c_int;
    pub(super) fn x509_timestamp_signed_data_beside(
        timestamp: *const u8,
        timestamp_len: usize,
        certificate: *const u8,
        certificate_len: usize,
        out: *mut u8,
        room: usize,
        written: *mut usize,
    ) -> c_int;
    pub(super) fn x509_logged_part(
        certificate: *const u8,
        certificate_len: usize,
        out: *mut u8,
        room: usize,
        written: *mut usize,
    ) -> c_int;
    pub(super) fn x509_logged_precertificate(
        precertificate: *const u8,
        precertificate_len: usize,
        out: *mut u8,
        room: usize,
        written: *mut usize,
    ) -> c_int;
    pub(super) fn x509_logged_precertificate_signed_by(
        precertificate: *const u8,
        precertificate_len: usize,
        signing: *const u8,
        signing_len: usize,
        out: *mut u8,
        room: usize,
        written: *mut usize,
    ) -> c_int;
    pub(super) fn x509_log_leaf_view(input: *const u8, len: usize, view: *mut LogLeaf) -> c_int;
    pub(super) fn x509_log_precertificate_view(
        input: *const u8,
        len: usize,
        view: *mut LogPrecertificate,
    ) -> c_int;
    pub(super) fn x509_log_chain_next(
        input: *const u8,
        len: usize,
        at: *mut usize,
        found: *mut Span,
    ) -> c_int;
    pub(super) fn x509_tree_head_signed_data(
        timestamp: u64,
        tree_size: u64,
        root_hash: *const u8,
        root_hash_len: usize,
        out: *mut u8,
        room: usize,
        written: *mut usize,
    ) -> c_int;
    /// Writes the hash of a leaf: of a byte 0 and the entry. Rooms are as said under whole values; it takes no memory.
    pub(super) fn x509_merkle_leaf_hash(
        entry: *const u8,
        entry_len: usize,
        out: *mut u8,
        room: usize,
        written: *mut usize,
    ) -> c_int;
    pub(super) fn x509_merkle_inclusion(
        leaf_hash: *const u8,
        leaf_hash_len: usize,
        index: u64,
        size: u64,
        path: *const u8,
        path_len: usize,
        root: *const u8,
        root_len: usize,
    ) -> c_int;
    pub(super) fn x509_merkle_consistency(
        old_size: u64,
        new_size: u64,
        old_root: *const u8,
        old_root_len: usize,
        new_root: *const u8,
        new_root_len: usize,
        proof: *const u8,
        proof_len: usize,
    ) -> c_int;
    pub(super) fn x509_extension_encode(
        oid: *const u8,
        oid_len: usize,
        critical: u32,
        value: *const u8,
        value_len: usize,
        out: *mut u8,
        room: usize,
        written: *mut usize,
    ) -> c_int;
    pub(super) fn x509_crl_entry_encode(
        serial_number: *const u8,
        serial_number_len: usize,
        date: u64,
        extensions: *const u8,
        extensions_len: usize,
        out: *mut u8,
        room: usize,
        written: *mut usize,
    ) -> c_int;
    pub(super) fn x509_build_request(
        subject: *const u8,
        subject_len: usize,
        key: *const u8,
        key_len: usize,
        attributes: *const u8,
        attributes_len: usize,
        extensions: *const u8,
        extensions_len: usize,
        out: *mut u8,
        room: usize,
        written: *mut usize,
    ) -> c_int;
    pub(super) fn x509_build_certificate(
        serial_number: *const u8,
        serial_number_len: usize,
        algorithm: *const u8,
        algorithm_len: usize,
        issuer: *const u8,
        issuer_len: usize,
        not_before: u64,
        not_after: u64,
        subject: *const u8,
        subject_len: usize,
        key: *const u8,
        key_len: usize,
        extensions: *const u8,
        extensions_len: usize,
        out: *mut u8,
        room: usize,
        written: *mut usize,
    ) -> c_int;
    pub(super) fn x509_build_root(
        serial_number: *const u8,
        serial_number_len: usize,
        algorithm: *const u8,
        algorithm_len: usize,
        not_before: u64,
        not_after: u64,
        subject: *const u8,
        subject_len: usize,
        key: *const u8,
        key_len: usize,
        signs_ocsp_responses: u32,
        extensions: *const u8,
        extensions_len: usize,
        out: *mut u8,
        room: usize,
        written: *mut usize,
    ) -> c_int;
    pub(super) fn x509_build_subordinate(
        serial_number: *const u8,
        serial_number_len: usize,
        algorithm: *const u8,
        algorithm_len: usize,
        issuer: *const u8,
        issuer_len: usize,
        issuer_key: *const u8,
        issuer_key_len: usize,
        not_before: u64,
        not_after: u64,
        subject: *const u8,
        subject_len: usize,
        key: *const u8,
        key_len: usize,
        has_path_len: u32,
        path_len: u32,
        signs_ocsp_responses: u32,
        client_auth: u32,
        extensions: *const u8,
        extensions_len: usize,
        out: *mut u8,
        room: usize,
        written: *mut usize,
    ) -> c_int;
    pub(super) fn x509_build_subscriber(
        serial_number: *const u8,
        serial_number_len: usize,
        algorithm: *const u8,
        algorithm_len: usize,
        issuer: *const u8,
        issuer_len: usize,
        issuer_key: *const u8,
        issuer_key_len: usize,
        not_before: u64,
        not_after: u64,
        subject: *const u8,
        subject_len: usize,
        key: *const u8,
        key_len: usize,
        client_auth: u32,
        key_encipherment: u32,
        key_agreement: u32,
        data_encipherment: u32,
        extensions: *const u8,
        extensions_len: usize,
        out: *mut u8,
        room: usize,
        written: *mut usize,
    ) -> c_int;
    pub(super) fn x509_build_device(
        serial_number: *const u8,
        serial_number_len: usize,
        algorithm: *const u8,
        algorithm_len: usize,
        issuer: *const u8,
        issuer_len: usize,
        issuer_key: *const u8,
        issuer_key_len: usize,
        not_before: u64,
        not_after: u64,
        subject: *const u8,
        subject_len: usize,
        key: *const u8,
        key_len: usize,
        names: *const u8,
        names_len: usize,
        extensions: *const u8,
        extensions_len: usize,
        out: *mut u8,
        room: usize,
        written: *mut usize,
    ) -> c_int;
    pub(super) fn x509_build_crl(
        issuer: *const u8,
        issuer_len: usize,
        algorithm: *const u8,
        algorithm_len: usize,
        number: *const u8,
        number_len: usize,
        this_update: u64,
        has_next_update: u32,
        next_update: u64,
        entries: *const u8,
        entries_len: usize,
        extensions: *const u8,
        extensions_len: usize,
        out: *mut u8,
        room: usize,
        written: *mut usize,
    ) -> c_int;
    pub(super) fn x509_assemble(
        part: *const u8,
        part_len: usize,
        algorithm: *const u8,
        algorithm_len: usize,
        signature: *const u8,
        signature_len: usize,
        out: *mut u8,
        room: usize,
        written: *mut usize,
    ) -> c_int;
}
