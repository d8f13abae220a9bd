//! X.509 certificates, CRLs and names in strict DER (RFC 5280), over the C library of `include/x509.h`, whose answers are proved.
//!
//! All bytes are taken apart by the C library; nothing here parses DER. Whatever goes in, calls answer an [`Error`] and don't panic.
//! Values of extensions that builders take ([`extension::ToExtension`]) are written here, and read back by the library before they are taken. All that is given
//! to a builder is in what it builds, or refused before anything is signed; of moments the parts of a second are left out.
//!
//! ```
//! use x509_rattle::extension::ParsedExtension;
//! use x509_rattle::{oid, time_text, CertificateRef, GeneralName};
//!
//! # let der = include_bytes!("../../../examples/data/certificate.der");
//! let certificate = CertificateRef::from_der(der)?;
//! println!("{} until {}", certificate.subject(), time_text(certificate.validity().not_after)?);
//! if let Some(extension) = certificate.extension(oid::extension::SUBJECT_ALT_NAME)? {
//!     let ParsedExtension::SubjectAltName(names) = extension.parsed()? else {
//!         unreachable!("that is what the identifier stands for")
//!     };
//!     assert!(names.0.contains(&GeneralName::DnsName("www.example.org")));
//! }
//! # Ok::<(), x509_rattle::Error>(())
//! ```
#![deny(unsafe_code)]
#![warn(missing_docs, missing_debug_implementations)]

pub mod algorithm;
mod anchor;
mod builder;
mod certificate;
mod controls;
mod crl;
mod csr;
mod elements;
mod error;
pub mod extension;
#[allow(unsafe_code)]
mod ffi;
mod find;
mod general_name;
mod integer;
mod key;
mod lint;
pub mod log;
pub mod merkle;
mod name;
mod numbered;
pub mod oid;
mod owned;
mod path;
mod peer;
mod revocation;
mod text;
mod time;
mod writing;

pub use anchor::{AnchorKind, TrustAnchor};
pub use builder::{
    BuildError, CertificateBuilder, CertificateProfile, CrlBuilder, CrlEntryBuilder, CsrBuilder,
    Signer,
};
pub use certificate::{
    Certificate, CertificateRef, Signature, UniqueIdentifier, Validity, Version,
};
pub use controls::{PathControls, PolicyFlags};
pub use crl::{Crl, CrlEntries, CrlEntry, CrlIndex, CrlRef, IssuedEntries, Revocation};
pub use csr::{AttributeValue, AttributeValues, Csr, CsrAttribute, CsrAttributes, CsrRef};
pub use error::{Error, ProfilePart};
pub use extension::{Extension, Extensions, ParsedExtension};
pub use find::{
    find_path, find_unrevoked_path, verify_server, FindError, FoundPath, SearchLimits, Store,
    VerifyError, VerifySettings,
};
pub use general_name::{EdiPartyName, GeneralName, GeneralNames};
pub use integer::{Integer, SerialNumber};
pub use key::{AlgorithmIdentifier, KeyKind, PublicKey, RsaPublicKey, SignatureKind};
pub use lint::{Finding, Severity};
pub use name::{
    escape_value, AttributeTypeAndValue, Attributes, Name, NameAttributes, NameBuilder, NameRef,
    Rdns, RelativeDistinguishedName, StringType,
};
pub use oid::ObjectIdentifier;
pub use path::{
    check_path, validate_path, working_key, FaultReason, OutOfDate, PathError, PathFault,
    PathSettings, Trusted, Validated, Verifier,
};
pub use peer::{DnsName, EmailAddress, ServerName};
pub use revocation::{
    crl_faults, may_sign_crls, path_crl_faults, path_revocation_statuses, revocation_status,
    CrlFault, RevocationCheck, RevocationScope, RevocationSettings, RevocationStatus, SignedCrl,
};
pub use time::{time_from_text, time_text};

/// The rules under which a value is read.
#[derive(Clone, Copy, Debug, PartialEq, Eq, Hash)]
pub enum Profile {
    /// Those of RFC 5280.
    Rfc5280 = 0,

    /// None beyond the grammar.
    Raw = 1,
}

/// Reads a value of the type with that name, as `Certificate` or `Name`, under a profile, and writes it again: the same bytes, but for dates of a
/// validity that RFC 5280 spells otherwise, under [`Profile::Rfc5280`].
///
/// The types: AccessDescription, AlgorithmIdentifier, Any, Attribute, AttributeTypeAndValue, AuthorityInfoAccessSyntax, AuthorityKeyIdentifier, BaseCrlNumber,
/// BasicConstraints, BitString, BmpString, CertPathControls, CertPolicies, CertReq, CertReqInfo, Certificate, CertificateIssuer, CertificateList,
/// CertificatePolicies, CrlDistributionPoints, CrlNumber, CrlReason, DirectoryString, DisplayText, DistributionPoint, DistributionPointName, EdiPartyName,
/// ExtendedKeyUsage, Extension, ExtensionReq, Extensions, FreshestCrl, GeneralName, GeneralNames, GeneralSubtree, GeneralizedTime, HardwareModuleName,
/// Ia5String, InhibitAnyPolicy, Int, IssuerAltName, IssuingDistributionPoint, KeyUsage, Name, NameConstraints, NoticeReference, ObjectIdentifier, OctetString,
/// OtherName, PkiPath, PolicyConstraints, PolicyInformation, PolicyMapping, PolicyMappings, PolicyQualifierInfo, PrintableString, PrivateKeyUsagePeriod,
/// RdnSequence, Reasons, RelativeDistinguishedName, RevokedCert, SerialNumber, SignedCertificateTimestampList, SubjectAltName, SubjectDirectoryAttributes,
/// SubjectInfoAccessSyntax, SubjectKeyIdentifier, SubjectPublicKeyInfo, TbsCertList, TbsCertificate, TeletexString, Time, TrustAnchorChoice, TrustAnchorInfo,
/// Uint, UserNotice, UtcTime, Utf8String, Validity, Version, VisibleString, bool, u128, u16, u32, u64, u8.
///
/// ```
/// use x509_rattle::{reencode, Error, Profile};
///
/// assert_eq!(reencode("Name", Profile::Raw, b"\x30\x00")?, b"\x30\x00");
/// assert_eq!(reencode("Nothing", Profile::Raw, b"\x30\x00"), Err(Error::UnknownType));
/// # Ok::<(), Error>(())
/// ```
///
/// # Errors
/// [`Error::UnknownType`] where there is no such type; [`Error::Malformed`] or [`Error::Overlength`] where the bytes are no value of it; [`Error::Memory`].
pub fn reencode(kind: &str, profile: Profile, der: &[u8]) -> Result<Vec<u8>, Error> {
    ffi::reencode(kind, profile as u32, der)
}

/// The version of the C library that is linked: major, minor and patch.
pub fn library_version() -> (u32, u32, u32) {
    let number = ffi::version();
    (number >> 16, number >> 8 & 0xff, number & 0xff)
}

/// The examples of `README.md`.
#[cfg(doctest)]
#[doc = include_str!("../README.md")]
struct Readme;
