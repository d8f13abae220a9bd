//! Extensions that are about keys.
use super::{all, given, ExtensionValue};
use crate::error::Error;
use crate::ffi;
use crate::general_name::{GeneralName, GeneralNames};
use crate::integer::Integer;
use crate::oid::{self, ObjectIdentifier};

/// Whether the key may sign certificates, and how many authorities may follow (RFC 5280 4.2.1.9).
#[derive(Clone, Copy, Debug, PartialEq, Eq, Hash)]
pub struct BasicConstraints {
    /// Whether the key may sign certificates.
    pub ca: bool,

    /// How many authorities may follow at most, where that is limited.
    pub path_len_constraint: Option<u32>,
}

impl ExtensionValue<'_> for BasicConstraints {
    const OID: ObjectIdentifier = oid::extension::BASIC_CONSTRAINTS;

    /// A path length above 255 is refused.
    fn from_der(value: &[u8]) -> Result<BasicConstraints, Error> {
        let view = ffi::BASIC_CONSTRAINTS.of(value)?;
        Ok(BasicConstraints {
            ca: view.ca == 1,
            path_len_constraint: given(view.has_path_len, view.path_len),
        })
    }
}

/// Purposes of a key (RFC 5280 4.2.1.12); see [`oid::purpose`].
#[derive(Clone, Debug, PartialEq, Eq, Hash)]
pub struct ExtendedKeyUsage(pub Vec<ObjectIdentifier>);

impl ExtensionValue<'_> for ExtendedKeyUsage {
    const OID: ObjectIdentifier = oid::extension::EXTENDED_KEY_USAGE;

    fn from_der(value: &[u8]) -> Result<ExtendedKeyUsage, Error> {
        let found = all(ffi::EXTENDED_KEY_USAGE.over(value), |span, data| {
            ObjectIdentifier::found(span.of(data)?)
        });
        found.map(ExtendedKeyUsage)
    }
}

/// The identifier of the certified key (RFC 5280 4.2.1.2).
#[derive(Clone, Copy, Debug, PartialEq, Eq, Hash)]
pub struct SubjectKeyIdentifier<'a>(pub &'a [u8]);

impl<'a> ExtensionValue<'a> for SubjectKeyIdentifier<'a> {
    const OID: ObjectIdentifier = oid::extension::SUBJECT_KEY_IDENTIFIER;

    fn from_der(value: &'a [u8]) -> Result<SubjectKeyIdentifier<'a>, Error> {
        ffi::SUBJECT_KEY_IDENTIFIER
            .of(value)?
            .of(value)
            .map(SubjectKeyIdentifier)
    }
}

/// Which key signed (RFC 5280 4.2.1.1).
#[derive(Clone, Debug, PartialEq, Eq)]
pub struct AuthorityKeyIdentifier<'a> {
    /// The identifier of the key.
    pub key_identifier: Option<&'a [u8]>,

    /// The names of the issuer of the key's certificate.
    pub authority_cert_issuer: Option<Vec<GeneralName<'a>>>,

    /// The serial number of the key's certificate.
    pub authority_cert_serial_number: Option<Integer<'a>>,
}

impl<'a> ExtensionValue<'a> for AuthorityKeyIdentifier<'a> {
    const OID: ObjectIdentifier = oid::extension::AUTHORITY_KEY_IDENTIFIER;

    /// A serial number of more than 21 content octets is refused.
    fn from_der(value: &'a [u8]) -> Result<AuthorityKeyIdentifier<'a>, Error> {
        let view = ffi::AUTHORITY_KEY_IDENTIFIER.of(value)?;
        let issuer = view.issuer.part(value)?;
        let names = |part| GeneralNames::under(&ffi::GENERAL_NAMES_UNDER_1, part).collect();
        Ok(AuthorityKeyIdentifier {
            key_identifier: view.key_identifier.part(value)?,
            authority_cert_issuer: issuer.map(names).transpose()?,
            authority_cert_serial_number: view.serial_number.part(value)?.map(Integer),
        })
    }
}
