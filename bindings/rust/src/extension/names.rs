//! Extensions of names.
use super::{all, given, list, ExtensionValue};
use crate::error::Error;
use crate::ffi;
use crate::general_name::{GeneralName, GeneralNames};
use crate::oid::{self, ObjectIdentifier};

list! {
    /// Further names of the subject (RFC 5280 4.2.1.6).
    SubjectAltName, SUBJECT_ALT_NAME, GeneralName<'a>, |value| GeneralNames::new(value).collect()
}

list! {
    /// Further names of the issuer (RFC 5280 4.2.1.7).
    IssuerAltName, ISSUER_ALT_NAME, GeneralName<'a>, |value| GeneralNames::new(value).collect()
}

list! {
    /// Who issued the certificate of an entry of a CRL, and those of the entries behind it (RFC 5280 5.3.3).
    CertificateIssuer, CERTIFICATE_ISSUER, GeneralName<'a>, |value| GeneralNames::new(value).collect()
}

/// Names at and below a root.
#[derive(Clone, Copy, Debug, PartialEq, Eq, Hash)]
pub struct GeneralSubtree<'a> {
    /// The name at the root; of an address the octets of a mask stand behind it (see [`GeneralName::ip_network`]).
    pub base: GeneralName<'a>,

    /// How far below the root the subtree begins: 0 in certificates of RFC 5280. That isn't looked at where it is read.
    pub minimum: u32,

    /// Where it ends, which RFC 5280 doesn't allow.
    pub maximum: Option<u32>,
}

impl<'a> GeneralSubtree<'a> {
    pub(crate) fn found(view: &ffi::Subtree, data: &'a [u8]) -> Result<GeneralSubtree<'a>, Error> {
        Ok(GeneralSubtree {
            base: GeneralName::found(&view.base, data)?,
            minimum: view.minimum,
            maximum: given(view.has_maximum, view.maximum),
        })
    }
}

/// Where the names of certificates further down must lie (RFC 5280 4.2.1.10).
#[derive(Clone, Debug, PartialEq, Eq)]
pub struct NameConstraints<'a> {
    /// In one of these.
    pub permitted_subtrees: Option<Vec<GeneralSubtree<'a>>>,

    /// In none of these.
    pub excluded_subtrees: Option<Vec<GeneralSubtree<'a>>>,
}

impl<'a> ExtensionValue<'a> for NameConstraints<'a> {
    const OID: ObjectIdentifier = oid::extension::NAME_CONSTRAINTS;

    /// A minimum or a maximum above 4,294,967,295 is refused.
    fn from_der(value: &'a [u8]) -> Result<NameConstraints<'a>, Error> {
        let view = ffi::NAME_CONSTRAINTS.of(value)?;
        let subtrees = |part: Option<&'a [u8]>, walk: &'static ffi::Walk<ffi::Subtree>| {
            part.map(|it| all(walk.over(it), GeneralSubtree::found))
                .transpose()
        };
        Ok(NameConstraints {
            permitted_subtrees: subtrees(view.permitted.part(value)?, &ffi::SUBTREES_UNDER_0)?,
            excluded_subtrees: subtrees(view.excluded.part(value)?, &ffi::SUBTREES_UNDER_1)?,
        })
    }
}
