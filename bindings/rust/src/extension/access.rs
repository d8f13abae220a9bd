//! Where more is found about the issuer and the subject.
use super::{all, list};
use crate::error::Error;
use crate::ffi;
use crate::general_name::GeneralName;
use crate::oid::ObjectIdentifier;

/// Where something is found, and by which means (RFC 5280 4.2.2.1); see [`oid::access`](crate::oid::access).
#[derive(Clone, Copy, Debug, PartialEq, Eq, Hash)]
pub struct AccessDescription<'a> {
    /// The identifier of the means.
    pub access_method: ObjectIdentifier,

    /// Where.
    pub access_location: GeneralName<'a>,
}

impl<'a> AccessDescription<'a> {
    fn found(view: &ffi::Access, data: &'a [u8]) -> Result<AccessDescription<'a>, Error> {
        Ok(AccessDescription {
            access_method: ObjectIdentifier::found(view.method.of(data)?)?,
            access_location: GeneralName::found(&view.location, data)?,
        })
    }
}

list! {
    /// Where more is found about the issuer (RFC 5280 4.2.2.1).
    AuthorityInfoAccess, AUTHORITY_INFO_ACCESS, AccessDescription<'a>, |value| all(ffi::ACCESS.over(value), AccessDescription::found)
}

list! {
    /// Where more is found about the subject (RFC 5280 4.2.2.2).
    SubjectInfoAccess, SUBJECT_INFO_ACCESS, AccessDescription<'a>, |value| all(ffi::ACCESS.over(value), AccessDescription::found)
}
