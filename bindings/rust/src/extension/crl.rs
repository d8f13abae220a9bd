//! Extensions of CRLs and of their entries.
use super::ExtensionValue;
use crate::error::Error;
use crate::ffi;
use crate::integer::Integer;
use crate::numbered::numbered;
use crate::oid::{self, ObjectIdentifier};

/// The number of a CRL (RFC 5280 5.2.3).
#[derive(Clone, Copy, Debug, PartialEq, Eq, Hash)]
pub struct CrlNumber<'a>(pub Integer<'a>);

impl<'a> ExtensionValue<'a> for CrlNumber<'a> {
    const OID: ObjectIdentifier = oid::extension::CRL_NUMBER;

    /// A number below 0 is refused.
    fn from_der(value: &'a [u8]) -> Result<CrlNumber<'a>, Error> {
        let content = ffi::CRL_NUMBER.of(value)?.of(value)?;
        Ok(CrlNumber(Integer(content)))
    }
}

/// The number of the CRL that a delta CRL stands on (RFC 5280 5.2.4).
#[derive(Clone, Copy, Debug, PartialEq, Eq, Hash)]
pub struct BaseCrlNumber<'a>(pub Integer<'a>);

impl<'a> ExtensionValue<'a> for BaseCrlNumber<'a> {
    const OID: ObjectIdentifier = oid::extension::DELTA_CRL_INDICATOR;

    /// A number below 0 is refused.
    fn from_der(value: &'a [u8]) -> Result<BaseCrlNumber<'a>, Error> {
        let content = ffi::BASE_CRL_NUMBER.of(value)?.of(value)?;
        Ok(BaseCrlNumber(Integer(content)))
    }
}

numbered! {
    /// Why a certificate was revoked (RFC 5280 5.3.1).
    #[derive(Clone, Copy, Debug, PartialEq, Eq, PartialOrd, Ord, Hash)]
    pub enum CrlReason {
        /// No reason is said.
        Unspecified = 0,
        /// The key is known to another.
        KeyCompromise = 1,
        /// The key of the authority is known to another.
        CaCompromise = 2,
        /// The name of the subject, or what else was certified, changed.
        AffiliationChanged = 3,
        /// Another certificate stands in its place.
        Superseded = 4,
        /// It isn't needed any more.
        CessationOfOperation = 5,
        /// It is held for some time.
        CertificateHold = 6,
        /// It isn't held any more, as a delta CRL says.
        RemoveFromCrl = 8,
        /// A privilege was taken from the subject.
        PrivilegeWithdrawn = 9,
        /// The key of the authority of attributes is known to another.
        AaCompromise = 10,
    }
}

impl ExtensionValue<'_> for CrlReason {
    const OID: ObjectIdentifier = oid::extension::CRL_REASON;

    fn from_der(value: &[u8]) -> Result<CrlReason, Error> {
        CrlReason::found(ffi::CRL_REASON.of(value)?)
    }
}
