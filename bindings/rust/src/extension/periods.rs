//! Extensions of moments.
use super::ExtensionValue;
use crate::error::Error;
use crate::ffi;
use crate::oid::{self, ObjectIdentifier};
use crate::time::moment;
use std::time::SystemTime;

/// When the private key may sign (RFC 3280 4.2.1.4).
#[derive(Clone, Copy, Debug, PartialEq, Eq, Hash)]
pub struct PrivateKeyUsagePeriod {
    /// From when on, where that is said.
    pub not_before: Option<SystemTime>,

    /// Until when, where that is said.
    pub not_after: Option<SystemTime>,
}

impl ExtensionValue<'_> for PrivateKeyUsagePeriod {
    const OID: ObjectIdentifier = oid::extension::PRIVATE_KEY_USAGE_PERIOD;

    fn from_der(value: &[u8]) -> Result<PrivateKeyUsagePeriod, Error> {
        let view = ffi::PRIVATE_KEY_USAGE_PERIOD.of(value)?;
        let said = |has, seconds| (has != 0).then(|| moment(seconds)).transpose();
        Ok(PrivateKeyUsagePeriod {
            not_before: said(view.has_not_before, view.not_before)?,
            not_after: said(view.has_not_after, view.not_after)?,
        })
    }
}

/// Since when the key of a revoked certificate is known or suspected to be known to another, of an entry of a CRL (RFC 5280 5.3.2).
#[derive(Clone, Copy, Debug, PartialEq, Eq, PartialOrd, Ord, Hash)]
pub struct InvalidityDate(pub SystemTime);

impl ExtensionValue<'_> for InvalidityDate {
    const OID: ObjectIdentifier = oid::extension::INVALIDITY_DATE;

    fn from_der(value: &[u8]) -> Result<InvalidityDate, Error> {
        moment(ffi::INVALIDITY_DATE.of(value)?).map(InvalidityDate)
    }
}
