//! Extensions that hold nothing but that they are there, and the one of features of TLS.
use super::ExtensionValue;
use crate::elements::{numbers, only};
use crate::error::Error;
use crate::integer::Integer;
use crate::oid::{self, ObjectIdentifier};
use crate::writing::NULL;

/// What marks a precertificate (RFC 6962 3.1).
#[derive(Clone, Copy, Debug, Default, PartialEq, Eq, Hash)]
pub struct PrecertPoison;

impl ExtensionValue<'_> for PrecertPoison {
    const OID: ObjectIdentifier = oid::extension::PRECERT_POISON;

    fn from_der(value: &[u8]) -> Result<PrecertPoison, Error> {
        mark(value).map(|()| PrecertPoison)
    }
}

/// What says of a responder's certificate that its revocation isn't looked up (RFC 6960 4.2.2.2.1).
#[derive(Clone, Copy, Debug, Default, PartialEq, Eq, Hash)]
pub struct OcspNoCheck;

impl ExtensionValue<'_> for OcspNoCheck {
    const OID: ObjectIdentifier = oid::extension::OCSP_NO_CHECK;

    fn from_der(value: &[u8]) -> Result<OcspNoCheck, Error> {
        mark(value).map(|()| OcspNoCheck)
    }
}

/// A NULL, and nothing else.
fn mark(value: &[u8]) -> Result<(), Error> {
    match only(value, NULL)? {
        [] => Ok(()),
        _ => Err(Error::Malformed),
    }
}

/// Extensions of TLS that a server must offer, by their numbers, as 5 for status_request (RFC 7633).
#[derive(Clone, Debug, PartialEq, Eq, Hash)]
pub struct TlsFeature(pub Vec<u16>);

impl ExtensionValue<'_> for TlsFeature {
    const OID: ObjectIdentifier = oid::extension::TLS_FEATURE;

    /// A number that no extension of TLS has is refused: one below 0 or above 65,535.
    fn from_der(value: &[u8]) -> Result<TlsFeature, Error> {
        let found = numbers(value)?.into_iter().map(feature);
        found.collect::<Result<_, _>>().map(TlsFeature)
    }
}

/// The number of an extension of TLS.
fn feature(number: Integer<'_>) -> Result<u16, Error> {
    match *number.as_bytes() {
        [low] => Ok(u16::from(low)),
        [high, low] | [0, high, low] => Ok(u16::from_be_bytes([high, low])),
        _ => Err(Error::Malformed),
    }
}
