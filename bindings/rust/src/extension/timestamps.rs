//! Signed certificate timestamps, SCTs (RFC 6962).
use super::{all, ExtensionValue};
use crate::certificate::CertificateRef;
use crate::error::Error;
use crate::ffi;
use crate::oid::{self, ObjectIdentifier};
use std::time::{Duration, SystemTime, UNIX_EPOCH};

/// A log's promise to have a certificate (RFC 6962 3.2), of version 1.
#[derive(Clone, Copy, Debug, PartialEq, Eq, Hash)]
pub struct SignedCertificateTimestamp<'a> {
    /// The ID of the log, 32 octets.
    pub log_id: &'a [u8],

    /// The milliseconds since 1970-01-01T00:00:00Z.
    pub milliseconds: u64,

    /// The octets of extensions, of which version 1 has none.
    pub extensions: &'a [u8],

    /// The number of the hash algorithm of the signature (RFC 5246 7.4.1.4.1).
    pub hash: u32,

    /// The number of its signature algorithm (RFC 5246 7.4.1.4.1).
    pub signature_algorithm: u32,

    /// The octets of the signature.
    pub signature: &'a [u8],
}

impl<'a> SignedCertificateTimestamp<'a> {
    /// The timestamp that the octets are, all of them.
    ///
    /// # Errors
    /// [`Error::Malformed`] where they are none of version 1 with known algorithms; [`Error::Memory`].
    pub fn from_bytes(data: &'a [u8]) -> Result<SignedCertificateTimestamp<'a>, Error> {
        let view = ffi::TIMESTAMP.of(data)?;
        Ok(SignedCertificateTimestamp {
            log_id: view.log_id.of(data)?,
            milliseconds: view.timestamp,
            extensions: view.extensions.of(data)?,
            hash: view.hash,
            signature_algorithm: view.signature_algorithm,
            signature: view.signature.of(data)?,
        })
    }

    /// What the signature of a timestamp within the certificate is over (RFC 6962 3.2, `precert_entry`), by the octets of the timestamp and the certificate of
    /// the issuer. It is to be verified with the log's key. Whether the issuer issued the certificate, and whether it has that timestamp, isn't looked at.
    ///
    /// # Errors
    /// [`Error::Absent`] where the certificate has no list of timestamps, [`Error::Repeated`] where it has two or more; [`Error::Malformed`] where the octets
    /// are no timestamp of version 1 with known algorithms; [`Error::Overlength`] where the signed part without timestamps has more than 16,777,215 octets;
    /// [`Error::Memory`].
    pub fn signed_data(
        octets: &[u8],
        certificate: CertificateRef<'_>,
        issuer: CertificateRef<'_>,
    ) -> Result<Vec<u8>, Error> {
        ffi::timestamp_signed_data(octets, certificate.as_der(), issuer.as_der())
    }

    /// The same of a timestamp that came beside the certificate, in the TLS handshake or in an OCSP response (RFC 6962 3.3, `x509_entry`), by the octets of the
    /// timestamp and those of the certificate, which aren't looked at.
    ///
    /// # Errors
    /// [`Error::Malformed`] where the octets are no timestamp of version 1 with known algorithms; [`Error::Overlength`] where the certificate has none, or more
    /// than 16,777,215; [`Error::Memory`].
    pub fn signed_data_beside(octets: &[u8], certificate: &[u8]) -> Result<Vec<u8>, Error> {
        ffi::timestamp_signed_data_beside(octets, certificate)
    }

    /// When the log had the certificate, where the system's times go so far.
    pub fn time(&self) -> Option<SystemTime> {
        UNIX_EPOCH.checked_add(Duration::from_millis(self.milliseconds))
    }
}

/// The timestamps of a certificate (RFC 6962 3.3), each by its octets, for [`SignedCertificateTimestamp::from_bytes`]; one of an unknown version is to be
/// passed over.
#[derive(Clone, Debug, PartialEq, Eq)]
pub struct SignedCertificateTimestamps<'a>(pub Vec<&'a [u8]>);

impl<'a> ExtensionValue<'a> for SignedCertificateTimestamps<'a> {
    const OID: ObjectIdentifier = oid::extension::SIGNED_CERTIFICATE_TIMESTAMPS;

    fn from_der(value: &'a [u8]) -> Result<SignedCertificateTimestamps<'a>, Error> {
        all(ffi::TIMESTAMPS.over(value), |span, data| span.of(data))
            .map(SignedCertificateTimestamps)
    }
}
