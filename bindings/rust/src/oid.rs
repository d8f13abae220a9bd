//! Object identifiers (X.690 8.19), and those that certificates use.
use crate::error::{write_text, Error};
use crate::ffi;
use crate::text::{place_in_oid, placed};
use std::fmt;
use std::hash::{Hash, Hasher};
use std::str::FromStr;

/// The most content octets that an identifier has here.
const MOST: usize = 39;

/// An object identifier.
///
/// ```
/// use x509_rattle::{oid, ObjectIdentifier};
///
/// let usage: ObjectIdentifier = "2.5.29.15".parse()?;
/// assert_eq!(usage.as_bytes(), b"\x55\x1d\x0f");
/// assert_eq!(usage, oid::extension::KEY_USAGE);
/// assert_eq!(usage.to_string(), "2.5.29.15");
/// # Ok::<(), x509_rattle::Error>(())
/// ```
#[derive(Clone, Copy)]
pub struct ObjectIdentifier {
    len: u8,
    octets: [u8; MOST],
}

impl ObjectIdentifier {
    /// The identifier with these content octets.
    ///
    /// # Errors
    /// [`Error::Malformed`] where they are none's (X.690 8.19), where there are more than 39, or where a subidentifier is above 4,294,967,295;
    /// [`Error::Memory`].
    pub fn from_bytes(content: &[u8]) -> Result<ObjectIdentifier, Error> {
        ffi::OID_TEXT.check(content)?;
        ObjectIdentifier::found(content)
    }

    /// The identifier with content octets that the library has looked at.
    pub(crate) fn found(content: &[u8]) -> Result<ObjectIdentifier, Error> {
        let mut octets = [0; MOST];
        let room = octets.get_mut(..content.len()).ok_or(Error::Unexpected)?;
        room.copy_from_slice(content);
        let len = u8::try_from(content.len()).map_err(|_| Error::Unexpected)?;
        Ok(ObjectIdentifier { len, octets })
    }

    /// An identifier of this crate, which is made when the crate is compiled.
    const fn known(content: &[u8]) -> ObjectIdentifier {
        let mut octets = [0; MOST];
        let mut at = 0;
        while at < content.len() {
            octets[at] = content[at];
            at += 1;
        }
        ObjectIdentifier {
            len: content.len() as u8,
            octets,
        }
    }

    /// Its content octets.
    pub fn as_bytes(&self) -> &[u8] {
        self.octets.get(..usize::from(self.len)).unwrap_or_default()
    }

    /// Its dotted text, which [`Display`](fmt::Display) writes too.
    ///
    /// # Errors
    /// [`Error::Memory`].
    pub fn dotted(&self) -> Result<String, Error> {
        ffi::OID_TEXT.text_of(self.as_bytes())
    }
}

impl FromStr for ObjectIdentifier {
    type Err = Error;

    /// The identifier with a dotted text; [`Error::Text`] where it is none's, or that of one with more than 39 content octets.
    fn from_str(text: &str) -> Result<ObjectIdentifier, Error> {
        let content = ffi::OID_FROM_TEXT.of(text.as_bytes());
        ObjectIdentifier::found(&placed(content, || place_in_oid(text))?)
    }
}

impl fmt::Display for ObjectIdentifier {
    /// The dotted text; `<out of memory>` where there is no memory for it.
    fn fmt(&self, f: &mut fmt::Formatter<'_>) -> fmt::Result {
        write_text(self.dotted(), f)
    }
}

impl fmt::Debug for ObjectIdentifier {
    fn fmt(&self, f: &mut fmt::Formatter<'_>) -> fmt::Result {
        write!(f, "ObjectIdentifier({self})")
    }
}

impl PartialEq for ObjectIdentifier {
    fn eq(&self, other: &ObjectIdentifier) -> bool {
        self.as_bytes() == other.as_bytes()
    }
}

impl Eq for ObjectIdentifier {}

impl Hash for ObjectIdentifier {
    fn hash<H: Hasher>(&self, state: &mut H) {
        self.as_bytes().hash(state);
    }
}

macro_rules! identifiers {
    ($($(#[$said:meta])* $name:ident = $text:literal, $content:literal;)*) => {
        $(
            $(#[$said])*
            #[doc = concat!("(", $text, ").")]
            pub const $name: ObjectIdentifier = ObjectIdentifier::known($content);
        )*

        #[cfg(test)]
        pub(super) const ALL: &[(ObjectIdentifier, &str)] = &[$(($name, $text)),*];
    };
}

/// Of extensions (RFC 5280 4.2, 5.2, 5.3).
pub mod extension {
    use super::ObjectIdentifier;

    identifiers! {
        /// SubjectDirectoryAttributes
        SUBJECT_DIRECTORY_ATTRIBUTES = "2.5.29.9", b"\x55\x1d\x09";
        /// SubjectKeyIdentifier
        SUBJECT_KEY_IDENTIFIER = "2.5.29.14", b"\x55\x1d\x0e";
        /// KeyUsage
        KEY_USAGE = "2.5.29.15", b"\x55\x1d\x0f";
        /// PrivateKeyUsagePeriod (RFC 3280 4.2.1.4)
        PRIVATE_KEY_USAGE_PERIOD = "2.5.29.16", b"\x55\x1d\x10";
        /// SubjectAltName
        SUBJECT_ALT_NAME = "2.5.29.17", b"\x55\x1d\x11";
        /// IssuerAltName
        ISSUER_ALT_NAME = "2.5.29.18", b"\x55\x1d\x12";
        /// BasicConstraints
        BASIC_CONSTRAINTS = "2.5.29.19", b"\x55\x1d\x13";
        /// CRLNumber
        CRL_NUMBER = "2.5.29.20", b"\x55\x1d\x14";
        /// The reason code of an entry of a CRL
        CRL_REASON = "2.5.29.21", b"\x55\x1d\x15";
        /// When the key was perhaps known to another, of an entry of a CRL
        INVALIDITY_DATE = "2.5.29.24", b"\x55\x1d\x18";
        /// DeltaCRLIndicator, which holds a BaseCRLNumber
        DELTA_CRL_INDICATOR = "2.5.29.27", b"\x55\x1d\x1b";
        /// IssuingDistributionPoint
        ISSUING_DISTRIBUTION_POINT = "2.5.29.28", b"\x55\x1d\x1c";
        /// The issuer of the certificate of an entry of a CRL
        CERTIFICATE_ISSUER = "2.5.29.29", b"\x55\x1d\x1d";
        /// NameConstraints
        NAME_CONSTRAINTS = "2.5.29.30", b"\x55\x1d\x1e";
        /// CRLDistributionPoints
        CRL_DISTRIBUTION_POINTS = "2.5.29.31", b"\x55\x1d\x1f";
        /// CertificatePolicies
        CERTIFICATE_POLICIES = "2.5.29.32", b"\x55\x1d\x20";
        /// PolicyMappings
        POLICY_MAPPINGS = "2.5.29.33", b"\x55\x1d\x21";
        /// AuthorityKeyIdentifier
        AUTHORITY_KEY_IDENTIFIER = "2.5.29.35", b"\x55\x1d\x23";
        /// PolicyConstraints
        POLICY_CONSTRAINTS = "2.5.29.36", b"\x55\x1d\x24";
        /// ExtendedKeyUsage
        EXTENDED_KEY_USAGE = "2.5.29.37", b"\x55\x1d\x25";
        /// FreshestCRL
        FRESHEST_CRL = "2.5.29.46", b"\x55\x1d\x2e";
        /// InhibitAnyPolicy
        INHIBIT_ANY_POLICY = "2.5.29.54", b"\x55\x1d\x36";
        /// AuthorityInfoAccess
        AUTHORITY_INFO_ACCESS = "1.3.6.1.5.5.7.1.1", b"\x2b\x06\x01\x05\x05\x07\x01\x01";
        /// SubjectInfoAccess
        SUBJECT_INFO_ACCESS = "1.3.6.1.5.5.7.1.11", b"\x2b\x06\x01\x05\x05\x07\x01\x0b";
        /// Extensions of TLS that a server must offer (RFC 7633 4.1)
        TLS_FEATURE = "1.3.6.1.5.5.7.1.24", b"\x2b\x06\x01\x05\x05\x07\x01\x18";
        /// What says that the revocation of a responder isn't looked up (RFC 6960 4.2.2.2.1)
        OCSP_NO_CHECK = "1.3.6.1.5.5.7.48.1.5", b"\x2b\x06\x01\x05\x05\x07\x30\x01\x05";
        /// Signed certificate timestamps (RFC 6962 3.3)
        SIGNED_CERTIFICATE_TIMESTAMPS = "1.3.6.1.4.1.11129.2.4.2", b"\x2b\x06\x01\x04\x01\xd6\x79\x02\x04\x02";
        /// What marks a precertificate (RFC 6962 3.1)
        PRECERT_POISON = "1.3.6.1.4.1.11129.2.4.3", b"\x2b\x06\x01\x04\x01\xd6\x79\x02\x04\x03";
    }
}

/// Of attributes of names (RFC 4519, RFC 5280 A.1; CA/Browser Forum, EV Guidelines 9.2).
pub mod attribute {
    use super::ObjectIdentifier;

    identifiers! {
        /// CN
        COMMON_NAME = "2.5.4.3", b"\x55\x04\x03";
        /// SN
        SURNAME = "2.5.4.4", b"\x55\x04\x04";
        /// serialNumber
        SERIAL_NUMBER = "2.5.4.5", b"\x55\x04\x05";
        /// C
        COUNTRY_NAME = "2.5.4.6", b"\x55\x04\x06";
        /// L
        LOCALITY_NAME = "2.5.4.7", b"\x55\x04\x07";
        /// ST
        STATE_OR_PROVINCE_NAME = "2.5.4.8", b"\x55\x04\x08";
        /// STREET
        STREET_ADDRESS = "2.5.4.9", b"\x55\x04\x09";
        /// O
        ORGANIZATION_NAME = "2.5.4.10", b"\x55\x04\x0a";
        /// OU
        ORGANIZATIONAL_UNIT_NAME = "2.5.4.11", b"\x55\x04\x0b";
        /// title
        TITLE = "2.5.4.12", b"\x55\x04\x0c";
        /// businessCategory
        BUSINESS_CATEGORY = "2.5.4.15", b"\x55\x04\x0f";
        /// postalAddress
        POSTAL_ADDRESS = "2.5.4.16", b"\x55\x04\x10";
        /// postalCode
        POSTAL_CODE = "2.5.4.17", b"\x55\x04\x11";
        /// name
        NAME = "2.5.4.41", b"\x55\x04\x29";
        /// givenName
        GIVEN_NAME = "2.5.4.42", b"\x55\x04\x2a";
        /// initials
        INITIALS = "2.5.4.43", b"\x55\x04\x2b";
        /// generationQualifier
        GENERATION_QUALIFIER = "2.5.4.44", b"\x55\x04\x2c";
        /// dnQualifier
        DN_QUALIFIER = "2.5.4.46", b"\x55\x04\x2e";
        /// pseudonym
        PSEUDONYM = "2.5.4.65", b"\x55\x04\x41";
        /// organizationIdentifier
        ORGANIZATION_IDENTIFIER = "2.5.4.97", b"\x55\x04\x61";
        /// UID
        USER_ID = "0.9.2342.19200300.100.1.1", b"\x09\x92\x26\x89\x93\xf2\x2c\x64\x01\x01";
        /// DC
        DOMAIN_COMPONENT = "0.9.2342.19200300.100.1.25", b"\x09\x92\x26\x89\x93\xf2\x2c\x64\x01\x19";
        /// emailAddress
        EMAIL_ADDRESS = "1.2.840.113549.1.9.1", b"\x2a\x86\x48\x86\xf7\x0d\x01\x09\x01";
        /// unstructuredName
        UNSTRUCTURED_NAME = "1.2.840.113549.1.9.2", b"\x2a\x86\x48\x86\xf7\x0d\x01\x09\x02";
        /// jurisdictionLocalityName
        JURISDICTION_LOCALITY_NAME = "1.3.6.1.4.1.311.60.2.1.1", b"\x2b\x06\x01\x04\x01\x82\x37\x3c\x02\x01\x01";
        /// jurisdictionStateOrProvinceName
        JURISDICTION_STATE_OR_PROVINCE_NAME = "1.3.6.1.4.1.311.60.2.1.2", b"\x2b\x06\x01\x04\x01\x82\x37\x3c\x02\x01\x02";
        /// jurisdictionCountryName
        JURISDICTION_COUNTRY_NAME = "1.3.6.1.4.1.311.60.2.1.3", b"\x2b\x06\x01\x04\x01\x82\x37\x3c\x02\x01\x03";
    }
}

/// Of policies and of what qualifies them (RFC 5280 4.2.1.4).
pub mod policy {
    use super::ObjectIdentifier;

    identifiers! {
        /// anyPolicy
        ANY_POLICY = "2.5.29.32.0", b"\x55\x1d\x20\x00";
        /// The qualifier that says where a practice statement is found, id-qt-cps
        CPS_URI = "1.3.6.1.5.5.7.2.1", b"\x2b\x06\x01\x05\x05\x07\x02\x01";
        /// The qualifier that is a notice to the user, id-qt-unotice
        USER_NOTICE = "1.3.6.1.5.5.7.2.2", b"\x2b\x06\x01\x05\x05\x07\x02\x02";
    }
}

/// Of purposes of keys (RFC 5280 4.2.1.12).
pub mod purpose {
    use super::ObjectIdentifier;

    identifiers! {
        /// anyExtendedKeyUsage
        ANY_EXTENDED_KEY_USAGE = "2.5.29.37.0", b"\x55\x1d\x25\x00";
        /// serverAuth
        SERVER_AUTH = "1.3.6.1.5.5.7.3.1", b"\x2b\x06\x01\x05\x05\x07\x03\x01";
        /// clientAuth
        CLIENT_AUTH = "1.3.6.1.5.5.7.3.2", b"\x2b\x06\x01\x05\x05\x07\x03\x02";
        /// codeSigning
        CODE_SIGNING = "1.3.6.1.5.5.7.3.3", b"\x2b\x06\x01\x05\x05\x07\x03\x03";
        /// emailProtection
        EMAIL_PROTECTION = "1.3.6.1.5.5.7.3.4", b"\x2b\x06\x01\x05\x05\x07\x03\x04";
        /// timeStamping
        TIME_STAMPING = "1.3.6.1.5.5.7.3.8", b"\x2b\x06\x01\x05\x05\x07\x03\x08";
        /// OCSPSigning
        OCSP_SIGNING = "1.3.6.1.5.5.7.3.9", b"\x2b\x06\x01\x05\x05\x07\x03\x09";
        /// Certificate Transparency, of precertificate signing certificates (RFC 6962 3.1)
        CERTIFICATE_TRANSPARENCY = "1.3.6.1.4.1.11129.2.4.4", b"\x2b\x06\x01\x04\x01\xd6\x79\x02\x04\x04";
    }
}

/// Of means of access (RFC 5280 4.2.2).
pub mod access {
    use super::ObjectIdentifier;

    identifiers! {
        /// OCSP
        OCSP = "1.3.6.1.5.5.7.48.1", b"\x2b\x06\x01\x05\x05\x07\x30\x01";
        /// caIssuers
        CA_ISSUERS = "1.3.6.1.5.5.7.48.2", b"\x2b\x06\x01\x05\x05\x07\x30\x02";
        /// caRepository
        CA_REPOSITORY = "1.3.6.1.5.5.7.48.5", b"\x2b\x06\x01\x05\x05\x07\x30\x05";
    }
}

/// Of attributes of CSRs (RFC 2985 5.4).
pub mod request {
    use super::ObjectIdentifier;

    identifiers! {
        /// challengePassword
        CHALLENGE_PASSWORD = "1.2.840.113549.1.9.7", b"\x2a\x86\x48\x86\xf7\x0d\x01\x09\x07";
        /// extensionRequest
        EXTENSION_REQUEST = "1.2.840.113549.1.9.14", b"\x2a\x86\x48\x86\xf7\x0d\x01\x09\x0e";
    }
}

#[cfg(test)]
mod tests {
    use super::*;

    #[test]
    fn constants_are_those_of_their_texts() {
        for group in [
            extension::ALL,
            attribute::ALL,
            policy::ALL,
            purpose::ALL,
            access::ALL,
            request::ALL,
        ] {
            for (oid, text) in group {
                assert_eq!(text.parse(), Ok(*oid));
                assert_eq!(oid.dotted().as_deref(), Ok(*text));
            }
        }
    }

    #[test]
    fn bad_octets_and_texts() {
        for content in [
            &[][..],
            b"\x80\x01",
            b"\x55\x81",
            &[0x2a; 40],
            b"\x2a\x90\x80\x80\x80\x00",
        ] {
            assert_eq!(ObjectIdentifier::from_bytes(content), Err(Error::Malformed));
        }
        for text in [
            "",
            "1",
            "3.1",
            "1.40",
            "2.5.",
            ".2.5",
            "2..5",
            "2.05",
            "a.b",
            "2.5.4294967296",
        ] {
            let refused = text.parse::<ObjectIdentifier>();
            assert!(matches!(refused, Err(Error::Text { .. })), "{text}");
        }
        assert!(ObjectIdentifier::from_bytes(&[0x2a; 39]).is_ok());
    }
}
