//! Extensions (RFC 5280 4.2, 5.2, 5.3), and what they hold.
mod access;
mod attributes;
mod crl;
mod flags;
mod keys;
mod marks;
mod names;
mod notices;
mod periods;
mod points;
mod policies;
mod timestamps;
mod writing;

pub use access::{AccessDescription, AuthorityInfoAccess, SubjectInfoAccess};
pub use attributes::{DirectoryAttribute, SubjectDirectoryAttributes};
pub use crl::{BaseCrlNumber, CrlNumber, CrlReason};
pub(crate) use flags::flags;
pub use flags::{KeyUsage, ReasonFlags};
pub use keys::{AuthorityKeyIdentifier, BasicConstraints, ExtendedKeyUsage, SubjectKeyIdentifier};
pub use marks::{OcspNoCheck, PrecertPoison, TlsFeature};
pub use names::{
    CertificateIssuer, GeneralSubtree, IssuerAltName, NameConstraints, SubjectAltName,
};
pub use notices::{NoticeReference, UserNotice};
pub use periods::{InvalidityDate, PrivateKeyUsagePeriod};
pub use points::{
    CrlDistributionPoints, DistributionPoint, DistributionPointName, FreshestCrl,
    IssuingDistributionPoint,
};
pub use policies::{
    CertificatePolicies, InhibitAnyPolicy, PolicyConstraints, PolicyInformation, PolicyMapping,
    PolicyMappings, PolicyQualifierInfo,
};
pub use timestamps::{SignedCertificateTimestamp, SignedCertificateTimestamps};
pub(crate) use writing::is_crl_number;
pub use writing::ToExtension;

use crate::error::Error;
use crate::ffi::{self, iterator, Members};
use crate::oid::ObjectIdentifier;

/// What an extension with a certain identifier holds.
pub trait ExtensionValue<'a>: Sized {
    /// The identifier of such extensions.
    const OID: ObjectIdentifier;

    /// Reads the octets of an extension, all of them.
    ///
    /// # Errors
    /// [`Error::Malformed`] or [`Error::Overlength`] where they are no value of the type; [`Error::Memory`].
    fn from_der(value: &'a [u8]) -> Result<Self, Error>;
}

/// An extension.
#[derive(Clone, Copy, Debug, PartialEq, Eq, Hash)]
pub struct Extension<'a> {
    oid: ObjectIdentifier,
    critical: bool,
    value: &'a [u8],
}

impl<'a> Extension<'a> {
    pub(crate) fn new(oid: ObjectIdentifier, critical: bool, value: &'a [u8]) -> Extension<'a> {
        Extension {
            oid,
            critical,
            value,
        }
    }

    fn found(entry: &ffi::ExtensionEntry, data: &'a [u8]) -> Result<Extension<'a>, Error> {
        let oid = ObjectIdentifier::found(entry.oid.of(data)?)?;
        Ok(Extension::new(
            oid,
            entry.critical == 1,
            entry.value.of(data)?,
        ))
    }

    /// Its identifier.
    pub fn oid(&self) -> ObjectIdentifier {
        self.oid
    }

    /// Whether who doesn't know it has to refuse what it stands in (RFC 5280 4.2).
    pub fn critical(&self) -> bool {
        self.critical
    }

    /// What its OCTET STRING holds: the DER of its type.
    pub fn value(&self) -> &'a [u8] {
        self.value
    }

    /// What it holds, read by its identifier.
    ///
    /// # Errors
    /// [`Error::Malformed`] or [`Error::Overlength`] where the octets are no value of the identifier's type; [`Error::Memory`].
    pub fn parsed(&self) -> Result<ParsedExtension<'a>, Error> {
        ParsedExtension::read(self.oid, self.value)
    }
}

/// The extensions of a list of them, in order. An identifier may stand there twice. After one that can't be read nothing comes.
#[derive(Clone, Debug)]
pub struct Extensions<'a>(Members<'a, ffi::ExtensionEntry>);

impl<'a> Extensions<'a> {
    /// Those of a whole list, as that of a certificate; none of no bytes.
    pub fn new(der: &'a [u8]) -> Extensions<'a> {
        let members = ffi::EXTENSIONS.over(der);
        Extensions(if der.is_empty() {
            members.ended()
        } else {
            members
        })
    }

    /// The one with an identifier, of those that are left.
    ///
    /// # Errors
    /// [`Error::Repeated`] where there are two or more; [`Error::Malformed`] or [`Error::Overlength`] where one can't be read; [`Error::Memory`].
    pub fn find(&self, oid: ObjectIdentifier) -> Result<Option<Extension<'a>>, Error> {
        let mut found = None;
        for extension in self.clone() {
            let extension = extension?;
            if extension.oid() == oid && found.replace(extension).is_some() {
                return Err(Error::Repeated);
            }
        }
        Ok(found)
    }

    /// What the one of a type holds, and whether it is critical.
    ///
    /// # Errors
    /// As of [`find`](Extensions::find); [`Error::Malformed`] or [`Error::Overlength`] also where it can't be read.
    pub fn get<T: ExtensionValue<'a>>(&self) -> Result<Option<(bool, T)>, Error> {
        let found = match self.find(T::OID)? {
            Some(found) => found,
            None => return Ok(None),
        };
        Ok(Some((found.critical(), T::from_der(found.value())?)))
    }
}

iterator!(Extensions, Extension);

macro_rules! parsed {
    ($($name:ident($kind:ty),)*) => {
        /// What an extension holds, by its identifier.
        #[derive(Clone, Debug, PartialEq, Eq)]
        #[non_exhaustive]
        pub enum ParsedExtension<'a> {
            $(
                #[doc = concat!("Of [`", stringify!($name), "`].")]
                $name($kind),
            )*

            /// The octets of an extension with an identifier that is none of these.
            Unrecognized(&'a [u8]),
        }

        impl<'a> ParsedExtension<'a> {
            fn read(oid: ObjectIdentifier, value: &'a [u8]) -> Result<ParsedExtension<'a>, Error> {
                $(
                    if oid == <$kind>::OID {
                        return <$kind>::from_der(value).map(ParsedExtension::$name);
                    }
                )*
                Ok(ParsedExtension::Unrecognized(value))
            }
        }
    };
}

parsed! {
    KeyUsage(KeyUsage),
    BasicConstraints(BasicConstraints),
    ExtendedKeyUsage(ExtendedKeyUsage),
    SubjectAltName(SubjectAltName<'a>),
    IssuerAltName(IssuerAltName<'a>),
    SubjectKeyIdentifier(SubjectKeyIdentifier<'a>),
    AuthorityKeyIdentifier(AuthorityKeyIdentifier<'a>),
    AuthorityInfoAccess(AuthorityInfoAccess<'a>),
    SubjectInfoAccess(SubjectInfoAccess<'a>),
    CertificatePolicies(CertificatePolicies<'a>),
    PolicyMappings(PolicyMappings),
    PolicyConstraints(PolicyConstraints),
    InhibitAnyPolicy(InhibitAnyPolicy),
    NameConstraints(NameConstraints<'a>),
    CrlDistributionPoints(CrlDistributionPoints<'a>),
    FreshestCrl(FreshestCrl<'a>),
    IssuingDistributionPoint(IssuingDistributionPoint<'a>),
    CrlNumber(CrlNumber<'a>),
    BaseCrlNumber(BaseCrlNumber<'a>),
    CrlReason(CrlReason),
    CertificateIssuer(CertificateIssuer<'a>),
    SignedCertificateTimestamps(SignedCertificateTimestamps<'a>),
    PrivateKeyUsagePeriod(PrivateKeyUsagePeriod),
    SubjectDirectoryAttributes(SubjectDirectoryAttributes<'a>),
    InvalidityDate(InvalidityDate),
    PrecertPoison(PrecertPoison),
    OcspNoCheck(OcspNoCheck),
    TlsFeature(TlsFeature),
}

/// A type that is a list, under its identifier.
macro_rules! list {
    ($(#[$said:meta])* $name:ident, $oid:ident, $member:ty, $members:expr) => {
        $(#[$said])*
        #[derive(Clone, Debug, PartialEq, Eq)]
        pub struct $name<'a>(pub Vec<$member>);

        impl<'a> $crate::extension::ExtensionValue<'a> for $name<'a> {
            const OID: $crate::oid::ObjectIdentifier = $crate::oid::extension::$oid;

            fn from_der(value: &'a [u8]) -> Result<Self, $crate::error::Error> {
                let members: fn(&'a [u8]) -> Result<Vec<$member>, $crate::error::Error> = $members;
                members(value).map($name)
            }
        }

        impl<'a> IntoIterator for $name<'a> {
            type Item = $member;
            type IntoIter = std::vec::IntoIter<$member>;

            fn into_iter(self) -> Self::IntoIter {
                self.0.into_iter()
            }
        }
    };
}
use list;

/// All that the walk answers, or the first refusal.
pub(crate) fn all<'a, T: Default, U>(
    members: Members<'a, T>,
    read: impl Fn(&T, &'a [u8]) -> Result<U, Error>,
) -> Result<Vec<U>, Error> {
    let data = members.data;
    members.map(|found| read(&found?, data)).collect()
}

/// A number that is there where the other one is 1.
pub(crate) fn given(is_there: u32, number: u32) -> Option<u32> {
    (is_there == 1).then_some(number)
}

#[cfg(test)]
mod tests {
    use super::*;

    #[test]
    fn unknown_identifiers() {
        let extension = Extension::new(crate::oid::policy::ANY_POLICY, true, b"\x05\x00");
        assert_eq!(
            extension.parsed(),
            Ok(ParsedExtension::Unrecognized(b"\x05\x00"))
        );
    }
}
