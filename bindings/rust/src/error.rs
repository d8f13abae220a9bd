//! Why a call was refused.
use std::fmt;

/// What a profile doesn't take of what was given.
#[derive(Clone, Copy, Debug, PartialEq, Eq, Hash)]
#[non_exhaustive]
pub enum ProfilePart {
    /// The issuer's name, which of a root is its subject.
    Issuer,

    /// The issuer's key, which of a root is its own.
    IssuerKey,

    /// The subject of a root: it has a country, an organization and a common name, in that order, and between the first two may have a state, a locality, a
    /// postal code and a street address; each is there once, alone in its relative name (Baseline Requirements 7.1.4.2).
    /// [`build`](crate::CertificateBuilder::build) makes a root of any name.
    RootSubject,

    /// The subject of a server, which has a country and common names alone.
    Subject,

    /// The use of a key, which keys of its kind don't have.
    KeyUsage,

    /// The names of a device, of which one is that of a hardware module.
    Names,
}

impl ProfilePart {
    fn text(self) -> &'static str {
        match self {
            ProfilePart::Issuer => "the issuer of a root is its subject",
            ProfilePart::IssuerKey => "the issuer's key of a root is its own",
            ProfilePart::RootSubject => {
                "a root's subject has a country, an organization and a common name, in that order, each alone in its relative name; `build` makes a root of \
                 any other name"
            }
            ProfilePart::Subject => "the subject isn't one of such a certificate",
            ProfilePart::KeyUsage => "a key of that kind has no such use",
            ProfilePart::Names => "none of the names of the device is that of a hardware module",
        }
    }
}

/// Why a call was refused.
#[derive(Clone, Copy, Debug, PartialEq, Eq, Hash)]
#[non_exhaustive]
pub enum Error {
    /// Memory was asked for and not given.
    Memory,

    /// An input or an encoding is longer than 268,435,455 bytes.
    Overlength,

    /// The bytes are not the DER of such a value.
    Malformed,

    /// A text is not of its form.
    Text {
        /// How many bytes stand in front of the first part that can't be read: of a name an attribute, of an object identifier a number, of a moment a number
        /// or what stands between two, of a serial number an octet. Where the text ends too soon, as many as it has.
        place: usize,
    },

    /// There is no type with that name.
    UnknownType,

    /// An attribute doesn't have that string type (RFC 5280 A.1).
    StringType,

    /// A relative distinguished name says one attribute twice.
    SetDuplicate,

    /// A value can't be made or written, as a moment before 1970 or after 9999, or a validity that ends before it begins.
    Value,

    /// What was asked for isn't there.
    Absent,

    /// An extension or an attribute is there more than once, or would be in what is to be built.
    Repeated,

    /// The attribute of a CSR that asks for extensions hasn't one value (RFC 2985 5.4.2).
    NotOneValue,

    /// What was given has no place in a certificate of the profile.
    NotInProfile(ProfilePart),

    /// The algorithm is another one than that in the signed part (RFC 5280 4.1.1.2, 5.1.1.2).
    Algorithm,

    /// What is trusted has no name, or an empty one, so that no path can be under it (RFC 5937 3.2).
    UnnamedAnchor,

    /// The description of a trust anchor has an extension that is critical or limits paths, beside its constraints on paths (RFC 5914 2.6).
    AnchorExtension,

    /// The certificate in the description of a trust anchor has another name, key or key identifier than that (RFC 5914 2.5).
    OtherCertificate,

    /// A text is neither a DNS name nor an IP address.
    ServerName,

    /// A text is no address of e-mail.
    EmailAddress,

    /// The library answered what its header rules out: it is of another version.
    Unexpected,
}

impl Error {
    fn text(self) -> &'static str {
        match self {
            Error::Memory => "out of memory",
            Error::Overlength => "longer than 268,435,455 bytes",
            Error::Malformed => "not the DER of such a value",
            Error::Text { .. } => "the text isn't of its form",
            Error::UnknownType => "there is no type with that name",
            Error::StringType => "an attribute of the type hasn't that string type",
            Error::SetDuplicate => "a relative distinguished name has an attribute twice",
            Error::Value => "a value can't be made or written",
            Error::Absent => "it isn't there",
            Error::Repeated => "an extension or an attribute is there more than once",
            Error::NotOneValue => "the attribute that asks for extensions hasn't one value",
            Error::NotInProfile(part) => part.text(),
            Error::Algorithm => "the signed part has another algorithm",
            Error::UnnamedAnchor => "the trust anchor has no name",
            Error::AnchorExtension => {
                "the trust anchor has an extension that would have to be followed"
            }
            Error::OtherCertificate => "the trust anchor has a certificate of another name or key",
            Error::ServerName => "neither a DNS name nor an IP address",
            Error::EmailAddress => "no e-mail address",
            Error::Unexpected => "the C library is of another version",
        }
    }
}

impl fmt::Display for Error {
    fn fmt(&self, f: &mut fmt::Formatter<'_>) -> fmt::Result {
        f.write_str(self.text())?;
        match self {
            Error::Text { place } => write!(f, " from its byte {place} on"),
            _ => Ok(()),
        }
    }
}

impl std::error::Error for Error {}

/// Writes a text. Formatting doesn't fail, so where there is none its place is taken by the error in angle brackets, as `<out of memory>`.
pub(crate) fn write_text(text: Result<String, Error>, f: &mut fmt::Formatter<'_>) -> fmt::Result {
    match text {
        Ok(text) => f.pad(&text),
        Err(error) => write!(f, "<{error}>"),
    }
}
