//! Names of the peer (RFC 9525).
use crate::error::Error;
use crate::ffi;
use std::convert::TryFrom;
use std::fmt;
use std::hash::{Hash, Hasher};
use std::net::{IpAddr, Ipv4Addr, Ipv6Addr};
use std::str::FromStr;

/// A DNS name (RFC 9525 2): labels with dots between them, in all at most 253 bytes. A label is 1 to 63 letters and digits of ASCII, hyphens and underscores,
/// and neither begins nor ends with a hyphen. The last one isn't digits alone. A dot at the end is taken off. Internationalized labels are A-labels, as
/// `xn--bcher-kva`.
///
/// Names are equal without regard to ASCII case (RFC 4343).
#[derive(Clone, Debug)]
pub struct DnsName(String);

impl DnsName {
    /// The name, without a dot at its end.
    pub fn as_str(&self) -> &str {
        &self.0
    }
}

impl PartialEq for DnsName {
    fn eq(&self, other: &DnsName) -> bool {
        self.0.eq_ignore_ascii_case(&other.0)
    }
}

impl Eq for DnsName {}

impl Hash for DnsName {
    fn hash<H: Hasher>(&self, state: &mut H) {
        self.0.to_ascii_lowercase().hash(state);
    }
}

impl fmt::Display for DnsName {
    fn fmt(&self, f: &mut fmt::Formatter<'_>) -> fmt::Result {
        f.pad(&self.0)
    }
}

/// How a server is named that is to be reached (RFC 9525 2).
///
/// ```
/// use x509_rattle::{CertificateRef, Error, ServerName};
///
/// # let der = include_bytes!("../../../examples/data/certificate.der");
/// let certificate = CertificateRef::from_der(der)?;
/// assert!(certificate.matches_name(&"www.example.org".parse()?)?);
/// assert!(certificate.matches_name(&ServerName::try_from("192.0.2.7")?)?);
/// assert!(!certificate.matches_name(&"example.com".parse()?)?);
/// assert_eq!("example..org".parse::<ServerName>(), Err(Error::ServerName));
/// # Ok::<(), Error>(())
/// ```
#[derive(Clone, Debug, PartialEq, Eq, Hash)]
pub enum ServerName {
    /// By a DNS name.
    Dns(DnsName),

    /// By an IP address.
    Address(IpAddr),
}

/// The octets of an address, as the call has filled them in.
fn address(octets: [u8; 16], len: u32) -> Result<IpAddr, Error> {
    match len {
        4 => Ok(Ipv4Addr::new(octets[0], octets[1], octets[2], octets[3]).into()),
        16 => Ok(Ipv6Addr::from(octets).into()),
        _ => Err(Error::Unexpected),
    }
}

impl ServerName {
    /// The name that the text is: an IPv4 address as four decimal numbers without leading zeros; an IPv6 address (RFC 4291 2.2), which may stand in brackets; or
    /// a [`DnsName`].
    fn read(text: &str) -> Result<ServerName, Error> {
        let found = ffi::server_name(text.as_bytes())?;
        if found.address_len != 0 {
            return Ok(ServerName::Address(address(
                found.address,
                found.address_len,
            )?));
        }
        let name = text.get(..found.name_len).ok_or(Error::Unexpected)?;
        Ok(ServerName::Dns(DnsName(name.to_owned())))
    }
}

/// [`Error::ServerName`] where the text is neither a DNS name nor an IP address.
impl FromStr for ServerName {
    type Err = Error;

    fn from_str(text: &str) -> Result<ServerName, Error> {
        ServerName::read(text)
    }
}

/// As of a text that is parsed.
impl TryFrom<&str> for ServerName {
    type Error = Error;

    fn try_from(text: &str) -> Result<ServerName, Error> {
        ServerName::read(text)
    }
}

impl From<DnsName> for ServerName {
    fn from(name: DnsName) -> ServerName {
        ServerName::Dns(name)
    }
}

impl From<IpAddr> for ServerName {
    fn from(address: IpAddr) -> ServerName {
        ServerName::Address(address)
    }
}

/// An address without brackets.
impl fmt::Display for ServerName {
    fn fmt(&self, f: &mut fmt::Formatter<'_>) -> fmt::Result {
        match self {
            ServerName::Dns(name) => name.fmt(f),
            ServerName::Address(address) => address.fmt(f),
        }
    }
}

/// [`Error::ServerName`] where the text is no DNS name.
impl FromStr for DnsName {
    type Err = Error;

    fn from_str(text: &str) -> Result<DnsName, Error> {
        match ServerName::read(text)? {
            ServerName::Dns(name) => Ok(name),
            ServerName::Address(_) => Err(Error::ServerName),
        }
    }
}

/// An address of e-mail in ASCII (RFC 5280 4.2.1.6): a local part, `@` and a [`DnsName`] without a dot at its end. The local part is one or more printed characters
/// and spaces without quotes and backslashes, or a quoted string (RFC 5321 4.1.2). The last `@` ends it.
///
/// Addresses are equal where the local parts are the same and the hosts without regard to ASCII case (RFC 5280 7.5).
#[derive(Clone, Debug, PartialEq, Eq, Hash)]
pub struct EmailAddress {
    local: String,
    host: DnsName,
}

impl EmailAddress {
    /// What stands in front of the `@`.
    pub fn local_part(&self) -> &str {
        &self.local
    }

    /// The host.
    pub fn host(&self) -> &DnsName {
        &self.host
    }
}

/// [`Error::EmailAddress`] where the text is no address.
impl FromStr for EmailAddress {
    type Err = Error;

    fn from_str(text: &str) -> Result<EmailAddress, Error> {
        let found = ffi::email_address(text.as_bytes())?;
        let part = |span: ffi::Span| -> Result<String, Error> {
            let bytes = span.of(text.as_bytes())?.to_vec();
            String::from_utf8(bytes).map_err(|_| Error::Unexpected)
        };
        Ok(EmailAddress {
            local: part(found.local)?,
            host: DnsName(part(found.host)?),
        })
    }
}

/// As of a text that is parsed.
impl TryFrom<&str> for EmailAddress {
    type Error = Error;

    fn try_from(text: &str) -> Result<EmailAddress, Error> {
        text.parse()
    }
}

impl fmt::Display for EmailAddress {
    fn fmt(&self, f: &mut fmt::Formatter<'_>) -> fmt::Result {
        write!(f, "{}@{}", self.local, self.host)
    }
}
