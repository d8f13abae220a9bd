//! General names (RFC 5280 4.2.1.6).
use crate::error::Error;
use crate::ffi::{self, iterator, Members};
use crate::name::NameRef;
use crate::oid::ObjectIdentifier;
use std::net::IpAddr;

/// A general name, by what it holds. An X.400 address is refused as malformed.
#[derive(Clone, Copy, Debug, PartialEq, Eq, Hash)]
#[non_exhaustive]
pub enum GeneralName<'a> {
    /// A name of another kind.
    OtherName {
        /// The identifier of its type.
        type_id: ObjectIdentifier,

        /// Its value, a whole element.
        value: &'a [u8],
    },

    /// An e-mail address. It is ASCII, of which NUL and controls may be some.
    Rfc822Name(&'a str),

    /// A DNS name. It is ASCII, of which NUL and controls may be some.
    DnsName(&'a str),

    /// A distinguished name.
    DirectoryName(NameRef<'a>),

    /// A name of EDI, by the octets of its fields; see [`edi_party_name`](GeneralName::edi_party_name).
    EdiPartyName(&'a [u8]),

    /// A URI. It is ASCII, of which NUL and controls may be some.
    UniformResourceIdentifier(&'a str),

    /// The octets of an address, of which there may be any number; see [`ip_addr`](GeneralName::ip_addr).
    IpAddress(&'a [u8]),

    /// A registered identifier.
    RegisteredId(ObjectIdentifier),
}

/// The texts of a name of EDI (RFC 5280 4.2.1.6).
#[derive(Clone, Debug, PartialEq, Eq, Hash)]
pub struct EdiPartyName {
    /// Who gives such names, where that is said.
    pub name_assigner: Option<String>,

    /// The name.
    pub party_name: String,
}

fn text(octets: &[u8]) -> Result<&str, Error> {
    std::str::from_utf8(octets).map_err(|_| Error::Unexpected)
}

fn address(octets: &[u8]) -> Option<IpAddr> {
    let four = <[u8; 4]>::try_from(octets).map(IpAddr::from);
    four.or_else(|_| <[u8; 16]>::try_from(octets).map(IpAddr::from))
        .ok()
}

impl<'a> GeneralName<'a> {
    pub(crate) fn found(view: &ffi::GeneralName, data: &'a [u8]) -> Result<GeneralName<'a>, Error> {
        let content = view.content.of(data)?;
        Ok(match view.kind {
            ffi::GENERAL_NAME_OTHER => GeneralName::OtherName {
                type_id: ObjectIdentifier::found(view.type_id.of(data)?)?,
                value: view.value.of(data)?,
            },
            ffi::GENERAL_NAME_EMAIL => GeneralName::Rfc822Name(text(content)?),
            ffi::GENERAL_NAME_DNS => GeneralName::DnsName(text(content)?),
            ffi::GENERAL_NAME_DIRECTORY => GeneralName::DirectoryName(NameRef::found(content)),
            ffi::GENERAL_NAME_EDI_PARTY => GeneralName::EdiPartyName(content),
            ffi::GENERAL_NAME_URI => GeneralName::UniformResourceIdentifier(text(content)?),
            ffi::GENERAL_NAME_IP => GeneralName::IpAddress(content),
            ffi::GENERAL_NAME_REGISTERED_ID => {
                GeneralName::RegisteredId(ObjectIdentifier::found(content)?)
            }
            _ => return Err(Error::Unexpected),
        })
    }

    /// The texts of a name of EDI; none of a name of another kind.
    ///
    /// ```
    /// use x509_rattle::GeneralName;
    ///
    /// // two texts, each a PrintableString under its tag
    /// let name = GeneralName::EdiPartyName(b"\xa0\x03\x13\x01a\xa1\x03\x13\x01b");
    /// let parts = name.edi_party_name()?.expect("it is one");
    /// assert_eq!((parts.name_assigner.as_deref(), parts.party_name.as_str()), (Some("a"), "b"));
    /// assert_eq!(GeneralName::DnsName("a").edi_party_name(), Ok(None));
    /// # Ok::<(), x509_rattle::Error>(())
    /// ```
    ///
    /// # Errors
    /// [`Error::Malformed`] where the octets are no fields of such a name, or where a text has no characters of its type; [`Error::Memory`].
    pub fn edi_party_name(&self) -> Result<Option<EdiPartyName>, Error> {
        let fields = match self {
            GeneralName::EdiPartyName(fields) => fields,
            _ => return Ok(None),
        };
        let name = ffi::build::general_name(ffi::GENERAL_NAME_EDI_PARTY, fields)?;
        let names = ffi::build::general_names(&name)?;
        let found = ffi::GENERAL_NAMES.over(&names).next();
        let view = found.ok_or(Error::Unexpected)??;
        let assigner = view.name_assigner.part(&names)?;
        Ok(Some(EdiPartyName {
            name_assigner: assigner
                .map(|it| ffi::STRING_TEXT.text_of(it))
                .transpose()?,
            party_name: ffi::STRING_TEXT.text_of(view.party_name.of(&names)?)?,
        }))
    }

    /// The address: four octets are one of IPv4, and sixteen one of IPv6.
    pub fn ip_addr(&self) -> Option<IpAddr> {
        match self {
            GeneralName::IpAddress(octets) => address(octets),
            _ => None,
        }
    }

    /// The network of a name constraint, an address and the number of the bits that count: twice as many octets, of which the second half is a mask, ones
    /// and then zeros (RFC 5280 4.2.1.10).
    pub fn ip_network(&self) -> Option<(IpAddr, u32)> {
        let octets = match self {
            GeneralName::IpAddress(octets) => octets,
            _ => return None,
        };
        let (first, mask) = halves(octets)?;
        let ones = mask.iter().take_while(|octet| **octet == 0xff).count();
        let mut rest = mask.iter().skip(ones);
        let part = rest.next().copied().unwrap_or(0);
        let is_mask =
            part.leading_ones() + part.trailing_zeros() >= 8 && rest.all(|octet| *octet == 0);
        let whole = u32::try_from(ones).ok()?.checked_mul(8)?;
        is_mask.then_some((address(first)?, whole.checked_add(part.leading_ones())?))
    }
}

/// The halves of an even number of octets.
fn halves(octets: &[u8]) -> Option<(&[u8], &[u8])> {
    let half = octets.len() / 2;
    let (first, second) = (octets.get(..half)?, octets.get(half..)?);
    (first.len() == second.len()).then_some((first, second))
}

/// The names of a GeneralNames. After one that can't be read nothing comes.
///
/// ```
/// use x509_rattle::{GeneralName, GeneralNames};
///
/// let mut names = GeneralNames::new(b"\x30\x0d\x82\x0bexample.org");
/// assert_eq!(names.next(), Some(Ok(GeneralName::DnsName("example.org"))));
/// assert_eq!(names.next(), None);
/// ```
#[derive(Clone, Debug)]
pub struct GeneralNames<'a>(Members<'a, ffi::GeneralName>);

impl<'a> GeneralNames<'a> {
    /// Those of a whole GeneralNames, as a SubjectAltName is.
    pub fn new(der: &'a [u8]) -> GeneralNames<'a> {
        GeneralNames(ffi::GENERAL_NAMES.over(der))
    }

    pub(crate) fn under(
        walk: &'static ffi::Walk<ffi::GeneralName>,
        der: &'a [u8],
    ) -> GeneralNames<'a> {
        GeneralNames(walk.over(der))
    }
}

iterator!(GeneralNames, GeneralName);

#[cfg(test)]
mod tests {
    use super::*;
    use std::net::{Ipv4Addr, Ipv6Addr};

    fn network(octets: &[u8]) -> Option<(IpAddr, u32)> {
        GeneralName::IpAddress(octets).ip_network()
    }

    #[test]
    fn addresses() {
        let of = |octets: &'static [u8]| GeneralName::IpAddress(octets).ip_addr();
        assert_eq!(
            of(&[192, 0, 2, 7]),
            Some(Ipv4Addr::new(192, 0, 2, 7).into())
        );
        assert_eq!(of(&[0; 16]), Some(Ipv6Addr::UNSPECIFIED.into()));
        assert_eq!(of(&[0; 5]), None);
        assert_eq!(of(&[]), None);
        assert_eq!(GeneralName::DnsName("a").ip_addr(), None);
    }

    #[test]
    fn networks() {
        let ten = Ipv4Addr::new(10, 0, 0, 0).into();
        assert_eq!(network(&[10, 0, 0, 0, 255, 0, 0, 0]), Some((ten, 8)));
        assert_eq!(network(&[10, 0, 0, 0, 255, 255, 254, 0]), Some((ten, 23)));
        assert_eq!(network(&[10, 0, 0, 0, 0, 0, 0, 0]), Some((ten, 0)));
        assert_eq!(network(&[10, 0, 0, 0, 255, 255, 255, 255]), Some((ten, 32)));
        assert_eq!(network(&[10, 0, 0, 0, 255, 0, 255, 0]), None);
        assert_eq!(network(&[10, 0, 0, 0, 0x5f, 0, 0, 0]), None);
        assert_eq!(network(&[10, 0, 0, 0, 0xa0, 0, 0, 0]), None);
        assert_eq!(network(&[10, 0, 0, 0]), None);
        assert_eq!(network(&[]), None);
        assert_eq!(network(&[0; 9]), None);
        let all = (Ipv6Addr::UNSPECIFIED.into(), 128);
        assert_eq!(network(&[[0; 16], [0xff; 16]].concat()), Some(all));
    }
}
