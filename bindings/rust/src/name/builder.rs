//! Names of values. The library writes them.
use super::Name;
use crate::error::Error;
use crate::ffi::build;
use crate::oid::{attribute, ObjectIdentifier};

/// The string type of an attribute's text.
#[derive(Clone, Copy, Debug, Default, PartialEq, Eq, Hash)]
#[non_exhaustive]
pub enum StringType {
    /// The one that the attribute wants: PrintableString of a country, a serial number and a DN qualifier, IA5String of an e-mail address and a domain
    /// component, which have no other one (RFC 5280 A.1), and else UTF8String (4.1.2.4).
    #[default]
    AsWanted = 0,

    /// UTF8String: any text.
    Utf8String = 0x0c,

    /// PrintableString: letters, digits, the space and `'()+,-./:=?`.
    PrintableString = 0x13,

    /// IA5String: ASCII.
    Ia5String = 0x16,

    /// BMPString: the characters up to U+FFFF.
    BmpString = 0x1e,
}

#[derive(Clone, Debug)]
struct Attribute {
    oid: ObjectIdentifier,
    string_type: StringType,
    text: String,
}

impl Attribute {
    fn new((oid, string_type, text): (ObjectIdentifier, StringType, &str)) -> Attribute {
        let text = text.to_owned();
        Attribute {
            oid,
            string_type,
            text,
        }
    }
}

/// Builds a name of values: its relative names, in the order of the DER, which the text of RFC 4514 turns round. A text is the value of its attribute
/// whatever characters it has.
///
/// ```
/// use x509_rattle::oid::attribute;
/// use x509_rattle::{Error, Name, StringType};
///
/// let name = Name::builder().country_name("DE").organization_name("Söhne, Töchter & Co").common_name("a,O=Evil").build()?;
/// assert_eq!(name.to_string(), r"CN=a\,O=Evil,O=Söhne\, Töchter & Co,C=DE");
///
/// let serial_number = (attribute::SERIAL_NUMBER, StringType::AsWanted, "7");
/// let common_name = (attribute::COMMON_NAME, StringType::PrintableString, "device");
/// let device = Name::builder().rdn(&[serial_number, common_name]).build()?;
/// assert_eq!(device.to_ref().rdns().count(), 1);
///
/// assert_eq!(Name::builder().country_name("Germany").build(), Err(Error::Value));
/// # Ok::<(), Error>(())
/// ```
#[derive(Clone, Debug)]
pub struct NameBuilder {
    rdns: Vec<Vec<Attribute>>,
    is_bounded: bool,
}

macro_rules! of_types {
    ($($(#[$said:meta])* $method:ident = $oid:ident;)*) => {
        $(
            $(#[$said])*
            pub fn $method(&mut self, text: &str) -> &mut NameBuilder {
                self.attribute(attribute::$oid, StringType::AsWanted, text)
            }
        )*
    };
}

impl NameBuilder {
    /// The empty name, to begin with.
    pub fn new() -> NameBuilder {
        NameBuilder {
            rdns: Vec::new(),
            is_bounded: true,
        }
    }

    of_types! {
        /// Adds a C, two letters.
        country_name = COUNTRY_NAME;
        /// Adds an ST.
        state_or_province_name = STATE_OR_PROVINCE_NAME;
        /// Adds an L.
        locality_name = LOCALITY_NAME;
        /// Adds an O.
        organization_name = ORGANIZATION_NAME;
        /// Adds an OU.
        organizational_unit_name = ORGANIZATIONAL_UNIT_NAME;
        /// Adds a CN.
        common_name = COMMON_NAME;
        /// Adds a DC, one label of a DNS name.
        domain_component = DOMAIN_COMPONENT;
    }

    /// Adds a relative name of one attribute; see [`oid::attribute`](crate::oid::attribute). It is checked when the name is built.
    pub fn attribute(
        &mut self,
        oid: ObjectIdentifier,
        string_type: StringType,
        text: &str,
    ) -> &mut NameBuilder {
        self.rdn(&[(oid, string_type, text)])
    }

    /// Adds a relative name of one or more attributes, in any order, which are checked when the name is built.
    pub fn rdn(&mut self, attributes: &[(ObjectIdentifier, StringType, &str)]) -> &mut NameBuilder {
        let attributes = attributes.iter().copied().map(Attribute::new);
        self.rdns.push(attributes.collect());
        self
    }

    /// Doesn't ask how many characters texts have: of some attributes there are bounds (RFC 5280 A.1), as 1 to 64 of a CN.
    pub fn without_bounds(&mut self) -> &mut NameBuilder {
        self.is_bounded = false;
        self
    }

    /// The name.
    ///
    /// # Errors
    /// [`Error::Value`] where a text has a character that its string type doesn't have, or is shorter or longer than its attribute may be (RFC 5280 A.1), which
    /// isn't looked at [`without_bounds`](NameBuilder::without_bounds), or where a relative name has no attributes; [`Error::StringType`] where the attribute
    /// doesn't allow the string type (RFC 5280 A.1); [`Error::SetDuplicate`] where a relative name has one attribute twice; [`Error::Overlength`] or
    /// [`Error::Memory`].
    pub fn build(&self) -> Result<Name, Error> {
        let mut rdns = Vec::new();
        for attributes in &self.rdns {
            let mut members = Vec::new();
            for it in attributes {
                let string_type = it.string_type as u32;
                let oid = it.oid.as_bytes();
                let member = build::attribute(oid, string_type, &it.text, self.is_bounded)?;
                members.extend_from_slice(&member);
            }
            rdns.extend_from_slice(&build::RELATIVE_NAME.of(&members)?);
        }
        let der = build::NAME.of(&rdns)?;
        Ok(Name { der })
    }
}

impl Default for NameBuilder {
    fn default() -> NameBuilder {
        NameBuilder::new()
    }
}

/// A value as it stands in a text of RFC 4514 (2.4), for who writes such a text: none of its characters ends the value there.
///
/// ```
/// use x509_rattle::{escape_value, Error, Name};
///
/// let user = "a,O=Evil";
/// let name: Name = format!("CN={},C=DE", escape_value(user)?).parse()?;
/// assert_eq!(name, Name::builder().country_name("DE").common_name(user).build()?);
/// # Ok::<(), Error>(())
/// ```
///
/// # Errors
/// [`Error::Overlength`] or [`Error::Memory`].
pub fn escape_value(text: &str) -> Result<String, Error> {
    build::NAME_ESCAPE.text_of(text.as_bytes())
}
