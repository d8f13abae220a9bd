//! Names of certificates (RFC 5280 4.1.2.4), and their texts (RFC 4514).
use crate::error::{write_text, Error};
use crate::ffi::{self, iterator, Members};
use crate::oid::ObjectIdentifier;
use crate::owned::{as_borrowed, traits_by_der};
use crate::text::{place_in_name, placed};
use std::borrow::Cow;
use std::fmt;
use std::str::FromStr;

mod builder;

pub use builder::{escape_value, NameBuilder, StringType};

/// A distinguished name, by its DER. Names are equal byte for byte, as they are compared in a path.
#[derive(Clone, Copy)]
pub struct NameRef<'a> {
    der: &'a [u8],
}

impl<'a> NameRef<'a> {
    /// The name that the bytes are.
    ///
    /// # Errors
    /// [`Error::Malformed`] or [`Error::Overlength`] where they are none; [`Error::Memory`].
    pub fn from_der(der: &'a [u8]) -> Result<NameRef<'a>, Error> {
        ffi::NAME_TEXT.check(der)?;
        Ok(NameRef { der })
    }

    /// The name that bytes are that the library has looked at.
    pub(crate) fn found(der: &'a [u8]) -> NameRef<'a> {
        NameRef { der }
    }

    /// Its DER.
    pub fn as_der(&self) -> &'a [u8] {
        self.der
    }

    /// Its text, the last relative name first, which [`Display`](fmt::Display) writes too.
    ///
    /// # Errors
    /// [`Error::Memory`]; [`Error::Overlength`] where the text is too long.
    pub fn to_rfc4514(&self) -> Result<String, Error> {
        ffi::NAME_TEXT.text_of(self.der)
    }

    /// Its relative names, in the order of the DER.
    pub fn rdns(&self) -> Rdns<'a> {
        Rdns(ffi::NAME.over(self.der))
    }

    /// The attributes of all its relative names.
    pub fn attributes(&self) -> NameAttributes<'a> {
        NameAttributes {
            rdns: self.rdns(),
            rdn: None,
        }
    }

    /// The attributes of a type.
    pub fn attributes_for(
        &self,
        oid: ObjectIdentifier,
    ) -> impl Iterator<Item = Result<AttributeTypeAndValue<'a>, Error>> + 'a {
        self.attributes()
            .filter(move |found| !matches!(found, Ok(it) if it.oid != oid))
    }

    /// The first attribute of a type, in the order of the DER, such as the CN.
    ///
    /// # Errors
    /// [`Error::Memory`].
    pub fn find(&self, oid: ObjectIdentifier) -> Result<Option<AttributeTypeAndValue<'a>>, Error> {
        let found = ffi::NAME_FIND.of(self.der, oid.as_bytes())?;
        let read = |view| AttributeTypeAndValue::found(&view, self.der);
        found.map(read).transpose()
    }

    /// Whether the names match (RFC 5280 7.1): they have as many relative names, in order, and in each as many attributes, in any order, of the same types,
    /// whose values are the same or are texts that differ in case, in spaces at their ends or in how many stand within alone, as RFC 4518 prepares texts. `==`
    /// compares the bytes.
    ///
    /// # Errors
    /// [`Error::Memory`].
    pub fn matches(&self, other: &NameRef<'_>) -> Result<bool, Error> {
        ffi::names_match(self.der, other.der)
    }

    /// The name, with bytes of its own.
    pub fn to_owned(&self) -> Name {
        Name {
            der: self.der.to_vec(),
        }
    }
}

impl fmt::Display for NameRef<'_> {
    /// The text of RFC 4514. Where [`to_rfc4514`](NameRef::to_rfc4514) is refused, the error in angle brackets, as `<out of memory>`.
    fn fmt(&self, f: &mut fmt::Formatter<'_>) -> fmt::Result {
        write_text(self.to_rfc4514(), f)
    }
}

impl fmt::Debug for NameRef<'_> {
    fn fmt(&self, f: &mut fmt::Formatter<'_>) -> fmt::Result {
        write!(f, "Name({self})")
    }
}

/// A distinguished name that has bytes of its own: of values ([`builder`](Name::builder)), of a text of RFC 4514, in which a value is to be escaped
/// ([`escape_value`]), or of its DER.
///
/// ```
/// use x509_rattle::{oid, Name};
///
/// let name: Name = "CN=www.example.org,C=DE".parse()?;
/// assert_eq!(name, Name::builder().country_name("DE").common_name("www.example.org").build()?);
/// assert_eq!(name.to_string(), "CN=www.example.org,C=DE");
/// for attribute in name.attributes_for(oid::attribute::COMMON_NAME) {
///     assert_eq!(attribute?.text().as_deref(), Some("www.example.org"));
/// }
/// # Ok::<(), x509_rattle::Error>(())
/// ```
#[derive(Clone)]
pub struct Name {
    der: Vec<u8>,
}

impl Name {
    /// Builds a name of values.
    pub fn builder() -> NameBuilder {
        NameBuilder::new()
    }

    /// The name that the bytes are.
    ///
    /// # Errors
    /// As of [`NameRef::from_der`].
    pub fn from_der(der: Vec<u8>) -> Result<Name, Error> {
        NameRef::from_der(&der)?;
        Ok(Name { der })
    }

    /// Whether the names match, as of [`NameRef::matches`].
    ///
    /// ```
    /// use x509_rattle::Name;
    ///
    /// let name: Name = "O=Straße,C=DE".parse()?;
    /// assert!(name.matches(&"O=\\ STRASSE,C=de".parse()?)?);
    /// assert!(!name.matches(&"C=DE,O=Straße".parse()?)?);
    /// # Ok::<(), x509_rattle::Error>(())
    /// ```
    ///
    /// # Errors
    /// As of [`NameRef::matches`].
    pub fn matches(&self, other: &Name) -> Result<bool, Error> {
        self.to_ref().matches(&other.to_ref())
    }

    /// The same name, borrowed, with all that it says.
    pub fn to_ref(&self) -> NameRef<'_> {
        NameRef { der: &self.der }
    }

    /// Its DER.
    pub fn as_der(&self) -> &[u8] {
        &self.der
    }

    /// Its DER, taken out.
    pub fn into_der(self) -> Vec<u8> {
        self.der
    }

    as_borrowed! {
        /// Its text, the last relative name first, which [`Display`](fmt::Display) writes too.
        ///
        /// # Errors
        /// As of [`NameRef::to_rfc4514`].
        pub fn to_rfc4514(&self) -> Result<String, Error>;

        /// Its relative names, in the order of the DER.
        pub fn rdns(&self) -> Rdns<'_>;

        /// The attributes of all its relative names.
        pub fn attributes(&self) -> NameAttributes<'_>;

        /// The attributes of a type.
        pub fn attributes_for(&self, oid: ObjectIdentifier) -> impl Iterator<Item = Result<AttributeTypeAndValue<'_>, Error>> + '_;

        /// The first attribute of a type, in the order of the DER, such as the CN.
        ///
        /// # Errors
        /// As of [`NameRef::find`].
        pub fn find(&self, oid: ObjectIdentifier) -> Result<Option<AttributeTypeAndValue<'_>>, Error>;
    }
}

traits_by_der!(Name, NameRef);

impl FromStr for Name {
    type Err = Error;

    /// The name that a text of RFC 4514 reads as. [`Error::Text`] where it is no such text, with the place of the first attribute that can't be read,
    /// [`Error::SetDuplicate`] where an attribute is said twice in one relative name, [`Error::Overlength`] where what it says is too long; [`Error::Memory`].
    fn from_str(text: &str) -> Result<Name, Error> {
        let found = ffi::NAME_FROM_TEXT.of(text.as_bytes());
        let der = placed(found, || place_in_name(text))?;
        Ok(Name { der })
    }
}

impl fmt::Display for Name {
    /// The text of RFC 4514. Where [`to_rfc4514`](NameRef::to_rfc4514) is refused, the error in angle brackets, as `<out of memory>`.
    fn fmt(&self, f: &mut fmt::Formatter<'_>) -> fmt::Result {
        self.to_ref().fmt(f)
    }
}

impl PartialEq<NameRef<'_>> for Name {
    fn eq(&self, other: &NameRef<'_>) -> bool {
        self.der == other.der
    }
}

impl PartialEq<Name> for NameRef<'_> {
    fn eq(&self, other: &Name) -> bool {
        self.der == other.der
    }
}

/// The relative names of a name. After one that can't be read nothing comes.
#[derive(Clone, Debug)]
pub struct Rdns<'a>(Members<'a, ffi::Span>);

impl<'a> Iterator for Rdns<'a> {
    type Item = Result<RelativeDistinguishedName<'a>, Error>;

    fn next(&mut self) -> Option<Self::Item> {
        let found = self.0.next()?;
        let data = self.0.data;
        let of = |der| RelativeDistinguishedName {
            walk: &ffi::RELATIVE_NAME,
            der,
        };
        Some(found.and_then(|span| span.of(data)).map(of))
    }
}

/// One or more attributes that stand together.
#[derive(Clone, Copy)]
pub struct RelativeDistinguishedName<'a> {
    walk: &'static ffi::Walk<ffi::Attribute>,
    der: &'a [u8],
}

impl<'a> RelativeDistinguishedName<'a> {
    /// That of a distribution point, under its tag (RFC 5280 4.2.1.13), if each attribute can be read.
    pub(crate) fn of_point(der: &'a [u8]) -> Result<RelativeDistinguishedName<'a>, Error> {
        let made = RelativeDistinguishedName {
            walk: &ffi::RELATIVE_NAME_UNDER_1,
            der,
        };
        made.attributes().try_for_each(|found| found.map(|_| ()))?;
        Ok(made)
    }

    /// Its DER, a whole element; that of a distribution point has the tag \[1\].
    pub fn as_der(&self) -> &'a [u8] {
        self.der
    }

    /// Its attributes, in the order of the DER.
    pub fn attributes(&self) -> Attributes<'a> {
        Attributes(self.walk.over(self.der))
    }
}

impl PartialEq for RelativeDistinguishedName<'_> {
    /// Byte for byte, but for the tag.
    fn eq(&self, other: &Self) -> bool {
        self.der.get(1..) == other.der.get(1..)
    }
}

impl Eq for RelativeDistinguishedName<'_> {}

impl fmt::Debug for RelativeDistinguishedName<'_> {
    fn fmt(&self, f: &mut fmt::Formatter<'_>) -> fmt::Result {
        f.debug_list().entries(self.attributes()).finish()
    }
}

/// The attributes of a relative name. After one that can't be read nothing comes.
#[derive(Clone, Debug)]
pub struct Attributes<'a>(Members<'a, ffi::Attribute>);

iterator!(Attributes, AttributeTypeAndValue);

/// The attributes of a name. After one that can't be read nothing comes.
#[derive(Clone, Debug)]
pub struct NameAttributes<'a> {
    rdns: Rdns<'a>,
    rdn: Option<Attributes<'a>>,
}

impl<'a> Iterator for NameAttributes<'a> {
    type Item = Result<AttributeTypeAndValue<'a>, Error>;

    fn next(&mut self) -> Option<Self::Item> {
        loop {
            match self.rdn.as_mut().and_then(Iterator::next) {
                Some(Err(error)) => {
                    self.rdns = Rdns(self.rdns.0.clone().ended());
                    return Some(Err(error));
                }
                Some(found) => return Some(found),
                None => {}
            }
            match self.rdns.next()? {
                Ok(rdn) => self.rdn = Some(rdn.attributes()),
                Err(error) => return Some(Err(error)),
            }
        }
    }
}

/// An attribute of a name.
#[derive(Clone, Copy, Debug, PartialEq, Eq, Hash)]
pub struct AttributeTypeAndValue<'a> {
    /// Its type.
    pub oid: ObjectIdentifier,

    /// The identifier octet of its value, as 0x0C for UTF8String.
    pub tag: u8,

    /// Its value, a whole element.
    pub value: &'a [u8],

    /// The content octets of its value, which nothing has looked at.
    pub content: &'a [u8],
}

impl<'a> AttributeTypeAndValue<'a> {
    fn found(view: &ffi::Attribute, data: &'a [u8]) -> Result<AttributeTypeAndValue<'a>, Error> {
        Ok(AttributeTypeAndValue {
            oid: ObjectIdentifier::found(view.oid.of(data)?)?,
            tag: u8::try_from(view.tag).map_err(|_| Error::Unexpected)?,
            value: view.element.of(data)?,
            content: view.content.of(data)?,
        })
    }

    /// The text of the value. `None` where its type has none, or its octets are none (X.690 8.23; of a TeletexString as ISO 8859-1).
    pub fn text(&self) -> Option<Cow<'a, str>> {
        match self.tag {
            0x0c => std::str::from_utf8(self.content).ok().map(Cow::from),
            0x12 | 0x13 | 0x16 | 0x1a if self.content.is_ascii() => {
                std::str::from_utf8(self.content).ok().map(Cow::from)
            }
            0x14 => Some(self.content.iter().copied().map(char::from).collect()),
            0x1e => utf16(self.content).map(Cow::from),
            _ => None,
        }
    }
}

/// A text of UTF-16, the most significant octet first.
fn utf16(octets: &[u8]) -> Option<String> {
    let pairs = octets.chunks(2);
    let units: Option<Vec<u16>> = pairs
        .map(|pair| pair.try_into().ok().map(u16::from_be_bytes))
        .collect();
    String::from_utf16(&units?).ok()
}

#[cfg(test)]
mod tests {
    use super::*;

    fn text(tag: u8, content: &[u8]) -> Option<String> {
        let oid = crate::oid::attribute::COMMON_NAME;
        let attribute = AttributeTypeAndValue {
            oid,
            tag,
            value: &[],
            content,
        };
        attribute.text().map(Cow::into_owned)
    }

    #[test]
    fn a_name_without_a_text() {
        let name = NameRef::found(b"\xff");
        assert_eq!(name.to_rfc4514(), Err(Error::Malformed));
        assert_eq!(name.to_string(), "<not the DER of such a value>");
    }

    #[test]
    fn the_first_of_a_type() {
        use crate::oid::attribute;
        let name: Name = "CN=a,CN=b,C=DE".parse().expect("a name");
        // the last of the text is the first of the DER (RFC 4514 2.1)
        let found = name.to_ref().find(attribute::COMMON_NAME);
        let text = found.map(|it| it.and_then(|it| it.text()));
        assert_eq!(text, Ok(Some("b".into())));
        assert_eq!(name.to_ref().find(attribute::SURNAME), Ok(None));
    }

    #[test]
    fn texts_of_values() {
        assert_eq!(text(0x0c, "Söhne".as_bytes()).as_deref(), Some("Söhne"));
        assert_eq!(text(0x0c, b"\xff"), None);
        assert_eq!(text(0x13, b"DE").as_deref(), Some("DE"));
        assert_eq!(text(0x13, "ö".as_bytes()), None);
        assert_eq!(text(0x14, b"\xf6").as_deref(), Some("ö"));
        assert_eq!(text(0x1e, b"\x00\xf6\x20\xac").as_deref(), Some("ö€"));
        assert_eq!(text(0x1e, b"\x00"), None);
        assert_eq!(text(0x1e, b"\xd8\x00"), None);
        assert_eq!(text(0x02, b"\x01"), None);
    }
}
