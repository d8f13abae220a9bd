//! CSRs, PKCS #10 requests (RFC 2986).
use crate::certificate::Signature;
use crate::error::Error;
use crate::extension::Extensions;
use crate::ffi::{self, iterator, Members};
use crate::key::PublicKey;
use crate::lint::{self, Finding};
use crate::name::NameRef;
use crate::oid::ObjectIdentifier;
use crate::owned::{as_borrowed, traits_by_der};
use std::fmt;

/// An attribute of a CSR (RFC 2986 4.1), as a challenge password.
#[derive(Clone, Copy, Debug, PartialEq, Eq, Hash)]
pub struct CsrAttribute<'a> {
    /// Its type.
    pub oid: ObjectIdentifier,

    values: &'a [u8],
}

impl<'a> CsrAttribute<'a> {
    fn found(view: &ffi::RequestAttribute, data: &'a [u8]) -> Result<CsrAttribute<'a>, Error> {
        Ok(CsrAttribute {
            oid: ObjectIdentifier::found(view.oid.of(data)?)?,
            values: view.values.of(data)?,
        })
    }

    /// Its values, in order. After one that can't be read nothing comes.
    pub fn values(&self) -> AttributeValues<'a> {
        AttributeValues(ffi::ATTRIBUTE_VALUES.over(self.values))
    }
}

/// A value of an attribute: any element.
#[derive(Clone, Copy, Debug, PartialEq, Eq, Hash)]
pub struct AttributeValue<'a> {
    /// Its identifier octet, as 0x0c for UTF8String.
    pub tag: u8,

    /// Its content octets.
    pub content: &'a [u8],

    /// The whole element.
    pub der: &'a [u8],
}

impl<'a> AttributeValue<'a> {
    fn found(view: &ffi::Element, data: &'a [u8]) -> Result<AttributeValue<'a>, Error> {
        Ok(AttributeValue {
            tag: u8::try_from(view.tag).map_err(|_| Error::Unexpected)?,
            content: view.content.of(data)?,
            der: view.element.of(data)?,
        })
    }
}

/// The values of an attribute, in order.
#[derive(Clone, Debug)]
pub struct AttributeValues<'a>(Members<'a, ffi::Element>);

iterator!(AttributeValues, AttributeValue);

/// The attributes of a CSR, in order. After one that can't be read nothing comes.
#[derive(Clone, Debug)]
pub struct CsrAttributes<'a>(Members<'a, ffi::RequestAttribute>);

iterator!(CsrAttributes, CsrAttribute);

/// A CSR, by its bytes, which are borrowed. CSRs are equal byte for byte. [`Csr`] has bytes of its own.
///
/// ```
/// use x509_rattle::extension::ParsedExtension;
/// use x509_rattle::CsrRef;
///
/// # let der = include_bytes!("../../../examples/data/request.der");
/// let csr = CsrRef::from_der(der)?;
/// println!("{}", csr.subject());
/// for extension in csr.extensions()? {
///     assert!(matches!(extension?.parsed()?, ParsedExtension::SubjectAltName(_)));
/// }
/// # Ok::<(), x509_rattle::Error>(())
/// ```
#[derive(Clone, Copy)]
pub struct CsrRef<'a> {
    der: &'a [u8],
    view: ffi::Request,
}

impl<'a> CsrRef<'a> {
    /// The CSR that the bytes are.
    ///
    /// # Errors
    /// [`Error::Malformed`] or [`Error::Overlength`] where they are none, or bytes stand behind it; [`Error::Memory`].
    pub fn from_der(der: &'a [u8]) -> Result<CsrRef<'a>, Error> {
        let view = ffi::REQUEST.of(der)?;
        for span in [view.subject, view.subject_public_key_info, view.attributes] {
            span.of(der)?;
        }
        Signature::found(&view.signature, der)?;
        Ok(CsrRef { der, view })
    }

    /// A part, which [`from_der`](CsrRef::from_der) has found within the bytes.
    fn part(&self, span: ffi::Span) -> &'a [u8] {
        span.of(self.der).unwrap_or_default()
    }

    /// Its DER.
    pub fn as_der(&self) -> &'a [u8] {
        self.der
    }

    /// The name of the subject.
    pub fn subject(&self) -> NameRef<'a> {
        NameRef::found(self.part(self.view.subject))
    }

    /// The key and its algorithm: a whole SubjectPublicKeyInfo.
    pub fn subject_public_key_info(&self) -> &'a [u8] {
        self.part(self.view.subject_public_key_info)
    }

    /// Its attributes, in order.
    pub fn attributes(&self) -> CsrAttributes<'a> {
        CsrAttributes(ffi::REQUEST_ATTRIBUTES.over(self.part(self.view.attributes)))
    }

    /// The key, by its kind and its bits.
    ///
    /// # Errors
    /// [`Error::Memory`].
    pub fn public_key(&self) -> Result<PublicKey<'a>, Error> {
        PublicKey::from_der(self.subject_public_key_info())
    }

    /// Its attribute of a type; see [`oid::request`](crate::oid::request).
    ///
    /// # Errors
    /// [`Error::Repeated`] where there are two or more; [`Error::Memory`].
    pub fn attribute(&self, oid: ObjectIdentifier) -> Result<Option<CsrAttribute<'a>>, Error> {
        let found = match ffi::REQUEST_ATTRIBUTE.of(self.der, oid.as_bytes())? {
            Some(found) => found,
            None => return Ok(None),
        };
        let values = found.values.of(self.der)?;
        Ok(Some(CsrAttribute { oid, values }))
    }

    /// The extensions that it asks for (RFC 2985 5.4.2), in order; none where no attribute asks for any.
    ///
    /// # Errors
    /// [`Error::Repeated`] where two or more attributes ask for extensions, [`Error::NotOneValue`] where the only one hasn't one value, [`Error::Malformed`]
    /// where that is no list of extensions; [`Error::Memory`].
    pub fn extensions(&self) -> Result<Extensions<'a>, Error> {
        match ffi::REQUEST_EXTENSIONS.of(self.der) {
            Ok(list) => Ok(Extensions::new(list.of(self.der)?)),
            Err(Error::Absent) => Ok(Extensions::new(&[])),
            Err(error) => Err(error),
        }
    }

    /// What is to be verified of it, for its own key.
    ///
    /// # Errors
    /// None but [`Error::Unexpected`].
    pub fn signature(&self) -> Result<Signature<'a>, Error> {
        Signature::found(&self.view.signature, self.der)
    }

    /// All that it has, as lines for people: each is a label and a text, and no text of the CSR can forge a line or turn its order round.
    ///
    /// # Errors
    /// [`Error::Memory`].
    pub fn to_text(&self) -> Result<String, Error> {
        ffi::REQUEST_TEXT.text_of(self.der)
    }

    /// The lines of [`to_text`](CsrRef::to_text) as JSON (RFC 8259): an array of objects, each with its `depth`, its `label` and its `text`.
    ///
    /// # Errors
    /// [`Error::Memory`].
    pub fn to_json(&self) -> Result<String, Error> {
        ffi::REQUEST_JSON.text_of(self.der)
    }

    /// The rules that it breaks beyond the grammar, those of RFC 2986 and RFC 2985 that `docs/RULES.md` of the sources lists, in their order; none where it
    /// breaks none.
    ///
    /// # Errors
    /// [`Error::Memory`].
    pub fn lint(&self) -> Result<Vec<Finding>, Error> {
        lint::findings(&ffi::REQUEST_LINT, self.der)
    }

    /// The bytes that the signature is over, as they stand in the DER: a whole CertificationRequestInfo.
    ///
    /// # Errors
    /// None but [`Error::Unexpected`].
    pub fn certification_request_info(&self) -> Result<&'a [u8], Error> {
        ffi::SIGNED_SLICE.of(self.der)?.of(self.der)
    }

    /// The CSR, with bytes of its own.
    pub fn to_owned(&self) -> Csr {
        Csr {
            der: self.der.to_vec(),
            view: self.view,
        }
    }
}

impl fmt::Debug for CsrRef<'_> {
    fn fmt(&self, f: &mut fmt::Formatter<'_>) -> fmt::Result {
        f.debug_struct("Csr")
            .field("subject", &self.subject())
            .finish_non_exhaustive()
    }
}

/// A CSR that has bytes of its own. All that it says it says by [`to_ref`](Csr::to_ref).
///
/// ```
/// use x509_rattle::Csr;
///
/// # let der = include_bytes!("../../../examples/data/request.der").to_vec();
/// let csr = Csr::from_der(der)?;
/// assert_eq!(csr.subject().to_string(), "CN=www.example.org,O=Beispiel\\, Söhne & Co,C=DE");
/// # Ok::<(), x509_rattle::Error>(())
/// ```
#[derive(Clone)]
pub struct Csr {
    der: Vec<u8>,
    view: ffi::Request,
}

impl Csr {
    /// The CSR that the bytes are.
    ///
    /// # Errors
    /// As of [`CsrRef::from_der`].
    pub fn from_der(der: Vec<u8>) -> Result<Csr, Error> {
        let view = CsrRef::from_der(&der)?.view;
        Ok(Csr { der, view })
    }

    /// The same CSR, borrowed, with all that it says.
    pub fn to_ref(&self) -> CsrRef<'_> {
        CsrRef {
            der: &self.der,
            view: self.view,
        }
    }

    /// Its DER.
    pub fn as_der(&self) -> &[u8] {
        &self.der
    }

    /// Its DER, taken out.
    pub fn into_der(self) -> Vec<u8> {
        self.der
    }

    as_borrowed! {
        /// The name of the subject.
        pub fn subject(&self) -> NameRef<'_>;

        /// The key and its algorithm: a whole SubjectPublicKeyInfo.
        pub fn subject_public_key_info(&self) -> &[u8];

        /// The key, by its kind and its bits.
        ///
        /// # Errors
        /// [`Error::Memory`].
        pub fn public_key(&self) -> Result<PublicKey<'_>, Error>;

        /// Its attributes, in order.
        pub fn attributes(&self) -> CsrAttributes<'_>;

        /// Its attribute of a type; see [`oid::request`](crate::oid::request).
        ///
        /// # Errors
        /// As of [`CsrRef::attribute`].
        pub fn attribute(&self, oid: ObjectIdentifier) -> Result<Option<CsrAttribute<'_>>, Error>;

        /// The extensions that it asks for (RFC 2985 5.4.2), in order; none where no attribute asks for any.
        ///
        /// # Errors
        /// As of [`CsrRef::extensions`].
        pub fn extensions(&self) -> Result<Extensions<'_>, Error>;

        /// The bytes that the signature is over, as they stand in the DER: a whole CertificationRequestInfo.
        ///
        /// # Errors
        /// None but [`Error::Unexpected`].
        pub fn certification_request_info(&self) -> Result<&[u8], Error>;

        /// What is to be verified of it, for its own key.
        ///
        /// # Errors
        /// None but [`Error::Unexpected`].
        pub fn signature(&self) -> Result<Signature<'_>, Error>;

        /// All that it has, as lines for people.
        ///
        /// # Errors
        /// As of [`CsrRef::to_text`].
        pub fn to_text(&self) -> Result<String, Error>;

        /// The same lines as JSON.
        ///
        /// # Errors
        /// As of [`CsrRef::to_json`].
        pub fn to_json(&self) -> Result<String, Error>;

        /// The rules that it breaks beyond the grammar.
        ///
        /// # Errors
        /// As of [`CsrRef::lint`].
        pub fn lint(&self) -> Result<Vec<Finding>, Error>;
    }
}

traits_by_der!(Csr, CsrRef);
