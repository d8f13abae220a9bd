//! CRLs (RFC 5280 5.1).
use crate::certificate::Signature;
use crate::error::Error;
use crate::extension::{
    CertificateIssuer, CrlReason, Extension, ExtensionValue, Extensions, InvalidityDate,
};
use crate::ffi::{self, iterator, Members};
use crate::integer::Integer;
use crate::lint::{self, Finding};
use crate::name::NameRef;
use crate::oid::ObjectIdentifier;
use crate::owned::{as_borrowed, traits_by_der};
use crate::time::moment;
use std::fmt;
use std::time::SystemTime;

/// What an entry of a CRL says.
#[derive(Clone, Copy, Debug, PartialEq, Eq, Hash)]
pub struct Revocation {
    /// When the certificate was revoked.
    pub date: SystemTime,

    /// Why, where that is said.
    pub reason: Option<CrlReason>,
}

/// An entry of a CRL (RFC 5280 5.1.2.6).
#[derive(Clone, Debug)]
pub struct CrlEntry<'a> {
    /// The serial number that the issuer gave the certificate.
    pub serial_number: Integer<'a>,

    /// When the certificate was revoked.
    pub date: SystemTime,

    extensions: &'a [u8],
}

impl<'a> CrlEntry<'a> {
    fn found(view: &ffi::CrlEntry, data: &'a [u8]) -> Result<CrlEntry<'a>, Error> {
        let element = view.serial_number.of(data)?;
        Ok(CrlEntry {
            serial_number: Integer(ffi::SERIAL_NUMBER.of(element)?.of(element)?),
            date: moment(view.date)?,
            extensions: view.extensions.of(data)?,
        })
    }

    /// Its extensions, in order.
    pub fn extensions(&self) -> Extensions<'a> {
        Extensions::new(self.extensions)
    }

    /// Why the certificate was revoked, where that is said.
    ///
    /// # Errors
    /// [`Error::Repeated`] where it is said twice; [`Error::Malformed`] where it can't be read; [`Error::Memory`].
    pub fn reason(&self) -> Result<Option<CrlReason>, Error> {
        Ok(self.get()?.map(|(_, found)| found))
    }

    /// What its extension of a type holds, as a reason, an [`InvalidityDate`](crate::extension::InvalidityDate) or a
    /// [`CertificateIssuer`](crate::extension::CertificateIssuer), and whether that is critical.
    ///
    /// # Errors
    /// As of [`Extensions::get`].
    pub fn get<T: ExtensionValue<'a>>(&self) -> Result<Option<(bool, T)>, Error> {
        self.extensions().get()
    }

    /// Since when the certificate is known or suspected to be invalid, where that is said (RFC 5280 5.3.2).
    ///
    /// # Errors
    /// As of [`reason`](CrlEntry::reason).
    pub fn invalidity_date(&self) -> Result<Option<SystemTime>, Error> {
        Ok(self.get::<InvalidityDate>()?.map(|(_, it)| it.0))
    }

    /// Who issued the certificate, and those of the entries behind it up to the next that says so, in an indirect CRL (RFC 5280 5.3.3); where no entry up to
    /// here says it, that is the issuer of the CRL.
    ///
    /// # Errors
    /// As of [`reason`](CrlEntry::reason).
    pub fn certificate_issuer(&self) -> Result<Option<CertificateIssuer<'a>>, Error> {
        Ok(self.get()?.map(|(_, it)| it))
    }
}

/// The entries of a CRL, in order. After one that can't be read nothing comes.
#[derive(Clone, Debug)]
pub struct CrlEntries<'a>(Members<'a, ffi::CrlEntry>);

iterator!(CrlEntries, CrlEntry);

/// The entries of an indirect CRL, in order, each with who issued its certificate (RFC 5280 5.3.3): the names of the last entry up to it that has a
/// [`CertificateIssuer`]; `None` where none has it, and the issuer of the CRL issued the certificate. After one that can't be read nothing comes.
#[derive(Clone, Debug)]
pub struct IssuedEntries<'a> {
    data: &'a [u8],
    at: usize,
    issuer: ffi::Span,
    is_over: bool,
}

impl<'a> IssuedEntries<'a> {
    fn found(&mut self) -> Result<Option<(CrlEntry<'a>, Option<CertificateIssuer<'a>>)>, Error> {
        let found = ffi::crl_issued_next(self.data, &mut self.at, &mut self.issuer)?;
        let view = match found {
            Some(view) => view,
            None => return Ok(None),
        };
        let issuer = self.issuer.part(self.data)?;
        let issuer = issuer.map(CertificateIssuer::from_der).transpose()?;
        Ok(Some((CrlEntry::found(&view, self.data)?, issuer)))
    }
}

impl<'a> Iterator for IssuedEntries<'a> {
    type Item = Result<(CrlEntry<'a>, Option<CertificateIssuer<'a>>), Error>;

    fn next(&mut self) -> Option<Self::Item> {
        if self.is_over {
            return None;
        }
        let found = self.found().transpose();
        self.is_over = !matches!(found, Some(Ok(_)));
        found
    }
}

/// A CRL, by its bytes, which are borrowed. CRLs are equal byte for byte.
///
/// ```
/// use x509_rattle::CrlRef;
///
/// # let list = include_bytes!("../../../examples/data/list.der");
/// let crl = CrlRef::from_der(list)?;
/// for entry in crl.entries() {
///     println!("{}", entry?.serial_number);
/// }
/// # Ok::<(), x509_rattle::Error>(())
/// ```
#[derive(Clone, Copy)]
pub struct CrlRef<'a> {
    der: &'a [u8],
    view: ffi::Crl,
    len: usize,
}

impl<'a> CrlRef<'a> {
    /// The CRL of v1 or v2 that the bytes are, under the rules of RFC 5280.
    ///
    /// # Errors
    /// [`Error::Malformed`] or [`Error::Overlength`] where they are none, or bytes stand behind it; [`Error::Memory`].
    pub fn from_der(der: &'a [u8]) -> Result<CrlRef<'a>, Error> {
        let view = ffi::CRL.of(der)?;
        for span in [
            view.inner_algorithm,
            view.issuer,
            view.entries,
            view.extensions,
        ] {
            span.of(der)?;
        }
        Signature::found(&view.signature, der)?;
        let len = entries(view.entries.of(der)?).count();
        Ok(CrlRef { der, view, len })
    }

    /// A part, which [`from_der`](CrlRef::from_der) has found within the bytes.
    fn part(&self, span: ffi::Span) -> &'a [u8] {
        span.of(self.der).unwrap_or_default()
    }

    /// Its DER.
    pub fn as_der(&self) -> &'a [u8] {
        self.der
    }

    /// How many entries it has.
    pub fn len(&self) -> usize {
        self.len
    }

    /// Whether it has no entry.
    pub fn is_empty(&self) -> bool {
        self.len == 0
    }

    /// Its version: 1 or 2 as of RFC 5280 5.1.2.1, or 3.
    pub fn version(&self) -> u32 {
        self.view.version
    }

    /// The algorithm in the signed part, a whole AlgorithmIdentifier, which is to be that of the signature (RFC 5280 5.1.1.2). Whether it is isn't looked at.
    pub fn inner_algorithm(&self) -> &'a [u8] {
        self.part(self.view.inner_algorithm)
    }

    /// The name of its issuer.
    pub fn issuer(&self) -> NameRef<'a> {
        NameRef::found(self.part(self.view.issuer))
    }

    /// When it was issued.
    ///
    /// # Errors
    /// None but [`Error::Unexpected`].
    pub fn this_update(&self) -> Result<SystemTime, Error> {
        moment(self.view.this_update)
    }

    /// By when the next one will be issued, where that is said.
    ///
    /// # Errors
    /// None but [`Error::Unexpected`].
    pub fn next_update(&self) -> Result<Option<SystemTime>, Error> {
        let is_said = self.view.has_next_update == 1;
        is_said.then(|| moment(self.view.next_update)).transpose()
    }

    /// Its entries, in order.
    pub fn entries(&self) -> CrlEntries<'a> {
        CrlEntries(entries(self.part(self.view.entries)))
    }

    /// Its entries, in order, each with who issued its certificate, where it is an indirect CRL.
    pub fn issued_entries(&self) -> IssuedEntries<'a> {
        let data = self.part(self.view.entries);
        IssuedEntries {
            data,
            at: 0,
            issuer: ffi::Span::default(),
            is_over: data.is_empty(),
        }
    }

    /// Its extensions, in order.
    pub fn extensions(&self) -> Extensions<'a> {
        Extensions::new(self.part(self.view.extensions))
    }

    /// Its extension with an identifier.
    ///
    /// # Errors
    /// As of [`Extensions::find`].
    pub fn extension(&self, oid: ObjectIdentifier) -> Result<Option<Extension<'a>>, Error> {
        self.extensions().find(oid)
    }

    /// What its extension of a type holds, as its [`CrlNumber`](crate::extension::CrlNumber), and whether that is critical.
    ///
    /// # Errors
    /// As of [`Extensions::get`].
    pub fn get<T: ExtensionValue<'a>>(&self) -> Result<Option<(bool, T)>, Error> {
        self.extensions().get()
    }

    /// What is to be verified of it.
    ///
    /// # Errors
    /// None but [`Error::Unexpected`].
    pub fn signature(&self) -> Result<Signature<'a>, Error> {
        Signature::found(&self.view.signature, self.der)
    }

    /// The bytes that the signature is over, as they stand in the DER: a whole TBSCertList.
    ///
    /// # Errors
    /// None but [`Error::Unexpected`].
    pub fn tbs_cert_list(&self) -> Result<&'a [u8], Error> {
        ffi::SIGNED_SLICE.of(self.der)?.of(self.der)
    }

    /// What the first entry with a serial number says, given by the content octets of an INTEGER. The issuer isn't compared (RFC 5280 5.3.3).
    ///
    /// # Errors
    /// [`Error::Malformed`] where the octets are no serial number's, which are at most 21, or where the entry's reason can't be read; [`Error::Repeated`]
    /// where its reason is there twice; [`Error::Memory`].
    pub fn revocation(&self, serial_number: &[u8]) -> Result<Option<Revocation>, Error> {
        let element = Integer(serial_number).element()?;
        let found = match ffi::CRL_LOOKUP.of(self.der, &element)? {
            Some(found) => found,
            None => return Ok(None),
        };
        let reason = u32::try_from(found.reason).ok();
        Ok(Some(Revocation {
            date: moment(found.date)?,
            reason: reason.map(CrlReason::found).transpose()?,
        }))
    }

    /// The first entry with a serial number, given by the content octets of an INTEGER. The issuer isn't compared (RFC 5280 5.3.3). The CRL isn't
    /// checked once more; for many look-ups [`index`](CrlRef::index) is faster still.
    ///
    /// # Errors
    /// [`Error::Malformed`] where the octets are no serial number's, which are at most 21; [`Error::Memory`].
    pub fn entry(&self, serial_number: &[u8]) -> Result<Option<CrlEntry<'a>>, Error> {
        let element = Integer(serial_number).element()?;
        let entries = self.part(self.view.entries);
        if entries.is_empty() {
            ffi::SERIAL_NUMBER.of(&element)?;
            return Ok(None);
        }
        let found = ffi::CRL_ENTRY_FIND.of(entries, &element)?;
        found
            .map(|view| CrlEntry::found(&view, entries))
            .transpose()
    }

    /// An index of its entries, for a CRL that is asked often: it takes four bytes an entry.
    ///
    /// # Errors
    /// [`Error::Memory`].
    pub fn index(&self) -> Result<CrlIndex<'a>, Error> {
        let entries = self.part(self.view.entries);
        let places = match entries {
            [] => Vec::new(),
            entries => ffi::crl_index(entries, self.len)?,
        };
        Ok(CrlIndex { entries, places })
    }

    /// All that it has, as lines for people: each is a label and a text, and no text of the CRL can forge a line or turn its order round.
    ///
    /// # Errors
    /// [`Error::Memory`].
    pub fn to_text(&self) -> Result<String, Error> {
        ffi::CRL_TEXT.text_of(self.der)
    }

    /// The lines of [`to_text`](CrlRef::to_text) as JSON (RFC 8259): an array of objects, each with its `depth`, its `label` and its `text`.
    ///
    /// # Errors
    /// [`Error::Memory`].
    pub fn to_json(&self) -> Result<String, Error> {
        ffi::CRL_JSON.text_of(self.der)
    }

    /// The rules that it breaks beyond the grammar, those of RFC 5280 that `docs/RULES.md` of the sources lists, in their order; none where it breaks none.
    ///
    /// # Errors
    /// [`Error::Memory`].
    pub fn lint(&self) -> Result<Vec<Finding>, Error> {
        lint::findings(&ffi::CRL_LINT, self.der)
    }

    /// The CRL, with bytes of its own.
    pub fn to_owned(&self) -> Crl {
        Crl {
            der: self.der.to_vec(),
            view: self.view,
            len: self.len,
        }
    }
}

/// An index of the entries of a CRL, which [`CrlRef::index`] makes. A look-up by it takes a time that grows with the logarithm of how many entries there are,
/// where [`CrlRef::entry`] looks at each up to the one that it finds. Both find the same.
///
/// ```
/// use x509_rattle::CrlRef;
///
/// # let list = include_bytes!("../../../examples/data/list.der");
/// let crl = CrlRef::from_der(list)?;
/// let index = crl.index()?;
/// assert!(index.find(&[3])?.is_some());
/// assert!(index.find(&[2])?.is_none());
/// # Ok::<(), x509_rattle::Error>(())
/// ```
#[derive(Clone, Debug)]
pub struct CrlIndex<'a> {
    entries: &'a [u8],
    places: Vec<u32>,
}

impl<'a> CrlIndex<'a> {
    /// The first entry with a serial number, given by the content octets of an INTEGER. The issuer isn't compared (RFC 5280 5.3.3).
    ///
    /// # Errors
    /// As of [`CrlRef::entry`].
    pub fn find(&self, serial_number: &[u8]) -> Result<Option<CrlEntry<'a>>, Error> {
        let element = Integer(serial_number).element()?;
        if self.entries.is_empty() {
            ffi::SERIAL_NUMBER.of(&element)?;
            return Ok(None);
        }
        let found = ffi::crl_index_find(self.entries, &self.places, &element)?;
        found
            .map(|view| CrlEntry::found(&view, self.entries))
            .transpose()
    }
}

/// The entries of a whole list of them; none of no bytes.
fn entries(der: &[u8]) -> Members<'_, ffi::CrlEntry> {
    let members = ffi::CRL_ENTRIES.over(der);
    if der.is_empty() {
        members.ended()
    } else {
        members
    }
}

impl fmt::Debug for CrlRef<'_> {
    fn fmt(&self, f: &mut fmt::Formatter<'_>) -> fmt::Result {
        f.debug_struct("Crl")
            .field("issuer", &self.issuer())
            .field("len", &self.len)
            .finish_non_exhaustive()
    }
}

/// A CRL that has bytes of its own. All that it says it says by [`to_ref`](Crl::to_ref).
///
/// ```
/// use x509_rattle::extension::CrlReason;
/// use x509_rattle::{CertificateRef, Crl};
///
/// # let list = include_bytes!("../../../examples/data/list.der").to_vec();
/// # let certificate = CertificateRef::from_der(include_bytes!("../../../examples/data/certificate.der"))?;
/// let crl = Crl::from_der(list)?;
/// assert_eq!(crl.len(), 3);
/// let found = crl.revocation(certificate.serial_number().as_bytes())?.expect("it is revoked");
/// assert_eq!(found.reason, Some(CrlReason::KeyCompromise));
/// # Ok::<(), x509_rattle::Error>(())
/// ```
#[derive(Clone)]
pub struct Crl {
    der: Vec<u8>,
    view: ffi::Crl,
    len: usize,
}

impl Crl {
    /// The CRL of v1 or v2 that the bytes are, under the rules of RFC 5280.
    ///
    /// # Errors
    /// As of [`CrlRef::from_der`].
    pub fn from_der(der: Vec<u8>) -> Result<Crl, Error> {
        let CrlRef { view, len, .. } = CrlRef::from_der(&der)?;
        Ok(Crl { der, view, len })
    }

    /// The same CRL, borrowed, with all that it says.
    pub fn to_ref(&self) -> CrlRef<'_> {
        CrlRef {
            der: &self.der,
            view: self.view,
            len: self.len,
        }
    }

    /// Its DER.
    pub fn as_der(&self) -> &[u8] {
        &self.der
    }

    /// Its DER, taken out.
    pub fn into_der(self) -> Vec<u8> {
        self.der
    }

    /// How many entries it has.
    pub fn len(&self) -> usize {
        self.len
    }

    /// Whether it has no entry.
    pub fn is_empty(&self) -> bool {
        self.len == 0
    }

    as_borrowed! {
        /// Its version: 1 or 2 as of RFC 5280 5.1.2.1, or 3.
        pub fn version(&self) -> u32;

        /// The algorithm in the signed part, a whole AlgorithmIdentifier, which is to be that of the signature (RFC 5280 5.1.1.2). Whether it is isn't looked at.
        pub fn inner_algorithm(&self) -> &[u8];

        /// The name of its issuer.
        pub fn issuer(&self) -> NameRef<'_>;

        /// When it was issued.
        ///
        /// # Errors
        /// None but [`Error::Unexpected`].
        pub fn this_update(&self) -> Result<SystemTime, Error>;

        /// By when the next one will be issued, where that is said.
        ///
        /// # Errors
        /// None but [`Error::Unexpected`].
        pub fn next_update(&self) -> Result<Option<SystemTime>, Error>;

        /// Its entries, in order.
        pub fn entries(&self) -> CrlEntries<'_>;

        /// Its entries, in order, each with who issued its certificate, where it is an indirect CRL.
        pub fn issued_entries(&self) -> IssuedEntries<'_>;

        /// Its extensions, in order.
        pub fn extensions(&self) -> Extensions<'_>;

        /// Its extension with an identifier.
        ///
        /// # Errors
        /// As of [`CrlRef::extension`].
        pub fn extension(&self, oid: ObjectIdentifier) -> Result<Option<Extension<'_>>, Error>;
    }

    /// What its extension of a type holds, as its [`CrlNumber`](crate::extension::CrlNumber), and whether that is critical.
    ///
    /// # Errors
    /// As of [`CrlRef::get`].
    pub fn get<'a, T: ExtensionValue<'a>>(&'a self) -> Result<Option<(bool, T)>, Error> {
        self.to_ref().get()
    }

    as_borrowed! {
        /// What is to be verified of it.
        ///
        /// # Errors
        /// None but [`Error::Unexpected`].
        pub fn signature(&self) -> Result<Signature<'_>, Error>;

        /// The bytes that the signature is over, as they stand in the DER: a whole TBSCertList.
        ///
        /// # Errors
        /// None but [`Error::Unexpected`].
        pub fn tbs_cert_list(&self) -> Result<&[u8], Error>;

        /// What the first entry with a serial number says, given by the content octets of an INTEGER. The issuer isn't compared (RFC 5280 5.3.3).
        ///
        /// # Errors
        /// As of [`CrlRef::revocation`].
        pub fn revocation(&self, serial_number: &[u8]) -> Result<Option<Revocation>, Error>;

        /// The first entry with a serial number, given by the content octets of an INTEGER. The issuer isn't compared (RFC 5280 5.3.3).
        ///
        /// # Errors
        /// As of [`CrlRef::entry`].
        pub fn entry(&self, serial_number: &[u8]) -> Result<Option<CrlEntry<'_>>, Error>;

        /// An index of its entries, for a CRL that is asked often.
        ///
        /// # Errors
        /// As of [`CrlRef::index`].
        pub fn index(&self) -> Result<CrlIndex<'_>, Error>;

        /// All that it has, as lines for people.
        ///
        /// # Errors
        /// As of [`CrlRef::to_text`].
        pub fn to_text(&self) -> Result<String, Error>;

        /// The same lines as JSON.
        ///
        /// # Errors
        /// As of [`CrlRef::to_json`].
        pub fn to_json(&self) -> Result<String, Error>;

        /// The rules that it breaks beyond the grammar.
        ///
        /// # Errors
        /// As of [`CrlRef::lint`].
        pub fn lint(&self) -> Result<Vec<Finding>, Error>;
    }
}

traits_by_der!(Crl, CrlRef);
