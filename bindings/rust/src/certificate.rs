//! Certificates (RFC 5280 4.1).
use crate::error::Error;
use crate::extension::{
    BasicConstraints, Extension, ExtensionValue, Extensions, KeyUsage, SubjectAltName,
};
use crate::ffi::{self, Span};
use crate::integer::Integer;
use crate::key::{AlgorithmIdentifier, PublicKey};
use crate::lint::{self, Finding};
use crate::name::NameRef;
use crate::oid::ObjectIdentifier;
use crate::owned::{as_borrowed, traits_by_der};
use crate::peer::{EmailAddress, ServerName};
use crate::time::moment;
use std::fmt;
use std::time::SystemTime;

/// The version of a certificate (RFC 5280 4.1.2.1).
#[derive(Clone, Copy, Debug, PartialEq, Eq, PartialOrd, Ord, Hash)]
pub enum Version {
    /// 1
    V1,
    /// 2
    V2,
    /// 3
    V3,
}

/// From when on a certificate holds, and until when: the first second and the last (RFC 5280 4.1.2.5).
#[derive(Clone, Copy, Debug, PartialEq, Eq, Hash)]
pub struct Validity {
    /// The first second.
    pub not_before: SystemTime,

    /// The last second.
    pub not_after: SystemTime,
}

/// What is to be verified of a certificate, a CRL or a CSR: that these bits are a signature of the signed part, by that algorithm, for the key of the
/// certificate above, for that of the issuer, or for the CSR's own.
#[derive(Clone, Copy, Debug, PartialEq, Eq, Hash)]
pub struct Signature<'a> {
    /// What is signed: a whole TBSCertificate, TBSCertList or CertificationRequestInfo.
    pub signed_part: &'a [u8],

    /// A whole AlgorithmIdentifier.
    pub algorithm: &'a [u8],

    /// The octets of the signature's bits.
    pub bits: &'a [u8],

    /// How many bits of the last of these octets are unused, 0 to 7.
    pub unused_bits: u32,
}

impl<'a> Signature<'a> {
    /// What a call has found of these bytes.
    pub(crate) fn found(view: &ffi::Signature, der: &'a [u8]) -> Result<Signature<'a>, Error> {
        Ok(Signature {
            signed_part: view.signed_part.of(der)?,
            algorithm: view.algorithm.of(der)?,
            bits: view.bits.of(der)?,
            unused_bits: view.unused_bits,
        })
    }

    /// The algorithm, by its kind and its parameters.
    ///
    /// # Errors
    /// [`Error::Malformed`] where the bytes of `algorithm` are none, which those that a call has found never are; [`Error::Memory`].
    pub fn algorithm_identifier(&self) -> Result<AlgorithmIdentifier<'a>, Error> {
        AlgorithmIdentifier::from_der(self.algorithm)
    }
}

/// A further name of an issuer or a subject (RFC 5280 4.1.2.8), which certificates don't have any more.
#[derive(Clone, Copy, Debug, PartialEq, Eq, Hash)]
pub struct UniqueIdentifier<'a> {
    /// The octets of its bits.
    pub bits: &'a [u8],

    /// How many bits of the last of these octets are unused, 0 to 7.
    pub unused_bits: u32,
}

/// Where the parts of a certificate stand in its bytes.
#[derive(Clone, Copy)]
struct Parts {
    version: Version,
    serial_number: Span,
    issuer: Span,
    subject: Span,
    subject_public_key_info: Span,
    extensions: Span,
    inner_algorithm: Span,
    issuer_unique_id: (Span, u32),
    subject_unique_id: (Span, u32),
    validity: Validity,
}

impl Parts {
    /// Those of a certificate, each within its bytes.
    fn of(der: &[u8]) -> Result<Parts, Error> {
        Parts::found(&ffi::CERTIFICATE.of(der)?, der)
    }

    /// Those that a call has found of these bytes.
    fn found(view: &ffi::Certificate, der: &[u8]) -> Result<Parts, Error> {
        for span in [
            view.issuer,
            view.subject,
            view.subject_public_key_info,
            view.extensions,
            view.inner_algorithm,
            view.issuer_unique_id,
            view.subject_unique_id,
        ] {
            span.of(der)?;
        }
        let content = ffi::SERIAL_NUMBER.of(view.serial_number.of(der)?)?;
        let place = view.serial_number.place.checked_add(content.place);
        let serial_number = Span {
            place: place.ok_or(Error::Unexpected)?,
            len: content.len,
        };
        serial_number.of(der)?;
        Ok(Parts {
            version: match view.version {
                1 => Version::V1,
                2 => Version::V2,
                3 => Version::V3,
                _ => return Err(Error::Unexpected),
            },
            serial_number,
            issuer: view.issuer,
            subject: view.subject,
            subject_public_key_info: view.subject_public_key_info,
            extensions: view.extensions,
            inner_algorithm: view.inner_algorithm,
            issuer_unique_id: (view.issuer_unique_id, view.issuer_unused_bits),
            subject_unique_id: (view.subject_unique_id, view.subject_unused_bits),
            validity: Validity {
                not_before: moment(view.not_before)?,
                not_after: moment(view.not_after)?,
            },
        })
    }
}

/// A certificate, by its bytes, which are borrowed. Certificates are equal byte for byte.
#[derive(Clone, Copy)]
pub struct CertificateRef<'a> {
    der: &'a [u8],
    parts: Parts,
}

impl<'a> CertificateRef<'a> {
    /// The certificate that the bytes are, under the rules of RFC 5280. What its extensions hold isn't looked at.
    ///
    /// # Errors
    /// [`Error::Malformed`] or [`Error::Overlength`] where they are none, or bytes stand behind it; [`Error::Memory`].
    pub fn from_der(der: &'a [u8]) -> Result<CertificateRef<'a>, Error> {
        let parts = Parts::of(der)?;
        Ok(CertificateRef { der, parts })
    }

    /// The certificate of a path that a call has said this of, and what is to be verified of it.
    pub(crate) fn found(
        told: &ffi::PathCertificate,
        der: &'a [u8],
    ) -> Result<(CertificateRef<'a>, Signature<'a>), Error> {
        let parts = Parts::found(&told.view, der)?;
        let signature = Signature::found(&told.signature, der)?;
        Ok((CertificateRef { der, parts }, signature))
    }

    /// A part, which [`Parts::found`] has found within the bytes.
    fn part(&self, span: Span) -> &'a [u8] {
        span.of(self.der).unwrap_or_default()
    }

    fn unique_id(&self, (bits, unused_bits): (Span, u32)) -> Option<UniqueIdentifier<'a>> {
        let bits = bits.part(self.der).ok().flatten()?;
        Some(UniqueIdentifier { bits, unused_bits })
    }

    /// Its DER.
    pub fn as_der(&self) -> &'a [u8] {
        self.der
    }

    /// Its version.
    pub fn version(&self) -> Version {
        self.parts.version
    }

    /// Its serial number.
    pub fn serial_number(&self) -> Integer<'a> {
        Integer(self.part(self.parts.serial_number))
    }

    /// The name of its issuer.
    pub fn issuer(&self) -> NameRef<'a> {
        NameRef::found(self.part(self.parts.issuer))
    }

    /// The name of its subject.
    pub fn subject(&self) -> NameRef<'a> {
        NameRef::found(self.part(self.parts.subject))
    }

    /// From when on it holds, and until when.
    pub fn validity(&self) -> Validity {
        self.parts.validity
    }

    /// The key and its algorithm: a whole SubjectPublicKeyInfo.
    pub fn subject_public_key_info(&self) -> &'a [u8] {
        self.part(self.parts.subject_public_key_info)
    }

    /// The key, by its kind and its bits.
    ///
    /// # Errors
    /// [`Error::Memory`].
    pub fn public_key(&self) -> Result<PublicKey<'a>, Error> {
        PublicKey::from_der(self.subject_public_key_info())
    }

    /// The algorithm in the signed part, a whole AlgorithmIdentifier, which is to be that of the signature (RFC 5280 4.1.1.2). Whether it is isn't looked at.
    pub fn inner_algorithm(&self) -> &'a [u8] {
        self.part(self.parts.inner_algorithm)
    }

    /// A further name of its issuer (RFC 5280 4.1.2.8).
    pub fn issuer_unique_id(&self) -> Option<UniqueIdentifier<'a>> {
        self.unique_id(self.parts.issuer_unique_id)
    }

    /// A further name of its subject (RFC 5280 4.1.2.8).
    pub fn subject_unique_id(&self) -> Option<UniqueIdentifier<'a>> {
        self.unique_id(self.parts.subject_unique_id)
    }

    /// Its extensions, in order.
    pub fn extensions(&self) -> Extensions<'a> {
        Extensions::new(self.part(self.parts.extensions))
    }

    /// Its extension with an identifier.
    ///
    /// # Errors
    /// [`Error::Repeated`] where there are two or more; [`Error::Memory`].
    pub fn extension(&self, oid: ObjectIdentifier) -> Result<Option<Extension<'a>>, Error> {
        let found = match ffi::CERTIFICATE_EXTENSION.of(self.der, oid.as_bytes())? {
            Some(found) => found,
            None => return Ok(None),
        };
        Ok(Some(Extension::new(
            oid,
            found.critical == 1,
            found.value.of(self.der)?,
        )))
    }

    /// What its extension of a type holds, and whether that is critical.
    ///
    /// ```
    /// use x509_rattle::extension::KeyUsage;
    /// use x509_rattle::CertificateRef;
    ///
    /// # let der = include_bytes!("../../../examples/data/certificate.der");
    /// let certificate = CertificateRef::from_der(der)?;
    /// let (critical, usage) = certificate.get::<KeyUsage>()?.expect("it has one");
    /// assert!(critical && usage.digital_signature());
    /// # Ok::<(), x509_rattle::Error>(())
    /// ```
    ///
    /// # Errors
    /// [`Error::Repeated`] where there are two or more; [`Error::Malformed`] or [`Error::Overlength`] where it can't be read; [`Error::Memory`].
    pub fn get<T: ExtensionValue<'a>>(&self) -> Result<Option<(bool, T)>, Error> {
        let found = match self.extension(T::OID)? {
            Some(found) => found,
            None => return Ok(None),
        };
        Ok(Some((found.critical(), T::from_der(found.value())?)))
    }

    /// What the key may be used for.
    ///
    /// # Errors
    /// As of [`get`](CertificateRef::get).
    pub fn key_usage(&self) -> Result<Option<KeyUsage>, Error> {
        Ok(self.get()?.map(|(_, found)| found))
    }

    /// Whether the key may sign certificates, and how many authorities may follow.
    ///
    /// # Errors
    /// As of [`get`](CertificateRef::get).
    pub fn basic_constraints(&self) -> Result<Option<BasicConstraints>, Error> {
        Ok(self.get()?.map(|(_, found)| found))
    }

    /// Further names of the subject.
    ///
    /// # Errors
    /// As of [`get`](CertificateRef::get).
    pub fn subject_alt_name(&self) -> Result<Option<SubjectAltName<'a>>, Error> {
        Ok(self.get()?.map(|(_, found)| found))
    }

    /// Whether it is that of the server (RFC 9525 6): its SubjectAltName has a name of it. A dNSName names a host where both are the same without regard to ASCII
    /// case; one that begins with `*.` and has two labels or more behind it names each host that has these behind one label. An iPAddress names a host where
    /// both have the same octets. Nothing else names one, nor does the common name; a SubjectAltName that can't be decoded, or that is there twice, names none.
    /// Whether the certificate is to be trusted is asked by [`validate_path`](crate::validate_path).
    ///
    /// # Errors
    /// None but [`Error::Unexpected`].
    pub fn matches_name(&self, name: &ServerName) -> Result<bool, Error> {
        ffi::MATCHES_NAME.are(self.der, &name.to_string())
    }

    /// Whether it is that of the mailbox (RFC 5280 7.5): its SubjectAltName has an rfc822Name with the same local part, byte for byte, and the same host without
    /// regard to ASCII case. Nothing else names one.
    ///
    /// # Errors
    /// None but [`Error::Unexpected`].
    pub fn matches_email(&self, address: &EmailAddress) -> Result<bool, Error> {
        ffi::MATCHES_EMAIL.are(self.der, &address.to_string())
    }

    /// The bytes that the signature is over, as they stand in the DER: a whole TBSCertificate.
    ///
    /// # Errors
    /// None but [`Error::Unexpected`].
    pub fn tbs_certificate(&self) -> Result<&'a [u8], Error> {
        ffi::SIGNED_SLICE.of(self.der)?.of(self.der)
    }

    /// What is to be verified of it.
    ///
    /// # Errors
    /// [`Error::Memory`].
    pub fn signature(&self) -> Result<Signature<'a>, Error> {
        Signature::found(&ffi::CERTIFICATE_SIGNATURE.of(self.der)?, self.der)
    }

    /// Its DER with the dates as RFC 5280 4.1.2.5 spells them. Where that isn't how they stood, the signature doesn't hold of these bytes.
    ///
    /// # Errors
    /// [`Error::Memory`].
    pub fn canonical_der(&self) -> Result<Vec<u8>, Error> {
        ffi::CERTIFICATE_REENCODE.of(self.der)
    }

    /// All that it has, as lines for people: each is a label and a text, and no text of the certificate can forge a line or turn its order round.
    ///
    /// ```
    /// use x509_rattle::CertificateRef;
    ///
    /// # let der = include_bytes!("../../../examples/data/certificate.der");
    /// let text = CertificateRef::from_der(der)?.to_text()?;
    /// assert!(text.starts_with("type: certificate\nversion: v3\nserial: 12:34:56:78:90:AB:CD:EF\n"));
    /// # Ok::<(), x509_rattle::Error>(())
    /// ```
    ///
    /// # Errors
    /// [`Error::Memory`].
    pub fn to_text(&self) -> Result<String, Error> {
        ffi::CERTIFICATE_TEXT.text_of(self.der)
    }

    /// The lines of [`to_text`](CertificateRef::to_text) as JSON (RFC 8259): an array of objects, each with its `depth`, its `label` and its `text`.
    ///
    /// # Errors
    /// [`Error::Memory`].
    pub fn to_json(&self) -> Result<String, Error> {
        ffi::CERTIFICATE_JSON.text_of(self.der)
    }

    /// The TBSCertificate that a log has of the certificate (RFC 6962 3.2): its own without the list of timestamps, all else byte for byte as it stands, but
    /// for the lengths above it. It is what its timestamps are of, and the same bytes as [`logged_precertificate`](CertificateRef::logged_precertificate) of
    /// its precertificate.
    ///
    /// # Errors
    /// [`Error::Absent`] where it has no list of timestamps, [`Error::Repeated`] where it has two or more; [`Error::Memory`].
    pub fn logged_part(&self) -> Result<Vec<u8>, Error> {
        ffi::LOGGED_PART.of(self.der)
    }

    /// The TBSCertificate that a log has of the precertificate, which the authority itself signed (RFC 6962 3.2): its own without the poison.
    ///
    /// # Errors
    /// [`Error::Absent`] where it has no poison, [`Error::Repeated`] where it has two or more; [`Error::Memory`].
    pub fn logged_precertificate(&self) -> Result<Vec<u8>, Error> {
        ffi::LOGGED_PRECERTIFICATE.of(self.der)
    }

    /// The same of a precertificate that a precertificate signing certificate signed (RFC 6962 3.1; its extended key usage has
    /// [`CERTIFICATE_TRANSPARENCY`](crate::oid::purpose::CERTIFICATE_TRANSPARENCY)): with the issuer of the signing certificate, and, where the precertificate
    /// has an authority key identifier, with the value that this extension has there (3.2). Whether that certificate is one, and signed the precertificate, isn't looked at.
    ///
    /// # Errors
    /// [`Error::Absent`] where it has no poison, or an authority key identifier which the signing certificate hasn't; [`Error::Repeated`] where one of these
    /// extensions is there twice or more; [`Error::Overlength`] where more than 268,435,455 octets are to be written; [`Error::Memory`].
    pub fn logged_precertificate_signed_by(
        &self,
        signing: CertificateRef<'_>,
    ) -> Result<Vec<u8>, Error> {
        ffi::logged_precertificate_signed_by(self.der, signing.as_der())
    }

    /// The rules that it breaks beyond the grammar, those of RFC 5280 and of other standards on keys, signatures, names and extensions that
    /// `docs/RULES.md` of the sources lists, in their order; none where it breaks none.
    ///
    /// # Errors
    /// [`Error::Memory`].
    pub fn lint(&self) -> Result<Vec<Finding>, Error> {
        lint::findings(&ffi::CERTIFICATE_LINT, self.der)
    }

    /// The certificate, with bytes of its own.
    pub fn to_owned(&self) -> Certificate {
        Certificate {
            der: self.der.to_vec(),
            parts: self.parts,
        }
    }
}

impl fmt::Debug for CertificateRef<'_> {
    fn fmt(&self, f: &mut fmt::Formatter<'_>) -> fmt::Result {
        f.debug_struct("Certificate")
            .field("serial_number", &self.serial_number())
            .field("issuer", &self.issuer())
            .field("subject", &self.subject())
            .finish_non_exhaustive()
    }
}

/// A certificate that has bytes of its own. All that it says it says by [`to_ref`](Certificate::to_ref).
///
/// ```
/// use x509_rattle::Certificate;
///
/// # let der = include_bytes!("../../../examples/data/certificate.der").to_vec();
/// let certificate = Certificate::from_der(der)?;
/// assert_eq!(certificate.subject().to_string(), "CN=www.example.org,O=Beispiel\\, Söhne & Co,C=DE");
/// for extension in certificate.extensions() {
///     let extension = extension?;
///     println!("{} {:?}", extension.oid(), extension.parsed()?);
/// }
/// # Ok::<(), x509_rattle::Error>(())
/// ```
#[derive(Clone)]
pub struct Certificate {
    der: Vec<u8>,
    parts: Parts,
}

impl Certificate {
    /// The certificate that the bytes are, under the rules of RFC 5280.
    ///
    /// # Errors
    /// As of [`CertificateRef::from_der`].
    pub fn from_der(der: Vec<u8>) -> Result<Certificate, Error> {
        let parts = Parts::of(&der)?;
        Ok(Certificate { der, parts })
    }

    /// The same certificate, borrowed, with all that it says.
    pub fn to_ref(&self) -> CertificateRef<'_> {
        CertificateRef {
            der: &self.der,
            parts: self.parts,
        }
    }

    /// Its DER.
    pub fn as_der(&self) -> &[u8] {
        &self.der
    }

    /// Its DER, taken out.
    pub fn into_der(self) -> Vec<u8> {
        self.der
    }

    as_borrowed! {
        /// Its version.
        pub fn version(&self) -> Version;

        /// Its serial number.
        pub fn serial_number(&self) -> Integer<'_>;

        /// The name of its issuer.
        pub fn issuer(&self) -> NameRef<'_>;

        /// The name of its subject.
        pub fn subject(&self) -> NameRef<'_>;

        /// From when on it holds, and until when.
        pub fn validity(&self) -> Validity;

        /// The key and its algorithm: a whole SubjectPublicKeyInfo.
        pub fn subject_public_key_info(&self) -> &[u8];

        /// The key, by its kind and its bits.
        ///
        /// # Errors
        /// [`Error::Memory`].
        pub fn public_key(&self) -> Result<PublicKey<'_>, Error>;

        /// The algorithm in the signed part, a whole AlgorithmIdentifier, which is to be that of the signature (RFC 5280 4.1.1.2). Whether it is isn't looked at.
        pub fn inner_algorithm(&self) -> &[u8];

        /// A further name of its issuer (RFC 5280 4.1.2.8).
        pub fn issuer_unique_id(&self) -> Option<UniqueIdentifier<'_>>;

        /// A further name of its subject (RFC 5280 4.1.2.8).
        pub fn subject_unique_id(&self) -> Option<UniqueIdentifier<'_>>;

        /// Its extensions, in order.
        pub fn extensions(&self) -> Extensions<'_>;

        /// Its extension with an identifier.
        ///
        /// # Errors
        /// As of [`CertificateRef::extension`].
        pub fn extension(&self, oid: ObjectIdentifier) -> Result<Option<Extension<'_>>, Error>;
    }

    /// What its extension of a type holds, and whether that is critical.
    ///
    /// # Errors
    /// As of [`CertificateRef::get`].
    pub fn get<'a, T: ExtensionValue<'a>>(&'a self) -> Result<Option<(bool, T)>, Error> {
        self.to_ref().get()
    }

    as_borrowed! {
        /// What the key may be used for.
        ///
        /// # Errors
        /// As of [`CertificateRef::get`].
        pub fn key_usage(&self) -> Result<Option<KeyUsage>, Error>;

        /// Whether the key may sign certificates, and how many authorities may follow.
        ///
        /// # Errors
        /// As of [`CertificateRef::get`].
        pub fn basic_constraints(&self) -> Result<Option<BasicConstraints>, Error>;

        /// Further names of the subject.
        ///
        /// # Errors
        /// As of [`CertificateRef::get`].
        pub fn subject_alt_name(&self) -> Result<Option<SubjectAltName<'_>>, Error>;

        /// Whether it is that of the server (RFC 9525 6), as of [`CertificateRef::matches_name`].
        ///
        /// # Errors
        /// None but [`Error::Unexpected`].
        pub fn matches_name(&self, name: &ServerName) -> Result<bool, Error>;

        /// Whether it is that of the mailbox (RFC 5280 7.5), as of [`CertificateRef::matches_email`].
        ///
        /// # Errors
        /// None but [`Error::Unexpected`].
        pub fn matches_email(&self, address: &EmailAddress) -> Result<bool, Error>;

        /// The bytes that the signature is over, as they stand in the DER: a whole TBSCertificate.
        ///
        /// # Errors
        /// None but [`Error::Unexpected`].
        pub fn tbs_certificate(&self) -> Result<&[u8], Error>;

        /// What is to be verified of it.
        ///
        /// # Errors
        /// [`Error::Memory`].
        pub fn signature(&self) -> Result<Signature<'_>, Error>;

        /// Its DER with the dates as RFC 5280 4.1.2.5 spells them. Where that isn't how they stood, the signature doesn't hold of these bytes.
        ///
        /// # Errors
        /// [`Error::Memory`].
        pub fn canonical_der(&self) -> Result<Vec<u8>, Error>;

        /// All that it has, as lines for people.
        ///
        /// # Errors
        /// As of [`CertificateRef::to_text`].
        pub fn to_text(&self) -> Result<String, Error>;

        /// The same lines as JSON.
        ///
        /// # Errors
        /// As of [`CertificateRef::to_json`].
        pub fn to_json(&self) -> Result<String, Error>;

        /// The TBSCertificate that a log has of the certificate.
        ///
        /// # Errors
        /// As of [`CertificateRef::logged_part`].
        pub fn logged_part(&self) -> Result<Vec<u8>, Error>;

        /// The TBSCertificate that a log has of the precertificate.
        ///
        /// # Errors
        /// As of [`CertificateRef::logged_precertificate`].
        pub fn logged_precertificate(&self) -> Result<Vec<u8>, Error>;

        /// The TBSCertificate that a log has of the precertificate, which a precertificate signing certificate signed.
        ///
        /// # Errors
        /// As of [`CertificateRef::logged_precertificate_signed_by`].
        pub fn logged_precertificate_signed_by(&self, signing: CertificateRef<'_>) -> Result<Vec<u8>, Error>;

        /// The rules that it breaks beyond the grammar.
        ///
        /// # Errors
        /// As of [`CertificateRef::lint`].
        pub fn lint(&self) -> Result<Vec<Finding>, Error>;
    }
}

traits_by_der!(Certificate, CertificateRef);
