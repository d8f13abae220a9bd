//! Builders of certificates, CRLs and CSRs (RFC 5280 4.1, 5.1; RFC 2986 4.1), with a signer of yours.
//!
//! A builder writes the bytes to be signed, the signer signs them, and the library puts both together. What is built is then read again as what it
//! is. That the signature is one of these bytes isn't checked.
use crate::certificate::{Certificate, CertificateRef, Validity};
use crate::crl::Crl;
use crate::csr::Csr;
use crate::error::{Error, ProfilePart};
use crate::extension::{is_crl_number, CrlReason, KeyUsage, SubjectAltName, ToExtension};
use crate::ffi::{self, build, Members};
use crate::general_name::GeneralName;
use crate::integer::{Integer, SerialNumber};
use crate::name::Name;
use crate::oid::{self, ObjectIdentifier};
use crate::time::seconds;
use crate::writing::{self, SET};
use std::collections::HashSet;
use std::fmt;
use std::time::SystemTime;

/// Signs what a builder has written.
///
/// ```
/// use x509_rattle::{algorithm, Signer};
///
/// /// A key of Ed25519 (RFC 8410), by the DER of its public half and a function that signs.
/// struct Ed25519<F> {
///     public_key: Vec<u8>,
///     sign: F,
/// }
///
/// impl<E, F: Fn(&[u8]) -> Result<[u8; 64], E>> Signer for Ed25519<F> {
///     type Error = E;
///
///     fn algorithm(&self) -> &[u8] {
///         algorithm::ED25519
///     }
///
///     fn subject_public_key_info(&self) -> &[u8] {
///         &self.public_key
///     }
///
///     fn sign(&self, message: &[u8]) -> Result<Vec<u8>, E> {
///         (self.sign)(message).map(Vec::from)
///     }
/// }
/// ```
pub trait Signer {
    /// Why it may fail to sign.
    type Error;

    /// The algorithm that it signs by: a whole AlgorithmIdentifier, as those of [`algorithm`](crate::algorithm).
    fn algorithm(&self) -> &[u8];

    /// The key that its signatures are verified with: a whole SubjectPublicKeyInfo.
    fn subject_public_key_info(&self) -> &[u8];

    /// The octets of a signature of the message, all bits of which are used.
    ///
    /// # Errors
    /// Where there is no signature; the builder passes the error on.
    fn sign(&self, message: &[u8]) -> Result<Vec<u8>, Self::Error>;
}

impl<S: Signer + ?Sized> Signer for &S {
    type Error = S::Error;

    fn algorithm(&self) -> &[u8] {
        (**self).algorithm()
    }

    fn subject_public_key_info(&self) -> &[u8] {
        (**self).subject_public_key_info()
    }

    fn sign(&self, message: &[u8]) -> Result<Vec<u8>, S::Error> {
        (**self).sign(message)
    }
}

/// Why nothing was built.
#[derive(Clone, Copy, Debug, PartialEq, Eq, Hash)]
#[non_exhaustive]
pub enum BuildError<E> {
    /// What was given makes none.
    Refused(Error),

    /// The signer's key isn't that of the issuer's certificate, or of a root not its own.
    OtherKey,

    /// The signer failed, by its own error.
    Signer(E),
}

impl<E> From<Error> for BuildError<E> {
    fn from(error: Error) -> BuildError<E> {
        BuildError::Refused(error)
    }
}

impl<E: fmt::Display> fmt::Display for BuildError<E> {
    fn fmt(&self, f: &mut fmt::Formatter<'_>) -> fmt::Result {
        match self {
            BuildError::Refused(error) => error.fmt(f),
            BuildError::OtherKey => {
                f.write_str("the signer's key isn't that of the issuer's certificate")
            }
            BuildError::Signer(error) => write!(f, "the signer failed: {error}"),
        }
    }
}

impl<E: std::error::Error + 'static> std::error::Error for BuildError<E> {
    fn source(&self) -> Option<&(dyn std::error::Error + 'static)> {
        match self {
            BuildError::Signer(error) => Some(error),
            BuildError::Refused(_) | BuildError::OtherKey => None,
        }
    }
}

/// The DER of the bytes with the signer's algorithm and signature.
fn signed<S: Signer>(part: &[u8], signer: &S) -> Result<Vec<u8>, BuildError<S::Error>> {
    let signature = signer.sign(part).map_err(BuildError::Signer)?;
    Ok(build::assemble(part, signer.algorithm(), &signature)?)
}

/// Extensions in the order in which they were added, each with its identifier and its DER.
#[derive(Clone, Debug, Default)]
struct ExtensionList(Vec<(ObjectIdentifier, Vec<u8>)>);

impl ExtensionList {
    /// [`Error::Repeated`] where there is one with the identifier (RFC 5280 4.2).
    fn add(&mut self, oid: ObjectIdentifier, critical: bool, value: &[u8]) -> Result<(), Error> {
        if self.0.iter().any(|(other, _)| *other == oid) {
            return Err(Error::Repeated);
        }
        let der = build::extension(oid.as_bytes(), critical, value)?;
        self.0.push((oid, der));
        Ok(())
    }

    fn joined(&self) -> Vec<u8> {
        self.0.iter().flat_map(|(_, der)| der).copied().collect()
    }
}

macro_rules! with_extensions {
    () => {
        /// Adds an extension behind the others, with what it is to hold.
        ///
        /// # Errors
        /// [`Error::Repeated`] where there is one with the same identifier; [`Error::Value`] where what it is to hold can't be written;
        /// [`Error::Overlength`] or [`Error::Memory`].
        pub fn add_extension(
            &mut self,
            critical: bool,
            value: &impl ToExtension,
        ) -> Result<&mut Self, Error> {
            let der = value.to_der()?;
            self.add_extension_der(value.oid(), critical, &der)
        }

        /// Adds an extension behind the others, with the DER of what it is to hold, which isn't decoded.
        ///
        /// # Errors
        /// [`Error::Repeated`] where there is one with the same identifier; [`Error::Overlength`] or [`Error::Memory`].
        pub fn add_extension_der(
            &mut self,
            oid: ObjectIdentifier,
            critical: bool,
            value: &[u8],
        ) -> Result<&mut Self, Error> {
            self.extensions.add(oid, critical, value)?;
            Ok(self)
        }
    };
}

/// A kind of certificates, whose extensions the library makes, behind those that were added, of which none may be one of them. A key is told by the SHA-1
/// digest of its octets (RFC 5280 4.2.1.2). What a profile doesn't take is refused, with [`Error::NotInProfile`].
#[derive(Clone, Debug)]
#[non_exhaustive]
pub enum CertificateProfile<'a> {
    /// A root (CA/Browser Forum, Baseline Requirements 7.1.2.1), which is its own issuer, so that this is to be its subject, and signs with its own key: AKI,
    /// basic constraints, key usage, SKI.
    Root {
        /// Whether it signs OCSP responses.
        signs_ocsp_responses: bool,
    },

    /// An authority under another one, for TLS (7.1.2.6): AKI, basic constraints, key usage, SKI, extended key usage.
    Subordinate {
        /// How many authorities may follow at most, where that is limited.
        path_len_constraint: Option<u8>,
        /// Whether it signs OCSP responses.
        signs_ocsp_responses: bool,
        /// Whether those that it certifies may be TLS clients, too.
        client_auth: bool,
    },

    /// A TLS server of which control of its domains was validated (7.1.2.7), whose subject has nothing but a country and common names: AKI, extended key
    /// usage, basic constraints, key usage. The SAN is one of the added extensions.
    Subscriber {
        /// Whether it may be a TLS client, too.
        client_auth: bool,
        /// Of an RSA key, whether keys are encrypted. Refused of another key.
        key_encipherment: bool,
        /// Of an elliptic curve key, whether keys are agreed on. Refused of another key.
        key_agreement: bool,
        /// Of an RSA key, whether data is encrypted. Refused of another key.
        data_encipherment: bool,
    },

    /// A device (IEEE 802.1AR 8): AKI, key usage, and a SAN of these names, of which one is that of a hardware module (RFC 4108 5); no SAN of no names.
    Device {
        /// Its names.
        names: &'a [GeneralName<'a>],
    },
}

impl CertificateProfile<'_> {
    /// The key usages that are asked for.
    fn uses(&self) -> KeyUsage {
        let asked = match *self {
            CertificateProfile::Subscriber {
                key_encipherment,
                key_agreement,
                data_encipherment,
                ..
            } => [
                (key_encipherment, KeyUsage::KEY_ENCIPHERMENT),
                (key_agreement, KeyUsage::KEY_AGREEMENT),
                (data_encipherment, KeyUsage::DATA_ENCIPHERMENT),
            ],
            _ => return KeyUsage::default(),
        };
        let asked = asked.into_iter().filter(|(is_asked, _)| *is_asked);
        asked.fold(KeyUsage::default(), |all, (_, one)| all | one)
    }
}

/// Builds a certificate: of v3 where extensions are added, else of v1.
///
/// ```
/// use std::time::{Duration, UNIX_EPOCH};
/// use x509_rattle::extension::{BasicConstraints, KeyUsage};
/// use x509_rattle::{Certificate, CertificateBuilder, Name, SerialNumber, Signer, Validity};
///
/// fn root<S: Signer>(signer: &S, serial: &[u8; 16]) -> Result<Certificate, Box<dyn std::error::Error>>
/// where
///     S::Error: std::error::Error + 'static,
/// {
///     let name: Name = "CN=Root,O=Example,C=DE".parse()?;
///     let start = UNIX_EPOCH + Duration::from_secs(1_767_225_600); // 2026-01-01T00:00:00Z
///     let validity = Validity { not_before: start, not_after: start + Duration::from_secs(10 * 31_557_600) };
///     let key = signer.subject_public_key_info();
///     let mut builder = CertificateBuilder::new(SerialNumber::new(serial)?, &name, validity, &name, key);
///     builder.add_extension(true, &BasicConstraints { ca: true, path_len_constraint: None })?;
///     builder.add_extension(true, &(KeyUsage::KEY_CERT_SIGN | KeyUsage::CRL_SIGN))?;
///     Ok(builder.build(signer)?)
/// }
/// # struct Nothing;
/// # impl Signer for Nothing {
/// #     type Error = std::io::Error;
/// #     fn algorithm(&self) -> &[u8] { b"\x30\x05\x06\x03\x2b\x65\x70" }
/// #     fn subject_public_key_info(&self) -> &[u8] { b"\x30\x0a\x30\x05\x06\x03\x2b\x65\x70\x03\x01\x00" }
/// #     fn sign(&self, _: &[u8]) -> std::io::Result<Vec<u8>> { Ok(vec![1, 2]) }
/// # }
/// # let certificate = root(&Nothing, &[7; 16]).unwrap();
/// # assert_eq!(certificate.subject().to_string(), "CN=Root,O=Example,C=DE");
/// # assert!(certificate.to_ref().key_usage().unwrap().unwrap().key_cert_sign());
/// ```
#[derive(Clone, Debug)]
pub struct CertificateBuilder {
    serial_number: SerialNumber,
    issuer: Name,
    validity: Validity,
    subject: Name,
    key: Vec<u8>,
    extensions: ExtensionList,
}

impl CertificateBuilder {
    /// A certificate with that serial number, from that issuer, for that subject and its key, which is a whole SubjectPublicKeyInfo.
    pub fn new(
        serial_number: SerialNumber,
        issuer: &Name,
        validity: Validity,
        subject: &Name,
        subject_public_key_info: &[u8],
    ) -> CertificateBuilder {
        CertificateBuilder {
            serial_number,
            issuer: issuer.clone(),
            validity,
            subject: subject.clone(),
            key: subject_public_key_info.to_vec(),
            extensions: ExtensionList::default(),
        }
    }

    with_extensions!();

    /// The bytes to be signed, a whole TBSCertificate, for a signature by an algorithm, which is a whole AlgorithmIdentifier.
    ///
    /// # Errors
    /// [`Error::Malformed`] where the key or the algorithm is none; [`Error::Value`] where a moment is before 1970 or after 9999, or the last is before the
    /// first; [`Error::Overlength`] or [`Error::Memory`].
    pub fn tbs_certificate(&self, algorithm: &[u8]) -> Result<Vec<u8>, Error> {
        self.with_fields(algorithm, build::certificate)
    }

    /// What a call makes of the fields.
    fn with_fields(
        &self,
        algorithm: &[u8],
        make: impl FnOnce(&build::CertificateFields<'_>) -> Result<Vec<u8>, Error>,
    ) -> Result<Vec<u8>, Error> {
        make(&build::CertificateFields {
            serial_number: &self.serial_number.to_integer().element()?,
            algorithm,
            issuer: self.issuer.as_der(),
            not_before: seconds(self.validity.not_before)?,
            not_after: seconds(self.validity.not_after)?,
            subject: self.subject.as_der(),
            key: &self.key,
            extensions: &self.extensions.joined(),
        })
    }

    /// The bytes to be signed of a certificate of a kind, for a signature by an algorithm and for the issuer's key, which are a whole AlgorithmIdentifier and a
    /// whole SubjectPublicKeyInfo.
    ///
    /// # Errors
    /// As of [`tbs_certificate`](CertificateBuilder::tbs_certificate); [`Error::Malformed`] also where the issuer's key is none; [`Error::Repeated`] where an
    /// added extension is one that the profile makes; [`Error::NotInProfile`] where the issuer's name or key aren't a root's own, where a root can't have that
    /// subject ([`ProfilePart::RootSubject`] says which it can), where a server's subject has another attribute or its key no such use, or where no name of a
    /// device is that of a hardware module.
    pub fn tbs_certificate_as(
        &self,
        profile: &CertificateProfile<'_>,
        algorithm: &[u8],
        issuer_key: &[u8],
    ) -> Result<Vec<u8>, Error> {
        let is_root = matches!(profile, CertificateProfile::Root { .. });
        if is_root && issuer_key != self.key {
            return Err(Error::NotInProfile(ProfilePart::IssuerKey));
        }
        let part = self.with_fields(algorithm, |fields| match *profile {
            CertificateProfile::Root {
                signs_ocsp_responses,
            } => build::root(fields, signs_ocsp_responses),
            CertificateProfile::Subordinate {
                path_len_constraint: path_len,
                signs_ocsp_responses,
                client_auth,
            } => {
                let asked = build::Subordinate {
                    path_len,
                    signs_ocsp_responses,
                    client_auth,
                };
                build::subordinate(fields, issuer_key, &asked)
            }
            CertificateProfile::Subscriber {
                client_auth,
                key_encipherment,
                key_agreement,
                data_encipherment,
            } => {
                let asked = build::Subscriber {
                    client_auth,
                    key_encipherment,
                    key_agreement,
                    data_encipherment,
                };
                build::subscriber(fields, issuer_key, &asked)
            }
            CertificateProfile::Device { names: [] } => build::device(fields, issuer_key, &[]),
            CertificateProfile::Device { names } => {
                let names = SubjectAltName(names.to_vec()).to_der()?;
                build::device(fields, issuer_key, &names)
            }
        })?;
        // without a signature it can be read as any certificate
        let der = build::assemble(&part, algorithm, &[])?;
        let made = CertificateRef::from_der(&der)?;
        let uses = made.key_usage()?.unwrap_or_default();
        let missing = if made.issuer() != self.issuer {
            Some(ProfilePart::Issuer)
        } else if made.subject() != self.subject {
            Some(ProfilePart::Subject)
        } else if !uses.contains(profile.uses()) {
            Some(ProfilePart::KeyUsage)
        } else {
            None
        };
        if let Some(part) = missing {
            return Err(Error::NotInProfile(part));
        }
        Ok(part)
    }

    /// The certificate of a kind, signed by the issuer's signer.
    ///
    /// # Errors
    /// [`BuildError::OtherKey`] where the signer's key isn't that of a root; [`BuildError::Refused`] as of
    /// [`tbs_certificate_as`](CertificateBuilder::tbs_certificate_as), [`BuildError::Signer`] where the signer fails.
    pub fn build_as<S: Signer>(
        &self,
        profile: &CertificateProfile<'_>,
        signer: &S,
    ) -> Result<Certificate, BuildError<S::Error>> {
        let key = signer.subject_public_key_info();
        if matches!(profile, CertificateProfile::Root { .. }) && key != self.key {
            return Err(BuildError::OtherKey);
        }
        let part = self.tbs_certificate_as(profile, signer.algorithm(), key)?;
        Ok(Certificate::from_der(signed(&part, signer)?)?)
    }

    /// The certificate, signed by the issuer's signer.
    ///
    /// # Errors
    /// [`BuildError::Refused`] as of [`tbs_certificate`](CertificateBuilder::tbs_certificate), [`BuildError::Signer`] where the signer fails.
    pub fn build<S: Signer>(&self, signer: &S) -> Result<Certificate, BuildError<S::Error>> {
        let part = self.tbs_certificate(signer.algorithm())?;
        Ok(Certificate::from_der(signed(&part, signer)?)?)
    }
}

/// Builds a CRL of v2. Its first extensions are the number and the AKI, which is the SKI in the issuer's certificate, and where that has none, the
/// SHA-1 digest of its key (RFC 5280 4.2.1.2). Neither may be added.
///
/// ```
/// use std::time::SystemTime;
/// use x509_rattle::extension::CrlReason;
/// use x509_rattle::{BuildError, CertificateRef, Crl, CrlBuilder, Error, Integer, Signer};
///
/// fn revoke<S: Signer>(
///     issuer: CertificateRef,
///     signer: &S,
///     number: u64,
///     serials: &[Integer],
///     now: SystemTime,
///     next: SystemTime,
/// ) -> Result<Crl, BuildError<S::Error>> {
///     let mut builder = CrlBuilder::new(issuer, &number.to_be_bytes(), now);
///     builder.next_update(next);
///     for serial in serials {
///         builder.add_entry(*serial, now, Some(CrlReason::KeyCompromise))?;
///     }
///     builder.build(signer)
/// }
/// ```
#[derive(Clone, Debug)]
pub struct CrlBuilder {
    issuer: Certificate,
    number: Vec<u8>,
    this_update: SystemTime,
    next_update: Option<SystemTime>,
    entries: Vec<u8>,
    extensions: ExtensionList,
}

impl CrlBuilder {
    /// A CRL from the subject of the issuer's certificate, with that number, whose octets stand the most significant first, issued at that moment.
    pub fn new(issuer: CertificateRef<'_>, number: &[u8], this_update: SystemTime) -> CrlBuilder {
        CrlBuilder {
            issuer: issuer.to_owned(),
            number: number.to_vec(),
            this_update,
            next_update: None,
            entries: Vec::new(),
            extensions: ExtensionList::default(),
        }
    }

    /// Says by when the next one will be issued, in place of what was said before.
    pub fn next_update(&mut self, moment: SystemTime) -> &mut CrlBuilder {
        self.next_update = Some(moment);
        self
    }

    /// Adds an entry behind the others: the certificate with that serial number is revoked since that moment, perhaps for a reason.
    ///
    /// # Errors
    /// [`Error::Malformed`] where the number has more than 21 content octets; [`Error::Value`] where the moment is before 1970 or after 9999;
    /// [`Error::Overlength`] or [`Error::Memory`].
    pub fn add_entry(
        &mut self,
        serial_number: Integer<'_>,
        date: SystemTime,
        reason: Option<CrlReason>,
    ) -> Result<&mut CrlBuilder, Error> {
        let mut entry = CrlEntryBuilder::new(serial_number, date);
        if let Some(reason) = reason {
            entry.add_extension(false, &reason)?;
        }
        self.add_entry_of(&entry)
    }

    /// Adds an entry behind the others, with extensions of its own.
    ///
    /// # Errors
    /// As of [`add_entry`](CrlBuilder::add_entry).
    pub fn add_entry_of(&mut self, entry: &CrlEntryBuilder) -> Result<&mut CrlBuilder, Error> {
        let serial_number = Integer(&entry.serial_number).element()?;
        let date = seconds(entry.date)?;
        let entry = build::crl_entry(&serial_number, date, &entry.extensions.joined())?;
        self.entries.extend_from_slice(&entry);
        Ok(self)
    }

    with_extensions!();

    /// The bytes to be signed, a whole TBSCertList, for a signature by an algorithm, which is a whole AlgorithmIdentifier.
    ///
    /// # Errors
    /// [`Error::Malformed`] where the algorithm is none; [`Error::Value`] where the number has no octets, or more than 20 content octets (RFC 5280 5.2.3), or a
    /// moment is before 1970 or after 9999, or the next update before this one; [`Error::Repeated`] where a number or an AKI was added, or where the issuer's
    /// certificate has two SKIs; [`Error::Overlength`] or [`Error::Memory`].
    pub fn tbs_cert_list(&self, algorithm: &[u8]) -> Result<Vec<u8>, Error> {
        if !is_crl_number(&writing::unsigned(&self.number)) {
            return Err(Error::Value);
        }
        build::crl(&build::CrlFields {
            issuer: self.issuer.as_der(),
            algorithm,
            number: &self.number,
            this_update: seconds(self.this_update)?,
            next_update: self.next_update.map(seconds).transpose()?,
            entries: &self.entries,
            extensions: &self.extensions.joined(),
        })
    }

    /// The CRL, signed by the issuer's signer.
    ///
    /// # Errors
    /// [`BuildError::OtherKey`] where the signer's key isn't that of the issuer's certificate, byte for byte; [`BuildError::Refused`] as of
    /// [`tbs_cert_list`](CrlBuilder::tbs_cert_list), [`BuildError::Signer`] where the signer fails.
    pub fn build<S: Signer>(&self, signer: &S) -> Result<Crl, BuildError<S::Error>> {
        if signer.subject_public_key_info() != self.issuer.subject_public_key_info() {
            return Err(BuildError::OtherKey);
        }
        let part = self.tbs_cert_list(signer.algorithm())?;
        Ok(Crl::from_der(signed(&part, signer)?)?)
    }
}

/// Builds an entry of a CRL with extensions of its own, for [`CrlBuilder::add_entry_of`].
///
/// ```
/// use std::time::SystemTime;
/// use x509_rattle::extension::{CertificateIssuer, CrlReason};
/// use x509_rattle::{CrlBuilder, CrlEntryBuilder, Error, GeneralName, Integer, NameRef};
///
/// /// Revokes a certificate of another issuer (RFC 5280 5.3.3).
/// fn revoke(list: &mut CrlBuilder, serial: Integer, issuer: NameRef, now: SystemTime) -> Result<(), Error> {
///     let mut entry = CrlEntryBuilder::new(serial, now);
///     entry.add_extension(false, &CrlReason::CessationOfOperation)?;
///     entry.add_extension(true, &CertificateIssuer(vec![GeneralName::DirectoryName(issuer)]))?;
///     list.add_entry_of(&entry)?;
///     Ok(())
/// }
/// ```
#[derive(Clone, Debug)]
pub struct CrlEntryBuilder {
    serial_number: Vec<u8>,
    date: SystemTime,
    extensions: ExtensionList,
}

impl CrlEntryBuilder {
    /// An entry that says that the certificate with that serial number is revoked since that moment.
    pub fn new(serial_number: Integer<'_>, date: SystemTime) -> CrlEntryBuilder {
        CrlEntryBuilder {
            serial_number: serial_number.as_bytes().to_vec(),
            date,
            extensions: ExtensionList::default(),
        }
    }

    with_extensions!();
}

/// The member of a list that has just one.
fn only<T: Default>(mut members: Members<'_, T>) -> Result<T, Error> {
    let found = members.next().ok_or(Error::Malformed)??;
    match members.next() {
        None => Ok(found),
        Some(Ok(_)) => Err(Error::Malformed),
        Some(Err(error)) => Err(error),
    }
}

/// The DER of an attribute of a CSR with these values, of which each has to be one whole element.
fn attribute(oid: ObjectIdentifier, values: &[&[u8]]) -> Result<Vec<u8>, Error> {
    for value in values {
        only(ffi::ATTRIBUTE_VALUES.over(&build::element(SET, value)?))?;
    }
    // no set of values is empty, or has a value twice (RFC 2986 4.1, X.690 11.6)
    build::request_attribute(oid.as_bytes(), &values.concat()).map_err(|error| match error {
        Error::Value | Error::SetDuplicate => Error::Malformed,
        other => other,
    })
}

/// The type of the attribute that the bytes are.
fn attribute_type(attribute: &[u8]) -> Result<ObjectIdentifier, Error> {
    let list = build::element(writing::context_elements(0), attribute)?;
    let found = only(ffi::REQUEST_ATTRIBUTES.over(&list))?;
    // there is a value (RFC 2986 4.1)
    let mut values = ffi::ATTRIBUTE_VALUES.over(found.values.of(&list)?);
    values.next().ok_or(Error::Malformed)??;
    ObjectIdentifier::found(found.oid.of(&list)?)
}

/// Builds a CSR, a PKCS #10 request. It asks for the extensions that are added, with an attribute that stands there where there are none too.
///
/// ```
/// use x509_rattle::extension::SubjectAltName;
/// use x509_rattle::{BuildError, Csr, CsrBuilder, GeneralName, Name, Signer};
///
/// /// A CSR for a host.
/// fn request<S: Signer>(signer: &S, host: &str) -> Result<Csr, BuildError<S::Error>> {
///     let subject: Name = "O=Example,C=DE".parse()?;
///     let mut builder = CsrBuilder::new(&subject);
///     builder.add_extension(false, &SubjectAltName(vec![GeneralName::DnsName(host)]))?;
///     builder.build(signer)
/// }
/// ```
#[derive(Clone, Debug)]
pub struct CsrBuilder {
    subject: Name,
    attributes: Vec<Result<Vec<u8>, Error>>,
    extensions: ExtensionList,
}

impl CsrBuilder {
    /// A CSR for that subject.
    pub fn new(subject: &Name) -> CsrBuilder {
        CsrBuilder {
            subject: subject.clone(),
            attributes: Vec::new(),
            extensions: ExtensionList::default(),
        }
    }

    /// Adds a further attribute with these values, each a whole element, in any order; see [`oid::request`](crate::oid::request). It is checked when the CSR is
    /// built. None may ask for extensions, as the builder's own does.
    ///
    /// ```
    /// use x509_rattle::{oid, CsrBuilder};
    ///
    /// let mut builder = CsrBuilder::new(&"CN=a".parse()?);
    /// // a UTF8String
    /// builder.add_attribute(oid::request::CHALLENGE_PASSWORD, &[b"\x0c\x04word"]);
    /// # Ok::<(), x509_rattle::Error>(())
    /// ```
    pub fn add_attribute(&mut self, oid: ObjectIdentifier, values: &[&[u8]]) -> &mut CsrBuilder {
        self.attributes.push(attribute(oid, values));
        self
    }

    /// Adds a further attribute by its DER, a whole Attribute, which is checked when the CSR is built.
    pub fn add_attribute_der(&mut self, attribute: &[u8]) -> &mut CsrBuilder {
        self.attributes.push(Ok(attribute.to_vec()));
        self
    }

    with_extensions!();

    /// The bytes to be signed, a whole CertificationRequestInfo, for a key, which is a whole SubjectPublicKeyInfo.
    ///
    /// # Errors
    /// [`Error::Malformed`] where the key or an attribute is none; [`Error::Repeated`] where two attributes are of one type, or one asks for extensions;
    /// [`Error::Overlength`] or [`Error::Memory`].
    pub fn certification_request_info(
        &self,
        subject_public_key_info: &[u8],
    ) -> Result<Vec<u8>, Error> {
        let mut types = HashSet::from([oid::request::EXTENSION_REQUEST]);
        let mut attributes = Vec::new();
        for attribute in &self.attributes {
            let attribute = attribute.as_ref().map_err(|error| *error)?;
            if !types.insert(attribute_type(attribute)?) {
                return Err(Error::Repeated);
            }
            attributes.extend_from_slice(attribute);
        }
        build::request(
            self.subject.as_der(),
            subject_public_key_info,
            &attributes,
            &self.extensions.joined(),
        )
    }

    /// The CSR for the signer's key, signed by it.
    ///
    /// # Errors
    /// [`BuildError::Refused`] as of [`certification_request_info`](CsrBuilder::certification_request_info), [`BuildError::Signer`] where the signer
    /// fails.
    pub fn build<S: Signer>(&self, signer: &S) -> Result<Csr, BuildError<S::Error>> {
        let part = self.certification_request_info(signer.subject_public_key_info())?;
        Ok(Csr::from_der(signed(&part, signer)?)?)
    }
}
