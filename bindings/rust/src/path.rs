//! Paths of certificates (RFC 5280 6.1).
use crate::anchor::{AnchorKind, TrustAnchor};
use crate::certificate::{CertificateRef, Signature};
use crate::controls::PathControls;
use crate::error::Error;
use crate::extension::{CertificatePolicies, ExtensionValue, KeyUsage};
use crate::ffi;
use crate::name::NameRef;
use crate::numbered::numbered;
use crate::oid::{extension, purpose, ObjectIdentifier};
use crate::time::seconds;
use crate::writing::SEQUENCE;
use std::fmt;
use std::time::SystemTime;

/// Verifies signatures, which the library doesn't.
pub trait Verifier {
    /// Whether the bits are a signature of the signed part, by the algorithm, for the key, which is a whole SubjectPublicKeyInfo. The bits are whole octets.
    fn verify(&self, subject_public_key_info: &[u8], signature: &Signature<'_>) -> bool;
}

impl<F: Fn(&[u8], &Signature<'_>) -> bool> Verifier for F {
    fn verify(&self, subject_public_key_info: &[u8], signature: &Signature<'_>) -> bool {
        self(subject_public_key_info, signature)
    }
}

numbered! {
    /// What is wrong with a certificate of a path. Of several faults of one certificate the first of this order is told, but for four:
    /// [`Version`](FaultReason::Version) comes behind [`Signature`](FaultReason::Signature), [`Extension`](FaultReason::Extension) behind
    /// [`Repeated`](FaultReason::Repeated), and [`Usage`](FaultReason::Usage) and then [`Purpose`](FaultReason::Purpose) behind
    /// [`PathLen`](FaultReason::PathLen). Those from [`Extension`](FaultReason::Extension) on are told by [`validate_path`] alone.
    #[derive(Clone, Copy, Debug, PartialEq, Eq, PartialOrd, Ord, Hash)]
    pub enum FaultReason {
        /// The bytes are those of no certificate.
        Decode = 1,
        /// The algorithm in the signed part isn't the one outside it (RFC 5280 4.1.1.2).
        Algorithm = 2,
        /// The issuer isn't the subject of the certificate above: byte for byte for [`check_path`], as names match (RFC 5280 7.1) for [`validate_path`].
        Issuer = 3,
        /// The moment is before the first or after the last second of the validity.
        Moment = 4,
        /// The signature isn't accepted.
        Signature = 5,
        /// An extension identifier is there twice.
        Repeated = 6,
        /// A critical extension is none of BasicConstraints, KeyUsage, ExtendedKeyUsage and SubjectAltName, or one of these that can't be read. For
        /// [`validate_path`] NameConstraints and those about policies are of these too, ExtendedKeyUsage only where a purpose is asked for, and one that can't
        /// be read is [`Extension`](FaultReason::Extension).
        Critical = 7,
        /// Asked of all but the last: there is no BasicConstraints that can be read and says cA. For [`validate_path`] the version has to be 3 too, or 1 where
        /// those are allowed.
        NotCa = 8,
        /// Asked of all but the last: there is a KeyUsage without keyCertSign, or one that can't be read.
        KeyUsage = 9,
        /// Asked of all but the last: more certificates that aren't self-issued follow one above than its path length allows.
        PathLen = 10,
        /// An extension can't be read, critical or not, that is one of those or of those about policies: CertificatePolicies, PolicyMappings, PolicyConstraints
        /// and InhibitAnyPolicy.
        Extension = 11,
        /// A name isn't within what the name constraints above permit, or is within what they exclude (RFC 5280 4.2.1.10), or they have a subtree of its form
        /// with a minimum other than 0, a maximum, or a base that is none.
        Names = 12,
        /// Asked of all but the last: there is a NameConstraints that can't be used: a list of its subtrees is there and empty.
        Constraints = 13,
        /// A policy is there twice (RFC 5280 4.2.1.4).
        RepeatedPolicy = 14,
        /// No policy is left under which the path is valid, and one is asked for (RFC 5280 6.1.3 (f), 6.1.5 (g)).
        Policy = 15,
        /// Asked of all but the last: any-policy is mapped, or something to it (RFC 5280 6.1.4 (a)).
        PolicyMapping = 16,
        /// Each purpose that is asked for is one that this certificate doesn't allow, or one above (RFC 5280 4.2.1.12).
        Purpose = 17,
        /// Asked of the last: there is a KeyUsage without all that is asked for (RFC 5280 4.2.1.3).
        Usage = 18,
        /// There are extensions in another version than 3 (RFC 5280 4.1.2.9).
        Version = 19,
    }
}

impl FaultReason {
    pub(crate) fn text(self) -> &'static str {
        match self {
            FaultReason::Decode => "is no certificate",
            FaultReason::Algorithm => "has another algorithm in its signed part",
            FaultReason::Issuer => "has another issuer than the certificate above",
            FaultReason::Moment => "isn't valid at the moment",
            FaultReason::Signature => "has a signature that isn't accepted",
            FaultReason::Repeated => "has an extension twice",
            FaultReason::Critical => "has a critical extension that isn't known",
            FaultReason::NotCa => "is no authority",
            FaultReason::KeyUsage => "may not sign certificates",
            FaultReason::PathLen => "has more below it than its path length allows",
            FaultReason::Extension => "has an extension that can't be read",
            FaultReason::Names => "has a name that the constraints above don't allow",
            FaultReason::Constraints => "has name constraints that can't be used",
            FaultReason::RepeatedPolicy => "has a policy twice",
            FaultReason::Policy => "leaves no policy, and one is asked for",
            FaultReason::PolicyMapping => "maps any-policy",
            FaultReason::Purpose => "is for another purpose",
            FaultReason::Usage => "has a key for another use",
            FaultReason::Version => "has extensions, and another version than 3",
        }
    }
}

/// The lowest place of a path that has a fault, and the first of its faults. Faults are in order by place and then by reason.
#[derive(Clone, Copy, Debug, PartialEq, Eq, PartialOrd, Ord, Hash)]
pub struct PathFault {
    /// The number of the certificate in the path, from 0.
    pub place: usize,

    /// What is wrong with it.
    pub reason: FaultReason,
}

/// On which side of a validity a moment is.
#[derive(Clone, Copy, Debug, PartialEq, Eq, PartialOrd, Ord, Hash)]
pub enum OutOfDate {
    /// It is before the first second: the certificate isn't valid yet.
    NotYetValid,

    /// It is after the last second: the certificate has expired.
    Expired,
}

impl PathFault {
    /// Of a fault [`Moment`](FaultReason::Moment) that a path has at the moment, on which side of the certificate's validity that is; `None` of other faults, and
    /// where the path has no certificate that isn't valid then at that place.
    pub fn out_of_date<B: AsRef<[u8]>>(&self, path: &[B], moment: SystemTime) -> Option<OutOfDate> {
        if self.reason != FaultReason::Moment {
            return None;
        }
        let certificate = CertificateRef::from_der(path.get(self.place)?.as_ref()).ok()?;
        let validity = certificate.validity();
        let moment = seconds(moment).ok()?;
        if moment < seconds(validity.not_before).ok()? {
            return Some(OutOfDate::NotYetValid);
        }
        (seconds(validity.not_after).ok()? < moment).then_some(OutOfDate::Expired)
    }
}

impl fmt::Display for PathFault {
    fn fmt(&self, f: &mut fmt::Formatter<'_>) -> fmt::Result {
        write!(f, "certificate {} {}", self.place, self.reason.text())
    }
}

impl std::error::Error for PathFault {}

/// Why a path doesn't hold.
#[derive(Clone, Copy, Debug, PartialEq, Eq, Hash)]
pub enum PathError {
    /// A certificate has a fault.
    Fault(PathFault),

    /// The path wasn't looked at.
    Refused(Error),
}

impl fmt::Display for PathError {
    fn fmt(&self, f: &mut fmt::Formatter<'_>) -> fmt::Result {
        match self {
            PathError::Fault(fault) => fault.fmt(f),
            PathError::Refused(error) => error.fmt(f),
        }
    }
}

impl std::error::Error for PathError {}

impl From<Error> for PathError {
    fn from(error: Error) -> PathError {
        PathError::Refused(error)
    }
}

pub(crate) fn is_signed(
    key: &[u8],
    certificate: &CertificateRef<'_>,
    verifier: &impl Verifier,
) -> Result<bool, Error> {
    Ok(holds(key, &certificate.signature()?, verifier))
}

/// Whether the signature is one under the key. Its bits are whole octets.
fn holds(key: &[u8], signature: &Signature<'_>, verifier: &impl Verifier) -> bool {
    signature.unused_bits == 0 && verifier.verify(key, signature)
}

/// The certificates of a path, topmost first, where it holds at the moment under the subject and the key of the anchor's certificate, of which nothing else
/// is looked at. Policies, name constraints and revocation aren't looked at. The path's certificates are given by their DER.
///
/// ```
/// use std::time::{Duration, UNIX_EPOCH};
/// use x509_rattle::{check_path, CertificateRef, FaultReason, PathError, Signature};
///
/// # let der: &[u8] = include_bytes!("../../../examples/data/certificate.der");
/// let anchor = CertificateRef::from_der(der)?;
/// // a program verifies here by a library of signatures; this accepts none
/// let verifier = |_key: &[u8], _signature: &Signature| false;
/// let moment = UNIX_EPOCH + Duration::from_secs(1_767_323_045);
/// match check_path(anchor, &[der], moment, &verifier) {
///     Err(PathError::Fault(fault)) => assert_eq!((fault.place, fault.reason), (0, FaultReason::Signature)),
///     other => panic!("{other:?}"),
/// }
/// # Ok::<(), x509_rattle::Error>(())
/// ```
///
/// # Errors
/// [`PathError::Fault`] where a certificate has a fault: the lowest place with one, and the first there, in the order of [`FaultReason`]. The verifier is
/// asked of the certificates in front of it, and of the one with the fault where the signature's comes first. It isn't asked where the bits aren't whole
/// octets: such a signature isn't accepted.
///
/// [`PathError::Refused`] with [`Error::Absent`] where the path is empty, with [`Error::Value`] where the moment is before 1970 or after 9999, and
/// with [`Error::Memory`].
pub fn check_path<'a, B: AsRef<[u8]>>(
    anchor: CertificateRef<'_>,
    path: &'a [B],
    moment: SystemTime,
    verifier: &impl Verifier,
) -> Result<Vec<CertificateRef<'a>>, PathError> {
    let path = slices(path);
    let found = ffi::path_check(anchor.as_der(), &path, seconds(moment)?)?;
    let key = anchor.subject_public_key_info();
    let below = |_above: &[u8], key: &[u8]| Ok(key.to_vec());
    let (certificates, _) = verified(key, path, &[], found, verifier, below)?;
    Ok(certificates)
}

/// The DER of a public key as it is used under the one above it (RFC 5280 6.1.4 (d) to (f)), each a SubjectPublicKeyInfo: where the parameters of its algorithm
/// are left out or NULL, and the key above is of the same algorithm and has parameters, the key with these; else the key as it is. Down a path the key above is
/// itself one as it is used. [`validate_path`] hands its verifier such keys.
///
/// # Errors
/// [`Error::Malformed`] or [`Error::Overlength`] where one of them is none, or the key as it is used would be too long; [`Error::Memory`].
pub fn working_key(above: &[u8], key: &[u8]) -> Result<Vec<u8>, Error> {
    ffi::working_key(above, key)
}

fn slices<B: AsRef<[u8]>>(path: &[B]) -> Vec<&[u8]> {
    path.iter().map(AsRef::as_ref).collect()
}

/// The certificates of a path under a key, of which that is the first fault but those of signatures, and the last key; `told` is what was said of the first
/// certificates, and `below` says how a key is used under another.
fn verified<'a>(
    key: &[u8],
    path: Vec<&'a [u8]>,
    told: &[ffi::PathCertificate],
    found: Option<ffi::PathFault>,
    verifier: &impl Verifier,
    below: impl Fn(&[u8], &[u8]) -> Result<Vec<u8>, Error>,
) -> Result<(Vec<CertificateRef<'a>>, Vec<u8>), PathError> {
    let found = match found {
        Some(fault) => Some(PathFault {
            place: fault.place,
            reason: FaultReason::found(fault.reason)?,
        }),
        None => None,
    };
    let mut certificates: Vec<CertificateRef<'a>> = Vec::new();
    let mut above = key.to_vec();
    for (place, der) in path.into_iter().enumerate() {
        let of_signature = PathFault {
            place,
            reason: FaultReason::Signature,
        };
        if matches!(found, Some(fault) if fault < of_signature) {
            break;
        }
        let (certificate, signature) = match told.get(place) {
            Some(told) => CertificateRef::found(told, der)?,
            None => {
                let certificate = CertificateRef::from_der(der)?;
                (certificate, certificate.signature()?)
            }
        };
        if !holds(&above, &signature, verifier) {
            return Err(PathError::Fault(of_signature));
        }
        above = below(&above, certificate.subject_public_key_info())?;
        certificates.push(certificate);
    }
    match found {
        Some(fault) => Err(PathError::Fault(fault)),
        None => Ok((certificates, above)),
    }
}

/// What a path is to be valid under.
#[derive(Clone, Copy, Debug)]
pub enum Trusted<'a> {
    /// The subject and the key of a certificate, for the paths that its name constraints, its path length and its policies allow (RFC 5937). A
    /// PolicyConstraints or an InhibitAnyPolicy of it sets the flag whatever its number. Nothing else of it is looked at.
    Certificate(CertificateRef<'a>),

    /// The same of a trust anchor (RFC 5914, RFC 5937): of a description the key, and what its constraints on paths say.
    Anchor(TrustAnchor<'a>),

    /// A name and a key, for all paths.
    NameAndKey {
        /// The name under which the key signs.
        name: NameRef<'a>,

        /// The DER of its SubjectPublicKeyInfo.
        subject_public_key_info: &'a [u8],
    },
}

impl<'a> Trusted<'a> {
    fn bytes(&self) -> ffi::Trusted<'a> {
        match self {
            Trusted::Certificate(certificate) => ffi::Trusted::Certificate(certificate.as_der()),
            Trusted::Anchor(anchor) => ffi::Trusted::Anchor(anchor.as_der()),
            Trusted::NameAndKey {
                name,
                subject_public_key_info,
            } => ffi::Trusted::NameAndKey(name.as_der(), subject_public_key_info),
        }
    }

    /// The name under which the key signs; a trust anchor may have none.
    pub(crate) fn name(&self) -> Option<NameRef<'a>> {
        match self {
            Trusted::Certificate(certificate) => Some(certificate.subject()),
            Trusted::Anchor(anchor) => anchor.name(),
            Trusted::NameAndKey { name, .. } => Some(*name),
        }
    }

    pub(crate) fn key(&self) -> &'a [u8] {
        match self {
            Trusted::Certificate(certificate) => certificate.subject_public_key_info(),
            Trusted::Anchor(anchor) => anchor.subject_public_key_info(),
            Trusted::NameAndKey {
                subject_public_key_info,
                ..
            } => subject_public_key_info,
        }
    }
}

/// The DER of a name without RDNs.
const EMPTY_NAME: &[u8] = &[0x30, 0x00];

/// The extensions that limit paths, which the description of an anchor may not have beside its constraints on paths.
const LIMITING: [ObjectIdentifier; 5] = [
    extension::BASIC_CONSTRAINTS,
    extension::NAME_CONSTRAINTS,
    extension::CERTIFICATE_POLICIES,
    extension::POLICY_CONSTRAINTS,
    extension::INHIBIT_ANY_POLICY,
];

/// The extensions of an anchor by which it is trusted, and may not have twice (RFC 5937 2, RFC 5914 2.5).
const OF_ANCHORS: [ObjectIdentifier; 3] = [
    extension::BASIC_CONSTRAINTS,
    extension::NAME_CONSTRAINTS,
    extension::SUBJECT_KEY_IDENTIFIER,
];

impl Trusted<'_> {
    /// Why it gives no trust, as the library has found: an extension stands there twice, or the description of an anchor has no name, or a certificate of
    /// another.
    fn fault(&self) -> Result<Error, Error> {
        if self.name().map_or(true, |it| it.as_der() == EMPTY_NAME) {
            return Ok(Error::UnnamedAnchor);
        }
        let anchor = match self {
            Trusted::Anchor(anchor) => anchor,
            _ => return Ok(Error::Repeated),
        };
        if anchor.kind() != AnchorKind::Info {
            return Ok(Error::Repeated);
        }
        for it in anchor.extensions() {
            let it = it?;
            if it.critical() || LIMITING.contains(&it.oid()) {
                return Ok(Error::AnchorExtension);
            }
        }
        let controls = match anchor.path_controls() {
            Some(controls) => controls,
            None => return Ok(Error::UnnamedAnchor),
        };
        if let Some(certificate) = PathControls::from_der(controls)?.certificate {
            for oid in OF_ANCHORS {
                match certificate.extension(oid) {
                    Err(Error::Repeated) => return Ok(Error::Repeated),
                    Err(error) => return Err(error),
                    Ok(_) => {}
                }
            }
        }
        Ok(Error::OtherCertificate)
    }
}

impl<'a> From<CertificateRef<'a>> for Trusted<'a> {
    fn from(certificate: CertificateRef<'a>) -> Trusted<'a> {
        Trusted::Certificate(certificate)
    }
}

impl<'a> From<TrustAnchor<'a>> for Trusted<'a> {
    fn from(anchor: TrustAnchor<'a>) -> Trusted<'a> {
        Trusted::Anchor(anchor)
    }
}

/// What is asked of a path.
#[derive(Clone, Debug)]
pub struct PathSettings {
    moment: SystemTime,
    name_constraints: Vec<u8>,
    policies: Option<Vec<ObjectIdentifier>>,
    purposes: Option<Vec<ObjectIdentifier>>,
    key_usage: KeyUsage,
    flags: u64,
}

/// The purposes that settings have a bit for, in the order of these.
const PURPOSES: [ObjectIdentifier; 6] = [
    purpose::SERVER_AUTH,
    purpose::CLIENT_AUTH,
    purpose::CODE_SIGNING,
    purpose::EMAIL_PROTECTION,
    purpose::TIME_STAMPING,
    purpose::OCSP_SIGNING,
];

impl PathSettings {
    /// That it is valid at the moment, under any policy or none, and for no purpose.
    pub fn new(moment: SystemTime) -> PathSettings {
        PathSettings {
            moment,
            name_constraints: Vec::new(),
            policies: None,
            purposes: None,
            key_usage: KeyUsage::default(),
            flags: 0,
        }
    }

    /// That all names are within the initial permitted and excluded subtrees (RFC 5280 6.1.1 (h), (i)), by the DER of a NameConstraints; no bytes are none.
    pub fn name_constraints(&mut self, der: &[u8]) -> &mut PathSettings {
        self.name_constraints = der.to_vec();
        self
    }

    /// That no policy is accepted but these (RFC 5280 6.1.1 (c)). A path may still be valid under none of them, unless
    /// [`require_explicit_policy`](PathSettings::require_explicit_policy) asks for one.
    pub fn policies(&mut self, accepted: &[ObjectIdentifier]) -> &mut PathSettings {
        self.policies = Some(accepted.to_vec());
        self
    }

    fn flag(&mut self, flag: u32, is_set: bool) -> &mut PathSettings {
        let flag = u64::from(flag);
        self.flags = self.flags & !flag | if is_set { flag } else { 0 };
        self
    }

    /// Whether it is to be valid under one of the accepted policies at least (RFC 5280 6.1.1 (f)).
    pub fn require_explicit_policy(&mut self, is_asked: bool) -> &mut PathSettings {
        self.flag(ffi::PATH_EXPLICIT_POLICY, is_asked)
    }

    /// Whether policies may not be mapped (RFC 5280 6.1.1 (e)).
    pub fn inhibit_policy_mapping(&mut self, is_asked: bool) -> &mut PathSettings {
        self.flag(ffi::PATH_INHIBIT_POLICY_MAPPING, is_asked)
    }

    /// Whether any-policy in a certificate counts for nothing (RFC 5280 6.1.1 (g)).
    pub fn inhibit_any_policy(&mut self, is_asked: bool) -> &mut PathSettings {
        self.flag(ffi::PATH_INHIBIT_ANY_POLICY, is_asked)
    }

    /// That it is for one of these purposes, any of them (RFC 5280 4.2.1.12): one purpose has to be allowed by the ExtendedKeyUsage of all certificates that
    /// have one. At most one of them is another than those of RFC 5280. Where none are asked for, a critical ExtendedKeyUsage isn't processed, so it is a fault.
    pub fn purposes(&mut self, accepted: &[ObjectIdentifier]) -> &mut PathSettings {
        self.purposes = Some(accepted.to_vec());
        self
    }

    /// Whether purposes are asked of all certificates, as they are by [`new`](PathSettings::new), and not of the last one alone.
    pub fn chain_purposes(&mut self, is_chained: bool) -> &mut PathSettings {
        self.flag(ffi::PATH_UNCHAINED, !is_chained)
    }

    /// That the last certificate has these usages, where it has a KeyUsage (RFC 5280 4.2.1.3).
    pub fn key_usage(&mut self, asked: KeyUsage) -> &mut PathSettings {
        self.key_usage = asked;
        self
    }

    /// Whether certificates of version 1 are authorities (RFC 5280 6.1.4 (k)), which the caller then knows of those given.
    pub fn allow_version_1(&mut self, is_allowed: bool) -> &mut PathSettings {
        self.flag(ffi::PATH_VERSION_1_AUTHORITIES, is_allowed)
    }

    /// Whether names of servers in the last certificate's common names are asked under name constraints, as those of its SAN are (RFC 5280 4.2.1.10): a host, a
    /// wildcard of hosts or an IP address, each where the SAN has no dNSName, or no iPAddress (RFC 6125 6.4.4). RFC 5280 asks none: it is for callers that take
    /// a peer by its common name.
    pub fn constrain_common_names(&mut self, is_asked: bool) -> &mut PathSettings {
        self.flag(ffi::PATH_CONSTRAIN_COMMON_NAMES, is_asked)
    }

    fn to_ffi(&self) -> Result<ffi::PathSettings, Error> {
        let mut asked = ffi::PathSettings {
            moment: seconds(self.moment)?,
            flags: self.flags,
            key_usage: self.key_usage.bits().into(),
            purposes: 0,
            purpose_len: 0,
            purpose: [0; 64],
        };
        let purposes = match &self.purposes {
            Some(purposes) => purposes,
            None => return Ok(asked),
        };
        let mut own: Option<&ObjectIdentifier> = None;
        for purpose in purposes {
            match PURPOSES.iter().position(|known| known == purpose) {
                Some(bit) => asked.purposes |= 1 << bit,
                None if own.map_or(false, |other| other != purpose) => return Err(Error::Value),
                None => own = Some(purpose),
            }
        }
        if let Some(own) = own {
            let octets = own.as_bytes();
            let places = asked.purpose.get_mut(..octets.len());
            places.ok_or(Error::Unexpected)?.copy_from_slice(octets);
            asked.purpose_len = octets.len() as u64;
        }
        if purposes.is_empty() {
            return Err(Error::Value);
        }
        Ok(asked)
    }

    /// The DER of a CertificatePolicies of the policies that are accepted; no bytes where any are.
    fn accepted(&self) -> Result<Vec<u8>, Error> {
        let information = |oid: &ObjectIdentifier| ffi::build::policy(oid.as_bytes(), b"");
        match &self.policies {
            None => Ok(Vec::new()),
            // no call for builders writes a list of none of them, or of one that is there twice
            Some(accepted) => {
                let members: Result<Vec<_>, _> = accepted.iter().map(information).collect();
                ffi::build::element(SEQUENCE, &members?.concat())
            }
        }
    }

    /// What a search answers under these settings.
    pub(crate) fn search(
        &self,
        search: &mut ffi::Search,
        max_depth: u8,
    ) -> Result<ffi::Sought, Error> {
        search.next(
            &self.name_constraints,
            &self.accepted()?,
            &self.to_ffi()?,
            max_depth,
        )
    }
}

/// What a valid path gives (RFC 5280 6.1.6).
#[derive(Clone, Debug)]
pub struct Validated<'a> {
    certificates: Vec<CertificateRef<'a>>,
    last: CertificateRef<'a>,
    key: Vec<u8>,
    policies: Vec<ObjectIdentifier>,
}

impl<'a> Validated<'a> {
    /// Its certificates, topmost first.
    pub fn certificates(&self) -> &[CertificateRef<'a>] {
        &self.certificates
    }

    /// The last certificate, of which the path says that the key is its subject's.
    pub fn certificate(&self) -> CertificateRef<'a> {
        self.last
    }

    /// The DER of the public key of that certificate, with the parameters that it has from the keys above ([`working_key`]).
    pub fn subject_public_key_info(&self) -> &[u8] {
        &self.key
    }

    /// The policies under which it is valid, of those that the caller accepts; [`ANY_POLICY`](crate::oid::policy::ANY_POLICY) may be one of them.
    pub fn policies(&self) -> &[ObjectIdentifier] {
        &self.policies
    }
}

/// The policies of a CertificatePolicies.
fn identifiers(der: &[u8]) -> Result<Vec<ObjectIdentifier>, Error> {
    let found = CertificatePolicies::from_der(der)?;
    Ok(found.0.iter().map(|it| it.policy_identifier).collect())
}

/// What a path gives, where it is valid under what is trusted (RFC 5280 6.1), given by the DER of its certificates, topmost first. Beyond what [`check_path`]
/// looks at names are compared as they match (RFC 5280 7.1), name constraints hold, those of what is trusted, of the settings and of each certificate above,
/// policies are followed, and each extension of a type that is looked at is to be one that can be read. Whether the last certificate is that of a host or a
/// mailbox isn't asked, and revocation isn't looked at: both are the caller's.
///
/// ```
/// use std::time::{Duration, UNIX_EPOCH};
/// use x509_rattle::{validate_path, CertificateRef, FaultReason, PathError, PathSettings, Signature};
///
/// # let der: &[u8] = include_bytes!("../../../examples/data/certificate.der");
/// let anchor = CertificateRef::from_der(der)?;
/// // a program verifies here by a library of signatures; this accepts none
/// let verifier = |_key: &[u8], _signature: &Signature| false;
/// let settings = PathSettings::new(UNIX_EPOCH + Duration::from_secs(1_767_323_045));
/// match validate_path(anchor, &[der], &settings, &verifier) {
///     Err(PathError::Fault(fault)) => assert_eq!((fault.place, fault.reason), (0, FaultReason::Signature)),
///     other => panic!("{other:?}"),
/// }
/// # Ok::<(), x509_rattle::Error>(())
/// ```
///
/// # Errors
/// [`PathError::Fault`] and the verifier's turns as of [`check_path`]; it is handed keys as they are used ([`working_key`]).
///
/// [`PathError::Refused`] with [`Error::Absent`] where the path is empty; with [`Error::Value`] where the moment is before 1970 or after 9999, where purposes
/// are asked for and there are none, or several others than those of RFC 5280, and where name constraints of the settings or of what is trusted can't be used; with [`Error::Repeated`] where what is trusted has one of the extensions that are looked at
/// twice, with [`Error::UnnamedAnchor`] where it has no name or an empty one, with [`Error::AnchorExtension`] where the description of an anchor has an
/// extension that would have to be followed, and with [`Error::OtherCertificate`] where its certificate is another's; with [`Error::Malformed`] or
/// [`Error::Overlength`] where these, the name constraints or the key are none; and with [`Error::Memory`].
pub fn validate_path<'a, 'b, B: AsRef<[u8]>>(
    trusted: impl Into<Trusted<'b>>,
    path: &'a [B],
    settings: &PathSettings,
    verifier: &impl Verifier,
) -> Result<Validated<'a>, PathError> {
    validate_slices(trusted.into(), slices(path), settings, verifier)
}

/// The same of slices.
pub(crate) fn validate_slices<'a>(
    trusted: Trusted<'_>,
    path: Vec<&'a [u8]>,
    settings: &PathSettings,
    verifier: &impl Verifier,
) -> Result<Validated<'a>, PathError> {
    let asked = settings.to_ffi()?;
    let (constraints, accepted) = (&settings.name_constraints, settings.accepted()?);
    let judged = ffi::path_validate(trusted.bytes(), &path, constraints, &accepted, asked);
    let judged = match judged {
        Err(error) if error == ffi::NO_TRUST => Err(trusted.fault()?),
        judged => judged,
    }?;
    let (told, found) = match &judged {
        Ok(valid) => (valid.certificates.as_slice(), None),
        Err(fault) => (&[][..], Some(*fault)),
    };
    let (certificates, key) = verified(trusted.key(), path, told, found, verifier, working_key)?;
    let last = *certificates.last().ok_or(Error::Unexpected)?;
    let policies = identifiers(&judged.map_err(|_| Error::Unexpected)?.policies)?;
    Ok(Validated {
        certificates,
        last,
        key,
        policies,
    })
}
