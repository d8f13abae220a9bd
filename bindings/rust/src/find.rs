//! Paths, found over certificates in any number and order (RFC 5280 6.1), and servers, verified.
use crate::certificate::{CertificateRef, Signature};
use crate::error::Error;
use crate::ffi;
use crate::oid::purpose;
use crate::path::{
    is_signed, validate_slices, working_key, FaultReason, OutOfDate, PathError, PathFault,
    PathSettings, Trusted, Validated, Verifier,
};
use crate::peer::ServerName;
use crate::revocation::{RevocationCheck, RevocationStatus};
use std::cell::RefCell;
use std::collections::{HashMap, HashSet};
use std::fmt;
use std::time::SystemTime;

/// How long a path is searched for, and how long it may be.
#[derive(Clone, Copy, Debug, PartialEq, Eq, Hash)]
pub struct SearchLimits {
    /// How many candidates may stand between an anchor and the certificate.
    pub max_depth: u8,

    /// How many signatures of certificates may be verified. Each is verified once. Those of CRLs, and of further certificates that sign these, aren't counted.
    pub max_signatures: usize,
}

impl Default for SearchLimits {
    /// At most 8 candidates and 100 signatures.
    fn default() -> SearchLimits {
        SearchLimits {
            max_depth: 8,
            max_signatures: 100,
        }
    }
}

/// A path that was found.
#[derive(Clone, Debug)]
pub struct FoundPath<'a> {
    /// The certificate of the anchor that it is under.
    pub anchor: CertificateRef<'a>,

    /// What it gives as a valid path.
    pub validated: Validated<'a>,
}

/// Why no path was found.
#[derive(Clone, Debug, PartialEq, Eq, Hash)]
pub enum FindError {
    /// The certificate itself has a fault, which it has in every path: no path was looked for.
    Leaf(FaultReason),

    /// No candidates lead by their names from an anchor to the certificate: an issuer isn't known.
    UnknownIssuer,

    /// No path is valid. This is the one that came furthest, of those that lead to the certificate by their names.
    Refused {
        /// The number of the anchor that it is under, from 0.
        anchor: usize,

        /// The numbers of the candidates above the certificate, from 0, topmost first.
        candidates: Vec<usize>,

        /// What is wrong with it.
        fault: PathFault,
    },

    /// Each path that is valid has a certificate that is revoked, or of which that isn't known where it has to be. This is the last that was found.
    Revocation {
        /// The number of the anchor that it is under, from 0.
        anchor: usize,

        /// The numbers of the candidates above the certificate, from 0, topmost first.
        candidates: Vec<usize>,

        /// The number of that certificate in the path, from 0; of several the topmost.
        place: usize,

        /// What CRLs say of it.
        status: RevocationStatus,
    },

    /// More would have to be tried than is allowed. Whether there is a path isn't known.
    Limit,

    /// No path was looked for.
    Error(Error),
}

impl FindError {
    /// Why no path was found, of what the library answers of the one that came furthest, whose candidates these are.
    fn refused(
        found: &ffi::FoundPath,
        anchors: usize,
        candidates: &[usize],
    ) -> Result<FindError, Error> {
        if found.reason == 0 {
            // name constraints of the settings or of an anchor
            return Err(Error::Value);
        }
        let reason = FaultReason::found(found.reason)?;
        if found.anchor == anchors {
            return Ok(FindError::Leaf(reason));
        }
        Ok(FindError::Refused {
            anchor: found.anchor,
            candidates: candidates.to_vec(),
            fault: PathFault {
                place: found.place,
                reason,
            },
        })
    }

    /// The fault of the certificate, not of one above it.
    fn of_certificate(&self) -> Option<FaultReason> {
        match self {
            FindError::Leaf(reason) => Some(*reason),
            FindError::Refused {
                candidates, fault, ..
            } if fault.place == candidates.len() => Some(fault.reason),
            _ => None,
        }
    }
}

impl fmt::Display for FindError {
    fn fmt(&self, f: &mut fmt::Formatter<'_>) -> fmt::Result {
        match self {
            FindError::Leaf(reason) => write!(f, "the certificate {}", reason.text()),
            FindError::UnknownIssuer => f.write_str("no path leads to an anchor by its names"),
            FindError::Refused { fault, .. } => fault.fmt(f),
            FindError::Revocation {
                place,
                status: RevocationStatus::Revoked { .. },
                ..
            } => write!(f, "certificate {place} is revoked"),
            FindError::Revocation { place, .. } => {
                write!(f, "whether certificate {place} is revoked isn't known")
            }
            FindError::Limit => f.write_str("more would have to be tried than is allowed"),
            FindError::Error(error) => error.fmt(f),
        }
    }
}

impl std::error::Error for FindError {}

impl From<Error> for FindError {
    fn from(error: Error) -> FindError {
        FindError::Error(error)
    }
}

/// A certificate of a path, and the key above it.
type Link<'a> = (&'a [u8], Vec<u8>);

/// Verifies the signatures of paths, each once.
struct Links<'v, V> {
    verifier: &'v V,
    verified: HashSet<(Vec<u8>, Vec<u8>)>,
    left: usize,
}

impl<V: Verifier> Links<'_, V> {
    /// The links of a path, and whether the signature of each holds; else they end with the first whose signature doesn't.
    fn of<'a>(
        &mut self,
        anchor: CertificateRef<'a>,
        path: &[&'a [u8]],
    ) -> Result<(Vec<Link<'a>>, bool), FindError> {
        let mut key = anchor.subject_public_key_info().to_vec();
        let mut links = Vec::with_capacity(path.len());
        for der in path {
            let certificate = CertificateRef::from_der(der)?;
            links.push((*der, key.clone()));
            let link = (der.to_vec(), key);
            if !self.verified.contains(&link) {
                self.left = self.left.checked_sub(1).ok_or(FindError::Limit)?;
                if !is_signed(&link.1, &certificate, self.verifier)? {
                    return Ok((links, false));
                }
            }
            key = working_key(&link.1, certificate.subject_public_key_info())?;
            self.verified.insert(link);
        }
        Ok((links, true))
    }
}

/// A key and what was to be verified by it: the signed part, the algorithm and the bits.
type Question = (Vec<u8>, [Vec<u8>; 3]);

/// A verifier that keeps what another one has answered.
struct Remembering<'v, V> {
    verifier: &'v V,
    answers: RefCell<HashMap<Question, bool>>,
}

impl<V: Verifier> Verifier for Remembering<'_, V> {
    fn verify(&self, subject_public_key_info: &[u8], signature: &Signature<'_>) -> bool {
        let parts = [signature.signed_part, signature.algorithm, signature.bits];
        let question = (subject_public_key_info.to_vec(), parts.map(<[u8]>::to_vec));
        let known = self.answers.borrow().get(&question).copied();
        known.unwrap_or_else(|| {
            let answer = self.verifier.verify(subject_public_key_info, signature);
            self.answers.borrow_mut().insert(question, answer);
            answer
        })
    }
}

/// A path from one of the anchors over some of the candidates to the certificate, which [`validate_path`](crate::validate_path) accepts; all are given by their
/// DER. The candidates are in any order, and more or fewer than are needed: none stands in a path twice. No path that is valid is shorter than the one that is
/// found. Where there is none, the error says so. Revocation isn't asked; [`find_unrevoked_path`] asks it.
///
/// # Errors
/// [`FindError::Leaf`], [`FindError::UnknownIssuer`] and [`FindError::Refused`] where no path is valid; [`FindError::Limit`] where that isn't known.
/// [`FindError::Error`] with [`Error::Malformed`] or [`Error::Overlength`] where the certificate is none, with [`Error::Value`] where name constraints of the
/// settings or of an anchor can't be used, with those of [`validate_path`](crate::validate_path) for the anchors and the settings, and with [`Error::Memory`].
/// A candidate that is no certificate stands in no path.
pub fn find_path<'a, B: AsRef<[u8]>>(
    anchors: &[CertificateRef<'a>],
    candidates: &'a [B],
    certificate: &'a [u8],
    settings: &PathSettings,
    limits: &SearchLimits,
    verifier: &impl Verifier,
) -> Result<FoundPath<'a>, FindError> {
    let asked = Asked {
        settings,
        limits,
        revocation: None,
    };
    search_path(anchors, candidates, certificate, &asked, verifier)
}

/// The same, where no certificate of the path is revoked, by what CRLs say of each that is asked for
/// ([`path_revocation_statuses`](crate::path_revocation_statuses)). A path with one that is, or of which that isn't known where it has to be, isn't taken, and
/// the search goes on: without this certificate under the key that is above it, in whatever path.
///
/// # Errors
/// Those of [`find_path`]; [`FindError::Revocation`] where a path is valid, and each that is has such a certificate; and those of
/// [`path_revocation_statuses`](crate::path_revocation_statuses) for the moment of the check.
pub fn find_unrevoked_path<'a, B: AsRef<[u8]>>(
    anchors: &[CertificateRef<'a>],
    candidates: &'a [B],
    certificate: &'a [u8],
    settings: &PathSettings,
    limits: &SearchLimits,
    revocation: &RevocationCheck<'_>,
    verifier: &impl Verifier,
) -> Result<FoundPath<'a>, FindError> {
    let asked = Asked {
        settings,
        limits,
        revocation: Some(revocation),
    };
    let verifier = Remembering {
        verifier,
        answers: RefCell::default(),
    };
    search_path(anchors, candidates, certificate, &asked, &verifier)
}

/// What is asked of a path that is searched for.
struct Asked<'s> {
    settings: &'s PathSettings,
    limits: &'s SearchLimits,
    revocation: Option<&'s RevocationCheck<'s>>,
}

/// The library is asked for a path whose signatures aren't verified. As long as it has a link that doesn't hold this is listed, and the library asked again.
fn search_path<'a, B: AsRef<[u8]>>(
    anchors: &[CertificateRef<'a>],
    candidates: &'a [B],
    certificate: &'a [u8],
    asked: &Asked<'_>,
    verifier: &impl Verifier,
) -> Result<FoundPath<'a>, FindError> {
    let given: Vec<&'a [u8]> = candidates.iter().map(AsRef::as_ref).collect();
    let trusted: Vec<&[u8]> = anchors.iter().map(|it| it.as_der()).collect();
    let mut search = ffi::Search::new(&trusted, &given, certificate);
    let mut links = Links {
        verifier,
        verified: HashSet::new(),
        left: asked.limits.max_signatures,
    };
    let mut revoked = None;
    loop {
        let found = match asked.settings.search(&mut search, asked.limits.max_depth)? {
            ffi::Sought::Found(found) => found,
            ffi::Sought::Refused(found) => {
                let refused = FindError::refused(&found, anchors.len(), search.path(&found))?;
                return Err(revoked.unwrap_or(refused));
            }
            ffi::Sought::UnknownIssuer => return Err(FindError::UnknownIssuer),
            ffi::Sought::Limit => return Err(FindError::Limit),
        };
        let places = search.path(&found).to_vec();
        let anchor = *anchors.get(found.anchor).ok_or(Error::Unexpected)?;
        let mut path = Vec::new();
        for place in &places {
            path.push(*given.get(*place).ok_or(Error::Unexpected)?);
        }
        path.push(certificate);
        let (mut path_links, is_signed) = links.of(anchor, &path)?;
        if is_signed {
            let valid = validated(anchor, path, asked.settings)?;
            let refused = match asked.revocation {
                Some(check) => check.first_refused(&valid.validated, anchor, verifier)?,
                None => None,
            };
            let (place, status) = match refused {
                Some(refused) => refused,
                None => return Ok(valid),
            };
            path_links.truncate(place + 1);
            revoked = Some(FindError::Revocation {
                anchor: found.anchor,
                candidates: places,
                place,
                status,
            });
        }
        let (der, key) = path_links.last().ok_or(Error::Unexpected)?;
        search.refuse(der, key);
    }
}

/// What the path gives, whose signatures were verified.
fn validated<'a>(
    anchor: CertificateRef<'a>,
    path: Vec<&'a [u8]>,
    settings: &PathSettings,
) -> Result<FoundPath<'a>, FindError> {
    let accepted = |_: &[u8], _: &Signature<'_>| true;
    match validate_slices(Trusted::Certificate(anchor), path, settings, &accepted) {
        Ok(validated) => Ok(FoundPath { anchor, validated }),
        Err(PathError::Refused(error)) => Err(FindError::Error(error)),
        Err(PathError::Fault(_)) => Err(FindError::Error(Error::Unexpected)),
    }
}

/// Certificates that are trusted, each as the anchor of paths, for those that its name constraints, its path length and its policies allow.
#[derive(Clone, Debug, Default)]
pub struct Store<'a> {
    anchors: Vec<CertificateRef<'a>>,
}

impl<'a> Store<'a> {
    /// Those certificates.
    pub fn new(anchors: impl IntoIterator<Item = CertificateRef<'a>>) -> Store<'a> {
        Store {
            anchors: anchors.into_iter().collect(),
        }
    }

    /// Its certificates.
    pub fn anchors(&self) -> &[CertificateRef<'a>] {
        &self.anchors
    }
}

/// What is asked of a server's certificate beside its name.
#[derive(Clone, Debug)]
pub struct VerifySettings<'r> {
    moment: SystemTime,
    limits: SearchLimits,
    revocation: Option<RevocationCheck<'r>>,
}

impl<'r> VerifySettings<'r> {
    /// That it is to be trusted at the moment. Revocation isn't asked.
    pub fn new(moment: SystemTime) -> VerifySettings<'r> {
        VerifySettings {
            moment,
            limits: SearchLimits::default(),
            revocation: None,
        }
    }

    /// How long a path is searched for, and how long it may be.
    pub fn limits(&mut self, limits: SearchLimits) -> &mut VerifySettings<'r> {
        self.limits = limits;
        self
    }

    /// Which certificates of its path may not be revoked, by which CRLs.
    pub fn revocation(&mut self, check: &RevocationCheck<'r>) -> &mut VerifySettings<'r> {
        self.revocation = Some(check.clone());
        self
    }
}

/// Those of [`VerifySettings::new`].
impl From<SystemTime> for VerifySettings<'_> {
    fn from(moment: SystemTime) -> Self {
        VerifySettings::new(moment)
    }
}

impl<'r> From<&VerifySettings<'r>> for VerifySettings<'r> {
    fn from(settings: &VerifySettings<'r>) -> VerifySettings<'r> {
        settings.clone()
    }
}

/// Why a server's certificate isn't to be trusted.
#[derive(Clone, Debug, PartialEq, Eq, Hash)]
pub enum VerifyError {
    /// It isn't that of the server.
    OtherName,

    /// It has expired, or isn't valid yet.
    OutOfDate(OutOfDate),

    /// No path leads to it that is valid.
    Path(FindError),
}

impl VerifyError {
    /// Why it isn't to be trusted at the moment, where no path leads to it.
    fn without_path(error: FindError, certificate: &[u8], moment: SystemTime) -> VerifyError {
        let fault = |reason| PathFault { place: 0, reason };
        let out_of_date = |reason| fault(reason).out_of_date(&[certificate], moment);
        match error.of_certificate().and_then(out_of_date) {
            Some(side) => VerifyError::OutOfDate(side),
            None => VerifyError::Path(error),
        }
    }
}

impl fmt::Display for VerifyError {
    fn fmt(&self, f: &mut fmt::Formatter<'_>) -> fmt::Result {
        match self {
            VerifyError::OtherName => f.write_str("the certificate isn't that of the server"),
            VerifyError::OutOfDate(OutOfDate::Expired) => {
                f.write_str("the certificate has expired")
            }
            VerifyError::OutOfDate(OutOfDate::NotYetValid) => {
                f.write_str("the certificate isn't valid yet")
            }
            VerifyError::Path(error) => error.fmt(f),
        }
    }
}

impl std::error::Error for VerifyError {}

impl From<FindError> for VerifyError {
    fn from(error: FindError) -> VerifyError {
        VerifyError::Path(error)
    }
}

impl From<Error> for VerifyError {
    fn from(error: Error) -> VerifyError {
        VerifyError::Path(FindError::Error(error))
    }
}

/// The path to the certificate of a server, where it is to be trusted at a moment: it has the server's name ([`CertificateRef::matches_name`]), a path leads to
/// it from the store ([`find_path`]), and an ExtendedKeyUsage of it, or of one above, allows serverAuth. The intermediates are those that came with it, by
/// their DER. The settings are a moment, or [`VerifySettings`], which may ask that no certificate of the path is revoked ([`find_unrevoked_path`]).
///
/// ```
/// use std::time::{Duration, UNIX_EPOCH};
/// use x509_rattle::{verify_server, CertificateRef, Signature, Store, VerifyError};
///
/// # let der: &[u8] = include_bytes!("../../../examples/data/certificate.der");
/// let store = Store::new([CertificateRef::from_der(der)?]);
/// // a program verifies here by a library of signatures; this accepts none
/// let verifier = |_key: &[u8], _signature: &Signature| false;
/// let moment = UNIX_EPOCH + Duration::from_secs(1_767_323_045);
/// let verify = |host: &str| verify_server(&store, der, &[b""; 0], &host.parse()?, moment, &verifier);
/// assert_eq!(verify("example.com").unwrap_err(), VerifyError::OtherName);
/// assert!(matches!(verify("www.example.org"), Err(VerifyError::Path(_))));
/// # Ok::<(), VerifyError>(())
/// ```
///
/// # Errors
/// [`VerifyError::OtherName`] and [`VerifyError::OutOfDate`], or those of [`find_path`] and [`find_unrevoked_path`].
pub fn verify_server<'a, 'r, B: AsRef<[u8]>>(
    store: &Store<'a>,
    certificate: &'a [u8],
    intermediates: &'a [B],
    name: &ServerName,
    settings: impl Into<VerifySettings<'r>>,
    verifier: &impl Verifier,
) -> Result<FoundPath<'a>, VerifyError> {
    if !CertificateRef::from_der(certificate)?.matches_name(name)? {
        return Err(VerifyError::OtherName);
    }
    let asked = settings.into();
    let mut settings = PathSettings::new(asked.moment);
    settings.purposes(&[purpose::SERVER_AUTH]);
    let (anchors, limits) = (store.anchors(), &asked.limits);
    let found = match &asked.revocation {
        Some(check) => find_unrevoked_path(
            anchors,
            intermediates,
            certificate,
            &settings,
            limits,
            check,
            verifier,
        ),
        None => find_path(
            anchors,
            intermediates,
            certificate,
            &settings,
            limits,
            verifier,
        ),
    };
    found.map_err(|error| VerifyError::without_path(error, certificate, asked.moment))
}

#[cfg(test)]
mod tests {
    use super::*;

    #[test]
    fn what_is_answered_of_no_path() {
        let mut found = ffi::FoundPath {
            anchor: 1,
            count: 2,
            place: 2,
            reason: 4,
        };
        let refused = |found: &_| FindError::refused(found, 2, &[7, 3]);
        let fault = PathFault {
            place: 2,
            reason: FaultReason::Moment,
        };
        let wanted = FindError::Refused {
            anchor: 1,
            candidates: vec![7, 3],
            fault,
        };
        assert_eq!(refused(&found), Ok(wanted));
        // as many as there are: of no anchor
        found = ffi::FoundPath {
            anchor: 2,
            count: 0,
            place: 0,
            reason: 17,
        };
        let error = refused(&found).expect("a fault");
        assert_eq!(error, FindError::Leaf(FaultReason::Purpose));
        assert_eq!(error.to_string(), "the certificate is for another purpose");
        found.reason = 0;
        assert_eq!(refused(&found), Err(Error::Value));
        found.reason = 99;
        assert_eq!(refused(&found), Err(Error::Unexpected));
    }
}
