//! Whether CRLs say that a certificate is revoked (RFC 5280 6.3.3).
use crate::certificate::CertificateRef;
use crate::crl::CrlRef;
use crate::error::Error;
use crate::extension::{
    AuthorityKeyIdentifier, CrlReason, ExtensionValue, ReasonFlags, SubjectKeyIdentifier,
};
use crate::ffi;
use crate::name::NameRef;
use crate::numbered::numbered;
use crate::path::{
    validate_path, working_key, PathError, PathSettings, Trusted, Validated, Verifier,
};
use crate::time::{moment, seconds};
use std::cmp::Reverse;
use std::collections::{HashMap, HashSet};
use std::time::SystemTime;

/// What CRLs say of a certificate. Only [`Unrevoked`](RevocationStatus::Unrevoked) says that it may be used: who withholds a CRL makes its status undetermined.
#[derive(Clone, Copy, Debug, PartialEq, Eq, Hash)]
#[must_use]
pub enum RevocationStatus {
    /// No CRL says that it is revoked, and they don't cover all reasons.
    Undetermined {
        /// The reasons that no CRL covered.
        reasons: ReasonFlags,
    },

    /// The CRLs cover all reasons, and it isn't revoked.
    Unrevoked,

    /// It is revoked.
    Revoked {
        /// Which CRL says so, by its place from 0.
        crl: usize,

        /// When it was.
        date: SystemTime,

        /// Why; [`CrlReason::Unspecified`] where the entry gives no reason that can be read.
        reason: CrlReason,
    },
}

impl RevocationStatus {
    fn found(answer: &ffi::RevocationAnswer) -> Result<RevocationStatus, Error> {
        match answer.status {
            ffi::UNDETERMINED => Ok(RevocationStatus::Undetermined {
                reasons: ReasonFlags(answer.reasons),
            }),
            ffi::UNREVOKED => Ok(RevocationStatus::Unrevoked),
            ffi::REVOKED => Ok(RevocationStatus::Revoked {
                crl: answer.crl,
                date: moment(answer.date)?,
                reason: CrlReason::found(answer.reason)?,
            }),
            _ => Err(Error::Unexpected),
        }
    }

    /// Whether the CRLs cover all reasons, and the certificate isn't revoked.
    pub fn is_unrevoked(&self) -> bool {
        *self == RevocationStatus::Unrevoked
    }
}

numbered! {
    /// Why a CRL says nothing of a certificate (RFC 5280 6.3.3), in the order in which it is asked.
    #[derive(Clone, Copy, Debug, PartialEq, Eq, PartialOrd, Ord, Hash)]
    pub enum CrlFault {
        /// The moment is before its thisUpdate (RFC 5280 5.1.2.4).
        NotYetValid = 1,
        /// The moment is after its nextUpdate, or it has none, and the settings don't take such a CRL (RFC 5280 5.1.2.5).
        Expired = 2,
        /// It has a critical extension that isn't an IssuingDistributionPoint or a delta CRL indicator, or can't be read (RFC 5280 5.2).
        Critical = 3,
        /// The algorithm in its signed part isn't the one outside it (RFC 5280 5.1.1.2).
        Algorithm = 4,
        /// It is a delta CRL, which says nothing but with a complete one (RFC 5280 5.2.4).
        Delta = 5,
        /// It has an IssuingDistributionPoint that can't be read, or several (RFC 5280 5.2.5).
        IssuingPoint = 6,
        /// Its issuer isn't the certificate's, nor in the cRLIssuer of a distribution point for which it is an indirect CRL (RFC 5280 6.3.3 (b) (1)).
        Issuer = 7,
        /// Its IssuingDistributionPoint says that it isn't about such certificates, but about those of authorities alone, say (RFC 5280 6.3.3 (b) (2)).
        Scope = 8,
        /// It is that of none of the certificate's distribution points, or for none of the reasons there (RFC 5280 6.3.3 (b) (2) (i), (d)).
        Point = 9,
        /// The signer's name isn't its issuer, or its key can't be read (RFC 5280 6.3.3 (f)); of a path, no signer of it counts.
        Signer = 10,
        /// The verifier doesn't accept its signature (RFC 5280 6.3.3 (g)).
        Signature = 11,
        /// An entry has a critical extension that isn't known or can't be read, or a CertificateIssuer that can't be used (RFC 5280 5.3).
        Entry = 12,
        /// A newer CRL for the same scope takes its place (RFC 5280 6.3.3 (a)).
        Replaced = 13,
    }
}

/// A CRL, and its signer: the certificate, the trust anchor, or the name and the key, under which it is to be verified. The key of a certificate is taken as it
/// stands there: one that has its parameters from a key above is given as [`working_key`] says. That the signer is one whose CRLs count is for the caller to
/// know: it is the issuer of the certificate, or another whose path is valid, and [`may_sign_crls`] says so of it (RFC 5280 6.3.3 (f)).
#[derive(Clone, Copy, Debug)]
pub struct SignedCrl<'a> {
    /// The CRL.
    pub crl: CrlRef<'a>,

    /// Its signer.
    pub signer: Trusted<'a>,
}

impl<'a> SignedCrl<'a> {
    /// A CRL with its signer.
    pub fn new(crl: CrlRef<'a>, signer: impl Into<Trusted<'a>>) -> SignedCrl<'a> {
        let signer = signer.into();
        SignedCrl { crl, signer }
    }

    /// Whether its signature is one by the signer's key.
    fn is_signed(&self, verifier: &impl Verifier) -> Result<bool, Error> {
        let signature = self.crl.signature()?;
        Ok(signature.unused_bits == 0 && verifier.verify(self.signer.key(), &signature))
    }
}

/// What is asked of CRLs.
#[derive(Clone, Debug)]
pub struct RevocationSettings {
    moment: SystemTime,
    flags: u64,
}

impl RevocationSettings {
    /// What they say of the moment. A CRL is in date that says by when the next one will be issued.
    pub fn new(moment: SystemTime) -> RevocationSettings {
        RevocationSettings { moment, flags: 0 }
    }

    fn asked(&self) -> Result<ffi::RevocationSettings, Error> {
        Ok(ffi::RevocationSettings {
            moment: seconds(self.moment)?,
            flags: self.flags,
        })
    }

    fn flag(&mut self, flag: u32, is_set: bool) -> &mut RevocationSettings {
        let flag = u64::from(flag);
        self.flags = self.flags & !flag | if is_set { flag } else { 0 };
        self
    }

    /// Whether a CRL is in date, too, that doesn't say by when the next one will be issued, which RFC 5280 5.1.2.5 wants each to say.
    pub fn without_next_update(&mut self, is_taken: bool) -> &mut RevocationSettings {
        self.flag(ffi::REVOCATION_WITHOUT_NEXT_UPDATE, is_taken)
    }

    /// Whether delta CRLs are used that are among the CRLs (RFC 5280 5.2.4): the newest one that fits a complete CRL is asked before it; its signer has to be
    /// that of the complete one (6.3.3 (h)).
    pub fn use_deltas(&mut self, are_used: bool) -> &mut RevocationSettings {
        self.flag(ffi::REVOCATION_USE_DELTAS, are_used)
    }
}

/// Whether the key of a certificate may sign CRLs (RFC 5280 4.2.1.3, 6.3.3 (f)): it has no KeyUsage, or one that can be read, with cRLSign.
///
/// # Errors
/// None but [`Error::Unexpected`].
pub fn may_sign_crls(certificate: CertificateRef<'_>) -> Result<bool, Error> {
    Ok(ffi::MAY_SIGN_CRLS.of(certificate.as_der())? == 1)
}

/// What CRLs say of a certificate (RFC 5280 6.3.3), asked in their order; of several for one scope under one key the newest counts, wherever it stands. A CRL
/// counts where the verifier accepts its signature for its signer's key, where the signer's name is its issuer, where it is in date, and where it is one for
/// the certificate, as `x509_revocation_status` of `x509.h` says.
///
/// ```
/// use std::time::{Duration, UNIX_EPOCH};
/// use x509_rattle::extension::CrlReason;
/// use x509_rattle::{revocation_status, CertificateRef, CrlRef, RevocationSettings, RevocationStatus, Signature, SignedCrl};
///
/// # let (der, list) = (include_bytes!("../../../examples/data/certificate.der"), include_bytes!("../../../examples/data/list.der"));
/// let certificate = CertificateRef::from_der(der)?;
/// let crls = [SignedCrl::new(CrlRef::from_der(list)?, certificate)];
/// let settings = RevocationSettings::new(UNIX_EPOCH + Duration::from_secs(1_769_904_000));
/// // a program verifies here by a library of signatures; this accepts all, and then none
/// let accepts = |_key: &[u8], _signature: &Signature| true;
/// match revocation_status(certificate, &crls, &settings, &accepts)? {
///     RevocationStatus::Revoked { crl: 0, reason, .. } => assert_eq!(reason, CrlReason::KeyCompromise),
///     other => panic!("{other:?}"),
/// }
/// let refuses = |_key: &[u8], _signature: &Signature| false;
/// assert!(!revocation_status(certificate, &crls, &settings, &refuses)?.is_unrevoked());
/// # Ok::<(), x509_rattle::Error>(())
/// ```
///
/// # Errors
/// [`Error::Value`] where the moment is before 1970 or after 9999; [`Error::UnnamedAnchor`] where a signer is a trust anchor without a name; [`Error::Malformed`] or
/// [`Error::Overlength`] where a signer's key is none; [`Error::Memory`].
pub fn revocation_status(
    certificate: CertificateRef<'_>,
    crls: &[SignedCrl<'_>],
    settings: &RevocationSettings,
    verifier: &impl Verifier,
) -> Result<RevocationStatus, Error> {
    ask(certificate, &verified(crls, verifier)?, settings)
}

fn verified<'a>(
    crls: &[SignedCrl<'a>],
    verifier: &impl Verifier,
) -> Result<Vec<(ffi::GivenCrl<'a>, bool)>, Error> {
    crls.iter()
        .map(|it| Ok((it.signed()?, it.is_signed(verifier)?)))
        .collect()
}

/// Why each of the CRLs says nothing of the certificate, in their order; `None` of one that says of a reason or more whether it is revoked. A CRL without a fault
/// isn't used by [`revocation_status`] only where those before it left no reason that it covers (RFC 5280 6.3.3 (e)).
///
/// ```
/// use std::time::{Duration, UNIX_EPOCH};
/// use x509_rattle::{crl_faults, CertificateRef, CrlFault, CrlRef, RevocationSettings, Signature, SignedCrl};
///
/// # let (der, list) = (include_bytes!("../../../examples/data/certificate.der"), include_bytes!("../../../examples/data/list.der"));
/// let certificate = CertificateRef::from_der(der)?;
/// let crls = [SignedCrl::new(CrlRef::from_der(list)?, certificate)];
/// // the last second of the list is 2026-03-01T00:00:00Z
/// let settings = RevocationSettings::new(UNIX_EPOCH + Duration::from_secs(1_772_323_201));
/// let accepts = |_key: &[u8], _signature: &Signature| true;
/// assert_eq!(crl_faults(certificate, &crls, &settings, &accepts)?, [Some(CrlFault::Expired)]);
/// # Ok::<(), x509_rattle::Error>(())
/// ```
///
/// # Errors
/// Those of [`revocation_status`].
pub fn crl_faults(
    certificate: CertificateRef<'_>,
    crls: &[SignedCrl<'_>],
    settings: &RevocationSettings,
    verifier: &impl Verifier,
) -> Result<Vec<Option<CrlFault>>, Error> {
    let given = verified(crls, verifier)?;
    let places = 0..given.len();
    places
        .map(|place| fault_at(certificate, &given, settings, place))
        .collect()
}

/// The fault of the CRL at a place.
fn fault_at(
    certificate: CertificateRef<'_>,
    crls: &[(ffi::GivenCrl<'_>, bool)],
    settings: &RevocationSettings,
    place: usize,
) -> Result<Option<CrlFault>, Error> {
    let is_verified = matches!(crls.get(place), Some((_, true)));
    match ffi::crl_fault(certificate.as_der(), crls, settings.asked()?, place) {
        Ok(0) => Ok(None),
        Ok(fault) => Ok(Some(CrlFault::found(fault)?)),
        // of a CRL that isn't verified it may be the key alone that is none
        Err(Error::Malformed | Error::Overlength) if !is_verified => Ok(Some(CrlFault::Signer)),
        Err(error) => Err(error),
    }
}

impl<'a> SignedCrl<'a> {
    fn signed(&self) -> Result<ffi::GivenCrl<'a>, Error> {
        Ok(ffi::GivenCrl {
            crl: self.crl.as_der(),
            name: self.signer.name().ok_or(Error::UnnamedAnchor)?.as_der(),
            key: self.signer.key(),
        })
    }
}

/// What those CRLs say that are verified.
fn ask(
    certificate: CertificateRef<'_>,
    crls: &[(ffi::GivenCrl<'_>, bool)],
    settings: &RevocationSettings,
) -> Result<RevocationStatus, Error> {
    let answer = ffi::revocation_status(certificate.as_der(), crls, settings.asked()?)?;
    RevocationStatus::found(&answer)
}

/// What CRLs say of each certificate of a path that is valid under what is trusted, topmost first. The path is good where each of them
/// [`is_unrevoked`](RevocationStatus::is_unrevoked).
///
/// The signer of a CRL is found by its issuer's name, and by the identifier of its key where both say one: what is trusted, a certificate of the path, or one
/// of the further certificates, of which the path is found here, and has to be valid, and each certificate in it that isn't in the given path unrevoked. A
/// signer counts only where [`may_sign_crls`] says so, so also of a certificate that is trusted. The status of a further certificate may be told by a CRL of
/// its own key; but of signers that tell only each other's status none counts. Who counts doesn't depend on the order of `crls`. Of CRLs for the same reasons
/// the latest is asked first, and `crl` is the place in `crls`.
///
/// # Errors
/// [`Error::Value`] where the moment is before 1970 or after 9999; [`Error::UnnamedAnchor`] where what is trusted is a trust anchor without a name;
/// [`Error::Malformed`] or [`Error::Overlength`] where the key that is trusted is none; [`Error::Memory`].
pub fn path_revocation_statuses<'a>(
    path: &Validated<'a>,
    trusted: impl Into<Trusted<'a>>,
    crls: &[CrlRef<'a>],
    certificates: &[CertificateRef<'a>],
    settings: &RevocationSettings,
    verifier: &impl Verifier,
) -> Result<Vec<RevocationStatus>, Error> {
    judge(path, trusted.into(), crls, certificates, settings, verifier)?.path_statuses()
}

/// Why each of the CRLs says nothing of each certificate of the path, topmost first, as [`path_revocation_statuses`] asks them; `None` of one that says of a reason
/// or more whether the certificate is revoked.
///
/// # Errors
/// Those of [`path_revocation_statuses`].
pub fn path_crl_faults<'a>(
    path: &Validated<'a>,
    trusted: impl Into<Trusted<'a>>,
    crls: &[CrlRef<'a>],
    certificates: &[CertificateRef<'a>],
    settings: &RevocationSettings,
    verifier: &impl Verifier,
) -> Result<Vec<Vec<Option<CrlFault>>>, Error> {
    judge(path, trusted.into(), crls, certificates, settings, verifier)?.path_faults()
}

/// Which certificates of a path are asked for their revocation.
#[derive(Clone, Copy, Debug, PartialEq, Eq, Hash)]
pub enum RevocationScope {
    /// The last one alone.
    Leaf,

    /// Each.
    Path,
}

/// That certificates of a path that is searched for aren't revoked, by CRLs at hand.
///
/// ```
/// use std::time::SystemTime;
/// use x509_rattle::{CrlRef, RevocationCheck, RevocationScope, RevocationSettings, VerifySettings};
///
/// fn settings<'r>(crls: &'r [CrlRef<'r>], moment: SystemTime) -> VerifySettings<'r> {
///     let mut check = RevocationCheck::new(crls, RevocationSettings::new(moment));
///     // a server's own certificate alone, where a CRL speaks of it
///     check.scope(RevocationScope::Leaf).allow_undetermined(true);
///     let mut settings = VerifySettings::new(moment);
///     settings.revocation(&check);
///     settings
/// }
/// ```
#[derive(Clone, Debug)]
pub struct RevocationCheck<'r> {
    crls: &'r [CrlRef<'r>],
    certificates: &'r [CertificateRef<'r>],
    settings: RevocationSettings,
    scope: RevocationScope,
    allows_undetermined: bool,
}

impl<'r> RevocationCheck<'r> {
    /// That the CRLs say of each certificate of the path that it isn't revoked ([`RevocationStatus::Unrevoked`]), under the settings.
    pub fn new(crls: &'r [CrlRef<'r>], settings: RevocationSettings) -> RevocationCheck<'r> {
        RevocationCheck {
            crls,
            certificates: &[],
            settings,
            scope: RevocationScope::Path,
            allows_undetermined: false,
        }
    }

    /// Further certificates that may have signed the CRLs, beside the anchor and those of the path: [`path_revocation_statuses`] says which count.
    pub fn certificates(&mut self, further: &'r [CertificateRef<'r>]) -> &mut RevocationCheck<'r> {
        self.certificates = further;
        self
    }

    /// Which certificates are asked for.
    pub fn scope(&mut self, scope: RevocationScope) -> &mut RevocationCheck<'r> {
        self.scope = scope;
        self
    }

    /// Whether a certificate is let through of which the CRLs don't say whether it is revoked ([`RevocationStatus::Undetermined`]), as where there is none for
    /// it. Who withholds a CRL then gets a revoked one through.
    pub fn allow_undetermined(&mut self, is_allowed: bool) -> &mut RevocationCheck<'r> {
        self.allows_undetermined = is_allowed;
        self
    }

    /// The topmost certificate of a path that isn't let through, by its place, and its status.
    pub(crate) fn first_refused<'a>(
        &self,
        path: &Validated<'a>,
        anchor: CertificateRef<'a>,
        verifier: &impl Verifier,
    ) -> Result<Option<(usize, RevocationStatus)>, Error>
    where
        'r: 'a,
    {
        let statuses = path_revocation_statuses(
            path,
            anchor,
            self.crls,
            self.certificates,
            &self.settings,
            verifier,
        )?;
        let first = match self.scope {
            RevocationScope::Leaf => statuses.len().saturating_sub(1),
            RevocationScope::Path => 0,
        };
        let is_refused = |status: &RevocationStatus| match status {
            RevocationStatus::Unrevoked => false,
            RevocationStatus::Undetermined { .. } => !self.allows_undetermined,
            RevocationStatus::Revoked { .. } => true,
        };
        let mut asked = statuses.into_iter().enumerate().skip(first);
        Ok(asked.find(|(_, status)| is_refused(status)))
    }
}

fn judge<'j, 'a, V: Verifier>(
    path: &'j Validated<'a>,
    trusted: Trusted<'a>,
    crls: &'j [CrlRef<'a>],
    certificates: &[CertificateRef<'a>],
    settings: &'j RevocationSettings,
    verifier: &'j V,
) -> Result<Judge<'j, 'a, V>, Error> {
    let mut places = Vec::with_capacity(crls.len());
    for (place, crl) in crls.iter().enumerate() {
        places.push((Reverse(crl.this_update()?), place));
    }
    places.sort();
    let mut others: Vec<CertificateRef<'a>> = Vec::new();
    for it in certificates {
        if !path.certificates().contains(it) && !others.contains(it) {
            others.push(*it);
        }
    }
    let mut judge = Judge {
        path: path.certificates(),
        trusted,
        name: trusted.name().ok_or(Error::UnnamedAnchor)?,
        crls,
        certificates: others,
        settings,
        verifier,
        given: Vec::new(),
        statuses: HashMap::new(),
        chains: HashMap::new(),
    };
    for (_, place) in places {
        judge.give(place)?;
    }
    Ok(judge)
}

/// Certificates below what is trusted, topmost first; none stand for what is trusted.
type Chain<'a> = Vec<CertificateRef<'a>>;

/// How many chains are looked at above a certificate that may sign CRLs, and how many certificates one has.
const MOST_CHAINS: usize = 64;
const LONGEST_CHAIN: usize = 8;

/// A CRL by its place, with the signer whose key signed it, that key as it is used, and the chains to the certificates of that signer's which have to be
/// unrevoked.
struct Given<'a> {
    place: usize,
    signer: Chain<'a>,
    key: Vec<u8>,
    further: Vec<Chain<'a>>,
}

/// The statuses of certificates, each by its chain and by the CRLs that are used, which are named by their places in `given`.
struct Judge<'j, 'a, V> {
    path: &'j [CertificateRef<'a>],
    trusted: Trusted<'a>,
    name: NameRef<'a>,
    crls: &'j [CrlRef<'a>],
    certificates: Vec<CertificateRef<'a>>,
    settings: &'j RevocationSettings,
    verifier: &'j V,
    /// The CRLs, the latest first.
    given: Vec<Given<'a>>,
    statuses: HashMap<(Chain<'a>, Vec<usize>), RevocationStatus>,
    chains: HashMap<CertificateRef<'a>, Option<Chain<'a>>>,
}

impl<'a, V: Verifier> Judge<'_, 'a, V> {
    /// Those of the path's certificates, topmost first.
    fn path_statuses(&mut self) -> Result<Vec<RevocationStatus>, Error> {
        let signers = self.signers_that_count()?;
        let path = self.path;
        let ends = 1..=path.len();
        ends.map(|end| self.status(&path[..end], &signers))
            .collect()
    }

    /// The further signers that are unrevoked.
    fn signers_that_count(&mut self) -> Result<HashSet<Chain<'a>>, Error> {
        let mut refused = HashSet::new();
        loop {
            let signers = self.unrevoked_signers(&refused)?;
            // what was told by some of their CRLs may be otherwise by all of them: who is revoked then tells nothing of another
            let before = refused.len();
            for chain in &signers {
                if !self.status(chain, &signers)?.is_unrevoked() {
                    refused.insert(chain.clone());
                }
            }
            if refused.len() == before {
                return Ok(signers);
            }
        }
    }

    /// The further signers that are unrevoked, by CRLs of those that were found so before them and by their own: so no answer rests on itself round others, and
    /// the order of CRLs has no say.
    fn unrevoked_signers(
        &mut self,
        refused: &HashSet<Chain<'a>>,
    ) -> Result<HashSet<Chain<'a>>, Error> {
        let further = self.given.iter().flat_map(|it| it.further.clone());
        let mut asked: HashSet<Chain<'a>> =
            further.filter(|chain| !refused.contains(chain)).collect();
        let mut found = HashSet::new();
        loop {
            let mut more = Vec::new();
            for chain in &asked {
                if self.status(chain, &found)?.is_unrevoked() {
                    more.push(chain.clone());
                }
            }
            if more.is_empty() {
                return Ok(found);
            }
            for chain in more {
                asked.remove(&chain);
                found.insert(chain);
            }
        }
    }

    /// What is said of the last certificate of the chain by the CRLs of these signers, and by its own.
    fn status(
        &mut self,
        chain: &[CertificateRef<'a>],
        signers: &HashSet<Chain<'a>>,
    ) -> Result<RevocationStatus, Error> {
        let key = (chain.to_vec(), self.used(chain, signers));
        if let Some(found) = self.statuses.get(&key) {
            return Ok(*found);
        }
        let certificate = *chain.last().ok_or(Error::Unexpected)?;
        let found = self.status_by(certificate, &key.1)?;
        self.statuses.insert(key, found);
        Ok(found)
    }

    /// The CRLs of these signers, and those of the certificate's own key.
    fn used(&self, chain: &[CertificateRef<'a>], signers: &HashSet<Chain<'a>>) -> Vec<usize> {
        let counts = |it: &Chain<'a>| it == chain || signers.contains(it);
        let places = 0..self.given.len();
        places
            .filter(|at| self.given[*at].further.iter().all(counts))
            .collect()
    }

    fn given_crls(&self, used: &[usize]) -> Result<Vec<(ffi::GivenCrl<'_>, bool)>, Error> {
        let mut given = Vec::with_capacity(used.len());
        for it in used.iter().map(|at| &self.given[*at]) {
            let signer = named(self.signer_name(&it.signer), &it.key);
            let crl = SignedCrl::new(self.crls[it.place], signer);
            given.push((crl.signed()?, true));
        }
        Ok(given)
    }

    /// Those of the CRLs, for each of the path's certificates.
    fn path_faults(&mut self) -> Result<Vec<Vec<Option<CrlFault>>>, Error> {
        let signers = self.signers_that_count()?;
        let path = self.path;
        let mut found = Vec::with_capacity(path.len());
        for (end, certificate) in path.iter().enumerate() {
            let used = self.used(&path[..=end], &signers);
            found.push(self.faults(*certificate, &used)?);
        }
        Ok(found)
    }

    fn faults(
        &mut self,
        certificate: CertificateRef<'a>,
        used: &[usize],
    ) -> Result<Vec<Option<CrlFault>>, Error> {
        let mut faults = Vec::with_capacity(self.crls.len());
        for place in 0..self.crls.len() {
            let mut asked: Option<Option<CrlFault>> = None;
            let given = self.given_crls(used)?;
            for (at, it) in used.iter().enumerate() {
                if self.given[*it].place == place {
                    let fault = fault_at(certificate, &given, self.settings, at)?;
                    if asked.is_none() || fault.is_none() {
                        asked = Some(fault);
                    }
                }
            }
            drop(given);
            faults.push(match asked {
                Some(fault) => fault,
                None => Some(self.fault_without_signer(certificate, place)?),
            });
        }
        Ok(faults)
    }

    /// The fault of a CRL of which no signer counts.
    fn fault_without_signer(
        &mut self,
        certificate: CertificateRef<'a>,
        place: usize,
    ) -> Result<CrlFault, Error> {
        let crl = self.crls[place];
        let own = SignedCrl::new(crl, named(crl.issuer(), self.trusted.key()));
        let given = [(own.signed()?, false)];
        match fault_at(certificate, &given, self.settings, 0)? {
            Some(CrlFault::Signature) | None => {}
            Some(fault) => return Ok(fault),
        }
        let is_signed = self.given.iter().any(|it| it.place == place);
        if is_signed || self.signers(&crl)?.is_empty() {
            Ok(CrlFault::Signer)
        } else {
            Ok(CrlFault::Signature)
        }
    }

    fn status_by(
        &self,
        certificate: CertificateRef<'a>,
        used: &[usize],
    ) -> Result<RevocationStatus, Error> {
        let given = self.given_crls(used)?;
        match ask(certificate, &given, self.settings)? {
            RevocationStatus::Revoked { crl, date, reason } => {
                let at = *used.get(crl).ok_or(Error::Unexpected)?;
                let crl = self.given[at].place;
                Ok(RevocationStatus::Revoked { crl, date, reason })
            }
            other => Ok(other),
        }
    }

    /// The CRL is given, once for each signer whose key signed it.
    fn give(&mut self, place: usize) -> Result<(), Error> {
        for signer in self.signers(&self.crls[place])? {
            let key = self.key(&signer)?;
            let crl = SignedCrl::new(self.crls[place], named(self.signer_name(&signer), &key));
            if crl.is_signed(self.verifier)? {
                let ends = 1..=signer.len();
                let chains = ends.map(|end| signer[..end].to_vec());
                let further = chains.filter(|it| !self.path.starts_with(it)).collect();
                self.given.push(Given {
                    place,
                    signer,
                    key,
                    further,
                });
            }
        }
        Ok(())
    }

    /// Whose key it is: that of the last certificate; where there is none, that which is trusted.
    fn holder(&self, chain: &[CertificateRef<'a>]) -> Trusted<'a> {
        chain.last().map_or(self.trusted, |it| (*it).into())
    }

    fn signer_name(&self, chain: &[CertificateRef<'a>]) -> NameRef<'a> {
        chain.last().map_or(self.name, |it| it.subject())
    }

    /// The key as it is used below what is trusted (RFC 5280 6.1.4 (d) to (f)).
    fn key(&self, chain: &[CertificateRef<'a>]) -> Result<Vec<u8>, Error> {
        let mut key = self.trusted.key().to_vec();
        for it in chain {
            key = working_key(&key, it.subject_public_key_info())?;
        }
        Ok(key)
    }

    /// Those whose name is the issuer of the CRL, and whose key has the identifier that it says.
    fn signers(&mut self, crl: &CrlRef<'a>) -> Result<Vec<Chain<'a>>, Error> {
        let wanted = authority_key_identifier(crl);
        let mut found = Vec::new();
        for end in 0..=self.path.len() {
            let may_sign = match self.holder(&self.path[..end]) {
                Trusted::Certificate(certificate) => may_sign(certificate, crl, wanted)?,
                _ => self.name.matches(&crl.issuer())?,
            };
            if may_sign {
                found.push(self.path[..end].to_vec());
            }
        }
        for certificate in self.certificates.clone() {
            if may_sign(certificate, crl, wanted)? {
                found.extend(self.chain_to(certificate)?);
            }
        }
        Ok(found)
    }

    /// A valid path from what is trusted to the certificate, if there is one.
    fn chain_to(&mut self, certificate: CertificateRef<'a>) -> Result<Option<Chain<'a>>, Error> {
        if let Some(found) = self.chains.get(&certificate) {
            return Ok(found.clone());
        }
        let mut found = None;
        for chain in self.chains_up(certificate)? {
            if self.is_valid(&chain)? {
                found = Some(chain);
                break;
            }
        }
        self.chains.insert(certificate, found.clone());
        Ok(found)
    }

    /// The chains from what is trusted to the certificate in which names fit, the shortest first; of very many not all.
    fn chains_up(&self, certificate: CertificateRef<'a>) -> Result<Vec<Chain<'a>>, Error> {
        let (mut looked_at, mut found) = (vec![vec![certificate]], Vec::new());
        let mut at = 0;
        while let Some(chain) = looked_at.get(at).cloned() {
            at += 1;
            let issuer = chain.first().ok_or(Error::Unexpected)?.issuer();
            if issuer.matches(&self.name)? {
                found.push(chain.clone());
            }
            for it in self.path.iter().chain(&self.certificates) {
                let has_room = looked_at.len() < MOST_CHAINS && chain.len() < LONGEST_CHAIN;
                if has_room && !chain.contains(it) && it.subject().matches(&issuer)? {
                    looked_at.push([&[*it], chain.as_slice()].concat());
                }
            }
        }
        Ok(found)
    }

    fn is_valid(&self, chain: &Chain<'a>) -> Result<bool, Error> {
        let path: Vec<&[u8]> = chain.iter().map(|it| it.as_der()).collect();
        let settings = PathSettings::new(self.settings.moment);
        match validate_path(self.trusted, &path, &settings, self.verifier) {
            Ok(_) => Ok(true),
            Err(PathError::Refused(Error::Memory)) => Err(Error::Memory),
            Err(_) => Ok(false),
        }
    }
}

fn named<'s>(name: NameRef<'s>, key: &'s [u8]) -> Trusted<'s> {
    Trusted::NameAndKey {
        name,
        subject_public_key_info: key,
    }
}

/// Whether the certificate's subject is the issuer of the CRL, its key has the identifier that the CRL says, and may sign CRLs.
fn may_sign(
    certificate: CertificateRef<'_>,
    crl: &CrlRef<'_>,
    wanted: Option<&[u8]>,
) -> Result<bool, Error> {
    let has_key = match (wanted, subject_key_identifier(certificate)) {
        (Some(wanted), Some(found)) => wanted == found,
        _ => true,
    };
    Ok(has_key && certificate.subject().matches(&crl.issuer())? && may_sign_crls(certificate)?)
}

fn subject_key_identifier<'a>(certificate: CertificateRef<'a>) -> Option<&'a [u8]> {
    let (_, found) = certificate.get::<SubjectKeyIdentifier<'a>>().ok()??;
    Some(found.0)
}

fn authority_key_identifier<'a>(crl: &CrlRef<'a>) -> Option<&'a [u8]> {
    let mut extensions = crl.extensions().filter_map(Result::ok);
    let found = extensions.find(|it| it.oid() == AuthorityKeyIdentifier::OID)?;
    let found = AuthorityKeyIdentifier::from_der(found.value()).ok()?;
    found.key_identifier
}
