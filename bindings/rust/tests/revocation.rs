//! What CRLs say of certificates, of one and of a path, of certificates and CRLs that are built here. A signature is the key and the signed part, so each
//! signer is known by its key.
use std::convert::Infallible;
use std::time::{Duration, SystemTime, UNIX_EPOCH};
use x509_rattle::extension::{
    BasicConstraints, CertificateIssuer, CrlReason, InvalidityDate, IssuingDistributionPoint,
    KeyUsage, ReasonFlags, ToExtension,
};
use x509_rattle::{
    crl_faults, may_sign_crls, oid, path_crl_faults, path_revocation_statuses, revocation_status,
    validate_path, Certificate, CertificateBuilder, CertificateRef, Crl, CrlBuilder,
    CrlEntryBuilder, CrlFault, CrlRef, Error, GeneralName, Name, PathError, PathSettings,
    RevocationSettings, RevocationStatus, SerialNumber, Signature, SignedCrl, Signer, TrustAnchor,
    Trusted, Validity, Verifier,
};

// an AlgorithmIdentifier and keys of Ed25519 (RFC 8410 3, 4), whose bits are no keys
const ED25519: &[u8] = b"\x30\x05\x06\x03\x2b\x65\x70";
const ROOT_KEY: &[u8] = b"\x30\x0b\x30\x05\x06\x03\x2b\x65\x70\x03\x02\x00r";
const KEY: &[u8] = b"\x30\x0b\x30\x05\x06\x03\x2b\x65\x70\x03\x02\x00a";
const LIST_KEY: &[u8] = b"\x30\x0b\x30\x05\x06\x03\x2b\x65\x70\x03\x02\x00l";
const TOP_KEY: &[u8] = b"\x30\x0b\x30\x05\x06\x03\x2b\x65\x70\x03\x02\x00t";
const LEAF_KEY: &[u8] = b"\x30\x0b\x30\x05\x06\x03\x2b\x65\x70\x03\x02\x00s";
const MOMENT: u64 = 1_893_456_000;

struct By(&'static [u8]);

impl Signer for By {
    type Error = Infallible;

    fn algorithm(&self) -> &[u8] {
        ED25519
    }

    fn subject_public_key_info(&self) -> &[u8] {
        self.0
    }

    fn sign(&self, part: &[u8]) -> Result<Vec<u8>, Infallible> {
        Ok([self.0, part].concat())
    }
}

fn verifies(key: &[u8], signature: &Signature<'_>) -> bool {
    signature.algorithm == ED25519 && signature.bits == [key, signature.signed_part].concat()
}

fn at(seconds: u64) -> SystemTime {
    UNIX_EPOCH + Duration::from_secs(seconds)
}

fn number(number: u64) -> SerialNumber {
    SerialNumber::try_from(number).expect("a number")
}

fn name(text: &str) -> Name {
    text.parse().expect("a name")
}

/// A certificate with that serial number, by the key of the issuer; of an authority, and with these usages, where any are said.
fn certificate(
    serial: u64,
    (issuer, by): (&str, &'static [u8]),
    (subject, key): (&str, &[u8]),
    is_ca: bool,
    usages: Option<KeyUsage>,
) -> Certificate {
    let validity = Validity {
        not_before: at(MOMENT - 10),
        not_after: at(MOMENT + 10),
    };
    let (issuer, subject) = (name(issuer), name(subject));
    let mut builder = CertificateBuilder::new(number(serial), &issuer, validity, &subject, key);
    let mut add = |oid, der: Result<Vec<u8>, Error>| {
        let der = der.expect("a value");
        builder
            .add_extension_der(oid, true, &der)
            .expect("an extension");
    };
    if is_ca {
        let constraints = BasicConstraints {
            ca: true,
            path_len_constraint: None,
        };
        add(oid::extension::BASIC_CONSTRAINTS, constraints.to_der());
    }
    if let Some(usages) = usages {
        add(oid::extension::KEY_USAGE, usages.to_der());
    }
    builder.build(&By(by)).expect("a certificate")
}

/// A CRL of that time by the key, under the issuer's name, with these serial numbers; for these reasons alone, where any are said.
fn list(
    issuer: &Certificate,
    by: &'static [u8],
    time: u64,
    serials: &[u64],
    reasons: Option<ReasonFlags>,
) -> Crl {
    // the builder wants the issuer's own key, so of another one the name alone is the issuer's
    let text = issuer.subject().to_string();
    let own = certificate(1, (&text, by), (&text, by), false, None);
    let mut builder = CrlBuilder::new(own.to_ref(), b"\x01", at(time));
    builder.next_update(at(time + 10));
    for serial in serials {
        let entry = number(*serial);
        builder
            .add_entry(
                entry.to_integer(),
                at(MOMENT - 5),
                Some(CrlReason::Superseded),
            )
            .expect("an entry");
    }
    if let Some(reasons) = reasons {
        let point = IssuingDistributionPoint {
            distribution_point: None,
            only_contains_user_certs: false,
            only_contains_ca_certs: false,
            only_some_reasons: Some(reasons),
            indirect_crl: false,
            only_contains_attribute_certs: false,
        };
        builder.add_extension(true, &point).expect("an extension");
    }
    builder.build(&By(by)).expect("a CRL")
}

fn root() -> Certificate {
    certificate(
        1,
        ("CN=Root", ROOT_KEY),
        ("CN=Root", ROOT_KEY),
        true,
        Some(KeyUsage::KEY_CERT_SIGN | KeyUsage::CRL_SIGN),
    )
}

fn authority(usages: KeyUsage) -> Certificate {
    certificate(2, ("CN=Root", ROOT_KEY), ("CN=A", KEY), true, Some(usages))
}

fn signing() -> Certificate {
    authority(KeyUsage::KEY_CERT_SIGN | KeyUsage::CRL_SIGN)
}

fn leaf() -> Certificate {
    certificate(3, ("CN=A", KEY), ("CN=S", LEAF_KEY), false, None)
}

/// Another certificate for the authority's name, by that key, whose key signs CRLs.
fn list_signer(serial: u64, issuer: &str, by: &'static [u8]) -> Certificate {
    certificate(
        serial,
        (issuer, by),
        ("CN=A", LIST_KEY),
        false,
        Some(KeyUsage::CRL_SIGN),
    )
}

/// That the CRL of this place revokes it, as [`list`] has entries.
fn revoked_by(crl: usize) -> RevocationStatus {
    RevocationStatus::Revoked {
        crl,
        date: at(MOMENT - 5),
        reason: CrlReason::Superseded,
    }
}

fn status(crls: &[(&Crl, &Certificate)]) -> RevocationStatus {
    let crls: Vec<SignedCrl> = crls
        .iter()
        .map(|(crl, signer)| SignedCrl::new(crl.to_ref(), signer.to_ref()))
        .collect();
    let settings = RevocationSettings::new(at(MOMENT));
    revocation_status(leaf().to_ref(), &crls, &settings, &verifies).expect("a status")
}

/// That no reason is covered.
fn all() -> RevocationStatus {
    status(&[])
}

#[test]
fn one_certificate() {
    let issuer = signing();
    let by = |serials: &[u64]| list(&issuer, KEY, MOMENT, serials, None);
    assert_eq!(status(&[(&by(&[]), &issuer)]), RevocationStatus::Unrevoked);
    assert!(status(&[(&by(&[2, 4]), &issuer)]).is_unrevoked());
    assert_eq!(status(&[(&by(&[2, 3]), &issuer)]), revoked_by(0));
    let RevocationStatus::Undetermined { reasons } = all() else {
        panic!("no CRL says anything")
    };
    // the bits 1 to 8 (RFC 5280 4.2.1.13)
    assert_eq!(reasons.bits(), 0x1fe);
    // another key, another name, another signer, too early and too late
    for (crl, signer) in [
        (list(&issuer, LEAF_KEY, MOMENT, &[], None), &issuer),
        (list(&root(), KEY, MOMENT, &[], None), &issuer),
        (by(&[]), &root()),
        (list(&issuer, KEY, MOMENT + 1, &[], None), &issuer),
        (list(&issuer, KEY, MOMENT - 11, &[], None), &issuer),
    ] {
        assert_eq!(status(&[(&crl, signer)]), all());
    }
}

fn faults(crls: &[(&Crl, &Certificate)]) -> Vec<Option<CrlFault>> {
    let crls: Vec<SignedCrl> = crls
        .iter()
        .map(|(crl, signer)| SignedCrl::new(crl.to_ref(), signer.to_ref()))
        .collect();
    let settings = RevocationSettings::new(at(MOMENT));
    crl_faults(leaf().to_ref(), &crls, &settings, &verifies).expect("faults")
}

/// Those of [`one_certificate`] where the status is undetermined, and of two for one scope that of the older one.
#[test]
fn faults_of_crls() {
    let (issuer, root) = (signing(), root());
    let good = list(&issuer, KEY, MOMENT, &[], None);
    assert_eq!(faults(&[]), []);
    let rows = [
        (&good, &issuer, None),
        (
            &list(&issuer, LEAF_KEY, MOMENT, &[], None),
            &issuer,
            Some(CrlFault::Signature),
        ),
        (
            &list(&root, KEY, MOMENT, &[], None),
            &issuer,
            Some(CrlFault::Issuer),
        ),
        (&good, &root, Some(CrlFault::Signer)),
        (
            &list(&issuer, KEY, MOMENT + 1, &[], None),
            &issuer,
            Some(CrlFault::NotYetValid),
        ),
        (
            &list(&issuer, KEY, MOMENT - 11, &[], None),
            &issuer,
            Some(CrlFault::Expired),
        ),
        (
            &list(&issuer, LEAF_KEY, MOMENT - 11, &[], None),
            &issuer,
            Some(CrlFault::Expired),
        ),
    ];
    for (crl, signer, fault) in rows {
        assert_eq!(faults(&[(crl, signer)]), [fault]);
    }
    let all: Vec<(&Crl, &Certificate)> = rows.iter().map(|(crl, by, _)| (*crl, *by)).collect();
    let wanted: Vec<Option<CrlFault>> = rows.iter().map(|(_, _, fault)| *fault).collect();
    assert_eq!(faults(&all), wanted);
    let older = list(&issuer, KEY, MOMENT - 1, &[], None);
    assert_eq!(
        faults(&[(&older, &issuer), (&good, &issuer)]),
        [Some(CrlFault::Replaced), None]
    );
}

/// Of each certificate of a path those of all CRLs.
#[test]
fn faults_along_a_path() {
    let (root, issuer, leaf) = (root(), signing(), leaf());
    let of_root = list(&root, ROOT_KEY, MOMENT, &[], None);
    let of_issuer = list(&issuer, KEY, MOMENT, &[], None);
    let unsigned = list(&root, KEY, MOMENT, &[], None);
    let path = [&issuer, &leaf].map(Certificate::as_der);
    let crls = [&of_root, &of_issuer, &unsigned].map(|it| it.to_ref());
    let settings = PathSettings::new(at(MOMENT));
    let valid = validate_path(root.to_ref(), &path, &settings, &verifies).expect("a path");
    let settings = RevocationSettings::new(at(MOMENT));
    let found = path_crl_faults(&valid, root.to_ref(), &crls, &[], &settings, &verifies);
    let (other, signature) = (Some(CrlFault::Issuer), Some(CrlFault::Signature));
    assert_eq!(
        found,
        Ok(vec![vec![None, other, signature], vec![other, None, other]])
    );
}

#[test]
fn the_place_is_that_among_all() {
    let issuer = signing();
    let (bad, good) = (
        list(&issuer, LEAF_KEY, MOMENT, &[3], None),
        list(&issuer, KEY, MOMENT, &[3], None),
    );
    let given = [(&bad, &issuer), (&bad, &issuer), (&good, &issuer)];
    assert_eq!(status(&given), revoked_by(2));
    assert_eq!(status(&given[1..]), revoked_by(1));
    assert_eq!(status(&given[..2]), all());
}

#[test]
fn some_reasons() {
    let issuer = signing();
    let some = list(&issuer, KEY, MOMENT, &[], Some(ReasonFlags::KEY_COMPROMISE));
    let RevocationStatus::Undetermined { reasons } = status(&[(&some, &issuer)]) else {
        panic!("other reasons are left")
    };
    assert_eq!(reasons.bits(), 0x1fc);
    let whole = list(&issuer, KEY, MOMENT, &[3], None);
    assert_eq!(
        status(&[(&some, &issuer), (&whole, &issuer)]),
        revoked_by(1)
    );
}

#[test]
fn signers() {
    let issuer = signing();
    let crl = list(&issuer, KEY, MOMENT, &[], None);
    let subject = issuer.subject();
    let anchor = TrustAnchor::from_der(issuer.as_der()).expect("an anchor");
    let named = Trusted::NameAndKey {
        name: subject,
        subject_public_key_info: KEY,
    };
    let ask = |signer, moment| {
        let crls = [SignedCrl {
            crl: crl.to_ref(),
            signer,
        }];
        let settings = RevocationSettings::new(moment);
        revocation_status(leaf().to_ref(), &crls, &settings, &verifies)
    };
    for signer in [issuer.to_ref().into(), anchor.into(), named] {
        assert_eq!(ask(signer, at(MOMENT)), Ok(RevocationStatus::Unrevoked));
    }
    let no_key = Trusted::NameAndKey {
        name: subject,
        subject_public_key_info: b"\x30\x00",
    };
    // what isn't verified isn't looked at
    assert_eq!(ask(no_key, at(MOMENT)), Ok(all()));
    let accepts = |_: &[u8], _: &Signature<'_>| true;
    let crls = [SignedCrl {
        crl: crl.to_ref(),
        signer: no_key,
    }];
    let settings = RevocationSettings::new(at(MOMENT));
    let refused = revocation_status(leaf().to_ref(), &crls, &settings, &accepts);
    assert_eq!(refused, Err(Error::Malformed));
    let late = at(253_402_300_800);
    assert_eq!(ask(named, late), Err(Error::Value));
    assert_eq!(
        ask(named, UNIX_EPOCH - Duration::from_secs(1)),
        Err(Error::Value)
    );
    let may_sign = |it: &Certificate| may_sign_crls(it.to_ref());
    assert_eq!(may_sign(&issuer), Ok(true));
    assert_eq!(may_sign(&leaf()), Ok(true));
    assert_eq!(may_sign(&authority(KeyUsage::KEY_CERT_SIGN)), Ok(false));
}

#[test]
fn without_a_next_update() {
    let issuer = signing();
    let lasting = CrlBuilder::new(issuer.to_ref(), b"\x01", at(MOMENT))
        .build(&By(KEY))
        .expect("a CRL");
    let crls = [SignedCrl::new(lasting.to_ref(), issuer.to_ref())];
    let mut settings = RevocationSettings::new(at(MOMENT));
    let certificate = leaf();
    let ask = |settings: &RevocationSettings| {
        revocation_status(certificate.to_ref(), &crls, settings, &verifies)
    };
    assert_eq!(ask(&settings), Ok(all()));
    settings.without_next_update(true);
    assert_eq!(ask(&settings), Ok(RevocationStatus::Unrevoked));
    settings.without_next_update(false);
    assert_eq!(ask(&settings), Ok(all()));
}

#[test]
fn entries_say_more() {
    let issuer = signing();
    let other = name("CN=Other");
    let serial = number(3);
    let mut entry = CrlEntryBuilder::new(serial.to_integer(), at(MOMENT));
    let names = CertificateIssuer(vec![GeneralName::DirectoryName(other.to_ref())]);
    entry
        .add_extension(false, &InvalidityDate(at(MOMENT - 7)))
        .and_then(|it| it.add_extension(true, &names))
        .expect("extensions");
    let mut builder = CrlBuilder::new(issuer.to_ref(), b"\x01", at(MOMENT));
    builder.add_entry_of(&entry).expect("an entry");
    let crl = builder.build(&By(KEY)).expect("a CRL");
    let told = crl.entries().next().expect("one").expect("an entry");
    assert_eq!(told.invalidity_date(), Ok(Some(at(MOMENT - 7))));
    assert_eq!(told.certificate_issuer(), Ok(Some(names)));
    let plain = list(&issuer, KEY, MOMENT, &[3], None);
    let told = plain.entries().next().expect("one").expect("an entry");
    assert_eq!(told.invalidity_date(), Ok(None));
    assert_eq!(told.certificate_issuer(), Ok(None));
}

/// The statuses of the certificates of a path, as letters.
fn letters(path: [&Certificate; 2], crls: &[&Crl], others: &[&Certificate]) -> String {
    let root = root();
    let found = statuses(&root, path, crls, others);
    let letter = |it: &RevocationStatus| match it {
        RevocationStatus::Undetermined { .. } => '?',
        RevocationStatus::Unrevoked => 'u',
        RevocationStatus::Revoked { .. } => 'r',
    };
    found.iter().map(letter).collect()
}

fn statuses(
    root: &Certificate,
    path: [&Certificate; 2],
    crls: &[&Crl],
    others: &[&Certificate],
) -> Vec<RevocationStatus> {
    let path = path.map(Certificate::as_der);
    let crls: Vec<CrlRef> = crls.iter().map(|it| it.to_ref()).collect();
    let others: Vec<CertificateRef> = others.iter().map(|it| it.to_ref()).collect();
    let settings = PathSettings::new(at(MOMENT));
    let valid = validate_path(root.to_ref(), &path, &settings, &verifies).expect("a path");
    let settings = RevocationSettings::new(at(MOMENT));
    path_revocation_statuses(&valid, root.to_ref(), &crls, &others, &settings, &verifies)
        .expect("statuses")
}

#[test]
fn each_by_its_issuer() {
    let (issuer, leaf) = (signing(), leaf());
    let path = [&issuer, &leaf];
    let of_root = |serials: &[u64]| list(&root(), ROOT_KEY, MOMENT, serials, None);
    let of_issuer = |serials: &[u64]| list(&issuer, KEY, MOMENT, serials, None);
    let (root_list, issuer_list) = (of_root(&[]), of_issuer(&[]));
    assert_eq!(letters(path, &[&root_list, &issuer_list], &[]), "uu");
    assert_eq!(letters(path, &[&issuer_list, &root_list], &[]), "uu");
    assert_eq!(letters(path, &[&root_list], &[]), "u?");
    assert_eq!(letters(path, &[&issuer_list], &[]), "?u");
    assert_eq!(letters(path, &[], &[]), "??");
    assert_eq!(letters(path, &[&of_root(&[2]), &issuer_list], &[]), "ru");
    assert_eq!(
        letters(path, &[&of_root(&[3]), &of_issuer(&[2])], &[]),
        "uu"
    );
    let found = statuses(&root(), path, &[&root_list, &of_issuer(&[3])], &[]);
    assert_eq!(found, [RevocationStatus::Unrevoked, revoked_by(1)]);
    // the latest is asked first
    let older = list(&issuer, KEY, MOMENT - 1, &[3], None);
    for crls in [[&older, &issuer_list], [&issuer_list, &older]] {
        assert_eq!(letters(path, &crls, &[]), "?u");
    }
}

#[test]
fn a_further_certificate_signs() {
    let (issuer, leaf) = (authority(KeyUsage::KEY_CERT_SIGN), leaf());
    let path = [&issuer, &leaf];
    let of_root = |serials: &[u64]| list(&root(), ROOT_KEY, MOMENT, serials, None);
    let (root_list, other) = (of_root(&[]), list(&issuer, LIST_KEY, MOMENT, &[], None));
    let signer = list_signer(5, "CN=Root", ROOT_KEY);
    assert_eq!(letters(path, &[&root_list, &other], &[&signer]), "uu");
    assert_eq!(
        letters(path, &[&root_list, &other], &[&leaf, &signer]),
        "uu"
    );
    assert_eq!(letters(path, &[&root_list, &other], &[]), "u?");
    assert_eq!(letters(path, &[&other], &[&signer]), "??");
    assert_eq!(letters(path, &[&of_root(&[5]), &other], &[&signer]), "u?");
    // the key that signs certificates may not sign CRLs
    let own = list(&issuer, KEY, MOMENT, &[], None);
    assert_eq!(letters(path, &[&root_list, &own], &[&signer]), "u?");
    // of another root, and of no authority
    let stranger = list_signer(5, "CN=Root", LEAF_KEY);
    let below = list_signer(5, "CN=S", LEAF_KEY);
    assert_eq!(
        letters(path, &[&root_list, &other], &[&stranger, &below]),
        "u?"
    );
    // whose status its own CRL tells
    let by_issuer = list_signer(7, "CN=A", KEY);
    assert_eq!(letters(path, &[&root_list, &other], &[&by_issuer]), "uu");
    let revokes_it = list(&issuer, LIST_KEY, MOMENT, &[7], None);
    assert_eq!(
        letters(path, &[&root_list, &revokes_it], &[&by_issuer]),
        "u?"
    );
}

/// A signer whose status its own CRL tells, and one below it that is told by the first alone: each is asked for the CRL of the other.
#[test]
fn signers_in_a_circle() {
    let (issuer, leaf) = (authority(KeyUsage::KEY_CERT_SIGN), leaf());
    let path = [&issuer, &leaf];
    let signs = Some(KeyUsage::CRL_SIGN);
    let top = certificate(8, ("CN=Root", ROOT_KEY), ("CN=Root", TOP_KEY), false, signs);
    let below = list_signer(9, "CN=Root", ROOT_KEY);
    let of_top = |serials: &[u64]| list(&top, TOP_KEY, MOMENT, serials, None);
    let of_below = |serials: &[u64]| list(&issuer, LIST_KEY, MOMENT, serials, None);
    for (by_top, by_below, states) in [
        (of_top(&[]), of_below(&[]), "uu"),
        (of_top(&[2]), of_below(&[]), "ru"),
        (of_top(&[9]), of_below(&[]), "u?"),
        (of_top(&[8]), of_below(&[]), "??"),
        (of_top(&[]), of_below(&[3]), "ur"),
    ] {
        for crls in [[&by_top, &by_below], [&by_below, &by_top]] {
            for others in [[&top, &below], [&below, &top]] {
                assert_eq!(letters(path, &crls, &others), states);
            }
        }
    }
}

#[test]
fn many_certificates_end() {
    let (issuer, leaf) = (authority(KeyUsage::KEY_CERT_SIGN), leaf());
    let mut crowd: Vec<Certificate> = (20..32)
        .map(|serial| {
            let crowd = ("CN=Crowd", LIST_KEY);
            certificate(serial, crowd, crowd, true, None)
        })
        .collect();
    crowd.push(list_signer(40, "CN=Crowd", LIST_KEY));
    let crowd: Vec<&Certificate> = crowd.iter().collect();
    let crls = [
        &list(&root(), ROOT_KEY, MOMENT, &[], None),
        &list(&issuer, LIST_KEY, MOMENT, &[], None),
    ];
    assert_eq!(letters([&issuer, &leaf], &crls, &crowd), "u?");
}

/// Whether the path is valid at the moment, topmost certificate first, and none of its certificates revoked. Others may sign CRLs too.
fn is_good(
    anchor: CertificateRef,
    path: &[&[u8]],
    crls: &[CrlRef],
    others: &[CertificateRef],
    moment: SystemTime,
    verifier: &impl Verifier,
) -> Result<bool, Error> {
    let valid = match validate_path(anchor, path, &PathSettings::new(moment), verifier) {
        Ok(valid) => valid,
        Err(PathError::Fault(_)) => return Ok(false),
        Err(PathError::Refused(error)) => return Err(error),
    };
    let settings = RevocationSettings::new(moment);
    let statuses = path_revocation_statuses(&valid, anchor, crls, others, &settings, verifier)?;
    Ok(statuses.iter().all(RevocationStatus::is_unrevoked))
}

#[test]
fn a_path_with_its_crls() {
    let (root, issuer, leaf) = (root(), signing(), leaf());
    let (one, two) = (
        list(&root, ROOT_KEY, MOMENT, &[], None),
        list(&issuer, KEY, MOMENT, &[], None),
    );
    let path = [issuer.as_der(), leaf.as_der()];
    let crls = [one.to_ref(), two.to_ref()];
    let anchor = root.to_ref();
    let ask = |crls: &[CrlRef], moment| is_good(anchor, &path, crls, &[], moment, &verifies);
    assert_eq!(ask(&crls, at(MOMENT)), Ok(true));
    assert_eq!(ask(&crls[..1], at(MOMENT)), Ok(false));
    assert_eq!(ask(&crls, at(MOMENT + 11)), Ok(false));
    assert_eq!(ask(&crls, at(253_402_300_800)), Err(Error::Value));
}
