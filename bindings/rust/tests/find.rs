//! Paths that are found over certificates in any order, and servers that are verified: of certificates and CRLs that are built here, whose signature is the
//! number of the key that made it.
use std::cell::RefCell;
use std::convert::Infallible;
use std::ops::RangeInclusive;
use std::time::{Duration, SystemTime, UNIX_EPOCH};
use x509_rattle::extension::{
    BaseCrlNumber, BasicConstraints, CertificateIssuer, CrlDistributionPoints, CrlReason,
    DistributionPoint, ExtendedKeyUsage, IssuingDistributionPoint, SubjectAltName, ToExtension,
};
use x509_rattle::{
    find_path, find_unrevoked_path, oid, path_revocation_statuses, validate_path, verify_server,
    Certificate, CertificateBuilder, CertificateRef, Crl, CrlBuilder, CrlEntryBuilder, CrlRef,
    Error, FaultReason, FindError, FoundPath, GeneralName, Name, OutOfDate, PathFault,
    PathSettings, RevocationCheck, RevocationScope, RevocationSettings, RevocationStatus,
    SearchLimits, SerialNumber, ServerName, Signature, Signer, Store, Validity, Verifier,
    VerifyError, VerifySettings,
};

// an AlgorithmIdentifier of Ed25519 (RFC 8410 3)
const ED25519: &[u8] = b"\x30\x05\x06\x03\x2b\x65\x70";
const MOMENT: u64 = 1_893_456_000;

/// A key, whose bits are its number (RFC 8410 4).
fn key(number: u8) -> Vec<u8> {
    let mut key = b"\x30\x0b\x30\x05\x06\x03\x2b\x65\x70\x03\x02\x00".to_vec();
    key.push(number);
    key
}

struct By(Vec<u8>);

impl Signer for By {
    type Error = Infallible;

    fn algorithm(&self) -> &[u8] {
        ED25519
    }

    fn subject_public_key_info(&self) -> &[u8] {
        &self.0
    }

    fn sign(&self, _: &[u8]) -> Result<Vec<u8>, Infallible> {
        Ok(self.0[self.0.len() - 1..].to_vec())
    }
}

fn is_by(key: &[u8], signature: &Signature<'_>) -> bool {
    key.last() == signature.bits.first()
}

fn at(seconds: u64) -> SystemTime {
    UNIX_EPOCH + Duration::from_secs(seconds)
}

fn settings() -> PathSettings {
    PathSettings::new(at(MOMENT))
}

fn number(number: u8) -> SerialNumber {
    SerialNumber::try_from(u64::from(number)).expect("a number")
}

/// A certificate of an authority, or of a server, by the numbers of both keys.
fn issued(
    serial: u8,
    (issuer, by): (&str, u8),
    (subject, of): (&str, u8),
    valid: RangeInclusive<u64>,
    host: Option<&str>,
) -> Vec<u8> {
    let name = |text: &str| -> Name { text.parse().expect("a name") };
    let validity = Validity {
        not_before: at(*valid.start()),
        not_after: at(*valid.end()),
    };
    let serial = number(serial);
    let (issuer, subject, key) = (name(issuer), name(subject), key(of));
    let mut builder = CertificateBuilder::new(serial, &issuer, validity, &subject, &key);
    let mut add = |oid, value: &dyn ToExtension| {
        let der = value.to_der().expect("a value");
        builder
            .add_extension_der(oid, true, &der)
            .expect("an extension");
    };
    match host {
        None => add(
            oid::extension::BASIC_CONSTRAINTS,
            &BasicConstraints {
                ca: true,
                path_len_constraint: None,
            },
        ),
        Some(host) => {
            add(
                oid::extension::SUBJECT_ALT_NAME,
                &SubjectAltName(vec![GeneralName::DnsName(host)]),
            );
            add(
                oid::extension::EXTENDED_KEY_USAGE,
                &ExtendedKeyUsage(vec![oid::purpose::SERVER_AUTH]),
            );
        }
    }
    let built: Certificate = builder.build(&By(self::key(by))).expect("a certificate");
    built.as_der().to_vec()
}

/// The same whose serial number is that of its key, up to a moment.
fn made(issuer: &str, by: u8, subject: &str, of: u8, ends: u64, host: Option<&str>) -> Vec<u8> {
    issued(of, (issuer, by), (subject, of), MOMENT - 9..=ends, host)
}

fn authority(issuer: &str, by: u8, subject: &str, number: u8) -> Vec<u8> {
    made(issuer, by, subject, number, MOMENT, None)
}

fn read(der: &[u8]) -> CertificateRef<'_> {
    CertificateRef::from_der(der).expect("a certificate")
}

const HOST: &str = "www.example.org";

struct Given {
    root: Vec<u8>,
    upper: Vec<u8>,
    lower: Vec<u8>,
    server: Vec<u8>,
}

fn given() -> Given {
    Given {
        root: authority("CN=Root", 1, "CN=Root", 1),
        upper: authority("CN=Root", 1, "CN=Upper", 2),
        lower: authority("CN=Upper", 2, "CN=Lower", 3),
        server: made("CN=Lower", 3, "CN=Server", 4, MOMENT, Some(HOST)),
    }
}

fn asked() -> PathSettings {
    let mut settings = settings();
    settings.purposes(&[oid::purpose::SERVER_AUTH]);
    settings
}

#[test]
fn any_order_and_more_than_are_needed() {
    let it = given();
    // another key of that name, which the root doesn't know, and one that issues itself
    let other = authority("CN=Other", 9, "CN=Upper", 2);
    let own = authority("CN=Upper", 2, "CN=Upper", 2);
    let all = [&it.server, &own, &it.lower, &other, &it.upper];
    for turn in 0..all.len() {
        let mut candidates = all.map(Vec::as_slice).to_vec();
        candidates.rotate_left(turn);
        let limits = SearchLimits::default();
        let found = find_path(
            &[read(&it.root)],
            &candidates,
            &it.server,
            &asked(),
            &limits,
            &is_by,
        );
        let found = found.expect("a path");
        assert_eq!(found.anchor.as_der(), it.root);
        let path: Vec<&[u8]> = found
            .validated
            .certificates()
            .iter()
            .map(|it| it.as_der())
            .collect();
        assert_eq!(path, [&it.upper[..], &it.lower, &it.server]);
    }
}

#[test]
fn a_signature_that_does_not_hold() {
    let it = given();
    // of the same names, but signed by another key
    let false_upper = made("CN=Root", 7, "CN=Upper", 2, MOMENT + 1, None);
    let candidates = [&false_upper[..], &it.upper, &it.lower];
    let count = RefCell::new(Vec::new());
    let verifier = |key: &[u8], signature: &Signature<'_>| {
        let asked = (key.to_vec(), signature.signed_part.to_vec());
        assert!(!count.borrow().contains(&asked), "asked twice");
        count.borrow_mut().push(asked);
        is_by(key, signature)
    };
    let limits = SearchLimits::default();
    let anchors = [read(&it.root)];
    let found = find_path(
        &anchors,
        &candidates,
        &it.server,
        &asked(),
        &limits,
        &verifier,
    );
    assert_eq!(
        found.expect("a path").validated.certificates()[0].as_der(),
        it.upper
    );
    let candidates = [&false_upper[..], &it.lower];
    match find_path(&anchors, &candidates, &it.server, &asked(), &limits, &is_by) {
        Err(FindError::Refused {
            anchor,
            candidates,
            fault,
        }) => {
            let wanted = PathFault {
                place: 0,
                reason: FaultReason::Signature,
            };
            assert_eq!((anchor, candidates, fault), (0, vec![0, 1], wanted));
        }
        other => panic!("{other:?}"),
    }
}

fn refusal(anchors: &[CertificateRef<'_>], candidates: &[&[u8]], server: &[u8]) -> FindError {
    let limits = SearchLimits::default();
    let found = find_path(anchors, candidates, server, &asked(), &limits, &is_by);
    found.expect_err("no path")
}

#[test]
fn where_there_is_none() {
    let it = given();
    let anchors = [read(&it.root)];
    let (upper, lower, server) = (&it.upper[..], &it.lower[..], &it.server[..]);
    assert_eq!(
        refusal(&anchors, &[upper], server),
        FindError::UnknownIssuer
    );
    assert_eq!(
        refusal(&[], &[upper, lower], server),
        FindError::UnknownIssuer
    );
    let late = made("CN=Root", 1, "CN=Upper", 2, MOMENT - 1, None);
    let fault = PathFault {
        place: 0,
        reason: FaultReason::Moment,
    };
    let wanted = FindError::Refused {
        anchor: 0,
        candidates: vec![1, 0],
        fault,
    };
    assert_eq!(refusal(&anchors, &[lower, &late], server), wanted);
    assert_eq!(
        refusal(&anchors, &[upper, lower], b""),
        FindError::Error(Error::Malformed)
    );
    // a candidate that is no certificate
    let limits = SearchLimits::default();
    let candidates = [b"", upper, b"\x30\x00", lower];
    find_path(&anchors, &candidates, server, &asked(), &limits, &is_by).expect("a path");
}

#[test]
fn limits() {
    let it = given();
    let anchors = [read(&it.root)];
    let candidates = [&it.upper, &it.lower];
    let with = |max_depth, max_signatures| {
        let limits = SearchLimits {
            max_depth,
            max_signatures,
        };
        find_path(&anchors, &candidates, &it.server, &asked(), &limits, &is_by).map(|_| ())
    };
    assert!(with(2, 3).is_ok());
    assert!(matches!(with(1, 3), Err(FindError::UnknownIssuer)));
    assert!(matches!(with(2, 2), Err(FindError::Limit)));
}

/// How many certificates the path has to a server whose certificate is valid at these moments, and those above from nine seconds before to nine behind.
fn verified(host: &str, moment: u64, valid: RangeInclusive<u64>) -> Result<usize, VerifyError> {
    let ends = MOMENT + 9;
    let root = made("CN=Root", 1, "CN=Root", 1, ends, None);
    let upper = made("CN=Root", 1, "CN=Upper", 2, ends, None);
    let lower = made("CN=Upper", 2, "CN=Lower", 3, ends, None);
    let server = issued(4, ("CN=Lower", 3), ("CN=Server", 4), valid, Some(HOST));
    let store = Store::new([read(&root)]);
    let name: ServerName = host.parse().expect("a name");
    let intermediates = [&lower, &upper];
    let found = verify_server(&store, &server, &intermediates, &name, at(moment), &is_by);
    found.map(|it| it.validated.certificates().len())
}

#[test]
fn servers() {
    let valid = || MOMENT - 1..=MOMENT + 1;
    assert_eq!(verified(HOST, MOMENT, valid()), Ok(3));
    assert_eq!(verified("WWW.example.org.", MOMENT, valid()), Ok(3));
    let other = verified("example.org", MOMENT, valid());
    assert_eq!(other, Err(VerifyError::OtherName));
    for (moment, side, text) in [
        (
            MOMENT + 2,
            OutOfDate::Expired,
            "the certificate has expired",
        ),
        (
            MOMENT - 2,
            OutOfDate::NotYetValid,
            "the certificate isn't valid yet",
        ),
    ] {
        let error = verified(HOST, moment, valid()).expect_err("a fault");
        assert_eq!(error, VerifyError::OutOfDate(side));
        assert_eq!(error.to_string(), text);
    }
    // an authority above that has expired
    match verified(HOST, MOMENT + 10, MOMENT..=MOMENT + 10) {
        Err(VerifyError::Path(FindError::Refused { fault, .. })) => {
            let wanted = PathFault {
                place: 0,
                reason: FaultReason::Moment,
            };
            assert_eq!(fault, wanted);
        }
        other => panic!("{other:?}"),
    }
    let it = given();
    let name: ServerName = HOST.parse().expect("a name");
    let store = Store::new([read(&it.root)]);
    let none: [&[u8]; 0] = [];
    assert!(matches!(
        verify_server(&store, b"", &none, &name, at(MOMENT), &is_by),
        Err(VerifyError::Path(FindError::Error(Error::Malformed)))
    ));
}

/// Of a certificate for servers that is asked for another purpose.
#[test]
fn a_fault_of_the_certificate_itself() {
    let it = given();
    let mut asked = settings();
    asked.purposes(&[oid::purpose::CLIENT_AUTH]);
    let limits = SearchLimits::default();
    let candidates = [&it.upper, &it.lower];
    let anchors = [read(&it.root)];
    let found = find_path(&anchors, &candidates, &it.server, &asked, &limits, &is_by);
    let error = found.expect_err("no path");
    assert_eq!(error, FindError::Leaf(FaultReason::Purpose));
    let none = find_path(&[], &candidates, &it.server, &asked, &limits, &is_by);
    assert_eq!(none.expect_err("no path"), error);
}

/// A CRL of that name by the key of that number, with these serial numbers.
fn crl(issuer: &str, by: u8, serials: &[u8]) -> Crl {
    list(issuer, by, 1, None, serials)
}

/// The same with a number, and perhaps as a delta CRL upon that of another number.
fn list(issuer: &str, by: u8, own: u8, base: Option<u8>, serials: &[u8]) -> Crl {
    let issuer = authority(issuer, by, issuer, by);
    let mut builder = CrlBuilder::new(read(&issuer), &[own], at(MOMENT - 5));
    builder.next_update(at(MOMENT + 5));
    for serial in serials {
        let (serial, reason) = (number(*serial), Some(CrlReason::KeyCompromise));
        builder
            .add_entry(serial.to_integer(), at(MOMENT - 6), reason)
            .expect("an entry");
    }
    if let Some(base) = base {
        let base = number(base);
        builder
            .add_extension(true, &BaseCrlNumber(base.to_integer()))
            .expect("an extension");
    }
    builder.build(&By(key(by))).expect("a CRL")
}

/// What [`list`] says of a certificate of the CRL at that place.
fn revoked(crl: usize) -> RevocationStatus {
    RevocationStatus::Revoked {
        crl,
        date: at(MOMENT - 6),
        reason: CrlReason::KeyCompromise,
    }
}

fn check<'r>(crls: &'r [CrlRef<'r>]) -> RevocationCheck<'r> {
    RevocationCheck::new(crls, RevocationSettings::new(at(MOMENT)))
}

fn refs(crls: &[Crl]) -> Vec<CrlRef<'_>> {
    crls.iter().map(Crl::to_ref).collect()
}

/// The path to the server that is found where that is asked, by its certificates, its anchor in front.
fn unrevoked<'a>(
    anchors: &[&'a [u8]],
    candidates: &'a [&'a [u8]],
    server: &'a [u8],
    check: &RevocationCheck<'_>,
    verifier: &impl Verifier,
) -> Result<Vec<&'a [u8]>, FindError> {
    let anchors: Vec<CertificateRef<'a>> = anchors.iter().map(|it| read(it)).collect();
    let (asked, limits) = (asked(), SearchLimits::default());
    let found = find_unrevoked_path(
        &anchors, candidates, server, &asked, &limits, check, verifier,
    )?;
    let mut path = vec![found.anchor.as_der()];
    path.extend(found.validated.certificates().iter().map(|it| it.as_der()));
    Ok(path)
}

/// By which certificate the path of root, upper, lower and server is ruled out.
fn ruled_out(check: &RevocationCheck<'_>) -> Option<(usize, RevocationStatus)> {
    let it = given();
    let candidates = [&it.lower[..], &it.upper];
    match unrevoked(&[&it.root], &candidates, &it.server, check, &is_by) {
        Ok(path) => {
            assert_eq!(path, [&it.root[..], &it.upper, &it.lower, &it.server]);
            None
        }
        Err(FindError::Revocation {
            anchor: 0,
            candidates,
            place,
            status,
        }) if candidates == [1, 0] => Some((place, status)),
        Err(error) => panic!("{error:?}"),
    }
}

#[test]
fn certificates_that_are_revoked() {
    let of = |root: &[u8], upper: &[u8], lower: &[u8]| {
        let crls = [
            crl("CN=Root", 1, root),
            crl("CN=Upper", 2, upper),
            crl("CN=Lower", 3, lower),
        ];
        ruled_out(&check(&refs(&crls)))
    };
    assert_eq!(of(&[], &[], &[]), None);
    // those of other authorities, which have the same numbers
    assert_eq!(of(&[3, 4], &[2, 4], &[2, 3]), None);
    assert_eq!(of(&[], &[], &[4]), Some((2, revoked(2))));
    assert_eq!(of(&[], &[3], &[]), Some((1, revoked(1))));
    assert_eq!(of(&[2], &[], &[]), Some((0, revoked(0))));
    // of several the topmost
    assert_eq!(of(&[], &[3], &[4]), Some((1, revoked(1))));
}

/// That no CRL speaks of it for any reason.
fn is_undetermined(found: Option<(usize, RevocationStatus)>, wanted: usize) -> bool {
    match found {
        Some((place, RevocationStatus::Undetermined { reasons })) => {
            // the bits 1 to 8 (RFC 5280 4.2.1.13)
            (place, reasons.bits()) == (wanted, 0x1fe)
        }
        _ => false,
    }
}

#[test]
fn statuses_that_are_not_known() {
    assert!(is_undetermined(ruled_out(&check(&[])), 0));
    let crls = [crl("CN=Root", 1, &[]), crl("CN=Lower", 3, &[])];
    let crls = refs(&crls);
    let mut asked = check(&crls);
    assert!(is_undetermined(ruled_out(&asked), 1));
    asked.allow_undetermined(true);
    assert_eq!(ruled_out(&asked), None);
    // the last alone
    asked.allow_undetermined(false).scope(RevocationScope::Leaf);
    assert_eq!(ruled_out(&asked), None);
    let of_root = [crl("CN=Root", 1, &[2])];
    let of_root = refs(&of_root);
    let mut asked = check(&of_root);
    asked.scope(RevocationScope::Leaf);
    assert!(is_undetermined(ruled_out(&asked), 2));
    asked.allow_undetermined(true);
    assert_eq!(ruled_out(&asked), None);
    // who is revoked isn't let through
    asked.scope(RevocationScope::Path);
    assert_eq!(ruled_out(&asked), Some((0, revoked(0))));
    // signed by another key, and out of date
    let others = [crl("CN=Root", 7, &[2])];
    assert!(is_undetermined(ruled_out(&check(&refs(&others))), 0));
    let late = RevocationSettings::new(at(MOMENT + 6));
    let late = RevocationCheck::new(&of_root, late);
    assert!(is_undetermined(ruled_out(&late), 0));
}

#[test]
fn what_a_refusal_says() {
    let text = |status| {
        let error = FindError::Revocation {
            anchor: 0,
            candidates: vec![1, 0],
            place: 2,
            status,
        };
        error.to_string()
    };
    assert_eq!(text(revoked(0)), "certificate 2 is revoked");
    let found = ruled_out(&check(&[])).expect("a place");
    let unknown = "whether certificate 2 is revoked isn't known";
    assert_eq!(text(found.1), unknown);
    let leaf = FindError::Leaf(FaultReason::Repeated);
    assert_eq!(leaf.to_string(), "the certificate has an extension twice");
}

#[test]
fn paths_round_an_authority_that_is_revoked() {
    let it = given();
    let second = authority("CN=Second", 5, "CN=Second", 5);
    let crossed = authority("CN=Second", 5, "CN=Upper", 2);
    // the same key certified anew, with another serial number
    let valid = MOMENT - 9..=MOMENT;
    let again = issued(9, ("CN=Root", 1), ("CN=Upper", 2), valid, None);
    let other = authority("CN=Root", 1, "CN=Other", 6);
    let longer = authority("CN=Other", 6, "CN=Upper", 2);
    let crls = [
        crl("CN=Root", 1, &[2]),
        crl("CN=Upper", 2, &[]),
        crl("CN=Lower", 3, &[]),
        crl("CN=Second", 5, &[]),
        crl("CN=Other", 6, &[]),
    ];
    let crls = refs(&crls);
    let anchors = [&it.root[..], &second];
    for (more, wanted) in [
        (&[&crossed[..]][..], &[&second[..], &crossed][..]),
        (&[&again], &[&it.root, &again]),
        (&[&other, &longer], &[&it.root, &other, &longer]),
        // of these the shorter one
        (&[&other, &again, &longer], &[&it.root, &again]),
    ] {
        let mut candidates = [&[&it.upper[..], &it.lower], more].concat();
        for _ in 0..candidates.len() {
            candidates.rotate_left(1);
            let found = unrevoked(&anchors, &candidates, &it.server, &check(&crls), &is_by);
            let wanted = [wanted, &[&it.lower, &it.server]].concat();
            assert_eq!(found, Ok(wanted));
        }
    }
}

#[test]
fn the_path_that_was_found_last() {
    let it = given();
    let other = authority("CN=Root", 1, "CN=Other", 6);
    let longer = authority("CN=Other", 6, "CN=Upper", 2);
    let candidates = [&it.upper[..], &it.lower, &longer, &other];
    let mut crls = vec![
        crl("CN=Root", 1, &[2]),
        crl("CN=Upper", 2, &[]),
        crl("CN=Lower", 3, &[]),
        crl("CN=Other", 6, &[2]),
    ];
    let find = |crls: &[Crl]| {
        let crls = refs(crls);
        unrevoked(&[&it.root], &candidates, &it.server, &check(&crls), &is_by).map(|_| ())
    };
    let wanted = FindError::Revocation {
        anchor: 0,
        candidates: vec![3, 2, 1],
        place: 1,
        status: revoked(3),
    };
    assert_eq!(find(&crls), Err(wanted));
    crls.truncate(3);
    match find(&crls) {
        Err(FindError::Revocation {
            candidates,
            place: 1,
            status: RevocationStatus::Undetermined { .. },
            ..
        }) => assert_eq!(candidates, [3, 2, 1]),
        other => panic!("{other:?}"),
    }
}

#[test]
fn signatures_are_verified_once() {
    let it = given();
    let other = authority("CN=Root", 1, "CN=Other", 6);
    let longer = authority("CN=Other", 6, "CN=Upper", 2);
    let candidates = [&it.upper[..], &it.lower, &longer, &other];
    let crls = [
        crl("CN=Root", 1, &[2]),
        crl("CN=Upper", 2, &[]),
        crl("CN=Lower", 3, &[]),
        crl("CN=Other", 6, &[]),
    ];
    let crls = refs(&crls);
    let verify = |max_signatures| {
        let seen = RefCell::new(Vec::new());
        let verifier = |key: &[u8], signature: &Signature<'_>| {
            let asked = (key.to_vec(), signature.signed_part.to_vec());
            assert!(!seen.borrow().contains(&asked), "asked twice");
            seen.borrow_mut().push(asked);
            is_by(key, signature)
        };
        let limits = SearchLimits {
            max_depth: 3,
            max_signatures,
        };
        let found = find_unrevoked_path(
            &[read(&it.root)],
            &candidates,
            &it.server,
            &asked(),
            &limits,
            &check(&crls),
            &verifier,
        );
        found.map(|_| seen.borrow().len())
    };
    // of five certificates, and of four CRLs
    assert_eq!(verify(5), Ok(9));
    assert_eq!(verify(4), Err(FindError::Limit));
}

#[test]
fn a_further_certificate_signs_crls() {
    let further = authority("CN=Upper", 2, "CN=Lower", 7);
    let further = [read(&further)];
    let crls = [crl("CN=Upper", 2, &[]), crl("CN=Lower", 7, &[4])];
    let crls = refs(&crls);
    let mut asked = check(&crls);
    asked.scope(RevocationScope::Leaf);
    assert!(is_undetermined(ruled_out(&asked), 2));
    asked.certificates(&further);
    assert_eq!(ruled_out(&asked), Some((2, revoked(1))));
    // who is revoked signs none that counts
    let crls = [crl("CN=Upper", 2, &[7]), crl("CN=Lower", 7, &[4])];
    let crls = refs(&crls);
    let mut asked = check(&crls);
    asked.scope(RevocationScope::Leaf).certificates(&further);
    assert!(is_undetermined(ruled_out(&asked), 2));
}

#[test]
fn delta_crls() {
    let crls = [
        list("CN=Lower", 3, 1, None, &[]),
        list("CN=Lower", 3, 2, Some(1), &[4]),
    ];
    let crls = refs(&crls);
    let mut settings = RevocationSettings::new(at(MOMENT));
    let mut asked = RevocationCheck::new(&crls, settings.clone());
    assert_eq!(ruled_out(asked.scope(RevocationScope::Leaf)), None);
    let mut asked = RevocationCheck::new(&crls, settings.use_deltas(true).clone());
    let found = ruled_out(asked.scope(RevocationScope::Leaf));
    assert_eq!(found, Some((2, revoked(1))));
}

/// A certificate of the server of [`given`] with a distribution point whose CRLs another issues (RFC 5280 4.2.1.13).
fn with_crl_issuer(issuer: &Name) -> Vec<u8> {
    let name = |text: &str| -> Name { text.parse().expect("a name") };
    let (lower, server, key) = (name("CN=Lower"), name("CN=Server"), key(4));
    let validity = Validity {
        not_before: at(MOMENT - 9),
        not_after: at(MOMENT),
    };
    let point = DistributionPoint {
        distribution_point: None,
        reasons: None,
        crl_issuer: Some(vec![GeneralName::DirectoryName(issuer.to_ref())]),
    };
    let mut builder = CertificateBuilder::new(number(4), &lower, validity, &server, &key);
    let points = builder.add_extension(false, &CrlDistributionPoints(vec![point]));
    points.expect("an extension");
    let purposes = ExtendedKeyUsage(vec![oid::purpose::SERVER_AUTH]);
    builder
        .add_extension(true, &purposes)
        .expect("an extension");
    let built: Certificate = builder.build(&By(self::key(3))).expect("a certificate");
    built.as_der().to_vec()
}

#[test]
fn an_indirect_crl() {
    let it = given();
    let lists: Name = "CN=Lists".parse().expect("a name");
    let lower: Name = "CN=Lower".parse().expect("a name");
    let server = with_crl_issuer(&lists);
    let signer = authority("CN=Root", 1, "CN=Lists", 8);
    let point = IssuingDistributionPoint {
        distribution_point: None,
        only_contains_user_certs: false,
        only_contains_ca_certs: false,
        only_some_reasons: None,
        indirect_crl: true,
        only_contains_attribute_certs: false,
    };
    let indirect = |serial: u8| {
        let issuer = authority("CN=Lists", 8, "CN=Lists", 8);
        let mut builder = CrlBuilder::new(read(&issuer), b"\x01", at(MOMENT - 5));
        builder.next_update(at(MOMENT + 5));
        let serial = number(serial);
        let mut entry = CrlEntryBuilder::new(serial.to_integer(), at(MOMENT - 6));
        entry
            .add_extension(false, &CrlReason::KeyCompromise)
            .expect("an extension");
        let names = CertificateIssuer(vec![GeneralName::DirectoryName(lower.to_ref())]);
        entry.add_extension(true, &names).expect("an extension");
        builder.add_entry_of(&entry).expect("an entry");
        builder.add_extension(true, &point).expect("an extension");
        builder.build(&By(key(8))).expect("a CRL")
    };
    let candidates = [&it.upper[..], &it.lower];
    let find = |serial, certificates: &[CertificateRef<'_>]| {
        let crls = [crl("CN=Root", 1, &[]), indirect(serial)];
        let crls = refs(&crls);
        let mut asked = check(&crls);
        asked.scope(RevocationScope::Leaf);
        asked.certificates(certificates);
        unrevoked(&[&it.root], &candidates, &server, &asked, &is_by).map(|it| it.len())
    };
    let signers = [read(&signer)];
    let refused = |status| FindError::Revocation {
        anchor: 0,
        candidates: vec![0, 1],
        place: 2,
        status,
    };
    assert_eq!(find(5, &signers), Ok(4));
    assert_eq!(find(4, &signers), Err(refused(revoked(1))));
    match find(5, &[]) {
        Err(FindError::Revocation { place, status, .. }) => {
            assert!(is_undetermined(Some((place, status)), 2))
        }
        other => panic!("{other:?}"),
    }
}

#[test]
fn a_server_and_its_crls() {
    let it = given();
    let store = Store::new([read(&it.root)]);
    let intermediates = [&it.lower, &it.upper];
    let name: ServerName = HOST.parse().expect("a name");
    let verify = |settings: &VerifySettings<'_>| {
        let found = verify_server(&store, &it.server, &intermediates, &name, settings, &is_by);
        found.map(|it| it.validated.certificates().len())
    };
    let mut settings = VerifySettings::new(at(MOMENT));
    assert_eq!(verify(&settings), Ok(3));
    let mut asked = check(&[]);
    settings.revocation(&asked);
    assert!(matches!(
        verify(&settings),
        Err(VerifyError::Path(FindError::Revocation { place: 0, .. }))
    ));
    settings.revocation(asked.allow_undetermined(true));
    assert_eq!(verify(&settings), Ok(3));
    let crls = [crl("CN=Lower", 3, &[4])];
    let crls = refs(&crls);
    let mut asked = check(&crls);
    settings.revocation(asked.scope(RevocationScope::Leaf));
    let error = verify(&settings).expect_err("a revoked one");
    assert_eq!(error.to_string(), "certificate 2 is revoked");
    let early = RevocationSettings::new(UNIX_EPOCH - Duration::from_secs(1));
    settings.revocation(&RevocationCheck::new(&crls, early));
    let wanted = VerifyError::Path(FindError::Error(Error::Value));
    assert_eq!(verify(&settings), Err(wanted));
    let mut settings = VerifySettings::new(at(MOMENT));
    settings.limits(SearchLimits {
        max_depth: 2,
        max_signatures: 2,
    });
    let wanted = VerifyError::Path(FindError::Limit);
    assert_eq!(verify(&settings), Err(wanted));
}

/// The path to the certificate of a server, the first that it sent, where it is to be trusted; else the error says why it isn't.
fn path_to<'a>(
    name: &ServerName,
    sent: &'a [Vec<u8>],
    roots: &Store<'a>,
    crls: &[CrlRef],
    moment: SystemTime,
    verifier: &impl Verifier,
) -> Result<FoundPath<'a>, VerifyError> {
    let (certificate, intermediates) = sent.split_first().ok_or(Error::Absent)?;
    let check = RevocationCheck::new(crls, RevocationSettings::new(moment));
    let mut settings = VerifySettings::new(moment);
    settings.revocation(&check);
    verify_server(roots, certificate, intermediates, name, &settings, verifier)
}

#[test]
fn one_call() {
    let it = given();
    let store = Store::new([read(&it.root)]);
    let sent = [it.server.clone(), it.lower.clone(), it.upper.clone()];
    let name: ServerName = HOST.parse().expect("a name");
    let crls = |serials: &[u8]| {
        [
            crl("CN=Root", 1, &[]),
            crl("CN=Upper", 2, &[]),
            crl("CN=Lower", 3, serials),
        ]
    };
    let path = |sent, serials| {
        let crls = crls(serials);
        path_to(&name, sent, &store, &refs(&crls), at(MOMENT), &is_by)
            .map(|it| it.validated.certificates().len())
    };
    assert_eq!(path(&sent, &[]), Ok(3));
    let revoked = FindError::Revocation {
        anchor: 0,
        candidates: vec![1, 0],
        place: 2,
        status: revoked(2),
    };
    assert_eq!(path(&sent, &[4]), Err(VerifyError::Path(revoked)));
    assert_eq!(path(&[], &[]), Err(Error::Absent.into()));
}

/// Numbers that look random, the same each time.
struct Dice(u64);

impl Dice {
    fn below(&mut self, end: u64) -> u64 {
        self.0 = self
            .0
            .wrapping_mul(6_364_136_223_846_793_005)
            .wrapping_add(1);
        (self.0 >> 33) % end
    }

    fn is_one_in(&mut self, end: u64) -> bool {
        self.below(end) == 0
    }
}

const NAMES: [&str; 5] = ["CN=0", "CN=1", "CN=2", "CN=3", "CN=4"];

/// Authorities, each with one key, that certify each other in any way, and a server of one of them.
struct Forest {
    anchors: Vec<Vec<u8>>,
    candidates: Vec<Vec<u8>>,
    server: Vec<u8>,
    crls: Vec<Crl>,
}

impl Forest {
    fn of(dice: &mut Dice) -> Forest {
        let party = |number: u64| (NAMES[number as usize], 10 + number as u8);
        let mut issue = |subject: Option<u64>| {
            let (issuer, by) = party(dice.below(5));
            // of a few the signature doesn't hold, or they have expired
            let by = if dice.is_one_in(9) { 99 } else { by };
            let ends = if dice.is_one_in(9) {
                MOMENT - 1
            } else {
                MOMENT
            };
            let valid = MOMENT - 9..=ends;
            let serial = 1 + dice.below(4) as u8;
            match subject {
                Some(subject) => issued(serial, (issuer, by), party(subject), valid, None),
                None => issued(serial, (issuer, by), ("CN=S", 4), valid, Some(HOST)),
            }
        };
        let candidates = (0..8).map(|it| issue(Some(it % 5))).collect();
        let server = issue(None);
        let mut crls = Vec::new();
        for (name, by) in (0..5).map(party) {
            let serials: Vec<u8> = (1..=4).filter(|_| dice.is_one_in(5)).collect();
            if !dice.is_one_in(6) {
                crls.push(crl(name, by, &serials));
            }
        }
        let root = |(name, by): (&str, u8)| authority(name, by, name, by);
        Forest {
            anchors: vec![root(party(0)), root(party(1))],
            candidates,
            server,
            crls,
        }
    }

    /// How long the shortest path above these is that can be had, and the shortest that is valid; each is tried.
    fn shortest(&self, below: &[&[u8]], check: &Check<'_>) -> [Option<usize>; 2] {
        let mut found = [None; 2];
        let mut keep = |more: [Option<usize>; 2]| {
            for (it, more) in found.iter_mut().zip(more) {
                *it = (*it).into_iter().chain(more).min();
            }
        };
        let issuer = read(below[0]).issuer().as_der().to_vec();
        for it in self.anchors.iter().map(|it| read(it)) {
            if it.subject().as_der() == issuer {
                keep(check.lengths(it, below));
            }
        }
        if below.len() <= DEPTH {
            for it in self.candidates.iter().map(Vec::as_slice) {
                if read(it).subject().as_der() == issuer && !below.contains(&it) {
                    keep(self.shortest(&[&[it], below].concat(), check));
                }
            }
        }
        found
    }
}

const DEPTH: usize = 4;

/// What is asked of the certificates of a path.
struct Check<'c> {
    crls: &'c [CrlRef<'c>],
    allows_undetermined: bool,
    scope: RevocationScope,
}

impl Check<'_> {
    /// The length of the path, where it can be had, and where it is valid.
    fn lengths(&self, anchor: CertificateRef<'_>, path: &[&[u8]]) -> [Option<usize>; 2] {
        let valid = match validate_path(anchor, path, &asked(), &is_by) {
            Ok(valid) => valid,
            Err(_) => return [None; 2],
        };
        let settings = RevocationSettings::new(at(MOMENT));
        let statuses = path_revocation_statuses(&valid, anchor, self.crls, &[], &settings, &is_by);
        let statuses = statuses.expect("statuses");
        let first = match self.scope {
            RevocationScope::Leaf => path.len() - 1,
            RevocationScope::Path => 0,
        };
        let is_good = statuses[first..].iter().all(|it| match it {
            RevocationStatus::Unrevoked => true,
            RevocationStatus::Undetermined { .. } => self.allows_undetermined,
            RevocationStatus::Revoked { .. } => false,
        });
        [is_good.then_some(path.len()), Some(path.len())]
    }
}

/// Beside trying every path.
#[test]
fn forests() {
    let mut dice = Dice(7);
    let (mut trusted, mut revoked, mut refused) = (0, 0, 0);
    for _ in 0..150 {
        let forest = Forest::of(&mut dice);
        let crls = refs(&forest.crls);
        let asked = Check {
            crls: &crls,
            allows_undetermined: dice.is_one_in(2),
            scope: if dice.is_one_in(3) {
                RevocationScope::Leaf
            } else {
                RevocationScope::Path
            },
        };
        let mut check = check(&crls);
        check
            .scope(asked.scope)
            .allow_undetermined(asked.allows_undetermined);
        let anchors: Vec<CertificateRef<'_>> = forest.anchors.iter().map(|it| read(it)).collect();
        let limits = SearchLimits {
            max_depth: DEPTH as u8,
            max_signatures: 1000,
        };
        let found = find_unrevoked_path(
            &anchors,
            &forest.candidates,
            &forest.server,
            &self::asked(),
            &limits,
            &check,
            &is_by,
        );
        let [wanted, valid] = forest.shortest(&[&forest.server], &asked);
        match found {
            Ok(found) => {
                let path = found.validated.certificates();
                let path: Vec<&[u8]> = path.iter().map(|it| it.as_der()).collect();
                assert_eq!(asked.lengths(found.anchor, &path), [wanted; 2]);
                trusted += 1;
            }
            Err(FindError::Revocation { .. }) => {
                assert!(wanted.is_none() && valid.is_some());
                revoked += 1;
            }
            Err(FindError::Limit | FindError::Error(_)) => panic!("no answer"),
            Err(_) => {
                assert_eq!(valid, None);
                refused += 1;
            }
        }
    }
    assert!(trusted > 15 && revoked > 15 && refused > 15);
}
