//! Paths of the certificate of the examples, which is no authority's.
use std::cell::{Cell, RefCell};
use std::time::{Duration, SystemTime, UNIX_EPOCH};
use x509_rattle::{
    check_path, CertificateRef, Error, FaultReason, OutOfDate, PathError, PathFault, Signature,
};

const DER: &[u8] = include_bytes!("../../../examples/data/certificate.der");
const FIRST_SECOND: u64 = 1_767_323_045;
const LAST_SECOND: u64 = 2_695_968_550;

fn at(seconds: u64) -> SystemTime {
    UNIX_EPOCH + Duration::from_secs(seconds)
}

fn anchor() -> CertificateRef<'static> {
    CertificateRef::from_der(DER).expect("a certificate")
}

/// How many certificates the path has, or why it doesn't hold; and how often the verifier was asked, who says no at a turn.
fn check(
    path: &[&[u8]],
    moment: SystemTime,
    no_at: Option<usize>,
) -> (Result<usize, PathError>, usize) {
    let asked = Cell::new(0);
    let verifier = |key: &[u8], signature: &Signature| {
        assert_eq!(key, anchor().subject_public_key_info());
        assert_eq!(Ok(*signature), anchor().signature());
        asked.set(asked.get() + 1);
        no_at != Some(asked.get() - 1)
    };
    let found = check_path(anchor(), path, moment, &verifier);
    (found.map(|it| it.len()), asked.get())
}

fn fault(place: usize, reason: FaultReason) -> Result<usize, PathError> {
    Err(PathError::Fault(PathFault { place, reason }))
}

fn refused(error: Error) -> Result<usize, PathError> {
    Err(PathError::Refused(error))
}

#[test]
fn moments() {
    assert_eq!(check(&[DER], at(FIRST_SECOND), None), (Ok(1), 1));
    assert_eq!(check(&[DER], at(LAST_SECOND), None), (Ok(1), 1));
    assert_eq!(
        check(&[DER], at(LAST_SECOND) + Duration::from_millis(999), None),
        (Ok(1), 1)
    );
    assert_eq!(
        check(&[DER], at(LAST_SECOND + 1), None),
        (fault(0, FaultReason::Moment), 0)
    );
    assert_eq!(
        check(&[DER], at(FIRST_SECOND - 1), None),
        (fault(0, FaultReason::Moment), 0)
    );
    assert_eq!(
        check(&[DER], at(253_402_300_800), None).0,
        refused(Error::Value)
    );
    assert_eq!(
        check(&[DER], UNIX_EPOCH - Duration::from_secs(1), None).0,
        refused(Error::Value)
    );
}

#[test]
fn the_side_of_a_moment() {
    let side = |moment: u64| match check(&[DER], at(moment), None).0 {
        Err(PathError::Fault(fault)) => fault.out_of_date(&[DER], at(moment)),
        other => panic!("{other:?}"),
    };
    assert_eq!(side(FIRST_SECOND - 1), Some(OutOfDate::NotYetValid));
    assert_eq!(side(LAST_SECOND + 1), Some(OutOfDate::Expired));
    let other = PathFault {
        place: 0,
        reason: FaultReason::Signature,
    };
    assert_eq!(other.out_of_date(&[DER], at(LAST_SECOND + 1)), None);
    // a path that hasn't the fault
    let of_moment = PathFault {
        place: 1,
        reason: FaultReason::Moment,
    };
    assert_eq!(of_moment.out_of_date(&[DER], at(LAST_SECOND + 1)), None);
    assert_eq!(of_moment.out_of_date(&[DER, DER], at(LAST_SECOND)), None);
}

#[test]
fn the_first_fault_is_told() {
    let moment = at(FIRST_SECOND);
    // a signature's fault comes in front of one that stands further down, or that has a higher number
    assert_eq!(
        check(&[DER], moment, Some(0)),
        (fault(0, FaultReason::Signature), 1)
    );
    assert_eq!(
        check(&[DER, DER], moment, None),
        (fault(0, FaultReason::NotCa), 1)
    );
    assert_eq!(
        check(&[DER, DER], moment, Some(0)),
        (fault(0, FaultReason::Signature), 1)
    );
    // and behind one that stands further up, or that has a lower number
    assert_eq!(
        check(&[DER, DER], at(0), Some(0)),
        (fault(0, FaultReason::Moment), 0)
    );
    assert_eq!(
        check(&[&[], DER], moment, Some(0)),
        (fault(0, FaultReason::Decode), 0)
    );
    assert_eq!(
        check(&[&DER[1..]], moment, None),
        (fault(0, FaultReason::Decode), 0)
    );
}

/// The DER of a value with a content of up to 65,535 octets (X.690 8.1.3).
fn element(tag: u8, parts: &[&[u8]]) -> Vec<u8> {
    let content = parts.concat();
    let len = u16::try_from(content.len())
        .expect("a short one")
        .to_be_bytes();
    let front = match len {
        [0, low @ 0..=127] => vec![tag, low],
        [0, low] => vec![tag, 0x81, low],
        [high, low] => vec![tag, 0x82, high, low],
    };
    [front, content].concat()
}

/// The key of the certificate with one bit of its last octet changed.
fn other_key() -> Vec<u8> {
    let mut key = anchor().subject_public_key_info().to_vec();
    *key.last_mut().expect("an octet") ^= 1;
    key
}

/// The certificate of an authority with the other key, and with a signature that says nothing, over the names and the dates of the anchor.
fn authority() -> Vec<u8> {
    let algorithm = anchor().signature().expect("a signature").algorithm;
    let validity = element(0x30, &[b"\x17\x0d260102030405Z\x18\x0f20550607080910Z"]);
    let constraints = element(
        0x30,
        &[b"\x06\x03\x55\x1d\x13\x01\x01\xff\x04\x05\x30\x03\x01\x01\xff"],
    );
    let tbs = element(
        0x30,
        &[
            b"\xa0\x03\x02\x01\x02\x02\x01\x01",
            algorithm,
            anchor().issuer().as_der(),
            &validity,
            anchor().subject().as_der(),
            &other_key(),
            &element(0xa3, &[&element(0x30, &[&constraints])]),
        ],
    );
    element(0x30, &[&tbs, algorithm, b"\x03\x03\x00\x01\x02"])
}

#[test]
fn each_signature_is_for_the_key_above() {
    let authority = authority();
    let bits = anchor().signature().expect("a signature").bits;
    let expected = [
        (anchor().subject_public_key_info().to_vec(), vec![1, 2]),
        (other_key(), bits.to_vec()),
    ];
    for no_at in [None, Some(0), Some(1)] {
        let asked = RefCell::new(Vec::new());
        let verifier = |key: &[u8], signature: &Signature| {
            asked
                .borrow_mut()
                .push((key.to_vec(), signature.bits.to_vec()));
            no_at != Some(asked.borrow().len() - 1)
        };
        let path = [&authority[..], DER];
        let found = check_path(anchor(), &path, at(FIRST_SECOND), &verifier);
        let subjects = found.map(|it| it.iter().map(|it| it.as_der().to_vec()).collect());
        match no_at {
            None => assert_eq!(subjects, Ok(vec![authority.clone(), DER.to_vec()])),
            Some(place) => assert_eq!(
                subjects.map(|_: Vec<Vec<u8>>| 0),
                fault(place, FaultReason::Signature)
            ),
        }
        assert_eq!(
            asked.into_inner(),
            expected[..no_at.map_or(2, |place| place + 1)]
        );
    }
}

#[test]
fn the_lowest_place_is_told() {
    let authority = authority();
    let asked = Cell::new(0);
    for (answer, expected) in [
        (true, fault(1, FaultReason::Decode)),
        (false, fault(0, FaultReason::Signature)),
    ] {
        asked.set(0);
        let verifier = |_: &[u8], _: &Signature| {
            asked.set(asked.get() + 1);
            answer
        };
        let path = [&authority[..], &DER[1..]];
        let found = check_path(anchor(), &path, at(FIRST_SECOND), &verifier);
        assert_eq!(found.map(|it| it.len()), expected);
        assert_eq!(asked.get(), 1);
    }
}

#[test]
fn bits_that_are_not_whole_octets() {
    // one bit of the last octet is unused, and it is 0 (X.690 11.2.1)
    let mut unused = authority();
    let at_unused = unused.len() - 3;
    assert_eq!(unused[at_unused..], [0, 1, 2]);
    unused[at_unused] = 1;
    let verifier = |_: &[u8], _: &Signature| -> bool { panic!("it isn't asked") };
    let found = check_path(anchor(), &[unused], at(FIRST_SECOND), &verifier).map(|it| it.len());
    assert_eq!(found, fault(0, FaultReason::Signature));
}

#[test]
fn a_path_has_a_certificate() {
    assert_eq!(
        check(&[], at(FIRST_SECOND), None),
        (refused(Error::Absent), 0)
    );
}

#[test]
fn texts() {
    let told = PathError::Fault(PathFault {
        place: 1,
        reason: FaultReason::Moment,
    });
    assert_eq!(told.to_string(), "certificate 1 isn't valid at the moment");
    assert_eq!(
        PathError::Refused(Error::Absent).to_string(),
        Error::Absent.to_string()
    );
}
