//! The CRL of the examples, by what `examples/data/make.py` puts into it.
use std::time::{Duration, UNIX_EPOCH};
use x509_rattle::extension::CrlReason;
use x509_rattle::{Certificate, Crl, CrlRef, Error, GeneralName, Revocation};

const DER: &[u8] = include_bytes!("../../../examples/data/list.der");
const CERTIFICATE: &[u8] = include_bytes!("../../../examples/data/certificate.der");

fn crl() -> Crl {
    Crl::from_der(DER.to_vec()).expect("a CRL")
}

/// 2026-01-20T10:00:00Z
fn revoked(reason: Option<CrlReason>) -> Result<Option<Revocation>, Error> {
    let date = UNIX_EPOCH + Duration::from_secs(1_768_903_200);
    Ok(Some(Revocation { date, reason }))
}

#[test]
fn entries() {
    let it = crl();
    assert_eq!((it.len(), it.is_empty()), (3, false));
    assert_eq!(it.revocation(&[1]), revoked(None));
    assert_eq!(it.revocation(&[2]), Ok(None));
    assert_eq!(it.revocation(&[3]), revoked(None));
    let certificate = Certificate::from_der(CERTIFICATE.to_vec()).expect("a certificate");
    let found = it.revocation(certificate.serial_number().as_bytes());
    assert_eq!(found, revoked(Some(CrlReason::KeyCompromise)));
}

/// The moment that is some seconds after 2026-02-01T00:00:00Z.
fn february(seconds: u64) -> std::time::SystemTime {
    UNIX_EPOCH + Duration::from_secs(1_769_904_000 + seconds)
}

#[test]
fn parts() {
    let it = crl();
    let certificate = Certificate::from_der(CERTIFICATE.to_vec()).expect("a certificate");
    assert_eq!(it.version(), 2);
    assert_eq!(it.issuer(), certificate.issuer());
    assert_eq!(it.this_update(), Ok(february(0)));
    assert_eq!(it.next_update(), Ok(Some(february(28 * 86_400))));
    assert_eq!(it.extensions().count(), 0);
    let signature = it.signature().expect("a signature");
    assert_eq!(signature.signed_part, it.tbs_cert_list().expect("a part"));
    // ECDSA with SHA-256 (RFC 5758 3.2)
    assert_eq!(
        signature.algorithm,
        b"\x30\x0a\x06\x08\x2a\x86\x48\xce\x3d\x04\x03\x02"
    );
    assert!(DER.ends_with(signature.bits));
    assert_eq!(signature.unused_bits, 0);
}

#[test]
fn entries_one_after_the_other() {
    let it = crl();
    let found: Vec<_> = it.entries().map(|entry| entry.expect("an entry")).collect();
    let numbers: Vec<_> = found
        .iter()
        .map(|entry| entry.serial_number.to_u128())
        .collect();
    assert_eq!(numbers, [Some(1), Some(0x1234_5678_90ab_cdef), Some(3)]);
    let reasons: Vec<_> = found.iter().map(|entry| entry.reason()).collect();
    assert_eq!(
        reasons,
        [Ok(None), Ok(Some(CrlReason::KeyCompromise)), Ok(None)]
    );
    for entry in &found {
        let date = UNIX_EPOCH + Duration::from_secs(1_768_903_200);
        assert_eq!(entry.date, date);
    }
    assert_eq!(found[1].extensions().count(), 1);
    assert_eq!(found[0].extensions().count(), 0);
}

#[test]
fn entries_by_their_numbers() {
    let it = crl();
    let number = [0x12, 0x34, 0x56, 0x78, 0x90, 0xab, 0xcd, 0xef];
    let found = it.entry(&number).expect("a look-up").expect("an entry");
    assert_eq!(found.serial_number.as_bytes(), number);
    assert_eq!(found.date, UNIX_EPOCH + Duration::from_secs(1_768_903_200));
    assert_eq!(found.reason(), Ok(Some(CrlReason::KeyCompromise)));
    let last = it
        .to_ref()
        .entry(&[3])
        .expect("a look-up")
        .expect("an entry");
    assert_eq!(
        (last.serial_number.to_u128(), last.extensions().count()),
        (Some(3), 0)
    );
    assert!(it.entry(&[2]).expect("a look-up").is_none());
}

#[test]
fn entries_by_an_index() {
    let it = crl();
    let index = it.index().expect("an index");
    let number = [0x12, 0x34, 0x56, 0x78, 0x90, 0xab, 0xcd, 0xef];
    let found = index.find(&number).expect("a look-up").expect("an entry");
    assert_eq!(found.serial_number.as_bytes(), number);
    assert_eq!(found.date, UNIX_EPOCH + Duration::from_secs(1_768_903_200));
    assert_eq!(found.reason(), Ok(Some(CrlReason::KeyCompromise)));
    for number in [1, 3] {
        let found = index.find(&[number]).expect("a look-up").expect("an entry");
        assert_eq!(found.serial_number.to_u128(), Some(u128::from(number)));
        assert_eq!(found.extensions().count(), 0);
    }
    for absent in [&[0][..], &[2], &[4], &number[..7]] {
        assert!(index.find(absent).expect("a look-up").is_none());
    }
    for bad in [&[][..], &[0, 3], &[1; 22]] {
        assert_eq!(index.find(bad).err(), Some(Error::Malformed));
    }
}

/// A v1 CRL of the issuer CN=a by hand, whose entries are 5, 6 and 5, a day after each other (RFC 5280 5.1).
const TWICE: &[u8] = b"\x30\x6b\x30\x60\x30\x03\x06\x01\x2a\x30\x0c\x31\x0a\x30\x08\x06\x03\x55\x04\x03\x0c\x01\x61\x17\x0d700101000001Z\
\x30\x3c\x30\x12\x02\x01\x05\x17\x0d260101000000Z\x30\x12\x02\x01\x06\x17\x0d260102000000Z\x30\x12\x02\x01\x05\x17\x0d260103000000Z\
\x30\x03\x06\x01\x2a\x03\x02\x04\xf0";

#[test]
fn the_first_of_several_by_an_index() {
    let it = CrlRef::from_der(TWICE).expect("a CRL");
    let index = it.index().expect("an index");
    // 2026-01-01T00:00:00Z
    let date = |number| {
        let found = index.find(&[number]).expect("a look-up")?;
        Some(
            found
                .date
                .duration_since(UNIX_EPOCH)
                .expect("a moment")
                .as_secs()
                - 1_767_225_600,
        )
    };
    assert_eq!((date(5), date(6), date(7)), (Some(0), Some(86_400), None));
}

/// A v1 CRL of the issuer CN=a without a list of entries, by hand (RFC 5280 5.1).
const EMPTY: &[u8] = b"\x30\x2d\x30\x22\x30\x03\x06\x01\x2a\x30\x0c\x31\x0a\x30\x08\x06\x03\x55\x04\x03\x0c\x01\x61\x17\x0d700101000001Z\
    \x30\x03\x06\x01\x2a\x03\x02\x04\xf0";

/// A v2 CRL of the issuer CN=a by hand (RFC 5280 5.1, 5.3.3): the entries 5, 6, which names the issuer with the DNS name a, and 7.
const INDIRECT: &[u8] = b"\x30\x81\x81\x30\x76\x02\x01\x01\x30\x03\x06\x01\x2a\x30\x0c\x31\x0a\x30\x08\x06\x03\x55\x04\x03\x0c\x01\x61\x17\x0d700101000001Z\
\x30\x4f\x30\x12\x02\x01\x05\x17\x0d260101000000Z\x30\x25\x02\x01\x06\x17\x0d260101000000Z\
\x30\x11\x30\x0f\x06\x03\x55\x1d\x1d\x01\x01\xff\x04\x05\x30\x03\x82\x01\x61\x30\x12\x02\x01\x07\x17\x0d260101000000Z\
\x30\x03\x06\x01\x2a\x03\x02\x04\xf0";

#[test]
fn issuers_of_entries() {
    let it = CrlRef::from_der(INDIRECT).expect("a CRL");
    let found: Result<Vec<_>, _> = it.issued_entries().collect();
    let found = found.expect("entries");
    let numbers: Vec<_> = found
        .iter()
        .map(|it| it.0.serial_number.to_u128())
        .collect();
    assert_eq!(numbers, [Some(5), Some(6), Some(7)]);
    assert_eq!(found[0].1, None);
    assert_eq!(
        found[1].1.as_ref().expect("a name").0,
        [GeneralName::DnsName("a")]
    );
    assert_eq!(found[2].1, found[1].1);
    assert!(crl()
        .issued_entries()
        .all(|it| it.expect("an entry").1.is_none()));
    assert_eq!(
        CrlRef::from_der(EMPTY)
            .expect("a CRL")
            .issued_entries()
            .count(),
        0
    );
}

#[test]
fn no_list_of_entries() {
    let it = CrlRef::from_der(EMPTY).expect("a CRL");
    assert!(it.is_empty());
    assert!(it.entry(&[3]).expect("a look-up").is_none());
    assert_eq!(it.entry(&[0, 3]).err(), Some(Error::Malformed));
    let index = it.index().expect("an index");
    assert!(index.find(&[3]).expect("a look-up").is_none());
    assert_eq!(index.find(&[0, 3]).err(), Some(Error::Malformed));
}

#[test]
fn octets_that_are_no_serial_number() {
    let it = crl();
    for octets in [
        &[][..],
        &[0, 1],
        &[0xff, 0xff],
        &[1; 22],
        &[1; 127],
        &[1; 128],
        &[1; 256],
        &[1; 1000],
    ] {
        assert_eq!(it.revocation(octets), Err(Error::Malformed));
        assert_eq!(it.entry(octets).err(), Some(Error::Malformed));
    }
    assert_eq!(it.revocation(&[1; 21]), Ok(None));
}

#[test]
fn bytes() {
    let it = crl();
    assert_eq!(it.as_der(), DER);
    // the TBSCertList stands behind the identifier and length octets of the outer SEQUENCE
    let signed = it.tbs_cert_list().expect("a part");
    assert!(DER[3..].starts_with(signed) || DER[4..].starts_with(signed));
    assert_eq!(signed[0], 0x30);
    assert_eq!(it.clone(), it);
    assert_eq!(it.into_der(), DER);
}

#[test]
fn borrowed_and_owned() {
    let owned = crl();
    let borrowed = CrlRef::from_der(DER).expect("a CRL");
    assert_eq!(borrowed, owned.to_ref());
    assert_eq!(borrowed.to_owned(), owned);
    assert_eq!(CrlRef::try_from(DER), Ok(borrowed));
    assert_eq!(Crl::try_from(DER.to_vec()), Ok(owned.clone()));
    assert_eq!((borrowed.len(), borrowed.is_empty()), (3, false));
    assert_eq!(
        (borrowed.version(), borrowed.issuer()),
        (owned.version(), owned.issuer())
    );
    assert_eq!(borrowed.this_update(), owned.this_update());
    assert_eq!(borrowed.next_update(), owned.next_update());
    assert_eq!(borrowed.signature(), owned.signature());
    assert_eq!(borrowed.tbs_cert_list(), owned.tbs_cert_list());
    assert_eq!(borrowed.revocation(&[1]), owned.revocation(&[1]));
    assert_eq!(borrowed.extensions().count(), owned.extensions().count());
    assert_eq!(borrowed.to_text(), owned.to_text());
    assert_eq!(borrowed.to_json(), owned.to_json());
    assert_eq!(format!("{borrowed:?}"), format!("{owned:?}"));
    assert_eq!(
        (borrowed.as_der(), borrowed.as_ref()),
        (owned.as_der(), owned.as_ref())
    );
    // what is lent lives as long as the bytes, and not only as what lends it
    let entries = { CrlRef::from_der(DER).expect("a CRL").entries() };
    assert_eq!(entries.count(), 3);
    assert_eq!(CrlRef::from_der(&DER[1..]), Err(Error::Malformed));
}
