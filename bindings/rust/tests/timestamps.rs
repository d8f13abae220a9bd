//! Timestamps of certificates (RFC 6962), by hand.
use std::time::{Duration, UNIX_EPOCH};
use x509_rattle::extension::{
    ExtensionValue, SignedCertificateTimestamp, SignedCertificateTimestamps,
};
use x509_rattle::{CertificateRef, Error};

/// A timestamp of a log whose ID is 32 times one octet, with a signature of two octets by ECDSA with SHA-256.
fn timestamp(octet: u8, milliseconds: u64) -> Vec<u8> {
    let time = milliseconds.to_be_bytes();
    [
        &[0][..],
        &[octet; 32],
        &time,
        b"\x00\x00\x04\x03\x00\x02\xab\xcd",
    ]
    .concat()
}

/// The DER of the list of these.
fn list(timestamps: &[Vec<u8>]) -> Vec<u8> {
    let mut items = Vec::new();
    for it in timestamps {
        items.extend_from_slice(&[0, it.len() as u8]);
        items.extend_from_slice(it);
    }
    let len = items.len() as u8;
    [&[4, len + 2, 0, len][..], &items].concat()
}

#[test]
fn one_after_the_other() {
    let (first, second) = (timestamp(1, 1_700_000_000_123), timestamp(2, 0));
    let unknown = vec![1, 2, 3];
    let der = list(&[first.clone(), unknown.clone(), second.clone()]);
    assert!(der.len() < 128);
    let found = SignedCertificateTimestamps::from_der(&der).expect("a list");
    assert_eq!(found.0, [&first[..], &unknown, &second]);
    let it = SignedCertificateTimestamp::from_bytes(found.0[0]).expect("a timestamp");
    assert_eq!(it.log_id, [1; 32]);
    assert_eq!(
        it.time(),
        Some(UNIX_EPOCH + Duration::from_millis(1_700_000_000_123))
    );
    assert_eq!((it.hash, it.signature_algorithm), (4, 3));
    assert_eq!((it.extensions, it.signature), (&[][..], &b"\xab\xcd"[..]));
    assert_eq!(
        SignedCertificateTimestamp::from_bytes(found.0[1]),
        Err(Error::Malformed)
    );
}

#[test]
fn refusals() {
    let der = list(&[timestamp(1, 5)]);
    for len in 0..der.len() {
        assert_eq!(
            SignedCertificateTimestamps::from_der(&der[..len]),
            Err(Error::Malformed)
        );
    }
    let whole = timestamp(1, 5);
    for len in 0..whole.len() {
        assert_eq!(
            SignedCertificateTimestamp::from_bytes(&whole[..len]),
            Err(Error::Malformed)
        );
    }
    assert_eq!(
        SignedCertificateTimestamps::from_der(&list(&[])),
        Ok(SignedCertificateTimestamps(Vec::new()))
    );
}

/// The fields of a TBSCertificate before the extensions, its key usage, and algorithm and signature.
const FIELDS: &[u8] = b"\xa0\x03\x02\x01\x02\x02\x01\x2a\x30\x05\x06\x03\x2a\x03\x04\x30\x00\x30\x1e\x17\x0d260101000000Z\x17\x0d270101000000Z\
    \x30\x00\x30\x0b\x30\x05\x06\x03\x2a\x03\x04\x03\x02\x00\x61";
const USAGE: &[u8] = b"\x30\x0e\x06\x03\x55\x1d\x0f\x01\x01\xff\x04\x04\x03\x02\x01\x06";
const SIGNED: &[u8] = b"\x30\x05\x06\x03\x2a\x03\x04\x03\x02\x00\xaa";
const LIST_OID: &[u8] = b"\x06\x0a\x2b\x06\x01\x04\x01\xd6\x79\x02\x04\x02";
const POISON: &[u8] =
    b"\x30\x13\x06\x0a\x2b\x06\x01\x04\x01\xd6\x79\x02\x04\x03\x01\x01\xff\x04\x02\x05\x00";

/// The SHA-256 digest of the key in these fields.
const KEY_HASH: [u8; 32] = [
    0x22, 0x4c, 0xbd, 0x00, 0x88, 0xf9, 0xe8, 0x42, 0x8f, 0x97, 0x87, 0xa5, 0x7d, 0xbb, 0xb4, 0x83,
    0xac, 0xe5, 0x94, 0x96, 0x64, 0x68, 0xfa, 0x7f, 0x49, 0x7d, 0x71, 0xaf, 0x8e, 0xde, 0xc9, 0x85,
];

fn element(tag: u8, content: &[&[u8]]) -> Vec<u8> {
    let content = content.concat();
    match content.len() {
        len @ 0..=127 => [&[tag, len as u8][..], &content].concat(),
        len => [&[tag, 0x81, len as u8][..], &content].concat(),
    }
}

/// The TBSCertificate with these extensions.
fn part(extensions: &[&[u8]]) -> Vec<u8> {
    let list = element(0x30, extensions);
    element(0x30, &[FIELDS, &element(0xa3, &[&list])])
}

fn certificate(extensions: &[&[u8]]) -> Vec<u8> {
    element(0x30, &[&part(extensions), SIGNED])
}

/// The extension with the list of these timestamps.
fn listed(timestamps: &[Vec<u8>]) -> Vec<u8> {
    element(0x30, &[LIST_OID, &element(4, &[&list(timestamps)])])
}

#[test]
fn what_is_signed() {
    let timestamp = timestamp(1, 1_700_000_000_123);
    let listed = listed(&[timestamp.clone()]);
    let (issued, precertificate) = (
        certificate(&[&listed, USAGE]),
        certificate(&[USAGE, POISON]),
    );
    let logged = part(&[USAGE]);
    let certificate = CertificateRef::from_der(&issued).expect("a certificate");
    let precertificate = CertificateRef::from_der(&precertificate).expect("a certificate");
    assert_eq!(certificate.logged_part().as_ref(), Ok(&logged));
    assert_eq!(precertificate.logged_precertificate().as_ref(), Ok(&logged));
    assert_eq!(precertificate.to_owned().logged_part(), Err(Error::Absent));
    assert_eq!(
        certificate.to_owned().logged_precertificate(),
        Err(Error::Absent)
    );
    let front = [&[0, 0][..], &1_700_000_000_123_u64.to_be_bytes()].concat();
    let data =
        SignedCertificateTimestamp::signed_data(&timestamp, certificate, precertificate).unwrap();
    let len = [0, 0, logged.len() as u8];
    let wanted = [&front, &[0, 1][..], &KEY_HASH, &len, &logged, &[0, 0]].concat();
    assert_eq!(data, wanted);
    let data = SignedCertificateTimestamp::signed_data_beside(&timestamp, b"\xab").unwrap();
    let wanted = [&front, &[0, 0, 0, 0, 1, 0xab, 0, 0][..]].concat();
    assert_eq!(data, wanted);
}

#[test]
fn what_is_not_signed() {
    let timestamp = timestamp(1, 5);
    let listed = listed(&[timestamp.clone()]);
    let twice = certificate(&[&listed, &listed]);
    let twice = CertificateRef::from_der(&twice).expect("a certificate");
    assert_eq!(twice.logged_part(), Err(Error::Repeated));
    let once = certificate(&[&listed]);
    let once = CertificateRef::from_der(&once).expect("a certificate");
    let bare = certificate(&[USAGE]);
    let bare = CertificateRef::from_der(&bare).expect("a certificate");
    for (octets, certificate, error) in [
        (&timestamp[..], twice, Error::Repeated),
        (&timestamp, bare, Error::Absent),
        (&timestamp[1..], once, Error::Malformed),
        (&[], once, Error::Malformed),
    ] {
        let found = SignedCertificateTimestamp::signed_data(octets, certificate, once);
        assert_eq!(found, Err(error));
    }
    assert_eq!(
        SignedCertificateTimestamp::signed_data_beside(&timestamp, &[]),
        Err(Error::Overlength)
    );
    assert_eq!(
        SignedCertificateTimestamp::signed_data_beside(&[1], &[1]),
        Err(Error::Malformed)
    );
}
