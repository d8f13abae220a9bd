//! The certificate of the examples, by what `examples/data/make.py` puts into it and `expected.txt` says of it.
use std::collections::HashSet;
use std::time::{Duration, SystemTime, UNIX_EPOCH};
use x509_rattle::extension::{BasicConstraints, KeyUsage, SubjectAltName};
use x509_rattle::{
    oid, reencode, time_text, Certificate, CertificateRef, Error, GeneralName, Name, NameRef,
    ParsedExtension, Profile, UniqueIdentifier, Version,
};

const DER: &[u8] = include_bytes!("../../../examples/data/certificate.der");
const EXPECTED: &str = include_str!("../../../examples/data/expected.txt");

fn certificate() -> CertificateRef<'static> {
    CertificateRef::from_der(DER).expect("a certificate")
}

/// What `expected.txt` says behind a colon.
fn expected(what: &str) -> &'static str {
    let line = EXPECTED
        .lines()
        .find_map(|line| line.strip_prefix(what)?.strip_prefix(": "));
    line.expect("it is told")
}

fn at(seconds: u64) -> SystemTime {
    UNIX_EPOCH + Duration::from_secs(seconds)
}

#[test]
fn what_it_says() {
    let it = certificate();
    assert_eq!(it.as_der(), DER);
    assert_eq!(it.version(), Version::V3);
    assert_eq!(it.subject().to_string(), expected("subject"));
    assert_eq!(it.issuer(), it.subject());
    assert_eq!(
        it.serial_number().as_bytes(),
        0x1234_5678_90ab_cdef_u64.to_be_bytes()
    );
    assert_eq!(it.serial_number().to_u128(), Some(0x1234_5678_90ab_cdef));
    assert_eq!(it.serial_number().to_string(), "12:34:56:78:90:AB:CD:EF");
    let decimal = 0x1234_5678_90ab_cdef_u64.to_string();
    assert_eq!(it.serial_number().decimal(), Ok(decimal));
    let validity = it.validity();
    // 2026-01-02T03:04:05Z and 2055-06-07T08:09:10Z
    assert_eq!(
        (validity.not_before, validity.not_after),
        (at(1_767_323_045), at(2_695_968_550))
    );
    assert_eq!(
        time_text(validity.not_before).as_deref(),
        Ok(expected("not before"))
    );
    assert_eq!(
        time_text(validity.not_after).as_deref(),
        Ok(expected("not after"))
    );
    // a key of P-256 (RFC 5480 2.1.1)
    assert!(it
        .subject_public_key_info()
        .starts_with(b"\x30\x59\x30\x13\x06\x07\x2a\x86\x48\xce\x3d\x02\x01"));
}

#[test]
fn extensions() {
    let it = certificate();
    let all: Vec<_> = it
        .extensions()
        .collect::<Result<_, _>>()
        .expect("extensions");
    let told: Vec<_> = all
        .iter()
        .map(|found| (found.oid(), found.critical()))
        .collect();
    assert_eq!(
        told,
        [
            (oid::extension::KEY_USAGE, true),
            (oid::extension::SUBJECT_ALT_NAME, false)
        ]
    );
    let usage = KeyUsage::DIGITAL_SIGNATURE | KeyUsage::KEY_ENCIPHERMENT;
    assert_eq!(all[0].parsed(), Ok(ParsedExtension::KeyUsage(usage)));
    assert_eq!(
        format!("critical, {}", usage.names().collect::<Vec<_>>().join(" ")),
        expected("key usage")
    );
    let names = vec![
        GeneralName::DnsName("www.example.org"),
        GeneralName::DnsName("example.org"),
        GeneralName::Rfc822Name("post@example.org"),
        GeneralName::IpAddress(&[192, 0, 2, 7]),
    ];
    assert_eq!(
        all[1].parsed(),
        Ok(ParsedExtension::SubjectAltName(SubjectAltName(
            names.clone()
        )))
    );
    assert_eq!(
        names[3].ip_addr().map(|it| it.to_string()).as_deref(),
        Some("192.0.2.7")
    );
    assert_eq!(it.key_usage(), Ok(Some(usage)));
    assert_eq!(it.get(), Ok(Some((false, SubjectAltName(names)))));
    assert_eq!(it.get::<BasicConstraints>(), Ok(None));
    assert_eq!(it.extension(oid::extension::NAME_CONSTRAINTS), Ok(None));
    assert_eq!(it.extension(oid::extension::KEY_USAGE), Ok(Some(all[0])));
}

#[test]
fn names() {
    let subject = certificate().subject();
    let told: Vec<_> = subject
        .attributes()
        .map(|found| found.map(|it| (it.oid, it.text().expect("a text").into_owned())))
        .collect::<Result<_, _>>()
        .expect("attributes");
    let pairs = [
        (oid::attribute::COUNTRY_NAME, "DE"),
        (oid::attribute::ORGANIZATION_NAME, "Beispiel, Söhne & Co"),
        (oid::attribute::COMMON_NAME, "www.example.org"),
    ];
    assert_eq!(told, pairs.map(|(oid, text)| (oid, text.to_owned())));
    assert_eq!(subject.rdns().count(), 3);
    assert_eq!(
        subject.attributes_for(oid::attribute::COMMON_NAME).count(),
        1
    );
    assert_eq!(subject.attributes_for(oid::attribute::SURNAME).count(), 0);
    let read: Name = expected("subject").parse().expect("a name");
    assert_eq!(read.to_string(), expected("subject"));
    assert_eq!(subject.to_owned(), subject);
    assert_eq!(NameRef::from_der(subject.as_der()), Ok(subject));
    assert_eq!(
        "".parse::<Name>().map(|it| it.as_der().to_vec()),
        Ok(b"\x30\x00".to_vec())
    );
    assert_eq!("CN".parse::<Name>(), Err(Error::Text { place: 0 }));
    assert_eq!("CN=a+CN=a".parse::<Name>(), Err(Error::SetDuplicate));
}

#[test]
fn signatures() {
    let it = certificate();
    let signature = it.signature().expect("a signature");
    // ECDSA with SHA-256 (RFC 5758 3.2)
    let algorithm = b"\x30\x0a\x06\x08\x2a\x86\x48\xce\x3d\x04\x03\x02";
    assert_eq!(signature.algorithm, algorithm);
    assert_eq!(signature.unused_bits, 0);
    let bits = u8::try_from(signature.bits.len() + 1).expect("a short one");
    let behind = [&[0x03, bits, 0], signature.bits].concat();
    let whole = [signature.signed_part, algorithm, &behind].concat();
    assert!(DER.ends_with(&whole) && DER.len() == whole.len() + 4);
    assert_eq!(it.tbs_certificate(), Ok(signature.signed_part));
}

#[test]
fn written_again() {
    assert_eq!(expected("written again"), "the same bytes");
    assert_eq!(certificate().canonical_der().as_deref(), Ok(DER));
    assert_eq!(
        reencode("Certificate", Profile::Raw, DER).as_deref(),
        Ok(DER)
    );
    assert_eq!(
        reencode("Nothing", Profile::Raw, DER),
        Err(Error::UnknownType)
    );
}

#[test]
fn owned_and_borrowed() {
    let owned = Certificate::from_der(DER.to_vec()).expect("a certificate");
    assert_eq!(owned.to_ref(), certificate());
    assert_eq!(certificate().to_owned(), owned);
    assert_eq!(owned.subject(), certificate().subject());
    assert_eq!(owned.get::<KeyUsage>(), certificate().get());
    assert_eq!(HashSet::from([certificate(), owned.to_ref()]).len(), 1);
    assert!(format!("{owned:?}").contains("www.example.org"));
    assert_eq!(owned.into_der(), DER);
}

#[test]
fn moments() {
    assert_eq!(
        time_text(at(253_402_300_799)).as_deref(),
        Ok("9999-12-31T23:59:59Z")
    );
    assert_eq!(time_text(at(253_402_300_800)), Err(Error::Value));
    assert_eq!(
        time_text(UNIX_EPOCH - Duration::from_secs(1)),
        Err(Error::Value)
    );
    assert_eq!(
        time_text(UNIX_EPOCH + Duration::from_millis(1_999)).as_deref(),
        Ok("1970-01-01T00:00:01Z")
    );
}

#[test]
fn between_threads() {
    fn moves<T: Send + Sync>() {}
    moves::<Certificate>();
    moves::<CertificateRef>();
    moves::<x509_rattle::Crl>();
    moves::<Name>();
    moves::<x509_rattle::Extensions>();
    moves::<ParsedExtension>();
    moves::<x509_rattle::PathError>();
}

/// What the borrowed one says the owned one says too.
#[test]
fn owned() {
    let it = Certificate::from_der(DER.to_vec()).expect("a certificate");
    let borrowed = it.to_ref();
    assert_eq!(it.key_usage(), borrowed.key_usage());
    assert_eq!(it.basic_constraints(), borrowed.basic_constraints());
    assert_eq!(it.subject_alt_name(), borrowed.subject_alt_name());
    assert_eq!(it.tbs_certificate(), borrowed.tbs_certificate());
    assert_eq!(it.canonical_der(), borrowed.canonical_der());
    assert!(it.key_usage().is_ok_and(|usage| usage.is_some()));
    assert!(it.subject_alt_name().is_ok_and(|names| names.is_some()));
}

/// The certificate of the examples with both unique identifiers behind its key (RFC 5280 4.1): of 16 bits, and of 14.
#[test]
fn unique_identifiers() {
    let it = certificate();
    assert_eq!(
        (it.issuer_unique_id(), it.subject_unique_id()),
        (None, None)
    );
    let signature = it.signature().expect("a signature");
    assert_eq!(it.inner_algorithm(), signature.algorithm);

    let added = b"\x81\x03\x00\xab\xcd\x82\x03\x02\x12\x34";
    let key = it.subject_public_key_info();
    let at = DER
        .windows(key.len())
        .position(|part| part == key)
        .expect("the key")
        + key.len();
    let mut der = [&DER[..at], added, &DER[at..]].concat();
    // the lengths of the certificate and of its signed part, of two octets each
    for place in [2, 6] {
        let len = u16::from_be_bytes([der[place], der[place + 1]]) + added.len() as u16;
        der[place..place + 2].copy_from_slice(&len.to_be_bytes());
    }
    let it = CertificateRef::from_der(&der).expect("a certificate");
    let of = |bits, unused_bits| Some(UniqueIdentifier { bits, unused_bits });
    assert_eq!(it.issuer_unique_id(), of(b"\xab\xcd", 0));
    assert_eq!(it.subject_unique_id(), of(b"\x12\x34", 2));
    let owned = it.to_owned();
    assert_eq!(owned.issuer_unique_id(), it.issuer_unique_id());
    assert_eq!(owned.subject_unique_id(), it.subject_unique_id());
    assert_eq!(owned.inner_algorithm(), it.inner_algorithm());
}
