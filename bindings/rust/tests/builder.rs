//! What the builders make, with a signer whose bits are no signature, and what they refuse.
use std::cell::RefCell;
use std::fmt;
use std::time::{Duration, SystemTime, UNIX_EPOCH};
use x509_rattle::extension::{
    AuthorityKeyIdentifier, BasicConstraints, CrlNumber, CrlReason, KeyUsage, SubjectAltName,
    SubjectKeyIdentifier,
};
use x509_rattle::{
    oid, BuildError, Certificate, CertificateBuilder, CertificateProfile, CertificateRef, Crl,
    CrlBuilder, Csr, CsrBuilder, CsrRef, Error, GeneralName, Name, ProfilePart, SerialNumber,
    Signer, Validity, Version,
};

const CERTIFICATE: &[u8] = include_bytes!("../../../examples/data/certificate.der");

/// Ed25519 (RFC 8410 3), and a key of it of zeros.
const ED25519: &[u8] = b"\x30\x05\x06\x03\x2b\x65\x70";
const KEY: &[u8] = &{
    let mut key = [0; 44];
    let front = *b"\x30\x2a\x30\x05\x06\x03\x2b\x65\x70\x03\x21\x00";
    let mut at = 0;
    while at < front.len() {
        key[at] = front[at];
        at += 1;
    }
    key
};

#[derive(Debug, PartialEq, Eq)]
struct Locked;

impl fmt::Display for Locked {
    fn fmt(&self, f: &mut fmt::Formatter<'_>) -> fmt::Result {
        f.write_str("locked")
    }
}

impl std::error::Error for Locked {}

/// It answers the same bits of each message, and keeps the messages.
struct Fixed {
    algorithm: &'static [u8],
    key: Vec<u8>,
    bits: Result<&'static [u8], Locked>,
    asked: RefCell<Vec<Vec<u8>>>,
}

impl Fixed {
    fn new(algorithm: &'static [u8], key: &[u8], bits: Result<&'static [u8], Locked>) -> Fixed {
        Fixed {
            algorithm,
            key: key.to_vec(),
            bits,
            asked: RefCell::default(),
        }
    }

    /// The one message that it was asked to sign.
    fn message(&self) -> Vec<u8> {
        let asked = self.asked.borrow();
        assert_eq!(asked.len(), 1);
        asked[0].clone()
    }
}

impl Signer for Fixed {
    type Error = Locked;

    fn algorithm(&self) -> &[u8] {
        self.algorithm
    }

    fn subject_public_key_info(&self) -> &[u8] {
        &self.key
    }

    fn sign(&self, message: &[u8]) -> Result<Vec<u8>, Locked> {
        self.asked.borrow_mut().push(message.to_vec());
        match &self.bits {
            Ok(bits) => Ok(bits.to_vec()),
            Err(Locked) => Err(Locked),
        }
    }
}

fn fixed() -> Fixed {
    Fixed::new(ED25519, KEY, Ok(b"\x01\x02\x80"))
}

fn at(seconds: u64) -> SystemTime {
    UNIX_EPOCH + Duration::from_secs(seconds)
}

fn name(text: &str) -> Name {
    text.parse().expect("a name")
}

/// From 2026-01-02T03:04:05Z to 2055-06-07T08:09:10Z.
fn validity() -> Validity {
    Validity {
        not_before: at(1_767_323_045),
        not_after: at(2_695_968_550),
    }
}

fn builder() -> CertificateBuilder {
    let serial_number = SerialNumber::try_from(0xff).expect("a number");
    CertificateBuilder::new(serial_number, &name("CN=I"), validity(), &name("CN=S"), KEY)
}

// RFC 5280 4.1, by hand: a certificate of v1
const SMALLEST: &[u8] = b"\x30\x75\x02\x02\x00\xff\x30\x05\x06\x03\x2b\x65\x70\
    \x30\x0c\x31\x0a\x30\x08\x06\x03\x55\x04\x03\x0c\x01I\
    \x30\x20\x17\x0d260102030405Z\x18\x0f20550607080910Z\
    \x30\x0c\x31\x0a\x30\x08\x06\x03\x55\x04\x03\x0c\x01S";

#[test]
fn the_smallest_certificate() {
    let signer = fixed();
    let made = builder().build(&signer).expect("a certificate");
    let part = signer.message();
    assert_eq!(part, [SMALLEST, KEY].concat());
    let behind = [ED25519, b"\x03\x04\x00\x01\x02\x80"].concat();
    let whole = [b"\x30\x81\x84", &part[..], &behind].concat();
    assert_eq!(made.as_der(), whole);
    assert_eq!(made.version(), Version::V1);
}

#[test]
fn what_a_certificate_holds() {
    let signer = fixed();
    let mut builder = builder();
    let constraints = BasicConstraints {
        ca: true,
        path_len_constraint: Some(3),
    };
    builder
        .add_extension(true, &constraints)
        .and_then(|it| it.add_extension(true, &(KeyUsage::KEY_CERT_SIGN | KeyUsage::CRL_SIGN)))
        .and_then(|it| it.add_extension_der(oid::extension::PRECERT_POISON, true, b"\x05\x00"))
        .expect("extensions");
    let made = builder.build(&signer).expect("a certificate");
    let signature = made.signature().expect("a signature");
    assert_eq!(signature.signed_part, signer.message());
    assert_eq!(
        (signature.bits, signature.unused_bits),
        (&b"\x01\x02\x80"[..], 0)
    );
    assert_eq!(signature.algorithm, ED25519);
    let message = builder.tbs_certificate(ED25519);
    assert_eq!(message.as_deref(), Ok(signature.signed_part));
    assert_eq!(made.version(), Version::V3);
    assert_eq!(made.serial_number().to_string(), "00:FF");
    assert_eq!(
        (made.issuer(), made.subject()),
        (name("CN=I").to_ref(), name("CN=S").to_ref())
    );
    assert_eq!(made.validity(), validity());
    assert_eq!(made.subject_public_key_info(), KEY);
    let told: Vec<_> = made.extensions().map(|it| it.expect("one")).collect();
    let oids: Vec<_> = told.iter().map(|it| (it.oid(), it.critical())).collect();
    let expected = [
        (oid::extension::BASIC_CONSTRAINTS, true),
        (oid::extension::KEY_USAGE, true),
        (oid::extension::PRECERT_POISON, true),
    ];
    assert_eq!(oids, expected);
    assert_eq!(made.get(), Ok(Some((true, constraints))));
    assert_eq!(told[2].value(), b"\x05\x00");
}

#[test]
fn a_request() {
    let signer = fixed();
    let mut builder = CsrBuilder::new(&name("CN=S"));
    let names = SubjectAltName(vec![GeneralName::DnsName("a.example")]);
    builder.add_extension(false, &names).expect("an extension");
    // a challenge password (RFC 2985 5.4.1)
    builder.add_attribute_der(
        b"\x30\x13\x06\x09\x2a\x86\x48\x86\xf7\x0d\x01\x09\x07\x31\x06\x0c\x04word",
    );
    let made = builder.build(&signer).expect("a CSR");
    assert_eq!(made.subject(), name("CN=S").to_ref());
    assert_eq!(made.subject_public_key_info(), KEY);
    let signature = made.signature().expect("a signature");
    assert_eq!(signature.signed_part, signer.message());
    assert_eq!(signature.bits, b"\x01\x02\x80");
    let asked: Vec<_> = made
        .extensions()
        .expect("a list")
        .map(|it| it.expect("one"))
        .collect();
    assert_eq!(asked.len(), 1);
    assert_eq!(asked[0].value(), b"\x30\x0b\x82\x09a.example");
    let password = made
        .attribute(oid::request::CHALLENGE_PASSWORD)
        .expect("an answer")
        .expect("an attribute");
    let values: Vec<_> = password.values().map(|it| it.expect("a value")).collect();
    assert_eq!((values.len(), values[0].content), (1, &b"word"[..]));
    assert_eq!(made.attribute(oid::attribute::COMMON_NAME), Ok(None));
}

#[test]
fn attributes_of_requests() {
    let by_der = b"\x30\x13\x06\x09\x2a\x86\x48\x86\xf7\x0d\x01\x09\x07\x31\x06\x0c\x04word";
    let subject = name("CN=S");
    let (mut one, mut other) = (CsrBuilder::new(&subject), CsrBuilder::new(&subject));
    one.add_attribute_der(by_der);
    other.add_attribute(oid::request::CHALLENGE_PASSWORD, &[b"\x0c\x04word"]);
    let part = one.certification_request_info(KEY);
    assert!(part.is_ok());
    assert_eq!(other.certification_request_info(KEY), part);
    other.add_attribute_der(by_der);
    let twice = other.certification_request_info(KEY);
    assert_eq!(twice, Err(Error::Repeated));
    // values may come in any order; one that is no element is refused
    let mut sorted = CsrBuilder::new(&subject);
    sorted.add_attribute(oid::attribute::COMMON_NAME, &[b"\x0c\x01b", b"\x0c\x01a"]);
    assert!(sorted.certification_request_info(KEY).is_ok());
    let mut broken = CsrBuilder::new(&subject);
    broken.add_attribute(oid::attribute::COMMON_NAME, &[b"\x0c\x02b"]);
    let refused = broken.certification_request_info(KEY);
    assert_eq!(refused, Err(Error::Malformed));
}

fn issuer(signer: &Fixed) -> Certificate {
    let mut builder = builder();
    builder
        .add_extension(false, &SubjectKeyIdentifier(b"abcd"))
        .expect("an extension");
    builder.build(signer).expect("a certificate")
}

#[test]
fn a_list() {
    let issuer = issuer(&fixed());
    let signer = fixed();
    let mut builder = CrlBuilder::new(issuer.to_ref(), b"\x00\x80", at(1_767_323_045));
    builder.next_update(at(2_695_968_550));
    let serials = [SerialNumber::try_from(0xff), SerialNumber::try_from(5)];
    let [one, other] = serials.map(|it| it.expect("a number"));
    builder
        .add_entry(one.to_integer(), at(1), Some(CrlReason::KeyCompromise))
        .and_then(|it| it.add_entry(other.to_integer(), at(2), None))
        .expect("entries");
    let made = builder.build(&signer).expect("a CRL");
    let signature = made.signature().expect("a signature");
    assert_eq!(signature.signed_part, signer.message());
    assert_eq!(signature.bits, b"\x01\x02\x80");
    assert_eq!((made.version(), made.len()), (2, 2));
    assert_eq!(made.issuer(), issuer.subject());
    assert_eq!(made.this_update(), Ok(at(1_767_323_045)));
    assert_eq!(made.next_update(), Ok(Some(at(2_695_968_550))));
    let entries: Vec<_> = made.entries().map(|it| it.expect("an entry")).collect();
    assert_eq!(entries[0].serial_number.as_bytes(), b"\x00\xff");
    assert_eq!(entries[0].reason(), Ok(Some(CrlReason::KeyCompromise)));
    assert_eq!((entries[1].date, entries[1].reason()), (at(2), Ok(None)));
    let told: Vec<_> = made
        .extensions()
        .map(|it| it.expect("one").parsed().expect("a value"))
        .collect();
    use x509_rattle::ParsedExtension as Parsed;
    let [Parsed::CrlNumber(CrlNumber(number)), Parsed::AuthorityKeyIdentifier(key)] = &told[..]
    else {
        panic!("{told:?}");
    };
    assert_eq!(number.as_bytes(), b"\x00\x80");
    assert_eq!(
        *key,
        AuthorityKeyIdentifier {
            key_identifier: Some(b"abcd"),
            authority_cert_issuer: None,
            authority_cert_serial_number: None,
        }
    );
}

#[test]
fn a_signer_that_fails() {
    let locked = Fixed::new(ED25519, KEY, Err(Locked));
    let failed = builder().build(&locked).expect_err("it is locked");
    assert_eq!(failed, BuildError::Signer(Locked));
    assert_eq!(failed.to_string(), "the signer failed: locked");
    let boxed: Box<dyn std::error::Error> = failed.into();
    assert_eq!(
        boxed.source().map(ToString::to_string).as_deref(),
        Some("locked")
    );
    assert_eq!(
        locked.message(),
        builder().tbs_certificate(ED25519).expect("bytes")
    );
    let request = CsrBuilder::new(&name("CN=S")).build(&&locked);
    assert_eq!(request, Err(BuildError::Signer(Locked)));
    let list = CrlBuilder::new(issuer(&fixed()).to_ref(), b"\x01", at(0)).build(&locked);
    assert_eq!(list.err(), Some(BuildError::Signer(Locked)));
}

#[test]
fn refusals() {
    let refused = |error| Some(BuildError::Refused(error));
    // neither a key nor an algorithm; the signer isn't asked
    for (algorithm, key, error) in [
        (ED25519, &b"\x30\x00"[..], Error::Malformed),
        (b"\x30\x00", KEY, Error::Malformed),
        (b"", KEY, Error::Malformed),
        (ED25519, b"", Error::Malformed),
    ] {
        let signer = Fixed::new(algorithm, key, Ok(b""));
        let serial_number = SerialNumber::try_from(1).expect("a number");
        let names = name("CN=a");
        let builder = CertificateBuilder::new(serial_number, &names, validity(), &names, key);
        assert_eq!(builder.build(&signer).err(), refused(error));
        assert!(signer.asked.borrow().is_empty());
    }
    let mut late = validity();
    late.not_after = at(253_402_300_800);
    let early = Validity {
        not_before: UNIX_EPOCH - Duration::from_secs(1),
        not_after: at(0),
    };
    for validity in [late, early] {
        let serial_number = SerialNumber::try_from(1).expect("a number");
        let names = name("CN=a");
        let builder = CertificateBuilder::new(serial_number, &names, validity, &names, KEY);
        assert_eq!(builder.tbs_certificate(ED25519), Err(Error::Value));
    }
    let mut twice = builder();
    let constraints = BasicConstraints {
        ca: false,
        path_len_constraint: None,
    };
    twice.add_extension(true, &constraints).expect("the first");
    let again = twice.add_extension(false, &constraints).err();
    assert_eq!(again, Some(Error::Repeated));
}

#[test]
fn refusals_of_lists() {
    let issuer = issuer(&fixed());
    let other = Fixed::new(ED25519, &[&KEY[..43], &[1]].concat(), Ok(b""));
    let of_other = CrlBuilder::new(issuer.to_ref(), b"\x01", at(0)).build(&other);
    assert_eq!(of_other.err(), Some(BuildError::OtherKey));
    assert!(other.asked.borrow().is_empty());
    let without = CrlBuilder::new(issuer.to_ref(), b"", at(0));
    assert_eq!(without.tbs_cert_list(ED25519), Err(Error::Value));
    let mut late = CrlBuilder::new(issuer.to_ref(), b"\x01", at(0));
    let certificate = CertificateRef::from_der(CERTIFICATE).expect("a certificate");
    let entry = late.add_entry(certificate.serial_number(), at(253_402_300_800), None);
    assert_eq!(entry.err(), Some(Error::Value));
    late.next_update(at(253_402_300_800));
    assert_eq!(late.tbs_cert_list(ED25519), Err(Error::Value));
    assert_eq!(
        BuildError::<Locked>::OtherKey.to_string(),
        "the signer's key isn't that of the issuer's certificate"
    );
}

#[test]
fn sent_between_threads() {
    fn is_sent<T: Send + Sync>() {}
    is_sent::<Certificate>();
    is_sent::<CertificateRef<'_>>();
    is_sent::<Crl>();
    is_sent::<CsrRef<'_>>();
    is_sent::<Csr>();
    is_sent::<Name>();
    is_sent::<x509_rattle::ObjectIdentifier>();
    is_sent::<x509_rattle::ParsedExtension<'_>>();
    is_sent::<x509_rattle::Extensions<'_>>();
    is_sent::<x509_rattle::TrustAnchor<'_>>();
    is_sent::<CertificateBuilder>();
    is_sent::<CrlBuilder>();
    is_sent::<CsrBuilder>();
    is_sent::<Error>();
    is_sent::<BuildError<Locked>>();
}

/// The SHA-1 digest of the 32 octets of the key, which are zeros.
const KEY_DIGEST: &[u8] =
    b"\xde\x8a\x84\x7b\xff\x8c\x34\x3d\x69\xb8\x53\xa2\x15\xe6\xee\x77\x5e\xf2\xef\x96";

/// The certificate of that kind, by an issuer and for a subject with the key of zeros, and the OIDs of its extensions.
fn of_kind(
    issuer: &str,
    subject: &str,
    profile: &CertificateProfile<'_>,
) -> Result<(Certificate, Vec<x509_rattle::ObjectIdentifier>), BuildError<Locked>> {
    let serial_number = SerialNumber::try_from(1).expect("a number");
    let (issuer, subject) = (name(issuer), name(subject));
    let mut builder = CertificateBuilder::new(serial_number, &issuer, validity(), &subject, KEY);
    builder.add_extension_der(oid::extension::PRECERT_POISON, true, b"\x05\x00")?;
    let signer = fixed();
    let made = builder.build_as(profile, &signer)?;
    assert_eq!(
        made.signature().expect("a signature").signed_part,
        signer.message()
    );
    let told = made.extensions().map(|it| it.expect("one").oid()).collect();
    Ok((made, told))
}

// the lists of extensions that include/x509.h says of each kind
#[test]
fn kinds_of_certificates() {
    use oid::extension::*;
    let root = CertificateProfile::Root {
        signs_ocsp_responses: false,
    };
    let (made, told) = of_kind("CN=R,O=O,C=DE", "CN=R,O=O,C=DE", &root).expect("a root");
    let expected = [
        PRECERT_POISON,
        AUTHORITY_KEY_IDENTIFIER,
        BASIC_CONSTRAINTS,
        KEY_USAGE,
        SUBJECT_KEY_IDENTIFIER,
    ];
    assert_eq!(told, expected);
    assert_eq!(made.issuer(), made.subject());
    let usage = made.to_ref().key_usage().expect("one");
    assert_eq!(usage, Some(KeyUsage::KEY_CERT_SIGN | KeyUsage::CRL_SIGN));
    let (_, ski) = made
        .get::<SubjectKeyIdentifier>()
        .expect("one")
        .expect("one");
    assert_eq!(ski.0, KEY_DIGEST);
    let refused = of_kind("CN=R", "CN=R", &root).err();
    assert_eq!(
        refused,
        Some(BuildError::Refused(Error::NotInProfile(
            ProfilePart::RootSubject
        )))
    );

    let subordinate = CertificateProfile::Subordinate {
        path_len_constraint: Some(0),
        signs_ocsp_responses: true,
        client_auth: true,
    };
    let (made, told) = of_kind("CN=I", "CN=M", &subordinate).expect("an authority");
    assert_eq!(told[..5], expected);
    assert_eq!(told[5..], [EXTENDED_KEY_USAGE]);
    let constraints = made
        .to_ref()
        .basic_constraints()
        .expect("one")
        .expect("one");
    assert_eq!(
        (constraints.ca, constraints.path_len_constraint),
        (true, Some(0))
    );
    let usage = KeyUsage::KEY_CERT_SIGN | KeyUsage::CRL_SIGN | KeyUsage::DIGITAL_SIGNATURE;
    assert_eq!(made.to_ref().key_usage(), Ok(Some(usage)));

    let subscriber = CertificateProfile::Subscriber {
        client_auth: false,
        key_encipherment: false,
        key_agreement: false,
        data_encipherment: false,
    };
    let (made, told) = of_kind("CN=I", "CN=a.example,C=DE", &subscriber).expect("a server");
    let expected = [
        PRECERT_POISON,
        AUTHORITY_KEY_IDENTIFIER,
        EXTENDED_KEY_USAGE,
        BASIC_CONSTRAINTS,
        KEY_USAGE,
    ];
    assert_eq!(told, expected);
    assert_eq!(made.subject(), name("CN=a.example,C=DE").to_ref());
    assert_eq!(made.issuer(), name("CN=I").to_ref());
}

#[test]
fn devices() {
    use oid::extension::*;
    let without = CertificateProfile::Device { names: &[] };
    let (_, told) = of_kind("CN=I", "CN=D", &without).expect("a device");
    assert_eq!(told, [PRECERT_POISON, AUTHORITY_KEY_IDENTIFIER, KEY_USAGE]);
    // id-on-hardwareModuleName with a HardwareModuleName (RFC 4108 5)
    let hardware = GeneralName::OtherName {
        type_id: "1.3.6.1.5.5.7.8.4".parse().expect("an OID"),
        value: b"\x30\x07\x06\x02\x2a\x03\x04\x01\x05",
    };
    let names = [GeneralName::DnsName("d"), hardware];
    let (made, told) = of_kind(
        "CN=I",
        "CN=D",
        &CertificateProfile::Device { names: &names },
    )
    .expect("a device");
    assert_eq!(
        told,
        [
            PRECERT_POISON,
            AUTHORITY_KEY_IDENTIFIER,
            KEY_USAGE,
            SUBJECT_ALT_NAME
        ]
    );
    let (critical, found) = made.get::<SubjectAltName>().expect("one").expect("one");
    assert_eq!((critical, &found.0[..]), (false, &names[..]));
    let refused = of_kind(
        "CN=I",
        "CN=D",
        &CertificateProfile::Device { names: &names[..1] },
    )
    .err();
    assert_eq!(
        refused,
        Some(BuildError::Refused(Error::NotInProfile(ProfilePart::Names)))
    );
}
