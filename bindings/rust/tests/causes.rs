//! Each cause of a refusal has an error of its own. What builders don't make is made of what they do by other octets in identifiers of the same length.
use std::cell::Cell;
use std::convert::Infallible;
use std::time::{Duration, SystemTime, UNIX_EPOCH};
use x509_rattle::extension::{
    BasicConstraints, CertificateIssuer, CrlNumber, CrlReason, InvalidityDate,
    SubjectKeyIdentifier, ToExtension,
};
use x509_rattle::ProfilePart;
use x509_rattle::{
    algorithm, oid, reencode, validate_path, BuildError, Certificate, CertificateBuilder, Crl,
    CrlBuilder, CrlEntryBuilder, Csr, CsrBuilder, Error, Name, ObjectIdentifier, PathError,
    PathSettings, Profile, SerialNumber, Signature, Signer, StringType, TrustAnchor, Trusted,
    Validity,
};

// a key of Ed25519 (RFC 8410 4), whose bits are no key
const KEY: &[u8] = b"\x30\x0a\x30\x05\x06\x03\x2b\x65\x70\x03\x01\x00";

/// Signs by the first algorithm when it is asked for one the first time, and then by the second.
struct Any(Cell<usize>, [&'static [u8]; 2]);

fn signer() -> Any {
    Any(Cell::new(0), [algorithm::ED25519; 2])
}

impl Signer for Any {
    type Error = Infallible;

    fn algorithm(&self) -> &[u8] {
        let asked = self.0.replace(1);
        self.1[asked]
    }

    fn subject_public_key_info(&self) -> &[u8] {
        KEY
    }

    fn sign(&self, _: &[u8]) -> Result<Vec<u8>, Infallible> {
        Ok(vec![1])
    }
}

fn now() -> SystemTime {
    UNIX_EPOCH + Duration::from_secs(1_893_456_000)
}

fn builder(name: &Name) -> CertificateBuilder {
    let validity = Validity {
        not_before: now(),
        not_after: now(),
    };
    let number = SerialNumber::try_from(1).expect("a number");
    CertificateBuilder::new(number, name, validity, name, KEY)
}

/// The bytes with others in place of those, which stand there once.
fn with(der: &[u8], those: &[u8], others: &[u8]) -> Vec<u8> {
    let places = der.windows(those.len()).enumerate();
    let places: Vec<_> = places
        .filter(|(_, it)| *it == those)
        .map(|(at, _)| at)
        .collect();
    let [at] = places[..] else {
        panic!("not once: {places:?}");
    };
    [&der[..at], others, &der[at + those.len()..]].concat()
}

/// A certificate that has an extension twice, of which both hold the value.
fn twice(extension: ObjectIdentifier, value: &[u8]) -> Certificate {
    let mut builder = builder(&"CN=a".parse().expect("a name"));
    for oid in [extension, oid::extension::ISSUER_ALT_NAME] {
        builder
            .add_extension_der(oid, false, value)
            .expect("an extension");
    }
    let made = builder.build(&signer()).expect("a certificate");
    let other = oid::extension::ISSUER_ALT_NAME;
    let der = with(made.as_der(), other.as_bytes(), extension.as_bytes());
    Certificate::from_der(der).expect("a certificate")
}

/// An element whose content has fewer than 65,536 octets.
fn element(identifier: u8, parts: &[&[u8]]) -> Vec<u8> {
    let content = parts.concat();
    let [high, low] = u16::try_from(content.len())
        .expect("few octets")
        .to_be_bytes();
    let front: &[u8] = match (high, low) {
        (0, 0..=127) => &[identifier, low],
        (0, _) => &[identifier, 0x81, low],
        _ => &[identifier, 0x82, high, low],
    };
    [front, &content].concat()
}

fn under<'a>(trusted: impl Into<Trusted<'a>>) -> Option<PathError> {
    let last = builder(&"CN=a".parse().expect("a name")).build(&signer());
    let path = [last.expect("a certificate")];
    let accepts = |_: &[u8], _: &Signature<'_>| true;
    validate_path(trusted, &path, &PathSettings::new(now()), &accepts).err()
}

#[test]
fn texts_and_types() {
    let refused = "CN=a,O".parse::<Name>();
    assert_eq!(refused, Err(Error::Text { place: 5 }));
    let said = refused.err().map(|it| it.to_string());
    let expected = "the text isn't of its form from its byte 5 on";
    assert_eq!(said.as_deref(), Some(expected));
    assert_eq!(
        reencode("Nothing", Profile::Raw, b"\x30\x00"),
        Err(Error::UnknownType)
    );
    let mut country = Name::builder();
    country.attribute(oid::attribute::COUNTRY_NAME, StringType::Utf8String, "DE");
    assert_eq!(country.build(), Err(Error::StringType));
}

#[test]
fn an_entry_with_two_reasons() {
    let issuer = builder(&"CN=a".parse().expect("a name")).build(&signer());
    let issuer = issuer.expect("a certificate");
    let number = SerialNumber::try_from(5).expect("a number");
    let mut entry = CrlEntryBuilder::new(number.to_integer(), now());
    let (reason, date) = (CrlReason::KeyCompromise, oid::extension::INVALIDITY_DATE);
    entry.add_extension(false, &reason).expect("a reason");
    let value = reason.to_der().expect("a value");
    entry
        .add_extension_der(date, false, &value)
        .expect("an extension");
    let mut list = CrlBuilder::new(issuer.to_ref(), &[1], now());
    list.add_entry_of(&entry).expect("an entry");
    let made = list.build(&signer()).expect("a CRL");
    assert!(matches!(made.revocation(&[5]), Ok(Some(_))));
    let der = with(made.as_der(), date.as_bytes(), b"\x55\x1d\x15");
    let crl = Crl::from_der(der).expect("a CRL");
    assert_eq!(crl.revocation(&[5]), Err(Error::Repeated));
    assert_eq!(crl.revocation(&[6]), Ok(None));
    let entry = crl.entries().next().expect("an entry").expect("an entry");
    assert_eq!(entry.reason(), Err(Error::Repeated));
    let found = crl
        .get::<CrlNumber>()
        .map(|it| it.map(|(critical, it)| (critical, it.0.to_u128())));
    assert_eq!(found, Ok(Some((false, Some(1)))));
    let made = made.entries().next().expect("an entry").expect("an entry");
    assert_eq!(made.get::<CrlReason>(), Ok(Some((false, reason))));
    assert_eq!(made.get::<CertificateIssuer>(), Ok(None));
    // the value isn't a date's
    assert_eq!(made.get::<InvalidityDate>(), Err(Error::Malformed));
}

#[test]
fn a_csr_that_asks_with_two_values() {
    let mut builder = CsrBuilder::new(&"CN=a".parse().expect("a name"));
    let password = oid::request::CHALLENGE_PASSWORD;
    builder.add_attribute(password, &[b"\x05\x00", b"\x0c\x00"]);
    let made = builder.build(&signer()).expect("a CSR");
    let (asks, other) = (
        oid::request::EXTENSION_REQUEST,
        b"\x2a\x86\x48\x86\xf7\x0d\x01\x09\x0f",
    );
    let der = with(made.as_der(), asks.as_bytes(), other);
    let der = with(&der, password.as_bytes(), asks.as_bytes());
    let csr = Csr::from_der(der).expect("a CSR");
    assert_eq!(csr.extensions().err(), Some(Error::NotOneValue));
}

#[test]
fn issuers_and_anchors_with_an_extension_twice() {
    let identifier = SubjectKeyIdentifier(b"a").to_der().expect("a value");
    let issuer = twice(oid::extension::SUBJECT_KEY_IDENTIFIER, &identifier);
    let list = CrlBuilder::new(issuer.to_ref(), &[1], now()).build(&signer());
    assert_eq!(list.err(), Some(BuildError::Refused(Error::Repeated)));

    let authority = BasicConstraints {
        ca: true,
        path_len_constraint: None,
    };
    let value = authority.to_der().expect("a value");
    let anchor = twice(oid::extension::BASIC_CONSTRAINTS, &value);
    let refused = Some(PathError::Refused(Error::Repeated));
    assert_eq!(under(anchor.to_ref()), refused);
    let same = TrustAnchor::from_der(anchor.as_der()).expect("an anchor");
    assert_eq!(under(same), refused);
    // a description (RFC 5914 2.5) with that certificate
    let subject = anchor.subject();
    let controls = element(0x30, &[subject.as_der(), &[0xa0], &anchor.as_der()[1..]]);
    let described = element(0x30, &[KEY, b"\x04\x01a", &controls]);
    let der = element(0xa2, &[&described]);
    let described = TrustAnchor::from_der(&der).expect("an anchor");
    assert_eq!(under(described), refused);
}

#[test]
fn descriptions_of_anchors_that_give_no_trust() {
    let der = element(0xa2, &[&element(0x30, &[KEY, b"\x04\x01a"])]);
    let unnamed = TrustAnchor::from_der(&der).expect("an anchor");
    assert_eq!(unnamed.name(), None);
    assert_eq!(
        under(unnamed),
        Some(PathError::Refused(Error::UnnamedAnchor))
    );
    let name: Name = "CN=a".parse().expect("a name");
    let of = |subject: &Name| {
        let certificate = builder(subject).build(&signer()).expect("a certificate");
        let parts: [&[u8]; 3] = [name.as_der(), &[0xa0], &certificate.as_der()[1..]];
        let described = element(0x30, &[KEY, b"\x04\x01a", &element(0x30, &parts)]);
        let der = element(0xa2, &[&described]);
        under(TrustAnchor::from_der(&der).expect("an anchor"))
    };
    assert_eq!(of(&name), None);
    let other = "CN=b".parse().expect("a name");
    let refused = Some(PathError::Refused(Error::OtherCertificate));
    assert_eq!(of(&other), refused);
}

#[test]
fn a_signer_that_changes_its_algorithm() {
    let changes = Any(Cell::new(0), [algorithm::ED25519, algorithm::ED448]);
    let made = builder(&"CN=a".parse().expect("a name")).build(&changes);
    assert_eq!(made.err(), Some(BuildError::Refused(Error::Algorithm)));
}

#[test]
fn a_root_whose_subject_is_no_roots() {
    let wanted = "a root's subject has a country, an organization and a common name, in that order, each alone in its relative name; `build` makes a root \
                  of any other name";
    assert_eq!(
        Error::NotInProfile(ProfilePart::RootSubject).to_string(),
        wanted
    );
}
