//! Bytes that are no values: each call answers an error, and none panics.
use x509_rattle::extension::{ExtensionValue, KeyUsage};
use x509_rattle::{
    oid, BuildError, Certificate, CertificateBuilder, CertificateRef, Crl, CsrBuilder, Error,
    Extensions, GeneralNames, Name, NameRef, ObjectIdentifier, SerialNumber, Signer,
};

const CERTIFICATE: &[u8] = include_bytes!("../../../examples/data/certificate.der");
const LIST: &[u8] = include_bytes!("../../../examples/data/list.der");

#[test]
fn cut_at_each_length() {
    for len in 0..CERTIFICATE.len() {
        let cut = &CERTIFICATE[..len];
        assert_eq!(
            CertificateRef::from_der(cut),
            Err(Error::Malformed),
            "{len}"
        );
        assert_eq!(
            Certificate::try_from(cut.to_vec()),
            Err(Error::Malformed),
            "{len}"
        );
    }
    for len in 0..LIST.len() {
        assert_eq!(
            Crl::from_der(LIST[..len].to_vec()),
            Err(Error::Malformed),
            "{len}"
        );
    }
    let name = CertificateRef::from_der(CERTIFICATE)
        .expect("a certificate")
        .subject()
        .as_der();
    for len in 0..name.len() {
        assert_eq!(
            NameRef::from_der(&name[..len]),
            Err(Error::Malformed),
            "{len}"
        );
    }
}

#[test]
fn bytes_behind() {
    assert_eq!(
        CertificateRef::from_der(&[CERTIFICATE, &[0]].concat()),
        Err(Error::Malformed)
    );
    assert_eq!(Crl::from_der([LIST, &[0]].concat()), Err(Error::Malformed));
    assert_eq!(
        Name::from_der(b"\x30\x00\x00".to_vec()),
        Err(Error::Malformed)
    );
}

/// All that can be asked of a certificate.
fn ask(it: CertificateRef) {
    let _ = format!(
        "{it:?} {:?} {:?} {:?}",
        it.signature(),
        it.tbs_certificate(),
        it.canonical_der()
    );
    for found in it.subject().attributes().flatten() {
        let _ = format!("{found:?} {:?}", found.text());
    }
    for found in it.extensions().flatten() {
        let _ = format!("{:?} {:?}", found, found.parsed());
        let _ = it.extension(found.oid());
    }
    // all that is read has documents
    let [text, json] = [it.to_text(), it.to_json()].map(|document| document.expect("a document"));
    assert!(text.starts_with("type: certificate\n") && json.ends_with("\n]\n"));
}

#[test]
fn each_octet_changed() {
    let mut taken = 0;
    for at in 0..CERTIFICATE.len() {
        for flip in [0x01, 0x80, 0xff] {
            let mut changed = CERTIFICATE.to_vec();
            changed[at] ^= flip;
            if let Ok(it) = CertificateRef::from_der(&changed) {
                ask(it);
                taken += 1;
            }
        }
    }
    // the bits of the key and of the signature may be any
    assert!(taken > 300);
}

/// The list holds each extension that can be read.
fn identifiers() -> [ObjectIdentifier; 21] {
    use oid::extension::*;
    [
        KEY_USAGE,
        BASIC_CONSTRAINTS,
        EXTENDED_KEY_USAGE,
        SUBJECT_ALT_NAME,
        ISSUER_ALT_NAME,
        SUBJECT_KEY_IDENTIFIER,
        AUTHORITY_KEY_IDENTIFIER,
        AUTHORITY_INFO_ACCESS,
        SUBJECT_INFO_ACCESS,
        CERTIFICATE_POLICIES,
        POLICY_MAPPINGS,
        POLICY_CONSTRAINTS,
        INHIBIT_ANY_POLICY,
        NAME_CONSTRAINTS,
        CRL_DISTRIBUTION_POINTS,
        FRESHEST_CRL,
        ISSUING_DISTRIBUTION_POINT,
        CRL_NUMBER,
        DELTA_CRL_INDICATOR,
        CRL_REASON,
        CERTIFICATE_ISSUER,
    ]
}

/// The DER of a list of one extension (RFC 5280 4.1).
fn one_extension(oid: ObjectIdentifier, value: &[u8]) -> Vec<u8> {
    fn element(tag: u8, content: &[u8]) -> Vec<u8> {
        let len = u8::try_from(content.len()).expect("a short one");
        assert!(len < 128);
        [&[tag, len], content].concat()
    }
    let parts = [element(6, oid.as_bytes()), element(4, value)].concat();
    element(0x30, &element(0x30, &parts))
}

#[test]
fn payloads_that_are_none() {
    for oid in identifiers() {
        for value in [
            &[][..],
            b"\x00",
            b"\x30",
            b"\x30\x80\x00\x00",
            b"\x05\x00",
            b"\x30\x01\x30",
            b"\x30\x02\x05\x00",
            &[0xff; 40],
        ] {
            let der = one_extension(oid, value);
            let all: Vec<_> = Extensions::new(&der)
                .collect::<Result<_, _>>()
                .expect("a list");
            assert_eq!((all.len(), all[0].oid(), all[0].value()), (1, oid, value));
            assert_eq!(all[0].parsed(), Err(Error::Malformed), "{oid:?} {value:?}");
        }
    }
}

#[test]
fn lists_end_behind_what_cannot_be_read() {
    let mut names = GeneralNames::new(b"\x30\x08\x82\x01a\x87\x03\x01\x02");
    assert_eq!(names.next(), Some(Err(Error::Malformed)));
    assert_eq!(names.next(), None);
    let mut names = GeneralNames::new(b"\x30\x05\x82\x01a\x05\x00");
    assert!(matches!(names.next(), Some(Ok(_))));
    assert_eq!(names.next(), Some(Err(Error::Malformed)));
    assert_eq!(names.next(), None);
    let mut extensions = Extensions::new(b"\x30\x02\x05\x00");
    assert_eq!(extensions.next(), Some(Err(Error::Malformed)));
    assert_eq!(extensions.next(), None);
    assert_eq!(Extensions::new(b"").next(), None);
    assert_eq!(GeneralNames::new(b"").next(), Some(Err(Error::Malformed)));
}

#[test]
fn errors() {
    let error: Box<dyn std::error::Error + Send + Sync> = KeyUsage::from_der(b"")
        .expect_err("it has no octets")
        .into();
    assert_eq!(error.to_string(), Error::Malformed.to_string());
}

/// A signer with any algorithm and any key, whose bits are no signature.
struct Any<'a>(&'a [u8], &'a [u8]);

impl Signer for Any<'_> {
    type Error = std::convert::Infallible;

    fn algorithm(&self) -> &[u8] {
        self.0
    }

    fn subject_public_key_info(&self) -> &[u8] {
        self.1
    }

    fn sign(&self, message: &[u8]) -> Result<Vec<u8>, Self::Error> {
        Ok(message[..message.len() / 2].to_vec())
    }
}

#[test]
fn builders_over_changed_keys_and_algorithms() {
    let certificate = CertificateRef::from_der(CERTIFICATE).expect("a certificate");
    let key = certificate.subject_public_key_info();
    let algorithm = certificate.signature().expect("a signature").algorithm;
    let name = certificate.subject().to_owned();
    let mut made = 0;
    for at in 0..key.len() + algorithm.len() {
        for flip in [0x01, 0x20, 0x80, 0xff] {
            let mut changed = [key, algorithm].concat();
            changed[at] ^= flip;
            let (key, algorithm) = changed.split_at(key.len());
            let signer = Any(algorithm, key);
            let serial_number = SerialNumber::try_from(1).expect("a number");
            let validity = certificate.validity();
            let builder = CertificateBuilder::new(serial_number, &name, validity, &name, key);
            match builder.build(&signer) {
                Ok(built) => {
                    assert_eq!(built.subject_public_key_info(), key);
                    assert_eq!(built.signature().map(|it| it.algorithm), Ok(algorithm));
                    made += 1;
                }
                Err(error) => assert_eq!(error, BuildError::Refused(Error::Malformed)),
            }
            if let Ok(csr) = CsrBuilder::new(&name).build(&signer) {
                assert_eq!(csr.subject_public_key_info(), key);
            }
        }
    }
    // the bits of the key may be any
    assert!(made > 200);
}
