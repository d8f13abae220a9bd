//! The rules that the files of the examples, and a certificate and trust anchors by hand, break (RFC 5280 4.1, 4.2, 5.2; RFC 5914 2.4).
use x509_rattle::{
    Certificate, CertificateRef, Crl, CrlRef, Csr, CsrRef, Finding, Severity, TrustAnchor,
};

const CERTIFICATE: &[u8] = include_bytes!("../../../examples/data/certificate.der");
const LIST: &[u8] = include_bytes!("../../../examples/data/list.der");
const REQUEST: &[u8] = include_bytes!("../../../examples/data/request.der");

/// A certificate that breaks no rule, in hex: number 1, from 2026-01-02 for a year, with AKI, SKI and KeyUsage.
const CLEAN: &str = "\
    308201143081faa003020102020101300a06082a8648ce3d04030230173115301306035504030c0c416e20617574686f\
    72697479301e170d3236303130323033303430355a170d3237303130323033303430355a30143112301006035504030c\
    0941207375626a6563743059301306072a8648ce3d020106082a8648ce3d030107034200040000000000000000000000\
    000000000000000000000000000000000000000000000000000000000000000000000000000000000000000000000000\
    0000000000a33a303830140603551d23040d300b8009617574686f7269747930100603551d0e040904077375626a6563\
    74300e0603551d0f0101ff040403020780300a06082a8648ce3d0403020309003006020101020102";

/// Where its number stands.
const NUMBER: usize = 14;

fn clean() -> Vec<u8> {
    let octet = |at| u8::from_str_radix(&CLEAN[at..at + 2], 16).expect("hex");
    (0..CLEAN.len()).step_by(2).map(octet).collect()
}

/// The rule, its severity, its section, its place, and what is seen.
fn told(found: &Finding) -> (&str, Severity, &str, &str, &str) {
    let it = found;
    (&it.rule, it.severity, &it.section, &it.place, &it.seen)
}

#[test]
fn certificates() {
    // it is its own issuer's, so that it needs no AKI, and has no SKI; its key is of ECDSA, and may encipher keys
    let it = CertificateRef::from_der(CERTIFICATE).expect("a certificate");
    let found = it.lint().expect("findings");
    let place = "tbsCertificate.extensions.subjectKeyIdentifier";
    let rule = "subject_key_identifier_absent";
    assert_eq!(found.len(), 2);
    assert_eq!(
        told(&found[0]),
        (rule, Severity::Warning, "RFC 5280 4.2.1.2", place, "")
    );
    let (rule, place) = ("ec_key_usage_invalid", "tbsCertificate.extensions.keyUsage");
    assert_eq!(
        told(&found[1]),
        (rule, Severity::Error, "RFC 8813 3", place, "")
    );
    assert_eq!(
        found[0].to_string(),
        "warning subject_key_identifier_absent (RFC 5280 4.2.1.2)"
    );
    let owned = Certificate::from_der(CERTIFICATE.to_vec()).expect("a certificate");
    assert_eq!(owned.lint().as_ref(), Ok(&found));
}

#[test]
fn numbers() {
    let mut der = clean();
    let it = CertificateRef::from_der(&der).expect("a certificate");
    assert_eq!(it.lint(), Ok(vec![]));
    der[NUMBER] = 0;
    let it = CertificateRef::from_der(&der).expect("a certificate");
    let found = it.lint().expect("findings");
    let (rule, place) = ("serial_number_not_positive", "tbsCertificate.serialNumber");
    assert_eq!(found.len(), 1);
    assert_eq!(
        told(&found[0]),
        (rule, Severity::Error, "RFC 5280 4.1.2.2", place, "00")
    );
}

#[test]
fn crls() {
    let it = CrlRef::from_der(LIST).expect("a CRL");
    let found = it.lint().expect("findings");
    let told: Vec<_> = found.iter().map(told).collect();
    let front = "tbsCertList.crlExtensions";
    assert_eq!(
        told,
        [
            (
                "authority_key_identifier_absent",
                Severity::Error,
                "RFC 5280 5.2.1",
                &format!("{front}.authorityKeyIdentifier")[..],
                ""
            ),
            (
                "crl_number_absent",
                Severity::Error,
                "RFC 5280 5.2.3",
                &format!("{front}.cRLNumber")[..],
                ""
            ),
        ]
    );
    let owned = Crl::from_der(LIST.to_vec()).expect("a CRL");
    assert_eq!(owned.lint().as_ref(), Ok(&found));
}

#[test]
fn csrs() {
    let it = CsrRef::from_der(REQUEST).expect("a CSR");
    let found = it.lint().expect("findings");
    // the password is a UTF8String, which a PrintableString could hold
    let place = "certificationRequestInfo.attributes.challengePassword";
    let rule = "challenge_password_type";
    assert_eq!(found.len(), 1);
    assert_eq!(
        told(&found[0]),
        (rule, Severity::Warning, "RFC 2985 5.4.1", place, "")
    );
    let owned = Csr::from_der(REQUEST.to_vec()).expect("a CSR");
    assert_eq!(owned.lint().as_ref(), Ok(&found));
}

#[test]
fn anchors() {
    // the certificate of the files is a trust anchor, and breaks what the certificate does
    let it = TrustAnchor::from_der(CERTIFICATE).expect("an anchor");
    let found = it.lint().expect("findings");
    let certificate = CertificateRef::from_der(CERTIFICATE).expect("a certificate");
    assert_eq!(certificate.lint().as_ref(), Ok(&found));
    // a description with the identifier abcd and the title é, in German
    let der = b"\xa2\x18\x30\x16\x30\x08\x30\x03\x06\x01\x2a\x03\x01\x00\x04\x02\xab\xcd\x0c\x02\xc3\xa9\x82\x02de";
    let it = TrustAnchor::from_der(der).expect("an anchor");
    assert_eq!(it.lint(), Ok(vec![]));
    // one with a title of no characters, and a key usage that is a NULL
    let der = b"\xa2\x1f\x30\x1d\x30\x08\x30\x03\x06\x01\x2a\x03\x01\x00\x04\x00\x0c\x00\xa1\x0d\x30\x0b\x30\x09\x06\x03\x55\x1d\x0f\x04\x02\x05\x00";
    let it = TrustAnchor::from_der(der).expect("an anchor");
    let found = it.lint().expect("findings");
    let told: Vec<_> = found.iter().map(told).collect();
    assert_eq!(
        told,
        [
            (
                "ta_title_size",
                Severity::Error,
                "RFC 5914 2.4",
                "taInfo.taTitle",
                ""
            ),
            (
                "extension_malformed",
                Severity::Error,
                "RFC 5280 4.2",
                "taInfo.exts.keyUsage",
                "0500"
            ),
        ]
    );
}
