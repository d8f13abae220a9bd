//! The documents of the files of the examples, by what openssl prints of them, and of a trust anchor by hand.
use x509_rattle::{Certificate, CertificateRef, Crl, CsrRef, TrustAnchor};

const CERTIFICATE: &[u8] = include_bytes!("../../../examples/data/certificate.der");
const LIST: &[u8] = include_bytes!("../../../examples/data/list.der");
const REQUEST: &[u8] = include_bytes!("../../../examples/data/request.der");

const NAME: &str = "CN=www.example.org,O=Beispiel\\, Söhne & Co,C=DE";

/// A line of which the text stands here, under so many others.
type Line<'a> = (usize, &'a str, &'a str);

/// The document of these lines, as text and as JSON: of the characters of these texts the backslash alone is escaped.
fn documents(lines: &[Line]) -> (String, String) {
    let text = lines.iter().map(|(depth, label, text)| {
        let space = if text.is_empty() { "" } else { " " };
        format!("{}{label}:{space}{text}\n", "  ".repeat(*depth))
    });
    let entries = lines.iter().map(|(depth, label, text)| {
        let text = text.replace('\\', "\\\\");
        format!("{{\"depth\": {depth}, \"label\": \"{label}\", \"text\": \"{text}\"}}")
    });
    let json = entries.collect::<Vec<_>>().join(",\n");
    (text.collect(), format!("[{json}\n]\n"))
}

fn hex(octets: &[u8]) -> String {
    octets.iter().map(|octet| format!("{octet:02x}")).collect()
}

/// What a certificate says behind the line of its type, with these octets of the key and the signature in hex.
fn certificate_lines<'a>(key: &'a str, signature: &'a str) -> Vec<Line<'a>> {
    vec![
        (0, "version", "v3"),
        (0, "serial", "12:34:56:78:90:AB:CD:EF"),
        (0, "algorithm", "ecdsa-with-SHA256"),
        (0, "issuer", NAME),
        (0, "not before", "2026-01-02 03:04:05 UTC"),
        (0, "not after", "2055-06-07 08:09:10 UTC"),
        (0, "subject", NAME),
        (0, "key algorithm", "id-ecPublicKey"),
        (1, "parameters", "secp256r1"),
        (0, "key size", "256 bits"),
        (0, "key", key),
        (0, "extension", "keyUsage, critical"),
        (1, "usage", "digitalSignature"),
        (1, "usage", "keyEncipherment"),
        (0, "extension", "subjectAltName"),
        (1, "DNS name", "www.example.org"),
        (1, "DNS name", "example.org"),
        (1, "email", "post@example.org"),
        (1, "IP address", "192.0.2.7"),
        (0, "signature algorithm", "ecdsa-with-SHA256"),
        (0, "signature", signature),
    ]
}

#[test]
fn certificates() {
    let it = CertificateRef::from_der(CERTIFICATE).expect("a certificate");
    let key = hex(it.public_key().expect("a key").bits);
    let signature = hex(it.signature().expect("a signature").bits);
    let lines = certificate_lines(&key, &signature);
    let (text, json) = documents(&[&[(0, "type", "certificate")], &lines[..]].concat());
    assert_eq!(it.to_text().as_deref(), Ok(&text[..]));
    assert_eq!(it.to_json().as_deref(), Ok(&json[..]));
    let owned = Certificate::from_der(CERTIFICATE.to_vec()).expect("a certificate");
    assert_eq!((owned.to_text(), owned.to_json()), (Ok(text), Ok(json)));

    // a certificate is a trust anchor
    let kind = [(0, "type", "trust anchor"), (0, "choice", "certificate")];
    let (text, json) = documents(&[&kind, &lines[..]].concat());
    let anchor = TrustAnchor::from_der(CERTIFICATE).expect("an anchor");
    assert_eq!((anchor.to_text(), anchor.to_json()), (Ok(text), Ok(json)));
}

#[test]
fn crls() {
    let it = Crl::from_der(LIST.to_vec()).expect("a CRL");
    let signature = hex(it.signature().expect("a signature").bits);
    let (text, json) = documents(&[
        (0, "type", "CRL"),
        (0, "version", "v2"),
        (0, "algorithm", "ecdsa-with-SHA256"),
        (0, "issuer", NAME),
        (0, "this update", "2026-02-01 00:00:00 UTC"),
        (0, "next update", "2026-03-01 00:00:00 UTC"),
        (0, "revoked", "01"),
        (1, "revocation date", "2026-01-20 10:00:00 UTC"),
        (0, "revoked", "12:34:56:78:90:AB:CD:EF"),
        (1, "revocation date", "2026-01-20 10:00:00 UTC"),
        (1, "extension", "reasonCode"),
        (2, "reason", "keyCompromise"),
        (0, "revoked", "03"),
        (1, "revocation date", "2026-01-20 10:00:00 UTC"),
        (0, "signature algorithm", "ecdsa-with-SHA256"),
        (0, "signature", &signature),
    ]);
    assert_eq!((it.to_text(), it.to_json()), (Ok(text), Ok(json)));
}

#[test]
fn csrs() {
    let it = CsrRef::from_der(REQUEST).expect("a CSR");
    let key = hex(it.public_key().expect("a key").bits);
    let signature = hex(it.signature().expect("a signature").bits);
    let (text, json) = documents(&[
        (0, "type", "CSR"),
        (0, "version", "v1"),
        (0, "subject", NAME),
        (0, "key algorithm", "id-ecPublicKey"),
        (1, "parameters", "secp256r1"),
        (0, "key size", "256 bits"),
        (0, "key", &key),
        (0, "attribute", "challengePassword"),
        (1, "challenge password", "password"),
        (0, "attribute", "extensionRequest"),
        (1, "extension", "subjectAltName"),
        (2, "DNS name", "www.example.org"),
        (0, "signature algorithm", "ecdsa-with-SHA256"),
        (0, "signature", &signature),
    ]);
    assert_eq!((it.to_text(), it.to_json()), (Ok(text), Ok(json)));
}

/// RFC 5914 2, by hand: an empty key, the identifier abcd, and a title with a line feed, a separator of lines and a mark of direction.
#[test]
fn lines_that_a_title_would_forge() {
    let der = b"\xa2\x25\x30\x23\x30\x08\x30\x03\x06\x01\x2a\x03\x01\x00\x04\x02\xab\xcd\x0c\x13T\"\nserial: 00\xe2\x80\xa8\xe2\x80\xae";
    let it = TrustAnchor::from_der(der).expect("an anchor");
    assert_eq!(it.title(), Some("T\"\nserial: 00\u{2028}\u{202e}"));
    let text = it.to_text().expect("a text");
    assert_eq!(text.lines().count(), 7);
    assert!(text.ends_with("\ntitle: T\"\\0aserial: 00\\e2\\80\\a8\\e2\\80\\ae\n"));
    let json = it.to_json().expect("a text");
    let title =
        "{\"depth\": 0, \"label\": \"title\", \"text\": \"T\\\"\\u000aserial: 00\\u2028\\u202e\"}";
    assert!(json.ends_with(&format!(",\n{title}\n]\n")));
}
