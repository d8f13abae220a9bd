//! The parts of keys, by bytes that are spelled by hand from the standards.
use x509_rattle::{Error, KeyKind, PublicKey};

fn element(tag: u8, content: &[u8]) -> Vec<u8> {
    let len = content.len();
    let front = match len {
        0..=127 => vec![tag, len as u8],
        _ => vec![tag, 0x82, (len >> 8) as u8, len as u8],
    };
    [front, content.to_vec()].concat()
}

fn info(algorithm: &[u8], bits: &[u8]) -> Vec<u8> {
    let bits = element(3, &[&[0], bits].concat());
    element(0x30, &[element(0x30, algorithm), bits].concat())
}

// rsaEncryption with NULL, id-dsa, id-ecPublicKey and secp256r1 (RFC 3279 2.3.1, 2.3.2, RFC 5480 2.1.1)
const RSA: &[u8] = b"\x06\x09\x2a\x86\x48\x86\xf7\x0d\x01\x01\x01\x05\x00";
const DSA: &[u8] = b"\x06\x07\x2a\x86\x48\xce\x38\x04\x01";
const EC: &[u8] = b"\x06\x07\x2a\x86\x48\xce\x3d\x02\x01";
const P256: &[u8] = b"\x06\x08\x2a\x86\x48\xce\x3d\x03\x01\x07";
const SECP256K1: &[u8] = b"\x06\x05\x2b\x81\x04\x00\x0a";

#[test]
fn rsa() {
    let modulus = element(2, &[&[0, 0xc5][..], &[7; 255]].concat());
    let der = info(
        RSA,
        &element(0x30, &[&modulus[..], b"\x02\x03\x01\x00\x01"].concat()),
    );
    let key = PublicKey::from_der(&der).expect("a key");
    let found = key.rsa().expect("numbers").expect("of RSA");
    assert_eq!(found.modulus.as_bytes(), &modulus[4..]);
    assert_eq!(found.public_exponent.to_u128(), Some(65_537));
    assert_eq!(key.size(), Some(2048));
    assert_eq!((key.curve(), key.point()), (Ok(None), None));
}

#[test]
fn no_rsa() {
    for bits in [
        &b""[..],
        b"\x05\x00",
        b"\x30\x00",
        b"\x30\x03\x02\x01\x05",
        b"\x30\x06\x02\x01\x05\x02\x01\x03\x00",
        b"\x30\x09\x02\x01\x05\x02\x01\x03\x02\x01\x07",
        b"\x30\x06\x02\x01\xff\x02\x01\x03",
        b"\x30\x07\x02\x02\x00\x05\x02\x01\x03",
        b"\x30\x06\x04\x01\x05\x02\x01\x03",
    ] {
        let der = info(RSA, bits);
        let key = PublicKey::from_der(&der).expect("a key");
        assert_eq!(key.rsa(), Err(Error::Malformed), "{bits:02x?}");
        assert_eq!(key.size(), None, "{bits:02x?}");
    }
}

#[test]
fn curves() {
    let point = [&[4][..], &[1; 64]].concat();
    let der = info(&[EC, P256].concat(), &point);
    let key = PublicKey::from_der(&der).expect("a key");
    let name = key.curve().expect("a name").expect("it is named");
    assert_eq!(name.to_string(), "1.2.840.10045.3.1.7");
    assert_eq!((key.point(), key.size()), (Some(&point[..]), Some(256)));
    assert_eq!(key.rsa(), Ok(None));

    let der = info(&[EC, SECP256K1].concat(), &point);
    let key = PublicKey::from_der(&der).expect("a key");
    let name = key.curve().expect("a name").expect("it is named");
    assert_eq!(
        (key.kind, name.to_string().as_str()),
        (KeyKind::EcOther, "1.3.132.0.10")
    );
    assert_eq!((key.point(), key.size()), (Some(&point[..]), Some(256)));

    // a curve that isn't named, and none
    for parameters in [&b"\x30\x00"[..], b"\x05\x00", b""] {
        let der = info(&[EC, parameters].concat(), &point);
        let key = PublicKey::from_der(&der).expect("a key");
        assert_eq!(key.curve(), Ok(None), "{parameters:02x?}");
        assert_eq!(key.point(), Some(&point[..]));
    }
}

#[test]
fn others() {
    // RFC 8410 4
    let der = info(b"\x06\x03\x2b\x65\x70", &[1; 32]);
    let key = PublicKey::from_der(&der).expect("a key");
    assert_eq!((key.point(), key.size()), (Some(&[1; 32][..]), Some(256)));
    assert_eq!((key.curve(), key.rsa()), (Ok(None), Ok(None)));

    // a prime of 9 bits
    let numbers = element(0x30, b"\x02\x02\x01\x01\x02\x01\x05\x02\x01\x02");
    let der = info(&[DSA, &numbers].concat(), b"\x02\x01\x03");
    let key = PublicKey::from_der(&der).expect("a key");
    assert_eq!(
        (key.kind, key.size(), key.point()),
        (KeyKind::Dsa, Some(9), None)
    );
    let der = info(DSA, b"\x02\x01\x03");
    assert_eq!(PublicKey::from_der(&der).expect("a key").size(), None);
    let der = info(&[DSA, b"\x30\x00"].concat(), b"\x02\x01\x03");
    assert_eq!(PublicKey::from_der(&der).expect("a key").size(), None);
}
