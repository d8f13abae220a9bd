//! The CSR of the examples, by what `examples/data/make.py` puts into it.
use x509_rattle::extension::ParsedExtension;
use x509_rattle::{oid, Csr, CsrRef, Error, GeneralName, ObjectIdentifier};

const DER: &[u8] = include_bytes!("../../../examples/data/request.der");

#[test]
fn parts() {
    let it = CsrRef::from_der(DER).expect("a CSR");
    assert_eq!(
        it.subject().to_rfc4514().as_deref(),
        Ok("CN=www.example.org,O=Beispiel\\, Söhne & Co,C=DE")
    );
    // a key of P-256 (RFC 5480)
    assert_eq!(it.subject_public_key_info().len(), 91);
    let signature = it.signature().expect("a signature");
    assert_eq!(signature.signed_part[0], 0x30);
    assert!(DER[4..].starts_with(signature.signed_part));
    assert!(DER.ends_with(signature.bits));
    assert_eq!(it.as_der(), DER);
    assert_eq!(CsrRef::from_der(DER), Ok(it));
}

#[test]
fn attributes() {
    let it = CsrRef::from_der(DER).expect("a CSR");
    let found: Vec<_> = it.attributes().map(|found| found.expect("one")).collect();
    assert_eq!(found.len(), 2);
    let password: ObjectIdentifier = "1.2.840.113549.1.9.7".parse().expect("an identifier");
    assert_eq!(found[0].oid, password);
    let values: Vec<_> = found[0].values().map(|it| it.expect("a value")).collect();
    assert_eq!(values.len(), 1);
    assert_eq!((values[0].tag, values[0].content), (0x0c, &b"password"[..]));
    assert_eq!(values[0].der, b"\x0c\x08password");
}

#[test]
fn extensions() {
    let it = CsrRef::from_der(DER).expect("a CSR");
    let found: Vec<_> = it
        .extensions()
        .expect("extensions")
        .map(|found| found.expect("one").parsed().expect("a value"))
        .collect();
    let [ParsedExtension::SubjectAltName(names)] = &found[..] else {
        panic!("another list of extensions");
    };
    assert_eq!(names.0, [GeneralName::DnsName("www.example.org")]);
}

#[test]
fn refusals() {
    for len in 0..DER.len() {
        assert_eq!(CsrRef::from_der(&DER[..len]).err(), Some(Error::Malformed));
    }
    for at in 0..DER.len() {
        for octet in [0, 127, 255] {
            let mut changed = DER.to_vec();
            changed[at] = octet;
            let Ok(it) = CsrRef::from_der(&changed) else {
                continue;
            };
            let _ = it.subject().to_rfc4514();
            for attribute in it.attributes().flatten() {
                attribute.values().for_each(drop);
            }
            if let Ok(extensions) = it.extensions() {
                extensions.for_each(drop);
            }
        }
    }
}

#[test]
fn borrowed_and_owned() {
    let owned = Csr::from_der(DER.to_vec()).expect("a CSR");
    let borrowed = CsrRef::from_der(DER).expect("a CSR");
    assert_eq!(
        (owned.to_ref(), borrowed.to_owned()),
        (borrowed, owned.clone())
    );
    assert_eq!(CsrRef::try_from(DER), Ok(borrowed));
    assert_eq!(Csr::try_from(DER.to_vec()), Ok(owned.clone()));
    assert_eq!(owned.subject(), borrowed.subject());
    assert_eq!(owned.public_key(), borrowed.public_key());
    assert_eq!(
        owned.subject_public_key_info(),
        borrowed.subject_public_key_info()
    );
    assert_eq!(owned.signature(), borrowed.signature());
    assert_eq!(owned.attributes().count(), borrowed.attributes().count());
    let password = oid::request::CHALLENGE_PASSWORD;
    assert_eq!(owned.attribute(password), borrowed.attribute(password));
    assert_eq!(owned.extensions().expect("a list").count(), 1);
    let part = owned.certification_request_info();
    assert_eq!(part, borrowed.certification_request_info());
    assert_eq!(part, owned.signature().map(|it| it.signed_part));
    assert_eq!(
        (owned.to_text(), owned.to_json()),
        (borrowed.to_text(), borrowed.to_json())
    );
    assert_eq!(format!("{owned:?}"), format!("{borrowed:?}"));
    assert_eq!(
        (owned.as_der(), owned.as_ref()),
        (borrowed.as_der(), borrowed.as_ref())
    );
    assert_eq!(owned.into_der(), DER);
    assert_eq!(Csr::from_der(DER[1..].to_vec()), Err(Error::Malformed));
}
