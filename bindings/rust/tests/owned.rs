//! What a borrowed object says its owned one says by the same methods, as the sources have them, and both have the same traits.
use std::fmt::Debug;
use std::hash::{DefaultHasher, Hash, Hasher};
use x509_rattle::{Certificate, CertificateRef, Crl, CrlRef, Csr, CsrRef, Error, Name, NameRef};

const OBJECTS: [(&str, &str, &str); 4] = [
    (
        "Certificate",
        "CertificateRef",
        include_str!("../src/certificate.rs"),
    ),
    ("Crl", "CrlRef", include_str!("../src/crl.rs")),
    ("Csr", "CsrRef", include_str!("../src/csr.rs")),
    ("Name", "NameRef", include_str!("../src/name.rs")),
];

/// Names of public functions between a line and the next one that ends an item.
fn functions<'a>(source: &'a str, line: &str) -> Vec<&'a str> {
    let (_, rest) = source.split_once(line).expect("the methods");
    let (body, _) = rest.split_once("\n}\n").expect("an end");
    let found = body.split(" pub fn ").skip(1);
    found
        .map(|it| it.split(['(', '<']).next().expect("a name"))
        .collect()
}

#[test]
fn the_same_methods() {
    for (owned, borrowed, source) in OBJECTS {
        let of_owned = functions(source, &format!("\nimpl {owned} {{\n"));
        let of_borrowed = functions(source, &format!("\nimpl<'a> {borrowed}<'a> {{\n"));
        assert!(
            of_borrowed.len() > 6 && of_borrowed.contains(&"to_owned"),
            "{borrowed}"
        );
        let missing = of_borrowed.iter().filter(|it| !of_owned.contains(it));
        assert_eq!(missing.collect::<Vec<_>>(), [&"to_owned"], "{owned}");
        for more in ["to_ref", "into_der"] {
            assert!(of_owned.contains(&more), "{owned}::{more}");
        }
    }
}

fn hashed<T: Hash + ?Sized>(it: &T) -> u64 {
    let mut state = DefaultHasher::new();
    it.hash(&mut state);
    state.finish()
}

/// Asks whether objects are compared, hashed, lent and read by their DER, of two and of bytes that are refused; what `Debug` writes of the first.
fn shown<D, T>(from_der: fn(D) -> Result<T, Error>, der: D, other: D, refused: D) -> String
where
    D: AsRef<[u8]> + Clone,
    T: Eq + Hash + AsRef<[u8]> + Debug + TryFrom<D, Error = Error>,
{
    let read = from_der(der.clone()).expect("an object");
    assert_eq!(read.as_ref(), der.as_ref());
    assert_eq!(hashed(&read), hashed(der.as_ref()));
    let other = from_der(other).expect("another object");
    assert!(read != other && hashed(&read) != hashed(&other));
    let error = from_der(refused.clone()).expect_err("no object");
    assert_eq!(T::try_from(refused), Err(error));
    let text = format!("{read:?}");
    assert_eq!(T::try_from(der), Ok(read));
    text
}

/// Asks it of the owned object of these bytes and of the borrowed one: with another last bit they are an object too, without the last byte none.
macro_rules! same_traits {
    ($owned:ident, $borrowed:ident, $der:expr) => {
        let (der, mut other) = ($der.to_vec(), $der.to_vec());
        *other.last_mut().expect("a byte") ^= 1;
        let cut = &der[..der.len() - 1];
        let borrowed = shown($borrowed::from_der, &der[..], &other, cut);
        let owned = shown($owned::from_der, der.clone(), other.clone(), cut.to_vec());
        assert_eq!(owned, borrowed);
        assert!(owned.starts_with(stringify!($owned)), "{owned}");
    };
}

#[test]
fn the_same_traits() {
    same_traits!(
        Certificate,
        CertificateRef,
        include_bytes!("../../../examples/data/certificate.der")
    );
    same_traits!(
        Crl,
        CrlRef,
        include_bytes!("../../../examples/data/list.der")
    );
    same_traits!(
        Csr,
        CsrRef,
        include_bytes!("../../../examples/data/request.der")
    );
    // CN=a
    same_traits!(
        Name,
        NameRef,
        b"\x30\x0c\x31\x0a\x30\x08\x06\x03\x55\x04\x03\x0c\x01a"
    );
}
