//! Names of values, beside their DER by hand and the names that texts read as.
use x509_rattle::oid::attribute;
use x509_rattle::{escape_value, Error, Name, StringType};

// X.501 9.2, RFC 5280 A.1: C=DE as a PrintableString, O=a and CN=ö as UTF8Strings
const DER: &[u8] = b"\x30\x29\x31\x0b\x30\x09\x06\x03\x55\x04\x06\x13\x02DE\
    \x31\x0c\x30\x0a\x06\x03\x55\x04\x0a\x0c\x03a,b\x31\x0c\x30\x0a\x06\x03\x55\x04\x03\x0c\x03\xc3\xb6x";

#[test]
fn der() {
    let mut builder = Name::builder();
    builder.country_name("DE").organization_name("a,b");
    let name = builder.common_name("öx").build().expect("a name");
    assert_eq!(name.as_der(), DER);
    assert_eq!(name.to_string(), r"CN=öx,O=a\,b,C=DE");
    assert_eq!(Name::from_der(DER.to_vec()), Ok(name));
    let nothing = Name::builder().build().expect("the empty name");
    assert_eq!(
        (nothing.as_der(), nothing.to_string().as_str()),
        (&b"\x30\x00"[..], "")
    );
}

// the members of a SET OF stand in the order of their encodings (X.690 11.6)
#[test]
fn the_order_of_a_relative_name() {
    let der = b"\x30\x18\x31\x16\x30\x08\x06\x03\x55\x04\x03\x0c\x01b\x30\x0a\x06\x03\x55\x04\x03\x0c\x03bbb";
    let of = |texts: [&str; 2]| {
        let attributes = texts.map(|text| (attribute::COMMON_NAME, StringType::AsWanted, text));
        Name::builder().rdn(&attributes).build()
    };
    for texts in [["b", "bbb"], ["bbb", "b"]] {
        assert_eq!(of(texts).as_ref().map(Name::as_der), Ok(&der[..]));
    }
    assert_eq!(of(["b", "b"]), Err(Error::SetDuplicate));
}

/// Texts with each character that means something in a text of a name (RFC 4514 2.4, 3), at each end and within.
fn texts() -> Vec<String> {
    let letters = (0..=0x7f).map(char::from);
    let letters = letters.chain([
        '\u{80}',
        'ö',
        '\u{2028}',
        '\u{202e}',
        '\u{fffd}',
        '\u{10ffff}',
    ]);
    let around = letters.flat_map(|it| {
        [
            format!("{it}"),
            format!("{it}{it}"),
            format!("{it}a"),
            format!("a{it}"),
            format!("a{it}b"),
            format!("a,{it}O=b"),
        ]
    });
    let others = [
        "",
        "#04024869",
        "a,O=Evil",
        "a+O=Evil",
        r"a\,O=Evil",
        r"\2c",
        "  a  ",
    ];
    around.chain(others.map(str::to_owned)).collect()
}

#[test]
fn no_character_adds_an_attribute() {
    for text in texts() {
        let mut builder = Name::builder();
        builder.country_name("DE").without_bounds();
        let name = builder.common_name(&text).build().expect("a name");
        let found: Vec<_> = name
            .to_ref()
            .attributes()
            .map(|it| it.expect("one"))
            .collect();
        assert_eq!(found.len(), 2, "{text:?}");
        assert_eq!(found[1].text().as_deref(), Some(&text[..]));
        // the text of the name, and one with the value escaped, read as the name
        assert_eq!(name.to_string().parse().as_ref(), Ok(&name), "{text:?}");
        let escaped = escape_value(&text).expect("a text");
        let read: Result<Name, Error> = format!("CN={escaped},C=DE").parse();
        assert_eq!(read, Ok(name), "{text:?}");
    }
}

#[test]
fn escapes() {
    assert_eq!(escape_value("a b").as_deref(), Ok("a b"));
    assert_eq!(escape_value("a,O=Evil").as_deref(), Ok(r"a\,O=Evil"));
    assert_eq!(
        escape_value(" #\"+;<>\\ ").as_deref(),
        Ok(r#"\ #\"\+\;\<\>\\\ "#)
    );
    assert_eq!(escape_value("#a").as_deref(), Ok(r"\#a"));
    assert_eq!(escape_value("\0").as_deref(), Ok(r"\00"));
}

/// The DER of a name of relative names, each of attributes: the last octet of its type (RFC 5280 A.1: 3 CN, 6 C, 10 O), the tag of its value and that.
fn encoded(rdns: &[&[(&[u8], u8, &[u8])]]) -> Name {
    let element = |tag: u8, content: Vec<u8>| [vec![tag, content.len() as u8], content].concat();
    let attribute = |&(oid, tag, value): &(&[u8], u8, &[u8])| {
        element(
            0x30,
            [element(6, oid.to_vec()), element(tag, value.to_vec())].concat(),
        )
    };
    let rdn = |rdn: &&[(&[u8], u8, &[u8])]| element(0x31, rdn.iter().flat_map(attribute).collect());
    Name::from_der(element(0x30, rdns.iter().flat_map(rdn).collect())).expect("a name")
}

const CN: &[u8] = b"\x55\x04\x03";
const C: &[u8] = b"\x55\x04\x06";
const O: &[u8] = b"\x55\x04\x0a";
const EMAIL: &[u8] = b"\x2a\x86\x48\x86\xf7\x0d\x01\x09\x01";
const DC: &[u8] = b"\x09\x92\x26\x89\x93\xf2\x2c\x64\x01\x19";
// PrintableString, UTF8String, T61String, IA5String, UniversalString, BMPString
const PRINTABLE: u8 = 0x13;
const UTF8: u8 = 0x0c;
const T61: u8 = 0x14;
const IA5: u8 = 0x16;
const UNIVERSAL: u8 = 0x1c;
const BMP: u8 = 0x1e;

fn match_both_ways(a: &Name, b: &Name) -> bool {
    let found = a.matches(b).expect("an answer");
    assert_eq!(b.matches(a), Ok(found), "{a} {b}");
    assert_eq!(a.to_ref().matches(&b.to_ref()), Ok(found), "{a} {b}");
    found
}

// RFC 5280 7.1, RFC 4518 2
#[test]
fn matching_values() {
    let of = |oid, (tag, value): (u8, &[u8])| encoded(&[&[(oid, tag, value)]]);
    type Value<'a> = (u8, &'a [u8]);
    let rows: &[(&[u8], Value<'_>, Value<'_>, bool)] = &[
        (CN, (UTF8, b"a"), (UTF8, b"a"), true),
        (CN, (UTF8, b"a"), (UTF8, b"b"), false),
        // case, and the type of the string
        (CN, (UTF8, b"a"), (PRINTABLE, b"A"), true),
        (CN, (BMP, b"\0a"), (IA5, b"A"), true),
        (CN, (T61, b"a"), (T61, b"A"), true),
        (CN, (T61, b"a"), (UTF8, b"a"), true),
        // T.61 or Latin-1, so octets are compared
        (CN, (T61, b"\xe4"), (T61, b"\xc4"), false),
        (CN, (T61, b"\xe4"), (UTF8, "ä".as_bytes()), false),
        (CN, (UNIVERSAL, b"\0\0\0A"), (UTF8, b"a"), true),
        (CN, (UNIVERSAL, b"\0\0\0A"), (UTF8, b"b"), false),
        // spaces, and what is mapped to one or to nothing
        (CN, (UTF8, b" a  b"), (UTF8, b"A b "), true),
        (CN, (UTF8, b"a b"), (UTF8, b"ab"), false),
        (CN, (UTF8, b"a\tb"), (UTF8, b"a b"), true),
        (CN, (UTF8, "a\u{ad}b".as_bytes()), (UTF8, b"ab"), true),
        (CN, (UTF8, "a\u{3000}b".as_bytes()), (UTF8, b"a b"), true),
        // one character or two, a ligature, sharp s, full width
        (
            CN,
            (UTF8, "ä".as_bytes()),
            (UTF8, "A\u{308}".as_bytes()),
            true,
        ),
        (CN, (UTF8, "ä".as_bytes()), (BMP, b"\0\xc4"), true),
        (CN, (UTF8, "ä".as_bytes()), (UTF8, b"a"), false),
        (CN, (UTF8, "\u{fb01}".as_bytes()), (UTF8, b"FI"), true),
        (CN, (UTF8, "ß".as_bytes()), (UTF8, b"SS"), true),
        (CN, (UTF8, "\u{ff21}".as_bytes()), (UTF8, b"a"), true),
        // prohibited characters: for private use, and the replacement character
        (
            CN,
            (UTF8, "a\u{e000}".as_bytes()),
            (UTF8, "a\u{e000}".as_bytes()),
            true,
        ),
        (
            CN,
            (UTF8, "a\u{e000}".as_bytes()),
            (UTF8, "A\u{e000}".as_bytes()),
            false,
        ),
        (
            CN,
            (UTF8, "a\u{fffd}".as_bytes()),
            (UTF8, "A\u{fffd}".as_bytes()),
            false,
        ),
        // RFC 5280 4.1.2.6, 7.3
        (EMAIL, (IA5, b"a@b.c"), (IA5, b"a@B.C"), true),
        (EMAIL, (IA5, b"a@b.c"), (IA5, b"A@b.c"), true),
        (EMAIL, (IA5, b"a@b.c"), (IA5, b"a@b.d"), false),
        (DC, (IA5, b"a b"), (IA5, b"A B"), true),
        (DC, (IA5, b"a b"), (IA5, b"a  b"), false),
    ];
    for &(oid, a, b, wanted) in rows {
        assert_eq!(
            match_both_ways(&of(oid, a), &of(oid, b)),
            wanted,
            "{a:?} {b:?}"
        );
    }
}

// as many relative names, in order, and in each as many attributes, in any order (RFC 5280 7.1)
#[test]
fn matching_names() {
    let one = encoded(&[&[(O, UTF8, b"T"), (C, PRINTABLE, b"US")]]);
    let other = encoded(&[&[(C, PRINTABLE, b"us"), (O, PRINTABLE, b"t ")]]);
    let two = encoded(&[&[(C, PRINTABLE, b"US")], &[(O, UTF8, b"T")]]);
    let turned = encoded(&[&[(O, UTF8, b"T")], &[(C, PRINTABLE, b"US")]]);
    let empty = Name::builder().build().expect("a name");
    assert!(match_both_ways(&one, &other) && one != other);
    assert!(!match_both_ways(&one, &two));
    assert!(!match_both_ways(&two, &turned));
    assert!(!match_both_ways(
        &two,
        &encoded(&[&[(C, PRINTABLE, b"US")]])
    ));
    assert!(match_both_ways(&empty, &empty) && !match_both_ways(&empty, &one));
    // twice the same type in one relative name: each has a partner of its own
    let twice = encoded(&[&[(CN, UTF8, b"a"), (CN, UTF8, b"b")]]);
    let same = encoded(&[&[(CN, UTF8, b"A"), (CN, UTF8, b"a")]]);
    assert!(!match_both_ways(&twice, &same));
    assert!(match_both_ways(
        &twice,
        &encoded(&[&[(CN, UTF8, b"A"), (CN, UTF8, b"B")]])
    ));
}
