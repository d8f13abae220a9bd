//! Names of peers, and whether the certificate of the examples is theirs. Its names are www.example.org, example.org, post@example.org and 192.0.2.7.
use std::collections::HashSet;
use std::net::{IpAddr, Ipv4Addr, Ipv6Addr};
use x509_rattle::{Certificate, CertificateRef, DnsName, EmailAddress, Error, ServerName};

const DER: &[u8] = include_bytes!("../../../examples/data/certificate.der");

fn server(text: &str) -> ServerName {
    text.parse().expect(text)
}

fn email(text: &str) -> EmailAddress {
    text.parse().expect(text)
}

#[test]
fn servers() {
    let it = CertificateRef::from_der(DER).expect("a certificate");
    for (name, is_its) in [
        ("www.example.org", true),
        ("EXAMPLE.org.", true),
        ("192.0.2.7", true),
        ("a.example.org", false),
        ("org", false),
        ("192.0.2.8", false),
        ("::ffff:192.0.2.7", false),
    ] {
        assert_eq!(it.matches_name(&server(name)), Ok(is_its), "{name}");
    }
    let owned = Certificate::from_der(DER.to_vec()).expect("a certificate");
    assert_eq!(owned.matches_name(&server("example.org")), Ok(true));
    assert_eq!(
        owned.matches_name(&IpAddr::from(Ipv4Addr::new(192, 0, 2, 7)).into()),
        Ok(true)
    );
}

#[test]
fn mailboxes() {
    let it = CertificateRef::from_der(DER).expect("a certificate");
    assert_eq!(it.matches_email(&email("post@EXAMPLE.org")), Ok(true));
    assert_eq!(it.matches_email(&email("Post@example.org")), Ok(false));
    let owned = Certificate::from_der(DER.to_vec()).expect("a certificate");
    assert_eq!(owned.matches_email(&email("post@example.org")), Ok(true));
}

#[test]
fn texts() {
    let address = |text: &str| ServerName::from(text.parse::<IpAddr>().expect(text));
    assert_eq!(server("192.0.2.7"), address("192.0.2.7"));
    assert_eq!(server("[2001:DB8::1]"), address("2001:db8::1"));
    assert_eq!(
        server("::ffff:1.2.3.4"),
        IpAddr::from(Ipv6Addr::new(0, 0, 0, 0, 0, 0xffff, 0x102, 0x304)).into()
    );
    assert_eq!(server("[::1]").to_string(), "::1");
    assert_eq!(server("A.example.").to_string(), "A.example");
    let name: DnsName = "a.example".parse().expect("a name");
    assert_eq!(server("A.example."), name.clone().into());
    assert_eq!(name.as_str(), "a.example");
    let names: HashSet<ServerName> = ["a.example", "A.EXAMPLE."].map(server).into();
    assert_eq!(names.len(), 1);
    for text in [
        "",
        ".",
        "a..b",
        "*.example.org",
        "192.0.2",
        "bücher.example",
        "[::1",
        "a.1",
    ] {
        assert_eq!(text.parse::<ServerName>(), Err(Error::ServerName), "{text}");
        assert_eq!(ServerName::try_from(text), Err(Error::ServerName), "{text}");
    }
    assert_eq!("::1".parse::<DnsName>(), Err(Error::ServerName));
}

#[test]
fn addresses_of_email() {
    let it = email("a@b@c.Example");
    assert_eq!((it.local_part(), it.host().as_str()), ("a@b", "c.Example"));
    assert_eq!(it.to_string(), "a@b@c.Example");
    assert_eq!(it, email("a@b@C.example"));
    assert_ne!(it, email("A@b@c.example"));
    for text in ["", "a", "@b", "a@", "a@b.", "a@192.0.2.7", "a\\b@c", "ä@c"] {
        assert_eq!(
            text.parse::<EmailAddress>(),
            Err(Error::EmailAddress),
            "{text}"
        );
        assert_eq!(
            EmailAddress::try_from(text),
            Err(Error::EmailAddress),
            "{text}"
        );
    }
}
