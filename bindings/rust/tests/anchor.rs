//! Trust anchors (RFC 5914): the certificate of the examples, what is signed of it, and a description by hand.
use x509_rattle::{
    AnchorKind, Certificate, Error, GeneralName, PathControls, PolicyFlags, TrustAnchor,
};

const CERTIFICATE: &[u8] = include_bytes!("../../../examples/data/certificate.der");

#[test]
fn certificates() {
    let certificate = Certificate::from_der(CERTIFICATE.to_vec()).expect("a certificate");
    let certificate = certificate.to_ref();
    let part = certificate.tbs_certificate().expect("a part");
    let [high, low] = u16::try_from(part.len()).expect("a length").to_be_bytes();
    let tagged = [&[0xa1, 0x82, high, low], part].concat();
    for (der, kind, element) in [
        (CERTIFICATE, AnchorKind::Certificate, CERTIFICATE),
        (&tagged, AnchorKind::TbsCertificate, part),
    ] {
        let it = TrustAnchor::from_der(der).expect("an anchor");
        assert_eq!((it.kind(), it.element()), (kind, element));
        assert_eq!(it.name(), Some(certificate.subject()));
        assert_eq!(
            it.subject_public_key_info(),
            certificate.subject_public_key_info()
        );
        assert_eq!(it.extensions().count(), certificate.extensions().count());
        assert_eq!((it.key_identifier(), it.title()), (None, None));
        assert_eq!(it.path_controls(), None);
    }
}

#[test]
fn descriptions() {
    let der = b"\xa2\x18\x30\x16\x30\x08\x30\x03\x06\x01\x2a\x03\x01\x00\x04\x02\xab\xcd\x0c\x02\xc3\xa9\x82\x02de";
    let it = TrustAnchor::from_der(der).expect("an anchor");
    assert_eq!((it.kind(), it.element()), (AnchorKind::Info, &der[2..]));
    assert_eq!(it.subject_public_key_info(), &der[4..14]);
    assert_eq!(it.key_identifier(), Some(&b"\xab\xcd"[..]));
    assert_eq!((it.title(), it.title_language()), (Some("é"), Some("de")));
    assert_eq!((it.name(), it.path_controls()), (None, None));
    assert_eq!(it.extensions().count(), 0);
}

#[test]
fn refusals() {
    for len in 0..CERTIFICATE.len() {
        assert_eq!(
            TrustAnchor::from_der(&CERTIFICATE[..len]).err(),
            Some(Error::Malformed)
        );
    }
}

#[test]
fn what_an_anchor_asks_of_paths() {
    // RFC 5914 2.5, by hand: the name CN=a, a certificate, the policy 2.5.29.32.0, an explicit policy asked for, names below a, no intermediate certificate
    let name = b"\x30\x0c\x31\x0a\x30\x08\x06\x03\x55\x04\x03\x0c\x01a";
    let policies = b"\xa1\x08\x30\x06\x06\x04\x55\x1d\x20\x00";
    let rest = b"\x82\x02\x06\x40\xa3\x07\xa0\x05\x30\x03\x82\x01a\x84\x01\x00";
    let content = [&name[..], &[0xa0], &CERTIFICATE[1..], policies, rest].concat();
    let [high, low] = u16::try_from(content.len())
        .expect("a length")
        .to_be_bytes();
    let der = [&[0x30, 0x82, high, low], &content[..]].concat();
    let it = PathControls::from_der(&der).expect("controls");
    assert_eq!(it.name.to_string(), "CN=a");
    assert_eq!(
        it.certificate.as_ref().map(Certificate::as_der),
        Some(CERTIFICATE)
    );
    let policies = it.policies.expect("a list");
    assert_eq!(policies.len(), 1);
    assert_eq!(policies[0].policy_identifier.to_string(), "2.5.29.32.0");
    assert_eq!(it.policy_flags, Some(PolicyFlags::REQUIRE_EXPLICIT_POLICY));
    let permitted = it.name_constraints.permitted_subtrees.expect("a list");
    assert_eq!(permitted[0].base, GeneralName::DnsName("a"));
    assert_eq!(it.name_constraints.excluded_subtrees, None);
    assert_eq!(it.path_len_constraint, Some(0));
    assert_eq!(
        PathControls::from_der(&der[..der.len() - 1]),
        Err(Error::Malformed)
    );
}
