//! Values of extensions that are written for builders: DER that stands in standards or is made by hand, and what is refused.
use x509_rattle::extension::*;
use x509_rattle::{CertificateRef, Error, GeneralName, Name, ObjectIdentifier};

const CERTIFICATE: &[u8] = include_bytes!("../../../examples/data/certificate.der");

fn oid(text: &str) -> ObjectIdentifier {
    text.parse().expect("an OID")
}

/// The value is written as the DER, and has the identifier of its type.
fn is<'a, T: ToExtension + ExtensionValue<'a> + PartialEq + std::fmt::Debug>(
    value: T,
    der: &'a [u8],
) {
    assert_eq!(value.to_der().as_deref(), Ok(der), "{value:?}");
    assert_eq!(value.oid(), T::OID);
    assert_eq!(T::from_der(der), Ok(value));
}

fn refused(value: &impl ToExtension) {
    assert_eq!(value.to_der(), Err(Error::Value));
}

#[test]
fn of_keys() {
    is(KeyUsage::DIGITAL_SIGNATURE, b"\x03\x02\x07\x80");
    is(
        KeyUsage::KEY_CERT_SIGN | KeyUsage::CRL_SIGN,
        b"\x03\x02\x01\x06",
    );
    is(
        KeyUsage::KEY_AGREEMENT | KeyUsage::DECIPHER_ONLY,
        b"\x03\x03\x07\x08\x80",
    );
    let constraints = |ca, path_len_constraint| BasicConstraints {
        ca,
        path_len_constraint,
    };
    is(constraints(false, None), b"\x30\x00");
    is(constraints(true, None), b"\x30\x03\x01\x01\xff");
    is(
        constraints(true, Some(128)),
        b"\x30\x07\x01\x01\xff\x02\x02\x00\x80",
    );
    refused(&constraints(true, Some(256)));
    let purposes = [oid("1.3.6.1.5.5.7.3.1"), oid("2.5.29.37.0")];
    is(
        ExtendedKeyUsage(purposes.to_vec()),
        b"\x30\x10\x06\x08\x2b\x06\x01\x05\x05\x07\x03\x01\x06\x04\x55\x1d\x25\x00",
    );
    is(SubjectKeyIdentifier(b""), b"\x04\x00");
    is(SubjectKeyIdentifier(b"ab"), b"\x04\x02ab");
    let certificate = CertificateRef::from_der(CERTIFICATE).expect("a certificate");
    let all = AuthorityKeyIdentifier {
        key_identifier: Some(b"ab"),
        authority_cert_issuer: Some(vec![GeneralName::DnsName("c")]),
        authority_cert_serial_number: Some(certificate.serial_number()),
    };
    is(
        all,
        b"\x30\x13\x80\x02ab\xa1\x03\x82\x01c\x82\x08\x12\x34\x56\x78\x90\xab\xcd\xef",
    );
}

#[test]
fn of_names() {
    let name: Name = "CN=a".parse().expect("a name");
    let names = vec![
        GeneralName::OtherName {
            type_id: oid("1.2.3"),
            value: b"\x05\x00",
        },
        GeneralName::Rfc822Name("a@b"),
        GeneralName::DnsName("*.b"),
        GeneralName::DirectoryName(name.to_ref()),
        GeneralName::UniformResourceIdentifier("c:"),
        GeneralName::IpAddress(&[192, 0, 2, 1]),
        GeneralName::RegisteredId(oid("2.5.4.3")),
    ];
    // RFC 5280 4.2.1.6, and X.690 8.14 of the tags
    let der = b"\x30\x33\xa0\x08\x06\x02\x2a\x03\xa0\x02\x05\x00\x81\x03a@b\x82\x03*.b\
        \xa4\x0e\x30\x0c\x31\x0a\x30\x08\x06\x03\x55\x04\x03\x0c\x01a\x86\x02c:\x87\x04\xc0\x00\x02\x01\x88\x03\x55\x04\x03";
    is(SubjectAltName(names.clone()), der);
    is(IssuerAltName(names), der);
    refused(&SubjectAltName(vec![GeneralName::DnsName("ö")]));
    refused(&SubjectAltName(vec![GeneralName::OtherName {
        type_id: oid("1.2.3"),
        value: b"\x05",
    }]));
    let subtree = |base| GeneralSubtree {
        base,
        minimum: 0,
        maximum: None,
    };
    let constraints = NameConstraints {
        permitted_subtrees: Some(vec![subtree(GeneralName::DnsName("b"))]),
        excluded_subtrees: Some(vec![subtree(GeneralName::DnsName("c"))]),
    };
    is(
        constraints,
        b"\x30\x0e\xa0\x05\x30\x03\x82\x01b\xa1\x05\x30\x03\x82\x01c",
    );
}

#[test]
fn of_places() {
    let description = AccessDescription {
        access_method: oid("1.3.6.1.5.5.7.48.1"),
        access_location: GeneralName::UniformResourceIdentifier("c:"),
    };
    let der = b"\x30\x0e\x30\x0c\x06\x08\x2b\x06\x01\x05\x05\x07\x30\x01\x86\x00";
    let der = [&der[..1], &[0x10, 0x30, 0x0e], &der[4..14], b"\x86\x02c:"].concat();
    is(AuthorityInfoAccess(vec![description]), &der);
    is(SubjectInfoAccess(vec![description]), &der);
    let full = DistributionPointName::FullName(vec![GeneralName::DnsName("c")]);
    let point = DistributionPoint {
        distribution_point: Some(full.clone()),
        reasons: Some(ReasonFlags::KEY_COMPROMISE | ReasonFlags::CA_COMPROMISE),
        crl_issuer: Some(vec![GeneralName::DnsName("d")]),
    };
    let der = b"\x30\x12\x30\x10\xa0\x05\xa0\x03\x82\x01c\x81\x02\x05\x60\xa2\x03\x82\x01d";
    is(CrlDistributionPoints(vec![point.clone()]), der);
    is(FreshestCrl(vec![point]), der);
    let issuing = IssuingDistributionPoint {
        distribution_point: Some(full),
        only_contains_user_certs: true,
        only_contains_ca_certs: false,
        only_some_reasons: Some(ReasonFlags::KEY_COMPROMISE),
        indirect_crl: true,
        only_contains_attribute_certs: false,
    };
    let der = b"\x30\x11\xa0\x05\xa0\x03\x82\x01c\x81\x01\xff\x83\x02\x06\x40\x84\x01\xff";
    is(issuing, der);
}

#[test]
fn a_point_relative_to_the_issuer() {
    let der = b"\x30\x10\x30\x0e\xa0\x0c\xa1\x0a\x30\x08\x06\x03\x55\x04\x03\x0c\x01a";
    let points = CrlDistributionPoints::from_der(der).expect("points");
    is(points, der);
    // one of a whole name has another tag
    let name = Name::builder().common_name("a").build().expect("a name");
    let rdn = name.to_ref().rdns().next().expect("one").expect("one");
    let of_name = CrlDistributionPoints(vec![DistributionPoint {
        distribution_point: Some(DistributionPointName::NameRelativeToCrlIssuer(rdn)),
        reasons: None,
        crl_issuer: None,
    }]);
    assert_eq!(of_name.to_der().as_deref(), Ok(&der[..]));
}

#[test]
fn of_policies() {
    let qualifier = PolicyQualifierInfo {
        policy_qualifier_id: oid("1.3.6.1.5.5.7.2.1"),
        qualifier: Some(b"\x16\x02c:"),
    };
    let policy = |identifier, policy_qualifiers| PolicyInformation {
        policy_identifier: oid(identifier),
        policy_qualifiers,
    };
    is(
        CertificatePolicies(vec![policy("2.5.29.32.0", None), policy("2.5.29.32.1", Some(vec![qualifier]))]),
        b"\x30\x22\x30\x06\x06\x04\x55\x1d\x20\x00\x30\x18\x06\x04\x55\x1d\x20\x01\x30\x10\x30\x0e\x06\x08\x2b\x06\x01\x05\x05\x07\x02\x01\x16\x02c:",
    );
    let mapping = PolicyMapping {
        issuer_domain_policy: oid("1.2.3"),
        subject_domain_policy: oid("1.2.4"),
    };
    is(
        PolicyMappings(vec![mapping]),
        b"\x30\x0a\x30\x08\x06\x02\x2a\x03\x06\x02\x2a\x04",
    );
    is(
        PolicyConstraints {
            require_explicit_policy: Some(0),
            inhibit_policy_mapping: Some(256),
        },
        b"\x30\x07\x80\x01\x00\x81\x02\x01\x00",
    );
    is(InhibitAnyPolicy(u32::MAX), b"\x02\x05\x00\xff\xff\xff\xff");
}

#[test]
fn of_lists() {
    is(CrlReason::RemoveFromCrl, b"\x0a\x01\x08");
    let number = CrlNumber::from_der(b"\x02\x02\x00\x80").expect("a number");
    is(number, b"\x02\x02\x00\x80");
    is(BaseCrlNumber(number.0), b"\x02\x02\x00\x80");
}

// RFC 6962 3.3: what a timestamp says isn't looked at
#[test]
fn of_logs() {
    is(
        SignedCertificateTimestamps(vec![b"ab", b"c"]),
        b"\x04\x09\x00\x07\x00\x02ab\x00\x01c",
    );
    refused(&SignedCertificateTimestamps(vec![&[7; 65_536]]));
    refused(&SignedCertificateTimestamps(vec![&[7; 40_000]; 2]));
}
