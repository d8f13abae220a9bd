//! Each field of each value of an extension: the DER that a builder takes of it, which is read back as the same value, or the refusal. The table has to name
//! each field that the sources declare.
use std::collections::BTreeSet;
use std::fmt::Debug;
use std::time::{Duration, SystemTime, UNIX_EPOCH};
use x509_rattle::extension::*;
use x509_rattle::oid::{access, policy, purpose};
use x509_rattle::{Certificate, CertificateRef, Error, GeneralName, Name, ObjectIdentifier};

const SOURCES: [&str; 11] = [
    include_str!("../src/extension/access.rs"),
    include_str!("../src/extension/attributes.rs"),
    include_str!("../src/extension/marks.rs"),
    include_str!("../src/extension/periods.rs"),
    include_str!("../src/extension/crl.rs"),
    include_str!("../src/extension/keys.rs"),
    include_str!("../src/extension/names.rs"),
    include_str!("../src/extension/points.rs"),
    include_str!("../src/extension/policies.rs"),
    include_str!("../src/extension/flags.rs"),
    include_str!("../src/extension/timestamps.rs"),
];
const CERTIFICATE: &[u8] = include_bytes!("../../../examples/data/certificate.der");

/// The fields that rows have named.
#[derive(Default)]
struct Table(BTreeSet<&'static str>);

impl Table {
    /// With the field as it is there, the value is written as that DER, and read back.
    fn is<'a, T>(&mut self, field: &'static str, value: T, der: &'a [u8])
    where
        T: ToExtension + ExtensionValue<'a> + PartialEq + Debug,
    {
        self.0.insert(field);
        assert_eq!(value.to_der().as_deref(), Ok(der), "{field} {value:?}");
        assert_eq!(T::from_der(der), Ok(value), "{field}");
    }

    /// With the field as it is there, the value is refused.
    fn refuses(&mut self, field: &'static str, value: impl ToExtension + Debug) {
        self.0.insert(field);
        assert_eq!(value.to_der(), Err(Error::Value), "{field} {value:?}");
    }
}

fn oid(text: &str) -> ObjectIdentifier {
    text.parse().expect("an OID")
}

fn dns(text: &'static str) -> GeneralName<'static> {
    GeneralName::DnsName(text)
}

// an address of IPv4 (RFC 5737 3), and one octet too many
const ADDRESS: GeneralName<'static> = GeneralName::IpAddress(&[192, 0, 2, 1]);
const TOO_LONG: GeneralName<'static> = GeneralName::IpAddress(&[192, 0, 2, 1, 0]);

fn of_keys(table: &mut Table) {
    let constraints = |ca, path_len_constraint| BasicConstraints {
        ca,
        path_len_constraint,
    };
    table.is("BasicConstraints ca", constraints(false, None), b"\x30\x00");
    table.is(
        "BasicConstraints ca",
        constraints(true, None),
        b"\x30\x03\x01\x01\xff",
    );
    table.is(
        "BasicConstraints path_len_constraint",
        constraints(true, Some(255)),
        b"\x30\x07\x01\x01\xff\x02\x02\x00\xff",
    );
    table.refuses(
        "BasicConstraints path_len_constraint",
        constraints(true, Some(256)),
    );
    table.refuses(
        "BasicConstraints path_len_constraint",
        constraints(false, Some(0)),
    );

    let purposes = vec![purpose::CODE_SIGNING];
    table.is(
        "ExtendedKeyUsage 0",
        ExtendedKeyUsage(purposes),
        b"\x30\x0a\x06\x08\x2b\x06\x01\x05\x05\x07\x03\x03",
    );
    table.refuses("ExtendedKeyUsage 0", ExtendedKeyUsage(Vec::new()));
    table.is(
        "SubjectKeyIdentifier 0",
        SubjectKeyIdentifier(b"ab"),
        b"\x04\x02ab",
    );

    let certificate = Certificate::from_der(CERTIFICATE.to_vec()).expect("a certificate");
    let serial = Some(certificate.serial_number());
    let key = |key_identifier, issuer: Option<Vec<GeneralName<'static>>>, number| {
        AuthorityKeyIdentifier {
            key_identifier,
            authority_cert_issuer: issuer,
            authority_cert_serial_number: number,
        }
    };
    table.is(
        "AuthorityKeyIdentifier key_identifier",
        key(None, None, None),
        b"\x30\x00",
    );
    table.is(
        "AuthorityKeyIdentifier key_identifier",
        key(Some(b"ab"), None, None),
        b"\x30\x04\x80\x02ab",
    );
    let both = b"\x30\x0f\xa1\x03\x82\x01c\x82\x08\x12\x34\x56\x78\x90\xab\xcd\xef";
    let of_both = key(None, Some(vec![dns("c")]), serial);
    assert_eq!(of_both.to_der().as_deref(), Ok(&both[..]));
    let read = AuthorityKeyIdentifier::from_der(both).expect("an AKI");
    table.is(
        "AuthorityKeyIdentifier authority_cert_issuer",
        read.clone(),
        both,
    );
    table.is(
        "AuthorityKeyIdentifier authority_cert_serial_number",
        read,
        both,
    );
    table.refuses(
        "AuthorityKeyIdentifier authority_cert_issuer",
        key(None, Some(vec![dns("c")]), None),
    );
    table.refuses(
        "AuthorityKeyIdentifier authority_cert_issuer",
        key(None, Some(Vec::new()), serial),
    );
    table.refuses(
        "AuthorityKeyIdentifier authority_cert_issuer",
        key(None, Some(vec![TOO_LONG]), serial),
    );
    table.refuses(
        "AuthorityKeyIdentifier authority_cert_serial_number",
        key(None, None, serial),
    );

    table.is(
        "KeyUsage",
        KeyUsage::KEY_AGREEMENT | KeyUsage::ENCIPHER_ONLY,
        b"\x03\x02\x00\x09",
    );
    table.refuses("KeyUsage", KeyUsage::default());
    table.refuses("KeyUsage", KeyUsage::ENCIPHER_ONLY);
    table.refuses(
        "KeyUsage",
        KeyUsage::DECIPHER_ONLY | KeyUsage::DIGITAL_SIGNATURE,
    );
}

fn of_names(table: &mut Table) {
    let name: Name = "CN=a".parse().expect("a name");
    let directory = GeneralName::DirectoryName(name.to_ref());
    let der = b"\x30\x10\xa4\x0e\x30\x0c\x31\x0a\x30\x08\x06\x03\x55\x04\x03\x0c\x01a";
    let read = SubjectAltName::from_der(der).expect("names");
    assert_eq!(read.0, [directory]);
    table.is("SubjectAltName 0", read, der);
    table.is(
        "SubjectAltName 0",
        SubjectAltName(vec![ADDRESS]),
        b"\x30\x06\x87\x04\xc0\x00\x02\x01",
    );
    table.is(
        "SubjectAltName 0",
        SubjectAltName(vec![GeneralName::IpAddress(&[7; 16])]),
        &[&b"\x30\x12\x87\x10"[..], &[7; 16]].concat().leak()[..],
    );
    table.is(
        "IssuerAltName 0",
        IssuerAltName(vec![dns("b"), dns("b")]),
        b"\x30\x06\x82\x01b\x82\x01b",
    );
    table.is(
        "CertificateIssuer 0",
        CertificateIssuer(vec![dns("b")]),
        b"\x30\x03\x82\x01b",
    );
    for names in [
        vec![],
        vec![TOO_LONG],
        vec![GeneralName::IpAddress(&[0; 8])],
        vec![dns("ö")],
        vec![GeneralName::Rfc822Name("ö@a")],
        vec![GeneralName::UniformResourceIdentifier("http://ö")],
        vec![GeneralName::OtherName {
            type_id: oid("1.2.3"),
            value: b"",
        }],
        // two elements are no value
        vec![GeneralName::OtherName {
            type_id: oid("1.2.3"),
            value: b"\x05\x00\x05\x00",
        }],
        vec![GeneralName::EdiPartyName(b"a")],
    ] {
        table.refuses("SubjectAltName 0", SubjectAltName(names.clone()));
        table.refuses("IssuerAltName 0", IssuerAltName(names.clone()));
        table.refuses("CertificateIssuer 0", CertificateIssuer(names));
    }

    let subtree = |base| GeneralSubtree {
        base,
        minimum: 0,
        maximum: None,
    };
    let permitted = |subtrees| NameConstraints {
        permitted_subtrees: Some(subtrees),
        excluded_subtrees: None,
    };
    let one = |base| vec![subtree(base)];
    table.is(
        "NameConstraints permitted_subtrees",
        permitted(one(dns("b"))),
        b"\x30\x07\xa0\x05\x30\x03\x82\x01b",
    );
    let excluded = NameConstraints {
        permitted_subtrees: None,
        excluded_subtrees: Some(one(GeneralName::UniformResourceIdentifier(".b"))),
    };
    table.is(
        "NameConstraints excluded_subtrees",
        excluded,
        b"\x30\x08\xa1\x06\x30\x04\x86\x02.b",
    );
    let nothing = NameConstraints {
        permitted_subtrees: None,
        excluded_subtrees: None,
    };
    table.refuses("NameConstraints permitted_subtrees", nothing);
    table.refuses("NameConstraints permitted_subtrees", permitted(Vec::new()));
    let network = GeneralName::IpAddress(&[10, 0, 0, 0, 255, 0, 0, 0]);
    table.is(
        "GeneralSubtree base",
        permitted(one(network)),
        b"\x30\x0e\xa0\x0c\x30\x0a\x87\x08\x0a\x00\x00\x00\xff\x00\x00\x00",
    );
    table.is(
        "GeneralSubtree base",
        permitted(one(GeneralName::Rfc822Name("b"))),
        b"\x30\x07\xa0\x05\x30\x03\x81\x01b",
    );
    // an address without a mask, and a mask with a gap
    for octets in [&[10, 0, 0, 0][..], &[10, 0, 0, 0, 255, 0, 255, 0]] {
        let base = GeneralName::IpAddress(octets);
        table.refuses("GeneralSubtree base", permitted(one(base)));
    }
    table.refuses("GeneralSubtree base", permitted(one(dns("*.b"))));
    let from = GeneralSubtree {
        minimum: 1,
        ..subtree(dns("b"))
    };
    table.refuses("GeneralSubtree minimum", permitted(vec![from]));
    let until = GeneralSubtree {
        maximum: Some(0),
        ..subtree(dns("b"))
    };
    table.refuses(
        "GeneralSubtree maximum",
        permitted(vec![subtree(dns("c")), until]),
    );
}

fn of_places(table: &mut Table) {
    let description = |access_method, access_location| AccessDescription {
        access_method,
        access_location,
    };
    let ocsp = description(access::OCSP, dns("b"));
    let der = b"\x30\x0f\x30\x0d\x06\x08\x2b\x06\x01\x05\x05\x07\x30\x01\x82\x01b";
    table.is(
        "AuthorityInfoAccess 0",
        AuthorityInfoAccess(vec![ocsp]),
        der,
    );
    table.is("SubjectInfoAccess 0", SubjectInfoAccess(vec![ocsp]), der);
    let repository = description(access::CA_REPOSITORY, dns("b"));
    table.is(
        "AccessDescription access_method",
        SubjectInfoAccess(vec![repository]),
        b"\x30\x0f\x30\x0d\x06\x08\x2b\x06\x01\x05\x05\x07\x30\x05\x82\x01b",
    );
    table.is(
        "AccessDescription access_location",
        AuthorityInfoAccess(vec![description(access::OCSP, dns("c"))]),
        b"\x30\x0f\x30\x0d\x06\x08\x2b\x06\x01\x05\x05\x07\x30\x01\x82\x01c",
    );
    let bad = description(access::OCSP, TOO_LONG);
    table.refuses(
        "AccessDescription access_location",
        AuthorityInfoAccess(vec![bad]),
    );
    table.refuses(
        "AccessDescription access_location",
        SubjectInfoAccess(vec![bad]),
    );
    table.refuses("AuthorityInfoAccess 0", AuthorityInfoAccess(Vec::new()));
    table.refuses("SubjectInfoAccess 0", SubjectInfoAccess(Vec::new()));

    let point = |distribution_point, reasons, crl_issuer| DistributionPoint {
        distribution_point,
        reasons,
        crl_issuer,
    };
    let full = |text| Some(DistributionPointName::FullName(vec![dns(text)]));
    let one = |it| CrlDistributionPoints(vec![it]);
    table.is(
        "DistributionPoint distribution_point",
        one(point(full("c"), None, None)),
        b"\x30\x09\x30\x07\xa0\x05\xa0\x03\x82\x01c",
    );
    let with_reasons = point(full("c"), Some(ReasonFlags::KEY_COMPROMISE), None);
    table.is(
        "DistributionPoint reasons",
        one(with_reasons.clone()),
        b"\x30\x0d\x30\x0b\xa0\x05\xa0\x03\x82\x01c\x81\x02\x06\x40",
    );
    let of_issuer = point(None, None, Some(vec![dns("d")]));
    table.is(
        "DistributionPoint crl_issuer",
        one(of_issuer.clone()),
        b"\x30\x07\x30\x05\xa2\x03\x82\x01d",
    );
    table.is(
        "CrlDistributionPoints 0",
        CrlDistributionPoints(vec![of_issuer.clone(), of_issuer.clone()]),
        b"\x30\x0e\x30\x05\xa2\x03\x82\x01d\x30\x05\xa2\x03\x82\x01d",
    );
    table.is(
        "FreshestCrl 0",
        FreshestCrl(vec![of_issuer]),
        b"\x30\x07\x30\x05\xa2\x03\x82\x01d",
    );
    table.refuses("CrlDistributionPoints 0", CrlDistributionPoints(Vec::new()));
    table.refuses("FreshestCrl 0", FreshestCrl(Vec::new()));
    for bad in [
        // neither a name nor an issuer
        point(None, None, None),
        point(None, with_reasons.reasons, None),
        point(
            Some(DistributionPointName::FullName(Vec::new())),
            None,
            None,
        ),
        point(
            Some(DistributionPointName::FullName(vec![TOO_LONG])),
            None,
            None,
        ),
        point(full("c"), None, Some(Vec::new())),
        point(full("c"), None, Some(vec![TOO_LONG])),
    ] {
        table.refuses("DistributionPoint distribution_point", one(bad.clone()));
        table.refuses("DistributionPoint crl_issuer", FreshestCrl(vec![bad]));
    }

    let nothing = IssuingDistributionPoint {
        distribution_point: None,
        only_contains_user_certs: false,
        only_contains_ca_certs: false,
        only_some_reasons: None,
        indirect_crl: false,
        only_contains_attribute_certs: false,
    };
    let users = IssuingDistributionPoint {
        only_contains_user_certs: true,
        ..nothing.clone()
    };
    let authorities = IssuingDistributionPoint {
        only_contains_ca_certs: true,
        ..nothing.clone()
    };
    let attributes = IssuingDistributionPoint {
        only_contains_attribute_certs: true,
        ..nothing.clone()
    };
    let indirect = IssuingDistributionPoint {
        indirect_crl: true,
        ..nothing.clone()
    };
    let named = IssuingDistributionPoint {
        distribution_point: full("c"),
        ..nothing.clone()
    };
    let some = IssuingDistributionPoint {
        only_some_reasons: Some(ReasonFlags::AA_COMPROMISE),
        ..nothing.clone()
    };
    table.is(
        "IssuingDistributionPoint only_contains_user_certs",
        users.clone(),
        b"\x30\x03\x81\x01\xff",
    );
    table.is(
        "IssuingDistributionPoint only_contains_ca_certs",
        authorities,
        b"\x30\x03\x82\x01\xff",
    );
    table.is(
        "IssuingDistributionPoint only_contains_attribute_certs",
        attributes,
        b"\x30\x03\x85\x01\xff",
    );
    table.is(
        "IssuingDistributionPoint indirect_crl",
        indirect,
        b"\x30\x03\x84\x01\xff",
    );
    table.is(
        "IssuingDistributionPoint distribution_point",
        named,
        b"\x30\x07\xa0\x05\xa0\x03\x82\x01c",
    );
    table.is(
        "IssuingDistributionPoint only_some_reasons",
        some,
        b"\x30\x05\x83\x03\x07\x00\x80",
    );
    table.refuses("IssuingDistributionPoint distribution_point", nothing);
    let too_long = IssuingDistributionPoint {
        distribution_point: Some(DistributionPointName::FullName(vec![TOO_LONG])),
        ..users.clone()
    };
    table.refuses("IssuingDistributionPoint distribution_point", too_long);
    // of one kind alone
    let two = IssuingDistributionPoint {
        only_contains_ca_certs: true,
        ..users.clone()
    };
    table.refuses("IssuingDistributionPoint only_contains_ca_certs", two);
    let two = IssuingDistributionPoint {
        only_contains_attribute_certs: true,
        ..users
    };
    table.refuses(
        "IssuingDistributionPoint only_contains_attribute_certs",
        two,
    );
    table.is(
        "ReasonFlags",
        one(point(
            full("c"),
            Some(ReasonFlags::SUPERSEDED | ReasonFlags::CA_COMPROMISE),
            None,
        )),
        b"\x30\x0d\x30\x0b\xa0\x05\xa0\x03\x82\x01c\x81\x02\x03\x28",
    );
}

fn of_policies(table: &mut Table) {
    let information = |policy_identifier, policy_qualifiers| PolicyInformation {
        policy_identifier,
        policy_qualifiers,
    };
    // id-qt-cps with an IA5String (RFC 5280 4.2.1.4)
    let qualifier = |policy_qualifier_id, qualifier| {
        Some(vec![PolicyQualifierInfo {
            policy_qualifier_id,
            qualifier,
        }])
    };
    let cps = oid("1.3.6.1.5.5.7.2.1");
    let one = |it| CertificatePolicies(vec![it]);
    table.is(
        "PolicyInformation policy_identifier",
        one(information(policy::ANY_POLICY, None)),
        b"\x30\x08\x30\x06\x06\x04\x55\x1d\x20\x00",
    );
    table.is(
        "PolicyInformation policy_identifier",
        one(information(oid("1.2.3"), None)),
        b"\x30\x06\x30\x04\x06\x02\x2a\x03",
    );
    let der = b"\x30\x16\x30\x14\x06\x02\x2a\x03\x30\x0e\x30\x0c\x06\x08\x2b\x06\x01\x05\x05\x07\x02\x01\x16\x00";
    let with_qualifier = information(oid("1.2.3"), qualifier(cps, Some(b"\x16\x00")));
    table.is(
        "PolicyInformation policy_qualifiers",
        one(with_qualifier.clone()),
        der,
    );
    table.refuses(
        "PolicyInformation policy_qualifiers",
        one(information(oid("1.2.3"), Some(Vec::new()))),
    );
    table.is(
        "PolicyQualifierInfo policy_qualifier_id",
        one(with_qualifier),
        der,
    );
    let without = information(oid("1.2.3"), qualifier(oid("1.2.4"), None));
    table.is(
        "PolicyQualifierInfo qualifier",
        one(without),
        b"\x30\x0e\x30\x0c\x06\x02\x2a\x03\x30\x06\x30\x04\x06\x02\x2a\x04",
    );
    for bad in [&b""[..], b"\x16", b"\x16\x00\x16\x00"] {
        let it = information(oid("1.2.3"), qualifier(cps, Some(bad)));
        table.refuses("PolicyQualifierInfo qualifier", one(it));
    }
    let others = [
        information(oid("1.2.4"), None),
        information(oid("1.2.3"), None),
    ];
    table.is(
        "CertificatePolicies 0",
        CertificatePolicies(others.to_vec()),
        b"\x30\x0c\x30\x04\x06\x02\x2a\x04\x30\x04\x06\x02\x2a\x03",
    );
    table.refuses("CertificatePolicies 0", CertificatePolicies(Vec::new()));
    let twice = [others[0].clone(), others[1].clone(), others[0].clone()];
    table.refuses("CertificatePolicies 0", CertificatePolicies(twice.to_vec()));

    let mapping = |issuer_domain_policy, subject_domain_policy| {
        PolicyMappings(vec![PolicyMapping {
            issuer_domain_policy,
            subject_domain_policy,
        }])
    };
    let der = b"\x30\x0a\x30\x08\x06\x02\x2a\x03\x06\x02\x2a\x04";
    table.is(
        "PolicyMapping issuer_domain_policy",
        mapping(oid("1.2.3"), oid("1.2.4")),
        der,
    );
    let der = b"\x30\x0a\x30\x08\x06\x02\x2a\x03\x06\x02\x2a\x03";
    table.is(
        "PolicyMapping subject_domain_policy",
        mapping(oid("1.2.3"), oid("1.2.3")),
        der,
    );
    table.is("PolicyMappings 0", mapping(oid("1.2.3"), oid("1.2.3")), der);
    table.refuses(
        "PolicyMapping issuer_domain_policy",
        mapping(policy::ANY_POLICY, oid("1.2.3")),
    );
    table.refuses(
        "PolicyMapping subject_domain_policy",
        mapping(oid("1.2.3"), policy::ANY_POLICY),
    );
    table.refuses("PolicyMappings 0", PolicyMappings(Vec::new()));

    let constraints = |require_explicit_policy, inhibit_policy_mapping| PolicyConstraints {
        require_explicit_policy,
        inhibit_policy_mapping,
    };
    table.is(
        "PolicyConstraints require_explicit_policy",
        constraints(Some(0), None),
        b"\x30\x03\x80\x01\x00",
    );
    table.is(
        "PolicyConstraints inhibit_policy_mapping",
        constraints(None, Some(128)),
        b"\x30\x04\x81\x02\x00\x80",
    );
    table.refuses(
        "PolicyConstraints inhibit_policy_mapping",
        constraints(None, None),
    );
    table.is("InhibitAnyPolicy 0", InhibitAnyPolicy(0), b"\x02\x01\x00");
    table.is(
        "InhibitAnyPolicy 0",
        InhibitAnyPolicy(u32::MAX),
        b"\x02\x05\x00\xff\xff\xff\xff",
    );
}

fn of_lists(table: &mut Table) {
    let most: &[u8] = &[&b"\x02\x14\x7f"[..], &[7; 19]].concat().leak()[..];
    let more: &[u8] = &[&b"\x02\x15\x00\x80"[..], &[7; 19]].concat().leak()[..];
    let number = |der| CrlNumber::from_der(der).expect("a number");
    table.is("CrlNumber 0", number(most), most);
    table.is("BaseCrlNumber 0", BaseCrlNumber(number(most).0), most);
    table.refuses("CrlNumber 0", number(more));
    table.refuses("BaseCrlNumber 0", BaseCrlNumber(number(more).0));
    let certificate = CertificateRef::from_der(CERTIFICATE).expect("a certificate");
    let serial = CrlNumber(certificate.serial_number());
    assert_eq!(
        serial.to_der().as_deref(),
        Ok(&b"\x02\x08\x12\x34\x56\x78\x90\xab\xcd\xef"[..])
    );

    table.is(
        "SignedCertificateTimestamps 0",
        SignedCertificateTimestamps(vec![b"a"]),
        b"\x04\x05\x00\x03\x00\x01a",
    );
    table.refuses(
        "SignedCertificateTimestamps 0",
        SignedCertificateTimestamps(Vec::new()),
    );
    table.refuses(
        "SignedCertificateTimestamps 0",
        SignedCertificateTimestamps(vec![&[7; 65_536]]),
    );
}

// 2030-01-02T03:04:05Z, and the first second that no GeneralizedTime of RFC 5280 has
const MOMENT: Duration = Duration::from_secs(1_893_553_445);
const TOO_LATE: Duration = Duration::from_secs(253_402_300_800);

fn of_moments(table: &mut Table) {
    let at = |since: Duration| UNIX_EPOCH + since;
    let second = Duration::from_secs(1);
    let early = UNIX_EPOCH - second;
    table.is(
        "InvalidityDate 0",
        InvalidityDate(at(MOMENT)),
        b"\x18\x0f20300102030405Z",
    );
    table.is(
        "InvalidityDate 0",
        InvalidityDate(UNIX_EPOCH),
        b"\x18\x0f19700101000000Z",
    );
    for moment in [early, at(TOO_LATE), at(MOMENT + Duration::from_millis(1))] {
        table.refuses("InvalidityDate 0", InvalidityDate(moment));
    }
    let period = |not_before: Option<SystemTime>, not_after| PrivateKeyUsagePeriod {
        not_before,
        not_after,
    };
    let (first, last) = (
        "PrivateKeyUsagePeriod not_before",
        "PrivateKeyUsagePeriod not_after",
    );
    let both = b"\x30\x22\x80\x0f20300102030405Z\x81\x0f20300102030406Z";
    table.is(
        first,
        period(Some(at(MOMENT)), Some(at(MOMENT + second))),
        both,
    );
    table.is(
        first,
        period(Some(at(MOMENT)), None),
        b"\x30\x11\x80\x0f20300102030405Z",
    );
    table.is(
        last,
        period(None, Some(at(MOMENT))),
        b"\x30\x11\x81\x0f20300102030405Z",
    );
    table.refuses(first, period(None, None));
    table.refuses(first, period(Some(at(MOMENT + second)), Some(at(MOMENT))));
    table.refuses(first, period(Some(early), None));
    table.refuses(last, period(None, Some(at(TOO_LATE))));
    table.refuses(
        last,
        period(None, Some(at(MOMENT + Duration::from_nanos(1)))),
    );
}

fn of_subjects(table: &mut Table) {
    let of = |values: &[&'static [u8]]| {
        let values = values.to_vec();
        SubjectDirectoryAttributes(vec![DirectoryAttribute {
            oid: oid("1.2.3"),
            values,
        }])
    };
    // RFC 5280 4.2.1.8, by hand
    let one = b"\x30\x0a\x30\x08\x06\x02\x2a\x03\x31\x02\x05\x00";
    table.is("DirectoryAttribute oid", of(&[b"\x05\x00"]), one);
    table.is(
        "DirectoryAttribute values",
        of(&[b"\x05\x00", b"\x0c\x01a"]),
        b"\x30\x0d\x30\x0b\x06\x02\x2a\x03\x31\x05\x05\x00\x0c\x01a",
    );
    table.refuses(
        "DirectoryAttribute values",
        of(&[b"\x0c\x01a", b"\x05\x00"]),
    );
    table.refuses("DirectoryAttribute values", of(&[]));
    table.refuses("DirectoryAttribute values", of(&[b"\x05"]));
    table.is("SubjectDirectoryAttributes 0", of(&[b"\x05\x00"]), one);
    table.refuses(
        "SubjectDirectoryAttributes 0",
        SubjectDirectoryAttributes(vec![]),
    );
    table.is("TlsFeature 0", TlsFeature(vec![5]), b"\x30\x03\x02\x01\x05");
    table.is(
        "TlsFeature 0",
        TlsFeature(vec![17, 255, 65_535]),
        b"\x30\x0c\x02\x01\x11\x02\x02\x00\xff\x02\x03\x00\xff\xff",
    );
    table.refuses("TlsFeature 0", TlsFeature(vec![]));
}

/// `NAME FIELD` of each public field of a struct, `NAME 0` of one without names, and `NAME` of a set of flags, as the sources declare them.
fn declared() -> BTreeSet<String> {
    let mut found = BTreeSet::new();
    for line in SOURCES
        .iter()
        .flat_map(|it| it.split("\nlist! {\n").skip(1))
    {
        let line = line.lines().find(|it| !it.trim().starts_with("///"));
        let name = line.and_then(|it| it.split_once(',')).expect("a name").0;
        found.insert(format!("{} 0", name.trim()));
    }
    for part in SOURCES
        .iter()
        .flat_map(|it| it.split("\npub struct ").skip(1))
    {
        let name = part
            .split(|it: char| !it.is_alphanumeric())
            .next()
            .expect("a name");
        let front = part.lines().next().expect("a line");
        if front.contains("(pub ") {
            found.insert(format!("{name} 0"));
            continue;
        }
        let fields = part.split("\n}").next().expect("an end").lines();
        let fields = fields.filter_map(|it| it.strip_prefix("    pub ")?.split_once(':'));
        found.extend(fields.map(|(field, _)| format!("{name} {field}")));
    }
    for part in SOURCES
        .iter()
        .flat_map(|it| it.split("\nflags! {\n").skip(1))
    {
        let line = part.lines().find(|it| !it.trim().starts_with("///"));
        found.insert(
            line.expect("a name")
                .trim()
                .trim_end_matches(" {")
                .to_owned(),
        );
    }
    // what is read of a timestamp isn't written
    found.retain(|it| !it.starts_with("SignedCertificateTimestamp "));
    found
}

#[test]
fn each_field_is_written_or_refused() {
    let mut table = Table::default();
    of_keys(&mut table);
    of_names(&mut table);
    of_places(&mut table);
    of_policies(&mut table);
    of_lists(&mut table);
    of_moments(&mut table);
    of_subjects(&mut table);
    let named: BTreeSet<_> = table.0.into_iter().map(str::to_owned).collect();
    assert!(named.len() > 30);
    assert_eq!(named, declared());
}
