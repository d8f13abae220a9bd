//! What extensions hold, by bytes that are spelled by hand from RFC 5280.
use x509_rattle::extension::*;
use x509_rattle::{oid, Error, GeneralName, Name, ObjectIdentifier};

fn oid(text: &str) -> ObjectIdentifier {
    text.parse().expect("an identifier")
}

#[test]
fn key_usage() {
    assert_eq!(
        KeyUsage::from_der(b"\x03\x02\x01\x06"),
        Ok(KeyUsage::KEY_CERT_SIGN | KeyUsage::CRL_SIGN)
    );
    assert_eq!(
        KeyUsage::from_der(b"\x03\x03\x07\x00\x80"),
        Ok(KeyUsage::DECIPHER_ONLY)
    );
    // a tenth bit has no name
    assert_eq!(
        KeyUsage::from_der(b"\x03\x03\x06\x00\x40"),
        Err(Error::Malformed)
    );
}

#[test]
fn basic_constraints() {
    let of = |ca, path_len_constraint| {
        Ok(BasicConstraints {
            ca,
            path_len_constraint,
        })
    };
    assert_eq!(
        BasicConstraints::from_der(b"\x30\x06\x01\x01\xff\x02\x01\x03"),
        of(true, Some(3))
    );
    assert_eq!(
        BasicConstraints::from_der(b"\x30\x03\x01\x01\xff"),
        of(true, None)
    );
    assert_eq!(BasicConstraints::from_der(b"\x30\x00"), of(false, None));
}

#[test]
fn extended_key_usage() {
    let purposes = [
        &b"\x30\x0e\x06\x08\x2b\x06\x01\x05\x05\x07\x03\x01"[..],
        b"\x06\x02\x2a\x03",
    ]
    .concat();
    let found = ExtendedKeyUsage::from_der(&purposes);
    assert_eq!(
        found,
        Ok(ExtendedKeyUsage(vec![
            oid::purpose::SERVER_AUTH,
            oid("1.2.3")
        ]))
    );
}

#[test]
fn general_names() {
    let name: Name = "CN=a".parse().expect("a name");
    let directory = [b"\xa4\x0e", name.as_der()].concat();
    let members = [
        b"\xa0\x07\x06\x01\x2a\xa0\x02\x05\x00",
        &b"\x81\x03a@b"[..],
        b"\x82\x01a",
        &directory,
        b"\x86\x03a:b",
        b"\x87\x04\x01\x02\x03\x04",
        b"\x87\x03\x01\x02\x03",
        b"\x88\x02\x2a\x03",
    ]
    .concat();
    let len = u8::try_from(members.len()).expect("a short one");
    let der = [&[0x30, len], &members[..]].concat();
    let names = SubjectAltName::from_der(&der).expect("names");
    let expected = [
        GeneralName::OtherName {
            type_id: oid("1.2"),
            value: b"\x05\x00",
        },
        GeneralName::Rfc822Name("a@b"),
        GeneralName::DnsName("a"),
        GeneralName::DirectoryName(name.to_ref()),
        GeneralName::UniformResourceIdentifier("a:b"),
        GeneralName::IpAddress(&[1, 2, 3, 4]),
        GeneralName::IpAddress(&[1, 2, 3]),
        GeneralName::RegisteredId(oid("1.2.3")),
    ];
    assert_eq!(names.0, expected);
    assert_eq!(
        IssuerAltName::from_der(&der).map(|it| it.0),
        Ok(expected.to_vec())
    );
    assert_eq!(names.into_iter().count(), 8);
}

#[test]
fn key_identifiers() {
    assert_eq!(
        SubjectKeyIdentifier::from_der(b"\x04\x02\x01\x02"),
        Ok(SubjectKeyIdentifier(b"\x01\x02"))
    );
    assert_eq!(
        SubjectKeyIdentifier::from_der(b"\x04\x00"),
        Ok(SubjectKeyIdentifier(b""))
    );
    let all = b"\x30\x0d\x80\x02\x01\x02\xa1\x03\x82\x01a\x82\x02\x00\x80";
    let found = AuthorityKeyIdentifier::from_der(all).expect("all three");
    assert_eq!(found.key_identifier, Some(&b"\x01\x02"[..]));
    assert_eq!(
        found.authority_cert_issuer,
        Some(vec![GeneralName::DnsName("a")])
    );
    assert_eq!(
        found
            .authority_cert_serial_number
            .and_then(|it| it.to_u128()),
        Some(128)
    );
    let none = AuthorityKeyIdentifier {
        key_identifier: None,
        authority_cert_issuer: None,
        authority_cert_serial_number: None,
    };
    assert_eq!(AuthorityKeyIdentifier::from_der(b"\x30\x00"), Ok(none));
    let found = AuthorityKeyIdentifier::from_der(b"\x30\x02\x80\x00").expect("an identifier");
    assert_eq!(found.key_identifier, Some(&b""[..]));
}

#[test]
fn access() {
    let der = b"\x30\x11\x30\x0f\x06\x08\x2b\x06\x01\x05\x05\x07\x30\x01\x86\x03a:b";
    let description = AccessDescription {
        access_method: oid::access::OCSP,
        access_location: GeneralName::UniformResourceIdentifier("a:b"),
    };
    assert_eq!(
        AuthorityInfoAccess::from_der(der),
        Ok(AuthorityInfoAccess(vec![description]))
    );
    assert_eq!(
        SubjectInfoAccess::from_der(der),
        Ok(SubjectInfoAccess(vec![description]))
    );
}

#[test]
fn policies() {
    let der = b"\x30\x18\x30\x04\x06\x02\x2a\x03\x30\x10\x06\x02\x2a\x04\x30\x0a\x30\x04\x06\x02\x2a\x05\x30\x02\x06\x00";
    // an identifier has an octet (X.690 8.19.2)
    assert_eq!(CertificatePolicies::from_der(der), Err(Error::Malformed));
    let der = b"\x30\x1b\x30\x04\x06\x02\x2a\x03\x30\x13\x06\x02\x2a\x04\x30\x0d\x30\x04\x06\x02\x2a\x05\x30\x05\x06\x01\x2a\x0c\x00";
    let found = CertificatePolicies::from_der(der).expect("policies");
    let qualifiers = vec![
        PolicyQualifierInfo {
            policy_qualifier_id: oid("1.2.5"),
            qualifier: None,
        },
        PolicyQualifierInfo {
            policy_qualifier_id: oid("1.2"),
            qualifier: Some(b"\x0c\x00"),
        },
    ];
    let expected = [
        PolicyInformation {
            policy_identifier: oid("1.2.3"),
            policy_qualifiers: None,
        },
        PolicyInformation {
            policy_identifier: oid("1.2.4"),
            policy_qualifiers: Some(qualifiers),
        },
    ];
    assert_eq!(found.0, expected);
}

#[test]
fn rules_of_policies() {
    let mapping = PolicyMapping {
        issuer_domain_policy: oid("1.2.3"),
        subject_domain_policy: oid("1.2.4"),
    };
    let der = b"\x30\x0a\x30\x08\x06\x02\x2a\x03\x06\x02\x2a\x04";
    assert_eq!(
        PolicyMappings::from_der(der),
        Ok(PolicyMappings(vec![mapping]))
    );
    let both = PolicyConstraints {
        require_explicit_policy: Some(0),
        inhibit_policy_mapping: Some(300),
    };
    assert_eq!(
        PolicyConstraints::from_der(b"\x30\x07\x80\x01\x00\x81\x02\x01\x2c"),
        Ok(both)
    );
    let one = PolicyConstraints {
        require_explicit_policy: None,
        inhibit_policy_mapping: Some(1),
    };
    assert_eq!(
        PolicyConstraints::from_der(b"\x30\x03\x81\x01\x01"),
        Ok(one)
    );
    assert_eq!(
        InhibitAnyPolicy::from_der(b"\x02\x01\x05"),
        Ok(InhibitAnyPolicy(5))
    );
    assert_eq!(
        InhibitAnyPolicy::from_der(b"\x02\x05\x01\x00\x00\x00\x00"),
        Err(Error::Malformed)
    );
}

#[test]
fn distribution_points() {
    // a full name, reasons and an issuer
    let first = b"\x30\x12\xa0\x07\xa0\x05\x86\x03a:b\x81\x02\x06\x40\xa2\x03\x82\x01c";
    // a name relative to the issuer: CN=d
    let second = b"\x30\x0e\xa0\x0c\xa1\x0a\x30\x08\x06\x03\x55\x04\x03\x0c\x01d";
    let der = [&b"\x30\x24"[..], first, second].concat();
    assert_eq!(usize::from(der[1]) + 2, der.len());
    let found = CrlDistributionPoints::from_der(&der).expect("points").0;
    assert_eq!(found.len(), 2);
    let full = DistributionPointName::FullName(vec![GeneralName::UniformResourceIdentifier("a:b")]);
    assert_eq!(found[0].distribution_point, Some(full));
    assert_eq!(found[0].reasons, Some(ReasonFlags::KEY_COMPROMISE));
    assert_eq!(found[0].crl_issuer, Some(vec![GeneralName::DnsName("c")]));
    let Some(DistributionPointName::NameRelativeToCrlIssuer(rdn)) = &found[1].distribution_point
    else {
        panic!("{:?}", found[1]);
    };
    let attributes: Vec<_> = rdn
        .attributes()
        .collect::<Result<_, _>>()
        .expect("attributes");
    assert_eq!(
        (attributes.len(), attributes[0].oid),
        (1, oid::attribute::COMMON_NAME)
    );
    assert_eq!(attributes[0].text().as_deref(), Some("d"));
    assert_eq!((&found[1].reasons, &found[1].crl_issuer), (&None, &None));
    assert_eq!(FreshestCrl::from_der(&der).map(|it| it.0), Ok(found));
}

#[test]
fn issuing_distribution_points() {
    // FALSE is the default, so it isn't encoded (X.690 11.5)
    let der = b"\x30\x03\x82\x01\x00";
    assert_eq!(
        IssuingDistributionPoint::from_der(der),
        Err(Error::Malformed)
    );
    let der = b"\x30\x13\xa0\x07\xa0\x05\x86\x03a:b\x82\x01\xff\x83\x02\x06\x40\x84\x01\xff";
    let found = IssuingDistributionPoint::from_der(der).expect("a point");
    let full = DistributionPointName::FullName(vec![GeneralName::UniformResourceIdentifier("a:b")]);
    let expected = IssuingDistributionPoint {
        distribution_point: Some(full),
        only_contains_user_certs: false,
        only_contains_ca_certs: true,
        only_some_reasons: Some(ReasonFlags::KEY_COMPROMISE),
        indirect_crl: true,
        only_contains_attribute_certs: false,
    };
    assert_eq!(found, expected);
}

#[test]
fn name_constraints() {
    let permitted = b"\xa0\x0e\x30\x0a\x87\x08\x0a\x00\x00\x00\xff\x00\x00\x00\x30\x00";
    // a subtree has a root
    let der = [&b"\x30\x10"[..], permitted].concat();
    assert_eq!(NameConstraints::from_der(&der), Err(Error::Malformed));
    let der = b"\x30\x1a\xa0\x0c\x30\x0a\x87\x08\x0a\x00\x00\x00\xff\x00\x00\x00\xa1\x0a\x30\x08\x82\x01b\x80\x00\x81\x01\x05";
    // 0 octets are no number
    assert_eq!(NameConstraints::from_der(der), Err(Error::Malformed));
    let der = b"\x30\x19\xa0\x0c\x30\x0a\x87\x08\x0a\x00\x00\x00\xff\x00\x00\x00\xa1\x09\x30\x07\x82\x02bc\x81\x01\x05";
    let found = NameConstraints::from_der(der).expect("constraints");
    let permitted = found.permitted_subtrees.expect("some");
    let network = permitted[0]
        .base
        .ip_network()
        .map(|(address, bits)| (address.to_string(), bits));
    assert_eq!(network, Some(("10.0.0.0".to_owned(), 8)));
    assert_eq!((permitted[0].minimum, permitted[0].maximum), (0, None));
    let subtree = GeneralSubtree {
        base: GeneralName::DnsName("bc"),
        minimum: 0,
        maximum: Some(5),
    };
    assert_eq!(found.excluded_subtrees, Some(vec![subtree]));
}

#[test]
fn of_crls() {
    let number = CrlNumber::from_der(b"\x02\x02\x01\x00").expect("a number");
    assert_eq!(
        (number.0.to_u128(), number.0.to_string().as_str()),
        (Some(256), "01:00")
    );
    assert_eq!(
        BaseCrlNumber::from_der(b"\x02\x01\x07").map(|it| it.0.to_u128()),
        Ok(Some(7))
    );
    assert_eq!(CrlNumber::from_der(b"\x02\x01\xff"), Err(Error::Malformed));
    assert_eq!(
        CrlReason::from_der(b"\x0a\x01\x08"),
        Ok(CrlReason::RemoveFromCrl)
    );
    assert_eq!(CrlReason::from_der(b"\x0a\x01\x07"), Err(Error::Malformed));
}

/// None of these is a value of the type.
fn refuses<'a, T: ExtensionValue<'a> + std::fmt::Debug + PartialEq>(bad: &[&'a [u8]]) {
    for der in bad {
        assert_eq!(T::from_der(der), Err(Error::Malformed), "{der:02x?}");
    }
}

#[test]
fn marks() {
    assert_eq!(PrecertPoison::from_der(b"\x05\x00"), Ok(PrecertPoison));
    assert_eq!(OcspNoCheck::from_der(b"\x05\x00"), Ok(OcspNoCheck));
    let bad: [&[u8]; 7] = [
        b"",
        b"\x05",
        b"\x05\x01\x00",
        b"\x05\x00\x05\x00",
        b"\x05\x81\x00",
        b"\x30\x00",
        b"\x05\x00\x00",
    ];
    refuses::<PrecertPoison>(&bad);
    refuses::<OcspNoCheck>(&bad);
}

#[test]
fn features() {
    // RFC 7633 6
    assert_eq!(
        TlsFeature::from_der(b"\x30\x03\x02\x01\x05"),
        Ok(TlsFeature(vec![5]))
    );
    assert_eq!(TlsFeature::from_der(b"\x30\x00"), Ok(TlsFeature(vec![])));
    refuses::<TlsFeature>(&[
        b"",
        b"\x05\x00",
        b"\x30\x03\x04\x01\x05",
        b"\x30\x04\x02\x02\x00\x05",
        b"\x30\x03\x02\x01\xff",
        b"\x30\x05\x02\x03\x01\x00\x00",
        b"\x30\x03\x02\x01\x05\x00",
    ]);
}

#[test]
fn moments() {
    refuses::<InvalidityDate>(&[
        b"",
        b"\x17\x0d300102030405Z",
        b"\x18\x1120300102030405.5Z",
        b"\x18\x1320300102030405+0100",
        b"\x18\x0d203001020304Z",
        b"\x18\x0f20301302030405Z",
        b"\x18\x0f20300102030405Z\x00",
    ]);
    refuses::<PrivateKeyUsagePeriod>(&[
        b"",
        b"\x05\x00",
        b"\x30\x11\x82\x0f20300102030405Z",
        b"\x30\x11\x18\x0f20300102030405Z",
        b"\x30\x22\x81\x0f20300102030405Z\x80\x0f20300102030405Z",
        b"\x30\x22\x80\x0f20300102030405Z\x80\x0f20300102030405Z",
        b"\x30\x11\x80\x0f20300102030405Z\x00",
    ]);
}

#[test]
fn attributes_of_subjects() {
    // RFC 3739 3.2.2: the country of citizenship DE
    let der = b"\x30\x12\x30\x10\x06\x08\x2b\x06\x01\x05\x05\x07\x09\x04\x31\x04\x13\x02DE";
    let found = SubjectDirectoryAttributes::from_der(der).expect("attributes");
    let expected = DirectoryAttribute {
        oid: oid("1.3.6.1.5.5.7.9.4"),
        values: vec![b"\x13\x02DE"],
    };
    assert_eq!(found.0, [expected]);
    assert_eq!(found.into_iter().count(), 1);
    refuses::<SubjectDirectoryAttributes>(&[
        b"",
        b"\x05\x00",
        b"\x30\x02\x05\x00",
        b"\x30\x0d\x30\x0b\x06\x02\x2a\x03\x31\x05\x0c\x01a\x05\x00",
    ]);
}

/// Each of them is read by its identifier.
#[test]
fn further_payloads_by_identifier() {
    use x509_rattle::{Extensions, ParsedExtension as Parsed};
    let read = |oid: &[u8], value: &[u8], is: fn(&Parsed<'_>) -> bool| {
        let part = |tag: u8, content: &[u8]| [&[tag, content.len() as u8], content].concat();
        let entry = [part(0x06, oid), part(0x04, value)].concat();
        let list = part(0x30, &part(0x30, &entry));
        let found = Extensions::new(&list).next().expect("one").expect("one");
        assert!(is(&found.parsed().expect("a value")), "{oid:02x?}");
    };
    let ct = b"\x2b\x06\x01\x04\x01\xd6\x79\x02\x04\x03";
    read(ct, b"\x05\x00", |it| matches!(it, Parsed::PrecertPoison(_)));
    let no_check = b"\x2b\x06\x01\x05\x05\x07\x30\x01\x05";
    read(no_check, b"\x05\x00", |it| {
        matches!(it, Parsed::OcspNoCheck(_))
    });
    let feature = b"\x2b\x06\x01\x05\x05\x07\x01\x18";
    read(feature, b"\x30\x03\x02\x01\x05", |it| {
        matches!(it, Parsed::TlsFeature(_))
    });
    read(b"\x55\x1d\x18", b"\x18\x0f20300102030405Z", |it| {
        matches!(it, Parsed::InvalidityDate(_))
    });
    let period = b"\x30\x11\x80\x0f20300102030405Z";
    read(b"\x55\x1d\x10", period, |it| {
        matches!(it, Parsed::PrivateKeyUsagePeriod(_))
    });
    let attributes = b"\x30\x0a\x30\x08\x06\x02\x2a\x03\x31\x02\x05\x00";
    read(b"\x55\x1d\x09", attributes, |it| {
        matches!(it, Parsed::SubjectDirectoryAttributes(_))
    });
    read(b"\x55\x1d\x1d", b"\x30\x03\x82\x01a", |it| {
        matches!(it, Parsed::CertificateIssuer(_))
    });
}

#[test]
fn qualifiers_of_policies() {
    use oid::policy::{ANY_POLICY, CPS_URI, USER_NOTICE};
    let of = |policy_qualifier_id, qualifier| PolicyQualifierInfo {
        policy_qualifier_id,
        qualifier,
    };
    // RFC 5280 4.2.1.4: an IA5String
    let pointer = of(CPS_URI, Some(&b"\x16\x05https"[..]));
    assert_eq!(pointer.cps_uri(), Ok(Some("https")));
    assert_eq!(pointer.user_notice(), Ok(None));
    for bad in [
        None,
        Some(&b""[..]),
        Some(b"\x0c\x01a"),
        Some(b"\x16\x01\xff"),
        Some(b"\x16\x01a\x00"),
    ] {
        assert_eq!(
            of(CPS_URI, bad).cps_uri(),
            Err(Error::Malformed),
            "{bad:02x?}"
        );
    }
    // SEQUENCE { SEQUENCE { UTF8String Org, SEQUENCE { 1, 300 } }, UTF8String text }
    let both = b"\x30\x16\x30\x0e\x0c\x03Org\x30\x07\x02\x01\x01\x02\x02\x01\x2c\x0c\x04text";
    let notice = of(USER_NOTICE, Some(&both[..]));
    let found = notice.user_notice().expect("a notice").expect("it is one");
    let reference = found.notice_ref.expect("a reference");
    let numbers: Vec<_> = reference
        .notice_numbers
        .iter()
        .map(|it| it.to_u128())
        .collect();
    assert_eq!(reference.organization, "Org");
    assert_eq!(numbers, [Some(1), Some(300)]);
    assert_eq!(found.explicit_text.as_deref(), Some("text"));
    assert_eq!(notice.cps_uri(), Ok(None));
    // each of the types of a DisplayText
    for (der, text) in [
        (&b"\x30\x04\x0c\x02\xc3\xb6"[..], "ö"),
        (b"\x30\x03\x16\x01a", "a"),
        (b"\x30\x03\x1a\x01b", "b"),
        (b"\x30\x06\x1e\x04\x00a\x00\xf6", "aö"),
    ] {
        let found = of(USER_NOTICE, Some(der)).user_notice();
        let notice_ref = None;
        let explicit_text = Some(text.to_owned());
        assert_eq!(
            found,
            Ok(Some(UserNotice {
                notice_ref,
                explicit_text
            }))
        );
    }
    for bad in [
        None,
        Some(&b"\x05\x00"[..]),
        Some(b"\x30\x03\x13\x01a"),
        Some(b"\x30\x03\x1e\x01a"),
        Some(b"\x30\x04\x1e\x02\xd8\x00"),
        Some(b"\x30\x06\x0c\x01a\x0c\x01b"),
    ] {
        let found = of(USER_NOTICE, bad).user_notice();
        assert_eq!(found, Err(Error::Malformed), "{bad:02x?}");
    }
    let other = of(ANY_POLICY, Some(&both[..]));
    assert_eq!((other.cps_uri(), other.user_notice()), (Ok(None), Ok(None)));
}
