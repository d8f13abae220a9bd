//! Paths that are valid under what is trusted, of certificates that are built here, with signatures that say nothing.
use std::cell::RefCell;
use std::convert::Infallible;
use std::time::{Duration, SystemTime, UNIX_EPOCH};
use x509_rattle::extension::{
    BasicConstraints, CertificatePolicies, ExtendedKeyUsage, GeneralSubtree, KeyUsage,
    NameConstraints, PolicyConstraints, PolicyInformation, PolicyMapping, PolicyMappings,
    SubjectAltName, ToExtension,
};
use x509_rattle::{
    check_path, oid, validate_path, working_key, Certificate, CertificateBuilder, CertificateRef,
    Error, FaultReason, GeneralName, Name, ObjectIdentifier, PathError, PathFault, PathSettings,
    SerialNumber, Signature, Signer, TrustAnchor, Trusted, Validity,
};

// an AlgorithmIdentifier and a key of Ed25519 (RFC 8410 3, 4), whose bits are no key
const ED25519: &[u8] = b"\x30\x05\x06\x03\x2b\x65\x70";
const KEY: &[u8] = b"\x30\x0a\x30\x05\x06\x03\x2b\x65\x70\x03\x01\x00";
const OTHER_KEY: &[u8] = b"\x30\x0d\x30\x05\x06\x03\x2b\x65\x70\x03\x04\x00abc";
const MOMENT: u64 = 1_893_456_000;

struct Nothing;

impl Signer for Nothing {
    type Error = Infallible;

    fn algorithm(&self) -> &[u8] {
        ED25519
    }

    fn subject_public_key_info(&self) -> &[u8] {
        KEY
    }

    fn sign(&self, _: &[u8]) -> Result<Vec<u8>, Infallible> {
        Ok(vec![1])
    }
}

fn at(seconds: u64) -> SystemTime {
    UNIX_EPOCH + Duration::from_secs(seconds)
}

fn name(text: &str) -> Name {
    text.parse().expect("a name")
}

fn subtree(base: GeneralName<'static>) -> GeneralSubtree<'static> {
    GeneralSubtree {
        base,
        minimum: 0,
        maximum: None,
    }
}

fn permitted(base: GeneralName<'static>) -> NameConstraints<'static> {
    NameConstraints {
        permitted_subtrees: Some(vec![subtree(base)]),
        excluded_subtrees: None,
    }
}

/// A certificate with these extensions, by their DER.
fn certificate(
    issuer: &str,
    subject: &str,
    key: &[u8],
    extensions: &[&dyn Fn(&mut CertificateBuilder)],
) -> Certificate {
    let validity = Validity {
        not_before: at(MOMENT),
        not_after: at(MOMENT + 1),
    };
    let number = SerialNumber::try_from(1u64).expect("a number");
    let (issuer, subject) = (name(issuer), name(subject));
    let mut builder = CertificateBuilder::new(number, &issuer, validity, &subject, key);
    for add in extensions {
        add(&mut builder);
    }
    builder.build(&Nothing).expect("a certificate")
}

fn add(
    builder: &mut CertificateBuilder,
    oid: x509_rattle::ObjectIdentifier,
    value: &impl ToExtension,
) {
    let der = value.to_der().expect("a value");
    builder
        .add_extension_der(oid, true, &der)
        .expect("an extension");
}

fn is_ca(builder: &mut CertificateBuilder) {
    let constraints = BasicConstraints {
        ca: true,
        path_len_constraint: None,
    };
    add(builder, oid::extension::BASIC_CONSTRAINTS, &constraints);
}

fn for_host(host: &'static str) -> impl Fn(&mut CertificateBuilder) {
    move |builder| {
        let names = SubjectAltName(vec![GeneralName::DnsName(host)].into());
        add(builder, oid::extension::SUBJECT_ALT_NAME, &names);
    }
}

fn constrained(constraints: NameConstraints<'static>) -> impl Fn(&mut CertificateBuilder) {
    move |builder| add(builder, oid::extension::NAME_CONSTRAINTS, &constraints)
}

fn accepts(_: &[u8], _: &Signature<'_>) -> bool {
    true
}

fn fault(place: usize, reason: FaultReason) -> PathError {
    PathError::Fault(PathFault { place, reason })
}

/// The number of certificates of a path that is valid, or why it isn't.
fn validate(
    anchor: &Certificate,
    path: &[&Certificate],
    settings: &PathSettings,
) -> Result<usize, PathError> {
    let path: Vec<&[u8]> = path.iter().map(|it| it.as_der()).collect();
    let found = validate_path(anchor.to_ref(), &path, settings, &accepts)?;
    assert_eq!(found.certificate().as_der(), path[path.len() - 1]);
    Ok(found.certificates().len())
}

#[test]
fn names_match_and_constraints_hold() {
    let settings = PathSettings::new(at(MOMENT));
    let example = || constrained(permitted(GeneralName::DnsName("example.org")));
    let root = certificate("CN=Root", "CN=Root", KEY, &[&is_ca, &example()]);
    let plain = certificate("CN=Root", "CN=Root", KEY, &[&is_ca]);
    // RFC 5280 7.1: case, and spaces
    let authority = certificate("CN=\\ ROOT", "O=CA,C=DE", OTHER_KEY, &[&is_ca]);
    let server = |host| certificate("O=ca,C=DE", "CN=S", KEY, &[&for_host(host)]);
    let (good, bad) = (server("www.example.org"), server("www.example.com"));
    assert_eq!(validate(&root, &[&authority, &good], &settings), Ok(2));
    assert_eq!(validate(&plain, &[&authority, &bad], &settings), Ok(2));
    let path = [authority.as_der(), good.as_der()];
    let by_bytes = check_path(plain.to_ref(), &path, at(MOMENT), &accepts).map(|it| it.len());
    assert_eq!(by_bytes, Err(fault(0, FaultReason::Issuer)));
    // those of the anchor, and of an authority
    assert_eq!(
        validate(&root, &[&authority, &bad], &settings),
        Err(fault(1, FaultReason::Names))
    );
    let narrow = certificate("CN=Root", "O=CA,C=DE", OTHER_KEY, &[&is_ca, &example()]);
    assert_eq!(
        validate(&plain, &[&narrow, &bad], &settings),
        Err(fault(1, FaultReason::Names))
    );
    assert_eq!(validate(&plain, &[&narrow, &good], &settings), Ok(2));
    // those of the caller
    let mut wide = settings.clone();
    let der = permitted(GeneralName::DnsName("example.com"))
        .to_der()
        .expect("constraints");
    wide.name_constraints(&der);
    assert_eq!(
        validate(&plain, &[&authority, &good], &wide),
        Err(fault(1, FaultReason::Names))
    );
    assert_eq!(validate(&plain, &[&authority, &bad], &wide), Ok(2));
    // no two of them have a name in common
    assert_eq!(
        validate(&root, &[&authority, &bad], &wide),
        Err(fault(1, FaultReason::Names))
    );
}

#[test]
fn constraints_and_extensions_that_cannot_be_followed() {
    let settings = PathSettings::new(at(MOMENT));
    let root = certificate("CN=Root", "CN=Root", KEY, &[&is_ca]);
    let constrained = |der: &'static [u8]| {
        move |builder: &mut CertificateBuilder| {
            let oid = oid::extension::NAME_CONSTRAINTS;
            builder
                .add_extension_der(oid, true, der)
                .expect("an extension");
        }
    };
    // a list without a subtree (RFC 5280 4.2.1.10)
    let der = b"\x30\x02\xa0\x00";
    let authority = certificate("CN=Root", "CN=CA", OTHER_KEY, &[&is_ca, &constrained(der)]);
    let server = certificate("CN=CA", "CN=S", KEY, &[]);
    assert_eq!(
        validate(&root, &[&authority, &server], &settings),
        Err(fault(0, FaultReason::Constraints))
    );
    // a minimum of 1, of directory names
    let minimum = b"\x30\x0b\xa0\x09\x30\x07\xa4\x02\x30\x00\x80\x01\x01";
    let authority = certificate(
        "CN=Root",
        "CN=CA",
        OTHER_KEY,
        &[&is_ca, &constrained(minimum)],
    );
    assert_eq!(
        validate(&root, &[&authority, &server], &settings),
        Err(fault(1, FaultReason::Names))
    );
    let mut asked = settings.clone();
    asked.name_constraints(der);
    assert_eq!(
        validate(&root, &[&server], &asked),
        Err(PathError::Refused(Error::Value))
    );
    asked.name_constraints(b"\x30\x01");
    assert_eq!(
        validate(&root, &[&server], &asked),
        Err(PathError::Refused(Error::Malformed))
    );
    // an extension of a type that is looked at, which isn't critical and can't be read
    let garbled = |builder: &mut CertificateBuilder| {
        let oid = oid::extension::CERTIFICATE_POLICIES;
        builder
            .add_extension_der(oid, false, b"\x05\x00")
            .expect("an extension");
    };
    let other = certificate("CN=Root", "CN=S", KEY, &[&garbled]);
    assert_eq!(
        validate(&root, &[&other], &settings),
        Err(fault(0, FaultReason::Extension))
    );
}

fn policy(text: &str) -> ObjectIdentifier {
    text.parse().expect("a policy")
}

fn under(policies: &'static [&'static str]) -> impl Fn(&mut CertificateBuilder) {
    move |builder| {
        let information = |text: &&str| PolicyInformation {
            policy_identifier: policy(text),
            policy_qualifiers: None,
        };
        let policies = CertificatePolicies(policies.iter().map(information).collect());
        add(builder, oid::extension::CERTIFICATE_POLICIES, &policies);
    }
}

/// RFC 5280 6.1: the policies of an authority and of a server under it, by what the caller asks for.
#[test]
fn policies_are_followed() {
    let root = certificate("CN=Root", "CN=Root", KEY, &[&is_ca]);
    let mapped = |builder: &mut CertificateBuilder| {
        let mapping = PolicyMapping {
            issuer_domain_policy: policy("1.2.3"),
            subject_domain_policy: policy("1.2.5"),
        };
        let mappings = PolicyMappings(vec![mapping]);
        add(builder, oid::extension::POLICY_MAPPINGS, &mappings);
    };
    let authority = |policies: &[&dyn Fn(&mut CertificateBuilder)]| {
        let extensions: Vec<_> = [&is_ca as &dyn Fn(&mut CertificateBuilder)]
            .into_iter()
            .chain(policies.iter().copied())
            .collect();
        certificate("CN=Root", "CN=CA", OTHER_KEY, &extensions)
    };
    let plain = authority(&[&under(&["1.2.3", "1.2.4"])]);
    let mapping = authority(&[&under(&["1.2.3", "1.2.4"]), &mapped]);
    let any = authority(&[&under(&["2.5.29.32.0"])]);
    let server = certificate("CN=CA", "CN=S", KEY, &[&under(&["1.2.3"])]);
    let other = certificate("CN=CA", "CN=S", KEY, &[&under(&["1.2.5"])]);
    let of = |path: [&Certificate; 2], settings: &PathSettings| {
        let path = path.map(|it| it.as_der());
        validate_path(root.to_ref(), &path, settings, &accepts).map(|it| it.policies().to_vec())
    };
    let settings = PathSettings::new(at(MOMENT));
    assert_eq!(of([&plain, &server], &settings), Ok(vec![policy("1.2.3")]));
    assert_eq!(of([&plain, &other], &settings), Ok(vec![]));
    assert_eq!(of([&mapping, &other], &settings), Ok(vec![policy("1.2.3")]));
    assert_eq!(of([&any, &other], &settings), Ok(vec![policy("1.2.5")]));
    let mut asked = settings.clone();
    asked.require_explicit_policy(true);
    assert_eq!(of([&plain, &server], &asked), Ok(vec![policy("1.2.3")]));
    let refused = Err(fault(1, FaultReason::Policy));
    assert_eq!(of([&plain, &other], &asked), refused);
    asked.inhibit_policy_mapping(true);
    assert_eq!(of([&mapping, &other], &asked), refused);
    asked.inhibit_any_policy(true);
    assert_eq!(
        of([&any, &other], &asked),
        Err(fault(0, FaultReason::Policy))
    );
    asked.inhibit_any_policy(false);
    assert_eq!(of([&any, &other], &asked), Ok(vec![policy("1.2.5")]));
    asked.policies(&[policy("1.2.4")]);
    assert_eq!(of([&plain, &server], &asked), refused);
    asked.policies(&[]);
    assert_eq!(of([&any, &other], &asked), refused);
    asked.require_explicit_policy(false);
    assert_eq!(of([&plain, &server], &asked), Ok(vec![]));
}

/// RFC 5937 3.2: the policies and the flags of an anchor are merged with what the caller asks.
#[test]
fn policies_of_anchors_are_followed() {
    let settings = PathSettings::new(at(MOMENT));
    let root = |asks: &dyn Fn(&mut CertificateBuilder)| {
        certificate("CN=Root", "CN=Root", KEY, &[&is_ca, asks])
    };
    let limited = root(&under(&["1.2.4"]));
    // whatever the number
    let explicit = root(&|builder: &mut CertificateBuilder| {
        let constraints = PolicyConstraints {
            require_explicit_policy: Some(3),
            inhibit_policy_mapping: None,
        };
        add(builder, oid::extension::POLICY_CONSTRAINTS, &constraints);
    });
    let authority = certificate("CN=Root", "CN=CA", OTHER_KEY, &[&is_ca, &under(&["1.2.3"])]);
    let server = |policies| certificate("CN=CA", "CN=S", KEY, &[&under(policies)]);
    let (one, other) = (server(&["1.2.3"]), server(&["1.2.5"]));
    let of = |root: &Certificate, server: &Certificate| {
        let path = [authority.as_der(), server.as_der()];
        let policies = |trusted: Trusted<'_>| {
            validate_path(trusted, &path, &settings, &accepts).map(|it| it.policies().to_vec())
        };
        let anchor = TrustAnchor::from_der(root.as_der()).expect("an anchor");
        let found = policies(root.to_ref().into());
        assert_eq!(policies(anchor.into()), found);
        found
    };
    assert_eq!(of(&limited, &one), Ok(vec![]));
    assert_eq!(of(&explicit, &one), Ok(vec![policy("1.2.3")]));
    assert_eq!(of(&explicit, &other), Err(fault(1, FaultReason::Policy)));
}

#[test]
fn moments_and_empty_paths() {
    let root = certificate("CN=Root", "CN=Root", KEY, &[&is_ca]);
    let at_moment = |moment| validate(&root, &[&root], &PathSettings::new(moment));
    assert_eq!(at_moment(at(MOMENT)), Ok(1));
    assert_eq!(
        at_moment(at(MOMENT + 2)),
        Err(fault(0, FaultReason::Moment))
    );
    assert_eq!(
        at_moment(at(253_402_300_800)),
        Err(PathError::Refused(Error::Value))
    );
    assert_eq!(
        at_moment(UNIX_EPOCH - Duration::from_secs(1)),
        Err(PathError::Refused(Error::Value))
    );
    let nothing: [&[u8]; 0] = [];
    let found = validate_path(
        root.to_ref(),
        &nothing,
        &PathSettings::new(at(MOMENT)),
        &accepts,
    );
    assert_eq!(found.map(|_| 0), Err(PathError::Refused(Error::Absent)));
}

#[test]
fn what_is_trusted() {
    let settings = PathSettings::new(at(MOMENT));
    let root = certificate(
        "CN=Root",
        "CN=Root",
        KEY,
        &[
            &is_ca,
            &constrained(permitted(GeneralName::DnsName("example.org"))),
        ],
    );
    let server = certificate(
        "CN=root",
        "CN=S",
        OTHER_KEY,
        &[&for_host("www.example.com")],
    );
    let of = |trusted: Trusted<'_>| {
        let keys = RefCell::new(Vec::new());
        let verifier = |key: &[u8], _: &Signature<'_>| {
            keys.borrow_mut().push(key.to_vec());
            true
        };
        let path = [server.as_der()];
        let found =
            validate_path(trusted, &path, &settings, &verifier).map(|it| it.certificates().len());
        (found, keys.into_inner())
    };
    let refused = Err(fault(0, FaultReason::Names));
    assert_eq!(
        of(root.to_ref().into()),
        (refused.clone(), vec![KEY.to_vec()])
    );
    let anchor = TrustAnchor::from_der(root.as_der()).expect("an anchor");
    assert_eq!(of(anchor.into()), (refused, vec![KEY.to_vec()]));
    let of_name = |text: &str, key: &'static [u8]| {
        let name = name(text);
        of(Trusted::NameAndKey {
            name: name.to_ref(),
            subject_public_key_info: key,
        })
    };
    assert_eq!(
        of_name("CN=ROOT", OTHER_KEY),
        (Ok(1), vec![OTHER_KEY.to_vec()])
    );
    assert_eq!(
        of_name("CN=Other", KEY),
        (Err(fault(0, FaultReason::Issuer)), vec![])
    );
    assert_eq!(
        of_name("CN=Root", b"\x30\x00"),
        (Err(PathError::Refused(Error::Malformed)), vec![])
    );
}

#[test]
fn each_signature_is_for_the_key_above() {
    let settings = PathSettings::new(at(MOMENT));
    let root = certificate("CN=Root", "CN=Root", KEY, &[&is_ca]);
    let authority = certificate("CN=Root", "CN=CA", OTHER_KEY, &[&is_ca]);
    let server = certificate("CN=CA", "CN=S", KEY, &[]);
    let path = [authority.as_der(), server.as_der()];
    for no_at in [None, Some(0), Some(1)] {
        let keys = RefCell::new(Vec::new());
        let verifier = |key: &[u8], _: &Signature<'_>| {
            keys.borrow_mut().push(key.to_vec());
            no_at != Some(keys.borrow().len() - 1)
        };
        let found = validate_path(
            CertificateRef::from_der(root.as_der()).expect("one"),
            &path,
            &settings,
            &verifier,
        );
        let expected = no_at.map_or(Ok(2), |place| Err(fault(place, FaultReason::Signature)));
        assert_eq!(found.map(|it| it.certificates().len()), expected);
        let asked = no_at.map_or(2, |place| place + 1);
        assert_eq!(
            keys.into_inner(),
            [KEY, OTHER_KEY].map(<[u8]>::to_vec)[..asked]
        );
    }
}

/// Two certificates, of which the last has two unique identifiers behind its key, of 16 bits and of 14 (RFC 5280 4.1).
fn two() -> [Certificate; 2] {
    let authority = certificate("CN=Root", "CN=CA", OTHER_KEY, &[&is_ca]);
    let host = for_host("www.beispiel.example.org");
    let server = certificate("CN=CA", "CN=S", KEY, &[&host]);
    let ids = b"\x81\x03\x00\xab\xcd\x82\x03\x02\x12\x34";
    let der = server.as_der();
    // the key stands there once; the lengths of the certificate and of its signed part have two octets each
    let places: Vec<usize> = (0..der.len())
        .filter(|at| der[*at..].starts_with(KEY))
        .collect();
    let behind = places[0] + KEY.len();
    let mut der = [&der[..behind], ids, &der[behind..]].concat();
    assert_eq!((places.len(), der[1], der[4]), (1, 0x81, 0x81));
    for at in [2, 5] {
        der[at] += ids.len() as u8;
    }
    [
        authority,
        Certificate::from_der(der).expect("a certificate"),
    ]
}

#[test]
fn each_certificate_says_what_it_says_alone() {
    fn said(it: CertificateRef<'_>) -> impl PartialEq + std::fmt::Debug + '_ {
        let unique = (it.issuer_unique_id(), it.subject_unique_id());
        let names = (it.issuer().to_string(), it.subject().to_string());
        let key = it.subject_public_key_info();
        let extensions: Vec<_> = it.extensions().map(|it| it.map(|it| it.oid())).collect();
        let dates = (it.validity(), it.version(), it.inner_algorithm());
        (it.serial_number(), names, dates, key, unique, extensions)
    }
    let settings = PathSettings::new(at(MOMENT));
    let root = certificate("CN=Root", "CN=Root", KEY, &[&is_ca]);
    let (certificates, subject) = (two(), name("CN=Root"));
    let path: Vec<&[u8]> = certificates.iter().map(Certificate::as_der).collect();
    let signatures: Vec<Signature<'_>> = certificates
        .iter()
        .map(|it| it.signature().expect("a signature"))
        .collect();
    let trusted = [
        Trusted::Certificate(root.to_ref()),
        Trusted::Anchor(TrustAnchor::from_der(root.as_der()).expect("an anchor")),
        Trusted::NameAndKey {
            name: subject.to_ref(),
            subject_public_key_info: KEY,
        },
    ];
    for trusted in trusted {
        let asked = RefCell::new(0);
        let verifier = |_: &[u8], signature: &Signature<'_>| {
            let place = asked.replace_with(|it| *it + 1);
            *signature == signatures[place]
        };
        let found = validate_path(trusted, &path, &settings, &verifier).expect("a path");
        assert_eq!((found.certificates().len(), asked.into_inner()), (2, 2));
        for (it, alone) in found.certificates().iter().zip(&certificates) {
            assert_eq!(it.as_der(), alone.as_der());
            assert_eq!(said(*it), said(alone.to_ref()));
        }
        let unique = found.certificate().subject_unique_id().expect("one");
        assert_eq!((unique.bits, unique.unused_bits), (&b"\x12\x34"[..], 2));
        assert_eq!(found.certificates()[0].subject_public_key_info(), OTHER_KEY);
    }
}

fn purposes(of: &'static [ObjectIdentifier]) -> impl Fn(&mut CertificateBuilder) {
    move |builder| {
        let usage = ExtendedKeyUsage(of.to_vec());
        add(builder, oid::extension::EXTENDED_KEY_USAGE, &usage);
    }
}

const SERVERS: ObjectIdentifier = oid::purpose::SERVER_AUTH;
const CODE: ObjectIdentifier = oid::purpose::CODE_SIGNING;

#[test]
fn a_purpose_holds_along_the_path() {
    let root = certificate("CN=Root", "CN=Root", KEY, &[&is_ca]);
    let plain = certificate("CN=Root", "CN=A", OTHER_KEY, &[&is_ca]);
    let for_code = certificate("CN=Root", "CN=A", OTHER_KEY, &[&is_ca, &purposes(&[CODE])]);
    let leaf = |of| certificate("CN=A", "CN=S", KEY, &[&purposes(of)]);
    let (code, server, both) = (leaf(&[CODE]), leaf(&[SERVERS]), leaf(&[SERVERS, CODE]));
    let new = || PathSettings::new(at(MOMENT));
    // without a question a critical extension isn't processed
    let unasked = validate(&root, &[&plain, &code], &new());
    assert_eq!(unasked, Err(fault(1, FaultReason::Critical)));
    let asked = |path: &[&Certificate], of: &[ObjectIdentifier], is_chained| {
        validate(&root, path, new().purposes(of).chain_purposes(is_chained))
    };
    let other = |place| Err(fault(place, FaultReason::Purpose));
    assert_eq!(asked(&[&plain, &code], &[SERVERS], true), other(1));
    assert_eq!(asked(&[&plain, &code], &[SERVERS, CODE], true), Ok(2));
    assert_eq!(asked(&[&for_code, &server], &[SERVERS], true), other(0));
    assert_eq!(
        asked(&[&for_code, &server], &[SERVERS, CODE], true),
        other(1)
    );
    assert_eq!(asked(&[&for_code, &server], &[SERVERS], false), Ok(2));
    assert_eq!(asked(&[&for_code, &both], &[SERVERS, CODE], true), Ok(2));
    // one of the caller's own, and several
    let own: Vec<ObjectIdentifier> = ["1.2.3.4", "1.2.3.5"]
        .map(|it| it.parse().expect("an identifier"))
        .to_vec();
    assert_eq!(asked(&[&plain, &both], &own[..1], true), other(1));
    assert_eq!(asked(&[&plain, &both], &[own[0], SERVERS], true), Ok(2));
    for none in [&own[..], &[]] {
        let refused = asked(&[&plain, &both], none, true);
        assert_eq!(refused, Err(PathError::Refused(Error::Value)));
    }
}

#[test]
fn common_names_are_constrained_where_it_is_asked() {
    let limits = constrained(permitted(GeneralName::DnsName("example.org")));
    let root = certificate("CN=Root", "CN=Root", KEY, &[&is_ca, &limits]);
    let asked = |leaf: &Certificate, is_asked| {
        let mut settings = PathSettings::new(at(MOMENT));
        validate(&root, &[leaf], settings.constrain_common_names(is_asked))
    };
    for outside in [
        "CN=www.example.com",
        "CN=*.EXAMPLE.com",
        "CN=a+CN=example.org",
    ] {
        let leaf = certificate("CN=Root", outside, OTHER_KEY, &[]);
        assert_eq!(asked(&leaf, false), Ok(1), "{outside}");
        let other = Err(fault(0, FaultReason::Names));
        assert_eq!(asked(&leaf, true), other, "{outside}");
        // the SAN has a name of that form
        let named = for_host("www.example.org");
        let leaf = certificate("CN=Root", outside, OTHER_KEY, &[&named]);
        assert_eq!(asked(&leaf, true), Ok(1), "{outside}");
    }
    for inside in ["CN=www.Example.org", "CN=192.0.2.1", "CN=An Example"] {
        let leaf = certificate("CN=Root", inside, OTHER_KEY, &[]);
        assert_eq!(asked(&leaf, true), Ok(1), "{inside}");
    }
}

#[test]
fn the_last_key_has_a_use() {
    let root = certificate("CN=Root", "CN=Root", KEY, &[&is_ca]);
    let signing = |builder: &mut CertificateBuilder| {
        let usage = KeyUsage::DIGITAL_SIGNATURE;
        add(builder, oid::extension::KEY_USAGE, &usage);
    };
    let leaf = certificate("CN=Root", "CN=S", OTHER_KEY, &[&signing]);
    let asked = |usage| {
        let mut settings = PathSettings::new(at(MOMENT));
        validate(&root, &[&leaf], settings.key_usage(usage))
    };
    assert_eq!(asked(KeyUsage::DIGITAL_SIGNATURE), Ok(1));
    let both = KeyUsage::DIGITAL_SIGNATURE | KeyUsage::KEY_AGREEMENT;
    assert_eq!(asked(both), Err(fault(0, FaultReason::Usage)));
}

/// Keys of the algorithm 1.2.3.4, one with an INTEGER as its parameters (RFC 5280 6.1.4 (d) to (f)).
#[test]
fn keys_have_parameters_of_those_above() {
    let plain = b"\x30\x0A\x30\x05\x06\x03\x2A\x03\x04\x03\x01\x00";
    let full = b"\x30\x0D\x30\x08\x06\x03\x2A\x03\x04\x02\x01\x07\x03\x01\x00";
    assert_eq!(working_key(full, plain).unwrap(), full);
    assert_eq!(working_key(plain, full).unwrap(), full);
    assert_eq!(working_key(plain, plain).unwrap(), plain);
    assert_eq!(working_key(full, b"\x05\x00"), Err(Error::Malformed));
}
