//! Each argument of each call of a builder: which part of what is built it changes, and that it changes no other one, or how it is refused. The tables have to
//! name each argument that `src/builder.rs` and `src/name/builder.rs` declare.
use std::collections::{BTreeMap, BTreeSet};
use std::convert::Infallible;
use std::time::{Duration, SystemTime, UNIX_EPOCH};
use x509_rattle::extension::{
    CrlNumber, CrlReason, ExtensionValue, KeyUsage, SubjectKeyIdentifier,
};
use x509_rattle::oid::{self, attribute};
use x509_rattle::{
    time_text, BuildError, Certificate, CertificateBuilder, CertificateProfile, Crl, CrlBuilder,
    CrlEntryBuilder, CsrBuilder, CsrRef, Error, Extensions, GeneralName, Name, NameBuilder,
    NameRef, ObjectIdentifier, ProfilePart, SerialNumber, Signer, StringType, Validity,
};

const BUILDERS: &str = include_str!("../src/builder.rs");
const NAME_BUILDER: &str = include_str!("../src/name/builder.rs");

// AlgorithmIdentifiers (RFC 8410 3, RFC 5758 3.2)
const ED25519: &[u8] = b"\x30\x05\x06\x03\x2b\x65\x70";
const ECDSA_SHA256: &[u8] = b"\x30\x0a\x06\x08\x2a\x86\x48\xce\x3d\x04\x03\x02";

// keys of Ed25519, of RSA (RFC 3279 2.3.1) and of P-256 (RFC 5480 2.1.1), whose bits are no keys
const KEY: &[u8] = b"\x30\x0a\x30\x05\x06\x03\x2b\x65\x70\x03\x01\x00";
const OTHER_KEY: &[u8] = b"\x30\x0d\x30\x05\x06\x03\x2b\x65\x70\x03\x04\x00abc";
const RSA_KEY: &[u8] =
    b"\x30\x12\x30\x0d\x06\x09\x2a\x86\x48\x86\xf7\x0d\x01\x01\x01\x05\x00\x03\x01\x00";
const EC_KEY: &[u8] =
    b"\x30\x18\x30\x13\x06\x07\x2a\x86\x48\xce\x3d\x02\x01\x06\x08\x2a\x86\x48\xce\x3d\x03\x01\x07\x03\x01\x00";

// 2026-01-02T03:04:05Z and 2055-06-07T08:09:10Z
const FIRST: u64 = 1_767_323_045;
const LAST: u64 = 2_695_968_550;
const AFTER_9999: u64 = 253_402_300_800;

/// It answers the same bits of each message.
#[derive(Clone)]
struct Fixed {
    algorithm: &'static [u8],
    key: &'static [u8],
    bits: &'static [u8],
}

impl Signer for Fixed {
    type Error = Infallible;

    fn algorithm(&self) -> &[u8] {
        self.algorithm
    }

    fn subject_public_key_info(&self) -> &[u8] {
        self.key
    }

    fn sign(&self, _: &[u8]) -> Result<Vec<u8>, Infallible> {
        Ok(self.bits.to_vec())
    }
}

const SIGNER: Fixed = Fixed {
    algorithm: ED25519,
    key: KEY,
    bits: b"\x01",
};

/// What is read of what was built, by the names of its parts.
type Parts = BTreeMap<String, String>;
type Refusal = BuildError<Infallible>;

/// An argument, how a call is changed in it, and which parts are others then, or the refusal.
type Row<C> = (
    &'static str,
    fn(&mut C),
    Result<&'static [(&'static str, &'static str)], Refusal>,
);

/// A row a line.
macro_rules! rows {
    ($it:ident: $call:ty; $($argument:literal, $change:expr => $expected:expr;)*) => {{
        let rows: Vec<Row<$call>> = vec![$(($argument, |$it| { $change; }, $expected)),*];
        rows
    }};
}

const fn refused(
    error: Error,
) -> Result<&'static [(&'static str, &'static str)], BuildError<Infallible>> {
    Err(BuildError::Refused(error))
}

fn at(seconds: u64) -> SystemTime {
    UNIX_EPOCH + Duration::from_secs(seconds)
}

fn before_1970() -> SystemTime {
    UNIX_EPOCH - Duration::from_secs(1)
}

fn name(text: &str) -> Name {
    text.parse().expect("a name")
}

fn number(value: u64) -> SerialNumber {
    SerialNumber::try_from(value).expect("a number")
}

fn hex(octets: &[u8]) -> String {
    octets.iter().map(|octet| format!("{octet:02x}")).collect()
}

/// `critical 03020780` under each identifier, and the identifiers in order.
fn told_extensions(list: Extensions<'_>) -> (String, Parts) {
    let list: Vec<_> = list.map(|it| it.expect("an extension")).collect();
    let order: Vec<_> = list.iter().map(|it| it.oid().to_string()).collect();
    let parts = list.iter().map(|it| {
        let critical = if it.critical() { "critical " } else { "" };
        (it.oid().to_string(), critical.to_owned() + &hex(it.value()))
    });
    (order.join(" "), parts.collect())
}

fn moment(it: SystemTime) -> String {
    time_text(it).expect("a text")
}

/// The parts that are others than before, each as it is now, and `none` where it isn't there any more.
fn differences(before: &Parts, after: &Parts) -> Parts {
    let names: BTreeSet<_> = before.keys().chain(after.keys()).collect();
    let changed = names
        .into_iter()
        .filter(|it| before.get(*it) != after.get(*it));
    let none = || "none".to_owned();
    changed
        .map(|it| (it.clone(), after.get(it).cloned().unwrap_or_else(none)))
        .collect()
}

/// Each row is as it says. The arguments that they name.
fn check<C: Clone>(
    base: &C,
    build: fn(&C) -> Result<Parts, Refusal>,
    rows: &[Row<C>],
) -> BTreeSet<String> {
    let before = build(base).expect("the parts of the base");
    let arguments = rows.iter().map(|(argument, change, expected)| {
        let mut call = base.clone();
        change(&mut call);
        let found = build(&call).map(|after| differences(&before, &after));
        let expected = expected.map(|changed| {
            let owned = |(part, text): &(&str, &str)| (part.to_string(), text.to_string());
            changed.iter().map(owned).collect::<Parts>()
        });
        assert_eq!(found, expected, "{argument}");
        argument.to_string()
    });
    arguments.collect()
}

#[derive(Clone)]
struct CertificateCall {
    serial_number: SerialNumber,
    issuer: Name,
    validity: Validity,
    subject: Name,
    key: &'static [u8],
    usage: Option<(bool, KeyUsage)>,
    others: Vec<(ObjectIdentifier, bool, &'static [u8])>,
    profile: Option<CertificateProfile<'static>>,
    issuer_key: Option<&'static [u8]>,
    signer: Fixed,
}

impl CertificateCall {
    fn new() -> CertificateCall {
        CertificateCall {
            serial_number: number(0xff),
            issuer: name("CN=I"),
            validity: Validity {
                not_before: at(FIRST),
                not_after: at(LAST),
            },
            subject: name("CN=S"),
            key: KEY,
            usage: Some((true, KeyUsage::DIGITAL_SIGNATURE)),
            others: vec![(oid::extension::PRECERT_POISON, true, b"\x05\x00")],
            profile: None,
            issuer_key: None,
            signer: SIGNER,
        }
    }

    /// Of a profile, whose extensions are all that there are.
    fn by(profile: CertificateProfile<'static>, subject: &str, key: &'static [u8]) -> Self {
        CertificateCall {
            subject: name(subject),
            key,
            usage: None,
            others: Vec::new(),
            profile: Some(profile),
            ..CertificateCall::new()
        }
    }

    fn build(&self) -> Result<Parts, Refusal> {
        let serial_number = self.serial_number.clone();
        let (issuer, subject) = (&self.issuer, &self.subject);
        let mut builder =
            CertificateBuilder::new(serial_number, issuer, self.validity, subject, self.key);
        if let Some((critical, usage)) = &self.usage {
            builder.add_extension(*critical, usage)?;
        }
        for (oid, critical, value) in &self.others {
            builder.add_extension_der(*oid, *critical, value)?;
        }
        let signer = &self.signer;
        let issuer_key = self.issuer_key.unwrap_or(signer.key);
        let (made, part) = match &self.profile {
            None => (
                builder.build(signer)?,
                builder.tbs_certificate(signer.algorithm)?,
            ),
            Some(profile) => (
                builder.build_as(profile, signer)?,
                builder.tbs_certificate_as(profile, signer.algorithm, issuer_key)?,
            ),
        };
        Ok(CertificateCall::read(&made, &part).expect("the parts"))
    }

    fn read(made: &Certificate, part: &[u8]) -> Result<Parts, Error> {
        let signature = made.signature()?;
        let is_signed = signature.signed_part == part;
        let (order, mut parts) = told_extensions(made.extensions());
        for (part, text) in [
            ("version", format!("{:?}", made.version())),
            ("serial", made.serial_number().to_string()),
            ("issuer", made.issuer().to_string()),
            ("not before", moment(made.validity().not_before)),
            ("not after", moment(made.validity().not_after)),
            ("subject", made.subject().to_string()),
            ("key", hex(made.subject_public_key_info())),
            ("order", order),
            ("algorithm", hex(signature.algorithm)),
            ("bits", hex(signature.bits)),
            ("is signed", is_signed.to_string()),
        ] {
            parts.insert(part.to_owned(), text);
        }
        Ok(parts)
    }
}

const NOT_BEFORE: &str = "2026-01-02T03:04:05Z";

fn of_certificates() -> BTreeSet<String> {
    let rows = rows! { it: CertificateCall;
        "CertificateBuilder::new serial_number", it.serial_number = number(5) => Ok(&[("serial", "05")]);
        "CertificateBuilder::new issuer", it.issuer = name("CN=J") => Ok(&[("issuer", "CN=J")]);
        "CertificateBuilder::new validity", it.validity.not_before = at(0) => Ok(&[("not before", "1970-01-01T00:00:00Z")]);
        "CertificateBuilder::new validity", it.validity.not_after = at(FIRST) => Ok(&[("not after", NOT_BEFORE)]);
        // parts of a second are left out
        "CertificateBuilder::new validity", it.validity.not_before += Duration::from_nanos(999_999_999) => Ok(&[]);
        "CertificateBuilder::new validity", it.validity.not_after = at(FIRST - 1) => refused(Error::Value);
        "CertificateBuilder::new validity", it.validity.not_before = before_1970() => refused(Error::Value);
        "CertificateBuilder::new validity", it.validity.not_after = at(AFTER_9999) => refused(Error::Value);
        "CertificateBuilder::new subject", it.subject = name("CN=T") => Ok(&[("subject", "CN=T")]);
        "CertificateBuilder::new subject_public_key_info", it.key = OTHER_KEY => Ok(&[("key", "300d300506032b6570030400616263")]);
        "CertificateBuilder::new subject_public_key_info", it.key = b"" => refused(Error::Malformed);
        "CertificateBuilder::add_extension critical", it.usage = Some((false, KeyUsage::DIGITAL_SIGNATURE)) => Ok(&[("2.5.29.15", "03020780")]);
        "CertificateBuilder::add_extension value", it.usage = Some((true, KeyUsage::KEY_AGREEMENT)) => Ok(&[("2.5.29.15", "critical 03020308")]);
        "CertificateBuilder::add_extension value", it.usage = Some((true, KeyUsage::default())) => refused(Error::Value);
        "CertificateBuilder::add_extension_der oid", it.others[0].0 = oid::extension::SUBJECT_KEY_IDENTIFIER =>
            Ok(&[("1.3.6.1.4.1.11129.2.4.3", "none"), ("2.5.29.14", "critical 0500"), ("order", "2.5.29.15 2.5.29.14")]);
        "CertificateBuilder::add_extension_der oid", it.others[0].0 = oid::extension::KEY_USAGE => refused(Error::Repeated);
        "CertificateBuilder::add_extension_der critical", it.others[0].1 = false => Ok(&[("1.3.6.1.4.1.11129.2.4.3", "0500")]);
        "CertificateBuilder::add_extension_der value", it.others[0].2 = b"ab" => Ok(&[("1.3.6.1.4.1.11129.2.4.3", "critical 6162")]);
        "CertificateBuilder::tbs_certificate algorithm", it.signer.algorithm = ECDSA_SHA256 => Ok(&[("algorithm", "300a06082a8648ce3d040302")]);
        "CertificateBuilder::tbs_certificate algorithm", it.signer.algorithm = b"" => refused(Error::Malformed);
        "CertificateBuilder::build signer", it.signer.bits = b"ab" => Ok(&[("bits", "6162")]);
    };
    check(&CertificateCall::new(), CertificateCall::build, &rows)
}

const fn root(signs_ocsp_responses: bool) -> CertificateProfile<'static> {
    CertificateProfile::Root {
        signs_ocsp_responses,
    }
}

fn of_roots() -> BTreeSet<String> {
    let rows = rows! { it: CertificateCall;
        "CertificateProfile::Root signs_ocsp_responses", it.profile = Some(root(true)) => Ok(&[("2.5.29.15", "critical 03020186")]);
        "CertificateBuilder::new subject", it.subject = name("CN=S,O=O,C=DE") => refused(Error::NotInProfile(ProfilePart::Issuer));
        "CertificateBuilder::new subject", (it.subject, it.issuer) = (name("CN=S"), name("CN=S")) => refused(Error::NotInProfile(ProfilePart::RootSubject));
        "CertificateBuilder::new issuer", it.issuer = name("CN=I") => refused(Error::NotInProfile(ProfilePart::Issuer));
        "CertificateBuilder::new subject_public_key_info", it.key = OTHER_KEY => Err(BuildError::OtherKey);
        "CertificateBuilder::build_as signer", it.signer.key = OTHER_KEY => Err(BuildError::OtherKey);
        "CertificateBuilder::tbs_certificate_as issuer_key", it.issuer_key = Some(OTHER_KEY) => refused(Error::NotInProfile(ProfilePart::IssuerKey));
        "CertificateBuilder::tbs_certificate_as algorithm", it.signer.algorithm = ECDSA_SHA256 => Ok(&[("algorithm", "300a06082a8648ce3d040302")]);
        "CertificateBuilder::new validity", it.validity.not_after = at(FIRST - 1) => refused(Error::Value);
        "CertificateBuilder::add_extension_der oid", it.others.push((oid::extension::AUTHORITY_KEY_IDENTIFIER, false, b"\x30\x00")) => refused(Error::Repeated);
        "CertificateBuilder::add_extension_der oid", it.others.push((oid::extension::BASIC_CONSTRAINTS, true, b"\x30\x00")) => refused(Error::Repeated);
        "CertificateBuilder::add_extension value", it.usage = Some((true, KeyUsage::DIGITAL_SIGNATURE)) => refused(Error::Repeated);
        "CertificateBuilder::add_extension_der oid", it.others.push((oid::extension::SUBJECT_KEY_IDENTIFIER, false, b"\x04\x00")) => refused(Error::Repeated);
        "CertificateBuilder::add_extension_der oid", it.others.push((oid::extension::EXTENDED_KEY_USAGE, false, b"\x30\x00")) =>
            Ok(&[("2.5.29.37", "3000"), ("order", "2.5.29.37 2.5.29.35 2.5.29.19 2.5.29.15 2.5.29.14")]);
    };
    let mut base = CertificateCall::by(root(false), "CN=R,O=O,C=DE", KEY);
    base.issuer = base.subject.clone();
    check(&base, CertificateCall::build, &rows)
}

const fn subordinate(
    path_len_constraint: Option<u8>,
    signs_ocsp_responses: bool,
    client_auth: bool,
) -> CertificateProfile<'static> {
    CertificateProfile::Subordinate {
        path_len_constraint,
        signs_ocsp_responses,
        client_auth,
    }
}

fn of_subordinates() -> BTreeSet<String> {
    let rows = rows! { it: CertificateCall;
        "CertificateProfile::Subordinate path_len_constraint", it.profile = Some(subordinate(Some(255), false, false)) =>
            Ok(&[("2.5.29.19", "critical 30070101ff020200ff")]);
        "CertificateProfile::Subordinate signs_ocsp_responses", it.profile = Some(subordinate(None, true, false)) => Ok(&[("2.5.29.15", "critical 03020186")]);
        "CertificateProfile::Subordinate client_auth", it.profile = Some(subordinate(None, false, true)) =>
            Ok(&[("2.5.29.37", "301406082b0601050507030106082b06010505070302")]);
        "CertificateBuilder::build_as profile", it.profile = Some(CertificateProfile::Device { names: &[] }) =>
            Ok(&[("2.5.29.14", "none"), ("2.5.29.15", "critical 03020780"), ("2.5.29.19", "none"), ("2.5.29.37", "none"), ("order", "2.5.29.35 2.5.29.15")]);
        // the name of a root has an organization and a country
        "CertificateBuilder::tbs_certificate_as profile", it.profile = Some(root(false)) => refused(Error::NotInProfile(ProfilePart::RootSubject));
        // the AKI is of the SHA-1 digest of the octets of the issuer's key (RFC 5280 4.2.1.2), which is that of "abc" (RFC 3174 7.3)
        "CertificateBuilder::build_as signer", it.signer.key = OTHER_KEY => Ok(&[("2.5.29.35", "30168014a9993e364706816aba3e25717850c26c9cd0d89d")]);
        "CertificateBuilder::tbs_certificate_as issuer_key", it.issuer_key = Some(OTHER_KEY) => Ok(&[("is signed", "false")]);
        "CertificateBuilder::tbs_certificate_as issuer_key", it.signer.key = b"" => refused(Error::Malformed);
        "CertificateBuilder::new issuer", it.issuer = name("CN=J") => Ok(&[("issuer", "CN=J")]);
        "CertificateBuilder::new subject", it.subject = name("OU=x+CN=T,C=DE") => Ok(&[("subject", "CN=T+OU=x,C=DE")]);
        "CertificateBuilder::new subject_public_key_info", it.key = OTHER_KEY =>
            Ok(&[("2.5.29.14", "0414a9993e364706816aba3e25717850c26c9cd0d89d"), ("key", "300d300506032b6570030400616263")]);
        "CertificateBuilder::add_extension_der oid", it.others.push((oid::extension::EXTENDED_KEY_USAGE, false, b"\x30\x00")) => refused(Error::Repeated);
    };
    let base = CertificateCall::by(subordinate(None, false, false), "CN=S", KEY);
    check(&base, CertificateCall::build, &rows)
}

const fn subscriber(asked: [bool; 4]) -> CertificateProfile<'static> {
    let [client_auth, key_encipherment, key_agreement, data_encipherment] = asked;
    CertificateProfile::Subscriber {
        client_auth,
        key_encipherment,
        key_agreement,
        data_encipherment,
    }
}

fn of_subscribers() -> BTreeSet<String> {
    const PLAIN: CertificateProfile<'static> = subscriber([false; 4]);
    const WITH_ENCIPHERMENT: CertificateProfile<'static> = subscriber([false, true, false, false]);
    const WITH_AGREEMENT: CertificateProfile<'static> = subscriber([false, false, true, false]);
    const WITH_DATA: CertificateProfile<'static> = subscriber([false, false, false, true]);
    let shared = rows! { it: CertificateCall;
        "CertificateProfile::Subscriber client_auth", it.profile = Some(subscriber([true, false, false, false])) =>
            Ok(&[("2.5.29.37", "301406082b0601050507030106082b06010505070302")]);
        "CertificateBuilder::new subject", it.subject = name("CN=b,CN=a,C=DE") => Ok(&[("subject", "CN=b,CN=a,C=DE")]);
        "CertificateBuilder::new subject", it.subject = name("CN=a,O=O,C=DE") => refused(Error::NotInProfile(ProfilePart::Subject));
        "CertificateBuilder::add_extension value", it.usage = Some((true, KeyUsage::DIGITAL_SIGNATURE)) => refused(Error::Repeated);
    };
    let of_rsa = rows! { it: CertificateCall;
        "CertificateProfile::Subscriber key_encipherment", it.profile = Some(WITH_ENCIPHERMENT) => Ok(&[("2.5.29.15", "critical 030205a0")]);
        "CertificateProfile::Subscriber data_encipherment", it.profile = Some(WITH_DATA) => Ok(&[("2.5.29.15", "critical 03020490")]);
        "CertificateProfile::Subscriber key_agreement", it.profile = Some(WITH_AGREEMENT) => refused(Error::NotInProfile(ProfilePart::KeyUsage));
    };
    let of_curves = rows! { it: CertificateCall;
        "CertificateProfile::Subscriber key_agreement", it.profile = Some(WITH_AGREEMENT) => Ok(&[("2.5.29.15", "critical 03020388")]);
        "CertificateProfile::Subscriber key_encipherment", it.profile = Some(WITH_ENCIPHERMENT) => refused(Error::NotInProfile(ProfilePart::KeyUsage));
        "CertificateProfile::Subscriber data_encipherment", it.profile = Some(WITH_DATA) => refused(Error::NotInProfile(ProfilePart::KeyUsage));
    };
    let mut named = BTreeSet::new();
    for (key, rows) in [(RSA_KEY, of_rsa), (EC_KEY, of_curves), (KEY, Vec::new())] {
        let base = CertificateCall::by(PLAIN, "CN=a,C=DE", key);
        named.append(&mut check(&base, CertificateCall::build, &rows));
        named.append(&mut check(&base, CertificateCall::build, &shared));
    }
    named
}

/// id-on-hardwareModuleName with a HardwareModuleName (RFC 4108 5).
fn hardware() -> GeneralName<'static> {
    GeneralName::OtherName {
        type_id: "1.3.6.1.5.5.7.8.4".parse().expect("an OID"),
        value: b"\x30\x07\x06\x02\x2a\x03\x04\x01\x05",
    }
}

/// A device of these names, which the test keeps.
fn device(names: Vec<GeneralName<'static>>) -> CertificateProfile<'static> {
    CertificateProfile::Device {
        names: names.leak(),
    }
}

fn of_devices() -> BTreeSet<String> {
    let rows = rows! { it: CertificateCall;
        "CertificateProfile::Device names", it.profile = Some(device(vec![hardware()])) =>
            Ok(&[("2.5.29.17", "3017a01506082b06010505070804a009300706022a03040105"), ("order", "2.5.29.35 2.5.29.15 2.5.29.17")]);
        "CertificateProfile::Device names", it.profile = Some(device(vec![GeneralName::DnsName("d")])) => refused(Error::NotInProfile(ProfilePart::Names));
        "CertificateProfile::Device names", it.profile = Some(device(vec![hardware(), GeneralName::DnsName("ö")])) => refused(Error::Value);
        "CertificateBuilder::add_extension_der oid", {
            it.profile = Some(device(vec![hardware()]));
            it.others.push((oid::extension::SUBJECT_ALT_NAME, false, b"\x30\x03\x82\x01d"));
        } => refused(Error::Repeated);
        "CertificateBuilder::add_extension_der oid", it.others.push((oid::extension::SUBJECT_ALT_NAME, false, b"\x30\x03\x82\x01d")) =>
            Ok(&[("2.5.29.17", "3003820164"), ("order", "2.5.29.17 2.5.29.35 2.5.29.15")]);
    };
    let base = CertificateCall::by(device(Vec::new()), "CN=S", KEY);
    check(&base, CertificateCall::build, &rows)
}

#[derive(Clone)]
struct ListCall {
    issuer: Certificate,
    number: &'static [u8],
    this_update: SystemTime,
    next_update: Option<SystemTime>,
    entry: (Certificate, SystemTime, Option<CrlReason>),
    other: (Certificate, SystemTime),
    of_other: Vec<(ObjectIdentifier, bool, &'static [u8])>,
    reason: Option<(bool, CrlReason)>,
    usage: Option<(bool, KeyUsage)>,
    others: Vec<(ObjectIdentifier, bool, &'static [u8])>,
    signer: Fixed,
}

/// A certificate of the key with that number and that subject, and with an SKI.
fn certificate(serial_number: u64, subject: &str) -> Certificate {
    let validity = CertificateCall::new().validity;
    let (serial_number, names) = (number(serial_number), name(subject));
    let mut builder = CertificateBuilder::new(serial_number, &names, validity, &names, KEY);
    builder
        .add_extension(false, &SubjectKeyIdentifier(b"abcd"))
        .expect("an extension");
    builder.build(&SIGNER).expect("a certificate")
}

impl ListCall {
    fn new() -> ListCall {
        ListCall {
            issuer: certificate(1, "CN=I"),
            number: b"\x07",
            this_update: at(FIRST),
            next_update: Some(at(LAST)),
            entry: (
                certificate(5, "CN=S"),
                at(1),
                Some(CrlReason::KeyCompromise),
            ),
            other: (certificate(6, "CN=S"), at(2)),
            of_other: vec![(oid::extension::INVALIDITY_DATE, false, b"ab")],
            reason: None,
            usage: None,
            others: vec![(oid::extension::DELTA_CRL_INDICATOR, true, b"\x02\x01\x01")],
            signer: SIGNER,
        }
    }

    fn build(&self) -> Result<Parts, Refusal> {
        let mut builder = CrlBuilder::new(self.issuer.to_ref(), self.number, self.this_update);
        if let Some(next) = self.next_update {
            builder.next_update(next);
        }
        let (revoked, date, reason) = &self.entry;
        builder.add_entry(revoked.serial_number(), *date, *reason)?;
        let (revoked, date) = &self.other;
        let mut entry = CrlEntryBuilder::new(revoked.serial_number(), *date);
        for (oid, critical, value) in &self.of_other {
            entry.add_extension_der(*oid, *critical, value)?;
        }
        if let Some((critical, reason)) = &self.reason {
            entry.add_extension(*critical, reason)?;
        }
        builder.add_entry_of(&entry)?;
        if let Some((critical, usage)) = &self.usage {
            builder.add_extension(*critical, usage)?;
        }
        for (oid, critical, value) in &self.others {
            builder.add_extension_der(*oid, *critical, value)?;
        }
        let made = builder.build(&self.signer)?;
        let part = builder.tbs_cert_list(self.signer.algorithm)?;
        Ok(ListCall::read(&made, &part).expect("the parts"))
    }

    fn read(made: &Crl, part: &[u8]) -> Result<Parts, Error> {
        let signature = made.signature()?;
        assert_eq!(signature.signed_part, part);
        let (order, mut parts) = told_extensions(made.extensions());
        for (n, entry) in made.entries().enumerate() {
            let entry = entry?;
            let (order, of_entry) = told_extensions(entry.extensions());
            let entry = format!("{} {}", entry.serial_number, moment(entry.date));
            parts.insert(format!("{n}"), entry);
            parts.insert(format!("{n} order"), order);
            parts.extend(
                of_entry
                    .into_iter()
                    .map(|(oid, it)| (format!("{n} {oid}"), it)),
            );
        }
        let next_update = made.next_update()?.map(moment);
        for (part, text) in [
            ("version", made.version().to_string()),
            ("issuer", made.issuer().to_string()),
            ("this update", moment(made.this_update()?)),
            ("next update", next_update.unwrap_or_default()),
            ("order", order),
            ("algorithm", hex(signature.algorithm)),
            ("bits", hex(signature.bits)),
        ] {
            parts.insert(part.to_owned(), text);
        }
        Ok(parts)
    }
}

fn of_lists() -> BTreeSet<String> {
    let rows = rows! { it: ListCall;
        "CrlBuilder::new issuer", it.issuer = certificate(1, "CN=J") => Ok(&[("issuer", "CN=J")]);
        "CrlBuilder::new number", it.number = b"\x00\x00\x80" => Ok(&[("2.5.29.20", "02020080")]);
        "CrlBuilder::new number", it.number = b"" => refused(Error::Value);
        "CrlBuilder::new number", it.number = b"\x00\x7fxxxxxxxxxxxxxxxxxxx" => Ok(&[("2.5.29.20", "02147f78787878787878787878787878787878787878")]);
        // 21 content octets (RFC 5280 5.2.3)
        "CrlBuilder::new number", it.number = b"\x80xxxxxxxxxxxxxxxxxxx" => refused(Error::Value);
        "CrlBuilder::new this_update", it.this_update = at(0) => Ok(&[("this update", "1970-01-01T00:00:00Z")]);
        "CrlBuilder::new this_update", it.this_update = before_1970() => refused(Error::Value);
        "CrlBuilder::next_update moment", it.next_update = None => Ok(&[("next update", "")]);
        "CrlBuilder::next_update moment", it.next_update = Some(at(FIRST)) => Ok(&[("next update", NOT_BEFORE)]);
        "CrlBuilder::next_update moment", it.next_update = Some(at(FIRST - 1)) => refused(Error::Value);
        "CrlBuilder::next_update moment", it.next_update = Some(at(AFTER_9999)) => refused(Error::Value);
        "CrlBuilder::add_entry serial_number", it.entry.0 = certificate(0xff, "CN=S") => Ok(&[("0", "00:FF 1970-01-01T00:00:01Z")]);
        "CrlBuilder::add_entry date", it.entry.1 = at(FIRST) => Ok(&[("0", "05 2026-01-02T03:04:05Z")]);
        "CrlBuilder::add_entry date", it.entry.1 = at(AFTER_9999) => refused(Error::Value);
        "CrlBuilder::add_entry reason", it.entry.2 = Some(CrlReason::AaCompromise) => Ok(&[("0 2.5.29.21", "0a010a")]);
        "CrlBuilder::add_entry reason", it.entry.2 = None => Ok(&[("0 2.5.29.21", "none"), ("0 order", "")]);
        "CrlBuilder::add_entry_of entry", it.of_other.clear() => Ok(&[("1 2.5.29.24", "none"), ("1 order", "")]);
        "CrlEntryBuilder::new serial_number", it.other.0 = certificate(0xff, "CN=S") => Ok(&[("1", "00:FF 1970-01-01T00:00:02Z")]);
        "CrlEntryBuilder::new date", it.other.1 = at(FIRST) => Ok(&[("1", "06 2026-01-02T03:04:05Z")]);
        "CrlEntryBuilder::new date", it.other.1 = before_1970() => refused(Error::Value);
        "CrlEntryBuilder::add_extension value", it.reason = Some((false, CrlReason::Superseded)) =>
            Ok(&[("1 2.5.29.21", "0a0104"), ("1 order", "2.5.29.24 2.5.29.21")]);
        "CrlEntryBuilder::add_extension critical", it.reason = Some((true, CrlReason::Superseded)) =>
            Ok(&[("1 2.5.29.21", "critical 0a0104"), ("1 order", "2.5.29.24 2.5.29.21")]);
        "CrlEntryBuilder::add_extension_der oid", it.of_other[0].0 = oid::extension::CERTIFICATE_ISSUER =>
            Ok(&[("1 2.5.29.24", "none"), ("1 2.5.29.29", "6162"), ("1 order", "2.5.29.29")]);
        "CrlEntryBuilder::add_extension_der oid", it.of_other.push((oid::extension::INVALIDITY_DATE, true, b"cd")) => refused(Error::Repeated);
        "CrlEntryBuilder::add_extension_der critical", it.of_other[0].1 = true => Ok(&[("1 2.5.29.24", "critical 6162")]);
        "CrlEntryBuilder::add_extension_der value", it.of_other[0].2 = b"" => Ok(&[("1 2.5.29.24", "")]);
        "CrlBuilder::add_extension critical", it.usage = Some((true, KeyUsage::CRL_SIGN)) =>
            Ok(&[("2.5.29.15", "critical 03020102"), ("order", "2.5.29.20 2.5.29.35 2.5.29.15 2.5.29.27")]);
        "CrlBuilder::add_extension value", it.usage = Some((false, KeyUsage::ENCIPHER_ONLY)) => refused(Error::Value);
        "CrlBuilder::add_extension_der oid", it.others[0].0 = oid::extension::FRESHEST_CRL =>
            Ok(&[("2.5.29.27", "none"), ("2.5.29.46", "critical 020101"), ("order", "2.5.29.20 2.5.29.35 2.5.29.46")]);
        // the builder makes both
        "CrlBuilder::add_extension_der oid", it.others[0].0 = oid::extension::CRL_NUMBER => refused(Error::Repeated);
        "CrlBuilder::add_extension_der oid", it.others[0].0 = oid::extension::AUTHORITY_KEY_IDENTIFIER => refused(Error::Repeated);
        "CrlBuilder::add_extension_der critical", it.others[0].1 = false => Ok(&[("2.5.29.27", "020101")]);
        "CrlBuilder::add_extension_der value", it.others[0].2 = b"\x02\x01\x02" => Ok(&[("2.5.29.27", "critical 020102")]);
        "CrlBuilder::tbs_cert_list algorithm", it.signer.algorithm = ECDSA_SHA256 => Ok(&[("algorithm", "300a06082a8648ce3d040302")]);
        "CrlBuilder::build signer", it.signer.bits = b"ab" => Ok(&[("bits", "6162")]);
        "CrlBuilder::build signer", it.signer.key = OTHER_KEY => Err(BuildError::OtherKey);
    };
    check(&ListCall::new(), ListCall::build, &rows)
}

#[test]
fn serial_numbers_that_are_too_long() {
    // 22 octets
    let der = [&b"\x02\x16"[..], &[7; 22]].concat();
    let CrlNumber(serial_number) = CrlNumber::from_der(&der).expect("a number");
    let mut builder = CrlBuilder::new(certificate(1, "CN=I").to_ref(), b"\x07", at(FIRST));
    let refused = builder.add_entry(serial_number, at(1), None).err();
    assert_eq!(refused, Some(Error::Malformed));
    let entry = CrlEntryBuilder::new(serial_number, at(1));
    assert_eq!(builder.add_entry_of(&entry).err(), Some(Error::Malformed));
}

#[derive(Clone)]
struct RequestCall {
    subject: Name,
    oid: ObjectIdentifier,
    values: &'static [&'static [u8]],
    attributes: Vec<&'static [u8]>,
    usage: Option<(bool, KeyUsage)>,
    others: Vec<(ObjectIdentifier, bool, &'static [u8])>,
    signer: Fixed,
}

impl RequestCall {
    fn new() -> RequestCall {
        RequestCall {
            subject: name("CN=S"),
            oid: oid::request::CHALLENGE_PASSWORD,
            values: &[b"\x0c\x01a"],
            // the type is 1.2.3
            attributes: vec![b"\x30\x09\x06\x02\x2a\x03\x31\x03\x0c\x01b"],
            usage: None,
            others: Vec::new(),
            signer: SIGNER,
        }
    }

    fn build(&self) -> Result<Parts, Refusal> {
        let mut builder = CsrBuilder::new(&self.subject);
        builder.add_attribute(self.oid, self.values);
        for attribute in &self.attributes {
            builder.add_attribute_der(attribute);
        }
        if let Some((critical, usage)) = &self.usage {
            builder.add_extension(*critical, usage)?;
        }
        for (oid, critical, value) in &self.others {
            builder.add_extension_der(*oid, *critical, value)?;
        }
        let made = builder.build(&self.signer)?;
        let part = builder.certification_request_info(self.signer.key)?;
        Ok(RequestCall::read(made.as_der(), &part).expect("the parts"))
    }

    fn read(der: &[u8], part: &[u8]) -> Result<Parts, Error> {
        let made = CsrRef::from_der(der)?;
        let signature = made.signature()?;
        assert_eq!(signature.signed_part, part);
        let (order, mut parts) = told_extensions(made.extensions()?);
        for attribute in made.attributes() {
            let attribute = attribute?;
            if attribute.oid != oid::request::EXTENSION_REQUEST {
                let values = attribute.values().map(|it| it.map(|it| hex(it.der)));
                let values = values.collect::<Result<Vec<_>, _>>()?.join(" ");
                parts.insert(attribute.oid.to_string(), values);
            }
        }
        for (part, text) in [
            ("subject", made.subject().to_string()),
            ("key", hex(made.subject_public_key_info())),
            ("order", order),
            ("algorithm", hex(signature.algorithm)),
            ("bits", hex(signature.bits)),
        ] {
            parts.insert(part.to_owned(), text);
        }
        Ok(parts)
    }
}

fn of_requests() -> BTreeSet<String> {
    let rows = rows! { it: RequestCall;
        "CsrBuilder::new subject", it.subject = name("CN=T") => Ok(&[("subject", "CN=T")]);
        "CsrBuilder::add_attribute oid", it.oid = attribute::COMMON_NAME => Ok(&[("1.2.840.113549.1.9.7", "none"), ("2.5.4.3", "0c0161")]);
        // the builder has one that asks for extensions
        "CsrBuilder::add_attribute oid", it.oid = oid::request::EXTENSION_REQUEST => refused(Error::Repeated);
        "CsrBuilder::add_attribute oid", it.oid = "1.2.3".parse().expect("an OID") => refused(Error::Repeated);
        "CsrBuilder::add_attribute values", it.values = &[b"\x0c\x01c", b"\x0c\x01b"] => Ok(&[("1.2.840.113549.1.9.7", "0c0162 0c0163")]);
        "CsrBuilder::add_attribute values", it.values = &[] => refused(Error::Malformed);
        "CsrBuilder::add_attribute values", it.values = &[b"\x0c\x01a", b""] => refused(Error::Malformed);
        // two elements are no value
        "CsrBuilder::add_attribute values", it.values = &[b"\x0c\x01a\x0c\x01b"] => refused(Error::Malformed);
        "CsrBuilder::add_attribute values", it.values = &[b"\x0c\x01a", b"\x0c\x01a"] => refused(Error::Malformed);
        "CsrBuilder::add_attribute_der attribute", it.attributes[0] = b"\x30\x09\x06\x02\x2a\x04\x31\x03\x0c\x01c" =>
            Ok(&[("1.2.3", "none"), ("1.2.4", "0c0163")]);
        "CsrBuilder::add_attribute_der attribute", it.attributes.push(it.attributes[0]) => refused(Error::Repeated);
        "CsrBuilder::add_attribute_der attribute", it.attributes.push(b"") => refused(Error::Malformed);
        // without a value
        "CsrBuilder::add_attribute_der attribute", it.attributes[0] = b"\x30\x06\x06\x02\x2a\x03\x31\x00" => refused(Error::Malformed);
        // one attribute, and not two
        "CsrBuilder::add_attribute_der attribute", it.attributes[0] = b"\x30\x09\x06\x02\x2a\x03\x31\x03\x0c\x01b\x30\x09\x06\x02\x2a\x04\x31\x03\x0c\x01c" =>
            refused(Error::Malformed);
        "CsrBuilder::add_extension critical", it.usage = Some((true, KeyUsage::DIGITAL_SIGNATURE)) =>
            Ok(&[("2.5.29.15", "critical 03020780"), ("order", "2.5.29.15")]);
        "CsrBuilder::add_extension value", it.usage = Some((false, KeyUsage::KEY_AGREEMENT | KeyUsage::DECIPHER_ONLY)) =>
            Ok(&[("2.5.29.15", "0303070880"), ("order", "2.5.29.15")]);
        "CsrBuilder::add_extension_der oid", it.others.push((oid::extension::SUBJECT_ALT_NAME, false, b"ab")) =>
            Ok(&[("2.5.29.17", "6162"), ("order", "2.5.29.17")]);
        "CsrBuilder::add_extension_der oid", it.others = vec![(oid::extension::SUBJECT_ALT_NAME, false, b"ab"); 2] => refused(Error::Repeated);
        "CsrBuilder::add_extension_der critical", it.others.push((oid::extension::SUBJECT_ALT_NAME, true, b"ab")) =>
            Ok(&[("2.5.29.17", "critical 6162"), ("order", "2.5.29.17")]);
        "CsrBuilder::add_extension_der value", it.others.push((oid::extension::SUBJECT_ALT_NAME, false, b"")) =>
            Ok(&[("2.5.29.17", ""), ("order", "2.5.29.17")]);
        "CsrBuilder::certification_request_info subject_public_key_info", it.signer.key = OTHER_KEY => Ok(&[("key", "300d300506032b6570030400616263")]);
        "CsrBuilder::build signer", it.signer.algorithm = ECDSA_SHA256 => Ok(&[("algorithm", "300a06082a8648ce3d040302")]);
        "CsrBuilder::build signer", it.signer.bits = b"" => Ok(&[("bits", "")]);
    };
    check(&RequestCall::new(), RequestCall::build, &rows)
}

#[derive(Clone)]
struct NameCall {
    attribute: (ObjectIdentifier, StringType, String),
    rdn: Vec<(ObjectIdentifier, StringType, &'static str)>,
    add: fn(&mut NameBuilder) -> &mut NameBuilder,
}

/// `2.5.4.3 0c a` of each attribute, by the number of its relative name.
fn told_name(name: NameRef<'_>) -> Result<Parts, Error> {
    let rdns = name.rdns().enumerate().map(|(n, rdn)| {
        let attributes = rdn?.attributes().map(|it| {
            let it = it?;
            let text = it.text().expect("a text");
            Ok(format!("{} {:02x} {text}", it.oid, it.tag))
        });
        let attributes = attributes.collect::<Result<Vec<_>, Error>>()?;
        Ok((n.to_string(), attributes.join(", ")))
    });
    rdns.collect()
}

impl NameCall {
    fn new() -> NameCall {
        NameCall {
            attribute: (attribute::COMMON_NAME, StringType::AsWanted, "a".to_owned()),
            rdn: vec![
                (attribute::COMMON_NAME, StringType::AsWanted, "b"),
                (attribute::SURNAME, StringType::PrintableString, "c"),
            ],
            add: |it| it,
        }
    }

    fn build(&self) -> Result<Parts, Refusal> {
        let mut builder = Name::builder();
        let (oid, string_type, text) = &self.attribute;
        builder.attribute(*oid, *string_type, text).rdn(&self.rdn);
        (self.add)(&mut builder);
        let name = builder.build()?;
        Ok(told_name(name.to_ref()).expect("the parts"))
    }
}

fn of_names() -> BTreeSet<String> {
    let rows = rows! { it: NameCall;
        "NameBuilder::new", it.add = |it| it => Ok(&[]);
        "NameBuilder::build", it.add = |it| it => Ok(&[]);
        "NameBuilder::attribute oid", it.attribute.0 = attribute::COUNTRY_NAME => refused(Error::Value);
        "NameBuilder::attribute oid", it.attribute.0 = attribute::EMAIL_ADDRESS => Ok(&[("0", "1.2.840.113549.1.9.1 16 a")]);
        "NameBuilder::attribute string_type", it.attribute.1 = StringType::PrintableString => Ok(&[("0", "2.5.4.3 13 a")]);
        "NameBuilder::attribute string_type", it.attribute.1 = StringType::Utf8String => Ok(&[]);
        "NameBuilder::attribute string_type", it.attribute.1 = StringType::BmpString => Ok(&[("0", "2.5.4.3 1e a")]);
        // a DirectoryString is no IA5String (RFC 5280 4.1.2.4)
        "NameBuilder::attribute string_type", it.attribute.1 = StringType::Ia5String => refused(Error::StringType);
        // a country is a PrintableString alone (RFC 5280 A.1)
        "NameBuilder::attribute string_type", it.attribute = (attribute::COUNTRY_NAME, StringType::Utf8String, "DE".to_owned()) => refused(Error::StringType);
        "NameBuilder::attribute text", it.attribute.2 = "a,O=Evil+C=DE\\\0\u{202e}".to_owned() => Ok(&[("0", "2.5.4.3 0c a,O=Evil+C=DE\\\0\u{202e}")]);
        "NameBuilder::attribute text", it.attribute = (attribute::COMMON_NAME, StringType::PrintableString, "a@b".to_owned()) => refused(Error::Value);
        "NameBuilder::attribute text", it.attribute = (attribute::EMAIL_ADDRESS, StringType::AsWanted, "ö@b".to_owned()) => refused(Error::Value);
        "NameBuilder::attribute text", it.attribute = (attribute::COMMON_NAME, StringType::BmpString, "\u{1f600}".to_owned()) => refused(Error::Value);
        "NameBuilder::attribute text", it.attribute.2.clear() => refused(Error::Value);
        // ub-common-name is 64 characters (RFC 5280 A.1)
        "NameBuilder::attribute text", it.attribute.2 = "ö".repeat(64) =>
            Ok(&[("0", "2.5.4.3 0c öööööööööööööööööööööööööööööööööööööööööööööööööööööööööööööööö")]);
        "NameBuilder::attribute text", it.attribute.2 = "a".repeat(65) => refused(Error::Value);
        "NameBuilder::without_bounds", {
            it.attribute.2 = "a".repeat(65);
            it.add = |it| it.without_bounds();
        } => Ok(&[("0", "2.5.4.3 0c aaaaaaaaaaaaaaaaaaaaaaaaaaaaaaaaaaaaaaaaaaaaaaaaaaaaaaaaaaaaaaaaa")]);
        "NameBuilder::rdn attributes", it.rdn.reverse() => Ok(&[]);
        "NameBuilder::rdn attributes", it.rdn[1].1 = StringType::AsWanted => Ok(&[("1", "2.5.4.3 0c b, 2.5.4.4 0c c")]);
        "NameBuilder::rdn attributes", it.rdn.truncate(1) => Ok(&[("1", "2.5.4.3 0c b")]);
        "NameBuilder::rdn attributes", it.rdn.push(it.rdn[0]) => refused(Error::SetDuplicate);
        "NameBuilder::rdn attributes", it.rdn.clear() => refused(Error::Value);
        "NameBuilder::country_name text", it.add = |it| it.country_name("DE") => Ok(&[("2", "2.5.4.6 13 DE")]);
        "NameBuilder::country_name text", it.add = |it| it.country_name("DEU") => refused(Error::Value);
        "NameBuilder::state_or_province_name text", it.add = |it| it.state_or_province_name("d") => Ok(&[("2", "2.5.4.8 0c d")]);
        "NameBuilder::locality_name text", it.add = |it| it.locality_name("d") => Ok(&[("2", "2.5.4.7 0c d")]);
        "NameBuilder::organization_name text", it.add = |it| it.organization_name("d") => Ok(&[("2", "2.5.4.10 0c d")]);
        "NameBuilder::organizational_unit_name text", it.add = |it| it.organizational_unit_name("d") => Ok(&[("2", "2.5.4.11 0c d")]);
        "NameBuilder::common_name text", it.add = |it| it.common_name("d").common_name("e") => Ok(&[("2", "2.5.4.3 0c d"), ("3", "2.5.4.3 0c e")]);
        "NameBuilder::domain_component text", it.add = |it| it.domain_component("d") => Ok(&[("2", "0.9.2342.19200300.100.1.25 16 d")]);
    };
    check(&NameCall::new(), NameCall::build, &rows)
}

/// The parts of a list that commas part, but those within brackets.
fn members(list: &str) -> Vec<String> {
    let mut found = vec![String::new()];
    let mut depth = 0;
    for letter in list.chars() {
        match letter {
            '(' | '[' | '<' => depth += 1,
            ')' | ']' | '>' => depth -= 1,
            _ => {}
        }
        match found.last_mut() {
            Some(last) if letter != ',' || depth > 0 => last.push(letter),
            _ => found.push(String::new()),
        }
    }
    let found = found.iter().map(|it| it.trim().to_owned());
    found.filter(|it| !it.is_empty()).collect()
}

/// `NAME ARGUMENT` of each argument of each public function in a part of a source, and `NAME` of one that has none.
fn functions(source: &str) -> Vec<String> {
    let mut found = Vec::new();
    for part in source.split("\n    pub fn ").skip(1) {
        let (name, rest) = part.split_once('(').expect("arguments");
        let name = name.split('<').next().expect("a name");
        // a function's arguments end before its answer
        let list = rest.split(") -> ").next().expect("an end");
        let arguments = members(list).into_iter().filter(|it| !it.ends_with("self"));
        let arguments = arguments.map(|it| it.split(':').next().expect("a name").to_owned());
        let arguments: Vec<_> = arguments.map(|it| format!("{name} {it}")).collect();
        match arguments.is_empty() {
            true => found.push(name.to_owned()),
            false => found.extend(arguments),
        }
    }
    found
}

/// What is between two texts, of which the first is there once.
fn between<'a>(text: &'a str, before: &str, after: &str) -> &'a str {
    let (_, behind) = text.split_once(before).expect("a beginning");
    behind.split_once(after).expect("an end").0
}

/// The arguments of the builders, as the tables have to name them.
fn declared() -> BTreeSet<String> {
    let mut found = BTreeSet::new();
    let shared = between(BUILDERS, "macro_rules! with_extensions {", "\n}\n");
    let shared = functions(&shared.replace("\n        ", "\n    "));
    let of_types = between(NAME_BUILDER, "    of_types! {\n", "\n    }\n");
    let of_types = of_types.lines().filter_map(|line| line.split_once(" = "));
    let of_types = of_types.map(|(name, _)| format!("NameBuilder::{} text", name.trim()));
    found.extend(of_types);
    for part in [BUILDERS, NAME_BUILDER]
        .iter()
        .flat_map(|it| it.split("\nimpl ").skip(1))
    {
        let part = part.split("\n}\n").next().expect("an end");
        let owner = part.split(' ').next().expect("a name");
        let mut named = functions(part);
        if part.contains("with_extensions!();") {
            named.extend(shared.iter().cloned());
        }
        found.extend(named.into_iter().map(|it| format!("{owner}::{it}")));
    }
    let profiles = between(BUILDERS, "pub enum CertificateProfile<'a> {\n", "\n}\n");
    for part in profiles.split("\n    },") {
        let lines = part.lines().filter(|line| !line.trim().starts_with("///"));
        let mut lines = lines.map(str::trim).filter(|line| !line.is_empty());
        let profile = lines.next().map(|it| it.trim_end_matches(" {"));
        let fields = lines.filter_map(|line| line.split_once(':'));
        let named = fields
            .map(|(field, _)| format!("CertificateProfile::{} {field}", profile.expect("a name")));
        found.extend(named);
    }
    found
}

#[test]
fn each_argument_is_used_or_refused() {
    let tables = [
        of_certificates(),
        of_roots(),
        of_subordinates(),
        of_subscribers(),
        of_devices(),
        of_lists(),
        of_requests(),
        of_names(),
    ];
    let named: BTreeSet<_> = tables.into_iter().flatten().collect();
    let declared = declared();
    assert!(declared.len() > 60);
    assert_eq!(named, declared);
}
