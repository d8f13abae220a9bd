//! Says all that certificates have: their fields, their key, their signature, and what each extension holds. `examples/c/facts.c` and
//! `examples/python/facts.py` say the same.
//!
//! usage: facts CERTIFICATE.., each a file of DER
use std::fmt::Write;
use std::net::IpAddr;
use x509_rattle::extension::*;
use x509_rattle::{
    time_text, CertificateRef, Error, GeneralName, KeyKind, NameRef, PublicKey, UniqueIdentifier,
};

type Told = Result<Vec<String>, Error>;

/// A text of a certificate, in which no character ends the line or turns its order round.
fn visible(text: &str) -> String {
    let told = text.chars().map(|it| match it {
        '\0'..='\x1f' | '\x7f'..='\u{9f}' | '\u{61c}' | '\u{200e}' | '\u{200f}' => escaped(it),
        '\u{2028}'..='\u{202e}' | '\u{2066}'..='\u{2069}' => escaped(it),
        _ => it.to_string(),
    });
    told.collect()
}

fn escaped(it: char) -> String {
    format!("\\u{{{:x}}}", u32::from(it))
}

fn hex(octets: &[u8]) -> String {
    octets.iter().fold(String::new(), |mut text, octet| {
        // writing to a String doesn't fail
        let _ = write!(text, "{octet:02x}");
        text
    })
}

/// A number, or what stands for none.
fn limit<T: ToString>(number: Option<T>) -> String {
    number.map_or_else(|| "none".to_owned(), |it| it.to_string())
}

fn name(what: &str, name: NameRef<'_>) -> Told {
    let mut told = vec![format!("{what}: {}", visible(&name.to_rfc4514()?))];
    for attribute in name.attributes() {
        let attribute = attribute?;
        let text = match attribute.text() {
            Some(text) => visible(&text),
            None => format!("#{}", hex(attribute.value)),
        };
        told.push(format!("  {}: {text}", attribute.oid));
    }
    Ok(told)
}

fn unique_id(what: &str, found: Option<UniqueIdentifier<'_>>) -> Vec<String> {
    let tell = |it: UniqueIdentifier<'_>| {
        format!("{what}: {}, {} bits unused", hex(it.bits), it.unused_bits)
    };
    found.map(tell).into_iter().collect()
}

fn key(key: &PublicKey<'_>) -> Told {
    let mut told = vec![format!("key: {}, {} bits", key.oid, limit(key.size()))];
    if let Ok(Some(numbers)) = key.rsa() {
        told.push(format!("modulus: {}", numbers.modulus));
        told.push(format!("exponent: {}", numbers.public_exponent));
    }
    if let Some(curve) = key.curve()? {
        told.push(format!("curve: {curve}"));
    }
    match (key.kind, key.point()) {
        (KeyKind::Rsa | KeyKind::RsaPss, _) => {}
        (_, Some(point)) => told.push(format!("point: {}", hex(point))),
        (_, None) => told.push(format!("bits: {}", hex(key.bits))),
    }
    Ok(told)
}

fn general_name(it: &GeneralName<'_>) -> Result<String, Error> {
    Ok(match it {
        GeneralName::OtherName { type_id, value } => format!("other {type_id} {}", hex(value)),
        GeneralName::Rfc822Name(text) => format!("email {}", visible(text)),
        GeneralName::DnsName(text) => format!("dns {}", visible(text)),
        GeneralName::DirectoryName(name) => format!("name {}", visible(&name.to_rfc4514()?)),
        GeneralName::UniformResourceIdentifier(text) => format!("uri {}", visible(text)),
        GeneralName::IpAddress(octets) => match it.ip_addr() {
            Some(IpAddr::V4(address)) => format!("ip {address}"),
            _ => format!("ip {}", hex(octets)),
        },
        GeneralName::RegisteredId(oid) => format!("id {oid}"),
        GeneralName::EdiPartyName(fields) => match it.edi_party_name() {
            Err(Error::Memory) => return Err(Error::Memory),
            Ok(Some(parts)) => {
                let assigner = parts.name_assigner.as_deref().map(visible);
                format!("edi {} of {}", visible(&parts.party_name), limit(assigner))
            }
            _ => format!("edi {}", hex(fields)),
        },
        _ => "a name of another kind".to_owned(),
    })
}

fn names<'a>(what: &str, list: impl IntoIterator<Item = &'a GeneralName<'a>>) -> Told {
    let tell = |it| Ok(format!("{what}{}", general_name(it)?));
    list.into_iter().map(tell).collect()
}

fn authority_key(it: &AuthorityKeyIdentifier<'_>) -> Told {
    let mut told: Vec<_> = it
        .key_identifier
        .iter()
        .map(|it| format!("key {}", hex(it)))
        .collect();
    told.extend(names("issuer ", it.authority_cert_issuer.iter().flatten())?);
    let serial = it.authority_cert_serial_number;
    told.extend(serial.map(|it| format!("serial number {it}")));
    Ok(told)
}

fn access(list: &[AccessDescription<'_>]) -> Told {
    let tell = |it: &AccessDescription<'_>| {
        Ok(format!(
            "{} {}",
            it.access_method,
            general_name(&it.access_location)?
        ))
    };
    list.iter().map(tell).collect()
}

fn points(list: &[DistributionPoint<'_>]) -> Told {
    let mut told = Vec::new();
    for point in list {
        told.push("point".to_owned());
        match &point.distribution_point {
            Some(DistributionPointName::FullName(list)) => told.extend(names("at ", list)?),
            Some(DistributionPointName::NameRelativeToCrlIssuer(rdn)) => {
                for attribute in rdn.attributes() {
                    let attribute = attribute?;
                    told.push(format!("at {} {}", attribute.oid, hex(attribute.value)));
                }
            }
            None => {}
        }
        if let Some(reasons) = point.reasons {
            told.push(format!(
                "for {}",
                reasons.names().collect::<Vec<_>>().join(" ")
            ));
        }
        told.extend(names("issued by ", point.crl_issuer.iter().flatten())?);
    }
    Ok(told)
}

fn qualifier(it: &PolicyQualifierInfo<'_>) -> Told {
    match (it.cps_uri(), it.user_notice()) {
        (Err(Error::Memory), _) | (_, Err(Error::Memory)) => Err(Error::Memory),
        (Ok(Some(uri)), _) => Ok(vec![format!("practice statement {}", visible(uri))]),
        (_, Ok(Some(notice))) => {
            let mut told = Vec::new();
            if let Some(reference) = notice.notice_ref {
                let numbers = reference.notice_numbers.iter().map(|it| format!(" {it}"));
                let numbers: String = numbers.collect();
                told.push(format!(
                    "notices of {}:{numbers}",
                    visible(&reference.organization)
                ));
            }
            told.extend(
                notice
                    .explicit_text
                    .map(|it| format!("notice {}", visible(&it))),
            );
            Ok(told)
        }
        _ => {
            let octets = it.qualifier.map(hex);
            Ok(vec![format!(
                "{} {}",
                it.policy_qualifier_id,
                limit(octets)
            )])
        }
    }
}

fn policies(list: &[PolicyInformation<'_>]) -> Told {
    let mut told = Vec::new();
    for policy in list {
        told.push(format!("policy {}", policy.policy_identifier));
        for it in policy.policy_qualifiers.iter().flatten() {
            told.extend(qualifier(it)?);
        }
    }
    Ok(told)
}

fn trees(it: &NameConstraints<'_>) -> Told {
    let permitted = it.permitted_subtrees.iter().flatten().map(|it| &it.base);
    let excluded = it.excluded_subtrees.iter().flatten().map(|it| &it.base);
    let mut told = names("permits ", permitted)?;
    told.extend(names("excludes ", excluded)?);
    Ok(told)
}

/// The timestamps of version 1, whose octets begin with a 0.
fn timestamps(list: &[&[u8]]) -> Told {
    let known = list.iter().filter(|octets| octets.first() == Some(&0));
    let tell = |octets: &&[u8]| {
        let it = SignedCertificateTimestamp::from_bytes(octets)?;
        Ok(format!("log {} at {}", hex(it.log_id), it.milliseconds))
    };
    known.map(tell).collect()
}

fn attributes(list: &[DirectoryAttribute<'_>]) -> Vec<String> {
    let tell = |it: &DirectoryAttribute<'_>| {
        let values: String = it
            .values
            .iter()
            .map(|value| format!(" {}", hex(value)))
            .collect();
        format!("{}:{values}", it.oid)
    };
    list.iter().map(tell).collect()
}

/// What an extension holds, a line for each thing.
fn held(extension: &Extension<'_>) -> Told {
    use ParsedExtension as Parsed;
    Ok(match extension.parsed()? {
        Parsed::KeyUsage(it) => vec![it.names().collect::<Vec<_>>().join(" ")],
        Parsed::BasicConstraints(it) => {
            let limit = limit(it.path_len_constraint);
            vec![format!("authority {}, path length {limit}", it.ca)]
        }
        Parsed::ExtendedKeyUsage(it) => it.0.iter().map(ToString::to_string).collect(),
        Parsed::SubjectAltName(it) => names("", &it.0)?,
        Parsed::IssuerAltName(it) => names("", &it.0)?,
        Parsed::SubjectKeyIdentifier(it) => vec![hex(it.0)],
        Parsed::AuthorityKeyIdentifier(it) => authority_key(&it)?,
        Parsed::AuthorityInfoAccess(it) => access(&it.0)?,
        Parsed::SubjectInfoAccess(it) => access(&it.0)?,
        Parsed::CertificatePolicies(it) => policies(&it.0)?,
        Parsed::PolicyMappings(it) => {
            let tell = |it: &PolicyMapping| {
                format!("{} {}", it.issuer_domain_policy, it.subject_domain_policy)
            };
            it.0.iter().map(tell).collect()
        }
        Parsed::PolicyConstraints(it) => {
            let explicit = it
                .require_explicit_policy
                .map(|n| format!("explicit after {n}"));
            let mapping = it
                .inhibit_policy_mapping
                .map(|n| format!("no mapping after {n}"));
            explicit.into_iter().chain(mapping).collect()
        }
        Parsed::InhibitAnyPolicy(it) => vec![format!("after {}", it.0)],
        Parsed::NameConstraints(it) => trees(&it)?,
        Parsed::CrlDistributionPoints(it) => points(&it.0)?,
        Parsed::FreshestCrl(it) => points(&it.0)?,
        Parsed::SignedCertificateTimestamps(it) => timestamps(&it.0)?,
        Parsed::PrivateKeyUsagePeriod(it) => {
            let first = it
                .not_before
                .map(|it| Ok(format!("not before {}", time_text(it)?)));
            let last = it
                .not_after
                .map(|it| Ok(format!("not after {}", time_text(it)?)));
            first.into_iter().chain(last).collect::<Told>()?
        }
        Parsed::SubjectDirectoryAttributes(it) => attributes(&it.0),
        Parsed::TlsFeature(it) => it.0.iter().map(ToString::to_string).collect(),
        // a poison and the sign that a responder isn't checked among them, which hold a NULL
        _ => vec![hex(extension.value())],
    })
}

fn facts(it: CertificateRef<'_>) -> Told {
    let validity = it.validity();
    let mut told = vec![
        format!("version: {}", it.version() as u8 + 1),
        format!("serial number: {}", it.serial_number().hex()?),
    ];
    told.extend(name("issuer", it.issuer())?);
    told.extend(name("subject", it.subject())?);
    told.push(format!("not before: {}", time_text(validity.not_before)?));
    told.push(format!("not after: {}", time_text(validity.not_after)?));
    told.extend(unique_id(
        "issuer's unique identifier",
        it.issuer_unique_id(),
    ));
    told.extend(unique_id(
        "subject's unique identifier",
        it.subject_unique_id(),
    ));
    told.extend(key(&it.public_key()?)?);
    let signature = it.signature()?;
    let algorithm = signature.algorithm_identifier()?.oid;
    told.push(format!(
        "signature: {algorithm}, {} octets",
        signature.bits.len()
    ));
    if it.inner_algorithm() != signature.algorithm {
        told.push("another algorithm stands in the signed part".to_owned());
    }
    for extension in it.extensions() {
        let extension = extension?;
        let critical = if extension.critical() {
            ", critical"
        } else {
            ""
        };
        told.push(format!("extension {}{critical}", extension.oid()));
        match held(&extension) {
            Ok(lines) => told.extend(lines.iter().map(|line| format!("  {line}"))),
            Err(Error::Memory) => return Err(Error::Memory),
            Err(_) => told.push("  it can't be read".to_owned()),
        }
    }
    Ok(told)
}

fn print(file: &str) -> Result<(), Box<dyn std::error::Error>> {
    let der = std::fs::read(file)?;
    for line in facts(CertificateRef::from_der(&der)?)? {
        println!("{line}");
    }
    Ok(())
}

fn main() -> std::process::ExitCode {
    let mut status = std::process::ExitCode::SUCCESS;
    for file in std::env::args().skip(1) {
        if let Err(error) = print(&file) {
            eprintln!("{file}: {error}");
            status = std::process::ExitCode::FAILURE;
        }
    }
    status
}
