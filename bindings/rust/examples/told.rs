//! Prints what certificates say, a line a fact, for a program that compares it: octets in hex, moments in seconds since 1970-01-01T00:00:00Z, and
//! `refused` where the octets of an extension are no value of its type. A value of an extension that is written otherwise than it was read is told.
//!
//! usage: facts FILE.., each the DER of a certificate
use std::error::Error as StdError;
use std::fmt::Write;
use std::time::{SystemTime, UNIX_EPOCH};
use x509_rattle::extension::*;
use x509_rattle::{oid, CertificateRef, Error, GeneralName, NameRef, ObjectIdentifier, PublicKey};

type Told = Result<String, Error>;

fn hex(octets: &[u8]) -> String {
    octets.iter().fold(String::new(), |mut text, octet| {
        // writing to a String doesn't fail
        let _ = write!(text, "{octet:02x}");
        text
    })
}

fn joined<T>(members: impl IntoIterator<Item = T>, tell: impl Fn(T) -> String) -> String {
    members.into_iter().map(tell).collect::<Vec<_>>().join(" ")
}

fn seconds(moment: SystemTime) -> Result<u64, Box<dyn StdError>> {
    Ok(moment.duration_since(UNIX_EPOCH)?.as_secs())
}

fn name(it: NameRef) -> Told {
    let attributes: Vec<_> = it.attributes().collect::<Result<_, _>>()?;
    Ok(joined(attributes, |it| {
        let text = it.text().map(|text| hex(text.as_bytes()));
        format!("{}:{}", it.oid, text.unwrap_or_else(|| "none".to_owned()))
    }))
}

fn general_name(it: &GeneralName) -> String {
    match it {
        GeneralName::DnsName(text) => format!("DNSName:{}", hex(text.as_bytes())),
        GeneralName::Rfc822Name(text) => format!("RFC822Name:{}", hex(text.as_bytes())),
        GeneralName::UniformResourceIdentifier(text) => {
            format!("UniformResourceIdentifier:{}", hex(text.as_bytes()))
        }
        GeneralName::IpAddress(octets) => format!("IPAddress:{}", hex(octets)),
        GeneralName::DirectoryName(name) => format!("DirectoryName:{}", hex(name.as_der())),
        GeneralName::RegisteredId(oid) => format!("RegisteredID:{oid}"),
        GeneralName::OtherName { type_id, value } => format!("OtherName:{type_id}:{}", hex(value)),
        _ => "EDIPartyName".to_owned(),
    }
}

/// What is told of a value, and `written otherwise` where its DER isn't what it was read from, or `not written` where RFC 5280 allows no such value.
fn told<'a, T: ExtensionValue<'a> + ToExtension>(
    value: &'a [u8],
    tell: impl FnOnce(&T) -> String,
) -> Told {
    let read = T::from_der(value)?;
    let behind = match read.to_der() {
        Ok(written) if written == value => "",
        Ok(_) => " written otherwise",
        Err(Error::Value) => " not written",
        Err(error) => return Err(error),
    };
    Ok(tell(&read) + behind)
}

/// Of the types that aren't compared any further.
fn kept<'a, T: ExtensionValue<'a> + ToExtension>(value: &'a [u8]) -> Told {
    told::<T>(value, |_| "read".to_owned())
}

fn of_keys(id: ObjectIdentifier, value: &[u8]) -> Option<Told> {
    use oid::extension::*;
    Some(match id {
        _ if id == KEY_USAGE => told::<KeyUsage>(value, |it| joined(it.names(), str::to_owned)),
        _ if id == EXTENDED_KEY_USAGE => {
            told::<ExtendedKeyUsage>(value, |it| joined(&it.0, ObjectIdentifier::to_string))
        }
        _ if id == BASIC_CONSTRAINTS => told::<BasicConstraints>(value, |it| {
            let limit = it.path_len_constraint.map(|it| it.to_string());
            format!("{} {}", it.ca, limit.as_deref().unwrap_or("none"))
        }),
        _ if id == SUBJECT_KEY_IDENTIFIER => told::<SubjectKeyIdentifier>(value, |it| hex(it.0)),
        _ if id == AUTHORITY_KEY_IDENTIFIER => told::<AuthorityKeyIdentifier>(value, |it| {
            let serial = it.authority_cert_serial_number;
            let parts = [it.key_identifier, serial.as_ref().map(|it| it.as_bytes())];
            let parts = joined(parts, |it| it.map_or_else(|| "none".to_owned(), hex));
            let issuer = it.authority_cert_issuer.iter().flatten();
            parts + " " + &joined(issuer, general_name)
        }),
        _ => return None,
    })
}

fn of_others(id: ObjectIdentifier, value: &[u8]) -> Option<Told> {
    use oid::extension::*;
    Some(match id {
        _ if id == SUBJECT_ALT_NAME => {
            told::<SubjectAltName>(value, |it| joined(&it.0, general_name))
        }
        _ if id == ISSUER_ALT_NAME => {
            told::<IssuerAltName>(value, |it| joined(&it.0, general_name))
        }
        _ if id == AUTHORITY_INFO_ACCESS => told::<AuthorityInfoAccess>(value, |it| {
            joined(&it.0, |it| {
                format!("{}:{}", it.access_method, general_name(&it.access_location))
            })
        }),
        _ if id == CERTIFICATE_POLICIES => {
            told::<CertificatePolicies>(value, |it| joined(&it.0, policy))
        }
        _ if id == CRL_DISTRIBUTION_POINTS => kept::<CrlDistributionPoints>(value),
        _ if id == NAME_CONSTRAINTS => kept::<NameConstraints>(value),
        _ if id == POLICY_CONSTRAINTS => kept::<PolicyConstraints>(value),
        _ if id == POLICY_MAPPINGS => kept::<PolicyMappings>(value),
        _ if id == INHIBIT_ANY_POLICY => kept::<InhibitAnyPolicy>(value),
        _ => return None,
    })
}

/// The size of a key, and its numbers or its curve and its point.
fn parts(key: &PublicKey<'_>) -> Told {
    let size = key
        .size()
        .map_or_else(|| "none".to_owned(), |it| it.to_string());
    if let Some(numbers) = key.rsa()? {
        let numbers = [numbers.modulus, numbers.public_exponent];
        return Ok(size + " " + &joined(numbers, |it| hex(it.as_bytes())));
    }
    Ok(match (key.curve()?, key.point()) {
        (Some(curve), Some(point)) => format!("{size} {curve} {}", hex(point)),
        _ => "other".to_owned(),
    })
}

fn policy(it: &PolicyInformation<'_>) -> String {
    let qualifiers = it.policy_qualifiers.iter().flatten();
    let told = qualifiers.map(|it| " ".to_owned() + &qualifier(it));
    it.policy_identifier.to_string() + &told.collect::<String>()
}

fn qualifier(it: &PolicyQualifierInfo<'_>) -> String {
    match (it.cps_uri(), it.user_notice()) {
        (Ok(Some(uri)), _) => format!("cps:{}", hex(uri.as_bytes())),
        (_, Ok(Some(notice))) => {
            let reference = notice.notice_ref.iter().flat_map(|it| {
                let numbers = it.notice_numbers.iter().map(|it| hex(it.as_bytes()));
                std::iter::once(hex(it.organization.as_bytes())).chain(numbers)
            });
            let reference: Vec<_> = reference.collect();
            let text = notice.explicit_text.map(|it| hex(it.as_bytes()));
            format!(
                "notice:{}:{}",
                reference.join(","),
                text.as_deref().unwrap_or("none")
            )
        }
        _ => "unread".to_owned(),
    }
}

fn print(file: &str) -> Result<(), Box<dyn StdError>> {
    let der = std::fs::read(file)?;
    let it = CertificateRef::from_der(&der)?;
    println!("certificate {file}");
    println!("version {}", it.version() as u8 + 1);
    println!("serial {}", hex(it.serial_number().as_bytes()));
    let validity = it.validity();
    println!("not_before {}", seconds(validity.not_before)?);
    println!("not_after {}", seconds(validity.not_after)?);
    println!("subject {}", name(it.subject())?);
    println!("issuer {}", name(it.issuer())?);
    println!("key {}", hex(it.subject_public_key_info()));
    println!("parts {}", parts(&it.public_key()?)?);
    println!("signature {}", hex(it.signature()?.bits));
    println!("signed {}", it.signature()?.signed_part.len());
    for extension in it.extensions() {
        let extension = extension?;
        let (id, value) = (extension.oid(), extension.value());
        let found = of_keys(id, value).or_else(|| of_others(id, value));
        let found = match found {
            None => "unread".to_owned(),
            Some(Ok(text)) => text,
            Some(Err(Error::Malformed)) => "refused".to_owned(),
            Some(Err(error)) => return Err(error.into()),
        };
        println!("{id} {} {found}", extension.critical());
    }
    Ok(())
}

fn main() -> Result<(), Box<dyn StdError>> {
    std::env::args().skip(1).try_for_each(|file| print(&file))
}
