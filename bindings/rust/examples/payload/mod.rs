//! Words that say what the payloads of two extensions hold.
use std::net::{Ipv4Addr, Ipv6Addr};
use x509_rattle::extension::{ExtensionValue, KeyUsage, SubjectAltName};
use x509_rattle::{Error, GeneralName};

/// The ASCII text: each character that isn't visible, and each backslash, as a backslash and two hex digits.
fn text(name: &str) -> String {
    let mut text = String::new();
    for octet in name.bytes() {
        if octet.is_ascii_graphic() && octet != b'\\' {
            text.push(char::from(octet));
        } else {
            text.push_str(&format!("\\{octet:02x}"));
        }
    }
    text
}

fn hex(octets: &[u8]) -> String {
    octets.iter().map(|octet| format!("{octet:02X}")).collect()
}

/// Four octets are an address of IPv4, and sixteen one of IPv6 (RFC 5280 4.2.1.6); others are none.
fn address(octets: &[u8]) -> String {
    if let Ok(four) = <[u8; 4]>::try_from(octets) {
        Ipv4Addr::from(four).to_string()
    } else if let Ok(sixteen) = <[u8; 16]>::try_from(octets) {
        Ipv6Addr::from(sixteen).to_string()
    } else {
        format!("#{}", hex(octets))
    }
}

fn name_text(name: &GeneralName) -> String {
    match name {
        GeneralName::OtherName { type_id, value } => format!("other:{type_id}:#{}", hex(value)),
        GeneralName::Rfc822Name(name) => format!("email:{}", text(name)),
        GeneralName::DnsName(name) => format!("DNS:{}", text(name)),
        GeneralName::DirectoryName(name) => format!("[4]:#{}", hex(name.as_der())),
        GeneralName::EdiPartyName(fields) => format!("[5]:#{}", hex(fields)),
        GeneralName::UniformResourceIdentifier(name) => format!("URI:{}", text(name)),
        GeneralName::IpAddress(octets) => format!("IP:{}", address(octets)),
        GeneralName::RegisteredId(oid) => format!("ID:{oid}"),
        other => format!("{other:?}"),
    }
}

/// Those of a subject alternative name.
pub fn names(payload: &[u8]) -> Result<Vec<String>, Error> {
    Ok(SubjectAltName::from_der(payload)?
        .0
        .iter()
        .map(name_text)
        .collect())
}

/// Those of a key usage.
pub fn usages(payload: &[u8]) -> Result<Vec<String>, Error> {
    Ok(KeyUsage::from_der(payload)?
        .names()
        .map(str::to_owned)
        .collect())
}

/// The refusal, by its number in `include/x509.h`.
pub fn refusal(error: Error) -> String {
    let status = match error {
        Error::Memory => -1,
        Error::Overlength => 1,
        Error::Malformed => 2,
        Error::Repeated => 7,
        other => return format!("refused: {other}"),
    };
    format!("refused with {status}")
}
