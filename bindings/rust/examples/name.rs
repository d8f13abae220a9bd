//! Makes a name of values: whatever characters they have, none adds an attribute. Prints the name's text, by the library and then put together from escaped
//! values, which is the same where both are right.
//!
//! usage: name TYPE VALUE [TYPE VALUE ..], the topmost first; a type is one of CN, O, OU, C, L, ST, E
use x509_rattle::oid::attribute;
use x509_rattle::{escape_value, Error, Name, ObjectIdentifier, StringType};

const TYPES: [(&str, ObjectIdentifier); 7] = [
    ("CN", attribute::COMMON_NAME),
    ("O", attribute::ORGANIZATION_NAME),
    ("OU", attribute::ORGANIZATIONAL_UNIT_NAME),
    ("C", attribute::COUNTRY_NAME),
    ("L", attribute::LOCALITY_NAME),
    ("ST", attribute::STATE_OR_PROVINCE_NAME),
    ("E", attribute::EMAIL_ADDRESS),
];

/// The name of these attributes.
fn name(attributes: &[(&str, &str)]) -> Result<Name, Box<dyn std::error::Error>> {
    let mut builder = Name::builder();
    for (kind, value) in attributes {
        let known = TYPES.iter().find(|(name, _)| name == kind);
        let (_, oid) = known.ok_or_else(|| format!("{kind} is no type of an attribute"))?;
        builder.attribute(*oid, StringType::AsWanted, value);
    }
    Ok(builder.build()?)
}

/// The text of the same name, in which the last attribute comes first (RFC 4514 2.1).
fn text(attributes: &[(&str, &str)]) -> Result<String, Error> {
    let parts = attributes.iter().rev().map(|(kind, value)| {
        let kind = if *kind == "E" { "EMAILADDRESS" } else { kind };
        Ok(format!("{kind}={}", escape_value(value)?))
    });
    Ok(parts.collect::<Result<Vec<_>, Error>>()?.join(","))
}

fn main() -> Result<(), Box<dyn std::error::Error>> {
    let words: Vec<String> = std::env::args().skip(1).collect();
    let pairs = words.chunks(2).map(|pair| match pair {
        [kind, value] => Ok((kind.as_str(), value.as_str())),
        _ => Err("usage: name TYPE VALUE .."),
    });
    let attributes: Vec<_> = pairs.collect::<Result<_, _>>()?;
    println!("{}", name(&attributes)?);
    println!("{}", text(&attributes)?);
    Ok(())
}
