//! Names, serial numbers and object identifiers by serde, as their texts.
use serde::de::value::{Error, MapDeserializer};
use serde::{Deserialize, Serialize};
use std::fmt;
use x509_rattle::{oid, Name, ObjectIdentifier, SerialNumber};

/// Whatever has a text, as that text: `#[serde(with = "as_text")]`.
mod as_text {
    use serde::{de::Error, Deserialize, Deserializer, Serializer};
    use std::{fmt::Display, str::FromStr};

    pub fn serialize<T: Display, S: Serializer>(it: &T, to: S) -> Result<S::Ok, S::Error> {
        to.collect_str(it)
    }

    pub fn deserialize<'de, T, D: Deserializer<'de>>(from: D) -> Result<T, D::Error>
    where
        T: FromStr<Err = x509_rattle::Error>,
    {
        String::deserialize(from)?.parse().map_err(D::Error::custom)
    }
}

#[derive(Debug, PartialEq, Serialize, Deserialize)]
struct Issued {
    #[serde(with = "as_text")]
    subject: Name,
    #[serde(with = "as_text")]
    serial_number: SerialNumber,
    #[serde(with = "as_text")]
    purpose: ObjectIdentifier,
}

/// A value as serde writes it into a text.
struct Shown<'a, T>(&'a T);

impl<T: fmt::Display> fmt::Display for Shown<'_, T> {
    fn fmt(&self, f: &mut fmt::Formatter<'_>) -> fmt::Result {
        as_text::serialize(self.0, f)
    }
}

fn read(subject: &str) -> Result<Issued, Error> {
    let fields = [
        ("subject", subject),
        ("serial_number", "00:FF"),
        ("purpose", "1.3.6.1.5.5.7.3.1"),
    ];
    Issued::deserialize(MapDeserializer::new(fields.into_iter()))
}

fn main() -> Result<(), Box<dyn std::error::Error>> {
    let it = Issued {
        subject: "CN=a\\,b,C=DE".parse()?,
        serial_number: SerialNumber::try_from(255)?,
        purpose: oid::purpose::SERVER_AUTH,
    };
    assert_eq!(read("CN=a\\,b,C=DE")?, it);
    let refused = read("CN=a,b").err().map(|it| it.to_string());
    let expected = "the text isn't of its form from its byte 5 on";
    assert_eq!(refused.as_deref(), Some(expected));
    assert_eq!(Shown(&it.subject).to_string(), "CN=a\\,b,C=DE");
    assert_eq!(Shown(&it.serial_number).to_string(), "00:FF");
    assert_eq!(Shown(&it.purpose).to_string(), "1.3.6.1.5.5.7.3.1");
    println!("serde writes and reads these");
    Ok(())
}
