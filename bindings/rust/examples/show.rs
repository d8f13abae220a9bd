//! Prints the subject, the dates, the key usage and the alternative names of a certificate, and checks that encoding it gives its bytes.
//!
//! usage: show FILE
mod payload;

use payload::{names, refusal, usages};
use std::process::ExitCode;
use std::{env, fs};
use x509_rattle::oid::extension::{KEY_USAGE, SUBJECT_ALT_NAME};
use x509_rattle::{reencode, time_text, CertificateRef, Error, ObjectIdentifier, Profile};

/// The text, with each octet of a control character as RFC 4514 escapes it: a backslash and two hex digits.
fn visible(text: &str) -> String {
    let mut shown = String::new();
    for character in text.chars() {
        if character.is_control() {
            let octets = character.to_string().into_bytes();
            shown.extend(octets.iter().map(|octet| format!("\\{octet:02x}")));
        } else {
            shown.push(character);
        }
    }
    shown
}

/// Words that say what an extension holds, where it is a value of its type.
fn told(
    certificate: &CertificateRef,
    oid: ObjectIdentifier,
    read: fn(&[u8]) -> Result<Vec<String>, Error>,
) -> Result<Vec<String>, Error> {
    let extension = match certificate.extension(oid)? {
        Some(extension) => extension,
        _ => return Ok(vec!["none".to_owned()]),
    };
    let mut words = vec!["critical,".to_owned(); usize::from(extension.critical())];
    words.extend(read(extension.value())?);
    Ok(words)
}

/// Prints the words, or the refusal; and says whether there is none.
fn tell(what: &str, told: Result<Vec<String>, Error>) -> bool {
    let is_told = told.is_ok();
    let words = told.unwrap_or_else(|error| vec![refusal(error)]);
    println!("{}", [&[format!("{what}:")], &words[..]].concat().join(" "));
    is_told
}

fn show(der: &[u8]) -> Result<bool, Error> {
    let certificate = CertificateRef::from_der(der)?;
    let validity = certificate.validity();
    println!("subject: {}", visible(&certificate.subject().to_rfc4514()?));
    println!("not before: {}", time_text(validity.not_before)?);
    println!("not after: {}", time_text(validity.not_after)?);
    let usage = told(&certificate, KEY_USAGE, usages);
    let others = told(&certificate, SUBJECT_ALT_NAME, names);
    let is_told = [tell("key usage", usage), tell("alternative names", others)];
    // Under `Raw` as it was read. Under `Rfc5280` its dates may be spelled otherwise.
    let is_same = reencode("Certificate", Profile::Raw, der)? == der;
    let octets = if is_same {
        "the same bytes"
    } else {
        "other bytes"
    };
    println!("written again: {octets}");
    Ok(is_same && is_told == [true, true])
}

fn main() -> ExitCode {
    let der = match env::args_os().nth(1).map(fs::read) {
        Some(Ok(der)) => der,
        _ => {
            eprintln!("usage: show FILE");
            return ExitCode::from(2);
        }
    };
    match show(&der) {
        Ok(true) => ExitCode::SUCCESS,
        Ok(false) => ExitCode::FAILURE,
        Err(error) => {
            println!("certificate: {}", refusal(error));
            ExitCode::FAILURE
        }
    }
}
