//! The rules that certificates, CRLs, CSRs and trust anchors break, beyond the grammar.
use crate::error::Error;
use crate::ffi::{self, Fill};
use std::fmt;

/// How bad it is to break a rule.
#[derive(Clone, Copy, Debug, PartialEq, Eq, Hash)]
pub enum Severity {
    /// The standard says MUST or MUST NOT, or has a size or a type that isn't met.
    Error,

    /// The standard says SHOULD or SHOULD NOT.
    Warning,

    /// The standard allows it, and the library doesn't read it: rules on it aren't judged.
    NotJudged,
}

impl fmt::Display for Severity {
    fn fmt(&self, f: &mut fmt::Formatter<'_>) -> fmt::Result {
        f.write_str(match self {
            Severity::Error => "error",
            Severity::Warning => "warning",
            Severity::NotJudged => "not judged",
        })
    }
}

/// A rule that an object breaks. It is printed as `error serial_number_not_positive (RFC 5280 4.1.2.2)`.
#[derive(Clone, Debug, PartialEq, Eq, Hash)]
#[non_exhaustive]
pub struct Finding {
    /// The name of the rule, as `serial_number_not_positive`.
    pub rule: String,

    /// How bad it is to break it.
    pub severity: Severity,

    /// The standard that has it, with the section, as `RFC 5280 4.1.2.2`.
    pub section: String,

    /// Where in the object it is broken, in the field names of the standard, as `tbsCertificate.serialNumber`.
    pub place: String,

    /// What is seen there: octets in hex, of more than 32 these alone and two dots; empty where nothing is told.
    pub seen: String,
}

impl Finding {
    fn new(found: &ffi::Finding, lines: &[u8]) -> Result<Finding, Error> {
        let text = |part: ffi::Span| {
            let text = std::str::from_utf8(part.of(lines)?).map_err(|_| Error::Unexpected)?;
            Ok(text.to_owned())
        };
        let severity = match found.severity.of(lines)? {
            b"error" => Severity::Error,
            b"warning" => Severity::Warning,
            b"not judged" => Severity::NotJudged,
            _ => return Err(Error::Unexpected),
        };
        Ok(Finding {
            rule: text(found.rule)?,
            severity,
            section: text(found.section)?,
            place: text(found.place)?,
            seen: text(found.seen)?,
        })
    }
}

impl fmt::Display for Finding {
    fn fmt(&self, f: &mut fmt::Formatter<'_>) -> fmt::Result {
        write!(f, "{} {} ({})", self.severity, self.rule, self.section)
    }
}

/// The findings that the call writes of an object.
pub(crate) fn findings(call: &Fill, der: &[u8]) -> Result<Vec<Finding>, Error> {
    let lines = call.of(der)?;
    let found = ffi::FINDINGS.over(&lines);
    found.map(|it| Finding::new(&it?, &lines)).collect()
}
