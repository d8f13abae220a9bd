//! Where a text stops to be one of its form. What is one the library says; here a text is cut at its separators, and the library asked about its parts.
use crate::error::Error;
use crate::ffi::{Fill, View, NAME_FROM_TEXT, OID_FROM_TEXT, TIME_FROM_TEXT};

/// The answer of a call to a text, where its refusal of the text has a place.
pub(crate) fn placed<T>(
    answer: Result<T, Error>,
    place: impl FnOnce() -> Result<usize, Error>,
) -> Result<T, Error> {
    match answer {
        Err(Error::Text { .. }) => Err(Error::Text { place: place()? }),
        answer => answer,
    }
}

/// Whether the call takes a text. All other refusals stay errors, but those of a text that is one.
fn is_one(call: &Fill, text: &str) -> Result<bool, Error> {
    match call.check(text.as_bytes()) {
        Err(Error::Text { .. }) => Ok(false),
        Err(Error::Memory) => Err(Error::Memory),
        _ => Ok(true),
    }
}

/// Whether that part of a text is an attribute of a name. Without any a text is that of the empty name, in which there is none.
fn is_attribute(text: &str, first: usize, end: usize) -> Result<bool, Error> {
    let part = text.get(first..end).ok_or(Error::Unexpected)?;
    Ok(!part.is_empty() && is_one(&NAME_FROM_TEXT, part)?)
}

/// Where the first attribute of the text begins that is none. Between attributes stand separators that no backslash escapes (RFC 4514 2.1, 2.2, 2.4).
pub(crate) fn place_in_name(text: &str) -> Result<usize, Error> {
    let (mut first, mut is_escaped) = (0, false);
    for (at, octet) in text.bytes().enumerate() {
        if matches!(octet, b',' | b'+') && !is_escaped {
            if !is_attribute(text, first, at)? {
                return Ok(first);
            }
            first = at.saturating_add(1);
        }
        is_escaped = octet == b'\\' && !is_escaped;
    }
    let is_last = is_attribute(text, first, text.len())?;
    Ok(if is_last { 0 } else { first })
}

/// Where the first number of the dotted text begins with which it is none's.
pub(crate) fn place_in_oid(text: &str) -> Result<usize, Error> {
    let first = match text.split_once('.') {
        Some((first, _)) => first,
        None => {
            return Ok(if is_one(&OID_FROM_TEXT, &format!("{text}.0"))? {
                text.len()
            } else {
                0
            })
        }
    };
    if !is_one(&OID_FROM_TEXT, &format!("{first}.0"))? {
        return Ok(0);
    }
    // what has so many numbers that its content octets are too many is none, so that few of these are asked about
    let ends = text.match_indices('.').map(|(at, _)| at).skip(1);
    let mut begin = first.len().saturating_add(1);
    for end in ends {
        let front = text.get(..end).ok_or(Error::Unexpected)?;
        if !is_one(&OID_FROM_TEXT, front)? {
            break;
        }
        begin = end.saturating_add(1);
    }
    Ok(begin)
}

/// A moment, and where its parts begin: the numbers, and what stands between two of them.
const MOMENT: &str = "1970-01-01T00:00:00Z";
const PARTS: [usize; 13] = [0, 4, 5, 7, 8, 10, 11, 13, 14, 16, 17, 19, 20];

/// Where the first part of the text begins with which it is that of no moment.
pub(crate) fn place_in_time(text: &str) -> Result<usize, Error> {
    let call: &View<u64> = &TIME_FROM_TEXT;
    for part in PARTS.windows(2) {
        let (begin, end) = match part {
            [begin, end] => (begin, end),
            _ => continue,
        };
        let rest = MOMENT.get(*end..).ok_or(Error::Unexpected)?;
        let front = match text.get(..*end) {
            Some(front) => front,
            None => return Ok(text.len().min(*begin)),
        };
        if call.of((front.to_owned() + rest).as_bytes()).is_err() {
            return Ok(*begin);
        }
    }
    Ok(MOMENT.len())
}

#[cfg(test)]
mod tests {
    use crate::{time_from_text, Error, Name, ObjectIdentifier};

    fn place<T>(read: Result<T, Error>) -> Option<usize> {
        match read {
            Err(Error::Text { place }) => Some(place),
            _ => None,
        }
    }

    #[test]
    fn names() {
        for (text, at) in [
            ("CN", 0),
            ("CN=a,", 5),
            (",CN=a", 0),
            ("CN=a,,C=DE", 5),
            ("CN=a, C=DE", 5),
            ("CN=a+b", 5),
            ("CN=a+O=b,X=c", 9),
            (r"CN=a\,b,c", 8),
            (r"CN=a\\,b,c", 7),
            (r"O=\2,C=DE", 0),
            ("O=ö,Ö=a", 5),
        ] {
            assert_eq!(place(text.parse::<Name>()), Some(at), "{text}");
        }
        assert_eq!(place("".parse::<Name>()), None);
        assert_eq!(place(r"CN=a\,b\+c+O=d,C=DE".parse::<Name>()), None);
        assert_eq!("CN=a+CN=a".parse::<Name>(), Err(Error::SetDuplicate));
    }

    #[test]
    fn identifiers() {
        for (text, at) in [
            ("", 0),
            ("a", 0),
            ("1", 1),
            ("3.1", 0),
            ("1.40", 2),
            ("2.5.", 4),
            (".2.5", 0),
            ("2..5", 2),
            ("2.05", 2),
            ("2.5.29.a.7", 7),
            ("2.5.4294967296", 4),
        ] {
            assert_eq!(place(text.parse::<ObjectIdentifier>()), Some(at), "{text}");
        }
        assert_eq!(place("2.5.29.15".parse::<ObjectIdentifier>()), None);
        // 39 content octets: two numbers make the first, so that the forty-first is one too many
        let long = "1.2".to_owned() + &".3".repeat(60);
        assert_eq!(
            place(long.parse::<ObjectIdentifier>()),
            Some(3 + 2 * 38 + 1)
        );
    }

    #[test]
    fn moments() {
        for (text, at) in [
            ("", 0),
            ("1969-12-31T23:59:59Z", 0),
            ("2026", 4),
            ("2026-", 5),
            ("2026-1-02T03:04:05Z", 5),
            ("2026-13-02T03:04:05Z", 5),
            ("2026-02-30T03:04:05Z", 8),
            ("2026-01-02 03:04:05Z", 10),
            ("2026-01-02T24:04:05Z", 11),
            ("2026-01-02T03:60:05Z", 14),
            ("2026-01-02T03:04:61Z", 17),
            ("2026-01-02T03:04:05", 19),
            ("2026-01-02T03:04:05z", 19),
            ("2026-01-02T03:04:05Z ", 20),
        ] {
            assert_eq!(place(time_from_text(text)), Some(at), "{text}");
        }
    }
}
