//! PEM (RFC 7468), of which the library has none.

/// The bytes of the blocks with that label, in their order; nothing where one of them can't be read.
pub fn blocks(text: &str, label: &str) -> Option<Vec<Vec<u8>>> {
    let (begin, end) = (
        format!("-----BEGIN {label}-----"),
        format!("-----END {label}-----"),
    );
    let mut found = Vec::new();
    let mut lines = text.lines().map(str::trim_end);
    while lines.any(|line| line == begin) {
        let mut inner = String::new();
        loop {
            match lines.next()? {
                line if line == end => break,
                line => inner.push_str(line),
            }
        }
        found.push(base64(&inner)?);
    }
    Some(found)
}

/// The number of a digit (RFC 4648 4).
fn digit(octet: u8) -> Option<u32> {
    let digit = match octet {
        b'A'..=b'Z' => octet - b'A',
        b'a'..=b'z' => octet - b'a' + 26,
        b'0'..=b'9' => octet - b'0' + 52,
        b'+' => 62,
        b'/' => 63,
        _ => return None,
    };
    Some(u32::from(digit))
}

fn base64(text: &str) -> Option<Vec<u8>> {
    let mut bytes = Vec::with_capacity(text.len() / 4 * 3);
    for group in text.as_bytes().chunks(4) {
        let digits = group.iter().take_while(|it| **it != b'=').count();
        let padding = &group[digits..];
        if group.len() != 4 || digits < 2 || padding.iter().any(|it| *it != b'=') {
            return None;
        }
        let mut number = 0;
        for octet in &group[..digits] {
            number = number << 6 | digit(*octet)?;
        }
        number <<= 6 * padding.len();
        bytes.extend_from_slice(&number.to_be_bytes()[1..digits]);
    }
    Some(bytes)
}
