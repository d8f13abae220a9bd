//! Identifier octets, and the content octets of numbers (X.690 8.1.2, 8.3). The library writes the elements of them.

pub(crate) const INTEGER: u8 = 0x02;
pub(crate) const NULL: u8 = 0x05;
pub(crate) const IA5_STRING: u8 = 0x16;
pub(crate) const SEQUENCE: u8 = 0x30;
pub(crate) const SET: u8 = 0x31;

/// The identifier octet of a tag of the context-specific class whose content is elements; the number is below 31.
pub(crate) const fn context_elements(number: u8) -> u8 {
    0xa0 | number
}

/// The content octets of an INTEGER that isn't negative (X.690 8.3), of the octets of a number, the most significant first.
pub(crate) fn unsigned(octets: &[u8]) -> Vec<u8> {
    let zeros = octets.iter().take_while(|octet| **octet == 0).count();
    let digits = octets.get(zeros..).unwrap_or_default();
    match digits {
        [] => vec![0],
        [0x80..=0xff, ..] => [&[0], digits].concat(),
        _ => digits.to_vec(),
    }
}

#[cfg(test)]
mod tests {
    use super::*;

    #[test]
    fn numbers() {
        assert_eq!(unsigned(b""), b"\x00");
        assert_eq!(unsigned(b"\x00\x00"), b"\x00");
        assert_eq!(unsigned(b"\x7f"), b"\x7f");
        assert_eq!(unsigned(b"\x00\x80"), b"\x00\x80");
        assert_eq!(unsigned(b"\x01\x00"), b"\x01\x00");
    }
}
