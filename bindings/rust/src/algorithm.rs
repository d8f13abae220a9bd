//! Signature algorithms, each a whole AlgorithmIdentifier, as [`Signer::algorithm`](crate::Signer::algorithm) gives it.

/// RSA with SHA-256 (RFC 4055 5).
pub const RSA_SHA256: &[u8] = b"\x30\x0d\x06\x09\x2a\x86\x48\x86\xf7\x0d\x01\x01\x0b\x05\x00";
/// RSA with SHA-384.
pub const RSA_SHA384: &[u8] = b"\x30\x0d\x06\x09\x2a\x86\x48\x86\xf7\x0d\x01\x01\x0c\x05\x00";
/// RSA with SHA-512.
pub const RSA_SHA512: &[u8] = b"\x30\x0d\x06\x09\x2a\x86\x48\x86\xf7\x0d\x01\x01\x0d\x05\x00";
/// ECDSA with SHA-256 (RFC 5758 3.2).
pub const ECDSA_SHA256: &[u8] = b"\x30\x0a\x06\x08\x2a\x86\x48\xce\x3d\x04\x03\x02";
/// ECDSA with SHA-384.
pub const ECDSA_SHA384: &[u8] = b"\x30\x0a\x06\x08\x2a\x86\x48\xce\x3d\x04\x03\x03";
/// ECDSA with SHA-512.
pub const ECDSA_SHA512: &[u8] = b"\x30\x0a\x06\x08\x2a\x86\x48\xce\x3d\x04\x03\x04";
/// Ed25519 (RFC 8410 3).
pub const ED25519: &[u8] = b"\x30\x05\x06\x03\x2b\x65\x70";
/// Ed448.
pub const ED448: &[u8] = b"\x30\x05\x06\x03\x2b\x65\x71";

#[cfg(test)]
mod tests {
    use super::*;
    use crate::{AlgorithmIdentifier, SignatureKind};

    #[test]
    fn constants_are_those_of_their_names() {
        for (der, kind, oid) in [
            (
                RSA_SHA256,
                SignatureKind::RsaSha256,
                "1.2.840.113549.1.1.11",
            ),
            (
                RSA_SHA384,
                SignatureKind::RsaSha384,
                "1.2.840.113549.1.1.12",
            ),
            (
                RSA_SHA512,
                SignatureKind::RsaSha512,
                "1.2.840.113549.1.1.13",
            ),
            (
                ECDSA_SHA256,
                SignatureKind::EcdsaSha256,
                "1.2.840.10045.4.3.2",
            ),
            (
                ECDSA_SHA384,
                SignatureKind::EcdsaSha384,
                "1.2.840.10045.4.3.3",
            ),
            (
                ECDSA_SHA512,
                SignatureKind::EcdsaSha512,
                "1.2.840.10045.4.3.4",
            ),
            (ED25519, SignatureKind::Ed25519, "1.3.101.112"),
            (ED448, SignatureKind::Ed448, "1.3.101.113"),
        ] {
            let found = AlgorithmIdentifier::from_der(der).expect("an algorithm");
            assert_eq!((found.kind, found.oid.to_string().as_str()), (kind, oid));
            // RFC 4055 5: NULL of RSA; none of the others (RFC 5758 3.2, RFC 8410 3)
            let is_rsa = oid.starts_with("1.2.840.113549");
            assert_eq!(found.parameters, is_rsa.then_some(&b"\x05\x00"[..]));
        }
    }
}
