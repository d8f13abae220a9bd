//! Signatures of certificates, of CRLs and of handshakes, verified by ring.
use ring::signature as by;
use ring::signature::{UnparsedPublicKey, VerificationAlgorithm};
use rustls::SignatureScheme;
use x509_rattle::{algorithm, KeyKind, PublicKey, Signature};

type Algorithm = &'static dyn VerificationAlgorithm;

/// What ring has for a key of that kind and an algorithm of a certificate or a CRL, a whole AlgorithmIdentifier.
fn of_certificates(kind: KeyKind, identifier: &[u8]) -> Option<Algorithm> {
    Some(match (kind, identifier) {
        (KeyKind::EcP256, algorithm::ECDSA_SHA256) => &by::ECDSA_P256_SHA256_ASN1,
        (KeyKind::EcP256, algorithm::ECDSA_SHA384) => &by::ECDSA_P256_SHA384_ASN1,
        (KeyKind::EcP384, algorithm::ECDSA_SHA256) => &by::ECDSA_P384_SHA256_ASN1,
        (KeyKind::EcP384, algorithm::ECDSA_SHA384) => &by::ECDSA_P384_SHA384_ASN1,
        (KeyKind::Rsa, algorithm::RSA_SHA256) => &by::RSA_PKCS1_2048_8192_SHA256,
        (KeyKind::Rsa, algorithm::RSA_SHA384) => &by::RSA_PKCS1_2048_8192_SHA384,
        (KeyKind::Rsa, algorithm::RSA_SHA512) => &by::RSA_PKCS1_2048_8192_SHA512,
        (KeyKind::Ed25519, algorithm::ED25519) => &by::ED25519,
        _ => return None,
    })
}

/// The schemes of handshakes that are offered: those of TLS 1.3 (RFC 8446 4.2.3), which TLS 1.2 takes too.
pub const SCHEMES: [SignatureScheme; 6] = [
    SignatureScheme::ECDSA_NISTP256_SHA256,
    SignatureScheme::ECDSA_NISTP384_SHA384,
    SignatureScheme::ED25519,
    SignatureScheme::RSA_PSS_SHA256,
    SignatureScheme::RSA_PSS_SHA384,
    SignatureScheme::RSA_PSS_SHA512,
];

fn of_handshakes(kind: KeyKind, scheme: SignatureScheme) -> Option<Algorithm> {
    Some(match (kind, scheme) {
        (KeyKind::EcP256, SignatureScheme::ECDSA_NISTP256_SHA256) => &by::ECDSA_P256_SHA256_ASN1,
        (KeyKind::EcP384, SignatureScheme::ECDSA_NISTP384_SHA384) => &by::ECDSA_P384_SHA384_ASN1,
        (KeyKind::Ed25519, SignatureScheme::ED25519) => &by::ED25519,
        (KeyKind::Rsa, SignatureScheme::RSA_PSS_SHA256) => &by::RSA_PSS_2048_8192_SHA256,
        (KeyKind::Rsa, SignatureScheme::RSA_PSS_SHA384) => &by::RSA_PSS_2048_8192_SHA384,
        (KeyKind::Rsa, SignatureScheme::RSA_PSS_SHA512) => &by::RSA_PSS_2048_8192_SHA512,
        _ => return None,
    })
}

/// Whether the bits are a signature of the message for the key of a whole SubjectPublicKeyInfo, by the algorithm for a key of its kind.
fn holds(
    info: &[u8],
    algorithm: impl Fn(KeyKind) -> Option<Algorithm>,
    message: &[u8],
    bits: &[u8],
) -> bool {
    let key = match PublicKey::from_der(info) {
        Ok(key) if key.unused_bits == 0 => key,
        _ => return false,
    };
    let verified = algorithm(key.kind).map(|algorithm| {
        let key = UnparsedPublicKey::new(algorithm, key.bits);
        key.verify(message, bits).is_ok()
    });
    verified == Some(true)
}

/// Whether a certificate or a CRL is signed by the key: a `Verifier` of the library.
pub fn is_signed(info: &[u8], signature: &Signature<'_>) -> bool {
    let algorithm = |kind| of_certificates(kind, signature.algorithm);
    holds(info, algorithm, signature.signed_part, signature.bits)
}

/// Whether the bits are a signature of the message of a handshake.
pub fn is_handshake(info: &[u8], scheme: SignatureScheme, message: &[u8], bits: &[u8]) -> bool {
    holds(info, |kind| of_handshakes(kind, scheme), message, bits)
}
