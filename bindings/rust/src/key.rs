//! Public keys and algorithms (RFC 5280 4.1.1.2, 4.1.2.7).
use crate::error::Error;
use crate::ffi;
use crate::integer::Integer;
use crate::numbered::numbered;
use crate::oid::ObjectIdentifier;

numbered! {
    /// The kind of a public key, by the OID of its algorithm, and of an elliptic curve by the name of the curve.
    #[derive(Clone, Copy, Debug, PartialEq, Eq, Hash)]
    #[non_exhaustive]
    pub enum KeyKind {
        /// None of these.
        Other = 0,
        /// rsaEncryption (RFC 3279 2.3.1).
        Rsa = 1,
        /// id-RSASSA-PSS (RFC 4055 1.2).
        RsaPss = 2,
        /// id-dsa (RFC 3279 2.3.2).
        Dsa = 3,
        /// id-ecPublicKey with secp256r1 (RFC 5480 2.1.1.1).
        EcP256 = 4,
        /// id-ecPublicKey with secp384r1.
        EcP384 = 5,
        /// id-ecPublicKey with secp521r1.
        EcP521 = 6,
        /// id-ecPublicKey with another curve, or with one that isn't named.
        EcOther = 7,
        /// Ed25519 (RFC 8410 3).
        Ed25519 = 8,
        /// Ed448.
        Ed448 = 9,
        /// X25519.
        X25519 = 10,
        /// X448.
        X448 = 11,
    }
}

numbered! {
    /// The kind of a signature algorithm, by its OID.
    #[derive(Clone, Copy, Debug, PartialEq, Eq, Hash)]
    #[non_exhaustive]
    pub enum SignatureKind {
        /// None of these.
        Other = 0,
        /// RSA with SHA-1 (RFC 3279 2.2.1).
        RsaSha1 = 1,
        /// RSA with SHA-224 (RFC 4055 5).
        RsaSha224 = 2,
        /// RSA with SHA-256.
        RsaSha256 = 3,
        /// RSA with SHA-384.
        RsaSha384 = 4,
        /// RSA with SHA-512.
        RsaSha512 = 5,
        /// id-RSASSA-PSS (RFC 4055 3.1), of which the parameters name the hash.
        RsaPss = 6,
        /// DSA with SHA-1 (RFC 3279 2.2.2).
        DsaSha1 = 7,
        /// DSA with SHA-224 (RFC 5758 3.1).
        DsaSha224 = 8,
        /// DSA with SHA-256.
        DsaSha256 = 9,
        /// ECDSA with SHA-1 (RFC 3279 2.2.3).
        EcdsaSha1 = 10,
        /// ECDSA with SHA-224 (RFC 5758 3.2).
        EcdsaSha224 = 11,
        /// ECDSA with SHA-256.
        EcdsaSha256 = 12,
        /// ECDSA with SHA-384.
        EcdsaSha384 = 13,
        /// ECDSA with SHA-512.
        EcdsaSha512 = 14,
        /// Ed25519 (RFC 8410 3).
        Ed25519 = 15,
        /// Ed448.
        Ed448 = 16,
    }
}

/// A public key, by what its SubjectPublicKeyInfo says. The key isn't looked into, but where its size or its parts are asked for.
///
/// ```
/// use x509_rattle::{CertificateRef, KeyKind};
///
/// # let der = include_bytes!("../../../examples/data/certificate.der");
/// let certificate = CertificateRef::from_der(der)?;
/// let key = certificate.public_key()?;
/// assert_eq!(key.kind, KeyKind::EcP256);
/// assert_eq!(key.bits.len(), 65); // both coordinates of a point (RFC 5480 2.2)
/// # Ok::<(), x509_rattle::Error>(())
/// ```
#[derive(Clone, Copy, Debug, PartialEq, Eq, Hash)]
pub struct PublicKey<'a> {
    /// Its kind.
    pub kind: KeyKind,

    /// The OID of its algorithm.
    pub oid: ObjectIdentifier,

    /// The parameters of its algorithm, a whole element.
    pub parameters: Option<&'a [u8]>,

    /// The octets of its bits.
    pub bits: &'a [u8],

    /// How many bits of the last of these octets are unused, 0 to 7.
    pub unused_bits: u32,

    /// The content octets of the OID of its curve.
    curve: Option<&'a [u8]>,

    /// Its size in bits; 0 where it isn't known.
    size: u32,
}

impl<'a> PublicKey<'a> {
    /// The key of a whole SubjectPublicKeyInfo.
    ///
    /// # Errors
    /// [`Error::Malformed`] or [`Error::Overlength`] where the bytes are none, or bytes stand behind it; [`Error::Memory`].
    pub fn from_der(der: &'a [u8]) -> Result<PublicKey<'a>, Error> {
        let view = ffi::KEY.of(der)?;
        Ok(PublicKey {
            kind: KeyKind::found(view.kind)?,
            oid: ObjectIdentifier::found(view.oid.of(der)?)?,
            parameters: view.parameters.part(der)?,
            bits: view.bits.of(der)?,
            unused_bits: view.unused_bits,
            curve: view.curve.part(der)?,
            size: view.size,
        })
    }

    /// The numbers of an RSA key; none of a key of another kind.
    ///
    /// # Errors
    /// [`Error::Malformed`] where the bits are no RSAPublicKey (RFC 8017 A.1.1); [`Error::Memory`].
    pub fn rsa(&self) -> Result<Option<RsaPublicKey<'a>>, Error> {
        if !matches!(self.kind, KeyKind::Rsa | KeyKind::RsaPss) {
            return Ok(None);
        }
        let view = ffi::RSA_KEY.of(self.bits)?;
        Ok(Some(RsaPublicKey {
            modulus: Integer(view.modulus.of(self.bits)?),
            public_exponent: Integer(view.public_exponent.of(self.bits)?),
        }))
    }

    /// The curve of a key, where it names one (RFC 5480 2.1.1); none of a key of another kind.
    ///
    /// # Errors
    /// [`Error::Malformed`] where the parameters are no such name; [`Error::Memory`].
    pub fn curve(&self) -> Result<Option<ObjectIdentifier>, Error> {
        self.curve.map(ObjectIdentifier::from_bytes).transpose()
    }

    /// The octets of the point of a key of an elliptic curve (SEC 1 2.3.3), or those of a key of RFC 8410; none of a key of another kind.
    pub fn point(&self) -> Option<&'a [u8]> {
        let is_point = self.is_of_a_curve() || self.is_of_rfc_8410();
        is_point.then_some(self.bits)
    }

    /// Its size in bits: of an RSA key that of the modulus, of a DSA key that of the prime, which the parameters have, of an elliptic curve that of a
    /// coordinate, where the curve has a name that the library knows, and of a key of RFC 8410 that of its octets, as 256 of X25519, of which OpenSSL says 253;
    /// none where it isn't known, as where the numbers of an RSA key aren't there.
    pub fn size(&self) -> Option<u32> {
        (self.size != 0).then_some(self.size)
    }

    fn is_of_a_curve(&self) -> bool {
        let kind = self.kind;
        matches!(
            kind,
            KeyKind::EcP256 | KeyKind::EcP384 | KeyKind::EcP521 | KeyKind::EcOther
        )
    }

    fn is_of_rfc_8410(&self) -> bool {
        let kind = self.kind;
        matches!(
            kind,
            KeyKind::Ed25519 | KeyKind::Ed448 | KeyKind::X25519 | KeyKind::X448
        )
    }
}

/// The numbers of an RSA key (RFC 8017 A.1.1).
///
/// ```
/// use x509_rattle::PublicKey;
///
/// let der = b"\x30\x1a\x30\x0d\x06\x09\x2a\x86\x48\x86\xf7\x0d\x01\x01\x01\x05\x00\x03\x09\x00\x30\x06\x02\x01\x33\x02\x01\x03";
/// let key = PublicKey::from_der(der)?;
/// let numbers = key.rsa()?.expect("it is one of RSA");
/// assert_eq!((numbers.modulus.to_u128(), numbers.public_exponent.to_u128()), (Some(51), Some(3)));
/// assert_eq!(key.size(), Some(6));
/// # Ok::<(), x509_rattle::Error>(())
/// ```
#[derive(Clone, Copy, Debug, PartialEq, Eq, Hash)]
pub struct RsaPublicKey<'a> {
    /// The modulus.
    pub modulus: Integer<'a>,

    /// The exponent.
    pub public_exponent: Integer<'a>,
}

/// An algorithm, by what its AlgorithmIdentifier says.
///
/// ```
/// use x509_rattle::{AlgorithmIdentifier, SignatureKind};
///
/// let algorithm = AlgorithmIdentifier::from_der(b"\x30\x05\x06\x03\x2b\x65\x70")?;
/// assert_eq!(algorithm.kind, SignatureKind::Ed25519);
/// assert_eq!((algorithm.oid.to_string().as_str(), algorithm.parameters), ("1.3.101.112", None));
/// # Ok::<(), x509_rattle::Error>(())
/// ```
#[derive(Clone, Copy, Debug, PartialEq, Eq, Hash)]
pub struct AlgorithmIdentifier<'a> {
    /// Its kind.
    pub kind: SignatureKind,

    /// Its OID.
    pub oid: ObjectIdentifier,

    /// Its parameters, a whole element, which isn't looked at.
    pub parameters: Option<&'a [u8]>,
}

impl<'a> AlgorithmIdentifier<'a> {
    /// The algorithm of a whole AlgorithmIdentifier.
    ///
    /// # Errors
    /// [`Error::Malformed`] or [`Error::Overlength`] where the bytes are none, or bytes stand behind it; [`Error::Memory`].
    pub fn from_der(der: &'a [u8]) -> Result<AlgorithmIdentifier<'a>, Error> {
        let view = ffi::ALGORITHM.of(der)?;
        Ok(AlgorithmIdentifier {
            kind: SignatureKind::found(view.kind)?,
            oid: ObjectIdentifier::found(view.oid.of(der)?)?,
            parameters: view.parameters.part(der)?,
        })
    }
}
