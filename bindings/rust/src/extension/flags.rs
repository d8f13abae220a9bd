//! Sets of named bits.
use super::ExtensionValue;
use crate::error::Error;
use crate::ffi;
use crate::oid::{self, ObjectIdentifier};
use std::fmt;
use std::ops::BitOr;

macro_rules! flags {
    ($(#[$said:meta])* $name:ident { $($(#[$flag_said:meta])* $flag:ident = $method:ident, $bit:literal, $text:literal;)* }) => {
        $(#[$said])*
        #[derive(Clone, Copy, Default, PartialEq, Eq, Hash)]
        pub struct $name(pub(crate) u32);

        impl $name {
            $(
                $(#[$flag_said])*
                pub const $flag: $name = $name(1 << $bit);
            )*

            $(
                #[doc = concat!("Whether ", $text, " is one of them.")]
                pub fn $method(self) -> bool {
                    self.contains($name::$flag)
                }
            )*

            /// The named bit n as `1 << n`.
            pub fn bits(self) -> u32 {
                self.0
            }

            /// Whether all of the others are of these.
            pub fn contains(self, others: $name) -> bool {
                self.0 & others.0 == others.0
            }

            /// What they are called in RFC 5280, in the order of the bits.
            pub fn names(self) -> impl Iterator<Item = &'static str> {
                let all = [$(($name::$flag, $text)),*];
                all.into_iter().filter(move |(flag, _)| self.contains(*flag)).map(|(_, name)| name)
            }
        }

        impl BitOr for $name {
            type Output = $name;

            fn bitor(self, other: $name) -> $name {
                $name(self.0 | other.0)
            }
        }

        impl fmt::Debug for $name {
            fn fmt(&self, f: &mut fmt::Formatter<'_>) -> fmt::Result {
                f.debug_set().entries(self.names()).finish()
            }
        }
    };
}

flags! {
    /// What a key may be used for (RFC 5280 4.2.1.3).
    ///
    /// ```
    /// use x509_rattle::extension::{ExtensionValue, KeyUsage};
    ///
    /// let usage = KeyUsage::from_der(b"\x03\x02\x05\xa0")?;
    /// assert_eq!(usage, KeyUsage::DIGITAL_SIGNATURE | KeyUsage::KEY_ENCIPHERMENT);
    /// assert!(usage.key_encipherment() && !usage.key_cert_sign());
    /// # Ok::<(), x509_rattle::Error>(())
    /// ```
    KeyUsage {
        /// Signatures, but of certificates and CRLs.
        DIGITAL_SIGNATURE = digital_signature, 0, "digitalSignature";
        /// Signatures that can't be denied. Also called contentCommitment.
        NON_REPUDIATION = non_repudiation, 1, "nonRepudiation";
        /// Keys are encrypted.
        KEY_ENCIPHERMENT = key_encipherment, 2, "keyEncipherment";
        /// Data is encrypted.
        DATA_ENCIPHERMENT = data_encipherment, 3, "dataEncipherment";
        /// Keys are agreed on.
        KEY_AGREEMENT = key_agreement, 4, "keyAgreement";
        /// Signatures of certificates.
        KEY_CERT_SIGN = key_cert_sign, 5, "keyCertSign";
        /// Signatures of CRLs.
        CRL_SIGN = crl_sign, 6, "cRLSign";
        /// Keys are agreed on only to encrypt.
        ENCIPHER_ONLY = encipher_only, 7, "encipherOnly";
        /// Keys are agreed on only to decrypt.
        DECIPHER_ONLY = decipher_only, 8, "decipherOnly";
    }
}

pub(crate) use flags;

impl ExtensionValue<'_> for KeyUsage {
    const OID: ObjectIdentifier = oid::extension::KEY_USAGE;

    fn from_der(value: &[u8]) -> Result<KeyUsage, Error> {
        ffi::KEY_USAGE.of(value).map(KeyUsage)
    }
}

flags! {
    /// Reasons for which certificates are revoked, as a set (RFC 5280 4.2.1.13).
    ReasonFlags {
        /// This bit has no meaning.
        UNUSED = unused, 0, "unused";
        /// The key is known to another.
        KEY_COMPROMISE = key_compromise, 1, "keyCompromise";
        /// The key of the authority is known to another.
        CA_COMPROMISE = ca_compromise, 2, "cACompromise";
        /// The name of the subject, or what else was certified, changed.
        AFFILIATION_CHANGED = affiliation_changed, 3, "affiliationChanged";
        /// Another certificate stands in its place.
        SUPERSEDED = superseded, 4, "superseded";
        /// It isn't needed any more.
        CESSATION_OF_OPERATION = cessation_of_operation, 5, "cessationOfOperation";
        /// It is held for some time.
        CERTIFICATE_HOLD = certificate_hold, 6, "certificateHold";
        /// A privilege was taken from the subject.
        PRIVILEGE_WITHDRAWN = privilege_withdrawn, 7, "privilegeWithdrawn";
        /// The key of the authority of attributes is known to another.
        AA_COMPROMISE = aa_compromise, 8, "aACompromise";
    }
}

#[cfg(test)]
mod tests {
    use super::*;

    #[test]
    fn sets() {
        let both = KeyUsage::KEY_CERT_SIGN | KeyUsage::CRL_SIGN;
        assert_eq!(both.bits(), 0x60);
        assert!(both.key_cert_sign() && both.crl_sign() && !both.digital_signature());
        assert!(both.contains(KeyUsage::CRL_SIGN) && !KeyUsage::CRL_SIGN.contains(both));
        assert_eq!(format!("{both:?}"), r#"{"keyCertSign", "cRLSign"}"#);
        assert_eq!(ReasonFlags::AA_COMPROMISE.bits(), 0x100);
    }
}
