//! What an object that has bytes of its own and its borrowed form have alike.

/// Compares, hashes, lends and reads both by their DER, and shows the owned one as the borrowed one.
macro_rules! traits_by_der {
    ($owned:ident, $borrowed:ident) => {
        traits_by_der!(of $owned);
        traits_by_der!(of $borrowed<'_>);

        impl std::fmt::Debug for $owned {
            fn fmt(&self, f: &mut std::fmt::Formatter<'_>) -> std::fmt::Result {
                std::fmt::Debug::fmt(&self.to_ref(), f)
            }
        }

        impl TryFrom<Vec<u8>> for $owned {
            type Error = $crate::Error;

            fn try_from(der: Vec<u8>) -> Result<$owned, $crate::Error> {
                $owned::from_der(der)
            }
        }

        impl<'a> TryFrom<&'a [u8]> for $borrowed<'a> {
            type Error = $crate::Error;

            fn try_from(der: &'a [u8]) -> Result<$borrowed<'a>, $crate::Error> {
                $borrowed::from_der(der)
            }
        }
    };
    (of $object:ty) => {
        impl PartialEq for $object {
            fn eq(&self, other: &Self) -> bool {
                self.as_der() == other.as_der()
            }
        }

        impl Eq for $object {}

        impl std::hash::Hash for $object {
            fn hash<H: std::hash::Hasher>(&self, state: &mut H) {
                self.as_der().hash(state);
            }
        }

        impl AsRef<[u8]> for $object {
            fn as_ref(&self) -> &[u8] {
                self.as_der()
            }
        }
    };
}

/// Methods of an owned object that say what those of its borrowed form say by the same names.
macro_rules! as_borrowed {
    ($($(#[$said:meta])* pub fn $name:ident(&self $(, $given:ident: $kind:ty)*) -> $found:ty;)*) => {
        $(
            $(#[$said])*
            pub fn $name(&self $(, $given: $kind)*) -> $found {
                self.to_ref().$name($($given),*)
            }
        )*
    };
}

pub(crate) use {as_borrowed, traits_by_der};
