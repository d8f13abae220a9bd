//! Enums whose variants have the numbers of the header.

/// The enum, with the variant that a number stands for.
macro_rules! numbered {
    ($(#[$said:meta])* pub enum $name:ident { $($(#[$variant_said:meta])* $variant:ident = $number:literal,)* }) => {
        $(#[$said])*
        pub enum $name {
            $(
                $(#[$variant_said])*
                $variant = $number,
            )*
        }

        impl $name {
            /// The one with a number.
            pub(crate) fn found(number: u32) -> Result<$name, $crate::Error> {
                match number {
                    $($number => Ok($name::$variant),)*
                    _ => Err($crate::Error::Unexpected),
                }
            }
        }
    };
}

pub(crate) use numbered;
