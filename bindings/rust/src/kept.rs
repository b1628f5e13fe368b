//! What a book, a call and a packet have in common: octets that their owner keeps.

/// A type that owns so many octets, zeroes them at its end and can't be copied.
macro_rules! kept {
    ($(#[$doc:meta])* $name:ident, $size:ident) => {
        $(#[$doc])*
        pub struct $name {
            octets: [u8; $size],
        }

        impl $name {
            /// All zeros: nothing in it.
            pub const fn new() -> Self {
                Self::from_octets(&[0; $size])
            }

            /// Restores what [`octets`](Self::octets) gave to be stored. Any octets may be given;
            /// operations answer [`Bad`](crate::Answer::Bad) where they are no good.
            pub const fn from_octets(octets: &[u8; $size]) -> Self {
                Self { octets: *octets }
            }

            /// The octets, to be stored. They hold keys.
            pub const fn octets(&self) -> &[u8; $size] {
                &self.octets
            }
        }

        impl Default for $name {
            fn default() -> Self {
                Self::new()
            }
        }

        impl Drop for $name {
            fn drop(&mut self) {
                crate::ffi::wipe(&mut self.octets);
            }
        }
    };
}
pub(crate) use kept;
