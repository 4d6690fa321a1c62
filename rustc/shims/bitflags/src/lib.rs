//! What chanv uses of Rattle's port of `bitflags`. Rust's crate lacks the port's macro.

use std::ops::{BitAnd, Not};

pub struct Flag<B: Flags>(pub &'static str, pub B);

pub trait Flags: Sized + 'static {
    type Bits: Copy + Default + PartialEq + BitAnd<Output = Self::Bits> + Not<Output = Self::Bits>;

    fn flags<'a>() -> &'a [Flag<Self>];

    fn bits(&self) -> Self::Bits;

    fn from_bits_retain(bits: Self::Bits) -> Self;

    /// Whether a flag of the one is in the other.
    fn intersects(&self, other: Self) -> bool {
        (self.bits() & other.bits()) != Self::Bits::default()
    }

    /// The flags of these bits, unless one of them has no name.
    fn from_bits(bits: Self::Bits) -> Option<Self> {
        let mut rest = bits;
        for flag in Self::flags() {
            rest = rest & !flag.1.bits();
        }
        (rest == Self::Bits::default()).then(|| Self::from_bits_retain(bits))
    }
}

#[macro_export]
macro_rules! bitflag_items {
    (impl $Of:ident: $Bits:ty { $(const $Name:ident = $value:expr;)* }) => {
        impl $Of {
            $(pub const $Name: $Of = $Of($value);)*
            const FLAGS: &'static [$crate::Flag<$Of>] =
                &[$($crate::Flag(stringify!($Name), $Of($value))),*];
        }

        impl ::core::ops::BitOr for $Of {
            type Output = $Of;

            fn bitor(self, other: $Of) -> $Of {
                $Of(self.0 | other.0)
            }
        }
    };
}
