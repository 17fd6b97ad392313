//! Stand-in for the crate `bitflags`: one struct over an integer, its constants, and `contains`.
#![no_std]

#[macro_export]
macro_rules! bitflags {
    ($(#[$outer:meta])* pub struct $name:ident: $under:ty { $(const $flag:ident = $value:expr;)* }) => {
        $(#[$outer])*
        #[derive(Debug, Clone, Copy, PartialEq, Eq)]
        pub struct $name {
            bits: $under,
        }

        impl $name {
            $(pub const $flag: $name = $name { bits: $value };)*

            pub const fn contains(&self, other: $name) -> bool {
                self.bits & other.bits == other.bits
            }
        }
    };
}
