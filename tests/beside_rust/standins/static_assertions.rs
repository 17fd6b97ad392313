//! Stand-in for the crate `static_assertions`, in its form with a name: the test is made when the crate is built.
#![no_std]

#[macro_export]
macro_rules! const_assert {
    ($name:ident; $($test:expr),+ $(,)?) => {
        #[allow(dead_code)]
        const $name: () = { $(assert!($test);)+ };
    };
}
