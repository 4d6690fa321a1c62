//! Rattle's names of `std` over Rust's, as far as chanv uses them. Each crate imports this crate as
//! `std`.
//!
//! As in Rattle, an allocation that is refused is an `Err`.

pub mod c;
pub mod collections;
pub mod heap;
pub mod runtime;
pub mod text;
pub mod vec;

pub use ::std::{convert, error, fmt, io, str};

pub mod alloc {
    use ::std::fmt;

    /// The only allocator.
    #[derive(Clone, Copy, Debug, PartialEq, Eq)]
    pub struct Global;

    /// An allocation was refused.
    #[derive(Clone, Copy, Debug, PartialEq, Eq)]
    pub struct AllocError;

    impl fmt::Display for AllocError {
        fn fmt(&self, f: &mut fmt::Formatter<'_>) -> fmt::Result {
            f.write_str("memory allocation failed")
        }
    }

    impl ::std::error::Error for AllocError {}

    /// An allocation was refused. `value` is what it was for.
    #[derive(Clone, Copy, Debug, PartialEq, Eq)]
    pub struct AllocFailed<T> {
        pub value: T,
    }

    impl<T> From<AllocFailed<T>> for AllocError {
        fn from(_failed: AllocFailed<T>) -> AllocError {
            AllocError
        }
    }
}

pub mod marker {
    /// What clauses see of a type. Without clauses it has no members.
    pub trait Model {}
}

pub mod process {
    pub use crate::runtime::ExitCode;

    /// A handle that may end the process. Here a panic ends it.
    pub trait Abort {}

    impl Abort for crate::runtime::HostRuntime {}
}

pub mod test {
    /// The error of a test.
    pub type Fail = Box<dyn ::std::error::Error>;
}

pub mod env {
    pub use crate::runtime::{Env, FillError};
}

pub mod fs {
    pub use crate::runtime::File;
}

pub mod rt {
    pub use crate::runtime::{Stderr, Stdin, Stdout};
}

pub mod prelude {
    pub use crate::runtime::HostRuntime;
    pub use crate::text::{Concat, String};
    pub use crate::vec::Vec;
    // a module, because `str` itself has no `from_utf8` before Rust 1.87
    pub use ::std::str;
}

/// The program. C's start-up code calls it, because Rust's opens streams that are closed.
#[macro_export]
macro_rules! main {
    ($begun:ident) => {
        #[global_allocator]
        static HEAP: $crate::heap::Heap = $crate::heap::Heap;

        #[unsafe(no_mangle)]
        extern "C" fn main(count: i32, words: *const *const ::core::ffi::c_char) -> i32 {
            // SAFETY: C hands these to `main`.
            $begun(unsafe { $crate::runtime::begin(count, words) }).status()
        }
    };
}

/// `format!(in alloc; ..)`, whose error is an `AllocError`.
#[macro_export]
macro_rules! format {
    (in $alloc:expr; $($parts:tt)*) => {
        $crate::text::String::formatted($alloc, ::core::format_args!($($parts)*))
    };
}

/// `assert!(rt; ..)`.
#[macro_export]
macro_rules! assert {
    ($rt:expr; $($parts:tt)*) => {{
        let _ = $rt;
        ::core::assert!($($parts)*)
    }};
}

/// `assert_eq!(rt; ..)`.
#[macro_export]
macro_rules! assert_eq {
    ($rt:expr; $($parts:tt)*) => {{
        let _ = $rt;
        ::core::assert_eq!($($parts)*)
    }};
}

/// `vec![in alloc; ..]`, whose error is an `AllocError`.
#[macro_export]
macro_rules! vec {
    (in $alloc:expr; $item:expr; $count:expr) => {
        $crate::vec::Vec::filled($alloc, $item, $count)
    };
    (in $alloc:expr; $($item:expr),* $(,)?) => {
        $crate::vec::Vec::from_array($alloc, [$($item),*])
    };
}
