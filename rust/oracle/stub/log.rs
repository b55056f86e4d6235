//! Stand-in for the crate log: the macros type-check their arguments and do nothing.

#[macro_export]
macro_rules! nothing { ($($a:tt)+) => { if false { let _ = ::std::format_args!($($a)+); } } }

#[macro_export]
macro_rules! error { ($($a:tt)+) => { $crate::nothing!($($a)+) } }

#[macro_export]
macro_rules! warn { ($($a:tt)+) => { $crate::nothing!($($a)+) } }

#[macro_export]
macro_rules! info { ($($a:tt)+) => { $crate::nothing!($($a)+) } }

#[macro_export]
macro_rules! debug { ($($a:tt)+) => { $crate::nothing!($($a)+) } }

#[macro_export]
macro_rules! trace { ($($a:tt)+) => { $crate::nothing!($($a)+) } }
