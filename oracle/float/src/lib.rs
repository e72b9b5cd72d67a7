//! The hardware's side of every comparison with the crate `float`: the operations, the cases, and the C functions.

#[cfg(feature = "linked")]
pub mod calls;
pub mod float_cases;
pub mod hardware;
pub mod operations;
pub mod random;
