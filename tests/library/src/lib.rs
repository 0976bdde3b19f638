//! The exported calls of the proved library, and their comparison with the
//! independent Rust bench.

pub mod compare;
pub mod output;
pub mod session;
