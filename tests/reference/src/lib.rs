//! The Bizur cluster bench of document 01, with the changes of document 02 that
//! docs/changes lists, in plain Rust: an independent program to compare another
//! one with, byte for byte and in speed.

#![forbid(unsafe_code)]

pub mod bucket;
pub mod bucket_forms;
pub mod cluster;
pub mod datagram;
pub mod hash;
pub mod printed;
pub mod quiet;
pub mod random_tables;
pub mod refusal;
pub mod script;
pub mod scripts;
