//! The program `bench` as a child process: its input in pieces of any size,
//! its output, its peak memory, and the comparison with the independent bench.

pub mod compare;
pub mod process;
