//! The parts of the oracle and of the benchmark. docs/ORACLE.md says what is compared.

pub mod board;
pub mod boards;
pub mod calls;
pub mod ffi;
pub mod fixed;
pub mod image;
pub mod input;
pub mod mangling;
pub mod opening;
pub mod reads;
pub mod report;
pub mod rng;
pub mod runtime;
pub mod rust;
pub mod sample;
pub mod shrink;
pub mod strings;
pub mod tally;
