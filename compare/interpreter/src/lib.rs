//! An interpreter of the ARM2 machine, plain and pipelined, written from the papers alone.
//! It shares no code, table or generated file with the product that it is compared with.

#![allow(clippy::manual_is_multiple_of)]

pub mod answers;
pub mod arm;
pub mod assembler;
pub mod core_vectors;
pub mod durations;
pub mod hex;
pub mod hex_files;
pub mod memory;
pub mod pipeline;
pub mod plain;
pub mod programs;
pub mod random;
pub mod rate;
pub mod reports;
pub mod settle;
pub mod stores;
pub mod sums;
pub mod vectors;
pub mod walk;
