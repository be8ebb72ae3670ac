//! Compares the proved library with the program written from document 01 and with the given Rust.

pub mod absent;
pub mod bench;
#[cfg(test)]
mod decisions;
pub mod drift;
pub mod edges;
pub mod explain;
pub mod exports;
pub mod laws;
pub mod lent;
pub mod lines;
pub mod listed;
pub mod loose;
pub mod make;
pub mod ours;
pub mod parts;
pub mod programs;
pub mod progress;
pub mod request;
pub mod run;
pub mod sample;
pub mod show;
pub mod shrink;
pub mod workers;
