//! Documents 01 and 02 in ordinary Rust, written from the documents alone: what the second program and the tool for people share.

pub mod asking;
pub mod bags;
pub mod characters;
pub mod compile;
pub mod deciding;
#[cfg(test)]
mod example;
pub mod locks;
pub mod numbers;
pub mod patterns;
pub mod plans;
pub mod policies;
pub mod questions;
pub mod sheets;
pub mod table;
pub mod tallies;
pub mod tokens;
