//! Random inputs from a seed, valid ones and others, and the inputs that every seed has.

pub mod absences;
pub mod bag_bytes;
pub mod condition_texts;
pub mod damaged_texts;
pub mod examples;
pub mod literals;
pub mod lock_bytes;
pub mod marks;
pub mod policy_texts;
pub mod random;
pub mod requests;
pub mod rich_bags;
pub mod tallies;
pub mod wide_strings;
