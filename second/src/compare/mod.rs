//! This program beside another one, on the same inputs: scenarios that are
//! stored as text, random scenarios, tables handed in whole, items that arrive
//! in bits, trigger checks. Random inputs have to reach every form that is
//! wanted, and that is counted.

// What is handed in, running a program on it, and showing what it has written.
pub mod chunks;
pub mod generate;
pub mod program;
pub mod random;
pub mod shown;
pub mod tables;
pub mod triggers;

// What has to be reached.
pub mod counts;
pub mod coverage;
pub mod hung_up;

// The commands that compare and list.
pub mod check;
pub mod compare_chunks;
pub mod compare_listings;
pub mod compare_tables;
pub mod compare_triggers;
pub mod list;
#[cfg(test)]
mod program_tests;
#[cfg(test)]
mod tests;
