//! Measuring: this program's times and instructions beside the proved program's.
//! What is measured is done over and over, and the input for that has a form of
//! its own.

pub mod measure;
mod programs;
pub mod rounds;
#[cfg(test)]
mod tests;
