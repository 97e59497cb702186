//! What the papers say: document 01, and document 02's requests as they land.
//! Forms and reading, one call, the call table, and the listing program, each in
//! the most direct way; nothing here is there for a test.

pub mod answer;
pub mod call;
pub mod feeder;
pub mod forms;
pub mod listing;
pub mod record;
pub mod table;
pub mod trigger;
