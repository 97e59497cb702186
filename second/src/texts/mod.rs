//! Scenarios as text: a profile and items in words, for people to write and to
//! read. Bytes are made of it, and it is made of bytes; and it is listed with
//! the answers that a program gives.
//!
//! The text is line based: a profile, then items. The values are those of
//! document 01, section "Forms". Whatever fits into its field's width can be
//! assembled, so that malformed items can be written too.
//!
//! ```text
//! -- A comment. The profile has a default handling and a default timer.
//! profile release 30 enabling 4/491 4/492 length 11 service 17 forwarding inhibiting
//! 1000 call 7 setup 4/49151 service 17                            -> ok control 2 r2/1
//! 1000 call 7 request-report 6/2 interrupted timer 30, 7/2 notify -> ok control 2
//! 1001 call 8..64 setup 4/49151 service 17 forwarded              -> ok none - d1301
//! 1002 call 65 terminating-setup 4/49151 service 17               -> ok control 12 r12/1
//! bytes 00 0D                                                     -> refused 1
//! ```
//!
//! After `->` stands the answer that is expected. `call 8..64` stands for the
//! item once for each of these calls, in rising order, each with the same
//! answer. All the kinds of items are in `items.rs`.

mod answers;
mod expected;
mod explain;
mod items;
mod listed;
mod profile;
mod scenario;
#[cfg(test)]
mod tests;
mod values;

pub use answers::{is_answer, PROFILE_REFUSED};
pub use expected::{differences, Answered, Group};
pub use explain::{explain, explain_item, explain_profile};
pub use items::{assemble_body, operation_name};
pub use listed::{heading, listed, Listed};
pub use scenario::{
    answerable, assemble, assemble_file, assemble_input, bytes_of, length_field, read_file,
    read_to_list, Line, Scenario, Written,
};
pub use values::{digit_character, hex_text};
