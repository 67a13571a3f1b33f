//! Document 01, with what document 02 adds, in plain Rust, a bit at a time, written from their text and
//! not from the original.
//!
//! A function takes what a call is lent and answers with the number of the first question answered
//! no, or 0, and the values beside it. "Question" and its number are those of the documents.

mod answer;
pub mod bits;
pub mod frame;
pub mod layout;
pub mod mask;
pub mod questions;
pub mod read;
pub mod reorder;
pub mod subheader;
pub mod widths;

pub use answer::{answer, lent_answer};
