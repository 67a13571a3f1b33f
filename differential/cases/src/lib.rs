//! Cases for the comparison: inputs on the compared domain and outside it, a model of document 01 with
//! what document 02 adds, and the loop that holds two sides against each other.

#![forbid(unsafe_code)]

mod case;
mod compare;
mod figures;
mod generate;
mod grid;
mod large;
mod lent;
pub mod model;
mod outside;
mod plans;
mod run;
mod shrink;
mod source;
mod subheader;
mod widths;

pub use case::{Answer, Area, Call, Case, Header, Kind, Pack, PANIC, UNKNOWN};
pub use compare::{Comparison, Difference, Side, Tally};
pub use figures::{figures, Figure};
pub use generate::{generate, Lengths, Size};
pub use grid::{Edges, Grid, Mode, BLOCK_SIDE, WIDTHS};
pub use large::large;
pub use lent::{pattern, Lent};
pub use outside::outside;
pub use plans::{exhaustive, long_size, random_size, Plan};
pub use run::{run, Domain};
pub use shrink::shrink;
pub use source::Source;
pub use subheader::{Compression, Justification, PixelValue, Subheader};
pub use widths::Widths;
