//! The command-line tool, run on files of its own.

#[path = "../common/mod.rs"]
mod common;

mod arguments;
mod edges;
mod files;
mod info;
mod mask;
mod pack;
mod place;
mod preview;
mod reads;
mod relay;
mod subheader;
mod widths;
