//! The commands.

mod block;
mod info;
mod mask;
mod pack;
mod relay;
mod subheader;
mod window;

use crate::arguments::{Given, Options};
use crate::failure::Failure;

/// A command of the tool.
#[derive(Debug)]
pub struct Command {
    /// Its name.
    pub name: &'static str,
    /// What it does, in a line.
    pub summary: &'static str,
    /// The parts of its help.
    pub help: &'static [&'static str],
    /// The options that it takes.
    pub options: Options,
    /// Does it.
    pub run: fn(&Given) -> Result<(), Failure>,
}

/// The commands, in the order of the help.
pub const COMMANDS: [&Command; 7] = [
    &info::COMMAND,
    &block::COMMAND,
    &window::COMMAND,
    &pack::COMMAND,
    &relay::COMMAND,
    &mask::COMMAND,
    &subheader::COMMAND,
];
