//! `txindurbe completions`

use crate::cli::{Cli, CompletionsArguments};
use crate::failure::Outcome;
use crate::show::Show;
use clap::CommandFactory;
use std::io::Write;

pub fn run(arguments: &CompletionsArguments, _show: &Show, out: &mut dyn Write) -> Outcome {
    let mut script = Vec::new();
    clap_complete::generate(arguments.shell, &mut Cli::command(), "txindurbe", &mut script);
    out.write_all(&script)?;
    Ok(())
}
