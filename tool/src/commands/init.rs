//! `txindurbe init`

use crate::cli::InitArguments;
use crate::failure::Outcome;
use crate::show::Show;
use std::io::Write;
use txindurbe_archive::Archive;

pub fn run(arguments: &InitArguments, _show: &Show, out: &mut dyn Write) -> Outcome {
    let archive = Archive::create(&arguments.archive, arguments.id.as_deref())?;
    writeln!(out, "{}", archive.id())?;
    Ok(())
}
