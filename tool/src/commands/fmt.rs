//! `txindurbe fmt`

use super::read;
use crate::cli::FmtArguments;
use crate::failure::{Failure, Outcome};
use crate::show::Show;
use std::io::Write;
use std::path::Path;
use txindurbe_language::{parse, print, Sources};

pub fn run(arguments: &FmtArguments, _show: &Show, out: &mut dyn Write) -> Outcome {
    let mut differ = false;
    for path in &arguments.policies {
        let (written, formatted) = formatted(path)?;
        if written == formatted {
            continue;
        }
        differ = true;
        if arguments.check {
            writeln!(out, "{} is not as the formatter writes it", path.display())?;
        } else {
            std::fs::write(path, formatted).map_err(|error| Failure::of_file(path, error))?;
        }
    }
    match arguments.check && differ {
        true => Err(Failure::Refused(String::new())),
        false => Ok(()),
    }
}

/// As it is, and as it is to be.
fn formatted(path: &Path) -> Result<(String, String), Failure> {
    let text = read(path)?;
    let mut sources = Sources::default();
    let source = sources.add(path.display().to_string(), &text);
    match parse(&sources, source) {
        Ok(file) => Ok((text, print(&file))),
        Err(problems) => Err(Failure::Problems(sources, problems)),
    }
}
