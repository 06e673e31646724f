//! One file for each command.

pub mod check;
pub mod cite;
pub mod completions;
pub mod file;
pub mod fmt;
pub mod init;
pub mod log;
pub mod names;
pub mod query;
pub mod test;
pub mod verify;
pub mod why;
pub mod words;

use crate::cli::PointArguments;
use crate::failure::Failure;
use crate::when::{self, When};
use std::io;
use std::path::Path;
use txindurbe::Minute;
use txindurbe_language::{compile, Asked, Compiled, Names, Sources};

/// A policy's text, compiled and judged. The texts are kept for what is still to be said about them.
pub struct Loaded {
    pub sources: Sources,
    pub compiled: Compiled,
}

/// Text that is read from a file.
pub fn read(path: &Path) -> Result<String, Failure> {
    std::fs::read_to_string(path).map_err(|error| match error.kind() {
        io::ErrorKind::InvalidData => {
            Failure::of_file(path, "it is no text. (Where a command takes an archive and a policy, the archive comes first.)")
        }
        _ => Failure::of_file(path, error),
    })
}

pub fn load(policy: &Path) -> Result<Loaded, Failure> {
    let mut sources = Sources::default();
    let source = sources.add(policy.display().to_string(), read(policy)?);
    match compile(&sources, source) {
        Ok(compiled) => Ok(Loaded { sources, compiled }),
        Err(problems) => Err(Failure::Problems(sources, problems)),
    }
}

impl Loaded {
    /// What is asked: on the command line, or by the policy's file.
    pub fn asked(&mut self, ask: Option<&str>) -> Result<Asked, Failure> {
        let Some(text) = ask else {
            let own = self.compiled.query().cloned();
            return own.ok_or_else(|| Failure::Usage("the policy has no query of its own: add one (`query ..`), or ask by --ask".into()));
        };
        let source = self.sources.add("--ask", text);
        self.compiled.ask(&self.sources, source).map_err(|problems| Failure::Problems(self.sources.clone(), problems))
    }
}

/// The names of keys and lists that a policy declares; none without a policy.
pub fn names(policy: Option<&Path>) -> Result<Names, Failure> {
    match policy {
        Some(policy) => Ok(load(policy)?.compiled.names().clone()),
        None => Ok(Names::default()),
    }
}

impl PointArguments {
    /// The minute asked for, or the one that it is.
    pub fn minute_or_now(&self) -> Minute {
        let When(minute) = self.minute.unwrap_or_else(|| When::at(when::now()));
        minute
    }
}
