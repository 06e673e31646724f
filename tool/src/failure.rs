//! Why a command did not answer, and the exit status that says so.

use crate::show::Show;
use std::fmt::Display;
use std::io;
use std::path::Path;
use std::process::ExitCode;
use txindurbe_archive::ArchiveError;
use txindurbe_language::{Problem, Severity, Sources};

#[derive(Debug)]
pub enum Failure {
    /// A text with errors in it. Refused if the engine refuses it or would, else it could not be read.
    Problems(Sources, Vec<Problem>),
    /// Status 1. What there is to say has been said if the text is empty.
    Refused(String),
    /// Status 2: an argument, a file or an archive that cannot be used.
    Usage(String),
    /// Who reads our output has gone: nothing to say, and nobody to say it to.
    NobodyListens,
}

pub type Outcome = Result<(), Failure>;

const REFUSED: u8 = 1;
const USAGE: u8 = 2;

impl Failure {
    pub fn show(self, show: &Show) -> ExitCode {
        match self {
            Failure::Problems(sources, problems) => {
                show.problems(&sources, &problems);
                let refused = problems.iter().filter(|problem| problem.severity == Severity::Error).all(|problem| problem.refusal.is_some());
                ExitCode::from(if refused { REFUSED } else { USAGE })
            }
            Failure::Refused(message) => {
                show.error(&message);
                ExitCode::from(REFUSED)
            }
            Failure::Usage(message) => {
                show.error(&message);
                ExitCode::from(USAGE)
            }
            Failure::NobodyListens => ExitCode::SUCCESS,
        }
    }

    /// Of a file that cannot be read or written.
    pub fn of_file(path: &Path, error: impl Display) -> Failure {
        Failure::Usage(format!("{}: {error}", path.display()))
    }
}

impl From<io::Error> for Failure {
    fn from(error: io::Error) -> Failure {
        match error.kind() {
            io::ErrorKind::BrokenPipe => Failure::NobodyListens,
            _ => Failure::Usage(format!("cannot write the answer: {error}")),
        }
    }
}

impl From<ArchiveError> for Failure {
    fn from(error: ArchiveError) -> Failure {
        Failure::Usage(error.to_string())
    }
}
