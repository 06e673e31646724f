//! What `query`, `why` and `cite` have in common: a policy's query, and the archive that it is asked of.

use crate::cli::AskedArguments;
use crate::commands::{load, Loaded};
use crate::failure::Failure;
use txindurbe::{Answer, Engine, Minute};
use txindurbe_archive::{Archive, Held};
use txindurbe_language::Asked;

/// A query under its policy, and the stores and the minute to ask it at.
pub struct Asking {
    pub loaded: Loaded,
    pub asked: Asked,
    pub archive: Archive,
    pub held: Held,
    pub minute: Minute,
}

impl Asking {
    pub fn open(arguments: &AskedArguments) -> Result<Asking, Failure> {
        let mut loaded = load(&arguments.policy)?;
        let asked = loaded.asked(arguments.ask.as_deref())?;
        let mut archive = Archive::open(&arguments.archive)?;
        let held = archive.held(arguments.point.at)?;
        Ok(Asking { loaded, asked, archive, held, minute: arguments.point.minute_or_now() })
    }

    /// What the engine says; a refusal is shown at its place.
    pub fn answer(&self) -> Result<Answer, Failure> {
        let Asking { loaded, asked, held, minute, .. } = self;
        let answer = Engine::new().query(loaded.compiled.policy(), &asked.query, *minute, &held.store, &held.links);
        answer.map_err(|refusal| {
            let problem = loaded.compiled.explain_over(Some(asked), &refusal, &held.store, &held.links, *minute);
            Failure::Problems(loaded.sources.clone(), vec![problem])
        })
    }
}
