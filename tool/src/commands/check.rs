//! `txindurbe check`

use super::load;
use crate::cli::CheckArguments;
use crate::failure::Outcome;
use crate::show::Show;
use std::io::Write;
use txindurbe::{Polarity, Verdict};
use txindurbe_archive::Archive;
use txindurbe_language::DefinitionInfo;

pub fn run(arguments: &CheckArguments, show: &Show, out: &mut dyn Write) -> Outcome {
    let mut loaded = load(&arguments.policy)?;
    show.problems(&loaded.sources, &loaded.compiled.warnings);
    for definition in loaded.compiled.definitions() {
        writeln!(out, "{}", described(&definition))?;
    }
    let asked = match arguments.ask.is_some() || loaded.compiled.query().is_some() {
        true => Some(loaded.asked(arguments.ask.as_deref())?),
        false => None,
    };
    let Some(asked) = asked else { return Ok(()) };
    show.problems(&loaded.sources, &asked.warnings);
    writeln!(out, "the query: {}", promised(asked.verdict))?;
    if let Some(path) = &arguments.archive {
        let held = Archive::open(path)?.held(arguments.point.at)?;
        let over = loaded.compiled.warnings_over(&asked, &held.store, &held.links, arguments.point.minute_or_now());
        show.problems(&loaded.sources, &over);
    }
    Ok(())
}

fn described(definition: &DefinitionInfo) -> String {
    let sign = match definition.polarity {
        Polarity::Plus => '+',
        Polarity::Minus => '-',
    };
    let open = if definition.open { "; open, so it cannot be drawn from" } else { "" };
    format!("{} ({} {sign}): {}{open}", definition.identifier, definition.number, promised(definition.verdict))
}

fn promised(verdict: Verdict) -> &'static str {
    match verdict {
        Verdict::Exact => "exact, the rows that belong and no others",
        Verdict::Lower => "lower, rows that certainly belong; others may",
        Verdict::Upper => "upper, all rows that can belong; not all need to",
    }
}
