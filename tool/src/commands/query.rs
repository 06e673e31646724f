//! `txindurbe query`

use crate::asking::Asking;
use crate::cli::{Form, Promise, QueryArguments};
use crate::failure::{Failure, Outcome};
use crate::show::Show;
use crate::table::{heading, verdict_word, Shown};
use std::io::Write;
use txindurbe::Verdict;

pub fn run(arguments: &QueryArguments, show: &Show, out: &mut dyn Write) -> Outcome {
    let asking = Asking::open(&arguments.asked)?;
    warn(&asking, show);
    if let Some(required) = arguments.require {
        fulfils(asking.asked.verdict, required)?;
    }
    let answer = asking.answer()?;
    let compiled = &asking.loaded.compiled;
    let shown = Shown {
        answer: &answer,
        names: compiled.names(),
        heading: heading(compiled, &asking.asked.expression),
        archive: asking.archive.id(),
        point: asking.held.point,
        minute: asking.minute,
    };
    match arguments.format {
        Form::Table => shown.table(out)?,
        Form::Csv => shown.csv(out)?,
        Form::Json => shown.json(out)?,
    }
    Ok(())
}

fn warn(asking: &Asking, show: &Show) {
    let compiled = &asking.loaded.compiled;
    let over = compiled.warnings_over(&asking.asked, &asking.held.store, &asking.held.links, asking.minute);
    for warnings in [&compiled.warnings, &asking.asked.warnings, &over] {
        show.problems(&asking.loaded.sources, warnings);
    }
}

/// Whether an answer with this verdict promises what is required of it.
fn fulfils(verdict: Verdict, required: Promise) -> Outcome {
    let promised = matches!((verdict, required), (Verdict::Exact, _) | (Verdict::Lower, Promise::Lower) | (Verdict::Upper, Promise::Upper));
    if promised {
        return Ok(());
    }
    Err(Failure::Refused(format!(
        "the answer would be {}, and not {}: {}.\n{}. Policy and query alone decide that, and no certificate changes it.",
        verdict_word(verdict),
        asked_for(required),
        promises(verdict),
        because(verdict),
    )))
}

fn promises(verdict: Verdict) -> &'static str {
    match verdict {
        Verdict::Exact => "it has the rows that belong and no others",
        Verdict::Lower => "its rows certainly belong, and others may",
        Verdict::Upper => "no other rows belong, and its rows need not",
    }
}

fn asked_for(required: Promise) -> &'static str {
    match required {
        Promise::Lower => "lower or exact",
        Promise::Upper => "upper or exact",
        Promise::Exact => "exact",
    }
}

fn because(verdict: Verdict) -> &'static str {
    match verdict {
        Verdict::Exact => "The query reads no list",
        Verdict::Lower => "The query reads + lists or + definitions, or takes away − ones",
        Verdict::Upper => "The query reads − lists or − definitions, or takes away + ones",
    }
}
