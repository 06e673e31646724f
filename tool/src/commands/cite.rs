//! `txindurbe cite`

use crate::asking::Asking;
use crate::citation::{Citation, CitedTable, Digest};
use crate::cli::CiteArguments;
use crate::failure::Outcome;
use crate::show::Show;
use std::io::Write;

pub fn run(arguments: &CiteArguments, _show: &Show, out: &mut dyn Write) -> Outcome {
    let asking = Asking::open(&arguments.asked)?;
    let answer = asking.answer()?;
    let citation = Citation {
        archive: asking.archive.id().into(),
        point: asking.held.point,
        list: Digest(asking.held.digest),
        minute: asking.minute,
        policy: Digest::of_policy(asking.loaded.compiled.policy()),
        query: Digest::of_query(&asking.asked.query),
        table: CitedTable::of(answer.table()),
        tool: env!("CARGO_PKG_VERSION").into(),
    };
    write!(out, "{citation}")?;
    Ok(())
}
