//! `txindurbe why`: whether a row belongs, as the engine says, and why, guard by guard.
//!
//! What is shown below the first line is what the engine reads from the certificates that are held: of a + list the rows certified, of a − list all rows but those.

mod bindings;
mod comprehension;
mod evidence;
mod explain;
mod fill;
mod lists;
mod outline;
mod sets;
mod sought;
mod standing;

use crate::asking::Asking;
use crate::cli::WhyArguments;
use crate::failure::{Failure, Outcome};
use crate::reading;
use crate::show::Show;
use crate::when::When;
use evidence::Evidence;
use explain::Explainer;
use fill::Scope;
use outline::Outline;
use std::io::Write;
use txindurbe::{Answer, Membership, Row, Verdict};

pub fn run(arguments: &WhyArguments, _show: &Show, out: &mut dyn Write) -> Outcome {
    let asking = Asking::open(&arguments.asked)?;
    let compiled = &asking.loaded.compiled;
    let row = reading::row(compiled.names(), &arguments.row).map_err(Failure::Usage)?;
    let answer = asking.answer()?;
    writeln!(out, "{}", belongs(&answer, &compiled.names().show_row(&row), &row))?;
    writeln!(out, "Archive {}, point {}, {} (minute {}).", asking.archive.id(), asking.held.point, When(asking.minute), asking.minute.number())?;
    writeln!(out)?;
    outline(&asking, &row)?.write(0, out)?;
    Ok(())
}

fn belongs(answer: &Answer, shown: &str, row: &Row) -> String {
    match (answer.contains(row), answer.verdict()) {
        (Membership::Yes, _) => format!("{shown} certainly belongs."),
        (Membership::No, _) => format!("{shown} certainly does not belong."),
        (Membership::Unknown, Verdict::Upper) => format!("{shown} may belong: the answer is upper and has it."),
        (Membership::Unknown, _) => format!("{shown} is not known to belong: the answer is lower and does not have it."),
    }
}

fn outline(asking: &Asking, row: &Row) -> Result<Outline, Failure> {
    let entries = asking.archive.entries(1..=asking.held.point)?;
    let mut explainer = Explainer::new(asking, Evidence::new(&asking.held, asking.minute, entries));
    Ok(explainer.row(&asking.asked.expression, &Scope::default(), row, ""))
}
