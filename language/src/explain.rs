//! A refusal of the engine at its place in the text: the rule in words, what breaks it, what would be right.
//!
//! The engine is the judge. It says which rule is broken and in which part; what is done here is to find the place there.

mod external;
mod limits;
mod polarity;
pub(crate) mod reading;
mod signs;
#[cfg(test)]
mod tests;
mod words;

use crate::problem::Problem;
use crate::program::Program;
use crate::tree::Whole;
use txindurbe::{Part, Refusal};

/// What is said where no place is found, which is a mistake of ours: the rule alone, at the whole part.
const NO_PLACE_FOUND: &str = "the engine refuses this part";

/// `asked` is the query that was asked; without one, the file's own.
pub(crate) fn explain(program: &Program, asked: Option<&Whole>, refusal: &Refusal) -> Problem {
    at_place(program, asked, refusal).unwrap_or_else(|| of_part(program, asked, refusal)).refused(refusal.number())
}

fn at_place(program: &Program, asked: Option<&Whole>, refusal: &Refusal) -> Option<Problem> {
    let Some((part, whole)) = refusal.part().and_then(|part| Some((part, program.part(part, asked)?))) else {
        return match refusal {
            Refusal::BadHeader => limits::too_many_definitions(program).or_else(|| limits::policy_too_long(program, false)),
            Refusal::NotExternal => external::broken_rule(program).or_else(|| limits::policy_too_long(program, true)),
            // The others are about stores, certificates, links, areas and dates, and not about a text.
            _ => Some(Problem::error(refusal.rule())),
        };
    };
    match (refusal, part) {
        (Refusal::BadWord(_), Part::Query) => limits::query_too_long(whole).or_else(|| limits::broken_word(program, part, whole, 3)),
        (Refusal::BadWord(_) | Refusal::NotInScope(_) | Refusal::TooDeep(_), _) => limits::broken_word(program, part, whole, refusal.number()),
        (Refusal::NoPolarity(_), Part::Definition(number)) => signs::not_as_declared(program, program.definitions.get(number as usize)?),
        (Refusal::NoPolarity(_), Part::Query) => signs::no_polarity(program, &whole.expression),
        (Refusal::OpenDraw(_), _) => signs::drawn_from_open(program, &whole.expression),
        (Refusal::TooManyRows(_), _) => Some(reading::too_many_rows(whole.expression.span, &reading::part_name(program, part))),
        (Refusal::TooManyDraws(_), _) => Some(reading::too_many_draws(whole.expression.span, &reading::part_name(program, part))),
        _ => None,
    }
}

fn of_part(program: &Program, asked: Option<&Whole>, refusal: &Refusal) -> Problem {
    let problem = Problem::error(refusal.rule());
    match refusal.part().and_then(|part| program.part(part, asked)) {
        Some(whole) => problem.at(whole.expression.span, NO_PLACE_FOUND),
        None => problem,
    }
}
