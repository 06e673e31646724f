//! The rules of external policies, refusal 15: which of them is broken, and where.

use crate::names::sign;
use crate::problem::Problem;
use crate::program::{Definition, Program};
use crate::syntax::Polarity;
use crate::tree::{Guard, GuardKind, Kind, List, Node};

/// The first definition that breaks one.
pub(crate) fn broken_rule(program: &Program) -> Option<Problem> {
    let definitions = program.definitions.iter().enumerate();
    definitions
        .into_iter()
        .find_map(|(place, definition)| wrong_sign(place, definition).or_else(|| in_expression(definition, &definition.whole.expression)))
}

fn wrong_sign(place: usize, definition: &Definition) -> Option<Problem> {
    let lists_keys = definition.number == 0 && definition.polarity == Polarity::Minus;
    if definition.polarity == Polarity::Plus || (place == 0 && lists_keys) {
        return None;
    }
    let problem =
        Problem::error("in an external policy every definition is +, but for the first, which may be 0 − and then lists the compromised keys");
    let problem = problem.at(definition.polarity_span, format!("`{}` is {} −", definition.text, definition.number));
    Some(match (place, lists_keys) {
        (0, _) => problem.mend(format!("if it lists the compromised keys, give it the number 0: `define {} 0 - = ..`", definition.text)),
        (_, true) => problem.mend(format!("move `define {}` before all others", definition.text)),
        (_, false) => problem.mend("declare it with +, or leave `external` out"),
    })
}

/// What must not stand in an expression, in the order of the words.
fn in_expression(definition: &Definition, node: &Node) -> Option<Problem> {
    let inside = |nodes: Vec<&Node>| nodes.into_iter().find_map(|node| in_expression(definition, node));
    match &node.kind {
        Kind::Minus(..) => Some(forbidden("`minus`").at(node.span, "a difference")),
        Kind::List(List { vetted_by: Some((_, span)), .. }) => Some(
            forbidden("`vetted by`")
                .at(*span, "vetted here")
                .mend("leave it out: by definition 0, number 0 −, each list is vetted when the policy is rewritten"),
        ),
        Kind::List(list) if list.polarity != definition.polarity => {
            let (is, must) = (sign(list.polarity), sign(definition.polarity));
            let message = format!("in an external policy a {must} definition reads only {must} lists, and `{}` is a {is} list", list.text);
            Some(Problem::error(message).at(list.span, format!("a {is} list")).at(definition.polarity_span, format!("declared {must}")))
        }
        Kind::Each { guards, .. } => guards.iter().find_map(|guard| absent(guard).or_else(|| inside(guard.operand().into_iter().collect()))),
        _ => inside(node.inside()),
    }
}

fn absent(guard: &Guard) -> Option<Problem> {
    match &guard.kind {
        GuardKind::Absent(..) => Some(forbidden("`not in`").at(guard.span, "an absent guard")),
        _ => None,
    }
}

fn forbidden(what: &str) -> Problem {
    let problem = Problem::error(format!("{what} stands in no external policy"));
    match what {
        "`vetted by`" => problem,
        _ => problem.mend("write it in the query, or leave `external` out and write `vetted by` where a list is to be vetted"),
    }
}
