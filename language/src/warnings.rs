//! What means what it says, and likely not what was meant.

pub(crate) mod certified;
mod widths;

use crate::names::closest;
use crate::problem::Problem;
use crate::program::Program;
use crate::say;
use crate::syntax::StatementKind;
use crate::tree::{Kind, List, Node, Whole};
use std::collections::BTreeSet;
use widths::Widths;

/// Of the definitions, known from the text alone.
pub(crate) fn of_definitions(program: &Program) -> Vec<Problem> {
    let mut warnings = never_used(program);
    warnings.extend(nothing_vetted(program));
    for (place, definition) in program.definitions.iter().enumerate() {
        warnings.extend(of_part(program, &definition.whole, place));
    }
    say::in_order(warnings)
}

/// Of a query by itself, the same.
pub(crate) fn of_query(program: &Program, whole: &Whole) -> Vec<Problem> {
    say::in_order(of_part(program, whole, program.definitions.len()))
}

fn of_part(program: &Program, whole: &Whole, available: usize) -> Vec<Problem> {
    let mut warnings = unused_variables(program, whole);
    let mut widths = Widths::of_text(program, available);
    widths.check(&whole.expression, &mut warnings);
    warnings
}

/// An external policy without compromised keys is taken as it is.
fn nothing_vetted(program: &Program) -> Option<Problem> {
    let external = program.file.statements.iter().find(|statement| statement.kind == StatementKind::External)?;
    if program.definitions.is_empty() || program.compromised().is_some() {
        return None;
    }
    let problem =
        Problem::warning("no list is vetted: the first definition is not 0 −, the compromised keys").at(external.span, "the policy stays as it is");
    Some(problem.mend("begin with `define compromised 0 - = ..`, or take `external` out"))
}

/// In a file with a query.
fn never_used(program: &Program) -> Vec<Problem> {
    let Some(query) = &program.query else { return Vec::new() };
    let used = used_definitions(program, &query.expression);
    let unused = program.definitions.iter().enumerate().filter(|(place, _)| !used.contains(place));
    unused
        .map(|(_, definition)| {
            let problem = Problem::warning(format!("`{}` is never used", definition.text))
                .at(definition.span, "neither the query nor what it uses asks for it");
            problem.mend("it is read with every query all the same: take it out")
        })
        .collect()
}

/// Those that an expression uses, and that these use: by name, as own names, behind `vetted by`, or as rewriting has it.
pub(crate) fn used_definitions(program: &Program, node: &Node) -> BTreeSet<usize> {
    let mut used = BTreeSet::new();
    let mut new = uses(node);
    while let Some(place) = new.pop() {
        if used.insert(place) {
            let expression = &program.definitions[place].whole.expression;
            new.extend(uses(expression));
            if place > 0 && program.compromised().is_some() && expression.all().iter().any(|node| matches!(node.kind, Kind::List(_))) {
                new.push(0);
            }
        }
    }
    used
}

fn uses(node: &Node) -> Vec<usize> {
    let vetting = |node: &Node| match &node.kind {
        Kind::List(List { vetted_by: Some((place, _)), .. }) => Some(*place),
        _ => None,
    };
    node.all().into_iter().flat_map(|node| [node.definition(), vetting(node)]).flatten().collect()
}

fn unused_variables(program: &Program, whole: &Whole) -> Vec<Problem> {
    let unused = whole.variables.iter().filter(|variable| !variable.used);
    unused
        .filter_map(|variable| {
            let text = variable.text.as_ref()?;
            let problem = Problem::warning(format!("`{text}` is drawn and never used")).at(variable.span, "any atom passes here");
            let meant = closest(text, program.names.key_names()).map(|key| format!("did you mean the key `{key}`?"));
            let problem = meant.into_iter().fold(problem, Problem::mend);
            Some(problem.mend("write `_` if any atom will do"))
        })
        .collect()
}
