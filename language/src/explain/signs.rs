//! What is said where polarity or openness is at fault: refusals 6 and 7. As to a curator: when more is certified, a + list may only gain rows, a − list may only
//! lose rows, and a table cannot do both.

use super::polarity::{fault, open_draw, Fault, OpenDraw, Used};
use crate::names::{opposite, sign};
use crate::problem::Problem;
use crate::program::{Definition, Program};
use crate::syntax::{Polarity, Span};
use crate::tree::{Kind, List, Node, Origin};

// ---- 6

/// "a + list", "a − definition"
fn what_it_is(program: &Program, leaf: &Node) -> String {
    let (polarity, kind) = match &leaf.kind {
        Kind::Defined(place) => (program.definitions[*place].polarity, "definition"),
        Kind::List(List { origin: Origin::Own(_), polarity, .. }) => (*polarity, "definition"),
        Kind::List(List { polarity, .. }) => (*polarity, "list"),
        _ => return "a set".to_string(),
    };
    format!("a {} {kind}", sign(polarity))
}

/// As it is written, without `vetted by`.
fn shown(program: &Program, leaf: &Node) -> String {
    match &leaf.kind {
        Kind::Defined(place) => format!("`{}`", program.definitions[*place].text),
        Kind::List(list) => format!("`{}`", list.text),
        Kind::Literal { all_but: true, .. } => "`all but`".to_string(),
        _ => "this".to_string(),
    }
}

/// What certificates may do to it: "may only gain rows".
fn may_only(polarity: Polarity) -> &'static str {
    match polarity {
        Polarity::Plus => "may only gain rows",
        Polarity::Minus => "may only lose rows",
    }
}

/// Where the sign of a leaf is said.
fn at_declaration(program: &Program, problem: Problem, leaf: &Node) -> Problem {
    let declared =
        |definition: &Definition| (definition.polarity_span, format!("`{}` is declared {} here", definition.text, sign(definition.polarity)));
    let said = match &leaf.kind {
        Kind::List(List { origin: Origin::Certificates, declaration, .. }) => {
            let list = declaration.map(|place| &program.names.lists[place]);
            list.map(|list| (list.span, format!("`{}` is declared {} here", list.text, sign(list.polarity))))
        }
        _ => leaf.definition().map(|place| declared(&program.definitions[place])),
    };
    match said {
        Some((span, text)) => problem.at(span, text),
        None => problem,
    }
}

/// Where a leaf is used, unless what it is taken from has a label already.
fn at_use(problem: Problem, used: Used) -> Problem {
    match used {
        Used::Joined => problem,
        Used::Drawn(pattern) => problem.at(pattern.span, "drawn from here"),
        Used::Absent(row) => problem.at(row.span, "tested by `not in` here"),
        Used::TakenFrom(left) if problem.labels.iter().any(|label| label.span == left.span) => problem,
        Used::TakenFrom(left) => problem.at(left.span, "`minus` takes it from this"),
    }
}

/// How more certificates of a leaf bear on the whole: "what it gains, `public` loses".
fn bearing(fault: &Fault, whole: &str) -> String {
    let does = |polarity: Polarity| match polarity {
        Polarity::Plus => "gains",
        Polarity::Minus => "loses",
    };
    // The leaf has the opposite of what is needed.
    let leaf = opposite(fault.needed);
    let whole_has = if fault.turned { opposite(leaf) } else { leaf };
    format!("what it {}, {whole} {}", does(leaf), does(whole_has))
}

pub(crate) fn not_as_declared(program: &Program, definition: &Definition) -> Option<Problem> {
    let Definition { text, polarity, .. } = definition;
    let fault = fault(program, &definition.whole.expression, *polarity)?;
    if let Some((by, span)) = fault.vetted_by {
        return Some(vetted_by_plus(program, fault.leaf, by, span));
    }
    let needed = sign(fault.needed);
    let place = match fault.used {
        Used::Joined => format!("it must be made of {needed} sets"),
        Used::Drawn(_) => format!("what it draws from here must be {needed}"),
        Used::Absent(_) => format!("what `not in` tests here must be {needed}"),
        Used::TakenFrom(_) => format!("what stands right of `minus` here must be {needed}"),
    };
    let (leaf, is) = (shown(program, fault.leaf), what_it_is(program, fault.leaf));
    let message = format!("`{text}` is declared {}, so {place}, and {leaf} is {is}", sign(*polarity));
    let problem = Problem::error(message).at(fault.leaf.span, format!("{is}: {}", bearing(&fault, &format!("`{text}`"))));
    let problem = at_use(problem, fault.used).at(definition.polarity_span, format!("declared {}: it {}", sign(*polarity), may_only(*polarity)));
    let problem = at_declaration(program, problem, fault.leaf);
    let turned = opposite(*polarity);
    Some(problem.mend(match self::fault(program, &definition.whole.expression, turned) {
        // The external rules fix the sign of every definition.
        None if !program.external => format!("declare `{text}` with {turned}: all in it is of that sign"),
        _ => polarity_mend(&fault),
    }))
}

/// What should stand in the place of a leaf of the wrong polarity.
fn polarity_mend(fault: &Fault) -> String {
    let absent = "one of which certificates say what is NOT in it (the − list of this number is another list than the + list)";
    let is_list = matches!(fault.leaf.kind, Kind::List(List { origin: Origin::Certificates, .. }));
    match (fault.used, fault.needed) {
        (Used::Absent(_), Polarity::Minus) if is_list => format!("`not in` needs a − list: {absent}"),
        (Used::TakenFrom(_), Polarity::Minus) if is_list => format!("`minus` needs a − list on its right: {absent}"),
        (Used::Absent(_), Polarity::Minus) => "`not in` needs a − definition here: one made of − lists".to_string(),
        (Used::TakenFrom(_), Polarity::Minus) => "`minus` needs a − definition on its right: one made of − lists".to_string(),
        (Used::Drawn(_), Polarity::Plus) => "draw from a + list and test with `not in`".to_string(),
        (Used::Joined, Polarity::Plus) => "put a + list here, or draw from a + list and test this one with `not in`".to_string(),
        (_, Polarity::Plus) => "put a + list or definition here".to_string(),
        (_, Polarity::Minus) => "put a − list or definition here".to_string(),
    }
}

/// A list vetted by a + definition has no polarity at all.
fn vetted_by_plus(program: &Program, leaf: &Node, by: usize, span: Span) -> Problem {
    let by = &program.definitions[by];
    Problem::error(format!("{} must be vetted by a − definition, and `{}` is a + definition", shown(program, leaf), by.text))
        .at(span, "a + definition: what it gains, the list loses")
        .at(by.polarity_span, "declared + here")
        .mend(format!("declare `{}` with -, and make it of − lists: certificates then say which keys are NOT compromised", by.text))
}

/// A query's two leaves that pull apart: one makes it +, the other −.
pub(crate) fn no_polarity(program: &Program, node: &Node) -> Option<Problem> {
    let (against_plus, against_minus) = (fault(program, node, Polarity::Plus)?, fault(program, node, Polarity::Minus)?);
    if let Some((by, span)) = against_plus.vetted_by {
        return Some(vetted_by_plus(program, against_plus.leaf, by, span));
    }
    let [loses, gains] = [&against_plus, &against_minus].map(|fault| {
        let (leaf, is) = (shown(program, fault.leaf), what_it_is(program, fault.leaf));
        (fault.leaf.span, format!("{leaf} is {is}: {}", bearing(fault, "the table")))
    });
    let problem =
        Problem::error("the query has no polarity: as more is certified, one part of it may only add rows to its table, another only take rows away");
    let problem = problem.at(loses.0, loses.1).at(gains.0, gains.1);
    let problem = at_use(at_use(problem, against_plus.used), against_minus.used);
    Some(at_declaration(program, problem, against_plus.leaf).mend(polarity_mend(&against_plus)))
}

// ---- 7

pub(crate) fn drawn_from_open(program: &Program, node: &Node) -> Option<Problem> {
    let OpenDraw { pattern, opened_by } = open_draw(program, node)?;
    let (leaf, cause) = (opened_by.first()?, opened_by.last()?);
    let shown_leaf = shown(program, leaf);
    let why = match cause.kind {
        Kind::Literal { .. } => "it has every row but those written",
        _ => "a − list may have any row that nobody certified absent",
    };
    let problem = if opened_by.len() == 1 {
        Problem::error(format!("nothing can be drawn from {shown_leaf}: {why}")).at(leaf.span, "its rows cannot be listed")
    } else {
        let problem = Problem::error(format!("nothing can be drawn from {shown_leaf}: it is open, by {}", shown(program, cause)));
        problem.at(leaf.span, "its rows cannot be listed").at(cause.span, why)
    };
    let problem = at_declaration(program, problem.at(pattern.span, "drawn here"), cause);
    Some(problem.mend(match cause.kind {
        Kind::Literal { .. } => "draw from a + list and test the rows that are written with `not in`",
        _ => "draw from a + list and test with `not in`",
    }))
}
