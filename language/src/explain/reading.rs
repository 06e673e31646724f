//! Refusals that come only while reading, 13 and 14: which expression is at fault, found by asking the engine for each by itself.

use crate::evidence::Evidence;
use crate::problem::Problem;
use crate::program::Program;
use crate::say;
use crate::syntax::Span;
use crate::tree::{Guard, GuardKind, Kind, List, Node, Origin, Row, Term, TermKind, Whole};
use std::collections::BTreeSet;
use txindurbe::sizes::MOST_ROWS;
use txindurbe::{Atom, Engine, Name, Part, Policy, Refusal};

/// "`public`", "the query"
pub(crate) fn part_name(program: &Program, part: Part) -> String {
    match part {
        Part::Definition(number) => match program.definitions.get(number as usize) {
            Some(definition) => format!("`{}`", definition.text),
            None => format!("definition {number}"),
        },
        Part::Query => "the query".to_string(),
    }
}

pub(crate) fn too_many_rows(span: Span, part: &str) -> Problem {
    Problem::error(format!("no set lists over {MOST_ROWS} rows, and one in {part} would")).at(span, "while this is read")
}

pub(crate) fn too_many_draws(span: Span, part: &str) -> Problem {
    let problem = Problem::error(format!("at most 1,000,000 rows are drawn for a query, and {part} asks for more")).at(span, "while this is read");
    problem.mend("put the guards that leave few rows first, and write atoms in place of variables where they are known")
}

/// The smallest expression without variables from outside that by itself is refused so; else the part.
pub(crate) fn explain_over(program: &Program, asked: Option<&Whole>, refusal: &Refusal, evidence: &Evidence) -> Option<Problem> {
    let part = refusal.part()?;
    let whole = program.part(part, asked)?;
    let mut search = Search::new(program, part, whole, refusal.number(), evidence)?;
    let found = search.smallest(&whole.expression)?;
    let name = part_name(program, part);
    match refusal {
        Refusal::TooManyRows(_) => Some(over_the_limit(program, found, &name, evidence)),
        Refusal::TooManyDraws(_) => Some(too_many_draws(found.span, &name)),
        _ => None,
    }
}

fn over_the_limit(program: &Program, node: &Node, part: &str, evidence: &Evidence) -> Problem {
    let lists: BTreeSet<Name> = node.all().into_iter().flat_map(|node| crowded(node, evidence)).collect();
    let shown = |name: &Name| {
        let count = say::number(evidence.rows(&[*name]).len());
        format!("`{}` lists {count}", program.names.show_list(name.key, name.number, name.polarity))
    };
    let mend = "a list is read whole: its rows must be spread over several lists";
    match (&node.kind, lists.first()) {
        (Kind::List(_), Some(name)) => {
            let problem = Problem::error(format!("no set lists over {MOST_ROWS} rows, and {} at this minute", shown(name)));
            problem.at(node.span, "read here").mend(mend)
        }
        (_, Some(name)) => {
            let problem = Problem::error(format!("no set lists over {MOST_ROWS} rows, and one in {part} would: {} at this minute", shown(name)));
            problem.at(node.span, "while this is read").mend(mend)
        }
        (_, None) => too_many_rows(node.span, part).mend("ask for fewer rows at a time: write atoms in place of variables where they are known"),
    }
}

/// The lists that may be read here and have too many rows.
fn crowded(node: &Node, evidence: &Evidence) -> Vec<Name> {
    let Kind::List(List { issuer, number, polarity, origin: Origin::Certificates, .. }) = &node.kind else { return Vec::new() };
    let keys = match issuer.kind {
        TermKind::Atom(atom) => atom.key().into_iter().collect(),
        TermKind::Variable(_) | TermKind::New(_) => evidence.keys(*number, *polarity),
    };
    let names = keys.into_iter().map(|key| Name { key, number: *number, polarity: *polarity });
    names.filter(|name| evidence.rows(&[*name]).len() > MOST_ROWS).collect()
}

struct Search<'a> {
    program: &'a Program,
    whole: &'a Whole,
    /// The definitions that stand before the part. None of them is refused, so that what is refused is what is asked.
    policy: Policy,
    /// Where rewriting has each list vetted, by which definition.
    vetted_by: Option<&'a str>,
    number: u32,
    evidence: &'a Evidence<'a>,
    engine: Engine,
}

impl<'a> Search<'a> {
    fn new(program: &'a Program, part: Part, whole: &'a Whole, number: u32, evidence: &'a Evidence) -> Option<Search<'a>> {
        let written = program.policy(program.available(part)).ok()?;
        let policy = if program.external { written.rewrite().ok()? } else { written };
        let rewritten = matches!(part, Part::Definition(1..));
        let vetted_by = program.compromised().filter(|_| rewritten).map(|definition| definition.text.as_str());
        Some(Search { program, whole, policy, vetted_by, number, evidence, engine: Engine::new() })
    }

    /// Those inside it first, in the order in which they are read.
    fn smallest(&mut self, node: &'a Node) -> Option<&'a Node> {
        let inside = match &node.kind {
            Kind::Each { guards, .. } => self.reached_operands(node, guards),
            _ => node.inside(),
        };
        let inner = inside.into_iter().find_map(|inner| self.smallest(inner));
        inner.or_else(|| (is_closed(node) && self.is_refused(node)).then_some(node))
    }

    /// Guards after a failed one are not read. In a comprehension with variables from outside, all are taken as read.
    fn reached_operands(&mut self, node: &'a Node, guards: &'a [Guard]) -> Vec<&'a Node> {
        let closed = is_closed(node);
        let reached = |search: &mut Self, place: usize| !closed || !search.is_empty(&guards[..place], node.span);
        let places: Vec<usize> = (0..guards.len()).take_while(|&place| reached(self, place)).collect();
        places.into_iter().filter_map(|place| guards[place].operand()).collect()
    }

    /// Whether nothing passes these guards.
    fn is_empty(&mut self, guards: &[Guard], span: Span) -> bool {
        let zero = Term { kind: TermKind::Atom(Atom::from(0)), span };
        let head = Row { terms: vec![zero], span };
        let node = Node { kind: Kind::Each { guards: guards.to_vec(), head }, span };
        let empty = txindurbe::Rows::Only(Vec::new());
        matches!(self.ask(&node), Some(Ok(answer)) if rows_of(answer.table()) == &empty)
    }

    fn is_refused(&mut self, node: &Node) -> bool {
        matches!(self.ask(node), Some(Err(refusal)) if refusal.number() == self.number)
    }

    fn ask(&mut self, node: &Node) -> Option<Result<txindurbe::Answer, Refusal>> {
        let expression = self.program.expression(node, &self.whole.variables, self.vetted_by);
        let query = self.policy.query(&expression).ok()?;
        let Evidence { store, links, minute, .. } = self.evidence;
        Some(self.engine.query(&self.policy, &query, *minute, store, links))
    }
}

fn rows_of(table: &txindurbe::Table) -> &txindurbe::Rows {
    match table {
        txindurbe::Table::Lower(rows) | txindurbe::Table::Upper(rows) | txindurbe::Table::Exact(rows) => rows,
    }
}

/// Whether each variable that it uses is made in it.
fn is_closed(node: &Node) -> bool {
    let mut terms = Vec::new();
    for node in node.all() {
        terms.extend(own_terms(node));
    }
    let made: BTreeSet<usize> = terms.iter().filter_map(|term| if let TermKind::New(place) = term { Some(*place) } else { None }).collect();
    terms.iter().all(|term| !matches!(term, TermKind::Variable(place) if !made.contains(place)))
}

/// The terms of an expression, without those of expressions inside it.
fn own_terms(node: &Node) -> Vec<TermKind> {
    let of_row = |row: &Row| row.terms.iter().map(|term| term.kind).collect::<Vec<_>>();
    match &node.kind {
        Kind::Literal { rows, .. } => rows.iter().flat_map(of_row).collect(),
        Kind::List(list) => vec![list.issuer.kind],
        Kind::Each { guards, head } => {
            let of_guard = |guard: &Guard| match &guard.kind {
                GuardKind::Draw(row, _) | GuardKind::Absent(row, _) => of_row(row),
                GuardKind::Same(left, right) | GuardKind::Different(left, right) => vec![left.kind, right.kind],
            };
            guards.iter().flat_map(of_guard).chain(of_row(head)).collect()
        }
        Kind::Defined(_) | Kind::Union(..) | Kind::Minus(..) => Vec::new(),
    }
}
