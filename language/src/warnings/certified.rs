//! Warnings that need the certificates: what nobody certified, at this minute.

use super::used_definitions;
use super::widths::{atoms, not_matched, Set, Widths};
use crate::evidence::Evidence;
use crate::names::sign;
use crate::problem::Problem;
use crate::program::Program;
use crate::say;
use crate::syntax::{Polarity, Span};
use crate::tree::{GuardKind, Kind, List, Node, Origin, Row as Written, TermKind, Whole};
use std::collections::{BTreeMap, BTreeSet};
use txindurbe::{Key, Name, Row};

/// Of a query and all definitions that it uses.
pub(crate) fn over(program: &Program, asked: &Whole, evidence: &Evidence) -> Vec<Problem> {
    let used = used_definitions(program, &asked.expression);
    let nodes: Vec<&Node> =
        used.into_iter().map(|place| &program.definitions[place].whole).chain([asked]).flat_map(|whole| whole.expression.all()).collect();
    let mut warnings = uncertified(program, &asked.expression, evidence);
    warnings.extend(unmatched(program, &nodes, evidence));
    warnings.extend(never_absent(&nodes, evidence));
    warnings.extend(none_holds(&nodes, evidence));
    warnings.extend(twins(program, &nodes, evidence));
    say::in_order(warnings)
}

/// The lists that stand here by certificates: of the key that is written, or of each that has something to say of it.
fn names_of(list: &List, evidence: &Evidence) -> Vec<Name> {
    let List { issuer, number, polarity, origin, .. } = list;
    let keys: BTreeSet<Key> = match (origin, issuer.kind) {
        (Origin::Own(_), _) => BTreeSet::new(),
        (Origin::Certificates, TermKind::Atom(atom)) => atom.key().into_iter().collect(),
        (Origin::Certificates, _) => evidence.keys(*number, *polarity),
    };
    keys.into_iter().map(|key| Name { key, number: *number, polarity: *polarity }).collect()
}

// ---- a − list that is tested and of which nothing is certified

fn uncertified(program: &Program, asked: &Node, evidence: &Evidence) -> Vec<Problem> {
    let mut testing = Testing { program, tested: Vec::new(), visited: BTreeSet::new() };
    testing.walk(asked, false, false);
    let mut said = BTreeMap::new();
    for (node, list) in testing.tested {
        if evidence.rows(&names_of(list, evidence)).is_empty() {
            said.entry((list.text.clone(), list.number)).or_insert_with(Vec::new).push((node, list));
        }
    }
    said.into_values().map(|places| nobody_certified(program, &places, evidence)).collect()
}

fn nobody_certified(program: &Program, places: &[(&Node, &List)], evidence: &Evidence) -> Problem {
    let (node, list) = places[0];
    let message = format!("nobody has certified anything of `{}` at this minute, so any row may be in it, and none passes here", list.text);
    let mut problem = Problem::warning(message).at(node.span, "a − list: a row passes when it is certified NOT to be in it");
    for (node, _) in &places[1..] {
        problem = problem.at(node.span, "and here");
    }
    if let Some(declared) = list.declaration.map(|place| &program.names.lists[place]) {
        problem = problem.at(declared.span, "declared here");
    }
    let twin = List { polarity: Polarity::Plus, ..list.clone() };
    if evidence.at_some_minute(&names_of(list, evidence)) {
        problem.mend("there are certificates of it, but none that holds at this minute: ask at another, or have it certified again")
    } else if let Some(twin) = names_of(&twin, evidence).into_iter().find(|name| evidence.at_some_minute(&[*name])) {
        let twin = format!("{}.{}{}", program.names.show_key(twin.key), twin.number, twin.polarity);
        problem.mend(format!(
            "there are certificates of `{twin}`, which is another list: file certificates that say `not in` for the rows that are NOT in this one"
        ))
    } else {
        problem.mend("file certificates that say `not in` for the rows that are NOT in it")
    }
}

/// Finds the − lists that are tested, by `not in`, right of `minus` or by `vetted by`.
struct Testing<'a> {
    program: &'a Program,
    tested: Vec<(&'a Node, &'a List)>,
    visited: BTreeSet<(usize, bool)>,
}

impl<'a> Testing<'a> {
    /// `vetted` where rewriting has each list vetted.
    fn walk(&mut self, node: &'a Node, tested: bool, vetted: bool) {
        if let Some(place) = node.definition() {
            self.definition(place, tested);
        }
        match &node.kind {
            Kind::Literal { .. } | Kind::Defined(_) => {}
            Kind::List(list) => {
                if tested && list.polarity == Polarity::Minus && list.origin == Origin::Certificates {
                    self.tested.push((node, list));
                }
                match list.vetted_by {
                    Some((place, _)) => self.definition(place, true),
                    None if vetted => self.definition(0, true),
                    None => {}
                }
            }
            Kind::Union(left, right) => {
                self.walk(left, tested, vetted);
                self.walk(right, tested, vetted);
            }
            Kind::Minus(left, right) => {
                self.walk(left, tested, vetted);
                self.walk(right, true, vetted);
            }
            Kind::Each { guards, .. } => {
                for guard in guards {
                    match &guard.kind {
                        GuardKind::Draw(_, from) => self.walk(from, false, vetted),
                        GuardKind::Absent(_, from) => self.walk(from, true, vetted),
                        GuardKind::Same(..) | GuardKind::Different(..) => {}
                    }
                }
            }
        }
    }

    fn definition(&mut self, place: usize, tested: bool) {
        if self.visited.insert((place, tested)) {
            let vetted = place > 0 && self.program.compromised().is_some();
            self.walk(&self.program.definitions[place].whole.expression, tested, vetted);
        }
    }
}

// ---- a pattern that matches no certificate

/// Draws that could match, and match nothing that is certified. Where nothing is certified at all, there is nothing to compare with.
fn unmatched(program: &Program, nodes: &[&Node], evidence: &Evidence) -> Vec<Problem> {
    let of_list = |list: &List| Set::of(evidence.rows(&names_of(list, evidence)).iter().map(|row| row.atoms().len()));
    let all = program.definitions.len();
    let (text, held) = (Widths::of_text(program, all), Widths::new(program, all, &of_list));
    let mut warnings = Vec::new();
    for guard in nodes.iter().flat_map(|node| node.guards()) {
        if let GuardKind::Draw(pattern, from) = &guard.kind {
            let matched = |set: Set| set.matched_by(pattern.terms.len(), program.format);
            let certified = held.of(from);
            if certified != Set::NONE && matched(text.of(from)) && !matched(certified) {
                warnings.push(not_matched(pattern, from, certified, program.format));
            }
        }
    }
    warnings
}

// ---- a row of another width than all that are certified absent

/// Tests of a − list that no row of theirs can pass: in both formats `not in` tests the whole row.
fn never_absent(nodes: &[&Node], evidence: &Evidence) -> Vec<Problem> {
    let tests = nodes.iter().flat_map(|node| node.guards()).filter_map(|guard| match &guard.kind {
        GuardKind::Absent(row, Node { kind: Kind::List(list), span }) if list.polarity == Polarity::Minus => Some((row, list, *span)),
        _ => None,
    });
    let never = tests.filter_map(|(row, list, span)| {
        let certified = Set::of(evidence.rows(&names_of(list, evidence)).iter().map(|row| row.atoms().len()));
        let width = row.terms.len();
        (certified != Set::NONE && !certified.has(width)).then(|| never_passes(row, width, list, span, certified))
    });
    never.collect()
}

fn never_passes(row: &Written, width: usize, list: &List, span: Span, certified: Set) -> Problem {
    let message = format!("this guard passes for no row: of `{}` only rows of {} are certified absent", list.text, certified.shown());
    let problem = Problem::warning(message).at(row.span, format!("a row of {}, tested whole in both formats", atoms(&width.to_string())));
    problem.at(span, "tested here").mend(format!("write a row of {}, or have rows of {width} certified absent", certified.shown()))
}

// ---- a + list that is drawn from and has no certificate that holds

fn none_holds(nodes: &[&Node], evidence: &Evidence) -> Vec<Problem> {
    let drawn = nodes.iter().flat_map(|node| node.guards()).filter_map(|guard| match &guard.kind {
        GuardKind::Draw(_, Node { kind: Kind::List(list), span }) if list.polarity == Polarity::Plus => Some((list, *span)),
        _ => None,
    });
    let ended = drawn.filter(|(list, _)| {
        let names = names_of(list, evidence);
        evidence.at_some_minute(&names) && evidence.rows(&names).is_empty()
    });
    ended
        .map(|(list, span)| {
            let problem = Problem::warning(format!("no certificate of `{}` holds at this minute, so nothing is drawn here", list.text));
            problem.at(span, "there are certificates, for other minutes").mend("ask at another minute, or have its rows certified again")
        })
        .collect()
}

// ---- a row in a + list and in its − twin

fn twins(program: &Program, nodes: &[&Node], evidence: &Evidence) -> Vec<Problem> {
    let mut warnings = Vec::new();
    let mut said = BTreeSet::new();
    for node in nodes {
        let Kind::List(list) = &node.kind else { continue };
        for Name { key, number, .. } in names_of(list, evidence) {
            let [plus, minus] = [Polarity::Plus, Polarity::Minus].map(|polarity| Name { key, number, polarity });
            let minus: BTreeSet<&Row> = evidence.own_rows(&minus).collect();
            let both: Vec<&Row> = evidence.own_rows(&plus).filter(|row| minus.contains(row)).collect();
            if !both.is_empty() && said.insert((key, number)) {
                warnings.push(two_lists(program, node, list, key, &both));
            }
        }
    }
    warnings
}

fn two_lists(program: &Program, node: &Node, list: &List, key: Key, both: &[&Row]) -> Problem {
    const SHOWN: usize = 3;
    let rows: Vec<String> = both.iter().take(SHOWN).map(|row| program.names.show_row(row)).collect();
    let more = if both.len() > SHOWN { format!(" and {} more", both.len() - SHOWN) } else { String::new() };
    let (issuer, number) = (program.names.show_key(key), list.number);
    let are = if both.len() == 1 { "is" } else { "are" };
    let message = format!("{}{more} {are} certified in `{issuer}.{number}+` and certified absent from `{issuer}.{number}-`", rows.join(", "));
    let problem = Problem::warning(message).at(node.span, format!("the {} list is read here", sign(list.polarity)));
    problem.mend("these are two lists: a certificate of the one says nothing of the other; file both with one sign if one list was meant")
}
