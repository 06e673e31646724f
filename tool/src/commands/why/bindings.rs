//! The bindings that make a comprehension's head one row: guard by guard, in the order in which the engine reads them.

use super::fill::{row, value, Scope};
use super::sets::{NotKnown, Sets};
use txindurbe::{Format, Row, Verdict};
use txindurbe_language::syntax::{Expression, Guard, GuardKind, Row as WrittenRow, TermKind};

/// How many guards are tried before the search is given up.
const MOST_TRIES: usize = 100_000;

/// Guards passed one after the other, and the values that they left.
#[derive(Clone, Debug)]
pub struct Trail {
    pub scope: Scope,
    pub passed: Vec<Passed>,
    /// How the guard after these does not pass.
    pub stop: Stop,
}

/// How a guard does not pass.
#[derive(Clone, PartialEq, Eq, Debug)]
pub enum Stop {
    /// More certificates could make it pass, or not.
    Undecided,
    /// It fails, whatever is certified.
    Certain,
    /// Its operand could not be asked about.
    NotKnown(NotKnown),
}

/// A guard that passed.
#[derive(Clone, Copy, Debug)]
pub struct Passed {
    /// How many variables were in scope before it.
    pub known: usize,
    /// The row that it drew.
    pub drawn: Option<Row>,
}

/// What a search found.
#[derive(Debug, Default)]
pub struct Bindings {
    /// Those that pass all guards.
    pub passing: Vec<Trail>,
    /// Whether there are more of those.
    pub more: bool,
    /// Of the others the first that gets furthest.
    pub furthest: Option<Trail>,
    /// The same of those that are undecided.
    pub undecided: Option<Trail>,
    /// How many do not pass.
    pub stopped: usize,
    /// Whether not all were tried.
    pub given_up: bool,
}

pub struct Search<'s, 'a> {
    pub sets: &'s mut Sets<'a>,
    pub format: Format,
    pub guards: &'s [Guard],
    /// The values that variables of the comprehension must have, so that its head is the row.
    pub wanted: &'s Scope,
    /// How many passing bindings are looked for.
    pub most: usize,
}

impl Search<'_, '_> {
    /// From what is in scope around the comprehension.
    pub fn run(&mut self, scope: &Scope) -> Bindings {
        let mut found = Bindings::default();
        let mut tries = MOST_TRIES;
        self.go_on(&mut Trail { scope: scope.clone(), passed: Vec::new(), stop: Stop::Certain }, &mut tries, &mut found);
        found
    }

    fn go_on(&mut self, trail: &mut Trail, tries: &mut usize, found: &mut Bindings) {
        let Some(guard) = self.guards.get(trail.passed.len()) else { return passes(trail, self.most, found) };
        let ways = match self.ways(guard, &trail.scope) {
            Ok(ways) if ways.is_empty() => return stops(trail, self.stop(guard, &trail.scope), found),
            Ok(ways) => ways,
            Err(why) => return stops(trail, Stop::NotKnown(why), found),
        };
        let before = trail.scope.clone();
        for (drawn, scope) in ways {
            found.given_up |= *tries == 0;
            if found.given_up || found.more {
                return;
            }
            *tries -= 1;
            trail.passed.push(Passed { known: before.0.len(), drawn });
            trail.scope = scope;
            self.go_on(trail, tries, found);
            trail.passed.pop();
        }
        trail.scope = before;
    }

    /// Each way past a guard: the row drawn, and what is then in scope.
    fn ways(&mut self, guard: &Guard, scope: &Scope) -> Result<Vec<(Option<Row>, Scope)>, NotKnown> {
        let names = self.sets.names();
        let passes = match &guard.kind {
            GuardKind::Draw(pattern, from) => return self.drawn(pattern, from, scope),
            GuardKind::Absent(absent, from) => match row(names, scope, absent) {
                Some(absent) => !self.sets.have(from, scope, &absent)?,
                None => false,
            },
            GuardKind::Same(left, right) => value(names, scope, left) == value(names, scope, right),
            GuardKind::Different(left, right) => value(names, scope, left) != value(names, scope, right),
        };
        Ok(if passes { vec![(None, scope.clone())] } else { Vec::new() })
    }

    /// Of a guard that does not pass: a lower set that is drawn from may yet gain a row, an upper one lose the row that is to be absent.
    fn stop(&mut self, guard: &Guard, scope: &Scope) -> Stop {
        let undecided = match &guard.kind {
            GuardKind::Draw(_, from) => self.sets.verdict(from, scope) == Ok(Verdict::Lower),
            GuardKind::Absent(_, from) => self.sets.verdict(from, scope) == Ok(Verdict::Upper),
            GuardKind::Same(..) | GuardKind::Different(..) => false,
        };
        if undecided {
            Stop::Undecided
        } else {
            Stop::Certain
        }
    }

    fn drawn(&mut self, pattern: &WrittenRow, from: &Expression, scope: &Scope) -> Result<Vec<(Option<Row>, Scope)>, NotKnown> {
        let rows = self.sets.rows(from, scope)?;
        Ok(rows.into_iter().filter_map(|row| Some((Some(row), self.matched(pattern, scope, &row)?))).collect())
    }

    /// What is in scope after a pattern has matched a row.
    fn matched(&self, pattern: &WrittenRow, scope: &Scope, row: &Row) -> Option<Scope> {
        let (width, atoms) = (pattern.terms.len(), row.atoms());
        let fits = match self.format {
            Format::EqualWidths => atoms.len() == width,
            Format::WiderRows => atoms.len() >= width,
        };
        if !fits {
            return None;
        }
        let mut scope = scope.clone();
        for (term, &atom) in pattern.terms.iter().zip(atoms) {
            match (value(self.sets.names(), &scope, term), &term.kind) {
                (Some(known), _) if known != atom => return None,
                (Some(_), _) | (None, TermKind::Any) => {}
                (None, TermKind::Named(name)) if self.wanted.get(name).is_some_and(|wanted| wanted != atom) => return None,
                (None, TermKind::Named(name)) => scope.bind(name, atom),
                (None, TermKind::Number(_) | TermKind::Key(_)) => return None,
            }
        }
        Some(scope)
    }
}

fn passes(trail: &Trail, most: usize, found: &mut Bindings) {
    if found.passing.len() < most {
        found.passing.push(trail.clone());
    } else {
        found.more = true;
    }
}

fn stops(trail: &Trail, stop: Stop, found: &mut Bindings) {
    let trail = Trail { stop, ..trail.clone() };
    found.stopped += 1;
    let further = |than: &Option<Trail>| than.as_ref().is_none_or(|than| trail.passed.len() > than.passed.len());
    if trail.stop == Stop::Undecided && further(&found.undecided) {
        found.undecided = Some(trail.clone());
    }
    if further(&found.furthest) {
        found.furthest = Some(trail);
    }
}
