//! Why a comprehension makes a row, or does not: the bindings that pass all guards, or the one that gets furthest, guard by guard.

use super::bindings::{Bindings, Search, Stop, Trail};
use super::explain::Explainer;
use super::fill::{row, value, Scope};
use super::lists::guard;
use super::outline::Outline;
use super::sought::Sought;
use super::standing::Standing;
use txindurbe::{Format, Row};
use txindurbe_language::syntax::{Expression, Guard, GuardKind, Row as WrittenRow, Term, TermKind};

impl Explainer<'_> {
    pub(super) fn comprehension(&mut self, head: &WrittenRow, guards: &[Guard], scope: &Scope, sought: &Sought) -> Vec<Outline> {
        let wanted = match self.wanted(head, scope, sought) {
            Ok(wanted) => wanted,
            Err(why) => return vec![Outline::line(why)],
        };
        let most = self.bindings_left.max(1);
        let found = Search { sets: &mut self.sets, format: self.format, guards, wanted: &wanted, most }.run(scope);
        self.bindings_left = self.bindings_left.saturating_sub(found.passing.len().max(1));
        let shown = shown(&found);
        let mut outlines: Vec<Outline> = shown.iter().map(|trail| self.binding(guards, scope, &wanted, trail)).collect();
        outlines.extend(not_shown(&found, shown.len()).map(Outline::line));
        outlines
    }

    /// The values that the comprehension's own variables must have, so that the head is such a row; or why there are none.
    fn wanted(&self, head: &WrittenRow, scope: &Scope, sought: &Sought) -> Result<Scope, String> {
        let names = self.sets.names();
        let never = || format!("the head {} is never {}", self.show_written(head, scope), sought.shown);
        if !sought.has_width(head.terms.len()) {
            return Err(never());
        }
        let mut wanted = Scope::default();
        for (term, atom) in head.terms.iter().zip(&sought.atoms) {
            let Some(atom) = *atom else { continue };
            let known = value(names, scope, term).or_else(|| value(names, &wanted, term));
            match (known, &term.kind) {
                (Some(known), _) if known != atom => return Err(never()),
                (None, TermKind::Named(name)) => wanted.bind(name, atom),
                _ => {}
            }
        }
        Ok(wanted)
    }

    /// The guards passed, the one that stops it, those that are then not reached.
    fn binding(&mut self, guards: &[Guard], outer: &Scope, wanted: &Scope, trail: &Trail) -> Outline {
        let mut outlines = Vec::new();
        for (place, guard) in guards.iter().enumerate() {
            let passed = trail.passed.get(place);
            let scope = trail.scope.first(passed.map_or(trail.scope.0.len(), |passed| passed.known));
            outlines.push(match passed {
                Some(passed) => self.passed(guard, &scope, &trail.scope, passed.drawn),
                None if place == trail.passed.len() => self.stopped(guard, &scope, wanted, &trail.stop),
                None => Outline::line(format!("not reached {}", self.show_guard(guard, &scope, wanted))),
            });
        }
        Outline::new(self.bound(outer, wanted, trail), outlines)
    }

    /// `with o = alma, x = 7`
    fn bound(&self, outer: &Scope, wanted: &Scope, trail: &Trail) -> String {
        let drawn = trail.scope.0[outer.0.len()..].iter();
        let all = drawn.chain(wanted.0.iter().filter(|(name, _)| trail.scope.get(name).is_none()));
        let values: Vec<String> = all.map(|(name, atom)| format!("{name} = {}", self.sets.names().show_atom(*atom))).collect();
        match values.is_empty() {
            true => "without variables".into(),
            false => format!("with {}", values.join(", ")),
        }
    }

    fn passed(&mut self, written: &Guard, scope: &Scope, after: &Scope, drawn: Option<Row>) -> Outline {
        let mut text = self.show_guard(written, scope, after);
        let (standing, inside) = match (&written.kind, drawn) {
            (GuardKind::Draw(pattern, from), Some(drawn)) => {
                if drawn.atoms().len() > pattern.terms.len() {
                    text += &format!(", by {}", self.show_row(&drawn));
                }
                let standing = self.sets.standing(from, scope, &drawn).unwrap_or(Standing::certain(true));
                (standing, self.reasons(from, scope, &drawn))
            }
            (GuardKind::Absent(absent, from), _) => self.absent(absent, from, scope),
            _ => (Standing::certain(true), Vec::new()),
        };
        Outline::new(guard(standing, &text), inside)
    }

    fn stopped(&mut self, written: &Guard, scope: &Scope, wanted: &Scope, stop: &Stop) -> Outline {
        let text = self.show_guard(written, scope, wanted);
        let inside = match (&written.kind, stop) {
            (_, Stop::NotKnown(why)) => vec![Outline::line(format!("it cannot be asked by itself: {why}"))],
            (GuardKind::Draw(pattern, from), _) => self.not_drawn(pattern, from, scope, wanted),
            (GuardKind::Absent(absent, from), _) => self.absent(absent, from, scope).1,
            _ => Vec::new(),
        };
        Outline::new(guard(Standing { holds: false, certain: *stop == Stop::Certain }, &text), inside)
    }

    fn absent(&mut self, absent: &WrittenRow, from: &Expression, scope: &Scope) -> (Standing, Vec<Outline>) {
        let Some(row) = row(self.sets.names(), scope, absent) else { return (Standing::certain(false), Vec::new()) };
        let standing = self.sets.standing(from, scope, &row).map_or(Standing::certain(false), Standing::turned);
        (standing, self.reasons(from, scope, &row))
    }

    /// No row of the operand matches.
    fn not_drawn(&mut self, pattern: &WrittenRow, from: &Expression, scope: &Scope, wanted: &Scope) -> Vec<Outline> {
        let both = joined(scope, wanted);
        let Some(row) = row(self.sets.names(), &both, pattern) else { return self.lacks(from, scope, &self.matching(pattern, &both)) };
        let mut outlines = self.reasons(from, scope, &row);
        if self.format == Format::WiderRows && row.atoms().len() < txindurbe::sizes::MOST_WIDTH {
            outlines.push(Outline::line("in format 2 a wider row that begins so would do as well"));
        }
        outlines
    }

    /// With the values in scope; outside of operands also those that variables are to have or come to have.
    fn show_guard(&self, guard: &Guard, scope: &Scope, more: &Scope) -> String {
        let all = joined(scope, more);
        match &guard.kind {
            GuardKind::Draw(pattern, from) => format!("{} in {}", self.show_written(pattern, &all), self.sets.show(from, scope)),
            GuardKind::Absent(row, from) => format!("{} not in {}", self.show_written(row, &all), self.sets.show(from, scope)),
            GuardKind::Same(left, right) => format!("{} = {}", self.show_term(left, &all), self.show_term(right, &all)),
            GuardKind::Different(left, right) => format!("{} != {}", self.show_term(left, &all), self.show_term(right, &all)),
        }
    }

    pub(super) fn show_written(&self, row: &WrittenRow, scope: &Scope) -> String {
        let terms: Vec<String> = row.terms.iter().map(|term| self.show_term(term, scope)).collect();
        format!("({})", terms.join(", "))
    }

    fn show_term(&self, term: &Term, scope: &Scope) -> String {
        match (value(self.sets.names(), scope, term), &term.kind) {
            (Some(atom), _) => self.sets.names().show_atom(atom),
            (None, TermKind::Named(name)) => name.clone(),
            (None, _) => "_".into(),
        }
    }
}

/// The bindings that pass; if none does, the one that gets furthest, and where that fails for certain, the furthest that is undecided.
fn shown(found: &Bindings) -> Vec<&Trail> {
    let certain = found.furthest.as_ref().is_some_and(|furthest| furthest.stop != Stop::Undecided);
    match &found.passing[..] {
        [] if certain => found.furthest.iter().chain(&found.undecided).collect(),
        [] => found.undecided.iter().collect(),
        passing => passing.iter().collect(),
    }
}

/// What is said of the bindings that are not.
fn not_shown(found: &Bindings, shown: usize) -> Option<String> {
    let others = found.stopped.saturating_sub(shown);
    match (found, others) {
        (Bindings { given_up: true, .. }, _) => Some("there are more bindings than are tried here".into()),
        (Bindings { more: true, .. }, _) => Some("more bindings pass".into()),
        (Bindings { passing, .. }, 1) if passing.is_empty() => Some("another binding does not pass either".into()),
        (Bindings { passing, .. }, 2..) if passing.is_empty() => Some(format!("{others} other bindings do not pass either")),
        _ => None,
    }
}

fn joined(scope: &Scope, wanted: &Scope) -> Scope {
    Scope(scope.0.iter().chain(&wanted.0).cloned().collect())
}
