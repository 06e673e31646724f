//! Why a row is in the set that an expression reads as, or is not. The engine says whether; this says why.

use super::evidence::Evidence;
use super::fill::{vetted, Scope};
use super::outline::Outline;
use super::sets::Sets;
use crate::asking::Asking;
use std::collections::{HashMap, HashSet};
use txindurbe::{Format, Minute, Polarity, Row, Verdict};
use txindurbe_language::syntax::{Expression, ExpressionKind, Identifier, Row as WrittenRow};
use txindurbe_language::Compiled;

/// How many bindings are shown in all; of each comprehension at least one is.
const MOST_BINDINGS: usize = 20;

/// How many expressions are explained, one inside the other or not.
const MOST_EXPLAINED: usize = 500;

/// So many rows that are written are read at a glance.
const PLAIN_TO_SEE: usize = 8;

pub struct Explainer<'a> {
    pub(super) sets: Sets<'a>,
    /// As the engine uses them, by their names.
    definitions: HashMap<String, Expression>,
    /// The names of the definitions, by their numbers.
    pub(super) own: HashMap<(u16, Polarity), String>,
    pub(super) format: Format,
    pub(super) minute: Minute,
    /// What a certificate that is not held would do.
    pub(super) would: &'static str,
    pub(super) bindings_left: usize,
    left: usize,
    /// The definitions and rows that were explained.
    explained: HashSet<(String, Row)>,
}

impl<'a> Explainer<'a> {
    pub fn new(asking: &'a Asking, evidence: Evidence<'a>) -> Explainer<'a> {
        let compiled = &asking.loaded.compiled;
        let own = compiled.definitions().map(|definition| ((definition.number, definition.polarity), definition.identifier.to_string()));
        Explainer {
            sets: Sets::new(asking, evidence),
            definitions: definitions(compiled),
            own: own.collect(),
            format: compiled.format(),
            minute: asking.minute,
            would: if asking.asked.verdict == Verdict::Upper { "would keep it out" } else { "needed" },
            bindings_left: MOST_BINDINGS,
            left: MOST_EXPLAINED,
            explained: HashSet::new(),
        }
    }

    /// How a row stands to an expression, and why.
    pub fn row(&mut self, expression: &Expression, scope: &Scope, row: &Row, after: &str) -> Outline {
        let shown = self.sets.show(expression, scope);
        match self.sets.standing(expression, scope, row) {
            Ok(standing) => {
                let text = format!("{} {} {shown}{after}", self.show_row(row), standing.is_in());
                Outline::new(text, self.reasons(expression, scope, row))
            }
            Err(why) => Outline::line(format!("{shown} cannot be asked by itself: {why}")),
        }
    }

    pub(super) fn reasons(&mut self, expression: &Expression, scope: &Scope, row: &Row) -> Vec<Outline> {
        if !self.may_go_on() {
            return vec![Outline::line("..")];
        }
        match &expression.kind {
            ExpressionKind::Rows(rows) => self.literal(rows, scope, row, "written").into_iter().collect(),
            ExpressionKind::AllBut(rows) => self.literal(rows, scope, row, "left out").into_iter().collect(),
            ExpressionKind::Defined(name) => self.definition(&name.text, row),
            ExpressionKind::List { issuer, list } => self.list(issuer, list, scope, row),
            ExpressionKind::Vetted { issuer, list, by } => self.vetted(issuer, list, by, scope, row),
            ExpressionKind::Union(..) => self.union(expression, scope, row),
            ExpressionKind::Minus(left, right) => self.minus(left, right, scope, row),
            ExpressionKind::Each { head, guards } => self.comprehension(head, guards, scope, &self.one(row)),
        }
    }

    /// Until so much is explained that nobody reads it.
    pub(super) fn may_go_on(&mut self) -> bool {
        let may = self.left > 0;
        self.left = self.left.saturating_sub(1);
        may
    }

    /// Short ones speak for themselves.
    fn literal(&self, rows: &[WrittenRow], scope: &Scope, row: &Row, what: &str) -> Option<Outline> {
        let is = if self.sets.written(rows, scope, row) { "one" } else { "none" };
        (rows.len() > PLAIN_TO_SEE).then(|| Outline::line(format!("{} is {is} of the {} rows {what}", self.show_row(row), rows.len())))
    }

    pub(super) fn definition(&mut self, name: &str, row: &Row) -> Vec<Outline> {
        if !self.explained.insert((name.to_string(), *row)) {
            return vec![Outline::line("as above")];
        }
        match self.expression_of(name) {
            Some(expression) => self.reasons(&expression, &Scope::default(), row),
            None => Vec::new(),
        }
    }

    /// That of a definition.
    pub(super) fn expression_of(&self, name: &str) -> Option<Expression> {
        self.definitions.get(name).cloned()
    }

    /// The sides that carry the row; all of them if none does.
    fn union(&mut self, expression: &Expression, scope: &Scope, row: &Row) -> Vec<Outline> {
        let mut sides = Vec::new();
        flatten(expression, &mut sides);
        let carry: Vec<bool> = sides.iter().map(|side| self.sets.have(side, scope, row) == Ok(true)).collect();
        let none = !carry.contains(&true);
        let shown = sides.into_iter().zip(carry).filter(|(_, carries)| none || *carries);
        shown.map(|(side, _)| self.row(side, scope, row, "")).collect()
    }

    fn minus(&mut self, left: &Expression, right: &Expression, scope: &Scope, row: &Row) -> Vec<Outline> {
        let (in_left, in_right) = (self.sets.have(left, scope, row), self.sets.have(right, scope, row));
        let mut sides = Vec::new();
        if in_right != Ok(true) || in_left == Ok(false) {
            sides.push(self.row(left, scope, row, ""));
        }
        if in_left != Ok(false) {
            sides.push(self.row(right, scope, row, ", which is taken away"));
        }
        sides
    }

    pub(super) fn show_row(&self, row: &Row) -> String {
        self.sets.names().show_row(row)
    }
}

/// The expressions that definitions have: those of an external policy as rewriting leaves them, every list of a later one vetted by the first.
fn definitions(compiled: &Compiled) -> HashMap<String, Expression> {
    let rewritten = compiled.policy() != compiled.written();
    let first = compiled.definitions().next().map(|first| Identifier { text: first.identifier.into(), span: Default::default() });
    let mut definitions = HashMap::new();
    for (place, definition) in compiled.definitions().enumerate() {
        let written = &definition.syntax.expression;
        let used = match &first {
            Some(first) if rewritten && place > 0 => vetted(written, first),
            _ => written.clone(),
        };
        definitions.insert(definition.identifier.to_string(), used);
    }
    definitions
}

/// `a union b union c` as a, b and c.
fn flatten<'e>(expression: &'e Expression, sides: &mut Vec<&'e Expression>) {
    match &expression.kind {
        ExpressionKind::Union(left, right) => {
            flatten(left, sides);
            flatten(right, sides);
        }
        _ => sides.push(expression),
    }
}
