//! Rows that are looked for: one row, or all that a pattern matches of which not all is known; and why an expression has none of those.

use super::explain::Explainer;
use super::fill::{plain, value, Scope};
use super::lists::{no_key, Origin};
use super::outline::Outline;
use txindurbe::{Atom, Format, Row};
use txindurbe_language::syntax::{Expression, ExpressionKind, Row as WrittenRow};

/// The rows looked for.
pub struct Sought {
    /// At each place the atom that must stand there, if that is known.
    pub atoms: Vec<Option<Atom>>,
    /// Whether wider rows that begin so are looked for too.
    pub wider: bool,
    pub shown: String,
}

impl Sought {
    /// Whether so many atoms can be it.
    pub fn has_width(&self, width: usize) -> bool {
        width == self.atoms.len() || self.wider && width > self.atoms.len()
    }

    fn is(&self, row: &Row) -> bool {
        self.has_width(row.atoms().len()) && self.atoms.iter().zip(row.atoms()).all(|(sought, atom)| sought.is_none_or(|sought| sought == *atom))
    }
}

impl Explainer<'_> {
    pub(super) fn one(&self, row: &Row) -> Sought {
        Sought { atoms: row.atoms().iter().copied().map(Some).collect(), wider: false, shown: self.show_row(row) }
    }

    pub(super) fn matching(&self, pattern: &WrittenRow, known: &Scope) -> Sought {
        let atoms = pattern.terms.iter().map(|term| value(self.sets.names(), known, term)).collect();
        Sought { atoms, wider: self.format == Format::WiderRows, shown: self.show_written(pattern, known) }
    }

    /// Of an expression that has no such row.
    pub(super) fn lacks(&mut self, expression: &Expression, scope: &Scope, sought: &Sought) -> Vec<Outline> {
        if !self.may_go_on() {
            return vec![Outline::line("..")];
        }
        // It has rows with these atoms, and a variable that stands twice in the pattern keeps them out.
        if self.has_any(expression, scope, sought) {
            return vec![Outline::line(format!("no row that it has is {}", sought.shown))];
        }
        match &expression.kind {
            ExpressionKind::Rows(_) | ExpressionKind::AllBut(_) => vec![Outline::line(format!("no row {} is written", sought.shown))],
            ExpressionKind::Defined(name) => self.definition_lacks(&name.text, sought),
            ExpressionKind::List { issuer, list } => match self.origin(issuer, list, scope) {
                Some(Origin::NoKey(atom, polarity)) => vec![no_key(atom, polarity)],
                Some(Origin::Own(_, own)) => self.definition_lacks(&own, sought),
                Some(Origin::Certificates(name)) => vec![self.not_held(name, &format!("a row {}", sought.shown))],
                None => Vec::new(),
            },
            ExpressionKind::Vetted { issuer, list, by } => match self.vetting(issuer, by, scope) {
                Ok(vetting) => {
                    let unvetted = plain(ExpressionKind::List { issuer: issuer.clone(), list: list.clone() });
                    [vetting].into_iter().chain(self.lacks(&unvetted, scope, sought)).collect()
                }
                Err(stopped) => stopped,
            },
            ExpressionKind::Union(left, right) => vec![self.side_lacks(left, scope, sought), self.side_lacks(right, scope, sought)],
            ExpressionKind::Minus(left, right) => {
                let (shown, taking) = (self.sets.show(left, scope), self.sets.show(right, scope));
                match self.has_any(left, scope, sought) {
                    true => vec![Outline::line(format!("what {shown} has of these, {taking} takes away"))],
                    false => vec![self.side_lacks(left, scope, sought)],
                }
            }
            ExpressionKind::Each { head, guards } => self.comprehension(head, guards, scope, sought),
        }
    }

    fn has_any(&mut self, expression: &Expression, scope: &Scope, sought: &Sought) -> bool {
        self.sets.rows(expression, scope).is_ok_and(|rows| rows.iter().any(|row| sought.is(row)))
    }

    fn side_lacks(&mut self, side: &Expression, scope: &Scope, sought: &Sought) -> Outline {
        let text = format!("no row {} is known to be in {}", sought.shown, self.sets.show(side, scope));
        Outline::new(text, self.lacks(side, scope, sought))
    }

    fn definition_lacks(&mut self, name: &str, sought: &Sought) -> Vec<Outline> {
        match self.expression_of(name) {
            Some(expression) => self.lacks(&expression, &Scope::default(), sought),
            None => Vec::new(),
        }
    }
}
