//! Variables and their values: looked up, and put into an expression in their place.
//!
//! No variable in scope is hidden by another one: a name that is in scope is a use of it, also inside an inner comprehension.

use txindurbe::{Atom, Key, Row};
use txindurbe_language::syntax::{Expression, ExpressionKind, Guard, GuardKind, Identifier, List, Row as WrittenRow, Term, TermKind};
use txindurbe_language::Names;

/// The variables in scope with their values, in the order in which they were bound.
#[derive(Clone, PartialEq, Eq, Debug, Default)]
pub struct Scope(pub Vec<(String, Atom)>);

impl Scope {
    pub fn get(&self, name: &str) -> Option<Atom> {
        self.0.iter().find(|(bound, _)| bound == name).map(|(_, atom)| *atom)
    }

    pub fn bind(&mut self, name: &str, atom: Atom) {
        self.0.push((name.into(), atom));
    }

    /// As it was when it had so many.
    pub fn first(&self, count: usize) -> Scope {
        Scope(self.0[..count].to_vec())
    }
}

/// What a term stands for; none for a variable that is not in scope.
pub fn value(names: &Names, scope: &Scope, term: &Term) -> Option<Atom> {
    match &term.kind {
        TermKind::Number(number) => Some(Atom::from(*number)),
        TermKind::Key(number) => Some(Key::new(*number).into()),
        TermKind::Named(name) => names.key(name).map(Atom::from).or_else(|| scope.get(name)),
        TermKind::Any => None,
    }
}

/// The row that a row of terms stands for, if all are known.
pub fn row(names: &Names, scope: &Scope, row: &WrittenRow) -> Option<Row> {
    let atoms: Vec<Atom> = row.terms.iter().map(|term| value(names, scope, term)).collect::<Option<_>>()?;
    Row::try_from(atoms.as_slice()).ok()
}

/// Whether an issuer is written as a variable, whose value is then never read as our key.
pub fn is_variable(names: &Names, term: &Term) -> bool {
    matches!(&term.kind, TermKind::Named(name) if names.key(name).is_none())
}

/// A list whose issuer is a variable of this value, and the definition that it is vetted by.
pub struct ListOf<'a> {
    pub issuer: Atom,
    pub list: &'a List,
    pub by: Option<&'a Identifier>,
}

/// An expression that stands in no text.
pub fn plain(kind: ExpressionKind) -> Expression {
    Expression { kind, span: Default::default(), comments: Default::default(), comments_at_end: Vec::new() }
}

/// Puts values in the place of variables.
pub struct Fill<'a> {
    pub names: &'a Names,
    pub scope: &'a Scope,
    /// What stands for such a list, if not the same with the issuer's value.
    pub instead: &'a mut dyn FnMut(ListOf) -> Option<ExpressionKind>,
}

impl Fill<'_> {
    pub fn expression(&mut self, expression: &Expression) -> Expression {
        let kind = match &expression.kind {
            ExpressionKind::Rows(rows) => ExpressionKind::Rows(self.rows(rows)),
            ExpressionKind::AllBut(rows) => ExpressionKind::AllBut(self.rows(rows)),
            ExpressionKind::Defined(name) => ExpressionKind::Defined(name.clone()),
            ExpressionKind::List { issuer, list } => self.list(issuer, list, None),
            ExpressionKind::Vetted { issuer, list, by } => self.list(issuer, list, Some(by)),
            ExpressionKind::Union(left, right) => ExpressionKind::Union(self.inner(left), self.inner(right)),
            ExpressionKind::Minus(left, right) => ExpressionKind::Minus(self.inner(left), self.inner(right)),
            ExpressionKind::Each { head, guards } => {
                let guards = guards.iter().map(|guard| self.guard(guard)).collect();
                ExpressionKind::Each { head: self.row(head), guards }
            }
        };
        plain(kind)
    }

    fn inner(&mut self, expression: &Expression) -> Box<Expression> {
        Box::new(self.expression(expression))
    }

    fn list(&mut self, issuer: &Term, list: &List, by: Option<&Identifier>) -> ExpressionKind {
        let bound = value(self.names, self.scope, issuer).filter(|_| is_variable(self.names, issuer));
        if let Some(instead) = bound.and_then(|issuer| (self.instead)(ListOf { issuer, list, by })) {
            return instead;
        }
        let (issuer, list) = (self.term(issuer), list.clone());
        match by {
            Some(by) => ExpressionKind::Vetted { issuer, list, by: by.clone() },
            None => ExpressionKind::List { issuer, list },
        }
    }

    fn guard(&mut self, guard: &Guard) -> Guard {
        let kind = match &guard.kind {
            GuardKind::Draw(pattern, from) => GuardKind::Draw(self.row(pattern), self.expression(from)),
            GuardKind::Absent(row, from) => GuardKind::Absent(self.row(row), self.expression(from)),
            GuardKind::Same(left, right) => GuardKind::Same(self.term(left), self.term(right)),
            GuardKind::Different(left, right) => GuardKind::Different(self.term(left), self.term(right)),
        };
        Guard { kind, span: guard.span, comments: Default::default() }
    }

    fn rows(&self, rows: &[WrittenRow]) -> Vec<WrittenRow> {
        rows.iter().map(|row| self.row(row)).collect()
    }

    pub fn row(&self, row: &WrittenRow) -> WrittenRow {
        WrittenRow { terms: row.terms.iter().map(|term| self.term(term)).collect(), span: row.span, comments: Default::default() }
    }

    pub fn term(&self, term: &Term) -> Term {
        match value(self.names, self.scope, term) {
            Some(atom) => written(self.names, atom),
            None => term.clone(),
        }
    }
}

/// An atom as it is written, by its name where it has one.
pub fn written(names: &Names, atom: Atom) -> Term {
    let shown = names.show_atom(atom);
    let kind = match atom.key() {
        None => TermKind::Number(atom.word()),
        Some(key) if shown == key.to_string() => TermKind::Key(key.number()),
        Some(_) => TermKind::Named(shown),
    };
    Term { kind, span: Default::default() }
}

/// A row of atoms as it is written.
pub fn written_row(names: &Names, row: &Row) -> WrittenRow {
    WrittenRow { terms: row.atoms().iter().map(|&atom| written(names, atom)).collect(), span: Default::default(), comments: Default::default() }
}

/// Each list vetted by a definition, as rewriting an external policy leaves it.
pub fn vetted(expression: &Expression, by: &Identifier) -> Expression {
    let inner = |expression: &Expression| Box::new(vetted(expression, by));
    let kind = match &expression.kind {
        ExpressionKind::List { issuer, list } => ExpressionKind::Vetted { issuer: issuer.clone(), list: list.clone(), by: by.clone() },
        ExpressionKind::Union(left, right) => ExpressionKind::Union(inner(left), inner(right)),
        ExpressionKind::Minus(left, right) => ExpressionKind::Minus(inner(left), inner(right)),
        ExpressionKind::Each { head, guards } => {
            let guards = guards.iter().map(|guard| vetted_guard(guard, by)).collect();
            ExpressionKind::Each { head: head.clone(), guards }
        }
        other => other.clone(),
    };
    Expression { kind, ..expression.clone() }
}

fn vetted_guard(guard: &Guard, by: &Identifier) -> Guard {
    let kind = match &guard.kind {
        GuardKind::Draw(pattern, from) => GuardKind::Draw(pattern.clone(), vetted(from, by)),
        GuardKind::Absent(row, from) => GuardKind::Absent(row.clone(), vetted(from, by)),
        other => other.clone(),
    };
    Guard { kind, ..guard.clone() }
}
