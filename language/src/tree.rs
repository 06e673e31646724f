//! A definition or query with its names resolved. What is explained, warned of and handed to the binding is read off this.

use crate::syntax::{Polarity, Span};
use txindurbe::Atom;

/// A whole definition or query.
#[derive(Clone, PartialEq, Eq, Debug)]
pub(crate) struct Whole {
    pub expression: Node,
    /// Each variable of it, in the order in which they are made.
    pub variables: Vec<Variable>,
}

#[derive(Clone, PartialEq, Eq, Debug)]
pub(crate) struct Variable {
    /// None for `_`.
    pub text: Option<String>,
    /// Where it is made.
    pub span: Span,
    /// The engine's number of it: how many are in scope when it is made.
    pub number: usize,
    pub used: bool,
}

#[derive(Clone, PartialEq, Eq, Debug)]
pub(crate) struct Node {
    pub kind: Kind,
    pub span: Span,
}

#[derive(Clone, PartialEq, Eq, Debug)]
pub(crate) enum Kind {
    /// Codes 1 and 2.
    Literal { rows: Vec<Row>, all_but: bool },
    /// Code 3: a definition, by its place in the file.
    Defined(usize),
    /// Codes 4 and 8.
    List(List),
    /// Code 5.
    Union(Box<Node>, Box<Node>),
    /// Code 6.
    Minus(Box<Node>, Box<Node>),
    /// Code 7.
    Each { guards: Vec<Guard>, head: Row },
}

#[derive(Clone, PartialEq, Eq, Debug)]
pub(crate) struct List {
    pub issuer: Term,
    pub number: u16,
    pub polarity: Polarity,
    /// What stands behind the dot.
    pub span: Span,
    /// As it is written: `o.withdrawn`.
    pub text: String,
    /// The declaration that it is written by, among those of the file.
    pub declaration: Option<usize>,
    pub origin: Origin,
    /// The definition behind `vetted by`, and where it is written.
    pub vetted_by: Option<(usize, Span)>,
}

/// Where a list's rows come from.
#[derive(Clone, Copy, PartialEq, Eq, Debug)]
pub(crate) enum Origin {
    Certificates,
    /// The issuer is our key: the definition of that number and sign, if the file has one.
    Own(Option<usize>),
}

#[derive(Clone, PartialEq, Eq, Debug)]
pub(crate) struct Row {
    pub terms: Vec<Term>,
    pub span: Span,
}

#[derive(Clone, Copy, PartialEq, Eq, Debug)]
pub(crate) struct Term {
    pub kind: TermKind,
    pub span: Span,
}

#[derive(Clone, Copy, PartialEq, Eq, Debug)]
pub(crate) enum TermKind {
    Atom(Atom),
    /// By its place in [`Whole::variables`].
    Variable(usize),
    /// Made here, in a draw's pattern.
    New(usize),
}

#[derive(Clone, PartialEq, Eq, Debug)]
pub(crate) struct Guard {
    pub kind: GuardKind,
    pub span: Span,
}

#[derive(Clone, PartialEq, Eq, Debug)]
pub(crate) enum GuardKind {
    Draw(Row, Node),
    Absent(Row, Node),
    Same(Term, Term),
    Different(Term, Term),
}

impl Node {
    /// The expressions directly inside, in the order of the words.
    pub fn inside(&self) -> Vec<&Node> {
        match &self.kind {
            Kind::Literal { .. } | Kind::Defined(_) | Kind::List(_) => Vec::new(),
            Kind::Union(left, right) | Kind::Minus(left, right) => vec![left, right],
            Kind::Each { guards, .. } => guards.iter().filter_map(Guard::operand).collect(),
        }
    }

    /// It and all expressions inside it, each before those that it holds.
    pub fn all(&self) -> Vec<&Node> {
        let mut found = vec![self];
        for node in self.inside() {
            found.extend(node.all());
        }
        found
    }

    /// Those of a comprehension.
    pub fn guards(&self) -> &[Guard] {
        match &self.kind {
            Kind::Each { guards, .. } => guards,
            _ => &[],
        }
    }

    /// The definition that stands here, by its name or as an own name.
    pub fn definition(&self) -> Option<usize> {
        match &self.kind {
            Kind::Defined(place) => Some(*place),
            Kind::List(List { origin: Origin::Own(found), .. }) => *found,
            _ => None,
        }
    }
}

impl Guard {
    /// What a draw draws from, what an absent guard tests.
    pub fn operand(&self) -> Option<&Node> {
        match &self.kind {
            GuardKind::Draw(_, node) | GuardKind::Absent(_, node) => Some(node),
            GuardKind::Same(..) | GuardKind::Different(..) => None,
        }
    }
}
