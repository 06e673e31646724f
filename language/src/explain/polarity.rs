//! Which polarities an expression has, whether it is open, and what in it is at fault: refusals 6 and 7.

use crate::names::opposite;
use crate::program::Program;
use crate::syntax::{Polarity, Span};
use crate::tree::{GuardKind, Kind, List, Node, Origin, Row};

/// What an expression is used for where it stands.
#[derive(Clone, Copy, Debug)]
pub(crate) enum Used<'a> {
    /// It is the definition or query, or a part that is joined to the rest.
    Joined,
    /// Drawn from, by this pattern.
    Drawn(&'a Row),
    /// Tested by `not in`, for this row.
    Absent(&'a Row),
    /// Right of `minus`, to be taken from this.
    TakenFrom(&'a Node),
}

/// A list or definition that does not have the polarity that is asked of it where it stands.
#[derive(Clone, Copy, Debug)]
pub(crate) struct Fault<'a> {
    pub leaf: &'a Node,
    pub needed: Polarity,
    pub used: Used<'a>,
    /// Whether the whole loses what it gains.
    pub turned: bool,
    /// Where its list is right, but not the definition that it is vetted by, which must be declared −: that, and where it is written.
    pub vetted_by: Option<(usize, Span)>,
}

/// The first fault in the order of the words; none if the expression has the polarity.
pub(crate) fn fault<'a>(program: &Program, node: &'a Node, needed: Polarity) -> Option<Fault<'a>> {
    Asking { program, of_whole: needed }.fault(node, needed, Used::Joined)
}

struct Asking<'a> {
    program: &'a Program,
    of_whole: Polarity,
}

impl Asking<'_> {
    fn fault<'a>(&self, node: &'a Node, needed: Polarity, used: Used<'a>) -> Option<Fault<'a>> {
        let turned = needed != self.of_whole;
        let unless = |kept: bool, vetted_by| (!kept).then_some(Fault { leaf: node, needed, used, turned, vetted_by });
        match &node.kind {
            Kind::Literal { .. } => None,
            Kind::Defined(place) => unless(self.program.definitions[*place].polarity == needed, None),
            Kind::List(List { polarity, vetted_by: None, .. }) => unless(*polarity == needed, None),
            Kind::List(List { polarity, vetted_by: Some((by, span)), .. }) => {
                unless(*polarity == needed, None).or_else(|| unless(self.program.definitions[*by].polarity == Polarity::Minus, Some((*by, *span))))
            }
            Kind::Union(left, right) => self.fault(left, needed, used).or_else(|| self.fault(right, needed, used)),
            Kind::Minus(left, right) => {
                let from_right = || self.fault(right, opposite(needed), Used::TakenFrom(left));
                self.fault(left, needed, used).or_else(from_right)
            }
            Kind::Each { guards, .. } => guards.iter().find_map(|guard| match &guard.kind {
                GuardKind::Draw(pattern, from) => self.fault(from, needed, Used::Drawn(pattern)),
                GuardKind::Absent(row, from) => self.fault(from, opposite(needed), Used::Absent(row)),
                GuardKind::Same(..) | GuardKind::Different(..) => None,
            }),
        }
    }
}

/// What makes an expression open: a leaf of it, and where that is a definition, what makes that one open, and so on.
pub(crate) fn opened_by<'a>(program: &'a Program, node: &'a Node) -> Option<Vec<&'a Node>> {
    let by_definition = |place: usize| {
        // Definitions use only those before them, so this ends.
        let mut chain = vec![node];
        chain.extend(opened_by(program, &program.definitions[place].whole.expression)?);
        Some(chain)
    };
    match &node.kind {
        Kind::Literal { all_but, .. } => all_but.then(|| vec![node]),
        Kind::Defined(place) => by_definition(*place),
        Kind::List(List { origin: Origin::Own(found), .. }) => by_definition((*found)?),
        Kind::List(list) => (list.polarity == Polarity::Minus).then(|| vec![node]),
        Kind::Union(left, right) => opened_by(program, left).or_else(|| opened_by(program, right)),
        Kind::Minus(left, _) => opened_by(program, left),
        Kind::Each { .. } => None,
    }
}

/// A draw from an open expression: its pattern, and what makes the expression open.
pub(crate) struct OpenDraw<'a> {
    pub pattern: &'a Row,
    pub opened_by: Vec<&'a Node>,
}

/// The first one, an outer one before those inside it.
pub(crate) fn open_draw<'a>(program: &'a Program, node: &'a Node) -> Option<OpenDraw<'a>> {
    let Kind::Each { guards, .. } = &node.kind else {
        return node.inside().into_iter().find_map(|inner| open_draw(program, inner));
    };
    guards.iter().find_map(|guard| match &guard.kind {
        GuardKind::Draw(pattern, from) => match opened_by(program, from) {
            Some(opened_by) => Some(OpenDraw { pattern, opened_by }),
            None => open_draw(program, from),
        },
        GuardKind::Absent(_, from) => open_draw(program, from),
        GuardKind::Same(..) | GuardKind::Different(..) => None,
    })
}
