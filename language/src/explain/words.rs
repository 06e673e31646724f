//! Where the words of a definition or query are written, and the first of them that breaks a rule: refusals 3, 4 and 5.
//!
//! The walks go in the order of the words: of a draw the expression before its pattern, of a comprehension the guards before the head.

use crate::program::Program;
use crate::syntax::Span;
use crate::tree::{Guard, GuardKind, Kind, List, Node, Origin, Row, Term, TermKind, Whole};
use txindurbe::sizes::{MOST_ROWS, MOST_WIDTH};
use txindurbe::Part;

pub(crate) const MOST_GUARDS: usize = 8;
pub(crate) const MOST_DRAWS: usize = 8;
pub(crate) const MOST_VARIABLES: usize = 16;
pub(crate) const MOST_DEPTH: usize = 15;

/// The place of each word. With `vetted`, of the words that rewriting an external policy leaves: each list has one more.
pub(crate) fn places(node: &Node, vetted: bool) -> Vec<Span> {
    let mut spelling = Spelling { places: Vec::new(), vetted };
    spelling.expression(node);
    spelling.places
}

struct Spelling {
    places: Vec<Span>,
    vetted: bool,
}

impl Spelling {
    fn words(&mut self, count: usize, span: Span) {
        self.places.extend(std::iter::repeat_n(span, count));
    }

    fn expression(&mut self, node: &Node) {
        match &node.kind {
            Kind::Literal { rows, .. } => {
                self.words(2, node.span);
                rows.iter().for_each(|row| self.row(row));
            }
            Kind::Defined(_) => self.words(2, node.span),
            Kind::List(list) => {
                self.words(1, node.span);
                self.term(&list.issuer);
                self.words(2, list.span);
                match list.vetted_by {
                    Some((_, span)) => self.words(1, span),
                    None if self.vetted => self.words(1, node.span),
                    None => {}
                }
            }
            Kind::Union(left, right) | Kind::Minus(left, right) => {
                self.words(1, node.span);
                self.expression(left);
                self.expression(right);
            }
            Kind::Each { guards, head } => {
                self.words(2, node.span);
                guards.iter().for_each(|guard| self.guard(guard));
                self.row(head);
            }
        }
    }

    fn guard(&mut self, guard: &Guard) {
        self.words(1, guard.span);
        match &guard.kind {
            GuardKind::Draw(pattern, from) => {
                self.expression(from);
                self.row(pattern);
            }
            GuardKind::Absent(row, from) => {
                self.row(row);
                self.expression(from);
            }
            GuardKind::Same(left, right) | GuardKind::Different(left, right) => {
                self.term(left);
                self.term(right);
            }
        }
    }

    fn row(&mut self, row: &Row) {
        self.words(1, row.span);
        row.terms.iter().for_each(|term| self.term(term));
    }

    fn term(&mut self, term: &Term) {
        self.words(2, term.span);
    }
}

/// A rule of 3, 4 or 5 that is broken, and what breaks it.
#[derive(Clone, Copy, Debug)]
pub(crate) enum Broken<'a> {
    /// The 129th row of a literal.
    Rows(&'a Row),
    /// The fifth term of a row.
    Width(&'a Term),
    /// The ninth guard of a comprehension.
    Guards(&'a Guard),
    /// The 17th variable in scope.
    Variables(&'a Term),
    /// A definition that does not stand before, and where it is used.
    NotBefore(usize, Span),
    /// An own name that no definition of the file has.
    NoOwn(&'a List),
    /// An expression at depth 16.
    Depth(&'a Node),
    /// The ninth draw.
    Draws(&'a Guard),
}

impl Broken<'_> {
    pub fn number(&self) -> u32 {
        match self {
            Broken::Rows(_) | Broken::Width(_) | Broken::Guards(_) => 3,
            Broken::Variables(_) | Broken::NotBefore(..) | Broken::NoOwn(_) => 4,
            Broken::Depth(_) | Broken::Draws(_) => 5,
        }
    }
}

/// The first one, in the order of the words.
pub(crate) fn first_broken<'a>(program: &Program, part: Part, whole: &'a Whole) -> Option<Broken<'a>> {
    let mut checking = Checking { whole, available: program.available(part), draws: 0 };
    checking.expression(&whole.expression, 1).err()
}

struct Checking<'a> {
    whole: &'a Whole,
    /// How many definitions stand before.
    available: usize,
    draws: usize,
}

type Kept<'a> = Result<(), Broken<'a>>;

impl<'a> Checking<'a> {
    fn expression(&mut self, node: &'a Node, depth: usize) -> Kept<'a> {
        if depth > MOST_DEPTH {
            return Err(Broken::Depth(node));
        }
        match &node.kind {
            Kind::Literal { rows, .. } => match rows.get(MOST_ROWS) {
                Some(row) => Err(Broken::Rows(row)),
                None => rows.iter().try_for_each(|row| self.row(row)),
            },
            Kind::Defined(place) => self.definition(*place, node.span),
            Kind::List(list) => self.list(list, node.span),
            Kind::Union(left, right) | Kind::Minus(left, right) => {
                self.expression(left, depth + 1)?;
                self.expression(right, depth + 1)
            }
            Kind::Each { guards, head } => {
                if let Some(guard) = guards.get(MOST_GUARDS) {
                    return Err(Broken::Guards(guard));
                }
                guards.iter().try_for_each(|guard| self.guard(guard, depth))?;
                self.row(head)
            }
        }
    }

    fn list(&mut self, list: &'a List, span: Span) -> Kept<'a> {
        match list.origin {
            Origin::Certificates => {}
            Origin::Own(None) => return Err(Broken::NoOwn(list)),
            Origin::Own(Some(place)) => self.definition(place, span)?,
        }
        match list.vetted_by {
            Some((place, span)) => self.definition(place, span),
            None => Ok(()),
        }
    }

    fn definition(&self, place: usize, span: Span) -> Kept<'a> {
        if place < self.available {
            Ok(())
        } else {
            Err(Broken::NotBefore(place, span))
        }
    }

    fn guard(&mut self, guard: &'a Guard, depth: usize) -> Kept<'a> {
        match &guard.kind {
            GuardKind::Draw(pattern, from) => {
                self.draws += 1;
                if self.draws > MOST_DRAWS {
                    return Err(Broken::Draws(guard));
                }
                self.expression(from, depth + 1)?;
                self.row(pattern)
            }
            GuardKind::Absent(row, from) => {
                self.row(row)?;
                self.expression(from, depth + 1)
            }
            GuardKind::Same(..) | GuardKind::Different(..) => Ok(()),
        }
    }

    /// Of a pattern too: only there are terms new.
    fn row(&self, row: &'a Row) -> Kept<'a> {
        if let Some(term) = row.terms.get(MOST_WIDTH) {
            return Err(Broken::Width(term));
        }
        let seventeenth = |term: &&Term| matches!(term.kind, TermKind::New(place) if self.whole.variables[place].number >= MOST_VARIABLES);
        row.terms.iter().find(seventeenth).map_or(Ok(()), |term| Err(Broken::Variables(term)))
    }
}
