//! How many atoms the rows of an expression can have, and rows that can match none of them.

use crate::problem::Problem;
use crate::program::Program;
use crate::syntax::Polarity;
use crate::tree::{GuardKind, Kind, List, Node, Origin, Row};
use txindurbe::sizes::MOST_WIDTH;
use txindurbe::Format;

/// The widths that rows of a set can have.
#[derive(Clone, Copy, PartialEq, Eq, Debug)]
pub(crate) struct Set([bool; MOST_WIDTH]);

impl Set {
    pub const ANY: Set = Set([true; MOST_WIDTH]);
    pub const NONE: Set = Set([false; MOST_WIDTH]);

    pub fn of(widths: impl IntoIterator<Item = usize>) -> Set {
        let mut set = Set::NONE;
        for width in widths {
            if let Some(has) = set.0.get_mut(width.wrapping_sub(1)) {
                *has = true;
            }
        }
        set
    }

    pub fn has(self, width: usize) -> bool {
        self.widths().any(|other| other == width)
    }

    fn widths(self) -> impl Iterator<Item = usize> {
        (1..=MOST_WIDTH).filter(move |width| self.0[width - 1])
    }

    fn join(self, other: Set) -> Set {
        Set::of(self.widths().chain(other.widths()))
    }

    /// Whether a pattern of this width can match a row.
    pub fn matched_by(self, width: usize, format: Format) -> bool {
        match format {
            Format::EqualWidths => self.has(width),
            Format::WiderRows => self.widths().any(|other| other >= width),
        }
    }

    /// "1 atom", "2 or 3 atoms"
    pub fn shown(self) -> String {
        let widths: Vec<String> = self.widths().map(|width| width.to_string()).collect();
        atoms(&widths.join(" or "))
    }
}

pub(crate) fn atoms(count: &str) -> String {
    format!("{count} {}", if count == "1" { "atom" } else { "atoms" })
}

/// What is known of the widths in each list.
pub(crate) type OfList<'a> = &'a dyn Fn(&List) -> Set;

pub(crate) struct Widths<'a> {
    program: &'a Program,
    definitions: Vec<Set>,
    of_list: OfList<'a>,
}

impl<'a> Widths<'a> {
    /// Lists may have rows of any width. As many definitions are looked at.
    pub fn of_text(program: &'a Program, definitions: usize) -> Widths<'a> {
        Widths::new(program, definitions, &|_| Set::ANY)
    }

    pub fn new(program: &'a Program, definitions: usize, of_list: OfList<'a>) -> Widths<'a> {
        let mut widths = Widths { program, definitions: Vec::new(), of_list };
        for definition in &program.definitions[..definitions] {
            let set = widths.of(&definition.whole.expression);
            widths.definitions.push(set);
        }
        widths
    }

    pub fn of(&self, node: &Node) -> Set {
        match &node.kind {
            Kind::Literal { all_but: true, .. } => Set::ANY,
            Kind::Literal { rows, .. } => Set::of(rows.iter().map(|row| row.terms.len())),
            Kind::Defined(place) => self.of_definition(*place),
            Kind::List(List { origin: Origin::Own(Some(place)), .. }) => self.of_definition(*place),
            Kind::List(List { polarity: Polarity::Minus, .. }) => Set::ANY,
            Kind::List(list) => (self.of_list)(list),
            Kind::Union(left, right) => self.of(left).join(self.of(right)),
            Kind::Minus(left, _) => self.of(left),
            Kind::Each { head, .. } => Set::of([head.terms.len()]),
        }
    }

    fn of_definition(&self, place: usize) -> Set {
        self.definitions.get(place).copied().unwrap_or(Set::ANY)
    }

    /// Warns of each row in it that can match nothing.
    pub fn check(&mut self, node: &Node, warnings: &mut Vec<Problem>) {
        for node in node.all() {
            match &node.kind {
                Kind::Each { guards, .. } => {
                    for guard in guards {
                        warnings.extend(match &guard.kind {
                            GuardKind::Draw(pattern, from) => self.draw(pattern, from),
                            GuardKind::Absent(row, from) => self.absent(row, from),
                            GuardKind::Same(..) | GuardKind::Different(..) => None,
                        });
                    }
                }
                Kind::Minus(left, right) => warnings.extend(self.minus(left, right)),
                Kind::List(List { vetted_by: Some((place, span)), .. }) => {
                    let set = self.of_definition(*place);
                    let name = &self.program.definitions[*place].text;
                    if !set.has(1) && set != Set::NONE {
                        let problem = Problem::warning(format!("`{name}` holds no key back: a key is looked up as a row of 1 atom"));
                        warnings.push(problem.at(*span, format!("its rows have {}", set.shown())));
                    }
                }
                _ => {}
            }
        }
    }

    fn draw(&self, pattern: &Row, from: &Node) -> Option<Problem> {
        let (set, width) = (self.of(from), pattern.terms.len());
        if set == Set::NONE {
            return Some(Problem::warning("nothing can be drawn here: the set has no rows").at(pattern.span, "drawn here").at(from.span, "no rows"));
        }
        (!set.matched_by(width, self.program.format)).then(|| not_matched(pattern, from, set, self.program.format))
    }

    fn absent(&self, row: &Row, from: &Node) -> Option<Problem> {
        let (set, width) = (self.of(from), row.terms.len());
        (set != Set::NONE && !set.has(width)).then(|| {
            let problem = Problem::warning(format!("this guard always passes: no row there has {}", atoms(&width.to_string())));
            problem.at(row.span, atoms(&width.to_string())).at(from.span, format!("rows of {}", set.shown()))
        })
    }

    fn minus(&self, left: &Node, right: &Node) -> Option<Problem> {
        let (from, taken) = (self.of(left), self.of(right));
        let apart = from != Set::NONE && taken != Set::NONE && !from.widths().any(|width| taken.has(width));
        apart.then(|| {
            let problem = Problem::warning("nothing is taken away here: no row on the right is as wide as one on the left");
            problem.at(right.span, format!("rows of {}", taken.shown())).at(left.span, format!("rows of {}", from.shown()))
        })
    }
}

/// A draw whose pattern has a width that no row there has.
pub(crate) fn not_matched(pattern: &Row, from: &Node, set: Set, format: Format) -> Problem {
    let width = pattern.terms.len();
    let or_more = if format == Format::WiderRows { " or more" } else { "" };
    let problem = Problem::warning(format!("this draw matches nothing: no row there has {width}{or_more} atoms").replace(" 1 atoms", " 1 atom"));
    let problem = problem.at(pattern.span, atoms(&width.to_string())).at(from.span, format!("rows of {}", set.shown()));
    match set.widths().find(|other| *other > width) {
        Some(wider) => problem
            .mend(format!("give the pattern {wider} terms, `_` where any atom will do, or write `format 2`, where a pattern matches wider rows")),
        None => problem.mend(format!("give the pattern {}", set.shown().replace("atom", "term"))),
    }
}
