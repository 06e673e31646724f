//! A file whose names are resolved, and the binding's expressions made of it.

use crate::declare::{declare, definitions_of, query_of, NO_KEY_OF_OURS};
use crate::names::Names;
use crate::problem::Problem;
use crate::resolve::resolve;
use crate::say;
use crate::syntax::{File, Polarity, Span};
use crate::tree::{Guard, GuardKind, Kind, List, Node, Row, Term, TermKind, Variable, Whole};
use txindurbe::{Expression, Format, Key, Part, Policy, Query, Unresolved};

/// A policy with its query, if the file has one.
#[derive(Clone, Debug)]
pub(crate) struct Program {
    pub file: File,
    pub names: Names,
    pub format: Format,
    pub external: bool,
    /// In the order of the file, as [`Names::definitions`].
    pub definitions: Vec<Definition>,
    pub query: Option<Whole>,
}

#[derive(Clone, Debug)]
pub(crate) struct Definition {
    pub text: String,
    /// Of its name.
    pub span: Span,
    pub number: u16,
    pub polarity: Polarity,
    pub polarity_span: Span,
    pub whole: Whole,
}

impl Program {
    /// All problems that need no engine.
    pub fn resolve(file: File) -> Result<Program, Vec<Problem>> {
        let mut problems = Vec::new();
        let (names, header) = declare(&file, &mut problems);
        let mut definitions = Vec::new();
        for ((written, _), named) in definitions_of(&file).zip(&names.definitions) {
            let whole = resolve(&written.expression, &names, &mut problems);
            definitions.push(Definition {
                text: named.text.clone(),
                span: named.span,
                number: named.number,
                polarity: named.polarity,
                polarity_span: written.polarity_span,
                whole,
            });
        }
        let query = query_of(&file).map(|query| resolve(query, &names, &mut problems));
        if !problems.is_empty() {
            return Err(say::in_order(problems));
        }
        Ok(Program { names, format: header.format, external: header.external, definitions, query, file })
    }

    pub fn our_key(&self) -> Key {
        self.names.our_key.unwrap_or(NO_KEY_OF_OURS)
    }

    /// That of the first so many definitions.
    pub fn policy(&self, definitions: usize) -> Result<Policy, Unresolved> {
        let lowered: Vec<txindurbe::Definition> = self.definitions[..definitions].iter().map(|definition| self.lowered(definition)).collect();
        Policy::in_format(self.our_key(), self.format, &lowered)
    }

    fn lowered(&self, definition: &Definition) -> txindurbe::Definition {
        let expression = self.expression(&definition.whole.expression, &definition.whole.variables, None);
        txindurbe::Definition::new(&definition.text, definition.number, definition.polarity, expression)
    }

    pub fn query(&self, policy: &Policy, whole: &Whole) -> Result<Query, Unresolved> {
        policy.query(&self.expression(&whole.expression, &whole.variables, None))
    }

    /// The definition that refusals with this part are about, or the query asked.
    pub fn part<'a>(&'a self, part: Part, asked: Option<&'a Whole>) -> Option<&'a Whole> {
        match part {
            Part::Definition(number) => self.definitions.get(number as usize).map(|definition| &definition.whole),
            Part::Query => asked.or(self.query.as_ref()),
        }
    }

    /// How many definitions may be used there: those before it; in the query, all.
    pub fn available(&self, part: Part) -> usize {
        match part {
            Part::Definition(number) => number as usize,
            Part::Query => self.definitions.len(),
        }
    }

    /// Definition 0 of an external policy, if it lists the compromised keys: the others' lists are vetted by it.
    pub fn compromised(&self) -> Option<&Definition> {
        self.definitions.first().filter(|first| self.external && (first.number, first.polarity) == (0, Polarity::Minus))
    }

    /// As the binding has it. With `vetted_by`, as rewriting an external policy leaves it: each list vetted.
    pub fn expression(&self, node: &Node, variables: &[Variable], vetted_by: Option<&str>) -> Expression {
        Lowering { program: self, variables, vetted_by }.expression(node)
    }
}

struct Lowering<'a> {
    program: &'a Program,
    variables: &'a [Variable],
    vetted_by: Option<&'a str>,
}

impl Lowering<'_> {
    fn expression(&self, node: &Node) -> Expression {
        match &node.kind {
            Kind::Literal { rows, all_but: false } => Expression::rows(rows.iter().map(|row| self.row(row))),
            Kind::Literal { rows, all_but: true } => Expression::all_but(rows.iter().map(|row| self.row(row))),
            Kind::Defined(place) => Expression::defined(self.label(*place)),
            Kind::List(list) => self.list(list),
            Kind::Union(left, right) => self.expression(left).union(self.expression(right)),
            Kind::Minus(left, right) => self.expression(left).minus(self.expression(right)),
            Kind::Each { guards, head } => Expression::each(guards.iter().map(|guard| self.guard(guard)), self.row(head)),
        }
    }

    fn label(&self, place: usize) -> &str {
        &self.program.definitions[place].text
    }

    fn list(&self, list: &List) -> Expression {
        let issuer = self.term(&list.issuer);
        match (list.vetted_by, self.vetted_by) {
            (Some((by, _)), _) => Expression::vetted_list_of(issuer, list.number, self.label(by)),
            (None, Some(by)) => Expression::vetted_list_of(issuer, list.number, by),
            (None, None) => Expression::list_of(issuer, list.number, list.polarity),
        }
    }

    fn guard(&self, guard: &Guard) -> txindurbe::Guard {
        match &guard.kind {
            GuardKind::Draw(pattern, from) => txindurbe::Guard::Draw(self.row(pattern), self.expression(from)),
            GuardKind::Absent(row, from) => txindurbe::Guard::Absent(self.row(row), self.expression(from)),
            GuardKind::Same(left, right) => txindurbe::Guard::Same(self.term(left), self.term(right)),
            GuardKind::Different(left, right) => txindurbe::Guard::Different(self.term(left), self.term(right)),
        }
    }

    fn row(&self, row: &Row) -> Vec<txindurbe::Term> {
        row.terms.iter().map(|term| self.term(term)).collect()
    }

    /// Each `_` has a name of its own, which no text can have.
    fn term(&self, term: &Term) -> txindurbe::Term {
        match term.kind {
            TermKind::Atom(atom) => atom.into(),
            TermKind::Variable(place) | TermKind::New(place) => {
                txindurbe::variable(self.variables[place].text.clone().unwrap_or_else(|| format!("_{place}")))
            }
        }
    }
}
