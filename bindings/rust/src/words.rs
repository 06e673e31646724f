//! Expressions as words: each name becomes the number that it stands for.

use crate::expression::Node;
use crate::{Expression, Guard, Polarity, Term, Unresolved};

/// A definition that an expression uses: its place in the policy, and its label.
pub(crate) type Used = (u32, String);

/// As the engine reads it, beside definitions of these labels; and which of them it uses.
pub(crate) fn words(expression: &Expression, labels: &[String]) -> Result<(Vec<u32>, Vec<Used>), Unresolved> {
    let mut writing = Writing { words: Vec::new(), labels, used: Vec::new(), variables: Vec::new() };
    writing.expression(expression)?;
    Ok((writing.words, writing.used))
}

/// The words so far, and what names stand for.
struct Writing<'a> {
    words: Vec<u32>,
    labels: &'a [String],
    used: Vec<Used>,
    /// Those in scope, each at its number.
    variables: Vec<&'a str>,
}

type Written = Result<(), Unresolved>;

impl<'a> Writing<'a> {
    fn expression(&mut self, Expression(node): &'a Expression) -> Written {
        match &**node {
            Node::Rows(rows) => self.literal(1, rows),
            Node::AllBut(rows) => self.literal(2, rows),
            Node::Defined(label) => {
                self.words.push(3);
                self.definition(label)
            }
            Node::List { issuer, name, polarity } => self.list(4, issuer, *name, *polarity),
            Node::Union(left, right) => self.pair(5, left, right),
            Node::Minus(left, right) => self.pair(6, left, right),
            Node::Each { guards, head } => self.each(guards, head),
            Node::Vetted { issuer, name, by } => {
                self.list(8, issuer, *name, Polarity::Plus)?;
                self.definition(by)
            }
        }
    }

    fn literal(&mut self, code: u32, rows: &'a [Vec<Term>]) -> Written {
        self.words.extend([code, rows.len() as u32]);
        rows.iter().try_for_each(|row| self.row(row))
    }

    fn list(&mut self, code: u32, issuer: &'a Term, name: u16, polarity: Polarity) -> Written {
        self.words.push(code);
        self.term(issuer)?;
        self.words.extend([name.into(), polarity as u32]);
        Ok(())
    }

    fn pair(&mut self, code: u32, left: &'a Expression, right: &'a Expression) -> Written {
        self.words.push(code);
        self.expression(left)?;
        self.expression(right)
    }

    /// Its variables end with it: their numbers come again.
    fn each(&mut self, guards: &'a [Guard], head: &'a [Term]) -> Written {
        let outer = self.variables.len();
        self.words.extend([7, guards.len() as u32]);
        guards.iter().try_for_each(|guard| self.guard(guard))?;
        self.row(head)?;
        self.variables.truncate(outer);
        Ok(())
    }

    fn guard(&mut self, guard: &'a Guard) -> Written {
        match guard {
            Guard::Draw(pattern, from) => {
                self.words.push(1);
                self.expression(from)?;
                self.pattern(pattern);
                Ok(())
            }
            Guard::Same(one, other) => self.compared(2, one, other),
            Guard::Different(one, other) => self.compared(3, one, other),
            Guard::Absent(row, from) => {
                self.words.push(4);
                self.row(row)?;
                self.expression(from)
            }
        }
    }

    /// A variable that is not in scope is new, and has the count of those that are as its number.
    fn pattern(&mut self, terms: &'a [Term]) {
        self.words.push(terms.len() as u32);
        for term in terms {
            let slot = self.slot(term).unwrap_or_else(|new| {
                self.variables.push(new);
                [2, self.variables.len() as u32 - 1]
            });
            self.words.extend(slot);
        }
    }

    fn compared(&mut self, code: u32, one: &'a Term, other: &'a Term) -> Written {
        self.words.push(code);
        self.term(one)?;
        self.term(other)
    }

    fn row(&mut self, terms: &'a [Term]) -> Written {
        self.words.push(terms.len() as u32);
        terms.iter().try_for_each(|term| self.term(term))
    }

    fn term(&mut self, term: &'a Term) -> Written {
        let words = self.slot(term).map_err(|name| Unresolved::Variable(name.into()))?;
        self.words.extend(words);
        Ok(())
    }

    /// A term's two words; or the name of a variable that is not in scope.
    fn slot(&self, term: &'a Term) -> Result<[u32; 2], &'a str> {
        match term {
            Term::Atom(atom) => Ok([0, atom.word()]),
            Term::Variable(name) => match self.variables.iter().position(|other| other == name) {
                Some(number) => Ok([1, number as u32]),
                None => Err(name),
            },
        }
    }

    fn definition(&mut self, label: &str) -> Written {
        let mut places = (0..).zip(self.labels).filter(|(_, other)| *other == label);
        match (places.next(), places.next()) {
            (Some((place, _)), None) => {
                self.words.push(place);
                self.used.push((place, label.into()));
                Ok(())
            }
            _ => Err(Unresolved::Definition(label.into())),
        }
    }
}
