//! The sets that a policy's expressions read as, each asked of the engine: the values of variables are put in, and what is left is a query of its own.

use super::evidence::Evidence;
use super::fill::{plain, row, written_row, Fill, ListOf, Scope};
use super::standing::Standing;
use crate::asking::Asking;
use crate::table::{parts, Form};
use std::collections::HashMap;
use std::rc::Rc;
use txindurbe::{Engine, Key, Name, Polarity, Row, Table, Verdict};
use txindurbe_language::syntax::{Expression, ExpressionKind, List, Row as WrittenRow, Term, TermKind};
use txindurbe_language::{print_expression, Asked, Names};

/// The longest text of an expression that is shown.
const LONGEST: usize = 100;

/// Why a set is not known, in words.
pub type NotKnown = String;

pub struct Sets<'a> {
    asking: &'a Asking,
    pub evidence: Evidence<'a>,
    /// The numbers of the definitions, by their names.
    definitions: HashMap<String, (u16, Polarity)>,
    engine: Engine,
    /// By the text of what was asked.
    known: HashMap<String, Result<Rc<Table>, NotKnown>>,
}

impl<'a> Sets<'a> {
    pub fn new(asking: &'a Asking, evidence: Evidence<'a>) -> Sets<'a> {
        let definitions = asking.loaded.compiled.definitions();
        let definitions = definitions.map(|definition| (definition.identifier.to_string(), (definition.number, definition.polarity))).collect();
        Sets { asking, evidence, definitions, engine: Engine::new(), known: HashMap::new() }
    }

    pub fn names(&self) -> &'a Names {
        self.asking.loaded.compiled.names()
    }

    pub fn our_key(&self) -> Key {
        self.asking.loaded.compiled.our_key()
    }

    /// The rows that an expression, which is not open, is read as.
    pub fn rows(&mut self, expression: &Expression, scope: &Scope) -> Result<Vec<Row>, NotKnown> {
        match parts(&*self.read(expression, scope)?) {
            (_, Form::Only, rows) => Ok(rows.to_vec()),
            (_, Form::AllBut, _) => Err("it has all rows but some".into()),
        }
    }

    /// Whether a row is in what an expression is read as.
    pub fn have(&mut self, expression: &Expression, scope: &Scope, row: &Row) -> Result<bool, NotKnown> {
        let table = self.read(expression, scope)?;
        let (_, form, rows) = parts(&table);
        Ok(rows.contains(row) == (form == Form::Only))
    }

    /// The same, and how certain it is.
    pub fn standing(&mut self, expression: &Expression, scope: &Scope, row: &Row) -> Result<Standing, NotKnown> {
        let has = self.have(expression, scope, row)?;
        Ok(Standing::in_set(has, self.verdict(expression, scope)?))
    }

    pub fn verdict(&mut self, expression: &Expression, scope: &Scope) -> Result<Verdict, NotKnown> {
        let other = if self.our_key() == Key::new(0) { Key::new(1) } else { Key::new(0) };
        let stand_in = Term { kind: TermKind::Key(other.number()), span: Default::default() };
        let names = self.names();
        // A verdict is the same whichever key issues a list, and rows in its place would be exact.
        let mut instead = |ListOf { issuer, list, by }: ListOf| match (issuer.key(), by) {
            (None, None) => Some(no_rows(self.list(list).1)),
            (None, Some(_)) => Some(no_rows(Polarity::Plus)),
            (Some(_), None) => Some(ExpressionKind::List { issuer: stand_in.clone(), list: list.clone() }),
            (Some(_), Some(by)) => Some(ExpressionKind::Vetted { issuer: stand_in.clone(), list: list.clone(), by: by.clone() }),
        };
        let closed = Fill { names, scope, instead: &mut instead }.expression(expression);
        Ok(self.judged(closed)?.verdict)
    }

    fn read(&mut self, expression: &Expression, scope: &Scope) -> Result<Rc<Table>, NotKnown> {
        let closed = self.closed(expression, scope)?;
        let text = print_expression(&closed);
        if let Some(known) = self.known.get(&text) {
            return known.clone();
        }
        let table = self.judged(closed).and_then(|asked| self.ask(&asked)).map(Rc::new);
        self.known.insert(text, table.clone());
        table
    }

    fn judged(&self, closed: Expression) -> Result<Asked, NotKnown> {
        let asked = self.asking.loaded.compiled.ask_expression(closed);
        asked.map_err(|problems| problems.into_iter().map(|problem| problem.message).collect::<Vec<_>>().join("; "))
    }

    fn ask(&mut self, asked: &Asked) -> Result<Table, NotKnown> {
        let Asking { loaded, held, minute, .. } = self.asking;
        let answer = self.engine.query(loaded.compiled.policy(), &asked.query, *minute, &held.store, &held.links);
        Ok(answer.map_err(|refusal| refusal.to_string())?.table().clone())
    }

    /// With the values of the variables in scope. A list whose issuer is a variable reads certificates also where that holds our key, and has no rows, or all, where
    /// it holds a number. No text says so of a key that is written, so there the rows stand for the list.
    fn closed(&mut self, expression: &Expression, scope: &Scope) -> Result<Expression, NotKnown> {
        let (names, our_key) = (self.names(), self.our_key());
        let mut not_known = None;
        let mut instead = |list: ListOf| match list.issuer.key() {
            Some(key) if key != our_key => None,
            key => self.rows_instead(key, &list).map_err(|why| not_known = Some(why)).ok(),
        };
        let closed = Fill { names, scope, instead: &mut instead }.expression(expression);
        match not_known {
            None => Ok(closed),
            Some(why) => Err(why),
        }
    }

    fn rows_instead(&mut self, key: Option<Key>, ListOf { issuer, list, by }: &ListOf) -> Result<ExpressionKind, NotKnown> {
        let (number, polarity) = self.list(list);
        let Some(key) = key else { return Ok(no_rows(polarity)) };
        if let Some(by) = by {
            let compromised = plain(ExpressionKind::Defined((*by).clone()));
            if self.have(&compromised, &Scope::default(), &Row::from([*issuer]))? {
                return Ok(no_rows(polarity));
            }
        }
        let rows = self.evidence.rows(Name { key, number, polarity }).iter().map(|row| written_row(self.names(), row)).collect();
        Ok(match polarity {
            Polarity::Plus => ExpressionKind::Rows(rows),
            Polarity::Minus => ExpressionKind::AllBut(rows),
        })
    }

    /// The number and sign behind an issuer's dot.
    pub fn list(&self, list: &List) -> (u16, Polarity) {
        match list {
            List::Numbered { number, polarity, .. } => (u16::try_from(*number).unwrap_or(u16::MAX), *polarity),
            List::Named(name) => {
                let own = || self.definitions.get(&name.text).copied();
                self.names().list(&name.text).or_else(own).expect("a policy that compiled has no other names")
            }
        }
    }

    /// An expression with the values put in, on one line, cut where it is long.
    pub fn show(&self, expression: &Expression, scope: &Scope) -> String {
        let filled = Fill { names: self.names(), scope, instead: &mut |_| None }.expression(expression);
        cut(print_expression(&filled))
    }

    /// Whether one of these rows, with the values put in, is this one.
    pub fn written(&self, rows: &[WrittenRow], scope: &Scope, wanted: &Row) -> bool {
        rows.iter().any(|written| row(self.names(), scope, written).as_ref() == Some(wanted))
    }
}

/// A list that nothing is certified of.
fn no_rows(polarity: Polarity) -> ExpressionKind {
    match polarity {
        Polarity::Plus => ExpressionKind::Rows(Vec::new()),
        Polarity::Minus => ExpressionKind::AllBut(Vec::new()),
    }
}

fn cut(text: String) -> String {
    match text.char_indices().nth(LONGEST) {
        Some((end, _)) => format!("{} ..", &text[..end]),
        None => text,
    }
}
