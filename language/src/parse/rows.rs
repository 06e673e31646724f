//! Rows, terms and guards.

use super::mistakes::{self, Separated};
use super::{begins_a_term, small, value, Failed, Parsed, Parser, FIRST_KEY};
use crate::syntax::{Comments, Guard, GuardKind, Row, Span, Term, TermKind};
use crate::token::{TokenKind, Word};

impl Parser<'_> {
    /// The first row in braces, which a comprehension's head is too.
    pub(super) fn head_or_row(&mut self) -> Parsed<Row> {
        if !matches!(self.behind_loose_row(), TokenKind::Bar | TokenKind::Colon) {
            return self.row_of_set(false);
        }
        let before = self.comments_before();
        let head = self.loose_row()?;
        self.complain(mistakes::row_without_parentheses(head.span, self.text_of(head.span)));
        Ok(Row { comments: Comments { before, behind: None }, ..head })
    }

    /// One row of a literal. If it lacks its parentheses, that may have been complained of with another one.
    pub(super) fn row_of_set(&mut self, complained: bool) -> Parsed<Row> {
        let before = self.comments_before();
        let row = match self.kind() {
            TokenKind::LeftParenthesis => self.row()?,
            kind if begins_a_term(kind) && self.kind_after(1) == TokenKind::Dot => {
                let issuer = self.take();
                let list = self.list_from(issuer)?;
                self.complain(mistakes::list_in_braces(list, self.text_of(list)));
                return Err(Failed);
            }
            kind if begins_a_term(kind) => self.loose_term()?,
            _ => return self.expected(&mistakes::A_ROW),
        };
        if self.is_loose(&row) && !complained {
            self.complain(mistakes::row_without_parentheses(row.span, self.text_of(row.span)));
        }
        Ok(Row { comments: Comments { before, behind: None }, ..row })
    }

    pub(super) fn is_loose(&self, row: &Row) -> bool {
        !self.text_of(row.span).starts_with('(')
    }

    /// `(7, alma)`
    pub(super) fn row(&mut self) -> Parsed<Row> {
        self.open();
        let mut terms = Vec::new();
        let mut more = self.kind() != TokenKind::RightParenthesis;
        while more {
            terms.push(self.term()?);
            more = self.another(Separated::Terms)?;
        }
        let span = self.close();
        if terms.is_empty() {
            self.complain(mistakes::empty_row(span));
        }
        Ok(Row { terms, span, comments: Comments::default() })
    }

    /// What follows the terms that come next, if commas alone stand between them.
    fn behind_loose_row(&self) -> TokenKind {
        let mut place = 0;
        while begins_a_term(self.kind_after(place)) && self.kind_after(place + 1) == TokenKind::Comma {
            place += 2;
        }
        if begins_a_term(self.kind_after(place)) {
            self.kind_after(place + 1)
        } else {
            TokenKind::Strange
        }
    }

    /// Terms with commas between them and no parentheses around them.
    fn loose_row(&mut self) -> Parsed<Row> {
        let mut row = self.loose_term()?;
        while self.take_if(TokenKind::Comma) {
            row.terms.push(self.term()?);
        }
        row.span = row.span.to(self.last());
        Ok(row)
    }

    fn loose_term(&mut self) -> Parsed<Row> {
        let term = self.term()?;
        Ok(Row { span: term.span, terms: vec![term], comments: Comments::default() })
    }

    pub(super) fn term(&mut self) -> Parsed<Term> {
        let span = self.span();
        let kind = match self.kind() {
            TokenKind::Number => TermKind::Number(self.atom()),
            TokenKind::Key => TermKind::Key(self.key()),
            TokenKind::Any => {
                self.take();
                TermKind::Any
            }
            TokenKind::Name => {
                let text = self.spelling().to_string();
                self.take();
                TermKind::Named(text)
            }
            TokenKind::Reserved(word) if self.is_word_for_name() => {
                self.complain(mistakes::reserved(word, span));
                self.take();
                TermKind::Named(word.text().to_string())
            }
            TokenKind::Plus | TokenKind::Minus if self.kind_after(1) == TokenKind::Number => {
                self.take();
                let span = span.to(self.span());
                self.complain(mistakes::signed_number(span));
                TermKind::Number(self.atom())
            }
            _ => return self.expected(&mistakes::A_TERM),
        };
        Ok(Term { kind, span: span.to(self.last()) })
    }

    /// The next token is a number.
    fn atom(&mut self) -> u32 {
        let number = value(self.spelling());
        if number >= FIRST_KEY {
            self.complain(mistakes::atom_too_large(self.span(), number));
        }
        self.take();
        small(number)
    }

    pub(super) fn guard(&mut self) -> Parsed<Guard> {
        let before = self.comments_before();
        let start = self.span();
        if self.is(Word::Not) {
            return self.fail(mistakes::not_in_front(start));
        }
        let mut guard = match self.kind() {
            TokenKind::LeftParenthesis => {
                let row = self.row()?;
                self.guard_of_row(start, row)?
            }
            kind if begins_a_term(kind) || self.is_word_for_name() => {
                if let TokenKind::Reserved(Word::In | Word::Not) = self.behind_loose_row() {
                    let row = self.loose_row()?;
                    self.complain(mistakes::row_without_parentheses(row.span, self.text_of(row.span)));
                    self.guard_of_row(start, row)?
                } else {
                    let left = self.term()?;
                    self.comparison(start, left)?
                }
            }
            _ => return self.expected(&mistakes::A_GUARD),
        };
        guard.comments.before = before;
        Ok(guard)
    }

    /// Behind its row: `in` or `not in`, and a set.
    pub(super) fn guard_of_row(&mut self, start: Span, mut row: Row) -> Parsed<Guard> {
        self.settle(&mut row.comments);
        let absent = match self.kind() {
            TokenKind::Reserved(Word::In) => {
                self.take();
                let turned = self.is(Word::Not);
                if turned {
                    self.complain(mistakes::in_not(self.last().to(self.span())));
                    self.take();
                }
                turned
            }
            TokenKind::Reserved(Word::Not) => {
                let not = self.take();
                if !self.take_if(TokenKind::Reserved(Word::In)) {
                    self.complain(mistakes::not_without_in(not));
                }
                true
            }
            TokenKind::Equals | TokenKind::Differs if row.terms.len() == 1 => {
                self.complain(mistakes::compared_in_parentheses(row.span));
                return self.comparison(start, row.terms[0].clone());
            }
            _ => return self.expected(&mistakes::IN),
        };
        let set = self.expression()?;
        let span = start.to(self.last());
        let kind = if absent { GuardKind::Absent(row, set) } else { GuardKind::Draw(row, set) };
        Ok(Guard { kind, span, comments: Comments::default() })
    }

    /// Behind its first term: `=` or `!=` and another one.
    fn comparison(&mut self, start: Span, left: Term) -> Parsed<Guard> {
        let same = match self.kind() {
            TokenKind::Dot => {
                let list = self.list_from(start)?;
                self.complain(mistakes::guard_without_row(list, self.text_of(list)));
                return Err(Failed);
            }
            TokenKind::Equals => true,
            TokenKind::Differs => false,
            _ => return self.expected(&mistakes::A_GUARD),
        };
        self.take();
        let right = if self.kind() == TokenKind::LeftParenthesis { self.compared_row()? } else { self.term()? };
        if self.kind() == TokenKind::Dot {
            let list = self.list_from(right.span)?;
            self.complain(mistakes::compared_with_list(list, self.text_of(list)));
            return Err(Failed);
        }
        let span = start.to(self.last());
        let kind = if same { GuardKind::Same(left, right) } else { GuardKind::Different(left, right) };
        Ok(Guard { kind, span, comments: Comments::default() })
    }

    /// A list where a term was expected; the next token is its dot.
    fn list_from(&mut self, issuer: Span) -> Parsed<Span> {
        self.take();
        self.list_behind_dot()?;
        Ok(issuer.to(self.last()))
    }

    /// A row where a term was expected.
    fn compared_row(&mut self) -> Parsed<Term> {
        let row = self.row()?;
        self.complain(mistakes::compared_in_parentheses(row.span));
        row.terms.into_iter().next().ok_or(Failed)
    }
}
