//! Sets in braces: rows, comprehensions.

use super::mistakes::{self, Separated};
use super::{bare, begins_a_term, Parsed, Parser};
use crate::syntax::{Expression, ExpressionKind, Guard, Row};
use crate::token::{TokenKind, Word};

impl Parser<'_> {
    /// Rows, or a comprehension.
    pub(super) fn braces(&mut self) -> Parsed<Expression> {
        self.open();
        if self.kind() == TokenKind::RightBrace {
            return Ok(self.closed(ExpressionKind::Rows(Vec::new())));
        }
        if self.kind() == TokenKind::Bar {
            return self.fail(mistakes::no_head(self.span()));
        }
        let first = self.head_or_row()?;
        match self.kind() {
            TokenKind::Bar => self.take_bar_and_guards(first),
            TokenKind::Colon => {
                self.complain(mistakes::colon_for_bar(self.span()));
                self.take_bar_and_guards(first)
            }
            TokenKind::Reserved(Word::In | Word::Not) => {
                self.complain(mistakes::no_head_but_guard(first.span, self.text_of(first.span).trim_matches(['(', ')'])));
                self.guards(first.clone(), Some(first))
            }
            TokenKind::LeftParenthesis | TokenKind::Name if self.guard_follows() => {
                self.complain(mistakes::no_bar(self.behind_last()));
                self.guards(first, None)
            }
            _ => self.rows(first),
        }
    }

    fn take_bar_and_guards(&mut self, mut head: Row) -> Parsed<Expression> {
        self.take();
        self.settle(&mut head.comments);
        self.guards(head, None)
    }

    /// Whether a row or a term follows, and then what makes it a guard.
    fn guard_follows(&self) -> bool {
        let mut place = self.next + 1;
        if self.kind() == TokenKind::LeftParenthesis {
            let rest = &self.tokens[place..];
            place += rest.iter().take_while(|token| begins_a_term(token.kind) || token.kind == TokenKind::Comma).count() + 1;
        }
        let next = self.tokens.get(place).map(|token| token.kind);
        matches!(next, Some(TokenKind::Reserved(Word::In | Word::Not) | TokenKind::Equals | TokenKind::Differs))
    }

    fn rows(&mut self, first: Row) -> Parsed<Expression> {
        let mut complained = self.is_loose(&first);
        let mut rows = Vec::new();
        let mut row = first;
        while self.another(Separated::Rows)? {
            self.settle(&mut row.comments);
            rows.push(row);
            row = self.row_of_set(complained)?;
            complained |= self.is_loose(&row);
            match self.kind() {
                TokenKind::Bar | TokenKind::Colon => return self.fail(mistakes::several_heads(rows[0].span.to(row.span))),
                TokenKind::Reserved(Word::In | Word::Not) if rows.len() == 1 => {
                    self.complain(mistakes::comma_for_bar(rows[0].span.to(row.span)));
                    return self.guards(rows.remove(0), Some(row));
                }
                _ => {}
            }
        }
        self.settle(&mut row.comments);
        rows.push(row);
        Ok(self.closed(ExpressionKind::Rows(rows)))
    }

    /// `drawn` is the first guard's row, if that has been read.
    fn guards(&mut self, head: Row, mut drawn: Option<Row>) -> Parsed<Expression> {
        let mut guards: Vec<Guard> = Vec::new();
        let mut height = 0;
        let mut more = drawn.is_some() || self.kind() != TokenKind::RightBrace;
        while more {
            self.height = 0;
            let mut guard = match drawn.take() {
                Some(row) => self.guard_of_row(row.span, row)?,
                None => self.guard()?,
            };
            height = height.max(self.height);
            more = self.another(Separated::Guards)?;
            self.settle(&mut guard.comments);
            guards.push(guard);
        }
        self.height = height + 1;
        Ok(self.closed(ExpressionKind::Each { head, guards }))
    }

    /// The next token is the closing brace.
    fn closed(&mut self, kind: ExpressionKind) -> Expression {
        let comments_at_end = self.comments_before();
        Expression { comments_at_end, ..bare(kind, self.close()) }
    }

    /// Behind one of several things: whether another one follows. If not, what closes them does.
    pub(super) fn another(&mut self, what: Separated) -> Parsed<bool> {
        let problem = match self.kind() {
            kind if kind == what.closing() => return Ok(false),
            TokenKind::Comma => None,
            TokenKind::Semicolon => Some(mistakes::semicolon_for_comma(self.span())),
            TokenKind::Name | TokenKind::And if what != Separated::Terms && mistakes::is_and_or(self.spelling()) => {
                Some(mistakes::and_or(what, self.span(), self.spelling()))
            }
            TokenKind::Bar if what == Separated::Guards => Some(mistakes::second_bar(self.span())),
            _ if self.another_begins(what) => {
                self.complain(mistakes::no_comma(what, self.behind_last()));
                return Ok(true);
            }
            _ => return self.not_closed(what),
        };
        self.problems.extend(problem);
        let separator = self.take();
        if self.kind() == what.closing() {
            self.complain(mistakes::nothing_behind_comma(separator));
            return Ok(false);
        }
        Ok(true)
    }

    /// Whether the next token begins another one, so that only the comma is missing.
    fn another_begins(&self, what: Separated) -> bool {
        let term = begins_a_term(self.kind());
        let row = term || self.kind() == TokenKind::LeftParenthesis;
        match what {
            Separated::Terms => term,
            Separated::Rows => row,
            Separated::Guards => (row || self.is_word_for_name()) && self.guard_follows(),
            Separated::Declarations | Separated::Operands => false,
        }
    }

    /// Fails: something is open that neither ends nor goes on here.
    pub(super) fn not_closed<T>(&mut self, what: Separated) -> Parsed<T> {
        let open = self.open.last().copied().unwrap_or(self.span());
        let problem = if self.is_end_of_statement() {
            mistakes::not_closed(open, self.behind_last(), what)
        } else {
            mistakes::not_expected_inside(self.token(), self.spelling(), open, what)
        };
        self.fail(problem)
    }
}
