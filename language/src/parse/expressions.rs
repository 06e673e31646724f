//! Expressions outside of braces.

use super::mistakes::{self, Separated};
use super::{bare, begins_an_operand, Failed, Parsed, Parser, DEEPEST};
use crate::syntax::{Expression, ExpressionKind, Identifier, List, Polarity, Span};
use crate::token::{TokenKind, Word};

impl Parser<'_> {
    pub(super) fn expression(&mut self) -> Parsed<Expression> {
        self.nested += 1;
        self.check_depth(self.nested)?;
        let start = self.span();
        let mut left = self.operand()?;
        let mut height = self.height;
        let mut joined: Option<(Word, Span)> = None;
        while let Some(word) = self.operator(&left) {
            let (first, place) = *joined.get_or_insert((word, self.span()));
            if first != word {
                self.complain(mistakes::mixed((first, place), (word, self.span())));
                joined = Some((word, self.span()));
            }
            self.settle(&mut left.comments);
            self.take();
            let right = self.operand()?;
            height = height.max(self.height) + 1;
            self.check_depth(height)?;
            let both = if word == Word::Union { ExpressionKind::Union } else { ExpressionKind::Minus };
            left = bare(both(Box::new(left), Box::new(right)), start.to(self.last()));
        }
        self.nested -= 1;
        self.height = height;
        Ok(left)
    }

    fn check_depth(&mut self, depth: usize) -> Parsed<()> {
        if depth <= DEEPEST {
            return Ok(());
        }
        self.complain(mistakes::too_deep(self.last(), DEEPEST));
        Err(Failed)
    }

    /// The word that joins what was read to what follows, if one does. It is the next token.
    fn operator(&mut self, left: &Expression) -> Option<Word> {
        let word = match self.kind() {
            TokenKind::Reserved(word @ (Word::Union | Word::Minus)) => return Some(word),
            TokenKind::Plus => Word::Union,
            TokenKind::Minus => Word::Minus,
            _ => return None,
        };
        if begins_an_operand(self.kind_after(1)) {
            self.complain(mistakes::sign_for_word(self.span(), word));
            return Some(word);
        }
        if matches!(left.kind, ExpressionKind::List { list: List::Named(_), .. }) {
            self.complain(mistakes::sign_behind_name(self.span()));
            self.take();
            return self.operator(left);
        }
        None
    }

    fn operand(&mut self) -> Parsed<Expression> {
        let mut before = self.comments_before();
        self.height = 1;
        let mut expression = match self.kind() {
            TokenKind::LeftBrace => self.braces()?,
            TokenKind::Reserved(Word::All) => self.all_but()?,
            TokenKind::LeftParenthesis => self.in_parentheses()?,
            TokenKind::Name | TokenKind::Key | TokenKind::Number | TokenKind::Any if self.kind_after(1) == TokenKind::Dot => self.list()?,
            TokenKind::Name => self.defined()?,
            TokenKind::Number | TokenKind::Key | TokenKind::Any => {
                return self.fail(mistakes::term_for_set(self.token(), self.spelling()));
            }
            TokenKind::Reserved(_) if self.is_word_for_name() && self.kind_after(1) == TokenKind::Dot => self.list()?,
            TokenKind::Reserved(word) if self.is_word_for_name() => {
                self.complain(mistakes::reserved(word, self.span()));
                self.defined()?
            }
            _ => return self.expected(&mistakes::A_SET),
        };
        before.append(&mut expression.comments.before);
        expression.comments.before = before;
        Ok(expression)
    }

    fn defined(&mut self) -> Parsed<Expression> {
        let name = Identifier { text: self.spelling().to_string(), span: self.take() };
        let span = name.span;
        if self.is(Word::Vetted) {
            return self.fail(mistakes::definition_vetted(self.span(), &name.text));
        }
        Ok(bare(ExpressionKind::Defined(name), span))
    }

    fn in_parentheses(&mut self) -> Parsed<Expression> {
        if self.is_row() {
            let row = self.row()?;
            self.complain(mistakes::row_for_set(row.span, self.text_of(row.span)));
            return Ok(bare(ExpressionKind::Rows(Vec::new()), row.span));
        }
        self.open();
        let expression = self.expression()?;
        if self.kind() != TokenKind::RightParenthesis {
            return self.not_closed(Separated::Operands);
        }
        self.close();
        Ok(expression)
    }

    /// At an opening parenthesis: whether what it holds can only be a row.
    fn is_row(&self) -> bool {
        let next = self.kind_after(2);
        match self.kind_after(1) {
            TokenKind::Number | TokenKind::Key | TokenKind::Any => next != TokenKind::Dot,
            TokenKind::Name => next == TokenKind::Comma,
            _ => false,
        }
    }

    /// `alma.released`, and perhaps `vetted by` a definition.
    fn list(&mut self) -> Parsed<Expression> {
        let issuer = self.term()?;
        self.take();
        let list = self.list_behind_dot()?;
        let by = self.vetted_by()?;
        let span = issuer.span.to(self.last());
        Ok(match by {
            None => bare(ExpressionKind::List { issuer, list }, span),
            Some(by) => bare(ExpressionKind::Vetted { issuer, list, by }, span),
        })
    }

    pub(super) fn list_behind_dot(&mut self) -> Parsed<List> {
        match self.kind() {
            TokenKind::Name => Ok(List::Named(Identifier { text: self.spelling().to_string(), span: self.take() })),
            TokenKind::Number => {
                let (number, span) = self.number();
                let polarity = match self.sign() {
                    Some((polarity, _)) => polarity,
                    None => {
                        self.complain(mistakes::number_without_sign(self.behind_last(), number));
                        Polarity::Plus
                    }
                };
                Ok(List::Numbered { number, polarity, span: span.to(self.last()) })
            }
            TokenKind::Reserved(word) if !self.is_statement() => {
                self.complain(mistakes::reserved(word, self.span()));
                Ok(List::Named(Identifier { text: self.spelling().to_string(), span: self.take() }))
            }
            _ => self.expected(&mistakes::A_LIST),
        }
    }

    fn vetted_by(&mut self) -> Parsed<Option<Identifier>> {
        if !self.is(Word::Vetted) {
            return Ok(None);
        }
        self.take();
        if !self.take_if(TokenKind::Reserved(Word::By)) {
            if self.kind() != TokenKind::Name {
                return self.expected(&mistakes::BY);
            }
            self.complain(mistakes::vetted_without_by(self.last()));
        }
        if self.kind() != TokenKind::Name || self.kind_after(1) == TokenKind::Dot {
            return self.expected(&mistakes::A_VETTING_DEFINITION);
        }
        Ok(Some(Identifier { text: self.spelling().to_string(), span: self.take() }))
    }

    fn all_but(&mut self) -> Parsed<Expression> {
        let start = self.take();
        if !self.take_if(TokenKind::Reserved(Word::But)) {
            if self.kind() != TokenKind::LeftBrace {
                return self.expected(&mistakes::ROWS_BEHIND_ALL_BUT);
            }
            self.complain(mistakes::all_without_but(start));
        }
        if self.kind() != TokenKind::LeftBrace {
            return self.expected(&mistakes::ROWS_BEHIND_ALL_BUT);
        }
        let mut set = self.braces()?;
        set.span = start.to(set.span);
        match &mut set.kind {
            ExpressionKind::Rows(rows) => set.kind = ExpressionKind::AllBut(std::mem::take(rows)),
            _ => self.complain(mistakes::all_but_each(set.span)),
        }
        Ok(set)
    }
}
