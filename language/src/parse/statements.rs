//! Statements and what they declare.

use super::mistakes::{self, Expected, Separated};
use super::{begins_a_term, begins_an_operand, small, value, Failed, Parsed, Parser, FIRST_KEY};
use crate::syntax::{Comments, Definition, Expression, File, Identifier, KeyDeclaration, ListDeclaration, Polarity, Span, Statement, StatementKind};
use crate::token::{TokenKind, Word};

impl Parser<'_> {
    pub(super) fn file(&mut self) -> File {
        let mut statements = Vec::new();
        while self.kind() != TokenKind::End {
            match self.statement() {
                Ok(statement) => statements.push(statement),
                Err(Failed) => self.skip(),
            }
        }
        File { statements, comments_at_end: self.comments_before() }
    }

    pub(super) fn only_expression(&mut self) -> Parsed<Expression> {
        let mut expression = self.expression()?;
        if self.kind() != TokenKind::End {
            return self.fail(mistakes::behind_expression(self.token(), self.spelling()));
        }
        self.settle(&mut expression.comments);
        expression.comments.before.append(&mut self.comments_before());
        Ok(expression)
    }

    fn statement(&mut self) -> Parsed<Statement> {
        let before = self.comments_before();
        let (start, apart) = (self.span(), self.token().apart);
        let kind = match self.kind() {
            TokenKind::Reserved(Word::Format) => self.format()?,
            TokenKind::Reserved(Word::External) => self.external()?,
            TokenKind::Reserved(Word::Our) => self.our_key()?,
            TokenKind::Reserved(Word::Key) => self.keys()?,
            TokenKind::Reserved(Word::List) => self.lists()?,
            TokenKind::Reserved(Word::Define) => self.define()?,
            TokenKind::Reserved(Word::Query) => self.query()?,
            _ => {
                return self.fail(mistakes::no_statement(self.token(), self.spelling(), self.kind_after(1)));
            }
        };
        let mut comments = Comments { before, behind: None };
        let span = start.to(self.last());
        self.settle(&mut comments);
        Ok(Statement { kind, span, comments, apart })
    }

    /// A statement must end here.
    fn end(&mut self, what: &Expected) -> Parsed<()> {
        if self.ends() {
            return Ok(());
        }
        self.expected(what)
    }

    /// Whether it does: what begins a line without an indent is taken for another statement, whatever it is.
    fn ends(&mut self) -> bool {
        if self.kind() == TokenKind::Semicolon {
            self.complain(mistakes::semicolon_between_statements(self.span()));
            self.take();
        }
        self.is_end_of_statement() || self.text[..self.span().start].ends_with('\n')
    }

    fn format(&mut self) -> Parsed<StatementKind> {
        self.take();
        if self.kind() != TokenKind::Number {
            return self.expected(&mistakes::FORMAT_NUMBER);
        }
        let (number, span) = self.number();
        self.end(&mistakes::END_OF_FORMAT)?;
        Ok(StatementKind::Format { number, span })
    }

    fn external(&mut self) -> Parsed<StatementKind> {
        self.take();
        self.end(&mistakes::END_OF_EXTERNAL)?;
        Ok(StatementKind::External)
    }

    fn our_key(&mut self) -> Parsed<StatementKind> {
        let our = self.take();
        if !self.take_if(TokenKind::Reserved(Word::Key)) {
            if !matches!(self.kind(), TokenKind::Name | TokenKind::Key) {
                return self.expected(&mistakes::KEY_BEHIND_OUR);
            }
            self.complain(mistakes::our_without_key(our, self.spelling()));
        }
        if self.kind() == TokenKind::Equals {
            self.complain(mistakes::our_key_equals(self.span()));
            self.take();
        }
        let key = self.term()?;
        if self.kind() == TokenKind::Equals && self.kind_after(1) == TokenKind::Key {
            self.complain(mistakes::our_key_declared(key.span.to(self.tokens[self.next + 1].span), self.text_of(key.span)));
            self.take();
            self.take();
        }
        self.end(&mistakes::END_OF_OUR_KEY)?;
        Ok(StatementKind::OurKey(key))
    }

    fn keys(&mut self) -> Parsed<StatementKind> {
        self.take();
        let mut declared = Vec::new();
        loop {
            let before = self.comments_before();
            let name = self.declared_name(&mistakes::NAME_OF_KEY, |next| next == TokenKind::Equals)?;
            self.equals(&mistakes::EQUALS_OF_KEY)?;
            let number = self.declared_key()?;
            let span = name.span.to(self.last());
            let mut declaration = KeyDeclaration { name, number, span, comments: Comments { before, behind: None } };
            let another = self.another_declaration(&mut declaration.comments);
            declared.push(declaration);
            if !another {
                break;
            }
        }
        self.end(&mistakes::END_OF_KEYS)?;
        Ok(StatementKind::Keys(declared))
    }

    fn lists(&mut self) -> Parsed<StatementKind> {
        self.take();
        let mut declared = Vec::new();
        loop {
            let before = self.comments_before();
            let follows = |next| matches!(next, TokenKind::Equals | TokenKind::Plus | TokenKind::Minus);
            let name = self.declared_name(&mistakes::NAME_OF_LIST, follows)?;
            let (number, polarity) = self.declared_list(&name)?;
            let span = name.span.to(self.last());
            let mut declaration = ListDeclaration { name, number, polarity, span, comments: Comments { before, behind: None } };
            let another = self.another_declaration(&mut declaration.comments);
            declared.push(declaration);
            if !another {
                break;
            }
        }
        self.end(&mistakes::END_OF_LISTS)?;
        Ok(StatementKind::Lists(declared))
    }

    /// Behind its name: `= 1 +`.
    fn declared_list(&mut self, name: &Identifier) -> Parsed<(u32, Polarity)> {
        let early = self.sign();
        self.equals(&mistakes::EQUALS_OF_LIST)?;
        let early = early.or_else(|| self.sign());
        if self.kind() != TokenKind::Number {
            return self.expected(&mistakes::NUMBER_OF_LIST);
        }
        let (number, span) = self.number();
        let polarity = match (early, self.sign()) {
            (None, Some((polarity, _))) => polarity,
            (Some((polarity, place)), _) => {
                self.complain(mistakes::sign_before_number(place, span));
                polarity
            }
            (None, None) => {
                self.complain(mistakes::list_without_sign(self.behind_last(), &name.text, number));
                Polarity::Plus
            }
        };
        Ok((number, polarity))
    }

    fn define(&mut self) -> Parsed<StatementKind> {
        self.take();
        let follows = |next| matches!(next, TokenKind::Number | TokenKind::Plus | TokenKind::Minus | TokenKind::Equals);
        let name = self.declared_name(&mistakes::NAME_OF_DEFINITION, follows)?;
        let mut number = self.number_if_any();
        let sign = self.sign();
        let (polarity, polarity_span) = match sign {
            Some(sign) => sign,
            None if self.kind() == TokenKind::Equals => {
                self.complain(mistakes::definition_without_sign(self.behind_last(), &name.text));
                (Polarity::Plus, self.behind_last())
            }
            None => return self.expected(&mistakes::SIGN_OF_DEFINITION),
        };
        if let (None, Some((late, span))) = (number, self.number_if_any()) {
            self.complain(mistakes::sign_before_number(polarity_span, span));
            number = Some((late, span));
        }
        self.equals(&mistakes::EQUALS_OF_DEFINITION)?;
        let expression = self.whole_expression()?;
        Ok(StatementKind::Define(Definition { name, number, polarity, polarity_span, expression }))
    }

    fn query(&mut self) -> Parsed<StatementKind> {
        self.take();
        if self.kind() == TokenKind::Equals {
            self.complain(mistakes::query_equals(self.span()));
            self.take();
        }
        Ok(StatementKind::Query(self.whole_expression()?))
    }

    /// One that ends its statement.
    fn whole_expression(&mut self) -> Parsed<Expression> {
        let expression = self.expression()?;
        if self.ends() {
            return Ok(expression);
        }
        self.fail(mistakes::behind_expression(self.token(), self.spelling()))
    }

    // ---- what statements are made of

    /// `follows` says what may come behind such a name, for words that cannot be one.
    fn declared_name(&mut self, what: &Expected, follows: impl Fn(TokenKind) -> bool) -> Parsed<Identifier> {
        let name = Identifier { text: self.spelling().to_string(), span: self.span() };
        let problem = match self.kind() {
            TokenKind::Name => None,
            TokenKind::Key => Some(mistakes::key_as_name(name.span, &name.text)),
            TokenKind::Reserved(word) if follows(self.kind_after(1)) => Some(mistakes::reserved(word, name.span)),
            TokenKind::Any => Some(mistakes::any_as_name(name.span)),
            _ => return self.expected(what),
        };
        self.problems.extend(problem);
        self.take();
        Ok(name)
    }

    fn equals(&mut self, what: &Expected) -> Parsed<()> {
        match self.kind() {
            TokenKind::Equals => {
                self.take();
                Ok(())
            }
            TokenKind::Colon => {
                self.complain(mistakes::colon_for_equals(self.span()));
                self.take();
                Ok(())
            }
            kind if begins_a_term(kind) || begins_an_operand(kind) => {
                self.complain(mistakes::no_equals(what, self.behind_last()));
                Ok(())
            }
            _ => self.expected(what),
        }
    }

    pub(super) fn sign(&mut self) -> Option<(Polarity, Span)> {
        let polarity = match self.kind() {
            TokenKind::Plus => Polarity::Plus,
            TokenKind::Minus => Polarity::Minus,
            _ => return None,
        };
        Some((polarity, self.take()))
    }

    /// The next token is one. One that is too large is complained of.
    pub(super) fn number(&mut self) -> (u32, Span) {
        let number = value(self.spelling());
        if number >= FIRST_KEY {
            self.complain(mistakes::number_too_large(self.span()));
        }
        (small(number), self.take())
    }

    fn number_if_any(&mut self) -> Option<(u32, Span)> {
        (self.kind() == TokenKind::Number).then(|| self.number())
    }

    /// The next token is a kN.
    pub(super) fn key(&mut self) -> u32 {
        let number = value(&self.spelling()[1..]);
        if number >= FIRST_KEY {
            self.complain(mistakes::key_too_large(self.span(), number));
        }
        self.take();
        small(number)
    }

    fn declared_key(&mut self) -> Parsed<u32> {
        match self.kind() {
            TokenKind::Key => Ok(self.key()),
            TokenKind::Number => {
                let number = value(self.spelling());
                self.complain(mistakes::key_without_k(self.span(), number));
                self.take();
                Ok(small(number))
            }
            TokenKind::Name if self.spelling().strip_prefix('K').is_some_and(|digits| value(digits) < FIRST_KEY) => {
                self.complain(mistakes::key_in_capitals(self.span(), self.spelling()));
                self.take();
                Ok(0)
            }
            _ => self.expected(&mistakes::A_KEY),
        }
    }

    fn another_declaration(&mut self, comments: &mut Comments) -> bool {
        let declaration_at =
            |place: usize| matches!(self.kind_after(place), TokenKind::Name | TokenKind::Key | TokenKind::Reserved(_) | TokenKind::Any);
        match self.kind() {
            TokenKind::Comma => {
                let comma = self.take();
                self.settle(comments);
                if self.kind() == TokenKind::End || (self.is_end_of_statement() && self.kind_after(1) != TokenKind::Equals) {
                    self.complain(mistakes::nothing_behind_comma(comma));
                    return false;
                }
                true
            }
            TokenKind::Semicolon if declaration_at(1) && self.kind_after(2) == TokenKind::Equals => {
                self.complain(mistakes::semicolon_for_comma(self.span()));
                self.take();
                true
            }
            TokenKind::Name | TokenKind::Key if self.kind_after(1) == TokenKind::Equals => {
                self.complain(mistakes::no_comma(Separated::Declarations, self.behind_last()));
                true
            }
            _ => false,
        }
    }
}
