//! From a text to its tree. After a mistake that leaves no doubt what was meant, reading goes on as if it were right; after any other, with the next
//! statement. So one run finds many mistakes. Those that depend on what names stand for are not looked for here.

mod braces;
mod expressions;
mod mistakes;
mod rows;
mod statements;
#[cfg(test)]
mod tests;

use crate::problem::{Problem, Sources};
use crate::say::in_order;
use crate::syntax::{Comment, Comments, Expression, ExpressionKind, File, Span};
use crate::token::{tokens, Token, TokenKind, Word};
use mistakes::Expected;

/// The tree of a whole file, or all that is wrong with its text.
///
/// ```
/// use txindurbe_language::{parse, Sources};
///
/// let mut sources = Sources::default();
/// let source = sources.add("public.qcm", "list released = 1, withdrawn = 2 -");
/// let problems = parse(&sources, source).unwrap_err();
/// assert_eq!(problems[0].message, "a list has a sign: the + list and the − list of one number are two lists");
/// assert_eq!(problems[0].labels[0].span.start, "list released = 1".len());
/// ```
pub fn parse(sources: &Sources, source: usize) -> Result<File, Vec<Problem>> {
    let mut parser = Parser::new(&sources.texts[source].text, source);
    let file = parser.file();
    parser.done(file)
}

/// The same for a text that is one expression.
///
/// ```
/// use txindurbe_language::{parse_expression, print_expression, Sources};
///
/// let mut sources = Sources::default();
/// let source = sources.add("the query", "alma . released union{(7)}");
/// let expression = parse_expression(&sources, source).expect("it is one expression");
/// assert_eq!(print_expression(&expression), "alma.released union { (7) }");
/// ```
pub fn parse_expression(sources: &Sources, source: usize) -> Result<Expression, Vec<Problem>> {
    let mut parser = Parser::new(&sources.texts[source].text, source);
    match parser.only_expression() {
        Ok(expression) => parser.done(expression),
        Err(Failed) => Err(in_order(parser.problems)),
    }
}

/// So many expressions may stand inside one another. The engine takes 15; this keeps the parser, and all that walks its trees, from running out of stack.
const DEEPEST: usize = 50;

/// Atoms from here up are keys.
const FIRST_KEY: u64 = 1 << 31;

/// What is wrong has been noted, and nothing can be made of the rest of the statement.
struct Failed;

type Parsed<T> = Result<T, Failed>;

/// A comment that nothing has taken yet.
struct Waiting {
    comment: Comment,
    /// Whether it stands behind a token.
    behind: bool,
}

struct Parser<'a> {
    text: &'a str,
    tokens: Vec<Token>,
    /// The place of the token that is next.
    next: usize,
    waiting: Vec<Waiting>,
    /// The braces and parentheses that are open here.
    open: Vec<Span>,
    /// How many expressions the next token stands in.
    nested: usize,
    /// How many stand inside one another in the expression read last.
    height: usize,
    problems: Vec<Problem>,
}

impl<'a> Parser<'a> {
    fn new(text: &'a str, source: usize) -> Parser<'a> {
        let mut problems = Vec::new();
        let tokens = tokens(text, source, &mut problems);
        Parser { text, tokens, next: 0, waiting: Vec::new(), open: Vec::new(), nested: 0, height: 0, problems }
    }

    fn done<T>(self, read: T) -> Result<T, Vec<Problem>> {
        if self.problems.is_empty() {
            Ok(read)
        } else {
            Err(in_order(self.problems))
        }
    }

    // ---- tokens

    fn token(&self) -> &Token {
        &self.tokens[self.next]
    }

    fn kind(&self) -> TokenKind {
        self.token().kind
    }

    /// That of the token so many after the next one.
    fn kind_after(&self, count: usize) -> TokenKind {
        self.tokens.get(self.next + count).map_or(TokenKind::End, |token| token.kind)
    }

    fn span(&self) -> Span {
        self.token().span
    }

    fn text_of(&self, span: Span) -> &'a str {
        &self.text[span.start..span.end]
    }

    /// The next token as it is written.
    fn spelling(&self) -> &'a str {
        self.text_of(self.span())
    }

    /// The token that was taken last.
    fn last(&self) -> Span {
        self.tokens[self.next.saturating_sub(1)].span
    }

    /// Right behind the token that was taken last.
    fn behind_last(&self) -> Span {
        Span { start: self.last().end, ..self.last() }
    }

    fn is(&self, word: Word) -> bool {
        self.kind() == TokenKind::Reserved(word)
    }

    /// The text ends here, or the next statement begins.
    fn is_end_of_statement(&self) -> bool {
        match self.kind() {
            TokenKind::End => true,
            TokenKind::Reserved(word) => word.begins_a_statement(),
            _ => false,
        }
    }

    /// Whether a statement begins here, and not a word that was taken for a name.
    fn is_statement(&self) -> bool {
        let TokenKind::Reserved(word) = self.kind() else { return false };
        let (next, second) = (self.kind_after(1), self.kind_after(2));
        match word {
            Word::Format => next == TokenKind::Number,
            Word::External => true,
            Word::Our => next == TokenKind::Reserved(Word::Key),
            Word::Key | Word::List => next == TokenKind::Name && second == TokenKind::Equals,
            Word::Define => next == TokenKind::Name && matches!(second, TokenKind::Number | TokenKind::Plus | TokenKind::Minus | TokenKind::Equals),
            Word::Query => begins_an_operand(next),
            _ => false,
        }
    }

    /// A word that may stand here because it was taken for a name.
    fn is_word_for_name(&self) -> bool {
        let TokenKind::Reserved(word) = self.kind() else { return false };
        let plausible = word.begins_a_statement() || matches!(word, Word::By | Word::But | Word::Vetted);
        plausible && !self.is_statement()
    }

    /// The end of the text is never taken.
    fn take(&mut self) -> Span {
        let token = &mut self.tokens[self.next];
        if token.kind != TokenKind::End {
            let before = std::mem::take(&mut token.comments).into_iter().map(|comment| Waiting { comment, behind: false });
            let behind = token.comment_behind.take().map(|text| Waiting { comment: Comment { text, apart: false }, behind: true });
            self.waiting.extend(before.chain(behind));
            self.next += 1;
            return self.last();
        }
        token.span
    }

    fn take_if(&mut self, kind: TokenKind) -> bool {
        let found = self.kind() == kind;
        if found {
            self.take();
        }
        found
    }

    /// Takes an opening brace or parenthesis.
    fn open(&mut self) {
        let bracket = self.take();
        self.open.push(bracket);
    }

    /// Takes the closing one. All from the opening one to it.
    fn close(&mut self) -> Span {
        let close = self.take();
        self.open.pop().unwrap_or(close).to(close)
    }

    // ---- mistakes

    /// Notes what is wrong; reading goes on.
    fn complain(&mut self, problem: Problem) {
        self.problems.push(problem);
    }

    /// Notes what is wrong with the next token, unless that has been complained of already.
    fn fail<T>(&mut self, problem: Problem) -> Parsed<T> {
        if self.kind() != TokenKind::Strange {
            self.complain(problem);
        }
        Err(Failed)
    }

    /// Fails: none of what may stand here.
    fn expected<T>(&mut self, what: &Expected) -> Parsed<T> {
        let problem = mistakes::expected(what, self.token(), self.spelling());
        match self.open.last() {
            Some(open) if self.is_end_of_statement() => self.fail(mistakes::also_open(problem, *open, self.text_of(*open))),
            _ => self.fail(problem),
        }
    }

    /// To the next word that begins a statement.
    fn skip(&mut self) {
        // The one that was not expected may have been taken for a name.
        let begins_one = self.is_statement() || (self.is_end_of_statement() && self.token().first_on_line);
        if !begins_one {
            self.take();
        }
        while !self.is_end_of_statement() {
            self.take();
        }
        self.waiting.clear();
        self.open.clear();
        self.nested = 0;
    }

    // ---- comments

    /// Those before what begins with the next token.
    fn comments_before(&mut self) -> Vec<Comment> {
        let mut found: Vec<Comment> = self.waiting.drain(..).map(|waiting| Comment { apart: false, ..waiting.comment }).collect();
        found.append(&mut self.tokens[self.next].comments);
        found
    }

    /// Gives what ends here the comments that stand in it and that nothing smaller has taken.
    fn settle(&mut self, comments: &mut Comments) {
        comments.behind = self.waiting.pop_if(|waiting| waiting.behind).map(|waiting| waiting.comment.text);
        let others = self.waiting.drain(..).map(|waiting| Comment { apart: false, ..waiting.comment });
        comments.before.extend(others);
    }
}

/// With no comments yet.
fn bare(kind: ExpressionKind, span: Span) -> Expression {
    Expression { kind, span, comments: Comments::default(), comments_at_end: Vec::new() }
}

fn begins_a_term(kind: TokenKind) -> bool {
    matches!(kind, TokenKind::Number | TokenKind::Key | TokenKind::Name | TokenKind::Any)
}

fn begins_an_operand(kind: TokenKind) -> bool {
    let in_brackets = matches!(kind, TokenKind::LeftBrace | TokenKind::LeftParenthesis | TokenKind::Reserved(Word::All));
    in_brackets || matches!(kind, TokenKind::Name | TokenKind::Key)
}

/// Of digits; the greatest number there is if it is greater.
fn value(digits: &str) -> u64 {
    digits.parse().unwrap_or(u64::MAX)
}

/// For the tree; one that is too large has been complained of.
fn small(number: u64) -> u32 {
    u32::try_from(number).ok().filter(|&number| u64::from(number) < FIRST_KEY).unwrap_or_default()
}
