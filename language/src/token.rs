//! A text taken apart into tokens. Comments hang on the tokens that they stand beside. What is none of the language's signs is complained of here; where it
//! is plain what was meant, the parser gets that.

use crate::problem::Problem;
use crate::syntax::{Comment, Span};

/// The words that are no names.
#[derive(Clone, Copy, PartialEq, Eq, Debug)]
pub(crate) enum Word {
    Format,
    External,
    Our,
    Key,
    List,
    Define,
    Query,
    Union,
    Minus,
    All,
    But,
    In,
    Not,
    Vetted,
    By,
}

impl Word {
    const ALL: [Word; 15] = [
        Word::Format,
        Word::External,
        Word::Our,
        Word::Key,
        Word::List,
        Word::Define,
        Word::Query,
        Word::Union,
        Word::Minus,
        Word::All,
        Word::But,
        Word::In,
        Word::Not,
        Word::Vetted,
        Word::By,
    ];

    pub fn text(self) -> &'static str {
        match self {
            Word::Format => "format",
            Word::External => "external",
            Word::Our => "our",
            Word::Key => "key",
            Word::List => "list",
            Word::Define => "define",
            Word::Query => "query",
            Word::Union => "union",
            Word::Minus => "minus",
            Word::All => "all",
            Word::But => "but",
            Word::In => "in",
            Word::Not => "not",
            Word::Vetted => "vetted",
            Word::By => "by",
        }
    }

    fn of(text: &str) -> Option<Word> {
        Word::ALL.into_iter().find(|word| word.text() == text)
    }

    /// The word that this is, were it written in small letters.
    pub fn in_small_letters(text: &str) -> Option<Word> {
        Word::of(&text.to_ascii_lowercase()).filter(|word| word.text() != text)
    }

    pub fn begins_a_statement(self) -> bool {
        matches!(self, Word::Format | Word::External | Word::Our | Word::Key | Word::List | Word::Define | Word::Query)
    }
}

#[derive(Clone, Copy, PartialEq, Eq, Debug)]
pub(crate) enum TokenKind {
    Reserved(Word),
    Name,
    /// kN
    Key,
    Number,
    /// `_`
    Any,
    LeftBrace,
    RightBrace,
    LeftParenthesis,
    RightParenthesis,
    Bar,
    Comma,
    Dot,
    Equals,
    Differs,
    Plus,
    Minus,
    /// Never right. What was meant depends on the place, as with the two below.
    Colon,
    Semicolon,
    And,
    /// None of ours, and complained of already.
    Strange,
    /// The end of the text.
    End,
}

#[derive(Clone, PartialEq, Eq, Debug)]
pub(crate) struct Token {
    pub kind: TokenKind,
    pub span: Span,
    /// On lines before it.
    pub comments: Vec<Comment>,
    /// On its line, behind it.
    pub comment_behind: Option<String>,
    pub first_on_line: bool,
    /// Whether an empty line stands before it.
    pub apart: bool,
}

/// Ends with an [`End`](TokenKind::End), which holds the comments after the last token.
pub(crate) fn tokens(text: &str, source: usize, problems: &mut Vec<Problem>) -> Vec<Token> {
    let mut reader = Reader { text, source, at: 0, lines: 0, tokens: Vec::new(), comments: Vec::new(), problems };
    reader.read();
    reader.tokens
}

/// A sign that is none of ours where it is plain what was meant.
struct Mistaken {
    written: &'static str,
    meant: &'static [TokenKind],
    rule: &'static str,
    mend: &'static str,
}

const fn mistaken(written: &'static str, meant: &'static [TokenKind], rule: &'static str, mend: &'static str) -> Mistaken {
    Mistaken { written, meant, rule, mend }
}

/// One that begins with another comes before it.
const MISTAKEN: [Mistaken; 17] = [
    mistaken("==", &[TokenKind::Equals], "same is written with one `=`", "write `=`"),
    mistaken(":=", &[TokenKind::Equals], "what a name stands for comes behind `=`", "write `=`"),
    mistaken("<>", &[TokenKind::Differs], "different is written `!=`", "write `!=`"),
    mistaken("/=", &[TokenKind::Differs], "different is written `!=`", "write `!=`"),
    mistaken("≠", &[TokenKind::Differs], "different is written `!=`", "write `!=`"),
    mistaken("∪", &[TokenKind::Reserved(Word::Union)], "both together are written with `union`", "write `union`"),
    mistaken("∖", &[TokenKind::Reserved(Word::Minus)], "the difference is written with `minus`", "write `minus`"),
    mistaken("\\", &[TokenKind::Reserved(Word::Minus)], "the difference is written with `minus`", "write `minus`"),
    mistaken("∈", &[TokenKind::Reserved(Word::In)], "a draw is written with `in`", "write `in`"),
    mistaken("∉", &[TokenKind::Reserved(Word::Not), TokenKind::Reserved(Word::In)], "absent is written with `not in`", "write `not in`"),
    mistaken("$", &[TokenKind::Dot], "a key's list is written with a dot", "write `.`"),
    mistaken("–", &[TokenKind::Minus], "the sign of a − list is written `-`", "write `-`"),
    mistaken("—", &[TokenKind::Minus], "the sign of a − list is written `-`", "write `-`"),
    mistaken("‖", &[TokenKind::Bar], "`|` stands between a comprehension's head and its guards", "write `|`"),
    mistaken("∣", &[TokenKind::Bar], "`|` stands between a comprehension's head and its guards", "write `|`"),
    mistaken("[", &[TokenKind::LeftBrace], "sets stand in braces, rows in parentheses", "write `{` for a set, `(` for a row"),
    mistaken("]", &[TokenKind::RightBrace], "sets stand in braces, rows in parentheses", "write `}` for a set, `)` for a row"),
];

/// Those of the language, and those that the parser is to complain of.
const SIGNS: [(&str, TokenKind); 17] = [
    ("!=", TokenKind::Differs),
    ("{", TokenKind::LeftBrace),
    ("}", TokenKind::RightBrace),
    ("(", TokenKind::LeftParenthesis),
    (")", TokenKind::RightParenthesis),
    ("|", TokenKind::Bar),
    (",", TokenKind::Comma),
    (".", TokenKind::Dot),
    ("=", TokenKind::Equals),
    ("+", TokenKind::Plus),
    ("-", TokenKind::Minus),
    ("−", TokenKind::Minus),
    (":", TokenKind::Colon),
    (";", TokenKind::Semicolon),
    ("&&", TokenKind::And),
    ("&", TokenKind::And),
    ("∧", TokenKind::And),
];

/// How comments begin in other languages.
const COMMENTS_ELSEWHERE: [&str; 4] = ["//", "/*", "--", "%"];

struct Reader<'a> {
    text: &'a str,
    source: usize,
    at: usize,
    /// Ends of lines since the last token or comment.
    lines: usize,
    tokens: Vec<Token>,
    /// Those before the next token.
    comments: Vec<Comment>,
    problems: &'a mut Vec<Problem>,
}

impl Reader<'_> {
    fn read(&mut self) {
        if self.rest().starts_with('\u{feff}') {
            self.at += '\u{feff}'.len_utf8();
        }
        while let Some(letter) = self.rest().chars().next() {
            if letter.is_whitespace() {
                self.at += letter.len_utf8();
                self.lines += usize::from(letter == '\n');
            } else if letter == '#' {
                self.comment();
            } else if is_of_a_word(letter) {
                self.word();
            } else {
                self.sign(letter);
            }
        }
        let end = self.tokens.last().map_or(self.text.len(), |token| token.span.end);
        self.push(TokenKind::End, end, end);
    }

    fn rest(&self) -> &str {
        &self.text[self.at..]
    }

    /// How many bytes of what comes next are made of such letters.
    fn run(&self, mut belongs: impl FnMut(char) -> bool) -> usize {
        self.rest().find(|letter| !belongs(letter)).unwrap_or(self.rest().len())
    }

    fn span(&self, length: usize) -> Span {
        Span { source: self.source, start: self.at, end: self.at + length }
    }

    fn push(&mut self, kind: TokenKind, start: usize, end: usize) {
        self.tokens.push(Token {
            kind,
            span: Span { source: self.source, start, end },
            comments: std::mem::take(&mut self.comments),
            comment_behind: None,
            first_on_line: self.lines > 0 || self.tokens.is_empty(),
            apart: self.lines > 1,
        });
        self.lines = 0;
    }

    fn token(&mut self, kind: TokenKind, length: usize) {
        self.push(kind, self.at, self.at + length);
        self.at += length;
    }

    fn comment(&mut self) {
        let length = self.run(|letter| letter != '\n');
        let text = self.rest()[1..length].trim_end().to_string();
        self.at += length;
        match self.tokens.last_mut() {
            Some(token) if self.lines == 0 => token.comment_behind = Some(text),
            _ => self.comments.push(Comment { text, apart: self.lines > 1 }),
        }
        self.lines = 0;
    }

    fn word(&mut self) {
        let length = self.run(is_of_a_word);
        let text = &self.rest()[..length];
        let kind = match Word::of(text) {
            Some(word) => TokenKind::Reserved(word),
            None if text == "_" => TokenKind::Any,
            None if is_number(text) => TokenKind::Number,
            None if text.strip_prefix('k').is_some_and(is_number) => TokenKind::Key,
            None if text.starts_with(|letter: char| letter.is_ascii_digit() || letter == '_') => TokenKind::Strange,
            None => TokenKind::Name,
        };
        self.problems.extend(misspelt(text, kind, self.span(length)));
        self.token(kind, length);
    }

    fn sign(&mut self, letter: char) {
        if let Some(sign) = MISTAKEN.iter().find(|sign| self.rest().starts_with(sign.written)) {
            let length = sign.written.len();
            let problem = Problem::error(sign.rule).at(self.span(length), format!("not `{}`", sign.written)).mend(sign.mend);
            self.problems.push(problem);
            for kind in sign.meant {
                self.push(*kind, self.at, self.at + length);
            }
            self.at += length;
        } else if COMMENTS_ELSEWHERE.iter().any(|begin| self.rest().starts_with(begin)) {
            self.comment_elsewhere();
        } else if let Some((text, kind)) = SIGNS.iter().find(|(text, _)| self.rest().starts_with(text)) {
            self.token(*kind, text.len());
        } else if is_quote(letter) {
            self.quoted();
        } else {
            self.strange();
        }
    }

    fn comment_elsewhere(&mut self) {
        let length = self.run(|letter| letter != '\n');
        let problem = Problem::error("a comment begins with `#` and goes to the end of the line");
        self.problems.push(problem.at(self.span(length), "read as a comment").mend("begin it with `#`"));
        self.at += length;
    }

    fn quoted(&mut self) {
        let mut quotes = 0;
        let line = self.run(|letter| letter != '\n');
        let closed = self.rest()[..line].char_indices().find(|(_, letter)| {
            quotes += usize::from(is_quote(*letter));
            quotes == 2
        });
        let length = closed.map_or(line, |(place, letter)| place + letter.len_utf8());
        let problem = Problem::error("names are written without quotes, and there are no other texts");
        self.problems.push(problem.at(self.span(length), "in quotes").mend("leave the quotes out"));
        self.token(TokenKind::Strange, length);
    }

    fn strange(&mut self) {
        let first = self.rest().chars().next().map_or(0, char::len_utf8);
        let length = self.run(|letter| !letter.is_whitespace() && !is_of_a_word(letter) && !is_known(letter)).max(first);
        let text = &self.rest()[..length];
        let (rule, mend) = match text {
            "<" | ">" | "≤" | "≥" | "~" => {
                ("atoms are not ordered: a guard can only say that they are the same or different", "write `=` or `!=`")
            }
            "!" | "¬" => ("not is written `not in` for rows and `!=` for terms", "write `(x) not in ..` or `x != ..`"),
            "∩" => ("there is no sign for what two sets share: draw from one, then from the other", "write `{ (x) | (x) in .., (x) in .. }`"),
            "*" | "?" => ("any atom is written `_`, in the pattern of a draw", "write `_`"),
            "∅" => ("the empty set is written `{}`", "write `{}`"),
            "@" | "/" | "→" => ("a key's list is written with a dot", "write `alma.released`"),
            _ => ("a text has names, numbers, keys, `{ } ( ) | , . = != + -` and comments behind `#`", "take it out"),
        };
        let problem = Problem::error(rule).at(self.span(length), format!("`{text}` is none of ours")).mend(mend);
        self.problems.push(problem);
        self.token(TokenKind::Strange, length);
    }
}

fn is_of_a_word(letter: char) -> bool {
    letter.is_alphanumeric() || letter == '_'
}

fn is_quote(letter: char) -> bool {
    matches!(letter, '"' | '\'' | '`' | '“' | '”' | '‘' | '’' | '„' | '«' | '»')
}

/// Whether something that is not strange begins with it.
fn is_known(letter: char) -> bool {
    let begins = |text: &str| text.starts_with(letter);
    let of_a_sign = SIGNS.iter().any(|(text, _)| begins(text)) || MISTAKEN.iter().any(|sign| begins(sign.written));
    of_a_sign || COMMENTS_ELSEWHERE.into_iter().any(begins) || is_quote(letter) || letter == '#'
}

fn is_number(text: &str) -> bool {
    !text.is_empty() && text.bytes().all(|letter| letter.is_ascii_digit())
}

/// What is wrong with a name or a number as it is spelt.
fn misspelt(text: &str, kind: TokenKind, span: Span) -> Option<Problem> {
    let digits = text.trim_start_matches('k');
    match kind {
        TokenKind::Strange if text.bytes().all(|letter| letter.is_ascii_digit() || letter == b'_') && !text.starts_with('_') => {
            let problem = Problem::error("a number is written with digits alone").at(span, "not a number");
            Some(problem.mend(format!("write `{}`", text.replace('_', ""))))
        }
        TokenKind::Strange => {
            Some(Problem::error("a name begins with a letter").at(span, "neither a name nor a number").mend("begin it with a letter"))
        }
        TokenKind::Number | TokenKind::Key if digits.len() > 1 && digits.starts_with('0') => {
            let without = digits.trim_start_matches('0');
            let without = if without.is_empty() { "0" } else { without };
            let sign = &text[..text.len() - digits.len()];
            let problem = Problem::error("a number does not begin with 0").at(span, "written with a 0 too many");
            Some(problem.mend(format!("write `{sign}{without}`; a thousand is `1000`, without a comma")))
        }
        TokenKind::Name if !text.is_ascii() => {
            let problem = Problem::error("a name is written with the letters a to z and A to Z, digits and `_`");
            Some(problem.at(span, "has other letters").mend("spell it with those"))
        }
        _ => None,
    }
}
