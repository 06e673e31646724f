//! What the parser says of each mistake: the rule, the place, and what would be right.

use crate::problem::Problem;
use crate::say;
use crate::syntax::Span;
use crate::token::{Token, TokenKind, Word};

/// Several things with commas between them, or an expression's operands.
#[derive(Clone, Copy, PartialEq, Eq, Debug)]
pub(super) enum Separated {
    Declarations,
    Rows,
    Terms,
    Guards,
    Operands,
}

impl Separated {
    /// What stands behind the last one.
    pub fn closing(self) -> TokenKind {
        match self {
            Separated::Rows | Separated::Guards => TokenKind::RightBrace,
            Separated::Terms | Separated::Operands => TokenKind::RightParenthesis,
            Separated::Declarations => TokenKind::End,
        }
    }

    fn text(self) -> &'static str {
        match self {
            Separated::Declarations => "declarations",
            Separated::Rows => "rows",
            Separated::Terms => "terms",
            Separated::Guards => "guards",
            Separated::Operands => "sets",
        }
    }

    /// The sign that closes them, and what it is called.
    fn bracket(self) -> (&'static str, &'static str) {
        match self {
            Separated::Rows | Separated::Guards => ("}", "brace"),
            _ => (")", "parenthesis"),
        }
    }
}

/// What must stand at a place, and how to write it.
pub(super) struct Expected {
    rule: &'static str,
    mend: &'static str,
}

const fn rule(rule: &'static str, mend: &'static str) -> Expected {
    Expected { rule, mend }
}

pub(super) const FORMAT_NUMBER: Expected = rule("`format` is followed by 1 or 2", "write `format 1` or `format 2`");
pub(super) const END_OF_FORMAT: Expected = rule("behind `format` and its number comes the next statement", "take it out");
pub(super) const END_OF_EXTERNAL: Expected = rule("behind `external` comes the next statement", "take it out");
pub(super) const KEY_BEHIND_OUR: Expected = rule("`our` is followed by `key` and the key that is ours", "write `our key archive` or `our key k9`");
pub(super) const END_OF_OUR_KEY: Expected = rule("one key is ours, and behind it comes the next statement", "take it out");
pub(super) const NAME_OF_KEY: Expected = rule("`key` is followed by a name", "write `key alma = k1`");
pub(super) const EQUALS_OF_KEY: Expected = rule("a key's name is followed by `=` and the key", "write `key alma = k1`");
pub(super) const A_KEY: Expected = rule("a key is written k and its number", "write `key alma = k1`");
pub(super) const END_OF_KEYS: Expected = rule("behind a key comes a comma and another one, or the next statement", "write `,` between two keys");
pub(super) const NAME_OF_LIST: Expected = rule("`list` is followed by a name", "write `list released = 1 +`");
pub(super) const EQUALS_OF_LIST: Expected = rule("a list's name is followed by `=`, its number and its sign", "write `list released = 1 +`");
pub(super) const NUMBER_OF_LIST: Expected = rule("a list has a number from 0 to 65,535", "write `list released = 1 +`");
pub(super) const END_OF_LISTS: Expected =
    rule("behind a list's sign comes a comma and another list, or the next statement", "write `,` between two lists");
pub(super) const NAME_OF_DEFINITION: Expected = rule("`define` is followed by a name", "write `define public + = ..`");
pub(super) const SIGN_OF_DEFINITION: Expected =
    rule("a definition's name is followed by its sign and `=`", "write `define public + = ..`, or with its number `define public 10 + = ..`");
pub(super) const EQUALS_OF_DEFINITION: Expected =
    rule("a definition's sign is followed by `=` and what it stands for", "write `define public + = ..`");
pub(super) const A_SET: Expected = rule("a set is expected", "write rows, `{ (7) }`, a definition's name, or a key's list, `alma.released`");
pub(super) const A_LIST: Expected = rule("behind a key's dot comes its list", "write its name, `alma.released`, or its number and sign, `alma.1+`");
pub(super) const BY: Expected = rule("`vetted` is followed by `by` and a definition's name", "write `o.released vetted by compromised`");
pub(super) const A_VETTING_DEFINITION: Expected =
    rule("a list is vetted by a definition, written by its name alone", "write `o.released vetted by compromised`");
pub(super) const ROWS_BEHIND_ALL_BUT: Expected = rule("`all but` is followed by rows in braces", "write `all but { (7) }`");
pub(super) const A_ROW: Expected = rule("a row is expected", "write its terms in parentheses: `(7)`, `(alma, x)`");
pub(super) const A_TERM: Expected = rule("a term is expected", "write a number, a key, `k1`, or the name of a key or a variable");
pub(super) const A_GUARD: Expected = rule("a guard is expected", "write `(x) in ..`, `(x) not in ..`, `x = 7` or `x != 7`");
pub(super) const IN: Expected = rule("a row in a guard is followed by `in` or `not in` and a set", "write `(x) in ..` or `(x) not in ..`");

/// A name that is a word of the language but for its capitals.
fn in_capitals(token: &Token, text: &str) -> Option<String> {
    let word = Word::in_small_letters(text).filter(|_| token.kind == TokenKind::Name)?;
    Some(format!("the words of the language are written in small letters: `{}`", word.text()))
}

/// What was likely meant behind a set by a word or a sign of another language.
fn meant_behind_set(token: &Token, text: &str) -> Option<String> {
    let meant = match text.to_ascii_lowercase().as_str() {
        "or" | "plus" => "for the rows of both write `union`",
        "+" => "for the rows of both write `union`; a definition's sign is said where it is defined",
        "|" => "for the rows of both write `union`; a comprehension stands in braces: `{ (x) | (x) in .. }`",
        "vetted" => "only a key's list is vetted, and each by itself: `alma.released vetted by compromised`",
        "except" | "without" | "less" | "-" => "for the rows of one that are not in the other write `minus`",
        "and" | "&" | "&&" | "∧" | "intersect" | "intersection" => "for the rows that are in both write `{ (x) | (x) in .., (x) in .. }`",
        "where" | "if" | "such" => "guards stand behind `|`: `{ (x) | (x) in alma.released, x != 7 }`",
        "is" | "isin" | "notin" => "write `in` or `not in`",
        _ => return in_capitals(token, text),
    };
    Some(meant.to_string())
}

pub(super) fn expected(what: &Expected, token: &Token, text: &str) -> Problem {
    let label = match token.kind {
        TokenKind::Reserved(word) if word.begins_a_statement() => "the next statement begins here".to_string(),
        TokenKind::End => "the text ends here".to_string(),
        _ => format!("not `{text}`"),
    };
    let mend = in_capitals(token, text).unwrap_or_else(|| what.mend.to_string());
    Problem::error(what.rule).at(token.span, label).mend(mend)
}

/// The same where the statement ends although something is open.
pub(super) fn also_open(problem: Problem, open: Span, bracket: &str) -> Problem {
    let name = if bracket == "(" { "parenthesis" } else { "brace" };
    problem.at(open, format!("the {name} opened here is not closed"))
}

// ---- statements

pub(super) fn no_statement(token: &Token, text: &str, next: TokenKind) -> Problem {
    let mend = in_capitals(token, text).unwrap_or_else(|| match (token.kind, next) {
        (TokenKind::Name, TokenKind::Equals) => {
            format!("write `key {text} = ..` for a key, `list {text} = ..` for a list, `define {text} + = ..` for a definition")
        }
        (TokenKind::RightBrace | TokenKind::RightParenthesis, _) => NOTHING_OPEN.to_string(),
        (TokenKind::LeftBrace | TokenKind::LeftParenthesis, _) => {
            "write `query` before what is asked for, `define public + =` before what is defined".to_string()
        }
        _ => "begin it with one of these, or take it out".to_string(),
    });
    let problem = Problem::error("a statement begins with `format`, `external`, `our key`, `key`, `list`, `define` or `query`");
    problem.at(token.span, format!("`{text}` begins none")).mend(mend)
}

const NOTHING_OPEN: &str = "nothing is open that it could close: take it out";

pub(super) fn semicolon_between_statements(span: Span) -> Problem {
    Problem::error("nothing stands between two statements").at(span, "not `;`").mend("take it out")
}

pub(super) fn our_without_key(span: Span, name: &str) -> Problem {
    Problem::error("our key is said by `our key` and the key").at(span, "`key` is missing behind this").mend(format!("write `our key {name}`"))
}

pub(super) fn our_key_equals(span: Span) -> Problem {
    Problem::error("`our key` is followed by the key, without `=`").at(span, "not `=`").mend("take it out: `our key archive`")
}

pub(super) fn our_key_declared(span: Span, name: &str) -> Problem {
    let problem = Problem::error("`our key` says which key is ours, not what a name stands for").at(span, "a declaration");
    problem.mend(format!("write `our key {name}`, and `key {name} = ..` for its number"))
}

pub(super) fn query_equals(span: Span) -> Problem {
    Problem::error("`query` is followed by what is asked for, without `=`").at(span, "not `=`").mend("take it out")
}

// ---- declarations

pub(super) fn key_as_name(span: Span, text: &str) -> Problem {
    let problem = Problem::error(format!("`{text}` is always that key and cannot be the name of something else")).at(span, "a key");
    problem.mend("take a name that is not k and digits alone")
}

pub(super) fn any_as_name(span: Span) -> Problem {
    Problem::error("`_` is no name").at(span, "stands for any atom, in the pattern of a draw").mend("begin the name with a letter")
}

pub(super) fn reserved(word: Word, span: Span) -> Problem {
    let problem = Problem::error(format!("`{}` is a word of the language and cannot be a name", word.text())).at(span, "not a name");
    problem.mend(format!("take another name, as `{}_1`", word.text()))
}

pub(super) fn colon_for_equals(span: Span) -> Problem {
    Problem::error("what a name stands for comes behind `=`").at(span, "not `:`").mend("write `=`")
}

pub(super) fn no_equals(what: &Expected, span: Span) -> Problem {
    Problem::error(what.rule).at(span, "`=` is missing here").mend(what.mend)
}

pub(super) fn key_without_k(span: Span, number: u64) -> Problem {
    let problem = Problem::error("a key is written k and its number").at(span, "a number");
    match number {
        0..super::FIRST_KEY => problem.mend(format!("write `k{number}`")),
        super::FIRST_KEY..=LAST_WORD => problem.mend(format!("write `k{}`, which is this word", number - super::FIRST_KEY)),
        _ => problem.mend(keys_there_are()),
    }
}

pub(super) fn key_in_capitals(span: Span, text: &str) -> Problem {
    Problem::error("a key is written k and its number").at(span, "a capital K").mend(format!("write `{}`", text.to_ascii_lowercase()))
}

pub(super) fn list_without_sign(span: Span, name: &str, number: u32) -> Problem {
    let problem = Problem::error("a list has a sign: the + list and the − list of one number are two lists").at(span, "the sign is missing here");
    problem.mend(format!(
        "write `{name} = {number} +` if its certificates say that a row is in the list, `{name} = {number} -` if they say that it is not"
    ))
}

pub(super) fn number_without_sign(span: Span, number: u32) -> Problem {
    let problem = Problem::error("a list has a sign: the + list and the − list of one number are two lists").at(span, "the sign is missing here");
    problem.mend(format!("write `{number}+` or `{number}-`"))
}

pub(super) fn definition_without_sign(span: Span, name: &str) -> Problem {
    let problem = Problem::error("a definition says its polarity").at(span, "the sign is missing here");
    problem.mend(format!("write `define {name} + =` for rows that certainly belong, `define {name} - =` for all that may"))
}

pub(super) fn sign_before_number(sign: Span, number: Span) -> Problem {
    Problem::error("a sign stands behind its number").at(sign, "the sign").at(number, "the number").mend("write the number, then the sign: `1 +`")
}

// ---- numbers

const LAST_WORD: u64 = u32::MAX as u64;

fn keys_there_are() -> String {
    format!("keys are k0 to k{}", super::FIRST_KEY - 1)
}

fn most() -> String {
    say::number(super::FIRST_KEY as usize - 1)
}

pub(super) fn number_too_large(span: Span) -> Problem {
    Problem::error(format!("numbers go up to {}", most())).at(span, "too large").mend("the number of a list or definition is 0 to 65,535")
}

pub(super) fn atom_too_large(span: Span, number: u64) -> Problem {
    let problem = Problem::error(format!("numbers go up to {}; keys are written k and their number", most())).at(span, "too large for a number");
    match number {
        0..=LAST_WORD => problem.mend(format!("write `k{}` if the key of this word is meant", number.saturating_sub(super::FIRST_KEY))),
        _ => problem.mend("an atom is one word: write a smaller number"),
    }
}

pub(super) fn key_too_large(span: Span, number: u64) -> Problem {
    let problem = Problem::error(keys_there_are()).at(span, "no key");
    match number {
        super::FIRST_KEY..=LAST_WORD => problem.mend(format!("write `k{}` if the key of the word {number} is meant", number - super::FIRST_KEY)),
        _ => problem.mend("write a smaller number"),
    }
}

pub(super) fn signed_number(span: Span) -> Problem {
    Problem::error("numbers have no sign, and none is below 0").at(span, "signed").mend("write the number alone")
}

// ---- between things

pub(super) fn no_comma(what: Separated, span: Span) -> Problem {
    Problem::error(format!("{} are separated by commas", what.text())).at(span, "a comma is missing here").mend("write `,`")
}

pub(super) fn nothing_behind_comma(span: Span) -> Problem {
    Problem::error("a comma stands between two things, and not behind the last one").at(span, "nothing follows").mend("take it out")
}

pub(super) fn semicolon_for_comma(span: Span) -> Problem {
    Problem::error("rows, guards and declarations are separated by commas").at(span, "not `;`").mend("write `,`")
}

pub(super) fn is_and_or(text: &str) -> bool {
    matches!(text.to_ascii_lowercase().as_str(), "and" | "or" | "&" | "&&" | "∧")
}

pub(super) fn and_or(what: Separated, span: Span, text: &str) -> Problem {
    if what == Separated::Guards && text.eq_ignore_ascii_case("or") {
        let problem = Problem::error("all guards of a comprehension must pass").at(span, "guards cannot be alternatives");
        return problem.mend("write one comprehension for each and join them: `{ .. } union { .. }`");
    }
    let rule = match what {
        Separated::Guards => "guards are separated by commas, and all of them must pass".to_string(),
        _ => format!("{} are separated by commas", what.text()),
    };
    Problem::error(rule).at(span, format!("not `{text}`")).mend("write `,`")
}

pub(super) fn not_closed(open: Span, here: Span, what: Separated) -> Problem {
    let (closing, name) = what.bracket();
    let problem = Problem::error(format!("a {name} that is opened must be closed")).at(open, "opened here");
    problem.at(here, "the statement ends here").mend(format!("write `{closing}`"))
}

pub(super) fn not_expected_inside(token: &Token, text: &str, open: Span, what: Separated) -> Problem {
    let (closing, name) = what.bracket();
    let rule = match what {
        Separated::Operands => format!("`union`, `minus` or `{closing}` is expected"),
        _ => format!("a comma or `{closing}` is expected"),
    };
    let behind_set = matches!(what, Separated::Guards | Separated::Operands);
    let likely = if behind_set { meant_behind_set(token, text) } else { in_capitals(token, text) };
    let mend = likely.unwrap_or_else(|| match (what, token.kind) {
        (Separated::Operands, TokenKind::Comma) => "write `{ (..) }` if a row is meant".to_string(),
        (Separated::Guards, TokenKind::Name) => WITH_A_DOT.to_string(),
        (Separated::Terms, TokenKind::Dot) => "a row has numbers, which are whole, keys and names, and no lists".to_string(),
        _ => format!("write `{closing}` before it"),
    });
    let problem = Problem::error(rule).at(token.span, format!("not `{text}`"));
    problem.at(open, format!("the {name} opened here is not closed")).mend(mend)
}

const WITH_A_DOT: &str = "a key's list is written with a dot, `alma.released`";

// ---- expressions

/// What stands behind an expression that is whole.
pub(super) fn behind_expression(token: &Token, text: &str) -> Problem {
    let mend = meant_behind_set(token, text).unwrap_or_else(|| {
        let mend = match token.kind {
            TokenKind::Reserved(Word::In | Word::Not) | TokenKind::Equals | TokenKind::Differs => {
                "guards stand in a comprehension: `{ (x) | (x) in alma.released, x != 7 }`"
            }
            TokenKind::RightBrace | TokenKind::RightParenthesis => NOTHING_OPEN,
            TokenKind::Name => WITH_A_DOT,
            TokenKind::Comma | TokenKind::LeftBrace | TokenKind::LeftParenthesis | TokenKind::Key | TokenKind::Reserved(Word::All) => {
                "sets are joined by `union`"
            }
            _ => "take it out",
        };
        mend.to_string()
    });
    Problem::error("an expression ends here, or goes on with `union` or `minus`").at(token.span, format!("not `{text}`")).mend(mend)
}

pub(super) fn too_deep(span: Span, deepest: usize) -> Problem {
    let problem = Problem::error("an expression stands at depth 15 at most, each one directly inside another one deeper");
    problem.at(span, format!("over {deepest} stand inside one another here")).mend("give the inner ones a name with `define`")
}

pub(super) fn mixed((first, place): (Word, Span), (second, here): (Word, Span)) -> Problem {
    let (first, second) = (first.text(), second.text());
    let problem = Problem::error("`union` and `minus` side by side need parentheses").at(here, format!("`{second}`")).at(place, format!("`{first}`"));
    problem.mend(format!("write `(a {first} b) {second} c` or `a {first} (b {second} c)`"))
}

pub(super) fn sign_for_word(span: Span, word: Word) -> Problem {
    Problem::error("sets are joined by `union` and `minus`").at(span, "not a sign").mend(format!("write `{}`", word.text()))
}

pub(super) fn sign_behind_name(span: Span) -> Problem {
    let problem = Problem::error("a list's sign is said where it is declared").at(span, "not behind its name");
    problem.mend("take it out, or write the list's number before it")
}

pub(super) fn term_for_set(token: &Token, text: &str) -> Problem {
    let problem = Problem::error(A_SET.rule);
    match token.kind {
        TokenKind::Key => problem.at(token.span, "a key").mend(format!("write a list of its, `{text}.released`, or the row alone, `{{ ({text}) }}`")),
        TokenKind::Number => problem.at(token.span, "a number").mend(format!("write `{{ ({text}) }}` for the set of this row")),
        _ => problem.at(token.span, "stands for an atom").mend(A_SET.mend),
    }
}

pub(super) fn row_for_set(span: Span, row: &str) -> Problem {
    Problem::error("a set is expected, and rows are a set only in braces").at(span, "a row").mend(format!("write `{{ {row} }}`"))
}

pub(super) fn definition_vetted(span: Span, name: &str) -> Problem {
    let problem = Problem::error("only a key's list is vetted, not a definition").at(span, format!("`{name}` is no key's list"));
    problem.mend("vet the lists that the definition reads: `o.released vetted by compromised`")
}

pub(super) fn vetted_without_by(span: Span) -> Problem {
    Problem::error("a list is vetted by a definition").at(span, "`by` is missing behind this").mend("write `vetted by`")
}

pub(super) fn all_without_but(span: Span) -> Problem {
    Problem::error("all rows but some are written `all but { (7) }`")
        .at(span, "`but` is missing behind this")
        .mend("write `all but`; all rows are `all but {}`")
}

pub(super) fn all_but_each(span: Span) -> Problem {
    let problem = Problem::error("`all but` is followed by rows, and not by a comprehension").at(span, "a comprehension");
    problem.mend("write `all but {} minus { .. | .. }`")
}

// ---- rows and guards

pub(super) fn row_without_parentheses(span: Span, text: &str) -> Problem {
    let problem = Problem::error("a row is written in parentheses").at(span, "without parentheses");
    problem.mend(format!("write `({text})`"))
}

pub(super) fn empty_row(span: Span) -> Problem {
    Problem::error("a row has 1 to 4 atoms").refused(3).at(span, "has none").mend("write a row as `(7)`, the empty set as `{}`")
}

pub(super) fn no_head(span: Span) -> Problem {
    let problem = Problem::error("a comprehension has a row before `|`, its head").at(span, "nothing stands before this");
    problem.mend("write the row to be shown: `{ (x) | (x) in .. }`")
}

pub(super) fn no_head_but_guard(span: Span, text: &str) -> Problem {
    let problem = Problem::error("a comprehension has a row and `|` before its guards, its head").at(span, "a guard begins here");
    problem.mend(format!("write the row to be shown before it: `{{ ({text}) | ({text}) in .. }}`"))
}

pub(super) fn no_bar(span: Span) -> Problem {
    Problem::error("`|` stands between a comprehension's head and its guards").at(span, "`|` is missing here").mend("write `|`")
}

pub(super) fn colon_for_bar(span: Span) -> Problem {
    Problem::error("`|` stands between a comprehension's head and its guards").at(span, "not `:`").mend("write `|`")
}

pub(super) fn comma_for_bar(span: Span) -> Problem {
    let problem = Problem::error("`|` stands between a comprehension's head and its guards").at(span, "separated by a comma");
    problem.mend("write `|` behind the head")
}

pub(super) fn second_bar(span: Span) -> Problem {
    Problem::error("guards are separated by commas").at(span, "a second `|`").mend("write `,`")
}

pub(super) fn several_heads(span: Span) -> Problem {
    let problem = Problem::error("a comprehension has one row before `|`, its head").at(span, "several rows");
    problem.mend("write one row, as `{ (o, x) | .. }`, or join comprehensions by `union`")
}

pub(super) fn not_in_front(span: Span) -> Problem {
    let problem = Problem::error("`not` stands behind the row, before `in`").at(span, "before the row");
    problem.mend("write `(x) not in ..`, or `x != ..` to compare terms")
}

pub(super) fn not_without_in(span: Span) -> Problem {
    Problem::error("`not` is followed by `in`").at(span, "`in` is missing behind this").mend("write `not in`")
}

pub(super) fn in_not(span: Span) -> Problem {
    Problem::error("absent is written `not in`").at(span, "the wrong way round").mend("write `not in`")
}

pub(super) fn guard_without_row(span: Span, list: &str) -> Problem {
    let problem = Problem::error("a guard on a set has a row before it").at(span, "a list alone");
    problem.mend(format!("write `(x) in {list}` or `(x) not in {list}`"))
}

pub(super) fn list_in_braces(span: Span, list: &str) -> Problem {
    let problem = Problem::error("braces hold rows, and a list is a set already").at(span, "a list");
    problem.mend(format!("write `{list}` without braces, or `{{ (x) | (x) in {list} }}`"))
}

pub(super) fn compared_in_parentheses(span: Span) -> Problem {
    let problem = Problem::error("`=` and `!=` compare two terms, not rows").at(span, "a row");
    problem.mend("write the terms without parentheses, as `x != 7`, and each pair by a guard of its own")
}

pub(super) fn compared_with_list(span: Span, list: &str) -> Problem {
    let problem = Problem::error("`=` and `!=` compare two terms, not sets").at(span, "a list");
    problem.mend(format!("write `(x) in {list}` or `(x) not in {list}`"))
}
