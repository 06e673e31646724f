//! From the engine's words to a text that compiles to them again.

use crate::syntax::{
    Comments, Definition, Expression, ExpressionKind, File, Guard, GuardKind, Identifier, List, Polarity, Row, Span, Statement, StatementKind, Term,
    TermKind,
};
use txindurbe::{Atom, Format, Key, Part, Policy, Query, Refusal};

/// The deepest that an expression stands in words that the engine accepts.
const DEEPEST: usize = 15;

/// The text of a policy that the engine accepts with this key as ours, and of a query that it accepts under it; else its refusal. Definitions are called d0, d1
/// and so on, variables x0, x1 and so on by their numbers; keys and lists have no names.
///
/// ```
/// use txindurbe::Key;
/// use txindurbe_language::{decompile, print};
///
/// let file = decompile(Key::new(9), &[1, 1, 10, 0, 6, 5, 1, 1, 1, 0, 7], Some(&[3, 0])).expect("the engine accepts it");
/// assert_eq!(print(&file), "our key k9\n\ndefine d0 10 + = { (7) }\n\nquery d0\n");
/// ```
pub fn decompile(our_key: Key, policy: &[u32], query: Option<&[u32]>) -> Result<File, Refusal> {
    let policy = Policy::from_words(our_key, policy.to_vec());
    let asked = Query::from_words(query.unwrap_or(&[1, 0]).to_vec());
    policy.judge(&asked)?;

    let mut statements = Vec::new();
    if policy.format() == Some(Format::WiderRows) {
        statements.push(statement(StatementKind::Format { number: 2, span: Span::default() }, false));
    }
    statements.push(statement(StatementKind::OurKey(term(TermKind::Key(our_key.number()))), false));
    for (number, entry) in (0..).zip(entries(&policy)) {
        let part = Part::Definition(number);
        let definition = definition(number, entry, policy.part(&asked, part)).ok_or(Refusal::BadWord(part))?;
        statements.push(statement(StatementKind::Define(definition), number == 0));
    }
    if query.is_some() {
        let expression = expression(asked.words()).ok_or(Refusal::BadWord(Part::Query))?;
        statements.push(statement(StatementKind::Query(expression), true));
    }
    Ok(File { statements, comments_at_end: Vec::new() })
}

/// Name and polarity of each definition, out of the policy's table.
fn entries(policy: &Policy) -> impl Iterator<Item = [u32; 2]> + '_ {
    let count = policy.words().get(1).map_or(0, |count| *count as usize);
    policy.words().get(2..).unwrap_or_default().chunks_exact(4).take(count).map(|entry| [entry[0], entry[1]])
}

fn definition(number: u32, [name, polarity]: [u32; 2], words: &[u32]) -> Option<Definition> {
    Some(Definition {
        name: identifier("d", number),
        number: Some((name, Span::default())),
        polarity: self::polarity(polarity)?,
        polarity_span: Span::default(),
        expression: expression(words)?,
    })
}

/// Of words that are one expression.
fn expression(words: &[u32]) -> Option<Expression> {
    let mut reader = Reader { words };
    reader.expression(1).filter(|_| reader.words.is_empty())
}

/// Takes words off the front. None where they are not as the engine accepts them.
struct Reader<'a> {
    words: &'a [u32],
}

impl Reader<'_> {
    fn word(&mut self) -> Option<u32> {
        let (&first, rest) = self.words.split_first()?;
        self.words = rest;
        Some(first)
    }

    /// As many as a word says, which is that many at most.
    fn several<T>(&mut self, most: u32, mut one: impl FnMut(&mut Self) -> Option<T>) -> Option<Vec<T>> {
        let count = self.word().filter(|&count| count <= most)?;
        (0..count).map(|_| one(self)).collect()
    }

    fn expression(&mut self, depth: usize) -> Option<Expression> {
        let code = self.word().filter(|_| depth <= DEEPEST)?;
        let kind = match code {
            1 => ExpressionKind::Rows(self.rows()?),
            2 => ExpressionKind::AllBut(self.rows()?),
            3 => ExpressionKind::Defined(identifier("d", self.word()?)),
            4 => ExpressionKind::List { issuer: self.term()?, list: self.list()? },
            5 => ExpressionKind::Union(self.inner(depth)?, self.inner(depth)?),
            6 => ExpressionKind::Minus(self.inner(depth)?, self.inner(depth)?),
            7 => {
                let guards = self.several(8, |reader| reader.guard(depth))?;
                ExpressionKind::Each { head: self.row()?, guards }
            }
            8 => ExpressionKind::Vetted { issuer: self.term()?, list: self.list()?, by: identifier("d", self.word()?) },
            _ => return None,
        };
        Some(Expression { kind, span: Span::default(), comments: Comments::default(), comments_at_end: Vec::new() })
    }

    fn inner(&mut self, depth: usize) -> Option<Box<Expression>> {
        self.expression(depth + 1).map(Box::new)
    }

    fn guard(&mut self, depth: usize) -> Option<Guard> {
        let kind = match self.word()? {
            1 => {
                let set = self.expression(depth + 1)?;
                GuardKind::Draw(self.row()?, set)
            }
            2 => GuardKind::Same(self.term()?, self.term()?),
            3 => GuardKind::Different(self.term()?, self.term()?),
            4 => GuardKind::Absent(self.row()?, self.expression(depth + 1)?),
            _ => return None,
        };
        Some(Guard { kind, span: Span::default(), comments: Comments::default() })
    }

    fn rows(&mut self) -> Option<Vec<Row>> {
        self.several(128, Self::row)
    }

    /// A pattern too: a slot for a new variable is written as the variable.
    fn row(&mut self) -> Option<Row> {
        let terms = self.several(4, Self::term)?;
        Some(Row { terms, span: Span::default(), comments: Comments::default() })
    }

    fn term(&mut self) -> Option<Term> {
        let kind = match (self.word()?, self.word()?) {
            (0, word) => match Atom::from(word).key() {
                Some(key) => TermKind::Key(key.number()),
                None => TermKind::Number(word),
            },
            (1 | 2, number) => TermKind::Named(format!("x{number}")),
            _ => return None,
        };
        Some(term(kind))
    }

    fn list(&mut self) -> Option<List> {
        Some(List::Numbered { number: self.word()?, polarity: polarity(self.word()?)?, span: Span::default() })
    }
}

fn statement(kind: StatementKind, apart: bool) -> Statement {
    Statement { kind, span: Span::default(), comments: Comments::default(), apart }
}

fn identifier(letter: &str, number: u32) -> Identifier {
    Identifier { text: format!("{letter}{number}"), span: Span::default() }
}

fn term(kind: TermKind) -> Term {
    Term { kind, span: Span::default() }
}

fn polarity(word: u32) -> Option<Polarity> {
    match word {
        0 => Some(Polarity::Plus),
        1 => Some(Polarity::Minus),
        _ => None,
    }
}

#[cfg(test)]
mod tests {
    use super::*;
    use crate::print::print;

    fn text(our_key: u32, policy: &[u32], query: Option<&[u32]>) -> String {
        print(&decompile(Key::new(our_key), policy, query).expect("it is accepted"))
    }

    const K1: u32 = (1 << 31) + 1;

    /// Document 01's policy P and query Q: released and not withdrawn.
    #[test]
    fn the_portals_policy() {
        let policy = [1, 1, 10, 0, 6, 23, 7, 2, 1, 4, 0, K1, 1, 0, 1, 2, 0, 4, 1, 1, 0, 4, 0, K1, 2, 1, 1, 1, 0];
        let definition = "our key k2\n\ndefine d0 10 + = { (x0) | (x0) in k1.1+, (x0) not in k1.2- }\n";
        assert_eq!(text(2, &policy, None), definition);
        assert_eq!(text(2, &policy, Some(&[3, 0])), format!("{definition}\nquery d0\n"));
    }

    #[test]
    fn each_code_and_guard() {
        for (words, expected) in [
            (vec![1, 0], "{}"),
            (vec![1, 2, 1, 0, 7, 2, 0, K1, 0, u32::MAX], "{ (7), (k1, k2147483647) }"),
            (vec![2, 1, 4, 0, 0, 0, 1, 0, 2, 0, 3], "all but { (0, 1, 2, 3) }"),
            (vec![4, 0, K1, 65_535, 1], "k1.65535-"),
            (vec![5, 5, 1, 0, 2, 0, 1, 0], "{} union all but {} union {}"),
            (vec![5, 1, 0, 5, 2, 0, 1, 0], "{} union (all but {} union {})"),
            (vec![6, 1, 0, 1, 0], "{} minus {}"),
            (vec![7, 0, 1, 0, 7], "{ (7) | }"),
            // a draw of two new variables, the second then issues a list; the same, different
            (
                vec![7, 4, 1, 1, 1, 2, 0, 7, 0, K1, 2, 2, 0, 2, 1, 1, 4, 1, 1, 1, 0, 1, 1, 0, 2, 1, 0, 0, 7, 3, 1, 1, 0, K1, 2, 1, 1, 1, 0],
                "{ (x1, x0) | (x0, x1) in { (7, k1) }, (x0) in x1.1+, x0 = 7, x1 != k1 }",
            ),
            // the inner variable has the number that the outer one gets behind it; a pattern uses its own first one
            (vec![7, 1, 1, 7, 1, 1, 1, 0, 1, 2, 0, 1, 1, 0, 2, 2, 0, 1, 0, 1, 1, 0], "{ (x0) | (x0, x0) in { (x0) | (x0) in {} } }"),
            (vec![7, 1, 4, 1, 0, 7, 4, 0, K1, 1, 1, 1, 0, 7], "{ (7) | (7) not in k1.1- }"),
        ] {
            assert_eq!(text(9, &[1, 0], Some(&words)), format!("our key k9\n\nquery {expected}\n"), "{words:?}");
        }
    }

    #[test]
    fn formats_own_names_and_vetted_lists() {
        // name 0 −, what k1 does not say is compromised; then our name 5 +, k1's released, vetted
        let policy = [2, 2, 0, 1, 10, 5, 5, 0, 15, 6, 4, 0, K1, 0, 1, 8, 0, K1, 1, 0, 0];
        let own = [4, 0, K1 + 8, 5, 0];
        let expected = "format 2\nour key k9\n\ndefine d0 0 - = k1.0-\ndefine d1 5 + = k1.1+ vetted by d0\n\nquery k9.5+\n";
        assert_eq!(text(9, &policy, Some(&own)), expected);
    }

    #[test]
    fn refusals_are_the_engines() {
        let decompiled = |policy: &[u32], query: Option<&[u32]>| decompile(Key::new(9), policy, query).map(|_| ());
        assert_eq!(decompiled(&[3, 0], None), Err(Refusal::BadHeader));
        assert_eq!(decompiled(&[1, 1, 10, 0, 6, 2, 9, 0], None), Err(Refusal::BadWord(Part::Definition(0))));
        assert_eq!(decompiled(&[1, 0], Some(&[])), Err(Refusal::BadWord(Part::Query)));
        assert_eq!(decompiled(&[1, 0], Some(&[3, 0])), Err(Refusal::NotInScope(Part::Query)));
        assert_eq!(decompiled(&[1, 0], Some(&[7, 1, 1, 2, 0, 1, 2, 0, 1, 1, 0])), Err(Refusal::OpenDraw(Part::Query)));
        // with a query of our own where none is given
        assert_eq!(decompiled(&[1, 0], None), Ok(()));
    }

    /// Beyond what the engine lets pass: words that run out, too many, too deep, unknown.
    #[test]
    fn no_words_are_trusted() {
        let deep = |depth: usize| [[5, 1, 0].repeat(depth - 1), vec![1, 0]].concat();
        assert!(expression(&deep(15)).is_some());
        assert!(expression(&deep(16)).is_none());
        for words in [
            &[][..],
            &[1],
            &[0, 0],
            &[9, 0],
            &[1, 0, 0],
            &[1, 129],
            &[1, u32::MAX, 1, 0, 7],
            &[1, 1, 5, 0, 7, 0, 7, 0, 7, 0, 7, 0, 7],
            &[1, 1, 1, 3, 7],
            &[3],
            &[4, 0, K1, 1, 2],
            &[7, 9],
            &[7, 1, 5, 1, 0, 7],
            &[7, 1, 1, 1, 0],
            &[8, 0, K1, 1, 0],
        ] {
            assert!(expression(words).is_none(), "{words:?}");
        }
    }
}
