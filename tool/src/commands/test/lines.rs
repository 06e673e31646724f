//! The lines of a file of tests. `#` begins a comment.
//!
//! ```text
//! policy public.qcm                                     # starts anew: the stores are empty; the path is from the test's folder
//! minute 2027-03-20
//! file (7) in alma.released from 2027-01-01 to 2027-07-01 is Filed
//! file (7) not in alma.withdrawn from 2027-01-01 to 2027-07-01
//! link alma.released contains vla.released is Filed     # of − lists: within
//! ask query is lower { (7) }                            # the policy's own query
//! ask alma.withdrawn is upper all but { (7) }
//! ask alma.withdrawn minus alma.withdrawn is refused 6
//! member (8) of query is unknown                        # yes, no
//! ```
//!
//! Filings without `is` must be Filed or Held.

use crate::when::{NotAMinute, When};
use txindurbe::{Membership, Minute, Part, Refusal, Verdict};

/// A part of the text, and where in it that stands.
#[derive(Clone, Copy, PartialEq, Eq, Debug)]
pub struct Piece<'a> {
    pub text: &'a str,
    pub start: usize,
}

/// What is wrong with a piece, and what would be right.
#[derive(Clone, PartialEq, Eq, Debug)]
pub struct Wrong {
    pub start: usize,
    pub end: usize,
    pub message: String,
    pub mend: Option<String>,
}

/// What a line says.
#[derive(Clone, Copy, PartialEq, Eq, Debug)]
pub enum Step<'a> {
    Policy(Piece<'a>),
    Minute(Minute),
    Certificate { row: Piece<'a>, says: Piece<'a>, list: Piece<'a>, first: Minute, end: Minute, expected: Option<Reply> },
    Link { list: Piece<'a>, says: Piece<'a>, other: Piece<'a>, expected: Option<Reply> },
    Ask { query: Piece<'a>, expected: Expected<'a> },
    Member { row: Piece<'a>, query: Piece<'a>, expected: Membership },
}

/// What filing is to answer.
#[derive(Clone, Copy, PartialEq, Eq, Debug)]
pub enum Reply {
    Filed,
    Held,
    Refused(u32),
}

/// What asking is to answer: a table with these rows, which are written as an expression, or a refusal.
#[derive(Clone, Copy, PartialEq, Eq, Debug)]
pub enum Expected<'a> {
    Table(Verdict, Piece<'a>),
    Refused(u32),
}

/// A line that says something.
#[derive(Clone, Copy, PartialEq, Eq, Debug)]
pub struct Line<'a> {
    /// Counted from 1.
    pub number: usize,
    pub text: Piece<'a>,
    pub step: Step<'a>,
}

/// Those that say something.
pub fn lines(text: &str) -> impl Iterator<Item = Result<Line<'_>, Wrong>> {
    let mut start = 0;
    let whole_lines = text.split_inclusive('\n').zip(1..).map(move |(line, number)| {
        let piece = Piece { text: line, start };
        start += line.len();
        (piece, number)
    });
    let said = whole_lines.map(|(line, number)| (line.without_comment().trimmed(), number)).filter(|(line, _)| !line.text.is_empty());
    said.map(|(line, number)| step(line).map(|step| Line { number, text: line, step }))
}

fn step(line: Piece) -> Result<Step, Wrong> {
    let (word, rest) = line.word();
    match word.text {
        "policy" if !rest.text.is_empty() => Ok(Step::Policy(rest)),
        "policy" => Err(line.wrong("which policy?", "write `policy public.qcm`")),
        "minute" => Ok(Step::Minute(minute(rest)?)),
        "file" => certificate(rest),
        "link" => link(rest),
        "ask" => ask(rest),
        "member" => member(rest),
        _ => Err(word.wrong("no line begins so", "begin it with policy, minute, file, link, ask or member")),
    }
}

const FILE: &str = "write `file (7) in alma.released from 2027-01-01 to 2027-07-01`, of a − list `not in`";
const LINK: &str = "write `link alma.released contains vla.released`, of − lists `within`";
const ASK: &str = "write `is lower { (7) }`, `is upper all but { (7) }`, `is exact {}` or `is refused 13` behind what is asked";
const MEMBER: &str = "write `member (7) of query is yes`, `no` or `unknown`";

fn certificate(line: Piece) -> Result<Step, Wrong> {
    let (said, expected) = filing(line)?;
    let (row, rest) = said.row().ok_or_else(|| said.wrong("a certificate is about a row", FILE))?;
    let (listed, term) = rest.around("from").ok_or_else(|| said.wrong("a certificate has a term", FILE))?;
    let (first, end) = term.around("to").ok_or_else(|| said.wrong("a certificate's term has an end", FILE))?;
    let (_, list) = listed.around("in").ok_or_else(|| said.wrong("a certificate says `in` or `not in`", FILE))?;
    let says = listed.up_to(list.start - listed.start).trimmed();
    Ok(Step::Certificate { row, says, list, first: minute(first)?, end: minute(end)?, expected })
}

fn link(line: Piece) -> Result<Step, Wrong> {
    let (said, expected) = filing(line)?;
    let (list, rest) = said.word();
    let (says, other) = rest.word();
    match other.text.is_empty() {
        true => Err(said.wrong("a link says of one list what it has to do with another", LINK)),
        false => Ok(Step::Link { list, says, other, expected }),
    }
}

fn ask(line: Piece) -> Result<Step, Wrong> {
    let expects = |word: &str| verdict(word).is_some() || word == "refused";
    let (query, expected) = line.expects(expects).ok_or_else(|| line.wrong("what answer is expected?", ASK))?;
    let (word, rest) = expected.word();
    let expected = match verdict(word.text) {
        Some(_) if rest.text.is_empty() => return Err(expected.wrong("which rows are expected?", ASK)),
        Some(verdict) => Expected::Table(verdict, rest),
        None => Expected::Refused(number(rest)?),
    };
    Ok(Step::Ask { query, expected })
}

fn member(line: Piece) -> Result<Step, Wrong> {
    let (said, expected) = line.expects(|word| membership(word).is_some()).ok_or_else(|| line.wrong("what is expected?", MEMBER))?;
    let expected = membership(expected.text).ok_or_else(|| expected.wrong("a row's membership is yes, no or unknown", MEMBER))?;
    let (row, rest) = said.row().ok_or_else(|| said.wrong("which row?", MEMBER))?;
    let (_, query) = rest.around("of").filter(|(before, _)| before.text.is_empty()).ok_or_else(|| said.wrong("a member of what?", MEMBER))?;
    Ok(Step::Member { row, query, expected })
}

/// What is filed, and what is expected of that.
fn filing(line: Piece) -> Result<(Piece, Option<Reply>), Wrong> {
    let Some((said, expected)) = line.expects(|word| matches!(word, "Filed" | "Held" | "refused")) else { return Ok((line, None)) };
    let (word, rest) = expected.word();
    let reply = match (word.text, rest.text) {
        ("Filed", "") => Reply::Filed,
        ("Held", "") => Reply::Held,
        ("refused", _) => Reply::Refused(number(rest)?),
        _ => return Err(rest.wrong("nothing stands behind Filed and Held", "take it out")),
    };
    Ok((said, Some(reply)))
}

fn minute(piece: Piece) -> Result<Minute, Wrong> {
    let When(minute) = piece.text.parse().map_err(|wrong: NotAMinute| piece.wrong(format!("{:?} is no minute", piece.text), wrong.to_string()))?;
    Ok(minute)
}

fn number(piece: Piece) -> Result<u32, Wrong> {
    let number = piece.text.parse().map_err(|_| piece.wrong("a refusal has a number", "write `refused 13`"))?;
    match [None, Some(Part::Query)].iter().any(|part| Refusal::from_number(number, *part).is_some()) {
        true => Ok(number),
        false => Err(piece.wrong("there is no such refusal", "docs/REFERENCE.md has them all")),
    }
}

pub fn verdict(word: &str) -> Option<Verdict> {
    match word {
        "exact" => Some(Verdict::Exact),
        "lower" => Some(Verdict::Lower),
        "upper" => Some(Verdict::Upper),
        _ => None,
    }
}

fn membership(word: &str) -> Option<Membership> {
    match word {
        "yes" => Some(Membership::Yes),
        "no" => Some(Membership::No),
        "unknown" => Some(Membership::Unknown),
        _ => None,
    }
}

impl<'a> Piece<'a> {
    fn from(self, start: usize) -> Piece<'a> {
        Piece { text: &self.text[start..], start: self.start + start }
    }

    fn up_to(self, end: usize) -> Piece<'a> {
        Piece { text: &self.text[..end], ..self }
    }

    fn trimmed(self) -> Piece<'a> {
        let front = self.text.len() - self.text.trim_start().len();
        let rest = self.from(front);
        rest.up_to(rest.text.trim_end().len())
    }

    fn without_comment(self) -> Piece<'a> {
        self.up_to(self.text.find('#').unwrap_or(self.text.len()))
    }

    /// The first word, and what follows it.
    fn word(self) -> (Piece<'a>, Piece<'a>) {
        let end = self.text.find(char::is_whitespace).unwrap_or(self.text.len());
        (self.up_to(end), self.from(end).trimmed())
    }

    /// A row in its parentheses, and what follows it.
    fn row(self) -> Option<(Piece<'a>, Piece<'a>)> {
        let end = self.text.find(')').filter(|_| self.text.starts_with('('))? + 1;
        Some((self.up_to(end), self.from(end).trimmed()))
    }

    /// The places where this word stands by itself.
    fn places(self, word: &'a str) -> impl DoubleEndedIterator<Item = usize> + 'a {
        let alone = move |&(place, _): &(usize, &str)| {
            let before = self.text[..place].chars().next_back();
            let after = self.text[place + word.len()..].chars().next();
            before.is_none_or(char::is_whitespace) && after.is_none_or(char::is_whitespace)
        };
        self.text.match_indices(word).collect::<Vec<_>>().into_iter().filter(alone).map(|(place, _)| place)
    }

    /// What stands before and behind the first place of this word.
    fn around(self, word: &'a str) -> Option<(Piece<'a>, Piece<'a>)> {
        let place = self.places(word).next()?;
        Some((self.up_to(place).trimmed(), self.from(place + word.len()).trimmed()))
    }

    /// What stands before and behind the last `is` that is followed by such a word.
    fn expects(self, such: impl Fn(&str) -> bool) -> Option<(Piece<'a>, Piece<'a>)> {
        let behind = |place: usize| self.from(place + "is".len()).trimmed();
        let place = self.places("is").rev().find(|place| such(behind(*place).word().0.text))?;
        Some((self.up_to(place).trimmed(), behind(place)))
    }

    pub fn wrong(self, message: impl Into<String>, mend: impl Into<String>) -> Wrong {
        Wrong { start: self.start, end: self.start + self.text.len(), message: message.into(), mend: Some(mend.into()) }
    }

    /// Where the message itself says what would be right.
    pub fn cannot_be_read(self, message: impl Into<String>) -> Wrong {
        Wrong { start: self.start, end: self.start + self.text.len(), message: message.into(), mend: None }
    }
}

#[cfg(test)]
mod tests {
    use super::*;

    /// Of a text of one line.
    fn only(text: &str) -> Result<Step<'_>, Wrong> {
        let mut lines = lines(text);
        let line = lines.next().expect("a line").map(|line| line.step);
        assert_eq!(lines.next(), None);
        line
    }

    fn piece<'a>(text: &'a str, part: &'a str) -> Piece<'a> {
        Piece { text: part, start: text.find(part).expect("it is there") }
    }

    #[test]
    fn what_says_nothing_is_passed_over() {
        let text = "\n# nothing\n  minute 5 # five\n\r\n\tpolicy a b.qcm\n";
        let read: Vec<(usize, usize, Step)> =
            lines(text).map(|line| line.expect("it can be read")).map(|line| (line.number, line.text.start, line.step)).collect();
        assert_eq!(read, [(3, 13, Step::Minute(Minute::new(5))), (5, 32, Step::Policy(piece(text, "a b.qcm")))]);
    }

    #[test]
    fn certificates() {
        let text = "file (7, alma)  not  in alma.withdrawn from 2000-01-01 00:01 to 2 is refused 17";
        let [first, end] = [1, 2].map(Minute::new);
        let (row, says, list) = (piece(text, "(7, alma)"), piece(text, "not  in"), piece(text, "alma.withdrawn"));
        assert_eq!(only(text), Ok(Step::Certificate { row, says, list, first, end, expected: Some(Reply::Refused(17)) }));
        for (is, expected) in [("", None), (" is Filed", Some(Reply::Filed)), (" is Held", Some(Reply::Held))] {
            let text = format!("file (7) in k1.1+ from 1 to 2{is}");
            let Ok(Step::Certificate { says, expected: got, .. }) = only(&text) else { panic!("{text}") };
            assert_eq!((says.text, got), ("in", expected));
        }
    }

    #[test]
    fn links() {
        let text = "link alma.released contains vla.released is Held";
        let (list, says, other) = (piece(text, "alma.released"), piece(text, "contains"), piece(text, "vla.released"));
        assert_eq!(only(text), Ok(Step::Link { list, says, other, expected: Some(Reply::Held) }));
    }

    #[test]
    fn questions() {
        let text = "ask { (x) | (is) in is, x = lower } is lower all but { (is) }";
        let query = piece(text, "{ (x) | (is) in is, x = lower }");
        assert_eq!(only(text), Ok(Step::Ask { query, expected: Expected::Table(Verdict::Lower, piece(text, "all but { (is) }")) }));
        let text = "ask query is refused 13";
        assert_eq!(only(text), Ok(Step::Ask { query: piece(text, "query"), expected: Expected::Refused(13) }));
        for (word, expected) in [("yes", Membership::Yes), ("no", Membership::No), ("unknown", Membership::Unknown)] {
            let text = format!("member (7, 8) of a minus b is {word}");
            assert_eq!(only(&text), Ok(Step::Member { row: piece(&text, "(7, 8)"), query: piece(&text, "a minus b"), expected }));
        }
    }

    #[test]
    fn what_cannot_be_read_has_a_place() {
        let place = |text: &str| {
            let wrong = only(text).expect_err(text);
            text[wrong.start..wrong.end].to_string()
        };
        assert_eq!(place("expect 7"), "expect");
        assert_eq!(place("policy"), "policy");
        assert_eq!(place("  minute  soon"), "soon");
        assert_eq!(place("minute 2027-02-29"), "2027-02-29");
        assert_eq!(place("file 7 in a.b from 1 to 2"), "7 in a.b from 1 to 2");
        assert_eq!(place("file (7) in a.b from 1"), "(7) in a.b from 1");
        assert_eq!(place("file (7) in a.b"), "(7) in a.b");
        assert_eq!(place("file (7) a.b from 1 to 2"), "(7) a.b from 1 to 2");
        assert_eq!(place("file (7) in a.b from 1 to x"), "x");
        assert_eq!(place("file (7) in a.b from 1 to 2 is Filed twice"), "twice");
        assert_eq!(place("file (7) in a.b from 1 to 2 is refused"), "");
        assert_eq!(place("link a.b contains"), "a.b contains");
        assert_eq!(place("ask query is perhaps {}"), "query is perhaps {}");
        assert_eq!(place("ask query is lower"), "lower");
        assert_eq!(place("ask query is refused x"), "x");
        assert_eq!(place("member (7) of query is lower {}"), "(7) of query is lower {}");
        assert_eq!(place("member 7 of query is yes"), "7 of query");
        assert_eq!(place("member (7) query is yes"), "(7) query");
    }
}
