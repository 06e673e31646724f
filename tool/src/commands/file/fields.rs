//! From the fields of a line to words. The line may be CSV or JSON: each field has its value, and its place for what is wrong with it.

use crate::reading;
use crate::when::{NotAMinute, When};
use serde_json::Value;
use txindurbe::{Atom, Certificate, Date, Key, Link, Minute, Polarity, Row, Validity};
use txindurbe_archive::Kind;
use txindurbe_language::syntax::Span;
use txindurbe_language::{Label, Names, Problem, Severity};

pub struct Field<'a> {
    pub name: &'a str,
    pub value: Value,
    pub span: Span,
}

/// What is filed, as words; or all that is wrong with the line.
pub type Read = Result<(Kind, Vec<u32>), Vec<Problem>>;

/// What is wrong with a field.
struct Wrong {
    message: String,
    refusal: Option<u32>,
    mends: Vec<String>,
}

impl<Message: Into<String>> From<Message> for Wrong {
    fn from(message: Message) -> Wrong {
        Wrong { message: message.into(), refusal: None, mends: Vec::new() }
    }
}

/// The fields that a certificate or a link has, and no others.
pub fn fields_of(kind: Kind) -> &'static [&'static str] {
    match kind {
        Kind::Certificate => &["key", "row", "says", "list", "first", "end"],
        Kind::Link => &["key", "list", "says", "other_key", "other_list"],
    }
}

/// By the names of the fields.
pub fn kind_of<'a>(names: impl IntoIterator<Item = &'a str>) -> Kind {
    match names.into_iter().any(|name| name.starts_with("other_")) {
        true => Kind::Link,
        false => Kind::Certificate,
    }
}

/// What is wrong with the names of the fields: some that are not known or come again, some that are missing.
pub fn unfit(kind: Kind, names: &[(&str, Span)], whole: Span) -> Vec<Problem> {
    let known = fields_of(kind);
    let mut problems = Vec::new();
    for (place, (name, span)) in names.iter().enumerate() {
        if !known.contains(name) {
            problems.push(problem(format!("there is no field `{name}`"), *span, "this is none").mended(have(kind)));
        } else if names[..place].iter().any(|(before, _)| before == name) {
            problems.push(problem(format!("the field `{name}` is there twice"), *span, "here again"));
        }
    }
    let missing: Vec<String> =
        known.iter().filter(|known| names.iter().all(|(name, _)| name != *known)).map(|missing| format!("`{missing}`")).collect();
    if !missing.is_empty() {
        problems.push(problem(format!("missing: {}", missing.join(", ")), whole, "not here").mended(have(kind)));
    }
    problems
}

fn have(kind: Kind) -> String {
    let (whose, says) = match kind {
        Kind::Certificate => ("a certificate", "`in` or `not in`"),
        Kind::Link => ("a link", "`contains` or `within`"),
    };
    format!("{whose} has the fields {}; `says` is {says}", fields_of(kind).join(", "))
}

pub fn problem(message: impl Into<String>, span: Span, label: impl Into<String>) -> Problem {
    let labels = vec![Label { span, text: label.into() }];
    Problem { severity: Severity::Error, refusal: None, message: message.into(), labels, mends: Vec::new() }
}

pub trait Mended {
    fn mended(self, mend: impl Into<String>) -> Self;
}

impl Mended for Problem {
    fn mended(mut self, mend: impl Into<String>) -> Problem {
        self.mends.push(mend.into());
        self
    }
}

/// The words of a line by its fields.
pub fn words(kind: Kind, fields: &[Field], names: &Names) -> Read {
    let mut reading = Reading { fields, names, problems: Vec::new() };
    let words = match kind {
        Kind::Certificate => reading.certificate(),
        Kind::Link => reading.link(),
    };
    match words {
        Some(words) if reading.problems.is_empty() => Ok((kind, words)),
        _ => Err(reading.problems),
    }
}

struct Reading<'a> {
    fields: &'a [Field<'a>],
    names: &'a Names,
    problems: Vec<Problem>,
}

impl Reading<'_> {
    fn certificate(&mut self) -> Option<Vec<u32>> {
        let key = self.field("key", key);
        let row = self.field("row", row);
        let list = self.field("list", list);
        let says = list.and_then(|(_, polarity)| self.field("says", |_, value| Ok(reading::certificate_says(text(value)?, polarity)?)));
        let first = self.field("first", minute);
        let end = self.field("end", minute);
        let (name, polarity) = list?;
        let ((), validity) = (says?, Validity { first: first?, end: end? });
        Some(Certificate { key: key?, name, polarity, row: row?, validity }.words().to_vec())
    }

    fn link(&mut self) -> Option<Vec<u32>> {
        let key = self.field("key", key);
        let list = self.field("list", list);
        let says = list.and_then(|(_, polarity)| self.field("says", |_, value| Ok(reading::link_says(text(value)?, polarity)?)));
        let other_key = self.field("other_key", self::key);
        let other_name = list.and_then(|(_, polarity)| self.field("other_list", |names, value| other_list(names, value, polarity)));
        let (name, polarity) = list?;
        let () = says?;
        Some(Link { key: key?, name, polarity, other_key: other_key?, other_name: other_name? }.words().to_vec())
    }

    /// None if it is missing, which [`unfit`] says, or wrong, which is said now.
    fn field<Of>(&mut self, name: &str, read: impl Fn(&Names, &Value) -> Result<Of, Wrong>) -> Option<Of> {
        let field = self.fields.iter().find(|field| field.name == name)?;
        match read(self.names, &field.value) {
            Ok(of) => Some(of),
            Err(Wrong { message, refusal, mends }) => {
                let wrong = problem(message, field.span, format!("the field `{name}`"));
                self.problems.push(Problem { refusal, mends, ..wrong });
                None
            }
        }
    }
}

fn text(value: &Value) -> Result<&str, Wrong> {
    value.as_str().ok_or_else(|| "this is written as a text, in quotes".into())
}

fn key(names: &Names, value: &Value) -> Result<Key, Wrong> {
    Ok(reading::key(names, text(value)?)?)
}

fn list(names: &Names, value: &Value) -> Result<(u16, Polarity), Wrong> {
    Ok(reading::list(names, text(value)?)?)
}

/// Its sign may be left out: it is that of the first list.
fn other_list(names: &Names, value: &Value, polarity: Polarity) -> Result<u16, Wrong> {
    let text = text(value)?;
    if let Ok(number) = text.parse() {
        return Ok(number);
    }
    match reading::list(names, text)? {
        (number, other) if other == polarity => Ok(number),
        (_, other) => Err(format!("both lists of a link have one sign: the first is {polarity}, and {text:?} is {other}").into()),
    }
}

/// A text as in CSV, a number, or an array of atoms.
fn row(names: &Names, value: &Value) -> Result<Row, Wrong> {
    let Value::Array(atoms) = value else { return Ok(reading::row(names, &written(value)?)?) };
    let atoms = atoms.iter().map(|atom| Ok(reading::atom(names, &written(atom)?)?)).collect::<Result<Vec<Atom>, Wrong>>()?;
    Row::try_from(atoms.as_slice()).map_err(|width| width.to_string().into())
}

/// A minute's number, or a date.
fn minute(_: &Names, value: &Value) -> Result<Minute, Wrong> {
    let text = written(value)?;
    match text.parse() {
        Ok(When(minute)) => Ok(minute),
        Err(NotAMinute::Unreadable) => {
            Err(Wrong { mends: vec![NotAMinute::Unreadable.to_string()], ..Wrong::from(format!("{text:?} is no minute")) })
        }
        Err(NotAMinute::Refused(refusal)) => {
            Err(Wrong { message: refusal.rule().into(), refusal: Some(refusal.number()), mends: vec![nearest_date(&text)] })
        }
    }
}

/// What of a date that does not exist is wrong.
fn nearest_date(text: &str) -> String {
    let numbers: Vec<u32> = text.split(|digit: char| !digit.is_ascii_digit()).filter_map(|number| number.parse().ok()).collect();
    match numbers[..] {
        [year, ..] if !(2000..=2099).contains(&year) => "years are 2000 to 2099".into(),
        [_, month, ..] if !(1..=12).contains(&month) => "months are 1 to 12".into(),
        [year, month, day, ..] => match (28..=31).rev().find(|&day| Minute::from_date(Date::day(year, month, day)).is_ok()) {
            Some(last) if !(1..=last).contains(&day) => format!("{year:04}-{month:02} has the days 1 to {last}"),
            _ => "hours are 0 to 23, minutes 0 to 59".into(),
        },
        _ => NotAMinute::Unreadable.to_string(),
    }
}

/// A number as it is written, or a text.
fn written(value: &Value) -> Result<String, Wrong> {
    match value {
        Value::String(text) => Ok(text.clone()),
        Value::Number(number) => Ok(number.to_string()),
        other => Err(format!("this is written as a number or a text, and not as {other}").into()),
    }
}
