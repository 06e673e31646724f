//! Files with one JSON object a line: a certificate or a link by its fields, or as words.

use super::fields::{kind_of, problem, unfit, words, Field, Mended, Read};
use serde_json::{Deserializer, Value};
use std::ops::Range;
use txindurbe_archive::Kind;
use txindurbe_language::syntax::Span;
use txindurbe_language::{Names, Problem};

/// The number of each line that is not empty, and what it says.
pub fn lines(source: usize, text: &str, names: &Names) -> Vec<(usize, Read)> {
    let mut begins = 0;
    let mut read = Vec::new();
    for (line, number) in text.split_inclusive('\n').zip(1..) {
        let start = begins + line.len() - line.trim_start().len();
        begins += line.len();
        if !line.trim().is_empty() {
            read.push((number, object(source, start, line.trim(), names)));
        }
    }
    read
}

fn object(source: usize, start: usize, line: &str, names: &Names) -> Read {
    let span = |place: &Range<usize>| Span { source, start: start + place.start, end: start + place.end };
    if let Err(error) = serde_json::from_str::<serde_json::Map<String, Value>>(line) {
        return Err(vec![no_object(&error, line, span)]);
    }
    let members = members(line).unwrap_or_default();
    let whole = span(&(0..line.len()));
    match members.iter().find_map(|member| Some((raw_kind(&member.name)?, member))) {
        None => by_fields(&members, whole, span, names),
        Some((kind, member)) if members.len() == 1 => {
            raw(kind, &member.value).map_err(|message| vec![problem(message, span(&member.place), "the words")])
        }
        Some((_, Member { name, .. })) => {
            let alone = format!("words stand by themselves: {{\"{name}\": [..]}}");
            Err(vec![problem(format!("there is more beside `{name}`"), whole, "in this line").mended(alone)])
        }
    }
}

fn by_fields(members: &[Member], whole: Span, span: impl Fn(&Range<usize>) -> Span, names: &Names) -> Read {
    let kind = kind_of(members.iter().map(|member| member.name.as_str()));
    let found: Vec<(&str, Span)> = members.iter().map(|member| (member.name.as_str(), span(&member.name_place))).collect();
    let fields: Vec<Field> =
        members.iter().map(|member| Field { name: &member.name, value: member.value.clone(), span: span(&member.place) }).collect();
    let mut problems = unfit(kind, &found, whole);
    match words(kind, &fields, names) {
        Ok(filing) if problems.is_empty() => return Ok(filing),
        Ok(_) => {}
        Err(more) => problems.extend(more),
    }
    Err(problems)
}

fn no_object(error: &serde_json::Error, line: &str, span: impl Fn(&Range<usize>) -> Span) -> Problem {
    // the place is drawn, and not to be read off numbers
    let message = error.to_string();
    let message = message.split(" at line ").next().unwrap_or_default();
    let end = line.ceil_char_boundary(error.column().clamp(1, line.len()));
    let place = &(line.floor_char_boundary(end - 1)..end);
    let example = r#"{"key": "k1", "row": [7], "says": "in", "list": "1+", "first": "2027-01-01", "end": "2027-07-01"}"#;
    problem(format!("this is no JSON object: {message}"), span(place), "up to here").mended(format!("a line is one object, as {example}"))
}

/// What the object has, and where that stands.
struct Member {
    name: String,
    name_place: Range<usize>,
    value: Value,
    place: Range<usize>,
}

/// In the order of the line, those that come again too. None if it is no object.
fn members(line: &str) -> Option<Vec<Member>> {
    let mut members = Vec::new();
    let mut place = behind(line, 0, '{')?;
    while behind(line, place, '}').is_none() {
        let (name, name_place) = next(line, place)?;
        let (value, value_place) = next(line, behind(line, name_place.end, ':')?)?;
        place = behind(line, value_place.end, ',').unwrap_or(value_place.end);
        members.push(Member { name: name.as_str()?.into(), name_place, value, place: value_place });
    }
    Some(members)
}

/// The place behind the next sign, if it is this one.
fn behind(line: &str, place: usize, sign: char) -> Option<usize> {
    line[place..].trim_start().strip_prefix(sign).map(|rest| line.len() - rest.len())
}

/// The next value, and where it stands.
fn next(line: &str, place: usize) -> Option<(Value, Range<usize>)> {
    let start = line.len() - line[place..].trim_start().len();
    let mut values = Deserializer::from_str(&line[start..]).into_iter();
    let value = values.next()?.ok()?;
    Some((value, start..start + values.byte_offset()))
}

/// What a line is that has its words alone.
fn raw_kind(name: &str) -> Option<Kind> {
    match name {
        "certificate" => Some(Kind::Certificate),
        "link" => Some(Kind::Link),
        _ => None,
    }
}

/// Any words at all: the engine has its say about them.
fn raw(kind: Kind, value: &Value) -> Result<(Kind, Vec<u32>), String> {
    const WORDS: &str = "words are an array of numbers from 0 to 4294967295";
    let Value::Array(words) = value else { return Err(WORDS.into()) };
    let word = |word: &Value| word.as_u64().and_then(|word| u32::try_from(word).ok()).ok_or_else(|| format!("{WORDS}, and {word} is none"));
    Ok((kind, words.iter().map(word).collect::<Result<_, String>>()?))
}

#[cfg(test)]
mod tests {
    use super::*;

    #[test]
    fn values_are_found_where_they_stand() {
        let line = r#"{ "a" : 7 , "b,}" :[1, "}"],"a":"\u00e4"}"#;
        let members: Vec<(String, String)> = members(line).unwrap().into_iter().map(|member| (member.name, line[member.place].into())).collect();
        let expected = [("a", "7"), ("b,}", r#"[1, "}"]"#), ("a", r#""\u00e4""#)];
        assert_eq!(members, expected.map(|(name, value)| (name.to_string(), value.to_string())));
        assert!(super::members("{}").unwrap().is_empty());
        assert!(super::members("[1]").is_none());
    }

    #[test]
    fn words_may_be_any() {
        let read = |text: &str| lines(0, text, &Names::default()).into_iter().map(|(line, read)| (line, read.ok())).collect::<Vec<_>>();
        let text = "{\"certificate\":[]}\n\n  {\"link\": [4294967295, 0]}  \r\n{\"link\":[4294967296]}\n{\"link\":[1.5]}\n{\"link\":7}";
        let expected = [(1, Some((Kind::Certificate, vec![]))), (3, Some((Kind::Link, vec![u32::MAX, 0]))), (4, None), (5, None), (6, None)];
        assert_eq!(read(text), expected);
    }
}
