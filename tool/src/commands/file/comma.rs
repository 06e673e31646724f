//! Files with a heading line and fields between commas. The heading says whether they are certificates or links.

use super::fields::{kind_of, problem, unfit, words, Field, Mended, Read};
use csv::{ReaderBuilder, StringRecord, Trim};
use serde_json::Value;
use std::ops::Range;
use txindurbe_archive::Kind;
use txindurbe_language::syntax::Span;
use txindurbe_language::{Names, Problem};

/// The number of each line, and what it says. If the heading is wrong, that alone.
pub fn lines(source: usize, text: &str, names: &Names) -> Vec<(usize, Read)> {
    let mut reader = ReaderBuilder::new().has_headers(false).flexible(true).trim(Trim::All).from_reader(text.as_bytes());
    let mut places = Places { source, text, counted: 0, line: 1 };
    let mut records = reader.records().map(|record| match record {
        Ok(record) => Ok(places.of(record)),
        Err(error) => Err((1, Err(vec![problem(error.to_string(), Span { source, start: 0, end: 0 }, "in this file")]))),
    });
    let heading = match records.next() {
        Some(Ok(heading)) => heading,
        Some(Err(wrong)) => return vec![wrong],
        None => return vec![(1, Err(vec![without_heading(source)]))],
    };
    let kind = match heading.kind() {
        Ok(kind) => kind,
        Err(problems) => return vec![(heading.line, Err(problems))],
    };
    let read = records.map(|record| match record {
        Ok(record) => (record.line, record.read(kind, &heading, names)),
        Err(wrong) => wrong,
    });
    read.collect()
}

fn without_heading(source: usize) -> Problem {
    problem("the file is empty", Span { source, start: 0, end: 0 }, "there is no heading line")
        .mended("begin with `key,row,says,list,first,end` for certificates, with `key,list,says,other_key,other_list` for links")
}

/// A record with the place of each field.
struct Record {
    line: usize,
    fields: StringRecord,
    spans: Vec<Span>,
    whole: Span,
}

impl Record {
    /// What the lines under this heading are.
    fn kind(&self) -> Result<Kind, Vec<Problem>> {
        let names: Vec<(&str, Span)> = self.names().zip(self.spans.iter().copied()).collect();
        let kind = kind_of(self.names());
        let problems = unfit(kind, &names, self.whole);
        match problems.is_empty() {
            true => Ok(kind),
            false => Err(problems),
        }
    }

    /// Some programs begin a file with a mark that it is UTF-8.
    fn names(&self) -> impl Iterator<Item = &str> {
        self.fields.iter().map(|name| name.trim_start_matches('\u{feff}'))
    }

    fn read(&self, kind: Kind, heading: &Record, names: &Names) -> Read {
        if self.fields.len() != heading.fields.len() {
            let message = format!("the line has {} fields, and the heading {}", self.fields.len(), heading.fields.len());
            let mend = match self.fields.len() < heading.fields.len() {
                true => "write the fields that are missing, in the order of the heading; a quote that is opened must be closed",
                false => "a field with a comma in it stands in quotes, as \"(7, 2027)\"",
            };
            return Err(vec![problem(message, self.whole, "").mended(mend)]);
        }
        let field = |((name, value), span): ((_, &str), &Span)| Field { name, value: Value::from(value), span: *span };
        let fields: Vec<Field> = heading.names().zip(&self.fields).zip(&self.spans).map(field).collect();
        words(kind, &fields, names)
    }
}

/// Finds the lines and fields of records that come one after the other.
struct Places<'a> {
    source: usize,
    text: &'a str,
    /// The line that begins at or before the byte up to which lines were counted.
    counted: usize,
    line: usize,
}

impl Places<'_> {
    fn of(&mut self, fields: StringRecord) -> Record {
        let from = fields.position().map_or(0, |position| position.byte() as usize).min(self.text.len());
        // what ends the line before may still be there
        let begins = from + self.text[from..].bytes().take_while(|byte| b"\r\n".contains(byte)).count();
        self.line += self.text[self.counted..begins].bytes().filter(|&byte| byte == b'\n').count();
        self.counted = begins;
        let ranges = fields_from(self.text, begins);
        let span = |range: &Range<usize>| Span { source: self.source, start: range.start, end: range.end };
        let whole = begins..ranges.last().map_or(begins, |last| last.end);
        let mut spans: Vec<Span> = ranges.iter().map(span).collect();
        spans.resize(fields.len(), span(&whole));
        Record { line: self.line, fields, spans, whole: span(&whole) }
    }
}

/// Where the fields of a record stand, without spaces around them, as CSV has it: commas and ends of lines in quotes are the field's own.
fn fields_from(text: &str, begins: usize) -> Vec<Range<usize>> {
    let mut fields = Vec::new();
    let (mut field, mut in_quotes) = (begins, false);
    let ends = text[begins..].bytes().position(|byte| {
        in_quotes ^= byte == b'"';
        !in_quotes && b"\r\n".contains(&byte)
    });
    let ends = ends.map_or(text.len(), |length| begins + length);
    in_quotes = false;
    for (place, byte) in (begins..).zip(text[begins..ends].bytes()) {
        in_quotes ^= byte == b'"';
        if byte == b',' && !in_quotes {
            fields.push(trimmed(text, field..place));
            field = place + 1;
        }
    }
    fields.push(trimmed(text, field..ends));
    fields
}

fn trimmed(text: &str, range: Range<usize>) -> Range<usize> {
    let field = &text[range.clone()];
    let start = range.start + field.len() - field.trim_start().len();
    start..start + field.trim().len()
}

#[cfg(test)]
mod tests {
    use super::*;

    fn found(text: &str, begins: usize) -> Vec<&str> {
        fields_from(text, begins).into_iter().map(|range| &text[range]).collect()
    }

    #[test]
    fn fields_are_found_where_they_stand() {
        assert_eq!(found("a,b\nc,d\n", 0), ["a", "b"]);
        assert_eq!(found("a,b\nc,d\n", 4), ["c", "d"]);
        assert_eq!(found("a,b\r\nc", 0), ["a", "b"]);
        assert_eq!(found(" a , \"b, c\" ,\"d\n\"\"e\"\nf", 0), ["a", "\"b, c\"", "\"d\n\"\"e\""]);
        assert_eq!(found(",,", 0), ["", "", ""]);
    }

    /// The line that each record begins on, and whether its fields are found.
    fn placed(text: &str) -> Vec<(usize, Vec<&str>)> {
        let mut reader = ReaderBuilder::new().has_headers(false).flexible(true).trim(Trim::All).from_reader(text.as_bytes());
        let mut places = Places { source: 0, text, counted: 0, line: 1 };
        let records = reader.records().map(|record| places.of(record.unwrap()));
        records.map(|record| (record.line, record.spans.iter().map(|span| &text[span.start..span.end]).collect())).collect()
    }

    #[test]
    fn lines_are_counted_as_editors_do() {
        let expected = vec![(1, vec!["a", "b"]), (2, vec!["c", "d"]), (5, vec!["e", "\"f\n\""]), (7, vec!["g", "h"])];
        let text = "a,b\nc,d\n\n\ne,\"f\n\"\ng,h";
        assert_eq!(placed(text), expected);
        let with_returns = text.replace('\n', "\r\n");
        let lines: Vec<usize> = placed(&with_returns).into_iter().map(|(line, _)| line).collect();
        assert_eq!(lines, [1, 2, 5, 7]);
        assert_eq!(placed(&with_returns)[1].1, ["c", "d"]);
    }
}
