//! `txindurbe log`: the list of filings, in order, with what each says and what came of it.

use crate::cli::LogArguments;
use crate::commands::names::link_verb;
use crate::failure::Outcome;
use crate::show::Show;
use crate::when::When;
use serde_json::json;
use std::io::Write;
use txindurbe::{Certificate, Filing, Link, Polarity, Refusal, Validity};
use txindurbe_archive::{Archive, Entry, Kind};
use txindurbe_language::Names;

/// So many entries are in memory at once.
const PART: u64 = 10_000;

pub fn run(arguments: &LogArguments, _show: &Show, out: &mut dyn Write) -> Outcome {
    let names = super::names(arguments.names.as_deref())?;
    let archive = Archive::open(&arguments.archive)?;
    let last = archive.last_point()?;
    let to = arguments.to.unwrap_or(last).min(last);
    let mut from = arguments.from.unwrap_or(1).max(1);
    while from <= to {
        let part = archive.entries(from..=to.min(from + PART - 1))?;
        from += PART;
        let width = to.to_string().len();
        let line = |entry: &Entry| if arguments.json { object(entry) } else { line(&names, entry, width) };
        let text: String = part.iter().map(|entry| line(entry) + "\n").collect();
        out.write_all(text.as_bytes())?;
    }
    if !arguments.json {
        writeln!(out, "Archive {}: the last point is {last}.", archive.id())?;
    }
    Ok(())
}

/// The point to the right, so that what follows begins in one column.
fn line(names: &Names, entry: &Entry, width: usize) -> String {
    let (point, came, reply) = (entry.point, moment(entry.came), short(&entry.reply));
    let said = said(names, entry.kind, &entry.words);
    let rule = entry.reply.err().map_or(String::new(), |refusal| format!(": {}", refusal.rule()));
    format!("{point:>width$}  {came}  {reply:<10}  {said}{rule}")
}

fn object(entry: &Entry) -> String {
    let kind = match entry.kind {
        Kind::Certificate => "certificate",
        Kind::Link => "link",
    };
    json!({ "point": entry.point, "came": entry.came, "kind": kind, "words": entry.words, "reply": short(&entry.reply) }).to_string()
}

fn short(reply: &Result<Filing, Refusal>) -> String {
    match reply {
        Ok(Filing::Filed) => "Filed".into(),
        Ok(Filing::Held) => "Held".into(),
        Err(refusal) => format!("refused {}", refusal.number()),
    }
}

/// With its seconds, if it lies in the years that the engine has dates for.
fn moment(seconds: i64) -> String {
    let minute = When::at(seconds.max(0));
    let second = seconds.saturating_sub(minute.seconds());
    match (0..60).contains(&second) && minute.0.date().is_ok() {
        true => format!("{minute}:{second:02}"),
        false => format!("{seconds} seconds after 1970"),
    }
}

/// What it says in words; its words, if they say nothing.
fn said(names: &Names, kind: Kind, words: &[u32]) -> String {
    let (what, in_words) = match kind {
        Kind::Certificate => ("a certificate", Certificate::from_words(words).map(|certificate| certified(names, &certificate))),
        Kind::Link => ("a link", Link::from_words(words).map(|link| linked(names, &link))),
    };
    match in_words {
        Some(in_words) => in_words,
        None if words.is_empty() => format!("{what} without words"),
        None => format!("{what} of the words {}", words.iter().map(u32::to_string).collect::<Vec<_>>().join(" ")),
    }
}

/// `alma certifies that (7) is in released, 2027-01-01 00:00 to 2027-07-01 00:00`
fn certified(names: &Names, certificate: &Certificate) -> String {
    let Certificate { key, row, validity: Validity { first, end }, .. } = *certificate;
    let (row, list) = (names.show_row(&row), own_list(names, certificate));
    let is = match certificate.polarity {
        Polarity::Plus => "is in",
        Polarity::Minus => "is not in",
    };
    format!("{} certifies that {row} {is} {list}, {} to {}", names.show_key(key), When(first), When(end))
}

/// Without the key, which has been named.
fn own_list(names: &Names, certificate: &Certificate) -> String {
    let list = names.show_list(certificate.key, certificate.name, certificate.polarity);
    list.split_once('.').map_or(list.clone(), |(_, list)| list.into())
}

/// `alma says that alma.released contains vla.released`
fn linked(names: &Names, link: &Link) -> String {
    let [list, other] = [link.list(), link.other_list()].map(|name| names.show_list(name.key, name.number, name.polarity));
    format!("{} says that {list} {} {other}", names.show_key(link.key), link_verb(link.polarity))
}

#[cfg(test)]
mod tests {
    use super::*;

    #[test]
    fn moments_have_seconds() {
        // 2000-01-01 00:00:00 and a day later, less a second
        assert_eq!(moment(946_684_800), "2000-01-01 00:00:00");
        assert_eq!(moment(946_684_800 + 86_399), "2000-01-01 23:59:59");
        assert_eq!(moment(946_684_799), "946684799 seconds after 1970");
        assert_eq!(moment(i64::MIN), "-9223372036854775808 seconds after 1970");
        // 2100-01-01
        assert_eq!(moment(4_102_444_800), "4102444800 seconds after 1970");
        assert_eq!(moment(i64::MAX), "9223372036854775807 seconds after 1970");
    }
}
