//! `txindurbe names`: each list that certificates were filed for, and the links between lists.

use crate::cli::NamesArguments;
use crate::failure::Outcome;
use crate::show::Show;
use crate::when::When;
use std::collections::{BTreeMap, BTreeSet};
use std::io::Write;
use txindurbe::sizes::{MOST_CERTIFICATES, MOST_LINKS};
use txindurbe::{Certificate, Key, Link, Minute, Name, Polarity, Row, Store};
use txindurbe_archive::Archive;
use txindurbe_language::Names;

pub fn run(arguments: &NamesArguments, show: &Show, out: &mut dyn Write) -> Outcome {
    let names = super::names(arguments.names.as_deref())?;
    let mut archive = Archive::open(&arguments.archive)?;
    let held = archive.held(arguments.point.at)?;
    let minute = arguments.point.minute_or_now();
    let lists: Vec<[String; 4]> = held.store.names().map(|(name, count)| list(&names, &held.store, name, count, minute)).collect();
    if !lists.is_empty() {
        aligned(&["list", "number", "certificates", "hold"], &lists, out)?;
        writeln!(out)?;
    }
    for link in held.links.iter() {
        writeln!(out, "{}", linked(&names, &link))?;
    }
    if !held.links.is_empty() {
        writeln!(out)?;
    }
    let (certificates, links) = (held.store.len(), held.links.len());
    let (id, point, date) = (archive.id(), held.point, When(minute));
    writeln!(out, "Archive {id}, point {point}, {date}: {certificates} of {MOST_CERTIFICATES} certificates, {links} of {MOST_LINKS} links.")?;
    let mut twins = Twins::default();
    twins.note(&held.store, &held.store.iter().collect::<Vec<_>>());
    twins.warn(&names, show);
    Ok(())
}

fn list(names: &Names, store: &Store, name: Name, count: usize, minute: Minute) -> [String; 4] {
    let Name { key, number, polarity } = name;
    let hold = store.certificates_of(key, number, polarity).filter(|(_, validity)| validity.holds_at(minute)).count();
    [names.show_list(key, number, polarity), format!("{number}{polarity}"), count.to_string(), hold.to_string()]
}

/// `alma.released contains vla.released`
fn linked(names: &Names, link: &Link) -> String {
    let [list, other] = [link.list(), link.other_list()].map(|name| names.show_list(name.key, name.number, name.polarity));
    format!("{list} {} {other}", link_verb(link.polarity))
}

/// What a link says of its first list and the other.
pub fn link_verb(polarity: Polarity) -> &'static str {
    match polarity {
        Polarity::Plus => "contains",
        Polarity::Minus => "is within",
    }
}

/// Texts to the left, numbers to the right.
fn aligned(heading: &[&str; 4], lines: &[[String; 4]], out: &mut dyn Write) -> std::io::Result<()> {
    let width = |column: usize| lines.iter().map(|line| line[column].chars().count()).chain([heading[column].len()]).max().unwrap_or(0);
    let [list, number, certificates, hold] = [0, 1, 2, 3].map(width);
    let mut line = |cells: [&str; 4]| {
        let [a, b, c, d] = cells;
        writeln!(out, "{a:list$}  {b:<number$}  {c:>certificates$}  {d:>hold$}")
    };
    line(*heading)?;
    lines.iter().try_for_each(|cells| line(cells.each_ref().map(String::as_str)))
}

/// Rows that are certified in a + list and in the − list of the same key and number. These are two lists, and who certifies a row in both may have meant one.
#[derive(Default)]
pub struct Twins {
    rows: BTreeMap<(Key, u16), BTreeSet<Row>>,
}

impl Twins {
    /// Those of these certificates whose rows are certified in the other list too.
    pub fn note(&mut self, store: &Store, certificates: &[Certificate]) {
        let mut others: BTreeMap<Name, BTreeSet<Row>> = BTreeMap::new();
        for certificate in certificates {
            let Name { key, number, polarity } = certificate.list();
            let polarity = if polarity == Polarity::Plus { Polarity::Minus } else { Polarity::Plus };
            let rows = || store.certificates_of(key, number, polarity).map(|(row, _)| row).collect();
            if others.entry(Name { key, number, polarity }).or_insert_with(rows).contains(&certificate.row) {
                self.rows.entry((key, number)).or_default().insert(certificate.row);
            }
        }
    }

    pub fn warn(&self, names: &Names, show: &Show) {
        for (&(key, number), rows) in &self.rows {
            show.warning(&two_lists(names, key, number, rows));
        }
    }
}

fn two_lists(names: &Names, key: Key, number: u16, rows: &BTreeSet<Row>) -> String {
    const SHOWN: usize = 3;
    let mut shown: Vec<String> = rows.iter().take(SHOWN).map(|row| names.show_row(row)).collect();
    if rows.len() > SHOWN {
        shown.push(format!("{} more", rows.len() - SHOWN));
    }
    let issuer = names.show_key(key);
    let are = if rows.len() == 1 { "is" } else { "are" };
    format!(
        "{} {are} certified in {issuer}.{number}+ and certified absent from {issuer}.{number}-\n\
         These are two lists: a certificate of the one says nothing of the other. Is that meant?",
        listed(&shown)
    )
}

/// `a`, `a and b`, `a, b and c`
fn listed(texts: &[String]) -> String {
    match texts {
        [] => String::new(),
        [one] => one.clone(),
        [first @ .., last] => format!("{} and {last}", first.join(", ")),
    }
}
