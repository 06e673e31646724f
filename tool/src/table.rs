//! Answers as a table for people, as CSV and as JSON. In each of them what the answer promises stands beside its rows, and excluded rows never look like listed
//! ones.

use crate::when::When;
use serde_json::{json, Map, Value};
use std::io::{self, Write};
use txindurbe::{Answer, Atom, Key, Minute, Row, Rows, Table, Verdict};
use txindurbe_language::syntax::{Expression, ExpressionKind, List, Term, TermKind};
use txindurbe_language::{Compiled, Names};

/// Whether a table lists its rows, or those that are not in it.
#[derive(Clone, Copy, PartialEq, Eq, Debug)]
pub enum Form {
    Only,
    AllBut,
}

/// An answer, and all that is shown with it.
pub struct Shown<'a> {
    pub answer: &'a Answer,
    pub names: &'a Names,
    /// Of the columns, where the query says what they are.
    pub heading: Option<Vec<String>>,
    /// The archive's id.
    pub archive: &'a str,
    pub point: u64,
    pub minute: Minute,
}

/// A table taken apart. Whoever shows the rows shows verdict and form beside them.
pub fn parts(table: &Table) -> (Verdict, Form, &[Row]) {
    let (Table::Lower(rows) | Table::Upper(rows) | Table::Exact(rows)) = table;
    match rows {
        Rows::Only(listed) => (table.verdict(), Form::Only, listed),
        Rows::AllBut(excluded) => (table.verdict(), Form::AllBut, excluded),
    }
}

pub fn verdict_word(verdict: Verdict) -> &'static str {
    match verdict {
        Verdict::Exact => "exact",
        Verdict::Lower => "lower",
        Verdict::Upper => "upper",
    }
}

/// What a table with so many rows written promises.
pub fn promise(verdict: Verdict, form: Form, written: usize) -> &'static str {
    use {Form::*, Verdict::*};
    match (verdict, form, written) {
        (Lower, Only, 0) => "no row certainly belongs; some may",
        (Lower, Only, 1) => "this row certainly belongs; others may",
        (Lower, Only, _) => "these rows certainly belong; others may",
        (Lower, AllBut, 0) => "every row certainly belongs",
        (Lower, AllBut, 1) => "every row but this certainly belongs; this one may too",
        (Lower, AllBut, _) => "every row but these certainly belongs; these may too",
        (Upper, Only, 0) => "no row belongs",
        (Upper, Only, 1) => "no other row belongs; this one may",
        (Upper, Only, _) => "no other rows belong; these may",
        (Upper, AllBut, 0) => "every row may belong",
        (Upper, AllBut, 1) => "this row certainly does not belong; every other row may",
        (Upper, AllBut, _) => "these rows certainly do not belong; every other row may",
        (Exact, Only, 0) => "no row belongs",
        (Exact, Only, 1) => "this row belongs and no other",
        (Exact, Only, _) => "these rows belong and no others",
        (Exact, AllBut, 0) => "every row belongs",
        (Exact, AllBut, 1) => "every row belongs but this one",
        (Exact, AllBut, _) => "every row belongs but these",
    }
}

/// `2 rows`, `all rows but 1`
pub fn count(form: Form, written: usize) -> String {
    match (form, written) {
        (Form::Only, 0) => "no rows".into(),
        (Form::Only, 1) => "1 row".into(),
        (Form::Only, _) => format!("{written} rows"),
        (Form::AllBut, 0) => "all rows".into(),
        (Form::AllBut, _) => format!("all rows but {written}"),
    }
}

/// What the columns are called, if the query is a comprehension or asks for a definition that is one.
pub fn heading(compiled: &Compiled, expression: &Expression) -> Option<Vec<String>> {
    let name = match &expression.kind {
        ExpressionKind::Each { head, .. } => return Some(head.terms.iter().map(column).collect()),
        ExpressionKind::Defined(name) => &name.text,
        ExpressionKind::List { issuer, list: List::Named(name) } if is_ours(compiled, issuer) => &name.text,
        _ => return None,
    };
    let definition = compiled.definitions().find(|definition| definition.identifier == name)?;
    heading(compiled, &definition.syntax.expression)
}

fn is_ours(compiled: &Compiled, issuer: &Term) -> bool {
    let key = match &issuer.kind {
        TermKind::Key(number) => Some(Key::new(*number)),
        TermKind::Named(name) => compiled.names().key(name),
        TermKind::Number(_) | TermKind::Any => None,
    };
    key == Some(compiled.our_key())
}

fn column(term: &Term) -> String {
    match &term.kind {
        TermKind::Number(number) => number.to_string(),
        TermKind::Key(number) => format!("k{number}"),
        TermKind::Named(name) => name.clone(),
        TermKind::Any => "_".into(),
    }
}

impl Shown<'_> {
    /// Aligned columns, then the mark in words, then where and when it was asked.
    pub fn table(&self, out: &mut dyn Write) -> io::Result<()> {
        let (verdict, form, rows) = parts(self.answer.table());
        match form {
            Form::Only => self.listed(rows, out)?,
            Form::AllBut => self.excluded(rows, out)?,
        }
        writeln!(out, "{}, {}: {}.", count(form, rows.len()), verdict_word(verdict), promise(verdict, form, rows.len()))?;
        let draws = match self.answer.draws() {
            1 => "1 draw".to_string(),
            draws => format!("{draws} draws"),
        };
        let date = When(self.minute);
        writeln!(out, "Archive {}, point {}, {date} (minute {}), {draws}.", self.archive, self.point, self.minute.number())
    }

    fn listed(&self, rows: &[Row], out: &mut dyn Write) -> io::Result<()> {
        if rows.is_empty() {
            return Ok(());
        }
        let mut lines = Vec::new();
        if let Some(heading) = &self.heading {
            lines.push(heading.clone());
        }
        lines.extend(self.cells(rows));
        let widths = widths(&lines);
        if self.heading.is_some() {
            lines.insert(1, widths.iter().map(|width| "-".repeat(*width)).collect());
        }
        aligned("", &lines, &widths, out)?;
        writeln!(out)
    }

    fn excluded(&self, rows: &[Row], out: &mut dyn Write) -> io::Result<()> {
        if rows.is_empty() {
            return Ok(());
        }
        let lines = self.cells(rows);
        writeln!(out, "all rows but")?;
        aligned("    ", &lines, &widths(&lines), out)?;
        writeln!(out)
    }

    fn cells(&self, rows: &[Row]) -> Vec<Vec<String>> {
        rows.iter().map(|row| row.atoms().iter().map(|&atom| self.names.show_atom(atom)).collect()).collect()
    }

    /// A header, then a line for each row: whether it is listed or excluded, the verdict, the atoms. A table without rows has a line too, so that its verdict
    /// can be read, and whether no row is listed or none excluded.
    pub fn csv(&self, out: &mut dyn Write) -> io::Result<()> {
        let (verdict, form, rows) = parts(self.answer.table());
        let width = rows.iter().map(|row| row.atoms().len()).max().unwrap_or(0);
        let columns = self.heading.clone().unwrap_or_else(|| (1..=width).map(|place| format!("atom {place}")).collect());
        let width = width.max(columns.len());
        let standing = match (form, rows.is_empty()) {
            (Form::Only, false) => "listed",
            (Form::AllBut, false) => "excluded",
            (Form::Only, true) => "none listed",
            (Form::AllBut, true) => "none excluded",
        };
        let cells = if rows.is_empty() { vec![Vec::new()] } else { self.cells(rows) };
        let mut text = Vec::new();
        let mut writer = csv::Writer::from_writer(&mut text);
        writer.write_record(padded(["rows", "verdict"], columns, width))?;
        for atoms in cells {
            writer.write_record(padded([standing, verdict_word(verdict)], atoms, width))?;
        }
        writer.flush()?;
        drop(writer);
        out.write_all(&text)
    }

    /// One object on one line. Numbers are numbers, keys are texts.
    pub fn json(&self, out: &mut dyn Write) -> io::Result<()> {
        let (verdict, form, rows) = parts(self.answer.table());
        let atoms = |row: &Row| -> Value { row.atoms().iter().map(|&atom| self.json_atom(atom)).collect() };
        let rows_as = match form {
            Form::Only => ("only", "rows"),
            Form::AllBut => ("all but", "excluded"),
        };
        let mut object = Map::new();
        object.insert("verdict".into(), json!(verdict_word(verdict)));
        object.insert("form".into(), json!(rows_as.0));
        object.insert(rows_as.1.into(), rows.iter().map(atoms).collect());
        object.insert("promise".into(), json!(promise(verdict, form, rows.len())));
        object.insert("draws".into(), json!(self.answer.draws()));
        object.insert("archive".into(), json!(self.archive));
        object.insert("point".into(), json!(self.point));
        object.insert("minute".into(), json!(self.minute.number()));
        object.insert("date".into(), json!(self.minute.date().is_ok().then(|| When(self.minute).to_string())));
        writeln!(out, "{}", Value::Object(object))
    }

    fn json_atom(&self, atom: Atom) -> Value {
        match atom.key() {
            Some(_) => json!(self.names.show_atom(atom)),
            None => json!(atom.word()),
        }
    }
}

/// Of each column the longest cell.
fn widths(lines: &[Vec<String>]) -> Vec<usize> {
    let columns = lines.iter().map(Vec::len).max().unwrap_or(0);
    let longest = |column: usize| lines.iter().filter_map(|line| line.get(column)).map(|cell| cell.chars().count()).max();
    (0..columns).map(|column| longest(column).unwrap_or(0)).collect()
}

fn aligned(margin: &str, lines: &[Vec<String>], widths: &[usize], out: &mut dyn Write) -> io::Result<()> {
    for line in lines {
        let cells: Vec<String> = line.iter().zip(widths).map(|(cell, width)| format!("{cell:<width$}")).collect();
        writeln!(out, "{margin}{}", cells.join("  ").trim_end())?;
    }
    Ok(())
}

/// All records of a file have as many fields.
fn padded(first: [&str; 2], others: Vec<String>, width: usize) -> Vec<String> {
    let mut fields: Vec<String> = first.map(String::from).into_iter().chain(others).collect();
    fields.resize(2 + width, String::new());
    fields
}

#[cfg(test)]
mod tests {
    use super::*;
    use txindurbe::Membership;

    const VERDICTS: [Verdict; 3] = [Verdict::Exact, Verdict::Lower, Verdict::Upper];

    fn table(verdict: Verdict, form: Form, rows: &[Row]) -> Table {
        let rows = match form {
            Form::Only => Rows::Only(rows.to_vec()),
            Form::AllBut => Rows::AllBut(rows.to_vec()),
        };
        match verdict {
            Verdict::Exact => Table::Exact(rows),
            Verdict::Lower => Table::Lower(rows),
            Verdict::Upper => Table::Upper(rows),
        }
    }

    /// What a promise says of a row that is written, and of all others.
    fn said(promise: &str) -> (Membership, Membership) {
        use Membership::*;
        match promise {
            "this row certainly belongs; others may" | "these rows certainly belong; others may" => (Yes, Unknown),
            "no other row belongs; this one may" | "no other rows belong; these may" => (Unknown, No),
            "this row belongs and no other" | "these rows belong and no others" => (Yes, No),
            "every row but this certainly belongs; this one may too" | "every row but these certainly belongs; these may too" => (Unknown, Yes),
            "this row certainly does not belong; every other row may" | "these rows certainly do not belong; every other row may" => (No, Unknown),
            "every row belongs but this one" | "every row belongs but these" => (No, Yes),
            other => panic!("{other}"),
        }
    }

    #[test]
    fn promises_say_what_answers_say_of_a_row() {
        let rows = [Row::from([7]), Row::from([8])];
        for verdict in VERDICTS {
            for form in [Form::Only, Form::AllBut] {
                for written in [1, 2] {
                    let table = table(verdict, form, &rows[..written]);
                    let (of_written, of_others) = said(promise(verdict, form, written));
                    assert_eq!(table.contains(&rows[0]), of_written, "{table}");
                    assert_eq!(table.contains(&Row::from([9])), of_others, "{table}");
                }
            }
        }
    }

    #[test]
    fn promises_of_tables_without_rows() {
        use Membership::*;
        for verdict in VERDICTS {
            for form in [Form::Only, Form::AllBut] {
                let expected = match table(verdict, form, &[]).contains(&Row::from([7])) {
                    Yes => ["every row certainly belongs", "every row belongs"],
                    No => ["no row belongs"; 2],
                    Unknown => ["no row certainly belongs; some may", "every row may belong"],
                };
                assert!(expected.contains(&promise(verdict, form, 0)), "{verdict:?} {form:?}");
            }
        }
    }

    #[test]
    fn tables_are_taken_apart_and_counted() {
        let rows = [Row::from([7])];
        for verdict in VERDICTS {
            assert_eq!(parts(&table(verdict, Form::Only, &rows)), (verdict, Form::Only, &rows[..]));
            assert_eq!(parts(&table(verdict, Form::AllBut, &rows)), (verdict, Form::AllBut, &rows[..]));
        }
        assert_eq!([0, 1, 2].map(|written| count(Form::Only, written)), ["no rows", "1 row", "2 rows"]);
        assert_eq!([0, 1, 2].map(|written| count(Form::AllBut, written)), ["all rows", "all rows but 1", "all rows but 2"]);
    }

    #[test]
    fn columns_are_as_wide_as_their_longest_cell() {
        let lines = [vec!["o", "x"], vec!["alma"], vec!["k", "2027", "1"]].map(|line| line.into_iter().map(String::from).collect::<Vec<_>>());
        assert_eq!(widths(&lines), [4, 4, 1]);
        let mut out = Vec::new();
        aligned("  ", &lines, &widths(&lines), &mut out).expect("it is written");
        assert_eq!(String::from_utf8_lossy(&out), "  o     x\n  alma\n  k     2027  1\n");
    }
}
