//! `txindurbe test`: files of policies, filings and expected answers, run in memory.

mod lines;

use super::{load, read, Loaded};
use crate::cli::TestArguments;
use crate::failure::{Failure, Outcome};
use crate::reading;
use crate::show::Show;
use crate::table::{parts, verdict_word, Form};
use lines::{lines, Expected, Line, Piece, Reply, Step, Wrong};
use std::io::Write;
use std::path::Path;
use txindurbe::{
    Answer, Certificate, Engine, Filing, Key, Link, Links, Membership, Minute, Polarity, Policy, Refusal, Row, Store, Table, Validity, Verdict,
};
use txindurbe_language::syntax::Span;
use txindurbe_language::{Asked, Label, Names, Problem, Severity, Sources};

pub fn run(arguments: &TestArguments, _show: &Show, out: &mut dyn Write) -> Outcome {
    let mut all = Counts::default();
    for path in &arguments.files {
        let counts = run_file(path, out)?;
        if counts == Counts::default() {
            return Err(Failure::of_file(path, "it tests nothing: no line of it says what `is` expected"));
        }
        all = Counts { passed: all.passed + counts.passed, failed: all.failed + counts.failed };
    }
    writeln!(out, "{} passed, {} failed", all.passed, all.failed)?;
    match all.failed {
        0 => Ok(()),
        _ => Err(Failure::Refused(String::new())),
    }
}

#[derive(Clone, Copy, PartialEq, Eq, Default)]
struct Counts {
    passed: usize,
    failed: usize,
}

fn run_file(path: &Path, out: &mut dyn Write) -> Result<Counts, Failure> {
    let text = read(path)?;
    let mut run = Run::new(path, &text);
    let mut counts = Counts::default();
    for line in lines(&text) {
        let line = line.map_err(|wrong| run.unreadable(wrong))?;
        match run.step(&line)? {
            None => {}
            Some(Verified::Passed) => counts.passed += 1,
            Some(Verified::Failed { tried, expected, got }) => {
                counts.failed += 1;
                writeln!(out, "{}:{}: {tried}\n  expected  {expected}\n  got       {got}", path.display(), line.number)?;
            }
        }
    }
    Ok(counts)
}

/// What came of a test.
enum Verified<'a> {
    Passed,
    Failed { tried: &'a str, expected: String, got: String },
}

impl<'a> Verified<'a> {
    fn compare(tried: &'a str, agrees: bool, expected: String, got: String) -> Verified<'a> {
        match agrees {
            true => Verified::Passed,
            false => Verified::Failed { tried, expected, got },
        }
    }
}

/// A file of tests, as far as it was run.
struct Run<'a> {
    path: &'a Path,
    text: &'a str,
    policy: Option<Loaded>,
    store: Store,
    links: Links,
    minute: Option<Minute>,
    engine: Engine,
}

/// The refusal of what is not in scope, as a name that stands for nothing.
const NOT_IN_SCOPE: u32 = 4;

/// What was asked, or the refusal that it got, with the rule.
type Reached<T> = Result<T, (u32, String)>;

impl<'a> Run<'a> {
    fn new(path: &'a Path, text: &'a str) -> Run<'a> {
        Run { path, text, policy: None, store: Store::new(), links: Links::new(), minute: None, engine: Engine::new() }
    }

    /// None if the line tests nothing.
    fn step(&mut self, line: &Line<'a>) -> Result<Option<Verified<'a>>, Failure> {
        match line.step {
            Step::Policy(path) => {
                self.policy = Some(load(&self.path.parent().unwrap_or(Path::new("")).join(path.text))?);
                (self.store, self.links) = (Store::new(), Links::new());
                Ok(None)
            }
            Step::Minute(minute) => {
                self.minute = Some(minute);
                Ok(None)
            }
            Step::Certificate { row, says, list, first, end, expected } => {
                let certificate = self.certificate(line.text, row, says, list, Validity { first, end })?;
                let reply = self.store.file(&certificate);
                Ok(filed(line.text.text, expected, reply))
            }
            Step::Link { list, says, other, expected } => {
                let link = self.link(line.text, list, says, other)?;
                let reply = self.links.file(&link);
                Ok(filed(line.text.text, expected, reply))
            }
            Step::Ask { query, expected } => self.ask(line.text, query, expected).map(Some),
            Step::Member { row, query, expected } => self.member(line.text, row, query, expected).map(Some),
        }
    }

    // ---- filing

    fn certificate(&self, line: Piece, row: Piece, says: Piece, list: Piece, validity: Validity) -> Result<Certificate, Failure> {
        let names = self.loaded(line)?.compiled.names();
        let (key, name, polarity) = self.list(names, list)?;
        reading::certificate_says(says.text, polarity).map_err(|wrong| self.unreadable(says.cannot_be_read(wrong)))?;
        Ok(Certificate { key, name, polarity, row: self.row(names, row)?, validity })
    }

    fn link(&self, line: Piece, list: Piece, says: Piece, other: Piece) -> Result<Link, Failure> {
        let names = self.loaded(line)?.compiled.names();
        let (key, name, polarity) = self.list(names, list)?;
        let (other_key, other_name, other_polarity) = self.list(names, other)?;
        reading::link_says(says.text, polarity).map_err(|wrong| self.unreadable(says.cannot_be_read(wrong)))?;
        if polarity != other_polarity {
            return Err(self.unreadable(other.wrong("both lists of a link have the same sign", "link two + lists or two − lists")));
        }
        Ok(Link { key, name, polarity, other_key, other_name })
    }

    fn list(&self, names: &Names, list: Piece) -> Result<(Key, u16, Polarity), Failure> {
        let Some((key, name)) = list.text.split_once('.') else {
            return Err(self.unreadable(list.wrong("a list is a key's", "write it as alma.released or k1.2-")));
        };
        let read = || Ok((reading::key(names, key.trim())?, reading::list(names, name.trim())?));
        let (key, (name, polarity)) = read().map_err(|wrong: String| self.unreadable(list.cannot_be_read(wrong)))?;
        Ok((key, name, polarity))
    }

    fn row(&self, names: &Names, row: Piece) -> Result<Row, Failure> {
        reading::row(names, row.text).map_err(|wrong| self.unreadable(row.cannot_be_read(wrong)))
    }

    // ---- asking

    fn ask(&mut self, line: Piece<'a>, query: Piece<'a>, expected: Expected<'a>) -> Result<Verified<'a>, Failure> {
        let expected = match expected {
            Expected::Table(verdict, rows) => Ok(self.expected_table(line, verdict, rows)?),
            Expected::Refused(number) => Err(number),
        };
        let got = self.answer(line, query, expected.as_ref().err() == Some(&NOT_IN_SCOPE))?;
        let names = self.loaded(line)?.compiled.names();
        let agrees = match (&expected, &got) {
            (Ok(expected), Ok(got)) => expected == got.table(),
            (Err(expected), Err((got, _))) => expected == got,
            _ => false,
        };
        let shown = match &expected {
            Ok(table) => shown(names, table),
            Err(number) => format!("refused {number}"),
        };
        Ok(Verified::compare(tried(line, query), agrees, shown, got_table(names, &got)))
    }

    fn member(&mut self, line: Piece<'a>, row: Piece<'a>, query: Piece<'a>, expected: Membership) -> Result<Verified<'a>, Failure> {
        let row = self.row(self.loaded(line)?.compiled.names(), row)?;
        let got = match self.answer(line, query, false)? {
            Ok(answer) => Ok(answer.contains(&row)),
            Err(refused) => Err(refused),
        };
        let shown = match &got {
            Ok(membership) => member_word(*membership).to_string(),
            Err((number, rule)) => format!("refused {number}: {rule}"),
        };
        Ok(Verified::compare(tried(line, query), got == Ok(expected), member_word(expected).into(), shown))
    }

    /// Of the engine. What cannot be read is no test.
    fn answer(&mut self, line: Piece, query: Piece, out_of_scope: bool) -> Result<Reached<Answer>, Failure> {
        let asked = match self.asked(line, query, out_of_scope)? {
            Ok(asked) => asked,
            Err(refused) => return Ok(Err(refused)),
        };
        let minute = self.minute.ok_or_else(|| self.unreadable(line.wrong("at which minute?", "say it before: `minute 2027-03-20`")))?;
        let Run { policy: Some(loaded), engine, store, links, .. } = self else { return Err(self.no_policy(line)) };
        let answer = engine.query(loaded.compiled.policy(), &asked.query, minute, store, links);
        Ok(answer.map_err(|refusal| (refusal.number(), refusal.rule().to_string())))
    }

    fn asked(&self, line: Piece, query: Piece, out_of_scope: bool) -> Result<Reached<Asked>, Failure> {
        let loaded = self.loaded(line)?;
        if query.text != "query" {
            return self.expression(loaded, query, out_of_scope);
        }
        let own = loaded.compiled.query().cloned();
        own.map(Ok).ok_or_else(|| self.unreadable(query.wrong("the policy has no query of its own", "ask an expression")))
    }

    /// The rows that are written, in the engine's order: it is asked for them, under a policy without definitions.
    fn expected_table(&self, line: Piece, verdict: Verdict, rows: Piece) -> Result<Table, Failure> {
        let loaded = self.loaded(line)?;
        let written_out = || self.unreadable(rows.wrong("expected rows are written out", "write them as { (7), (8) } or all but { (7) }"));
        let asked = self.expression(loaded, rows, false)?.map_err(|_| written_out())?;
        let policy = Policy::in_format(loaded.compiled.our_key(), loaded.compiled.format(), &[]).map_err(|_| written_out())?;
        let answer = Engine::new().query(&policy, &asked.query, Minute::new(0), &Store::new(), &Links::new()).map_err(|_| written_out())?;
        match (answer.table(), verdict) {
            (Table::Exact(rows), Verdict::Exact) => Ok(Table::Exact(rows.clone())),
            (Table::Exact(rows), Verdict::Lower) => Ok(Table::Lower(rows.clone())),
            (Table::Exact(rows), Verdict::Upper) => Ok(Table::Upper(rows.clone())),
            (Table::Lower(_) | Table::Upper(_), _) => Err(written_out()),
        }
    }

    /// An expression in the policy's names. A refusal is an answer; but a name that stands for nothing cannot be read, unless that is what is tested.
    fn expression(&self, loaded: &Loaded, expression: Piece, out_of_scope: bool) -> Result<Reached<Asked>, Failure> {
        let mut sources = loaded.sources.clone();
        let file = sources.add(self.path.display().to_string(), self.text);
        let alone = sources.add(self.path.display().to_string(), self.alone(expression));
        let mut problems = match loaded.compiled.ask(&sources, alone) {
            Ok(asked) => return Ok(Ok(asked)),
            Err(problems) => problems,
        };
        let refused = problems.iter().find_map(|problem| Some((problem.refusal?, problem.message.clone())));
        if let Some((number, message)) = refused.filter(|(number, _)| out_of_scope || *number != NOT_IN_SCOPE) {
            return Ok(Err((number, message)));
        }
        for problem in &mut problems {
            problem.refusal = None;
            for label in problem.labels.iter_mut().filter(|label| label.span.source == alone) {
                label.span.source = file;
            }
        }
        Err(Failure::Problems(sources, problems))
    }

    /// The expression at its place in the file, and nothing else there: so what is said of it is said of that place.
    fn alone(&self, expression: Piece) -> String {
        let before = self.text[..expression.start].bytes().map(|byte| if byte == b'\n' { '\n' } else { ' ' });
        before.chain(expression.text.chars()).collect()
    }

    // ---- what cannot be read

    fn loaded(&self, line: Piece) -> Result<&Loaded, Failure> {
        self.policy.as_ref().ok_or_else(|| self.no_policy(line))
    }

    fn no_policy(&self, line: Piece) -> Failure {
        self.unreadable(line.wrong("under which policy?", "say it before: `policy public.qcm`"))
    }

    fn unreadable(&self, wrong: Wrong) -> Failure {
        let mut sources = Sources::default();
        let source = sources.add(self.path.display().to_string(), self.text);
        let Wrong { start, end, message, mend } = wrong;
        let label = Label { span: Span { source, start, end }, text: "here".into() };
        let problem = Problem { severity: Severity::Error, refusal: None, message, labels: vec![label], mends: mend.into_iter().collect() };
        Failure::Problems(sources, vec![problem])
    }
}

/// A filing of which nothing is expected is a test only if it is refused.
fn filed<'a>(tried: &'a str, expected: Option<Reply>, reply: Result<Filing, Refusal>) -> Option<Verified<'a>> {
    let got = match reply {
        Ok(Filing::Filed) => Reply::Filed,
        Ok(Filing::Held) => Reply::Held,
        Err(refusal) => Reply::Refused(refusal.number()),
    };
    let shown = match reply {
        Err(refusal) => format!("refused {}: {}", refusal.number(), refusal.rule()),
        Ok(_) => reply_word(got),
    };
    match (expected, got) {
        (Some(expected), got) => Some(Verified::compare(tried, expected == got, reply_word(expected), shown)),
        (None, Reply::Refused(_)) => Some(Verified::Failed { tried, expected: "Filed or Held".into(), got: shown }),
        (None, _) => None,
    }
}

fn reply_word(reply: Reply) -> String {
    match reply {
        Reply::Filed => "Filed".into(),
        Reply::Held => "Held".into(),
        Reply::Refused(number) => format!("refused {number}"),
    }
}

fn member_word(membership: Membership) -> &'static str {
    match membership {
        Membership::Yes => "yes",
        Membership::No => "no",
        Membership::Unknown => "unknown",
    }
}

/// A line up to what it expects.
fn tried<'a>(line: Piece<'a>, query: Piece<'a>) -> &'a str {
    &line.text[..query.start + query.text.len() - line.start]
}

fn got_table(names: &Names, got: &Reached<Answer>) -> String {
    match got {
        Ok(answer) => shown(names, answer.table()),
        Err((number, rule)) => format!("refused {number}: {rule}"),
    }
}

/// As it is written in a file of tests.
fn shown(names: &Names, table: &Table) -> String {
    let (verdict, form, rows) = parts(table);
    let all_but = match form {
        Form::Only => "",
        Form::AllBut => "all but ",
    };
    let rows: Vec<String> = rows.iter().map(|row| names.show_row(row)).collect();
    match rows.is_empty() {
        true => format!("{} {all_but}{{}}", verdict_word(verdict)),
        false => format!("{} {all_but}{{ {} }}", verdict_word(verdict), rows.join(", ")),
    }
}
