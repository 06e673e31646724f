//! `txindurbe verify`

use super::{load, Loaded};
use crate::citation::{Citation, CitedTable, Digest};
use crate::cli::VerifyArguments;
use crate::failure::{Failure, Outcome};
use crate::show::Show;
use crate::when::When;
use std::fmt::Display;
use std::io::{Read, Write};
use std::path::Path;
use txindurbe::Engine;
use txindurbe_archive::{Archive, ArchiveError, Held};
use txindurbe_language::Asked;

pub fn run(arguments: &VerifyArguments, _show: &Show, out: &mut dyn Write) -> Outcome {
    let citation = citation(&arguments.citation)?;
    let mut loaded = load(&arguments.policy)?;
    let asked = loaded.asked(arguments.ask.as_deref())?;
    let mut archive = Archive::open(&arguments.archive)?;
    let lines = compared(&citation, &loaded, &asked, &mut archive)?;
    for Line { word, difference } in &lines {
        writeln!(out, "{word:<7}  {}", difference.as_deref().unwrap_or("the same"))?;
    }
    let differ: Vec<&str> = lines.iter().filter(|line| line.difference.is_some()).map(|line| line.word).collect();
    match differ.is_empty() {
        true => Ok(()),
        false => Err(Failure::Refused(format!("not as the citation says: {}", differ.join(", ")))),
    }
}

fn citation(path: &Path) -> Result<Citation, Failure> {
    let mut text = String::new();
    let read = match path == Path::new("-") {
        true => std::io::stdin().read_to_string(&mut text).map(|_| ()),
        false => std::fs::read_to_string(path).map(|read| text = read),
    };
    read.map_err(|error| Failure::of_file(path, error))?;
    text.parse().map_err(|wrong: String| Failure::of_file(path, wrong))
}

/// A line of the citation, and how it is not so again.
struct Line {
    word: &'static str,
    difference: Option<String>,
}

impl Line {
    fn new<T: PartialEq + Display>(word: &'static str, cited: T, here: T, meaning: &str) -> Line {
        let difference = (cited != here).then(|| format!("differs: {meaning}\n         cited {cited}\n         here  {here}"));
        Line { word, difference }
    }

    fn differs(word: &'static str, how: String) -> Line {
        Line { word, difference: Some(format!("differs: {how}")) }
    }
}

fn compared(citation: &Citation, loaded: &Loaded, asked: &Asked, archive: &mut Archive) -> Result<Vec<Line>, Failure> {
    let mut lines = vec![Line::new("archive", citation.archive.as_str(), archive.id(), "this is another archive")];
    let held = match archive.held(Some(citation.point)) {
        Ok(held) => {
            lines.push(Line::new("point", citation.list, Digest(held.digest), "the list of filings up to this point is another one, or was changed"));
            Some(held)
        }
        Err(ArchiveError::NoSuchPoint { last, .. }) => {
            let how = format!("point {} is not there, the list ends at {last}: an older copy, or another archive", citation.point);
            lines.push(Line::differs("point", how));
            None
        }
        Err(error) => return Err(error.into()),
    };
    let policy = Digest::of_policy(loaded.compiled.policy());
    lines.push(Line::new("policy", citation.policy, policy, "this is another policy, or it was changed since"));
    lines.push(Line::new("query", citation.query, Digest::of_query(&asked.query), "this is another query; --ask says which one was asked"));
    let same = lines.iter().all(|line| line.difference.is_none());
    lines.push(match held {
        Some(held) => table(citation, loaded, asked, &held, same),
        None => Line::differs("table", "not asked again, for want of that point".into()),
    });
    Ok(lines)
}

/// Asked again; `same` says that all else is as it was.
fn table(citation: &Citation, loaded: &Loaded, asked: &Asked, held: &Held, same: bool) -> Line {
    let answer = Engine::new().query(loaded.compiled.policy(), &asked.query, citation.minute, &held.store, &held.links);
    let meaning = match same {
        true => format!(
            "the same question at {} has another answer: the citation was changed, or tool {} read it otherwise",
            When(citation.minute),
            citation.tool
        ),
        false => "what was asked, or what it was asked of, is not the same".into(),
    };
    match answer {
        Ok(answer) => Line::new("table", citation.table, CitedTable::of(answer.table()), &meaning),
        Err(refusal) => Line::differs("table", format!("there is no answer, {refusal}; {meaning}")),
    }
}
