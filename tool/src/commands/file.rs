//! `txindurbe file`: lines become words, the words are filed in batches, and a line is acknowledged when its batch is durable.

mod comma;
mod fields;
mod json;

use super::{names, read};
use crate::cli::{FileArguments, Input};
use crate::commands::names::Twins;
use crate::failure::{Failure, Outcome};
use crate::show::Show;
use crate::when::{self, When};
use indicatif::{ProgressBar, ProgressStyle};
use std::io::{ErrorKind, IsTerminal, Read, Write};
use std::ops::Range;
use std::path::Path;
use txindurbe::{Certificate, Filing};
use txindurbe_archive::{Archive, ArchiveError, Entry, Kind};
use txindurbe_language::{Names, Problem, Severity, Sources};

/// Of more lines than this, a bar shows how far it is.
const MANY: usize = 1_000;

/// The most lines that are written through to the disk at once.
const LARGEST_BATCH: usize = 1_000;

pub fn run(arguments: &FileArguments, show: &Show, out: &mut dyn Write) -> Outcome {
    let mut archive = Archive::open(&arguments.archive)?;
    let names = names(arguments.names.as_deref())?;
    let lines = Lines::read(arguments, &names)?;
    let came = arguments.came.map_or_else(when::now, When::seconds);
    let mut run = Run { lines: &lines, quiet: arguments.quiet, out, listened_to: true, counts: Counts::default(), twins: Twins::default() };
    let bar = progress(lines.filings.len());
    for batch in batches(lines.filings.len()) {
        let entries = archive.file(&lines.filings[batch.clone()], came).map_err(|error| run.broken_off(&batch, error))?;
        bar.suspend(|| run.acknowledge(&batch, &entries))?;
        bar.set_position(batch.end as u64);
        run.note_twins(&mut archive, &entries)?;
    }
    bar.finish_and_clear();
    let point = archive.last_point()?;
    run.end(point, &names, show)
}

/// Each begins where the one before ended: the first acknowledgement comes soon, and many lines do not wait for the disk one by one.
fn batches(count: usize) -> impl Iterator<Item = Range<usize>> {
    let mut batch = 0..0;
    std::iter::from_fn(move || {
        let size = (2 * batch.len()).clamp(1, LARGEST_BATCH);
        batch = batch.end..(batch.end + size).min(count);
        (!batch.is_empty()).then(|| batch.clone())
    })
}

/// On standard error, if that is a terminal.
fn progress(count: usize) -> ProgressBar {
    if count <= MANY || !std::io::stderr().is_terminal() {
        return ProgressBar::hidden();
    }
    let style = ProgressStyle::with_template("{bar:40} {pos} of {len} lines, {eta} left");
    ProgressBar::new(count as u64).with_style(style.unwrap_or_else(|_| ProgressStyle::default_bar()))
}

/// What is to be filed, and where each of it is written.
struct Lines {
    sources: Sources,
    places: Vec<Place>,
    filings: Vec<(Kind, Vec<u32>)>,
}

struct Place {
    source: usize,
    line: usize,
}

impl Lines {
    /// All lines of all files, or all that is wrong with them.
    fn read(arguments: &FileArguments, names: &Names) -> Result<Lines, Failure> {
        let mut lines = Lines { sources: Sources::default(), places: Vec::new(), filings: Vec::new() };
        let (mut problems, mut wrong_lines) = (Vec::new(), 0);
        for path in &arguments.files {
            let input = input(path, arguments.input)?;
            let source = lines.sources.add(called(path), text(path)?);
            let text = &lines.sources.texts[source].text;
            let read = match input {
                Input::Csv => comma::lines(source, text, names),
                Input::Jsonl => json::lines(source, text, names),
            };
            for (line, filing) in read {
                match filing {
                    Ok(filing) => {
                        lines.places.push(Place { source, line });
                        lines.filings.push(filing);
                    }
                    Err(wrong) => {
                        wrong_lines += 1;
                        problems.extend(wrong);
                    }
                }
            }
        }
        match problems.is_empty() {
            true => Ok(lines),
            false => Err(Failure::Problems(lines.sources, with_sum(problems, wrong_lines))),
        }
    }

    /// As in the messages of a compiler.
    fn show(&self, place: usize) -> String {
        let Place { source, line } = self.places[place];
        format!("{}:{line}", self.sources.texts[source].name)
    }
}

fn input(path: &Path, said: Option<Input>) -> Result<Input, Failure> {
    match path.extension().and_then(|extension| extension.to_str()) {
        Some("csv") => Ok(Input::Csv),
        Some("jsonl" | "json") => Ok(Input::Jsonl),
        _ => said.ok_or_else(|| Failure::Usage(format!("{}: is it CSV or JSON lines? Say --input csv or --input jsonl", called(path)))),
    }
}

/// What the file is called in messages.
fn called(path: &Path) -> String {
    match path == Path::new("-") {
        true => "standard input".into(),
        false => path.display().to_string(),
    }
}

/// Of a file, or of standard input for `-`.
fn text(path: &Path) -> Result<String, Failure> {
    if path != Path::new("-") {
        return read(path);
    }
    let mut text = String::new();
    std::io::stdin().read_to_string(&mut text).map_err(|error| Failure::Usage(format!("{}: {error}", called(path))))?;
    Ok(text)
}

/// And what they come to.
fn with_sum(mut problems: Vec<Problem>, lines: usize) -> Vec<Problem> {
    let lines = if lines == 1 { "1 line".into() } else { format!("{lines} lines") };
    let message = format!("nothing was filed: {lines} cannot be turned into words");
    problems.push(Problem { severity: Severity::Error, refusal: None, message, labels: Vec::new(), mends: Vec::new() });
    problems
}

#[derive(Default)]
struct Counts {
    filed: usize,
    held: usize,
    refused: usize,
}

/// The filing of all lines, batch by batch.
struct Run<'a> {
    lines: &'a Lines,
    quiet: bool,
    out: &'a mut dyn Write,
    /// Who stops reading our output does not stop the filing.
    listened_to: bool,
    counts: Counts,
    twins: Twins,
}

impl Run<'_> {
    fn acknowledge(&mut self, batch: &Range<usize>, entries: &[Entry]) -> Outcome {
        let mut text = String::new();
        for (place, entry) in batch.clone().zip(entries) {
            let (count, reply) = match entry.reply {
                Ok(Filing::Filed) => (&mut self.counts.filed, "Filed".to_string()),
                Ok(Filing::Held) => (&mut self.counts.held, "Held".to_string()),
                Err(refusal) => (&mut self.counts.refused, format!("refused {}: {}", refusal.number(), refusal.rule())),
            };
            *count += 1;
            if !self.quiet || entry.reply.is_err() {
                text += &format!("{}: {reply}\n", self.lines.show(place));
            }
        }
        self.tell(&text)
    }

    fn tell(&mut self, text: &str) -> Outcome {
        if !self.listened_to {
            return Ok(());
        }
        match self.out.write_all(text.as_bytes()).and_then(|()| self.out.flush()) {
            Err(error) if error.kind() == ErrorKind::BrokenPipe => {
                self.listened_to = false;
                Ok(())
            }
            written => Ok(written?),
        }
    }

    /// The rows that this batch certified in one of two lists of one number, and that are certified in the other too.
    fn note_twins(&mut self, archive: &mut Archive, entries: &[Entry]) -> Outcome {
        let filed = entries.iter().filter(|entry| entry.kind == Kind::Certificate && entry.reply == Ok(Filing::Filed));
        let filed: Vec<Certificate> = filed.filter_map(|entry| Certificate::from_words(&entry.words)).collect();
        if let (false, Some(last)) = (filed.is_empty(), entries.last()) {
            self.twins.note(&archive.held(Some(last.point))?.store, &filed);
        }
        Ok(())
    }

    /// How far the filing came before an error ended it.
    fn broken_off(&self, batch: &Range<usize>, error: ArchiveError) -> Failure {
        let (done, all) = (batch.start, self.lines.filings.len());
        let from = self.lines.show(batch.start);
        Failure::Usage(format!("{error}.\nAcknowledged are {done} of {all} lines: file those from {from} on again."))
    }

    fn end(mut self, point: u64, names: &Names, show: &Show) -> Outcome {
        let Counts { filed, held, refused } = self.counts;
        self.tell(&format!("{filed} Filed, {held} Held, {refused} refused. The archive is at point {point}.\n"))?;
        self.twins.warn(names, show);
        match refused {
            0 => Ok(()),
            _ => Err(Failure::Refused(String::new())),
        }
    }
}

#[cfg(test)]
mod tests {
    use super::*;

    #[test]
    fn batches_grow_and_leave_nothing_out() {
        let sizes = |count| batches(count).map(|batch| batch.len()).collect::<Vec<_>>();
        assert_eq!(sizes(0), [0; 0]);
        assert_eq!(sizes(1), [1]);
        assert_eq!(sizes(6), [1, 2, 3]);
        assert_eq!(sizes(7), [1, 2, 4]);
        assert_eq!(sizes(3_500), [1, 2, 4, 8, 16, 32, 64, 128, 256, 512, 1000, 1000, 477]);
        let all: Vec<usize> = batches(2_345).flatten().collect();
        assert_eq!(all, (0..2_345).collect::<Vec<_>>());
    }

    /// Whatever a file has in it, each line is read or has errors, and these stand at places of the text.
    #[test]
    fn any_text_is_read() {
        const PIECES: [&str; 24] = [
            "key",
            "row",
            "says",
            "list",
            "first",
            "end",
            "other_key",
            "in",
            "k1",
            "1+",
            "7",
            "\"",
            "\"",
            ",",
            ",",
            ",",
            "\n",
            "\r\n",
            "{",
            "}",
            "[",
            ":",
            "ä",
            "\u{feff}",
        ];
        let mut state = 20_u64;
        let mut below = |bound: usize| {
            state = state.wrapping_mul(6_364_136_223_846_793_005).wrapping_add(1_442_695_040_888_963_407);
            (state >> 33) as usize % bound
        };
        let headings = ["", "key,row,says,list,first,end\n", "key,list,says,other_key,other_list\r\n", "{\"key\": \"k1\", "];
        for _ in 0..4_000 {
            let mut text = headings[below(headings.len())].to_string();
            (0..below(30)).for_each(|_| text += PIECES[below(PIECES.len())]);
            for read in [comma::lines(0, &text, &Names::default()), json::lines(0, &text, &Names::default())] {
                for problem in read.into_iter().filter_map(|(_, read)| read.err()).flatten() {
                    let span = problem.labels[0].span;
                    assert!(text.get(span.start..span.end).is_some(), "{text:?}: {problem:?}");
                }
            }
        }
    }
}
