//! What goes to standard error: problems drawn at their place, and errors that have none.

use crate::cli::Colour;
use codespan_reporting::diagnostic::{self, Diagnostic};
use codespan_reporting::files::SimpleFiles;
use codespan_reporting::term::termcolor::{ColorChoice, StandardStream};
use codespan_reporting::term::{self, Config};
use std::io::IsTerminal;
use txindurbe_language::{Label, Problem, Severity, Sources};

/// Of those that have a place: who has mended these sees the others.
const MOST_SHOWN: usize = 20;

pub struct Show {
    colour: ColorChoice,
}

impl Show {
    pub fn new(colour: Colour) -> Show {
        let colour = match colour {
            Colour::Always => ColorChoice::Always,
            Colour::Auto if std::io::stderr().is_terminal() => ColorChoice::Auto,
            Colour::Auto | Colour::Never => ColorChoice::Never,
        };
        Show { colour }
    }

    pub fn problems(&self, sources: &Sources, problems: &[Problem]) {
        let mut files = SimpleFiles::new();
        for source in &sources.texts {
            files.add(&source.name, &source.text);
        }
        let (placed, of_all): (Vec<&Problem>, Vec<&Problem>) = problems.iter().partition(|problem| !problem.labels.is_empty());
        for problem in placed.iter().take(MOST_SHOWN) {
            self.emit(&files, &diagnostic(problem));
        }
        if placed.len() > MOST_SHOWN {
            self.error(&format!("there are {} more like these", placed.len() - MOST_SHOWN));
        }
        for problem in of_all {
            self.emit(&files, &diagnostic(problem));
        }
    }

    /// Nothing, if there is nothing to say.
    pub fn error(&self, message: &str) {
        if !message.is_empty() {
            self.emit(&SimpleFiles::<String, String>::new(), &Diagnostic::error().with_message(message));
        }
    }

    pub fn warning(&self, message: &str) {
        self.emit(&SimpleFiles::<String, String>::new(), &Diagnostic::warning().with_message(message));
    }

    /// Standard error may be closed: then there is nobody to tell.
    fn emit<Name: std::fmt::Display + Clone, Text: AsRef<str>>(&self, files: &SimpleFiles<Name, Text>, diagnostic: &Diagnostic<usize>) {
        let _ = term::emit(&mut StandardStream::stderr(self.colour).lock(), &Config::default(), files, diagnostic);
    }
}

fn diagnostic(problem: &Problem) -> Diagnostic<usize> {
    let empty = match problem.severity {
        Severity::Error => Diagnostic::error(),
        Severity::Warning => Diagnostic::warning(),
    };
    let diagnostic = empty.with_message(&problem.message).with_labels(labels(&problem.labels)).with_notes(notes(&problem.mends));
    match problem.refusal {
        Some(number) => diagnostic.with_code(format!("refusal {number}")),
        None => diagnostic,
    }
}

/// The first is the place, the others bear on it.
fn labels(labels: &[Label]) -> Vec<diagnostic::Label<usize>> {
    let style = |place| if place == 0 { diagnostic::LabelStyle::Primary } else { diagnostic::LabelStyle::Secondary };
    let drawn =
        |(place, Label { span, text }): (usize, &Label)| diagnostic::Label::new(style(place), span.source, span.start..span.end).with_message(text);
    labels.iter().enumerate().map(drawn).collect()
}

fn notes(mends: &[String]) -> Vec<String> {
    mends.iter().map(|mend| format!("mend: {mend}")).collect()
}
