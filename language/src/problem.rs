//! What the compiler has to say about a text, with the place.

use crate::syntax::Span;

#[derive(Clone, Copy, PartialEq, Eq, Debug)]
pub enum Severity {
    /// Nothing is handed to the engine, or the engine refused it.
    Error,
    /// It means what it says, and likely not what was meant.
    Warning,
}

/// An error or a warning. How it is drawn is the tool's.
#[derive(Clone, PartialEq, Eq, Debug)]
pub struct Problem {
    pub severity: Severity,
    /// The refusal's number, if the engine refuses it, or would.
    pub refusal: Option<u32>,
    /// The rule that is broken, in words.
    pub message: String,
    /// The place first, then what else bears on it.
    pub labels: Vec<Label>,
    /// What would be right.
    pub mends: Vec<String>,
}

#[derive(Clone, PartialEq, Eq, Debug)]
pub struct Label {
    pub span: Span,
    pub text: String,
}

/// The texts that spans are of: the policy's file first, then what is asked on the command line.
#[derive(Clone, PartialEq, Eq, Debug, Default)]
pub struct Sources {
    pub texts: Vec<Source>,
}

#[derive(Clone, PartialEq, Eq, Debug)]
pub struct Source {
    /// A file's name, or what else to call it.
    pub name: String,
    pub text: String,
}

impl Sources {
    /// The number that spans of this text have.
    pub fn add(&mut self, name: impl Into<String>, text: impl Into<String>) -> usize {
        self.texts.push(Source { name: name.into(), text: text.into() });
        self.texts.len() - 1
    }
}
