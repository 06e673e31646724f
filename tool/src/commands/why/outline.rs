//! An indented outline.

use std::io::{self, Write};

/// A line, and the lines that stand below it.
#[derive(Clone, PartialEq, Eq, Debug)]
pub struct Outline {
    pub text: String,
    pub inside: Vec<Outline>,
}

impl Outline {
    pub fn line(text: impl Into<String>) -> Outline {
        Outline { text: text.into(), inside: Vec::new() }
    }

    pub fn new(text: impl Into<String>, inside: Vec<Outline>) -> Outline {
        Outline { text: text.into(), inside }
    }

    pub fn write(&self, depth: usize, out: &mut dyn Write) -> io::Result<()> {
        writeln!(out, "{}{}", "  ".repeat(depth), self.text)?;
        self.inside.iter().try_for_each(|outline| outline.write(depth + 1, out))
    }
}
