//! How problems are put together.

use crate::problem::{Label, Problem, Severity};
use crate::syntax::Span;

impl Problem {
    pub(crate) fn error(message: impl Into<String>) -> Problem {
        Problem { severity: Severity::Error, refusal: None, message: message.into(), labels: Vec::new(), mends: Vec::new() }
    }

    pub(crate) fn warning(message: impl Into<String>) -> Problem {
        Problem { severity: Severity::Warning, ..Problem::error(message) }
    }

    /// By the rule of this refusal.
    pub(crate) fn refused(mut self, number: u32) -> Problem {
        self.refusal = Some(number);
        self
    }

    pub(crate) fn at(mut self, span: Span, text: impl Into<String>) -> Problem {
        self.labels.push(Label { span, text: text.into() });
        self
    }

    pub(crate) fn mend(mut self, text: impl Into<String>) -> Problem {
        self.mends.push(text.into());
        self
    }

    /// "did you mean ..?", if there is a name close by.
    pub(crate) fn meant(self, name: Option<&str>) -> Problem {
        match name {
            Some(name) => self.mend(format!("did you mean `{name}`?")),
            None => self,
        }
    }
}

/// One problem after the other, as their places are in the texts.
pub(crate) fn in_order(mut problems: Vec<Problem>) -> Vec<Problem> {
    problems.sort_by_key(|problem| problem.labels.first().map(|label| (label.span.source, label.span.start)));
    problems
}

/// `7`, `65,535`
pub(crate) fn number(number: usize) -> String {
    let digits = number.to_string();
    let groups: Vec<&str> = digits.as_bytes().rchunks(3).rev().map(|group| std::str::from_utf8(group).unwrap_or_default()).collect();
    groups.join(",")
}

/// `17th`, `129th`: what comes after so many.
pub(crate) fn after(most: usize) -> String {
    let place = most + 1;
    let ending = match (place % 100, place % 10) {
        (11..=13, _) => "th",
        (_, 1) => "st",
        (_, 2) => "nd",
        (_, 3) => "rd",
        _ => "th",
    };
    format!("{}{ending}", number(place))
}

#[cfg(test)]
mod tests {
    use super::*;

    #[test]
    fn numbers_as_prose_has_them() {
        assert_eq!([0, 999, 1_000, 65_535, 1_000_000].map(number), ["0", "999", "1,000", "65,535", "1,000,000"]);
        assert_eq!(
            [4, 8, 16, 128, 1_024, 8_192, 11, 12, 20, 21].map(after),
            ["5th", "9th", "17th", "129th", "1,025th", "8,193rd", "12th", "13th", "21st", "22nd"]
        );
    }
}
