//! What the tests of problems share.
#![allow(dead_code)] // each test takes what it needs

use txindurbe_language::{compile, Compiled, Problem, Severity, Sources};

/// A text by itself, and what the compiler makes of it.
pub fn compiled(text: &str) -> Result<Compiled, Vec<Problem>> {
    let mut sources = Sources::default();
    let source = sources.add("policy.qcm", text);
    compile(&sources, source)
}

pub fn accepted(text: &str) -> Compiled {
    compiled(text).unwrap_or_else(|problems| panic!("{text}\nis refused: {problems:#?}"))
}

/// The only problem with a text.
pub fn problem(text: &str) -> Problem {
    match compiled(text) {
        Ok(_) => panic!("{text}\nis accepted"),
        Err(problems) => only(text, problems),
    }
}

pub fn only(text: &str, mut problems: Vec<Problem>) -> Problem {
    assert_eq!(problems.len(), 1, "{text}\n{problems:#?}");
    problems.remove(0)
}

/// What the label of this place underlines.
pub fn underlined<'a>(text: &'a str, problem: &Problem, place: usize) -> &'a str {
    let span = problem.labels.get(place).unwrap_or_else(|| panic!("{text}\nno label {place} in {problem:#?}")).span;
    &text[span.start..span.end]
}

/// The number, a part of the message, what the first label underlines, and a part of some mend (empty if there need be none).
pub fn assert_says(text: &str, problem: &Problem, severity: Severity, number: Option<u32>, [message, place, mend]: [&str; 3]) {
    assert_eq!((problem.severity, problem.refusal), (severity, number), "{text}\n{problem:#?}");
    assert!(problem.message.contains(message), "{text}\n{message}\nis not in {problem:#?}");
    assert_eq!(underlined(text, problem, 0), place, "{text}\n{problem:#?}");
    assert!(mend.is_empty() || problem.mends.iter().any(|said| said.contains(mend)), "{text}\n{mend}\nis not among the mends of {problem:#?}");
}
