//! Sound policies, each broken in one random way: whatever the compiler or the engine has against the result, there is a place for it. Where polarity or
//! openness is at fault, it is what is underlined: with a literal in its place, the fault is gone.

mod drafts;
mod help;

use drafts::{broken, mixed, sound, Random};
use help::compiled;
use std::collections::BTreeMap;
use txindurbe_language::{Problem, Severity};

/// What is said where no place is found.
const NO_PLACE_FOUND: &str = "the engine refuses this part";

fn assert_has_a_place(text: &str, problem: &Problem) {
    assert_eq!(problem.severity, Severity::Error, "{text}\n{problem:#?}");
    assert!(!problem.message.is_empty() && !problem.labels.is_empty(), "{text}\n{problem:#?}");
    for label in &problem.labels {
        assert!(label.span.source == 0 && text.get(label.span.start..label.span.end).is_some(), "{text}\n{problem:#?}");
        assert_ne!(label.text, NO_PLACE_FOUND, "{text}\n{problem:#?}");
    }
}

#[test]
fn most_drafts_are_sound() {
    let mut random = Random::new(1);
    let accepted = (0..1_000).filter(|_| compiled(&sound(&mut random).to_string()).is_ok()).count();
    assert!(accepted >= 950, "{accepted} of 1,000 are accepted");
}

#[test]
fn whatever_is_broken_has_a_place() {
    let mut random = Random::new(2);
    let mut numbers: BTreeMap<Option<u32>, usize> = BTreeMap::new();
    for _ in 0..20_000 {
        let text = broken(&mut random).to_string();
        if let Err(problems) = compiled(&text) {
            assert!(!problems.is_empty(), "{text}");
            for problem in problems {
                assert_has_a_place(&text, &problem);
                assert!(problem.labels.iter().all(|label| label.span.start < label.span.end), "{text}\n{problem:#?}");
                *numbers.entry(problem.refusal).or_default() += 1;
            }
        }
    }
    // Each refusal that a policy or query can get without being read, and those without a number, many times.
    for number in [None, Some(1), Some(2), Some(3), Some(4), Some(5), Some(6), Some(7), Some(15), Some(20)] {
        assert!(numbers.get(&number).is_some_and(|count| *count >= 50), "{number:?}: {numbers:?}");
    }
}

/// Some of its pieces left out, said twice, or in another's place.
fn torn(random: &mut Random, text: &str) -> String {
    let mut pieces: Vec<&str> = text.split_inclusive([' ', '(', ')', ',', '.', '{', '}']).collect();
    for _ in 0..=random.below(3) {
        let [place, other] = [0, 1].map(|_| random.below(pieces.len()));
        match random.below(4) {
            0 if pieces.len() > 1 => {
                pieces.remove(place);
            }
            1 => pieces.insert(place, pieces[other]),
            2 => pieces[place] = pieces[other],
            _ => pieces.swap(place, other),
        }
    }
    pieces.concat()
}

#[test]
fn whatever_is_torn_has_a_place() {
    let mut random = Random::new(7);
    let mut refused = 0;
    for _ in 0..10_000 {
        let draft = broken(&mut random).to_string();
        let text = torn(&mut random, &draft);
        if let Err(problems) = compiled(&text) {
            assert!(!problems.is_empty(), "{text}");
            problems.iter().for_each(|problem| assert_has_a_place(&text, problem));
            refused += 1;
        }
    }
    assert!(refused >= 5_000, "{refused}");
}

/// With a literal in the place of what is underlined.
fn repaired(text: &str, problem: &Problem) -> String {
    let span = problem.labels[0].span;
    format!("{}{{ (1) }}{}", &text[..span.start], &text[span.end..])
}

#[test]
fn what_is_underlined_is_at_fault() {
    let mut random = Random::new(3);
    let mut repairs: BTreeMap<u32, usize> = BTreeMap::new();
    for _ in 0..10_000 {
        let mut text = mixed(&mut random).to_string();
        while let Err(problems) = compiled(&text) {
            let problem = &problems[0];
            // A literal has both polarities and is not open, so each repair takes a fault away. What a list is vetted by is no expression.
            let Some(number @ (6 | 7)) = problem.refusal else { break };
            if problem.message.contains("vetted by") {
                break;
            }
            let without = repaired(&text, problem);
            if let Err(left) = compiled(&without) {
                let place = |problem: &Problem| (problem.refusal, problem.labels[0].span.start);
                assert_ne!(place(&left[0]), place(problem), "{text}\n{problem:#?}\n{without}\n{left:#?}");
            }
            text = without;
            *repairs.entry(number).or_default() += 1;
        }
    }
    assert!(repairs.len() == 2 && repairs.values().all(|count| *count >= 200), "{repairs:?}");
}
