//! What the walks find, against what the engine finds in the words.

use super::explain;
use super::limits::QUERY_WORDS;
use super::polarity::{fault, open_draw, opened_by};
use super::words::{first_broken, places};
use crate::problem::Sources;
use crate::program::Program;
use crate::syntax::{Polarity, Span};
use crate::tree::Whole;
use std::collections::BTreeMap;
use txindurbe::{Part, Policy, Query, Refusal, Verdict};

#[path = "../../tests/drafts/mod.rs"]
mod drafts;
use drafts::{broken, mixed, sound, Draft, Random};

fn program(draft: &Draft) -> Option<Program> {
    let mut sources = Sources::default();
    let source = sources.add("draft", draft.to_string());
    Program::resolve(crate::parse(&sources, source).ok()?).ok()
}

/// Each definition and the query, with the policy of the definitions before it, and its own words.
fn parts(program: &Program) -> Vec<(Part, Policy, &Whole, Vec<u32>)> {
    let definitions = program.definitions.iter().enumerate().map(|(place, definition)| (Part::Definition(place as u32), &definition.whole));
    let all = definitions.chain(program.query.iter().map(|whole| (Part::Query, whole)));
    // Labels of later definitions are needed for the words of those that use them.
    let labels = program.policy(program.definitions.len()).expect("the names are resolved");
    let parts = all.filter_map(|(part, whole)| {
        let before = program.policy(program.available(part)).ok()?;
        let words = program.query(&labels, whole).expect("the names are resolved").words().to_vec();
        Some((part, before, whole, words))
    });
    parts.collect()
}

fn judge(policy: &Policy, words: &[u32]) -> Result<Verdict, Refusal> {
    policy.judge(&Query::from_words(words.to_vec()))
}

#[test]
fn every_word_has_a_place() {
    let mut random = Random::new(4);
    let mut count = 0;
    for _ in 0..1_000 {
        let Some(program) = program(&broken(&mut random)) else { continue };
        for (_, _, whole, words) in parts(&program) {
            assert_eq!(places(&whole.expression, false).len(), words.len());
            count += 1;
        }
        if let Ok(rewritten) = program.policy(program.definitions.len()).expect("the names are resolved").rewrite() {
            let vetted = |place: usize| program.external && program.compromised().is_some() && place > 0;
            let length = |(place, definition): (usize, &crate::program::Definition)| places(&definition.whole.expression, vetted(place)).len();
            let lengths: usize = program.definitions.iter().enumerate().map(length).sum();
            if program.external {
                assert_eq!(2 + 4 * program.definitions.len() + lengths, rewritten.words().len());
            }
        }
    }
    assert!(count >= 1_000, "{count}");
}

/// The word at which the engine refuses with 4 or 5: with the words up to it alone it says the same, with one less that words run out, which is 3.
fn word_refused(policy: &Policy, words: &[u32], number: u32) -> usize {
    let refused = |length: &usize| judge(policy, &words[..*length]).is_err_and(|refusal| refusal.number() == number);
    (1..=words.len()).find(refused).expect("all words are refused so") - 1
}

fn contains(outer: Span, inner: Span) -> bool {
    outer.source == inner.source && outer.start <= inner.start && inner.end <= outer.end
}

#[test]
fn refusals_4_and_5_are_at_the_engines_word() {
    let mut random = Random::new(5);
    let mut numbers: BTreeMap<u32, usize> = BTreeMap::new();
    for _ in 0..8_000 {
        let Some(program) = program(&broken(&mut random)) else { continue };
        for (part, before, whole, words) in parts(&program) {
            let judged = judge(&before, &words);
            let number = judged.as_ref().err().filter(|refusal| refusal.part() == Some(Part::Query)).map(Refusal::number);
            let found = first_broken(&program, part, whole);
            if words.len() <= QUERY_WORDS && judged.as_ref().err().is_none_or(|refusal| refusal.part() == Some(Part::Query)) {
                assert_eq!(found.map(|broken| broken.number()), number.filter(|number| (3..=5).contains(number)), "{found:?}");
            }
            if let Some(number @ (4 | 5)) = number {
                let refusal = Refusal::from_number(number, Some(part)).expect("it comes with a part");
                let place = explain(&program, None, &refusal).labels[0].span;
                let word = places(&whole.expression, false)[word_refused(&before, &words, number)];
                assert!(contains(place, word), "{place:?} and {word:?}");
                *numbers.entry(number).or_default() += 1;
            }
        }
    }
    assert!(numbers.len() == 2 && numbers.values().all(|count| *count >= 100), "{numbers:?}");
}

/// As a query, a definition's expression has the polarities that it has, and with a draw from it, it is refused if it is open.
#[test]
fn polarity_and_openness_are_the_engines() {
    let mut random = Random::new(6);
    let mut seen: BTreeMap<(bool, bool, bool), usize> = BTreeMap::new();
    for round in 0..5_000 {
        let draft = if round % 2 == 0 { sound(&mut random) } else { mixed(&mut random) };
        let Some(program) = program(&draft) else { continue };
        for (part, before, whole, words) in parts(&program) {
            // Those that stand after a fault of 1 to 7 are not looked at, nor those that break 3 to 5.
            if first_broken(&program, part, whole).is_some() || judge(&before, &[1, 0]).is_err() {
                break;
            }
            let has = |polarity: Polarity| fault(&program, &whole.expression, polarity).is_none();
            let verdict = match (has(Polarity::Plus), has(Polarity::Minus)) {
                (true, true) => Some(Verdict::Exact),
                (true, false) => Some(Verdict::Lower),
                (false, true) => Some(Verdict::Upper),
                (false, false) => None,
            };
            match judge(&before, &words) {
                Err(Refusal::OpenDraw(_)) => {}
                judged => assert_eq!(verdict, judged.ok()),
            }
            let open = opened_by(&program, &whole.expression).is_some();
            // 7 1, a draw from it of (x), the head (0)
            let drawn = [&[7, 1, 1], &words[..], &[1, 2, 0, 1, 0, 0]].concat();
            match judge(&before, &drawn) {
                Ok(_) => assert!(!open),
                Err(Refusal::OpenDraw(_)) if open_draw(&program, &whole.expression).is_none() => assert!(open),
                Err(_) => {}
            }
            *seen.entry((has(Polarity::Plus), has(Polarity::Minus), open)).or_default() += 1;
        }
    }
    assert!(seen.len() == 8 && seen.values().all(|count| *count >= 20), "{seen:?}");
}
