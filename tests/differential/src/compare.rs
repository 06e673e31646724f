//! Puts the same words to two engines and compares replies and areas, word for word.

use crate::engine::{Engine, Kind, Stores};
use crate::evaluator::{Date, Evaluator, Format, Question, Set};
use crate::generate::{Case, Filings, Generator, PORTAL};
use crate::random::Random;
use std::collections::BTreeMap;
use std::fmt;
use std::ops::Range;
use txindurbe::calls::{Lent, Reply};

/// How many cases there were, by the format of their policies.
#[derive(Default, Clone, Copy, PartialEq, Eq, Debug)]
pub struct Count {
    /// Formats 1 and 2.
    pub of: [u64; 2],
    /// Of no format.
    pub other: u64,
}

impl Count {
    fn add(&mut self, policy: &[u32]) {
        match policy.first().and_then(|word| Format::from_word(*word)) {
            Some(format) => self.of[format as usize - 1] += 1,
            None => self.other += 1,
        }
    }
}

impl fmt::Display for Count {
    fn fmt(&self, f: &mut fmt::Formatter) -> fmt::Result {
        let Count { of: [first, second], other } = self;
        let none = if *other > 0 { format!(", {other} of none") } else { String::new() };
        write!(f, "{} ({first} of format 1, {second} of format 2{none})", first + second + other)
    }
}

/// What was seen in a run.
#[derive(Default)]
pub struct Tally {
    pub passed: u64,
    pub failed: u64,
    /// Replies to filings of certificates and of links, to rewritings and to conversions by number, to queries by refusal number, and answers by verdict and form.
    pub certificates: BTreeMap<u32, u64>,
    pub links: BTreeMap<u32, u64>,
    pub rewritings: BTreeMap<u32, Count>,
    pub conversions: BTreeMap<u32, u64>,
    pub refusals: BTreeMap<u32, Count>,
    pub answers: BTreeMap<(u32, &'static str), Count>,
    /// The answers by verdict in whose policies or queries own names are written.
    pub own_names: BTreeMap<u32, Count>,
    /// The first few failures, in full.
    pub reports: Vec<String>,
}

const MOST_REPORTS: usize = 5;

impl Tally {
    pub fn count(&mut self, result: Result<(), String>) {
        match result {
            Ok(()) => self.passed += 1,
            Err(report) => {
                self.failed += 1;
                if self.reports.len() < MOST_REPORTS {
                    self.reports.push(report);
                }
            }
        }
    }
}

/// Random words, of which parts serve as areas.
struct Junk(Vec<u32>);

impl Junk {
    const WORDS: usize = 40_000;

    fn new(random: &mut Random) -> Junk {
        Junk((0..Junk::WORDS).map(|_| random.word()).collect())
    }

    fn area(&self, length: usize, random: &mut Random) -> Area {
        let fenced = length + 2 * FENCE;
        let start = random.below(Junk::WORDS - fenced);
        let junk = &self.0[start..start + fenced];
        Area { words: junk.to_vec(), before: [&junk[..FENCE], &junk[fenced - FENCE..]].concat() }
    }
}

/// Words on either side of an area, which nobody is lent.
const FENCE: usize = 16;

#[derive(Clone)]
struct Area {
    words: Vec<u32>,
    /// The fences as they were.
    before: Vec<u32>,
}

impl Area {
    fn lent(&mut self) -> &mut [u32] {
        let end = self.words.len() - FENCE;
        &mut self.words[FENCE..end]
    }

    fn fences_kept(&self, what: &str) -> Result<(), String> {
        let end = self.words.len() - FENCE;
        let now = [&self.words[..FENCE], &self.words[end..]].concat();
        same_words(&format!("words around the {what} area"), &now, &self.before)
    }
}

fn equal<T: PartialEq + std::fmt::Debug>(what: &str, tested: T, expected: T) -> Result<(), String> {
    if tested == expected {
        Ok(())
    } else {
        Err(format!("{what}: the tested engine has {tested:?}, the evaluator {expected:?}"))
    }
}

/// The first place where two areas differ.
fn same_words(what: &str, tested: &[u32], expected: &[u32]) -> Result<(), String> {
    match tested.iter().zip(expected).position(|(a, b)| a != b) {
        None => Ok(()),
        Some(place) => equal(&format!("{what}, word {place}"), tested[place], expected[place]),
    }
}

/// Where no words stand, that is all that is promised.
fn same_range(what: &str, tested: Range<usize>, expected: Range<usize>) -> Result<(), String> {
    if tested.is_empty() && expected.is_empty() {
        Ok(())
    } else {
        equal(what, tested, expected)
    }
}

pub struct Comparison<'a> {
    pub tested: &'a dyn Engine,
    pub expected: Evaluator,
    pub tally: Tally,
    junk: Junk,
    random: Random,
}

impl<'a> Comparison<'a> {
    pub fn new(tested: &'a dyn Engine, expected: Evaluator, seed: u64) -> Comparison<'a> {
        let mut random = Random::new(!seed);
        Comparison { tested, expected, tally: Tally::default(), junk: Junk::new(&mut random), random }
    }

    /// So many cases, or up to the first failure.
    pub fn run(&mut self, seed: u64, cases: u64, stop_at_failure: bool) {
        let mut generator = Generator::new(seed, &PORTAL);
        let mut stores = Stores { store: generator.store(), links: generator.links() };
        for number in 0..cases {
            let result = self.next(&mut generator, &mut stores);
            self.tally.count(result.map_err(|report| format!("case {number}, {report}")));
            if stop_at_failure && self.tally.failed > 0 {
                return;
            }
        }
    }

    /// One case in eight is a list of filings.
    fn next(&mut self, generator: &mut Generator, stores: &mut Stores) -> Result<(), String> {
        if generator.random.chance(125) {
            return self.filings(&generator.filings());
        }
        if generator.random.chance(150) {
            stores.store = generator.store();
        }
        if generator.random.chance(250) {
            stores.links = generator.links();
        }
        let case = generator.case();
        let Case { policy, query, our_key, minute, areas, .. } = &case;
        let show = |report| format!("{report}\n  policy {policy:?}\n  query {query:?}\n  our key {our_key}\n  minute {minute}\n  areas {areas:?}");
        self.case(&case, stores).map_err(show)
    }

    /// Each filing gets the stores as those before it left them.
    fn filings(&mut self, filings: &Filings) -> Result<(), String> {
        let (mut tested, mut expected) = (filings.stores.clone(), filings.stores.clone());
        for (kind, words) in &filings.filed {
            let reply = expected.file(&self.expected, *kind, words);
            let tally = match kind {
                Kind::Certificate => &mut self.tally.certificates,
                Kind::Link => &mut self.tally.links,
            };
            *tally.entry(reply).or_default() += 1;
            let [certificates, links] = [&filings.stores.store, &filings.stores.links].map(|store| store.first().unwrap_or(&0));
            let filing = || format!("filing the {kind:?} {words:?}, starting with {certificates} certificates and {links} links");
            equal(&filing(), tested.file(self.tested, *kind, words), reply)?;
            same_words(&filing(), &tested.store, &expected.store)?;
            same_words(&filing(), &tested.links, &expected.links)?;
        }
        Ok(())
    }

    fn case(&mut self, case: &Case, stores: &Stores) -> Result<(), String> {
        let (Case { policy, query, our_key, .. }, store) = (case, &stores.store);
        let reply = self.query(case, stores)?;
        if self.random.chance(100) {
            equal("the same query with other junk", self.query(case, stores)?, reply)?;
        }
        equal("judgement", self.tested.judge(policy, query, *our_key), Engine::judge(&self.expected, policy, query, *our_key))?;
        self.rewrite(policy, *our_key, case.rewriting_area)?;
        let (of_query, words) = Engine::part(&self.expected, policy, query, case.number);
        let (tested_of_query, tested_words) = self.tested.part(policy, query, case.number);
        equal(&format!("whether part {} is the query", case.number), tested_of_query, of_query)?;
        same_range(&format!("part {}", case.number), tested_words, words)?;
        let certificates = Engine::certificates_of(&self.expected, store, case.name);
        same_range(&format!("certificates of {:?}", case.name), self.tested.certificates_of(store, case.name), certificates)?;
        self.convert(case.date, case.minutes)
    }

    fn convert(&mut self, date: Date, minutes: u32) -> Result<(), String> {
        let (of_date, of_minutes) = (Engine::minutes(&self.expected, date), Engine::date(&self.expected, minutes));
        for number in [of_date.number, of_minutes.number] {
            *self.tally.conversions.entry(number).or_default() += 1;
        }
        equal(&format!("minutes of {date:?}"), self.tested.minutes(date), of_date)?;
        equal(&format!("date of {minutes}"), self.tested.date(minutes), of_minutes)
    }

    fn rewrite(&mut self, policy: &[u32], our_key: u32, length: usize) -> Result<(), String> {
        let mut expected = self.junk.area(length, &mut self.random);
        let mut tested = expected.clone();
        let reply = Engine::rewrite(&self.expected, policy, our_key, expected.lent());
        self.tally.rewritings.entry(reply.number).or_default().add(policy);
        equal(&format!("rewriting into {length} words"), self.tested.rewrite(policy, our_key, tested.lent()), reply)?;
        same_words("rewritten policy", tested.lent(), expected.lent())?;
        tested.fences_kept("rewritten policy's")
    }

    fn query(&mut self, case: &Case, Stores { store, links }: &Stores) -> Result<Reply, String> {
        let question = Question { policy: &case.policy, query: &case.query, our_key: case.our_key, minute: case.minute };
        let mut area = |length| self.junk.area(length, &mut self.random);
        let [mut expected, mut definitions, mut scratch] = [case.areas.answer, case.areas.definitions, case.areas.scratch].map(&mut area);
        let mut tested = expected.clone();
        let mut ask = |engine: &dyn Engine, answer: &mut Area| {
            let lent = Lent { answer: answer.lent(), definitions: definitions.lent(), scratch: scratch.lent() };
            engine.query(question, store, links, lent)
        };
        let reply = ask(&self.expected, &mut expected);
        let (store_before, links_before) = (store.clone(), links.clone());
        let tested_reply = ask(self.tested, &mut tested);
        self.tally_reply(question, reply, expected.lent());
        equal("reply", tested_reply, reply)?;
        same_words("answer area", tested.lent(), expected.lent())?;
        same_words("store after a query", store, &store_before)?;
        same_words("link store after a query", links, &links_before)?;
        tested.fences_kept("answer")?;
        definitions.fences_kept("definition")?;
        scratch.fences_kept("scratch")?;
        Ok(reply)
    }

    fn tally_reply(&mut self, Question { policy, query, our_key, .. }: Question, reply: Reply, answer: &[u32]) {
        if reply.number > 0 {
            self.tally.refusals.entry(reply.number).or_default().add(policy);
            return;
        }
        let judged = Evaluator::default().judge(policy, query, our_key);
        if judged.is_ok_and(|judged| judged.own_names() > 0) {
            self.tally.own_names.entry(reply.verdict).or_default().add(policy);
        }
        let table = match Set::from_words(answer) {
            Some(Set::Finite(rows)) if rows.is_empty() => "no rows",
            Some(Set::Finite(_)) => "some rows",
            Some(Set::Complement(rows)) if rows.is_empty() => "all rows",
            Some(Set::Complement(_)) => "all but some",
            None => "an unsound set", // only with a planted fault
        };
        self.tally.answers.entry((reply.verdict, table)).or_default().add(policy);
    }
}

#[cfg(test)]
mod tests {
    use super::*;
    use crate::faults::Fault;
    use crate::library::Library;

    fn run(expected: Evaluator, cases: u64, stop_at_failure: bool) -> Tally {
        let mut comparison = Comparison::new(&Library, expected, 7);
        comparison.run(7, cases, stop_at_failure);
        comparison.tally
    }

    #[test]
    fn every_refusal_and_every_verdict_occurs_often() {
        let tally = run(Evaluator::default(), 10_000, false);
        assert_eq!(tally.failed, 0);
        for number in [0, 1, 8, 9, 10, 17] {
            assert!(tally.certificates.get(&number) > Some(&20), "reply {number} to certificates: {:?}", tally.certificates);
        }
        for number in [0, 1, 18, 19] {
            assert!(tally.links.get(&number) > Some(&20), "reply {number} to links: {:?}", tally.links);
        }
        let often = |count: Option<&Count>| count.is_some_and(|count| count.of.iter().all(|&of| of > 10));
        for number in [0, 1, 2, 3, 4, 5, 6, 7, 11, 15, 20] {
            assert!(often(tally.rewritings.get(&number)), "rewriting reply {number}: {:?}", tally.rewritings);
        }
        for number in [0, 16] {
            assert!(tally.conversions.get(&number) > Some(&1_000), "conversion reply {number}: {:?}", tally.conversions);
        }
        for number in [1, 2, 3, 4, 5, 6, 7, 8, 11, 13, 18, 20] {
            assert!(often(tally.refusals.get(&number)), "refusal {number}: {:?}", tally.refusals);
        }
        assert!(tally.refusals[&1].other > 100, "{:?}", tally.refusals);
        assert!(tally.refusals.iter().all(|(number, count)| [1, 20].contains(number) || count.other == 0), "{:?}", tally.refusals);
        // 14 takes a million draws. 12 is never met: what is not open is always finite.
        assert!(tally.refusals.contains_key(&14) && !tally.refusals.contains_key(&12));
        for verdict in 0..=2 {
            for table in ["some rows", "all but some"] {
                assert!(often(tally.answers.get(&(verdict, table))), "{:?}", tally.answers);
            }
            assert!(often(tally.own_names.get(&verdict)), "{:?}", tally.own_names);
        }
    }

    #[test]
    fn every_planted_fault_is_noticed() {
        for fault in Fault::ALL {
            let tally = run(Evaluator { fault: Some(fault) }, 40_000, true);
            println!("{fault:?}: noticed by case {}", tally.passed);
            assert_eq!(tally.failed, 1, "{fault:?} is not noticed");
        }
    }
}
