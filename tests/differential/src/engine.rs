//! The C interface as a trait, which the compiled library and the evaluator both have, so that one is asked as the other is.

use crate::evaluator::{Answer, Areas, Date, Evaluator, Filing, Part, Question, Refusal, Verdict};
use crate::faults::{self, Fault};
use crate::numbers::{BAD_HEADER, FIRST_KEY, NO_PART};
use std::ops::Range;
use txindurbe::calls::{Dated, Judgement, Lent, Minutes, Reply, Rewriting};

/// The nine calls of `include/txindurbe.h`, with all that they hand out.
pub trait Engine {
    /// 0 Filed, 1 Held, else the refusal's number.
    fn file(&self, store: &mut [u32], certificate: &[u32]) -> u32;
    fn file_link(&self, links: &mut [u32], link: &[u32]) -> u32;
    fn query(&self, question: Question, store: &[u32], links: &[u32], lent: Lent) -> Reply;
    fn judge(&self, policy: &[u32], query: &[u32], our_key: u32) -> Judgement;
    fn rewrite(&self, policy: &[u32], our_key: u32, area: &mut [u32]) -> Rewriting;
    /// 1 for words of the query, 0 for words of the policy, and where in it they stand.
    fn part(&self, policy: &[u32], query: &[u32], number: u32) -> (u32, Range<usize>);
    fn certificates_of(&self, store: &[u32], name: [u32; 3]) -> Range<usize>;
    /// Of a year, month, day, hour and minute.
    fn minutes(&self, date: Date) -> Minutes;
    fn date(&self, minutes: u32) -> Dated;
}

/// A store and a link store, into which lists of filings go.
#[derive(Clone)]
pub struct Stores {
    pub store: Vec<u32>,
    pub links: Vec<u32>,
}

/// What is filed.
#[derive(Clone, Copy, PartialEq, Eq, Debug)]
pub enum Kind {
    Certificate,
    Link,
}

impl Stores {
    /// Into the store of its kind.
    pub fn file(&mut self, engine: &dyn Engine, kind: Kind, words: &[u32]) -> u32 {
        match kind {
            Kind::Certificate => engine.file(&mut self.store, words),
            Kind::Link => engine.file_link(&mut self.links, words),
        }
    }
}

/// Beside 0 exact, 1 lower and 2 upper: what comes with a refusal.
const NO_VERDICT: u32 = 3;

fn judgement(judged: Result<Verdict, Refusal>) -> Judgement {
    match judged {
        Ok(verdict) => Judgement { number: 0, part: NO_PART, verdict: verdict as u32 },
        Err(Refusal { number, part }) => Judgement { number, part, verdict: NO_VERDICT },
    }
}

fn filing_number(filing: Filing) -> u32 {
    match filing {
        Filing::Filed => 0,
        Filing::Held => 1,
        Filing::Refused(number) => number,
    }
}

fn reply(answered: Result<Answer, Refusal>) -> Reply {
    let draws = answered.as_ref().map_or(0, |answer| answer.draws);
    let Judgement { number, part, verdict } = judgement(answered.map(|answer| answer.verdict));
    Reply { number, part, verdict, draws }
}

impl Engine for Evaluator {
    fn file(&self, store: &mut [u32], certificate: &[u32]) -> u32 {
        filing_number(Evaluator::file(self, store, certificate))
    }

    fn file_link(&self, links: &mut [u32], link: &[u32]) -> u32 {
        filing_number(Evaluator::file_link(self, links, link))
    }

    fn query(&self, question: Question, store: &[u32], links: &[u32], lent: Lent) -> Reply {
        let areas = Areas { answer: lent.answer.len(), definitions: lent.definitions.len(), scratch: lent.scratch.len() };
        let answered = Evaluator::query(self, question, store, links, areas);
        match &answered {
            Ok(answer) => {
                let words = faults::wrong_layout(self.fault, &answer.set).unwrap_or_else(|| answer.set.words());
                // Only a planted fault gives more words than there are.
                for (area, word) in lent.answer.iter_mut().zip(words) {
                    *area = word;
                }
            }
            Err(_) if self.has(Fault::RefusedQueryClearsAnswer) => lent.answer.fill(0), // planted
            Err(_) => {}
        }
        reply(answered)
    }

    fn judge(&self, policy: &[u32], query: &[u32], our_key: u32) -> Judgement {
        if self.has(Fault::JudgeRefusesFormat2) && policy.first() == Some(&2) {
            return judgement(Err(Refusal { number: BAD_HEADER, part: NO_PART }));
            // planted
        }
        let our_key = if self.has(Fault::JudgeTakesANumber) { our_key | FIRST_KEY } else { our_key }; // planted
        let fault = if self.has(Fault::JudgeWithoutOurKey) { Some(Fault::OurKeyIgnored) } else { self.fault }; // planted
        judgement(Evaluator { fault }.judge(policy, query, our_key).map(|judged| judged.verdict))
    }

    fn rewrite(&self, policy: &[u32], our_key: u32, area: &mut [u32]) -> Rewriting {
        match Evaluator::rewrite(self, policy, our_key, area) {
            Ok(length) => Rewriting { number: 0, part: NO_PART, length },
            Err(Refusal { number, part }) => {
                let length = if self.has(Fault::RefusedLengthHandedOut) { policy.len() } else { 0 }; // planted
                Rewriting { number, part, length }
            }
        }
    }

    fn part(&self, policy: &[u32], query: &[u32], number: u32) -> (u32, Range<usize>) {
        match Evaluator::part(self, policy, query, number) {
            Part::Policy(words) => (0, words),
            Part::Query(words) => (1, words),
        }
    }

    fn certificates_of(&self, store: &[u32], name: [u32; 3]) -> Range<usize> {
        Evaluator::certificates_of(self, store, name)
    }

    fn minutes(&self, date: Date) -> Minutes {
        match Evaluator::minutes(self, date) {
            Ok(minutes) => Minutes { number: 0, minutes },
            Err(number) => Minutes { number, minutes: if self.has(Fault::RefusedMinutesHandedOut) { u32::MAX } else { 0 } }, // planted
        }
    }

    fn date(&self, minutes: u32) -> Dated {
        match Evaluator::date(self, minutes) {
            Ok(date) => Dated { number: 0, date },
            Err(number) => Dated { number, date: if self.has(Fault::RefusedDateHandedOut) { [2_100, 1, 1, 0, 0] } else { [0; 5] } }, // planted
        }
    }
}
