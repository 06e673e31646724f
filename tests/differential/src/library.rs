//! The compiled library.

use crate::engine::Engine;
use crate::evaluator::{Date, Question};
use std::ops::Range;
use txindurbe::calls::{self, Dated, Judgement, Lent, Minutes, Reply, Rewriting};

pub struct Library;

impl Engine for Library {
    fn file(&self, store: &mut [u32], certificate: &[u32]) -> u32 {
        calls::file(store, certificate)
    }

    fn file_link(&self, links: &mut [u32], link: &[u32]) -> u32 {
        calls::file_link(links, link)
    }

    fn query(&self, question: Question, store: &[u32], links: &[u32], lent: Lent) -> Reply {
        let Question { policy, query, our_key, minute } = question;
        calls::query(policy, query, our_key, minute, store, links, lent)
    }

    fn judge(&self, policy: &[u32], query: &[u32], our_key: u32) -> Judgement {
        calls::judge(policy, query, our_key)
    }

    fn rewrite(&self, policy: &[u32], our_key: u32, area: &mut [u32]) -> Rewriting {
        calls::rewrite(policy, our_key, area)
    }

    fn part(&self, policy: &[u32], query: &[u32], number: u32) -> (u32, Range<usize>) {
        calls::part(policy, query, number)
    }

    fn certificates_of(&self, store: &[u32], [key, name, polarity]: [u32; 3]) -> Range<usize> {
        calls::certificates_of(store, key, name, polarity)
    }

    fn minutes(&self, date: Date) -> Minutes {
        calls::minutes(date)
    }

    fn date(&self, minutes: u32) -> Dated {
        calls::date(minutes)
    }
}
