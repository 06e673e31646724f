//! The nine calls of `include/txindurbe.h` over slices of words. All of this crate's unsafe code is here.
//!
//! Every call takes any words at all and ends: what is malformed gets its refusal number. Most portals use [`Store`](crate::Store),
//! [`Links`](crate::Links) and [`Engine`](crate::Engine) instead, and a [`Policy`](crate::Policy), which keeps its words and our key together.
//!
//! ```
//! use txindurbe::{calls, Key, Refusal};
//!
//! // A refusal's number tells as much as the safe types do.
//! let number = calls::judge(&[3, 0], &[1, 0], Key::new(9).word()).number;
//! assert_eq!(Refusal::from_number(number, None), Some(Refusal::BadHeader));
//! ```

use std::ops::Range;

mod c {
    extern "C" {
        pub fn txb_file(store: *mut u32, store_words: usize, certificate: *const u32, certificate_words: usize) -> u32;
        pub fn txb_file_link(links: *mut u32, links_words: usize, link: *const u32, link_words: usize) -> u32;
        pub fn txb_query(
            policy: *const u32,
            policy_words: usize,
            query: *const u32,
            query_words: usize,
            our_key: u32,
            minute: u32,
            store: *const u32,
            store_words: usize,
            links: *const u32,
            links_words: usize,
            answer: *mut u32,
            answer_words: usize,
            definitions: *mut u32,
            definitions_words: usize,
            scratch: *mut u32,
            scratch_words: usize,
            part: *mut u32,
            verdict: *mut u32,
            draws: *mut u32,
        ) -> u32;
        pub fn txb_judge(
            policy: *const u32,
            policy_words: usize,
            query: *const u32,
            query_words: usize,
            our_key: u32,
            part: *mut u32,
            verdict: *mut u32,
        ) -> u32;
        pub fn txb_rewrite(
            policy: *const u32,
            policy_words: usize,
            our_key: u32,
            area: *mut u32,
            area_words: usize,
            part: *mut u32,
            length: *mut usize,
        ) -> u32;
        pub fn txb_part(
            policy: *const u32,
            policy_words: usize,
            query: *const u32,
            query_words: usize,
            number: u32,
            of_query: *mut u32,
            start: *mut usize,
        ) -> usize;
        pub fn txb_certificates_of(store: *const u32, store_words: usize, key: u32, name: u32, polarity: u32, start: *mut usize) -> usize;
        pub fn txb_minutes(year: u32, month: u32, day: u32, hour: u32, minute: u32, minutes: *mut u32) -> u32;
        pub fn txb_date(minutes: u32, year: *mut u32, month: *mut u32, day: *mut u32, hour: *mut u32, minute: *mut u32) -> u32;
    }
}

/// The areas lent to a query, each at least as long as [`sizes`](crate::sizes) says.
///
/// ```
/// use txindurbe::calls::Lent;
/// use txindurbe::sizes::{ANSWER_WORDS, DEFINITIONS_WORDS, SCRATCH_WORDS};
///
/// let [mut answer, mut definitions, mut scratch] = [ANSWER_WORDS, DEFINITIONS_WORDS, SCRATCH_WORDS].map(|words| vec![0; words]);
/// let lent = Lent { answer: &mut answer, definitions: &mut definitions, scratch: &mut scratch };
/// ```
pub struct Lent<'a> {
    /// For the answer's set.
    pub answer: &'a mut [u32],
    /// For the definitions' sets. Holds arbitrary words afterwards.
    pub definitions: &'a mut [u32],
    /// For all other sets. Holds arbitrary words afterwards.
    pub scratch: &'a mut [u32],
}

/// What a query hands out beside the answer's words: number 0 and part 17 with an answer; with a refusal its number and part, verdict 3 and 0 draws.
///
/// ```
/// use txindurbe::calls::Reply;
///
/// let refused = |reply: Reply| reply.number != 0;
/// assert!(refused(Reply { number: 8, part: 17, verdict: 3, draws: 0 }));
/// ```
#[derive(Clone, Copy, PartialEq, Eq, Debug)]
pub struct Reply {
    /// 0, or the refusal's.
    pub number: u32,
    /// 0 to 15 a definition, 16 the query, 17 neither.
    pub part: u32,
    /// 0 exact, 1 lower, 2 upper, 3 none.
    pub verdict: u32,
    /// Rows drawn.
    pub draws: u32,
}

/// What judging hands out: the same without draws.
///
/// ```
/// use txindurbe::calls::{judge, Judgement};
/// use txindurbe::Key;
///
/// assert_eq!(judge(&[1, 0], &[1, 0], Key::new(9).word()), Judgement { number: 0, part: 17, verdict: 0 });
/// ```
#[derive(Clone, Copy, PartialEq, Eq, Debug)]
pub struct Judgement {
    /// 0, or the refusal's.
    pub number: u32,
    /// 0 to 15 a definition, 16 the query, 17 neither.
    pub part: u32,
    /// 0 exact, 1 lower, 2 upper, 3 none.
    pub verdict: u32,
}

/// What rewriting hands out beside the output's words: number 0, part 17 and how many words they are; with a refusal its number and part, and length 0.
///
/// ```
/// use txindurbe::calls::{rewrite, Rewriting};
/// use txindurbe::Key;
///
/// assert_eq!(rewrite(&[1, 0], Key::new(9).word(), &mut []), Rewriting { number: 11, part: 17, length: 0 });
/// ```
#[derive(Clone, Copy, PartialEq, Eq, Debug)]
pub struct Rewriting {
    /// 0, or the refusal's.
    pub number: u32,
    /// 0 to 15 a definition, 17 none.
    pub part: u32,
    /// How many words were written.
    pub length: usize,
}

/// What converting a date hands out: number 0 and its minute; with a refusal its number and 0 minutes.
///
/// ```
/// use txindurbe::calls::{minutes, Minutes};
///
/// assert_eq!(minutes([2000, 1, 1, 1, 30]), Minutes { number: 0, minutes: 90 });
/// ```
#[derive(Clone, Copy, PartialEq, Eq, Debug)]
pub struct Minutes {
    /// 0, or the refusal's.
    pub number: u32,
    /// Since 2000-01-01 00:00 UTC.
    pub minutes: u32,
}

/// What converting a minute hands out: number 0 and its year, month, day, hour and minute; with a refusal its number and zeros.
///
/// ```
/// use txindurbe::calls::{date, Dated};
///
/// assert_eq!(date(90), Dated { number: 0, date: [2000, 1, 1, 1, 30] });
/// ```
#[derive(Clone, Copy, PartialEq, Eq, Debug)]
pub struct Dated {
    /// 0, or the refusal's.
    pub number: u32,
    /// Year, month, day, hour and minute.
    pub date: [u32; 5],
}

/// What out-parameters hold before a call. No reply has it, so that one left unwritten would be seen.
const UNWRITTEN: u32 = u32::MAX;
const UNWRITTEN_SIZE: usize = usize::MAX;

// SAFETY, of each call below: a slice's pointer is good for its length, the library reads and writes within the lengths handed to it, what it writes is
// lent to it alone, and it keeps no pointer.

/// Files a certificate: 0 Filed, 1 Held, else the refusal's number.
///
/// ```
/// use txindurbe::{calls, sizes, Key};
///
/// let mut store = vec![0; sizes::STORE_WORDS];
/// // (7) is in k1's list 1, +, from minute 0 to 1
/// let certificate = [Key::new(1).word(), 1, 0, 1, 7, 0, 0, 0, 0, 1];
/// assert_eq!(calls::file(&mut store, &certificate), 0);
/// assert_eq!(calls::file(&mut store, &certificate), 1);
/// assert_eq!(calls::file(&mut store, &certificate[1..]), 9);
/// ```
pub fn file(store: &mut [u32], certificate: &[u32]) -> u32 {
    unsafe { c::txb_file(store.as_mut_ptr(), store.len(), certificate.as_ptr(), certificate.len()) }
}

/// The same of a link.
///
/// ```
/// use txindurbe::{calls, sizes, Key};
///
/// let mut links = vec![0; sizes::LINKS_WORDS];
/// // k1's list 1, +, contains k2's
/// let link = [Key::new(1).word(), 1, 0, Key::new(2).word(), 1];
/// assert_eq!(calls::file_link(&mut links, &link), 0);
/// assert_eq!(calls::file_link(&mut links, &link), 1);
/// assert_eq!(calls::file_link(&mut links, &link[1..]), 18);
/// ```
pub fn file_link(links: &mut [u32], link: &[u32]) -> u32 {
    unsafe { c::txb_file_link(links.as_mut_ptr(), links.len(), link.as_ptr(), link.len()) }
}

/// Answers a query at a minute. The answer's set is written to the front of its area.
///
/// ```
/// use txindurbe::calls::{self, Lent, Reply};
/// use txindurbe::sizes::{ANSWER_WORDS, DEFINITIONS_WORDS, SCRATCH_WORDS};
/// use txindurbe::{Key, Links, Store};
///
/// let (store, links) = (Store::new(), Links::new());
/// let [mut answer, mut definitions, mut scratch] = [ANSWER_WORDS, DEFINITIONS_WORDS, SCRATCH_WORDS].map(|words| vec![0; words]);
/// let lent = Lent { answer: &mut answer, definitions: &mut definitions, scratch: &mut scratch };
///
/// // all rows but (7), under a policy without definitions
/// let reply = calls::query(&[1, 0], &[2, 1, 1, 0, 7], Key::new(9).word(), 0, store.words(), links.words(), lent);
/// assert_eq!(reply, Reply { number: 0, part: 17, verdict: 0, draws: 0 });
/// assert_eq!(answer[..7], [1, 1, 1, 7, 0, 0, 0]);
/// ```
pub fn query(policy: &[u32], query: &[u32], our_key: u32, minute: u32, store: &[u32], links: &[u32], lent: Lent) -> Reply {
    let Lent { answer, definitions, scratch } = lent;
    let [mut part, mut verdict, mut draws] = [UNWRITTEN; 3];
    let number = unsafe {
        c::txb_query(
            policy.as_ptr(),
            policy.len(),
            query.as_ptr(),
            query.len(),
            our_key,
            minute,
            store.as_ptr(),
            store.len(),
            links.as_ptr(),
            links.len(),
            answer.as_mut_ptr(),
            answer.len(),
            definitions.as_mut_ptr(),
            definitions.len(),
            scratch.as_mut_ptr(),
            scratch.len(),
            &mut part,
            &mut verdict,
            &mut draws,
        )
    };
    Reply { number, part, verdict, draws }
}

/// The verdict that an answer would have, without a store.
///
/// ```
/// use txindurbe::calls::{self, Judgement};
/// use txindurbe::Key;
///
/// let (k1, k9) = (Key::new(1).word(), Key::new(9).word());
/// // k1's list 2, −; then each row drawn from it
/// assert_eq!(calls::judge(&[1, 0], &[4, 0, k1, 2, 1], k9), Judgement { number: 0, part: 17, verdict: 2 });
/// assert_eq!(calls::judge(&[1, 0], &[7, 1, 1, 4, 0, k1, 2, 1, 1, 2, 0, 1, 1, 0], k9), Judgement { number: 7, part: 16, verdict: 3 });
/// // a number is no key of ours
/// assert_eq!(calls::judge(&[1, 0], &[1, 0], 5), Judgement { number: 20, part: 17, verdict: 3 });
/// ```
pub fn judge(policy: &[u32], query: &[u32], our_key: u32) -> Judgement {
    let [mut part, mut verdict] = [UNWRITTEN; 2];
    let number = unsafe { c::txb_judge(policy.as_ptr(), policy.len(), query.as_ptr(), query.len(), our_key, &mut part, &mut verdict) };
    Judgement { number, part, verdict }
}

/// Rewrites an external policy. The output is written to the front of the area.
///
/// ```
/// use txindurbe::calls::{self, Rewriting};
/// use txindurbe::{sizes, Key};
///
/// let (k1, k2, k9) = (Key::new(1).word(), Key::new(2).word(), Key::new(9).word());
/// // compromised, 0 −, is k1's list 0, −; public, 10 +, is k2's list 1, +
/// let external = [1, 2, 0, 1, 10, 5, 10, 0, 15, 5, 4, 0, k1, 0, 1, 4, 0, k2, 1, 0];
/// let mut area = vec![0; sizes::POLICY_WORDS];
/// assert_eq!(calls::rewrite(&external, k9, &mut area), Rewriting { number: 0, part: 17, length: 21 });
/// assert_eq!(area[15..21], [8, 0, k2, 1, 0, 0]);
/// ```
pub fn rewrite(policy: &[u32], our_key: u32, area: &mut [u32]) -> Rewriting {
    let (mut part, mut length) = (UNWRITTEN, UNWRITTEN_SIZE);
    let number = unsafe { c::txb_rewrite(policy.as_ptr(), policy.len(), our_key, area.as_mut_ptr(), area.len(), &mut part, &mut length) };
    Rewriting { number, part, length }
}

/// Where the words of a part stand: 1 for those of the query, 0 for those of the policy, and where in it.
///
/// ```
/// use txindurbe::calls;
///
/// let (policy, query) = ([1, 1, 10, 0, 6, 2, 1, 0], [3, 0]);
/// assert_eq!(calls::part(&policy, &query, 0), (0, 6..8));
/// assert_eq!(calls::part(&policy, &query, 16), (1, 0..2));
/// ```
pub fn part(policy: &[u32], query: &[u32], number: u32) -> (u32, Range<usize>) {
    let (mut of_query, mut start) = (UNWRITTEN, UNWRITTEN_SIZE);
    let length = unsafe { c::txb_part(policy.as_ptr(), policy.len(), query.as_ptr(), query.len(), number, &mut of_query, &mut start) };
    (of_query, start..start + length)
}

/// Where in a store the certificates of one name stand: those of a key, a name and a polarity.
///
/// ```
/// use txindurbe::{calls, sizes, Key};
///
/// let k1 = Key::new(1).word();
/// let mut store = vec![0; sizes::STORE_WORDS];
/// calls::file(&mut store, &[k1, 1, 0, 1, 7, 0, 0, 0, 0, 1]);
/// assert_eq!(calls::certificates_of(&store, k1, 1, 0), 1..11);
/// assert!(calls::certificates_of(&store, k1, 1, 1).is_empty());
/// ```
pub fn certificates_of(store: &[u32], key: u32, name: u32, polarity: u32) -> Range<usize> {
    let mut start = UNWRITTEN_SIZE;
    let length = unsafe { c::txb_certificates_of(store.as_ptr(), store.len(), key, name, polarity, &mut start) };
    start..start + length
}

/// The minute that begins at a year, month, day, hour and minute.
///
/// ```
/// use txindurbe::calls::{self, Minutes};
///
/// assert_eq!(calls::minutes([2000, 1, 2, 0, 0]), Minutes { number: 0, minutes: 1_440 });
/// assert_eq!(calls::minutes([2001, 2, 29, 0, 0]), Minutes { number: 16, minutes: 0 });
/// ```
pub fn minutes([year, month, day, hour, minute]: [u32; 5]) -> Minutes {
    let mut minutes = UNWRITTEN;
    let number = unsafe { c::txb_minutes(year, month, day, hour, minute, &mut minutes) };
    Minutes { number, minutes }
}

/// The date at which a minute begins.
///
/// ```
/// use txindurbe::calls::{self, Dated};
///
/// assert_eq!(calls::date(1_440), Dated { number: 0, date: [2000, 1, 2, 0, 0] });
/// assert_eq!(calls::date(52_596_000), Dated { number: 16, date: [0; 5] });
/// ```
pub fn date(minutes: u32) -> Dated {
    let [mut year, mut month, mut day, mut hour, mut minute] = [UNWRITTEN; 5];
    let number = unsafe { c::txb_date(minutes, &mut year, &mut month, &mut day, &mut hour, &mut minute) };
    Dated { number, date: [year, month, day, hour, minute] }
}
