//! What is measured: the words of each task, the same for all.

use differential::evaluator::{self, Date, Evaluator, Row, Validity};
use differential::generate::{assemble, rewritten, united};
use differential::random::Random;
use std::collections::BTreeSet;
use txindurbe::sizes::{CERTIFICATE_WORDS, LINKS_WORDS, LINK_WORDS, MOST_CERTIFICATES, MOST_LINKS, STORE_WORDS};
use txindurbe::{Format, Key};

/// The word of the key kN.
const fn key(n: u32) -> u32 {
    Key::new(n).word()
}

pub const ARCHIVE: u32 = key(0);
pub const OBSERVATORY: u32 = key(1);
pub const RELEASED: u32 = 1;
pub const WITHDRAWN: u32 = 2;
/// Rows of two atoms that share one: left (x, y), right (y, z).
pub const LEFT: u32 = 3;
pub const RIGHT: u32 = 4;
/// A name of a few rows.
pub const SMALL: u32 = 5;
/// The archive's list of the observatories that it trusts.
pub const TRUSTED: u32 = 6;
/// The archive's list, −, of compromised keys; also the name that an external policy has for them.
pub const COMPROMISED: u32 = 0;
/// What a curator holds back.
pub const EMBARGO: u32 = 11;
/// Given as our key to every call. It is nobody else's, and only task u has an own name.
pub const OUR_KEY: u32 = key(1_000);
/// The observatories whose released lists are united.
pub const OBSERVATORIES: [u32; 4] = [OBSERVATORY, key(2), key(3), key(4)];

/// The minute at which queries are asked: 2027-03-20 00:00.
pub const NOW: u32 = 14_313_600;
/// It lies in the semester from 2027-01-01 00:00 to 2027-07-01 00:00.
const SEMESTER: Validity = Validity { first: 14_201_280, end: 14_461_920 };
/// The next one, to 2028-01-01 00:00, and both together.
const NEXT: Validity = Validity { first: SEMESTER.end, end: 14_726_880 };
const YEAR: Validity = Validity { first: SEMESTER.first, end: NEXT.end };

/// A certificate's words.
pub type Record = [u32; CERTIFICATE_WORDS];
/// Certificates in the order of a store.
pub type Certificates = BTreeSet<evaluator::Record>;

/// A link's words.
pub type LinkWords = [u32; LINK_WORDS];
/// Links in the order of a link store.
pub type Links = BTreeSet<evaluator::Link>;

/// What a query is asked of.
pub struct Asked {
    pub policy: Vec<u32>,
    pub query: Vec<u32>,
    pub our_key: u32,
    pub minute: u32,
    pub store: Vec<u32>,
    pub links: Vec<u32>,
}

/// The formats of the policies, as words.
const EQUAL_WIDTHS: u32 = Format::EqualWidths as u32;
const WIDER_ROWS: u32 = Format::WiderRows as u32;

pub const EMPTY_POLICY: &[u32] = &[EQUAL_WIDTHS, 0];
/// Under it, the patterns of a query match wider rows by their first atoms.
pub const EMPTY_POLICY_WIDER_ROWS: &[u32] = &[WIDER_ROWS, 0];

/// Released and not withdrawn: document 01's P, and its Q.
pub fn policy_p() -> Vec<u32> {
    let k1 = OBSERVATORY;
    vec![EQUAL_WIDTHS, 1, 10, 0, 6, 23, 7, 2, 1, 4, 0, k1, RELEASED, 0, 1, 2, 0, 4, 1, 1, 0, 4, 0, k1, WITHDRAWN, 1, 1, 1, 0]
}

pub const QUERY_Q: &[u32] = &[3, 0];

/// (x, z) for each (x, y) on the left and (y, z) on the right.
pub fn join_query() -> Vec<u32> {
    let draw = |name: u32, pattern: [u32; 4]| [&[1, 4, 0, OBSERVATORY, name, 0, 2][..], &pattern].concat();
    [vec![7, 2], draw(LEFT, [2, 0, 2, 1]), draw(RIGHT, [1, 1, 2, 2]), vec![2, 1, 0, 1, 2]].concat()
}

fn literal(numbers: impl ExactSizeIterator<Item = u32>) -> Vec<u32> {
    let count = numbers.len() as u32;
    [1, count].into_iter().chain(numbers.flat_map(|n| [1, 0, n])).collect()
}

/// The sizes of the literals that 990,100 draws are made from.
pub const SIZES: [u32; 3] = [100, 100, 98];

/// Heads of one term: a constant, and the last variable drawn.
pub const CONSTANT: [u32; 2] = [0, 7];
pub const LAST: [u32; 2] = [1, 2];

pub fn draws_query(head: [u32; 2]) -> Vec<u32> {
    let draw = |(size, variable): (u32, u32)| [vec![1], literal(0..size), vec![1, 2, variable]].concat();
    let draws = SIZES.into_iter().zip(0..).flat_map(draw);
    [7, 3].into_iter().chain(draws).chain([1]).chain(head).collect()
}

pub fn small_query() -> Vec<u32> {
    vec![4, 0, OBSERVATORY, SMALL, 0]
}

/// Released by an observatory that the archive trusts, and not withdrawn by the same.
pub fn delegation_query() -> Vec<u32> {
    let trusted = [1, 4, 0, ARCHIVE, TRUSTED, 0, 1, 2, 0];
    let released = [1, 4, 1, 0, RELEASED, 0, 1, 2, 1];
    let not_withdrawn = [4, 1, 1, 1, 4, 1, 0, WITHDRAWN, 1];
    [&[7, 3], &trusted[..], &released, &not_withdrawn, &[1, 1, 1]].concat()
}

/// What a curator holds back: 128 rows, half of them among those released.
pub fn embargoed() -> impl ExactSizeIterator<Item = u32> {
    (0..128).map(|n| 14 * n)
}

/// The embargo is declared −, so that absence from it is +.
pub fn embargo_policy() -> Vec<u32> {
    let definition = literal(embargoed());
    [vec![EQUAL_WIDTHS, 1, EMBARGO, 1, 6, definition.len() as u32], definition].concat()
}

/// Released, and absent from an expression.
fn released_without(absent: &[u32]) -> Vec<u32> {
    [&[7, 2, 1, 4, 0, OBSERVATORY, RELEASED, 0, 1, 2, 0, 4, 1, 1, 0], absent, &[1, 1, 0]].concat()
}

/// Absent from the embargo, by its number.
pub fn embargo_query() -> Vec<u32> {
    released_without(&[3, 0])
}

/// Name, polarity and numbers of 16 definitions: 15 small ones, + names from the embargo's number on, then the embargo.
pub fn definitions() -> Vec<(u32, u32, Vec<u32>)> {
    let small = (0..15).map(|n| (EMBARGO + n, 0, vec![n]));
    small.chain([(EMBARGO, 1, embargoed().collect())]).collect()
}

pub fn definitions_policy() -> Vec<u32> {
    let written: Vec<_> = definitions().into_iter().map(|(name, polarity, numbers)| (name, polarity, literal(numbers.into_iter()))).collect();
    assemble(EQUAL_WIDTHS, &written)
}

/// Absent from the embargo, by its own name.
pub fn own_name_query() -> Vec<u32> {
    released_without(&[4, 0, OUR_KEY, EMBARGO, 1])
}

/// Released by an observatory that this key trusts.
fn delegation(key: u32) -> Vec<u32> {
    let trusted = [1, 4, 0, key, TRUSTED, 0, 1, 2, 0];
    let released = [1, 4, 1, 0, RELEASED, 0, 1, 2, 1];
    [&[7, 2], &trusted[..], &released, &[1, 1, 1]].concat()
}

/// An external policy, rewritten: the archive says which observatories it trusts and which keys are compromised.
pub fn vetted_policy() -> Vec<u32> {
    let compromised = vec![4, 0, ARCHIVE, COMPROMISED, 1];
    let external = assemble(EQUAL_WIDTHS, &[(COMPROMISED, 1, compromised), (10, 0, delegation(ARCHIVE))]);
    rewritten(&external, OUR_KEY).expect("it is external")
}

pub const VETTED_QUERY: &[u32] = &[3, 1];

pub fn released(key: u32) -> Vec<u32> {
    vec![4, 0, key, RELEASED, 0]
}

/// The last two lists, united by the one definition.
pub fn unions_policy() -> Vec<u32> {
    let [.., third, fourth] = OBSERVATORIES.map(released);
    assemble(EQUAL_WIDTHS, &[(10, 0, united(&[third, fourth]))])
}

/// The first list, united with the second united with the definition.
pub fn unions_query() -> Vec<u32> {
    let [first, second, ..] = OBSERVATORIES.map(released);
    united(&[first, second, vec![3, 0]])
}

/// An external policy of 16 definitions: 128 compromised keys, then 15 times a delegation united with 70 lists. Its output has 66 words of table, 386 of
/// definition 0 and 15 times 1 + 25 + 489.
pub fn long_external_policy() -> Vec<u32> {
    let mut definitions = vec![(COMPROMISED, 1, literal((0..128).map(key)))];
    for name in 1..16 {
        let lists: Vec<Vec<u32>> = (0..70).map(|n| vec![4, 0, key(64 + n), name, 0]).collect();
        definitions.push((name, 0, [vec![5], delegation(key(name)), united(&lists)].concat()));
    }
    assemble(EQUAL_WIDTHS, &definitions)
}

/// It holds in the semester.
fn certificate(issuer: u32, name: u32, polarity: u32, row: &[u32]) -> evaluator::Record {
    evaluator::Record { name: [issuer, name, polarity], row: Row::new(row), validity: SEMESTER }
}

/// 1,600 certificates: 128 released rows, 100 of them not withdrawn, 100 left and 100 right, four of a small name, and others. Four rows are released for the
/// year as well, and four others for the next semester.
pub fn certificates() -> Certificates {
    observatory(MOST_CERTIFICATES)
}

/// 1,600 certificates: 800 of the same, and 800 of a year earlier. Most rows are among both, some have expired for good.
pub fn half_expired() -> Certificates {
    let all = observatory(MOST_CERTIFICATES / 2);
    let a_year_earlier = |record: &evaluator::Record| {
        let mut record = *record;
        record.row.atoms[0] += 7 * 32;
        record.validity.first -= YEAR.end - YEAR.first;
        record.validity.end -= YEAR.end - YEAR.first;
        record
    };
    all.iter().copied().chain(all.iter().map(a_year_earlier)).collect()
}

/// What observatories append to their rows.
const EPOCH: u32 = 2_027;

/// 1,600 certificates: the first ones, with an epoch appended to 66 left and 67 right rows.
pub fn with_epochs() -> Certificates {
    let appended = |record: &evaluator::Record| match *record.row.used() {
        [a, b] if a % 3 > 0 => evaluator::Record { row: Row::new(&[a, b, EPOCH]), ..*record },
        _ => *record,
    };
    certificates().iter().map(appended).collect()
}

/// Others fill up the count.
fn observatory(count: usize) -> Certificates {
    let certificate = |name, polarity, row: &[u32]| certificate(OBSERVATORY, name, polarity, row);
    let mut all: Certificates = (0..128).map(|n| certificate(RELEASED, 0, &[7 * n])).collect();
    all.extend((20..24).map(|n| evaluator::Record { validity: YEAR, ..certificate(RELEASED, 0, &[7 * n]) }));
    all.extend((128..132).map(|n| evaluator::Record { validity: NEXT, ..certificate(RELEASED, 0, &[7 * n]) }));
    all.extend((14..114).map(|n| certificate(WITHDRAWN, 1, &[7 * n])));
    all.extend((0..100).map(|n| certificate(LEFT, 0, &[n, 1_000 + (37 * n) % 100])));
    all.extend((0..100).map(|n| certificate(RIGHT, 0, &[1_000 + n, 2_000 + n])));
    all.extend((0..4).map(|n| certificate(SMALL, 0, &[n])));
    let others = (0..).map(|n| certificate(100 + n / 50, n % 2, &[n]));
    let missing = count - all.len();
    all.extend(others.take(missing));
    all
}

/// 1,560 certificates: 40 trusted observatories, each with 20 of 100 observations released and 18 not withdrawn, 10 in both lists.
pub fn delegations() -> Certificates {
    let mut all = BTreeSet::new();
    for n in 0..40 {
        let observatory = key(1 + n);
        let observed = |place: u32| (37 * n + 3 * place) % 100;
        all.insert(certificate(ARCHIVE, TRUSTED, 0, &[observatory]));
        all.extend((0..20).map(|place| certificate(observatory, RELEASED, 0, &[observed(place)])));
        let even = (0..36).map(observed).filter(|observation| observation % 2 == 0);
        all.extend(even.map(|observation| certificate(observatory, WITHDRAWN, 1, &[observation])));
    }
    all
}

/// The same, and 31 of keys that are not compromised: the archive's own and those of 30 observatories.
pub fn vetted_delegations() -> Certificates {
    let mut all = delegations();
    all.extend((0..=30).map(|n| certificate(ARCHIVE, COMPROMISED, 1, &[key(n)])));
    all
}

/// 130 certificates: released lists of 40, 40, 25 and 25 rows that interleave, 10 of them in both of the last two.
pub fn unions() -> Certificates {
    let mut all = BTreeSet::new();
    for (observatory, (least, places)) in OBSERVATORIES.into_iter().zip([(0, 0..40), (1, 0..40), (2, 0..25), (2, 15..40)]) {
        all.extend(places.map(|n| certificate(observatory, RELEASED, 0, &[3 * n + least])));
    }
    all
}

/// 1,600 certificates: of each observation a row of one, of two and of three atoms, side by side; and four of the small name.
pub fn observations() -> Certificates {
    let rows = (0..).flat_map(|n| [vec![n], vec![n, 1], vec![n, 1, 2]]);
    let mut all: Certificates = (0..4).map(|n| certificate(OBSERVATORY, SMALL, 0, &[n])).collect();
    let missing = MOST_CERTIFICATES - all.len();
    all.extend(rows.take(missing).map(|row| certificate(OBSERVATORY, 100 + row[0] / 16, 0, &row)));
    all
}

/// How many observatories links join.
const JOINED: u32 = MOST_LINKS as u32 + 1;

/// 1,542 certificates: 257 observatories, each with six of 120 observations released.
pub fn joined() -> Certificates {
    let released = |n: u32| (0..6).map(move |place| certificate(key(n), RELEASED, 0, &[(37 * n + 3 * place) % 120]));
    (1..=JOINED).flat_map(released).collect()
}

/// 1,413 certificates: 128 rows that the first observatory released, and 100 of them that 257 observatories say are not withdrawn, each of five.
pub fn joined_withdrawn() -> Certificates {
    let not_withdrawn = |n: u32| (0..5).map(move |place| certificate(key(n), WITHDRAWN, 1, &[7 * (14 + (37 * n + 3 * place) % 100)]));
    let released = (0..128).map(|n| certificate(OBSERVATORY, RELEASED, 0, &[7 * n]));
    released.chain((1..=JOINED).flat_map(not_withdrawn)).collect()
}

fn link(key: u32, name: u32, polarity: u32, other_key: u32) -> evaluator::Link {
    evaluator::Link { key, name, polarity, other_key, other_name: name }
}

/// 256 links: from each observatory's list to the next one's.
pub fn chain(name: u32, polarity: u32) -> Links {
    (1..JOINED).map(|n| link(key(n), name, polarity, key(n + 1))).collect()
}

/// 256 links: from each of as many released lists to the next one's, and from the last to the first.
pub fn circle() -> Links {
    (1..JOINED).map(|n| link(key(n), RELEASED, 0, key(n % (JOINED - 1) + 1))).collect()
}

/// 256 links: from the first observatory's released list to each of the others.
pub fn star() -> Links {
    (2..=JOINED).map(|n| link(OBSERVATORY, RELEASED, 0, key(n))).collect()
}

fn laid_out<const WIDTH: usize>(records: impl ExactSizeIterator<Item = [u32; WIDTH]>, length: usize) -> Vec<u32> {
    let mut store = vec![records.len() as u32];
    store.extend(records.flatten());
    store.resize(length, 0);
    store
}

pub fn store_of(certificates: &Certificates) -> Vec<u32> {
    laid_out(words_of(certificates), STORE_WORDS)
}

pub fn words_of(certificates: &Certificates) -> impl ExactSizeIterator<Item = Record> + '_ {
    certificates.iter().map(evaluator::Record::words)
}

pub fn link_store_of(links: &Links) -> Vec<u32> {
    laid_out(words_of_links(links), LINKS_WORDS)
}

pub fn words_of_links(links: &Links) -> impl ExactSizeIterator<Item = LinkWords> + '_ {
    links.iter().map(evaluator::Link::words)
}

/// 1,000 dates of 2000 to 2099.
pub fn dates() -> Vec<Date> {
    let mut random = Random::new(1);
    let date = |minutes| Evaluator::default().date(minutes).expect("these minutes have dates");
    (0..1_000).map(|_| date(random.below(52_596_000) as u32)).collect()
}

pub fn in_random_order<T>(records: impl Iterator<Item = T>) -> Vec<T> {
    let mut filed: Vec<T> = records.collect();
    Random::new(1).shuffle(&mut filed);
    filed
}

#[cfg(test)]
mod tests {
    use super::*;

    #[test]
    fn stores_hold_what_their_comments_say() {
        let counts = [certificates(), half_expired(), observations(), delegations(), vetted_delegations(), unions()].map(|all| all.len());
        assert_eq!(counts, [1_600, 1_600, 1_600, 1_560, 1_591, 130]);
        assert_eq!([joined(), joined_withdrawn()].map(|all| all.len()), [1_542, 1_413]);
        assert_eq!([chain(RELEASED, 0), chain(WITHDRAWN, 1), circle(), star()].map(|all| all.len()), [256; 4]);
        assert_eq!(half_expired().iter().filter(|record| record.validity.end <= NOW).count(), 800);
        let (all, widths) = (with_epochs(), [1, 2, 3, 4]);
        let count = |name, width| all.iter().filter(|record| record.name == [OBSERVATORY, name, 0] && record.row.width == width).count();
        assert_eq!(all.len(), 1_600);
        assert_eq!([LEFT, RIGHT].map(|name| widths.map(|width| count(name, width))), [[0, 34, 66, 0], [0, 33, 67, 0]]);
    }

    #[test]
    fn the_embargo_is_the_last_of_16_definitions() {
        let policy = definitions_policy();
        // 66 words of table; 15 literals of five words, then one of 2 + 3 * 128
        assert_eq!(policy[..6], [EQUAL_WIDTHS, 16, EMBARGO, 0, 66, 5]);
        assert_eq!(policy[62..66], [EMBARGO, 1, 66 + 15 * 5, 386]);
        assert_eq!(policy[66 + 15 * 5..], embargo_policy()[6..]);
    }

    #[test]
    fn minutes_have_the_dates_that_their_comments_say() {
        let days = [(NOW, [2027, 3, 20]), (SEMESTER.first, [2027, 1, 1]), (SEMESTER.end, [2027, 7, 1]), (NEXT.end, [2028, 1, 1])];
        for (minute, [year, month, day]) in days {
            assert_eq!(Evaluator::default().date(minute), Ok([year, month, day, 0, 0]));
        }
    }
}
