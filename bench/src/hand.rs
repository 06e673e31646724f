//! Programs written by hand for one task each, from the same words to the same words.
//!
//! Behind a test of both stores they make each draw, as document 01 asks of the engine. The free ones are the quickest way to the same rows: the stores are
//! trusted, and no draw is made that is not needed. Where both are the same program, it stands here once.

use crate::tasks::{
    Asked, LinkWords, Record, ARCHIVE, COMPROMISED, EMBARGO, LEFT, OBSERVATORIES, OBSERVATORY, RELEASED, RIGHT, SMALL, TRUSTED, WITHDRAWN,
};
use differential::evaluator::Date;
use std::cmp::Ordering;
use std::hint::black_box;
use std::iter::from_fn;
use txindurbe::sizes::{CERTIFICATE_WORDS, LINKS_WORDS, LINK_WORDS, MOST_CERTIFICATES, MOST_LINKS, MOST_ROWS, ROW_WORDS, STORE_WORDS};

type RowWords = [u32; ROW_WORDS];

/// Writes the answer's words and gives the draws; nothing where the query is refused.
pub type Program = fn(&Asked, &mut [u32]) -> Option<u32>;

/// Two words as a number, which compares as the words do.
fn pair(first: u32, second: u32) -> u64 {
    u64::from(first) << 32 | u64::from(second)
}

/// A certificate as five numbers, which compare as certificates do: of a row the width decides last, where one row ends and the other goes on with zeros.
type Packed = [u64; 5];

fn packed(record: &Record) -> Packed {
    let [key, name, polarity, width, a, b, c, d, first, end] = *record;
    [pair(key, name), pair(polarity, a), pair(b, c), pair(d, width), pair(first, end)]
}

/// Spelled out, which is quicker than the order of arrays.
fn before(a: &Packed, b: &Packed) -> bool {
    if a[0] != b[0] {
        return a[0] < b[0];
    }
    if a[1] != b[1] {
        return a[1] < b[1];
    }
    if a[2] != b[2] {
        return a[2] < b[2];
    }
    if a[3] != b[3] {
        return a[3] < b[3];
    }
    a[4] < b[4]
}

fn records(store: &[u32]) -> &[Record] {
    store[1..1 + CERTIFICATE_WORDS * store[0] as usize].as_chunks().0
}

fn sound_record(record: &Record) -> bool {
    let [key, name, polarity, width, _, b, c, d, first, end] = *record;
    let unused = match width {
        1 => b | c | d,
        2 => c | d,
        3 => d,
        4 => 0,
        _ => 1,
    };
    key >> 31 == 1 && name >> 16 == 0 && polarity < 2 && unused == 0 && first < end
}

pub fn sound(store: &[u32]) -> bool {
    if store.len() < STORE_WORDS || store[0] as usize > MOST_CERTIFICATES {
        return false;
    }
    // Nothing sound is below zeros.
    let mut last = [0; 5];
    for record in records(store) {
        let this = packed(record);
        if !before(&last, &this) || !sound_record(record) {
            return false;
        }
        last = this;
    }
    true
}

/// A link as three numbers, which compare as links do.
fn packed_link([key, name, polarity, other_key, other_name]: LinkWords) -> [u64; 3] {
    [pair(key, name), pair(polarity, other_key), other_name.into()]
}

fn links(store: &[u32]) -> &[LinkWords] {
    store[1..1 + LINK_WORDS * store[0] as usize].as_chunks().0
}

fn sound_link([key, name, polarity, other_key, other_name]: LinkWords) -> bool {
    (key & other_key) >> 31 == 1 && (name | other_name) >> 16 == 0 && polarity < 2
}

pub fn sound_links(store: &[u32]) -> bool {
    if store.len() < LINKS_WORDS || store[0] as usize > MOST_LINKS {
        return false;
    }
    // Nothing sound is below zeros.
    let mut last = [0; 3];
    links(store).iter().all(|link| {
        let this = packed_link(*link);
        let follows = last < this;
        last = this;
        follows && sound_link(*link)
    })
}

/// The program behind a test of both stores.
pub fn tested(program: Program) -> impl Fn(&Asked, &mut [u32]) -> Option<u32> {
    move |asked, answer| (sound(&asked.store) && sound_links(&asked.links)).then(|| program(asked, answer)).flatten()
}

/// One name's part of the store, to be read at the minute.
struct Rows<'a> {
    part: &'a [Record],
    minute: u32,
}

impl<'a> Rows<'a> {
    /// A record of each row that holds, in order. Records of one row stand side by side, and the first atom mostly tells two rows apart.
    fn iter(&self) -> impl Iterator<Item = &'a Record> + use<'a> {
        let minute = self.minute;
        let mut last: Option<&Record> = None;
        let holding = self.part.iter().filter(move |record| record[8] <= minute && minute < record[9]);
        holding.filter(move |record| last.replace(record).is_none_or(|last| last[4] != record[4] || last[3..8] != record[3..8]))
    }

    fn count(&self) -> usize {
        self.iter().count()
    }
}

fn rows_of_name(asked: &Asked, issuer: u32, name: u32, polarity: u32) -> Option<Rows<'_>> {
    let wanted = [issuer, name, polarity];
    let records = records(&asked.store);
    let start = records.partition_point(|record| record[..3] < wanted[..]);
    let of_name = |record: &Record| record[..3] == wanted[..];
    // Mostly the name has no more records than a set may list rows.
    let near = records.len().min(start + MOST_ROWS + 1);
    let mut length = records[start..near].partition_point(of_name);
    if length > MOST_ROWS {
        length += records[near..].partition_point(of_name);
    }
    let rows = Rows { part: &records[start..start + length], minute: asked.minute };
    (length <= MOST_ROWS || rows.count() <= MOST_ROWS).then_some(rows)
}

/// An answer's words, laid out row by row.
struct AnswerArea<'a> {
    area: &'a mut [u32],
    count: usize,
}

impl<'a> AnswerArea<'a> {
    fn new(area: &'a mut [u32]) -> AnswerArea<'a> {
        AnswerArea { area, count: 0 }
    }

    fn push(&mut self, row: RowWords) {
        let start = 2 + ROW_WORDS * self.count;
        self.area[start..start + ROW_WORDS].copy_from_slice(&row);
        self.count += 1;
    }

    fn close(self) {
        self.area[0] = 0;
        self.area[1] = self.count as u32;
    }
}

fn lay_out(rows: impl IntoIterator<Item = RowWords>, answer: &mut [u32]) {
    let mut answer = AnswerArea::new(answer);
    rows.into_iter().for_each(|row| answer.push(row));
    answer.close();
}

fn row(record: &Record) -> RowWords {
    [record[3], record[4], record[5], record[6], record[7]]
}

fn row_of_atom(atom: u32) -> RowWords {
    [1, atom, 0, 0, 0]
}

/// Those of the rows that have one atom.
fn atoms<'a>(rows: &Rows<'a>) -> impl Iterator<Item = u32> + use<'a> {
    rows.iter().filter(|record| record[3] == 1).map(|record| record[4])
}

/// The atoms drawn that are among the others, or those that are not. All are in order, so that one pass is enough.
fn compared<'a, O: Iterator<Item = u32>>(drawn: &Rows<'a>, others: O, among: bool) -> impl Iterator<Item = u32> + use<'a, O> {
    let mut others = others.peekable();
    atoms(drawn).filter(move |atom| {
        while others.next_if(|other| other < atom).is_some() {}
        others.next_if_eq(atom).is_some() == among
    })
}

/// How many are released, and those of them that are not withdrawn.
fn public_of(asked: &Asked, observatory: u32) -> Option<(u32, impl Iterator<Item = u32> + '_)> {
    let released = rows_of_name(asked, observatory, RELEASED, 0)?;
    let not_withdrawn = rows_of_name(asked, observatory, WITHDRAWN, 1)?;
    Some((released.count() as u32, compared(&released, atoms(&not_withdrawn), true)))
}

pub fn public(asked: &Asked, answer: &mut [u32]) -> Option<u32> {
    let (draws, public) = public_of(asked, OBSERVATORY)?;
    lay_out(public.map(row_of_atom), answer);
    Some(draws)
}

/// Those released that are not in the definition, a literal.
fn released_without(asked: &Asked, definition: &[u32], answer: &mut [u32]) -> Option<u32> {
    let released = rows_of_name(asked, OBSERVATORY, RELEASED, 0)?;
    lay_out(compared(&released, literal(definition).into_iter(), false).map(row_of_atom), answer);
    Some(released.count() as u32)
}

/// The policy has one definition.
pub fn embargo(asked: &Asked, answer: &mut [u32]) -> Option<u32> {
    released_without(asked, &asked.policy[6..], answer)
}

/// The policy's table says where the definition of an own name is; once is enough.
pub fn embargo_by_name(asked: &Asked, answer: &mut [u32]) -> Option<u32> {
    let entries = asked.policy[2..].as_chunks::<4>().0;
    let [_, _, offset, _] = entries[..asked.policy[1] as usize].iter().find(|entry| entry[..2] == [EMBARGO, 1])?;
    released_without(asked, &asked.policy[*offset as usize..], answer)
}

fn sorted<const WIDTH: usize>(mut rows: Vec<[u32; WIDTH]>, answer: &mut [u32]) {
    rows.sort_unstable();
    rows.dedup();
    let laid_out = |atoms: [u32; WIDTH]| {
        let mut row = [0; ROW_WORDS];
        row[0] = WIDTH as u32;
        row[1..=WIDTH].copy_from_slice(&atoms);
        row
    };
    lay_out(rows.into_iter().map(laid_out), answer);
}

pub fn delegation(asked: &Asked, answer: &mut [u32]) -> Option<u32> {
    let trusted = rows_of_name(asked, ARCHIVE, TRUSTED, 0)?;
    let mut draws = trusted.count() as u32;
    let mut observations = Vec::with_capacity(MOST_CERTIFICATES);
    for observatory in atoms(&trusted) {
        let (released, public) = public_of(asked, observatory)?;
        draws += released;
        observations.extend(public.map(|observation| [observation]));
    }
    sorted(observations, answer);
    Some(draws)
}

/// The policy takes the archive's word for which keys are compromised: its own must not be either.
pub fn vetted_delegation(asked: &Asked, answer: &mut [u32]) -> Option<u32> {
    let not_compromised: Vec<u32> = atoms(&rows_of_name(asked, ARCHIVE, COMPROMISED, 1)?).collect();
    let vetted = |key: &u32| not_compromised.binary_search(key).is_ok();
    let trusted = if vetted(&ARCHIVE) { rows_of_name(asked, ARCHIVE, TRUSTED, 0)? } else { Rows { part: &[], minute: asked.minute } };
    let mut draws = trusted.count() as u32;
    let mut observations = Vec::with_capacity(MOST_CERTIFICATES);
    for observatory in atoms(&trusted).filter(vetted) {
        let released = rows_of_name(asked, observatory, RELEASED, 0)?;
        draws += released.count() as u32;
        observations.extend(atoms(&released).map(|observation| [observation]));
    }
    sorted(observations, answer);
    Some(draws)
}

/// The order of rows, where the first atom mostly decides; behind it stand the other ones and the width.
fn row_order(a: &Record, b: &Record) -> Ordering {
    a[4].cmp(&b[4]).then_with(|| packed(a)[2..4].cmp(&packed(b)[2..4]))
}

/// The rows of both, in order as both are, equal ones once.
fn united<'a>(mut left: impl Iterator<Item = &'a Record>, mut right: impl Iterator<Item = &'a Record>) -> impl Iterator<Item = &'a Record> {
    let (mut l, mut r) = (left.next(), right.next());
    from_fn(move || {
        let order = match (l, r) {
            (Some(l), Some(r)) => row_order(l, r),
            (Some(_), None) => Ordering::Less,
            (None, _) => Ordering::Greater,
        };
        let least = if order.is_le() { l } else { r };
        if order.is_le() {
            l = left.next();
        }
        if order.is_ge() {
            r = right.next();
        }
        least
    })
}

/// No list is made on the way: each row goes straight into the answer.
pub fn unions(asked: &Asked, answer: &mut [u32]) -> Option<u32> {
    let released = |observatory| rows_of_name(asked, observatory, RELEASED, 0).map(|rows| rows.iter());
    let [first, second, third, fourth] = OBSERVATORIES.map(released);
    lay_out(united(united(first?, second?), united(third?, fourth?)).map(row), answer);
    Some(0)
}

fn left_and_right(asked: &Asked) -> Option<[Vec<&Record>; 2]> {
    let rows = |name| rows_of_name(asked, OBSERVATORY, name, 0).map(|rows| rows.iter().collect());
    Some([rows(LEFT)?, rows(RIGHT)?])
}

/// Each right row is drawn for each left one. `fits` says which widths a pattern of two atoms matches.
fn join_where(asked: &Asked, answer: &mut [u32], fits: impl Fn(u32) -> bool) -> Option<u32> {
    let [left, right] = left_and_right(asked)?;
    let mut pairs = Vec::with_capacity(MOST_ROWS);
    let mut draws = 0;
    for l in left {
        draws += 1;
        for r in &right {
            draws += 1;
            if fits(l[3]) && fits(r[3]) && l[5] == r[4] {
                pairs.push([l[4], r[5]]);
            }
        }
    }
    sorted(pairs, answer);
    Some(draws)
}

pub fn join(asked: &Asked, answer: &mut [u32]) -> Option<u32> {
    join_where(asked, answer, |width| width == 2)
}

/// By the first two atoms of rows that have more.
pub fn join_wider(asked: &Asked, answer: &mut [u32]) -> Option<u32> {
    join_where(asked, answer, |width| width >= 2)
}

/// The right rows are in order of the shared atom, their first.
fn join_free_where(asked: &Asked, answer: &mut [u32], fits: impl Fn(u32) -> bool) -> Option<u32> {
    let [left, right] = left_and_right(asked)?;
    let mut pairs = Vec::with_capacity(MOST_ROWS);
    for l in left.iter().filter(|l| fits(l[3])) {
        let shared = l[5];
        let start = right.partition_point(|r| r[4] < shared);
        pairs.extend(right[start..].iter().take_while(|r| r[4] == shared).filter(|r| fits(r[3])).map(|r| [l[4], r[5]]));
    }
    sorted(pairs, answer);
    Some((left.len() * (1 + right.len())) as u32)
}

pub fn join_free(asked: &Asked, answer: &mut [u32]) -> Option<u32> {
    join_free_where(asked, answer, |width| width == 2)
}

pub fn join_wider_free(asked: &Asked, answer: &mut [u32]) -> Option<u32> {
    join_free_where(asked, answer, |width| width >= 2)
}

/// The numbers of a literal of one-atom rows, in order.
fn literal(words: &[u32]) -> Vec<u32> {
    let rows = words[2..].chunks_exact(3).take(words[1] as usize);
    let mut numbers: Vec<u32> = rows.map(|row| row[2]).collect();
    numbers.sort_unstable();
    numbers.dedup();
    numbers
}

/// The three literals of the query, each after its guard's code and before its pattern.
fn literals(query: &[u32]) -> [Vec<u32>; 3] {
    let mut rest = &query[2..];
    [(); 3].map(|_| {
        let numbers = literal(&rest[1..]);
        rest = &rest[3 + 3 * rest[2] as usize + 3..];
        numbers
    })
}

fn constant(asked: &Asked) -> u32 {
    asked.query[asked.query.len() - 1]
}

/// Each row is drawn and bound. `head` gives the place of the head's row in the answer and its atom; each round of the last loop has the rows in order, so
/// that one is new if its place is past those found.
fn draws(asked: &Asked, answer: &mut [u32], head: impl Fn(usize, u32) -> (usize, u32)) -> Option<u32> {
    let [first, second, third] = literals(&asked.query);
    let mut answer = AnswerArea::new(answer);
    let mut draws = 0;
    for &x in &first {
        draws += 1;
        for &y in &second {
            draws += 1;
            for (place, &z) in third.iter().enumerate() {
                draws += 1;
                black_box((x, y, z));
                let (place, atom) = head(place, z);
                if black_box(place) >= answer.count {
                    answer.push(row_of_atom(atom));
                }
            }
        }
    }
    answer.close();
    Some(draws)
}

pub fn draws_constant(asked: &Asked, answer: &mut [u32]) -> Option<u32> {
    let atom = constant(asked);
    draws(asked, answer, |_, _| (0, atom))
}

pub fn draws_last(asked: &Asked, answer: &mut [u32]) -> Option<u32> {
    draws(asked, answer, |place, z| (place, z))
}

fn count_draws(literals: [Vec<u32>; 3]) -> u32 {
    let [first, second, third] = literals.map(|numbers| numbers.len() as u32);
    first * (1 + second * (1 + third))
}

pub fn draws_constant_free(asked: &Asked, answer: &mut [u32]) -> Option<u32> {
    lay_out([row_of_atom(constant(asked))], answer);
    Some(count_draws(literals(&asked.query)))
}

pub fn draws_last_free(asked: &Asked, answer: &mut [u32]) -> Option<u32> {
    let literals = literals(&asked.query);
    lay_out(literals[2].iter().copied().map(row_of_atom), answer);
    Some(count_draws(literals))
}

/// The keys and names whose rows are joined for this one, itself first. Two names without links may be the same.
fn joined_names(asked: &Asked, issuer: u32, name: u32, polarity: u32) -> Vec<[u32; 2]> {
    let links = links(&asked.links);
    let mut joined = Vec::with_capacity(MOST_LINKS + 1);
    let mut to_follow = Vec::with_capacity(MOST_LINKS);
    // By the place of a name's first link.
    let mut followed = [false; MOST_LINKS];
    let mut next = Some([issuer, name]);
    while let Some([key, name]) = next {
        let wanted = (pair(key, name), polarity);
        let of_name = |link: &LinkWords| (pair(link[0], link[1]), link[2]);
        let start = links.partition_point(|link| of_name(link) < wanted);
        if links.get(start).is_none_or(|link| of_name(link) != wanted) {
            joined.push([key, name]);
        } else if !followed[start] {
            followed[start] = true;
            joined.push([key, name]);
            to_follow.extend(links[start..].iter().take_while(|link| of_name(link) == wanted).map(|link| [link[3], link[4]]));
        }
        next = to_follow.pop();
    }
    joined
}

/// A record of each row joined for a name, in order.
fn joined_rows(asked: &Asked, issuer: u32, name: u32, polarity: u32) -> Option<Vec<&Record>> {
    let mut rows: Vec<&Record> = Vec::with_capacity(MOST_ROWS);
    for [key, name] in joined_names(asked, issuer, name, polarity) {
        for record in rows_of_name(asked, key, name, polarity)?.iter() {
            let Err(place) = rows.binary_search_by(|other| row_order(other, record)) else { continue };
            if rows.len() == MOST_ROWS {
                return None;
            }
            rows.insert(place, record);
        }
    }
    Some(rows)
}

pub fn joined(asked: &Asked, answer: &mut [u32]) -> Option<u32> {
    lay_out(joined_rows(asked, OBSERVATORY, RELEASED, 0)?.into_iter().map(row), answer);
    Some(0)
}

/// The released list has no links.
pub fn public_joined(asked: &Asked, answer: &mut [u32]) -> Option<u32> {
    let released = rows_of_name(asked, OBSERVATORY, RELEASED, 0)?;
    let not_withdrawn = joined_rows(asked, OBSERVATORY, WITHDRAWN, 1)?;
    let atoms = not_withdrawn.into_iter().filter(|record| record[3] == 1).map(|record| record[4]);
    lay_out(compared(&released, atoms, true).map(row_of_atom), answer);
    Some(released.count() as u32)
}

/// Puts the record in its place.
fn put_in<const WIDTH: usize>(store: &mut [u32], place: usize, record: &[u32; WIDTH]) {
    let (start, end) = (1 + WIDTH * place, 1 + WIDTH * store[0] as usize);
    store.copy_within(start..end, start + WIDTH);
    store[start..start + WIDTH].copy_from_slice(record);
    store[0] += 1;
}

/// False if it was there.
pub fn file_free(store: &mut [u32], record: &Record) -> bool {
    let wanted = packed(record);
    let Err(place) = records(store).binary_search_by(|other| packed(other).cmp(&wanted)) else { return false };
    put_in(store, place, record);
    true
}

pub fn file(store: &mut [u32], record: &Record) -> bool {
    sound(store) && sound_record(record) && (store[0] as usize) < MOST_CERTIFICATES && file_free(store, record)
}

/// False if it was there.
pub fn file_link_free(store: &mut [u32], link: &LinkWords) -> bool {
    let Err(place) = links(store).binary_search(link) else { return false };
    put_in(store, place, link);
    true
}

pub fn file_link(store: &mut [u32], link: &LinkWords) -> bool {
    sound_links(store) && sound_link(*link) && (store[0] as usize) < MOST_LINKS && file_link_free(store, link)
}

/// Rewrites a policy whose definition 0 lists compromised keys. Gives the count of the output's words; nothing where an external rule is broken.
pub fn rewrite(policy: &[u32], area: &mut [u32]) -> Option<usize> {
    let count = policy[1] as usize;
    let (table, first) = (2 + 4 * count, 2 + 4 * count + policy[5] as usize);
    let mut rewriter = Rewriter { from: policy, at: first, area, end: first };
    rewriter.area[..first].copy_from_slice(&policy[..first]);
    for entry in (6..table).step_by(4) {
        let offset = rewriter.end;
        rewriter.area[entry + 2] = offset as u32;
        rewriter.expression()?;
        rewriter.area[entry + 3] = (rewriter.end - offset) as u32;
    }
    Some(rewriter.end)
}

/// Words copied from one place to another, with each list vetted.
struct Rewriter<'a> {
    from: &'a [u32],
    at: usize,
    area: &'a mut [u32],
    end: usize,
}

impl Rewriter<'_> {
    fn words(&mut self, count: usize) {
        self.area[self.end..self.end + count].copy_from_slice(&self.from[self.at..self.at + count]);
        self.at += count;
        self.end += count;
    }

    /// A width, and two words for each atom; so are patterns.
    fn row(&mut self) {
        self.words(1 + 2 * self.from[self.at] as usize);
    }

    fn expression(&mut self) -> Option<()> {
        match self.from[self.at] {
            1 | 2 => {
                let count = self.from[self.at + 1];
                self.words(2);
                (0..count).for_each(|_| self.row());
            }
            3 => self.words(2),
            4 => {
                let code = self.end;
                self.words(5);
                self.area[code] = 8;
                self.area[self.end] = 0;
                self.end += 1;
            }
            5 => {
                self.words(1);
                self.expression()?;
                self.expression()?;
            }
            7 => {
                let guards = self.from[self.at + 1];
                self.words(2);
                for _ in 0..guards {
                    self.guard()?;
                }
                self.row();
            }
            _ => return None,
        }
        Some(())
    }

    fn guard(&mut self) -> Option<()> {
        match self.from[self.at] {
            1 => {
                self.words(1);
                self.expression()?;
                self.row();
            }
            2 | 3 => self.words(5),
            _ => return None,
        }
        Some(())
    }
}

pub fn small(asked: &Asked, answer: &mut [u32]) -> Option<u32> {
    let rows = rows_of_name(asked, OBSERVATORY, SMALL, 0)?;
    lay_out(rows.iter().map(row), answer);
    Some(0)
}

/// Days before each month, in a year that is not a leap year.
const DAYS_BEFORE: [u32; 12] = [0, 31, 59, 90, 120, 151, 181, 212, 243, 273, 304, 334];

/// Days of the year before a month, both counted from 0; before month 12, all of them. From 2000 to 2099 each fourth year is a leap year.
fn days_before(year: u32, month: u32) -> u32 {
    if month == 12 {
        return 365 + u32::from(year.is_multiple_of(4));
    }
    DAYS_BEFORE[month as usize] + u32::from(month > 1 && year.is_multiple_of(4))
}

/// Nothing where the date does not exist.
pub fn minutes([year, month, day, hour, minute]: Date) -> Option<u32> {
    let (year, month) = (year.wrapping_sub(2_000), month.wrapping_sub(1));
    if year > 99 || month > 11 || hour > 23 || minute > 59 {
        return None;
    }
    let (before, after) = (days_before(year, month), days_before(year, month + 1));
    let day = before + day.wrapping_sub(1).min(31);
    (day < after).then(|| ((365 * year + year.div_ceil(4) + day) * 24 + hour) * 60 + minute)
}

/// Nothing after 2099.
pub fn date(minutes: u32) -> Option<Date> {
    let (days, minute_of_day) = (minutes / 1_440, minutes % 1_440);
    if days >= 36_525 {
        return None;
    }
    let (fours, day) = (days / 1_461, days % 1_461);
    let year_of_four = day.saturating_sub(1) / 365;
    let year = 4 * fours + year_of_four;
    let day = day - (365 * year_of_four + u32::from(year_of_four > 0));
    // Months have at most 32 days, so that it is this month or the one after.
    let early = day / 32;
    let month = early + u32::from(day >= days_before(year, early + 1));
    Some([2_000 + year, month + 1, day - days_before(year, month) + 1, minute_of_day / 60, minute_of_day % 60])
}

#[cfg(test)]
mod tests {
    use super::*;
    use differential::evaluator::Evaluator;

    #[test]
    fn dates_are_those_of_the_evaluator() {
        let evaluator = Evaluator::default();
        for day in 0..36_600 {
            let minute = day * 1_440 + day % 1_440;
            assert_eq!(date(minute), evaluator.date(minute).ok(), "{minute}");
        }
        for year in 1_999..2_101 {
            for (month, day) in (0..14).flat_map(|month| (0..33).map(move |day| (month, day))) {
                let date = [year, month, day, day % 25, (2 * day) % 61];
                assert_eq!(minutes(date), evaluator.minutes(date).ok(), "{date:?}");
            }
        }
        assert_eq!((minutes([u32::MAX; 5]), date(u32::MAX)), (None, None));
    }
}
