//! Random policies, queries, stores and link stores, lists of filings, our keys, minutes and dates.
//!
//! Expressions are written by the grammar, with a polarity and openness in mind, so that most are answered and many answers are not empty: keys, names and
//! atoms come from a small universe, and many rows begin as others do. Our key is mostly one of these keys, and definitions have the names that certificates are
//! filed under, so that own names are written often. Then single words are changed, words cut off or added, and each limit of document 01 is approached from both
//! sides. Policies of formats 1 and 2 come half and half.

use crate::engine::{Kind, Stores};
use crate::evaluator::{key, Areas, Date, Evaluator, Format, Link, Name, Record, Refusal, Row, Validity};
use crate::numbers::{
    COMPROMISED, FIRST_KEY, FIRST_YEAR, LAST_NAME, LAST_YEAR, LINKS_WORDS, LINK_WORDS, MOST_CERTIFICATES, MOST_LINKS, MOST_POLICY_WORDS,
    MOST_VARIABLES, RECORD_WORDS, STORE_WORDS,
};
use crate::random::Random;
use std::collections::BTreeSet;

/// What policies, queries and certificates speak of.
pub struct Universe {
    pub keys: &'static [u32],
    /// Those of the keys that are ours, one at a time.
    pub our_keys: &'static [u32],
    pub names: &'static [u32],
    pub atoms: &'static [u32],
    pub widths: &'static [u32],
    /// Of rows that begin as others do.
    pub widest: u32,
    /// Terms of validity: some overlap, some touch. Queries are asked at their edges.
    pub terms: &'static [Validity],
    /// How deep grammar-directed expressions go.
    pub depth: u32,
    /// The most guards of one comprehension.
    pub guards: u32,
}

pub const PORTAL: Universe = Universe {
    keys: &[key(1), key(2), key(3)],
    // The crowded name is mostly the first key's.
    our_keys: &[key(1), key(2), key(2), key(3), key(3), key(3)],
    names: &[1, 1, 1, 2, 2, 2, 0, CROWD, LAST_NAME],
    atoms: &[5, 6, 7, 8, 9, key(1), key(2), 0, u32::MAX],
    widths: &[1, 1, 1, 1, 1, 1, 2, 2, 2, 3, 4],
    widest: 4,
    terms: &[
        ALWAYS,
        ALWAYS,
        ALWAYS,
        term(0, 1),
        term(0, 20),
        term(0, 20),
        term(9, 10),
        term(10, 20),
        term(10, 30),
        term(10, 30),
        term(15, 25),
        term(20, 40),
        term(20, 40),
        term(10, DATED_MINUTES),
        term(20, (1 << 31) + 1),
        term((1 << 31) - 1, u32::MAX),
        term(u32::MAX - 1, u32::MAX),
    ],
    depth: 5,
    guards: 4,
};

/// But for the greatest minute, at which nothing holds.
pub const ALWAYS: Validity = term(0, u32::MAX);

/// The first minute that has no date.
const DATED_MINUTES: u32 = 52_596_000;

pub const fn term(first: u32, end: u32) -> Validity {
    Validity { first, end }
}

/// The name that has about 128 rows in crowded stores, by itself or with what links join to it.
const CROWD: u32 = 3;

/// One query call, and what is asked beside it.
pub struct Case {
    pub policy: Vec<u32>,
    pub query: Vec<u32>,
    pub our_key: u32,
    pub minute: u32,
    pub areas: Areas,
    /// The length of the area that the policy is rewritten into.
    pub rewriting_area: usize,
    /// A part to hand back.
    pub number: u32,
    /// A name whose certificates to hand back.
    pub name: Name,
    /// A date and minutes to convert.
    pub date: Date,
    pub minutes: u32,
}

/// What is filed into these stores, one after the other.
pub struct Filings {
    pub stores: Stores,
    pub filed: Vec<(Kind, Vec<u32>)>,
}

/// A definition's name, polarity and openness, for those that use it.
#[derive(Clone, Copy)]
struct Declared {
    name: u32,
    polarity: u32,
    open: bool,
}

/// What an expression should have; `closed` is not open.
#[derive(Clone, Copy)]
struct Want {
    plus: bool,
    minus: bool,
    closed: bool,
}

impl Want {
    fn polarity(polarity: u32) -> Want {
        Want { plus: polarity == 0, minus: polarity == 1, closed: false }
    }

    fn any(random: &mut Random) -> Want {
        let (plus, minus) = random.pick(&[(true, false), (false, true), (true, true)]);
        Want { plus, minus, closed: random.chance(300) }
    }

    fn opposite(self) -> Want {
        Want { plus: self.minus, minus: self.plus, closed: false }
    }

    fn exact(self) -> bool {
        self.plus && self.minus
    }

    fn fits(self, declared: Declared) -> bool {
        !self.exact() && (declared.polarity == 0) == self.plus && !(self.closed && declared.open)
    }
}

/// Where a definition or query is written.
#[derive(Clone, Copy)]
struct Place<'a> {
    /// The definitions that are available there.
    available: &'a [Declared],
    /// All definitions of the policy, by name and polarity.
    entries: &'a [(u32, u32)],
    our_key: u32,
    /// Whether the external rules are kept: no difference, no absent guard and no code 8.
    external: bool,
}

/// Writes one definition or query.
struct Writer<'a> {
    random: &'a mut Random,
    universe: &'a Universe,
    place: Place<'a>,
    words: Vec<u32>,
    variables: u32,
    draws: u32,
}

impl<'a> Writer<'a> {
    fn new(random: &'a mut Random, universe: &'a Universe, place: Place<'a>) -> Writer<'a> {
        Writer { random, universe, place, words: Vec::new(), variables: 0, draws: 0 }
    }

    fn expression(&mut self, want: Want, depth: u32) {
        let slip = self.random.chance(12);
        let want = if slip { Want::any(self.random) } else { want };
        let leaf = depth >= self.universe.depth || self.words.len() > 400;
        let codes = self.codes(leaf);
        loop {
            let code = self.random.pick(codes);
            if self.fits(code, want) {
                self.words.push(code);
                return self.operands(code, want, depth);
            }
        }
    }

    fn codes(&self, leaf: bool) -> &'static [u32] {
        match (self.place.external, leaf) {
            (false, true) => &[1, 1, 2, 3, 3, 4, 4, 4, 8, 8],
            (false, false) => &[1, 2, 3, 3, 4, 4, 5, 6, 7, 7, 7, 7, 8],
            (true, true) => &[1, 2, 3, 4, 4, 4],
            (true, false) => &[1, 2, 3, 4, 4, 5, 5, 7, 7, 7],
        }
    }

    fn fits(&self, code: u32, want: Want) -> bool {
        match code {
            2 => !want.closed,
            3 => self.fitting(want).next().is_some(),
            // A − name is open, unless it is an own name.
            4 => !want.exact() && (want.plus || !want.closed || self.fitting(want).next().is_some()),
            7 => self.draws < 6,
            8 => want.plus && !want.minus && self.place.available.iter().any(|declared| declared.polarity == 1),
            _ => true,
        }
    }

    /// The definitions that have what is wanted, by number.
    fn fitting(&self, want: Want) -> impl Iterator<Item = (u32, Declared)> + 'a {
        (0..).zip(self.place.available.iter().copied()).filter(move |(_, declared)| want.fits(*declared))
    }

    fn operands(&mut self, code: u32, want: Want, depth: u32) {
        match code {
            1 | 2 => {
                let count = self.random.pick(&[0, 1, 1, 1, 2, 2, 3, 4]);
                self.rows(count, self.universe.widths, 350);
            }
            3 => self.definition(want),
            4 => self.list(want),
            5 => {
                self.expression(want, depth + 1);
                self.expression(want, depth + 1);
            }
            6 => {
                self.expression(want, depth + 1);
                self.expression(want.opposite(), depth + 1);
            }
            7 => self.comprehension(want, depth),
            _ => self.vetted(want),
        }
    }

    /// So many rows of these widths; so many of a thousand of them begin as the one before does.
    fn rows(&mut self, count: u32, widths: &[u32], alike: u32) {
        self.words.push(count);
        let mut last = 0;
        for place in 0..count {
            let start = self.words.len();
            if place > 0 && self.random.chance(alike) {
                self.row_alike(last);
            } else {
                let width = self.random.pick(widths);
                self.row_of(width, 500);
            }
            last = start;
        }
    }

    fn row(&mut self) {
        let width = self.random.pick(self.universe.widths);
        self.row_of(width, 500);
    }

    /// Its terms are variables in so many of a thousand cases.
    fn row_of(&mut self, width: u32, variable: u32) {
        self.words.push(width);
        for _ in 0..width {
            self.term(variable);
        }
    }

    /// Some of the first terms of the row that stands there, and others behind them.
    fn row_alike(&mut self, place: usize) {
        let widest = self.universe.widest;
        let kept = self.random.between(1, self.words[place].min(widest - 1));
        let width = self.random.between(kept + 1, widest);
        let terms = self.words[place + 1..][..2 * kept as usize].to_vec();
        self.words.push(width);
        self.words.extend(terms);
        for _ in kept..width {
            self.term(300);
        }
    }

    /// A variable in so many of a thousand cases, where there is one.
    fn term(&mut self, variable: u32) {
        let term = if self.variables > 0 && self.random.chance(variable) { [1, self.some_variable()] } else { [0, self.atom()] };
        self.words.extend(term);
    }

    /// Now and then our key, for variables to hold.
    fn atom(&mut self) -> u32 {
        if self.random.chance(60) {
            self.place.our_key
        } else {
            self.random.pick(self.universe.atoms)
        }
    }

    fn some_variable(&mut self) -> u32 {
        self.random.below(self.variables as usize) as u32
    }

    fn definition(&mut self, want: Want) {
        let fitting: Vec<u32> = self.fitting(want).map(|(d, _)| d).collect();
        let number = self.random.pick(&fitting);
        self.words.push(number);
    }

    /// Often an own name of a definition that has what is wanted, now and then any own name; else another key's, or a variable's.
    fn list(&mut self, want: Want) {
        let polarity = !want.plus as u32;
        let own: Vec<u32> = self.fitting(want).map(|(_, declared)| declared.name).collect();
        let own_alone = polarity == 1 && want.closed;
        let [tag, issuer, name] = if !own.is_empty() && (own_alone || self.random.chance(450)) {
            [0, self.place.our_key, self.random.pick(&own)]
        } else if self.random.chance(15) {
            [0, self.place.our_key, self.any_name()]
        } else if self.variables > 0 && self.random.chance(400) {
            [1, self.some_variable(), self.random.pick(self.universe.names)]
        } else {
            [0, self.other_key(), self.random.pick(self.universe.names)]
        };
        self.words.extend([tag, issuer, name, polarity]);
    }

    /// Of a definition, available or not, or of certificates.
    fn any_name(&mut self) -> u32 {
        match self.place.entries {
            [_, ..] if self.random.chance(800) => self.random.pick(self.place.entries).0,
            _ => self.random.pick(self.universe.names),
        }
    }

    fn other_key(&mut self) -> u32 {
        other_key(self.random, self.universe, self.place.our_key)
    }

    /// Mostly by a definition that is −, sometimes by one that is not or is not there, and sometimes with −.
    fn vetted(&mut self, want: Want) {
        let minus = self.random.chance(15);
        self.list(Want { closed: want.closed, ..Want::polarity(minus as u32) });
        self.guard_of_vetted(25);
    }

    /// The definition that code 8 looks its issuer up in; it is any, or not there, in so many of a thousand cases.
    fn guard_of_vetted(&mut self, wrong: u32) {
        let fitting: Vec<u32> = self.fitting(Want::polarity(1)).map(|(d, _)| d).collect();
        let any = fitting.is_empty() || self.random.chance(wrong);
        let definition = if any { self.random.between(0, self.place.available.len() as u32) } else { self.random.pick(&fitting) };
        self.words.push(definition);
    }

    fn comprehension(&mut self, want: Want, depth: u32) {
        let outside = self.variables;
        let count = self.random.between(0, self.universe.guards);
        self.words.push(count);
        for _ in 0..count {
            self.guard(want, depth);
        }
        self.row();
        self.variables = outside;
    }

    fn guard(&mut self, want: Want, depth: u32) {
        let guard = match (self.draws < 8, self.place.external) {
            (true, false) => self.random.pick(&[1, 1, 1, 1, 2, 3, 4, 4]),
            (true, true) => self.random.pick(&[1, 1, 1, 1, 2, 3]),
            (false, external) => self.random.between(2, if external { 3 } else { 4 }),
        };
        self.words.push(guard);
        match guard {
            1 => {
                self.draws += 1;
                self.expression(Want { closed: true, ..want }, depth + 1);
                let width = self.random.pick(self.universe.widths);
                self.pattern(width);
            }
            4 => {
                self.row();
                self.expression(want.opposite(), depth + 1);
            }
            _ => {
                self.term(800);
                self.term(600);
            }
        }
    }

    /// Sometimes with a variable used twice.
    fn pattern(&mut self, width: u32) {
        let outside = self.variables;
        self.words.push(width);
        for _ in 0..width {
            if self.variables < MOST_VARIABLES as u32 && self.random.chance(650) {
                self.words.extend([2, self.variables]);
                self.variables += 1;
            } else if self.variables > outside && self.random.chance(300) {
                let again = self.random.between(outside, self.variables - 1);
                self.words.extend([1, again]);
            } else {
                self.term(500);
            }
        }
    }

    /// A draw, perhaps more guards behind it, and a head that shows what was drawn.
    fn one_draw(&mut self) {
        let guards = self.random.pick(&[1, 1, 2, 3]);
        self.words.extend([7, guards]);
        for place in 0..guards {
            match if place == 0 { 0 } else { self.random.below(3) } {
                0 => {
                    self.words.push(1);
                    self.one_source(0);
                    self.any_pattern();
                }
                1 => {
                    self.words.push(4);
                    self.row();
                    self.one_source(1);
                }
                _ => {
                    let guard = self.random.between(2, 3);
                    self.words.push(guard);
                    self.term(800);
                    self.term(600);
                }
            }
        }
        let width = self.random.between(1, self.variables.clamp(1, 4));
        self.row_of(width, 900);
    }

    /// Of any width, but rather of few.
    fn any_pattern(&mut self) {
        let [one, other] = [0; 2].map(|_| self.random.between(1, self.universe.widest));
        self.pattern(one.min(other));
    }

    /// A name of this polarity; or what has both: a literal, or what is drawn from one in turn; or definition 0, which is +, perhaps by its name.
    fn one_source(&mut self, polarity: u32) {
        match (self.random.below(10), self.place.available) {
            (0..=3, _) => {
                let key = self.other_key();
                let name = self.random.between(1, 2);
                self.words.extend([4, 0, key, name, polarity]);
            }
            (4, [_, ..]) if polarity == 0 => self.words.extend([3, 0]),
            (5, [declared, ..]) if polarity == 0 => self.words.extend([4, 0, self.place.our_key, declared.name, 0]),
            (6 | 7, _) => {
                let outside = self.variables;
                self.words.extend([7, 1, 1]);
                self.any_rows();
                self.any_pattern();
                let width = self.random.between(1, 2);
                self.row_of(width, 800);
                self.variables = outside;
            }
            _ => self.any_rows(),
        }
    }

    /// A literal with rows of any width, many of which begin alike.
    fn any_rows(&mut self) {
        let count = self.random.between(1, 4);
        self.words.push(1);
        self.rows(count, &[1, 2, 3, 4][..self.universe.widest as usize], 600);
    }

    /// A definition of this polarity without own names: a literal, a list, or what is drawn and not open. The last two depend on certificates.
    fn without_own_names(&mut self, polarity: u32) {
        let (key, name) = (self.other_key(), self.random.between(1, 2));
        match self.random.below(7) {
            0 => self.any_rows(),
            1 | 2 => {
                self.any_rows();
                self.words[0] = 2;
            }
            3 | 4 => self.words.extend([4, 0, key, name, polarity]),
            _ if polarity == 0 => self.words.extend([7, 1, 1, 4, 0, key, name, 0, 1, 2, 0, 1, 1, 0]),
            _ => {
                self.words.extend([7, 2, 1]);
                self.any_rows();
                self.words.extend([1, 2, 0, 4, 1, 1, 0, 4, 0, key, name, 0, 1, 1, 0]);
            }
        }
    }

    /// An own name in one of the places that names are written at; it is wrong in so many of a thousand cases.
    fn with_own_name(&mut self, polarity: u32, wrong: u32) {
        let places: &[u32] = if self.place.external { &[0, 1, 1, 2, 2] } else { &[0, 0, 1, 2, 2, 3, 4, 5, 6, 6] };
        match self.random.pick(places) {
            0 => self.own_name(polarity, false, wrong),
            1 => {
                self.words.push(5);
                self.own_name(polarity, false, wrong);
                // What is malformed, or too deep, comes behind.
                let malformed: &[&[u32]] = &[&[9], &[3, 16], &[1, 1, 1, 1, 0], &[5; 16]];
                if self.random.chance(wrong) {
                    self.words.extend(self.random.pick(malformed));
                } else {
                    self.own_name(polarity, false, wrong);
                }
            }
            2 => {
                let closed = !self.random.chance(2 * wrong);
                self.words.extend([7, 1, 1]);
                self.own_name(polarity, closed, wrong);
                self.any_pattern();
                self.row_of(1, 900);
            }
            3 => {
                self.words.push(6);
                self.own_name(polarity, false, wrong);
                self.any_rows();
            }
            4 => {
                self.words.push(6);
                self.any_rows();
                self.own_name(1 - polarity, false, wrong);
            }
            5 => {
                self.words.extend([7, 2, 1]);
                self.any_rows();
                self.any_pattern();
                self.words.push(4);
                self.row();
                self.own_name(1 - polarity, false, wrong);
                self.row_of(1, 900);
            }
            _ => self.through_a_variable(polarity),
        }
        self.variables = 0;
    }

    /// Code 4 or 8 with our key. Mostly it has this polarity and a definition available, which is not open if that is asked for.
    fn own_name(&mut self, polarity: u32, closed: bool, wrong: u32) {
        let want = Want { closed, ..Want::polarity(polarity) };
        let fitting: Vec<u32> = self.fitting(want).map(|(_, declared)| declared.name).collect();
        let any = fitting.is_empty() || self.random.chance(wrong);
        let name = if any { self.any_name() } else { self.random.pick(&fitting) };
        let written = if self.random.chance(wrong / 2) { self.random.pick(&[1 - polarity, 1 - polarity, 2, u32::MAX]) } else { polarity };
        let code = if polarity == 0 && !self.place.external && self.random.chance(400) { 8 } else { 4 };
        self.words.extend([code, 0, self.place.our_key, name, written]);
        // Sometimes the last word is cut off.
        if code == 8 && !self.random.chance(if any { wrong } else { wrong / 4 }) {
            self.guard_of_vetted(wrong);
        }
    }

    /// A variable that holds our key, another one or a number reads a name that definitions may have: under a draw, or under an absent guard.
    fn through_a_variable(&mut self, polarity: u32) {
        let (ours, other, name) = (self.place.our_key, self.other_key(), self.any_name());
        self.words.extend([7, 2, 1, 1, 2, 1, 0, ours, 1, 0, self.random.pick(&[other, 5]), 1, 2, 0]);
        self.variables = 1;
        if polarity == 0 && self.random.chance(600) {
            let code = self.random.pick(&[4, 8]);
            self.words.extend([1, code, 1, 0, name, 0]);
            if code == 8 {
                self.guard_of_vetted(0);
            }
            self.any_pattern();
        } else {
            self.words.push(4);
            self.row();
            self.words.extend([4, 1, 0, name, 1 - polarity]);
        }
        self.row_of(1, 900);
    }
}

/// One that is not ours: own names are written on purpose.
fn other_key(random: &mut Random, universe: &Universe, our_key: u32) -> u32 {
    let others: Vec<u32> = universe.keys.iter().copied().filter(|key| *key != our_key).collect();
    random.pick(&others)
}

/// Code 1 or 2 with the numbers from `first` on, as rows of one atom.
fn numbers(code: u32, first: u32, count: u32) -> Vec<u32> {
    let mut words = vec![code, count];
    words.extend((first..first + count).flat_map(|n| [1, 0, n]));
    words
}

/// A literal of exactly so many words, at most 1,154.
fn literal_of(length: usize) -> Vec<u32> {
    let mut left = length - 2;
    let mut words = vec![1, 0];
    while left > 0 {
        // Rows take 3, 5, 7 or 9 words, so that 1, 2 and 4 must not be left.
        let width = (1..=4).rev().find(|width| left > 2 * width && ![1, 2, 4].contains(&(left - 1 - 2 * width)));
        let width = width.expect("a literal has 2, 5, 7 or more words");
        words.push(width as u32);
        words.extend([0, left as u32].repeat(width));
        words[1] += 1;
        left -= 1 + 2 * width;
    }
    words
}

/// A comprehension that draws one variable from each of these.
fn draws_from(sources: &[Vec<u32>], head: &[u32]) -> Vec<u32> {
    let mut words = vec![7, sources.len() as u32];
    for (source, variable) in sources.iter().zip(0..) {
        words.push(1);
        words.extend(source);
        words.extend([1, 2, variable]);
    }
    words.extend(head);
    words
}

/// The union of these, halved again and again, so that many are not deep.
pub fn united(parts: &[Vec<u32>]) -> Vec<u32> {
    match parts {
        [part] => part.clone(),
        _ => {
            let (left, right) = parts.split_at(parts.len() / 2);
            [vec![5], united(left), united(right)].concat()
        }
    }
}

/// What an external policy is rewritten into.
pub fn rewritten(policy: &[u32], our_key: u32) -> Result<Vec<u32>, Refusal> {
    let mut area = vec![0; MOST_POLICY_WORDS];
    let length = Evaluator::default().rewrite(policy, our_key, &mut area)?;
    area.truncate(length);
    Ok(area)
}

/// Name, polarity and words.
type Definition = (u32, u32, Vec<u32>);

/// The policy's header, table and parts.
pub fn assemble(format: u32, definitions: &[Definition]) -> Vec<u32> {
    let mut words = vec![format, definitions.len() as u32];
    let mut offset = 2 + 4 * definitions.len() as u32;
    for (name, polarity, part) in definitions {
        words.extend([*name, *polarity, offset, part.len() as u32]);
        offset += part.len() as u32;
    }
    words.extend(definitions.iter().flat_map(|(_, _, part)| part));
    words
}

/// A store or link store with these records, and junk past the last one.
fn lay_out<const WIDTH: usize>(records: &[[u32; WIDTH]], length: usize, random: &mut Random) -> Vec<u32> {
    let junk = random.word() | 1;
    let mut store = Vec::with_capacity(length);
    store.push(records.len() as u32);
    store.extend(records.as_flattened());
    store.extend((store.len() as u32..length as u32).map(|n| n.wrapping_mul(junk)));
    store
}

/// Both empty.
pub fn empty_stores(random: &mut Random) -> Stores {
    Stores { store: lay_out::<RECORD_WORDS>(&[], STORE_WORDS, random), links: lay_out::<LINK_WORDS>(&[], LINKS_WORDS, random) }
}

/// The records' words, in order.
fn words_of(records: &BTreeSet<Record>) -> Vec<[u32; RECORD_WORDS]> {
    records.iter().map(Record::words).collect()
}

/// Of the first one's polarity.
fn link_between([key, name, polarity]: Name, [other_key, other_name, _]: Name) -> Link {
    Link { key, name, polarity, other_key, other_name }
}

/// A policy and a query, and the key that is ours.
pub struct Pair {
    pub policy: Vec<u32>,
    pub query: Vec<u32>,
    pub our_key: u32,
}

pub struct Generator {
    pub random: Random,
    universe: &'static Universe,
    /// Ours, for what is being written.
    our_key: u32,
}

impl Generator {
    pub fn new(seed: u64, universe: &'static Universe) -> Generator {
        Generator { random: Random::new(seed), universe, our_key: universe.our_keys[0] }
    }

    // ---- certificates, stores, filings ----

    fn name(&mut self) -> Name {
        [self.random.pick(self.universe.keys), self.random.pick(self.universe.names), self.random.between(0, 1)]
    }

    pub fn record(&mut self) -> Record {
        let width = self.random.pick(self.universe.widths) as usize;
        let atoms: Vec<u32> = (0..width).map(|_| self.random.pick(self.universe.atoms)).collect();
        Record { name: self.name(), row: Row::new(&atoms), validity: self.random.pick(self.universe.terms) }
    }

    /// Of the same name, and mostly of the same term: some of the first atoms of its row, and others behind them, as where an epoch is appended. One of these is
    /// often an atom that the row has already.
    pub fn appended(&mut self, record: Record) -> Record {
        let widest = self.universe.widest;
        let kept = self.random.between(1, record.row.width.min(widest - 1));
        let mut atoms = record.row.used()[..kept as usize].to_vec();
        for _ in kept..self.random.between(kept + 1, widest) {
            let atom = if self.random.chance(300) { self.random.pick(&atoms) } else { self.random.pick(self.universe.atoms) };
            atoms.push(atom);
        }
        let validity = if self.random.chance(200) { self.random.pick(self.universe.terms) } else { record.validity };
        Record { row: Row::new(&atoms), validity, ..record }
    }

    /// Some rows have several terms, and some begin as others do.
    fn records(&mut self, count: usize) -> BTreeSet<Record> {
        let mut record = self.record();
        let mut next = || {
            record = match self.random.below(10) {
                0 | 1 => Record { validity: self.random.pick(self.universe.terms), ..record },
                2..=4 => self.appended(record),
                _ => self.record(),
            };
            record
        };
        (0..count).map(|_| next()).collect()
    }

    /// 126 to 130 rows of one name with one term, up to 130 with another, some of which are the same rows, and some others. The second ones are of the same name
    /// or of another key's, where both may have 126 to 130 rows together. The rows have one atom, or two, of which the first is that of four rows.
    fn crowd(&mut self) -> BTreeSet<Record> {
        let mut records = self.records(20);
        for polarity in [0, 1] {
            records.retain(|record| record.name[1..] != [CROWD, polarity]);
            let count = self.random.between(126, 130);
            let first_of_second = self.random.pick(&[0, 0, 20, count]);
            let second = first_of_second..first_of_second + self.random.pick(&[0, 1, count - 1, count, 130]);
            let [key, other_key] = [0, 1].map(|place| self.universe.keys[place]);
            let parts = match self.random.below(4) {
                0 | 1 => [(key, 0..count), (key, second)],
                2 => [(key, 0..count), (other_key, second)],
                _ => [(key, 0..count - 40), (other_key, count - 80..count)],
            };
            let wide = self.random.chance(300);
            let row = |n| if wide { Row::new(&[n / 4, n]) } else { Row::new(&[n]) };
            for (key, rows) in parts {
                let validity = if self.random.chance(500) { ALWAYS } else { self.random.pick(self.universe.terms) };
                records.extend(rows.map(|n| Record { name: [key, CROWD, polarity], row: row(n), validity }));
            }
        }
        records
    }

    fn many(&mut self, count: usize) -> BTreeSet<Record> {
        let mut records = self.records(60);
        let mut n = 0;
        while records.len() < count {
            let name = [self.random.pick(self.universe.keys), n / 64, self.random.between(0, 1)];
            records.insert(Record { name, row: Row::new(&[n]), validity: self.random.pick(self.universe.terms) });
            n += 1;
        }
        records
    }

    /// Room for so many records, and often for more.
    fn room(&mut self, records: usize) -> usize {
        (1 + RECORD_WORDS * records).max(STORE_WORDS) + self.random.pick(&[0, 0, 9, 10, 4_000])
    }

    /// Full, or nearly so; sometimes fuller than it may be.
    fn full(&mut self) -> Vec<u32> {
        let count = MOST_CERTIFICATES - 3 + self.random.pick(&[0, 1, 2, 2, 3, 3, 3, 4, 403]);
        let (records, length) = (self.many(count), self.room(count));
        lay_out(&words_of(&records), length, &mut self.random)
    }

    pub fn sound_store(&mut self) -> Vec<u32> {
        let records = match self.random.below(20) {
            0 => BTreeSet::new(),
            1..=4 => self.crowd(),
            5 => self.many(MOST_CERTIFICATES),
            6..=9 => self.records(200),
            _ => self.records(40),
        };
        let longer = if self.random.chance(200) { self.random.below(20) } else { 0 };
        lay_out(&words_of(&records), STORE_WORDS + longer, &mut self.random)
    }

    pub fn store(&mut self) -> Vec<u32> {
        if self.random.chance(20) {
            return self.full();
        }
        let mut store = self.sound_store();
        if self.random.chance(150) {
            self.damage(&mut store);
        }
        store
    }

    fn damage(&mut self, store: &mut Vec<u32>) {
        let record = self.place_of_two(store, RECORD_WORDS);
        match self.random.below(9) {
            0 => {
                let first = store[record + 8];
                store[record + 9] = self.random.pick(&[first, first, first.saturating_sub(1), 0]);
            }
            1 | 2 => self.swap_terms(store),
            _ => self.damage_records(store, RECORD_WORDS, STORE_WORDS),
        }
    }

    /// Where a record stands that another one follows, if there is one.
    fn place_of_two(&mut self, store: &[u32], width: usize) -> usize {
        let count = store[0] as usize;
        if count > 1 {
            1 + width * self.random.below(count - 1)
        } else {
            1
        }
    }

    /// Of a store or a link store, whose records have so many words and which has at least so many.
    fn damage_records(&mut self, store: &mut Vec<u32>, width: usize, least: usize) {
        let (count, record) = (store[0] as usize, self.place_of_two(store, width));
        let word = if count > 0 { 1 + self.random.below(width * count) } else { 0 };
        let most = (least - 1) / width;
        match self.random.below(6) {
            0 => store.truncate(self.random.pick(&[least - 1, 0, 1, width - 1, least / 2])),
            1 => store[0] = self.random.pick(&[most as u32 + 1, u32::MAX, count as u32 + 1]),
            2 => store.copy_within(record..record + width, record + width), // the same twice
            3 => (0..width).for_each(|place| store.swap(record + place, record + width + place)),
            4 => store[word] = self.random.pick(&[0, 1, 2, 5, 65_536, u32::MAX]),
            _ => store[word] ^= 1 << self.random.below(32),
        }
    }

    /// Two records of one row change their places, where there are such.
    fn swap_terms(&mut self, store: &mut [u32]) {
        let count = store[0] as usize;
        let records = &mut store[1..].as_chunks_mut::<RECORD_WORDS>().0[..count];
        let of_one_row: Vec<usize> = (1..records.len()).filter(|&later| records[later - 1][..8] == records[later][..8]).collect();
        if !of_one_row.is_empty() {
            let later = self.random.pick(&of_one_row);
            records.swap(later - 1, later);
        }
    }

    // ---- links, link stores ----

    /// Sometimes from a name to itself.
    pub fn link(&mut self) -> Link {
        let first = self.name();
        let second = if self.random.chance(80) { first } else { self.name() };
        link_between(first, second)
    }

    /// A chain, a circle, a star or its reverse, or two ways from one name to another: over so many names of one polarity, in any order. All but a few of many
    /// names are of none of the certificates.
    fn shape(&mut self, count: u32) -> Vec<Link> {
        let polarity = self.random.between(0, 1);
        let far = count > 8;
        let mut names: Vec<Name> = (0..count).map(|n| if far && n % 40 > 0 { [self.some_key(), 100 + n, polarity] } else { self.name() }).collect();
        if far {
            self.random.shuffle(&mut names[1..]);
            names.push(self.name());
        }
        let (first, last) = (names[0], names[names.len() - 1]);
        let chain = names.windows(2).map(|pair| link_between(pair[0], pair[1]));
        let of_one_polarity = |link: Link| Link { polarity, ..link };
        match self.random.below(6) {
            0 | 1 => chain.map(of_one_polarity).collect(),
            2 => chain.chain([link_between(last, first)]).map(of_one_polarity).collect(),
            3 => names.iter().map(|name| of_one_polarity(link_between(first, *name))).collect(),
            4 => names.iter().map(|name| of_one_polarity(link_between(*name, first))).collect(),
            _ => names[1..].iter().take(100).flat_map(|way| [link_between(first, *way), link_between(*way, last)]).map(of_one_polarity).collect(),
        }
    }

    fn some_key(&mut self) -> u32 {
        self.random.pick(self.universe.keys)
    }

    fn other_key(&mut self) -> u32 {
        other_key(&mut self.random, self.universe, self.our_key)
    }

    /// The first key that is not ours.
    fn first_key(&self) -> u32 {
        if self.universe.keys[0] == self.our_key {
            self.universe.keys[1]
        } else {
            self.universe.keys[0]
        }
    }

    /// From the crowded name to the same name of another key, straight or by a third, and perhaps back.
    fn crowd_links(&mut self, polarity: u32) -> Vec<Link> {
        let [crowd, other] = [0, 1].map(|place| [self.universe.keys[place], CROWD, polarity]);
        let between = [self.some_key(), 100, polarity];
        let mut links =
            if self.random.chance(600) { vec![link_between(crowd, other)] } else { vec![link_between(crowd, between), link_between(between, other)] };
        links.extend(self.random.chance(300).then_some(link_between(other, crowd)));
        links
    }

    fn many_links(&mut self, count: usize) -> BTreeSet<Link> {
        let mut links: BTreeSet<Link> = (0..20).map(|_| self.link()).collect();
        while links.len() < count {
            let [key, other_key] = [self.some_key(), self.some_key()];
            let [name, other_name] = [self.random.between(0, 99), self.random.between(0, 99)];
            links.insert(Link { key, name, polarity: self.random.between(0, 1), other_key, other_name });
        }
        links
    }

    fn links_laid_out(&mut self, links: &BTreeSet<Link>, length: usize) -> Vec<u32> {
        let words: Vec<[u32; LINK_WORDS]> = links.iter().map(Link::words).collect();
        lay_out(&words, length, &mut self.random)
    }

    /// Full, or nearly so; sometimes fuller than it may be.
    fn full_links(&mut self) -> Vec<u32> {
        let count = MOST_LINKS - 3 + self.random.pick(&[0, 1, 2, 2, 3, 3, 3, 4]);
        let length = (1 + LINK_WORDS * count).max(LINKS_WORDS) + self.random.pick(&[0, 0, 4, 5, 100]);
        let links = self.many_links(count);
        self.links_laid_out(&links, length)
    }

    pub fn sound_links(&mut self) -> Vec<u32> {
        let mut links: Vec<Link> = match self.random.below(20) {
            0..=3 => Vec::new(),
            4..=9 => (0..self.random.between(1, 8)).map(|_| self.link()).collect(),
            10..=16 => (0..self.random.between(1, 3)).flat_map(|_| self.short_shape()).collect(),
            17 | 18 => {
                let count = self.random.between(9, 240);
                [self.shape(count), self.short_shape()].concat()
            }
            _ => self.many_links(MOST_LINKS).into_iter().collect(),
        };
        if links.len() <= MOST_LINKS - 6 && self.random.chance(400) {
            links.extend([0, 1].into_iter().flat_map(|polarity| self.crowd_links(polarity)));
        }
        let longer = if self.random.chance(200) { self.random.below(20) } else { 0 };
        self.links_laid_out(&links.into_iter().collect(), LINKS_WORDS + longer)
    }

    fn short_shape(&mut self) -> Vec<Link> {
        let count = self.random.between(2, 5);
        self.shape(count)
    }

    pub fn links(&mut self) -> Vec<u32> {
        let mut links = self.sound_links();
        if self.random.chance(120) {
            self.damage_records(&mut links, LINK_WORDS, LINKS_WORDS);
        }
        links
    }

    // ---- filings ----

    pub fn filings(&mut self) -> Filings {
        let Stores { mut store, mut links } = empty_stores(&mut self.random);
        match self.random.below(20) {
            0 => store = self.store(),
            1 => store = self.full(),
            2 => {
                store = self.sound_store();
                self.damage(&mut store);
            }
            _ => {}
        }
        match self.random.below(20) {
            0 => links = self.links(),
            1 => links = self.full_links(),
            2 => {
                links = self.sound_links();
                self.damage_records(&mut links, LINK_WORDS, LINKS_WORDS);
            }
            _ => {}
        }
        let mut filed: Vec<(Kind, Vec<u32>)> = Vec::new();
        for _ in 0..self.random.between(1, 32) {
            let kind = self.random.pick(&[Kind::Certificate, Kind::Link]);
            let earlier =
                |filed: &[(Kind, Vec<u32>)]| filed.iter().filter(|(other, _)| *other == kind).map(|(_, words)| words.clone()).collect::<Vec<_>>();
            let words = match kind {
                Kind::Certificate => self.certificate_filed(&store, &earlier(&filed)),
                Kind::Link => self.link_filed(&links, &earlier(&filed)),
            };
            filed.push((kind, words));
        }
        Filings { stores: Stores { store, links }, filed }
    }

    /// Words that are there already: in the store, whose records have so many words, or among those filed earlier.
    fn met_before(&mut self, store: &[u32], width: usize, earlier: &[Vec<u32>]) -> Option<Vec<u32>> {
        let records = store.len().saturating_sub(1) / width;
        if records > 0 && self.random.chance(150) {
            let start = 1 + width * self.random.below(records.min(store[0] as usize).max(1));
            return Some(store[start..start + width].to_vec());
        }
        let again = !earlier.is_empty() && self.random.chance(250);
        again.then(|| earlier[self.random.below(earlier.len())].clone())
    }

    /// Words to file: mostly sound, often there already, perhaps with another term, sometimes any at all.
    fn certificate_filed(&mut self, store: &[u32], earlier: &[Vec<u32>]) -> Vec<u32> {
        let mut words = self.record().words().to_vec();
        words = self.met_before(store, RECORD_WORDS, earlier).unwrap_or(words);
        if words.len() == RECORD_WORDS && self.random.chance(300) {
            let Validity { first, end } = self.another_term(term(words[8], words[9]));
            words[8..].copy_from_slice(&[first, end]);
        }
        if self.random.chance(200) {
            self.mutate(&mut words);
        }
        words
    }

    /// The same of links: perhaps with the other polarity, or the other way round.
    fn link_filed(&mut self, links: &[u32], earlier: &[Vec<u32>]) -> Vec<u32> {
        let mut words = self.link().words().to_vec();
        words = self.met_before(links, LINK_WORDS, earlier).unwrap_or(words);
        if let &[key, name, polarity, other_key, other_name] = words.as_slice() {
            match self.random.below(10) {
                0 => words = vec![key, name, polarity ^ 1, other_key, other_name],
                1 => words = vec![other_key, other_name, polarity, key, name],
                _ => {}
            }
        }
        if self.random.chance(200) {
            self.mutate(&mut words);
        }
        words
    }

    /// Often with one of the same edges, sometimes with an end that is not after the first minute.
    fn another_term(&mut self, Validity { first, end }: Validity) -> Validity {
        let other = self.random.pick(self.universe.terms);
        match self.random.below(10) {
            0 => term(first, first),
            1 => term(end, first),
            2 => term(first, first.saturating_sub(1)),
            3 => term(first, other.end),
            4 => term(other.first, end),
            _ => other,
        }
    }

    // ---- minutes and dates ----

    /// Mostly at the edge of a term.
    pub fn minute(&mut self) -> u32 {
        let Validity { first, end } = self.random.pick(self.universe.terms);
        match self.random.below(16) {
            0..=4 => first,
            5..=9 => end - 1,
            10..=12 => end,
            13 => first.saturating_sub(1),
            14 => self.random.pick(&[0, u32::MAX]),
            _ => self.random.word(),
        }
    }

    /// Mostly one that exists, often at the end of a month; sometimes one of its words is just outside its rule, or far from it.
    fn date(&mut self) -> Date {
        let year = if self.random.chance(300) { self.random.pick(&[2_000, 2_000, 2_001, 2_004, 2_096, 2_099]) } else { self.year() };
        let day = if self.random.chance(400) { self.random.between(28, 31) } else { self.random.between(1, 28) };
        let [hour, minute] = if self.random.chance(300) { self.random.pick(&[[0, 0], [23, 59]]) } else { [self.hour(), self.random.between(0, 59)] };
        let mut date = [year, self.random.between(1, 12), day, hour, minute];
        if self.random.chance(250) {
            let odd: [&[u32]; 5] = [
                &[1_999, 2_100, 0, 100, 67_536, u32::MAX],
                &[0, 13, 257, u32::MAX],
                &[0, 32, 257, u32::MAX],
                &[24, 256, u32::MAX],
                &[60, 256, u32::MAX],
            ];
            let place = self.random.below(5);
            date[place] = self.random.pick(odd[place]);
        }
        date
    }

    fn year(&mut self) -> u32 {
        self.random.between(FIRST_YEAR, LAST_YEAR)
    }

    fn hour(&mut self) -> u32 {
        self.random.between(0, 23)
    }

    /// Often at the edge of a month or of the last year.
    fn minutes(&mut self) -> u32 {
        match self.random.below(10) {
            0 => DATED_MINUTES - 2 + self.random.between(0, 3),
            1 => self.random.word(),
            2..=5 => {
                let month = [self.year(), self.random.between(1, 12), 1, 0, 0];
                let first = Evaluator::default().minutes(month).expect("it exists");
                first.wrapping_add(self.random.pick(&[0, 1, 1_439, 1_440])).wrapping_sub(self.random.pick(&[0, 0, 1, 1_440]))
            }
            _ => self.random.below(DATED_MINUTES as usize) as u32,
        }
    }

    // ---- policies and queries ----

    /// Mostly a key that others use too, sometimes one that nobody uses.
    fn take_our_key(&mut self) {
        let unused = self.random.chance(100);
        self.our_key = if unused { self.random.pick(&[key(0), key(0), key(9), u32::MAX]) } else { self.random.pick(self.universe.our_keys) };
    }

    pub fn case(&mut self) -> Case {
        self.take_our_key();
        if self.random.chance(2) {
            return if self.random.chance(700) { self.many_draws_made() } else { self.many_draws_of_two_widths() };
        }
        if self.random.chance(60) {
            return self.one_list();
        }
        if self.random.chance(60) {
            let format = self.format();
            let (policy, query) = self.one_draw(format);
            return self.asked(policy, query);
        }
        if self.random.chance(150) {
            let format = self.format();
            let (policy, mut query) = self.own_names(format, 200);
            if self.random.chance(60) {
                self.mutate(&mut query);
            }
            return self.asked(policy, query);
        }
        let (policy, declared) = if self.random.chance(250) { self.external_policy() } else { self.policy() };
        let query = self.query(&declared);
        self.asked(policy, query)
    }

    /// One name, often the crowded one, in each place that lists are read at: by itself, vetted while one key is compromised, under an absent guard, and drawn
    /// from with a variable issuer, which may hold our key.
    fn one_list(&mut self) -> Case {
        let polarity = self.random.between(0, 1);
        let [key, name] = if self.random.chance(400) { [self.first_key(), CROWD] } else { [self.other_key(), self.random.pick(self.universe.names)] };
        let held = if self.random.chance(300) { self.our_key } else { key };
        let (list, atom) = ([4, 0, key, name, polarity], self.random.pick(self.universe.atoms));
        let listed = if self.random.chance(600) { key } else { self.some_key() };
        let compromised = (COMPROMISED, 1, self.compromised(listed));
        let (definitions, query) = match self.random.below(4) {
            0 => (vec![], list.to_vec()),
            1 => (vec![compromised], vec![8, 0, key, name, 0, 0]),
            2 => (vec![], [&[7, 1, 4, 1, 0, atom], &list[..], &[1, 0, atom]].concat()),
            _ => (vec![], draws_from(&[vec![1, 1, 1, 0, held], vec![4, 1, 0, name, 0]], &[1, 1, 1])),
        };
        let format = self.format();
        self.asked(assemble(format, &definitions), query)
    }

    /// Definitions and a query with own names; each name is wrong in so many of a thousand cases. Often definition 0 lists compromised keys, and ours among them.
    fn own_names(&mut self, format: u32, wrong: u32) -> (Vec<u32>, Vec<u32>) {
        let count = self.random.between(1, 4);
        let mut entries = self.entries(count);
        let mut definitions: Vec<Definition> = Vec::new();
        if self.random.chance(400) {
            let listed = if self.random.chance(500) { self.our_key } else { self.some_key() };
            definitions.push((10, 1, self.compromised(listed)));
            entries[0] = (10, 1);
        }
        for (d, &(name, polarity)) in entries.iter().enumerate().skip(definitions.len()) {
            let available = self.declared(&definitions);
            let mut writer = self.writer(&available, &entries);
            if d > 0 && writer.random.chance(500) || writer.random.chance(wrong / 4) {
                writer.with_own_name(polarity, wrong);
            } else {
                writer.without_own_names(polarity);
            }
            definitions.push((name, polarity, writer.words));
        }
        let available = self.declared(&definitions);
        let mut writer = self.writer(&available, &entries);
        let polarity = writer.random.between(0, 1);
        writer.with_own_name(polarity, wrong);
        (assemble(format, &definitions), writer.words)
    }

    fn writer<'a>(&'a mut self, available: &'a [Declared], entries: &'a [(u32, u32)]) -> Writer<'a> {
        Writer::new(&mut self.random, self.universe, Place { available, entries, our_key: self.our_key, external: false })
    }

    /// With the openness that they have. Where one is refused, all behind it are too, and it does not matter.
    fn declared(&self, definitions: &[Definition]) -> Vec<Declared> {
        let judged = Evaluator::default().judge(&assemble(1, definitions), &[1, 0], self.our_key);
        let open = |d: usize| judged.as_ref().is_ok_and(|judged| judged.definitions[d].open);
        definitions.iter().enumerate().map(|(d, &(name, polarity, _))| Declared { name, polarity, open: open(d) }).collect()
    }

    /// Names and polarities of so many definitions, which differ: mostly names that certificates are filed under.
    fn entries(&mut self, count: u32) -> Vec<(u32, u32)> {
        let mut entries: Vec<(u32, u32)> = Vec::new();
        for d in 0..count {
            let polarity = self.random.between(0, 1);
            let name = self.random.pick(self.universe.names);
            let taken = entries.contains(&(name, polarity)) || self.random.chance(100);
            entries.push((if taken { 10 + d } else { name }, polarity));
        }
        entries
    }

    /// The key by itself, or a row that begins with it: that one, all but that one, or what is drawn from it, which is the key by itself in format 2.
    fn compromised(&mut self, key: u32) -> Vec<u32> {
        let atom = self.random.pick(self.universe.atoms);
        match self.random.below(5) {
            0 => vec![1, 1, 2, 0, key, 0, atom],
            1 => vec![2, 1, 2, 0, key, 0, atom],
            2 => vec![7, 1, 1, 1, 1, 2, 0, key, 0, atom, 1, 2, 0, 1, 1, 0],
            _ => vec![1, 1, 1, 0, key],
        }
    }

    /// One draw in the query, in a definition, or in a query that may draw from such a definition.
    fn one_draw(&mut self, format: u32) -> (Vec<u32>, Vec<u32>) {
        let first = self.drawn(&[]);
        let name = self.random.pick(&[1, 2, 10]);
        match self.random.below(5) {
            0 | 1 => (assemble(format, &[]), first),
            2 => (assemble(format, &[(name, 0, first)]), vec![3, 0]),
            3 => (assemble(format, &[(name, 0, first)]), vec![4, 0, self.our_key, name, 0]),
            _ => (assemble(format, &[(name, 0, first)]), self.drawn(&[Declared { name, polarity: 0, open: false }])),
        }
    }

    fn drawn(&mut self, declared: &[Declared]) -> Vec<u32> {
        let mut writer = self.writer(declared, &[]);
        writer.one_draw();
        writer.words
    }

    /// 1 or 2, now and then a word that is no format.
    fn format(&mut self) -> u32 {
        if self.random.chance(15) {
            self.random.pick(&[0, 0, 3, 3, 4, 257, 258, key(1), u32::MAX])
        } else {
            self.sound_format()
        }
    }

    fn sound_format(&mut self) -> u32 {
        self.random.pick(&Format::BOTH) as u32
    }

    /// Under the key that policy and query were written for; sometimes under another one, or under a number.
    fn asked(&mut self, policy: Vec<u32>, query: Vec<u32>) -> Case {
        let our_key = match self.random.below(80) {
            0 | 1 => self.random.pick(&[0, 0, 1, 5, FIRST_KEY - 1, FIRST_KEY - 1]),
            2 => self.some_key(),
            _ => self.our_key,
        };
        let number = if self.random.chance(900) { self.random.between(0, 18) } else { self.random.word() };
        let name = self.name();
        let rewriting_area = self.rewriting_area(&policy, our_key);
        let (minute, areas) = (self.minute(), self.areas());
        Case { policy, query, our_key, minute, areas, rewriting_area, number, name, date: self.date(), minutes: self.minutes() }
    }

    /// Often just the output's length, or one word less; sometimes as long as the input.
    fn rewriting_area(&mut self, policy: &[u32], our_key: u32) -> usize {
        let needed = rewritten(policy, our_key).map_or(policy.len(), |output| output.len());
        match self.random.below(10) {
            0..=3 => needed,
            4..=6 => needed + self.random.below(20),
            7 => needed.saturating_sub(1),
            8 => policy.len(),
            _ => self.random.below(needed + 1),
        }
    }

    /// A policy and a query over this universe alone, without damage.
    pub fn sound_pair(&mut self) -> Pair {
        self.take_our_key();
        let format = self.sound_format();
        let (policy, query) = match self.random.below(20) {
            0 => {
                let (key, name, listed) = (self.other_key(), self.random.pick(self.universe.names), self.some_key());
                (assemble(format, &[(COMPROMISED, 1, self.compromised(listed))]), vec![8, 0, key, name, 0, 0])
            }
            1..=5 => self.one_draw(format),
            6..=10 => self.own_names(format, 20),
            _ => {
                let count = self.random.between(0, 2);
                let (definitions, declared) = self.definitions(count, 0);
                (assemble(format, &definitions), self.query_over(&declared))
            }
        };
        Pair { policy, query, our_key: self.our_key }
    }

    /// The same with an external policy that lists compromised keys, often ours; the query is for the rewritten one.
    pub fn external_pair(&mut self) -> Pair {
        self.take_our_key();
        let entries = [(COMPROMISED, 1), (1, 0), (2, 0)];
        let count = self.random.pick(&[2, 3, 3]);
        let (mut definitions, mut declared) = self.external_definitions(&entries[..count], None);
        if self.random.chance(350) {
            let listed = if self.random.chance(400) { self.our_key } else { self.some_key() };
            definitions[0].2 = self.compromised(listed);
            declared[0].open = true;
        }
        if count == 3 && self.random.chance(500) {
            let place = Place { available: &declared[..2], entries: &entries, our_key: self.our_key, external: true };
            let mut writer = Writer::new(&mut self.random, self.universe, place);
            writer.with_own_name(0, 20);
            definitions[2].2 = writer.words;
            declared[2].open = true;
        }
        Pair { policy: assemble(self.sound_format(), &definitions), query: self.query_over(&declared), our_key: self.our_key }
    }

    fn query_over(&mut self, declared: &[Declared]) -> Vec<u32> {
        let want = Want::any(&mut self.random);
        self.expression(want, Place { available: declared, entries: &[], our_key: self.our_key, external: false })
    }

    fn areas(&mut self) -> Areas {
        let mut areas = Areas::LEAST;
        let spare = if self.random.chance(300) { self.random.below(30) } else { 0 };
        areas.answer += spare;
        areas.definitions += spare;
        areas.scratch += spare;
        if self.random.chance(30) {
            let area = match self.random.below(3) {
                0 => &mut areas.answer,
                1 => &mut areas.definitions,
                _ => &mut areas.scratch,
            };
            *area -= self.random.pick(&[spare + 1, spare + 200, *area]);
        }
        areas
    }

    fn expression(&mut self, want: Want, place: Place) -> Vec<u32> {
        let mut writer = Writer::new(&mut self.random, self.universe, place);
        writer.expression(want, 1);
        writer.words
    }

    /// Definitions that use earlier ones; each is damaged in so many of a thousand cases.
    fn definitions(&mut self, count: u32, damaged: u32) -> (Vec<Definition>, Vec<Declared>) {
        let mut definitions = Vec::new();
        let mut declared = Vec::new();
        let entries = self.entries(count);
        for &(name, polarity) in &entries {
            let closed = self.random.chance(500);
            let want = Want { closed, ..Want::polarity(polarity) };
            let mut words = self.expression(want, Place { available: &declared, entries: &entries, our_key: self.our_key, external: false });
            if self.random.chance(damaged) {
                words = if self.random.chance(300) { self.near_a_limit() } else { words };
                self.mutate(&mut words);
            }
            words.resize(words.len().max(1), 0);
            definitions.push((name, polarity, words));
            declared.push(Declared { name, polarity, open: !closed });
        }
        (definitions, declared)
    }

    fn policy(&mut self) -> (Vec<u32>, Vec<Declared>) {
        let count = if self.random.chance(20) { self.random.between(14, 17) } else { self.random.pick(&[0, 0, 1, 1, 1, 2, 2, 3, 4]) };
        if self.random.chance(3) {
            return (self.long_policy(), Vec::new());
        }
        let (mut definitions, declared) = self.definitions(count, 40);
        if count > 0 && self.random.chance(20) {
            let unlike = self.random.below(count as usize);
            definitions[unlike].0 = self.random.pick(&[definitions[0].0, definitions[0].0, LAST_NAME, LAST_NAME + 1]);
        }
        let mut words = assemble(self.format(), &definitions);
        // Where the format is none, which of 1 and 2 comes first is to be seen.
        let damaged = if Format::from_word(words[0]).is_some() { 60 } else { 500 };
        if self.random.chance(damaged) {
            self.damage_table(&mut words, count as usize);
        }
        (words, declared)
    }

    // ---- external policies ----

    /// Mostly external; or it breaks a rule, is damaged, or is rewritten already.
    fn external_policy(&mut self) -> (Vec<u32>, Vec<Declared>) {
        if self.random.chance(12) {
            return (self.long_output(), Vec::new());
        }
        let count = self.random.pick(&[0, 1, 1, 1, 2, 2, 3, 4]);
        // Names that certificates are filed under come first.
        let mut entries: Vec<(u32, u32)> = [1, 2, 10, 11][..count].iter().map(|name| (*name, 0)).collect();
        self.random.shuffle(&mut entries);
        match self.random.below(10) {
            0 => {}
            1 => entries.insert(0, (COMPROMISED, 0)), // an ordinary name
            _ => entries.insert(0, (COMPROMISED, 1)),
        }
        let rule = if self.random.chance(350) { self.random.between(1, 7) } else { 0 };
        match rule {
            1 => entries.push((20, 1)),
            2 => entries.insert(0, (21, 0)), // another one is definition 0
            3 if !entries.is_empty() => entries[0] = (22, 1),
            _ => {}
        }
        let chosen = self.random.below(entries.len().max(1));
        let (mut definitions, declared) = self.external_definitions(&entries, (rule == 4).then_some(chosen));
        if let Some((_, polarity, words)) = definitions.get_mut(chosen) {
            if *polarity == 0 && self.random.chance(120) {
                *words = self.deep_lists();
            }
            let vetted = [8, 0, self.first_key(), 1, 0, 0];
            match rule {
                5 => *words = [&[6], &words[..], &[1, 0]].concat(),
                6 => *words = [&[5], &words[..], &[7, 1, 4, 1, 0, 7, 1, 0, 1, 0, 7]].concat(), // an absent guard alone
                7 if chosen > 0 => *words = [&[5], &words[..], &vetted].concat(),
                _ => {}
            }
            if self.random.chance(60) {
                self.mutate(words);
                words.resize(words.len().max(1), 0);
            }
        }
        let words = assemble(self.format(), &definitions);
        match rewritten(&words, self.our_key) {
            Ok(output) if self.random.chance(400) => (output, declared),
            _ => (words, declared),
        }
    }

    /// Definitions of these names and polarities, by the external rules but for one.
    fn external_definitions(&mut self, entries: &[(u32, u32)], by_none: Option<usize>) -> (Vec<Definition>, Vec<Declared>) {
        let mut definitions = Vec::new();
        let mut declared = Vec::new();
        for (d, &(name, polarity)) in entries.iter().enumerate() {
            let closed = self.random.chance(500);
            let want = Want { closed, ..Want::polarity(polarity) };
            let place = Place { available: &declared, entries, our_key: self.our_key, external: by_none != Some(d) };
            definitions.push((name, polarity, self.expression(want, place)));
            declared.push(Declared { name, polarity, open: !closed });
        }
        (definitions, declared)
    }

    /// Lists under unions and draws, the innermost at depth 14 to 16.
    fn deep_lists(&mut self) -> Vec<u32> {
        let mut words = Vec::new();
        let mut after: Vec<u32> = Vec::new();
        let list = [4, 0, self.first_key(), 1, 0];
        for _ in 0..self.random.between(13, 15) {
            match self.random.below(5) {
                0 => words.extend([&[5], &list[..]].concat()),
                1 => {
                    words.extend([7, 1, 1]);
                    after.splice(0..0, [1, 0, 7, 1, 0, 7]);
                }
                _ => {
                    words.push(5);
                    after.splice(0..0, list);
                }
            }
        }
        [words, list.to_vec(), after].concat()
    }

    /// An external policy with an output of 8,190 to 8,194 words.
    fn long_output(&mut self) -> Vec<u32> {
        let lists = 180;
        let mut definitions = Vec::new();
        for name in 1..7 {
            let mut list = || {
                if name > 1 && self.random.chance(100) {
                    vec![4, 0, self.our_key, self.random.between(1, name - 1), 0]
                } else {
                    vec![4, 0, self.other_key(), self.random.between(0, 9), 0]
                }
            };
            let parts: Vec<Vec<u32>> = (0..lists).map(|_| list()).collect();
            definitions.push((name, 0, united(&parts)));
        }
        // With its union a list takes six words, and seven when it is vetted.
        let rest = MOST_POLICY_WORDS - (2 + 4 * 7) - 6 * (7 * lists - 1);
        let compromised = literal_of(rest - 2 + self.random.below(5));
        definitions.insert(0, (COMPROMISED, 1, compromised));
        assemble(self.sound_format(), &definitions)
    }

    /// Of 8,190 to 8,194 words.
    fn long_policy(&mut self) -> Vec<u32> {
        let mut parts = vec![1_154; 7];
        parts.push(self.random.between(78, 82) as usize);
        let definitions: Vec<_> = (0..).zip(parts).map(|(name, length)| (name, 0, literal_of(length))).collect();
        assemble(self.sound_format(), &definitions)
    }

    fn damage_table(&mut self, words: &mut Vec<u32>, count: usize) {
        let table = 2 + 4 * count;
        match self.random.below(4) {
            0 => self.mutate(words),
            1 if count > 1 => {
                // The sum wraps to a word of the policy, and the next part goes on from there.
                let end = self.random.below(words.len()) as u32;
                words[5] = end.wrapping_sub(words[4]);
                words[8] = end;
                words[9] = words[12.min(words.len() - 1)].wrapping_sub(end);
                if count == 2 {
                    words[9] = words.len() as u32 - end;
                }
            }
            2 => words.truncate(self.random.below(table + 1)),
            _ => {
                let place = self.random.below(table);
                words[place] = self.odd_word(words[place]);
            }
        }
    }

    fn query(&mut self, declared: &[Declared]) -> Vec<u32> {
        let mut words = match self.random.below(100) {
            0..=11 => self.near_a_limit(),
            12..=13 if !declared.is_empty() => {
                let number = self.random.below(declared.len());
                let Declared { name, polarity, .. } = declared[number];
                if self.random.chance(500) {
                    vec![3, number as u32]
                } else {
                    vec![4, 0, self.our_key, name, polarity]
                }
            }
            14 => literal_of(self.random.between(1_022, 1_026) as usize),
            15..=17 => {
                let polarity = self.random.between(0, 1);
                vec![4, 0, self.first_key(), CROWD, polarity]
            }
            18..=20 if declared.first().is_some_and(|first| first.polarity == 1) => vec![8, 0, self.first_key(), CROWD, 0, 0],
            // By any definition, or by one that is not there.
            21..=22 => {
                let [polarity, definition] = [self.random.pick(&[0, 0, 1]), self.random.between(0, declared.len() as u32)];
                vec![8, 0, self.first_key(), 1, polarity, definition]
            }
            // It has no polarity, and sometimes words are left over.
            23 => {
                let list = [4, 0, self.first_key(), 1, 0];
                let left_over = self.random.pick(&[&[][..], &[0]]);
                [&[6], &list[..], &list, left_over].concat()
            }
            // A lower complement.
            24 => {
                let (key, name) = (self.other_key(), self.random.pick(self.universe.names));
                let atoms = [0; 2].map(|_| self.random.pick(self.universe.atoms));
                vec![5, 2, 2, 1, 0, atoms[0], 2, 0, atoms[0], 0, atoms[1], 4, 0, key, name, 0]
            }
            _ => self.query_over(declared),
        };
        if self.random.chance(150) {
            self.mutate(&mut words);
        }
        words
    }

    // ---- limits ----

    /// An expression just under, at or over one of document 01's limits.
    fn near_a_limit(&mut self) -> Vec<u32> {
        match self.random.below(9) {
            0 => self.deep(),
            1 => self.many_draws_written(),
            2 => self.many_variables(),
            3 => self.joined(5, 1, 1),
            4 => self.joined(6, 2, 1),
            5 => self.joined(5, 2, 1),
            6 => self.joined(6, 2, 2),
            7 => self.joined(5, 2, 2),
            _ => self.product(),
        }
    }

    /// Operands at depth 14 to 17.
    fn deep(&mut self) -> Vec<u32> {
        let mut words = Vec::new();
        let mut after: Vec<u32> = Vec::new();
        for _ in 0..self.random.between(13, 16) {
            match self.random.below(4) {
                0 => words.extend([5, 1, 0]),
                1 => words.extend([6, 2, 0]),
                2 => {
                    words.push(5);
                    after.splice(0..0, [1, 1, 1, 0, 7]);
                }
                _ => {
                    words.extend([7, 1, 4, 1, 0, 7]);
                    after.splice(0..0, [1, 0, 7]);
                }
            }
        }
        words.extend(self.random.pick(&[[1, 0], [2, 0], [9, 0], [7, 9], [4, 0], [8, 0]]));
        words.extend(after);
        words
    }

    /// Seven to nine draws, some in one of the others.
    fn many_draws_written(&mut self) -> Vec<u32> {
        let all = self.random.between(7, 9);
        let inner = self.random.between(1, 3);
        let draw = [1, 1, 1, 1, 0, 7, 1, 0, 7];
        let nested = [vec![7, inner], draw.repeat(inner as usize), vec![1, 0, 7]].concat();
        let outer = all - inner;
        let first = [vec![1], nested, vec![1, 0, 7]].concat();
        [vec![7, outer], first, draw.repeat(outer as usize - 1), vec![1, 0, 7]].concat()
    }

    /// Fifteen to seventeen variables, four in a draw.
    fn many_variables(&mut self) -> Vec<u32> {
        let count = self.random.between(15, 17);
        let mut words = vec![7, count.div_ceil(4)];
        for first in (0..count).step_by(4) {
            let width = (count - first).min(4);
            words.extend([1, 1, 1, width]);
            words.extend([0, 7].repeat(width as usize));
            words.push(width);
            words.extend((first..first + width).flat_map(|variable| [2, variable]));
        }
        words.extend([2, 1, count - 1, 1, self.random.between(14, 17)]);
        words
    }

    /// Two literals of about 128 rows together, which share some.
    fn joined(&mut self, code: u32, left: u32, right: u32) -> Vec<u32> {
        let (a, b) = (self.random.between(60, 128), self.random.between(1, 60));
        let first = self.random.pick(&[a, a - 1, a - 20, 128u32.saturating_sub(b), 129 - b]);
        [vec![code], numbers(left, 0, a), numbers(right, first, b)].concat()
    }

    /// About 128 different rows from two draws.
    fn product(&mut self) -> Vec<u32> {
        let (a, b) = self.random.pick(&[(8, 16), (16, 8), (3, 43), (43, 3), (11, 12), (1, 128)]);
        draws_from(&[numbers(1, 0, a), numbers(1, 0, b)], &[2, 1, 0, 1, 1])
    }

    /// About 1,000,000 draws, in one part or two.
    fn many_draws_made(&mut self) -> Case {
        let sizes = self.random.pick(&[[100, 100, 98], [100, 99, 100], [99, 100, 100], [100, 100, 100], [100, 100, 100]]);
        let head = self.random.pick(&[[1, 0, 7], [1, 1, 1], [1, 1, 1]]);
        let sources = sizes.map(|size| numbers(1, 0, size));
        let comprehension = draws_from(&sources, &head);
        let part = if self.random.chance(500) { [vec![5], numbers(1, 1_000, 100), comprehension].concat() } else { comprehension };
        let policy = assemble(self.sound_format(), &[(1, 0, part), (2, 0, numbers(1, 0, 1))]);
        let own = [4, 0, self.our_key, 1, 0];
        let query = self.random.pick(&[&[3, 0][..], &own, &[1, 0], &[7, 1, 1, 3, 1, 1, 2, 0, 1, 1, 0]]).to_vec();
        self.asked(policy, query)
    }

    /// 201 draws are left to the query, which draws rows of one atom and of two and matches those of one width, or in format 2 perhaps all. Where the others lie
    /// decides whether its 129th head (13) comes before the draws are made (14).
    fn many_draws_of_two_widths(&mut self) -> Case {
        let policy = assemble(self.sound_format(), &[(1, 0, draws_from(&[101, 98, 100].map(|size| numbers(1, 0, size)), &[1, 0, 7]))]);
        let pairs = self.random.pick(&[2, 40, 100, 126]);
        let mut mixed = numbers(1, 0, 128 - pairs);
        mixed[1] = 128;
        mixed.extend((0..pairs).flat_map(|n| [2, 0, 0, 0, n]));
        let second = [vec![1], numbers(1, 0, 100)].concat();
        let query = if self.random.chance(500) {
            [vec![7, 2, 1], mixed, vec![1, 2, 0], second, vec![1, 2, 1], vec![2, 1, 0, 1, 1]].concat()
        } else {
            [vec![7, 2, 1], mixed, vec![2, 2, 0, 2, 1], second, vec![1, 2, 2], vec![3, 1, 0, 1, 1, 1, 2]].concat()
        };
        self.asked(policy, query)
    }

    // ---- mutations ----

    fn odd_word(&mut self, word: u32) -> u32 {
        match self.random.below(8) {
            0..=2 => self.random.between(0, 9),
            3 => word.wrapping_add(1),
            4 => word.wrapping_sub(1),
            5 => self.random.pick(&[16, 17, 127, 128, 129, 65_535, 65_536, key(0), key(0) - 1, u32::MAX]),
            6 => word ^ (1 << self.random.below(32)),
            _ => self.random.word(),
        }
    }

    /// Mostly one change, so that the rest is still read; two, to see which fault is met first.
    fn mutate(&mut self, words: &mut Vec<u32>) {
        self.change(words);
        if self.random.chance(300) {
            self.change(words);
        }
    }

    fn change(&mut self, words: &mut Vec<u32>) {
        let place = self.random.below(words.len().max(1));
        match self.random.below(10) {
            0 => words.truncate(place),
            1 => words.extend([0, 1, 7][..self.random.between(1, 3) as usize].iter()),
            2 if !words.is_empty() => drop(words.remove(place)),
            3 => {
                let word = self.odd_word(0);
                words.insert(place.min(words.len()), word);
            }
            _ if words.is_empty() => words.push(1),
            _ => words[place] = self.odd_word(words[place]),
        }
    }
}

#[cfg(test)]
mod tests {
    use super::*;
    use crate::evaluator::Question;

    #[test]
    fn literals_have_the_length_asked_for() {
        for length in [2, 5, 7, 8, 78, 82, 1_022, 1_026, 1_154] {
            assert_eq!(literal_of(length).len(), length);
        }
    }

    #[test]
    fn sound_stores_are_sound() {
        let mut generator = Generator::new(1, &PORTAL);
        for _ in 0..300 {
            assert!(Evaluator::default().certificates(&generator.sound_store()).is_some());
            assert!(Evaluator::default().links(&generator.sound_links()).is_some());
        }
    }

    #[test]
    fn most_dates_exist_and_many_do_not() {
        let mut generator = Generator::new(1, &PORTAL);
        let count = (0..1_000).filter(|_| Evaluator::default().minutes(generator.date()).is_ok()).count();
        assert!((600..900).contains(&count), "{count}");
        let count = (0..1_000).filter(|_| Evaluator::default().date(generator.minutes()).is_ok()).count();
        assert!((800..950).contains(&count), "{count}");
    }

    #[test]
    fn external_pairs_are_mostly_rewritten_and_the_output_passes() {
        let mut generator = Generator::new(1, &PORTAL);
        let mut outputs = 0;
        for Pair { policy, our_key, .. } in (0..1_000).map(|_| generator.external_pair()) {
            let Ok(output) = rewritten(&policy, our_key) else { continue };
            assert!(Evaluator::default().judge(&output, &[1, 0], our_key).is_ok(), "{output:?}");
            outputs += 1;
        }
        assert!(outputs > 700, "{outputs}");
    }

    #[test]
    fn long_outputs_have_the_length_asked_for() {
        let mut generator = Generator::new(1, &PORTAL);
        let mut length = || rewritten(&generator.long_output(), generator.our_key).ok().map(|output| output.len());
        let outputs: BTreeSet<Option<usize>> = (0..100).map(|_| length()).collect();
        assert_eq!(outputs, BTreeSet::from([None, Some(8_190), Some(8_191), Some(8_192)]));
    }

    #[test]
    fn sound_pairs_are_mostly_answered() {
        let mut generator = Generator::new(1, &PORTAL);
        let (store, links) = (generator.sound_store(), generator.sound_links());
        let mut own_names = 0;
        let mut answered = || {
            let Pair { policy, query, our_key } = generator.sound_pair();
            let judged = Evaluator::default().judge(&policy, &query, our_key);
            own_names += judged.is_ok_and(|judged| judged.own_names() > 0) as u32;
            let question = Question { policy: &policy, query: &query, our_key, minute: 10 };
            Evaluator::default().query(question, &store, &links, Areas::LEAST).is_ok()
        };
        let count = (0..1_000).filter(|_| answered()).count();
        assert!(count > 700 && own_names > 200, "{count} {own_names}");
    }
}
