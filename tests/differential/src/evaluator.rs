//! Document 01, with document 02's N1 to N7, as a plain program, section by section, to be read with the documents beside it.
//!
//! It is slow and short on purpose: sets are `BTreeSet`s, words are parsed by recursive descent, and nothing is shared with the engine it is compared with.
//! Places marked `planted`, and calls of [`faults`], are mistakes that are made only when asked for; without a [`Fault`] they do nothing.

use crate::faults::{self, Asked, Fault};
use crate::numbers::*;
use std::collections::{BTreeMap, BTreeSet};
use std::ops::{Range, RangeInclusive};

// ---- Rows, sets ----

/// kN.
pub const fn key(n: u32) -> u32 {
    FIRST_KEY + n
}

pub fn is_key(atom: u32) -> bool {
    atom >= FIRST_KEY
}

/// Unused atoms are 0, so that the derived order is document 02's, N1: atom by atom, and where one row ends and the other goes on, the shorter comes first.
#[derive(Clone, Copy, PartialEq, Eq, PartialOrd, Ord, Debug)]
pub struct Row {
    pub atoms: [u32; MOST_WIDTH as usize],
    pub width: u32,
}

impl Row {
    pub fn new(atoms: &[u32]) -> Row {
        let mut row = Row { atoms: [0; MOST_WIDTH as usize], width: atoms.len() as u32 };
        row.atoms[..atoms.len()].copy_from_slice(atoms);
        row
    }

    /// Width and four atoms, if the width and the unused atoms keep the rules.
    pub fn from_words(words: &[u32]) -> Option<Row> {
        let &[width, a, b, c, d] = words else { return None };
        let row = Row { atoms: [a, b, c, d], width };
        let sound = (1..=MOST_WIDTH).contains(&width) && row.atoms[width as usize..].iter().all(|&atom| atom == 0);
        sound.then_some(row)
    }

    pub fn words(&self) -> [u32; ROW_WORDS] {
        let [a, b, c, d] = self.atoms;
        [self.width, a, b, c, d]
    }

    pub fn used(&self) -> &[u32] {
        &self.atoms[..self.width as usize]
    }
}

#[derive(Clone, PartialEq, Eq, Debug)]
pub enum Set {
    Finite(BTreeSet<Row>),
    /// All rows but these.
    Complement(BTreeSet<Row>),
}

impl Set {
    pub fn listed(&self) -> &BTreeSet<Row> {
        match self {
            Set::Finite(rows) | Set::Complement(rows) => rows,
        }
    }

    pub fn holds(&self, row: &Row) -> bool {
        match self {
            Set::Finite(rows) => rows.contains(row),
            Set::Complement(rows) => !rows.contains(row),
        }
    }

    pub fn union(&self, other: &Set) -> Set {
        use Set::*;
        match (self, other) {
            (Finite(a), Finite(b)) => Finite(a | b),
            (Finite(a), Complement(b)) => Complement(b - a),
            (Complement(a), Finite(b)) => Complement(a - b),
            (Complement(a), Complement(b)) => Complement(a & b),
        }
    }

    pub fn minus(&self, other: &Set) -> Set {
        use Set::*;
        match (self, other) {
            (Finite(a), Finite(b)) => Finite(a - b),
            (Finite(a), Complement(b)) => Finite(a & b),
            (Complement(a), Finite(b)) => Complement(a | b),
            (Complement(a), Complement(b)) => Finite(b - a),
        }
    }

    /// Form, count, five words a row.
    pub fn words(&self) -> Vec<u32> {
        self.with_rows(self.listed())
    }

    /// The same with its rows in the order given.
    pub fn with_rows<'a>(&self, rows: impl IntoIterator<Item = &'a Row>) -> Vec<u32> {
        let form = matches!(self, Set::Complement(_)) as u32;
        let mut words = vec![form, self.listed().len() as u32];
        words.extend(rows.into_iter().flat_map(Row::words));
        words
    }

    /// A set handed in, if it is sound; words past its last row are not looked at.
    pub fn from_words(words: &[u32]) -> Option<Set> {
        let (&form, &count) = (words.first()?, words.get(1)?);
        if form > 1 || count as usize > MOST_ROWS {
            return None;
        }
        let laid_out = words.get(2..2 + ROW_WORDS * count as usize)?;
        let rows = laid_out.chunks(ROW_WORDS).map(Row::from_words).collect::<Option<Vec<Row>>>()?;
        if rows.windows(2).any(|pair| pair[0] >= pair[1]) {
            return None;
        }
        let rows = rows.into_iter().collect();
        Some(if form == 0 { Set::Finite(rows) } else { Set::Complement(rows) })
    }
}

// ---- Store and filing ----

/// A certificate's term of validity: its first and its end minute.
#[derive(Clone, Copy, PartialEq, Eq, PartialOrd, Ord, Debug)]
pub struct Validity {
    pub first: u32,
    pub end: u32,
}

impl Validity {
    /// "A held record whose end is not after its first minute makes the store unsound"; filing it is refused with 17.
    pub fn sound(self) -> bool {
        self.end > self.first
    }

    /// "it holds from the first up to, but without, the end"
    pub fn holds_at(self, minute: u32) -> bool {
        (self.first..self.end).contains(&minute)
    }
}

/// Key, name, polarity.
pub type Name = [u32; 3];

/// A certificate. The derived order is the store's: by key, name and polarity, then by the row, then by first, then by end minute.
#[derive(Clone, Copy, PartialEq, Eq, PartialOrd, Ord, Debug)]
pub struct Record {
    pub name: Name,
    pub row: Row,
    pub validity: Validity,
}

impl Record {
    /// Key, name, polarity, width, four atoms, if they keep the rules; then first and end minute, whatever they are.
    pub fn from_words(words: &[u32]) -> Option<Record> {
        let &[key, number, polarity, ref row @ .., first, end] = words else { return None };
        let sound = is_key(key) && number <= LAST_NAME && polarity <= 1;
        let record = |row| Record { name: [key, number, polarity], row, validity: Validity { first, end } };
        Row::from_words(row).filter(|_| sound).map(record)
    }

    pub fn words(&self) -> [u32; RECORD_WORDS] {
        let ([key, number, polarity], [width, a, b, c, d]) = (self.name, self.row.words());
        [key, number, polarity, width, a, b, c, d, self.validity.first, self.validity.end]
    }
}

#[derive(Clone, Copy, PartialEq, Eq, Debug)]
pub enum Filing {
    Filed,
    Held,
    Refused(u32),
}

// ---- Links ----

/// A link between two names of one polarity. The derived order is the link store's: word by word.
#[derive(Clone, Copy, PartialEq, Eq, PartialOrd, Ord, Debug)]
pub struct Link {
    pub key: u32,
    pub name: u32,
    pub polarity: u32,
    pub other_key: u32,
    pub other_name: u32,
}

impl Link {
    /// Nothing where the link is malformed: "if it is not five words, either key is a number, either name is over 65,535 or its polarity over 1".
    pub fn from_words(words: &[u32]) -> Option<Link> {
        let &[key, name, polarity, other_key, other_name] = words else { return None };
        let sound = is_key(key) && is_key(other_key) && name <= LAST_NAME && other_name <= LAST_NAME && polarity <= 1;
        sound.then_some(Link { key, name, polarity, other_key, other_name })
    }

    pub fn words(&self) -> [u32; LINK_WORDS] {
        [self.key, self.name, self.polarity, self.other_key, self.other_name]
    }

    pub fn first(&self) -> Name {
        [self.key, self.name, self.polarity]
    }

    pub fn second(&self) -> Name {
        [self.other_key, self.other_name, self.polarity]
    }
}

/// Every name that steps reach from this one, itself included.
pub fn reached(name: Name, steps: impl Fn(Name) -> Vec<Name>) -> BTreeSet<Name> {
    let mut reached = BTreeSet::from([name]);
    let mut left = vec![name];
    while let Some(at) = left.pop() {
        left.extend(steps(at).into_iter().filter(|next| reached.insert(*next)));
    }
    reached
}

// ---- Dates ----

/// Year, month, day, hour, minute.
pub type Date = [u32; 5];

/// The Gregorian rule.
fn leap(year: u32) -> bool {
    year.is_multiple_of(4) && !year.is_multiple_of(100) || year.is_multiple_of(400)
}

fn days_of_month(year: u32, month: u32) -> u32 {
    match month {
        4 | 6 | 9 | 11 => 30,
        2 if leap(year) => 29,
        2 => 28,
        _ => 31,
    }
}

// ---- Policy words ----

/// A policy's word 0, which its definitions and the query follow. It says how the patterns of draws match rows. The row of an absent guard and the issuer's of
/// code 8 are no patterns: they are whole rows in both formats.
#[derive(Clone, Copy, PartialEq, Eq, Debug)]
pub enum Format {
    /// "Format 1 keeps equal widths."
    EqualWidths = 1,
    /// "In a policy of format 2 a pattern of width w matches every row of at least w atoms by its first w."
    WiderRows = 2,
}

impl Format {
    pub const BOTH: [Format; 2] = [Format::EqualWidths, Format::WiderRows];

    /// "Refusal 1 now lets formats 1 and 2 pass."
    pub fn from_word(word: u32) -> Option<Format> {
        Format::BOTH.into_iter().find(|format| *format as u32 == word)
    }

    /// The atoms of the row that a pattern of this width is held against; nothing where it passes the row over.
    pub fn held_against(self, width: usize, row: &Row) -> Option<&[u32]> {
        match self {
            Format::EqualWidths => Some(row.used()).filter(|atoms| atoms.len() == width),
            Format::WiderRows => row.used().get(..width),
        }
    }
}

/// A definition's table entry, with its words as a part of the policy.
#[derive(Clone, PartialEq, Eq, Debug)]
pub struct Entry {
    pub name: u32,
    pub polarity: u32,
    pub part: Range<usize>,
}

/// What refusals 1 and 2 are about.
pub struct Table {
    pub format: Format,
    pub entries: Vec<Entry>,
}

/// Where one of the engine's expressions stands.
#[derive(Clone, PartialEq, Eq, Debug)]
pub enum Part {
    Policy(Range<usize>),
    Query(Range<usize>),
}

// ---- Expressions ----

#[derive(Clone, Copy, PartialEq, Eq, Debug)]
pub enum Term {
    Atom(u32),
    Variable(usize),
}

#[derive(Clone, Copy, PartialEq, Eq, Debug)]
pub enum Slot {
    Term(Term),
    New,
}

#[derive(Clone, PartialEq, Eq, Debug)]
pub enum Expression {
    Rows(Vec<Vec<Term>>),
    AllBut(Vec<Vec<Term>>),
    Definition(usize),
    /// `own` is the definition that an own name stands for: a name under our key as a fixed issuer. Of other names, and of those whose issuer is a variable,
    /// certificates are read.
    List {
        issuer: Term,
        name: u32,
        polarity: u32,
        own: Option<usize>,
    },
    /// Code 8: a key's + list, or a + own name, vetted by a definition of compromised keys.
    Vetted {
        issuer: Term,
        name: u32,
        own: Option<usize>,
        definition: usize,
    },
    Union(Box<Expression>, Box<Expression>),
    Difference(Box<Expression>, Box<Expression>),
    Comprehension {
        guards: Vec<Guard>,
        head: Vec<Term>,
    },
}

#[derive(Clone, PartialEq, Eq, Debug)]
pub enum Guard {
    Draw { from: Expression, pattern: Vec<Slot> },
    Same(Term, Term),
    Different(Term, Term),
    Absent { row: Vec<Term>, from: Expression },
}

/// A refusal's number before its part is known, or the value.
pub type Numbered<T> = Result<T, u32>;

/// Where a whole definition or query stands: what it may use.
#[derive(Clone, Copy)]
pub struct Place<'a> {
    /// All definitions of the policy.
    pub entries: &'a [Entry],
    /// How many of them are available, by number as by name: those before a definition, and all in a query.
    pub available: usize,
    pub our_key: u32,
}

/// Reads one whole definition or query, word by word; at each word the rules of 3, then 4, then 5.
struct Parser<'a> {
    words: &'a [u32],
    at: usize,
    place: Place<'a>,
    /// Variables in scope.
    variables: usize,
    draws: u32,
    /// Where each code 4 stands with its words.
    lists: Vec<Range<usize>>,
    /// Planted with `OwnMissingAfterTheRest`.
    own_missing: bool,
    evaluator: Evaluator,
}

impl Parser<'_> {
    fn word(&mut self) -> Numbered<u32> {
        let word = *self.words.get(self.at).ok_or(BAD_WORD)?;
        self.at += 1;
        Ok(word)
    }

    fn within(&mut self, rule: RangeInclusive<u32>) -> Numbered<u32> {
        let word = self.word()?;
        if rule.contains(&word) {
            Ok(word)
        } else {
            Err(BAD_WORD)
        }
    }

    fn times<T>(&mut self, count: u32, mut read: impl FnMut(&mut Self) -> Numbered<T>) -> Numbered<Vec<T>> {
        (0..count).map(|_| read(self)).collect()
    }

    fn left_over(&self) -> bool {
        self.at < self.words.len()
    }

    fn expression(&mut self, depth: u32) -> Numbered<Expression> {
        let code = self.within(1..=8)?;
        let deepest = DEEPEST + self.evaluator.has(Fault::Depth16Passes) as u32; // planted
        if depth > deepest {
            return Err(TOO_DEEP);
        }
        Ok(match code {
            1 => Expression::Rows(self.rows()?),
            2 => Expression::AllBut(self.rows()?),
            3 => Expression::Definition(self.definition()?),
            4 => self.list()?,
            5 => Expression::Union(self.inside(depth)?, self.inside(depth)?),
            6 => Expression::Difference(self.inside(depth)?, self.inside(depth)?),
            7 => self.comprehension(depth)?,
            _ => self.vetted()?,
        })
    }

    fn inside(&mut self, depth: u32) -> Numbered<Box<Expression>> {
        Ok(Box::new(self.expression(depth + 1)?))
    }

    fn rows(&mut self) -> Numbered<Vec<Vec<Term>>> {
        let count = self.within(0..=MOST_ROWS as u32)?;
        self.times(count, Self::row)
    }

    fn row(&mut self) -> Numbered<Vec<Term>> {
        let width = self.within(1..=MOST_WIDTH)?;
        self.times(width, Self::term)
    }

    fn term(&mut self) -> Numbered<Term> {
        match self.within(0..=1)? {
            0 => Ok(Term::Atom(self.word()?)),
            _ => self.variable(),
        }
    }

    fn variable(&mut self) -> Numbered<Term> {
        let number = self.word()? as usize;
        if number < self.variables {
            Ok(Term::Variable(number))
        } else {
            Err(NOT_IN_SCOPE)
        }
    }

    fn definition(&mut self) -> Numbered<usize> {
        let number = self.word()? as usize;
        if number < self.place.available {
            Ok(number)
        } else {
            Err(NOT_IN_SCOPE)
        }
    }

    fn list(&mut self) -> Numbered<Expression> {
        let code = self.at - 1;
        let issuer = self.issuer()?;
        let name = self.within(0..=LAST_NAME)?;
        self.own_missing_early(issuer, name)?; // planted
        let polarity = self.within(0..=1)?;
        let own = self.own(4, issuer, name, polarity)?;
        self.lists.push(code..self.at);
        Ok(Expression::List { issuer, name, polarity, own })
    }

    /// At the polarity word, after its own rule: "Code 4 with that key as a fixed issuer reads the definition of that name and polarity, if it is available at
    /// that place", "Code 8 with our key does the same", "If none is available there, it is refused with 4".
    fn own(&mut self, code: u32, issuer: Term, name: u32, polarity: u32) -> Numbered<Option<usize>> {
        if issuer != Term::Atom(self.place.our_key) {
            return Ok(None);
        }
        let available = &self.place.entries[..self.place.available];
        let found = available.iter().position(|entry| (entry.name, entry.polarity) == (name, polarity));
        if self.evaluator.has(Fault::OwnMissingAfterTheRest) {
            self.own_missing |= found.is_none();
            return Ok(found); // planted
        }
        faults::wrongly_found(self.evaluator.fault, code, self.place, [name, polarity], found).unwrap_or(found.map(Some).ok_or(NOT_IN_SCOPE))
    }

    /// Planted with `OwnMissingBeforePolarity` and `OwnMissingAtName`.
    fn own_missing_early(&self, issuer: Term, name: u32) -> Numbered<()> {
        let next = self.words.get(self.at).copied();
        let missing = issuer == Term::Atom(self.place.our_key) && faults::missing_early(self.evaluator.fault, self.place, name, next);
        if missing {
            Err(NOT_IN_SCOPE)
        } else {
            Ok(())
        }
    }

    fn issuer(&mut self) -> Numbered<Term> {
        match self.within(0..=1)? {
            0 => Ok(Term::Atom(self.within(FIRST_KEY..=u32::MAX)?)),
            _ => self.variable(),
        }
    }

    /// The same words as a list, of which − is refused, and then a definition.
    fn vetted(&mut self) -> Numbered<Expression> {
        let issuer = self.issuer()?;
        let name = self.within(0..=LAST_NAME)?;
        self.own_missing_early(issuer, name)?; // planted
        let polarity = self.word()?;
        let late = self.evaluator.has(Fault::VettedMinusRefusedLate); // planted
        let passes = self.evaluator.has(Fault::VettedMinusPasses) && polarity == 1; // planted
        if polarity != 0 && !passes && !late {
            return Err(BAD_WORD);
        }
        if self.evaluator.has(Fault::OwnFoundAfterDefinitionWord) && !self.left_over() {
            return Err(BAD_WORD); // planted
        }
        let own = self.own(8, issuer, name, 0)?;
        let definition = self.definition()?;
        if polarity != 0 && late {
            return Err(BAD_WORD); // planted
        }
        Ok(Expression::Vetted { issuer, name, own, definition })
    }

    fn comprehension(&mut self, depth: u32) -> Numbered<Expression> {
        let outside = self.variables;
        let count = self.within(0..=MOST_GUARDS)?;
        let guards = self.times(count, |parser| parser.guard(depth))?;
        let head = self.row()?;
        self.variables = outside;
        Ok(Expression::Comprehension { guards, head })
    }

    fn guard(&mut self, depth: u32) -> Numbered<Guard> {
        match self.within(1..=4)? {
            1 => self.draw(depth),
            2 => Ok(Guard::Same(self.term()?, self.term()?)),
            3 => Ok(Guard::Different(self.term()?, self.term()?)),
            _ => Ok(Guard::Absent { row: self.row()?, from: self.expression(depth + 1)? }),
        }
    }

    fn draw(&mut self, depth: u32) -> Numbered<Guard> {
        let most = MOST_DRAWS_WRITTEN + self.evaluator.has(Fault::NinthDrawPasses) as u32; // planted
        self.draws += 1;
        if self.draws > most {
            return Err(TOO_DEEP);
        }
        let from = self.expression(depth + 1)?;
        let width = self.within(1..=MOST_WIDTH)?;
        let pattern = self.times(width, Self::slot)?;
        Ok(Guard::Draw { from, pattern })
    }

    fn slot(&mut self) -> Numbered<Slot> {
        Ok(match self.within(0..=2)? {
            0 => Slot::Term(Term::Atom(self.word()?)),
            1 => Slot::Term(self.variable()?),
            _ => self.new_variable()?,
        })
    }

    fn new_variable(&mut self) -> Numbered<Slot> {
        let most = MOST_VARIABLES + self.evaluator.has(Fault::SeventeenthVariablePasses) as usize; // planted
        if self.word()? as usize != self.variables || self.variables == most {
            return Err(NOT_IN_SCOPE);
        }
        self.variables += 1;
        Ok(Slot::New)
    }
}

// ---- Polarity and openness ----

#[derive(Clone, Copy, PartialEq, Eq, Debug)]
pub struct Polarities {
    pub plus: bool,
    pub minus: bool,
}

impl Polarities {
    pub const BOTH: Polarities = Polarities { plus: true, minus: true };

    pub fn only(polarity: u32) -> Polarities {
        Polarities { plus: polarity == 0, minus: polarity == 1 }
    }

    fn common(self, other: Polarities) -> Polarities {
        Polarities { plus: self.plus && other.plus, minus: self.minus && other.minus }
    }

    fn opposite(self) -> Polarities {
        Polarities { plus: self.minus, minus: self.plus }
    }

    fn has(self, polarity: u32) -> bool {
        if polarity == 0 {
            self.plus
        } else {
            self.minus
        }
    }

    fn verdict(self) -> Option<Verdict> {
        match (self.plus, self.minus) {
            (true, true) => Some(Verdict::Exact),
            (true, false) => Some(Verdict::Lower),
            (false, true) => Some(Verdict::Upper),
            (false, false) => None,
        }
    }
}

#[derive(Clone, Copy, PartialEq, Eq, Debug)]
pub enum Verdict {
    Exact = 0,
    Lower = 1,
    Upper = 2,
}

/// A definition that went through 3 to 7.
#[derive(Clone, Debug)]
pub struct Definition {
    pub name: u32,
    pub polarity: u32,
    pub open: bool,
    pub expression: Expression,
}

/// A policy and a query that neither 20 nor a refusal from 1 to 7 applies to.
#[derive(Clone, Debug)]
pub struct Judged {
    pub our_key: u32,
    pub format: Format,
    pub definitions: Vec<Definition>,
    pub query: Expression,
    pub verdict: Verdict,
}

// ---- Reading ----

/// The rows certified of each name.
pub type Certified = BTreeMap<Name, BTreeSet<Row>>;

pub fn certified<'a>(records: impl IntoIterator<Item = &'a Record>) -> Certified {
    let mut rows = Certified::new();
    for record in records {
        rows.entry(record.name).or_default().insert(record.row);
    }
    rows
}

/// What the two stores hold.
#[derive(Clone, Copy)]
pub struct Held<'a> {
    pub records: &'a [Record],
    pub links: &'a [Link],
}

/// Reads in the minimal model of the links and of the certificates that hold at the minute.
pub struct Reading<'a> {
    pub judged: &'a Judged,
    pub held: Held<'a>,
    pub minute: u32,
    pub format: Format,
    pub certified: Certified,
    pub definitions: Vec<Set>,
    pub draws: u32,
    pub evaluator: Evaluator,
}

pub fn limited(set: Set) -> Numbered<Set> {
    if set.listed().len() > MOST_ROWS {
        Err(TOO_MANY_ROWS)
    } else {
        Ok(set)
    }
}

pub fn value(term: Term, values: &[u32]) -> u32 {
    match term {
        Term::Atom(atom) => atom,
        Term::Variable(number) => values[number],
    }
}

pub fn row_of(terms: &[Term], values: &[u32]) -> Row {
    let mut row = Row { atoms: [0; MOST_WIDTH as usize], width: terms.len() as u32 };
    for (atom, &term) in row.atoms.iter_mut().zip(terms) {
        *atom = value(term, values);
    }
    row
}

impl<'a> Reading<'a> {
    fn new(judged: &'a Judged, held: Held<'a>, minute: u32, evaluator: Evaluator) -> Reading<'a> {
        let records = held.records;
        let holds = |record: &&Record| faults::wrongly_holds(evaluator.fault, records, record, minute).unwrap_or(record.validity.holds_at(minute));
        let certified = certified(records.iter().filter(holds));
        Reading { judged, held, minute, format: judged.format, certified, definitions: Vec::new(), draws: 0, evaluator }
    }

    pub fn read(&mut self, expression: &Expression, values: &mut Vec<u32>) -> Numbered<Set> {
        match expression {
            Expression::Rows(rows) => Ok(Set::Finite(written(rows, values))),
            Expression::AllBut(rows) => Ok(Set::Complement(written(rows, values))),
            Expression::Definition(number) => Ok(self.definitions[*number].clone()),
            Expression::List { name, polarity, own: Some(definition), .. } => self.own(*name, *polarity, *definition),
            Expression::List { issuer, name, polarity, own: None } => self.list(*issuer, *name, *polarity, values),
            Expression::Vetted { issuer, name, own, definition } => self.vetted(*issuer, *name, *own, *definition, values),
            Expression::Union(left, right) => self.union(left, right, values),
            Expression::Difference(left, right) => self.difference(left, right, values),
            Expression::Comprehension { guards, head } => {
                let mut found = BTreeSet::new();
                self.pass(guards, head, values, &mut found)?;
                Ok(Set::Finite(found))
            }
        }
    }

    /// An own name has the set of its definition, which was read before: no draws, no certificates and no links.
    fn own(&mut self, name: u32, polarity: u32, definition: usize) -> Numbered<Set> {
        let planted = faults::own_wrongly_read(self, [self.judged.our_key, name, polarity], definition);
        planted.unwrap_or_else(|| Ok(self.definitions[definition].clone()))
    }

    /// The names whose certified rows are joined for this one: each that links of its polarity reach from it, in any number of steps.
    fn joined(&self, name: Name) -> BTreeSet<Name> {
        let steps = |at| self.held.links.iter().filter(|link| link.first() == at).map(Link::second).collect();
        faults::wrongly_joined(self.evaluator.fault, self.held.links, name).unwrap_or_else(|| reached(name, steps))
    }

    /// A + name has just the rows certified of the names joined for it, a − name all but those. Nothing is certified under a number, and no link is of one.
    pub fn list(&self, issuer: Term, name: u32, polarity: u32, values: &[u32]) -> Numbered<Set> {
        let (fault, name) = (self.evaluator.fault, [value(issuer, values), name, polarity]);
        if let Some(planted) = faults::variable_wrongly_read(self, issuer, name) {
            return Ok(planted);
        }
        let alone = self.evaluator.has(Fault::VariableIssuerWithoutLinks) && matches!(issuer, Term::Variable(_)); // planted
        let joined = if alone { BTreeSet::from([name]) } else { self.joined(name) };
        let rows = || joined.iter().filter_map(|name| self.certified.get(name)).flatten().copied().collect();
        let rows = faults::wrongly_certified(fault, self.held.records, &self.certified, name, &joined).unwrap_or_else(rows);
        let rows = faults::ours_wrongly_joined(self, name, &joined).unwrap_or(rows);
        let set = if polarity == 0 { Set::Finite(rows) } else { Set::Complement(rows) };
        if faults::rows_wrongly_counted(fault, self.held.records, &self.certified, &joined, self.minute) > MOST_ROWS {
            return Err(TOO_MANY_ROWS); // planted
        }
        match faults::wrong_list(fault, issuer, values, &set) {
            Some(planted) => Ok(planted),
            None if faults::limit_passed(fault, &self.certified, &joined) => Ok(set), // planted
            None => limited(set),
        }
    }

    /// The list, or the own name, if the one-atom row of the issuer is absent from the definition, and no rows otherwise: it is then not read.
    fn vetted(&mut self, issuer: Term, name: u32, own: Option<usize>, definition: usize, values: &[u32]) -> Numbered<Set> {
        let fault = self.evaluator.fault;
        let definition = if fault == Some(Fault::VettedByDefinition0) { 0 } else { definition }; // planted
        if fault == Some(Fault::VettedListReadFirst) && own.is_none() {
            self.list(issuer, name, 0, values)?; // planted
        }
        self.draws += (fault == Some(Fault::LookUpCountedAsDraw)) as u32; // planted
        let (compromised, issuer_row) = (&self.definitions[definition], Row::new(&[value(issuer, values)]));
        let not_looked_up = fault == Some(Fault::OwnVettedNotLookedUp) && own.is_some(); // planted
        if !not_looked_up && faults::wrong_look_up(fault, self.format, compromised, &issuer_row).unwrap_or_else(|| compromised.holds(&issuer_row)) {
            return Ok(Set::Finite(BTreeSet::new()));
        }
        if let Some(own) = own {
            if fault == Some(Fault::CertificatesReadForOwnVetted) {
                return self.list(issuer, name, 0, values); // planted
            }
            let own = if fault == Some(Fault::OwnVettedReadAsItsGuard) { definition } else { own }; // planted
            return self.own(name, 0, own);
        }
        if let (Some(Fault::VettedVariableReadsDefinition), Some(set)) = (fault, faults::set_of_own(self, [issuer_row.atoms[0], name, 0])) {
            return Ok(set); // planted
        }
        if fault == Some(Fault::VettedAtAnyMinute) {
            return self.at_any_minute().list(issuer, name, 0, values); // planted
        }
        if let Some(links) = faults::wrongly_vetted(fault, compromised, self.held.links) {
            return self.with_links(&links).list(issuer, name, 0, values); // planted
        }
        self.list(issuer, name, 0, values)
    }

    /// Planted with `VettedAtAnyMinute` and `AbsentAtAnyMinute`.
    fn at_any_minute(&self) -> Reading<'_> {
        Reading { certified: certified(self.held.records), definitions: self.definitions.clone(), ..*self }
    }

    /// Planted with `VettedWithoutLinks`, `ReachedVetted` and `AbsentWithoutLinks`.
    fn with_links<'b>(&'b self, links: &'b [Link]) -> Reading<'b> {
        let held = Held { links, ..self.held };
        Reading { held, certified: self.certified.clone(), definitions: self.definitions.clone(), ..*self }
    }

    fn union(&mut self, left: &Expression, right: &Expression, values: &mut Vec<u32>) -> Numbered<Set> {
        let left = self.read(left, values)?;
        if let (true, Set::Finite(rows), Expression::Comprehension { guards, head }) = (self.evaluator.has(Fault::UnionBuiltInPlace), &left, right) {
            let mut found = rows.clone(); // planted
            self.pass(guards, head, values, &mut found)?;
            return Ok(Set::Finite(found));
        }
        let right = self.read(right, values)?;
        faults::wrong_union(self.evaluator.fault, &left, &right).unwrap_or_else(|| limited(left.union(&right)))
    }

    fn difference(&mut self, left: &Expression, right: &Expression, values: &mut Vec<u32>) -> Numbered<Set> {
        let left = self.read(left, values)?;
        let right = self.read(right, values)?;
        faults::wrong_difference(self.evaluator.fault, self.format, &left, &right).unwrap_or_else(|| limited(left.minus(&right)))
    }

    /// The head's row for each binding that passes the guards left to do.
    fn pass(&mut self, guards: &[Guard], head: &[Term], values: &mut Vec<u32>, found: &mut BTreeSet<Row>) -> Numbered<()> {
        let Some((guard, later)) = guards.split_first() else {
            found.insert(row_of(head, values));
            return if found.len() > MOST_ROWS { Err(TOO_MANY_ROWS) } else { Ok(()) };
        };
        let passed = match guard {
            Guard::Draw { from, pattern } => return self.draw(from, pattern, later, head, values, found),
            Guard::Same(a, b) => value(*a, values) == value(*b, values),
            Guard::Different(a, b) => value(*a, values) != value(*b, values),
            Guard::Absent { row, from } => self.absent(&row_of(row, values), from, values)?,
        };
        if passed {
            return self.pass(later, head, values, found);
        }
        if self.evaluator.has(Fault::GuardsAfterFailedOneRead) {
            return self.pass(later, head, values, &mut BTreeSet::new()); // planted
        }
        Ok(())
    }

    /// The row as a whole, in both formats.
    fn absent(&mut self, row: &Row, from: &Expression, values: &mut Vec<u32>) -> Numbered<bool> {
        let (draws, format) = (self.draws, self.format);
        self.format = faults::format_under_absent(self.evaluator.fault, format);
        let planted = faults::certificates_for_own(self, Fault::OwnAbsentFromCertificates, from);
        let set = planted.unwrap_or_else(|| self.read(from, values))?;
        self.format = format;
        if self.evaluator.has(Fault::OperandReadOnce) && draws > 0 {
            self.draws = draws; // planted
        }
        if self.evaluator.has(Fault::AbsentAtAnyMinute) && matches!(from, Expression::List { .. }) {
            return Ok(!self.at_any_minute().read(from, values)?.holds(row)); // planted
        }
        if self.evaluator.has(Fault::AbsentWithoutLinks) && matches!(from, Expression::List { .. }) {
            return Ok(!self.with_links(&[]).read(from, values)?.holds(row)); // planted
        }
        Ok(!faults::wrongly_present(self.evaluator.fault, format, from, &set, row).unwrap_or_else(|| set.holds(row)))
    }

    fn draw(
        &mut self,
        from: &Expression,
        pattern: &[Slot],
        later: &[Guard],
        head: &[Term],
        values: &mut Vec<u32>,
        found: &mut BTreeSet<Row>,
    ) -> Numbered<()> {
        let (fault, format) = (self.evaluator.fault, self.format);
        self.format = faults::format_under_draw(fault, format);
        let planted = faults::certificates_for_own(self, Fault::OwnDrawnFromCertificates, from);
        let Set::Finite(rows) = planted.unwrap_or_else(|| self.read(from, values))? else { return Err(COMPLEMENT_DRAWN) };
        self.format = format;
        let mut rows = faults::rows_drawn(fault, format, pattern.len(), rows);
        if let (Some(fault), Expression::List { issuer, name, polarity, own: None }) = (self.evaluator.fault, from) {
            let joined = self.joined([value(*issuer, values), *name, *polarity]);
            rows = faults::wrongly_drawn(fault, self.held.records, &self.certified, &joined, self.minute).unwrap_or(rows);
            // planted
        }
        let most = MOST_DRAWS_MADE - self.evaluator.has(Fault::MillionthDrawRefused) as u32; // planted
        let outside = values.len();
        for (place, row) in rows.iter().enumerate() {
            if self.draws == most {
                return Err(TOO_MANY_DRAWS);
            }
            let wrongly = faults::wrongly_matched(fault, format, from, row, pattern, values);
            let matched = wrongly.unwrap_or_else(|| matches(format, row, pattern, values));
            if !faults::not_counted(fault, format, row, pattern.len(), matched) {
                self.draws += 1; // the condition is planted
            }
            if matched && !faults::passed_before(fault, format, &rows[..place], row, pattern.len()) {
                self.pass(later, head, values, found)?; // the second condition is planted
            }
            values.truncate(outside);
        }
        Ok(())
    }
}

/// Whether the pattern matches the row by the atoms that its format says; new variables are bound on the way.
pub fn matches(format: Format, row: &Row, pattern: &[Slot], values: &mut Vec<u32>) -> bool {
    format.held_against(pattern.len(), row).is_some_and(|atoms| equals(pattern, atoms, values))
}

/// Whether the terms of the pattern equal these atoms, one for each slot; new variables are bound on the way.
pub fn equals(pattern: &[Slot], atoms: &[u32], values: &mut Vec<u32>) -> bool {
    pattern.iter().zip(atoms).all(|(slot, &atom)| match slot {
        Slot::New => {
            values.push(atom);
            true
        }
        Slot::Term(term) => value(*term, values) == atom,
    })
}

fn written(rows: &[Vec<Term>], values: &[u32]) -> BTreeSet<Row> {
    rows.iter().map(|terms| row_of(terms, values)).collect()
}

// ---- The calls, in the order of the refusal table ----

/// A refusal with its part: 0 to 15 a definition, 16 the query, 17 neither.
#[derive(Clone, Copy, PartialEq, Eq, Debug)]
pub struct Refusal {
    pub number: u32,
    pub part: u32,
}

fn refused<T>(number: u32) -> Result<T, Refusal> {
    Err(Refusal { number, part: NO_PART })
}

fn in_part<T>(result: Numbered<T>, part: u32) -> Result<T, Refusal> {
    result.map_err(|number| Refusal { number, part })
}

#[derive(Clone, PartialEq, Eq, Debug)]
pub struct Answer {
    pub verdict: Verdict,
    pub draws: u32,
    pub set: Set,
}

/// What a query call is asked, beside the stores.
#[derive(Clone, Copy, Debug)]
pub struct Question<'a> {
    pub policy: &'a [u32],
    pub query: &'a [u32],
    pub our_key: u32,
    pub minute: u32,
}

/// The lengths of the areas lent to a query.
#[derive(Clone, Copy, PartialEq, Eq, Debug)]
pub struct Areas {
    pub answer: usize,
    pub definitions: usize,
    pub scratch: usize,
}

impl Areas {
    pub const LEAST: Areas = Areas { answer: SET_WORDS, definitions: DEFINITIONS_WORDS, scratch: SCRATCH_WORDS };

    fn under(self, least: Areas) -> bool {
        self.answer < least.answer || self.definitions < least.definitions || self.scratch < least.scratch
    }
}

/// A store's records, as many as its count says, of so many words each; nothing where they are more than it may hold, or one is unsound.
fn laid_out<R>(store: &[u32], most: usize, width: usize, from_words: impl FnMut(&[u32]) -> Option<R>) -> Option<Vec<R>> {
    let count = store[0] as usize;
    if count > most {
        return None;
    }
    store[1..1 + width * count].chunks(width).map(from_words).collect()
}

/// Later records move up by as many words as a record has, and the count rises by 1.
fn put_in_place(store: &mut [u32], place: usize, record: &[u32], moved: usize) {
    let (start, end) = (1 + record.len() * place, 1 + record.len() * store[0] as usize);
    store.copy_within(start..end, start + moved);
    store[start..start + record.len()].copy_from_slice(record);
    store[0] += 1;
}

/// What the documents say, or that with one fault planted.
#[derive(Clone, Copy, Default, Debug)]
pub struct Evaluator {
    pub fault: Option<Fault>,
}

impl Evaluator {
    pub fn has(&self, fault: Fault) -> bool {
        self.fault == Some(fault)
    }

    /// The records of a sound store.
    pub fn certificates(&self, store: &[u32]) -> Option<Vec<Record>> {
        let most = faults::wrong_capacity(self.fault, store).unwrap_or(0).max(MOST_CERTIFICATES); // the other capacity is planted
        if store.len() < STORE_WORDS {
            return None;
        }
        let records = laid_out(store, most, RECORD_WORDS, Record::from_words)?;
        let ascending = |pair: &[Record]| faults::wrongly_ascending(self.fault, &pair[0], &pair[1]).unwrap_or(pair[0] < pair[1]);
        let sound = |record: &Record| faults::wrongly_sound(self.fault, record.validity).unwrap_or(record.validity.sound());
        (records.iter().all(sound) && records.windows(2).all(ascending)).then_some(records)
    }

    /// The part of the store with one name's certificates, in words; empty if there is none or the store is unsound.
    pub fn certificates_of(&self, store: &[u32], name: Name) -> Range<usize> {
        let Some(records) = self.certificates(store) else { return 0..0 };
        let of_name = |record: &Record| record.name == name;
        let Some(first) = records.iter().position(of_name) else { return 0..0 };
        let mut count = records.iter().filter(|record| of_name(record)).count();
        if self.has(Fault::NamePartByRows) {
            count = certified(&records)[&name].len(); // planted
        }
        1 + RECORD_WORDS * first..1 + RECORD_WORDS * (first + count)
    }

    /// 8, 9, 17, Held, 10.
    pub fn file(&self, store: &mut [u32], certificate: &[u32]) -> Filing {
        if self.has(Fault::BadTermBeforeStore) && faults::has_bad_term(certificate) {
            return Filing::Refused(BAD_TERM); // planted
        }
        let Some(records) = self.certificates(store) else { return Filing::Refused(BAD_STORE) };
        if self.has(Fault::BadTermBeforeCertificate) && faults::has_bad_term(certificate) {
            return Filing::Refused(BAD_TERM); // planted
        }
        let Some(record) = Record::from_words(certificate) else { return Filing::Refused(BAD_CERTIFICATE) };
        let full = records.len() >= faults::wrong_capacity(self.fault, store).unwrap_or(MOST_CERTIFICATES); // the other capacity is planted
        if full && self.has(Fault::FullBeforeTerm) {
            return Filing::Refused(STORE_FULL); // planted
        }
        if faults::wrongly_held(self.fault, &records, &record) {
            return Filing::Held; // planted
        }
        if !faults::wrongly_filed(self.fault, record.validity).unwrap_or(record.validity.sound()) {
            return Filing::Refused(if self.has(Fault::BadTermAsCertificate) { BAD_CERTIFICATE } else { BAD_TERM });
            // 9 is planted
        }
        if full && self.has(Fault::FullBeforeHeld) {
            return Filing::Refused(STORE_FULL); // planted
        }
        let Err(place) = records.binary_search(&record) else { return Filing::Held };
        let place = faults::wrong_place(self.fault, &records, &record).unwrap_or(place);
        if let Some(replaced) = faults::replaced(self.fault, &records, &record) {
            store[1 + RECORD_WORDS * replaced..][..RECORD_WORDS].copy_from_slice(&record.words());
            return Filing::Filed; // planted
        }
        if full {
            return Filing::Refused(STORE_FULL);
        }
        let moved = if self.has(Fault::MovedByEightWords) { 8 } else { RECORD_WORDS }; // planted
        put_in_place(store, place, &record.words(), moved);
        if self.has(Fault::FilingClearsPastTheEnd) {
            store[1 + RECORD_WORDS * (records.len() + 1)..].iter_mut().take(1).for_each(|word| *word = 0);
            // planted
        }
        Filing::Filed
    }

    /// The links of a sound link store.
    pub fn links(&self, store: &[u32]) -> Option<Vec<Link>> {
        if faults::wrongly_short(self.fault, store).unwrap_or(store.len() < LINKS_WORDS) {
            return None;
        }
        let most = faults::wrong_links_capacity(self.fault, store).unwrap_or(0).max(MOST_LINKS); // the other capacity is planted
        let link = |words: &[u32]| faults::wrongly_formed(self.fault, words).or_else(|| Link::from_words(words));
        let links = laid_out(store, most, LINK_WORDS, |words| faults::wrongly_held_link(self.fault, words).or_else(|| link(words)))?;
        let ascending = |pair: &[Link]| faults::links_wrongly_ascending(self.fault, &pair[0], &pair[1]).unwrap_or(pair[0] < pair[1]);
        links.windows(2).all(ascending).then_some(links)
    }

    /// 18, Held, 19.
    pub fn file_link(&self, store: &mut [u32], link: &[u32]) -> Filing {
        if self.has(Fault::HeldBeforeUnsoundLinks) && faults::has_link(store, link) {
            return Filing::Held; // planted
        }
        let Some(links) = self.links(store) else { return Filing::Refused(self.unsound_links()) };
        let full = links.len() >= faults::wrong_links_capacity(self.fault, store).unwrap_or(MOST_LINKS); // the other capacity is planted
        let refused_as_full = Filing::Refused(if self.has(Fault::LinksFullAsStoreFull) { STORE_FULL } else { LINKS_FULL }); // 10 is planted
        if full && self.has(Fault::LinksFullBeforeBadLink) {
            return refused_as_full; // planted
        }
        let Some(link) = faults::wrongly_formed(self.fault, link).or_else(|| Link::from_words(link)) else {
            return Filing::Refused(if self.has(Fault::BadLinkAsCertificate) { BAD_CERTIFICATE } else { BAD_LINK });
            // 9 is planted
        };
        if faults::wrongly_refused_link(self.fault, &links, &link) {
            return Filing::Refused(BAD_LINK); // planted
        }
        if full && self.has(Fault::LinksFullBeforeHeld) {
            return refused_as_full; // planted
        }
        if links.contains(&link) || faults::link_wrongly_held(self.fault, &links, &link) {
            return Filing::Held; // the second is planted
        }
        if full {
            return refused_as_full;
        }
        let place = links.iter().filter(|held| **held < link).count();
        let place = faults::wrong_place_of_link(self.fault, &links, &link).unwrap_or(place);
        let moved = faults::link_wrongly_moved(self.fault, store).unwrap_or(LINK_WORDS);
        put_in_place(store, place, &link.words(), moved);
        if self.has(Fault::LinkPastTheEndCleared) {
            store[1 + LINK_WORDS * (links.len() + 1)..].iter_mut().take(1).for_each(|word| *word = 0);
            // planted
        }
        Filing::Filed
    }

    fn unsound_links(&self) -> u32 {
        if self.has(Fault::UnsoundLinksAsStore) {
            BAD_STORE // planted
        } else {
            BAD_LINK
        }
    }

    /// 1, 2.
    pub fn table(&self, policy: &[u32]) -> Numbered<Table> {
        if !(2..=MOST_POLICY_WORDS).contains(&policy.len()) || policy[1] > MOST_DEFINITIONS {
            return Err(BAD_HEADER);
        }
        let format = faults::wrong_format(self.fault, policy[0]).unwrap_or(Format::from_word(policy[0])).ok_or(BAD_HEADER)?;
        let first = 2 + 4 * policy[1] as usize;
        let table = policy.get(2..first).ok_or(BAD_HEADER)?;
        let mut next = first as u64;
        let mut entries: Vec<Entry> = Vec::new();
        for entry in table.chunks(4) {
            let &[name, polarity, offset, length] = entry else { unreachable!() };
            let twice = entries.iter().any(|other| (other.name, other.polarity) == (name, polarity));
            if name > LAST_NAME || polarity > 1 || u64::from(offset) != next || length == 0 || twice {
                return Err(BAD_TABLE);
            }
            next += u64::from(length);
            if self.has(Fault::TableSumWraps) {
                next &= u64::from(u32::MAX); // planted
            }
            entries.push(Entry { name, polarity, part: offset as usize..next as usize });
        }
        if next != policy.len() as u64 {
            return Err(BAD_TABLE);
        }
        if self.has(Fault::FormatAfterTable) && Format::from_word(policy[0]).is_none() {
            return Err(BAD_HEADER); // planted
        }
        Ok(Table { format, entries })
    }

    pub fn part(&self, policy: &[u32], query: &[u32], number: u32) -> Part {
        let empty = Part::Policy(0..0);
        let Ok(Table { entries, .. }) = self.table(policy) else { return empty };
        if self.has(Fault::PartRefusesFormat2) && policy[0] == 2 {
            return empty; // planted
        }
        if number == QUERY_PART {
            return Part::Query(0..query.len());
        }
        entries.get(number as usize).map_or(empty, |entry| Part::Policy(entry.part.clone()))
    }

    /// "20, the number given as our key is not a key, before all others": asked first, unless a fault asks later or not at all.
    fn key_asked(&self, our_key: u32, when: Asked) -> Result<(), Refusal> {
        let key = faults::wrongly_a_key(self.fault, our_key).unwrap_or(is_key(our_key));
        if key || when != faults::key_asked(self.fault) {
            return Ok(());
        }
        let part = if self.has(Fault::NotAKeyHasAPart) { QUERY_PART } else { NO_PART }; // planted
        Err(Refusal { number: NOT_A_KEY, part })
    }

    /// 20, 1, 2.
    fn table_under(&self, policy: &[u32], our_key: u32) -> Result<Table, Refusal> {
        self.key_asked(our_key, Asked::First)?;
        let table = self.table(policy);
        if !matches!(table, Err(BAD_HEADER)) {
            self.key_asked(our_key, Asked::AfterHeader)?; // planted
        }
        let table = table.or_else(refused)?;
        self.key_asked(our_key, Asked::AfterTable)?; // planted
        Ok(table)
    }

    /// 20; 1 to 7: each definition, then the query.
    pub fn judge(&self, policy: &[u32], query: &[u32], our_key: u32) -> Result<Judged, Refusal> {
        let Table { format, entries } = self.table_under(policy, our_key)?;
        if self.has(Fault::QueryLengthFirst) && !(1..=MOST_QUERY_WORDS).contains(&query.len()) {
            return Err(Refusal { number: BAD_WORD, part: QUERY_PART }); // planted
        }
        let definitions = self.definitions(policy, &entries, our_key)?;
        let place = Place { entries: &entries, available: entries.len(), our_key: faults::our_key_in_query(self.fault, our_key) };
        let (query, verdict) = in_part(self.judge_query(query, place, &definitions), QUERY_PART)?;
        self.key_asked(our_key, Asked::AfterJudging)?; // planted
        Ok(Judged { our_key, format, definitions, query, verdict })
    }

    /// 3 to 7 of each definition in turn.
    fn definitions(&self, policy: &[u32], entries: &[Entry], our_key: u32) -> Result<Vec<Definition>, Refusal> {
        let our_key = faults::our_key_in_definitions(self.fault, our_key);
        if self.has(Fault::ParsedBeforeJudged) {
            self.parse_all(policy, entries, our_key)?; // planted
        }
        let mut definitions: Vec<Definition> = Vec::new();
        for (entry, part) in entries.iter().zip(0..) {
            // A sum that wraps (planted) may give a part that is none.
            let words = policy.get(entry.part.clone()).unwrap_or(&[]);
            let place = Place { entries, available: part as usize, our_key };
            let definition = self.judge_definition(words, entry, place, &definitions);
            definitions.push(in_part(definition, part)?);
        }
        Ok(definitions)
    }

    /// Planted with `ParsedBeforeJudged` and `NotExternalBeforePolarity`.
    fn parse_all(&self, policy: &[u32], entries: &[Entry], our_key: u32) -> Result<Vec<Expression>, Refusal> {
        let place = |part: u32| Place { entries, available: part as usize, our_key };
        let parsed = |(entry, part): (&Entry, u32)| in_part(self.parser(&policy[entry.part.clone()], place(part)).expression(1), part);
        entries.iter().zip(0..).map(parsed).collect()
    }

    fn parser<'a>(&self, words: &'a [u32], place: Place<'a>) -> Parser<'a> {
        Parser { words, at: 0, place, variables: 0, draws: 0, lists: Vec::new(), own_missing: false, evaluator: *self }
    }

    fn judge_definition(&self, words: &[u32], entry: &Entry, place: Place, earlier: &[Definition]) -> Numbered<Definition> {
        let (expression, polarities) = self.expression(words, place, earlier)?;
        if !polarities.has(entry.polarity) {
            return Err(NO_POLARITY);
        }
        self.draws_allowed(&expression, earlier)?;
        let open = self.open(&expression, earlier);
        Ok(Definition { name: entry.name, polarity: entry.polarity, open, expression })
    }

    fn judge_query(&self, words: &[u32], place: Place, definitions: &[Definition]) -> Numbered<(Expression, Verdict)> {
        if !(1..=MOST_QUERY_WORDS).contains(&words.len()) {
            return Err(BAD_WORD);
        }
        let (expression, polarities) = self.expression(words, place, definitions)?;
        let verdict = polarities.verdict().ok_or(NO_POLARITY)?;
        self.draws_allowed(&expression, definitions)?;
        Ok((expression, verdict))
    }

    /// 3, 4, 5 at the first word in order; left-over words last.
    fn expression(&self, words: &[u32], place: Place, definitions: &[Definition]) -> Numbered<(Expression, Polarities)> {
        let mut parser = self.parser(words, place);
        let expression = parser.expression(1)?;
        let polarities = self.polarities(&expression, definitions);
        if self.has(Fault::LeftOverWordsAfterPolarity) && polarities.verdict().is_none() {
            return Err(NO_POLARITY); // planted
        }
        if parser.left_over() {
            return Err(BAD_WORD);
        }
        if parser.own_missing {
            return Err(NOT_IN_SCOPE); // planted
        }
        Ok((expression, polarities))
    }

    fn polarities(&self, expression: &Expression, definitions: &[Definition]) -> Polarities {
        let of = |inner: &Expression| self.polarities(inner, definitions);
        match expression {
            Expression::Rows(_) | Expression::AllBut(_) => Polarities::BOTH,
            Expression::Definition(number) => Polarities::only(definitions[*number].polarity),
            Expression::List { own: Some(number), .. } if self.has(Fault::OwnPolaritiesOfExpression) && *number < definitions.len() => {
                of(&definitions[*number].expression)
            } // planted
            Expression::List { polarity, .. } => Polarities::only(*polarity),
            Expression::Vetted { own: Some(_), .. } if self.has(Fault::OwnVettedAlwaysPlus) => Polarities::only(0), // planted
            Expression::Vetted { .. } if self.has(Fault::VettedAlwaysPlus) => Polarities::only(0),                  // planted
            Expression::Vetted { definition, .. } if self.has(Fault::VettedTurnsRound) => {
                Polarities::only(definitions[*definition].polarity).opposite()
            } // planted
            Expression::Vetted { definition, .. } => Polarities { plus: definitions[*definition].polarity == 1, minus: false },
            Expression::Union(left, right) => of(left).common(of(right)),
            Expression::Difference(left, right) => of(left).common(of(right).opposite()),
            Expression::Comprehension { guards, .. } => guards.iter().fold(Polarities::BOTH, |had, guard| match guard {
                Guard::Draw { from, .. } => had.common(of(from)),
                Guard::Absent { from, .. } if self.has(Fault::AbsentNotTurnedRound) => had.common(of(from)), // planted
                Guard::Absent { from, .. } => had.common(of(from).opposite()),
                _ if self.has(Fault::ComparedTermsCounted) => had.common(Polarities::only(0)), // planted
                Guard::Same(..) | Guard::Different(..) => had,
            }),
        }
    }

    fn open(&self, expression: &Expression, definitions: &[Definition]) -> bool {
        let of = |inner: &Expression| self.open(inner, definitions);
        match expression {
            Expression::AllBut(_) => true,
            // "its openness is that of the definition", in code 8 too.
            Expression::List { own: Some(number), .. } | Expression::Vetted { own: Some(number), .. } => {
                faults::own_wrongly_open(self.fault, expression, definitions).unwrap_or_else(|| definitions[*number].open)
            }
            Expression::List { polarity, own: None, .. } => *polarity == 1,
            Expression::Definition(number) => definitions[*number].open,
            Expression::Union(left, right) => of(left) || of(right),
            Expression::Difference(left, right) => of(left) || (self.has(Fault::OpenRightCounts) && of(right)), // the right is planted
            Expression::Vetted { definition, .. } => self.has(Fault::VettedOpen) && definitions[*definition].open, // planted
            Expression::Rows(_) | Expression::Comprehension { .. } => false,
        }
    }

    /// 7, wherever in the expression the draw stands.
    fn draws_allowed(&self, expression: &Expression, definitions: &[Definition]) -> Numbered<()> {
        let inside = |inner: &Expression| self.draws_allowed(inner, definitions);
        match expression {
            Expression::Union(left, right) | Expression::Difference(left, right) => inside(left).and(inside(right)),
            Expression::Comprehension { guards, .. } => guards.iter().try_for_each(|guard| match guard {
                Guard::Draw { from, .. } if self.open(from, definitions) => Err(OPEN_DRAW),
                Guard::Draw { from, .. } | Guard::Absent { from, .. } => inside(from),
                Guard::Same(..) | Guard::Different(..) => Ok(()),
            }),
            _ => Ok(()),
        }
    }

    /// 20; 1 to 7 of the policy alone; 15; 11. Writes the output to the front of the area and gives its length.
    pub fn rewrite(&self, policy: &[u32], our_key: u32, area: &mut [u32]) -> Result<usize, Refusal> {
        let our_key = if self.has(Fault::RewriterTakesANumber) { our_key | FIRST_KEY } else { our_key }; // planted
        let Table { entries, .. } = self.table_under(policy, our_key)?;
        let our_key = faults::our_key_in_rewriting(self.fault, our_key);
        if self.has(Fault::RewriterRefusesFormat2) && policy[0] == 2 {
            return refused(BAD_HEADER); // planted
        }
        if let (true, Ok(parsed)) = (self.has(Fault::NotExternalBeforePolarity), self.parse_all(policy, &entries, our_key)) {
            self.external(&entries, &parsed)?; // planted
        }
        let definitions = self.definitions(policy, &entries, our_key)?;
        let expressions: Vec<Expression> = definitions.into_iter().map(|definition| definition.expression).collect();
        self.key_asked(our_key, Asked::AfterJudging)?; // planted
        let output = self.rewritten(policy, &entries, our_key);
        if self.has(Fault::ShortAreaBeforeNotExternal) && area.len() < output.len() {
            return refused(SHORT_AREA); // planted
        }
        self.external(&entries, &expressions)?;
        if output.len() > MOST_POLICY_WORDS - self.has(Fault::OutputOf8192Refused) as usize && !self.has(Fault::OutputOf8193Passes) {
            return refused(NOT_EXTERNAL); // the faults are planted
        }
        let fits = output.len().min(area.len());
        if self.has(Fault::ShortAreaWritten) {
            area[..fits].copy_from_slice(&output[..fits]); // planted
        }
        if area.len() < output.len() && !(self.has(Fault::AreaAsLongAsTheInput) && area.len() >= policy.len()) {
            return refused(SHORT_AREA); // the exception is planted
        }
        self.key_asked(our_key, Asked::Last)?; // planted
        area[..fits].copy_from_slice(&output[..fits]);
        if self.has(Fault::PastOutputCleared) {
            area[fits..].iter_mut().take(1).for_each(|word| *word = 0); // planted
        }
        Ok(output.len())
    }

    /// Document 02's definition 0, the negative name 0.
    fn lists_compromised(&self, number: usize, entry: &Entry) -> bool {
        let named = entry.name == COMPROMISED || self.has(Fault::MinusOfAnotherNameCompromised); // planted
        let minus = entry.polarity == 1 || self.has(Fault::NamePlusCompromised); // planted
        number == 0 && named && minus
    }

    /// 15, an external rule is broken: definition 0 may be the negative name 0 and reads only − names; every other one is + and reads only + names.
    fn external(&self, entries: &[Entry], expressions: &[Expression]) -> Result<(), Refusal> {
        let unasked = self.has(Fault::RulesAskedOfCompromisedAlone) && !entries.first().is_some_and(|entry| self.lists_compromised(0, entry)); // planted
        for ((entry, expression), number) in entries.iter().zip(expressions).zip(0..) {
            let declared = entry.polarity == 0 || self.lists_compromised(number, entry) || self.has(Fault::MinusElsewhereAccepted); // planted
            if !(unasked || declared && self.keeps_rules(expression, entry.polarity)) {
                let part = if self.has(Fault::NotExternalHasAPart) { number as u32 } else { NO_PART }; // planted
                return Err(Refusal { number: NOT_EXTERNAL, part });
            }
        }
        Ok(())
    }

    /// Difference, absent guards and code 8 appear in none, and it reads only names of this polarity.
    fn keeps_rules(&self, expression: &Expression, polarity: u32) -> bool {
        let inside = |inner: &Expression| self.keeps_rules(inner, polarity);
        match expression {
            Expression::Rows(_) | Expression::AllBut(_) | Expression::Definition(_) => true,
            Expression::List { own: Some(_), .. } if self.has(Fault::OwnNotExternal) => false, // planted
            Expression::List { polarity: read, .. } => *read == polarity,
            Expression::Vetted { .. } => self.has(Fault::VettedAccepted), // planted
            Expression::Union(left, right) => inside(left) && inside(right),
            Expression::Difference(..) => self.has(Fault::DifferenceAccepted), // planted
            Expression::Comprehension { guards, .. } => guards.iter().all(|guard| match guard {
                Guard::Draw { from, .. } => inside(from),
                Guard::Same(..) | Guard::Different(..) => true,
                Guard::Absent { .. } => self.has(Fault::AbsentAccepted), // planted
            }),
        }
    }

    /// The output: each code 4 in a later definition, own names too, becomes code 8 with the same words and then 0; without a definition of name 0 −, it equals
    /// the input. It is of the input's format.
    fn rewritten(&self, policy: &[u32], entries: &[Entry], our_key: u32) -> Vec<u32> {
        if !entries.first().is_some_and(|entry| self.lists_compromised(0, entry)) {
            return policy.to_vec();
        }
        let mut table = vec![faults::format_written(self.fault, policy[0]), policy[1]];
        let mut parts: Vec<u32> = Vec::new();
        for (entry, number) in entries.iter().zip(0..) {
            let words = &policy[entry.part.clone()];
            let later = number > 0 || self.has(Fault::Definition0RewrittenToo); // planted
            let place = Place { entries, available: number, our_key };
            let part = if later { self.with_lists_vetted(words, place) } else { words.to_vec() };
            let moved = if self.has(Fault::OffsetsNotMoved) { entry.part.start } else { 2 + 4 * entries.len() + parts.len() }; // planted
            let length = if self.has(Fault::LengthsNotChanged) { words.len() } else { part.len() }; // planted
            table.extend([entry.name, entry.polarity, moved as u32, length as u32]);
            parts.extend(part);
        }
        [table, parts].concat()
    }

    fn with_lists_vetted(&self, words: &[u32], place: Place) -> Vec<u32> {
        let mut parser = self.parser(words, place);
        // What is refused is met before.
        let _ = parser.expression(1);
        let mut output = Vec::new();
        let mut done = 0;
        for list in faults::lists_rewritten(self.fault, words, place.our_key, parser.lists) {
            output.extend(&words[done..list.start]);
            output.push(8);
            output.extend(&words[list.start + 1..list.end]);
            output.push(0);
            done = list.end;
        }
        output.extend(&words[done..]);
        output
    }

    /// 16: a date that does not exist or lies outside 2000 to 2099.
    pub fn minutes(&self, date: Date) -> Numbered<u32> {
        let [year, month, day, hour, minute] = faults::wrong_date(self.fault, date);
        let mut days_before = 0;
        for (this_year, this_month, days) in self.months() {
            if (this_year, this_month) == (year, month) {
                let last_day = faults::wrong_last_day(self.fault, month).unwrap_or(days);
                let exists = (1..=last_day).contains(&day) && hour < 24 && minute < 60;
                return if exists { Ok(((days_before + day - 1) * 24 + hour) * 60 + minute) } else { Err(BAD_DATE) };
            }
            days_before += days;
        }
        Err(BAD_DATE)
    }

    pub fn date(&self, minutes: u32) -> Numbered<Date> {
        let mut left = minutes;
        for (year, month, days) in self.months() {
            if left < days * 24 * 60 {
                let day = left / (24 * 60) + !self.has(Fault::DaysFrom0) as u32; // planted
                return Ok([year, month, day, left / 60 % 24, left % 60]);
            }
            left -= days * 24 * 60;
        }
        Err(BAD_DATE)
    }

    /// The months of 2000 to 2099 in order: year, month, how many days.
    fn months(self) -> impl Iterator<Item = (u32, u32, u32)> {
        let last = faults::wrong_last_year(self.fault).unwrap_or(LAST_YEAR);
        let days = move |year, month| faults::wrong_days_of_month(self.fault, year, month).unwrap_or(days_of_month(year, month));
        (FIRST_YEAR..=last).flat_map(|year| (1..=12).map(move |month| (year, month))).map(move |(year, month)| (year, month, days(year, month)))
    }

    /// 20; 1 to 7; 8; 18; 11; then reading.
    pub fn query(&self, question: Question, store: &[u32], links: &[u32], areas: Areas) -> Result<Answer, Refusal> {
        let Question { policy, query, our_key, minute } = question;
        let our_key = if self.has(Fault::QueryTakesANumber) { our_key | FIRST_KEY } else { our_key }; // planted
        let sound_links = self.links(links);
        if self.has(Fault::BadLinkBeforeJudging) && sound_links.is_none() {
            return refused(BAD_LINK); // planted
        }
        let judged = self.judge(policy, query, our_key)?;
        if self.has(Fault::AreasBeforeStore) && areas.under(Areas::LEAST) {
            return refused(SHORT_AREA); // planted
        }
        if self.has(Fault::BadLinkBeforeStore) && sound_links.is_none() {
            return refused(BAD_LINK); // planted
        }
        let Some(records) = self.certificates(store) else { return refused(BAD_STORE) };
        if self.has(Fault::AreasBeforeLinks) && areas.under(Areas::LEAST) {
            return refused(SHORT_AREA); // planted
        }
        let Some(links) = faults::links_taken(self.fault, &judged, sound_links) else {
            let part = if self.has(Fault::BadLinkHasAPart) { QUERY_PART } else { NO_PART }; // planted
            return Err(Refusal { number: self.unsound_links(), part });
        };
        if areas.under(Areas::LEAST) {
            return refused(SHORT_AREA);
        }
        self.key_asked(our_key, Asked::Last)?; // planted
        if self.has(Fault::MinuteWithoutDateRefused) {
            self.date(minute).or_else(refused)?; // planted
        }
        self.read(&judged, Held { records: &records, links: &links }, minute)
    }

    /// Definitions are read once, in file order, then the query.
    fn read(&self, judged: &Judged, held: Held, minute: u32) -> Result<Answer, Refusal> {
        let definitions_minute = if self.has(Fault::DefinitionsAtMinute0) { 0 } else { minute }; // planted
        let definitions_links = if self.has(Fault::DefinitionsWithoutLinks) { &[] } else { held.links }; // planted
        let mut reading = Reading::new(judged, Held { links: definitions_links, ..held }, definitions_minute, *self);
        for (definition, part) in judged.definitions.iter().zip(0..) {
            reading.format = faults::format_of_part(self.fault, judged, part);
            let set = if self.has(Fault::UnusedDefinitionNotRead) && !judged.uses(part as usize) {
                Set::Finite(BTreeSet::new()) // planted
            } else {
                in_part(reading.read(&definition.expression, &mut Vec::new()), part)?
            };
            reading.definitions.push(set);
            if self.has(Fault::DrawsStartAgainInEachPart) {
                reading.draws = 0; // planted
            }
        }
        if self.has(Fault::DefinitionsAtMinute0) || self.has(Fault::DefinitionsWithoutLinks) {
            let Reading { definitions, draws, .. } = reading;
            reading = Reading { definitions, draws, ..Reading::new(judged, held, minute, *self) };
            // planted
        }
        reading.format = faults::format_of_part(self.fault, judged, QUERY_PART);
        let set = in_part(reading.read(&judged.query, &mut Vec::new()), QUERY_PART)?;
        Ok(Answer { verdict: judged.verdict, draws: reading.draws, set })
    }
}

impl Judged {
    /// Every expression written in a definition or in the query, for whoever wants to look at all of them.
    pub fn expressions(&self) -> Vec<&Expression> {
        let mut all = Vec::new();
        for whole in self.definitions.iter().map(|definition| &definition.expression).chain([&self.query]) {
            gather(whole, &mut all);
        }
        all
    }

    fn uses(&self, definition: usize) -> bool {
        self.expressions().iter().any(|expression| match expression {
            Expression::Definition(used) => *used == definition,
            Expression::List { own, .. } => *own == Some(definition),
            Expression::Vetted { own, definition: used, .. } => *own == Some(definition) || *used == definition,
            _ => false,
        })
    }

    /// How many own names are written.
    pub fn own_names(&self) -> usize {
        let own = |expression: &&&Expression| matches!(expression, Expression::List { own: Some(_), .. } | Expression::Vetted { own: Some(_), .. });
        self.expressions().iter().filter(own).count()
    }
}

fn gather<'a>(expression: &'a Expression, all: &mut Vec<&'a Expression>) {
    all.push(expression);
    match expression {
        Expression::Union(left, right) | Expression::Difference(left, right) => {
            gather(left, all);
            gather(right, all);
        }
        Expression::Comprehension { guards, .. } => {
            for guard in guards {
                if let Guard::Draw { from, .. } | Guard::Absent { from, .. } = guard {
                    gather(from, all);
                }
            }
        }
        _ => {}
    }
}

#[cfg(test)]
#[path = "evaluator_tests.rs"]
mod tests;
