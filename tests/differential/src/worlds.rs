//! Demand 3 by brute force: answers at a minute are held against belonging in every world of that minute over a small universe of rows.
//!
//! A world of a minute is one where the links, and the certificates that hold then, are true. Where a few rows are undecided, all worlds over the universe are
//! tried and those where a link is not true are passed over; where there are more, some are tried, after what their links ask for was put right. A world has
//! lists for our key as for others, which only variables and links reach; certificates and links are filed under it all the same.
//!
//! Why a small universe is enough to be worth asking:
//! - A row that is wrongly left out of a lower answer, or wrongly kept in an upper one, is shown by the minimal model, which is always among the worlds
//!   tried. A witness found here is a world of document 01: finite sets for + names, and for − names finite sets or complements.
//! - A row that is wrongly kept in a lower answer, or wrongly left out of an upper one, needs a world with rows that are not certified. Atoms that neither
//!   policy, query nor certificates mention are interchangeable, so a few unmentioned rows stand for the others.
//! - The values of variables need be sought only among the atoms written in policy and query and those of the world's listed rows: a draw's rows come from
//!   an expression that is not open, and such an expression has only rows made of those atoms. Rows past the universe (`rest`) are in − names alone.
//! - In format 2 a pattern matches every row that begins as it says. Those too are sought among the rows that such an expression may have.

use crate::engine::{Engine, Kind, Stores};
use crate::evaluator::{
    key, row_of, value, Areas, Evaluator, Expression, Format, Guard, Judged, Link, Name, Question, Record, Row, Set, Slot, Term, Verdict,
};
use crate::generate::{empty_stores, rewritten, term, Generator, Pair, Universe, ALWAYS};
use crate::numbers::{FIRST_KEY, MOST_POLICY_WORDS};
use crate::random::Random;
use std::collections::{BTreeMap, BTreeSet};
use txindurbe::calls::Lent;

pub const SMALL: Universe = Universe {
    keys: &[key(1), key(2)],
    our_keys: &[key(1), key(1), key(2)],
    names: &[1, 2],
    atoms: &[5, 6, key(1)],
    widths: &[1, 1, 1, 1, 2],
    widest: 3,
    terms: &[ALWAYS, ALWAYS, ALWAYS, term(0, 20), term(10, 20), term(10, 30), term(20, 40)],
    depth: 3,
    guards: 3,
};

/// Rows that worlds may list beside the certified ones; the last four have atoms that nothing mentions.
const ROWS: [&[u32]; 8] = [&[5], &[6], &[key(1)], &[5, key(1)], &[98], &[99], &[98, 5], &[5, 98]];

/// Up to so many undecided rows every world is tried, and over it so many worlds.
const MOST_UNDECIDED: usize = 8;
const SAMPLE: usize = 96;

// ---- worlds ----

/// A list: the rows of the universe that it holds, and whether it holds all rows past the universe.
#[derive(Clone)]
struct List {
    rows: BTreeSet<Row>,
    rest: bool,
}

struct World<'a> {
    lists: BTreeMap<Name, List>,
    universe: &'a BTreeSet<Row>,
}

impl World<'_> {
    fn gives(&self, name: Name, row: &Row) -> bool {
        let list = &self.lists[&name];
        if self.universe.contains(row) {
            list.rows.contains(row)
        } else {
            list.rest
        }
    }

    /// With + the first list contains the second, with − it is contained in it.
    fn has_true(&self, link: &Link) -> bool {
        let (first, second) = (&self.lists[&link.first()], &self.lists[&link.second()]);
        let (inner, outer) = if link.polarity == 0 { (second, first) } else { (first, second) };
        inner.rows.is_subset(&outer.rows) && inner.rest <= outer.rest
    }

    /// Where the link is not true, the first list gets what it lacks of the second with +, and loses what the second lacks with −. A certificate stays true.
    fn put_right(&mut self, link: &Link) {
        let second = self.lists[&link.second()].clone();
        let first = self.lists.get_mut(&link.first()).expect("every name has a list");
        if link.polarity == 0 {
            first.rows.extend(second.rows);
            first.rest |= second.rest;
        } else {
            first.rows.retain(|row| second.rows.contains(row));
            first.rest &= second.rest;
        }
    }

    /// Until every link is true: each round changes a list, and lists change one way.
    fn with_links_true(mut self, links: &BTreeSet<Link>) -> Self {
        while let Some(link) = links.iter().find(|link| !self.has_true(link)) {
            self.put_right(link);
        }
        self
    }
}

/// Certificates and links accepted so far, or those of them that hold at a minute; links hold at each.
#[derive(Clone, Default, Debug)]
struct Accepted {
    records: BTreeSet<Record>,
    links: BTreeSet<Link>,
}

/// The worlds of a minute: those in which all links accepted so far, and all certificates accepted so far that hold then, are true. The minimal model, the least
/// + lists and the greatest − lists of all these, is among them.
fn worlds_of_minute<'a>(names: &BTreeSet<Name>, universe: &'a BTreeSet<Row>, holding: &Accepted, random: &mut Random) -> Vec<World<'a>> {
    let certified_alone = certified_alone(names, universe, &holding.records);
    let undecided = undecided(names, universe, &holding.records);
    let turned = |turn: &dyn Fn(usize) -> bool| {
        let mut lists = certified_alone.clone();
        for (_, (name, row)) in undecided.iter().enumerate().filter(|(place, _)| turn(*place)) {
            turn_round(lists.get_mut(name).expect("every name has a list"), row);
        }
        World { lists, universe }
    };
    let count = undecided.len();
    if count <= MOST_UNDECIDED {
        let all = (0..1usize << count).map(|chosen| turned(&|place| chosen >> place & 1 == 1));
        return all.filter(|world| holding.links.iter().all(|link| world.has_true(link))).collect();
    }
    let mut worlds = vec![turned(&|_| false), turned(&|_| true)];
    worlds.extend((0..count).map(|one| turned(&|place| place == one)));
    while worlds.len() < SAMPLE {
        let chosen = random.number() & random.number();
        worlds.push(turned(&|place| chosen >> (place % 64) & 1 == 1));
    }
    worlds.into_iter().map(|world| world.with_links_true(&holding.links)).collect()
}

/// Without links: a + name has just its certified rows; a − name has all rows but its certified ones.
fn certified_alone(names: &BTreeSet<Name>, universe: &BTreeSet<Row>, holding: &BTreeSet<Record>) -> BTreeMap<Name, List> {
    let list = |name: &Name| {
        let certified = certified(holding, name);
        let minus = name[2] == 1;
        List { rows: if minus { universe - &certified } else { certified }, rest: minus }
    };
    names.iter().map(|name| (*name, list(name))).collect()
}

fn certified(holding: &BTreeSet<Record>, name: &Name) -> BTreeSet<Row> {
    holding.iter().filter(|record| record.name == *name).map(|record| record.row).collect()
}

/// What no certificate of the name itself decides then: rows of the universe, and for − names the rest (`None`).
fn undecided(names: &BTreeSet<Name>, universe: &BTreeSet<Row>, holding: &BTreeSet<Record>) -> Vec<(Name, Option<Row>)> {
    let of_name = |name: &Name| {
        let certified = certified(holding, name);
        let mut open: Vec<(Name, Option<Row>)> = universe.difference(&certified).map(|row| (*name, Some(*row))).collect();
        open.extend((name[2] == 1).then_some((*name, None)));
        open
    };
    names.iter().flat_map(of_name).collect()
}

fn turn_round(list: &mut List, row: &Option<Row>) {
    match row {
        None => list.rest = !list.rest,
        Some(row) if list.rows.contains(row) => drop(list.rows.remove(row)),
        Some(row) => drop(list.rows.insert(*row)),
    }
}

// ---- belonging, as document 01's section has it ----

#[derive(Clone, Copy)]
struct Belonging<'a> {
    judged: &'a Judged,
    world: &'a World<'a>,
    /// Where values are sought.
    atoms: &'a BTreeSet<u32>,
    /// Whether the policy is an external one, whose definition 0 lists compromised keys, and this is inside a later definition of it. The source's transformation
    /// (document 000, section 6) then reads e$u as {x | e ∉ Compromised, x ∈ e$u}.
    external: bool,
    later: bool,
}

impl Belonging<'_> {
    fn belongs(&self, row: &Row, expression: &Expression, values: &[u32]) -> bool {
        let written = |rows: &[Vec<Term>]| rows.iter().any(|terms| row_of(terms, values) == *row);
        match expression {
            Expression::Rows(rows) => written(rows),
            Expression::AllBut(rows) => !written(rows),
            Expression::Definition(number) => self.belongs_to_definition(row, *number),
            Expression::List { issuer, name, polarity, own } => match value(*issuer, values) {
                number if number < FIRST_KEY => *polarity == 1,
                issuer if self.later && self.belongs_to_definition(&Row::new(&[issuer]), 0) => false,
                issuer => self.belongs_to_name(row, [issuer, *name, *polarity], *own),
            },
            Expression::Vetted { issuer, name, own, definition } => match value(*issuer, values) {
                number if number < FIRST_KEY => false,
                issuer => !self.belongs_to_definition(&Row::new(&[issuer]), *definition) && self.belongs_to_name(row, [issuer, *name, 0], *own),
            },
            Expression::Union(left, right) => self.belongs(row, left, values) || self.belongs(row, right, values),
            Expression::Difference(left, right) => self.belongs(row, left, values) && !self.belongs(row, right, values),
            Expression::Comprehension { guards, head } => self.some_values(row, guards, head, values),
        }
    }

    /// An own name stands for its definition; the world gives the lists of all others.
    fn belongs_to_name(&self, row: &Row, name: Name, own: Option<usize>) -> bool {
        own.map_or_else(|| self.world.gives(name, row), |definition| self.belongs_to_definition(row, definition))
    }

    fn belongs_to_definition(&self, row: &Row, number: usize) -> bool {
        let inside = Belonging { later: self.external && number > 0, ..*self };
        inside.belongs(row, &self.judged.definitions[number].expression, &[])
    }

    /// Some values of the comprehension's own variables pass every guard and make the head this row. They are sought guard by guard, to be quick.
    fn some_values(&self, row: &Row, guards: &[Guard], head: &[Term], values: &[u32]) -> bool {
        let Some((guard, others)) = guards.split_first() else { return row_of(head, values) == *row };
        match guard {
            Guard::Draw { from, pattern } => {
                let format = self.judged.format;
                let candidates = if format == Format::WiderRows { self.rows_at_most(from, values) } else { BTreeSet::new() };
                self.choices(pattern, values).iter().any(|chosen| {
                    let filled = pattern_row(pattern, values.len(), chosen);
                    let matched = match format {
                        // With these values the pattern matches one row alone,
                        Format::EqualWidths => self.belongs(&filled, from, values),
                        // or every row that begins with it; they come one after the other.
                        Format::WiderRows => {
                            let mut beginning = candidates.range(filled..).take_while(|row| row.used().starts_with(filled.used()));
                            beginning.any(|row| self.belongs(row, from, values))
                        }
                    };
                    matched && self.some_values(row, others, head, chosen)
                })
            }
            guard => self.passes(guard, values) && self.some_values(row, others, head, values),
        }
    }

    /// Rows that an expression which is not open may have, and no others belong to it: those written there, those that lists may have, and heads with any values.
    fn rows_at_most(&self, expression: &Expression, values: &[u32]) -> BTreeSet<Row> {
        match expression {
            Expression::Rows(rows) => rows.iter().map(|terms| row_of(terms, values)).collect(),
            Expression::List { own: None, .. } | Expression::Vetted { own: None, .. } => self.world.universe.clone(),
            Expression::Definition(number) | Expression::List { own: Some(number), .. } | Expression::Vetted { own: Some(number), .. } => {
                self.rows_at_most(&self.judged.definitions[*number].expression, &[])
            }
            Expression::Union(left, right) => &self.rows_at_most(left, values) | &self.rows_at_most(right, values),
            Expression::Difference(left, _) => self.rows_at_most(left, values),
            Expression::Comprehension { head, .. } => self.heads(head, values),
            Expression::AllBut(_) => unreachable!("it is open"),
        }
    }

    /// The head with each choice for those of the comprehension's own variables that it has.
    fn heads(&self, head: &[Term], values: &[u32]) -> BTreeSet<Row> {
        let own = |term: &Term| matches!(term, Term::Variable(number) if *number >= values.len());
        let Some(chosen) = head.iter().find(|term| own(term)) else { return BTreeSet::from([row_of(head, values)]) };
        let with = |atom: u32| head.iter().map(|term| if term == chosen { Term::Atom(atom) } else { *term }).collect::<Vec<Term>>();
        self.atoms.iter().flat_map(|atom| self.heads(&with(*atom), values)).collect()
    }

    fn passes(&self, guard: &Guard, values: &[u32]) -> bool {
        match guard {
            Guard::Same(a, b) => value(*a, values) == value(*b, values),
            Guard::Different(a, b) => value(*a, values) != value(*b, values),
            Guard::Absent { row, from } => !self.belongs(&row_of(row, values), from, values),
            Guard::Draw { .. } => unreachable!("a draw chooses values"),
        }
    }

    /// The values with each choice for the pattern's new variables.
    fn choices(&self, pattern: &[Slot], values: &[u32]) -> Vec<Vec<u32>> {
        let new = pattern.iter().filter(|slot| **slot == Slot::New).count();
        (0..new).fold(vec![values.to_vec()], |choices, _| {
            choices.iter().flat_map(|chosen| self.atoms.iter().map(move |&atom| [chosen.as_slice(), &[atom]].concat())).collect()
        })
    }
}

fn pattern_row(pattern: &[Slot], outside: usize, values: &[u32]) -> Row {
    let mut new = outside..;
    let terms: Vec<Term> = pattern
        .iter()
        .map(|slot| match slot {
            Slot::Term(term) => *term,
            Slot::New => Term::Variable(new.next().expect("there is always a next number")),
        })
        .collect();
    row_of(&terms, values)
}

// ---- one list of filings ----

/// The answer at one point and minute, with what was accepted so far.
struct Point {
    accepted: Accepted,
    minute: u32,
    verdict: Verdict,
    answer: Set,
}

impl Point {
    fn holding(&self) -> Accepted {
        let holds = |record: &&Record| record.validity.first <= self.minute && self.minute < record.validity.end;
        Accepted { records: self.accepted.records.iter().filter(holds).copied().collect(), ..self.accepted.clone() }
    }
}

/// What a check has looked at.
#[derive(Default, Clone, Copy, Debug)]
pub struct Seen {
    /// Queries that are refused before reading have no worlds to be held against.
    pub refused: u64,
    /// Policies that were rewritten.
    pub rewritten: u64,
    /// Own names written.
    pub own_names: u64,
    /// By format and verdict.
    pub points: [[u64; 3]; 2],
    pub worlds: u64,
    /// Rows that are in some of a point's worlds and not in others: there the bounds say something.
    pub undecided_rows: u64,
    /// Certificates that were accepted before a point and do not hold at its minute.
    pub not_holding: u64,
    /// Links that were accepted before a point, of names that the query may ask for or that links join with them.
    pub links: u64,
}

/// A random policy and query at one minute, under one key as ours, and at several points of a random list of filings. An external policy is rewritten by the
/// engine, and what it answers under the output is held against the policy as it was written.
pub fn check(engine: &dyn Engine, generator: &mut Generator, seen: &mut Seen) -> Result<(), String> {
    let external = generator.random.chance(300);
    let Pair { policy: written, query, our_key } = if external { generator.external_pair() } else { generator.sound_pair() };
    let output = if external { rewritten(&written, our_key) } else { Ok(written.clone()) };
    let (Ok(judged), Ok(_)) = (Evaluator::default().judge(&written, &query, our_key), output) else {
        seen.refused += 1;
        return Ok(());
    };
    let policy = if external { rewritten_by(engine, &written, our_key)? } else { written };
    seen.rewritten += external as u64;
    seen.own_names += judged.own_names() as u64;
    let question = Question { policy: &policy, query: &query, our_key, minute: generator.minute() };
    let points = points(engine, generator, &names_written(&judged), question)?;
    let names = with_linked(names_asked(&judged), &points.last().expect("there is a first point").accepted.links);
    let universe = universe(&points, &mut generator.random);
    let atoms = atoms(&judged, &universe);
    let show = |report| format!("{report}\n  policy {policy:?}\n  query {query:?}\n  our key {our_key}");
    for point in &points {
        let mut holding = point.holding();
        holding.links.retain(|link| names.contains(&link.first()));
        seen.not_holding += (point.accepted.records.len() - holding.records.len()) as u64;
        seen.links += holding.links.len() as u64;
        let worlds = worlds_of_minute(&names, &universe, &holding, &mut generator.random);
        let belonging: Vec<Belonging> =
            worlds.iter().map(|world| Belonging { judged: &judged, world, atoms: &atoms, external, later: false }).collect();
        for row in rows_asked(&universe, &atoms, &points) {
            let belongs: Vec<bool> = belonging.iter().map(|world| world.belongs(&row, &judged.query, &[])).collect();
            seen.undecided_rows += (belongs.contains(&true) && belongs.contains(&false)) as u64;
            bounded(point, &row, &belongs).map_err(show)?;
        }
        seen.points[judged.format as usize - 1][point.verdict as usize] += 1;
        seen.worlds += worlds.len() as u64;
    }
    points.windows(2).try_for_each(|pair| in_step(&pair[0], &pair[1])).map_err(show)
}

/// A row is in a lower answer exactly when it belongs in every world, missing from an upper one exactly when it is missing in every world; an exact answer
/// agrees with each world by itself.
fn bounded(point: &Point, row: &Row, belongs: &[bool]) -> Result<(), String> {
    let answered = point.answer.holds(row);
    let right = match point.verdict {
        Verdict::Lower => answered == belongs.iter().all(|&in_world| in_world),
        Verdict::Upper => answered == belongs.iter().any(|&in_world| in_world),
        Verdict::Exact => belongs.iter().all(|&in_world| in_world == answered),
    };
    let Point { accepted, minute, verdict, answer } = point;
    let count = belongs.iter().filter(|&&in_world| in_world).count();
    let worlds = || format!("row {:?} belongs in {count} of {} worlds of minute {minute}", row.used(), belongs.len());
    let report = || format!("{verdict:?} {answer:?}: {}; held {accepted:?}", worlds());
    if right {
        Ok(())
    } else {
        Err(report())
    }
}

/// Lower answers grow, upper ones shrink, exact ones stay.
fn in_step(earlier: &Point, later: &Point) -> Result<(), String> {
    let within = |a: &Set, b: &Set| a.minus(b) == Set::Finite(BTreeSet::new());
    let right = earlier.verdict == later.verdict
        && match earlier.verdict {
            Verdict::Lower => within(&earlier.answer, &later.answer),
            Verdict::Upper => within(&later.answer, &earlier.answer),
            Verdict::Exact => earlier.answer == later.answer,
        };
    if right {
        Ok(())
    } else {
        Err(format!("{:?} {:?} is followed by {:?} {:?}", earlier.verdict, earlier.answer, later.verdict, later.answer))
    }
}

/// Files certificates and links through the engine, and asks at the first point, in between and at the last: always at one minute, and with one word given as
/// our key.
fn points(engine: &dyn Engine, generator: &mut Generator, written: &BTreeSet<Name>, question: Question) -> Result<Vec<Point>, String> {
    let mut stores = empty_stores(&mut generator.random);
    let mut accepted = Accepted::default();
    let mut points = vec![point(engine, question, &stores, &accepted)?];
    for _ in 0..3 {
        for _ in 0..generator.random.between(1, 6) {
            let kind = generator.random.pick(&[Kind::Certificate, Kind::Certificate, Kind::Link]);
            let words = filed(generator, written, &accepted.records, kind);
            if stores.file(engine, kind, &words) == 0 {
                accepted.take(kind, &words).ok_or_else(|| format!("{kind:?} {words:?} was accepted"))?;
            }
        }
        points.push(point(engine, question, &stores, &accepted)?);
    }
    Ok(points)
}

impl Accepted {
    /// Nothing where a refusal applies to these words.
    fn take(&mut self, kind: Kind, words: &[u32]) -> Option<()> {
        match kind {
            Kind::Certificate => drop(self.records.insert(Record::from_words(words).filter(|record| record.validity.sound())?)),
            Kind::Link => drop(self.links.insert(Link::from_words(words)?)),
        }
        Some(())
    }
}

fn rewritten_by(engine: &dyn Engine, policy: &[u32], our_key: u32) -> Result<Vec<u32>, String> {
    let mut area = vec![9; MOST_POLICY_WORDS];
    let reply = engine.rewrite(policy, our_key, &mut area);
    if reply.number > 0 {
        return Err(format!("no output where no refusal applies: {reply:?}\n  policy {policy:?}\n  our key {our_key}"));
    }
    area.truncate(reply.length);
    Ok(area)
}

/// Mostly a certificate of a name that is written, or a link from one; often one whose row begins as that of one held; sometimes words that are none.
fn filed(generator: &mut Generator, written: &BTreeSet<Name>, held: &BTreeSet<Record>, kind: Kind) -> Vec<u32> {
    let (mut record, mut link) = (generator.record(), generator.link());
    // Links bring the certificates of other names in.
    let of_written = if kind == Kind::Link { 800 } else { 500 };
    if !written.is_empty() && generator.random.chance(of_written) {
        let name = written.iter().nth(generator.random.below(written.len())).expect("it is one of them");
        record.name = *name;
        [link.key, link.name, link.polarity] = *name;
    }
    if !held.is_empty() && generator.random.chance(250) {
        let earlier = held.iter().nth(generator.random.below(held.len())).expect("it is one of them");
        record = generator.appended(*earlier);
    }
    let odd = generator.random.below(10);
    match kind {
        Kind::Certificate => {
            let words = record.words();
            match odd {
                0 => words[..8].to_vec(),
                1 => [5, 1, 0, 1, 5, 0, 0, 0, 0, 20].to_vec(), // a number as key
                2 => [&words[..9], &words[8..9]].concat(),     // it ends at its first minute
                _ => words.to_vec(),
            }
        }
        Kind::Link => {
            let words = link.words();
            match odd {
                0 => words[..4].to_vec(),
                1 => [&words[..3], &[5], &words[4..]].concat(), // a number as other key
                _ => words.to_vec(),
            }
        }
    }
}

fn point(engine: &dyn Engine, question: Question, stores: &Stores, accepted: &Accepted) -> Result<Point, String> {
    let Areas { answer, definitions, scratch } = Areas::LEAST;
    let (mut answer, mut definitions, mut scratch) = (vec![9; answer], vec![9; definitions], vec![9; scratch]);
    let lent = Lent { answer: &mut answer, definitions: &mut definitions, scratch: &mut scratch };
    let reply = engine.query(question, &stores.store, &stores.links, lent);
    let verdict = match (reply.number, reply.verdict) {
        (0, 0) => Verdict::Exact,
        (0, 1) => Verdict::Lower,
        (0, 2) => Verdict::Upper,
        _ => return Err(format!("no answer where no refusal applies: {reply:?}\n  {question:?}")),
    };
    let answer = Set::from_words(&answer).ok_or("the answer is no sound set")?;
    Ok(Point { accepted: accepted.clone(), minute: question.minute, verdict, answer })
}

/// The names that the expressions may ask a world for: all but own names.
fn names_asked(judged: &Judged) -> BTreeSet<Name> {
    let asked = |expression: &Expression| !matches!(expression, Expression::List { own: Some(_), .. } | Expression::Vetted { own: Some(_), .. });
    judged.expressions().into_iter().filter(|expression| asked(expression)).flat_map(|expression| names_of(expression, judged.our_key)).collect()
}

/// These, and own names.
fn names_written(judged: &Judged) -> BTreeSet<Name> {
    judged.expressions().into_iter().flat_map(|expression| names_of(expression, judged.our_key)).collect()
}

/// The names that a list may be of: a variable issuer may be any key.
fn names_of(expression: &Expression, our_key: u32) -> Vec<Name> {
    let (issuer, name, polarity) = match expression {
        Expression::List { issuer, name, polarity, .. } => (*issuer, *name, *polarity),
        Expression::Vetted { issuer, name, .. } => (*issuer, *name, 0),
        _ => return Vec::new(),
    };
    let keys = match issuer {
        Term::Atom(atom) => vec![atom],
        Term::Variable(_) => [SMALL.keys, &[our_key]].concat(),
    };
    keys.into_iter().map(|key| [key, name, polarity]).collect()
}

/// These names, and all that links join with them, whichever way: the lists of others have no say.
fn with_linked(mut names: BTreeSet<Name>, links: &BTreeSet<Link>) -> BTreeSet<Name> {
    let half_in = |names: &BTreeSet<Name>, link: &Link| names.contains(&link.first()) != names.contains(&link.second());
    while let Some(link) = links.iter().find(|link| half_in(&names, link)) {
        names.extend([link.first(), link.second()]);
    }
    names
}

/// All certified rows, and some of `ROWS`.
fn universe(points: &[Point], random: &mut Random) -> BTreeSet<Row> {
    let accepted = &points.last().expect("there is a first point").accepted;
    let mut universe: BTreeSet<Row> = accepted.records.iter().map(|record| record.row).collect();
    universe.extend(ROWS.iter().filter(|_| random.chance(400)).map(|row| Row::new(row)));
    universe
}

/// The atoms written in policy and query, and those of the universe.
fn atoms(judged: &Judged, universe: &BTreeSet<Row>) -> BTreeSet<u32> {
    let mut atoms: BTreeSet<u32> = universe.iter().flat_map(|row| row.used().to_vec()).collect();
    let mut terms: Vec<Term> = Vec::new();
    for expression in judged.expressions() {
        match expression {
            Expression::Rows(rows) | Expression::AllBut(rows) => terms.extend(rows.iter().flatten()),
            Expression::Comprehension { head, .. } => terms.extend(head),
            _ => {}
        }
    }
    atoms.extend(terms.iter().filter_map(|term| if let Term::Atom(atom) = term { Some(*atom) } else { None }));
    atoms
}

/// The universe, what the answers list, rows of one and two of the atoms, and rows that nothing mentions.
fn rows_asked(universe: &BTreeSet<Row>, atoms: &BTreeSet<u32>, points: &[Point]) -> BTreeSet<Row> {
    let mut rows = universe.clone();
    rows.extend(points.iter().flat_map(|point| point.answer.listed()));
    rows.extend(atoms.iter().map(|&a| Row::new(&[a])));
    rows.extend(atoms.iter().flat_map(|&a| atoms.iter().take(3).map(move |&b| Row::new(&[a, b]))));
    rows.extend([Row::new(&[97]), Row::new(&[97, 96, 95])]);
    rows
}

#[cfg(test)]
mod tests {
    use super::*;
    use crate::faults::Fault;
    use crate::generate::assemble;
    use crate::library::Library;

    fn run(engine: &dyn Engine, lists: usize) -> (Result<(), String>, Seen) {
        let mut generator = Generator::new(3, &SMALL);
        let mut seen = Seen::default();
        let result = (0..lists).try_for_each(|_| check(engine, &mut generator, &mut seen));
        (result, seen)
    }

    #[test]
    fn demand_3_holds_of_the_library_and_of_the_evaluator() {
        let engines: [&dyn Engine; 2] = [&Library, &Evaluator::default()];
        for engine in engines {
            let (result, seen) = run(engine, 500);
            assert_eq!(result, Ok(()));
            println!("{seen:?}");
            assert!(seen.points.as_flattened().iter().all(|&count| count > 50) && seen.undecided_rows > 1_000, "{seen:?}");
            assert!(seen.rewritten > 50 && seen.own_names > 100 && seen.not_holding > 1_000 && seen.links > 1_000, "{seen:?}");
        }
    }

    /// Each of three names of one polarity, under every set of links between them, against every world over two rows where the links are true. Either row is
    /// certified of one of the names.
    fn links_between_three_names(engine: &dyn Engine) -> Result<(), String> {
        let mut random = Random::new(1);
        let rows = [5, 6].map(|atom| Row::new(&[atom]));
        let universe = BTreeSet::from(rows);
        for (polarity, chosen) in [0, 1].into_iter().flat_map(|polarity| (0..1 << 9).map(move |chosen| (polarity, chosen))) {
            let names = [1, 2, 3].map(|n| [key(n), 1, polarity]);
            let mut accepted = Accepted::default();
            let mut stores = empty_stores(&mut random);
            let links = (0..9).filter(|place| chosen >> place & 1 == 1).map(|place| [names[place / 3], names[place % 3]]);
            for words in links.map(|[[key, name, _], [other_key, other_name, _]]| [key, name, polarity, other_key, other_name]) {
                assert_eq!(stores.file(engine, Kind::Link, &words), 0);
                accepted.take(Kind::Link, &words).expect("it is well formed");
            }
            for row in rows {
                let words = Record { name: random.pick(&names), row, validity: ALWAYS }.words();
                assert_eq!(stores.file(engine, Kind::Certificate, &words), 0);
                accepted.take(Kind::Certificate, &words).expect("it is sound");
            }
            let worlds = worlds_of_minute(&BTreeSet::from(names), &universe, &accepted, &mut random);
            for name in names {
                let question = Question { policy: &[1, 0], query: &[4, 0, name[0], 1, polarity], our_key: key(9), minute: 0 };
                let point = point(engine, question, &stores, &accepted)?;
                for row in rows.iter().chain([&Row::new(&[97])]) {
                    bounded(&point, row, &worlds.iter().map(|world| world.gives(name, row)).collect::<Vec<bool>>())?;
                }
            }
        }
        Ok(())
    }

    #[test]
    fn every_set_of_links_between_three_names_is_read_as_its_worlds_have_it() {
        assert_eq!(links_between_three_names(&Library), Ok(()));
        assert_eq!(links_between_three_names(&Evaluator::default()), Ok(()));
        for fault in [Fault::LinksFollowedOneStep, Fault::LinksTheWrongWay, Fault::MinusListsUnited, Fault::CirclesCut, Fault::LinksGoneThroughOnce] {
            assert!(links_between_three_names(&Evaluator { fault: Some(fault) }).is_err(), "{fault:?} is not noticed");
        }
    }

    /// The words of each pattern of this width: fixed terms, new variables, and those used again.
    fn patterns(width: u32) -> Vec<Vec<u32>> {
        let slots = |pattern: &Vec<u32>| {
            let new = pattern[1..].chunks(2).filter(|slot| slot[0] == 2).count() as u32;
            (0..new).map(|variable| [1, variable]).chain([[0, 5], [2, new]]).map(|slot| [&pattern[..], &slot].concat()).collect::<Vec<_>>()
        };
        (0..width).fold(vec![vec![width]], |patterns, _| patterns.iter().flat_map(slots).collect())
    }

    /// Each pattern of one to three slots, drawn from a list, in both formats, with each choice of rows certified of it, against every world over these rows.
    fn patterns_over_lists(engine: &dyn Engine) -> Result<(), String> {
        let mut random = Random::new(1);
        let rows = [&[5][..], &[5, 5], &[6, 5], &[5, 6, 5], &[6, 6, 5], &[5, 5, 5, 6]].map(Row::new);
        let (universe, atoms, name) = (BTreeSet::from(rows), BTreeSet::from([5, 6]), [key(1), 1, 0]);
        for chosen in 0..1 << rows.len() {
            let mut stores = empty_stores(&mut random);
            let mut accepted = Accepted::default();
            for (_, row) in rows.into_iter().enumerate().filter(|(place, _)| chosen >> place & 1 == 1) {
                let words = Record { name, row, validity: ALWAYS }.words();
                assert_eq!(stores.file(engine, Kind::Certificate, &words), 0);
                accepted.take(Kind::Certificate, &words).expect("it is sound");
            }
            let worlds = worlds_of_minute(&BTreeSet::from([name]), &universe, &accepted, &mut random);
            for (format, pattern) in Format::BOTH.into_iter().flat_map(|format| (1..=3).flat_map(patterns).map(move |pattern| (format, pattern))) {
                // The head has the new variables, and 5 where there is none.
                let new: Vec<u32> = pattern[1..].chunks(2).filter(|slot| slot[0] == 2).flat_map(|slot| [1, slot[1]]).collect();
                let head = if new.is_empty() { vec![1, 0, 5] } else { [&[new.len() as u32 / 2], &new[..]].concat() };
                let (policy, query) = ([format as u32, 0], [&[7, 1, 1, 4, 0, key(1), 1, 0], &pattern[..], &head].concat());
                let question = Question { policy: &policy, query: &query, our_key: key(9), minute: 0 };
                let judged = Evaluator::default().judge(&policy, &query, key(9)).expect("it passes");
                let point = point(engine, question, &stores, &accepted)?;
                let belongs = |row: &Row, world| {
                    let belonging = Belonging { judged: &judged, world, atoms: &atoms, external: false, later: false };
                    belonging.belongs(row, &judged.query, &[])
                };
                for row in point.answer.listed() | &rows_of_atoms(head[0] as usize, &[5, 6]) {
                    bounded(&point, &row, &worlds.iter().map(|world| belongs(&row, world)).collect::<Vec<bool>>())?;
                }
            }
        }
        Ok(())
    }

    /// Every row of so many of these atoms.
    fn rows_of_atoms(width: usize, atoms: &[u32]) -> BTreeSet<Row> {
        let longer = |row: &Vec<u32>| atoms.iter().map(|&atom| [&row[..], &[atom]].concat()).collect::<Vec<_>>();
        let rows = (0..width).fold(vec![vec![]], |rows, _| rows.iter().flat_map(longer).collect());
        rows.iter().map(|atoms: &Vec<u32>| Row::new(atoms)).collect()
    }

    /// The matching rule taken wrongly, as single patterns show it.
    const MATCHING: [Fault; 11] = [
        Fault::Format1Wider,
        Fault::Format2Equal,
        Fault::Format1Padded,
        Fault::NarrowerRowMatched,
        Fault::NarrowerRowPadded,
        Fault::LastAtomsMatched,
        Fault::OneAtomMoreAtMost,
        Fault::EqualWidthPassedOver,
        Fault::FixedTermOfWiderRowPasses,
        Fault::VariableOfWiderRowPasses,
        Fault::LastSlotOfWiderRowPasses,
    ];

    #[test]
    fn every_pattern_is_read_as_its_worlds_have_it() {
        assert_eq!([1, 2, 3].map(|width| patterns(width).len()), [2, 5, 15]);
        assert_eq!(patterns_over_lists(&Library), Ok(()));
        assert_eq!(patterns_over_lists(&Evaluator::default()), Ok(()));
        for fault in MATCHING {
            assert!(patterns_over_lists(&Evaluator { fault: Some(fault) }).is_err(), "{fault:?} is not noticed");
        }
    }

    /// k1 is our key. Our name 1 is k2's name 1 and the row 7; our name 2 is our name 1.
    fn own_names(polarity: u32, compromised: &[u32]) -> Vec<u32> {
        let first = vec![5, 4, 0, key(2), 1, polarity, 1, 1, 1, 0, 7];
        let definitions = [(0, 1, compromised.to_vec()), (1, polarity, first), (2, polarity, vec![4, 0, key(1), 1, polarity])];
        assemble(1, &definitions)
    }

    /// Those names, the lists of both keys and variables that hold the keys: in each place that names are written at.
    fn queries_over_own_names(polarity: u32) -> Vec<Vec<u32>> {
        let lists = [[key(1), 1], [key(1), 2], [key(2), 1]].map(|[key, name]| [4, 0, key, name, polarity]);
        let numbers = [1, 3, 1, 0, 5, 1, 0, 6, 1, 0, 7];
        let absent = |from: &[u32]| [&[7, 2, 1], &numbers[..], &[1, 2, 0, 4, 1, 1, 0], from, &[1, 1, 0]].concat();
        let held = |key: u32| [&[7, 3, 1, 1, 1, 1, 0, key, 1, 2, 0, 1], &numbers[..], &[1, 2, 1, 4, 1, 1, 1, 4, 1, 0, 1, polarity, 1, 1, 1]].concat();
        let mut queries: Vec<Vec<u32>> = [key(1), key(2)].map(held).to_vec();
        for list in lists {
            queries.extend([list.to_vec(), absent(&list), [&[6], &numbers[..], &list].concat()]);
            if polarity == 0 {
                let vetted = [&[8], &list[1..], &[0]].concat();
                queries.extend([list.to_vec(), vetted].map(|from| [&[7, 1, 1], &from[..], &[1, 2, 0, 1, 1, 0]].concat()));
            }
        }
        queries
    }

    /// Each of these queries, with every set of links between name 1 of both keys and each choice of rows certified of it, against every world over two rows;
    /// with + also after the policy was rewritten, while k1, k2 or neither is compromised.
    fn own_names_over_lists(engine: &dyn Engine) -> Result<(), String> {
        let mut random = Random::new(1);
        let rows = [5, 6].map(|atom| Row::new(&[atom]));
        let (universe, atoms) = (BTreeSet::from(rows), BTreeSet::from([5, 6, 7, key(1), key(2)]));
        for (polarity, chosen) in [0, 1].into_iter().flat_map(|polarity| (0..1 << 8).map(move |chosen| (polarity, chosen))) {
            let names = [1, 2].map(|n| [key(n), 1, polarity]);
            let pairs = |first| (0..4).filter(move |place| chosen >> (first + place) & 1 == 1).map(|place| (place / 2, place % 2));
            let links = pairs(0).map(|(one, other)| (Kind::Link, [&names[one][..], &names[other][..2]].concat()));
            let records =
                pairs(4).map(|(one, row)| (Kind::Certificate, Record { name: names[one], row: rows[row], validity: ALWAYS }.words().to_vec()));
            let (mut stores, mut accepted) = (empty_stores(&mut random), Accepted::default());
            for (kind, words) in links.chain(records) {
                assert_eq!(stores.file(engine, kind, &words), 0);
                accepted.take(kind, &words).expect("no refusal applies");
            }
            let worlds = worlds_of_minute(&BTreeSet::from(names), &universe, &accepted, &mut random);
            let compromised = [vec![1, 0], vec![1, 1, 1, 0, key(1)], vec![1, 1, 1, 0, key(2)]];
            let externals = if polarity == 0 { &[false, true][..] } else { &[false] };
            for (compromised, &external) in compromised.iter().flat_map(|compromised| externals.iter().map(move |external| (compromised, external))) {
                let written = own_names(polarity, compromised);
                let policy = if external { rewritten_by(engine, &written, key(1))? } else { written.clone() };
                for query in queries_over_own_names(polarity) {
                    let judged = Evaluator::default().judge(&written, &query, key(1)).expect("it passes");
                    let point = point(engine, Question { policy: &policy, query: &query, our_key: key(1), minute: 0 }, &stores, &accepted)?;
                    let belongs = |row: &Row, world| {
                        let belonging = Belonging { judged: &judged, world, atoms: &atoms, external, later: false };
                        belonging.belongs(row, &judged.query, &[])
                    };
                    for row in [5, 6, 7, 97].map(|atom| Row::new(&[atom])) {
                        bounded(&point, &row, &worlds.iter().map(|world| belongs(&row, world)).collect::<Vec<bool>>())?;
                    }
                }
            }
        }
        Ok(())
    }

    /// What own names, and names under our key that are none, are wrongly taken for.
    const OWN_NAMES: [Fault; 21] = [
        Fault::OurKeyIgnored,
        Fault::DefinitionsWithoutOwnNames,
        Fault::QueryWithoutOwnNames,
        Fault::VettedWithoutOwnNames,
        Fault::CertificatesReadForOwnName,
        Fault::CertificatesReadForOwnVetted,
        Fault::OwnDrawnFromCertificates,
        Fault::OwnAbsentFromCertificates,
        Fault::OwnJoinedWithCertificates,
        Fault::OwnJoinedWithLinks,
        Fault::OwnReadAsFirst,
        Fault::OwnReadAsLast,
        Fault::OwnMissingInQuery,
        Fault::OwnMissingInVetted,
        Fault::OwnVettedNotLookedUp,
        Fault::OwnVettedReadAsItsGuard,
        Fault::VariableReadsDefinition,
        Fault::VariableOfOurKeyUnknown,
        Fault::LinkReachesDefinition,
        Fault::LinkToOurKeyNotFollowed,
        Fault::OwnNotRewritten,
    ];

    #[test]
    fn every_own_name_is_read_as_the_worlds_of_its_definition_have_it() {
        assert_eq!(own_names_over_lists(&Library), Ok(()));
        assert_eq!(own_names_over_lists(&Evaluator::default()), Ok(()));
        for fault in OWN_NAMES {
            assert!(own_names_over_lists(&Evaluator { fault: Some(fault) }).is_err(), "{fault:?} is not noticed");
        }
    }

    #[test]
    fn wrong_meanings_are_noticed_without_a_second_evaluator() {
        let meanings = [
            Fault::UnknownListTakenAsEmpty,
            Fault::ComplementAndFiniteJoined,
            Fault::ComplementsSubtractedStraight,
            Fault::NumberIssuerHasNoRows,
            Fault::PatternVariableNotCompared,
            Fault::AbsentNotTurnedRound,
            Fault::VettedNotLookedUp,
            Fault::LookUpTurnedRound,
            Fault::LookUpAmongListed,
            Fault::LookUpByFirstAtom,
            Fault::VettedByDefinition0,
            Fault::Definition0RewrittenToo,
            Fault::OneListRewritten,
            Fault::OffsetsNotMoved,
            Fault::LengthsNotChanged,
            Fault::EndHolds,
            Fault::FirstDoesNotHold,
            Fault::MinuteIgnored,
            Fault::ExpiredRead,
            Fault::NotYetHoldingRead,
            Fault::LastMinuteHolds,
            Fault::FirstRecordOfRowDecides,
            Fault::LastRecordOfRowDecides,
            Fault::VettedAtAnyMinute,
            Fault::AbsentAtAnyMinute,
            Fault::DefinitionsAtMinute0,
            Fault::LinksNotRead,
            Fault::LinksFollowedOneStep,
            Fault::LinksTheWrongWay,
            Fault::LinksBothWays,
            Fault::MinusLinksTheWrongWay,
            Fault::MinusLinksNotRead,
            Fault::LinkPolarityIgnored,
            Fault::LinkPolarityTurnedRound,
            Fault::ItselfNotJoined,
            Fault::ItselfNotJoinedWhereLinked,
            Fault::CirclesCut,
            Fault::SearchStopsAtNameMetBefore,
            Fault::FirstLinkOfNameAlone,
            Fault::LinksGoneThroughOnce,
            Fault::LinksOfKey,
            Fault::LinksOfNumber,
            Fault::OtherKeyIgnored,
            Fault::OtherNameIgnored,
            Fault::VettedWithoutLinks,
            Fault::ReachedVetted,
            Fault::AbsentWithoutLinks,
            Fault::DefinitionsWithoutLinks,
            Fault::MinusListsUnited,
            Fault::ReachedAtAnyMinute,
            Fault::ReachedOfBothPolarities,
            Fault::BehindPatternBound,
            Fault::QueryEqual,
            Fault::QueryWider,
            Fault::DefinitionsEqual,
            Fault::DefinitionsWider,
            Fault::QueryAloneEqual,
            Fault::UnderAbsentEqual,
            Fault::UnderDrawEqual,
            Fault::LiteralsDrawnEqual,
            Fault::NamesDrawnEqual,
            Fault::AbsentByFirstAtoms,
            Fault::AbsentByShorterRow,
            Fault::AbsentFromLiteralByFirstAtoms,
            Fault::LookUpByFirstAtomInFormat2,
            Fault::SubtractedByFirstAtoms,
            Fault::RewriterWritesFormat1,
            Fault::RewriterWritesFormat2,
            Fault::OwnFoundByNameAlone,
            Fault::VettedVariableReadsDefinition,
        ];
        let faults: Vec<Fault> = meanings.into_iter().chain(MATCHING).chain(OWN_NAMES).collect();
        // half of them at a time, side by side
        std::thread::scope(|scope| {
            for half in faults.chunks(faults.len().div_ceil(2)) {
                scope.spawn(move || {
                    for &fault in half {
                        let (result, _) = run(&Evaluator { fault: Some(fault) }, 8_000);
                        assert!(result.is_err(), "{fault:?} is not noticed");
                    }
                });
            }
        });
    }
}
