//! A portal in Rust: a curator's policies, with own names, are judged or rewritten, certificates arrive for a semester, links between lists for good,
//! and the tables that an astronomer gets follow them, the clock and the policy's format.
//!
//!     cd bindings/rust && cargo run --offline --example portal
//!
//! What it prints is in `portal.expected`, which was worked out from the documents by hand.

use std::error::Error;
use txindurbe::{
    calls, variable, Atom, Certificate, Date, Definition, Engine, Expression, Filing, Format, Guard, Key, Link, Links, Minute, Part, Polarity,
    Policy, Query, Refusal, Row, Rows, Store, Table, Unresolved, Validity, Verdict,
};

/// Our key: names under it are own names.
const ARCHIVE: Key = Key::new(0);
const OBSERVATORY: Key = Key::new(1);
const PARTNER: Key = Key::new(2);
const AUTHORITY: Key = Key::new(3);
const COMPROMISED: u16 = 0;
const RELEASED: u16 = 1;
const WITHDRAWN: u16 = 2;
const PUBLIC: u16 = 10;

fn released() -> Expression {
    Expression::list(OBSERVATORY, RELEASED, Polarity::Plus)
}

/// Certificates say what is not in it.
fn withdrawn() -> Expression {
    Expression::list(OBSERVATORY, WITHDRAWN, Polarity::Minus)
}

fn observations<const COUNT: usize>(numbers: [u32; COUNT]) -> Expression {
    Expression::rows(numbers.map(|number| vec![number.into()]))
}

/// An own name, which stands for the policy's definition of it.
fn own(name: u16) -> Expression {
    Expression::list(ARCHIVE, name, Polarity::Plus)
}

fn our_released() -> Definition {
    Definition::new("released", RELEASED, Polarity::Plus, released())
}

/// Each x of our released list that is absent from what is withdrawn.
fn public() -> Definition {
    let guards = [Guard::Draw(vec![variable("x")], own(RELEASED)), Guard::Absent(vec![variable("x")], withdrawn())];
    Definition::new("public", PUBLIC, Polarity::Plus, Expression::each(guards, [variable("x")]))
}

fn policy(format: Format) -> Result<Policy, Unresolved> {
    Policy::in_format(ARCHIVE, format, &[our_released(), public()])
}

/// Each x that is withdrawn.
fn through_withdrawn() -> Result<Policy, Unresolved> {
    let drawn = Expression::each([Guard::Draw(vec![variable("x")], withdrawn())], [variable("x")]);
    Policy::new(ARCHIVE, &[Definition::new("public", PUBLIC, Polarity::Minus, drawn)])
}

/// Our released list, all of which is public, and before it whose word is taken for which keys are compromised.
fn external_policy() -> Result<Policy, Unresolved> {
    let compromised = Definition::new("compromised", COMPROMISED, Polarity::Minus, Expression::list(AUTHORITY, COMPROMISED, Polarity::Minus));
    Policy::new(ARCHIVE, &[compromised, our_released(), Definition::new("public", PUBLIC, Polarity::Plus, own(RELEASED))])
}

struct Portal {
    policy: Policy,
    public: Query,
    not_public: Query,
    not_under_embargo: Query,
    now: Minute,
    store: Store,
    links: Links,
    engine: Engine,
}

impl Portal {
    /// What is public is an own name, whichever policy defines it.
    fn new(policy: Policy, now: Minute) -> Result<Portal, Unresolved> {
        let (catalogue, embargo) = (observations([7, 8, 9]), observations([9]));
        Ok(Portal {
            public: policy.query(&own(PUBLIC))?,
            not_public: policy.query(&catalogue.clone().minus(own(PUBLIC)))?,
            not_under_embargo: policy.query(&catalogue.minus(embargo))?,
            policy,
            now,
            store: Store::new(),
            links: Links::new(),
            engine: Engine::new(),
        })
    }

    fn judge(&self, question: &str, query: &Query) -> Result<(), Refusal> {
        let verdict = match self.policy.judge(query)? {
            Verdict::Lower => "lower, at least the rows listed belong, whatever is in the lists that we do not hold",
            Verdict::Upper => "upper, at most the rows listed belong, whatever is in those lists",
            Verdict::Exact => "exact, just the rows listed belong",
        };
        println!("  what {question}: {verdict}");
        Ok(())
    }

    /// Why another policy cannot stand, and the words that it is refused for.
    fn show_refusal(&self, other: &Policy) {
        if let Err(refusal) = other.judge(&self.public) {
            println!("  {refusal}");
            if let Some(part) = refusal.part() {
                println!("  its words: {}", words(other.part(&self.public, part)));
            }
        }
    }

    /// The certificate's signature has been checked before.
    fn arrives(&mut self, certificate: Certificate) -> Result<(), Refusal> {
        self.arrives_by(certificate.key, certificate)
    }

    /// The same in words, where the issuer may be a number.
    fn arrives_by(&mut self, issuer: impl Into<Atom>, certificate: Certificate) -> Result<(), Refusal> {
        let (issuer, mut words) = (issuer.into(), certificate.words());
        words[0] = issuer.word();
        let (is, list) = (if certificate.polarity == Polarity::Plus { "is" } else { "is not" }, list(certificate.name));
        print!("{issuer} certifies that {} {is} {list}, {}: ", row(&certificate.row), term(certificate.validity)?);
        let filing = self.store.file_words(&words);
        self.show_filing(filing)
    }

    /// The link's signature has been checked before too.
    fn is_linked(&mut self, link: Link) -> Result<(), Refusal> {
        self.is_linked_to(link.other_key, link)
    }

    /// The same in words, where the other list may be a number's.
    fn is_linked_to(&mut self, other: impl Into<Atom>, link: Link) -> Result<(), Refusal> {
        let (other, mut words) = (other.into(), link.words());
        words[3] = other.word();
        let is = if link.polarity == Polarity::Plus { "contains" } else { "is contained in" };
        print!("{} says that its {} list {is} the {} list of {other}: ", link.key, list(link.name), list(link.other_name));
        let filing = self.links.file_words(&words);
        self.show_filing(filing)
    }

    fn show_filing(&mut self, filing: Result<Filing, Refusal>) -> Result<(), Refusal> {
        match filing {
            Ok(Filing::Filed) => {
                println!("filed");
                self.show_tables()?;
            }
            Ok(Filing::Held) => println!("held already"),
            Err(refusal) => println!("{refusal}"),
        }
        Ok(())
    }

    /// The tables at another minute.
    fn it_is(&mut self, now: Minute) -> Result<(), Refusal> {
        self.now = now;
        println!("It is {}:", time(now)?);
        self.show_tables()
    }

    fn show_tables(&mut self) -> Result<(), Refusal> {
        for (about, query) in [("public", &self.public), ("not public", &self.not_public), ("not under embargo", &self.not_under_embargo)] {
            let answer = self.engine.query(&self.policy, query, self.now, &self.store, &self.links)?;
            println!("  {about}, {}", table(answer.table()));
        }
        Ok(())
    }
}

fn table(table: &Table) -> String {
    match table {
        Table::Lower(rows) => format!("at least: {}", listed(rows)),
        Table::Upper(rows) => format!("at most: {}", listed(rows)),
        Table::Exact(rows) => format!("exactly: {}", listed(rows)),
    }
}

fn listed(rows: &Rows) -> String {
    let side_by_side = |rows: &[Row]| rows.iter().map(row).collect::<Vec<_>>().join(", ");
    match rows {
        Rows::Only(listed) if listed.is_empty() => "none".into(),
        Rows::Only(listed) => side_by_side(listed),
        Rows::AllBut(excluded) if excluded.is_empty() => "all rows".into(),
        Rows::AllBut(excluded) => format!("all rows but {}", side_by_side(excluded)),
    }
}

fn row(row: &Row) -> String {
    row.atoms().iter().map(Atom::to_string).collect::<Vec<_>>().join("/")
}

fn list(name: u16) -> &'static str {
    match name {
        COMPROMISED => "compromised",
        RELEASED => "released",
        _ => "withdrawn",
    }
}

fn time(minute: Minute) -> Result<String, Refusal> {
    let Date { year, month, day, hour, minute } = minute.date()?;
    Ok(format!("{year}-{month:02}-{day:02} {hour:02}:{minute:02}"))
}

fn term(Validity { first, end }: Validity) -> Result<String, Refusal> {
    Ok(format!("from {} to {}", time(first)?, time(end)?))
}

fn words(words: &[u32]) -> String {
    words.iter().map(|&word| Atom::from(word).to_string()).collect::<Vec<_>>().join(" ")
}

fn main() -> Result<(), Box<dyn Error>> {
    let semester = Validity::from_dates(Date::day(2027, 1, 1), Date::day(2027, 7, 1))?;
    let next = Validity::from_dates(Date::day(2027, 7, 1), Date::day(2028, 1, 1))?;
    let mut portal = Portal::new(policy(Format::EqualWidths)?, Minute::from_date(Date::day(2027, 3, 20))?)?;
    println!("Our key is k0. The policy: our released list is observatory k1's, and an observation of it is public if k1 did not withdraw it.");
    portal.judge("is public", &portal.public)?;
    portal.judge("of 7, 8 and 9 is not public", &portal.not_public)?;
    portal.judge("of 7, 8 and 9 is not under embargo", &portal.not_under_embargo)?;

    println!("Another policy goes through k1's withdrawn list, of which certificates say only what is not in it:");
    portal.show_refusal(&through_withdrawn()?);
    println!("Another one says what is public first, by an own name that it defines only after that:");
    portal.show_refusal(&Policy::new(ARCHIVE, &[public(), our_released()])?);
    println!("The policy, with the number 5 as our key:");
    let in_words = calls::judge(portal.policy.words(), portal.public.words(), 5);
    if let Some(refusal) = Refusal::from_number(in_words.number, None) {
        println!("  {refusal}");
    }

    println!("No certificate yet.");
    portal.it_is(portal.now)?;
    portal.arrives(Certificate::listed(OBSERVATORY, RELEASED, [7], semester))?;
    portal.arrives(Certificate::not_listed(OBSERVATORY, WITHDRAWN, [7], semester))?;
    portal.arrives(Certificate::listed(OBSERVATORY, RELEASED, [7], semester))?;
    portal.arrives_by(5, Certificate::listed(OBSERVATORY, RELEASED, [8], semester))?;
    portal.arrives(Certificate::listed(OBSERVATORY, RELEASED, [8], semester))?;
    portal.arrives(Certificate::not_listed(OBSERVATORY, WITHDRAWN, [8], semester))?;
    portal.arrives(Certificate::listed(OBSERVATORY, RELEASED, [7, 1], semester))?;
    println!("Our released list is what the policy says that it is, whatever is certified under our key:");
    portal.arrives(Certificate::listed(ARCHIVE, RELEASED, [9], semester))?;
    portal.arrives(Certificate::not_listed(OBSERVATORY, WITHDRAWN, [9], semester))?;
    for (name, list) in [("k1's released", released()), ("k1's withdrawn", withdrawn()), ("our released", own(RELEASED))] {
        let answer = portal.engine.query(&portal.policy, &portal.policy.query(&list)?, portal.now, &portal.store, &portal.links)?;
        println!("Now {name} list has, {}", table(answer.table()));
    }

    println!("The certificates are for a semester: before it they do not hold yet, and at its end they hold no longer.");
    let before = |minute: Minute| Minute::new(minute.number() - 1);
    for minute in [before(semester.first), semester.first, before(semester.end), semester.end] {
        portal.it_is(minute)?;
    }
    portal.arrives(Certificate::listed(OBSERVATORY, RELEASED, [7], Validity { end: next.first, ..next }))?;
    portal.arrives(Certificate::listed(OBSERVATORY, RELEASED, [7], next))?;
    portal.arrives(Certificate::not_listed(OBSERVATORY, WITHDRAWN, [7], next))?;
    println!("Observatory k2 works for k1. What it certifies counts for k1's lists once k1 says how they are linked:");
    portal.arrives(Certificate::listed(PARTNER, RELEASED, [8], next))?;
    portal.is_linked(Link::containing(OBSERVATORY, RELEASED, PARTNER, RELEASED))?;
    portal.arrives(Certificate::not_listed(PARTNER, WITHDRAWN, [8], next))?;
    portal.is_linked(Link::contained(OBSERVATORY, WITHDRAWN, PARTNER, WITHDRAWN))?;
    portal.is_linked(Link::contained(OBSERVATORY, WITHDRAWN, PARTNER, WITHDRAWN))?;
    portal.is_linked_to(5, Link::containing(OBSERVATORY, RELEASED, PARTNER, RELEASED))?;
    println!("Certificates of k1's released list, whenever they hold:");
    for (certified, validity) in portal.store.certificates_of(OBSERVATORY, RELEASED, Polarity::Plus) {
        println!("  {}, {}", row(&certified), term(validity)?);
    }
    if let Err(refusal) = Minute::from_date(Date::day(2027, 2, 29)) {
        println!("2027-02-29: {refusal}");
    }

    println!("Observatory k1 appends an epoch to the rows that it releases. The policy is of format 1: rows wider than its pattern are passed over.");
    portal.arrives(Certificate::listed(OBSERVATORY, RELEASED, [9, 2027], next))?;
    portal.arrives(Certificate::not_listed(OBSERVATORY, WITHDRAWN, [9], next))?;
    println!("The same policy in format 2: they are matched by their first atom.");
    portal.policy = policy(Format::WiderRows)?;
    portal.show_tables()?;

    println!("An external policy: our released list is k1's, all of it is public, and k3 says which keys are compromised. Rewritten, it vets keys:");
    let external = external_policy()?;
    let rewritten = external.rewrite()?;
    for (name, part) in [("our released list", Part::Definition(1)), ("what is public", Part::Definition(2))] {
        let [before, after] = [&external, &rewritten].map(|policy| words(policy.part(&portal.public, part)));
        println!("  {name}: {before}, rewritten: {after}");
    }
    portal.policy = rewritten;
    portal.show_tables()?;
    portal.arrives(Certificate::not_listed(AUTHORITY, COMPROMISED, [OBSERVATORY], next))?;
    println!("What is public goes through an own name, so that our key must not be compromised either:");
    portal.arrives(Certificate::not_listed(AUTHORITY, COMPROMISED, [ARCHIVE], next))?;
    Ok(())
}
