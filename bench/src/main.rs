//! The library beside a straightforward evaluator, hand-tuned programs and SQLite, on twenty-one tasks.
//!
//!     cargo run --release --offline [-- ROUNDS]
//!     cargo run --release --offline -- --archive
//!     cargo run --release --offline -- --check
//!
//! Prints a table of medians, with ratios to the hand-tuned program and what each program leaves out, and draws it to docs/benchmark.svg; then what the tool
//! takes for 100,000 filings and a query, and what of it is the engine's (`--archive` for that alone). With `--check` each program runs once and nothing is
//! measured: the programs of a task must agree, and the archive with the engine.

mod archive;
mod hand;
mod measure;
mod picture;
#[cfg(sqlite)]
mod sqlite;
mod tasks;

use differential::engine::Engine;
use differential::evaluator::{Date, Evaluator, Question};
use hand::Program;
use measure::{measure, median, Measured};
#[cfg(sqlite)]
use sqlite::{Database, Statement};
use std::process::ExitCode;
use std::rc::Rc;
use tasks::{Asked, Certificates, LinkWords, Links, Record};
use txindurbe::calls::Lent;
use txindurbe::sizes::{ANSWER_WORDS, DEFINITIONS_WORDS, LINKS_WORDS, POLICY_WORDS, ROW_WORDS, SCRATCH_WORDS, STORE_WORDS};

/// What a run found: how many rows, and the sum of their atoms, each row's times its place, so that another order is noticed.
#[derive(Clone, Copy, PartialEq, Eq, Debug, Default)]
pub struct Outcome {
    pub rows: u64,
    pub sum: u64,
    /// Where the program counts them.
    pub draws: Option<u32>,
}

impl Outcome {
    /// Of a finite answer.
    fn of(answer: &[u32], draws: u32) -> Outcome {
        let rows = answer[2..].chunks_exact(ROW_WORDS).take(answer[1] as usize);
        let sum = rows.zip(1..).map(|(row, place)| place * row[1..].iter().map(|&atom| u64::from(atom)).sum::<u64>()).sum();
        Outcome { rows: answer[1].into(), sum, draws: Some(draws) }
    }
}

/// Nothing where it is refused.
type Run = Box<dyn FnMut() -> Option<Outcome>>;

pub struct Contestant {
    pub name: &'static str,
    pub run: Run,
}

fn contestant(name: &'static str, run: impl FnMut() -> Option<Outcome> + 'static) -> Contestant {
    Contestant { name, run: Box::new(run) }
}

pub struct Task {
    pub name: &'static str,
    /// What those that count them must find.
    pub draws: u32,
    pub contestants: Vec<Contestant>,
}

impl Task {
    /// Each runs once, and must find the rows that the first one finds, after the task's draws.
    pub fn agree(&mut self) -> Result<(), String> {
        let mut rows_found = None;
        for Contestant { name, run } in &mut self.contestants {
            let Some(Outcome { rows, sum, draws }) = run() else { return Err(format!("{}: {name} refuses", self.name)) };
            if let Some(wrong) = draws.filter(|&draws| draws != self.draws) {
                return Err(format!("{}: {name} makes {wrong} draws and not {}", self.name, self.draws));
            }
            let (expected_rows, expected_sum) = *rows_found.get_or_insert((rows, sum));
            if (rows, sum) != (expected_rows, expected_sum) {
                let found = format!("{rows} rows with the sum {sum}, others {expected_rows} with {expected_sum}");
                return Err(format!("{}: {name} finds {found}", self.name));
            }
        }
        Ok(())
    }
}

pub const LIBRARY: &str = "library";
pub const STRAIGHTFORWARD: &str = "straightforward";
pub const HAND: &str = "hand-tuned";
pub const FREE: &str = "hand-tuned, free";
pub const SQLITE: &str = "SQLite";

/// A kind of program, and what it does not do of what document 01 asks.
pub struct Column {
    pub name: &'static str,
    pub colour: &'static str,
    pub leaves_out: &'static str,
}

const COLUMNS: [Column; 5] = [
    Column { name: LIBRARY, colour: "#1b6ca8", leaves_out: "nothing" },
    Column { name: STRAIGHTFORWARD, colour: "#9aa5b1", leaves_out: "nothing" },
    Column { name: HAND, colour: "#2f9e44", leaves_out: "judging, limits but for a name's 128 rows" },
    Column { name: FREE, colour: "#a9d8b0", leaves_out: "the same, testing stores and what is filed, draws that are not needed" },
    Column {
        name: SQLITE,
        colour: "#e8890c",
        leaves_out: "judging, limits, testing stores and what is filed, counting draws, draws that an index spares",
    },
];

/// The engines behind the C interface.
fn engines() -> Vec<(&'static str, Rc<dyn Engine>)> {
    vec![(LIBRARY, Rc::new(differential::library::Library)), (STRAIGHTFORWARD, Rc::new(Evaluator::default()))]
}

/// The areas of a query, used again by each.
struct Lendable {
    answer: Vec<u32>,
    definitions: Vec<u32>,
    scratch: Vec<u32>,
}

impl Lendable {
    fn new() -> Lendable {
        Lendable { answer: vec![0; ANSWER_WORDS], definitions: vec![0; DEFINITIONS_WORDS], scratch: vec![0; SCRATCH_WORDS] }
    }

    fn ask(&mut self, engine: &dyn Engine, asked: &Asked) -> Option<Outcome> {
        let lent = Lent { answer: &mut self.answer, definitions: &mut self.definitions, scratch: &mut self.scratch };
        let question = Question { policy: &asked.policy, query: &asked.query, our_key: asked.our_key, minute: asked.minute };
        let reply = engine.query(question, &asked.store, &asked.links, lent);
        (reply.number == 0).then(|| Outcome::of(&self.answer, reply.draws))
    }
}

/// A program by hand as a contestant's run.
fn by_hand(asked: &Rc<Asked>, program: impl Fn(&Asked, &mut [u32]) -> Option<u32>) -> impl FnMut() -> Option<Outcome> {
    let (asked, mut answer) = (Rc::clone(asked), vec![0; ANSWER_WORDS]);
    move || program(&asked, &mut answer).map(|draws| Outcome::of(&answer, draws))
}

/// A query task for the engines and two programs by hand, the first of which stands behind a test of the stores.
fn query_task(name: &'static str, asked: Asked, draws: u32, hand: Program, free: Program) -> Task {
    let asked = Rc::new(asked);
    let mut contestants = Vec::new();
    for (name, engine) in engines() {
        let (asked, mut areas) = (Rc::clone(&asked), Lendable::new());
        contestants.push(contestant(name, move || areas.ask(engine.as_ref(), &asked)));
    }
    contestants.push(contestant(HAND, by_hand(&asked, hand::tested(hand))));
    contestants.push(contestant(FREE, by_hand(&asked, free)));
    Task { name, draws, contestants }
}

/// Files them all into an empty store of so many words.
fn filing<const WIDTH: usize>(
    records: &[[u32; WIDTH]],
    length: usize,
    mut file: impl FnMut(&mut [u32], &[u32; WIDTH]) -> bool,
) -> impl FnMut() -> Option<Outcome> {
    let (records, mut store) = (records.to_vec(), vec![0; length]);
    move || {
        store[0] = 0;
        let filed = records.iter().filter(|record| file(&mut store, record)).count();
        Some(Outcome { rows: filed as u64, ..Outcome::default() })
    }
}

/// A program by hand that files a record, false if it was there.
type File<const WIDTH: usize> = fn(&mut [u32], &[u32; WIDTH]) -> bool;

/// A filing task for the engines, each by the same call, and two programs by hand.
fn filing_task<const WIDTH: usize>(
    name: &'static str,
    records: &[[u32; WIDTH]],
    length: usize,
    call: fn(&dyn Engine, &mut [u32], &[u32]) -> u32,
    [hand, free]: [File<WIDTH>; 2],
) -> Task {
    let mut contestants = Vec::new();
    for (name, engine) in engines() {
        contestants.push(contestant(name, filing(records, length, move |store, record| call(engine.as_ref(), store, record) == 0)));
    }
    contestants.push(contestant(HAND, filing(records, length, hand)));
    contestants.push(contestant(FREE, filing(records, length, free)));
    Task { name, draws: 0, contestants }
}

/// Rewrites the policy into an area: the rows are the output's words.
fn rewriting(policy: &[u32], mut rewrite: impl FnMut(&[u32], &mut [u32]) -> Option<usize>) -> impl FnMut() -> Option<Outcome> {
    let (policy, mut area) = (policy.to_vec(), vec![0; POLICY_WORDS]);
    move || {
        let length = rewrite(&policy, &mut area)?;
        Some(Outcome { rows: length as u64, sum: area[..length].iter().map(|&word| u64::from(word)).sum(), draws: None })
    }
}

/// SQLite takes no part.
fn rewriting_task(policy: &[u32]) -> Task {
    let mut contestants = Vec::new();
    for (name, engine) in engines() {
        let rewrite = move |policy: &[u32], area: &mut [u32]| {
            let reply = engine.rewrite(policy, tasks::OUR_KEY, area);
            (reply.number == 0).then_some(reply.length)
        };
        contestants.push(contestant(name, rewriting(policy, rewrite)));
    }
    contestants.push(contestant(HAND, rewriting(policy, hand::rewrite)));
    contestants.push(contestant(FREE, rewriting(policy, hand::rewrite)));
    Task { name: "k: an external policy of 16 definitions rewritten, 8,177 words", draws: 0, contestants }
}

/// Converts each date to minutes and back: the rows are the dates.
fn converting(dates: &[Date], mut convert: impl FnMut(Date) -> Option<(u32, Date)>) -> impl FnMut() -> Option<Outcome> {
    let dates = dates.to_vec();
    move || {
        let mut sum = 0;
        for date in &dates {
            let (minutes, back) = convert(*date)?;
            sum += u64::from(minutes) + back.iter().zip(1..).map(|(&word, place)| place * u64::from(word)).sum::<u64>();
        }
        Some(Outcome { rows: dates.len() as u64, sum, draws: None })
    }
}

/// SQLite takes no part.
fn converting_task(dates: &[Date]) -> Task {
    let mut contestants = Vec::new();
    for (name, engine) in engines() {
        let convert = move |date| {
            let minutes = Some(engine.minutes(date)).filter(|reply| reply.number == 0)?.minutes;
            Some(engine.date(minutes)).filter(|reply| reply.number == 0).map(|reply| (minutes, reply.date))
        };
        contestants.push(contestant(name, converting(dates, convert)));
    }
    let by_hand = |date| hand::minutes(date).and_then(|minutes| Some((minutes, hand::date(minutes)?)));
    contestants.push(contestant(HAND, converting(dates, by_hand)));
    contestants.push(contestant(FREE, converting(dates, by_hand)));
    Task { name: "n: 1,000 dates converted to minutes and back", draws: 0, contestants }
}

/// Without links.
fn of_store(certificates: &Certificates, policy: &[u32], query: Vec<u32>) -> Asked {
    let (store, links) = (tasks::store_of(certificates), tasks::link_store_of(&Links::new()));
    Asked { policy: policy.to_vec(), query, our_key: tasks::OUR_KEY, minute: tasks::NOW, store, links }
}

/// A list that links join with 256 others, or 255.
fn joined_task(name: &'static str, joined: &Certificates, links: &Links) -> Task {
    let asked = of_store(joined, tasks::EMPTY_POLICY, tasks::released(tasks::OBSERVATORY));
    query_task(name, Asked { links: tasks::link_store_of(links), ..asked }, 0, hand::joined, hand::joined)
}

fn unions_task(unions: &Certificates) -> Task {
    let asked = of_store(unions, &tasks::unions_policy(), tasks::unions_query());
    query_task("l: union of two names and a definition of 40 rows each, nested three deep", asked, 0, hand::unions, hand::unions)
}

fn tasks() -> Vec<Task> {
    let (certificates, delegations, observations) = (tasks::certificates(), tasks::delegations(), tasks::observations());
    let (vetted_delegations, unions, half_expired) = (tasks::vetted_delegations(), tasks::unions(), tasks::half_expired());
    let (joined, joined_withdrawn, with_epochs) = (tasks::joined(), tasks::joined_withdrawn(), tasks::with_epochs());
    let [chain, circle, star, withdrawn] = [tasks::chain(tasks::RELEASED, 0), tasks::circle(), tasks::star(), tasks::chain(tasks::WITHDRAWN, 1)];
    let filed = tasks::in_random_order(tasks::words_of(&certificates));
    let links_filed = tasks::in_random_order(tasks::words_of_links(&chain));
    let asked = |policy: &[u32], query: Vec<u32>| of_store(&certificates, policy, query);
    let alone = |query: Vec<u32>| asked(tasks::EMPTY_POLICY, query);
    let mut tasks = vec![
        query_task(
            "a: released and not withdrawn, a full store",
            asked(&tasks::policy_p(), tasks::QUERY_Q.to_vec()),
            128,
            hand::public,
            hand::public,
        ),
        query_task("b: join of two names of 100 rows", alone(tasks::join_query()), 10_100, hand::join, hand::join_free),
        query_task("c: 990,100 draws", alone(tasks::draws_query(tasks::CONSTANT)), 990_100, hand::draws_constant, hand::draws_constant_free),
        filing_task(
            "d: 1,600 certificates filed in random order",
            &filed,
            STORE_WORDS,
            |engine, store, certificate| engine.file(store, certificate),
            [hand::file, hand::file_free],
        ),
        query_task("e: a small query on a full store", alone(tasks::small_query()), 0, hand::small, hand::small),
        query_task(
            "f: 990,100 draws, another head row at each",
            alone(tasks::draws_query(tasks::LAST)),
            990_100,
            hand::draws_last,
            hand::draws_last_free,
        ),
        query_task(
            "g: delegation to 40 observatories, 840 draws",
            Asked { store: tasks::store_of(&delegations), ..alone(tasks::delegation_query()) },
            840,
            hand::delegation,
            hand::delegation,
        ),
        query_task(
            "h: absent from a definition of 128 rows",
            asked(&tasks::embargo_policy(), tasks::embargo_query()),
            128,
            hand::embargo,
            hand::embargo,
        ),
        query_task(
            "i: a small query on a full store, rows of one to three atoms",
            Asked { store: tasks::store_of(&observations), ..alone(tasks::small_query()) },
            0,
            hand::small,
            hand::small,
        ),
        query_task(
            "j: delegation to 40 observatories under a rewritten policy, 640 draws",
            of_store(&vetted_delegations, &tasks::vetted_policy(), tasks::VETTED_QUERY.to_vec()),
            640,
            hand::vetted_delegation,
            hand::vetted_delegation,
        ),
        rewriting_task(&tasks::long_external_policy()),
        unions_task(&unions),
        query_task(
            "m: released and not withdrawn, a full store, half of it expired",
            of_store(&half_expired, &tasks::policy_p(), tasks::QUERY_Q.to_vec()),
            128,
            hand::public,
            hand::public,
        ),
        converting_task(&tasks::dates()),
        joined_task("o: a name that 256 links in a chain join with others, 120 rows", &joined, &chain),
        joined_task("p: a name that 256 links in a circle join with others, 120 rows", &joined, &circle),
        joined_task("q: a name that 256 links in a star join with others, 120 rows", &joined, &star),
        query_task(
            "r: released and not withdrawn, the withdrawn list through 256 links in a chain",
            Asked { links: tasks::link_store_of(&withdrawn), ..of_store(&joined_withdrawn, &tasks::policy_p(), tasks::QUERY_Q.to_vec()) },
            128,
            hand::public_joined,
            hand::public_joined,
        ),
        filing_task(
            "s: 256 links filed in random order",
            &links_filed,
            LINKS_WORDS,
            |engine, links, link| engine.file_link(links, link),
            [hand::file_link, hand::file_link_free],
        ),
        query_task(
            "t: join of two names of 100 rows in format 2, two of three rows with an epoch appended",
            of_store(&with_epochs, tasks::EMPTY_POLICY_WIDER_ROWS, tasks::join_query()),
            10_100,
            hand::join_wider,
            hand::join_wider_free,
        ),
        query_task(
            "u: absent from an own name of 128 rows, the last of 16 definitions",
            asked(&tasks::definitions_policy(), tasks::own_name_query()),
            128,
            hand::embargo_by_name,
            hand::embargo_by_name,
        ),
    ];
    let stores = [&certificates, &delegations, &observations, &vetted_delegations, &unions, &half_expired, &with_epochs];
    let linked = [(&joined, &chain), (&joined, &circle), (&joined, &star), (&joined_withdrawn, &withdrawn)];
    for (task, run) in tasks.iter_mut().zip(sqlite_runs(stores, linked, filed, links_filed)) {
        task.contestants.extend(run.map(|run| Contestant { name: SQLITE, run }));
    }
    tasks
}

/// In the order of the tasks, none for rewriting and converting. The databases live as long as the program.
#[cfg(sqlite)]
fn sqlite_runs(
    stores: [&Certificates; 7],
    linked: [(&Certificates, &Links); 4],
    filed: Vec<Record>,
    links_filed: Vec<LinkWords>,
) -> [Option<Run>; 21] {
    let kept = |database: Database| -> &'static Database { Box::leak(Box::new(database)) };
    let stores = stores.map(|certificates| kept(Database::holding(tasks::words_of(certificates))));
    let [held, delegations, observations, vetted_delegations, unions, half_expired, with_epochs] = stores;
    let linked = linked.map(|(certificates, links)| kept(Database::linked(tasks::words_of(certificates), tasks::words_of_links(links))));
    let [chain, circle, star, withdrawn] = linked;
    let (empty, literals) = (kept(Database::linked([], [])), kept(Database::of_literals()));
    held.hold("embargoed", tasks::embargoed());
    held.define(tasks::definitions());
    let answered =
        |mut statement: Statement<'static>, columns| -> Option<Run> { Some(Box::new(move || Some(statement.run(&[tasks::NOW], columns)))) };
    let drawn = |mut statement: Statement<'static>| -> Option<Run> { Some(Box::new(move || Some(statement.run(&[], 1)))) };
    let (mut insert, mut transaction) = (empty.insert(), empty.transaction("certificate"));
    let (mut insert_link, mut link_transaction) = (empty.insert_link(), empty.transaction("link"));
    [
        answered(held.public(), 1),
        answered(held.join(), 2),
        drawn(literals.draws_constant()),
        Some(Box::new(move || Some(empty.file_all(&mut insert, &mut transaction, &filed)))),
        answered(held.small(), 4),
        drawn(literals.draws_last()),
        answered(delegations.delegation(), 1),
        answered(held.embargo(), 1),
        answered(observations.small(), 4),
        answered(vetted_delegations.vetted_delegation(), 1),
        None,
        answered(unions.unions(), 1),
        answered(half_expired.public(), 1),
        None,
        answered(chain.joined(), 1),
        answered(circle.joined(), 1),
        answered(star.joined(), 1),
        answered(withdrawn.public_joined(), 1),
        Some(Box::new(move || Some(empty.file_all(&mut insert_link, &mut link_transaction, &links_filed)))),
        answered(with_epochs.join_wider(), 2),
        answered(held.embargo_by_name(), 1),
    ]
}

#[cfg(not(sqlite))]
fn sqlite_runs(_: [&Certificates; 7], _: [(&Certificates, &Links); 4], _: Vec<Record>, _: Vec<LinkWords>) -> [Option<Run>; 0] {
    []
}

/// Three digits, in the unit that fits.
pub fn readable(seconds: f64) -> String {
    let (value, unit) = match seconds {
        s if s < 1e-6 => (s * 1e9, "ns"),
        s if s < 1e-3 => (s * 1e6, "µs"),
        s if s < 1.0 => (s * 1e3, "ms"),
        s => (s, "s"),
    };
    let digits = if value < 10.0 {
        2
    } else if value < 100.0 {
        1
    } else {
        0
    };
    format!("{value:.digits$} {unit}")
}

/// With two digits, or as a whole number where that is enough.
pub fn ratio(of: f64) -> String {
    if of < 10.0 {
        format!("{of:.2} ×")
    } else {
        format!("{of:.0} ×")
    }
}

fn cell(measured: &Measured, contestant: &str) -> String {
    let (Some(seconds), Some(hand)) = (measured.seconds(contestant), measured.seconds(HAND)) else { return "–".into() };
    format!("{} ({})", readable(seconds), ratio(seconds / hand))
}

/// Those that took part.
pub fn columns(measured: &[Measured]) -> Vec<Column> {
    COLUMNS.into_iter().filter(|column| measured.iter().any(|task| task.seconds(column.name).is_some())).collect()
}

fn print_line(first: &str, cells: impl Iterator<Item = String>) {
    println!("| {first} | {} |", cells.collect::<Vec<_>>().join(" | "));
}

fn print_table(measured: &[Measured]) {
    let columns = columns(measured);
    print_line("task", columns.iter().map(|column| column.name.into()));
    println!("|---|{}", "---|".repeat(columns.len()));
    print_line("*leaves out*", columns.iter().map(|column| format!("*{}*", column.leaves_out)));
    for task in measured {
        print_line(task.task, columns.iter().map(|column| cell(task, column.name)));
    }
}

fn processor() -> String {
    let info = std::fs::read_to_string("/proc/cpuinfo").unwrap_or_default();
    let model = info.lines().find_map(|line| line.strip_prefix("model name")).unwrap_or(": unknown processor");
    model.trim_start_matches([' ', '\t', ':']).to_string()
}

fn sqlite_version() -> String {
    #[cfg(sqlite)]
    return format!("SQLite {}", sqlite::version());
    #[cfg(not(sqlite))]
    "no SQLite".into()
}

/// How many samples there are of each.
const ROUNDS: usize = 21;

/// Prints and draws what is measured.
fn measure_all(rounds: usize) -> Result<(), String> {
    println!("{}; {}; medians of {rounds} samples of processor time; in brackets the ratio to the hand-tuned program", processor(), sqlite_version());
    let measured: Vec<Measured> = tasks().into_iter().map(|task| measure(task, rounds)).collect::<Result<_, _>>()?;
    print_table(&measured);
    let path = concat!(env!("CARGO_MANIFEST_DIR"), "/../docs/benchmark.svg");
    std::fs::write(path, picture::draw(&measured)).expect("the folder docs is there");
    println!("drawn to docs/benchmark.svg");
    archive::measure(rounds)
}

fn check_all() -> Result<(), String> {
    for mut task in tasks() {
        task.agree()?;
        println!("{}: {} programs agree", task.name, task.contestants.len());
    }
    archive::check(5_000)?;
    println!("the archive's replies and stores are the engine's");
    Ok(())
}

fn main() -> ExitCode {
    let result = match std::env::args().nth(1).as_deref() {
        Some("--check") => check_all(),
        Some("--archive") => archive::measure(ROUNDS),
        Some(rounds) => measure_all(rounds.parse().expect("the argument is --check, --archive or a count of rounds")),
        None => measure_all(ROUNDS),
    };
    match result {
        Ok(()) => ExitCode::SUCCESS,
        Err(report) => {
            eprintln!("{report}");
            ExitCode::FAILURE
        }
    }
}

#[cfg(test)]
mod tests {
    use super::*;

    fn agree(outcomes: [Option<Outcome>; 2]) -> Result<(), String> {
        let [first, second] = outcomes.map(|outcome| contestant("one of two", move || outcome));
        Task { name: "a task", draws: 5, contestants: vec![first, second] }.agree()
    }

    #[test]
    fn the_rewritten_policy_has_the_length_that_its_task_says() {
        let mut task = rewriting_task(&tasks::long_external_policy());
        let lengths: Vec<u64> = task.contestants.iter_mut().filter_map(|contestant| (contestant.run)()).map(|outcome| outcome.rows).collect();
        assert_eq!(lengths, [8_177; 4]);
        assert!(task.name.contains("8,177"));
    }

    #[test]
    fn the_united_lists_have_the_rows_that_their_task_says() {
        let mut task = unions_task(&tasks::unions());
        let found = Outcome { rows: 120, sum: (0..120).map(|n| (n + 1) * n).sum(), draws: Some(0) };
        for contestant in &mut task.contestants {
            assert_eq!((contestant.run)(), Some(found), "{}", contestant.name);
        }
    }

    #[test]
    fn the_joined_lists_have_the_rows_that_their_tasks_say() {
        let found = Outcome { rows: 120, sum: (0..120).map(|n| (n + 1) * n).sum(), draws: Some(0) };
        for links in [tasks::chain(tasks::RELEASED, 0), tasks::circle(), tasks::star()] {
            for contestant in &mut joined_task("a task", &tasks::joined(), &links).contestants {
                assert_eq!((contestant.run)(), Some(found), "{}", contestant.name);
            }
        }
    }

    /// Each left row (n, 1,000 + m) meets the right row (1,000 + m, 2,000 + m), where m is 37 n without the hundreds.
    #[test]
    fn rows_with_epochs_join_as_those_without() {
        let sum = (0..100).map(|n| (n + 1) * (n + 2_000 + (37 * n) % 100)).sum();
        let joins: Vec<Task> = tasks().into_iter().filter(|task| task.name.contains("join of two names")).collect();
        assert_eq!(joins.len(), 2);
        for mut task in joins {
            for Contestant { name, run } in &mut task.contestants {
                let found = run().map(|Outcome { rows, sum, .. }| (rows, sum));
                assert_eq!(found, Some((100, sum)), "{}: {name}", task.name);
            }
        }
    }

    /// 34 left rows have no epoch, and of the right rows that these meet, 11 have none.
    #[test]
    fn rows_with_epochs_are_passed_over_in_format_1() {
        let asked = of_store(&tasks::with_epochs(), tasks::EMPTY_POLICY, tasks::join_query());
        for (name, engine) in engines() {
            let found = Lendable::new().ask(engine.as_ref(), &asked).map(|outcome| (outcome.rows, outcome.draws));
            assert_eq!(found, Some((11, Some(100 + 34 * 100))), "{name}");
        }
    }

    /// Every other one of the 128 rows released is held back.
    #[test]
    fn an_own_name_has_the_rows_of_its_definition() {
        let sum = (0..64).map(|n| (n + 1) * 7 * (2 * n + 1)).sum();
        let without: Vec<Task> = tasks().into_iter().filter(|task| task.name.contains("absent from")).collect();
        assert_eq!(without.len(), 2);
        for mut task in without {
            for Contestant { name, run } in &mut task.contestants {
                let found = run().map(|Outcome { rows, sum, .. }| (rows, sum));
                assert_eq!(found, Some((64, sum)), "{}: {name}", task.name);
            }
        }
    }

    /// With another key as ours it is that key's − list, of which nothing is certified: no row is known to be absent.
    #[test]
    fn an_own_name_is_so_by_our_key_alone() {
        let asked = of_store(&tasks::certificates(), &tasks::definitions_policy(), tasks::own_name_query());
        let asked = Asked { our_key: tasks::ARCHIVE, ..asked };
        for (name, engine) in engines() {
            let found = Lendable::new().ask(engine.as_ref(), &asked).map(|outcome| (outcome.rows, outcome.draws));
            assert_eq!(found, Some((0, Some(128))), "{name}");
        }
    }

    #[test]
    fn programs_that_do_not_agree_are_noticed() {
        let found = Outcome { rows: 2, sum: 15, draws: Some(5) };
        assert_eq!(agree([Some(found), Some(found)]), Ok(()));
        assert_eq!(agree([Some(found), Some(Outcome { draws: None, ..found })]), Ok(()));
        let wrong = [None, Some(Outcome { rows: 3, ..found }), Some(Outcome { sum: 16, ..found }), Some(Outcome { draws: Some(4), ..found })];
        for other in wrong {
            assert!(agree([Some(found), other]).is_err(), "{other:?}");
            assert!(agree([other, Some(found)]).is_err(), "{other:?}");
        }
    }
}
