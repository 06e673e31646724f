//! The differential run: the compiled library beside the evaluator, on random and mutated words.
//!
//!     differential [CASES] [--seed S] [--worlds LISTS] [--plant K]
//!     differential --faults
//!
//! CASES queries and lists of filings (200,000), and LISTS lists of filings held against worlds (a hundredth of the cases). `--plant K` makes the evaluator
//! wrong in one way, which the run must notice; it stops there. `--faults` lists the ways.

use differential::compare::{Comparison, Tally};
use differential::evaluator::Evaluator;
use differential::faults::Fault;
use differential::generate::Generator;
use differential::library::Library;
use differential::worlds::{check, Seen, SMALL};
use std::process::ExitCode;

struct Options {
    cases: u64,
    seed: u64,
    worlds: Option<u64>,
    fault: Option<Fault>,
}

fn options(mut words: impl Iterator<Item = String>) -> Result<Options, String> {
    let mut options = Options { cases: 200_000, seed: 2_026, worlds: None, fault: None };
    while let Some(word) = words.next() {
        let mut number = || -> Result<u64, String> {
            let next = words.next().ok_or(format!("{word} wants a number"))?;
            next.parse().map_err(|_| format!("{next} is no number"))
        };
        match word.as_str() {
            "--seed" => options.seed = number()?,
            "--worlds" => options.worlds = Some(number()?),
            "--plant" => options.fault = Some(planted(number()?)?),
            cases => options.cases = cases.parse().map_err(|_| format!("{cases} is no count of cases"))?,
        }
    }
    Ok(options)
}

fn planted(number: u64) -> Result<Fault, String> {
    let place = (number as usize).checked_sub(1);
    place.and_then(|place| Fault::ALL.get(place)).copied().ok_or(format!("faults are 1 to {}", Fault::ALL.len()))
}

fn run(options: &Options) -> Tally {
    println!("seed {}", options.seed);
    if let Some(fault) = options.fault {
        println!("planted: {}", fault.meaning());
    }
    let mut comparison = Comparison::new(&Library, Evaluator { fault: options.fault }, options.seed);
    comparison.run(options.seed, options.cases, options.fault.is_some());
    let mut tally = comparison.tally;
    let seen = against_worlds(options, &mut tally);
    print_tally(&tally, &seen);
    tally
}

fn against_worlds(options: &Options, tally: &mut Tally) -> Seen {
    let mut generator = Generator::new(options.seed, &SMALL);
    let mut seen = Seen::default();
    for list in 0..options.worlds.unwrap_or(options.cases / 100) {
        let result = check(&Library, &mut generator, &mut seen);
        tally.count(result.map_err(|report| format!("worlds, list {list}, {report}")));
    }
    seen
}

fn print_tally(tally: &Tally, seen: &Seen) {
    for (kind, replies) in [("certificate", &tally.certificates), ("link", &tally.links)] {
        for (reply, count) in replies {
            let reply = ["Filed", "Held"].get(*reply as usize).map_or(format!("refused with {reply}"), |word| word.to_string());
            println!("{kind} {reply}: {count}");
        }
    }
    for (number, count) in &tally.rewritings {
        let reply = if *number == 0 { "done".into() } else { format!("refused with {number}") };
        println!("rewriting {reply}: {count}");
    }
    for (number, count) in &tally.conversions {
        let reply = if *number == 0 { "done".into() } else { format!("refused with {number}") };
        println!("conversion {reply}: {count}");
    }
    for (number, count) in &tally.refusals {
        println!("query refused with {number}: {count}");
    }
    for ((verdict, table), count) in &tally.answers {
        println!("answer {}, {table}: {count}", ["exact", "lower", "upper"][*verdict as usize]);
    }
    for (verdict, count) in &tally.own_names {
        println!("answer {}, own names written: {count}", ["exact", "lower", "upper"][*verdict as usize]);
    }
    for (format, [exact, lower, upper]) in (1..).zip(seen.points) {
        println!("held against worlds: {exact} exact, {lower} lower and {upper} upper answers of format {format}");
    }
    println!(
        "held against worlds: {} policies rewritten, {} own names, {} links, {} worlds, {} rows that worlds differ on",
        seen.rewritten, seen.own_names, seen.links, seen.worlds, seen.undecided_rows
    );
    for report in &tally.reports {
        println!("FAILED {report}");
    }
}

fn print_faults() -> ExitCode {
    for (fault, number) in Fault::ALL.iter().zip(1..) {
        println!("{number} {}", fault.meaning());
    }
    ExitCode::SUCCESS
}

fn main() -> ExitCode {
    if std::env::args().any(|word| word == "--faults") {
        return print_faults();
    }
    match options(std::env::args().skip(1)).map(|options| run(&options)) {
        Ok(tally) => {
            println!("{} passed, {} failed", tally.passed, tally.failed);
            ExitCode::from((tally.failed > 0) as u8)
        }
        Err(report) => {
            eprintln!("{report}");
            ExitCode::from(2)
        }
    }
}
