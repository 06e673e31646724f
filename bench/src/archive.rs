//! What the tool adds to the engine: 100,000 filings replayed into a new archive, and a query over it. By the clock, because most of it waits for the disk.

use crate::{median, readable};
use std::path::PathBuf;
use std::time::{Duration, Instant};
use txindurbe::{Certificate, Engine, Filing, Key, Link, Links, Minute, Polarity, Refusal, Store, Validity};
use txindurbe_archive::{Archive, ArchiveError, Kind};
use txindurbe_language::{compile, Compiled, Sources};

const FILINGS: usize = 100_000;
/// As the tool files them.
const BATCH: usize = 1_000;
const NOW: Minute = Minute::new(5);

const POLICY: &str = "
    key authority = k8, alma = k1
    list observatories = 3 +, released = 1 +, withdrawn = 2 -
    define public + = { (o, x) | (o) in authority.observatories, (x) in o.released, (x) not in o.withdrawn }
    query { (x) | (alma, x) in public }
";

type Words = (Kind, Vec<u32>);

/// Eight observatories, each with 15 observations that are released and not withdrawn, 150 rows of another list and a link, and each time one filing that is
/// refused; filed again and again.
fn filings(count: usize) -> Vec<Words> {
    let mut once = Vec::new();
    for observatory in (1..=8).map(Key::new) {
        once.push(certificate(Key::new(8), 3, Polarity::Plus, observatory.word()));
        for observation in 0..15 {
            once.push(certificate(observatory, 1, Polarity::Plus, observation));
            once.push(certificate(observatory, 2, Polarity::Minus, observation));
        }
        once.extend((0..150).map(|row| certificate(observatory, 7, Polarity::Plus, row)));
        let link = Link { key: observatory, name: 5, polarity: Polarity::Plus, other_key: Key::new(1), other_name: 6 };
        once.push((Kind::Link, link.words().to_vec()));
        once.push((Kind::Certificate, vec![observatory.number(), 1]));
    }
    once.iter().cycle().take(count).cloned().collect()
}

fn certificate(key: Key, name: u16, polarity: Polarity, atom: u32) -> Words {
    let validity = Validity { first: Minute::new(0), end: Minute::new(10) };
    (Kind::Certificate, Certificate { key, name, polarity, row: [atom].into(), validity }.words().to_vec())
}

/// The engine by itself, the same filings into two stores in memory.
fn in_memory(filings: &[Words]) -> (Vec<Result<Filing, Refusal>>, Store, Links) {
    let (mut store, mut links) = (Store::new(), Links::new());
    let file = |(kind, words): &Words| match kind {
        Kind::Certificate => store.file_words(words),
        Kind::Link => links.file_words(words),
    };
    let replies = filings.iter().map(file).collect();
    (replies, store, links)
}

fn replay(path: &PathBuf, filings: &[Words]) -> Result<Vec<Result<Filing, Refusal>>, ArchiveError> {
    let mut archive = Archive::create(path, Some("benchmark"))?;
    let mut replies = Vec::with_capacity(filings.len());
    for batch in filings.chunks(BATCH) {
        replies.extend(archive.file(batch, 0)?.into_iter().map(|entry| entry.reply));
    }
    Ok(replies)
}

fn compiled() -> Compiled {
    let mut sources = Sources::default();
    let source = sources.add("the benchmark's policy", POLICY);
    compile(&sources, source).expect("the benchmark's policy is sound")
}

fn timed<Of>(run: impl FnOnce() -> Of) -> (Of, Duration) {
    let start = Instant::now();
    let of = run();
    (of, start.elapsed())
}

/// In a folder of its own, beside the program, so that it lies on the disk and not in memory.
struct Place(PathBuf);

impl Place {
    fn new() -> Place {
        let folder = std::env::current_exe().expect("the program's own path").with_extension(format!("{}", std::process::id()));
        std::fs::create_dir_all(&folder).expect("a folder beside the program");
        Place(folder)
    }
}

impl Drop for Place {
    fn drop(&mut self) {
        let _ = std::fs::remove_dir_all(&self.0);
    }
}

/// The archive's replies and stores must be the engine's.
pub fn check(count: usize) -> Result<(), String> {
    let (place, filings) = (Place::new(), filings(count));
    let path = place.0.join("archive");
    let (replies, store, links) = in_memory(&filings);
    if replay(&path, &filings).map_err(|error| error.to_string())? != replies {
        return Err("the archive's replies are not the engine's".into());
    }
    let held = Archive::open(&path).and_then(|mut archive| archive.held(None)).map_err(|error| error.to_string())?;
    match (held.point, held.store == store, held.links == links) {
        (point, true, true) if point == count as u64 => Ok(()),
        _ => Err("the archive's stores are not the engine's".into()),
    }
}

/// Prints what each step takes.
pub fn measure(rounds: usize) -> Result<(), String> {
    let (place, filings) = (Place::new(), filings(FILINGS));
    let path = place.0.join("archive");
    let (_, engine_filing) = timed(|| in_memory(&filings));
    let (replayed, archive_filing) = timed(|| replay(&path, &filings));
    replayed.map_err(|error| error.to_string())?;

    let mut steps: [Vec<f64>; 3] = Default::default();
    for _ in 0..rounds {
        let (held, opening) = timed(|| Archive::open(&path).and_then(|mut archive| archive.held(None)));
        let held = held.map_err(|error| error.to_string())?;
        let (compiled, compiling) = timed(compiled);
        let asked = compiled.query().expect("the policy has a query");
        let mut engine = Engine::new();
        let (answer, asking) = timed(|| engine.query(compiled.policy(), &asked.query, NOW, &held.store, &held.links));
        answer.map_err(|refusal| refusal.to_string())?;
        for (step, took) in steps.iter_mut().zip([opening, compiling, asking]) {
            step.push(took.as_secs_f64());
        }
    }
    let [opening, compiling, asking] = steps.map(median);
    println!("| 100,000 filings | the tool | of it the engine |");
    println!("|---|---|---|");
    println!(
        "| filed into a new archive, durable by the thousand | {} | {} |",
        readable(archive_filing.as_secs_f64()),
        readable(engine_filing.as_secs_f64())
    );
    println!(
        "| a query: archive read and stores built {}, policy compiled {}, asked | {} | {} |",
        readable(opening),
        readable(compiling),
        readable(opening + compiling + asking),
        readable(asking)
    );
    Ok(())
}
