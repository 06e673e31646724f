//! What was acknowledged is there: after a filing process is killed, with two of them at once, on a full disk, in a damaged archive.

use serde_json::Value;
use std::fs;
use std::io::Read;
use std::path::PathBuf;
use std::process::{Command, Output, Stdio};
use std::sync::atomic::{AtomicU32, Ordering};
use std::time::{Duration, Instant};
use txindurbe::{Filing, Key, Links, Store};

const SEED: u64 = 2027;

/// A folder that is gone after the test.
struct Folder(PathBuf);

impl Folder {
    /// With an empty archive `a` in it.
    fn with_archive() -> Folder {
        static COUNT: AtomicU32 = AtomicU32::new(0);
        let name = format!("txindurbe-durable-{}-{}", std::process::id(), COUNT.fetch_add(1, Ordering::Relaxed));
        let folder = Folder(std::env::temp_dir().join(name));
        fs::create_dir_all(&folder.0).unwrap();
        assert!(folder.run(&["init", "a", "--id", "durable"]).status.success());
        folder
    }

    fn path(&self, name: &str) -> PathBuf {
        self.0.join(name)
    }

    fn write(&self, name: &str, lines: &[String]) {
        fs::write(self.path(name), lines.join("\n") + "\n").unwrap();
    }

    fn command(&self, arguments: &[&str]) -> Command {
        let mut command = Command::new(env!("CARGO_BIN_EXE_txindurbe"));
        command.args(arguments).current_dir(&self.0).stdout(Stdio::piped()).stderr(Stdio::piped());
        command
    }

    fn run(&self, arguments: &[&str]) -> Output {
        self.command(arguments).output().unwrap()
    }

    /// In bash, where `$tool` is the tool.
    fn bash(&self, script: &str) -> Output {
        let mut bash = Command::new("bash");
        bash.args(["-c", script]).env("tool", env!("CARGO_BIN_EXE_txindurbe")).current_dir(&self.0);
        bash.output().unwrap()
    }

    fn log(&self) -> Vec<Logged> {
        logged(&self.run(&["log", "a", "--json"]))
    }

    /// All in the log is one list, and the engine by itself gives the same replies.
    fn assert_one_list(&self) -> Vec<Logged> {
        let log = self.log();
        let (mut store, mut links) = (Store::new(), Links::new());
        for (logged, point) in log.iter().zip(1..) {
            assert_eq!(logged.point, point);
            let reply = match logged.kind.as_str() {
                "certificate" => store.file_words(&logged.words),
                _ => links.file_words(&logged.words),
            };
            let reply = match reply {
                Ok(Filing::Filed) => "Filed".to_string(),
                Ok(Filing::Held) => "Held".into(),
                Err(refusal) => format!("refused {}", refusal.number()),
            };
            assert_eq!(logged.reply, reply, "filing {point}");
        }
        log
    }
}

impl Drop for Folder {
    fn drop(&mut self) {
        let _ = fs::remove_dir_all(&self.0);
    }
}

/// A line of `log --json`.
#[derive(Clone, PartialEq, Debug)]
struct Logged {
    point: u64,
    kind: String,
    words: Vec<u32>,
    reply: String,
}

fn logged(output: &Output) -> Vec<Logged> {
    assert!(output.status.success(), "{}", said(output));
    let entry = |line: &str| {
        let value: Value = serde_json::from_str(line).unwrap();
        let words = value["words"].as_array().unwrap().iter().map(|word| word.as_u64().unwrap() as u32).collect();
        let text = |name: &str| value[name].as_str().unwrap().to_string();
        Logged { point: value["point"].as_u64().unwrap(), kind: text("kind"), words, reply: text("reply") }
    };
    String::from_utf8_lossy(&output.stdout).lines().map(entry).collect()
}

/// What it printed where people read errors.
fn said(output: &Output) -> String {
    String::from_utf8_lossy(&output.stderr).into_owned()
}

/// The number of each line that was acknowledged, and its reply, without the rule: `lines.jsonl:3: refused 9: ..`
fn acknowledged(text: &str) -> Vec<(usize, String)> {
    // a line that was cut short is no acknowledgement
    let whole = text.rfind('\n').map_or("", |end| &text[..end]);
    let acknowledged = |line: &str| {
        let mut parts = line.split(':').skip(1).map(str::trim);
        let number = parts.next()?.parse().ok()?;
        Some((number, parts.next()?.to_string()))
    };
    whole.lines().filter_map(acknowledged).collect()
}

/// Numbers that look random and are the same in each run (splitmix64).
struct Random(u64);

impl Random {
    fn below(&mut self, bound: u64) -> u64 {
        self.0 = self.0.wrapping_add(0x9e37_79b9_7f4a_7c15);
        let mixed = (self.0 ^ (self.0 >> 30)).wrapping_mul(0xbf58_476d_1ce4_e5b9);
        let mixed = (mixed ^ (mixed >> 27)).wrapping_mul(0x94d0_49bb_1331_11eb);
        (mixed ^ (mixed >> 31)) % bound
    }
}

/// A certificate that no other run has, for a row of its run and its number; each seventh is a link, each eleventh is malformed.
fn filing(run: u32, number: u32) -> (&'static str, Vec<u32>) {
    let key = Key::new(run % 5).word();
    match (number % 7, number % 11) {
        (0, _) => ("link", vec![key, run, 0, key, number]),
        (_, 0) => ("certificate", vec![run, number]),
        _ => ("certificate", vec![key, 1, 0, 2, run, number, 0, 0, 0, 1]),
    }
}

fn json((kind, words): &(&str, Vec<u32>)) -> String {
    format!("{{\"{kind}\": {words:?}}}")
}

fn lines(run: u32, count: u32) -> Vec<String> {
    (1..=count).map(|number| json(&filing(run, number))).collect()
}

/// How many of a run's lines are in the list. They are there from the first on, in order.
fn filed_of(log: &[Logged], run: u32, lines: &[String]) -> usize {
    let of_run = |logged: &&Logged| (1..=lines.len() as u32).any(|number| filing(run, number).1 == logged.words);
    let there: Vec<String> = log.iter().filter(of_run).map(|logged| json(&(logged.kind.as_str(), logged.words.clone()))).collect();
    assert!(there.len() <= lines.len() && there == lines[..there.len()], "run {run}: some are missing, or not in order");
    there.len()
}

#[test]
fn killed_a_hundred_times() {
    const LINES: u32 = 60;
    println!("seed {SEED}");
    let mut random = Random(SEED);
    let folder = Folder::with_archive();
    let [mut whole_runs, mut cut_short, mut journals] = [0; 3];
    let mut kept = Vec::new();
    let mut time = Duration::ZERO;
    for run in 0..=100 {
        let lines = lines(run, LINES);
        folder.write("lines.jsonl", &lines);
        let mut filing = folder.command(&["file", "a", "lines.jsonl"]).spawn().unwrap();
        let start = Instant::now();
        // the first is left alone, to know how long one takes
        if run > 0 {
            std::thread::sleep(Duration::from_nanos(random.below(time.as_nanos() as u64)));
            filing.kill().unwrap();
        }
        let mut printed = String::new();
        filing.stdout.take().unwrap().read_to_string(&mut printed).unwrap();
        filing.wait().unwrap();
        if run == 0 {
            time = start.elapsed().min(Duration::from_millis(200));
        }
        journals += usize::from(folder.path("a-journal").exists());
        let acknowledged = acknowledged(&printed);
        assert!(acknowledged.iter().map(|(number, _)| *number).eq(1..=acknowledged.len()));
        kept.push((lines, acknowledged));

        // It opens and answers, and has what was acknowledged.
        let log = folder.log();
        let (lines, acknowledged) = &kept[run as usize];
        let filed = filed_of(&log, run, lines);
        assert!(filed >= acknowledged.len(), "run {run}: {} were acknowledged and {filed} are there", acknowledged.len());
        assert!([0, 1, 3, 7, 15, 31, 60].contains(&filed), "run {run}: a batch is there whole or not at all, not {filed}");
        whole_runs += usize::from(filed == lines.len());
        cut_short += usize::from((1..lines.len()).contains(&filed));
    }
    println!("{whole_runs} runs came to their end, {cut_short} were killed between their first filing and their last, {journals} left a journal");
    assert!(cut_short >= 10, "{cut_short}");

    // Nothing that came later has changed what was acknowledged before.
    let log = folder.assert_one_list();
    for (run, (lines, acknowledged)) in (0..).zip(&kept) {
        assert!(filed_of(&log, run, lines) >= acknowledged.len());
        for (number, reply) in acknowledged {
            let words = filing(run, *number as u32).1;
            assert!(log.iter().any(|logged| logged.words == words && logged.reply == *reply), "run {run}, line {number}");
        }
    }
    assert!(folder.run(&["names", "a"]).status.success());

    // A journal that was begun and says nothing yet may lie there until the next filing.
    folder.write("lines.jsonl", &lines(0, 1));
    assert!(folder.run(&["file", "a", "lines.jsonl"]).status.success());
    let left: Vec<_> = fs::read_dir(&folder.0).unwrap().map(|file| file.unwrap().file_name().into_string().unwrap()).collect();
    assert_eq!(left.len(), 2, "the archive is one file: {left:?}");
}

#[test]
fn two_at_once() {
    const LINES: u32 = 700;
    let folder = Folder::with_archive();
    // of each run's lines some are the same: who comes first gets Filed, the other Held
    let lines: [Vec<String>; 2] =
        [1, 2].map(|run| (1..=LINES).map(|number| json(&filing(if number.is_multiple_of(3) { 3 } else { run }, number))).collect());
    folder.write("1.jsonl", &lines[0]);
    folder.write("2.jsonl", &lines[1]);
    let filing = ["1.jsonl", "2.jsonl"].map(|name| folder.command(&["file", "a", name]).spawn().unwrap());
    let outputs = filing.map(|filing| filing.wait_with_output().unwrap());
    let log = folder.assert_one_list();
    assert_eq!(log.len(), 2 * LINES as usize);
    let mut replies: Vec<(String, String)> = Vec::new();
    for (output, lines) in outputs.iter().zip(&lines) {
        assert_eq!(output.status.code(), Some(1), "some are refused: {}", said(output));
        let acknowledged = acknowledged(&String::from_utf8_lossy(&output.stdout));
        assert_eq!(acknowledged.len(), lines.len());
        replies.extend(acknowledged.into_iter().map(|(number, reply)| (lines[number - 1].clone(), reply)));
    }
    let mut there: Vec<(String, String)> =
        log.iter().map(|logged| (json(&(logged.kind.as_str(), logged.words.clone())), logged.reply.clone())).collect();
    replies.sort();
    there.sort();
    assert_eq!(replies, there);
}

/// The system refuses to write past some length, as in a folder with a quota.
#[test]
fn no_more_room_in_the_file() {
    let folder = Folder::with_archive();
    let lines = lines(1, 3000);
    folder.write("lines.jsonl", &lines);
    let output = folder.bash("trap '' XFSZ; ulimit -f 80; exec \"$tool\" file a lines.jsonl");
    assert_eq!(output.status.code(), Some(2));
    assert!(
        said(&output).contains("a: writing failed; is the disk full, or the size of files limited? Nothing of this batch was acknowledged"),
        "{}",
        said(&output)
    );
    assert_nothing_lost(&folder, &lines, &output);

    // Nor is there half an archive where there is no room for a new one.
    let output = folder.bash("trap '' XFSZ; ulimit -f 4; exec \"$tool\" init b");
    assert_eq!(output.status.code(), Some(2), "{}", said(&output));
    assert!(!folder.path("b").exists());
}

/// A full disk, where the system lets us have a small one.
#[test]
fn no_more_room_on_the_disk() {
    let folder = Folder::with_archive();
    let lines = lines(1, 3000);
    folder.write("lines.jsonl", &lines);
    fs::create_dir(folder.path("disk")).unwrap();
    if !folder.bash("unshare --mount mount -t tmpfs -o size=4k none disk").status.success() {
        println!("not run: no disk can be mounted here");
        return;
    }
    let script = "mount -t tmpfs -o size=200k none disk; mv a disk/a; \"$tool\" file disk/a lines.jsonl; status=$?; cp disk/a a; exit $status";
    let output = folder.bash(&format!("exec unshare --mount bash -c '{script}'"));
    assert_eq!(output.status.code(), Some(2), "{}", said(&output));
    assert!(
        said(&output).contains("disk/a: the disk is full. Nothing of this batch was filed. What was acknowledged before is there"),
        "{}",
        said(&output)
    );
    assert_nothing_lost(&folder, &lines, &output);
}

/// The list has the lines that were acknowledged and no others; with room again, all can be filed.
fn assert_nothing_lost(folder: &Folder, lines: &[String], output: &Output) {
    let acknowledged = acknowledged(&String::from_utf8_lossy(&output.stdout));
    assert!((1..lines.len()).contains(&acknowledged.len()), "some are acknowledged and some are not: {}", acknowledged.len());
    let log = folder.assert_one_list();
    assert_eq!(filed_of(&log, 1, lines), acknowledged.len());
    assert_eq!(log.len(), acknowledged.len());
    assert!(log.iter().zip(&acknowledged).all(|(logged, (_, reply))| logged.reply == *reply));
    let told = format!("Acknowledged are {} of {} lines: file those from lines.jsonl:{} on again", log.len(), lines.len(), log.len() + 1);
    assert!(said(output).contains(&told), "{}", said(output));

    folder.write("rest.jsonl", &lines[acknowledged.len()..]);
    let output = folder.run(&["file", "a", "rest.jsonl", "--quiet"]);
    assert_eq!(output.status.code(), Some(1), "some are refused: {}", said(&output));
    assert_eq!(filed_of(&folder.assert_one_list(), 1, lines), lines.len());
}

#[test]
fn damaged() {
    println!("seed {SEED}");
    let mut random = Random(SEED);
    let folder = Folder::with_archive();
    folder.write("lines.jsonl", &lines(1, 300));
    assert_eq!(folder.run(&["file", "a", "lines.jsonl"]).status.code(), Some(1));
    let log = folder.log();
    let whole = fs::read(folder.path("a")).unwrap();
    let mut errors = 0;
    for turn in 0..60 {
        let mut bytes = whole.clone();
        match turn % 3 {
            0 => bytes.truncate(random.below(whole.len() as u64) as usize),
            1 => bytes[random.below(whole.len() as u64) as usize] ^= 0x10,
            // a part of the disk that was never written
            _ => {
                let from = 512 * random.below(whole.len() as u64 / 512) as usize;
                bytes[from..from + 512].fill(0);
            }
        }
        fs::write(folder.path("a"), &bytes).unwrap();
        let output = folder.run(&["log", "a", "--json"]);
        if output.status.success() {
            assert_eq!(logged(&output), log, "turn {turn}: the same list or an error");
            continue;
        }
        errors += 1;
        assert_clear(&output);
        for arguments in [&["names", "a"][..], &["file", "a", "lines.jsonl"]] {
            let output = folder.run(arguments);
            assert_clear(&output);
            assert!(output.stdout.is_empty(), "nothing is answered, and nothing acknowledged");
        }
        assert!(fs::read(folder.path("a")).unwrap() == bytes, "turn {turn}: nothing is changed");
    }
    println!("{errors} of 60 times an error");
    assert!(errors >= 30);
    fs::write(folder.path("a"), &whole).unwrap();
    assert_eq!(folder.log(), log);
}

fn assert_clear(output: &Output) {
    assert_eq!(output.status.code(), Some(2), "{}", said(output));
    let clear = ["the archive is damaged", "not an archive of Txindurbe", "made by a later version of Txindurbe"];
    assert!(clear.iter().any(|words| said(output).contains(words)), "{}", said(output));
}

/// Who reads the acknowledgements may go: the filing does not.
#[test]
fn nobody_listens() {
    let folder = Folder::with_archive();
    let lines = lines(1, 2000);
    folder.write("lines.jsonl", &lines);
    let output = folder.bash("\"$tool\" file a lines.jsonl | head -n 1; exit ${PIPESTATUS[0]}");
    assert_eq!(output.status.code(), Some(1), "some are refused: {}", said(&output));
    assert_eq!(String::from_utf8_lossy(&output.stdout), "lines.jsonl:1: Filed\n");
    assert_eq!(filed_of(&folder.assert_one_list(), 1, &lines), lines.len());
}

#[test]
fn acknowledgements_are_read_as_they_are_printed() {
    let text = "lines.jsonl:1: Filed\nlines.jsonl:2: refused 9: the rule\n2 Filed, 0 Held, 1 refused. The archive is at point 3.\nlines.jsonl:3: Fil";
    assert_eq!(acknowledged(text), [(1, "Filed".to_string()), (2, "refused 9".into())]);
}
