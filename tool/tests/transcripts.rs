//! Console transcripts, run as they are printed: those of `tests/transcripts/`, and the consoles in README.md and docs/.
//!
//! In a Markdown file each block marked `console` is run. `$ command` is a command for the shell, what follows up to the next one is what it prints, errors
//! too, spaces at the ends of lines aside. A line `[exit 1]` at its end says that it exits with 1. All blocks of one file share a folder, new and empty but for a copy of `examples/`. `..` by
//! itself on a line stands for any lines, and `<..>` inside one for any text, where something is not the same in two runs.
//!
//! `TRANSCRIPTS=write cargo test` writes what was printed into the files instead: read the difference before it lands.

use std::fmt::Write;
use std::fs;
use std::path::{Path, PathBuf};
use std::process::Command;

fn top() -> PathBuf {
    Path::new(env!("CARGO_MANIFEST_DIR")).join("..")
}

#[test]
fn consoles_print_what_is_written() {
    let mut files: Vec<PathBuf> = ["README.md", "docs/LANGUAGE.md", "docs/MISTAKES.md", "docs/REFERENCE.md"].map(|file| top().join(file)).into();
    let folder = fs::read_dir(top().join("tool/tests/transcripts")).expect("the folder of transcripts");
    files.extend(folder.map(|entry| entry.expect("a transcript").path()));
    files.sort();
    let mut commands = 0;
    let mut differences = String::new();
    for file in &files {
        let written = fs::read_to_string(file).unwrap_or_else(|error| panic!("{}: {error}", file.display()));
        let (printed, count) = run_blocks(&written);
        commands += count;
        if printed == written {
            continue;
        }
        match std::env::var_os("TRANSCRIPTS") {
            Some(_) => fs::write(file, printed).expect("transcripts are written"),
            None => write!(differences, "\n{}", difference(file, &written, &printed)).expect("text grows"),
        }
    }
    assert!(commands > 50, "only {commands} commands were run");
    assert!(differences.is_empty(), "{differences}");
}

/// The text with what its commands print now, and how many there are.
fn run_blocks(text: &str) -> (String, usize) {
    let folder = Folder::new();
    let (mut printed, mut commands) = (Vec::new(), 0);
    let mut lines = text.lines().peekable();
    while let Some(line) = lines.next() {
        printed.push(line.to_string());
        if line != "```console" {
            continue;
        }
        while let Some(first) = lines.next_if(|line| *line != "```") {
            let mut command = first.strip_prefix("$ ").unwrap_or_else(|| panic!("in a console stands {first:?} before any command")).to_string();
            while goes_on(&command) {
                command = command + "\n" + lines.next().expect("a command that goes on has another line");
            }
            let mut expected = Vec::new();
            while let Some(line) = lines.next_if(|line| *line != "```" && !line.starts_with("$ ")) {
                expected.push(line);
            }
            let got = folder.run(&command);
            let got: Vec<&str> = got.lines().map(str::trim_end).collect();
            printed.push(format!("$ {command}"));
            printed.extend(if agree(&expected, &got) { expected } else { got }.into_iter().map(String::from));
            commands += 1;
        }
    }
    (printed.join("\n") + "\n", commands)
}

/// A command goes on where its line ends with a backslash, and up to the line `END` where it takes its input from there.
fn goes_on(shell: &str) -> bool {
    shell.ends_with('\\') || (shell.contains("<<'END'") && !shell.ends_with("\nEND"))
}

/// Line by line, `..` standing for any number of them.
fn agree(expected: &[&str], got: &[&str]) -> bool {
    match expected.split_first() {
        None => got.is_empty(),
        Some((&"..", rest)) => (0..=got.len()).any(|skipped| agree(rest, &got[skipped..])),
        Some((line, rest)) => got.split_first().is_some_and(|(first, others)| line_agrees(line, first) && agree(rest, others)),
    }
}

/// `<..>` stands for any text.
fn line_agrees(expected: &str, got: &str) -> bool {
    match expected.split_once("<..>") {
        None => expected == got,
        Some((before, after)) => got
            .strip_prefix(before)
            .is_some_and(|rest| (0..=rest.len()).filter(|&place| rest.is_char_boundary(place)).any(|place| line_agrees(after, &rest[place..]))),
    }
}

fn difference(file: &Path, written: &str, printed: &str) -> String {
    let mut text = format!("{}:\n", file.display());
    let (written, printed): (Vec<&str>, Vec<&str>) = (written.lines().collect(), printed.lines().collect());
    let same = written.iter().zip(&printed).take_while(|(a, b)| a == b).count();
    let from = same.saturating_sub(3);
    for (sign, lines) in [('-', &written), ('+', &printed)] {
        for line in lines.iter().skip(from).take(30) {
            let _ = writeln!(text, "{sign} {line}");
        }
    }
    text
}

/// A folder of its own for each file, gone at the end.
struct Folder(PathBuf);

impl Folder {
    fn new() -> Folder {
        use std::sync::atomic::{AtomicUsize, Ordering};
        static NEXT: AtomicUsize = AtomicUsize::new(0);
        let number = NEXT.fetch_add(1, Ordering::Relaxed);
        let folder = std::env::temp_dir().join(format!("txindurbe-transcript-{}-{number}", std::process::id()));
        fs::create_dir_all(folder.join("examples")).expect("a folder");
        for entry in fs::read_dir(top().join("examples")).expect("the examples") {
            let path = entry.expect("an example").path();
            fs::copy(&path, folder.join("examples").join(path.file_name().expect("a name"))).expect("a copy");
        }
        Folder(folder)
    }

    /// What the command prints, and its exit status unless that is 0.
    fn run(&self, command: &str) -> String {
        let tool = Path::new(env!("CARGO_BIN_EXE_txindurbe")).parent().expect("its folder");
        let path = std::env::join_paths([tool.to_path_buf()].into_iter().chain(std::env::split_paths(&std::env::var_os("PATH").unwrap_or_default())));
        let output = Command::new("bash")
            .args(["-c", &format!("exec 2>&1\n{command}")])
            .current_dir(&self.0)
            .env("PATH", path.expect("a path"))
            .env("LC_ALL", "C.UTF-8")
            .env_remove("COLUMNS")
            .output()
            .expect("bash runs");
        let mut text = String::from_utf8_lossy(&output.stdout).into_owned();
        if !text.is_empty() && !text.ends_with('\n') {
            text.push('\n');
        }
        match output.status.code() {
            Some(0) => text,
            Some(status) => text + &format!("[exit {status}]\n"),
            None => text + "[killed]\n",
        }
    }
}

impl Drop for Folder {
    fn drop(&mut self) {
        let _ = fs::remove_dir_all(&self.0);
    }
}
