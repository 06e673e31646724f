//! `txindurbe words`: a line each for our key, the policy and the query, so that a file of words is all that a call of the engine needs.

use super::{load, read};
use crate::cli::WordsArguments;
use crate::failure::{Failure, Outcome};
use crate::show::Show;
use std::io::{Read, Write};
use std::path::Path;
use txindurbe::{Atom, Key};
use txindurbe_language::{decompile, print};

pub fn run(arguments: &WordsArguments, show: &Show, out: &mut dyn Write) -> Outcome {
    match arguments.back {
        true => to_text(&arguments.file, out),
        false => to_words(arguments, show, out),
    }
}

fn to_words(arguments: &WordsArguments, show: &Show, out: &mut dyn Write) -> Outcome {
    let loaded = load(&arguments.file)?;
    let compiled = &loaded.compiled;
    show.problems(&loaded.sources, &compiled.warnings);
    let line = |words: &[u32]| words.iter().map(|&word| written(word, arguments.keys)).collect::<Vec<_>>().join(" ");
    writeln!(out, "our key {}", line(&[compiled.our_key().word()]))?;
    writeln!(out, "policy {}", line(compiled.policy().words()))?;
    if let Some(asked) = compiled.query() {
        show.problems(&loaded.sources, &asked.warnings);
        writeln!(out, "query {}", line(asked.query.words()))?;
    }
    Ok(())
}

fn written(word: u32, keys: bool) -> String {
    match keys {
        true => Atom::from(word).to_string(),
        false => word.to_string(),
    }
}

fn to_text(path: &Path, out: &mut dyn Write) -> Outcome {
    let text = if path == Path::new("-") { standard_input()? } else { read(path)? };
    let Words { our_key, policy, query } = Words::read(&text).map_err(|wrong| Failure::of_file(path, wrong))?;
    let file = decompile(our_key, &policy, query.as_deref()).map_err(|refusal| Failure::Refused(refusal.to_string()))?;
    out.write_all(print(&file).as_bytes())?;
    Ok(())
}

fn standard_input() -> Result<String, Failure> {
    let mut text = String::new();
    std::io::stdin().read_to_string(&mut text).map_err(|error| Failure::of_file(Path::new("standard input"), error))?;
    Ok(text)
}

/// What a file of words says.
struct Words {
    our_key: Key,
    policy: Vec<u32>,
    query: Option<Vec<u32>>,
}

impl Words {
    fn read(text: &str) -> Result<Words, String> {
        let (mut our_key, mut policy, mut query) = (None, None, None);
        for (number, line) in text.lines().enumerate().filter(|(_, line)| !line.trim().is_empty()) {
            let line = line.trim_start();
            let (part, words) = [("our key ", &mut our_key), ("policy ", &mut policy), ("query ", &mut query)]
                .into_iter()
                .find_map(|(start, part)| Some((part, line.strip_prefix(start)?)))
                .ok_or_else(|| format!("line {} starts with none of `our key`, `policy` and `query`", number + 1))?;
            *part = Some(words.split_whitespace().map(|word| self::word(word, number + 1)).collect::<Result<Vec<u32>, String>>()?);
        }
        let our_key = our_key.and_then(|words| <[u32; 1]>::try_from(words).ok());
        let our_key = our_key.and_then(|[word]| Atom::from(word).key()).ok_or("there is no line `our key` with one key")?;
        Ok(Words { our_key, policy: policy.ok_or("there is no line `policy`")?, query })
    }
}

/// In decimal, or kN.
fn word(text: &str, line: usize) -> Result<u32, String> {
    let read = match text.strip_prefix('k') {
        Some(number) => number.parse().ok().filter(|number| *number < 1 << 31).map(|number| Key::new(number).word()),
        None => text.parse().ok(),
    };
    read.ok_or_else(|| format!("line {line}: {text} is no word: write a number below 4,294,967,296, or kN"))
}
