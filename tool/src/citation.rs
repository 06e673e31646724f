//! What a citation of a table says: enough to have the same table again, and to notice where something is not the same.
//!
//! Its lines, in this order:
//!
//! ```text
//! archive visibilities
//! point 10 sha256:..
//! minute 14314176 2027-03-20 00:00
//! policy sha256:..
//! query sha256:..
//! table lower only 2 sha256:..
//! tool 0.9.0
//! ```
//!
//! Each digest is SHA-256 in lowercase hexadecimal. What is hashed is a line of text, then words, each as four bytes, the lowest first:
//!
//! - `policy`: `txindurbe policy` and a line end, the word of our key, then the policy's words as the engine uses them: of an external policy, rewritten;
//! - `query`: `txindurbe query` and a line end, then the query's words;
//! - `table`: `txindurbe table` and a line end, the verdict (0 exact, 1 lower, 2 upper), then the set as the engine lays it out: its form (0 only, 1 all but), how
//!   many rows are written, and for each row its width and four atoms, unused ones 0.
//!
//! The digest behind the point is the archive's own, over its id and all filings up to there.

use crate::table::{parts, verdict_word, Form};
use crate::when::When;
use sha2::{Digest as _, Sha256};
use std::fmt;
use std::str::FromStr;
use txindurbe::sizes::MOST_WIDTH;
use txindurbe::{Minute, Policy, Query, Table, Verdict};

/// A SHA-256 digest, written `sha256:` and 64 hexadecimal digits.
#[derive(Clone, Copy, PartialEq, Eq, Debug)]
pub struct Digest(pub [u8; 32]);

impl Digest {
    fn of(what: &str, words: impl IntoIterator<Item = u32>) -> Digest {
        let mut hasher = Sha256::new();
        hasher.update(format!("txindurbe {what}\n"));
        for word in words {
            hasher.update(word.to_le_bytes());
        }
        Digest(hasher.finalize().into())
    }

    /// Of a policy with our key, as the engine uses it.
    pub fn of_policy(policy: &Policy) -> Digest {
        Digest::of("policy", [policy.our_key().word()].into_iter().chain(policy.words().iter().copied()))
    }

    pub fn of_query(query: &Query) -> Digest {
        Digest::of("query", query.words().iter().copied())
    }

    pub fn of_table(table: &Table) -> Digest {
        Digest::of("table", table_words(table))
    }
}

fn table_words(table: &Table) -> Vec<u32> {
    let (verdict, form, rows) = parts(table);
    let verdict = match verdict {
        Verdict::Exact => 0,
        Verdict::Lower => 1,
        Verdict::Upper => 2,
    };
    let form = match form {
        Form::Only => 0,
        Form::AllBut => 1,
    };
    let mut words = vec![verdict, form, rows.len() as u32];
    for row in rows {
        let atoms = row.atoms().iter().map(|atom| atom.word()).chain([0; MOST_WIDTH]).take(MOST_WIDTH);
        words.push(row.atoms().len() as u32);
        words.extend(atoms);
    }
    words
}

impl fmt::Display for Digest {
    fn fmt(&self, out: &mut fmt::Formatter) -> fmt::Result {
        out.write_str("sha256:")?;
        self.0.iter().try_for_each(|byte| write!(out, "{byte:02x}"))
    }
}

impl FromStr for Digest {
    type Err = String;

    fn from_str(text: &str) -> Result<Digest, String> {
        let no_digest = || format!("{text:?} is no digest: `sha256:` and 64 digits 0 to f");
        let digits = text.strip_prefix("sha256:").ok_or_else(no_digest)?;
        if digits.len() != 64 || !digits.bytes().all(|digit| matches!(digit, b'0'..=b'9' | b'a'..=b'f')) {
            return Err(no_digest());
        }
        let byte = |place: usize| u8::from_str_radix(&digits[2 * place..2 * place + 2], 16);
        let mut digest = [0; 32];
        for (place, value) in digest.iter_mut().enumerate() {
            *value = byte(place).map_err(|_| no_digest())?;
        }
        Ok(Digest(digest))
    }
}

/// What a table comes to in a citation.
#[derive(Clone, Copy, PartialEq, Eq, Debug)]
pub struct CitedTable {
    pub verdict: Verdict,
    pub form: Form,
    pub count: usize,
    pub digest: Digest,
}

impl CitedTable {
    pub fn of(table: &Table) -> CitedTable {
        let (verdict, form, rows) = parts(table);
        CitedTable { verdict, form, count: rows.len(), digest: Digest::of_table(table) }
    }
}

impl fmt::Display for CitedTable {
    fn fmt(&self, out: &mut fmt::Formatter) -> fmt::Result {
        let form = match self.form {
            Form::Only => "only",
            Form::AllBut => "all-but",
        };
        write!(out, "{} {form} {} {}", verdict_word(self.verdict), self.count, self.digest)
    }
}

impl FromStr for CitedTable {
    type Err = String;

    fn from_str(text: &str) -> Result<CitedTable, String> {
        let words: Vec<&str> = text.split_whitespace().collect();
        let [verdict, form, count, digest] = words[..] else {
            return Err("a table has its verdict, its form, how many rows are written, and its digest".into());
        };
        let verdict = [Verdict::Exact, Verdict::Lower, Verdict::Upper].into_iter().find(|known| verdict_word(*known) == verdict);
        let form = match form {
            "only" => Some(Form::Only),
            "all-but" => Some(Form::AllBut),
            _ => None,
        };
        Ok(CitedTable {
            verdict: verdict.ok_or("a table's verdict is lower, upper or exact")?,
            form: form.ok_or("a table's form is only or all-but")?,
            count: count.parse().map_err(|_| format!("{count:?} is no count of rows"))?,
            digest: digest.parse()?,
        })
    }
}

/// All that a citation says.
#[derive(Clone, PartialEq, Eq, Debug)]
pub struct Citation {
    /// The archive's id.
    pub archive: String,
    pub point: u64,
    /// Of the archive's list up to the point.
    pub list: Digest,
    pub minute: Minute,
    pub policy: Digest,
    pub query: Digest,
    pub table: CitedTable,
    /// The version of the tool that printed it.
    pub tool: String,
}

impl fmt::Display for Citation {
    fn fmt(&self, out: &mut fmt::Formatter) -> fmt::Result {
        writeln!(out, "archive {}", self.archive)?;
        writeln!(out, "point {} {}", self.point, self.list)?;
        writeln!(out, "minute {} {}", self.minute.number(), When(self.minute))?;
        writeln!(out, "policy {}", self.policy)?;
        writeln!(out, "query {}", self.query)?;
        writeln!(out, "table {}", self.table)?;
        writeln!(out, "tool {}", self.tool)
    }
}

impl FromStr for Citation {
    type Err = String;

    fn from_str(text: &str) -> Result<Citation, String> {
        let lines = Lines::read(text)?;
        let (point, list) = lines.get("point", point)?;
        Ok(Citation {
            archive: lines.get("archive", whole)?,
            point,
            list,
            minute: lines.get("minute", minute)?,
            policy: lines.get("policy", str::parse)?,
            query: lines.get("query", str::parse)?,
            table: lines.get("table", str::parse)?,
            tool: lines.get("tool", whole)?,
        })
    }
}

const WORDS: [&str; 7] = ["archive", "point", "minute", "policy", "query", "table", "tool"];

/// The lines of a citation, by their first word: its number, what stands behind it.
struct Lines<'a>(Vec<(&'a str, usize, &'a str)>);

impl<'a> Lines<'a> {
    fn read(text: &'a str) -> Result<Lines<'a>, String> {
        let mut lines: Vec<(&str, usize, &str)> = Vec::new();
        for (line, number) in text.lines().map(str::trim).zip(1..).filter(|(line, _)| !line.is_empty()) {
            let (word, value) = line.split_once(char::is_whitespace).unwrap_or((line, ""));
            if !WORDS.contains(&word) {
                return Err(format!("line {number}: a citation has no {word:?}, only {}", WORDS.join(", ")));
            }
            if let Some((_, first, _)) = lines.iter().find(|(other, ..)| *other == word) {
                return Err(format!("line {number}: {word:?} stands on line {first} already"));
            }
            lines.push((word, number, value.trim()));
        }
        Ok(Lines(lines))
    }

    fn get<T>(&self, word: &str, read: impl FnOnce(&str) -> Result<T, String>) -> Result<T, String> {
        let (_, number, value) = self.0.iter().find(|(other, ..)| *other == word).ok_or_else(|| format!("there is no line {word:?}"))?;
        read(value).map_err(|wrong| format!("line {number}: {wrong}"))
    }
}

fn whole(value: &str) -> Result<String, String> {
    match value {
        "" => Err("nothing stands behind the word".into()),
        _ => Ok(value.into()),
    }
}

fn point(value: &str) -> Result<(u64, Digest), String> {
    let (point, digest) = value.split_once(char::is_whitespace).ok_or("a point has its number, and the digest of the list up to it")?;
    let point = point.parse().map_err(|_| format!("{point:?} is no point's number"))?;
    Ok((point, digest.trim().parse()?))
}

/// Its number counts; the date is there for people, and must be that minute's.
fn minute(value: &str) -> Result<Minute, String> {
    let (number, date) = value.split_once(char::is_whitespace).unwrap_or((value, ""));
    let minute = Minute::new(number.parse().map_err(|_| format!("{number:?} is no minute's number"))?);
    match date.trim() == When(minute).to_string() {
        true => Ok(minute),
        false => Err(format!("minute {number} is {}, and not {:?}", When(minute), date.trim())),
    }
}

#[cfg(test)]
mod tests {
    use super::*;
    use txindurbe::{Key, Row, Rows};

    fn hexadecimal(digest: Digest) -> String {
        digest.to_string().trim_start_matches("sha256:").into()
    }

    /// Worked out by `printf .. | sha256sum`, byte by byte from the module's comment.
    #[test]
    fn digests_are_over_a_line_and_words() {
        let policy = Policy::from_words(Key::new(9), vec![1, 0]);
        assert_eq!(hexadecimal(Digest::of_policy(&policy)), "ba729926b7cdd90fadb626cb0dbde51e01ad126c5ec2f9f9494f6ad1ec38ec67");
        let query = Query::from_words(vec![3, 0]);
        assert_eq!(hexadecimal(Digest::of_query(&query)), "a61f508ebff71e0ea8e1040a9446e9ed097a1bbe16f714843eb0ba56979c7eb6");
        let lower = Table::Lower(Rows::Only(vec![Row::from([7]), Row::from([8, Key::new(1).word()])]));
        assert_eq!(hexadecimal(Digest::of_table(&lower)), "6e415529d9fc9c710eefe144b60e7c08dec6ce6bafcae1276a482d754e24689e");
        let upper = Table::Upper(Rows::AllBut(vec![]));
        assert_eq!(hexadecimal(Digest::of_table(&upper)), "316d62ebd76805ff12fd62e3c0ae66b1cde43e9189490b9ee65c8929bd9abdbc");
    }

    #[test]
    fn tables_that_promise_something_else_have_another_digest() {
        let rows = vec![Row::from([7])];
        let [only, all_but] = [Rows::Only(rows.clone()), Rows::AllBut(rows)];
        let tables = [
            Table::Exact(only.clone()),
            Table::Lower(only.clone()),
            Table::Upper(only),
            Table::Exact(all_but.clone()),
            Table::Lower(all_but.clone()),
            Table::Upper(all_but),
            Table::Exact(Rows::Only(vec![])),
            Table::Exact(Rows::Only(vec![Row::from([7, 0])])),
        ];
        let digests: std::collections::BTreeSet<[u8; 32]> = tables.iter().map(|table| Digest::of_table(table).0).collect();
        assert_eq!(digests.len(), tables.len());
    }

    fn example() -> Citation {
        Citation {
            archive: "visibilities".into(),
            point: 10,
            list: Digest([0x0f; 32]),
            minute: Minute::new(60),
            policy: Digest([1; 32]),
            query: Digest([2; 32]),
            table: CitedTable { verdict: Verdict::Upper, form: Form::AllBut, count: 3, digest: Digest([0xab; 32]) },
            tool: "0.9.0".into(),
        }
    }

    #[test]
    fn citations_come_back_from_their_text() {
        let text = example().to_string();
        assert!(text.contains("\nminute 60 2000-01-01 01:00\n"), "{text}");
        assert!(text.contains(&format!("\ntable upper all-but 3 sha256:{}\n", "ab".repeat(32))), "{text}");
        assert_eq!(text.parse(), Ok(example()));
        let spaced = text.replace('\n', "\r\n\r\n").replace("point ", "  point \t");
        assert_eq!(spaced.parse(), Ok(example()));
    }

    #[test]
    fn what_is_no_citation_is_not_read_as_one() {
        let text = example().to_string();
        let changed = |from: &str, to: &str| {
            assert!(text.contains(from), "{from}");
            text.replacen(from, to, 1).parse::<Citation>().expect_err(to)
        };
        assert_eq!(changed("archive visibilities\n", ""), "there is no line \"archive\"");
        assert_eq!(changed("archive visibilities", "archive"), "line 1: nothing stands behind the word");
        assert_eq!(changed("point 10", "point ten"), "line 2: \"ten\" is no point's number");
        assert_eq!(changed("minute 60", "minute 61"), "line 3: minute 61 is 2000-01-01 01:01, and not \"2000-01-01 01:00\"");
        assert_eq!(changed("policy", "policies"), format!("line 4: a citation has no \"policies\", only {}", WORDS.join(", ")));
        assert_eq!(changed("table upper", "table wide"), "line 6: a table's verdict is lower, upper or exact");
        assert_eq!(changed("all-but", "but"), "line 6: a table's form is only or all-but");
        assert_eq!(changed("tool 0.9.0", "tool 0.9.0\ntool 0.9.1"), "line 8: \"tool\" stands on line 7 already");
        for (from, to) in [("0202", "02"), ("0202", "020202"), ("0202", "zz02"), ("0202", "+202"), ("sha256:02", "sha1:02"), ("0f0f", "0F0f")] {
            assert!(changed(from, to).contains("is no digest"), "{to}");
        }
    }
}
