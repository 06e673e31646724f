use crate::sizes::ROW_WORDS;
use crate::{Refusal, Row};
use std::fmt;

/// How a table is to be read: see [`Table`]. Policy and query alone decide it.
///
/// ```
/// use txindurbe::{Expression, Key, Policy, Polarity, Verdict};
///
/// let policy = Policy::new(Key::new(9), &[])?;
/// let verdict = |expression| policy.judge(&policy.query(&expression)?).map_err(Box::<dyn std::error::Error>::from);
/// assert_eq!(verdict(Expression::rows([vec![7.into()]]))?, Verdict::Exact);
/// assert_eq!(verdict(Expression::list(Key::new(1), 1, Polarity::Plus))?, Verdict::Lower);
/// assert_eq!(verdict(Expression::list(Key::new(1), 2, Polarity::Minus))?, Verdict::Upper);
/// # Ok::<(), Box<dyn std::error::Error>>(())
/// ```
#[derive(Clone, Copy, PartialEq, Eq, Hash, Debug)]
pub enum Verdict {
    /// Just the rows of the table belong.
    Exact,
    /// At least the rows of the table belong.
    Lower,
    /// At most the rows of the table belong.
    Upper,
}

impl Verdict {
    /// Of the numbers that the library handed out. The first one decides, so that a refusal never reads as a verdict.
    pub(crate) fn from_numbers(number: u32, part: u32, verdict: u32) -> Result<Verdict, Refusal> {
        match (number, verdict) {
            (0, 0) => Ok(Verdict::Exact),
            (0, 1) => Ok(Verdict::Lower),
            (0, 2) => Ok(Verdict::Upper),
            (0, _) => panic!("the library linked has a verdict {verdict}"),
            _ => Err(Refusal::of_reply(number, part)),
        }
    }
}

/// Whether a row belongs to a query, as far as the certificates and links held can tell.
///
/// ```
/// use txindurbe::{Membership, Row, Rows, Table};
///
/// let (here, elsewhere) = (Row::from([7]), Row::from([8]));
/// let contains = |table: Table| [here, elsewhere].map(|row| table.contains(&row));
/// assert_eq!(contains(Table::Exact(Rows::Only(vec![here]))), [Membership::Yes, Membership::No]);
/// assert_eq!(contains(Table::Lower(Rows::Only(vec![here]))), [Membership::Yes, Membership::Unknown]);
/// assert_eq!(contains(Table::Upper(Rows::Only(vec![here]))), [Membership::Unknown, Membership::No]);
/// ```
#[derive(Clone, Copy, PartialEq, Eq, Hash, Debug)]
pub enum Membership {
    /// It belongs, whatever is in the lists that we do not hold.
    Yes,
    /// It does not belong, whatever is in those lists.
    No,
    /// It hangs on certificates or links that are not held.
    Unknown,
}

/// A set of rows: some, or all but some. It lists at most 128 rows, in ascending order; a query whose answer would list more, or that comes to such a set
/// on its way, is refused as [`TooManyRows`](crate::Refusal::TooManyRows) and not cut short.
///
/// What it means for a row to be listed, the [`Table`] says that has the set.
///
/// ```
/// use txindurbe::{Row, Rows};
///
/// let rows = vec![Row::from([7]), Row::from([7, 1])];
/// assert_eq!(Rows::Only(rows.clone()).to_string(), "(7), (7, 1)");
/// assert_eq!(Rows::AllBut(rows).to_string(), "all rows but (7), (7, 1)");
/// assert_eq!([Rows::Only(vec![]), Rows::AllBut(vec![])].map(|rows| rows.to_string()), ["no rows", "all rows"]);
/// ```
#[derive(Clone, PartialEq, Eq, Debug)]
pub enum Rows {
    /// These rows.
    Only(Vec<Row>),
    /// All rows that are not among these.
    AllBut(Vec<Row>),
}

impl Rows {
    /// Private: what it means that a row is here, or is not, the verdict says.
    fn has(&self, row: &Row) -> bool {
        match self {
            Rows::Only(listed) => listed.contains(row),
            Rows::AllBut(excluded) => !excluded.contains(row),
        }
    }

    /// From an answer: form, count, rows.
    fn from_words(words: &[u32]) -> Rows {
        let [form, count, rows @ ..] = words else { panic!("the answer area has a form and a count") };
        let rows = rows.as_chunks::<ROW_WORDS>().0.iter().take(*count as usize);
        let rows = rows.map(|&words| Row::from_words(words).expect("the engine answers with rows")).collect();
        if *form == 0 {
            Rows::Only(rows)
        } else {
            Rows::AllBut(rows)
        }
    }
}

impl fmt::Display for Rows {
    fn fmt(&self, out: &mut fmt::Formatter) -> fmt::Result {
        match self {
            Rows::Only(listed) if listed.is_empty() => out.write_str("no rows"),
            Rows::Only(listed) => side_by_side(listed, out),
            Rows::AllBut(excluded) if excluded.is_empty() => out.write_str("all rows"),
            Rows::AllBut(excluded) => {
                out.write_str("all rows but ")?;
                side_by_side(excluded, out)
            }
        }
    }
}

fn side_by_side(rows: &[Row], out: &mut fmt::Formatter) -> fmt::Result {
    for (place, row) in rows.iter().enumerate() {
        write!(out, "{}{row}", if place == 0 { "" } else { ", " })?;
    }
    Ok(())
}

/// An answer's set of rows with its verdict.
///
/// The archive rarely holds every certificate there is: a + list has the rows certified and perhaps others, a − list lacks the rows certified and perhaps
/// others. Rows are certified of a list also where [`Link`](crate::Link)s bring them from others. Whether a row belongs to a query can hang on the rows that are
/// not certified, and the verdict says what the table promises about them. The promises are proved, and are kept as long as the links, and the certificates that
/// hold at the minute asked for, are true. They compare answers, and at one minute: with more certificates and links a query may also come to be refused, as with
/// too many rows, and at another minute other certificates hold, so that a table may gain rows and lose others. Two policies are
/// the same if both their words and our key are.
///
/// ```
/// use txindurbe::{Row, Rows, Table};
///
/// let table = Table::Lower(Rows::Only(vec![Row::from([7]), Row::from([8])]));
/// assert_eq!(table.to_string(), "at least (7), (8)");
/// match table {
///     Table::Lower(Rows::Only(rows)) => println!("{} observations are public, and others may be", rows.len()),
///     other => println!("public: {other}"),
/// }
///
/// assert_eq!(Table::Upper(Rows::AllBut(vec![Row::from([7])])).to_string(), "at most all rows but (7)");
/// assert_eq!(Table::Exact(Rows::Only(vec![])).to_string(), "exactly no rows");
/// ```
#[derive(Clone, PartialEq, Eq, Debug)]
pub enum Table {
    /// Exactly the rows that belong to the query whatever the lists have beside what is certified. Other rows may belong too. When more certificates and
    /// links are filed, the same query under the same policy and at the same minute gains rows or keeps them.
    Lower(Rows),
    /// The rows that are missing here are exactly those that do not belong to the query whatever the lists have beside what is certified. Those here need
    /// not all belong. When more certificates and links are filed, the same query under the same policy and at the same minute loses rows or keeps them.
    Upper(Rows),
    /// The rows that belong to the query, and no others, whatever the lists have. The same query under the same policy always gives the same ones.
    Exact(Rows),
}

impl Table {
    /// From an answer's words.
    pub(crate) fn from_words(verdict: Verdict, words: &[u32]) -> Table {
        let rows = Rows::from_words(words);
        match verdict {
            Verdict::Exact => Table::Exact(rows),
            Verdict::Lower => Table::Lower(rows),
            Verdict::Upper => Table::Upper(rows),
        }
    }

    /// Which of the three it is.
    ///
    /// ```
    /// use txindurbe::{Rows, Table, Verdict};
    ///
    /// assert_eq!(Table::Lower(Rows::Only(vec![])).verdict(), Verdict::Lower);
    /// ```
    pub fn verdict(&self) -> Verdict {
        match self {
            Table::Exact(_) => Verdict::Exact,
            Table::Lower(_) => Verdict::Lower,
            Table::Upper(_) => Verdict::Upper,
        }
    }

    /// Whether this row belongs to the query.
    ///
    /// ```
    /// use txindurbe::{Membership, Row, Rows, Table};
    ///
    /// let withdrawn = Table::Upper(Rows::AllBut(vec![Row::from([7])]));
    /// assert_eq!(withdrawn.contains(&Row::from([7])), Membership::No);
    /// assert_eq!(withdrawn.contains(&Row::from([8])), Membership::Unknown);
    /// ```
    pub fn contains(&self, row: &Row) -> Membership {
        match self {
            Table::Exact(rows) | Table::Lower(rows) if rows.has(row) => Membership::Yes,
            Table::Exact(rows) | Table::Upper(rows) if !rows.has(row) => Membership::No,
            _ => Membership::Unknown,
        }
    }
}

impl fmt::Display for Table {
    fn fmt(&self, out: &mut fmt::Formatter) -> fmt::Result {
        match self {
            Table::Lower(rows) => write!(out, "at least {rows}"),
            Table::Upper(rows) => write!(out, "at most {rows}"),
            Table::Exact(rows) => write!(out, "exactly {rows}"),
        }
    }
}

#[cfg(test)]
mod tests {
    use super::*;
    use crate::Part;

    #[test]
    fn a_refusal_never_reads_as_a_verdict() {
        assert_eq!(Verdict::from_numbers(0, 17, 1), Ok(Verdict::Lower));
        for verdict in 0..=3 {
            assert_eq!(Verdict::from_numbers(7, 16, verdict), Err(Refusal::OpenDraw(Part::Query)));
        }
    }

    #[test]
    fn rows_of_an_answer_are_found_and_others_are_not() {
        // form, count; the rows 7, then 7/1, then 7/1/2, then 8, then words of an earlier answer
        let mut answer = vec![0, 4, 1, 7, 0, 0, 0, 2, 7, 1, 0, 0, 3, 7, 1, 2, 0, 1, 8, 0, 0, 0, 1, 9, 0, 0, 0, 5, 5];
        let listed = [Row::from([7]), Row::from([7, 1]), Row::from([7, 1, 2]), Row::from([8])];
        let only = Rows::from_words(&answer);
        assert_eq!(only, Rows::Only(listed.to_vec()));
        answer[0] = 1;
        let all_but = Rows::from_words(&answer);
        assert_eq!(all_but, Rows::AllBut(listed.to_vec()));
        for row in listed {
            assert!(only.has(&row) && !all_but.has(&row), "{row}");
        }
        for row in [Row::from([0]), Row::from([7, 0]), Row::from([7, 1, 0]), Row::from([7, 1, 2, 0]), Row::from([8, 0]), Row::from([9])] {
            assert!(!only.has(&row) && all_but.has(&row), "{row}");
        }
    }
}
