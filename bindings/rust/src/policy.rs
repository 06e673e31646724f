use crate::sizes::POLICY_WORDS;
use crate::words::{words, Used};
use crate::{calls, Expression, Key, Part, Polarity, Refusal, Unresolved, Verdict};

/// A name, the polarity that it is declared with, what it stands for, and the label that expressions have for it.
///
/// ```
/// use txindurbe::{Definition, Expression, Key, Policy, Polarity};
///
/// let released = Definition::new("released", 1, Polarity::Plus, Expression::list(Key::new(1), 1, Polarity::Plus));
/// let public = Definition::new("public", 10, Polarity::Plus, Expression::defined("released"));
/// assert!(Policy::new(Key::new(9), &[released, public]).is_ok());
/// ```
#[derive(Clone, PartialEq, Eq, Debug)]
pub struct Definition {
    /// What [`Expression::defined`] finds it by. The engine does not get to see it.
    pub label: String,
    /// Its number, which an own name has under our key.
    pub name: u16,
    /// The polarity that it is declared with. The engine refuses it if it does not have that one.
    pub polarity: Polarity,
    /// What it stands for.
    pub expression: Expression,
}

impl Definition {
    /// With a label, a name, a polarity and what it stands for.
    ///
    /// ```
    /// use txindurbe::{Definition, Expression, Polarity};
    ///
    /// let public = Definition::new("public", 10, Polarity::Plus, Expression::rows([vec![7.into()]]));
    /// assert_eq!((public.label.as_str(), public.name), ("public", 10));
    /// ```
    pub fn new(label: impl Into<String>, name: u16, polarity: Polarity, expression: Expression) -> Definition {
        Definition { label: label.into(), name, polarity, expression }
    }
}

/// Which rows the pattern of a [`Draw`](crate::Guard::Draw) matches: in a policy's definitions, and in every query that is asked under it.
///
/// Where observatories append atoms to their rows, as an epoch, a policy of format 2 still matches them by those that it knows. A row that is not matched is
/// passed over, and is a draw all the same. Only patterns go by the format: the row of an [`Absent`](crate::Guard::Absent) guard, and that of the key by which a
/// [`vetted_list`](Expression::vetted_list) is vetted, are whole rows in both.
///
/// ```
/// use txindurbe::{variable, Engine, Expression, Format, Guard, Key, Links, Minute, Policy, Store};
///
/// // Each x of these observations, one of which has an epoch.
/// let observations = Expression::rows([vec![7.into()], vec![8.into(), 2027.into()]]);
/// let each_x = Expression::each([Guard::Draw(vec![variable("x")], observations)], [variable("x")]);
///
/// let [equal, wider] = [Format::EqualWidths, Format::WiderRows].map(|format| {
///     let policy = Policy::in_format(Key::new(9), format, &[]).expect("it has no names");
///     let query = policy.query(&each_x).expect("x is drawn");
///     Engine::new().query(&policy, &query, Minute::new(0), &Store::new(), &Links::new())
/// });
/// let (equal, wider) = (equal?, wider?);
/// assert_eq!(equal.table().to_string(), "exactly (7)");
/// assert_eq!(wider.table().to_string(), "exactly (7), (8)");
/// assert_eq!((equal.draws(), wider.draws()), (2, 2));
/// # Ok::<(), txindurbe::Refusal>(())
/// ```
#[derive(Clone, Copy, PartialEq, Eq, Hash, Debug)]
pub enum Format {
    /// 1: a pattern matches rows that have as many atoms as it.
    EqualWidths = 1,
    /// 2: a pattern of width w matches every row of at least w atoms by its first w.
    WiderRows = 2,
}

impl Format {
    /// Of a policy's word 0.
    fn from_number(number: u32) -> Option<Format> {
        match number {
            1 => Some(Format::EqualWidths),
            2 => Some(Format::WiderRows),
            _ => None,
        }
    }
}

/// A policy's words, and our key. The words are its [`Format`], a table of definitions, then each one's expression.
///
/// Our key is the archive's own. Curators write it before their own names: a [`list`](Expression::list) under our key, an own name, stands for the definition
/// of that name and polarity. The definition must be available there, which those before it are, and in a query any; else the refusal is
/// [`NotInScope`](crate::Refusal::NotInScope). An own name has the definition's rows, whatever is certified or linked under our key, and may be drawn from
/// where the definition may: also under −, if that is not open. The key that a [`list_of`](Expression::list_of) finds in a variable is never read as ours.
///
/// Judging, rewriting and asking take our key from the policy, so that no two are mixed.
///
/// ```
/// use txindurbe::{Definition, Engine, Expression, Key, Links, Minute, Part, Polarity, Policy, Refusal, Store};
///
/// const OUR_KEY: Key = Key::new(9);
/// const PUBLIC: u16 = 10;
///
/// fn main() -> Result<(), Box<dyn std::error::Error>> {
///     let observation = Expression::rows([vec![7.into()]]);
///     let policy = Policy::new(OUR_KEY, &[Definition::new("public", PUBLIC, Polarity::Plus, observation)])?;
///     let public = |key, polarity| policy.query(&Expression::list(key, PUBLIC, polarity));
///
///     // Ours is the definition; another key's is what that key certified, here nothing.
///     let ask = |query| Engine::new().query(&policy, &query, Minute::new(0), &Store::new(), &Links::new());
///     assert_eq!(ask(public(OUR_KEY, Polarity::Plus)?)?.table().to_string(), "at least (7)");
///     assert_eq!(ask(public(Key::new(1), Polarity::Plus)?)?.table().to_string(), "at least no rows");
///
///     // With − the name is another one, which is not defined.
///     assert_eq!(policy.judge(&public(OUR_KEY, Polarity::Minus)?), Err(Refusal::NotInScope(Part::Query)));
///     Ok(())
/// }
/// ```
#[derive(Clone, Debug)]
pub struct Policy {
    our_key: Key,
    words: Vec<u32>,
    /// Of the definitions, where they are known.
    labels: Vec<String>,
}

/// Labels make no difference: two policies are the same if both their words and our key are.
impl PartialEq for Policy {
    fn eq(&self, other: &Policy) -> bool {
        (self.our_key, &self.words) == (other.our_key, &other.words)
    }
}

impl Eq for Policy {}

impl Policy {
    /// In format 1, [`Format::EqualWidths`].
    ///
    /// ```
    /// use txindurbe::{Definition, Expression, Key, Policy, Polarity};
    ///
    /// let public = Definition::new("public", 10, Polarity::Plus, Expression::rows([vec![7.into()]]));
    /// let policy = Policy::new(Key::new(9), &[public])?;
    /// assert_eq!(policy.words(), [1, 1, 10, 0, 6, 5, 1, 1, 1, 0, 7]);
    /// # Ok::<(), txindurbe::Unresolved>(())
    /// ```
    pub fn new(our_key: Key, definitions: &[Definition]) -> Result<Policy, Unresolved> {
        Policy::in_format(our_key, Format::EqualWidths, definitions)
    }

    /// In either format. The same definitions may have other rows in the other one: where rows are wider than the patterns that draw them.
    ///
    /// ```
    /// use txindurbe::{Format, Key, Policy};
    ///
    /// assert_eq!(Policy::in_format(Key::new(9), Format::WiderRows, &[])?.words(), [2, 0]);
    /// # Ok::<(), txindurbe::Unresolved>(())
    /// ```
    pub fn in_format(our_key: Key, format: Format, definitions: &[Definition]) -> Result<Policy, Unresolved> {
        let labels: Vec<String> = definitions.iter().map(|definition| definition.label.clone()).collect();
        let mut table = vec![format as u32, definitions.len() as u32];
        let mut parts = Vec::new();
        for Definition { name, polarity, expression, .. } in definitions {
            let (part, _) = words(expression, &labels)?;
            let offset = 2 + 4 * definitions.len() + parts.len();
            table.extend([u32::from(*name), *polarity as u32, offset as u32, part.len() as u32]);
            parts.extend(part);
        }
        Ok(Policy { our_key, words: [table, parts].concat(), labels })
    }

    /// Any words at all; the engine refuses what is malformed. Definitions have no labels in words: a query asks for them by own names, or is in words too.
    ///
    /// ```
    /// use txindurbe::{Key, Policy, Query, Refusal, Verdict};
    ///
    /// let policy = Policy::from_words(Key::new(9), vec![1, 1, 10, 0, 6, 5, 1, 1, 1, 0, 7]);
    /// assert_eq!(policy.judge(&Query::from_words(vec![3, 0])), Ok(Verdict::Lower));
    /// assert_eq!(Policy::from_words(Key::new(9), vec![]).rewrite(), Err(Refusal::BadHeader));
    /// ```
    pub fn from_words(our_key: Key, words: Vec<u32>) -> Policy {
        Policy { our_key, words, labels: Vec::new() }
    }

    /// The words of an expression, which may use every definition by its label. It is a query under this policy, and under what this one is rewritten into;
    /// where a policy has another definition in the place of one that it uses, asking it there panics.
    ///
    /// ```
    /// use txindurbe::{Definition, Expression, Key, Policy, Polarity, Verdict};
    ///
    /// let public = Definition::new("public", 10, Polarity::Plus, Expression::rows([vec![7.into()]]));
    /// let policy = Policy::new(Key::new(9), &[public])?;
    /// let query = policy.query(&Expression::defined("public"))?;
    /// assert_eq!(policy.judge(&query), Ok(Verdict::Lower));
    /// # Ok::<(), txindurbe::Unresolved>(())
    /// ```
    pub fn query(&self, expression: &Expression) -> Result<Query, Unresolved> {
        let (words, used) = words(expression, &self.labels)?;
        Ok(Query { words, used })
    }

    /// So that a definition asked for by its label is never another one.
    pub(crate) fn assert_has_definitions_of(&self, query: &Query) {
        let known = !self.labels.is_empty();
        let other = query.used.iter().find(|(place, label)| known && self.labels.get(*place as usize) != Some(label));
        if let Some((place, label)) = other {
            panic!("the query was made under another policy: it uses `{label}` as definition {place}, which is another one here");
        }
    }

    /// The archive's own.
    ///
    /// ```
    /// use txindurbe::{Key, Policy};
    ///
    /// assert_eq!(Policy::from_words(Key::new(9), vec![1, 0]).our_key(), Key::new(9));
    /// ```
    pub fn our_key(&self) -> Key {
        self.our_key
    }

    /// Without our key, which is kept apart.
    ///
    /// ```
    /// use txindurbe::{Key, Policy};
    ///
    /// assert_eq!(Policy::new(Key::new(9), &[])?.words(), [1, 0]);
    /// # Ok::<(), txindurbe::Unresolved>(())
    /// ```
    pub fn words(&self) -> &[u32] {
        &self.words
    }

    /// What word 0 says; none if there is no such word or no such format, and the policy is then refused as
    /// [`BadHeader`](crate::Refusal::BadHeader).
    ///
    /// ```
    /// use txindurbe::{Format, Key, Policy};
    ///
    /// let format = |words| Policy::from_words(Key::new(9), words).format();
    /// assert_eq!(format(vec![1, 0]), Some(Format::EqualWidths));
    /// assert_eq!(format(vec![2, 0]), Some(Format::WiderRows));
    /// assert_eq!(format(vec![3, 0]), None);
    /// ```
    pub fn format(&self) -> Option<Format> {
        self.words.first().copied().and_then(Format::from_number)
    }

    /// The verdict that an answer to this query has, whatever the store; or the refusal that it would get with any.
    ///
    /// ```
    /// use txindurbe::{Expression, Key, Part, Policy, Polarity, Refusal, Verdict};
    ///
    /// let policy = Policy::new(Key::new(9), &[])?;
    /// let released = Expression::list(Key::new(1), 1, Polarity::Plus);
    /// assert_eq!(policy.judge(&policy.query(&released)?), Ok(Verdict::Lower));
    ///
    /// // What is released and not released: nothing is known of that by certificates of what is released.
    /// let nonsense = released.clone().minus(released);
    /// assert_eq!(policy.judge(&policy.query(&nonsense)?), Err(Refusal::NoPolarity(Part::Query)));
    /// # Ok::<(), txindurbe::Unresolved>(())
    /// ```
    ///
    /// # Panics
    /// If the query uses definitions of another policy by their labels.
    pub fn judge(&self, query: &Query) -> Result<Verdict, Refusal> {
        self.assert_has_definitions_of(query);
        let judgement = calls::judge(&self.words, query.words(), self.our_key.word());
        Verdict::from_numbers(judgement.number, judgement.part, judgement.verdict)
    }

    /// An external policy rewritten, so that it relies on no list of a compromised key.
    ///
    /// In an external policy definition 0 may be the name 0, −, which lists the compromised keys. Every other definition is +, and none has a difference, an
    /// absent guard or a [`vetted_list`](Expression::vetted_list). Each [`list`](Expression::list) in a later definition becomes vetted by definition 0, own
    /// names too: they have no rows if our key is compromised. Without a definition of name 0, −, the output equals this policy; either way it has the same
    /// [`Format`], our key and labels. A query is not rewritten: it asks for the definitions, or for lists as it names them.
    ///
    /// ```
    /// use txindurbe::{Definition, Expression, Key, Policy, Polarity};
    ///
    /// let (authority, observatory) = (Key::new(3), Key::new(1));
    /// let compromised = Definition::new("compromised", 0, Polarity::Minus, Expression::list(authority, 0, Polarity::Minus));
    /// let public = |expression| Definition::new("public", 10, Polarity::Plus, expression);
    /// let lists = public(Expression::list(observatory, 1, Polarity::Plus));
    /// let vetted = public(Expression::vetted_list(observatory, 1, "compromised"));
    ///
    /// let external = Policy::new(Key::new(9), &[compromised.clone(), lists])?;
    /// assert_eq!(external.rewrite()?, Policy::new(Key::new(9), &[compromised, vetted])?);
    /// # Ok::<(), Box<dyn std::error::Error>>(())
    /// ```
    pub fn rewrite(&self) -> Result<Policy, Refusal> {
        let mut words = vec![0; POLICY_WORDS];
        let rewriting = calls::rewrite(&self.words, self.our_key.word(), &mut words);
        if rewriting.number > 0 {
            return Err(Refusal::of_reply(rewriting.number, rewriting.part));
        }
        words.truncate(rewriting.length);
        Ok(Policy { words, ..self.clone() })
    }

    /// The words of the definition or query that a refusal is about; none if there is no such definition or the policy's table is broken.
    ///
    /// ```
    /// use txindurbe::{Key, Part, Policy, Query};
    ///
    /// let policy = Policy::from_words(Key::new(9), vec![1, 1, 10, 0, 6, 2, 1, 0]);
    /// let query = Query::from_words(vec![3, 0]);
    /// assert_eq!(policy.part(&query, Part::Definition(0)), [1, 0]);
    /// assert_eq!(policy.part(&query, Part::Query), [3, 0]);
    /// ```
    pub fn part<'a>(&'a self, query: &'a Query, part: Part) -> &'a [u32] {
        let (of_query, words) = calls::part(&self.words, query.words(), part.number());
        if of_query == 1 {
            &query.words[words]
        } else {
            &self.words[words]
        }
    }
}

/// A query's words: one expression, which may use every definition. [`Policy::query`] makes them.
///
/// ```
/// use txindurbe::{Expression, Key, Policy, Query};
///
/// let query = Policy::new(Key::new(9), &[])?.query(&Expression::rows([vec![7.into()]]))?;
/// assert_eq!(query, Query::from_words(vec![1, 1, 1, 0, 7]));
/// # Ok::<(), txindurbe::Unresolved>(())
/// ```
#[derive(Clone, Debug)]
pub struct Query {
    words: Vec<u32>,
    /// The definitions that it was given by their labels, each with its place in its policy.
    used: Vec<Used>,
}

/// By words.
impl PartialEq for Query {
    fn eq(&self, other: &Query) -> bool {
        self.words == other.words
    }
}

impl Eq for Query {}

impl Query {
    /// Any words at all; the engine refuses what is malformed.
    ///
    /// ```
    /// use txindurbe::{Key, Part, Policy, Query, Refusal};
    ///
    /// let policy = Policy::from_words(Key::new(9), vec![1, 0]);
    /// assert_eq!(policy.judge(&Query::from_words(vec![])), Err(Refusal::BadWord(Part::Query)));
    /// ```
    pub fn from_words(words: Vec<u32>) -> Query {
        Query { words, used: Vec::new() }
    }

    /// As the engine reads them.
    ///
    /// ```
    /// assert_eq!(txindurbe::Query::from_words(vec![3, 0]).words(), [3, 0]);
    /// ```
    pub fn words(&self) -> &[u32] {
        &self.words
    }
}

#[cfg(test)]
mod tests {
    use super::*;
    use crate::{Engine, Links, Minute, Store};

    const OUR_KEY: Key = Key::new(9);

    fn seven(label: &str, name: u16) -> Definition {
        Definition::new(label, name, Polarity::Plus, Expression::rows([vec![7.into()]]))
    }

    #[test]
    fn a_policy_says_its_format_in_word_0() {
        let definitions = [seven("public", 10)];
        for (format, word) in [(Format::EqualWidths, 1), (Format::WiderRows, 2)] {
            let policy = Policy::in_format(OUR_KEY, format, &definitions).unwrap();
            assert_eq!(policy.words(), [word, 1, 10, 0, 6, 5, 1, 1, 1, 0, 7]);
            assert_eq!(policy.format(), Some(format));
        }
        assert_eq!(Policy::new(OUR_KEY, &definitions), Policy::in_format(OUR_KEY, Format::EqualWidths, &definitions));
    }

    #[test]
    fn a_policy_keeps_our_key_beside_its_words() {
        for our_key in [Key::new(0), OUR_KEY, Key::new((1 << 31) - 1)] {
            let made = [
                Policy::new(our_key, &[]).unwrap(),
                Policy::in_format(our_key, Format::EqualWidths, &[]).unwrap(),
                Policy::from_words(our_key, vec![1, 0]),
            ];
            for policy in made {
                assert_eq!((policy.our_key(), policy.words()), (our_key, &[1, 0][..]));
                // the same words with another key are another policy
                assert_ne!(policy, Policy::from_words(Key::new(8), vec![1, 0]));
            }
        }
    }

    /// Under another policy `closed` stands where `open` did: its rows must not be taken for those of `open`.
    #[test]
    fn a_query_by_label_is_no_other_policys() {
        let rows = |atom: u32| Expression::rows([vec![atom.into()]]);
        let [open, closed] = [("open", 7), ("closed", 8)].map(|(label, atom)| Definition::new(label, atom as u16, Polarity::Plus, rows(atom)));
        let policy = Policy::new(Key::new(9), std::slice::from_ref(&open)).unwrap();
        let query = policy.query(&Expression::defined("open")).unwrap();
        assert_eq!(policy.judge(&query), Ok(Verdict::Lower));
        assert_eq!(policy.rewrite().unwrap().judge(&query), Ok(Verdict::Lower));
        assert_eq!(Policy::new(Key::new(9), &[open.clone(), closed.clone()]).unwrap().judge(&query), Ok(Verdict::Lower));

        let other = Policy::new(Key::new(9), &[closed, open]).unwrap();
        assert!(std::panic::catch_unwind(|| other.judge(&query)).is_err());
        let asked = || Engine::new().query(&other, &query, Minute::new(0), &Store::new(), &Links::new());
        assert!(std::panic::catch_unwind(asked).is_err());
        // one that uses no definition, or none by its label, may be asked of any
        let any = policy.query(&rows(7)).unwrap();
        assert_eq!(other.judge(&any), Ok(Verdict::Exact));
        assert_eq!(other.judge(&Query::from_words(query.words().to_vec())), Ok(Verdict::Lower));
    }

    #[test]
    fn labels_make_no_difference_to_a_policy() {
        let policy = Policy::new(OUR_KEY, &[seven("public", 10)]).unwrap();
        assert_eq!(policy, Policy::new(OUR_KEY, &[seven("observations", 10)]).unwrap());
        assert_eq!(policy, Policy::from_words(OUR_KEY, policy.words().to_vec()));
        assert_ne!(policy, Policy::new(OUR_KEY, &[seven("public", 11)]).unwrap());
    }

    #[test]
    fn words_that_have_no_format() {
        assert_eq!(Policy::from_words(OUR_KEY, vec![]).format(), None);
        for word in [0, 3, 1 << 16, 1 << 31, u32::MAX] {
            assert_eq!(Policy::from_words(OUR_KEY, vec![word, 0]).format(), None, "{word}");
        }
    }

    #[test]
    fn the_engine_and_the_header_have_the_same_formats() {
        let engine = include_str!("../../../crates/policy/src/codes.rt");
        let header: Vec<&str> = include_str!("../../../include/txindurbe.h").split([' ', ',', '\n']).filter(|word| !word.is_empty()).collect();
        for (constant, format) in [("EQUAL_WIDTHS", Format::EqualWidths), ("WIDER_ROWS", Format::WiderRows)] {
            let number = (format as u32).to_string();
            assert_eq!(Format::from_number(format as u32), Some(format));
            assert!(engine.lines().any(|line| line == format!("    {format:?} = {number},")), "the engine's {format:?}");
            assert!(header.windows(3).any(|words| words == [&format!("TXB_{constant}"), "=", &number]), "the header's {constant}");
        }
    }
}
