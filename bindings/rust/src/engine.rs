use crate::calls::{self, Lent};
use crate::sizes::{ANSWER_WORDS, DEFINITIONS_WORDS, SCRATCH_WORDS};
use crate::{Links, Membership, Minute, Policy, Query, Refusal, Row, Store, Table, Verdict};

/// What a query comes to: a [`Table`], and the draws that it took. Whether a row belongs, it says itself; the rows are in the table, and to take them out is to
/// say what they promise.
///
/// ```
/// use txindurbe::{Engine, Expression, Key, Links, Membership, Minute, Policy, Polarity, Row, Rows, Store, Table};
///
/// let policy = Policy::new(Key::new(9), &[])?;
/// let released = policy.query(&Expression::list(Key::new(1), 1, Polarity::Plus))?;
/// let answer = Engine::new().query(&policy, &released, Minute::new(0), &Store::new(), &Links::new())?;
///
/// // Nothing is held, so that nothing is known to be released, and nothing known not to be.
/// assert_eq!(answer.contains(&Row::from([7])), Membership::Unknown);
/// assert_eq!(answer.table(), &Table::Lower(Rows::Only(vec![])));
/// # Ok::<(), Box<dyn std::error::Error>>(())
/// ```
#[derive(Clone, PartialEq, Eq, Debug)]
pub struct Answer {
    table: Table,
    draws: u32,
}

impl Answer {
    /// The rows, with what they promise.
    ///
    /// ```
    /// # use txindurbe::{Engine, Expression, Key, Links, Membership, Minute, Policy, Polarity, Row, Rows, Store, Table, Verdict};
    /// # let policy = Policy::new(Key::new(9), &[])?;
    /// # let query = policy.query(&Expression::rows([vec![7.into()]]))?;
    /// # let answer = Engine::new().query(&policy, &query, Minute::new(0), &Store::new(), &Links::new())?;
    /// // Of the query {(7)}, which reads no list:
    /// match answer.table() {
    ///     Table::Exact(rows) => assert_eq!(rows, &Rows::Only(vec![Row::from([7])])),
    ///     Table::Lower(_) | Table::Upper(_) => unreachable!("it has both polarities"),
    /// }
    /// # Ok::<(), Box<dyn std::error::Error>>(())
    /// ```
    pub fn table(&self) -> &Table {
        &self.table
    }

    /// What its rows promise.
    ///
    /// ```
    /// # use txindurbe::{Engine, Expression, Key, Links, Membership, Minute, Policy, Polarity, Row, Rows, Store, Table, Verdict};
    /// # let policy = Policy::new(Key::new(9), &[])?;
    /// # let query = policy.query(&Expression::rows([vec![7.into()]]))?;
    /// # let answer = Engine::new().query(&policy, &query, Minute::new(0), &Store::new(), &Links::new())?;
    /// // Of the query {(7)}, which reads no list:
    /// assert_eq!(answer.verdict(), Verdict::Exact);
    /// # Ok::<(), Box<dyn std::error::Error>>(())
    /// ```
    pub fn verdict(&self) -> Verdict {
        self.table.verdict()
    }

    /// Rows drawn to find it, at most 1,000,000.
    ///
    /// ```
    /// # use txindurbe::{Engine, Expression, Key, Links, Membership, Minute, Policy, Polarity, Row, Rows, Store, Table, Verdict};
    /// # let policy = Policy::new(Key::new(9), &[])?;
    /// # let query = policy.query(&Expression::rows([vec![7.into()]]))?;
    /// # let answer = Engine::new().query(&policy, &query, Minute::new(0), &Store::new(), &Links::new())?;
    /// // Of the query {(7)}, which has no draw:
    /// assert_eq!(answer.draws(), 0);
    /// # Ok::<(), Box<dyn std::error::Error>>(())
    /// ```
    pub fn draws(&self) -> u32 {
        self.draws
    }

    /// Whether this row belongs to the query.
    ///
    /// ```
    /// # use txindurbe::{Engine, Expression, Key, Links, Membership, Minute, Policy, Polarity, Row, Rows, Store, Table, Verdict};
    /// # let policy = Policy::new(Key::new(9), &[])?;
    /// # let query = policy.query(&Expression::rows([vec![7.into()]]))?;
    /// # let answer = Engine::new().query(&policy, &query, Minute::new(0), &Store::new(), &Links::new())?;
    /// // Of the query {(7)}, which reads no list:
    /// assert_eq!(answer.contains(&Row::from([7])), Membership::Yes);
    /// assert_eq!(answer.contains(&Row::from([8])), Membership::No);
    /// # Ok::<(), Box<dyn std::error::Error>>(())
    /// ```
    pub fn contains(&self, row: &Row) -> Membership {
        self.table.contains(row)
    }
}

/// The areas that a query needs, used again by each. One for each thread that asks.
///
/// ```
/// use txindurbe::{Engine, Expression, Key, Links, Minute, Policy, Store};
///
/// let policy = Policy::new(Key::new(9), &[])?;
/// let (store, links) = (Store::new(), Links::new());
/// let mut engine = Engine::new();
/// for number in [7, 8] {
///     let query = policy.query(&Expression::rows([vec![number.into()]]))?;
///     let answer = engine.query(&policy, &query, Minute::new(0), &store, &links)?;
///     assert_eq!(answer.table().to_string(), format!("exactly ({number})"));
/// }
/// # Ok::<(), Box<dyn std::error::Error>>(())
/// ```
pub struct Engine {
    answer: Vec<u32>,
    definitions: Vec<u32>,
    scratch: Vec<u32>,
}

impl Engine {
    /// With areas of its own.
    ///
    /// ```
    /// let engine = txindurbe::Engine::new();
    /// ```
    pub fn new() -> Engine {
        Engine { answer: vec![0; ANSWER_WORDS], definitions: vec![0; DEFINITIONS_WORDS], scratch: vec![0; SCRATCH_WORDS] }
    }

    /// From the certificates that hold at the minute, and from the links; own names from the definitions, by the policy's [`our_key`](Policy::our_key). A row
    /// counts once, however many of its certificates hold then.
    ///
    /// ```
    /// use txindurbe::{Certificate, Engine, Expression, Key, Links, Minute, Policy, Polarity, Store, Validity};
    ///
    /// let (observatory, released) = (Key::new(1), 1);
    /// let mut store = Store::new();
    /// store.file(&Certificate::listed(observatory, released, [7], Validity { first: Minute::new(10), end: Minute::new(20) }))?;
    ///
    /// let policy = Policy::new(Key::new(9), &[])?;
    /// let query = policy.query(&Expression::list(observatory, released, Polarity::Plus))?;
    /// let mut engine = Engine::new();
    /// let mut at = |minute| engine.query(&policy, &query, Minute::new(minute), &store, &Links::new());
    /// assert_eq!(at(10)?.table().to_string(), "at least (7)");
    /// assert_eq!(at(20)?.table().to_string(), "at least no rows");
    /// # Ok::<(), Box<dyn std::error::Error>>(())
    /// ```
    ///
    /// # Panics
    /// If the query uses definitions of another policy by their labels.
    pub fn query(&mut self, policy: &Policy, query: &Query, minute: Minute, store: &Store, links: &Links) -> Result<Answer, Refusal> {
        policy.assert_has_definitions_of(query);
        let Engine { answer, definitions, scratch } = self;
        let lent = Lent { answer, definitions, scratch };
        let reply = calls::query(policy.words(), query.words(), policy.our_key().word(), minute.number(), store.words(), links.words(), lent);
        let verdict = Verdict::from_numbers(reply.number, reply.part, reply.verdict)?;
        Ok(Answer { table: Table::from_words(verdict, answer), draws: reply.draws })
    }
}

impl Default for Engine {
    fn default() -> Engine {
        Engine::new()
    }
}
