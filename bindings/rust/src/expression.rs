use crate::{Atom, Key, Polarity};
use std::fmt;

/// What a row of an expression is made of: an atom, or a variable, by its name.
///
/// ```
/// use txindurbe::{variable, Atom, Key, Term};
///
/// // A row or a pattern takes numbers, keys and variables.
/// let pattern: Vec<Term> = vec![7.into(), Key::new(1).into(), variable("x")];
/// assert_eq!(pattern[0], Term::Atom(Atom::from(7)));
/// ```
#[derive(Clone, PartialEq, Eq, Hash, Debug)]
pub enum Term {
    /// This number or key.
    Atom(Atom),
    /// What was drawn for the variable of this name.
    Variable(String),
}

/// The variable of this name. Any text will do.
///
/// ```
/// use txindurbe::{variable, Term};
///
/// assert_eq!(variable("observatory"), Term::Variable("observatory".into()));
/// ```
pub fn variable(name: impl Into<String>) -> Term {
    Term::Variable(name.into())
}

impl From<u32> for Term {
    fn from(word: u32) -> Term {
        Term::Atom(word.into())
    }
}

impl From<Key> for Term {
    fn from(key: Key) -> Term {
        Term::Atom(key.into())
    }
}

impl From<Atom> for Term {
    fn from(atom: Atom) -> Term {
        Term::Atom(atom)
    }
}

/// What a binding of variables has to pass: see [`Expression::each`].
///
/// ```
/// use txindurbe::{variable, Expression, Guard, Key, Policy, Polarity};
///
/// // Each x of observation 7's rows (7, x) that is not 1, and not in k1's list 2.
/// let rows = Expression::rows([vec![7.into(), 1.into()], vec![7.into(), 2.into()]]);
/// let guards = [
///     Guard::Draw(vec![7.into(), variable("x")], rows),
///     Guard::Different(variable("x"), 1.into()),
///     Guard::Absent(vec![variable("x")], Expression::list(Key::new(1), 2, Polarity::Minus)),
/// ];
/// let each = Expression::each(guards, [variable("x")]);
/// assert!(Policy::new(Key::new(9), &[])?.query(&each).is_ok());
/// # Ok::<(), txindurbe::Unresolved>(())
/// ```
#[derive(Clone, PartialEq, Eq, Hash, Debug)]
pub enum Guard {
    /// Each row of the expression that matches the pattern. A variable that is not in scope yet is new, and takes the atom drawn in its place; any other term must
    /// equal that. The expression does not see what is new in its pattern. The policy's [`Format`](crate::Format) says whether rows that are wider than the
    /// pattern match.
    Draw(Vec<Term>, Expression),
    /// The row is not in the expression. It is a whole row in every format: that 7/2027 is absent says nothing of 7.
    Absent(Vec<Term>, Expression),
    /// The two are equal.
    Same(Term, Term),
    /// The two differ.
    Different(Term, Term),
}

/// An expression in the policy language. Variables and definitions go by name, and are numbered when a [`Policy`](crate::Policy) makes words of it. Nothing else
/// is tested: what is too wide, too deep or too long is left to the engine, which refuses it.
///
/// ```
/// use txindurbe::{variable, Definition, Expression, Guard, Key, Policy, Polarity};
///
/// let (observatories, released) = (3, 1);
/// // Each (o, x) of an observatory o that k8 lists, and of an x that o released.
/// let of_all = Expression::each(
///     [
///         Guard::Draw(vec![variable("o")], Expression::list(Key::new(8), observatories, Polarity::Plus)),
///         Guard::Draw(vec![variable("x")], Expression::list_of(variable("o"), released, Polarity::Plus)),
///     ],
///     [variable("o"), variable("x")],
/// );
/// let policy = Policy::new(Key::new(9), &[Definition::new("public", 10, Polarity::Plus, of_all)])?;
///
/// // Each x of k1.
/// let draw = Guard::Draw(vec![Key::new(1).into(), variable("x")], Expression::defined("public"));
/// let query = policy.query(&Expression::each([draw], [variable("x")]))?;
/// assert_eq!(query.words(), [7, 1, 1, 3, 0, 2, 0, Key::new(1).word(), 2, 0, 1, 1, 0]);
/// # Ok::<(), txindurbe::Unresolved>(())
/// ```
#[derive(Clone, PartialEq, Eq, Hash, Debug)]
pub struct Expression(pub(crate) Box<Node>);

/// In the order of the engine's codes, 1 to 8.
#[derive(Clone, PartialEq, Eq, Hash, Debug)]
pub(crate) enum Node {
    Rows(Vec<Vec<Term>>),
    AllBut(Vec<Vec<Term>>),
    Defined(String),
    List { issuer: Term, name: u16, polarity: Polarity },
    Union(Expression, Expression),
    Minus(Expression, Expression),
    Each { guards: Vec<Guard>, head: Vec<Term> },
    Vetted { issuer: Term, name: u16, by: String },
}

impl Expression {
    /// The finite set of these rows.
    ///
    /// ```
    /// use txindurbe::{Expression, Key, Policy};
    ///
    /// let rows = Expression::rows([vec![7.into()], vec![8.into(), Key::new(1).into()]]);
    /// assert_eq!(Policy::new(Key::new(9), &[])?.query(&rows)?.words(), [1, 2, 1, 0, 7, 2, 0, 8, 0, Key::new(1).word()]);
    /// # Ok::<(), txindurbe::Unresolved>(())
    /// ```
    pub fn rows(rows: impl IntoIterator<Item = Vec<Term>>) -> Expression {
        Expression::of(Node::Rows(rows.into_iter().collect()))
    }

    /// All rows but these.
    ///
    /// ```
    /// use txindurbe::{Expression, Key, Policy};
    ///
    /// let all_but_7 = Expression::all_but([vec![7.into()]]);
    /// assert_eq!(Policy::new(Key::new(9), &[])?.query(&all_but_7)?.words(), [2, 1, 1, 0, 7]);
    /// # Ok::<(), txindurbe::Unresolved>(())
    /// ```
    pub fn all_but(rows: impl IntoIterator<Item = Vec<Term>>) -> Expression {
        Expression::of(Node::AllBut(rows.into_iter().collect()))
    }

    /// The definition of this label. In a definition it has to be an earlier one, else the engine refuses it; in a query, any will do.
    ///
    /// ```
    /// use txindurbe::{Definition, Expression, Key, Policy, Polarity};
    ///
    /// let seven = Definition::new("public", 10, Polarity::Plus, Expression::rows([vec![7.into()]]));
    /// let policy = Policy::new(Key::new(9), &[seven])?;
    /// assert_eq!(policy.query(&Expression::defined("public"))?.words(), [3, 0]);
    /// assert!(policy.query(&Expression::defined("embargo")).is_err());
    /// # Ok::<(), txindurbe::Unresolved>(())
    /// ```
    pub fn defined(label: impl Into<String>) -> Expression {
        Expression::of(Node::Defined(label.into()))
    }

    /// A key's list. With certificates for some of its rows alone, its own or those that [`Link`](crate::Link)s bring, + reads as those rows, − as all rows but
    /// those. Under our key it is an own name, and stands for the definition of that name and polarity: see [`Policy`](crate::Policy).
    ///
    /// ```
    /// use txindurbe::{Expression, Key, Policy, Polarity};
    ///
    /// let withdrawn = Expression::list(Key::new(1), 2, Polarity::Minus);
    /// assert_eq!(Policy::new(Key::new(9), &[])?.query(&withdrawn)?.words(), [4, 0, Key::new(1).word(), 2, 1]);
    /// # Ok::<(), txindurbe::Unresolved>(())
    /// ```
    pub fn list(key: Key, name: u16, polarity: Polarity) -> Expression {
        Expression::list_of(key, name, polarity)
    }

    /// The list of a key that a variable holds. If it holds our key, certificates and links are read as with any other. A fixed key as the issuer is
    /// [`list`](Expression::list).
    ///
    /// ```
    /// use txindurbe::{variable, Expression, Guard, Key, Policy, Polarity};
    ///
    /// let released = Expression::list_of(variable("o"), 1, Polarity::Plus);
    /// let policy = Policy::new(Key::new(9), &[])?;
    /// assert!(policy.query(&released).is_err(), "nothing is drawn for o");
    ///
    /// let draws = [Guard::Draw(vec![variable("o")], Expression::rows([vec![Key::new(1).into()]])), Guard::Draw(vec![variable("x")], released)];
    /// assert!(policy.query(&Expression::each(draws, [variable("x")])).is_ok());
    /// # Ok::<(), txindurbe::Unresolved>(())
    /// ```
    pub fn list_of(issuer: impl Into<Term>, name: u16, polarity: Polarity) -> Expression {
        Expression::of(Node::List { issuer: issuer.into(), name, polarity })
    }

    /// A key's + list if the key, as a row of one atom, is absent from a definition of compromised keys, no rows otherwise. The definition must be declared −:
    /// where it is read from a − list, each key counts as compromised until it is certified not to be. [`Policy::rewrite`](crate::Policy::rewrite) writes this
    /// for a policy's lists. Under our key it is the + definition of that name, if our key is absent, no rows otherwise; it is open where that definition is.
    ///
    /// ```
    /// use txindurbe::{Definition, Expression, Key, Policy, Polarity};
    ///
    /// let by_k3 = Expression::list(Key::new(3), 0, Polarity::Minus);
    /// let policy = Policy::new(Key::new(9), &[Definition::new("compromised", 0, Polarity::Minus, by_k3)])?;
    /// let released = Expression::vetted_list(Key::new(1), 1, "compromised");
    /// assert_eq!(policy.query(&released)?.words(), [8, 0, Key::new(1).word(), 1, 0, 0]);
    /// # Ok::<(), txindurbe::Unresolved>(())
    /// ```
    pub fn vetted_list(key: Key, name: u16, compromised: impl Into<String>) -> Expression {
        Expression::vetted_list_of(key, name, compromised)
    }

    /// The same of a key that a variable holds.
    ///
    /// ```
    /// use txindurbe::{variable, Definition, Expression, Guard, Key, Policy, Polarity};
    ///
    /// let none = Definition::new("compromised", 0, Polarity::Minus, Expression::rows([]));
    /// let policy = Policy::new(Key::new(9), &[none])?;
    /// let draws = [
    ///     Guard::Draw(vec![variable("o")], Expression::rows([vec![Key::new(1).into()]])),
    ///     Guard::Draw(vec![variable("x")], Expression::vetted_list_of(variable("o"), 1, "compromised")),
    /// ];
    /// assert!(policy.judge(&policy.query(&Expression::each(draws, [variable("x")]))?).is_ok());
    /// # Ok::<(), txindurbe::Unresolved>(())
    /// ```
    pub fn vetted_list_of(issuer: impl Into<Term>, name: u16, compromised: impl Into<String>) -> Expression {
        Expression::of(Node::Vetted { issuer: issuer.into(), name, by: compromised.into() })
    }

    /// The rows of either.
    ///
    /// ```
    /// use txindurbe::{Expression, Key, Policy};
    ///
    /// let [seven, eight] = [7, 8].map(|number| Expression::rows([vec![number.into()]]));
    /// assert_eq!(Policy::new(Key::new(9), &[])?.query(&seven.union(eight))?.words(), [5, 1, 1, 1, 0, 7, 1, 1, 1, 0, 8]);
    /// # Ok::<(), txindurbe::Unresolved>(())
    /// ```
    pub fn union(self, other: Expression) -> Expression {
        Expression::of(Node::Union(self, other))
    }

    /// The rows of this one that are not of the other.
    ///
    /// ```
    /// use txindurbe::{Expression, Key, Policy};
    ///
    /// let [seven, eight] = [7, 8].map(|number| Expression::rows([vec![number.into()]]));
    /// assert_eq!(Policy::new(Key::new(9), &[])?.query(&seven.minus(eight))?.words(), [6, 1, 1, 1, 0, 7, 1, 1, 1, 0, 8]);
    /// # Ok::<(), txindurbe::Unresolved>(())
    /// ```
    pub fn minus(self, other: Expression) -> Expression {
        Expression::of(Node::Minus(self, other))
    }

    /// The head's row for each binding that passes all guards. Its variables end with it; one that stands inside another sees the outer one's.
    ///
    /// ```
    /// use txindurbe::{variable, Expression, Guard, Key, Policy, Polarity};
    ///
    /// let released = Expression::list(Key::new(1), 1, Polarity::Plus);
    /// let each_x = Expression::each([Guard::Draw(vec![variable("x")], released)], [variable("x")]);
    /// assert_eq!(Policy::new(Key::new(9), &[])?.query(&each_x)?.words(), [7, 1, 1, 4, 0, Key::new(1).word(), 1, 0, 1, 2, 0, 1, 1, 0]);
    /// # Ok::<(), txindurbe::Unresolved>(())
    /// ```
    pub fn each(guards: impl IntoIterator<Item = Guard>, head: impl IntoIterator<Item = Term>) -> Expression {
        Expression::of(Node::Each { guards: guards.into_iter().collect(), head: head.into_iter().collect() })
    }

    fn of(node: Node) -> Expression {
        Expression(Box::new(node))
    }
}

/// A name that stands for nothing where it is used, so that no words can be made of the expression.
///
/// ```
/// use txindurbe::{variable, Expression, Guard, Key, Policy, Unresolved};
///
/// let policy = Policy::new(Key::new(9), &[])?;
/// let unresolved = policy.query(&Expression::rows([vec![variable("x")]])).unwrap_err();
/// assert_eq!(unresolved, Unresolved::Variable("x".into()));
/// assert_eq!(unresolved.to_string(), "no variable `x` is in scope");
///
/// let unresolved = policy.query(&Expression::defined("public")).unwrap_err();
/// assert_eq!(unresolved.to_string(), "no definition, or more than one, has the label `public`");
/// # Ok::<(), Unresolved>(())
/// ```
#[derive(Clone, PartialEq, Eq, Hash, Debug)]
pub enum Unresolved {
    /// A variable that is not in scope.
    Variable(String),
    /// The label of no definition of the policy, or of more than one.
    Definition(String),
}

impl fmt::Display for Unresolved {
    fn fmt(&self, out: &mut fmt::Formatter) -> fmt::Result {
        match self {
            Unresolved::Variable(name) => write!(out, "no variable `{name}` is in scope"),
            Unresolved::Definition(label) => write!(out, "no definition, or more than one, has the label `{label}`"),
        }
    }
}

impl std::error::Error for Unresolved {}
