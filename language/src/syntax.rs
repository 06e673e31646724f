//! What a `.qcm` file says, as it is written: names are not resolved yet. Everything has its place in the text. The parser makes it, and so does the
//! decompiler; the printer, the compiler and all that explains a refusal read it.

pub use txindurbe::Polarity;

/// Where something is written: bytes of one of the [`Sources`](crate::Sources). What the decompiler makes has the empty span of source 0.
#[derive(Clone, Copy, PartialEq, Eq, Debug, Default)]
pub struct Span {
    pub source: usize,
    pub start: usize,
    pub end: usize,
}

impl Span {
    /// From where this begins to where the other ends.
    pub(crate) fn to(self, other: Span) -> Span {
        Span { end: other.end, ..self }
    }
}

/// A name that the writer chose, for a key, a list, a definition or a variable.
#[derive(Clone, PartialEq, Eq, Debug)]
pub struct Identifier {
    pub text: String,
    pub span: Span,
}

/// A comment, without its `#`.
#[derive(Clone, PartialEq, Eq, Debug, Default)]
pub struct Comment {
    pub text: String,
    /// Whether an empty line stands before it.
    pub apart: bool,
}

/// The comments that stay with a part of the text when it is formatted.
#[derive(Clone, PartialEq, Eq, Debug, Default)]
pub struct Comments {
    /// Before it, and inside it where nothing smaller takes them.
    pub before: Vec<Comment>,
    /// Behind it, on its last line.
    pub behind: Option<String>,
}

/// A whole file.
#[derive(Clone, PartialEq, Eq, Debug, Default)]
pub struct File {
    pub statements: Vec<Statement>,
    /// After the last statement.
    pub comments_at_end: Vec<Comment>,
}

#[derive(Clone, PartialEq, Eq, Debug)]
pub struct Statement {
    pub kind: StatementKind,
    pub span: Span,
    pub comments: Comments,
    /// Whether an empty line stands before it, behind its comments.
    pub apart: bool,
}

#[derive(Clone, PartialEq, Eq, Debug)]
pub enum StatementKind {
    /// `format 2`
    Format { number: u32, span: Span },
    /// `external`: the policy is written by the external rules, and is rewritten before it is used.
    External,
    /// `our key archive`
    OurKey(Term),
    /// `key alma = k1, vla = k2`
    Keys(Vec<KeyDeclaration>),
    /// `list released = 1 +, withdrawn = 2 -`
    Lists(Vec<ListDeclaration>),
    /// `define public + = ..`, or with its number `define public 10 + = ..`
    Define(Definition),
    /// `query ..`
    Query(Expression),
}

#[derive(Clone, PartialEq, Eq, Debug)]
pub struct KeyDeclaration {
    pub name: Identifier,
    /// N of kN.
    pub number: u32,
    pub span: Span,
    pub comments: Comments,
}

#[derive(Clone, PartialEq, Eq, Debug)]
pub struct ListDeclaration {
    pub name: Identifier,
    pub number: u32,
    pub polarity: Polarity,
    pub span: Span,
    pub comments: Comments,
}

#[derive(Clone, PartialEq, Eq, Debug)]
pub struct Definition {
    pub name: Identifier,
    /// Without one, that of the list of the same name, else one that the compiler chooses.
    pub number: Option<(u32, Span)>,
    pub polarity: Polarity,
    pub polarity_span: Span,
    pub expression: Expression,
}

#[derive(Clone, PartialEq, Eq, Debug)]
pub struct Expression {
    pub kind: ExpressionKind,
    /// Without the parentheses around it.
    pub span: Span,
    pub comments: Comments,
    /// Before its closing brace.
    pub comments_at_end: Vec<Comment>,
}

#[derive(Clone, PartialEq, Eq, Debug)]
pub enum ExpressionKind {
    /// `{ (7), (8, alma) }`, code 1.
    Rows(Vec<Row>),
    /// `all but { (7) }`, code 2.
    AllBut(Vec<Row>),
    /// `public`, code 3.
    Defined(Identifier),
    /// `alma.released`, `o.2-`, code 4.
    List { issuer: Term, list: List },
    /// `alma.released vetted by compromised`, code 8.
    Vetted { issuer: Term, list: List, by: Identifier },
    /// `a union b`, code 5.
    Union(Box<Expression>, Box<Expression>),
    /// `a minus b`, code 6.
    Minus(Box<Expression>, Box<Expression>),
    /// `{ (x) | (x) in alma.released, x != 7 }`, code 7. In the words the head comes last.
    Each { head: Row, guards: Vec<Guard> },
}

/// What stands behind an issuer's dot.
#[derive(Clone, PartialEq, Eq, Debug)]
pub enum List {
    /// A declared list; under our key, a definition too.
    Named(Identifier),
    /// `1+`
    Numbered { number: u32, polarity: Polarity, span: Span },
}

#[derive(Clone, PartialEq, Eq, Debug)]
pub struct Row {
    pub terms: Vec<Term>,
    pub span: Span,
    pub comments: Comments,
}

#[derive(Clone, PartialEq, Eq, Debug)]
pub struct Term {
    pub kind: TermKind,
    pub span: Span,
}

#[derive(Clone, PartialEq, Eq, Debug)]
pub enum TermKind {
    /// Below 2^31.
    Number(u32),
    /// kN, by its N, below 2^31.
    Key(u32),
    /// A key's name or a variable.
    Named(String),
    /// `_`, in the pattern of a draw: any atom.
    Any,
}

#[derive(Clone, PartialEq, Eq, Debug)]
pub struct Guard {
    pub kind: GuardKind,
    pub span: Span,
    pub comments: Comments,
}

#[derive(Clone, PartialEq, Eq, Debug)]
pub enum GuardKind {
    /// `(x, 7) in ..`: a draw. A name that is neither a key nor in scope yet is a new variable.
    Draw(Row, Expression),
    /// `(x) not in ..`: absent.
    Absent(Row, Expression),
    /// `x = 7`
    Same(Term, Term),
    /// `x != 7`
    Different(Term, Term),
}
