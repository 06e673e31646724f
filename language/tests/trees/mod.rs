//! Random trees with every construct in them. Most mean nothing: their names are not declared.

pub mod bare;

use differential::random::Random;
use txindurbe_language::syntax::{
    Comment, Comments, Definition, Expression, ExpressionKind, File, Guard, GuardKind, Identifier, KeyDeclaration, List, ListDeclaration, Polarity,
    Row, Span, Statement, StatementKind, Term, TermKind,
};

pub struct Trees {
    random: Random,
    /// Comments are put everywhere in so many of a thousand cases.
    pub commented: u32,
    /// How many were.
    count: usize,
}

/// Some begin as reserved words and keys do, some are long.
const NAMES: [&str; 12] = ["x", "o", "alma", "vla", "K9", "k9a", "k_1", "keys", "inside", "minus_1", "released_in_the_first_semester_of_2027", "A0"];

impl Trees {
    pub fn new(seed: u64) -> Trees {
        Trees { random: Random::new(seed), commented: 0, count: 0 }
    }

    pub fn file(&mut self) -> File {
        let count = self.random.below(6);
        File { statements: (0..count).map(|_| self.statement()).collect(), comments_at_end: self.comment().into_iter().collect() }
    }

    fn several<T>(&mut self, counts: &[usize], mut one: impl FnMut(&mut Self) -> T) -> Vec<T> {
        let count = self.random.pick(counts);
        (0..count).map(|_| one(self)).collect()
    }

    fn comment(&mut self) -> Option<Comment> {
        self.random.chance(self.commented).then(|| {
            self.count += 1;
            Comment { text: format!(" {}", self.count), apart: self.random.chance(200) }
        })
    }

    fn comments(&mut self) -> Comments {
        Comments { before: [self.comment(), self.comment()].into_iter().flatten().collect(), behind: self.comment().map(|comment| comment.text) }
    }

    fn statement(&mut self) -> Statement {
        let kind = match self.random.below(10) {
            0 => StatementKind::Format { number: self.random.between(0, 3), span: Span::default() },
            1 => StatementKind::External,
            2 => StatementKind::OurKey(self.term()),
            3 => StatementKind::Keys(self.several(&[1, 2, 3, 12], Self::key)),
            4 => StatementKind::Lists(self.several(&[1, 2, 3, 12], Self::list_declaration)),
            5..=7 => StatementKind::Define(self.definition()),
            _ => StatementKind::Query(self.expression(0)),
        };
        Statement { kind, span: Span::default(), comments: self.comments(), apart: self.random.chance(300) }
    }

    fn key(&mut self) -> KeyDeclaration {
        KeyDeclaration { name: self.identifier(), number: self.number(), span: Span::default(), comments: self.comments() }
    }

    fn list_declaration(&mut self) -> ListDeclaration {
        ListDeclaration {
            name: self.identifier(),
            number: self.number(),
            polarity: self.polarity(),
            span: Span::default(),
            comments: self.comments(),
        }
    }

    fn definition(&mut self) -> Definition {
        let number = self.random.chance(500).then(|| (self.number(), Span::default()));
        Definition { name: self.identifier(), number, polarity: self.polarity(), polarity_span: Span::default(), expression: self.expression(0) }
    }

    fn identifier(&mut self) -> Identifier {
        Identifier { text: self.random.pick(&NAMES).to_string(), span: Span::default() }
    }

    fn number(&mut self) -> u32 {
        self.random.pick(&[0, 1, 7, 10, 65_535, (1 << 31) - 1])
    }

    fn polarity(&mut self) -> Polarity {
        self.random.pick(&[Polarity::Plus, Polarity::Minus])
    }

    fn expression(&mut self, depth: usize) -> Expression {
        let kind = match self.random.below(if depth < 4 { 12 } else { 6 }) {
            0 => ExpressionKind::Rows(self.rows()),
            1 => ExpressionKind::AllBut(self.rows()),
            2 => ExpressionKind::Defined(self.identifier()),
            3 | 4 => ExpressionKind::List { issuer: self.term(), list: self.list() },
            5 => ExpressionKind::Vetted { issuer: self.term(), list: self.list(), by: self.identifier() },
            6 | 7 => ExpressionKind::Union(self.inner(depth), self.inner(depth)),
            8 | 9 => ExpressionKind::Minus(self.inner(depth), self.inner(depth)),
            _ => ExpressionKind::Each { head: self.row(), guards: self.several(&[0, 1, 2, 3], |trees| trees.guard(depth + 1)) },
        };
        let braces = matches!(kind, ExpressionKind::Rows(_) | ExpressionKind::AllBut(_) | ExpressionKind::Each { .. });
        let comments_at_end = self.comment().filter(|_| braces).into_iter().collect();
        Expression { kind, span: Span::default(), comments: self.comments(), comments_at_end }
    }

    fn inner(&mut self, depth: usize) -> Box<Expression> {
        Box::new(self.expression(depth + 1))
    }

    fn guard(&mut self, depth: usize) -> Guard {
        let kind = match self.random.below(5) {
            0 | 1 => GuardKind::Draw(self.row(), self.expression(depth)),
            2 => GuardKind::Absent(self.row(), self.expression(depth)),
            3 => GuardKind::Same(self.term(), self.term()),
            _ => GuardKind::Different(self.term(), self.term()),
        };
        Guard { kind, span: Span::default(), comments: self.comments() }
    }

    fn rows(&mut self) -> Vec<Row> {
        self.several(&[0, 1, 2, 40], Self::row)
    }

    fn row(&mut self) -> Row {
        Row { terms: self.several(&[1, 1, 2, 3, 4], Self::term), span: Span::default(), comments: self.comments() }
    }

    fn term(&mut self) -> Term {
        let kind = match self.random.below(4) {
            0 => TermKind::Number(self.number()),
            1 => TermKind::Key(self.number()),
            2 => TermKind::Named(self.identifier().text),
            _ => self.random.pick(&[|| TermKind::Any, || TermKind::Number(7)])(),
        };
        Term { kind, span: Span::default() }
    }

    fn list(&mut self) -> List {
        if self.random.chance(500) {
            List::Named(self.identifier())
        } else {
            List::Numbered { number: self.number(), polarity: self.polarity(), span: Span::default() }
        }
    }
}
