//! Trees without what formatting may change: places and comments.

use txindurbe_language::syntax::{
    Comments, Definition, Expression, ExpressionKind, File, Guard, GuardKind, Identifier, KeyDeclaration, List, ListDeclaration, Row, Span,
    Statement, StatementKind, Term,
};

pub fn bare(file: File) -> File {
    File { statements: file.statements.into_iter().map(statement).collect(), comments_at_end: Vec::new() }
}

fn statement(statement: Statement) -> Statement {
    let kind = match statement.kind {
        StatementKind::Format { number, .. } => StatementKind::Format { number, span: Span::default() },
        StatementKind::External => StatementKind::External,
        StatementKind::OurKey(key) => StatementKind::OurKey(term(key)),
        StatementKind::Keys(declared) => StatementKind::Keys(declared.into_iter().map(key).collect()),
        StatementKind::Lists(declared) => StatementKind::Lists(declared.into_iter().map(declared_list).collect()),
        StatementKind::Define(definition) => StatementKind::Define(Definition {
            name: identifier(definition.name),
            number: definition.number.map(|(number, _)| (number, Span::default())),
            polarity: definition.polarity,
            polarity_span: Span::default(),
            expression: expression(definition.expression),
        }),
        StatementKind::Query(asked) => StatementKind::Query(expression(asked)),
    };
    Statement { kind, span: Span::default(), comments: Comments::default(), apart: false }
}

fn key(declaration: KeyDeclaration) -> KeyDeclaration {
    KeyDeclaration { name: identifier(declaration.name), span: Span::default(), comments: Comments::default(), ..declaration }
}

fn declared_list(declaration: ListDeclaration) -> ListDeclaration {
    ListDeclaration { name: identifier(declaration.name), span: Span::default(), comments: Comments::default(), ..declaration }
}

fn identifier(identifier: Identifier) -> Identifier {
    Identifier { span: Span::default(), ..identifier }
}

pub fn expression(written: Expression) -> Expression {
    let inner = |inside: Box<Expression>| Box::new(expression(*inside));
    let kind = match written.kind {
        ExpressionKind::Rows(rows) => ExpressionKind::Rows(rows.into_iter().map(row).collect()),
        ExpressionKind::AllBut(rows) => ExpressionKind::AllBut(rows.into_iter().map(row).collect()),
        ExpressionKind::Defined(name) => ExpressionKind::Defined(identifier(name)),
        ExpressionKind::List { issuer, list: named } => ExpressionKind::List { issuer: term(issuer), list: list(named) },
        ExpressionKind::Vetted { issuer, list: named, by } => ExpressionKind::Vetted { issuer: term(issuer), list: list(named), by: identifier(by) },
        ExpressionKind::Union(left, right) => ExpressionKind::Union(inner(left), inner(right)),
        ExpressionKind::Minus(left, right) => ExpressionKind::Minus(inner(left), inner(right)),
        ExpressionKind::Each { head, guards } => ExpressionKind::Each { head: row(head), guards: guards.into_iter().map(guard).collect() },
    };
    Expression { kind, span: Span::default(), comments: Comments::default(), comments_at_end: Vec::new() }
}

fn guard(written: Guard) -> Guard {
    let kind = match written.kind {
        GuardKind::Draw(pattern, set) => GuardKind::Draw(row(pattern), expression(set)),
        GuardKind::Absent(absent, set) => GuardKind::Absent(row(absent), expression(set)),
        GuardKind::Same(left, right) => GuardKind::Same(term(left), term(right)),
        GuardKind::Different(left, right) => GuardKind::Different(term(left), term(right)),
    };
    Guard { kind, span: Span::default(), comments: Comments::default() }
}

fn row(row: Row) -> Row {
    Row { terms: row.terms.into_iter().map(term).collect(), span: Span::default(), comments: Comments::default() }
}

fn term(term: Term) -> Term {
    Term { span: Span::default(), ..term }
}

fn list(list: List) -> List {
    match list {
        List::Named(name) => List::Named(identifier(name)),
        List::Numbered { number, polarity, .. } => List::Numbered { number, polarity, span: Span::default() },
    }
}

/// All comments of a tree, sorted.
pub fn comments_of(file: &File) -> Vec<String> {
    let mut found: Vec<String> = file.comments_at_end.iter().map(|comment| comment.text.clone()).collect();
    for statement in &file.statements {
        take(&statement.comments, &mut found);
        match &statement.kind {
            StatementKind::Keys(declared) => declared.iter().for_each(|declaration| take(&declaration.comments, &mut found)),
            StatementKind::Lists(declared) => declared.iter().for_each(|declaration| take(&declaration.comments, &mut found)),
            StatementKind::Define(definition) => of_expression(&definition.expression, &mut found),
            StatementKind::Query(asked) => of_expression(asked, &mut found),
            StatementKind::Format { .. } | StatementKind::External | StatementKind::OurKey(_) => {}
        }
    }
    found.sort();
    found
}

fn take(comments: &Comments, found: &mut Vec<String>) {
    found.extend(comments.before.iter().map(|comment| comment.text.clone()));
    found.extend(comments.behind.clone());
}

fn of_expression(written: &Expression, found: &mut Vec<String>) {
    take(&written.comments, found);
    found.extend(written.comments_at_end.iter().map(|comment| comment.text.clone()));
    match &written.kind {
        ExpressionKind::Rows(rows) | ExpressionKind::AllBut(rows) => rows.iter().for_each(|row| take(&row.comments, found)),
        ExpressionKind::Union(left, right) | ExpressionKind::Minus(left, right) => {
            of_expression(left, found);
            of_expression(right, found);
        }
        ExpressionKind::Each { head, guards } => {
            take(&head.comments, found);
            for guard in guards {
                take(&guard.comments, found);
                if let GuardKind::Draw(row, set) | GuardKind::Absent(row, set) = &guard.kind {
                    take(&row.comments, found);
                    of_expression(set, found);
                }
            }
        }
        ExpressionKind::Defined(_) | ExpressionKind::List { .. } | ExpressionKind::Vetted { .. } => {}
    }
}
