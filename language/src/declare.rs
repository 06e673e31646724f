//! The statements of a file beside its expressions: what its names stand for, its format, our key.

use crate::names::{sign, NamedDefinition, NamedKey, NamedList, Names};
use crate::problem::Problem;
use crate::say;
use crate::syntax::{Definition, Expression, ExpressionKind, File, GuardKind, List, Polarity, Span, StatementKind, Term, TermKind};
use std::collections::BTreeSet;
use txindurbe::{Format, Key};

/// Our key in a file that does not say which key is ours: no name is then our own.
pub(crate) const NO_KEY_OF_OURS: Key = Key::new(NO_KEY_NUMBER);
pub(crate) const NO_KEY_NUMBER: u32 = (1 << 31) - 1;

const MOST_NAME: u32 = u16::MAX as u32;

/// What a file says of itself as a whole.
pub(crate) struct Header {
    pub format: Format,
    pub external: bool,
}

/// Where nothing can be made of a statement, there is a problem, and what stands for it does not matter.
pub(crate) fn declare(file: &File, problems: &mut Vec<Problem>) -> (Names, Header) {
    said_once(file, problems);
    let mut names = Names { keys: keys(file, problems), lists: lists(file, problems), ..Names::default() };
    names.our_key = our_key(file, &names, problems);
    if names.our_key.is_none() {
        no_stand_in(file, problems);
    }
    names.definitions = definitions(file, &names, problems);
    let external = file.statements.iter().any(|statement| statement.kind == StatementKind::External);
    let header = Header { format: format(file, problems), external };
    (names, header)
}

/// In the order of the file, which is that of the words.
pub(crate) fn definitions_of(file: &File) -> impl Iterator<Item = (&Definition, Span)> {
    file.statements.iter().filter_map(|statement| match &statement.kind {
        StatementKind::Define(definition) => Some((definition, statement.span)),
        _ => None,
    })
}

pub(crate) fn query_of(file: &File) -> Option<&Expression> {
    file.statements.iter().find_map(|statement| match &statement.kind {
        StatementKind::Query(expression) => Some(expression),
        _ => None,
    })
}

/// Each of these a file has once at most.
fn said_once(file: &File, problems: &mut Vec<Problem>) {
    let mut said: Vec<(&str, Span)> = Vec::new();
    for statement in &file.statements {
        let what = match statement.kind {
            StatementKind::Query(_) => "query",
            StatementKind::Format { .. } => "format",
            StatementKind::OurKey(_) => "our key",
            StatementKind::External => "external",
            StatementKind::Keys(_) | StatementKind::Lists(_) | StatementKind::Define(_) => continue,
        };
        match said.iter().find(|(word, _)| *word == what) {
            Some((_, first)) => {
                let problem = Problem::error(format!("a file says `{what}` once")).at(statement.span, "said again").at(*first, "said first");
                problems.push(problem.mend("take one of them out"));
            }
            None => said.push((what, statement.span)),
        }
    }
}

fn format(file: &File, problems: &mut Vec<Problem>) -> Format {
    let said = file.statements.iter().find_map(|statement| match statement.kind {
        StatementKind::Format { number, span } => Some((number, span)),
        _ => None,
    });
    match said {
        None | Some((1, _)) => Format::EqualWidths,
        Some((2, _)) => Format::WiderRows,
        Some((number, span)) => {
            let problem = Problem::error(format!("there is no format {number}")).refused(1).at(span, "1 or 2");
            problems.push(
                problem.mend("write `format 1`, where a pattern matches rows of its own width, or `format 2`, where it matches wider rows too"),
            );
            Format::EqualWidths
        }
    }
}

fn twice(text: &str, again: Span, first: Span) -> Problem {
    Problem::error(format!("`{text}` is declared twice"))
        .at(again, "declared again")
        .at(first, "declared first")
        .mend("give one of them another name")
}

fn keys(file: &File, problems: &mut Vec<Problem>) -> Vec<NamedKey> {
    let mut found: Vec<NamedKey> = Vec::new();
    let declared = file.statements.iter().filter_map(|statement| match &statement.kind {
        StatementKind::Keys(declared) => Some(declared),
        _ => None,
    });
    for declaration in declared.flatten() {
        let text = &declaration.name.text;
        match found.iter().find(|named| named.text == *text) {
            Some(first) => problems.push(twice(text, declaration.name.span, first.span)),
            None => found.push(NamedKey { text: text.clone(), span: declaration.name.span, key: Key::new(declaration.number) }),
        }
    }
    found
}

fn lists(file: &File, problems: &mut Vec<Problem>) -> Vec<NamedList> {
    let mut found: Vec<NamedList> = Vec::new();
    let declared = file.statements.iter().filter_map(|statement| match &statement.kind {
        StatementKind::Lists(declared) => Some(declared),
        _ => None,
    });
    for declaration in declared.flatten() {
        let text = &declaration.name.text;
        if declaration.number > MOST_NAME {
            problems.push(number_too_great(3, declaration.span));
        }
        match found.iter().find(|named| named.text == *text) {
            Some(first) => problems.push(twice(text, declaration.name.span, first.span)),
            None => found.push(NamedList {
                text: text.clone(),
                span: declaration.span,
                number: declaration.number as u16,
                polarity: declaration.polarity,
            }),
        }
    }
    found
}

/// A name's number is over 65,535; in a definition it is the policy's table that breaks its rule, else a word of an expression.
pub(crate) fn number_too_great(refusal: u32, span: Span) -> Problem {
    let most = say::number(MOST_NAME as usize);
    Problem::error(format!("the number of a list or definition is at most {most}"))
        .refused(refusal)
        .at(span, format!("over {most}"))
        .mend("take a smaller number")
}

fn our_key(file: &File, names: &Names, problems: &mut Vec<Problem>) -> Option<Key> {
    let term = file.statements.iter().find_map(|statement| match &statement.kind {
        StatementKind::OurKey(term) => Some(term),
        _ => None,
    })?;
    let problem = match &term.kind {
        TermKind::Key(number) => return Some(Key::new(*number)),
        TermKind::Named(text) => match names.key(text) {
            Some(key) => return Some(key),
            None => {
                let problem = Problem::error(format!("our key must be a key, and `{text}` is none")).at(term.span, "no key has this name");
                match crate::names::closest(text, names.key_names()) {
                    None => problem.mend(format!("say which key it is: `key {text} = k9`")),
                    meant => problem.meant(meant),
                }
            }
        },
        TermKind::Number(number) => {
            let problem = Problem::error(format!("our key must be a key, and {number} is a number")).at(term.span, "a number");
            problem.mend(format!("write `k{number}`, or the name of a key"))
        }
        TermKind::Any => Problem::error("our key must be a key").at(term.span, "not a key").mend("write a key as `k9`, or the name of one"),
    };
    problems.push(problem.refused(20));
    // One that no problem about the key that stands in for ours follows from.
    Some(Key::new(0))
}

/// A file that does not say which key is ours cannot write the key that stands in for it.
fn no_stand_in(file: &File, problems: &mut Vec<Problem>) {
    for statement in &file.statements {
        if let StatementKind::Keys(declared) = &statement.kind {
            problems.extend(declared.iter().filter(|declaration| declaration.number == NO_KEY_NUMBER).map(|declaration| stand_in(declaration.span)));
        }
    }
}

pub(crate) fn stand_in(span: Span) -> Problem {
    let problem = Problem::error(format!("a file that writes {NO_KEY_OF_OURS} must say which key is ours"));
    problem.at(span, "it stands for our key in a file without one").mend("add a line `our key ..`")
}

/// Each with its number: that written, or that of the list of the same name, or the first that is free.
fn definitions(file: &File, names: &Names, problems: &mut Vec<Problem>) -> Vec<NamedDefinition> {
    let mut taken: BTreeSet<u32> = names.lists.iter().map(|list| list.number.into()).collect();
    for (definition, _) in definitions_of(file) {
        taken.extend(definition.number.map(|(number, _)| number));
        numbers_written(&definition.expression, &mut taken);
    }
    if let Some(query) = query_of(file) {
        numbers_written(query, &mut taken);
    }

    let mut found: Vec<NamedDefinition> = Vec::new();
    for (definition, _) in definitions_of(file) {
        let list = names.declared_list(&definition.name.text);
        problems.extend(list.and_then(|list| unlike(definition, list)));
        let number = match (definition.number, list) {
            (Some((number, span)), _) => {
                if number > MOST_NAME {
                    problems.push(number_too_great(2, span));
                }
                number as u16
            }
            (None, Some(list)) => list.number,
            (None, None) => first_free(&mut taken),
        };
        let named = NamedDefinition { text: definition.name.text.clone(), span: definition.name.span, number, polarity: definition.polarity };
        problems.extend(clash(&found, &named, definition.number.map(|(_, span)| span)));
        found.push(named);
    }
    found
}

fn first_free(taken: &mut BTreeSet<u32>) -> u16 {
    let free = (1..=MOST_NAME).find(|number| !taken.contains(number)).unwrap_or_default();
    taken.insert(free);
    free as u16
}

/// A definition that has a list's name, but not its number and sign.
fn unlike(definition: &Definition, list: &NamedList) -> Option<Problem> {
    let shown = |number: u32, polarity: Polarity| format!("{number} {polarity}");
    let is = shown(definition.number.map_or(list.number.into(), |(number, _)| number), definition.polarity);
    let listed = shown(list.number.into(), list.polarity);
    let text = &definition.name.text;
    (is != listed).then(|| {
        Problem::error(format!("`{text}` is a list {listed} and a definition {is}"))
            .at(definition.number.map_or(definition.polarity_span, |(_, span)| span), format!("the definition is {is}"))
            .at(list.span, format!("the list is {listed}"))
            .mend("give both the same number and sign, or one of them another name")
    })
}

/// A definition whose name, or number and sign, an earlier one has.
fn clash(earlier: &[NamedDefinition], named: &NamedDefinition, number: Option<Span>) -> Option<Problem> {
    if let Some(first) = earlier.iter().find(|first| first.text == named.text) {
        return Some(twice(&named.text, named.span, first.span));
    }
    let first = earlier.iter().find(|first| (first.number, first.polarity) == (named.number, named.polarity))?;
    let is = format!("{} {}", named.number, sign(named.polarity));
    let problem = Problem::error(format!("`{}` and `{}` are both definition {is}", first.text, named.text)).refused(2);
    let mend =
        if number.is_some() { "leave the number out, and one that is free is chosen" } else { "give the lists of these names different numbers" };
    Some(problem.at(number.unwrap_or(named.span), "the same again").at(first.span, format!("this one is {is}")).mend(mend))
}

/// Those of lists that are written by their number.
fn numbers_written(expression: &Expression, found: &mut BTreeSet<u32>) {
    match &expression.kind {
        ExpressionKind::List { list, .. } | ExpressionKind::Vetted { list, .. } => {
            if let List::Numbered { number, .. } = list {
                found.insert(*number);
            }
        }
        ExpressionKind::Union(left, right) | ExpressionKind::Minus(left, right) => {
            numbers_written(left, found);
            numbers_written(right, found);
        }
        ExpressionKind::Each { guards, .. } => {
            for guard in guards {
                if let GuardKind::Draw(_, operand) | GuardKind::Absent(_, operand) = &guard.kind {
                    numbers_written(operand, found);
                }
            }
        }
        ExpressionKind::Rows(_) | ExpressionKind::AllBut(_) | ExpressionKind::Defined(_) => {}
    }
}

/// As it is written.
pub(crate) fn show_term(term: &Term) -> String {
    match &term.kind {
        TermKind::Number(number) => number.to_string(),
        TermKind::Key(number) => format!("k{number}"),
        TermKind::Named(text) => text.clone(),
        TermKind::Any => "_".to_string(),
    }
}
