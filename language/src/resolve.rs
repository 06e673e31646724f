//! From a text's expressions to trees whose names are resolved.

use crate::declare::{number_too_great, show_term, stand_in, NO_KEY_NUMBER, NO_KEY_OF_OURS};
use crate::names::{closest, Names};
use crate::problem::Problem;
use crate::syntax::{
    Expression, ExpressionKind, Guard as WrittenGuard, GuardKind as WrittenKind, Identifier, List as WrittenList, Polarity, Row as WrittenRow, Span,
    Term as WrittenTerm, TermKind as WrittenTermKind,
};
use crate::tree::{Guard, GuardKind, Kind, List, Node, Origin, Row, Term, TermKind, Variable, Whole};
use txindurbe::{Atom, Key};

/// A whole definition or query. With a problem, what stands in the tree for it does not matter.
pub(crate) fn resolve(expression: &Expression, names: &Names, problems: &mut Vec<Problem>) -> Whole {
    let mut resolver = Resolver { names, problems, variables: Vec::new(), scope: Vec::new(), around: Vec::new() };
    let expression = resolver.expression(expression);
    Whole { expression, variables: resolver.variables }
}

struct Resolver<'a> {
    names: &'a Names,
    problems: &'a mut Vec<Problem>,
    variables: Vec<Variable>,
    /// The variables in scope, by their places among all.
    scope: Vec<usize>,
    /// The guards of the comprehensions that the walk is in, for what is said of a variable that is not in scope.
    around: Vec<&'a [WrittenGuard]>,
}

impl<'a> Resolver<'a> {
    fn expression(&mut self, expression: &'a Expression) -> Node {
        Node { kind: self.kind(expression), span: expression.span }
    }

    fn kind(&mut self, expression: &'a Expression) -> Kind {
        match &expression.kind {
            ExpressionKind::Rows(rows) => Kind::Literal { rows: self.rows(rows), all_but: false },
            ExpressionKind::AllBut(rows) => Kind::Literal { rows: self.rows(rows), all_but: true },
            ExpressionKind::Defined(name) => self.defined(name).map_or_else(nothing, Kind::Defined),
            ExpressionKind::List { issuer, list } => self.list(issuer, list, None),
            ExpressionKind::Vetted { issuer, list, by } => self.list(issuer, list, Some(by)),
            ExpressionKind::Union(left, right) => {
                let left = self.expression(left);
                Kind::Union(Box::new(left), Box::new(self.expression(right)))
            }
            ExpressionKind::Minus(left, right) => {
                let left = self.expression(left);
                Kind::Minus(Box::new(left), Box::new(self.expression(right)))
            }
            ExpressionKind::Each { head, guards } => {
                let outer = self.scope.len();
                self.around.push(guards);
                let guards = guards.iter().map(|guard| self.guard(guard)).collect();
                let head = self.row(head);
                self.around.pop();
                self.scope.truncate(outer);
                Kind::Each { guards, head }
            }
        }
    }

    fn guard(&mut self, guard: &'a WrittenGuard) -> Guard {
        let kind = match &guard.kind {
            WrittenKind::Draw(pattern, from) => {
                // A draw's expression does not see its own pattern.
                let from = self.expression(from);
                GuardKind::Draw(self.pattern(pattern), from)
            }
            WrittenKind::Absent(row, from) => {
                let row = self.row(row);
                GuardKind::Absent(row, self.expression(from))
            }
            WrittenKind::Same(left, right) => GuardKind::Same(self.term(left), self.term(right)),
            WrittenKind::Different(left, right) => GuardKind::Different(self.term(left), self.term(right)),
        };
        Guard { kind, span: guard.span }
    }

    fn rows(&mut self, rows: &[WrittenRow]) -> Vec<Row> {
        rows.iter().map(|row| self.row(row)).collect()
    }

    fn row(&mut self, row: &WrittenRow) -> Row {
        Row { terms: row.terms.iter().map(|term| self.term(term)).collect(), span: row.span }
    }

    /// Where a name that is neither a key nor in scope is a new variable.
    fn pattern(&mut self, row: &WrittenRow) -> Row {
        Row { terms: row.terms.iter().map(|term| self.slot(term)).collect(), span: row.span }
    }

    fn slot(&mut self, term: &WrittenTerm) -> Term {
        match &term.kind {
            WrittenTermKind::Any => self.new_variable(None, term.span),
            WrittenTermKind::Named(text) if self.names.key(text).is_none() && self.in_scope(text).is_none() => {
                self.new_variable(Some(text.clone()), term.span)
            }
            _ => self.term(term),
        }
    }

    fn new_variable(&mut self, text: Option<String>, span: Span) -> Term {
        let place = self.variables.len();
        self.variables.push(Variable { text, span, number: self.scope.len(), used: false });
        self.scope.push(place);
        Term { kind: TermKind::New(place), span }
    }

    fn in_scope(&self, text: &str) -> Option<usize> {
        self.scope.iter().copied().find(|&place| self.variables[place].text.as_deref() == Some(text))
    }

    fn term(&mut self, term: &WrittenTerm) -> Term {
        let kind = match &term.kind {
            WrittenTermKind::Number(number) => TermKind::Atom(Atom::from(*number)),
            WrittenTermKind::Key(number) => {
                if *number == NO_KEY_NUMBER && self.names.our_key.is_none() {
                    self.problems.push(stand_in(term.span));
                }
                TermKind::Atom(Key::new(*number).into())
            }
            WrittenTermKind::Named(text) => match (self.names.key(text), self.in_scope(text)) {
                (Some(key), _) => TermKind::Atom(key.into()),
                (None, Some(place)) => {
                    self.variables[place].used = true;
                    TermKind::Variable(place)
                }
                (None, None) => {
                    let problem = self.not_in_scope(text, term.span);
                    self.say_once(problem);
                    TermKind::Atom(NO_KEY_OF_OURS.into())
                }
            },
            WrittenTermKind::Any => {
                let problem = Problem::error("`_` stands only in the pattern of a draw").at(term.span, "no atom is drawn here");
                self.problems.push(problem.mend("draw a variable and use it here, or write the atom"));
                TermKind::Atom(Atom::from(0))
            }
        };
        Term { kind, span: term.span }
    }

    fn not_in_scope(&self, text: &str, span: Span) -> Problem {
        let problem = Problem::error(format!("`{text}` is neither a key nor a variable in scope")).refused(4).at(span, "not known here");
        if let Some(drawn) = self.around.iter().rev().find_map(|guards| guards.iter().find_map(|guard| drawing(guard, text))) {
            return if drawn.guard.start <= span.start && span.end <= drawn.guard.end {
                problem
                    .at(drawn.name, "drawn here, by the same guard")
                    .mend(format!("a draw does not see its own pattern: draw `{text}` by a guard before it"))
            } else {
                problem.at(drawn.name, "drawn here, later").mend(format!("put the guard that draws `{text}` first"))
            };
        }
        if let Some(ended) = self.variables.iter().find(|variable| variable.text.as_deref() == Some(text)) {
            return problem.at(ended.span, "drawn here").mend(format!("a variable ends with its comprehension: draw `{text}` here too"));
        }
        let variables = self.scope.iter().filter_map(|&place| self.variables[place].text.as_deref());
        match closest(text, variables.chain(self.names.key_names())) {
            None if is_key_in_capitals(text) => problem.mend(format!("write `{}`: keys have a small k", text.to_ascii_lowercase())),
            None => problem.mend(format!("declare the key, `key {text} = k7`, or draw the variable by a guard before")),
            meant => problem.meant(meant),
        }
    }

    fn defined(&mut self, name: &Identifier) -> Option<usize> {
        let text = &name.text;
        let found = self.names.definition(text);
        if found.is_none() {
            let problem = if self.names.declared_list(text).is_some() {
                Problem::error(format!("`{text}` is a list, and a list is some key's"))
                    .at(name.span, "whose list?")
                    .mend(format!("write whose it is before it: `alma.{text}`, if `alma` is the key"))
            } else if self.names.key(text).is_some() || self.in_scope(text).is_some() {
                let kind = if self.names.key(text).is_some() { "key" } else { "variable" };
                let problem = Problem::error(format!("`{text}` is a {kind}, and no set of rows")).at(name.span, "a set must stand here");
                problem.mend(format!("write a list of its, `{text}.1+`, or the row alone, `{{ ({text}) }}`"))
            } else {
                let problem = Problem::error(format!("there is no definition `{text}`")).refused(4).at(name.span, "not defined");
                let define = || format!("define it before: `define {text} + = ..`");
                match (closest(text, self.names.definition_names()), closest(text, self.names.list_names())) {
                    (None, Some(list)) => problem.mend(format!("did you mean the list `{list}`? Write its key before it: `alma.{list}`")),
                    (None, None) => problem.mend(define()),
                    (meant, _) => problem.meant(meant),
                }
            };
            self.say_once(problem);
        }
        found
    }

    /// What is wrong with a name, in the first place that has it: mended there, it is mended in the others.
    fn say_once(&mut self, problem: Problem) {
        if self.problems.iter().all(|other| other.message != problem.message) {
            self.problems.push(problem);
        }
    }

    fn list(&mut self, issuer: &WrittenTerm, list: &WrittenList, by: Option<&Identifier>) -> Kind {
        let text = format!("{}.{}", show_term(issuer), show_list(list));
        if let WrittenTermKind::Number(number) = issuer.kind {
            let problem = Problem::error("a list's issuer is a key").refused(3).at(issuer.span, "a number");
            self.problems.push(problem.mend(format!("write `k{number}`")));
        }
        let issuer = self.term(issuer);
        let listed = self.listed(&issuer, list);
        let vetted_by = by.and_then(|by| Some((self.vetting(by)?, by.span)));
        let Some(Listed { number, polarity, span, declaration }) = listed else { return nothing() };
        if by.is_some() && polarity == Polarity::Minus {
            let problem = Problem::error("only a + list can be vetted").refused(3).at(span, format!("`{text}` is a − list"));
            self.problems.push(problem.mend("leave `vetted by` out, or vet a + list"));
        }
        let origin = if self.is_ours(&issuer) { Origin::Own(self.names.own(number, polarity)) } else { Origin::Certificates };
        Kind::List(List { issuer, number, polarity, span, text, declaration, origin, vetted_by })
    }

    /// Number and polarity of what stands behind the dot.
    fn listed(&mut self, issuer: &Term, list: &WrittenList) -> Option<Listed> {
        match list {
            WrittenList::Numbered { number, polarity, span } => match u16::try_from(*number) {
                Ok(number) => Some(Listed { number, polarity: *polarity, span: *span, declaration: None }),
                Err(_) => {
                    self.problems.push(number_too_great(3, *span));
                    None
                }
            },
            WrittenList::Named(name) => self.listed_by_name(issuer, name),
        }
    }

    fn listed_by_name(&mut self, issuer: &Term, name: &Identifier) -> Option<Listed> {
        let Identifier { text, span } = name;
        if let Some(place) = self.names.lists.iter().position(|list| list.text == *text) {
            let list = &self.names.lists[place];
            return Some(Listed { number: list.number, polarity: list.polarity, span: *span, declaration: Some(place) });
        }
        let own = self.names.definition(text).map(|place| &self.names.definitions[place]);
        let ours = self.is_ours(issuer);
        let problem = match own {
            Some(own) if ours => return Some(Listed { number: own.number, polarity: own.polarity, span: *span, declaration: None }),
            Some(own) => {
                let problem = Problem::error(format!("`{text}` is a definition, and only our key has it")).at(*span, "no list has this name");
                problem.at(own.span, "defined here").mend(format!("write `{text}` alone, or declare a list of this name"))
            }
            None => self.no_list(text, *span, ours),
        };
        self.say_once(problem);
        None
    }

    fn is_ours(&self, issuer: &Term) -> bool {
        self.names.our_key.is_some_and(|key| issuer.kind == TermKind::Atom(key.into()))
    }

    fn no_list(&self, text: &str, span: Span, ours: bool) -> Problem {
        let problem = Problem::error(format!("there is no list `{text}`")).at(span, "not declared");
        let definitions = self.names.definition_names().filter(|_| ours);
        match closest(text, self.names.list_names().chain(definitions)) {
            None => problem.mend(format!(
                "declare its number and sign, as `list {text} = 7 +` if its certificates say what is in it, `list {text} = 7 -` if they say what is not"
            )),
            meant => problem.meant(meant),
        }
    }

    /// The definition behind `vetted by`.
    fn vetting(&mut self, by: &Identifier) -> Option<usize> {
        if self.names.definition(&by.text).is_none() && self.names.declared_list(&by.text).is_some() {
            let problem =
                Problem::error(format!("`{}` is a list, and a list is vetted by a definition", by.text)).at(by.span, "a definition must stand here");
            self.problems.push(problem.mend(format!("define what is compromised: `define compromised - = k1.{}`", by.text)));
            return None;
        }
        self.defined(by)
    }
}

/// What stands for an expression that has no meaning.
fn nothing() -> Kind {
    Kind::Literal { rows: Vec::new(), all_but: false }
}

fn show_list(list: &WrittenList) -> String {
    match list {
        WrittenList::Named(name) => name.text.clone(),
        WrittenList::Numbered { number, polarity, .. } => format!("{number}{polarity}"),
    }
}

/// What stands behind an issuer's dot.
struct Listed {
    number: u16,
    polarity: Polarity,
    span: Span,
    declaration: Option<usize>,
}

/// Where a guard's pattern has this name.
struct Drawn {
    name: Span,
    guard: Span,
}

fn drawing(guard: &WrittenGuard, text: &str) -> Option<Drawn> {
    let WrittenKind::Draw(pattern, _) = &guard.kind else { return None };
    let name = pattern.terms.iter().find(|term| matches!(&term.kind, WrittenTermKind::Named(name) if name == text))?;
    Some(Drawn { name: name.span, guard: guard.span })
}

/// `K1`
fn is_key_in_capitals(text: &str) -> bool {
    text.strip_prefix('K').is_some_and(|number| !number.is_empty() && number.chars().all(|digit| digit.is_ascii_digit()))
}
