//! From a text to what the engine answers: names resolved, words made by the binding, judged by the engine.

use crate::declare::{definitions_of, query_of};
use crate::evidence::Evidence;
use crate::explain::{self, reading};
use crate::names::Names;
use crate::parse::{parse, parse_expression};
use crate::problem::{Problem, Sources};
use crate::program::Program;
use crate::resolve::resolve;
use crate::say;
use crate::syntax::{self, Polarity, Span};
use crate::tree::Whole;
use crate::warnings;
use txindurbe::{Expression, Format, Guard, Key, Links, Minute, Policy, Query, Refusal, Store, Unresolved, Verdict};

/// A policy that the engine accepts, with the names that its text gives.
#[derive(Clone, Debug)]
pub struct Compiled {
    program: Program,
    written: Policy,
    policy: Policy,
    judged: Vec<Judged>,
    query: Option<Asked>,
    /// Known from the text alone: of the definitions. Each query has its own.
    pub warnings: Vec<Problem>,
}

/// What the engine says of a definition.
#[derive(Clone, Copy, Debug)]
struct Judged {
    verdict: Verdict,
    open: bool,
}

/// A query that the engine accepts under the policy.
#[derive(Clone, Debug)]
pub struct Asked {
    /// As it is written.
    pub expression: syntax::Expression,
    /// As the engine reads it.
    pub query: Query,
    /// What an answer's table will promise.
    pub verdict: Verdict,
    /// Known from the text alone.
    pub warnings: Vec<Problem>,
    whole: Whole,
}

/// What is known of a definition of a policy that the engine accepts.
#[derive(Clone, Copy, Debug)]
pub struct DefinitionInfo<'a> {
    /// Its name in the text.
    pub identifier: &'a str,
    /// Its number under our key, written or chosen.
    pub number: u16,
    /// The one that it is declared with.
    pub polarity: Polarity,
    /// What an answer's table promises when it is asked for by name.
    pub verdict: Verdict,
    /// Whether it may be a complement, so that nothing can be drawn from it.
    pub open: bool,
    /// Of the whole statement.
    pub span: Span,
    /// As it is written.
    pub syntax: &'a syntax::Definition,
}

/// What a text of [`Sources`] says, if the engine accepts it; else all that is wrong with its names, or what the engine refuses.
pub fn compile(sources: &Sources, source: usize) -> Result<Compiled, Vec<Problem>> {
    compile_file(parse(sources, source)?)
}

/// The same of a file that is parsed.
pub fn compile_file(file: syntax::File) -> Result<Compiled, Vec<Problem>> {
    let program = Program::resolve(file)?;
    let written = program.policy(program.definitions.len()).map_err(unresolved)?;
    let query = match &program.query {
        Some(whole) => program.query(&written, whole).map_err(unresolved)?,
        None => nothing(),
    };
    let refused = |refusal: Refusal| vec![explain::explain(&program, None, &refusal)];
    let verdict = written.judge(&query).map_err(refused)?;
    let policy = if program.external { written.rewrite().map_err(refused)? } else { written.clone() };
    let judged = program.definitions.iter().map(|definition| judged(&policy, &definition.text)).collect::<Result<_, _>>()?;

    let asked = program.query.clone().zip(query_of(&program.file).cloned()).map(|(whole, expression)| {
        let warnings = warnings::of_query(&program, &whole);
        Asked { expression, query, verdict, warnings, whole }
    });
    let warnings = warnings::of_definitions(&program);
    Ok(Compiled { program, written, policy, judged, query: asked, warnings })
}

/// Asked for by name, and drawn from.
fn judged(policy: &Policy, definition: &str) -> Result<Judged, Vec<Problem>> {
    let asked = Expression::defined(definition);
    let verdict = policy.judge(&policy.query(&asked).map_err(unresolved)?).map_err(|refusal| vec![Problem::error(refusal.to_string())])?;
    let drawn = Expression::each([Guard::Draw(vec![txindurbe::variable("x")], asked)], [0.into()]);
    let open = policy.judge(&policy.query(&drawn).map_err(unresolved)?).is_err();
    Ok(Judged { verdict, open })
}

/// The query for no rows, which every policy that is accepted answers.
fn nothing() -> Query {
    Query::from_words(vec![1, 0])
}

/// The names are resolved before words are made, so this is a mistake of ours.
fn unresolved(unresolved: Unresolved) -> Vec<Problem> {
    vec![Problem::error(unresolved.to_string())]
}

impl Compiled {
    /// That which the file says; k2147483647 if it says none, so that no name is our own.
    pub fn our_key(&self) -> Key {
        self.program.our_key()
    }

    /// What its names stand for.
    pub fn names(&self) -> &Names {
        &self.program.names
    }

    /// As it is parsed.
    pub fn file(&self) -> &syntax::File {
        &self.program.file
    }

    /// Which rows patterns match.
    pub fn format(&self) -> Format {
        self.program.format
    }

    /// Whether it is written by the external rules.
    pub fn is_external(&self) -> bool {
        self.program.external
    }

    /// The policy as it is written.
    pub fn written(&self) -> &Policy {
        &self.written
    }

    /// The policy as the engine is to use it: rewritten where the file says `external`.
    pub fn policy(&self) -> &Policy {
        &self.policy
    }

    /// In the order of the file.
    pub fn definitions(&self) -> impl Iterator<Item = DefinitionInfo<'_>> {
        let written = definitions_of(&self.program.file);
        self.program.definitions.iter().zip(&self.judged).zip(written).map(|((definition, judged), (syntax, span))| DefinitionInfo {
            identifier: &definition.text,
            number: definition.number,
            polarity: definition.polarity,
            verdict: judged.verdict,
            open: judged.open,
            span,
            syntax,
        })
    }

    /// The file's own query.
    pub fn query(&self) -> Option<&Asked> {
        self.query.as_ref()
    }

    /// A text that is one expression, in this policy's names.
    pub fn ask(&self, sources: &Sources, source: usize) -> Result<Asked, Vec<Problem>> {
        self.ask_expression(parse_expression(sources, source)?)
    }

    /// The same of an expression that is parsed.
    pub fn ask_expression(&self, expression: syntax::Expression) -> Result<Asked, Vec<Problem>> {
        let mut problems = Vec::new();
        let whole = resolve(&expression, self.names(), &mut problems);
        if !problems.is_empty() {
            return Err(say::in_order(problems));
        }
        let query = self.program.query(&self.policy, &whole).map_err(unresolved)?;
        let verdict = self.policy.judge(&query).map_err(|refusal| vec![explain::explain(&self.program, Some(&whole), &refusal)])?;
        let warnings = warnings::of_query(&self.program, &whole);
        Ok(Asked { expression, query, verdict, warnings, whole })
    }

    /// A refusal of the engine at its place; without a query that was asked, of the file's own.
    pub fn explain(&self, asked: Option<&Asked>, refusal: &Refusal) -> Problem {
        explain::explain(&self.program, asked.map(|asked| &asked.whole), refusal)
    }

    /// The same of a refusal that came while reading from these certificates and links: the smallest expression that is at fault.
    pub fn explain_over(&self, asked: Option<&Asked>, refusal: &Refusal, store: &Store, links: &Links, minute: Minute) -> Problem {
        let evidence = Evidence::new(store, links, minute);
        let found = reading::explain_over(&self.program, asked.map(|asked| &asked.whole), refusal, &evidence);
        found.map_or_else(|| self.explain(asked, refusal), |problem| problem.refused(refusal.number()))
    }

    /// Those that need the certificates: of a query and all definitions that it uses.
    pub fn warnings_over(&self, asked: &Asked, store: &Store, links: &Links, minute: Minute) -> Vec<Problem> {
        warnings::certified::over(&self.program, &asked.whole, &Evidence::new(store, links, minute))
    }
}
