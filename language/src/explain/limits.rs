//! What is said of too many definitions, words, rows, atoms, guards, variables and draws, of what stands too deep, and of what is not available: refusals 1, 3,
//! 4 and 5.

use super::words::{first_broken, places, Broken};
use crate::names::{opposite, sign};
use crate::problem::Problem;
use crate::program::Program;
use crate::say;
use crate::syntax::Span;
use crate::tree::{List, Whole};
use txindurbe::sizes::{MOST_DEFINITIONS, POLICY_WORDS};
use txindurbe::Part;

/// The most words of a query.
pub(crate) const QUERY_WORDS: usize = 1_024;

// ---- 1

pub(crate) fn too_many_definitions(program: &Program) -> Option<Problem> {
    let surplus = program.definitions.get(MOST_DEFINITIONS)?;
    let problem = Problem::error(format!("a policy has at most {MOST_DEFINITIONS} definitions"))
        .at(surplus.span, format!("the {}", say::after(MOST_DEFINITIONS)));
    Some(problem.mend("join definitions that are used in one place, or write a second policy"))
}

/// At the first word over the limit: of the policy as it is written, or as rewriting would leave it.
pub(crate) fn policy_too_long(program: &Program, rewritten: bool) -> Option<Problem> {
    let vetted = rewritten && program.compromised().is_some();
    let mut places_so_far = Vec::new();
    for (place, definition) in program.definitions.iter().enumerate() {
        places_so_far.extend(places(&definition.whole.expression, vetted && place > 0));
    }
    let table = 2 + 4 * program.definitions.len();
    let count = table + places_so_far.len();
    let place = places_so_far.get(POLICY_WORDS.checked_sub(table)?)?;
    let most = say::number(POLICY_WORDS);
    let message = match rewritten {
        true => format!("rewritten, a policy has at most {most} words, and this one would have {}", say::number(count)),
        false => format!("a policy has at most {most} words, and this one has {}", say::number(count)),
    };
    let problem = Problem::error(message).at(*place, format!("the {} word stands here", say::after(POLICY_WORDS)));
    Some(problem.mend("write a second policy, or certify rows in place of writing them out"))
}

// ---- 3, 4 and 5

pub(crate) fn query_too_long(whole: &Whole) -> Option<Problem> {
    let places = places(&whole.expression, false);
    let place = places.get(QUERY_WORDS)?;
    let (most, count) = (say::number(QUERY_WORDS), say::number(places.len()));
    let problem = Problem::error(format!("a query has at most {most} words, and this one has {count}"));
    Some(problem.at(*place, format!("the {} word stands here", say::after(QUERY_WORDS))).mend("give a part of it a name with `define`"))
}

pub(crate) fn broken_word(program: &Program, part: Part, whole: &Whole, number: u32) -> Option<Problem> {
    let broken = first_broken(program, part, whole).filter(|broken| broken.number() == number)?;
    Some(match broken {
        Broken::Rows(row) => Problem::error("at most 128 rows can be written out")
            .at(row.span, "the 129th")
            .mend("no set lists over 128 rows: divide them over definitions, and ask for each by itself"),
        Broken::Width(term) => {
            Problem::error("a row has at most 4 atoms").at(term.span, "the fifth").mend("divide the row into two that share an atom")
        }
        Broken::Guards(guard) => Problem::error("at most 8 guards stand behind one `|`")
            .at(guard.span, "the ninth")
            .mend("define a set by some of the guards, and draw from that"),
        Broken::Variables(term) => Problem::error("at most 16 variables are in scope, each `_` counted")
            .at(term.span, "the 17th")
            .mend("define a set by some of the guards, with the variables needed in its rows, and draw from that"),
        Broken::Depth(node) => Problem::error("expressions stand at most 15 deep in one another")
            .at(node.span, "this one stands at depth 16")
            .mend("give a part of it a name with `define`: each definition starts at depth 1"),
        Broken::Draws(guard) => Problem::error("at most 8 draws stand in one definition or query")
            .at(guard.span, "the ninth")
            .mend("give a part of it a name with `define`: each definition has 8 draws of its own"),
        Broken::NotBefore(place, span) => not_before(program, part, place, span)?,
        Broken::NoOwn(list) => no_own(program, list),
    })
}

/// Of definitions alone: a query may use all.
fn not_before(program: &Program, part: Part, place: usize, span: Span) -> Option<Problem> {
    let Part::Definition(number) = part else { return None };
    let (used, user) = (program.definitions.get(place)?, program.definitions.get(number as usize)?);
    if user.span == used.span {
        let problem = Problem::error(format!("`{}` uses itself", used.text)).at(span, "used here").at(used.span, "defined here");
        return Some(problem.mend("a definition uses only those before it"));
    }
    let problem = Problem::error(format!("`{}` is used before it is defined", used.text)).at(span, "used here").at(used.span, "defined here, later");
    Some(problem.mend(format!("move `define {}` before `define {}`", used.text, user.text)))
}

/// Under our key, but no definition.
fn no_own(program: &Program, list: &List) -> Problem {
    let ours = program.names.show_key(program.our_key());
    let (number, polarity) = (list.number, list.polarity);
    let message = format!("`{}` stands for a definition, as {ours} is our key, and none is {number} {}", list.text, sign(polarity));
    let problem = Problem::error(message).at(list.span, "not defined");
    match program.names.own(number, opposite(polarity)) {
        Some(twin) => {
            let twin = &program.definitions[twin];
            let text = format!("this one is {number} {}", sign(twin.polarity));
            problem.at(twin.span, text).mend(format!("write `{}`, or define {number} {} too", twin.text, sign(polarity)))
        }
        None => problem.mend(format!("define it, `define .. {number} {polarity} = ..`, or write the key whose list it is")),
    }
}
