//! Each refusal at its place. Numbers and places are worked out from document 01 and 02 by hand.

mod help;

use help::{accepted, assert_says, compiled, only, problem, underlined};
use txindurbe::{calls, Certificate, Engine, Key, Link, Links, Minute, Part, Refusal, Store, Validity};
use txindurbe_language::{Compiled, Problem, Severity, Sources};

/// A text with one error: its number, a part of the message, what is underlined, a part of a mend.
fn refused(text: &str, number: impl Into<Option<u32>>, said: [&str; 3]) -> Problem {
    let problem = problem(text);
    assert_says(text, &problem, Severity::Error, number.into(), said);
    problem
}

/// The same, with what the label of this place underlines.
fn refused_with(text: &str, number: impl Into<Option<u32>>, said: [&str; 3], others: &[&str]) {
    let problem = refused(text, number, said);
    let found: Vec<&str> = (1..problem.labels.len()).map(|place| underlined(text, &problem, place)).collect();
    assert_eq!(found, others, "{text}\n{problem:#?}");
}

// ---- found by the compiler itself, which makes no words then

#[test]
fn names_that_are_not_known() {
    refused("key alma = k1\nquery alam.1+", 4, ["`alam` is neither a key nor a variable in scope", "alam", "did you mean `alma`?"]);
    refused("query o.1+", 4, ["`o` is neither", "o", "declare the key"]);
    refused("list released = 1 +\nquery k1.relesed", None, ["no list `relesed`", "relesed", "did you mean `released`?"]);
    refused("query k1.released", None, ["no list `released`", "released", "list released = 7 +"]);
    refused("define public + = {}\nquery publik", 4, ["no definition `publik`", "publik", "did you mean `public`?"]);
    refused("query public", 4, ["no definition `public`", "public", ""]);
    refused("list released = 1 +\nquery relesed", 4, ["no definition `relesed`", "relesed", "did you mean the list `released`?"]);
    // capitals aside
    refused("key alma = k1\nquery ALMA.1+", 4, ["`ALMA`", "ALMA", "did you mean `alma`?"]);
}

#[test]
fn all_unknown_names_are_said_in_their_order() {
    let text = "key alma = k1\nquery { (y) | (x) in z.1+, (w) not in none }";
    let problems = compiled(text).expect_err("it is refused");
    let found: Vec<&str> = problems.iter().map(|problem| underlined(text, problem, 0)).collect();
    assert_eq!(found, ["y", "z", "w", "none"]);
}

#[test]
fn names_of_another_kind() {
    refused("list released = 1 +\nquery released", None, ["`released` is a list", "released", "alma.released"]);
    refused("key alma = k1\nquery alma", None, ["`alma` is a key", "alma", "{ (alma) }"]);
    refused("query { (x) | (x) in k1.1+, (x) not in x }", None, ["`x` is a variable", "x", "x.1+"]);
    refused("list gone = 2 -\nquery k1.1+ vetted by gone", None, ["vetted by a definition", "gone", "define compromised - = k1.gone"]);
}

#[test]
fn variables_out_of_scope() {
    refused_with("query { (x) | (x) in o.1+, (o) in k1.3+ }", 4, ["`o`", "o", "put the guard that draws `o` first"], &["o"]);
    refused_with("query { (x) | (x) in x.1+ }", 4, ["`x`", "x", "a draw does not see its own pattern"], &["x"]);
    refused_with("query { (y) | (x) in { (y) | (y) in k1.1+ } }", 4, ["`y`", "y", "a variable ends with its comprehension"], &["y"]);
    refused("query { (7) | x = 7 }", 4, ["`x`", "x", ""]);
    // the head's, though it is written first
    refused("query { (y) | (x) in k1.1+ }", 4, ["`y`", "y", ""]);
    // an inner comprehension sees the outer ones
    accepted("query { (x) | (x) in k1.1+, (x, 7) in { (x, y) | (y) in x.3+ } }");
}

#[test]
fn any_atom_outside_a_pattern() {
    for text in [
        "query { (_) }",
        "query { (_) | (x) in k1.1+ }",
        "query { (x) | (x) in k1.1+, (_) not in k1.2- }",
        "query { (x) | (x) in k1.1+, _ != 7 }",
        "query { (x) | (x) in { (_) } }",
    ] {
        refused(text, None, ["`_` stands only in the pattern of a draw", "_", ""]);
    }
}

#[test]
fn a_definition_as_a_list_of_another_key() {
    let text = "our key k9\ndefine public + = {}\nquery k1.public";
    refused_with(text, None, ["`public` is a definition, and only our key has it", "public", "write `public` alone"], &["public"]);
    refused("define public + = {}\nquery k9.public", None, ["only our key has it", "public", ""]);
    accepted("our key k9\ndefine public + = {}\nquery k9.public");
    // a variable never reads our own names
    refused("our key k9\ndefine public + = {}\nquery { (x) | (o) in k1.3+, (x) in o.public }", None, ["only our key", "public", ""]);
}

#[test]
fn names_declared_twice() {
    refused_with("key alma = k1, vla = k2\nkey alma = k3", None, ["`alma` is declared twice", "alma", ""], &["alma"]);
    refused("list released = 1 +, released = 1 +", None, ["`released` is declared twice", "released", ""]);
    refused("define a + = {}\ndefine a - = {}", None, ["`a` is declared twice", "a", ""]);
    // keys and lists are two spaces of names, and a number may have two names
    accepted("key alma = k1, also_alma = k1\nlist alma = 1 +, too = 1 +\nquery alma.alma union also_alma.too");
}

#[test]
fn a_definition_and_a_list_of_one_name() {
    accepted("list public = 10 +\ndefine public + = {}");
    accepted("list public = 10 +\ndefine public 10 + = {}");
    refused_with(
        "list public = 10 -\ndefine public + = {}",
        None,
        ["a list 10 - and a definition 10 +", "+", "the same number and sign"],
        &["public = 10 -"],
    );
    refused("list public = 10 +\ndefine public 11 + = {}", None, ["a list 10 + and a definition 11 +", "11", ""]);
}

#[test]
fn numbers_of_definitions() {
    refused_with("define a 10 + = {}\ndefine b 10 + = {}", 2, ["`a` and `b` are both definition 10 +", "10", "leave the number out"], &["a"]);
    accepted("define a 10 + = {}\ndefine b 10 - = {}");
    refused("define a 65536 + = {}", 2, ["at most 65,535", "65536", ""]);
    accepted("define a 65535 + = {}");
    // 1 is a list's, 2 another definition's, 3 is written behind a dot, in the query too: 4, then 5
    let chosen =
        accepted("list released = 1 -\ndefine a + = k1.3+\ndefine b 2 + = {}\ndefine c + = {}\nquery k1.4+ union k1.4+ union a union b union c");
    assert_eq!(chosen.definitions().map(|definition| definition.number).collect::<Vec<_>>(), [5, 2, 6]);
}

#[test]
fn numbers_of_lists() {
    refused("list a = 65536 +", 3, ["at most 65,535", "a = 65536 +", ""]);
    refused("query k1.65536+", 3, ["at most 65,535", "65536+", ""]);
    accepted("list a = 65535 +\nquery k1.65535+ union k1.a");
}

#[test]
fn a_minus_list_is_not_vetted() {
    let text = "define bad - = {}\nquery k1.2- vetted by bad";
    refused(text, 3, ["only a + list can be vetted", "2-", "vet a + list"]);
    accepted("define bad - = {}\nquery k1.2+ vetted by bad");
}

#[test]
fn statements_that_are_said_once() {
    refused_with("query {}\nquery {(1)}", None, ["says `query` once", "query {(1)}", ""], &["query {}"]);
    refused("format 1\nformat 2", None, ["says `format` once", "format 2", ""]);
    refused("our key k1\nour key k1", None, ["says `our key` once", "our key k1", ""]);
}

#[test]
fn formats() {
    refused("format 3", 1, ["there is no format 3", "3", "format 2"]);
    refused("format 0", 1, ["there is no format 0", "0", ""]);
    for (text, word) in [("", 1), ("format 1", 1), ("format 2", 2)] {
        assert_eq!(accepted(text).policy().words(), [word, 0]);
    }
}

#[test]
fn our_key_is_a_key() {
    refused("our key 9", 20, ["9 is a number", "9", "k9"]);
    refused("key archive = k9\nour key archiv", 20, ["`archiv` is none", "archiv", "did you mean `archive`?"]);
    refused("our key x", 20, ["`x` is none", "x", "key x = k9"]);
    assert_eq!(accepted("our key archive\nkey archive = k9").our_key(), Key::new(9));
}

#[test]
fn the_key_that_stands_in_for_ours() {
    assert_eq!(accepted("").our_key(), Key::new(2_147_483_647));
    let said = ["a file that writes k2147483647 must say which key is ours", "k2147483647", "our key"];
    refused("query { (k2147483647) }", None, said);
    refused("query k2147483647.1+", None, said);
    refused("key last = k2147483647", None, [said[0], "last = k2147483647", said[2]]);
    accepted("our key k1\nkey last = k2147483647\nquery { (last) } union k2147483647.1+");
    let policy = accepted("define a + = {}");
    let (text, result) = ask(&policy, "{ (k2147483647) }");
    assert_says(&text, &only(&text, result.expect_err("it is refused")), Severity::Error, None, said);
}

/// The compiler gives these the number that the engine gives to the words which the text would have.
#[test]
fn the_engine_has_the_same_numbers() {
    let k1 = Key::new(1).word();
    let judged = |policy: &[u32], query: &[u32], our_key: u32| calls::judge(policy, query, our_key).number;
    let [ours, bad] = [Key::new(9).word(), 9];
    assert_eq!(judged(&[1, 0], &[7, 0, 1, 1, 0], ours), 4); // { (x) | }
    assert_eq!(judged(&[1, 0], &[3, 0], ours), 4); // public, which is not defined
    assert_eq!(judged(&[1, 0], &[4, 0, k1, 65_536, 0], ours), 3); // k1.65536+
    assert_eq!(judged(&[1, 1, 65_536, 0, 6, 2, 1, 0], &[1, 0], ours), 2); // define a 65536 + = {}
    assert_eq!(judged(&[1, 2, 10, 0, 10, 2, 10, 0, 12, 2, 1, 0, 1, 0], &[1, 0], ours), 2); // 10 + twice
    assert_eq!(judged(&[1, 1, 1, 1, 6, 2, 1, 0], &[8, 0, k1, 2, 1, 0], ours), 3); // k1.2- vetted by bad
    assert_eq!(judged(&[3, 0], &[1, 0], ours), 1); // format 3
    assert_eq!(judged(&[1, 0], &[1, 0], bad), 20); // our key 9
}

// ---- 1

/// A literal of so many rows of four atoms: 2 + 9 words a row. Each number stands in it once.
fn literal(rows: usize) -> String {
    let row = |row: usize| format!("({})", (0..4).map(|atom| (10_000 + 4 * row + atom).to_string()).collect::<Vec<_>>().join(", "));
    format!("{{ {} }}", (0..rows).map(row).collect::<Vec<_>>().join(", "))
}

#[test]
fn seventeen_definitions() {
    let text = |count: usize| (0..count).map(|place| format!("define d{place} + = {{}}\n")).collect::<String>();
    accepted(&text(16));
    refused(&text(17), 1, ["at most 16 definitions", "d16", ""]);
    refused(&text(20), 1, ["at most 16 definitions", "d16", ""]);
}

#[test]
fn a_policy_over_8192_words() {
    // Eight definitions: a table of 34 words, seven parts of 2 + 9 × 128 = 1,154, which are 8,112 words; 80 are left for the last.
    let text = |rows: usize| {
        (0..7)
            .map(|place| format!("define d{place} + = {}\n", literal(128)))
            .chain([format!("define last + = {}\n", literal(rows))])
            .collect::<String>()
    };
    accepted(&text(8)); // 2 + 72
                        // Row 8 of the last part begins at its word 74: the width, then two words for each atom; its word 80 is of the third atom, number 10,000 + 4 × 8 + 2.
    let problem = refused(&text(9), 1, ["at most 8,192 words, and this one has 8,195", "10034", ""]);
    assert!(problem.labels[0].text.contains("8,193rd"), "{problem:?}");
}

// ---- 3

#[test]
fn a_row_of_five_atoms() {
    let said = ["at most 4 atoms", "5", ""];
    refused("query { (1, 2, 3, 4), (1, 2, 3, 4, 5) }", 3, said);
    refused("query all but { (1, 2, 3, 4, 5, 6) }", 3, said);
    refused("query { (1, 2, 3, 4, 5) | }", 3, said);
    refused("query { (7) | (1, 2, 3, 4, 5) in k1.1+ }", 3, said);
    refused("define d + = { (7) | (1, 2, 3, 4, 5) not in k1.1- }", 3, said);
}

#[test]
fn a_literal_of_129_rows() {
    let rows = |count: usize| (1..=count).map(|row| format!("({row})")).collect::<Vec<_>>().join(", ");
    accepted(&format!("query {{ {} }}", rows(128)));
    refused(&format!("query {{ {} }}", rows(129)), 3, ["at most 128 rows", "(129)", ""]);
    refused(&format!("define d - = all but {{ {} }}", rows(200)), 3, ["at most 128 rows", "(129)", ""]);
}

#[test]
fn a_ninth_guard() {
    let guards = |count: usize| (1..=count).map(|guard| format!("{guard} != 0")).collect::<Vec<_>>().join(", ");
    accepted(&format!("query {{ (7) | {} }}", guards(8)));
    refused(&format!("query {{ (7) | {} }}", guards(9)), 3, ["at most 8 guards", "9 != 0", ""]);
}

#[test]
fn a_query_over_1024_words() {
    // 113 rows take 1,019 words. Row 113 begins at word 1,019, its third atom is words 1,024 and 1,025, counted from 0: 10,000 + 4 × 113 + 2.
    accepted(&format!("query {}", literal(113)));
    let problem = refused(&format!("query {}", literal(114)), 3, ["at most 1,024 words, and this one has 1,028", "10454", "define"]);
    assert!(problem.labels[0].text.contains("1,025th"), "{problem:?}");
    // A definition may be as long.
    accepted(&format!("define d + = {}", literal(114)));
    // Of a draw the expression comes before the pattern, and guards before the head. 7, 1, 1, then 1,019 words of the literal, then the pattern's width is word
    // 1,022, its first atom 1,023 and 1,024.
    refused(&format!("query {{ (8) | (7) in {} }}", literal(113)), 3, ["this one has 1,028", "7", ""]);
    // 7, 1, 4, a row of three words, then the literal, whose last word is 1,024: of the last atom, 10,000 + 4 × 112 + 3.
    refused(&format!("query {{ (8) | (7) not in {} }}", literal(113)), 3, ["this one has 1,028", "10451", ""]);
    // The length comes before the words: 14 words, then the literal, whose word 1,010 is the width of row 112. The fifth atom is not what is said.
    let last = "(10448, 10449, 10450, 10451)";
    refused(&format!("query {{ (1, 2, 3, 4, 5) }} union {}", literal(113)), 3, ["at most 1,024 words", last, ""]);
}

// ---- 4

#[test]
fn a_seventeenth_variable() {
    // Three draws of four, one of three: 15. The next draws the 16th and the 17th.
    let text = "query { (7) | (a, b, c, d) in k1.1+, (e, f, g, h) in k1.1+, (i, j, k, l) in k1.1+, (_, _, _) in k1.1+, (m, n) in k1.1+ }";
    refused(text, 4, ["at most 16 variables are in scope", "n", "draw from that"]);
    accepted(&text.replace("(m, n)", "(m, m)"));
    // Those of an inner comprehension end with it.
    accepted(&text.replace("(m, n) in k1.1+", "(m) in { (n) | (n) in k1.1+ }").replace("(_, _, _)", "(_, _)"));
    // And inside one another they are counted together.
    refused(&text.replace("(m, n) in k1.1+", "(7) in { (n) | (n, o) in k1.1+ }"), 4, ["at most 16 variables", "o", ""]);
}

#[test]
fn a_definition_that_stands_later() {
    let text = "define a + = { (x) | (x) in b }\ndefine b + = {}\nquery a";
    refused_with(text, 4, ["`b` is used before it is defined", "b", "move `define b` before `define a`"], &["b"]);
    refused("define a + = a", 4, ["`a` uses itself", "a", ""]);
    refused("our key k9\ndefine a + = k9.b\ndefine b + = {}", 4, ["`b` is used before it is defined", "k9.b", "move `define b`"]);
    refused("define a + = k1.1+ vetted by b\ndefine b - = {}", 4, ["`b` is used before", "b", "move `define b`"]);
    // in a query, any
    accepted("query a\ndefine a + = {}");
}

#[test]
fn an_own_name_without_a_definition() {
    refused("our key k9\nquery k9.7+", 4, ["`k9.7+` stands for a definition", "7+", "define .. 7 + = .."]);
    refused(
        "our key k9\nlist gone = 7 -\nkey archive = k9\nquery archive.gone",
        4,
        ["`archive.gone` stands for a definition, as archive is our key", "gone", ""],
    );
    refused_with("our key k9\ndefine a 7 + = {}\nquery k9.7-", 4, ["none is 7 −", "7-", "write `a`"], &["a"]);
    accepted("our key k9\ndefine a 7 + = {}\nquery k9.7+");
    // of another key it is a list
    accepted("our key k8\nquery k9.7+");
}

// ---- 5

#[test]
fn depth_16() {
    // Left to right: with fourteen unions the first operand stands at depth 15.
    let chain = |unions: usize| (0..=unions).map(|place| format!("{{ ({place}) }}")).collect::<Vec<_>>().join(" union ");
    accepted(&format!("query {}", chain(14)));
    refused(&format!("query {}", chain(15)), 5, ["at most 15 deep", "{ (0) }", "define"]);
    // With seventeen, a whole union of two does: { (0) } union { (1) } at 17 is not looked at.
    refused(&format!("query {}", chain(17)), 5, ["at most 15 deep", "{ (0) } union { (1) } union { (2) }", ""]);
    // With parentheses the 15th union stands at depth 15, and its left is the first that is too deep.
    let right = |unions: usize| {
        let left = (1..=unions).map(|place| format!("{{ ({place}) }} union (")).collect::<String>();
        format!("{left}{{ (99) }}{}", ")".repeat(unions))
    };
    accepted(&format!("query {}", right(14)));
    refused(&format!("query {}", right(15)), 5, ["at most 15 deep", "{ (15) }", ""]);
    // Operands of guards are one deeper too.
    let draws = |nested: usize| format!("{}{{ (99) }}{}", "{ (1) | (2) not in ".repeat(nested), " }".repeat(nested));
    accepted(&format!("query {}", draws(14)));
    refused(&format!("query {}", draws(15)), 5, ["at most 15 deep", "{ (99) }", ""]);
}

#[test]
fn a_ninth_draw() {
    let draws = |count: usize| (1..=count).map(|draw| format!("({draw}) in k1.1+")).collect::<Vec<_>>().join(", ");
    accepted(&format!("query {{ (7) | {} }}", draws(8)));
    refused(&format!("query {{ (7) | {} }} union {{ (7) | {} }}", draws(5), draws(4)), 5, ["at most 8 draws", "(4) in k1.1+", "define"]);
    // A draw is counted before those inside its expression: the eighth inside is the ninth.
    refused(&format!("query {{ (7) | (0) in {{ (7) | {} }} }}", draws(8)), 5, ["at most 8 draws", "(8) in k1.1+", ""]);
    // Each definition has its own.
    accepted(&format!("define d + = {{ (7) | {} }}\nquery {{ (7) | {} }}", draws(8), draws(7)));
}

#[test]
fn the_first_word_decides() {
    // In the words the guards come before the head, and of a draw the expression before the pattern.
    refused("define a + = { (1, 2, 3, 4, 5) | (x) in b }\ndefine b + = {}", 4, ["`b` is used before", "b", ""]);
    refused("define a + = { (x) | (x, 2, 3, 4, 5) in b }\ndefine b + = {}", 4, ["`b` is used before", "b", ""]);
    refused("define a + = { (7) | (1, 2, 3, 4, 5) not in b }\ndefine b - = {}", 3, ["at most 4 atoms", "5", ""]);
    // Definitions before the query, and each whole before the next.
    refused("query { (1, 2, 3, 4, 5) }\ndefine a + = k1.2-", 6, ["`a` is declared +", "k1.2-", ""]);
    // 3, 4 and 5 before 6, 6 before 7.
    refused("define a + = k1.2- union { (1, 2, 3, 4, 5) }", 3, ["at most 4 atoms", "5", ""]);
    refused("define a + = { (x) | (x) in k1.2- }", 6, ["`a` is declared +", "k1.2-", ""]);
}

// ---- 6

const LISTS: &str = "key alma = k1\nlist released = 1 +, withdrawn = 2 -, banned = 3 +, safe = 4 -\n";

fn with_lists(text: &str) -> String {
    format!("{LISTS}{text}")
}

#[test]
fn a_plus_list_tested_by_not_in() {
    let text = with_lists("define public + = { (x) | (x) in alma.released, (x) not in alma.banned }");
    let said =
        ["`public` is declared +, so what `not in` tests here must be −, and `alma.banned` is a + list", "alma.banned", "`not in` needs a − list"];
    // the leaf; where it is tested; the definition's sign; where the list is declared
    refused_with(&text, 6, said, &["(x)", "+", "banned = 3 +"]);
    let problem = problem(&text);
    assert_eq!(problem.labels[0].text, "a + list: what it gains, `public` loses");
    assert_eq!(problem.labels[1].text, "tested by `not in` here");
    assert_eq!(problem.labels[2].text, "declared +: it may only gain rows");
    accepted(&text.replace("banned }", "withdrawn }"));
}

#[test]
fn a_plus_list_right_of_minus() {
    let text = with_lists("define public + = alma.released minus alma.banned");
    let said = ["what stands right of `minus` here must be −, and `alma.banned` is a + list", "alma.banned", "`minus` needs a − list on its right"];
    refused_with(&text, 6, said, &["alma.released", "+", "banned = 3 +"]);
}

#[test]
fn a_minus_list_in_a_plus_definition() {
    let text = with_lists("define public + = alma.released union alma.withdrawn");
    refused_with(
        &text,
        6,
        ["so it must be made of + sets, and `alma.withdrawn` is a − list", "alma.withdrawn", "put a + list here"],
        &["+", "withdrawn = 2 -"],
    );
    let text = with_lists("define public + = { (x) | (x) in alma.withdrawn, (x) in alma.released }");
    refused_with(
        &text,
        6,
        ["what it draws from here must be +, and `alma.withdrawn` is a − list", "alma.withdrawn", "draw from a + list and test with `not in`"],
        &["(x)", "+", "withdrawn = 2 -"],
    );
}

#[test]
fn a_definition_of_the_other_sign_throughout() {
    let text = with_lists("define gone + = alma.withdrawn union alma.safe");
    refused(&text, 6, ["`gone` is declared +", "alma.withdrawn", "declare `gone` with -"]);
    let text = with_lists("define kept - = { (x) | (x) in alma.released, (x) not in alma.withdrawn }");
    refused(
        &text,
        6,
        ["`kept` is declared −, so what it draws from here must be −, and `alma.released` is a + list", "alma.released", "declare `kept` with +"],
    );
}

#[test]
fn definitions_and_own_names_have_their_declared_polarity() {
    let text = with_lists("define gone - = {(1)}\ndefine public + = gone union alma.released");
    refused_with(&text, 6, ["`gone` is a − definition", "gone", ""], &["+", "-"]);
    let text = with_lists("our key archive\nkey archive = k9\ndefine gone 7 - = {(1)}\ndefine public + = alma.released union archive.gone");
    refused(&text, 6, ["`archive.gone` is a − definition", "archive.gone", ""]);
    let text = with_lists("define ok + = {(1)}\ndefine public + = alma.released minus ok");
    refused(&text, 6, ["right of `minus` here must be −, and `ok` is a + definition", "ok", "needs a − definition on its right"]);
}

#[test]
fn polarity_is_turned_again_inside() {
    // Under `not in` all must be −; under a `not in` in there, + again.
    let text = with_lists("define d + = { (x) | (x) in alma.released, (x) not in { (y) | (y) in {(1)}, (y) not in alma.safe } }");
    let problem =
        refused(&text, 6, ["`d` is declared +, so what `not in` tests here must be +, and `alma.safe` is a − list", "alma.safe", "put a + list"]);
    assert_eq!(underlined(&text, &problem, 1), "(y)");
    assert_eq!(problem.labels[0].text, "a − list: what it loses, `d` loses");
    accepted(&text.replace("alma.safe", "alma.banned"));
}

#[test]
fn vetting() {
    let text = with_lists("define bad + = alma.banned\ndefine d + = alma.released vetted by bad");
    refused_with(&text, 6, ["`alma.released` must be vetted by a − definition, and `bad` is a + definition", "bad", "declare `bad` with -"], &["+"]);
    refused(&with_lists("define bad + = {}\nquery alma.released vetted by bad"), 6, ["must be vetted by a − definition", "bad", ""]);
    // Its list is +.
    let text = with_lists("define bad - = alma.safe\ndefine d - = alma.released vetted by bad");
    refused(&text, 6, ["so it must be made of − sets, and `alma.released` is a + list", "alma.released vetted by bad", "declare `d` with +"]);
    accepted(&with_lists("define bad - = alma.safe\ndefine d + = alma.released vetted by bad"));
}

#[test]
fn a_query_without_polarity() {
    // Portal case f.
    let problem = refused("query k1.1+ minus k1.1+", 6, ["the query has no polarity", "k1.1+", "`minus` needs a − list"]);
    let labels: Vec<&str> = problem.labels.iter().map(|label| label.text.as_str()).collect();
    assert_eq!(labels, ["`k1.1+` is a + list: what it gains, the table loses", "`k1.1+` is a + list: what it gains, the table gains"]);
    assert_eq!(problem.labels.iter().map(|label| label.span.start).collect::<Vec<_>>(), [18, 6]);

    let text = with_lists("query { (x) | (x) in alma.released, (x) not in alma.banned }");
    refused_with(&text, 6, ["the query has no polarity", "alma.banned", "`not in` needs a − list"], &["alma.released", "(x)", "(x)", "banned = 3 +"]);
    let text = with_lists("query alma.released union alma.withdrawn");
    refused_with(&text, 6, ["the query has no polarity", "alma.withdrawn", "put a + list here"], &["alma.released", "withdrawn = 2 -"]);
    // Literals have both.
    accepted(&with_lists("query alma.withdrawn union {(7)}"));
}

// ---- 7

#[test]
fn a_draw_from_a_minus_list() {
    // Portal case g.
    refused_with(
        "query { (x) | (x) in k1.2- }",
        7,
        ["nothing can be drawn from `k1.2-`", "k1.2-", "draw from a + list and test with `not in`"],
        &["(x)"],
    );
    let text = with_lists("define d - = { (x, y) | (x, y) in alma.withdrawn }");
    refused_with(&text, 7, ["nothing can be drawn from `alma.withdrawn`", "alma.withdrawn", ""], &["(x, y)", "withdrawn = 2 -"]);
}

#[test]
fn a_draw_from_what_is_open() {
    refused("query { (x) | (x) in all but { (7) } }", 7, ["nothing can be drawn from `all but`: it has every row", "all but { (7) }", "`not in`"]);
    refused("query { (x) | (x) in {(1)} union k1.2- }", 7, ["nothing can be drawn from `k1.2-`", "k1.2-", ""]);
    refused("query { (x) | (x) in all but {} minus all but {(1)} }", 7, ["`all but`", "all but {}", ""]);
    // right of minus nothing is asked
    accepted("query { (x) | (x) in k1.1+ minus k1.2- }");
    // a comprehension is never open
    accepted("query { (x) | (x) in { (7) | (8) not in k1.2+ } }");
}

#[test]
fn a_draw_from_an_open_definition() {
    let text = with_lists("define gone - = {(1)} union alma.withdrawn\ndefine all_gone - = gone\nquery { (x) | (x) in all_gone }");
    let said = ["nothing can be drawn from `all_gone`: it is open, by `alma.withdrawn`", "all_gone", "draw from a + list"];
    // what makes it open; where it is drawn; where the list is declared
    refused_with(&text, 7, said, &["alma.withdrawn", "(x)", "withdrawn = 2 -"]);
    let text = "our key k9\ndefine every 7 + = all but {}\nquery { (x) | (x) in k9.7+ }";
    refused(text, 7, ["nothing can be drawn from `k9.7+`: it is open, by `all but`", "k9.7+", ""]);
    let text = "our key k9\ndefine bad - = {}\ndefine every 7 + = all but {}\nquery { (x) | (x) in k9.7+ vetted by bad }";
    refused(text, 7, ["nothing can be drawn from `k9.7+`", "k9.7+ vetted by bad", ""]);
    // a − own name may be drawn from if it is not open
    accepted("our key k9\ndefine few 7 - = {(1)}\nquery { (x) | (x) in k9.7- }");
}

#[test]
fn the_outer_draw_is_said_first() {
    let text = "query { (x) | (x) in {(1)} union { (y) | (y) in k1.2- }, (x) in k1.4- }";
    refused(text, 7, ["`k1.2-`", "k1.2-", ""]);
    let text = "query { (x) | (x) in k1.4- union { (y) | (y) in k1.2- } }";
    refused(text, 7, ["`k1.4-`", "k1.4-", ""]);
}

// ---- 15

#[test]
fn external_policies() {
    let bad = "external\ndefine bad 0 - = k1.5-\n";
    let with = |text: &str| format!("{bad}{text}");
    accepted(&with("define ok + = { (x) | (x) in k2.1+ } union k2.1+ union {(1)}\nquery ok minus k1.2-"));
    refused(&with("define ok + = k2.1+ minus k2.2-"), 15, ["`minus` stands in no external policy", "k2.1+ minus k2.2-", "write it in the query"]);
    refused(
        &with("define ok + = { (x) | (x) in k2.1+, (x) not in k2.2- }"),
        15,
        ["`not in` stands in no external policy", "(x) not in k2.2-", "leave `external` out"],
    );
    refused(&with("define ok + = k2.1+ vetted by bad"), 15, ["`vetted by` stands in no external policy", "bad", "leave it out"]);
    refused(&with("define ok - = {(1)}"), 15, ["every definition is +", "-", "declare it with +"]);
    refused("external\ndefine ok + = {}\ndefine bad 0 - = k1.5-", 15, ["every definition is +", "-", "move `define bad` before all others"]);
    refused("external\ndefine bad - = k1.5-", 15, ["every definition is +", "-", "define bad 0 - = .."]);
    // after 1 to 7, of all definitions
    refused(&with("define a + = k2.1+ minus k2.2-\ndefine b + = k2.2-"), 6, ["`b` is declared +", "k2.2-", ""]);
    // without `external` nothing of this is asked
    accepted("define bad 0 - = k1.5-\ndefine ok + = k2.1+ minus k2.2-");
}

#[test]
fn an_external_policy_that_would_grow_past_8192_words() {
    // Fifteen definitions: a table of 62. The first, 0 −, has 5 words. Six literals of 1,154 words: 6,924, so far 6,991. 1,201 are left, for eight parts of
    // literals of 9 rows and a list: 5, 83 words and 5: 89 each, 712; that is 7,703. The lists, one each, grow by eight words when they are rewritten.
    let parts = |last: usize| {
        let large = (0..6).map(|place| format!("define large{place} + = {}\n", literal(128)));
        let small = (0..7).map(|place| format!("define small{place} + = {} union k2.1+\n", literal(9)));
        let last = format!("define last + = k3.1+ union {}\n", literal(last));
        ["external\ndefine bad 0 - = k1.5-\n".to_string()].into_iter().chain(large).chain(small).chain([last]).collect::<String>()
    };
    // Before the last part: 62 + 5 + 6,924 + 7 × 89 = 7,614 words as written, 7,621 rewritten. The last has 1 + 5 + 2 + 9 a row as written, one more rewritten.
    // 63 rows: 575 words, 8,189 and rewritten 7,621 + 576 = 8,197. 62 rows: 8,180 and 8,188.
    accepted(&parts(62));
    // Rewritten, word 8,192 is word 571 of the last part: 5; 8 and its five words; 1, 63; row r begins at 9 + 9 r. Row 62 begins at 567, its second atom is
    // words 570 and 571: 10,000 + 4 × 62 + 1.
    refused(&parts(63), 15, ["rewritten, a policy has at most 8,192 words, and this one would have 8,197", "10249", ""]);
    // As written it is long enough.
    accepted(&parts(63).replace("external\n", ""));
}

// ---- queries that are asked later

/// The text itself is source 1.
fn ask(policy: &Compiled, text: &str) -> (String, Result<txindurbe_language::Asked, Vec<Problem>>) {
    let mut sources = Sources::default();
    sources.add("policy.qcm", "");
    let source = sources.add("query", text);
    (text.to_string(), policy.ask(&sources, source))
}

#[test]
fn queries_in_a_policys_names() {
    let policy = accepted(&with_lists("define public + = alma.released\nquery {}"));
    let asked = ask(&policy, "{ (x) | (x) in public, (x) in alma.released }").1.expect("it is accepted");
    assert_eq!(asked.verdict, txindurbe::Verdict::Lower);
    let refused = |text: &str, number: Option<u32>, said: [&str; 3]| {
        let (text, result) = ask(&policy, text);
        let problem = only(&text, result.expect_err("it is refused"));
        assert_eq!(problem.labels[0].span.source, 1);
        assert_says(&text, &problem, Severity::Error, number, said);
    };
    refused("publik", Some(4), ["no definition `publik`", "publik", "did you mean `public`?"]);
    refused("public minus alma.banned", Some(6), ["the query has no polarity", "alma.banned", "`minus` needs"]);
    refused("{ (x) | (x) in alma.safe }", Some(7), ["`alma.safe`", "alma.safe", ""]);
}

// ---- 13 and 14, which come while reading

const ALWAYS: Validity = Validity { first: Minute::new(0), end: Minute::new(10) };

fn certified(lists: &[(u32, u16, std::ops::Range<u32>)]) -> Store {
    let mut store = Store::new();
    for (key, name, rows) in lists {
        for row in rows.clone() {
            store.file(&Certificate::listed(Key::new(*key), *name, [row], ALWAYS)).expect("it is filed");
        }
    }
    store
}

/// What is said of the file's own query, with the store and without.
fn refused_while_reading(text: &str, store: &Store, links: &Links) -> (Refusal, Problem, Problem) {
    let compiled = accepted(text);
    let asked = compiled.query().expect("the file has a query");
    let minute = Minute::new(0);
    let refusal = Engine::new().query(compiled.policy(), &asked.query, minute, store, links).expect_err("it is refused");
    (refusal, compiled.explain(Some(asked), &refusal), compiled.explain_over(Some(asked), &refusal, store, links, minute))
}

#[test]
fn a_list_of_129_rows() {
    let store = certified(&[(1, 1, 0..129), (2, 1, 0..3)]);
    let text = with_lists("query { (x) | (x) in k2.released, (x) in alma.released }");
    let (refusal, without, with) = refused_while_reading(&text, &store, &Links::new());
    assert_eq!(refusal, Refusal::TooManyRows(Part::Query));
    assert_says(&text, &without, Severity::Error, Some(13), ["no set lists over 128 rows", "{ (x) | (x) in k2.released, (x) in alma.released }", ""]);
    assert_says(&text, &with, Severity::Error, Some(13), ["`alma.released` lists 129 at this minute", "alma.released", ""]);
}

#[test]
fn a_list_of_129_rows_in_a_definition() {
    let store = certified(&[(1, 1, 0..129)]);
    let text = with_lists("define first + = {(1)}\ndefine d + = { (x) | (x) in first, (x) in alma.released }\nquery first");
    let (refusal, without, with) = refused_while_reading(&text, &store, &Links::new());
    assert_eq!(refusal, Refusal::TooManyRows(Part::Definition(1)));
    assert_says(&text, &without, Severity::Error, Some(13), ["one in `d` would", "{ (x) | (x) in first, (x) in alma.released }", ""]);
    assert_says(&text, &with, Severity::Error, Some(13), ["`alma.released` lists 129", "alma.released", ""]);
}

#[test]
fn rows_that_links_join() {
    let store = certified(&[(1, 1, 0..100), (2, 1, 50..150)]);
    let mut links = Links::new();
    links.file(&Link::containing(Key::new(1), 1, Key::new(2), 1)).expect("it is filed");
    let text = with_lists("query alma.released");
    let (_, _, with) = refused_while_reading(&text, &store, &links);
    assert_says(&text, &with, Severity::Error, Some(13), ["`alma.released` lists 150", "alma.released", ""]);
}

#[test]
fn a_union_of_too_many_rows() {
    let store = certified(&[(1, 1, 0..100), (2, 1, 50..150)]);
    let text = "query { (x) | (x) in k1.1+ union k2.1+, x != 7 }";
    let (_, _, with) = refused_while_reading(text, &store, &Links::new());
    assert_says(
        text,
        &with,
        Severity::Error,
        Some(13),
        ["no set lists over 128 rows, and one in the query would", "k1.1+ union k2.1+", "fewer rows"],
    );
}

#[test]
fn a_list_whose_issuer_is_drawn() {
    let mut store = certified(&[(1, 1, 0..129), (2, 1, 0..3)]);
    for key in [1, 2] {
        store.file(&Certificate::listed(Key::new(8), 3, [Key::new(key)], ALWAYS)).expect("it is filed");
    }
    let text = with_lists("query { (7) | (o) in k8.banned, (7) in o.released }");
    let (_, _, with) = refused_while_reading(&text, &store, &Links::new());
    // o.released cannot be asked for by itself
    assert_says(&text, &with, Severity::Error, Some(13), ["`alma.released` lists 129", "{ (7) | (o) in k8.banned, (7) in o.released }", ""]);
}

#[test]
fn guards_that_are_not_read_are_not_blamed() {
    // Nothing is drawn from k2.1+, so the first k1.1+ is not read.
    let store = certified(&[(1, 1, 0..129)]);
    let text = "query { (x) | (x) in k2.1+, (x) in k1.1+ } union { (x) | (x) in k1.1+ }";
    let (_, _, with) = refused_while_reading(text, &store, &Links::new());
    assert_says(text, &with, Severity::Error, Some(13), ["`k1.1+` lists 129", "k1.1+", ""]);
    assert_eq!(with.labels[0].span.start, text.rfind("k1.1+").expect("it is there"));
}

#[test]
fn an_external_policy_is_read_as_it_is_rewritten() {
    // k2 is not certified as not compromised, so its list of 129 rows is not read.
    let mut store = certified(&[(1, 1, 0..129), (2, 1, 0..129)]);
    store.file(&Certificate::not_listed(Key::new(8), 5, [Key::new(1)], ALWAYS)).expect("it is filed");
    let text = "external\ndefine bad 0 - = k8.5-\ndefine d + = k2.1+ union k1.1+\nquery d";
    let (refusal, _, with) = refused_while_reading(text, &store, &Links::new());
    assert_eq!(refusal, Refusal::TooManyRows(Part::Definition(1)));
    assert_says(text, &with, Severity::Error, Some(13), ["`k1.1+` lists 129", "k1.1+", ""]);
}

#[test]
fn too_many_draws() {
    let hundred = format!("{{ {} }}", (0..100).map(|row| format!("({row})")).collect::<Vec<_>>().join(", "));
    let text = format!("define d + = {hundred}\nquery {{(1)}} union {{ (7) | (_) in d, (_) in d, (_) in d }}");
    let (refusal, without, with) = refused_while_reading(&text, &Store::new(), &Links::new());
    assert_eq!(refusal, Refusal::TooManyDraws(Part::Query));
    assert_says(
        &text,
        &without,
        Severity::Error,
        Some(14),
        ["at most 1,000,000 rows are drawn", "{(1)} union { (7) | (_) in d, (_) in d, (_) in d }", "first"],
    );
    assert_says(&text, &with, Severity::Error, Some(14), ["at most 1,000,000 rows are drawn", "{ (7) | (_) in d, (_) in d, (_) in d }", ""]);
}

// ---- those without a place

#[test]
fn refusals_that_are_about_no_text() {
    let compiled = accepted("query {}");
    let refusals = [
        Refusal::BadStore,
        Refusal::BadCertificate,
        Refusal::StoreFull,
        Refusal::ShortArea,
        Refusal::BadDate,
        Refusal::BadTerm,
        Refusal::BadLink,
        Refusal::LinksFull,
        Refusal::NotAKey,
    ];
    for refusal in refusals {
        let problem = compiled.explain(None, &refusal);
        assert_eq!((problem.refusal, problem.message.as_str()), (Some(refusal.number()), refusal.rule()));
        assert!(problem.labels.is_empty(), "{problem:?}");
    }
}
