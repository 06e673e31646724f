//! Each construct read, each mistake at its place.

use super::*;
use crate::syntax::{GuardKind, List, Polarity, Row, StatementKind, Term, TermKind};
use differential::random::Random;

fn sources(text: &str) -> Sources {
    let mut sources = Sources::default();
    sources.add("test.qcm", text);
    sources
}

fn file(text: &str) -> File {
    parse(&sources(text), 0).unwrap_or_else(|problems| panic!("{text}\nis not parsed: {problems:#?}"))
}

fn expression(text: &str) -> Expression {
    parse_expression(&sources(text), 0).unwrap_or_else(|problems| panic!("{text}\nis not parsed: {problems:#?}"))
}

fn problems(text: &str) -> Vec<Problem> {
    match parse(&sources(text), 0) {
        Ok(file) => panic!("{text}\nis parsed as {file:#?}"),
        Err(problems) => problems,
    }
}

// ---- what is read, in a notation of its own

fn shape(expression: &Expression) -> String {
    let rows = |rows: &[Row]| rows.iter().map(|one| format!(" {}", row(one))).collect::<String>();
    match &expression.kind {
        ExpressionKind::Rows(found) => format!("<rows{}>", rows(found)),
        ExpressionKind::AllBut(found) => format!("<all{}>", rows(found)),
        ExpressionKind::Defined(name) => name.text.clone(),
        ExpressionKind::List { issuer, list: found } => format!("<list {} {}>", term(issuer), list(found)),
        ExpressionKind::Vetted { issuer, list: found, by } => format!("<vetted {} {} {}>", term(issuer), list(found), by.text),
        ExpressionKind::Union(left, right) => format!("<union {} {}>", shape(left), shape(right)),
        ExpressionKind::Minus(left, right) => format!("<minus {} {}>", shape(left), shape(right)),
        ExpressionKind::Each { head, guards } => {
            let guards: String = guards.iter().map(|guard| format!(" {}", self::guard(&guard.kind))).collect();
            format!("<each {}{guards}>", row(head))
        }
    }
}

fn guard(guard: &GuardKind) -> String {
    match guard {
        GuardKind::Draw(pattern, set) => format!("<draw {} {}>", row(pattern), shape(set)),
        GuardKind::Absent(absent, set) => format!("<absent {} {}>", row(absent), shape(set)),
        GuardKind::Same(left, right) => format!("<same {} {}>", term(left), term(right)),
        GuardKind::Different(left, right) => format!("<different {} {}>", term(left), term(right)),
    }
}

fn row(row: &Row) -> String {
    row.terms.iter().map(term).collect::<Vec<String>>().join("/")
}

fn term(term: &Term) -> String {
    match &term.kind {
        TermKind::Number(number) => number.to_string(),
        TermKind::Key(number) => format!("key:{number}"),
        TermKind::Named(text) => text.clone(),
        TermKind::Any => "any".to_string(),
    }
}

fn list(list: &List) -> String {
    match list {
        List::Named(name) => name.text.clone(),
        List::Numbered { number, polarity: Polarity::Plus, .. } => format!("{number}plus"),
        List::Numbered { number, polarity: Polarity::Minus, .. } => format!("{number}minus"),
    }
}

#[test]
fn expressions() {
    for (text, expected) in [
        ("{}", "<rows>"),
        ("{ (7) }", "<rows 7>"),
        ("{ (7), (8, alma), (k1, x, _, 0) }", "<rows 7 8/alma key:1/x/any/0>"),
        ("{(2147483647,k2147483647)}", "<rows 2147483647/key:2147483647>"),
        ("all but {}", "<all>"),
        ("all but { (7), (8) }", "<all 7 8>"),
        ("public", "public"),
        ("alma.released", "<list alma released>"),
        ("k1.released", "<list key:1 released>"),
        ("o.2-", "<list o 2minus>"),
        ("o . 2 −", "<list o 2minus>"),
        ("k1.65535+", "<list key:1 65535plus>"),
        ("o.released vetted by compromised", "<vetted o released compromised>"),
        ("o.1+ vetted by bad", "<vetted o 1plus bad>"),
        ("{ (7) | }", "<each 7>"),
        ("{ (x) | (x) in alma.released, x != 7 }", "<each x <draw x <list alma released>> <different x 7>>"),
        ("{ (x, o) | (x) not in o.2-, o = k1 }", "<each x/o <absent x <list o 2minus>> <same o key:1>>"),
        ("{ (x) | (x) in { (y) | (y, _) in public } }", "<each x <draw x <each y <draw y/any public>>>>"),
        // left to right
        ("a union b union c", "<union <union a b> c>"),
        ("a minus b minus c", "<minus <minus a b> c>"),
        ("a union (b union c)", "<union a <union b c>>"),
        ("a minus (b minus c)", "<minus a <minus b c>>"),
        ("(a union b) minus c", "<minus <union a b> c>"),
        ("a union (b minus c)", "<union a <minus b c>>"),
        ("((a)) union (((b)))", "<union a b>"),
        ("{ (x) | (x) in a union b, (x) not in c minus d }", "<each x <draw x <union a b>> <absent x <minus c d>>>"),
        // names that begin as words of the language and keys do
        ("inside union minus_1 union k9a union K9", "<union <union <union inside minus_1> k9a> K9>"),
    ] {
        assert_eq!(shape(&expression(text)), expected, "{text}");
    }
}

#[test]
fn statements() {
    let text = "format 2 external our key archive our key k9\nkey archive = k9, alma = k1\nlist released = 1 +, withdrawn = 2 -\n\
        define public + = alma.released define hidden 10 − = {}\nquery public";
    let kinds: Vec<StatementKind> = file(text).statements.into_iter().map(|statement| statement.kind).collect();
    let [format, external, named, by_key, keys, lists, public, hidden, query] = &kinds[..] else { panic!("{kinds:#?}") };
    assert!(matches!(format, StatementKind::Format { number: 2, .. }));
    assert!(matches!(external, StatementKind::External));
    assert!(matches!(named, StatementKind::OurKey(Term { kind: TermKind::Named(text), .. }) if text == "archive"));
    assert!(matches!(by_key, StatementKind::OurKey(Term { kind: TermKind::Key(9), .. })));
    let StatementKind::Keys(keys) = keys else { panic!("{keys:#?}") };
    assert_eq!(keys.iter().map(|key| (key.name.text.as_str(), key.number)).collect::<Vec<_>>(), [("archive", 9), ("alma", 1)]);
    let StatementKind::Lists(lists) = lists else { panic!("{lists:#?}") };
    let lists: Vec<_> = lists.iter().map(|list| (list.name.text.as_str(), list.number, list.polarity)).collect();
    assert_eq!(lists, [("released", 1, Polarity::Plus), ("withdrawn", 2, Polarity::Minus)]);
    let StatementKind::Define(public) = public else { panic!("{public:#?}") };
    assert_eq!((public.name.text.as_str(), public.number, public.polarity), ("public", None, Polarity::Plus));
    assert_eq!(shape(&public.expression), "<list alma released>");
    let StatementKind::Define(hidden) = hidden else { panic!("{hidden:#?}") };
    assert_eq!((hidden.name.text.as_str(), hidden.number.map(|(number, _)| number), hidden.polarity), ("hidden", Some(10), Polarity::Minus));
    assert!(matches!(query, StatementKind::Query(expression) if shape(expression) == "public"));
}

#[test]
fn a_text_may_be_empty() {
    for text in ["", " \n", "# nothing\n", "\u{feff}"] {
        assert_eq!(file(text).statements, [], "{text:?}");
    }
}

#[test]
fn ends_of_lines_and_a_byte_order_mark() {
    let windows = file("\u{feff}key alma = k1 # south\r\n\r\nquery alma.1+\r\n");
    assert_eq!(windows.statements[0].comments.behind.as_deref(), Some(" south"));
    assert!(windows.statements[1].apart);
}

#[test]
fn everything_has_its_place() {
    let text =
        "our key archive\nlist released = 1 +\ndefine public 10 - = (all but { (7) } union o.2-) minus {}\nquery { (x) | (x) in o.released, x != 7 }";
    let file = file(text);
    let at = |span: Span| &text[span.start..span.end];
    assert_eq!(file.statements.iter().map(|statement| at(statement.span)).collect::<Vec<_>>(), text.lines().collect::<Vec<_>>());
    let StatementKind::OurKey(key) = &file.statements[0].kind else { panic!() };
    assert_eq!(at(key.span), "archive");
    let StatementKind::Lists(lists) = &file.statements[1].kind else { panic!() };
    assert_eq!((at(lists[0].span), at(lists[0].name.span)), ("released = 1 +", "released"));
    let StatementKind::Define(public) = &file.statements[2].kind else { panic!() };
    assert_eq!((at(public.name.span), public.number.map(|(_, span)| at(span)), at(public.polarity_span)), ("public", Some("10"), "-"));
    assert_eq!(at(public.expression.span), "(all but { (7) } union o.2-) minus {}");
    let ExpressionKind::Minus(left, right) = &public.expression.kind else { panic!() };
    // its own, without the parentheses
    assert_eq!((at(left.span), at(right.span)), ("all but { (7) } union o.2-", "{}"));
    let ExpressionKind::Union(all_but, listed) = &left.kind else { panic!() };
    assert_eq!((at(all_but.span), at(listed.span)), ("all but { (7) }", "o.2-"));
    let ExpressionKind::List { issuer, list: List::Numbered { span, .. } } = &listed.kind else { panic!() };
    assert_eq!((at(issuer.span), at(*span)), ("o", "2-"));
    let StatementKind::Query(query) = &file.statements[3].kind else { panic!() };
    let ExpressionKind::Each { head, guards } = &query.kind else { panic!() };
    assert_eq!((at(head.span), at(head.terms[0].span)), ("(x)", "x"));
    assert_eq!(guards.iter().map(|guard| at(guard.span)).collect::<Vec<_>>(), ["(x) in o.released", "x != 7"]);
}

#[test]
fn spans_are_of_their_source() {
    let mut sources = Sources::default();
    sources.add("policy.qcm", "query {}");
    let source = sources.add("query", "public union {}");
    let expression = parse_expression(&sources, source).expect("it is right");
    assert_eq!(expression.span, Span { source: 1, start: 0, end: 15 });
    let source = sources.add("wrong", "public public");
    let problems = parse_expression(&sources, source).expect_err("it is wrong");
    assert_eq!(problems[0].labels[0].span, Span { source: 2, start: 7, end: 13 });
}

// ---- comments

/// Each with what it is given to.
fn given(text: &str) -> Vec<(&'static str, Vec<String>, Option<String>)> {
    let file = file(text);
    let mut found = Vec::new();
    let mut give = |to, comments: &Comments| {
        if comments != &Comments::default() {
            found.push((to, comments.before.iter().map(|comment| comment.text.clone()).collect(), comments.behind.clone()));
        }
    };
    for statement in &file.statements {
        give("statement", &statement.comments);
        match &statement.kind {
            StatementKind::Keys(declared) => declared.iter().for_each(|declaration| give("key", &declaration.comments)),
            StatementKind::Query(expression) => give_inside(expression, &mut give),
            _ => {}
        }
    }
    found
}

fn give_inside(expression: &Expression, give: &mut impl FnMut(&'static str, &Comments)) {
    give("set", &expression.comments);
    match &expression.kind {
        ExpressionKind::Rows(rows) | ExpressionKind::AllBut(rows) => rows.iter().for_each(|row| give("row", &row.comments)),
        ExpressionKind::Union(left, right) | ExpressionKind::Minus(left, right) => {
            give_inside(left, give);
            give_inside(right, give);
        }
        ExpressionKind::Each { head, guards } => {
            give("head", &head.comments);
            for guard in guards {
                give("guard", &guard.comments);
                if let GuardKind::Draw(_, set) | GuardKind::Absent(_, set) = &guard.kind {
                    give_inside(set, give);
                }
            }
        }
        _ => {}
    }
    give("end", &Comments { before: expression.comments_at_end.clone(), behind: None });
}

#[test]
fn comments_are_given_to_what_they_stand_beside() {
    let one = |to, before: &[&str], behind: Option<&str>| (to, before.iter().map(|text| text.to_string()).collect(), behind.map(String::from));
    for (text, expected) in [
        ("#a\n#b\nexternal #c\n", vec![one("statement", &["a", "b"], Some("c"))]),
        // inside, where nothing smaller takes it
        ("our #a\nkey #b\nk1", vec![one("statement", &["a"], Some("b"))]),
        ("our #a\nkey\n#b\nk1", vec![one("statement", &["a", "b"], None)]),
        (
            "key #a\nx #b\n= k1, #c\n#d\ny = k2 #e\n",
            vec![one("statement", &[], Some("e")), one("key", &["a", "b"], Some("c")), one("key", &["d"], None)],
        ),
        ("query { (7), #a\n#b\n(8) #c\n}", vec![one("row", &[], Some("a")), one("row", &["b"], Some("c"))]),
        (
            "query { #a\n(7), (8, #b\n9)\n#c\n} #d",
            vec![one("statement", &[], Some("d")), one("row", &["a"], None), one("row", &[], Some("b")), one("end", &["c"], None)],
        ),
        ("query { #a\n}", vec![one("end", &["a"], None)]),
        (
            "query { (x) #a\n| #b\n(x) in y, #c\n#d\nx = 7 #e\n}",
            vec![one("head", &["a"], Some("b")), one("guard", &[], Some("c")), one("guard", &["d"], Some("e"))],
        ),
        ("query #a\nx #b\nunion #c\ny #d\n", vec![one("statement", &[], Some("d")), one("set", &["a"], Some("b")), one("set", &["c"], None)]),
        ("query x\n#a\nunion y", vec![one("set", &["a"], None)]),
        ("query ( #a\nx minus y #b\n) #c\nunion z", vec![one("set", &["b"], Some("c")), one("set", &["a"], None)]),
    ] {
        assert_eq!(given(text), expected, "{text}");
    }
}

#[test]
fn a_comment_behind_a_comma_is_the_guards_before_it() {
    let text = "query { (x) |\n (x) in released, # what they released\n (x) not in withdrawn # and kept\n}";
    let StatementKind::Query(query) = &file(text).statements[0].kind else { panic!() };
    let ExpressionKind::Each { guards, .. } = &query.kind else { panic!() };
    let behind: Vec<Option<&str>> = guards.iter().map(|guard| guard.comments.behind.as_deref()).collect();
    assert_eq!(behind, [Some(" what they released"), Some(" and kept")]);
}

#[test]
fn empty_lines_are_noted() {
    let file = file("#a\n\n#b\nexternal\n\n \nformat 2\nquery {}\n\n#c\n#d\n\n");
    assert_eq!(file.statements.iter().map(|statement| statement.apart).collect::<Vec<_>>(), [false, true, false]);
    let apart = |comments: &[Comment]| comments.iter().map(|comment| (comment.text.clone(), comment.apart)).collect::<Vec<_>>();
    assert_eq!(apart(&file.statements[0].comments.before), [("a".to_string(), false), ("b".to_string(), true)]);
    assert_eq!(apart(&file.comments_at_end), [("c".to_string(), true), ("d".to_string(), false)]);
}

// ---- mistakes

/// A text in which the first place is marked by « and », the second by ‹ and ›.
struct Marked {
    text: String,
    places: Vec<(usize, usize)>,
}

fn marked(text: &str) -> Marked {
    let mut found = Marked { text: String::new(), places: Vec::new() };
    let (mut first, mut second) = ((0, 0), None);
    for letter in text.chars() {
        let here = found.text.len();
        match letter {
            '«' => first.0 = here,
            '»' => first.1 = here,
            '‹' => second = Some((here, here)),
            '›' => second = second.map(|(start, _)| (start, here)),
            _ => found.text.push(letter),
        }
    }
    found.places = [Some(first), second].into_iter().flatten().collect();
    found
}

/// One mistake: the rule, what is said of its place, the mend.
fn says(text: &str, rule: &str, label: &str, mend: &str) {
    let marked = marked(text);
    let found = problems(&marked.text);
    let [problem] = &found[..] else { panic!("{text}\n{found:#?}") };
    assert_eq!((problem.message.as_str(), problem.labels[0].text.as_str()), (rule, label), "{text}");
    let places: Vec<(usize, usize)> = problem.labels.iter().map(|label| (label.span.start, label.span.end)).collect();
    assert_eq!(places, marked.places, "{text}\n{problem:#?}");
    assert_eq!(problem.mends, [mend], "{text}");
}

#[test]
fn rows_without_parentheses() {
    let rule = "a row is written in parentheses";
    let label = "without parentheses";
    says("query { (x) | «x» in alma.released }", rule, label, "write `(x)`");
    says("query { (x) | «o, x» in public }", rule, label, "write `(o, x)`");
    says("query { (x) | «x» not in public, x != 7 }", rule, label, "write `(x)`");
    says("query { «o, x» | (o, x) in public }", rule, label, "write `(o, x)`");
    says("query { «7», 8, 9 }", rule, label, "write `(7)`"); // once for all of them
    says("query { (6), «7», 8 }", rule, label, "write `(7)`");
    says("query all but { «k1» }", rule, label, "write `(k1)`");
    says("query «(7, 8)»", "a set is expected, and rows are a set only in braces", "a row", "write `{ (7, 8) }`");
    says("query { (x) | (x) in «(x, y)» }", "a set is expected, and rows are a set only in braces", "a row", "write `{ (x, y) }`");
    says("query { «()» }", "a row has 1 to 4 atoms", "has none", "write a row as `(7)`, the empty set as `{}`");
    assert_eq!(problems("query { () }")[0].refusal, Some(3));
}

#[test]
fn numbers() {
    let rule = "numbers go up to 2,147,483,647; keys are written k and their number";
    says("query { («2147483648») }", rule, "too large for a number", "write `k0` if the key of this word is meant");
    says("query { («4294967295») }", rule, "too large for a number", "write `k2147483647` if the key of this word is meant");
    says("query { («4294967296») }", rule, "too large for a number", "an atom is one word: write a smaller number");
    says("query { («99999999999999999999999») }", rule, "too large for a number", "an atom is one word: write a smaller number");
    let rule = "keys are k0 to k2147483647";
    says("query { («k2147483649») }", rule, "no key", "write `k1` if the key of the word 2147483649 is meant");
    says("key a = «k4294967296»", rule, "no key", "write a smaller number");
    let rule = "numbers go up to 2,147,483,647";
    says("list a = «2147483648» +", rule, "too large", "the number of a list or definition is 0 to 65,535");
    says("query a.«2147483648»+", rule, "too large", "the number of a list or definition is 0 to 65,535");
    says("define a «4294967296» + = {}", rule, "too large", "the number of a list or definition is 0 to 65,535");
    let rule = "a number does not begin with 0";
    says("query { (1,«000») }", rule, "written with a 0 too many", "write `0`; a thousand is `1000`, without a comma");
    says("query { («k07») }", rule, "written with a 0 too many", "write `k7`; a thousand is `1000`, without a comma");
    says("query { («1_000») }", "a number is written with digits alone", "not a number", "write `1000`");
    says("query { («-5») }", "numbers have no sign, and none is below 0", "signed", "write the number alone");
}

#[test]
fn signs() {
    let rule = "a list has a sign: the + list and the − list of one number are two lists";
    let mend = "write `released = 1 +` if its certificates say that a row is in the list, `released = 1 -` if they say that it is not";
    says("list released = 1«»", rule, "the sign is missing here", mend);
    says("list released = 1«», withdrawn = 2 -\nquery {}", rule, "the sign is missing here", mend);
    says("query alma.2«» union {}", rule, "the sign is missing here", "write `2+` or `2-`");
    let rule = "a definition says its polarity";
    says("define a«» = {}", rule, "the sign is missing here", "write `define a + =` for rows that certainly belong, `define a - =` for all that may");
    let rule = "a sign stands behind its number";
    let mend = "write the number, then the sign: `1 +`";
    says("list a «+» = ‹1›", rule, "the sign", mend);
    says("list a = «-» ‹1›", rule, "the sign", mend);
    says("define a «+» ‹10› = {}", rule, "the sign", mend);
    let rule = "a list's sign is said where it is declared";
    says("query alma.released«-»", rule, "not behind its name", "take it out, or write the list's number before it");
    let rule = "sets are joined by `union` and `minus`";
    says("query alma.released «-» vla.released", rule, "not a sign", "write `minus`");
    says("query { (x) | (x) in a «+» { (7) } }", rule, "not a sign", "write `union`");
}

#[test]
fn commas() {
    says("key a = k1«» b = k2", "declarations are separated by commas", "a comma is missing here", "write `,`");
    says("list a = 1 +«»\n b = 2 +", "declarations are separated by commas", "a comma is missing here", "write `,`");
    says("query { (x) | (x) in a«»\n (x) in b }", "guards are separated by commas", "a comma is missing here", "write `,`");
    says("query { (x) | (x) in a«» x != 7 }", "guards are separated by commas", "a comma is missing here", "write `,`");
    says("query { (7)«» (8) }", "rows are separated by commas", "a comma is missing here", "write `,`");
    says("query { (7«» 8) }", "terms are separated by commas", "a comma is missing here", "write `,`");
    let rule = "a comma stands between two things, and not behind the last one";
    says("key a = k1«,»\nquery {}", rule, "nothing follows", "take it out");
    says("query { (7)«,» }", rule, "nothing follows", "take it out");
    says("query { (7«,») }", rule, "nothing follows", "take it out");
    says("query { (x) | (x) in a«,» }", rule, "nothing follows", "take it out");
    let rule = "rows, guards and declarations are separated by commas";
    says("query { (7)«;» (8) }", rule, "not `;`", "write `,`");
    says("key a = k1«;» b = k2", rule, "not `;`", "write `,`");
    says("key a = k1«;»\nquery {}", "nothing stands between two statements", "not `;`", "take it out");
    says("query {}«;»", "nothing stands between two statements", "not `;`", "take it out");
    let rule = "a comma or `}` is expected";
    says("query ‹{› (x) | (x) in alma «released» }", rule, "not `released`", "a key's list is written with a dot, `alma.released`");
    says("query ‹{› (7) «=» }", rule, "not `=`", "write `}` before it");
    let mend = "a row has numbers, which are whole, keys and names, and no lists";
    says("query { ‹(›7«.»8) }", "a comma or `)` is expected", "not `.`", mend);
    says("query { (7) «and» (8) }", "rows are separated by commas", "not `and`", "write `,`");
}

#[test]
fn words_and_signs_of_other_languages() {
    says("query { (x) | x «==» 7 }", "same is written with one `=`", "not `==`", "write `=`");
    for sign in ["<>", "/=", "≠"] {
        says(&format!("query {{ (x) | x «{sign}» 7 }}"), "different is written `!=`", &format!("not `{sign}`"), "write `!=`");
    }
    let rule = "guards are separated by commas, and all of them must pass";
    says("query { (x) | (x) in a «and» (x) in b }", rule, "not `and`", "write `,`");
    says("query { (x) | x = 7 «AND» (x) in b }", rule, "not `AND`", "write `,`");
    for sign in ["&&", "&", "∧"] {
        says(&format!("query {{ (x) | (x) in a «{sign}» (x) in b }}"), rule, &format!("not `{sign}`"), "write `,`");
    }
    let mend = "write one comprehension for each and join them: `{ .. } union { .. }`";
    says("query { (x) | (x) in a «or» (x) in b }", "all guards of a comprehension must pass", "guards cannot be alternatives", mend);
    says("query { (x) | (x) «∈» a }", "a draw is written with `in`", "not `∈`", "write `in`");
    says("query { (x) | (x) «∉» a }", "absent is written with `not in`", "not `∉`", "write `not in`");
    says("query a «∪» b", "both together are written with `union`", "not `∪`", "write `union`");
    says("query a «\\» b", "the difference is written with `minus`", "not `\\`", "write `minus`");
    says("query alma«$»released", "a key's list is written with a dot", "not `$`", "write `.`");
    says("list a = 1 «–»", "the sign of a − list is written `-`", "not `–`", "write `-`");
    says("key alma«:» k1", "what a name stands for comes behind `=`", "not `:`", "write `=`");
    says("key alma «:=» k1", "what a name stands for comes behind `=`", "not `:=`", "write `=`");
    let rule = "an expression ends here, or goes on with `union` or `minus`";
    says("query a «and» b", rule, "not `and`", "for the rows that are in both write `{ (x) | (x) in .., (x) in .. }`");
    says("query a «&» b", rule, "not `&`", "for the rows that are in both write `{ (x) | (x) in .., (x) in .. }`");
    says("query a «or» b", rule, "not `or`", "for the rows of both write `union`");
    says("query a «except» b", rule, "not `except`", "for the rows of one that are not in the other write `minus`");
    says("query a «|» b", rule, "not `|`", "for the rows of both write `union`; a comprehension stands in braces: `{ (x) | (x) in .. }`");
    says(
        "query { (7) } «vetted» by b",
        rule,
        "not `vetted`",
        "only a key's list is vetted, and each by itself: `alma.released vetted by compromised`",
    );
    says("query a«,» b", rule, "not `,`", "sets are joined by `union`");
    says("query alma «released»", rule, "not `released`", "a key's list is written with a dot, `alma.released`");
    says("query (x) «in» a", rule, "not `in`", "guards stand in a comprehension: `{ (x) | (x) in alma.released, x != 7 }`");
    says("query {} «{» (7) }", rule, "not `{`", "sets are joined by `union`");
    says("query {}«}»", rule, "not `}`", "nothing is open that it could close: take it out");
    says("query «\"alma\"».released", "names are written without quotes, and there are no other texts", "in quotes", "leave the quotes out");
    says("query {} «// all»", "a comment begins with `#` and goes to the end of the line", "read as a comment", "begin it with `#`");
    says("query {} «UNION» a", rule, "not `UNION`", "the words of the language are written in small letters: `union`");
}

#[test]
fn characters_that_are_none_of_ours() {
    let rule = "a text has names, numbers, keys, `{ } ( ) | , . = != + -` and comments behind `#`";
    says("query { (x) | (x) in a «§» b }", rule, "`§` is none of ours", "take it out");
    says("«§§»", rule, "`§§` is none of ours", "take it out");
    let rule = "atoms are not ordered: a guard can only say that they are the same or different";
    says("query { (x) | x «<» 7 }", rule, "`<` is none of ours", "write `=` or `!=`");
    let rule = "not is written `not in` for rows and `!=` for terms";
    says("query { (x) | «!» (x) in a }", rule, "`!` is none of ours", "write `(x) not in ..` or `x != ..`");
    let rule = "a name is written with the letters a to z and A to Z, digits and `_`";
    says("query «señal»", rule, "has other letters", "spell it with those");
    says("query { («7x») }", "a name begins with a letter", "neither a name nor a number", "begin it with a letter");
}

#[test]
fn names_that_cannot_be() {
    let rule = "`list` is a word of the language and cannot be a name";
    for text in [
        "list «list» = 1 +",
        "key «list» = k1",
        "define «list» + = {}",
        "query «list»",
        "query alma.«list»",
        "query { («list») }",
        "query «list».released",
    ] {
        says(text, rule, "not a name", "take another name, as `list_1`");
    }
    says("query { (x) | (x) in a, «list» != x }", rule, "not a name", "take another name, as `list_1`");
    for text in ["key «k9» = k1", "list «k9» = 1 +", "define «k9» + = {}"] {
        says(text, "`k9` is always that key and cannot be the name of something else", "a key", "take a name that is not k and digits alone");
    }
    says("key «_» = k1", "`_` is no name", "stands for any atom, in the pattern of a draw", "begin the name with a letter");
}

#[test]
fn declarations() {
    says("key a = «5»", "a key is written k and its number", "a number", "write `k5`");
    says("key a = «2147483653»", "a key is written k and its number", "a number", "write `k5`, which is this word");
    says("key a = «K5»", "a key is written k and its number", "a capital K", "write `k5`");
    says("key a = «b»", "a key is written k and its number", "not `b`", "write `key alma = k1`");
    says("key a«» k1", "a key's name is followed by `=` and the key", "`=` is missing here", "write `key alma = k1`");
    says("key «=» k1", "`key` is followed by a name", "not `=`", "write `key alma = k1`");
    says("key a = k1 «and» b = k2", "behind a key comes a comma and another one, or the next statement", "not `and`", "write `,` between two keys");
    says("define «+» = {}", "`define` is followed by a name", "not `+`", "write `define public + = ..`");
    says("list a = «k1» +", "a list has a number from 0 to 65,535", "not `k1`", "write `list released = 1 +`");
    says("list a«» 1 +", "a list's name is followed by `=`, its number and its sign", "`=` is missing here", "write `list released = 1 +`");
    says("define a +«» {}", "a definition's sign is followed by `=` and what it stands for", "`=` is missing here", "write `define public + = ..`");
    let mend = "write `define public + = ..`, or with its number `define public 10 + = ..`";
    says("define a «{»}", "a definition's name is followed by its sign and `=`", "not `{`", mend);
    says("format «=» 2", "`format` is followed by 1 or 2", "not `=`", "write `format 1` or `format 2`");
    says("external «policy»", "behind `external` comes the next statement", "not `policy`", "take it out");
    says("«our» archive", "our key is said by `our key` and the key", "`key` is missing behind this", "write `our key archive`");
    says("our key «=» k9", "`our key` is followed by the key, without `=`", "not `=`", "take it out: `our key archive`");
    let mend = "write `our key archive`, and `key archive = ..` for its number";
    says("our key «archive = k9»", "`our key` says which key is ours, not what a name stands for", "a declaration", mend);
    says("query «=» {}", "`query` is followed by what is asked for, without `=`", "not `=`", "take it out");
}

#[test]
fn statements_that_do_not_begin() {
    let rule = "a statement begins with `format`, `external`, `our key`, `key`, `list`, `define` or `query`";
    let mend = "write `key alma = ..` for a key, `list alma = ..` for a list, `define alma + = ..` for a definition";
    says("«alma» = k1\nquery {}", rule, "`alma` begins none", mend);
    says("query {}\n«)»", rule, "`)` begins none", "nothing is open that it could close: take it out");
    says("query {}\n«alma»", rule, "`alma` begins none", "begin it with one of these, or take it out");
    says("«{» (7) }", rule, "`{` begins none", "write `query` before what is asked for, `define public + =` before what is defined");
    says("«Query» {}", rule, "`Query` begins none", "the words of the language are written in small letters: `query`");
    says("«7»", rule, "`7` begins none", "begin it with one of these, or take it out");
}

#[test]
fn brackets_that_are_not_closed() {
    let rule = "a brace that is opened must be closed";
    says("define a + = «{» (x) | (x) in b.c‹›\nquery a", rule, "opened here", "write `}`");
    says("query «{» (7)‹›", rule, "opened here", "write `}`");
    let rule = "a parenthesis that is opened must be closed";
    says("query «(»a union b‹›", rule, "opened here", "write `)`");
    let mend = "write its terms in parentheses: `(7)`, `(alma, x)`";
    says("query ‹{›«»", "a row is expected", "the text ends here", mend);
    says("query ‹{› (7),\n«query» {}", "a row is expected", "the next statement begins here", mend);
    let mend = "write a number, a key, `k1`, or the name of a key or a variable";
    says("query { ‹(›7,«»", "a term is expected", "the text ends here", mend);
    let mend = "write rows, `{ (7) }`, a definition's name, or a key's list, `alma.released`";
    says("query ‹{› (x) | (x) in«»", "a set is expected", "the text ends here", mend);
    says("query { «(»7‹›\nexternal", rule, "opened here", "write `)`");
    says("query { ‹(›x «}»", "a comma or `)` is expected", "not `}`", "write `)` before it");
    says("query { ‹(›x «|» (x) in a }", "a comma or `)` is expected", "not `|`", "write `)` before it");
    says("query ‹(›a «}»", "`union`, `minus` or `)` is expected", "not `}`", "write `)` before it");
    says("query «[» (7) }", "sets stand in braces, rows in parentheses", "not `[`", "write `{` for a set, `(` for a row");
}

#[test]
fn comprehensions() {
    let rule = "`|` stands between a comprehension's head and its guards";
    says("query { (x)«» (x) in a }", rule, "`|` is missing here", "write `|`");
    says("query { (x)«» x != 7 }", rule, "`|` is missing here", "write `|`");
    says("query { (x) «:» (x) in a }", rule, "not `:`", "write `|`");
    says("query { «(x), (x)» in a }", rule, "separated by a comma", "write `|` behind the head");
    says("query { (x) | (x) in a «|» (x) in b }", "guards are separated by commas", "a second `|`", "write `,`");
    let mend = "write the row to be shown: `{ (x) | (x) in .. }`";
    says("query { «|» (x) in a }", "a comprehension has a row before `|`, its head", "nothing stands before this", mend);
    let mend = "write the row to be shown before it: `{ (o, x) | (o, x) in .. }`";
    says("query { «(o, x)» in a }", "a comprehension has a row and `|` before its guards, its head", "a guard begins here", mend);
    let mend = "write one row, as `{ (o, x) | .. }`, or join comprehensions by `union`";
    says("query { «(x), (y)» | (x, y) in a }", "a comprehension has one row before `|`, its head", "several rows", mend);
    says(
        "query «all» { (7) }",
        "all rows but some are written `all but { (7) }`",
        "`but` is missing behind this",
        "write `all but`; all rows are `all but {}`",
    );
    let rule = "`all but` is followed by rows, and not by a comprehension";
    says("query «all but { (x) | (x) in a }»", rule, "a comprehension", "write `all but {} minus { .. | .. }`");
    says("query all but «a»", "`all but` is followed by rows in braces", "not `a`", "write `all but { (7) }`");
}

#[test]
fn guards() {
    says("query { (x) | (x) «not» a }", "`not` is followed by `in`", "`in` is missing behind this", "write `not in`");
    says("query { (x) | (x) «in not» a }", "absent is written `not in`", "the wrong way round", "write `not in`");
    let mend = "write `(x) not in ..`, or `x != ..` to compare terms";
    says("query { (x) | «not» (x) in a }", "`not` stands behind the row, before `in`", "before the row", mend);
    let mend = "write the terms without parentheses, as `x != 7`, and each pair by a guard of its own";
    says("query { (x) | «(x)» = 7 }", "`=` and `!=` compare two terms, not rows", "a row", mend);
    says("query { (x) | x != «(7)» }", "`=` and `!=` compare two terms, not rows", "a row", mend);
    let rule = "`=` and `!=` compare two terms, not sets";
    says("query { (x) | x = «a.b» }", rule, "a list", "write `(x) in a.b` or `(x) not in a.b`");
    says("query { (x) | «a.b» }", "a guard on a set has a row before it", "a list alone", "write `(x) in a.b` or `(x) not in a.b`");
    let mend = "write `(x) in ..`, `(x) not in ..`, `x = 7` or `x != 7`";
    says("query { (x) | x «}»", "a guard is expected", "not `}`", mend);
    says("query { (x) | «{»} }", "a guard is expected", "not `{`", mend);
    let rule = "a row in a guard is followed by `in` or `not in` and a set";
    says("query { (x) | (x) «a» }", rule, "not `a`", "write `(x) in ..` or `(x) not in ..`");
}

#[test]
fn sets() {
    let mend = "write rows, `{ (7) }`, a definition's name, or a key's list, `alma.released`";
    says("query«»", "a set is expected", "the text ends here", mend);
    says("define a + =\n«query» {}", "a set is expected", "the next statement begins here", mend);
    says("query { (x) | (x) in «}»", "a set is expected", "not `}`", mend);
    says("query «k1»", "a set is expected", "a key", "write a list of its, `k1.released`, or the row alone, `{ (k1) }`");
    says("query «7»", "a set is expected", "a number", "write `{ (7) }` for the set of this row");
    let mend = "write `a.b` without braces, or `{ (x) | (x) in a.b }`";
    says("query { «a.b» }", "braces hold rows, and a list is a set already", "a list", mend);
    let mend = "write `a.2-` without braces, or `{ (x) | (x) in a.2- }`";
    says("query { «a.2-» }", "braces hold rows, and a list is a set already", "a list", mend);
    let mend = "write its name, `alma.released`, or its number and sign, `alma.1+`";
    says("query alma.«{»}", "behind a key's dot comes its list", "not `{`", mend);
    let mend = "write `(a union b) minus c` or `a union (b minus c)`";
    says("query a ‹union› b «minus» c", "`union` and `minus` side by side need parentheses", "`minus`", mend);
    let mend = "write `(a minus b) union c` or `a minus (b union c)`";
    says("query { (x) | (x) in a ‹minus› b «union» c }", "`union` and `minus` side by side need parentheses", "`union`", mend);
}

#[test]
fn vetting() {
    says("query o.1+ «vetted» bad", "a list is vetted by a definition", "`by` is missing behind this", "write `vetted by`");
    let mend = "write `o.released vetted by compromised`";
    says("query o.1+ vetted by «k9».bad", "a list is vetted by a definition, written by its name alone", "not `k9`", mend);
    says("query o.1+ vetted «{»}", "`vetted` is followed by `by` and a definition's name", "not `{`", mend);
    let mend = "vet the lists that the definition reads: `o.released vetted by compromised`";
    says("query public «vetted» by bad", "only a key's list is vetted, not a definition", "`public` is no key's list", mend);
}

#[test]
fn many_mistakes_in_one_run() {
    let text = "key a = 5\nlist b = 1\nfoo bar\ndefine c + = { (x) | (x) in }\nquery { 7 (8) | x == 7 }\nquery";
    let found: Vec<(usize, String)> = problems(text).into_iter().map(|problem| (problem.labels[0].span.start, problem.message)).collect();
    let places: Vec<usize> = found.iter().map(|(place, _)| *place).collect();
    let rules: Vec<&str> = found.iter().map(|(_, rule)| rule.as_str()).collect();
    assert_eq!(
        rules,
        [
            "a key is written k and its number",
            "a list has a sign: the + list and the − list of one number are two lists",
            "a statement begins with `format`, `external`, `our key`, `key`, `list`, `define` or `query`",
            "a set is expected",
            "a row is written in parentheses",
            "a comprehension has one row before `|`, its head",
            "rows are separated by commas",
            "same is written with one `=`",
            "a set is expected",
        ]
    );
    assert!(places.is_sorted());
}

#[test]
fn a_word_that_is_no_statement_does_not_end_one() {
    // `key` is taken for a name; the statement goes on behind it.
    let found = problems("query { (key) | (key) in a,\n    key != 7 }\nlist b = 1");
    let rules: Vec<&str> = found.iter().map(|problem| problem.message.as_str()).collect();
    assert_eq!(rules[..3], ["`key` is a word of the language and cannot be a name"; 3]);
    assert_eq!(rules[3..], ["a list has a sign: the + list and the − list of one number are two lists"]);
}

#[test]
fn only_one_expression_is_asked() {
    let wrong = |text: &str| parse_expression(&sources(text), 0).expect_err("it is wrong").remove(0);
    assert_eq!(wrong("").message, "a set is expected");
    assert_eq!(wrong("a query b").labels[0].text, "not `query`");
    assert_eq!(wrong("query a").labels[0].span.start, 0);
    let commented = expression("#a\nx union y #b\n#c\n");
    assert_eq!(shape(&commented), "<union x y>");
}

// ---- what nobody writes

#[test]
fn deep_nesting_is_refused() {
    let deep = |open: &str, close: &str, count: usize| format!("query {}x{}", open.repeat(count), close.repeat(count));
    type Nested = fn(usize) -> String;
    let cases: [(&str, Nested); 7] = [
        ("parentheses", |count| format!("{}x{}", "(".repeat(count), ")".repeat(count))),
        ("comprehensions", |count| format!("{}x{}", "{ (y) | (y) in ".repeat(count), " }".repeat(count))),
        ("unions to the right", |count| format!("{}x{}", "(x union ".repeat(count), ")".repeat(count))),
        ("unions to the left", |count| format!("x{}", " union x".repeat(count))),
        // not so many brackets, but 40 operands behind each: it is the tree that is deep
        ("unions behind parentheses", |count| format!("{}x{}", "(".repeat(count / 40), format!("){}", " minus x".repeat(40)).repeat(count / 40))),
        ("unions behind a union in parentheses", |count| {
            format!("{}x{}", "x union (".repeat(count / 40), format!("){}", " union x".repeat(40)).repeat(count / 40))
        }),
        ("unions behind comprehensions", |count| {
            format!("{}x{}", "{ (y) | (y) in ".repeat(count / 40), format!(", (y) in x }}{}", " union x".repeat(40)).repeat(count / 40))
        }),
    ];
    for (what, text) in cases {
        expression(&text(40));
        for count in [1_000, 100_000] {
            let problems = parse_expression(&sources(&text(count)), 0).expect_err(what);
            let [problem] = &problems[..] else { panic!("{what}: {}", problems.len()) };
            assert_eq!(problem.refusal, None, "{what}");
            assert_eq!(problem.message, "an expression stands at depth 15 at most, each one directly inside another one deeper");
            assert_eq!(problem.labels[0].text, "over 50 stand inside one another here");
        }
    }
    // what is left of the statement is skipped
    assert_eq!(problems(&(deep("(", ")", 1_000) + "\nlist a = 1")).len(), 2);
    // what is never closed is not read to its end either
    assert_eq!(problems(&deep("{ (y) | (y) in ", "", 100_000)).len(), 1);
}

#[test]
fn long_texts_are_read_once() {
    // Quadratic reading would take minutes.
    let many = |one: &str| one.repeat(50_000);
    assert_eq!(shape(&expression(&format!("{{ {}(7) }}", many("(7), ")))).len(), "<rows 7>".len() + 2 * 50_000);
    for text in
        [many("7, "), many("(7) "), many("x, "), many("( "), many("} "), many("key "), many("{ (x) | "), many("§ "), many("a = "), many("x in ")]
    {
        for text in [format!("query {{ {text}"), format!("query {{ (x) | {text}"), text] {
            assert!(parse(&sources(&text), 0).is_err());
        }
    }
}

#[test]
fn any_text_at_all_is_read_or_complained_of() {
    let seed = 2_027;
    println!("seed {seed}");
    let mut random = Random::new(seed);
    let words = "format external our key list define query union minus all but in not vetted by { } ( ) | , . = != + - # \n ; : == alma x k1 k9 7 _ § \" 2147483648";
    let words: Vec<&str> = words.split(' ').collect();
    let right =
        "format 2 our key archive key archive = k9 , alma = k1 list released = 1 + define public 10 + = { ( o , x ) | ( x ) in o . released , \
        ( x ) not in all but { ( 7 ) , ( 8 ) } union o . 2 - , o != alma } query alma . released vetted by public minus ( public union { } )";
    let right: Vec<&str> = right.split(' ').collect();
    let mut wrong = 0;
    for case in 0..20_000 {
        let mut text: Vec<&str> = right.clone();
        for _ in 0..random.between(0, 3) + if case % 10 == 0 { 60 } else { 0 } {
            let (place, other) = (random.below(text.len()), random.below(text.len()));
            match random.below(4) {
                0 if text.len() > 1 => drop(text.remove(place)),
                1 => text[place] = random.pick(&words),
                2 => text.swap(place, other),
                _ => text.insert(place, random.pick(&words)),
            }
        }
        let text = text.join(random.pick(&[" ", "", "\n"]));
        let Err(problems) = parse(&sources(&text), 0) else { continue };
        wrong += 1;
        assert!(!problems.is_empty(), "{text}");
        for problem in problems {
            assert!(!problem.message.is_empty() && !problem.labels.is_empty() && !problem.mends.is_empty(), "{text}\n{problem:#?}");
            for label in &problem.labels {
                let span = label.span;
                assert!(span.start <= span.end && text.get(span.start..span.end).is_some() && !label.text.is_empty(), "{text}\n{problem:#?}");
            }
        }
    }
    assert!(wrong > 10_000, "{wrong}");
}
