//! What `txindurbe query` prints, for people and for programs.

mod support;

use serde_json::{json, Value};
use support::{key, said, said_for, Folder};

const POLICY: &str = "
our key archive
key archive = k9, alma = k1
list released = 1 +, withdrawn = 2 -
define both + = { (o, x) | (o) in { (alma) }, (x) in o.released }
query { (x) | (alma, x) in both }
";

fn folder() -> Folder {
    Folder::with(POLICY, vec![said(1, 1, [7]), said_for(1, 1, [8], 5, 6), said(1, -2, [7, key(1)]), said(1, -2, [key(3)])])
}

/// What is printed for an expression at minute 5.
fn ask(folder: &Folder, expression: &str, more: &[&str]) -> String {
    let ran = folder.run(&[&["query", "a", "p.qcm", "--minute", "5", "--ask", expression], more].concat());
    assert_eq!((ran.status, ran.err.as_str()), (0, ""), "{expression}");
    ran.out
}

fn json(folder: &Folder, expression: &str) -> Value {
    serde_json::from_str(&ask(folder, expression, &["--format", "json"])).expect("it is JSON")
}

#[test]
fn the_files_own_query_and_another() {
    let folder = folder();
    let ran = folder.run(&["query", "a", "p.qcm", "--minute", "5"]);
    assert_eq!(ran.status, 0);
    assert_eq!(
        ran.out,
        "x\n-\n7\n8\n\n2 rows, lower: these rows certainly belong; others may.\nArchive tested, point 4, 2000-01-01 00:05 (minute 5), 5 draws.\n"
    );
    let earlier = folder.run(&["query", "a", "p.qcm", "--minute", "5", "--at", "1"]);
    assert!(
        earlier.out.starts_with("x\n-\n7\n\n1 row, lower: this row certainly belongs; others may.\nArchive tested, point 1, "),
        "{}",
        earlier.out
    );
    let none = folder.run(&["query", "a", "p.qcm", "--minute", "10"]);
    assert!(none.out.starts_with("no rows, lower: no row certainly belongs; some may.\n"), "{}", none.out);
}

#[test]
fn columns_are_called_as_the_head_calls_them() {
    let folder = folder();
    let first_line = |expression: &str| ask(&folder, expression, &[]).lines().next().map(String::from);
    assert_eq!(first_line("both").as_deref(), Some("o     x"));
    assert_eq!(first_line("archive.both").as_deref(), Some("o     x"));
    assert_eq!(first_line("{ (x, 5, k4) | (x) in alma.released }").as_deref(), Some("x  5  k4"));
    // A list has no head, and a row's first atom is not to be read as one.
    assert_eq!(first_line("alma.released").as_deref(), Some("7"));
}

#[test]
fn a_list_is_not_headed_by_our_definition_of_its_name() {
    let policy = "our key k9\nlist public = 10 +\ndefine public + = { (x) | (x) in k1.1+ }\n";
    let folder = Folder::with(policy, vec![said(1, 1, [7]), said(2, 10, [8])]);
    assert!(ask(&folder, "k9.public", &[]).starts_with("x\n-\n7\n"));
    assert!(ask(&folder, "k2.public", &[]).starts_with("8\n"));
}

#[test]
fn excluded_rows_stand_below_what_they_are() {
    let printed = ask(&folder(), "alma.withdrawn", &[]);
    let start = "all rows but\n    7   alma\n    k3\n\nall rows but 2, upper: these rows certainly do not belong; every other row may.\n";
    assert!(printed.starts_with(start), "{printed}");
}

#[test]
fn csv_has_as_many_fields_in_each_line() {
    let folder = folder();
    let csv = |expression| ask(&folder, expression, &["--format", "csv"]);
    assert_eq!(csv("both"), "rows,verdict,o,x\nlisted,lower,alma,7\nlisted,lower,alma,8\n");
    assert_eq!(csv("alma.withdrawn"), "rows,verdict,atom 1,atom 2\nexcluded,upper,7,alma\nexcluded,upper,k3,\n");
    assert_eq!(csv("{}"), "rows,verdict\nnone listed,exact\n");
    assert_eq!(csv("all but {}"), "rows,verdict\nnone excluded,exact\n");
    assert_eq!(csv("{ (x) | (x) in k5.1+ }"), "rows,verdict,x\nnone listed,lower,\n");
}

#[test]
fn json_has_numbers_and_names() {
    let folder = folder();
    let expected = json!({
        "verdict": "upper", "form": "all but", "excluded": [[7, "alma"], ["k3"]],
        "promise": "these rows certainly do not belong; every other row may",
        "draws": 3, "archive": "tested", "point": 4, "minute": 5, "date": "2000-01-01 00:05",
    });
    assert_eq!(json(&folder, "alma.withdrawn"), expected);
    let listed = json(&folder, "{ (2147483647) }");
    assert_eq!((&listed["form"], &listed["rows"], &listed["excluded"]), (&json!("only"), &json!([[2_147_483_647_u32]]), &Value::Null));
}

#[test]
fn a_promise_that_is_not_made_is_refused() {
    let folder = folder();
    let lower = ["alma.released", "{ (7) } minus alma.withdrawn"];
    let upper = ["alma.withdrawn", "{ (7) } minus alma.released"];
    let exact = ["{ (7) }", "all but { (7) }"];
    let fulfilled = [(lower, ["lower"].as_slice()), (upper, ["upper"].as_slice()), (exact, ["lower", "upper", "exact"].as_slice())];
    for (expressions, promises) in fulfilled {
        for (expression, required) in expressions.iter().flat_map(|expression| ["lower", "upper", "exact"].map(|required| (expression, required))) {
            let ran = folder.run(&["query", "a", "p.qcm", "--minute", "5", "--ask", expression, "--require", required]);
            let expected = if promises.contains(&required) { 0 } else { 1 };
            assert_eq!((ran.status, ran.out.is_empty(), ran.err.is_empty()), (expected, expected == 1, expected == 0), "{expression} {required}");
        }
    }
    let ran = folder.run(&["query", "a", "p.qcm", "--minute", "5", "--require", "upper"]);
    assert!(
        ran.err.starts_with("error: the answer would be lower, and not upper or exact: its rows certainly belong, and others may.\n"),
        "{}",
        ran.err
    );
}

#[test]
fn refusals_and_what_cannot_be_read() {
    let folder = Folder::with("key alma = k1\n", (0..129).map(|row| said(1, 1, [row])).collect());
    let status = |arguments: &[&str]| {
        let ran = folder.run(&[&["query", "a", "p.qcm"], arguments].concat());
        assert_eq!(ran.out, "", "{arguments:?}");
        (ran.status, ran.err)
    };
    let (refused, said) = status(&["--ask", "alma.1+", "--minute", "5"]);
    assert_eq!(refused, 1);
    assert!(said.contains("refusal 13") && said.contains("--ask:1:1"), "{said}");
    assert_eq!(status(&["--ask", "alma.1"]).0, 2);
    assert_eq!(status(&["--ask", "{ (x) | (x) in alma.1- }"]).0, 1);
    assert_eq!(status(&[]).0, 2, "the file has no query");
    assert_eq!(status(&["--ask", "{}", "--at", "130"]).0, 2);
    assert_eq!(status(&["--ask", "{}", "--minute", "2027-02-29"]).0, 2);
}
