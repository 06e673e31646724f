//! A table cited, and had again.

mod support;

use support::{said, Folder, Ran};

const POLICY: &str = "key alma = k1\nlist released = 1 +, withdrawn = 2 -\ndefine public + = { (x) | (x) in alma.released, (x) not in alma.withdrawn }\nquery public\n";

/// A folder with a citation `c` of what was public at minute 5, before the last filing.
fn cited() -> (Folder, String) {
    let folder = Folder::with(POLICY, vec![said(1, 1, [7]), said(1, -2, [7]), said(1, 1, [8]), said(1, -2, [8])]);
    let ran = folder.run(&["cite", "a", "p.qcm", "--minute", "5", "--at", "3"]);
    assert_eq!((ran.status, ran.err.as_str()), (0, ""));
    folder.write("c", &ran.out);
    (folder, ran.out)
}

fn verify(folder: &Folder, more: &[&str]) -> Ran {
    folder.run(&[&["verify", "a", "p.qcm", "c"], more].concat())
}

/// Which lines differ.
fn differing(ran: &Ran) -> Vec<&str> {
    assert_eq!((ran.status, ran.err.is_empty()), (1, false), "{}", ran.out);
    ran.out.lines().filter(|line| line.contains("differs: ")).filter_map(|line| line.split_whitespace().next()).collect()
}

#[test]
fn what_is_cited() {
    let (_, citation) = cited();
    let lines: Vec<Vec<&str>> = citation.lines().map(|line| line.split(' ').collect()).collect();
    let [archive, point, minute, policy, query, table, tool] = &lines[..] else { panic!("{citation}") };
    assert_eq!(archive[..], ["archive", "tested"]);
    assert_eq!(point[..2], ["point", "3"]);
    assert_eq!(minute[..], ["minute", "5", "2000-01-01", "00:05"]);
    assert_eq!((policy[0], query[0]), ("policy", "query"));
    assert_eq!(table[..4], ["table", "lower", "only", "1"]);
    assert_eq!(tool[..], ["tool", env!("CARGO_PKG_VERSION")]);
    for digest in [point[2], policy[1], query[1], table[4]] {
        assert_eq!((&digest[..7], digest.len()), ("sha256:", 7 + 64));
    }
}

#[test]
fn a_table_is_had_again_when_more_was_filed() {
    let (folder, citation) = cited();
    // By now there is another table.
    let now = folder.run(&["cite", "a", "p.qcm", "--minute", "5"]);
    assert_ne!(now.out, citation);
    let ran = verify(&folder, &[]);
    assert_eq!((ran.status, ran.err.as_str()), (0, ""));
    assert_eq!(ran.out, "archive  the same\npoint    the same\npolicy   the same\nquery    the same\ntable    the same\n");
    assert_eq!(verify(&folder, &["--ask", "public"]).status, 0, "the same query, asked in words of its own");
}

#[test]
fn other_names_are_no_other_policy() {
    let (folder, _) = cited();
    folder.write("p.qcm", "define seen 3 + = { (row) | (row) in k1.1+, (row) not in k1.2- }\nquery seen\n");
    let ran = verify(&folder, &[]);
    assert_eq!(ran.status, 0, "{}", ran.out);
}

#[test]
fn what_is_not_so_again_is_named() {
    let (folder, citation) = cited();
    assert_eq!(differing(&verify(&folder, &["--ask", "{ (x) | (x) in public }"])), ["query"]);
    assert_eq!(differing(&verify(&folder, &["--ask", "alma.released"])), ["query", "table"]);

    folder.write("p.qcm", &POLICY.replace(", (x) not in alma.withdrawn", ""));
    assert_eq!(differing(&verify(&folder, &[])), ["policy", "table"]);
    folder.write("p.qcm", &format!("our key k9\n{POLICY}"));
    assert_eq!(differing(&verify(&folder, &[])), ["policy"], "another key of ours");
    folder.write("p.qcm", POLICY);

    folder.write("c", &citation.replace("tested", "testing"));
    assert_eq!(differing(&verify(&folder, &[])), ["archive"]);
    folder.write("c", &citation.replace("point 3", "point 4"));
    assert_eq!(differing(&verify(&folder, &[])), ["point", "table"]);
    folder.write("c", &citation.replace("point 3", "point 5"));
    let ran = verify(&folder, &[]);
    assert_eq!(differing(&ran), ["point", "table"]);
    assert!(ran.out.contains("point 5 is not there, the list ends at 4"), "{}", ran.out);
    folder.write("c", &citation.replace("minute 5 2000-01-01 00:05", "minute 10 2000-01-01 00:10"));
    assert_eq!(differing(&verify(&folder, &[])), ["table"]);
    for (from, to) in [("lower", "exact"), ("only", "all-but"), ("only 1", "only 2")] {
        folder.write("c", &citation.replace(from, to));
        assert_eq!(differing(&verify(&folder, &[])), ["table"], "{to}");
    }
}

#[test]
fn another_list_before_the_point_is_noticed() {
    let (folder, _) = cited();
    // The same certificates in another order: the same stores, another list.
    folder.archive("b", "tested", vec![said(1, -2, [7]), said(1, 1, [7]), said(1, 1, [8])]);
    let ran = folder.run(&["verify", "b", "p.qcm", "c"]);
    assert_eq!(differing(&ran), ["point"]);
}

#[test]
fn what_is_no_citation() {
    let (folder, citation) = cited();
    for text in ["", "nothing\n", &citation.replace("sha256", "sha1"), &citation.replace("query", "quest")] {
        folder.write("c", text);
        let ran = verify(&folder, &[]);
        assert_eq!((ran.status, ran.out.as_str(), ran.err.is_empty()), (2, "", false), "{text}");
    }
    assert_eq!(folder.run(&["verify", "a", "p.qcm", "missing"]).status, 2);
}
