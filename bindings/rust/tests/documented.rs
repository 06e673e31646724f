//! Every public type and function has an example, which the documentation's tests run. That each is documented at all, the compiler sees to.

use std::fs;
use std::path::Path;

/// The item that a line of source begins, if it is public and needs an example.
fn public_item(line: &str) -> Option<&str> {
    let item = line.trim_start().strip_prefix("pub ")?;
    let item = item.strip_prefix("const fn ").or(item.strip_prefix("fn ")).or(item.strip_prefix("struct ")).or(item.strip_prefix("enum "))?;
    let name = item.split(|letter: char| !letter.is_alphanumeric() && letter != '_').next()?;
    // the header's own calls are behind a private module
    (!name.starts_with("txb_")).then_some(name)
}

/// Those of a file that have no example, and how many have one.
fn without_example(source: &str) -> (Vec<&str>, usize) {
    let (mut missing, mut found, mut example) = (Vec::new(), 0, false);
    for line in source.lines().take_while(|line| *line != "#[cfg(test)]") {
        let start = line.trim_start();
        if let Some(name) = public_item(line) {
            if example {
                found += 1;
            } else {
                missing.push(name);
            }
        }
        example = (example || start.starts_with("/// ```")) && (start.starts_with("///") || start.starts_with("#["));
    }
    (missing, found)
}

#[test]
fn every_public_item_has_an_example() {
    let mut all = 0;
    for file in fs::read_dir(Path::new(env!("CARGO_MANIFEST_DIR")).join("src")).unwrap() {
        let path = file.unwrap().path();
        let source = fs::read_to_string(&path).unwrap();
        let (missing, found) = without_example(&source);
        assert!(missing.is_empty(), "{}: {missing:?}", path.display());
        all += found;
    }
    assert!(all > 100, "only {all} were found");
}

#[test]
fn an_item_without_an_example_is_found() {
    let with = "/// One.\n///\n/// ```\n/// ```\n#[derive(Debug)]\npub struct One;\n";
    let without = "\n/// Two.\npub fn two() {}\n    pub const fn three() {}\n";
    let in_tests = "#[cfg(test)]\npub fn four() {}";
    assert_eq!(without_example(&[with, without, in_tests].concat()), (vec!["two", "three"], 1));
}
