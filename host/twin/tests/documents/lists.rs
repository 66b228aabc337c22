//! Lists that have all there is: the examples, each with its verdict, and the crates.

use crate::markdown::{blocks, spans, Kind, Span};
use crate::tree::Tree;
use std::collections::BTreeSet;

/// How many examples the tables of examples/README.md list, and what is wrong there.
pub fn examples(tree: &Tree) -> (usize, Vec<String>) {
    let mut faults = Vec::new();
    let mut listed = BTreeSet::new();
    let mut example = String::new();
    for block in blocks(&tree.text("examples/README.md")) {
        match block.kind {
            Kind::Cell(column) if column == "Example" => example = block.text.trim_matches('`').to_string(),
            Kind::Cell(column) if column == "Verdict" => {
                let stored = verdict(tree, &example);
                if stored.as_ref() != Some(&block.text) {
                    faults.push(format!("examples/README.md:{}: {example} is {stored:?}", block.line));
                }
                listed.insert(example.clone());
            }
            _ => {}
        }
    }
    let name = |file: &str| file.strip_suffix(".verdict").and_then(|path| path.rsplit('/').next()).map(str::to_string);
    let there: BTreeSet<String> = tree.files().filter(|file| file.starts_with("examples/")).filter_map(name).collect();
    faults.extend(there.difference(&listed).map(|name| format!("examples/README.md does not list {name}")));
    (listed.len(), faults)
}

/// The stored verdict of an example, in the table's words.
fn verdict(tree: &Tree, example: &str) -> Option<String> {
    let path = ["examples", "examples/refused", "examples/c"]
        .map(|folder| format!("{folder}/{example}.verdict"))
        .into_iter()
        .find(|path| tree.has(path))?;
    let text = tree.text(&path);
    match text.lines().next()?.split(' ').collect::<Vec<_>>()[..] {
        ["accepted", need, count] => Some(format!("accepted, need {need}, {count} instructions")),
        _ => text.lines().next().map(str::to_string),
    }
}

/// How many crates docs/ARCHITECTURE.md names, and which it does not.
pub fn crates(tree: &Tree) -> (usize, Vec<String>) {
    let text = tree.text("docs/ARCHITECTURE.md");
    let code = |span| if let Span::Code(word) = span { Some(word) } else { None };
    let named: BTreeSet<&str> = spans(&text).into_iter().flatten().filter_map(code).collect();
    let inner = |file: &'_ str| file.strip_prefix("crates/").and_then(|path| path.split('/').next()).map(str::to_string);
    let there: BTreeSet<String> = tree.files().filter_map(inner).collect();
    let missing = there.iter().filter(|name| !named.contains(name.as_str()));
    (there.len(), missing.map(|name| format!("docs/ARCHITECTURE.md does not name {name}")).collect())
}
