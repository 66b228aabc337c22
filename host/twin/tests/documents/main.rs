//! Reads every document of the repository: the paths that it names are there, its links lead somewhere, the names that it places
//! in files are defined there, its commands and programs do what it says, and its lists have all there is.

mod commands;
mod lists;
mod markdown;
mod names;
mod paths;
mod tree;

use names::Names;
use paths::Paths;
use tree::Tree;

fn held(faults: &[String]) {
    assert!(faults.is_empty(), "\n{}", faults.join("\n"));
}

#[test]
fn paths_and_links_lead_somewhere() {
    let tree = Tree::read();
    let paths = Paths::of(&tree);
    let mut found = paths::Found::default();
    for document in tree.documents() {
        paths.hold(&document, &mut found);
    }
    found.faults.extend(paths::unused(&found));
    println!("{} paths and {} links lead somewhere; {} addresses are not followed", found.paths, found.links, found.addresses);
    held(&found.faults);
}

#[test]
fn names_are_defined_where_they_are_said_to_be() {
    let tree = Tree::read();
    let names = Names { tree: &tree, paths: &Paths::of(&tree) };
    let mut found = names::Found::default();
    for document in tree.documents() {
        names.hold(&document, &mut found);
    }
    println!("{} names in the claims are defined, and {} in other texts", found.claims, found.others);
    assert!(found.claims > 0, "there are claims");
    held(&found.faults);
}

#[test]
fn commands_do_what_the_documents_say() {
    let tree = Tree::read();
    let mut trial = commands::Trial::begin(&tree);
    for document in tree.documents() {
        trial.hold(&document);
    }
    held(&trial.end());
}

#[test]
fn lists_have_all_there_is() {
    let tree = Tree::read();
    let (examples, mut faults) = lists::examples(&tree);
    let (crates, missing) = lists::crates(&tree);
    println!("{examples} examples are listed with their verdicts, and {crates} crates");
    faults.extend(missing);
    held(&faults);
}
