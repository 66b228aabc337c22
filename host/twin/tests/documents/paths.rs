//! The paths that documents name, and where they lead.

use crate::markdown::{anchor, blocks, links, spans, without_targets, Block, Kind, Span};
use crate::tree::{below, fits, folder, Document, Tree};
use std::collections::BTreeSet;

/// Paths that no clone has, and why a document names them.
const ELSEWHERE: [(&str, &str); 3] = [
    ("target/staticlib/libgate_c.a", "`host/rattle library` writes it"),
    ("target/bin/gatecheck", "`host/rattle program gatecheck` writes it"),
    ("checker/specs/Sweep.antt", "the document tells that it is gone"),
];

pub struct Paths<'a> {
    tree: &'a Tree,
    endings: BTreeSet<String>,
}

/// What of a document is no path of the repository, and how much was held.
#[derive(Default)]
pub struct Found {
    pub faults: Vec<String>,
    pub paths: usize,
    pub links: usize,
    /// Links into the net, which are not followed.
    pub addresses: usize,
    pub elsewhere: BTreeSet<&'static str>,
}

impl<'a> Paths<'a> {
    pub fn of(tree: &'a Tree) -> Paths<'a> {
        let ending = |file: &str| file.rsplit_once('.').filter(|(_, end)| !end.contains('/')).map(|(_, end)| end.to_string());
        Paths { tree, endings: tree.files().filter_map(ending).collect() }
    }

    /// Whether a word is written as a path: with the ending of some file or, in code, with a /.
    pub fn is_path(&self, word: &str, code: bool) -> bool {
        let name = word.rsplit('/').next().unwrap_or(word);
        let ends = name.rsplit_once('.').is_some_and(|(stem, end)| !stem.is_empty() && self.endings.contains(end));
        ends || (code && word.contains('/'))
    }

    /// The file or folder that a path of a document leads to: from the top, from the document's folder, from crates/, or from the
    /// folder of the path before it. A name alone, with none before it, is that of any file; a folder's, such as `specs/`, of one
    /// in any crate.
    pub fn resolve(&self, document: &str, before: Option<&str>, path: &str) -> Option<String> {
        let mut places = vec!["", folder(document), "crates"];
        places.extend(before);
        let found = places.into_iter().map(|place| below(place, path)).find(|path| self.tree.has(path));
        let inner = path.strip_suffix('/').is_some_and(|name| !name.contains('/'));
        let loose = inner || (before.is_none() && !path.contains('/'));
        found.or_else(|| if loose { self.anywhere(path.trim_end_matches('/')) } else { None })
    }

    fn anywhere(&self, name: &str) -> Option<String> {
        let part = |file: &&str| file.split('/').any(|part| fits(name, part));
        self.tree.files().find(part).map(str::to_string)
    }

    pub fn hold(&self, document: &Document, found: &mut Found) {
        for block in document.blocks.iter().filter(|block| !matches!(block.kind, Kind::Code(_))) {
            self.hold_words(document, block, found);
            for link in links(&block.text) {
                self.hold_link(document, block, link, found);
            }
        }
    }

    fn hold_words(&self, document: &Document, block: &Block, found: &mut Found) {
        let place = format!("{}:{}", document.path, block.line);
        let text = without_targets(&block.text);
        let Some(spans) = spans(&text) else { return found.faults.push(format!("{place}: a backquote is left open")) };
        let mut before: Option<String> = None;
        for (word, code) in spans.iter().flat_map(words) {
            if !self.is_path(word, code) {
                continue;
            }
            found.paths += 1;
            if let Some(&(path, _)) = ELSEWHERE.iter().find(|(path, _)| *path == word) {
                found.elsewhere.insert(path);
            } else if let Some(path) = self.resolve(&document.path, before.as_deref().filter(|_| code), word) {
                before = Some(folder(&path).to_string());
            } else {
                found.faults.push(format!("{place}: there is no {word}"));
            }
        }
    }

    fn hold_link(&self, document: &Document, block: &Block, link: &str, found: &mut Found) {
        let (file, heading) = link.split_once('#').map_or((link, None), |(file, heading)| (file, Some(heading)));
        let path = if file.is_empty() { document.path.clone() } else { below(folder(&document.path), file) };
        let leads =
            |to: &str| blocks(&self.tree.text(&path)).iter().any(|b| matches!(b.kind, Kind::Heading) && anchor(&b.text) == to);
        if link.contains("://") {
            found.addresses += 1;
        } else if self.tree.has(&path) && heading.is_none_or(leads) {
            found.links += 1;
        } else {
            found.faults.push(format!("{}:{}: the link to {link} leads nowhere", document.path, block.line));
        }
    }
}

/// The paths of the list above that no document names.
pub fn unused(found: &Found) -> Vec<String> {
    let left = ELSEWHERE.iter().filter(|(path, _)| !found.elsewhere.contains(path));
    left.map(|(path, why)| format!("no document names {path} ({why})")).collect()
}

/// The words of a span that may be paths, and whether it is code.
fn words<'a>(span: &Span<'a>) -> Vec<(&'a str, bool)> {
    let (text, code) = match *span {
        Span::Plain(text) => (text, false),
        Span::Code(text) => (text, true),
    };
    let apart = |c: char| !(c.is_ascii_alphanumeric() || matches!(c, '_' | '-' | '.' | '/'));
    let ended = |word: &'a str| word.trim_end_matches('.');
    text.split(apart)
        .map(ended)
        .filter(|word| word.contains(|c: char| c.is_ascii_alphabetic()))
        .map(|word| (word, code))
        .collect()
}
