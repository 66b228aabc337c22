//! The names that documents place in files: "`guarantee` in `gate/proofs/Guarantee.antt`".

use crate::markdown::{spans, Block, Kind, Span};
use crate::paths::Paths;
use crate::tree::{folder, Document, Tree};

/// The heading under which every name has to be defined: in the file that is told or, where none is, in some crate.
const CLAIMS: &str = "## The claims";

/// What stands before a name where Rattle or Rust defines it.
const KEYWORDS: [&str; 6] = ["fn", "struct", "enum", "const", "trait", "type"];

pub struct Names<'a> {
    pub tree: &'a Tree,
    pub paths: &'a Paths<'a>,
}

#[derive(Default)]
pub struct Found {
    pub faults: Vec<String>,
    /// Names held of the claims, and of all other texts.
    pub claims: usize,
    pub others: usize,
}

/// A text on the way through its spans.
#[derive(Default)]
struct Walk<'a> {
    /// Names whose file is not yet told, those for which none was, and those with their file.
    waiting: Vec<&'a str>,
    loose: Vec<&'a str>,
    placed: Vec<(&'a str, String)>,
    /// The path before, and the text between the last span of code and this one.
    path: Option<String>,
    between: &'a str,
}

impl Names<'_> {
    pub fn hold(&self, document: &Document, found: &mut Found) {
        let mut claims = false;
        for block in &document.blocks {
            match block.kind {
                Kind::Heading => claims = block.text == CLAIMS || (claims && block.text.starts_with("###")),
                Kind::Text | Kind::Cell(_) => self.hold_block(document, block, claims, found),
                Kind::Code(_) => {}
            }
        }
    }

    fn hold_block(&self, document: &Document, block: &Block, claim: bool, found: &mut Found) {
        let walk = self.walk(document, block, claim);
        let place = format!("{}:{}", document.path, block.line);
        for (name, file) in walk.placed.iter().filter(|(name, file)| !self.defined(file, name)) {
            found.faults.push(format!("{place}: {file} defines no {name}"));
        }
        let loose = if claim { walk.loose } else { Vec::new() };
        for name in loose.iter().filter(|name| !self.defined_somewhere(name)) {
            found.faults.push(format!("{place}: no crate defines {name}"));
        }
        *(if claim { &mut found.claims } else { &mut found.others }) += walk.placed.len() + loose.len();
    }

    fn walk<'a>(&self, document: &Document, block: &'a Block, claim: bool) -> Walk<'a> {
        let spans = spans(&block.text).unwrap_or_default();
        let mut walk = Walk::default();
        for (at, span) in spans.iter().enumerate() {
            match span {
                Span::Plain(text) => walk.between = text,
                Span::Code(word) if self.paths.is_path(word, true) => {
                    let before = walk.path.as_deref().map(folder);
                    let path = self.paths.resolve(&document.path, before, word);
                    walk.path(path);
                }
                Span::Code(word) if is_name(word) => {
                    let there = matches!(spans.get(at + 1), Some(Span::Plain(next)) if next.starts_with(" there"));
                    walk.name(word, there, claim);
                }
                Span::Code(_) => walk.forget(),
            }
        }
        walk.forget();
        walk
    }

    fn defined_somewhere(&self, name: &str) -> bool {
        self.tree.files().any(|file| {
            file.starts_with("crates/") && (file.ends_with(".antt") || file.ends_with(".rt")) && self.defined(file, name)
        })
    }

    /// Whether a file, or one of a folder, defines a name.
    fn defined(&self, place: &str, name: &str) -> bool {
        let within = |file: &&str| *file == place || folder(file) == place.trim_end_matches('/');
        self.tree.files().filter(within).any(|file| defines(file, &self.tree.text(file), name))
    }
}

impl<'a> Walk<'a> {
    /// Comes to a name: it waits for its file, with those before it if it is listed with them.
    fn name(&mut self, name: &'a str, there: bool, claim: bool) {
        if !goes_on(self.between, claim) {
            self.forget();
        }
        match &self.path {
            Some(path) if there => self.placed.push((name, path.clone())),
            _ if self.between.ends_with("with ") => self.loose.push(name),
            _ => self.waiting.push(name),
        }
    }

    /// Comes to a path: the names that wait are said to be in it.
    fn path(&mut self, path: Option<String>) {
        if let (Some(path), "in" | "of") = (&path, self.between.trim()) {
            self.placed.extend(self.waiting.drain(..).map(|name| (name, path.clone())));
        }
        self.path = path;
        self.forget();
    }

    fn forget(&mut self) {
        self.loose.append(&mut self.waiting);
    }
}

/// Whether what stands between two spans keeps them in one list: in a claim all that is no end of a clause, else a comma or an
/// `and`.
fn goes_on(between: &str, claim: bool) -> bool {
    if claim {
        !between.contains([';', ':', '.', '(', ')', '—'])
    } else {
        matches!(between.trim(), "," | "and" | ", and")
    }
}

fn is_name(word: &str) -> bool {
    word.starts_with(|c: char| c.is_alphabetic()) && word.chars().all(|c| c.is_alphanumeric() || matches!(c, '_' | '-'))
}

/// Whether a text, in the language that its file's ending tells, defines a name; in one that is neither of the kit's nor Rust it
/// has the word.
fn defines(file: &str, text: &str, name: &str) -> bool {
    let apart = |c: char| !(c.is_alphanumeric() || c == '_');
    let mut words = text.split(apart).filter(|word| !word.is_empty());
    match file.rsplit('.').next() {
        Some("antt") => text.lines().any(|line| declares(line, name)),
        Some("rt" | "rs") => words.clone().zip(words.skip(1)).any(|(before, word)| word == name && KEYWORDS.contains(&before)),
        _ => words.any(|word| word == name),
    }
}

/// Whether a line of a definition or proof has the name's type, or begins its record or data.
fn declares(line: &str, name: &str) -> bool {
    let words: Vec<&str> = line.split_whitespace().filter(|word| !matches!(*word, "pub" | "abbrev" | "unfoldable")).collect();
    match words[..] {
        ["record" | "data", second, ..] => second == name,
        [first, colon, ..] => first == name && colon == ":",
        _ => false,
    }
}
