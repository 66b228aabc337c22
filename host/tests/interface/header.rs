//! `include/gate.h` as text, taken apart as far as its style goes: declarations begin a line, and none nests in another.

use std::collections::BTreeMap;

pub struct Header(String);

impl Header {
    /// The header without its comments.
    pub fn new(text: &str) -> Header {
        let code = text.split("/*").enumerate().map(|(number, part)| match number {
            0 => part,
            _ => part.split_once("*/").expect("a comment's end").1,
        });
        Header(code.collect())
    }

    /// The enumerators of an enum with their values.
    pub fn enumerators(&self, name: &str) -> Vec<(String, u32)> {
        let mut next = 0;
        let valued = |item: &str| {
            let (name, value) = item.split_once('=').map_or((item, next), |(name, value)| (name, number(value)));
            next = value + 1;
            (name.trim().to_string(), value)
        };
        list(self.body(&format!("enum {name} {{"))).map(valued).collect()
    }

    /// What each name is defined as.
    pub fn defines(&self) -> Vec<(&str, &str)> {
        let lines = self.0.lines().filter_map(|line| line.strip_prefix("#define "));
        lines.filter_map(|line| line.split_once(' ')).map(|(name, value)| (name, value.trim())).collect()
    }

    /// The value of a name that is defined or enumerated, or of a number.
    pub fn value(&self, name: &str) -> u32 {
        let enumerated =
            ["gate_number", "gate_register", "gate_report", "gate_cycles"].map(|name| self.enumerators(name)).concat();
        let defined = self.defines().into_iter().find(|&(other, _)| other == name);
        match (defined, enumerated.iter().find(|(other, _)| other == name)) {
            (Some((_, value)), _) => number(value),
            (None, Some(&(_, value))) => value,
            (None, None) => number(name),
        }
    }

    /// The texts that `gate_number_text` gives, by number, and the one for all other numbers.
    pub fn texts(&self) -> (BTreeMap<u8, &str>, &str) {
        let (mut texts, mut other) = (BTreeMap::new(), None);
        for line in self.body("gate_number_text(uint8_t number)\n{\n    switch (number) {").lines() {
            let Some((label, text)) = line.trim().trim_end_matches("\";").split_once(": return \"") else { continue };
            match label.strip_prefix("case ") {
                Some(name) => assert_eq!(texts.insert(self.value(name) as u8, text), None),
                None => other = Some(text),
            }
        }
        (texts, other.expect("a text for all others"))
    }

    /// The fields of a struct, as Rust declares them.
    pub fn fields(&self, name: &str) -> Vec<String> {
        let mut fields = Vec::new();
        for declaration in self.body(&format!("struct {name} {{")).split(';').map(str::trim).filter(|part| !part.is_empty()) {
            let (kind, names) = kind_and_rest(declaration);
            fields.extend(list(names).map(|name| match self.array(kind, name) {
                Some((name, array)) => format!("{name}: {array}"),
                None => format!("{name}: {kind}"),
            }));
        }
        fields
    }

    /// The functions that the archive has, as Rust declares them.
    pub fn functions(&self) -> Vec<String> {
        let begins = |line: &str| line.starts_with("uint") && line.contains(" gate_");
        let lines = self.0.match_indices('\n').map(|(at, _)| &self.0[at + 1..]);
        lines.filter(|rest| rest.lines().next().map_or(false, begins)).map(|rest| self.function(rest)).collect()
    }

    fn function(&self, text: &str) -> String {
        let (head, arguments) = text[..text.find(");").expect("a declaration's end")].split_once('(').expect("arguments");
        let (kind, name) = kind_and_rest(head);
        let arguments: Vec<String> =
            list(arguments).filter(|&argument| argument != "void").map(|one| self.argument(one)).collect();
        format!("fn {name}({}) -> {kind}", arguments.join(", "))
    }

    /// A pointer, an array, which C passes as one, or a number.
    fn argument(&self, declaration: &str) -> String {
        let (qualifier, declaration) = declaration.strip_prefix("const ").map_or(("mut", declaration), |rest| ("const", rest));
        let (kind, name) = kind_and_rest(declaration);
        match (name.strip_prefix('*'), self.array(kind, name)) {
            (Some(name), _) => format!("{name}: *{qualifier} {kind}"),
            (None, Some((name, array))) => format!("{name}: *{qualifier} {array}"),
            (None, None) => format!("{name}: {kind}"),
        }
    }

    /// Name and type of an array.
    fn array<'a>(&self, kind: &str, declarator: &'a str) -> Option<(&'a str, String)> {
        let (name, length) = declarator.strip_suffix(']')?.split_once('[')?;
        Some((name, format!("[{kind}; {}]", self.value(length))))
    }

    /// What stands after `head`, up to the brace that ends it.
    fn body(&self, head: &str) -> &str {
        let (_, rest) = self.0.split_once(head).unwrap_or_else(|| panic!("gate.h has no {head}"));
        rest.split_once('}').expect("a brace").0
    }
}

/// The Rust name of the type that a declaration begins with, and what comes after it.
fn kind_and_rest(declaration: &str) -> (&'static str, &str) {
    const KINDS: [(&str, &str); 10] = [
        ("uint8_t ", "u8"),
        ("uint16_t ", "u16"),
        ("uint32_t ", "u32"),
        ("uint64_t ", "u64"),
        ("size_t ", "usize"),
        ("struct gate_area ", "Area"),
        ("struct gate_limits ", "Limits"),
        ("struct gate_byte ", "[u32; 2]"),
        ("struct gate_record ", "RecordCells"),
        ("struct gate_layout ", "LayoutCells"),
    ];
    let kind = KINDS.iter().find_map(|&(c, rust)| Some((rust, declaration.strip_prefix(c)?)));
    kind.unwrap_or_else(|| panic!("no type is known for {declaration}"))
}

fn list(text: &str) -> impl Iterator<Item = &str> {
    text.split(',').map(str::trim).filter(|item| !item.is_empty())
}

fn number(text: &str) -> u32 {
    text.trim().trim_end_matches('u').parse().unwrap_or_else(|_| panic!("{text} is no number"))
}
