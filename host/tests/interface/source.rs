//! `cells.rs` and `types.rs` as text, taken apart as far as rustfmt lays them out.

pub struct Source(String);

impl Source {
    /// The source without its comments, and with each alias and number of cells written out.
    pub fn new(cells: &str, types: &str) -> Source {
        let mut text: String = [cells, types].concat().lines().map(uncommented).collect();
        for (name, meaning) in Source(text.clone()).constants("usize") {
            text = text.replace(&format!("; {name}]"), &format!("; {meaning}]"));
        }
        for (name, meaning) in Source(text.clone()).declared("pub type ", " = ") {
            text = text.replace(&name, &meaning);
        }
        Source(text)
    }

    /// The constants of a type with their values.
    pub fn constants(&self, kind: &str) -> Vec<(String, u32)> {
        let value = |(name, value): (String, String)| (name, value.replace('_', "").parse().expect("a number"));
        self.declared("pub const ", &format!(": {kind} = ")).into_iter().map(value).collect()
    }

    /// The cases of an enum with their numbers.
    pub fn cases(&self, name: &str) -> Vec<(String, u32)> {
        let case = |line: &str| {
            let (name, number) = line.trim().strip_suffix(',')?.split_once(" = ")?;
            Some((name.to_string(), number.parse().ok()?))
        };
        self.body(&format!("pub enum {name} {{\n")).lines().filter_map(case).collect()
    }

    /// The fields of a struct that is laid out as in C.
    pub fn fields(&self, name: &str) -> Vec<&str> {
        let lines = self.body(&format!("#[repr(C)]\npub struct {name} {{\n")).lines();
        lines.map(|line| line.trim().trim_start_matches("pub ").trim_end_matches(',')).collect()
    }

    /// The functions that are linked.
    pub fn functions(&self) -> Vec<String> {
        let declarations = self.body("extern \"C\" {\n").split_terminator(";\n").filter(|part| !part.trim().is_empty());
        let joined = |part: &str| part.trim().trim_start_matches("pub ").split_whitespace().collect::<Vec<_>>().join(" ");
        declarations.map(|part| joined(part).replace("( ", "(").replace(", )", ")")).collect()
    }

    /// Name and meaning of the lines that have both words.
    fn declared(&self, first: &str, second: &str) -> Vec<(String, String)> {
        let lines = self.0.lines().filter_map(|line| line.strip_prefix(first)?.strip_suffix(';')?.split_once(second));
        lines.map(|(name, meaning)| (name.to_string(), meaning.to_string())).collect()
    }

    /// What stands after `head`, up to the brace that ends it.
    fn body(&self, head: &str) -> &str {
        let (_, rest) = self.0.split_once(head).unwrap_or_else(|| panic!("there is no {head}"));
        rest.split_once('}').expect("a brace").0
    }
}

fn uncommented(line: &str) -> String {
    match line.split("//").next() {
        Some(code) if !code.trim().is_empty() => format!("{}\n", code.trim_end()),
        _ => String::new(),
    }
}
