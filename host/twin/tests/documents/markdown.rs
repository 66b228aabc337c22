//! As much of Markdown as the documents use: headings, texts, cells of tables and blocks of code, in their order.

pub enum Kind {
    Heading,
    /// A paragraph or an item of a list, its lines joined.
    Text,
    /// A cell of a table, with the head of its column.
    Cell(String),
    /// Lines of code: fenced, with the language that the fence names, or indented, with none.
    Code(String),
}

pub struct Block {
    pub kind: Kind,
    /// The line of the document at which it begins, from 1.
    pub line: usize,
    pub text: String,
}

pub enum Span<'a> {
    Plain(&'a str),
    Code(&'a str),
}

/// What stands in backquotes and what does not, in turn; none where a backquote is left open.
pub fn spans(text: &str) -> Option<Vec<Span<'_>>> {
    let parts: Vec<&str> = text.split('`').collect();
    let span = |(at, &part)| if at % 2 == 0 { Span::Plain(part) } else { Span::Code(part) };
    (parts.len() % 2 == 1).then(|| parts.iter().enumerate().map(span).collect())
}

/// The targets of links, `[text](target)`.
pub fn links(text: &str) -> Vec<&str> {
    text.split("](").skip(1).filter_map(|rest| rest.split_once(')')).map(|(target, _)| target).collect()
}

/// The text with its links' targets left out.
pub fn without_targets(text: &str) -> String {
    let mut parts = text.split("](");
    let first = parts.next().unwrap_or_default().to_string();
    first + &parts.map(|rest| rest.split_once(')').map_or(rest, |(_, after)| after)).collect::<String>()
}

/// The anchor of a heading, by which links find it: small letters, digits, - and _, and - for a space.
pub fn anchor(heading: &str) -> String {
    let kept = |c: &char| c.is_alphanumeric() || matches!(c, ' ' | '-' | '_');
    heading.trim_start_matches('#').trim().chars().filter(kept).collect::<String>().to_lowercase().replace(' ', "-")
}

pub fn blocks(document: &str) -> Vec<Block> {
    let mut reader = Reader { blocks: Vec::new(), open: false, fenced: false, columns: Vec::new(), item: 0 };
    for (index, line) in document.lines().enumerate() {
        reader.read(index + 1, line);
    }
    reader.blocks
}

struct Reader {
    blocks: Vec<Block>,
    /// Whether the next line may belong to the last block.
    open: bool,
    fenced: bool,
    /// The heads of the columns, within a table.
    columns: Vec<String>,
    /// By how much the text of a list's item is indented, 0 outside lists.
    item: usize,
}

impl Reader {
    fn read(&mut self, number: usize, line: &str) {
        let text = line.trim();
        let indented = line.len() - line.trim_start().len();
        if let Some(language) = text.strip_prefix("```") {
            self.fenced = !self.fenced;
            if self.fenced {
                self.begin(Kind::Code(language.to_string()), number, "");
            }
            self.open = self.fenced;
        } else if self.fenced {
            self.go_on('\n', line);
        } else if text.is_empty() {
            self.open = false;
            self.columns.clear();
        } else if text.starts_with('|') {
            self.row(number, text);
        } else if indented >= self.item + 4 && !self.in_text() {
            self.code(number, line);
        } else if text.starts_with('#') {
            self.item = 0;
            self.begin(Kind::Heading, number, text);
            self.open = false;
        } else {
            self.text(number, indented, text);
        }
    }

    fn begin(&mut self, kind: Kind, line: usize, text: &str) {
        self.blocks.push(Block { kind, line, text: text.to_string() });
        self.open = true;
    }

    fn go_on(&mut self, between: char, text: &str) {
        let last = self.blocks.last_mut().expect("a block is open");
        if !last.text.is_empty() {
            last.text.push(between);
        }
        last.text.push_str(text);
    }

    fn in_text(&self) -> bool {
        self.open && matches!(self.blocks.last(), Some(Block { kind: Kind::Text, .. }))
    }

    fn code(&mut self, number: usize, line: &str) {
        let line = &line[self.item + 4..];
        if self.open && matches!(self.blocks.last(), Some(Block { kind: Kind::Code(_), .. })) {
            self.go_on('\n', line);
        } else {
            self.begin(Kind::Code(String::new()), number, line);
        }
    }

    fn row(&mut self, number: usize, row: &str) {
        let cells: Vec<&str> = row.trim_matches('|').split(" | ").map(str::trim).collect();
        if self.columns.is_empty() {
            self.columns = cells.iter().map(|head| head.to_string()).collect();
        } else if row.chars().any(|c| !matches!(c, '|' | '-' | ':' | ' ')) {
            for (at, cell) in cells.into_iter().enumerate() {
                let column = self.columns.get(at).cloned().unwrap_or_default();
                self.begin(Kind::Cell(column), number, cell);
            }
        }
        self.open = false;
    }

    fn text(&mut self, number: usize, indented: usize, text: &str) {
        let marker = text.find(' ').map_or("", |end| &text[..end]);
        let numbered = marker.strip_suffix('.').is_some_and(|digits| digits.parse::<u32>().is_ok());
        let listed = numbered || matches!(marker, "-" | "*");
        if self.in_text() && !listed {
            self.go_on(' ', text);
        } else {
            self.begin(Kind::Text, number, text);
            self.item = if listed { indented + marker.len() + 1 } else { indented };
        }
    }
}
