//! A drawing of jumps read back: what its lanes join, by its letters alone.

use std::collections::BTreeSet;

/// Address of a jump, and of its target.
pub type Arrow = (u16, u16);

/// A routine's lines: what is drawn before each, and its address.
pub struct Rows<'a>(Vec<(&'a str, u16)>);

/// A line without what is drawn before it.
pub fn undrawn(line: &str) -> &str {
    line.trim_start_matches([' ', '/', '\\', '|', '+', '@', '-', '=', '>'])
}

impl<'a> Rows<'a> {
    pub fn read(lines: &[&'a str]) -> Rows<'a> {
        let row = |line: &&'a str| {
            let text = undrawn(line);
            let address = u16::from_str_radix(&text[..4], 16).expect("an address");
            (&line[..line.len() - text.len()], address)
        };
        Rows(lines.iter().map(row).collect())
    }

    /// Every arrow that is drawn. Panics where a line or a lane leads nowhere.
    pub fn arrows(&self) -> BTreeSet<Arrow> {
        let mut arrows = BTreeSet::new();
        for row in 0..self.0.len() {
            self.follow_strokes(row);
            for column in 0..self.columns() {
                let (leaves, arrives) = self.joint(row, column);
                if leaves {
                    arrows.insert((self.0[row].1, self.0[self.target(row, column)].1));
                }
                if arrives {
                    assert_eq!(self.target(row, column), row, "{}", self.0[row].0);
                }
            }
        }
        arrows
    }

    /// How many lanes there is room for: two letters each, then the head of two and a space.
    pub fn columns(&self) -> usize {
        self.0[0].0.len().saturating_sub(3) / 2
    }

    fn letter(&self, row: usize, place: usize) -> char {
        self.0.get(row).map_or(' ', |(drawn, _)| char::from(drawn.as_bytes()[place]))
    }

    /// Whether a jump leaves its row for the lane of a column, and whether the lane arrives at the row.
    fn joint(&self, row: usize, column: usize) -> (bool, bool) {
        let stroke = self.letter(row, 2 * column + 1);
        match self.letter(row, 2 * column) {
            '@' => (true, true),
            '/' | '\\' | '+' => (stroke == '-', stroke == '='),
            _ => (false, false),
        }
    }

    /// A stroke goes on to the listing from the lane that it begins at, and ends with a head where a lane arrives.
    fn follow_strokes(&self, row: usize) {
        let (mut stroke, mut arrives) = (' ', false);
        for column in 0..self.columns() {
            let (letter, after) = (self.letter(row, 2 * column), self.letter(row, 2 * column + 1));
            match letter {
                '@' | '/' | '\\' | '+' => stroke = after,
                _ => assert!(letter == '|' || letter == stroke, "{}", self.0[row].0),
            }
            arrives |= self.joint(row, column).1;
            assert_eq!(after, stroke, "{}", self.0[row].0);
        }
        if self.columns() > 0 {
            let head = if arrives { '>' } else { stroke };
            let end = 2 * self.columns();
            assert_eq!([0, 1, 2].map(|place| self.letter(row, end + place)), [stroke, head, ' '], "{}", self.0[row].0);
        }
    }

    /// The row at which the lane arrives that a row joins in a column.
    fn target(&self, row: usize, column: usize) -> usize {
        let (mut first, mut last) = (row, row);
        while first > 0 && self.goes_on(first - 1, column) {
            first -= 1;
        }
        while self.goes_on(last, column) {
            last += 1;
        }
        let mut targets = (first..=last).filter(|&row| self.joint(row, column).1);
        match (targets.next(), targets.next()) {
            (Some(target), None) => target,
            _ => panic!("a lane of rows {first} to {last} does not arrive at one"),
        }
    }

    /// Whether a lane goes on from a row to the next.
    fn goes_on(&self, row: usize, column: usize) -> bool {
        match (self.letter(row, 2 * column), self.letter(row + 1, 2 * column)) {
            ('@', '@') => false,
            ('/' | '|' | '+', '\\' | '|' | '+' | '@') | ('@', '\\' | '|' | '+') => true,
            (above @ ('/' | '|' | '+'), below) | (above, below @ ('\\' | '|' | '+')) => panic!("{above} is over {below}"),
            _ => false,
        }
    }
}
