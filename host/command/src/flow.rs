//! Jumps, drawn beside the rows of a listing.
//!
//! All jumps to one row share a lane, a line down the rows that it joins. A jump leaves its row by `-` and comes to its target by `=`
//! and `>`. Where a row has both, of two lanes, the stroke after each lane's letter tells which is which:
//!
//! ```text
//! /====> target      / first row of a lane     | passes a row, or is crossed
//! | /--- jump        \ last row                @ a jump to its own row
//! | \==>             + a row between
//! +-----
//! \-----
//! ```

use std::collections::BTreeMap;

/// The most lanes side by side. Of more jumps at a place a reader follows none, and a line has to fit.
const LANES_AT_MOST: usize = 12;

/// All jumps to one row.
#[derive(Clone, Debug)]
struct Lane {
    target: usize,
    /// The rows that it joins, rising, each once: the jumps and their target.
    rows: Vec<usize>,
    /// Whether the target is one of the jumps.
    turns: bool,
}

impl Lane {
    fn new(target: usize, jumps: Vec<usize>) -> Lane {
        let turns = jumps.contains(&target);
        let mut rows = jumps;
        rows.push(target);
        rows.sort_unstable();
        rows.dedup();
        Lane { target, rows, turns }
    }

    fn first(&self) -> usize {
        self.rows[0]
    }

    fn last(&self) -> usize {
        self.rows[self.rows.len() - 1]
    }

    fn covers(&self, row: usize) -> bool {
        (self.first()..=self.last()).contains(&row)
    }

    fn meets(&self, other: &Lane) -> bool {
        self.first() <= other.last() && other.first() <= self.last()
    }

    fn joins(&self, row: usize) -> bool {
        self.rows.binary_search(&row).is_ok()
    }

    /// How often its strokes cross another lane that stands between it and the listing.
    fn crossings(&self, inner: &Lane) -> usize {
        if !self.meets(inner) {
            return 0;
        }
        self.rows.iter().filter(|&&row| inner.covers(row) && !inner.joins(row)).count()
    }

    fn letter(&self, row: usize) -> char {
        match row {
            _ if !self.joins(row) => '|',
            _ if row == self.target && self.turns => '@',
            _ if row == self.first() => '/',
            _ if row == self.last() => '\\',
            _ => '+',
        }
    }
}

/// The jumps of a routine.
pub struct Drawing {
    /// The lanes from the listing outwards, those at each distance one below the other.
    columns: Vec<Vec<Lane>>,
}

impl Drawing {
    /// The jumps, each as its row and its target's.
    pub fn new(jumps: impl Iterator<Item = (usize, usize)>) -> Drawing {
        let mut targets: BTreeMap<usize, Vec<usize>> = BTreeMap::new();
        for (row, target) in jumps {
            targets.entry(target).or_default().push(row);
        }
        let lanes = targets.into_iter().map(|(target, jumps)| Lane::new(target, jumps)).collect();
        let mut columns: Vec<Vec<Lane>> = Vec::new();
        for lane in ordered(lanes) {
            let within = columns.iter().rposition(|column| column.iter().any(|other| other.meets(&lane)));
            let column = within.map_or(0, |column| column + 1);
            match columns.get_mut(column) {
                Some(lanes) => lanes.push(lane),
                None if column < LANES_AT_MOST => columns.push(vec![lane]),
                None => {}
            }
        }
        Drawing { columns }
    }

    /// How many lanes stand side by side.
    pub fn lanes(&self) -> usize {
        self.columns.len()
    }

    /// What stands before a row, where there is room for so many lanes, which are no fewer than there are.
    pub fn row(&self, row: usize, lanes: usize) -> String {
        if lanes == 0 {
            return String::new();
        }
        let mut drawn = "  ".repeat(lanes - self.lanes());
        let (mut stroke, mut head) = (' ', ' ');
        for column in self.columns.iter().rev() {
            let lane = column.iter().find(|lane| lane.covers(row));
            let letter = lane.map_or(stroke, |lane| lane.letter(row));
            if let Some(lane) = lane.filter(|lane| lane.joins(row)) {
                let arrives = row == lane.target;
                stroke = if arrives { '=' } else { '-' };
                head = if arrives || head == '>' { '>' } else { '-' };
            }
            drawn.extend([letter, stroke]);
        }
        drawn.extend([stroke, head, ' ']);
        drawn
    }

    /// Whether the jump of a row is drawn.
    pub fn is_drawn(&self, row: usize) -> bool {
        let leaves = |lane: &Lane| lane.joins(row) && (row != lane.target || lane.turns);
        self.columns.iter().flatten().any(leaves)
    }
}

/// The lanes from the listing outwards: short ones first, and each where it adds the fewest crossings.
fn ordered(mut lanes: Vec<Lane>) -> Vec<Lane> {
    lanes.sort_by_key(|lane| (lane.last() - lane.first(), lane.first()));
    let mut placed: Vec<Lane> = Vec::new();
    for lane in lanes {
        let mut crossings: usize = placed.iter().map(|inner| lane.crossings(inner)).sum();
        let (mut fewest, mut place) = (crossings, placed.len());
        for (number, other) in placed.iter().enumerate().rev() {
            crossings = crossings - lane.crossings(other) + other.crossings(&lane);
            if crossings < fewest {
                (fewest, place) = (crossings, number);
            }
        }
        placed.insert(place, lane);
    }
    placed
}

#[cfg(test)]
#[path = "flow_tests.rs"]
mod tests;
