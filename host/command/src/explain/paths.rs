//! Paths through one routine and the depths that they come with, as the check follows them: either way of a branch counts.

use crate::code::{Code, Routine};
use std::collections::VecDeque;

/// How the shortest path from a routine's first byte comes to each of its starts. Starts go by their number in the routine.
pub struct Reach {
    came: Vec<Option<Came>>,
    edges: Vec<Vec<usize>>,
    pushed: Vec<i32>,
}

#[derive(Clone, Copy)]
struct Came {
    depth: i32,
    /// The start before, but for the first one.
    from: Option<usize>,
    /// How many starts are before.
    length: usize,
}

/// Starts, each of which goes to the one after it, from the routine's first to `last`.
#[derive(Clone, Debug, PartialEq, Eq)]
pub struct Path {
    pub starts: Vec<usize>,
    /// That with which it comes to the last one. It can be any number, as in the check.
    pub depth: i32,
}

impl Reach {
    pub fn explore(code: &Code, routine: &Routine) -> Reach {
        let edges: Vec<Vec<usize>> = (0..routine.starts.len()).map(|number| nexts(code, routine, number)).collect();
        let pushed = routine.starts.iter().map(|start| start.pushed).collect();
        let mut reach = Reach { came: vec![None; edges.len()], edges, pushed };
        let mut pending = VecDeque::from([(0, Came { depth: 0, from: None, length: 0 })]);
        while let Some((number, came)) = pending.pop_front() {
            let Some(cell @ None) = reach.came.get_mut(number) else { continue };
            *cell = Some(came);
            let after = Came { depth: came.depth + reach.pushed[number], from: Some(number), length: came.length + 1 };
            pending.extend(reach.edges[number].iter().map(|&next| (next, after)));
        }
        reach
    }

    /// The depth of the shortest path to a start, if one comes there.
    pub fn depth(&self, number: usize) -> Option<i32> {
        self.came.get(number)?.map(|came| came.depth)
    }

    /// The shortest path to a start, if one comes there.
    pub fn path(&self, last: usize) -> Option<Path> {
        let depth = self.depth(last)?;
        let before = |&number: &usize| self.came[number].and_then(|came| came.from);
        let mut starts: Vec<usize> = std::iter::successors(Some(last), before).collect();
        starts.reverse();
        Some(Path { starts, depth })
    }

    /// Two paths, as short as any, that come to one start at different depths.
    pub fn disagreement(&self) -> Option<[Path; 2]> {
        let came = |number: usize| self.came[number];
        let all = (0..self.edges.len()).flat_map(|from| self.edges[from].iter().map(move |&to| (from, to)));
        let differing = all.filter_map(|(from, to)| {
            let (one, other) = (came(to)?, came(from)?);
            (other.depth + self.pushed[from] != one.depth).then_some((one.length + other.length, from, to))
        });
        let (_, from, to) = differing.min()?;
        let mut other = self.path(from)?;
        other.starts.push(to);
        other.depth += self.pushed[from];
        Some([self.path(to)?, other])
    }
}

/// The starts that a start goes to: the next one, and the target of a jump.
fn nexts(code: &Code, routine: &Routine, number: usize) -> Vec<usize> {
    let start = &routine.starts[number];
    let fall = start.flow.falls().then_some(number + 1).filter(|&next| next < routine.starts.len());
    let jump = start.flow.jump().and_then(|target| routine.start_at(code.offset(target)?));
    fall.into_iter().chain(jump).collect()
}
