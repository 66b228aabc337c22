//! What is to be met, and how often it was.

use std::marker::PhantomData;

/// Things of one kind, all of which are to be met.
pub trait Meet: Copy + 'static {
    /// Each with its name, in the order of their numbers.
    const ALL: &'static [(Self, &'static str)];

    fn number(self) -> usize;
}

/// How often each thing of a kind was met.
pub struct Met<T> {
    times: Vec<u64>,
    kind: PhantomData<T>,
}

impl<T: Meet> Default for Met<T> {
    fn default() -> Met<T> {
        Met { times: vec![0; T::ALL.len()], kind: PhantomData }
    }
}

impl<T: Meet> Met<T> {
    pub fn note(&mut self, met: impl IntoIterator<Item = T>) {
        for what in met {
            self.times[what.number()] += 1;
        }
    }

    pub fn times(&self, what: T) -> u64 {
        self.times[what.number()]
    }

    /// Prints how often each was met, and says whether one never was.
    pub fn print(&self) -> bool {
        for &(what, name) in T::ALL {
            println!("{name}: {}", self.times(what));
        }
        self.times.contains(&0)
    }
}

/// Those things whose fact holds.
pub fn that_hold<T, const N: usize>(facts: [(T, bool); N]) -> impl Iterator<Item = T> {
    facts.into_iter().filter(|(_, holds)| *holds).map(|(what, _)| what)
}
