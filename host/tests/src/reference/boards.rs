//! Boards: a table of exercises and two tables kept beside it.

use super::refusals::MOST_CONTROLS;
use super::{minus, plus, times};

#[derive(Clone, Debug, PartialEq)]
pub struct Board {
    pub a: Vec<u32>,
    pub e: Vec<u32>,
    pub i: Vec<u32>,
}

#[derive(Clone, Copy, Debug, PartialEq)]
pub enum Kind {
    Add,
    Take,
}

/// A weight that is added or taken at a set.
#[derive(Clone, Copy, Debug)]
pub struct Change {
    pub kind: Kind,
    pub set: u32,
    pub weight: u32,
}

/// A sum or a difference modulo m.
type Join = fn(u32, u32, u32) -> u32;

/// The table, with the entry of each set that contains the set joined with the weight times the old entry of that set without it.
fn passed_on(table: &[u32], set: usize, weight: u32, m: u32, join: Join) -> Vec<u32> {
    let entry = |all: usize| match all & set == set {
        true => join(table[all], times(weight, table[all & !set], m), m),
        false => table[all],
    };
    (0..table.len()).map(entry).collect()
}

impl Board {
    pub fn fresh(n: u32) -> Self {
        let (a, mut e) = (vec![0; 1 << n], vec![0; 1 << n]);
        e[0] = 1;
        Board { a, i: e.clone(), e }
    }

    /// The board after an accepted change, from the old one.
    pub fn changed(&self, m: u32, Change { kind, set, weight }: Change) -> Self {
        let set = set as usize;
        let (onto, off): (Join, Join) = match kind {
            Kind::Add => (plus, minus),
            Kind::Take => (minus, plus),
        };
        let mut a = self.a.clone();
        a[set] = onto(a[set], weight, m);
        Board { a, e: passed_on(&self.e, set, weight, m, onto), i: passed_on(&self.i, set, weight, m, off) }
    }
}

/// The number of a fresh board in these tables.
pub fn fresh_number(n: u32, m: u32, board: &Board) -> u32 {
    if n > MOST_CONTROLS {
        1
    } else if m < 2 {
        2
    } else if [&board.a, &board.e, &board.i].iter().any(|table| table.len() != 1 << n) {
        3
    } else {
        0
    }
}

/// The number of a change: 11 and 12 come after 3 and before 5.
pub fn change_number(n: u32, m: u32, change: Change, board: &Board) -> u32 {
    match fresh_number(n, m, board) {
        0 if change.set == 0 => 11,
        0 if u64::from(change.set) >= 1 << n => 12,
        0 if board.a.iter().chain(&board.e).chain(&board.i).chain([&change.weight]).any(|&entry| entry >= m) => 5,
        number => number,
    }
}
