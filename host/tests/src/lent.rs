//! Memory as it is lent to a call: a slice between guard elements, with a copy of what it held at first.

use std::fmt::Debug;

pub struct Lent<T> {
    memory: Vec<T>,
    before: usize,
    original: Vec<T>,
    guard: T,
}

const AFTER: usize = 9;

impl<T: Copy + PartialEq + Debug> Lent<T> {
    /// The contents between guards; `before` guards in front of it, so that its alignment varies.
    pub fn new(contents: &[T], guard: T, before: usize) -> Self {
        let mut memory = vec![guard; before];
        memory.extend_from_slice(contents);
        memory.extend_from_slice(&[guard; AFTER]);
        Lent { memory, before, original: contents.to_vec(), guard }
    }

    pub fn slice(&self) -> &[T] {
        &self.memory[self.before..][..self.original.len()]
    }

    pub fn slice_mut(&mut self) -> &mut [T] {
        &mut self.memory[self.before..][..self.original.len()]
    }

    /// No element around the slice was written.
    pub fn check_guards(&self, what: &str) {
        let (front, rest) = self.memory.split_at(self.before);
        let around = front.iter().chain(&rest[self.original.len()..]);
        assert!(around.clone().all(|x| *x == self.guard), "{what}: written outside of the slice");
    }

    /// The slice holds what it held at first from the index on, and the guards stand.
    pub fn check_unchanged_from(&self, index: usize, what: &str) {
        self.check_guards(what);
        let (now, then) = (&self.slice()[index..], &self.original[index..]);
        if let Some(i) = (0..now.len()).find(|&i| now[i] != then[i]) {
            panic!("{what}: index {} was {:?} and is {:?}", index + i, then[i], now[i]);
        }
    }
}

/// Bytes that differ from their neighbours, for a buffer in which what is left must stay in its place.
pub fn counting_bytes(length: usize) -> Vec<u8> {
    (0..length).map(|i| (i % 251) as u8).collect()
}
