//! The questions once more, in plain Rust: what the library must answer.
use crate::ffi::Entry;
use std::collections::VecDeque;

pub const NOTHING: u32 = 0;

pub struct Page<'a> {
    pub cells: &'a [u32],
    pub keys: usize,
}

impl Page<'_> {
    pub fn shows(&self, k: usize) -> bool {
        self.cells[k] != 0
    }

    pub fn weight(&self, i: usize, j: usize) -> Option<u32> {
        let cell = self.cells[self.keys + self.keys * i + j];
        (self.shows(i) && self.shows(j) && cell != NOTHING).then_some(cell)
    }

    /// The byte of the reason why a question is not answered, or 0.
    pub fn refusal(&self, start: usize, area: usize) -> u8 {
        if self.keys < 1 || self.keys > 64 || self.cells.len() != self.keys + self.keys * self.keys {
            0xE1
        } else if start >= self.keys {
            0xE6
        } else if area < self.keys {
            0xEC
        } else if !self.shows(start) {
            0x13
        } else {
            0
        }
    }

    /// Breadth first with a queue.
    pub fn order(&self, start: usize) -> Vec<u8> {
        let mut seen = vec![false; self.keys];
        let mut queue = VecDeque::from([start]);
        let mut listed = Vec::new();
        seen[start] = true;
        while let Some(k) = queue.pop_front() {
            listed.push(k as u8);
            for j in 0..self.keys {
                if self.weight(k, j).is_some() && !seen[j] {
                    seen[j] = true;
                    queue.push_back(j);
                }
            }
        }
        listed
    }

    /// Offers every edge again until no value gets better.
    pub fn best<M: Measure>(&self, start: usize) -> Vec<Option<u32>> {
        let mut values = vec![None; self.keys];
        values[start] = Some(M::FIRST);
        let mut changed = true;
        while changed {
            changed = false;
            for i in 0..self.keys {
                let Some(from) = values[i] else { continue };
                for j in 0..self.keys {
                    let Some(w) = self.weight(i, j) else { continue };
                    let value = M::extend(from, w);
                    if values[j].is_none_or(|old| M::better(value, old)) {
                        values[j] = Some(value);
                        changed = true;
                    }
                }
            }
        }
        values
    }
}

pub trait Measure {
    const FIRST: u32;
    fn extend(value: u32, weight: u32) -> u32;
    fn better(a: u32, b: u32) -> bool;
}

pub struct Total;

impl Measure for Total {
    const FIRST: u32 = 0;
    fn extend(value: u32, weight: u32) -> u32 {
        (u64::from(value) + u64::from(weight)).min(u64::from(u32::MAX)) as u32
    }
    fn better(a: u32, b: u32) -> bool {
        a < b
    }
}

pub struct Weakest;

impl Measure for Weakest {
    const FIRST: u32 = u32::MAX;
    fn extend(value: u32, weight: u32) -> u32 {
        if weight < value { weight } else { value }
    }
    fn better(a: u32, b: u32) -> bool {
        a > b
    }
}

pub fn entry(value: Option<u32>) -> Entry {
    match value {
        Some(value) => Entry { mark: 1, value },
        None => Entry { mark: 0, value: 0 },
    }
}
