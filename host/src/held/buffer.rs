//! A buffer of 32-bit words or of bytes that is lent to a call: it knows what it held before, and has some items behind the part that
//! is lent.

use std::fmt::Display;

use super::Difference;
use crate::random::Random;

/// Words or bytes that are never lent.
const BEHIND: usize = 16;

/// What a buffer holds.
pub trait Item: Copy + PartialEq + Display {
    /// The lowest bits of a random word.
    fn lowest(word: u64) -> Self;
}

impl Item for u32 {
    fn lowest(word: u64) -> u32 {
        word as u32
    }
}

impl Item for u8 {
    fn lowest(word: u64) -> u8 {
        word as u8
    }
}

#[derive(Clone)]
pub struct Buffer<T = u32> {
    before: Vec<T>,
    items: Vec<T>,
}

impl<T: Item> Buffer<T> {
    /// A buffer of this many items, with random content.
    pub fn new(random: &mut Random, room: usize) -> Buffer<T> {
        let before: Vec<T> = (0..room + BEHIND).map(|_| T::lowest(random.word())).collect();
        Buffer { items: before.clone(), before }
    }

    /// What the lent items held before.
    pub fn before(&self) -> &[T] {
        &self.before[..self.before.len() - BEHIND]
    }

    /// All items that may be lent.
    pub fn lent(&mut self) -> &mut [T] {
        let room = self.items.len() - BEHIND;
        &mut self.items[..room]
    }

    /// Asks that these items stand first, and that the rest is as before.
    pub fn holds(&self, what: &str, first: &[T]) -> Result<(), Difference> {
        same(what, 0, &self.items[..first.len()], first)?;
        same(what, first.len(), &self.items[first.len()..], &self.before[first.len()..])
    }
}

/// Asks that items, of which the first has this index, are the expected ones.
fn same<T: Item>(what: &str, begin: usize, given: &[T], expected: &[T]) -> Result<(), Difference> {
    if given == expected {
        return Ok(());
    }
    let at = given.iter().zip(expected).position(|(given, expected)| given != expected).expect("as many items");
    Err(format!("{what}: index {} holds {} in place of {}", begin + at, given[at], expected[at]))
}
