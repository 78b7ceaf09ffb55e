//! Memories to lend, each between guard words.

use crate::random::Random;
use std::ops::{Deref, DerefMut};

const GUARD_WORDS: usize = 32;
const GUARD: u32 = 0xC0DE_CAFE;

#[derive(Clone)]
pub struct Memory {
    /// Guard words, the room, guard words.
    words: Vec<u32>,
}

impl Memory {
    pub fn new(room: usize) -> Memory {
        let mut words = vec![GUARD; room + 2 * GUARD_WORDS];
        words[GUARD_WORDS..GUARD_WORDS + room].fill(0);
        Memory { words }
    }

    pub fn room(&self) -> usize {
        self.words.len() - 2 * GUARD_WORDS
    }

    /// The first `length` words of the room.
    pub fn first(&self, length: usize) -> &[u32] {
        &self.words[GUARD_WORDS..][..length]
    }

    pub fn first_mut(&mut self, length: usize) -> &mut [u32] {
        &mut self.words[GUARD_WORDS..][..length]
    }

    pub fn all_mut(&mut self) -> &mut [u32] {
        let room = self.room();
        self.first_mut(room)
    }

    pub fn fill(&mut self, random: &mut Random) {
        let few = random.chance(1, 4);
        for word in self.all_mut() {
            *word = if few { random.word() & 0xFF } else { random.word() };
        }
    }

    /// Lends the first `length` words: in place, or as a block of exactly that length, so that a tool that watches blocks sees
    /// a read beyond them.
    pub fn lend(&mut self, length: usize, exact: bool) -> Lent<'_> {
        let home = self.first_mut(length);
        let block = exact.then(|| home.to_vec().into_boxed_slice());
        Lent { home, block }
    }

    /// Where the two first differ, guard words included, in words from the room's start.
    pub fn difference(&self, other: &Memory) -> Option<(i64, u32, u32)> {
        if self.words == other.words {
            return None;
        }
        let place = self.words.iter().zip(&other.words).position(|(one, two)| one != two)?;
        Some((place as i64 - GUARD_WORDS as i64, self.words[place], other.words[place]))
    }
}

/// A lent memory. A block is copied home at the end.
pub struct Lent<'a> {
    home: &'a mut [u32],
    block: Option<Box<[u32]>>,
}

impl Deref for Lent<'_> {
    type Target = [u32];
    fn deref(&self) -> &[u32] {
        self.block.as_deref().unwrap_or(self.home)
    }
}

impl DerefMut for Lent<'_> {
    fn deref_mut(&mut self) -> &mut [u32] {
        self.block.as_deref_mut().unwrap_or(self.home)
    }
}

impl Drop for Lent<'_> {
    fn drop(&mut self) {
        if let Some(block) = &self.block {
            self.home.copy_from_slice(block);
        }
    }
}
