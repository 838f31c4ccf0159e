//! An open-addressing table of words and how often they were met, for the fastest strikes.
//! Assumes that the number of slots is a power of two, and that one of them stays free.

/// A slot: a word and its times; 0 times is a free slot.
#[derive(Clone, Copy)]
struct Slot {
    word: u32,
    times: u32,
}

const FREE: Slot = Slot { word: 0, times: 0 };

pub struct Counts<const SLOTS: usize> {
    slots: [Slot; SLOTS],
}

impl<const SLOTS: usize> Counts<SLOTS> {
    /// A table without words.
    #[inline(always)]
    pub fn none() -> Counts<SLOTS> {
        Counts { slots: [FREE; SLOTS] }
    }

    /// The slot that holds the word, or the free one where it would go. Codes are often made by a product with a 32-bit number, which
    /// one more such product may crowd into few slots; so it is one of more bits.
    #[inline(always)]
    fn find(&self, word: u32) -> usize {
        let product = u64::from(word).wrapping_mul(0x9e37_79b9_7f4a_7c15) % (1 << 40);
        let mut at = (product >> (40 - SLOTS.trailing_zeros())) as usize;
        loop {
            let slot = self.slots[at % SLOTS];
            if (slot.times == 0) | (slot.word == word) {
                return at % SLOTS;
            }
            at += 1;
        }
    }

    /// The word is met once more. Whether it is new.
    #[inline(always)]
    pub fn meet(&mut self, word: u32) -> bool {
        let at = self.find(word);
        let times = self.slots[at].times + 1;
        self.slots[at] = Slot { word, times };
        times == 1
    }

    /// How often the word was met.
    #[inline(always)]
    pub fn times(&self, word: u32) -> u32 {
        self.slots[self.find(word)].times
    }
}
