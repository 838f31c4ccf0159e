//! The two strands that a read may come from.

use super::complement::reverse_complement;

#[derive(Clone, Copy, Debug, PartialEq, Eq)]
pub enum Strand {
    Forward,
    Reverse,
}

impl Strand {
    /// In the order of a run: "the forward read's final mappings first, then those of the complement".
    pub const BOTH: [Strand; 2] = [Strand::Forward, Strand::Reverse];

    /// The letters that are mapped: the read, or its reverse complement.
    pub fn letters(self, read: &[u8]) -> Vec<u8> {
        match self {
            Strand::Forward => read.to_vec(),
            Strand::Reverse => reverse_complement(read),
        }
    }

    /// The sixth field of a line: "+ or the minus sign of 01".
    pub fn sign(self) -> u8 {
        match self {
            Strand::Forward => b'+',
            Strand::Reverse => 45,
        }
    }
}
