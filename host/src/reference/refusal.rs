//! A refused call: the number that document 01 names, and the second value that goes with 4, 11, 12, 13 and 14.

#[derive(Clone, Copy, Debug, PartialEq, Eq)]
pub struct Refusal {
    pub number: u32,
    pub value: Option<usize>,
}

/// A refusal that is a number alone.
pub fn refused(number: u32) -> Refusal {
    Refusal { number, value: None }
}

/// A refusal with a second value: what is needed, h, or the index of a word.
pub fn refused_with(number: u32, value: usize) -> Refusal {
    Refusal { number, value: Some(value) }
}
