//! The proved calls beside the reference: each is made with buffers of known content, and its answer and every word and byte
//! afterwards are compared.

pub mod buffer;
pub mod complement;
pub mod session;
pub mod sketch;
pub mod store;
pub mod strike;

use crate::reference::refusal::Refusal;

/// What differs, in words.
pub type Difference = String;

/// A call held to the reference: what both answered, or what differs.
pub type Held<T> = Result<Result<T, Refusal>, Difference>;

/// What stands in a word before a call that must write it.
pub const UNWRITTEN: u32 = 0x5eed_5eed;

/// Asks that two values are equal.
pub fn agree<T: PartialEq + std::fmt::Debug>(what: &str, given: T, expected: T) -> Result<(), Difference> {
    if given == expected { Ok(()) } else { Err(format!("{what}: {given:?} in place of {expected:?}")) }
}

/// Asks that a call's number and value are those of the answer: a refusal without a second value has 0 there.
fn agree_with(answer: &Result<usize, Refusal>, number: u32, value: usize) -> Result<(), Difference> {
    let expected = match *answer {
        Ok(value) => (0, value),
        Err(Refusal { number, value }) => (number, value.unwrap_or(0)),
    };
    agree("number and value", (number, value), expected)
}
