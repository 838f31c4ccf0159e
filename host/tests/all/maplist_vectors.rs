//! The program on the inputs of data/vectors.
//! Assumes that the folder stands at its place in the repository, and that the program has been built.

use host::program::{expect, run_on};

use crate::vector_files::lists;

#[test]
fn printed() {
    for (name, input, expected) in lists() {
        expect(&name, &input, &run_on(&input), &expected);
    }
}
