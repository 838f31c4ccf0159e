//! Letters, their values and their runs: "The bytes A, C, G, T and a, c, g, t have values 0, 1, 2, 3".

/// The value of a letter, or none outside the eight.
pub fn value(letter: u8) -> Option<u32> {
    match letter {
        b'A' | b'a' => Some(0),
        b'C' | b'c' => Some(1),
        b'G' | b'g' => Some(2),
        b'T' | b't' => Some(3),
        _ => None,
    }
}

/// A run: the values of neighbouring letters of the eight, and the index of its first letter.
#[derive(Clone, Debug, PartialEq, Eq)]
pub struct Run {
    pub first: usize,
    pub values: Vec<u32>,
}

/// The runs of the letters: "a letter outside the eight ends the run".
pub fn runs(letters: &[u8]) -> Vec<Run> {
    let mut runs = Vec::new();
    let mut run = Run { first: 0, values: Vec::new() };
    for (index, &letter) in letters.iter().enumerate() {
        match value(letter) {
            Some(value) => run.values.push(value),
            None => {
                runs.push(run);
                run = Run { first: index + 1, values: Vec::new() };
            }
        }
    }
    runs.push(run);
    runs.retain(|run| !run.values.is_empty());
    runs
}
