//! What a run made, as checksums of words in their order.

/// The checksum of the words so far.
#[derive(Clone, Copy, Debug, PartialEq, Eq)]
pub struct Sum(u64);

impl Sum {
    /// The checksum of no words.
    pub fn none() -> Sum {
        Sum(1)
    }

    pub fn of(words: impl IntoIterator<Item = u32>) -> Sum {
        let mut sum = Sum::none();
        sum.add(words);
        sum
    }

    pub fn add(&mut self, words: impl IntoIterator<Item = u32>) {
        for word in words {
            self.0 = (self.0 ^ u64::from(word)).wrapping_mul(0x0000_0100_0000_01b3).rotate_left(7);
        }
    }

    pub fn hexadecimal(self) -> String {
        format!("{:016x}", self.0)
    }
}

/// All that a run made.
#[derive(Clone, Copy, Debug, PartialEq, Eq)]
pub struct Made {
    /// what every run of the job makes in the same form
    pub all: Sum,
    /// all words behind a session's steps, where they are laid out as in docs/WORK_WORDS.md
    pub words: Option<Sum>,
}

impl Made {
    /// What is made in one form by every run.
    pub fn of(words: impl IntoIterator<Item = u32>) -> Made {
        Made { all: Sum::of(words), words: None }
    }

    /// Whether two runs made the same, as far as both have it in the same form.
    pub fn agrees(&self, other: &Made) -> bool {
        let words = self.words.zip(other.words).is_none_or(|(one, other)| one == other);
        self.all == other.all && words
    }

    /// The checksums of runs that agree, as the table shows them.
    pub fn shown(&self) -> String {
        let all = self.all.hexadecimal();
        match self.words {
            None => format!("equal: {all}"),
            Some(words) => {
                format!(
                    "answers and words laid out alike equal: {all}; all words of proved and plain equal: {}",
                    words.hexadecimal()
                )
            }
        }
    }
}
