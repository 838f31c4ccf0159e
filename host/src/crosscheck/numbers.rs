//! How much was compared: cases, lists by the form that they were held to, mappings and refusals, each counted by itself.

use std::fmt;
use std::ops::AddAssign;

use crate::reference::list::Form;

/// The fewest entries of a text that is counted among those of 9 to 24.
const MEDIUM: usize = 9;

#[derive(Clone, Copy, Default)]
pub struct Numbers {
    /// calls, or whole sessions
    pub cases: usize,
    pub differ: usize,
    /// cases that a call refused before a list was made
    pub listless: usize,
    /// lists held to the definition alone, and how many of them are of texts with at least 9 entries
    by_definition: usize,
    medium: usize,
    /// lists held to a faster form
    faster: usize,
    mappings: usize,
    /// refused calls, steps between others included
    pub refusals: usize,
}

/// The least that a part must compare, a little below what its fixed seeds give: it fails where its cases no longer make lists,
/// texts of 9 to 24 entries, or mappings.
pub struct Least {
    pub lists: usize,
    pub medium: usize,
    pub mappings: usize,
}

impl Numbers {
    /// Takes note of a list that was compared as a whole, of a text of so many entries and with so many mappings.
    pub fn list(&mut self, form: Form, entries: usize, mappings: usize) {
        match form {
            Form::Definition => {
                self.by_definition += 1;
                self.medium += usize::from(entries >= MEDIUM);
            }
            Form::Faster => self.faster += 1,
        }
        self.mappings += mappings;
    }

    fn lists(&self) -> usize {
        self.by_definition + self.faster
    }

    /// What is below the least, in words.
    pub fn missed(&self, least: &Least) -> Vec<String> {
        let kinds = [
            ("lists", self.lists(), least.lists),
            ("lists of 9 to 24 entries by the definition", self.medium, least.medium),
            ("mappings", self.mappings, least.mappings),
        ];
        let missed = kinds.into_iter().filter(|&(_, compared, least)| compared < least);
        missed.map(|(kind, compared, least)| format!("{kind} compared {compared}, asked for {least}")).collect()
    }
}

impl AddAssign for Numbers {
    fn add_assign(&mut self, other: Numbers) {
        self.cases += other.cases;
        self.differ += other.differ;
        self.listless += other.listless;
        self.by_definition += other.by_definition;
        self.medium += other.medium;
        self.faster += other.faster;
        self.mappings += other.mappings;
        self.refusals += other.refusals;
    }
}

impl fmt::Display for Numbers {
    fn fmt(&self, f: &mut fmt::Formatter) -> fmt::Result {
        let Numbers { cases, differ, listless, by_definition, medium, faster, mappings, refusals } = self;
        write!(f, "cases {cases}, differ {differ}, ")?;
        if self.lists() > 0 {
            write!(f, "refused before a list {listless}, ")?;
        }
        write!(f, "lists compared {}", self.lists())?;
        if self.lists() > 0 {
            write!(
                f,
                " (by the definition alone {by_definition}, of these {medium} of 9 to 24 entries; by a faster form {faster})"
            )?;
        }
        write!(f, ", mappings compared {mappings}, refusals met {refusals}")
    }
}
