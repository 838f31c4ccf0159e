//! What was compared and what differs, part by part and in sum.

use super::numbers::{Least, Numbers};
use super::refusals::Refusals;
use crate::held::{Difference, Held};
use crate::reference::list::Form;
use crate::reference::refusal::Refusal;

/// How many differences of a part are printed in words.
const SHOWN: usize = 5;

/// What has been met: the numbers of the part in hand, and the refusals of all parts.
#[derive(Default)]
pub struct Met {
    part: Numbers,
    refusals: Refusals,
}

impl Met {
    pub fn refusal(&mut self, call: &'static str, refusal: Refusal) {
        self.part.refusals += 1;
        self.refusals.meet(call, refusal.number);
    }

    /// Takes note of a case that is refused before a list is made.
    pub fn no_list(&mut self, call: &'static str, refusal: Refusal) {
        self.part.listless += 1;
        self.refusal(call, refusal);
    }

    /// Takes note of a list that was compared as a whole, of a text of so many entries and with so many mappings.
    pub fn list(&mut self, form: Form, entries: usize, mappings: usize) {
        self.part.list(form, entries, mappings);
    }

    /// Takes note of what a call answered.
    pub fn answer(&mut self, call: &'static str, answered: Result<usize, Refusal>) {
        if let Err(refusal) = answered {
            self.refusal(call, refusal);
        }
    }
}

#[derive(Default)]
pub struct Tally {
    met: Met,
    sum: Numbers,
    /// the least numbers that parts have missed, in words
    missed: Vec<String>,
}

impl Tally {
    /// Compares one case of the part in hand. `case` names it where it differs.
    pub fn compare(&mut self, case: impl Fn() -> String, run: impl FnOnce(&mut Met) -> Result<(), Difference>) {
        self.met.part.cases += 1;
        if let Err(difference) = run(&mut self.met) {
            self.met.part.differ += 1;
            if self.met.part.differ <= SHOWN {
                println!("  DIFFERS, {}: {difference}", case());
            }
        }
    }

    /// Compares one call.
    pub fn call(&mut self, call: &'static str, case: impl Fn() -> String, held: Held<usize>) {
        self.compare(case, |met| held.map(|answered| met.answer(call, answered)));
    }

    /// Ends the part in hand and prints its numbers.
    pub fn end_part(&mut self, name: &str) {
        let part = std::mem::take(&mut self.met.part);
        println!("  {name}: {part}");
        self.sum += part;
    }

    /// Ends a part that makes lists, and asks for the least that it must compare.
    pub fn end_lists(&mut self, name: &str, least: &Least) {
        for missed in self.met.part.missed(least) {
            self.missed.push(format!("{name}: {missed}"));
        }
        self.end_part(name);
    }

    /// Asks that a part met so many cases of a kind, so that it can't pass without them.
    pub fn ask(&mut self, kind: &str, met: usize, least: usize) {
        if met < least {
            self.missed.push(format!("{kind}: {met}, asked for {least}"));
        }
    }

    /// Prints the refusals met, the least numbers missed and the sums. Whether nothing differs, no least number is missed and the
    /// whole table of refusals was met.
    pub fn print_end(&self) -> bool {
        let all = self.met.refusals.print();
        println!();
        for missed in &self.missed {
            println!("TOO FEW, {missed}");
        }
        println!("In sum: {}", self.sum);
        all && self.missed.is_empty() && self.sum.differ == 0
    }
}
