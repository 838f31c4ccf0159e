//! Document 01's table of refusals, with the calls and the numbers of document 02, and how often each number was met by which call.

use std::collections::BTreeMap;

/// Each number, and the calls that return it, by name.
const TABLE: [(u32, &[&str]); 17] = [
    (1, &["count", "save", "sketch"]),
    (2, &["count", "save", "sketch"]),
    (3, &["count", "sketch"]),
    (4, &["load", "reverse complement", "save", "sketch", "strike", "strike of the read"]),
    (5, &["save", "strike", "strike of the read"]),
    (6, &["strike", "strike of the read"]),
    (7, &["start"]),
    (8, &["start", "start, Jaccard", "strike", "strike of the read"]),
    (9, &["start", "start, Jaccard"]),
    (10, &["start", "start, Jaccard", "step"]),
    (11, &["start", "start, Jaccard"]),
    (12, &["load"]),
    (13, &["load"]),
    (14, &["load"]),
    (15, &["step"]),
    (16, &["per mille"]),
    (17, &["start, Jaccard"]),
];

#[derive(Default)]
pub struct Refusals {
    met: BTreeMap<u32, BTreeMap<&'static str, usize>>,
}

impl Refusals {
    pub fn meet(&mut self, call: &'static str, number: u32) {
        *self.met.entry(number).or_default().entry(call).or_default() += 1;
    }

    /// Prints what was met. Whether each number of the table was met by exactly the calls that return it.
    pub fn print(&self) -> bool {
        println!("\nRefusal numbers met, each with its second value where it has one");
        for (number, calls) in &self.met {
            let calls: Vec<String> = calls.iter().map(|(call, times)| format!("{call} {times}")).collect();
            println!("  {number}: {}", calls.join(", "));
        }
        let met: Vec<(u32, Vec<&str>)> =
            self.met.iter().map(|(&number, calls)| (number, calls.keys().copied().collect())).collect();
        let all = met.iter().map(|(number, calls)| (*number, calls.as_slice())).eq(TABLE);
        println!("  {}", if all { "all of the table, by each call" } else { "NOT THE WHOLE TABLE" });
        all
    }
}
