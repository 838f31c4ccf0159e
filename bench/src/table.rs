//! The speed table: a line for each job, with the times of the proved function and of plain Rust, and the one over the other.

use crate::timing::Timed;

/// A job's times: the proved function, plain Rust with the same algorithm, and the fastest plain Rust known to us.
pub struct Line {
    pub job: String,
    /// what a time is divided by: so many letters or entries
    pub items: usize,
    /// the most that the proved function may take over plain Rust with the same algorithm
    pub goal: Option<f64>,
    pub ours: Timed,
    pub plain: Timed,
    pub fastest: Timed,
}

pub fn milliseconds(timed: Timed) -> String {
    format!("{:.3}", timed.best.as_secs_f64() * 1e3)
}

/// Nanoseconds for each item.
pub fn each(timed: Timed, items: usize) -> String {
    format!("{:.2}", timed.best.as_secs_f64() * 1e9 / items as f64)
}

/// What one takes over the other.
pub fn ratio(one: Timed, other: Timed) -> f64 {
    one.best.as_secs_f64() / other.best.as_secs_f64()
}

/// The table as it is printed, and the goals that its lines miss, in words.
#[derive(Default)]
pub struct Table {
    missed: Vec<String>,
}

impl Table {
    /// Prints the head.
    pub fn begin() -> Table {
        println!(
            "| job | proved, ms | plain, ms | proved / plain | goal | fastest, ms | proved / fastest | proved, ns each | checksums |"
        );
        println!("|---|---|---|---|---|---|---|---|---|");
        Table::default()
    }

    /// The goal, and by how much it is missed, which is remembered.
    pub fn judged(&mut self, job: &str, ratio: f64, goal: Option<f64>) -> String {
        match goal {
            None => "-".to_string(),
            Some(goal) if ratio <= goal => format!("{goal} met"),
            Some(goal) => {
                let by = format!("by {:.0} %", (ratio / goal - 1.0) * 100.0);
                self.missed.push(format!("{job}: {ratio:.2}, the goal is {goal}, missed {by}"));
                format!("{goal} MISSED {by}")
            }
        }
    }

    /// Prints one line. The checksums are equal, as was asked.
    pub fn print(&mut self, line: &Line) {
        let over = ratio(line.ours, line.plain);
        println!(
            "| {} | {} | {} | {over:.2} | {} | {} | {:.2} | {} | {} |",
            line.job,
            milliseconds(line.ours),
            milliseconds(line.plain),
            self.judged(&line.job, over, line.goal),
            milliseconds(line.fastest),
            ratio(line.ours, line.fastest),
            each(line.ours, line.items),
            line.ours.made.shown()
        );
    }

    /// Prints the goals that are missed, or that none is.
    pub fn print_goals(&self) {
        if self.missed.is_empty() {
            println!("\nall goals are met");
        }
        for (at, missed) in self.missed.iter().enumerate() {
            println!("{}goal missed: {missed}", if at == 0 { "\n" } else { "" });
        }
    }
}
