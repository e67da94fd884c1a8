//! What the programs of bench/run.sh share: their inputs, how time is taken, and how tables are printed.
#![forbid(unsafe_code)]

// The numbers of compare/.
#[path = "../compare/src/generator.rs"]
pub mod generator;
pub mod inputs;

use std::time::{Duration, Instant};

// How long the rounds of a work take, about.
const ROUND: Duration = Duration::from_millis(1);

/// What is timed.
pub struct Work {
    run: Box<dyn FnMut()>,
    // How often in a round.
    times: u32,
    /// The least time of once, in seconds.
    pub least: f64,
}

impl Work {
    /// Runs it, to find how often it fits into a round.
    pub fn new(run: impl FnMut() + 'static) -> Work {
        let mut work = Work { run: Box::new(run), times: 1, least: f64::INFINITY };
        while work.round() < ROUND / 2 {
            work.times *= 2;
        }
        work.least = f64::INFINITY;
        work
    }

    fn round(&mut self) -> Duration {
        let began = Instant::now();
        for _ in 0..self.times {
            (self.run)();
        }
        let took = began.elapsed();
        self.least = self.least.min(took.as_secs_f64() / f64::from(self.times));
        took
    }
}

/// How long works take turns.
pub struct Turns {
    /// At most so many rounds of each.
    pub rounds: usize,
    /// No further round begins after this time.
    pub enough: Duration,
}

impl Turns {
    /// Round by round.
    pub fn take(&self, works: &mut [Work]) {
        let began = Instant::now();
        for _ in 0..self.rounds {
            turn(works);
            if began.elapsed() > self.enough {
                return;
            }
        }
    }
}

fn turn(works: &mut [Work]) {
    for work in works {
        work.round();
    }
}

/// With a comma before each three digits.
pub fn commas(number: f64) -> String {
    let digits = format!("{number:.0}");
    let mut text = String::new();
    for (i, digit) in digits.chars().enumerate() {
        if i > 0 && (digits.len() - i) % 3 == 0 {
            text.push(',');
        }
        text.push(digit);
    }
    text
}

/// The head of a table.
pub fn head(columns: &[&str]) {
    println!("\n| {} |", columns.join(" | "));
    println!("|---{}|", "|--:".repeat(columns.len() - 1));
}

/// A row of a table.
pub fn row(cells: &[String]) {
    println!("| {} |", cells.join(" | "));
}
