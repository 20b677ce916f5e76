//! How many answers of each kind there were.

use crate::wire::Answer;
use std::fmt::{self, Display};

#[derive(Default)]
pub struct Counts {
    pub openings: u64,
    pub unopened: u64,
    done: u64,
    refused: [u64; 7],
    rows: u64,
    numbers: u64,
}

impl Counts {
    pub fn add(&mut self, answer: &Answer) {
        match answer {
            Answer::Done => self.done += 1,
            Answer::Refused(refusal) => self.refused[usize::from(refusal.number)] += 1,
            Answer::Rows(_) => self.rows += 1,
            Answer::Numbers(..) => self.numbers += 1,
        }
    }
}

impl Display for Counts {
    fn fmt(&self, f: &mut fmt::Formatter) -> fmt::Result {
        writeln!(f, "  done          {:>9}", self.done)?;
        for (number, count) in self.refused.iter().enumerate().filter(|(_, n)| **n > 0) {
            writeln!(f, "  refused by {number}  {count:>9}")?;
        }
        writeln!(f, "  rows          {:>9}", self.rows)?;
        writeln!(f, "  numbers       {:>9}", self.numbers)?;
        writeln!(f, "and besides")?;
        writeln!(f, "  openings      {:>9}", self.openings)?;
        write!(f, "  before them   {:>9}", self.unopened)
    }
}
