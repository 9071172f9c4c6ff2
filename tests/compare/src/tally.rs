//! Counts the answers by their kinds, to show that each kind was met.

use crate::call::{Answer, Health, Kind};
use crate::paper::possible;
use crate::watched::possible_health;

/// The columns of a row: 1 to 13 are the refusals.
const FINISHED: usize = 0;
const OVERRAN_OR_SAVED: usize = 14;
/// The first of four, one for each health.
const WATCHED: usize = 15;
const COLUMNS: usize = 19;
const KINDS: usize = 12;

pub struct Tally {
    counts: [[u64; COLUMNS]; KINDS],
}

impl Tally {
    pub fn new() -> Tally {
        let counts = [[0; COLUMNS]; KINDS];
        Tally { counts }
    }

    pub fn count(&mut self, kind: Kind, answer: &Answer) {
        let column = match *answer {
            Answer::Refused { number, .. } if usize::from(number) < OVERRAN_OR_SAVED => {
                number.into()
            }
            // A number that no refusal has is a difference, and is not counted here.
            Answer::Refused { .. } => COLUMNS,
            Answer::Ended { overran: true, .. } => OVERRAN_OR_SAVED,
            Answer::Stopped { saved: true, .. } => OVERRAN_OR_SAVED,
            Answer::Watched { health, .. } => watched(health),
            _ => FINISHED,
        };
        if let Some(count) = self.counts[kind as usize].get_mut(column) {
            *count += 1;
        }
    }

    /// The kinds of answer there are: how many, and how often the rarest was
    /// met.
    pub fn rarest(&self) -> (usize, u64) {
        let counts: Vec<u64> = Kind::all().flat_map(|kind| self.row(kind)).collect();
        (counts.len(), counts.into_iter().min().unwrap_or(0))
    }

    fn row(&self, kind: Kind) -> Vec<u64> {
        let mut columns: Vec<usize> = possible(kind).iter().map(|&n| usize::from(n)).collect();
        if kind.watches() {
            columns.extend(possible_health(kind).iter().map(|&health| watched(health)));
        } else {
            columns.push(FINISHED);
        }
        if kind.runs() {
            columns.push(OVERRAN_OR_SAVED);
        }
        let row = self.counts[kind as usize];
        columns.into_iter().map(|column| row[column]).collect()
    }
}

fn watched(health: Health) -> usize {
    WATCHED + health as usize
}
