//! Makes each call through both implementations, compares the two outcomes,
//! and counts.

use crate::call::{make_first, make_second, Answer, Call, Health, Kind, Outcome};
use crate::paper::broken;
use crate::preparing;
use crate::report;
use crate::shrink::shrink;
use crate::tally::Tally;

/// Differences beyond these are counted, but no longer printed.
const PRINTED: u64 = 20;

/// Where the negative control flips a bit.
#[derive(Clone, Copy, PartialEq, Eq, Debug)]
pub enum Place {
    Answer,
    Health,
    Out,
    Variables,
    Inputs,
    Levels,
    Marks,
    Image,
    /// The last number of a watcher's table.
    Table,
    /// The last record of a written file.
    Result,
    /// The margins of the lent buffers.
    Outside,
}

/// A bit to flip in the outcome of each call of one kind: of the first
/// implementation alone, or of both in the same way.
#[derive(Clone, Copy)]
pub struct Flip {
    pub kind: Kind,
    pub place: Place,
    pub both: bool,
}

pub struct Comparer {
    pub calls: u64,
    pub differences: u64,
    /// The seed of the part under way, named with each difference.
    pub seed: u64,
    pub flip: Option<Flip>,
    pub quiet: bool,
    pub tally: Tally,
}

impl Comparer {
    pub fn new() -> Comparer {
        Comparer {
            calls: 0,
            differences: 0,
            seed: 0,
            flip: None,
            quiet: false,
            tally: Tally::new(),
        }
    }

    /// Makes the call through both and hands back the first's outcome.
    pub fn call(&mut self, call: &Call) -> Outcome {
        self.calls += 1;
        let (first, second) = outcomes(call, self.flip);
        self.tally.count(call.kind, &first.answer);
        if let Some(what) = disagreement(call, &first, &second) {
            self.found(&what, call, &first, &second);
        }
        first
    }

    /// Makes the call through both, which must give the paper's answer.
    pub fn expect(&mut self, call: &Call, expected: Answer) {
        let outcome = self.call(call);
        let sound = outcome.answer == expected;
        self.hold(sound, &format!("by the paper {expected:?}"), call, &outcome);
    }

    /// Makes the call through both, which must write these bytes and answer how
    /// many they are, and this time.
    pub fn expect_written(&mut self, call: &Call, expected: &[u8], time: u32) {
        let outcome = self.call(call);
        let bytes = expected.len();
        let answered = outcome.answer == Answer::Written { bytes, time };
        let sound = answered && outcome.lent.out.starts_with(expected);
        self.hold(sound, "written as the paper says", call, &outcome);
    }

    fn found(&mut self, what: &str, call: &Call, first: &Outcome, second: &Outcome) {
        self.differences += 1;
        if self.quiet || self.differences > PRINTED {
            return;
        }
        println!("difference {} (seed {})", self.differences, self.seed);
        report::print_call(what, call, first, second);
        let flip = self.flip;
        let differs = |smaller: &Call| {
            let (first, second) = outcomes(smaller, flip);
            disagreement(smaller, &first, &second).is_some()
        };
        if let Some(file) = shrink(call, differs) {
            println!("  a shorter file with a difference: {}", report::hex(&file));
        }
    }

    /// Counts a difference that is not one of two outcomes.
    pub fn fault(&mut self, text: &str) {
        self.differences += 1;
        if !self.quiet && self.differences <= PRINTED {
            println!("difference {} (seed {})", self.differences, self.seed);
            println!("  {text}");
        }
    }

    /// Counts a statement about several calls that does not hold, naming one
    /// of them.
    pub fn hold(&mut self, statement: bool, what: &str, call: &Call, outcome: &Outcome) {
        if statement {
            return;
        }
        self.differences += 1;
        if !self.quiet && self.differences <= PRINTED {
            println!("difference {} (seed {})", self.differences, self.seed);
            report::print_call(what, call, outcome, outcome);
        }
    }
}

fn outcomes(call: &Call, flip: Option<Flip>) -> (Outcome, Outcome) {
    let (mut first, mut second) = (make_first(call), make_second(call));
    if let Some(flip) = flip.filter(|flip| flip.kind == call.kind) {
        flip_bit(&mut first, flip.place);
        if flip.both {
            flip_bit(&mut second, flip.place);
        }
    }
    (first, second)
}

/// What is wrong with a pair of outcomes: that they differ, a statement of the
/// paper that one of them breaks, or that preparing is not the two calls.
fn disagreement(call: &Call, first: &Outcome, second: &Outcome) -> Option<String> {
    if first.answer != second.answer {
        return Some("the answers differ".to_string());
    }
    if first.lent != second.lent {
        return Some("the lent buffers differ".to_string());
    }
    broken(call, first)
        .or_else(|| broken(call, second))
        .or_else(|| preparing::apart(call, first))
}

fn flip_bit(outcome: &mut Outcome, place: Place) {
    let lent = &mut outcome.lent;
    let flip_byte = |byte: &mut u8| *byte ^= 1;
    let flip_word = |word: &mut u32| *word ^= 1 << 31;
    match place {
        Place::Answer => flip_answer(&mut outcome.answer),
        Place::Health => flip_health(&mut outcome.answer),
        Place::Out => lent.out.last_mut().map_or((), flip_byte),
        Place::Variables => lent.variables.last_mut().map_or((), flip_word),
        Place::Inputs => lent.inputs.last_mut().map_or((), flip_word),
        Place::Levels => lent.levels.last_mut().map_or((), flip_word),
        Place::Marks => lent.marks.last_mut().map_or((), flip_byte),
        Place::Image => lent.image.last_mut().map_or((), flip_byte),
        Place::Table => lent.table.last_mut().map_or((), flip_word),
        Place::Result => flip_result(outcome),
        Place::Outside => outcome.stayed_inside = false,
    }
}

fn flip_result(outcome: &mut Outcome) {
    if let Answer::Written { bytes, .. } = outcome.answer {
        outcome.lent.out[bytes - 8] ^= 1;
    }
}

fn flip_answer(answer: &mut Answer) {
    match answer {
        Answer::Time(time) => *time ^= 1,
        Answer::Written { bytes, .. } => *bytes ^= 1,
        Answer::Ended { overran, .. } => *overran ^= true,
        Answer::Stopped { saved, .. } => *saved ^= true,
        Answer::Watched { left, .. } => *left ^= 1,
        Answer::Refused { number, .. } => *number ^= 1,
        Answer::Panicked => {}
    }
}

/// Another one: waiting and well are taken for each other, and so are suspect
/// and failed.
fn flip_health(answer: &mut Answer) {
    if let Answer::Watched { health, .. } = answer {
        *health = Health::ALL[*health as usize ^ 1];
    }
}
