//! Part 10: settings in one record and in two. Equal numbers give every call
//! the same answer and the same buffers. The river room's example has numbers
//! that only two records hold.

use crate::bench::{lettered, stops};
use crate::call::{Answer, Call, Kind, Outcome, Set};
use crate::chain::prepare;
use crate::comparer::Comparer;
use crate::damaged::{damage, zero};
use crate::generate::{self, set_of_values};
use crate::random::Random;
use crate::records::*;

/// The river boards also multiply slowly, but the task multiplies nothing.
pub const RIVER: Settings = Settings {
    set: 3,
    read: 3,
    write: 900,
    beat: 3,
    save: 10,
    spacing: 2,
    window: 1000,
    period: 10_000,
    multiply: Some(20),
    wide: true,
};

/// What stands in the examples.
pub const RIVER_SETTINGS: &[u8] = include_bytes!("../../../examples/river.set");
pub const RIVER_TASK: &[u8] = include_bytes!("../../../examples/river.task");
pub const RIVER_LISTING: &str = include_str!("../../../examples/river.list");

pub fn part(comparer: &mut Comparer, seed: u64, rounds: u64) {
    let mut random = Random::new(seed);
    river(comparer, &mut random);
    for (settings, task) in lettered() {
        Both::new(comparer, &mut random, &settings).whole_chain(&task);
    }
    generated(comparer, random.next(), rounds);
}

/// Random tasks and numbers, some of them at fault.
pub fn generated(comparer: &mut Comparer, seed: u64, rounds: u64) {
    let mut random = Random::new(seed);
    for _ in 0..rounds {
        let settings = any_numbers(&mut random);
        let size = generate::size(&mut random, TASK);
        let mut task = bytes(&generate::file(&mut random, &settings, TASK, size));
        if random.chance(1, 8) {
            task = damage(&mut random, &task);
        }
        let place = random.chance(1, 8).then(|| random.index(6));
        let mut both = Both::new(comparer, &mut random, &settings);
        if let Some(place) = place {
            zero(&mut both.one, place);
            zero(&mut both.two, place);
        }
        both.whole_chain(&task);
    }
}

/// Numbers that one record has room for, at times out of range or too small.
fn any_numbers(random: &mut Random) -> Settings {
    let numbers = generate::with_room(&generate::small(random));
    match random.below(8) {
        0 => numbers.with_window(numbers.least_window() - 1),
        1 => numbers.with_window(random.pick(&[0, 1, 65_535])),
        2 => numbers.with_period(random.pick(&[0, 1, 50, MOST_PERIOD + 1, u32::MAX])),
        3 => numbers.with_period(MOST_PERIOD),
        _ => numbers,
    }
}

/// Whether a task shows that the numbers in two records are others, as the
/// negative control asks.
pub fn told_apart(one: &Settings, two: &Settings, task: &[u8]) -> bool {
    let (mut comparer, mut random) = (Comparer::new(), Random::new(2));
    comparer.quiet = true;
    let mut both = Both::new(&mut comparer, &mut random, one);
    both.two = two.two_records();
    both.whole_chain(task);
    comparer.differences > 0
}

/// The same numbers in both forms.
struct Both<'a> {
    comparer: &'a mut Comparer,
    random: &'a mut Random,
    one: Record,
    two: Vec<u8>,
}

impl<'a> Both<'a> {
    fn new(comparer: &'a mut Comparer, random: &'a mut Random, numbers: &Settings) -> Both<'a> {
        Both {
            comparer,
            random,
            one: numbers.one_record().expect("the numbers fit"),
            two: numbers.two_records(),
        }
    }

    /// Makes a call under each form, with the same noise in the buffers.
    fn make(
        &mut self,
        kind: Kind,
        form: u8,
        file: &[u8],
        change: impl for<'c> Fn(Call<'c>) -> Call<'c>,
    ) -> Outcome {
        let room = self.random.pick(&[24, 1200, 7200, 7200, MOST_BYTES]);
        let call = Call::new(kind, &self.one, form, file, self.random);
        let call = change(call.with_out(room, self.random));
        let expected = self.comparer.call(&call);
        let settings = &self.two;
        let call = Call { settings, ..call };
        let found = self.comparer.call(&call);
        let same = found.answer == expected.answer && found.lent == expected.lent;
        let what = "equal numbers do the same in both forms";
        self.comparer.hold(same, what, &call, &found);
        found
    }

    fn whole_chain(&mut self, task: &[u8]) {
        let found = second::list(&self.two, task);
        if found != second::list(&self.one, task) {
            let text = format!("listed otherwise in two records: {task:02x?}");
            self.comparer.fault(&text);
        }
        self.make(Kind::Prepare, TASK, task, |call| call);
        self.runs(TASK, task);
        let Some(equalised) = written(self.make(Kind::Equalise, TASK, task, |call| call)) else {
            return;
        };
        self.runs(EQUALISED, &equalised);
        let laid = self.make(Kind::LayOut, EQUALISED, &equalised, |call| call);
        if let Some(laid) = written(laid) {
            self.runs(LAID, &laid);
        }
    }

    /// Times a file, runs it, stops it and takes it up, from the image and from
    /// the start: where no image was written, noise is in its place.
    fn runs(&mut self, form: u8, file: &[u8]) {
        self.make(Kind::Time, form, file, |call| call);
        let set = set_of_values(self.random);
        let whole = self.make(Kind::Run, form, file, |call| call.fed(&set));
        let end = match whole.answer {
            Answer::Ended { tick, .. } => tick,
            _ => 60,
        };
        let stop = self.random.between(0, end);
        let stopped = self.make(Kind::RunUntil, form, file, |call| {
            call.fed(&set).stopping_at(stop)
        });
        for kind in [Kind::Resume, Kind::Restart] {
            self.make(kind, form, file, |call| call.fed(&set).after(&stopped.lent));
        }
    }
}

/// The file that a call wrote.
fn written(outcome: Outcome) -> Option<Vec<u8>> {
    match outcome.answer {
        Answer::Written { bytes, .. } => Some(outcome.lent.out.get(..bytes)?.to_vec()),
        _ => None,
    }
}

/// Its listing, the shortest period for it, and every stop tick on both sides
/// of its IF.
fn river(comparer: &mut Comparer, random: &mut Random) {
    if RIVER.bytes() != RIVER_SETTINGS {
        comparer.fault("river.set has other numbers");
    }
    let listing = second::list(RIVER_SETTINGS, RIVER_TASK);
    if listing != RIVER_LISTING {
        comparer.fault(&format!("the river room's listing:\n{listing}"));
    }
    for (period, fits) in [(3003, true), (3002, false)] {
        let tight = RIVER.with_period(period);
        if prepare(comparer, random, &tight, RIVER_TASK).is_some() != fits {
            comparer.fault("the river room's total is another");
        }
    }
    for probe in [49, 50] {
        let set = Set {
            variables: vec![0; 16],
            inputs: vec![probe; 8],
        };
        stops(comparer, random, &RIVER, RIVER_TASK, &set);
    }
}
