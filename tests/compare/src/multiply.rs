//! Part 10, continued: a multiply has ticks of its own. The boards of the
//! examples run the factorial, and small files show where its ticks decide.

use crate::bench::{factorial, stops, BENCH};
use crate::call::{Answer, Call, Kind, Set};
use crate::chain::prepare;
use crate::comparer::Comparer;
use crate::random::Random;
use crate::records::*;

/// The bench's numbers in windows of 40, with a slow multiply.
pub const BOARDS: Settings = Settings {
    window: 40,
    period: 1000,
    multiply: Some(20),
    wide: true,
    ..BENCH
};

/// What stands in the examples.
pub const BOARDS_SETTINGS: &[u8] = include_bytes!("../../../examples/boards.set");
pub const BOARDS_TASK: &[u8] = include_bytes!("../../../examples/boards.task");
pub const BOARDS_LISTING: &str = include_str!("../../../examples/boards.list");

pub fn part(comparer: &mut Comparer, seed: u64) {
    let random = Random::new(seed);
    let mut multiply = Multiply { comparer, random };
    multiply.waits();
    multiply.sides();
    multiply.rounds();
    multiply.boards();
    multiply.every_stop();
}

const PRODUCTS: [u8; 2] = [MULTIPLY, MULTIPLY + VARIABLE];
const OTHERS: [u8; 6] = [
    COPY,
    ADD,
    SUBTRACT,
    COPY + VARIABLE,
    ADD + VARIABLE,
    SUBTRACT + VARIABLE,
];

fn of(operation: u8) -> Record {
    set(operation, 1, 0, 2)
}

struct Multiply<'a> {
    comparer: &'a mut Comparer,
    random: Random,
}

impl Multiply<'_> {
    /// A call that writes these records, whose time or total is known.
    fn writes(&mut self, kind: Kind, file: &[Record], expected: &[Record], time: u32) {
        let (settings, file, expected) = (BOARDS.bytes(), bytes(file), bytes(expected));
        let call = Call::new(kind, &settings, TASK, &file, &mut self.random);
        let call = call.with_out(expected.len() + 5, &mut self.random);
        self.comparer.expect_written(&call, &expected, time);
    }

    /// At tick 36 a window has 4 ticks left. A multiply waits for the next one,
    /// and ends at 63; any other SET fits, and ends at 39.
    fn waits(&mut self) {
        let opening = [beat(1), save(), skip(20), read(0, 0)];
        let task = |step| [skip(20), read(0, 0), step, write(1, 0)];
        for operation in PRODUCTS {
            let step = of(operation);
            let rest = [skip(4), beat(1), step, write(1, 0), skip(14), beat(23)];
            self.prepared(&task(step), &[&opening[..], &rest].concat(), 83);
        }
        for operation in OTHERS {
            let step = of(operation);
            let rest = [step, skip(1), beat(1), write(1, 0), skip(34), beat(23)];
            self.prepared(&task(step), &[&opening[..], &rest].concat(), 83);
        }
    }

    /// A task that equalising leaves as it is, laid out in one call and in two.
    fn prepared(&mut self, task: &[Record], laid: &[Record], total: u32) {
        for kind in [Kind::LayOut, Kind::Prepare] {
            self.writes(kind, task, laid, total);
        }
    }

    /// The side without the multiply gets a SKIP of the difference, 17 ticks. The
    /// sides go from tick 14 to 34.
    fn sides(&mut self) {
        let choice = test(IF, EQUAL, 0, 0);
        for (product, other) in PRODUCTS.into_iter().flat_map(|p| OTHERS.map(|o| (p, o))) {
            let (product, other) = (of(product), of(other));
            let first = [choice, product, otherwise(), other, end()];
            let equal_first = [choice, product, otherwise(), other, skip(17), end()];
            let second = [choice, other, otherwise(), product, end()];
            let equal_second = [choice, other, skip(17), otherwise(), product, end()];
            for (task, equal) in [(first, equal_first), (second, equal_second)] {
                self.writes(Kind::Equalise, &task, &equal, 21);
                let laid = [&[beat(1), save()], &equal[..], &[skip(6), beat(24)]].concat();
                self.writes(Kind::LayOut, &equal, &laid, 43);
                self.writes(Kind::Prepare, &task, &laid, 43);
            }
        }
        // Sides of one length need no SKIP.
        let [product, square] = PRODUCTS.map(of);
        let task = [choice, product, otherwise(), square, end()];
        self.writes(Kind::Equalise, &task, &task, 21);
    }

    /// The side that stands in for a round lasts as long as the body. Laid out,
    /// the first round is from tick 13 to 34. The second tests at 34, and its
    /// multiply waits from 35 to 40; it ends at 63.
    fn rounds(&mut self) {
        let products = PRODUCTS.map(|operation| (operation, 20));
        let others = OTHERS.map(|operation| (operation, 3));
        for (operation, ticks) in products.into_iter().chain(others) {
            let step = of(operation);
            let task = [repeat(WHILE, ABOVE, 0, 0, 2), step, end()];
            let choice = test(IF, ABOVE, 0, 0);
            let body = [choice, step, otherwise(), skip(ticks), end()];
            let opening = [repeat(TIMES, ABOVE, 0, 0, 2)];
            let equal = [&opening[..], &body, &[end()]].concat();
            self.writes(Kind::Equalise, &task, &equal, 2 * (ticks + 1) + 1);
            let check = test(CHECK, ABOVE, 0, 0);
            let (last, total) = match ticks {
                20 => {
                    let taken = [choice, skip(5), beat(1), step, otherwise()];
                    let passed = [skip(5), beat(1), skip(20), end()];
                    let rest = [check, skip(16), beat(23)];
                    ([&taken[..], &passed, &rest].concat(), 83)
                }
                // The rounds end at 17 and 21.
                _ => ([&body[..], &[check, skip(18), beat(24)]].concat(), 43),
            };
            let laid = [&[beat(1), save()], &body[..], &last].concat();
            self.writes(Kind::Prepare, &task, &laid, total);
        }
    }

    /// READ, the IF and WRITE take 13 ticks, each of the 10 rounds 1 + 20 + 3
    /// and the last test 1: 254.
    fn boards(&mut self) {
        if BOARDS.bytes() != BOARDS_SETTINGS || factorial() != BOARDS_TASK {
            self.comparer.fault("the boards' example is another");
        }
        let listing = second::list(BOARDS_SETTINGS, BOARDS_TASK);
        if listing != BOARDS_LISTING {
            self.comparer
                .fault(&format!("the boards' listing:\n{listing}"));
        }
        let call = Call::new(
            Kind::Time,
            BOARDS_SETTINGS,
            TASK,
            BOARDS_TASK,
            &mut self.random,
        );
        self.comparer.expect(&call, Answer::Time(254));
        let task = records(BOARDS_TASK);
        self.writes(Kind::Equalise, &task, &equalised(), 254);
        self.writes(Kind::LayOut, &equalised(), &laid(), 443);
        self.writes(Kind::Prepare, &task, &laid(), 443);
        for (period, fits) in [(443, true), (442, false)] {
            let tight = BOARDS.with_period(period);
            let prepared = prepare(self.comparer, &mut self.random, &tight, BOARDS_TASK);
            if prepared.is_some() != fits {
                self.comparer.fault("the boards' total is another");
            }
        }
    }

    fn every_stop(&mut self) {
        for input in [0, 12] {
            let set = Set {
                variables: vec![0; 16],
                inputs: vec![input; 8],
            };
            stops(self.comparer, &mut self.random, &BOARDS, BOARDS_TASK, &set);
        }
    }
}

/// Of the factorial, what both forms begin with.
fn beginning() -> Vec<Record> {
    let one = set(COPY, 1, 0, 1);
    let taken = [read(0, 0), test(IF, ABOVE, 0, 10), set(COPY, 0, 0, 10), one];
    [&taken[..], &[otherwise(), one, skip(3), end()]].concat()
}

/// One round of it: multiply, then decrement.
fn round() -> [Record; 2] {
    [set(MULTIPLY + VARIABLE, 1, 1, 0), set(SUBTRACT, 0, 0, 1)]
}

fn equalised() -> Vec<Record> {
    let opening = [repeat(TIMES, ABOVE, 0, 0, 10), test(IF, ABOVE, 0, 0)];
    let rest = [otherwise(), skip(23), end(), end(), write(1, 0)];
    [&beginning()[..], &opening, &round(), &rest].concat()
}

/// The rounds test at 23, 66, 106 and so on. What a window has left then is too
/// short for a multiply, and so each waits for the next window; those at 160
/// and 320 begin with a SAVE. The last round ends at 426.
fn laid() -> Vec<Record> {
    const WAITS: [u32; 10] = [16, 13, 13, 13, 3, 13, 13, 13, 3, 13];
    let mut laid = [vec![beat(1), save()], beginning()].concat();
    for (window, wait) in (1..).zip(WAITS) {
        let commands = match window % BOARDS.spacing {
            0 => vec![beat(1), save()],
            _ => vec![beat(1)],
        };
        laid.extend([test(IF, ABOVE, 0, 0), skip(wait)]);
        laid.extend([&commands[..], &round()].concat());
        laid.extend([otherwise(), skip(wait)]);
        laid.extend([&commands[..], &[skip(23), end()]].concat());
    }
    laid.extend([test(CHECK, ABOVE, 0, 0), write(1, 0), skip(10), beat(14)]);
    laid
}
