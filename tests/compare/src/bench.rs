//! Part 1: the bench tasks, with the numbers that the paper gives for them,
//! and every stop tick of every path.

use crate::call::{Answer, Call, Kind, Outcome, Set};
use crate::chain::{self, prepare, Prepared};
use crate::comparer::Comparer;
use crate::random::Random;
use crate::records::*;
use std::collections::BTreeSet;

pub const BENCH: Settings = Settings {
    set: 3,
    read: 3,
    write: 3,
    beat: 3,
    save: 10,
    spacing: 4,
    window: 20,
    period: 100,
    multiply: None,
    wide: false,
};

const LISTING_B: &str =
    "0 BEAT 1\n3 SAVE\n13 READ 0 0\n16 WRITE 0 0\n19 SKIP 1\n20 BEAT 4\n23 end\n";

/// The factorial: variable 0 is `i`, variable 1 is `o`.
pub fn factorial() -> Vec<u8> {
    bytes(&[
        read(0, 0),
        test(IF, ABOVE, 0, 10),
        set(COPY, 0, 0, 10),
        set(COPY, 1, 0, 1),
        otherwise(),
        set(COPY, 1, 0, 1),
        end(),
        repeat(WHILE, ABOVE, 0, 0, 10),
        set(MULTIPLY + VARIABLE, 1, 1, 0),
        set(SUBTRACT, 0, 0, 1),
        end(),
        write(1, 0),
    ])
}

fn case_b() -> Vec<u8> {
    bytes(&[read(0, 0), write(0, 0)])
}

fn case_h() -> Vec<u8> {
    bytes(&[
        read(0, 0),
        set(COPY, 1, 0, 7),
        test(IF, EQUAL, 0, 1),
        set(ADD, 1, 1, 1),
        otherwise(),
        end(),
    ])
}

fn case_i() -> Vec<u8> {
    bytes(&[read(0, 0), read(1, 1), write(1, 1)])
}

fn case_j() -> Vec<u8> {
    bytes(&[repeat(WHILE, EQUAL, 0, 0, 2), skip(1), end()])
}

/// The lettered tasks that are laid out, with their settings.
pub fn lettered() -> Vec<(Settings, Vec<u8>)> {
    vec![
        (BENCH, Vec::new()),
        (BENCH, case_b()),
        (BENCH.with_period(200), factorial()),
        (BENCH.with_period(143), factorial()),
        (BENCH.with_window(16), Vec::new()),
        (BENCH, case_h()),
        (BENCH, case_i()),
        (BENCH, case_j()),
    ]
}

fn nested(depth: usize) -> Vec<u8> {
    let blocks = |_| [test(IF, EQUAL, 0, 0), otherwise()];
    let opening: Vec<Record> = (0..depth).flat_map(blocks).collect();
    bytes(&[opening, vec![end(); depth]].concat())
}

fn inputs(first: u32) -> Set {
    let mut inputs = vec![5; 8];
    inputs[0] = first;
    Set {
        variables: vec![0; 16],
        inputs,
    }
}

struct Bench<'a> {
    comparer: &'a mut Comparer,
    random: Random,
}

pub fn part(comparer: &mut Comparer, seed: u64) {
    let random = Random::new(seed);
    let mut bench = Bench { comparer, random };
    bench.laid_files();
    bench.refusals();
    bench.overrun();
    bench.taking_up();
    bench.results();
    bench.every_stop();
}

impl Bench<'_> {
    /// Compares a number of the paper with the one found.
    fn expect<T: PartialEq + std::fmt::Debug>(&mut self, what: &str, found: T, expected: T) {
        if found != expected {
            let text = format!("{what} is {found:?}, by the paper {expected:?}");
            self.comparer.fault(&text);
        }
    }

    fn prepared(&mut self, settings: &Settings, task: &[u8]) -> Prepared {
        prepare(self.comparer, &mut self.random, settings, task).expect("a bench task is laid out")
    }

    fn make(&mut self, kind: Kind, settings: &Settings, form: u8, file: &[u8]) -> Outcome {
        let settings = settings.bytes();
        let call = Call::new(kind, &settings, form, file, &mut self.random)
            .with_out(MOST_BYTES, &mut self.random);
        self.comparer.call(&call)
    }

    fn laid_files(&mut self) {
        let a = self.prepared(&BENCH, &[]);
        let laid = bytes(&[beat(1), save(), skip(7), beat(4)]);
        self.expect("A", (a.laid, a.total), (laid, 23));
        let b = self.prepared(&BENCH, &case_b());
        let laid = [beat(1), save(), read(0, 0), write(0, 0), skip(1), beat(4)];
        self.expect("B", (b.laid, b.total), (bytes(&laid), 23));
        let listing = second::list(&BENCH.bytes(), &case_b());
        self.expect("B's listing", listing.trim_end(), LISTING_B.trim_end());
        self.case_c();
        let d = self.prepared(&BENCH.with_period(143), &factorial());
        self.expect("D's last value", last_value(&d.laid), 0);
        let f = self.prepared(&BENCH.with_window(16), &[]);
        self.expect("F's total", f.total, 19);
        let h = self.prepared(&BENCH, &case_h());
        let starts = starts_of(&h, BEAT);
        self.expect("H's time", (h.time, h.total), (10, 43));
        self.expect("H's beats", starts, vec![0, 20, 20, 40]);
        self.expect("H's end", starts_of(&h, END), vec![26]);
        let i = self.prepared(&BENCH, &case_i());
        let (skips, writes) = (starts_of(&i, SKIP), starts_of(&i, WRITE));
        self.expect("I's steps", (skips[0], writes), (19, vec![23]));
        self.expect("I's total", i.total, 43);
    }

    fn case_c(&mut self) {
        let c = self.prepared(&BENCH.with_period(200), &factorial());
        self.expect("C's times", (c.time, c.total), (84, 143));
        self.expect("C's last value", last_value(&c.laid), 3);
        // A command between the sides of an IF is in both of them.
        let beats: BTreeSet<u32> = starts_of(&c, BEAT).into_iter().collect();
        self.expect("C's beats", beats, (0..=7).map(|n| 20 * n).collect());
        let saves: BTreeSet<u32> = starts_of(&c, SAVE).into_iter().collect();
        self.expect("C's saves", saves, BTreeSet::from([3, 83]));
        self.expect("C's write", starts_of(&c, WRITE), vec![124]);
    }

    fn refusals(&mut self) {
        let e = BENCH.with_period(142);
        let d = self.prepared(&BENCH.with_period(143), &factorial());
        let laid = self.make(Kind::LayOut, &e, EQUALISED, &d.equalised);
        self.expect("E", laid.answer, Answer::refused(8));
        let prepared = self.make(Kind::Prepare, &e, TASK, &factorial());
        self.expect("E, prepared", prepared.answer, Answer::refused(8));
        for kind in [Kind::LayOut, Kind::Prepare] {
            let g = self.make(kind, &BENCH.with_window(15), TASK, &[]);
            self.expect("G", g.answer, Answer::refused(7));
        }
        let eight = self.make(Kind::Time, &BENCH, TASK, &nested(8));
        self.expect("nesting 8", eight.answer, Answer::Time(8));
        let nine = self.make(Kind::Time, &BENCH, TASK, &nested(9));
        self.expect("nesting 9", nine.answer, Answer::refused_at(5, 16));
        let eleven = self.make(Kind::Time, &BENCH, TASK, &case_b()[..11]);
        self.expect("11 bytes", eleven.answer, Answer::refused_at(1, 11));
    }

    fn overrun(&mut self) {
        let j = self.prepared(&BENCH, &case_j());
        let set = inputs(0);
        for (form, tick) in [(TASK, 5), (LAID, 18)] {
            let (outcome, _) = chain::run(self.comparer, &mut self.random, &j.job(form, &set));
            let overran = true;
            self.expect("J", outcome.answer, Answer::Ended { tick, overran });
        }
    }

    /// Case K: the tick from which a stop is taken up.
    fn taking_up(&mut self) {
        let c = self.prepared(&BENCH.with_period(200), &factorial());
        for (stop, from) in [(92, Some(13)), (93, Some(93)), (12, None), (13, Some(13))] {
            let call = Call::new(Kind::RunUntil, &c.settings, LAID, &c.laid, &mut self.random)
                .fed(&inputs(7))
                .stopping_at(stop);
            let outcome = self.comparer.call(&call);
            let saved = matches!(outcome.answer, Answer::Stopped { saved: true, .. });
            let found = saved.then(|| number(&outcome.lent.image, 4));
            self.expect("K's tick", found, from);
        }
    }

    fn results(&mut self) {
        let c = self.prepared(&BENCH.with_period(200), &factorial());
        for (input, output) in [(0, 1), (12, 3_628_800)] {
            let set = inputs(input);
            for form in [TASK, EQUALISED, LAID] {
                let job = c.job(form, &set);
                let (outcome, _) = chain::run(self.comparer, &mut self.random, &job);
                let port = (outcome.lent.levels[0], outcome.lent.marks[0]);
                self.expect("C's output", port, (output, 1));
            }
        }
    }

    fn every_stop(&mut self) {
        let c = BENCH.with_period(200);
        for input in 0..=13 {
            self.stops(&c, &factorial(), &inputs(input));
        }
        self.stops(&BENCH.with_period(143), &factorial(), &inputs(6));
        self.stops(&BENCH.with_window(16), &[], &inputs(0));
        for input in 0..=2 {
            for task in [
                Vec::new(),
                case_b(),
                case_h(),
                case_i(),
                case_j(),
                nested(8),
            ] {
                self.stops(&BENCH, &task, &inputs(input));
            }
        }
    }

    fn stops(&mut self, settings: &Settings, task: &[u8], set: &Set) {
        stops(self.comparer, &mut self.random, settings, task, set);
    }
}

/// All three forms of a task that is laid out, stopped at each tick up to one
/// past the end.
pub fn stops(
    comparer: &mut Comparer,
    random: &mut Random,
    settings: &Settings,
    task: &[u8],
    set: &Set,
) {
    let Some(prepared) = prepare(comparer, random, settings, task) else {
        return comparer.fault("a task is not laid out");
    };
    prepared.run_all(comparer, random, set);
    for form in [TASK, EQUALISED, LAID] {
        let job = prepared.job(form, set);
        let (_, Some(whole)) = chain::run(comparer, random, &job) else {
            return comparer.fault("a task does not run");
        };
        for tick in 0..=whole.tick + 1 {
            chain::stop(comparer, random, &job, &whole, tick);
        }
    }
}

fn last_value(laid: &[u8]) -> u32 {
    number(laid, laid.len() - 8)
}

/// The start ticks of the records of a kind, in file order.
fn starts_of(prepared: &Prepared, kind: u8) -> Vec<u32> {
    let records = records(&prepared.laid);
    let starts = prepared.walk.starts.iter().zip(&records);
    let of_kind = starts.filter(|(_, record)| record[0] == kind);
    of_kind.map(|(&start, _)| start).collect()
}
