//! Rows 7 to 13 of the table: periods, rooms, buffers, images, stops and a
//! watcher's entries at the limits and past them, each with the answer that the
//! paper gives.

use crate::bench::BENCH;
use crate::call::{Answer, Call, Health, Kind};
use crate::comparer::Comparer;
use crate::random::Random;
use crate::records::*;
use crate::watch::watched;

pub fn part(comparer: &mut Comparer, seed: u64) {
    let random = Random::new(seed);
    let mut limits = Limits { comparer, random };
    limits.times();
    limits.equalising();
    limits.laying_out();
    limits.preparing();
    limits.buffers();
    limits.images();
    limits.stops();
    limits.entries();
}

struct Limits<'a> {
    comparer: &'a mut Comparer,
    random: Random,
}

fn written(bytes: usize, time: u32) -> Answer {
    Answer::Written { bytes, time }
}

fn ended(tick: u32) -> Answer {
    let overran = false;
    Answer::Ended { tick, overran }
}

/// Task A laid out: 23 ticks, with a SAVE that ends at 13.
fn laid_a() -> Vec<u8> {
    bytes(&[beat(1), save(), skip(7), beat(4)])
}

impl Limits<'_> {
    fn write(&mut self, kind: Kind, settings: Settings, file: &[u8], room: usize, is: Answer) {
        let settings = settings.bytes();
        let call = Call::new(kind, &settings, TASK, file, &mut self.random);
        let call = call.with_out(room, &mut self.random);
        self.comparer.expect(&call, is);
    }

    /// A run of a file, in buffers of the right lengths but for the change.
    fn run(
        &mut self,
        kind: Kind,
        form: u8,
        file: &[u8],
        change: impl Fn(&mut Call),
        expected: Answer,
    ) {
        let settings = BENCH.bytes();
        let mut call = Call::new(kind, &settings, form, file, &mut self.random);
        change(&mut call);
        self.comparer.expect(&call, expected);
    }

    /// Row 8.
    fn times(&mut self) {
        for (count, answer) in [(100, Answer::Time(100)), (101, Answer::refused(8))] {
            let (settings, file) = (BENCH.bytes(), skip(count));
            let call = Call::new(Kind::Time, &settings, TASK, &file, &mut self.random);
            self.comparer.expect(&call, answer);
        }
    }

    /// Rows 8 and 9.
    fn equalising(&mut self) {
        let copied = bytes(&[read(0, 0), write(0, 0)]);
        let (long, longer) = (skip(100), skip(101));
        let cases: [(&[u8], usize, Answer); 5] = [
            (&long, 12, written(12, 100)),
            (&long, 11, Answer::refused(9)),
            (&longer, 11, Answer::refused(8)),
            (&copied, 24, written(24, 6)),
            (&copied, 23, Answer::refused(9)),
        ];
        for (task, room, answer) in cases {
            self.write(Kind::Equalise, BENCH, task, room, answer);
        }
    }

    /// Rows 7, 8 and 9, in this order.
    fn laying_out(&mut self) {
        let (empty, longer) = ([], skip(101));
        let cases: [(Settings, &[u8], usize, Answer); 8] = [
            (BENCH.with_window(15), &longer, 0, Answer::refused(7)),
            (BENCH.with_window(16), &empty, 48, written(48, 19)),
            (BENCH, &longer, 0, Answer::refused(8)),
            (BENCH.with_period(23), &empty, 48, written(48, 23)),
            (BENCH.with_period(22), &empty, 48, Answer::refused(8)),
            (BENCH.with_period(22), &empty, 0, Answer::refused(8)),
            (BENCH, &empty, 48, written(48, 23)),
            (BENCH, &empty, 47, Answer::refused(9)),
        ];
        for (settings, file, room, answer) in cases {
            self.write(Kind::LayOut, settings, file, room, answer.clone());
            // Equalising leaves these as they are, but looks at the time before the window.
            let first = if file.is_empty() {
                answer
            } else {
                Answer::refused(8)
            };
            self.write(Kind::Prepare, settings, file, room, first);
        }
    }

    /// What equalising refuses comes first, then what laying out does.
    fn preparing(&mut self) {
        let narrow = BENCH.with_window(15);
        let (long, longer) = (skip(100), skip(101));
        self.write(Kind::Prepare, narrow, &longer, 0, Answer::refused(8));
        self.write(Kind::Prepare, narrow, &long, 0, Answer::refused(7));
        let odd = bytes(&[skip(101), end()]);
        let expected = Answer::refused_at(4, 1);
        self.write(Kind::Prepare, narrow, &odd, 0, expected);
    }

    /// Row 10, after 8 and before 11 and 12.
    fn buffers(&mut self) {
        let (laid, longer) = (laid_a(), skip(101));
        self.run(Kind::Run, LAID, &laid, |_| {}, ended(23));
        let lengths: [fn(&mut Call, usize); 4] = [
            |call, n| call.lent.variables.resize(15 + n, 9),
            |call, n| call.lent.inputs.resize(7 + n, 9),
            |call, n| call.lent.levels.resize(7 + n, 9),
            |call, n| call.lent.marks.resize(7 + n, 9),
        ];
        for resize in lengths {
            // One element too few, and one too many.
            for more in [0, 2] {
                let change = |call: &mut Call| resize(call, more);
                self.run(Kind::Run, LAID, &laid, change, Answer::refused(10));
                self.run(Kind::Run, TASK, &longer, change, Answer::refused(8));
            }
        }
        for kind in [Kind::RunUntil, Kind::Resume] {
            for length in [71, 73] {
                let change = |call: &mut Call| {
                    call.stop = 23;
                    call.lent.image.resize(length, 9);
                };
                self.run(kind, LAID, &laid, change, Answer::refused(10));
            }
        }
    }

    /// Row 11.
    fn images(&mut self) {
        let (laid, saved, waits) = (laid_a(), save(), skip(1));
        let cases: [(u8, &[u8], u32, u32, Answer); 9] = [
            (LAID, &laid, 0, 13, Answer::refused(11)),
            (LAID, &laid, 1, 13, Answer::refused(11)),
            (LAID, &laid, 2, 13, ended(23)),
            (LAID, &laid, 3, 13, Answer::refused(11)),
            (LAID, &laid, 4, 13, Answer::refused(11)),
            (LAID, &laid, 2, 100, ended(110)),
            (LAID, &laid, 2, 101, Answer::refused(11)),
            (LAID, &saved, 1, 10, ended(10)),
            (EQUALISED, &waits, 1, 1, Answer::refused(11)),
        ];
        for (form, file, index, tick, answer) in cases {
            let change = |call: &mut Call| call.lent.image = image(index, tick, &[0; 16]);
            self.run(Kind::Resume, form, file, change, answer);
        }
    }

    /// Row 12.
    fn stops(&mut self) {
        let laid = laid_a();
        for (stop, saved) in [(0, false), (12, false), (13, true), (22, true)] {
            let tick = stop;
            let answer = Answer::Stopped { tick, saved };
            self.run(Kind::RunUntil, LAID, &laid, |call| call.stop = stop, answer);
        }
        for (form, file, stop) in [(LAID, &laid[..], 23), (TASK, &[], 0)] {
            let change = |call: &mut Call| call.stop = stop;
            self.run(Kind::RunUntil, form, file, change, Answer::refused(12));
        }
    }

    /// Row 13: the table, the entry, the value and the window.
    fn entries(&mut self) {
        let (well, most) = (watched(Health::Well, 2), watched(Health::Well, 1_000_002));
        let waiting = watched(Health::Waiting, 2);
        let refused = Answer::refused(13);
        let cases = [
            (Kind::Beat, 96, 31, 0, &well),
            (Kind::Beat, 99, 0, 0, &refused),
            (Kind::Beat, 96, 32, 0, &refused),
            (Kind::Beat, 3, 0, 1_000_000, &most),
            (Kind::Beat, 3, 0, 1_000_001, &refused),
            (Kind::Reset, 96, 31, 1, &waiting),
            (Kind::Reset, 96, 31, u32::MAX, &waiting),
            (Kind::Reset, 96, 31, 0, &refused),
            (Kind::Look, 96, 31, 0, &waiting),
            (Kind::Look, 95, 30, 0, &refused),
            (Kind::Look, 0, 0, 0, &refused),
            (Kind::Status, 3, 0, 0, &waiting),
            (Kind::Status, 4, 0, 0, &refused),
            (Kind::Status, 3, 1, 0, &refused),
        ];
        for (kind, length, entry, number, answer) in cases {
            // Every third number is 2, so that each entry waits with count 0.
            let call = Call::watching(kind, &vec![2; length], entry, number);
            self.comparer.expect(&call, answer.clone());
        }
    }
}
