//! Part 10, continued: what wide numbers make of files. Slow steps, long
//! windows, and spacings and times above 2^32.

use crate::call::{Answer, Call, Kind};
use crate::chain::{self, prepare};
use crate::comparer::Comparer;
use crate::generate::set_of_values;
use crate::random::Random;
use crate::records::*;

pub fn part(comparer: &mut Comparer, seed: u64) {
    let random = Random::new(seed);
    let mut wide = Wide { comparer, random };
    wide.places();
    wide.spacings();
    wide.far_spacings();
    wide.slow_steps();
    wide.sums();
    wide.far_times();
    wide.long_skips();
    wide.far_clocks();
}

/// Every step takes one tick, and the period is the longest.
const QUICK: Settings = Settings {
    set: 1,
    read: 1,
    write: 1,
    beat: 1,
    save: 1,
    spacing: 1,
    window: 4,
    period: MOST_PERIOD,
    multiply: None,
    wide: true,
};

/// Commands take nearly all of a window.
const CROWDED: Settings = Settings {
    beat: 65_535,
    save: 65_535,
    ..QUICK
};

struct Wide<'a> {
    comparer: &'a mut Comparer,
    random: Random,
}

/// The ticks of SET, READ, WRITE, BEAT and SAVE, in two records.
fn of_ticks([set, read, write, beat, save]: [u16; 5]) -> Settings {
    Settings {
        set,
        read,
        write,
        beat,
        save,
        ..QUICK
    }
}

/// A step of each operation, a READ and a WRITE, with their ticks. The numbers
/// of multiplying stand in other places of each.
fn steps(numbers: &Settings) -> Vec<(Record, u32)> {
    let (sets, multiply) = (numbers.set.into(), numbers.multiply_ticks());
    vec![
        (set(COPY, 3, 0, 3), sets),
        (set(ADD, 3, 3, 19), sets),
        (set(SUBTRACT, 3, 3, 19), sets),
        (set(MULTIPLY, 2, 1, 0), multiply),
        (set(COPY + VARIABLE, 3, 0, 3), sets),
        (set(ADD + VARIABLE, 3, 3, 3), sets),
        (set(SUBTRACT + VARIABLE, 3, 3, 3), sets),
        (set(MULTIPLY + VARIABLE, 2, 1, 0), multiply),
        (read(3, 3), numbers.read.into()),
        (write(3, 3), numbers.write.into()),
    ]
}

fn form_of(kind: Kind, of_others: u8) -> u8 {
    match kind {
        Kind::Equalise | Kind::Prepare => TASK,
        Kind::LayOut => EQUALISED,
        _ => of_others,
    }
}

impl Wide<'_> {
    fn expect(
        &mut self,
        kind: Kind,
        settings: &[u8],
        file: (u8, &[u8]),
        change: impl Fn(&mut Call),
        expected: Answer,
    ) {
        let mut call = Call::new(kind, settings, file.0, file.1, &mut self.random);
        change(&mut call);
        self.comparer.expect(&call, expected);
    }

    /// Each step takes the ticks in its own place, in either form.
    fn places(&mut self) {
        let narrow = of_ticks([2, 3, 5, 7, 11]);
        let wide = of_ticks([258, 515, 772, 1029, 1286]);
        let slow = of_ticks([65_535, 65_280, 256, 255, 32_768]);
        let all = [
            Settings {
                wide: false,
                ..narrow
            },
            narrow,
            narrow.with_multiply(13),
            wide.with_multiply(1543),
            slow,
            slow.with_multiply(1),
            narrow.with_multiply(65_535),
        ];
        for numbers in all {
            let settings = numbers.bytes();
            for (step, ticks) in steps(&numbers) {
                for form in [TASK, EQUALISED] {
                    self.lasts(&settings, (form, &step), ticks);
                }
                self.lasts_laid(&settings, &step, ticks);
                self.lasts_prepared(&numbers, &step, ticks);
            }
            for (command, ticks) in [(beat(3), numbers.beat), (save(), numbers.save)] {
                self.lasts_laid(&settings, &command, ticks.into());
            }
            // Relations have the numbers of operations too.
            for relation in [MULTIPLY, MULTIPLY + VARIABLE] {
                let sides = bytes(&[test(IF, relation, 3, 3), otherwise(), end()]);
                self.lasts_laid(&settings, &sides, 1);
            }
        }
    }

    /// A file of one step, in every call that counts its ticks.
    fn lasts(&mut self, settings: &[u8], file: (u8, &[u8]), ticks: u32) {
        let overran = false;
        let ended = Answer::Ended {
            tick: ticks,
            overran,
        };
        self.expect(Kind::Time, settings, file, |_| {}, Answer::Time(ticks));
        for kind in [Kind::Run, Kind::Restart] {
            self.expect(kind, settings, file, |_| {}, ended.clone());
        }
        let (tick, saved) = (ticks - 1, false);
        let cut = Answer::Stopped { tick, saved };
        let kind = Kind::RunUntil;
        self.expect(kind, settings, file, |call| call.stop = tick, cut);
        let past = Answer::refused(12);
        self.expect(kind, settings, file, |call| call.stop = ticks, past);
    }

    /// The same of a laid file, which is taken up before the step too.
    fn lasts_laid(&mut self, settings: &[u8], step: &[u8], ticks: u32) {
        self.lasts(settings, (LAID, step), ticks);
        let (tick, overran) = (7 + ticks, false);
        let saved = [&save(), step].concat();
        let after = |call: &mut Call| call.lent.image = image(1, 7, &[0; 16]);
        let ended = Answer::Ended { tick, overran };
        self.expect(Kind::Resume, settings, (LAID, &saved), after, ended);
    }

    /// A task of one step, equalised, and laid out in the shortest window: SKIPs
    /// fill it where the step is not the longest.
    fn lasts_prepared(&mut self, numbers: &Settings, step: &Record, ticks: u32) {
        let settings = numbers.bytes();
        let room = |call: &mut Call| call.lent.out = vec![9; 12];
        let (bytes, time) = (12, ticks);
        let equal = Answer::Written { bytes, time };
        self.expect(Kind::Equalise, &settings, (TASK, step), room, equal);
        let (window, beat_ticks) = (numbers.least_window(), u32::from(numbers.beat));
        let rest = window - beat_ticks - u32::from(numbers.save) - ticks;
        let total = window + beat_ticks;
        let last = beat((MOST_PERIOD - total).div_ceil(window));
        let mut laid = vec![beat(1), save(), *step, skip(rest), last];
        if rest == 0 {
            laid.remove(3);
        }
        let numbers = numbers.with_window(window);
        self.laid(&numbers, step, &laid.concat(), total);
    }

    /// SAVEs stand at the multiples of K x H, whatever the low byte of K.
    fn spacings(&mut self) {
        for spacing in [1, 2, 254, 255, 256, 257, 512, 513, 2000] {
            let numbers = Settings { spacing, ..QUICK };
            let task = bytes(&[skip(3 * u32::from(spacing) + 20), write(0, 0)]);
            self.saves(&numbers, &task);
        }
        // A SAVE at the low byte's multiple would show.
        for spacing in [32_767, 65_281, 65_535] {
            let numbers = Settings { spacing, ..QUICK };
            self.saves(&numbers, &bytes(&[skip(900), write(0, 0)]));
        }
    }

    fn saves(&mut self, numbers: &Settings, task: &[u8]) {
        let prepared = prepare(self.comparer, &mut self.random, numbers, task);
        let Some(prepared) = prepared else {
            return self.comparer.fault("a task is not laid out");
        };
        let apart = numbers.ticks_between_saves() as usize;
        let commands = u32::from(numbers.beat) + u32::from(numbers.save);
        let last = prepared.total - u32::from(numbers.beat);
        let due = (0..last).step_by(apart).map(|start| start + commands);
        if !due.eq(prepared.walk.save_ends.iter().copied()) {
            let text = format!("SAVEs end at {:?}", prepared.walk.save_ends);
            self.comparer.fault(&text);
        }
        let set = set_of_values(&mut self.random);
        let Some(whole) = prepared.run_all(self.comparer, &mut self.random, &set) else {
            return;
        };
        let ends = prepared.walk.save_ends.iter().rev().take(3);
        let stops = ends.flat_map(|end| [end - 1, *end, end + 1]);
        let job = prepared.job(LAID, &set);
        for tick in stops.chain([whole.tick - 1, whole.tick]) {
            chain::stop(self.comparer, &mut self.random, &job, &whole, tick);
        }
    }

    /// K x H is at 2^32 or above it, and no tick of the file is a multiple of
    /// it but 0. Modulo 2^32 it would be 0, H, 2 x H or a number below H.
    fn far_spacings(&mut self) {
        const PAIRS: [(u16, u32); 12] = [
            (16_384, 262_144),
            (16_385, 262_144),
            (49_153, 262_144),
            (32_768, 131_072),
            (32_769, 131_072),
            (32_770, 131_072),
            (32_769, 393_216),
            (65_535, 65_537),
            (65_535, 65_538),
            (65_535, 131_072),
            (65_535, 333_333),
            (65_535, 499_999),
        ];
        for (spacing, window) in PAIRS {
            let numbers = Settings { spacing, ..QUICK }.with_window(window);
            let task = bytes(&[skip(2 * window - 4), write(0, 0)]);
            let left = MOST_PERIOD - 2 * window - 1;
            let laid = bytes(&[
                beat(1),
                save(),
                skip(window - 2),
                beat(1),
                skip(window - 2),
                write(0, 0),
                beat(left.div_ceil(window)),
            ]);
            self.laid(&numbers, &task, &laid, 2 * window + 1);
            self.saves(&numbers, &task);
        }
    }

    /// A task that equalising leaves as it is, laid out in one call and in two.
    fn laid(&mut self, numbers: &Settings, task: &[u8], laid: &[u8], total: u32) {
        let settings = numbers.bytes();
        for kind in [Kind::LayOut, Kind::Prepare] {
            let call = Call::new(kind, &settings, TASK, task, &mut self.random);
            let call = call.with_out(laid.len() + 5, &mut self.random);
            self.comparer.expect_written(&call, laid, total);
        }
    }

    /// The slowest steps in the smallest window for them, stopped about every
    /// end of a step.
    fn slow_steps(&mut self) {
        let ticks = 65_535;
        let numbers = Settings {
            set: 65_535,
            read: 65_535,
            write: 65_535,
            beat: 65_535,
            save: 65_535,
            spacing: 2,
            window: 3 * ticks,
            ..QUICK
        };
        let task = bytes(&[read(0, 0), set(ADD, 0, 0, 1), write(0, 0), write(0, 1)]);
        let prepared = prepare(self.comparer, &mut self.random, &numbers, &task);
        let Some(prepared) = prepared else {
            return self.comparer.fault("a task is not laid out");
        };
        let set = set_of_values(&mut self.random);
        for form in [TASK, EQUALISED, LAID] {
            let job = prepared.job(form, &set);
            let (_, Some(whole)) = chain::run(self.comparer, &mut self.random, &job) else {
                return self.comparer.fault("a task does not run");
            };
            let ends = (ticks..=whole.tick).step_by(ticks as usize);
            for tick in ends.flat_map(|end| [end - ticks / 2, end - 1, end, end + 1]) {
                chain::stop(self.comparer, &mut self.random, &job, &whole, tick);
            }
        }
    }

    /// Times of slow steps at the period and one past it.
    fn sums(&mut self) {
        let slow = Settings {
            set: 40_000,
            read: 300,
            write: 65_535,
            ..QUICK
        };
        let few = bytes(&[set(ADD, 0, 0, 1), read(0, 0), write(0, 0), write(0, 0)]);
        let many = vec![write(0, 0); 15];
        let exact = bytes(&[many.clone(), vec![skip(16_975)]].concat());
        let files = [few, bytes(&many), exact];
        for (file, time) in files.into_iter().zip([171_370, 983_025, MOST_PERIOD]) {
            for period in [time, time - 1] {
                let settings = slow.with_period(period).bytes();
                self.all_timed(&settings, &file, time, period);
            }
        }
        let longer = bytes(&[many, vec![skip(16_976)]].concat());
        self.all_timed(&slow.bytes(), &longer, MOST_PERIOD + 1, MOST_PERIOD);
    }

    /// A file of steps alone, in each call that answers its time or runs it.
    fn all_timed(&mut self, settings: &[u8], file: &[u8], time: u32, period: u32) {
        let (tick, overran) = (time, false);
        let ended = Answer::Ended { tick, overran };
        let (tick, saved) = (1, false);
        let bytes = file.len();
        let taken = [
            (Kind::Time, Answer::Time(time)),
            (Kind::Equalise, Answer::Written { bytes, time }),
            (Kind::Run, ended.clone()),
            (Kind::RunUntil, Answer::Stopped { tick, saved }),
            (Kind::Restart, ended),
        ];
        for (kind, answer) in taken {
            let lend = |call: &mut Call| {
                call.lent.out = vec![9; bytes];
                call.stop = tick;
            };
            let expected = if time <= period {
                answer
            } else {
                Answer::refused(8)
            };
            for form in [TASK, EQUALISED, LAID] {
                let file = (form_of(kind, form), file);
                self.expect(kind, settings, file, lend, expected.clone());
            }
        }
    }

    /// Loops whose time is 2^32, or a little more, so that it would be short if
    /// it were taken modulo that.
    fn far_times(&mut self) {
        let slow = Settings {
            write: 65_535,
            ..QUICK
        };
        let settings = slow.with_window(70_000).bytes();
        for kind in Kind::OF_FILES {
            for form in [TASK, EQUALISED] {
                let form = form_of(kind, form);
                // A round of WHILE has a tick more than its body: the test.
                let (opens, least) = if form == TASK { (WHILE, 1) } else { (TIMES, 2) };
                for more in 0..4 {
                    let opening = vec![repeat(opens, BELOW, 0, 0, 65_535), write(0, 0)];
                    let short = vec![set(ADD, 0, 0, 1); least + more];
                    let file = bytes(&[opening, short, vec![end()]].concat());
                    let refused = Answer::refused(8);
                    self.expect(kind, &settings, (form, &file), |_| {}, refused);
                }
            }
        }
    }

    /// With one tick beside the commands of a window, a SKIP of 7 still fits
    /// the period, and one of 1,000,000 would last 131,071,000,000 ticks.
    fn long_skips(&mut self) {
        let numbers = CROWDED.with_window(131_071);
        let windows = [beat(1), save(), skip(1)].repeat(7);
        let laid = bytes(&[windows, vec![beat(1)]].concat());
        self.laid(&numbers, &skip(7), &laid, 7 * 131_071 + 65_535);
        for count in [8, 1000, 999_999, 1_000_000] {
            self.too_long(TASK, &numbers, &[skip(count)]);
        }
        let sides = [test(IF, EQUAL, 0, 0), skip(999_999), otherwise(), end()];
        self.too_long(TASK, &numbers, &sides);
    }

    /// With two ticks beside them, 65,536 steps last 2^32 ticks. Those after them
    /// would be at the start again if the clock went by 32 bits.
    fn far_clocks(&mut self) {
        let numbers = CROWDED.with_window(131_072);
        for more in [0, 1, 6, 10] {
            self.too_long(TASK, &numbers, &[skip(65_536 + more)]);
            self.too_long(TASK, &numbers, &[write(0, 0), skip(65_535 + more)]);
            // The last test is a step too.
            let rounds = vec![repeat(TIMES, BELOW, 0, 0, 65_535), write(0, 0), end()];
            let steps = vec![write(0, 0); more as usize];
            self.too_long(EQUALISED, &numbers, &[rounds, steps].concat());
        }
    }

    /// A file whose own time is within the period, but not that of the laid one.
    /// A task is handed over as an equalised file too: it has no loops.
    fn too_long(&mut self, form: u8, numbers: &Settings, file: &[Record]) {
        let (settings, file) = (numbers.bytes(), bytes(file));
        let kinds: &[Kind] = match form {
            TASK => &[Kind::LayOut, Kind::Prepare],
            _ => &[Kind::LayOut],
        };
        for &kind in kinds {
            let call = Call::new(kind, &settings, form, &file, &mut self.random);
            let call = call.with_out(MOST_BYTES, &mut self.random);
            self.comparer.expect(&call, Answer::refused(8));
        }
    }
}
