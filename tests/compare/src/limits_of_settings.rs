//! Part 10, continued: row 6 of the table. Lengths and numbers at the limits
//! and past them, in both forms and for every call that is handed settings,
//! each with the answer that the paper gives.

use crate::bench::BENCH;
use crate::call::{Answer, Call, Kind};
use crate::comparer::Comparer;
use crate::random::Random;
use crate::records::*;
use crate::wide::RIVER;

pub fn part(comparer: &mut Comparer, seed: u64) {
    let random = Random::new(seed);
    let mut row = Row { comparer, random };
    row.lengths();
    row.cut();
    row.least_numbers();
    row.ticks_and_spacings();
    row.windows();
    row.periods();
    row.last_number();
    row.old_settings();
    row.longest_step();
}

/// The smallest numbers under which a file is laid out.
const LEAST: Settings = Settings {
    set: 1,
    read: 1,
    write: 1,
    beat: 1,
    save: 1,
    spacing: 1,
    window: 3,
    period: 100,
    multiply: None,
    wide: false,
};

struct Row<'a> {
    comparer: &'a mut Comparer,
    random: Random,
}

fn in_range(numbers: &Settings) -> bool {
    let mut numbers = *numbers;
    let (window, period) = (numbers.window, numbers.period);
    SMALL_NUMBERS.iter().all(|place| *place(&mut numbers) > 0)
        && (1..=MOST_WINDOW).contains(&window)
        && (1..=MOST_PERIOD).contains(&period)
        && (1..=MOST_MULTIPLY).contains(&numbers.multiply_ticks())
}

/// What a call answers on a file without records, by the numbers alone.
fn on_empty(kind: Kind, numbers: &Settings) -> Answer {
    let total = numbers.window + u32::from(numbers.beat);
    match kind {
        Kind::Time => Answer::Time(0),
        Kind::Equalise => Answer::Written { bytes: 0, time: 0 },
        Kind::LayOut | Kind::Prepare if numbers.window < numbers.least_window() => {
            Answer::refused(7)
        }
        Kind::LayOut | Kind::Prepare if total > numbers.period => Answer::refused(8),
        Kind::LayOut | Kind::Prepare => Answer::Written {
            bytes: 48,
            time: total,
        },
        Kind::RunUntil => Answer::refused(12),
        Kind::Resume => Answer::refused(11),
        _ => Answer::Ended {
            tick: 0,
            overran: false,
        },
    }
}

/// A file without records, laid out.
fn laid_empty(numbers: &Settings) -> Vec<u8> {
    let beat_ticks = u32::from(numbers.beat);
    let rest = numbers.window - beat_ticks - u32::from(numbers.save);
    let left = numbers.period - numbers.window - beat_ticks;
    let windows = left.div_ceil(numbers.window);
    bytes(&[beat(1), save(), skip(rest), beat(windows)])
}

impl Row<'_> {
    /// Refused, and that before anything of the file.
    fn refused(&mut self, settings: &[u8]) {
        for kind in Kind::OF_FILES {
            for file in [&[][..], &[9; 5]] {
                let call = Call::new(kind, settings, TASK, file, &mut self.random);
                self.comparer.expect(&call, Answer::refused(6));
            }
        }
    }

    fn taken(&mut self, settings: &[u8], numbers: &Settings) {
        for kind in Kind::OF_FILES {
            let call = Call::new(kind, settings, TASK, &[], &mut self.random);
            let call = call.with_out(60, &mut self.random);
            let outcome = self.comparer.call(&call);
            let expected = on_empty(kind, numbers);
            let laid = match expected {
                Answer::Written { bytes: 48, .. } => laid_empty(numbers),
                _ => Vec::new(),
            };
            let sound = outcome.answer == expected && outcome.lent.out.starts_with(&laid);
            let what = format!("by the paper {expected:?}");
            self.comparer.hold(sound, &what, &call, &outcome);
        }
    }

    /// In each form that holds the numbers.
    fn numbers(&mut self, numbers: &Settings) {
        let one = numbers.one_record().map(Vec::from);
        for settings in one.into_iter().chain([numbers.two_records()]) {
            match in_range(numbers) {
                true => self.taken(&settings, numbers),
                false => self.refused(&settings),
            }
        }
    }

    /// Lengths other than 12 and 24, the bytes repeated or followed by zeros.
    fn lengths(&mut self) {
        const LENGTHS: [usize; 8] = [0, 11, 13, 23, 25, 36, 48, 96];
        // Right again if only one byte of the length, or two, were looked at.
        const FAR: [usize; 4] = [12 + 256, 24 + 256, 12 + 65_536, 24 + 65_536];
        for good in [LEAST.bytes(), LEAST.two_records()] {
            for length in LENGTHS.into_iter().chain(FAR) {
                let repeated: Vec<u8> = good.iter().copied().cycle().take(length).collect();
                let mut filled = good.clone();
                filled.resize(length, 0);
                self.refused(&repeated);
                self.refused(&filled);
            }
        }
    }

    /// Two records of which the first could stand alone, with other numbers.
    fn cut(&mut self) {
        let two = Settings {
            set: 0x0303,
            read: 0x0303,
            write: 0x040a,
            beat: 20,
            save: 100,
            spacing: 1,
            window: 2000,
            period: 50_000,
            multiply: None,
            wide: true,
        };
        let one = Settings {
            set: 3,
            read: 3,
            write: 3,
            beat: 3,
            save: 10,
            spacing: 4,
            window: 20,
            period: 65_636,
            multiply: None,
            wide: false,
        };
        let settings = two.bytes();
        self.taken(&settings, &two);
        self.taken(&settings[..12], &one);
    }

    fn least_numbers(&mut self) {
        for place in SMALL_NUMBERS {
            for number in [0, 1, 2] {
                let mut numbers = LEAST;
                *place(&mut numbers) = number;
                self.numbers(&numbers);
            }
        }
        for number in 0..=5 {
            self.numbers(&LEAST.with_window(number));
            self.numbers(&LEAST.with_period(number));
            self.numbers(&LEAST.with_multiply(number));
        }
    }

    /// Each number about the edge of a byte and at its largest, in windows that
    /// are long, just long enough and just too short; then all of them. A
    /// multiply takes SET's ticks, many while SET takes 1, or 1 while SET takes
    /// many.
    fn ticks_and_spacings(&mut self) {
        let long = LEAST.with_period(MOST_PERIOD);
        let mut all = Vec::new();
        for number in [254, 255, 256, 257, 65_280, 65_534, 65_535] {
            let mut every = long;
            for place in SMALL_NUMBERS {
                let mut single = long;
                *place(&mut single) = number;
                *place(&mut every) = number;
                all.push(single);
            }
            let set = number;
            let quick = Settings { set, ..long }.with_multiply(1);
            all.extend([every, long.with_multiply(number.into()), quick]);
        }
        for numbers in all {
            let least = numbers.least_window();
            for window in [200_000, 999_999, MOST_WINDOW, least, least - 1, least + 1] {
                self.numbers(&numbers.with_window(window));
            }
        }
    }

    /// Windows about the edges of two bytes and of the range, far ones whose low
    /// bytes would be good, and periods about each. The longest multiply needs a
    /// window of 65,537.
    fn windows(&mut self) {
        const ABOUT: [u32; 8] = [
            4, 65_535, 65_536, 65_539, 500_000, 999_998, 999_999, 1_000_000,
        ];
        const PAST: [u32; 7] = [
            0,
            1_000_001,
            1 << 24,
            3 + (1 << 24),
            1 << 31,
            3 + (1 << 31),
            u32::MAX,
        ];
        for window in ABOUT {
            for period in [
                1,
                100,
                window - 1,
                window,
                window + 1,
                window + 2,
                MOST_PERIOD,
            ] {
                let numbers = LEAST.with_window(window).with_period(period);
                self.numbers(&numbers);
                self.numbers(&numbers.with_multiply(MOST_MULTIPLY));
            }
        }
        for window in PAST {
            for period in [100, MOST_PERIOD] {
                self.numbers(&LEAST.with_window(window).with_period(period));
            }
        }
    }

    fn periods(&mut self) {
        const ABOUT: [u32; 6] = [65_535, 65_536, 65_636, 999_999, 1_000_000, 1_000_001];
        const PAST: [u32; 6] = [
            0,
            1 << 24,
            100 + (1 << 24),
            1 << 31,
            100 + (1 << 31),
            u32::MAX,
        ];
        for period in ABOUT.into_iter().chain(PAST) {
            self.numbers(&LEAST.with_period(period));
        }
    }

    /// The ticks of a multiply: at the limits, and numbers past them that would
    /// be good if fewer of their bytes were looked at.
    fn last_number(&mut self) {
        const TAKEN: [u32; 8] = [1, 2, 255, 256, 257, 65_280, 65_534, 65_535];
        const PAST: [u32; 9] = [
            0,
            65_536,
            65_537,
            1 + (1 << 17),
            1 + (1 << 24),
            1 << 31,
            1 + (1 << 31),
            65_535 + (1 << 24),
            u32::MAX,
        ];
        let long = LEAST.with_window(70_000).with_period(MOST_PERIOD);
        for ticks in TAKEN {
            self.taken(&long.with_multiply(ticks).two_records(), &long);
        }
        for ticks in PAST {
            for numbers in [LEAST, long] {
                self.refused(&numbers.with_multiply(ticks).two_records());
            }
        }
    }

    /// Two records that end in a zero, as they all did before a multiply had
    /// ticks of its own.
    fn old_settings(&mut self) {
        for numbers in [LEAST, BENCH, RIVER] {
            self.refused(&numbers.with_multiply(0).two_records());
        }
    }

    /// A window must hold BEAT and SAVE, 7 ticks here, and the longest step of 9,
    /// whether the file has such a step or not: a multiply, or any other SET
    /// where a multiply is shorter.
    fn longest_step(&mut self) {
        let numbers = Settings {
            set: 3,
            read: 2,
            write: 4,
            beat: 2,
            save: 5,
            ..LEAST
        };
        let slow = numbers.with_multiply(9);
        let quick = Settings { set: 9, ..numbers }.with_multiply(1);
        let (sum, product) = (set(ADD, 0, 0, 2), set(MULTIPLY, 0, 0, 2));
        let square = set(MULTIPLY + VARIABLE, 0, 0, 0);
        for (numbers, long, short) in [
            (slow, vec![product, square], sum),
            (quick, vec![sum], product),
        ] {
            self.in_windows(&numbers, &[], 48);
            // A shorter step is followed by SKIPs, the longest by none.
            self.in_windows(&numbers, &[short], 60);
            for step in long {
                self.in_windows(&numbers, &[step], 48);
            }
        }
    }

    /// A file of at most one step, in a window of 15 and in one of 16.
    fn in_windows(&mut self, numbers: &Settings, file: &[Record], bytes_written: usize) {
        let laid = Answer::Written {
            bytes: bytes_written,
            time: 18,
        };
        for (window, expected) in [(15, Answer::refused(7)), (16, laid)] {
            let (settings, file) = (numbers.with_window(window).bytes(), bytes(file));
            for kind in [Kind::LayOut, Kind::Prepare] {
                let call = Call::new(kind, &settings, TASK, &file, &mut self.random);
                let call = call.with_out(60, &mut self.random);
                self.comparer.expect(&call, expected.clone());
            }
        }
    }
}
