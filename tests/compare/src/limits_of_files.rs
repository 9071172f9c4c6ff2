//! Rows 6 and 1 to 5 of the table: settings and files at the limits and past
//! them, timed, each with the answer that the paper gives.

use crate::bench::BENCH;
use crate::call::{Answer, Call, Kind};
use crate::comparer::Comparer;
use crate::random::Random;
use crate::records::*;

pub fn part(comparer: &mut Comparer, seed: u64) {
    let random = Random::new(seed);
    let mut timing = Timing { comparer, random };
    timing.settings();
    timing.lengths();
    timing.kinds();
    timing.fields();
    timing.fields_past();
    timing.blocks();
    timing.nesting();
    timing.first_record();
}

struct Timing<'a> {
    comparer: &'a mut Comparer,
    random: Random,
}

const LONG: Settings = Settings {
    period: MOST_PERIOD,
    ..BENCH
};

fn choice() -> Record {
    test(IF, EQUAL, 0, 0)
}

fn round() -> Record {
    repeat(WHILE, EQUAL, 0, 0, 2)
}

fn rounds(kind: u8, count: u32) -> Record {
    repeat(kind, EQUAL, 0, 0, count)
}

impl Timing<'_> {
    fn bytes(&mut self, settings: &[u8], form: u8, file: &[u8], expected: Answer) {
        let call = Call::new(Kind::Time, settings, form, file, &mut self.random);
        self.comparer.expect(&call, expected);
    }

    fn lasts(&mut self, form: u8, file: &[Record], time: u32) {
        let settings = LONG.bytes();
        self.bytes(&settings, form, &bytes(file), Answer::Time(time));
    }

    fn refused(&mut self, form: u8, file: &[Record], number: u8, value: usize) {
        let expected = Answer::refused_at(number, value);
        self.bytes(&LONG.bytes(), form, &bytes(file), expected);
    }

    /// Row 6, before anything of the file.
    fn settings(&mut self) {
        let least = [1, 1, 1, 1, 1, 1, 1, 0, 1, 0, 0, 0];
        self.bytes(&least, TASK, &[], Answer::Time(0));
        self.bytes(&LONG.bytes(), TASK, &[], Answer::Time(0));
        let over = LONG.with_period(MOST_PERIOD + 1);
        self.bytes(&over.bytes(), TASK, &[], Answer::refused(6));
        for place in [0, 1, 2, 3, 4, 5, 6, 8] {
            let mut low = least;
            low[place] = 0;
            self.bytes(&low, TASK, &[], Answer::refused(6));
        }
        for length in [0, 3, 11, 13] {
            self.bytes(&vec![9; length], TASK, &[9; 5], Answer::refused(6));
        }
    }

    /// Row 1.
    fn lengths(&mut self) {
        for (form, most) in [(TASK, 256), (EQUALISED, 5461), (LAID, 5461)] {
            self.lasts(form, &vec![skip(1); most], most as u32);
            self.refused(form, &vec![skip(1); most + 1], 1, 12 * (most + 1));
            for length in [11, 13] {
                let expected = Answer::refused_at(1, length);
                self.bytes(&LONG.bytes(), form, &vec![9; length], expected);
            }
        }
    }

    /// Row 2.
    fn kinds(&mut self) {
        let outside: [(u8, &[u8]); 3] = [
            (TASK, &[0, TIMES, CHECK, BEAT, SAVE, 13, 255]),
            (EQUALISED, &[0, WHILE, CHECK, BEAT, SAVE, 13, 255]),
            (LAID, &[0, WHILE, TIMES, 13, 255]),
        ];
        for (form, kinds) in outside {
            for &kind in kinds {
                self.refused(form, &[plain(kind)], 2, 0);
            }
        }
        self.lasts(TASK, &[rounds(WHILE, 1), end()], 2);
        self.lasts(EQUALISED, &[rounds(TIMES, 1), end()], 1);
        self.lasts(LAID, &[test(CHECK, EQUAL, 0, 0), beat(0), save()], 14);
    }

    /// Row 3: fields at the ends of their ranges.
    fn fields(&mut self) {
        let steps = [
            set(COPY, 15, 0, u32::MAX),
            set(MULTIPLY, 15, 15, 255),
            set(MULTIPLY + VARIABLE, 15, 15, 15),
            read(15, 7),
            write(15, 7),
        ];
        for step in steps {
            self.lasts(TASK, &[step], 3);
        }
        for (relation, right) in [(AT_LEAST, 255), (AT_LEAST + VARIABLE, 15)] {
            let sides = [test(IF, relation, 15, right), otherwise(), end()];
            self.lasts(TASK, &sides, 1);
        }
        self.lasts(TASK, &[skip(1)], 1);
        self.lasts(TASK, &[skip(1_000_000)], 1_000_000);
        self.lasts(TASK, &[rounds(WHILE, 65_535), end()], 65_536);
        self.lasts(EQUALISED, &[rounds(TIMES, 65_535), end()], 1);
        self.lasts(LAID, &[beat(1_000_000)], 3);
    }

    /// Row 3: fields past them, and unused bytes that are not 0.
    fn fields_past(&mut self) {
        let of_task = [steps_past(), tests_past()].concat();
        let of_equalised = [0, 65_536].map(|count| rounds(TIMES, count)).to_vec();
        let of_laid = vec![
            beat(1_000_001),
            with_byte(beat(0), 8),
            with_byte(save(), 4),
            with_byte(test(CHECK, EQUAL, 0, 0), 8),
        ];
        for (form, records) in [(TASK, of_task), (EQUALISED, of_equalised), (LAID, of_laid)] {
            for record in records {
                self.refused(form, &[record], 3, 0);
            }
        }
    }

    /// Row 4: the record at fault, or the count of records at the end.
    fn blocks(&mut self) {
        let faults: [(&[Record], usize); 10] = [
            (&[otherwise()], 0),
            (&[round(), otherwise()], 1),
            (&[choice(), round(), otherwise()], 2),
            (&[end()], 0),
            (&[skip(1), round(), end(), end()], 3),
            (&[choice(), end()], 1),
            (&[choice(), otherwise(), otherwise()], 2),
            (&[choice()], 1),
            (&[choice(), otherwise()], 2),
            (&[round(), skip(1)], 2),
        ];
        for (file, index) in faults {
            self.refused(TASK, file, 4, index);
        }
        self.refused(EQUALISED, &[rounds(TIMES, 2), otherwise()], 4, 1);
        self.lasts(TASK, &[choice(), otherwise(), end()], 1);
    }

    /// Row 5: at the limit it is the blocks open at the end that are refused.
    fn nesting(&mut self) {
        for (form, deepest) in [(TASK, 8), (EQUALISED, 16), (LAID, 16)] {
            self.refused(form, &vec![choice(); deepest], 4, deepest);
            self.refused(form, &vec![choice(); deepest + 1], 5, deepest);
        }
        self.refused(TASK, &[round(); 9], 5, 8);
        self.refused(EQUALISED, &[rounds(TIMES, 2); 17], 5, 16);
    }

    /// 2 to 5 in turn at each record, and the first record at fault.
    fn first_record(&mut self) {
        self.refused(TASK, &[[TIMES; 12]], 2, 0);
        self.refused(TASK, &[with_byte(otherwise(), 1)], 3, 0);
        self.refused(TASK, &[end(), save()], 4, 0);
        self.refused(TASK, &[skip(0), save()], 3, 0);
        let mut deep = [choice(); 9];
        deep[8][1] = 6;
        self.refused(TASK, &deep, 3, 8);
    }
}

fn steps_past() -> Vec<Record> {
    vec![
        skip(0),
        skip(1_000_001),
        with_byte(skip(1), 1),
        set(4, 0, 0, 0),
        set(15, 0, 0, 0),
        set(20, 0, 0, 0),
        set(ADD, 16, 0, 0),
        set(ADD, 0, 16, 0),
        set(ADD + VARIABLE, 0, 0, 16),
        set(COPY, 0, 1, 0),
        set(COPY + VARIABLE, 0, 1, 0),
        with_byte(set(COPY, 0, 0, 0), 8),
        read(16, 0),
        read(0, 8),
        with_byte(read(0, 0), 4),
        with_byte(read(0, 0), 8),
        with_byte(write(0, 0), 1),
    ]
}

fn tests_past() -> Vec<Record> {
    vec![
        test(IF, 6, 0, 0),
        test(IF, 22, 0, 0),
        test(IF, EQUAL, 16, 0),
        test(IF, EQUAL + VARIABLE, 0, 16),
        with_byte(choice(), 2),
        with_byte(choice(), 8),
        rounds(WHILE, 0),
        rounds(WHILE, 65_536),
        with_byte(end(), 4),
    ]
}
