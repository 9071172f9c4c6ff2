//! Random settings, sets and well-formed files of all three forms.

use crate::call::Set;
use crate::random::Random;
use crate::records::*;

/// Rounds of all loops of a file together, at most. TIMES with an empty body
/// takes no ticks for its rounds, so that the period does not bound them.
const MOST_ROUNDS: u64 = 150_000;

/// How large a file may become.
#[derive(Clone, Copy)]
pub struct Size {
    pub depth: usize,
    pub records: usize,
    pub time: u64,
}

/// Small numbers mostly, in either form; else some that only two records hold.
pub fn settings(random: &mut Random) -> Settings {
    match random.below(8) {
        0 => large(random),
        1 | 2 => slow(random),
        3 => few_ticks(random, true),
        _ => small(random),
    }
}

/// Numbers that one record holds.
pub fn small(random: &mut Random) -> Settings {
    few_ticks(random, false)
}

fn few_ticks(random: &mut Random, own_multiply: bool) -> Settings {
    let numbers = Settings {
        spacing: random.pick(&[1, 1, 2, 2, 3, 3, 7, 255]),
        ..of_ticks(random, own_multiply, |random| match random.below(40) {
            0 => 255,
            1 => random.between(1, 255),
            _ => random.between(1, 6),
        })
    };
    let more = match random.below(8) {
        0..=2 => 0,
        3 => 1,
        4..=5 => random.between(0, 10),
        6 => random.between(0, 300),
        _ => random.between(0, 64_000),
    };
    numbers.with_window(numbers.least_window() + more)
}

/// Steps of some hundred ticks among short ones, as of slow pumps.
fn slow(random: &mut Random) -> Settings {
    let numbers = Settings {
        spacing: random.pick(&[1, 1, 2, 3, 255, 256, 257, 65_535]),
        ..of_ticks(random, true, |random| match random.below(4) {
            0 => random.pick(&[255, 256, 257, 512, 900]),
            1 => random.between(200, 1200),
            _ => random.between(1, 6),
        })
    };
    let more = match random.below(4) {
        0 => 0,
        1 => random.between(0, 10),
        2 => random.between(0, 3000),
        _ => random.between(60_000, 70_000),
    };
    numbers.with_window(numbers.least_window() + more)
}

/// Numbers up to the largest, some of them small.
fn large(random: &mut Random) -> Settings {
    let numbers = Settings {
        spacing: random.pick(&[1, 1, 2, 3, 256, 16_385, 32_769, 65_535]),
        ..of_ticks(random, true, |random| match random.below(8) {
            0 => 65_535,
            1 | 2 => random.between(1, 65_535),
            3 => random.between(250, 10_000),
            _ => random.between(1, 6),
        })
    };
    let least = numbers.least_window();
    let window = match random.below(4) {
        0 => least,
        1 => least + random.between(0, 1000),
        2 => random.pick(&[65_536, 131_072, 262_144, 499_000, MOST_WINDOW]),
        _ => random.between(least, MOST_WINDOW),
    };
    numbers.with_window(window.max(least))
}

/// Settings of such ticks, with a period that suits them, at times in two
/// records where one would do. The spacing and the window are still to be
/// chosen.
fn of_ticks(random: &mut Random, own_multiply: bool, any: fn(&mut Random) -> u32) -> Settings {
    let wide = random.chance(1, 3);
    let mut ticks = || any(random) as u16;
    let mut numbers = Settings {
        set: ticks(),
        read: ticks(),
        write: ticks(),
        beat: ticks(),
        save: ticks(),
        spacing: 1,
        window: 1,
        period: 1,
        multiply: None,
        wide,
    };
    if own_multiply {
        let any = any(random);
        numbers.multiply = Some(multiply_ticks(random, &numbers, any));
    }
    let longest = with_room(&numbers).period;
    numbers.with_period(random.between(1, longest))
}

/// As many as SET's, the fewest, more than any other step's, or any.
fn multiply_ticks(random: &mut Random, numbers: &Settings, any: u32) -> u32 {
    let longest = numbers.set.max(numbers.read).max(numbers.write);
    match random.below(6) {
        0 => numbers.set.into(),
        1 => 1,
        2 | 3 => MOST_MULTIPLY.min(u32::from(longest) + random.between(1, 20)),
        _ => any,
    }
}

/// The same settings, with a period that holds most files of `file`.
pub fn with_room(settings: &Settings) -> Settings {
    let period = 3000 * slowness(settings);
    settings.with_period(period.min(MOST_PERIOD.into()) as u32)
}

/// By how much files are longer than those of steps of a few ticks.
fn slowness(settings: &Settings) -> u64 {
    let steps = [settings.set, settings.read, settings.write].map(u64::from);
    let sum = steps.into_iter().sum::<u64>() + u64::from(settings.multiply_ticks());
    (sum / 20).max(1)
}

/// Mostly small numbers, so that tests fall both ways.
pub fn value(random: &mut Random) -> u32 {
    match random.below(10) {
        0 => random.word(),
        1 => random.pick(&[u32::MAX, 1 << 31, (1 << 31) - 1, 65_536]),
        _ => random.between(0, 4),
    }
}

pub fn set_of_values(random: &mut Random) -> Set {
    Set {
        variables: (0..16).map(|_| value(random)).collect(),
        inputs: (0..8).map(|_| value(random)).collect(),
    }
}

/// A well-formed file of a form, no longer than `size`, and no slower where its
/// steps take a few ticks.
pub fn file(random: &mut Random, settings: &Settings, form: u8, size: Size) -> Vec<Record> {
    let steps = random.pick(&[1, 4, 6, 10, 20, 60, 600]);
    let slowness = slowness(settings);
    let mut maker = Maker {
        random,
        settings: *settings,
        form,
        records: Vec::new(),
        room: size.records,
        rounds: 1,
        // Slow files have time for more rounds, but are to be as quickly run.
        most_rounds: if slowness > 1 { size.time } else { MOST_ROUNDS },
    };
    let time = (size.time * slowness).min(MOST_PERIOD.into());
    maker.sequence(size.depth, time, steps);
    maker.records
}

/// Now and then at the limits of the form, mostly small.
pub fn size(random: &mut Random, form: u8) -> Size {
    let deepest = if form == TASK { 8 } else { 16 };
    let most = if form == TASK { 256 } else { 600 };
    Size {
        depth: random.pick(&[0, 1, 2, 3, 4, 5, deepest, deepest]),
        records: match random.below(10) {
            0 => most,
            1 => random.between(1, most),
            2 => random.between(0, 5),
            _ => random.between(5, 60),
        } as usize,
        time: random.pick(&[50, 100, 200, 300, 500, 1000, 2500]),
    }
}

struct Maker<'a> {
    random: &'a mut Random,
    settings: Settings,
    form: u8,
    records: Vec<Record>,
    /// The records still to be used.
    room: usize,
    /// How often the place reached is run at most.
    rounds: u64,
    most_rounds: u64,
}

impl Maker<'_> {
    /// Adds up to `steps` steps within `time`; answers the time they take.
    fn sequence(&mut self, depth: usize, time: u64, steps: u32) -> u64 {
        let mut used = 0;
        for _ in 0..self.random.between(steps / 4, steps) {
            used += self.step(depth, time - used);
        }
        used
    }

    fn step(&mut self, depth: usize, time: u64) -> u64 {
        let can_nest = depth > 0 && self.room >= 5 && time >= 2;
        // The first step of a sequence nests more often, to get deep.
        let nests = if self.last_opens() { 3 } else { 2 };
        if !can_nest || !self.random.chance(nests, 5) {
            return self.leaf(time);
        }
        let loops = self.form != LAID && self.random.chance(1, 2);
        match loops {
            true if self.random.chance(2, 3) => self.count_down(depth, time),
            true => self.any_loop(depth, time),
            false => self.branch(depth, time),
        }
    }

    fn last_opens(&self) -> bool {
        let opens = |record: &Record| [IF, ELSE, WHILE, TIMES].contains(&record[0]);
        self.records.last().is_some_and(opens)
    }

    fn add(&mut self, record: Record) {
        self.records.push(record);
        self.room -= 1;
    }

    fn add_all(&mut self, records: impl Iterator<Item = Record>) {
        records.for_each(|record| self.add(record));
    }

    fn leaf(&mut self, time: u64) -> u64 {
        let record = match self.random.below(if self.form == LAID { 12 } else { 7 }) {
            0 => self.any_skip(),
            1..=3 => self.any_set(),
            4 => read(self.target(), self.up_to(7)),
            5 | 6 => write(self.up_to(15), self.up_to(7)),
            7 => beat(self.random.pick(&[0, 1, 1, 2, MOST_PERIOD])),
            8 => self.last_test(CHECK, 0),
            _ => save(),
        };
        let ticks = u64::from(self.settings.ticks(&record));
        if self.room == 0 || ticks > time {
            return 0;
        }
        self.add(record);
        ticks
    }

    /// Mostly short; else about the length of a window.
    fn any_skip(&mut self) -> Record {
        if self.random.chance(7, 8) {
            return skip(self.random.pick(&[1, 1, 2, 3, 5, 8, 13, 70]));
        }
        let most = (2 * self.settings.window).clamp(1, MOST_PERIOD);
        skip(self.random.between(1, most))
    }

    fn up_to(&mut self, most: u8) -> u8 {
        self.random.between(0, most.into()) as u8
    }

    /// Mostly variables 0 to 7; 8 to 15 are left to the loops.
    fn target(&mut self) -> u8 {
        let most = if self.random.chance(1, 12) { 15 } else { 7 };
        self.up_to(most)
    }

    fn any_set(&mut self) -> Record {
        let (operation, target) = (self.up_to(MULTIPLY), self.target());
        let left = match operation {
            COPY => 0,
            _ => self.up_to(15),
        };
        if self.random.chance(1, 2) {
            let right = self.random.between(0, 15);
            return set(operation + VARIABLE, target, left, right);
        }
        set(operation, target, left, value(self.random))
    }

    fn any_test(&mut self, kind: u8, count: u32) -> Record {
        let (relation, left) = (self.up_to(AT_LEAST), self.up_to(9));
        if self.random.chance(1, 3) {
            let right = self.random.between(0, 15);
            return repeat(kind, relation + VARIABLE, left, right, count);
        }
        repeat(kind, relation, left, value(self.random), count)
    }

    /// A test that mostly fails, since a run ends where it holds.
    fn last_test(&mut self, kind: u8, count: u32) -> Record {
        if self.random.chance(1, 8) {
            return self.any_test(kind, count);
        }
        let left = self.up_to(15);
        match self.random.below(3) {
            0 => repeat(kind, BELOW, left, 0, count),
            1 => repeat(kind, UNEQUAL + VARIABLE, left, left.into(), count),
            _ => repeat(kind, ABOVE, left, u32::MAX, count),
        }
    }

    fn branch(&mut self, depth: usize, time: u64) -> u64 {
        let opening = self.any_test(IF, 0);
        self.add(opening);
        self.room -= 2;
        let first = self.sequence(depth - 1, time - 1, 4);
        self.room += 1;
        self.add(otherwise());
        let second = self.sequence(depth - 1, time - 1, 4);
        self.room += 1;
        self.add(end());
        1 + first.max(second)
    }

    fn any_loop(&mut self, depth: usize, time: u64) -> u64 {
        // The rounds of TIMES take no ticks of their own.
        let rounds = if self.form == TASK { time - 1 } else { 65_535 };
        let count = self.count(rounds);
        let opening = match self.form {
            TASK => self.any_test(WHILE, count),
            _ => self.last_test(TIMES, count),
        };
        self.around(opening, count, depth, time, None)
    }

    /// A loop that counts a variable of its own down to 0, at times too slowly.
    fn count_down(&mut self, depth: usize, time: u64) -> u64 {
        let set_ticks = u64::from(self.settings.set);
        if time < 2 * set_ticks + 4 {
            return self.branch(depth, time);
        }
        let counter = 8 + (depth % 8) as u8;
        let count = self.count((time - set_ticks - 1) / (set_ticks + 2));
        let start = match self.random.below(12) {
            0 => count + 1,
            1..=4 => count,
            _ => self.random.between(0, count),
        };
        self.add(set(COPY, counter, 0, start));
        let kind = if self.form == TASK { WHILE } else { TIMES };
        let opening = match self.random.below(3) {
            0 => repeat(kind, ABOVE, counter, 0, count),
            1 => repeat(kind, UNEQUAL, counter, 0, count),
            _ => repeat(kind, AT_LEAST, counter, 1, count),
        };
        let step = set(SUBTRACT, counter, counter, 1);
        set_ticks + self.around(opening, count, depth, time - set_ticks, Some(step))
    }

    /// A loop's count, such that `rounds` rounds would still be in time.
    fn count(&mut self, rounds: u64) -> u32 {
        let most = rounds.min(self.most_rounds / self.rounds);
        let most = most.clamp(1, 65_535) as u32;
        match self.random.below(6) {
            0 => most,
            1 => self.random.between(1, most),
            _ => self.random.between(1, most.min(5)),
        }
    }

    fn around(
        &mut self,
        opening: Record,
        count: u32,
        depth: usize,
        time: u64,
        last: Option<Record>,
    ) -> u64 {
        let tests = u64::from(self.form == TASK);
        let last_ticks = last.map_or(0, |_| u64::from(self.settings.set));
        let count = u64::from(count);
        self.add(opening);
        self.room -= 1 + usize::from(last.is_some());
        self.rounds *= count;
        let body = ((time - 1) / count).saturating_sub(tests + last_ticks);
        let used = self.sequence(depth - 1, body, 4) + last_ticks;
        self.rounds /= count;
        self.room += 1 + usize::from(last.is_some());
        self.add_all(last.into_iter().chain([end()]));
        count * (used + tests) + 1
    }
}

/// A loop around nothing, of the largest count.
pub fn empty_rounds() -> Vec<Record> {
    vec![repeat(TIMES, BELOW, 0, 0, 65_535), end()]
}

/// Blocks nested `depth` deep with a step before, between and after.
pub fn tower(random: &mut Random, form: u8, depth: usize) -> Vec<Record> {
    let (mut before, mut after) = (Vec::new(), Vec::new());
    for level in 0..depth {
        before.push(write((level % 16) as u8, (level % 8) as u8));
        let looping = form != LAID && random.chance(1, 3);
        if looping {
            let kind = if form == TASK { WHILE } else { TIMES };
            before.push(repeat(kind, BELOW, 0, 0, random.between(1, 2)));
            after.push(end());
        } else if random.chance(1, 2) {
            before.push(test(IF, EQUAL, 0, random.between(0, 1)));
            after.extend([end(), otherwise()]);
        } else {
            before.extend([test(IF, EQUAL, 0, random.between(0, 1)), otherwise()]);
            after.push(end());
        }
        after.push(set(ADD, 1, 1, level as u32));
    }
    after.reverse();
    [before, after].concat()
}

/// Steps of exactly this time: a SKIP, or a loop and a SKIP for the rest. A
/// time of up to 2^127 needs 7 loops inside each other.
pub fn of_time(form: u8, time: u128) -> Vec<Record> {
    if time == 0 {
        return Vec::new();
    }
    if time <= u128::from(MOST_PERIOD) {
        return vec![skip(time as u32)];
    }
    let (kind, tests) = if form == TASK { (WHILE, 1) } else { (TIMES, 0) };
    let body = (time - 1) / 65_535 - tests;
    let rest = time - 1 - 65_535 * (body + tests);
    let opening = vec![repeat(kind, BELOW, 0, 0, 65_535)];
    [
        opening,
        of_time(form, body),
        vec![end()],
        of_time(form, rest),
    ]
    .concat()
}
