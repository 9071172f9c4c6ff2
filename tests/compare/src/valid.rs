//! Part 3: random well-formed tasks through the whole chain, at settings near
//! the edges, with stops near the ends of SAVEs and of the run.

use crate::call::{Answer, Call, Kind};
use crate::chain::{self, prepare, time, transform, writing, Job, Prepared};
use crate::comparer::Comparer;
use crate::generate::{self, set_of_values};
use crate::listing;
use crate::random::Random;
use crate::records::*;
use crate::stops;

pub fn part(comparer: &mut Comparer, seed: u64, rounds: u64) {
    let mut random = Random::new(seed);
    for round in 0..rounds {
        let settings = generate::settings(&mut random);
        let task = match round % 16 {
            0 => tall(&mut random),
            1 => full(&mut random, &settings),
            _ => {
                let size = generate::size(&mut random, TASK);
                generate::file(&mut random, &settings, TASK, size)
            }
        };
        one_task(comparer, &mut random, &settings, &bytes(&task));
    }
}

/// The largest inputs; few, since each takes long.
pub fn limits(comparer: &mut Comparer, seed: u64) {
    let mut random = Random::new(seed);
    longest_laid(comparer, &mut random);
    longest_period(comparer, &mut random);
    most_rounds(comparer, &mut random);
    far_times(comparer, &mut random);
}

/// Nested to the limit, or one too deep.
fn tall(random: &mut Random) -> Vec<Record> {
    let depth = random.pick(&[7, 8, 8, 9]);
    generate::tower(random, TASK, depth)
}

/// As many records as a task may have, or one less or more.
fn full(random: &mut Random, settings: &Settings) -> Vec<Record> {
    let size = generate::Size {
        depth: 3,
        records: 200,
        time: 800,
    };
    let mut task = generate::file(random, settings, TASK, size);
    let length = random.pick(&[255, 256, 256, 257]);
    while task.len() < length {
        let port = random.between(0, 7) as u8;
        let product = set(MULTIPLY, 2, 2, 3);
        task.push(random.pick(&[skip(1), skip(2), read(0, port), write(1, port), product]));
    }
    task
}

/// Learns the time and the total under the longest period, then goes through
/// the chain with periods on the edges of both.
fn one_task(comparer: &mut Comparer, random: &mut Random, settings: &Settings, task: &[u8]) {
    let widest = settings.with_period(MOST_PERIOD);
    let Some(prepared) = prepare(comparer, random, &widest, task) else {
        refused_early(comparer, random, settings, task);
        return;
    };
    let (time, total) = (prepared.time, prepared.total);
    let periods = [total, total + random.between(1, 500), settings.period];
    let period = random.pick(&periods);
    whole_chain(comparer, random, &settings.with_period(period), task);
    let below = random.pick(&[total - 1, total - 1, time.max(1), time.max(2) - 1]);
    let narrow = settings.with_period(below.max(1));
    whole_chain(comparer, random, &narrow, task);
    if random.chance(1, 4) {
        let short = settings.with_window(settings.least_window() - 1);
        whole_chain(comparer, random, &short.with_period(period), task);
    }
}

/// A task that does not get through the chain is still timed and run.
fn refused_early(comparer: &mut Comparer, random: &mut Random, settings: &Settings, task: &[u8]) {
    let widest = settings.with_period(MOST_PERIOD).bytes();
    let least = time(comparer, random, &widest, TASK, task)
        .unwrap_or(1)
        .max(2);
    for period in [least, least - 1] {
        whole_chain(comparer, random, &settings.with_period(period), task);
    }
    if random.chance(1, 4) {
        unseen_total(comparer, random, settings, task);
    }
}

/// Closes in on the total of a laid file that is too long to be written: below
/// it the period is refused, from it on the length.
fn unseen_total(comparer: &mut Comparer, random: &mut Random, settings: &Settings, task: &[u8]) {
    let widest = settings.with_period(MOST_PERIOD).bytes();
    let Some((equalised, time)) = transform(comparer, random, Kind::Equalise, &widest, task) else {
        return;
    };
    let (mut below, mut from) = (time.max(1) - 1, MOST_PERIOD);
    while from - below > 1 {
        let middle = below + (from - below) / 2;
        let settings = settings.with_period(middle).bytes();
        let call = Call::new(Kind::Prepare, &settings, TASK, task, random);
        comparer.call(&call);
        let call = Call::new(Kind::LayOut, &settings, EQUALISED, &equalised, random);
        match comparer.call(&call).answer == Answer::refused(8) {
            true => below = middle,
            false => from = middle,
        }
    }
}

fn whole_chain(comparer: &mut Comparer, random: &mut Random, settings: &Settings, task: &[u8]) {
    let Some(prepared) = prepare(comparer, random, settings, task) else {
        return not_laid(comparer, random, &settings.bytes(), task);
    };
    listing::compare(comparer, &prepared);
    for _ in 0..2 {
        run_and_stop(comparer, random, &prepared);
    }
    other_settings(comparer, random, &prepared);
}

/// What is not laid out is still run as far as it was prepared.
fn not_laid(comparer: &mut Comparer, random: &mut Random, settings: &[u8], task: &[u8]) {
    listing::compare_refused(comparer, random, settings, task);
    let set = set_of_values(random);
    let equalised = transform(comparer, random, Kind::Equalise, settings, task);
    let files = equalised.map(|(file, _)| (EQUALISED, file));
    for (form, file) in files.into_iter().chain([(TASK, task.to_vec())]) {
        let job = Job {
            settings,
            form,
            file: &file,
            set: &set,
            spacing: None,
        };
        if let (_, Some(whole)) = chain::run(comparer, random, &job) {
            let tick = random.between(0, whole.tick);
            chain::stop(comparer, random, &job, &whole, tick);
        }
    }
}

/// Under other settings a file is run as its records stand.
fn other_settings(comparer: &mut Comparer, random: &mut Random, prepared: &Prepared) {
    let set = set_of_values(random);
    let settings = generate::settings(random).bytes();
    let form = random.pick(&[TASK, EQUALISED, LAID]);
    let job = Job {
        settings: &settings,
        spacing: None,
        ..prepared.job(form, &set)
    };
    let (_, Some(whole)) = chain::run(comparer, random, &job) else {
        return;
    };
    let tick = random.between(0, whole.tick);
    chain::stop(comparer, random, &job, &whole, tick);
}

fn run_and_stop(comparer: &mut Comparer, random: &mut Random, prepared: &Prepared) {
    let set = set_of_values(random);
    let Some(whole) = prepared.run_all(comparer, random, &set) else {
        return;
    };
    let job = prepared.job(LAID, &set);
    for tick in stops::chosen(random, &prepared.walk.save_ends, whole.tick) {
        chain::stop(comparer, random, &job, &whole, tick);
    }
    let form = random.pick(&[TASK, EQUALISED]);
    let job = prepared.job(form, &set);
    let (_, Some(whole)) = chain::run(comparer, random, &job) else {
        return;
    };
    for tick in stops::chosen(random, &[], whole.tick).into_iter().take(3) {
        chain::stop(comparer, random, &job, &whole, tick);
    }
}

const QUICK: Settings = Settings {
    set: 1,
    read: 1,
    write: 1,
    beat: 1,
    save: 1,
    spacing: 1,
    window: 65_535,
    period: MOST_PERIOD,
    multiply: None,
    wide: false,
};

/// A loop of 31 rounds of 176 records and 5 records about them make 5,461;
/// one record more is too long.
fn longest_laid(comparer: &mut Comparer, random: &mut Random) {
    for (steps, before) in [(172, 0), (172, 1), (171, 0)] {
        let mut task = vec![write(2, 3); before];
        task.push(repeat(WHILE, BELOW, 0, 9, 31));
        task.extend((0..steps - 1).map(|step| write((step % 16) as u8, (step % 8) as u8)));
        task.extend([set(ADD, 0, 0, 1), end()]);
        whole_chain(comparer, random, &QUICK, &bytes(&task));
    }
    // Small windows, so that the longest files hold many SAVEs.
    for window in [3, 4, 7] {
        let task = [
            repeat(WHILE, BELOW, 0, 9, 300),
            set(ADD, 0, 0, 1),
            skip(1),
            end(),
        ];
        let settings = QUICK.with_window(window);
        whole_chain(comparer, random, &settings, &bytes(&task));
    }
}

fn longest_period(comparer: &mut Comparer, random: &mut Random) {
    for (window, spacing, count) in [
        (65_535, 1, 900_000),
        (65_535, 2, 1_000_000),
        (400, 1, 990_000),
        (400, 255, 900_000),
        (399, 3, 1),
    ] {
        let settings = Settings {
            window,
            spacing,
            ..QUICK
        };
        let task = bytes(&[skip(count), write(1, 1)]);
        one_task(comparer, random, &settings, &task);
        let sides = [
            test(IF, EQUAL, 0, 1),
            skip(count / 3),
            otherwise(),
            write(2, 2),
            end(),
        ];
        one_task(comparer, random, &settings, &bytes(&sides));
    }
}

/// Loops that take nearly the whole period.
fn most_rounds(comparer: &mut Comparer, random: &mut Random) {
    for count in [1000, 65_535] {
        let task = bytes(&[
            repeat(WHILE, BELOW, 0, count, count),
            set(ADD, 0, 0, 1),
            skip(12),
            end(),
        ]);
        whole_chain(comparer, random, &QUICK, &task);
    }
}

/// Times that would be short again if they were taken modulo a power of 2,
/// and times that are short.
fn far_times(comparer: &mut Comparer, random: &mut Random) {
    for power in [24, 31, 32, 33, 48, 63, 64, 65, 96, 126] {
        for more in [0, 1, 77, 65_600, 131_100, 700_000] {
            one_time(comparer, random, (1 << power) + more);
        }
    }
    for _ in 0..200 {
        let time = random.between(1, MOST_PERIOD + 1);
        one_time(comparer, random, time.into());
    }
    let laid = bytes(&[vec![skip(MOST_PERIOD); 4294], vec![skip(967_296); 2]].concat());
    for form in [EQUALISED, LAID] {
        time(comparer, random, &QUICK.bytes(), form, &laid);
        transform(comparer, random, Kind::LayOut, &QUICK.bytes(), &laid);
    }
}

fn one_time(comparer: &mut Comparer, random: &mut Random, wanted: u128) {
    let nearest = wanted.min(MOST_PERIOD.into()) as u32;
    for form in [TASK, EQUALISED] {
        // A step first, so that the loops are not all there is.
        let steps = [vec![set(ADD, 0, 0, 1)], generate::of_time(form, wanted - 1)].concat();
        let file = bytes(&steps);
        for period in [nearest, nearest.max(2) - 1] {
            let settings = QUICK.with_period(period).bytes();
            let call = Call::new(Kind::Time, &settings, form, &file, random);
            let outcome = comparer.call(&call);
            let sound = match u32::try_from(wanted) {
                Ok(time) if time <= period => outcome.answer == Answer::Time(time),
                _ => outcome.answer == Answer::refused(8),
            };
            comparer.hold(sound, "a time made to measure", &call, &outcome);
            for &kind in writing(form) {
                transform(comparer, random, kind, &settings, &file);
            }
        }
    }
}
