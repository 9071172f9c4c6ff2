//! Part 2: every short file over a small alphabet, and every well-formed task
//! of a few records.

use crate::bench::BENCH;
use crate::call::{Call, Kind, Set};
use crate::chain::{self, prepare, time, transform, Job};
use crate::comparer::Comparer;
use crate::random::Random;
use crate::records::*;

/// A window with 2 ticks left after BEAT and SAVE, so that waiting and
/// splitting show in short tasks; in two records. A multiply is shorter than
/// any other SET.
const SMALL: Settings = Settings {
    set: 2,
    read: 1,
    write: 2,
    beat: 1,
    save: 1,
    spacing: 2,
    window: 4,
    period: 60,
    multiply: Some(1),
    wide: true,
};

/// A multiply is the longest step, and takes both of those ticks.
const SLOW_MULTIPLY: Settings = Settings {
    set: 1,
    write: 1,
    multiply: Some(2),
    ..SMALL
};

pub fn part(comparer: &mut Comparer, seed: u64) {
    let mut random = Random::new(seed);
    let settings = BENCH.bytes();
    for task in words(&task_alphabet(), 3) {
        short_task(comparer, &mut random, &settings, &task);
    }
    // After BEAT and SAVE a window has room for a multiply of 4, and 3 ticks.
    let settings = BENCH.with_multiply(4).bytes();
    for file in words(&equalised_alphabet(), 3) {
        time(comparer, &mut random, &settings, EQUALISED, &file);
        transform(comparer, &mut random, Kind::LayOut, &settings, &file);
        run_and_stop(comparer, &mut random, &settings, EQUALISED, &file);
    }
    for file in words(&laid_alphabet(), 3) {
        time(comparer, &mut random, &settings, LAID, &file);
        run_and_stop(comparer, &mut random, &settings, LAID, &file);
        for index in 0..=4 {
            let mut call = Call::new(Kind::Resume, &settings, LAID, &file, &mut random);
            call.lent.image = image(index, 7, &call.lent.variables);
            comparer.call(&call);
        }
    }
    for form in [TASK, EQUALISED, LAID] {
        fields(comparer, &mut random, &settings, form);
    }
    let (more, product) = (set(ADD, 0, 0, 1), set(MULTIPLY, 0, 0, 3));
    for task in well_formed(6, &[skip(1), more, write(0, 1)]) {
        whole_chain(comparer, &mut random, &SMALL, &task);
    }
    for task in well_formed(5, &[skip(1), more, product]) {
        for settings in [SMALL, SLOW_MULTIPLY] {
            whole_chain(comparer, &mut random, &settings, &task);
        }
    }
}

/// Every byte of every kind of record with the values about its edges, and
/// the 4-byte numbers likewise.
fn fields(comparer: &mut Comparer, random: &mut Random, settings: &[u8], form: u8) {
    let sample = bytes(&sample(form));
    for at in 0..sample.len() {
        for value in (0..=24).chain([31, 32, 127, 128, 254, 255]) {
            let mut file = sample.clone();
            file[at] = value;
            time(comparer, random, settings, form, &file);
        }
    }
    for at in (4..sample.len()).step_by(12).flat_map(|at| [at, at + 4]) {
        for value in [0, 1, 15, 16, 65_535, 65_536, 1_000_000, 1_000_001, u32::MAX] {
            let mut file = sample.clone();
            file[at..at + 4].copy_from_slice(&value.to_le_bytes());
            let widest = BENCH.with_period(MOST_PERIOD).bytes();
            time(comparer, random, &widest, form, &file);
        }
    }
}

/// A file with every kind of its form.
fn sample(form: u8) -> Vec<Record> {
    let rest = match form {
        TASK => vec![repeat(WHILE, BELOW + VARIABLE, 15, 15, 1), end()],
        EQUALISED => vec![repeat(TIMES, BELOW + VARIABLE, 15, 15, 1), end()],
        _ => vec![beat(1), save(), test(CHECK, AT_LEAST, 15, u32::MAX)],
    };
    let steps = vec![
        skip(1),
        set(COPY, 1, 0, 70_000),
        set(COPY + VARIABLE, 1, 0, 15),
        set(SUBTRACT, 15, 15, u32::MAX),
        set(MULTIPLY + VARIABLE, 2, 3, 4),
        read(15, 7),
        write(15, 7),
        test(IF, AT_LEAST, 1, 2),
        otherwise(),
        end(),
    ];
    [steps, rest].concat()
}

fn common() -> Vec<Record> {
    vec![
        skip(1),
        skip(3),
        set(COPY, 1, 0, 9),
        set(MULTIPLY + VARIABLE, 1, 1, 0),
        read(0, 0),
        write(1, 0),
        test(IF, EQUAL, 0, 0),
        otherwise(),
        end(),
    ]
}

fn task_alphabet() -> Vec<Record> {
    let loops = vec![repeat(WHILE, EQUAL, 0, 0, 1), repeat(WHILE, EQUAL, 0, 1, 2)];
    [common(), loops].concat()
}

fn equalised_alphabet() -> Vec<Record> {
    let loops = vec![repeat(TIMES, EQUAL, 0, 0, 1), repeat(TIMES, EQUAL, 0, 1, 2)];
    [common(), loops].concat()
}

fn laid_alphabet() -> Vec<Record> {
    let commands = vec![beat(1), save(), test(CHECK, EQUAL, 0, 0)];
    [common(), commands].concat()
}

/// All sequences of up to `longest` records.
fn words(alphabet: &[Record], longest: usize) -> Vec<Vec<u8>> {
    let mut all = vec![Vec::new()];
    let mut last = all.clone();
    for _ in 0..longest {
        last = last
            .iter()
            .flat_map(|word| {
                alphabet
                    .iter()
                    .map(move |letter| [word, &letter[..]].concat())
            })
            .collect();
        all.extend_from_slice(&last);
    }
    all
}

/// All well-formed tasks of up to `longest` records: these steps in blocks.
fn well_formed(longest: usize, steps: &[Record]) -> Vec<Vec<u8>> {
    let blocks = [
        test(IF, EQUAL, 0, 0),
        otherwise(),
        end(),
        repeat(WHILE, BELOW, 0, 2, 2),
    ];
    let alphabet = [steps, &blocks].concat();
    let mut found = Vec::new();
    grow(&alphabet, longest, &mut Vec::new(), &[], &mut found);
    found
}

/// Lengthens a beginning whose open blocks are `open`: the kind that opened
/// each, or ELSE after it.
fn grow(
    alphabet: &[Record],
    room: usize,
    task: &mut Vec<Record>,
    open: &[u8],
    found: &mut Vec<Vec<u8>>,
) {
    if open.is_empty() {
        found.push(bytes(task));
    }
    if room == 0 {
        return;
    }
    for &letter in alphabet {
        let mut inner = open.to_vec();
        if !open_after(letter[0], &mut inner) {
            continue;
        }
        task.push(letter);
        grow(alphabet, room - 1, task, &inner, found);
        task.pop();
    }
}

/// Whether a record may stand here; changes the open blocks by it.
fn open_after(kind: u8, open: &mut Vec<u8>) -> bool {
    match (kind, open.last()) {
        (ELSE, Some(&IF)) => {
            open.pop();
            open.push(ELSE);
        }
        (END, Some(&(ELSE | WHILE))) => {
            open.pop();
        }
        (ELSE | END, _) => return false,
        (IF | WHILE, _) => open.push(kind),
        _ => {}
    }
    true
}

fn zeros() -> Set {
    Set {
        variables: vec![0; 16],
        inputs: vec![1; 8],
    }
}

fn short_task(comparer: &mut Comparer, random: &mut Random, settings: &[u8], task: &[u8]) {
    time(comparer, random, settings, TASK, task);
    transform(comparer, random, Kind::Prepare, settings, task);
    let equalised = transform(comparer, random, Kind::Equalise, settings, task);
    run_and_stop(comparer, random, settings, TASK, task);
    let Some((equalised, _)) = equalised else {
        return;
    };
    let laid = transform(comparer, random, Kind::LayOut, settings, &equalised);
    run_and_stop(comparer, random, settings, EQUALISED, &equalised);
    if let Some((laid, _)) = laid {
        run_and_stop(comparer, random, settings, LAID, &laid);
    }
}

/// A run, and two stops taken up.
fn run_and_stop(
    comparer: &mut Comparer,
    random: &mut Random,
    settings: &[u8],
    form: u8,
    file: &[u8],
) {
    let set = zeros();
    let job = Job {
        settings,
        form,
        file,
        set: &set,
        spacing: None,
    };
    let (_, whole) = chain::run(comparer, random, &job);
    let Some(whole) = whole else {
        let call = Call::new(Kind::RunUntil, settings, form, file, random).stopping_at(1);
        comparer.call(&call);
        return;
    };
    for tick in [whole.tick / 2, whole.tick.saturating_sub(1)] {
        chain::stop(comparer, random, &job, &whole, tick);
    }
}

fn whole_chain(comparer: &mut Comparer, random: &mut Random, numbers: &Settings, task: &[u8]) {
    let set = zeros();
    let Some(prepared) = prepare(comparer, random, numbers, task) else {
        return;
    };
    let Some(whole) = prepared.run_all(comparer, random, &set) else {
        return;
    };
    let job = prepared.job(LAID, &set);
    let stops = [
        1,
        whole.tick / 3,
        whole.tick / 2,
        whole.tick - 1,
        whole.tick,
    ];
    for tick in stops {
        chain::stop(comparer, random, &job, &whole, tick);
    }
}
