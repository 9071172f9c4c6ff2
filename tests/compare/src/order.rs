//! Part 7: inputs with several faults at once. The faults are put in by hand,
//! in the order of the table, so that the refusal is known beforehand.

use crate::buffers::wrong_lengths;
use crate::call::{Answer, Call, Kind};
use crate::comparer::Comparer;
use crate::damaged::{damage, wrong_multiply, wrong_settings, zero};
use crate::generate::{self, set_of_values};
use crate::random::Random;
use crate::records::*;

/// The first fault put in, by its number and value.
type Fault = Option<(u8, Option<u64>)>;

pub fn part(comparer: &mut Comparer, seed: u64, rounds: u64) {
    let mut random = Random::new(seed);
    for _ in 0..rounds {
        for kind in Kind::OF_FILES {
            known_faults(comparer, &mut random, kind);
            any_faults(comparer, &mut random, kind);
        }
    }
}

fn form_of(random: &mut Random, kind: Kind) -> u8 {
    match kind {
        Kind::Equalise | Kind::Prepare => TASK,
        Kind::LayOut => EQUALISED,
        _ => random.pick(&[TASK, EQUALISED, LAID]),
    }
}

fn known_faults(comparer: &mut Comparer, random: &mut Random, kind: Kind) {
    let form = form_of(random, kind);
    // The fewer kinds of fault, the later in the table the first one is.
    let parts = random.pick(&[0, 1, 1, 2, 4]);
    let mut fault: Fault = None;
    if random.chance(parts, 12) {
        fault = Some((6, None));
    }
    let file = faulty_file(random, form, parts, &mut fault);
    let numbers = tight_settings(random, kind, parts, &mut fault);
    let mut settings = numbers.bytes();
    if fault == Some((6, None)) {
        break_settings(random, &mut settings);
    }
    let mut call = Call::new(kind, &settings, form, &file, random);
    lend(random, &mut call, parts, &mut fault);
    let outcome = comparer.call(&call);
    let sound = match (fault, &outcome.answer) {
        (Some((number, value)), answer) => *answer == Answer::Refused { number, value },
        (None, answer) => !matches!(answer, Answer::Refused { .. }),
    };
    comparer.hold(
        sound,
        "the first fault in the table decides",
        &call,
        &outcome,
    );
}

/// Settings in range, perhaps with too short a window where the call lays out,
/// and perhaps with a period below the file's time. Preparing equalises first,
/// so that there the time decides before the window.
fn tight_settings(random: &mut Random, kind: Kind, parts: u64, fault: &mut Fault) -> Settings {
    let mut numbers = roomy(random);
    let lays_out = matches!(kind, Kind::LayOut | Kind::Prepare);
    let (narrow, late) = (lays_out && random.chance(parts, 8), random.chance(parts, 8));
    if late && kind == Kind::Prepare {
        *fault = fault.or(Some((8, None)));
    }
    if narrow {
        *fault = fault.or(Some((7, None)));
        numbers = numbers.with_window(numbers.least_window() - 1);
    }
    if late {
        *fault = fault.or(Some((8, None)));
        numbers = numbers.with_period(1);
    }
    numbers
}

/// Settings under which a file of this part is laid out. It has 14 steps at
/// most, each of which takes a window at most, but for a SKIP of 5 where a
/// window has fewer ticks beside its commands.
fn roomy(random: &mut Random) -> Settings {
    let fits = |numbers: &Settings| {
        let commands = u32::from(numbers.beat) + u32::from(numbers.save);
        let windows = if numbers.window - commands < 5 {
            71
        } else {
            15
        };
        windows * numbers.window <= MOST_PERIOD
    };
    let mut tries = std::iter::repeat_with(|| generate::settings(random));
    let numbers = tries.find(fits).expect("some settings are roomy");
    numbers.with_period(MOST_PERIOD)
}

/// Settings that are wrong for certain.
fn break_settings(random: &mut Random, settings: &mut Vec<u8>) {
    match random.below(6) {
        0 => settings.truncate(random.index(12)),
        1 => settings.truncate(settings.len() - 1),
        2 => settings.push(0),
        3 => zero(settings, random.index(6)),
        4 if settings.len() == WIDE_SETTINGS => {
            settings[20..].copy_from_slice(&wrong_multiply(random).to_le_bytes());
        }
        _ => {
            let at = period_place(settings);
            settings[at..at + 4].copy_from_slice(&1_000_001u32.to_le_bytes());
        }
    }
}

/// Some steps after a SAVE where the form has one, with faulty records among
/// them and perhaps a wrong length.
fn faulty_file(random: &mut Random, form: u8, parts: u64, fault: &mut Fault) -> Vec<u8> {
    let mut file = vec![if form == LAID { save() } else { skip(2) }];
    let steps = [
        skip(5),
        read(1, 1),
        set(ADD, 1, 1, 1),
        set(MULTIPLY, 1, 1, 3),
        set(MULTIPLY + VARIABLE, 1, 1, 2),
        write(1, 2),
    ];
    let length = 2 + random.index(12);
    file.extend((0..length).map(|_| random.pick(&steps)));
    let mut found: Fault = None;
    let mut at = 1;
    while random.chance(parts, 8) && at <= file.len() {
        at += random.index(file.len() + 1 - at);
        let (records, number, offset) = faulty_records(random, form);
        found = found.or(Some((number, Some((at + offset) as u64))));
        let added = records.len();
        file.splice(at..at, records);
        at += added;
    }
    if random.chance(parts, 16) {
        file.push(test(IF, EQUAL, 0, 0));
        found = found.or(Some((4, Some(file.len() as u64))));
    }
    let mut file = bytes(&file);
    if random.chance(parts, 12) {
        wrong_length(random, form, &mut file);
        *fault = fault.or(Some((1, Some(file.len() as u64))));
    }
    *fault = fault.or(found);
    file
}

fn wrong_length(random: &mut Random, form: u8, file: &mut Vec<u8>) {
    if random.chance(1, 8) {
        let most = if form == TASK {
            MOST_TASK_RECORDS
        } else {
            MOST_RECORDS
        };
        file.resize(12 * (most + 1), 1);
    }
    if file.len() <= 12 * MOST_TASK_RECORDS || random.chance(1, 2) {
        let more = 1 + random.index(11);
        file.extend(random.bytes(more));
    }
}

/// Records of which one is at fault whatever stands before them: the refusal's
/// number and the place of the one at fault.
fn faulty_records(random: &mut Random, form: u8) -> (Vec<Record>, u8, usize) {
    let foreign = match form {
        TASK => [0, TIMES, CHECK, BEAT, SAVE, 13],
        EQUALISED => [0, WHILE, CHECK, BEAT, SAVE, 13],
        _ => [0, WHILE, TIMES, 13, 14, 255],
    };
    let mut odd = plain(random.pick(&foreign));
    odd[1..].copy_from_slice(&random.bytes(11));
    let mut deep_and_wrong = deep(form);
    let last = deep_and_wrong.len() - 1;
    deep_and_wrong[last][1] = 6;
    match random.below(8) {
        0 => (vec![odd], 2, 0),
        1 => (vec![skip(random.pick(&[0, 1_000_001]))], 3, 0),
        2 => (vec![read(16, 0)], 3, 0),
        3 => (vec![with_byte(end(), 5)], 3, 0),
        4 => (vec![with_byte(otherwise(), 11)], 3, 0),
        5 => (vec![random.pick(&[end(), otherwise()])], 4, 0),
        6 => (deep(form), 5, last),
        _ => (deep_and_wrong, 3, last),
    }
}

/// One IF more than may be nested.
fn deep(form: u8) -> Vec<Record> {
    let deepest = if form == TASK { 8 } else { 16 };
    vec![test(IF, EQUAL, 0, 0); deepest + 1]
}

/// Lends what the call needs, in the order of the table's last rows.
fn lend(random: &mut Random, call: &mut Call, parts: u64, fault: &mut Fault) {
    let writes = call.kind.writes();
    let runs = !writes && call.kind != Kind::Time;
    call.lent.out = random.bytes(MOST_BYTES);
    if writes && random.chance(parts, 6) {
        call.lent.out.truncate(random.index(12));
        *fault = fault.or(Some((9, None)));
    }
    call.lent.image = image(1, 9, &call.lent.variables);
    if call.kind == Kind::Resume && (call.form != LAID || random.chance(parts, 6)) {
        let index = random.pick(&[0, 2, u32::MAX]);
        let (index, tick) = random.pick(&[(index, 9), (1, 1_000_001), (index, u32::MAX)]);
        let index = if call.form == LAID { index } else { 1 };
        call.lent.image = image(index, tick, &call.lent.variables);
        // A wrong length would come first; it is put in below.
        *fault = fault.or(Some((11, None)));
    }
    call.stop = 1;
    if call.kind == Kind::RunUntil && random.chance(parts, 6) {
        call.stop = random.pick(&[1_000_001, u32::MAX]);
        *fault = fault.or(Some((12, None)));
    }
    if runs && random.chance(parts, 8) {
        let chosen = 1 + random.index(31);
        let right = wrong_lengths(random, call, chosen);
        if !right && fault.is_none_or(|(number, _)| number > 10) {
            *fault = Some((10, None));
        }
    }
}

/// Whatever faults come together; nothing is known beforehand.
fn any_faults(comparer: &mut Comparer, random: &mut Random, kind: Kind) {
    let form = form_of(random, kind);
    let numbers = generate::settings(random);
    let size = generate::Size {
        depth: 3,
        records: 30,
        time: 300,
    };
    let mut file = bytes(&generate::file(random, &numbers, form, size));
    if random.chance(1, 3) {
        file = damage(random, &file);
    }
    let period = random.pick(&[1, 20, 50, 100, 3000]);
    let mut settings = numbers.with_period(period).bytes();
    if random.chance(1, 6) {
        settings = wrong_settings(random, &numbers);
    }
    let set = set_of_values(random);
    let mut call = Call::new(kind, &settings, form, &file, random).fed(&set);
    call.lent.out = match random.chance(1, 3) {
        true => random.bytes(12 * 4),
        false => random.bytes(12 * 400),
    };
    call.stop = random.between(0, 2 * period);
    let (index, tick) = (random.between(0, 9), random.between(0, 2 * period));
    call.lent.image = image(index, tick, &set.variables);
    if random.chance(1, 3) {
        let chosen = random.index(32);
        wrong_lengths(random, &mut call, chosen);
    }
    comparer.call(&call);
}
