//! Part 4: files with something wrong, and settings likewise.

use crate::call::{Call, Kind};
use crate::chain::{prepare, transform, writing};
use crate::comparer::Comparer;
use crate::generate::{self, set_of_values};
use crate::listing;
use crate::random::Random;
use crate::records::*;

pub fn part(comparer: &mut Comparer, seed: u64, rounds: u64) {
    let mut random = Random::new(seed);
    for round in 0..rounds {
        let settings = generate::with_room(&generate::settings(&mut random));
        let (form, file) = sound_file(comparer, &mut random, &settings);
        for _ in 0..4 {
            let damaged = damage(&mut random, &file);
            all_calls(comparer, &mut random, &settings.bytes(), form, &damaged);
            listing::compare_refused(comparer, &mut random, &settings.bytes(), &damaged);
        }
        let wrong = wrong_settings(&mut random, &settings);
        all_calls(comparer, &mut random, &wrong, form, &file);
        listing::compare_refused(comparer, &mut random, &wrong, &file);
        other_forms(comparer, &mut random, &settings, form, &file);
        if round % 4 == 0 {
            noise(comparer, &mut random, &settings);
        }
        if round % 100 == 0 {
            too_many(comparer, &mut random, &settings);
        }
    }
}

/// A file of a random form, made by the chain or by the generator.
fn sound_file(comparer: &mut Comparer, random: &mut Random, settings: &Settings) -> (u8, Vec<u8>) {
    let form = random.pick(&[TASK, EQUALISED, LAID]);
    let size = generate::size(random, TASK);
    if form == TASK || random.chance(1, 2) {
        let file = generate::file(random, settings, form, size);
        return (form, bytes(&file));
    }
    let task = bytes(&generate::file(random, settings, TASK, size));
    match prepare(comparer, random, settings, &task) {
        Some(prepared) if form == EQUALISED => (form, prepared.equalised),
        Some(prepared) => (form, prepared.laid),
        None => (TASK, task),
    }
}

pub fn damage(random: &mut Random, file: &[u8]) -> Vec<u8> {
    let mut file = file.to_vec();
    for _ in 0..random.pick(&[1, 1, 1, 2, 4]) {
        damage_once(random, &mut file);
    }
    file
}

fn damage_once(random: &mut Random, file: &mut Vec<u8>) {
    let count = file.len() / 12;
    if count == 0 {
        let length = random.index(30);
        file.extend(random.bytes(length));
        return;
    }
    let (here, there) = (12 * random.index(count), 12 * random.index(count));
    let record: Vec<u8> = file[here..here + 12].to_vec();
    match random.below(10) {
        0 | 1 => file[here + random.index(12)] = random.next() as u8,
        2..=4 => edge(random, &mut file[here..here + 12]),
        5 => {
            file.drain(here..here + 12);
        }
        6 => {
            file.splice(there..there, record);
        }
        7 => {
            file.copy_within(there..there + 12, here);
            file[there..there + 12].copy_from_slice(&record);
        }
        8 => file.truncate(here),
        _ => {
            let left = random.index(file.len());
            file.truncate(left);
        }
    }
}

/// Puts a number from the edge of a range into a field of a record.
fn edge(random: &mut Random, record: &mut [u8]) {
    let small = [0, 1, 3, 4, 5, 6, 7, 8, 15, 16, 17, 19, 20, 21, 22, 255];
    let large = [0, 1, 15, 16, 65_535, 65_536, 1_000_000, 1_000_001, u32::MAX];
    match random.below(8) {
        0 => record[0] = random.pick(&[0, 1, 6, 7, 8, 9, 10, 11, 12, 13, 255]),
        1..=2 => record[1] = random.pick(&small),
        3 => record[2] = random.pick(&small),
        4 => record[3] = random.pick(&small),
        5 => record[4..8].copy_from_slice(&random.pick(&large).to_le_bytes()),
        6 => record[8..].copy_from_slice(&random.pick(&large).to_le_bytes()),
        _ => record[random.index(12)] ^= 1 << random.below(8),
    }
}

/// Settings with a wrong length or number; some are right all the same.
pub fn wrong_settings(random: &mut Random, settings: &Settings) -> Vec<u8> {
    let mut bytes = settings.bytes();
    let width = bytes.len() / 12;
    let limits = [0, 65_536, 1_000_000, 1_000_001, 1 << 24, 1 << 31, u32::MAX];
    match random.below(8) {
        0 => bytes.truncate(random.index(bytes.len())),
        1 => {
            let lengths = [13, 16, 23, 24, 25, 36, 12 + 256, 12 + 65_536, 24 + 65_536];
            bytes.resize(random.pick(&lengths), 1);
        }
        2 => zero(&mut bytes, random.index(6)),
        3 => bytes[6 * width..8 * width].fill(0),
        4 => bytes = settings.with_period(random.pick(&limits)).bytes(),
        5 => bytes = settings.with_window(random.pick(&limits)).bytes(),
        6 => bytes = settings.with_multiply(wrong_multiply(random)).bytes(),
        _ => {
            let last = bytes.len() - 1 - random.index(4);
            bytes[last] = random.pick(&[1, 128, 255]);
        }
    }
    bytes
}

/// Ticks of a multiply that are out of range, most of them in it again if only
/// two of their bytes were looked at.
pub fn wrong_multiply(random: &mut Random) -> u32 {
    let good = random.between(1, MOST_MULTIPLY);
    let high = random.pick(&[1 << 16, 1 << 17, 1 << 24, 1 << 31, 0xffff_0000]);
    random.pick(&[0, 65_536, good + high, good + high, u32::MAX])
}

/// Makes one of the six small numbers 0.
pub fn zero(settings: &mut [u8], place: usize) {
    let width = settings.len() / 12;
    settings[width * place..][..width].fill(0);
}

/// Each call that could take a file of the form.
fn all_calls(comparer: &mut Comparer, random: &mut Random, settings: &[u8], form: u8, file: &[u8]) {
    let call = Call::new(Kind::Time, settings, form, file, random);
    comparer.call(&call);
    for &kind in writing(form) {
        transform(comparer, random, kind, settings, file);
    }
    let set = set_of_values(random);
    let stop = random.between(0, 60);
    for kind in [Kind::Run, Kind::RunUntil, Kind::Resume, Kind::Restart] {
        let mut call = Call::new(kind, settings, form, file, random).fed(&set);
        call.stop = stop;
        call.lent.image = image(2, stop, &set.variables);
        comparer.call(&call);
    }
}

/// A file taken for one of another form, and form numbers beyond laid.
fn other_forms(
    comparer: &mut Comparer,
    random: &mut Random,
    settings: &Settings,
    form: u8,
    file: &[u8],
) {
    let settings = settings.bytes();
    let other = random.pick(&[TASK, EQUALISED, LAID, 3, 4, 127, 128, 255]);
    all_calls(comparer, random, &settings, other, file);
    if form == LAID {
        let beyond = random.between(3, 255) as u8;
        all_calls(comparer, random, &settings, beyond, file);
    }
}

fn noise(comparer: &mut Comparer, random: &mut Random, settings: &Settings) {
    let length = random.pick(&[0, 1, 11, 12, 13, 24, 72]);
    let file = random.bytes(length);
    let form = random.between(0, 3) as u8;
    let length = random.pick(&[12, WIDE_SETTINGS]);
    let settings = match random.chance(1, 2) {
        true => random.bytes(length),
        false => settings.bytes(),
    };
    all_calls(comparer, random, &settings, form, &file);
}

/// As many records as a form takes, one more, and a number of them whose
/// bytes are a multiple of 65,536.
fn too_many(comparer: &mut Comparer, random: &mut Random, settings: &Settings) {
    let settings = settings.with_period(MOST_PERIOD).bytes();
    for form in [TASK, EQUALISED, LAID] {
        let most = if form == TASK {
            MOST_TASK_RECORDS
        } else {
            MOST_RECORDS
        };
        for count in [most, most + 1, 16_384] {
            let file = bytes(&vec![random.pick(&[skip(1), write(0, 0)]); count]);
            all_calls(comparer, random, &settings, form, &file);
        }
    }
}
