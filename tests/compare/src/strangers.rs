//! Part 6: equalised and laid files that no preparing made, and images that
//! no stop left.

use crate::call::{Call, Kind, Set};
use crate::chain::{self, time, transform, Job};
use crate::comparer::Comparer;
use crate::generate::{self, set_of_values};
use crate::random::Random;
use crate::records::*;
use crate::report::hex;
use crate::stops;
use crate::walk::Walk;

pub fn part(comparer: &mut Comparer, seed: u64, rounds: u64) {
    let mut random = Random::new(seed);
    for round in 0..rounds {
        let settings = generate::settings(&mut random);
        let form = if round % 2 == 0 { EQUALISED } else { LAID };
        let file = bytes(&stranger(&mut random, &settings, form));
        let widest = settings.with_period(MOST_PERIOD).bytes();
        let needed = time(comparer, &mut random, &widest, form, &file).unwrap_or(1);
        let periods = [needed, needed, needed + 1, needed + 300, needed.max(2) - 1];
        let period = random.pick(&periods);
        let settings = settings.with_period(period.max(1));
        time(comparer, &mut random, &settings.bytes(), form, &file);
        // Some are tasks as well, and some would be but for one record.
        transform(
            comparer,
            &mut random,
            Kind::Prepare,
            &settings.bytes(),
            &file,
        );
        if form == EQUALISED {
            lay_out(comparer, &mut random, &settings, &file);
        }
        run_and_stop(comparer, &mut random, &settings, form, &file);
        if form == LAID {
            foreign_images(comparer, &mut random, &settings, &file);
        }
    }
}

/// The longest files; few, since each takes long.
pub fn limits(comparer: &mut Comparer, seed: u64) {
    let mut random = Random::new(seed);
    let settings = Settings {
        window: 65_535,
        period: MOST_PERIOD,
        ..generate::small(&mut random)
    };
    for count in [MOST_RECORDS - 4, MOST_RECORDS - 3, MOST_RECORDS] {
        let file = bytes(&vec![write(3, 3); count]);
        lay_out(comparer, &mut random, &settings, &file);
        run_and_stop(comparer, &mut random, &settings, EQUALISED, &file);
    }
    let many: Vec<Record> = (0..MOST_RECORDS)
        .map(|index| random.pick(&[save(), beat(1), write((index % 16) as u8, 1), skip(1)]))
        .collect();
    run_and_stop(comparer, &mut random, &settings, LAID, &bytes(&many));
    foreign_images(comparer, &mut random, &settings, &bytes(&many));
    many_rounds(comparer, &mut random, &settings);
}

/// Rounds up to the largest count, some of which take no ticks.
fn many_rounds(comparer: &mut Comparer, random: &mut Random, settings: &Settings) {
    let empty = generate::empty_rounds();
    for (count, body) in [
        (1000, empty),
        (65_535, vec![skip(3), skip(1)]),
        (65_535, vec![set(ADD, 0, 0, 1)]),
        (65_534, vec![write(0, 0), read(1, 1)]),
    ] {
        let opening = vec![repeat(TIMES, EQUAL, 0, 7, count)];
        let file = bytes(&[opening, body, vec![end()]].concat());
        time(comparer, random, &settings.bytes(), EQUALISED, &file);
        lay_out(comparer, random, settings, &file);
        run_and_stop(comparer, random, settings, EQUALISED, &file);
    }
}

fn stranger(random: &mut Random, settings: &Settings, form: u8) -> Vec<Record> {
    match random.below(20) {
        0 => {
            let depth = random.pick(&[15, 16, 16, 17]);
            generate::tower(random, form, depth)
        }
        1 if form == EQUALISED => {
            let before = vec![skip(1), skip(2), skip(3)];
            [before, generate::empty_rounds(), vec![write(1, 1)]].concat()
        }
        2 if form == EQUALISED => alike_sides(random),
        _ => {
            let size = generate::size(random, form);
            generate::file(random, settings, form, size)
        }
    }
}

/// SKIPs next to each other, before, in and after sides that end in them.
fn alike_sides(random: &mut Random) -> Vec<Record> {
    let mut skips = || vec![skip(random.between(1, 30)); random.index(4)];
    [
        skips(),
        vec![test(IF, EQUAL, 0, 1)],
        skips(),
        vec![otherwise()],
        skips(),
        vec![end()],
        skips(),
        vec![repeat(TIMES, EQUAL, 0, 7, 3)],
        skips(),
        vec![end()],
        skips(),
    ]
    .concat()
}

/// Under the period given, and under ones on the edges of the total.
fn lay_out(comparer: &mut Comparer, random: &mut Random, settings: &Settings, file: &[u8]) {
    transform(comparer, random, Kind::LayOut, &settings.bytes(), file);
    let widest = settings.with_period(MOST_PERIOD);
    let written = transform(comparer, random, Kind::LayOut, &widest.bytes(), file);
    let Some((laid, total)) = written else {
        return;
    };
    for period in [total, total - 1] {
        let edge = settings.with_period(period).bytes();
        transform(comparer, random, Kind::LayOut, &edge, file);
    }
    for fault in Walk::new(&widest, &laid).check(total).faults {
        comparer.fault(&format!("{fault}: {}", hex(&laid)));
    }
    same_ends(comparer, random, &widest, file, &laid);
}

/// A file laid out ends like the equalised file, whoever made that.
fn same_ends(
    comparer: &mut Comparer,
    random: &mut Random,
    settings: &Settings,
    equalised: &[u8],
    laid: &[u8],
) {
    let set = set_of_values(random);
    let settings = settings.bytes();
    let ends = [(EQUALISED, equalised), (LAID, laid)].map(|(form, file)| {
        let job = Job {
            settings: &settings,
            form,
            file,
            set: &set,
            spacing: None,
        };
        chain::run(comparer, random, &job).1
    });
    let alike = match &ends {
        [Some(equalised), Some(laid)] => laid.alike(equalised),
        _ => false,
    };
    if !alike {
        comparer.fault(&format!(
            "laid out, a file ends otherwise: {}",
            hex(equalised)
        ));
    }
}

fn run_and_stop(
    comparer: &mut Comparer,
    random: &mut Random,
    numbers: &Settings,
    form: u8,
    file: &[u8],
) {
    let set = set_of_values(random);
    let settings = numbers.bytes();
    let job = Job {
        settings: &settings,
        form,
        file,
        set: &set,
        spacing: None,
    };
    let (_, whole) = chain::run(comparer, random, &job);
    let Some(whole) = whole else {
        for kind in [Kind::RunUntil, Kind::Restart] {
            let call = Call::new(kind, &settings, form, file, random).fed(&set);
            comparer.call(&call);
        }
        return;
    };
    let save_ends = save_ends(numbers, file, whole.tick);
    for tick in stops::chosen(random, &save_ends, whole.tick) {
        chain::stop(comparer, random, &job, &whole, tick);
    }
}

/// Ticks at which SAVEs would end if the file had no blocks; in others they
/// are as good as any.
fn save_ends(settings: &Settings, file: &[u8], last: u32) -> Vec<u32> {
    let mut tick = 0u32;
    let mut ends = Vec::new();
    for record in records(file) {
        tick = tick.saturating_add(settings.ticks(&record));
        if record[0] == SAVE && tick <= last {
            ends.push(tick);
        }
    }
    ends
}

/// Mostly just after a SAVE; else anywhere, or so far off that it would be
/// right again if some of its bits or of its place in bytes were lost.
fn foreign_index(random: &mut Random, saves: &[u32], count: u32) -> u32 {
    if saves.is_empty() || random.chance(1, 8) {
        let any = [0, 1, count, count + 1, u32::MAX, random.between(0, count)];
        return random.pick(&any);
    }
    let save = random.pick(saves);
    match random.chance(1, 8) {
        true => save + random.pick(&[1 << 8, 1 << 16, 1 << 24, 1 << 30, 1 << 31]),
        false => save,
    }
}

fn foreign_images(comparer: &mut Comparer, random: &mut Random, settings: &Settings, file: &[u8]) {
    let period = settings.period;
    let settings = settings.bytes();
    let count = (file.len() / 12) as u32;
    let saves: Vec<u32> = (1..=count)
        .filter(|&index| file[12 * (index as usize - 1)] == SAVE)
        .collect();
    for _ in 0..4 {
        let index = foreign_index(random, &saves, count);
        let near = random.between(0, period);
        let far = [period + 1, u32::MAX, near + (1 << 24), near + (1 << 31)];
        let tick = match random.chance(1, 4) {
            true => random.pick(&far),
            false => random.pick(&[0, period, period, near]),
        };
        let Set { variables, inputs } = set_of_values(random);
        let form = random.pick(&[LAID, LAID, LAID, EQUALISED, TASK]);
        let mut call = Call::new(Kind::Resume, &settings, form, file, random);
        call.lent.inputs = inputs;
        call.lent.image = image(index, tick, &variables);
        comparer.call(&call);
    }
}
