//! Part 5: lent buffers of wrong and of exact lengths.

use crate::call::{Answer, Call, Kind};
use crate::chain::{prepare, Prepared};
use crate::comparer::Comparer;
use crate::generate::{self, set_of_values};
use crate::random::Random;
use crate::records::*;

pub fn part(comparer: &mut Comparer, seed: u64, rounds: u64) {
    let mut random = Random::new(seed);
    for _ in 0..rounds {
        let settings = generate::with_room(&generate::settings(&mut random));
        let size = generate::size(&mut random, TASK);
        let task = bytes(&generate::file(&mut random, &settings, TASK, size));
        let Some(prepared) = prepare(comparer, &mut random, &settings, &task) else {
            continue;
        };
        output_lengths(comparer, &mut random, &prepared);
        short_and_late(comparer, &mut random, &settings, &prepared);
        for form in [TASK, EQUALISED, LAID] {
            run_lengths(comparer, &mut random, &prepared, form);
        }
    }
}

fn output_lengths(comparer: &mut Comparer, random: &mut Random, prepared: &Prepared) {
    let settings = &prepared.settings;
    let steps = [
        (Kind::Equalise, &prepared.task, prepared.equalised.len()),
        (Kind::LayOut, &prepared.equalised, prepared.laid.len()),
        (Kind::Prepare, &prepared.task, prepared.laid.len()),
    ];
    for (kind, file, needed) in steps {
        let short = [0, needed.saturating_sub(12), needed.saturating_sub(1)];
        for length in short.into_iter().chain([needed, needed + 1, needed + 12]) {
            let call = Call::new(kind, settings, TASK, file, random).with_out(length, random);
            let outcome = comparer.call(&call);
            let refused = Answer::refused(9);
            let sound = (outcome.answer == refused) == (length < needed);
            comparer.hold(sound, "refused 9 just if too short", &call, &outcome);
        }
    }
}

/// No room for the result, and a period just too short or just long enough.
fn short_and_late(
    comparer: &mut Comparer,
    random: &mut Random,
    settings: &Settings,
    prepared: &Prepared,
) {
    let steps = [
        (Kind::Equalise, &prepared.task, prepared.time),
        (Kind::LayOut, &prepared.equalised, prepared.total),
        (Kind::Prepare, &prepared.task, prepared.time),
        (Kind::Prepare, &prepared.task, prepared.total),
    ];
    for (kind, file, needed) in steps {
        for period in [needed.max(2) - 1, needed.max(1)] {
            let settings = settings.with_period(period).bytes();
            let call = Call::new(kind, &settings, TASK, file, random);
            comparer.call(&call);
        }
    }
}

/// One buffer of a wrong length at a time, then any of them.
fn run_lengths(comparer: &mut Comparer, random: &mut Random, prepared: &Prepared, form: u8) {
    let set = set_of_values(random);
    for kind in [Kind::Run, Kind::RunUntil, Kind::Resume, Kind::Restart] {
        for buffer in 0..6 {
            let job = prepared.job(form, &set);
            let mut call = Call::new(kind, job.settings, form, job.file, random).fed(&set);
            call.lent.image = image(2, 0, &set.variables);
            call.stop = random.between(0, prepared.total);
            let chosen = if buffer == 5 {
                random.index(32)
            } else {
                1 << buffer
            };
            let right = wrong_lengths(random, &mut call, chosen);
            let outcome = comparer.call(&call);
            let refused = Answer::refused(10);
            let sound = (outcome.answer == refused) != right;
            comparer.hold(
                sound,
                "refused 10 just if a length is wrong",
                &call,
                &outcome,
            );
        }
    }
}

/// Changes the lengths chosen by bits; answers whether those that the call
/// looks at are all still right.
pub fn wrong_lengths(random: &mut Random, call: &mut Call, chosen: usize) -> bool {
    let lent = &mut call.lent;
    let mut wrong = |right: usize| match random.chance(1, 40) {
        true => right + 65_536,
        false => random.pick(&[0, right - 1, right + 1, 2 * right, right + 256]),
    };
    if chosen & 1 != 0 {
        lent.variables.resize(wrong(16), 7);
    }
    if chosen & 2 != 0 {
        lent.inputs.resize(wrong(8), 7);
    }
    if chosen & 4 != 0 {
        lent.levels.resize(wrong(8), 7);
    }
    if chosen & 8 != 0 {
        lent.marks.resize(wrong(8), 7);
    }
    if chosen & 16 != 0 {
        lent.image.resize(wrong(72), 7);
    }
    let looks_at_image = matches!(call.kind, Kind::RunUntil | Kind::Resume);
    chosen & 15 == 0 && (chosen & 16 == 0 || !looks_at_image)
}
