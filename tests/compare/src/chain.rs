//! The whole chain of calls on one task, and the single claim about it: a run
//! stopped and taken up ends like the whole laid run and like the task as
//! written.

use crate::call::{Answer, Call, Kind, Lent, Outcome, Set};
use crate::comparer::Comparer;
use crate::random::Random;
use crate::records::{number, Settings, EQUALISED, LAID, MOST_BYTES, TASK};
use crate::walk::Walk;

/// A file to run, and what it is run on.
pub struct Job<'a> {
    pub settings: &'a [u8],
    pub form: u8,
    pub file: &'a [u8],
    pub set: &'a Set,
    /// The ticks that taking up may run again, where the paper bounds them.
    pub spacing: Option<u64>,
}

/// What demand 3 compares, and the end tick, which it does not.
#[derive(Clone, PartialEq, Eq)]
pub struct End {
    pub variables: Vec<u32>,
    pub levels: Vec<u32>,
    pub marks: Vec<u8>,
    pub overran: bool,
    pub tick: u32,
}

impl End {
    fn of(outcome: &Outcome) -> Option<End> {
        let Answer::Ended { tick, overran } = outcome.answer else {
            return None;
        };
        let Lent {
            variables,
            levels,
            marks,
            ..
        } = outcome.lent.clone();
        Some(End {
            variables,
            levels,
            marks,
            overran,
            tick,
        })
    }

    pub fn alike(&self, other: &End) -> bool {
        let tick = self.tick;
        *self
            == End {
                tick,
                ..other.clone()
            }
    }
}

/// A task that was equalised and laid out.
pub struct Prepared {
    pub settings: Vec<u8>,
    pub task: Vec<u8>,
    pub equalised: Vec<u8>,
    pub laid: Vec<u8>,
    pub time: u32,
    pub total: u32,
    pub walk: Walk,
    spacing: u64,
}

/// Times a file; the call answers a refusal as nothing.
pub fn time(
    comparer: &mut Comparer,
    random: &mut Random,
    settings: &[u8],
    form: u8,
    file: &[u8],
) -> Option<u32> {
    let call = Call::new(Kind::Time, settings, form, file, random);
    match comparer.call(&call).answer {
        Answer::Time(time) => Some(time),
        _ => None,
    }
}

/// The calls that make a file from one of this form.
pub fn writing(form: u8) -> &'static [Kind] {
    match form {
        TASK => &[Kind::Equalise, Kind::Prepare],
        EQUALISED => &[Kind::LayOut],
        _ => &[],
    }
}

/// Equalises, lays out or prepares into a buffer that any result fits in.
pub fn transform(
    comparer: &mut Comparer,
    random: &mut Random,
    kind: Kind,
    settings: &[u8],
    file: &[u8],
) -> Option<(Vec<u8>, u32)> {
    let call = Call::new(kind, settings, TASK, file, random).with_out(MOST_BYTES + 29, random);
    let outcome = comparer.call(&call);
    match outcome.answer {
        Answer::Written { bytes, time } => Some((outcome.lent.out.get(..bytes)?.to_vec(), time)),
        _ => None,
    }
}

/// Equalises and lays out, and checks the times and the laid file. The same
/// is done by one call.
pub fn prepare(
    comparer: &mut Comparer,
    random: &mut Random,
    numbers: &Settings,
    task: &[u8],
) -> Option<Prepared> {
    let settings = numbers.bytes();
    transform(comparer, random, Kind::Prepare, &settings, task);
    let time_written = time(comparer, random, &settings, TASK, task);
    let (equalised, time_equal) = transform(comparer, random, Kind::Equalise, &settings, task)?;
    let time_of_equal = time(comparer, random, &settings, EQUALISED, &equalised);
    let call = Call::new(Kind::LayOut, &settings, EQUALISED, &equalised, random);
    let call = call.with_out(MOST_BYTES + 24, random);
    let outcome = comparer.call(&call);
    let times_agree = time_written == Some(time_equal) && time_of_equal == Some(time_equal);
    comparer.hold(times_agree, "equalising keeps the time", &call, &outcome);
    let Answer::Written { bytes, time: total } = outcome.answer else {
        return None;
    };
    let laid = outcome.lent.out.get(..bytes)?.to_vec();
    let time_of_laid = time(comparer, random, &settings, LAID, &laid);
    let agree = time_of_laid == Some(total);
    comparer.hold(agree, "the total is the laid file's time", &call, &outcome);
    let walk = Walk::new(numbers, &laid).check(total);
    for fault in &walk.faults {
        comparer.hold(false, fault, &call, &outcome);
    }
    Some(Prepared {
        settings,
        task: task.to_vec(),
        equalised,
        laid,
        time: time_equal,
        total,
        walk,
        spacing: numbers.ticks_between_saves(),
    })
}

impl Prepared {
    pub fn job<'a>(&'a self, form: u8, set: &'a Set) -> Job<'a> {
        let file = match form {
            TASK => &self.task,
            EQUALISED => &self.equalised,
            _ => &self.laid,
        };
        Job {
            settings: &self.settings,
            form,
            file,
            set,
            spacing: (form == LAID).then_some(self.spacing),
        }
    }

    /// Runs all three forms on one set and holds their ends alike; answers the
    /// laid run's.
    pub fn run_all(&self, comparer: &mut Comparer, random: &mut Random, set: &Set) -> Option<End> {
        let (_, written) = run(comparer, random, &self.job(TASK, set));
        let (equal_outcome, equal) = run(comparer, random, &self.job(EQUALISED, set));
        let (laid_outcome, laid) = run(comparer, random, &self.job(LAID, set));
        let (written, equal, laid) = (written?, equal?, laid?);
        let job = self.job(EQUALISED, set);
        let call = Call::new(Kind::Run, job.settings, EQUALISED, job.file, random).fed(set);
        let sound = equal.alike(&written) && (equal.overran || equal.tick == self.time);
        comparer.hold(sound, "the equalised run", &call, &equal_outcome);
        let job = self.job(LAID, set);
        let call = Call::new(Kind::Run, job.settings, LAID, job.file, random).fed(set);
        let sound = laid.alike(&written) && (laid.overran || laid.tick == self.total);
        comparer.hold(sound, "the laid run", &call, &laid_outcome);
        Some(laid)
    }
}

pub fn run(comparer: &mut Comparer, random: &mut Random, job: &Job) -> (Outcome, Option<End>) {
    let call = Call::new(Kind::Run, job.settings, job.form, job.file, random).fed(job.set);
    let outcome = comparer.call(&call);
    let end = End::of(&outcome);
    (outcome, end)
}

/// Stops a run whose whole end is known at a tick and takes it up.
pub fn stop(comparer: &mut Comparer, random: &mut Random, job: &Job, whole: &End, tick: u32) {
    let call = Call::new(Kind::RunUntil, job.settings, job.form, job.file, random)
        .fed(job.set)
        .stopping_at(tick);
    let outcome = comparer.call(&call);
    let Answer::Stopped { saved, .. } = outcome.answer else {
        let sound = tick >= whole.tick && outcome.answer == Answer::refused(12);
        comparer.hold(
            sound,
            "a stop is refused at or past the end",
            &call,
            &outcome,
        );
        return;
    };
    comparer.hold(
        tick < whole.tick,
        "a stop is before the end",
        &call,
        &outcome,
    );
    let from = if saved {
        number(&outcome.lent.image, 4)
    } else {
        0
    };
    let again = u64::from(tick.saturating_sub(from));
    let few = job.spacing.is_none_or(|spacing| again < spacing);
    comparer.hold(few, "fewer ticks than K x H run again", &call, &outcome);
    take_up(comparer, random, job, whole, &outcome, saved);
}

fn take_up(
    comparer: &mut Comparer,
    random: &mut Random,
    job: &Job,
    whole: &End,
    stopped: &Outcome,
    saved: bool,
) {
    let kind = if saved { Kind::Resume } else { Kind::Restart };
    let mut call = Call::new(kind, job.settings, job.form, job.file, random).after(&stopped.lent);
    call.lent.inputs.clone_from(&job.set.inputs);
    // With an image, the variables lent are noise: they come from the image.
    if !saved {
        call.lent.variables.clone_from(&job.set.variables);
    }
    let outcome = comparer.call(&call);
    let sound = End::of(&outcome).is_some_and(|end| end == *whole);
    comparer.hold(
        sound,
        "taken up, a run ends like the whole",
        &call,
        &outcome,
    );
}
