//! Part 9, continued: prepared tasks in steady periods, watched by the BEATs
//! that their runs make.

use crate::bench::lettered;
use crate::call::{Answer, Health, Kind};
use crate::chain::{self, prepare, Prepared};
use crate::comparer::Comparer;
use crate::generate::{self, set_of_values};
use crate::random::Random;
use crate::records::*;
use crate::watch::{watched, Watch};
use crate::watched::ENTRY;
use crate::watcher::silence;
use second::Beat;

const PERIODS: u32 = 4;

/// What is tried of the longer silences of a last BEAT's value.
const LONGEST_SILENCE: u32 = 200;

/// How often each phase is tried, from another tick of the reset.
const RESETS: u32 = 2;

/// Events of one task, about: the longer its periods, the fewer its phases.
const EVENTS: usize = 8000;

/// The entry of a table of three that is watched.
const WATCHED: u32 = 1;

/// Some periods of a task, each run on a set of its own.
pub struct Steady {
    window: u32,
    first: u32,
    period: u32,
    /// By the ticks of their ends, over all periods.
    pub beats: Vec<Beat>,
}

pub fn part(comparer: &mut Comparer, seed: u64, rounds: u64) {
    let mut random = Random::new(seed);
    for (settings, task) in lettered() {
        let prepared = prepare(comparer, &mut random, &settings, &task);
        let total = prepared.expect("a bench task is laid out").total;
        let left = (0..=settings.window + 3).map(|left| total + left);
        for period in left.chain([settings.period]) {
            one_task(comparer, &mut random, &settings.with_period(period), &task);
        }
    }
    generated(comparer, random.next(), rounds);
}

/// Random tasks, with periods about the edges of the windows left.
pub fn generated(comparer: &mut Comparer, seed: u64, rounds: u64) {
    let mut random = Random::new(seed);
    for _ in 0..rounds {
        let settings = generate::settings(&mut random);
        let size = generate::size(&mut random, TASK);
        let task = bytes(&generate::file(&mut random, &settings, TASK, size));
        let widest = settings.with_period(MOST_PERIOD);
        let Some(prepared) = prepare(comparer, &mut random, &widest, &task) else {
            continue;
        };
        let left = ticks_left(&mut random, &settings);
        let period = MOST_PERIOD.min(prepared.total + left);
        one_task(comparer, &mut random, &settings.with_period(period), &task);
    }
}

/// The ticks of a period after its last beat. Where they are more than H - B
/// beyond a multiple of H, looks in some phases are one more than the windows
/// that the beat tells.
fn ticks_left(random: &mut Random, settings: &Settings) -> u32 {
    let (window, beat) = (settings.window, u32::from(settings.beat));
    let edge = window - beat;
    let any = random.between(0, 6 * window);
    let about = [edge - 1, edge, edge + 1, window - 1, window, window + 1];
    let windows = window * random.between(0, 5);
    let near = windows + random.pick(&about);
    random.pick(&[0, 1, near, near, near, any])
}

fn one_task(comparer: &mut Comparer, random: &mut Random, settings: &Settings, task: &[u8]) {
    if let Some(steady) = Steady::new(comparer, random, settings, task) {
        for phase in steady.phases(random) {
            for _ in 0..RESETS {
                let from = steady.reset_tick(random);
                steady.watch(comparer, random, phase, from);
            }
        }
    }
}

impl Steady {
    /// Nothing for a task that is not laid out, or that mostly overruns.
    pub fn new(
        comparer: &mut Comparer,
        random: &mut Random,
        settings: &Settings,
        task: &[u8],
    ) -> Option<Steady> {
        let prepared = prepare(comparer, random, settings, task)?;
        let mut steady = Steady {
            window: settings.window,
            first: random.between(0, 3 * settings.window),
            period: settings.period,
            beats: Vec::new(),
        };
        for period in 0..PERIODS {
            let made = (0..8).find_map(|_| one_run(comparer, random, settings, &prepared))?;
            let start = steady.first + period * steady.period;
            steady.beats.extend(made.into_iter().map(|beat| Beat {
                end: start + beat.end,
                ..beat
            }));
        }
        Some(steady)
    }

    /// All phases of the looks or, where that would be too many events, those
    /// in which a look is about a period's first or last beat, and some more.
    fn phases(&self, random: &mut Random) -> Vec<u32> {
        let looks = PERIODS * self.period / self.window;
        let most = EVENTS / (self.beats.len() + looks as usize + 1);
        if (self.window as usize) <= most {
            return (0..self.window).collect();
        }
        let each = self.beats.len() / PERIODS as usize;
        let first_and_last = |beats: &[Beat]| [beats[0].end, beats[each - 1].end];
        let ends = self.beats.chunks_exact(each).flat_map(first_and_last);
        let about = ends.flat_map(|end| [end - 1, end, end + 1]);
        let more: Vec<u32> = (0..3).map(|_| random.between(0, self.window - 1)).collect();
        let mut phases: Vec<u32> = about.chain(more).map(|tick| tick % self.window).collect();
        phases.sort_unstable();
        phases.dedup();
        phases
    }

    /// The first tick, one about a beat of the first period, or any of it.
    fn reset_tick(&self, random: &mut Random) -> u32 {
        let beat = self.beats[random.index(self.beats.len() / PERIODS as usize)].end;
        let any = self.first + random.between(0, self.period);
        random.pick(&[0, self.first, beat - 1, beat, beat + 1, any])
    }

    /// What happens from a tick on, a beat before a look of the same tick.
    fn events(&self, phase: u32, from: u32) -> Vec<(u32, Kind, u32)> {
        let end = self.first + PERIODS * self.period;
        let first_look = from + (phase + self.window - from % self.window) % self.window;
        let looks = (first_look..=end).step_by(self.window as usize);
        let looks = looks.map(|tick| (tick, Kind::Look, 0));
        let beats = self.beats.iter().filter(|beat| beat.end >= from);
        let beats = beats.map(|beat| (beat.end, Kind::Beat, beat.value));
        let mut events: Vec<(u32, Kind, u32)> = beats.chain(looks).collect();
        // The sort keeps the order of equal ticks, and beats were put first.
        events.sort_by_key(|&(tick, _, _)| tick);
        events
    }

    /// Resets the entry before or after all that happens at the tick `from`,
    /// and holds it never to have failed; then the controller falls silent.
    pub fn watch(&self, comparer: &mut Comparer, random: &mut Random, phase: u32, from: u32) {
        let table = random.words(3 * ENTRY);
        let mut watch = Watch { comparer, table };
        let waiting = watched(Health::Waiting, 2);
        watch.expect(Kind::Reset, WATCHED, self.window, &waiting);
        let events = self.events(phase, from + random.between(0, 1));
        for &(tick, kind, number) in &events {
            let answer = watch.make(kind, WATCHED, number);
            let sound = match answer {
                Answer::Watched { health, .. } => health != Health::Failed,
                _ => false,
            };
            if !sound {
                let text = format!("in steady periods {answer:?} at tick {tick}, phase {phase}");
                return watch.comparer.fault(&text);
            }
        }
        let last = self.beats.last().map_or(0, |beat| beat.value);
        silence(&mut watch, WATCHED, last.min(LONGEST_SILENCE));
    }
}

/// The BEATs of a run on some set, with their ends in ticks of the run. They
/// start at every multiple of the window. Nothing for a run that overran.
fn one_run(
    comparer: &mut Comparer,
    random: &mut Random,
    settings: &Settings,
    prepared: &Prepared,
) -> Option<Vec<Beat>> {
    let set = set_of_values(random);
    let job = prepared.job(LAID, &set);
    let (_, whole) = chain::run(comparer, random, &job);
    let whole = whole.filter(|whole| !whole.overran)?;
    let form = second::Form::Laid;
    let (beats, ended) =
        second::beats(job.settings, form, job.file, &set.variables, &set.inputs).ok()?;
    let (window, total) = (settings.window, prepared.total);
    let mut due = Vec::new();
    for end in (u32::from(settings.beat)..total).step_by(window as usize) {
        due.push(Beat { end, value: 1 });
    }
    let value = (settings.period - total).div_ceil(window);
    due.push(Beat { end: total, value });
    if beats != due || ended.tick != whole.tick {
        comparer.fault(&format!(
            "a run's BEATs are {beats:?}, by the paper {due:?}"
        ));
    }
    Some(beats)
}
