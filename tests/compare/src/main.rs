//! Compares the two implementations of the preparer call by call.
//!
//! Without arguments all parts run with fixed seeds. `--soak SECONDS` goes on
//! with the random parts until the time is over, from `--seed N` if given.
//! `--self-check` runs the negative control alone.

mod bench;
mod buffers;
mod call;
mod chain;
mod comparer;
mod damaged;
mod exhaustive;
mod generate;
mod guard;
mod limits;
mod limits_of_files;
mod limits_of_settings;
mod listing;
mod multiply;
mod order;
mod paper;
mod preparing;
mod program;
mod random;
mod records;
mod report;
mod self_check;
mod shrink;
mod steady;
mod stops;
mod strangers;
mod tally;
mod valid;
mod walk;
mod watch;
mod watched;
mod watcher;
mod wide;
mod wide_numbers;

use comparer::Comparer;
use random::Random;
use self_check::Control;
use std::env;
use std::process::ExitCode;
use std::time::{Duration, Instant, SystemTime, UNIX_EPOCH};

/// A default run with fewer calls has lost a part.
const LEAST_CALLS: u64 = 4_200_000;

/// Likewise, by what the calls answered.
const LEAST_OF_A_KIND: u64 = 100;

/// A part makes its calls through the comparer, from a seed.
type Part = fn(&mut Comparer, u64);

const PARTS: [(&str, Part); 9] = [
    ("bench", |comparer, seed| {
        bench::part(comparer, seed);
        limits_of_files::part(comparer, seed);
        limits::part(comparer, seed);
    }),
    ("exhaustive", exhaustive::part),
    ("valid", |comparer, seed| {
        valid::limits(comparer, seed);
        valid::part(comparer, seed, 4000);
    }),
    ("damaged", |comparer, seed| {
        damaged::part(comparer, seed, 4000)
    }),
    ("buffers", |comparer, seed| {
        buffers::part(comparer, seed, 800)
    }),
    ("strangers", |comparer, seed| {
        strangers::limits(comparer, seed);
        strangers::part(comparer, seed, 8000);
    }),
    ("order", |comparer, seed| order::part(comparer, seed, 7000)),
    ("watcher", |comparer, seed| {
        watcher::part(comparer, seed, 400);
        steady::part(comparer, seed, 525);
    }),
    ("wide", |comparer, seed| {
        limits_of_settings::part(comparer, seed);
        wide_numbers::part(comparer, seed);
        multiply::part(comparer, seed);
        wide::part(comparer, seed, 10_000);
    }),
];

enum Mode {
    Default,
    SelfCheck,
    Soak { seconds: u64, seed: u64 },
}

fn main() -> ExitCode {
    let arguments: Vec<String> = env::args().skip(1).collect();
    let passed = match mode(&arguments) {
        Some(Mode::Default) => default_run(),
        Some(Mode::SelfCheck) => self_check(),
        Some(Mode::Soak { seconds, seed }) => soak(seconds, seed),
        None => {
            eprintln!("usage: compare [--self-check | --soak SECONDS [--seed N]]");
            false
        }
    };
    if passed {
        ExitCode::SUCCESS
    } else {
        ExitCode::FAILURE
    }
}

fn mode(arguments: &[String]) -> Option<Mode> {
    let words: Vec<&str> = arguments.iter().map(String::as_str).collect();
    match words[..] {
        [] => Some(Mode::Default),
        ["--self-check"] => Some(Mode::SelfCheck),
        ["--soak", seconds] => Some(Mode::Soak {
            seconds: seconds.parse().ok()?,
            seed: seed_of_now(),
        }),
        ["--soak", seconds, "--seed", seed] => Some(Mode::Soak {
            seconds: seconds.parse().ok()?,
            seed: seed.parse().ok()?,
        }),
        _ => None,
    }
}

fn seed_of_now() -> u64 {
    let now = SystemTime::now().duration_since(UNIX_EPOCH);
    now.map_or(1, |passed| passed.as_secs())
}

fn default_run() -> bool {
    let control = self_check();
    let mut comparer = Comparer::new();
    for (seed, (name, part)) in (1..).zip(PARTS) {
        let before = comparer.calls;
        comparer.seed = seed;
        part(&mut comparer, seed);
        println!("{name}: {} calls", comparer.calls - before);
    }
    program::part(&mut comparer, 8);
    let covered = coverage(&comparer);
    summary(&comparer, control && covered)
}

fn coverage(comparer: &Comparer) -> bool {
    let (kinds, rarest) = comparer.tally.rarest();
    println!("answers: {kinds} kinds, each at least {rarest} times");
    if comparer.calls < LEAST_CALLS {
        println!("compare: fewer than {LEAST_CALLS} calls");
    }
    if rarest < LEAST_OF_A_KIND {
        println!("compare: a kind of answer fewer than {LEAST_OF_A_KIND} times");
    }
    comparer.calls >= LEAST_CALLS && rarest >= LEAST_OF_A_KIND
}

fn self_check() -> bool {
    let Control { tried, missed } = self_check::check();
    println!("self-check: {tried} changes, {missed} missed");
    missed == 0
}

/// Each round has the next seed, so that one round is repeated by its own:
/// with 0 seconds there is one round.
fn soak(seconds: u64, seed: u64) -> bool {
    println!("soak: {seconds} seconds from seed {seed}");
    let control = self_check();
    let (start, limit) = (Instant::now(), Duration::from_secs(seconds));
    let mut comparer = Comparer::new();
    comparer.seed = seed;
    loop {
        round(&mut comparer);
        comparer.seed = comparer.seed.wrapping_add(1);
        if start.elapsed() >= limit {
            break;
        }
    }
    println!("soak: next seed {}", comparer.seed);
    summary(&comparer, control)
}

fn round(comparer: &mut Comparer) {
    // Each part has its own stream of numbers.
    let mut streams = Random::new(comparer.seed);
    valid::part(comparer, streams.next(), 48);
    damaged::part(comparer, streams.next(), 40);
    buffers::part(comparer, streams.next(), 8);
    strangers::part(comparer, streams.next(), 80);
    order::part(comparer, streams.next(), 60);
    watcher::long_sequences(comparer, streams.next(), 4);
    steady::generated(comparer, streams.next(), 2);
    wide::generated(comparer, streams.next(), 40);
}

/// The last line; a run that was not sound never says "no difference".
fn summary(comparer: &Comparer, sound: bool) -> bool {
    let calls = comparer.calls;
    match comparer.differences {
        0 if sound => println!("compare: {calls} calls, no difference"),
        0 => println!("compare: {calls} calls, but the run was not sound"),
        found => println!("compare: {calls} calls, {found} differences"),
    }
    comparer.differences == 0 && sound
}
