//! Part 9: the watcher. Every short sequence of events, long random ones, and
//! tables, entries and numbers of all sorts.

use crate::call::{Answer, Call, Health, Kind};
use crate::comparer::Comparer;
use crate::random::Random;
use crate::watch::{told, watched, Event, Watch};
use crate::watched::{ENTRY, MOST_ENTRIES, MOST_VALUE};

/// A full run of looks after each beat of these values.
const SILENT: [u32; 8] = [0, 1, 2, 3, 255, 256, 4095, 65_536];

pub fn part(comparer: &mut Comparer, seed: u64, rounds: u64) {
    let mut random = Random::new(seed);
    every_sequence(comparer, 1, 8);
    every_sequence(comparer, 2, 6);
    for value in SILENT {
        silence(&mut Watch::fresh(comparer, 1), 0, value);
    }
    longest_silence(comparer);
    bad_input(comparer, &mut random);
    long_sequences(comparer, random.next(), rounds);
}

/// All sequences of up to `longest` events of so many entries.
fn every_sequence(comparer: &mut Comparer, entries: u32, longest: usize) {
    let letters = [
        (Kind::Beat, 0),
        (Kind::Beat, 1),
        (Kind::Look, 0),
        (Kind::Reset, 1),
    ];
    let of = |entry| {
        letters.map(|(kind, number)| Event {
            kind,
            entry,
            number,
        })
    };
    let alphabet: Vec<Event> = (0..entries).flat_map(of).collect();
    let mut watch = Watch::fresh(comparer, entries as usize);
    let mut own = vec![Vec::new(); entries as usize];
    grow(&mut watch, &alphabet, longest, &mut own);
}

/// Lengthens a sequence whose events are in `own`, entry by entry. An event
/// shows in its own entry and in no other.
fn grow(watch: &mut Watch, alphabet: &[Event], room: usize, own: &mut [Vec<Event>]) {
    if room == 0 {
        return;
    }
    for event in alphabet {
        let before = watch.table.clone();
        let (kind, entry, number) = (event.kind, event.entry, event.number);
        own[entry as usize].push(*event);
        watch.expect(kind, entry, number, &told(&own[entry as usize]));
        for other in (0..own.len() as u32).filter(|other| *other != entry) {
            watch.expect(Kind::Status, other, 0, &told(&own[other as usize]));
        }
        grow(watch, alphabet, room - 1, own);
        own[entry as usize].pop();
        watch.table = before;
    }
}

/// A beat and then looks alone: the entry has failed at look v + 2 and no
/// sooner, and this holds until it is reset.
pub fn silence(watch: &mut Watch, entry: u32, value: u32) {
    watch.expect(Kind::Beat, entry, value, &watched(Health::Well, value + 2));
    for left in (2..value + 2).rev() {
        watch.expect(Kind::Look, entry, 0, &watched(Health::Well, left));
    }
    watch.expect(Kind::Look, entry, 0, &watched(Health::Suspect, 1));
    let failed = watched(Health::Failed, 0);
    watch.expect(Kind::Look, entry, 0, &failed);
    watch.expect(Kind::Look, entry, 0, &failed);
    watch.expect(Kind::Beat, entry, value, &failed);
    watch.expect(Kind::Status, entry, 0, &failed);
    let waiting = watched(Health::Waiting, 2);
    watch.expect(Kind::Reset, entry, 7, &waiting);
    watch.expect(Kind::Look, entry, 0, &waiting);
}

/// The same of the largest value. These looks are made by the first
/// implementation alone, and are not counted as calls.
fn longest_silence(comparer: &mut Comparer) {
    let mut table = [2, 0, 1];
    let heard = rack::beat(&mut table, 0, MOST_VALUE);
    let mut failed = || {
        let answer = rack::look(&mut table, 0);
        answer.is_ok_and(|watched| watched.health == rack::Health::Failed)
    };
    let early = (0..=MOST_VALUE).any(|_| failed());
    if heard.is_err() || early || !failed() {
        comparer.fault("the longest silence shows at another look than v + 2");
    }
}

/// Lengths, entries and numbers at the limits and past them, each with each,
/// on entries that hold any numbers.
fn bad_input(comparer: &mut Comparer, random: &mut Random) {
    const LENGTHS: [usize; 16] = [0, 1, 2, 3, 4, 5, 6, 93, 94, 95, 96, 97, 98, 99, 192, 65_538];
    for length in LENGTHS {
        for entry in entries_about(length) {
            for left in [0, 1, 2, 3, MOST_VALUE + 2, 1 << 31, u32::MAX] {
                for waits in [0, 1, 7, 256, u32::MAX] {
                    let mut table = random.words(length);
                    let at = ENTRY.saturating_mul(entry as usize);
                    if let Some(numbers) = table.get_mut(at..at.saturating_add(ENTRY)) {
                        let window = random.pick(&[0, 1, u32::MAX, numbers[1]]);
                        numbers.copy_from_slice(&[left, window, waits]);
                    }
                    every_number(comparer, &table, entry);
                }
            }
        }
    }
}

/// The first and the last, the first that is not there, and some whose place
/// in the table would be right again if its high bits were lost.
fn entries_about(length: usize) -> Vec<u32> {
    let count = (length / ENTRY) as u32;
    let mut entries = vec![0, count.saturating_sub(1), count, count + 1];
    entries.extend([31, 32, 1 << 8, 1 << 16, 1 << 31, u32::MAX]);
    // Three times this is 2 more than 2^32.
    entries.push(0x5555_5556);
    entries.sort_unstable();
    entries.dedup();
    entries
}

fn every_number(comparer: &mut Comparer, table: &[u32], entry: u32) {
    let most = [0, 1, MOST_VALUE, MOST_VALUE + 1, 1 << 24, u32::MAX];
    let beats = most.map(|value| (Kind::Beat, value));
    let resets = [0, 1, u32::MAX].map(|window| (Kind::Reset, window));
    let others = [(Kind::Look, 0), (Kind::Status, 0)];
    for (kind, number) in beats.into_iter().chain(resets).chain(others) {
        comparer.call(&Call::watching(kind, table, entry, number));
    }
}

/// Events of all entries in turn; at the end each is what its own made it.
pub fn long_sequences(comparer: &mut Comparer, seed: u64, rounds: u64) {
    let mut random = Random::new(seed);
    for _ in 0..rounds {
        let entries = random.pick(&[1, 2, 3, 5, 31, MOST_ENTRIES]);
        let mut own = vec![Vec::new(); entries];
        let mut watch = Watch::fresh(comparer, entries);
        for _ in 0..random.between(100, 800) {
            let event = any_event(&mut random, entries);
            let answer = watch.happen(event);
            if answer != Answer::refused(13) {
                own.get_mut(event.entry as usize)
                    .into_iter()
                    .for_each(|events| events.push(event));
            }
            if random.chance(1, 2) {
                watch.make(Kind::Status, random.index(entries) as u32, 0);
            }
        }
        for (entry, events) in (0..).zip(&own) {
            watch.expect(Kind::Status, entry, 0, &told(events));
        }
    }
}

/// Mostly looks and small values, so that all healths are met.
fn any_event(random: &mut Random, entries: usize) -> Event {
    let entry = match random.chance(1, 50) {
        true => entries as u32 + random.pick(&[0, 1, u32::MAX - entries as u32]),
        false => random.index(entries) as u32,
    };
    let (kind, number) = match random.below(32) {
        0 => (Kind::Reset, random.pick(&[0, 1, 20, u32::MAX])),
        1 => (Kind::Beat, random.pick(&[MOST_VALUE, MOST_VALUE + 1])),
        2 => (Kind::Beat, random.between(0, MOST_VALUE)),
        3..=12 => (Kind::Beat, random.between(0, 4)),
        _ => (Kind::Look, 0),
    };
    Event {
        kind,
        entry,
        number,
    }
}
