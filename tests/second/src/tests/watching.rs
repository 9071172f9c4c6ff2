//! The watcher: counts, silence, steady periods and what is refused.

use super::*;
use crate::beat;
use Health::{Failed, Suspect, Waiting, Well};

/// Waits, with no window given yet.
const FRESH: [u32; 3] = [2, 0, 1];

fn is(health: Health, left: u32) -> Result<Watched, Refused> {
    Ok(Watched { health, left })
}

#[test]
fn a_count_goes_down_look_by_look() {
    let mut table = FRESH;
    assert_eq!(look(&mut table, 0), is(Waiting, 2));
    assert_eq!(beat(&mut table, 0, 1), is(Well, 3));
    assert_eq!(look(&mut table, 0), is(Well, 2));
    assert_eq!(look(&mut table, 0), is(Suspect, 1));
    assert_eq!(beat(&mut table, 0, 0), is(Well, 2));
    assert_eq!(look(&mut table, 0), is(Suspect, 1));
    assert_eq!(look(&mut table, 0), is(Failed, 0));
}

#[test]
fn failed_holds_until_reset() {
    let mut table = [0, 20, 0];
    assert_eq!(beat(&mut table, 0, 9), is(Failed, 0));
    assert_eq!(look(&mut table, 0), is(Failed, 0));
    assert_eq!(table, [0, 20, 0]);
    assert_eq!(reset(&mut table, 0, 30), is(Waiting, 2));
    assert_eq!(table, [2, 30, 1]);
    assert_eq!(look(&mut table, 0), is(Waiting, 2));
    assert_eq!(beat(&mut table, 0, 9), is(Well, 11));
    assert_eq!(table, [11, 30, 0]);
}

#[test]
fn silence_shows_at_look_v_plus_2() {
    for value in (0..100).chain([65_535, 65_536, 1_000_000]) {
        let mut table = FRESH;
        beat(&mut table, 0, value).unwrap();
        for _ in 0..=value {
            assert_ne!(look(&mut table, 0).unwrap().health, Failed);
        }
        assert_eq!(look(&mut table, 0), is(Failed, 0));
    }
}

#[test]
fn any_numbers_are_taken_as_they_stand() {
    let mut table = [u32::MAX, 0, 0];
    assert_eq!(look(&mut table, 0), is(Well, u32::MAX - 1));
    // It waits whatever number says so, and keeps that number.
    let mut table = [0, 5, 7];
    assert_eq!(status(&table, 0), is(Waiting, 0));
    assert_eq!(look(&mut table, 0), is(Waiting, 0));
    assert_eq!(table, [0, 5, 7]);
    assert_eq!(beat(&mut table, 0, 0), is(Well, 2));
    assert_eq!(table, [2, 5, 0]);
    let mut table = [2, 5, 7];
    assert_eq!(reset(&mut table, 0, 5), is(Waiting, 2));
    assert_eq!(table, [2, 5, 1]);
}

#[test]
fn entries_do_not_touch_each_other() {
    let mut table = FRESH.repeat(3);
    beat(&mut table, 1, 4).unwrap();
    look(&mut table, 1).unwrap();
    reset(&mut table, 2, 6).unwrap();
    assert_eq!(table, [2, 0, 1, 5, 0, 0, 2, 6, 1]);
}

/// Every call on a table of this many numbers, each as good as the table lets.
fn all(length: usize, entry: u32) -> [Result<Watched, Refused>; 4] {
    let mut table = vec![1; length];
    let status = status(&table, entry);
    let answers = [
        look(&mut table, entry),
        beat(&mut table, entry, 1_000_000),
        reset(&mut table, entry, u32::MAX),
        status,
    ];
    let refused = answers.iter().all(|answer| answer.is_err());
    assert!(!refused || table.iter().all(|&number| number == 1));
    answers
}

#[test]
fn tables_and_entries_that_are_refused() {
    let refused = [Err(Refused::plain(13)); 4];
    for (length, entry) in [(3, 0), (6, 1), (96, 0), (96, 31)] {
        assert!(all(length, entry).iter().all(|answer| answer.is_ok()));
    }
    for length in [0, 1, 2, 4, 5, 95, 97, 98, 99, 192] {
        assert_eq!(all(length, 0), refused, "{length}");
    }
    for (length, entry) in [(3, 1), (96, 32), (96, u32::MAX), (96, 0x5555_5556)] {
        assert_eq!(all(length, entry), refused, "{entry}");
    }
}

#[test]
fn values_and_windows_that_are_refused() {
    let mut table = FRESH;
    for value in [1_000_001, u32::MAX] {
        assert_eq!(beat(&mut table, 0, value), Err(Refused::plain(13)));
    }
    assert_eq!(reset(&mut table, 0, 0), Err(Refused::plain(13)));
    assert_eq!(table, FRESH);
    assert_eq!(beat(&mut table, 0, 1_000_000), is(Well, 1_000_002));
}

/// The factorial's BEATs in steady periods, with looks in every phase.
#[test]
fn steady_periods_never_fail() {
    for period in 143..=200 {
        let settings = bench_settings(period);
        let file = prepared(&settings, &bench::factorial()).unwrap();
        let (made, ended) =
            beats(&settings, Form::Laid, file.as_flattened(), &[0; 16], &[6; 8]).unwrap();
        assert_eq!(ended, Ended { tick: 143, overran: false });
        assert_eq!(made.len(), 8);
        for phase in 0..20 {
            let mut table = FRESH;
            reset(&mut table, 0, 20).unwrap();
            for tick in 0..4 * period {
                let ends =
                    |made: &&Beat| tick >= made.end && (tick - made.end).is_multiple_of(period);
                if let Some(ended) = made.iter().find(ends) {
                    beat(&mut table, 0, ended.value).unwrap();
                }
                if tick % 20 == phase {
                    look(&mut table, 0).unwrap();
                }
                assert_ne!(status(&table, 0).unwrap().health, Failed);
            }
        }
    }
}
