use super::{ended, stopped, timed, watched, written, Ended, Health, Stopped, Watched, Written};
use crate::Refusal;

fn finished(first: u64, second: u64, flags: u64) -> u64 {
    first | second << 24 | flags << 56
}

fn refused(number: u64, value: u64) -> u64 {
    1 << 63 | number << 56 | value
}

#[test]
fn one_value() {
    assert_eq!(timed(finished(0, 0, 0)), Ok(0));
    assert_eq!(timed(finished(1_000_000, 0, 0)), Ok(1_000_000));
    // The widest that 24 bits hold.
    assert_eq!(timed(finished(0xff_ffff, 0, 0)), Ok(0xff_ffff));
}

#[test]
fn two_values() {
    let (bytes, time) = (65_532, 1_000_000);
    assert_eq!(
        written(finished(65_532, 1_000_000, 0)),
        Ok(Written { bytes, time })
    );
    // Neither value runs into the other.
    let (bytes, time) = (0, u32::MAX);
    assert_eq!(
        written(finished(0, 0xffff_ffff, 0)),
        Ok(Written { bytes, time })
    );
}

#[test]
fn flags() {
    let tick = 23;
    for (flag, overran) in [(0, false), (1, true)] {
        assert_eq!(ended(finished(23, 0, flag)), Ok(Ended { tick, overran }));
    }
    for (flag, saved) in [(0, false), (2, true)] {
        assert_eq!(stopped(finished(23, 0, flag)), Ok(Stopped { tick, saved }));
    }
}

#[test]
fn healths() {
    let all = [
        Health::Waiting,
        Health::Well,
        Health::Suspect,
        Health::Failed,
    ];
    for (number, health) in (0..).zip(all) {
        assert_eq!(health as u64, number);
        for left in [0, 2, u32::MAX] {
            let word = finished(number, left.into(), 0);
            assert_eq!(watched(word), Ok(Watched { health, left }));
        }
    }
}

#[test]
fn refusals_with_a_value() {
    let names = [
        Refusal::BadLength,
        Refusal::BadKind,
        Refusal::BadField,
        Refusal::BadStructure,
        Refusal::TooDeep,
    ];
    for (number, name) in (1..).zip(names) {
        for value in [0, 7, (1 << 56) - 1] {
            let refusal = timed(refused(number, value)).unwrap_err();
            assert_eq!(refusal, name(value));
            assert_eq!(u64::from(refusal.number()), number);
            assert_eq!(refusal.value(), Some(value));
        }
    }
}

#[test]
fn refusals_alone() {
    let names = [
        Refusal::BadSettings,
        Refusal::ShortWindow,
        Refusal::OverPeriod,
        Refusal::NoRoom,
        Refusal::BadBuffers,
        Refusal::BadImage,
        Refusal::LateStop,
        Refusal::BadEntry,
    ];
    for (number, name) in (6..).zip(names) {
        let refusal = written(refused(number, 0)).unwrap_err();
        assert_eq!(refusal, name);
        assert_eq!(u64::from(refusal.number()), number);
        assert_eq!(refusal.value(), None);
    }
}

#[test]
fn every_answer_can_be_refused() {
    let word = refused(8, 0);
    assert_eq!(timed(word), Err(Refusal::OverPeriod));
    assert_eq!(written(word), Err(Refusal::OverPeriod));
    assert_eq!(ended(word), Err(Refusal::OverPeriod));
    assert_eq!(stopped(word), Err(Refusal::OverPeriod));
    assert_eq!(watched(word), Err(Refusal::OverPeriod));
}

/// What no library of this version answers is handed on, not dropped.
#[test]
fn strange_refusals() {
    for (number, value) in [(0, 0), (6, 1), (13, 1), (14, 0), (127, 9)] {
        let refusal = ended(refused(number, value)).unwrap_err();
        assert_eq!(u64::from(refusal.number()), number);
        assert_eq!(refusal.value(), Some(value));
        assert!(matches!(refusal, Refusal::Other { .. }));
    }
}

#[test]
#[should_panic(expected = "a second value")]
fn a_second_value_of_a_time() {
    let _ = timed(finished(1, 1, 0));
}

#[test]
#[should_panic(expected = "a flag")]
fn a_flag_of_a_file() {
    let _ = written(finished(12, 1, 1));
}

#[test]
#[should_panic(expected = "a flag")]
fn the_flag_of_a_stop_at_an_end() {
    let _ = ended(finished(1, 0, 2));
}

#[test]
#[should_panic(expected = "a flag")]
fn the_flag_of_an_end_at_a_stop() {
    let _ = stopped(finished(1, 0, 1));
}

#[test]
#[should_panic(expected = "a flag")]
fn a_flag_of_an_entry() {
    let _ = watched(finished(1, 2, 1));
}

#[test]
#[should_panic(expected = "no health")]
fn a_fifth_health() {
    let _ = watched(finished(4, 2, 0));
}
