//! Settings in two records.

use super::bench::factorial;
use super::*;

/// The two records of the numbers that one record holds.
fn widened(settings: &Raw) -> [u8; 24] {
    let [set, read, write, beat, save, k, low, high, period @ ..] = *settings;
    let ticks = [set, read, write, beat, save].map(u16::from);
    let h = u16::from_le_bytes([low, high]).into();
    wide(ticks, k.into(), h, u32::from_le_bytes(period))
}

fn taken(settings: &[u8]) -> Result<u32, Refused> {
    time_file(settings, Form::Task, &[])
}

#[test]
fn each_number_has_its_place() {
    let settings = wide([258, 515, 772, 1_029, 1_286], 1_543, 66_051, 1_000_000);
    let steps = [(set(0, 0, 0, 0), 258), (read(0, 0), 515), (write(0, 0), 772)];
    for (step, ticks) in steps.into_iter().chain([(beat(1), 1_029), (bare(SAVE), 1_286)]) {
        assert_eq!(time_file(&settings, Form::Laid, &step), Ok(ticks));
    }
    let windows = (1_000_000u32 - 66_051 - 1_029).div_ceil(66_051);
    let expected = vec![beat(1), bare(SAVE), skip(66_051 - 1_029 - 1_286), beat(windows)];
    assert_eq!(prepared(&settings, &[]), Ok(expected));
}

#[test]
fn the_spacing_is_in_windows() {
    let settings = wide([1, 1, 1, 1, 1], 256, 4, 5_000);
    let ready = prepared(&settings, &[skip(1_200)]).unwrap();
    let listing = list(&settings, &skip(1_200));
    let saves = listing.lines().filter(|line| line.ends_with("SAVE"));
    assert_eq!(saves.collect::<Vec<&str>>(), ["1 SAVE", "1025 SAVE"]);
    assert_eq!(ready.iter().filter(|record| record[0] == SAVE).count(), 2);
}

#[test]
fn lengths() {
    let good = wide([1; 5], 1, 1, 1);
    assert_eq!(taken(&good), Ok(0));
    let longer = [good, good].concat();
    for length in (0..=48).filter(|length| ![12, 24].contains(length)) {
        assert_eq!(taken(&longer[..length]), Err(Refused::plain(6)));
    }
}

#[test]
fn numbers_at_the_limits() {
    let (most, limit) = (u16::MAX, 1_000_000);
    for good in [wide([most; 5], most, limit, limit), wide([256; 5], 256, 65_536, 1)] {
        assert_eq!(taken(&good), Ok(0));
    }
    let least = wide([1; 5], 1, 1, 1);
    for number in [0, limit + 1, 1 << 24, 1 << 31, u32::MAX] {
        for bad in [wide([1; 5], 1, number, 1), wide([1; 5], 1, 1, number)] {
            assert_eq!(taken(&bad), Err(Refused::plain(6)));
        }
    }
    for place in 0..6 {
        let mut low = least;
        low[2 * place] = 0;
        assert_eq!(taken(&low), Err(Refused::plain(6)));
        low[2 * place + 1] = 1;
        assert_eq!(taken(&low), Ok(0));
    }
    for multiply in [0, 65_536, 65_537, 1 + (1 << 24), 1 << 31, u32::MAX] {
        assert_eq!(taken(&multiplying(least, multiply)), Err(Refused::plain(6)));
    }
    for multiply in [1, 255, 256, 65_535] {
        assert_eq!(taken(&multiplying(least, multiply)), Ok(0));
    }
}

#[test]
fn one_record_is_read_as_two() {
    let tasks = [vec![], factorial(), vec![skip(101)], vec![bare(END)]];
    let all = [bench_settings(200), settings([255; 5], 255, 65_535, 1_000_000)];
    let narrow = settings([3, 3, 3, 3, 10], 4, 15, 200);
    for settings in all.into_iter().chain([narrow, bench_settings(100), bench_settings(0)]) {
        let two = widened(&settings);
        for task in &tasks {
            assert_eq!(equalised(&two, task), equalised(&settings, task));
            assert_eq!(prepared(&two, task), prepared(&settings, task));
            let (task, form) = (task.as_flattened(), Form::Task);
            assert_eq!(time_file(&two, form, task), time_file(&settings, form, task));
            assert_eq!(list(&two, task), list(&settings, task));
        }
    }
}

#[test]
fn one_record_runs_as_two() {
    let settings = bench_settings(200);
    let two = widened(&settings);
    let ready = prepared(&two, &factorial()).unwrap();
    for stop in 0..=143 {
        let mut benches = [Bench::fed(5), Bench::fed(5)];
        let [one, other] = &mut benches;
        let stopped = one.until(&settings, Form::Laid, &ready, stop);
        assert_eq!(other.until(&two, Form::Laid, &ready, stop), stopped);
        assert_eq!(one, other);
        let ended = one.resume(&settings, Form::Laid, &ready);
        assert_eq!(other.resume(&two, Form::Laid, &ready), ended);
        assert_eq!(one, other);
    }
}

#[test]
fn the_longest_steps() {
    let with = |h, p| wide([65_535; 5], 65_535, h, p);
    let steps = [set(0, 0, 0, 0), read(0, 0), write(0, 0)];
    let [first, second, third] = steps;
    let expected = vec![beat(1), bare(SAVE), first, beat(1), second, third, beat(3)];
    assert_eq!(prepared(&with(196_605, 1_000_000), &steps), Ok(expected));
    assert_eq!(prepared(&with(196_604, 1_000_000), &steps), Err(Refused::plain(7)));
    // Two windows and the last BEAT.
    assert!(prepared(&with(196_605, 458_745), &steps).is_ok());
    assert_eq!(prepared(&with(196_605, 458_744), &steps), Err(Refused::plain(8)));
}

/// K × H is 2^32, or H or 2 × H above it. Taken modulo 2^32 it would put
/// SAVEs into the laid file.
#[test]
fn a_spacing_that_no_period_reaches() {
    let pairs = [(16_384, 262_144), (16_385, 262_144), (32_769, 131_072), (32_770, 131_072)];
    for (k, h) in pairs.into_iter().chain([(32_769, 393_216), (65_535, 333_333)]) {
        let settings = wide([1; 5], k, h, 1_000_000);
        let ready = laid(&settings, &[skip(2 * h - 4), write(0, 0)]);
        let windows = (1_000_000 - 2 * h - 1).div_ceil(h);
        let second = [beat(1), skip(h - 2), write(0, 0), beat(windows)];
        let expected = [vec![beat(1), bare(SAVE), skip(h - 2)], second.to_vec()].concat();
        assert_eq!(ready, Ok(expected));
    }
}

#[test]
fn a_window_above_the_period() {
    let settings = wide([1; 5], 1, 101, 100);
    assert_eq!(equalised(&settings, &[skip(100)]), Ok(vec![skip(100)]));
    assert_eq!(prepared(&settings, &[]), Err(Refused::plain(8)));
    assert_eq!(list(&settings, &[]), "refused 8\n");
}

/// With one tick beside the commands of a window this SKIP would last
/// 131,071,000,000 ticks.
#[test]
fn a_skip_that_outlasts_any_number() {
    let settings = wide([1, 1, 1, 65_535, 65_535], 1, 131_071, 1_000_000);
    let long = skip(1_000_000);
    let sides = [test(IF, 0, 0, 0, 0), skip(999_999), bare(ELSE), bare(END)];
    assert_eq!(laid(&settings, &[long]), Err(Refused::plain(8)));
    assert_eq!(laid(&settings, &sides), Err(Refused::plain(8)));
    assert_eq!(prepared(&settings, &sides), Err(Refused::plain(8)));
}

/// A dosing head that takes 900 ticks: the second WRITE waits for a window.
#[test]
fn slow_pumps() {
    let settings = wide([3, 3, 900, 3, 10], 2, 1_000, 10_000);
    let task = [read(0, 0), write(0, 0), write(0, 1)];
    let expected = "0 BEAT 1\n3 SAVE\n13 READ 0 0\n16 WRITE 0 0\n916 SKIP 84\n1000 BEAT 1\n\
        1003 WRITE 0 1\n1903 SKIP 97\n2000 BEAT 8\n2003 end\n";
    assert_eq!(list(&settings, task.as_flattened()), expected);
}
