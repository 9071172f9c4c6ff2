//! Running, stopping and taking up.

use super::*;

fn ended(tick: u32, overran: bool) -> Result<Ended, Refused> {
    Ok(Ended { tick, overran })
}

#[test]
fn operations_wrap() {
    let settings = bench_settings(100);
    let task = [
        set(0, 0, 0, u32::MAX),
        set(1, 1, 0, 2),
        set(18, 2, 1, 0),
        set(19, 3, 0, 0),
        set(16, 4, 0, 0),
        set(3, 5, 0, 3),
        set(2, 6, 7, 1),
    ];
    let mut bench = Bench::new();
    assert_eq!(bench.run(&settings, Form::Task, &task), ended(21, false));
    let expected = [u32::MAX, 1, 2, 1, u32::MAX, u32::MAX - 2, u32::MAX];
    assert_eq!(bench.variables[..7], expected);
    assert_eq!((bench.levels, bench.marks), ([0; 8], [0; 8]));
}

#[test]
fn relations_are_unsigned() {
    let settings = bench_settings(100);
    // Left is variable 0, right variable 1: below, equal, above.
    let pairs = [(1, u32::MAX), (5, 5), (0x8000_0000, 3)];
    let table = [
        [false, true, false],
        [true, false, true],
        [true, false, false],
        [true, true, false],
        [false, false, true],
        [false, true, true],
    ];
    for (relation, row) in (0..).zip(table) {
        for ((left, right), holds) in pairs.into_iter().zip(row) {
            for check in [test(CHECK, relation, 0, right, 0), test(CHECK, 16 + relation, 0, 1, 0)] {
                let mut bench = Bench::new();
                bench.variables[..2].copy_from_slice(&[left, right]);
                assert_eq!(bench.run(&settings, Form::Laid, &[check]), ended(1, holds));
            }
        }
    }
}

#[test]
fn ports_and_outputs() {
    let settings = settings([1, 2, 4, 1, 1], 1, 9, 100);
    let task = [read(15, 7), write(15, 2), read(15, 6), write(15, 5), write(14, 2)];
    let mut bench = Bench::new();
    bench.inputs = [0, 1, 2, 3, 4, 5, 66, 77];
    bench.variables[14] = 9;
    assert_eq!(bench.run(&settings, Form::Task, &task), ended(16, false));
    assert_eq!(bench.levels, [0, 0, 9, 0, 0, 66, 0, 0]);
    assert_eq!(bench.marks, [0, 0, 1, 0, 0, 1, 0, 0]);
    assert_eq!(bench.variables[15], 66);
}

#[test]
fn loops_within_loops() {
    let settings = bench_settings(10_000);
    // Variable 2 counts the inner rounds; the inner loop starts afresh each time.
    let task = [
        test(WHILE, 2, 0, 3, 3),
        set(0, 1, 0, 0),
        test(WHILE, 2, 1, 4, 4),
        set(1, 1, 1, 1),
        set(1, 2, 2, 1),
        bare(END),
        set(1, 0, 0, 1),
        bare(END),
        write(2, 0),
    ];
    let even = equalised(&settings, &task).unwrap();
    let ready = prepared(&settings, &task).unwrap();
    for (form, file) in [(Form::Task, &task[..]), (Form::Equalised, &even), (Form::Laid, &ready)] {
        let mut bench = Bench::new();
        let run = bench.run(&settings, form, file).unwrap();
        assert!(!run.overran);
        assert_eq!(bench.levels[0], 12);
    }
    assert_eq!(
        Bench::new().run(&settings, Form::Task, &task),
        ended(3 * (1 + 3 + 29 + 3) + 1 + 3, false)
    );
}

#[test]
fn overrun_within_a_side() {
    let settings = bench_settings(1_000);
    let task = [
        write(3, 0),
        test(IF, 0, 0, 0, 0),
        test(WHILE, 0, 0, 0, 2),
        set(1, 3, 3, 1),
        bare(END),
        bare(ELSE),
        skip(2),
        bare(END),
        write(3, 0),
    ];
    let ready = prepared(&settings, &task).unwrap();
    for (form, file, tick) in [(Form::Task, &task[..], 13), (Form::Laid, &ready, 31)] {
        let mut bench = Bench::new();
        bench.variables[3] = 5;
        let run = bench.run(&settings, form, file).unwrap();
        assert_eq!(run, Ended { tick, overran: true });
        assert_eq!((bench.variables[3], bench.levels[0]), (7, 5));
        let mut other = Bench::new();
        other.variables[0] = 1;
        assert!(!other.run(&settings, form, file).unwrap().overran);
    }
}

#[test]
fn stopping_between_steps() {
    let settings = bench_settings(100);
    let task = [set(0, 0, 0, 4), write(0, 3), skip(5)];
    let stop_at = |stop| {
        let mut bench = Bench::new();
        let stopped = bench.until(&settings, Form::Task, &task, stop);
        (stopped.map_err(|refused| refused.number), bench)
    };
    for stop in 0..11 {
        let (stopped, bench) = stop_at(stop);
        assert_eq!(stopped, Ok(Stopped { tick: stop, saved: false }));
        assert_eq!(bench.variables[0], if stop < 3 { 0 } else { 4 });
        assert_eq!(bench.levels[3], if stop < 6 { 0 } else { 4 });
        assert_eq!(bench.marks, [0, 0, 0, u8::from(stop >= 6), 0, 0, 0, 0]);
        assert_eq!(bench.image, [0x5A; 72]);
    }
    for stop in [11, 12, u32::MAX] {
        assert_eq!(stop_at(stop), (Err(12), Bench::new()));
    }
    let mut bench = Bench::new();
    assert_eq!(bench.until(&settings, Form::Task, &[], 0), Err(Refused::plain(12)));
    assert_eq!(bench, Bench::new());
}

#[test]
fn stop_past_an_overrun() {
    let settings = bench_settings(100);
    let task = [test(WHILE, 0, 0, 0, 2), skip(1), bare(END), skip(30)];
    let mut bench = Bench::new();
    assert_eq!(bench.until(&settings, Form::Task, &task, 5), Err(Refused::plain(12)));
    let stopped = Ok(Stopped { tick: 4, saved: false });
    assert_eq!(bench.until(&settings, Form::Task, &task, 4), stopped);
}

/// An IF at the start, with a SAVE in each side and different SETs after it.
fn two_sides() -> Vec<Raw> {
    vec![
        beat(1),
        bare(SAVE),
        test(IF, 0, 0, 0, 0),
        bare(SAVE),
        set(0, 5, 0, 50),
        bare(ELSE),
        bare(SAVE),
        set(0, 5, 0, 60),
        bare(END),
        write(5, 1),
        bare(SAVE),
    ]
}

#[test]
fn taking_up_inside_a_side() {
    let settings = bench_settings(100);
    let file = two_sides();
    for (first, at, level) in [(0, 4, 50), (1, 7, 60)] {
        let mut bench = Bench::new();
        bench.variables[0] = first;
        let stopped = bench.until(&settings, Form::Laid, &file, 26);
        assert_eq!(stopped, Ok(Stopped { tick: 26, saved: true }));
        assert_eq!((bench.image_word(0), bench.image_word(1)), (at, 24));
        assert_eq!(bench.image_word(2), first);
        bench.variables = [99; 16];
        assert_eq!(bench.resume(&settings, Form::Laid, &file), ended(40, false));
        assert_eq!((bench.variables[0], bench.variables[5]), (first, level));
        assert_eq!(bench.levels, [0, level, 0, 0, 0, 0, 0, 0]);
    }
}

#[test]
fn stop_at_the_end_of_a_save() {
    let settings = bench_settings(100);
    for (stop, saved, tick) in [(12, false, 0), (13, true, 13), (23, true, 13), (24, true, 24)] {
        let mut bench = Bench::new();
        let stopped = bench.until(&settings, Form::Laid, &two_sides(), stop);
        assert_eq!(stopped, Ok(Stopped { tick: stop, saved }));
        if saved {
            assert_eq!(bench.image_word(1), tick);
        } else {
            assert_eq!(bench.image, [0x5A; 72]);
        }
    }
}

#[test]
fn images_taken_and_turned_down() {
    let settings = bench_settings(100);
    let file = two_sides();
    let with = |at: u32, tick: u32| {
        let mut bench = Bench::new();
        bench.image = [0; 72];
        bench.image[..4].copy_from_slice(&at.to_le_bytes());
        bench.image[4..8].copy_from_slice(&tick.to_le_bytes());
        bench
    };
    for at in [0, 1, 3, 5, 6, 8, 9, 10, 12, u32::MAX] {
        let mut bench = with(at, 3);
        assert_eq!(bench.resume(&settings, Form::Laid, &file), Err(Refused::plain(11)));
        assert_eq!(bench, with(at, 3));
    }
    assert_eq!(with(2, 101).resume(&settings, Form::Laid, &file), Err(Refused::plain(11)));
    // At the period still good; the end tick counts on from there.
    let mut bench = with(11, 100);
    assert_eq!(bench.resume(&settings, Form::Laid, &file), ended(100, false));
    assert_eq!((bench.levels, bench.marks), ([77; 8], [7; 8]));
    let mut bench = with(2, 100);
    assert_eq!(bench.resume(&settings, Form::Laid, &file), ended(127, false));
    assert_eq!((bench.levels[0], bench.marks[0]), (77, 7));
    assert_eq!((bench.levels[1], bench.marks[1]), (50, 1));
    let task = [skip(1)];
    for form in [Form::Task, Form::Equalised] {
        assert_eq!(with(1, 0).resume(&settings, form, &task), Err(Refused::plain(11)));
    }
}

#[test]
fn restarting_keeps_outputs() {
    let settings = bench_settings(100);
    let mut bench = Bench::new();
    bench.variables[5] = 3;
    assert_eq!(bench.restart(&settings, Form::Task, &[write(5, 1)]), ended(3, false));
    assert_eq!(bench.levels, [77, 3, 77, 77, 77, 77, 77, 77]);
    assert_eq!(bench.marks, [7, 1, 7, 7, 7, 7, 7, 7]);
}
