//! The bench tasks.

use super::*;

/// Multiply, then decrement, at most ten rounds.
pub(crate) fn factorial() -> Vec<Raw> {
    vec![
        read(0, 0),
        test(IF, 4, 0, 10, 0),
        set(0, 0, 0, 10),
        set(0, 1, 0, 1),
        bare(ELSE),
        set(0, 1, 0, 1),
        bare(END),
        test(WHILE, 4, 0, 0, 10),
        set(19, 1, 1, 0),
        set(2, 0, 0, 1),
        bare(END),
        write(1, 0),
    ]
}

/// The lines of this name by tick; two sides may hold the same one.
fn lines_of(listing: &str, name: &str) -> Vec<String> {
    let wanted = |line: &&str| line.split(' ').nth(1) == Some(name);
    let tick = |line: &String| line.split(' ').next().unwrap().parse::<u32>().unwrap();
    let mut lines: Vec<String> = listing.lines().filter(wanted).map(str::to_string).collect();
    lines.sort_by_key(tick);
    lines.dedup();
    lines
}

#[test]
fn a_empty_task() {
    let settings = bench_settings(100);
    let expected = vec![beat(1), bare(SAVE), skip(7), beat(4)];
    assert_eq!(prepared(&settings, &[]), Ok(expected));
    let mut out = [0; 48];
    assert_eq!(lay_out(&settings, &[], &mut out), Ok(Written { bytes: 48, time: 23 }));
    assert_eq!(equalise(&settings, &[], &mut []), Ok(Written { bytes: 0, time: 0 }));
}

#[test]
fn b_listing() {
    let task = [read(0, 0), write(0, 0)];
    let expected = "0 BEAT 1\n3 SAVE\n13 READ 0 0\n16 WRITE 0 0\n19 SKIP 1\n20 BEAT 4\n23 end\n";
    assert_eq!(list(&bench_settings(100), task.as_flattened()), expected);
}

#[test]
fn c_factorial() {
    let settings = bench_settings(200);
    let task = factorial();
    assert_eq!(time_file(&settings, Form::Task, task.as_flattened()), Ok(84));
    let listing = list(&settings, task.as_flattened());
    let beats: Vec<String> = (0..8)
        .map(|beat| format!("{} BEAT {}", beat * 20, if beat == 7 { 3 } else { 1 }))
        .collect();
    assert_eq!(lines_of(&listing, "SAVE"), ["3 SAVE", "83 SAVE"]);
    assert_eq!(lines_of(&listing, "WRITE"), ["124 WRITE 1 0"]);
    assert!(listing.ends_with("\n140 BEAT 3\n143 end\n"));
    assert_eq!(lines_of(&listing, "BEAT"), beats);
}

#[test]
fn c_equalised() {
    let settings = bench_settings(200);
    let expected = vec![
        read(0, 0),
        test(IF, 4, 0, 10, 0),
        set(0, 0, 0, 10),
        set(0, 1, 0, 1),
        bare(ELSE),
        set(0, 1, 0, 1),
        skip(3),
        bare(END),
        test(TIMES, 4, 0, 0, 10),
        test(IF, 4, 0, 0, 0),
        set(19, 1, 1, 0),
        set(2, 0, 0, 1),
        bare(ELSE),
        skip(6),
        bare(END),
        bare(END),
        write(1, 0),
    ];
    assert_eq!(equalised(&settings, &factorial()), Ok(expected.clone()));
    let file = expected.as_flattened();
    assert_eq!(time_file(&settings, Form::Equalised, file), Ok(84));
}

#[test]
fn c_results() {
    let settings = bench_settings(200);
    let task = factorial();
    let even = equalised(&settings, &task).unwrap();
    let ready = prepared(&settings, &task).unwrap();
    for (input, result) in [(0, 1), (1, 1), (3, 6), (10, 3_628_800), (12, 3_628_800)] {
        for (form, file) in [(Form::Task, &task), (Form::Equalised, &even), (Form::Laid, &ready)] {
            let mut bench = Bench::fed(input);
            let ended = bench.run(&settings, form, file).unwrap();
            assert!(!ended.overran);
            match form {
                Form::Task => assert!(ended.tick <= 84),
                Form::Equalised => assert_eq!(ended.tick, 84),
                Form::Laid => assert_eq!(ended.tick, 143),
            }
            assert_eq!(bench.levels, [result, 0, 0, 0, 0, 0, 0, 0]);
            assert_eq!(bench.marks, [1, 0, 0, 0, 0, 0, 0, 0]);
        }
    }
}

#[test]
fn d_and_e_period() {
    let listing = list(&bench_settings(143), factorial().as_flattened());
    assert!(listing.ends_with("\n140 BEAT 0\n143 end\n"));
    let refused = prepared(&bench_settings(142), &factorial());
    assert_eq!(refused, Err(Refused::plain(8)));
    assert_eq!(list(&bench_settings(142), factorial().as_flattened()), "refused 8\n");
}

#[test]
fn f_and_g_window() {
    let with = |h| settings([3, 3, 3, 3, 10], 4, h, 100);
    let expected = vec![beat(1), bare(SAVE), skip(3), beat(6)];
    assert_eq!(prepared(&with(16), &[]), Ok(expected));
    assert_eq!(prepared(&with(15), &[]), Err(Refused::plain(7)));
    assert_eq!(list(&with(15), &[]), "refused 7\n");
}

#[test]
fn h_test_ends_on_the_window() {
    let settings = bench_settings(100);
    let task =
        [read(0, 0), set(1, 1, 0, 5), test(IF, 2, 1, 9, 0), set(0, 2, 0, 8), bare(ELSE), bare(END)];
    assert_eq!(time_file(&settings, Form::Task, task.as_flattened()), Ok(10));
    let expected = "0 BEAT 1\n3 SAVE\n13 READ 0 0\n16 SET 1 1 0 5\n19 IF 2 0 1 9\n\
        20 BEAT 1\n23 SET 0 2 0 8\n20 ELSE\n20 BEAT 1\n23 SKIP 3\n26 END\n\
        26 SKIP 14\n40 BEAT 3\n43 end\n";
    assert_eq!(list(&settings, task.as_flattened()), expected);
}

#[test]
fn i_write_waits() {
    let task = [read(0, 0), read(1, 1), write(0, 0)];
    let expected = "0 BEAT 1\n3 SAVE\n13 READ 0 0\n16 READ 1 1\n19 SKIP 1\n20 BEAT 1\n\
        23 WRITE 0 0\n26 SKIP 14\n40 BEAT 3\n43 end\n";
    assert_eq!(list(&bench_settings(100), task.as_flattened()), expected);
}

#[test]
fn j_overrun() {
    let settings = bench_settings(100);
    let task = [test(WHILE, 0, 0, 0, 2), skip(1), bare(END)];
    let even = equalised(&settings, &task).unwrap();
    let ready = prepared(&settings, &task).unwrap();
    let over = |tick| Ok(Ended { tick, overran: true });
    assert_eq!(Bench::new().run(&settings, Form::Task, &task), over(5));
    assert_eq!(Bench::new().run(&settings, Form::Equalised, &even), over(5));
    assert_eq!(Bench::new().run(&settings, Form::Laid, &ready), over(18));
}

#[test]
fn k_taking_up() {
    let settings = bench_settings(200);
    let ready = prepared(&settings, &factorial()).unwrap();
    let mut whole = Bench::fed(7);
    whole.run(&settings, Form::Laid, &ready).unwrap();
    for (stop, from) in [(92, Some(13)), (93, Some(93)), (12, None), (13, Some(13))] {
        let mut bench = Bench::fed(7);
        let stopped = bench.until(&settings, Form::Laid, &ready, stop);
        assert_eq!(stopped, Ok(Stopped { tick: stop, saved: from.is_some() }));
        let ended = match from {
            Some(tick) => {
                assert_eq!(bench.image_word(1), tick);
                bench.resume(&settings, Form::Laid, &ready)
            }
            None => {
                assert_eq!(bench.image, [0x5A; 72]);
                bench.variables = Bench::fed(7).variables;
                bench.restart(&settings, Form::Laid, &ready)
            }
        };
        assert_eq!(ended, Ok(Ended { tick: 143, overran: false }));
        assert_eq!(bench.variables, whole.variables);
        assert_eq!((bench.levels, bench.marks), (whole.levels, whole.marks));
    }
}

#[test]
fn nesting_and_length() {
    let settings = bench_settings(100);
    let nested = |depth: usize| {
        let open = std::iter::repeat_n(test(IF, 0, 0, 0, 0), depth);
        let close = std::iter::repeat_n([bare(ELSE), bare(END)], depth);
        open.chain(close.flatten()).collect::<Vec<Raw>>()
    };
    assert_eq!(time_file(&settings, Form::Task, nested(8).as_flattened()), Ok(8));
    assert!(prepared(&settings, &nested(8)).is_ok());
    let refused = time_file(&settings, Form::Task, nested(9).as_flattened());
    assert_eq!(refused, Err(Refused::at(5, 8)));
    assert_eq!(time_file(&settings, Form::Task, &[0; 11]), Err(Refused::at(1, 11)));
    for form in [Form::Equalised, Form::Laid] {
        assert_eq!(time_file(&settings, form, nested(16).as_flattened()), Ok(16));
        let refused = time_file(&settings, form, nested(17).as_flattened());
        assert_eq!(refused, Err(Refused::at(5, 16)));
    }
}
